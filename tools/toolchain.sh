# Sourced by what builds a C program or needs a tool of the Rattle kit, from the top of the repository, once it has defined
# `die`.

# Sets kit, the folder of the Rattle kit.
find_kit() {
    rt=$(command -v rt) || die "rt is missing: it is not on the PATH"
    kit=$(dirname "$(dirname "$(readlink -f "$rt")")")
}

# Prints where a tool stands, once the kit is found: in the kit, whose tools are x86-64 code, or, elsewhere or where the kit
# lacks it, on the PATH.
tool() { # NAME
    if [ "$(uname -m)" = x86_64 ] && [ -x "$kit/toolchain/bin/$1" ]; then echo "$kit/toolchain/bin/$1"; else command -v "$1"; fi ||
        die "$1 is missing: it is neither in the Rattle kit, at $kit/toolchain/bin, nor on the PATH"
}

# Compiles C for x86-64 with the kit's clang, once the kit is found. The kit has no headers: those of tools/headers serve.
compile_bare() { # ARGUMENT...
    clang=$(tool clang) || exit 2
    "$clang" --target=x86_64-unknown-linux-gnu -std=c11 -O2 -Wall -Wextra -Wpedantic -Werror -nostdinc \
        -isystem tools/headers -I include "$@"
}

# Sets what run_with_kit needs, once the kit is found: parts, the folder of its C library, and emulator, which runs x86-64 code
# on another processor and is empty on x86-64.
find_runner() {
    parts=$kit/toolchain/lib emulator=''
    [ "$(uname -m)" = x86_64 ] || emulator=$(tool qemu-x86_64) || exit 2
}

# Runs an x86-64 program with the kit's C library, whatever this machine has.
run_with_kit() { # PROGRAM ARGUMENT...
    ${emulator:+"$emulator"} "$parts/ld-linux-x86-64.so.2" --library-path "$parts" "$@"
}
