# Sourced by what runs the C examples, from the top of the repository, once it has defined `die` and sourced
# tools/library.sh and tools/toolchain.sh.
#
# build_example makes a program from examples/c/PROGRAM.c and, where that calls it, the library, which is x86-64 code: on x86-64
# with cc and its C library; where there is no cc, with the compiler, the linker and the C library of the Rattle kit; on another
# processor with its C library, and a compiler, a linker and an emulator from the PATH. run_example runs it, once it is made, from whatever folder.
out=$PWD/target/example

build_example() { # PROGRAM
    source=examples/c/$1.c program=$out/$1
    called_library=''
    if grep -q 'zg_[a-z_]*(' "$source"; then
        need_library
        called_library=$library
    fi
    mkdir -p "$out" || die "$out cannot be made"
    # A program that runs is not written over: it may be another's in the same pipeline.
    made=$program.$$
    if [ "$(uname -m)" = x86_64 ] && command -v cc >/dev/null; then
        cc -std=c11 -O2 -Wall -Wextra -Wpedantic -I include "$source" ${called_library:+"$called_library"} -o "$made" ||
            die "$1 was not built"
        run_built() { "$@"; }
    else
        build_with_kit "$1"
        run_built() { run_with_kit "$@"; }
    fi
    mv "$made" "$program" || die "$program cannot be made"
}

run_example() { # PROGRAM ARGUMENT...
    built=$out/$1
    shift
    run_built "$built" "$@"
}

# Needs no header and no library of this machine, so it is the same on every one.
build_with_kit() { # PROGRAM
    find_kit
    linker=$(tool ld.lld) || exit 2
    find_runner
    compile_bare -fPIE -c "$source" -o "$made.o" || die "$1 was not built"
    "$linker" -pie -dynamic-linker /lib64/ld-linux-x86-64.so.2 -o "$made" "$parts/Scrt1.o" "$parts/crti.o" \
        "$parts/crtbeginS.o" "$made.o" ${called_library:+"$called_library"} "$parts/libc.so.6" "$parts/libc_nonshared.a" \
        "$parts/crtendS.o" "$parts/crtn.o" || die "$1 was not linked"
    rm "$made.o"
}
