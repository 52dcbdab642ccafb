# Sourced by what builds a Rust program, from the top of the repository, once it has defined `die`. Sets rustc, the compiler on
# the PATH or where rustup puts it for its user, and host, what it makes programs for.
home=${HOME:-$(getent passwd "$(id -u)" | cut -d: -f6)}
rustc=$(command -v rustc) || rustc=${CARGO_HOME:-$home/.cargo}/bin/rustc
host=$("$rustc" -vV 2>/dev/null | sed -n 's/^host: //p')
[ -n "$host" ] || die "rustc is missing: it is neither on the PATH nor where rustup puts it, or does not run"

# Whether the programs that rustc makes can be linked with the compiled library; and what to say where they can't.
other_processor="libdoor.a is x86-64 code, and rustc makes programs for $host"
makes_x86_64() {
    case $host in
    x86_64-*) ;;
    *) false ;;
    esac
}
