# Sourced by what builds the second program, from the top of the repository, once it has defined `die` and sourced
# tools/rust.sh.

# Its own numbers have room enough; should one ever overflow, the program must stop and not answer.
build_second() { # PROGRAM ARGUMENT...
    second=$1
    shift
    "$rustc" --edition 2021 -O -C overflow-checks=on tests/second/main.rs "$@" -o "$second" ||
        die "the second program was not built"
}
