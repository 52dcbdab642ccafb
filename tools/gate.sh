# Sourced by ./test, from the top of the repository, once it has defined `die` and sourced tools/library.sh, tools/toolchain.sh
# and tools/proving.sh.

# Runs the kit's gate, and fails where that fails, or where it says that a must-fail edit is bad: rt itself lets such an edit
# pass, though it shows nothing. The last line is rt's own, 'N passed, M failed'.
run_gate() {
    mkdir -p target && rm -f target/gate.status || return 1
    {
        rt ci 2>&1
        echo "$?" >target/gate.status
    } | tee target/gate.log
    [ "$(cat target/gate.status)" = 0 ] && grep -q '^rt: ok' target/gate.log && ! grep -q '^rt: ok.*, [0-9][0-9]* bad' target/gate.log
}

# Compiles the library, and notes the program of job sheets, over the crates as the gate has just proved and left them: on a clean
# clone rt lib and rt run would not take those, but prove each once more, which takes longer than all the tests. Where crates
# have a stamp, and so are rt's own work of an earlier check, the gate has put that back, and rt lib goes on from there.
compile_over_gate() {
    if ls crates/*/out/rlib/stamp >/dev/null 2>&1; then
        (cd crates/door_c && rt lib) >target/library.log 2>&1
    else
        build_over_gate >target/library.log 2>&1
    fi && grep -q '^logic=proved ' target/library.log && place_library && note_gated sheet
}

# Does what `rt lib` does in crates/door_c once the crates below are built.
build_over_gate() {
    find_kit
    top=$PWD
    set -- --extern "std=$kit/rlibs/std.rlib" -L "dependency=$kit/rlibs"
    for crate in $(crates_of door_c); do
        set -- "$@" --extern "$crate=$top/crates/$crate/out/rlib/$crate.rlib"
    done
    for crate in $(crates_for door_c); do
        set -- "$@" -L "dependency=$top/crates/$crate/out/rlib"
    done
    cd crates/door_c && mkdir -p out || return
    "$kit/bin/rattle" build --crate-name door_c src/lib.rt "$@" --antt-project "$kit/rattle/logic/antt-project.json" \
        --logic-built "$kit/logic_built" --jobs 2 --links door_c= --crate-type staticlib --toolchain "$kit/toolchain" \
        --backend llvm -o out/libdoor_c.a
    made=$?
    cd "$top" && return "$made"
}

# Prints the crates that a line of crates.txt lists.
crates_of() { # CRATE
    awk -v wanted="$1" '{ sub(/#.*/, "") } split($0, part, ":") == 2 && split(part[1], word, " ") && word[1] == wanted { print part[2] }' crates.txt
}
