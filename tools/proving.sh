# Sourced by the commands that need what is proved, from the top of the repository, once tools/kit.sh is.

# Prints the crates that the kit proves for a crate, in its order: those of crates.txt that it stands on, and then itself.
crates_for() { # CRATE
    awk -v wanted="$1" '
        function visit(name,  names, count, i) {
            if (!(name in below) || seen[name]++) return
            count = split(below[name], names, " ")
            for (i = 1; i <= count; i++) visit(names[i])
            print name
        }
        { sub(/#.*/, "") }
        split($0, part, ":") == 2 { split(part[1], word, " "); below[word[1]] = part[2] }
        END { visit(wanted) }' crates.txt
}

# Proves the crate of a program, and what it stands on, as far as that is not proved yet, and makes the program. What has to be
# proved is told on standard error, crate by crate, and nothing is where all is proved; the prover's words go to
# target/COMMAND.log. Where something is not proved, one line says so, and the command ends with status 1.
prove() { # COMMAND CRATE
    command=$1 log=target/$1.log told=no
    if ! { mkdir -p target && true >"$log"; } 2>/dev/null; then
        echo "$command: $log can't be written" >&2
        exit 1
    fi
    ! is_as_gated "$2" || return 0
    crates=$(crates_for "$2")
    total=$(echo "$crates" | wc -l)
    # A program without its stamp is one that the kit has to make. That something has changed shows when the kit proves it again.
    [ -f "crates/$2/out/$2.stamp" ] || say_once
    # The kit runs the program too, on nothing: what is read stays for the caller, and what it answers to nothing is not shown.
    {
        (cd "crates/$2" && rt run </dev/null 2>&1 >/dev/null)
        echo "rt ended with status $?"
    } | tee "$log" | tell_progress && return
    failed=$(sed -n 's/^rt: the library \([a-z_0-9]*\) did not build.*/\1/p' "$log")
    echo "$command: not proved${failed:+: $failed}; the prover's words are in $log" >&2
    exit 1
}

say_once() {
    [ "$told" = no ] || return 0
    echo "$command: proving what is not proved yet, minutes from a clean clone; the prover's words go to $log" >&2
    told=yes
}

# Gives whether all is proved.
tell_progress() {
    while IFS= read -r line; do
        case $line in
        'crate '*': modules '*)
            crate=${line#crate }
            crate=${crate%%:*}
            ;;
        'logic=proved '*)
            say_once
            echo "$command: $(place_of "$crate") of $total: $crate is proved" >&2
            ;;
        'rt ended with status 0') return 0 ;;
        esac
    done
    return 1
}

place_of() { # CRATE
    echo "$crates" | awk -v crate="$1" '$0 == crate { print NR }'
}

# ---- what the gate proved, where ./test ran it (tools/gate.sh)
# Prints a sum of the kit's name, of all that the gate reads of the crates, and of a program that it made.
sum_with() { # PROGRAM
    {
        cat KIT
        find crates.txt crates -path 'crates/*/out' -prune -o -type f -print | LC_ALL=C sort | xargs sha256sum
        sha256sum "crates/$1/out/$1"
    } | sha256sum
}

note_gated() { # PROGRAM
    sum_with "$1" >"target/gated_$1"
}

# Whether the program stands as the gate left it, and all that it was made from. The gate's own programs have no stamp of rt's.
is_as_gated() { # PROGRAM
    [ -f "target/gated_$1" ] && [ -f "crates/$1/out/$1" ] && sum_with "$1" 2>/dev/null | cmp -s - "target/gated_$1"
}
