# Sourced by what compares the C examples with what is stored, from the top of the repository. It sets out, a folder to write
# to, and defines `run_example` and `wrong`, which is told a case and what is wrong with it. examples/c/check says what is stored
# of a case.
compared=0

# A file that is not stored counts as empty.
stored() { # FILE
    if [ -f "$1" ]; then echo "$1"; else echo /dev/null; fi
}

compare_case() { # CASE INPUT PROGRAM ARGUMENT...
    name=$1 input=$2 wanted_status=2
    shift 2
    [ -f "$name.err" ] || wanted_status=0
    run_example "$@" <"$input" >"$out/printed" 2>"$out/said"
    status=$?
    [ "$status" -eq "$wanted_status" ] || wrong "$name" "the status is $status, not $wanted_status"
    diff "$(stored "$name.out")" "$out/printed" || wrong "$name" "what $1 prints differs (< stored, > printed)"
    diff "$(stored "$name.err")" "$out/said" || wrong "$name" "what $1 says on standard error differs (< stored, > said)"
    compared=$((compared + 1))
}

# ---- The example that is given a file of triangles: the stored files, and others

compare_clashes() {
    cases=examples/c/cases/clashes vise=examples/triangles/vise
    for file in examples/triangles/*.triangles "$cases"/*.triangles; do
        compare_case "${file%.triangles}" /dev/null clashes "$file"
    done
    compare_case "$cases/missing" /dev/null clashes "$cases/missing.triangles"
    compare_case "$cases/folder" /dev/null clashes "$cases"
    compare_case "$cases/no_file" /dev/null clashes
    compare_case "$cases/two_files" /dev/null clashes "$vise.triangles" "$vise.triangles"
    compare_copies
    compare_full
}

# A file for which room has to be made more than once: the vise twenty times. Copies of two triangles clash where the two do,
# and copies of one do.
compare_copies() {
    copies=0
    while [ "$copies" -lt 20 ]; do
        cat "$vise.triangles"
        copies=$((copies + 1))
    done >"$out/copies.triangles"
    awk -v copies="$copies" -v each=6 '
        NF == 2 { clash[$1, $2] = clash[$2, $1] = 1 }
        END {
            for (i = 0; i < copies * each; i++)
                for (j = i + 1; j < copies * each; j++) {
                    pairs++
                    if (i % each == j % each || (i % each, j % each) in clash) { clashes++; print i, j }
                }
            print clashes " of " pairs " pairs clash"
        }' "$vise.out" >"$out/copies.out"
    compare_case "$out/copies" /dev/null clashes "$out/copies.triangles"
}

compare_full() {
    run_example clashes "$vise.triangles" >/dev/full 2>"$out/said"
    status=$?
    [ "$status" -eq 2 ] || wrong "full standard output" "the status is $status, not 2"
    echo "clashes: the pairs can't be written" | diff - "$out/said" || wrong "full standard output" "clashes says otherwise"
    compared=$((compared + 1))
}
