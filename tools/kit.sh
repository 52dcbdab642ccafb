# Sourced by the commands at the top of the repository, from there. The file KIT pins the Rattle kit, as `rt version` prints it: its
# name, and the sum of the logic that says what a proof is. Without rt, or under another logic, this says so in one line and
# stops; under another name with the same logic it says so in one line, and the command goes on.
pinned=$(cat KIT)
if ! command -v rt >/dev/null 2>&1; then
    echo "$0: rt is not on the PATH; it comes with the Rattle kit that this repository pins: $pinned" >&2
    exit 2
fi
# Not even a folder as standard input may stop it.
found=$(rt version </dev/null 2>/dev/null)
if [ "$found" != "$pinned" ]; then
    echo "$0: rt is of the Rattle kit '$found', and this repository pins '$pinned'" >&2
    [ "${found#* logic }" = "${pinned#* logic }" ] || exit 2
fi
