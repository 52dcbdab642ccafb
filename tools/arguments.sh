# Sourced by every command, from the top of the repository, before it does anything else:
#
#     . tools/arguments.sh
#     check_arguments COMMAND "$@"
#
# COMMAND is the command's own file, as it is called from the top. What a command is for and how it is called stands once, in
# the comment at its front: -h and --help print that comment, and the arguments that the command knows are those of the lines
# that call it there, four blanks in, like
#
#     bench/run [pairs] [bytes] [segments] [listings] [plates] [sheets] [--at-most RATIO] [--goals]
#
# A word in capitals is a value that follows: N and S are whole numbers, N not 0; RATIO is a number above 0, NAME a name, and
# FILE that of a file. What follows a < is no argument. An argument that is not known, or a value that is not of its kind, is
# refused in one line, with status 2. Without arguments this runs no other program, so that a command can still say which one
# it lacks.

check_arguments() { # COMMAND ARGUMENT...
    called=$1
    shift
    while [ "$#" -gt 0 ]; do
        case $1 in
        -h | --help) tell_use ;;
        esac
        kind=$(kind_after "$1") || refuse_argument "unknown argument '$1'"
        if [ -n "$kind" ]; then
            check_value "$1" "$kind" "${2-}"
            shift
        fi
        shift
    done
}

tell_use() {
    sed -n -e 1d -e '/^#/!q' -e 's/^# \{0,1\}//p' "$called"
    exit
}

refuse_argument() { # WHAT
    printf "%s: %s; see '%s --help'\n" "$called" "$1" "$called" >&2
    exit 2
}

# Prints a line for each argument that the command knows: the word, and what kind of value follows it, if one does.
known_arguments() {
    sed -n -e 's/ <.*//' -e "s|^#     $called ||p" "$called" | tr '[]' '\n\n' | sed '/^ *$/d'
}

# Prints what kind of value follows the word, if one does; fails where the command does not know the word.
kind_after() { # WORD
    known_arguments | (
        while read -r word kind; do
            [ "$word" != "$1" ] || { echo "$kind" && exit; }
        done
        exit 1
    )
}

# 19 digits fit 64 bits, whatever they are. A file of the name --help is ./--help.
check_value() { # WORD KIND VALUE
    case $2:$3 in
    N: | N:0* | N:*[!0-9]* | N:????????????????????*) wanted="a whole number from 1 to 9999999999999999999" ;;
    S: | S:*[!0-9]* | S:????????????????????*) wanted="a whole number from 0 to 9999999999999999999" ;;
    RATIO:*[!0-9.]* | RATIO:*.*.*) wanted="a number above 0" ;;
    FILE:-h | FILE:--help) tell_use ;;
    N:* | S:* | RATIO:*[1-9]* | NAME:?* | FILE:?*) return ;;
    RATIO:*) wanted="a number above 0" ;;
    FILE:*) wanted="the name of a file" ;;
    *) wanted="a name" ;;
    esac
    refuse_argument "$1 needs $wanted, not '$3'"
}
