# What the scripts of the programs share: sourced with $program, the program's name, and $usage, what --help prints.
# Their status is 0 for answer 0, 1 for any other answer and 2 where there is none (FORMAT 12.16, 12.17).
set -u
LC_ALL=C
root=$(readlink -f "${BASH_SOURCE[0]}")
root=${root%/crates/programs/script.sh}

fail() { echo "$program: $1" >&2; exit 2; }
misused() { fail "$1"$'\n'"$usage"; }

# A stream that is closed would be the next file that is opened.
true 3>&2 || exec 2>/dev/null
true 2>/dev/null 3>&1 || fail 'standard output: Bad file descriptor'

# Prints this on standard output, or says why it can't.
put() { # TEXT
    local reason
    trap '' PIPE
    { reason=$(printf '%s\n' "$1" 2>&1 >&3); } 3>&1 || fail "standard output: ${reason##*: }"
}
put_version() {
    local version
    read -r version <"$root/VERSION" || fail "VERSION can't be read"
    put "$program $version"
}

# Says why a file can't be opened, where it can't. One that can is not opened: a pipe may be opened once only.
readable() { # FILE
    local reason
    [ ! -d "$1" ] || fail "$1: Is a directory"
    [ -r "$1" ] || { reason=$(true 2>&1 <"$1"); fail "$1: ${reason##*: }"; }
}
has_input() { true 2>/dev/null 3<&0; }

# Says why standard input can't be read, where that is known before.
need_input() {
    has_input || fail 'standard input: Bad file descriptor'
    [ ! -d /dev/stdin ] || fail 'standard input: Is a directory'
}

one_at_most() { # [FILE]...
    [ $# -le 1 ] || misused 'one file at most'
}

# Takes the one file that is named as standard input. Without one, or where it is -, standard input stays what it is.
take_input() { # [FILE]
    one_at_most "$@"
    if [ "${1--}" = - ]; then
        need_input
    else
        readable "$1"
        exec <"$1" || exit 2
    fi
}

# Takes the word after --budget into $budget, without zeros in front.
take_budget() { # [WORD]
    [[ ${1-} =~ ^0*([0-9]{1,10})$ ]] && [ "${BASH_REMATCH[1]}" -le 4294967295 ] || misused '--budget takes a decimal number up to 4294967295'
    budget=${BASH_REMATCH[1]}
}

run() { "$root/crates/programs/run" "$program" "$@"; }

# Runs the program and leaves in $answer what it printed. Where that is nothing, why has been said.
ask() { # [ARGUMENT...]
    answer=$(run "$@")
    answered $?
}
# The same for a program that prints its text itself, and gives its answer on descriptor 3.
ask_beside() { # [ARGUMENT...]
    trap '' PIPE
    { answer=$(run "$@" 3>&1 >&4 4>&-); } 4>&1
    answered $?
}
# The program has ended with this status, and $answer is one.
answered() { # STATUS
    case $1 in
    0) ;;
    2) exit 2 ;;
    *) fail "the program ended with status $1" ;;
    esac
    [ -n "$answer" ] || exit 2
    [[ $answer =~ ^[0-9]+\ [0-9]+\ [0-9]+($'\n'[-+?]+|$'\n'[0-9?]+(\ [0-9?]+)*)?($'\n'[0-9]+)?($'\n'[0-9]+\ [0-9]+\ [0-9]+\ [0-9]+)*$ ]] || fail 'what the program printed is no answer'
}

# The status that an answer has.
finish() { [ "${answer%% *}" = 0 ]; exit; }
