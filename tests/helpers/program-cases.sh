# What the tests of the programs share: sourced with $program, the name of the program, from the repository's top. Products lie in $out.
out=build/$program-cases
rm -rf "$out"
mkdir -p "$out" || exit 2
bad=0
count=0
say() { echo "$program-cases: $1"; bad=1; }

# A first run builds the program and says so on standard error, which is no case here.
crates/programs/run "$program" </dev/null >/dev/null 2>&1

# The program, so called, ends with this status; what it printed and what it said on standard error are in $out/printed and $out/said.
ends() { # STATUS NAME [ARGUMENT...]
    local status
    count=$((count + 1))
    "./$program" "${@:3}" >"$out/printed" 2>"$out/said"
    status=$?
    [ "$status" -eq "$1" ] || say "$2: status $status, expected $1"
}

# It ends with this status, prints this, and says nothing on standard error.
gives() { # STATUS NAME TEXT [ARGUMENT...]
    ends "$1" "$2" "${@:4}"
    printf '%s\n' "$3" | cmp -s - "$out/printed" || say "$2: printed '$(cat "$out/printed")', expected '$3'"
    [ ! -s "$out/said" ] || say "$2: said '$(cat "$out/said")'"
}

# The program, so called, prints an answer that starts with its number, with the status of such an answer, 0 for number 0 and else 1.
prints() { # NAME TEXT [ARGUMENT...]
    local status=1
    [ "${2%% *}" != 0 ] || status=0
    gives "$status" "$@"
}

# The bytes of a file in decimal.
decimal() { od -An -v -tu1 "$1" | tr -s ' \n' ' '; }

# A program that writes bytes, so called, writes just these, in decimal.
writes() { # NAME BYTES [ARGUMENT...]
    ends 0 "$1" "${@:3}"
    # shellcheck disable=SC2086
    bytes $2 | cmp -s - "$out/printed" || say "$1: wrote '$(decimal "$out/printed")', expected '$2'"
    [ ! -s "$out/said" ] || say "$1: said '$(cat "$out/said")'"
}
# It gives another answer than 0, which is said, and writes nothing.
refuses() { # NAME ANSWER [ARGUMENT...]
    ends 1 "$1" "${@:3}"
    [ ! -s "$out/printed" ] || say "$1: wrote '$(decimal "$out/printed")'"
    printf '%s\n' "$2" | cmp -s - "$out/said" || say "$1: said '$(cat "$out/said")', expected '$2'"
}
# Such a program without its script writes these bytes, says this, and tells this on the descriptor for its answer.
alone() { # NAME BYTES SAID TOLD [ARGUMENT...]
    count=$((count + 1))
    crates/programs/run "$program" "${@:5}" >"$out/printed" 2>"$out/said" 3>"$out/told"
    # shellcheck disable=SC2086
    { bytes $2 | cmp -s - "$out/printed" && [ "$(cat "$out/said")" = "$3" ]; } || say "the program, $1: said '$(cat "$out/said")'"
    [ "$(cat "$out/told")" = "$4" ] || say "the program, $1: tells '$(cat "$out/told")'"
}
# It comes to no answer where the line that says one can't be written.
cannot_say() { # [ARGUMENT...]
    local status
    [ -w /dev/full ] || return
    "./$program" "$@" >"$out/printed" 2>/dev/full
    status=$?
    count=$((count + 1))
    [ "$status" -eq 2 ] && [ ! -s "$out/printed" ] || say "standard error full: status $status"
}

# What ended with this status printed nothing, and said this first on standard error; it is the status where there is no answer.
says() { # STATUS NAME TEXT
    count=$((count + 1))
    [ "$1" -eq 2 ] || say "$2: status $1, expected 2"
    [ ! -s "$out/printed" ] || say "$2: printed '$(cat "$out/printed")'"
    [ "$(head -n 1 "$out/said")" = "$3" ] || say "$2: said '$(cat "$out/said")', expected '$3'"
}

# The program started by itself, with the limits that there are.
directly() { # [ARGUMENT...]
    local tools run
    tools=$(dirname "$(rt doc)")/toolchain
    run=("$tools/lib/ld-linux-x86-64.so.2" --library-path "$tools/lib" "build/programs/$program.$(crates/programs/run --sum "$program")")
    [ "$(uname -m)" = x86_64 ] || run=("$tools/bin/qemu-x86_64" "${run[@]}")
    "${run[@]}" "$@"
}
# What it says where the stack has so many KiB only: of a request of more than 1,024 bytes, and of a short one.
too_small() { # KIB [NAME]
    echo "$program: ${2:+$2: }the stack is too small: a walk may need 16777216 bytes, and the limit is $(($1 * 1024))"
}
too_small_for_short() { # KIB [NAME]
    too_small "$@" | sed 's/need 16777216 bytes/need 6291456 bytes/'
}

# The program, so called, gives no answer: it prints nothing and says this.
cannot() { # NAME TEXT [ARGUMENT...]
    "./$program" "${@:3}" >"$out/printed" 2>"$out/said"
    says $? "$1" "$2"
}

# Standard output that can't be written to, where there is something to print.
cannot_write() { # [ARGUMENT...]
    : >"$out/printed"
    "./$program" "$@" >&- 2>"$out/said"
    says $? 'standard output closed' "$program: standard output: Bad file descriptor"
    if [ -w /dev/full ]; then
        "./$program" "$@" >/dev/full 2>"$out/said"
        says $? 'standard output full' "$program: standard output: No space left on device"
    fi
    { "./$program" "$@" 2>"$out/said"; echo $? >"$out/status"; } | true
    says "$(cat "$out/status")" 'nobody reads standard output' "$program: standard output: Broken pipe"
}

# A file that nobody but its owner may read, asked for by the user nobody where the owner is root.
not_allowed() { # [ARGUMENT...], the file's name among them: $out/locked
    local as=()
    echo x >"$out/locked"
    chmod 000 "$out/locked"
    [ "$(id -u)" -ne 0 ] || as=(setpriv --reuid=65534 --regid=65534 --clear-groups)
    if ! "${as[@]}" test -x "./$program" 2>/dev/null || "${as[@]}" test -r "$out/locked"; then
        echo "$program-cases: a file that may not be read was not tried, since no other user can be had here"
        return
    fi
    "${as[@]}" "./$program" "$@" >"$out/printed" 2>"$out/said"
    says $? 'a file that may not be read' "$program: $out/locked: Permission denied"
}

# A program that takes one input does with it the same by each name that it may have, and says so where it can't read it, or can't write what it prints.
one_input() { # FILE
    local expected
    "./$program" "$1" >"$out/expected" 2>"$out/expected.said"
    expected=$?
    as_with_the_file() { # NAME COMMAND...
        local status
        count=$((count + 1))
        "${@:2}" >"$out/printed" 2>"$out/said"
        status=$?
        [ "$status" -eq "$expected" ] && cmp -s "$out/expected" "$out/printed" && cmp -s "$out/expected.said" "$out/said" ||
            say "$1: status $status, printed '$(tr -d '\0' <"$out/printed")', said '$(cat "$out/said")'"
    }
    as_with_the_file 'standard input' "./$program" <"$1"
    as_with_the_file 'standard input by its sign' "./$program" - <"$1"
    as_with_the_file 'a file after the options' "./$program" -- "$1"
    as_with_the_file 'a pipe' "./$program" <(cat "$1")
    as_with_the_file 'three pieces' "./$program" < <(head -c 1 "$1"; sleep 0.2; tail -c +2 "$1" | head -c 30; sleep 0.2; tail -c +32 "$1")
    cp "$1" "$out/--help"
    as_with_the_file 'a file named as an option' env -C "$out" "../../$program" -- --help
    cannot 'standard input closed' "$program: standard input: Bad file descriptor" <&-
    cannot 'standard input a folder' "$program: standard input: Is a directory" </
    cannot 'a file that is not there' "$program: $out/none: No such file or directory" "$out/none"
    cannot 'a folder' "$program: samples: Is a directory" samples
    cannot 'an empty name' "$program: : No such file or directory" ''
    cannot 'two files' "$program: one file at most" "$1" "$1"
    cannot 'no such option' "$program: there is no option --bugdet" --bugdet "$1"
    not_allowed "$out/locked"
    cannot_write "$1"
    cannot_write --help
}

# Bytes given in decimal.
bytes() {
    local byte
    for byte; do printf "\\x$(printf '%x' "$byte")"; done
}

# The tally of the runs.
finish() {
    [ "$bad" -eq 0 ] && echo "$program-cases: $count runs, each as expected"
    exit "$bad"
}
