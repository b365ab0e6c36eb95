# shellcheck shell=bash
# Running a command and holding what it gave. Sourced by the tests of the command, which get the words
# ROUTINE SCRATCH. The current folder is the repository root, SCRATCH an empty folder.
# shellcheck disable=SC2034 # some names are for the scripts that source this
. tests/count.sh
export LC_ALL=C
routine=$(realpath "$1")
scratch=$(realpath "$2")
samples=$(realpath samples)
refused_1="refused 1: short file: a field or name passes the end"
refused_3="refused 3: wrong mark: either header mark differs"
try="routine: try routine"
to=$scratch/to

# fresh: an empty folder $to.
fresh() {
    rm -rf "$to"
    mkdir "$to"
}

is_empty() {
    [ -z "$(ls -A "$1")" ]
}

accepted_samples() {
    local name
    for name in all-operations blocks minimal odd-flags trailing; do echo "samples/$name.vtil"; done
}

# hold NAME STATUS: what was just run gave this status, and out and err hold what is wanted.
hold() {
    if [ "$status" = "$2" ] && cmp -s "$scratch/out" "$scratch/want-out" && cmp -s "$scratch/err" "$scratch/want-err"; then
        pass "$1"
        return
    fi
    fail "$1"
    echo "status $status where $2 is due"
    diff "$scratch/want-out" "$scratch/out"
    diff "$scratch/want-err" "$scratch/err"
}

# passes NAME COMMAND..
passes() {
    local name=$1
    shift
    if "$@"; then pass "$name"; else fail "$name"; fi
}

# has_only FOLDER FILE..: no other file is there.
has_only() {
    local folder=$1
    shift
    [ "$(ls -A "$folder" | tr '\n' ' ')" = "$* " ]
}

# expect NAME STATUS OUT ERR COMMAND..: runs the command; OUT and ERR are its whole output and error
# output. Standard input is that of the call.
expect() {
    local name=$1 due=$2
    want "$3" "$4"
    shift 4
    status=0
    "$@" >"$scratch/out" 2>"$scratch/err" || status=$?
    hold "$name" "$due"
}

# A text that isn't empty ends in a line feed.
want() {
    if [ -n "$1" ]; then printf '%s\n' "$1"; fi >"$scratch/want-out"
    if [ -n "$2" ]; then printf '%s\n' "$2"; fi >"$scratch/want-err"
}

# output_fails NAME REASON: as expect, for a command that was run with a standard output that fails.
output_fails() {
    : >"$scratch/out"
    want "" "routine: standard output could not be written: $2"
    hold "$1" 2
}

# little_memory COMMAND..: runs `routine COMMAND..` with 64 MB of address space: enough for the largest routine, not for any file.
little_memory() {
    (ulimit -v 65536 && exec "$routine" "$@")
}

# as_nobody [OPTION..] COMMAND..: by another user, where root may do that; the options are setpriv's.
as_nobody() {
    setpriv --reuid 65534 --regid 65534 "$@"
}

# build_failing: makes $scratch/failing.so of failing.c, for with_failing.
build_failing() {
    "${CC:-cc}" -shared -fPIC -O2 -Wall -Wextra -Werror host/tests/failing.c -o "$scratch/failing.so"
}

# with_failing FAILING COMMAND..: runs `routine COMMAND..`, in which the calls fail that failing.c names.
with_failing() {
    FAILING=$1 LD_PRELOAD=$scratch/failing.so "$routine" "${@:2}"
}

# unnamed_keys COMMAND..: the keys in what `routine COMMAND.. --json` prints that the manual's section on the command does not
# name; or that there are none.
unnamed_keys() {
    local key keys section
    keys=$("$routine" "$@" --json | grep -oE '"[a-z_]+":' | tr -d '":' | sort -u)
    section=$(sed -n "/^\.SS $1\$/,/^\.S[SH] /p" docs/routine.1)
    [ -n "$keys" ] || echo "no key"
    for key in $keys; do
        grep -qE "^\.BR? $key( |$)" <<<"$section" || echo "$key"
    done
}

# closed_pipe NAME COMMAND..: as expect, for a pipe as standard output whose only reader is gone.
closed_pipe() {
    local name=$1
    shift
    rm -f "$scratch/closed"
    mkfifo "$scratch/closed"
    # Descriptor 3 is the reader, which is closed again before anything is written.
    exec 3<>"$scratch/closed" 4>"$scratch/closed" 3>&-
    status=0
    "$@" >&4 2>"$scratch/err" || status=$?
    exec 4>&-
    output_fails "$name" "Broken pipe"
}
