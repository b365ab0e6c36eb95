#!/usr/bin/env bash
# command.sh ROUTINE SCRATCH: the command `routine` and its `check`: words and exit status.
set -u
script="command"
. host/tests/expect.sh

all_samples() {
    expect "all samples" 1 "$(cat samples/EXPECTED)" "" "$routine" check samples/*.vtil
    expect "one accepted file" 0 "samples/minimal.vtil: accepted, 114 bytes consumed" "" \
        "$routine" check samples/minimal.vtil
}

# What can't be read, and what is odd but can be.
odd_files() {
    cd "$scratch" || exit 2
    : >empty
    mkdir folder
    printf 'VTIX' >$'two\nlines'
    cp "$samples/minimal.vtil" ./-x
    expect "an empty file" 1 "empty: $refused_1" "" "$routine" check empty
    expect "a folder" 2 "" "routine: folder: not read: is a directory" "$routine" check folder
    expect "a missing file" 2 "" "routine: missing: not read: No such file or directory" "$routine" check missing
    expect "an empty name" 2 "" "routine: : not read: No such file or directory" "$routine" check ""
    expect "a failing read" 2 "" "routine: /proc/self/mem: not read: Input/output error" "$routine" check /proc/self/mem
    expect "a file of unknown size" 1 "/proc/version: $refused_3" "" "$routine" check /proc/version
    expect "a name of two lines" 1 "two\\x0alines: $refused_3" "" "$routine" check $'two\nlines'
    expect "a name like an option, after --" 0 "-x: accepted, 114 bytes consumed" "" "$routine" check -- -x
    { cat "$samples/minimal.vtil" && printf x; } >one-more
    expect "one byte after the routine" 0 "one-more: accepted, 114 bytes consumed, 1 byte after it ignored" "" \
        "$routine" check one-more
    expect "a missing file among others" 2 "-x: accepted, 114 bytes consumed
empty: $refused_1" "routine: missing: not read: No such file or directory" "$routine" check -- -x missing empty
    cd - >/dev/null || exit 2
}

# Lines on both streams come in the order of the files.
one_stream() {
    "$routine" check samples/minimal.vtil missing samples/wrong-mark.vtil
}
order() {
    both() { one_stream 2>&1; }
    expect "both streams to one place" 2 "samples/minimal.vtil: accepted, 114 bytes consumed
routine: missing: not read: No such file or directory
samples/wrong-mark.vtil: $refused_3" "" both
}

# As root every file can be read, so root tries it as nobody.
unreadable_file() {
    local name="an unreadable file" as=()
    local file=$scratch/public/unreadable
    mkdir -m 755 "$scratch/public"
    cp samples/minimal.vtil "$file"
    cp "$routine" "$scratch/public/routine"
    chmod 000 "$file"
    if [ -r "$file" ]; then
        as=(setpriv --reuid 65534 --regid 65534 --clear-groups)
        if ! "${as[@]}" test -x "$scratch/public/routine" 2>/dev/null; then
            skip "$name" "this user can read every file, and no other user can be tried"
            return
        fi
    fi
    expect "$name" 2 "" "routine: $file: not read: Permission denied" "${as[@]}" "$scratch/public/routine" check "$file"
}

# long LENGTH: the smallest routine and so many bytes that it is LENGTH long.
long() {
    cat samples/minimal.vtil
    head -c $(($1 - 114)) /dev/zero
}

standard_input() {
    local len
    expect "standard input from a file" 0 "-: accepted, 114 bytes consumed" "" "$routine" check - <samples/minimal.vtil
    # Around the sizes at which the room for a pipe grows.
    for len in 65535 65536 65537 131072 131073 1000000; do
        expect "standard input from a pipe, $len bytes" 0 \
            "-: accepted, 114 bytes consumed, $((len - 114)) bytes after it ignored" "" "$routine" check - < <(long $len)
    done
    expect "an empty standard input" 1 "-: $refused_1" "" "$routine" check - </dev/null
    expect "a folder as standard input" 2 "" "routine: -: not read: is a directory" "$routine" check - <samples
    expect "standard input twice" 2 "-: accepted, 114 bytes consumed" \
        "routine: -: not read: standard input was read already" "$routine" check - - <samples/minimal.vtil
    expect "a closed standard input" 2 "" "routine: -: not read: Bad file descriptor" "$routine" check - <&-
}

named_pipe() {
    mkfifo "$scratch/pipe"
    cat samples/blocks.vtil >"$scratch/pipe" &
    expect "a named pipe" 0 "$scratch/pipe: accepted, 1134 bytes consumed" "" "$routine" check "$scratch/pipe"
    wait $!
}

too_large() {
    truncate -s 1G "$scratch/large"
    expect "a file that is too large" 2 "" "routine: $scratch/large: not read: too large for memory" \
        little_memory check "$scratch/large"
    expect "a pipe that is too large" 2 "" "routine: -: not read: too large for memory" \
        little_memory check - < <(head -c 100M /dev/zero 2>/dev/null)
}

failing_output() {
    status=0
    "$routine" check samples/minimal.vtil >&- 2>"$scratch/err" || status=$?
    output_fails "a closed standard output" "Bad file descriptor"

    status=0
    "$routine" check samples/minimal.vtil >/dev/full 2>"$scratch/err" || status=$?
    output_fails "a full disk" "No space left on device"

    status=0
    "$routine" --help >/dev/full 2>"$scratch/err" || status=$?
    output_fails "a full disk for the help" "No space left on device"

    # The full disk shows when the line before the missing file is written, not at the end.
    status=0
    "$routine" check samples/minimal.vtil missing >/dev/full 2>"$scratch/err" || status=$?
    : >"$scratch/out"
    want "" "routine: missing: not read: No such file or directory
routine: standard output could not be written: No space left on device"
    hold "a full disk before a missing file" 2

    # It shows in the middle: what comes after it fails for another reason.
    expect "a full disk before the end" 2 "" "routine: standard output could not be written: No space left on device" \
        bash -c '"$0" check $(yes samples/minimal.vtil | head -n 500) missing >/dev/full' "$routine"

    closed_pipe "a closed pipe" "$routine" check samples/minimal.vtil
}

usage() {
    local help
    help=$("$routine" --help)
    expect "no command" 2 "" "routine: no command given
$try --help" "$routine"
    expect "an unknown command" 2 "" "routine: unknown command: chekc
$try --help" "$routine" chekc samples/minimal.vtil
    expect "no file" 2 "" "routine: no file given to check
$try check --help" "$routine" check
    expect "an unknown option" 2 "" "routine: unknown option (for a file of that name write ./ before it): -x
$try check --help" "$routine" check -x
    expect "an option of another command" 2 "" "routine: unknown option (for a file of that name write ./ before it): --json
$try check --help" "$routine" check --json samples/minimal.vtil
    expect "an unknown command of two lines" 2 "" "routine: unknown command: a\\x0ab
$try --help" "$routine" $'a\nb'
    passes "the help says which status wins" grep -q "^Where both 1 and 2 apply it is 2" <<<"$help"
    if "$routine" check --help | grep -q '^usage: routine check FILE'; then
        pass "help for a command"
    else
        fail "help for a command"
    fi
    if [[ $help == "usage: routine COMMAND"*"routine check FILE.."*"Exit status:"* ]]; then
        pass "the help names usage, check and the exit statuses"
    else
        fail "the help names usage, check and the exit statuses"
    fi
}

all_samples
odd_files
order
unreadable_file
standard_input
named_pipe
too_large
failing_output
usage
finish
