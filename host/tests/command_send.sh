#!/usr/bin/env bash
# command_send.sh ROUTINE SCRATCH: `routine send`: the files that it writes, words and exit status.
set -u
script="command_send"
. host/tests/expect.sh
nop="030000006e6f7000000000 000000000000000000000000000000000000000000"
three="000000-0x1000.block 000001-0x1010.block 000002-0x1020.block"

# The blocks -----------------------------------------------------------------------------

# The names that the blocks of FILE are due, as `show` counts and names them.
due_names() {
    "$routine" show "$1" | sed -nE 's/^block ([0-9]+): vip (0x[0-9a-f]+),.*/\1 \2/p' |
        while read -r place vip; do printf '%06d-%s.block\n' "$place" "$vip"; done
}

# are_blocks FILE: $to has these files and no others; together they are the end of the routine's written form.
are_blocks() {
    local size
    diff <(due_names "$1") <(ls -A "$to") || return 1
    cat "$to"/*.block >"$scratch/together"
    size=$(stat -c %s "$scratch/together")
    "$routine" normalize "$1" -o "$scratch/written" && cmp "$scratch/together" <(tail -c "$size" "$scratch/written")
}

# starts: each file of $to begins with the vip that it is named by, so it begins where its block does.
starts() {
    local file vip
    for file in "$to"/*.block; do
        vip=${file##*-0x}
        [ "$(od -An -v -tx8 -N8 "$file" | tr -d ' ')" = "$(printf '%016x' "0x${vip%.block}")" ] || return 1
    done
}

# sends NAME WORDS FILE
sends() {
    fresh
    expect "send: $1" 0 "$2" "" "$routine" send "$3" "$to"
    passes "send: $1: the files are its blocks" are_blocks "$3"
    passes "send: $1: each begins with its block" starts
}

# edited: makes a file $scratch/made.vtil, which is the smallest sample after the lines on standard input.
edited() {
    "$routine" edit samples/minimal.vtil -s - -o "$scratch/made.vtil" >/dev/null
}

blocks() {
    sends "three blocks" "3 blocks sent" samples/blocks.vtil
    passes "their lengths" [ "$(stat -c %s "$to"/*.block | tr '\n' ' ')" = "426 195 165 " ]
    sends "one block" "1 block sent" samples/all-operations.vtil
    sends "flags and pad that are not in written form" "1 block sent" samples/odd-flags.vtil
    fresh
    expect "send: no block" 0 "0 blocks sent" "" "$routine" send samples/minimal.vtil "$to"
    passes "send: no block: no file" is_empty "$to"
    expect "send: bytes after the routine" 0 "0 blocks sent" "" "$routine" send samples/trailing.vtil "$to"
    passes "send: bytes after the routine: no file" is_empty "$to"
    printf '%s\n' "create 0" "create 0xffffffffffffffff" "create 7" "append 7 $nop" | edited
    sends "the smallest and the largest vip" "3 blocks sent" "$scratch/made.vtil"
    passes "their names" has_only "$to" 000000-0x0.block 000001-0xffffffffffffffff.block 000002-0x7.block
    printf '%s\n' "create 5" "create 6" "append 6 $nop" "create 7" "append 7 $nop" "append 7 $nop" "remove 5" | edited
    sends "the last block in the place of a removed one" "2 blocks sent" "$scratch/made.vtil"
    passes "the order is that of the places" has_only "$to" 000000-0x7.block 000001-0x6.block
    seq -f 'create %.0f' 120 -1 1 | edited
    sends "120 blocks, listed in their order" "120 blocks sent" "$scratch/made.vtil"
}

# What is sent is a block of a file: a routine of the same front and these bytes alone is accepted, and has the block.
one_block() {
    fresh
    "$routine" send samples/blocks.vtil "$to" >/dev/null
    { head -c 110 samples/minimal.vtil && printf '\1\0\0\0' && cat "$to/000001-0x1010.block"; } >"$scratch/one.vtil"
    "$routine" show "$scratch/one.vtil" | sed -n '/^block 0:/,$p' | sed 1d >"$scratch/shown"
    diff "$scratch/shown" <("$routine" show samples/blocks.vtil | sed -n '/^block 1:/,/^block 2:/p' | sed '1d; $d'; echo end)
}

# Names of files and folders -----------------------------------------------------------------

# sent_to NAME DIR [FILE]: three blocks are sent there.
sent_to() {
    expect "send: $1" 0 "3 blocks sent" "" "$routine" send "${3:-$samples/blocks.vtil}" "$2"
    # shellcheck disable=SC2086 # a word for each file
    passes "send: $1: they are there" has_only "$2" $three
    rm "$2"/*.block
}
names() {
    fresh
    sent_to "standard input" "$to" - <samples/blocks.vtil
    sent_to "standard input from a pipe" "$to" - < <(cat samples/blocks.vtil)
    sent_to "a folder with a slash after it" "$to/"
    ln -s to "$scratch/link"
    sent_to "a link to a folder" "$scratch/link"
    mkdir "$scratch/two
lines"
    sent_to "a folder of two lines" "$scratch/two
lines"
    cd "$to" || exit 2
    sent_to "this folder" .
    mkdir -- -x -
    expect "send: a folder like an option, after --" 0 "3 blocks sent" "" "$routine" send -- "$samples/blocks.vtil" -x
    # shellcheck disable=SC2086
    passes "send: a folder like an option: they are there" has_only ./-x $three
    sent_to "a folder of one dash" ./-
    cd - >/dev/null || exit 2
    fresh
    echo kept >"$to/other"
    echo kept >"$to/block"
    expect "send: a folder with other files" 0 "3 blocks sent" "" "$routine" send samples/blocks.vtil "$to"
    # shellcheck disable=SC2086
    passes "send: they stay" has_only "$to" $three block other
    passes "send: as they were" [ "$(cat "$to/block" "$to/other")" = "kept
kept" ]
}

# What is wrong with the folder ---------------------------------------------------------------

# taken NAME FILE: a folder that has this file is not written to, and the file stays.
taken() {
    fresh
    echo kept >"$to/$2"
    expect "send: $1" 2 "" "routine: $to: not written: files whose names end in .block are in it already" \
        "$routine" send samples/blocks.vtil "$to"
    passes "send: $1: it stays, and is the only one" [ "$(cd "$to" && ls -A && cat -- *)" = "$2
kept" ]
}
taken_folders() {
    taken "a block of the same name" 000001-0x1010.block
    taken "a block of another place" 000003-0x1030.block
    taken "a name of another kind" x.block
    fresh
    "$routine" send samples/blocks.vtil "$to" >/dev/null
    expect "send: the same folder again" 2 "" "routine: $to: not written: files whose names end in .block are in it already" \
        "$routine" send samples/blocks.vtil "$to"
    passes "send: the first blocks stay" are_blocks samples/blocks.vtil
    expect "send: again, and no block to send" 2 "" "routine: $to: not written: files whose names end in .block are in it already" \
        "$routine" send samples/minimal.vtil "$to"
}
no_folders() {
    fresh
    expect "send: no such folder" 2 "" "routine: $to/none: not written: No such file or directory" \
        "$routine" send samples/blocks.vtil "$to/none"
    passes "send: it is not made" is_empty "$to"
    cp samples/minimal.vtil "$to/file"
    expect "send: a file for a folder" 2 "" "routine: $to/file: not written: Not a directory" \
        "$routine" send samples/blocks.vtil "$to/file"
    passes "send: it stays" cmp "$to/file" samples/minimal.vtil
    expect "send: a file with a slash after it" 2 "" "routine: $to/file/: not written: Not a directory" \
        "$routine" send samples/blocks.vtil "$to/file/"
    expect "send: a device for a folder" 2 "" "routine: /dev/null: not written: Not a directory" \
        "$routine" send samples/blocks.vtil /dev/null
    expect "send: an empty name" 2 "" "routine: : not written: No such file or directory" "$routine" send samples/blocks.vtil ""
    expect "send: a name of two lines" 2 "" "routine: a\\x0ab: not written: No such file or directory" \
        "$routine" send samples/blocks.vtil $'a\nb'
    rest() { "$routine" send - "$to/none" 2>/dev/null; cat; }
    passes "send: without a folder standard input is left as it is" cmp samples/blocks.vtil <(rest <samples/blocks.vtil)
    expect "send: no folder and a missing file" 2 "" "routine: $to/none: not written: No such file or directory" \
        "$routine" send missing "$to/none"
}

# By nobody, in folders of root's: who is not root has them for his own.
barred_folders() {
    local public=$scratch/public
    mkdir -m 755 "$public"
    cp "$routine" "$public/routine" && cp samples/blocks.vtil "$public"
    if ! as_nobody --clear-groups test -x "$public/routine" 2>/dev/null; then
        skip "send: folders of another user's" "no other user can be tried"
        return
    fi
    as_sender() { as_nobody --clear-groups "$public/routine" send "$public/blocks.vtil" "$to"; }
    fresh
    chmod 755 "$to"
    expect "send: a folder that one may not write" 2 "0 blocks sent" \
        "routine: $to/000000-0x1000.block: not written: Permission denied" as_sender
    passes "send: nothing is left there" is_empty "$to"
    chmod 733 "$to"
    expect "send: a folder that one may not read" 2 "" "routine: $to: not written: Permission denied" as_sender
    passes "send: nothing is written there" is_empty "$to"
    chmod 777 "$to"
    expect "send: a folder that one may write and read" 0 "3 blocks sent" "" as_sender
}

# What is wrong with the file --------------------------------------------------------------------

refused_files() {
    local sample number
    fresh
    while read -r sample number; do
        expect "send: $sample, refused $number" 1 "" "$("$routine" check "samples/$sample.vtil" | sed 's/^/routine: /')" \
            "$routine" send "samples/$sample.vtil" "$to"
    done <<'END'
short-file 1
wrong-mark 3
repeated-block 9
END
    expect "send: an empty file" 1 "" "routine: /dev/null: $refused_1" "$routine" send /dev/null "$to"
    expect "send: an empty standard input" 1 "" "routine: -: $refused_1" "$routine" send - "$to" </dev/null
    expect "send: a missing file" 2 "" "routine: missing: not read: No such file or directory" "$routine" send missing "$to"
    expect "send: a folder for a file" 2 "" "routine: samples: not read: is a directory" "$routine" send samples "$to"
    expect "send: a closed standard input" 2 "" "routine: -: not read: Bad file descriptor" "$routine" send - "$to" <&-
    expect "send: a device without end" 1 "" "routine: /dev/zero: $refused_3" little_memory send /dev/zero "$to"
    passes "send: nothing was written by any of them" is_empty "$to"
}

# What fails while blocks are sent -------------------------------------------------------------------

# sent_whole NAME..: these files are in $to, as they are due, and no others.
sent_whole() {
    local name
    has_only "$to" "$@" || return 1
    for name in "$@"; do cmp "$to/$name" "$scratch/due/$name" || return 1; done
}
full_disks() {
    local full="not written: No space left on device"
    fresh
    expect "send: the disk full at the first block" 2 "0 blocks sent" "routine: $to/000000-0x1000.block: $full" \
        with_failing "full 1" send samples/blocks.vtil "$to"
    passes "send: nothing is left of it" is_empty "$to"
    expect "send: the disk full at the last block" 2 "2 blocks sent" "routine: $to/000002-0x1020.block: $full" \
        with_failing "full 3" send samples/blocks.vtil "$to"
    passes "send: those before it are whole" sent_whole 000000-0x1000.block 000001-0x1010.block
    fresh
    expect "send: a folder that can't be synced" 2 "0 blocks sent" \
        "routine: $to/000000-0x1000.block: written, but a crash may undo it, since its folder could not be synced: Input/output error" \
        with_failing folder send samples/blocks.vtil "$to"
    passes "send: its file is whole, and no more are sent" sent_whole 000000-0x1000.block
    fresh
    expect "send: a folder on a file system that syncs none" 0 "3 blocks sent" "" \
        with_failing "no syncing" send samples/blocks.vtil "$to"
    # shellcheck disable=SC2086
    passes "send: all of them are there" sent_whole $three
}
# A file of over 1024 bytes is not allowed here.
limited() {
    (ulimit -f 1 && exec "$routine" send "$scratch/made.vtil" "$to")
}
file_limits() {
    { printf 'create 1\ncreate 2\ncreate 3\n' && yes "append 2 $nop" | head -n 40; } | edited
    fresh
    expect "send: a block that is over the limit of files" 2 "1 block sent" \
        "routine: $to/000001-0x2.block: not written: File too large" limited
    passes "send: the block before it is there, and nothing else" has_only "$to" 000000-0x1.block
}
# A signal that ends the command ends it when the block's file is whole.
signals() {
    local name number
    for name in INT TERM HUP QUIT; do
        number=$(kill -l $name)
        fresh
        status=0
        (ulimit -c 0 && with_failing "signal $number" send samples/blocks.vtil "$to") >"$scratch/out" 2>"$scratch/err" || status=$?
        passes "send: SIG$name while the first block is sent" [ "$status" = $((128 + number)) ]
        passes "send: SIG$name leaves one whole file" sent_whole 000000-0x1000.block
    done
}
failing_output() {
    fresh
    closed_pipe "send, the pipe closed" "$routine" send samples/blocks.vtil "$to"
    # shellcheck disable=SC2086
    passes "send, the pipe closed: the blocks are there" sent_whole $three
    fresh
    status=0
    "$routine" send samples/blocks.vtil "$to" >/dev/full 2>"$scratch/err" || status=$?
    output_fails "send, standard output full" "No space left on device"
    fresh
    status=0
    "$routine" send samples/blocks.vtil "$to" >&- 2>"$scratch/err" || status=$?
    output_fails "send, standard output closed" "Bad file descriptor"
    # shellcheck disable=SC2086
    passes "send, standard output closed: the blocks are there" sent_whole $three
}

# Usage, help and manual -------------------------------------------------------------------------------

usage() {
    expect "send: no file" 2 "" "routine: no file given to send
$try send --help" "$routine" send
    expect "send: no folder" 2 "" "routine: no folder given to send
$try send --help" "$routine" send samples/blocks.vtil
    expect "send: three words" 2 "" "routine: too many files given to send
$try send --help" "$routine" send samples/blocks.vtil "$to" "$to"
    expect "send: standard output for a folder" 2 "" "routine: DIR can't be standard output (-) for send
$try send --help" "$routine" send samples/blocks.vtil -
    expect "send: an option of another command" 2 "" "routine: unknown option (for a file of that name write ./ before it): -o
$try send --help" "$routine" send samples/blocks.vtil -o "$to"
    expect "same: too few files" 2 "" "routine: too few files given to same
$try same --help" "$routine" same samples/blocks.vtil
}

# The manual's example, whose file has one block, 0x40.
page_example() {
    sed -n '/^\$ routine send new.vtil sent/,/^\.fi$/p' docs/routine.1 | sed '1d; $d; s/\\-/-/g'
}
run_example() {
    "$routine" send "$scratch/made.vtil" "$to" && echo '$ ls sent' && ls "$to"
}
helps() {
    local name=000003-0x40.block
    passes "help for send" grep -q '^usage: routine send FILE DIR$' <("$routine" send --help)
    passes "the help lists send" grep -q '^  routine send FILE DIR$' <("$routine" --help)
    passes "the help says how files are named" grep -qF " $name." <("$routine" send --help)
    passes "so does docs/routine.1" grep -qF "$name " <(sed 's/\\-/-/g' docs/routine.1)
    printf 'create 0x40\nappend 0x40 %s\n' "$nop" | edited
    fresh
    expect "the manual's example of sending" 0 "$(page_example)" "" run_example
}

mkdir "$scratch/due"
"$routine" send samples/blocks.vtil "$scratch/due" >/dev/null
blocks
passes "send: a block by itself is read as in its routine" one_block
names
taken_folders
no_folders
barred_folders
refused_files
if build_failing; then
    full_disks
    signals
else
    skip "send: calls that fail" "nothing that is loaded before libc can be built"
fi
file_limits
failing_output
usage
helps
finish
