#!/usr/bin/env bash
# command_books.sh ROUTINE SCRATCH: `routine show`, `normalize` and `same`: words, files and exit status.
set -u
script="command_books"
. host/tests/expect.sh

# Showing ----------------------------------------------------------------------------

show_text() {
    local file
    expect "show, as it was looked over by hand" 0 "$(cat host/tests/blocks.shown)" "" "$routine" show samples/blocks.vtil
    for file in $(accepted_samples); do
        passes "show $file to its end" [ "$("$routine" show "$file" | tail -n 1)" = end ]
    done
    passes "one block is one block" [ "$("$routine" show samples/odd-flags.vtil | sed -n '1s/.*, \(1 [a-z]*\),.*/\1/p')" = "1 block" ]
    expect "show standard input" 0 "$(cat host/tests/blocks.shown)" "" "$routine" show - <samples/blocks.vtil
}

# The bytes that the JSON stands for are the written form.
json_bytes() {
    "$routine" normalize "$1" -o "$scratch/written" &&
        "$routine" show --json "$1" | python3 host/tests/json_bytes.py | cmp - "$scratch/written"
}
show_json() {
    local file
    for file in $(accepted_samples); do
        if command -v python3 >/dev/null; then
            passes "show --json $file, read again" json_bytes "$file"
        else
            skip "show --json $file, read again" "there is no python3"
        fi
    done
    passes "docs/routine.1 names every key of --json" [ -z "$(unnamed_keys show samples/blocks.vtil)" ]
}

# long_file KIND: a routine of many blocks, or one with long lists of every kind.
long_file() {
    python3 -B - "$1" <<'END'
import sys
sys.path.insert(0, "samples")
import make

def many():
    instructions = [make.instruction("add", make.reg(1, 5, 64, 0), make.imm(9))] * 10
    return make.routine(blocks=[make.block(7 * n, instructions, [n], [n + 1]) for n in range(5000)])

def lists():
    instructions = [make.instruction("add", make.reg(1, n, 64, 0), make.imm(n), vip=n) for n in range(20000)]
    registers = [make.register(1, n, 64, 0) for n in range(5000)]
    return make.routine(own=make.convention(registers, registers[:33], registers[:32]),
                        special=[make.convention(shadow=n) for n in range(5000)],
                        blocks=[make.block(1, instructions, range(20000), range(31)), make.block(2, instructions[:65])])

sys.stdout.buffer.write(globals()[sys.argv[1]]())
END
}
# By looks at a book, each of which reads the whole image, this would take minutes.
show_long() {
    local kind file
    for kind in many lists; do
        file=$scratch/$kind.vtil
        if ! command -v python3 >/dev/null; then
            skip "show a long routine ($kind)" "there is no python3"
            continue
        fi
        long_file $kind >"$file"
        passes "show a long routine ($kind) within ten seconds" [ "$(timeout 10 "$routine" show "$file" | tail -n 1)" = end ]
        passes "show --json of it, read again" json_bytes "$file"
    done
}

show_refused() {
    expect "show a damaged file" 1 "" "routine: samples/wrong-mark.vtil: $refused_3" "$routine" show samples/wrong-mark.vtil
    expect "show an empty file" 1 "" "routine: /dev/null: $refused_1" "$routine" show /dev/null
    expect "show a missing file" 2 "" "routine: missing: not read: No such file or directory" "$routine" show missing
    expect "show a folder" 2 "" "routine: samples: not read: is a directory" "$routine" show --json samples
    expect "show two files" 2 "" "routine: too many files given to show
$try show --help" "$routine" show samples/minimal.vtil samples/minimal.vtil
    expect "show no file" 2 "" "routine: no file given to show
$try show --help" "$routine" show --json
}

show_failing_output() {
    status=0
    "$routine" show samples/minimal.vtil >&- 2>"$scratch/err" || status=$?
    output_fails "show, standard output closed" "Bad file descriptor"
    status=0
    "$routine" show --json samples/minimal.vtil >/dev/full 2>"$scratch/err" || status=$?
    output_fails "show, the disk full" "No space left on device"
    closed_pipe "show, the pipe closed" "$routine" show samples/minimal.vtil
    if [ -f "$scratch/many.vtil" ]; then
        # The failure shows before the end: what is left is not looked at.
        expect "show a long routine, the disk full" 2 "" "routine: standard output could not be written: No space left on device" \
            bash -c '"$0" show "$1" >/dev/full' "$routine" "$scratch/many.vtil"
        closed_pipe "show a long routine, the pipe closed" "$routine" show "$scratch/many.vtil"
    fi
}

# Over the library's limit: a routine of 16,777,217 bytes and more, all of it in one list.
too_large_to_open() {
    local name="show a routine over the limit"
    if ! command -v python3 >/dev/null; then
        skip "$name" "there is no python3"
        return
    fi
    python3 -B -c 'import sys; sys.path.insert(0, "samples"); import make
sys.stdout.buffer.write(make.routine(blocks=[make.block(1, prev=range(2097152))]))' >"$scratch/large.vtil"
    expect "$name" 1 "" "routine: $scratch/large.vtil: refused 11: image full: the new written size passes the image's length
routine: a routine of over 16,777,216 bytes can only be checked" "$routine" show "$scratch/large.vtil"
    expect "check it" 0 "$scratch/large.vtil: accepted, 16777366 bytes consumed" "" "$routine" check "$scratch/large.vtil"
    # Cut where the limit is, the file is short; cut after it, the routine is over the limit all the same.
    truncate -s 16777216 "$scratch/large.vtil"
    expect "show a file that is cut at the limit" 1 "" "routine: $scratch/large.vtil: $refused_1" "$routine" show "$scratch/large.vtil"
    truncate -s 16777300 "$scratch/large.vtil"
    expect "show a file that is cut after the limit" 1 "" "routine: $scratch/large.vtil: refused 11: image full: the new written size passes the image's length
routine: a routine of over 16,777,216 bytes can only be checked" "$routine" show "$scratch/large.vtil"
    rm "$scratch/large.vtil"
}

# What follows the routine is not read into memory.
endless_files() {
    local long=$scratch/long
    printf 'create 1\n' >"$scratch/script"
    expect "show a device without end" 1 "" "routine: /dev/zero: $refused_3" little_memory show /dev/zero
    expect "same, a device without end" 2 "" "routine: /dev/zero: $refused_3" little_memory same samples/blocks.vtil /dev/zero
    expect "normalize a device without end" 1 "" "routine: /dev/zero: $refused_3" little_memory normalize /dev/zero -o "$long"
    expect "edit a device without end" 1 "" "routine: /dev/zero: $refused_3" little_memory edit /dev/zero -s "$scratch/script"
    passes "nothing was written of them" [ ! -e "$long" ]
    cp samples/trailing.vtil "$long" && truncate -s 1G "$long"
    expect "same, a file of 1 GB with a short routine" 0 "$long and samples/minimal.vtil: one routine, 114 bytes written" "" \
        little_memory same "$long" samples/minimal.vtil
    expect "edit it" 0 "line 1: create 0x1: accepted, 150 bytes written, 20 of the journal used
1 line, 0 refused" "" little_memory edit "$long" -s "$scratch/script"
    expect "same, a pipe of 40 MB with a short routine" 0 "- and samples/minimal.vtil: one routine, 114 bytes written" "" \
        little_memory same - samples/minimal.vtil < <(head -c 40M "$long" 2>/dev/null)
    rm "$long"
}

# Normalizing --------------------------------------------------------------------------

normalize_files() {
    local to=$scratch/normalized
    mkdir "$to"
    expect "normalize" 0 "" "" "$routine" normalize samples/odd-flags.vtil -o "$to/out"
    expect "only the pad, the purge and the sp reset change" 1 "  6 377   0
 61   7   1
174   2   1" "" cmp -l samples/odd-flags.vtil "$to/out"
    passes "it is written as a new file" [ "$(stat -c %a "$to/out")" = "$(printf %o $((0666 & ~0$(umask))))" ]
    expect "normalize again changes nothing" 0 "" "" "$routine" normalize "$to/out" -o "$to/again"
    passes "the written form of a written form" cmp "$to/out" "$to/again"
    expect "what follows the routine is dropped" 0 "" "" "$routine" normalize samples/trailing.vtil -o "$to/again"
    passes "the smallest routine is left" cmp samples/minimal.vtil "$to/again"
    "$routine" normalize samples/odd-flags.vtil -o - >"$to/again"
    passes "normalize to standard output" cmp "$to/out" "$to/again"
    "$routine" normalize - -o - <samples/odd-flags.vtil | cat >"$to/again"
    passes "normalize from standard input to a pipe" cmp "$to/out" "$to/again"
    passes "no other file is left" has_only "$to" again out
}

normalize_over_files() {
    local to=$scratch/over
    mkdir "$to" && cp samples/odd-flags.vtil "$to/a" && chmod 640 "$to/a" && ln -s a "$to/link" && chmod 0755 "$to"
    "$routine" normalize samples/odd-flags.vtil -o "$scratch/written"
    expect "normalize a file over itself, by a link" 0 "" "" "$routine" normalize "$to/a" -o "$to/link"
    passes "the link is still one" [ -L "$to/link" ]
    passes "the file is the written form" cmp "$to/a" "$scratch/written"
    passes "the file's mode is kept" [ "$(stat -c %a "$to/a")" = 640 ]
    passes "no other file is left over" has_only "$to" a link
}

# What fails leaves the file as it was, and nothing beside it. As root nothing is forbidden, so root tries it as nobody.
normalize_fails() {
    local to=$scratch/fails before
    mkdir "$to" && cp samples/blocks.vtil "$to/good" && before=$(cksum <"$to/good")
    expect "normalize a damaged file" 1 "" "routine: samples/wrong-mark.vtil: $refused_3" \
        "$routine" normalize samples/wrong-mark.vtil -o "$to/good"
    expect "normalize without -o" 2 "" "routine: -o OUT is missing for normalize
$try normalize --help" "$routine" normalize samples/minimal.vtil
    expect "-o without a file" 2 "" "routine: no file given after -o
$try normalize --help" "$routine" normalize samples/minimal.vtil -o
    expect "-o twice" 2 "" "routine: given twice: -o
$try normalize --help" "$routine" normalize -o a samples/minimal.vtil -o b
    expect "into a folder that is not there" 2 "" "routine: $to/none/out: not written: No such file or directory" \
        "$routine" normalize samples/minimal.vtil -o "$to/none/out"
    expect "over a folder" 2 "" "routine: $to: not written: Is a directory" "$routine" normalize samples/minimal.vtil -o "$to"
    expect "to a file of no name" 2 "" "routine: : not written: No such file or directory" \
        "$routine" normalize samples/minimal.vtil -o ""
    expect "to a full device" 2 "" "routine: /dev/full: not written: No space left on device" \
        "$routine" normalize samples/minimal.vtil -o /dev/full
    passes "the device is still one" [ -c /dev/full ]
    expect "to a closed standard output" 2 "" "routine: -: not written: Bad file descriptor" \
        bash -c '"$0" normalize samples/minimal.vtil -o - >&-' "$routine"
    expect "over the user's limit of file sizes" 2 "" "routine: $to/good: not written: File too large" \
        bash -c 'ulimit -f 1 && "$0" normalize samples/all-operations.vtil -o "$1"' "$routine" "$to/good"
    passes "the good file is as it was" [ "$(cksum <"$to/good")" = "$before" ]
    passes "nothing is left beside it" has_only "$to" good
}

# A file system of two pages: the third does not fit.
full_disk() {
    local name="normalize onto a full disk" disk=$scratch/disk
    mkdir "$disk"
    if ! unshare -m mount -t tmpfs -o size=8k none "$disk" 2>/dev/null; then
        skip "$name" "no small file system can be mounted here"
        return
    fi
    expect "$name" 2 "114 good" "routine: $disk/good: not written: No space left on device" \
        unshare -m bash -c 'mount -t tmpfs -o size=8k none "$1" && cp samples/minimal.vtil "$1/good" &&
            { "$0" normalize samples/all-operations.vtil -o "$1/good"; status=$?; }
            echo $(stat -c %s "$1/good") $(ls -A "$1"); exit $status' "$routine" "$disk"
}

forbidden_folder() {
    local name="normalize into a forbidden folder" public=$scratch/public as=()
    mkdir -m 755 "$public"
    cp "$routine" samples/minimal.vtil "$public"
    mkdir "$public/shut" && cp samples/blocks.vtil "$public/shut/good" && chmod 666 "$public/shut/good" && chmod 555 "$public/shut"
    if [ -w "$public/shut" ]; then
        as=(setpriv --reuid 65534 --regid 65534 --clear-groups)
        if ! "${as[@]}" test -x "$public/routine" 2>/dev/null; then
            skip "$name" "this user can write everywhere, and no other user can be tried"
            return
        fi
    fi
    expect "$name" 2 "" "routine: $public/shut/good: not written: Permission denied" \
        "${as[@]}" "$public/routine" normalize "$public/minimal.vtil" -o "$public/shut/good"
    passes "the file there is as it was" cmp samples/blocks.vtil "$public/shut/good"
    chmod 755 "$public/shut"
}

# Whether two are one --------------------------------------------------------------------

# changed OFFSET BYTE: blocks.vtil with one byte set (the byte in octal).
changed() {
    cp samples/blocks.vtil "$scratch/changed.vtil"
    # shellcheck disable=SC2059 # the byte is an escape
    printf "\\$2" | dd of="$scratch/changed.vtil" bs=1 seek="$1" conv=notrunc status=none
}
differs() {
    changed "$2" "$3"
    expect "same: $1" 1 "samples/blocks.vtil and $scratch/changed.vtil: two routines: the written forms first differ at byte $2, in $4" "" \
        "$routine" same samples/blocks.vtil "$scratch/changed.vtil"
}
same_files() {
    expect "same: a file and itself" 0 "samples/blocks.vtil and samples/blocks.vtil: one routine, 1134 bytes written" "" \
        "$routine" same samples/blocks.vtil samples/blocks.vtil
    expect "same: bytes after it do not count" 0 "samples/trailing.vtil and -: one routine, 114 bytes written" "" \
        "$routine" same samples/trailing.vtil - <samples/minimal.vtil
    expect "same: pad and flags do not count" 0 "samples/odd-flags.vtil and $scratch/written: one routine, 182 bytes written" "" \
        "$routine" same samples/odd-flags.vtil "$scratch/written"
    differs "another machine" 4 001 "the header: 00 and 01"
    differs "another entry vip" 9 021 "the entry vip: 10 and 11"
    differs "another register" 20 000 "the conventions: 01 and 00"
    expect "same: more blocks" 1 "samples/minimal.vtil and samples/odd-flags.vtil: two routines: the written forms first differ at byte 60, in the conventions: 00 and 01" "" \
        "$routine" same samples/minimal.vtil samples/odd-flags.vtil
    differs "another vip of the first block" 350 001 "block 0: 00 and 01"
    differs "another last link of the second block" 968 001 "block 1: 00 and 01"
    differs "another vip of the last block" 969 021 "block 2: 20 and 11"
    differs "another last link of the last block" 1129 001 "block 2: 00 and 01"
}

same_fails() {
    expect "same: a damaged file" 2 "" "routine: samples/wrong-mark.vtil: $refused_3" \
        "$routine" same samples/blocks.vtil samples/wrong-mark.vtil
    expect "same: a missing file" 2 "" "routine: missing: not read: No such file or directory" \
        "$routine" same missing samples/blocks.vtil
    expect "same: a missing file and a damaged one" 2 "" "routine: missing: not read: No such file or directory
routine: samples/wrong-mark.vtil: $refused_3" "$routine" same missing samples/wrong-mark.vtil
    expect "same: standard input twice" 2 "" "routine: -: not read: standard input was read already" \
        "$routine" same - - <samples/blocks.vtil
    expect "same: one file" 2 "" "routine: too few files given to same
$try same --help" "$routine" same samples/blocks.vtil
    expect "same: the disk full" 2 "" "routine: standard output could not be written: No space left on device" \
        bash -c '"$0" same samples/blocks.vtil samples/minimal.vtil >/dev/full' "$routine"
}

# No stream open at all: the output file gets its bytes and nothing else.
closed_streams() {
    status=0
    "$routine" normalize samples/minimal.vtil -o "$scratch/alone" <&- >&- 2>&- || status=$?
    passes "normalize with every stream closed" [ "$status" = 0 ]
    passes "it wrote the routine and nothing else" cmp samples/minimal.vtil "$scratch/alone"
    status=0
    "$routine" show samples/minimal.vtil <&- >&- 2>&- || status=$?
    passes "show with every stream closed" [ "$status" = 2 ]
}

helps() {
    local command
    for command in show normalize same; do
        passes "help for $command" grep -q "^usage: routine $command " <("$routine" "$command" --help)
    done
    passes "the help says from where bytes are counted" grep -q "counted from 0" <("$routine" same --help)
}

show_text
show_json
show_long
show_refused
show_failing_output
too_large_to_open
endless_files
normalize_files
normalize_over_files
normalize_fails
full_disk
forbidden_folder
same_files
same_fails
closed_streams
helps
finish
