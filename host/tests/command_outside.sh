#!/usr/bin/env bash
# command_outside.sh ROUTINE SCRATCH: `routine outside`: the copy, that it is never written over its own file, words and exit status.
set -u
script="command_outside"
. host/tests/expect.sh
own="not written: it is the file that is read, and its values would be lost"

# The copy -----------------------------------------------------------------------------

# alike FILE COPY: `show` says the same of both, but that the copy's immediates are 0.
alike() {
    diff <("$routine" show "$1" | sed -E 's/immediate 0x[0-9a-f]+ bits/immediate 0x0 bits/g') <("$routine" show "$2")
}

# due_bytes FILE: the copy's bytes, made of what `show --json` says of the file.
due_bytes() {
    "$routine" show --json "$1" | sed -E 's/("kind": "immediate", "value": )"0x[0-9a-f]+"/\1"0x0"/g' |
        python3 host/tests/json_bytes.py
}

# copies SAMPLE: it is read from $to/file.
copies() {
    local size
    fresh
    cp "$1" "$to/file"
    "$routine" normalize "$1" -o "$scratch/written" && size=$(stat -c %s "$scratch/written")
    expect "outside: $1" 0 "" "" "$routine" outside "$to/file" -o "$to/copy"
    passes "outside: $1: only the values of immediates are others" alike "$1" "$to/copy"
    expect "outside: $1: a routine of the same length, nothing after it" 0 "$to/copy: accepted, $size bytes consumed" "" \
        "$routine" check "$to/copy"
    if command -v python3 >/dev/null; then
        passes "outside: $1: its bytes" cmp "$to/copy" <(due_bytes "$1")
    else
        skip "outside: $1: its bytes" "there is no python3"
    fi
    passes "outside: $1: what was read is as it was" cmp "$to/file" "$1"
    expect "outside: $1: the copy of the copy" 0 "" "" "$routine" outside "$to/copy" -o "$to/again"
    passes "outside: $1: it is the same" cmp "$to/copy" "$to/again"
    passes "outside: $1: no other file is left" has_only "$to" again copy file
}

all_samples() {
    local file
    for file in $(accepted_samples); do copies "$file"; done
    "$routine" outside samples/trailing.vtil -o "$to/copy"
    passes "outside: bytes after the routine are not in the copy" cmp "$to/copy" samples/minimal.vtil
    "$routine" outside samples/blocks.vtil -o "$to/copy"
    # The immediates there are 0x1122334455667788, 8, 0, 0x1010, 0x1020, 0x1020 and 2^64 - 1.
    passes "outside: 23 bytes of a sample's immediates are not 0" [ "$(cmp -l samples/blocks.vtil "$to/copy" | wc -l)" = 23 ]
    passes "outside: in its copy they are" [ -z "$(cmp -l samples/blocks.vtil "$to/copy" | grep -v ' 0$')" ]
}

# with_value FILE VALUE WIDTH: makes the smallest sample's routine with one block, in it a vexit of this immediate, both in
# hexadecimal as they stand in a file.
with_value() {
    printf 'create 0x40\nappend 0x40 05000000 7665786974 01000000 00000000 %s %s %s\n' "$2" "$3" \
        "0700000000000000 f8ffffffffffffff 01000000 01" >"$scratch/script"
    "$routine" edit samples/minimal.vtil -s "$scratch/script" -o "$1" >/dev/null
    "$routine" outside "$1" -o "$1.copy"
}

# has_bytes FILE HEX: the bytes, two digits and a blank before each, stand somewhere in the file.
has_bytes() {
    od -An -v -tx1 "$1" | tr -d '\n' | grep -qF -- "$2"
}
has_no_bytes() {
    ! has_bytes "$@"
}

values() {
    local wide=40000000 narrow=20000000 secret=" 88 77 66 55 44 33 22 11"
    fresh
    with_value "$to/one" 8877665544332211 $wide
    with_value "$to/other" ffffffffffffffff $wide
    with_value "$to/low" 0100000000000000 $wide
    with_value "$to/high" 0000000000000080 $wide
    with_value "$to/zero" 0000000000000000 $wide
    with_value "$to/narrow" 8877665544332211 $narrow
    with_value "$to/narrow-zero" 0000000000000000 $narrow
    passes "outside: a value" cmp "$to/one.copy" "$to/zero"
    passes "outside: another value, the same copy" cmp "$to/other.copy" "$to/one.copy"
    passes "outside: a value of the lowest byte alone" cmp "$to/low.copy" "$to/one.copy"
    passes "outside: a value of the highest byte alone" cmp "$to/high.copy" "$to/one.copy"
    passes "outside: a value of 0 is copied as it is" cmp "$to/zero.copy" "$to/zero"
    passes "outside: another width is kept" cmp "$to/narrow.copy" "$to/narrow-zero"
    expect "outside: another width, another copy" 1 \
        "$to/one.copy and $to/narrow.copy: two routines: the written forms first differ at byte 167, in block 0: 40 and 20" "" \
        "$routine" same "$to/one.copy" "$to/narrow.copy"
    passes "outside: the value can be found in the file" has_bytes "$to/one" "$secret"
    passes "outside: but not in the copy" has_no_bytes "$to/one.copy" "$secret"
    passes "outside: nor in that of another width" has_no_bytes "$to/narrow.copy" "$secret"
    "$routine" outside samples/blocks.vtil -o "$to/blocks"
    passes "outside: the value of a sample can be found in it" has_bytes samples/blocks.vtil "$secret"
    passes "outside: but not in its copy" has_no_bytes "$to/blocks" "$secret"
}

# places FACTOR: every operation with an immediate or a register at each of its places; the values are multiples of FACTOR.
places() {
    python3 -B - "$1" <<'END'
import itertools
import sys
sys.path.insert(0, "samples")
import make

factor = int(sys.argv[1])
widths = itertools.cycle([64, 0, 1, 80, 2**32 - 1])
values = (factor * (n * 0x9E3779B97F4A7C15 | 1) % 2**64 for n in itertools.count(1))
kinds = {"value": lambda: make.imm(next(values), next(widths)),
         "register": lambda: make.reg(2**64 - 1, 0x02FFFFFFFFFFFFFF, -1, 2**31 - 1)}

def instructions():
    for name, count in make.OPERATIONS:
        for choice in itertools.product(kinds, repeat=count):
            yield make.instruction(name, *[kinds[kind]() for kind in choice], vip=2**64 - 1, sp_offset=-1,
                                   sp_index=2**32 - 1, sp_reset=1)

blocks = [make.block(vip, list(instructions()), [2**64 - 1], [3, 2**63], -1, 2**32 - 1, 5) for vip in (9, 2**64 - 1, 3)]
register = make.register(2**64 - 1, 0x01FFFFFFFFFFFFFF, -1, -1)
full = make.convention([register] * 3, [register], [register] * 2, register, 2**64 - 1, 1)
sys.stdout.buffer.write(make.routine(make.header(1), 2**64 - 1, full, full, [full, make.convention(), full], blocks))
END
}
every_place() {
    if ! command -v python3 >/dev/null; then
        skip "outside: immediates at every place" "there is no python3"
        return
    fi
    fresh
    places 0 >"$scratch/due"
    places 1 >"$scratch/one.vtil"
    places 3 >"$scratch/three.vtil"
    expect "outside: immediates at every place" 0 "" "" "$routine" outside "$scratch/one.vtil" -o "$to/one"
    passes "outside: each of them is 0, and nothing else is" cmp "$to/one" "$scratch/due"
    expect "outside: other immediates at every place" 0 "" "" "$routine" outside "$scratch/three.vtil" -o "$to/three"
    passes "outside: the same copy" cmp "$to/three" "$scratch/due"
}

# Names of files ---------------------------------------------------------------------------

# copied_to NAME OUT COMMAND..: runs the command, which writes the copy of blocks.vtil there.
copied_to() {
    expect "outside: $1" 0 "" "" "${@:3}"
    passes "outside: $1: it is there" cmp "$2" "$scratch/copy"
}
names() {
    fresh
    copied_to "standard input" "$to/a" "$routine" outside - -o "$to/a" <samples/blocks.vtil
    copied_to "standard input from a pipe" "$to/b" "$routine" outside - -o "$to/b" < <(cat samples/blocks.vtil)
    passes "outside: no other file is left" has_only "$to" a b
    passes "outside: it is written as a new file" [ "$(stat -c %a "$to/a")" = "$(printf %o $((0666 & ~0$(umask))))" ]
    mkfifo "$to/pipe"
    cat samples/blocks.vtil >"$to/pipe" &
    copied_to "a named pipe" "$to/c" "$routine" outside "$to/pipe" -o "$to/c"
    wait $!
    copied_to "-o first" "$to/d" "$routine" outside -o "$to/d" samples/blocks.vtil
    copied_to "a name of two lines" "$to/two
lines" "$routine" outside samples/blocks.vtil -o "$to/two
lines"
    cd "$to" || exit 2
    cp "$samples/blocks.vtil" ./-x
    copied_to "a file like an option, after --" e "$routine" outside -o e -- -x
    copied_to "to a file of one dash" ./- "$routine" outside ./-x -o ./-
    cd - >/dev/null || exit 2
}
standard_output() {
    fresh
    "$routine" outside samples/blocks.vtil -o - >"$to/a"
    passes "outside to standard output" cmp "$to/a" "$scratch/copy"
    "$routine" outside - -o - <samples/blocks.vtil | cat >"$to/a"
    passes "outside from standard input to a pipe" cmp "$to/a" "$scratch/copy"
    { echo before && "$routine" outside samples/blocks.vtil -o "$to/a" && echo after; } >"$to/a"
    passes "outside to the file that standard output is" cmp "$to/a" <(echo before && cat "$scratch/copy" && echo after)
    expect "outside to a file, standard output closed" 0 "" "" \
        bash -c '"$0" outside samples/blocks.vtil -o "$1" >&-' "$routine" "$to/b"
    passes "outside to a file, standard output closed: it is there" cmp "$to/b" "$scratch/copy"
    expect "outside to a file, standard output full" 0 "" "" \
        bash -c '"$0" outside samples/blocks.vtil -o "$1" >/dev/full' "$routine" "$to/c"
    status=0
    "$routine" outside samples/blocks.vtil -o "$to/d" <&- >&- 2>&- || status=$?
    passes "outside with every stream closed" [ "$status" = 0 ]
    passes "outside with every stream closed: it is there" cmp "$to/d" "$scratch/copy"
}
replaced_files() {
    fresh
    cp samples/all-operations.vtil "$to/old" && chmod 640 "$to/old" && ln -s old "$to/link" && ln -s new "$to/nothing"
    copied_to "over a longer file, by a link" "$to/old" "$routine" outside samples/blocks.vtil -o "$to/link"
    copied_to "by a link to nothing" "$to/new" "$routine" outside samples/blocks.vtil -o "$to/nothing"
    passes "outside: the links stay" [ "$(readlink "$to/link" "$to/nothing" | tr '\n' ' ')" = "old new " ]
    passes "outside: the old file's mode stays" [ "$(stat -c %a "$to/old")" = 640 ]
    passes "outside: nothing else is left" has_only "$to" link new nothing old
}

# The pipe takes so much only while the command reads it, and has an end only when the last line has run.
watched() {
    cat samples/blocks.vtil && head -c 1000000 /dev/zero
    { ls -A "$to" && cat "$to/old"; } >"$scratch/meanwhile" 2>&1
}
while_reading() {
    fresh
    echo kept >"$to/old"
    copied_to "an old file" "$to/old" "$routine" outside - -o "$to/old" < <(watched)
    passes "outside: while FILE is read it is as it was" [ "$(cat "$scratch/meanwhile")" = "old
kept" ]
    copied_to "a new file" "$to/new" "$routine" outside - -o "$to/new" < <(watched)
    passes "outside: while FILE is read it is not there" [ "$(head -n 1 "$scratch/meanwhile")" = old ]
}

# The file that is read ------------------------------------------------------------------------

# many_names: the file $to/a, and other names of it.
many_names() {
    fresh
    mkdir "$to/folder"
    cp samples/blocks.vtil "$to/a"
    ln "$to/a" "$to/hard"
    ln -s a "$to/link"
    ln -s link "$to/chain"
    ln -s hard "$to/to-hard"
    ln -s ../a "$to/folder/up"
    ln -s . "$to/around"
    state >"$scratch/state"
}
state() {
    find "$to" -mindepth 1 -printf '%P %i %n %s %m %T@ %l\n' | sort
    cksum <"$to/a"
}
untouched() {
    diff "$scratch/state" <(state)
}

# own NAME FILE OUT [SHELL]: not written, and nothing is changed. With SHELL it is run by this line of a shell, in which $0 is
# the command, $1 FILE and $2 OUT.
own() {
    local run=("$routine" outside "$2" -o "$3")
    if [ $# = 4 ]; then run=(bash -c "$4" "$routine" "$2" "$3"); fi
    expect "outside: $1" 2 "" "routine: $3: $own" "${run[@]}"
    passes "outside: $1: nothing is changed" untouched
}
other_paths() {
    own "over itself" "$to/a" "$to/a"
    own "over itself, with a dot in its path" "$to/a" "$to/./a"
    own "over itself, there and back" "$to/folder/../a" "$to/a"
    own "over itself, in a folder by a link" "$to/a" "$to/around/a"
    cd "$to" || exit 2
    own "over itself, by its name alone" a a
    own "over itself, from this folder" ./a a
    own "over itself, by its whole path" a "$to/a"
    cd - >/dev/null || exit 2
}
links() {
    own "over itself, by a link" "$to/a" "$to/link"
    own "over itself, by a link to a link" "$to/a" "$to/chain"
    own "over itself, by a link in another folder" "$to/a" "$to/folder/up"
    own "a link over the file that it leads to" "$to/link" "$to/a"
    own "a link over itself" "$to/link" "$to/link"
    own "a link over another link" "$to/folder/up" "$to/chain"
    own "over a hard link" "$to/a" "$to/hard"
    own "a hard link over the file" "$to/hard" "$to/a"
    own "over a link to a hard link" "$to/a" "$to/to-hard"
}
standard_streams() {
    own "standard input over its file" - "$to/a" <"$to/a"
    own "standard input over its file, by a link" - "$to/link" <"$to/a"
    own "standard input over its file, by a hard link" - "$to/hard" <"$to/a"
    own "standard input that could be written, over its file" - "$to/a" <>"$to/a"
    own "standard input by a link over its file" - "$to/a" <"$to/chain"
    own "over itself by standard output" "$to/a" - '"$0" outside "$1" -o "$2" 1<>"$1"'
    own "after itself by standard output" "$to/a" - '"$0" outside "$1" -o "$2" >>"$1"'
    own "a link over itself by standard output" "$to/link" - '"$0" outside "$1" -o "$2" 1<>"$1"'
    own "standard input over its file by standard output" - - "\"\$0\" outside - -o - 1<>'$to/a'" <"$to/a"
    if [ -e /dev/stdin ] && [ -e /dev/stdout ]; then
        own "standard input by its name" /dev/stdin "$to/a" <"$to/a"
        own "standard output by its name" "$to/a" /dev/stdout '"$0" outside "$1" -o "$2" 1<>"$1"'
    else
        skip "outside: standard streams by their names" "there is no /dev/stdin or /dev/stdout"
    fi
    rest() { "$routine" outside - -o "$to/a" 2>/dev/null; cat; }
    passes "outside: then standard input is left as it is" cmp samples/blocks.vtil <(rest <"$to/a")
}

# What is no file that is read, or nothing that could be lost.
not_itself() {
    many_names
    cp "$to/a" "$to/twin"
    copied_to "over a file of the same bytes" "$to/twin" "$routine" outside "$to/a" -o "$to/twin"
    passes "outside: over a file of the same bytes: what was read is as it was" cmp "$to/a" samples/blocks.vtil
    copied_to "over a file that is not standard input" "$to/twin" "$routine" outside "$to/a" -o "$to/twin" <"$to/twin"
    copied_to "from a file that standard input is" "$to/twin" "$routine" outside "$to/a" -o "$to/twin" <"$to/a"
    expect "outside: a device that keeps nothing, over itself" 1 "" "routine: /dev/null: $refused_1" \
        "$routine" outside /dev/null -o /dev/null
    expect "outside: a folder over itself" 2 "" "routine: $to: not read: is a directory" "$routine" outside "$to" -o "$to"
    expect "outside: a missing file over itself" 2 "" "routine: $to/none: not read: No such file or directory" \
        "$routine" outside "$to/none" -o "$to/none"
    passes "outside: it is not made" [ ! -e "$to/none" ]
    many_names
    cp samples/wrong-mark.vtil "$to/a"
    expect "outside: a damaged file over itself" 2 "" "routine: $to/a: $own" "$routine" outside "$to/a" -o "$to/a"
}
# It is not opened: the number is one that no driver has.
block_device() {
    if ! mknod "$to/disk" b 60 0 2>/dev/null; then
        skip "outside: a disk over itself" "no device can be made here"
        return
    fi
    expect "outside: a disk over itself" 2 "" "routine: $to/disk: $own" "$routine" outside "$to/disk" -o "$to/disk"
}

# What is wrong with the file ---------------------------------------------------------------------

kept() {
    has_only "$to" old && [ "$(cat "$to/old")" = kept ]
}

# not_copied NAME STATUS ERR FILE [COMMAND]: neither a new file nor an old one is written.
not_copied() {
    local command=${5:-$routine}
    expect "outside: $1" "$2" "" "routine: $4: $3" "$command" outside "$4" -o "$to/old"
    passes "outside: $1: the old file stays" kept
}
unread_files() {
    local file words
    fresh
    echo kept >"$to/old"
    while IFS=: read -r file words; do
        not_copied "$file" 1 "${words# }" "$file"
        expect "outside: $file, to a new file" 1 "" "routine: $file:$words" "$routine" outside "$file" -o "$to/new"
    done < <(grep ': refused ' samples/EXPECTED)
    not_copied "an empty file" 1 "$refused_1" /dev/null
    not_copied "an empty standard input" 1 "$refused_1" - </dev/null
    not_copied "a damaged file from a pipe" 1 "$refused_3" - < <(cat samples/wrong-mark.vtil)
    not_copied "a missing file" 2 "not read: No such file or directory" missing
    not_copied "a file of no name" 2 "not read: No such file or directory" ""
    not_copied "a folder" 2 "not read: is a directory" samples
    not_copied "a failing read" 2 "not read: Input/output error" /proc/self/mem
    not_copied "a closed standard input" 2 "not read: Bad file descriptor" - <&-
    not_copied "a device without end" 1 "$refused_3" /dev/zero little_memory
    expect "outside: a missing file, to standard output" 2 "" "routine: missing: not read: No such file or directory" \
        "$routine" outside missing -o -
    expect "outside: a damaged file, to standard output" 1 "" "routine: samples/wrong-mark.vtil: $refused_3" \
        "$routine" outside samples/wrong-mark.vtil -o -
    passes "outside: nothing was written by any of them" kept
}

# large LENGTH: a routine of this many bytes, in which a vexit has an immediate; most of it is one list.
large() {
    python3 -B -c 'import sys; sys.path.insert(0, "samples"); import make
made = lambda links: make.routine(blocks=[make.block(1, [make.instruction("vexit", make.imm(2**64 - 1))], range(links))])
sys.stdout.buffer.write(made((int(sys.argv[1]) - len(made(0))) // 8))' "$1"
}
limits() {
    local name="outside: the largest routine"
    if ! command -v python3 >/dev/null; then
        skip "$name" "there is no python3"
        return
    fi
    large 16777216 >"$scratch/large.vtil"
    fresh
    expect "$name" 0 "" "" little_memory outside "$scratch/large.vtil" -o "$to/large"
    passes "$name: its value is 0, and nothing else is changed" diff <(printf '%s 377 0\n' {160..167}) \
        <(cmp -l "$scratch/large.vtil" "$to/large" | awk '{ print $1, $2, $3 }')
    echo kept >"$to/old" && rm "$to/large"
    large 16777224 >"$scratch/large.vtil"
    not_copied "a routine over the limit" 1 "refused 11: image full: the new written size passes the image's length
routine: a routine of over 16,777,216 bytes can only be checked" "$scratch/large.vtil"
    cp samples/trailing.vtil "$scratch/large.vtil" && truncate -s 1G "$scratch/large.vtil"
    expect "outside: a file of 1 GB with a short routine" 0 "" "" little_memory outside "$scratch/large.vtil" -o "$to/old"
    passes "outside: the copy is short too" cmp "$to/old" samples/minimal.vtil
    rm "$scratch/large.vtil"
}

# What can't be written -----------------------------------------------------------------------------

# unwritten NAME OUT PROBLEM [COMMAND..]: blocks.vtil is not copied there.
unwritten() {
    local run=("$routine" outside samples/blocks.vtil -o "$2")
    if [ $# -gt 3 ]; then run=("${@:4}"); fi
    expect "outside: $1" 2 "" "routine: $2: not written: $3" "${run[@]}"
}
bad_places() {
    fresh
    echo kept >"$to/old"
    unwritten "into a folder that is not there" "$to/none/out" "No such file or directory"
    unwritten "into a file" "$to/old/out" "Not a directory"
    unwritten "over a folder" "$to" "Is a directory"
    unwritten "to a file of no name" "" "No such file or directory" \
        bash -c 'cd "$1" && exec "$0" outside "$2" -o ""' "$routine" "$to" "$samples/blocks.vtil"
    unwritten "to a full device" /dev/full "No space left on device"
    passes "outside: the device is still one" [ -c /dev/full ]
    unwritten "to a closed standard output" - "Bad file descriptor" \
        bash -c '"$0" outside samples/blocks.vtil -o - >&-' "$routine"
    unwritten "to a full standard output" - "No space left on device" \
        bash -c '"$0" outside samples/blocks.vtil -o - >/dev/full' "$routine"
    unwritten "over the user's limit of file sizes" "$to/old" "File too large" \
        bash -c 'ulimit -f 1 && exec "$0" outside samples/blocks.vtil -o "$1"' "$routine" "$to/old"
    ln -s none/new "$to/link"
    unwritten "a link to nothing, its folder not there" "$to/link" "No such file or directory"
    rm "$to/link"
    passes "outside: the old file is as it was, and nothing is left beside it" kept
}

# As root every file can be read and written, so root tries it as nobody.
barred_files() {
    local public=$scratch/public as=()
    mkdir -m 755 "$public"
    cp "$routine" samples/blocks.vtil "$public"
    cp samples/blocks.vtil "$public/unreadable" && chmod 000 "$public/unreadable"
    fresh
    chmod 777 "$to"
    echo kept >"$to/old" && chmod 444 "$to/old"
    if [ -r "$public/unreadable" ]; then
        as=(as_nobody --clear-groups)
        if ! "${as[@]}" test -x "$public/routine" 2>/dev/null; then
            skip "outside: files that one may not read or write" "no other user can be tried"
            return
        fi
    fi
    as=("${as[@]}" "$public/routine" outside)
    expect "outside: an unreadable file" 2 "" "routine: $public/unreadable: not read: Permission denied" \
        "${as[@]}" "$public/unreadable" -o "$to/old"
    expect "outside: an unreadable file over itself" 2 "" "routine: $public/unreadable: $own" \
        "${as[@]}" "$public/unreadable" -o "$public/unreadable"
    unwritten "a file that one may not write" "$to/old" "Permission denied" "${as[@]}" "$public/blocks.vtil" -o "$to/old"
    chmod 555 "$to"
    unwritten "into a folder that one may not write" "$to/new" "Permission denied" "${as[@]}" "$public/blocks.vtil" -o "$to/new"
    chmod 755 "$to"
    passes "outside: the old file is as it was" kept
}

full_disks() {
    fresh
    echo kept >"$to/old"
    unwritten "the disk full" "$to/old" "No space left on device" with_failing "full 1" outside samples/blocks.vtil -o "$to/old"
    unwritten "the disk full, a new file" "$to/new" "No space left on device" \
        with_failing "full 1" outside samples/blocks.vtil -o "$to/new"
    passes "outside: the old file is as it was, and nothing is left of the new one" kept
    expect "outside: a folder that can't be synced" 2 "" \
        "routine: $to/old: written, but a crash may undo it, since its folder could not be synced: Input/output error" \
        with_failing folder outside samples/blocks.vtil -o "$to/old"
    passes "outside: it is written all the same" cmp "$to/old" "$scratch/copy"
}
# A signal that ends the command ends it when the file is whole.
signals() {
    local name number
    for name in INT TERM; do
        number=$(kill -l $name)
        fresh
        status=0
        (ulimit -c 0 && with_failing "signal $number" outside samples/blocks.vtil -o "$to/a") 2>"$scratch/err" || status=$?
        passes "outside: SIG$name while the copy is written" [ "$status" = $((128 + number)) ]
        passes "outside: SIG$name leaves it whole" cmp "$to/a" "$scratch/copy"
        passes "outside: SIG$name leaves nothing else" has_only "$to" a
    done
}

# Usage, help and manual -------------------------------------------------------------------------------

# misused NAME PROBLEM WORD..
misused() {
    expect "outside: $1" 2 "" "routine: $2
$try outside --help" "$routine" outside "${@:3}"
}
usage() {
    local unknown="unknown option (for a file of that name write ./ before it):"
    fresh
    misused "no file" "no file given to outside"
    misused "no file, but -o" "no file given to outside" -o "$to/a"
    misused "no -o" "-o OUT is missing for outside" samples/blocks.vtil
    misused "nothing after -o" "no file given after -o" samples/blocks.vtil -o
    misused "-o twice" "given twice: -o" -o "$to/a" samples/blocks.vtil -o "$to/b"
    misused "two files" "too many files given to outside" samples/blocks.vtil samples/minimal.vtil -o "$to/a"
    misused "a word after OUT" "too many files given to outside" samples/blocks.vtil -o "$to/a" "$to/b"
    misused "an option of another command" "$unknown --json" --json samples/blocks.vtil -o "$to/a"
    misused "another one" "$unknown -s" samples/blocks.vtil -s x -o "$to/a"
    misused "an unknown option" "$unknown --out" samples/blocks.vtil --out "$to/a"
    passes "outside: nothing was written by any of them" is_empty "$to"
}

# The manual's example, in a folder that has the samples.
page_example() {
    sed -n '/^\$ routine show samples.blocks.vtil | grep mov$/,/^\.fi$/p' docs/routine.1 | sed '$d; s/\\-/-/g'
}
run_example() (
    cd "$to" && ln -s "$samples" samples || exit 2
    PATH=$(dirname "$routine"):$PATH
    while read -r line; do echo "$line" && eval "${line#\$ }"; done < <(grep '^\$ ' <<<"$1")
)
example() {
    local page
    page=$(page_example)
    fresh
    passes "the manual has an example of outside" grep -q '^\$ routine outside ' <<<"$page"
    expect "it gives what the manual says" 0 "$page" "" run_example "$page"
}
helps() {
    passes "help for outside" grep -q '^usage: routine outside FILE -o OUT$' <("$routine" outside --help)
    passes "the help lists outside" grep -q '^  routine outside FILE -o OUT$' <("$routine" --help)
    passes "the help says that OUT is not FILE" grep -q "can't be FILE" <("$routine" outside --help)
    passes "so does docs/routine.1" grep -q "can't be .I FILE" \
        <(sed -n '/^\.SS outside$/,/^\.SH/p' docs/routine.1 | tr '\n' ' ')
    passes "README.md lists outside" grep -qE '^ +routine outside FILE -o OUT ' README.md
    example
}

all_samples
values
every_place
"$routine" outside samples/blocks.vtil -o "$scratch/copy"
names
standard_output
replaced_files
while_reading
many_names
other_paths
links
standard_streams
not_itself
block_device
unread_files
limits
bad_places
barred_files
if build_failing; then
    full_disks
    signals
else
    skip "outside: calls that fail" "nothing that is loaded before libc can be built"
fi
usage
helps
finish
