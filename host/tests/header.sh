#!/usr/bin/env bash
# header.sh ARCHIVE SCRATCH: include/vtil.h by itself, in C and C++, and against the archive.
# The current folder is the repository root.
set -u
script=header
. tests/count.sh
archive=$1
scratch=$2
CC=${CC:-cc}
CXX=${CXX:-c++}
strict=(-Wall -Wextra -Werror -pedantic -Iinclude)

# try NAME COMMAND..: passes when the command succeeds.
try() {
    local name=$1
    shift
    if "$@"; then pass "$name"; else fail "$name"; fi
}

# The numbers of the refusals, as the library's definitions list them, and those of the kinds of calls.
number_asserts() {
    local number word
    sed -nE 's/^([a-z_]+) = ([0-9]+)$/\1 \2/p' crates/fields/specs/Refusals.antt | tr 'a-z' 'A-Z' |
        while read -r word number; do printf 'static_assert(VTIL_%s == %d, "%s");\n' "$word" "$number" "$word"; done
    number=0
    for word in CREATE REMOVE APPEND UNDO WALK_START WALK_NEXT WALK_ABANDON; do
        printf 'static_assert(VTIL_%s == %d, "%s");\n' "$word" "$number" "$word"
        number=$((number + 1))
    done
}

# The structs as the archive lays them out. A size that becomes another breaks every program that was compiled before.
size_asserts() {
    local type size
    while read -r type size; do
        printf 'static_assert(sizeof(vtil_%s) == %d, "%s");\n' "$type" "$size" "$type"
    done <<'END'
book 56
answer 64
walk_answer 80
immediate_desc 16
register_desc 24
operand_desc 48
instruction_desc 176
routine_read 64
convention_read 104
register_read 40
block_read 88
instruction_read 192
vip_read 24
routine_look 40
block_look 56
instruction_look 184
vip_look 16
convention_look 72
register_look 32
rates 24
charge_look 16
written 16
run_answer 88
END
}

write_sources() {
    # Included twice: the guard. Before anything else: the header includes what it needs.
    printf '#include "vtil.h"\n#include "vtil.h"\n' >"$scratch/alone.c"
    { cat "$scratch/alone.c"; printf '#include <assert.h>\n'; number_asserts; } >"$scratch/numbers.c"
    { cat "$scratch/alone.c"; printf '#include <assert.h>\n'; size_asserts; } >"$scratch/sizes.c"
    printf '#include "vtil.h"\nint main() { return vtil_check(nullptr, 0) == -VTIL_SHORT_FILE ? 0 : 1; }\n' \
        >"$scratch/linked.cpp"
    awk '/^```c$/ { inside = 1; next } /^```$/ { inside = 0 } inside' README.md >"$scratch/example.c"
    loop_source >"$scratch/loop.c"
    cents_source >"$scratch/cents.c"
    walk_source >"$scratch/walk.c"
}

# The header's loop over all instructions as it stands, in a program that prints the vip of each and ends with the refusal.
loop_source() {
    cat <<'END'
#include "vtil.h"
#include <inttypes.h>
#include <stdio.h>

static void use(const vtil_instruction_desc *instruction)
{
    printf("0x%" PRIx64 "\n", instruction->vip);
}

static uint64_t loop(const uint8_t *file, size_t file_len)
{
END
    sed -n '/^ \*     vtil_routine_read routine = /,/^ \*     }$/s/^ \* //p' include/vtil.h
    cat <<'END'
    return 0;
}

int main(void)
{
    static uint8_t file[65536];
    return (int)loop(file, fread(file, 1, sizeof file, stdin));
}
END
}

# The functions that the header declares and those that the archive defines are the same.
same_functions() {
    "$CC" -std=c11 -Iinclude -E -P "$scratch/alone.c" | grep -oE '\bvtil_[a-z_]+ *\(' | tr -d ' (' | sort -u \
        >"$scratch/declared"
    nm -g --defined-only "$archive" | awk 'NF == 3 { print $3 }' | sort -u >"$scratch/defined"
    [ -s "$scratch/declared" ] && diff "$scratch/declared" "$scratch/defined"
}

header_loop() {
    local status=0
    "$CC" -std=c11 "${strict[@]}" "$scratch/loop.c" "$archive" -o "$scratch/loop" || return 1
    "$scratch/loop" <samples/blocks.vtil >"$scratch/vips" || return 1
    diff "$scratch/vips" <(sed -nE 's/.*; vip (0x[0-9a-f]+),.*/\1/p' host/tests/blocks.shown) || return 1
    "$scratch/loop" <samples/wrong-mark.vtil || status=$?
    [ "$status" = 3 ]
}

# The header's way to make cents of a sum, as it stands, at sums whose cents are plain.
cents_source() {
    cat <<'END'
#include "vtil.h"

static uint64_t cents(uint64_t sum)
{
END
    sed -n '/^ \*     sum \/ 100/s/^ \* *\(.*\)$/    return \1;/p' include/vtil.h
    cat <<'END'
}

int main(void)
{
    static const uint64_t due[][2] = {
        {0, 0}, {1, 1}, {99, 1}, {100, 1}, {101, 2}, {200, 2}, {201, 3}, {UINT64_MAX - 15, 184467440737095516},
        {UINT64_MAX - 14, 184467440737095517}, {UINT64_MAX, 184467440737095517},
    };
    for (size_t i = 0; i < sizeof due / sizeof due[0]; i++)
        if (cents(due[i][0]) != due[i][1])
            return 1;
    return 0;
}
END
}

header_cents() {
    "$CC" -std=c11 "${strict[@]}" "$scratch/cents.c" -o "$scratch/cents" && "$scratch/cents"
}

# The header's walk over all blocks as it stands, in a program that opens a file and writes what is sent to standard output.
walk_source() {
    cat <<'END'
#include "vtil.h"
#include <stdio.h>

static void send(const uint8_t *bytes, size_t length)
{
    fwrite(bytes, 1, length, stdout);
}

static uint64_t walk(vtil_book book, uint8_t *image, size_t image_len, uint8_t *journal, size_t journal_len)
{
END
    sed -n '/^ \*     vtil_answer started = /,/^ \*     }$/s/^ \* //p' include/vtil.h
    cat <<'END'
    return book.walk;
}

int main(void)
{
    static uint8_t file[65536], image[65536], journal[1];
    vtil_rates rates = {{0}};
    size_t len = fread(file, 1, sizeof file, stdin);
    vtil_book book = vtil_open(file, len, image, sizeof image, journal, sizeof journal, rates).book;
    return (int)walk(book, image, sizeof image, journal, sizeof journal);
}
END
}

# The blocks stand at the end of the file, which is in written form. A file that is refused has a book of zeros, which is too.
header_walk() {
    local status=0
    "$CC" -std=c11 "${strict[@]}" "$scratch/walk.c" "$archive" -o "$scratch/walk" || return 1
    "$scratch/walk" <samples/blocks.vtil >"$scratch/sent" || return 1
    [ "$(stat -c %s "$scratch/sent")" = 786 ] && cmp "$scratch/sent" <(tail -c 786 samples/blocks.vtil) || return 1
    "$scratch/walk" <samples/wrong-mark.vtil >"$scratch/sent" || status=$?
    [ "$status" = 13 ] && ! [ -s "$scratch/sent" ]
}

readme_example() {
    "$CC" -std=c11 "${strict[@]}" "$scratch/example.c" "$archive" -o "$scratch/example" || return 1
    [ "$("$scratch/example" <samples/trailing.vtil)" = "a routine of 150 bytes" ] || return 1
    [ "$("$scratch/example" <samples/wrong-mark.vtil)" = "refused 3" ]
}

# The example has room for 1 MiB: it takes a file of that size, and says so of a longer one.
readme_example_long() {
    local status=0
    cp samples/minimal.vtil "$scratch/long" && truncate -s 1048576 "$scratch/long"
    [ "$("$scratch/example" <"$scratch/long")" = "a routine of 150 bytes" ] || return 1
    printf x >>"$scratch/long"
    "$scratch/example" <"$scratch/long" >"$scratch/said" || status=$?
    [ "$status" = 2 ] && [ "$(cat "$scratch/said")" = "not read, or over 1 MiB" ]
}

write_sources
try "alone as C11, included twice" "$CC" -std=c11 "${strict[@]}" -fsyntax-only "$scratch/alone.c"
try "the numbers of the refusals and of the kinds of calls" "$CC" -std=c11 "${strict[@]}" -fsyntax-only "$scratch/numbers.c"
try "the sizes of the structs" "$CC" -std=c11 "${strict[@]}" -fsyntax-only "$scratch/sizes.c"
if command -v "$CXX" >/dev/null; then
    try "alone as C++17, included twice" "$CXX" -x c++ -std=c++17 "${strict[@]}" -fsyntax-only "$scratch/alone.c"
    try "linked from C++" "$CXX" -std=c++17 "${strict[@]}" "$scratch/linked.cpp" "$archive" -o "$scratch/linked"
    try "called from C++" "$scratch/linked"
else
    skip "C++17" "there is no C++ compiler ($CXX)"
fi
try "declares the functions that the archive defines" same_functions
try "the header's loop over all instructions" header_loop
try "the header's cents of a sum" header_cents
try "the header's walk over all blocks" header_walk
try "the README's example" readme_example
try "the README's example cuts no file" readme_example_long
finish
