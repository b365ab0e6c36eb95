#!/usr/bin/env bash
# The command's and the Rust crate's tables of operations are the library's, and docs/FORMAT.md says what is so:
# its table of operations, and the bytes of its example. The current folder is the repository root.
set -u
script=format
. tests/count.sh

# The library's names, one a line, out of its constant table: six bytes for each, with zeros after it.
library_names() {
    awk '/^const NAMES/ { inside = 1 } inside { print } inside && /";$/ { exit }' crates/op/src/lib.rt |
        tr -d '\n\\ ' | sed 's/.*b"\(.*\)";/\1/' | sed 's/00*/ /g' | fold_names
}

# What is left has a space where zeros were; names of six bytes have none after them.
fold_names() {
    tr ' ' '\n' | awk '{ while (length($0) > 6) { print substr($0, 1, 6); $0 = substr($0, 7) } if (length($0)) print }'
}

library_counts() {
    awk '/^const COUNTS/ { inside = 1; next } inside && /\]/ { exit } inside' crates/op/src/lib.rt | tr -d ' ' | tr ',' '\n' | grep .
}

command_names() {
    awk '/^static const char \*const names/ { inside = 1; next } inside && /}/ { exit } inside { print }' host/operations.c |
        tr ',' '\n' | tr -d ' "' | grep .
}

crate_rows() {
    sed -n '/^pub const OPERATIONS/,/^];/p' bindings/rust/src/value.rs |
        sed -nE 's/^ *\("([a-z]+)", ([0-9])\),$/\1 \2/p' | awk '{ print NR - 1, $0 }'
}

# The rows of the table in docs/FORMAT.md: | number | name | operands | ..
page_rows() {
    sed -n 's/^| *\([0-9][0-9]*\) *| *`\([a-z]*\)` *| *\([0-9]\) *|.*/\1 \2 \3/p' docs/FORMAT.md
}

library_rows() {
    paste -d ' ' <(seq 0 48) <(library_names) <(library_counts)
}

# The rows of the example: | offset | `bytes` | .., as lines of offset and bytes in hexadecimal.
example_rows() {
    sed -n 's/^| *\([0-9][0-9]*\) *| *`\([0-9a-f][0-9a-f]\( [0-9a-fx]*\)*\)` *|.*/\1 \2/p' docs/FORMAT.md |
        awk '$3 == "x" { line = $1; for (i = 0; i < $4; i++) line = line " " $2; print line; next } { print }'
}

# The example's bytes, and whether each row's offset is where the row before it ends.
example_bytes() {
    example_rows | awk '$1 != at { print "a row at " $1 " where " at + 0 " is due" }
        { for (i = 2; i <= NF; i++) { print $i; at++ } }'
}

sample_bytes() {
    od -An -v -tx1 -w1 samples/odd-flags.vtil | tr -d ' '
}

# same NAME A B: two lists of 49 lines are the same.
same() {
    if [ "$(wc -l <<<"$2")" = 49 ] && diff <(echo "$2") <(echo "$3"); then pass "$1"; else fail "$1"; fi
}

same "the command's 49 names are the library's" "$(library_names)" "$(command_names)"
same "the Rust crate's 49 operations are the library's" "$(library_rows)" "$(crate_rows)"
same "the 49 operations of docs/FORMAT.md are the library's" "$(library_rows)" "$(page_rows)"
name="the example of docs/FORMAT.md is samples/odd-flags.vtil"
if diff <(example_bytes) <(sample_bytes); then pass "$name"; else fail "$name"; fi
finish
