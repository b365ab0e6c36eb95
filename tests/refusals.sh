#!/usr/bin/env bash
# The refusals have the same numbers, names and words wherever they are listed: in the library's definitions and code, the
# header, docs/SPEC.md, the command and the Rust crate. The current folder is the repository root.
set -u
script=refusals
. tests/count.sh

# Each lists its refusals, one a line: number, name in lower case with dashes, and words where it has any.

definitions() {
    sed -nE 's/^([a-z_]+) = ([0-9]+)$/\2 \1/p' crates/fields/specs/Refusals.antt | tr _ -
}

code() {
    sed -n '/^pub enum Refusal {/,/^}/p' crates/fields/src/lib.rt | sed -nE 's/^    ([A-Z][A-Za-z]+) = ([0-9]+),$/\1 \2/p' | named
}

header() {
    sed -n '/^enum vtil_refusal {/,/^};/p' include/vtil.h |
        sed -nE 's|^ *VTIL_([A-Z_]+) = ([0-9]+),? +/\* (.*) \*/$|\1 \2 \3|p' | named
}

# The table of docs/SPEC.md: number and words.
page_words() {
    sed -nE 's/^\| ([0-9]+) \| ([^|]+) \|.*$/\1 \2/p' docs/SPEC.md
}

# The command's have the names of the header, not the numbers.
command_words() {
    sed -nE 's/^ *\[VTIL_([A-Z_]+)\] = "(.*)",$/\1 0 \2/p' host/words.c | named | cut -d ' ' -f 2-
}

crate() {
    sed -nE 's/^    ([A-Z][A-Za-z]+) = ([0-9]+),$/\1 \2/p' bindings/rust/src/refusal.rs | named
}

crate_words() {
    sed -nE 's/^            ([A-Z][A-Za-z]+) => "(.*)",$/\1 0 \2/p' bindings/rust/src/refusal.rs | named | cut -d ' ' -f 2-
}

# Lines of NAME NUMBER WORDS.. with the name as above and behind the number; NAME is IN_CAPITALS or InCamelCase.
named() {
    sed -E ':camel; s/^([^ ]*[a-z])([A-Z])/\1-\2/; t camel; s/^([^ ]+) ([0-9]+)/\2 \L\1\E/; :dash; s/^([0-9]+ [^ ]*)_/\1-/; t dash'
}

numbers() { cut -d ' ' -f 1,2; }
words() { cut -d ' ' -f 2-; }

# same NAME DUE LINES: there are some, and they are as due.
same() {
    if [ -n "$2" ] && diff <(echo "$2") <(echo "$3"); then pass "$1"; else fail "$1"; fi
}

due=$(definitions)
same "the numbers go from 1, one by one" "$(seq "$(wc -l <<<"$due")")" "$(cut -d ' ' -f 1 <<<"$due")"
same "the library's code has the numbers of the definitions" "$due" "$(code)"
same "include/vtil.h has them" "$due" "$(header | numbers)"
same "the Rust crate has them" "$due" "$(crate)"
same "docs/SPEC.md has the header's words" "$(header | cut -d ' ' -f 1,3-)" "$(page_words)"
same "the command has the header's words" "$(header | words)" "$(command_words)"
same "the Rust crate has the header's words" "$(header | words)" "$(crate_words)"
finish
