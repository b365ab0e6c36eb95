#!/usr/bin/env bash
# The pages name what is there: paths from the repository root, files of the crates as CRATE/specs/File, with or without the
# ending, definitions as `name` (CRATE/specs/File), and rules of docs/SPEC.md. The current folder is the repository root.
set -u
script=pages
. tests/count.sh
pages=(README.md CONTRIBUTING.md CHANGELOG.md docs/*.md oracle/README.md bindings/rust/README.md)

# paths BEGINNING: the paths on the pages that begin so, one a line, without a full stop at a sentence's end.
paths() {
    grep -ohE "(^|[^A-Za-z0-9_./-])($1)[A-Za-z0-9_.*/-]*" "${pages[@]}" | sed -E 's/^[^A-Za-z]*//; s/[.]$//' | sort -u
}

# Capitals stand for any name, as in crates/NAME/src. A * stands for any part of one.
missing() {
    local path
    while read -r path; do
        if [[ $path =~ (^|/)[A-Z]+(/|\.edit) ]]; then continue; fi
        compgen -G "$1$path" >/dev/null || compgen -G "$1$path.antt" >/dev/null || echo "$path"
    done
}

# definitions: those that the pages name, one a line, the file and the name. Several names of one file have commas between them.
definitions() {
    grep -ohE '(`[^` ]+`,? )+\([a-z_]+/(specs|proofs)/[A-Za-z0-9]+\)' "${pages[@]}" |
        awk '{ file = substr($NF, 2, length($NF) - 2); for (i = 1; i < NF; i++) { gsub(/[`,]/, "", $i); print file, $i } }' | sort -u
}

# A definition, a record or one of its fields, or a case of an enum.
undefined() {
    local file name
    while read -r file name; do
        grep -qE "^ *((abbrev|unfoldable) )?(pub )?((record|data) )?$name( |\$)" "crates/$file.antt" 2>/dev/null || echo "$file $name"
    done
}

# The rules that the pages and the header name by number: in docs/SPEC.md and docs/DECISIONS.md every such number is one, elsewhere
# those after the word.
named_rules() {
    { grep -ohE '\b[Rr]ules? [0-9]+\.[0-9]+(( to |, | and )[0-9]+\.[0-9]+)*' "${pages[@]}" include/vtil.h
      cat docs/SPEC.md docs/DECISIONS.md; } | grep -oE '\b[0-9]+\.[0-9]+\b' | sort -u
}

standing_rules() {
    sed -nE 's/^\*\*([0-9]+\.[0-9]+)\*\* .*/\1/p' docs/SPEC.md | sort
}

# none NAME LINES: passed where there are none.
none() {
    if [ -z "$2" ]; then pass "$1"; else fail "$1: $(tr '\n' ' ' <<<"$2")"; fi
}

folders=$(printf '%s|' bench/ bindings/ crates/ docs/ host/ include/ oracle/ reference/ samples/ tests/)
none "every path on the pages is there" "$(paths "${folders%|}" | missing "")"
none "every file of a crate on the pages is there" "$(paths '[a-z_]+/(specs|proofs|src)/' | grep -v '^crates/' | missing crates/)"
none "every definition on the pages is there" "$(definitions | undefined)"
none "every rule that is named stands in docs/SPEC.md, once" "$(comm -23 <(named_rules) <(standing_rules))$(standing_rules | uniq -d)"
finish
