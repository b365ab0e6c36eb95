#!/usr/bin/env bash
# Every must-fail edit still fits its crate: each text that it replaces stands on exactly one line of the file that it names.
# `rt ci` finds an edit that does not fit only after it has proved every crate; this takes a second. The current folder is the
# repository root.
set -u
script=must_fail
. tests/count.sh

# misfits EDIT: the texts that don't stand on exactly one line; or that there are none.
misfits() {
    local line file='' text old=0
    while IFS= read -r line; do
        case $line in
        'file: '*) file=${1%/must-fail/*}/${line#file: } ;;
        'old: '*)
            old=1
            text=${line#old: }
            [ "$(grep -cF -- "$text" "$file" 2>/dev/null)" = 1 ] || printf '%s: %s\n' "$1" "$text"
            ;;
        esac
    done <"$1"
    [ $old = 1 ] || printf '%s: no old line\n' "$1"
}

# tells NAME LINES..: what misfits says of the edit of these lines, in a crate whose src/lib.rt has the lines one, two, two.
tells() {
    local name=$1 due=$2
    shift 2
    printf '%s\n' "$@" >"$scratch/must-fail/made.edit"
    if [ "$(misfits "$scratch/must-fail/made.edit")" = "${due:+$scratch/must-fail/made.edit: $due}" ]; then pass "$name"; else fail "$name"; fi
}

bad=$(for edit in crates/*/must-fail/*.edit; do misfits "$edit"; done)
if [ -z "$bad" ]; then
    pass "every must-fail edit fits its crate"
else
    fail "every must-fail edit fits its crate: $bad"
fi

scratch=$(mktemp -d)
trap 'rm -rf "$scratch"' EXIT
mkdir "$scratch/src" "$scratch/must-fail"
printf 'one\ntwo\ntwo\n' >"$scratch/src/lib.rt"
tells "an edit that fits" "" "file: src/lib.rt" "old: one" "new: three"
tells "an edit whose old line is gone" "three" "file: src/lib.rt" "old: three" "new: one"
tells "an edit whose old line stands twice" "two" "file: src/lib.rt" "old: two" "new: one"
tells "an edit of a file that is gone" "one" "file: src/none.rt" "old: one" "new: two"
tells "an edit without an old line" "no old line" "file: src/lib.rt"
finish
