#!/usr/bin/env bash
# The tests of the C side: the header, the library's calls in guarded memory against the reference, the
# stack that they take, the scripts, the command, and the Rust crate. The last line is the verdict.
#
#   VTIL_LIB=path/to/libvtil.a   use that archive and prove nothing
set -euo pipefail
VTIL_LIB=${VTIL_LIB:+$(realpath -m -- "$VTIL_LIB")} # named from the caller's folder
cd "$(dirname "$0")/../.."
export LC_ALL=C
. host/build.sh

suite="host tests"
. tests/suite.sh

need_compiler
need_archive
build_routine
chmod 755 "$scratch" # some tests try files as another user
mkdir "$scratch/header" "$scratch/scripts" "$scratch/command" "$scratch/command_books" "$scratch/command_edits" \
    "$scratch/command_charge" "$scratch/output" "$scratch/command_send" "$scratch/command_outside"

# build_guard NAME OTHER..: a test program out of host/tests, and the parts that all of them have.
build_guard() {
    local name=$1
    shift
    # shellcheck disable=SC2046 # one word for each file
    "$CC" "${HOST_FLAGS[@]}" -pedantic -Ireference $(printf 'host/tests/%s.c ' "$name" "$@" cases group lent values) \
        reference/reference.c "$LIB" -o "$scratch/$name"
}

run bash host/tests/header.sh "$LIB" "$scratch/header"
run bash host/tests/scripts.sh "$LIB" "$scratch/scripts"
build_guard guard
run "$scratch/guard" samples/*.vtil
build_guard stack
run "$scratch/stack"
run bash host/tests/command.sh target/host/routine "$scratch/command"
build_guard guard_book book_pair
run "$scratch/guard_book" samples/*.vtil
run bash host/tests/command_books.sh target/host/routine "$scratch/command_books"
build_guard guard_read book_pair
run "$scratch/guard_read" samples/*.vtil
build_guard guard_names
run "$scratch/guard_names"
build_guard guard_edits book_pair calls
run "$scratch/guard_edits" samples/*.vtil
build_guard guard_closed book_pair calls by_hand
run "$scratch/guard_closed" samples/*.vtil
build_guard guard_crooked book_pair calls by_hand
run "$scratch/guard_crooked"
build_guard guard_sum book_pair calls by_hand
run "$scratch/guard_sum" samples/*.vtil
build_guard guard_walk book_pair calls by_hand
run "$scratch/guard_walk"
build_guard guard_sent book_pair calls by_hand
run "$scratch/guard_sent" samples/*.vtil
build_guard guard_outside book_pair calls by_hand immediates
run "$scratch/guard_outside" samples/*.vtil
run bash host/tests/command_edits.sh target/host/routine "$scratch/command_edits"
build_guard guard_charge book_pair
run "$scratch/guard_charge" samples/*.vtil
run bash host/tests/command_charge.sh target/host/routine "$scratch/command_charge"
run bash host/tests/output.sh target/host/routine "$scratch/output"
run bash host/tests/command_send.sh target/host/routine "$scratch/command_send"
run bash host/tests/command_outside.sh target/host/routine "$scratch/command_outside"
run bash host/tests/rust.sh "$LIB"

verdict
