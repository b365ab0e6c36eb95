# shellcheck shell=bash
# Counting for the test scripts. Sourced by them; $script is their name.
# shellcheck disable=SC2154
passed=0 failed=0 skipped=0

pass() {
    passed=$((passed + 1))
    printf '%s: %s: passed\n' "$script" "$1"
}

fail() {
    failed=$((failed + 1))
    printf '%s: %s: FAILED\n' "$script" "$1"
}

skip() {
    skipped=$((skipped + 1))
    printf '%s: %s: SKIPPED: %s\n' "$script" "$1" "$2"
}

# The last line, and the exit status.
finish() {
    printf '%s: %d passed, %d failed, %d skipped\n' "$script" "$passed" "$failed" "$skipped"
    [ "$failed" = 0 ]
}
