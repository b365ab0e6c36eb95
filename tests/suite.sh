# shellcheck shell=bash
# Running test programs and scripts one after the other, and adding up what each counts. Sourced by tests/tests.sh and
# host/tests/tests.sh, with the repository root as the current folder; $suite is their name.
# shellcheck disable=SC2154
passed=0 failed=0 skipped=0
scratch=$(mktemp -d)
trap 'rm -rf "$scratch"' EXIT

# No test runs longer, in seconds.
limit=60

# run COMMAND..: a test program or script whose last line counts: NAME: N passed, M failed, K skipped.
run() {
    local status=0 name=$1 last
    if [ "$name" = bash ]; then name=$2; fi
    name=${name##*/}
    timeout $limit "$@" 2>&1 | tee "$scratch/report" || status=$?
    if [ "$status" = 124 ]; then
        echo "$suite: $name took over $limit seconds and was stopped: FAILED"
        failed=$((failed + 1))
        return
    fi
    last=$(tail -n 1 "$scratch/report")
    if ! [[ $last =~ :\ ([0-9]+)\ passed,\ ([0-9]+)\ failed,\ ([0-9]+)\ skipped$ ]]; then
        echo "$suite: $name ended with status $status and no count: FAILED"
        failed=$((failed + 1))
        return
    fi
    passed=$((passed + BASH_REMATCH[1]))
    failed=$((failed + BASH_REMATCH[2]))
    skipped=$((skipped + BASH_REMATCH[3]))
    if [ "$status" != 0 ] && [ "${BASH_REMATCH[2]}" = 0 ]; then
        echo "$suite: $name ended with status $status: FAILED"
        failed=$((failed + 1))
    fi
}

# The last line, and the exit status.
verdict() {
    echo "$suite: $passed passed, $failed failed, $skipped skipped"
    [ "$failed" = 0 ]
}
