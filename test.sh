#!/usr/bin/env bash
# The tests: those of the repository; then every crate proved, every edit that the prover must refuse, and every program run;
# then those of the C side, over an archive of what was just proved. The last line is the verdict.
set -euo pipefail
here=$(realpath -- "$(dirname "$0")")
verdict=$(mktemp)
trap 'rm -f "$verdict"' EXIT

"$here/tests/tests.sh" || { echo "FAILED: tests of the repository, above; nothing was proved" && exit 1; }
(cd "$here" && rt ci) | tee "$verdict" # pipefail: the status is that of rt ci
if grep -qE '^rt: ok;.*, [1-9][0-9]* bad' "$verdict"; then
    echo "FAILED: must-fail edits that are no edits (BAD EDIT, above): each has to fit its crate"
    exit 1
fi
"$here/host/tests/tests.sh" || { echo "FAILED: tests of the C side, above; what was proved is not in question" && exit 1; }
tail -n 1 "$verdict"
