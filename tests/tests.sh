#!/usr/bin/env bash
# The tests of the repository itself: the sample files, the tables, the pages and the must-fail edits say of each other what is
# so. They need no archive and take a second. The last line is the verdict.
set -euo pipefail
cd "$(dirname "$0")/.."
export LC_ALL=C
suite="repository tests"
. tests/suite.sh

run bash tests/samples.sh
run bash tests/format.sh
run bash tests/refusals.sh
run bash tests/contracts.sh
run bash tests/pages.sh
run bash tests/must_fail.sh
verdict
