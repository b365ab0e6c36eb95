#!/usr/bin/env bash
# Sets everything up on a fresh machine and runs the main job: proves and builds the library, builds
# the command target/host/routine and checks the sample files with it. Status 0 when what it says of
# them is what samples/EXPECTED has.
#
#   VTIL_LIB=path/to/libvtil.a ./run.sh    uses that archive and proves nothing
set -euo pipefail
VTIL_LIB=${VTIL_LIB:+$(realpath -m -- "$VTIL_LIB")} # named from the caller's folder
cd "$(dirname "$0")"
export LC_ALL=C # the order of samples/*.vtil
. host/build.sh

need_compiler
need_archive
build_routine

echo "Checking the sample files: target/host/routine check samples/*.vtil"
status=0
target/host/routine check samples/*.vtil >target/host/samples.out || status=$?
cat target/host/samples.out
if ! diff samples/EXPECTED target/host/samples.out >target/host/samples.diff; then
    echo "This differs from samples/EXPECTED:" >&2
    cat target/host/samples.diff >&2
    exit 1
fi
# Some of the samples are damaged, so 1 is due: some file was refused.
if [ "$status" != 1 ]; then
    echo "routine ended with status $status where 1 is due" >&2
    exit 1
fi
echo "As expected: nine of the samples are damaged, one for each of the refusals 1 to 9."
