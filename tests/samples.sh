#!/usr/bin/env bash
# The sample files are what samples/make.py makes. The current folder is the repository root.
set -u
script=samples
. tests/count.sh
name="the files are what samples/make.py makes"
if ! command -v python3 >/dev/null; then
    skip "$name" "there is no python3"
elif python3 samples/make.py --check; then
    pass "$name"
else
    fail "$name"
fi
finish
