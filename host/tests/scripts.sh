#!/usr/bin/env bash
# scripts.sh ARCHIVE SCRATCH: run.sh, in a copy of what it needs. The current folder is the repository root.
set -u
script=scripts
. tests/count.sh
archive=$(realpath "$1")
scratch=$(realpath "$2")

# runs_with NAME: run.sh is started in another folder than its own, and given this name of an archive.
runs_with() {
    (cd "$scratch/elsewhere" && VTIL_LIB=$1 "$scratch/copy/run.sh") >"$scratch/out" 2>"$scratch/err"
}

named_from_here() {
    runs_with ./some.a && [ "$(tail -n 1 "$scratch/out")" = "$(grep '^As expected' README.md)" ]
}

not_there() {
    ! runs_with none.a && [ "$(cat "$scratch/err")" = "$scratch/copy/run.sh: the archive $scratch/elsewhere/none.a (from the variable VTIL_LIB) can't be read" ]
}

# try NAME COMMAND
try() {
    if "$2"; then pass "$1"; else fail "$1" && cat "$scratch/err"; fi
}

mkdir "$scratch/copy" "$scratch/elsewhere"
cp -r run.sh host include samples "$scratch/copy"
cp "$archive" "$scratch/elsewhere/some.a"
try "run.sh, an archive that is named from the caller's folder" named_from_here
try "run.sh, an archive that is not there" not_there
finish
