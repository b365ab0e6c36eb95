#!/usr/bin/env bash
# Compares the library with the Rust: oracle/compare.sh [--files N] [--large N] [--lists N] [--seed S]
# VTIL_LIB names the archive; without it, target/staticlib/libvtil.a of the repository (./run.sh builds it).
# Exit status: 0 nothing differs, 1 something does, 2 bad words, 3 something is missing.
set -euo pipefail

# shellcheck source=oracle/archive.sh
. "$(dirname "$0")/archive.sh"

build compare
exec "$oracle/target/release/compare" "$@"
