#!/usr/bin/env bash
# Measures the library and the Rust side by side: bench/run.sh [--most-blocks N]
# VTIL_LIB names the archive; without it, target/staticlib/libvtil.a of the repository (./run.sh builds it).
# Exit status: 0 measured, 2 bad words, 3 something is missing.
set -euo pipefail

# shellcheck source=oracle/archive.sh
. "$(dirname "$0")/../oracle/archive.sh"

build bench
echo "machine: $(uname -sm), $(nproc) x $(sed -n '/^model name/ { s/^[^:]*: //p; q }' /proc/cpuinfo)"
echo "compiler of the Rust: $(rustc --version), release"
exec "$oracle/target/release/bench" "$@"
