# shellcheck shell=bash
# Read by compare.sh and ../bench/run.sh: finds the archive, and builds a program over it by bindings/rust. Sets VTIL_LIB.

missing() {
    echo "$0: $*" >&2
    exit 3
}

oracle=$(cd "$(dirname "${BASH_SOURCE[0]}")" && pwd)
: "${VTIL_LIB:=$oracle/../target/staticlib/libvtil.a}"
[ -f "$VTIL_LIB" ] || missing "no archive at $VTIL_LIB: run ./run.sh of the repository, or name one by VTIL_LIB"
VTIL_LIB=$(realpath "$VTIL_LIB")
export VTIL_LIB
command -v cargo >/dev/null || missing "cargo is missing: see oracle/setup.sh"
[ -d /usr/share/cargo/registry/scroll-0.10.1 ] || missing "the crates are missing: run oracle/setup.sh"

# build PACKAGE
build() {
    echo "archive $VTIL_LIB"
    (cd "$oracle" && cargo build --quiet --release --target-dir target --package "$1") || missing "cargo could not build $1"
}
