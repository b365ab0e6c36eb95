# shellcheck shell=bash
# The steps that run.sh and host/tests/tests.sh share. Sourced by them, with the repository root as
# the current folder and `set -e`.
#
#   CC        the C compiler (default cc)
#   VTIL_LIB  an archive that is built already, by its whole path, to use instead of building one

CC=${CC:-cc}
HOST_FLAGS=(-std=c11 -Wall -Wextra -Werror -O2 -Iinclude)

stop() {
    printf '%s: %s\n' "$0" "$1" >&2
    exit 2
}

need_compiler() {
    if command -v "$CC" >/dev/null; then return; fi
    if [ "$CC" != cc ]; then stop "the C compiler $CC (from the variable CC) is not there"; fi
    if [ "$(id -u)" != 0 ] || ! command -v apt-get >/dev/null; then
        stop "there is no C compiler (cc): install one, on Debian by: apt-get install gcc libc6-dev"
    fi
    echo "There is no C compiler (cc): installing gcc"
    if ! { apt-get update && apt-get install -y gcc libc6-dev; } >&2; then stop "gcc could not be installed"; fi
    command -v "$CC" >/dev/null || stop "gcc was installed, but there is still no cc"
}

# Proves and builds the archive, in crates/vtil_c/out. What it stands on is proved by rt all check, which takes crates side by
# side; rt lib takes one after the other.
build_archive() {
    rt all check && (cd crates/vtil_c && rt lib)
}

# Sets LIB to the archive.
need_archive() {
    if [ -n "${VTIL_LIB:-}" ]; then
        [ -r "$VTIL_LIB" ] || stop "the archive $VTIL_LIB (from the variable VTIL_LIB) can't be read"
        LIB=$VTIL_LIB
        return
    fi
    command -v rt >/dev/null || stop "rt is not there: it is the command of the Rattle kit, which proves and builds the library. Install the kit, or name an archive that is built already: VTIL_LIB=/path/to/libvtil.a $0"
    mkdir -p target/staticlib
    echo "Proving and building the library: rt all check, then rt lib in crates/vtil_c (some minutes the first time)"
    if ! build_archive >target/staticlib.out 2>&1; then
        tail -n 30 target/staticlib.out >&2
        stop "the library was not proved or not built; target/staticlib.out has the whole report"
    fi
    LIB=target/staticlib/libvtil.a
    cp crates/vtil_c/out/libvtil_c.a "$LIB" || stop "rt lib wrote no crates/vtil_c/out/libvtil_c.a"
}

build_routine() {
    mkdir -p target/host
    "$CC" "${HOST_FLAGS[@]}" host/*.c "$LIB" -o target/host/routine || stop "target/host/routine was not built"
}
