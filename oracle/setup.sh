#!/usr/bin/env bash
# Makes this machine ready to build the Rust beside the library.
#
# It installs these Debian packages, which are sources of Rust crates and nothing that runs:
#   librust-scroll-dev (0.10.1), librust-indexmap-dev (1.9.2), librust-bitflags-dev (1.3.2),
#   librust-memmap-dev (0.7.0), and the packages that they depend on.
# They land in /usr/share/cargo/registry, which .cargo/config.toml names as the only source of crates.
# It needs Debian 12 (bookworm), root for the installing, and cargo, which it does not install.
#
# It compares lib.rs, pod.rs and serialize.rs in original/src with the sums of the published files
# (original/SHA256SUMS), and, where VTIL_RUST_SRC names a folder with those files, with them byte for byte.
set -euo pipefail

packages="librust-scroll-dev librust-indexmap-dev librust-bitflags-dev librust-memmap-dev"
here=$(cd "$(dirname "$0")" && pwd)

fail() {
    echo "oracle/setup.sh: $*" >&2
    exit 1
}

missing_packages() {
    for package in $packages; do
        [ "$(dpkg-query -W -f '${Status}' "$package" 2>/dev/null)" = "install ok installed" ] || echo "$package"
    done
}

install_packages() {
    missing=$(missing_packages | tr '\n' ' ')
    if [ -z "$missing" ]; then
        echo "packages: all there"
        return
    fi
    echo "packages: installing $missing"
    [ "$(id -u)" -eq 0 ] || fail "installing packages needs root; missing: $missing"
    apt-get update -q || fail "apt-get update failed: is there a network?"
    # shellcheck disable=SC2086 # one word for each package
    DEBIAN_FRONTEND=noninteractive apt-get install -q -y --no-install-recommends $missing ||
        fail "apt-get could not install: $missing"
}

# The three listed files have to be the published ones, byte for byte.
compare_originals() {
    (cd "$here/original/src" && sha256sum --check --quiet ../SHA256SUMS) ||
        fail "original/src has a file that is not the published one"
    echo "originals: the sums are those of the published files"
    published=${VTIL_RUST_SRC:-}
    [ -n "$published" ] || return 0
    [ -d "$published" ] || fail "VTIL_RUST_SRC names no folder: $published"
    for file in lib.rs pod.rs serialize.rs; do
        cmp "$published/$file" "$here/original/src/$file" || fail "original/src/$file is not the published file"
    done
    echo "originals: byte for byte as in $published"
}

command -v dpkg-query >/dev/null || fail "this is no Debian: dpkg-query is missing"
command -v cargo >/dev/null || fail "cargo is missing: install Rust 1.74 or newer"
command -v cc >/dev/null || fail "cc is missing: install gcc or clang, by which cargo links"
install_packages
[ -d /usr/share/cargo/registry ] || fail "/usr/share/cargo/registry is missing after the installing"
compare_originals
echo "ready"
