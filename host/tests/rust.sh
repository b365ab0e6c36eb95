#!/usr/bin/env bash
# rust.sh ARCHIVE: the Rust crate declares what the header does, and its tests over the archive. The current folder is the
# repository root.
set -u
script=rust
. tests/count.sh

# The functions that the header and the crate declare, one a line. The header's comments call some of them.
header_functions() { sed '/^ \*/d' include/vtil.h | grep -oE '\bvtil_[a-z_]+\(' | sort; }
crate_functions() { sed -nE 's/^    pub fn (vtil_[a-z_]+\().*/\1/p' bindings/rust/src/c.rs | sort; }

name="the crate declares the functions of the header"
if [ -n "$(header_functions)" ] && diff <(header_functions) <(crate_functions); then pass "$name"; else fail "$name"; fi

# header_constant NAME, crate_constant NAME: its number, without underscores.
header_constant() { sed -nE "s/^#define VTIL_$1 ([0-9]+)$/\1/p" include/vtil.h; }
crate_constant() { sed -nE "s/^pub const $1: usize = ([0-9_]+);$/\1/p" bindings/rust/src/*.rs | tr -d _; }

for constant in MOST_LENT LONGEST_INSTRUCTION; do
    name="the crate's $constant is the header's"
    if [ -n "$(header_constant $constant)" ] && [ "$(header_constant $constant)" = "$(crate_constant $constant)" ]; then
        pass "$name"
    else
        fail "$name"
    fi
done

name="cargo test in bindings/rust"
if ! command -v cargo >/dev/null; then
    skip "$name" "there is no cargo"
elif VTIL_LIB=$(realpath "$1") CARGO_TARGET_DIR=$PWD/target/bindings cargo test --offline --quiet --manifest-path bindings/rust/Cargo.toml; then
    pass "$name"
else
    fail "$name"
fi
finish
