#!/usr/bin/env bash
# Makes the fixed sample of the Rust's answers anew, which crates/replay holds the library to:
#   oracle/sample.sh [--seed S] [--records N]
# It needs no archive: the Rust and the reference give the answers. It prints how many records have each answer (0:
# accepted); crates/replay/stdout has to say the same.
set -euo pipefail

here=$(cd "$(dirname "$0")" && pwd)
command -v cargo >/dev/null || { echo "$0: cargo is missing: see oracle/setup.sh" >&2; exit 3; }
cd "$here"
exec cargo run --quiet --release --package oracle --bin sample -- --out ../crates/replay/data/answers.bin "$@"
