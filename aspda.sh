#!/usr/bin/env bash
# aspda.sh ARGUMENTS: runs the command `aspda` with these arguments, from any directory; `aspda.sh --help` lists them.
# It builds the library and the command first where they are not there yet.
set -euo pipefail
root=$(cd "$(dirname "$(readlink -f "${BASH_SOURCE[0]}")")" && pwd)

command -v cargo >/dev/null || { echo "aspda.sh: cargo is missing (Debian: apt-get install cargo)" >&2; exit 1; }
if [ ! -f "$root/target/staticlib/libaspda.a" ]; then
    echo "aspda.sh: building the library; everything is proved first, which takes some minutes" >&2
    log=$(mktemp)
    (cd "$root" && . .ci/temporary.sh && .ci/build) >"$log" 2>&1 || { cat "$log" >&2; rm -f "$log"; exit 1; }
    rm -f "$log"
fi

ASPDA_LIB_DIR=$root/target/staticlib CARGO_TARGET_DIR=$root/target/rust \
    cargo build --release --offline --quiet --manifest-path "$root/rust/Cargo.toml" >&2
exec "$root/target/rust/release/aspda" "$@"
