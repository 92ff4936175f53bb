#!/usr/bin/env bash
# The benchmark, as one table: each operation's speed beside plain Rust and a copy, texts in aspif beside gringo and the check's
# searches beside clingo where they are installed, growth with the program, the length of translations, the stack that each export takes. With --gate also what the
# proofs cost, which takes a whole `rt ci --anew` more. Needs libaspda.a in $LIBRARY, else target/staticlib (built where it is not
# there), rustc 1.88 or newer, g++.
set -euo pipefail
cd "$(dirname "${BASH_SOURCE[0]}")/.."
export LIBRARY=${LIBRARY:-target/staticlib}
[ -f "$LIBRARY/libaspda.a" ] || .ci/build
mkdir -p target/bench
rustc --edition 2021 -C opt-level=3 -o target/bench/speed bench/main.rs -L "native=$LIBRARY"
target/bench/speed
echo
sh tests/reliability/memory.sh stack
if [ "${1:-}" = --gate ]; then
    echo
    python3 bench/gate.py
fi
