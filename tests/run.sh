#!/bin/sh
# Everything that runs: functions that nothing reaches, the reference's self-test, the lines of crates/aspda_calls, the vectors, the
# runner against the library, the short form of tests/reliability, the crate, the command, the worked examples, texts in aspif. Needs
# python3, rustc, cargo, a C and a C++ compiler, clingo, target/staticlib/libaspda.a and target/bin/filter (.ci/build makes both).

set -eu
cd "$(dirname "$0")/.."
LIBRARY=${LIBRARY:-target/staticlib}
FILTER=${FILTER:-target/bin/filter}
export PYTHONDONTWRITEBYTECODE=1

build=$(mktemp -d)
beside=
trap '[ -z "$beside" ] || kill "$beside" 2>/dev/null || true; rm -rf "$build"' EXIT

say() { printf '%s\n' "tests: $*"; }

if [ ! -f "$LIBRARY/libaspda.a" ]; then
    say "no $LIBRARY/libaspda.a: run .ci/build first"
    exit 2
fi

say "functions that nothing reaches"
python3 tests/reached.py

# What calls the library runs beside the rest: each by itself leaves a core idle. What it says is shown at the end.
{
    LIBRARY=$LIBRARY bash tests/wrappers.sh && sh tests/endtoend/run.sh &&
        python3 tests/solver/aspif.py --aspif "${ASPDA:-target/rust/release/aspda}"
} >"$build/beside" 2>&1 &
beside=$!

say "self-test of the reference"
python3 tests/reference/selftest.py

say "what the program aspda_calls writes, from the reference"
python3 tests/calls.py | cmp - crates/aspda_calls/stdout

say "vectors"
python3 tests/vectors.py "$build/vectors"

say "building the runner"
rustc --edition 2021 -O -L "native=$LIBRARY" -o "$build/runner" tests/runner/main.rs

say "running the vectors"
"$build/runner" "$build/vectors" --filter "$FILTER"

say "the filter on files"
compared=0
for output in tests/filter/*.out; do
    [ -f "$output" ] || break
    "$FILTER" <"${output%.out}.in" >"$build/out"
    cmp "$build/out" "$output"
    compared=$((compared + 1))
done
inputs=$(find tests/filter -name '*.in' | wc -l)
if [ "$compared" -eq 0 ] || [ "$compared" -ne "$inputs" ]; then
    say "tests/filter: $inputs inputs, $compared outputs compared"
    exit 1
fi

say "a second reference, random calls beside it, memory"
LIBRARY="$LIBRARY" sh tests/reliability/short.sh "$build/vectors"

say "recorded answer sets of a solver, the traps, the examples"
python3 tests/solver/compare.py --translate "$FILTER"
python3 tests/solver/traps.py
python3 tests/solver/examples.py --check

say "linking from C"
cc -std=c11 -Wall -Wextra -Werror -o "$build/link" tests/link.c -L "$LIBRARY" -laspda
"$build/link"

say "the Rust crate, the command, the C example; worked examples from text to a solver and back; texts in aspif by clasp"
status=0
wait "$beside" || status=$?
beside=
cat "$build/beside"
[ "$status" -eq 0 ] || exit "$status"
say "all passed"
