#!/usr/bin/env bash
# What calls the library: the Rust crate's and the command's own tests, the built command end to end, the C examples.
# Needs cargo, a C compiler and libaspda.a in $LIBRARY, else target/staticlib (.ci/build); no network.
set -euo pipefail
cd "$(dirname "${BASH_SOURCE[0]}")/.."
LIBRARY=$(cd "${LIBRARY:-target/staticlib}" && pwd)
export ASPDA_LIB_DIR=$LIBRARY CARGO_TARGET_DIR=$PWD/target/rust CARGO_TERM_COLOR=never
build=$(mktemp -d)
trap 'rm -rf "$build"' EXIT

fail() {
    echo "wrappers.sh: $*" >&2
    exit 1
}

# Shows a step's output only where the step fails.
quietly() {
    "$@" >"$build/log" 2>&1 || { cat "$build/log"; fail "$* failed"; }
}

# passed SUITE: how many tests passed in the suite that cargo's line names; 0 if there is no such suite.
passed() {
    awk -v suite="$1" '
        index($0, suite) { is_named = 1 }
        is_named && /^test result: ok/ { count = $4; exit }
        END { print count + 0 }' "$build/log"
}

quietly cargo test --offline --manifest-path rust/Cargo.toml
# The crate's tests are its examples and the files of its tests/; the command's stand beside its code.
suites=("Doc-tests aspda" "Running unittests src/main.rs ")
for file in rust/*/tests/*.rs; do suites+=("Running tests/${file##*/} "); done
for suite in "${suites[@]}"; do
    [ "$(passed "$suite")" -gt 0 ] || { cat "$build/log"; fail "no test passed in '$suite'"; }
done
awk '/^test result/ { passed += $4 } END { print "wrappers.sh: " passed " unit and doc tests passed" }' "$build/log"

# Without the library the build says how to make it.
if ASPDA_LIB_DIR=$build cargo check --offline --manifest-path rust/Cargo.toml --target-dir "$build/rust" \
    >"$build/log" 2>&1; then
    fail "the crate was built without the library"
fi
grep -qF '.ci/build' "$build/log" || { cat "$build/log"; fail "no word about the missing library"; }

quietly cargo build --release --offline --manifest-path rust/Cargo.toml
bash tests/command.sh | tee "$build/log"
grep -q '^command.sh: [1-9][0-9]* runs of the command, all as expected$' "$build/log" || fail "command.sh ran nothing"

cc -std=c11 -Wall -Wextra -Werror -I include -o "$build/translate" examples/c/translate.c "$LIBRARY/libaspda.a"
quietly "$build/translate" examples/m1.aspda "$build/m1.plain"
cmp "$build/m1.plain" examples/m1.plain
quietly "$build/translate" examples/m3_sheets.aspda "$build/m3.plain"
cmp "$build/m3.plain" examples/m3.plain
if "$build/translate" tests/filter/heads-17-refused-4.in "$build/refused" 2>"$build/log"; then
    fail "the C example translated a rule with 17 options"
fi
[ "$(cat "$build/log")" = "tests/filter/heads-17-refused-4.in: refused with 4 at byte 0" ] || fail "$(cat "$build/log")"
[ ! -e "$build/refused" ] || fail "the C example wrote a file for a refusal"

# M3's records, each in a file of its own, the last one with bytes behind it.
cc -std=c11 -Wall -Wextra -Werror -I include -o "$build/assemble" examples/c/assemble.c "$LIBRARY/libaspda.a"
start=0
for length in 22 17 17 17 17; do
    tail -c +$((start + 1)) examples/m3.aspda | head -c "$length" >"$build/from$start"
    start=$((start + length))
done
echo 'behind it' >>"$build/from73"
cd "$build"
quietly ./assemble m3.aspda from0 from0 - from22 from39 from73 - from56 from73
cd "$OLDPWD"
[ "$(cat "$build/log")" = "rules: 5, bytes: 94" ] || fail "$(cat "$build/log")"
cmp "$build/m3.aspda" examples/m3.aspda
if "$build/assemble" "$build/refused" "$build/from0" - - 2>"$build/log"; then
    fail "the C example dropped a rule where none was held"
fi
[ "$(cat "$build/log")" = "-: refused with 15 at byte 0" ] || fail "$(cat "$build/log")"
if "$build/assemble" "$build/refused" examples/m3_sheets.aspda tests/filter/heads-17-refused-4.in 2>"$build/log"; then
    fail "the C example added a rule with 17 options"
fi
[ "$(cat "$build/log")" = "tests/filter/heads-17-refused-4.in: refused with 4 at byte 0" ] || fail "$(cat "$build/log")"
[ ! -e "$build/refused" ] || fail "the C example wrote a file for a refusal"
echo "wrappers.sh: the C examples translated, assembled and refused"
