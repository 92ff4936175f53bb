#!/bin/sh
# The recorded answer sets of the kits afresh; then the kits from text to clingo and back, by the command in ASPDA.
set -eu
cd "$(dirname "$0")/../.."
export PYTHONDONTWRITEBYTECODE=1
python3 tests/endtoend/answers.py --check
exec python3 tests/endtoend/run.py "${ASPDA:-target/rust/release/aspda}"
