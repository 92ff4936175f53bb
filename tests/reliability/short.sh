#!/bin/sh
# The gate's part: short.sh VECTORS. The reference beside the vectors that tests/vectors.py made, 200,000 random calls
# of the library beside the reference, memory checks without valgrind. Needs g++, binutils, python3 and the library.
set -eu
vectors=$(cd "$(dirname "$1")" && pwd)/$(basename "$1")
. "$(dirname "$0")/build.sh"
for program in vectors differential memory; do build_with g++ "$program"; done
watch_blocks differential
# Only the last line of the first and third; a pipe would hide their status.
"$build/vectors" "$vectors" >"$build/out" || { cat "$build/out"; exit 1; }
tail -n 1 "$build/out"
"$build/differential" 1 200000 "$(nproc)"
"$build/memory" fences >"$build/out" || { cat "$build/out"; exit 1; }
tail -n 1 "$build/out"
"$build/memory" stack
