#!/bin/sh
# Coverage-guided fuzzing of all exports with libFuzzer: fuzz.sh SECONDS. The corpus is made anew; an input that finds
# something is kept in target/findings. Needs clang with its compiler-rt (Debian: clang, libclang-rt-dev), g++,
# binutils, python3 and the library.
set -eu
seconds=$1
. "$(dirname "$0")/build.sh"
build_with g++ corpus
build_with clang++ fuzz -fsanitize=fuzzer
watch_blocks fuzz
mkdir "$build/inputs"
"$build/corpus" "$build/inputs" examples/*.aspda examples/*.plain
mkdir -p target/findings
"$build/fuzz" -max_total_time="$seconds" -max_len=6000 -print_final_stats=1 -artifact_prefix=target/findings/ \
    "$build/inputs" >"$build/log" 2>&1 || { tail -n 40 "$build/log"; exit 1; }
grep -E 'counters|INITED|DONE|^stat|cases|scripts|blocks' "$build/log"
