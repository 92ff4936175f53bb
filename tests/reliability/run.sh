#!/bin/sh
# The library beside the reference on random calls: run.sh SEED COUNT [THREADS].
# Needs g++, binutils, python3 and the library.
set -eu
. "$(dirname "$0")/build.sh"
build_with g++ differential
watch_blocks differential
"$build/differential" "$@"
