#!/bin/sh
# Memory checks: slices between inaccessible pages, the stack's table, and heap blocks under valgrind, if it is
# installed; `memory.sh stack`: the table alone. Needs g++ and the library.
set -eu
. "$(dirname "$0")/build.sh"
build_with g++ memory
if [ "${1:-}" = stack ]; then
    "$build/memory" stack
    exit
fi
"$build/memory" fences
"$build/memory" stack
if command -v valgrind >/dev/null; then
    valgrind --quiet --error-exitcode=9 "$build/memory" heap
else
    echo "memory: valgrind is not installed: heap blocks not checked"
fi
