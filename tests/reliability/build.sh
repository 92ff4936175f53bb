# Sourced by the scripts of this directory: the tree's root, the library, a place to build in, and how to build.
cd "$(dirname "$0")/../.."
LIBRARY=${LIBRARY:-target/staticlib}
if [ ! -f "$LIBRARY/libaspda.a" ]; then
    echo "reliability: no $LIBRARY/libaspda.a: run .ci/build first"
    exit 2
fi
build=$(mktemp -d)
trap 'rm -rf "$build"' EXIT
here=$PWD/tests/reliability
FLAGS="-std=c++17 -O2 -Wall -Wextra -Werror -pthread"

# build_with COMPILER PROGRAM [FLAG...]: PROGRAM.cpp, linked with what all programs share and with the library, at fixed
# addresses. What they share is built once for a compiler.
build_with() {
    compiler=$1
    program=$2
    shift 2
    objects=$build/$compiler
    # shellcheck disable=SC2086  # the flags are words
    if [ ! -d "$objects" ]; then
        mkdir "$objects"
        (cd "$objects" && "$compiler" $FLAGS "$@" -c "$here/reference.cpp" "$here/calls.cpp" "$here/cases.cpp" \
            "$here/scripts.cpp" "$here/blocks.cpp")
    fi
    # shellcheck disable=SC2086
    "$compiler" $FLAGS "$@" -no-pie -o "$build/$program" "$here/$program.cpp" "$objects"/*.o -L "$LIBRARY" -laspda
}

# watch_blocks PROGRAM: PROGRAM will tell which of the library's basic blocks it ran.
watch_blocks() {
    python3 tests/reliability/blocks.py "$build/$1" "$LIBRARY/libaspda.a" >"$build/blocks"
    export ASPDA_BLOCKS="$build/blocks"
}
