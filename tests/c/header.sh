#!/usr/bin/env bash
# Compiles kawsarpa.h, twice over as the only include of a file, as C99, C11 and C++17, each with NDEBUG and without. Any warning is a
# failure, in C++ also one of casts.
set -eu

include=$(cd "$(dirname "$0")/../../include" && pwd)
work=$(mktemp -d)
trap 'rm -rf "$work"' EXIT

printf '#include "kawsarpa.h"\n#include "kawsarpa.h"\n' >"$work/alone.c"

compile() { # STANDARD COMPILER...
    local standard=$1 debug
    shift
    for debug in -UNDEBUG -DNDEBUG; do
        if ! "$@" "-std=$standard" "$debug" -Werror -Wall -Wextra -Wpedantic -Wconversion -O2 -I "$include" \
            -c -o "$work/alone.o" "$work/alone.c"; then
            echo "header.sh: kawsarpa.h does not compile as $standard, $debug" >&2
            exit 1
        fi
    done
    echo "header.sh: $standard"
}

compile c99 gcc
compile c11 gcc
compile c++17 g++ -x c++ -Wold-style-cast -Wuseless-cast
