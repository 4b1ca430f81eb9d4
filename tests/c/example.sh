#!/usr/bin/env bash
# example.sh LIB: compiles the C program in README.md, links it with the library and compares what it prints with what README.md says.
set -eu

if [ $# -ne 1 ]; then
    echo "usage: example.sh LIB" >&2
    exit 2
fi
lib=$1
top=$(cd "$(dirname "$0")/../.." && pwd)
work=$(mktemp -d)
trap 'rm -rf "$work"' EXIT

# shellcheck disable=SC2016 # the backticks are README.md's
sed -n '/^```c$/,/^```$/{/^```/d;p}' "$top/README.md" >"$work/example.c"
# shellcheck disable=SC2016 # the same
expected=$(sed -n 's/^It prints `\(.*\)`\.$/\1/p' "$top/README.md")
gcc -std=c99 -Werror -Wall -Wextra -Wpedantic -Wconversion -I "$top/include" -o "$work/example" "$work/example.c" "$lib"
printed=$("$work/example")
if [ -z "$expected" ] || [ "$printed" != "$expected" ]; then
    echo "example.sh: README.md's program prints '$printed', not '$expected'" >&2
    exit 1
fi
echo "example.sh: README.md's program prints '$printed'"
