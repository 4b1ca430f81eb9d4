#!/usr/bin/env bash
# symbols.sh LIB: the global symbols that the archive defines are exactly the functions that kawsarpa.h declares and leaves undefined.
set -eu -o pipefail
export LC_ALL=C

if [ $# -ne 1 ]; then
    echo "usage: symbols.sh LIB" >&2
    exit 2
fi
lib=$1
include=$(cd "$(dirname "$0")/../../include" && pwd)
work=$(mktemp -d)
trap 'rm -rf "$work"' EXIT

# gcc lists every function of a file, one a line: /* FILE:LINE:NC */ extern TYPE NAME (...);
printf '#include "kawsarpa.h"\n' >"$work/alone.c"
gcc -std=c99 -I "$include" -aux-info "$work/functions" -c -o "$work/alone.o" "$work/alone.c"
sed -n 's|^/\* .*/kawsarpa\.h:[0-9]*:[A-Z]* \*/ extern [^(]*[ *]\([A-Za-z_0-9]*\) (.*|\1|p' "$work/functions" | sort >"$work/declared"
if [ ! -s "$work/declared" ]; then
    echo "symbols.sh: no exported function found in kawsarpa.h" >&2
    exit 1
fi

# one symbol a line: NAME TYPE VALUE SIZE; a line that ends in a colon names a member of the archive
nm --extern-only --defined-only --format=posix "$lib" >"$work/symbols"
sed -n '/:$/d; s/ .*//p' "$work/symbols" | sort >"$work/defined"

if ! diff -u --label "kawsarpa.h" --label "$lib" "$work/declared" "$work/defined"; then
    echo "symbols.sh: $lib does not export exactly the functions of kawsarpa.h" >&2
    exit 1
fi
cat "$work/defined"
