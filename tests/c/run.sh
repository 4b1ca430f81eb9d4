#!/usr/bin/env bash
# run.sh LIB: kawsarpa.h by itself, the symbols of the archive, and calls.c, icmps.c, none_due.c, bursts.c, faults.c, losses.c, matches.c,
# prefixes.c, sorted.c, largest.c and apart.c linked with it as C99, as C++17 and beside the sanitizers; and that NDEBUG leaves no
# assertion in calls, ICMPv6 messages and bursts.
set -eu

if [ $# -ne 1 ]; then
    echo "usage: run.sh LIB" >&2
    exit 2
fi
lib=$1
here=$(cd "$(dirname "$0")" && pwd)
include=$(cd "$here/../../include" && pwd)
work=$(mktemp -d)
trap 'rm -rf "$work"' EXIT

fail() {
    echo "run.sh: $1" >&2
    exit 1
}

# The last line on success, all of it on failure.
linked() { # WHAT COMPILER...
    local what=$1 program
    shift
    for program in calls icmps none_due bursts faults losses matches prefixes sorted largest apart; do
        "$@" -O2 -g -Werror -Wall -Wextra -Wpedantic -Wconversion -I "$include" -I "$work" -o "$work/$program" "$here/$program.c" \
            -x none "$lib" || fail "$program.c was not built: $what"
        if ! "$work/$program" >"$work/output" 2>&1; then
            cat "$work/output" >&2
            fail "$program.c failed: $what"
        fi
        echo "$what: $(tail -n 1 "$work/output")"
    done
}

[ -r "$lib" ] || fail "no such library: $lib"
"$here/header.sh" || fail "kawsarpa.h failed"
"$here/symbols.sh" "$lib" || fail "the symbols of $lib failed"
# the examples that kawsarpa.h gives in four of its parts; icmps.c, bursts.c, losses.c and matches.c include them
example() { # PART
    sed -n "/^ \* $1\$/,/^ \*\/\$/s/^ \*     //p" "$include/kawsarpa.h"
}
example "ICMPV6 MESSAGES" | sed '/^}$/q' >"$work/icmp_example.h" # the layout of a message follows
example "BURSTS" >"$work/burst_example.h"
example "LOST SEQUENCE NUMBERS" >"$work/example.h"
example "TABLES THAT FIT" >"$work/match.h"
linked "C99" gcc -std=c99
linked "C++17" g++ -x c++ -std=c++17
linked "C99 with sanitizers" gcc -std=c99 -fsanitize=address,undefined -fno-sanitize-recover=all

asserts() { # NDEBUG PROGRAM
    gcc -std=c99 -O2 "$1" -I "$include" -I "$work" -c -o "$work/$2.o" "$here/$2.c"
    nm --undefined-only "$work/$2.o" | grep -c __assert_fail || true
}
for program in calls icmps bursts; do
    [ "$(asserts -UNDEBUG $program)" = 1 ] || fail "without NDEBUG the $program assert nothing"
    [ "$(asserts -DNDEBUG $program)" = 0 ] || fail "with NDEBUG an assertion is left in the $program"
done
echo "assertions: in calls, ICMPv6 messages and bursts without NDEBUG, none with it"
