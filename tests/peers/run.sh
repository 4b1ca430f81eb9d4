#!/usr/bin/env bash
# run.sh LIB: tshark, the kernel and osmo-ggsn judge what the library writes, and tshark what its readers find. Never skips: where it
# cannot run, it fails.
set -eu

LIMIT=300 # seconds

if [ $# -ne 1 ]; then
    echo "usage: run.sh LIB" >&2
    exit 2
fi
lib=$1
here=$(cd "$(dirname "$0")" && pwd)
top=$here/../..
prefix=kawsarpa-$$- # of the names of all namespaces that are made
work=
tests=

fail() {
    echo "peers: $1" >&2
    exit 1
}

# shellcheck disable=SC2317 # a trap calls it
clean() {
    if [ -n "$tests" ]; then
        kill "$tests" 2>/dev/null || true
        wait "$tests" 2>/dev/null || true
    fi
    ip netns list 2>/dev/null | sed -n "s/^\(${prefix}[^ ]*\).*/\1/p" | while read -r namespace; do
        ip netns pids "$namespace" | xargs -r kill -s KILL 2>/dev/null || true # what a signal has left there
        ip netns delete "$namespace"
    done
    [ -z "$work" ] || rm -rf "$work"
}
trap clean EXIT
trap 'fail "stopped by a signal"' INT TERM HUP

[ -r "$lib" ] || fail "no such library: $lib"
command -v gcc >/dev/null || fail "gcc is missing"
reason=$("$here/can-run.sh") || fail "cannot run: $reason"

work=$(mktemp -d)
gcc -std=c99 -O2 -Werror -Wall -Wextra -Wpedantic -Wconversion -I "$top/include" -o "$work/call" "$here/call.c" "$lib"
# the tool, for its command echo; the Makefile builds it with warnings
gcc -std=c11 -D_GNU_SOURCE -DTOOLCHAIN='""' -I "$top/include" -o "$work/kawsarpa" "$top"/tools/*.c "$lib" -lcyaml -lyaml -lpcap

# in the background, so that a signal is heeded at once
timeout "$LIMIT" /usr/bin/python3 -B "$here/peers.py" "$work/call" "$work/kawsarpa" "$top/target/peers/osmo-ggsn" "$work" "$prefix" &
tests=$!
status=0
wait "$tests" || status=$?
tests=
[ "$status" -ne 124 ] || fail "not done after $LIMIT s"
exit "$status"
