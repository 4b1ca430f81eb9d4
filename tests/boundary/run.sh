#!/usr/bin/env bash
# run.sh LIB: the library across its C boundary, judged by the second program, by itself and under valgrind.
set -eu -o pipefail

if [ $# -ne 1 ]; then
    echo "usage: run.sh LIB" >&2
    exit 2
fi
if [ ! -r "$1" ]; then
    echo "run.sh: no such library: $1" >&2
    exit 1
fi
lib=$(realpath "$1")
here=$(cd "$(dirname "$0")" && pwd)
work=$(mktemp -d)
trap 'rm -rf "$work"' EXIT

# The last lines on success, all of them on failure.
step() { # WHAT LINES COMMAND...
    local what=$1 lines=$2
    shift 2
    if ! "$@" >"$work/output"; then
        cat "$work/output" >&2
        echo "run.sh: $what failed: $*" >&2
        exit 1
    fi
    tail -n "$lines" "$work/output" | sed "s/^/$what: /"
}

cd "$here"
KAWSARPA_LIB=$lib cargo build --release --offline --quiet
boundary=target/release/boundary
memcheck=(valgrind --quiet --error-exitcode=9)

step cases 21 "$boundary" cases --seed 1 --cases 1000000 --threads 2
step faults 5 "$boundary" faults --seed 1 --cases 200000
step trips 7 "$boundary" trips --seed 1 --cases 20000
step burst 21 "$boundary" burst --seed 1 --packets 1000000
step icmp 21 "$boundary" icmp --seed 1 --cases 400000
step burst-trips 19 "$boundary" burst-trips --seed 1 --cases 20000
step threads 1 "$boundary" threads --seed 1 --cases 2000
step loss 38 "$boundary" loss --seed 1 --offers 1000000
step sequence 24 "$boundary" sequence --seed 1 --cases 300000
step match 19 "$boundary" match --seed 1 --cases 1000000
step match-trips 27 "$boundary" match-trips --seed 1 --cases 300000
step stack 13 "$boundary" stack
# seed 2 has every answer number among its first 3,750 cases and every edge of Echo Requests among its first 8,600, but not every edge of
# UDP checksums; every condition among its first 1,650 tables, and no gap among its first 20,000 offers, 10,000 packets and 10,000 pairs.
# seed 18 has every edge of bursts among its first 10,000 packets, but not every count of lengths with 19, nor every number; seed 4 has no
# gap among its first 10,000 packets for ICMPv6 messages
step "cases under valgrind" 1 "${memcheck[@]}" "$boundary" cases --seed 2 --cases 10000 --threads 1 --tables 2
step "faults under valgrind" 1 "${memcheck[@]}" "$boundary" faults --seed 2 --cases 10000
step "trips under valgrind" 2 "${memcheck[@]}" "$boundary" trips --seed 2 --cases 200
step "burst under valgrind" 1 "${memcheck[@]}" "$boundary" burst --seed 18 --packets 10000 --tables 1
step "icmp under valgrind" 1 "${memcheck[@]}" "$boundary" icmp --seed 4 --cases 10000
step "loss under valgrind" 1 "${memcheck[@]}" "$boundary" loss --seed 2 --offers 20000
step "sequence under valgrind" 1 "${memcheck[@]}" "$boundary" sequence --seed 2 --cases 10000
step "match under valgrind" 1 "${memcheck[@]}" "$boundary" match --seed 2 --cases 10000
