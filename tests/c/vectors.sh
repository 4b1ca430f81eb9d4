#!/usr/bin/env bash
# vectors.sh LIB SECOND: cases, bursts, packets for ICMPv6 messages, histories of offers, packets for the readers and pairs of tables, of
# the second program, through the library.
set -eu -o pipefail

if [ $# -ne 2 ]; then
    echo "usage: vectors.sh LIB SECOND" >&2
    exit 2
fi
lib=$1
second=$2
here=$(cd "$(dirname "$0")" && pwd)
work=$(mktemp -d)
trap 'rm -rf "$work"' EXIT

gcc -std=c99 -O2 -Werror -Wall -Wextra -Wpedantic -Wconversion -I "$here/../../include" -o "$work/vectors" "$here/vectors.c" "$lib"
"$second" vectors --seed 1 --per-kind 2000 | "$work/vectors"
"$second" vectors --seed 5 --per-kind 600 --max-packet 2500 | "$work/vectors"
"$second" vectors --seed 7 --per-kind 200 --max-packet 65600 | "$work/vectors"
"$second" burst-vectors --seed 1 --cases 6000 | "$work/vectors"
"$second" burst-vectors --seed 5 --cases 3000 --max-octets 120000 | "$work/vectors"
"$second" icmp-vectors --seed 1 --cases 6000 | "$work/vectors"
"$second" icmp-vectors --seed 5 --cases 2000 --max-octets 65600 | "$work/vectors"
"$second" loss-vectors --seed 1 --cases 2000 | "$work/vectors"
"$second" sequence-vectors --seed 1 --cases 10000 | "$work/vectors"
"$second" match-vectors --seed 1 --cases 10000 | "$work/vectors"
