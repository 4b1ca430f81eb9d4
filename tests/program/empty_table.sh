#!/usr/bin/env bash
# empty_table.sh PROGRAM: empty_table on packets of 39, 40, 65,536 and 65,537 octets. No octet past the first 65,536 is read.
set -eu

if [ $# -ne 1 ]; then
    echo "usage: empty_table.sh PROGRAM" >&2
    exit 2
fi
program=$1
work=$(mktemp -d)
trap 'rm -rf "$work"' EXIT

# An IPv6 header with a payload length, then zeros up to so many octets.
packet() { # PAYLOAD-LENGTH-IN-OCTAL-ESCAPES OCTETS
    printf '\140\000\000\000%b\073\100' "$1" >"$work/packet"
    truncate -s "$2" "$work/packet"
}

expect() { # ANSWER OCTETS-NOT-READ
    { "$program" >"$work/answer"; wc -c >"$work/rest"; } <"$work/packet"
    answer=$(cat "$work/answer")
    rest=$(tr -d ' ' <"$work/rest")
    size=$(stat -c %s "$work/packet")
    if [ "$answer" != "$1" ] || [ "$rest" != "$2" ]; then
        echo "program: $size octets: expected '$1' and $2 octets not read, found '$answer' and $rest" >&2
        exit 1
    fi
    echo "program: $size octets: $1"
}

packet '\000\000' 39
expect '2 0' 0
packet '\000\000' 40
expect '4 0' 0
packet '\377\330' 65536
expect '4 0' 0
packet '\377\330' 65537
expect '4 0' 1
