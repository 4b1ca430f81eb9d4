#!/usr/bin/env bash
# worked.sh SECOND PROGRAM: what the program `worked` reads, and what it is to print, are the second program's own words; a part of it comes
# out the same on the interpreter and compiled with checks, and so do ICMPv6 messages, and more of these by PROGRAM, `worked` as built.
# worked.sh SECOND --write: makes the two files anew, and does nothing else.
set -eu

if [ $# -ne 2 ]; then
    echo "usage: worked.sh SECOND PROGRAM | worked.sh SECOND --write" >&2
    exit 2
fi
second=$1
top=$(cd "$(dirname "$0")/../.." && pwd)
crate=$top/crates/worked

# What the program reads and is to print. The two files of the crate have no ICMPv6 messages: these are a run of their own.
write() { # FOLDER OPTION...
    local into=$1
    shift
    "$second" program-input --seed 1 "$@" >"$into/stdin"
    "$second" program-output --seed 1 "$@" >"$into/stdout"
}
write_icmp() { # FOLDER OPTION...
    local into=$1
    shift
    "$second" icmp-program-input --seed 1 "$@" >"$into/stdin"
    "$second" icmp-program-output --seed 1 "$@" >"$into/stdout"
}

if [ "$2" = --write ]; then
    write "$crate" --per-kind 360
    exit
fi
program=$(realpath "$2")

work=$(mktemp -d)
trap 'rm -rf "$work"' EXIT

fail() {
    echo "worked.sh: $1" >&2
    exit 1
}

# What was printed of the run in $work.
same() { # WHERE
    cmp "$work/printed" "$work/stdout" || fail "$1: not what the second program writes"
}

# The run in $work, by the sources and with no proof. The interpreter's own limit of steps is too low for it.
try() {
    if ! (cd "$crate" && rt try --steps 200000000) <"$work/stdin" >"$work/printed" 2>"$work/log"; then
        cat "$work/log" >&2
        fail "rt try failed"
    fi
    grep -q 'runners=2' "$work/log" || { cat "$work/log" >&2 && fail "rt try: only one of the two runs answered"; }
    same "rt try"
}

write "$work" --per-kind 360
for file in stdin stdout; do
    cmp "$work/$file" "$crate/$file" ||
        fail "crates/worked/$file is not what the second program writes; worked.sh SECOND --write makes it anew"
done
octets=$(cat "$crate/stdin" "$crate/stdout" | wc -c)
echo "worked: $(wc -l <"$crate/stdout") calls, $octets octets of data, as the second program writes them"

# without the long packets, which take the interpreter too long
write "$work" --per-kind 56 --max-worked 400
try
echo "worked: $(wc -l <"$work/stdout") calls on the interpreter and compiled with checks"

write_icmp "$work" --cases 59
try
echo "worked: $(wc -l <"$work/stdout") ICMPv6 messages likewise"
write_icmp "$work" --cases 400
"$program" <"$work/stdin" >"$work/printed" || fail "$program: status $?"
same "$program"
echo "worked: $(wc -l <"$work/stdout") ICMPv6 messages by the program as it was proved and built"
