#!/usr/bin/env bash
# run.sh LIB SECOND DIR: what calls and bursts of the library cost, beside the anchor and a copy, and an ICMPv6 message and an offer beside
# the anchor's. What is built and measured is left in DIR.
set -eu -o pipefail

if [ $# -ne 3 ]; then
    echo "usage: run.sh LIB SECOND DIR" >&2
    exit 2
fi
lib=$1 second=$2 dir=$3
here=$(cd "$(dirname "$0")" && pwd)
flags=(-std=c11 -D_GNU_SOURCE -O3 -g -Wall -Wextra -Wpedantic -Wshadow -Wconversion -Werror -I "$here/../include")
rm -rf "$dir"
mkdir -p "$dir/dumps"

anchor=()
for name in anchor anchor_burst anchor_icmp anchor_sum anchor_table anchor_loss anchor_sequence; do
    gcc "${flags[@]}" -c -o "$dir/$name.o" "$here/$name.c"
    anchor+=("$dir/$name.o")
done
for name in cases measure bursts bench; do
    gcc "${flags[@]}" -c -o "$dir/$name.o" "$here/$name.c"
done
gcc -Wl,-z,now -o "$dir/bench" "$dir"/{bench,bursts,measure,cases}.o "${anchor[@]}" "$lib"

# The anchor counts only if it agrees: the lines that tests/c/vectors.sh puts to the library, put to the anchor under its names.
renamed=()
for name in translate_ipv6 translate_ipv4 icmp_ipv6 burst_ipv6 burst_ipv4 loss_offer sequence_ipv6 sequence_ipv4; do
    renamed+=("-Dkawsarpa_$name=anchor_$name")
done
# The anchor has no test whether tables fit: there the library is linked, and no line below asks for it.
gcc "${flags[@]}" "${renamed[@]}" -o "$dir/agree" "$here/../tests/c/vectors.c" "${anchor[@]}" "$lib"
{
    echo "The anchor judged by the second program"
    "$second" vectors --seed 1 --per-kind 2000 | "$dir/agree"
    "$second" vectors --seed 5 --per-kind 600 --max-packet 2500 | "$dir/agree"
    "$second" vectors --seed 7 --per-kind 200 --max-packet 65600 | "$dir/agree"
    "$second" burst-vectors --seed 1 --cases 6000 | "$dir/agree"
    "$second" burst-vectors --seed 5 --cases 3000 --max-octets 120000 | "$dir/agree"
    "$second" icmp-vectors --seed 1 --cases 6000 | "$dir/agree"
    "$second" icmp-vectors --seed 5 --cases 2000 --max-octets 65600 | "$dir/agree"
    "$second" loss-vectors --seed 1 --cases 2000 | "$dir/agree"
    "$second" sequence-vectors --seed 1 --cases 10000 | "$dir/agree"
    echo
} | tee "$dir/table.txt"

valgrind --quiet --tool=callgrind --collect-atstart=no --dump-instr=yes --compress-strings=no --compress-pos=no \
    --callgrind-out-file="$dir/dumps/dump" "$dir/bench" count
"$dir/bench" time >"$dir/times"
python3 -B "$here/report.py" "$dir/times" "$dir/dumps" "$dir/bench" | tee -a "$dir/table.txt"
python3 -B "$here/plot.py" "$dir/dumps" >"$dir/performance.svg"
