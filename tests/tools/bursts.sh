#!/usr/bin/env bash
# bursts.sh TOOL: translate gathers packets for bursts, and with --trace makes a call for each. Over drawn captures, and on disks that are
# full after so many octets, both write the same octets, say the same of frames, count the same and end with the same code. So with --icmp,
# where they write the same ICMPv6 messages too.
set -eu

if [ $# -ne 1 ]; then
    echo "usage: bursts.sh TOOL" >&2
    exit 2
fi
here=$(cd "$(dirname "$0")" && pwd)
# shellcheck source=tests/tools/checks.sh
. "$here/checks.sh"
cd "$work"

# A run whose files may have so many blocks of 1,024 octets, or any number; what it prints goes through a pipe, which has no limit.
limited() { # BLOCKS ARGUMENT...
    local blocks=$1 code=0
    shift
    (ulimit -f "$blocks" && exec "$tool" translate --table office "$@") || code=$?
    echo "code $code"
}

# The same run in both forms; of what is printed the summary and the exit code.
alike() { # CAPTURE OUT BLOCKS OPTION...
    local form trace
    for form in bursts single; do
        rm -f sent.pcap messages.pcap
        trace=()
        [ $form = bursts ] || trace=(--trace)
        limited "$3" "${trace[@]}" "${@:4}" "$1" "$2" 2>$form.stderr | sed -n '/^\(frames\|code\) /,$p' >$form.summary
        cp sent.pcap $form.pcap 2>/dev/null || : >$form.pcap
        cp messages.pcap $form.messages 2>/dev/null || : >$form.messages
    done
    cmp bursts.pcap single.pcap >&2 || fail "$1, $2, $3 blocks: other packets are sent in bursts"
    diff single.summary bursts.summary >&2 || fail "$1, $2, $3 blocks: bursts are counted otherwise"
    diff single.stderr bursts.stderr >&2 || fail "$1, $2, $3 blocks: something else is said of bursts"
    checks=$((checks + 3))
    codes+=("$(sed -n 's/^code //p' bursts.summary)")
}

# The same with --icmp.
alike_told() { # CAPTURE OUT BLOCKS
    alike "$@" --icmp messages.pcap
    cmp bursts.messages single.messages >&2 || fail "$1, $2, $3 blocks: other messages are written in bursts"
    checks=$((checks + 1))
    sed -n 's/^ICMPv6 messages: \([0-9]*\) written, none due for \([0-9]*\) .*/\1 \2/p' bursts.summary >>messages
}

# Sixty captures of a kind: with no limit on what is written, with one of few blocks, and onto a full disk.
sixty() { # FUNCTION KIND WORDS
    codes=()
    for ((number = 0; number < 60; number++)); do
        "$1" "$2-$number.pcap" sent.pcap unlimited
        "$1" "$2-$number.pcap" sent.pcap $((number % 30 + 1))
        "$1" "$2-$number.pcap" /dev/full unlimited
    done
    [ "$(printf '%s\n' "${codes[@]}" | sort -u | xargs)" = "0 1 3" ] || fail "the exit codes are not 0, 1 and 3$3"
}

run 0 compile "$here/../../examples/yard/office.yaml" -o office
python3 -B "$here/bursts.py" . 1 60
sixty alike drawn ""

# the disk is full at packet 25, and frame 30 is snapped: packets that are gathered are written before anything is said of a frame
alike behind.pcap /dev/full unlimited
echo "kawsarpa: /dev/full: No space left on device" | diff - bursts.stderr >&2 || fail "not the full disk alone is told"
checks=$((checks + 1))

# ICMPv6 messages
sixty alike_told refused " where messages are written"
awk '{ written += $1; none_due += $2 } END { exit !(written > 50 && none_due > 50) }' messages || fail "few messages are due, or not due"
alike_told behind.pcap /dev/full unlimited
echo "kawsarpa: /dev/full: No space left on device" | diff - bursts.stderr >&2 || fail "not the full disk alone is told, with --icmp"
checks=$((checks + 1))

echo "bursts.sh: all $checks checks hold"
