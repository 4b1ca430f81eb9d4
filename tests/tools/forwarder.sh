#!/usr/bin/env bash
# forwarder.sh TOOL LIB: examples/forwarder is built, without a warning and with the sanitizers. Over the yard's captures and drawn ones it
# sends what `kawsarpa translate` sends, and counts what that counts; with a fourth name the same of ICMPv6 messages. What its README shows;
# its faults.
set -eu

if [ $# -ne 2 ]; then
    echo "usage: forwarder.sh TOOL LIB" >&2
    exit 2
fi
here=$(cd "$(dirname "$0")" && pwd)
top=$(cd "$here/../.." && pwd)
lib=$(realpath "$2")
# shellcheck source=tests/tools/checks.sh
. "$here/checks.sh"
cd "$work"

gcc -O1 -g -Wall -Wextra -Wpedantic -Wconversion -Wshadow -Werror -fsanitize=address,undefined -fno-sanitize-recover=all \
    -I "$top/include" -o forwarder "$top/examples/forwarder/forwarder.c" "$lib" -lpcap || fail "forwarder.c was not built"

forward() { # CODE ARGUMENT...
    local expected=$1 code=0
    shift
    ./forwarder "$@" >stdout 2>stderr || code=$?
    [ "$code" -eq "$expected" ] || fail "exit code $code, not $expected: forwarder $*"
    checks=$((checks + 1))
}

# The lines that count answers.
answers() {
    grep -E '^ *[0-9]+  [ 0-9][0-9] ' stdout || true
}

# What the forwarder sends and counts is what the tool does. The order of packets is that of the capture.
alike() { # TABLE CAPTURE
    run 0 translate --table "$1" "$2" expected.pcap
    answers >expected
    forward 0 "$1" "$2" sent.pcap
    same sent.pcap expected.pcap
    answers | diff expected - >&2 || fail "$2: answers are counted otherwise"
    checks=$((checks + 1))
}

for name in office gate mast crane; do
    run 0 compile "$top/examples/yard/$name.yaml" -o $name
done
python3 "$top/examples/yard/make-capture.py" .

### the yard's captures, as raw IP

for pair in downlink:office uplink:crane numbered:crane numbered:gate; do
    python3 -B "$here/raw.py" "${pair%:*}.pcap" raw.pcap
    alike "${pair#*:}" raw.pcap
done
grep -qx 'packets 18, bursts 9; frames left out 0' stdout || fail "not 18 packets in 9 bursts"

### drawn captures: bursts that are full, both versions, long packets, refusals, Echo Requests, frames that are left out

python3 -B "$here/bursts.py" . 2 40
whole=0
for ((number = 0; number < 40; number++)); do
    code=0
    "$tool" translate -q --table office drawn-$number.pcap expected.pcap 2>/dev/null || code=$?
    if [ "$code" -ne 0 ]; then # cut or damaged
        forward 1 office drawn-$number.pcap sent.pcap
    else
        alike office drawn-$number.pcap
        whole=$((whole + 1))
    fi
done
[ "$whole" -gt 20 ] || fail "of the drawn captures only $whole are whole"
alike office behind.pcap
grep -qx 'packets 39, bursts 2; frames left out 1' stdout || fail "not 39 packets in 2 bursts, and one left out"

### ICMPv6 messages: the yard's captures, those of icmp.py, which have every one that is due, and those that are not, and drawn ones

# What the forwarder sends and counts is what the tool does, and both write the messages into a capture of their own.
alike_told() { # TABLE CAPTURE
    local messages
    run 0 translate --table "$1" --icmp messages.expected "$2" sent.expected
    answers >answers.expected
    messages=$(sed -n 's/^ICMPv6 messages: \([0-9]*\) written, .*/\1/p' stdout)
    forward 0 "$1" "$2" sent.pcap messages.pcap
    same sent.pcap sent.expected
    same messages.pcap messages.expected
    answers | diff answers.expected - >&2 || fail "$2: answers are counted otherwise, with messages"
    grep -qx "ICMPv6 messages sent: $messages" stdout || fail "$2: messages are counted otherwise"
    checks=$((checks + 2))
    found=$((found + messages))
}
found=0
for pair in downlink:office uplink:crane refused:office numbered:crane numbered:gate; do
    python3 -B "$here/raw.py" "${pair%:*}.pcap" raw.pcap
    alike_told "${pair#*:}" raw.pcap
done
python3 -B "$here/icmp.py" .
run 0 compile stops.yaml -o stops
alike_told stops icmp-refused.pcap
grep -qx 'ICMPv6 messages sent: 47' stdout || fail "not 47 messages are sent"
alike_told stops icmp-many.pcap
alike_told stops icmp-none.pcap
whole=0 found=0
for ((number = 0; number < 40; number++)); do
    code=0
    "$tool" translate -q --table office refused-$number.pcap sent.expected 2>/dev/null || code=$?
    if [ "$code" -ne 0 ]; then # cut or damaged
        forward 1 office refused-$number.pcap sent.pcap messages.pcap
    else
        alike_told office refused-$number.pcap
        whole=$((whole + 1))
    fi
done
[ "$whole" -gt 20 ] || fail "of the drawn captures with refusals only $whole are whole"
[ "$found" -gt 20 ] || fail "only $found messages are due in the drawn captures"
alike_told office behind.pcap

### what its README shows

mkdir shown
cp office gate mast crane numbered.pcap shown
ln -s ../forwarder shown/forwarder
ln -s "$tool" shown/kawsarpa
sed -n '/^## A run$/,$s/^    //p' "$top/examples/forwarder/README.md" >shown.expected
grep -q '^\$ ' shown.expected || fail "the README shows no run"
while read -r line; do
    echo "\$ $line"
    (cd shown && PATH=$PWD:$PATH bash -c "$line") || true
done < <(sed -n 's/^\$ //p' shown.expected) >shown.printed 2>&1
diff shown.expected shown.printed >&2 || fail "the README shows something else"
line=$(sed -n 's/^    \(gcc .*libkawsarpa.*\)/\1/p' "$top/examples/forwarder/README.md")
(cd "$top" && bash -c "${line/ -o forwarder / -o "$work/built" }") || fail "the README's line does not build it: $line"
./built --help >stdout || fail "what the README's line builds does not run"
checks=$((checks + 2))

### its faults

forward 0 --help
grep -q '^Exit codes: 0 done; ' stdout || fail "the help has no exit codes"
forward 2
forward 2 office raw.pcap
grep -q '^usage: forwarder TABLE IN.pcap OUT.pcap$' stderr || fail "no usage is told"
forward 3 none raw.pcap sent.pcap
complained "forwarder: none: No such file or directory"
forward 1 "$top/examples/yard/office.yaml" raw.pcap sent.pcap
complained "office.yaml: not sound: unknown format (index 0)"
{ cat office; head -c 20000 /dev/zero; } >longer
forward 1 longer raw.pcap sent.pcap
complained "forwarder: longer: not sound: wrong length of the table (index 0)"
forward 1 office none.pcap sent.pcap
complained "none.pcap: No such file or directory"
forward 1 office numbered.pcap sent.pcap
complained "forwarder: numbered.pcap: not a capture of raw IP"
forward 3 office raw.pcap nowhere/sent.pcap
complained "nowhere/sent.pcap: No such file or directory"
forward 3 office behind.pcap /dev/full
complained "forwarder: /dev/full: No space left on device"
forward 2 office raw.pcap sent.pcap messages.pcap more
forward 3 office raw.pcap sent.pcap nowhere/messages.pcap
complained "nowhere/messages.pcap: No such file or directory"
forward 3 stops icmp-refused.pcap sent.pcap /dev/full
complained "forwarder: /dev/full: No space left on device"

echo "forwarder.sh: all $checks checks hold"
