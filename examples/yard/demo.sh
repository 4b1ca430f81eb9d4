#!/usr/bin/env bash
# demo.sh TOOL: the yard's tables compiled and held against each other, its captures made, sent through whole trips, and searched for what
# was lost; and the ICMPv6 messages about what is refused. Prints each command before what it says.
set -eu -o pipefail

if [ $# -ne 1 ]; then
    echo "usage: demo.sh TOOL" >&2
    exit 2
fi
tool=$(realpath "$1")
yard=$(cd "$(dirname "$0")" && pwd)
work=$(mktemp -d)
trap 'rm -rf "$work"' EXIT

# The commands run in the work directory, so that they can be shown with short names.
cp "$yard"/*.yaml "$work"
cd "$work"
mkdir bin
ln -s "$tool" bin/kawsarpa
PATH=$work/bin:$PATH

title() {
    printf '\n== %s\n' "$1"
}

# Shows a command and runs it; any exit code but the one that is expected ends the demo.
step() { # CODE COMMAND...
    local expected=$1 code=0
    shift
    echo "\$ $*"
    "$@" || code=$?
    if [ "$code" -ne "$expected" ]; then
        echo "demo.sh: exit code $code, not $expected" >&2
        exit 1
    fi
}

title "The tables of the two gateways and the two waypoints, from their descriptions"
for name in office gate mast crane; do
    step 0 kawsarpa compile $name.yaml -o $name
done

title "Do these tables belong together? All that is sent on at either end, without a packet"
step 0 kawsarpa match --near office --via gate --via mast --far crane --both

title "And with Args an octet later in the crane's entry? Each table is sound by itself, but they do not belong together"
echo "\$ sed '/^entries/,\$s/args-octet: 8/args-octet: 9/' crane.yaml >crane-9.yaml"
sed '/^entries/,$s/args-octet: 8/args-octet: 9/' crane.yaml >crane-9.yaml
step 0 kawsarpa compile crane-9.yaml -o crane-9
step 0 kawsarpa check crane-9 | sed '3s/.*/.../; 4,$d'
step 1 kawsarpa match --near office --via gate --via mast --far crane-9 --both

title "The captures: Ethernet frames seen beside the UPF and beside the radio"
python3 "$yard/make-capture.py" .
ls -- *.pcap

title "The near gateway alone: what it makes of each downlink packet. Packet 3 is ARP; packet 4, an End Marker, is not for it"
step 0 kawsarpa translate --table office --trace downlink.pcap left-office.pcap

title "The whole trip, from the office to the crane. The exit code is 1, since the End Marker does not arrive"
step 1 kawsarpa trip --near office --via gate --via mast --far crane downlink.pcap -o arrived.pcap

title "The same with the crane's other table: nothing more is refused, and flow 5 leaves with another TEID and QFI"
step 1 kawsarpa trip --near office --via gate --via mast --far crane-9 downlink.pcap |
    sed '/^packet 2: /,/^frames/{/^packet 2: /s/.*/.../; /^\.\.\.$/!{/^frames/!d}}'

title "And back: what the machines answer"
step 0 kawsarpa trip --near crane --via mast --via gate --far office uplink.pcap

title "What arrived, through the same trip once more: it comes out as it went in, octet for octet"
step 0 kawsarpa trip --near office --via gate --via mast --far crane arrived.pcap -o again.pcap | sed '2s/.*/.../; 3,/^frames/{/^frames/!d}'
step 0 cmp arrived.pcap again.pcap
echo "arrived.pcap and again.pcap are equal: 3 packets, $(stat -c %s again.pcap) octets of capture"

title "What was lost between radio and gateway, for a radio that numbers its packets: a gap of three, a repeat, one late, and past 65,535"
step 0 kawsarpa loss numbered.pcap

title "What the gateway on the crane does with them: the radio's Echo Request is answered, all others are sent on"
step 0 kawsarpa translate --table crane numbered.pcap left-crane.pcap

title "What the office refuses, and the ICMPv6 messages to the senders: of a ping and of a segment too few; about an error none is due"
step 0 kawsarpa translate --table office --trace --icmp messages.pcap refused.pcap
