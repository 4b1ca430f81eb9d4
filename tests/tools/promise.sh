#!/usr/bin/env bash
# promise.sh TOOL FLIPPED: what trip compares. FLIPPED is the tool with a library that errs (flip.c): every bit that is turned in what comes
# out has to be told. With the right library, packets of many shapes come out as another program expects them, and as the tool does.
set -eu

if [ $# -ne 2 ]; then
    echo "usage: promise.sh TOOL FLIPPED" >&2
    exit 2
fi
here=$(cd "$(dirname "$0")" && pwd)
yard=$here/../../examples/yard
flipped=$(realpath "$2")
# shellcheck source=tests/tools/checks.sh
. "$here/checks.sh"
cd "$work"

python3 -B "$here/promise.py" "$work"
python3 -B "$here/captures.py" "$work"
python3 "$yard/make-capture.py" "$work"
for name in office gate mast crane; do
    run 0 compile "$yard/$name.yaml" -o $name
done
there=(--near office --via gate --via mast)

# A table of the yard with its description changed by sed.
vary() { # TABLE FROM SCRIPT
    sed "$3" "$yard/$2.yaml" >"$1.yaml"
    ! cmp -s "$1.yaml" "$yard/$2.yaml" || fail "nothing is changed: $3"
    run 0 compile "$1.yaml" -o "$1"
}

# The lines about what came out, in order.
arrivals() { # LINE...
    printf '%s\n' "$@" | diff - <(grep '^  arrived' stdout) >&2 || fail "other arrivals are expected"
    checks=$((checks + 1))
}

unchanged() { # INNER
    echo "  arrived with the destination, TEID, QFI, R, traffic class and $1 inner octets that went in"
}

changed='  arrived, but not as it went in:'

### a library that errs: every bit of what comes out, and its length

for version in 6 4; do
    code=0
    "$flipped" trip "${there[@]}" --far crane turns$version.pcap >stdout 2>stderr || code=$?
    [ "$code" -eq 1 ] || fail "exit code $code, not 1, over IPv$version"
    grep '^  arrived' stdout | diff turns$version.expected - >&2 || fail "turned bits are not told, or by other words, over IPv$version"
    turns=$(wc -l <turns$version.expected)
    printed "$turns of $turns packets arrived, 1 of them with the destination, TEID, QFI, R, traffic class and inner octets that went in"
    checks=$((checks + turns))
done

### the right library: nothing is told of packets of many shapes, and they are what another program expects

for near in near*.yaml; do
    number=${near//[!0-9]/}
    run 0 compile "near$number.yaml" -o "near$number"
    run 0 compile "far$number.yaml" -o "far$number"
    run 0 trip --near "near$number" --via mast --far "far$number" "in$number.pcap" -o "out$number.pcap"
    printed "120 of 120 packets arrived, 120 of them with the destination, TEID, QFI, R, traffic class and inner octets that went in"
    same "out$number.pcap" "out$number.expected"
done

### tables that do not fit: the direction alone, and with R, which uplink has not

run 1 trip "${there[@]}" --far crane downlink.pcap
arrivals "$(unchanged 40)" "$(unchanged 40)" "$(unchanged 39)"
vary flipped crane '/^entries/,$ s/direction: downlink/direction: uplink/'
run 1 trip "${there[@]}" --far flipped downlink.pcap
arrivals "$changed R, direction" "$changed R, direction" "$changed direction"
printed "3 of 4 packets arrived, 0 of them with the destination, TEID, QFI, R, traffic class and inner octets that went in"
vary flipped office '/^entries/,$ s/direction: uplink/direction: downlink/'
run 1 trip --near crane --via mast --via gate --far flipped uplink.pcap
arrivals "$changed direction" "$changed direction"

# other values that the far gateway takes from the wrong place; the checksum is right, and is not told
vary changed crane 's/args-octet: 8/args-octet: 9/'
run 1 trip "${there[@]}" --far changed downlink.pcap
arrivals "$changed TEID, QFI, R" "$(unchanged 40)" "$changed TEID, QFI"
vary changed crane '/- name: downlink-ipv4/,/^rules/s/p: 6/p: 7/'
run 1 trip "${there[@]}" --far changed downlink.pcap
arrivals "$(unchanged 40)" "$changed destination, TEID, QFI, R" "$(unchanged 39)"
vary changed crane '/- name: downlink-ipv4/,/^rules/s/q: 8/q: 9/'
run 1 trip "${there[@]}" --far changed downlink.pcap
arrivals "$(unchanged 40)" "$changed source" "$(unchanged 39)"

### trips of which nothing is promised: the parts that the line names are compared, and the direction

# the last stop is a waypoint
run 1 trip --near office --via gate --far mast downlink.pcap
arrivals "$changed destination, TEID, QFI, R, inner octets" "$changed source, destination, TEID, QFI, R, inner octets" \
    "$changed destination, TEID, QFI, R, inner octets"

# End.M.GTP6.D, to an address that by chance comes out again
cat >d.yaml <<'EOF'
format: 1
waypoints:
- {name: five, address: "2001:db8:b:1:1601:203:400:0"}
- {name: nine, address: "2001:db8:b:1:2401:203:600:0"}
policies:
- {name: five, waypoints: [five], last-sid: "2001:db8:77::", args-octet: 11}
- {name: nine, waypoints: [nine], last-sid: "2001:db8:78::", args-octet: 11}
- {name: over-ipv4, last-sid: "2001:db8:c1:c000:209::", args-octet: 10}
entries:
- {name: a, behaviour: End.M.GTP6.D, prefix: "2001:db8:77::/48", hop-limit: 64, source: "2001:db8:f::1", direction: downlink,
   session-type: IPv4, policy: five}
- {name: b, behaviour: End.M.GTP6.D, prefix: "2001:db8:78::/48", hop-limit: 64, source: "2001:db8:f::1", direction: downlink,
   session-type: IPv4, policy: nine}
EOF
run 0 compile d.yaml -o d
vary flipped crane '/^entries/,$ s/direction: downlink/direction: uplink/'
run 0 trip --near d --far crane d.pcap
arrivals "$(unchanged 40)" "$(unchanged 40)"
run 1 trip --near d --far flipped d.pcap
arrivals "$changed R, direction" "$changed direction"

# with the library that errs: the second packet has another version, and no part of it is found
code=0
"$flipped" trip --near d --far crane d.pcap >stdout 2>stderr || code=$?
[ "$code" -eq 1 ] || fail "exit code $code, not 1, from End.M.GTP6.D"
arrivals "$(unchanged 40)" "$changed destination, TEID, QFI, R, traffic class, inner octets"

# from IPv6 to IPv4
sed -i 's/policy: five/policy: over-ipv4/' d.yaml
run 0 compile d.yaml -o d
run 1 trip --near d --far crane d.pcap
arrivals "$changed destination" "$(unchanged 40)"

run 0 trip --help
printed "Exit codes: 0 every packet arrived with what went in; 1 one did not arrive, or"
printed "arrived changed, the capture is bad or cut, or a table not sound; 2 wrong"

echo "promise.sh: all $checks checks hold"
