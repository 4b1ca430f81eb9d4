#!/usr/bin/env bash
# captures.sh TOOL: drives the commands translate and trip over captures of every link type, bad ones and mutated ones, with the yard's
# tables; and loss over the mutated ones.
set -eu

if [ $# -ne 1 ]; then
    echo "usage: captures.sh TOOL" >&2
    exit 2
fi
here=$(cd "$(dirname "$0")" && pwd)
yard=$here/../../examples/yard
# shellcheck source=tests/tools/checks.sh
. "$here/checks.sh"

# After a failure nothing is left, under the final name or beside it.
nothing_left() {
    [ -z "$(find "$work/out" -mindepth 1)" ] || fail "left behind: $(ls "$work/out")"
    checks=$((checks + 1))
}

translate() { # CODE CAPTURE
    rm -f "$work/out/sent.pcap"
    run "$1" translate --table "$work/office" "$work/$2" "$work/out/sent.pcap"
}

refused() { # CAPTURE TEXT
    translate 1 "$1"
    complained "$2"
    nothing_left
}

downlink=(--near "$work/office" --via "$work/gate" --via "$work/mast" --far "$work/crane")
uplink=(--near "$work/crane" --via "$work/mast" --via "$work/gate" --far "$work/office")

mkdir "$work/out"
for name in office gate mast crane; do
    run 0 compile "$yard/$name.yaml" -o "$work/$name"
done
python3 "$here/captures.py" "$work"
python3 "$yard/make-capture.py" "$work"

# every link type and format
for capture in "$work"/same-*.pcap; do
    translate 0 "$(basename "$capture")"
    same out/sent.pcap sent.expected
    printed "       3   0 sent"
    printed "       1  11 not a G-PDU"
done
translate 0 ipv4.pcap
same out/sent.pcap sent-ipv4.expected
translate 0 ipv6.pcap
same out/sent.pcap sent-ipv6.expected
printed "longest packet: 104 octets in, 152 sent"

# what is cut, counted or left out
translate 0 same-padded.pcap
printed "frames 4: IP packets 4, not IP 0, snapped 0; padding cut 4"
translate 0 empty.pcap
same out/sent.pcap none.expected
printed "frames 0: IP packets 0, not IP 0, snapped 0; padding cut 0"
translate 0 snapped.pcap
same out/sent.pcap none.expected
printed "frames 7: IP packets 0, not IP 0, snapped 7; padding cut 0"
complained "snapped.pcap: packet 1 is snapped, 117 octets of 118: it is left out"
[ "$(wc -l <"$work/stderr")" -eq 5 ] || fail "more than five snapped packets are told one by one"
translate 0 not-ip.pcap
printed "frames 6: IP packets 0, not IP 6, snapped 0; padding cut 0"
translate 0 not-ip-raw.pcap
printed "frames 3: IP packets 0, not IP 3, snapped 0; padding cut 0"
translate 0 wrapped.pcap
printed "frames 13: IP packets 1, not IP 3, snapped 0; padding cut 0"
printed "       1  LLC/SNAP: may hold IP, but is not looked into"
printed "       1  0x8847 MPLS: may hold IP, but is not looked into"
printed "       1  0x8848 MPLS multicast: may hold IP, but is not looked into"
printed "       2  0x8864 PPPoE session: may hold IP, but is not looked into"
printed "       1  0x88e5 MACsec: may hold IP, but is not looked into"
printed "       1  0x88e7 provider backbone bridge: may hold IP, but is not looked into"
printed "       1  0x8926 VN-Tag: may hold IP, but is not looked into"
printed "       1  0x894f NSH: may hold IP, but is not looked into"
translate 0 wrapped-cooked.pcap
printed "frames 1: IP packets 0, not IP 0, snapped 0; padding cut 0"
printed "       1  0x8847 MPLS: may hold IP, but is not looked into"
translate 0 raw-behind.pcap
printed "       4   2 malformed packet"
run 0 translate --table "$work/office" --trace "$work/offloaded.pcap" "$work/out/sent.pcap"
printed "       2   2 malformed packet"
printed "frames 2: IP packets 2, not IP 0, snapped 0; padding cut 0"
grep -q '^packet 1: .*, 104 octets$' "$work/stdout" || fail "a packet whose payload length is 0 is cut to its header"
translate 0 offloaded4.pcap
printed "       1   2 malformed packet"
translate 0 wrong-version.pcap
printed "       1   2 malformed packet"

# the trace
run 0 translate --table "$work/office" --trace "$work/downlink.pcap" "$work/out/sent.pcap"
same out/sent.pcap sent.expected
printed "packet 1: IPv6 2001:db8:a0::1 > 2001:db8:77::9, traffic class 0xb8, G-PDU, TEID 0x01020304, QFI 5, R 1, downlink, 104 octets"
printed "  entry 2 End.M.GTP6.D.Di 2001:db8:77::/48: sent: IPv6 2001:db8:f::1 > 2001:db8:1::e, traffic class 0xb8, \
SL 3 then 2001:db8:2::e, \
2001:db8:b:1:1601:203:400:0, 2001:db8:77::9, IPv4 inside, 152 octets"
printed "packet 4: IPv4 198.51.100.7 > 192.0.2.9, traffic class 0x00, End Marker, TEID 0x01020305, 36 octets"
printed "  rule 1 H.M.GTP4.D 192.0.2.0/24: refused, 11 not a G-PDU"
printed "frames 5: IP packets 4, not IP 1, snapped 0; padding cut 2"
cp "$work/out/sent.pcap" "$work/sent.pcap"
run 0 translate --table "$work/gate" --trace "$work/sent.pcap" "$work/out/passed.pcap"
printed "packet 2: IPv6 2001:db8:d1:0:c633:6407:: > 2001:db8:1::e, traffic class 0xb8, SL 2 then 2001:db8:2::e, \
2001:db8:c1:c000:209:1601:203:400, IPv4 inside, 136 octets"
printed "  entry 1 End 2001:db8:1::/48: sent: IPv6 2001:db8:d1:0:c633:6407:: > 2001:db8:2::e, traffic class 0xb8, \
SL 1 then 2001:db8:c1:c000:209:1601:203:400, IPv4 inside, 136 octets"
run 0 translate --table "$work/crane" --trace "$work/sent.pcap" "$work/out/passed.pcap"
printed "       3   4 no match"
printed "  refused, 4 no match"

# of two entries or rules that cover a destination the trace names the longer, wherever it stands
cat >"$work/nested.yaml" <<'END'
format: 1
entries:
- {name: all, behaviour: End, prefix: "2000::/3", hop-limit: 64}
- {name: site, behaviour: End, prefix: "2001:db8:70::/44", hop-limit: 64}
- {name: near, behaviour: End, prefix: "2001:db8:80::/44", hop-limit: 64}
rules:
- {name: all, prefix: 0.0.0.0/0, hop-limit: 1, direction: downlink, session-type: IPv4, p: 0, q: 0, sid-prefix: "::", source-prefix: "::"}
- {name: net, prefix: 192.0.0.0/9, hop-limit: 1, direction: downlink, session-type: IPv4, p: 0, q: 0, sid-prefix: "::", source-prefix: "::"}
- {name: a, prefix: 192.0.2.8/32, hop-limit: 1, direction: downlink, session-type: IPv4, p: 0, q: 0, sid-prefix: "::", source-prefix: "::"}
END
run 0 compile "$work/nested.yaml" -o "$work/nested"
run 0 translate --table "$work/nested" --trace "$work/downlink.pcap" "$work/out/passed.pcap"
printed "  entry 2 End 2001:db8:70::/44: refused, 8 bad upper layer (ICMPv6 type 4, code 4, pointer 40)"
printed "  rule 2 H.M.GTP4.D 192.0.0.0/9: refused, 11 not a G-PDU"
run 0 translate --table "$work/nested" --trace "$work/sent.pcap" "$work/out/passed.pcap"
printed "  entry 1 End 2000::/3: sent: IPv6 2001:db8:f::1 > 2001:db8:2::e, traffic class 0xb8, \
SL 2 then 2001:db8:b:1:1601:203:400:0, 2001:db8:77::9, IPv4 inside, 152 octets"

# Echo Requests: the Echo Responses are sent, and counted apart from what is sent on, also if that is as long and has a 2 in the same place
run 0 translate --table "$work/office" --trace "$work/echo.pcap" "$work/out/sent.pcap"
same out/sent.pcap echo-sent.expected
printed "packet 2: IPv6 2001:db8:a0::1 > 2001:db8:77::9, traffic class 0xb8, Echo Request, TEID 0x00000000, sequence number 7, 60 octets"
printed "  entry 2 End.M.GTP6.D.Di 2001:db8:77::/48: Echo Request answered: IPv6 2001:db8:77::9 > 2001:db8:a0::1, traffic class 0xb8, \
Echo Response, TEID 0x00000000, sequence number 7, 62 octets"
printed "  rule 1 H.M.GTP4.D 192.0.2.0/24: Echo Request answered: IPv4 192.0.2.9 > 198.51.100.7, traffic class 0x20, \
Echo Response, TEID 0x00000000, sequence number 8, 42 octets"
printed "  entry 2 End.M.GTP6.D.Di 2001:db8:77::/48: Echo Request answered: IPv6 2001:db8:77::9 > 2001:db8:a0::1, traffic class 0x00, \
Echo Response, TEID 0x00000000, sequence number 65535, 62 octets"
printed "packet 5: IPv6 2001:db8:a0::1 > 2001:db8:77::9, traffic class 0x00, Echo Request, TEID 0x00000000, 56 octets"
printed "  entry 2 End.M.GTP6.D.Di 2001:db8:77::/48: refused, 17 bad Echo Request"
printed "packet 7: IPv4 198.51.100.7 > 192.0.2.9, traffic class 0x00, Echo Request, TEID 0x00000001, sequence number 0, 40 octets"
printed "  rule 1 H.M.GTP4.D 192.0.2.0/24: refused, 17 bad Echo Request"
printed "  entry 2 End.M.GTP6.D.Di 2001:db8:77::/48: refused, 10 bad GTP-U"
printed "  entry 2 End.M.GTP6.D.Di 2001:db8:77::/48: refused, 11 not a G-PDU"
sed -i '1,/^frames/d' "$work/stdout"
all_printed <<'END'
       1   0 sent
       3   0 Echo Request answered
       1  10 bad GTP-U
       1  11 not a G-PDU
       3  17 bad Echo Request
longest packet: 104 octets in, 152 sent
END
translate 0 echo-alone.pcap
all_printed <<'END'
frames 3: IP packets 3, not IP 0, snapped 0; padding cut 0
       3   0 Echo Request answered
END

# UDP checksums over IPv6: what is refused is told with its cause, and an entry that allows 0 allows nothing else
cause='refused, 18 bad UDP checksum'
unfinished='only the sum of the pseudo-header: a capture on the sending host, before its network card finished the checksum'
run 0 translate --table "$work/office" --trace "$work/checksums.pcap" "$work/out/sent.pcap"
same out/sent.pcap checksums-sent.expected
[ "$(grep -c "^  entry 2 End.M.GTP6.D.Di 2001:db8:77::/48: $cause (0, and the entry does not allow it)\$" "$work/stdout")" -eq 3 ] ||
    fail "not three checksums of 0 are told"
printed "  entry 2 End.M.GTP6.D.Di 2001:db8:77::/48: $cause (0x5ce4, only the sum of the pseudo-header; 0xc1b7 is right)"
printed "  entry 2 End.M.GTP6.D.Di 2001:db8:77::/48: $cause (0xc1b6; 0xc1b7 is right)"
printed "  entry 2 End.M.GTP6.D.Di 2001:db8:77::/48: $cause (0xffff; 0x6057 is right)"
sed -i '1,/^frames/d' "$work/stdout"
all_printed <<END
       3   0 sent
       8  18 bad UDP checksum
             3 of them are 0, which the entry does not allow
             3 of them hold $unfinished
longest packet: 106 octets in, 154 sent
END
sed '/- name: downlink-ipv6 /,/^ *- /s/direction: .*/&\n    zero-checksum: allow/' "$yard/office.yaml" >"$work/allowing.yaml"
run 0 compile "$work/allowing.yaml" -o "$work/allowing"
run 0 translate --table "$work/allowing" "$work/checksums.pcap" "$work/out/sent.pcap"
same out/sent.pcap checksums-allowed.expected
all_printed <<END
frames 11: IP packets 11, not IP 0, snapped 0; padding cut 0
       5   0 sent
       1   0 Echo Request answered
       5  18 bad UDP checksum
             3 of them hold $unfinished
longest packet: 106 octets in, 154 sent
END
translate 0 checksums-two.pcap
all_printed <<END
frames 2: IP packets 2, not IP 0, snapped 0; padding cut 0
       2  18 bad UDP checksum
             1 of them is 0, which the entry does not allow
             1 of them holds $unfinished
END

run 0 translate --table "$work/nested" "$work/echo-like.pcap" "$work/out/sent.pcap"
all_printed <<'END'
frames 1: IP packets 1, not IP 0, snapped 0; padding cut 0
       1   0 sent
longest packet: 66 octets in, 62 sent
END

# standard input and output
"$tool" translate --table "$work/office" - - <"$work/downlink.pcap" >"$work/out/sent.pcap" 2>"$work/stderr" || fail "from - to -"
same out/sent.pcap sent.expected
complained "       3   0 sent"

# a trip: what came out at the crane
run 1 trip "${downlink[@]}" "$work/downlink.pcap" -o "$work/out/arrived.pcap"
printed "  near: refused, 11 not a G-PDU"
printed "  arrived with the destination, TEID, QFI, R, traffic class and 40 inner octets that went in"
printed "3 of 4 packets arrived, 3 of them with the destination, TEID, QFI, R, traffic class and inner octets that went in"
cp "$work/out/arrived.pcap" "$work/again.pcap"
run 0 trip "${downlink[@]}" "$work/again.pcap" -o "$work/out/again.pcap"
same out/again.pcap again.pcap
printed "3 of 3 packets arrived, 3 of them with the destination, TEID, QFI, R, traffic class and inner octets that went in"
run 0 trip "${uplink[@]}" "$work/uplink.pcap"
printed "2 of 2 packets arrived, 2 of them with the destination, TEID, QFI, R, traffic class and inner octets that went in"
run 0 trip "${downlink[@]}" "$work/empty.pcap"
run 1 trip "${downlink[@]}" "$work/checksums.pcap"
printed "  near: $cause (0x5ce4, only the sum of the pseudo-header; 0xc1b7 is right)"
printed "3 of 11 packets arrived, 3 of them with the destination, TEID, QFI, R, traffic class and inner octets that went in"
run 1 trip --near "$work/allowing" "${downlink[@]:2}" "$work/checksums.pcap"
printed "5 of 10 other packets arrived, 5 of them with the destination, TEID, QFI, R, traffic class and inner octets that went in"

# the trip of an Echo Request ends where it is answered, and is no fault; at the near gateway, or behind a waypoint
run 0 trip "${downlink[@]}" "$work/echo-good.pcap" -o "$work/out/arrived.pcap"
printed "  near: Echo Request answered: IPv6 2001:db8:77::9 > 2001:db8:a0::1, traffic class 0xb8, Echo Response, TEID 0x00000000, \
sequence number 7, 62 octets"
[ "$(grep -c '^  near: Echo Request answered: ' "$work/stdout")" -eq 3 ] || fail "not three Echo Requests are answered"
[ "$(grep -c '^  far: ' "$work/stdout")" -eq 2 ] || fail "an Echo Request goes on"
printed "       3  Echo Request answered"
printed "2 of 2 other packets arrived, 2 of them with the destination, TEID, QFI, R, traffic class and inner octets that went in"
run 0 translate --table "$work/gate" "$work/out/arrived.pcap" "$work/out/passed.pcap"
printed "frames 2: IP packets 2, not IP 0, snapped 0; padding cut 0"
run 1 trip "${downlink[@]}" "$work/echo.pcap"
printed "  near: refused, 17 bad Echo Request"
printed "1 of 6 other packets arrived, 1 of them with the destination, TEID, QFI, R, traffic class and inner octets that went in"
run 0 trip "${downlink[@]}" "$work/echo-alone.pcap"
printed "0 of 0 other packets arrived, 0 of them with the destination, TEID, QFI, R, traffic class and inner octets that went in"
run 0 trip --near "$work/gate" --far "$work/office" "$work/echo-passed.pcap"
printed "  far: Echo Request answered: IPv6 2001:db8:77::9 > 2001:db8:a0::1, traffic class 0xb8, Echo Response, TEID 0x00000000, \
sequence number 9, 62 octets"
run 0 trip "${downlink[@]}" -q "$work/echo-good.pcap"
nothing_printed

# trips that do not arrive: a waypoint left out, the wrong way round, no SRH behind the far gateway
run 1 trip --near "$work/office" --via "$work/mast" --far "$work/crane" "$work/downlink.pcap"
printed "  via 1: refused, 4 no match"
run 1 trip "${uplink[@]}" "$work/downlink.pcap"
printed "0 of 4 packets arrived, 0 of them with the destination, TEID, QFI, R, traffic class and inner octets that went in"

# tables that match by chance: near Args begin an octet later than far ones read them
sed '/^policies/,/^entries/s/args-octet: 8/args-octet: 9/' "$yard/office.yaml" >"$work/shifted.yaml"
run 0 compile "$work/shifted.yaml" -o "$work/shifted"
run 1 trip --near "$work/shifted" "${downlink[@]:2}" "$work/downlink.pcap"
printed "  arrived, but not as it went in: TEID, QFI, R"
printed "3 of 4 packets arrived, 1 of them with the destination, TEID, QFI, R, traffic class and inner octets that went in"

# bad captures: the file and the packet are named, and nothing is written
rm -f "$work"/out/*
refused foreign.pcap "foreign.pcap: not a pcap or pcapng capture"
refused nothing.pcap "nothing.pcap: not a pcap or pcapng capture"
refused wireless.pcap "wireless.pcap: link type 105 (IEEE802_11) cannot be read"
gzip -c "$work/downlink.pcap" >"$work/downlink.pcap.gz"
refused downlink.pcap.gz "downlink.pcap.gz: compressed with gzip: unpack it with \`zcat', and give \`-' for its name"
code=0
"$tool" translate --table "$work/office" - "$work/out/sent.pcap" <"$work/downlink.pcap.gz" 2>"$work/stderr" || code=$?
[ "$code" -eq 1 ] || fail "exit code $code, not 1, of a compressed capture"
complained "standard input: compressed with gzip"
zcat "$work/downlink.pcap.gz" | "$tool" translate --table "$work/office" - "$work/out/sent.pcap" >"$work/stdout" || fail "by zcat"
same out/sent.pcap sent.expected
rm "$work/out/sent.pcap"
printf '\037' >"$work/odd.pcap"
refused odd.pcap "odd.pcap: not a pcap or pcapng capture"
translate 3 none.pcap
complained "none.pcap: No such file or directory"
nothing_left
translate 3 out
nothing_left
refused damaged.pcap "damaged.pcap: packet 2: "
run 1 trip "${downlink[@]}" "$work/damaged.pcap" -o "$work/out/arrived.pcap"
nothing_left

# an older file stays as it was
cp "$work/sent.expected" "$work/out/sent.pcap"
run 1 translate --table "$work/office" "$work/damaged.pcap" "$work/out/sent.pcap"
same out/sent.pcap sent.expected
rm "$work/out/sent.pcap"

# a capture that is cut at its end: what comes before is counted and written, whole
for format in same-ethernet same-pcapng; do
    length=$(stat -c %s "$work/$format.pcap")
    for ((cut = length - 1; cut > length - 130; cut -= 7)); do
        head -c "$cut" "$work/$format.pcap" >"$work/cut.pcap"
        translate 1 cut.pcap
        complained "cut.pcap: packet 4: truncated"
        complained ": the capture is cut here, and only what comes before is used"
        printed "frames 3: IP packets 3, not IP 0, snapped 0; padding cut 0"
        printed "the capture is cut in frame 4, which is not counted"
        printed "       2   0 sent"
        same out/sent.pcap sent-cut.expected
    done
done
head -c -1 "$work/again.pcap" >"$work/cut.pcap"
run 1 trip "${downlink[@]}" "$work/cut.pcap" -o "$work/out/arrived.pcap"
printed "2 of 2 packets arrived, 2 of them with the destination, TEID, QFI, R, traffic class and inner octets that went in"
head -c "$(stat -c %s "$work/out/arrived.pcap")" "$work/again.pcap" >"$work/first.expected"
same out/arrived.pcap first.expected
head -c 20 "$work/same-ethernet.pcap" >"$work/cut.pcap"
rm "$work"/out/*
refused cut.pcap "cut.pcap: not a pcap or pcapng capture: truncated"

# bad tables
run 3 translate --table "$work/none" "$work/downlink.pcap" "$work/out/sent.pcap"
run 1 translate --table "$yard/office.yaml" "$work/downlink.pcap" "$work/out/sent.pcap"
complained "office.yaml: a description: compile it first"
head -c 100 "$work/office" >"$work/short"
run 1 trip --near "$work/office" --far "$work/short" "$work/downlink.pcap" -o "$work/out/sent.pcap"
complained "short: not sound"
nothing_left

# wrong usage
run 2 translate "$work/downlink.pcap" "$work/out/sent.pcap"
run 2 translate --table "$work/office" "$work/downlink.pcap"
run 2 translate --table "$work/office" "$work/downlink.pcap" "$work/out/sent.pcap" more
run 2 translate --table - - "$work/out/sent.pcap" <"$work/downlink.pcap"
complained "standard input can be read once: \`-' stands for 2 inputs"
run 2 trip --near - --via - --far "$work/crane" - </dev/null
complained "standard input can be read once: \`-' stands for 3 inputs"
cp "$work/downlink.pcap" "$work/own.pcap"
ln -s own.pcap "$work/link.pcap"
run 2 translate --table "$work/office" "$work/own.pcap" "$work/link.pcap"
complained "link.pcap: is the capture that is read, and would be replaced"
run 2 trip "${downlink[@]}" "$work/own.pcap" -o "$work/own.pcap"
same own.pcap downlink.pcap
run 2 trip --near "$work/office" "$work/downlink.pcap"
run 2 trip "${downlink[@]}"
run 2 trip "${downlink[@]}" --via a --via b --via c --via d --via e --via f "$work/downlink.pcap"
complained "a trip has at most 7 waypoints"
nothing_left

# a full disk, a directory that is not there, a closed pipe
run 3 translate --table "$work/office" "$work/many.pcap" /dev/full
complained "/dev/full: No space left on device"
run 3 trip "${downlink[@]}" "$work/downlink.pcap" -o /dev/full
run 3 translate --table "$work/office" "$work/many.pcap" "$work/nowhere/sent.pcap"
code=0
"$tool" translate --table "$work/office" "$work/many.pcap" - 2>"$work/stderr" >/dev/full || code=$?
[ "$code" -eq 3 ] || fail "exit code $code, not 3, on a full disk"
# many.pcap fills the pipe: the tool waits until its reader is gone
{ code=0; "$tool" translate --table "$work/office" "$work/many.pcap" - 2>"$work/stderr" || code=$?; echo "$code" >"$work/code"; } | true
[ "$(cat "$work/code")" -eq 3 ] || fail "exit code $(cat "$work/code"), not 3, on a closed pipe"
complained "standard output: Broken pipe"

# a closed pipe ends the work: this capture has no end, and the tool is told only by what it prints
endless() {
    cat "$work/many.pcap"
    while tail -c +25 "$work/many.pcap" 2>/dev/null; do :; done
}
ended() { # ARGUMENT...
    { code=0; endless | timeout 60 "$tool" "$@" 2>"$work/stderr" || code=$?; echo "$code" >"$work/code"; } | head -n 1 >"$work/stdout"
    [ "$(cat "$work/code")" -eq 3 ] || fail "exit code $(cat "$work/code"), not 3, on a closed pipe: $*"
    complained "kawsarpa: standard output: Broken pipe"
    [ "$(wc -l <"$work/stderr")" -eq 1 ] || fail "a closed pipe is told more than once"
}
rm -f "$work"/out/*
ended translate --table "$work/office" --trace - "$work/out/sent.pcap"
nothing_left
ended trip "${downlink[@]}" - -o "$work/out/sent.pcap"
nothing_left
ended trip "${uplink[@]}" -

# a run that takes longer than a second says how far it is, on a terminal alone, and not with --quiet; a program of its own, as `script`
# hands on no function where its shell is not bash
cat >"$work/slow" <<EOF
{ head -c 300000 "$work/many.pcap"; sleep 1.2; tail -c +300001 "$work/many.pcap"; } |
    "$tool" translate --table "$work/office" "\$@" - "$work/out/sent.pcap"
EOF
sh "$work/slow" >"$work/stdout" 2>"$work/stderr" || fail "a slow capture"
printed "    3000   0 sent"
[ ! -s "$work/stderr" ] || fail "progress is told where there is no terminal"
script -qec "sh '$work/slow' >/dev/null" /dev/null </dev/null >"$work/stdout" || fail "a slow capture, on a terminal"
grep -q ' packets \.\.\.' "$work/stdout" || fail "no progress is told on a terminal"
script -qec "sh '$work/slow' --quiet" /dev/null </dev/null >"$work/stdout" || fail "a slow capture, quietly"
nothing_printed

# --quiet: the exit code, the output, and faults
run 0 translate --table "$work/office" --quiet "$work/downlink.pcap" "$work/out/sent.pcap"
same out/sent.pcap sent.expected
nothing_printed
run 0 translate -q --table "$work/office" "$work/snapped.pcap" "$work/out/sent.pcap"
nothing_printed
complained "packet 1 is snapped"
"$tool" translate -q --table "$work/office" "$work/downlink.pcap" - 2>"$work/stderr" | cmp - "$work/sent.expected" >&2 || fail "-q to -"
[ ! -s "$work/stderr" ] || fail "something is said"
run 2 translate --table "$work/office" --quiet --trace "$work/downlink.pcap" "$work/out/sent.pcap"
complained "--trace and --quiet cannot be had together"
run 1 trip "${downlink[@]}" -q "$work/downlink.pcap" -o "$work/out/arrived.pcap"
same out/arrived.pcap again.pcap
nothing_printed
[ ! -s "$work/stderr" ] || fail "something is said"
run 0 trip "${uplink[@]}" --quiet "$work/uplink.pcap"
nothing_printed

# the field guide tells each answer, under its name
for number in {0..19} 25 26; do
    name=$("$tool" explain "$number" | sed -n "s/^$number: //p")
    grep -qF -e "- **$number $name**: " -e "| $number $name |" "$here/../../docs/FIELD-GUIDE.md" ||
        fail "not in the field guide: $number $name"
    checks=$((checks + 1))
done

# the demo, and what README.md and its own show of it
"$yard/demo.sh" "$tool" >"$work/stdout" 2>"$work/stderr" || fail "the demo failed"
while IFS= read -r line; do
    [ "$line" = "..." ] || printed "$line"
done < <(sed -n '/^    \$ kawsarpa trip/,/^$/s/^    //p' "$here/../../README.md"
    sed -n '/^    \$ kawsarpa translate/,/^$/s/^    //p' "$yard/README.md")
run 0 trip "${uplink[@]}" "$work/numbered.pcap"
sed -n '/^    \$ kawsarpa trip.*grep Echo$/,/^$/{/^    \$/d; s/^    //p}' "$here/../../docs/FIELD-GUIDE.md" >"$work/shown"
grep Echo "$work/stdout" | diff "$work/shown" - >&2 || fail "the field guide shows another trip of an Echo Request"

run 0 translate --table "$work/office" --trace "$work/checksums-shown.pcap" "$work/out/sent.pcap"
sed -n '/^    \$ kawsarpa translate.* checksums.pcap /,/^$/{/^    \$/d; s/^    //p}' "$here/../../docs/FIELD-GUIDE.md" >"$work/shown"
[ -s "$work/shown" ] || fail "the field guide shows no UDP checksums"
grep -e ' 18 ' -e 'of them' "$work/stdout" | diff "$work/shown" - >&2 || fail "the field guide shows other UDP checksums"

# hostile captures
cat >"$work/everywhere.yaml" <<'END'
format: 1
policies:
- {name: p, last-sid: "::", args-octet: 0}
entries:
- {name: e, behaviour: End.M.GTP6.D, prefix: "::/0", hop-limit: 1, source: "::", direction: uplink, session-type: IPv4, policy: p,
   zero-checksum: allow}
rules:
- {name: r, prefix: 0.0.0.0/0, hop-limit: 1, direction: uplink, session-type: IPv4, p: 0, q: 0, sid-prefix: "::", source-prefix: "::"}
END
run 0 compile "$work/everywhere.yaml" -o "$work/everywhere"
python3 "$here/mutated.py" "$tool" "$work"/{office,gate,mast,crane,everywhere} "$work" 1 200 5000

echo "captures.sh: all $checks checks hold"
