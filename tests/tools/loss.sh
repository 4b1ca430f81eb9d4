#!/usr/bin/env bash
# loss.sh TOOL: drives the command loss over the yard's capture and captures made for it. What is expected was counted by hand.
set -eu

if [ $# -ne 1 ]; then
    echo "usage: loss.sh TOOL" >&2
    exit 2
fi
here=$(cd "$(dirname "$0")" && pwd)
yard=$here/../../examples/yard
# shellcheck source=tests/tools/checks.sh
. "$here/checks.sh"

refused() { # CODE CAPTURE TEXT
    run "$1" loss "$work/$2"
    complained "$3"
    nothing_printed
}

python3 -B "$here/captures.py" "$work"
python3 -B "$here/loss.py" "$work"
python3 "$yard/make-capture.py" "$work"

# the yard's capture: a gap of three, a repeat, one late, past 65,535; as its README shows it
run 0 loss "$work/numbered.pcap"
printed "0x0a0b0c01   100     106        4        4        0        0        3  42.8571"
printed "0x0a0b0c02     7       9        4        3        1        0        0   0.0000"
printed "0x0a0b0c03    40      43        4        3        0        1        1  25.0000"
printed "0x0a0b0c04 65534       1        4        4        0        0        0   0.0000"
all_printed < <(sed -n '/^    \$ kawsarpa loss numbered.pcap/,/^$/{/^    \$/d; s/^    //p}' "$yard/README.md")
cp "$work/stdout" "$work/numbered"
sed -n '/^    TEID /,/^$/s/^    //p' "$here/../../docs/FIELD-GUIDE.md" | diff - <(head -n 5 "$work/numbered") >&2 ||
    fail "the field guide shows other rows"

# every link type and format, and standard input
for capture in "$work"/same-*.pcap; do
    run 0 loss "$capture"
    sed -i 's/padding cut 18$/padding cut 0/' "$work/stdout" # in the padded ones
    same stdout numbered
done
"$tool" loss - <"$work/numbered.pcap" >"$work/stdout" 2>"$work/stderr" || fail "from -"
same stdout numbered

# distances at their edges: 32,767 is new and 32,768 late; equal losses by TEID, which has no sign; numbers that restart; a TEID over
# both IP versions
run 0 loss "$work/streams.pcap"
all_printed <<'END'
TEID       first highest     seen      new repeated     late     lost   lost %
0x00000000     0   32767        2        2        0        0    32766  99.9939
0x00000006 40000       1        3        3        0        0    25535  99.9883
0x00000002 65534       2        2        2        0        0        3  60.0000
0x00000005   100     105        7        3        1        3        3  50.0000
0xffffffff     1       5        2        2        0        0        3  60.0000
0x00000001     0       0        2        1        0        1        0   0.0000
0x00000003     5       5        3        1        1        1        0   0.0000
0x00000004    10      12        3        3        0        0        0   0.0000
0x00000007 30000   30000        3        1        0        2        0   0.0000
TEIDs 9, worst first by lost, then by TEID: seen 27, new 18, repeated 2, late 7, lost 58310, 99.9691 % of new + lost
frames 27: IP packets 27, not IP 0, snapped 0; padding cut 0
not counted 0 of 27 IP packets
sent to more than one address: 0x00000004; such a row may mix streams, so filter the capture by destination
END

# the same as CSV: the rows, and the rest on standard error
sed '1,10d' "$work/stdout" >"$work/rest"
run 0 loss --csv "$work/streams.pcap"
all_printed <<'END'
teid,first,highest,seen,new,repeated,late,lost,lost_percent
0x00000000,0,32767,2,2,0,0,32766,99.9939
0x00000006,40000,1,3,3,0,0,25535,99.9883
0x00000002,65534,2,2,2,0,0,3,60.0000
0x00000005,100,105,7,3,1,3,3,50.0000
0xffffffff,1,5,2,2,0,0,3,60.0000
0x00000001,0,0,2,1,0,1,0,0.0000
0x00000003,5,5,3,1,1,1,0,0.0000
0x00000004,10,12,3,3,0,0,0,0.0000
0x00000007,30000,30000,3,1,0,2,0,0.0000
END
all_complained <"$work/rest"

# every reason not to be counted
run 0 loss "$work/reasons.pcap"
all_printed <<'END'
TEID       first highest     seen      new repeated     late     lost   lost %
0x00000009     1       7        4        4        0        0        3  42.8571
TEIDs 1, worst first by lost, then by TEID: seen 4, new 4, repeated 0, late 0, lost 3, 42.8571 % of new + lost
frames 39: IP packets 37, not IP 1, snapped 1; padding cut 0
not counted 33 of 37 IP packets:
       7     no S: G-PDUs without a sequence number
       3   2 malformed packet: cut short, of another IP version, or its length is wrong
       4   3 bad IPv4 header: a fragment, options, or a wrong checksum
       4   5 bad header chain: a fragment, options, a second routing header, or one that is not a whole SRH
       1   7 bad segments left: an SRH with segments left, so on its way to another stop
       4   8 bad upper layer: not UDP to port 2152, the port of GTP-U
       2   9 bad UDP: cut short, or its length is wrong
       4  10 bad GTP-U: cut short, not version 1, GTP', or its length is wrong
       4  11 not a G-PDU: Echo, End Marker, Error Indication and so on
unreadable 18 (snapped, 2, 3, 5, 9 and 10): a number in such a packet is not offered, and counts as lost in its row
END
all_complained <<END
kawsarpa: $work/reasons.pcap: packet 39 is snapped, 109 octets of 110: it is left out
END

# UDP checksums are not examined: 0, a wrong one, or what a network card has yet to finish
cp "$work/stdout" "$work/reasons"
for other in zero unfinished wrong; do
    run 0 loss "$work/reasons-$other.pcap"
    same stdout reasons
    run 0 loss "$work/numbered-$other.pcap"
    same stdout numbered
    ! cmp -s "$work/numbered-$other.pcap" "$work/numbered.pcap" || fail "no checksum is another: $other"
done

# an Echo Request is no G-PDU here, whether it would be answered or refused
run 0 loss "$work/echo.pcap"
printed "not counted 9 of 9 IP packets:"
printed "       1     no S: G-PDUs without a sequence number"
printed "       1  10 bad GTP-U: cut short, not version 1, GTP', or its length is wrong"
printed "       7  11 not a G-PDU: Echo, End Marker, Error Indication and so on"

# both directions under one TEID: 1, 5000, 2, 5001, 3, 5002
run 0 loss "$work/both.pcap"
printed "0x00000001     1    5002        6        4        0        2     4998  99.9200"
printed "sent to more than one address: 0x00000001; such a row may mix streams, so filter the capture by destination"

# 257 TEIDs from the highest down, 1 and 3 of each: the last one, 1, finds no row
run 0 loss "$work/teids.pcap"
printed "0x00000101     1       3        2        2        0        0        1  33.3333"
printed "TEIDs 256, worst first by lost, then by TEID: seen 512, new 512, repeated 0, late 0, lost 256, 33.3333 % of new + lost"
printed "not counted 2 of 514 IP packets:"
printed "       2  25 no row free: 256 other TEIDs have the rows"
run 0 loss --csv "$work/teids.pcap"
all_printed < <(echo teid,first,highest,seen,new,repeated,late,lost,lost_percent; printf '0x%08x,1,3,2,2,0,0,1,33.3333\n' {2..257})

# nothing to count
run 0 loss "$work/empty.pcap"
all_printed <<'END'
TEID       first highest     seen      new repeated     late     lost   lost %
TEIDs 0: no sequence number was read
frames 0: IP packets 0, not IP 0, snapped 0; padding cut 0
not counted 0 of 0 IP packets
END
run 0 loss --csv "$work/empty.pcap"
all_printed <<<teid,first,highest,seen,new,repeated,late,lost,lost_percent
run 0 loss "$work/not-ip.pcap"
printed "frames 6: IP packets 0, not IP 6, snapped 0; padding cut 0"
run 0 loss "$work/snapped.pcap"
printed "unreadable 7 (snapped, 2, 3, 5, 9 and 10): a number in such a packet is not offered, and counts as lost in its row"

# a gateway does not carry sequence numbers: behind the far one there are none; the Echo Request is answered
for name in office gate mast crane; do
    run 0 compile "$yard/$name.yaml" -o "$work/$name"
done
run 0 trip --near "$work/crane" --via "$work/mast" --via "$work/gate" --far "$work/office" "$work/numbered.pcap" -o "$work/arrived.pcap"
run 0 loss "$work/arrived.pcap"
printed "not counted 17 of 17 IP packets:"
printed "      17     no S: G-PDUs without a sequence number"

# bad captures: the file and the packet are named, and there is no report
refused 1 foreign.pcap "foreign.pcap: not a pcap or pcapng capture"
refused 1 nothing.pcap "nothing.pcap: not a pcap or pcapng capture"
refused 1 wireless.pcap "wireless.pcap: link type 105 (IEEE802_11) cannot be read"
refused 3 none.pcap "none.pcap: No such file or directory"
refused 3 . "Is a directory"
refused 1 damaged.pcap "damaged.pcap: packet 2: "

# a capture that is cut at its end: what comes before is counted
for cut in 1 50 110; do
    head -c -"$cut" "$work/numbered.pcap" >"$work/cut.pcap"
    run 1 loss "$work/cut.pcap"
    complained "cut.pcap: packet 18: truncated"
    printed "frames 17: IP packets 17, not IP 0, snapped 0; padding cut 0"
    printed "the capture is cut in frame 18, which is not counted"
done

# usage
run 0 --help
printed "  loss       count the lost sequence numbers of each TEID in a capture"
run 0 loss --help
printed "Exit codes: 0 printed, whatever was lost; 1 the capture is bad or cut; 2 wrong"
run 2 loss
complained "a capture is needed"
run 2 loss "$work/numbered.pcap" "$work/numbered.pcap"
complained "one capture is enough"
run 2 loss --nonsense "$work/numbered.pcap"
complained "unrecognized option"
nothing_printed

# a full disk, a closed pipe
for option in '' --csv; do
    code=0
    "$tool" loss $option "$work/numbered.pcap" >/dev/full 2>"$work/stderr" || code=$?
    [ "$code" -eq 3 ] || fail "exit code $code, not 3, on a full disk"
    complained "standard output: No space left on device"
    { sleep 0.1; code=0; "$tool" loss $option "$work/numbered.pcap" 2>"$work/stderr" || code=$?; echo "$code" >"$work/code"; } | true
    [ "$(cat "$work/code")" -eq 3 ] || fail "exit code $(cat "$work/code"), not 3, on a closed pipe"
    complained "standard output: Broken pipe"
done

# a run that takes longer than a second says nothing of it where there is no terminal
{ head -c 300000 "$work/long.pcap"; sleep 1.2; tail -c +300001 "$work/long.pcap"; } |
    "$tool" loss - >"$work/stdout" 2>"$work/stderr" || fail "a slow capture"
[ ! -s "$work/stderr" ] || fail "progress is told where there is no terminal"
printed "0x00000001     0    2999     3000     3000        0        0        0   0.0000"

echo "loss.sh: all $checks checks hold"
