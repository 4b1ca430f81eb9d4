#!/usr/bin/env bash
# match.sh TOOL: drives the command match over the yard's tables and over tables with one thing changed, one for each condition; and what
# trip says of its tables before the packets. What is expected was written by hand.
set -eu

if [ $# -ne 1 ]; then
    echo "usage: match.sh TOOL" >&2
    exit 2
fi
here=$(cd "$(dirname "$0")" && pwd)
top=$(cd "$here/../.." && pwd)
yard=$top/examples/yard
# shellcheck source=tests/tools/checks.sh
. "$here/checks.sh"
cd "$work"

for name in office gate mast crane; do
    run 0 compile "$yard/$name.yaml" -o $name
done
python3 -B "$here/captures.py" "$work"
python3 "$yard/make-capture.py" "$work"

# A table of the yard with its description changed by sed.
vary() { # TABLE FROM SCRIPT
    sed "$3" "$yard/$2.yaml" >"$1.yaml"
    ! cmp -s "$1.yaml" "$yard/$2.yaml" || fail "nothing is changed: $3"
    run 0 compile "$1.yaml" -o "$1"
}

# The change of one record alone, from its name to the next one.
record() { # NAME CHANGE
    echo "/- name: $1 /,/^ *- /$2"
}

# A waypoint entry more.
waypoint_entry() { # PREFIX
    printf '%s\n' "s|^entries:|&\n  - {name: added, behaviour: End, prefix: \"$1\", hop-limit: 64}|"
}

# One octet of a table changed.
octet() { # TABLE FROM OFFSET VALUE
    cp "$2" "$1"
    printf %b "\\x$(printf %02x "$4")" | dd of="$1" bs=1 seek="$3" conv=notrunc status=none
}

waypoints=(--via gate --via mast)
di='entry 2 End.M.GTP6.D.Di 2001:db8:77::/48'
d4='rule 1 H.M.GTP4.D 192.0.2.0/24'
e6='far entry 1 End.M.GTP6.E 2001:db8:b:1::/64'
e4='far entry 3 End.M.GTP4.E 2001:db8:c1::/48'
di_fits="  $di -> $e6: fits, via gate, mast"
d4_fits="  $d4 -> $e4: fits, via gate, mast"

### tables that fit

run 0 match --near office "${waypoints[@]}" --far crane
all_printed <<EOF
from office to crane:
$di_fits
$d4_fits
2 of 2 fit
EOF
all_complained </dev/null

run 0 match --near office "${waypoints[@]}" --far crane --both
all_printed <<EOF
from office to crane:
$di_fits
$d4_fits
from crane to office:
  entry 2 End.M.GTP6.D.Di 2001:db8:a0::/48 -> far entry 1 End.M.GTP6.E 2001:db8:b:2::/64: fits, via mast, gate
  rule 1 H.M.GTP4.D 198.51.100.0/24 -> far entry 3 End.M.GTP4.E 2001:db8:c2::/48: fits, via mast, gate
4 of 4 fit: 2 of 2 from office to crane, 2 of 2 from crane to office
EOF
cp stdout both

# waypoints in any order, also beside a table that no waypoint leads to, and with options in any order
run 0 match --both --far crane --via mast --via gate --near office
same stdout both
run 0 match --near office --via crane --via mast --via office --via gate --far crane --both
same stdout both

# whether UDP checksum 0 is allowed is no matter to the fit, and said where it is; also of End.M.GTP6.D, with waypoints and without
vary allowing office "$(record downlink-ipv6 's/direction: .*/&\n    zero-checksum: allow/')"
run 0 match --near allowing "${waypoints[@]}" --far crane --both
sed -e 's/office/allowing/g' -e "s|^$di_fits\$|&; the near entry allows UDP checksum 0|" both >both-allowing
same stdout both-allowing
vary allowing-d office "$(record downlink-ipv6 's/direction: .*/&\n    zero-checksum: allow/'); s/End.M.GTP6.D.Di/End.M.GTP6.D/"
run 0 match --near allowing-d "${waypoints[@]}" --far crane
printed "  entry 2 End.M.GTP6.D 2001:db8:77::/48: fits, via gate, mast; End.M.GTP6.D has no far end in the tables, so only its waypoints \
are checked; the near entry allows UDP checksum 0"
sed -i '/waypoints: \[/d' allowing-d.yaml
run 0 compile allowing-d.yaml -o allowing-d
run 0 match --near allowing-d --far crane
printed "  entry 2 End.M.GTP6.D 2001:db8:77::/48: nothing to check: no waypoint, and End.M.GTP6.D has no far end in the tables; the near \
entry allows UDP checksum 0"
run 1 match --near allowing --far crane
! grep -q 'UDP checksum' stdout || fail "UDP checksum 0 is told of an entry that does not fit"

# standard input
"$tool" match --near - "${waypoints[@]}" --far crane <office >stdout 2>stderr || fail "from -"
printed "from standard input to crane:"
printed "$di_fits"

### a line for each condition that fails, by its number

# One of the office's two records does not fit, with this line; the other does.
differs() { # NEAR FAR LINE
    run 1 match --near "$1" "${waypoints[@]}" --far "$2"
    printed "  $3"
    printed "1 of 2 fit"
    [ "$(wc -l <stdout)" -eq 4 ] || fail "not one line for each record"
    [ "$(grep -c ': fits, via gate, mast$' stdout)" -eq 1 ] || fail "the other record does not fit"
    all_complained </dev/null
}

all_fit() { # NEAR FAR
    run 0 match --near "$1" "${waypoints[@]}" --far "$2"
    printed "2 of 2 fit"
}

# 5: nothing is reached
vary no-e6 crane "$(record downlink-ipv6 's/b:1::/b:3::/')"
differs office no-e6 \
    "$di: 5 no far entry is reached: looked for 2001:db8:b:1::, the last SID of near policy 1, with any Args in octets 8 to 12"
vary no-e4 crane "$(record downlink-ipv4 's/c1::/c3::/')"
differs office no-e4 "$d4: 5 no far entry is reached: looked for 2001:db8:c1::/48, the SID prefix of the near rule, with any destination \
under 192.0.2.0/24 behind it"

# 6: another kind. A waypoint entry among the SIDs takes some of them: with QFI 5 and R 1, with R 1, of one destination
vary trap crane "$(waypoint_entry 2001:db8:b:1:1600::/72)"
differs office trap "$di -> far entry 2 End 2001:db8:b:1:1600::/72: 6 far entry of another kind: End, not End.M.GTP6.E, takes \
2001:db8:b:1::, the last SID of near policy 1, with some Args in octets 8 to 12"
vary trap crane "$(waypoint_entry 2001:db8:b:1:200::/71)"
differs office trap "$di -> far entry 2 End 2001:db8:b:1:200::/71: 6 far entry of another kind: End, not End.M.GTP6.E, takes \
2001:db8:b:1::, the last SID of near policy 1, with some Args in octets 8 to 12"
vary trap crane "$(waypoint_entry 2001:db8:c1:c000:209::/80)"
differs office trap "$d4 -> far entry 4 End 2001:db8:c1:c000:209::/80: 6 far entry of another kind: End, not End.M.GTP4.E, takes \
2001:db8:c1::/48, the SID prefix of the near rule, with some destination under 192.0.2.0/24 behind it"

# none of the SIDs comes there: with U, behind Args, of other destinations, and with R in uplink
for prefix in 2001:db8:b:1:100::/72 2001:db8:b:1::1/128 2001:db8:c1:c000:309::/80 2001:db8:c1::/80; do
    vary aside crane "$(waypoint_entry $prefix)"
    all_fit office aside
    grep -qF "$di -> $e6: fits" stdout || fail "another far entry is told: $prefix"
    grep -q "^  $d4 -> far entry [34] End.M.GTP4.E 2001:db8:c1::/48: fits" stdout || fail "another far entry is told: $prefix"
done
vary aside office "$(waypoint_entry 2001:db8:b:2:200::/71)"
all_fit crane aside
# the SID as it stands in the policy has U, and is not sent so: the far entry that is told is the one that is reached
vary aside crane "$(waypoint_entry 2001:db8:b:1:100::/72); $(waypoint_entry ::/8 | sed 's/added/first/')"
vary own-bits office 's/last-sid: .*/last-sid: "2001:db8:b:1:100::"/'
all_fit own-bits aside
printed "  $di -> far entry 2 End.M.GTP6.E 2001:db8:b:1::/64: fits, via gate, mast"

cat >kinds.yaml <<'EOF'
format: 1
entries:
- {name: a, behaviour: End.M.GTP4.E, prefix: "2001:db8:b::/48", hop-limit: 64, direction: downlink, session-type: IPv4, p: 6, q: 8,
   source-port: 2152}
- {name: b, behaviour: End.M.GTP6.E, prefix: "2001:db8:c1::/48", hop-limit: 64, source: "::1", direction: downlink, session-type: IPv4,
   args-octet: 8, source-port: 2152}
EOF
run 0 compile kinds.yaml -o kinds
run 1 match --near office "${waypoints[@]}" --far kinds
all_printed <<EOF
from office to kinds:
  $di -> far entry 1 End.M.GTP4.E 2001:db8:b::/48: 6 far entry of another kind: End.M.GTP4.E, not End.M.GTP6.E, takes 2001:db8:b:1::, \
the last SID of near policy 1, with some Args in octets 8 to 12
  $d4 -> far entry 2 End.M.GTP6.E 2001:db8:c1::/48: 6 far entry of another kind: End.M.GTP6.E, not End.M.GTP4.E, takes 2001:db8:c1::/48, \
the SID prefix of the near rule, with some destination under 192.0.2.0/24 behind it
0 of 2 fit
EOF

# 7: directions
vary changed crane "$(record downlink-ipv6 's/direction: .*/direction: uplink/')"
differs office changed "$di -> $e6: 7 directions differ: downlink in the near entry, uplink in the far entry"
vary changed crane "$(record downlink-ipv4 's/direction: .*/direction: uplink/')"
differs office changed "$d4 -> $e4: 7 directions differ: downlink in the near rule, uplink in the far entry"
vary changed office "$(record downlink-ipv6 's/direction: .*/direction: uplink/')"
differs changed crane "$di -> $e6: 7 directions differ: uplink in the near entry, downlink in the far entry"

# 8: session types
vary changed crane "$(record downlink-ipv6 's/session-type: .*/session-type: IPv4v6/')"
differs office changed "$di -> $e6: 8 session types differ: IPv4 in the near entry, IPv4v6 in the far entry"
vary changed crane "$(record downlink-ipv4 's/session-type: .*/session-type: Ethernet/')"
differs office changed "$d4 -> $e4: 8 session types differ: IPv4 in the near rule, Ethernet in the far entry"
vary changed office "$(record downlink-ipv4 's/session-type: .*/session-type: IPv6/')"
differs changed crane "$d4 -> $e4: 8 session types differ: IPv6 in the near rule, IPv4 in the far entry"

# 9: starts of Args
vary crane-9 crane '/^entries/,$ s/args-octet: 8/args-octet: 9/'
differs office crane-9 "$di -> $e6: 9 starts of Args differ: octet 8 in near policy 1, octet 9 in the far entry"
vary shifted office '/^policies/,/^entries/s/args-octet: 8/args-octet: 11/'
differs shifted crane "$di -> $e6: 9 starts of Args differ: octet 11 in near policy 1, octet 8 in the far entry"

# 10 and 11: p and q
vary changed crane "$(record downlink-ipv4 's/p: 6/p: 7/')"
differs office changed "$d4 -> $e4: 10 p differs: 6 in the near rule, 7 in the far entry"
vary changed crane "$(record downlink-ipv4 's/q: 8/q: 12/')"
differs office changed "$d4 -> $e4: 11 q differs: 8 in the near rule, 12 in the far entry"

# 12: the hop limit, 2 and 3 with two waypoints
vary changed office "$(record downlink-ipv6 's/hop-limit: 64/hop-limit: 2/')"
differs changed crane "$di -> $e6: 12 hop limit not above the number of waypoints: hop limit 2 in the near entry, 2 waypoints in near \
policy 1"
vary changed office "$(record downlink-ipv4 's/hop-limit: 64/hop-limit: 2/')"
differs changed crane "$d4 -> $e4: 12 hop limit not above the number of waypoints: hop limit 2 in the near rule, 2 waypoints in it"
vary changed office 's/hop-limit: 64/hop-limit: 3/'
all_fit changed crane
vary changed office 's/hop-limit: 64/hop-limit: 1/; s/waypoints: \[.*/waypoints: [gate]/'
run 1 match --near changed --via gate --far crane
printed "  $di -> $e6: 12 hop limit not above the number of waypoints: hop limit 1 in the near entry, 1 waypoint in near policy 1"
printed "0 of 2 fit"

# of several the first
vary changed crane "$(record downlink-ipv6 '{s/args-octet: 8/args-octet: 9/; s/direction: .*/direction: uplink/}')"
differs office changed "$di -> $e6: 7 directions differ: downlink in the near entry, uplink in the far entry"

### waypoints

# 15 and 16: no entry matches, or one that is no waypoint's, which is told before the others
run 1 match --near office --via gate --far crane
all_printed <<EOF
from office to crane:
  $di -> waypoint 2 2001:db8:2::e: 15 no entry matches the waypoint: not in gate
  $d4 -> waypoint 2 2001:db8:2::e: 15 no entry matches the waypoint: not in gate
0 of 2 fit
EOF
run 1 match --near office --via crane --via mast --via office --far crane
printed "  $di -> waypoint 1 2001:db8:1::e: 15 no entry matches the waypoint: in none of the 3 --via tables"
printed "  $d4 -> waypoint 1 2001:db8:1::e: 15 no entry matches the waypoint: in none of the 3 --via tables"
vary taken crane "$(record downlink-ipv6 's|2001:db8:b:1::/64|2001:db8:1::/64|')"
run 1 match --near office --via mast --via taken --via office --far crane
printed "  $di -> waypoint 1 2001:db8:1::e: 16 matched entry is no waypoint: entry 1 End.M.GTP6.E 2001:db8:1::/64 of taken"
printed "  $d4 -> waypoint 1 2001:db8:1::e: 16 matched entry is no waypoint: entry 1 End.M.GTP6.E 2001:db8:1::/64 of taken"
run 0 match --near office --via taken --via mast --via gate --far crane
# the longest match counts: a waypoint's entry inside a gateway's, and a gateway's inside a waypoint's
vary longer crane "$(record downlink-ipv6 's|2001:db8:b:1::/64|2001:db8:1::/64|'); $(waypoint_entry 2001:db8:1::e/128)"
run 0 match --near office --via longer --via mast --far crane
printed "  $di -> $e6: fits, via longer, mast"
vary longer crane "$(record downlink-ipv6 's|2001:db8:b:1::/64|2001:db8:1::/64|'); $(waypoint_entry 2001:db8:1::/48)"
run 1 match --near office --via longer --via mast --far crane
printed "  $di -> waypoint 1 2001:db8:1::e: 16 matched entry is no waypoint: entry 2 End.M.GTP6.E 2001:db8:1::/64 of longer"

# a line for each thing that fails
run 1 match --near office --via gate --far crane-9
all_printed <<EOF
from office to crane-9:
  $di -> $e6: 9 starts of Args differ: octet 8 in near policy 1, octet 9 in the far entry
  $di -> waypoint 2 2001:db8:2::e: 15 no entry matches the waypoint: not in gate
  $d4 -> waypoint 2 2001:db8:2::e: 15 no entry matches the waypoint: not in gate
0 of 2 fit
EOF

# without --via: not checked, so not fitting
run 1 match --near office --far crane --both
all_printed <<EOF
from office to crane:
  $di -> waypoint 1 2001:db8:1::e: not checked, since no --via table was given
  $di -> waypoint 2 2001:db8:2::e: not checked, since no --via table was given
  $d4 -> waypoint 1 2001:db8:1::e: not checked, since no --via table was given
  $d4 -> waypoint 2 2001:db8:2::e: not checked, since no --via table was given
from crane to office:
  entry 2 End.M.GTP6.D.Di 2001:db8:a0::/48 -> waypoint 1 2001:db8:2::e: not checked, since no --via table was given
  entry 2 End.M.GTP6.D.Di 2001:db8:a0::/48 -> waypoint 2 2001:db8:1::e: not checked, since no --via table was given
  rule 1 H.M.GTP4.D 198.51.100.0/24 -> waypoint 1 2001:db8:2::e: not checked, since no --via table was given
  rule 1 H.M.GTP4.D 198.51.100.0/24 -> waypoint 2 2001:db8:1::e: not checked, since no --via table was given
0 of 4 fit: 0 of 2 from office to crane, 0 of 2 from crane to office
EOF
vary direct office 's/waypoints: \[.*/waypoints: []/'
run 0 match --near direct --far crane
all_printed <<EOF
from direct to crane:
  $di -> $e6: fits, with no waypoint
  $d4 -> $e4: fits, with no waypoint
2 of 2 fit
EOF

# records with waypoints of their own, one of them seven times, and policies in use from the second on; End.M.GTP6.D
cat >paths.yaml <<'EOF'
format: 1
waypoints:
- {name: gate, address: "2001:db8:1::e"}
- {name: mast, address: "2001:db8:2::e"}
policies:
- {name: none, last-sid: "2001:db8:b:1::", args-octet: 8}
- {name: one, waypoints: [mast], last-sid: "2001:db8:b:1::", args-octet: 9}
- {name: seven, waypoints: [mast, gate, gate, gate, mast, mast, gate], last-sid: "2001:db8:b:1::", args-octet: 8}
entries:
- {name: a, behaviour: End.M.GTP6.D.Di, prefix: "::/1", hop-limit: 8, source: "::", direction: downlink, session-type: IPv4, policy: seven}
- {name: b, behaviour: End.M.GTP6.D.Di, prefix: "::/2", hop-limit: 1, source: "::", direction: downlink, session-type: IPv4, policy: none}
- {name: c, behaviour: End.M.GTP6.D.Di, prefix: "::/3", hop-limit: 9, source: "::", direction: downlink, session-type: IPv4, policy: one}
- {name: d, behaviour: End.M.GTP6.D, prefix: "::/4", hop-limit: 1, source: "::", direction: uplink, session-type: IPv6, policy: seven}
- {name: e, behaviour: End.M.GTP6.D, prefix: "::/5", hop-limit: 1, source: "::", direction: uplink, session-type: IPv6, policy: none}
- {name: f, behaviour: End, prefix: "::/6", hop-limit: 1}
rules:
- {name: g, prefix: 192.0.0.0/8, hop-limit: 1, direction: downlink, session-type: IPv4, p: 6, q: 8, sid-prefix: "2001:db8:c1::",
   source-prefix: "::"}
- {name: h, prefix: 10.0.0.0/8, hop-limit: 2, direction: downlink, session-type: IPv4, p: 6, q: 8, sid-prefix: "2001:db8:c1::",
   source-prefix: "::", waypoints: [gate]}
EOF
run 0 compile paths.yaml -o paths
run 1 match --near paths "${waypoints[@]}" --far crane
all_printed <<EOF
from paths to crane:
  entry 1 End.M.GTP6.D.Di ::/1 -> $e6: fits, via mast, gate, gate, gate, mast, mast, gate
  entry 2 End.M.GTP6.D.Di ::/2 -> $e6: fits, with no waypoint
  entry 3 End.M.GTP6.D.Di ::/3 -> $e6: 9 starts of Args differ: octet 9 in near policy 2, octet 8 in the far entry
  entry 4 End.M.GTP6.D ::/4: fits, via mast, gate, gate, gate, mast, mast, gate; End.M.GTP6.D has no far end in the tables, so only its \
waypoints are checked
  entry 5 End.M.GTP6.D ::/5: nothing to check: no waypoint, and End.M.GTP6.D has no far end in the tables
  rule 1 H.M.GTP4.D 10.0.0.0/8 -> $e4: fits, via gate
  rule 2 H.M.GTP4.D 192.0.0.0/8 -> $e4: fits, with no waypoint
5 of 6 fit; of 1 End.M.GTP6.D entry only the waypoints are checked
EOF
sed -i '/^- {name: [ab],/d' paths.yaml
run 0 compile paths.yaml -o paths
run 1 match --near paths "${waypoints[@]}" --far crane --both
printed "from crane to paths:"
printed "3 of 6 fit: 3 of 4 from paths to crane, 0 of 2 from crane to paths; of 1 End.M.GTP6.D entry only the waypoints are checked"
sed -i '/^- {name: c,/d; /^rules:/,$d' paths.yaml
run 0 compile paths.yaml -o paths
run 0 match --near paths "${waypoints[@]}" --far crane
printed "1 of 1 fit; of 1 End.M.GTP6.D entry only the waypoints are checked"
run 1 match --near paths --via gate --far crane
printed "  entry 1 End.M.GTP6.D ::/4 -> waypoint 1 2001:db8:2::e: 15 no entry matches the waypoint: not in gate"
printed "0 of 1 fit; of 1 End.M.GTP6.D entry only the waypoints are checked"

### nothing to check

run 0 match --near gate --far crane
all_printed <<EOF
from gate to crane:
  nothing to check: gate has no End.M.GTP6.D.Di entry and no rule
0 of 0 fit
EOF
run 0 match --near mast --via gate --far gate --both
printed "0 of 0 fit: 0 of 0 from mast to gate, 0 of 0 from gate to mast"
run 0 compile <(echo 'format: 1') -o empty
run 0 match --near empty --far empty
printed "  nothing to check: empty has no End.M.GTP6.D.Di entry and no rule"
run 1 match --near office "${waypoints[@]}" --far empty --both
printed "0 of 2 fit: 0 of 2 from office to empty, 0 of 0 from empty to office"

### --quiet: the exit code alone, and faults

run 0 match --near office "${waypoints[@]}" --far crane --both --quiet
nothing_printed
run 1 match -q --near office "${waypoints[@]}" --far empty
nothing_printed
[ ! -s "$work/stderr" ] || fail "something is said"

### tables that are not sound, files that are not there

unsound() { # ARGUMENT...
    run 1 match "$@"
    complained "faulty: not sound: entry 1 2001:db8:"
    complained ": the hop limit is not 1 to 255"
    complained "\`kawsarpa explain --fault 516' says more"
    nothing_printed
}
octet faulty office 18 0
unsound --near faulty "${waypoints[@]}" --far crane
octet faulty crane 18 0
unsound --near office "${waypoints[@]}" --far faulty
octet faulty gate 18 0
unsound --near office --via mast --via faulty --far crane
run 1 match --near office "${waypoints[@]}" --far "$yard/crane.yaml"
complained "crane.yaml: a description: compile it first"
nothing_printed
run 2 match --near - "${waypoints[@]}" --far - <office
complained "standard input can be read once: \`-' stands for 2 inputs"
nothing_printed
run 2 match --near office --via - --via mast --via - --far crane <gate
nothing_printed
for arguments in '--near none --far crane' '--near office --far none' '--near office --via gate --via none --far crane'; do
    # shellcheck disable=SC2086 # several words
    run 3 match $arguments
    complained "kawsarpa: none: No such file or directory"
    nothing_printed
done

### usage

run 0 --help
printed "  match      say whether the tables of a trip belong together"
run 0 match --help
printed "Exit codes: 0 all fit, or there is nothing to check; 1 one does not fit, or a"
run 2 match
complained "--near and --far are needed"
run 2 match --near office
complained "--near and --far are needed"
run 2 match --far crane --via gate
complained "--near and --far are needed"
run 2 match --near office --near office --far crane
complained "one --near table is enough: office"
run 2 match --near office --far crane --far crane
complained "one --far table is enough: crane"
run 2 match --near office --far crane gate
complained "tables stand behind --near, --via and --far: gate"
run 2 match --near office --far crane --nonsense
complained "unrecognized option"
nothing_printed
many=()
for ((i = 0; i < 448; i++)); do
    many+=(--via gate)
done
run 1 match --near office "${many[@]}" --far crane
printed "  $di -> waypoint 2 2001:db8:2::e: 15 no entry matches the waypoint: in none of the 448 --via tables"
run 2 match --near office "${many[@]}" --via mast --far crane
complained "at most 448 --via tables"
nothing_printed

# a full disk, a closed pipe
code=0
"$tool" match --near office "${waypoints[@]}" --far crane >/dev/full 2>stderr || code=$?
[ "$code" -eq 3 ] || fail "exit code $code, not 3, on a full disk"
complained "standard output: No space left on device"
{ sleep 0.1; code=0; "$tool" match --near office --far crane 2>stderr || code=$?; echo "$code" >code; } | true
[ "$(cat code)" -eq 3 ] || fail "exit code $(cat code), not 3, on a closed pipe"
complained "standard output: Broken pipe"

### explain: every condition, under the name that match prints

for number in {1..16}; do
    run 0 explain --match "$number"
    grep -q "^$number: " stdout || fail "explain --match $number has no name"
    grep -q '^Means: ' stdout || fail "explain --match $number has no meaning"
    grep -q '^Next step: ' stdout || fail "explain --match $number has no next step"
    name=$(sed -n "s/^$number: //p" stdout)
    grep -qF -e "- **$number $name**: " "$top/docs/FIELD-GUIDE.md" || fail "not in the field guide: $number $name"
    checks=$((checks + 1))
done
run 0 explain --match 0
printed "0: the tables fit"
run 0 explain -m $((9 + 256 * 2 + 65536 * 2))
printed "131593: starts of Args differ, condition 9, entry 3 (from 1)"
for bad in 17 255 256 265 777 65545 $((9 + 256 * 2 + 4294967296)); do
    run 1 explain --match "$bad"
    complained "$bad is no mismatch of tables: conditions are 1 to 16"
done
run 2 explain --match --fault 9
complained "a number is a fault or a mismatch, not both"

### trip: the tables before the packets, waypoints in order, and no part of its exit code

trip_says() { # LINE...: the first lines
    printf '%s\n' "$@" | diff - <(sed '/^packet 1: /,$d' stdout) >&2 || fail "trip says something else of the tables"
    checks=$((checks + 1))
}

run 0 trip --near office "${waypoints[@]}" --far crane ipv6.pcap
trip_says "tables: 2 of 2 near entries and rules fit"
run 1 trip --near office "${waypoints[@]}" --far crane downlink.pcap
trip_says "tables: 2 of 2 near entries and rules fit"
run 1 trip --near office "${waypoints[@]}" --far crane-9 downlink.pcap
trip_says "tables: 1 of 2 near entries and rules fit" \
    "  $di -> $e6: 9 starts of Args differ: octet 8 in near policy 1, octet 9 in the far entry"
printed "  arrived, but not as it went in: TEID, QFI, R"
vary changed crane "$(record downlink-ipv4 's/p: 6/p: 7/')"
run 0 trip --near office "${waypoints[@]}" --far changed ipv6.pcap
trip_says "tables: 1 of 2 near entries and rules fit" "  $d4 -> $e4: 10 p differs: 6 in the near rule, 7 in the far entry"
run 1 trip --near office --via mast --via gate --far crane ipv6.pcap
trip_says "tables: 0 of 2 near entries and rules fit" \
    "  $di -> waypoint 1 2001:db8:1::e: 15 no entry matches the waypoint: not in mast" \
    "  $di -> waypoint 2 2001:db8:2::e: 15 no entry matches the waypoint: not in gate" \
    "  $d4 -> waypoint 1 2001:db8:1::e: 15 no entry matches the waypoint: not in mast" \
    "  $d4 -> waypoint 2 2001:db8:2::e: 15 no entry matches the waypoint: not in gate"
run 1 trip --near office --via taken --via mast --far crane ipv6.pcap
printed "tables: 0 of 2 near entries and rules fit"
printed "  $di -> waypoint 1 2001:db8:1::e: 16 matched entry is no waypoint: entry 1 End.M.GTP6.E 2001:db8:1::/64 of taken"
run 1 trip --near office --via gate --far crane ipv6.pcap
trip_says "tables: 0 of 2 near entries and rules fit" "  $di: 2 waypoints, but 1 --via table" "  $d4: 2 waypoints, but 1 --via table"
run 1 trip --near office --far crane-9 ipv6.pcap
trip_says "tables: 0 of 2 near entries and rules fit" \
    "  $di -> $e6: 9 starts of Args differ: octet 8 in near policy 1, octet 9 in the far entry" "  $di: 2 waypoints, but 0 --via tables" \
    "  $d4: 2 waypoints, but 0 --via tables"
run 1 trip --near paths --far crane ipv6.pcap
trip_says "tables: 0 of 1 near entries and rules fit" "  entry 1 End.M.GTP6.D ::/4: 7 waypoints, but 0 --via tables"
run 1 trip --near gate --far crane ipv6.pcap
trip_says "tables: 0 of 0 near entries and rules fit"
"$tool" trip --near office "${waypoints[@]}" --far crane ipv6.pcap -o - >arrived.pcap 2>stderr || fail "trip to -"
complained "tables: 2 of 2 near entries and rules fit"
run 3 trip --near office "${waypoints[@]}" --far crane none.pcap
nothing_printed

### what the documents and the demo show

# What stands behind a command in a text, up to the next command or an empty line.
shown() { # INDENT COMMAND FILE
    awk -v indent="$1" -v command="$1\$ $2" '
        inside && ($0 == "" || index($0, indent "$ ") == 1) { exit }
        inside { print substr($0, length(indent) + 1) }
        $0 == command { inside = 1 }' "$3"
}

"$yard/demo.sh" "$tool" >demo 2>stderr || fail "the demo failed"
told=0
for document in "$top/README.md" "$top/docs/FIELD-GUIDE.md" "$yard/README.md"; do
    while IFS= read -r command; do
        shown '    ' "$command" "$document" >expected
        [ -s expected ] || fail "$document shows nothing behind: $command"
        shown '' "$command" demo | diff expected - >&2 || fail "$document does not show what the demo prints: $command"
        # shellcheck disable=SC2086 # several words
        "$tool" ${command#kawsarpa } >stdout || [ $? -eq 1 ] || fail "it fails: $command"
        same stdout expected
        told=$((told + 1))
    done < <(sed -n 's/^    \$ \(kawsarpa match .*\)/\1/p' "$document")
done
[ "$told" -ge 4 ] || fail "the documents show $told runs of match, not 4 or more"

### tables drawn at random, and tables with octets changed: every run ends with 0 or 1, and a line for each record

survives() { # ARGUMENT...
    local code=0
    "$tool" "$@" >stdout 2>stderr || code=$?
    [ "$code" -le 1 ] || fail "exit code $code: $*"
    ! grep -qE 'Sanitizer|runtime error' stderr || fail "the sanitizers complain: $*"
    checks=$((checks + 1))
}

mkdir drawn mutants
python3 "$here/descriptions.py" write drawn 90 1
for ((i = 0; i < 88; i++)); do
    survives match --near drawn/$i.table --via drawn/$((i + 1)).table --far drawn/$((i + 2)).table --both
    [ ! -s stderr ] || fail "drawn $i of seed 1: a message"
    grep -qE '^[0-9]+ of [0-9]+ fit: ' stdout || fail "drawn $i of seed 1: no summary"
done
for name in office crane gate; do
    python3 "$here/descriptions.py" mutate mutants 60 1 $name
    for ((i = 0; i < 60; i++)); do
        survives match --near mutants/$i.mutant "${waypoints[@]}" --far crane --both
        survives match --near office --via mutants/$i.mutant --via mast --far mutants/$i.mutant
    done
done

echo "match.sh: all $checks checks hold"
