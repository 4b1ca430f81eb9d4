#!/usr/bin/env bash
# json.sh TOOL FLIPPED: --json of check, match, translate, trip and loss, held against the text of the same run (json_told.py): over the
# captures and tables of the other tests, every fault of a table, strange names, and mutated captures. FLIPPED is as in promise.sh.
set -eu

if [ $# -ne 2 ]; then
    echo "usage: json.sh TOOL FLIPPED" >&2
    exit 2
fi
here=$(cd "$(dirname "$0")" && pwd)
# shellcheck source=tests/tools/checks.sh
. "$here/checks.sh"
flipped=$(realpath "$2")
# by its own path: a wrapper that looks for it first takes longer than most runs, and there are hundreds
python=$(python3 -c 'import sys; print(sys.executable)')
yard=$here/../../examples/yard
there=(--near office --via gate --via mast)

cd "$work"
for script in "$here"/{captures,icmp,loss,promise}.py "$yard/make-capture.py"; do
    python3 -B "$script" "$work"
done
for name in office gate mast crane; do
    run 0 compile "$yard/$name.yaml" -o $name
done
run 0 compile stops.yaml -o stops

# The text and the JSON of a run are the same, also in the exit code.
told_as_text() { # ARGUMENT...
    "$python" -B "$here/json_told.py" "$tool" names "$@" || fail "text and JSON differ: $*"
    checks=$((checks + 1))
}

# The same, and the exit code is this one.
told() { # CODE ARGUMENT...
    told_as_text "${@:2}"
    run "$@" --json <"${INPUT-/dev/null}"
}

# The same, and nothing is printed.
untold() { # CODE ARGUMENT...
    told "$@"
    nothing_printed
}

# A member of the last run's object, by a path of Python's.
member() { # PATH VALUE
    local found
    found=$("$python" -c 'import json, sys; print(eval("json.load(sys.stdin)" + sys.argv[1]))' "$1" <stdout)
    [ "$found" = "$2" ] || fail "$1 is $found, not $2"
    checks=$((checks + 1))
}

# A tool that holds the text of each run against its JSON first.
cat >shim <<END
#!/usr/bin/env bash
"$python" -B "$here/json_told.py" "$tool" "$work/\${NAMES-names}" "\$@" || exit 98
exec "$tool" "\$@"
END
chmod +x shim

# the runs of match.sh, which are hundreds, beside all that follows
mkdir matched
NAMES=names.match TMPDIR=$work/matched "$here/match.sh" "$work/shim" >matched/output 2>&1 &
matching=$!
trap 'kill $matching 2>/dev/null || true; rm -rf "$work"' EXIT

### as it stands: members in their order, lines, the newline

told 0 translate --table office downlink.pcap out.pcap
all_printed <<'END'
{
  "command": "translate",
  "table": "office",
  "capture": {"name": "downlink.pcap", "frames": 5, "ip_packets": 4, "not_ip": 1, "snapped": 0, "padding_cut": 2, "wrapped": []},
  "answers": [
    {"number": 0, "name": "sent", "packets": 3},
    {"number": 11, "name": "not a G-PDU", "packets": 1}],
  "echo_answered": 0,
  "longest": {"in": 104, "sent": 152},
  "broken_off": false}
END
same out.pcap sent.expected

### every capture of the other tests: all link types, cut, damaged, snapped, wrapped, not IP; every reason not to be counted

for capture in *.pcap; do
    [[ ! $capture =~ ^(out|messages|icmp-many)\.pcap$ ]] || continue # the last is long, and has nothing that others have not
    told_as_text translate --table office "$capture" out.pcap
    told_as_text translate --table office --trace "$capture" out.pcap
    told_as_text trip "${there[@]}" --far crane "$capture" -o out.pcap
    told_as_text loss "$capture"
done
for cut in 1 50 110; do
    head -c -"$cut" numbered.pcap >cut.pcap
    told 1 translate --table office --trace cut.pcap out.pcap
    member '["capture"]["cut_in_frame"]' 18
    told 1 trip "${there[@]}" --far crane cut.pcap
    told 1 loss cut.pcap
done
told 0 translate --table gate --trace sent.expected out.pcap
told 0 translate --table crane --trace sent.expected out.pcap
told 0 trip --near crane --via mast --via gate --far office uplink.pcap
for version in 6 4; do
    "$python" -B "$here/json_told.py" "$flipped" names trip "${there[@]}" --far crane turns$version.pcap ||
        fail "text and JSON differ of what a library that errs sends"
done

# ICMPv6 messages
for capture in icmp-*.pcap refused.pcap damaged.pcap snapped.pcap; do
    told_as_text translate --table stops --trace --icmp messages.pcap "$capture" out.pcap
done
told 0 translate --table stops --icmp messages.pcap icmp-refused.pcap
member '["icmp_messages"]' "{'written': 47, 'from_unspecified': 1, 'none_due': 22}"
told 0 translate --table stops --icmp=messages.pcap icmp-none.pcap out.pcap
member '["icmp_messages"]' "{'written': 0, 'from_unspecified': 0, 'none_due': 0}"
told 1 trip --near gate --far stops icmp-passed.pcap
member '["packets"][0]["stops"][1]["icmp_message"]["icmp"]["name"]' 'Parameter Problem'

# a fault in the midst of a capture: the object ends where it was begun, else there is none
untold 1 translate --table office damaged.pcap out.pcap
untold 1 loss damaged.pcap
told 1 translate --table office --trace damaged.pcap out.pcap
member '["broken_off"]' True
member '["packets"][0]["answer"]["name"]' sent
told 1 trip "${there[@]}" --far crane damaged.pcap
member '["broken_off"]' True
told 3 trip "${there[@]}" --far crane downlink.pcap -o nowhere/out.pcap
member '["packets"]' '[]'
untold 3 translate --table office --trace downlink.pcap nowhere/out.pcap

# no object where there was no text: what cannot be read, or is not sound
head -c 100 office >short
for table in none . short "$yard/office.yaml"; do
    code=3
    [ ! -f "$table" ] || code=1
    untold $code translate --table "$table" downlink.pcap out.pcap
    untold $code trip --near "$table" --far crane downlink.pcap
    untold $code match --near office --far "$table"
done
untold 3 check none
untold 3 loss none.pcap
untold 1 loss foreign.pcap

### tables: lengths, and every condition of a sound one

cat >all.yaml <<'END'
format: 1
waypoints:
- {name: w, address: "2001:db8:1::e"}
policies:
- {name: p, waypoints: [w], last-sid: "2001:db8:b:1::", args-octet: 8}
entries:
- {name: a, behaviour: End, prefix: "2001:db8:1::/48", hop-limit: 64}
- {name: b, behaviour: End.M.GTP6.D, prefix: "2001:db8:2::/48", hop-limit: 64, source: "::1", direction: uplink, session-type: IPv6,
   policy: p}
- {name: c, behaviour: End.M.GTP6.D.Di, prefix: "2001:db8:a::/48", hop-limit: 64, source: "::1", direction: downlink, session-type: IPv4,
   policy: p}
- {name: d, behaviour: End.M.GTP6.E, prefix: "2001:db8:b:1::/64", hop-limit: 64, source: "::1", direction: downlink, session-type: IPv4,
   args-octet: 8, source-port: 2152}
- {name: e, behaviour: End.M.GTP4.E, prefix: "2001:db8:c::/48", hop-limit: 64, direction: downlink, session-type: IPv4, p: 6, q: 8,
   source-port: 2152}
rules:
- {name: f, prefix: 10.0.0.0/8, hop-limit: 64, direction: downlink, session-type: IPv4, p: 6, q: 8, sid-prefix: "2001:db8:c::",
   source-prefix: "2001:db8:d::", waypoints: [w]}
- {name: g, prefix: 11.0.0.0/8, hop-limit: 64, direction: downlink, session-type: IPv4, p: 6, q: 8, sid-prefix: "2001:db8:c::",
   source-prefix: "2001:db8:d::"}
END
run 0 compile all.yaml -o all
run 0 compile <(echo 'format: 1') -o empty
for table in all empty office gate; do
    told 0 check $table
    told 0 check -i 0 $table
    told 0 check --inner=65000 $table
done

entry=(0 16 80 144 208 272) # where each begins, from 1
rule=(0 336 496)
policy=656
faults=''
for change in 0:2 2:1 5:17 7:17 3:6 \
    $((entry[1])):2 $((entry[1] + 1)):{129,47} $((entry[1] + 2)):0 $((entry[2] + 3)):2 $((entry[2] + 4)):4 $((entry[2] + 5)):1 \
    $((entry[4] + 6)):{65,56} $((entry[5] + 7)):8 $((entry[5] + 8)):13 $((entry[5] + 7)):5 $((entry[1] + 9)):1 $((entry[2] + 21)):1 \
    $((entry[2] + 9)):2 \
    $((rule[1])):{33,6} $((rule[1] + 1)):0 $((rule[1] + 2)):2 $((rule[1] + 3)):4 $((rule[1] + 4)):8 $((rule[1] + 5)):13 \
    $((rule[1] + 31)):1 $((rule[1] + 47)):1 $((rule[1] + 6)):8 $((rule[1] + 7)):1 $((rule[2] + 8)):10 \
    $policy:9 $((policy + 1)):1 $((policy + 2)):1; do
    cp all unsound
    # shellcheck disable=SC2059 # an octet by its number
    printf "\\x$(printf %02x "${change#*:}")" | dd of=unsound bs=1 seek="${change%:*}" conv=notrunc status=none
    told 1 check unsound
    complained "unsound: not sound: "
    faults+=" $("$python" -c 'import json, sys; print(json.load(sys.stdin)["fault"]["number"] % 65536)' <stdout)"
done
[ "$faults" = "$(printf ' %d' {257..261} {513..527} {769..780} {1025..1027})" ] || fail "not every fault is seen: $faults"
told 1 check short
head -c 10 office >short
told 1 check short
told 1 check /dev/null
told 1 check "$yard/office.yaml"
member '["description"]' True

### names: quotes, backslashes, control characters, and octets that are no UTF-8 (a part of a character, overlong, a surrogate, too large)

for name in 'a "name"' 'back\slash\n' $'two\nlines\tand\x01\x1f\x7f' $'\xc2\x85\xc2\xa0' $'caf\xc3\xa9 \xe2\x82\xac \xf0\x9f\x9a\xa7' \
    $'\xff\xfe' $'\xe2\x82' $'\xe2\x82x' $'\xc0\xaf' $'\xed\xa0\x80' $'\xf4\x90\x80\x80' $'\xf0\x8f\xbf\xbf' $'\x80\xc3'; do
    cp office "$name"
    cp numbered.pcap "$name.pcap"
    told 0 check "$name"
    told 0 match --near "$name" --via gate --via mast --far crane --both
    told 0 loss "$name.pcap"
    told 0 translate --table "$name" --trace "$name.pcap" out.pcap
    told 1 trip --near "$name" --via gate --via mast --far crane "$name.pcap"
    head -c 100 office >"$name"
    told 1 check "$name"
    rm "$name" "$name.pcap"
done
name=$'q"b\\n\n\xff'
cp gate "$name"
run 0 check --json "$name"
printed '  "table": "q\"b\\n\u000a'$'\xef\xbf\xbd''",'

# standard input
INPUT=office told 0 check -
member '["table"]' 'standard input'
INPUT=office told 0 match --near - --via gate --via mast --far crane
INPUT=downlink.pcap told 0 translate --table office --trace - out.pcap
INPUT=downlink.pcap told 1 trip "${there[@]}" --far crane -
INPUT=numbered.pcap told 0 loss -

### what cannot be had together: wrong usage, and nothing is printed

excluded() { # OPTION ARGUMENT...
    run 2 "${@:2}"
    complained "--json and $1 cannot be had together"
    nothing_printed
}
for quiet in -q --quiet; do
    excluded --quiet check --json $quiet office
    excluded --quiet match $quiet --json "${there[@]}" --far crane
    excluded --quiet translate --json $quiet --table office downlink.pcap out.pcap
    excluded --quiet trip "${there[@]}" --far crane $quiet downlink.pcap --json
done
excluded --csv loss --json --csv numbered.pcap
excluded 'OUT.pcap on standard output' translate --json --table office downlink.pcap -
excluded 'ICMP.pcap on standard output' translate --json --table office --icmp - downlink.pcap out.pcap
excluded 'OUT.pcap on standard output' trip --json "${there[@]}" --far crane downlink.pcap -o -

### a full disk, and a closed pipe: the message and exit code of the text; a capture without end shows that packets are printed as they come

endless() {
    cat many.pcap
    while tail -c +25 many.pcap 2>/dev/null; do :; done
}
unwritten() { # REASON ARGUMENT...
    [ "$(cat code)" -eq 3 ] || fail "exit code $(cat code), not 3: ${*:2}"
    all_complained <<<"kawsarpa: standard output: $1"
}
for arguments in 'check office' 'match --near office --far crane' 'loss numbered.pcap' 'trip --near office --far crane downlink.pcap' \
    'translate --table office --trace downlink.pcap out.pcap'; do
    # shellcheck disable=SC2086 # words
    { code=0; "$tool" $arguments --json >/dev/full 2>stderr || code=$?; echo "$code" >code; }
    unwritten "No space left on device" "$arguments"
    # shellcheck disable=SC2086
    { sleep 0.1; code=0; "$tool" $arguments --json 2>stderr || code=$?; echo "$code" >code; } | true
    unwritten "Broken pipe" "$arguments"
done
for arguments in 'translate --table office --trace - out.pcap' 'trip --near office --via gate --via mast --far crane -'; do
    # shellcheck disable=SC2086
    { code=0; endless | timeout 60 "$tool" $arguments --json 2>stderr || code=$?; echo "$code" >code; } | head -n 8 >stdout
    unwritten "Broken pipe" "$arguments"
    grep -q '^    {"number": 3, "in": {"version": 6, ' stdout || fail "no packets are printed before the capture has ended: $arguments"
done

# mutated captures and packets
cat >everywhere.yaml <<'END'
{format: 1, policies: [{name: p, last-sid: "::", args-octet: 0}],
 entries: [{name: e, behaviour: End.M.GTP6.D, prefix: "::/0", hop-limit: 1, source: "::1", direction: uplink, session-type: IPv4,
  policy: p, zero-checksum: allow}],
 rules: [{name: r, prefix: 0.0.0.0/0, hop-limit: 1, direction: uplink, session-type: IPv4, p: 0, q: 0, sid-prefix: "::",
  source-prefix: "::"}]}
END
run 0 compile everywhere.yaml -o everywhere
"$python" -B "$here/mutated.py" ./shim office gate mast crane everywhere "$work" 2 10 500 >stdout 2>stderr || fail "a mutated capture"

wait $matching || fail "match.sh, with --json beside each run: $(cat matched/output)"

### the manual page lists every member that was seen, and no other

cat names.match >>names
tr ' ' '\n' <names | sort -u >seen
sed -n '/^\.Sh JSON$/,/^\.Sh EX/{/^\.Cm echo :$/,/^\.El$/d; s/^\.It Ic //p}' "$here/../../man/kawsarpa.1" |
    tr -d , | tr -s ' ' '\n' | sort -u >listed # those of echo are in echo.sh
diff listed seen >&2 || fail "kawsarpa(1) lists other members than are printed"

# the field guide's examples print what they show
ln -s "$tool" kawsarpa
sed -n '/^## For a script/,$s/^    //p' "$here/../../docs/FIELD-GUIDE.md" >shown
while read -r line; do
    echo "\$ $line"
    PATH=$PWD:$PATH bash -c "$line"
done < <(sed -n 's/^\$ //p' shown) >stdout
all_printed <shown

echo "json.sh: all $checks checks hold, over $(wc -l <names) objects with $(wc -w <names) members"
