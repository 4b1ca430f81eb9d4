#!/usr/bin/env bash
# tables.sh TOOL [SECOND]: compile, show, check and explain, and what they do with bad input, full disks and closed pipes. TOOL is best
# built with sanitizers. With SECOND, tables of the second program are shown and compiled again, and it judges the result.
set -u -o pipefail

if [ $# -lt 1 ] || [ $# -gt 2 ]; then
    echo "usage: tables.sh TOOL [SECOND]" >&2
    exit 2
fi
here=$(cd "$(dirname "$0")" && pwd)
tool=$(realpath "$1")
second=${2:+$(realpath "$2")}
work=$(mktemp -d)
trap 'chmod -R u+w "$work"; rm -rf "$work"' EXIT
cd "$work" || exit 1
# a sanitizer's report is told from an exit code of the tool
export ASAN_OPTIONS=exitcode=99 UBSAN_OPTIONS=exitcode=99

checks=0
fail() {
    echo "tables.sh: $1" >&2
    [ -s errors ] && head -n 20 errors >&2
    exit 1
}

# The status of the tool and a part of what it says; its output goes to the file `output`.
expect() { # STATUS WORDS ARGUMENT...
    local status=$1 words=$2 found=0
    shift 2
    "$tool" "$@" >output 2>errors || found=$?
    checks=$((checks + 1))
    [ "$found" -eq "$status" ] || fail "status $found, not $status: kawsarpa $*"
    if [ "$status" -eq 0 ]; then
        grep -qF -- "$words" output || { [ -z "$words" ] || fail "did not print '$words': kawsarpa $*"; }
    else
        grep -qF -- "$words" errors || fail "did not say '$words': kawsarpa $*"
    fi
}

# A description that is refused, with a message; no file is left behind.
refuse() { # WORDS DESCRIPTION
    printf '%b' "$2" >bad.yaml
    expect 1 "kawsarpa: bad.yaml$1" compile bad.yaml -o bad.table
    compgen -G 'bad.table*' >/dev/null && fail "a file was left: $(compgen -G 'bad.table*')"
}

# The fenced block of TABLES.md that begins with these words.
block() { # FENCE WORDS
    awk -v fence="\`\`\`$1" -v words="$2" '
        $0 == fence { inside = 1; text = ""; next }
        inside && $0 == "```" { if (index(text, words) == 1) printf "%s", text; inside = 0; next }
        inside { text = text $0 "\n" }' "$here/../../docs/TABLES.md"
}

octet() { # FILE OFFSET VALUE: changes one octet
    printf %b "\\x$(printf %02x "$3")" | dd of="$1" bs=1 seek="$2" conv=notrunc status=none
}

### usage

expect 0 'Commands:' --help
expect 0 'Exit codes: 0 done; 1' --help
expect 0 ', table format 1' --version
expect 0 "proofs checked with $(cat "$here/../../rt.version")" --version
for command in compile show check explain; do
    expect 0 'Exit codes: 0' "$command" --help
    expect 2 'needed' "$command"
    expect 2 'unrecognized option' "$command" --nonsense
done
for command in '' compile show check match explain translate trip loss; do
    # shellcheck disable=SC2086 # no argument where there is no command
    expect 0 'Exit codes: 0' $command -h
    # shellcheck disable=SC2086 # the same
    "$tool" $command --help | cmp -s - output || fail "-h is not --help: kawsarpa $command"
done
expect 2 'a command is needed'
expect 2 'no such command: nonsense' nonsense
expect 2 'is enough' show one two
expect 2 'is enough' compile one two -o three
expect 2 'needed' compile one
expect 2 'octets, not 12x' check -i 12x one

### the example of TABLES.md

block yaml 'format: 1' >site.yaml
[ -s site.yaml ] || fail "TABLES.md has no example"
expect 0 '' compile site.yaml -o site.table
expect 0 '' check site.table
block text 'site.table: sound' | cmp -s - output || fail "TABLES.md shows another output of check"
block text '00000000:' >dump
od -An -v -tx1 -N80 site.table | tr -d ' \n' >found
sed 's/^[^:]*://' dump | tr -d ' \n' | cmp -s - found || fail "TABLES.md shows other octets"
expect 0 '  address: "2001:db8:a:1::"' show site.table
cp output shown.yaml
expect 0 '' compile shown.yaml -o again.table
cmp -s site.table again.table || fail "the example does not come back from show"
cp site.table faulty.table
octet faulty.table $((16 + 64 * 2 + 2)) 0
expect 1 'entry 3 2001:db8:a::/48: the hop limit is not 1 to 255' check faulty.table
sed 's/faulty/site/' errors >found
block text 'kawsarpa: site.table: not sound' | cmp -s - found || fail "TABLES.md shows another fault"
expect 0 'entry 3' explain --fault "$(sed -n 's/.*fault \([0-9]*\);.*/\1/p' errors)"

### standard input and output

"$tool" compile - -o - <site.yaml | cmp -s - site.table || fail "compile - -o - does not give the table"
"$tool" show - <site.table | cmp -s - shown.yaml || fail "show - differs"
"$tool" check -i 100 - <site.table >output || fail "check - failed"
grep -q '^entry 2 .* +32 *164  *196$' output || fail "check -i 100: not the lengths of docs/RULES.md, Worked packets"

### lengths: the worked packets of docs/RULES.md, and rules with and without waypoints

cat >lengths.yaml <<'END'
format: 1
waypoints:
- {name: w, address: "2001:db8::1"}
policies:
- {name: one, last-sid: "2001:db8::2", args-octet: 8}
- {name: three, waypoints: [w, w], last-sid: "2001:db8::2", args-octet: 8}
entries:
- {name: a, behaviour: End.M.GTP6.D, prefix: "::/1", hop-limit: 1, source: "::", direction: uplink, session-type: IPv4, policy: one}
- {name: b, behaviour: End.M.GTP6.D, prefix: "::/2", hop-limit: 1, source: "::", direction: uplink, session-type: IPv4, policy: three}
- {name: c, behaviour: End.M.GTP6.D.Di, prefix: "::/3", hop-limit: 1, source: "::", direction: uplink, session-type: IPv4, policy: one}
rules:
- {name: d, prefix: 0.0.0.0/1, hop-limit: 1, direction: uplink, session-type: IPv4, p: 0, q: 0, sid-prefix: "::", source-prefix: "::"}
- {name: e, prefix: 0.0.0.0/2, hop-limit: 1, direction: uplink, session-type: IPv4, p: 0, q: 0, sid-prefix: "::", source-prefix: "::",
   waypoints: [w]}
END
expect 0 '' compile lengths.yaml -o lengths.table
expect 0 'The SRv6 path needs an MTU of 196' check --inner 100 lengths.table
for line in 'entry 1 .* 0 *164 *164' 'entry 2 .* +32 *164 *196' 'entry 3 .* +16 *164 *180' 'rule 1 .* -4 *144 *140' \
    'rule 2 .* +36 *144 *180'; do
    grep -qx "$line" output || fail "check --inner 100: no line '$line'"
done

### descriptions that are refused

expect 0 '' compile <(printf 'format: 1\n') -o empty.table
printf '\001' | cat - <(head -c 15 /dev/zero) | cmp -s - empty.table || fail "the empty table is another"
expect 0 '0 entries, 0 rules, 0 policies' check empty.table
expect 0 'format: 1' show empty.table

waypoint='waypoints:\n- {name: w, address: "::1"}\n'
policy='policies:\n- {name: p, waypoints: [w], last-sid: "::2", args-octet: 8}\n'
end='name: a, behaviour: End, prefix: "::/64", hop-limit: 1'
refuse ': no description' ''
refuse ': no description' '# nothing\n'
refuse ':1: keys with values are expected' '[1]\n'
refuse ':1: format is "2", not 1' 'format: 2\n'
refuse ':1: format is missing' 'entries: []\n'
refuse ':2: unknown key "entires"' 'format: 1\nentires: []\n'
refuse ':2: entries is not a list' 'format: 1\nentries: {}\n'
refuse ':3: unknown key "hop_limit"' "format: 1\nentries:\n- {$end, hop_limit: 3}\n"
refuse ':4: hop-limit is given twice' "format: 1\nentries:\n- {$end,\n   hop-limit: 3}\n"
refuse ':3: prefix is missing' 'format: 1\nentries:\n- {name: a, behaviour: End, hop-limit: 1}\n'
refuse ':3: hop-limit is not one value' 'format: 1\nentries:\n- {name: a, behaviour: End, prefix: "::/0", hop-limit: [1]}\n'
refuse ':4: a second document' "format: 1\n$waypoint---\nformat: 1\n"
refuse ':4: aliases are not used' 'format: 1\nwaypoints:\n- &x {name: a, address: "::1"}\n- *x\n'
refuse ':4: mapping values are not allowed in this context (an address that ends in a colon needs quotes)' \
    'format: 1\nwaypoints:\n- name: a\n  address: 2001:db8::\n'
refuse ':3: a value holds the character NUL' 'format: 1\nwaypoints:\n- {name: a, address: "::1\\0"}\n'
refuse ':2: a key is not one value' 'format: 1\n? [a, b]\n: c\n'
refuse ':1: lists and keys are nested too deeply' "$(printf '[%.0s' {1..100000})"
refuse ':1: control characters' '\001\002'
refuse ':3: invalid leading UTF-8 octet' 'format: 1\n# one\n\xff\n'
for number in 0 256 300 -1 12x 010 0x10 1.0 99999999999999999999 -18446744073709551615 "''"; do
    refuse ":6: entry \"a\": hop-limit is \"${number//\'/}\", not a number from 1 to 255" \
        "format: 1\nentries:\n- name: a\n  behaviour: End\n  prefix: ::/64\n  hop-limit: $number\n"
done
refuse ':4: entry "a": behaviour is "END", not End, End.M.GTP6.D, End.M.GTP6.D.Di, End.M.GTP6.E or End.M.GTP4.E' \
    'format: 1\nentries:\n- name: a\n  behaviour: END\n  prefix: ::/64\n  hop-limit: 1\n'
for prefix in ::/129 ::/-1 ::/ ::/064 :: 192.0.2.0/24 fe80::1%lo/64 2001:db8::1::/64; do
    refuse ":3: entry \"a\": prefix is \"$prefix\", not an IPv6 prefix" \
        "format: 1\nentries:\n- {name: a, behaviour: End, prefix: \"$prefix\", hop-limit: 1}\n"
done
refuse ':3: entry "a": not sound: bits past the prefix length are not 0 (number 1 of the entries)' \
    'format: 1\nentries:\n- {name: a, behaviour: End, prefix: "::1/64", hop-limit: 1}\n'
refuse ':4: entry "b": not sound: an earlier entry has the same prefix and length: "a" (number 2 of the entries)' \
    "format: 1\nentries:\n- {$end}\n- {name: b, behaviour: End, prefix: \"0::/64\", hop-limit: 2}\n"
refuse ':4: entry "a": an earlier entry has this name' "format: 1\nentries:\n- {$end}\n- {$end}\n"
refuse ':3: entry "a": End uses no policy' "format: 1\nentries:\n- {$end, policy: p}\n"
refuse ':3: entry "a": End.M.GTP6.D needs source' \
    'format: 1\nentries:\n- {name: a, behaviour: End.M.GTP6.D, prefix: "::/0", hop-limit: 1}\n'
d='name: a, behaviour: End.M.GTP6.D, prefix: "::/0", hop-limit: 1, source: "::1", session-type: IPv4'
refuse ':7: entry "a": "x" is not the name of a policy' "format: 1\n$waypoint${policy}entries:\n- {$d, direction: uplink, policy: x}\n"
refuse ':7: entry "a": direction is "up", not downlink or uplink' \
    "format: 1\n$waypoint${policy}entries:\n- {$d, direction: up, policy: p}\n"
refuse ':7: entry "a": zero-checksum is "yes", not refuse or allow' \
    "format: 1\n$waypoint${policy}entries:\n- {$d, direction: uplink, policy: p, zero-checksum: yes}\n"
refuse ':3: entry "a": End uses no zero-checksum' "format: 1\nentries:\n- {$end, zero-checksum: allow}\n"
refuse ':3: policy "p": "w" is not the name of a waypoint' "format: 1\n$policy"
refuse ':3: policy "p": args-octet is "12", not a number from 0 to 11' \
    'format: 1\npolicies:\n- {name: p, last-sid: "::", args-octet: 12}\n'
refuse ':5: too many waypoints: at most 7' \
    "format: 1\n${waypoint}policies:\n- {name: p, waypoints: [w,w,w,w,w,w,w,w], last-sid: \"::\", args-octet: 1}\n"
refuse ':3: waypoint "a b": a name is 1 to 63' 'format: 1\nwaypoints:\n- {name: a b, address: "::1"}\n'
refuse ':3: waypoint "?[31m": a name is 1 to 63' 'format: 1\nwaypoints:\n- {name: "\\e[31m", address: "::1"}\n'
e6='name: a, behaviour: End.M.GTP6.E, hop-limit: 1, source: "::1", direction: uplink, session-type: IPv4, source-port: 1'
refuse ':3: entry "a": not sound: the prefix reaches into Args' "format: 1\nentries:\n- {$e6, prefix: \"::/64\", args-octet: 7}\n"
refuse ':3: entry "a": End.M.GTP6.E uses no zero-checksum' \
    "format: 1\nentries:\n- {$e6, prefix: \"::/64\", args-octet: 8, zero-checksum: allow}\n"
refuse ':3: entry "a": source-port is "65536", not a number from 0 to 65535' \
    "format: 1\nentries:\n- {${e6/source-port: 1/source-port: 65536}, prefix: \"::/64\", args-octet: 8}\n"
e4='name: a, behaviour: End.M.GTP4.E, hop-limit: 1, direction: uplink, session-type: IPv4, source-port: 1'
refuse ':3: entry "a": not sound: the prefix has more than 8p bits' "format: 1\nentries:\n- {$e4, prefix: \"::/49\", p: 6, q: 8}\n"
refuse ':3: entry "a": End.M.GTP4.E uses no zero-checksum' \
    "format: 1\nentries:\n- {$e4, prefix: \"::/48\", p: 6, q: 8, zero-checksum: refuse}\n"
refuse ':3: entry "a": p is "8", not a number from 0 to 7' "format: 1\nentries:\n- {$e4, prefix: \"::/49\", p: 8, q: 8}\n"
refuse ':3: entry "a": q is "13", not a number from 0 to 12' "format: 1\nentries:\n- {$e4, prefix: \"::/49\", p: 7, q: 13}\n"
rule='hop-limit: 1, direction: uplink, session-type: IPv4, p: 6, q: 8'
refuse ':3: rule "r": not sound: bits past 8p of the SID prefix are not 0 (number 1 of the rules)' \
    "format: 1\nrules:\n- {name: r, prefix: 0.0.0.0/0, $rule, sid-prefix: \"::1\", source-prefix: \"::\"}\n"
refuse ':3: rule "r": not sound: bits past 8q of the source prefix are not 0' \
    "format: 1\nrules:\n- {name: r, prefix: 0.0.0.0/0, $rule, sid-prefix: \"::\", source-prefix: \"::1\"}\n"
prefixes='sid-prefix: "::", source-prefix: "::"'
refuse ':3: rule "r": prefix is "10.0.0.0/33", not an IPv4 prefix' "format: 1\nrules:\n- {name: r, prefix: 10.0.0.0/33, $rule, $prefixes}\n"
refuse ':3: unknown key "zero-checksum"' \
    "format: 1\nrules:\n- {name: r, prefix: 10.0.0.0/8, $rule, $prefixes, zero-checksum: allow}\n"
refuse ':4: rule "s": not sound: an earlier rule has the same prefix and length: "r"' \
    "format: 1\nrules:\n- {name: r, prefix: 10.0.0.0/8, $rule, $prefixes}\n- {name: s, prefix: 10.0.0.0/8, $rule, $prefixes}\n"

# all mistakes are told, in the order of the lists, each with its line
cat >bad.yaml <<'END'
format: 1
waypoints:
- {name: w, address: "::g"}
- {name: w, address: "::1"}
policies:
- {name: p, waypoints: [v, w, u], last-sid: "::2/64", args-octet: 12}
entries:
- {name: a b, behaviour: END, prefix: "::/129", hop-limit: 0, policy: q}
- {name: e, behaviour: End.M.GTP6.E, prefix: "::", hop-limit: 1, direction: up, policy: p}
- {name: good, behaviour: End, prefix: "2001:db8::/32", hop-limit: 1}
rules:
- {name: r, prefix: 10.0.0.0, hop-limit: 256, direction: down, session-type: IPv5, p: 8, q: 13, sid-prefix: x, source-prefix: y,
   waypoints: [w, z]}
END
expect 1 '' compile bad.yaml -o bad.table
sed 's/, not .*//' errors | cmp - <(sed 's/^/kawsarpa: bad.yaml:/' <<'END'
4: waypoint "w": an earlier waypoint has this name
8: entry "a b": a name is 1 to 63 letters, digits, - _ or .
3: waypoint "w": address is "::g"
6: policy "p": "v" is not the name of a waypoint
6: policy "p": "u" is not the name of a waypoint
6: policy "p": last-sid is "::2/64"
6: policy "p": args-octet is "12"
8: entry "a b": behaviour is "END"
8: entry "a b": prefix is "::/129"
8: entry "a b": hop-limit is "0"
8: entry "a b": "q" is not the name of a policy
9: entry "e": End.M.GTP6.E needs source
9: entry "e": End.M.GTP6.E needs session-type
9: entry "e": End.M.GTP6.E uses no policy
9: entry "e": End.M.GTP6.E needs args-octet
9: entry "e": End.M.GTP6.E needs source-port
9: entry "e": prefix is "::"
9: entry "e": direction is "up"
12: rule "r": prefix is "10.0.0.0"
12: rule "r": hop-limit is "256"
12: rule "r": direction is "down"
12: rule "r": session-type is "IPv5"
12: rule "r": p is "8"
12: rule "r": q is "13"
12: rule "r": sid-prefix is "x"
12: rule "r": source-prefix is "y"
13: rule "r": "z" is not the name of a waypoint
END
) || fail "not all mistakes of a description are told"
compgen -G 'bad.table*' >/dev/null && fail "a file was left: $(compgen -G 'bad.table*')"

# a source that no packet may have is warned of, and the table is written
for source in '::' ff02::1; do
    printf 'format: 1\nentries:\n- {%s,\n   source: "%s"}\n' "$end" "$source" >odd.yaml
    expect 0 '' compile odd.yaml -o odd.table
    case $source in ::) words='the unspecified' ;; *) words='a multicast' ;; esac
    grep -qx "kawsarpa: odd.yaml:4: entry \"a\": warning: source is \"$source\", $words address: routers drop what bears it" errors ||
        fail "no warning of the source $source"
    expect 0 '1 entry' check odd.table
done
printf 'format: 1\nentries:\n- {%s}\n- {%s, source: "fe80::1"}\n' "$end" "${end/name: a/name: b}" | sed '4s/::.64/1::\/64/' >odd.yaml
expect 0 '' compile odd.yaml -o odd.table
[ ! -s errors ] || fail "a warning of no source, or of a good one"

# the mark for UDP checksum 0: entry octet 9, which is octet 25 of the table; 0 is said by no word
for word in allow refuse ''; do
    printf 'format: 1\n%b%bentries:\n- {%s, direction: uplink, policy: p%s}\n' "$waypoint" "$policy" "$d" \
        "${word:+, zero-checksum: $word}" >mark.yaml
    for behaviour in End.M.GTP6.D End.M.GTP6.D.Di; do
        sed -i "s/End.M.GTP6.D[.Di]*/$behaviour/" mark.yaml
        expect 0 '' compile mark.yaml -o mark.table
        [ "$(od -An -tu1 -j25 -N1 mark.table)" -eq "$([ "$word" = allow ] && echo 1 || echo 0)" ] || fail "another mark: '$word'"
        expect 0 "behaviour: $behaviour" show mark.table
        [ "$(grep -cx '  zero-checksum: allow' output)" -eq "$([ "$word" = allow ] && echo 1 || echo 0)" ] || fail "show: '$word'"
        [ "$(grep -c zero-checksum output)" -le 1 ] || fail "show says the mark twice, or that it is 0"
        cp output shown.yaml
        expect 0 '' compile shown.yaml -o again.table
        cmp -s mark.table again.table || fail "the mark '$word' does not come back from show"
    done
done

# as many records as there may be, and one more of each
python3 "$here/descriptions.py" most most.yaml || fail "descriptions.py failed"
expect 0 '' compile most.yaml -o most.table
[ "$(stat -c %s most.table)" -eq 11280 ] || fail "the largest table has not 11,280 octets"
expect 0 '64 entries, 16 rules, 16 policies' check most.table
expect 0 'waypoint-224' show most.table
cp output shown.yaml
expect 0 '' compile shown.yaml -o again.table
cmp -s most.table again.table || fail "the largest table does not come back from show"
for list in waypoints:224 policies:16 entries:64 rules:16; do
    sed "/^${list%:*}:/{n;p;s/name: /name: one-more-/}" most.yaml >more.yaml
    expect 1 "too many ${list%:*}: at most ${list#*:}" compile more.yaml -o bad.table
done

### --quiet: the exit code alone, and faults

expect 0 '' check --quiet site.table
[ ! -s output ] || fail "check --quiet prints something"
expect 1 'site.yaml: a description' check -q site.yaml

### tables that are refused

unsound() { # WORDS OFFSET VALUE: one octet of the example changed
    cp site.table faulty.table
    octet faulty.table "$2" "$3"
    expect 1 "faulty.table: not sound: $1" check faulty.table
    expect 1 "faulty.table: not sound: $1" show faulty.table
}
rule_at=$((16 + 64 * 5))
policy_at=$((rule_at + 160))
unsound 'the format is not 1' 0 2
unsound 'more than 64 entries' 2 1
unsound 'more than 16 rules' 5 17
unsound 'more than 16 policies' 7 17
unsound 'the length is not that of the records' 3 6
unsound 'entry 1 2001:db8:1::/48: the behaviour is unknown' 16 2
unsound 'entry 1 2001:db8:1::/129: the prefix length is over 128' 17 129
unsound 'entry 1 2001:db8:1::/47: bits past the prefix length are not 0' 17 47
unsound 'entry 1 2001:db8:1::/48: the direction is unknown' 19 2
unsound 'entry 1 2001:db8:1::/48: the session type is unknown' 20 4
unsound 'entry 1 2001:db8:1::/48: the policy does not exist' 21 1
unsound 'entry 1 2001:db8:1::/48: the mark for UDP checksum 0 is neither 0 nor 1' 25 2
unsound 'entry 2 2001:db8:2::/48: the mark for UDP checksum 0 is neither 0 nor 1' $((16 + 64 + 9)) 255
unsound 'entry 3 2001:db8:a::/48: the reserved octet is not 0' $((16 + 64 * 2 + 9)) 1
unsound 'entry 4 2001:db8:b:1::/64: the reserved octet is not 0' $((16 + 64 * 3 + 9)) 1
unsound 'entry 5 2001:db8:c::/48: the reserved octet is not 0' $((16 + 64 * 4 + 9)) 1
unsound 'entry 2 2001:db8:1::/48: an earlier entry has the same prefix and length (entry 1)' $((16 + 64 + 16 + 5)) 1
unsound 'entry 4 2001:db8:b:1::/64: Args do not start at an octet from 0 to 11' $((16 + 64 * 3 + 6)) 65
unsound 'entry 4 2001:db8:b:1::/64: the prefix reaches into Args' $((16 + 64 * 3 + 6)) 56
unsound 'entry 5 2001:db8:c::/48: p is over 7' $((16 + 64 * 4 + 7)) 8
unsound 'entry 5 2001:db8:c::/48: q is over 12' $((16 + 64 * 4 + 8)) 13
unsound 'entry 5 2001:db8:c::/48: the prefix has more than 8p bits' $((16 + 64 * 4 + 7)) 5
unsound 'rule 1 192.0.2.0/33: the prefix length is over 32' $rule_at 33
unsound 'rule 1 192.0.2.0/22: bits past the prefix length are not 0' $rule_at 22
unsound 'rule 1 192.0.2.0/24: the hop limit' $((rule_at + 1)) 0
unsound 'rule 1 192.0.2.0/24: more than 7 waypoints' $((rule_at + 6)) 8
unsound 'rule 1 192.0.2.0/24: the reserved octet is not 0' $((rule_at + 7)) 1
unsound 'policy 1: not 1 to 8 SIDs' $policy_at 9
unsound 'policy 1: Args do not start' $((policy_at + 1)) 1
unsound 'policy 1: the reserved octet is not 0' $((policy_at + 2)) 1

head -c 783 site.table >cut.table
expect 1 'take 784 octets; there are 783)' check cut.table
{ cat site.table; printf x; } >long.table
expect 1 'take 784 octets; there are 785)' check long.table
printf '# no table\n{"format": 1}\n' >other.yaml
for description in site.yaml other.yaml -; do
    expect 1 ": a description: compile it first, with \`kawsarpa compile'" check "$description" <site.yaml
    [ "$(wc -l <errors)" -eq 1 ] || fail "more than one message about a description"
done
expect 1 ': a description: compile it first' show site.yaml
gzip -c site.table >packed.table.gz
expect 1 "packed.table.gz: compressed with gzip: unpack it with \`zcat'" check packed.table.gz
gzip -c site.yaml >packed.yaml.gz
expect 1 "packed.yaml.gz: compressed with gzip: unpack it with \`zcat'" compile packed.yaml.gz -o bad.table
: >none.table
expect 1 '(0 octets are no header)' check none.table
for size in 1 7 15; do
    head -c $size site.table >cut.table
    expect 1 "($size octets are no header)" check cut.table
    expect 1 "($size octets are no header)" show cut.table
done
expect 1 'has more than' check /dev/zero
expect 1 'has more than' compile /dev/zero -o bad.table

# octets that are never examined are told, and are 0 after one compile
cp site.table spare.table
octet spare.table 1 9
expect 0 '# Compiling this gives a table that answers the same, with other octets' show spare.table
"$tool" compile - -o - <output | cmp -s - site.table || fail "spare octets are not 0 after show and compile"

### explain

for number in {0..19} 25 26; do
    expect 0 "$number: " explain "$number"
    grep -q '^Next step: ' output || fail "explain $number has no next step"
done
expect 0 '7: bad segments left' explain 0x7
expect 0 'the table is sound' explain --fault 0
for bad in 20 24 27 255 4294967296; do
    expect 1 "$bad is no answer: answers are 0 to 19, 25 and 26" explain "$bad"
done
for bad in 22 23; do # the latter is an answer to the call for an ICMPv6 message alone
    expect 1 "$bad is no answer: answers are 0 to 19, 25 and 26" explain "$bad"
done
for bad in x 7x '' ' 7' 0x 0x0x7 99999999999999999999999; do
    expect 2 'is no number' explain "$bad"
done
for bad in 1 262 512 528 783 781 1028 1281 4294967809; do
    expect 1 "$bad is no fault of a table" explain --fault "$bad"
done
for fault in 257 261 513 526 527 769 780 1025 1027 $((526 + 65536 * 63)); do
    expect 0 'Broken: ' explain --fault "$fault"
done

### files and disks

mkdir directory
expect 3 'missing: No such file or directory' check missing
expect 3 'missing: No such file or directory' show missing
expect 3 'missing: No such file or directory' compile missing -o bad.table
expect 3 'directory: Is a directory' check directory
expect 3 'directory: Is a directory' compile directory -o bad.table
expect 3 'directory: Is a directory' compile site.yaml -o directory
expect 3 'nowhere/table: No such file or directory' compile site.yaml -o nowhere/table
expect 3 '/dev/full: No space left on device' compile site.yaml -o /dev/full
[ -c /dev/full ] || fail "/dev/full was replaced"
expect 2 'is the description' compile site.yaml -o ./site.yaml
compgen -G 'bad.table*' >/dev/null && fail "a file was left"

# standard output that is full, and a reader that has gone
for arguments in '--help' 'check --help' 'check site.table' 'show site.table' 'explain 7' 'compile site.yaml -o -'; do
    # shellcheck disable=SC2086 # several words
    "$tool" $arguments >/dev/full 2>errors
    [ $? -eq 3 ] || fail "standard output full: kawsarpa $arguments"
    grep -qx 'kawsarpa: standard output: No space left on device' errors || fail "standard output full, not said: kawsarpa $arguments"
    [ "$(wc -l <errors)" -eq 1 ] || fail "standard output full, said twice: kawsarpa $arguments"
    # shellcheck disable=SC2086 # the same
    { sleep 0.1; "$tool" $arguments 2>errors; echo $? >status; } | true
    [ "$(cat status)" -eq 3 ] || fail "closed pipe: kawsarpa $arguments"
    grep -qx 'kawsarpa: standard output: Broken pipe' errors || fail "closed pipe, not said: kawsarpa $arguments"
    checks=$((checks + 2))
done

# standard streams that are closed
"$tool" check site.table >&- 2>/dev/null
[ $? -eq 3 ] || fail "standard output closed, and nothing said"
"$tool" compile site.yaml -o closed.table <&- >&- 2>&- || fail "compile does not work without standard streams"
cmp -s site.table closed.table || fail "compile without standard streams gives another table"
"$tool" check - <&- 2>/dev/null
[ $? -eq 3 ] || fail "standard input closed, and nothing said"

# a disk that is full: the old table stays, and no other file
cp empty.table old.table
(
    trap '' XFSZ
    ulimit -f 0
    "$tool" compile site.yaml -o old.table 2>/dev/null
)
[ $? -eq 3 ] || fail "a file that may not grow was written"
cmp -s empty.table old.table || fail "the old table is gone"
printf 'format: 1\nmore: 2\n' >bad.yaml
expect 1 'unknown key "more"' compile bad.yaml -o old.table
cmp -s empty.table old.table || fail "the old table is gone after a bad description"
[ "$(compgen -G 'old.table*' | wc -l)" -eq 1 ] || fail "a temporary file was left"

# a new table takes the old one's mode and place behind a link, and a pipe is written in place
chmod 640 old.table
ln -s old.table link.table
expect 0 '' compile site.yaml -o link.table
[ -L link.table ] || fail "the link was replaced"
cmp -s site.table old.table || fail "the file behind the link was not written"
[ "$(stat -c %a old.table)" = 640 ] || fail "the mode has changed"
(umask 027 && "$tool" compile site.yaml -o masked.table) || fail "not written"
[ "$(stat -c %a masked.table)" = 640 ] || fail "the mode is not that of the umask"
mkfifo pipe
cat pipe >piped &
expect 0 '' compile site.yaml -o pipe
wait $!
cmp -s site.table piped || fail "the pipe did not get the table"
[ -p pipe ] || fail "the pipe was replaced"

### descriptions drawn at random: the octets are those of another program, and come back from show

mkdir drawn
python3 "$here/descriptions.py" write drawn 250 1 || fail "descriptions.py failed"
for ((i = 0; i < 250; i++)); do
    expect 0 '' compile "drawn/$i.yaml" -o out.table
    cmp -s "drawn/$i.table" out.table || fail "description $i of seed 1: other octets"
    expect 0 'format: 1' show out.table
    cp output shown.yaml
    grep -q '^#' shown.yaml && fail "description $i of seed 1: show does not know the table again"
    expect 0 '' compile shown.yaml -o again.table
    cmp -s out.table again.table || fail "description $i of seed 1: show and compile give other octets"
done

### anything else than a description or a table

# Status 0 or 1: bad input never ends the tool otherwise.
survives() { # ARGUMENT...
    local status=0
    "$tool" "$@" >output 2>errors || status=$?
    checks=$((checks + 1))
    [ "$status" -le 1 ] || fail "status $status: kawsarpa $* (seed 1)"
    grep -qE 'Sanitizer|runtime error' errors && fail "kawsarpa $* (seed 1)"
    return "$status"
}

mkdir mutants
python3 "$here/descriptions.py" mutate mutants 400 1 site.yaml || fail "descriptions.py failed"
for ((i = 0; i < 400; i++)); do
    survives compile "mutants/$i.mutant" -o out.table
done
python3 "$here/descriptions.py" mutate mutants 300 1 site.table || fail "descriptions.py failed"
for ((i = 0; i < 300; i++)); do
    if survives check "mutants/$i.mutant"; then
        expect 0 'format: 1' show "mutants/$i.mutant"
        cp output shown.yaml
        expect 0 '' compile shown.yaml -o out.table
    fi
done

### tables of the second program, shown and compiled: it answers as before, and finds the same ones unsound

if [ -n "$second" ]; then
    "$second" vectors --seed 11 --per-kind 40 >its.vectors || fail "second vectors failed"
    while read -r kind call number rest; do
        [ "$kind" = '#' ] && continue
        read -r type code pointer length room packet table out <<<"$rest"
        printf %b "$(sed 's/^-$//; s/../\\x&/g' <<<"$table")" >its.table
        if [ "$number" -eq 1 ]; then
            expect 1 'not sound' check its.table
            continue
        fi
        expect 0 'sound' check its.table
        expect 0 'format: 1' show its.table
        cp output shown.yaml
        expect 0 '' compile shown.yaml -o out.table
        echo "$kind $call $number $type $code $pointer $length $room $packet $(od -An -v -tx1 out.table | tr -d ' \n') $out"
    done <its.vectors >recompiled
    "$second" check <recompiled >output 2>errors || fail "tables that were shown and compiled answer otherwise"
    echo "tables.sh: second: $(cat output)"
fi

echo "tables.sh: $checks checks hold"
