#!/usr/bin/env bash
# icmp.sh TOOL: `translate --icmp`, and what `--trace` and `trip` say of ICMPv6 messages. The messages are, octet for octet, those that
# icmp.py lays out by RFC 4443; which are due, and why others are not; both outputs are there whole, or neither; what the documents show.
set -eu

if [ $# -ne 1 ]; then
    echo "usage: icmp.sh TOOL" >&2
    exit 2
fi
here=$(cd "$(dirname "$0")" && pwd)
top=$(cd "$here/../.." && pwd)
# shellcheck source=tests/tools/checks.sh
. "$here/checks.sh"
cd "$work"
mkdir out

python3 -B "$here/icmp.py" .
run 0 compile stops.yaml -o stops
[ ! -s stderr ] || fail "compile warns"
run 0 compile "$top/examples/yard/office.yaml" -o office
sed 's/hop-limit: 64/&\n    source: "2001:db8:f::3"/' "$top/examples/yard/gate.yaml" >gate.yaml
run 0 compile gate.yaml -o gate
python3 -B "$top/examples/yard/make-capture.py" .

# After a failure nothing is left, under a final name or beside it.
nothing_left() {
    [ -z "$(find out -mindepth 1)" ] || fail "left behind: $(ls out)"
    checks=$((checks + 1))
}

### the messages, with OUT.pcap and without, in bursts and one by one; what is sent is the same without the option

run 0 translate --table stops icmp-refused.pcap sent.expected
printed '       7   6 hop limit exceeded'
printed '       8   7 bad segments left'
printed '      57   8 bad upper layer'
{
    cat stdout
    echo "ICMPv6 messages: 47 written, none due for 22 packets"
    echo "             1 message is from ::, since its entry has no source: routers drop it"
} >summary.expected
for trace in '' --trace; do
    # shellcheck disable=SC2086 # no word where there is none
    run 0 translate --table stops $trace --icmp out/messages.pcap icmp-refused.pcap out/sent.pcap
    same out/messages.pcap icmp-refused.expected
    same out/sent.pcap sent.expected
    sed '/^frames /,$!d' stdout >summary
    same summary summary.expected
    rm out/*
    # shellcheck disable=SC2086 # the same
    run 0 translate --table stops $trace icmp-refused.pcap --icmp=out/messages.pcap
    same out/messages.pcap icmp-refused.expected
    [ "$(ls out)" = messages.pcap ] || fail "something else is written"
    sed '/^frames /,$!d' stdout >summary
    same summary summary.expected
    rm out/*
done

# the trace says it with and without the option, behind the answer to the packet; and of no other packet
for option in '' '--icmp out/messages.pcap'; do
    # shellcheck disable=SC2086 # two words, or none
    run 0 translate --table stops --trace $option icmp-refused.pcap out/sent.pcap
    sed -n '/^  ICMPv6 message: /p' stdout >lines
    same lines icmp-refused.lines
    sed -n '/ refused, [678] .*(ICMPv6 type/{n; p}' stdout >lines
    same lines icmp-refused.lines
    if grep -q '^ICMPv6 messages: ' stdout; then
        [ -n "$option" ] || fail "messages are counted that are not written"
    else
        [ -z "$option" ] || fail "messages are not counted"
    fi
done
rm out/*

# frames: what is quoted begins with the IPv6 header, and padding is no part of it
run 0 translate --table stops --icmp out/messages.pcap icmp-framed.pcap
same out/messages.pcap icmp-framed.expected

# with none to write, a capture without a packet; from ::; of a capture that is cut, what comes before
run 0 translate --table stops --icmp out/messages.pcap icmp-none.pcap out/sent.pcap
same out/messages.pcap icmp-none.expected
printed "ICMPv6 messages: 0 written, none due for 0 packets"
run 0 translate --table stops --icmp out/messages.pcap icmp-from-nobody.pcap
same out/messages.pcap icmp-from-nobody.expected
printed "ICMPv6 messages: 3 written, none due for 0 packets"
printed "             2 messages are from ::, since their entries have no source: routers drop them"
head -c -1 icmp-from-nobody.pcap >cut.pcap
run 1 translate --table stops --icmp out/messages.pcap cut.pcap out/sent.pcap
printed "ICMPv6 messages: 2 written, none due for 0 packets"
head -c "$(stat -c %s out/messages.pcap)" icmp-from-nobody.expected >cut.expected
same out/messages.pcap cut.expected
run 0 translate --table stops --quiet --icmp out/messages.pcap icmp-refused.pcap
same out/messages.pcap icmp-refused.expected
nothing_printed
rm out/*

# standard output: one of the two, and all else on standard error
"$tool" translate --table stops --icmp - icmp-refused.pcap out/sent.pcap >stdout 2>stderr || fail "messages to standard output"
same stdout icmp-refused.expected
same stderr summary.expected
"$tool" translate --table stops -q --icmp - - <icmp-refused.pcap >stdout 2>stderr || fail "from - to -"
same stdout icmp-refused.expected
[ ! -s stderr ] || fail "something is said"
"$tool" translate --table stops --trace --icmp out/messages.pcap icmp-refused.pcap - >stdout 2>stderr || fail "what is sent to -"
same stdout sent.expected
same out/messages.pcap icmp-refused.expected
sed -n '/^  ICMPv6 message: /p' stderr >lines
same lines icmp-refused.lines
rm out/*
run 0 translate --table stops --icmp /dev/null icmp-refused.pcap /dev/null
[ -c /dev/null ] || fail "/dev/null was replaced"

### what is said of ICMPv6 in a capture: its next header, and in JSON type, code and pointer

run 0 translate --table stops --trace icmp-read.pcap out/sent.pcap
rm out/*
sed -i -n 's/^packet .*, traffic class 0x00, \(SL 1 then 2001:db8:5::1, \|\)\(.*\)/\2/p' stdout
all_printed < <(printf 'next header 58, %s octets\n' 72 72 72 72 72 72 72 72 72 72 72 72 72 71 66 65 64 28)

run 0 translate --table stops --trace --json icmp-read.pcap out/sent.pcap
rm out/*
python3 -c '
import json
for packet in json.load(open("stdout", encoding="ascii"))["packets"]:
    icmp = packet["in"].get("icmp")
    line = "next header %d" % packet["in"]["next_header"]
    if icmp:
        line = "ICMPv6 " + icmp.get("name", "type %d" % icmp["type"])
        line += "".join(", %s %d" % (key, icmp[key]) for key in ("code", "pointer") if key in icmp)
    print("%s, %d octets" % (line, packet["in"]["octets"]))
' >lines
mv lines stdout
all_printed <<'END'
ICMPv6 type 0, code 0, 72 octets
ICMPv6 Destination Unreachable, code 0, 72 octets
ICMPv6 Packet Too Big, code 0, 72 octets
ICMPv6 Time Exceeded, code 0, 72 octets
ICMPv6 Parameter Problem, code 0, pointer 1, 72 octets
ICMPv6 type 5, code 0, 72 octets
ICMPv6 type 127, code 0, 72 octets
ICMPv6 Echo Request, code 0, 72 octets
ICMPv6 Echo Reply, code 0, 72 octets
ICMPv6 type 133, code 0, 72 octets
ICMPv6 Redirect, code 0, 72 octets
ICMPv6 type 255, code 0, 72 octets
ICMPv6 Parameter Problem, code 0, pointer 1, 72 octets
ICMPv6 Parameter Problem, code 0, 71 octets
ICMPv6 Parameter Problem, code 0, 66 octets
ICMPv6 Parameter Problem, 65 octets
next header 58, 64 octets
next header 58, 28 octets
END

### a trip: at the stop that refuses, toward the packet's source

run 1 trip --near gate --far stops icmp-passed.pcap
grep -A 1 ' refused, ' stdout >refusals
mv refusals stdout
all_printed <<'END'
  far: refused, 8 bad upper layer (ICMPv6 type 4, code 4, pointer 64)
    ICMPv6 message: IPv6 2001:db8:e::77 > 2001:db8:a0::1, traffic class 0x00, ICMPv6 Parameter Problem, code 4, pointer 64, 132 octets
--
  far: refused, 8 bad upper layer (ICMPv6 type 4, code 4, pointer 64)
    ICMPv6 message: none is due: the upper layer is ICMPv6 of type 2, an error message
--
  near: refused, 6 hop limit exceeded (ICMPv6 type 3, code 0, pointer 0)
    ICMPv6 message: IPv6 2001:db8:f::3 > 2001:db8:a0::1, traffic class 0x00, ICMPv6 Time Exceeded, code 0, 132 octets
END

### an output that is another file of the run: wrong usage, and nothing is changed

state() {
    find . -type f ! -name 'std*' ! -name before -exec sha256sum {} + | sort
}
clash() { # TEXT ARGUMENT...
    local text=$1
    shift
    state >before
    run 2 translate "$@"
    complained "$text"
    [ "$(wc -l <stderr)" -eq 1 ] || fail "more than one message"
    nothing_printed
    state | diff before - >&2 || fail "a file has changed"
}
both='is OUT.pcap too, and can hold only one of the two'
ln -s . same-directory
ln -s out linked-directory
for name in out/one.pcap ./out/one.pcap "$PWD/out/one.pcap" same-directory/out/one.pcap linked-directory/one.pcap; do # not there yet
    clash "kawsarpa: $name: $both" --table stops --icmp "$name" icmp-refused.pcap out/one.pcap
done
clash "kawsarpa: one.pcap: $both" --table stops --icmp one.pcap icmp-refused.pcap ./one.pcap
echo older >out/one.pcap
ln -s one.pcap out/link.pcap
ln out/one.pcap out/hard.pcap
for name in out/one.pcap ./out/one.pcap out/link.pcap out/hard.pcap; do
    clash "kawsarpa: $name: $both" --table stops --icmp "$name" icmp-refused.pcap out/one.pcap
    clash "kawsarpa: $name: is the capture that is read, and would be replaced" --table stops --icmp "$name" out/one.pcap
    clash "kawsarpa: $name: is the table that is read, and would be replaced" --table out/hard.pcap --icmp "$name" icmp-refused.pcap out/x
done
clash "kawsarpa: standard output: $both" --table stops --icmp - icmp-refused.pcap -
mkfifo pipe
exec 9<>pipe # so that nobody waits for a reader
clash "kawsarpa: ./pipe: $both" --table stops --icmp ./pipe icmp-refused.pcap pipe
exec 9>&-
redirected() { # TEXT ARGUMENT...: standard output goes to the file `both'
    local code=0
    # shellcheck disable=SC2094 # one file for both is what is tried
    "$tool" translate --table stops --icmp both icmp-refused.pcap "${@:2}" >both 2>stderr || code=$?
    [ "$code" -eq 2 ] || fail "exit code $code, not 2: ${*:2} >both"
    complained "kawsarpa: both: $1"
    [ ! -s both ] || fail "something was written"
}
redirected "$both" -
redirected "is the file that standard output goes to, and can hold only one of the two" out/sent.pcap
redirected "is the file that standard output goes to, and can hold only one of the two"
rm out/*

# names that end alike are two files, and so is a link that leads nowhere
mkdir out/other
run 0 translate --table stops --icmp out/other/sent.pcap icmp-refused.pcap out/sent.pcap
same out/other/sent.pcap icmp-refused.expected
same out/sent.pcap sent.expected
rm -r out/*
ln -s sent.pcap out/nowhere.pcap
run 0 translate --table stops --icmp out/nowhere.pcap icmp-refused.pcap out/sent.pcap
same out/nowhere.pcap icmp-refused.expected
same out/sent.pcap sent.expected
rm out/*

# wrong usage
run 2 translate --table stops icmp-refused.pcap
complained "--table, IN.pcap, and OUT.pcap or --icmp are needed"
run 2 translate --table stops --icmp out/messages.pcap
run 2 translate --icmp out/messages.pcap icmp-refused.pcap
run 2 translate --table stops icmp-refused.pcap out/sent.pcap --icmp
complained "requires an argument"
nothing_left

### faults: both outputs are there whole, or neither is

failing() { # CODE TEXT ARGUMENT...
    run "$1" translate --table stops "${@:3}"
    complained "$2"
    [ "$(wc -l <stderr)" -eq 1 ] || fail "more than one message"
    nothing_left
}
for option in --json --trace --quiet; do
    failing 3 "/dev/full: No space left on device" $option --icmp /dev/full icmp-many.pcap out/sent.pcap
    failing 3 "/dev/full: No space left on device" $option --icmp out/messages.pcap icmp-many.pcap /dev/full
done
failing 3 "/dev/full: No space left on device" --icmp /dev/full icmp-none.pcap out/sent.pcap # at its end, where the other is whole
failing 3 "/dev/full: No space left on device" --icmp out/messages.pcap icmp-from-nobody.pcap /dev/full
failing 3 "nowhere/messages.pcap: No such file or directory" --icmp nowhere/messages.pcap icmp-many.pcap out/sent.pcap
failing 3 "nowhere/sent.pcap: No such file or directory" --icmp out/messages.pcap icmp-many.pcap nowhere/sent.pcap
mkdir folder
failing 3 "folder: Is a directory" --icmp folder icmp-many.pcap out/sent.pcap
{ cat icmp-from-nobody.pcap; head -c 40 /dev/zero | tr '\0' '\377'; } >damaged.pcap
failing 1 "damaged.pcap: packet 4: " --icmp out/messages.pcap damaged.pcap out/sent.pcap
failing 3 "none.pcap: No such file or directory" --icmp out/messages.pcap none.pcap out/sent.pcap

# files that may not grow so far, as on a full disk, at once and late: there are more messages than packets sent
for blocks in 10 1000; do
    code=0
    (ulimit -f $blocks && exec "$tool" translate -q --table stops --icmp out/messages.pcap icmp-many.pcap out/sent.pcap) 2>stderr || code=$?
    [ "$code" -eq 3 ] || fail "exit code $code, not 3, where files may not grow past $blocks blocks"
    complained "out/messages.pcap: File too large"
    nothing_left
done

# an older file stays as it was
echo "an older capture" >older
for arguments in '--icmp /dev/full icmp-many.pcap out/sent.pcap' '--icmp out/sent.pcap icmp-many.pcap /dev/full'; do
    cp older out/sent.pcap
    # shellcheck disable=SC2086 # several words
    run 3 translate --table stops $arguments
    same out/sent.pcap older
    rm out/sent.pcap
    nothing_left
done

# closed pipes: of the messages, and of the trace
closed() { # ARGUMENT...
    { code=0; "$tool" translate --table stops "$@" 2>complaints || code=$?; echo "$code" >code; } | true
    [ "$(cat code)" -eq 3 ] || fail "exit code $(cat code), not 3, on a closed pipe: $*"
    sed '/^packet /d; /^  /d' complaints >stderr # the trace
    all_complained <<<"kawsarpa: standard output: Broken pipe"
    nothing_left
}
closed --icmp - icmp-many.pcap
closed --icmp - icmp-many.pcap out/sent.pcap
closed --trace --icmp - icmp-many.pcap out/sent.pcap
closed --trace --icmp out/messages.pcap icmp-many.pcap out/sent.pcap

### what the documents show: the yard's packets that are refused

for document in "$top/docs/FIELD-GUIDE.md" "$top/examples/yard/README.md"; do
    sed -n '/^    \$ kawsarpa translate.* --trace --icmp /,/^$/s/^    //p' "$document" >shown
    read -r prompt command arguments <shown || fail "$document shows no ICMPv6 message"
    [ "$prompt $command" = '$ kawsarpa' ] || fail "$document shows another command"
    # shellcheck disable=SC2086 # several words
    run 0 $arguments
    sed 1d shown >expected
    all_printed <expected
done

echo "icmp.sh: all $checks checks hold"
