#!/usr/bin/env bash
# echo.sh TOOL: drives the command echo on the loopback, over IPv4 and IPv6, against a responder that answers, is silent, late, repeats
# itself, or errs in one way of many.
set -eu

if [ $# -ne 1 ]; then
    echo "usage: echo.sh TOOL" >&2
    exit 2
fi
here=$(cd "$(dirname "$0")" && pwd)
# shellcheck source=tests/tools/checks.sh
. "$here/checks.sh"
# by its own path: a wrapper that looks for it first takes longer than most runs
python=$(python3 -c 'import sys; print(sys.executable)')
responder=
trap 'stop; rm -rf "$work"' EXIT

# Starts a responder; its port is then in $port.
start() { # ADDRESS BEHAVIOUR...
    local i
    stop
    rm -f "$work/port"
    "$python" -B "$here/responder.py" "$1" "$work/port" "${@:2}" 2>"$work/responder" &
    responder=$!
    for ((i = 0; i < 500; i++)); do
        if [ -e "$work/port" ]; then
            port=$(cat "$work/port")
            return
        fi
        sleep 0.02
    done
    fail "no responder after ten seconds: $*"
}

stop() {
    [ -n "$responder" ] || return 0
    kill "$responder" 2>/dev/null || true
    wait "$responder" 2>/dev/null || true
    responder=
    [ ! -s "$work/responder" ] || fail "$(cat "$work/responder")"
}

# A run with what differs from run to run replaced: times, and the port that the system chose.
told() { # CODE ARGUMENT...
    run "$1" echo --port "$port" "${@:2}"
    settle "$work/stdout"
}
settle() { # FILE
    sed -i -E 's/[0-9]+\.[0-9]{3} ms$/T ms/; s|[0-9.]+/[0-9.]+/T ms$|T/T/T ms|; s/(, from [^ ]* port )[0-9]+$/\1P/' "$1"
}

# A member of the last run's object, by a path of Python's.
member() { # PATH VALUE
    local found
    found=$("$python" -c 'import json, sys; print(eval("json.load(sys.stdin)" + sys.argv[1]))' "$1" <"$work/stdout")
    [ "$found" = "$2" ] || fail "$1 is $found, not $2"
    checks=$((checks + 1))
}

addresses=(127.0.0.1 ::1)
if ! "$python" -c 'import socket; socket.socket(socket.AF_INET6).bind(("::1", 0))' 2>/dev/null; then
    echo "echo.sh: not run over IPv6: the loopback has none"
    addresses=(127.0.0.1)
fi

### a peer that answers

for address in "${addresses[@]}"; do
    start "$address" good
    told 0 -c 3 -i 0.01 "$address"
    all_printed <<END
Echo Requests to $address port $port, from $address port P
Echo Response from $address: sequence number 1, Recovery 0, T ms
Echo Response from $address: sequence number 2, Recovery 0, T ms
Echo Response from $address: sequence number 3, Recovery 0, T ms
--- $address port $port
Echo Requests sent 3, Echo Responses received 3, lost 0 (0.0 %)
time min/avg/max T/T/T ms
END
    all_complained </dev/null
    [ "$address" = ::1 ] || cp "$work/stdout" "$work/example"

    # numbers go on with 0; a source of one's own
    told 0 -c 4 -i 0.01 --first 65534 -I "$address" "$address"
    grep -o 'number [0-9]*' "$work/stdout" | diff - <(printf 'number %s\n' 65534 65535 0 1) >&2 || fail "other sequence numbers"
    free=$("$python" -c 'import socket; s = socket.socket(type=socket.SOCK_DGRAM); s.bind(("", 0)); print(s.getsockname()[1])')
    run 0 echo --port "$port" -c 1 --source-port "$free" "$address"
    printed "Echo Requests to $address port $port, from $address port $free"

    # nobody there
    stop
    told 1 -c 2 -i 0.01 "$address"
    grep -qE "^sequence number 1: port $port is closed \(ICMP(v6 type 1, code 4| type 3, code 3), from $address\)$" "$work/stdout" ||
        fail "a closed port is not told"
    printed "Echo Requests sent 2, Echo Responses received 0, lost 2 (100.0 %)"
    ! grep -q '^no Echo Response' "$work/stdout" || fail "a closed port is told twice"

    # silent
    start "$address" none
    told 1 -c 2 -i 0.01 -W 0.1 "$address"
    all_printed <<END
Echo Requests to $address port $port, from $address port P
no Echo Response to sequence number 1 within 0.1 s
no Echo Response to sequence number 2 within 0.1 s
--- $address port $port
Echo Requests sent 2, Echo Responses received 0, lost 2 (100.0 %)
END
done

### UDP checksum 0 over IPv6 (RFC 8200, 8.1): the kernel drops such an Echo Response, as it would any receiver's

if [ "${addresses[*]: -1}" = ::1 ]; then
    start ::1 zero good
    told 0 -c 2 -i 0.01 -W 0.1 ::1
    all_printed <<END
Echo Requests to ::1 port $port, from ::1 port P
Echo Response from ::1: sequence number 2, Recovery 0, T ms
no Echo Response to sequence number 1 within 0.1 s
--- ::1 port $port
Echo Requests sent 2, Echo Responses received 1, lost 1 (50.0 %)
time min/avg/max T/T/T ms
END
fi

### late, twice, and once more later

start 127.0.0.1 late none
told 1 -c 2 -i 0.5 -W 0.25 127.0.0.1
all_printed <<END
Echo Requests to 127.0.0.1 port $port, from 127.0.0.1 port P
no Echo Response to sequence number 1 within 0.25 s
late Echo Response from 127.0.0.1: sequence number 1, Recovery 0, T ms
no Echo Response to sequence number 2 within 0.25 s
--- 127.0.0.1 port $port
Echo Requests sent 2, Echo Responses received 0, lost 2 (100.0 %), late 1
END
start 127.0.0.1 again twice recovery none
told 0 -c 4 -i 0.05 -W 0.75 127.0.0.1
printed "Echo Response from 127.0.0.1: sequence number 1, Recovery 0, T ms"
printed "duplicate Echo Response from 127.0.0.1: sequence number 1, Recovery 0, T ms"
printed "duplicate Echo Response from 127.0.0.1: sequence number 2, Recovery 0, T ms"
printed "Echo Response from 127.0.0.1: sequence number 3, Recovery 9, T ms"
printed "Echo Requests sent 4, Echo Responses received 3, lost 1 (25.0 %), duplicate 2"

### what the documents show

sed -i -E 's/ port [0-9]+/ port P/' "$work/example"
for document in README.md docs/FIELD-GUIDE.md; do
    sed -n '/^    \$ kawsarpa echo -c 3/,/^$/{/^    \$/d; s/^    //p}' "$here/../../$document" >"$work/shown"
    settle "$work/shown"
    sed -i -E 's/ port [0-9]+/ port P/' "$work/shown"
    diff "$work/shown" "$work/example" >&2 || fail "$document shows another run"
    checks=$((checks + 1))
done

### what is no Echo Response to a request that was sent: told with what is wrong, and not counted

behaviours=(unsent empty short version prime request indication unknown length teid no-s cut cut-element cut-private cut-extension elsewhere
    no-recovery private extension)
start 127.0.0.1 "${behaviours[@]}"
told 0 -c ${#behaviours[@]} -i 0.01 -W 0.5 127.0.0.1
while IFS= read -r line; do
    printed "$line"
done <<'END'
not valid, 14 octets from 127.0.0.1: sequence number 1001 was not sent
not valid, 0 octets from 127.0.0.1: shorter than a GTP-U header, which has 8 octets
not valid, 7 octets from 127.0.0.1: shorter than a GTP-U header, which has 8 octets
not valid, 14 octets from 127.0.0.1: version 2, not 1
not valid, 14 octets from 127.0.0.1: GTP' (PT 0), not GTP-U
not valid, 14 octets from 127.0.0.1: Echo Request (type 1), not an Echo Response (2)
not valid, 14 octets from 127.0.0.1: Error Indication (type 26), not an Echo Response (2)
not valid, 14 octets from 127.0.0.1: GTP-U message type 77, not an Echo Response (2)
not valid, 14 octets from 127.0.0.1: its length field says 7, and 6 octets follow the header
not valid, 14 octets from 127.0.0.1: TEID 0x01020304, not 0
not valid, 14 octets from 127.0.0.1: S is not set, so it has no sequence number
not valid, 10 octets from 127.0.0.1: S is set, but it ends before the sequence number and what belongs to it
not valid, 13 octets from 127.0.0.1: an element of type 14 is cut short
not valid, 18 octets from 127.0.0.1: an element of type 255 is cut short
not valid, 16 octets from 127.0.0.1: an extension is cut short
no Echo Response to sequence number 16 within 0.5 s
Echo Response from 127.0.0.1: sequence number 17, no Recovery, T ms
Echo Response from 127.0.0.1: sequence number 18, Recovery 5, T ms
Echo Response from 127.0.0.1: sequence number 19, Recovery 6, T ms
Echo Requests sent 19, Echo Responses received 3, lost 16 (84.2 %), not valid 15
END

### --json

start 127.0.0.1 good none twice unsent
run 0 echo --json --port "$port" -c 4 -i 0.1 -W 0.5 127.0.0.1
sed -i -E 's/[0-9]+\.[0-9]{3}([,}])/T\1/; s/("source_port": )[0-9]+/\1P/' "$work/stdout"
all_printed <<END
{
  "command": "echo",
  "address": "127.0.0.1",
  "port": $port,
  "source": "127.0.0.1",
  "source_port": P,
  "events": [
    {"event": "response", "sequence_number": 1, "recovery": 0, "ms": T},
    {"event": "response", "sequence_number": 3, "recovery": 0, "ms": T},
    {"event": "duplicate", "sequence_number": 3, "recovery": 0, "ms": T},
    {"event": "not valid", "octets": 14, "reason": "sequence number 1004 was not sent"},
    {"event": "no response", "sequence_number": 2},
    {"event": "no response", "sequence_number": 4}],
  "requests": 4,
  "responses": 2,
  "lost": 2,
  "lost_percent": 50.0000,
  "awaited": 0,
  "late": 0,
  "duplicate": 1,
  "not_valid": 1,
  "min_ms": T,
  "avg_ms": T,
  "max_ms": T,
  "broken_off": false}
END
cp "$work/stdout" "$work/objects"
run 0 echo --json --port "$port" -c 1 127.0.0.1
"$python" -c 'import json, sys
o = json.load(sys.stdin)
assert 0 < o["min_ms"] == o["avg_ms"] == o["max_ms"] == o["events"][0]["ms"] < 1000' <"$work/stdout" || fail "strange times"
stop
run 1 echo --json --port "$port" -c 1 127.0.0.1
member '["events"][0]["reason"]' "port $port is closed"
member '["events"][0]["icmp"]["from"]' 127.0.0.1
cat "$work/stdout" >>"$work/objects"

# the manual page lists every member that was seen, and no other
grep -oE '"[a-z_]+": ' "$work/objects" | tr -d '": ' | sort -u >"$work/seen"
sed -n '/^\.Sh JSON$/,/^\.Sh EX/{/^\.Cm echo :$/,/^\.El$/s/^\.It Ic //p}' "$here/../../man/kawsarpa.1" | tr -d , | tr -s ' ' '\n' |
    sort -u - <(printf '%s\n' command type code) >"$work/listed" # these three stand elsewhere
diff "$work/listed" "$work/seen" >&2 || fail "kawsarpa(1) lists other members than are printed"

### count, interval and timeout

start 127.0.0.1 good
began=$(date +%s%N)
told 0 -q -c 5 -i 0.1 127.0.0.1
nothing_printed
took=$((($(date +%s%N) - began) / 1000000))
if [ "$took" -lt 400 ] || [ "$took" -gt 5000 ]; then
    fail "five requests 0.1 s apart take $took ms"
fi
stop
told 1 -q -c 1 127.0.0.1
nothing_printed
all_complained </dev/null

### signals: the summary, and the exit code as without them. Without --count the run goes on until then

interrupted() { # CODE SIGNAL LINES ARGUMENT...
    local code=0 i
    : >"$work/stdout" # the lines are counted
    env --default-signal "$tool" echo --port "$port" "${@:4}" 127.0.0.1 >"$work/stdout" 2>"$work/stderr" &
    pid=$!
    for ((i = 0; i < 500 && $(wc -l <"$work/stdout") < $3; i++)); do
        sleep 0.02
    done
    kill -s "$2" "$pid"
    wait "$pid" || code=$?
    [ "$code" -eq "$1" ] || fail "exit code $code, not $1, after SIG$2"
    settle "$work/stdout"
    checks=$((checks + 1))
}
start 127.0.0.1 good
for signal in INT TERM; do
    interrupted 0 $signal 4 -i 0.05
    grep -qE '^Echo Requests sent [0-9]+, Echo Responses received [0-9]+, lost 0 \(0\.0 %\)(, still awaited 1)?$' "$work/stdout" ||
        fail "no summary after SIG$signal"
    printed "time min/avg/max T/T/T ms"
done
start 127.0.0.1 none
interrupted 1 INT 1 -W 10
printed "Echo Requests sent 1, Echo Responses received 0, lost 0, still awaited 1"
interrupted 1 INT 6 -W 10 --json
"$python" -c 'import json, sys; o = json.load(sys.stdin); assert o["awaited"] == 1 and not o["broken_off"]' <"$work/stdout" ||
    fail "no object after SIGINT"
start 127.0.0.1 good
env --ignore-signal=INT "$tool" echo --port "$port" -c 5 -i 0.05 127.0.0.1 >"$work/stdout" 2>"$work/stderr" &
pid=$!
sleep 0.1
kill -s INT "$pid"
wait "$pid" || fail "an ignored SIGINT ends the run"
printed "Echo Requests sent 5, Echo Responses received 5, lost 0 (0.0 %)"

### lines come as they are told; a closed pipe and a full disk

{ code=0; timeout 60 "$tool" echo --port "$port" -i 0.05 127.0.0.1 2>"$work/stderr" || code=$?; echo "$code" >"$work/code"; } |
    head -n 2 >"$work/stdout"
[ "$(cat "$work/code")" -eq 3 ] || fail "exit code $(cat "$work/code"), not 3, on a closed pipe"
all_complained <<<"kawsarpa: standard output: Broken pipe"
for option in '' --json; do
    code=0
    # shellcheck disable=SC2086 # an option or none
    timeout 60 "$tool" echo $option --port "$port" 127.0.0.1 >/dev/full 2>"$work/stderr" || code=$?
    [ "$code" -eq 3 ] || fail "exit code $code, not 3, on a full disk"
    all_complained <<<"kawsarpa: standard output: No space left on device"
done

### names, IP versions and what the system refuses

told 0 -c 1 -4 localhost
printed "Echo Requests to localhost (127.0.0.1) port $port, from 127.0.0.1 port P"
refused() { # TEXT ARGUMENT...
    run 3 echo -c 1 "${@:2}"
    complained "$1"
    nothing_printed
}
refused "127.0.0.1: " -6 127.0.0.1
refused "::1: " -4 ::1
refused "255.255.255.255: " 255.255.255.255 # no permission, or no route
refused "source: Cannot assign requested address" -I 192.0.2.1 127.0.0.1
refused "source: Address already in use" --source-port "$port" -I 127.0.0.1 127.0.0.1
refused "127.0.0.1: " -I ::1 127.0.0.1
refused "nonsense: " -I nonsense 127.0.0.1

### usage

misused() { # TEXT ARGUMENT...
    run 2 echo "${@:2}"
    complained "$1"
    nothing_printed
}
misused "an address is needed"
misused "one address is enough: ::1" 127.0.0.1 ::1
misused "--ipv4 and --ipv6 cannot be had together" -4 -6 127.0.0.1
misused "--ipv4 and --ipv6 cannot be had together" -6 -4 127.0.0.1
misused "--json and --quiet cannot be had together" --json -q 127.0.0.1
for bad in 0 -1 x 1.5 '' 1000000000; do
    misused "a count is 1 to 999999999, not $bad" -c "$bad" 127.0.0.1
done
for bad in 0 0.009 3600.1 x 1x -1 1e3 1,5 . 1.2.3 '' inf nan 99999999999999999999; do
    misused "an interval is 0.01 to 3600 seconds, not $bad" -i "$bad" 127.0.0.1
done
misused "a timeout is 0.01 to 600 seconds, not 601" -W 601 127.0.0.1
misused "a timeout is 0.01 to 600 seconds, not 0" -W 0 127.0.0.1
for bad in 0 65536 x; do
    misused "a port is 1 to 65535, not $bad" --port "$bad" 127.0.0.1
    misused "a port is 1 to 65535, not $bad" --source-port "$bad" 127.0.0.1
done
misused "a sequence number is 0 to 65535, not 65536" --first 65536 127.0.0.1
misused "unrecognized option" --nonsense 127.0.0.1
run 0 --help
printed "  echo       send GTP-U Echo Requests to a gateway or its peers, as ping does"
run 0 echo --help
printed "Exit codes: 0 at least one Echo Response was received in time; 1 none was; 2"

stop
echo "echo.sh: all $checks checks hold"
