#!/usr/bin/env bash
# safety.sh TOOL: files on disk. No output takes the place of an input or of another output, under any name; and a signal that ends the
# tool leaves no temporary file, no part of an output, and an older file as it was.
# shellcheck disable=SC2094 # a file that is read and written is what is tried
set -eu

if [ $# -ne 1 ]; then
    echo "usage: safety.sh TOOL" >&2
    exit 2
fi
here=$(cd "$(dirname "$0")" && pwd)
yard=$here/../../examples/yard
# shellcheck source=tests/tools/checks.sh
. "$here/checks.sh"

mkdir "$work/site" "$work/out"
cd "$work/site"
for name in office gate mast crane; do
    cp "$yard/$name.yaml" .
    run 0 compile $name.yaml -o $name
done
python3 -B "$here/captures.py" "$work"
python3 "$yard/make-capture.py" .
there=(--near office --via gate --via mast)

# Every file of a directory: its name, inode, mode, size, links and contents.
state() { # DIRECTORY
    find "$1" -printf '%p %i %m %s %n %l\n' | sort
    find "$1" -type f -exec sha256sum {} + | sort
}

remember() { # DIRECTORY
    state "$1" >"$work/state"
}

as_before() { # DIRECTORY
    state "$1" | diff "$work/state" - >&2 || fail "something has changed on the disk"
    checks=$((checks + 1))
}

### an output that is an input: wrong usage, and nothing is changed

clash() { # TEXT ARGUMENT...
    local text=$1
    shift
    remember .
    run 2 "$@"
    complained "$text"
    [ "$(wc -l <"$work/stderr")" -eq 1 ] || fail "more than one message"
    nothing_printed
    as_before .
}

# Other names of a file: a longer path, by an absolute one, a symbolic link, one to that, a hard link, and below a linked directory.
ln -s . same-directory
spellings() { # FILE
    ln -sf "$1" "$1.link"
    ln -sf "$1.link" "$1.link-to-link"
    ln -f "$1" "$1.hard"
    echo "$1 ./$1 ../site/$1 $PWD/$1 $1.link $1.link-to-link $1.hard same-directory/$1"
}

for out in $(spellings office); do
    clash "kawsarpa: $out: is the table that is read, and would be replaced" translate --table office downlink.pcap "$out"
    clash "kawsarpa: $out: is the near table that is read, and would be replaced" trip "${there[@]}" --far crane downlink.pcap -o "$out"
    clash "kawsarpa: $out: is the table that is read, and would be replaced" translate --table office.hard downlink.pcap "$out"
    clash "kawsarpa: $out: is the table that is read, and would be replaced" translate --table office --icmp "$out" downlink.pcap
done
for out in $(spellings crane); do
    clash "kawsarpa: $out: is the far table that is read, and would be replaced" trip "${there[@]}" --far crane downlink.pcap -o "$out"
done
for out in $(spellings gate) $(spellings mast); do
    clash "kawsarpa: $out: is the table of a waypoint that is read, and would be replaced" \
        trip "${there[@]}" --far crane downlink.pcap -o "$out"
done
for out in $(spellings downlink.pcap); do
    clash "kawsarpa: $out: is the capture that is read, and would be replaced" translate --table office downlink.pcap "$out"
    clash "kawsarpa: $out: is the capture that is read, and would be replaced" trip "${there[@]}" --far crane downlink.pcap -o "$out"
done
for out in $(spellings office.yaml); do
    clash "kawsarpa: $out: is the description that is read, and would be replaced" compile office.yaml -o "$out"
done

# before anything is read: the other inputs need not be there
clash "office: is the table that is read" translate --table office none.pcap office
clash "crane: is the far table that is read" trip --near none --far crane none.pcap -o crane

# standard input that comes from the file
clash "office: is the table that is read" translate --table - downlink.pcap office <office
clash "downlink.pcap: is the capture that is read" translate --table office - downlink.pcap <downlink.pcap
clash "crane: is the far table that is read" trip "${there[@]}" --far - downlink.pcap -o crane <crane
clash "office.yaml: is the description that is read" compile - -o office.yaml <office.yaml
clash "office: is the table that is read" translate --table /dev/stdin downlink.pcap office <office

# standard output that goes to the end of the file
appended() { # FILE ARGUMENT...
    local file=$1 code=0
    shift
    remember .
    "$tool" "$@" >>"$file" 2>"$work/stderr" || code=$?
    [ "$code" -eq 2 ] || fail "exit code $code, not 2: $* >>$file"
    complained "kawsarpa: standard output: is the "
    as_before .
}
appended office translate --table office downlink.pcap -
appended crane trip "${there[@]}" --far crane downlink.pcap -o -
appended office.yaml compile office.yaml -o -

### what is no clash: a copy, an older output, standard streams, pipes

cp office copy
run 0 translate --table office downlink.pcap copy
cmp copy "$work/sent.expected" >&2 || fail "the copy did not get what was sent"
run 0 translate --table office downlink.pcap copy
run 0 translate --table <(cat office) <(cat downlink.pcap) "$work/out/sent.pcap"
same out/sent.pcap sent.expected
"$tool" translate --table - downlink.pcap - <office 2>"$work/stderr" | cmp - "$work/sent.expected" >&2 || fail "from - to -"
"$tool" compile - -o - <office.yaml | cmp - office >&2 || fail "a description from - to -"
rm "$work/out/sent.pcap" copy

### two outputs in one file: the capture, and what is printed beside it

mixed() { # NAME ARGUMENT...: standard output goes to the file `both'
    local name=$1 code=0
    shift
    "$tool" "$@" >both 2>"$work/stderr" || code=$?
    [ "$code" -eq 2 ] || fail "exit code $code, not 2: $* >both"
    complained "kawsarpa: $name: is the file that standard output goes to, and can hold only one of the two"
    [ ! -s both ] || fail "something was written"
}
: >both
ln both both.hard
ln -s both both.link
for out in both both.hard both.link /dev/stdout; do
    mixed $out translate --table office downlink.pcap $out
    mixed $out trip "${there[@]}" --far crane downlink.pcap -o $out
done
for arguments in "translate --table office downlink.pcap -" "trip ${there[*]} --far crane downlink.pcap -o -"; do
    code=0
    # shellcheck disable=SC2086 # several words
    "$tool" $arguments >both 2>&1 || code=$?
    [ "$code" -eq 2 ] || fail "exit code $code, not 2: $arguments >both 2>&1"
    grep -qxF "kawsarpa: standard output: is the file that standard error goes to, and can hold only one of the two" both ||
        fail "two streams in one file, not said: $arguments"
    [ "$(wc -l <both)" -eq 1 ] || fail "something else was written"
    checks=$((checks + 1))
done
"$tool" translate --table office downlink.pcap - 2>&1 | grep -qa '^ *3   0 sent$' || fail "two streams in one pipe are refused"
"$tool" compile office.yaml -o both >both || fail "compile prints nothing, and has one output"
cmp both office >&2 || fail "the table is another"

### signals: a capture that comes slowly, and stops in the middle of a packet

mkfifo slow

# Starts the tool on the first octets of a capture and waits for its temporary file, or for as many as $files says. Signals have their
# default action, unless one is named.
start() { # OPTION ARGUMENT...
    local option=$1 i
    shift
    exec 9<>slow
    env "$option" "$tool" "$@" >"$work/stdout" 2>"$work/stderr" 9>&- &
    pid=$!
    head -c 300 downlink.pcap >&9
    for ((i = 0; i < 500; i++)); do
        temporary=$(find "$work/out" -name '*.pcap.??????')
        [ "$(wc -w <<<"$temporary")" -lt "${files-1}" ] || return 0
        sleep 0.02
    done
    fail "no temporary file after ten seconds: $*"
}

ended_by() { # SIGNAL
    local code=0
    kill -s "$1" "$pid"
    exec 9>&- # the end of the capture: a tool that the signal did not end is not waited for in vain
    wait "$pid" 2>/dev/null || code=$?
    [ "$code" -eq $((128 + $(kill -l "$1"))) ] || fail "exit code $code, not that of SIG$1"
    as_before "$work/out"
}

echo "an older file" >"$work/old"
for signal in INT TERM HUP QUIT; do
    for older in no yes; do
        rm -f "$work/out/sent.pcap"
        [ $older = no ] || cp "$work/old" "$work/out/sent.pcap"
        remember "$work/out"
        start --default-signal translate --table office slow "$work/out/sent.pcap"
        ended_by $signal
        start --default-signal trip "${there[@]}" --far crane slow -o "$work/out/sent.pcap"
        ended_by $signal
        files=2 start --default-signal translate --table office --icmp "$work/out/messages.pcap" slow "$work/out/sent.pcap"
        ended_by $signal
    done
done

# behind a link the older file is elsewhere, and the temporary one beside it
mkdir "$work/out/elsewhere"
mv "$work/out/sent.pcap" "$work/out/elsewhere/sent.pcap"
ln -s elsewhere/sent.pcap "$work/out/sent.pcap"
remember "$work/out"
start --default-signal translate --table office slow "$work/out/sent.pcap"
[ "$(dirname "$temporary")" = "$work/out/elsewhere" ] || fail "the temporary file is not beside the older one: $temporary"
ended_by TERM
rm -r "$work/out/elsewhere" "$work/out/sent.pcap"

# a signal that is ignored from the start, as by nohup, stays so: the run goes on to its end
for signal in HUP INT; do
    start --ignore-signal=$signal translate --table office slow "$work/out/sent.pcap"
    kill -s $signal "$pid"
    tail -c +301 downlink.pcap >&9
    exec 9>&-
    wait "$pid" || fail "an ignored SIG$signal ends the tool"
    same out/sent.pcap sent.expected
    rm "$work/out/sent.pcap"
done

# at any moment: the output is there whole, or nothing is
at_any_moment() { # OPTION...
    local i
    for ((i = 0; i < 25; i++)); do
        env --default-signal "$tool" translate --table office "$@" downlink.pcap "$work/out/sent.pcap" >"$work/stdout" 2>"$work/stderr" &
        pid=$!
        until [ "/proc/$pid/exe" -ef "$tool" ] || ! kill -0 "$pid" 2>/dev/null; do # before that it is a shell, with the trap of this one
            :
        done
        sleep "0.0$((i * 2 / 10))$((i * 2 % 10))"
        kill -s TERM "$pid" 2>/dev/null || true
        wait "$pid" 2>/dev/null || true
        [ ! -e "$work/out/sent.pcap" ] || cmp "$work/out/sent.pcap" "$work/sent.expected" >&2 || fail "a part of the output is left"
        [ ! -e "$work/out/messages.pcap" ] || cmp "$work/out/messages.pcap" "$work/none.expected" >&2 ||
            fail "a part of the messages is left"
        rm -f "$work/out/sent.pcap" "$work/out/messages.pcap"
        [ -z "$(find "$work/out" -mindepth 1)" ] || fail "left behind: $(ls "$work/out")"
        checks=$((checks + 1))
    done
}
at_any_moment
at_any_moment --icmp "$work/out/messages.pcap"

# a file that may not grow so far: as a full disk
remember "$work/out"
code=0
(ulimit -f 100 && exec "$tool" translate --table office "$work/many.pcap" "$work/out/sent.pcap") >"$work/stdout" 2>"$work/stderr" || code=$?
[ "$code" -eq 3 ] || fail "exit code $code, not 3, where files may not grow"
complained "sent.pcap: File too large"
as_before "$work/out"

# and one that may not grow at all, which is found when it is closed; what is said goes through a pipe
for arguments in "compile office.yaml -o $work/out/table" "trip ${there[*]} --far crane downlink.pcap -o $work/out/sent.pcap" \
    "translate --table office --icmp $work/out/messages.pcap downlink.pcap $work/out/sent.pcap"; do
    # shellcheck disable=SC2086 # several words
    (ulimit -f 0 && exec "$tool" $arguments) 2>&1 >/dev/null | cat >"$work/stderr"
    [ "${PIPESTATUS[0]}" -eq 3 ] || fail "not exit code 3 where files may not grow at all: $arguments"
    complained "File too large"
    as_before "$work/out"
done

echo "safety.sh: all $checks checks hold"
