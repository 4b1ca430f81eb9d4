# shellcheck shell=bash
# For captures.sh, bursts.sh, icmp.sh, promise.sh, safety.sh, loss.sh, match.sh, echo.sh, json.sh and forwarder.sh: runs of the tool, their
# first argument, in a work directory, and what is expected of a run.

tool=$(realpath "$1")
work=$(mktemp -d)
trap 'rm -rf "$work"' EXIT
# a sanitizer's report is told from an exit code of the tool
export ASAN_OPTIONS=exitcode=99 UBSAN_OPTIONS=exitcode=99
checks=0

fail() {
    echo "$(basename "$0"): $1" >&2
    [ ! -s "$work/stdout" ] || sed 's/^/  stdout: /' "$work/stdout" >&2
    [ ! -s "$work/stderr" ] || sed 's/^/  stderr: /' "$work/stderr" >&2
    exit 1
}

# Runs the tool and holds the exit code against the one that is expected.
run() { # CODE ARGUMENT...
    local expected=$1 code=0
    shift
    "$tool" "$@" >"$work/stdout" 2>"$work/stderr" || code=$?
    [ "$code" -eq "$expected" ] || fail "exit code $code, not $expected: $*"
    checks=$((checks + 1))
}

# A line of the last run's standard output, or of its errors.
printed() { # TEXT
    grep -qxF -- "$1" "$work/stdout" || fail "not printed: $1"
    checks=$((checks + 1))
}

# All of the last run's standard output, or of its errors, is what stands on standard input.
all_printed() {
    diff - "$work/stdout" >&2 || fail "other words are expected"
    checks=$((checks + 1))
}

all_complained() {
    diff - "$work/stderr" >&2 || fail "other messages are expected"
    checks=$((checks + 1))
}

nothing_printed() {
    [ ! -s "$work/stdout" ] || fail "something is printed"
    checks=$((checks + 1))
}

complained() { # TEXT
    grep -qF -- "$1" "$work/stderr" || fail "no such message: $1"
    checks=$((checks + 1))
}

same() { # FILE FILE
    cmp "$work/$1" "$work/$2" >&2 || fail "$1 and $2 differ"
    checks=$((checks + 1))
}
