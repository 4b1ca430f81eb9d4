#!/usr/bin/env bash
# run.sh: the Makefile's own promises, in a copy and with an `rt` that proves nothing. `make test` says nothing of the toolchain of
# rt.version; another one it tells at the start and before the last line, and goes on; its last line is that of `rt ci`, and where that
# fails, or tells of bad must-fail edits, it fails. What `make check` does, and that `make test` does it too.
set -eu -o pipefail
export LC_ALL=C

if [ $# -ne 0 ]; then
    echo "usage: run.sh" >&2
    exit 2
fi
top=$(cd "$(dirname "$0")/../.." && pwd)
work=$(mktemp -d)
trap 'rm -rf "$work"' EXIT
checks=0

fail() {
    echo "run.sh: $1" >&2
    [ ! -e "$work/output" ] || cat "$work/output" >&2
    exit 1
}

same() { # CLAIM EXPECTED FOUND
    [ "$2" = "$3" ] || fail "$1: expected '$2', found '$3'"
    checks=$((checks + 1))
}

mkdir -p "$work/top/tests/make" "$work/bin" "$work/none"
cp "$top/Makefile" "$top/rt.version" "$work/top"
cp "$top/tests/make/toolchain.sh" "$work/top/tests/make"
cat >"$work/bin/rt" <<'END'
#!/usr/bin/env bash
case $1 in
version) echo "$RT_VERSION" ;;
ci)
    [ $# -eq 1 ] || exit 2
    echo "crates are proved here"
    [ -z "$RT_OK" ] || echo "rt: ok; handles allowed: none; must-fail edits: $RT_OK; every proof was done in this run"
    echo "$RT_CI"
    [ "$RT_CI" = "7 passed, 0 failed" ]
    ;;
*) exit 2 ;;
esac
END
chmod +x "$work/bin/rt"

# A make of its own: without the options and variables of one that runs this script.
make_copy() { # ARGUMENT...
    env -u MAKEFLAGS -u MFLAGS -u MAKELEVEL make --no-print-directory -C "$work/top" "$@" >"$work/output" 2>&1
}

# `make test` with all parts left out but the toolchain and `ci`.
parts=(test-packages make-test format lint second refusers library programs boundary tool-test install-test)
test_copy() { # VERSION LAST-LINE-OF-CI [WHAT-IT-SAYS-OF-EDITS]
    RT_VERSION=$1 RT_CI=$2 RT_OK=${3-5 refused} PATH=$work/bin:$PATH make_copy test "${parts[@]/#/--old-file=}"
}

told='*** ANOTHER TOOLCHAIN than the one of rt.version'
named=$(cat "$top/rt.version")
passed="7 passed, 0 failed"

### the toolchain of rt.version

test_copy "$named" "$passed" || fail "make test fails"
same "the last line" "$passed" "$(tail -n 1 "$work/output")"
same "another toolchain is told" 0 "$(grep -c 'TOOLCHAIN' "$work/output" || true)"

### another toolchain

test_copy "rattle of tomorrow" "$passed" || fail "make test stops at another toolchain"
same "the last line with another toolchain" "$passed" "$(tail -n 1 "$work/output")"
same "how often another toolchain is told" 2 "$(grep -cF "$told" "$work/output")"
head -n 6 "$work/output" >"$work/first"
tail -n 7 "$work/output" | head -n 6 >"$work/last"
cmp "$work/first" "$work/last" || fail "another toolchain is not told at the start, and right before the last line"
same "what is told" "$told" "$(sed -n 2p "$work/first")"
same "the toolchain of rt.version is named" "***   rt.version: $named" "$(sed -n 3p "$work/first")"
same "the installed toolchain is named" "***   installed:  rattle of tomorrow" "$(sed -n 4p "$work/first")"

### the verdict is that of `rt ci`

! test_copy "rattle of tomorrow" "6 passed, 1 failed" || fail "make test goes on where rt ci fails"
! test_copy "$named" "6 passed, 1 failed" || fail "make test goes on where rt ci fails, with the toolchain of rt.version"
! test_copy "$named" "$passed" "4 refused, 1 bad" || fail "make test goes on where a must-fail edit is bad"
! test_copy "$named" "$passed" "4 refused, 2 of them only by a limit, 1 bad" || fail "make test goes on at bad edits beside limits"
! test_copy "$named" "$passed" "" || fail "make test goes on where rt ci does not say that all is well"
test_copy "$named" "$passed" "5 refused, 2 of them only by a limit" || fail "make test fails where edits are refused by a limit"
checks=$((checks + 6))

### no toolchain at all

for command in bash cat dirname env make tail; do
    ln -s "$(command -v "$command")" "$work/none/$command"
done
! PATH=$work/none make_copy toolchain || fail "no toolchain is taken for one"
same "no toolchain" 1 "$(grep -c '^rt is not installed' "$work/output")"

### the quick tests are a part of the whole

make_copy --dry-run check || fail "make --dry-run check fails"
for command in "cd crates/kawsarpa && rt check" "cd crates/kawsarpa && rt lib" tests/make/run.sh tests/lint.sh tests/c/run.sh \
    tests/c/example.sh tests/c/vectors.sh "cargo test"; do
    grep -qF "$command" "$work/output" || fail "make check does not do: $command"
    checks=$((checks + 1))
done
! grep -qE 'rt ci|rt all|rt must-fail|boundary' "$work/output" || fail "make check is not quick"
grep -E '^(tests/|cd tests/)' "$work/output" | sort >"$work/check"
make_copy --dry-run test --old-file=tool-test --old-file=install-test || fail "make --dry-run test fails"
grep -E '^(tests/|cd tests/)' "$work/output" | sort >"$work/test"
same "make check does what make test does not" "" "$(comm -23 "$work/check" "$work/test")"

echo "run.sh: all $checks checks hold"
