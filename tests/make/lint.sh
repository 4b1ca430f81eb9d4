#!/usr/bin/env bash
# lint.sh: tests/lint.sh can fail. In a small tree of its own that has no finding, each kind of bad file makes it fail with that finding.
set -eu -o pipefail
export LC_ALL=C

if [ $# -ne 0 ]; then
    echo "usage: lint.sh" >&2
    exit 2
fi
top=$(cd "$(dirname "$0")/../.." && pwd)
work=$(mktemp -d)
trap 'rm -rf "$work"' EXIT
# git and cargo by what stands here alone
unset "${!GIT_@}" CARGO_TARGET_DIR
checks=0

fail() {
    echo "lint.sh: $1" >&2
    [ ! -e "$work/output" ] || cat "$work/output" >&2
    exit 1
}

lint() {
    "$work/top/tests/lint.sh" >"$work/output" 2>&1
}

holds() { # SUBJECT
    lint || fail "$1: there is a finding"
    checks=$((checks + 1))
}

# A file with the text of standard input makes it fail, with a finding in which the words stand; then the file is as it was.
refused() { # FILE WORDS
    local file=$work/top/$1 old=$work/old
    rm -f "$old"
    [ ! -e "$file" ] || cp "$file" "$old"
    cat >"$file"
    ! lint || fail "$1: $2: passes"
    grep -qF -e "$2" "$work/output" || fail "$1: not said: $2"
    rm "$file"
    [ ! -e "$old" ] || mv "$old" "$file"
    checks=$((checks + 1))
}

mkdir -p "$work/top"/{tests,crate/src,bin}
cp "$top/.clang-format" "$work/top"
cp "$top/tests/lint.sh" "$work/top/tests"
printf 'target/\n' >"$work/top/.gitignore"
printf '[package]\nname = "small"\nversion = "0.1.0"\nedition = "2021"\n\n[workspace]\n' >"$work/top/crate/Cargo.toml"
printf 'pub fn two() -> u8 {\n    2\n}\n' >"$work/top/crate/src/lib.rs"
printf 'int two(void);\n' >"$work/top/two.h"

holds "a tree without a repository"
git -c init.defaultBranch=main init --quiet "$work/top"
holds "a repository to which nothing is added"

refused unquoted.sh SC2086 <<'END_OF_FILE'
#!/bin/sh
echo $1
END_OF_FILE
refused bin/unquoted SC2086 <<'END_OF_FILE'
#!/usr/bin/env bash
echo $1
END_OF_FILE
refused two.h clang-format-violations <<'END_OF_FILE'
int two( void );
END_OF_FILE
refused two.c clang-format-violations <<'END_OF_FILE'
int two(void) { return 2; }
END_OF_FILE
refused crate/src/lib.rs 'Diff in' <<'END_OF_FILE'
pub fn two() -> u8 { 2 }
END_OF_FILE
refused crate/src/lib.rs needless_return <<'END_OF_FILE'
pub fn two() -> u8 {
    return 2;
}
END_OF_FILE
refused crate/src/lib.rs 'unused variable' <<'END_OF_FILE'
#[test]
fn two() {
    let unused = 2;
}
END_OF_FILE

# a file of the list that was removed is no finding; a tree without any C is
git -C "$work/top" add .
rm "$work/top/two.h"
printf 'int three(void);\n' >"$work/top/three.h"
holds "a file that was removed"
rm "$work/top/three.h"
! lint || fail "no C file at all passes"
checks=$((checks + 1))

echo "lint.sh: all $checks checks hold"
