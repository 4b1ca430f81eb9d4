#!/usr/bin/env bash
# run.sh LIB [NAME...]: changes the rules of the second program in one place at a time and expects the library's answers to show it.
# run.sh --list: the names.
set -eu -o pipefail

here=$(cd "$(dirname "$0")" && pwd)
second=$here/../second
names=() files=() olds=() news=()

fail() {
    echo "run.sh: $1" >&2
    exit 1
}

# FILE.mutants holds changes of src/FILE.rs: a name, "- " and the text there, "+ " and the text for it.
read_list() { # LIST
    local file line name='' old=''
    file=$(basename "$1" .mutants).rs
    while IFS= read -r line; do
        case $line in
        '') ;;
        '- '*) old=${line#- } ;;
        '+ '*)
            [ -n "$name" ] || fail "changes of $file: no name for: $line"
            [ -n "$old" ] || fail "$name: no old text"
            ! is_named "$name" "${names[@]}" || fail "$name: the name occurs twice"
            names+=("$name") files+=("$file") olds+=("$old") news+=("${line#+ }")
            name='' old=''
            ;;
        *) name=$line ;;
        esac
    done <"$1"
    [ -z "$name$old" ] || fail "changes of $file: not whole: $name $old"
}

is_named() { # NAME NAMES...
    local name=$1 other
    shift
    for other; do
        [ "$name" != "$other" ] || return 0
    done
    return 1
}

for list in "$here"/*.mutants; do
    read_list "$list"
done

case ${1-} in
--list)
    printf '%s\n' "${names[@]}"
    exit
    ;;
'' | -*)
    echo "usage: run.sh LIB [NAME...] | run.sh --list" >&2
    exit 2
    ;;
esac
lib=$1
shift
[ -r "$lib" ] || fail "no such library: $lib"
for name; do
    is_named "$name" "${names[@]}" || fail "no mutant has the name: $name"
done

work=$(mktemp -d)
trap 'rm -rf "$work"' EXIT
# One tree for all builds, so that each compiles just what its change touches.
cp -r "$second/Cargo.toml" "$second/Cargo.lock" "$second/src" "$work"
export CARGO_INCREMENTAL=1 CARGO_TARGET_DIR=$work/target
program=$CARGO_TARGET_DIR/release/second

# An old program must not stand for the new one: cargo has to say that it compiled.
build() {
    rm -f "$program"
    cargo build --color never --release --offline --manifest-path "$work/Cargo.toml" --bin second >"$work/build" 2>&1 &&
        grep -q '^ *Compiling second ' "$work/build"
}

# The old text once in the file and before its tests; the new text in its place.
change() { # FILE OLD NEW
    local text before behind
    text=$(<"$second/src/$1")
    before=${text%%"$2"*}
    behind=${text#*"$2"}
    [ "$before" != "$text" ] || return 1
    [[ $behind != *"$2"* && $before != *'#[cfg(test)]'* ]] || return 1
    printf '%s\n' "$before$3$behind" >"$work/src/$1"
}

build || { cat "$work/build" >&2 && fail "the second program was not built"; }
{
    "$program" vectors --seed 1 --per-kind 2000
    "$program" vectors --seed 5 --per-kind 600 --max-packet 2500
    "$program" vectors --seed 3 --per-kind 400 --max-packet 65600
    "$program" burst-vectors --seed 1 --cases 2500
    "$program" icmp-vectors --seed 1 --cases 6000
    "$program" loss-vectors --seed 1 --cases 2000
    "$program" sequence-vectors --seed 1 --cases 8000
    "$program" match-vectors --seed 1 --cases 6000
} >"$work/lines"
said=$("$program" check <"$work/lines") || fail "the second program disagrees with its own lines"
echo "the second program: $said"
gcc -std=c99 -O2 -Werror -Wall -Wextra -Wpedantic -Wconversion -I "$here/../../include" -o "$work/vectors" "$here/../c/vectors.c" "$lib"
said=$("$work/vectors" <"$work/lines") || fail "the library disagrees before any rule is changed"
echo "the library: $said"

tried=0 caught=0
total=$#
[ $# -gt 0 ] || total=${#names[@]}
for n in "${!names[@]}"; do
    name=${names[n]} file=${files[n]}
    [ $# -eq 0 ] || is_named "$name" "$@" || continue
    tried=$((tried + 1))
    change "$file" "${olds[n]}" "${news[n]}" || fail "$name: the old text does not stand once among the rules of $file"
    build || { cat "$work/build" >&2 && fail "$name: not built"; }
    status=0
    said=$("$program" check <"$work/lines" 2>&1) || status=$?
    case $status:$said in
    1:'second: line '*' lines differ)')
        caught=$((caught + 1))
        verdict="caught   $name: ${said#second: }"
        ;;
    0:*) verdict="SURVIVED $name" ;;
    *) fail "$name: status $status, no difference shown: $said" ;;
    esac
    echo "[$tried/$total] $verdict"
    cp "$second/src/$file" "$work/src/$file"
done
echo "$tried mutants, $caught caught, $((tried - caught)) survived"
[ "$tried" -gt 0 ] && [ "$caught" -eq "$tried" ]
