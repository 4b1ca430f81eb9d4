#!/usr/bin/env bash
# docs.sh: what the documents list is there. The must-fail edits of docs/MUST-FAIL.md are those of the crates, with their first lines; names
# in docs/RULES.md and docs/STATEMENTS.md stand in the crates; every crate of crates.txt is told in docs/ARCHITECTURE.md; links between
# documents lead to files; lines keep to their columns.
# docs.sh refusers: what refuses each of these edits, by what `rt ci` printed, is what docs/MUST-FAIL.md says.
set -eu -o pipefail
export LC_ALL=C
cd "$(dirname "$0")/.."
case ${1-} in
'') ;;
refusers) exec python3 -B tests/refusers.py --check ;;
*)
    echo "usage: docs.sh [refusers]" >&2
    exit 2
    ;;
esac
work=$(mktemp -d)
trap 'rm -rf "$work"' EXIT

python3 -B tests/refusers.py --listed
python3 -B tests/documents.py

sed -n 's/^\([a-z0-9_]*\)\( staticlib\)\{0,1\}:.*/\1/p' crates.txt >"$work/crates"
while read -r crate; do
    if ! grep -q "^- \`$crate\`: " docs/ARCHITECTURE.md; then
        echo "docs.sh: docs/ARCHITECTURE.md does not tell the crate $crate" >&2
        exit 1
    fi
done <"$work/crates"
echo "docs: $(wc -l <"$work/crates") crates"

links=0
for document in README.md CHANGELOG.md CONTRIBUTING.md bench/*.md docs/*.md docs/orders/*.md examples/*/README.md tests/*/README.md; do
    while read -r link; do
        links=$((links + 1))
        if [ ! -e "$(dirname "$document")/$link" ]; then
            echo "docs.sh: $document: no such file: $link" >&2
            exit 1
        fi
    done < <(grep -o '](\([^)#:]*\))' "$document" | sed 's/^](//; s/)$//')
done
echo "docs: $links links"
