#!/usr/bin/env python3
"""documents.py: no line of a document has over 120 columns, but for what a program printed, in a block of its own, and
none of a source over 140; and what docs/RULES.md and docs/STATEMENTS.md name in backquotes, as one word, stands in a
crate or in the header."""
import pathlib
import re
import subprocess
import sys

ROOT = pathlib.Path(__file__).resolve().parent.parent
COLUMNS = 120
SOURCE_COLUMNS = 140
SOURCES = {".antt", ".c", ".h", ".py", ".rs", ".rt", ".sh"}
NAMING = ("docs/RULES.md", "docs/STATEMENTS.md")
ELSEWHERE = {"memcpy"}  # of the C library

NAME = re.compile(r"`([A-Za-z][\w-]*(?:\.antt)?)`")
WORD = re.compile(r"[A-Za-z_][\w-]*")


def documents():
    places = ("*.md", "bench/*.md", "docs/*.md", "docs/orders/*.md", "examples/*/*.md", "tests/*/*.md")
    return sorted(path for place in places for path in ROOT.glob(place))


def sources():
    """The sources that git lists."""
    listed = subprocess.run(["git", "ls-files", "-z"], cwd=ROOT, check=True, capture_output=True, text=True).stdout
    paths = (ROOT / name for name in listed.split("\0") if name)
    return sorted(path for path in paths if path.suffix in SOURCES or path.name == "Makefile")


def prose(text):
    """The numbered lines outside of blocks that are fenced or indented by four blanks or more."""
    fenced = False
    for number, line in enumerate(text.splitlines(), 1):
        if line.lstrip().startswith("```"):
            fenced = not fenced
        elif not fenced and not line.startswith("    "):
            yield number, line


def there():
    """All words of the crates and the header, and the names of files and crates."""
    words = {path.name for path in ROOT.glob("crates/*")}
    written = [path for part in ("src", "specs", "proofs", "must-fail") for path in ROOT.glob(f"crates/*/{part}/**/*")]
    for path in [*written, ROOT / "include/kawsarpa.h"]:
        if path.suffix in (".antt", ".rt", ".h", ".edit"):
            words |= {path.name, path.stem, *WORD.findall(path.read_text())}
    return words


def main():
    found = documents()
    wrong = []
    for path in found:
        for number, line in prose(path.read_text()):
            if len(line) > COLUMNS:
                wrong.append(f"{path.relative_to(ROOT)}:{number}: {len(line)} columns")
    code = sources()
    for path in code:
        for number, line in enumerate(path.read_text().splitlines(), 1):
            if len(line) > SOURCE_COLUMNS:
                wrong.append(f"{path.relative_to(ROOT)}:{number}: {len(line)} columns")
    words = there() | ELSEWHERE
    named = {(name, word) for name in NAMING for word in NAME.findall((ROOT / name).read_text())}
    wrong += [f"{name}: `{word}` stands in no crate" for name, word in sorted(named) if word not in words]
    for line in wrong:
        print(f"documents.py: {line}", file=sys.stderr)
    if wrong:
        sys.exit(1)
    print(f"docs: {len(found)} documents within {COLUMNS} columns, {len(code)} sources within {SOURCE_COLUMNS}, {len(named)} names")


if __name__ == "__main__":
    main()
