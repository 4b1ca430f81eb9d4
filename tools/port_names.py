#!/usr/bin/env python3
"""Respells the repository's own definitions and lemmas, as port.py leaves them, in words of snake case.

usage: tools/port_names.py            at the top, once, behind port.py: rewrites crates/ and the names in backticks of the documents
       tools/port_names.py --map      prints OLD NEW for each name that changes, and rewrites nothing

A definition's hump begins a word: hopLimitRow is hop_limit_row. A dash stays where it joins the names of two definitions, as in
window-length; else it begins a word: given-19 is given_19. What the sources declare keeps its name: fields of structs, functions,
constants. In sources only clauses and ghost imports are read.
"""

import collections
import glob
import os
import re
import sys

WORD = r"[^\s(){}\[\],;.:`\"←↦|]+"
PREFIX = r"^(?P<indent>[ ]*)(?P<words>(?:(?:abbrev|unfoldable|pub|private) )*)(?P<names>" + WORD + r"(?: " + WORD + r")*) :(?= |$)"
SIGNATURE = re.compile(PREFIX)
# words of the kit's lists and numbers that names of lemmas are joined to
# names that would fall together with others
SPECIAL = {"in_order": "in_order_lem", "found-gtp6D": "found_at_gtp6d"}
KIT = "length take drop append set map reverse cons nil zero suc get_or sub add mul cond".split()
# what the humps of these names would spell otherwise
SPELLED = {"Gtp6D": "Gtp6d", "gtp6D": "gtp6d", "Gtp6E": "Gtp6e", "Gtp4D": "Gtp4d", "Gtp4E": "Gtp4e", "FFFF": "Ffff"}


def kit_module(path):
    return not re.match(r"Rattle\.(\w+)", path) or re.match(r"Rattle\.(std|core|io|libc|os)\b", path)


def antt_files():
    found = glob.glob("crates/*/specs/**/*.antt", recursive=True) + glob.glob("crates/*/proofs/**/*.antt", recursive=True)
    return sorted(found)


def source_files():
    return sorted(glob.glob("crates/*/src/**/*.rt", recursive=True))


def clauses(text):
    """The spans of a source's clauses and ghost imports."""
    for match in re.finditer(r"\b(?:ensures|requires)\b[^{\n]*\{|^ghost use [^;]*;", text, re.M):
        end = match.end()
        if match.group().startswith("ghost"):
            yield match.start(), end
            continue
        depth = 1
        while depth:
            depth += {"{": 1, "}": -1}.get(text[end], 0)
            end += 1
        yield match.end(), end


def source_names():
    """Names with a hump in the code of the sources."""
    names = set()
    for path in source_files():
        with open(path, encoding="utf-8") as file:
            text = file.read()
        at = 0
        code = ""
        for start, end in clauses(text):
            code += text[at:start]
            at = max(at, end)
        code = re.sub(r"//.*", "", code + text[at:])
        names.update(re.findall(r"\b[a-z][a-z0-9]*[A-Z]\w*", code))
    return names


def spelled(name):
    for old, new in SPELLED.items():
        name = name.replace(old, new)
    return re.sub(r"(?<=[a-z0-9])(?=[A-Z])|(?<=[A-Z])(?=[A-Z][a-z])", "_", name).lower()


def changes(name):
    return name[0].islower() and re.search(r"[A-Z]|-", name) and not re.search(r"[^\w'₀-₉-]", name)


class Names:
    def __init__(self):
        self.fields = set()
        self.defined = set()
        self.terms = set()
        self.everywhere = set()
        self.bare = {}
        for path in antt_files():
            self.read(path)
        self.source = source_names()
        self.fields -= self.source
        plain = {spelled(n) for n in self.terms if "-" not in n} | set(KIT)
        self.map = {}
        for name in self.defined | self.fields:
            if changes(name):
                parts = [spelled(part) for part in name.split("-")]
                new = parts[0]
                for left, right in zip(parts, parts[1:]):
                    new += ("-" if left in plain and right in plain else "_") + right
                if new != name:
                    self.map[name] = new
        # a lemma that would have a definition's name
        taken = {new for old, new in self.map.items() if "-" not in old} | (self.defined & self.everywhere)
        for name, new in self.map.items():
            if "-" in name and new in taken:
                self.map[name] = new + "_lem"
        self.map.update({old: new for old, new in SPECIAL.items() if old in self.defined})

    def read(self, path):
        with open(path, encoding="utf-8") as file:
            text = file.read()
        self.everywhere.update(re.findall(WORD, text))
        # names that stand by themselves: no module, field or step
        code = re.sub(r"(?m)(^| )-- .*", "", text)
        self.bare[path] = {
            m.group() for m in re.finditer(WORD, code) if "." not in (code[m.start() - 1 : m.start()], code[m.end() : m.end() + 1])
        }
        proof = os.path.basename(path) in ("Proof.antt", "Answers.antt", "Invariants.antt")
        record = None
        for line in text.split("\n"):
            match = SIGNATURE.match(line)
            if re.match(r"(pub )?record ", line):
                record = True
            elif line and not line.startswith((" ", "--")):
                record = None
            if not match or line.lstrip().startswith("--"):
                continue
            names = match.group("names").split(" ")
            if record and match.group("indent"):
                self.fields.update(names)
                continue
            if len(names) > 1:
                continue
            # what a proof file defines outside is named by the goal that it is for
            if proof and re.search(r": (tie|goal)\.|statement", line):
                continue
            self.defined.add(names[0])
            if not proof and ("abbrev" in match.group("words") or "unfoldable" in match.group("words") or "/specs/" in path):
                self.terms.add(names[0])

    def clashes(self):
        """New names that two old ones of the same file would have."""
        found = collections.defaultdict(set)
        for path, words in self.bare.items():
            for word in words:
                new = self.map.get(word)
                if new in words and new not in self.map:
                    found[new].update((word, new, path))
        olds = collections.defaultdict(set)
        for old, new in self.map.items():
            olds[new].add(old)
        for new, names in olds.items():
            if len(names) > 1 or new in self.defined:
                found[new].update(names)
        return found


def imported_from_kit(text):
    names = set()
    for path, words in re.findall(r"^use ([^\s{;]+?)\.\{([^}]*)\}", text, re.M):
        if kit_module(path):
            names.update(re.findall(WORD, words))
    return names


def declared_fields(text):
    """Where the fields of records are declared."""
    found = set()
    at = 0
    record = False
    for line in text.split("\n"):
        if re.match(r"(pub )?record ", line):
            record = True
        elif line and not line.startswith((" ", "--")):
            record = False
        match = SIGNATURE.match(line)
        if record and match and match.group("indent"):
            found.update(range(at + match.start("names"), at + match.end("names")))
        at += len(line) + 1
    return found


def respelled(names, text, kept=frozenset()):
    """A text of antt with its names respelled."""
    out = []
    at = 0
    fields = declared_fields(text)
    for match in re.finditer(WORD, text):
        word = match.group()
        if word not in names.map or word in kept:
            continue
        if match.start() in fields and word not in names.fields:
            continue
        before = text[: match.start()]
        line = before[before.rfind("\n") + 1 :]
        if re.search(r"(^|\s)--(\s|$)", line) and "-" in word:
            continue
        if before.endswith("."):
            owner = re.search(WORD + r"\.$", before)
            module = owner and owner.group()[0].isupper()
            if not module and word not in names.fields:
                continue
            if module and word in names.source and word not in names.defined:
                continue
        elif re.search(r"[{;]\s*$", before) and re.match(r"\s*=\s", text[match.end() :]):
            if word not in names.fields:
                continue
        elif word not in names.defined and word not in names.fields:
            continue
        out.append(text[at : match.start()] + names.map[word])
        at = match.end()
    return "".join(out) + text[at:]


def rewrite(path, new, old):
    if new != old:
        with open(path, "w", encoding="utf-8") as file:
            file.write(new)


def main():
    names = Names()
    clashes = names.clashes()
    if clashes:
        for new, olds in sorted(clashes.items()):
            print("falls together:", new, "<-", *sorted(olds), file=sys.stderr)
    if sys.argv[1:] == ["--map"]:
        for old, new in sorted(names.map.items()):
            print(old, new)
        return
    for path in antt_files():
        with open(path, encoding="utf-8") as file:
            text = file.read()
        rewrite(path, respelled(names, text, imported_from_kit(text)), text)
    for path in source_files():
        with open(path, encoding="utf-8") as file:
            text = file.read()
        new = ""
        at = 0
        for start, end in clauses(text):
            new += text[at:start] + respelled(names, text[start:end])
            at = end
        rewrite(path, new + text[at:], text)
    for path in sorted(glob.glob("*.md") + glob.glob("docs/*.md") + glob.glob("docs/orders/*.md") + glob.glob("tests/*/README.md")):
        with open(path, encoding="utf-8") as file:
            text = file.read()
        new = re.sub(r"`([^`\n]+)`", lambda m: "`" + names.map.get(m.group(1), m.group(1)) + "`", text)
        rewrite(path, new, text)


if __name__ == "__main__":
    main()
