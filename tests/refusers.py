#!/usr/bin/env python3
"""refusers.py: which law or function refuses each must-fail edit, by the line that `rt ci` and `rt must-fail` print of it:

  rt: must-fail CRATE/EDIT.edit: refused, as it must be: PLACE: ...

PLACE is that of the first thing that the prover says of the edited crate, and its declaration is what is told here: a law
with its file, or the function whose contract, or whose proof, it is. More of what the prover said is not printed, so
neither is whether it found values at which the law or the contract is false. Two marks tell of a refusal that shows less:

  names  a proof file names what the edit took away, and that is all that was refused
  limit  the prover met a limit of its own, and gave no verdict

  refusers.py            prints crate, edit and refuser of every line
  refusers.py --explain  so, and the line's last part
  refusers.py --write    makes the list of docs/MUST-FAIL.md anew from the edits of the crates and these lines; where there
                         is no line, the refuser stays
  refusers.py --listed   compares the edits and slips of that list with those of the crates, without a log
  refusers.py --check    so, and the refusers with the lines; ends with status 1 where they differ, or an edit has none

The lines are read from target/ci.log, where `make ci` leaves what `rt ci` prints, or from the files that --log names.
"""
import argparse
import collections
import pathlib
import re
import sys
import textwrap

ROOT = pathlib.Path(__file__).resolve().parent.parent
LIST = pathlib.Path("docs/MUST-FAIL.md")
LOG = pathlib.Path("target/ci.log")
LIST_BEGINS = "<!-- the edits -->"
CRATE = re.compile(r"## ([a-z0-9_]+)")
ITEM = re.compile(r"- `([a-z0-9_]+)`: (.*?) Refused by (.*)")
COLUMNS = 120

Refuser = collections.namedtuple("Refuser", "cell text")


class Fault(Exception):
    """What the user is told, without a trace."""


# ---- a log

LINE = re.compile(r"rt: must-fail (?P<crate>[a-z0-9_]+)/(?P<edit>[\w.-]+)\.edit: (?P<text>.*)")
REFUSED = re.compile(r"refused, as it must be(?: \(only (?P<only>[^)]*)\))?(?:: (?P<said>.*))?")
SAID = re.compile(r"(?:note: )?(?:\./)?(?P<file>(?:src|specs|proofs)/\S+?):(?P<line>\d+):\d+: (?:\w+: )?(?:`(?P<name>[^`]*)`: )?.*")
MARKS = {"because a proof file names": "names", "by a limit of the prover": "limit"}


def lines_of(logs):
    """What the logs say of each edit, by crate and name; of two lines the later one."""
    found = {}
    for log in logs:
        try:
            text = log.read_text(errors="replace")
        except FileNotFoundError:
            raise Fault(f"no {log}: `make ci` leaves there what `rt ci` prints") from None
        for line in map(LINE.fullmatch, text.splitlines()):
            if line:
                found[line["crate"], line["edit"]] = line["text"]
    if not found:
        raise Fault(f"no line of a must-fail edit in {', '.join(map(str, logs))}")
    return found


# ---- which declaration refuses


def function_at(source, line):
    """The function whose text has this line, or begins behind the attributes at it; after its type."""
    within, fitting = "", ""
    for number, text in enumerate(source.splitlines(), 1):
        begins = re.match(r"impl(?:<[^>]*>)? (\w+)|}", text)
        if begins:
            within = begins[1] or ""
        header = re.match(r'\s*(?:[a-z()"C]+ )*fn (\w+)', text)
        if header:
            fitting = "::".join(filter(None, (within, header[1])))
        if number >= line and fitting and not re.match(r"\s*(?:#|//|$)", text):
            break
    return fitting


def declaration(root, crate, said):
    """The law with its file, or the function, that stands at a place. An edit changes no number of a line."""
    *folders, file = said["file"].split("/")
    if folders[0] == "src":
        module = "/".join([*folders[1:], file.removesuffix(".rt")]).split("/")
        function = function_at((root / "crates" / crate / said["file"]).read_text(), int(said["line"]))
        return "`" + "::".join([part for part in module if part not in ("lib", "main", "mod")] + [function]) + "`"
    if folders[1:]:
        return "`" + "::".join(folders[1:]) + "`"  # the proof of a function
    return f"`{said['name']}` (`{file}`)" if said["name"] else f"`{file}`"


def refuser(root, crate, edit, lines):
    """The declaration that refuses an edit, by its line."""
    if (crate, edit) not in lines:
        raise Fault("no line tells of it")
    refused = REFUSED.fullmatch(lines[crate, edit])
    if not refused:
        raise Fault(lines[crate, edit])
    said = SAID.fullmatch(refused["said"] or "")
    if not said:
        raise Fault(f"its line names no place: {lines[crate, edit]}")
    marks = [mark for words, mark in MARKS.items() if (refused["only"] or "").startswith(words)]
    return Refuser(", ".join([declaration(root, crate, said), *marks]), refused["said"])


# ---- the list


def listed(root):
    """The words before the list, and of each edit in it slip and refuser, by crate and name."""
    before, begins, after = (root / LIST).read_text().partition(f"{LIST_BEGINS}\n")
    if not begins:
        raise Fault(f"{LIST}: no line {LIST_BEGINS}")
    items, crate = {}, None
    for block in re.split(r"\n+(?=- |## )", after.strip()):
        heading = CRATE.fullmatch(block)
        item = ITEM.fullmatch(" ".join(block.split()))
        if heading:
            crate = heading[1]
        elif item and crate and (crate, item[1]) not in items:
            items[crate, item[1]] = (item[2], item[3])
        else:
            raise Fault(f"{LIST}: this is no edit of a crate, or one for the second time: {block}")
    return before + begins, items


def render(items):
    """The list as it stands in the document: under each crate its edits, each with the slip and what refuses it."""
    lines, last = [], None
    for (crate, edit), (slip, cell) in items.items():
        if crate != last:
            lines += ["", f"## {crate}", ""]
        last = crate
        lines += textwrap.wrap(
            f"- `{edit}`: {slip}", COLUMNS, subsequent_indent="  ", break_long_words=False, break_on_hyphens=False
        )
        lines.append(f"  Refused by {cell}")
    return "\n".join(lines) + "\n"


def edits(root):
    """The slip of each edit that a crate has, by crate and name: the first line of its file."""
    files = sorted((file.parent.parent.name, file.stem, file) for file in root.glob("crates/*/must-fail/*.edit"))
    return {(crate, edit): file.read_text().partition("\n")[0] for crate, edit, file in files}


def write(root, logs):
    before, old = listed(root)
    lines = lines_of(logs)
    new, kept = {}, 0
    for (crate, edit), slip in edits(root).items():
        try:
            cell = refuser(root, crate, edit, lines).cell
        except Fault as fault:
            _, cell = old.get((crate, edit), (slip, "-"))
            tell(f"{crate}/{edit}: its refuser stays {cell}: {fault}")
            kept += 1
        new[crate, edit] = (slip, cell)
    changed = sum(old.get(key) != item for key, item in new.items()) + len(old.keys() - new.keys())
    if changed:
        (root / LIST).write_text(before + render(new))
    print(f"refusers: {len(new)} must-fail edits, {changed} of {LIST} changed, {kept} stay for want of a line")


def check_listed(root):
    """Whether the list has the edits of the crates, with their slips, in the form that --write gives it."""
    before, items = listed(root)
    there = edits(root)
    wrong = [f"{crate}/{edit}: not in {LIST}" for crate, edit in there.keys() - items.keys()]
    wrong += [f"{LIST}: {crate}/{edit}: the crate has no such edit" for crate, edit in items.keys() - there.keys()]
    for key in there.keys() & items.keys():
        if there[key] != items[key][0]:
            wrong.append(f"{LIST}: {'/'.join(key)}\n  list: {items[key][0]}\n  edit: {there[key]}")
    if not wrong and (root / LIST).read_text() != before + render(dict(sorted(items.items()))):
        wrong.append(f"{LIST}: not in the order or the layout that `tests/refusers.py --write` gives it")
    if wrong:
        raise Fault("\n".join(sorted(wrong)))
    print(f"refusers: {len(items)} must-fail edits in {LIST}", flush=True)
    return items


def check(root, logs):
    items = check_listed(root)
    lines = lines_of(logs)
    differ = silent = 0
    for (crate, edit), (_, said) in items.items():
        try:
            seen = refuser(root, crate, edit, lines)
        except Fault as fault:
            tell(f"{crate}/{edit}: {fault}")
            silent += 1
            continue
        if seen.cell != said:
            tell(f"{LIST}: {crate}/{edit}\n  list: {said}\n  log:  {seen.cell}\n    {seen.text}")
            differ += 1
    print(f"refusers: {len(items)} must-fail edits, {len(items) - differ - silent} as {LIST} says", flush=True)
    if silent:
        tell(f"refusers.py: {silent} of which no line says what refuses them")
    if differ:
        tell(f"refusers.py: {differ} otherwise; `tests/refusers.py --write` puts what the log shows into the list")
    if differ or silent:
        sys.exit(1)


def show(root, logs, explain):
    lines = lines_of(logs)
    wrong = 0
    for crate, edit in sorted(lines):
        try:
            seen = refuser(root, crate, edit, lines)
        except Fault as fault:
            tell(f"{crate}/{edit}: {fault}")
            wrong += 1
            continue
        print(f"{crate} {edit}: {seen.cell}")
        if explain:
            print(f"    {seen.text}")
    if wrong:
        raise Fault(f"{wrong} of the lines do not tell it")


def tell(words):
    print(words, file=sys.stderr)


def main():
    words, _, rest = __doc__.partition("\n\n")
    parser = argparse.ArgumentParser(
        description=words, epilog=rest, formatter_class=argparse.RawDescriptionHelpFormatter
    )
    mode = parser.add_mutually_exclusive_group()
    mode.add_argument("--explain", action="store_true", help="print what the prover said first, too")
    mode.add_argument("--write", action="store_true", help=f"make the list of {LIST} from edits and lines")
    mode.add_argument("--listed", action="store_true", help=f"compare the list of {LIST} with the edits of the crates")
    mode.add_argument("--check", action="store_true", help="compare it with edits and lines")
    parser.add_argument("--log", type=pathlib.Path, action="append", help=f"what rt has printed, if not {LOG}")
    parser.add_argument("--root", type=pathlib.Path, default=ROOT, help="the repository, if not this script's")
    options = parser.parse_args()
    logs = options.log or [options.root / LOG]
    try:
        if options.listed:
            check_listed(options.root)
        elif options.check:
            check(options.root, logs)
        elif options.write:
            write(options.root, logs)
        else:
            show(options.root, logs, options.explain)
    except (Fault, OSError) as fault:
        sys.exit(f"refusers.py: {fault}")


if __name__ == "__main__":
    main()
