"""json_told.py TOOL NAMES [ARGUMENT...]: runs the tool with these arguments, and again with --json, and holds one against the other.

Exit codes, messages and what is written are the same. The JSON is one object by Python's strict reader, without null and without a name
that stands twice. From its members json_text.py puts the text together again, and that has to be the text that the tool printed. Arguments
that have no such pair (another command, --quiet, --csv, --help, standard input) are let pass. The names of the members are added to the
file NAMES. With $INPUT in the environment, standard input is that file, and is no hindrance.
"""

import json
import os
import re
import subprocess
import sys
from pathlib import Path
from typing import Any

from json_text import TELL, Members, Percent, expect, fail, replaced, used

VALUED = ["--table", "--icmp", "--near", "--via", "--far", "--output", "-o", "--inner", "-i"]
PASSED = ["--json", "--quiet", "-q", "--csv", "--help", "-?", "-h", "--usage", "--version", "-V"]


def once(pairs: list[tuple[str, Any]]) -> dict[str, Any]:
    for name, value in pairs:
        if not re.fullmatch("[a-z][a-z0-9_]*", name) or value is None:
            fail(f"{name} is {value!r}")
    if len(dict(pairs)) != len(pairs):
        fail(f"a name stands twice: {[name for name, _ in pairs]}")
    return dict(pairs)


def parse(octets: bytes, command: str) -> Members:
    """One object with its newline, in valid UTF-8 without control characters, and its command first."""
    text = octets.decode("utf-8", "strict")
    if not text.startswith("{") or not text.endswith("}\n") or re.search("[\x00-\x09\x0b-\x1f\x7f-\x9f]", text):
        fail("not an object and a newline")
    value = json.loads(text, object_pairs_hook=once, parse_float=Percent, parse_constant=lambda name: fail(name), strict=True)
    if next(iter(value)) != "command":
        fail("the command is not the first member")
    whole = Members(value, "the whole")
    expect(whole.text("command"), command, "command")
    return whole


def read_options(arguments: list[str]) -> dict[str, list[str]]:
    """Values by option; arguments under no name, flags without values."""
    options: dict[str, list[str]] = {"": []}
    rest = iter(arguments)
    for argument in rest:
        name, equals, value = argument.partition("=")
        if argument == "-" or not argument.startswith("-"):
            options[""].append(argument)
        elif name in VALUED:
            options.setdefault({"-o": "--output"}.get(name, name), []).append(value if equals else next(rest, ""))
        else:
            options[argument] = []
    return options


def comparable(options: dict[str, list[str]]) -> bool:
    values = [value for each in options.values() for value in each]
    return not any(option in PASSED for option in options) and ("-" not in values or "INPUT" in os.environ)


def main() -> None:
    tool, names, command, *arguments = sys.argv[1:] + [""] * (4 - len(sys.argv))
    options = read_options(arguments)
    if command not in TELL or not comparable(options):
        return
    written = options[""][1:2] + options.get("--icmp", []) if command == "translate" else options.get("--output", [])

    def run(*more: str) -> tuple[subprocess.CompletedProcess[bytes], bytes]:
        with open(os.environ.get("INPUT", os.devnull), "rb") as standard_input:
            done = subprocess.run([tool, command, *arguments, *more], stdin=standard_input, capture_output=True, check=False)
        files = [Path(name).read_bytes() for name in written if Path(name).is_file()]
        return done, b"".join(files)

    text, text_written = run()
    told, told_written = run("--json")
    expect((told.returncode, told.stderr), (text.returncode, text.stderr), "what is said on standard error")
    expect(told_written, text_written, "what is written")
    if not told.stdout:
        expect(text.stdout, b"", "what is printed as text, and not as JSON")
        return
    members = parse(told.stdout, command)
    with members as m:
        found = TELL[command](m, options, replaced(text.stderr))
    expect(found, replaced(text.stdout), "the text")
    with open(names, "a", encoding="ascii") as file:
        file.write(" ".join(used) + "\n")


if __name__ == "__main__":
    main()
