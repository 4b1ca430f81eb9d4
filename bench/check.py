#!/usr/bin/env python3
"""check.py ROOT: what the check of each crate takes, in seconds and memory, one at a time and from nothing, in a copy of ROOT. That of a
library makes what the crates above it load, too."""
import os
import pathlib
import shutil
import subprocess
import sys
import tempfile
import time


def crates(root):
    """Name and folder of the crates of crates.txt, in dependency order, as it lists them."""
    for line in (root / "crates.txt").read_text().splitlines():
        words = line.partition("#")[0].partition(":")[0].split()
        if words:
            yield words[0], root / "crates" / words[0]


def copy(root, to):
    """A copy whose checks begin with nothing: rt would take the work that an earlier check has kept anywhere on this machine."""
    shutil.copy(root / "crates.txt", to)
    shutil.copytree(root / "crates", to / "crates", ignore=shutil.ignore_patterns("out"))
    for _, crate in crates(to):
        (crate / "out" / "incremental").mkdir(parents=True)
        for name in ("lib.rt", "main.rt"):
            source = crate / "src" / name
            if source.exists():
                source.write_text(f"{source.read_text()}\n// {to}\n")


def check(crate):
    """Seconds, and the KiB that the largest process of the check took."""
    verb = "check" if (crate / "src" / "main.rt").exists() else "lib"
    begin = time.monotonic()
    with subprocess.Popen(["rt", verb], cwd=crate, stdout=subprocess.PIPE, stderr=subprocess.STDOUT) as process:
        said = process.stdout.read()
        _, status, usage = os.wait4(process.pid, 0)
        process.returncode = os.waitstatus_to_exitcode(status)
    if process.returncode != 0:
        sys.stdout.write(said.decode(errors="replace"))
        sys.exit(f"check.py: {crate.name} is not proved")
    return time.monotonic() - begin, usage.ru_maxrss


def main():
    if len(sys.argv) != 2:
        sys.exit("usage: check.py ROOT")
    root = pathlib.Path(sys.argv[1])
    with tempfile.TemporaryDirectory() as folder:
        copy(root, pathlib.Path(folder))
        print(f"{'crate':12}{'seconds':>9}{'MiB':>7}")
        total = 0
        for name, crate in crates(pathlib.Path(folder)):
            seconds, kib = check(crate)
            total += seconds
            print(f"{name:12}{seconds:>9.0f}{kib / 1024:>7.0f}", flush=True)
        print(f"{'all':12}{total:>9.0f}")


if __name__ == "__main__":
    main()
