"""The yard's capture of packets with sequence numbers (examples/yard): tshark reads the numbers, and they are counted here by order 13. The
counts must be those of the report that the yard's README shows."""

import subprocess
import sys
from pathlib import Path

import decode
import wire
from judge import Count

YARD = Path(__file__).resolve().parents[2] / "examples" / "yard"

Row = list[int]  # first, highest, seen, new, repeated, late, lost


def numbers(capture: Path) -> list[tuple[str, int]]:
    """TEID and sequence number of the G-PDUs with S, in the order of the capture."""
    return [(shown["gtp.teid"], int(shown["gtp.seq_number"], 16)) for shown in decode.read(capture)
            if shown["gtp.message"] == f"0x{wire.G_PDU:02x}" and shown["gtp.flags.s"] == "1"]


def counted(offers: list[tuple[str, int]]) -> dict[str, Row]:
    rows: dict[str, Row] = {}
    for teid, number in offers:
        if teid not in rows:
            rows[teid] = [number, number, 1, 1, 0, 0, 0]
            continue
        first, highest, seen, new, repeated, late, lost = rows[teid]
        distance = (number - highest + 32768) % 65536 - 32768
        if distance > 0:
            highest, new, lost = number, new + 1, lost + distance - 1
        rows[teid] = [first, highest, seen + 1, new, repeated + (distance == 0), late + (distance < 0), lost]
    return rows


def report() -> dict[str, Row]:
    """The rows that the yard's README shows of `kawsarpa loss`, to which tests/tools/loss.sh holds the tool."""
    lines = [line.split() for line in (YARD / "README.md").read_text().split("\n") if line.startswith("    0x")]
    return {teid: [int(word) for word in words] for teid, *words, _ in lines}


def run(work: Path, count: Count) -> str:
    subprocess.run([sys.executable, "-B", str(YARD / "make-capture.py"), str(work)], check=True)
    offers = numbers(work / "numbered.pcap")
    rows, expected = counted(offers), report()
    if rows != expected or not rows:
        count.differences += 1
        print(f"difference: tshark's numbers of numbered.pcap make {rows}, the yard's README shows {expected}")
    return f"{len(offers)} sequence numbers in the yard's capture, which make the {len(rows)} rows of its README"
