"""Holds what was sent against what was expected, through tshark's eyes."""

from dataclasses import dataclass
from pathlib import Path

import decode
import expect

SHOWN = 5  # differences that are printed
WIDTH = 200  # characters of a field that are printed
TAIL = "the last octets"


@dataclass(frozen=True)
class Sent:
    """A packet that the library sent, and what it must be. How to get it again is told where it differs."""
    name: str
    packet: bytes
    pairs: expect.Pairs
    tail: bytes
    how: str

    def frame(self) -> bytes:
        return decode.frame(self.packet, self.pairs[0][1])


def compare(sent: Sent, shown: dict[str, str]) -> list[str]:
    """The names of all that differs."""
    fields = decode.differences(decode.texts(sent.pairs, shown), shown)
    return fields if sent.packet.endswith(sent.tail) else fields + [TAIL]


def report(sent: Sent, shown: dict[str, str], names: list[str]) -> None:
    expected = decode.texts(sent.pairs, shown)
    print(f"difference: {sent.name}: {', '.join(names)}")
    for name in names:
        if name != TAIL:
            print(f"  {name}: expected '{expected[name][:WIDTH]}', tshark shows '{shown[name][:WIDTH]}'")
    print(f"  sent {sent.packet.hex()}\n  {sent.how}")


@dataclass
class Count:
    packets: int = 0
    fields: int = 0
    waypoints: int = 0
    refusals: int = 0
    readings: int = 0
    echoes: int = 0
    checksums: int = 0
    messages: int = 0
    differences: int = 0

    def differ(self, *lines: str) -> None:
        """Counts a difference, and prints it if it is one of the first."""
        self.differences += 1
        if self.differences <= SHOWN:
            print("\n  ".join(lines))


def judge(all_sent: list[Sent], work: Path, count: Count, view: decode.View = decode.G_PDUS) -> None:
    """Decodes and compares; prints the first differences and counts all."""
    for sent, shown in zip(all_sent, decode.decode([sent.frame() for sent in all_sent], work, view), strict=True):
        names = compare(sent, shown)
        count.packets += 1
        count.fields += len(sent.pairs)
        if names:
            count.differences += 1
            if count.differences <= SHOWN:
                report(sent, shown, names)
