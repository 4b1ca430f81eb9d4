"""Part 1: tshark decodes what the library sends, for every kind; and the test that this comparison can fail."""

from pathlib import Path
from typing import Iterator

import cases
import judge
import table
from decode import FIELDS, decode
from draw import SMALLEST, Draw
from library import Library

SEED = 1
REPEATS = 5


def send(library: Library, case: cases.Case) -> judge.Sent:
    answer = library.call(case.call, case.packet, case.table)
    if answer.number != 0:
        raise RuntimeError(f"{case.name}: answer {answer.number} to a packet that is to be sent\n  {how(case)}")
    return judge.Sent(case.name, answer.sent, case.pairs, case.tail, how(case))


def how(case: cases.Case) -> str:
    return f"call: {case.call} {case.packet.hex()} {case.table.hex()}"


class Small(Draw):
    def size(self, most: int) -> int:
        return SMALLEST


def samples() -> Iterator[cases.Case]:
    draw = Small(SEED)
    for kind in cases.KINDS:
        for session, shape in cases.SESSIONS:
            for direction in (table.DOWNLINK, table.UPLINK):
                yield kind(draw, session, shape, direction, 2)


def damaged(packet: bytes) -> Iterator[bytes]:
    """The packet with each bit changed in turn, and one octet shorter and longer."""
    for place in range(len(packet)):
        for bit in range(8):
            yield packet[:place] + bytes([packet[place] ^ 1 << bit]) + packet[place + 1:]
    yield packet[:-1]
    yield packet + b"\0"


def self_test(library: Library, work: Path) -> str:
    """No damage goes unnoticed, and each thing that is compared is seen to differ by some damage."""
    spoiled = []
    for case in samples():
        sent = send(library, case)
        spoiled += [judge.Sent(sent.name, packet, sent.pairs, sent.tail, sent.how) for packet in damaged(sent.packet)]
    seen: set[str] = set()
    for sent, shown in zip(spoiled, decode([sent.frame() for sent in spoiled], work), strict=True):
        names = judge.compare(sent, shown)
        if not names:
            raise RuntimeError(f"self-test: a damaged packet of {sent.name} passes for a good one: {sent.packet.hex()}")
        seen.update(names)
    blind = [name for name in FIELDS + [judge.TAIL] if name not in seen]
    if blind:
        raise RuntimeError(f"self-test: no damage makes these differ: {', '.join(blind)}")
    return f"self-test: {len(spoiled)} damaged packets, all noticed; {len(seen)} things compared, each seen to differ"


def run(library: Library, work: Path, count: judge.Count) -> str:
    all_sent = [send(library, case) for case in cases.sweep(SEED, REPEATS)]
    judge.judge(all_sent, work, count)
    return ", ".join(f"{sum(sent.name == name for sent in all_sent)} {name}" for name in dict.fromkeys(sent.name for sent in all_sent))
