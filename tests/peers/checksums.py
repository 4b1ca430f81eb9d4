"""Part 6: UDP checksums over IPv6 (order 2). tshark says of each packet whether its checksum is right, and D and Di take exactly those, and
0 where an entry allows it."""

import struct
from dataclasses import dataclass
from pathlib import Path
from typing import Callable, Iterator

import arriving
import cases
import decode
import echo
import table
import wire
from draw import SMALLEST, Draw
from judge import Count
from library import Library

SEED = 8
REPEATS = 20
BAD, GOOD, ILLEGAL = 0, 1, 4  # tshark's names for the status of a checksum; illegal is 0
SENT, BAD_CHECKSUM = 0, 18  # answers


@dataclass(frozen=True)
class Arriving:
    """A packet with its right checksum, and a table with an entry for it."""
    packet: bytes
    table: bytes


def g_pdu(draw: Draw, behaviour: int, allowed: int) -> Arriving:
    session, shape = draw.choice(cases.SESSIONS)
    direction, destination = draw.bits(1), draw.ipv6()
    packet = arriving.over_ipv6(draw, draw.flow(), direction, draw.inner(shape, draw.randrange(SMALLEST, 1400)), draw.bits(8), destination)
    entry = table.entry(behaviour, destination, draw.randrange(129), draw.hop_limit(), direction, session, 0, zero_checksum=allowed)
    return Arriving(packet, table.table([entry], [], [table.policy([draw.ipv6()], draw.randrange(12))]))


def echo_request(draw: Draw, behaviour: int, allowed: int) -> Arriving:
    drawn = echo.over_ipv6(draw, echo.request(draw, wire.S), behaviour, bool(draw.bits(1)), allowed)
    return Arriving(drawn.packet, drawn.table)


# Octets counted from the UDP header on. Those of the sequence number are examined by nobody, whatever they are.
CHECKSUM, NUMBER = 6, 16


def with_word(packet: bytes, at: int, word: int) -> bytes:
    at += wire.udp_at(packet)
    return packet[:at] + struct.pack("!H", word) + packet[at + 2:]


def flipped(draw: Draw, packet: bytes, first: int, count: int) -> bytes:
    """One bit of some octets of the packet is another."""
    at = first + draw.randrange(count)
    return packet[:at] + bytes([packet[at] ^ 1 << draw.randrange(8)]) + packet[at + 1:]


def computed_zero(packet: bytes) -> bytes:
    """A sequence number with which 0 is computed, so that FFFF is right."""
    empty = with_word(with_word(packet, NUMBER, 0), CHECKSUM, 0)
    word = wire.udp_checksum(packet[8:24], packet[24:40], empty[wire.udp_at(packet):])
    return with_word(with_word(packet, NUMBER, word), CHECKSUM, 0xFFFF)


def words_exchanged(packet: bytes) -> bytes:
    """The last two whole words: the sum stays, and with it the checksum is right."""
    end = len(packet) - (len(packet) - wire.udp_at(packet)) % 2
    return packet[:end - 4] + packet[end - 2:end] + packet[end - 4:end - 2] + packet[end:]


def halves_exchanged(packet: bytes) -> bytes:
    """The two octets of the sequence number."""
    at = wire.udp_at(packet) + NUMBER
    return packet[:at] + packet[at:at + 2][::-1] + packet[at + 2:]


CHANGES: list[Callable[[Draw, bytes], bytes]] = [
    lambda draw, packet: packet,
    lambda draw, packet: with_word(packet, CHECKSUM, 0),
    lambda draw, packet: with_word(packet, CHECKSUM, 0xFFFF),
    lambda draw, packet: with_word(packet, CHECKSUM, draw.bits(16)),
    lambda draw, packet: flipped(draw, packet, wire.udp_at(packet) + CHECKSUM, 2),
    lambda draw, packet: flipped(draw, packet, wire.udp_at(packet) + NUMBER, 3),
    lambda draw, packet: flipped(draw, packet, len(packet) - 1, 1),
    lambda draw, packet: flipped(draw, packet, 8, 16),  # the source address
    lambda draw, packet: flipped(draw, packet, wire.udp_at(packet), 2),  # the source port
    lambda draw, packet: halves_exchanged(packet),
    lambda draw, packet: computed_zero(packet),
    lambda draw, packet: with_word(computed_zero(packet), CHECKSUM, 0),
]
CHANGES_OF_G_PDUS = [*CHANGES, lambda draw, packet: words_exchanged(packet)]  # of an Echo Request these words may be its header


def drawn(draw: Draw) -> Iterator[tuple[Arriving, int]]:
    """A packet with some change, its table, and the mark of the entry."""
    for make, changes in ((g_pdu, CHANGES_OF_G_PDUS), (echo_request, CHANGES)):
        for behaviour in (table.D, table.DI):
            for allowed in (0, 1):
                for change in changes:
                    for _ in range(REPEATS):
                        one = make(draw, behaviour, allowed)
                        yield Arriving(change(draw, one.packet), one.table), allowed


def expected(status: int, allowed: int) -> int:
    return SENT if status == GOOD or (status == ILLEGAL and allowed) else BAD_CHECKSUM


def run(library: Library, work: Path, count: Count) -> str:
    packets = [*drawn(Draw(SEED))]
    shown = decode.decode([decode.frame(one.packet, "ipv6") for one, _ in packets], work, decode.ECHO)
    seen: dict[tuple[int, int], int] = {}
    for (one, allowed), texts in zip(packets, shown, strict=True):
        status = int(texts["udp.checksum.status"].split(",")[0])
        seen[status, allowed] = seen.get((status, allowed), 0) + 1
        answer = library.call("ipv6", one.packet, one.table)
        count.checksums += 1
        if answer.number != expected(status, allowed) or (answer.number != SENT and answer != (answer.number, 0, 0, 0, b"")):
            count.differ(f"difference: UDP checksum of status {status}, mark {allowed}: the library answers {tuple(answer)[:4]}",
                         f"call: ipv6 {one.packet.hex()} {one.table.hex()}")
    if missing := [(status, mark) for status in (BAD, GOOD, ILLEGAL) for mark in (0, 1) if (status, mark) not in seen]:
        raise RuntimeError(f"no packet with this status of its checksum and this mark: {missing}")
    taken = sum(number for (status, mark), number in seen.items() if expected(status, mark) == SENT)
    return f"tshark and the library agree on the UDP checksums of {len(packets)} packets: {taken} taken, {len(packets) - taken} refused"
