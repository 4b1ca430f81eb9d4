"""Part 5: Echo. Drawn Echo Requests and what the library answers: tshark decodes both and takes each two for a pair. The test that this
comparison can fail. What order 1 refuses, the library refuses."""

import struct
from dataclasses import dataclass
from pathlib import Path
from typing import Callable, Iterator

import decode
import expect
import judge
import table
import wire
from decoded import damaged
from draw import Draw
from library import Library

SEED = 5
REPEATS = 50
SPOILED = 2  # Echo Responses of each kind, for the self-test
TRACEROUTE = range(33435, 33465)  # ports on which tshark remarks
SESSIONS = [table.SESSION_IPV4, table.SESSION_IPV6, table.SESSION_IPV4V6, table.SESSION_ETHERNET]
BAD_MESSAGE, NOT_A_G_PDU, BAD_ECHO = 10, 11, 17  # answers


@dataclass(frozen=True)
class Message:
    """A GTP-U message, what tshark must show of it, and its sequence number."""
    octets: bytes
    pairs: expect.Pairs
    number: int


@dataclass(frozen=True)
class Echo:
    """A message to a gateway, and what tshark must show of the packet and of the one that answers it."""
    name: str
    call: str
    packet: bytes
    table: bytes
    message: Message
    pairs: expect.Pairs
    answer: expect.Pairs

    def how(self) -> str:
        return f"call: {self.call} {self.packet.hex()} {self.table.hex()}"


def extensions(draw: Draw) -> tuple[int, bytes, expect.Pairs]:
    """None, a PDU Session container, a PDCP PDU number, or both: the type of the first, their octets, and what tshark shows."""
    direction, qfi, number = draw.bits(1), draw.bits(6), draw.bits(15)  # tshark remarks on the highest bit of the number
    known = {
        wire.PDU_SESSION_CONTAINER: (bytes([direction << 4, qfi]), expect.container(direction, qfi, 0)),
        wire.PDCP_PDU_NUMBER: (struct.pack("!H", number), [("gtp.ext_hdr.length", "1"), ("gtp.ext_hdr.pdcp_sn", str(number))]),
    }
    kinds = [kind for kind in known if draw.bits(1)]
    octets, pairs = b"", expect.extension_types(kinds)
    for kind, following in zip(kinds, [*kinds[1:], 0]):
        contents, shown = known[kind]
        octets += wire.extension(contents, following)
        pairs += shown
    return (kinds or [0])[0], octets, pairs


def elements(draw: Draw) -> tuple[bytes, expect.Pairs]:
    """None, Recovery, a Private Extension, or both."""
    octets, pairs, restarts, vendor, value = b"", [], draw.bits(8), draw.bits(16), draw.randbytes(draw.randrange(1, 9))
    if draw.bits(1):
        octets, pairs = bytes([wire.RECOVERY, restarts]), expect.recovery(restarts)
    if draw.bits(1):
        octets += struct.pack("!BHH", wire.PRIVATE_EXTENSION, 2 + len(value), vendor) + value
        pairs += [("gtp.ext_id", str(vendor)), ("gtp.ext_val", value.hex())]
    return octets, pairs


def request(draw: Draw, flags: int, teid: int = 0, kind: int = wire.ECHO_REQUEST) -> Message:
    """An Echo Request with these of E, S and PN. The spare bit, and numbers and types whose flags are 0, are drawn."""
    flags |= draw.bits(1) << 3
    number, n_pdu = draw.choice([0, 65535, draw.bits(16), draw.bits(16)]), draw.bits(8)
    following, octets, pairs = extensions(draw) if flags & wire.E else (draw.bits(8), b"", [])
    behind, shown = elements(draw)
    rest = (struct.pack("!HBB", number, n_pdu, following) if flags & 7 else b"") + octets + behind
    pairs = expect.message(kind, teid, flags, len(rest)) + pairs + shown
    if flags & wire.S:
        pairs += expect.number(number)
    if flags & wire.PN:
        pairs += [("gtp.npdu_number", f"0x{n_pdu:02x}")]
    return Message(wire.message(kind, teid, flags, rest), pairs, number)


def port(draw: Draw) -> int:
    """Of whoever sends an Echo Request."""
    drawn = draw.choice([0, wire.GTPU_PORT, draw.bits(16), draw.bits(16)])
    return port(draw) if drawn in TRACEROUTE else drawn


def entry(draw: Draw, behaviour: int, address: bytes, hop_limit: int, zero_checksum: int = 0) -> bytes:
    """A table with such an entry for the address; an Echo Response has nothing of its session, its policy and its source."""
    sids, octets = [draw.ipv6() for _ in range(draw.randrange(1, 9))], draw.randrange(12)
    drawn = table.entry(behaviour, address, draw.randrange(129), hop_limit, draw.bits(1), draw.choice(SESSIONS), 0, source=draw.ipv6(),
                        zero_checksum=zero_checksum)
    return table.table([drawn], [], [table.policy(sids, octets)])


def rule(draw: Draw, address: bytes, ttl: int) -> bytes:
    """A table with a rule for the address."""
    sid_prefix, source_prefix = draw.ipv6()[:draw.randrange(8)], draw.ipv6()[:draw.randrange(13)]
    waypoints = [draw.ipv6() for _ in range(draw.randrange(8))]
    return table.table([], [table.rule(address, draw.randrange(33), ttl, draw.bits(1), draw.choice(SESSIONS), sid_prefix, source_prefix,
                                       waypoints)])


def over_ipv6(draw: Draw, message: Message, behaviour: int, routed: bool, zero_checksum: int = 0) -> Echo:
    """Routed: behind an SRH with SL 0, which is not answered with one. The mark is that of the entry."""
    source, destination, source_port, hop_limit = draw.ipv6(), draw.ipv6(), port(draw), draw.hop_limit()
    tclass, label, arriving, next_header = draw.bits(8), draw.bits(20), draw.bits(8), wire.NEXT_UDP
    checksum = wire.udp_checksum(source, destination, wire.udp(source_port, wire.GTPU_PORT, 0, message.octets))
    payload = wire.udp(source_port, wire.GTPU_PORT, checksum, message.octets)
    pairs = expect.udp(source_port, wire.GTPU_PORT, checksum, expect.GOOD, message.octets) + message.pairs
    if routed:
        segments = [destination, *(draw.ipv6() for _ in range(draw.randrange(3)))]
        last, flags, tag = len(segments) - 1, draw.bits(8), draw.bits(16)
        payload = wire.srh(next_header, segments, 0, last, flags, tag) + payload
        pairs = expect.srh(next_header, 2 * len(segments), 0, last, flags, tag, segments) + pairs
        next_header = wire.NEXT_ROUTING
    pairs = expect.ipv6(tclass, label, len(payload), next_header, arriving, source, destination) + pairs
    octets = wire.echo_response(message.number)
    answering = wire.udp_checksum(destination, source, wire.udp(wire.GTPU_PORT, source_port, 0, octets))
    answer = (expect.ipv6(tclass, 0, 8 + len(octets), wire.NEXT_UDP, hop_limit, destination, source)
              + expect.udp(wire.GTPU_PORT, source_port, answering, expect.GOOD, octets) + expect.echo_response(message.number))
    packet = wire.ipv6(tclass, label, next_header, arriving, source, destination, payload)
    name = ("Di" if behaviour == table.DI else "D") + (" with an SRH" if routed else "")
    return Echo(name, "ipv6", packet, entry(draw, behaviour, destination, hop_limit, zero_checksum), message, pairs, answer)


def over_ipv4(draw: Draw, message: Message, gateway: bytes = b"") -> Echo:
    """To this address, or to one that is drawn."""
    source, destination, source_port, ttl = draw.ipv4(), gateway or draw.ipv4(), port(draw), draw.hop_limit()
    tos, identification, keep, arriving = draw.bits(8), draw.bits(16), bool(draw.bits(1)), draw.bits(8)
    checksum, status = 0, expect.ABSENT
    if draw.bits(1):
        checksum = wire.udp_checksum(source, destination, wire.udp(source_port, wire.GTPU_PORT, 0, message.octets))
        status = expect.GOOD
    payload = wire.udp(source_port, wire.GTPU_PORT, checksum, message.octets)
    packet = wire.ipv4(tos, identification, keep, arriving, wire.NEXT_UDP, source, destination, payload)
    pairs = (expect.ipv4(tos, len(packet), identification, keep, arriving, wire.NEXT_UDP, wire.ipv4_checksum(packet), source, destination)
             + expect.udp(source_port, wire.GTPU_PORT, checksum, status, message.octets) + message.pairs)
    octets = wire.echo_response(message.number)
    # the checksum is a sum over the other fields, so the packet is laid out once for it
    answering = wire.ipv4(tos, 0, True, ttl, wire.NEXT_UDP, destination, source, wire.udp(wire.GTPU_PORT, source_port, 0, octets))
    answer = (expect.ipv4(tos, len(answering), 0, True, ttl, wire.NEXT_UDP, wire.ipv4_checksum(answering), destination, source)
              + expect.udp(wire.GTPU_PORT, source_port, 0, expect.ABSENT, octets) + expect.echo_response(message.number))
    return Echo("D4", "ipv4", packet, rule(draw, destination, ttl), message, pairs, answer)


KINDS: list[Callable[[Draw, Message], Echo]] = [
    lambda draw, message: over_ipv6(draw, message, table.D, False),
    lambda draw, message: over_ipv6(draw, message, table.D, True),
    lambda draw, message: over_ipv6(draw, message, table.DI, False),
    lambda draw, message: over_ipv6(draw, message, table.DI, True),
    over_ipv4,
]


def sweep(draw: Draw, repeats: int) -> Iterator[Echo]:
    """Every kind with S and every combination of E and PN."""
    for kind in KINDS:
        for flags in (wire.S, wire.S | wire.PN, wire.S | wire.E, wire.S | wire.E | wire.PN):
            for _ in range(repeats):
                yield kind(draw, request(draw, flags))


def answered(library: Library, echo: Echo) -> bytes:
    answer = library.call(echo.call, echo.packet, echo.table)
    if answer.number != 0:
        raise RuntimeError(f"{echo.name}: answer {answer.number} to an Echo Request\n  {echo.how()}")
    return answer.sent


def pair(echo: Echo, response: bytes, before: int) -> list[judge.Sent]:
    """An Echo Request and its Echo Response, behind so many frames: tshark must say of each which frame the other is."""
    return [
        judge.Sent(f"{echo.name}, Echo Request", echo.packet, echo.pairs + [("gtp.response_in", str(before + 2))], echo.message.octets,
                   echo.how()),
        judge.Sent(f"{echo.name}, Echo Response", response, echo.answer + [("gtp.response_to", str(before + 1))],
                   wire.echo_response(echo.message.number), echo.how()),
    ]


def run(library: Library, work: Path, count: judge.Count) -> str:
    all_sent: list[judge.Sent] = []
    names: list[str] = []
    for echo in sweep(Draw(SEED), REPEATS):
        all_sent += pair(echo, answered(library, echo), len(all_sent))
        names.append(echo.name)
    judge.judge(all_sent, work, count, decode.ECHO)
    return "tshark pairs Echo Requests and Responses: " + ", ".join(f"{names.count(name)} {name}" for name in dict.fromkeys(names))


def self_test(library: Library, work: Path) -> str:
    """No damage of an Echo Response goes unnoticed, and each thing that is compared is seen to differ by some damage."""
    spoiled: list[judge.Sent] = []
    compared = {"frame.len", judge.TAIL}
    draw = Draw(SEED)
    for echo in [kind(draw, request(draw, wire.S)) for kind in KINDS for _ in range(SPOILED)]:
        for octets in damaged(answered(library, echo)):
            spoiled += pair(echo, octets, len(spoiled))
        compared.update(field for field, _ in spoiled[-1].pairs)
    shown = decode.decode([sent.frame() for sent in spoiled], work, decode.ECHO)
    seen: set[str] = set()
    for sent, texts in zip(spoiled[1::2], shown[1::2], strict=True):
        names = judge.compare(sent, texts)
        if not names:
            raise RuntimeError(f"self-test: a damaged packet of {sent.name} passes for a good one: {sent.packet.hex()}")
        seen.update(names)
    if blind := sorted(compared - seen):
        raise RuntimeError(f"self-test: no damage makes these differ: {', '.join(blind)}")
    return f"self-test: {len(spoiled) // 2} damaged Echo Responses, all noticed; {len(compared)} things compared, each seen to differ"


def refused(draw: Draw) -> Iterator[tuple[str, Message, int]]:
    """Messages that are not answered with an Echo Response, and their numbers."""
    for flags in (0, wire.PN, wire.E, wire.E | wire.PN):
        yield "no S", request(draw, flags), BAD_ECHO
        yield "a TEID", request(draw, flags | wire.S, draw.randrange(1, 1 << 32)), BAD_ECHO
        yield "no S and a TEID", request(draw, flags, draw.randrange(1, 1 << 32)), BAD_ECHO
        yield "an Echo Response", request(draw, flags | wire.S, kind=wire.ECHO_RESPONSE), NOT_A_G_PDU
    yield "no S, eight octets", Message(wire.message(wire.ECHO_REQUEST, 0, 0, b""), [], 0), BAD_ECHO
    for length in range(4):
        yield "cut before its twelfth octet", Message(wire.message(wire.ECHO_REQUEST, 0, wire.S, bytes(length)), [], 0), BAD_MESSAGE


def refusals(library: Library, count: judge.Count) -> str:
    draw, total, before = Draw(SEED), 0, count.differences
    for kind in KINDS:
        for what, message, number in refused(draw):
            echo = kind(draw, message)
            answer = library.call(echo.call, echo.packet, echo.table)
            total += 1
            if answer != (number, 0, 0, 0, b""):
                count.differ(f"difference: {echo.name}, {what}: expected {number}, the library answers {tuple(answer)}", echo.how())
    count.refusals += total
    return f"{total - (count.differences - before)} of {total} Echo messages refused as they must be"
