"""Part 7: ICMPv6 messages (order 6). Packets that are refused with 6, 7 or 8, at every kind of entry, and the messages that the library
builds about them: tshark decodes each, and the packet that it quotes. The test that this comparison can fail. What none is due about."""

import struct
from dataclasses import dataclass
from pathlib import Path
from typing import Callable, Iterator, NamedTuple

import cases
import decode
import expect
import judge
import table
import wire
from decoded import damaged
from draw import SMALLEST, Draw, Inner
from library import Library

SEED = 10
DRAWN = 15  # packets of each variety, beside those of LENGTHS
LENGTHS = (wire.QUOTED - 1, wire.QUOTED, wire.QUOTED + 1, 65575)
HOP_LIMIT, SEGMENTS_LEFT, UPPER_LAYER, NONE_DUE = 6, 7, 8, 23  # answers
SEGMENTS_LEFT_AT = 43
UPPERS = ("UDP", "ICMPv6", "IPv4", "IPv6", "Ethernet")
# the next headers that a session takes
TAKEN = {
    table.SESSION_IPV4: (wire.NEXT_IPV4,),
    table.SESSION_IPV6: (wire.NEXT_IPV6,),
    table.SESSION_IPV4V6: (wire.NEXT_IPV4, wire.NEXT_IPV6),
    table.SESSION_ETHERNET: (wire.NEXT_ETHERNET,),
}


class Variety(NamedTuple):
    """A way to be refused. Where there is an SRH of n segments, SL and LE are drawn for it."""
    name: str
    behaviour: int
    number: int
    routing: Callable[[Draw, int], tuple[int, int]] | None


def any_last(left: int) -> Callable[[Draw, int], tuple[int, int]]:
    """LE is not examined."""
    return lambda draw, n: (left, draw.bits(8))


# E6 has no variety without an SRH: that is 5
VARIETIES = [
    Variety("waypoint, hop limit", table.WAYPOINT, HOP_LIMIT, lambda draw, n: (draw.randrange(1, 256), draw.bits(8))),
    Variety("waypoint, SL beyond LE", table.WAYPOINT, SEGMENTS_LEFT, lambda draw, n: (draw.randrange(n + 1, 256), n - 1)),
    Variety("waypoint, LE beyond", table.WAYPOINT, SEGMENTS_LEFT, lambda draw, n: (draw.randrange(1, 256), draw.randrange(n, 256))),
    Variety("waypoint, SL 0", table.WAYPOINT, UPPER_LAYER, any_last(0)),
    Variety("waypoint, no SRH", table.WAYPOINT, UPPER_LAYER, None),
    Variety("D, SL", table.D, SEGMENTS_LEFT, lambda draw, n: (draw.randrange(1, 256), draw.bits(8))),
    Variety("D, SRH", table.D, UPPER_LAYER, any_last(0)),
    Variety("D, no SRH", table.D, UPPER_LAYER, None),
    Variety("Di, SL", table.DI, SEGMENTS_LEFT, lambda draw, n: (draw.randrange(1, 256), draw.bits(8))),
    Variety("Di, SRH", table.DI, UPPER_LAYER, any_last(0)),
    Variety("Di, no SRH", table.DI, UPPER_LAYER, None),
    Variety("E6, SL 0", table.E6, SEGMENTS_LEFT, any_last(0)),
    Variety("E6, SL from 2 on", table.E6, SEGMENTS_LEFT, lambda draw, n: (draw.randrange(2, 256), draw.bits(8))),
    Variety("E6, LE beyond", table.E6, SEGMENTS_LEFT, lambda draw, n: (1, draw.randrange(n, 256))),
    Variety("E6, SRH", table.E6, UPPER_LAYER, lambda draw, n: (1, draw.randrange(n))),
    Variety("E4, SL", table.E4, SEGMENTS_LEFT, lambda draw, n: (draw.randrange(1, 256), draw.bits(8))),
    Variety("E4, SRH", table.E4, UPPER_LAYER, any_last(0)),
    Variety("E4, no SRH", table.E4, UPPER_LAYER, None),
]


@dataclass(frozen=True)
class Refused:
    """A packet, a table, the numbers with which the IPv6 call refuses it, and what tshark must show of the message."""
    name: str
    packet: bytes
    table: bytes
    refusal: tuple[int, int, int, int]
    pairs: expect.Pairs

    def how(self) -> str:
        return f"call: icmp {self.packet.hex()} {self.table.hex()}"


def datagram(draw: Draw, source: bytes, header_destination: bytes, destination: bytes, size: int) -> Inner:
    """To no port of GTP-U's. Its checksum has the last destination; tshark takes the header's in a packet that is quoted, and remarks."""
    octets, pairs = draw.datagram(source, destination, size)
    empty = octets[:6] + bytes(2) + octets[8:]
    due = wire.udp_checksum(source, header_destination, empty)
    if header_destination != destination:
        pairs = [(field, expect.BAD if field == "udp.checksum.status" else text) for field, text in pairs]
        pairs += expect.remark(f"Bad checksum [should be 0x{due:04x}]")
    return Inner(octets, pairs, wire.NEXT_UDP)


def ping(draw: Draw, source: bytes, destination: bytes, size: int) -> Inner:
    """tshark verifies no ICMPv6 checksum of a packet that is quoted."""
    number, identifier, payload = draw.bits(16), draw.bits(16), draw.randbytes(size - 8)
    octets = wire.icmpv6(source, destination, wire.PING, 0, struct.pack("!HH", identifier, number) + payload)
    pairs = expect.icmpv6(wire.PING, 0, int.from_bytes(octets[2:4], "big"), expect.UNVERIFIED)
    pairs += [("icmpv6.echo.identifier", f"0x{identifier:04x}"), ("icmpv6.echo.sequence_number", str(number))]
    return Inner(octets, pairs + expect.data(payload), wire.NEXT_ICMPV6)


def upper(draw: Draw, shape: str, source: bytes, header_destination: bytes, destination: bytes, size: int) -> Inner:
    if size == 0:
        return Inner(b"", [], wire.NEXT_NONE)
    if shape == "UDP":
        return datagram(draw, source, header_destination, destination, size)
    return ping(draw, source, destination, size) if shape == "ICMPv6" else draw.inner(shape, size)


def srh(next_header: int, segments: list[bytes], left: int, last: int, flags: int, tag: int) -> expect.Pairs:
    """tshark shows the segments up to LE, as far as they are quoted. It remarks on SL beyond LE + 1, for which a packet may be refused."""
    shown = segments[:min(last + 1, (wire.QUOTED - 48) // 16)]
    pairs = expect.srh(next_header, 2 * len(segments), left, last, flags, tag, shown)
    if left > last + 1:
        pairs += expect.remark(f"IPv6 Type 4 Routing Header segments left field must not exceed address count ({last + 1})")
    return pairs


def cut(pairs: expect.Pairs, missing: int) -> expect.Pairs:
    """What tshark shows where the end of the payload is not quoted. It does not verify UDP's checksum then."""
    def shortened(field: str, text: str) -> str:
        if field in ("udp.payload", "data.data"):
            return text[:-2 * missing]
        return expect.UNVERIFIED if field == "udp.checksum.status" else text
    return [(field, shortened(field, text)) for field, text in pairs if not text.startswith("Bad checksum")] if missing > 0 else pairs


def pointed(number: int, upper_at: int) -> tuple[int, int, int, int]:
    """The answer: its number, and the type, code and pointer of the message."""
    return {
        HOP_LIMIT: (HOP_LIMIT, wire.TIME_EXCEEDED, 0, 0),
        SEGMENTS_LEFT: (SEGMENTS_LEFT, wire.PARAMETER_PROBLEM, 0, SEGMENTS_LEFT_AT),
        UPPER_LAYER: (UPPER_LAYER, wire.PARAMETER_PROBLEM, 4, upper_at),
    }[number]


def tables(draw: Draw, variety: Variety, address: bytes, next_header: int, hop_limit: int, source: bytes) -> bytes:
    """An entry of this kind for the address, shorter prefixes of it with other hop limits and sources, and other entries."""
    session = draw.choice([kind for kind, taken in TAKEN.items() if variety.number != UPPER_LAYER or next_header not in taken])
    a, p, q = draw.randrange(12), draw.randrange(8), draw.randrange(13)
    bits = draw.randrange({table.E6: 8 * a, table.E4: 8 * p}.get(variety.behaviour, 128) + 1)
    entries = [table.entry(variety.behaviour, address, bits, hop_limit, draw.bits(1), session, 0, a=a, p=p, q=q, source_port=draw.bits(16),
                           source=source)]
    for shorter in draw.sample(range(bits), min(bits, draw.randrange(4))):
        behaviour = draw.choice([table.WAYPOINT, table.D, table.DI])
        entries.append(table.entry(behaviour, address, shorter, draw.hop_limit(), draw.bits(1), draw.choice([*TAKEN]), 0,
                                   source=draw.ipv6()))
    entries += [table.entry(table.WAYPOINT, draw.ipv6(), 128, draw.hop_limit(), source=draw.ipv6()) for _ in range(draw.randrange(3))]
    draw.shuffle(entries)
    return table.table(entries, [], [table.policy([draw.ipv6()], draw.randrange(12))])


def arriving_hop_limit(draw: Draw, variety: Variety) -> int:
    """At a waypoint 6 comes before 7."""
    if variety.number == HOP_LIMIT:
        return draw.bits(1)
    return draw.randrange(2, 256) if variety.behaviour == table.WAYPOINT else draw.bits(8)


def refused(draw: Draw, variety: Variety, length: int, segments: list[bytes], shape: str, tag: int) -> Refused:
    """A packet of so many octets; with no more than its headers, where it has no room for more."""
    source, address, tclass, label = draw.ipv6(), draw.ipv6(), draw.bits(8), draw.bits(20)
    hop_limit, own, arriving, flags = draw.hop_limit(), draw.ipv6(), arriving_hop_limit(draw, variety), draw.bits(8)
    left, last = variety.routing(draw, len(segments)) if variety.routing else (0, 0)
    head = 8 + 16 * len(segments) if variety.routing else 0
    inner = upper(draw, shape, source, address, segments[0] if left else address, max(0, length - 40 - head))
    payload, pairs, next_header = inner.octets, inner.pairs, inner.next_header
    if variety.routing:
        payload = wire.srh(next_header, segments, left, last, flags, tag) + payload
        pairs = srh(next_header, segments, left, last, flags, tag) + pairs
        next_header = wire.NEXT_ROUTING
    packet = wire.ipv6(tclass, label, next_header, arriving, source, address, payload)
    quoted = expect.ipv6(tclass, label, len(payload), next_header, arriving, source, address) + pairs
    refusal = pointed(variety.number, 40 + head)
    message = wire.icmp_error(hop_limit, own, packet, *refusal[1:])
    outer = expect.ipv6(0, 0, len(message) - 40, wire.NEXT_ICMPV6, hop_limit, own, source)
    outer += expect.icmp_error(refusal[1], refusal[2], int.from_bytes(message[42:44], "big"), refusal[3])
    octets = tables(draw, variety, address, inner.next_header, hop_limit, own)
    return Refused(variety.name, packet, octets, refusal, outer + cut(quoted, len(packet) - wire.QUOTED))


def drawn(draw: Draw, variety: Variety, length: int) -> Refused:
    segments = [draw.ipv6() for _ in range(draw.randrange(1, 9))]
    return refused(draw, variety, length, segments, draw.choice(UPPERS), draw.bits(16))


def computed_zero(seed: int) -> Refused:
    """The tag of the SRH is such that the checksum of the message is 0."""
    def with_tag(tag: int) -> Refused:
        draw = Draw(seed)
        return refused(draw, VARIETIES[0], 200, [draw.ipv6()], "IPv6", tag)
    checksum = next(text for field, text in with_tag(0).pairs if field == "icmpv6.checksum")
    return with_tag(int(checksum, 16))


def sweep(draw: Draw) -> Iterator[Refused]:
    """Of each variety a packet of headers alone, those of LENGTHS and drawn ones; SRHs that are not quoted whole; a checksum of 0."""
    for variety in VARIETIES:
        yield refused(draw, variety, 0, [draw.ipv6()], "", draw.bits(16))
        for length in LENGTHS:
            yield drawn(draw, variety, length)
        for _ in range(DRAWN):
            yield drawn(draw, variety, draw.randrange(40 + 136 + SMALLEST, 1500))
        if variety.routing:
            yield refused(draw, variety, 0, [draw.ipv6() for _ in range(draw.randrange(75, 128))], "", draw.bits(16))
    for seed in range(len(LENGTHS)):
        yield computed_zero(seed)


def built(library: Library, case: Refused) -> judge.Sent:
    """The message, of which the last octets are the packet's. The IPv6 call answers as ever."""
    if (answer := library.call("ipv6", case.packet, case.table)) != (*case.refusal, b""):
        raise RuntimeError(f"{case.name}: the IPv6 call answers {tuple(answer)}, not {case.refusal}\n  {case.how()}")
    answer = library.call("icmp", case.packet, case.table)
    if answer[:4] != (0, 0, 0, 0):
        raise RuntimeError(f"{case.name}: answer {tuple(answer)[:4]}, but a message is due\n  {case.how()}")
    return judge.Sent(case.name, answer.sent, case.pairs, case.packet[:wire.QUOTED], case.how())


def run(library: Library, work: Path, count: judge.Count) -> str:
    all_cases = [*sweep(Draw(SEED))]
    judge.judge([built(library, case) for case in all_cases], work, count, decode.ICMP)
    count.messages += len(all_cases)
    numbers = [case.refusal[0] for case in all_cases]
    of_number = ", ".join(f"{numbers.count(number)} about {number}" for number in (HOP_LIMIT, SEGMENTS_LEFT, UPPER_LAYER))
    return f"tshark decodes {len(all_cases)} ICMPv6 messages and what they quote: {of_number}"


def self_test(library: Library, work: Path) -> str:
    """tshark's fields alone show every damage of a message, and each thing that is compared is seen to differ by some damage."""
    spoiled: list[judge.Sent] = []
    compared = {"frame.len", judge.TAIL}
    draw = Draw(SEED)
    for variety in VARIETIES:
        case = refused(draw, variety, 40 + 24 + SMALLEST, [draw.ipv6()], draw.choice(UPPERS), draw.bits(16))
        sent = built(library, case)
        spoiled += [judge.Sent(sent.name, octets, sent.pairs, sent.tail, sent.how) for octets in damaged(sent.packet)]
        compared.update(field for field, _ in sent.pairs)
    seen: set[str] = set()
    for sent, shown in zip(spoiled, decode.decode([sent.frame() for sent in spoiled], work, decode.ICMP), strict=True):
        names = judge.compare(sent, shown)
        if not {*names} - {judge.TAIL}:
            raise RuntimeError(f"self-test: tshark shows a damaged message about {sent.name} as a good one: {sent.packet.hex()}")
        seen.update(names)
    if blind := sorted(compared - seen):
        raise RuntimeError(f"self-test: no damage makes these differ: {', '.join(blind)}")
    return f"self-test: {len(spoiled)} damaged ICMPv6 messages, all noticed; {len(compared)} things compared, each seen to differ"


def with_addresses(packet: bytes, source: bytes, destination: bytes) -> bytes:
    return packet[:8] + source + destination + packet[40:]


def with_error(draw: Draw, packet: bytes) -> bytes:
    """ICMPv6 behind the headers becomes an error message or a Redirect."""
    at = wire.udp_at(packet)
    return packet[:at] + bytes([draw.choice([0, 1, 127, wire.REDIRECT, draw.randrange(128)])]) + packet[at + 1:]


class Undue(NamedTuple):
    """A packet about which none is due, a table, and the number with which the IPv6 call answers."""
    what: str
    packet: bytes
    table: bytes
    number: int


def undue(draw: Draw, library: Library, variety: Variety) -> Iterator[Undue]:
    """Refused as others are of that variety."""
    segments = [draw.ipv6() for _ in range(draw.randrange(1, 9))]
    case = refused(draw, variety, draw.randrange(246, 1500), segments, "ICMPv6", draw.bits(16))
    packet, source, destination, multicast = case.packet, case.packet[8:24], case.packet[24:40], b"\xff" + draw.randbytes(15)
    yield Undue("from a multicast address", with_addresses(packet, multicast, destination), case.table, variety.number)
    yield Undue("from ::", with_addresses(packet, bytes(16), destination), case.table, variety.number)
    octets = tables(draw, variety, multicast, wire.NEXT_ICMPV6, draw.hop_limit(), draw.ipv6())
    yield Undue("to a multicast address", with_addresses(packet, source, multicast), octets, variety.number)
    yield Undue("an error message or a Redirect", with_error(draw, packet), case.table, variety.number)
    message = built(library, case).packet
    entry = table.entry(table.WAYPOINT, message[24:40], draw.randrange(129), draw.hop_limit(), source=draw.ipv6())
    yield Undue("a message that was built", message, table.table([entry]), UPPER_LAYER)


def none_due(library: Library, count: judge.Count) -> str:
    """Held against order 6 alone; so for packets that the IPv6 call sends."""
    draw, before = Draw(SEED), count.differences
    packets = [one for variety in VARIETIES for one in undue(draw, library, variety)]
    packets += [Undue(f"sent by {case.name}", case.packet, case.table, 0) for case in cases.sweep(SEED, 1) if case.call != "ipv4"]
    for what, packet, octets, number in packets:
        answer, message = library.call("ipv6", packet, octets), library.call("icmp", packet, octets)
        if answer.number != number or message != (NONE_DUE, 0, 0, 0, b""):
            count.differ(f"difference: {what}: expected {number} and {NONE_DUE}, the library answers {answer.number} and {message.number}",
                         f"call: icmp {packet.hex()} {octets.hex()}")
    count.refusals += len(packets)
    return f"about {len(packets) - (count.differences - before)} of {len(packets)} packets none is built, as none is due"
