"""Packets for the readers of sequence numbers: G-PDUs with every combination of E, S and PN, other messages, damaged packets, and such as
tshark has no remark on but the rules refuse."""

import struct
from dataclasses import dataclass
from typing import Callable, Iterator

import wire
from decoded import damaged
from draw import SMALLEST, Draw

REPEATS = 5
FLAGS = range(8)  # of E, S and PN
PADDING = bytes([1, 4]) + bytes(4)  # of an IPv6 options header, behind its first two octets
MF, LATER = 0x2000, 0x0010  # of an IPv4 header: more fragments; the offset 128


@dataclass(frozen=True)
class Packet:
    call: str
    octets: bytes


def extensions(draw: Draw) -> tuple[int, bytes]:
    """A container, another extension, or both: the type of the first, and their octets."""
    container = bytes([draw.bits(1) << 4, draw.bits(6)]) + draw.randbytes(4 * draw.randrange(2))
    other = wire.extension(bytes([draw.bits(7), draw.bits(8)]), 0)  # tshark remarks on the spare bit
    return draw.choice([
        (wire.PDU_SESSION_CONTAINER, wire.extension(container, 0)),
        (wire.PDU_SESSION_CONTAINER, wire.extension(container, wire.PDCP_PDU_NUMBER) + other),
        (wire.PDCP_PDU_NUMBER, other),
    ])


def message(draw: Draw, kind: int, flags: int, inner: bytes) -> bytes:
    following, octets = extensions(draw) if flags & wire.E else (draw.bits(8), b"")
    number = draw.choice([0, 65535, draw.bits(16), draw.bits(16)])
    more = struct.pack("!HBB", number, draw.bits(8), following) if flags else b""
    return wire.message(kind, draw.flow().teid, draw.bits(1) << 3 | flags, more + octets + inner)


def datagram(draw: Draw, source: bytes, destination: bytes, octets: bytes, checked: bool) -> bytes:
    """With a UDP checksum or with 0 in its place, which no reader looks at."""
    port = draw.source_port()
    checksum = wire.udp_checksum(source, destination, wire.udp(port, wire.GTPU_PORT, 0, octets)) if checked else 0
    return wire.udp(port, wire.GTPU_PORT, checksum, octets)


def over_ipv6(draw: Draw, octets: bytes, checked: bool) -> Packet:
    source, destination = draw.ipv6(), draw.ipv6()
    payload = datagram(draw, source, destination, octets, checked)
    return Packet("ipv6", wire.ipv6(draw.bits(8), draw.bits(20), wire.NEXT_UDP, draw.hop_limit(), source, destination, payload))


def over_srh(draw: Draw, octets: bytes, checked: bool) -> Packet:
    source, segments = draw.ipv6(), [draw.ipv6() for _ in range(draw.randrange(1, 4))]
    header = wire.srh(wire.NEXT_UDP, segments, 0, len(segments) - 1, draw.bits(8), draw.bits(16))
    payload = header + datagram(draw, source, segments[0], octets, checked)
    return Packet("ipv6", wire.ipv6(draw.bits(8), draw.bits(20), wire.NEXT_ROUTING, draw.hop_limit(), source, segments[0], payload))


def over_ipv4(draw: Draw, octets: bytes, checked: bool) -> Packet:
    source, destination, ttl = draw.ipv4(), draw.ipv4(), draw.randrange(5, 256)
    payload = datagram(draw, source, destination, octets, checked)
    return Packet("ipv4", wire.ipv4(draw.bits(8), draw.bits(16), bool(draw.bits(1)), ttl, wire.NEXT_UDP, source, destination, payload))


OUTERS: list[Callable[[Draw, bytes, bool], Packet]] = [over_ipv6, over_srh, over_ipv4]


def whole(draw: Draw) -> Iterator[Packet]:
    """G-PDUs around every kind of inner packet and around none; other messages, with S. Over IPv4 some have no UDP checksum."""
    for outer in OUTERS:
        def made(octets: bytes) -> Packet:
            return outer(draw, octets, outer is not over_ipv4 or bool(draw.bits(1)))

        for flags in FLAGS:
            for _ in range(REPEATS):
                inners = [draw.inner(shape, draw.size(1400)).octets for shape in ("IPv4", "IPv6", "Ethernet")]
                for inner in [*inners, b""]:
                    yield made(message(draw, wire.G_PDU, flags, inner))
        for kind in (wire.ECHO_REQUEST, wire.ERROR_INDICATION, wire.END_MARKER):
            yield made(message(draw, kind, wire.S, b""))


def spoiled(draw: Draw) -> Iterator[Packet]:
    """Every bit changed in turn, an octet more and one less. Without a UDP checksum, which would show what is changed behind it."""
    for outer in OUTERS:
        for flags in FLAGS:
            packet = outer(draw, message(draw, wire.G_PDU, flags, draw.inner("IPv4", SMALLEST).octets), False)
            for octets in damaged(packet.octets):
                yield Packet(packet.call, octets)


def behind(packet: bytes, kind: int, header: bytes) -> bytes:
    """An IPv6 packet with UDP in it, and a header before that, given without its first octet."""
    between = bytes([wire.NEXT_UDP]) + header
    return packet[:4] + struct.pack("!HB", len(packet) - 40 + len(between), kind) + packet[7:40] + between + packet[40:]


def header4(packet: bytes, at: int, octets: bytes) -> bytes:
    """An IPv4 packet with other octets in its header, and the checksum of these."""
    changed = packet[:at] + octets + packet[at + len(octets):]
    return changed[:10] + struct.pack("!H", wire.ipv4_checksum(changed)) + changed[12:]


def refused(draw: Draw) -> Iterator[Packet]:
    """A GTP-U header cut within its number, or within the two octets behind it. Then whole ones: behind options and in fragments, of IPv6
    and of IPv4, and with an octet between the end of the datagram and that of the packet."""
    for length in range(4):
        for outer in OUTERS:
            yield outer(draw, wire.message(wire.G_PDU, draw.flow().teid, wire.S, draw.randbytes(length)), True)
    octets = message(draw, wire.G_PDU, wire.S, draw.inner("IPv4", SMALLEST).octets)
    six, four = over_ipv6(draw, octets, True).octets, over_ipv4(draw, octets, True).octets
    yield Packet("ipv6", behind(six, wire.NEXT_HOP_BY_HOP, b"\0" + PADDING))
    yield Packet("ipv6", behind(six, wire.NEXT_DESTINATION_OPTIONS, b"\0" + PADDING))
    yield Packet("ipv6", behind(six, wire.NEXT_FRAGMENT, struct.pack("!BHI", 0, 1, 7)))
    yield Packet("ipv6", behind(six, wire.NEXT_FRAGMENT, struct.pack("!BHI", 0, 0, 7)))
    yield Packet("ipv6", six[:4] + struct.pack("!H", len(six) - 40 + 1) + six[6:] + b"\0")
    yield Packet("ipv4", header4(four[:20] + bytes([1, 1, 1, 0]) + four[20:], 0, struct.pack("!BBH", 0x46, 0, len(four) + 4)))
    yield Packet("ipv4", header4(four, 6, struct.pack("!H", MF)))
    yield Packet("ipv4", header4(four, 6, struct.pack("!H", LATER)))
    yield Packet("ipv4", header4(four + b"\0", 2, struct.pack("!H", len(four) + 1)))
