"""One call each: a packet and a table drawn for a kind, and what tshark must show of the packet that is sent. In every kind n is the
number of segments that the kind is about."""

from dataclasses import dataclass
from typing import Callable, Iterator

import arriving
import expect
import outgoing
import table
import wire
from draw import Draw

LONGEST = 65535  # that a length field can say


@dataclass(frozen=True)
class Case:
    name: str
    call: str
    packet: bytes
    table: bytes
    pairs: expect.Pairs
    tail: bytes  # octets with which the packet sent must end


# a session type, and what such a session carries
SESSIONS = [
    (table.SESSION_IPV4, "IPv4"),
    (table.SESSION_IPV6, "IPv6"),
    (table.SESSION_IPV4V6, "IPv4"),
    (table.SESSION_IPV4V6, "IPv6"),
    (table.SESSION_ETHERNET, "Ethernet"),
]


def waypoint(draw: Draw, session: int, shape: str, direction: int, n: int) -> Case:
    tlvs = b"" if draw.bits(1) else bytes([4, 6]) + bytes(6) + draw.randbytes(8 * draw.randrange(3))
    inner = draw.inner(shape, draw.size(LONGEST - 8 - 16 * n - len(tlvs)))
    segments, last = [draw.ipv6() for _ in range(n)], n - 1
    left = draw.randrange(1, last + 2)
    # a reduced SRH (RFC 8754, 4.1.1) does not hold the first segment
    destination = segments[left] if left <= last else draw.ipv6()
    tclass, label, hop_limit, source = draw.bits(8), draw.bits(20), draw.randrange(2, 256), draw.ipv6()
    flags, tag = draw.bits(8), draw.bits(16)
    header = wire.srh(inner.next_header, segments, left, last, flags, tag, tlvs)
    packet = wire.ipv6(tclass, label, wire.NEXT_ROUTING, hop_limit, source, destination, header + inner.octets)
    length = len(header) + len(inner.octets)
    pairs = (expect.ipv6(tclass, label, length, wire.NEXT_ROUTING, hop_limit - 1, source, segments[left - 1])
             + expect.srh(inner.next_header, len(header) // 8 - 1, left - 1, last, flags, tag, segments) + inner.pairs)
    entry = table.entry(table.WAYPOINT, destination, draw.randrange(129), draw.hop_limit())
    return Case("waypoint", draw.choice(["ipv6", "waypoint"]), packet, table.table([entry]), pairs, tlvs + inner.octets)


def d_or_di(draw: Draw, session: int, shape: str, direction: int, n: int, behaviour: int) -> Case:
    extra = behaviour == table.DI
    inner = draw.inner(shape, draw.size(LONGEST - 8 - 16 * (n + extra)))
    flow, tclass, hop_limit, source = draw.flow(), draw.bits(8), draw.hop_limit(), draw.ipv6()
    destination, a = draw.ipv6(), draw.randrange(12)
    sids = [draw.ipv6() for _ in range(n)]
    args = flow.args(outgoing.carried(flow, direction))
    path = sids[:-1] + [outgoing.place(sids[-1], a, args)] + [destination] * extra
    allowed = draw.bits(1)  # UDP checksum 0
    entry = table.entry(behaviour, destination, draw.randrange(129), hop_limit, direction, session, 0, source=source, zero_checksum=allowed)
    packet = arriving.over_ipv6(draw, flow, direction, inner, tclass, destination, bool(allowed & draw.bits(1)))
    pairs = outgoing.srv6(tclass, hop_limit, source, path, inner)
    octets = table.table([entry], [], [table.policy(sids, a)])
    return Case("Di" if extra else "D", "ipv6", packet, octets, pairs, inner.octets)


def d(draw: Draw, session: int, shape: str, direction: int, n: int) -> Case:
    return d_or_di(draw, session, shape, direction, n, table.D)


def di(draw: Draw, session: int, shape: str, direction: int, n: int) -> Case:
    return d_or_di(draw, session, shape, direction, n, table.DI)


def d4(draw: Draw, session: int, shape: str, direction: int, n: int) -> Case:
    """n segments: n - 1 waypoints and the SID that the rule builds."""
    inner = draw.inner(shape, draw.size(min(LONGEST - 44, LONGEST - 8 - 16 * n)))
    flow, tos, hop_limit, source, destination = draw.flow(), draw.bits(8), draw.hop_limit(), draw.ipv4(), draw.ipv4()
    sid_prefix, source_prefix = draw.ipv6()[:draw.randrange(8)], draw.ipv6()[:draw.randrange(13)]
    waypoints = [draw.ipv6() for _ in range(n - 1)]
    sid = (sid_prefix + destination + flow.args(outgoing.carried(flow, direction))).ljust(16, b"\0")
    built = (source_prefix + source).ljust(16, b"\0")
    rule = table.rule(destination, draw.randrange(33), hop_limit, direction, session, sid_prefix, source_prefix, waypoints)
    packet = arriving.over_ipv4(draw, flow, direction, inner, tos, source, destination)
    pairs = (outgoing.srv6(tos, hop_limit, built, waypoints + [sid], inner) if waypoints
             else outgoing.without_srh(tos, hop_limit, built, sid, inner))
    return Case("D4", "ipv4", packet, table.table([], [rule]), pairs, inner.octets)


def e6(draw: Draw, session: int, shape: str, direction: int, n: int) -> Case:
    """n segments in the arriving SRH, of which the first of the header is the destination."""
    inner = draw.inner(shape, draw.size(LONGEST - 8 - 16 * n))
    flow, tclass, hop_limit, source = draw.flow(), draw.bits(8), draw.hop_limit(), draw.ipv6()
    source_port, a = draw.source_port(), draw.randrange(12)
    sid = outgoing.place(draw.ipv6(), a, flow.args(flow.reflective, draw.bits(1)))
    segments = [draw.ipv6() for _ in range(n)]
    header = wire.srh(inner.next_header, segments, 1, n - 1, draw.bits(8), draw.bits(16))
    packet = wire.ipv6(tclass, draw.bits(20), wire.NEXT_ROUTING, draw.bits(8), draw.ipv6(), sid, header + inner.octets)
    entry = table.entry(table.E6, sid, draw.randrange(8 * a + 1), hop_limit, direction, session, a=a, source_port=source_port,
                        source=source)
    pairs = outgoing.e6(tclass, hop_limit, source, segments[0], source_port, flow, direction, inner)
    return Case("E6", "ipv6", packet, table.table([entry]), pairs, inner.octets)


def e4(draw: Draw, session: int, shape: str, direction: int, n: int) -> Case:
    """n - 1 segments in the arriving SRH; without any there is no SRH."""
    inner = draw.inner(shape, draw.size(min(LONGEST - 44, LONGEST - 8 - 16 * n)))
    flow, tclass, ttl, source, destination = draw.flow(), draw.bits(8), draw.hop_limit(), draw.ipv4(), draw.ipv4()
    source_port, p, q = draw.source_port(), draw.randrange(8), draw.randrange(13)
    sid = draw.filled(draw.ipv6()[:p] + destination + flow.args(flow.reflective, draw.bits(1)))
    arriving_source = draw.filled(draw.ipv6()[:q] + source)
    payload, next_header = inner.octets, inner.next_header
    if n > 1:
        segments = [draw.ipv6() for _ in range(n - 1)]
        payload = wire.srh(next_header, segments, 0, draw.bits(8), draw.bits(8), draw.bits(16)) + payload
        next_header = wire.NEXT_ROUTING
    packet = wire.ipv6(tclass, draw.bits(20), next_header, draw.bits(8), arriving_source, sid, payload)
    entry = table.entry(table.E4, sid, draw.randrange(8 * p + 1), ttl, direction, session, p=p, q=q, source_port=source_port)
    pairs = outgoing.e4(tclass, ttl, source, destination, source_port, flow, direction, inner)
    return Case("E4", "ipv6", packet, table.table([entry]), pairs, inner.octets)


KINDS: list[Callable[[Draw, int, str, int, int], Case]] = [waypoint, d, di, e6, e4, d4]


def sweep(seed: int, repeats: int) -> Iterator[Case]:
    """Every kind with every session, both directions and n from 1 to 8."""
    draw = Draw(seed)
    for kind in KINDS:
        for n in range(1, 9):
            for session, shape in SESSIONS:
                for direction in (table.DOWNLINK, table.UPLINK):
                    for _ in range(repeats):
                        yield kind(draw, session, shape, direction, n)
