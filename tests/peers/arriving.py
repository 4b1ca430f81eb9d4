"""G-PDUs as they arrive at D, Di and D4, with everything in them that the gateway does not carry: flow label, hop limit, UDP checksum (over
IPv6 the right one, or 0 where that is allowed), sequence and N-PDU numbers, the spare bits, further units of the container, a spent SRH."""

import wire
from draw import Draw, Flow, Inner


def datagram(draw: Draw, flow: Flow, direction: int, inner: Inner, bare: bool, checksum: int) -> bytes:
    further = b"" if bare else draw.randbytes(4 * draw.randrange(3))
    container = bytes([direction << 4 | draw.bits(4), draw.bits(1) << 7 | flow.reflective << 6 | flow.qfi]) + further
    spare, s, pn = draw.bits(1), draw.bits(1), draw.bits(1)
    octets = wire.gtpu(flow.teid, container, inner.octets, spare << 3 | s << 1 | pn, draw.bits(16), draw.bits(8))
    return wire.udp(draw.bits(16), wire.GTPU_PORT, checksum, octets)


def over_ipv6(draw: Draw, flow: Flow, direction: int, inner: Inner, tclass: int, destination: bytes, zero: bool = False) -> bytes:
    bare = len(inner.octets) >= 1400  # a large inner packet leaves no room for more
    source, payload, next_header = draw.ipv6(), datagram(draw, flow, direction, inner, bare, 0), wire.NEXT_UDP
    if not zero:
        payload = wire.checked(source, destination, payload)
    if not bare and draw.randrange(4) == 0:
        segments = [draw.ipv6() for _ in range(draw.randrange(1, 4))]
        payload = wire.srh(next_header, segments, 0, len(segments) - 1, draw.bits(8), draw.bits(16)) + payload
        next_header = wire.NEXT_ROUTING
    return wire.ipv6(tclass, draw.bits(20), next_header, draw.bits(8), source, destination, payload)


def over_ipv4(draw: Draw, flow: Flow, direction: int, inner: Inner, tos: int, source: bytes, destination: bytes) -> bytes:
    payload = datagram(draw, flow, direction, inner, len(inner.octets) >= 1400, draw.bits(16))
    return wire.ipv4(tos, draw.bits(16), bool(draw.bits(1)), draw.bits(8), wire.NEXT_UDP, source, destination, payload)
