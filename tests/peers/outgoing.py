"""What docs/RULES.md, Written, says, as tshark must show it: a statement of the layouts that is derived from neither the library nor the
second program."""

import expect
import wire
from draw import Flow, Inner
from table import DOWNLINK

CONTAINER = 4  # octets of a container of one unit
GTPU_HEADER = 12  # with the four octets that E brings


def place(sid: bytes, a: int, args: bytes) -> bytes:
    return sid[:a] + args + sid[a + len(args):]


def carried(flow: Flow, direction: int) -> int:
    """R is read and written in downlink only."""
    return flow.reflective if direction == DOWNLINK else 0


def srv6(tclass: int, hop_limit: int, source: bytes, path: list[bytes], inner: Inner) -> expect.Pairs:
    """A new outer header and an SRH for a path in order of travel."""
    last, length = len(path) - 1, 2 * len(path)
    outer = expect.ipv6(tclass, 0, 8 + 8 * length + len(inner.octets), wire.NEXT_ROUTING, hop_limit, source, path[0])
    return outer + expect.srh(inner.next_header, length, last, last, 0, 0, path[::-1]) + inner.pairs


def without_srh(tclass: int, hop_limit: int, source: bytes, destination: bytes, inner: Inner) -> expect.Pairs:
    return expect.ipv6(tclass, 0, len(inner.octets), inner.next_header, hop_limit, source, destination) + inner.pairs


def message(flow: Flow, direction: int, inner: Inner) -> bytes:
    """The octets of a G-PDU."""
    return wire.gtpu(flow.teid, bytes([direction << 4, carried(flow, direction) << 6 | flow.qfi]), inner.octets)


def g_pdu(flow: Flow, direction: int, source_port: int, checksum: int, status: str, inner: Inner) -> expect.Pairs:
    length = GTPU_HEADER - 8 + CONTAINER + len(inner.octets)
    datagram = expect.udp(source_port, wire.GTPU_PORT, checksum, status, message(flow, direction, inner))
    return datagram + expect.gtpu(flow.teid, length, direction, flow.qfi, carried(flow, direction)) + inner.pairs


def e6(tclass: int, hop_limit: int, source: bytes, destination: bytes, source_port: int, flow: Flow, direction: int,
       inner: Inner) -> expect.Pairs:
    length = 8 + GTPU_HEADER + CONTAINER + len(inner.octets)
    outer = expect.ipv6(tclass, 0, length, wire.NEXT_UDP, hop_limit, source, destination)
    checksum = wire.udp_checksum(source, destination, wire.udp(source_port, wire.GTPU_PORT, 0, message(flow, direction, inner)))
    return outer + g_pdu(flow, direction, source_port, checksum, expect.GOOD, inner)


def e4(tos: int, ttl: int, source: bytes, destination: bytes, source_port: int, flow: Flow, direction: int,
       inner: Inner) -> expect.Pairs:
    length = 20 + 8 + GTPU_HEADER + CONTAINER + len(inner.octets)
    # the checksum is a sum over the other fields, so the header is laid out once for it
    header = wire.ipv4(tos, 0, True, ttl, wire.NEXT_UDP, source, destination, bytes(length - 20))
    outer = expect.ipv4(tos, length, 0, True, ttl, wire.NEXT_UDP, wire.ipv4_checksum(header), source, destination)
    return outer + g_pdu(flow, direction, source_port, 0, expect.ABSENT, inner)
