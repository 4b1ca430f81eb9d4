"""Octets of the headers, as the standards lay them out. Nothing here is taken from the library."""

import struct

NEXT_IPV4, NEXT_UDP, NEXT_IPV6, NEXT_ROUTING, NEXT_ETHERNET = 4, 17, 41, 43, 143
NEXT_HOP_BY_HOP, NEXT_FRAGMENT, NEXT_ICMPV6, NEXT_NONE, NEXT_DESTINATION_OPTIONS = 0, 44, 58, 59, 60
GTPU_PORT = 2152
E, S, PN = 4, 2, 1  # flags of a GTP-U header
ECHO_REQUEST, ECHO_RESPONSE, ERROR_INDICATION, END_MARKER, G_PDU = 1, 2, 26, 254, 255
PDU_SESSION_CONTAINER, PDCP_PDU_NUMBER = 0x85, 0xC0  # extensions (TS 29.281, 5.2.1)
RECOVERY, PRIVATE_EXTENSION = 14, 255  # elements (TS 29.281, 8.1)
TIME_EXCEEDED, PARAMETER_PROBLEM, PING, REDIRECT = 3, 4, 128, 137  # ICMPv6 types (RFC 4443; RFC 4861)
QUOTED = 1280 - 40 - 8  # octets of a packet, at most, in an ICMPv6 message of 1,280


def ones_sum(octets: bytes) -> int:
    """The ones' complement sum of RFC 1071."""
    total: int = sum(struct.unpack(f"!{(len(octets) + 1) // 2}H", octets + bytes(len(octets) % 2)))
    while total > 0xFFFF:
        total = (total & 0xFFFF) + (total >> 16)
    return total


def ipv6(tclass: int, flow: int, next_header: int, hop_limit: int, source: bytes, destination: bytes, payload: bytes) -> bytes:
    first = 6 << 28 | tclass << 20 | flow
    return struct.pack("!IHBB", first, len(payload), next_header, hop_limit) + source + destination + payload


def ipv4_checksum(header: bytes) -> int:
    return ones_sum(header[:10] + header[12:4 * (header[0] & 0x0F)]) ^ 0xFFFF


def ipv4(tos: int, identification: int, dont_fragment: bool, ttl: int, protocol: int, source: bytes, destination: bytes,
         payload: bytes) -> bytes:
    flags = 0x4000 if dont_fragment else 0
    header = struct.pack("!BBHHHBBH", 0x45, tos, 20 + len(payload), identification, flags, ttl, protocol, 0) + source + destination
    return header[:10] + struct.pack("!H", ipv4_checksum(header)) + header[12:] + payload


def udp(source_port: int, destination_port: int, checksum: int, payload: bytes) -> bytes:
    return struct.pack("!HHHH", source_port, destination_port, 8 + len(payload), checksum) + payload


def upper_checksum(next_header: int, source: bytes, destination: bytes, octets: bytes) -> int:
    """Over the pseudo-header; one sum serves IPv4 and IPv6, because zeros do not change it."""
    return ones_sum(source + destination + struct.pack("!IHH", len(octets), 0, next_header) + octets) ^ 0xFFFF


def udp_checksum(source: bytes, destination: bytes, datagram: bytes) -> int:
    return upper_checksum(NEXT_UDP, source, destination, datagram) or 0xFFFF


def checked(source: bytes, destination: bytes, datagram: bytes) -> bytes:
    """A datagram with its checksum, in the place of 0."""
    return datagram[:6] + struct.pack("!H", udp_checksum(source, destination, datagram)) + datagram[8:]


def udp_at(packet: bytes) -> int:
    """Where UDP begins in an IPv6 packet: behind its header, or behind an SRH."""
    return 48 + 8 * packet[41] if packet[6] == NEXT_ROUTING else 40


def srh(next_header: int, segments: list[bytes], left: int, last: int, flags: int = 0, tag: int = 0, tlvs: bytes = b"") -> bytes:
    """Segments in the order of the header: the last of the path first."""
    body = b"".join(segments) + tlvs
    return struct.pack("!BBBBBBH", next_header, len(body) // 8, 4, left, last, flags, tag) + body


def message(kind: int, teid: int, flags: int, rest: bytes) -> bytes:
    """A GTP-U message from what follows its first eight octets."""
    return struct.pack("!BBHI", 0x30 | flags, kind, len(rest), teid) + rest


def extension(contents: bytes, following: int) -> bytes:
    """Contents of 2, 6, 10 ... octets, and the type of the extension behind."""
    return bytes([(len(contents) + 2) // 4]) + contents + bytes([following])


def gtpu(teid: int, container: bytes, inner: bytes, spare_s_pn: int = 0, sequence: int = 0, n_pdu: int = 0) -> bytes:
    """A G-PDU with one extension, the PDU Session container, given by its contents."""
    rest = struct.pack("!HBB", sequence, n_pdu, PDU_SESSION_CONTAINER) + extension(container, 0) + inner
    return message(G_PDU, teid, E | spare_s_pn, rest)


def echo_response(number: int) -> bytes:
    """What order 1 has the gateway write: S alone, and the element Recovery with 0."""
    return message(ECHO_RESPONSE, 0, S, struct.pack("!HBBBB", number, 0, 0, RECOVERY, 0))


def icmpv6(source: bytes, destination: bytes, kind: int, code: int, body: bytes) -> bytes:
    """A message from what follows its first four octets. A computed 0 stays 0 (RFC 4443, 2.3)."""
    empty = struct.pack("!BBH", kind, code, 0) + body
    return empty[:2] + struct.pack("!H", upper_checksum(NEXT_ICMPV6, source, destination, empty)) + body


def icmp_error(hop_limit: int, source: bytes, packet: bytes, kind: int, code: int, pointer: int) -> bytes:
    """What order 6 has the gateway write about a packet; in Time Exceeded the pointer is 0, and those octets are unused."""
    destination = packet[8:24]
    message = icmpv6(source, destination, kind, code, struct.pack("!I", pointer) + packet[:QUOTED])
    return ipv6(0, 0, NEXT_ICMPV6, hop_limit, source, destination, message)


def ethernet(destination: bytes, source: bytes, ethertype: int, payload: bytes) -> bytes:
    return destination + source + struct.pack("!H", ethertype) + payload
