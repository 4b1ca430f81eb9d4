#!/usr/bin/env python3
"""make-capture.py DIRECTORY: writes downlink.pcap, uplink.pcap, numbered.pcap and refused.pcap there, the captures of the yard example.

The same octets every time.
"""

import struct
import sys
from ipaddress import ip_address
from pathlib import Path

UPF6, RADIO6 = "2001:db8:a0::1", "2001:db8:77::9"  # the two ends of the GTP-U tunnel over IPv6
UPF4, RADIO4 = "198.51.100.7", "192.0.2.9"         # and over IPv4
OFFICE, CARRIER = "203.0.113.1", "203.0.113.40"    # inside it: the yard's office and a straddle carrier

ECHO_REQUEST, END_MARKER, G_PDU = 1, 254, 255
GTPU, E, S = 0x30, 4, 2  # the first octet: version 1 and PT 1; the flags for extensions and for a sequence number
DOWNLINK, UPLINK = 0, 1
GTPU_PORT = 2152
IPV4, UDP, ROUTING, ICMPV6 = 4, 17, 43, 58  # next headers
UNREACHABLE, PORT, PING = 1, 4, 128  # ICMPv6: an error with its code, and an Echo Request
EXPEDITED = 0xB8  # traffic class of commands to machines: DSCP 46

ETHERTYPE_IPV4, ETHERTYPE_ARP, ETHERTYPE_VLAN, ETHERTYPE_IPV6 = 0x0800, 0x0806, 0x8100, 0x86DD
LINK_TYPE_ETHERNET = 1
SHORTEST_FRAME = 60  # octets of an Ethernet frame without its check sequence
START = 1767258000   # 2026-01-01 09:00 UTC


def checksum(octets: bytes) -> int:
    octets += bytes(len(octets) % 2)
    total = sum(struct.unpack(f">{len(octets) // 2}H", octets))
    while total > 0xFFFF:
        total = (total & 0xFFFF) + (total >> 16)
    return total ^ 0xFFFF


def ipv4(source: str, destination: str, tos: int, payload: bytes) -> bytes:
    def header(check: int) -> bytes:
        front = struct.pack(">BBHHHBBH", 0x45, tos, 20 + len(payload), 0, 0x4000, 64, UDP, check)
        return front + ip_address(source).packed + ip_address(destination).packed

    return header(checksum(header(0))) + payload


def ipv6_header(source: str, destination: str, traffic_class: int, next_header: int, payload: bytes) -> bytes:
    front = struct.pack(">IHBB", 6 << 28 | traffic_class << 20, len(payload), next_header, 64)
    return front + ip_address(source).packed + ip_address(destination).packed


def ipv6_checksum(header: bytes, next_header: int, payload: bytes) -> int:
    return checksum(header[8:40] + struct.pack(">II", len(payload), next_header) + payload)


def ipv6(source: str, destination: str, traffic_class: int, datagram: bytes) -> bytes:
    """With the UDP checksum, which IPv6 wants."""
    header = ipv6_header(source, destination, traffic_class, UDP, datagram)
    check = ipv6_checksum(header, UDP, datagram)
    return header + datagram[:6] + struct.pack(">H", check or 0xFFFF) + datagram[8:]


def icmpv6(source: str, destination: str, kind: int, code: int, rest: bytes) -> bytes:
    """The rest is what stands behind the checksum."""
    message = bytes([kind, code, 0, 0]) + rest
    header = ipv6_header(source, destination, 0, ICMPV6, message)
    return header + message[:2] + struct.pack(">H", ipv6_checksum(header, ICMPV6, message)) + rest


def srv6(source: str, segments_left: int, path: list[str], inner: bytes) -> bytes:
    """An inner IPv4 packet behind an SRH with the segments of a path, in order of travel."""
    last = len(path) - 1
    srh = bytes([IPV4, 2 * len(path), 4, segments_left, last, 0, 0, 0]) + b"".join(ip_address(s).packed for s in reversed(path))
    return ipv6_header(source, path[last - segments_left], EXPEDITED, ROUTING, srh + inner) + srh + inner


def udp(source_port: int, destination_port: int, payload: bytes) -> bytes:
    return struct.pack(">HHHH", source_port, destination_port, 8 + len(payload), 0) + payload


def gtpu(message: int, teid: int, payload: bytes = b"", flags: int = 0) -> bytes:
    return udp(GTPU_PORT, GTPU_PORT, struct.pack(">BBHI", GTPU | flags, message, len(payload), teid) + payload)


def g_pdu(direction: int, qfi: int, reflective: int, teid: int, inner: bytes, number: int | None = None) -> bytes:
    """With a PDU Session container (TS 38.415) of one unit, and with S where there is a sequence number."""
    container = bytes([0, 0x85, 1, direction << 4, reflective << 6 | qfi, 0])
    return gtpu(G_PDU, teid, struct.pack(">H", number or 0) + container + inner, E if number is None else E | S)


def frame(ethertype: int, payload: bytes, tag: bytes = b"") -> bytes:
    """An Ethernet frame, padded where it is too short."""
    octets = bytes.fromhex("020000000001020000000002") + tag + struct.pack(">H", ethertype) + payload
    return octets.ljust(SHORTEST_FRAME, b"\0")


def vlan(number: int) -> bytes:
    return struct.pack(">HH", ETHERTYPE_VLAN, number)


def capture(frames: list[bytes]) -> bytes:
    octets = struct.pack("<IHHiIII", 0xA1B2C3D4, 2, 4, 0, 0, 262144, LINK_TYPE_ETHERNET)
    for number, one in enumerate(frames):
        octets += struct.pack("<IIII", START, 20000 * number, len(one), len(one)) + one
    return octets


def to_carrier(words: bytes) -> bytes:
    return ipv4(OFFICE, CARRIER, EXPEDITED, udp(40000, 40001, words))


def from_carrier(words: bytes) -> bytes:
    return ipv4(CARRIER, OFFICE, EXPEDITED, udp(40001, 40000, words))


def downlink() -> list[bytes]:
    command = g_pdu(DOWNLINK, 5, 1, 0x01020304, to_carrier(b"lane 7: stop"))
    request = bytes.fromhex("0001080006040001020000000002") + ip_address("192.0.2.254").packed + bytes(6) + ip_address(RADIO4).packed
    video = g_pdu(DOWNLINK, 9, 0, 0x01020306, to_carrier(b"camera 2 on"))
    return [
        frame(ETHERTYPE_IPV6, ipv6(UPF6, RADIO6, EXPEDITED, command)),
        frame(ETHERTYPE_IPV4, ipv4(UPF4, RADIO4, EXPEDITED, command)),
        frame(ETHERTYPE_ARP, request),
        frame(ETHERTYPE_IPV4, ipv4(UPF4, RADIO4, 0, gtpu(END_MARKER, 0x01020305))),
        # some ports leave the frame's check sequence, four octets, behind the packet
        frame(ETHERTYPE_IPV6, ipv6(UPF6, RADIO6, 0, video), vlan(12)) + b"\xde\xad\xbe\xef",
    ]


def uplink() -> list[bytes]:
    report = g_pdu(UPLINK, 5, 0, 0x0A0B0C0D, from_carrier(b"lane 7: stopped"))
    return [
        frame(ETHERTYPE_IPV6, ipv6(RADIO6, UPF6, EXPEDITED, report)),
        frame(ETHERTYPE_IPV4, ipv4(RADIO4, UPF4, EXPEDITED, report)),
    ]


def numbered() -> list[bytes]:
    """Four sessions whose packets the radio numbers, in turns; then what has no number to count: an Echo Request, and no S."""
    def over_ipv6(datagram: bytes) -> bytes:
        return frame(ETHERTYPE_IPV6, ipv6(RADIO6, UPF6, EXPEDITED, datagram))

    def over_ipv4(datagram: bytes) -> bytes:
        return frame(ETHERTYPE_IPV4, ipv4(RADIO4, UPF4, EXPEDITED, datagram))

    inner = from_carrier(b"here")
    sessions = [
        (0x0A0B0C01, over_ipv6, [100, 101, 105, 106]),  # a gap of three
        (0x0A0B0C02, over_ipv6, [7, 8, 8, 9]),          # a repeat
        (0x0A0B0C03, over_ipv4, [40, 42, 41, 43]),      # one late
        (0x0A0B0C04, over_ipv4, [65534, 65535, 0, 1]),  # past 65,535
    ]
    frames = [over(g_pdu(UPLINK, 5, 0, teid, inner, numbers[turn])) for turn in range(4) for teid, over, numbers in sessions]
    echo_request = gtpu(ECHO_REQUEST, 0, struct.pack(">HBB", 1, 0, 0), S)
    return [*frames, over_ipv6(echo_request), over_ipv6(g_pdu(UPLINK, 5, 0, 0x0A0B0C0D, inner))]


def refused() -> list[bytes]:
    """What is not for the gateway in the office: a ping to the radio, a packet whose last segment is missing, and an ICMPv6 error."""
    ping = struct.pack(">HH", 1, 1) + bytes(range(56))
    short = srv6("2001:db8:f::2", 0, ["2001:db8:2::e", "2001:db8:1::e", "2001:db8:b:2:140a:b0c:d00:0"], from_carrier(b"lane 7: stopped"))
    report = ipv6(RADIO6, UPF6, EXPEDITED, g_pdu(UPLINK, 5, 0, 0x0A0B0C0D, from_carrier(b"lane 7: stopped")))
    return [
        frame(ETHERTYPE_IPV6, icmpv6(UPF6, RADIO6, PING, 0, ping)),
        frame(ETHERTYPE_IPV6, short),
        frame(ETHERTYPE_IPV6, icmpv6(UPF6, RADIO6, UNREACHABLE, PORT, bytes(4) + report)),  # of a UPF that is not running
    ]


def main() -> None:
    if len(sys.argv) != 2:
        sys.exit("usage: make-capture.py DIRECTORY")
    directory = Path(sys.argv[1])
    (directory / "downlink.pcap").write_bytes(capture(downlink()))
    (directory / "uplink.pcap").write_bytes(capture(uplink()))
    (directory / "numbered.pcap").write_bytes(capture(numbered()))
    (directory / "refused.pcap").write_bytes(capture(refused()))


if __name__ == "__main__":
    main()
