"""captures.py DIRECTORY: the captures of captures.sh, all of the yard's downlink packets, and what translating them at the office sends.

The expected packets are put together here, from the layouts, and not by the library.
"""

import importlib.util
import struct
import sys
from ipaddress import ip_address
from pathlib import Path
from types import ModuleType
from typing import Callable

YARD = Path(__file__).resolve().parents[2] / "examples" / "yard"

ETHERNET, SLL, SLL2, RAW, RAW_LINUX, RAW_OPENBSD, IPV4, IPV6, IEEE802_11 = 1, 113, 276, 101, 12, 14, 228, 229, 105
MICROSECONDS, NANOSECONDS = 0xA1B2C3D4, 0xA1B23C4D
WAYPOINTS = ["2001:db8:1::e", "2001:db8:2::e"]
SECOND = 1767258000
ECHO_RESPONSE = 2


def load(name: str, path: Path) -> ModuleType:
    spec = importlib.util.spec_from_file_location(name, path)
    assert spec is not None and spec.loader is not None
    module = importlib.util.module_from_spec(spec)
    spec.loader.exec_module(module)
    return module


sys.dont_write_bytecode = True
yard = load("make_capture", YARD / "make-capture.py")

Packet = tuple[int, bytes]  # the time in microseconds past SECOND, and the octets


def pcap(link: int, frames: list[Packet], order: str = "<", magic: int = MICROSECONDS, cut: int = 0) -> bytes:
    """With cut, each frame lacks that many octets that it had on the link."""
    scale = 1000 if magic == NANOSECONDS else 1
    octets = struct.pack(order + "IHHiIII", magic, 2, 4, 0, 0, 262144, link)
    for time, frame in frames:
        kept = frame[:len(frame) - cut]
        octets += struct.pack(order + "IIII", SECOND, time * scale, len(kept), len(frame)) + kept
    return octets


def block(kind: int, body: bytes) -> bytes:
    body += bytes(-len(body) % 4)
    length = struct.pack("<I", 12 + len(body))
    return struct.pack("<I", kind) + length + body + length


def pcapng(link: int, frames: list[Packet]) -> bytes:
    """Section header, interface (times in nanoseconds), enhanced packets."""
    octets = block(0x0A0D0D0A, struct.pack("<IHHq", 0x1A2B3C4D, 1, 0, -1))
    octets += block(1, struct.pack("<HHI", link, 0, 0) + struct.pack("<HHB3xHH", 9, 1, 9, 0, 0))
    for time, frame in frames:
        at = SECOND * 10**9 + time * 1000
        octets += block(6, struct.pack("<IIIII", 0, at >> 32, at & 0xFFFFFFFF, len(frame), len(frame)) + frame)
    return octets


def ethertype(packet: bytes) -> bytes:
    return b"\x86\xdd" if packet[0] >> 4 == 6 else b"\x08\x00"


def tagged(packet: bytes, *tags: str) -> bytes:
    """An Ethernet frame with VLAN tags, given as hexadecimal."""
    return bytes(12) + bytes.fromhex("".join(tags)) + ethertype(packet) + packet


def cooked(packet: bytes) -> bytes:
    return bytes.fromhex("0000000100060200000000020000") + ethertype(packet) + packet


def cooked2(packet: bytes) -> bytes:
    return ethertype(packet) + bytes.fromhex("000000000002000100060200000000020000") + packet


def over(frames: list[Packet], wrap: Callable[[bytes], bytes]) -> list[Packet]:
    return [(time, wrap(packet)) for time, packet in frames]


def srv6(source: str, traffic_class: int, path: list[str], inner: bytes) -> bytes:
    """What a gateway sends along a path: an IPv6 header, an SRH, an inner IPv4 packet."""
    segments = b"".join(ip_address(segment).packed for segment in reversed(path))
    last = len(path) - 1
    srh = bytes([4, 2 * len(path), 4, last, last, 0, 0, 0]) + segments
    header = struct.pack(">IHBB", 6 << 28 | traffic_class << 20, len(srh) + len(inner), 43, 64)
    return header + ip_address(source).packed + ip_address(path[0]).packed + srh + inner


def echo_request(number: int, port: int, flags: int = 0, more: bytes = bytes(2)) -> bytes:
    """With S and TEID 0; behind the sequence number what else is given."""
    payload = struct.pack(">H", number) + more
    return yard.udp(port, yard.GTPU_PORT, struct.pack(">BBHI", 0x32 | flags, 1, len(payload), 0) + payload)


def echo_response(number: int, port: int) -> bytes:
    return yard.udp(yard.GTPU_PORT, port, bytes.fromhex("32020006 00000000") + struct.pack(">H", number) + bytes.fromhex("0000 0e00"))


def udp_at(packet: bytes) -> int:
    """Where UDP begins in an IPv6 packet: behind an SRH, or the header."""
    return 40 if packet[6] == yard.UDP else 48 + 8 * packet[41]


def with_checksum(packet: bytes, check: int) -> bytes:
    """An IPv6 packet with another UDP checksum."""
    at = udp_at(packet) + 6
    return packet[:at] + struct.pack(">H", check) + packet[at + 2:]


def held_checksum(packet: bytes) -> int:
    return struct.unpack_from(">H", packet, udp_at(packet) + 6)[0]


def unfinished(packet: bytes) -> bytes:
    """As a host leaves it to its network card: with the sum of the pseudo-header, not complemented."""
    pseudo_header = packet[8:40] + struct.pack(">II", len(packet) - udp_at(packet), yard.UDP)
    return with_checksum(packet, yard.checksum(pseudo_header) ^ 0xFFFF)


def computed_zero() -> tuple[bytes, bytes]:
    """A packet whose UDP checksum is computed as 0, so FFFF is right; and its inner packet."""
    def made(last: int) -> tuple[bytes, bytes]:
        inner = yard.to_carrier(b"lane 7: stop" + struct.pack(">H", last))
        return yard.ipv6(yard.UPF6, yard.RADIO6, 0xB8, yard.g_pdu(yard.DOWNLINK, 5, 1, 0x01020304, inner)), inner

    packet, inner = made(held_checksum(made(0)[0]))
    assert held_checksum(packet) == 0xFFFF
    return packet, inner


def along(packet: bytes, segments_left: int, path: list[str]) -> bytes:
    """An IPv6 packet of UDP with an SRH: the segments of a path, in order of travel. UDP's checksum stays: that for the last of them."""
    last = len(path) - 1
    srh = bytes([yard.UDP, 2 * len(path), 4, segments_left, last, 0, 0, 0]) + b"".join(ip_address(s).packed for s in reversed(path))
    destination = ip_address(path[last - segments_left]).packed
    return packet[:4] + struct.pack(">HB", len(packet) - 40 + len(srh), 43) + packet[7:24] + destination + srh + packet[40:]


def echoes() -> tuple[list[Packet], list[Packet], list[Packet]]:
    """Echo Requests that are answered, the Echo Responses, and what is refused: 17, 17, 17, 10, 11."""
    elements = bytes.fromhex("0000 00c0 0100000000 ff0002abcd")  # N-PDU number, an extension, Private Extension: not examined
    requests = [
        yard.ipv6(yard.UPF6, yard.RADIO6, 0xB8, echo_request(7, yard.GTPU_PORT)),
        yard.ipv4(yard.UPF4, yard.RADIO4, 0x20, echo_request(8, 40000)),
        along(yard.ipv6(yard.UPF6, yard.RADIO6, 0, echo_request(65535, 1, 5, elements)), 0, [yard.RADIO6]),
    ]
    responses = [
        yard.ipv6(yard.RADIO6, yard.UPF6, 0xB8, echo_response(7, yard.GTPU_PORT)),
        yard.ipv4(yard.RADIO4, yard.UPF4, 0x20, echo_response(8, 40000)),
        yard.ipv6(yard.RADIO6, yard.UPF6, 0, echo_response(65535, 1)),
    ]
    refused = [
        yard.ipv6(yard.UPF6, yard.RADIO6, 0, yard.gtpu(yard.ECHO_REQUEST, 0)),
        yard.ipv4(yard.UPF4, yard.RADIO4, 0, yard.gtpu(yard.ECHO_REQUEST, 0)),
        yard.ipv4(yard.UPF4, yard.RADIO4, 0, yard.gtpu(yard.ECHO_REQUEST, 1, bytes(4), yard.S)),
        yard.ipv6(yard.UPF6, yard.RADIO6, 0, yard.gtpu(yard.ECHO_REQUEST, 0, bytes(3), yard.S)),
        yard.ipv6(yard.UPF6, yard.RADIO6, 0, yard.gtpu(ECHO_RESPONSE, 0, bytes.fromhex("000700000e00"), yard.S)),
    ]

    def times(packets: list[bytes], first: int) -> list[Packet]:
        return [(first + number, packet) for number, packet in enumerate(packets)]

    return times(requests, 1), times(responses, 1), times(refused, 10)


def same(packets: list[Packet]) -> dict[str, bytes]:
    """Captures of every link type and format: the same packets, so the same result."""
    return {
        "same-ethernet.pcap": pcap(ETHERNET, over(packets, tagged)),
        "same-vlan.pcap": pcap(ETHERNET, over(packets, lambda p: tagged(p, "8100000c"))),
        "same-qinq.pcap": pcap(ETHERNET, over(packets, lambda p: tagged(p, "88a80001", "8100000c"))),
        "same-old-qinq.pcap": pcap(ETHERNET, over(packets, lambda p: tagged(p, "91000001", "8100000c"))),
        "same-cooked.pcap": pcap(SLL, over(packets, cooked)),
        "same-cooked-v2.pcap": pcap(SLL2, over(packets, cooked2)),
        "same-raw.pcap": pcap(RAW, packets),
        "same-raw-linux.pcap": pcap(RAW_LINUX, packets),
        "same-raw-openbsd.pcap": pcap(RAW_OPENBSD, packets),
        "same-big-endian.pcap": pcap(ETHERNET, over(packets, tagged), order=">"),
        "same-nanoseconds.pcap": pcap(ETHERNET, over(packets, tagged), magic=NANOSECONDS),
        "same-pcapng.pcap": pcapng(ETHERNET, over(packets, tagged)),
        "same-pcapng-raw.pcap": pcapng(RAW, packets),
        "same-padded.pcap": pcap(ETHERNET, over(packets, lambda p: tagged(p) + bytes(6))),
        "same-cooked-padded.pcap": pcap(SLL, over(packets, lambda p: cooked(p) + bytes(1))),
    }


def main() -> None:
    if len(sys.argv) != 2:
        sys.exit("usage: captures.py DIRECTORY")
    directory = Path(sys.argv[1])

    def write(name: str, octets: bytes) -> None:
        (directory / name).write_bytes(octets)

    stop, camera = yard.to_carrier(b"lane 7: stop"), yard.to_carrier(b"camera 2 on")
    command = yard.g_pdu(yard.DOWNLINK, 5, 1, 0x01020304, stop)
    video = yard.g_pdu(yard.DOWNLINK, 9, 0, 0x01020306, camera)
    over6 = (0, yard.ipv6(yard.UPF6, yard.RADIO6, 0xB8, command))
    over4 = (20000, yard.ipv4(yard.UPF4, yard.RADIO4, 0xB8, command))
    marker = (60000, yard.ipv4(yard.UPF4, yard.RADIO4, 0, yard.gtpu(yard.END_MARKER, 0x01020305)))
    last6 = (80000, yard.ipv6(yard.UPF6, yard.RADIO6, 0, video))
    packets = [over6, over4, marker, last6]

    sent6 = (0, srv6("2001:db8:f::1", 0xB8, WAYPOINTS + ["2001:db8:b:1:1601:203:400:0", yard.RADIO6], stop))
    sent4 = (20000, srv6("2001:db8:d1:0:c633:6407::", 0xB8, WAYPOINTS + ["2001:db8:c1:c000:209:1601:203:400"], stop))
    sent_last = (80000, srv6("2001:db8:f::1", 0, WAYPOINTS + ["2001:db8:b:1:2401:203:600:0", yard.RADIO6], camera))

    def sent(name: str, frames: list[Packet]) -> None:
        write(name, pcap(RAW, frames, magic=NANOSECONDS))

    sent("sent.expected", [sent6, sent4, sent_last])
    sent("sent-cut.expected", [sent6, sent4])
    sent("sent-ipv4.expected", [sent4])
    sent("sent-ipv6.expected", [sent6, sent_last])
    sent("none.expected", [])

    for name, octets in same(packets).items():
        write(name, octets)
    write("ipv4.pcap", pcap(IPV4, [over4, marker]))
    write("ipv6.pcap", pcap(IPV6, [over6, last6]))

    requests, responses, bad = echoes()
    write("echo.pcap", pcap(RAW, [over6, *requests, *bad]))
    sent("echo-sent.expected", [sent6, *responses])
    write("echo-good.pcap", pcap(RAW, [over6, *requests, last6]))
    write("echo-alone.pcap", pcap(RAW, requests))
    passed = along(yard.ipv6(yard.UPF6, yard.RADIO6, 0xB8, echo_request(9, 5000)), 1, [WAYPOINTS[0], yard.RADIO6])
    write("echo-passed.pcap", pcap(RAW, [(0, passed)]))
    like = yard.g_pdu(yard.DOWNLINK, 5, 0, 1, bytes.fromhex("4500") + bytes(7) + b"\x02" + bytes(12))  # 22 octets inside, type 2's place
    write("echo-like.pcap", pcap(RAW, [(0, yard.ipv4(yard.UPF4, yard.RADIO4, 0, like))]))

    # UDP checksums: right, 0, unfinished, wrong; of G-PDUs and Echo Requests; over IPv4, where they are not examined
    echo, echoed = requests[0][1], responses[0][1]
    zero, zero_inner = computed_zero()
    write("checksums.pcap", pcap(RAW, [(time, packet) for time, packet in enumerate([
        over6[1], with_checksum(over6[1], 0), with_checksum(last6[1], 0), with_checksum(echo, 0),
        unfinished(over6[1]), unfinished(last6[1]), unfinished(requests[2][1]),
        with_checksum(over6[1], held_checksum(over6[1]) ^ 1), with_checksum(echo, 0xFFFF),
        zero, over4[1][:26] + b"\xbe\xef" + over4[1][28:]])]))
    zero_sent = srv6("2001:db8:f::1", 0xB8, WAYPOINTS + ["2001:db8:b:1:1601:203:400:0", yard.RADIO6], zero_inner)
    sent("checksums-sent.expected", [sent6, (9, zero_sent), (10, sent4[1])])
    sent("checksums-allowed.expected", [sent6, (1, sent6[1]), (2, sent_last[1]), (3, echoed), (9, zero_sent), (10, sent4[1])])
    write("checksums-shown.pcap", pcap(RAW, [(time, packet) for time, packet in enumerate([
        unfinished(over6[1]), unfinished(last6[1]), with_checksum(over6[1], 0),
        with_checksum(over6[1], held_checksum(over6[1]) ^ 1)])]))
    write("checksums-two.pcap", pcap(RAW, [(0, with_checksum(over6[1], 0)), (1, unfinished(over6[1]))]))

    # what is counted and left out, or refused
    write("empty.pcap", pcap(ETHERNET, []))
    write("snapped.pcap", pcap(ETHERNET, over([over6] * 7, tagged), cut=1))
    write("raw-behind.pcap", pcap(RAW, over(packets, lambda p: p + b"\0")))
    offloaded = [(time, packet[:4] + b"\0\0" + packet[6:]) for time, packet in [over6, last6]]
    write("offloaded.pcap", pcap(ETHERNET, over(offloaded, tagged)))
    write("offloaded4.pcap", pcap(ETHERNET, over([(0, over4[1][:2] + b"\0\0" + over4[1][4:])], tagged)))
    write("wrong-version.pcap", pcap(IPV4, [over6]))
    strange = [b"", bytes(1), bytes(13), bytes(60), bytes(12) + b"\x81\x00", bytes(12) + b"\x81\x00\x00\x01\x81"]
    write("not-ip.pcap", pcap(ETHERNET, [(0, frame) for frame in strange]))
    wrapped = ["88641100000100420021", "88470001213f", "8848000121ff", "88e52c000000", "88e700000000", "89260000", "894f0fc60103"]
    snap = b"\0\x7c\xaa\xaa\x03\0\0\0"
    others = [bytes(12) + bytes.fromhex(front) + over6[1] for front in wrapped]
    others += [bytes(12) + b"\x81\0\0\x0c" + bytes.fromhex(wrapped[0]) + over6[1], bytes(12) + snap + ethertype(over4[1]) + over4[1]]
    others += [bytes(12) + snap + b"\x08\x06" + bytes(28), bytes(12) + b"\0\x26\x42\x42\x03" + bytes(35), bytes(12) + snap]
    write("wrapped.pcap", pcap(ETHERNET, [(0, frame) for frame in others] + over([over6], tagged)))
    write("wrapped-cooked.pcap", pcap(SLL, [(0, bytes(14) + b"\x88\x47\0\x01\x21\x3f" + over6[1])]))
    write("not-ip-raw.pcap", pcap(RAW, [(0, b""), (0, b"\x50"), (0, bytes(64))]))
    write("wireless.pcap", pcap(IEEE802_11, [(0, bytes(64))]))
    good = pcap(RAW, [over6])
    write("damaged.pcap", good + struct.pack("<IIII", SECOND, 0, 0xFFFFFFFF, 0xFFFFFFFF) + good * 2)
    write("foreign.pcap", b"office: no capture\n" * 40)
    write("nothing.pcap", b"")
    write("many.pcap", pcap(ETHERNET, over([over6] * 3000, tagged)))


if __name__ == "__main__":
    main()
