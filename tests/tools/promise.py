"""promise.py DIRECTORY: tables, captures and what is expected of `kawsarpa trip` over them, for promise.sh.

What has to come out is put together here by docs/RULES.md, Written, neither by the library nor by the tool. The same octets every time.
"""

import random
import struct
import sys
from ipaddress import ip_address
from pathlib import Path

from captures import NANOSECONDS, RAW, Packet, pcap, yard

DOWNLINK, UPLINK = yard.DOWNLINK, yard.UPLINK
SETS = 8       # pairs of tables
VARIANTS = 60  # packets for each pair and IP version
LONGEST = {6: 65535 - 56, 4: 65535 - 44}  # inner octets that still pass: with one waypoint before the far gateway, and behind it

GOOD = "  arrived with the destination, TEID, QFI, R, traffic class and {} inner octets that went in"
CHANGED = "  arrived, but not as it went in: "


def gtpu_front(direction: int, qfi: int, reflective: int, teid: int, inner: bytes) -> bytes:
    """As a gateway writes it: E only, one container of one unit."""
    return struct.pack(">BBHIHBBBBBB", 0x34, 255, 8 + len(inner), teid, 0, 0, 0x85, 1, direction << 4,
                       (reflective if direction == DOWNLINK else 0) << 6 | qfi, 0)


def udp(port: int, payload: bytes) -> bytes:
    return struct.pack(">HHHH", port, 2152, 8 + len(payload), 0) + payload


def checked(source: bytes, destination: bytes, datagram: bytes) -> bytes:
    """With its UDP checksum over IPv6 (RFC 8200, 8.1), in the place of a 0."""
    check = yard.checksum(source + destination + struct.pack(">II", len(datagram), 17) + datagram)
    return datagram[:6] + struct.pack(">H", check or 0xFFFF) + datagram[8:]


def over_ipv6(traffic_class: int, hop_limit: int, source: bytes, destination: bytes, payload: bytes) -> bytes:
    front = struct.pack(">IHBB", 6 << 28 | traffic_class << 20, len(payload), 17, hop_limit)
    return front + source + destination + checked(source, destination, payload)


def over_ipv4(tos: int, ttl: int, source: bytes, destination: bytes, payload: bytes) -> bytes:
    front = struct.pack(">BBHHHBB", 0x45, tos, 20 + len(payload), 0, 0x4000, ttl, 17)
    check = yard.checksum(front + bytes(2) + source + destination)
    return front + struct.pack(">H", check) + source + destination + payload


def bit_names(version: int, inner: int) -> list[str]:
    """What trip has to call each bit of a packet."""
    header = 40 if version == 6 else 20
    front = header + 24
    names = [f"octet {at} of the IPv{version} header" for at in range(header) for _ in range(8)]
    names += [f"octet {at} of UDP" for at in range(8) for _ in range(8)]
    names += [f"octet {at} of GTP-U" for at in range(16) for _ in range(8)]

    def call(name: str, first_bit: int, bits: int) -> None:
        names[first_bit:first_bit + bits] = [name] * bits

    if version == 6:
        call("traffic class", 4, 8)
        call("source", 8 * 8, 128)
        call("destination", 24 * 8, 128)
        call("UDP checksum", 46 * 8, 16)
    else:
        call("traffic class", 8, 8)
        call("header checksum", 10 * 8, 16)
        call("source", 12 * 8, 32)
        call("destination", 16 * 8, 32)
    call("TEID", (front - 12) * 8, 32)
    call("direction", (front - 3) * 8, 4)
    call("R", (front - 2) * 8 + 1, 1)
    call("QFI", (front - 2) * 8 + 2, 6)
    return names + ["inner octets"] * (8 * inner)


def flipped(directory: Path, version: int) -> None:
    """A packet for each turn of flip.c, and the line that each has to have."""
    inner = yard.to_carrier(b"lane 7: stop")
    command = yard.g_pdu(DOWNLINK, 5, 1, 0x01020304, inner)
    packet = yard.ipv6(yard.UPF6, yard.RADIO6, 0xB8, command) if version == 6 else yard.ipv4(yard.UPF4, yard.RADIO4, 0xB8, command)
    header = 40 if version == 6 else 20
    lines = [GOOD.format(len(inner))] + [CHANGED + name for name in bit_names(version, len(inner))]
    lines += [CHANGED + "inner octets"] * 2
    ip = f"IPv{version} header"
    if version == 6:  # with 30 octets, and with none; octets that are 0 in the promised packet too are not told
        missing = ["destination", "TEID", "QFI", "R", "UDP checksum", "inner octets"]
        none = ["source", *missing[:4], "traffic class", *missing[4:], *(f"octet {at} of the {ip}" for at in (0, 5, 6, 7))]
    else:
        missing = ["TEID", "QFI", "R", "inner octets"]
        none = ["source", "destination", *missing[:3], "traffic class", "header checksum", "inner octets",
                *(f"octet {at} of the {ip}" for at in (0, 3, 6, 8, 9))]
    udp_octets = [f"octet {at} of UDP" for at in (0, 1, 2, 3, 5)]
    gtpu_octets = [f"octet {at} of GTP-U" for at in (0, 1, 3, 11, 12)]
    lines.append(CHANGED + ", ".join(missing + (udp_octets + gtpu_octets if version == 6 else gtpu_octets[2:])))
    lines.append(CHANGED + ", ".join(none + udp_octets + gtpu_octets))
    assert len(packet) == header + 24 + len(inner) and len(lines) == 8 * len(packet) + 5
    (directory / f"turns{version}.pcap").write_bytes(pcap(RAW, [(0, packet)] * len(lines)))
    (directory / f"turns{version}.expected").write_text("".join(line + "\n" for line in lines))


def arriving_gtpu(draw: random.Random, direction: int, qfi: int, reflective: int, teid: int, inner: bytes, units: int) -> bytes:
    """A G-PDU as others may send it: with S and PN, spare bits and further contents of the container."""
    flags = 0x34 | draw.choice([0, 1, 2, 3, 8, 11])
    contents = bytearray(draw.randbytes(4 * units - 2))
    contents[0] = direction << 4 | draw.randrange(16)
    contents[1] = draw.choice([0, 0x80]) | reflective << 6 | qfi  # in uplink the bit of R means something else
    container = bytes([units]) + bytes(contents) + b"\0"
    numbers = draw.randbytes(3)
    return struct.pack(">BBHI", flags, 255, 4 + len(container) + len(inner), teid) + numbers + b"\x85" + container + inner


def arriving_ipv6(draw: random.Random, traffic_class: int, source: bytes, destination: bytes, payload: bytes, zero: bool) -> bytes:
    """With a flow label, UDP checksum 0 or the right one, and now and then a routing header that has been used up."""
    datagram = udp(draw.randrange(65536), payload)
    datagram = datagram if zero else checked(source, destination, datagram)
    next_header, chain = 17, b""
    if draw.randrange(4) == 0 and len(payload) < 60000:
        next_header, chain = 43, bytes([17, 2, 4, 0, 0, 0, 0, 0]) + draw.randbytes(16)
    first = 6 << 28 | traffic_class << 20 | draw.randrange(1 << 20)
    front = struct.pack(">IHBB", first, len(chain + datagram), next_header, draw.randrange(256))
    return front + source + destination + chain + datagram


def arriving_ipv4(draw: random.Random, tos: int, source: bytes, destination: bytes, payload: bytes) -> bytes:
    datagram = struct.pack(">HHHH", draw.randrange(65536), 2152, 8 + len(payload), draw.randrange(65536)) + payload
    front = struct.pack(">BBHHHBB", 0x45, tos, 20 + len(datagram), draw.randrange(65536), draw.choice([0, 0x4000]), draw.randrange(256), 17)
    return front + struct.pack(">H", yard.checksum(front + bytes(2) + source + destination)) + source + destination + datagram


def draw_inner(draw: random.Random, session: str, longest: int, position: int) -> bytes:
    """Also of no octet, of one, and as long as they may be."""
    least = 1 if session == "IPv4v6" else 0
    length = [least, least + 1, longest, longest - 1][position] if position < 4 else draw.randrange(least, 200)
    inner = bytearray(draw.randbytes(length))
    if session == "IPv4v6":
        inner[0] = draw.choice([4, 6]) << 4 | inner[0] & 15
    return bytes(inner)


def write_set(directory: Path, number: int) -> None:
    """Tables of both gateways with values of their own, packets of many shapes, and what has to come out."""
    draw = random.Random(number)
    direction = number % 2
    session = ["IPv4", "IPv6", "IPv4v6", "Ethernet"][number // 2 % 4]
    hop_limit, port = draw.choice([1, 2, 255, draw.randrange(1, 256)]), draw.choice([0, 65535, 2152, draw.randrange(65536)])
    source, args, p, q = draw.randbytes(16), draw.randrange(6, 12), draw.choice([6, 7]), draw.randrange(6, 13)
    allowing = number % 3 == 0  # UDP checksum 0, in what arrives
    shared = f"direction: {['downlink', 'uplink'][direction]}, session-type: {session}"
    (directory / f"near{number}.yaml").write_text(f"""format: 1
waypoints:
- {{name: w, address: "2001:db8:2::e"}}
policies:
- {{name: p, waypoints: [w], last-sid: "2001:db8:b::", args-octet: {args}}}
entries:
- {{name: e, behaviour: End.M.GTP6.D.Di, prefix: "::/0", hop-limit: {draw.randrange(2, 256)}, source: "2001:db8:f::1", {shared}, policy: p,
   zero-checksum: {"allow" if allowing else "refuse"}}}
rules:
- {{name: r, prefix: 0.0.0.0/0, hop-limit: {draw.randrange(2, 256)}, {shared}, p: {p}, q: {q}, sid-prefix: "2001:db8:c::",
   source-prefix: "2001:db8:d::", waypoints: [w]}}
""")
    (directory / f"far{number}.yaml").write_text(f"""format: 1
entries:
- {{name: a, behaviour: End.M.GTP6.E, prefix: "2001:db8:b::/48", hop-limit: {hop_limit}, source: "{ip_address(source)}", {shared},
   args-octet: {args}, source-port: {port}}}
- {{name: b, behaviour: End.M.GTP4.E, prefix: "2001:db8:c::/48", hop-limit: {hop_limit}, {shared}, p: {p}, q: {q}, source-port: {port}}}
""")
    went_in: list[Packet] = []
    comes_out: list[Packet] = []
    for variant in range(2 * VARIANTS):
        version, position = (6, 4)[variant % 2], variant // 2
        inner = draw_inner(draw, session, LONGEST[version], position)
        units = 1 if len(inner) > 1000 else draw.randrange(1, 5)
        qfi, reflective, teid = draw.randrange(64), draw.randrange(2), draw.choice([0, 0xFFFFFFFF, draw.randrange(1 << 32)])
        traffic_class, time = draw.randrange(256), variant
        gtpu = arriving_gtpu(draw, direction, qfi, reflective, teid, inner, units)
        promised = udp(port, gtpu_front(direction, qfi, reflective, teid, inner) + inner)
        if version == 6:
            destination = draw.randbytes(16)
            zero = allowing and draw.randrange(2) == 0
            went_in.append((time, arriving_ipv6(draw, traffic_class, draw.randbytes(16), destination, gtpu, zero)))
            comes_out.append((time, over_ipv6(traffic_class, hop_limit, source, destination, promised)))
        else:
            ends = draw.randbytes(4), draw.randbytes(4)
            went_in.append((time, arriving_ipv4(draw, traffic_class, *ends, gtpu)))
            comes_out.append((time, over_ipv4(traffic_class, hop_limit, *ends, promised)))
    (directory / f"in{number}.pcap").write_bytes(pcap(RAW, went_in))
    (directory / f"out{number}.expected").write_bytes(pcap(RAW, comes_out, magic=NANOSECONDS))


def write_d(directory: Path) -> None:
    """Two packets for a trip that starts at End.M.GTP6.D and by chance ends as it began: Args stand in the destination too."""
    inner = yard.to_carrier(b"lane 7: stop")
    with_r = yard.ipv6(yard.UPF6, "2001:db8:77::16:102:304", 0xB8, yard.g_pdu(DOWNLINK, 5, 1, 0x01020304, inner))
    without = yard.ipv6(yard.UPF6, "2001:db8:78::24:102:306", 0xB8, yard.g_pdu(DOWNLINK, 9, 0, 0x01020306, inner))
    (directory / "d.pcap").write_bytes(pcap(RAW, [(0, with_r), (0, without)]))


def main() -> None:
    if len(sys.argv) != 2:
        sys.exit("usage: promise.py DIRECTORY")
    directory = Path(sys.argv[1])
    flipped(directory, 6)
    flipped(directory, 4)
    for number in range(SETS):
        write_set(directory, number)
    write_d(directory)


if __name__ == "__main__":
    main()
