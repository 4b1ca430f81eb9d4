"""icmp.py DIRECTORY: for icmp.sh: the description of a table with an entry of each kind, stops.yaml; a capture of packets that it refuses
with 6, 7 and 8, and of others between them, icmp-refused.pcap; and what is expected of them: the ICMPv6 messages, icmp-refused.expected,
and the lines of a trace, icmp-refused.lines. So with icmp-none, icmp-from-nobody, icmp-framed, icmp-read, which has ICMPv6 to be
described, and icmp-many, which is long; icmp-passed.pcap is for a trip.

The messages are laid out here by RFC 4443, sections 2.3, 2.4, 3.3 and 3.4, and order 6, and not by the library.
"""

import struct
import sys
from ipaddress import ip_address
from pathlib import Path

sys.dont_write_bytecode = True
import captures  # noqa: E402

yard = captures.yard

TIME_EXCEEDED, PARAMETER_PROBLEM = 3, 4
ERRONEOUS_FIELD, UPPER_LAYER = 0, 4  # codes of the latter (RFC 4443, RFC 8754)
IPV4, TCP, UDP, IPV6, ROUTING, ICMPV6, NONE, ETHERNET = 4, 6, 17, 41, 43, 58, 59, 143
NAMES = {1: "Destination Unreachable", 2: "Packet Too Big", 3: "Time Exceeded", 4: "Parameter Problem", 128: "Echo Request",
         129: "Echo Reply", 137: "Redirect"}
QUOTED_MOST = 1280 - 40 - 8
SENDER = "2001:db8:a0::1"

# by prefix: kind, hop limit and source of its entry, which are those of the messages
ENTRIES = {
    "2001:db8:1::/48": ("End", 61, "2001:db8:e::1"),
    "2001:db8:3::/48": ("End", 60, "::"),
    "2001:db8:4::/48": ("End.M.GTP6.D", 62, "2001:db8:e::4"),
    "2001:db8:77::/48": ("End.M.GTP6.D.Di", 255, "2001:db8:e::77"),
    "2001:db8:77:5::/64": ("End", 1, "2001:db8:e::75"),
    "2001:db8:b:1::/64": ("End.M.GTP6.E", 65, "2001:db8:e::b"),
    "2001:db8:c1::/48": ("End.M.GTP4.E", 66, "2001:db8:e::c"),
    "ff00::/8": ("End", 67, "2001:db8:e::ff"),
}
WAYPOINT, NOBODY, D, DI, LONGER, E6, E4, GROUP = list(ENTRIES)


def description() -> str:
    """Sessions are of type IPv4, and packets go downlink."""
    lines = ["format: 1", 'policies: [{name: p, last-sid: "2001:db8:9::", args-octet: 8}]', "entries:"]
    for number, (prefix, (kind, hop_limit, source)) in enumerate(ENTRIES.items()):
        more = "" if source == "::" else f', source: "{source}"'
        if kind != "End":
            more += ", direction: downlink, session-type: IPv4"
        more += {"End": "", "End.M.GTP6.E": ", args-octet: 8, source-port: 2152",
                 "End.M.GTP4.E": ", p: 6, q: 8, source-port: 2152"}.get(kind, ", policy: p")
        lines.append(f'- {{name: e{number}, behaviour: {kind}, prefix: "{prefix}", hop-limit: {hop_limit}{more}}}')
    lines.append('rules: [{name: r, prefix: 192.0.2.0/24, hop-limit: 64, direction: downlink, session-type: IPv4, p: 6, q: 8, '
                 'sid-prefix: "2001:db8:c2::", source-prefix: "2001:db8:d2::"}]')
    return "\n".join(lines) + "\n"


def ipv6(destination: str, next_header: int, payload: bytes = b"", source: str = SENDER, hop_limit: int = 64, front: int = 0) -> bytes:
    """Front: traffic class and flow label."""
    header = struct.pack(">IHBB", 6 << 28 | front, len(payload), next_header, hop_limit)
    return header + ip_address(source).packed + ip_address(destination).packed + payload


def srh(next_header: int, segments_left: int, count: int, last_entry: int | None = None, tlvs: bytes = b"") -> bytes:
    """A segment routing header (RFC 8754) of so many segments; none of them is where the packet is."""
    segments = b"".join(ip_address(f"2001:db8:5::{number + 1:x}").packed for number in range(count))
    last = count - 1 if last_entry is None else last_entry
    return bytes([next_header, (16 * count + len(tlvs)) // 8, 4, segments_left, last, 0, 0, 0]) + segments + tlvs


def datagram(port: int, payload: bytes = b"") -> bytes:
    return struct.pack(">HHHH", 5000, port, 8 + len(payload), 0) + payload


def ping(kind: int = 128, length: int = 8) -> bytes:
    """An ICMPv6 message of this type; its checksum is nobody's matter here."""
    return (bytes([kind, 0, 0xBE, 0xEF]) + struct.pack(">I", 1) + bytes(range(256)) * 8)[:length]


def sized(prefix: str, next_header: int, length: int) -> bytes:
    """A packet of so many octets in all."""
    return ipv6(inside(prefix), next_header, (bytes(range(1, 252)) * 300)[:length - 40])


def inside(prefix: str) -> str:
    return str(ip_address(prefix.partition("/")[0]) + 9)


def ones_complement_sum(octets: bytes) -> int:
    octets += bytes(len(octets) % 2)
    total = sum(octets[at] << 8 | octets[at + 1] for at in range(0, len(octets), 2))
    while total > 0xFFFF:
        total = (total >> 16) + (total & 0xFFFF)
    return total


def message(packet: bytes, prefix: str, kind: int, code: int, pointer: int) -> bytes:
    """RFC 4443: an IPv6 header, type, code, checksum, pointer (unused in Time Exceeded), and as much of the packet as fits into 1,280."""
    _, hop_limit, source = ENTRIES[prefix]
    quoted = packet[:QUOTED_MOST]
    header = bytes([0x60, 0, 0, 0]) + struct.pack(">HBB", 8 + len(quoted), ICMPV6, hop_limit) + ip_address(source).packed + packet[8:24]
    pseudo_header = header[8:40] + struct.pack(">IHBB", 8 + len(quoted), 0, 0, ICMPV6)  # RFC 8200, section 8.1
    body = struct.pack(">BBHI", kind, code, 0, pointer) + quoted
    checksum = ones_complement_sum(pseudo_header + body) ^ 0xFFFF
    octets = header + body[:2] + struct.pack(">H", checksum) + body[4:]
    assert len(octets) <= 1280 and ones_complement_sum(pseudo_header + octets[40:]) == 0xFFFF
    return octets


class Case:
    """A packet, and what the tool has to say and write of it: a message, or why none is due; nothing of what has no ICMP type."""

    def __init__(self, packet: bytes, prefix: str = "", kind: int = 0, code: int = 0, pointer: int = 0, none_due: str = "") -> None:
        self.packet, self.none_due = packet, none_due
        self.message = message(packet, prefix, kind, code, pointer) if prefix and not none_due else b""
        self.pointer = pointer

    def line(self) -> str:
        """The line of the trace, or nothing."""
        if self.none_due:
            return f"  ICMPv6 message: none is due: {self.none_due}\n"
        if not self.message:
            return ""
        source, destination = ip_address(self.message[8:24]), ip_address(self.message[24:40])
        kind, code = self.message[40], self.message[41]
        pointer = f", pointer {self.pointer}" if kind == PARAMETER_PROBLEM else ""
        nobody = "; routers drop it, since the entry has no source" if str(source) == "::" else ""
        return f"  ICMPv6 message: IPv6 {source} > {destination}, traffic class 0x00, ICMPv6 {NAMES[kind]}, code {code}{pointer}, " \
               f"{len(self.message)} octets{nobody}\n"


def upper(packet: bytes, prefix: str, pointer: int = 40, none_due: str = "") -> Case:
    """Refused with 8."""
    return Case(packet, prefix, PARAMETER_PROBLEM, UPPER_LAYER, pointer, none_due)


def segments_left(packet: bytes, prefix: str) -> Case:
    """Refused with 7: the pointer is at Segments Left."""
    return Case(packet, prefix, PARAMETER_PROBLEM, ERRONEOUS_FIELD, 43)


def hop_limit(packet: bytes, prefix: str) -> Case:
    """Refused with 6."""
    return Case(packet, prefix, TIME_EXCEEDED)


def to(prefix: str, next_header: int, payload: bytes = b"", **more: str | int) -> bytes:
    return ipv6(inside(prefix), next_header, payload, **more)  # type: ignore[arg-type]


def behind_srh(prefix: str, left: int, count: int, next_header: int, payload: bytes = b"", **more: str | int) -> bytes:
    return to(prefix, ROUTING, srh(next_header, left, count) + payload, **more)


def answered_six() -> list[Case]:
    return [hop_limit(behind_srh(prefix, left, count, IPV4, b"\x45" + bytes(39), hop_limit=limit), prefix)
            for prefix, left, count, limit in [(WAYPOINT, 1, 1, 1), (WAYPOINT, 3, 3, 0), (LONGER, 2, 7, 1), (NOBODY, 1, 2, 1)]]


def answered_seven() -> list[Case]:
    beyond = to(WAYPOINT, ROUTING, srh(IPV4, 1, 2, last_entry=2) + b"\x45" + bytes(19))
    above = to(WAYPOINT, ROUTING, srh(UDP, 4, 3, last_entry=1) + datagram(2152))
    return [
        segments_left(behind_srh(D, 1, 1, UDP, datagram(2152, bytes(20))), D),
        segments_left(behind_srh(DI, 2, 3, UDP, datagram(2152, bytes(21)), front=0xB8ABCDE), DI),
        segments_left(behind_srh(E6, 0, 2, IPV4, bytes(20)), E6),
        segments_left(behind_srh(E6, 2, 2, IPV4, bytes(1300)), E6),
        segments_left(behind_srh(E4, 1, 1, IPV4), E4),
        segments_left(beyond, WAYPOINT),
        segments_left(above, WAYPOINT),
    ]


def answered_eight() -> list[Case]:
    tlvs = to(DI, ROUTING, srh(TCP, 0, 1, tlvs=bytes([1, 6]) + bytes(6)) + bytes(20))
    return [
        upper(to(D, TCP, bytes(20)), D),
        upper(to(DI, UDP, datagram(2153)), DI),
        upper(to(DI, NONE), DI),
        upper(to(E4, IPV6, bytes(40)), E4),
        upper(to(WAYPOINT, UDP, datagram(2152)), WAYPOINT),
        upper(to(LONGER, UDP, datagram(2152)), LONGER),
        upper(behind_srh(DI, 0, 2, TCP, bytes(20)), DI, 40 + 8 + 32),
        upper(behind_srh(E6, 1, 2, ETHERNET, bytes(14)), E6, 40 + 8 + 32),
        upper(behind_srh(E4, 0, 1, UDP, datagram(2152)), E4, 40 + 8 + 16),
        upper(behind_srh(WAYPOINT, 0, 7, IPV4, bytes(20)), WAYPOINT, 40 + 8 + 112),
        upper(behind_srh(DI, 0, 126, TCP, bytes(20)), DI, 40 + 8 + 16 * 126),  # which lies behind what is quoted
        upper(tlvs, DI, 40 + 8 + 16 + 8),
        upper(to(DI, TCP, bytes(20), source="fe80::1"), DI),
        upper(to(DI, TCP, bytes(20), source="::1"), DI),
        upper(to(DI, TCP, bytes(20), source="feff::"), DI),
    ]


def lengths() -> list[Case]:
    """All of a packet is quoted, or its first 1,232 octets."""
    return [upper(sized(DI, TCP, length), DI) for length in (40, 41, 1231, 1232, 1233, 1280, 1500, 65575)]


def zero_checksum() -> list[Case]:
    """A message whose checksum is computed as 0, which stays 0: only UDP has FFFF in its place."""
    made = upper(to(DI, TCP, bytes(22)), DI)
    spare = struct.unpack(">H", made.message[42:44])[0]
    zero = upper(to(DI, TCP, bytes(20) + struct.pack(">H", spare)), DI)
    assert zero.message[42:44] == bytes(2)
    return [zero]


def exceptions() -> list[Case]:
    """Each of RFC 4443, section 2.4 e, and their neighbours."""
    def error(kind: int) -> str:
        return f"the upper layer is ICMPv6 of type {kind}, an error message"

    redirect = "the upper layer is ICMPv6 of type 137, a Redirect"
    cases = [upper(to(DI, ICMPV6, ping(kind)), DI, none_due=error(kind)) for kind in (0, 1, 2, 3, 4, 100, 127)]
    cases += [upper(to(DI, ICMPV6, ping(kind)), DI) for kind in (128, 129, 136, 138, 200, 255)]
    cases += [upper(to(DI, ICMPV6, ping(137)), DI, none_due=redirect)]
    # behind an SRH, at a waypoint too; cut behind the type, and before it
    cases += [
        upper(behind_srh(DI, 0, 2, ICMPV6, ping(3)), DI, 80, error(3)),
        upper(behind_srh(DI, 0, 2, ICMPV6, ping(128)), DI, 80),
        Case(behind_srh(WAYPOINT, 1, 1, ICMPV6, ping(1), hop_limit=1), WAYPOINT, TIME_EXCEEDED, none_due=error(1)),
        hop_limit(behind_srh(WAYPOINT, 1, 1, ICMPV6, ping(135), hop_limit=1), WAYPOINT),
        Case(behind_srh(D, 1, 1, ICMPV6, ping(137)), D, PARAMETER_PROBLEM, none_due=redirect),
        upper(to(DI, ICMPV6, ping(4, 1)), DI, none_due=error(4)),
        upper(to(DI, ICMPV6, ping(128, 1)), DI),
        upper(to(DI, ICMPV6), DI),
        upper(behind_srh(DI, 0, 1, ICMPV6), DI, 64),
    ]
    # sources and destinations; the first that applies is told
    cases += [
        upper(to(DI, TCP, bytes(20), source="ff02::1"), DI, none_due="the source is multicast"),
        upper(to(DI, TCP, bytes(20), source="ffff::"), DI, none_due="the source is multicast"),
        upper(to(DI, TCP, bytes(20), source="::"), DI, none_due="the source is unspecified"),
        upper(to(DI, ICMPV6, ping(1), source="::"), DI, none_due="the source is unspecified"),
        upper(ipv6("ff02::1", TCP, bytes(20)), GROUP, none_due="the destination is multicast"),
        upper(ipv6("ff02::1", ICMPV6, ping(1), source="ff02::2"), GROUP, none_due="the source is multicast"),
        Case(ipv6("ff0e::9", ROUTING, srh(IPV4, 1, 1) + bytes(20), hop_limit=0), GROUP, TIME_EXCEEDED,
             none_due="the destination is multicast"),
    ]
    # a group among the segments is none in the header
    group = ip_address("ff02::1").packed
    cases.append(upper(to(DI, ROUTING, bytes([TCP, 2, 4, 0, 0, 0, 0, 0]) + group + bytes(20)), DI, 64))
    # messages of this very table that come back to its SIDs
    for case in (answered_six()[0], answered_seven()[0], answered_eight()[0]):
        returned = case.message[:24] + ip_address(inside(DI)).packed + case.message[40:]
        cases.append(upper(returned, DI, none_due=error(case.message[40])))
    return cases


def others() -> list[Case]:
    """What has no ICMP type: sent, answered, refused otherwise, and over IPv4, where 8 has none."""
    g_pdu = yard.g_pdu(yard.DOWNLINK, 5, 1, 0x01020304, yard.to_carrier(b"lane 7: stop"))
    return [Case(packet) for packet in [
        yard.ipv6(SENDER, inside(DI), 0xB8, g_pdu),
        yard.ipv4("198.51.100.7", "192.0.2.9", 0, g_pdu),
        yard.ipv4("198.51.100.7", "192.0.2.9", 0, yard.udp(2152, 2153, b"none over IPv4")),
        yard.ipv4("198.51.100.7", "192.0.9.9", 0, g_pdu),
        yard.ipv6(SENDER, inside(D), 0, captures.echo_request(7, 2152)),
        captures.with_checksum(yard.ipv6(SENDER, inside(DI), 0, g_pdu), 0),
        yard.ipv6(SENDER, "2001:db8:ffff::", 0, g_pdu),
        to(DI, 44, bytes(8)),
        to(DI, TCP, bytes(20))[:59],
        behind_srh(WAYPOINT, 1, 1, ICMPV6, ping(1)),
    ]]


def mixed(refused: list[Case], other: list[Case]) -> list[Case]:
    """The others between them, again and again."""
    cases = []
    for number, case in enumerate(refused):
        cases += [case] if number % 3 else [other[number // 3 % len(other)], case]
    return cases


def described() -> list[Case]:
    """ICMPv6 of many types, whole and cut, which is passed on: only what is said of it counts. Then 58 over IPv4, which is no ICMPv6."""
    bodies = [ping(kind) for kind in (0, 1, 2, 3, 4, 5, 127, 128, 129, 133, 137, 255)] + [ping(4, length) for length in (8, 7, 2, 1, 0)]
    over4 = bytearray(yard.ipv4("198.51.100.7", "192.0.2.9", 0, ping(4)))
    over4[9], over4[10:12] = ICMPV6, bytes(2)
    over4[10:12] = struct.pack(">H", ones_complement_sum(bytes(over4[:20])) ^ 0xFFFF)
    return [Case(behind_srh(WAYPOINT, 1, 1, ICMPV6, body)) for body in bodies] + [Case(bytes(over4))]


def passed() -> list[bytes]:
    """To the yard's gate, then to Di here, which refuses them: TCP, and an ICMPv6 error; and one that the gate refuses with 6."""
    def packet(next_header: int, payload: bytes, limit: int = 64) -> bytes:
        header = bytes([next_header, 2, 4, 1, 0, 0, 0, 0]) + ip_address(inside(DI)).packed
        return ipv6("2001:db8:1::e", ROUTING, header + payload, hop_limit=limit)

    return [packet(TCP, bytes(20)), packet(ICMPV6, ping(2)), packet(TCP, bytes(20), 1)]


def write(directory: Path, name: str, cases: list[Case], framed: bool = False) -> None:
    """The times do not ascend, so that each message shows whose it has. Framed: in padded Ethernet frames."""
    times = [(number * 7919 + 13) % 1000000 for number in range(len(cases))]
    frames = [(time, captures.tagged(case.packet) + bytes(9) if framed else case.packet) for time, case in zip(times, cases)]
    expected = [(time, case.message) for time, case in zip(times, cases) if case.message]
    (directory / f"icmp-{name}.pcap").write_bytes(captures.pcap(captures.ETHERNET if framed else captures.RAW, frames))
    (directory / f"icmp-{name}.expected").write_bytes(captures.pcap(captures.RAW, expected, magic=captures.NANOSECONDS))
    (directory / f"icmp-{name}.lines").write_text("".join(case.line() for case in cases), encoding="ascii")


def main() -> None:
    if len(sys.argv) != 2:
        sys.exit("usage: icmp.py DIRECTORY")
    directory = Path(sys.argv[1])
    (directory / "stops.yaml").write_text(description(), encoding="ascii")
    six, seven, eight = answered_six(), answered_seven(), answered_eight()
    write(directory, "refused", mixed(six + seven + eight + lengths() + zero_checksum() + exceptions(), others()))
    write(directory, "none", others())
    write(directory, "from-nobody", [six[0], six[3], upper(to(NOBODY, UDP), NOBODY)])
    write(directory, "read", described())
    write(directory, "framed", eight[3:] + lengths()[1:], True)
    write(directory, "many", (lengths()[2:6] + others()[:2]) * 300)
    (directory / "icmp-passed.pcap").write_bytes(captures.pcap(captures.RAW, [(0, packet) for packet in passed()]))


if __name__ == "__main__":
    main()
