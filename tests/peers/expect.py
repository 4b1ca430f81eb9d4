"""What tshark must show of each header, as pairs of a field and its text. A packet's expectation is the pairs of its headers in order."""

import ipaddress

import wire

Pairs = list[tuple[str, str]]

BAD, GOOD, UNVERIFIED, ABSENT = "0", "1", "2", "3"  # tshark's names for the status of a checksum


def address(octets: bytes) -> str:
    return str(ipaddress.ip_address(octets))


def layer(name: str) -> Pairs:
    return [("frame.protocols", name)]


def ipv6(tclass: int, flow: int, payload_length: int, next_header: int, hop_limit: int, source: bytes, destination: bytes) -> Pairs:
    return layer("ipv6") + [
        ("ipv6.version", "6"),
        ("ip.version", "6"),  # tshark gives it for both versions
        ("ipv6.tclass", f"0x{tclass:08x}"),
        ("ipv6.flow", f"0x{flow:06x}"),
        ("ipv6.plen", str(payload_length)),
        ("ipv6.nxt", str(next_header)),
        ("ipv6.hlim", str(hop_limit)),
        ("ipv6.src", address(source)),
        ("ipv6.dst", address(destination)),
    ]


def srh(next_header: int, length: int, left: int, last: int, flags: int, tag: int, segments: list[bytes]) -> Pairs:
    return layer("ipv6.routing") + [
        ("ipv6.routing.nxt", str(next_header)),
        ("ipv6.routing.len", str(length)),
        ("ipv6.routing.type", "4"),
        ("ipv6.routing.segleft", str(left)),
        ("ipv6.routing.srh.last_entry", str(last)),
        ("ipv6.routing.srh.flags", f"0x{flags:02x}"),
        ("ipv6.routing.srh.tag", f"{tag:04x}"),
    ] + [("ipv6.routing.srh.addr", address(segment)) for segment in segments]


def ipv4(tos: int, total_length: int, identification: int, dont_fragment: bool, ttl: int, protocol: int, checksum: int,
         source: bytes, destination: bytes) -> Pairs:
    pairs = layer("ip") + [
        ("ip.version", "4"),
        ("ip.hdr_len", "20"),
        ("ip.dsfield", f"0x{tos:02x}"),
        ("ip.len", str(total_length)),
        ("ip.id", f"0x{identification:04x}"),
        ("ip.flags.rb", "0"),
        ("ip.flags.df", str(int(dont_fragment))),
        ("ip.flags.mf", "0"),
        ("ip.frag_offset", "0"),
        ("ip.ttl", str(ttl)),
        ("ip.proto", str(protocol)),
        ("ip.checksum", f"0x{checksum:04x}"),
        ("ip.checksum.status", GOOD),
        ("ip.src", address(source)),
        ("ip.dst", address(destination)),
    ]
    if ttl < 5:  # a remark of tshark's, not a fault: an entry may have any TTL from 1
        pairs += remark(f'"Time To Live" only {ttl}')
    return pairs


def udp(source_port: int, destination_port: int, checksum: int, status: str, payload: bytes) -> Pairs:
    return layer("udp") + [
        ("udp.srcport", str(source_port)),
        ("udp.dstport", str(destination_port)),
        ("udp.length", str(8 + len(payload))),
        ("udp.checksum", f"0x{checksum:04x}"),
        ("udp.checksum.status", status),
        ("udp.payload", payload.hex()),
    ]


def message(kind: int, teid: int, flags: int, length: int) -> Pairs:
    """The first eight octets of a GTP-U message; the flags are those of the low four bits."""
    return layer("gtp") + [
        ("gtp.flags", f"0x{0x30 | flags:02x}"),
        ("gtp.flags.version", "1"),
        ("gtp.flags.payload", "1"),
        ("gtp.flags.reserved", str(flags >> 3)),
        ("gtp.flags.e", str(flags >> 2 & 1)),
        ("gtp.flags.s", str(flags >> 1 & 1)),
        ("gtp.flags.pn", str(flags & 1)),
        ("gtp.message", f"0x{kind:02x}"),
        ("gtp.length", str(length)),
        ("gtp.teid", f"0x{teid:08x}"),
    ]


def container(direction: int, qfi: int, reflective: int) -> Pairs:
    """Of one unit."""
    pairs = [
        ("gtp.ext_hdr.length", "1"),
        ("gtp.ext_hdr.pdu_ses_con.pdu_type", str(direction)),
        ("gtp.ext_hdr.pdu_ses_con.qos_flow_id", str(qfi)),
    ]
    if direction == 0:  # downlink; uplink has neither bit
        pairs += [("gtp.ext_hdr.pdu_ses_cont.ppp", "0"), ("gtp.ext_hdr.pdu_ses_cont.rqi", str(reflective))]
    return pairs


def extension_types(kinds: list[int]) -> Pairs:
    """Those of the extensions in order; behind the last stands 0."""
    return [("gtp.ext_hdr.next", f"0x{kind:02x}") for kind in [*kinds, 0]]


def gtpu(teid: int, length: int, direction: int, qfi: int, reflective: int) -> Pairs:
    """E alone, one container of one unit."""
    return (message(wire.G_PDU, teid, wire.E, length) + extension_types([wire.PDU_SESSION_CONTAINER])
            + container(direction, qfi, reflective))


def number(sequence_number: int) -> Pairs:
    return [("gtp.seq_number", f"0x{sequence_number:04x}")]


def recovery(restarts: int) -> Pairs:
    return [("gtp.recovery", str(restarts))]


def echo_response(sequence_number: int) -> Pairs:
    return message(wire.ECHO_RESPONSE, 0, wire.S, 6) + number(sequence_number) + recovery(0)


def icmpv6(kind: int, code: int, checksum: int, status: str) -> Pairs:
    """The first four octets of a message."""
    return layer("icmpv6") + [
        ("icmpv6.type", str(kind)),
        ("icmpv6.code", str(code)),
        ("icmpv6.checksum", f"0x{checksum:04x}"),
        ("icmpv6.checksum.status", status),
    ]


def icmp_error(kind: int, code: int, checksum: int, pointer: int) -> Pairs:
    """The eight octets before the packet that is quoted."""
    rest = ("icmpv6.pointer", str(pointer)) if kind == wire.PARAMETER_PROBLEM else ("icmpv6.reserved", "00000000")
    return icmpv6(kind, code, checksum, GOOD) + [rest]


def remark(text: str) -> Pairs:
    """One of tshark's own."""
    return [("_ws.expert.message", text)]


def ethernet(destination: bytes, source: bytes, ethertype: int) -> Pairs:
    return layer("eth:ethertype") + [
        ("eth.dst", destination.hex(":")),
        ("eth.src", source.hex(":")),
        ("eth.type", f"0x{ethertype:04x}"),
    ]


def data(payload: bytes) -> Pairs:
    return layer("data") + [("data.data", payload.hex())]
