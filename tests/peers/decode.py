"""tshark's reading of packets, and its comparison with what was expected."""

import struct
import subprocess
from pathlib import Path
from typing import Iterable, NamedTuple

import expect
import wire
from draw import INNER_PORTS

# The link is Ethernet with a header of this test's: of raw IP tshark guesses what it is, and takes TOS FF before a length of 03xx for PPP.
LINK_TYPE_ETHERNET = 1
LINK_TO, LINK_FROM = bytes.fromhex("020000000001"), bytes.fromhex("020000000002")
ETHERTYPES = {"ip": 0x0800, "ipv6": 0x86DD}

FIELDS = [
    "frame.protocols", "frame.len", "_ws.expert.message", "_ws.malformed",
    "ipv6.version", "ipv6.tclass", "ipv6.flow", "ipv6.plen", "ipv6.nxt", "ipv6.hlim", "ipv6.src", "ipv6.dst",
    "ipv6.routing.nxt", "ipv6.routing.len", "ipv6.routing.type", "ipv6.routing.segleft", "ipv6.routing.srh.last_entry",
    "ipv6.routing.srh.flags", "ipv6.routing.srh.tag", "ipv6.routing.srh.addr",
    "ip.version", "ip.hdr_len", "ip.dsfield", "ip.len", "ip.id", "ip.flags.rb", "ip.flags.df", "ip.flags.mf", "ip.frag_offset",
    "ip.ttl", "ip.proto", "ip.checksum", "ip.checksum.status", "ip.src", "ip.dst",
    "udp.srcport", "udp.dstport", "udp.length", "udp.checksum", "udp.checksum.status", "udp.payload",
    "gtp.flags", "gtp.flags.version", "gtp.flags.payload", "gtp.flags.reserved", "gtp.flags.e", "gtp.flags.s", "gtp.flags.pn",
    "gtp.message", "gtp.length", "gtp.teid", "gtp.seq_number", "gtp.ext_hdr.next", "gtp.ext_hdr.length", "gtp.ext_hdr.pdu_ses_con.pdu_type",
    "gtp.ext_hdr.pdu_ses_con.qos_flow_id", "gtp.ext_hdr.pdu_ses_cont.ppp", "gtp.ext_hdr.pdu_ses_cont.rqi",
    "eth.dst", "eth.src", "eth.type", "data.data",
]


class View(NamedTuple):
    """The fields that tshark is asked for, and its options."""
    fields: list[str]
    options: list[str]


# without the option a guess at the payload may name another protocol
G_PDUS = View(FIELDS, ["-d", f"udp.port=={INNER_PORTS[0]},data"])
# Of a pair of Echo messages each names the other's frame, which takes two passes. One of two ports is 2152, and without the option the
# lower one may name another protocol.
ECHO = View(FIELDS + ["gtp.npdu_number", "gtp.ext_hdr.pdcp_sn", "gtp.recovery", "gtp.ext_id", "gtp.ext_val", "gtp.response_in",
                      "gtp.response_to"],
            ["-2", "-d", "udp.port==0-65535,gtp"])
# An ICMPv6 message, and the packet that it quotes.
ICMP = View(FIELDS + ["icmpv6.type", "icmpv6.code", "icmpv6.checksum", "icmpv6.checksum.status", "icmpv6.pointer", "icmpv6.reserved",
                      "icmpv6.echo.identifier", "icmpv6.echo.sequence_number"], G_PDUS.options)


def frame(packet: bytes, layer: str) -> bytes:
    """A packet behind the link's header, which names the version that is expected."""
    return wire.ethernet(LINK_TO, LINK_FROM, ETHERTYPES[layer], packet)


def decode(frames: list[bytes], work: Path, view: View = G_PDUS) -> list[dict[str, str]]:
    """For each frame the text of each field."""
    capture = work / "packets.pcap"
    with capture.open("wb") as file:
        file.write(struct.pack("<IHHiIII", 0xA1B2C3D4, 2, 4, 0, 0, 1 << 18, LINK_TYPE_ETHERNET))
        for octets in frames:
            file.write(struct.pack("<IIII", 0, 0, len(octets), len(octets)) + octets)
    shown = read(capture, view)
    if len(shown) != len(frames):
        raise RuntimeError(f"tshark showed {len(shown)} packets of {len(frames)}")
    return shown


def read(capture: Path, view: View = G_PDUS) -> list[dict[str, str]]:
    """The same of a capture. A field that occurs more than once is a list with commas."""
    command = ["tshark", "-n", "-r", str(capture), "-o", "ip.check_checksum:TRUE", "-o", "udp.check_checksum:TRUE"]
    command += [*view.options, "-T", "fields", "-E", "separator=/t", "-E", "occurrence=a", "-E", "aggregator=,"]
    for field in view.fields:
        command += ["-e", field]
    done = subprocess.run(command, stdout=subprocess.PIPE, stderr=subprocess.PIPE, text=True)
    if done.returncode != 0:
        raise RuntimeError(f"tshark ended with {done.returncode}: {done.stderr}")
    return [dict(zip(view.fields, line.split("\t"), strict=True)) for line in done.stdout.split("\n")[:-1]]


def length(pairs: expect.Pairs) -> int:
    """Of the whole frame, by the packet's outer header."""
    field, text = next(pair for pair in pairs if pair[0] in ("ipv6.plen", "ip.len"))
    return 14 + int(text) + (40 if field == "ipv6.plen" else 0)


def texts(pairs: expect.Pairs, fields: Iterable[str]) -> dict[str, str]:
    """The text that each field must have; a field that no header brings must be empty."""
    found: dict[str, list[str]] = {field: [] for field in fields}
    link = expect.ethernet(LINK_TO, LINK_FROM, ETHERTYPES[pairs[0][1]])
    for field, text in [("frame.len", str(length(pairs)))] + link + pairs:
        found[field].append(text)
    return {field: (":" if field == "frame.protocols" else ",").join(values) for field, values in found.items()}


def differences(expected: dict[str, str], shown: dict[str, str]) -> list[str]:
    return [field for field in expected if shown[field] != expected[field]]
