"""Part 4: TEID and sequence number. tshark judges the library's readers: they find a number exactly where the fields that tshark shows are
those of a well-formed G-PDU with S, and it is tshark's."""

from pathlib import Path

import decode
import numbered
import wire
from draw import Draw
from judge import Count
from library import Library
from numbered import Packet

SEED = 4
FOUND = 1 << 48
LAYERS = {"ipv6": "ipv6", "ipv4": "ip"}
CHAINS = {"ipv6": ["eth:ethertype:ipv6:udp:gtp", "eth:ethertype:ipv6:ipv6.routing:udp:gtp"], "ipv4": ["eth:ethertype:ip:udp:gtp"]}


def number(shown: dict[str, str], field: str) -> int:
    """The first of a field, which is the outer header's; -1 where there is none."""
    text = shown[field].split(",")[0]
    return int(text, 0) if text else -1


def conditions(call: str, shown: dict[str, str]) -> dict[str, bool]:
    """What docs/RULES.md, Answers 2, 3, 5 and 7 to 11, asks, and order 13. Of another version or PT than 1 tshark makes another
    protocol."""
    chain = next((chain for chain in CHAINS[call] if f"{shown['frame.protocols']}:".startswith(f"{chain}:")), "")
    chained, routed = chain != "", "ipv6.routing" in chain
    if call == "ipv6":
        length = 40 + number(shown, "ipv6.plen")
        upper = length - 40 - (8 + 8 * number(shown, "ipv6.routing.len") if routed else 0)
    else:
        length = number(shown, "ip.len")
        upper = length - number(shown, "ip.hdr_len")
    return {
        "frame length": number(shown, "frame.len") == 14 + length,
        "IPv4 header length": call == "ipv6" or number(shown, "ip.hdr_len") == 20,
        "IPv4 checksum": call == "ipv6" or number(shown, "ip.checksum.status") == 1,
        "headers": chained,
        "routing type": not routed or number(shown, "ipv6.routing.type") == 4,
        "SL": not routed or number(shown, "ipv6.routing.segleft") == 0,
        "port": not chained or number(shown, "udp.dstport") == wire.GTPU_PORT,
        "UDP length": not chained or number(shown, "udp.length") == upper,
        "GTP-U length": not chained or number(shown, "gtp.length") == number(shown, "udp.length") - 16,
        "G-PDU": not chained or number(shown, "gtp.message") == wire.G_PDU,
        "S": not chained or number(shown, "gtp.flags.s") == 1,
        "twelve octets": number(shown, "gtp.flags.s") != 1 or number(shown, "gtp.length") >= 4,
    }


def sequence(shown: dict[str, str]) -> int:
    """What a reader must give where every condition holds."""
    return FOUND | number(shown, "gtp.teid") << 16 | number(shown, "gtp.seq_number")


def stopped(shown: dict[str, str]) -> bool:
    """tshark reads no further than an SRH whose LE passes the segments that it holds; with SL 0 the rules do not examine LE."""
    return 2 * (number(shown, "ipv6.routing.srh.last_entry") + 1) > number(shown, "ipv6.routing.len") >= 0


class Readers:
    def __init__(self, library: Library, work: Path, count: Count) -> None:
        self.library, self.work, self.count = library, work, count
        self.found = self.stopped = 0
        self.alone: dict[str, int] = {}  # of each condition, in how many packets it was the only one that did not hold

    def judge(self, packets: list[Packet], whole: bool) -> None:
        frames = [decode.frame(packet.octets, LAYERS[packet.call]) for packet in packets]
        for packet, shown in zip(packets, decode.decode(frames, self.work), strict=True):
            if whole and (shown["_ws.expert.message"] or shown["_ws.malformed"]):
                raise RuntimeError(f"tshark on a whole packet: {shown['_ws.expert.message']}: {packet.octets.hex()}")
            if stopped(shown):
                self.stopped += 1
            else:
                self.compare(packet, shown)

    def compare(self, packet: Packet, shown: dict[str, str]) -> None:
        holds = conditions(packet.call, shown)
        broken = [name for name in holds if not holds[name]]
        for name in holds:
            self.alone[name] = self.alone.get(name, 0) + (broken == [name])
        expected = 0 if broken else sequence(shown)
        self.found += expected != 0
        self.count.readings += 1
        given = self.library.sequence(packet.call, packet.octets)
        if given != expected:
            asked = ", ".join(broken) or "nothing"
            self.count.differ(f"difference: expected {expected:x}, the reader gives {given:x}; not as asked: {asked}",
                              f"call: sequence-{packet.call} {packet.octets.hex()}")


def run(library: Library, work: Path, count: Count) -> str:
    draw = Draw(SEED)
    readers = Readers(library, work, count)
    readers.judge([*numbered.whole(draw)], True)
    readers.judge([*numbered.spoiled(draw), *numbered.refused(draw)], False)
    blind = [name for name in readers.alone if readers.alone[name] == 0]
    if blind:
        raise RuntimeError(f"no packet breaks these conditions alone: {', '.join(blind)}")
    return f"{count.readings} packets for the readers, {readers.found} with a number; in {readers.stopped} more tshark stops at the SRH"
