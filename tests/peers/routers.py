"""Part 7, its end: the kernel's own ICMPv6 messages. About the same packet a router's Time Exceeded, and the Parameter Problem of an SRv6
node, are octet for octet what the library builds at a waypoint whose entry has the node's address and hop limit."""

import time

import expect
import icmp
import network
import table
import wire
from draw import SMALLEST, Draw
from judge import Count
from library import Library

SEED = 12
NODE = "near"
ADDRESS = bytes.fromhex("20010db8009900000000000000000001")
PACKETS = 20  # of each hop limit and kind of message
HOP_LIMITS = (1, 64, 255)
LENGTHS = (wire.QUOTED - 1, wire.QUOTED, wire.QUOTED + 1, 8000)


class Router:
    """The node near: it forwards, and has one address, which is a SID too."""

    def __init__(self, library: Library, chain: network.Network, count: Count) -> None:
        self.library, self.chain, self.count, self.draw = library, chain, count, Draw(SEED)
        self.seen = {"messages": 0, "none": 0}
        chain.ip(NODE, "link", "set", "lo", "up")
        chain.ip(NODE, "address", "add", f"{expect.address(ADDRESS)}/128", "dev", "lo")
        # as many messages as are due, the rate of none but type 2 being limited; and with flow label 0, as order 6 has it
        chain.sysctl(NODE, "net.ipv6.icmp.ratemask=2", "net.ipv6.auto_flowlabels=0")

    def set_hop_limit(self, hop_limit: int) -> None:
        self.chain.sysctl(NODE, f"net.ipv6.conf.out.hop_limit={hop_limit}")

    def message(self, packet: bytes, following: bytes = b"") -> bytes | None:
        """What the kernel sends about a packet; with a packet that follows, about which it does, it may send none."""
        found: dict[bytes, bytes] = {}
        last, end = following or packet, time.monotonic() + network.PATIENCE
        for one in filter(None, (packet, following)):
            self.chain.send("user", one)
        while last[8:24] not in found:
            frame = self.chain.taps[network.LINKS[0]].next_frame(end)
            if frame is None:
                raise RuntimeError(f"{NODE} sends no message about {last.hex()}")
            found[frame[14 + 24:14 + 40]] = frame[14:]
        return found.get(packet[8:24])

    def compare(self, what: str, packet: bytes, hop_limit: int, kernel: bytes | None) -> None:
        octets = table.table([table.entry(table.WAYPOINT, packet[24:40], 128, hop_limit, source=ADDRESS)])
        answer = self.library.call("icmp", packet, octets)
        self.seen["none" if kernel is None else "messages"] += 1
        self.count.messages += 1
        expected = (icmp.NONE_DUE, 0, 0, 0, b"") if kernel is None else (0, 0, 0, 0, kernel)
        if answer != expected:
            self.count.differ(f"difference: {what}: the kernel sends {kernel.hex() if kernel else None}",
                              f"library: answer {answer.number}, built {answer.sent.hex()}", f"call: icmp {packet.hex()} {octets.hex()}")

    def packet(self, length: int, destination: bytes, hop_limit: int, left: int, last: int, segments: int) -> bytes:
        """A packet in a packet behind an SRH."""
        header = wire.srh(wire.NEXT_IPV6, [self.draw.ipv6() for _ in range(segments)], left, last, 0, self.draw.bits(16))
        inner = self.draw.inner("IPv6", length - 40 - len(header)).octets
        return wire.ipv6(self.draw.bits(8), self.draw.bits(20), wire.NEXT_ROUTING, hop_limit, self.draw.ipv6(), destination, header + inner)

    def length(self, segments: int) -> int:
        return self.draw.choice([*LENGTHS, self.draw.randrange(48 + 16 * segments + SMALLEST, 1500)])

    def time_exceeded(self) -> bytes:
        """A packet that the node does not forward. For the library its destination is a waypoint's."""
        segments = self.draw.randrange(1, 9)
        left = self.draw.randrange(1, segments + 1)
        return self.packet(self.length(segments), self.draw.ipv6(), 1, left, segments - 1, segments)

    def bad_segments_left(self) -> bytes:
        """A packet for the node's SID, with SL beyond LE + 1."""
        segments = self.draw.randrange(1, 9)
        hop_limit, left = self.draw.randrange(2, 256), self.draw.randrange(segments + 1, 256)
        return self.packet(self.length(segments), ADDRESS, hop_limit, left, segments - 1, segments)

    def errors(self) -> None:
        for hop_limit in HOP_LIMITS:
            self.set_hop_limit(hop_limit)
            for make in (self.time_exceeded, self.bad_segments_left):
                for _ in range(PACKETS):
                    packet = make()
                    self.compare(make.__name__, packet, hop_limit, self.message(packet))

    def types(self) -> None:
        """Every ICMPv6 type but Redirect, about which the kernel sends a message: about errors it sends none."""
        self.set_hop_limit(HOP_LIMITS[-1])
        for kind in range(256):
            if kind == wire.REDIRECT:
                continue
            source, sid, segment = self.draw.ipv6(), self.draw.ipv6(), self.draw.ipv6()
            message = wire.icmpv6(source, segment, kind, 0, self.draw.randbytes(self.draw.randrange(4, 100)))
            header = wire.srh(wire.NEXT_ICMPV6, [segment], 1, 0)
            packet = wire.ipv6(0, 0, wire.NEXT_ROUTING, 1, source, sid, header + message)
            kernel = self.message(packet, b"" if kind >= wire.PING else self.time_exceeded())
            self.compare(f"ICMPv6 type {kind}", packet, HOP_LIMITS[-1], kernel)


def run(library: Library, chain: network.Network, count: Count) -> str:
    router, before = Router(library, chain, count), count.differences
    router.errors()
    router.types()
    total = sum(router.seen.values())
    return (f"about {total - (count.differences - before)} of {total} packets the library builds what the kernel sends, octet for octet: "
            f"{router.seen['messages']} messages, and {router.seen['none']} times none")
