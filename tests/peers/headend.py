"""Part 3: the kernel's headend (H.Encaps, reduced or not, of packets and of frames) builds SRv6 packets from plain ones, the kernel's End
passes them on, and the library takes them: at waypoints, at E6 and at E4. What docs/RULES.md refuses of them, it refuses."""

import socket
from dataclasses import dataclass
from typing import Callable, Iterator

import expect
import network
import outgoing
import table
import wire
from draw import Draw, Inner
from judge import Count, Sent
from library import Library
from trips import FAR_PREFIX, waypoints
from walk import Walk

SEED = 3
MODES = ["encap", "encap.red", "l2encap", "l2encap.red"]
MOST_WAYPOINTS = 3
PACKETS = 3  # of each route


@dataclass(frozen=True)
class Gateway:
    """A far gateway: its table, the end of the path to it, the source that its packets have, what it writes for a traffic class and an
    inner packet."""
    name: str
    table: bytes
    path: list[bytes]
    source: bytes
    write: Callable[[int, Inner], expect.Pairs]


def e6(draw: Draw, session: int) -> Gateway:
    flow, direction, hop_limit, source, port = draw.flow(), draw.bits(1), draw.hop_limit(), draw.ipv6(), draw.source_port()
    destination, a = draw.ipv6(), draw.randrange(len(FAR_PREFIX), 12)
    sid = outgoing.place(draw.filled(FAR_PREFIX), a, flow.args(flow.reflective, draw.bits(1)))
    entry = table.entry(table.E6, sid, 48, hop_limit, direction, session, a=a, source_port=port, source=source)
    return Gateway("E6", table.table([entry]), [sid, destination], draw.ipv6(),
                   lambda tclass, inner: outgoing.e6(tclass, hop_limit, source, destination, port, flow, direction, inner))


def e4(draw: Draw, session: int) -> Gateway:
    flow, direction, ttl, source, port = draw.flow(), draw.bits(1), draw.hop_limit(), draw.ipv4(), draw.source_port()
    destination, p, q = draw.ipv4(), draw.randrange(8), draw.randrange(13)
    sid = draw.filled(draw.ipv6()[:p] + destination + flow.args(flow.reflective, draw.bits(1)))
    entry = table.entry(table.E4, sid, 8 * p, ttl, direction, session, p=p, q=q, source_port=port)
    return Gateway("E4", table.table([entry]), [sid], draw.filled(draw.ipv6()[:q] + source),
                   lambda tclass, inner: outgoing.e4(tclass, ttl, source, destination, port, flow, direction, inner))


def text(address: bytes) -> str:
    return socket.inet_ntop(socket.AF_INET6 if len(address) == 16 else socket.AF_INET, address)


class Headend:
    """The node near, with a route of its own for each destination."""

    def __init__(self, chain: network.Network, draw: Draw) -> None:
        self.chain, self.draw = chain, draw

    def route(self, mode: str, shape: str, segments: list[bytes], source: bytes) -> bytes:
        """Gives the destination that takes the route."""
        destination = self.draw.ipv6() if shape == "IPv6" else self.draw.ipv4()
        self.chain.ip("near", "sr", "tunsrc", "set", text(source))
        self.chain.ip("near", "-6" if shape == "IPv6" else "-4", "route", "add", text(destination), "encap", "seg6", "mode", mode,
                      "segs", ",".join(map(text, segments)), "dev", "out")
        return destination

    def send(self, mode: str, shape: str, destination: bytes) -> Inner:
        """Sends a plain packet; gives what the headend is to carry: the packet, or the frame that it came in."""
        packet = self.draw.packet(shape, self.draw.size(1400), destination)
        frame = self.chain.send("user", packet.octets)
        if not mode.startswith("l2encap"):
            return packet
        header = expect.ethernet(frame[:6], frame[6:12], int.from_bytes(frame[12:14], "big"))
        return Inner(frame, header + packet.pairs, wire.NEXT_ETHERNET)


def session(draw: Draw, mode: str, shape: str) -> int:
    if mode.startswith("l2encap"):
        return table.SESSION_ETHERNET
    return draw.choice([table.SESSION_IPV4V6, table.SESSION_IPV6 if shape == "IPv6" else table.SESSION_IPV4])


def accepted(library: Library, chain: network.Network, walk: Walk) -> Iterator[Sent]:
    """Both gateways, every mode, IPv4 and IPv6, none to three waypoints on the way."""
    draw = Draw(SEED)
    headend = Headend(chain, draw)
    for make in (e6, e4):
        for mode in MODES:
            for shape in ("IPv4", "IPv6"):
                for count in range(MOST_WAYPOINTS + 1):
                    gateway = make(draw, session(draw, mode, shape))
                    nodes, sids = waypoints(draw, count)
                    path = sids + gateway.path
                    destination = headend.route(mode, shape, path, gateway.source)
                    for _ in range(PACKETS):
                        inner = headend.send(mode, shape, destination)
                        arrived = walk.go(nodes, path)
                        how = f"call: ipv6 {arrived.hex()} {gateway.table.hex()}"
                        answer = library.call("ipv6", arrived, gateway.table)
                        if answer.number != 0:
                            raise RuntimeError(f"{gateway.name} after {mode}: answer {answer.number}\n  {how}")
                        tclass = int.from_bytes(arrived[:2], "big") >> 4 & 0xFF
                        yield Sent(f"{gateway.name} after {mode}", answer.sent, gateway.write(tclass, inner), inner.octets, how)


def run(library: Library, chain: network.Network, count: Count) -> tuple[list[Sent], str]:
    walk = Walk(library, chain, count)
    all_sent = list(accepted(library, chain, walk))
    count.waypoints += walk.hops
    return all_sent, f"{len(all_sent)} packets of the kernel's headend taken, {walk.hops} waypoints passed"
