"""Part 2: whole trips. The library is the near gateway (Di, D4) and the far one (E6, E4); the kernel's End stands at every waypoint. The
nodes between two waypoints are plain routers."""

from dataclasses import dataclass
from typing import Iterator

import arriving
import cases
import expect
import network
import outgoing
import table
from draw import Draw, Flow, Inner
from judge import Count, Sent
from library import Library
from walk import Walk

SEED = 2
FAR_PREFIX = bytes.fromhex("20010db8000b")
REFLECTIVE = Flow(0x01020304, 5, 1)


@dataclass(frozen=True)
class Trip:
    name: str
    call: str
    packet: bytes
    near_table: bytes
    near_pairs: expect.Pairs
    nodes: list[str]
    path: list[bytes]
    far_table: bytes
    far_pairs: expect.Pairs
    inner: Inner


def waypoints(draw: Draw, count: int) -> tuple[list[str], list[bytes]]:
    """Some of the nodes, in the order of the chain, and a SID of each."""
    nodes = sorted(draw.sample(network.WAYPOINTS, count))
    return nodes, [network.locator(node) + draw.randbytes(8) for node in nodes]


def hop_limit(draw: Draw) -> int:
    """Enough for every node of the chain."""
    return draw.randrange(len(network.NODES), 256)


def di_to_e6(draw: Draw, session: int, shape: str, direction: int, count: int, flow: Flow, receiver: bytes = b"") -> Trip:
    """To this address, or to one that is drawn."""
    inner, tclass, destination = draw.inner(shape, draw.size(1400)), draw.bits(8), receiver or draw.ipv6()
    near_hops, far_hops = hop_limit(draw), draw.hop_limit()
    near_source, far_source, source_port, a = draw.ipv6(), draw.ipv6(), draw.source_port(), draw.randrange(len(FAR_PREFIX), 12)
    nodes, sids = waypoints(draw, count)
    last = draw.filled(FAR_PREFIX)
    path = sids + [outgoing.place(last, a, flow.args(outgoing.carried(flow, direction))), destination]
    near = table.entry(table.DI, destination, 128, near_hops, direction, session, 0, source=near_source)
    far = table.entry(table.E6, last, 48, far_hops, direction, session, a=a, source_port=source_port, source=far_source)
    return Trip("Di to E6", "ipv6", arriving.over_ipv6(draw, flow, direction, inner, tclass, destination),
                table.table([near], [], [table.policy(sids + [last], a)]), outgoing.srv6(tclass, near_hops, near_source, path, inner),
                nodes, path, table.table([far]),
                outgoing.e6(tclass, far_hops, far_source, destination, source_port, flow, direction, inner), inner)


def d4_to_e4(draw: Draw, session: int, shape: str, direction: int, count: int, flow: Flow) -> Trip:
    inner, tos, source, destination = draw.inner(shape, draw.size(1400)), draw.bits(8), draw.ipv4(), draw.ipv4()
    near_hops, ttl, source_port = hop_limit(draw), draw.hop_limit(), draw.source_port()
    sid_prefix, source_prefix = draw.ipv6()[:draw.randrange(8)], draw.ipv6()[:draw.randrange(13)]
    nodes, sids = waypoints(draw, count)
    last = (sid_prefix + destination + flow.args(outgoing.carried(flow, direction))).ljust(16, b"\0")
    built = (source_prefix + source).ljust(16, b"\0")
    rule = table.rule(destination, 32, near_hops, direction, session, sid_prefix, source_prefix, sids)
    far = table.entry(table.E4, last, 8 * len(sid_prefix), ttl, direction, session, p=len(sid_prefix), q=len(source_prefix),
                      source_port=source_port)
    return Trip("D4 to E4", "ipv4", arriving.over_ipv4(draw, flow, direction, inner, tos, source, destination),
                table.table([], [rule]), outgoing.srv6(tos, near_hops, built, sids + [last], inner),
                nodes, sids + [last], table.table([far]),
                outgoing.e4(tos, ttl, source, destination, source_port, flow, direction, inner), inner)


def sweep() -> Iterator[Trip]:
    """Both ways, 1 to 7 waypoints, every session and both directions; flow 5 with the reflective bit, then others."""
    draw = Draw(SEED)
    for kind in (di_to_e6, d4_to_e4):
        for count in range(1, 8):
            for session, shape in cases.SESSIONS:
                for direction in (table.DOWNLINK, table.UPLINK):
                    for flow in (REFLECTIVE, draw.flow(), draw.flow()):
                        yield kind(draw, session, shape, direction, count, flow)


def make(library: Library, chain: network.Network, walk: Walk, trip: Trip) -> list[Sent]:
    """What the two gateways sent on a trip."""
    how = f"call: {trip.call} {trip.packet.hex()} {trip.near_table.hex()}"
    near = library.call(trip.call, trip.packet, trip.near_table)
    if near.number != 0:
        raise RuntimeError(f"{trip.name}: answer {near.number} at the near gateway\n  {how}")
    chain.send("near", near.sent)
    arrived = walk.go(trip.nodes, trip.path)
    far_how = f"call: ipv6 {arrived.hex()} {trip.far_table.hex()}"
    far = library.call("ipv6", arrived, trip.far_table)
    if far.number != 0:
        raise RuntimeError(f"{trip.name}: answer {far.number} at the far gateway\n  {far_how}")
    name = f"{trip.name} over {', '.join(trip.nodes)}"
    return [Sent(f"{name}, near", near.sent, trip.near_pairs, trip.inner.octets, how),
            Sent(f"{name}, far", far.sent, trip.far_pairs, trip.inner.octets, far_how)]


def run(library: Library, chain: network.Network, count: Count) -> tuple[list[Sent], str]:
    walk = Walk(library, chain, count)
    all_sent = [sent for trip in sweep() for sent in make(library, chain, walk, trip)]
    count.waypoints += walk.hops
    return all_sent, f"{len(all_sent) // 2} trips, {walk.hops} waypoints passed"
