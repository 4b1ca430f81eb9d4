"""Part 3, its other half: packets of the kernel's headend that docs/RULES.md refuses, each with its answer."""

from typing import NamedTuple

import network
import table
from draw import Draw
from headend import Headend, e4, e6
from judge import Count
from library import Library
from walk import waypoint_table

SEED = 4
PARAMETER_PROBLEM = 4
SRH_AT, SEGMENT = 40, 16


class Refusal(NamedTuple):
    """A packet that the headend builds of a plain one, a table, and the four numbers of the answer."""
    what: str
    mode: str
    shape: str
    path: list[bytes]
    table: bytes
    answer: tuple[int, int, int, int]


def segments_left() -> tuple[int, int, int, int]:
    return 7, PARAMETER_PROBLEM, 0, SRH_AT + 3


def upper_layer(segments: int) -> tuple[int, int, int, int]:
    """The pointer is behind an SRH of so many segments; none: no SRH."""
    return 8, PARAMETER_PROBLEM, 4, SRH_AT + (8 + SEGMENT * segments if segments else 0)


def refusals(draw: Draw) -> list[Refusal]:
    six, four, frames = e6(draw, table.SESSION_IPV6), e4(draw, table.SESSION_IPV4), e6(draw, table.SESSION_ETHERNET)
    sid6, sid4, other = six.path[0], four.path[0], draw.ipv6()
    end = network.locator("w1") + draw.randbytes(8)
    d = table.table([table.entry(table.D, sid6, 128, 9, 0, table.SESSION_IPV6, 0)], [], [table.policy([other], 8)])
    return [
        Refusal("E6 as the last segment: SL 0", "encap", "IPv6", [sid6], six.table, segments_left()),
        Refusal("E6 without SRH", "encap.red", "IPv6", [sid6], six.table, (5, 0, 0, 0)),
        Refusal("E6 with SL 2", "encap", "IPv6", [sid6, other, other], six.table, segments_left()),
        Refusal("E6 with SL 2, reduced", "encap.red", "IPv6", [sid6, other, other], six.table, segments_left()),
        Refusal("E6, IPv4 in an IPv6 session", "encap", "IPv4", [sid6, other], six.table, upper_layer(2)),
        Refusal("E6, a frame in an IPv6 session", "l2encap", "IPv6", [sid6, other], six.table, upper_layer(2)),
        Refusal("E6, IPv6 in an Ethernet session, reduced", "encap.red", "IPv6", frames.path, frames.table, upper_layer(1)),
        Refusal("E4 with SL 1", "encap", "IPv4", [sid4, other], four.table, segments_left()),
        Refusal("E4, IPv6 in an IPv4 session", "encap", "IPv6", [sid4], four.table, upper_layer(1)),
        Refusal("E4, IPv6 in an IPv4 session, no SRH", "encap.red", "IPv6", [sid4], four.table, upper_layer(0)),
        Refusal("waypoint as the last segment: SL 0", "encap", "IPv6", [end], waypoint_table(end), upper_layer(1)),
        Refusal("waypoint without SRH", "encap.red", "IPv4", [end], waypoint_table(end), upper_layer(0)),
        Refusal("D, not UDP", "encap", "IPv6", [sid6], d, upper_layer(1)),
        Refusal("D with SL 1", "encap", "IPv6", [sid6, other], d, segments_left()),
        Refusal("no entry", "encap", "IPv6", [other, sid6], six.table, (4, 0, 0, 0)),
    ]


def run(library: Library, chain: network.Network, count: Count) -> str:
    draw = Draw(SEED)
    headend, cases, before = Headend(chain, draw), refusals(draw), count.differences
    for case in cases:
        headend.send(case.mode, case.shape, headend.route(case.mode, case.shape, case.path, draw.ipv6()))
        arrived = chain.receive(network.LINKS[0], case.path[0])
        answer = library.call("ipv6", arrived, case.table)
        if answer != (*case.answer, b""):
            count.differences += 1
            print(f"difference: {case.what}: expected {case.answer}, the library answers {tuple(answer)}")
            print(f"  call: ipv6 {arrived.hex()} {case.table.hex()}")
    count.refusals += len(cases)
    return f"{len(cases) - (count.differences - before)} of {len(cases)} packets of the kernel's headend refused as they must be"
