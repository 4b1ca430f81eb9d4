"""A packet's way down the chain of kernels, with the library's waypoint beside each kernel that is one."""

import network
import table
from judge import Count
from library import Library


def waypoint_table(sid: bytes) -> bytes:
    return table.table([table.entry(table.WAYPOINT, sid, 64, 1)])


class Walk:
    def __init__(self, library: Library, chain: network.Network, count: Count) -> None:
        self.library, self.chain, self.count = library, chain, count
        self.hops = 0

    def go(self, nodes: list[str], path: list[bytes]) -> bytes:
        """Follows a packet that was just sent to w1: the first addresses of the path are SIDs of those nodes, in order. What each of
        them sends is compared with what the library sends of the same packet. Gives the packet that arrives at the far end."""
        passed = 0
        arrived = self.chain.receive(network.LINKS[0], path[0])
        for node, following in zip(network.LINKS, network.LINKS[1:]):
            if node not in nodes:
                arrived = self.chain.receive(following, path[passed])
                continue
            passed += 1
            left = self.chain.receive(following, path[passed])
            self.compare(node, arrived, waypoint_table(path[passed - 1]), left)
            arrived = left
        return arrived

    def compare(self, node: str, arrived: bytes, octets: bytes, left: bytes) -> None:
        self.hops += 1
        answer = self.library.call("waypoint", arrived, octets)
        if answer.number == 0 and answer.sent == left:
            return
        self.count.differ(f"difference: at {node} the kernel sent {left.hex()}",
                          f"library: answer {answer.number}, sent {answer.sent.hex()}",
                          f"call: waypoint {arrived.hex()} {octets.hex()}")
