"""A chain of network namespaces joined by veth pairs: user, near, w1 to w7, far. Every packet runs down the chain; each of w1 to w7 is
the kernel's SRv6 End node for SIDs of its own and a plain router for all others."""

import ctypes
import os
import socket
import subprocess
import time
from typing import Any, Callable

from tap import Tap

WAYPOINTS = [f"w{i}" for i in range(1, 8)]
NODES = ["user", "near"] + WAYPOINTS + ["far"]
LINKS = WAYPOINTS + ["far"]  # a link is named after the node that it leads to
MTU = 9000
ETHERTYPE_IPV4, ETHERTYPE_IPV6 = 0x0800, 0x86DD
PATIENCE = 5.0  # seconds until a packet counts as lost
CLONE_NEWNET = 0x40000000
LIBC = ctypes.CDLL(None, use_errno=True)


def mac(node: str, device: str) -> bytes:
    return bytes([2, 0, 0, 0, NODES.index(node), device == "out"])


def locator(node: str) -> bytes:
    """The first 64 bits of the SIDs of a waypoint: 2001:db8:a:N::/64."""
    return socket.inet_pton(socket.AF_INET6, f"2001:db8:a:{WAYPOINTS.index(node) + 1}::")[:8]


class Network:
    def __init__(self, prefix: str) -> None:
        """The namespaces are removed by whoever gave the prefix."""
        self.prefix = prefix
        for node in NODES:
            self.run(["ip", "netns", "add", prefix + node])
        for node, following in zip(NODES, NODES[1:]):
            self.ip(node, "link", "add", "out", "mtu", str(MTU), "address", mac(node, "out").hex(":"), "type", "veth", "peer",
                    "name", "in", "mtu", str(MTU), "address", mac(following, "in").hex(":"), "netns", prefix + following)
        for node in NODES:
            self.set_up(node)
        self.taps: dict[str, Tap] = {node: self.within(node, lambda: Tap("in")) for node in LINKS}
        self.senders: dict[str, socket.socket] = {node: self.within(node, sender) for node in ("user", "near")}

    def run(self, command: list[str]) -> None:
        done = subprocess.run(command, stdout=subprocess.PIPE, stderr=subprocess.STDOUT, text=True)
        if done.returncode != 0:
            raise RuntimeError(f"{' '.join(command)}: {done.stdout.strip()}")

    def ip(self, node: str, *words: str) -> None:
        self.run(["ip", "-n", self.prefix + node, *words])

    def sysctl(self, node: str, *settings: str) -> None:
        self.run(["ip", "netns", "exec", self.prefix + node, "sysctl", "-q", "-w", *settings])

    def set_up(self, node: str) -> None:
        devices = [device for device, missing in (("in", NODES[0]), ("out", NODES[-1])) if node != missing]
        for device in devices:
            conf = f"net.ipv6.conf.{device}"
            # no address of its own, so nothing is advertised or solicited
            self.sysctl(node, f"{conf}.addr_gen_mode=1", f"{conf}.accept_dad=0", f"{conf}.router_solicitations=0",
                        f"{conf}.seg6_enabled=1", f"net.ipv4.conf.{device}.rp_filter=0")
            self.ip(node, "link", "set", device, "up")
        if node in WAYPOINTS + ["near"]:
            self.sysctl(node, "net.ipv6.conf.all.forwarding=1", "net.ipv6.conf.all.seg6_enabled=1", "net.ipv4.ip_forward=1",
                        "net.ipv4.conf.all.rp_filter=0")
            following = NODES[NODES.index(node) + 1]
            self.ip(node, "-6", "neigh", "add", "fe80::1", "lladdr", mac(following, "in").hex(":"), "dev", "out", "nud", "permanent")
            self.ip(node, "-6", "route", "add", "default", "via", "fe80::1", "dev", "out")
        if node in WAYPOINTS:
            sids = socket.inet_ntop(socket.AF_INET6, locator(node) + bytes(8)) + "/64"
            self.ip(node, "-6", "route", "add", sids, "encap", "seg6local", "action", "End", "dev", "out")

    def within(self, node: str, work: Callable[[], Any]) -> Any:
        """A socket belongs to the namespace in which it was opened; this thread goes there and comes back."""
        home = os.open("/proc/self/ns/net", os.O_RDONLY)
        there = os.open(f"/run/netns/{self.prefix}{node}", os.O_RDONLY)
        try:
            self.enter(there)
            return work()
        finally:
            self.enter(home)
            os.close(home)
            os.close(there)

    def enter(self, namespace: int) -> None:
        if LIBC.setns(namespace, CLONE_NEWNET) != 0:
            raise OSError(ctypes.get_errno(), "setns")

    def send(self, node: str, packet: bytes) -> bytes:
        """Puts a packet on the wire behind a node; gives the frame."""
        ethertype = ETHERTYPE_IPV6 if packet[0] >> 4 == 6 else ETHERTYPE_IPV4
        following = NODES[NODES.index(node) + 1]
        frame = mac(following, "in") + mac(node, "out") + ethertype.to_bytes(2, "big") + packet
        self.senders[node].send(frame)
        return frame

    def receive(self, node: str, destination: bytes) -> bytes:
        """The next packet to that destination on the link that leads to a node."""
        end, others = time.monotonic() + PATIENCE, []
        while (frame := self.taps[node].next_frame(end)) is not None:
            if frame[14 + 24:14 + 40] == destination:
                return frame[14:]
            others.append(frame.hex())
        raise RuntimeError(f"no packet to {socket.inet_ntop(socket.AF_INET6, destination)} arrived at {node}; other frames: {others}")


def sender() -> socket.socket:
    opened = socket.socket(socket.AF_PACKET, socket.SOCK_RAW, 0)
    opened.bind(("out", 0))
    return opened
