"""A namespace whose packets to others leave by a TUN device. At its other end is a gateway: it hands each packet to the library, and writes
what that sends."""

import fcntl
import os
import select
import struct
import time
from pathlib import Path
from typing import Callable, Sequence

import network
import wire
from library import Library

NODE, DEVICE = "client", "tun"
ADDRESSES = ("192.0.2.9/32", "2001:db8:c::9/128")
TUNSETIFF, IFF_TUN, IFF_NO_PI = 0x400454CA, 0x0001, 0x1000
LONGEST = 1 << 16
A_MOMENT = 0.01  # seconds


class Tunnel:
    def __init__(self, library: Library, chain: network.Network, node: str = NODE, addresses: Sequence[str] = ADDRESSES) -> None:
        """The namespace has the chain's prefix, and is removed with those of the chain."""
        self.library, self.chain, self.node = library, chain, node
        self.namespace = chain.prefix + node
        chain.run(["ip", "netns", "add", self.namespace])
        self.device: int = chain.within(node, open_device)
        conf = f"net.ipv6.conf.{DEVICE}"
        chain.sysctl(node, f"{conf}.addr_gen_mode=1", f"{conf}.accept_dad=0", f"{conf}.router_solicitations=0",
                     "net.ipv4.conf.all.rp_filter=0", f"net.ipv4.conf.{DEVICE}.rp_filter=0")
        for device in ("lo", DEVICE):
            chain.ip(node, "link", "set", device, "up")
        for address in addresses:
            chain.ip(node, "address", "add", address, "dev", DEVICE)
        for version in ("-4", "-6"):
            chain.ip(node, version, "route", "add", "default", "dev", DEVICE)

    def read(self, seconds: float) -> bytes | None:
        """The next packet that leaves, or none within this time."""
        return os.read(self.device, LONGEST) if select.select([self.device], [], [], seconds)[0] else None

    def write(self, packet: bytes) -> None:
        os.write(self.device, packet)

    def sent_to(self, destination: bytes, next_headers: Sequence[int] = (wire.NEXT_UDP,)) -> bytes:
        """The next IPv6 packet with UDP that leaves for a destination; or with another of these next headers."""
        end = time.monotonic() + network.PATIENCE
        while time.monotonic() < end:
            packet = self.read(A_MOMENT)
            if packet is not None and packet[0] >> 4 == 6 and packet[6] in next_headers and packet[24:40] == destination:
                return packet
        raise RuntimeError(f"no packet to {destination.hex()} left {self.node}")

    def serve(self, table: bytes, done: Callable[[], bool], what: str) -> None:
        """The gateway, with a table, until that is done which it is for. Of what is refused, nothing is written: so of the kernel's own
        multicast reports."""
        end, calls = time.monotonic() + network.PATIENCE, []
        while not done():
            if time.monotonic() > end:
                raise RuntimeError("\n  ".join([f"{what}: not done after {network.PATIENCE} s", *calls]))
            if (packet := self.read(A_MOMENT)) is None:
                continue
            call = "ipv6" if packet[0] >> 4 == 6 else "ipv4"
            answer = self.library.call(call, packet, table)
            calls.append(f"answer {answer.number}; call: {call} {packet.hex()} {table.hex()}")
            if answer.number == 0:
                self.write(answer.sent)

    def proc(self, name: str) -> str:
        """A file of /proc/net of the namespace."""
        return self.chain.within(self.node, lambda: Path(f"/proc/self/net/{name}").read_text(encoding="ascii"))

    def counter(self, name: str) -> int:
        """Of the namespace's IPv6, by the kernel."""
        return next(int(line.split()[1]) for line in self.proc("snmp6").split("\n") if line.split()[:1] == [name])


def open_device() -> int:
    device = os.open("/dev/net/tun", os.O_RDWR)
    fcntl.ioctl(device, TUNSETIFF, struct.pack("16sH22x", DEVICE.encode(), IFF_TUN | IFF_NO_PI))
    return device
