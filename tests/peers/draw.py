"""Values drawn for a test from a seed: addresses, flows and inner packets."""

import random
from dataclasses import dataclass

import expect
import wire

INNER_PORTS = (61001, 61002)  # no dissector of tshark claims them
SMALLEST = 70  # an Ethernet frame around IPv6 and UDP has 62 octets before its payload


@dataclass(frozen=True)
class Flow:
    """What the gateway carries from one side to the other."""
    teid: int
    qfi: int
    reflective: int

    def args(self, reflective: int, unused: int = 0) -> bytes:
        """Args.Mob.Session of RFC 9433, 6.1: QFI 6 bits, R, U, PDU Session ID."""
        return bytes([self.qfi << 2 | reflective << 1 | unused]) + self.teid.to_bytes(4, "big")


@dataclass(frozen=True)
class Inner:
    octets: bytes
    pairs: expect.Pairs
    next_header: int


class Draw(random.Random):
    def bits(self, count: int) -> int:
        return self.getrandbits(count)

    def ipv6(self) -> bytes:
        return bytes([self.randrange(0x20, 0x40)]) + self.randbytes(15)

    def ipv4(self) -> bytes:
        return bytes([self.choice([10, 100, 172, 192, 203])]) + self.randbytes(3)

    def filled(self, octets: bytes) -> bytes:
        """An address that begins so; what follows is not examined."""
        return octets + self.randbytes(16 - len(octets))

    def hop_limit(self) -> int:
        """Of an entry or a rule; of an E4 entry it is the TTL."""
        return self.randrange(1, 256)

    def source_port(self) -> int:
        """tshark takes the ports next above 33434 for a traceroute and lower ones for other protocols."""
        return self.choice([wire.GTPU_PORT, self.randrange(49152, 65536)])

    def flow(self) -> Flow:
        teid = self.choice([0, 0xFFFFFFFF, 0x01020304, self.bits(32), self.bits(32), self.bits(32)])
        return Flow(teid, self.choice([0, 5, 9, 63, self.bits(6), self.bits(6)]), self.bits(1))

    def size(self, most: int) -> int:
        """Of an inner packet: now and then the largest that can be sent."""
        return most if self.randrange(50) == 0 else self.randrange(SMALLEST, 1400)

    def inner(self, shape: str, size: int) -> Inner:
        if shape == "Ethernet":
            return self.frame(size)
        return self.packet(shape, size, self.ipv6() if shape == "IPv6" else self.ipv4())

    def packet(self, shape: str, size: int, destination: bytes) -> Inner:
        return self.packet6(size, destination) if shape == "IPv6" else self.packet4(size, destination)

    def packet6(self, size: int, destination: bytes) -> Inner:
        source, tclass, flow, hop_limit = self.ipv6(), self.bits(8), self.bits(20), self.randrange(64, 256)
        datagram, pairs = self.datagram(source, destination, size - 40)
        octets = wire.ipv6(tclass, flow, wire.NEXT_UDP, hop_limit, source, destination, datagram)
        header = expect.ipv6(tclass, flow, len(datagram), wire.NEXT_UDP, hop_limit, source, destination)
        return Inner(octets, header + pairs, wire.NEXT_IPV6)

    def packet4(self, size: int, destination: bytes) -> Inner:
        source, tos, identification = self.ipv4(), self.bits(8), self.bits(16)
        ttl, keep = self.randrange(64, 256), bool(self.bits(1))
        datagram, pairs = self.datagram(source, destination, size - 20)
        octets = wire.ipv4(tos, identification, keep, ttl, wire.NEXT_UDP, source, destination, datagram)
        header = expect.ipv4(tos, size, identification, keep, ttl, wire.NEXT_UDP, wire.ipv4_checksum(octets), source, destination)
        return Inner(octets, header + pairs, wire.NEXT_IPV4)

    def datagram(self, source: bytes, destination: bytes, size: int) -> tuple[bytes, expect.Pairs]:
        payload = self.randbytes(size - 8)
        checksum = wire.udp_checksum(source, destination, wire.udp(*INNER_PORTS, 0, payload))
        pairs = expect.udp(*INNER_PORTS, checksum, expect.GOOD, payload) + expect.data(payload)
        return wire.udp(*INNER_PORTS, checksum, payload), pairs

    def frame(self, size: int) -> Inner:
        # The first octet of a frame in a G-PDU must not look like an IP version to tshark.
        destination, source = b"\x02" + self.randbytes(5), b"\x02" + self.randbytes(5)
        shape, ethertype = self.choice([("IPv4", 0x0800), ("IPv6", 0x86DD)])
        packet = self.inner(shape, size - 14)
        octets = wire.ethernet(destination, source, ethertype, packet.octets)
        return Inner(octets, expect.ethernet(destination, source, ethertype) + packet.pairs, wire.NEXT_ETHERNET)
