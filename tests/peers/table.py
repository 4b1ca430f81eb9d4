"""Octets of a table, by the offsets that kawsarpa.h and docs/DECISIONS.md give."""

import struct
from typing import Sequence

WAYPOINT, D, DI, E6, E4 = 1, 69, 70, 71, 72
DOWNLINK, UPLINK = 0, 1
SESSION_IPV4, SESSION_IPV6, SESSION_IPV4V6, SESSION_ETHERNET = 1, 2, 3, 5


def under(address: bytes, bits: int) -> bytes:
    """The address with the bits past a prefix's length cleared."""
    size = 8 * len(address)
    kept = int.from_bytes(address, "big") >> (size - bits) << (size - bits)
    return kept.to_bytes(len(address), "big")


def entry(behaviour: int, address: bytes, bits: int, hop_limit: int, direction: int = 0, session: int = 0, policy: int = 0,
          a: int = 0, p: int = 0, q: int = 0, source_port: int = 0, source: bytes = bytes(16), zero_checksum: int = 0) -> bytes:
    """An entry whose prefix is the first bits of an address."""
    numbers = struct.pack("!10BH4x", behaviour, bits, hop_limit, direction, session, policy, 8 * a, p, q, zero_checksum, source_port)
    return numbers + under(address, bits) + source + bytes(16)


def rule(address: bytes, bits: int, hop_limit: int, direction: int, session: int, sid_prefix: bytes, source_prefix: bytes,
         waypoints: list[bytes]) -> bytes:
    """A rule whose IPv4 prefix is the first bits of an address; p and q are the octets of its two IPv6 prefixes."""
    numbers = bytes([bits, hop_limit, direction, session, len(sid_prefix), len(source_prefix), len(waypoints), 0])
    prefixes = sid_prefix.ljust(16, b"\0") + source_prefix.ljust(16, b"\0")
    return numbers + under(address, bits) + bytes(4) + prefixes + b"".join(waypoints).ljust(7 * 16, b"\0")


def policy(sids: list[bytes], a: int) -> bytes:
    return (bytes([len(sids), 8 * a]).ljust(16, b"\0") + b"".join(sids)).ljust(288, b"\0")


def table(entries: Sequence[bytes], rules: Sequence[bytes] = (), policies: Sequence[bytes] = ()) -> bytes:
    header = struct.pack("!BxHHH8x", 1, len(entries), len(rules), len(policies))
    return header + b"".join([*entries, *rules, *policies])
