"""raw.py IN.pcap OUT.pcap: the IP packets of a little-endian capture of Ethernet as raw IP, without tags, padding and check sequences."""

import struct
import sys
from pathlib import Path

RAW = 101
VLAN, IPV4, IPV6 = 0x8100, 0x0800, 0x86DD


def packet(frame: bytes) -> bytes:
    """Nothing where it is not IP."""
    at = 12
    while frame[at:at + 2] == struct.pack(">H", VLAN):
        at += 4
    kind, octets = struct.unpack_from(">H", frame, at)[0], frame[at + 2:]
    if kind == IPV4:
        return octets[:struct.unpack_from(">H", octets, 2)[0]]
    return octets[:40 + struct.unpack_from(">H", octets, 4)[0]] if kind == IPV6 else b""


def main() -> None:
    if len(sys.argv) != 3:
        sys.exit("usage: raw.py IN.pcap OUT.pcap")
    capture, at = Path(sys.argv[1]).read_bytes(), 24
    octets = capture[:20] + struct.pack("<I", RAW)
    while at < len(capture):
        length = struct.unpack_from("<I", capture, at + 8)[0]
        kept = packet(capture[at + 16:at + 16 + length])
        if kept:
            octets += capture[at:at + 8] + struct.pack("<II", len(kept), len(kept)) + kept
        at += 16 + length
    Path(sys.argv[2]).write_bytes(octets)


if __name__ == "__main__":
    main()
