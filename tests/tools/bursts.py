"""bursts.py DIRECTORY SEED COUNT: writes COUNT drawn captures there, drawn-0.pcap and so on, and behind.pcap, for bursts.sh; and as many of
the same kind with packets about which an ICMPv6 message is due, or none: refused-0.pcap and so on.

Drawn are up to 140 frames in runs of both IP versions: packets that are sent, answered or refused, short and very long ones; between them
frames that are snapped or not IP; the end of the capture may be cut or damaged. In behind.pcap frame 30 of 40 is snapped.
"""

import random
import struct
import sys
from pathlib import Path

sys.dont_write_bytecode = True
import captures  # noqa: E402

yard = captures.yard
LONGEST = 262144  # octets of a frame that libpcap takes


def g_pdu(version: int, qfi: int, inner: bytes, reflective: int = 0) -> bytes:
    datagram = yard.g_pdu(yard.DOWNLINK, qfi, reflective, 0x01020300 + qfi, inner)
    return yard.ipv6(yard.UPF6, yard.RADIO6, qfi, datagram) if version == 6 else yard.ipv4(yard.UPF4, yard.RADIO4, qfi, datagram)


def longest() -> bytes:
    """What comes back to the office, with the largest payload."""
    return captures.srv6("2001:db8:f::2", 0xB8, ["2001:db8:b:2:1401:203:400:0", yard.UPF6], b"\x45" + bytes(65535 - 40 - 1))


def refused(draw: random.Random) -> bytes:
    """With 7 or 8 over IPv6: an ICMPv6 message is due, or for its source or type none is."""
    source = draw.choice([yard.UPF6] * 8 + ["::", "ff02::1"])
    segments = bytes([58, 2, 4, draw.randrange(2), 0, 0, 0, 0]) + bytes(16) if draw.randrange(2) else b""
    kind = draw.choice([1, 127, 128, 128, 129, 136, 137, 255])
    payload = segments + bytes([kind, 0]) + draw.randbytes(draw.choice([0, 6, 1182, 1190, 1200, 9000]))
    return yard.ipv6_header(source, yard.RADIO6, 0, 43 if segments else 58, payload) + payload


def packet(draw: random.Random, version: int, told: bool) -> bytes:
    """Mostly one that the office sends on; else an Echo Request, a refusal, or what is long; where its sender is told, more refusals."""
    way = draw.randrange(20)
    inner = yard.to_carrier(draw.randbytes(draw.choice([0, 1, 12, 100, 100, 100, 1300])))
    octets = g_pdu(version, draw.randrange(64), inner, draw.randrange(2))
    if way == 0:
        request = captures.echo_request(draw.randrange(65536), yard.GTPU_PORT)
        return yard.ipv6(yard.UPF6, yard.RADIO6, 0, request) if version == 6 else yard.ipv4(yard.UPF4, yard.RADIO4, 0, request)
    if way == 1 and version == 6:
        return captures.with_checksum(octets, draw.choice([0, 0x1234]))
    if way == 2 and version == 6:
        return captures.unfinished(octets)
    if way == 3:
        return octets[:24] + draw.randbytes(8) + octets[32:] if version == 6 else octets[:16] + draw.randbytes(4) + octets[20:]
    if way == 4:
        return g_pdu(version, 5, yard.to_carrier(bytes(draw.choice([60000, 64000])))) if draw.randrange(2) else longest()
    if way == 5 and draw.randrange(4) == 0:  # longer than any packet
        return octets + bytes(draw.choice([65575, 100000, LONGEST]) - len(octets))
    if way == 6:
        return octets[:draw.randrange(1, len(octets))]
    if told and way in (7, 8) and version == 6:
        return refused(draw)
    return octets


def frame(octets: bytes, cut: int = 0) -> bytes:
    length = len(octets) - cut
    return struct.pack("<IIII", captures.SECOND, length, length, len(octets)) + octets[:length]


def drawn(draw: random.Random, told: bool = False) -> bytes:
    """A capture of raw IP. The version changes seldom, or often, or with every packet."""
    octets = captures.pcap(captures.RAW, [])
    version, changes = 6, draw.choice([0, 1, 4, 10])
    strange = draw.choice([0, 0, 1, 3])
    for _ in range(draw.choice([0, 1, 2, 31, 32, 33, 63, 64, 65, 100, 140])):
        if draw.randrange(10) < changes:
            version = 10 - version
        if draw.randrange(20) < strange:
            octets += draw.choice([frame(b"\x50" + bytes(30)), frame(packet(draw, version, told), 1)])
        else:
            octets += frame(packet(draw, version, told))
    end = draw.randrange(6)
    if end == 0:
        octets += frame(packet(draw, version, told))[:draw.randrange(1, 40)]
    elif end == 1:
        octets += struct.pack("<IIII", captures.SECOND, 0, 0xFFFFFFFF, 0xFFFFFFFF) + bytes(1000)
    return octets


def main() -> None:
    if len(sys.argv) != 4:
        sys.exit("usage: bursts.py DIRECTORY SEED COUNT")
    directory, draw = Path(sys.argv[1]), random.Random(int(sys.argv[2]))
    for number in range(int(sys.argv[3])):
        (directory / f"drawn-{number}.pcap").write_bytes(drawn(draw))
    command = g_pdu(6, 5, yard.to_carrier(b"lane 7: stop"))
    frames = [frame(command, number == 30) for number in range(1, 41)]
    (directory / "behind.pcap").write_bytes(captures.pcap(captures.RAW, []) + b"".join(frames))
    for number in range(int(sys.argv[3])):
        (directory / f"refused-{number}.pcap").write_bytes(drawn(draw, True))


if __name__ == "__main__":
    main()
