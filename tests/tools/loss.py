"""loss.py DIRECTORY: the captures of loss.sh: G-PDUs with sequence numbers, and packets that have none to offer, for every reason."""

import struct
import sys
from ipaddress import ip_address
from pathlib import Path

from captures import ETHERNET, RAW, Packet, held_checksum, over, pcap, same, tagged, unfinished, with_checksum, yard

TCP, ROUTING, ICMPV6 = 6, 43, 58
HOP_BY_HOP, FRAGMENT, DESTINATION_OPTIONS = 0, 44, 60
ERROR_INDICATION = 26
PN = 1
INNER = yard.from_carrier(b"here")


def over6(datagram: bytes, destination: str = yard.UPF6) -> bytes:
    return yard.ipv6(yard.RADIO6, destination, 0, datagram)


def over4(datagram: bytes) -> bytes:
    return yard.ipv4(yard.RADIO4, yard.UPF4, 0, datagram)


def g_pdu(teid: int, number: int | None = None) -> bytes:
    return yard.g_pdu(yard.UPLINK, 5, 0, teid, INNER, number)


def changed(octets: bytes, at: int, new: bytes) -> bytes:
    return octets[:at] + new + octets[at + len(new):]


def header4(packet: bytes, at: int, new: bytes) -> bytes:
    """An IPv4 packet with other octets in its header, and the checksum for them."""
    packet = changed(changed(packet, at, new), 10, bytes(2))
    return changed(packet, 10, struct.pack(">H", yard.checksum(packet[:4 * (packet[0] & 15)])))


def with_options(packet: bytes) -> bytes:
    return header4(packet[:20] + b"\x01\x01\x01\x00" + packet[20:], 0, struct.pack(">BBH", 0x46, 0, len(packet) + 4))


def behind(packet: bytes, kind: int, extension: str) -> bytes:
    """An IPv6 packet with an extension header before its UDP, given as hexadecimal without the octet that says so."""
    octets = bytes([yard.UDP]) + bytes.fromhex(extension)
    return packet[:4] + struct.pack(">HB", len(packet) - 40 + len(octets), kind) + packet[7:40] + octets + packet[40:]


def srh(packet: bytes, segments_left: int) -> bytes:
    return behind(packet, ROUTING, f"0204{segments_left:02x}00000000" + ip_address(yard.UPF6).packed.hex())


def streams() -> list[bytes]:
    """Every kind of distance, at its edges, and under the lowest and the highest TEID."""
    numbers = {
        0x00000000: [0, 32767],
        0x00000001: [0, 32768],
        0xFFFFFFFF: [1, 5],
        0x00000005: [100, 99, 101, 101, 105, 103, 103],
        0x00000002: [65534, 2],
        0x00000003: [5, 4, 5],
        0x00000006: [40000, 0, 1],
        0x00000007: [30000, 0, 1],
    }
    packets = [over6(g_pdu(teid, number)) for teid in numbers for number in numbers[teid]]
    return packets + [over4(g_pdu(4, 10)), over6(g_pdu(4, 11)), over4(g_pdu(4, 12))]


def reasons() -> list[bytes]:
    """Frames, of which the rows count numbers 1, 4, 5 and 7 of TEID 9; 2 and 3 are unreadable, and 6 is never sent."""
    plain = over4(g_pdu(9, 2))
    message = g_pdu(9, 3)
    other = yard.udp(yard.GTPU_PORT, yard.GTPU_PORT + 1, message[8:])
    foreign = yard.gtpu(yard.G_PDU, 9, bytes.fromhex("000000c0 01123400") + INNER, yard.E)  # the extension is a PDCP PDU Number
    numbered_foreign = yard.gtpu(yard.G_PDU, 9, bytes.fromhex("000400c0 01123400") + INNER, yard.E | yard.S)
    packets = {
        "counted": [over6(g_pdu(9, 1)), over6(numbered_foreign), srh(over6(g_pdu(9, 5)), 0),
                    over6(yard.gtpu(yard.G_PDU, 9, bytes.fromhex("00070000"), yard.S))],
        "no S": [over6(g_pdu(9)), over6(yard.g_pdu(yard.DOWNLINK, 5, 0, 9, INNER)), over4(g_pdu(9)), over6(foreign),
                 over6(yard.gtpu(yard.G_PDU, 9, INNER)),
                 over4(yard.gtpu(yard.G_PDU, 9, bytes.fromhex("00060000") + INNER, PN)), over4(yard.gtpu(yard.G_PDU, 9))],
        "2": [header4(plain, 2, struct.pack(">H", len(plain) + 20)), over6(message)[:-10]],
        "3": [header4(plain, 6, b"\x20\x00"), header4(plain, 6, b"\x00\x10"), changed(plain, 10, b"\x00\x00"), with_options(plain)],
        "5": [behind(over6(message), FRAGMENT, "00000100000007"), behind(over6(message), HOP_BY_HOP, "00010400000000"),
              behind(over6(message), DESTINATION_OPTIONS, "00010400000000"), behind(over6(message), ROUTING, "00000100000000")],
        "7": [srh(over6(message), 1)],
        "8": [over6(other), over4(other), header4(plain, 9, bytes([TCP])), changed(over6(message), 6, bytes([ICMPV6]))],
        "9": [over4(changed(message, 4, struct.pack(">H", len(message) + 1))), over4(message[:4])],
        "10": [over4(changed(message, 8, b"\x56")), over4(changed(message, 8, b"\x26")), over4(changed(message, 10, b"\x00\x00")),
               over4(yard.gtpu(yard.G_PDU, 9, b"", yard.S))],
        "11": [over6(yard.gtpu(yard.ECHO_REQUEST, 0, bytes.fromhex("00080000"), yard.S)), over4(yard.gtpu(yard.ECHO_REQUEST, 0)),
               over4(yard.gtpu(yard.END_MARKER, 9)), over6(yard.gtpu(ERROR_INDICATION, 0, bytes(12), yard.S))],
    }
    frames = [tagged(packet) for kind in packets.values() for packet in kind]
    wrong_version = bytes(12) + b"\x08\x00" + over6(message)
    request = yard.downlink()[2]
    return frames + [wrong_version, request]


def over_udp6(frame: bytes) -> bool:
    """Whether a frame has IPv6 with UDP, perhaps behind an SRH."""
    return frame[12:14] == b"\x86\xdd" and (frame[20] == yard.UDP or frame[20] == ROUTING and frame[54] == yard.UDP and frame[56] == 4)


def main() -> None:
    if len(sys.argv) != 2:
        sys.exit("usage: loss.py DIRECTORY")
    directory = Path(sys.argv[1])

    def times(packets: list[bytes]) -> list[Packet]:
        return [(20 * number, packet) for number, packet in enumerate(packets)]

    def write(name: str, octets: bytes) -> None:
        (directory / name).write_bytes(octets)

    for name, octets in same(times([frame[14:] for frame in yard.numbered()])).items():
        write(name, octets)
    write("streams.pcap", pcap(RAW, times(streams())))
    snapped = pcap(ETHERNET, times([tagged(over6(g_pdu(9, 3)))]), cut=1)
    write("reasons.pcap", pcap(ETHERNET, times(reasons())) + snapped[24:])

    # the same with other UDP checksums over IPv6
    others = {
        "zero": lambda packet: with_checksum(packet, 0),
        "unfinished": unfinished,
        "wrong": lambda packet: with_checksum(packet, held_checksum(packet) ^ 0x8000),
    }
    for name, other in others.items():
        def checked(frame: bytes) -> bytes:
            return frame[:14] + other(frame[14:]) if over_udp6(frame) else frame

        write(f"reasons-{name}.pcap", pcap(ETHERNET, times([checked(frame) for frame in reasons()])) + snapped[24:])
        write(f"numbered-{name}.pcap", pcap(ETHERNET, times([checked(frame) for frame in yard.numbered()])))

    # both directions under one TEID
    up, down = [5000, 5001, 5002], [1, 2, 3]
    both = [over6(g_pdu(1, number), to) for pair in zip(down, up) for to, number in zip((yard.RADIO6, yard.UPF6), pair)]
    write("both.pcap", pcap(RAW, times(both)))

    teids = range(257, 0, -1)
    write("teids.pcap", pcap(RAW, times([over6(g_pdu(teid, number)) for number in (1, 3) for teid in teids])))
    write("long.pcap", pcap(ETHERNET, over(times([over6(g_pdu(1, number)) for number in range(3000)]), tagged)))


if __name__ == "__main__":
    main()
