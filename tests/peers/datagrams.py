"""Part 6, its other half: the kernel's UDP on both ends. What a plain socket sends is taken by D and Di; whole trips end in a plain socket,
and none is lost there. What a capture on the sending host has in place of a checksum."""

import fcntl
import json
import select
import socket
import struct
import subprocess
import time
from array import array
from dataclasses import replace
from pathlib import Path

import cases
import expect
import network
import table
import trips
import wire
from draw import Draw
from judge import Count, Sent
from library import Library
from tap import Tap
from tunnel import NODE, Tunnel
from walk import Walk

SEED = 9
TO_GATEWAYS = 25  # packets of a socket, to D and to Di each
SERVER = "server"
RECEIVER = bytes.fromhex("20010db8005500000000000000000009")
PORT_OF_THE_LINK, OTHER_END = "offload", "wire"
LINK_SOURCE, LINK_DESTINATION = "2001:db8:66::9", bytes.fromhex("20010db8006600000000000000000001")
LINK_PACKETS = 5
SIOCETHTOOL, ETHTOOL_STXCSUM = 0x8946, 0x17  # Linux


def open_client() -> socket.socket:
    return socket.socket(socket.AF_INET6, socket.SOCK_DGRAM)


def open_server() -> socket.socket:
    """As any receiver of GTP-U opens it, but that the kernel tells it traffic class and hop limit."""
    server = socket.socket(socket.AF_INET6, socket.SOCK_DGRAM)
    for option in (socket.IPV6_RECVTCLASS, socket.IPV6_RECVHOPLIMIT):
        server.setsockopt(socket.IPPROTO_IPV6, option, 1)
    server.bind((expect.address(RECEIVER), wire.GTPU_PORT))
    return server


def traffic_class(packet: bytes) -> int:
    return int.from_bytes(packet[:2], "big") >> 4 & 0xFF


class Sockets:
    def __init__(self, library: Library, chain: network.Network, client: Tunnel, count: Count) -> None:
        self.library, self.chain, self.count, self.draw = library, chain, count, Draw(SEED)
        self.client_end = client
        self.server_end = Tunnel(library, chain, SERVER, (f"{expect.address(RECEIVER)}/128",))
        self.client: socket.socket = chain.within(NODE, open_client)
        self.server: socket.socket = chain.within(SERVER, open_server)
        self.arrived = 0

    def send(self, like: bytes) -> bytes:
        """The message, traffic class and destination of a packet, sent by the socket; gives the packet that its kernel made. A TUN device
        has no checksum offload, so it is finished."""
        destination, message = like[24:40], like[wire.udp_at(like) + 8:]
        self.client.setsockopt(socket.IPPROTO_IPV6, socket.IPV6_TCLASS, traffic_class(like))
        self.client.sendto(message, (expect.address(destination), wire.GTPU_PORT))
        return self.client_end.sent_to(destination)

    def to_gateways(self) -> list[Sent]:
        """What D and Di send of packets that the socket sends to them."""
        all_sent = []
        for kind in (cases.d, cases.di):
            for _ in range(TO_GATEWAYS):
                session, shape = self.draw.choice(cases.SESSIONS)
                case = kind(Short(self.draw.bits(32)), session, shape, self.draw.bits(1), self.draw.randrange(1, 9))
                packet = self.send(case.packet)
                how = f"call: ipv6 {packet.hex()} {case.table.hex()}"
                answer = self.library.call("ipv6", packet, case.table)
                self.count.checksums += 1
                if answer.number != 0:
                    self.count.differ(f"difference: answer {answer.number} at {case.name} to a packet of a UDP socket", how)
                else:
                    all_sent.append(Sent(f"{case.name}, of a UDP socket", answer.sent, case.pairs, case.tail, how))
        return all_sent

    def trip(self, walk: Walk, trip: trips.Trip) -> list[Sent]:
        """From the one socket to the other; gives what the two gateways sent."""
        near, far = trips.make(self.library, self.chain, walk, replace(trip, packet=self.send(trip.packet)))
        self.server_end.write(far.packet)
        self.count.checksums += 1
        arrived = received(self.server)
        due = (far.packet[48:], expect.address(far.packet[8:24]), int.from_bytes(far.packet[40:42], "big"), traffic_class(far.packet),
               far.packet[7])
        self.arrived += arrived is not None
        if arrived != due:
            self.count.differ(f"difference: {far.name}: the socket received {arrived}, not {due}", far.how)
        return [near, far]

    def travel(self) -> list[Sent]:
        walk, all_sent = Walk(self.library, self.chain, self.count), []
        for count in range(1, 8):
            for session, shape in cases.SESSIONS:
                for direction in (table.DOWNLINK, table.UPLINK):
                    trip = trips.di_to_e6(Short(self.draw.bits(32)), session, shape, direction, count, self.draw.flow(), RECEIVER)
                    all_sent += self.trip(walk, trip)
        self.count.waypoints += walk.hops
        return all_sent

    def refuse(self, packet: bytes) -> int:
        """The kernel judges checksums here: it drops this packet with each bit of its checksum changed, and with 0, and counts each."""
        right = int.from_bytes(packet[46:48], "big")
        wrong = [right ^ 1 << bit for bit in range(16)] + [0]
        for checksum in wrong:
            before = self.server_end.counter("Udp6InCsumErrors")
            self.server_end.write(packet[:46] + struct.pack("!H", checksum) + packet[48:])
            end, errors, taken = time.monotonic() + network.PATIENCE, 0, False
            while errors == 0 and not taken and time.monotonic() < end:
                taken = takes(self.server)
                errors = self.server_end.counter("Udp6InCsumErrors") - before
            if taken or errors != 1:
                raise RuntimeError(f"the kernel takes UDP checksum {checksum:04x} where {right:04x} is right: {packet.hex()}")
        return len(wrong)


def takes(server: socket.socket) -> bool:
    """Whether something is received now. A wrong checksum is found, and counted under IPv6, when the socket is read."""
    try:
        return bool(server.recv(1, socket.MSG_DONTWAIT))
    except BlockingIOError:
        return False


class Short(Draw):
    def size(self, most: int) -> int:
        """So that every packet passes the TUN devices."""
        return min(super().size(most), 1300)


def received(server: socket.socket) -> tuple[bytes, str, int, int, int] | None:
    """The octets, the sender's address and port, traffic class and hop limit; none where nothing comes."""
    if not select.select([server], [], [], network.PATIENCE)[0]:
        return None
    octets, beside, _, sender = server.recvmsg(1 << 16, 512)
    told = {kind: struct.unpack("i", data)[0] for _, kind, data in beside}
    return octets, sender[0], sender[1], told[socket.IPV6_TCLASS], told[socket.IPV6_HOPLIMIT]


class Link:
    """A veth pair in the client's namespace, of which one end sends and the other is a capture: the kernel leaves the checksum to a card
    that is not there, until that is switched off."""

    def __init__(self, chain: network.Network) -> None:
        chain.ip(NODE, "link", "add", PORT_OF_THE_LINK, "type", "veth", "peer", "name", OTHER_END)
        for device in (PORT_OF_THE_LINK, OTHER_END):
            conf = f"net.ipv6.conf.{device}"
            chain.sysctl(NODE, f"{conf}.addr_gen_mode=1", f"{conf}.accept_dad=0", f"{conf}.router_solicitations=0")
            chain.ip(NODE, "link", "set", device, "up")
        destination = expect.address(LINK_DESTINATION)
        chain.ip(NODE, "address", "add", f"{LINK_SOURCE}/128", "dev", PORT_OF_THE_LINK)
        chain.ip(NODE, "-6", "route", "add", destination, "dev", PORT_OF_THE_LINK, "src", LINK_SOURCE)
        chain.ip(NODE, "-6", "neigh", "add", destination, "lladdr", "02:00:00:00:00:66", "dev", PORT_OF_THE_LINK, "nud", "permanent")
        self.tap: Tap = chain.within(NODE, lambda: Tap(OTHER_END))
        self.client: socket.socket = chain.within(NODE, open_client)

    def send(self, message: bytes) -> bytes:
        """Gives the frame."""
        self.client.sendto(message, (expect.address(LINK_DESTINATION), wire.GTPU_PORT))
        end = time.monotonic() + network.PATIENCE
        while (frame := self.tap.next_frame(end)) is not None:
            if frame[14 + 24:14 + 40] == LINK_DESTINATION:
                return frame
        raise RuntimeError(f"no packet left by {PORT_OF_THE_LINK}")

    def offload_off(self) -> None:
        """As `ethtool -K DEVICE tx off` does it."""
        value = array("I", [ETHTOOL_STXCSUM, 0])
        fcntl.ioctl(self.client, SIOCETHTOOL, struct.pack("16sP16x", PORT_OF_THE_LINK.encode(), value.buffer_info()[0]))


def told(program: str, octets: bytes, frames: list[bytes], work: Path) -> list[dict[str, object]]:
    """What `kawsarpa translate` says of a capture: the answers."""
    capture, file = work / "sending-host.pcap", work / "sending-host.table"
    file.write_bytes(octets)
    capture.write_bytes(struct.pack("<IHHiIII", 0xA1B2C3D4, 2, 4, 0, 0, 1 << 18, 1)
                        + b"".join(struct.pack("<IIII", 0, 0, len(frame), len(frame)) + frame for frame in frames))
    done = subprocess.run([program, "translate", "--table", str(file), "--json", str(capture), str(work / "sent.pcap")],
                          stdout=subprocess.PIPE, check=True, text=True)
    return json.loads(done.stdout)["answers"]


def offload(library: Library, chain: network.Network, program: str, work: Path, count: Count) -> str:
    draw, link = Short(SEED), Link(chain)
    messages = []
    while len(messages) < LINK_PACKETS:
        case = cases.d(draw, table.SESSION_ETHERNET, "Ethernet", table.UPLINK, 1)
        messages.append(case.packet[wire.udp_at(case.packet) + 8:])
    entry = table.entry(table.D, LINK_DESTINATION, 128, 64, table.UPLINK, table.SESSION_ETHERNET, 0)
    octets = table.table([entry], [], [table.policy([draw.ipv6()], 8)])
    unfinished = {"number": 18, "name": "bad UDP checksum", "packets": LINK_PACKETS, "zero": 0, "unfinished": LINK_PACKETS}
    finished = {"number": 0, "name": "sent", "packets": LINK_PACKETS}
    for number, due in ((18, unfinished), (0, finished)):
        frames = [link.send(message) for message in messages]
        answers = [library.call("ipv6", frame[14:], octets).number for frame in frames]
        count.checksums += LINK_PACKETS
        if answers != [number] * LINK_PACKETS or told(program, octets, frames, work) != [due]:
            count.differ(f"difference: a capture on the sending host: answers {answers}, expected {number}; the tool says "
                         f"{told(program, octets, frames, work)}, expected {due}", *(frame.hex() for frame in frames))
        link.offload_off()
    return f"of {LINK_PACKETS} packets captured on the sending host the tool says that they are unfinished; with tx off they are taken"


def run(library: Library, client: Tunnel, count: Count) -> tuple[list[Sent], str]:
    sockets = Sockets(library, client.chain, client, count)
    to_gateways, travelled = sockets.to_gateways(), sockets.travel()
    dropped = sockets.refuse(travelled[-1].packet)
    words = (f"D and Di take {len(to_gateways)} G-PDUs of a UDP socket; {sockets.arrived} of {len(travelled) // 2} trips end in a UDP "
             f"socket; the kernel drops {dropped} with a wrong checksum")
    return to_gateways + travelled, words
