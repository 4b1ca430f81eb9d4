"""Part 7, continued: what the kernel makes of ICMPv6 messages. A namespace has a TUN device, and at its other end stand gateways: each
packet goes from stop to stop until one refuses it, and the library's message is written back. Plain UDP sockets are told of it
(IPV6_RECVERR), and traceroute shows the stops."""

import errno
import re
import socket
import struct
import subprocess
import time
from dataclasses import dataclass, replace
from typing import Callable

import expect
import icmp
import network
import table
import wire
from draw import INNER_PORTS, Draw
from judge import Count
from library import Library
from tunnel import A_MOMENT, DEVICE, Tunnel

SEED = 11
NODE, ADDRESS = "sender", "2001:db8:c::7"
LENGTHS = (wire.QUOTED - 1, wire.QUOTED, wire.QUOTED + 1, 0, 0)  # of the packets of a case; 0: drawn
LONGEST = 1400
MOST_STOPS = 7
IPV6_RECVERR, SO_EE_ORIGIN_ICMP6 = 25, 3  # Linux; Python has no names for them
ERRORS = ("Icmp6InErrors", "Icmp6InCsumErrors")
TAKEN = {wire.TIME_EXCEEDED: "Icmp6InTimeExcds", wire.PARAMETER_PROBLEM: "Icmp6InParmProblems"}
HOP = re.compile(r" *(\d+)  (\S+)  [\d.]+ ms ?(\S*)")  # a line of traceroute with one probe


@dataclass(frozen=True)
class Stop:
    """A gateway: one entry for its SID."""
    sid: bytes
    source: bytes
    hop_limit: int
    table: bytes


@dataclass(frozen=True)
class Case:
    """A datagram's way, by segments to a destination; the last of the stops refuses it."""
    name: str
    stops: list[Stop]
    segments: list[bytes]
    destination: bytes
    refusal: tuple[int, int, int, int]
    hops: int = 64
    by_socket: bool = False  # which brings the routing header itself; else a route of the kernel does
    tag: int = 0

    def head(self) -> int:
        """The octets before the payload."""
        return upper_at(len(self.segments)) + 8


def upper_at(segments: int) -> int:
    """Where UDP begins. The SRH holds the destination too."""
    return 40 + 8 + 16 * (segments + 1) if segments else 40


def draw_stop(draw: Draw, behaviour: int) -> Stop:
    """UDP is not what its session carries."""
    sid, source, hop_limit = draw.ipv6(), draw.ipv6(), draw.hop_limit()
    entry = table.entry(behaviour, sid, 48, hop_limit, draw.bits(1), table.SESSION_IPV4, 0, a=8, p=7, q=8, source=source)
    return Stop(sid, source, hop_limit, table.table([entry], [], [table.policy([draw.ipv6()], 8)]))


def expired(draw: Draw, count: int, by_socket: bool) -> Case:
    """The hop limit ends at the last of so many waypoints."""
    stops = [draw_stop(draw, table.WAYPOINT) for _ in range(count)]
    name = f"hop limit 1 at waypoint {count}" + (" by IPV6_RTHDR" if by_socket else "")
    return Case(name, stops, [stop.sid for stop in stops], draw.ipv6(), icmp.pointed(icmp.HOP_LIMIT, 0), count, by_socket)


def make_cases(draw: Draw) -> list[Case]:
    """Hop limits; each kind without an SRH and behind one, with no segment left and with some. No two have a SID in common, since a route
    for one would catch the other's."""
    def stop(behaviour: int) -> Stop:
        return draw_stop(draw, behaviour)

    def bad_upper_layer(segments: int) -> tuple[int, int, int, int]:
        return icmp.pointed(icmp.UPPER_LAYER, upper_at(segments))

    bad_segments_left = icmp.pointed(icmp.SEGMENTS_LEFT, 0)
    made = [expired(draw, count, by_socket) for count in (1, 2) for by_socket in (False, True)]
    for name, behaviour in (("waypoint", table.WAYPOINT), ("D", table.D), ("Di", table.DI), ("E4", table.E4)):
        last, before, after = stop(behaviour), stop(table.WAYPOINT), stop(behaviour)
        made += [
            Case(f"{name}, no SRH", [last], [], last.sid, bad_upper_layer(0)),
            Case(f"{name}, SL 0", [before, after], [before.sid], after.sid, bad_upper_layer(1)),
        ]
    for name, behaviour in (("D", table.D), ("Di", table.DI), ("E4", table.E4)):
        last = stop(behaviour)
        made.append(Case(f"{name}, SL 1", [last], [last.sid], draw.ipv6(), bad_segments_left))
    one, two = stop(table.E6), stop(table.E6)
    return made + [
        Case("E6, SL 1", [one], [one.sid], draw.ipv6(), bad_upper_layer(1)),
        Case("E6, SL 2", [two], [two.sid, draw.ipv6()], draw.ipv6(), bad_segments_left),
    ]


def open_socket(case: Case) -> socket.socket:
    """An ordinary UDP socket that asks to be told of errors."""
    opened = socket.socket(socket.AF_INET6, socket.SOCK_DGRAM)
    opened.setsockopt(socket.IPPROTO_IPV6, IPV6_RECVERR, 1)
    opened.setsockopt(socket.IPPROTO_IPV6, socket.IPV6_UNICAST_HOPS, case.hops)
    if case.by_socket:
        last = len(case.segments)
        # in the place of the last segment, the first of the header, the kernel puts the destination
        header = wire.srh(0, [bytes(16), *reversed(case.segments)], last, last, 0, case.tag)
        opened.setsockopt(socket.IPPROTO_IPV6, socket.IPV6_RTHDR, header)
    opened.bind(("", INNER_PORTS[0]))
    return opened


@dataclass(frozen=True)
class Told:
    """What the kernel says in a socket's error queue (struct sock_extended_err), and the payload that it found quoted."""
    error: int
    origin: int
    kind: int
    code: int
    info: int
    offender: str
    payload: bytes


def told(opened: socket.socket) -> Told | None:
    """The next error, or none."""
    try:
        payload, beside, _, _ = opened.recvmsg(1 << 16, 512, socket.MSG_ERRQUEUE | socket.MSG_DONTWAIT)
    except BlockingIOError:
        return None
    octets = next(data for level, kind, data in beside if (level, kind) == (socket.IPPROTO_IPV6, IPV6_RECVERR))
    error, origin, kind, code, _, info, _ = struct.unpack("=IBBBBII", octets[:16])
    return Told(error, origin, kind, code, info, expect.address(octets[24:40]), payload)


def due(case: Case, payload: bytes) -> Told:
    """Of the payload, as much as is quoted."""
    _, kind, code, pointer = case.refusal
    error = errno.EHOSTUNREACH if kind == wire.TIME_EXCEEDED else errno.EPROTO
    return Told(error, SO_EE_ORIGIN_ICMP6, kind, code, pointer, expect.address(case.stops[-1].source), payload[:wire.QUOTED - case.head()])


def wait(ready: Callable[[], bool]) -> bool:
    end = time.monotonic() + network.PATIENCE
    while not ready() and time.monotonic() < end:
        time.sleep(A_MOMENT / 10)
    return ready()


class Senders:
    def __init__(self, library: Library, chain: network.Network, count: Count) -> None:
        self.library, self.chain, self.count, self.draw = library, chain, count, Draw(SEED)
        self.tunnel = Tunnel(library, chain, NODE, (f"{ADDRESS}/128",))
        chain.sysctl(NODE, "net.ipv6.auto_flowlabels=0")  # else two packets of a socket may differ in it
        self.written = {kind: 0 for kind in TAKEN}

    def route(self, case: Case) -> None:
        """The kernel inserts an SRH into what goes to the destination."""
        if case.segments and not case.by_socket:
            self.chain.ip(NODE, "-6", "route", "replace", expect.address(case.destination), "encap", "seg6", "mode", "inline", "segs",
                          ",".join(map(expect.address, case.segments)), "dev", DEVICE)

    def write(self, message: bytes) -> None:
        self.tunnel.write(message)
        self.written[message[40]] += 1

    def message(self, packet: bytes, stop: Stop, refusal: tuple[int, int, int, int], name: str) -> bytes:
        """What the library builds about a packet that the stop refuses."""
        how = f"{packet.hex()} {stop.table.hex()}"
        answer, built = self.library.call("ipv6", packet, stop.table), self.library.call("icmp", packet, stop.table)
        laid_out = wire.icmp_error(stop.hop_limit, stop.source, packet, *refusal[1:])
        if answer != (*refusal, b"") or built != (0, 0, 0, 0, laid_out):
            raise RuntimeError(f"{name}: the library answers {tuple(answer)[:4]} and {tuple(built)[:4]}, builds {built.sent.hex()}, "
                               f"expected {refusal} and {laid_out.hex()}\n  call: ipv6 {how}\n  call: icmp {how}")
        return built.sent

    def passed(self, packet: bytes, stop: Stop) -> bytes:
        """What a waypoint sends on."""
        answer = self.library.call("ipv6", packet, stop.table)
        if answer.number != 0:
            raise RuntimeError(f"answer {answer.number}\n  call: ipv6 {packet.hex()} {stop.table.hex()}")
        return answer.sent

    def refused(self, case: Case, opened: socket.socket, payload: bytes) -> bytes:
        """Sends a datagram; gives the message about it."""
        opened.sendto(payload, (expect.address(case.destination), INNER_PORTS[1]))
        packet = self.tunnel.sent_to([*case.segments, case.destination][0], (wire.NEXT_UDP, wire.NEXT_ROUTING))
        for stop in case.stops[:-1]:
            packet = self.passed(packet, stop)
        return self.message(packet, case.stops[-1], case.refusal, case.name)

    def tell(self, case: Case, opened: socket.socket, payload: bytes, message: bytes) -> None:
        """Writes the message; the socket is told of it, and of nothing else."""
        self.write(message)
        got: list[Told] = []

        def heard() -> bool:
            got.extend(filter(None, [told(opened)]))
            return bool(got)
        wait(heard)
        self.count.messages += 1
        if got != [due(case, payload)] or told(opened) is not None:
            self.count.differ(f"difference: {case.name}: the socket is told {got}, not {due(case, payload)}", f"written {message.hex()}")

    def sockets(self) -> str:
        all_cases, before = make_cases(self.draw), self.count.differences
        for case in all_cases:
            self.route(case)
            for length in LENGTHS:
                payload = self.draw.randbytes((length or self.draw.randrange(case.head(), LONGEST)) - case.head())
                with self.chain.within(NODE, lambda: open_socket(case)) as opened:
                    self.tell(case, opened, payload, self.refused(case, opened, payload))
        total = len(all_cases) * len(LENGTHS)
        return f"UDP sockets are told of {total - (self.count.differences - before)} of {total} ICMPv6 messages, in {len(all_cases)} cases"

    def zero(self, case: Case, payload: bytes, message: bytes) -> None:
        """The tag of the SRH makes the checksum 0, where it was that of the message, and the kernel takes the message."""
        tagged = replace(case, name="a checksum of 0", tag=int.from_bytes(message[42:44], "big"))
        with self.chain.within(NODE, lambda: open_socket(tagged)) as opened:
            message = self.refused(tagged, opened, payload)
            if message[42:44] != bytes(2):
                raise RuntimeError(f"no checksum of 0: {message.hex()}")
            self.tell(tagged, opened, payload, message)

    def judges(self) -> str:
        """That the kernel judges checksums: with each bit changed, and with 0, a message is counted as an error, and no socket is told."""
        case, payload = expired(self.draw, 1, True), self.draw.randbytes(100)
        with self.chain.within(NODE, lambda: open_socket(case)) as opened:
            message = self.refused(case, opened, payload)
            right = int.from_bytes(message[42:44], "big")
            wrong = [right ^ 1 << bit for bit in range(16)] + [0]
            for checksum in wrong:
                errors = self.tunnel.counter("Icmp6InCsumErrors") + 1
                self.tunnel.write(message[:42] + struct.pack("!H", checksum) + message[44:])
                if not wait(lambda: self.tunnel.counter("Icmp6InCsumErrors") == errors) or told(opened) is not None:
                    raise RuntimeError(f"the kernel takes ICMPv6 checksum {checksum:04x} where {right:04x} is right: {message.hex()}")
            self.tell(case, opened, payload, message)
        self.zero(case, payload, message)
        return f"the kernel drops {len(wrong)} with a wrong checksum, and takes one of 0"

    def serve(self, stops: list[Stop], done: Callable[[], bool]) -> None:
        """The stops, until that is done which they are for."""
        end = time.monotonic() + network.PATIENCE
        at = {stop.sid: stop for stop in stops}
        while not done() and time.monotonic() < end:
            packet = self.tunnel.read(A_MOMENT)
            while packet is not None and (stop := at.get(packet[24:40])) is not None:
                answer = self.library.call("ipv6", packet, stop.table)
                if answer.icmp_type != 0:
                    self.write(self.message(packet, stop, answer[:4], "traceroute"))
                packet = answer.sent or None

    def trace(self, stops: list[Stop]) -> None:
        """traceroute to the last of the stops, by way of the others, shows each; at the last it shows type and code."""
        destination = stops[-1].sid
        self.route(Case("traceroute", stops, [stop.sid for stop in stops[:-1]], destination, icmp.pointed(icmp.UPPER_LAYER, 0)))
        command = ["ip", "netns", "exec", self.tunnel.namespace, "traceroute", "-6", "-n", "-q", "1", "-N", "1", "-w", "2", "-m",
                   str(MOST_STOPS + 2), expect.address(destination)]
        with subprocess.Popen(command, stdout=subprocess.PIPE, stderr=subprocess.STDOUT, text=True) as running:
            self.serve(stops, lambda: running.poll() is not None)
            running.kill()
            shown, _ = running.communicate()
        hops = [HOP.fullmatch(line) for line in shown.strip("\n").split("\n")[1:]]
        expected = [(str(i + 1), expect.address(stop.source), "!<4-4>" if stop is stops[-1] else "") for i, stop in enumerate(stops)]
        self.count.messages += len(stops)
        if [hop and hop.groups() for hop in hops] != expected:
            self.count.differ(f"difference: traceroute: expected {expected}", shown)

    def traces(self) -> str:
        """To a waypoint and to D, by way of none to seven waypoints. A waypoint at the end is refused with 8, as it has no segment left."""
        ends, before = [(behaviour, n) for behaviour in (table.WAYPOINT, table.D) for n in range(MOST_STOPS + 1)], self.count.differences
        for behaviour, n in ends:
            self.trace([*(draw_stop(self.draw, table.WAYPOINT) for _ in range(n)), draw_stop(self.draw, behaviour)])
        return f"traceroute shows every stop of {len(ends) - (self.count.differences - before)} of {len(ends)} ways, and !<4-4> at the last"

    def check_counters(self) -> None:
        """The kernel took every message, and found no fault with one."""
        def counted() -> dict[str, int]:
            return {name: self.tunnel.counter(name) for name in (*ERRORS, *TAKEN.values())}
        expected = {**{name: 0 for name in ERRORS}, **{name: self.written[kind] for kind, name in TAKEN.items()}}
        if not wait(lambda: counted() == expected):
            self.count.differ(f"difference: the kernel counts {counted()}, not {expected}")


def run(library: Library, chain: network.Network, count: Count) -> list[str]:
    senders = Senders(library, chain, count)
    words = [senders.sockets(), senders.traces()]
    senders.check_counters()
    return [*words, senders.judges()]
