"""Part 5, its second half: Echo Requests of real clients, through the kernel, to a gateway behind a tunnel: of UDP sockets, and of the
command `kawsarpa echo`."""

import json
import select
import socket
import struct
import subprocess
from dataclasses import dataclass

import echo
import expect
import table
import wire
from draw import Draw
from judge import Count
from tunnel import NODE, Tunnel

SEED = 6
EXCHANGES = 50  # with each kind of gateway
REQUESTS = 5  # of a run of kawsarpa echo
FIRST = 65533  # its first sequence number
IP_RECVTTL, IP_RECVTOS = 12, 13  # Linux; Python has no names for them


@dataclass(frozen=True)
class Gateway:
    name: str
    address: bytes
    hop_limit: int
    table: bytes


def draw_gateway(draw: Draw, name: str) -> Gateway:
    hop_limit = draw.hop_limit()
    if name == "D4":
        address = draw.ipv4()
        return Gateway(name, address, hop_limit, echo.rule(draw, address, hop_limit))
    address = draw.ipv6()
    return Gateway(name, address, hop_limit, echo.entry(draw, table.D if name == "D" else table.DI, address, hop_limit))


def open_client(gateway: Gateway, port: int, tclass: int) -> socket.socket:
    """An ordinary UDP socket; connected, so the kernel hands it only what comes from the gateway's address and port 2152."""
    if gateway.name == "D4":
        client = socket.socket(socket.AF_INET, socket.SOCK_DGRAM)
        options = [(socket.IP_TOS, tclass), (IP_RECVTOS, 1), (IP_RECVTTL, 1)]
        level = socket.IPPROTO_IP
    else:
        client = socket.socket(socket.AF_INET6, socket.SOCK_DGRAM)
        options = [(socket.IPV6_TCLASS, tclass), (socket.IPV6_RECVTCLASS, 1), (socket.IPV6_RECVHOPLIMIT, 1)]
        level = socket.IPPROTO_IPV6
    for option, value in options:
        client.setsockopt(level, option, value)
    client.bind(("", port))
    client.connect((expect.address(gateway.address), wire.GTPU_PORT))
    return client


def readable(client: socket.socket) -> bool:
    return bool(select.select([client], [], [], 0)[0])


def received(client: socket.socket) -> tuple[bytes, dict[int, int]]:
    """The octets, and what the kernel says beside them: traffic class and hop limit, or TOS and TTL."""
    octets, beside, _, _ = client.recvmsg(2048, 512)
    return octets, {kind: struct.unpack("i", data)[0] if len(data) == 4 else data[0] for _, kind, data in beside}


class Clients:
    def __init__(self, tunnel: Tunnel, count: Count) -> None:
        self.tunnel, self.count, self.draw = tunnel, count, Draw(SEED)

    def drawn(self, name: str) -> tuple[Gateway, socket.socket, int, echo.Message]:
        """A gateway of this kind, a client, its traffic class and its message, which is sent."""
        gateway = draw_gateway(self.draw, name)
        port, tclass = self.draw.choice([0, wire.GTPU_PORT, self.draw.randrange(1, 65536)]), self.draw.bits(8)
        client: socket.socket = self.tunnel.chain.within(NODE, lambda: open_client(gateway, port, tclass))
        flags = wire.S | self.draw.choice([0, wire.PN, wire.E, wire.E | wire.PN])
        message = echo.request(self.draw, flags)
        client.send(message.octets)
        return gateway, client, tclass, message

    def exchange(self, name: str) -> None:
        """The client gets the Echo Response: its kernel finds no fault with it, and the gateway none with the Echo Request."""
        gateway, client, tclass, message = self.drawn(name)
        with client:
            self.tunnel.serve(gateway.table, lambda: readable(client), f"an Echo Request to {name}")
            octets, beside = received(client)
        kinds = (socket.IP_TOS, socket.IP_TTL) if name == "D4" else (socket.IPV6_TCLASS, socket.IPV6_HOPLIMIT)
        expected = dict(zip(kinds, (tclass, gateway.hop_limit)))
        self.count.echoes += 1
        if octets != wire.echo_response(message.number) or beside != expected:
            self.count.differ(f"difference: an Echo Request to {name}: {message.octets.hex()}",
                              f"expected {wire.echo_response(message.number).hex()} and {expected}",
                              f"the socket received {octets.hex()} and {beside}")

    def sockets(self) -> str:
        for name in ("D", "Di", "D4"):
            for _ in range(EXCHANGES):
                self.exchange(name)
        return f"UDP sockets receive {2 * EXCHANGES} Echo Responses over IPv6 and {EXCHANGES} over IPv4"

    def tool(self, program: str) -> str:
        for name in ("D", "Di", "D4"):
            gateway = draw_gateway(self.draw, name)
            command = start(self.tunnel, program, expect.address(gateway.address))
            self.tunnel.serve(gateway.table, lambda: command.poll() is not None, f"kawsarpa echo, to {name}")
            compare_run(command, 0, self.count)
        return f"kawsarpa echo receives Echo Responses to {3 * REQUESTS} Echo Requests"


def start(tunnel: Tunnel, program: str, address: str) -> subprocess.Popen[str]:
    return subprocess.Popen(["ip", "netns", "exec", tunnel.namespace, program, "echo", "--json", "-c", str(REQUESTS), "-i", "0.01",
                             "--first", str(FIRST), address], stdout=subprocess.PIPE, stderr=subprocess.STDOUT, text=True)


def compare_run(command: subprocess.Popen[str], recovery: int, count: Count) -> None:
    """Every Echo Request has got its Echo Response, in order, with this Recovery."""
    told, _ = command.communicate()
    expected = [("response", (FIRST + i) % 65536, recovery) for i in range(REQUESTS)]
    count.echoes += REQUESTS
    try:
        events = [(event["event"], event.get("sequence_number"), event.get("recovery")) for event in json.loads(told)["events"]]
    except (ValueError, KeyError):
        events = []
    if command.returncode != 0 or events != expected:
        count.differ(f"difference: kawsarpa echo: expected {expected}; exit code {command.returncode}", told)


def run(tunnel: Tunnel, program: str, count: Count) -> list[str]:
    clients = Clients(tunnel, count)
    return [clients.sockets(), clients.tool(program)]
