"""Part 5, its end: another answerer, osmo-ggsn. Of the same Echo Request its Echo Response and the library's are equal but in what its
kernel writes and in Recovery."""

import os
import subprocess
import time
from pathlib import Path

import clients
import decode
import echo
import expect
import network
import wire
from draw import Draw
from judge import Count
from tunnel import A_MOMENT, NODE, Tunnel

SEED = 7
REQUESTS = 50
ADDRESS = bytes([198, 51, 100, 1])
ADDRESS_TEXT = expect.address(ADDRESS)
# It answers with TOS 0, and its kernel has a TTL, an identification and a UDP checksum of its own. TS 29.281, 7.2.2 has 0 in Recovery,
# which the receiver ignores; osmo-ggsn writes there how often it was started, as TS 29.060 has it.
OWN = ["ip.dsfield", "ip.id", "ip.ttl", "ip.checksum", "udp.checksum", "udp.checksum.status", "udp.payload", "gtp.recovery"]
STARTS = 1


class Ggsn:
    """Unpacked in a folder, or installed."""

    def __init__(self, tunnel: Tunnel, folder: Path, work: Path) -> None:
        tunnel.chain.ip(NODE, "address", "add", f"{ADDRESS_TEXT}/32", "dev", "lo")
        settings, self.log = work / "ggsn.cfg", work / "ggsn.log"
        settings.write_text(f"ggsn g\n gtp state-dir {work}\n gtp bind-ip {ADDRESS_TEXT}\n no shutdown ggsn\n")
        unpacked = folder / "usr/bin/osmo-ggsn"
        libraries = ":".join(map(str, folder.glob("usr/lib/*")))
        with self.log.open("wb") as log:
            self.process = subprocess.Popen(["ip", "netns", "exec", tunnel.namespace, str(unpacked) if unpacked.exists() else "osmo-ggsn",
                                             "-c", str(settings)], stdout=log, stderr=log, env={**os.environ, "LD_LIBRARY_PATH": libraries})
        self.tunnel = tunnel

    def wait(self) -> None:
        """Until its port is open."""
        end = time.monotonic() + network.PATIENCE
        while f":{wire.GTPU_PORT:04X} " not in self.tunnel.proc("udp"):
            if time.monotonic() > end or self.process.poll() is not None:
                raise RuntimeError(f"osmo-ggsn does not start: {self.log.read_text(errors='replace')}")
            time.sleep(A_MOMENT)

    def answer(self, packet: bytes) -> bytes:
        """What comes back through the tunnel."""
        self.tunnel.write(packet)
        while (back := self.tunnel.read(network.PATIENCE)) is not None:
            if back[0] >> 4 == 4:
                return back
        raise RuntimeError(f"osmo-ggsn does not answer {packet.hex()}: {self.log.read_text(errors='replace')}")

    def stop(self) -> None:
        self.process.kill()
        self.process.wait()


class High(Draw):
    def hop_limit(self) -> int:
        """Without a remark of tshark's."""
        return self.randrange(5, 256)


def requests() -> list[echo.Echo]:
    """Such as osmo-ggsn answers: without E and PN, and not from port 0, to which its kernel sends nothing."""
    draw, drawn = High(SEED), []
    while len(drawn) < REQUESTS:
        one = echo.over_ipv4(draw, echo.request(draw, wire.S), ADDRESS)
        if one.packet[20:22] != bytes(2):
            drawn.append(one)
    return drawn


def shown(asked: list[echo.Echo], answers: list[bytes], work: Path) -> list[dict[str, str]]:
    """What tshark shows of the answers, each behind its Echo Request."""
    frames = [decode.frame(packet, "ip") for one, answer in zip(asked, answers, strict=True) for packet in (one.packet, answer)]
    return decode.decode(frames, work, decode.ECHO)[1::2]


def compare(ggsn: Ggsn, work: Path, count: Count) -> set[str]:
    """Gives what differs as it must."""
    asked = requests()
    ours = [echo.answered(ggsn.tunnel.library, one) for one in asked]
    theirs = [ggsn.answer(one.packet) for one in asked]
    own: set[str] = set()
    for one, our, their, our_texts, their_texts in zip(asked, ours, theirs, shown(asked, ours, work), shown(asked, theirs, work)):
        differing = decode.differences(our_texts, their_texts)
        own.update(name for name in differing if name in OWN)
        count.echoes += 1
        if [name for name in differing if name not in OWN] or our[28:-1] != their[28:-1] or their_texts["gtp.recovery"] != str(STARTS):
            count.differ(f"difference: to osmo-ggsn's Echo Response: {', '.join(differing)}", f"osmo-ggsn sent {their.hex()}",
                         f"the library sent {our.hex()}", one.how())
    return own


def run(tunnel: Tunnel, folder: Path, program: str, work: Path, count: Count) -> str:
    ggsn = Ggsn(tunnel, folder, work)
    try:
        ggsn.wait()
        own = compare(ggsn, work, count)
        clients.compare_run(clients.start(tunnel, program, ADDRESS_TEXT), STARTS, count)
    finally:
        ggsn.stop()
    return (f"osmo-ggsn answers {REQUESTS} Echo Requests as the library does, but in {len(own)} fields; and {clients.REQUESTS} of "
            "kawsarpa echo")
