"""responder.py ADDRESS FILE BEHAVIOUR...: answers Echo Requests for echo.sh, each by the next of the behaviours, and from the last on again
by the first. The port is one that is free, and is written into FILE. A request with other octets than it should have is not answered.
"""

import heapq
import select
import socket
import struct
import sys
import time
from pathlib import Path

UDP_NO_CHECK6_TX = 101
LATE = 0.5  # seconds


def message(number: int, first: int = 0x32, kind: int = 2, teid: int = 0, rest: str = "0000 0e00", longer: int = 0) -> bytes:
    behind = struct.pack(">H", number) + bytes.fromhex(rest)
    return struct.pack(">BBHI", first, kind, len(behind) + longer, teid) + behind


def responses(behaviour: str, number: int) -> list[tuple[float, bytes]]:
    """Seconds to wait, and octets."""
    good = message(number)
    once = {
        "good": good,
        "zero": good,  # with UDP checksum 0
        "recovery": message(number, rest="0000 0e09"),
        "no-recovery": message(number, rest="0000"),
        "private": message(number, rest="0000 ff0003abcdef 0e05"),      # a Private Extension first
        "extension": message(number, first=0x36, rest="00c0 01abcd00 0e06"),
        "unsent": message((number + 1000) % 65536),
        "empty": b"",
        "short": good[:7],
        "version": message(number, first=0x52),
        "prime": message(number, first=0x22),
        "request": message(number, kind=1),
        "indication": message(number, kind=26),
        "unknown": message(number, kind=77),
        "length": message(number, longer=1),
        "teid": message(number, teid=0x1020304),
        "no-s": message(number, first=0x30),
        "cut": bytes.fromhex("3202000200000000") + struct.pack(">H", number),
        "cut-element": message(number, rest="0000 0e"),
        "cut-private": message(number, rest="0000 0e00 ff0009ab"),
        "cut-extension": message(number, first=0x36, rest="00c0 02abcd00"),
    }
    if behaviour in once:
        return [(0, once[behaviour])]
    several = {"late": [(LATE, good)], "twice": [(0, good), (0, good)], "again": [(0, good), (LATE, good)]}
    return [] if behaviour in ("none", "elsewhere") else several[behaviour]


def main() -> None:
    if len(sys.argv) < 4:
        sys.exit("usage: responder.py ADDRESS FILE BEHAVIOUR...")
    address, file, *behaviours = sys.argv[1:]
    family = socket.AF_INET6 if ":" in address else socket.AF_INET
    ends = [socket.socket(family, socket.SOCK_DGRAM) for _ in range(2)]
    for end in ends:
        end.bind((address, 0))
    port, elsewhere = ends
    Path(file + ".new").write_text(f"{port.getsockname()[1]}\n", encoding="ascii")
    Path(file + ".new").rename(file)
    due: list[tuple[float, int, str, bytes, object]] = []
    requests = sent = 0
    while True:
        wait = max(0, due[0][0] - time.monotonic()) if due else None
        if select.select([port], [], [], wait)[0]:
            octets, source = port.recvfrom(65536)
            number = struct.unpack_from(">H", octets, 8)[0] if len(octets) >= 10 else 0
            behaviour = behaviours[requests % len(behaviours)]
            requests += 1
            if octets != bytes.fromhex("3201000400000000") + struct.pack(">H", number) + bytes(2):
                print(f"responder.py: not an Echo Request: {octets.hex()}", file=sys.stderr, flush=True)
                continue
            if behaviour == "elsewhere":
                elsewhere.sendto(message(number), source)
            for delay, response in responses(behaviour, number):
                heapq.heappush(due, (time.monotonic() + delay, sent, behaviour, response, source))
                sent += 1
        while due and due[0][0] <= time.monotonic():
            _, _, behaviour, response, source = heapq.heappop(due)
            if family == socket.AF_INET6:
                port.setsockopt(socket.IPPROTO_UDP, UDP_NO_CHECK6_TX, behaviour == "zero")
            port.sendto(response, source)


if __name__ == "__main__":
    main()
