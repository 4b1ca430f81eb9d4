"""A packet socket with a ring, into which the kernel copies each packet as it arrives. A socket without one shares the octets with the
stack, and the kernel's End writes SL and destination in place before they are read."""

import mmap
import select
import socket
import struct
import time

SOL_PACKET, PACKET_RX_RING, PACKET_VERSION, TPACKET_V2 = 263, 5, 10, 1
ETH_P_ALL = 3  # sees a packet before the stack does
FRAME, BLOCK, BLOCKS = 1 << 14, 1 << 18, 4
STATUS_KERNEL, STATUS_USER = 0, 1


class Tap:
    def __init__(self, device: str) -> None:
        self.socket = socket.socket(socket.AF_PACKET, socket.SOCK_RAW, 0)
        self.socket.setsockopt(SOL_PACKET, PACKET_VERSION, TPACKET_V2)
        self.socket.setsockopt(SOL_PACKET, PACKET_RX_RING, struct.pack("IIII", BLOCK, BLOCKS, FRAME, BLOCKS * BLOCK // FRAME))
        self.ring = mmap.mmap(self.socket.fileno(), BLOCKS * BLOCK)
        self.socket.bind((device, ETH_P_ALL))
        self.place = 0

    def next_frame(self, end: float) -> bytes | None:
        """The next frame, or none until a moment of the monotonic clock."""
        while not self.header()[0] & STATUS_USER:
            if (left := end - time.monotonic()) <= 0:
                return None
            select.select([self.socket], [], [], left)
        _, _, kept, start = self.header()
        frame = self.ring[self.place + start:self.place + start + kept]
        struct.pack_into("I", self.ring, self.place, STATUS_KERNEL)
        self.place = (self.place + FRAME) % len(self.ring)
        return frame

    def header(self) -> tuple[int, int, int, int]:
        """Status, length, octets kept and where they begin (struct tpacket2_hdr)."""
        status, length, kept, start = struct.unpack_from("IIIH", self.ring, self.place)
        return status, length, kept, start
