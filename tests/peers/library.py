"""The library under test, called through call.c."""

import subprocess
from typing import NamedTuple


class Answer(NamedTuple):
    number: int
    icmp_type: int
    icmp_code: int
    icmp_pointer: int
    sent: bytes


class Library:
    def __init__(self, program: str) -> None:
        self.process = subprocess.Popen([program], stdin=subprocess.PIPE, stdout=subprocess.PIPE, text=True)

    def ask(self, line: str, count: int) -> list[str]:
        """The words of the line that answers, which must be so many."""
        assert self.process.stdin and self.process.stdout
        self.process.stdin.write(f"{line}\n")
        self.process.stdin.flush()
        words = self.process.stdout.readline().split()
        if len(words) != count:
            raise RuntimeError("the library's program ended within a call")
        return words

    def call(self, name: str, packet: bytes, table: bytes) -> Answer:
        words = self.ask(f"{name} {packet.hex()} {table.hex()}", 5)
        sent = b"" if words[4] == "-" else bytes.fromhex(words[4])
        number, icmp_type, icmp_code, icmp_pointer = map(int, words[:4])
        return Answer(number, icmp_type, icmp_code, icmp_pointer, sent)

    def sequence(self, name: str, packet: bytes) -> int:
        """What the reader of that IP version gives."""
        return int(self.ask(f"sequence-{name} {packet.hex()}", 1)[0], 16)
