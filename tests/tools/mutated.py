"""mutated.py TOOL OFFICE GATE MAST CRANE EVERYWHERE CAPTURES SEED COUNT PACKETS: translate, trip and loss over COUNT mutated captures, and
for each link type over PACKETS packets mutated in sound ones.

TOOL is best built with the sanitizers. OFFICE to CRANE are the yard's tables, EVERYWHERE one that leads every address to End.M.GTP6.D or to
a rule, CAPTURES a directory that captures.py and the yard's make-capture.py have filled. Every run has to end with an exit code of the
list, quietly, and to leave its output exactly when it says so: after a failure only where the capture is cut. So with --icmp, where the
packets that are sent come with the ICMPv6 messages, or neither.
What arrives is as it went in, since the yard's tables fit. What loss does not count has no S, is an Echo Request, or translate refuses it
by EVERYWHERE, which allows UDP checksum 0: half of the packets have that. Loss does not examine checksums: what translate refuses with 18
may be anything from 10 on there.
"""

import random
import re
import struct
import subprocess
import sys
import tempfile
from pathlib import Path

LINKS = [1, 12, 14, 101, 113, 228, 229, 276]
SEEDS = ["same-ethernet.pcap", "same-qinq.pcap", "same-cooked.pcap", "same-cooked-v2.pcap", "same-raw.pcap", "same-big-endian.pcap",
         "same-nanoseconds.pcap", "same-pcapng.pcap", "same-pcapng-raw.pcap", "snapped.pcap", "not-ip.pcap", "numbered.pcap",
         "echo.pcap"]
UDP = 17
TELLING = [0, 1, 2, 3, 4, 8, 16, 17, 20, 40, 41, 43, 60, 64, 127, 128, 143, 254, 255]


def mutate(draw: random.Random, octets: bytes) -> bytes:
    """A few octets changed, inserted, removed or doubled, or the end cut off."""
    changed = bytearray(octets)
    for _ in range(draw.choice([1, 1, 2, 3, 8])):
        if not changed:
            break
        at = draw.randrange(len(changed))
        way = draw.randrange(8)
        if way < 4:
            changed[at] = draw.choice(TELLING) if way < 2 else draw.randrange(256)
        elif way == 4:
            changed[at] ^= 1 << draw.randrange(8)
        elif way == 5:
            changed[at:at] = draw.randbytes(draw.randrange(1, 20))
        elif way == 6:
            del changed[at:at + draw.randrange(1, 20)]
        else:
            del changed[at:]
    return bytes(changed)


def unchecked(frame: bytes) -> bytes:
    """UDP checksum 0, where an IPv6 packet with UDP right behind its header begins at the place of a link type."""
    for at in (0, 14, 16, 18, 20, 22):
        if len(frame) >= at + 48 and frame[at] >> 4 == 6 and frame[at + 6] == UDP:
            return frame[:at + 46] + bytes(2) + frame[at + 48:]
    return frame


def frames_of(capture: bytes) -> list[bytes]:
    """Of a little-endian pcap file."""
    frames, at = [], 24
    while at < len(capture):
        length = struct.unpack_from("<I", capture, at + 8)[0]
        frames.append(capture[at + 16:at + 16 + length])
        at += 16 + length
    return frames


def pcap(link: int, frames: list[bytes]) -> bytes:
    octets = struct.pack("<IHHiIII", 0xA1B2C3D4, 2, 4, 0, 0, 262144, link)
    return octets + b"".join(struct.pack("<IIII", 0, 0, len(frame), len(frame)) + frame for frame in frames)


def run(arguments: list[str], codes: list[int], out: Path, messages: Path) -> tuple[str, str]:
    """What is wrong with a run, or nothing; and what it printed."""
    out.unlink(missing_ok=True)
    messages.unlink(missing_ok=True)
    done = subprocess.run(arguments, capture_output=True, errors="replace", timeout=60)
    written = done.stdout != "" if arguments[1] == "loss" else out.exists()
    fault = ""
    if done.returncode not in codes:
        fault = f"exit code {done.returncode}"
    elif "Sanitizer" in done.stderr or "runtime error" in done.stderr:
        fault = "the sanitizers complain"
    elif done.returncode == 0 and not written:
        fault = "no output"
    elif arguments[1] != "trip" and done.returncode != 0 and written and ": the capture is cut here" not in done.stderr:
        fault = "output after a failure"
    elif "--icmp" in arguments and messages.exists() != written:
        fault = "one output of two"
    return fault, done.stdout


def refusals(printed: str) -> dict[int, int]:
    """The answers 2 to 11 and 18 with their counts; Echo Requests, answered or refused with 17, are among those that are no G-PDU."""
    counts: dict[int, int] = {}
    for count, answer, name in re.findall(r"^ *([0-9]+)  ([ 0-9][0-9]) (.*)", printed, re.MULTILINE):
        number = 11 if int(answer) == 17 or name == "Echo Request answered" else int(answer)
        counts[number] = counts.get(number, 0) + int(count)
    return {number: count for number, count in counts.items() if 2 <= number <= 11 or number == 18}


def same_reasons(loss: dict[int, int], translate: dict[int, int]) -> bool:
    """But that loss, which has no 18, may have more of 10 and 11: of packets that translate refuses with 18 before."""
    more = [loss.get(number, 0) - translate.get(number, 0) for number in (10, 11)]
    return min(more) >= 0 and sum(more) <= translate.get(18, 0) and 18 not in loss and \
        all(loss.get(number, 0) == translate.get(number, 0) for number in range(2, 10))


def accounted(loss: str) -> bool:
    """Whether every IP packet of a report is seen or not counted."""
    def behind(words: str) -> int:
        found = re.search(words + " ([0-9]+)", loss)
        return int(found[1]) if found else 0

    return behind("IP packets") == behind("seen") + behind("not counted")


def main() -> None:
    if len(sys.argv) != 11:
        sys.exit("usage: mutated.py TOOL OFFICE GATE MAST CRANE EVERYWHERE CAPTURES SEED COUNT PACKETS")
    tool, office, gate, mast, crane, everywhere = sys.argv[1:7]
    captures, seed, count, drawn = Path(sys.argv[7]), int(sys.argv[8]), int(sys.argv[9]), int(sys.argv[10])
    draw = random.Random(seed)
    seeds = [(captures / name).read_bytes() for name in SEEDS]
    packets = [frame for name in ["sent.expected", "same-raw.pcap", "echo.pcap"] for frame in frames_of((captures / name).read_bytes())]
    numbered = frames_of((captures / "numbered.pcap").read_bytes())
    packets += [frame[14:] for frame in numbered]
    framed = numbered + [frame for name in SEEDS[:4] for frame in frames_of((captures / name).read_bytes())]

    with tempfile.TemporaryDirectory() as directory:
        capture, out, messages = (Path(directory) / name for name in ("in.pcap", "out.pcap", "messages.pcap"))
        translate = [tool, "translate", "--table", office, "--trace", str(capture), str(out)]
        trip = [tool, "trip", "--near", office, "--via", gate, "--via", mast, "--far", crane, str(capture), "-o", str(out)]
        by_everywhere = [tool, "translate", "--table", everywhere, str(capture), str(out)]
        loss = [tool, "loss", str(capture)]
        told = [tool, "translate", "--table", office, "--trace", "--icmp", str(messages), str(capture), str(out)]
        told_by_everywhere = [tool, "translate", "--table", everywhere, "--icmp", str(messages), str(capture), str(out)]

        def judge(what: str) -> None:
            commands = [translate, trip, by_everywhere, loss, told, told_by_everywhere]
            results = [run(arguments, [0, 1], out, messages) for arguments in commands]
            faults = [f"{arguments[1]}: {fault}" for arguments, (fault, _) in zip(commands, results) if fault]
            travelled, refused, report = (printed for _, printed in results[1:4])
            if "arrived, but not" in travelled:
                faults.append("trip: a packet arrived changed")
            if not same_reasons(refusals(report), refusals(refused)):
                faults.append(f"loss: reasons {refusals(report)}, not {refusals(refused)}")
            if not accounted(report):
                faults.append("loss: seen and not counted are not all packets")
            if faults:
                kept = Path(f"mutated-{seed}.pcap")
                kept.write_bytes(capture.read_bytes())
                sys.exit(f"mutated.py: seed {seed}, {what}: {'; '.join(faults)}; kept as {kept}")

        for link in LINKS:
            chosen = [draw.choice(packets + framed) for _ in range(drawn)]
            capture.write_bytes(pcap(link, [mutate(draw, unchecked(frame) if draw.randrange(2) else frame) for frame in chosen]))
            judge(f"packets of link type {link}")
        for number in range(count):
            capture.write_bytes(mutate(draw, draw.choice(seeds)))
            judge(f"capture {number}")
    print(f"mutated.py: {count} mutated captures and {drawn * len(LINKS)} mutated packets, nothing amiss")


if __name__ == "__main__":
    main()
