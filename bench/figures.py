"""The figures of one `make bench`: what `bench time` printed, and callgrind's files of `bench count`.

A case is (kind, octets, records, order, load); its subjects are memcpy, bare, anchor and library. Of bursts, load "hot, bursts of 32" and
so on, times are a packet's and instructions a burst's. Of an ICMPv6 message, load "icmp", the kind is what is refused and where, and the
subject "call" is the library's IPv6 call of the packet. Of an offer, load "offer", the kind is the arrival and the records are rows; of a
reader of sequence numbers, load "reader", the kind is IPv6 or IPv4."""
import collections
import glob
import os
import re
import subprocess

# What a function that does nothing executes itself.
NOTHING = 2


def case(fields):
    kind, octets, records, order, load = fields
    return (kind, int(octets), int(records), order, load)


def read_times(name):
    times = {}
    with open(name) as lines:
        for line in lines:
            fields = line.rstrip("\n").split("|")
            times[case(fields[:5])] = {subject: float(ns) for subject, ns in (f.split("=") for f in fields[5:])}
    return times


def read_before():
    """Instructions from before the UDP checksum, by case and subject."""
    with open(os.path.join(os.path.dirname(os.path.abspath(__file__)), "before.txt")) as lines:
        rows = [line.rstrip("\n").split("|") for line in lines if not line.startswith("#")]
    return {case(row[:5]): {subject: int(n) for subject, n in (f.split("=") for f in row[5:])} for row in rows}


def read_dump(name):
    """The label of one of callgrind's files, and how often each instruction was executed, by its address."""
    label, executed, inclusive = None, collections.Counter(), False
    with open(name) as dump:
        for line in dump:
            if line.startswith("desc: Trigger: Client Request: "):
                label = line.rstrip("\n").split(": ", 3)[3]
            elif line.startswith("calls="):
                inclusive = True  # the next line is what the call cost, which stands with the callee too
            elif line.startswith("0x"):
                address, _, count = line.split()
                if not inclusive:
                    executed[int(address, 16)] += int(count)
                inclusive = False
    return label, executed


def read_counts(directory):
    """Instructions by case and subject, less what calling a function that does nothing takes; and the executed addresses."""
    dumps = dict(read_dump(name) for name in glob.glob(directory + "/dump.*"))
    calling, offering, bursting = (sum(dumps.pop(name).values()) - NOTHING for name in ("nothing", "nothing offered", "no burst"))
    counts, executed = {}, {}
    for label, addresses in dumps.items():
        *fields, subject = label.split("|")
        where = case(fields)
        less = offering if where[4] == "offer" else bursting if "burst" in where[4] else calling
        counts.setdefault(where, {})[subject] = sum(addresses.values()) - less
        executed[(where, subject)] = addresses
    return counts, executed


def functions(program):
    """The functions of a program: (address, size, name)."""
    listed = subprocess.run(["nm", "-S", program], check=True, capture_output=True, text=True).stdout
    found = re.findall(r"^([0-9a-f]+) ([0-9a-f]+) [tT] (.*)$", listed, re.M)
    return [(int(address, 16), int(size, 16), name) for address, size, name in found]
