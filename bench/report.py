#!/usr/bin/env python3
"""report.py TIMES DUMPS PROGRAM: the figures of `make bench` as text.

Status 1 if the anchor, without a table, in a burst or at an offer, is over its limits: then it is no measure for the library.

What a UDP checksum adds is a difference of two counts: of packets with the right checksum and with 0, or of calls now and before there was
one (before.txt)."""
import collections
import sys

import figures

# Instructions of D with three SIDs without a table, by octets that arrive: with UDP checksum 0, which is not verified, and with the right
# one; of the offer of a new number, by rows; and of Di at 164 octets in bursts of 32, a packet, by entries.
UNVERIFIED_LIMITS = {164: 260, 1500: 400}
VERIFIED_LIMITS = {164: 390, 1500: 990}
OFFER_LIMITS = {1: 38, 16: 173, 256: 2333}
BURST_LIMITS = {8: 600, 64: 1700}

DI_164 = ("Di, 3 SIDs", 164, 8, "in order", "hot")
DI_164_64 = ("Di, 3 SIDs", 164, 64, "in order", "hot")
DI_1500 = ("Di, 3 SIDs", 1500, 8, "in order", "hot")
FULL = ("full", 0, 64, "in order", "soundness")
D4 = ("D4, 2 waypoints", 164, 8, "in order", "hot")
E6_1500 = ("E6", 1500, 8, "in order", "hot")
READER = ("IPv6", 164, 0, "-", "reader")
ICMP = ("8 at D", 1500, 8, "in order", "icmp")

# What a checksum adds: what, and the kinds without and with it. Where both are one, without it is before there was one.
D_VERIFIED = ("D, verified", "D, zero", "D, right")
DI_VERIFIED = ("Di, verified", "Di, zero", "Di, right")
E6_IN_ALL = ("E6, in all", "E6", "E6")
ADDED = [
    D_VERIFIED,
    DI_VERIFIED,
    ("Echo, verified", "Echo, zero", "Echo, right"),
    ("D, in all", "D, 3 SIDs", "D, 3 SIDs"),
    ("Di, in all", "Di, 3 SIDs", "Di, 3 SIDs"),
    ("Echo, in all", "D, Echo", "D, Echo"),
    E6_IN_ALL,
]
SIZES = (64, 164, 1500)
PAIRED = {kind for _, without, right in ADDED if without != right for kind in (without, right)}

BURSTS = (1, 8, 32)


def bursts(where, packets, load="hot"):
    """The case of bursts that belongs to one of single calls."""
    return where[:4] + (f"{load}, bursts of {packets}",)


ARRIVALS = ("new", "repeated", "late", "row taken", "no row free")


def offer(arrival, rows):
    return (arrival, 0, rows, "last", "offer")


def said(rows):
    return "1 row" if rows == 1 else f"{rows} rows"


# What is asked of the library, by instructions: what, where, the most that library / anchor may be.
TARGETS = [
    ("Di at 164 octets, 8 entries in order", DI_164, 1.45),
    ("Di at 164 octets, 64 entries in order", DI_164_64, 1.15),
    ("Di at 1,500 octets, 8 entries in order", DI_1500, 1.27),
    ("soundness of a full table in order", FULL, 1.5),
    *((f"offer at {said(rows)}, {arrival}", offer(arrival, rows), 1.25) for rows in OFFER_LIMITS for arrival in ARRIVALS),
]

# And of what a checksum adds at 1,500 octets: at D, Di and E6.
ADDED_MOST = 1.5

# Of bursts of 32, by instructions a packet: where, the most of the single call's, and of the anchor's burst.
BURST_TARGETS = [(DI_164_64, 0.45, 1.6), (DI_164, 0.75, 1.6)]

# Functions of the measuring program, which are not what is measured.
CALLERS = ("measure_instructions", "measure_burst_instructions", "measure_offer_instructions", "library_soundness", "anchor_soundness",
           "library_reader6", "anchor_reader6")

# Of these cases the instructions are shown by function.
TAKEN_APART = [DI_164, bursts(DI_164, 32), DI_1500, E6_1500, D4, FULL, ICMP, offer("new", 256), offer("no row free", 256), READER]


def beside(c, t):
    """Instructions and nanoseconds of anchor and library, and their ratios."""
    return (f"|{c['anchor']:>8}{c['library']:>9}{c['library'] / c['anchor']:>6.2f} |"
            f"{t['anchor']:>9.1f}{t['library']:>9.1f}{t['library'] / t['anchor']:>6.2f}")


def print_heads(title):
    """The heads of columns that `beside` fills."""
    print(f"{'':{len(title)}}|{'instructions':^24}|{'ns':^24}")
    print(f"{title}|{'anchor':>8}{'library':>9}{'l/a':>6} |{'anchor':>9}{'library':>9}{'l/a':>6}")


def print_calls(counts, times):
    print("A call: instructions; nanoseconds with the same packet again and again (hot) and over 4,096 packets (ring).")
    print("l/a: library to anchor, l/m: library to memcpy. bare: the anchor without the table.\n")
    print(f"{'':42} |{'instructions':^44}|{'hot, ns':^47}|{'ring, ns':^40}")
    print(f"{'kind':15}{'octets':>7}{'records':>9}{'order':>10}  |"
          f"{'memcpy':>7}{'bare':>6}{'anchor':>8}{'library':>9}{'l/a':>6}{'l/m':>7} |"
          f"{'memcpy':>7}{'bare':>7}{'anchor':>9}{'library':>9}{'l/a':>6}{'l/m':>8} |"
          f"{'memcpy':>7}{'anchor':>9}{'library':>9}{'l/a':>6}{'l/m':>8}")
    for where in times:
        kind, octets, records, order, load = where
        if load != "hot" or kind in PAIRED:
            continue
        c, h, r = counts[where], times[where], times[where[:4] + ("ring",)]
        print(f"{kind:15}{octets:>7}{records:>9}{order:>10}  |"
              f"{c['memcpy']:>7}{c['bare']:>6}{c['anchor']:>8}{c['library']:>9}{c['library'] / c['anchor']:>6.2f}"
              f"{c['library'] / c['memcpy']:>7.1f} |"
              f"{h['memcpy']:>7.1f}{h['bare']:>7.1f}{h['anchor']:>9.1f}{h['library']:>9.1f}{h['library'] / h['anchor']:>6.2f}"
              f"{h['library'] / h['memcpy']:>8.1f} |"
              f"{r['memcpy']:>7.1f}{r['anchor']:>9.1f}{r['library']:>9.1f}{r['library'] / r['anchor']:>6.2f}"
              f"{r['library'] / r['memcpy']:>8.1f}")


def with_and_without(measured, before, without, right, octets, load):
    """The figures of a case without a checksum, or from before, and with it."""
    case = (octets, 8, "in order", load)
    return (before if without == right else measured)[(without, *case)], measured[(right, *case)]


def print_added(counts, before, times):
    print("\nWhat the UDP checksum over IPv6 adds, with 8 entries in order. Verified: packets with the right one, beside the same with 0,")
    print("both at entries that allow 0. In all: beside what was counted before there was a checksum (before.txt).\n")
    heads = f"{'without':>9}{'with':>7}{'adds':>7} |"
    print(f"{'':24}|{'anchor, instructions':^24}|{'library, instructions':^24}|{'adds':^6}|{'hot, adds ns':^21} |{'ring, adds ns':^21}")
    print(f"{'checksum':16}{'octets':>7} |{heads}{heads}{'l/a':>5} |" + " |".join([f"{'anchor':>7}{'library':>8}{'l/a':>6}"] * 2))
    for what, without, right in ADDED:
        for octets in SIZES:
            c0, c1 = with_and_without(counts, before, without, right, octets, "hot")
            added = {subject: c1[subject] - c0[subject] for subject in ("anchor", "library")}
            line = f"{what:16}{octets:>7} |" + "".join(f"{c0[s]:>9}{c1[s]:>7}{added[s]:>7} |" for s in added)
            line += f"{added['library'] / added['anchor']:>5.2f} |"
            if without != right:
                cells = []
                for load in ("hot", "ring"):
                    t0, t1 = with_and_without(times, None, without, right, octets, load)
                    a, l = (t1[subject] - t0[subject] for subject in ("anchor", "library"))
                    cells.append(f"{a:>7.1f}{l:>8.1f}" + (f"{l / a:>6.2f}" if min(a, l) > 0 else f"{'-':>6}"))
                line += " |".join(cells)
            print(line)


def a_packet(counts, where, packets):
    """Instructions a packet of bursts; of the single call, those of a call."""
    found = {subject: n / packets for subject, n in counts[bursts(where, packets)].items()}
    return {**found, "single": counts[where]["library"]}


def print_bursts(counts, times):
    print("\nBursts, with records in order: instructions and nanoseconds a packet. Hot: the same burst again and again, all of one packet;")
    print("ring: over 4,096 packets. memcpy: each packet copied. single: the library's single call; its nanoseconds are those of as many")
    print("calls, one after the other, as the burst has packets. l/s: the library's burst to the single call, l/a: to the anchor's burst,")
    print("l/m: to memcpy.\n")
    block = f"{'memcpy':>7}{'single':>8}{'anchor':>8}{'library':>8}{'l/s':>6}{'l/a':>6}{'l/m':>7} |"
    print(f"{'':39} |{'instructions a packet':^51}|{'hot, ns a packet':^51}|{'ring, ns a packet':^51}".rstrip())
    print(f"{'kind':16}{'octets':>7}{'records':>9}{'burst':>7} |{block * 3}"[:-2])
    for where in times:
        kind, octets, records, _, load = where
        if load != "hot" or bursts(where, 1) not in times:
            continue
        for packets in BURSTS:
            line = f"{kind:16}{octets:>7}{records:>9}{packets:>7} |"
            for f in (a_packet(counts, where, packets), times[bursts(where, packets)], times[bursts(where, packets, "ring")]):
                line += (f"{f['memcpy']:>7.1f}{f['single']:>8.1f}{f['anchor']:>8.1f}{f['library']:>8.1f}{f['library'] / f['single']:>6.2f}"
                         f"{f['library'] / f['anchor']:>6.2f}{f['library'] / f['memcpy']:>7.1f} |")
            print(line[:-2])
    print("\nTargets of bursts of 32, by instructions a packet")
    for where, of_single, of_anchor in BURST_TARGETS:
        f = a_packet(counts, where, 32)
        name = f"Di at 164 octets, {where[2]} entries in order, to"
        print_target(f"{name} the single call", f["library"], f["single"], of_single)
        print_target(f"{name} the anchor's burst", f["library"], f["anchor"], of_anchor)


def print_soundness(counts, times):
    print("\nSoundness alone, a part of every call. full: 64 entries of all kinds, 16 rules, 16 policies.\n")
    print_heads(f"{'table of':16}{'records':>8}{'order':>10}  ")
    for where in times:
        kind, _, records, order, load = where
        if load == "soundness":
            print(f"{kind:16}{records:>8}{order:>10}  {beside(counts[where], times[where])}")


def print_icmp(counts, times):
    print("\nThe ICMPv6 message about a packet that is refused with 8 or 6, and its octets; 23: none is due about one that is sent on.")
    print("All are hot, with records in order. call: the library's IPv6 call of the same packet.\n")
    print(f"{'':43}|{'instructions':^31}|{'ns':^31}".rstrip())
    heads = f"|{'call':>7}{'anchor':>8}{'library':>9}{'l/a':>6} "
    print(f"{'answer':17}{'octets':>8}{'records':>9}{'message':>9}{heads}{heads}"[:-1])
    for where in times:
        what, octets, records, _, load = where
        if load == "icmp":
            message = 0 if what.startswith("23") else 48 + min(octets, 1232)
            line = f"{what:17}{octets:>8}{records:>9}{message:>9}"
            for f, digits in ((counts[where], 0), (times[where], 1)):
                line += (f"|{f['call']:>7.{digits}f}{f['anchor']:>8.{digits}f}{f['library']:>9.{digits}f}"
                         f"{f['library'] / f['anchor']:>6.2f} ")
            print(line[:-1])


def print_offers(counts, times):
    print("\nThe offer of a sequence number. All rows are used, and that of the TEID is the last; row taken: the last is free instead;")
    print("no row free: it is of another TEID.\n")
    print_heads(f"{'offer':12}{'rows':>6}  ")
    for where in times:
        arrival, _, rows, _, load = where
        if load == "offer":
            print(f"{arrival:12}{rows:>6}  {beside(counts[where], times[where])}")
    print("\nTEID and sequence number read from a packet.\n")
    print_heads(f"{'packet':10}{'octets':>8}  ")
    for where in times:
        version, octets, _, _, load = where
        if load == "reader":
            print(f"{version:10}{octets:>8}  {beside(counts[where], times[where])}")


def print_packets(times):
    print("\nMillions of packets a second on one core, ring, records in order: memcpy, anchor, library\n")
    kinds = list(dict.fromkeys(where[0] for where in times if where[4] == "ring" and where[0] not in PAIRED))
    for octets in (164, 1500):
        print(f"{f'{octets} octets':16}" + "".join(f"{n:>26}" for n in ("1 record", "8 records", "64 records (D4: 16)")))
        for kind in kinds:
            cells = [times[(kind, octets, records, "in order", "ring")] for records in (1, 8, 16 if kind.startswith("D4") else 64)]
            print(f"{kind:16}" + "".join(f"{1e3 / t['memcpy']:>12.1f}{1e3 / t['anchor']:>7.2f}{1e3 / t['library']:>7.2f}" for t in cells))


def print_parts(counts, executed, functions):
    """A function's instructions as sums of TIMES x INSTRUCTIONS: a loop shows as a number of times."""
    print("\nWhere the instructions go: by function, and how many instructions run how many times")
    for where in TAKEN_APART:
        for subject in ("library", "anchor"):
            addresses = executed[(where, subject)]
            print(f"\n{', '.join(str(part) for part in where)}: {subject} {counts[where][subject]}")
            parts, left = [], sum(addresses.values())
            for start, size, name in functions:
                times = collections.Counter(n for a, n in addresses.items() if start <= a < start + size)
                total = sum(n * count for n, count in times.items())
                left -= total
                if total and name not in CALLERS:
                    parts.append((total, name, " + ".join(f"{n} x {count}" for n, count in sorted(times.items(), reverse=True))))
            for total, name, sums in sorted(parts, reverse=True):
                print(f"{total:>7}  {name:36} {sums}")
            if left:
                print(f"{left:>7}  memcpy and memmove of the C library")


def number(instructions):
    """As it is counted, or, a packet of a burst, with a decimal."""
    return f"{instructions:.1f}" if isinstance(instructions, float) else f"{instructions}"


def print_target(name, library, anchor, most):
    of = library / anchor
    print(f"  {name}: {number(library)} / {number(anchor)} = {of:.2f}, at most {most}: {'holds' if of <= most else 'does not hold'}")


def print_targets(counts, before):
    print("\nTargets, by instructions, library to anchor")
    for name, where, most in TARGETS:
        print_target(name, counts[where]["library"], counts[where]["anchor"], most)
    for what, without, right in (D_VERIFIED, DI_VERIFIED, E6_IN_ALL):
        c0, c1 = with_and_without(counts, before, without, right, 1500, "hot")
        library, anchor = (c1[subject] - c0[subject] for subject in ("library", "anchor"))
        print_target(f"what a UDP checksum adds at 1,500 octets, {what}", library, anchor, ADDED_MOST)


def within(what, instructions, most):
    print(f"  {what}: {number(instructions)} instructions, at most {most}: {'holds' if instructions <= most else 'DOES NOT HOLD'}")
    return instructions <= most


def check_anchor(counts):
    print("\nThe anchor without a table, D with three SIDs")
    well = [within(f"{octets} octets, checksum {said}", counts[(kind, octets, 8, "in order", "hot")]["bare"], most)
            for kind, said, limits in (("D, zero", "0", UNVERIFIED_LIMITS), ("D, right", "verified", VERIFIED_LIMITS))
            for octets, most in limits.items()]
    print("\nThe anchor's burst of 32, Di at 164 octets, a packet")
    well += [within(f"{entries} entries", a_packet(counts, ("Di, 3 SIDs", 164, entries, "in order", "hot"), 32)["anchor"], most)
             for entries, most in BURST_LIMITS.items()]
    print("\nThe anchor's offer of a new number")
    well += [within(said(rows), counts[offer("new", rows)]["anchor"], most) for rows, most in OFFER_LIMITS.items()]
    return all(well)


def main():
    if len(sys.argv) != 4:
        sys.exit("usage: report.py TIMES DUMPS PROGRAM")
    times = figures.read_times(sys.argv[1])
    counts, executed = figures.read_counts(sys.argv[2])
    before = figures.read_before()
    print_calls(counts, times)
    print_added(counts, before, times)
    print_bursts(counts, times)
    print_soundness(counts, times)
    print_icmp(counts, times)
    print_offers(counts, times)
    print_packets(times)
    print_parts(counts, executed, figures.functions(sys.argv[3]))
    print_targets(counts, before)
    return 0 if check_anchor(counts) else 1


if __name__ == "__main__":
    sys.exit(main())
