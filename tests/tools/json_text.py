"""The text that the tool prints, put together from the members of its JSON.

Each member is taken once, and none may be left over. What the text does not say, such as the number of a message that has a name, is held
against what is known of it here.
"""

import os
import re
import sys
from typing import Any, NoReturn

MESSAGES = {255: "G-PDU", 254: "End Marker", 26: "Error Indication", 1: "Echo Request", 2: "Echo Response"}
INSIDE = {4: "IPv4", 41: "IPv6", 143: "Ethernet"}
ICMP_TYPES = {1: "Destination Unreachable", 2: "Packet Too Big", 3: "Time Exceeded", 4: "Parameter Problem", 128: "Echo Request",
              129: "Echo Reply", 137: "Redirect"}
DIRECTIONS = {0: "downlink", 1: "uplink"}
ECHO_ANSWERED = "Echo Request answered"
ARRIVED = "destination, TEID, QFI, R, traffic class and"
used: list[str] = []  # the names of members, as they were taken


class Percent(str):
    """A number with a fraction, in its digits."""


def fail(words: str) -> NoReturn:
    sys.exit(f"json_told.py: {words}: {' '.join(sys.argv[3:])}")


def expect(found: object, expected: object, what: str) -> None:
    if found != expected or type(found) is not type(expected):
        fail(f"{what} is {found!r}, not {expected!r}")


class Members:
    """The members of an object, each to be taken once."""

    def __init__(self, value: Any, where: str) -> None:
        if not isinstance(value, dict):
            fail(f"{where} is no object")
        self.left, self.where = dict(value), where

    def __enter__(self) -> "Members":
        return self

    def __exit__(self, kind: object, *_: object) -> None:
        if kind is None and self.left:
            fail(f"{self.where} has members that the text does not have: {', '.join(self.left)}")

    def may(self, name: str, kind: type) -> Any:
        """The member, or None where there is none."""
        if name not in self.left:
            return None
        value = self.left.pop(name)
        if type(value) is not kind:
            fail(f"{self.where}: {name} is {value!r}")
        used.append(name)
        return value

    def take(self, name: str, kind: type) -> Any:
        if name not in self.left:
            fail(f"{self.where} has no {name}")
        return self.may(name, kind)

    def number(self, name: str) -> int:
        return self.take(name, int)

    def text(self, name: str) -> str:
        return self.take(name, str)

    def flag(self, name: str) -> bool:
        return self.take(name, bool)

    def object(self, name: str) -> "Members":
        return Members(self.take(name, dict), name)

    def objects(self, name: str) -> list["Members"]:
        return [Members(value, f"{name} {i}") for i, value in enumerate(self.take(name, list))]

    def texts(self, name: str) -> list[str]:
        values = self.take(name, list)
        if not all(type(value) is str for value in values):
            fail(f"{self.where}: {name} is {values!r}")
        return values


def replaced(octets: bytes) -> str:
    """A text as JSON has it: each octet that is no UTF-8 is U+FFFD."""
    return re.sub("[\ud800-\udfff]", "\ufffd", octets.decode("utf-8", "surrogateescape"))


def shown(name: str) -> str:
    return replaced(b"standard input" if name == "-" else os.fsencode(name))


def plural(count: int, one: str, many: str) -> str:
    return f"{count} {one if count == 1 else many}"


def record(members: Members) -> str:
    with members as m:
        return f"{m.text('kind')} {m.number('number')} {m.text('behaviour')} {m.text('prefix')}"


def icmp(members: Members) -> str:
    """What a packet is that holds ICMPv6."""
    with members as m:
        kind, code, pointer = m.number("type"), m.may("code", int), m.may("pointer", int)
        expect(m.may("name", str), ICMP_TYPES.get(kind), "name")
        if pointer is not None and (kind != 4 or code is None):
            fail(f"a pointer in ICMPv6 of type {kind}")
        return f"ICMPv6 {ICMP_TYPES.get(kind, f'type {kind}')}" + ("" if code is None else f", code {code}") + \
            ("" if pointer is None else f", pointer {pointer}")


def packet(members: Members, told: bool = False) -> str:
    """Of an ICMPv6 message that tells a sender, what it tells."""
    with members as m:
        version, octets = m.may("version", int), m.number("octets")
        if version is None:
            return f"{octets} octets, no IP header"
        line = f"IPv{version} {m.text('source')} > {m.text('destination')}, traffic class 0x{m.number('traffic_class'):02x}"
        left = m.may("segments_left", int)
        if left is not None:
            segments = m.texts("segments")
            line += f", SL {left}" + (" then " if segments else "") + ", ".join(segments)
            if len(segments) not in (0, left):
                fail(f"{len(segments)} segments, and {left} are left")
        kind = m.may("message_type", int)
        if kind is None:
            following = m.number("next_header")
            expect(m.may("inside", str), INSIDE.get(following), "inside")
            if "icmp" in m.left:
                expect((version, following), (6, 58), "what holds ICMPv6")
                words = icmp(m.object("icmp"))
                if told:
                    return f"{line}, {words}, {octets} octets"
            return f"{line}, {INSIDE[following]} inside, {octets} octets" if following in INSIDE else \
                f"{line}, next header {following}, {octets} octets"
        expect(m.may("message", str), MESSAGES.get(kind), "message")
        line += f", {MESSAGES.get(kind, f'GTP-U type {kind}')}, TEID 0x{m.number('teid'):08x}"
        number = m.may("sequence_number", int)
        line += "" if number is None else f", sequence number {number}"
        qfi = m.may("qfi", int)
        if qfi is not None:
            direction = m.number("pdu_type")
            line += f", QFI {qfi}, R {int(m.flag('reflective'))}, {DIRECTIONS.get(direction, f'PDU type {direction}')}"
            expect(m.may("direction", str), DIRECTIONS.get(direction), "direction")
        return f"{line}, {octets} octets"


def checksum(members: Members) -> str:
    with members as m:
        cause, held, right = m.text("fault"), m.number("held"), m.number("right")
        if cause == "zero":
            expect(held, 0, "held")
            return " (0, and the entry does not allow it)"
        causes = {"unfinished": ", only the sum of the pseudo-header", "wrong": ""}
        if held in (0, right) or cause not in causes:
            fail(f"udp_checksum: {cause}, {held}, {right}")
        return f" (0x{held:04x}{causes[cause]}; 0x{right:04x} is right)"


def answer(members: Members) -> tuple[bool, str]:
    """Whether it is sent, and the words."""
    with members as m:
        number, name = m.number("number"), m.text("name")
        expect(m.flag("refused"), number != 0, "refused")
        line = name if number == 0 else f"refused, {number} {name}"
        if "icmp" in m.left:
            with m.object("icmp") as i:
                line += f" (ICMPv6 type {i.number('type')}, code {i.number('code')}, pointer {i.number('pointer')})"
        if number == 18:
            line += checksum(m.object("udp_checksum"))
        return number == 0, line


def about(m: Members) -> str:
    """The ICMPv6 message about a packet, or why none is due."""
    if "none_due" in m.left:
        return f"none is due: {m.text('none_due')}"
    words = packet(m.object("icmp_message"), True)
    return words + ("; routers drop it, since the entry has no source" if words.startswith("IPv6 :: >") else "")


def answered(m: Members, indent: str) -> str:
    """The answer, and what is sent, or an ICMPv6 message on a line of its own."""
    sent, line = answer(m.object("answer"))
    if "echo_answered" in m.left:
        expect((sent, m.flag("echo_answered")), (True, True), "echo_answered")
        line = ECHO_ANSWERED
    if " (ICMPv6 type " in line:
        return f"{line}\n{indent}ICMPv6 message: {about(m)}"
    return line + (f": {packet(m.object('sent'))}" if sent else "")


def capture(m: Members, name: str) -> tuple[str, int, int]:
    """The lines, the IP packets, and the snapped frames."""
    with m.object("capture") as c:
        expect(c.text("name"), shown(name), "name")
        frames, packets, snapped = c.number("frames"), c.number("ip_packets"), c.number("snapped")
        lines = f"frames {frames}: IP packets {packets}, not IP {c.number('not_ip')}, snapped {snapped}; padding cut " \
                f"{c.number('padding_cut')}\n"
        for wrapped in c.objects("wrapped"):
            with wrapped as w:
                ethertype = w.may("ethertype", int)
                front = "" if ethertype is None else f"0x{ethertype:04x} "
                lines += f"{w.number('frames'):8}  {front}{w.text('name')}: may hold IP, but is not looked into\n"
        cut = c.may("cut_in_frame", int)
        if cut is not None:
            expect(cut, frames + 1, "cut_in_frame")
            lines += f"the capture is cut in frame {cut}, which is not counted\n"
        return lines, packets, snapped


def form(members: Members) -> tuple[str, str]:
    with members as m:
        octets, srv6, letter = m.number("octets"), m.number("srv6"), m.may("letter", str)
        if letter is None:
            return f"{octets:+}" if octets else "0", str(srv6)
        each = m.number("srv6_each")
        expect(m.number("octets_each"), -each, "octets_each")
        return (f"{octets:+}" if octets else "") + f"-{each}{letter}", f"{srv6} + {each}{letter}"


def lengths(members: Members) -> list[str]:
    with members as m:
        line = [f"{m.text('kind')} {m.number('number')}", m.text("behaviour"), m.text("prefix")]
        forms = [form(each) for each in m.objects("lengths")]
        if not forms:
            expect(line[1], "End", "behaviour")
            return line + ["0", "-", "as it arrives"]
        return line + [", ".join(octets for octets, _ in forms), str(m.number("gtpu")), ", ".join(srv6 for _, srv6 in forms)]


def check_sound(m: Members, name: str) -> str:
    entries, rules, policies, inner = (m.number(count) for count in ("entries", "rules", "policies", "inner"))
    text = f"{name}: sound: {plural(entries, 'entry', 'entries')}, {plural(rules, 'rule', 'rules')}, " \
           f"{plural(policies, 'policy', 'policies')}\n"
    records = [lengths(each) for each in m.objects("records")]
    expect(len(records), entries + rules, "records")
    if not records:
        return text
    width = max(len(line[2]) for line in records + [["", "", "prefix"]])
    for line in [["record", "behaviour", "prefix", "octets", "GTP-U", "SRv6"]] + records:
        text += f"{line[0]:<9} {line[1]:<16} {line[2]:<{width}}  {line[3]:<12} {line[4]:<6} {line[5]}\n"
    text += f"Octets that a packet gains or loses, and the MTU that either side needs, for an inner packet of {inner} octets and a " \
            "PDU Session\ncontainer of one unit.\n"
    if any(line[1] == "End.M.GTP6.E" for line in records):
        text += "n: SIDs of the policy with which End.M.GTP6.D.Di sent the packet.\n"
    if any(line[1] == "End.M.GTP4.E" for line in records):
        text += "w: waypoints of the rule with which H.M.GTP4.D sent the packet, 1 or more; before the comma, for none.\n"
    mtu = m.may("mtu", int)
    return text if mtu is None else text + f"The SRv6 path needs an MTU of {mtu} for what this table sends.\n"


def fault(members: Members) -> str:
    """The messages, behind the name of the table."""
    with members as m, m.object("record") as r:
        number, condition, broken, kind = m.number("number"), m.number("condition"), m.text("broken"), r.text("kind")
        kinds = {"header": 1, "entry": 2, "rule": 3, "policy": 4}
        place = 0
        if kind == "header":
            counts, octets = r.may("format", int), r.number("octets")
            line = f"{broken} ({octets} octets are no header)"
            if counts is not None:
                line = f"{broken} (format {counts}; entries {r.number('entries')}, rules {r.number('rules')}, policies " \
                       f"{r.number('policies')}, which take {r.number('octets_needed')} octets; there are {octets})"
        else:
            place, prefix, earlier = r.number("number") - 1, r.may("prefix", str), r.may("earlier", int)
            r.may("behaviour", str)
            line = f"{kind} {place + 1}{'' if prefix is None else ' ' + prefix}: {broken}"
            line += "" if earlier is None else f" ({kind} {earlier})"
        expect(number, condition + 256 * kinds[kind] + 65536 * place, "number")
        return f"not sound: {line}\nkawsarpa: fault {number}; `kawsarpa explain --fault {number}' says more\n"


def check(m: Members, options: dict[str, list[str]], errors: str) -> str:
    name = shown(options[""][0])
    expect(m.text("table"), name, "table")
    if m.flag("sound"):
        return check_sound(m, name)
    description = m.flag("description")
    words = "a description: compile it first, with `kawsarpa compile'\n" if description else fault(m.object("fault"))
    name = re.sub("[\x00-\x1f\x7f]", "?", name)  # as every message has it
    expect(errors, f"kawsarpa: {name}: {words}", "the message")
    return ""


def sids(m: Members, which: str, policy: int | None) -> str:
    if policy is None:
        return f"{m.text('sid_prefix')}, the SID prefix of the near rule, with {which} destination under {m.text('destinations')} behind it"
    return f"{m.text('last_sid')}, the last SID of near policy {policy}, with {which} Args in octets {m.number('args_first')} to " \
           f"{m.number('args_last')}"


def mismatch(members: Members, far: str | None) -> str:
    with members as m:
        condition, policy = m.number("condition"), m.may("policy", int)
        near, line = "rule" if policy is None else "entry", f": {condition} {m.text('name')}: "
        if condition == 5:
            return f"{line}looked for {sids(m, 'any', policy)}"
        if condition == 6:
            return f"{line}{far.split()[2]}, not {m.text('needed')}, takes {sids(m, 'some', policy)}" if far else fail("no far entry")
        if condition in (7, 8):
            return f"{line}{m.text('near')} in the near {near}, {m.text('far')} in the far entry"
        if condition == 9:
            return f"{line}octet {m.number('near')} in near policy {policy}, octet {m.number('far')} in the far entry"
        if condition in (10, 11):
            return f"{line}{m.number('near')} in the near rule, {m.number('far')} in the far entry"
        expect(condition, 12, "condition")
        return f"{line}hop limit {m.number('hop_limit')} in the near {near}, " \
               f"{plural(m.number('waypoint_count'), 'waypoint', 'waypoints')} in {'it' if policy is None else f'near policy {policy}'}"


def waypoint(members: Members, place: int, vias: list[str]) -> tuple[str, str]:
    """The table that it fits, and "", or "" and the line behind the near record."""
    with members as m:
        expect(m.number("number"), place, "number")
        line, checked, fits, via = f" -> waypoint {place} {m.text('address')}: ", m.flag("checked"), m.flag("fits"), m.may("via", str)
        expect(checked, bool(vias), "checked")
        if fits:
            return via, ""
        if not checked:
            return "", line + "not checked, since no --via table was given"
        with m.object("mismatch") as w:
            line += f"{w.number('condition')} {w.text('name')}: "
            if "entry" in w.left:
                return "", f"{line}{record(w.object('entry'))} of {via}"
        return "", line + (f"in none of the {len(vias)} --via tables" if via is None else f"not in {via}")


def fitting(members: Members, vias: list[str]) -> tuple[bool, bool, bool, str]:
    """Of a record: whether it was checked, fits, and has only its waypoints checked; and its lines."""
    with members as m:
        near = "  " + record(m.object("near"))
        alone = " End.M.GTP6.D " in near
        end = "; the near entry allows UDP checksum 0" if m.may("zero_checksum_allowed", bool) else ""
        if not m.flag("checked"):
            expect(alone, True, "a record that is not checked")
            return False, False, False, f"{near}: nothing to check: no waypoint, and End.M.GTP6.D has no far end in the tables{end}\n"
        fits, far = m.flag("fits"), record(m.object("far")) if "far" in m.left else None
        expect(m.flag("waypoints_only"), alone, "waypoints_only")
        reached = near if far is None else f"{near} -> far {far}"
        faults = [reached + mismatch(m.object("mismatch"), far)] if "mismatch" in m.left else []
        count, via_count = m.number("waypoint_count"), m.may("via_count", int)
        tables: list[str] = []
        if via_count is None:
            found = [waypoint(each, i + 1, vias) for i, each in enumerate(m.objects("waypoints"))]
            expect(len(found), count, "waypoints")
            tables, faults = [via for via, _ in found], faults + [near + line for _, line in found if line]
        else:
            expect(via_count, len(vias), "via_count")
            faults += [f"{near}: {plural(count, 'waypoint', 'waypoints')}, but {plural(via_count, '--via table', '--via tables')}"]
        expect(fits, not faults, "fits")
        if end and (not fits or "End.M.GTP6.D" not in near):
            fail("zero_checksum_allowed of a record that does not fit, or is no such entry")
        line = f"{reached}: fits, " + ("via " + ", ".join(tables) if count else "with no waypoint")
        line += "; End.M.GTP6.D has no far end in the tables, so only its waypoints are checked" if alone else ""
        return True, fits, alone, "\n".join(faults or [line + end]) + "\n"


def way(members: Members, near: str, vias: list[str], far: str, all_records: bool) -> tuple[list[int], str]:
    """How many fit, are checked, and have only their waypoints checked; and the lines of all, or of those that do not fit."""
    with members as m:
        expect([m.text("from"), m.texts("via"), m.text("to")], [near, vias, far], "from, via, to")
        records = [fitting(each, vias) for each in m.objects("records")]
        counts = [m.number("fit"), m.number("of"), m.number("waypoints_only")]
        expect(counts, [sum(r[1] for r in records), sum(r[0] for r in records), sum(r[2] for r in records)], "fit, of, waypoints_only")
        text = "".join(r[3] for r in records if all_records or (r[0] and not r[1]))
        return counts, text if records or not all_records else \
            f"  nothing to check: {near} has no End.M.GTP6.D.Di entry and no rule\n"


def stops(options: dict[str, list[str]]) -> tuple[str, list[str], str]:
    return shown(options["--near"][-1]), [shown(via) for via in options.get("--via", [])], shown(options["--far"][-1])


def match(m: Members, options: dict[str, list[str]], _: str) -> str:
    near, vias, far = stops(options)
    ends = [(near, far), (far, near)][:2 if "--both" in options else 1]
    ways = m.objects("ways")
    expect(len(ways), len(ends), "ways")
    told = [way(each, start, vias, end, True) for each, (start, end) in zip(ways, ends)]
    sums = [sum(counts[i] for counts, _ in told) for i in range(3)]
    expect([m.number("fit"), m.number("of"), m.number("waypoints_only")], sums, "fit, of, waypoints_only")
    text = "".join(f"from {start} to {end}:\n{lines}" for (start, end), (_, lines) in zip(ends, told)) + f"{sums[0]} of {sums[1]} fit"
    if len(ends) == 2:
        text += ": " + ", ".join(f"{c[0]} of {c[1]} from {start} to {end}" for (start, end), (c, _) in zip(ends, told))
    if sums[2]:
        text += f"; of {plural(sums[2], 'End.M.GTP6.D entry', 'End.M.GTP6.D entries')} only the waypoints are checked"
    return text + "\n"


def checksums(m: Members) -> str:
    """Of the packets that are refused with 18."""
    zero, unfinished = m.number("zero"), m.number("unfinished")
    text = f"{'':13}{zero} of them {'is' if zero == 1 else 'are'} 0, which the entry does not allow\n" if zero else ""
    if unfinished:
        text += f"{'':13}{unfinished} of them {'holds' if unfinished == 1 else 'hold'} only the sum of the pseudo-header: a capture on " \
                "the sending host, before its network card finished the checksum\n"
    return text


def translate(m: Members, options: dict[str, list[str]], _: str) -> str:
    expect(m.text("table"), shown(options["--table"][-1]), "table")
    text = ""
    for each in m.objects("packets") if "--trace" in options else []:
        with each as p:
            text += f"packet {p.number('number')}: {packet(p.object('in'))}\n  "
            text += f"{record(p.object('record'))}: " if "record" in p.left else ""
            text += answered(p, "  ") + "\n"
    if m.flag("broken_off"):
        return text
    lines, packets, _ = capture(m, options[""][0])
    text += lines
    counts, causes = [], ""
    for each in m.objects("answers"):
        with each as a:
            counts.append((a.number("number"), a.text("name"), a.number("packets")))
            causes += checksums(a) if counts[-1][0] == 18 else ""
    echoes = m.number("echo_answered")
    counts.insert(sum(number == 0 for number, _, _ in counts), (0, ECHO_ANSWERED, echoes))
    text += "".join(f"{count:8}  {number:2} {name}\n" for number, name, count in counts if count) + causes  # 18 is the last
    expect(sum(count for _, _, count in counts), packets, "packets with an answer")
    if "longest" in m.left:
        with m.object("longest") as longest:
            text += f"longest packet: {longest.number('in')} octets in, {longest.number('sent')} sent\n"
    if "--icmp" in options:
        text += messages(m.object("icmp_messages"), sum(count for number, _, count in counts if number in (6, 7, 8)))
    return text


def messages(members: Members, refused: int) -> str:
    """How many ICMPv6 messages are written, and of how many refusals none is due. Those over IPv4 are neither."""
    with members as m:
        written, nobody, none_due = m.number("written"), m.number("from_unspecified"), m.number("none_due")
        if nobody > written or written + none_due > refused:
            fail(f"icmp_messages: {written}, {nobody}, {none_due} of {refused}")
        text = f"ICMPv6 messages: {written} written, none due for {plural(none_due, 'packet', 'packets')}\n"
        if nobody:
            text += f"{'':13}{nobody} " + ("message is from ::, since its entry has no source: routers drop it\n" if nobody == 1 else
                                           "messages are from ::, since their entries have no source: routers drop them\n")
        return text


def travelled(members: Members) -> tuple[bool, bool, bool, str]:
    """Of a packet: whether it arrived, and unchanged, or was answered as an Echo Request; and its lines."""
    with members as m:
        text = f"packet {m.number('number')}: {packet(m.object('in'))}\n"
        for each in m.objects("stops"):
            with each as s:
                stop, number = s.text("stop"), s.may("number", int)
                text += f"  {stop}{'' if number is None else f' {number}'}: {answered(s, '    ')}\n"
        if not m.flag("arrived"):
            echo = bool(m.may("echo_answered", bool))
            expect(f": {ECHO_ANSWERED}: " in text, echo, "echo_answered")
            return False, False, echo, text
        unchanged, differing = m.flag("unchanged"), m.texts("differing")
        expect(unchanged, not differing, "unchanged")
        text += f"  arrived with the {ARRIVED} {m.number('inner_octets')} inner octets that went in\n" if unchanged else \
            f"  arrived, but not as it went in: {', '.join(differing)}\n"
        return True, unchanged, False, text


def trip(m: Members, options: dict[str, list[str]], _: str) -> str:
    near, vias, far = stops(options)
    counts, lines = way(m.object("tables"), near, vias, far, False)
    packets = [travelled(each) for each in m.objects("packets")]
    text = f"tables: {counts[0]} of {counts[1]} near entries and rules fit\n{lines}" + "".join(p[3] for p in packets)
    if m.flag("broken_off"):
        return text
    lines, found, _ = capture(m, options[""][0])
    expect(found, len(packets), "ip_packets")
    sums = [m.number("arrived"), m.number("unchanged"), m.number("echo_answered")]
    expect(sums, [sum(p[i] for p in packets) for i in range(3)], "arrived, unchanged, echo_answered")
    lines += f"{sums[2]:8}  {ECHO_ANSWERED}\n" if sums[2] else ""
    packets_word = "other packets" if sums[2] else "packets"
    return f"{text}{lines}{sums[0]} of {found - sums[2]} {packets_word} arrived, {sums[1]} of them with the {ARRIVED} inner octets that " \
           "went in\n"


COUNTED = ["seen", "new", "repeated", "late", "lost"]


def loss(m: Members, options: dict[str, list[str]], _: str) -> str:
    text = f"{'TEID':<10} first highest     seen      new repeated     late     lost   lost %\n"
    sums, several, rows = [0] * 5, [], m.objects("rows")
    for each in rows:
        with each as r:
            teid, first, highest, counts = r.number("teid"), r.number("first"), r.number("highest"), [r.number(c) for c in COUNTED]
            text += f"0x{teid:08x} {first:5} {highest:7} " + " ".join(f"{c:8}" for c in counts) + f" {r.take('lost_percent', Percent):>8}\n"
            sums = [a + b for a, b in zip(sums, counts)]
            several += [f"0x{teid:08x}"] if r.flag("several_destinations") else []
    with m.object("totals") as t:
        expect(t.number("teids"), len(rows), "teids")
        expect([t.number(c) for c in COUNTED], sums, "totals")
        if rows:
            text += f"TEIDs {len(rows)}, worst first by lost, then by TEID: " + ", ".join(f"{c} {n}" for c, n in zip(COUNTED, sums))
            text += f", {t.take('lost_percent', Percent)} % of new + lost\n"
        else:
            text += "TEIDs 0: no sequence number was read\n"
    lines, packets, unreadable = capture(m, options[""][0])
    with m.object("not_counted") as n:
        none, reasons = n.number("packets"), n.objects("reasons")
        text += f"{lines}not counted {none} of {packets} IP packets{':' if none else ''}\n"
        for each in reasons:
            with each as r:
                count, number = r.number("packets"), r.may("number", int)
                text += f"{count:8}  {'  ' if number is None else f'{number:2}'} {r.text('name')}: {r.text('meaning')}\n"
                none -= count
                unreadable += count if number in (2, 3, 5, 9, 10) else 0
        expect(none, 0, "packets without a reason")
    expect(m.number("unreadable"), unreadable, "unreadable")
    if unreadable:
        text += f"unreadable {unreadable} (snapped, 2, 3, 5, 9 and 10): a number in such a packet is not offered, and counts as lost in " \
                "its row\n"
    if several:
        text += f"sent to more than one address: {', '.join(several)}; such a row may mix streams, so filter the capture by destination\n"
    return text


TELL = {"check": check, "match": match, "translate": translate, "trip": trip, "loss": loss}
