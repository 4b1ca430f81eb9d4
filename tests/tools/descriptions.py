#!/usr/bin/env python3
"""Random descriptions of tables and the octets that they stand for, put together apart from the tool.

descriptions.py write DIRECTORY COUNT SEED        N.yaml and N.table, N from 0
descriptions.py mutate DIRECTORY COUNT SEED FILE  N.mutant: FILE with some octets changed
descriptions.py most FILE                         a description with as many records as there may be
"""
import ipaddress
import random
import sys

BEHAVIOURS = {"End": 1, "End.M.GTP6.D": 69, "End.M.GTP6.D.Di": 70, "End.M.GTP6.E": 71, "End.M.GTP4.E": 72}
DIRECTIONS = {"downlink": 0, "uplink": 1}
ZERO_CHECKSUMS = {"refuse": 0, "allow": 1}
SESSION_TYPES = {"IPv4": 1, "IPv6": 2, "IPv4v6": 3, "Ethernet": 5}


def address(draw):
    """Often with long runs of zeros, so that short texts occur."""
    return ipaddress.IPv6Address(draw.getrandbits(128) & draw.choice([-1, -1 << 64, (1 << 16) - 1, -1 << 112, 0]) % (1 << 128))


def prefix(draw, bits, most):
    length = draw.choice([0, most, draw.randint(0, most), draw.randint(0, most)])
    number = draw.getrandbits(bits) >> (bits - length) << (bits - length)
    return number, length


def octets(value, size=16):
    return int(value).to_bytes(size, "big")


class Description:
    """Lines of YAML beside the records that they stand for."""

    def __init__(self, draw, entries, rules, policies):
        self.draw = draw
        self.lines = ["format: 1"]
        self.waypoints = [(f"w{i}", address(draw)) for i in range(draw.randint(1, 9))]
        self.list("waypoints", [[("name", n), ("address", f'"{a}"')] for n, a in self.waypoints])
        drawn = [self.policy(i) for i in range(policies)]
        self.policy_names = [f"policy.{i}" for i in range(policies)]
        self.policies = [record for record, _ in drawn]
        self.list("policies", [fields for _, fields in drawn])
        drawn = self.apart([self.entry(i) for i in range(entries)])
        self.entries = [record for record, _ in drawn]
        self.list("entries", [fields for _, fields in drawn])
        drawn = self.apart([self.rule(i) for i in range(rules)])
        self.rules = [record for record, _ in drawn]
        self.list("rules", [fields for _, fields in drawn])

    def apart(self, drawn):
        """No prefix with its length twice."""
        seen = {}
        for record, fields in drawn:
            seen.setdefault(dict(fields)["prefix"], (record, fields))
        return list(seen.values())

    def list(self, key, records):
        if not records:
            if self.draw.random() < 0.3:
                self.lines.append(f"{key}: []")
            return
        self.lines.append(f"{key}:")
        for fields in records:
            first, *rest = fields
            self.draw.shuffle(rest)
            self.lines.append(f"  - {first[0]}: {first[1]}")
            self.lines += [f"    {k}: {v}" for k, v in rest]

    def path(self, most):
        chosen = [self.draw.choice(self.waypoints) for _ in range(self.draw.randint(0, most))]
        text = "[" + ", ".join(name for name, _ in chosen) + "]"
        given = [("waypoints", text)] if chosen or self.draw.random() < 0.5 else []
        return given, [octets(a) for _, a in chosen]

    def policy(self, i):
        given, addresses = self.path(7)
        last, a = address(self.draw), self.draw.randint(0, 11)
        sids = b"".join(addresses + [octets(last)])
        record = bytes([len(addresses) + 1, 8 * a, 0]) + bytes(13) + sids.ljust(128, b"\0") + bytes(144)
        return record, [("name", f"policy.{i}"), *given, ("last-sid", f'"{last}"'), ("args-octet", a)]

    def session(self):
        direction, session_type = self.draw.choice(list(DIRECTIONS)), self.draw.choice(list(SESSION_TYPES))
        return [("direction", direction), ("session-type", session_type)], [DIRECTIONS[direction], SESSION_TYPES[session_type]]

    def entry(self, i):
        draw = self.draw
        kinds = [k for k in BEHAVIOURS if self.policy_names or not k.startswith("End.M.GTP6.D")]
        kind = draw.choice(kinds)
        hop_limit = draw.choice([1, 255, draw.randint(1, 255)])
        policy = args = p = q = mark = port = 0
        most = 128
        fields = []
        direction = session_type = 0
        if kind != "End":
            fields, (direction, session_type) = self.session()
        if kind.startswith("End.M.GTP6.D"):
            policy = draw.randrange(len(self.policy_names))
            fields.append(("policy", self.policy_names[policy]))
            if draw.random() < 0.7:
                word = draw.choice(list(ZERO_CHECKSUMS))
                mark = ZERO_CHECKSUMS[word]
                fields.append(("zero-checksum", word))
        if kind == "End.M.GTP6.E":
            a = draw.randint(0, 11)
            args, most = 8 * a, 8 * a
            fields.append(("args-octet", a))
        if kind == "End.M.GTP4.E":
            p, q = draw.randint(0, 7), draw.randint(0, 12)
            most = 8 * p
            fields += [("p", p), ("q", q)]
        if kind.endswith(".E"):
            port = draw.choice([0, 65535, draw.randint(0, 65535)])
            fields.append(("source-port", port))
        source = ipaddress.IPv6Address(0)
        if kind.startswith("End.M.GTP6") or draw.random() < 0.5:
            source = address(draw)
            fields.append(("source", f'"{source}"'))
        number, length = prefix(draw, 128, most)
        text = f'"{ipaddress.IPv6Address(number)}/{length}"'
        record = bytes([BEHAVIOURS[kind], length, hop_limit, direction, session_type, policy, args, p, q, mark]) + \
            octets(port, 2) + bytes(4) + octets(number) + octets(source) + bytes(16)
        return record, [("name", f"entry-{i}"), ("behaviour", kind), ("prefix", text), ("hop-limit", hop_limit), *fields]

    def rule(self, i):
        draw = self.draw
        fields, session = self.session()
        given, addresses = self.path(7)
        hop_limit, p, q = draw.randint(1, 255), draw.randint(0, 7), draw.randint(0, 12)
        number, length = prefix(draw, 32, 32)
        sid = int(address(draw)) >> (128 - 8 * p) << (128 - 8 * p)
        source = int(address(draw)) >> (128 - 8 * q) << (128 - 8 * q)
        record = bytes([length, hop_limit, *session, p, q, len(addresses), 0]) + octets(number, 4) + bytes(4) + octets(sid) + \
            octets(source) + b"".join(addresses).ljust(112, b"\0")
        return record, [("name", f"rule_{i}"), ("prefix", f"{ipaddress.IPv4Address(number)}/{length}"), ("hop-limit", hop_limit), *fields,
                        ("p", p), ("q", q), ("sid-prefix", f'"{ipaddress.IPv6Address(sid)}"'),
                        ("source-prefix", f'"{ipaddress.IPv6Address(source)}"'), *given]

    def text(self):
        return "\n".join(self.lines) + "\n"

    def table(self):
        """Entries and rules in ascending order of prefix and length."""
        entries = sorted(self.entries, key=lambda e: (e[16:32], e[1]))
        rules = sorted(self.rules, key=lambda r: (r[8:12], r[0]))
        header = bytes([1, 0]) + b"".join(octets(len(r), 2) for r in (entries, rules, self.policies)) + bytes(8)
        return header + b"".join(entries + rules + self.policies)


def write(directory, count, seed):
    for n in range(count):
        draw = random.Random(f"{seed} {n}")
        entries, rules, policies = (draw.choice([0, 1, draw.randint(0, most), most]) for most in (64, 16, 16))
        description = Description(draw, entries, rules, policies)
        with open(f"{directory}/{n}.yaml", "w", encoding="ascii") as file:
            file.write(description.text())
        with open(f"{directory}/{n}.table", "wb") as file:
            file.write(description.table())


def mutate(directory, count, seed, name):
    with open(name, "rb") as file:
        whole = file.read()
    text = max(whole) < 128  # stays characters, so that more than the reader is tried
    for n in range(count):
        draw = random.Random(f"{seed} {n}")
        mutant = bytearray(whole)
        for _ in range(draw.choice([1, 1, 2, 5, 30])):
            at = draw.randrange(len(mutant) + 1)
            what = draw.randrange(5)
            if what == 0:
                del mutant[at:at + draw.choice([1, 4, 40])]
            elif what == 1:
                mutant[at:at] = bytes(draw.randrange(*(32, 127) if text else (0, 256)) for _ in range(draw.choice([1, 4])))
            elif what == 2:
                mutant[at:at + 1] = draw.choice([b":", b"-", b"[", b"{", b'"', b"\n", b" ", b"&a ", b"*a", b"!", b"%", b"9", b"|"])
            elif what == 3:
                start = draw.randrange(len(mutant) + 1)
                mutant[at:at] = mutant[start:start + draw.choice([8, 64, 500])]
            elif mutant:
                mutant[at % len(mutant)] ^= 1 << draw.randrange(7 if text else 8)
        with open(f"{directory}/{n}.mutant", "wb") as file:
            file.write(mutant)


def most(name):
    with open(name, "w", encoding="ascii") as file:
        print("format: 1\nwaypoints:", file=file)
        for i in range(224):
            print(f'  - {{name: w{i}, address: "2001:db8::{i:x}"}}', file=file)
        print("policies:", file=file)
        for i in range(16):
            names = ", ".join(f"w{7 * i + j}" for j in range(7))
            print(f'  - {{name: p{i}, waypoints: [{names}], last-sid: "2001:db8:1::{i:x}", args-octet: 8}}', file=file)
        print("entries:", file=file)
        for i in range(64):
            print(f'  - {{name: e{i}, behaviour: End.M.GTP6.D, prefix: "2001:db8:2:{i:x}::/64", hop-limit: 64, source: "2001:db8::1", '
                  f"direction: uplink, session-type: IPv4, policy: p{i % 16}}}", file=file)
        print("rules:", file=file)
        for i in range(16):
            names = ", ".join(f"w{112 + 7 * i + j}" for j in range(7))
            print(f'  - {{name: r{i}, prefix: 192.0.2.{i}/32, hop-limit: 64, direction: uplink, session-type: IPv4, p: 6, q: 8, '
                  f'sid-prefix: "2001:db8:3::", source-prefix: "2001:db8:4::", waypoints: [{names}]}}', file=file)


def main(arguments):
    if len(arguments) == 4 and arguments[0] == "write":
        write(arguments[1], int(arguments[2]), arguments[3])
    elif len(arguments) == 5 and arguments[0] == "mutate":
        mutate(arguments[1], int(arguments[2]), arguments[3], arguments[4])
    elif len(arguments) == 2 and arguments[0] == "most":
        most(arguments[1])
    else:
        print(__doc__, file=sys.stderr)
        return 2
    return 0


if __name__ == "__main__":
    sys.exit(main(sys.argv[1:]))
