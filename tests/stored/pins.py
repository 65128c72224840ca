#!/usr/bin/env python3
"""Holds the tables of computed cases in crates/spec/proofs to the stored answers of the Rust and to tests/model.py (README.md).

The tables are read as they stand: `Tables` knows just as much of antt as they are written with. `inputs` has the inputs
on which the Rust is asked; answers.py stores its answers.
"""
import glob
import os
import re
import struct
import sys
from itertools import pairwise, product

HERE = os.path.dirname(os.path.abspath(__file__))
PROOFS = os.path.join(HERE, "..", "..", "crates", "spec", "proofs")
sys.path.insert(0, os.path.join(HERE, ".."))
import model  # noqa: E402

PATH_SIZE, WIRE_SIZE = 1538, 604
FULL, REFUSALS = 65544, 65536


# ---- antt, as far as the tables go

TOKEN = re.compile(r'\s+|--[^\n]*|(?P<string>"[^"]*")|(?P<number>0x[0-9a-f_]+|\d+)(?=[\s()]|$)|(?P<name>[^\s()"]+)|(?P<mark>[()])')
INFIX = {"∷", "++", "+", "-"}


def tokens(text):
    at = 0
    while at < len(text):
        m = TOKEN.match(text, at)
        at = m.end()
        if m.lastgroup:
            yield m.lastgroup, m.group(m.lastgroup)


class Expression:
    """A parser that evaluates as it goes: application, λ, and the operators above, all to the right."""

    def __init__(self, text, names):
        self.rest, self.names = list(tokens(text))[::-1], names

    def ahead(self):
        return self.rest[-1][1] if self.rest else ")"

    def whole(self, names=None):
        names = names or self.names
        if self.ahead() == "λ":
            self.rest.pop()
            name, body, depth = self.rest.pop()[1].rstrip("."), [], 0
            while depth or self.ahead() != ")":
                depth += {"(": 1, ")": -1}.get(self.ahead(), 0)
                body.append(self.rest.pop())

            def function(x):
                inner = Expression("", names)
                inner.rest = body[::-1]
                return inner.whole({**names, name: x})
            return function
        left = self.applied(names)
        if self.ahead() not in INFIX:
            return left
        sign = self.rest.pop()[1]
        right = self.whole(names)
        return {"∷": lambda: [left] + right, "++": lambda: left + right, "+": lambda: left + right, "-": lambda: left - right}[sign]()

    def applied(self, names):
        head, args = self.atom(names), []
        while self.ahead() not in INFIX | {")"}:
            args.append(self.atom(names))
        return head(*args) if args else head

    def atom(self, names):
        kind, word = self.rest.pop()
        if word == "(":
            inside = self.whole(names)
            assert self.rest.pop()[1] == ")"
            return inside
        if kind == "string":
            return word[1:-1].replace("\\n", "\n")
        return int(word.replace("_", ""), 0) if kind == "number" else names[word]


def number(size):
    return lambda x: list(x.to_bytes(size, "big"))


def joined(lists):
    return [x for xs in lists for x in xs]


def entry(local, mtu, ingress_mtu, ingress, egress, units, mac, peers):
    return list(struct.pack(">QIHHHB", local, mtu, ingress_mtu, ingress, egress, units)) + mac + [len(peers)] + joined(peers)


def peer(local, interface, mtu, units, ingress, egress, mac):
    return list(struct.pack(">QHHBHH", local, interface, mtu, units, ingress, egress)) + mac


def book(cores, others):
    bodies = [joined(s[2]) for s in cores + others]
    heads = [struct.pack(">IHHH", s[0], s[1], len(s[2]), len(b)) for s, b in zip(cores + others, bodies)]
    return list(struct.pack(">HHI", len(cores), len(others), sum(map(len, bodies)))) + joined(heads) + joined(bodies)


def solution(cost, edges):
    return [0, cost, len(edges), 0] + joined(edges) + [0] * (12 - 4 * len(edges))


def question(kind):
    return lambda *words: (kind, *words)


# What CasesForm defines by more than a number or a list.
FORMS = {
    "[]": [], "replicate": lambda n, x: [x] * n, "length": len, "take": lambda n, xs: xs[:n], "drop": lambda n, xs: xs[n:],
    "set": lambda xs, i, x: xs[:i] + [x] + xs[i + 1:], "map": lambda f, xs: [f(x) for x in xs], "flat_map": lambda f, xs: joined(map(f, xs)),
    "path_size": PATH_SIZE,
    "octets2": number(2), "octets4": number(4), "octets8": number(8), "Printed.ascii": lambda t: list(t.encode()), "ascii": lambda t: list(t.encode()),
    "entry": entry, "peer": peer, "segment": lambda timestamp, ident, entries: (timestamp, ident, entries), "book": book,
    "edge": lambda *numbers: list(numbers), "solution": solution, "input": lambda b, src, dst: list(struct.pack(">QQ", src, dst)) + b,
    "case": lambda asked, expected: (asked, expected),
    **{kind: question(kind) for kind in ("accept", "list", "route", "print", "assemble", "least", "sketch", "hold", "room", "live", "write", "read", "writes",
                                         "reads", "send", "carry", "compared", "compared_all")},
}
TAKEN = re.compile(r"^use Rattle\.spec\.proofs\.(\w+)\.\{([^}]*)\}", re.M)
DEFINITION = re.compile(r"^(?:unfoldable |abbrev )?(?:pub )?(\w+) : [^\n]*\n\1((?: \w+)*) =\n?(.*?)(?=\n\n|\Z)", re.S | re.M)


def function(parameters, body, names):
    """Of its parameters; with fewer it waits for the others."""
    def called(*given):
        if len(given) < len(parameters):
            return lambda *others: called(*given, *others)
        return Expression(body, {**names, **dict(zip(parameters, given))}).whole()
    return called


def definitions(name, names, others):
    """Names, with those that a file of the tables takes from others and those that it defines of itself."""
    with open(os.path.join(PROOFS, name + ".antt")) as f:
        text = f.read()
    for m in TAKEN.finditer(text):
        names.update({taken: others[m[1]][taken] for taken in m[2].split(", ") if taken in others.get(m[1], {})})
    for m in DEFINITION.finditer(text):
        called, parameters, body = m.group(1), m.group(2).split(), m.group(3)
        if called in FORMS or called in ("isd_asn", "body", "head", "sketch_of", "answer", "right", "unhashed"):
            continue
        if parameters:
            names[called] = function(parameters, body, names)
        else:
            names[called] = Expression(body, names).whole()
    return names


def tables():
    """(file, table, cases): those of SHA-256 are `hashed`."""
    form, read = definitions("CasesForm", dict(FORMS), {}), {}
    for name in ("Cases", "PinnedCases", "RouteCases", "AddedCases", "WireCases", "DigestCases"):
        read[name] = found = definitions(name, dict(form), read)
        for table in ("table", "hashed", "bytewise", "chained"):
            if table in found:
                yield name, table, found[table]


def asked(words):
    """Source, destination and book of a question; several of some, none of others."""
    if words[0] == "print" and len(words[1]) >= 16:
        return [bytes(words[1])]
    if words[0] in ("list", "route", "assemble", "least", "sketch", "hold", "send"):
        return [struct.pack(">QQ", words[2], words[3]) + bytes(b) for b in (words[1] if words[0] in ("least", "sketch") else [words[1]])]
    return []


def inputs():
    """Each input once on which the Rust answers a question of the tables: accepted books, and ends that differ. It has no routes."""
    found = {}
    for _, _, cases in tables():
        for words, _ in cases:
            for given in asked(words) if words[0] != "route" else []:
                if not model.verdict(given[16:]) and given[:8] != given[8:16]:
                    found[given] = None
    return list(found)


# ---- answers, laid out as the tables have them

def stored():
    """The stored answers of the Rust: for each input [(record, answer, path bytes)]."""
    found = {}
    with open(os.path.join(HERE, "answers.bin"), "rb") as f:
        while (size := f.read(4)):
            given = f.read(int.from_bytes(size, "big"))
            records = [f.read(16) for _ in range(int.from_bytes(f.read(2), "big"))]
            paths = []
            for _ in records:
                answer, length = struct.unpack(">BH", f.read(3))
                paths.append((answer, f.read(length)))
            found[given] = [(r, *p) for r, p in zip(records, paths)]
    return found


def listed(solutions, room):
    if len(solutions) > min(4096, room // 16):
        return [FULL] + [0] * room
    return [len(solutions)] + joined(r for r, _, _ in solutions) + [0] * (room - 16 * len(solutions))


def routed(solutions, room):
    """docs/SPECIFICATION.md 14: of each list of interfaces the earliest with the greatest expiry, in order of first appearance."""
    if len(solutions) > min(4096, room // 16):
        return [FULL] + [0] * room
    paths = [(tuple(parts(path)[2]), least(path)[1], r) for r, answer, path in solutions if answer == 0]
    held = [max((p for p in paths if p[0] == of), key=lambda p: p[1])[2] for of in dict.fromkeys(of for of, _, _ in paths)]
    return [len(held)] + joined(held) + [0] * (room - 16 * len(held))


def assembled(solutions, record, room):
    if room < PATH_SIZE:
        return [REFUSALS + 9] + [0] * room
    for r, answer, path in solutions:
        if list(r) == record:
            return [answer] + list(path) + [0] * (room - len(path))
    return [REFUSALS + 10] + [0] * room


def parts(path):
    """Infos, hops and interfaces of a path's bytes."""
    infos, hops, count = path[0], path[1], path[2]
    at = 26 + 8 * infos
    end = at + 11 * hops
    return ([struct.unpack_from(">BBHI", path, 26 + 8 * k) for k in range(infos)],
            [struct.unpack_from(">BHH6s", path, at + 11 * k) for k in range(hops)],
            [(int.from_bytes(path[end + 8 * k:end + 8 * k + 8], "big"), int.from_bytes(path[end + 8 * count + 2 * k:end + 8 * count + 2 * k + 2], "big"))
             for k in range(count)])


def wire_parts(wire):
    """Infos and hops of bytes on the wire: docs/SPECIFICATION.md 15.1 to 15.3. A byte past the end is 0."""
    wire = wire.ljust(WIRE_SIZE, b"\0")
    meta = int.from_bytes(wire[:4], "big")
    lengths = [meta >> 12 & 63, meta >> 6 & 63, meta & 63]
    used = lengths[:(lengths + [0]).index(0)]
    infos = [struct.unpack_from(">BxHI", wire, 4 + 8 * k) for k in range(len(used))]
    hops = [struct.unpack_from(">BHH6s", wire, 4 + 8 * len(used) + 12 * k + 1) for k in range(sum(lengths))]
    return [(flags, count, ident, timestamp) for (flags, ident, timestamp), count in zip(infos, used)], hops


def held(infos, hops):
    """The ids that a router holds at the hops of a path: docs/SPECIFICATION.md 7.1 to 7.4."""
    found = []
    for flags, count, ident, _ in infos:
        of, hops = hops[:count], hops[count:]
        for j, hop in enumerate(of):
            step = int.from_bytes(hop[3][:2], "big")
            if flags & 1:
                found.append(ident)
                ident ^= 0 if flags & 2 and j == 0 else step
            else:
                ident ^= 0 if j == 0 or (flags & 2 and j == count - 1) else step
                found.append(ident)
    return found


def least(path):
    return list(struct.unpack_from(">HI", path, 4))


def sketch(path):
    infos, hops, interfaces = parts(path)
    return joined((flags, count, ident) for flags, count, ident, _ in infos) + joined(hop[1:3] for hop in hops) + [i for _, i in interfaces]


def printed(solutions):
    lines = [f"solutions {len(solutions)} paths {sum(answer == 0 for _, answer, _ in solutions)}"]
    for k, (r, answer, path) in enumerate(solutions, 1):
        start = f"{k} cost {r[0] * 256 + r[1]} segments {r[2]}"
        if answer:
            lines.append(start + (" loop" if answer == 1 else " bare"))
            continue
        mtu, expiry = struct.unpack_from(">HI", path, 4)
        infos, hops, interfaces = parts(path)
        lines.append(f"{start} mtu {mtu} expiry {expiry} hops {len(hops)}")
        lines += [f"info {flags} {ident:04x} {timestamp}" for flags, _, ident, timestamp in infos]
        lines += [f"if {isd_as:016x} {interface}" for isd_as, interface in interfaces]
    return "".join(line + "\n" for line in lines)


def by(solutions, words):
    """What a question's answer is, from the solutions in order."""
    if words[0] == "list":
        return listed(solutions, words[4])
    if words[0] == "route":
        return routed(solutions, words[4])
    if words[0] == "print":
        return list(printed(solutions).encode())
    if words[0] == "assemble":
        return assembled(solutions, words[4], words[5])
    if words[0] in ("least", "sketch"):
        assert all(answer == 0 for _, answer, _ in solutions)
        return joined((least if words[0] == "least" else sketch)(path) for _, _, path in solutions)
    path = next(path for r, answer, path in solutions if list(r) == words[4] and answer == 0)
    return numbered(model.write(path, WIRE_SIZE)) if words[0] == "send" else held(*parts(path)[:2])


def modelled(given):
    """The solutions as tests/model.py has them, laid out as the stored ones."""
    found = []
    for chain in model.solutions(given[16:], *struct.unpack(">QQ", given[:16])):
        edges = [bytes([e.segment.position, e.shortcut, 0 if e.peer is None else e.peer + 1, model.in_construction(e)]) for e in chain]
        record = struct.pack(">HBB", model.cost(chain), len(chain), 0) + b"".join(edges).ljust(12, b"\0")
        p = model.path(chain)
        if isinstance(p, str):
            found.append((record, 1 if p == "loop" else 2, b""))
            continue
        path = bytes([len(p.infos), len(p.hops), len(p.interfaces), 0]) + struct.pack(">HIQQ", p.mtu, p.expiry, p.interfaces[0][0], p.interfaces[-1][0])
        path += b"".join(struct.pack(">BBHI", flags, hops, ident, timestamp) for flags, ident, timestamp, hops in p.infos)
        path += b"".join(struct.pack(">BHH", *h[:3]) + h.mac for h in p.hops)
        path += b"".join(struct.pack(">Q", a) for a, _ in p.interfaces) + b"".join(struct.pack(">H", i) for _, i in p.interfaces)
        found.append((record, 0, path))
    return found


def unhashed(segment):
    return b"".join(struct.pack(">QHH", e.isd_as, e.hop.ingress, e.hop.egress) for e in segment.entries)


def numbered(answer):
    number, out = answer
    return [number, *out]


def compared(book, pairs):
    """Of each pair of records: 0 before, 1 same, 2 after, and how many fingerprints are worked out; with SHA-256, which orders the tables' books alike."""
    return joined((order + 1, digests) for order, digests in (model.compare(book, r, s) for r, s in pairs))


def modelled_answer(words):
    """The answer to any question, by the model; the exact text of a refusal too."""
    if words[0] == "write":
        return numbered(model.write(bytes(words[1]), words[2]))
    if words[0] == "read":
        return numbered(model.read(bytes(words[1]), words[2]))
    if words[0] == "writes":
        return [model.write(bytes(path), WIRE_SIZE)[0] for path in words[1]]
    if words[0] == "reads":
        return [model.read(bytes(wire), PATH_SIZE)[0] for wire in words[1]]
    if words[0] == "carry":
        return held(*wire_parts(bytes(words[1])))
    if words[0] == "compared":
        return compared(bytes(words[1]), pairwise(map(bytes, words[2])))
    if words[0] == "compared_all":
        records = [model.record(chain) for chain in model.solutions(bytes(words[1]), *words[2:])]
        return compared(bytes(words[1]), product(records, repeat=2))
    if words[0] == "accept":
        return [model.verdict(bytes(words[1]))]
    if words[0] == "room":
        return [min(4096, words[1] // 16)]
    if words[0] == "live":
        return [(words[1] + 1) * 675 // 2]
    if words[0] == "print":
        return list(model.printed(bytes(words[1])).encode())
    refusal = max(model.verdict(given[16:]) for given in asked(words))
    if refusal:
        return [REFUSALS + refusal] + [0] * words[-1]
    return joined(by(modelled(given), words) for given in asked(words))


def main():
    answers, hash_of = stored(), model.fingerprint
    told = {"the Rust": 0, "the model alone": 0}
    bad = 0
    for name, table, cases in tables():
        for k, (words, expected) in enumerate(cases, 1):
            given = asked(words)
            model.fingerprint = hash_of if table == "hashed" else unhashed
            if modelled_answer(words) != expected:
                bad += 1
                print(f"pins: {name}, {table}, case {k}: the model answers otherwise: {words[0]}")
            if given and all(g in answers for g in given):
                told["the Rust"] += 1
                if joined(by(answers[g], words) for g in given) != expected:
                    bad += 1
                    print(f"pins: {name}, {table}, case {k}: the Rust answers otherwise: {words[0]}\n" + "".join(printed(answers[g]) for g in given))
            else:
                told["the model alone"] += 1
    missing = [given for given in inputs() if given not in answers]
    if missing:
        sys.exit(f"pins: {len(missing)} inputs have no stored answer: run answers.py")
    print(f"pins: {sum(told.values())} cases: " + ", ".join(f"{n} held to {what}" for what, n in told.items()))
    sys.exit(bad > 0)


if __name__ == "__main__":
    main()
