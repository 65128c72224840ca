"""Reading batches, books and the texts of the oracle and of the driver (README.md)."""
import os
import sys
from collections import namedtuple

sys.path.insert(0, os.path.join(os.path.dirname(os.path.abspath(__file__)), "..", "tools"))
from booktext import layout  # noqa: E402

FRONT = 4       # bytes of the length before each case

# The words of an edge in both texts; the fingerprint is cut.
Edge = namedtuple("Edge", "position shortcut peer direction fingerprint")

# What the Rust makes of bytes of the wire: how many are left over, the two current indexes, the three lengths, infos, hops, and what its encoder
# gives of them: `same`, `other`, `refused`.
View = namedtuple("View", "rest current lengths infos hops encoded")


def edge(words):
    position, shortcut, peer, direction, fingerprint = words
    return Edge(int(position), int(shortcut), None if peer == "-" else int(peer), int(direction), fingerprint)


def cases(blob):
    """The cases of a batch: source, destination, book."""
    at = 0
    while at < len(blob):
        n = int.from_bytes(blob[at:at + FRONT], "big")
        yield blob[at + FRONT:at + FRONT + n]
        at += FRONT + n


def framed(case):
    return len(case).to_bytes(FRONT, "big") + case


def batch(found):
    return b"".join(map(framed, found))


def book(b):
    """The count of cores of an accepted book, and its segments."""
    segments = layout.read(b)
    return sum(s.core for s in segments), segments


class Found(list):
    """The solutions of a case. `combined`: the paths that `combine` answers, `panic`, or None where it was not asked."""
    combined = None


def oracle_blocks(path):
    """For each case its solutions, or where it is undecodable the refusal's number (0 if not printed)."""
    sols, cur = Found(), None
    with open(path) as f:
        for line in f:
            w = line.split()
            if w[0] == "---":
                yield sols
                sols = Found()
            elif w[0] == "undecodable":
                sols = int(w[1]) if len(w) > 1 else 0
            elif w[0] == "solutions":
                pass
            elif w[0] == "edge":
                cur["edges"].append(edge(w[1:]))
            elif w[0] == "combined":
                sols.combined = "panic" if w[1] == "panic" else []
            elif w[0] == "path":
                if sols.combined is not None:
                    cur = dict(infos=[], hops=[], ifs=[])
                    sols.combined.append(cur)
                cur["verdict"], cur["mtu"], cur["expiry"] = "path", int(w[2]), int(w[4])
                cur["key"] = w[6] if len(w) > 5 else None
            elif w[0] == "info":
                cur["infos"].append((int(w[1]), w[2], int(w[3]), int(w[4])))
            elif w[0] == "hop":
                cur["hops"].append((int(w[1]), int(w[2]), int(w[3]), w[4]))
            elif w[0] == "if":
                cur["ifs"].append((w[1], int(w[2])))
            elif w[0] == "wire":
                cur["wire"] = w[1]
            elif w[0] in ("loop", "panic", "encode-refused", "other-panic"):
                cur["verdict"] = w[0]
            else:
                cur = dict(cost=int(w[2]), n=int(w[4]), edges=[], verdict=None, infos=[], hops=[], ifs=[])
                sols.append(cur)
    yield sols


def views(path):
    """For each path on the wire its View, or None where the Rust refuses it."""
    rest, numbers, infos, hops, encoded = None, [], [], [], None
    with open(path) as f:
        for line in f:
            w = line.split()
            if w[0] == "view":
                rest, *numbers = map(int, w[1:])
            elif w[0] == "info":
                infos.append((int(w[1]), w[2], int(w[3])))
            elif w[0] == "hop":
                hops.append((*map(int, w[1:-1]), w[-1]))
            elif w[0] == "encoded":
                encoded = w[1]
            elif w[0] == "---":
                yield None if rest is None else View(rest, numbers[:2], numbers[2:], infos, hops, encoded)
                rest, numbers, infos, hops, encoded = None, [], [], [], None


def driver_blocks(path):
    """For each case its lines."""
    cur = []
    with open(path) as f:
        for l in f:
            l = l.rstrip("\n")
            if l == "---":
                yield cur
                cur = []
            else:
                cur.append(l)
    if cur:
        yield cur


def tie_key(cost, edges):
    """What the Rust orders a solution by."""
    return cost, len(edges), tuple((-1 if e.peer is None else e.peer, -e.shortcut, e.fingerprint) for e in edges)
