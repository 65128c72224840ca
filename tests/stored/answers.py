#!/usr/bin/env python3
"""Writes answers.bin: what the Rust answers on a sample of small books (README.md).

    answers.py ORACLE OUT

ORACLE is the program of oracle/. Books are generated from a fixed seed, from the smallest up, and one is kept
where it shows something that few kept ones show: see `shows`. The Rust leaves the order within a run of ties open;
there the records are put in the order of docs/SPECIFICATION.md 5.3, by positions edge by edge.
"""
import hashlib
import subprocess
import sys
import tempfile
from collections import Counter
from dataclasses import replace

import form
from booktext import layout
from booktext.layout import ENDS, PATH_HEAD, FINGERPRINTED
import batch  # noqa: E402
import cases  # noqa: E402
import gen  # noqa: E402
import pins  # noqa: E402

SEED = "stored"
PROFILES = {"tiny": 900, "small": 900, "copies": 700, "peering": 900, "three": 700, "network": 500, "loops": 500, "bare": 300,
            "medium": 150, "same_ends": 40, "crowd": 30}
# Kept whatever their size: the longest paths; up to the most segments.
LARGE = {"longest": range(2), "many": (7, 23)}
ENOUGH = 2          # kept books that show the same
SMALL = 1000        # bytes of a book
FEW = 12            # solutions


def fingerprint(segment):
    return hashlib.sha256(b"".join(map(FINGERPRINTED.pack_of, segment.entries))).digest()


def order(segments, s):
    return (s["cost"], s["n"],
            [(-1 if e.peer is None else e.peer, -e.shortcut, fingerprint(segments[e.position])) for e in s["edges"]])


def path(s):
    """The bytes of a path's record."""
    return layout.path(s["mtu"], s["expiry"], [(flags, hops, int(ident, 16), timestamp) for flags, ident, timestamp, hops in s["infos"]],
                       [(units, ingress, egress, bytes.fromhex(mac)) for units, ingress, egress, mac in s["hops"]],
                       [(int(isd_as, 16), interface) for isd_as, interface in s["ifs"]])


ANSWER = {"path": layout.PATH, "loop": layout.LOOP, "panic": layout.BARE}


def stored(case, sols):
    return form.answered(case, [(layout.solution(s["cost"], *(e[:-1] for e in s["edges"])), ANSWER[s["verdict"]],
                                 path(s) if s["verdict"] == "path" else b"") for s in sols])


def shows(case, cores, segments, sols):
    """What a case has that is worth keeping."""
    found = set()
    keys = [order(segments, s) for s in sols]
    for s, key in zip(sols, keys):
        edges = s["edges"]
        kind = "".join("C" if e.position < cores else "N" for e in edges)
        peers = "".join("-" if e.peer is None else "p" for e in edges)
        found.add((kind, peers, s["verdict"]))
        found.add((kind, "".join(str(e.direction) for e in edges), s["verdict"]))
        found.add((kind, "shortcuts", "".join("s" if e.shortcut else "0" for e in edges), s["verdict"]))
        for pos, sc, peer, direction, _ in edges:
            n = len(segments[pos].entries)
            if peer is not None:
                found.add(("peer", min(peer, 2), direction, "leaf" if sc == n - 1 else "first" if sc == 0 else "between", s["verdict"]))
            if n == 1:
                found.add(("one entry", kind, s["verdict"]))
        if len({e.position for e in edges}) < len(edges):
            found.add(("a segment twice", kind, s["verdict"]))
        if keys.count(key) > 1:
            found.add(("ties", kind, min(keys.count(key), 4)))
        if s["verdict"] == "path":
            found.add(("mtu", s["mtu"] == 0, s["mtu"] == PATH_HEAD.of.mtu.most))
            found.add(("expiry", s["expiry"] == PATH_HEAD.of.expiry.most))
            found.add(("interfaces", min(len(s["ifs"]), 8)))
    found.add(("solutions", min(len(sols), 10)))
    found.add(("most peers", max([e.peer_count for x in segments for e in x.entries], default=0), bool(sols)))
    for p, x in enumerate(segments):
        if not x.entries:
            found.add(("empty segment", bool(sols)))
        if x.core and any(e.peers for e in x.entries):
            found.add(("peers of a core", bool(sols)))
        if x in segments[:p]:
            found.add(("equal segments", x.core, bool(sols)))
        if replace(x, core=not x.core) in segments[:p]:
            found.add(("equal but for the kind", bool(sols)))
        ends = [(e.isd_as, q.ingress, q.isd_as, q.interface) for e in x.entries for q in e.peers]
        if len(set(ends)) < len(ends):
            found.add(("equal peers", bool(sols)))
        if any(e.mtu > PATH_HEAD.of.mtu.most for e in x.entries):
            found.add(("AS MTU past that of a path", bool(sols)))
    source, destination = ENDS.unpack(case)
    if source == destination:
        found.add(("equal ends",))
    return found


def answers(oracle, made):
    with tempfile.NamedTemporaryFile(suffix=".batch") as f, tempfile.NamedTemporaryFile(suffix=".out") as o:
        f.write(batch.batch(made))
        f.flush()
        subprocess.run([oracle, "--batch", f.name], stdout=o, check=True)
        return list(batch.oracle_blocks(o.name))


def main():
    oracle, out = sys.argv[1:]
    by_hand = list(cases.CASES.values())
    small = sorted({gen.make(SEED, i, name)[1] for name, n in PROFILES.items() for i in range(n)}, key=lambda c: (len(c), c))
    large = [gen.make(SEED, i, name)[1] for name, turns in LARGE.items() for i in turns]
    made = by_hand + large + small
    always = len(by_hand) + len(large)
    seen, kept, solutions = Counter(), [], Counter()
    for i, (case, sols) in enumerate(zip(made, answers(oracle, made), strict=True)):
        if isinstance(sols, int):
            continue
        cores, segments = batch.book(case[ENDS.size:])
        keys = [order(segments, s) for s in sols]
        assert keys == sorted(keys), "the Rust's list is in order but for ties"
        assert all(s["verdict"] in ANSWER for s in sols)
        sols.sort(key=lambda s: (order(segments, s), [e.position for e in s["edges"]]))
        found = shows(case, cores, segments, sols)
        if i >= always and (len(case) > SMALL + ENDS.size or len(sols) > FEW or all(seen[x] >= ENOUGH for x in found)):
            continue
        seen.update(found)
        kept.append(stored(case, sols))
        solutions.update(s["verdict"] for s in sols)
    # Those of the tables of spec, whatever they show.
    shown, asked = len(kept), 0
    tables = [case for case in pins.inputs() if not any(k[4:4 + len(case)] == case for k in kept)]
    for case, sols in zip(tables, answers(oracle, tables), strict=True):
        segments = batch.book(case[16:])[1]
        sols.sort(key=lambda s: (order(segments, s), [e[0] for e in s["edges"]]))
        kept.append(stored(case, sols))
        asked += len(sols)
    with open(out, "wb") as f:
        f.write(b"".join(kept))
    print(f"{shown} cases with {len(seen)} things shown, {dict(solutions)}; {len(kept) - shown} of the tables with {asked} solutions; "
          f"{sum(map(len, kept))} bytes")


if __name__ == "__main__":
    main()
