#!/usr/bin/env python3
"""Writes routes.bin: what combinator_routes answers (README.md).

    routes.py OUT

First cases by hand, each with what is expected beside it; then generated books of the profile `reissued`, from a fixed seed, of which one is kept where
it shows something that few kept ones show. Every case is held to tests/model.py, and what is stored of a generated one is the model's.
"""
import hashlib
import os
import sys
from collections import Counter

import form
from booktext import layout
from booktext.layout import CROWDED, CUT, ENDS, FINGERPRINTED, FULL, LIST_SIZE, LONG, MISFIT, PATH_HEAD, PEERS, RECORD_SIZE, SURPLUS, TWICE
from booktext.layout import Entry, Peer, Segment
import gen  # noqa: E402

sys.path.insert(0, os.path.join(form.HERE, ".."))
import model  # noqa: E402

SEED = "routes"
MADE = 1500
ENOUGH = 1          # kept books that show the same
SMALL = 1000        # bytes of a book
MANY = 60           # solutions

A, B, X, Y, M, N = (0x0001FF0000000110 + i for i in (1, 0, 2, 3, 4, 5))
AGAINST, ALONG = 0, layout.CONSTRUCTION
T = 1000000
MAC = bytes.fromhex("010203040506")


def entry(isd_as, ingress=0, egress=0, units=63, peers=()):
    return Entry(isd_as, 1500, 0, ingress, egress, units, MAC, peers=list(peers))


def seg(*entries, time=T, ident=1):
    return Segment(time, ident, list(entries))


def fingerprint(s):
    return hashlib.sha256(b"".join(map(FINGERPRINTED.pack_of, s.entries))).digest()


def one(position, cost=1, shortcut=0, direction=AGAINST):
    """The record of a chain of one edge."""
    return layout.solution(cost, (position, shortcut, None, direction))


CASES = []


def case(want, cores, non_cores, src=A, dst=B, room=LIST_SIZE, raw=None):
    """`want` is a refusal's number, or the records of the routes."""
    book = layout.book(list(cores), list(non_cores)) if raw is None else raw
    CASES.append((form.given(src, dst, book), room, want if isinstance(want, int) else 0, [] if isinstance(want, int) else list(want)))


# ---- by hand. A hop of 63 units lives 64 * 337.5 = 21,600 seconds.

def up(time=T, ident=1, units=63, egress=5):
    """From B to A: its path shows A's 7 and B's `egress`."""
    return seg(entry(B, 0, egress, units), entry(A, 7, 0, units), time=time, ident=ident)


# The later copy lives longer, shorter, as long: by another id; by 675 seconds more and two units less, 62 * 337.5 = 20,925.
case([one(1)], [], [up(T), up(T + 1)])
case([one(0)], [], [up(T + 1), up(T)])
case([one(0)], [], [up(ident=1), up(ident=2)])
case([one(0)], [], [up(T), up(T + 675, units=61)])
case([one(1)], [], [up(T), up(T + 676, units=61)])
# 62 units live 63 * 337.5 = 21,262.5 seconds, cut to 21,262: 338 seconds later that is as long, 337 a second less.
case([one(0)], [], [up(T), up(T + 338, units=62)])
case([one(0)], [], [up(T), up(T + 337, units=62)])
case([one(1)], [], [up(T), up(T + 339, units=62)])
# Three copies: the first of the two longest; each longer than the one before; the longest between; the first.
case([one(1)], [], [up(T), up(T + 1), up(T + 1, ident=2)])
case([one(2)], [], [up(T), up(T + 1), up(T + 2)])
case([one(1)], [], [up(T), up(T + 2), up(T + 1)])
case([one(0)], [], [up(T + 2), up(T), up(T + 1)])
case([one(0)], [], [up(T + 2), up(T), up(T + 2, ident=2)])
# A path's expiry is cut to 4 bytes: what would live longer beyond that does not.
LAST = 2**32 - 1
case([one(0)], [], [up(LAST - 21600), up(LAST - 1)])
case([one(1)], [], [up(LAST - 21601), up(LAST - 1)])
# An equal segment is no copy.
case([one(0)], [], [up(), up()])


def in_order(*segments):
    """The positions of non-cores with one edge each, by fingerprint."""
    return sorted(range(len(segments)), key=lambda p: (fingerprint(segments[p]), p))


# Another interface id; another AS with the same ids: two routes, whichever lives longer.
for other in (up(egress=6), up(T + 1, egress=6)):
    case([one(p) for p in in_order(up(), other)], [], [up(), other])


def over(middle, time=T, ident=1):
    return seg(entry(B, 0, 5), entry(middle, 1, 2), entry(A, 7, 0), time=time, ident=ident)


for other in (over(N), over(N, T + 1)):
    case([one(p, 2) for p in in_order(over(M), other)], [], [over(M), other])
# The same ASes in another order, and the same ids: two routes.
TURNED = [seg(entry(B, 0, 5), entry(x, 1, 1), entry(y, 1, 1), entry(A, 7, 0)) for x, y in ((M, N), (N, M))]
case([one(p, 3) for p in in_order(*TURNED)], [], TURNED)
# One list a front of the other: two routes. B's ingress 3 is shown where the whole segment is used, and comes last.
case([one(1, 1, 1), one(0)], [], [seg(entry(B, 3, 5), entry(A, 7)), seg(entry(X, 0, 1), entry(B, 3, 5), entry(A, 7), ident=2)])
# ... and the longer list comes first, or second, by its fingerprint.
for before in (True, False):
    WHOLE = next(s for s in (seg(entry(B, i, 5), entry(A, 7), ident=2) for i in range(1, 100)) if (fingerprint(s) < fingerprint(up())) == before)
    case([one(1), one(0)] if before else [one(0), one(1)], [], [up(), WHOLE])
# An ingress that a shortcut hides: one route, though the fingerprints differ; the longer stands, wherever it is.
HIDDEN = [seg(entry(X, 0, 1), entry(B, i, 5), entry(A, 7, 0)) for i in (2, 3)]
for longer in (0, 1):
    CHANGED = [Segment(T + (p == longer), 1, s.entries) for p, s in enumerate(HIDDEN)]
    case([one(longer, 1, 1)], [], CHANGED)
FIRST = in_order(*HIDDEN)[0]
case([one(FIRST, 1, 1)], [], HIDDEN)


# Three edges, up over X, core from X to Y, down: between two core segments over one link, one from either end and so of two fingerprints, stands
# a third by its fingerprint, of which a path loops or is another route. Up and down live longer, so that the core segments decide.
UP, DOWN = seg(entry(X, 0, 1), entry(A, 1, 0), time=T + 9), seg(entry(Y, 0, 1), entry(B, 1, 0), time=T + 9)
LINK = [seg(entry(Y, 0, 5), entry(X, 7, 0)), seg(entry(X, 0, 7), entry(Y, 5, 0))]
EARLY, LATE = sorted(LINK, key=fingerprint)


def three(core, along):
    return layout.solution(3, (3, 0, None, AGAINST), (core, 0, None, ALONG if along else AGAINST), (4, 0, None, ALONG))


def along(s):
    return s.entries[-1].isd_as == Y


def between(make):
    """The first of the segments that are made whose fingerprint is between those of the two."""
    return next(s for s in map(make, range(1, 1000)) if fingerprint(EARLY) < fingerprint(s) < fingerprint(LATE))


# X at three interfaces: up's, its egress and its ingress.
LOOPS = between(lambda i: seg(entry(X, i, 7), entry(Y, 5, 0)))
OTHER = between(lambda i: seg(entry(X, 0, 7 + i), entry(Y, 5, 0)))
for middle in (LOOPS, OTHER):
    more = [three(1, along(middle))] if middle is OTHER else []
    for longer in (-1, 0, 1):
        cores = [Segment(T + longer * (s is LATE), 1, s.entries) for s in (EARLY, middle, LATE)]
        # The place of the first; what is held there is the late one only where it lives longer.
        held = three(2, along(LATE)) if longer > 0 else three(0, along(EARLY))
        case([held] + more, cores, [UP, DOWN])

# Only a path that loops; only one without interfaces; both beside one that is listed.
ONCE = [seg(entry(X, 0, 1), entry(A, 1)), seg(entry(X, 3, 2), entry(B, 1))]
case([], [], ONCE)
case([], [], [seg(entry(B), entry(A))])
case([one(0)], [], [up()] + ONCE)
case([one(0)], [], [up(), seg(entry(B), entry(A), ident=2)])
case([one(1)], [], [seg(entry(B), entry(A)), up(T, 2)])
# By a peering link, issued twice on one side.
PEERED = [seg(entry(A, peers=[Peer(B, 9, 1500, 63, 8, 0, MAC)])), seg(entry(B, peers=[Peer(A, 8, 1500, 63, 9, 0, MAC)]))]
PEERED.append(Segment(T + 1, 2, PEERED[0].entries))
case([layout.solution(1, (0, 0, 0, AGAINST), (1, 0, 0, ALONG))], [], PEERED)
# No path, no segments, equal ends, the other way.
case([], [], [up()], src=X)
case([], [], [])
case([], [], [up(), up(T + 1)], src=A, dst=A)
case([], [seg(entry(A, 1))], [], src=A, dst=A)
case([one(1, direction=ALONG)], [], [up(T), up(T + 1)], src=B, dst=A)

# Full counts chains: two copies need two slots, though one is used.
for room, full in ((0, 1), (RECORD_SIZE - 1, 1), (RECORD_SIZE, 1), (2 * RECORD_SIZE - 1, 1), (2 * RECORD_SIZE, 0), (3 * RECORD_SIZE + 5, 0)):
    case(FULL if full else [one(1)], [], [up(T), up(T + 1)], room=room)
# ... and a chain that loops needs one too; no chain needs none.
case(FULL, [], ONCE, room=RECORD_SIZE - 1)
case([], [], ONCE, room=RECORD_SIZE)
case([], [], [up()], src=X, room=0)
case([], [], [up()], dst=A, room=0)
# The book's refusals, before Full; Oversize stands in refusals.bin, whose listings are asked of routes too.
GOOD = layout.book([], [up(T), up(T + 1)])
for room in (LIST_SIZE, 0):
    case(CUT, [], [], raw=b"", room=room)
    case(CUT, [], [], raw=GOOD[:-1], room=room)
    case(SURPLUS, [], [], raw=GOOD + b"\0", room=room)
    case(CROWDED, [], [], raw=layout.COUNTS.pack(0, layout.MAX_SEGMENTS + 1, 0), room=room)
    case(LONG, [], [seg(*(entry(A, 1, 1) for _ in range(layout.MAX_ENTRIES + 1)))], room=room)
    case(PEERS, [], [seg(entry(A, peers=(layout.MAX_PEERS + 1) * [Peer(B, 9, 1500, 63, 8, 0, MAC)]))], room=room)
    case(MISFIT, [], [], raw=layout.COUNTS.pack(0, 1, 1) + layout.HEAD.pack(T, 1, 1, 1) + b"\0", room=room)
    case(CUT, [], [], src=A, dst=A, raw=GOOD[:-1], room=room)
    case(TWICE, [], [seg(entry(A, 0, 5), entry(B, 1, 2), entry(A, 7, 0))], room=room)
    case(TWICE, [seg(entry(B, 0, 5), entry(X, 1, 2), entry(X, 1, 2), entry(A, 7, 0))], [up()], room=room)
    case(TWICE, [], [up(), seg(entry(X, 0, 5), entry(A, 1, 2), entry(X, 7, 0))], src=A, dst=A, room=room)


# ---- the model

def answer(given, room):
    """Number and records by the model."""
    (src, dst), book = ENDS.unpack(given), given[ENDS.size:]
    refusal = model.verdict(book)
    if refusal:
        return refusal, []
    if len(model.solutions(book, src, dst)) > min(room // RECORD_SIZE, layout.MAX_SOLUTIONS):
        return FULL, []
    return 0, [model.record(chain) for chain in model.routes(book, src, dst)]


# ---- generated

def shows(given):
    """What a case has that is worth keeping."""
    (src, dst), book = ENDS.unpack(given), given[ENDS.size:]
    chains = model.solutions(book, src, dst)
    paths = [model.path(chain) for chain in chains]
    copies, found = {}, set()
    for k, p in enumerate(paths):
        if isinstance(p, model.Path):
            copies.setdefault(tuple(p.interfaces), []).append(k)
    for ks in copies.values():
        kind = "".join("C" if e.segment.core else "N" for e in chains[ks[0]])
        lives = [paths[k].expiry for k in ks]
        signs = tuple((y > x) - (y < x) for x, y in zip(lives, lives[1:]))
        found.add((kind, "peer" if any(e.peer is not None for e in chains[ks[0]]) else "", signs[:3]))
        found.add(("hidden", len({tuple((h.ingress, h.egress) for h in paths[k].hops) for k in ks}) > 1, lives[0] < max(lives)))
        found.add(("held", lives.index(max(lives)), lives.count(max(lives)) > 1))
        apart = [k for k in range(ks[0], ks[-1]) if k not in ks]
        found.add(("between", {paths[k] if isinstance(paths[k], str) else "route" for k in apart} == {"loop"}, bool(apart), lives[0] < max(lives)))
        found.add(("last expiry", max(lives) == PATH_HEAD.of.expiry.most, lives.count(max(lives)) > 1))
    keys = {}
    for ifs, ks in copies.items():
        for k in ks:
            keys.setdefault((ifs[0][0], ifs[-1][0], tuple((h.ingress, h.egress) for h in paths[k].hops)), set()).add(ifs)
    found.add(("same hops", any(len(lists) > 1 for lists in keys.values())))
    held = [chains.index(chain) for chain in model.routes(book, src, dst)]
    found.add(("sorted", held == sorted(held)))
    found.add(("routes", min(len(held), 6), min(len(chains), 6)))
    found.add(("loops", any(p == "loop" for p in paths), bool(copies)))
    return found


def main():
    kept = []
    for given, room, number, records in CASES:
        assert answer(given, room) == (number, records), (given.hex(), answer(given, room), number, records)
        kept.append(form.routed(given, room, number, records))
    by_hand, seen, routes = len(kept), Counter(), 0
    made = sorted({gen.make(SEED, i, "reissued")[1] for i in range(MADE)}, key=lambda c: (len(c), c))
    for given in made:
        if len(given) > SMALL + ENDS.size:
            break
        (src, dst), book = ENDS.unpack(given), given[ENDS.size:]
        if len(model.solutions(book, src, dst)) > MANY:
            continue
        found = shows(given)
        if all(seen[x] >= ENOUGH for x in found):
            continue
        seen.update(found)
        number, records = answer(given, LIST_SIZE)
        routes += len(records)
        kept.append(form.routed(given, LIST_SIZE, number, records))
    with open(sys.argv[1], "wb") as f:
        f.write(b"".join(kept))
    print(f"{by_hand} cases by hand, {len(kept) - by_hand} generated with {routes} routes, {sum(map(len, kept))} bytes, {len(seen)} things shown")


if __name__ == "__main__":
    main()
