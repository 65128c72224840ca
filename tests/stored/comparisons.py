#!/usr/bin/env python3
"""Writes comparisons.bin: how two solution records of a book stand to each other, and how many fingerprints that takes (README.md).

    comparisons.py OUT
    comparisons.py --check    holds the cases by hand and those of comparisons.bin to tests/model.py, and the model to its own lists

First cases by hand, each with what is expected beside it; then pairs of solutions of generated books; then books and records of any bytes. What is
stored of the last two is what tests/model.py answers. All are from a fixed seed.
"""
import hashlib
import os
import random
import sys
from collections import Counter
from itertools import product

import form
from booktext import layout
from booktext.layout import COUNTS, EDGE, ENDS, ENTRY, FINGERPRINTED, HEAD, MAX_ENTRIES, MAX_PEERS, RECORD_HEAD, RECORD_SIZE
from booktext.layout import Entry, Peer, Segment
import gen  # noqa: E402

sys.path.insert(0, os.path.join(form.HERE, ".."))
import generate  # noqa: E402
import model  # noqa: E402

NAME = "comparisons.bin"
SEED = "comparisons"

BEFORE, SAME, AFTER = -1, 0, 1


def stored():
    """The bytes of every case of comparisons.bin, its book and its pairs."""
    r, found = form.Reader(NAME), []
    while r.at < len(r.data):
        start, pairs = r.at, []
        book = r.take(int.from_bytes(r.take(form.FRONT), "big"))
        for _ in range(r.next(form.PAIRS).count):
            a, b = (r.take(r.next(form.LENGTH).length) for _ in range(2))
            answer = r.next(form.COMPARISON)
            pairs.append((answer.order - 1, answer.digests, a, b))
        found.append((r.data[start:r.at], book, pairs))
    return found


# ---- by hand

A, B, C = (0x0001FF0000000110 + k for k in range(3))
T = 1000000
MAC = bytes.fromhex("010203040506")
HAND = []


def by_hand(book, *pairs):
    """Each pair also exchanged, in the other order and with as many fingerprints."""
    HAND.append((book, [p for order, digests, a, b in pairs for p in ((order, digests, a, b), (-order, digests, b, a))]))


def entry(isd_as, ingress=0, egress=0, peers=()):
    return Entry(isd_as, 1500, 0, ingress, egress, 63, MAC, peers=list(peers))


def seg(*entries, time=T):
    return Segment(time, 1, list(entries))


def peer(n):
    return Peer(C, n, 1500, 63, n, 0, MAC)


def fingerprint(segment):
    return hashlib.sha256(b"".join(map(FINGERPRINTED.pack_of, segment.entries))).digest()


def at(position, shortcut=0, index=None, direction=0):
    return EDGE.pack(position, shortcut, 0 if index is None else index + 1, direction)


def counted(cost, count, *edges):
    return (RECORD_HEAD.pack(cost, count) + b"".join(edges)).ljust(RECORD_SIZE, b"\0")


def three(*edges):
    return counted(7, 3, *edges)


# Three segments in the order of their fingerprints, and the first and the last of them issued again, with all else another: time, id, MTUs, units,
# MACs and peers of the first; the kind of the last.
FIRST, SECOND, LAST = sorted((seg(entry(A, 0, n), entry(B, n, 0)) for n in (1, 2, 3)), key=fingerprint)
AGAIN = Segment(T + 1, 2, [Entry(e.isd_as, 9000, 1400, e.ingress, e.egress, 5, MAC[::-1], peers=[peer(8), peer(9)]) for e in FIRST.entries])
# Positions: 0 is the last as a core, 1 the first, 2 the second, 3 the last, 4 the first again. So 1 and 4 have one fingerprint, and 0 and 3.
BOOK = layout.book([LAST], [FIRST, SECOND, LAST, AGAIN])

by_hand(
    BOOK,
    # Cost and edge count decide before any edge, and take none.
    (BEFORE, 0, counted(6, 3, at(2), at(2), at(2)), counted(7, 3, at(1), at(1), at(1))),
    (BEFORE, 0, counted(0x00FF, 3, at(2), at(2), at(2)), counted(0x0100, 3, at(1), at(1), at(1))),
    (BEFORE, 0, counted(7, 2, at(2), at(2)), counted(7, 3, at(1), at(1), at(1))),
    (BEFORE, 0, counted(7, 0, at(2), at(2)), counted(7, 255, at(1), at(1), at(1))),
    (BEFORE, 0, counted(6, 255, at(2)), counted(7, 0, at(1))),
    # At the first edge: a peer, none before 0 and 0 before 1; the larger shortcut; two positions, which take 2. The edges after it take none.
    (BEFORE, 0, three(at(2, 0), at(2), at(2)), three(at(1, 9, 0), at(1), at(1))),
    (BEFORE, 0, three(at(2, 0, 0), at(2), at(2)), three(at(1, 9, 1), at(1), at(1))),
    (BEFORE, 0, three(at(2, 9, 1), at(2), at(2)), three(at(1, 8, 1), at(1), at(1))),
    (BEFORE, 2, three(at(1, 9, 1), at(2), at(2)), three(at(2, 9, 1), at(1), at(1))),
    # One position takes none. At the second edge the same.
    (BEFORE, 0, three(at(3), at(2, 0), at(2)), three(at(3), at(1, 9, 0), at(1))),
    (BEFORE, 0, three(at(3), at(2, 9, 1), at(2)), three(at(3), at(1, 8, 1), at(1))),
    (BEFORE, 2, three(at(3), at(1, 9, 1), at(2)), three(at(3), at(2, 9, 1), at(1))),
    # At the third.
    (BEFORE, 0, three(at(3), at(2), at(2, 0)), three(at(3), at(2), at(1, 9, 0))),
    (BEFORE, 0, three(at(3), at(2), at(2, 9, 1)), three(at(3), at(2), at(1, 8, 1))),
    (BEFORE, 2, three(at(3), at(2), at(1, 9, 1)), three(at(3), at(2), at(2, 9, 1))),
    # 4 and 1 take 2 and are equal; what comes next decides: the second edge's peer, shortcut, or two positions, which take 2 more.
    (BEFORE, 2, three(at(4), at(2, 0), at(2)), three(at(1), at(1, 9, 0), at(1))),
    (BEFORE, 2, three(at(4), at(2, 9), at(2)), three(at(1), at(1, 8), at(1))),
    (BEFORE, 4, three(at(4), at(1), at(2)), three(at(1), at(2), at(1))),
    # ... the third's, past a second edge at one position.
    (BEFORE, 2, three(at(4), at(2), at(2, 0)), three(at(1), at(2), at(1, 9, 0))),
    (BEFORE, 2, three(at(4), at(2), at(2, 9)), three(at(1), at(2), at(1, 8))),
    (BEFORE, 4, three(at(4), at(2), at(1)), three(at(1), at(2), at(2))),
    # ... past one at 3 and 0, which take 2 and are equal.
    (BEFORE, 4, three(at(4), at(3), at(2, 0)), three(at(1), at(0), at(1, 9, 0))),
    (BEFORE, 4, three(at(4), at(3), at(2, 9)), three(at(1), at(0), at(1, 8))),
    (BEFORE, 6, three(at(4), at(3), at(1)), three(at(1), at(0), at(2))),
    # All fingerprints are equal, each pair at two positions takes 2, and the first two positions that differ decide.
    (BEFORE, 2, three(at(1), at(2), at(3)), three(at(4), at(2), at(3))),
    (BEFORE, 2, three(at(2), at(1), at(3)), three(at(2), at(4), at(3))),
    (BEFORE, 2, three(at(2), at(3), at(1)), three(at(2), at(3), at(4))),
    (BEFORE, 4, three(at(0), at(4), at(2)), three(at(3), at(1), at(2))),
    (BEFORE, 4, three(at(0), at(2), at(4)), three(at(3), at(2), at(1))),
    (BEFORE, 4, three(at(2), at(0), at(4)), three(at(2), at(3), at(1))),
    (BEFORE, 6, three(at(0), at(4), at(4)), three(at(3), at(1), at(1))),
    (BEFORE, 6, three(at(1), at(3), at(3)), three(at(4), at(0), at(0))),
    # The same two positions at every edge: each pair takes 2 anew.
    (BEFORE, 4, three(at(1), at(1), at(2)), three(at(4), at(4), at(2))),
    (BEFORE, 6, three(at(1), at(1), at(1)), three(at(4), at(4), at(4))),
    (BEFORE, 6, three(at(1), at(4), at(1)), three(at(4), at(1), at(4))),
    # One record, one that differs in what is no key: directions and the zero byte.
    (SAME, 0, three(at(1), at(2), at(3)), three(at(1), at(2), at(3))),
    (SAME, 0, three(at(1), at(2, 3, 1), at(3)), three(at(1, direction=1), at(2, 3, 1, 2), at(3, direction=255))),
    (SAME, 0, counted(7, 3), RECORD_HEAD.pack(7, 3, 255)),
    # Three edges are compared whatever the count says: 2, and in the last 6.
    *((BEFORE, 2, counted(7, n, *edges, at(1)), counted(7, n, *edges, at(2))) for n in (0, 1, 2, 255) for edges in ((), (at(2),), (at(2), at(3)))),
    (BEFORE, 6, counted(7, 255, at(1), at(1), at(1)), counted(7, 255, at(4), at(4), at(4))),
)
# Cut at every length: what is cut off reads as 0. The first edge's position is byte 4, the second's 8, the third's 12. At 1 and 4 fingerprints are
# equal and each pair takes 2; the third pair decides at 2 and 1, the other way round.
X, Y = three(at(1), at(1), at(2)), three(at(4), at(4), at(1))
by_hand(BOOK, *(((SAME, 0) if n < 5 else (BEFORE, 2) if n < 9 else (BEFORE, 4) if n < 13 else (AFTER, 6)) + (X[:n], Y[:n]) for n in range(RECORD_SIZE + 1)))
# What stands after a record is no part of it.
by_hand(BOOK, (AFTER, 6, X + b"\1", Y + b"\2\3"), (SAME, 0, X + bytes(range(16)), X), (SAME, 0, b"", bytes(32)), (BEFORE, 0, b"\0\0\1", X + b"\0"))


def told_apart(one, other):
    """Two segments at positions 0 and 1, at the first edges: their fingerprints differ, take 2 and decide."""
    order = BEFORE if fingerprint(one) < fingerprint(other) else AFTER
    by_hand(layout.book([], [one, other]), (order, 2, three(at(0)), three(at(1))))


def alike_in(book, n=2):
    """The first n positions have equal fingerprints: each two take 2, and the positions decide."""
    by_hand(book, *((BEFORE, 2, three(at(p)), three(at(q))) for q in range(n) for p in range(q)))


def alike(*segments, cores=()):
    alike_in(layout.book(list(cores), list(segments)), len(cores) + len(segments))


# What a fingerprint is made of: AS, ingress and egress of every entry in turn, and nothing else.
ROW = [entry(A, 0, 1), entry(B, 2, 3), entry(C, 4, 0)]
for k, changed in ((0, entry(A ^ 1 << 63, 0, 1)), (1, entry(B ^ 8, 2, 3)), (2, entry(C ^ 0x100, 4, 0)), (0, entry(A, 1, 1)), (1, entry(B, 0x102, 3)),
                   (2, entry(C, 0, 0)), (0, entry(A, 0, 2)), (1, entry(B, 2, 0x103)), (2, entry(C, 4, 1)), (1, entry(B, 3, 2))):
    told_apart(seg(*ROW), seg(*ROW[:k], changed, *ROW[k + 1:]))
told_apart(seg(*ROW), seg(*ROW[::-1]))
told_apart(seg(*ROW), seg(*ROW[:2]))
told_apart(seg(), seg(entry(0)))
alike(seg(*ROW), seg(*ROW, time=T + 1), Segment(T, 2, ROW), seg(*ROW), cores=[seg(*ROW)])
for field, value in (("mtu", 70000), ("ingress_mtu", 1), ("units", 0), ("mac", bytes(6)), ("peers", [peer(1)]), ("peers", [peer(n) for n in range(MAX_PEERS)])):
    OTHER = Entry(B, 1500, 0, 2, 3, 63, MAC)
    setattr(OTHER, field, value)
    alike(seg(*ROW), seg(ROW[0], OTHER, ROW[2]))
alike(seg(), seg(time=T + 1), cores=[seg()])

# Books that are not accepted. More entries than a segment may have: of those past the limit nothing is taken in, of the last within it all.
FULL = [entry(A + k, k, k + 1) for k in range(MAX_ENTRIES)]
alike(seg(*FULL, entry(A)), seg(*FULL, entry(B)), seg(*FULL), seg(*FULL, *FULL))
told_apart(seg(*FULL[:-1], entry(A)), seg(*FULL[:-1], entry(B)))
# More peers than an entry may have: the next entry stands after all of them.
alike(seg(*ROW), seg(ROW[0], entry(B, 2, 3, [peer(n) for n in range(MAX_PEERS + 1)]), ROW[2]))
# Peers that are not there: the next entry is past the book's end, and zero.
PEERLESS = bytearray(layout.book([], [seg(ROW[0], entry(0)), seg(*ROW[:2])]))
PEERLESS[-ENTRY.size - 1] = 255
alike_in(bytes(PEERLESS))
# A head with a body of no bytes: the next body starts where it does.
ONCE = seg(*ROW).body()
alike_in(COUNTS.pack(0, 2, len(ONCE)) + HEAD.pack(T, 1, 3, 0) + HEAD.pack(T, 2, 3, len(ONCE)) + ONCE)
# Sizes that count no segment: heads are read at their places all the same, and all bodies start at the first head.
alike_in(COUNTS.pack() + HEAD.pack(T, 1, 1, 0) + HEAD.pack(T, 2, 1, 0))
# ... with one entry at position 0, two at 1 and none at 2. The first entry's AS is 8 bytes of the first head, its ingress and egress are id and count of
# the second, and the second entry is past the book's end. Their digests begin with f7, 1d and e3.
READ = bytes.fromhex("000f4240 0001 0001" "0007 0002")
assert [hashlib.sha256(message).digest()[0] for message in (READ, READ + bytes(12), b"")] == [0xF7, 0x1D, 0xE3]
by_hand(COUNTS.pack() + HEAD.pack(T, 1, 1, 0) + HEAD.pack(T, 7, 2, 0),
        (AFTER, 2, three(at(0)), three(at(1))), (AFTER, 2, three(at(0)), three(at(2))), (BEFORE, 2, three(at(1)), three(at(2))))
# No book, its sizes alone, sizes cut: no position has an entry. Any two positions are two.
for nothing in (b"", b"\0", COUNTS.pack(), COUNTS.pack(1, 2, 3), COUNTS.pack(0xFFFF, 0xFFFF, 0xFFFFFFFF)):
    by_hand(nothing, (BEFORE, 6, three(at(0), at(1), at(2)), three(at(1), at(0), at(255))), (SAME, 0, three(at(9)), three(at(9))))
# Heads without bodies: the entries are zeros, as many as the heads say; 16 and more are the same.
ZEROS = b"".join(HEAD.pack(T, 1, n, 0) for n in (1, 1, 2, MAX_ENTRIES, MAX_ENTRIES + 1, 0xFFFF))
PRINTS = [hashlib.sha256(bytes(FINGERPRINTED.size * n)).digest() for n in (1, 2, MAX_ENTRIES)]
by_hand(COUNTS.pack(3, 3, 0) + ZEROS,
        (BEFORE, 2, three(at(0)), three(at(1))),
        (BEFORE if PRINTS[0] < PRINTS[1] else AFTER, 2, three(at(1)), three(at(2))),
        (BEFORE if PRINTS[1] < PRINTS[2] else AFTER, 2, three(at(2)), three(at(3))),
        (BEFORE, 6, three(at(3), at(4), at(3)), three(at(4), at(5), at(5))))


# ---- generated

MADE = 120          # books of each profile
SMALL = 1600        # bytes of a book
MANY = 400          # solutions
NEAR = 40           # neighbours of a list
DRAWN = 150         # pairs of a list, and as many with another
ENOUGH = 16         # kept pairs that show the same and take a fingerprint
FEWER = 4           # ... that take none
ALIKE = 4           # of one book


def shows(book, a, b):
    """What a pair has that is worth keeping: the count, what decides, and at which edges the positions differ."""
    order, digests = model.compare(book, a, b)
    one, other = ([RECORD_HEAD.unpack(r)[:2]] + [EDGE.unpack(r, RECORD_HEAD.size + EDGE.size * k) for k in range(layout.MAX_EDGES)] for r in (a, b))
    decides = "position"
    for k, (x, y) in enumerate(zip(one, other)):
        if k == 0 and x != y:
            decides = "head"
            break
        if k and (x.peer, x.shortcut) != (y.peer, y.shortcut):
            decides = "peer" if x.peer != y.peer else "shortcut", k
            break
        if k and model.fingerprint_at(book, x.position) != model.fingerprint_at(book, y.position):
            decides = "fingerprint", k
            break
    return order, digests, decides, tuple(x.position != y.position for x, y in zip(one[1:], other[1:]))


def lists(rng, given):
    """The records of a book's list and of that between two other ASes of it."""
    (src, dst), book = ENDS.unpack(given), given[ENDS.size:]
    ases = sorted({e.isd_as for s in layout.read(book) for e in s.entries})
    for ends in ((src, dst), rng.sample(ases, 2) if len(ases) > 1 else (src, dst)):
        found = model.solutions(book, *ends)
        yield [model.record(chain) for chain in found] if len(found) <= MANY else []


def chosen(rng, one, other):
    """Neighbours of a list, any two of it, and of it and the other."""
    pairs = list(zip(one, one[1:]))[:NEAR]
    pairs += [(rng.choice(one), rng.choice(found)) for found in (one, other) for _ in range(DRAWN if one and found else 0)]
    return [p if rng.random() < 0.5 else p[::-1] for p in dict.fromkeys(pairs)]


def generated():
    """From the smallest book up, of every profile, those that show something that few kept ones show."""
    made = {gen.make(SEED, k, profile)[1] for profile in gen.PROFILES for k in range(MADE)}
    seen, kept = Counter(), []
    for given in sorted(made, key=lambda c: (len(c), c)):
        book, rng = given[ENDS.size:], random.Random(f"{SEED}/{given.hex()}")
        if len(book) > SMALL or model.verdict(book):
            continue
        here, pairs = Counter(), []
        for a, b in chosen(rng, *lists(rng, given)):
            found = shows(book, a, b)
            if seen[found] + here[found] < (ENOUGH if found[1] else FEWER) and here[found] < ALIKE:
                here[found] += 1
                pairs.append((*found[:2], a, b))
        if pairs:
            seen.update(here)
            kept.append((book, pairs))
    return kept


# ---- any bytes

DAMAGED = 80        # books
TINY = 600          # bytes of one
TRIED = 12          # pairs of each


def any_book(rng, k):
    """A damaged book, or bytes of which most are small."""
    if k % 4 == 3:
        return bytes(rng.choice([0, 0, 0, 1, 2, rng.randrange(256)]) for _ in range(rng.choice([5, 12, 40, 200])))
    book = gen.make(f"{SEED} damaged", rng.randrange(1000), rng.choice(["copies", "reissued", "tiny"]))[1][ENDS.size:]
    return generate.damaged(rng, book) if book and k % 4 else book


def any_record(rng, positions):
    edges = [EDGE.pack(rng.choice(positions), rng.choice([0, 0, 1, 255]), rng.choice([0, 0, 1, 255]), rng.choice([0, 1, 7])) for _ in range(layout.MAX_EDGES)]
    return RECORD_HEAD.pack(rng.choice([0, 7, 0x700]), rng.choice([3, 3, 0, 255]), rng.choice([0, 9])) + b"".join(edges)


def like(rng, record, other):
    """A record with some positions of the other, and now and then another of its bytes."""
    places = range(RECORD_HEAD.size, RECORD_SIZE, EDGE.size)
    return bytes(y if rng.random() < (0.7 if k in places else 0.04) else x for k, (x, y) in enumerate(zip(record, other)))


def cut(rng, record):
    """As it is mostly; cut, or longer."""
    return record if rng.random() < 0.7 else (record + bytes(range(16)))[:rng.randint(0, 2 * RECORD_SIZE)]


def damaged():
    kept = []
    for k in range(DAMAGED):
        rng = random.Random(f"{SEED} damaged/{k}")
        book = any_book(rng, k)
        while not book or len(book) > TINY:
            book = any_book(rng, k)
        count = sum(COUNTS.unpack(book.ljust(COUNTS.size, b"\0"))[:2])
        # Those of the book, the first past it, and one further on.
        positions = [*range(min(count, 8)), min(count, 255), rng.choice([63, 64, 200, 255])]
        pairs = []
        for _ in range(TRIED):
            a, other = any_record(rng, positions), any_record(rng, positions)
            a, b = cut(rng, a), cut(rng, like(rng, a, other))
            pairs.append((*model.compare(book, a, b), a, b))
        kept.append((book, pairs))
    return kept


# ---- all

def held(found):
    """That the model answers what is there."""
    for book, pairs in found:
        for order, digests, a, b in pairs:
            assert model.compare(book, a, b) == (order, digests), (book.hex(), a.hex(), b.hex(), model.compare(book, a, b), order, digests)


def in_order():
    """That the model's comparison is the order of its lists, and counts the same both ways round."""
    books = list(generate.cases(SEED, 120))
    books += [(*ENDS.unpack(given), given[ENDS.size:]) for given in (gen.make(SEED, k, "reissued")[1] for k in range(30))]
    tried = Counter()
    for source, destination, book in books:
        records = [model.record(chain) for chain in model.solutions(book, source, destination)[:40]]
        for (p, a), (q, b) in product(enumerate(records), repeat=2):
            order, digests = model.compare(book, a, b)
            assert order == (p > q) - (p < q) and model.compare(book, b, a) == (-order, digests), (book.hex(), a.hex(), b.hex())
            tried[digests] += 1
    assert sorted(tried) == [0, 2, 4, 6], tried


def checked():
    """The bytes of every case of comparisons.bin, once all is held to the model."""
    held(HAND)
    in_order()
    found = stored()
    held((book, pairs) for _, book, pairs in found)
    return [data for data, _, _ in found]


def main():
    if sys.argv[1:] == ["--check"]:
        print(f"comparisons: {len(checked())} cases")
        return
    held(HAND)
    parts = {"by hand": HAND, "generated": generated(), "of any bytes": damaged()}
    for name, found in parts.items():
        counts = Counter(digests for _, pairs in found for _, digests, _, _ in pairs)
        print(f"{len(found)} books {name}, {counts.total()} pairs:", ", ".join(f"{counts[n]} with {n}" for n in sorted(counts)))
    kept = [form.compared(book, pairs) for found in parts.values() for book, pairs in found]
    with open(sys.argv[1], "wb") as f:
        f.write(b"".join(kept))
    print(f"{len(kept)} cases, {sum(map(len, kept))} bytes")


if __name__ == "__main__":
    main()
