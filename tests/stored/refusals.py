#!/usr/bin/env python3
"""Writes refusals.bin: books, records and output lengths that are refused, and neighbours that are not (README.md).

    refusals.py OUT

Each case has its number beside it, by docs/SPECIFICATION.md 9.2. `verdict` works out those about a book alone once more, in the order of tests
of 9.3 and 9.4, and must agree. Of the rest of the repository it needs the layout of the bytes alone.
"""
import sys

import form
from form import ASSEMBLY, LISTING
from booktext import layout
from booktext.layout import (COUNTS, CROWDED, CUT, ENTRY, FULL, HEAD, LIST_SIZE, LONG, MAX_BOOK, MAX_ENTRIES, MAX_PEERS, MAX_SEGMENTS, MAX_SOLUTIONS,
                             MISFIT, OVERSIZE, PATH_SIZE, PEER, PEERS, RECORD_SIZE, SMALL, STRANGER, SURPLUS, TWICE, head_place, solution)

A, B, X, Y = 0x0001FF0000000111, 0x0001FF0000000110, 0x0001FF0000000210, 0x0001FF0000000310
MAC = bytes.fromhex("010203040506")


def verdict(book):
    """The first that holds of: 3, 1 (the counts themselves), 4, 1, 2, 5 over all heads, 7 (the sum), bodies by position: of each 6 and 7, then 11."""
    if len(book) > MAX_BOOK:
        return OVERSIZE
    if len(book) < COUNTS.size:
        return CUT
    c, n, total = COUNTS.unpack(book)
    if c + n > MAX_SEGMENTS:
        return CROWDED
    at = head_place(c + n)
    if len(book) != at + total:
        return CUT if len(book) < at + total else SURPLUS
    heads = [HEAD.unpack(book, head_place(p)) for p in range(c + n)]
    if max([h.entry_count for h in heads], default=0) > MAX_ENTRIES:
        return LONG
    if sum(h.body_length for h in heads) != total:
        return MISFIT
    for h in heads:
        body, at, passed = book[at:at + h.body_length], at + h.body_length, set()
        for _ in range(h.entry_count):
            if len(body) < ENTRY.size:
                return MISFIT
            passed.add(body[:layout.AS_SIZE])
            peers, body = body[ENTRY.at.peer_count], body[ENTRY.size:]
            if peers > MAX_PEERS:
                return PEERS
            if len(body) < PEER.size * peers:
                return MISFIT
            body = body[PEER.size * peers:]
        if body:
            return MISFIT
        if len(passed) < h.entry_count:
            return TWICE
    return 0


def entry(as_, ingress=0, egress=0, peers=0, said=None):
    """An entry with `peers` peers, though it may say another number."""
    e = ENTRY.pack(isd_as=as_, mtu=1500, ingress=ingress, egress=egress, units=63, mac=MAC, peer_count=peers if said is None else said)
    return e + peers * PEER.pack(isd_as=Y, interface=1, mtu=1400, units=63, ingress=1, egress=1, mac=MAC)


def book(*segments, cores=0, noncores=None, total=None, heads=None):
    """Segments are (entry count, body); a count or length in the book may be said otherwise."""
    said = heads if heads is not None else [(n, len(body)) for n, body in segments]
    bodies = b"".join(body for _, body in segments)
    out = COUNTS.pack(cores, len(segments) - cores if noncores is None else noncores, len(bodies) if total is None else total)
    return out + b"".join(HEAD.pack(1000000, p, n, size) for p, (n, size) in enumerate(said)) + bodies


def seg(*entries):
    return len(entries), b"".join(entries)


def two(top, leaf, i=1):
    return seg(entry(top, 0, i), entry(leaf, i, 0))


WORKED = book(seg(entry(B, 0, 5), entry(A, 7, 0)))
AGAINST, ALONG = 0, layout.CONSTRUCTION
RECORD = solution(1, (0, 0, None, AGAINST))


def chains(ups, cores, downs):
    """ups × cores × downs chains from A to B."""
    segments = [two(Y, X, 1 + i) for i in range(cores)] + [two(X, A, 1 + i) for i in range(ups)] + [two(Y, B, 1 + i) for i in range(downs)]
    return book(*segments, cores=cores)


def sides(product):
    """Three numbers with this product, of the least sum."""
    most = range(1, MAX_SEGMENTS)
    return min(((a, b, product // (a * b)) for a in most for b in most if product % (a * b) == 0), key=sum)


CASES = []


def listing(number, b, out_len=LIST_SIZE, src=A, dst=B):
    CASES.append((src, dst, b, LISTING, out_len, b"", number))


def assembly(number, b, record=RECORD, out_len=PATH_SIZE, src=A, dst=B):
    CASES.append((src, dst, b, ASSEMBLY, out_len, record, number))


def both(number, b):
    """An answer about the book alone is given by listing and by assembly, before 8, 9 and 10."""
    assert verdict(b) == number, (verdict(b), number)
    listing(number, b)
    if number and len(b) < 1000:
        listing(number, b, 0)
        assembly(number, b, b"", 0)


# 1 Cut
for n in (0, 1, COUNTS.size - 1):
    both(CUT, bytes(n))
both(0, bytes(COUNTS.size))
for n in (COUNTS.size, head_place(1) - 1, head_place(1), len(WORKED) - 1):
    both(CUT, WORKED[:n])
both(0, WORKED)
both(CUT, book(total=1))
both(CUT, book(total=COUNTS.of.bodies.most))
HEADS = HEAD.size * MAX_SEGMENTS
both(CUT, book(cores=MAX_SEGMENTS, noncores=0)[:COUNTS.size])
both(CUT, book(cores=0, noncores=MAX_SEGMENTS) + bytes(HEADS - 1))
# 2 Surplus
both(SURPLUS, bytes(COUNTS.size + 1))
both(SURPLUS, WORKED + b"\0")
both(SURPLUS, bytes(MAX_BOOK))
both(SURPLUS, book(cores=0, noncores=MAX_SEGMENTS) + bytes(HEADS + 1))
# 3 Oversize, before all others
both(OVERSIZE, bytes(MAX_BOOK + 1))
# 4 Crowded, before Cut by the sum, Surplus and what is below
MANY, HALF = MAX_SEGMENTS + 1, MAX_SEGMENTS // 2
both(CROWDED, book(cores=MANY, noncores=0))
both(CROWDED, book(cores=0, noncores=MANY))
both(CROWDED, book(cores=HALF, noncores=HALF + 1))
both(CROWDED, book(cores=COUNTS.of.cores.most, noncores=COUNTS.of.non_cores.most, total=COUNTS.of.bodies.most))
both(CROWDED, book(cores=1, noncores=MAX_SEGMENTS) + bytes(HEADS + HEAD.size))
both(0, book(cores=HALF, noncores=HALF) + bytes(HEADS))
both(0, book(cores=MAX_SEGMENTS, noncores=0) + bytes(HEADS))
# 5 Long, over all heads before the sum and the bodies
MANY = MAX_ENTRIES + 1
full = [entry(X + i, 1, 1) for i in range(MANY)]
both(0, book(seg(*full[:MAX_ENTRIES])))
both(LONG, book(seg(*full)))
both(LONG, book((MANY, b"")))
both(LONG, book((HEAD.of.entry_count.most, b"")))
both(LONG, book(seg(entry(A, said=MAX_PEERS + 1)), (MANY, b"")))
both(LONG, book((0, b"x"), (MANY, b""), heads=[(0, 0), (MANY, 0)]))
# 6 Peers
MANY = MAX_PEERS + 1
both(0, book(seg(entry(A, peers=MAX_PEERS))))
both(PEERS, book(seg(entry(A, peers=MANY))))
both(PEERS, book(seg(entry(A, said=MANY))))
both(PEERS, book(seg(entry(A, said=ENTRY.of.peer_count.most))))
both(PEERS, book(seg(entry(B), entry(A, said=MANY))))
both(PEERS, book(seg(entry(A, said=MANY)), (1, b"")))
both(PEERS, book(seg(entry(X, peers=1), entry(A, said=MANY + 1)), cores=1))
# 7 Misfit: the sum
FIT, LESS, MORE = (1, ENTRY.size), (1, ENTRY.size - 1), (1, ENTRY.size + 1)
both(MISFIT, book(seg(entry(A)), heads=[LESS]))
both(MISFIT, book(seg(entry(A)), heads=[MORE]))
both(MISFIT, book(seg(entry(A, said=MANY)), heads=[MORE]))
both(MISFIT, book(seg(entry(A)), seg(entry(B)), heads=[FIT, LESS]))
# 7 Misfit: a body
both(MISFIT, book((1, b"")))
both(MISFIT, book((1, entry(A)[:-1])))
both(MISFIT, book((1, entry(A) + b"\0")))
both(MISFIT, book((0, b"\0")))
both(MISFIT, book((2, entry(A))))
both(MISFIT, book((1, entry(B) + entry(A))))
both(MISFIT, book(seg(entry(A, said=1))))
both(MISFIT, book(seg(entry(A, peers=2, said=1))))
both(MISFIT, book(seg(entry(A, peers=1, said=2))))
both(MISFIT, book((1, entry(A, peers=1)[:-1])))
both(MISFIT, book(seg(entry(A)), seg(entry(B)), heads=[MORE, LESS]))
both(MISFIT, book((1, b""), seg(entry(A, said=MANY))))
both(0, book((0, b""), seg(entry(A))))
# 11 Twice, of cores and non-cores: neighbours, the two ends, between others, above the leaf, the leaf's again; with peers between them
def passing(*ases, peers=0):
    return seg(*(entry(a, 1, 2, peers) for a in ases))


for cores in (0, 1):
    for ases in ((A, A), (A, X, A), (A, A, B), (B, A, A), (B, X, A, X, Y), (B, X, Y, A, X), (X, B, Y, A, X), (0, 0), (B, 0, A, 0), 3 * (A,), (A, B, A, B),
                 2 * (ENTRY.of.isd_as.most,)):
        both(TWICE, book(passing(*ases), cores=cores))
    both(TWICE, book(passing(A, X, A, peers=MAX_PEERS), cores=cores))
    both(TWICE, book(seg(entry(X, peers=2), entry(A), entry(B, peers=1), entry(X, peers=MAX_PEERS)), cores=cores))
both(TWICE, book(passing(B, A), passing(B, X, B), cores=1))
both(TWICE, book((0, b""), passing(B, A), passing(B, X, B), passing(X, X)))
# ... of the most entries: at the two ends, beside each other, apart; of ASes alike in their last bits too
FAR = [X + 0x40 * i for i in range(MAX_ENTRIES)]
for ases in ([X + i for i in range(MAX_ENTRIES)], FAR):
    both(0, book(passing(*ases)))
    last = MAX_ENTRIES - 1
    for i, j in ((0, last), (0, 1), (last - 1, last), (1, last), (0, last - 1), (3, 12), (7, 8)):
        both(TWICE, book(passing(*ases[:j], ases[i], *ases[j + 1:])))
both(TWICE, book(passing(*FAR[:-1], FAR[0], peers=MAX_PEERS), cores=1))
# ... and what is none: another ISD, another bit anywhere, one AS number in as many ISDs as a segment has entries
for bit in range(8 * layout.AS_SIZE):
    both(0, book(passing(A, A ^ 1 << bit)))
both(0, book(passing(*(A + (i << 48) for i in range(MAX_ENTRIES)))))
both(TWICE, book(passing(*(A + (i << 48) for i in range(MAX_ENTRIES - 1)), A)))
# ... one AS in two segments, equal ones and of both kinds; the ASes of peers; a core of one entry
both(0, book(passing(B, A), passing(B, A), passing(A, B), passing(A), passing(A), cores=1))
both(0, book(passing(A), passing(A), cores=2))
both(0, book(seg(entry(Y, peers=MAX_PEERS), entry(A, peers=1))))
both(0, book(seg(entry(A)), cores=1))
# ... the order: the counts and lengths, 5 over all heads, the sum
REPEAT = passing(A, X, A)
REPEATED = book(REPEAT)
both(CUT, REPEATED[:-1])
both(SURPLUS, REPEATED + b"\0")
both(CROWDED, book(REPEAT, *MAX_SEGMENTS * [(0, b"")]))
both(TWICE, book(REPEAT, *(MAX_SEGMENTS - 1) * [(0, b"")]))
both(TWICE, book(*(MAX_SEGMENTS - 1) * [(0, b"")], REPEAT, cores=3))
both(LONG, book(REPEAT, (MAX_ENTRIES + 1, b"")))
both(LONG, book((MAX_ENTRIES + 1, b""), REPEAT))
both(LONG, book(passing(*FAR, A, A)))
both(MISFIT, book(REPEAT, heads=[(3, len(REPEAT[1]) + 1)]))
both(MISFIT, book(REPEAT, seg(entry(B)), heads=[(3, len(REPEAT[1])), LESS]))
both(MISFIT, book(seg(entry(B)), REPEAT, heads=[MORE, (3, len(REPEAT[1]))]))
# ... its own body's 6 and 7, wherever they stand in it
both(PEERS, book(seg(entry(A), entry(A, said=MANY))))
both(PEERS, book(seg(entry(A, said=MANY), entry(A))))
both(PEERS, book(seg(entry(A), entry(A), entry(X, said=MANY))))
both(PEERS, book(seg(entry(A), entry(A), entry(X, said=MANY)), cores=1))
both(MISFIT, book((3, entry(A) + entry(A))))
both(MISFIT, book((2, entry(A) + entry(A) + b"\0")))
both(MISFIT, book((2, entry(A) + entry(A)[:-1])))
both(MISFIT, book((2, entry(A) + entry(A) + entry(X))))
both(MISFIT, book(seg(entry(A), entry(A), entry(X, said=1))))
both(MISFIT, book((2, entry(A) + entry(A) + b"\0"), cores=1))
# ... before a later body's, after an earlier body's
for cores in range(4):
    both(TWICE, book(REPEAT, seg(entry(B, said=MANY)), cores=min(cores, 2)))
    both(TWICE, book(REPEAT, (1, b""), cores=min(cores, 2)))
    both(TWICE, book(REPEAT, (1, entry(B) + b"\0"), REPEAT, cores=cores))
    both(TWICE, book(seg(entry(B)), REPEAT, seg(entry(B, said=MANY)), cores=cores))
    both(PEERS, book(seg(entry(B, said=MANY)), REPEAT, cores=min(cores, 2)))
    both(MISFIT, book((1, b""), REPEAT, cores=min(cores, 2)))
    both(MISFIT, book((0, b"\0"), REPEAT, (1, b""), cores=cores))
    both(MISFIT, book(seg(entry(B)), (1, entry(B) + b"\0"), REPEAT, cores=cores))
both(MISFIT, book((1, entry(B) + b"\0"), REPEAT, seg(entry(B, said=MANY))))
both(PEERS, book(seg(entry(B, said=MANY)), REPEAT, (1, b"")))
# ... whatever the ends and the record
for src, dst in ((A, A), (B, A), (Y, X)):
    listing(TWICE, REPEATED, src=src, dst=dst)
assembly(TWICE, REPEATED)
assembly(TWICE, REPEATED, b"\xff" * RECORD_SIZE)
# 8 Full: one solution and no slot, one slot; all slots and more
for n in (0, 1, RECORD_SIZE - 1):
    listing(FULL, WORKED, n)
for n in (RECORD_SIZE, RECORD_SIZE + 1, 2 * RECORD_SIZE - 1, 2 * RECORD_SIZE):
    listing(0, WORKED, n)
for n in (0, RECORD_SIZE - 1):
    listing(0, WORKED, n, src=X)          # no solution needs no slot
    listing(0, WORKED, n, src=B)          # equal ends
listing(FULL, chains(2, 2, 2), 8 * RECORD_SIZE - 1)
listing(0, chains(2, 2, 2), 8 * RECORD_SIZE)
UPS, MIDDLE, DOWNS = sides(MAX_SOLUTIONS)
listing(0, chains(UPS, MIDDLE, DOWNS), LIST_SIZE)
listing(FULL, chains(UPS, MIDDLE, DOWNS), LIST_SIZE - 1)
listing(FULL, chains(UPS + 1, MIDDLE, DOWNS), LIST_SIZE)
listing(FULL, chains(UPS + 1, MIDDLE, DOWNS), 2 * LIST_SIZE)
# 9 Small, before Stranger
for n in (0, 1, PATH_SIZE - 1):
    assembly(SMALL, WORKED, out_len=n)
    assembly(SMALL, WORKED, bytes(RECORD_SIZE), n)
    assembly(SMALL, WORKED, b"", n)
for n in (PATH_SIZE, PATH_SIZE + 1, 4096):
    assembly(0, WORKED, out_len=n)
# 10 Stranger: another length
for n in (0, 1, RECORD_SIZE - 1):
    assembly(STRANGER, WORKED, RECORD[:n])
for n in (RECORD_SIZE + 1, 2 * RECORD_SIZE):
    assembly(STRANGER, WORKED, RECORD.ljust(n, b"\0"))
# ... a byte changed, each in turn
for at in range(RECORD_SIZE):
    for by in (1, 2, 128):
        assembly(STRANGER, WORKED, RECORD[:at] + bytes([RECORD[at] ^ by]) + RECORD[at + 1:])
assembly(STRANGER, WORKED, bytes(RECORD_SIZE))
assembly(STRANGER, WORKED, b"\xff" * RECORD_SIZE)
# ... of another source or destination, of equal ends, of an empty book
assembly(STRANGER, WORKED, src=B, dst=A)
assembly(STRANGER, WORKED, src=X)
assembly(STRANGER, WORKED, dst=X)
assembly(STRANGER, WORKED, src=A, dst=A)
assembly(STRANGER, WORKED, src=B, dst=B)
assembly(STRANGER, bytes(COUNTS.size))
# ... the second of equal segments; the first is none
COUNT, BODY = seg(entry(B, 0, 5), entry(A, 7, 0))
EQUAL = COUNTS.pack(0, 2, 2 * len(BODY)) + 2 * HEAD.pack(1000000, 0, COUNT, len(BODY)) + 2 * BODY
listing(0, EQUAL, RECORD_SIZE)
assembly(0, EQUAL)
assembly(STRANGER, EQUAL, solution(1, (1, 0, None, AGAINST)))
# ... two cores; a chain past the destination; Full does not make a chain a stranger
CORES = book(two(A, X), two(X, B), cores=2)
listing(0, CORES, 0)
assembly(STRANGER, CORES, solution(2, (0, 0, None, ALONG), (1, 0, None, ALONG)))
LARGE = chains(UPS + 1, MIDDLE, DOWNS)
FIRST_UP, FIRST_DOWN = MIDDLE, MIDDLE + UPS + 1


def three(up, core, down):
    return solution(3, (up, 0, None, AGAINST), (core, 0, None, AGAINST), (down, 0, None, ALONG))


assembly(0, LARGE, three(FIRST_UP, 0, FIRST_DOWN))
assembly(0, LARGE, three(FIRST_DOWN - 1, MIDDLE - 1, FIRST_DOWN + DOWNS - 1))
assembly(STRANGER, LARGE, three(FIRST_DOWN, MIDDLE - 1, FIRST_DOWN + DOWNS - 1))


def main():
    numbers = {}
    with open(sys.argv[1], "wb") as f:
        for src, dst, b, call, out_len, record, number in CASES:
            assert verdict(b) == (0 if number in (FULL, SMALL, STRANGER) else number)
            f.write(form.called(form.given(src, dst, b), call, out_len, record, number))
            numbers[number] = numbers.get(number, 0) + 1
    print(f"{len(CASES)} cases by number: {dict(sorted(numbers.items()))}")


if __name__ == "__main__":
    main()
