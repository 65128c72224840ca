#!/usr/bin/env python3
"""Cases that the specification settles by number, and books on which four mistakes would show. join.py stores them.

Books and what is expected were written by hand from it, numbers with their working beside them: they stand as they are, not by name. The functions
here only lay bytes out. `checked` holds each case to tests/model.py. Run as a program it does only that.
"""
import os
import sys

import form
from form import ASSEMBLY, LISTING

sys.path.insert(0, os.path.join(form.HERE, ".."))
import model  # noqa: E402
from booktext import layout  # noqa: E402
from booktext.layout import BARE, CROWDED, CUT, FULL, LONG, LOOP, PATH, SMALL, STRANGER  # noqa: E402

A, B, C, D = 0x0001FF0000000111, 0x0001FF0000000110, 0x0001FF0000000112, 0x0001FF0000000113
AGAINST, ALONG, PEERING = 0, layout.CONSTRUCTION, layout.PEERING       # flags of an info; the first two are a record's directions too


# ---- what a book and an answer are put together from

def peer(isd_as, interface, mtu, units, ingress, egress, mac):
    return layout.Peer(isd_as, interface, mtu, units, ingress, egress, bytes.fromhex(mac))


def entry(isd_as, mtu, ingress_mtu, ingress, egress, units, mac, *peers):
    return layout.Entry(isd_as, mtu, ingress_mtu, ingress, egress, units, bytes.fromhex(mac), peers=list(peers))


def segment(timestamp, ident, *entries):
    return layout.Segment(timestamp, ident, list(entries))


def hop(units, ingress, egress, mac):
    return units, ingress, egress, bytes.fromhex(mac)


book, record, path = layout.book, layout.solution, layout.path


# ---- cases, each with its tag in front and what it says beside it

def solved(src, dst, b, *solutions):
    """Solutions are (record, path bytes or LOOP or BARE), in order."""
    found = [(r, p, b"") if isinstance(p, int) else (r, PATH, p) for r, p in solutions]
    return bytes([form.ANSWERED]) + form.answered(form.given(src, dst, b), found), ("solved", src, dst, b, solutions)


def refused(number, src, dst, b, call, room, given_record=b""):
    """Number 0 where the call is not refused."""
    out = bytes([form.CALLED]) + form.called(form.given(src, dst, b), call, room, given_record, number)
    return out, ("refused", number, src, dst, b, call, room, given_record)


def refused_by_both(number, src, dst, b):
    """An answer about the book alone, with and without room, whatever the record."""
    return [refused(number, src, dst, b, LISTING, layout.LIST_SIZE), refused(number, src, dst, b, LISTING, 0),
            refused(number, src, dst, b, ASSEMBLY, layout.PATH_SIZE, WORKED_RECORD), refused(number, src, dst, b, ASSEMBLY, 0)]


BENCH = {}      # label: its cases


# ---- the printed list

def worked(timestamp=1000000, mtu=1500, units=63, peers=()):
    """The segment of the worked example, from B down to A."""
    return segment(timestamp, 0x1234, entry(B, mtu, 0, 0, 5, units, "010203040506", *peers),
                   entry(A, 1400, 1350, 7, 0, 63, "0a0b0c0d0e0f"))


WORKED = book([], [worked()])
# One entry above the leaf: cost 1. The shortcut is entry 0.
WORKED_RECORD = record(1, (0, 0, None, AGAINST))
# MTU: least of 1350, 1400 at A and 1500 at B, whose ingress MTU is 0. Expiry: 1000000 + floor(64 × 675 / 2) = 1000000 + 21600.
# Id: 1234 xor 0102 = 1336, over the entries below the leaf.
WORKED_PATH = path(1350, 1021600, [(AGAINST, 2, 0x1336, 1000000)], [hop(63, 7, 0, "0a0b0c0d0e0f"), hop(63, 0, 5, "010203040506")],
                   [(A, 7), (B, 5)])

BENCH["8 zero bytes"] = [solved(A, B, bytes(8))]

BENCH["7 bytes"] = refused_by_both(CUT, A, B, bytes(7))

BENCH["8 bytes with C 65"] = refused_by_both(CROWDED, A, B, bytes.fromhex("0041 0000 00000000"))


# ---- limits

# 64 segments from B to A that differ only in their ids, which are their positions. Fingerprints are equal, so positions decide.
# Id of the path: position xor 0100 = 256 + position. Expiry: 1000000 + floor(64 × 675 / 2) = 1021600.
MANY = [segment(1000000, q, entry(B, 1500, 0, 0, 5, 63, "010003040506"), entry(A, 1400, 1350, 7, 0, 63, "0a0b0c0d0e0f")) for q in range(64)]
MANY_FOUND = [(record(1, (q, 0, None, AGAINST)),
               path(1350, 1021600, [(AGAINST, 2, 256 + q, 1000000)], [hop(63, 7, 0, "0a0b0c0d0e0f"), hop(63, 0, 5, "010003040506")],
                    [(A, 7), (B, 5)])) for q in range(64)]
EMPTY = segment(0, 0)
BENCH["C + N = 64"] = [
    solved(A, B, book([], MANY), *MANY_FOUND),
    solved(A, B, book(MANY, []), *MANY_FOUND),          # one edge of any kind
    solved(A, B, book([EMPTY] * 32, [EMPTY] * 31 + [worked()]), (record(1, (63, 0, None, AGAINST)), WORKED_PATH)),
    *refused_by_both(CROWDED, A, B, book(MANY, [worked()])),
    *refused_by_both(CROWDED, A, B, book([EMPTY] * 32, [EMPTY] * 33)),
]


# Entry i of a segment of the most entries: AS i + 1, ingress 100 + i (0 at the first), egress 200 + i (0 at the last), ingress MTU 1500 + i
# (0 at the first), units 100 − i, and a MAC that starts with bit i, so that the fold over the entries below k sets the bits below k.
MOST = layout.MAX_ENTRIES
LEAF = MOST - 1


def long_entry(i, n):
    return entry(i + 1, 1600, 1500 + i if i else 0, 100 + i if i else 0, 200 + i if i < n - 1 else 0, 100 - i, f"{1 << i % 16:04x}03040506")


def long_hop(i):
    return hop(100 - i, 100 + i if i else 0, 200 + i if i < LEAF else 0, f"{1 << i:04x}03040506")


def long_interfaces(i):
    """Of an entry between the ends, egress before ingress."""
    return [(i + 1, 200 + i), (i + 1, 100 + i)]


LONGEST = book([], [segment(1000000, 0x8000, *[long_entry(i, MOST) for i in range(MOST)])])
LONGER = book([], [segment(1000000, 0x8000, *[long_entry(i, MOST + 1) for i in range(MOST + 1)])])
DOWN = list(range(LEAF, -1, -1))
ALL_INTERFACES = [(MOST, 100 + LEAF)] + [x for i in DOWN[1:LEAF] for x in long_interfaces(i)] + [(1, 200)]
# The least units are those of the leaf. Of 16 entries: floor(86 × 675 / 2) = 29025.
EXPIRY = 1000000 + (100 - LEAF + 1) * 675 // 2
# Against construction the bits below the leaf. Of 16 entries: 8000 xor 7fff = ffff.
FOLDED = 0x8000 ^ ((1 << LEAF) - 1)
# Shortcut at entry 7, which shows its egress alone.
SHORTCUT, HOPS = 7, MOST - 7
SHORT_INTERFACES = [(MOST, 100 + LEAF)] + [x for i in DOWN[1:LEAF - SHORTCUT] for x in long_interfaces(i)] + [(8, 207)]
BENCH[f"{MOST} entries pass, {MOST + 1} are refused"] = [
    # MTU: ingress MTU of entry 1.
    solved(MOST, 1, LONGEST, (record(LEAF, (0, 0, None, AGAINST)),
                              path(1501, EXPIRY, [(AGAINST, MOST, FOLDED, 1000000)], [long_hop(i) for i in DOWN], ALL_INTERFACES))),
    # In construction direction no MAC is folded in.
    solved(1, MOST, LONGEST, (record(LEAF, (0, 0, None, ALONG)),
                              path(1501, EXPIRY, [(ALONG, MOST, 0x8000, 1000000)], [long_hop(i) for i in DOWN[::-1]], ALL_INTERFACES[::-1]))),
    # The ingress MTU of entry 7 does not count: 1508 of entry 8.
    solved(MOST, 8, LONGEST, (record(LEAF - SHORTCUT, (0, SHORTCUT, None, AGAINST)),
                              path(1508, EXPIRY, [(AGAINST, HOPS, FOLDED, 1000000)], [long_hop(i) for i in DOWN[:HOPS]], SHORT_INTERFACES))),
    # The same way back: the bits below 7, 8000 xor 007f = 807f.
    solved(8, MOST, LONGEST, (record(LEAF - SHORTCUT, (0, SHORTCUT, None, ALONG)),
                              path(1508, EXPIRY, [(ALONG, HOPS, 0x807F, 1000000)], [long_hop(i) for i in DOWN[:HOPS]][::-1], SHORT_INTERFACES[::-1]))),
    *refused_by_both(LONG, MOST, 1, LONGER),
]


# ---- the list, and its ends reversed

BENCH["the list"] = [solved(A, B, WORKED, (WORKED_RECORD, WORKED_PATH))]

# Id 1234: k is the shortcut, 0, and nothing lies below it. Hops and interfaces run the other way.
BENCH["reversed ends"] = [
    solved(B, A, WORKED, (record(1, (0, 0, None, ALONG)),
                          path(1350, 1021600, [(ALONG, 2, 0x1234, 1000000)], [hop(63, 0, 5, "010203040506"), hop(63, 7, 0, "0a0b0c0d0e0f")],
                               [(B, 5), (A, 7)])))]


# ---- peers

# C's interface 2 meets B's interface 9. From C its one-entry segment leads to the peering end, 1 − 0 = 1; the list's segment leads
# from there to A, 2 − 1 − 0 = 1: cost 2. Ids: 5555 xor 0101 = 5454, C's own MAC; k = 0 + 1: 1234 xor 0102 = 1336.
# MTU: least of 1450, 1600 at C, 1320, 1500 at B, 1350, 1400 at A. Expiry: 1007087, the lesser of 2000000 + floor(11 × 675 / 2)
# = 2003712 and 1000000 + floor(21 × 675 / 2) = 1007087.
PEERED = book([], [worked(peers=[peer(C, 2, 1320, 20, 9, 5, "f1f2f3f4f5f6")]),
                   segment(2000000, 0x5555, entry(C, 1600, 0, 0, 0, 63, "010103040506", peer(B, 9, 1450, 10, 2, 0, "e1e2e3e4e5e6")))])
BENCH["entry 0 given a peer, used in construction direction"] = [
    solved(C, A, PEERED, (record(2, (1, 0, 0, AGAINST), (0, 0, 0, ALONG)),
                          path(1320, 1007087, [(AGAINST + PEERING, 1, 0x5454, 2000000), (ALONG + PEERING, 2, 0x1336, 1000000)],
                               [hop(10, 2, 0, "e1e2e3e4e5e6"), hop(20, 9, 5, "f1f2f3f4f5f6"), hop(63, 7, 0, "0a0b0c0d0e0f")],
                               [(C, 2), (B, 9), (B, 5), (A, 7)])))]

# A's interface 3 meets D's interface 4, and each has a segment of its own entry. Up 1 − 0 = 1, down 1 − 1 − 0 = 0: cost 1.
# Ids: 4321 xor 0a0b = 492a, 8765 xor 0c0d = 8b68. MTU: A's AS MTU, 1400. Expiry: 1000000 + floor(41 × 675 / 2) = 1013837.
BENCH["a one-entry segment against construction through its peer"] = [
    solved(A, D, book([], [segment(1000000, 0x4321, entry(A, 1400, 1000, 0, 0, 1, "0a0b0c0d0e0f", peer(D, 4, 1500, 40, 3, 0, "f1f2f3f4f5f6"))),
                           segment(1000000, 0x8765, entry(D, 1450, 1000, 0, 0, 1, "0c0d0e0f0102", peer(A, 3, 1500, 50, 4, 0, "e1e2e3e4e5e6")))]),
           (record(1, (0, 0, 0, AGAINST), (1, 0, 0, ALONG)),
            path(1400, 1013837, [(AGAINST + PEERING, 1, 0x492A, 1000000), (ALONG + PEERING, 1, 0x8B68, 1000000)],
                 [hop(40, 3, 0, "f1f2f3f4f5f6"), hop(50, 4, 0, "e1e2e3e4e5e6")], [(A, 3), (D, 4)])))]


# ---- expiry

def lived(units, timestamp, expiry):
    """The list's segment with other units at B and 255 at A."""
    b = book([], [segment(timestamp, 0x1234, entry(B, 1500, 0, 0, 5, units, "010203040506"), entry(A, 1400, 1350, 7, 0, 255, "0a0b0c0d0e0f"))])
    return solved(A, B, b, (WORKED_RECORD, path(1350, expiry, [(AGAINST, 2, 0x1336, timestamp)],
                                                [hop(255, 7, 0, "0a0b0c0d0e0f"), hop(units, 0, 5, "010203040506")], [(A, 7), (B, 5)])))


# floor(1 × 675 / 2) = 337, floor(2 × 675 / 2) = 675, floor(256 × 675 / 2) = 86400.
BENCH["units 0, 1, 255"] = [lived(0, 0, 337), lived(1, 0, 675), lived(255, 0, 86400)]
# The last second; 337 before it the sum is just that, 338 before it one less.
BENCH["timestamp 4294967295"] = [lived(63, 4294967295, 4294967295), lived(0, 4294966958, 4294967295), lived(0, 4294966957, 4294967294)]


# ---- two cores

CORES = book([segment(1000000, 1, entry(A, 1500, 0, 0, 1, 63, "010203040506"), entry(B, 1500, 1400, 2, 0, 63, "020203040506")),
              segment(1000000, 2, entry(B, 1500, 0, 0, 3, 63, "030203040506"), entry(C, 1500, 1400, 4, 0, 63, "040203040506"))], [])
BENCH["core A-B and core B-C"] = [
    solved(A, C, CORES),
    solved(C, A, CORES),
    # Each alone is a path; A is the first AS, so to B it is in construction direction. Expiry: 1000000 + 21600.
    solved(A, B, CORES, (record(1, (0, 0, None, ALONG)),
                         path(1400, 1021600, [(ALONG, 2, 1, 1000000)], [hop(63, 0, 1, "010203040506"), hop(63, 2, 0, "020203040506")],
                              [(A, 1), (B, 2)]))),
    # Against it: 0002 xor 0302 = 0300.
    solved(C, B, CORES, (record(1, (1, 0, None, AGAINST)),
                         path(1400, 1021600, [(AGAINST, 2, 0x0300, 1000000)], [hop(63, 4, 0, "040203040506"), hop(63, 0, 3, "030203040506")],
                              [(C, 4), (B, 3)]))),
]


# ---- MTU

# 70000 − 65536 = 4464, below 9000; ingress MTUs are 0.
BENCH["AS MTU 70000"] = [
    solved(A, B, book([], [segment(1000000, 0x1234, entry(B, 70000, 0, 0, 5, 63, "010203040506"), entry(A, 9000, 0, 7, 0, 63, "0a0b0c0d0e0f"))]),
           (WORKED_RECORD, path(4464, 1021600, [(AGAINST, 2, 0x1336, 1000000)],
                                [hop(63, 7, 0, "0a0b0c0d0e0f"), hop(63, 0, 5, "010203040506")], [(A, 7), (B, 5)])))]


# ---- slots

# A call that is not refused is held to the one with every slot, which is the first case.
BENCH["one solution, no slot or one"] = [
    solved(A, B, WORKED, (WORKED_RECORD, WORKED_PATH)),
    refused(FULL, A, B, WORKED, LISTING, 0),
    refused(FULL, A, B, WORKED, LISTING, layout.RECORD_SIZE - 1),
    refused(0, A, B, WORKED, LISTING, layout.RECORD_SIZE),
    refused(0, A, B, WORKED, LISTING, 2 * layout.RECORD_SIZE - 1),
]


# ---- Loop

def meeting(ingress):
    """A and C below B; B's entry above C has an ingress, which is shown at the shortcut 0."""
    return book([], [segment(1000000, 0x1111, entry(B, 1500, 0, 0, 1, 63, "010203040506"), entry(A, 1500, 0, 1, 0, 63, "020203040506")),
                     segment(1000000, 0x2222, entry(B, 1500, 0, ingress, 2, 63, "030203040506"), entry(C, 1500, 0, 1, 0, 63, "040203040506"))])


# 1 + 1 = 2.
MEETING_RECORD = record(2, (0, 0, None, AGAINST), (1, 0, None, ALONG))
BENCH["an AS at three interfaces, at two"] = [
    solved(A, C, meeting(3), (MEETING_RECORD, LOOP)),      # B at 1, 3 and 2
    # 1111 xor 0102 = 1013.
    solved(A, C, meeting(0), (MEETING_RECORD,
                              path(1500, 1021600, [(AGAINST, 2, 0x1013, 1000000), (ALONG, 2, 0x2222, 1000000)],
                                   [hop(63, 1, 0, "020203040506"), hop(63, 0, 1, "010203040506"),
                                    hop(63, 0, 2, "030203040506"), hop(63, 1, 0, "040203040506")],
                                   [(A, 1), (B, 1), (B, 2), (C, 1)]))),
]


# ---- mistakes

# A has a peering link to C, below D. A's entry is the leaf: up 2 − 1 = 1, k = 1 + 1. C's entry is in the middle: down 3 − 1 − 1 = 1,
# k = 1 + 1. Ids: 1000 xor 0101 xor 0202 = 1303, 2000 xor 0404 xor 0808 = 2c0c. With the peers' MACs they would be
# 1000 xor 0101 xor f1f1 = e0f0 and 2000 xor 0404 xor e1e1 = c5e5. Expiry: 1000000 + 21600.
BENCH["the peer's MAC folded"] = [
    solved(A, 9, book([], [segment(1000000, 0x1000, entry(B, 1500, 0, 0, 1, 63, "010103040506"),
                                   entry(A, 1500, 0, 2, 0, 63, "020203040506", peer(C, 6, 1500, 63, 5, 0, "f1f103040506"))),
                           segment(1000000, 0x2000, entry(D, 1500, 0, 0, 3, 63, "040403040506"),
                                   entry(C, 1500, 0, 4, 7, 63, "080803040506", peer(A, 5, 1500, 63, 6, 7, "e1e103040506")),
                                   entry(9, 1500, 0, 8, 0, 63, "101003040506"))]),
           (record(2, (0, 1, 0, AGAINST), (1, 1, 0, ALONG)),
            path(1500, 1021600, [(AGAINST + PEERING, 1, 0x1303, 1000000), (ALONG + PEERING, 2, 0x2C0C, 1000000)],
                 [hop(63, 5, 0, "f1f103040506"), hop(63, 6, 7, "e1e103040506"), hop(63, 8, 0, "101003040506")],
                 [(A, 5), (C, 6), (C, 7), (9, 8)])))]

# D above B above A. B's ingress MTU, 1000, is that of the link to D, which a path that ends at B does not use: 1350, A's.
# Ids: against construction 1234 xor 0101 xor 0202 = 1137, over both entries below A; along it 1234 xor 0101 = 1335.
SHORT = book([], [segment(1000000, 0x1234, entry(D, 1500, 0, 0, 3, 63, "010103040506"), entry(B, 1500, 1000, 4, 5, 63, "020203040506"),
                          entry(A, 1400, 1350, 7, 0, 63, "040403040506"))])
BENCH["ingress MTU at a shortcut"] = [
    solved(A, B, SHORT, (record(1, (0, 1, None, AGAINST)),
                         path(1350, 1021600, [(AGAINST, 2, 0x1137, 1000000)], [hop(63, 7, 0, "040403040506"), hop(63, 4, 5, "020203040506")],
                              [(A, 7), (B, 5)]))),
    solved(B, A, SHORT, (record(1, (0, 1, None, ALONG)),
                         path(1350, 1021600, [(ALONG, 2, 0x1335, 1000000)], [hop(63, 4, 5, "020203040506"), hop(63, 7, 0, "040403040506")],
                              [(B, 5), (A, 7)]))),
    # To D the link is used, and 1000 counts.
    solved(A, D, SHORT, (record(2, (0, 0, None, AGAINST)),
                         path(1000, 1021600, [(AGAINST, 3, 0x1137, 1000000)],
                              [hop(63, 7, 0, "040403040506"), hop(63, 4, 5, "020203040506"), hop(63, 0, 3, "010103040506")],
                              [(A, 7), (B, 5), (B, 4), (D, 3)]))),
]

# From A the first edge arrives at B. Past it B to C by the core segment and C to B by the last would be a chain of three of the
# allowed kinds. From B the way over C and B to A is one: passing the source again is no arrival. B is then shown three times.
ONWARD = book([segment(1000000, 0x0A0A, entry(B, 1500, 0, 0, 1, 63, "010103040506"), entry(C, 1500, 0, 2, 0, 63, "020203040506"))],
              [worked(), segment(1000000, 0x0B0B, entry(B, 1500, 0, 0, 3, 63, "040403040506"), entry(C, 1500, 0, 4, 0, 63, "080803040506"))])
BENCH["past the destination"] = [
    solved(A, B, ONWARD, (record(1, (1, 0, None, AGAINST)), WORKED_PATH)),
    solved(B, A, ONWARD,
           (record(1, (1, 0, None, ALONG)),
            path(1350, 1021600, [(ALONG, 2, 0x1234, 1000000)], [hop(63, 0, 5, "010203040506"), hop(63, 7, 0, "0a0b0c0d0e0f")], [(B, 5), (A, 7)])),
           (record(3, (2, 0, None, ALONG), (0, 0, None, AGAINST), (1, 0, None, ALONG)), LOOP)),
]

# A and D below C, and C's interface 3 meets D's interface 4. From A: by C 1 + 1 = 2, by the link 2 + 0 = 2. From D: by C 2, by the link
# 1 + 1 = 2. Two edges each: the one without a peer stands first.
# Ids: up 1000 xor 0101 = 1101, down 2000; the link's down 2000 xor 0404 xor 0808 = 2c0c.
EQUAL_COST = book([], [segment(1000000, 0x1000, entry(C, 1500, 0, 0, 5, 63, "010103040506", peer(D, 4, 1400, 63, 3, 5, "f1f103040506")),
                               entry(A, 1500, 0, 7, 0, 63, "020203040506")),
                       segment(1000000, 0x2000, entry(C, 1500, 0, 0, 6, 63, "040403040506"),
                               entry(D, 1500, 0, 8, 0, 63, "080803040506", peer(C, 3, 1400, 63, 4, 0, "e1e103040506")))])
BENCH["peers preferred"] = [
    solved(A, D, EQUAL_COST,
           (record(2, (0, 0, None, AGAINST), (1, 0, None, ALONG)),
            path(1500, 1021600, [(AGAINST, 2, 0x1101, 1000000), (ALONG, 2, 0x2000, 1000000)],
                 [hop(63, 7, 0, "020203040506"), hop(63, 0, 5, "010103040506"), hop(63, 0, 6, "040403040506"), hop(63, 8, 0, "080803040506")],
                 [(A, 7), (C, 5), (C, 6), (D, 8)])),
           (record(2, (0, 0, 0, AGAINST), (1, 1, 0, ALONG)),
            path(1400, 1021600, [(AGAINST + PEERING, 2, 0x1101, 1000000), (ALONG + PEERING, 1, 0x2C0C, 1000000)],
                 [hop(63, 7, 0, "020203040506"), hop(63, 3, 5, "f1f103040506"), hop(63, 4, 0, "e1e103040506")],
                 [(A, 7), (C, 5), (C, 3), (D, 4)]))),
    # Up from D 2000 xor 0404 = 2404, down to A 1000; by the link up 2c0c, down 1000 xor 0101 = 1101.
    solved(D, A, EQUAL_COST,
           (record(2, (1, 0, None, AGAINST), (0, 0, None, ALONG)),
            path(1500, 1021600, [(AGAINST, 2, 0x2404, 1000000), (ALONG, 2, 0x1000, 1000000)],
                 [hop(63, 8, 0, "080803040506"), hop(63, 0, 6, "040403040506"), hop(63, 0, 5, "010103040506"), hop(63, 7, 0, "020203040506")],
                 [(D, 8), (C, 6), (C, 5), (A, 7)])),
           (record(2, (1, 1, 0, AGAINST), (0, 0, 0, ALONG)),
            path(1400, 1021600, [(AGAINST + PEERING, 1, 0x2C0C, 1000000), (ALONG + PEERING, 2, 0x1101, 1000000)],
                 [hop(63, 4, 0, "e1e103040506"), hop(63, 3, 5, "f1f103040506"), hop(63, 7, 0, "020203040506")],
                 [(D, 4), (C, 3), (C, 5), (A, 7)]))),
]


# ---- the model's answers in the same form

def model_record(chain):
    return record(model.cost(chain), *[(e.segment.position, e.shortcut, e.peer, int(model.in_construction(e))) for e in chain])


def model_path(chain):
    p = model.path(chain)
    if not isinstance(p, model.Path):
        return {"loop": LOOP, "bare": BARE}[p]
    return path(p.mtu, p.expiry, [(flags, hops, ident, timestamp) for flags, ident, timestamp, hops in p.infos],
                p.hops, p.interfaces)


def model_refusal(src, dst, b, call, room, given):
    if model.verdict(b):
        return model.verdict(b)
    found = model.solutions(b, src, dst)
    if call == LISTING:
        return FULL if len(found) > min(layout.MAX_SOLUTIONS, room // layout.RECORD_SIZE) else 0
    if room < layout.PATH_SIZE:
        return SMALL
    return 0 if given in map(model_record, found) else STRANGER


def checked():
    """Every case, as {label: bytes of its cases}."""
    for label, cases in BENCH.items():
        for k, (_, (kind, *case)) in enumerate(cases, 1):
            if kind == "refused":
                number, *call = case
                assert model_refusal(*call) == number, (label, k)
                continue
            src, dst, b, solutions = case
            assert model.verdict(b) == 0, (label, k)
            found = model.solutions(b, src, dst)
            assert [r for r, _ in solutions] == [model_record(c) for c in found], (label, k)
            assert [p for _, p in solutions] == [model_path(c) for c in found], (label, k)
    return {label: [data for data, _ in cases] for label, cases in BENCH.items()}


if __name__ == "__main__":
    made = checked()
    print(f"{len(made)} labels, {sum(map(len, made.values()))} cases as the model has them")
