# python3 expected.py > stdout: what the program must write.
import hashlib

SIZE = 16  # of a record
SLOTS = 4096
UP, DOWN = 0, 1

# The AS and the egress of each position's only entry.
BOOK = [(0x1ff0000000110 + n, n) for n in (0, 1, 2, 3, 1, 5)]


def record(cost, *edges):
    """Of each edge: position, shortcut, peer, direction."""
    return (cost.to_bytes(2, 'big') + bytes([len(edges), 0]) + b''.join(map(bytes, edges))).ljust(SIZE, b'\0')


KEYS = b''.join([
    record(300, (0, 2, 0, DOWN)),
    record(5, (0, 0, 0, UP), (1, 0, 0, DOWN)),
    record(5, (0, 0, 1, DOWN)),
    record(5, (0, 0, 0, DOWN)),
    record(5, (0, 3, 0, DOWN)),
    record(255, (0, 0, 0, DOWN)),
    record(256, (0, 0, 0, DOWN)),
    record(5, (0, 0, 0, UP), (1, 0, 2, DOWN)),
    record(5, (0, 0, 0, UP), (1, 7, 2, DOWN)),
    record(5, (0, 0, 1, UP), (1, 0, 0, DOWN)),
])
PRINTS = b''.join(
    [record(4, (p, 1, 0, UP), (2, 0, 0, DOWN)) for p in (5, 4, 3, 2, 1, 0)]
    + [record(4, (0, 1, 0, UP), (p, 0, 0, DOWN)) for p in (0, 1, 3, 5)]
    + [record(4, (p, 1, 0, UP), (2, 0, 1, DOWN)) for p in (3, 2)])
POSITIONS = b''.join(
    record(7, (p, 0, 0, UP), (q, 0, 0, DOWN), (r, s, 0, DOWN))
    for p, q, r, s in [(4, 1, 1, 2), (1, 4, 4, 2), (1, 4, 1, 2), (1, 1, 4, 2), (4, 1, 1, 3), (250, 1, 1, 2), (200, 1, 1, 2)])
PART = b''.join(record(cost, (0, 0, 0, DOWN)) for cost in (9, 8, 7)) + bytes([0, 0, 0, 0, 9])


def fingerprint(k, book=BOOK):
    if k >= len(book):
        return hashlib.sha256(b'').digest()
    local, egress = book[k]
    return hashlib.sha256(local.to_bytes(8, 'big') + bytes(2) + egress.to_bytes(2, 'big')).digest()


def key(r, book=BOOK):
    edges = [r[4:8], r[8:12], r[12:16]]
    return (r[0:2], r[2], [(e[2], -e[1], fingerprint(e[0], book)) for e in edges], [e[0] for e in edges])


def sorted_first(s, n):
    n = min(n, len(s) // SIZE, SLOTS)
    return b''.join(sorted((s[SIZE * q:SIZE * q + SIZE] for q in range(n)), key=key)) + s[SIZE * n:]


def show(s):
    for q in range(len(s) // SIZE):
        print(s[SIZE * q:SIZE * q + SIZE].hex())
    print()


def spread(i):
    return (i % 4096 * 7919 + i // 16 % 8192 * 104729) // 61


def fill(count):
    return bytes(spread(i) % 3 for i in range(SIZE * count))


def plain(count):
    return bytes(0 if i % SIZE == 3 else b % 2 if i % 4 == 3 else b for i, b in enumerate(fill(count)))


show(sorted_first(KEYS, 10))
show(sorted_first(PRINTS, 12))
show(sorted_first(POSITIONS, 7))
for n in (100, 0, 1, 2):
    show(sorted_first(PART, n))
but_one = bytearray(plain(700))
but_one[7] = 2
for s, n in ((fill(300), 300), (fill(SLOTS + 4), 5000), (plain(700), 700), (bytes(but_one), 700)):
    print(hashlib.sha256(sorted_first(s, n)).hexdigest())


# ---- compared: how the first record stands to the second, and how many fingerprints that takes. Both were worked out by hand for each case. By
# specification 5.7 the number is two for each pair of edges at two positions that all earlier keys leave equal: cost, edge count, the edges before,
# and this pair's peer and shortcut. A pair at one position takes none, and nothing is taken after the key that decides.

# The positions of the book by their fingerprints. Those of 1 and 4, a segment and its reissue, are equal.
IN_ORDER = [1, 4, 3, 2, 5, 0]
assert IN_ORDER == sorted(range(6), key=lambda k: (fingerprint(k), k)) and fingerprint(1) == fingerprint(4)


def at(position, shortcut=0, peer=0, direction=UP):
    return bytes([position, shortcut, peer, direction])


def counted(cost, count, *edges):
    """Three edges, whatever the count."""
    return cost.to_bytes(2, 'big') + bytes([count, 0]) + b''.join(edges)


def three(*edges):
    return counted(7, 3, *edges)


BEFORE, SAME, AFTER = 'before', 'same', 'after'
TURNED = {BEFORE: AFTER, SAME: SAME, AFTER: BEFORE}

BY_HAND = [
    # The cost decides, before any edge is looked at: none. So does the edge count.
    ('cost', counted(6, 3, at(2), at(2), at(2)), counted(7, 3, at(3), at(3), at(3)), BEFORE, 0),
    ('cost, its first byte', counted(255, 3, at(2), at(2), at(2)), counted(256, 3, at(3), at(3), at(3)), BEFORE, 0),
    ('edge count', counted(7, 2, at(2), at(2), at(2)), counted(7, 3, at(3), at(3), at(3)), BEFORE, 0),
    # At two positions, where a peer decides, none before peer 0, or the larger shortcut: none.
    ('first edge, peer', three(at(2, 0, 0), at(2), at(2)), three(at(3, 5, 1), at(3), at(3)), BEFORE, 0),
    ('first edge, shortcut', three(at(2, 5, 1), at(2), at(2)), three(at(3, 4, 1), at(3), at(3)), BEFORE, 0),
    # Two positions that the earlier keys leave equal: 2. Fingerprint 3 comes before 2 and decides, so that the two pairs after it take none.
    ('first edge, two positions', three(at(3, 4, 1), at(2), at(2)), three(at(2, 4, 1), at(3), at(3)), BEFORE, 2),
    # The first edges are at one position and take none. Then as above, with one pair after it.
    ('second edge, peer', three(at(5), at(2, 0, 0), at(2)), three(at(5), at(3, 5, 1), at(3)), BEFORE, 0),
    ('second edge, shortcut', three(at(5), at(2, 5, 1), at(2)), three(at(5), at(3, 4, 1), at(3)), BEFORE, 0),
    ('second edge, two positions', three(at(5), at(3, 4, 1), at(2)), three(at(5), at(2, 4, 1), at(3)), BEFORE, 2),
    # Two pairs at one position each. Then as above.
    ('third edge, peer', three(at(5), at(0), at(2, 0, 0)), three(at(5), at(0), at(3, 5, 1)), BEFORE, 0),
    ('third edge, shortcut', three(at(5), at(0), at(2, 5, 1)), three(at(5), at(0), at(3, 4, 1)), BEFORE, 0),
    ('third edge, two positions', three(at(5), at(0), at(3, 4, 1)), three(at(5), at(0), at(2, 4, 1)), BEFORE, 2),
    # No two positions: none. A direction is no key, nor is the byte after the count.
    ('one position at every edge', three(at(5), at(3), at(2)), three(at(5), at(3), at(2)), SAME, 0),
    ('directions and the zero byte', three(at(5), at(3), at(2)), bytes([0, 7, 3, 9]) + at(5, 0, 0, DOWN) + at(3, 0, 0, DOWN) + at(2, 0, 0, DOWN), SAME, 0),
    # 4 and 1 are two positions: 2. Their fingerprints are equal, so that the second edges come next: peer or shortcut decides with no more, two
    # positions with 2 more.
    ("a reissue, then the second edge's peer", three(at(4), at(2, 0, 0), at(2)), three(at(1), at(3, 5, 1), at(3)), BEFORE, 2),
    ("a reissue, then the second edge's shortcut", three(at(4), at(2, 5, 1), at(2)), three(at(1), at(3, 4, 1), at(3)), BEFORE, 2),
    ('a reissue, then the second edge at two positions', three(at(4), at(3, 4, 1), at(2)), three(at(1), at(2, 4, 1), at(3)), BEFORE, 4),
    # The second edges at one position take none, and the third come next.
    ("a reissue, one position, then the third edge's peer", three(at(4), at(5), at(2, 0, 0)), three(at(1), at(5), at(3, 5, 1)), BEFORE, 2),
    ("a reissue, one position, then the third edge's shortcut", three(at(4), at(5), at(2, 5, 1)), three(at(1), at(5), at(3, 4, 1)), BEFORE, 2),
    ('a reissue, one position, then the third edge at two positions', three(at(4), at(5), at(3)), three(at(1), at(5), at(2)), BEFORE, 4),
    ("one position, a reissue, then the third edge's peer", three(at(5), at(4), at(2, 0, 0)), three(at(5), at(1), at(3, 5, 1)), BEFORE, 2),
    ('one position, a reissue, then the third edge at two positions', three(at(5), at(4), at(3)), three(at(5), at(1), at(2)), BEFORE, 4),
    # 2 and 2, though both pairs take the same two fingerprints; at the third edge peer or shortcut decides with no more, two positions with 2 more.
    ("two reissues, then the third edge's peer", three(at(4), at(4), at(2, 0, 0)), three(at(1), at(1), at(3, 5, 1)), BEFORE, 4),
    ("two reissues, then the third edge's shortcut", three(at(4), at(4), at(2, 5, 1)), three(at(1), at(1), at(3, 4, 1)), BEFORE, 4),
    ('two reissues, then the third edge at two positions', three(at(4), at(4), at(3)), three(at(1), at(1), at(2)), BEFORE, 6),
    # Each reissue takes 2, all edges are left equal, and the first two positions that are not equal decide: 1 before 4.
    ('a reissue first', three(at(1), at(5), at(3)), three(at(4), at(5), at(3)), BEFORE, 2),
    ('a reissue second', three(at(5), at(1), at(3)), three(at(5), at(4), at(3)), BEFORE, 2),
    ('a reissue third', three(at(5), at(3), at(1)), three(at(5), at(3), at(4)), BEFORE, 2),
    ('reissues first and second, crossed', three(at(1), at(4), at(3)), three(at(4), at(1), at(3)), BEFORE, 4),
    ('reissues first and third', three(at(1), at(5), at(4)), three(at(4), at(5), at(1)), BEFORE, 4),
    ('reissues second and third', three(at(5), at(1), at(4)), three(at(5), at(4), at(1)), BEFORE, 4),
    ('three reissues', three(at(1), at(1), at(1)), three(at(4), at(4), at(4)), BEFORE, 6),
    ('three reissues, crossed', three(at(1), at(4), at(4)), three(at(4), at(1), at(1)), BEFORE, 6),
    # All three edges are compared, whatever the count: 2 where fingerprint 3 comes before 2, and 2 for each of three reissues.
    ('no edge counted, the first at two positions', counted(7, 0, at(3), at(5), at(5)), counted(7, 0, at(2), at(5), at(5)), BEFORE, 2),
    ('one edge counted, the second at two positions', counted(7, 1, at(5), at(3), at(5)), counted(7, 1, at(5), at(2), at(5)), BEFORE, 2),
    ('two edges counted, the third at two positions', counted(7, 2, at(5), at(5), at(3)), counted(7, 2, at(5), at(5), at(2)), BEFORE, 2),
    ('255 edges counted, three reissues', counted(7, 255, at(1), at(1), at(1)), counted(7, 255, at(4), at(4), at(4)), BEFORE, 6),
    # At 200 and 250 there is no segment. Two positions take 2 there too: a fingerprint with that of nothing, which begins with e3 and comes after
    # that at 1; then twice that of nothing, which is equal, so that the next edges or the positions decide.
    ('a segment and none', three(at(1), at(5), at(5)), three(at(200), at(5), at(5)), BEFORE, 2),
    ('none and none, then the second edge at two positions', three(at(250), at(3), at(5)), three(at(200), at(2), at(5)), BEFORE, 4),
    ('none and none at every edge', three(at(200), at(200), at(200)), three(at(250), at(250), at(250)), BEFORE, 6),
]
# What is lent is cut, and what is past its end reads as zeros.
X, Y = three(at(3), at(3), at(3)), three(at(2), at(2), at(2))
BY_HAND = [(name, BOOK, a, b, order, digests) for name, a, b, order, digests in BY_HAND] + [
    # No position has an entry: three pairs of equal fingerprints, then the positions.
    ('no book, three edges at two positions', [], three(at(0), at(1), at(2)), three(at(3), at(4), at(5)), BEFORE, 6),
    # Every position has one entry of zeros: 2, and then the positions.
    ('no bodies, the first edge at two positions', [(0, 0)] * 6, three(at(3), at(5), at(5)), three(at(2), at(5), at(5)), AFTER, 2),
    # The entry at 5 has an egress of 0 in place of 5. Its fingerprint comes before that at 2, where the whole one comes after it.
    ('the last egress cut, the first edge at two positions', BOOK[:5] + [(BOOK[5][0], 0)], three(at(5), at(3), at(3)), three(at(2), at(3), at(3)), BEFORE, 2),
    # Two that read the same: none. A cost of 0 is before 7.
    ('no record and none', BOOK, b'', b'', SAME, 0),
    ('no record and zeros', BOOK, b'', bytes(SIZE), SAME, 0),
    ('no record and one', BOOK, b'', X, BEFORE, 0),
    # Without edges all positions are 0: none. With the first position alone fingerprint 3 comes before 2.
    ('no edges', BOOK, X[:4], Y[:4], SAME, 0),
    ('no edges but the first position', BOOK, X[:5], Y[:5], BEFORE, 2),
    # The edge that is cut off reads as one at 0, whose fingerprint is the last: 2, and the pair after it takes none.
    ('one edge and three', BOOK, X[:8], X, AFTER, 2),
    ('two edges and three', BOOK, X[:12], X, AFTER, 2),
    # What stands after a record is no part of it.
    ('bytes after the record', BOOK, bytes(SIZE) + bytes([1, 0, 0, 0]), bytes(SIZE) + bytes([2, 0, 0, 0]), SAME, 0),
]


def compared(book, a, b):
    """The same once more, by the key of a sort and by the rule alone."""
    a, b = (r[:SIZE].ljust(SIZE, b'\0') for r in (a, b))
    left_equal, digests = a[:3] == b[:3], 0
    for k in (4, 8, 12):
        left_equal = left_equal and a[k + 1:k + 3] == b[k + 1:k + 3]
        if left_equal and a[k] != b[k]:
            digests += 2
        left_equal = left_equal and fingerprint(a[k], book) == fingerprint(b[k], book)
    one, other = key(a, book), key(b, book)
    return BEFORE if one < other else AFTER if other < one else SAME, digests


for name, book, a, b, order, digests in BY_HAND:
    assert compared(book, a, b) == (order, digests) and compared(book, b, a) == (TURNED[order], digests), name
    print(f'{name}: {order} {digests}, exchanged {TURNED[order]} {digests}')

# Every pair of sixty records.
RECORDS = 60


def position(x):
    if x % 8 < 6:
        return 1 if x % 8 < 3 else 4
    return {6: 200, 14: 250}.get(x % 16, x // 8 % 6)


def byte_at(i):
    x = spread(i)
    if i % 4 == 3:
        return x % 3
    return position(x) if i % 4 == 0 and i % SIZE else int(x % 16 == 0)


dense = bytes(map(byte_at, range(SIZE * RECORDS)))
dense = [dense[SIZE * q:SIZE * q + SIZE] for q in range(RECORDS)]
answers = [compared(BOOK, a, b) for a in dense for b in dense]
for order in (BEFORE, SAME, AFTER):
    print(f'{order}: {sum(o == order for o, _ in answers)}')
for n, word in ((0, 'no fingerprint'), (2, 'two fingerprints'), (4, 'four fingerprints'), (6, 'six fingerprints')):
    found = sum(digests == n for _, digests in answers)
    assert found > 100
    print(f'{word}: {found}')
print(hashlib.sha256(b''.join(bytes([(BEFORE, SAME, AFTER).index(order), digests]) for order, digests in answers)).hexdigest())
