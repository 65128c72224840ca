"""Books for tests, from a seed: networks as carriers build them, soups of any fields, books at the limits, damaged bytes. No segment passes an AS
twice but where `damaged` makes it.

    generate.cases(seed, count) gives (source, destination, book); the same seed gives the same books.
"""
import os
import random
import sys

sys.path.insert(0, os.path.join(os.path.dirname(os.path.abspath(__file__)), "..", "tools"))
from booktext import layout  # noqa: E402
from booktext.layout import COUNTS, ENTRY, HEAD, PEER, Entry, Peer, Segment, head_place  # noqa: E402


class Maker:
    def __init__(self, rng):
        self.r = rng
        base = rng.choice([0x0001FF0000000110, 0x000200000000FBF0, 0xFFFFFFFFFFFFFF00])
        self.ases = [base + k for k in range(rng.randint(3, 12))]
        self.zero = rng.choice([0, 0, 0.1, 0.5])
        self.links = {}

    def interface(self):
        return 0 if self.r.random() < self.zero else self.r.choice([1, 2, 3, ENTRY.of.ingress.most])

    def mac(self):
        return self.r.getrandbits(8 * layout.MAC_SIZE).to_bytes(layout.MAC_SIZE, "big")

    def mtu(self, most):
        return self.r.choice([0, 1280, 1400, 1500, 9000, most, self.r.randint(0, most)])

    def units(self):
        return self.r.choice([0, 63, ENTRY.of.units.most])

    def segment(self, entries):
        return Segment(self.r.choice([0, 1000000, 1767247200, HEAD.of.timestamp.most]), self.r.randrange(HEAD.of.id.most + 1), entries)

    def entry(self, isd_as, ingress, egress, peers=()):
        return Entry(isd_as, self.mtu(ENTRY.of.mtu.most), self.mtu(ENTRY.of.ingress_mtu.most), ingress, egress, self.units(), self.mac(), peers=list(peers))

    def peer(self, isd_as, interface, ingress, egress):
        return Peer(isd_as, interface, self.mtu(PEER.of.mtu.most), self.units(), ingress, egress, self.mac())

    def soup(self, segments, most):
        """Any ASes in any order, each once in a segment; equal segments among them."""
        made = []
        for _ in range(segments):
            path = self.r.sample(self.ases, min(len(self.ases), self.r.randint(0, most)))
            entries = [self.entry(a, self.interface(), self.interface(),
                                  [self.peer(self.r.choice(self.ases), self.interface(), self.interface(), self.interface())
                                   for _ in range(self.r.choice([0, 0, 0, 1, layout.MAX_PEERS]))]) for a in path]
            made.append(self.r.choice(made) if made and self.r.random() < 0.1 else self.segment(entries))
        cores = self.r.randint(0, segments)
        return made[:cores], made[cores:]

    def link(self, a, b):
        """The interface ids at both ends of the link, the same whenever it is asked for."""
        if (a, b) not in self.links:
            ends = len(self.links) + 1, len(self.links) + 101
            self.links[a, b], self.links[b, a] = ends, ends[::-1]
        return self.links[a, b]

    def walk(self, path, peers=()):
        entries = []
        for k, a in enumerate(path):
            ingress = self.link(path[k - 1], a)[1] if k else 0
            egress = self.link(a, path[k + 1])[0] if k + 1 < len(path) else 0
            ends = [b if a == x else x for x, b in peers if a in (x, b)][:layout.MAX_PEERS]
            entries.append(self.entry(a, ingress, egress, [self.peer(b, self.link(a, b)[1], self.link(a, b)[0], egress) for b in ends]))
        return self.segment(entries)

    def network(self):
        """Cores joined to each other, customers below them, peering links between customers."""
        core, low = self.ases[:2], self.ases[2:]
        peers = [tuple(self.r.sample(low, 2)) for _ in range(self.r.randint(0, 3))] if len(low) > 1 else []
        cores = [self.walk(self.r.sample(core, 2)) for _ in range(self.r.randint(0, 2))]
        others = []
        for leaf in low:
            for _ in range(self.r.randint(1, 2)):
                between = [a for a in self.r.sample(low, min(len(low), self.r.randint(0, 2))) if a < leaf]
                others.append(self.walk([self.r.choice(core)] + sorted(between) + [leaf], peers))
        return cores, others


def full(rng):
    """A book of as many bytes as are taken or a little less, of as many segments."""
    maker = Maker(rng)
    made, size, whole = [], head_place(layout.MAX_SEGMENTS), ENTRY.size + layout.MAX_PEERS * PEER.size
    for _ in range(layout.MAX_SEGMENTS):
        entries, ases = [], iter(rng.sample(range(maker.ases[0], maker.ases[0] + 2 * layout.MAX_ENTRIES), layout.MAX_ENTRIES))
        while len(entries) < layout.MAX_ENTRIES and size + whole <= layout.MAX_BOOK:
            a = next(ases)
            entries.append(maker.entry(a, 1, 2, [maker.peer(a, 3, 4, 5)] * layout.MAX_PEERS))
            size += whole
        made.append(maker.segment(entries))
    return layout.book(made[:5], made[5:])


def damaged(rng, book):
    """Bytes changed, cut, added, a count set past its limit, or an AS that stands twice in a segment."""
    book = bytearray(book)
    kind = rng.randrange(7)
    if kind == 0:
        del book[rng.randint(0, len(book)):]
    elif kind == 1:
        book += bytes(rng.choice([1, HEAD.size, layout.MAX_BOOK + 560]))
    elif kind == 2:
        for _ in range(rng.randint(1, 3)):
            book[rng.randrange(min(len(book), 40))] = rng.choice([0, 1, 255, rng.randrange(256)])
    elif kind == 3:
        for _ in range(rng.randint(1, 9)):
            book[rng.randrange(len(book))] = rng.randrange(256)
    elif kind == 4 and len(book) >= head_place(1):
        most = layout.MAX_ENTRIES
        HEAD.put(book, COUNTS.size, "entry_count", rng.choice([0, 1, most - 1, most, most + 1]))
    elif kind == 5 and len(book) >= head_place(2):
        # The first two heads exchange a part of their body lengths, so that the sum stays.
        one, two = (HEAD.get(book, head_place(k), "body_length") for k in (0, 1))
        part = min(rng.randint(0, 30), one, HEAD.of.body_length.most - two)
        HEAD.put(book, head_place(0), "body_length", one - part)
        HEAD.put(book, head_place(1), "body_length", two + part)
    elif kind == 6 and len(book) >= COUNTS.size:
        # The AS of the first entry, at the one after it or a later one. Of a segment with as many entries that is a repeat.
        first = at = head_place(sum(COUNTS.unpack(book)[:2]))
        for _ in range(rng.randint(1, 2)):
            at += ENTRY.size + PEER.size * ENTRY.get(book, at, "peer_count")
        if at + layout.AS_SIZE <= len(book):
            book[at:at + layout.AS_SIZE] = book[first:first + layout.AS_SIZE]
    return bytes(book)


def cases(seed, count):
    for k in range(count):
        rng = random.Random(f"{seed}/{k}")
        maker = Maker(rng)
        cores, others = maker.network() if k % 2 else maker.soup(rng.randint(0, 7), 5)
        source, destination = rng.sample(maker.ases, 2)
        yield source, destination, layout.book(cores, others)
