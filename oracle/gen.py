#!/usr/bin/env python3
"""Generates books, with source and destination, as a batch for the oracle and the driver (README.md).

    gen.py --seed 1 --count 20000 --out cases.batch [--profile NAME] [--list-profiles]

Without --profile each case draws its profile by the weights below. With --index FILE the profile
of each case is written, one line a case. No segment passes an AS twice but those of `twice`, and by chance of `bad`.
"""
import argparse
import random
import sys
from dataclasses import replace

from batch import framed, layout
from booktext.layout import COUNTS, ENDS, ENTRY, HEAD, MAC_SIZE, MAX_BOOK, MAX_ENTRIES, MAX_PEERS, MAX_SEGMENTS, PEER
from booktext.layout import Entry, Peer, Segment, head_place


def copied(s):
    return replace(s, entries=[replace(e, peers=[replace(p) for p in e.peers]) for e in s.entries])


class Gen:
    """One case's random choices."""

    def __init__(self, rng):
        self.r = rng
        # How wild the fields are, how often interfaces are zero, how many interface ids there are.
        self.wild = rng.choice([0.0, 0.0, 0.15, 0.6])
        self.zero = rng.choice([0.0, 0.0, 0.05, 0.1, 0.1, 0.5, 0.5, 1.0])
        self.ifs = rng.choice([1, 2, 4, 30, ENTRY.of.ingress.most])
        self.macs = [rng.randbytes(MAC_SIZE) for _ in range(rng.choice([1, 2, 40]))]
        self.macs += [bytes(MAC_SIZE)] if rng.random() < 0.1 else []

    def p(self, x):
        return self.r.random() < x

    def ts(self):
        if self.p(self.wild):
            # Near the end, and the least and the longest life of a hop before it.
            end = HEAD.of.timestamp.most + 1
            return self.r.choice([0, 1, end - 1, end - 2, end - 338, end - 337, end - 86400, end - 86401, self.r.randrange(end)])
        return self.r.choice([1000000, 1700000000 + self.r.randrange(4) * 300])

    def sid(self):
        most = HEAD.of.id.most
        return self.r.choice([0, most, 0x1234, self.r.randrange(most + 1), self.r.randrange(most + 1)])

    def units(self):
        most = ENTRY.of.units.most
        return self.r.choice([0, 1, 63, 63, most - 1, most, self.r.randrange(most + 1)])

    def mtu(self):
        if self.p(self.wild):
            # The most of a path's field, past it and twice it; the most of this one.
            most, end = layout.PATH_HEAD.of.mtu.most, ENTRY.of.mtu.most + 1
            return self.r.choice([0, 1, most, most + 1, most + 2, 70000, 2 * most + 1, end - 1, end // 2, self.r.randrange(end)])
        return self.r.choice([1280, 1400, 1472, 1500, 9000])

    def imtu(self):
        if self.p(self.wild):
            most = ENTRY.of.ingress_mtu.most
            return self.r.choice([0, 0, 1, most, self.r.randrange(most + 1)])
        return self.r.choice([0, 1200, 1280, 1300, 1350, 1400, 1472])

    def ifid(self):
        return 0 if self.p(self.zero) else self.r.randint(1, self.ifs)

    def mac(self):
        return self.r.choice(self.macs) if self.p(0.7) else self.r.randbytes(MAC_SIZE)

    def peer(self, pas, pif, ing):
        return Peer(pas, pif, self.imtu(), self.units(), ing, self.ifid(), self.mac())

    def entry(self, as_, ing, egr, peers=()):
        return Entry(as_, self.mtu(), self.imtu(), ing, egr, self.units(), self.mac(), peers=list(peers))

    def asn(self, k):
        """k ASes, of one ISD mostly, now and then at the ends of the range."""
        base = 0x0001FF0000000110
        out = [base + i for i in range(k)]
        if self.p(0.3):
            out = [((1 + i % 3) << 48) | 0xFF0000000110 + i for i in range(k)]
        elif self.p(0.1):
            # One AS number in every ISD.
            out = [((1 + i) << 48) | 0xFF0000000110 for i in range(k)]
        if self.p(0.1):
            out[0] = 0
            out[-1] = 2**64 - 1
        self.r.shuffle(out)
        return out


def link_if(g):
    """An interface id of a peering link's side, 0 now and then."""
    return 0 if g.p(0.6 if g.zero == 1.0 else 0.05) else g.r.randint(1, 3)


def links_between(g, universe, n):
    """Peering links (as, if, as, if); a few are self-links or have interface 0."""
    out = []
    for _ in range(n):
        a, b = g.r.choice(universe), g.r.choice(universe)
        if a == b and not g.p(0.3):
            continue
        fa, fb = link_if(g), link_if(g)
        if a == b and g.p(0.5):
            fb = fa
        out.append((a, fa, b, fb))
    return out


def peers_for(g, as_, links, most=MAX_PEERS, often=0.5, foreign=0.05):
    """Peer entries of an AS: sides of the links at that AS, or (foreign) anything."""
    out = []
    ends = [(b, fb, fa) for (a, fa, b, fb) in links if a == as_]
    ends += [(a, fa, fb) for (a, fa, b, fb) in links if b == as_]
    g.r.shuffle(ends)
    for (pas, pif, ing) in ends:
        if len(out) < most and g.p(often):
            out.append(g.peer(pas, pif, ing))
            # Once more, so that edges with equal ends overwrite.
            while len(out) < most and g.p(0.15):
                out.append(g.peer(pas, pif, ing))
    while len(out) < most and g.p(foreign):
        l = g.r.choice(links) if links else (as_, 1, as_, 2)
        out.append(g.peer(l[2], l[3], l[1]))
    return out


def soup_seg(g, universe, links, n, peer=0.5, tidy=0.7):
    """n entries, or as many as there are ASes."""
    entries = []
    n = min(n, len(universe))
    for i, a in enumerate(g.r.sample(universe, n)):
        ing = 0 if i == 0 and g.p(tidy) else g.ifid()
        egr = 0 if i == n - 1 and g.p(tidy) else g.ifid()
        entries.append(g.entry(a, ing, egr, peers_for(g, a, links, often=peer)))
    return Segment(g.ts(), g.sid(), entries)


def pick_ends(g, cores, noncores, universe):
    leaves = [s.entries[-1].isd_as for s in noncores + cores if s.entries]
    tops = [s.entries[0].isd_as for s in cores + noncores if s.entries]
    def one():
        x = g.r.random()
        if x < 0.6 and leaves:
            return g.r.choice(leaves)
        if x < 0.8 and tops:
            return g.r.choice(tops)
        return g.r.choice(universe)
    s, d = one(), one()
    for _ in range(4):
        if s != d:
            break
        d = one()
    return s, d


def soup(g, sizes, entries, uni, nlinks):
    universe = g.asn(g.r.randint(*uni))
    links = links_between(g, universe, g.r.randint(*nlinks))
    total = g.r.randint(*sizes)
    ncore = g.r.randint(0, total) if g.p(0.3) else total // g.r.choice([3, 4, 5])
    cores, noncores = [], []
    for i in range(total):
        n = g.r.randint(*entries) if not g.p(0.05) else g.r.choice([0, 1])
        s = soup_seg(g, universe, links if i >= ncore or g.p(0.1) else [], n)
        (cores if i < ncore else noncores).append(s)
    s, d = pick_ends(g, cores, noncores, universe)
    return s, d, cores, noncores


def vary(g, s):
    """A copy of a segment, equal or with an equal fingerprint, or almost."""
    s = copied(s)
    if not s.entries:
        return s
    e = g.r.choice(s.entries)
    k = g.r.randrange(11)
    if k == 0:
        s.timestamp = g.ts()
    elif k == 1:
        s.id = g.sid()
    elif k == 2:
        e.mac = g.r.randbytes(MAC_SIZE)
    elif k == 3:
        e.mtu = g.mtu()
    elif k == 4:
        e.ingress_mtu = g.imtu()
    elif k == 5:
        e.units = g.units()
    elif k == 6 and e.peers:
        e.peers.pop()
    elif k == 7 and len(e.peers) < MAX_PEERS and e.peers:
        e.peers.append(replace(g.r.choice(e.peers)))
    elif k == 8 and e.peers:
        g.r.choice(e.peers).mtu = g.imtu()
    elif k == 9 and e.peers:
        g.r.shuffle(e.peers)
    return s  # k == 10: an equal segment


def prof_tiny(g):
    return soup(g, (0, 3), (1, 3), (2, 4), (0, 3))


def prof_small(g):
    return soup(g, (2, 8), (1, 4), (2, 6), (0, 4))


def prof_medium(g):
    return soup(g, (6, 20), (2, 6), (6, 16), (0, 6))


def prof_copies(g):
    s, d, cores, noncores = soup(g, (2, 5), (1, 4), (3, 6), (0, 3))
    for l in (cores, noncores):
        for _ in range(g.r.randint(0, 6)):
            if l:
                l.insert(g.r.randint(0, len(l)), vary(g, g.r.choice(l)))
    # The same bytes under the other kind.
    if noncores and g.p(0.3):
        cores.append(copied(g.r.choice(noncores)))
    if cores and g.p(0.3):
        noncores.append(copied(g.r.choice(cores)))
    return s, d, cores, noncores


def prof_peering(g):
    """Two or more non-core segments joined by peering links listed on both sides."""
    universe = g.asn(g.r.randint(3, 9))
    r = g.r
    noncores, links = [], []
    def seg(leaf):
        n = r.randint(1, min(5, len(universe)))
        path = r.sample([a for a in universe if a != leaf], n - 1) + [leaf]
        return Segment(g.ts(), g.sid(), [
            g.entry(a, 0 if i == 0 else g.ifid(), 0 if i == n - 1 else g.ifid())
            for i, a in enumerate(path)])
    leaves = r.sample(universe, 2)
    for i in range(r.randint(2, 5)):
        noncores.append(seg(leaves[i % 2] if g.p(0.8) else r.choice(universe)))
    for _ in range(r.randint(1, 6)):
        s, t = r.sample(noncores, 2)
        x, y = r.choice(s.entries), r.choice(t.entries)
        fx, fy = link_if(g), link_if(g)
        for _ in range(r.choice([1, 1, 1, 2])):
            if len(x.peers) < MAX_PEERS:
                x.peers.insert(r.randint(0, len(x.peers)), g.peer(y.isd_as, fy, fx))
        if g.p(0.9):
            for _ in range(r.choice([1, 1, 1, 2])):
                if len(y.peers) < MAX_PEERS:
                    y.peers.insert(r.randint(0, len(y.peers)), g.peer(x.isd_as, fx, fy))
    cores = []
    for _ in range(r.randint(0, 2)):
        cores.append(soup_seg(g, universe, [], r.randint(1, 3)))
    if g.p(0.2):
        noncores.append(vary(g, r.choice(noncores)))
    s, d = leaves if g.p(0.8) else pick_ends(g, cores, noncores, universe)
    return s, d, cores, noncores


def prof_three(g):
    """Up, core, down, over a small core, with shortcuts and peers at hand."""
    universe = g.asn(g.r.randint(6, 14))
    r = g.r
    k = r.randint(2, 4)
    core, low = universe[:k], universe[k:]
    links = links_between(g, low, r.randint(0, 3))
    cores, noncores = [], []
    for _ in range(r.randint(1, 6)):
        a, b = r.choice(core), r.choice(core)
        mid = [x for x in r.sample(core, r.randint(0, k)) if x not in (a, b)]
        path = [a] + mid + ([b] if a != b else [])
        n = len(path)
        cores.append(Segment(g.ts(), g.sid(), [
            g.entry(x, 0 if i == 0 else g.ifid(), 0 if i == n - 1 else g.ifid())
            for i, x in enumerate(path)]))
    leaves = r.sample(low, 2)
    for i in range(r.randint(2, 8)):
        leaf = leaves[i % 2] if g.p(0.8) else r.choice(low)
        mid = r.sample(low, r.randint(0, min(3, len(low))))
        path = [r.choice(core)] + [x for x in mid if x != leaf] + [leaf]
        n = len(path)
        noncores.append(Segment(g.ts(), g.sid(), [
            g.entry(x, 0 if i == 0 else g.ifid(), 0 if i == n - 1 else g.ifid(),
                    peers_for(g, x, links, often=0.6))
            for i, x in enumerate(path)]))
    return leaves[0], leaves[1], cores, noncores


def prof_network(g):
    """A consistent network: links with interface ids on both sides, beacons walking over them."""
    r = g.r
    g.zero = 0.0
    universe = g.asn(r.randint(5, 24))
    k = r.randint(1, min(5, len(universe) - 2))
    core, low = universe[:k], universe[k:]
    nextif = {a: 1 for a in universe}
    def iface(a):
        nextif[a] += 1
        return nextif[a] - 1
    down = {a: [] for a in universe}
    cl = {a: [] for a in core}
    for i, a in enumerate(core):
        for b in core[:i]:
            if g.p(0.7):
                fa, fb = iface(a), iface(b)
                cl[a].append((b, fa, fb))
                cl[b].append((a, fb, fa))
    for i, a in enumerate(low):
        for _ in range(r.choice([1, 1, 2, 3])):
            p = r.choice(core + low[:i])
            down[p].append((a, iface(p), iface(a)))
    peers = {a: [] for a in universe}
    for _ in range(r.randint(0, 6)):
        a, b = r.sample(low, 2)
        fa, fb = iface(a), iface(b)
        peers[a].append((b, fb, fa))
        peers[b].append((a, fa, fb))
    def walk(start, nexts, depth):
        path, at, ing = [], start, 0
        seen = {start}
        while True:
            nx = [(b, fa, fb) for (b, fa, fb) in nexts[at] if b not in seen]
            if not nx or len(path) + 1 >= depth or (path and g.p(0.25)):
                path.append((at, ing, 0))
                return path
            b, fa, fb = r.choice(nx)
            path.append((at, ing, fa))
            seen.add(b)
            at, ing = b, fb
    def seg(path, with_peers):
        es = []
        for (a, ing, egr) in path:
            ps = []
            if with_peers:
                for (b, fb, fa) in peers[a][:MAX_PEERS]:
                    # The peer hop's egress is that of the regular hop.
                    ps.append(Peer(b, fb, g.imtu(), g.units(), fa, egr, g.mac()))
            es.append(g.entry(a, ing, egr, ps))
        return Segment(g.ts(), g.sid(), es)
    cores = [seg(walk(r.choice(core), cl, MAX_ENTRIES), False) for _ in range(r.randint(0, 10))]
    noncores = [seg(walk(r.choice(core), down, MAX_ENTRIES), True) for _ in range(r.randint(1, 24))]
    cores = [s for s in cores if len(s.entries) > 1 or g.p(0.05)]
    noncores = [s for s in noncores if len(s.entries) > 1 or g.p(0.05)]
    if g.p(0.2) and noncores:
        noncores.append(vary(g, r.choice(noncores)))
    s, d = pick_ends(g, cores, noncores, universe)
    return s, d, cores, noncores


def prof_loops(g):
    """Few ASes, one-entry segments: cores that lead from an AS to itself, chains that pass an AS again."""
    r = g.r
    universe = g.asn(r.randint(2, 4))
    links = links_between(g, universe, r.randint(0, 3))
    cores, noncores = [], []
    for _ in range(r.randint(1, 6)):
        n = r.choice([0, 1, 1, 2, 3, 4])
        s = soup_seg(g, universe, links if g.p(0.5) else [], n)
        (cores if g.p(0.4) else noncores).append(s)
    s, d = pick_ends(g, cores, noncores, universe)
    return s, d, cores, noncores


def prof_same_ends(g):
    s, d, cores, noncores = soup(g, (1, 6), (1, 4), (2, 5), (0, 3))
    return s, s, cores, noncores


def prof_bare(g):
    g.zero = 1.0
    r = g.r.randrange(3)
    return (prof_tiny, prof_loops, prof_peering)[r](g)


def prof_many(g):
    """Up to the most segments, of few entries over few ASes: many solutions."""
    return soup(g, (20, MAX_SEGMENTS), (1, 3), (6, 24), (0, 8))


def prof_crowd(g):
    """Many solutions: parallel segments over a handful of ASes, equal fingerprints among them."""
    r = g.r
    universe = g.asn(4)
    a, b, x, y = universe
    def seg(path):
        n = len(path)
        return Segment(g.ts(), g.sid(), [
            g.entry(p, 0 if i == 0 else g.ifid(), 0 if i == n - 1 else g.ifid())
            for i, p in enumerate(path)])
    cores = [seg(r.choice([[x, y], [y, x], [x, a, y]])) for _ in range(r.randint(1, 12))]
    noncores = [seg(r.choice([[x, a], [y, a]])) for _ in range(r.randint(1, 16))]
    noncores += [seg(r.choice([[x, b], [y, b]])) for _ in range(r.randint(1, 16))]
    r.shuffle(noncores)
    return a, b, cores, noncores


def prof_flood(g):
    """About as many solutions as there are slots and above, up to 9,261: three kinds of parallel segments."""
    r = g.r
    a, b, x, y = g.asn(4)
    fit = max(k for k in range(MAX_SEGMENTS // 3) if k ** 3 <= layout.MAX_SOLUTIONS)
    n = r.choice([fit, fit, fit, fit + 1, 20, 21])
    same = r.choice([0, 1, 1])
    def seg(path):
        k = len(path)
        return Segment(g.ts(), g.sid(), [
            g.entry(p, 0 if i == 0 else r.randint(1, 9), 0 if i == k - 1 else r.randint(1, 9))
            for i, p in enumerate(path)])
    def many(path):
        if same and g.p(0.5):
            s = seg(path)
            out = []
            for i in range(n):
                s = copied(s)
                s.entries[0].mac = r.randrange(65536).to_bytes(2, "big") + i.to_bytes(MAC_SIZE - 2, "big")
                out.append(s)
            return out
        return [seg(path) for _ in range(n)]
    return a, b, many([x, y]), many([x, a]) + many([y, b])


def prof_limits(g):
    """To the limits of segments, entries and peers, as far as the bytes of a book go."""
    r = g.r
    universe = g.asn(r.choice([20, 60, 200]))
    links = links_between(g, universe, r.choice([5, 40, 200]))
    cores, noncores = [], []
    size = COUNTS.size
    total = r.choice([MAX_SEGMENTS, MAX_SEGMENTS, r.randint(20, MAX_SEGMENTS)])
    ncore = r.randint(0, total // 2)
    full = r.choice([MAX_ENTRIES, MAX_ENTRIES, 10])
    for i in range(total):
        n = full if g.p(0.7) else r.randint(0, MAX_ENTRIES)
        s = soup_seg(g, universe, links if i >= ncore else [], n, peer=0.9)
        room = MAX_BOOK - size - HEAD.size * (total - i)
        while len(s.body()) > room:
            s.entries.pop()
        size += HEAD.size + len(s.body())
        (cores if i < ncore else noncores).append(s)
    s, d = pick_ends(g, cores, noncores, universe)
    return s, d, cores, noncores


def prof_full(g):
    """A book of as many bytes as are taken or a little less, of segments with all entries and peers."""
    r = g.r
    universe = g.asn(r.choice([24, 60]))
    links = links_between(g, universe, 400)
    cores, noncores = [], []
    size = COUNTS.size
    nc = r.randint(2, 8)
    while True:
        s = soup_seg(g, universe, [], MAX_ENTRIES)
        core = len(cores) < nc
        if not core:
            for e in s.entries:
                e.peers = [g.peer(*x) for x in
                           [(l[2], l[3], l[1]) for l in links if l[0] == e.isd_as][:MAX_PEERS]]
        if size + HEAD.size + len(s.body()) > MAX_BOOK or len(cores) + len(noncores) == MAX_SEGMENTS:
            break
        size += HEAD.size + len(s.body())
        (cores if core else noncores).append(s)
    s, d = pick_ends(g, cores, noncores, universe)
    return s, d, cores, noncores


def prof_worst(g):
    """Only by --profile: the most solutions known of a book, as many full segments to either end as it holds."""
    r = g.r
    a, b, *up = g.asn(MAX_ENTRIES + 1)
    g.zero = r.choice([0.0, 0.1])
    half = (MAX_BOOK - COUNTS.size) // (HEAD.size + MAX_ENTRIES * (ENTRY.size + MAX_PEERS * PEER.size)) // 2
    def seg(leaf):
        path = up + [leaf]
        es = []
        for i, x in enumerate(path):
            # Links from x to itself, the leaves' to each other: each side's entry matches.
            far = {a: b, b: a}.get(x, x)
            es.append(g.entry(x, 0 if i == 0 else g.ifid(), 0 if x == leaf else g.ifid(),
                              [g.peer(far, j + 1, j + 1) for j in range(MAX_PEERS)]))
        return Segment(g.ts(), g.sid(), es)
    return a, b, [], [seg(a) for _ in range(half)] + [seg(b) for _ in range(half)]


def prof_longest(g):
    """As many edges as a solution has, of as many entries as a segment has."""
    r = g.r
    ases = [0x0001FF0000000000 + i for i in range(layout.MAX_HOPS)]
    g.zero = r.choice([0.0, 0.0, 0.1])
    def seg(path):
        n = len(path)
        tidy = g.p(0.8)
        return Segment(g.ts(), g.sid(), [
            g.entry(p, 0 if i == 0 and tidy else g.ifid(), 0 if i == n - 1 and tidy else g.ifid())
            for i, p in enumerate(path)])
    up, core, down = (ases[k * MAX_ENTRIES:(k + 1) * MAX_ENTRIES] for k in range(layout.MAX_EDGES))
    core[0], core[-1] = (up[0], down[0]) if g.p(0.5) else (down[0], up[0])
    return up[-1], down[-1], [seg(core)], [seg(up), seg(down)]


def reissue(g, s, others):
    """A segment as it is issued again: the same ASes and interfaces, another time, id, lives and MACs. Two units are 675 seconds, so that the
    ends of lives rise, fall and tie. Now and then an ingress is another, which no path shows at a shortcut; or an AS in the middle or an
    interface is another, which makes another route."""
    r = g.r
    s = copied(s)
    s.timestamp = min(max(0, s.timestamp + r.choice([-675, -337, 0, 0, 0, 337, 338, 675, 1350])), HEAD.of.timestamp.most)
    s.id = g.sid()
    for e in s.entries:
        e.mac = g.mac()
        for x in [e] + e.peers:
            x.units = min(max(0, x.units + r.choice([-2, -1, 0, 0, 0, 1, 2])), ENTRY.of.units.most) if g.p(0.6) else x.units
    e = r.choice(s.entries[1:-1] or s.entries)
    x = r.random()
    if x < 0.25:
        e.ingress = r.randint(0, 4)
    elif x < 0.35 and len(s.entries) > 2:
        e.isd_as = r.choice([a for a in others if a not in {x.isd_as for x in s.entries}])
    elif x < 0.4:
        e.egress = r.randint(1, 3)
    return s


def turned(s):
    """A core segment from its other end: the same links, the other way round."""
    s = copied(s)
    s.entries.reverse()
    for e in s.entries:
        e.ingress, e.egress = e.egress, e.ingress
    return s


def prof_reissued(g):
    """Only by --profile: a few segments, each issued several times: copies of a route, which live longer, shorter and as long; beside loops."""
    r = g.r
    g.zero = r.choice([0.0, 0.0, 0.0, 0.1])
    g.ifs = r.choice([1, 2, 2, 4])
    a, b, x, y, m, n, *others = g.asn(9)
    late = g.p(0.05)
    lives = r.choice([[3, 4, 5], [63], [0, 1, 255]])
    def seg(*path):
        k = len(path)
        s = Segment(HEAD.of.timestamp.most - 1200 if late else r.choice([1000000, 1000675]), g.sid(), [
            g.entry(p, 0 if i == 0 else g.ifid(), 0 if i == k - 1 else g.ifid()) for i, p in enumerate(path)])
        for e in s.entries:
            e.units = r.choice(lives)
        return s
    cores = [seg(*p) for p in r.choice([[], [(x, y)], [(y, x)], [(x, others[0], y)], [(y, x), (x, y)]])]
    tops = r.choice([(x, x), (x, y)])
    ups = [seg(tops[0], m, a)] + [seg(tops[0], *r.choice([(m,), (n,), (), (m, n)]), a) for _ in range(r.randint(0, 1))]
    downs = [seg(tops[1], r.choice([m, n]), b)] + [seg(tops[1], *r.choice([(m,), (n,), (), (n, m)]), b) for _ in range(r.randint(0, 1))]
    noncores = ups + downs
    if g.p(0.3):
        # A peering link between the two sides.
        u, d = r.choice(ups).entries[-1], r.choice(downs).entries[-1]
        u.peers.append(g.peer(d.isd_as, 8, 7))
        d.peers.append(g.peer(u.isd_as, 7, 8))
    for l in (cores, noncores):
        for _ in range(r.randint(0, 8) if l else 0):
            l.insert(r.randint(0, len(l)), reissue(g, r.choice(l), others))
    if cores and g.p(0.4):
        cores.append(turned(r.choice(cores)))
    return (a, b, cores, noncores) if g.p(0.9) else (b, a, cores, noncores)


def prof_bad(g):
    """Mostly books that are refused: damaged, cut, over the limits."""
    r = g.r
    s, d, cores, noncores = prof_small(g)
    b = bytearray(layout.book(cores, noncores))
    k = r.randrange(9)
    if k == 0:
        b = b[:r.randrange(len(b) + 1)]
    elif k == 1:
        b += bytes(r.randint(1, 30))
    elif k == 2:
        b += bytes(MAX_BOOK + r.choice([0, 1]) - len(b))
    elif k == 3:
        noncores += [Segment() for _ in range(MAX_SEGMENTS + 1 - len(cores) - len(noncores) - r.randint(0, 1))]
        b = bytearray(layout.book(cores, noncores))
    elif k == 4:
        noncores.append(soup_seg(g, g.asn(MAX_ENTRIES + 2), [], MAX_ENTRIES + r.choice([0, 1, 2])))
        b = bytearray(layout.book(cores, noncores))
    elif k == 5:
        n = soup_seg(g, g.asn(4), [], 3)
        e = r.choice(n.entries)
        e.peers = [g.peer(1, 2, 3) for _ in range(MAX_PEERS + r.choice([0, 1, 1, 5]))]
        noncores.append(n)
        b = bytearray(layout.book(cores, noncores))
    elif k == 6:
        for _ in range(r.randint(1, 3)):
            if b:
                b[r.randrange(min(len(b), 60))] = r.randrange(256)
    elif k == 7:
        for _ in range(r.randint(1, 3)):
            if b:
                b[r.randrange(len(b))] = r.randrange(256)
    else:
        # Body lengths moved between two heads.
        n = len(cores) + len(noncores)
        if n > 1:
            i, j = r.sample(range(n), 2)
            li, lj = (HEAD.get(b, head_place(q), "body_length") for q in (i, j))
            m = r.randint(0, lj)
            HEAD.put(b, head_place(i), "body_length", min(HEAD.of.body_length.most, li + m))
            HEAD.put(b, head_place(j), "body_length", lj - m)
    return s, d, bytes(b)


def repeat(g, s):
    """Gives two entries of a segment one AS: neighbours, the ends, or any two. Now and then one that is almost the same, which is no repeat:
    of another ISD, of another bit anywhere, or of the same last bits alone."""
    r = g.r
    if len(s.entries) < 2:
        s.entries.append(replace(s.entries[0], peers=[]))
    n = len(s.entries)
    k = r.randrange(n - 1)
    i, j = r.choice([(k, k + 1), (0, n - 1), r.sample(range(n), 2)])
    x = r.random()
    bits = 0 if x < 0.6 else 1 << r.randrange(48, 64) if x < 0.8 else 1 << r.randrange(64) if x < 0.9 else r.randrange(1, 1 << 58) << 6
    s.entries[j].isd_as = s.entries[i].isd_as ^ bits


def prof_twice(g):
    """Segments that pass an AS twice, or almost; beside other refusals, before it and after it."""
    r = g.r
    s, d, cores, noncores = r.choice([prof_small, prof_copies, prof_peering, prof_three, prof_network])(g)
    if g.p(0.3) or not any(x.entries for x in cores + noncores):
        l = r.choice([cores, noncores])
        l.insert(r.randint(0, len(l)), soup_seg(g, g.asn(MAX_ENTRIES), [], r.choice([2, MAX_ENTRIES, MAX_ENTRIES])))
    segments = cores + noncores
    filled = [x for x in segments if x.entries]
    for _ in range(r.choice([0, 1, 1, 1, 1, 2])):
        repeat(g, r.choice(filled))
    b = bytearray(layout.book(cores, noncores))
    q = r.randrange(len(segments))
    head, count = head_place(q), len(segments[q].entries)
    k = r.randrange(10)
    if k == 0:
        HEAD.put(b, head, "entry_count", MAX_ENTRIES + r.randint(1, 3))
    elif k == 1:
        HEAD.put(b, head, "body_length", max(0, len(segments[q].body()) + r.choice([-1, 1])))
    elif k == 2:
        # An entry too few or too many for its body.
        HEAD.put(b, head, "entry_count", r.choice([max(0, count - 1), min(MAX_ENTRIES, count + 1)]))
    elif k == 3 and count:
        i = r.randrange(count)
        at = head_place(len(segments)) + sum(len(x.body()) for x in segments[:q]) + len(replace(segments[q], entries=segments[q].entries[:i]).body())
        b[at + ENTRY.at.peer_count] = MAX_PEERS + r.choice([1, 2, 200])
    return s, d, bytes(b)


PROFILES = {
    "tiny": (prof_tiny, 14), "small": (prof_small, 16), "medium": (prof_medium, 10),
    "copies": (prof_copies, 12), "peering": (prof_peering, 14), "three": (prof_three, 10),
    "network": (prof_network, 10), "loops": (prof_loops, 8), "same_ends": (prof_same_ends, 1),
    "bare": (prof_bare, 3), "many": (prof_many, 1.5), "crowd": (prof_crowd, 0.5),
    "flood": (prof_flood, 0.08),
    "limits": (prof_limits, 0.7), "full": (prof_full, 0.3), "longest": (prof_longest, 1),
    "bad": (prof_bad, 2), "twice": (prof_twice, 3), "worst": (prof_worst, 0), "reissued": (prof_reissued, 0),
}


def make(seed, index, profile=None):
    rng = random.Random(f"{seed}/{index}")
    if profile is None:
        names = list(PROFILES)
        profile = rng.choices(names, [PROFILES[n][1] for n in names])[0]
    case = PROFILES[profile][0](Gen(rng))
    if len(case) == 3:
        s, d, b = case
    else:
        s, d, cores, noncores = case
        b = layout.book(cores, noncores)
        # Now and then an end that no segment knows.
        if profile != "same_ends" and rng.random() < 0.01:
            d = 0x0002000000000001
    return profile, ENDS.pack(s, d) + b


def main():
    a = argparse.ArgumentParser()
    a.add_argument("--seed", default="1")
    a.add_argument("--count", type=int, default=20000)
    a.add_argument("--profile")
    a.add_argument("--out", default="-")
    a.add_argument("--index")
    a.add_argument("--list-profiles", action="store_true")
    o = a.parse_args()
    if o.list_profiles:
        print("\n".join(f"{n} {w}: {f.__doc__ or ''}" for n, (f, w) in PROFILES.items()))
        return
    out = sys.stdout.buffer if o.out == "-" else open(o.out, "wb")
    idx = open(o.index, "w") if o.index else None
    for i in range(o.count):
        name, case = make(o.seed, i, o.profile)
        out.write(framed(case))
        if idx:
            idx.write(name + "\n")


if __name__ == "__main__":
    main()
