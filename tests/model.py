#!/usr/bin/env python3
"""A small model of listing, comparison, assembly, routes, paths on the wire and the printed list, written from docs/SPECIFICATION.md alone.

It shares no code with crates/, and with tools/ only the layout of the bytes: tests and examples use it to tell what the others should answer. Run
as a program it stands in for `list`: source, destination and book on standard input, the printed list on standard output.
"""
import hashlib
import os
import sys
from collections import Counter, namedtuple

sys.path.insert(0, os.path.join(os.path.dirname(os.path.abspath(__file__)), "..", "tools"))
from booktext import layout  # noqa: E402
from booktext.layout import CONSTRUCTION, COUNTS, EDGE, ENDS, ENTRY, HEAD, HOP, INFO, PATH_HEAD, PEER, PEERING, FINGERPRINTED, RECORD_HEAD  # noqa: E402
from booktext.layout import WIRE_HOP, WIRE_INFO, WIRE_META  # noqa: E402

Segment = namedtuple("Segment", "position core timestamp id entries")
Entry = namedtuple("Entry", "isd_as mtu ingress_mtu hop peers")
Peer = namedtuple("Peer", "isd_as interface mtu hop")
Hop = namedtuple("Hop", "units ingress egress mac")
Edge = namedtuple("Edge", "segment start end shortcut peer weight")
Path = namedtuple("Path", "infos hops interfaces mtu expiry")


# ---- the book: docs/SPECIFICATION.md 2 and 9.3

def body_verdict(body, entries):
    at, passed = 0, []
    for _ in range(entries):
        if len(body) - at < ENTRY.size:
            return layout.MISFIT
        entry = ENTRY.unpack(body, at)
        if entry.peer_count > layout.MAX_PEERS:
            return layout.PEERS
        passed.append(entry.isd_as)
        at += ENTRY.size + PEER.size * entry.peer_count
        if at > len(body):
            return layout.MISFIT
    if at != len(body):
        return layout.MISFIT
    return layout.TWICE if len(set(passed)) < len(passed) else 0


def verdict(book):
    """0 for an accepted book, else the number of the refusal."""
    if len(book) > layout.MAX_BOOK:
        return layout.OVERSIZE
    if len(book) < COUNTS.size:
        return layout.CUT
    cores, non_cores, total = COUNTS.unpack(book)
    count = cores + non_cores
    if count > layout.MAX_SEGMENTS:
        return layout.CROWDED
    at = COUNTS.size + HEAD.size * count
    if len(book) < at + total:
        return layout.CUT
    if len(book) > at + total:
        return layout.SURPLUS
    heads = [HEAD.unpack(book, COUNTS.size + HEAD.size * q) for q in range(count)]
    if any(head.entry_count > layout.MAX_ENTRIES for head in heads):
        return layout.LONG
    if sum(head.body_length for head in heads) != total:
        return layout.MISFIT
    for head in heads:
        found = body_verdict(book[at:at + head.body_length], head.entry_count)
        if found:
            return found
        at += head.body_length
    return 0


def hop_of(x):
    return Hop(x.units, x.ingress, x.egress, x.mac)


def segments(book):
    """Those of an accepted book, equal ones once."""
    known, found = set(), []
    for position, s in enumerate(layout.read(book)):
        key = (s.core, s.timestamp, s.id, s.body())
        if key in known:
            continue
        known.add(key)
        entries = [Entry(e.isd_as, e.mtu, e.ingress_mtu, hop_of(e), [Peer(p.isd_as, p.interface, p.mtu, hop_of(p)) for p in e.peers])
                   for e in s.entries]
        found.append(Segment(position, s.core, s.timestamp, s.id, entries))
    return found


# ---- edges and chains: docs/SPECIFICATION.md 3 and 4

def stored(segment):
    """The stored edges of one segment; of those with equal ends, which are peers of one entry or a core of one entry, the last stands."""
    edges, entries = {}, segment.entries
    n = len(entries)

    def store(start, end, shortcut, peer, weight):
        edges[start, end] = Edge(segment, start, end, shortcut, peer, weight)

    if n and segment.core:
        store((entries[0].isd_as,), (entries[-1].isd_as,), 0, None, n - 1)
        store((entries[-1].isd_as,), (entries[0].isd_as,), 0, None, n - 1)
    if n and not segment.core:
        leaf = (entries[-1].isd_as,)
        for i in reversed(range(n)):
            here = entries[i].isd_as
            if i < n - 1:
                store(leaf, (here,), i, None, n - 1 - i)
                store((here,), leaf, i, None, n - 1 - i)
            for p, peer in enumerate(entries[i].peers):
                store(leaf, (here, peer.hop.ingress, peer.isd_as, peer.interface), i, p, n - i)
                store((peer.isd_as, peer.interface, here, peer.hop.ingress), leaf, i, p, n - 1 - i)
    return list(edges.values())


KINDS = {(True,), (False,), (True, False), (False, True), (False, False), (False, True, False)}


def chains(found, source, destination):
    if source == destination:
        return []
    leaving = {}
    for segment in found:
        for edge in stored(segment):
            leaving.setdefault(edge.start, []).append(edge)
    complete = []

    def extend(chain, at):
        for edge in leaving.get(at, []):
            longer = chain + [edge]
            if edge.end == (destination,):
                if tuple(e.segment.core for e in longer) in KINDS:
                    complete.append(longer)
            elif len(longer) < layout.MAX_EDGES:
                extend(longer, edge.end)

    extend([], (source,))
    return complete


# ---- order: docs/SPECIFICATION.md 5

def fingerprint(segment):
    return hashlib.sha256(b"".join(FINGERPRINTED.pack(e.isd_as, e.hop.ingress, e.hop.egress) for e in segment.entries)).digest()


def cost(chain):
    return sum(e.weight for e in chain)


def place(chain):
    return (cost(chain), len(chain),
            [(-1 if e.peer is None else e.peer, -e.shortcut, fingerprint(e.segment)) for e in chain],
            [e.segment.position for e in chain])


def solutions(book, source, destination):
    return sorted(chains(segments(book), source, destination), key=place)


# ---- comparison of two records, of any bytes as book and records: docs/SPECIFICATION.md 5 and 8

def laid(record, data, place):
    """What stands at a place; a byte past the end is 0."""
    return record.unpack(data[place:place + record.size].ljust(record.size, b"\0"))


def fingerprint_at(book, position):
    """Head and body are read where 2.2 and 2.3 place them, also at a position that the sizes do not count. Of the entries past the most that a segment
    may have nothing is taken in."""
    counts = laid(COUNTS, book, 0)
    heads = [laid(HEAD, book, COUNTS.size + HEAD.size * q) for q in range(position + 1)]
    at = COUNTS.size + HEAD.size * (counts.cores + counts.non_cores) + sum(head.body_length for head in heads[:-1])
    message = b""
    for _ in range(min(heads[-1].entry_count, layout.MAX_ENTRIES)):
        entry = laid(ENTRY, book, at)
        message += FINGERPRINTED.pack(entry.isd_as, entry.ingress, entry.egress)
        at += ENTRY.size + PEER.size * entry.peer_count
    return hashlib.sha256(message).digest()


def compare(book, a, b):
    """How record a stands to record b, -1 before it, 0 the same, 1 after it; and how many fingerprints that takes: two for each pair of edges at two
    positions that all keys before leave equal."""
    one, other = (laid(RECORD_HEAD, r, 0) for r in (a, b))
    pairs = [[laid(EDGE, r, RECORD_HEAD.size + EDGE.size * k) for r in (a, b)] for k in range(layout.MAX_EDGES)]
    # The keys in turn: of both records, and how many fingerprints are worked out to tell the two apart.
    keys = [(one.cost, other.cost, 0), (one.edge_count, other.edge_count, 0)]
    for e, f in pairs:
        keys += [(e.peer, f.peer, 0), (-e.shortcut, -f.shortcut, 0)]
        keys.append((fingerprint_at(book, e.position), fingerprint_at(book, f.position), 0 if e.position == f.position else 2))
    keys += [(e.position, f.position, 0) for e, f in pairs]
    digests = 0
    for x, y, worked_out in keys:
        digests += worked_out
        if x != y:
            return -1 if x < y else 1, digests
    return 0, digests


# ---- assembly: docs/SPECIFICATION.md 6

def in_construction(edge):
    return edge.end == (edge.segment.entries[-1].isd_as,)


def fold(segment, below):
    ident = segment.id
    for entry in segment.entries[:below]:
        ident ^= int.from_bytes(entry.hop.mac[:2], "big")
    return ident


def part(edge):
    """What one edge adds to the path: info, hops, interfaces, MTUs, end of its life."""
    entries, s, n = edge.segment.entries, edge.shortcut, len(edge.segment.entries)
    hops, interfaces, mtus = [], [], []
    for i in reversed(range(s, n)):
        entry = entries[i]
        peer = entry.peers[edge.peer] if i == s and edge.peer is not None else None
        hop = peer.hop if peer else entry.hop
        hops.append(hop)
        if peer:
            mtus.append(peer.mtu)
        elif entry.ingress_mtu and not (i == s and s > 0):
            mtus.append(entry.ingress_mtu)
        mtus.append(entry.mtu % (PATH_HEAD.of.mtu.most + 1))
        if hop.egress:
            interfaces.append((entry.isd_as, hop.egress))
        if hop.ingress and (i != s or s == 0 or peer):
            interfaces.append((entry.isd_as, hop.ingress))
    along = in_construction(edge)
    if along:
        hops.reverse()
        interfaces.reverse()
    k = s if along else n - 1
    if edge.peer is not None and s == k:
        k += 1
    flags = (CONSTRUCTION if along else 0) + (PEERING if edge.peer is not None else 0)
    life = (min(h.units for h in hops) + 1) * 675 // 2
    info = (flags, fold(edge.segment, k), edge.segment.timestamp, len(hops))
    return info, hops, interfaces, mtus, min(edge.segment.timestamp + life, PATH_HEAD.of.expiry.most)


def path(chain):
    """The path of a chain, or 'loop' or 'bare'."""
    parts = [part(edge) for edge in chain]
    interfaces = [x for p in parts for x in p[2]]
    if not interfaces:
        return "bare"
    if max(Counter(isd_as for isd_as, _ in interfaces).values()) > 2:
        return "loop"
    return Path([p[0] for p in parts], [h for p in parts for h in p[1]], interfaces,
                min([PATH_HEAD.of.mtu.most] + [m for p in parts for m in p[3]]), min(p[4] for p in parts))


# ---- routes

def routes(book, source, destination):
    """The chains that are listed as routes. The first path of a route, that is of a list of interfaces, gives it its place; a later chain is held
    there only if it lives longer than the one held."""
    held = {}
    for chain in solutions(book, source, destination):
        p = path(chain)
        if not isinstance(p, Path):
            continue
        route = tuple(p.interfaces)
        if route not in held or p.expiry > held[route][1].expiry:
            held[route] = chain, p      # a key that is there keeps its place
    return [chain for chain, _ in held.values()]


def record(chain):
    return layout.solution(cost(chain), *((e.segment.position, e.shortcut, e.peer, CONSTRUCTION if in_construction(e) else 0) for e in chain))


# ---- paths on the wire: docs/SPECIFICATION.md 15

def written(path):
    """The bytes of a path's record on the wire, or None where it has none."""
    if len(path) < PATH_HEAD.size:
        return None
    head = PATH_HEAD.unpack(path)
    hops_at = PATH_HEAD.size + INFO.size * head.info_count
    interfaces_at = hops_at + HOP.size * head.hop_count
    if not 1 <= head.info_count <= layout.MAX_EDGES or len(path) < interfaces_at + layout.INTERFACE_SIZE * head.interface_count:
        return None
    infos = [INFO.unpack(path, at) for at in range(PATH_HEAD.size, hops_at, INFO.size)]
    hops = [HOP.unpack(path, at) for at in range(hops_at, interfaces_at, HOP.size)]
    if any(i.flags > CONSTRUCTION + PEERING or not 1 <= i.hop_count <= layout.MAX_ENTRIES for i in infos):
        return None
    if sum(i.hop_count for i in infos) != len(hops):
        return None
    meta = WIRE_META.pack(0, 0, 0, *(i.hop_count for i in infos))
    return meta + b"".join([WIRE_INFO.pack(i.flags, 0, i.id, i.timestamp) for i in infos] + [WIRE_HOP.pack(0, *h) for h in hops])


def record_of(wire):
    """The record that is written as these bytes and has nothing but its counts, infos and hops, or None where there is none."""
    if len(wire) < WIRE_META.size:
        return None
    lengths = WIRE_META.unpack(wire)[-layout.MAX_EDGES:]
    used = lengths[:lengths.index(0)] if 0 in lengths else lengths
    hops_at = WIRE_META.size + WIRE_INFO.size * len(used)
    end = hops_at + WIRE_HOP.size * sum(used)
    if len(wire) < end:
        return None
    infos = [WIRE_INFO.unpack(wire, at) for at in range(WIRE_META.size, hops_at, WIRE_INFO.size)]
    hops = [WIRE_HOP.unpack(wire, at) for at in range(hops_at, end, WIRE_HOP.size)]
    record = PATH_HEAD.pack(info_count=len(used), hop_count=len(hops))
    record += b"".join([INFO.pack(i.flags, n, i.id, i.timestamp) for i, n in zip(infos, used)] + [HOP.pack(*h[1:]) for h in hops])
    return record if written(record) == wire else None


def carried(found, out_len, least):
    """The number that is answered, and all bytes of the output."""
    if out_len < least:
        return layout.REFUSED + layout.SMALL, bytes(out_len)
    if found is None:
        return layout.REFUSED + layout.WIRE, bytes(out_len)
    return len(found), found.ljust(out_len, b"\0")


def write(path, out_len):
    return carried(written(path), out_len, layout.WIRE_SIZE)


def read(wire, out_len):
    return carried(record_of(wire), out_len, layout.PATH_SIZE)


# ---- the printed list: docs/SPECIFICATION.md 10

def printed(data):
    if len(data) < ENDS.size:
        return f"refused {layout.CUT}\n"
    (source, destination), book = ENDS.unpack(data), data[ENDS.size:]
    refusal = verdict(book)
    if refusal:
        return f"refused {refusal}\n"
    found = solutions(book, source, destination)
    if len(found) > layout.MAX_SOLUTIONS:
        return f"refused {layout.FULL}\n"
    paths = [path(chain) for chain in found]
    lines = [f"solutions {len(found)} paths {sum(isinstance(p, Path) for p in paths)}"]
    for k, (chain, p) in enumerate(zip(found, paths), 1):
        start = f"{k} cost {cost(chain)} segments {len(chain)}"
        if not isinstance(p, Path):
            lines.append(f"{start} {p}")
            continue
        lines.append(f"{start} mtu {p.mtu} expiry {p.expiry} hops {len(p.hops)}")
        lines += [f"info {flags} {ident:04x} {timestamp}" for flags, ident, timestamp, _ in p.infos]
        lines += [f"if {isd_as:016x} {interface}" for isd_as, interface in p.interfaces]
    return "".join(line + "\n" for line in lines)


if __name__ == "__main__":
    sys.stdout.write(printed(sys.stdin.buffer.read()))
