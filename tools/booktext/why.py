"""Why a path is as it is: the segments that it uses, what sets its MTU and its expiry, and by which key it stands after the one before it.

All of it is worked out of the solutions' records and the segments of the book, after docs/SPECIFICATION.md 5 and 6. Where that differs from what
the library answered, the reasons say so as an error.
"""
import hashlib
from dataclasses import dataclass, field, replace
from typing import Any, Dict, List, NamedTuple, Optional, Tuple

from . import isd_as, printed, times, wire
from .layout import FINGERPRINTED, PATH_HEAD

MAX_MTU = PATH_HEAD.of.mtu.most
TWICE = 2       # interfaces of one AS that a path may show


def fingerprint(segment):
    """1.8"""
    return hashlib.sha256(b"".join(map(FINGERPRINTED.pack_of, segment.entries))).digest()


# ---- hops: 6.1 to 6.8

class Hop(NamedTuple):
    """What an edge gives of one entry: its regular hop, or at the edge's end the hop of a peer."""
    position: int
    index: int                  # of the entry
    segment: Any
    entry: Any
    peer: Optional[int]         # index of the peer
    at_shortcut: bool           # a regular hop at which the edge leaves the segment: its ingress is not passed

    @property
    def fields(self):
        return self.entry if self.peer is None else self.entry.peers[self.peer]

    @property
    def expiry(self):
        return times.end(self.segment.timestamp, self.fields.units)

    @property
    def interfaces(self):
        """Those passed, in the order of travel against construction."""
        found = [self.fields.egress] if self.at_shortcut else [self.fields.egress, self.fields.ingress]
        return [(self.entry.isd_as, ident) for ident in found if ident]

    @property
    def mtus(self):
        """The numbers that bound the MTU, each with its kind."""
        found = [("as", self.entry.mtu & MAX_MTU)]
        if self.peer is not None:
            found.append(("peer", self.fields.mtu))
        elif self.entry.ingress_mtu and not self.at_shortcut:
            found.append(("ingress", self.entry.ingress_mtu))
        return found


def hops_of(segments, edge):
    """The hops of an edge, in the order of travel."""
    segment, s = segments[edge.position], edge.shortcut
    indexes = range(s, len(segment.entries))
    return [Hop(edge.position, i, segment, segment.entries[i], edge.peer if i == s else None, i == s and s > 0 and edge.peer is None)
            for i in (indexes if edge.construction else reversed(indexes))]


def interfaces_of(edge, hops):
    """The interfaces of an edge, in the order of travel."""
    return [x for hop in hops for x in (reversed(hop.interfaces) if edge.construction else hop.interfaces)]


def weight(segments, edge):
    """3.3 to 3.5: an edge that ends at a peering link counts the link too."""
    return len(segments[edge.position].entries) - 1 - edge.shortcut + (edge.peer is not None and not edge.construction)


def stands(segments, edge):
    """Does the book have what the edge names?"""
    entries = segments[edge.position].entries if edge.position < len(segments) else []
    return edge.shortcut < len(entries) and (edge.peer is None or edge.peer < len(entries[edge.shortcut].peers))


# ---- order: 5

class Key(NamedTuple):
    name: str
    edge: Optional[int]     # from 0, of the keys of an edge
    value: Any
    rank: Any               # what is compared: the smaller stands first


class After(NamedTuple):
    """The first key in which a solution differs from the one before it."""
    number: int             # of the one before
    key: Key
    before: Key
    firsts: Optional[Tuple[int, int]] = None    # of two routes: the numbers of the solutions whose places they have


class Order:
    def __init__(self, segments):
        self.segments = segments
        self.known: Dict[int, bytes] = {}

    def fingerprint(self, position):
        if position not in self.known:
            self.known[position] = fingerprint(self.segments[position])
        return self.known[position]

    def keys(self, record):
        """All keys of a solution, in turn."""
        yield Key("cost", None, record.cost, record.cost)
        yield Key("segments", None, len(record.edges), len(record.edges))
        for k, e in enumerate(record.edges):
            yield Key("peer", k, e.peer, -1 if e.peer is None else e.peer)
            yield Key("shortcut", k, e.shortcut, -e.shortcut)
            yield Key("fingerprint", k, self.fingerprint(e.position).hex(), self.fingerprint(e.position))
        for k, e in enumerate(record.edges):
            yield Key("position", k, e.position, e.position)

    def after(self, solution, before):
        for key, other in zip(self.keys(solution.record), self.keys(before.record)):
            if key.rank != other.rank:
                return After(before.number, key, other)
        return None


# ---- reasons

class Least(NamedTuple):
    """A least number, the hop that first has it in the order of travel, and how often it stands besides."""
    number: int
    kind: str
    hop: Hop
    others: int


@dataclass
class Reasons:
    edges: Tuple[Any, ...]
    hops: List[List[Hop]] = field(default_factory=list)     # of each edge
    mtu: Optional[Least] = None
    expiry: Optional[Least] = None
    run_out: Optional[bool] = None
    loops: List[Tuple[int, List[int]]] = field(default_factory=list)    # ASes shown more than twice, with their interfaces
    after: Optional[After] = None
    errors: List[str] = field(default_factory=list)


def least(found):
    """Of (kind, number, hop)."""
    number = min(n for _, n, _ in found)
    having = [(kind, hop) for kind, n, hop in found if n == number]
    return Least(number, *having[0], len(having) - 1)


def has_run_out(solution, now):
    """The expiry is the time after which a hop is no longer valid."""
    return now > solution.expiry


def route(interfaces):
    return " ".join(f"{isd_as.written(isd_asn)}#{ident}" for isd_asn, ident in interfaces)


def shown_often(interfaces):
    ids: Dict[int, List[int]] = {}
    for isd_asn, ident in interfaces:
        ids.setdefault(isd_asn, []).append(ident)
    return [(isd_asn, found) for isd_asn, found in ids.items() if len(found) > TWICE]


def reasons_of(segments, solution, now):
    """Those of one solution, without its place in the list."""
    edges = solution.record.edges
    found = Reasons(edges)
    found.errors = [f"its record names what the book does not have: segment {e.position}, entry {e.shortcut}" for e in edges if not stands(segments, e)]
    if not edges:
        found.errors = ["its record has no edges"]
    if found.errors:
        return found
    found.hops = [hops_of(segments, e) for e in edges]
    hops = [hop for part in found.hops for hop in part]
    interfaces = [x for e, part in zip(edges, found.hops) for x in interfaces_of(e, part)]
    found.loops = shown_often(interfaces)
    outcome = "loop" if found.loops else "path" if interfaces else "bare"
    worked = [("cost", sum(weight(segments, e) for e in edges), solution.cost), ("outcome", outcome, solution.outcome)]
    if solution.outcome == "path":
        found.mtu = least([(kind, n, hop) for hop in hops for kind, n in hop.mtus])
        found.expiry = least([("hop", hop.expiry, hop) for hop in hops])
        found.run_out = has_run_out(solution, now)
        worked += [("MTU", found.mtu.number, solution.mtu), ("expiry", found.expiry.number, solution.expiry),
                   ("list of interfaces", route(interfaces), route(solution.interfaces))]
    if solution.wire is not None:
        worked.append(("path on the wire", wire.worked_out(solution.path).hex(), solution.wire.hex()))
    found.errors = [f"the {what} is {answered}, worked out here it is {here}" for what, here, answered in worked if here != answered]
    return found


def reasons(segments, solutions, now):
    """The reasons of each solution of a list, which has their records."""
    order, found = Order(segments), []
    for k, solution in enumerate(solutions):
        here = reasons_of(segments, solution, now)
        found.append(here)
        # A record that names nothing has no place either.
        if k and here.hops and found[k - 1].hops:
            after = order.after(solution, solutions[k - 1])
            if after and after.key.rank > after.before.rank:
                here.after = after
            else:
                here.errors.append(f"it does not stand after {solutions[k - 1].number} by any key")
    return found


def of_routes(segments, routes, solutions, found):
    """The reasons of routes, of those of all solutions. A route stands where the first of its solutions does."""
    order, known, made = Order(segments), {s.number: r for s, r in zip(solutions, found)}, []
    for k, route in enumerate(routes):
        after = None
        if k and all(known[r.first.number].hops for r in routes[k - 1:k + 1]):
            after = order.after(route.first, routes[k - 1].first)
            after = after and after._replace(number=routes[k - 1].number, firsts=(route.first.number, routes[k - 1].first.number))
        made.append(replace(known[route.held.number], after=after))
    return made


# ---- in words

ORDINALS = "first", "second", "third"
KEYS = {"cost": "cost", "segments": "number of segments", "peer": "peer", "shortcut": "shortcut", "fingerprint": "fingerprint", "position": "position"}
VALUES = {"peer": lambda peer: "none" if peer is None else f"peer {peer}", "shortcut": lambda entry: f"entry {entry}"}
RULES = {"peer": "none stands first, then the lower", "shortcut": "the later entry stands first", "fingerprint": "the lower stands first"}


def shortened(one, other, least_digits=8):
    """The digits of two fingerprints, up to the byte in which they differ."""
    byte = next(k for k in range(0, len(one), 2) if one[k:k + 2] != other[k:k + 2])
    digits = max(byte + 2, least_digits)
    return f"{one[:digits]}...", f"{other[:digits]}..."


def place(hop, peer=True):
    return f"segment {hop.position}, entry {hop.index}" + (f", peer {hop.peer}" if peer and hop.peer is not None else "")


class Words:
    """The lines of reasons. Names are those to show for ASes."""

    def __init__(self, names, now):
        self.names, self.now = names, now

    def name(self, isd_asn, ident=None):
        name = f" ({self.names[isd_asn]})" if isd_asn in self.names else ""
        return isd_as.written(isd_asn) + ("" if ident is None else f"#{ident}") + name

    def use(self, edge, hops):
        segment, first, last = hops[0].segment, hops[0].index, hops[-1].index
        issue = f"segment {edge.position} ({segment.kind}, id {segment.id:04x}, issued {times.written(segment.timestamp)})"
        part = f"entry {first}" if first == last else f"entries {first} to {last}"
        if edge.peer is not None:
            return f"uses {issue}: " + (f"in by peer {edge.peer}, then {part}" if edge.construction else f"{part}, then out by peer {edge.peer}")
        return f"uses {issue}: {part}{', a shortcut' if edge.shortcut else ''}"

    def link(self, kind, hop):
        """What a number of a kind of MTU is about."""
        here = hop.entry.isd_as
        if kind == "peer":
            return f"peer MTU of the link {self.name(here, hop.fields.ingress)} to {self.name(hop.fields.isd_as, hop.fields.interface)}"
        if kind == "ingress" and hop.index:
            above = hop.segment.entries[hop.index - 1]
            return f"ingress MTU of the link {self.name(above.isd_as, above.egress)} to {self.name(here, hop.entry.ingress)}"
        if kind == "ingress":
            return f"ingress MTU of the link at {self.name(here, hop.entry.ingress)}"
        cut = f" {hop.entry.mtu}, of which the low 16 bits count," if hop.entry.mtu > MAX_MTU else ""
        return f"AS MTU{cut} of {self.name(here)}"

    def mtu(self, found):
        more = f"; {found.others} more as small" if found.others else ""
        return f"MTU {found.number}: {self.link(found.kind, found.hop)}, {place(found.hop, found.kind == 'peer')}{more}"

    def expiry(self, found):
        hop, units = found.hop, found.hop.fields.units
        more = f"; {found.others} more as early" if found.others else ""
        return (f"expires {times.written(found.number)}: hop of {self.name(hop.entry.isd_as)}, {place(hop)}, "
                f"whose {units} units are {times.life(units)} seconds from its issue{more}")

    def run_out(self, run_out):
        return f"has {'' if run_out else 'not '}run out: it is {times.written(self.now)}"

    def after(self, after):
        name = after.key.name
        where = "" if after.key.edge is None else f" of the {ORDINALS[after.key.edge]} segment"
        one, other = (VALUES.get(name, str)(key.value) for key in (after.key, after.before))
        if name == "fingerprint":
            one, other = shortened(one, other)
        rule = f" ({RULES[name]})" if name in RULES else ""
        firsts = ", as solution {} after solution {},".format(*after.firsts) if after.firsts else ""
        return f"stands after {after.number}{firsts} by {KEYS[name]}{where}: {one} against {other}{rule}"

    def lines(self, found, outcome, more=()):
        lines = [self.use(edge, hops) for edge, hops in zip(found.edges, found.hops)]
        if outcome == "path" and found.hops:
            lines += [self.mtu(found.mtu), self.expiry(found.expiry), self.run_out(found.run_out)]
        lines += [f"no path: {self.name(isd_asn)} is shown at {len(ids)} interfaces ({', '.join(map(str, ids))}), more than twice"
                  for isd_asn, ids in found.loops if outcome == "loop"]
        lines += ["no path: there are no interfaces"] if outcome == "bare" else []
        lines += [*more, *([self.after(found.after)] if found.after else [])]
        return indented(lines + [f"error: {wrong}" for wrong in found.errors])


def indented(lines):
    return "".join(f"  {line}\n" for line in lines)


def told(solutions, found, names, now, more=None):
    """The lines of each solution with names to their right, its reasons below, what more there is to say of each, and its bytes on the wire.

    Where there are no reasons, `found` is None."""
    words, told = Words(names, now), ""
    for k, s in enumerate(solutions):
        further = more[k] if more else ()
        told += printed.with_names(printed.solution_lines(s), names) + (words.lines(found[k], s.outcome, further) if found else indented(further))
        told += wire.told(s)
    return told
