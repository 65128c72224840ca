"""What an operator may want to know of a book that is accepted."""
from dataclasses import asdict, dataclass

from . import counted, ends, times
from .layout import FINGERPRINTED, MAX_BOOK, PATH_HEAD
from .names import shown


@dataclass
class Note:
    """An oddity that is accepted, with its place: a segment by position, its entries and their peers from 0."""
    kind: str
    words: str
    position: int = None
    entry: int = None
    peer: int = None

    def __str__(self):
        places = [f"{name} {k}" for name, k in (("segment", self.position), ("entry", self.entry), ("peer", self.peer)) if k is not None]
        return f"{', '.join(places)}: {self.words}" if places else self.words

    def as_dict(self):
        return asdict(self)


def counts(book, segments):
    cores = sum(s.core for s in segments)
    return {"core": cores, "non_core": len(segments) - cores, "entries": sum(len(s.entries) for s in segments),
            "peers": sum(len(e.peers) for s in segments for e in s.entries), "bytes": len(book)}


def summary(found):
    return (f"accepted: {found['core']} core and {found['non_core']} non-core segments, {counted(found['entries'], 'entry', 'entries')}, "
            f"{counted(found['peers'], 'peer')}, {found['bytes']} of {MAX_BOOK} bytes")


def above(position, s, names):
    """Position, ends and time of issue of a segment."""
    route = f", {shown(s.entries[0].isd_as, names)} to {shown(s.entries[-1].isd_as, names)}" if s.entries else ""
    return f"position {position}: {counted(len(s.entries), 'entry', 'entries')}{route}, issued {times.written(s.timestamp)}"


def notes(segments, names=None, now=None, between=None):
    """All notes, by segment; on what has run out where a time is given, on the ends where two are."""
    names, found, first, alike = names or {}, [], {}, {}
    links = peering_ends(segments)
    for position, s in enumerate(segments):
        equal = first.setdefault((s.core, s.timestamp, s.id, s.body()), position)
        if equal != position:
            found.append(Note("equal", f"equal to segment {equal}: they count once, as segment {equal}", position))
        elif not s.entries:
            found.append(Note("empty", "no entries: it yields no edges", position))
        else:
            found += at_its_ends(position, s) + of_entries(position, s) + of_peers(position, s, links, names)
            found += reissue(position, segments, alike.setdefault(interfaces(s), position))
            found += run_out(position, s, now) if now is not None else []
    return found + ([Note("end", words) for words in ends.oddities(segments, *between, names)] if between else [])


def at_its_ends(position, s):
    found, last = [], len(s.entries) - 1
    if s.entries[0].ingress:
        found.append(Note("first-ingress", f"ingress {s.entries[0].ingress}, and a segment begins without one, at 0", position, 0))
    if s.entries[last].egress:
        found.append(Note("last-egress", f"egress {s.entries[last].egress}, and a segment ends without one, at 0", position, last))
    return found


def of_entries(position, s):
    found, most = [], PATH_HEAD.of.mtu.most
    for k, e in enumerate(s.entries):
        if e.mtu > most:
            words = f"its MTU {e.mtu} is above {most}: only the low {8 * PATH_HEAD.of.mtu.size} bits count, which are {e.mtu & most}"
            found.append(Note("mtu", words, position, k))
        if s.core and e.peers:
            found.append(Note("core-peers", "peers of a core segment yield no edges", position, k))
    return found


def peering_ends(segments):
    """The peering ends (local AS, interface, peer AS, peer interface) that non-core segments give."""
    return {(e.isd_as, p.ingress, p.isd_as, p.interface) for s in segments if not s.core for e in s.entries for p in e.peers}


def of_peers(position, s, links, names):
    return [Note("one-sided", f"no segment has the other end of this link, {shown(p.isd_as, names, p.interface)} to {shown(e.isd_as, names, p.ingress)}",
                 position, k, q)
            for k, e in enumerate(s.entries) for q, p in enumerate(e.peers)
            if not s.core and (p.isd_as, p.interface, e.isd_as, p.ingress) not in links]


# ---- lives

def interfaces(s):
    """What the reissues of a segment share: its kind, and what its fingerprint is worked out of."""
    return s.core, b"".join(FINGERPRINTED.pack_of(e) for e in s.entries)


def end_of(s):
    """When the first hop of a segment's entries runs out."""
    return times.end(s.timestamp, min(e.units for e in s.entries))


def reissue(position, segments, other):
    if other == position:
        return []
    here, there = end_of(segments[position]), end_of(segments[other])
    longer = f"segment {position if here > there else other} lives longer" if here != there else "both live"
    words = f"the same ASes and interfaces as segment {other}, so that one reissues the other: {longer}, until {times.written(max(here, there))}"
    return [Note("reissue", words, position)]


def run_out(position, s, now):
    """The segment, or else those of its peers' hops that have run out before it."""
    if end_of(s) < now:
        return [Note("run-out", f"ran out at {times.written(end_of(s))}", position)]
    return [Note("run-out", f"its hop ran out at {times.written(times.end(s.timestamp, p.units))}", position, k, q)
            for k, e in enumerate(s.entries) for q, p in enumerate(e.peers) if times.end(s.timestamp, p.units) < now]
