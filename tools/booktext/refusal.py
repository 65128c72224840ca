"""Whether a book is accepted: the refusals about a book alone, in words and with their places."""
from dataclasses import dataclass

from . import BookError, counted, layout
from .layout import (COUNTS, CROWDED, CUT, ENTRY, HEAD, KINDS, LONG, MAX_BOOK, MAX_ENTRIES, MAX_PEERS, MAX_SEGMENTS, MISFIT, OVERSIZE, PEER, PEERS,
                     SURPLUS, TWICE, WORDS, head_place)
from .names import shown


@dataclass
class Refusal:
    """A refusal with its place: segments by position, entries from 0, as the format counts them. Of Twice the earlier entry too, and the AS of both."""
    number: int
    reason: str
    position: int = None
    entry: int = None
    byte: int = None
    core: bool = None
    earlier: int = None
    isd_as: int = None

    @property
    def place(self):
        words = []
        if self.position is not None:
            words.append(f"segment {self.position} ({KINDS[self.core]})")
        if self.entry is not None:
            words.append(f"entry {self.entry}")
        if self.byte is not None:
            words.append(f"byte {self.byte}")
        return ", ".join(words)

    def __str__(self):
        place = f", at {self.place}" if self.place else ""
        return f"refused {self.number} ({WORDS[self.number]}){place}: {self.reason}"


class Reader:
    """The counts and heads of a book, with the places of its bodies. It may be cut short anywhere."""

    def __init__(self, book):
        self.book = book
        self.cores, self.others, self.total = (COUNTS.get(book, 0, name) for name in ("cores", "non_cores", "bodies"))
        self.count = self.cores + self.others
        self.bodies = head_place(self.count)
        self.whole = self.bodies + self.total

    def is_core(self, position):
        return position < self.cores

    def entry_count(self, position):
        return HEAD.get(self.book, head_place(position), "entry_count")

    def body_length(self, position):
        return HEAD.get(self.book, head_place(position), "body_length")

    def body_start(self, position):
        return self.bodies + sum(map(self.body_length, range(position)))

    def peer_count(self, entry_at):
        return ENTRY.get(self.book, entry_at, "peer_count")

    def isd_as(self, entry_at):
        return ENTRY.get(self.book, entry_at, "isd_as")

    def refusal(self, number, reason, position=None, entry=None, byte=None, **more):
        core = None if position is None else self.is_core(position)
        return Refusal(number, reason, position, entry, byte, core, **more)


def verdict(book, names=None):
    """None for an accepted book, else the refusal that the order of tests in docs/SPECIFICATION.md 9.3 finds first."""
    if len(book) > MAX_BOOK:
        return Refusal(OVERSIZE, f"the book has {len(book)} bytes, at most {MAX_BOOK} are taken")
    if len(book) < COUNTS.size:
        return Refusal(CUT, f"the book has {counted(len(book), 'byte')}, its sizes alone take {COUNTS.size}", byte=len(book))
    r = Reader(book)
    if r.count > MAX_SEGMENTS:
        return Refusal(CROWDED, f"{r.cores} core and {r.others} non-core segments are {r.count}, at most {MAX_SEGMENTS} are taken")
    if len(book) < r.whole:
        return cut(r)
    if len(book) > r.whole:
        return Refusal(SURPLUS, f"{r.cores} core and {r.others} non-core segments with bodies of {counted(r.total, 'byte')} make a book of "
                          f"{r.whole}, this one has {len(book)}", byte=r.whole)
    for position in range(r.count):
        entries = r.entry_count(position)
        if entries > MAX_ENTRIES:
            return r.refusal(LONG, f"its head counts {entries} entries, at most {MAX_ENTRIES} are taken", position, byte=head_place(position))
    lengths = sum(map(r.body_length, range(r.count)))
    if lengths != r.total:
        return Refusal(MISFIT, f"the body lengths in the heads sum to {lengths}, the sizes say {r.total}", byte=COUNTS.at.bodies)
    for position in range(r.count):
        found = body_verdict(r, position, names or {})
        if found:
            return found
    return None


def body_verdict(r, position, names):
    at, entries = r.body_start(position), r.entry_count(position)
    end, places = at + r.body_length(position), []
    for entry in range(entries):
        if end - at < ENTRY.size:
            return r.refusal(MISFIT, f"{counted(end - at, 'byte')} left in the body for an entry of {ENTRY.size} "
                                f"(its head counts {counted(entries, 'entry', 'entries')})", position, entry, at)
        peers = r.peer_count(at)
        if peers > MAX_PEERS:
            return r.refusal(PEERS, f"it counts {peers} peers, at most {MAX_PEERS} are taken", position, entry, at + ENTRY.at.peer_count)
        if end - at < ENTRY.size + PEER.size * peers:
            return r.refusal(MISFIT, f"{counted(end - at - ENTRY.size, 'byte')} left in the body for {counted(peers, 'peer')} of {PEER.size}",
                             position, entry, at + ENTRY.size)
        places.append(at)
        at += ENTRY.size + PEER.size * peers
    if at < end:
        return r.refusal(MISFIT, f"{counted(end - at, 'byte')} left in the body after its {counted(entries, 'entry', 'entries')}", position, byte=at)
    return twice(r, position, places, names)


def twice(r, position, places, names):
    """The first entry whose AS stands earlier among the entries at these places."""
    first = {}
    for entry, at in enumerate(places):
        found = r.isd_as(at)
        earlier = first.setdefault(found, entry)
        if earlier != entry:
            reason = f"its AS stands earlier in the segment, at entry {earlier}: {shown(found, names)}"
            return r.refusal(TWICE, reason, position, entry, at + ENTRY.at.isd_as, earlier=earlier, isd_as=found)
    return None


def cut(r):
    """Answer 1 for a book shorter than its sizes say: in which head, or in which body and entry, it ends."""
    end = len(r.book)
    reason = f"{r.cores} core and {r.others} non-core segments with bodies of {counted(r.total, 'byte')} make a book of {r.whole}, this one ends at {end}"
    if end < r.bodies:
        return r.refusal(CUT, f"{reason}, in a head", (end - COUNTS.size) // HEAD.size, byte=end)
    for position in range(r.count):
        at = r.body_start(position)
        if end >= at + r.body_length(position):
            continue
        for entry in range(r.entry_count(position)):
            if end < at + ENTRY.size:
                return r.refusal(CUT, reason, position, entry, end)
            at += ENTRY.size + PEER.size * r.peer_count(at)
            if end < at:
                return r.refusal(CUT, f"{reason}, in a peer", position, entry, end)
        return r.refusal(CUT, reason, position, byte=end)
    return r.refusal(CUT, reason, byte=end)


def read(book):
    """The segments of an accepted book; BookError for a refused one."""
    refused = verdict(book)
    if refused:
        raise BookError(str(refused))
    return layout.read(book)
