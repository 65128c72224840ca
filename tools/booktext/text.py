"""The text form of a book: one line to a segment, entry or peer.

    core timestamp 1000000 id 1234
    non-core timestamp 1000000 id 1234
      entry 1-ff00:0:110 mtu 1500 ingress-mtu 0 ingress 0 egress 5 units 63 mac 010203040506
        peer 1-ff00:0:112 interface 2 mtu 1400 units 63 ingress 9 egress 5 mac f0f1f2f3f4f5

An entry belongs to the segment above it, a peer to the entry above it. The named fields may stand in any order, each once.
`#` at the start of a word begins a comment. Canonical text is what `written` gives: fields in the order of the bytes, two spaces
of indent for an entry, four for a peer, no comments.
"""
import re

from . import BookError, isd_as, times
from .layout import (COUNTS, CROWDED, ENTRY, ENTRY_FIELDS, HEAD, KINDS, LONG, MAX_BOOK, MAX_ENTRIES, MAX_PEERS, MAX_SEGMENTS, OVERSIZE, PEER,
                     PEER_FIELDS, PEERS, SEGMENT_FIELDS, TWICE, WORDS, Entry, Peer, Segment)

DIGITS = re.compile(r"[0-9]+")
COMMENT = re.compile(r"(^|\s)#.*")

# What a line begins with: the fields that follow, and the bytes that it makes in a book.
RECORDS = {**{kind: (SEGMENT_FIELDS, HEAD.size) for kind in KINDS.values()}, "entry": (ENTRY_FIELDS, ENTRY.size), "peer": (PEER_FIELDS, PEER.size)}


# ---- writing

def value(field, number):
    if field.style == "isd-as":
        return isd_as.written(number)
    if field.style == "bytes":
        return number.hex()
    return f"{number:0{2 * field.size}x}" if field.style == "hex" else str(number)


def line(indent, word, record, fields):
    words = [word]
    for f in fields:
        words += [f.name] if f.style != "isd-as" else []
        words.append(value(f, getattr(record, f.attribute)))
    return " " * indent + " ".join(words) + "\n"


def written(segments, note=None):
    """Canonical text; a note, made of position and segment, stands as a comment above each segment."""
    parts = []
    for position, segment in enumerate(segments):
        if note:
            parts.append(f"# {note(position, segment)}\n")
        parts.append(line(0, segment.kind, segment, SEGMENT_FIELDS))
        for entry in segment.entries:
            parts.append(line(2, "entry", entry, ENTRY_FIELDS))
            parts += [line(4, "peer", peer, PEER_FIELDS) for peer in entry.peers]
    return "".join(parts)


# ---- reading

def number_in(field, word):
    """The value of a field; ValueError says what is wrong."""
    if field.style == "isd-as":
        return isd_as.parse(word)
    if field.style in ("hex", "bytes"):
        if not re.fullmatch(f"[0-9a-fA-F]{{{2 * field.size}}}", word):
            raise ValueError(f"{field.name} is written in {2 * field.size} hex digits, not {word!r}")
        return bytes.fromhex(word) if field.style == "bytes" else int(word, 16)
    if field == HEAD.of.timestamp:
        return times.parse(word)
    if not DIGITS.fullmatch(word):
        raise ValueError(f"{field.name} is a number in base ten, not {word!r}")
    if len(word.lstrip("0")) > len(str(field.most)) or int(word) > field.most:
        raise ValueError(f"{field.name} {word} is above {field.most}")
    return int(word)


def values_in(word, fields, words):
    """The fields of one line: the ISD-AS first where there is one, then names with values."""
    values, rest = {}, list(words)
    if fields[0].style == "isd-as":
        if not rest:
            raise ValueError(f"{word} without its ISD-AS")
        values[fields[0].attribute] = number_in(fields[0], rest.pop(0))
    named = {f.name: f for f in fields if f.style != "isd-as"}
    while rest:
        name = rest.pop(0)
        if name not in named:
            raise ValueError(f"{word} has no field {name!r}, its fields are {', '.join(named)}")
        if named[name].attribute in values:
            raise ValueError(f"{name} stands twice")
        if not rest:
            raise ValueError(f"{name} without a value")
        values[named[name].attribute] = number_in(named[name], rest.pop(0))
    lacking = [name for name, f in named.items() if f.attribute not in values]
    if lacking:
        raise ValueError(f"{word} lacks {', '.join(lacking)}")
    return values


class Parser:
    """Segments of lines. `shown` gives the words for an AS. With `repeats` a segment may pass an AS twice, for a book that is to be refused."""

    def __init__(self, shown=isd_as.written, repeats=False):
        self.segments = []
        self.size = COUNTS.size
        self.shown, self.repeats = shown, repeats

    def take(self, words):
        """One line's words; ValueError says what is wrong."""
        word, rest = words[0], words[1:]
        if word not in RECORDS:
            *most, last = RECORDS
            raise ValueError(f"a line begins with {', '.join(most)} or {last}, not {word!r}")
        self.add(word, values_in(word, RECORDS[word][0], rest))

    def add(self, word, values):
        """A segment, entry or peer of these values; ValueError says what is wrong with its place or which limit it passes."""
        if word == "entry":
            self.entry(values)
        elif word == "peer":
            self.peer(values)
        else:
            self.segment(word == KINDS[True], values)
        self.size += RECORDS[word][1]
        if self.size > MAX_BOOK:
            raise ValueError(limit(OVERSIZE, f"the book has {self.size} bytes up to here, at most {MAX_BOOK} are taken"))

    def segment(self, core, values):
        if core and self.segments and not self.segments[-1].core:
            raise ValueError("a core segment below a non-core one: cores stand first, since positions count them first")
        if len(self.segments) == MAX_SEGMENTS:
            raise ValueError(limit(CROWDED, f"more than {MAX_SEGMENTS} segments"))
        self.segments.append(Segment(**values, core=core))

    def entry(self, values):
        if not self.segments:
            raise ValueError("an entry above the first segment")
        entries, here = self.segments[-1].entries, f"segment {len(self.segments) - 1}"
        if len(entries) == MAX_ENTRIES:
            raise ValueError(limit(LONG, f"more than {MAX_ENTRIES} entries in {here}"))
        found, ases = values["isd_as"], [e.isd_as for e in entries]
        if found in ases and not self.repeats:
            words = f"the AS of entry {len(entries)} stands earlier in {here}, at entry {ases.index(found)}: {self.shown(found)}"
            raise ValueError(limit(TWICE, words))
        entries.append(Entry(**values))

    def peer(self, values):
        if not self.segments or not self.segments[-1].entries:
            raise ValueError("a peer with no entry above it in its segment")
        entries = self.segments[-1].entries
        if len(entries[-1].peers) == MAX_PEERS:
            raise ValueError(limit(PEERS, f"more than {MAX_PEERS} peers at entry {len(entries) - 1} of segment {len(self.segments) - 1}"))
        entries[-1].peers.append(Peer(**values))


def limit(number, words):
    return f"{words} (refusal {number}, {WORDS[number]})"


def lines_of(data, name, error=BookError):
    """Number and words of each line that is not blank."""
    for number, raw in enumerate(data.split(b"\n"), 1):
        try:
            # The first line may begin with the mark that some editors put there.
            words = COMMENT.sub("", raw.decode("utf-8-sig" if number == 1 else "utf-8")).split()
        except UnicodeDecodeError:
            raise error(f"{name}:{number}: not UTF-8 text") from None
        if words:
            yield number, words


def parse(data, name="<text>", shown=isd_as.written, repeats=False):
    """The segments that the text (bytes) describes; BookError with name and line number."""
    parser = Parser(shown, repeats)
    for number, words in lines_of(data, name):
        try:
            parser.take(words)
        except ValueError as wrong:
            raise BookError(f"{name}:{number}: {wrong}") from None
    return parser.segments
