"""Books, solution records, path records and paths on the wire as bytes: every size, place, limit and number of theirs that Python code uses, each once.

Books stand in docs/SPECIFICATION.md 2, records in 8, answers in 9, limits in 11, paths on the wire in 15. tests/layout holds all this to
include/combinator.h, to the Rust beside it and to the proved code. Bytes are only laid out and read here; what is accepted, and what it means, is said
elsewhere.
"""
import struct
from collections import namedtuple
from dataclasses import dataclass, field, make_dataclass
from operator import attrgetter
from typing import NamedTuple


class Field(NamedTuple):
    name: str
    size: int
    style: str = "number"  # how it is written in text: number, hex, isd-as; bytes, in hex too, are no number

    @property
    def attribute(self):
        return self.name.replace("-", "_")

    @property
    def zero(self):
        return bytes(self.size) if self.style == "bytes" else 0

    @property
    def most(self):
        return (1 << 8 * self.size) - 1


class Record:
    """Fields one after the other, big-endian. The names of the header's constants begin with `prefix`; its size is `size_name` there."""

    CODES = {1: "B", 2: "H", 4: "I", 8: "Q"}

    def __init__(self, prefix, *fields, size_name="SIZE"):
        self.prefix, self.fields, self.size_name = prefix, fields, f"{prefix}_{size_name}"
        names = [f.attribute for f in fields]
        self.of = namedtuple("Fields", names)(*fields)
        self.at = namedtuple("Places", names)(*(sum(f.size for f in fields[:k]) for k in range(len(fields))))
        self.values = namedtuple("Values", names, defaults=[f.zero for f in fields])
        # A number of other bytes than struct knows goes through it as bytes.
        self.odd = [k for k, f in enumerate(fields) if f.style != "bytes" and f.size not in self.CODES]
        self.form = struct.Struct(">" + "".join(f"{f.size}s" if f.style == "bytes" or k in self.odd else self.CODES[f.size] for k, f in enumerate(fields)))
        self.size = self.form.size
        self.values_of = attrgetter(*names)

    def laid(self, values):
        if self.odd:
            values = [v.to_bytes(self.fields[k].size, "big") if k in self.odd else v for k, v in enumerate(values)]
        return self.form.pack(*values)

    def pack(self, *values, **named):
        """Fields that are not given are zero."""
        return self.laid(self.values(*values, **named))

    def pack_of(self, made):
        """Of what has the fields as attributes."""
        return self.laid(self.values_of(made))

    def unpack(self, data, at=0):
        values = self.form.unpack_from(data, at)
        if self.odd:
            values = [int.from_bytes(v, "big") if k in self.odd else v for k, v in enumerate(values)]
        return self.values(*values)

    def get(self, data, at, name):
        """One number; bytes past the end are left out."""
        start = at + getattr(self.at, name)
        return int.from_bytes(data[start:start + getattr(self.of, name).size], "big")

    def put(self, data, at, name, number):
        start, size = at + getattr(self.at, name), getattr(self.of, name).size
        data[start:start + size] = number.to_bytes(size, "big")


class Bits:
    """Numbers of so many bits each, from the high end of one big-endian number down."""

    def __init__(self, **bits):
        self.bits, self.size = bits, sum(bits.values()) // 8
        self.values = namedtuple("Values", bits, defaults=[0] * len(bits))

    def pack(self, *values, **named):
        """Numbers that are not given are zero."""
        whole = 0
        for bits, value in zip(self.bits.values(), self.values(*values, **named)):
            whole = whole << bits | value
        return whole.to_bytes(self.size, "big")

    def unpack(self, data):
        whole, found = int.from_bytes(data[:self.size], "big"), []
        for bits in reversed([*self.bits.values()]):
            found.append(whole & (1 << bits) - 1)
            whole >>= bits
        return self.values(*reversed(found))


# ---- limits

MAX_BOOK = 61440        # bytes
MAX_SEGMENTS = 64
MAX_ENTRIES = 16        # of a segment
MAX_PEERS = 4           # of an entry
MAX_EDGES = 3           # of a solution
MAX_SOLUTIONS = 4096    # slots
MAX_HOPS = MAX_EDGES * MAX_ENTRIES
MAX_INTERFACES = 2 * MAX_HOPS

# ---- records

AS_SIZE = 8
MAC_SIZE = 6
INTERFACE_ID_SIZE = 2
INTERFACE_SIZE = AS_SIZE + INTERFACE_ID_SIZE

# Before the book in every case and in the input of the program that lists.
ENDS = Record("ENDS", Field("source", AS_SIZE), Field("destination", AS_SIZE))

COUNTS = Record("COUNTS", Field("cores", 2), Field("non-cores", 2), Field("bodies", 4))
HEAD = Record("HEAD", Field("timestamp", 4), Field("id", 2, "hex"), Field("entry-count", 2), Field("body-length", 2))
ENTRY = Record("ENTRY", Field("isd-as", AS_SIZE, "isd-as"), Field("mtu", 4), Field("ingress-mtu", 2), Field("ingress", INTERFACE_ID_SIZE),
               Field("egress", INTERFACE_ID_SIZE), Field("units", 1), Field("mac", MAC_SIZE, "bytes"), Field("peer-count", 1))
PEER = Record("PEER", Field("isd-as", AS_SIZE, "isd-as"), Field("interface", INTERFACE_ID_SIZE), Field("mtu", 2), Field("units", 1),
              Field("ingress", INTERFACE_ID_SIZE), Field("egress", INTERFACE_ID_SIZE), Field("mac", MAC_SIZE, "bytes"))

RECORD_HEAD = Record("RECORD", Field("cost", 2), Field("edge-count", 1), Field("zero", 1), size_name="HEAD_SIZE")
EDGE = Record("EDGE", Field("position", 1), Field("shortcut", 1), Field("peer", 1), Field("direction", 1))
RECORD_SIZE = RECORD_HEAD.size + MAX_EDGES * EDGE.size
LIST_SIZE = MAX_SOLUTIONS * RECORD_SIZE

PATH_HEAD = Record("PATH", Field("info-count", 1), Field("hop-count", 1), Field("interface-count", 1), Field("zero", 1), Field("mtu", 2),
                   Field("expiry", 4), Field("first-as", AS_SIZE), Field("last-as", AS_SIZE), size_name="HEAD_SIZE")
INFO = Record("INFO", Field("flags", 1), Field("hop-count", 1), Field("id", 2), Field("timestamp", 4))
HOP = Record("HOP", Field("units", 1), Field("ingress", INTERFACE_ID_SIZE), Field("egress", INTERFACE_ID_SIZE), Field("mac", MAC_SIZE, "bytes"))
PATH_SIZE = PATH_HEAD.size + MAX_EDGES * INFO.size + MAX_HOPS * HOP.size + MAX_INTERFACES * INTERFACE_SIZE

# A path on the wire: the meta header, with the count of each info's hops, then infos, then hops.
WIRE_META = Bits(current_info=2, current_hop=6, reserved=6, **{f"hops_{k}": 6 for k in range(MAX_EDGES)})
WIRE_META_SIZE = WIRE_META.size
WIRE_INFO = Record("WIRE_INFO", Field("flags", 1), Field("reserved", 1), Field("id", 2), Field("timestamp", 4))
WIRE_HOP = Record("WIRE_HOP", Field("flags", 1), *HOP.fields)
WIRE_SIZE = WIRE_META_SIZE + MAX_EDGES * WIRE_INFO.size + MAX_HOPS * WIRE_HOP.size

# Of each entry of a segment, what its fingerprint is worked out of.
FINGERPRINTED = Record("FINGERPRINTED", ENTRY.of.isd_as, ENTRY.of.ingress, ENTRY.of.egress)

# Flags of an info; the first is the direction of a record's edge too.
CONSTRUCTION, PEERING = 1, 2

# ---- answers

PATH, LOOP, BARE = range(3)
REFUSED = 65536         # refusal N is answered as REFUSED + N
WORDS = dict(enumerate(("Cut", "Surplus", "Oversize", "Crowded", "Long", "Peers", "Misfit", "Full", "Small", "Stranger", "Twice", "Wire"), 1))
CUT, SURPLUS, OVERSIZE, CROWDED, LONG, PEERS, MISFIT, FULL, SMALL, STRANGER, TWICE, WIRE = WORDS


def constants():
    """Every name that the header has too, without its COMBINATOR_, and its number."""
    found = {name: value for name, value in globals().items() if name.isupper() and isinstance(value, int)}
    found.update({word.upper(): REFUSED + number for number, word in WORDS.items()})
    for record in (COUNTS, HEAD, ENTRY, PEER, RECORD_HEAD, EDGE, PATH_HEAD, INFO, HOP, WIRE_INFO, WIRE_HOP):
        found[record.size_name] = record.size
        for name, place in record.at._asdict().items():
            found[f"{record.prefix}_{'AS' if name == 'isd_as' else name.upper()}"] = place
    return found


# ---- books

def of_fields(name, fields, *lists):
    """A class with a field's value in each attribute, and lists, which are empty unless given."""
    return make_dataclass(name, [(f.attribute, type(f.zero), field(default=f.zero)) for f in fields] +
                          [(x, list, field(default_factory=list)) for x in lists])


# The words for `core` of a segment.
KINDS = {True: "core", False: "non-core"}

# What a book counts is here the length of a list.
SEGMENT_FIELDS = tuple(f for f in HEAD.fields if f not in (HEAD.of.entry_count, HEAD.of.body_length))
ENTRY_FIELDS = tuple(f for f in ENTRY.fields if f != ENTRY.of.peer_count)
PEER_FIELDS = PEER.fields


class Peer(of_fields("PeerFields", PEER_FIELDS)):
    def bytes(self):
        return PEER.pack_of(self)


class Entry(of_fields("EntryFields", ENTRY_FIELDS, "peers")):
    @property
    def peer_count(self):
        return len(self.peers)

    def bytes(self):
        return ENTRY.pack_of(self) + b"".join(p.bytes() for p in self.peers)


@dataclass
class Segment(of_fields("SegmentFields", SEGMENT_FIELDS, "entries")):
    core: bool = False

    @property
    def kind(self):
        return KINDS[self.core]

    def body(self):
        return b"".join(e.bytes() for e in self.entries)


def named(made, fields):
    return {f.attribute: getattr(made, f.attribute) for f in fields}


def book(cores, others):
    """The bytes of a book of core and of non-core segments."""
    segments = cores + others
    bodies = [s.body() for s in segments]
    heads = [HEAD.pack(**named(s, SEGMENT_FIELDS), entry_count=len(s.entries), body_length=len(b)) for s, b in zip(segments, bodies)]
    return COUNTS.pack(len(cores), len(others), sum(map(len, bodies))) + b"".join(heads + bodies)


def write(segments):
    """The bytes of a book; its core segments stand first."""
    return book([s for s in segments if s.core], [s for s in segments if not s.core])


def head_place(position):
    return COUNTS.size + HEAD.size * position


def read(data):
    """The segments of an accepted book."""
    counts = COUNTS.unpack(data)
    count = counts.cores + counts.non_cores
    at, segments = head_place(count), []
    for position in range(count):
        head = HEAD.unpack(data, head_place(position))
        segment = Segment(**named(head, SEGMENT_FIELDS), core=position < counts.cores)
        for _ in range(head.entry_count):
            found = ENTRY.unpack(data, at)
            at += ENTRY.size
            peers = [Peer(*PEER.unpack(data, at + PEER.size * k)) for k in range(found.peer_count)]
            at += PEER.size * found.peer_count
            segment.entries.append(Entry(**named(found, ENTRY_FIELDS), peers=peers))
        segments.append(segment)
    return segments


# ---- records

def solution(cost, *edges):
    """A solution's record. Edges are (position, shortcut, index of the peer or None, direction)."""
    out = RECORD_HEAD.pack(cost=cost, edge_count=len(edges))
    for position, shortcut, peer, direction in edges:
        out += EDGE.pack(position, shortcut, 0 if peer is None else peer + 1, direction)
    return out.ljust(RECORD_SIZE, b"\0")


def path(mtu, expiry, infos, hops, interfaces):
    """A path's record. Infos are (flags, hop count, id, timestamp), hops (units, ingress, egress, MAC), interfaces (AS, id)."""
    head = PATH_HEAD.pack(info_count=len(infos), hop_count=len(hops), interface_count=len(interfaces), mtu=mtu, expiry=expiry,
                          first_as=interfaces[0][0], last_as=interfaces[-1][0])
    ases, ids = (b"".join(x[k].to_bytes(size, "big") for x in interfaces) for k, size in ((0, AS_SIZE), (1, INTERFACE_ID_SIZE)))
    return head + b"".join(INFO.pack(*i) for i in infos) + b"".join(HOP.pack(*h) for h in hops) + ases + ids
