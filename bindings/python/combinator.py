"""SCION path combination: the proved C library of include/combinator.h, from Python. Standard library only, Python 3.8 or later.

`list` lists every way to join the segments of a book into a path from a source to a destination, the best first. `routes` lists each route once,
by the solution that lives longest. `assemble` makes the path of one of them. `write` writes a path as the bytes that routers take, and `read` reads
such bytes back. Names are those of the Rust crate; README.md says what differs. Nothing is kept between calls but the library itself, which the first
call loads. Calls may run at the same time in any threads.
"""
import ctypes
import ctypes.util
import enum
import itertools
import operator
import os
import pathlib
import sys
from typing import Any, Callable, Dict, Iterable, List, NamedTuple, Optional, Sequence, Tuple, Union, overload

HERE = pathlib.Path(__file__).resolve().parent
# The repository that this file stands in, if it does.
REPOSITORY = HERE.parents[1] if HERE.parts[-2:] == ("bindings", "python") else None

# Sizes, places and limits are those of booktext.layout, which stands beside this file where it is installed, and in tools/ in the repository.
if REPOSITORY:
    sys.path.append(str(REPOSITORY / "tools"))
from booktext import isd_as, layout  # noqa: E402
from booktext.layout import (LIST_SIZE, MAX_BOOK, MAX_EDGES, MAX_ENTRIES, MAX_HOPS, MAX_INTERFACES, MAX_PEERS, MAX_SEGMENTS,  # noqa: E402
                             MAX_SOLUTIONS, PATH_SIZE, RECORD_SIZE, WIRE_SIZE)

__all__ = ["AsEntry", "Assembled", "Bare", "BookWriter", "HopField", "InfoField", "IsdAsn", "LIST_SIZE", "LibraryNotFound", "Loop", "MAX_BOOK",
           "MAX_EDGES", "MAX_ENTRIES", "MAX_HOPS", "MAX_INTERFACES", "MAX_PEERS", "MAX_SEGMENTS", "MAX_SOLUTIONS", "NoPath", "ParseError", "Path",
           "PathInterface", "PeerEntry", "Refusal", "Segment", "Solution", "SolutionEdge", "Solutions", "WIRE_SIZE", "assemble", "list", "load", "read",
           "routes", "write"]

Buffer = Union[bytes, bytearray, memoryview]


# ---- ISD-ASes

class ParseError(ValueError):
    """A text that is no ISD-AS."""


class IsdAsn(int):
    """An ISD-AS: a number with the ISD in the top 16 bits, the AS in the low 48. Its text is 2-64496 or 1-ff00:0:110."""

    def __new__(cls, number: int) -> "IsdAsn":
        number = operator.index(number)
        if not 0 <= number < 1 << 8 * layout.AS_SIZE:
            raise ValueError(f"an ISD-AS has 64 bits: {number} is none")
        return super().__new__(cls, number)

    @classmethod
    def parse(cls, text: str) -> "IsdAsn":
        """Of its text; ParseError where it is none. Every AS may be written as three groups of hex digits."""
        try:
            # The form of 16 hex digits, which isd_as takes too, is not one of these.
            if "-" in text:
                return cls(isd_as.parse(text))
        except ValueError:
            pass
        raise ParseError(f"no ISD-AS such as 1-ff00:0:110 or 2-64496: {text!r}")

    @property
    def isd(self) -> int:
        return self >> 48

    @property
    def asn(self) -> int:
        return self & (1 << 48) - 1

    def __str__(self) -> str:
        return isd_as.written(int(self))

    __repr__ = __str__


# ---- refusals

MEANINGS: Dict[int, str] = {
    layout.CUT: f"the book is under {layout.COUNTS.size} bytes, or shorter than its sizes say",
    layout.SURPLUS: "the book is longer than its sizes say",
    layout.OVERSIZE: f"the book is above {MAX_BOOK} bytes",
    layout.CROWDED: f"the book has more than {MAX_SEGMENTS} segments",
    layout.LONG: f"a segment has more than {MAX_ENTRIES} entries",
    layout.PEERS: f"an entry has more than {MAX_PEERS} peers",
    layout.MISFIT: "body lengths do not sum to the total, or a body is not filled exactly",
    layout.FULL: "there are more solutions than slots",
    layout.SMALL: f"the output is under {PATH_SIZE} bytes, or under {WIRE_SIZE} for the wire",
    layout.STRANGER: "no solution of this book, source and destination",
    layout.TWICE: "an entry's AS stands earlier in the same segment",
    layout.WIRE: "the path has no form on the wire, or no path has these bytes",
}


class Refusal(Exception):
    """A refused call: one of the refusals of docs/SPECIFICATION.md 9.2, by its number."""

    def __init__(self, number: int) -> None:
        super().__init__(number)
        self.number = number

    @property
    def word(self) -> str:
        return layout.WORDS.get(self.number, "unknown")

    def __str__(self) -> str:
        more = f": {MEANINGS[self.number]}" if self.number in MEANINGS else ""
        return f"refused {self.number} {self.word}{more}"


# ---- the library

class LibraryNotFound(OSError):
    """There is no shared library, or it cannot be loaded."""


class Kind(NamedTuple):
    """A parameter: its types in C, and what is passed for what is given."""
    types: Tuple[Any, ...]
    passed: Callable[[Any], Tuple[Any, ...]]


def _bytes(given: Buffer) -> bytes:
    """A copy of what may change while the library reads it. What is no buffer is a TypeError: of a number, bytes() would make so many zeros."""
    return given if type(given) is bytes else bytes(memoryview(given))


def _lent(given: Buffer) -> Tuple[bytes, int]:
    data = _bytes(given)
    return data, len(data)


AS = Kind((ctypes.c_uint64,), lambda number: (IsdAsn(number),))
BYTES = Kind((ctypes.c_char_p, ctypes.c_size_t), _lent)
OUT = Kind((ctypes.c_void_p, ctypes.c_size_t), lambda room: (room, len(room)))

# Every function of the header, by its parameters. Each answers a number of 32 bits.
FUNCTIONS: Dict[str, Tuple[Kind, ...]] = {
    "combinator_list": (AS, AS, BYTES, OUT),
    "combinator_routes": (AS, AS, BYTES, OUT),
    "combinator_assemble": (AS, AS, BYTES, BYTES, OUT),
    "combinator_write": (BYTES, OUT),
    "combinator_read": (BYTES, OUT),
}

NAME = "libcombinator.so"
VARIABLE = "COMBINATOR_LIBRARY"

_library: Optional[ctypes.CDLL] = None


def load(path: Union[None, str, os.PathLike] = None) -> ctypes.CDLL:
    """The library that calls use from here on. LibraryNotFound where there is none.

    It is the one at `path`; else the one that the environment's COMBINATOR_LIBRARY names; else build/libcombinator.so of the repository, or
    installed the one in the folder above this file's; else the one where the system looks. Without a path the library that was loaded before stays.
    """
    global _library
    if path is not None or _library is None:
        _library = _opened(_found(path))
    return _library


def _found(path: Union[None, str, os.PathLike]) -> str:
    given = os.fspath(path) if path is not None else os.environ.get(VARIABLE)
    if given:
        # A name alone would be looked for where the system looks, and not here.
        return os.path.abspath(given) if os.path.exists(given) else given
    place = REPOSITORY / "build" if REPOSITORY else HERE.parent
    if (place / NAME).is_file():
        return str(place / NAME)
    installed = ctypes.util.find_library("combinator")
    if installed:
        return installed
    raise LibraryNotFound(f"{NAME} is neither in {place} nor where the system looks: build it with make lib, or name it in {VARIABLE}")


def _opened(path: str) -> ctypes.CDLL:
    try:
        library = ctypes.CDLL(path)
    except OSError as wrong:
        raise LibraryNotFound(f"cannot load {path}: {wrong}") from None
    for name, kinds in FUNCTIONS.items():
        try:
            function = getattr(library, name)
        except AttributeError:
            raise LibraryNotFound(f"{path} has no function {name}") from None
        function.argtypes = [t for kind in kinds for t in kind.types]
        function.restype = ctypes.c_uint32
    return library


def _call(name: str, *given: Any) -> int:
    """The answer of a function; a refusal is raised."""
    passed = [x for kind, value in zip(FUNCTIONS[name], given) for x in kind.passed(value)]
    answer: int = getattr(load(), name)(*passed)
    if answer >= layout.REFUSED:
        raise Refusal(answer - layout.REFUSED)
    return answer


def _room(size: int) -> Any:
    """So many bytes for the library to write to."""
    size = operator.index(size)
    if size < 0:
        raise ValueError(f"an output of {size} bytes")
    return ctypes.create_string_buffer(size)


# ---- what is answered

class Record:
    """Bytes that the library wrote."""
    __slots__ = ("_data",)

    def __init__(self, data: Buffer) -> None:
        self._data = _bytes(data)

    def as_bytes(self) -> bytes:
        return self._data

    def __eq__(self, other: object) -> bool:
        return type(self) is type(other) and self._data == other._data  # type: ignore[attr-defined]

    def __hash__(self) -> int:
        return hash(self._data)


def _rows(record: layout.Record, data: bytes, at: int, count: int) -> List[Any]:
    return [record.unpack(data, at + record.size * k) for k in range(count)]


class SolutionEdge(NamedTuple):
    """The use of one segment in a solution."""
    position: int           # of the segment in the book, from 0, cores first
    shortcut: int           # index of the entry at which the used part ends, which starts at the leaf; 0 for the whole segment
    peer: Optional[int]     # index of the peer at that entry, where the edge goes through one
    construction: bool      # in construction direction?


class Solution(Record):
    """A way to join segments of a book into a path: its record. Any bytes of its size are taken; assembly tells whether they are a solution."""
    __slots__ = ()
    SIZE: int = RECORD_SIZE

    def __init__(self, record: Buffer) -> None:
        super().__init__(record)
        if len(self._data) != self.SIZE:
            raise ValueError(f"a solution's record has {self.SIZE} bytes, not {len(self._data)}")

    @property
    def cost(self) -> int:
        """The sum of the edges' weights: the count of links."""
        return layout.RECORD_HEAD.unpack(self._data).cost

    @property
    def edges(self) -> Tuple[SolutionEdge, ...]:
        """The uses of segments in turn, one to MAX_EDGES."""
        count = min(layout.RECORD_HEAD.unpack(self._data).edge_count, MAX_EDGES)
        return tuple(SolutionEdge(e.position, e.shortcut, e.peer - 1 if e.peer else None, e.direction == layout.CONSTRUCTION)
                     for e in _rows(layout.EDGE, self._data, layout.RECORD_HEAD.size, count))

    def __repr__(self) -> str:
        return f"Solution(cost={self.cost}, edges={self.edges})"


class Solutions(Record, Sequence[Solution]):
    """The solutions that `list` found, the best first, or one for each route, as `routes` did."""
    __slots__ = ()

    def __len__(self) -> int:
        return len(self._data) // Solution.SIZE

    @overload
    def __getitem__(self, place: int) -> Solution: ...
    @overload
    def __getitem__(self, place: slice) -> "Solutions": ...

    def __getitem__(self, place: Union[int, slice]) -> Union[Solution, "Solutions"]:
        if isinstance(place, slice):
            return Solutions(b"".join(self[k].as_bytes() for k in range(*place.indices(len(self)))))
        at = Solution.SIZE * range(len(self))[place]
        return Solution(self._data[at:at + Solution.SIZE])

    def __repr__(self) -> str:
        return f"Solutions([{', '.join(map(repr, self))}])"


class HopField(NamedTuple):
    """A hop, as an entry of a segment, a peer or a path holds it."""
    units: int      # the hop lives floor((units + 1) × 675 / 2) seconds
    ingress: int    # the interface at which it is entered, in construction direction
    egress: int     # the interface at which it is left, in construction direction
    mac: bytes


class InfoField(NamedTuple):
    """An info field of a path."""
    construction: bool      # in construction direction?
    peering: bool           # through a peer?
    hops: int               # the count of its hops
    id: int                 # the segment id that the path starts with here
    timestamp: int          # of the segment

    @property
    def flags(self) -> int:
        """As the wire has them."""
        return layout.CONSTRUCTION * self.construction | layout.PEERING * self.peering


class Segment(NamedTuple):
    """An info field of a path with its hops, in the order of travel."""
    info: InfoField
    hops: Tuple[HopField, ...]


class PathInterface(NamedTuple):
    """An interface that a path passes. Its text is 1-ff00:0:111#7."""
    isd_asn: IsdAsn
    id: int

    def __str__(self) -> str:
        return f"{self.isd_asn}#{self.id}"


class Path(Record):
    """A path as `assemble` or `read` laid it out."""
    __slots__ = ("_head",)
    SIZE: int = PATH_SIZE

    def __init__(self, record: Buffer) -> None:
        super().__init__(record)
        self._head: Any = layout.PATH_HEAD.unpack(self._data)
        self._data = self._data[:self._ases + layout.INTERFACE_SIZE * self._head.interface_count]

    @property
    def _hops(self) -> int:
        """Where the hops stand."""
        return layout.PATH_HEAD.size + layout.INFO.size * self._head.info_count

    @property
    def _ases(self) -> int:
        """Where the ASes of the interfaces stand."""
        return self._hops + layout.HOP.size * self._head.hop_count

    @property
    def mtu(self) -> int:
        return self._head.mtu

    @property
    def expiry(self) -> int:
        """When the first hop runs out, in seconds."""
        return self._head.expiry

    @property
    def first_as(self) -> IsdAsn:
        """The AS of the first interface."""
        return IsdAsn(self._head.first_as)

    @property
    def last_as(self) -> IsdAsn:
        """The AS of the last interface."""
        return IsdAsn(self._head.last_as)

    @property
    def infos(self) -> Tuple[InfoField, ...]:
        """The infos, one to MAX_EDGES."""
        return tuple(InfoField(i.flags & layout.CONSTRUCTION != 0, i.flags & layout.PEERING != 0, i.hop_count, i.id, i.timestamp)
                     for i in _rows(layout.INFO, self._data, layout.PATH_HEAD.size, self._head.info_count))

    @property
    def hops(self) -> Tuple[HopField, ...]:
        """The hops of all infos, in the order of travel."""
        return tuple(HopField(**h._asdict()) for h in _rows(layout.HOP, self._data, self._hops, self._head.hop_count))

    @property
    def segments(self) -> Tuple[Segment, ...]:
        """Each info with its hops."""
        hops = iter(self.hops)
        return tuple(Segment(i, tuple(itertools.islice(hops, i.hops))) for i in self.infos)

    @property
    def interfaces(self) -> Tuple[PathInterface, ...]:
        """The interfaces that the path passes, in the order of travel."""
        count = self._head.interface_count
        ids = self._ases + layout.AS_SIZE * count
        return tuple(PathInterface(IsdAsn(self._number(self._ases, layout.AS_SIZE, k)), self._number(ids, layout.INTERFACE_ID_SIZE, k))
                     for k in range(count))

    def _number(self, at: int, size: int, place: int) -> int:
        return int.from_bytes(self._data[at + size * place:at + size * (place + 1)], "big")

    def __repr__(self) -> str:
        return (f"Path(mtu={self.mtu}, expiry={self.expiry}, first_as={self.first_as}, last_as={self.last_as}, segments={self.segments}, "
                f"interfaces=({', '.join(map(str, self.interfaces))}))")


class NoPath(enum.Enum):
    """What `assemble` answers of a solution without a path."""
    Loop = layout.LOOP      # its interfaces would show one AS more than twice
    Bare = layout.BARE      # it would have no interfaces


Loop, Bare = NoPath
Assembled = Union[Path, NoPath]


# ---- the calls

def list(src: int, dst: int, book: Buffer, room: int = LIST_SIZE) -> Solutions:
    """The solutions from `src` to `dst` of a book, the best first.

    `room` is the bytes of the output. There is a slot for each Solution.SIZE of them; more solutions than slots are refused (Full). The default
    suffices for every book that can be listed at all. Where `src` equals `dst` the list is empty.
    """
    return _listed("combinator_list", src, dst, book, room)


def routes(src: int, dst: int, book: Buffer, room: int = LIST_SIZE) -> Solutions:
    """The routes from `src` to `dst` of a book, each once: of the solutions whose paths pass the same interfaces, the first of those that live longest.

    Solutions without a path are left out. A route stands at the place of the first of its solutions, so that those answered need not be in the order
    of `list`. It refuses as `list` does: `room` is for a slot to each solution, and not to each route.
    """
    return _listed("combinator_routes", src, dst, book, room)


def _listed(name: str, src: int, dst: int, book: Buffer, room: int) -> Solutions:
    out = _room(room)
    count = _call(name, src, dst, book, out)
    return Solutions(out.raw[:Solution.SIZE * count])


def assemble(src: int, dst: int, book: Buffer, solution: Union[Solution, Buffer], room: int = PATH_SIZE) -> Assembled:
    """The path of a solution, or Loop or Bare.

    `src`, `dst` and `book` are those of the listing. Bytes that are no solution of theirs are refused (Stranger). `room` is the bytes of the output.
    """
    record = solution.as_bytes() if isinstance(solution, Solution) else solution
    out = _room(room)
    answer = _call("combinator_assemble", src, dst, book, record, out)
    return Path(out.raw) if answer == layout.PATH else NoPath(answer)


def write(path: Union[Path, Buffer], room: int = WIRE_SIZE) -> bytes:
    """A path as the bytes that routers take: the standard path of the SCION data plane, with both current indexes 0.

    Its infos and hops are written. Of other bytes than a path's those are refused (Wire) that have no form on the wire, or whose counts, of interfaces
    too, need more bytes than there are; bytes after a path make no difference. `room` is the bytes of the output.
    """
    record = path.as_bytes() if isinstance(path, Path) else path
    out = _room(room)
    length = _call("combinator_write", record, out)
    return out.raw[:length]


def read(wire: Buffer, room: int = PATH_SIZE) -> Path:
    """The path of such bytes, of which infos and hops alone are known: it has no interfaces, and its other numbers are 0.

    Bytes that `write` can not have written are refused (Wire); those of a packet on its way are, since its current indexes have moved. `room` is the
    bytes of the output.
    """
    out = _room(room)
    length = _call("combinator_read", wire, out)
    return Path(out.raw[:length])


# ---- books

class AsEntry(NamedTuple):
    """An entry of a segment, without its peers."""
    local: int          # its AS
    mtu: int            # within the AS
    ingress_mtu: int    # of the link at the ingress, or 0
    hop: HopField


class PeerEntry(NamedTuple):
    """A peer of an entry."""
    peer: int           # its AS
    interface: int      # of the peer
    mtu: int            # of the peering link
    hop: HopField


def _fields(made: Union[AsEntry, PeerEntry], fields: Sequence[layout.Field]) -> Dict[str, Any]:
    """The fields of an entry or a peer as a book holds them, each tested. The AS comes first in both."""
    named = made._asdict()
    values = {fields[0].attribute: IsdAsn(named.pop(made._fields[0])), **named.pop("hop")._asdict(), **named}
    for field in fields:
        values[field.attribute] = _value(field, values[field.attribute])
    return values


def _value(field: layout.Field, value: Any) -> Any:
    """A field's value; ValueError or TypeError where it does not fit."""
    if field.style == "bytes":
        value = _bytes(value)
        if len(value) != field.size:
            raise ValueError(f"{field.name} has {field.size} bytes, not {len(value)}")
        return value
    value = operator.index(value)
    if not 0 <= value <= field.most:
        raise ValueError(f"{field.name} is 0 to {field.most}, not {value}")
    return value


def _most(found: Iterable[Any], count: int, refusal: int) -> List[Any]:
    """All that is found; more than so many are refused."""
    taken = [*itertools.islice(found, count + 1)]
    if len(taken) > count:
        raise Refusal(refusal)
    return taken


Entries = Iterable[Tuple[AsEntry, Iterable[PeerEntry]]]


class BookWriter:
    """Writes a book: segments with their entries and peers, laid out as the library reads them.

    It refuses what the library would refuse. A segment that is refused is not written, and the next of its kind takes its position.
    """

    def __init__(self) -> None:
        self._cores: List[layout.Segment] = []
        self._non_cores: List[layout.Segment] = []
        self._size = layout.COUNTS.size

    def core(self, timestamp: int, id: int, entries: Entries) -> None:
        """The next core segment: its entries in construction order, each with its peers."""
        self._add(self._cores, timestamp, id, entries)

    def non_core(self, timestamp: int, id: int, entries: Entries) -> None:
        """The next non-core segment."""
        self._add(self._non_cores, timestamp, id, entries)

    def finish(self) -> bytes:
        """The book."""
        return layout.book(self._cores, self._non_cores)

    def _add(self, segments: List[layout.Segment], timestamp: int, id: int, entries: Entries) -> None:
        if len(self._cores) + len(self._non_cores) == MAX_SEGMENTS:
            raise Refusal(layout.CROWDED)
        made = []
        for entry, peers in _most(entries, MAX_ENTRIES, layout.LONG):
            found = [layout.Peer(**_fields(p, layout.PEER_FIELDS)) for p in _most(peers, MAX_PEERS, layout.PEERS)]
            made.append(layout.Entry(**_fields(entry, layout.ENTRY_FIELDS), peers=found))
        segment = layout.Segment(timestamp=_value(layout.HEAD.of.timestamp, timestamp), id=_value(layout.HEAD.of.id, id), entries=made)
        size = self._size + layout.HEAD.size + len(segment.body())
        if size > MAX_BOOK:
            raise Refusal(layout.OVERSIZE)
        if len({e.isd_as for e in made}) < len(made):
            raise Refusal(layout.TWICE)
        segments.append(segment)
        self._size = size
