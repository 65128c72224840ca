"""What a book is answered with: by the library where it is built, by the program `list` where not.

The two give the same printed list, and so the same routes. Only the library gives the record and the whole path of a solution, which booktext.why
works on, and the bytes of a path on the wire.
"""
import os
import sys
from dataclasses import dataclass, field
from pathlib import Path
from typing import List, Optional

from . import Trouble, printed, routes

TOOLS = Path(__file__).resolve().parents[1]
PROGRAMS = TOOLS.parent / "crates" / "list" / "out" / "list", TOOLS / "list"

# The module of the library stands beside `book` where it is installed. `book` works without it, by way of the program.
sys.path.append(str(TOOLS.parent / "bindings" / "python"))
try:
    import combinator
except ImportError:
    combinator = None


@dataclass
class Listing:
    source: int
    destination: int
    text: str                           # the printed list
    refused: Optional[int] = None       # the refusal's number
    solutions: List[printed.Solution] = field(default_factory=list)
    without: Optional[str] = None       # how to get the library, where the program answered


def listing(source, destination, book, library=None, program=None):
    """The answer of the library or program that is given, else of the library that is found, else of the program that is found."""
    without = "build it with make lib, or name it with --library"
    if program is None:
        missing = load(library)
        if missing is None:
            return by_library(source, destination, book)
        without, program = missing, found_program(missing)
    found = by_program(program, source, destination, book)
    found.without = without
    return found


def load(library):
    """Loads the library. Says what is missing where none was named and none is found."""
    named, missing = library is not None, f"the module combinator is not beside {TOOLS / 'book'}"
    if combinator is not None:
        named = named or bool(os.environ.get(combinator.VARIABLE))
        try:
            combinator.load(library)
            return None
        except combinator.LibraryNotFound as wrong:
            missing = str(wrong)
    if named:
        raise Trouble(missing)
    return missing


def found_program(missing):
    for place in PROGRAMS:
        if os.access(place, os.X_OK) and place.is_file():
            return str(place)
    raise Trouble(f"{missing}; the program list is neither {PROGRAMS[0]} nor {PROGRAMS[1]}: build it, or give its path with --program")


def by_program(program, source, destination, book):
    text = printed.run(program, source, destination, book)
    refused = printed.refusal(text)
    return Listing(source, destination, text, refused, printed.parse(text) if refused is None else [])


def by_library(source, destination, book):
    try:
        records = combinator.list(source, destination, book)
    except combinator.Refusal as refusal:
        return Listing(source, destination, printed.refused_line(refusal.number), refusal.number)
    solutions = [solution(number, record, combinator.assemble(source, destination, book, record)) for number, record in enumerate(records, 1)]
    return Listing(source, destination, printed.written(solutions), None, solutions)


def routes_of(listing, book):
    """The routes of a list, and what is wrong where the library that gave the list answers others, a line each."""
    found = routes.routes(listing.solutions)
    if listing.without is not None or listing.refused is not None:
        return found, []
    try:
        answered = list(combinator.routes(listing.source, listing.destination, book))
    except combinator.Refusal as refusal:
        return found, [f"routes are {refusal}, and the list is not"]
    return found, routes.differing(found, answered, listing.solutions)


def put_on_wire(listing):
    """Gives each path of a list its bytes on the wire."""
    if listing.without is not None:
        raise Trouble(f"the program gives no bytes for the wire, the library does: {listing.without}")
    for s in listing.solutions:
        if s.path is not None:
            try:
                s.wire = combinator.write(s.path)
            except combinator.Refusal as refusal:
                raise Trouble(f"the library does not write the path of solution {s.number}: {refusal}") from None


def solution(number, record, answer):
    """What the printed list says of a solution, with its record and its path."""
    found = printed.Solution(number, record.cost, len(record.edges), "path", record=record)
    if not isinstance(answer, combinator.Path):
        found.outcome = answer.name.lower()
        return found
    found.path = answer
    found.mtu, found.expiry, found.hops = answer.mtu, answer.expiry, len(answer.hops)
    found.infos = [(i.flags, i.id, i.timestamp) for i in answer.infos]
    found.interfaces = [tuple(i) for i in answer.interfaces]
    return found
