"""The printed list: running the program `list`, reading what it prints, writing the same, adding names."""
import re
import subprocess
from dataclasses import dataclass, field

from . import Trouble, isd_as, times
from .layout import CONSTRUCTION, ENDS, FULL, MAX_EDGES, MAX_SOLUTIONS, PEERING, WORDS
from .refusal import verdict

COUNTS = re.compile(r"solutions ([0-9]+) paths ([0-9]+)")
REFUSED = re.compile(r"refused ([0-9]+)")
SOLUTION = re.compile(r"([0-9]+) cost ([0-9]+) segments ([1-%d]) (?:mtu ([0-9]+) expiry ([0-9]+) hops ([0-9]+)|(loop|bare))" % MAX_EDGES)
INFO = re.compile(r"info ([0-3]) ([0-9a-f]{4}) ([0-9]+)")
INTERFACE = re.compile(r"if ([0-9a-f]{16}) ([0-9]+)")

AGAINST = 0
DIRECTIONS = {AGAINST: "against construction", CONSTRUCTION: "in construction direction",
              PEERING: "against construction, peering", CONSTRUCTION + PEERING: "in construction direction, peering"}


@dataclass
class Solution:
    number: int
    cost: int
    segments: int
    outcome: str  # path, loop or bare
    mtu: int = None
    expiry: int = None
    hops: int = None
    infos: list = field(default_factory=list)       # flags, segment id and timestamp of each
    interfaces: list = field(default_factory=list)  # pairs of AS and interface id
    # Of the library, and unknown to a printed list: a combinator.Solution, a combinator.Path and, where they were asked for, its bytes on the wire.
    record: object = None
    path: object = None
    wire: bytes = None


def run(program, source, destination, book):
    """What the program prints for this input."""
    given = ENDS.pack(source, destination) + book
    try:
        done = subprocess.run([program], input=given, capture_output=True, timeout=60, check=False)
    except OSError as wrong:
        raise Trouble(f"cannot run {program}: {wrong.strerror}") from None
    except subprocess.TimeoutExpired:
        raise Trouble(f"{program} gave no answer in 60 seconds") from None
    try:
        text = done.stdout.decode("ascii")
    except UnicodeDecodeError:
        text = ""
    if not text.endswith("\n"):
        said = done.stderr.decode(errors="replace").strip()
        raise Trouble(f"{program} printed no list (exit status {done.returncode}){': ' + said if said else ''}")
    return text


def refusal(text):
    """The number that the program refuses with, or None."""
    found = REFUSED.fullmatch(text.strip())
    return int(found.group(1)) if found else None


def parse(text):
    """The solutions of a printed list."""
    lines = text.splitlines()
    counts = COUNTS.fullmatch(lines[0]) if lines else None
    if not counts:
        raise Trouble("the program's output is no printed list")
    found = []
    for number, line in enumerate(lines[1:], 2):
        solution, info, interface = (form.fullmatch(line) for form in (SOLUTION, INFO, INTERFACE))
        if solution:
            k, cost, segments, mtu, expiry, hops, other = solution.groups()
            if other:
                found.append(Solution(int(k), int(cost), int(segments), other))
            else:
                found.append(Solution(int(k), int(cost), int(segments), "path", int(mtu), int(expiry), int(hops)))
        elif interface and found:
            found[-1].interfaces.append((int(interface.group(1), 16), int(interface.group(2))))
        elif info and found:
            found[-1].infos.append((int(info.group(1)), int(info.group(2), 16), int(info.group(3))))
        else:
            raise Trouble(f"line {number} of the program's output is not one of a printed list: {line}")
    paths = sum(s.outcome == "path" for s in found)
    if (len(found), paths) != tuple(map(int, counts.groups())):
        raise Trouble(f"the program prints {len(found)} solutions, {paths} with a path, and says: {lines[0]}")
    return found


# ---- writing: docs/SPECIFICATION.md 10

def refused_line(number):
    return f"refused {number}\n"


def first_line(solutions):
    return f"solutions {len(solutions)} paths {sum(s.outcome == 'path' for s in solutions)}\n"


def solution_lines(s):
    start = f"{s.number} cost {s.cost} segments {s.segments}"
    if s.outcome != "path":
        return f"{start} {s.outcome}\n"
    lines = [f"{start} mtu {s.mtu} expiry {s.expiry} hops {s.hops}"]
    lines += [f"info {flags} {ident:04x} {timestamp}" for flags, ident, timestamp in s.infos]
    lines += [f"if {isd_asn:016x} {ident}" for isd_asn, ident in s.interfaces]
    return "".join(line + "\n" for line in lines)


def written(solutions):
    return first_line(solutions) + "".join(map(solution_lines, solutions))


# ---- words and names

def refusal_words(number, book, names=None):
    """A refusal of the program, in the words of `check` where that finds the same."""
    found = verdict(book, names)
    if found and found.number == number:
        return str(found)
    more = f": more than {MAX_SOLUTIONS} solutions" if number == FULL else ""
    return f"refused {number} ({WORDS.get(number, 'unknown')}){more}"


def added(line, names):
    """What names add to a line of the list."""
    interface = INTERFACE.fullmatch(line)
    if interface:
        number = int(interface.group(1), 16)
        name = f"  {names[number]}" if number in names else ""
        return f"{isd_as.written(number)}#{interface.group(2)}{name}"
    info = INFO.fullmatch(line)
    if info:
        return f"{DIRECTIONS[int(info.group(1))]}, issued {times.written(int(info.group(3)))}"
    solution = SOLUTION.fullmatch(line)
    if solution and solution.group(5):
        return f"expires {times.written(int(solution.group(5)))}"
    return ""


def with_names(text, names):
    """The printed list with names to the right of its lines."""
    lines = []
    for line in text.splitlines():
        more = added(line, names)
        lines.append(f"{line:<25}  {more}".rstrip() if more else line)
    return "".join(line + "\n" for line in lines)
