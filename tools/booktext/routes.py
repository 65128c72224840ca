"""Routes: of the paths of a list that pass the same interfaces, the one that lives longest, and those that are dropped for it.

They are worked out of the list, which the program prints whole. Where the library gave the list, its own routes are held to them.
"""
from dataclasses import dataclass, replace
from typing import List

from . import counted, printed, times


@dataclass
class Route:
    number: int
    held: printed.Solution              # whose record the route has: of those that live longest the first
    copies: List[printed.Solution]      # all its solutions, in the order of the list

    @property
    def first(self):
        """Whose place the route has."""
        return self.copies[0]

    @property
    def dropped(self):
        return [s for s in self.copies if s is not self.held]

    def longer(self, dropped):
        """By how many seconds it outlives a copy that is dropped."""
        return self.held.expiry - dropped.expiry

    @property
    def solution(self):
        """The solution that it has, with the number of the route."""
        return replace(self.held, number=self.number)


def routes(solutions):
    """In the order of their first appearance."""
    found = {}
    for s in solutions:
        if s.outcome == "path":
            found.setdefault(tuple(s.interfaces), []).append(s)
    # Of several that are greatest, `max` answers the first.
    return [Route(number, max(copies, key=lambda s: s.expiry), copies) for number, copies in enumerate(found.values(), 1)]


def differing(found, answered, solutions):
    """What is wrong where the library answers other routes than those that were found, as records; else nothing."""
    here = [r.held.record for r in found]
    if answered == here:
        return []
    known = {s.record: str(s.number) for s in solutions}
    theirs, ours = (", ".join(known.get(record, "one that is not in the list") for record in records) or "none" for records in (answered, here))
    return [f"the routes are those of solutions {theirs}, worked out here they are those of {ours}"]


# ---- in words

def first_line(found, solutions):
    return f"routes {len(found)} {printed.first_line(solutions)}"


def segments_used(solution):
    """Known of the library's solutions only."""
    if not solution.record:
        return ""
    positions = [e.position for e in solution.record.edges]
    return f" (segment{'s' if len(positions) > 1 else ''} {', '.join(map(str, positions))})"


def lines(route):
    """Which solution of the list a route has, and which are dropped for it."""
    place = "" if route.held is route.first else f", at the place of solution {route.first.number}, the first of this route"
    found = [f"solution {route.held.number} of the list{place}"]
    for s in route.dropped:
        other = f"solution {s.number}{segments_used(s)}, which is dropped"
        longer = route.longer(s)
        found.append(f"lives {times.duration(longer)} longer than {other}" if longer else f"lives as long as {other} since it stands later")
    return found


def hint(solutions, does):
    """What shows less, where several paths are one route; else nothing."""
    paths, found = sum(s.outcome == "path" for s in solutions), len(routes(solutions))
    return f"{paths} paths are {counted(found, 'route')}: --routes {does} each route once, by the path that lives longest" if found < paths else ""
