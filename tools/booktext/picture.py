"""What a picture of a book shows: its ASes in levels, the links between them, and the paths to draw."""
from dataclasses import dataclass, field

from . import Trouble, ends
from .names import shown

# Chosen to differ in hue and lightness; each carries white letters, and a path's number stands beside its colour.
COLOURS = ("#0072b2", "#d55e00", "#00875f", "#b8478a", "#7a5195", "#8c6d00", "#3f8fc0", "#8b1a1a", "#4d4d4d", "#2f6b2f")
MOST = 8
PAGE = 24  # ASes: eight in a row, on three levels, can be read on a page

# What joins two interfaces: a core segment, a non-core one, a peer entry; or only a path, where interface ids of the book are 0.
CORE, PARENT, PEERING, UNLISTED = "core", "parent", "peering", "unlisted"


@dataclass
class Link:
    """Two interfaces joined; the upper or first one first."""
    first: tuple  # AS and interface id
    second: tuple
    kind: str
    segments: list = field(default_factory=list)
    paths: list = field(default_factory=list)


class Picture:
    """What is to be drawn; with used, only the ASes and links that the drawn paths pass, and the segments with such links.

    With routes, the solutions are one to a route, by its number."""

    def __init__(self, segments, source, destination, solutions, names, wanted=None, title=None, used=False, routes=False):
        self.segments, self.source, self.destination, self.solutions, self.names = segments, source, destination, solutions, names
        self.title = title or f"{self.name(source)} to {self.name(destination)}"
        self.routes = routes
        self.drawn = chosen(solutions, wanted, "route" if routes else "solution")
        self.colours = {s.number: COLOURS[k] for k, s in enumerate(self.drawn)}
        self.links = self.found_links()
        self.known = ends.known(segments)
        self.core = {e.isd_as for s in segments if s.core for e in s.entries} | {s.entries[0].isd_as for s in segments if s.entries}
        self.ases = list(dict.fromkeys([e.isd_as for s in segments for e in s.entries] + self.joined(self.links)))
        self.level = self.levels()
        self.shown = list(enumerate(segments))
        if used:
            self.ases = self.used()
            self.links = [link for link in self.links if link.paths]
            self.shown = [(k, s) for k, s in self.shown if any(k in link.segments for link in self.links)]

    def joined(self, links):
        """The ASes at the ends of links, and the path's own."""
        return [a for link in links for a, _ in (link.first, link.second)] + [self.source, self.destination]

    def used(self):
        """The ASes that the drawn paths pass."""
        return list(dict.fromkeys(self.joined(link for link in self.links if link.paths)))

    def hint(self):
        """What draws less, where the picture is more than a page; else nothing."""
        if len(self.ases) <= PAGE or not self.drawn or len(self.used()) == len(self.ases):
            return ""
        return f"{len(self.ases)} ASes are drawn, more than {PAGE} hardly fit a page: --used draws only the {len(self.used())} that the paths pass"

    def name(self, number):
        return shown(number, self.names)

    def found_links(self):
        links = {}

        def add(first, second, kind, position=None):
            if first[0] == second[0]:
                return None
            link = links.setdefault(frozenset((first, second)), Link(first, second, kind))
            if position is not None and position not in link.segments:
                link.segments.append(position)
            return link

        for kind in (CORE, PARENT, PEERING):
            for position, s in enumerate(self.segments):
                if kind == PEERING:
                    for e in s.entries:
                        for p in e.peers:
                            add((e.isd_as, p.ingress), (p.isd_as, p.interface), kind, position)
                elif s.core == (kind == CORE):
                    for above, below in zip(s.entries, s.entries[1:]):
                        add((above.isd_as, above.egress), (below.isd_as, below.ingress), kind, position)
        for s in self.drawn:
            for first, second in zip(s.interfaces, s.interfaces[1:]):
                link = add(first, second, UNLISTED)
                if link and s.number not in link.paths:
                    link.paths.append(s.number)
        return list(links.values())

    def levels(self):
        """0 for core ASes, below them one more than the deepest parent; a circle of parents is cut at its first AS."""
        parents = {a: set() for a in self.ases}
        for link in self.links:
            if link.kind == PARENT and link.second[0] not in self.core:
                parents[link.second[0]].add(link.first[0])
        level = {a: 0 for a in self.ases if a in self.core}
        rest = [a for a in self.ases if a not in self.core]
        while rest:
            ready = [a for a in rest if all(p in level for p in parents[a])] or rest[:1]
            for a in ready:
                level[a] = 1 + max([level[p] for p in parents[a] if p in level], default=0)
            rest = [a for a in rest if a not in level]
        return level


def chosen(solutions, wanted, word):
    """The solutions to draw: those wanted, or the first with a path."""
    with_path = {s.number: s for s in solutions if s.outcome == "path"}
    if wanted is None:
        return list(with_path.values())[:MOST]
    if len(wanted) > len(COLOURS):
        raise Trouble(f"{len(wanted)} paths are too many to tell apart: at most {len(COLOURS)} are drawn at once")
    for number in sorted(wanted):
        if number not in with_path:
            outcome = f"{word} {number} is {solutions[number - 1].outcome} and has no path" if number <= len(solutions) else \
                f"there is no {word} {number}: the list has {len(solutions)}"
            raise Trouble(outcome)
    return [with_path[number] for number in sorted(wanted)]
