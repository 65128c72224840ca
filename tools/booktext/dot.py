"""The text for Graphviz: boxes with interface ids at their sides, links, coloured paths, a legend."""
import html

from . import counted, isd_as, times
from .ends import IN_NO_SEGMENT
from .picture import PEERING, UNLISTED

MOST_SEGMENTS = 24
BADGE, BADGES = 16, 4  # size of a path's number at a link, and how many stand in a row

INK, QUIET, FAINT, LINE, END = "#1b2733", "#5b6b7a", "#aab4be", "#c3ccd4", "#9a6700"
CORE_FILL, CORE_EDGE, AS_FILL, PORT_FILL, END_FILL = "#eaf1f8", "#b9cde0", "#ffffff", "#eef1f4", "#fff3d6"
FONT = "Helvetica,Arial,sans-serif"

def text(words):
    return html.escape(str(words), quote=True)


def quoted(words):
    return '"' + text(words).replace("\\", "\\\\") + '"'


def font(words, size=None, colour=None, bold=False):
    attributes = (f' POINT-SIZE="{size}"' if size else "") + (f' COLOR="{colour}"' if colour else "")
    inner = f"<B>{text(words)}</B>" if bold else text(words)
    return f"<FONT{attributes}>{inner}</FONT>" if attributes else inner


def node(number):
    return f"as_{number:016x}"


def port(interface, link_number):
    """One cell for each link end, since two links may share an interface id."""
    return f"i{interface}_{link_number}"


class Sides:
    """On which side of its AS each link end stands: up, down, left or right."""

    def __init__(self, picture, across):
        self.ends = {}  # (AS, side) to a list of (x of the other end, interface, link number)
        self.side = {}  # (link number, which end) to side
        beside = {frozenset(pair) for _, row in in_order(picture, across) for pair in zip(row, row[1:])}
        for k, link in enumerate(picture.links):
            first, second = link.first[0], link.second[0]
            below = picture.level[second] - picture.level[first]
            if below:
                sides = ("down", "up") if below > 0 else ("up", "down")
            elif frozenset((first, second)) not in beside:
                sides = ("up", "up")
            else:
                sides = ("right", "left") if across[first] < across[second] else ("left", "right")
            for end, here, there, side in ((0, link.first, second, sides[0]), (1, link.second, first, sides[1])):
                self.side[k, end] = side
                self.ends.setdefault((here[0], side), []).append((across[there], here[1], k))
        for row in self.ends.values():
            row.sort()

    def row(self, a, side):
        return [(interface, k) for _, interface, k in self.ends.get((a, side), [])]


def fixed_table(width, height, rows, align="CENTER", valign="MIDDLE"):
    """A table that is not stretched to the room around it."""
    return (f'<TABLE BORDER="0" CELLBORDER="0" CELLSPACING="0" CELLPADDING="0" FIXEDSIZE="TRUE" '
            f'WIDTH="{width}" HEIGHT="{height}" ALIGN="{align}" VALIGN="{valign}">{rows}</TABLE>')


def fixed_cell(width, height, attributes, inner):
    return f'<TD FIXEDSIZE="TRUE" WIDTH="{width}" HEIGHT="{height}" {attributes}>{inner}</TD>'


def badges(picture, numbers):
    """The numbers of paths in their colours, four to a row: width, height, table."""
    rows = [numbers[k:k + BADGES] for k in range(0, len(numbers), BADGES)]
    wide = max(BADGE, BADGE + 6 * (len(str(max(numbers))) - 1))
    lines = "".join("<TR>" + "".join(fixed_cell(wide, BADGE, f'BGCOLOR="{picture.colours[n]}" STYLE="ROUNDED"', font(n, 10, "#ffffff", bold=True))
                                     for n in row) + "</TR>" for row in rows)
    width, height = wide * min(BADGES, len(numbers)), BADGE * len(rows)
    return width, height, fixed_table(width, height, lines)


def port_cell(picture, side, interface, k):
    """A link's end at its AS: the interface id, and towards the link the paths that pass. It stands close to the AS."""
    wide, high = max(22, 8 + 7 * len(str(interface))), 18
    look = f'BORDER="1" BGCOLOR="{PORT_FILL}" COLOR="{FAINT}"'
    name, here = font(interface, 11, INK), f'PORT="{port(interface, k)}"'
    if picture.links[k].paths:
        width, height, numbers = badges(picture, picture.links[k].paths)
        parts = [fixed_cell(wide, high, look, name), fixed_cell(width, height, here, numbers)]
    else:
        width, height = 0, 0
        parts = [fixed_cell(wide, high, f"{look} {here}", name)]
    if side in ("up", "left"):
        parts.reverse()
    if side in ("up", "down"):
        rows = "".join(f"<TR>{part}</TR>" for part in parts)
        return f'<TD>{fixed_table(max(wide, width), high + height, rows, valign="BOTTOM" if side == "up" else "TOP")}</TD>'
    row = f"<TR>{''.join(parts)}</TR>"
    return f'<TD>{fixed_table(wide + width, max(high, height), row, align="RIGHT" if side == "left" else "LEFT")}</TD>'


def ports_at(picture, side, ends):
    """A cell with the link ends at one side of an AS, in a row or a column."""
    if not ends:
        return ""
    parts = [port_cell(picture, side, *end) for end in ends]
    if side in ("left", "right"):
        gap = f'<TR>{fixed_cell(6, 6, "", "")}</TR>'
        inner = gap.join(f"<TR>{part}</TR>" for part in parts)
    else:
        inner = "<TR>" + fixed_cell(10, 6, "", "").join(parts) + "</TR>"
    return f'<TD><TABLE BORDER="0" CELLBORDER="0" CELLSPACING="0" CELLPADDING="0">{inner}</TABLE></TD>'


def as_box(picture, a):
    """The middle of an AS: its ISD-AS, its name, and whether it is an end."""
    lines = [font(isd_as.written(a), 15, INK, bold=True)]
    if a in picture.names:
        lines.append(font(picture.names[a], 12, INK))
    ends = [word for word, end in (("source", picture.source), ("destination", picture.destination)) if a == end]
    if ends:
        lines.append(font(" and ".join(ends), 11, END, bold=True))
    if a not in picture.known:
        lines.append(font(IN_NO_SEGMENT, 11, QUIET))
    fill = END_FILL if ends else AS_FILL
    edge = END if ends else INK
    width = 3 if ends else 2 if a in picture.core else 1
    return f'<TD BORDER="{width}" COLOR="{edge}" BGCOLOR="{fill}" STYLE="ROUNDED" CELLPADDING="8">{"<BR/>".join(lines)}</TD>'


def as_label(picture, sides, a):
    up, left, right, down = (ports_at(picture, side, sides.row(a, side)) for side in ("up", "left", "right", "down"))

    def padded(cell):
        return "<TR>" + ("<TD></TD>" if left else "") + cell + ("<TD></TD>" if right else "") + "</TR>" if cell else ""

    rows = padded(up) + f"<TR>{left}{as_box(picture, a)}{right}</TR>" + padded(down)
    return f'<TABLE BORDER="0" CELLBORDER="0" CELLSPACING="0" CELLPADDING="0">{rows}</TABLE>'


COMPASS = {"up": "n", "down": "s", "left": "w", "right": "e"}

# Links that say nothing of parent and child.
STYLES = {PEERING: "dashed", UNLISTED: "dotted"}


def link_line(picture, sides, across, k, link):
    (a, i), (b, j) = link.first, link.second
    colour = ":transparent:".join(picture.colours[n] for n in link.paths) or (FAINT if link.kind == PEERING else LINE)
    attributes = {
        "color": f'"{colour}"', "penwidth": "3.2" if link.paths else "1.6",
        "style": STYLES.get(link.kind, "solid"), "weight": "2" if link.paths else "1",
        "tooltip": quoted(f"{isd_as.written(a)}#{i} to {isd_as.written(b)}#{j}: {link.kind} link, segments {', '.join(map(str, link.segments)) or 'none'}"),
    }
    ends = [f"{node(a)}:{port(i, k)}:{COMPASS[sides.side[k, 0]]}", f"{node(b)}:{port(j, k)}:{COMPASS[sides.side[k, 1]]}"]
    step = picture.level[b] - picture.level[a]
    # dot takes the first end for the upper one, or in one level for the left one.
    if step < 0 or (step == 0 and across[a] > across[b]):
        ends.reverse()
    if link.kind in STYLES and step:
        attributes["constraint"] = "false"
    return f"  {ends[0]} -- {ends[1]} [{' '.join(f'{name}={value}' for name, value in attributes.items())}]\n"


def route(solution):
    """As `scion showpaths` writes it: 1-ff00:0:111 7>5 1-ff00:0:110."""
    words, last = [], None
    for number, interface in solution.interfaces:
        if last is None:
            words += [isd_as.written(number), str(interface)]
        elif number != last[0]:
            words[-1] += f">{interface}"
            words.append(isd_as.written(number))
        else:
            words.append(str(interface))
        last = (number, interface)
    return words


def in_lines(words, most):
    """Words joined to lines of at most so many letters."""
    lines = [""]
    for word in words:
        if lines[-1] and len(lines[-1]) + len(word) >= most:
            lines.append("")
        lines[-1] += (" " if lines[-1] else "") + word
    return lines


def cells(values, colour=INK, size=12, span=1):
    """Cells of the legend: a list is lines of text, to the left; a number stands to the right."""
    out = ""
    for value in values:
        if isinstance(value, list):
            lines = "".join(font(line, size, colour) + '<BR ALIGN="LEFT"/>' for line in value)
            out += f'<TD ALIGN="LEFT" BALIGN="LEFT" VALIGN="TOP" COLSPAN="{span}">{lines}</TD>'
        else:
            out += f'<TD ALIGN="RIGHT" VALIGN="TOP" COLSPAN="{span}">{font(value, size, colour)}</TD>'
    return out


def path_rows(picture):
    rows = "<TR>" + cells([["path"], "cost", "segments", "MTU", "hops", ["expires (UTC)"], "expiry", ["route: AS, interface > interface, AS"]], QUIET, 11) + "</TR>"
    for s in picture.drawn:
        badge = f'<TD BGCOLOR="{picture.colours[s.number]}" STYLE="ROUNDED">{font(s.number, 12, "#ffffff", bold=True)}</TD>'
        rows += f"<TR>{badge}" + cells([s.cost, s.segments, s.mtu, s.hops, [times.written(s.expiry)], s.expiry, in_lines(route(s), 100)]) + "</TR>"
    return rows


def summary(picture):
    paths = [s.number for s in picture.solutions if s.outcome == "path"]
    others = [f"{s.number} {s.outcome}" for s in picture.solutions if s.outcome != "path"]
    words = counted(len(paths), "route") if picture.routes else f"{counted(len(picture.solutions), 'solution')}, {counted(len(paths), 'path')}"
    if len(picture.drawn) < len(paths):
        words += f", {len(picture.drawn)} drawn"
    if others:
        words += "; no path: " + ", ".join(others[:12]) + (" ..." if len(others) > 12 else "")
    return words


def segment_rows(picture):
    rows = "<TR>" + cells([["segment"]], QUIET, 11) + cells([["kind"], ["id"]], QUIET, 11, span=2) + \
           cells([["issued (UTC)"], "timestamp", ["ASes, in construction direction"]], QUIET, 11) + "</TR>"
    for position, s in picture.shown[:MOST_SEGMENTS]:
        rows += "<TR>" + cells([[position]]) + cells([[s.kind], [f"{s.id:04x}"]], span=2) + \
                cells([[times.written(s.timestamp)], s.timestamp, in_lines([isd_as.written(e.isd_as) for e in s.entries] or ["none"], 100)]) + "</TR>"
    return rows


def wide(words, size=11, colour=QUIET, bold=False):
    return f'<TR><TD ALIGN="LEFT" COLSPAN="8">{font(words, size, colour, bold)}</TD></TR>'


def legend(picture):
    parts = [wide(picture.title, 22, INK, bold=True), wide(summary(picture), 13, INK)]
    if picture.drawn:
        parts.append("<HR/>" + path_rows(picture))
    kinds = "Solid lines join core ASes, or parent and child; dashed lines are peering links; the boxes at their ends are interface ids."
    parts.append("<HR/>" + wide(kinds))
    if any(link.kind == UNLISTED for link in picture.links):
        parts.append(wide("Dotted lines join interfaces that follow each other on a path, with interface ids of 0 between them in the book."))
    if picture.shown:
        parts.append("<HR/>" + segment_rows(picture))
    if len(picture.shown) > MOST_SEGMENTS:
        parts.append(wide(f"and {counted(len(picture.shown) - MOST_SEGMENTS, 'more segment', 'more segments')}"))
    return f'<TABLE BORDER="0" CELLBORDER="0" CELLSPACING="2" CELLPADDING="3">{"".join(parts)}</TABLE>'


def in_order(picture, across):
    """The ASes of each level, left to right."""
    rows = {}
    for a in sorted(picture.ases, key=lambda a: across[a]):
        rows.setdefault(picture.level[a], []).append(a)
    return sorted(rows.items())


def in_row(names, forced):
    """Statements that keep nodes in one rank; forced, also from left to right, at some cost to symmetry."""
    chain = f"  {' -- '.join(names)} [style=invis]\n" if forced and len(names) > 1 else ""
    return f"  {{ rank=same; {'; '.join(names)} }}\n{chain}"


def level_text(picture, sides, across, forced, level, ases):
    """One level: its word at the left and its ASes; the core in a box, with the links inside it."""
    word = "core" if level == 0 else f"level {level}"
    out = [f"  level_{level} [shape=plaintext label=<{font(word, 12, QUIET)}>]\n"]
    if level == 0:
        out.append(f'  subgraph cluster_core {{ style="rounded,filled" fillcolor="{CORE_FILL}" color="{CORE_EDGE}" margin=16 label=""\n')
    out += [f'  {node(a)} [label=<{as_label(picture, sides, a)}> tooltip={quoted(picture.name(a))}]\n' for a in ases]
    out.append(in_row([node(a) for a in ases], forced))
    out += [link_line(picture, sides, across, k, link) for k, link in enumerate(picture.links)
            if picture.level[link.first[0]] == picture.level[link.second[0]] == level]
    if level == 0:
        out.append("  }\n")
    out.append(in_row([f"level_{level}", node(ases[0])], forced))
    return "".join(out)


def dot_text(picture, across, forced):
    """The picture for dot; across says how far right each AS stands, and forced whether dot is made to follow that."""
    sides, rows = Sides(picture, across), in_order(picture, across)
    out = ["graph paths {\n",
           f'  graph [newrank=true nodesep=0.5 ranksep=0.8 pad=0.4 fontname="{FONT}" labelloc=b bgcolor=white\n    label=<{legend(picture)}>]\n',
           f'  node [shape=plain fontname="{FONT}"]\n']
    out += [level_text(picture, sides, across, forced, level, ases) for level, ases in rows]
    for (above, _), (below, _) in zip(rows, rows[1:]):
        out.append(f"  level_{above} -- level_{below} [style=invis weight=1000]\n")
    out += [link_line(picture, sides, across, k, link) for k, link in enumerate(picture.links)
            if picture.level[link.first[0]] != picture.level[link.second[0]]]
    out.append("}\n")
    return "".join(out)


def skeleton(picture):
    """Plain boxes and links, for a first layout."""
    out = ["graph skeleton { newrank=true nodesep=0.5; node [shape=box width=1.6]\n"]
    rows = in_order(picture, {a: 0 for a in picture.ases})
    for level, ases in rows:
        out.append(f"  subgraph {'cluster_core' if level == 0 else f'row_{level}'} {{ rank=same; {'; '.join(map(node, ases))}\n")
        out += [f"  {node(link.first[0])} -- {node(link.second[0])}\n" for link in picture.links
                if picture.level[link.first[0]] == picture.level[link.second[0]] == level]
        out.append("  }\n")
    for (_, above), (_, below) in zip(rows, rows[1:]):
        out.append(f"  {node(above[0])} -- {node(below[0])} [style=invis weight=0]\n")
    for link in picture.links:
        first, second = sorted((link.first[0], link.second[0]), key=lambda a: picture.level[a])
        if picture.level[first] != picture.level[second]:
            out.append(f"  {node(first)} -- {node(second)} [constraint={'false' if link.kind in STYLES else 'true'}]\n")
    out.append("}\n")
    return "".join(out)
