"""The list as JSON. man/book.1 has the shape.

Numbers are numbers; ISD-ASes, ids of segments, MACs and bytes on the wire are strings, as in text. What is not known, or is not there, is null.
"""
import json

from . import isd_as
from .layout import CONSTRUCTION, HEAD, PEERING, WORDS
from .text import value
from .why import has_run_out


def written(listing, segments, found, now):
    """`segments` are those of the book, and `found` the reasons of each solution, or None where the program was asked."""
    return document(listing, now, {"solutions": solutions(listing.solutions, segments, found, now) if listing.refused is None else None})


def routes_written(listing, segments, routes, found, errors, now):
    """The same of routes; `errors` are about all of them."""
    if listing.refused is not None:
        return document(listing, now, dict.fromkeys(("solution_count", "path_count", "routes", "errors")))
    made = [{**s, **copies(r, segments)} for r, s in zip(routes, solutions([r.solution for r in routes], segments, found, now))]
    paths = sum(s.outcome == "path" for s in listing.solutions)
    return document(listing, now, {"solution_count": len(listing.solutions), "path_count": paths, "routes": made, "errors": errors})


def document(listing, now, more):
    refused = listing.refused
    return json.dumps({"source": isd_as.written(listing.source), "destination": isd_as.written(listing.destination), "now": now,
                       "refusal": None if refused is None else {"number": refused, "word": WORDS.get(refused)}, **more}, indent=1) + "\n"


def solutions(listed, segments, found, now):
    return [solution(s, segments, found[k] if found else None, now) for k, s in enumerate(listed)]


def copies(route, segments):
    """What a route has beside its solution: that one's number in the list, the first's, and those that are dropped."""
    return {"solution": route.held.number, "first": route.first.number,
            "dropped": [{"solution": s.number, "edges": edges(s, segments), "expiry": s.expiry, "longer": route.longer(s)} for s in route.dropped]}


def solution(s, segments, reasons, now):
    is_path = s.outcome == "path"
    return {"number": s.number, "cost": s.cost, "segment_count": s.segments, "outcome": s.outcome,
            "edges": edges(s, segments),
            "mtu": s.mtu, "expiry": s.expiry, "run_out": has_run_out(s, now) if is_path else None,
            "first_as": isd_as.written(s.interfaces[0][0]) if is_path else None, "last_as": isd_as.written(s.interfaces[-1][0]) if is_path else None,
            "hop_count": s.hops, "infos": infos(s) if is_path else None, "hops": [hop(h) for h in s.path.hops] if s.path else None,
            "interfaces": [interface(*i) for i in s.interfaces] if is_path else None, "wire": None if s.wire is None else s.wire.hex(),
            "why": reasons_of(reasons) if reasons else None}


def segment_id(ident):
    return value(HEAD.of.id, ident)


def edges(s, segments):
    return [edge(e, segments) for e in s.record.edges] if s.record else None


def edge(e, segments):
    """None for the fields of a segment that the book does not have."""
    s = segments[e.position] if e.position < len(segments) else None
    return {"position": e.position, "kind": s and s.kind, "id": s and segment_id(s.id), "timestamp": s and s.timestamp,
            "shortcut": e.shortcut, "peer": e.peer, "construction": e.construction}


def infos(s):
    counts = [i.hops for i in s.path.infos] if s.path else [None] * len(s.infos)
    return [{"construction": flags & CONSTRUCTION != 0, "peering": flags & PEERING != 0, "hop_count": count, "id": segment_id(ident), "timestamp": timestamp}
            for (flags, ident, timestamp), count in zip(s.infos, counts)]


def hop(h):
    return {**h._asdict(), "mac": h.mac.hex()}


def interface(isd_asn, ident):
    return {"isd_as": isd_as.written(isd_asn), "id": ident}


# ---- reasons

def place(h, peer):
    return {"position": h.position, "entry": h.index, "peer": peer, "isd_as": isd_as.written(h.entry.isd_as)}


def reasons_of(r):
    return {"mtu": r.mtu and {"kind": r.mtu.kind, **place(r.mtu.hop, r.mtu.hop.peer if r.mtu.kind == "peer" else None), "others": r.mtu.others},
            "expiry": r.expiry and {"units": r.expiry.hop.fields.units, **place(r.expiry.hop, r.expiry.hop.peer), "others": r.expiry.others},
            "loop": [{"isd_as": isd_as.written(isd_asn), "ids": ids} for isd_asn, ids in r.loops],
            "after": r.after and {"number": r.after.number, "key": r.after.key.name, "edge": r.after.key.edge, "value": r.after.key.value,
                                  "before": r.after.before.value},
            "errors": r.errors}
