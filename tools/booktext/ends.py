"""What a book says of a source and a destination, apart from the paths between them."""
from .names import shown

IN_NO_SEGMENT = "in no segment"


def known(segments):
    """The ASes that can be ends of a path."""
    return {e.isd_as for s in segments for e in s.entries}


def oddities(segments, source, destination, names):
    """Why nothing can lead from the one to the other, as far as the ends alone tell; a line each."""
    if source == destination:
        return [f"source and destination are both {shown(source, names)}, and no path leads from an AS to itself"]
    there = known(segments)
    return [f"{word} {shown(end, names)} is {IN_NO_SEGMENT}" for word, end in (("source", source), ("destination", destination)) if end not in there]


def nothing_found(segments, source, destination, names):
    """Why a list is empty, a line each. A proved reason has its place here, after these."""
    return [f"nothing found: {reason}" for reason in oddities(segments, source, destination, names)]
