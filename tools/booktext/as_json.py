"""A book, and what check finds in it, as JSON. man/book.1 has the shapes.

The keys are the names of fields with _ for -. Numbers are numbers; ISD-ASes, ids and MACs are strings, as in text.
"""
import json

from . import BookError, isd_as, text
from .layout import ENTRY_FIELDS, KINDS, PEER_FIELDS, SEGMENT_FIELDS, WORDS


def document(made):
    return json.dumps(made, indent=1) + "\n"


# ---- writing

def record(made, fields):
    return {f.attribute: value if f.style == "number" else text.value(f, value) for f in fields for value in [getattr(made, f.attribute)]}


def segment(s):
    entries = [{**record(e, ENTRY_FIELDS), "peers": [record(p, PEER_FIELDS) for p in e.peers]} for e in s.entries]
    return {"kind": s.kind, **record(s, SEGMENT_FIELDS), "entries": entries}


def written(segments):
    return document({"segments": [segment(s) for s in segments]})


def refused(found):
    kind = None if found.core is None else KINDS[found.core]
    both = None if found.isd_as is None else isd_as.written(found.isd_as)
    place = {"position": found.position, "kind": kind, "entry": found.entry, "byte": found.byte, "earlier": found.earlier, "isd_as": both}
    return document({"accepted": False, "refusal": {"number": found.number, "word": WORDS[found.number], **place, "words": found.reason}})


def accepted(counts, notes):
    return document({"accepted": True, **counts, "notes": [note.as_dict() for note in notes]})


# ---- reading

def parse(data, name="<JSON>", shown=isd_as.written):
    """The segments that the JSON (bytes) describes; BookError with name and place."""
    try:
        parser = text.Parser(shown)
        add_all(parser, json.loads(data.decode("utf-8-sig"), object_pairs_hook=each_once))
    except (ValueError, RecursionError) as wrong:
        raise BookError(f"{name}: {wrong}") from None
    return parser.segments


def add_all(parser, made):
    """Every record of the document, in its order; ValueError says what is wrong and where."""
    [segments] = members("the document", made, ["segments"])
    for at, s in items("segments", segments):
        kind, entries = add(parser, at, s, None, SEGMENT_FIELDS, ["kind", "entries"])
        for at_entry, e in items(f"{at}.entries", entries):
            [peers] = add(parser, at_entry, e, "entry", ENTRY_FIELDS, ["peers"])
            for at_peer, p in items(f"{at_entry}.peers", peers):
                add(parser, at_peer, p, "peer", PEER_FIELDS, [])


def add(parser, at, made, word, fields, others):
    """One record to the parser of text, which knows the limits. The values of the other members are the answer."""
    values = members(at, made, [f.attribute for f in fields] + others)
    rest = values[len(fields):]
    word = word or kind_in(at, rest[0])
    try:
        parser.add(word, {f.attribute: value_in(f, value) for f, value in zip(fields, values)})
    except ValueError as wrong:
        raise ValueError(f"{at}: {wrong}") from None
    return rest


def members(at, made, names):
    """The values of an object that has just these members."""
    if not isinstance(made, dict):
        raise ValueError(f"{at} is no object")
    for name in made:
        if name not in names:
            raise ValueError(f"{at} has no member {name!r}, its members are {', '.join(names)}")
    lacking = [name for name in names if name not in made]
    if lacking:
        raise ValueError(f"{at} lacks {', '.join(lacking)}")
    return [made[name] for name in names]


def items(at, made):
    if not isinstance(made, list):
        raise ValueError(f"{at} is no array")
    return [(f"{at}[{k}]", item) for k, item in enumerate(made)]


def kind_in(at, value):
    if value not in KINDS.values():
        raise ValueError(f"{at}: kind is {' or '.join(KINDS.values())}, not {value!r}")
    return value


def value_in(field, value):
    """Numbers as they are, anything else as in text."""
    if field.style == "number" and type(value) is int:
        value = str(value)
    if not isinstance(value, str):
        raise ValueError(f"{field.attribute} is a {'number' if field.style == 'number' else 'string'}, not {json.dumps(value)}")
    return text.number_in(field, value)


def each_once(pairs):
    found = {}
    for name, value in pairs:
        if name in found:
            raise ValueError(f"{name!r} stands twice in an object")
        found[name] = value
    return found
