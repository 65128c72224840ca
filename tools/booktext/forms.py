"""The three forms of a book: its bytes, text and JSON. Which one a file has is told by its bytes."""
from codecs import BOM_UTF8

from . import BookError, as_json, layout, text
from .names import shown

BYTES, TEXT, JSON = "bytes", "text", "JSON"

# Tab and the ends of lines: the only control characters of a text.
BLANKS = b"\t\n\r"
CONTROLS = bytes(b for b in range(32) if b not in BLANKS)


def form(data):
    """Text and JSON have no control characters but blanks, and bytes are what has some.
    So the first two bytes of a text, read as the count of core segments, are at least two tabs, 2313: it is no accepted book."""
    if not data or any(b in data for b in CONTROLS):
        return BYTES
    return JSON if data.lstrip(b" " + BLANKS + BOM_UTF8).startswith(b"{") else TEXT


def book(data, name, names=None):
    """The bytes of the book; BookError for text or JSON that gives none."""
    found = form(data)
    return data if found == BYTES else layout.write(segments(data, name, names))


def segments(data, name, names=None):
    """Those that a text or JSON describes; an empty file is a text without any."""
    found = form(data)
    if data and found == BYTES:
        raise BookError(f"{name}: neither text nor JSON, since it has control characters; the bytes of a book are taken by decode, check, list and draw")
    return (as_json if found == JSON else text).parse(data, name, lambda isd_as: shown(isd_as, names or {}))
