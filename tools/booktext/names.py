"""Names for ASes: read from a file, shown beside ISD-ASes, taken in their place."""
from difflib import get_close_matches

from . import Trouble, isd_as
from .text import lines_of


def read(data, name="<names>"):
    """Lines of an ISD-AS and the words to show for it."""
    found = {}
    for number, (word, *rest) in lines_of(data, name, Trouble):
        try:
            known = isd_as.parse(word)
            if not rest or not "".join(rest).isprintable():
                raise ValueError(f"{word} without a name that can be shown")
            if known in found:
                raise ValueError(f"{word} has a name already")
            found[known] = " ".join(rest)
        except ValueError as wrong:
            raise Trouble(f"{name}:{number}: {wrong}") from None
    return found


def shown(number, names, interface=None):
    """1-ff00:0:110 or, with an interface, 1-ff00:0:110#5; in brackets after the name where there is one."""
    written = isd_as.written(number) + ("" if interface is None else f"#{interface}")
    return f"{names[number]} ({written})" if number in names else written


def resolve(words, names):
    """The AS that an ISD-AS or a name of the file means; ValueError says what is wrong."""
    try:
        return isd_as.parse(words)
    except ValueError as wrong:
        if not names:
            raise ValueError(f"{wrong}; names are taken from a file that --names gives") from None
    wanted = " ".join(words.split())
    found = [number for number, name in names.items() if name == wanted]
    if len(found) > 1:
        raise ValueError(f"{words!r} is the name of {' and '.join(map(isd_as.written, found))}: give the ISD-AS")
    if not found:
        near = get_close_matches(wanted, names.values())
        hint = f"; near it: {', '.join(map(repr, near))}" if near else ""
        raise ValueError(f"{words!r} is no ISD-AS and no name of the file of names{hint}")
    return found[0]
