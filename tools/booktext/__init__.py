"""The operator's side of a book of path segments: text form, refusals, lists and pictures. Standard library only."""

__version__ = "0.1.0"


class BookError(Exception):
    """Something wrong with the book that was given, in words for the operator."""
    status = 1


class Trouble(BookError):
    """What keeps the tool from an answer about the book: a file, a stream, a program, an argument that does not fit."""
    status = 2


def counted(number, one, many=None):
    return f"{number} {one if number == 1 else many or one + 's'}"
