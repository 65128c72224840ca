"""The forms of answers.bin, refusals.bin, routes.bin, wire.bin, comparisons.bin and of what the program that replays them reads (README.md)."""
import os
import sys

HERE = os.path.dirname(os.path.abspath(__file__))
sys.path[:0] = [os.path.join(HERE, "..", "..", "tools"), os.path.join(HERE, "..", "..", "oracle")]
from batch import FRONT, framed  # noqa: E402
from booktext.layout import ENDS, RECORD_SIZE, Field, Record  # noqa: E402

LABEL, ANSWERED, CALLED, ASKED, CARRIED, COMPARED = range(6)      # tags of the items that the program reads
LISTING, ASSEMBLY = range(2)            # the call of a case of refusals.bin
WRITING, READING = range(2)             # the call of a case of wire.bin

COUNT = Record("COUNT", Field("solutions", 2))
OUTCOME = Record("OUTCOME", Field("answer", 1), Field("length", 2))
CALL = Record("CALL", Field("call", 1), Field("room", 4), Field("length", 2))
REFUSAL = Record("REFUSAL", Field("number", 1))
ROUTED = Record("ROUTED", Field("room", 4), Field("number", 1), Field("routes", 2))
CARRIAGE = Record("CARRIAGE", Field("call", 1), Field("room", 4), Field("number", 1), Field("length", 2))
PAIRS = Record("PAIRS", Field("count", 2))
LENGTH = Record("LENGTH", Field("length", 1))
COMPARISON = Record("COMPARISON", Field("order", 1), Field("digests", 1))


def given(src, dst, book):
    return ENDS.pack(src, dst) + book


def answered(case, solutions):
    """A case of answers.bin. Solutions are (record, assembly's answer, bytes of the path), in order."""
    out = framed(case) + COUNT.pack(len(solutions)) + b"".join(record for record, _, _ in solutions)
    return out + b"".join(OUTCOME.pack(answer, len(path)) + path for _, answer, path in solutions)


def called(case, call, room, record, number):
    """A case of refusals.bin; the number is 0 where the call is not refused."""
    return framed(case) + CALL.pack(call, room, len(record)) + record + REFUSAL.pack(number)


def routed(case, room, number, records):
    """A case of routes.bin; the number is 0 and the records are the routes' where the call is not refused."""
    return framed(case) + ROUTED.pack(room, number, len(records)) + b"".join(records)


def carried(given, call, room, number, found):
    """A case of wire.bin; the number is 0 and the bytes are those found where the call is not refused."""
    return framed(given) + CARRIAGE.pack(call, room, number, len(found)) + found


def compared(book, pairs):
    """A case of comparisons.bin: a book with pairs of records. Pairs are (order, digests, record, record), the order -1, 0 or 1."""
    out = framed(book) + PAIRS.pack(len(pairs))
    for order, digests, a, b in pairs:
        out += LENGTH.pack(len(a)) + a + LENGTH.pack(len(b)) + b + COMPARISON.pack(order + 1, digests)
    return out


class Reader:
    """The cases of a file of this folder, one after the other."""

    def __init__(self, name):
        with open(os.path.join(HERE, name), "rb") as f:
            self.data, self.at = f.read(), 0

    def take(self, n):
        assert self.at + n <= len(self.data), "a case breaks off"
        self.at += n
        return self.data[self.at - n:self.at]

    def next(self, record):
        return record.unpack(self.take(record.size))

    def cases(self, rest):
        """The bytes of every case; `rest` reads what follows its input."""
        while self.at < len(self.data):
            start = self.at
            self.take(int.from_bytes(self.take(FRONT), "big"))
            rest(self)
            yield self.data[start:self.at]


def answered_rest(r):
    count = r.next(COUNT).solutions
    r.take(RECORD_SIZE * count)
    for _ in range(count):
        r.take(r.next(OUTCOME).length)


def called_rest(r):
    r.take(r.next(CALL).length)
    r.next(REFUSAL)


def routed_rest(r):
    r.take(RECORD_SIZE * r.next(ROUTED).routes)


def carried_rest(r):
    r.take(r.next(CARRIAGE).length)


def answers():
    return list(Reader("answers.bin").cases(answered_rest))


def refusals():
    return list(Reader("refusals.bin").cases(called_rest))


def routes():
    return list(Reader("routes.bin").cases(routed_rest))


def wire():
    return list(Reader("wire.bin").cases(carried_rest))
