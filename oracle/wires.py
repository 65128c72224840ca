#!/usr/bin/env python3
"""Paths on the wire in a batch, each in the place of a book: those that the Rust wrote, as they are and damaged, and made up ones.

    wires.py --out FILE --seed S --count N ORACLE.out ...   the Rust's are those of the oracle's texts
    wires.py --out FILE --difference WORD                   in their place the one of differences/wire-WORD.hex
"""
import argparse
import os
import random

from batch import batch, layout
from booktext.layout import CONSTRUCTION, ENDS, MAX_EDGES, MAX_ENTRIES, PEERING, WIRE_HOP, WIRE_INFO, WIRE_META, WIRE_META_SIZE

# The meta header ends with the lengths.
BEFORE = len(WIRE_META.bits) - MAX_EDGES
MOST_LENGTH = (1 << [*WIRE_META.bits.values()][-1]) - 1
MOST_CURRENT = (1 << WIRE_META.bits["current_hop"]) - 1


def with_meta(wire, **changed):
    return WIRE_META.pack(*WIRE_META.unpack(wire)._replace(**changed)) + wire[WIRE_META_SIZE:]


def counts(wire):
    """Infos and hops that the lengths say."""
    lengths = WIRE_META.unpack(wire)[BEFORE:]
    return sum(n > 0 for n in lengths), sum(lengths)


def made(r, lengths):
    """A path with these lengths and what they need; now and then it has another number of infos. All else is as a path has it."""
    count = r.randint(0, MAX_EDGES) if r.random() < 0.3 else sum(n > 0 for n in lengths)
    infos = b"".join(WIRE_INFO.pack(flags=r.randint(0, CONSTRUCTION + PEERING), id=r.getrandbits(16), timestamp=r.getrandbits(32)) for _ in range(count))
    hops = b"".join(WIRE_HOP.pack(0, r.getrandbits(8), r.getrandbits(16), r.getrandbits(16), r.randbytes(layout.MAC_SIZE)) for _ in range(sum(lengths)))
    return WIRE_META.pack(*[0] * BEFORE, *lengths) + infos + hops


def any_lengths(r):
    return [r.choice([0, 1, 2, r.randint(1, MAX_ENTRIES), MAX_ENTRIES, MAX_ENTRIES + 1, r.randint(0, MOST_LENGTH)]) for _ in range(MAX_EDGES)]


def flipped(r, wire, size):
    """One bit of the first bytes is another."""
    at = r.randrange(8 * min(size, len(wire)))
    return wire[:at // 8] + bytes([wire[at // 8] ^ 1 << at % 8]) + wire[at // 8 + 1:]


def put(wire, place, number):
    return wire[:place] + bytes([number]) + wire[place + 1:] if place < len(wire) else wire


def any_bit(r, wire):
    return flipped(r, wire, len(wire))


def meta_bit(r, wire):
    return flipped(r, wire, WIRE_META_SIZE)


def meta_field(r, wire):
    """A field of the meta header is another, and the bytes after it stay."""
    name, bits = r.choice([*WIRE_META.bits.items()])
    return with_meta(wire, **{name: r.getrandbits(bits)})


def current(r, wire):
    """As a router further on has it: current indexes within the path."""
    infos, hops = counts(wire)
    return with_meta(wire, current_info=r.randrange(infos or 1), current_hop=min(r.randrange(hops or 1), MOST_CURRENT))


def lengths(r, wire):
    """Other lengths, with what they need."""
    return made(r, any_lengths(r))


def info_byte(r, wire):
    place = WIRE_META_SIZE + WIRE_INFO.size * r.randrange(counts(wire)[0] or 1) + r.choice([WIRE_INFO.at.flags, WIRE_INFO.at.reserved])
    return put(wire, place, r.choice([0, 1, 2, 3, 4, 128, r.getrandbits(8)]))


def hop_flags(r, wire):
    infos, hops = counts(wire)
    place = WIRE_META_SIZE + WIRE_INFO.size * infos + WIRE_HOP.size * r.randrange(hops or 1) + WIRE_HOP.at.flags
    return put(wire, place, r.choice([0, 1, 2, 128, r.getrandbits(8)]))


def cut(r, wire):
    return wire[:r.choice([len(wire) - 1, len(wire) - WIRE_HOP.size, r.randrange(len(wire))])]


def surplus(r, wire):
    return wire + bytes(r.choice([1, WIRE_INFO.size, WIRE_HOP.size]))


DAMAGES = any_bit, meta_bit, meta_field, current, lengths, info_byte, hop_flags, cut, surplus


def generated(r, count, found):
    for _ in range(count):
        wire = r.choice(found) if r.random() < 0.6 else made(r, any_lengths(r))
        for _ in range(r.choice([0, 1, 1, 1, 2])):
            if wire:
                wire = r.choice(DAMAGES)(r, wire)
        yield wire


def written(names):
    """The paths of the oracle's texts, each once."""
    found = {}
    for name in names:
        with open(name) as f:
            found.update((line.split()[1], None) for line in f if line.startswith("wire "))
    return [bytes.fromhex(digits) for digits in found]


def difference(word):
    with open(os.path.join(os.path.dirname(os.path.abspath(__file__)), "differences", f"wire-{word}.hex")) as f:
        return bytes.fromhex("".join(line.split("#")[0] for line in f))


def main():
    p = argparse.ArgumentParser()
    p.add_argument("--out", required=True)
    p.add_argument("--seed")
    p.add_argument("--count", type=int)
    p.add_argument("--difference")
    p.add_argument("texts", nargs="*")
    o = p.parse_args()
    wires = [difference(o.difference)] if o.difference else generated(random.Random(o.seed), o.count, written(o.texts))
    with open(o.out, "wb") as f:
        f.write(batch(ENDS.pack() + wire for wire in wires))


if __name__ == "__main__":
    main()
