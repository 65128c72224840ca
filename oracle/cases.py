#!/usr/bin/env python3
"""The cases made by hand: those that the specification settles by number, and the inputs of docs/DIFFERENCES.md.

    cases.py --out FILE        writes them all as a batch
    cases.py --out FILE --parting WAY    in their place those of differences/ of one way: `finer` or `coarser`, on which the keys of routes part so;
                                         `refused`, which the Rust answers and the library refuses
    cases.py --names           their names, one a line, in the batch's order
    cases.py --hex NAME        one case in hex (source, destination, book)
"""
import argparse
import glob
import os

from batch import batch, layout
from booktext import text
from booktext.layout import COUNTS, ENDS, MAC_SIZE, MAX_ENTRIES, MAX_SEGMENTS, Entry, Peer, Segment

A, B, C = 0x0001FF0000000111, 0x0001FF0000000110, 0x0001FF0000000112
MAC0, MAC1 = bytes.fromhex("010203040506"), bytes.fromhex("0a0b0c0d0e0f")


def worked(mtu0=1500, units=63, ts=1000000, peers=()):
    return Segment(ts, 0x1234, [Entry(B, mtu0, egress=5, units=units, mac=MAC0, peers=list(peers)),
                                Entry(A, 1400, 1350, ingress=7, units=units, mac=MAC1)])


def e(as_, ing=0, egr=0, peers=(), mac=bytes(MAC_SIZE)):
    return Entry(as_, 1500, ingress=ing, egress=egr, mac=mac, peers=list(peers))


def peer(as_, if_, ing, egr=0, mtu=1500):
    return Peer(as_, if_, mtu, ingress=ing, egress=egr, mac=bytes.fromhex("f0f0f0f0f0f0"))


def seg(*es):
    return Segment(entries=list(es))


CASES = {}


def case(name, s, d, cores=(), noncores=(), raw=None):
    CASES[name] = ENDS.pack(s, d) + (layout.book(list(cores), list(noncores)) if raw is None else raw)


def entries(n):
    """Down from B to A."""
    return seg(*[e(A if i == n - 1 else B + (i << 16), 1, 1) for i in range(n)])


# Settled by number: docs/SPECIFICATION.md 9.2, and what follows from the worked example of 10.6.
case("the counts alone", A, B)
case("a byte less", A, B, raw=bytes(COUNTS.size - 1))
case("a core more than the most", A, B, raw=COUNTS.pack(MAX_SEGMENTS + 1, 0, 0))
case("the most segments", A, B, [], [seg() for _ in range(MAX_SEGMENTS)])
case("the most entries", A, B, [], [entries(MAX_ENTRIES)])
case("an entry more", A, B, [], [entries(MAX_ENTRIES + 1)])
case("the list", A, B, [], [worked()])
case("reversed ends", B, A, [], [worked()])
case("entry 0 given a peer", C, A, [],
     [worked(peers=[peer(C, 2, 9, 5)]), seg(e(C, 0, 0, [peer(B, 9, 2)]))])
case("one-entry segment through its peer", C, A, [],
     [worked(peers=[peer(C, 2, 9, 5)]), seg(e(C, 0, 0, [peer(B, 9, 2)], MAC1))])
for u in (0, 1, 255):
    case(f"units {u}", A, B, [], [worked(units=u, ts=0)])
case("timestamp 4294967295", A, B, [], [worked(ts=2**32 - 1)])
case("core A-B, core B-C", A, C, [seg(e(A, 0, 1), e(B, 1)), seg(e(B, 0, 2), e(C, 1))])
case("AS MTU 70000", A, B, [], [seg(Entry(B, 70000, egress=5, mac=MAC0), Entry(A, 9000, ingress=7, mac=MAC1))])
case("an AS twice", A, B, [], [seg(e(A, 0, 5), e(B, 1, 2), e(A, 7))])
case("an AS number in two ISDs", A, B, [], [seg(e(A ^ 3 << 48, 0, 5), e(B, 1, 2), e(A, 7))])
case("an AS in two segments", A, B, [], [seg(e(B, 0, 5), e(A, 7)), seg(e(B, 0, 6), e(A, 8))])
case("an AS at three interfaces", A, C, [], [seg(e(B, 0, 1), e(A, 1)), seg(e(B, 3, 2), e(C, 1))])
case("an AS at two interfaces", A, C, [], [seg(e(B, 0, 1), e(A, 1)), seg(e(B, 0, 2), e(C, 1))])
# Differences.
case("peers of a core segment", A, B, [seg(e(A, 0, 0, [peer(B, 2, 1)]))],
     [seg(e(B, 0, 0, [peer(A, 1, 2)]))])
case("no interfaces", A, B, [], [seg(e(B), e(A))])
case("equal ends", A, A, [seg(e(A, 1))])


def parting(way):
    """The books of differences/ of one way, each from A to B."""
    for name in sorted(glob.glob(os.path.join(os.path.dirname(os.path.abspath(__file__)), "differences", way + "-*.txt"))):
        with open(name, "rb") as f:
            segments = text.parse(f.read(), name, repeats=True)
        yield ENDS.pack(A, B) + layout.book([s for s in segments if s.core], [s for s in segments if not s.core])


def main():
    a = argparse.ArgumentParser()
    a.add_argument("--out")
    a.add_argument("--names", action="store_true")
    a.add_argument("--hex")
    a.add_argument("--parting")
    o = a.parse_args()
    if o.names:
        print("\n".join(CASES))
    if o.hex:
        print(CASES[o.hex].hex())
    if o.out:
        with open(o.out, "wb") as f:
            f.write(batch(parting(o.parting) if o.parting else CASES.values()))


if __name__ == "__main__":
    main()
