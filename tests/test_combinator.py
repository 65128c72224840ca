#!/usr/bin/env python3
"""Tests of bindings/python/combinator.py over the shared library, which COMBINATOR_LIBRARY names or which is found. tests/python runs them."""
import ast
import ctypes
import inspect
import itertools
import os
import pickle
import random
import re
import subprocess
import sys
import tempfile
import threading
import typing
import unittest
from pathlib import Path as File
from unittest import mock

HERE = File(__file__).resolve().parent
ROOT = HERE.parent
BINDING = ROOT / "bindings" / "python"
sys.dont_write_bytecode = True
sys.path[:0] = [str(BINDING), str(HERE), str(HERE / "stored")]

import combinator
from combinator import (AsEntry, Bare, BookWriter, HopField, InfoField, IsdAsn, Loop, ParseError, Path, PathInterface, PeerEntry,
                        Refusal, Segment, Solution, SolutionEdge, Solutions)
from booktext import layout
import form
import model

# The worked example of docs/SPECIFICATION.md 10.6.
SRC, DST = IsdAsn(0x0001FF0000000111), IsdAsn(0x0001FF0000000110)
WORKED = (ROOT / "examples" / "worked.book").read_bytes()
WORKED_INFO = InfoField(False, False, 2, 0x1336, 1000000)
WORKED_HOPS = (HopField(63, 7, 0, bytes.fromhex("0a0b0c0d0e0f")), HopField(63, 0, 5, bytes.fromhex("010203040506")))


class Examples(unittest.TestCase):
    def test_worked(self):
        solutions = combinator.list(SRC, DST, WORKED)
        self.assertEqual(len(solutions), 1)
        self.assertEqual(solutions[0].cost, 1)
        self.assertEqual(solutions[0].edges, (SolutionEdge(position=0, shortcut=0, peer=None, construction=False),))
        path = combinator.assemble(SRC, DST, WORKED, solutions[0])
        self.assertEqual((path.mtu, path.expiry, path.first_as, path.last_as), (1350, 1021600, SRC, DST))
        self.assertEqual(path.infos, (WORKED_INFO,))
        self.assertEqual(path.hops, WORKED_HOPS)
        self.assertEqual(path.segments, (Segment(WORKED_INFO, WORKED_HOPS),))
        self.assertEqual(path.interfaces, (PathInterface(SRC, 7), PathInterface(DST, 5)))
        self.assertEqual([str(i) for i in path.interfaces], ["1-ff00:0:111#7", "1-ff00:0:110#5"])

    def test_turned(self):
        solution, = combinator.list(DST, SRC, WORKED)
        self.assertTrue(solution.edges[0].construction)
        info, = combinator.assemble(DST, SRC, WORKED, solution).infos
        self.assertEqual((info.id, info.flags), (0x1234, 1))

    def test_readme(self):
        words = (BINDING / "README.md").read_text()
        code, = re.findall(r"```python\n(.*?)```", words, re.S)
        exec(compile(code.replace('"examples/', f'"{ROOT}/examples/'), "README.md", "exec"), {})

    def test_shown(self):
        solutions = combinator.list(SRC, DST, WORKED)
        self.assertEqual(repr(solutions), "Solutions([Solution(cost=1, edges=(SolutionEdge(position=0, shortcut=0, peer=None, construction=False),))])")
        path = combinator.assemble(SRC, DST, WORKED, solutions[0])
        self.assertTrue(repr(path).startswith("Path(mtu=1350, expiry=1021600, first_as=1-ff00:0:111, last_as=1-ff00:0:110, segments=("), repr(path))


def record(s):
    """The record of a solution, laid out anew from what its fields say."""
    return layout.solution(s.cost, *s.edges)


def path_record(p):
    return layout.path(p.mtu, p.expiry, [(i.flags, i.hops, i.id, i.timestamp) for i in p.infos], p.hops, p.interfaces)


class Stored(unittest.TestCase):
    """The files of tests/stored: answers of the Rust, and refusals."""

    def given(self, r):
        case = r.take(int.from_bytes(r.take(form.FRONT), "big"))
        return (*layout.ENDS.unpack(case), case[layout.ENDS.size:])

    def test_answers(self):
        r, seen = form.Reader("answers.bin"), set()
        while r.at < len(r.data):
            source, destination, book = self.given(r)
            count = r.next(form.COUNT).solutions
            want = r.take(Solution.SIZE * count)
            solutions = combinator.list(source, destination, book)
            self.assertEqual((len(solutions), solutions.as_bytes()), (count, want))
            for solution in solutions:
                self.assertEqual(record(solution), solution.as_bytes())
                answer, length = r.next(form.OUTCOME)
                want = r.take(length)
                seen.add(answer)
                found = combinator.assemble(source, destination, book, solution)
                if answer != layout.PATH:
                    self.assertIs(found, {layout.LOOP: Loop, layout.BARE: Bare}[answer])
                    continue
                self.assertEqual(found.as_bytes(), want)
                self.assertEqual(path_record(found), want)
                self.assertEqual((found.first_as, found.last_as), (found.interfaces[0].isd_asn, found.interfaces[-1].isd_asn))
                self.assertEqual(tuple(s.info for s in found.segments), found.infos)
                self.assertEqual(tuple(h for s in found.segments for h in s.hops), found.hops)
                self.assertTrue(all(len(s.hops) == s.info.hops for s in found.segments))
        self.assertEqual(seen, {layout.PATH, layout.LOOP, layout.BARE})

    def test_routes(self):
        """The first of a route keeps its place, and a later one takes it over that lives longer."""
        r, seen = form.Reader("answers.bin"), set()
        while r.at < len(r.data):
            source, destination, book = self.given(r)
            count = r.next(form.COUNT).solutions
            records = r.take(Solution.SIZE * count)
            routes, held = [], {}
            for k in range(count):
                answer, length = r.next(form.OUTCOME)
                path = r.take(length)
                if answer != layout.PATH:
                    continue
                path, solution = Path(path), records[Solution.SIZE * k:Solution.SIZE * (k + 1)]
                if path.interfaces not in routes:
                    routes.append(path.interfaces)
                    held[path.interfaces] = path.expiry, solution
                else:
                    longer = path.expiry > held[path.interfaces][0]
                    held[path.interfaces] = (path.expiry, solution) if longer else held[path.interfaces]
                    seen.add(longer)
            self.assertEqual(combinator.routes(source, destination, book).as_bytes(), b"".join(held[route][1] for route in routes))
        self.assertEqual(seen, {False, True})

    def test_refusals(self):
        r, seen = form.Reader("refusals.bin"), set()
        while r.at < len(r.data):
            source, destination, book = self.given(r)
            call, room, length = r.next(form.CALL)
            given, number = r.take(length), r.next(form.REFUSAL).number
            # Routes are refused as solutions are.
            for work in (combinator.list, combinator.routes) if call == form.LISTING else (combinator.assemble,):
                found = 0
                try:
                    work(source, destination, book, *(() if call == form.LISTING else (given,)), room)
                except Refusal as refused:
                    found = refused.number
                    self.assertTrue(str(refused).startswith(f"refused {number} {layout.WORDS[number]}: "), str(refused))
                    self.assertEqual(refused.word, layout.WORDS[number])
                self.assertEqual(found, number)
            seen.add(number)
        # Wire is of the calls that take no book.
        self.assertEqual(seen, {0, *layout.WORDS} - {layout.WIRE})

    def test_wire(self):
        r, seen = form.Reader("wire.bin"), set()
        while r.at < len(r.data):
            given = r.take(int.from_bytes(r.take(form.FRONT), "big"))
            call, room, number, length = r.next(form.CARRIAGE)
            want, found, refusal = r.take(length), b"", 0
            try:
                found = combinator.write(given, room) if call == form.WRITING else combinator.read(given, room).as_bytes()
            except Refusal as refused:
                refusal = refused.number
            self.assertEqual((refusal, found), (number, want))
            seen.add((call, number))
        self.assertEqual(seen, set(itertools.product((form.WRITING, form.READING), (0, layout.SMALL, layout.WIRE))))

    def test_every_refusal_has_a_meaning(self):
        self.assertEqual(set(combinator.MEANINGS), set(layout.WORDS))
        self.assertEqual(str(Refusal(layout.FULL)), "refused 8 Full: there are more solutions than slots")
        self.assertEqual(str(Refusal(11)), "refused 11 Twice: an entry's AS stands earlier in the same segment")
        self.assertEqual(str(Refusal(12)), "refused 12 Wire: the path has no form on the wire, or no path has these bytes")
        self.assertEqual((Refusal(99).word, str(Refusal(99))), ("unknown", "refused 99 unknown"))
        self.assertEqual(pickle.loads(pickle.dumps(Refusal(layout.FULL))).number, layout.FULL)


class Routes(unittest.TestCase):
    """Cases worked out by hand. Every hop lives 337 seconds."""
    X, Y = IsdAsn(1), IsdAsn(2)

    def book(self, *segments):
        """Each is its kind, its timestamp, which is its id too, and AS, ingress and egress of its entries."""
        writer = BookWriter()
        for kind, timestamp, *entries in segments:
            getattr(writer, kind)(timestamp, timestamp, [(AsEntry(a, 1500, 0, HopField(0, ingress, egress, bytes(layout.MAC_SIZE))), ())
                                                         for a, ingress, egress in entries])
        return writer.finish()

    def check(self, book, listed, kept):
        """The positions that the solutions and the routes use."""
        for work, want in ((combinator.list, listed), (combinator.routes, kept)):
            self.assertEqual([tuple(e.position for e in s.edges) for s in work(SRC, DST, book)], want)

    def test_copies(self):
        direct = (DST, 0, 5), (SRC, 7, 0)
        around = (DST, 0, 5), (self.X, 6, 8), (SRC, 7, 0)
        book = self.book(("non_core", 1000, *direct), ("non_core", 3000, *direct), ("non_core", 2000, *direct), ("non_core", 500, *around))
        self.check(book, [(0,), (1,), (2,), (3,)], [(1,), (3,)])
        self.assertEqual([combinator.assemble(SRC, DST, book, s).expiry for s in combinator.routes(SRC, DST, book)], [3337, 837])
        # There must be a slot for every solution.
        self.assertEqual(len(combinator.routes(SRC, DST, book, 4 * Solution.SIZE)), 2)
        with self.assertRaises(Refusal) as found:
            combinator.routes(SRC, DST, book, 4 * Solution.SIZE - 1)
        self.assertEqual(found.exception.number, layout.FULL)

    def test_as_long(self):
        # From 2106-02-07T06:28:15Z on every expiry is that: the copies live as long, and the first stays.
        direct = (DST, 0, 5), (SRC, 7, 0)
        writer = BookWriter()
        for ident in (1, 2):
            writer.non_core(2**32 - ident, ident, [(AsEntry(a, 1500, 0, HopField(0, i, e, bytes(layout.MAC_SIZE))), ()) for a, i, e in direct])
        self.check(writer.finish(), [(0,), (1,)], [(0,)])

    def test_places(self):
        """A longer-lived copy that stands after another route takes the place of the first. Fingerprints 59cd5dc7... and ce7e27ca..."""
        book = self.book(("core", 2000, (DST, 0, 1), (self.X, 2, 0)), ("non_core", 1000, (DST, 0, 1), (self.X, 2, 3), (SRC, 4, 0)),
                         ("non_core", 9000, (DST, 0, 5), (self.Y, 6, 7), (SRC, 8, 0)), ("non_core", 2000, (self.X, 0, 3), (SRC, 4, 0)))
        self.check(book, [(1,), (2,), (1, 0), (3, 0)], [(3, 0), (2,)])

    def test_told_apart(self):
        """Neither the ASes alone nor the ids alone make a route."""
        for one, other in (((DST, 0, 5), (DST, 0, 6)), ((DST, 0, 5), (DST, 0, 5))):
            for between in (self.X, self.Y):
                book = self.book(("non_core", 1, one, (self.X, 6, 8), (SRC, 7, 0)), ("non_core", 2, other, (between, 6, 8), (SRC, 7, 0)))
                self.assertEqual(len(combinator.list(SRC, DST, book)), 2)
                self.assertEqual(len(combinator.routes(SRC, DST, book)), 1 if (one, between) == (other, self.X) else 2)

    def test_no_path(self):
        self.check(self.book(("non_core", 1, (self.X, 0, 2), (SRC, 1, 0)), ("non_core", 2, (self.X, 4, 3), (DST, 1, 0))), [(0, 1)], [])
        self.check(self.book(("non_core", 1, (DST, 0, 0), (SRC, 0, 0))), [(0,)], [])
        self.assertEqual(len(combinator.routes(SRC, SRC, WORKED, 0)), 0)


def of_draft(infos, hops):
    """The standard path of the data draft. Infos are (flags, hop count, id, timestamp), hops (units, ingress, egress, MAC)."""
    counts = [count for _, count, _, _ in infos] + [0, 0]
    found = [(counts[0] << 12 | counts[1] << 6 | counts[2]).to_bytes(4, "big")]
    found += [bytes((flags, 0)) + ident.to_bytes(2, "big") + timestamp.to_bytes(4, "big") for flags, _, ident, timestamp in infos]
    found += [bytes((0, units)) + ingress.to_bytes(2, "big") + egress.to_bytes(2, "big") + mac for units, ingress, egress, mac in hops]
    return b"".join(found)


class Wire(unittest.TestCase):
    """Paths on the wire. Bytes that are expected are worked out by hand from the data draft's layout."""
    # Against construction; through a peer, in construction direction.
    INFOS = (0, 2, 0x1336, 1000000), (3, 1, 0xABCD, 0xFEDCBA98)
    HOPS = (*WORKED_HOPS, (255, 0x0102, 0x0304, bytes.fromhex("a1a2a3a4a5a6")))
    BYTES = bytes.fromhex("00002040" "00" "00" "1336" "000f4240" "03" "00" "abcd" "fedcba98"
                          "00" "3f" "0007" "0000" "0a0b0c0d0e0f" "00" "3f" "0000" "0005" "010203040506" "00" "ff" "0102" "0304" "a1a2a3a4a5a6")

    def record(self, infos=INFOS, hops=HOPS, interfaces=b"", **head):
        """A path's record; counts are those of what is given unless they are given too, and interfaces are bytes."""
        counts = {"info_count": len(infos), "hop_count": len(hops), "interface_count": len(interfaces) // layout.INTERFACE_SIZE}
        return (layout.PATH_HEAD.pack(**{**counts, **head}) + b"".join(layout.INFO.pack(*i) for i in infos) +
                b"".join(layout.HOP.pack(*h) for h in hops) + interfaces)

    def many(self, *counts, flags=0):
        """Infos with so many hops, and hops, of which no two are equal."""
        infos = [(flags, count, 0x0101 * k, 7 + k) for k, count in enumerate(counts)]
        return infos, [(k % 256, 2 * k, 2 * k + 1, k.to_bytes(layout.MAC_SIZE, "big")) for k in range(sum(counts))]

    def refused(self, work, given, number=layout.WIRE, **room):
        with self.assertRaises(Refusal) as found:
            work(given, **room)
        self.assertEqual(found.exception.number, number)

    def answered(self, name, given, room):
        """The number that a function answers, and all bytes of its output, which held others."""
        out = ctypes.create_string_buffer(b"\xff" * room, room)
        return getattr(combinator.load(), name)(given, len(given), out, room), out.raw

    def test_by_hand(self):
        self.assertEqual(combinator.write(self.record()), self.BYTES)
        path = combinator.read(self.BYTES)
        self.assertEqual(path.as_bytes(), self.record())
        self.assertEqual(path.infos, (WORKED_INFO, InfoField(True, True, 1, 0xABCD, 0xFEDCBA98)))
        self.assertEqual(path.hops, self.HOPS)
        self.assertEqual((path.interfaces, path.mtu, path.expiry, path.first_as, path.last_as), ((), 0, 0, 0, 0))
        self.assertEqual(combinator.write(path), self.BYTES)

    def test_worked(self):
        wire = bytes.fromhex("00002000" "00001336000f4240" "003f000700000a0b0c0d0e0f" "003f00000005010203040506")
        path = combinator.assemble(SRC, DST, WORKED, combinator.list(SRC, DST, WORKED)[0])
        self.assertEqual(combinator.write(path), wire)
        self.assertEqual(combinator.read(wire).segments, path.segments)
        # From the other end: in construction direction, with the hops turned.
        path = combinator.assemble(DST, SRC, WORKED, combinator.list(DST, SRC, WORKED)[0])
        self.assertEqual(combinator.write(path).hex(), "00002000" "01001234000f4240" "003f00000005010203040506" "003f000700000a0b0c0d0e0f")

    def test_flags(self):
        for flags in range(4):
            wire = of_draft([(flags, 1, 1, 2)], self.HOPS[:1])
            self.assertEqual(wire[layout.WIRE_META_SIZE], flags)
            self.assertEqual(combinator.write(self.record([(flags, 1, 1, 2)], self.HOPS[:1])), wire)
            info, = combinator.read(wire).infos
            self.assertEqual((info.construction, info.peering, info.flags), (flags % 2 == 1, flags >= 2, flags))

    def test_counts(self):
        """In the order of the infos, six bits each."""
        longest = 0
        for length in range(1, layout.MAX_EDGES + 1):
            for counts in itertools.product((1, 2, layout.MAX_ENTRIES), repeat=length):
                infos, hops = self.many(*counts)
                wire = combinator.write(self.record(infos, hops))
                a, b, c = (*counts, 0, 0)[:3]
                self.assertEqual(int.from_bytes(wire[:4], "big"), a * 4096 + b * 64 + c)
                self.assertEqual(wire, of_draft(infos, hops))
                self.assertEqual(combinator.read(wire).as_bytes(), self.record(infos, hops))
                longest = max(longest, len(wire))
        self.assertEqual(longest, combinator.WIRE_SIZE)

    def test_stored(self):
        r, seen = form.Reader("answers.bin"), set()
        while r.at < len(r.data):
            r.take(int.from_bytes(r.take(form.FRONT), "big"))
            count = r.next(form.COUNT).solutions
            r.take(Solution.SIZE * count)
            for _ in range(count):
                answer, length = r.next(form.OUTCOME)
                record = r.take(length)
                if answer != layout.PATH:
                    continue
                path = Path(record)
                infos = [(i.flags, i.hops, i.id, i.timestamp) for i in path.infos]
                wire = combinator.write(path)
                self.assertEqual(wire, of_draft(infos, path.hops))
                self.assertEqual(combinator.write(record), wire)
                found = combinator.read(wire)
                self.assertEqual((found.infos, found.hops), (path.infos, path.hops))
                self.assertEqual(found.as_bytes(), self.record(infos, path.hops))
                self.assertEqual(combinator.write(found), wire)
                seen.update((len(infos), i.flags) for i in path.infos)
        self.assertLessEqual({(1, 0), (1, 1), (2, 2), (2, 3), (3, 0), (3, 1)}, seen)

    def test_generated(self):
        """Records and bytes, of which some are damaged, against the model: what is answered, and the whole output."""
        r, seen = random.Random("wire"), set()
        for _ in range(3000):
            counts = [r.choice((1, 2, 3, layout.MAX_ENTRIES)) for _ in range(r.randint(1, layout.MAX_EDGES))]
            infos = [(r.randrange(4), count, r.getrandbits(16), r.getrandbits(32)) for count in counts]
            hops = [(r.getrandbits(8), r.getrandbits(16), r.getrandbits(16), r.getrandbits(48).to_bytes(layout.MAC_SIZE, "big")) for _ in range(sum(counts))]
            interfaces = bytes(r.getrandbits(8) for _ in range(layout.INTERFACE_SIZE * r.randrange(4)))
            for name, given, least, wanted in (("combinator_write", self.record(infos, hops, interfaces), combinator.WIRE_SIZE, model.write),
                                               ("combinator_read", of_draft(infos, hops), Path.SIZE, model.read)):
                for damaged in (False, True):
                    data = bytearray(given)
                    for _ in range(damaged * r.randint(1, 2)):
                        # Counts and flags stand at the front.
                        place = r.randrange(r.choice((4, 40, len(data))))
                        data[place % len(data)] = r.choice((0, 1, layout.MAX_ENTRIES, layout.MAX_ENTRIES + 1, r.getrandbits(8)))
                    if damaged and r.random() < 0.2:
                        data = data[:r.randrange(len(data))] if r.random() < 0.5 else data + bytes(r.choice((1, 8, 12)))
                    room = r.choice((least, least, least, least - 1, least + 9))
                    answer, out = self.answered(name, bytes(data), room)
                    self.assertEqual((answer, out), wanted(bytes(data), room))
                    seen.add((name, max(answer - layout.REFUSED, 0)))
        self.assertEqual(seen, set(itertools.product(("combinator_write", "combinator_read"), (0, layout.SMALL, layout.WIRE))))

    # ---- the writer

    def test_of_no_matter(self):
        """What stands at offsets 3 to 25 and in the interfaces, and bytes after those."""
        head = {"zero": 255, "mtu": 65535, "expiry": 2**32 - 1, "first_as": 2**64 - 1, "last_as": 2**64 - 1}
        for interfaces in range(layout.MAX_INTERFACES + 1):
            for record in (self.record(interfaces=b"\xff" * layout.INTERFACE_SIZE * interfaces, **head),
                           self.record(interfaces=bytes(layout.INTERFACE_SIZE * interfaces))):
                self.assertEqual(combinator.write(record), self.BYTES)
        for more in (1, 7, Path.SIZE, 2**17):
            self.assertEqual(combinator.write(self.record() + b"\xff" * more), self.BYTES)

    def test_count_of_infos(self):
        self.refused(combinator.write, self.record([], []))
        self.refused(combinator.write, self.record([], self.HOPS))
        self.refused(combinator.write, bytes(Path.SIZE))
        for count in (layout.MAX_EDGES + 1, 64, 255):
            infos, hops = self.many(*[1] * count)
            self.refused(combinator.write, self.record(infos, hops))
        # The counts of a fourth info would leave the sum as it is.
        infos, hops = self.many(1, 1, 1)
        self.refused(combinator.write, self.record([*infos, (0, 0, 0, 0)], hops))

    def test_flags_above(self):
        for place in range(layout.MAX_EDGES):
            for flags in (4, 5, 7, 8, 16, 32, 64, 128, 130, 255):
                infos, hops = self.many(1, 1, 1)
                infos[place] = (flags, *infos[place][1:])
                self.refused(combinator.write, self.record(infos, hops))

    def test_hops_of_an_info(self):
        for length in range(1, layout.MAX_EDGES + 1):
            for place in range(length):
                for count in (0, layout.MAX_ENTRIES + 1, 64, 251):
                    counts = [2] * length
                    counts[place] = count
                    self.refused(combinator.write, self.record(*self.many(*counts)))

    def test_sum(self):
        for counts in ((2,), (2, 1), (3, 1, 2), (layout.MAX_ENTRIES,) * layout.MAX_EDGES):
            infos, hops = self.many(*counts)
            self.assertEqual(combinator.write(self.record(infos, hops)), of_draft(infos, hops))
            for count in {0, len(hops) - 1, len(hops) + 1, 255}:
                # There are bytes enough for all of these.
                self.refused(combinator.write, self.record(infos, hops, hop_count=count) + bytes(255 * layout.HOP.size))

    def test_too_few_bytes(self):
        for record in (self.record(), self.record(interfaces=bytes(range(4 * layout.INTERFACE_SIZE))), self.record(*self.many(layout.MAX_ENTRIES, 1, 2))):
            combinator.write(record)
            for length in range(len(record)):
                self.refused(combinator.write, record[:length])
        # Interfaces that are counted and are not there.
        for count in (1, layout.MAX_INTERFACES, 255):
            self.refused(combinator.write, self.record(interface_count=count))
            self.refused(combinator.write, self.record(interface_count=count) + bytes(layout.INTERFACE_SIZE * count - 1))
            self.assertEqual(combinator.write(self.record(interface_count=count) + bytes(layout.INTERFACE_SIZE * count)), self.BYTES)

    # ---- the reader

    def test_every_bit(self):
        """Each bit of the bytes turned: those that are reserved or fixed are refused, all others come back."""
        meta, infos = layout.WIRE_META_SIZE, layout.WIRE_META_SIZE + 2 * layout.WIRE_INFO.size
        # Current indexes, reserved bits, segment lengths that no longer fit.
        fixed = set(range(8 * meta))
        for k in range(2):
            # Six reserved bits, the first ones, and a reserved byte.
            start = 8 * (meta + layout.WIRE_INFO.size * k)
            fixed.update((*range(start, start + 6), *range(start + 8, start + 16)))
        for k in range(3):
            start = 8 * (infos + layout.WIRE_HOP.size * k)
            fixed.update(range(start, start + 8))
        self.assertEqual(len(fixed), 32 + 2 * 14 + 3 * 8)
        records = set()
        for bit in range(8 * len(self.BYTES)):
            wire = bytearray(self.BYTES)
            wire[bit // 8] ^= 0x80 >> bit % 8
            with self.subTest(bit=bit):
                if bit in fixed:
                    self.refused(combinator.read, wire)
                    continue
                path = combinator.read(wire)
                self.assertEqual(combinator.write(path), wire)
                records.add(path.as_bytes())
        self.assertEqual(len(records), 8 * len(self.BYTES) - len(fixed))

    def test_lengths(self):
        """Bytes that fit the lengths, by the infos of all that are not 0 or of those before the first that is."""
        most = layout.MAX_ENTRIES
        for lengths in ((0, 0, 0), (0, 1, 0), (0, 0, 1), (0, 1, 1), (1, 0, 1), (2, 0, 3), (most, 0, most), (most + 1, 0, 0), (1, most + 1, 0),
                        (1, 1, most + 1), (most + 1,) * 3, (63, 0, 0), (63, 63, 63)):
            for infos in range(4):
                for hops in {sum(lengths), lengths[0], sum(lengths[:2])}:
                    wire = of_draft([(0, count, 0, 0) for count in lengths], [])[:4] + bytes(layout.WIRE_INFO.size * infos + layout.WIRE_HOP.size * hops)
                    self.refused(combinator.read, wire)

    def test_length(self):
        for infos, hops in (self.many(1), self.many(2, 3), self.many(*(layout.MAX_ENTRIES,) * layout.MAX_EDGES)):
            wire = of_draft(infos, hops)
            combinator.read(wire)
            for length in range(len(wire)):
                self.refused(combinator.read, wire[:length])
            for more in (1, layout.WIRE_INFO.size, layout.WIRE_HOP.size, 2**17):
                self.refused(combinator.read, wire + bytes(more))
        # A path that would be the longest by one hop.
        self.refused(combinator.read, of_draft(*self.many(layout.MAX_ENTRIES, layout.MAX_ENTRIES, layout.MAX_ENTRIES + 1)))

    # ---- outputs

    def test_room(self):
        """The output is tested first. It is set to its end, and zero where the call refuses."""
        for work, least, given, want in ((combinator.write, combinator.WIRE_SIZE, self.record(), self.BYTES),
                                         (combinator.read, Path.SIZE, self.BYTES, self.record())):
            for room in (0, 1, least - 1):
                for given_ in (given, b"", given[:-1]):
                    self.refused(work, given_, layout.SMALL, room=room)
            for room in (least, least + 1, 2**17):
                found = work(given, room=room)
                self.assertEqual(found.as_bytes() if work is combinator.read else found, want)
                self.refused(work, given[:-1], room=room)
            for room in (0, 1, least - 1, least, least + 100):
                for given_ in (given, given[:-1]):
                    number = layout.SMALL if room < least else layout.WIRE if given_ is not given else None
                    self.assertEqual(self.answered(f"combinator_{work.__name__}", given_, room),
                                     (layout.REFUSED + number, bytes(room)) if number else (len(want), want.ljust(room, b"\0")))

    def test_arguments(self):
        for work, given in ((combinator.write, self.record()), (combinator.read, self.BYTES)):
            for made in (bytearray, memoryview):
                self.assertEqual(work(made(given)), work(given))
            for wrong in ("path", 8, None, [0] * 8):
                with self.subTest(given=wrong), self.assertRaises(TypeError):
                    work(wrong)
            with self.assertRaises(TypeError):
                work(given, "room")
            with self.assertRaises(ValueError):
                work(given, -1)


class Text(unittest.TestCase):
    """ISD-ASes: the texts of bindings/rust/tests/all/text.rs."""

    def texts(self, name):
        return re.search(rf"fn {name}\(\).*?\n}}", (ROOT / "bindings/rust/tests/all/text.rs").read_text(), re.S)[0]

    def test_both_ways(self):
        pairs = re.findall(r'\((0x[0-9a-f_]+|[0-9]+|u64::MAX), "(.*?)"\)', self.texts("both_ways"))
        self.assertGreater(len(pairs), 9)
        for number, text in pairs:
            number = 2**64 - 1 if number == "u64::MAX" else int(number, 0)
            self.assertEqual((str(IsdAsn(number)), repr(IsdAsn(number)), f"{IsdAsn(number)}"), (text, text, text))
            self.assertEqual(IsdAsn.parse(text), number)
            self.assertEqual(IsdAsn(number).isd << 48 | IsdAsn(number).asn, number)

    def test_other_texts(self):
        texts = re.findall(r'^ +"(.*)",$', self.texts("other_texts"), re.M)
        self.assertGreater(len(texts), 25)
        for text in texts:
            with self.subTest(text=text), self.assertRaises(ParseError):
                IsdAsn.parse(text)

    def test_parts(self):
        self.assertEqual((SRC.isd, SRC.asn, f"{SRC:016x}"), (1, 0xFF0000000111, "0001ff0000000111"))
        self.assertEqual((IsdAsn.parse("1-FF00:0:0110"), IsdAsn.parse("2-0:0:1")), (DST, 0x0002000000000001))


def rewritten(book):
    """A book read by tools/booktext and written by BookWriter."""
    writer = BookWriter()
    for s in layout.read(book):
        entries = [(AsEntry(e.isd_as, e.mtu, e.ingress_mtu, HopField(e.units, e.ingress, e.egress, e.mac)),
                    [PeerEntry(p.isd_as, p.interface, p.mtu, HopField(p.units, p.ingress, p.egress, p.mac)) for p in e.peers]) for e in s.entries]
        (writer.core if s.core else writer.non_core)(s.timestamp, s.id, entries)
    return writer.finish()


class Books(unittest.TestCase):
    ENTRY = AsEntry(1, 1500, 0, HopField(63, 4, 5, bytes(layout.MAC_SIZE)))
    PEER = PeerEntry(2, 3, 1400, HopField(63, 4, 5, bytes(layout.MAC_SIZE)))

    def test_come_back(self):
        for name in ("worked", "house", "core", "renewed"):
            book = (ROOT / "examples" / f"{name}.book").read_bytes()
            self.assertEqual(rewritten(book), book, name)
        for case in form.answers():
            length = int.from_bytes(case[:form.FRONT], "big")
            book = case[form.FRONT + layout.ENDS.size:form.FRONT + length]
            self.assertEqual(rewritten(book), book)

    def test_kinds(self):
        """A segment that is refused shifts none of the others, and kinds may be given in any order."""
        writer = BookWriter()
        writer.non_core(7, 8, [(self.ENTRY, [])])
        with self.assertRaises(Refusal):
            writer.core(1, 2, [(self.ENTRY, [])] * (layout.MAX_ENTRIES + 1))
        writer.core(3, 4, [(self.ENTRY, [self.PEER])])
        found = layout.read(writer.finish())
        self.assertEqual([(s.core, s.timestamp, s.id, len(s.entries)) for s in found], [(True, 3, 4, 1), (False, 7, 8, 1)])

    def refused(self, number, work, *args):
        with self.assertRaises(Refusal) as found:
            work(*args)
        self.assertEqual(found.exception.number, number)

    def test_limits(self):
        writer = BookWriter()
        self.refused(layout.LONG, writer.core, 1, 2, [(self.ENTRY, [])] * (layout.MAX_ENTRIES + 1))
        self.refused(layout.PEERS, writer.core, 1, 2, [(self.ENTRY, [self.PEER] * (layout.MAX_PEERS + 1))])
        for _ in range(layout.MAX_SEGMENTS - 1):
            writer.core(1, 2, [])
        writer.non_core(1, 2, [])
        self.refused(layout.CROWDED, writer.core, 1, 2, [])
        self.refused(layout.CROWDED, writer.non_core, 1, 2, [])
        self.assertEqual(len(combinator.list(1, 2, writer.finish())), 0)

    def test_oversize(self):
        full = [(self.ENTRY._replace(local=k), [self.PEER] * layout.MAX_PEERS) for k in range(layout.MAX_ENTRIES)]
        one = layout.HEAD.size + layout.MAX_ENTRIES * (layout.ENTRY.size + layout.MAX_PEERS * layout.PEER.size)
        writer = BookWriter()
        for _ in range((layout.MAX_BOOK - layout.COUNTS.size) // one):
            writer.non_core(1, 2, full)
        before = writer.finish()
        self.refused(layout.OVERSIZE, writer.non_core, 1, 2, full)
        self.assertEqual(writer.finish(), before)
        self.assertEqual(len(combinator.list(70, 90, before)), 0)

    def over(self, *ases):
        return [(self.ENTRY._replace(local=a), []) for a in ases]

    def test_twice(self):
        """A segment that passes an AS twice is refused by the writer and, where others wrote it, by every call."""
        a, b, c, other_isd = 0x0001FF0000000110, 0x0001FF0000000111, 9, 0x0002FF0000000110
        whole = range(1, layout.MAX_ENTRIES + 1)
        for ases in ((a, a), (a, b, a), (c, a, a), (c, a, b, a), (a, b, a, c), (0, 0), (a, other_isd, a), (*whole[:-1], whole[0])):
            for core in (False, True):
                writer = BookWriter()
                write = writer.core if core else writer.non_core
                write(1, 2, self.over(a, b))
                before = writer.finish()
                self.refused(layout.TWICE, write, 3, 4, self.over(*ases))
                self.assertEqual(writer.finish(), before)
                write(3, 4, self.over(b, a))
                # The bytes laid out with no test of them.
                made = [layout.Segment(entries=[layout.Entry(isd_as=x) for x in given]) for given in ((a, b), ases)]
                book = layout.book(made, []) if core else layout.book([], made)
                for work in (combinator.list, combinator.routes):
                    self.refused(layout.TWICE, work, a, b, book)
                self.refused(layout.TWICE, combinator.assemble, a, b, book, b"", 0)
        # The same AS number in another ISD, one AS in two segments and two equal segments are none of it.
        writer = BookWriter()
        for ases in ((a, other_isd), (a, b), (a, b), (a,), whole):
            writer.non_core(1, 2, self.over(*ases))
        self.assertGreater(len(combinator.list(a, b, writer.finish())), 0)

    def test_before_twice(self):
        """Of the refusals of one segment, the one that the library tests first."""
        writer = BookWriter()
        again = self.over(1, 1)
        self.refused(layout.PEERS, writer.core, 1, 2, [again[0], (self.ENTRY, [self.PEER] * (layout.MAX_PEERS + 1))])
        self.refused(layout.LONG, writer.core, 1, 2, self.over(*[1] * (layout.MAX_ENTRIES + 1)))
        full = [(e, [self.PEER] * layout.MAX_PEERS) for e, _ in self.over(*range(layout.MAX_ENTRIES))]
        while True:
            try:
                writer.core(1, 2, full)
            except Refusal as refused:
                self.assertEqual(refused.number, layout.OVERSIZE)
                break
        self.refused(layout.TWICE, writer.core, 1, 2, again)
        self.refused(layout.OVERSIZE, writer.core, 1, 2, [full[0], *full[:-1]])
        writer = BookWriter()
        for _ in range(layout.MAX_SEGMENTS):
            writer.core(1, 2, [])
        self.refused(layout.CROWDED, writer.core, 1, 2, again)

    def test_values(self):
        hop = self.ENTRY.hop
        for wrong, entry in ((ValueError, self.ENTRY._replace(local=1 << 64)), (ValueError, self.ENTRY._replace(mtu=1 << 32)),
                             (ValueError, self.ENTRY._replace(ingress_mtu=-1)), (TypeError, self.ENTRY._replace(mtu="1500")),
                             (ValueError, self.ENTRY._replace(hop=hop._replace(units=256))), (ValueError, self.ENTRY._replace(hop=hop._replace(mac=bytes(5)))),
                             (ValueError, self.ENTRY._replace(hop=hop._replace(mac=bytes(7)))), (TypeError, self.ENTRY._replace(hop=hop._replace(mac=6)))):
            with self.subTest(entry=entry), self.assertRaises(wrong):
                BookWriter().core(1, 2, [(entry, [])])
        with self.assertRaises(ValueError):
            BookWriter().core(1, 2, [(self.ENTRY, [self.PEER._replace(interface=1 << 16)])])
        for timestamp, ident in ((1 << 32, 0), (-1, 0), (0, 1 << 16)):
            with self.assertRaises(ValueError):
                BookWriter().non_core(timestamp, ident, [])


class Arguments(unittest.TestCase):
    def test_numbers(self):
        for number in (-1, 1 << 64, 1 << 80):
            for ends in ((number, DST), (SRC, number)):
                for work in (combinator.list, combinator.routes):
                    with self.subTest(ends=ends), self.assertRaises(ValueError):
                        work(*ends, WORKED)
                with self.subTest(ends=ends), self.assertRaises(ValueError):
                    combinator.assemble(*ends, WORKED, bytes(Solution.SIZE))
            with self.assertRaises(ValueError):
                IsdAsn(number)
        self.assertEqual(len(combinator.list((1 << 64) - 1, 0, WORKED)), 0)

    def test_types(self):
        for source in ("1-ff00:0:111", 1.0, None, b"1"):
            with self.subTest(source=source), self.assertRaises(TypeError):
                combinator.list(source, DST, WORKED)
        for book in ("book", 8, None, [0] * 8):
            with self.subTest(book=book), self.assertRaises(TypeError):
                combinator.list(SRC, DST, book)
            with self.subTest(record=book), self.assertRaises(TypeError):
                combinator.assemble(SRC, DST, WORKED, book)
        with self.assertRaises(TypeError):
            combinator.list(SRC, DST, WORKED, "room")
        with self.assertRaises(ValueError):
            combinator.list(SRC, DST, WORKED, -1)

    def test_buffers(self):
        want = combinator.list(SRC, DST, WORKED)
        for made in (bytearray, memoryview):
            self.assertEqual(combinator.list(SRC, DST, made(WORKED)), want)
            self.assertIsInstance(combinator.assemble(SRC, DST, made(WORKED), made(want[0].as_bytes())), Path)

    def test_empty(self):
        for book, record, room, number in ((b"", b"", 0, layout.CUT), (bytes(8), b"", 0, layout.SMALL), (bytes(8), b"", Path.SIZE, layout.STRANGER)):
            with self.assertRaises(Refusal) as found:
                combinator.assemble(1, 2, book, record, room)
            self.assertEqual(found.exception.number, number)
        self.assertEqual(len(combinator.list(1, 2, bytes(8), 0)), 0)

    def test_records(self):
        solution = Solution(b"\xff" * Solution.SIZE)
        self.assertEqual((solution.cost, len(solution.edges), solution.edges[0].peer), (65535, layout.MAX_EDGES, 254))
        for length in (0, Solution.SIZE - 1, Solution.SIZE + 1):
            with self.assertRaises(ValueError):
                Solution(bytes(length))
        solutions = Solutions(bytes(range(2 * Solution.SIZE)))
        self.assertEqual((solutions[-1], solutions[:1], list(solutions)), (solutions[1], Solutions(bytes(range(Solution.SIZE))), [solutions[0], solutions[1]]))
        self.assertEqual(len({solutions[0], solutions[0], solutions[1]}), 2)
        with self.assertRaises(IndexError):
            solutions[2]


class Library(unittest.TestCase):
    def run_alone(self, code, folder=BINDING, **environment):
        """Code in a process of its own, which has loaded nothing."""
        kept = {k: v for k, v in os.environ.items() if k != combinator.VARIABLE}
        done = subprocess.run([sys.executable, "-B", "-c", code], env={**kept, "PYTHONPATH": str(folder), **environment}, cwd=HERE,
                              capture_output=True, check=False, text=True)
        self.assertEqual(done.stderr, "")
        return done.stdout

    LISTED = "import combinator; print(len(combinator.list(1, 2, bytes(8))))"
    MISSING = ("import combinator\ntry:\n    combinator.list(1, 2, bytes(8))\nexcept combinator.LibraryNotFound as wrong:\n    print(wrong)\n"
               "except combinator.Refusal:\n    print('refused')\n")

    def test_named(self):
        library = os.environ[combinator.VARIABLE]
        self.assertEqual(self.run_alone(self.LISTED, COMBINATOR_LIBRARY=library), "0\n")
        self.assertEqual(self.run_alone(f"import combinator; combinator.load({library!r}); print(len(combinator.list(1, 2, bytes(8))))",
                                        COMBINATOR_LIBRARY="/no/such.so"), "0\n")

    def test_missing(self):
        said = self.run_alone(self.MISSING, COMBINATOR_LIBRARY="/no/such.so")
        self.assertTrue(said.startswith("cannot load /no/such.so: "), said)
        with tempfile.NamedTemporaryFile(suffix=".so") as empty:
            said = self.run_alone(self.MISSING, COMBINATOR_LIBRARY=empty.name)
            self.assertTrue(said.startswith(f"cannot load {empty.name}: "), said)
        libc = ctypes.util.find_library("c")
        self.assertEqual(self.run_alone(self.MISSING, COMBINATOR_LIBRARY=libc), f"{libc} has no function combinator_list\n")

    def test_found_beside(self):
        """As installed: the module and booktext in one folder, the library in the folder above; without it, nothing is found."""
        with tempfile.TemporaryDirectory() as folder:
            package = File(folder, "lib", "combinator")
            package.mkdir(parents=True)
            (package / "combinator.py").write_bytes((BINDING / "combinator.py").read_bytes())
            (package / "booktext").symlink_to(ROOT / "tools" / "booktext")
            without = self.MISSING.replace("import combinator", "import combinator, ctypes.util; ctypes.util.find_library = lambda name: None")
            said = self.run_alone(without, package)
            self.assertEqual(said, f"libcombinator.so is neither in {folder}/lib nor where the system looks: build it with make lib, "
                                   "or name it in COMBINATOR_LIBRARY\n")
            (package.parent / combinator.NAME).symlink_to(os.environ[combinator.VARIABLE])
            self.assertEqual(self.run_alone(self.LISTED, package), "0\n")

    def test_found_in_the_repository(self):
        with tempfile.TemporaryDirectory() as folder:
            for place in ("bindings", "tools"):
                File(folder, place).symlink_to(ROOT / place)
            self.assertEqual(combinator.REPOSITORY, ROOT)
            with mock.patch.object(combinator, "REPOSITORY", File(folder)), mock.patch.dict(os.environ):
                del os.environ[combinator.VARIABLE]
                File(folder, "build").mkdir()
                File(folder, "build", combinator.NAME).touch()
                self.assertEqual(combinator._found(None), f"{folder}/build/libcombinator.so")

    def test_header(self):
        """Every function of the header is known, by its types."""
        kinds = [(r"uint64_t (\w+)", combinator.AS), (r"const uint8_t \*(\w+), size_t \1_len", combinator.BYTES),
                 (r"uint8_t \*(\w+), size_t \1_len", combinator.OUT)]
        words = re.sub(r"/\*.*?\*/", "", (ROOT / "include" / "combinator.h").read_text(), flags=re.S)
        found = {}
        for name, given in re.findall(r"\buint32_t\s+(combinator_\w+)\s*\(([^()]*)\)", words):
            given, found[name] = " ".join(given.split()), ()
            while given:
                for form_, kind in kinds:
                    match = re.match(form_ + r"(, |$)", given)
                    if match:
                        break
                else:
                    self.fail(f"{name}: no kind of parameter for {given}")
                given, found[name] = given[match.end():], (*found[name], kind)
        self.assertEqual(found, combinator.FUNCTIONS)

    @unittest.skipIf("libmodel" in os.environ.get(combinator.VARIABLE, ""), "the model has state: it takes one call at a time")
    def test_threads(self):
        """Calls at the same time, each with a book of its own."""
        cases = [form.answers()[k] for k in range(0, 320, 40)]
        wrong = []

        def work(case):
            length = int.from_bytes(case[:form.FRONT], "big")
            source, destination = layout.ENDS.unpack(case, form.FRONT)
            book = case[form.FRONT + layout.ENDS.size:form.FRONT + length]
            count = form.COUNT.unpack(case, form.FRONT + length).solutions
            at = form.FRONT + length + form.COUNT.size
            for _ in range(50):
                if combinator.list(source, destination, book).as_bytes() != case[at:at + Solution.SIZE * count]:
                    wrong.append(case)
        threads = [threading.Thread(target=work, args=(case,)) for case in cases]
        for t in threads:
            t.start()
        for t in threads:
            t.join()
        self.assertEqual(wrong, [])


class Form(unittest.TestCase):
    FILES = [BINDING / "combinator.py", ROOT / "tools" / "book", *sorted((ROOT / "tools" / "booktext").glob("*.py"))]

    def test_python_3_8(self):
        for file in self.FILES:
            ast.parse(file.read_text(), str(file), feature_version=(3, 8))

    @unittest.skipUnless(hasattr(sys, "stdlib_module_names"), "Python 3.10 knows the names of its standard library")
    def test_standard_library(self):
        for file in self.FILES:
            for node in ast.walk(ast.parse(file.read_text())):
                if isinstance(node, ast.Import):
                    names = [a.name for a in node.names]
                else:
                    names = [node.module] if isinstance(node, ast.ImportFrom) and not node.level else []
                for name in names:
                    self.assertIn(name.split(".")[0], sys.stdlib_module_names | {"booktext", "combinator"}, file)

    def test_typed(self):
        """Every function has the types of all its parameters and of its answer."""
        def functions(holder):
            for value in vars(holder).values():
                value = getattr(value, "fget", None) or getattr(value, "__func__", value)
                if inspect.isfunction(value) and value.__module__ == "combinator" and value.__name__ != "<lambda>":
                    yield value
                elif inspect.isclass(value) and value.__module__ == "combinator" and value is not holder:
                    yield from functions(value)
        count = 0
        for function in functions(combinator):
            if function.__code__.co_filename != combinator.__file__:
                continue  # made by NamedTuple
            names = [p for p in inspect.signature(function).parameters if p not in ("self", "cls")]
            self.assertEqual({*names, "return"} - set(typing.get_type_hints(function)), set(), function.__qualname__)
            count += 1
        self.assertGreater(count, 40)

    def test_names(self):
        """Names are those of the Rust crate, but for what only Python needs."""
        crate = (ROOT / "bindings" / "rust" / "src" / "lib.rs").read_text()
        names = set(re.findall(r"\w+", " ".join(re.findall(r"^pub use (.*?);", crate, re.M | re.S))))
        names |= set(re.findall(r"^pub (?:fn|enum|struct) (\w+)", crate, re.M))
        self.assertEqual(set(combinator.__all__) - names, {"Bare", "LibraryNotFound", "Loop", "NoPath", "load"})
        for name in combinator.__all__:
            self.assertTrue(hasattr(combinator, name), name)


if __name__ == "__main__":
    if combinator.VARIABLE not in os.environ:
        try:
            os.environ[combinator.VARIABLE] = combinator.load()._name
        except combinator.LibraryNotFound as wrong:
            print(f"skipped: tests of bindings/python: {wrong}")
            sys.exit()
    unittest.main()
