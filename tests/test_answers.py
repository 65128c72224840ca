#!/usr/bin/env python3
"""Tests of tools/book over the library: that it lists as the program does, the reasons that it gives, its JSON.

tests/python runs them. The library is the one that COMBINATOR_LIBRARY names or that is found.
The program is crates/list/out/list where it is built, else tests/model.py stands in for it.
"""
import json
import os
import random
import re
import sys
import tempfile
import unittest
from dataclasses import replace
from pathlib import Path
from unittest import mock

HERE = Path(__file__).resolve().parent
ROOT = HERE.parent
sys.dont_write_bytecode = True
sys.path[:0] = [str(ROOT / "tools"), str(HERE), str(HERE / "stored")]

import form
import generate
import model
from booktext import BookError, answers, isd_as, layout, printed, refusal, times, why
from booktext.layout import ENDS, Entry, Peer, Segment
from test_book import EXAMPLES, LIST, MODEL, WORKED_WIRE, asked, book

combinator = answers.combinator
# Of a library that is named and is none, this is an error.
MISSING = answers.load(None)
LIBRARY = None if MISSING else combinator.load()._name


def example(name):
    """Source, destination and book."""
    return (*map(isd_as.parse, EXAMPLES[name]), (ROOT / "examples" / f"{name}.book").read_bytes())


def stored(cases):
    """Source, destination and book of the cases of a file of tests/stored, each once."""
    found = dict.fromkeys(case[form.FRONT:form.FRONT + int.from_bytes(case[:form.FRONT], "big")] for case in cases)
    return [(*ENDS.unpack(given), given[ENDS.size:]) for given in found]


# What is null where there is no path.
PATH_MEMBERS = "mtu", "expiry", "run_out", "first_as", "last_as", "hop_count", "infos", "hops", "interfaces"


class Without:
    """Neither a library that is loaded nor one that is found."""

    def __enter__(self):
        self.patches = [mock.patch.object(combinator, "_library", None), mock.patch.object(combinator, "REPOSITORY", None),
                        mock.patch.object(combinator, "HERE", Path("/no/such/folder")), mock.patch("ctypes.util.find_library", return_value=None),
                        mock.patch.dict(os.environ)]
        for p in self.patches:
            p.start()
        os.environ.pop("COMBINATOR_LIBRARY", None)

    def __exit__(self, *_):
        for p in reversed(self.patches):
            p.stop()


class Same(unittest.TestCase):
    """The library's list is the program's, byte for byte."""

    def same(self, source, destination, data):
        found = answers.by_library(source, destination, data)
        want = model.printed(asked(source, destination, data))
        self.assertEqual(found.text, want)
        self.assertEqual(found.refused, printed.refusal(want))
        self.assertIsNone(found.without)
        if found.refused is None:
            read = printed.parse(want)
            self.assertEqual(printed.written(read), want)
            for one, other in zip(found.solutions, read):
                one.record = one.path = None
                self.assertEqual(one, other)
        return found

    def test_examples(self):
        for name, ends in EXAMPLES.items():
            want = (ROOT / "examples" / f"{name}.list").read_bytes()
            data = ROOT / "examples" / f"{name}.book"
            self.same(*example(name))
            for by in ((), ("--library", LIBRARY), ("--program", MODEL)):
                self.assertEqual(book("list", "--plain", *by, *ends, data), (0, want, ""))

    def test_generated(self):
        for case in generate.cases("answers", 200):
            self.same(*case)

    def test_stored(self):
        self.assertEqual({s.outcome for case in stored(form.answers()) for s in self.same(*case).solutions}, {"path", "loop", "bare"})

    def test_refusals(self):
        self.assertEqual({self.same(*case).refused for case in stored(form.refusals())}, {None, *range(layout.CUT, layout.FULL + 1), layout.TWICE})
        status, out, said = book("list", "--plain", "--library", LIBRARY, "1-1", "1-2", given=bytes(7))
        self.assertEqual((status, out, said), (1, b"refused 1\n", ""))

    def test_damaged(self):
        seen = {self.same(source, destination, generate.damaged(random.Random(f"answers damaged/{k}"), data)).refused
                for k, (source, destination, data) in enumerate(generate.cases("answers damaged", 100))}
        self.assertLessEqual({None, layout.CUT, layout.LONG, layout.TWICE}, seen)

    @unittest.skipUnless(os.access(LIST, os.X_OK), "the program list is not built")
    def test_program(self):
        for case in generate.cases("answers program", 100):
            self.assertEqual(answers.by_library(*case).text, answers.by_program(str(LIST), *case).text)


class Choice(unittest.TestCase):
    """Which of the two is asked."""

    def test_default(self):
        case = example("worked")
        self.assertIsNone(answers.listing(*case).without)
        self.assertIsNone(answers.listing(*case, library=LIBRARY).without)
        self.assertEqual(answers.listing(*case, program=str(MODEL)).without, "build it with make lib, or name it with --library")
        with Without(), mock.patch.object(answers, "PROGRAMS", (Path("/no/such/list"), MODEL)):
            self.assertTrue(answers.listing(*case).without.startswith("libcombinator.so is neither in /no/such nor where the system looks: "))

    def test_neither(self):
        with Without(), mock.patch.object(answers, "PROGRAMS", (Path("/no/such/list"), Path("/no/other/list"))):
            status, out, said = book("list", "1-1", "1-2", given=bytes(8))
            self.assertEqual((status, out), (2, b""))
            self.assertEqual(said, "book: libcombinator.so is neither in /no/such nor where the system looks: build it with make lib, or name it in "
                                   "COMBINATOR_LIBRARY; the program list is neither /no/such/list nor /no/other/list: build it, or give its path "
                                   "with --program\n")

    def test_missing(self):
        """A library that is named and is none is an error, and no reason to ask the program."""
        for command in (("list",), ("draw", "-o", "x.dot")):
            with mock.patch.object(answers, "PROGRAMS", (MODEL, MODEL)):
                status, out, said = book(*command, "--library", "/no/such.so", "1-1", "1-2", given=bytes(8))
            self.assertEqual((status, out), (2, b""))
            self.assertTrue(said.startswith("book: cannot load /no/such.so: "), said)
            with Without(), mock.patch.dict(os.environ, COMBINATOR_LIBRARY="/no/such.so"), mock.patch.object(answers, "PROGRAMS", (MODEL, MODEL)):
                status, out, said = book(*command, "1-1", "1-2", given=bytes(8))
            self.assertEqual((status, out), (2, b""))
            self.assertTrue(said.startswith("book: cannot load /no/such.so: "), said)

    def test_both(self):
        status, _, said = book("list", "--library", LIBRARY, "--program", MODEL, "1-1", "1-2", given=bytes(8))
        self.assertEqual(status, 2)
        self.assertIn("not allowed with", said)

    def test_without_the_module(self):
        with mock.patch.object(answers, "combinator", None), mock.patch.object(answers, "PROGRAMS", (MODEL, MODEL)):
            self.assertEqual(answers.listing(*example("worked")).without, f"the module combinator is not beside {ROOT}/tools/book")
            with self.assertRaisesRegex(BookError, "the module combinator is not beside"):
                answers.listing(*example("worked"), library=LIBRARY)

    def test_draw(self):
        """The same picture by both."""
        with tempfile.TemporaryDirectory() as folder:
            for by in (("--library", LIBRARY), ("--program", MODEL)):
                made = Path(folder, by[0])
                self.assertEqual(book("draw", *by, *EXAMPLES["house"], ROOT / "examples" / "house.book", "-o", f"{made}.dot"), (0, b"", ""))
            self.assertEqual(*(Path(folder, f"--{by}.dot").read_text() for by in ("library", "program")))

    def test_said(self):
        """The program gives no reasons: one line says so, where there are any to give."""
        worked = ROOT / "examples" / "worked.book"
        status, out, said = book("list", "--program", MODEL, *EXAMPLES["worked"], worked)
        self.assertEqual((status, said), (0, "book: the program gives no reasons, the library does: build it with make lib, or name it with --library\n"))
        self.assertEqual(len(out.splitlines()), len((ROOT / "examples" / "worked.list").read_text().splitlines()))
        self.assertEqual(book("list", "--program", MODEL, "1-1", "1-2", worked), (0, b"solutions 0 paths 0\nnothing found: source 1-1 is in no segment\n"
                                                                                    b"nothing found: destination 1-2 is in no segment\n", ""))


S, D, P, Q, X, Y = (isd_as.parse(f"1-{k}") for k in range(1, 7))    # source, destination, others


def hop(isd_asn, ingress=0, egress=0, mtu=1500, ingress_mtu=0, units=63, peers=()):
    return Entry(isd_as=isd_asn, mtu=mtu, ingress_mtu=ingress_mtu, ingress=ingress, egress=egress, units=units, peers=list(peers))


def segment(*entries, core=False, timestamp=1000000, ident=1):
    return Segment(timestamp, ident, list(entries), core)


def chain(*ases, first=1, **fields):
    """A segment over ASes, with an interface id to each end of each link."""
    last = len(ases) - 1
    return segment(*(hop(a, first + 2 * k - 1 if k else 0, first + 2 * k if k < last else 0) for k, a in enumerate(ases)), **fields)


def peer(isd_asn, interface, ingress, egress, mtu=1500, units=63):
    return Peer(isd_as=isd_asn, interface=interface, mtu=mtu, units=units, ingress=ingress, egress=egress)


def peered(top, end, leaf, *peers, units=63):
    """A segment of three entries, the middle one with peers."""
    return segment(hop(top, 0, 1), hop(end, 2, 3, peers=peers, units=units), hop(leaf, 4, 0))


class Why(unittest.TestCase):
    """Books whose reasons are worked out by hand."""

    def told(self, *segments, ends=(S, D), now=0):
        """The reasons of each solution, as they are printed."""
        data = layout.write(segments)
        status, out, said = book("list", "--now", now, *map(isd_as.written, ends), given=data)
        self.assertEqual((status, said), (0, ""))
        found = []
        for line in out.decode().splitlines()[1:]:
            if line[0].isdigit():
                found.append([])
            elif line.startswith("  "):
                found[-1].append(line.strip())
        return found

    def line(self, told, start):
        found = [line for line in told if line.startswith(start)]
        self.assertEqual(len(found), 1, (start, told))
        return found[0]

    def stands(self, *segments):
        """How the second solution stands after the first."""
        told = self.told(*segments)
        self.assertEqual([line for line in told[0] if line.startswith("stands")], [])
        return self.line(told[1], "stands")

    # ---- keys

    def test_cost(self):
        self.assertEqual(self.stands(chain(D, S), chain(D, X, S)), "stands after 1 by cost: 2 against 1")

    def test_segments(self):
        self.assertEqual(self.stands(chain(D, Y, S), chain(X, S), chain(X, D)), "stands after 1 by number of segments: 2 against 1")

    def test_peer(self):
        # Over the peering link 2 + 1, by X 1 + 2.
        up, down = peered(Y, P, S, peer(Q, 8, 7, 3)), peered(Y, Q, D, peer(P, 7, 8, 3))
        told = self.told(segment(*up.entries[1:]), segment(*down.entries[1:]), chain(X, S), chain(X, Y, D))
        self.assertEqual(self.line(told[1], "stands"), "stands after 1 by peer of the first segment: peer 0 against none (none stands first, then the lower)")
        # Two links between the same two ASes.
        up = peered(X, P, S, peer(Q, 8, 7, 3), peer(Q, 10, 9, 3))
        down = peered(Y, Q, D, peer(P, 7, 8, 3), peer(P, 9, 10, 3))
        self.assertEqual(self.stands(up, down), "stands after 1 by peer of the first segment: peer 1 against peer 0 (none stands first, then the lower)")

    def test_peer_of_the_second(self):
        # The other end of the link stands twice, as peer 0 of one segment and as peer 1 of another.
        up = peered(X, P, S, peer(Q, 8, 7, 3))
        one, two = peered(Y, Q, D, peer(P, 7, 8, 3)), peered(Y, Q, D, peer(X, 1, 2, 3), peer(P, 7, 8, 3))
        self.assertEqual(self.stands(up, one, two), "stands after 1 by peer of the second segment: peer 1 against peer 0 (none stands first, then the lower)")

    def test_shortcut(self):
        # To P by the shortcut 1, from there 2; to X by the whole segment 2, from there 1.
        self.assertEqual(self.stands(chain(X, P, S), chain(P, Y, D), chain(X, D)),
                         "stands after 1 by shortcut of the first segment: entry 0 against entry 1 (the later entry stands first)")

    def test_fingerprint(self):
        # SHA-256 of 0001000000000002 0000 0005 0001000000000001 0007 0000, and of the same with 6 and 8 in place of 5 and 7.
        told = self.stands(segment(hop(D, 0, 6), hop(S, 8, 0)), segment(hop(D, 0, 5), hop(S, 7, 0)))
        self.assertEqual(told, "stands after 1 by fingerprint of the first segment: a76587e6... against 90242f27... (the lower stands first)")

        self.assertEqual(why.shortened("0011223344aa55", "0011223344bb55"), ("0011223344aa...", "0011223344bb..."))

    def test_position(self):
        one, two = chain(D, S), chain(D, S, timestamp=2000000)
        self.assertEqual(self.stands(one, two), "stands after 1 by position of the first segment: 1 against 0")
        self.assertEqual(self.stands(chain(X, S), chain(X, D), chain(X, D, ident=2)), "stands after 1 by position of the second segment: 2 against 1")
        up, down = chain(X, S), chain(Y, D)
        self.assertEqual(self.stands(chain(X, Y, core=True), up, down, replace(down, id=2)), "stands after 1 by position of the third segment: 3 against 2")

    # ---- uses

    def test_uses(self):
        told = self.told(chain(X, Y, core=True, ident=0xABC, timestamp=0), chain(X, S, ident=2), chain(Y, P, D, ident=3))
        self.assertEqual(told[0][:3], ["uses segment 1 (non-core, id 0002, issued 1970-01-12T13:46:40Z): entries 1 to 0",
                                       "uses segment 0 (core, id 0abc, issued 1970-01-01T00:00:00Z): entries 0 to 1",
                                       "uses segment 2 (non-core, id 0003, issued 1970-01-12T13:46:40Z): entries 0 to 2"])
        told = self.told(peered(X, P, S, peer(Q, 8, 7, 3)), peered(Y, Q, D, peer(P, 7, 8, 3)))
        self.assertEqual([line.split(": ")[1] for line in told[0][:2]], ["entries 2 to 1, then out by peer 0", "in by peer 0, then entries 1 to 2"])
        told = self.told(chain(X, P, S), chain(P, D))
        self.assertEqual(told[0][0].split(": ")[1], "entries 2 to 1, a shortcut")
        told = self.told(segment(hop(S, peers=[peer(Q, 8, 7, 0)])), peered(Y, Q, D, peer(S, 7, 8, 3)))
        self.assertEqual(told[0][0].split(": ")[1], "entry 0, then out by peer 0")

    # ---- MTU

    def mtu(self, *segments):
        return self.line(self.told(*segments)[0], "MTU")

    def test_as_mtu(self):
        self.assertEqual(self.mtu(segment(hop(D, 0, 5, 1300), hop(S, 7, 0, 1400, 1350))), "MTU 1300: AS MTU of 1-2, segment 0, entry 0")
        # 70000 - 65536
        self.assertEqual(self.mtu(segment(hop(D, 0, 5, 70000), hop(S, 7, 0, 9000))),
                         "MTU 4464: AS MTU 70000, of which the low 16 bits count, of 1-2, segment 0, entry 0")

    def test_ingress_mtu(self):
        self.assertEqual(self.mtu(segment(hop(D, 0, 5), hop(S, 7, 0, 1400, 1350))), "MTU 1350: ingress MTU of the link 1-2#5 to 1-1#7, segment 0, entry 1")
        self.assertEqual(self.mtu(segment(hop(D, 9, 5, 1500, 1200), hop(S, 7, 0, 1400, 1350))),
                         "MTU 1200: ingress MTU of the link at 1-2#9, segment 0, entry 0")
        # That of the shortcut's entry does not count: the link above it is not passed.
        up = segment(hop(X, 0, 1), hop(P, 2, 3, 1500, 1000), hop(S, 4, 0, 1500, 1400))
        self.assertEqual(self.mtu(up, chain(P, D)), "MTU 1400: ingress MTU of the link 1-3#3 to 1-1#4, segment 0, entry 2")

    def test_peer_mtu(self):
        up, down = peered(X, P, S, peer(Q, 8, 7, 3, 1400)), peered(Y, Q, D, peer(P, 7, 8, 3, 1450))
        self.assertEqual(self.mtu(up, down), "MTU 1400: peer MTU of the link 1-3#7 to 1-4#8, segment 0, entry 1, peer 0")
        # It counts also where it is 0, and the entry's own ingress MTU does not.
        up, down = peered(X, P, S, peer(Q, 8, 7, 3, 1400)), peered(Y, Q, D, peer(P, 7, 8, 3, 0))
        up.entries[1].ingress_mtu = 1
        self.assertEqual(self.mtu(up, down), "MTU 0: peer MTU of the link 1-4#8 to 1-3#7, segment 1, entry 1, peer 0")

    def test_several(self):
        self.assertEqual(self.mtu(chain(D, X, S)), "MTU 1500: AS MTU of 1-1, segment 0, entry 2; 2 more as small")

    # ---- expiry

    def expiry(self, *segments):
        return self.line(self.told(*segments)[0], "expires")

    def test_regular_hop(self):
        # 32 × 337.5 = 10800, after 1000000
        self.assertEqual(self.expiry(segment(hop(D, 0, 5, units=63), hop(S, 7, 0, units=31))),
                         "expires 1970-01-12T16:46:40Z: hop of 1-1, segment 0, entry 1, whose 31 units are 10800 seconds from its issue")
        # The earlier issue of two, with more units.
        self.assertEqual(self.expiry(chain(X, S), segment(hop(X, 0, 1, units=70), hop(D, 2, 0, units=71), timestamp=900000)),
                         "expires 1970-01-11T16:39:22Z: hop of 1-5, segment 1, entry 0, whose 70 units are 23962 seconds from its issue")

    def test_peer_hop(self):
        # The peer's units stand in place of its entry's: 48 × 337.5 = 16200.
        up = peered(X, P, S, peer(Q, 8, 7, 3, units=47), units=1)
        self.assertEqual(self.expiry(up, peered(Y, Q, D, peer(P, 7, 8, 3))),
                         "expires 1970-01-12T18:16:40Z: hop of 1-3, segment 0, entry 1, peer 0, whose 47 units are 16200 seconds from its issue")

    def test_latest(self):
        self.assertEqual(self.expiry(chain(D, S, timestamp=2**32 - 1)),
                         "expires 2106-02-07T06:28:15Z: hop of 1-1, segment 0, entry 1, whose 63 units are 21600 seconds from its issue; 1 more as early")

    def test_run_out(self):
        """The expiry, here 1021600, is the time after which a hop is no longer valid (docs/CONCEPTS.md)."""
        for now, words in ((1021600, "has not run out: it is 1970-01-12T19:46:40Z"), (1021601, "has run out: it is 1970-01-12T19:46:41Z"),
                           ("1970-01-12T19:46:41Z", "has run out: it is 1970-01-12T19:46:41Z")):
            self.assertIn(words, self.told(chain(D, S), now=now)[0])
        with mock.patch("time.time", return_value=1021601.9):
            _, out, _ = book("list", "1-1", "1-2", given=layout.write([chain(D, S)]))
        self.assertIn("  has run out: it is 1970-01-12T19:46:41Z\n", out.decode())
        status, _, said = book("list", "--now", "soon", "1-1", "1-2", given=bytes(8))
        self.assertEqual(status, 2)
        self.assertIn("argument --now: ", said)

    # ---- no path

    def test_loop(self):
        # X at the end of the first segment shows 2, at the start of the second 3 and 4.
        told = self.told(segment(hop(X, 0, 2), hop(S, 1, 0)), segment(hop(X, 4, 3), hop(D, 1, 0)))
        self.assertEqual(told[0][2:], ["no path: 1-5 is shown at 3 interfaces (2, 4, 3), more than twice"])

    def test_bare(self):
        told = self.told(segment(hop(D), hop(S)))
        self.assertEqual(told[0][1:], ["no path: there are no interfaces"])

    # ---- names

    def test_names(self):
        house = ROOT / "examples" / "house.book"
        status, out, said = book("list", "--names", house.with_suffix(".names"), *EXAMPLES["house"], house)
        self.assertEqual((status, said), (0, ""))
        self.assertIn("\n  MTU 1400: peer MTU of the link 1-ff00:0:121#3 (South, quarry road) to 1-ff00:0:112#3 (North, harbour), segment 2, entry 1, peer 0; "
                      "1 more as small\n", out.decode())
        listed = [line for line in out.decode().splitlines() if not line.startswith("  ")]
        for plain, line in zip(house.with_suffix(".list").read_text().splitlines(), listed):
            self.assertTrue(line.startswith(plain))


class Routes(unittest.TestCase):
    """Routes by the library: cases worked out by hand, and those of the program's list."""

    def told(self, *segments):
        """The first line, and what is said of each route."""
        data = layout.write(segments)
        status, out, said = book("list", "--routes", "--now", 0, "1-1", "1-2", given=data)
        self.assertEqual((status, said), (0, ""))
        first, *lines = out.decode().splitlines()
        found = []
        for line in lines:
            if line[0].isdigit():
                found.append([])
            elif line.startswith("  "):
                found[-1].append(line.strip())
        return first, found

    # By X, and by Y.
    WHOLE = chain(D, X, S)
    OTHER = segment(hop(D, 0, 9), hop(Y, 10, 11), hop(S, 12, 0))

    def parts(self, timestamp):
        """Two segments that together pass the interfaces of WHOLE."""
        up = segment(hop(X, 0, 3), hop(S, 4, 0), timestamp=timestamp, ident=7)
        return segment(hop(D, 0, 1), hop(X, 2, 0), timestamp=timestamp, core=True), up

    def test_copies(self):
        one, two, three = chain(D, S), chain(D, S, timestamp=1022320), chain(D, S, timestamp=1000001)
        first, (route,) = self.told(one, two, three)
        self.assertEqual(first, "routes 1 solutions 3 paths 3")
        self.assertEqual(route[0], "uses segment 1 (non-core, id 0001, issued 1970-01-12T19:58:40Z): entries 1 to 0")
        self.assertEqual(route[-3:], ["solution 2 of the list, at the place of solution 1, the first of this route",
                                      "lives 6h 12m longer than solution 1 (segment 0), which is dropped",
                                      "lives 6h 11m 59s longer than solution 3 (segment 2), which is dropped"])
        first, (route,) = self.told(one, replace(one, id=2))
        self.assertEqual(route[-2:], ["solution 1 of the list", "lives as long as solution 2 (segment 1), which is dropped since it stands later"])
        first, (route,) = self.told(one)
        self.assertEqual((first, route[-1]), ("routes 1 solutions 1 paths 1", "solution 1 of the list"))

    def test_place(self):
        """The copy that lives longer stands after another route. By X the fingerprint is b69fedd4..., by Y b92fd159..."""
        core, up = self.parts(1086400)
        first, (one, two) = self.told(core, self.WHOLE, self.OTHER, up)
        self.assertEqual(first, "routes 2 solutions 4 paths 4")
        self.assertEqual([line.split(" (")[0] for line in one[:2]], ["uses segment 3", "uses segment 0"])
        self.assertEqual(one[-3:], ["solution 4 of the list, at the place of solution 1, the first of this route",
                                    "lives 1d longer than solution 1 (segment 1), which is dropped",
                                    "lives 1d longer than solution 3 (segments 1, 0), which is dropped"])
        self.assertEqual(two[-2:], ["solution 2 of the list", "stands after 1, as solution 2 after solution 1, by fingerprint of the first segment: "
                                                              "b92fd159... against b69fedd4... (the lower stands first)"])

    def test_renewed(self):
        """The example: numbers are those of routes, and those of solutions where it says so."""
        status, out, said = book("list", "--routes", *EXAMPLES["renewed"], ROOT / "examples" / "renewed.book")
        self.assertEqual((status, said), (0, ""))
        lines = [line.strip() for line in out.decode().splitlines()]
        stand = [line.split(":")[0] for line in lines if line.startswith("stands")]
        self.assertEqual(stand, ["stands after 1, as solution 3 after solution 1, by cost",
                                 "stands after 2, as solution 4 after solution 3, by fingerprint of the first segment",
                                 "stands after 3, as solution 8 after solution 4, by cost",
                                 "stands after 4, as solution 10 after solution 8, by fingerprint of the first segment"])
        told = "lives 1h 55m longer than solution 6 (segments 5, 3), which is dropped"
        self.assertIn(told, lines)
        self.assertIn(told, (ROOT / "README.md").read_text())

    def test_generated(self):
        """The library's routes are those worked out of the list, and the program's."""
        seen = set()
        for case in [*generate.cases("routes", 200), *stored(form.answers())]:
            listing = answers.by_library(*case)
            found, errors = answers.routes_of(listing, case[2])
            self.assertEqual(errors, [])
            self.assertEqual([r.held.record for r in found], list(combinator.routes(*case)))
            for r in found:
                seen |= {(r.held is r.first, r.longer(s) > 0) for s in r.dropped}
            theirs, _ = answers.routes_of(answers.Listing(*case[:2], "", None, printed.parse(listing.text), "the program was asked"), case[2])
            self.assertEqual([(r.held.number, [s.number for s in r.dropped]) for r in theirs], [(r.held.number, [s.number for s in r.dropped]) for r in found])
        # The first stays since it lives longer, or as long; a later one takes its place, and there is another that lives as long as that.
        self.assertEqual(seen, {(True, True), (True, False), (False, True), (False, False)})

    def test_full(self):
        """More solutions than can be listed, be the routes as few as they may."""
        source, destination, data = next(case for case in stored(form.refusals()) if answers.by_library(*case).refused == layout.FULL)
        ends = isd_as.written(source), isd_as.written(destination)
        self.assertEqual(book("list", "--routes", "--plain", *ends, given=data), (1, b"refused 8\n", ""))
        self.assertEqual(book("list", "--routes", *ends, given=data), (1, b"refused 8 (Full): more than 4096 solutions\n", ""))

    def test_program(self):
        """The same list of routes by both."""
        core, up = self.parts(1086400)
        data = layout.write([core, self.WHOLE, self.OTHER, up])
        ours, theirs = (book("list", "--routes", "--plain", *by, "1-1", "1-2", given=data) for by in (("--library", LIBRARY), ("--program", MODEL)))
        self.assertEqual(ours, theirs)
        self.assertEqual(ours[1].splitlines()[0], b"routes 2 solutions 4 paths 4")

    def test_errors(self):
        one, two = chain(D, S), chain(D, S, timestamp=1022320)
        data = layout.write([one, two])
        real = combinator.routes
        stranger = combinator.Solutions(layout.solution(1, (9, 0, None, 0)))
        for answered, theirs in ((lambda *given: combinator.list(*given)[:1], "1"), (combinator.list, "1, 2"),
                                 (lambda *given: stranger, "one that is not in the list"), (lambda *given: real(*given)[:0], "none")):
            with mock.patch.object(combinator, "routes", answered):
                status, out, said = book("list", "--routes", "1-1", "1-2", given=data)
                self.assertEqual((status, said), (1, "book: the library's routes differ from what is worked out of its list\n"))
                words = f"the routes are those of solutions {theirs}, worked out here they are those of 2"
                self.assertEqual([line for line in out.decode().splitlines() if "error" in line], [f"error: {words}"])
                _, out, _ = book("list", "--routes", "--json", "1-1", "1-2", given=data)
                self.assertEqual(json.loads(out)["errors"], [words])
                with tempfile.TemporaryDirectory() as folder:
                    for command in (("list", "--plain"), ("draw", "-o", Path(folder, "x.dot"))):
                        self.assertEqual(book(*command, "--routes", "1-1", "1-2", given=data)[0::2], (status, said))

        def full(*given):
            raise combinator.Refusal(layout.FULL)
        with mock.patch.object(combinator, "routes", full):
            status, out, _ = book("list", "--routes", "1-1", "1-2", given=data)
        self.assertEqual((status, out.decode().splitlines()[-1]),
                         (1, "error: routes are refused 8 Full: there are more solutions than slots, and the list is not"))

    def test_json(self):
        core, up = self.parts(1086400)
        status, out, said = book("list", "--routes", "--json", "--now", 0, "1-1", "1-2", given=layout.write([core, self.WHOLE, self.OTHER, up]))
        self.assertEqual((status, said), (0, ""))
        made = json.loads(out)
        self.assertEqual((made["solution_count"], made["path_count"], made["errors"]), (4, 4, []))
        one, two = made["routes"]
        self.assertEqual([(r["number"], r["solution"], r["first"], [e["position"] for e in r["edges"]]) for r in (one, two)],
                         [(1, 4, 1, [3, 0]), (2, 2, 2, [2])])
        self.assertEqual([(d["solution"], [e["position"] for e in d["edges"]], d["expiry"], d["longer"]) for d in one["dropped"]],
                         [(1, [1], 1021600, 86400), (3, [1, 0], 1021600, 86400)])
        self.assertEqual((two["dropped"], one["why"]["after"], two["why"]["after"]["number"], two["why"]["after"]["key"]), ([], None, 1, "fingerprint"))
        self.assertEqual(one["why"]["expiry"]["units"], 63)


def laid_out(words):
    """The bytes that the words of the parts say, one part after the other."""
    found = b""
    for line in words:
        numbers = [int(n) for n in re.findall(r" (?:info|hop|reserved|hops|flags|timestamp|units|ingress|egress) (\d+)\b", line.partition(":")[2])]
        if line.startswith("meta: "):
            info, hop_, reserved = numbers[:3]
            lengths = [int(n) for n in line.rpartition(" hops ")[2].split()]
            found += (info << 30 | hop_ << 24 | reserved << 18 | lengths[0] << 12 | lengths[1] << 6 | lengths[2]).to_bytes(4, "big")
        elif line.startswith("info "):
            flags, reserved, timestamp = numbers
            found += bytes((flags, reserved, *bytes.fromhex(re.search(r" segment id ([0-9a-f]{4}),", line)[1]))) + timestamp.to_bytes(4, "big")
        else:
            flags, units, ingress, egress = numbers
            found += bytes((flags, units)) + ingress.to_bytes(2, "big") + egress.to_bytes(2, "big") + bytes.fromhex(line.rpartition(" MAC ")[2])
    return found


class OnWire(unittest.TestCase):
    """The bytes of paths for the routers."""

    def blocks(self, out):
        """Of each solution its number, its hex and the parts in hex and words; None for one without bytes."""
        found, lines = [], out.decode().splitlines()
        for k, line in enumerate(lines):
            if line[0].isdigit():
                found.append([int(line.split()[0]), None, []])
            elif line.startswith("  wire, "):
                found[-1][1] = lines[k + 1].strip()
                self.assertEqual(line, f"  wire, {len(found[-1][1]) // 2} bytes:")
            elif line.startswith("    ") and found[-1][1] != line.strip():
                found[-1][2].append(re.fullmatch(r"    ([0-9a-f ]*[0-9a-f])  +(\S.*)", line).groups())
        return found

    def test_example(self):
        house = ROOT / "examples" / "house.book"
        self.assertEqual(book("list", "--wire", "--names", house.with_suffix(".names"), "--now", "2026-01-01T06:30", *EXAMPLES["house"], house),
                         (0, house.with_suffix(".wire").read_bytes(), ""))

    def test_worked(self):
        worked = ROOT / "examples" / "worked.book"
        status, out, said = book("list", "--wire", *EXAMPLES["worked"], worked)
        self.assertEqual((status, said), (0, ""))
        self.assertTrue(out.decode().endswith("\n" + WORKED_WIRE))
        self.assertEqual(out.decode().replace(WORKED_WIRE, "").encode(), book("list", *EXAMPLES["worked"], worked)[1])
        data = "0000200000001336000f4240003f000700000a0b0c0d0e0f003f00000005010203040506"
        self.assertEqual(book("list", "--wire", "--plain", *EXAMPLES["worked"], worked),
                         (0, worked.with_suffix(".list").read_bytes() + f"wire {data}\n".encode(), ""))
        self.assertEqual(json.loads(book("list", "--wire", "--json", *EXAMPLES["worked"], worked)[1])["solutions"][0]["wire"], data)
        self.assertIsNone(json.loads(book("list", "--json", *EXAMPLES["worked"], worked)[1])["solutions"][0]["wire"])

    def test_told(self):
        """Of every path, and of no other solution; hex, parts and words say the same."""
        seen = set()
        for source, destination, data in [*generate.cases("wire", 40), *stored(form.answers())[:60], *map(example, EXAMPLES)]:
            ends = isd_as.written(source), isd_as.written(destination)
            solutions = answers.by_library(source, destination, data).solutions
            want = [(s.number, model.written(s.path.as_bytes()).hex() if s.path else None) for s in solutions]
            status, out, said = book("list", "--wire", "--now", 0, *ends, given=data)
            self.assertEqual((status, said), (0, ""))
            found = self.blocks(out)
            self.assertEqual([(number, hex_) for number, hex_, _ in found], want)
            for _, hex_, parts in found:
                if hex_:
                    self.assertEqual("".join(part.replace(" ", "") for part, _ in parts), hex_)
                    self.assertEqual(laid_out(words for _, words in parts).hex(), hex_)
                    seen.add(len(hex_))
                else:
                    self.assertEqual(parts, [])
                seen.add(bool(hex_))
            # All else is as without them.
            kept = [line for line in out.decode().splitlines(True) if not line.startswith(("  wire, ", "    "))]
            self.assertEqual("".join(kept).encode(), book("list", "--now", 0, *ends, given=data)[1])
            status, out, said = book("list", "--wire", "--json", "--now", 0, *ends, given=data)
            self.assertEqual((status, [(s["number"], s["wire"]) for s in json.loads(out)["solutions"]], said), (0, want, ""))
            status, out, said = book("list", "--wire", "--plain", *ends, given=data)
            self.assertEqual((status, re.findall(r"^wire (.*)$", out.decode(), re.M), said), (0, [hex_ for _, hex_ in want if hex_], ""))
            self.assertEqual(re.sub(r"^wire .*\n", "", out.decode(), flags=re.M), model.printed(asked(source, destination, data)))
        self.assertLessEqual({False, True}, seen)
        self.assertGreater(len(seen), 12)

    def test_routes(self):
        """Those of the path that is kept."""
        renewed = ROOT / "examples" / "renewed.book"
        status, out, said = book("list", "--wire", "--routes", "--now", 0, *EXAMPLES["renewed"], renewed)
        self.assertEqual((status, said), (0, ""))
        _, whole, _ = book("list", "--wire", "--now", 0, *EXAMPLES["renewed"], renewed)
        of_all = {number: (hex_, parts) for number, hex_, parts in self.blocks(whole)}
        # By examples/renewed.txt these solutions live longest.
        kept = [(number, *of_all[solution]) for number, solution in enumerate((2, 3, 7, 8, 10), 1)]
        self.assertEqual([tuple(block) for block in self.blocks(out)], kept)
        self.assertEqual(len({hex_ for hex_, _ in of_all.values()}), 11)
        status, out, said = book("list", "--wire", "--routes", "--json", *EXAMPLES["renewed"], renewed)
        self.assertEqual((status, [r["wire"] for r in json.loads(out)["routes"]], said), (0, [hex_ for _, hex_, _ in kept], ""))
        status, out, said = book("list", "--wire", "--routes", "--plain", *EXAMPLES["renewed"], renewed)
        self.assertEqual((status, re.findall(r"^wire (.*)$", out.decode(), re.M), said), (0, [hex_ for _, hex_, _ in kept], ""))

    def test_no_path(self):
        for data in (layout.write([segment(hop(X, 0, 2), hop(S, 1, 0)), segment(hop(X, 4, 3), hop(D, 1, 0))]), layout.write([segment(hop(D), hop(S))])):
            status, out, said = book("list", "--wire", "--now", 0, "1-1", "1-2", given=data)
            self.assertEqual((status, out, said), book("list", "--now", 0, "1-1", "1-2", given=data))
            self.assertIsNone(json.loads(book("list", "--wire", "--json", "1-1", "1-2", given=data)[1])["solutions"][0]["wire"])
        self.assertEqual(book("list", "--wire", "1-1", "1-2", given=bytes(7))[0:2], book("list", "1-1", "1-2", given=bytes(7))[0:2])

    def test_without(self):
        with Without(), mock.patch.object(answers, "PROGRAMS", (Path("/no/such/list"), MODEL)):
            status, out, said = book("list", "--wire", *EXAMPLES["worked"], ROOT / "examples" / "worked.book")
        self.assertEqual((status, out), (2, b""))
        self.assertTrue(said.startswith("book: the program gives no bytes for the wire, the library does: libcombinator.so is neither in /no/such nor "), said)

    def test_errors(self):
        """Bytes that are not those of the path are said, in each form of the list."""
        data = "0000200000001336000f4240003f000700000a0b0c0d0e0f003f00000005010203040506"
        worked, real = ROOT / "examples" / "worked.book", combinator.write
        said = "book: the library's answers differ from what is worked out here, for 1 solution\n"
        for change in (lambda w: w[:-1], lambda w: w + b"\0", lambda w: w[:3] + b"\x01" + w[4:], lambda w: w[:4] + b"\x80" + w[5:], lambda w: b""):
            wrong = change(bytes.fromhex(data)).hex()
            error = f"the path on the wire is {wrong}, worked out here it is {data}"
            with mock.patch.object(combinator, "write", lambda path: change(real(path))):
                for options in ((), ("--routes",)):
                    status, out, told = book("list", "--wire", *options, *EXAMPLES["worked"], worked)
                    self.assertEqual((status, told), (1, said))
                    self.assertTrue(out.decode().endswith(f"  error: {error}\n  wire, {len(wrong) // 2} bytes:\n    {wrong}\n"), out.decode())
                    status, out, told = book("list", "--wire", "--json", *options, *EXAMPLES["worked"], worked)
                    found, = json.loads(out)["routes" if options else "solutions"]
                    self.assertEqual((status, found["wire"], found["why"]["errors"], told), (1, wrong, [error], said))
                    status, out, told = book("list", "--wire", "--plain", *options, *EXAMPLES["worked"], worked)
                    self.assertEqual((status, out.decode().splitlines()[-1].rstrip(), told), (1, f"wire {wrong}".rstrip(), said))

        def refused(path):
            raise combinator.Refusal(layout.WIRE)
        with mock.patch.object(combinator, "write", refused):
            self.assertEqual(book("list", "--wire", *EXAMPLES["worked"], worked),
                             (2, b"", "book: the library does not write the path of solution 1: refused 12 Wire: the path has no form on the wire, "
                                      "or no path has these bytes\n"))


class Errors(unittest.TestCase):
    """An answer that is not what is worked out of the book is said, and the exit status is 1."""

    def told(self, change, name="house"):
        real = answers.by_library

        def changed(*given):
            found = real(*given)
            change(found.solutions)
            return found
        with mock.patch.object(answers, "by_library", changed):
            status, out, said = book("list", *EXAMPLES[name], ROOT / "examples" / f"{name}.book")
        self.assertEqual((status, said), (1, "book: the library's answers differ from what is worked out here, for 1 solution\n"))
        return [line.strip() for line in out.decode().splitlines() if line.startswith("  error: ")]

    def test_fields(self):
        for name, value, words in (("mtu", 1401, "the MTU is 1401, worked out here it is 1400"), ("cost", 4, "the cost is 4, worked out here it is 3"),
                                   ("expiry", 1, "the expiry is 1, worked out here it is 1767264000"),
                                   ("outcome", "bare", "the outcome is bare, worked out here it is path")):
            self.assertEqual(self.told(lambda solutions: setattr(solutions[0], name, value)), [f"error: {words}"])
        self.assertEqual(self.told(lambda solutions: solutions[0].interfaces.reverse(), "worked"),
                         ["error: the list of interfaces is 1-ff00:0:110#5 1-ff00:0:111#7, worked out here it is 1-ff00:0:111#7 1-ff00:0:110#5"])

    def test_order(self):
        def swapped(solutions):
            solutions[1:3] = solutions[2:0:-1]
        self.assertEqual(self.told(swapped), ["error: it does not stand after 3 by any key"])
        self.assertEqual(self.told(lambda solutions: solutions.insert(1, solutions[0])), ["error: it does not stand after 1 by any key"])

    def test_stranger(self):
        def other(solutions):
            solutions[0].record = combinator.Solution(layout.solution(1, (9, 0, None, 0)))
        self.assertEqual(self.told(other, "worked"), ["error: its record names what the book does not have: segment 9, entry 0"])

        def empty(solutions):
            solutions[0].record = combinator.Solution(bytes(layout.RECORD_SIZE))
        self.assertEqual(self.told(empty, "worked"), ["error: its record has no edges"])


def keys(place):
    """The keys of tests/model.py, one after the other, by name and edge."""
    cost, count, edges, positions = place
    found = [(("cost", None), cost), (("segments", None), count)]
    for k, values in enumerate(edges):
        found += [((name, k), value) for name, value in zip(("peer", "shortcut", "fingerprint"), values)]
    return found + [(("position", k), p) for k, p in enumerate(positions)]


class Generated(unittest.TestCase):
    def test_reasons(self):
        """No answer differs from what is worked out, and the key that is named is the first that differs."""
        seen = set()
        for source, destination, data in [*generate.cases("why", 200), *stored(form.answers())]:
            listing = answers.by_library(source, destination, data)
            found = why.reasons(refusal.read(data), listing.solutions, 0)
            chains = model.solutions(data, source, destination)
            self.assertEqual(len(found), len(chains))
            for k, reasons in enumerate(found):
                self.assertEqual(reasons.errors, [])
                if k:
                    pairs = zip(keys(model.place(chains[k])), keys(model.place(chains[k - 1])))
                    want = next(name for (name, one), (_, other) in pairs if one != other)
                    self.assertEqual((reasons.after.key.name, reasons.after.key.edge), want)
                    seen.add(want[0])
                assembled = model.path(chains[k])
                if isinstance(assembled, model.Path):
                    self.assertEqual((reasons.mtu.number, reasons.expiry.number), (assembled.mtu, assembled.expiry))
                self.assertEqual(bool(reasons.loops), assembled == "loop")
        self.assertEqual(seen, set(why.KEYS))

    def test_blame(self):
        """What alone sets the MTU or the expiry: with it out of the way, they are greater."""
        seen = set()
        for source, destination, data in generate.cases("blame", 60):
            segments = refusal.read(data)
            solutions = answers.by_library(source, destination, data).solutions
            for solution, reasons in list(zip(solutions, why.reasons(segments, solutions, 0)))[:6]:
                if solution.outcome != "path":
                    continue
                for name, found, greatest in (("mtu", reasons.mtu, why.MAX_MTU), ("expiry", reasons.expiry, times.LAST)):
                    if found.others or found.number == greatest or found.kind == "hop" and found.hop.fields.units == 255:
                        continue
                    seen.add(found.kind)
                    changed = refusal.read(data)
                    self.lifted(changed, found)
                    again = answers.by_library(source, destination, layout.write(changed)).solutions
                    same, = [s for s in again if s.record == solution.record]
                    self.assertGreater(getattr(same, name), found.number)
        self.assertEqual(seen, {"as", "ingress", "peer", "hop"})

    def lifted(self, segments, found):
        entry = segments[found.hop.position].entries[found.hop.index]
        at = entry if found.hop.peer is None else entry.peers[found.hop.peer]
        if found.kind == "hop":
            at.units = 255
        elif found.kind == "ingress":
            entry.ingress_mtu = why.MAX_MTU
        else:
            (entry if found.kind == "as" else at).mtu = why.MAX_MTU


class Json(unittest.TestCase):
    def read(self, source, destination, data, *options, status=0, said=""):
        ends = isd_as.written(source), isd_as.written(destination)
        found = book("list", "--json", "--now", 1000, *options, *ends, given=data)
        self.assertEqual((found[0], found[2]), (status, said))
        made = json.loads(found[1])
        self.assertEqual((made["source"], made["destination"], made["now"]), (*ends, 1000))
        return made

    def path_record(self, s):
        """The bytes of a path, laid out of what the JSON says."""
        infos = [(layout.CONSTRUCTION * i["construction"] + layout.PEERING * i["peering"], i["hop_count"], int(i["id"], 16), i["timestamp"])
                 for i in s["infos"]]
        hops = [(h["units"], h["ingress"], h["egress"], bytes.fromhex(h["mac"])) for h in s["hops"]]
        self.assertEqual(len(hops), s["hop_count"])
        interfaces = [(isd_as.parse(i["isd_as"]), i["id"]) for i in s["interfaces"]]
        self.assertEqual([s["first_as"], s["last_as"]], [isd_as.written(a) for a, _ in (interfaces[0], interfaces[-1])])
        return layout.path(s["mtu"], s["expiry"], infos, hops, interfaces)

    def test_answers(self):
        """All that the library answers can be read back."""
        for case in [*generate.cases("json", 30), *stored(form.answers())[:60], example("house")]:
            made, segments = self.read(*case), refusal.read(case[2])
            self.assertIsNone(made["refusal"])
            solutions = combinator.list(*case)
            self.assertEqual([s["number"] for s in made["solutions"]], list(range(1, len(solutions) + 1)))
            for s, solution in zip(made["solutions"], solutions):
                edges = [(e["position"], e["shortcut"], e["peer"], e["construction"]) for e in s["edges"]]
                self.assertEqual(layout.solution(s["cost"], *edges), solution.as_bytes())
                self.assertEqual(s["segment_count"], len(edges))
                for e in s["edges"]:
                    there = segments[e["position"]]
                    self.assertEqual((e["kind"], int(e["id"], 16), e["timestamp"]), ("core" if there.core else "non-core", there.id, there.timestamp))
                path = combinator.assemble(*case, solution)
                if isinstance(path, combinator.Path):
                    self.assertEqual((s["outcome"], self.path_record(s)), ("path", path.as_bytes()))
                    self.assertEqual(s["run_out"], path.expiry < 1000)
                else:
                    self.assertEqual(s["outcome"], path.name.lower())
                    self.assertEqual({s[name] for name in PATH_MEMBERS}, {None})
                self.assertEqual(s["why"]["errors"], [])

    def test_reasons(self):
        made = self.read(*example("house"))
        first, second, third, *_ = made["solutions"]
        # examples/house.txt: both ends of the peering link have an MTU of 1400, and peer hops of 47 units; segment 3 is the older.
        self.assertEqual(first["why"], {"mtu": {"kind": "peer", "position": 2, "entry": 1, "peer": 0, "isd_as": "1-ff00:0:121", "others": 1},
                                        "expiry": {"units": 47, "position": 3, "entry": 1, "peer": 0, "isd_as": "1-ff00:0:112", "others": 0},
                                        "loop": [], "after": None, "errors": []})
        self.assertEqual(second["why"]["after"], {"number": 1, "key": "cost", "edge": None, "value": 4, "before": 3})
        after = third["why"]["after"]
        self.assertEqual((after["number"], after["key"], after["edge"], len(after["value"])), (2, "fingerprint", 0, 64))
        self.assertGreater(after["value"], after["before"])
        loop = self.read(S, D, layout.write([segment(hop(X, 0, 2), hop(S, 1, 0)), segment(hop(X, 4, 3), hop(D, 1, 0))]))["solutions"][0]["why"]
        self.assertEqual(loop, {"mtu": None, "expiry": None, "loop": [{"isd_as": "1-5", "ids": [2, 4, 3]}], "after": None, "errors": []})

    def test_program(self):
        """What a printed list does not say is null, all else is the same."""
        said = "book: the program gives no reasons, the library does: build it with make lib, or name it with --library\n"
        for name in EXAMPLES:
            ours, theirs = self.read(*example(name)), self.read(*example(name), "--program", MODEL, said=said)
            for s in ours["solutions"]:
                s.update(edges=None, hops=None, why=None)
                for info in s["infos"]:
                    info["hop_count"] = None
            self.assertEqual(theirs, ours)

    def test_refused(self):
        for by in (("--library", LIBRARY), ("--program", MODEL)):
            made = self.read(S, D, bytes(7), *by, status=1)
            self.assertEqual((made["refusal"], made["solutions"]), ({"number": 1, "word": "Cut"}, None))

    def test_errors(self):
        real = answers.by_library

        def other(*given):
            found = real(*given)
            found.solutions[0].record = combinator.Solution(layout.solution(1, (9, 0, None, 0)))
            return found
        with mock.patch.object(answers, "by_library", other):
            made = self.read(*example("worked"), status=1, said="book: the library's answers differ from what is worked out here, for 1 solution\n")
        self.assertEqual(made["solutions"][0]["why"]["errors"], ["its record names what the book does not have: segment 9, entry 0"])
        self.assertEqual(made["solutions"][0]["edges"][0]["kind"], None)

    def test_manual(self):
        """The page has every member, and the options."""
        page = (ROOT / "man" / "book.1").read_text()
        names = set()

        def walk(made):
            for part in made.values() if isinstance(made, dict) else made if isinstance(made, list) else ():
                walk(part)
            names.update(made if isinstance(made, dict) else ())
        walk(self.read(*example("house")))
        walk(self.read(S, D, layout.write([chain(D, S), chain(D, S, ident=2)]), "--routes"))
        walk(self.read(S, D, bytes(7), status=1))
        self.assertGreater(len(names), 40)
        section = page.split(".SH THE LIST AS JSON")[1].split("\n.SH ")[0]
        # In bold, not in a sentence alone, and not as an option.
        bold = " ".join(re.findall(r"^\.(?:B|BR|RB) (.*)$", section, re.M))
        self.assertEqual(names - set(re.findall(r"(?<![-\w])\w+", bold)), set())
        for option in ("library", "program", "now", "plain", "json", "routes", "wire"):
            self.assertIn(f"\\-\\-{option}", page)

    def test_plain(self):
        self.assertEqual(book("list", "--json", "--plain", "1-1", "1-2", given=bytes(8))[0], 2)


if __name__ == "__main__":
    if MISSING:
        print(f"skipped: tests of tools/book over the library: {MISSING}")
        sys.exit()
    unittest.main()
