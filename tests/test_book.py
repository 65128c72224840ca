#!/usr/bin/env python3
"""Tests of tools/book, of the examples and of the model that stands in for the program. Run: python3 tests/test_book.py"""
import contextlib
import html
import importlib.util
import io
import json
import os
import random
import re
import resource
import shutil
import signal
import subprocess
import sys
import tempfile
import time
import unittest
from collections import Counter
from importlib.machinery import SourceFileLoader
from pathlib import Path
from unittest import mock

HERE = Path(__file__).resolve().parent
ROOT = HERE.parent
sys.dont_write_bytecode = True
sys.path[:0] = [str(ROOT / "tools"), str(HERE)]

import generate
import model
from booktext import BookError, Trouble, answers, as_json, dot, draw, forms, isd_as, layout, names, notes, printed, refusal, routes, text, times, wire
from booktext.layout import COUNTS, ENDS, ENTRY, HEAD, PEER, Entry, Peer, Segment, head_place
from booktext.picture import COLOURS, MOST, PAGE, Picture

BOOK = ROOT / "tools" / "book"
MODEL = HERE / "model.py"
# The proved program.
LIST = ROOT / "crates" / "list" / "out" / "list"

A, B, C = 0x0001FF0000000111, 0x0001FF0000000110, 0x0001FF0000000112

# The worked example of docs/SPECIFICATION.md 10.6. Here and below, bytes and numbers that are expected stand as they are, not by name.
WORKED_INPUT = bytes.fromhex(
    "0001ff0000000111" "0001ff0000000110"
    "0000" "0001" "00000034"
    "000f4240" "1234" "0002" "0034"
    "0001ff0000000110" "000005dc" "0000" "0000" "0005" "3f" "010203040506" "00"
    "0001ff0000000111" "00000578" "0546" "0007" "0000" "3f" "0a0b0c0d0e0f" "00")
WORKED_LIST = """\
solutions 1 paths 1
1 cost 1 segments 1 mtu 1350 expiry 1021600 hops 2
info 0 1336 1000000
if 0001ff0000000111 7
if 0001ff0000000110 5
"""

# Its path for the routers, from the data draft's layout, as the tool shows it.
WORKED_WIRE = """\
  wire, 36 bytes:
    0000200000001336000f4240003f000700000a0b0c0d0e0f003f00000005010203040506
    00002000                      meta: current info 0, current hop 0, reserved 0, hops 2 0 0
    00 00 1336 000f4240           info 0: flags 0 (against construction), reserved 0, segment id 1336, timestamp 1000000 (1970-01-12T13:46:40Z)
    00 3f 0007 0000 0a0b0c0d0e0f  hop 0, of info 0: flags 0, units 63, ingress 7, egress 0, MAC 0a0b0c0d0e0f
    00 3f 0000 0005 010203040506  hop 1, of info 0: flags 0, units 63, ingress 0, egress 5, MAC 010203040506
"""

EXAMPLES = {"worked": ("1-ff00:0:111", "1-ff00:0:110"), "house": ("1-ff00:0:131", "1-ff00:0:141"), "renewed": ("1-ff00:0:131", "1-ff00:0:141"),
            "core": ("1-ff00:0:111", "2-64498")}

# On standard error, where the program is asked.
NO_REASONS = "book: the program gives no reasons, the library does: build it with make lib, or name it with --library\n"

ENTRY_LINE = "entry 1-ff00:0:110 mtu 1500 ingress-mtu 0 ingress 0 egress 5 units 63 mac 010203040506"
PEER_LINE = "peer 1-ff00:0:112 interface 2 mtu 1400 units 63 ingress 9 egress 5 mac f0f1f2f3f4f5"


class Stream(io.TextIOWrapper):
    """A standard stream held in memory."""

    def __init__(self, data=b""):
        super().__init__(io.BytesIO(data), encoding="utf-8", write_through=True)

    def value(self):
        return self.buffer.getvalue()


def loaded(path):
    """A program without the suffix .py, as a module."""
    loader = SourceFileLoader(path.name, str(path))
    module = importlib.util.module_from_spec(importlib.util.spec_from_loader(path.name, loader))
    loader.exec_module(module)
    return module


tool = loaded(BOOK)


def book(*args, given=b"", path=None):
    """tools/book with these arguments: exit status, standard output, standard error."""
    stdin, stdout, stderr = Stream(given), Stream(), Stream()
    with mock.patch.multiple(sys, stdin=stdin, stdout=stdout, stderr=stderr), mock.patch.dict(os.environ, {"PATH": path} if path else {}):
        try:
            status = tool.main([str(a) for a in args])
        except SystemExit as end:
            status = end.code
    return status, stdout.value(), stderr.value().decode()


def alone(*args, given=b"", **options):
    """The same in a process of its own."""
    streams = {"input": given, "stdout": subprocess.PIPE, "stderr": subprocess.PIPE, **options}
    if "stdin" in streams:
        del streams["input"]
    done = subprocess.run([str(BOOK), *map(str, args)], check=False, **streams)
    return done.returncode, done.stdout, (done.stderr or b"").decode()


def asked(source, destination, data):
    return ENDS.pack(source, destination) + data


def numbers(segments):
    """Bytes of a book with entry and body counts as given: segments are (entry count, body)."""
    heads = b"".join(HEAD.pack(entry_count=count, body_length=len(body)) for count, body in segments)
    bodies = b"".join(body for _, body in segments)
    return COUNTS.pack(non_cores=len(segments), bodies=len(bodies)) + heads + bodies


def entry(peers=0, following=b"", isd_as=0):
    return ENTRY.pack(isd_as=isd_as, peer_count=peers) + following


def over(*ases):
    """Entry count and body of a segment over these ASes, without peers."""
    return len(ases), b"".join(entry(isd_as=a) for a in ases)


class Names(unittest.TestCase):
    def test_forms(self):
        for number, written in ((B, "1-ff00:0:110"), (0x000200000000FBF0, "2-64496"), (0, "0-0"), (2**64 - 1, "65535-ffff:ffff:ffff"),
                                (0x0001000000000000 | 2**32 - 1, "1-4294967295"), (0x0001000000000000 | 2**32, "1-1:0:0")):
            self.assertEqual(isd_as.written(number), written)
            self.assertEqual(isd_as.parse(written), number)
            self.assertEqual(isd_as.parse(f"{number:016x}"), number)
        self.assertEqual(isd_as.parse("1-FF00:0:110"), B)
        self.assertEqual(isd_as.parse("1-0:0:110"), 0x0001000000000110)

    def test_wrong(self):
        for word in ("", "1", "1-", "-1", "1-ff00", "1-ff00:0", "1-ff00:0:0:110", "1-fffff:0:110", "65536-1", "1-4294967296", "0001ff000000110",
                     "0x01ff0000000110", "1-ff00:0:110#5", "1_ff00:0:110", "１-110"):
            with self.subTest(word=word), self.assertRaises(ValueError):
                isd_as.parse(word)

    def test_durations(self):
        for seconds, words in ((0, "0s"), (1, "1s"), (59, "59s"), (60, "1m"), (3599, "59m 59s"), (3600, "1h"), (22320, "6h 12m"), (86399, "23h 59m 59s"),
                               (86400, "1d"), (86405, "1d 5s"), (2**32 - 1, "49710d 6h 28m 15s")):
            self.assertEqual(times.duration(seconds), words)

    def test_times(self):
        self.assertEqual(times.written(0), "1970-01-01T00:00:00Z")
        self.assertEqual(times.written(2**32 - 1), "2106-02-07T06:28:15Z")

    def test_times_as_people_write_them(self):
        # 1767247200 is 2026-01-01T06:00:00Z: 56 years of 365 days, 14 leap days, six hours.
        at = (56 * 365 + 14) * 86400 + 6 * 3600
        self.assertEqual(at, 1767247200)
        for words, seconds in (("1767247200", at), ("2026-01-01", at - 21600), ("2026-01-01 06:00", at), ("2026-01-01T06:00", at),
                               ("2026-01-01t06:00:07", at + 7), ("2026-01-01T06:00:00Z", at), ("2026-01-01 06:00:00z", at), ("2026-01-01 06:00:00 UTC", at),
                               ("2026-01-01T06:00:00+01:00", at - 3600), ("2026-01-01T06:00-0530", at + 19800), ("2026-01-01 06:00:00 +0000", at),
                               ("0", 0), ("0" * 30 + "7", 7), ("1970-01-01", 0), ("1970-01-01T01:00+01:00", 0), ("2024-02-29", 1709164800), ("2106-02-07T06:28:15Z", 2**32 - 1),
                               ("4294967295", 2**32 - 1)):
            with self.subTest(words=words):
                self.assertEqual(times.parse(words), seconds)
        taken = "a time is seconds since 1970 or a date such as 2026-01-01, 2026-01-01T06:00 or 2026-01-01T06:00:00+01:00"
        for words, message in (("2026-02-30", "there is no day 2026-02-30: 2026-02 has 28 days"), ("2026-00-01", "the month is 1 to 12"),
                               ("2026-01-00T06:00", "there is no day 2026-01-00: 2026-01 has 31 days"), ("2026-01-01T24:00", "the hour is 0 to 23"),
                               ("2026-01-01 06:60", "the minute is 0 to 59"), ("2026-01-01T06:00:60Z", "the second is 0 to 59"),
                               ("0000-01-01", "the year is 1 to 9999"),
                               ("2026-01-01T06:00+24:00", "there is no zone +24:00"), ("2026-01-01T06:00+01:60", "there is no zone +01:60"),
                               ("1970-01-01T00:00+00:01", "1970-01-01T00:00+00:01 is before 1970"), ("1969-12-31", "1969-12-31 is before 1970"),
                               ("2106-02-07T06:28:16", "2106-02-07T06:28:16 is after 2106-02-07T06:28:15Z: a time has at most 4294967295 seconds"),
                               ("4294967296", "4294967296 is after 2106-02-07T06:28:15Z"), ("", f"'' is no time: {taken}"), ("-1", taken), ("1.5", taken),
                               ("2026-1-1", taken), ("2026-01-01T", taken), ("2026-01-01 6:00", taken), ("2026-01-01Z", taken), ("01.01.2026", taken),
                               ("２０２６-01-01", taken), ("yesterday", taken)):
            with self.subTest(words=words), self.assertRaises(ValueError) as found:
                times.parse(words)
            self.assertIn(message, str(found.exception))

    def test_life(self):
        # docs/SPECIFICATION.md 1.5 and 6.8.
        for units, life in ((0, 337), (1, 675), (2, 1012), (63, 21600), (255, 86400)):
            self.assertEqual(times.life(units), life)
        self.assertEqual(times.end(1000000, 63), 1021600)
        self.assertEqual(times.end(2**32 - 2, 0), 2**32 - 1)


class RoundTrip(unittest.TestCase):
    def test_books(self):
        for _, _, data in generate.cases("round", 200):
            words = text.written(refusal.read(data))
            self.assertEqual(layout.write(text.parse(words.encode())), data)
            self.assertEqual(text.written(text.parse(words.encode())), words)
            noted = text.written(refusal.read(data), lambda position, s: notes.above(position, s, {A: "a name", B: "#"}))
            self.assertEqual(layout.write(text.parse(noted.encode())), data)

    def test_fields(self):
        data = WORKED_INPUT[ENDS.size:]
        above = Entry(isd_as=B, mtu=1500, egress=5, units=63, mac=bytes.fromhex("010203040506"))
        leaf = Entry(isd_as=A, mtu=1400, ingress_mtu=1350, ingress=7, units=63, mac=bytes.fromhex("0a0b0c0d0e0f"))
        self.assertEqual(refusal.read(data), [Segment(timestamp=1000000, id=0x1234, entries=[above, leaf])])
        # A peer, with a number in each field that tells it from the others.
        peer = Peer(isd_as=C, interface=2, mtu=1400, units=63, ingress=9, egress=5, mac=bytes.fromhex("f0f1f2f3f4f5"))
        above.peers.append(peer)
        written = bytes.fromhex("0001ff0000000112" "0002" "0578" "3f" "0009" "0005" "f0f1f2f3f4f5")
        self.assertEqual(above.bytes()[ENTRY.size:], written)
        self.assertEqual(refusal.read(layout.write([Segment(entries=[above, leaf])])), [Segment(entries=[above, leaf])])

    def test_limits(self):
        data = generate.full(random.Random("full"))
        self.assertGreater(len(data), layout.MAX_BOOK - ENTRY.size - layout.MAX_PEERS * PEER.size)
        self.assertEqual(layout.write(text.parse(text.written(refusal.read(data)).encode())), data)

    def test_command(self):
        for run in (book, alone):
            for _, _, data in generate.cases("command", 2):
                status, words, _ = run("decode", given=data)
                self.assertEqual(status, 0)
                self.assertEqual(run("encode", given=words), (0, data, ""))

    def test_files(self):
        with tempfile.TemporaryDirectory() as folder:
            words, data = Path(folder, "x.txt"), Path(folder, "x.book")
            words.write_text(f"core timestamp 1 id 0002\n  {ENTRY_LINE}\n")
            self.assertEqual(book("encode", words, "-o", data), (0, b"", ""))
            self.assertEqual(book("decode", data, "-o", Path(folder, "y.txt")), (0, b"", ""))
            self.assertEqual(Path(folder, "y.txt").read_text(), words.read_text())

    def test_empty(self):
        self.assertEqual(layout.write(text.parse(b"")), bytes(COUNTS.size))
        self.assertEqual(text.written(refusal.read(bytes(COUNTS.size))), "")

    def test_free_text(self):
        canonical = f"non-core timestamp 1767247200 id 12ab\n  {ENTRY_LINE}\n    {PEER_LINE}\n"
        free = ("# a comment\n\n\tnon-core id 12AB   timestamp 2026-01-01T06:00:00Z # issued\r\n"
                "entry 0001ff0000000110 mac 010203040506 units 63 egress 5 ingress 0 ingress-mtu 00 mtu 1500\n\n"
                "      peer 1-ff00:0:112 mac F0F1F2F3F4F5 interface 2 mtu 1400 units 63 ingress 9 egress 5")
        self.assertEqual(text.written(text.parse(free.encode())), canonical)
        for again in ("2026-01-01T06:00", "2026-01-01t07:00+01:00", "2026-01-01T06:00:00z"):
            self.assertEqual(text.written(text.parse(free.replace("2026-01-01T06:00:00Z", again).encode())), canonical)


class TextErrors(unittest.TestCase):
    def wrong(self, words, message):
        with self.subTest(message=message):
            with self.assertRaises(BookError) as found:
                text.parse(words if isinstance(words, bytes) else words.encode(), "x.txt")
            self.assertEqual(str(found.exception), f"x.txt:{message}")

    def test_lines(self):
        head = "# first\ncore timestamp 1 id 0001\n"
        self.wrong("cores timestamp 1 id 0001", "1: a line begins with core, non-core, entry or peer, not 'cores'")
        self.wrong(ENTRY_LINE, "1: an entry above the first segment")
        self.wrong(head + PEER_LINE, "3: a peer with no entry above it in its segment")
        self.wrong("non-core timestamp 1 id 0001\n\ncore timestamp 1 id 0001",
                   "3: a core segment below a non-core one: cores stand first, since positions count them first")
        self.wrong(head + "entry", "3: entry without its ISD-AS")
        self.wrong(head + "entry mtu 1500", "3: 'mtu' is no ISD-AS such as 1-ff00:0:110 or 0001ff0000000110")
        self.wrong("core timestamp 1", "1: core lacks id")
        fields = [f.name for f in layout.ENTRY_FIELDS[1:]]
        lacking = ", ".join(name for name in fields if name not in ("mtu", "units"))
        self.wrong(head + "entry 1-ff00:0:110 mtu 1500 units 63", f"3: entry lacks {lacking}")
        self.wrong("core timestamp 1 id 0001 timestamp 2", "1: timestamp stands twice")
        self.wrong("core timestamp 1 id", "1: id without a value")
        self.wrong(head + ENTRY_LINE + " colour 5", f"3: entry has no field 'colour', its fields are {', '.join(fields)}")
        self.wrong("core timestamp 1 id 0001 \xff".encode("latin-1"), "1: not UTF-8 text")

    def test_numbers(self):
        head = "core timestamp 1 id 0001\n"
        self.wrong("core timestamp 4294967296 id 0001", "1: 4294967296 is after 2106-02-07T06:28:15Z: a time has at most 4294967295 seconds")
        self.wrong("core timestamp 2026-01-01 06:00 id 0001", "1: core has no field '06:00', its fields are timestamp, id")
        self.wrong("core timestamp 2026-02-30 id 0001", "1: there is no day 2026-02-30: 2026-02 has 28 days")
        self.wrong("core timestamp 1969-12-31T23:59:59Z id 0001", "1: 1969-12-31T23:59:59Z is before 1970")
        self.wrong("core timestamp 1 id 123", "1: id is written in 4 hex digits, not '123'")
        self.wrong(head + ENTRY_LINE.replace("egress 5", "egress 65536"), "2: egress 65536 is above 65535")
        self.wrong(head + ENTRY_LINE.replace("mtu 1500", "mtu 0x5dc"), "2: mtu is a number in base ten, not '0x5dc'")
        self.wrong(head + ENTRY_LINE.replace("units 63", "units 256"), "2: units 256 is above 255")
        many = "9" * 5000
        self.wrong(head + ENTRY_LINE.replace("units 63", f"units {many}"), f"2: units {many} is above 255")
        self.wrong(f"core timestamp {many} id 0001", f"1: {many} is after 2106-02-07T06:28:15Z: a time has at most 4294967295 seconds")
        self.wrong(head + ENTRY_LINE.replace("010203040506", "01:02:03:04:05:06"), "2: mac is written in 12 hex digits, not '01:02:03:04:05:06'")

    def test_limits(self):
        head = "core timestamp 1 id 0001\n"
        segments, entries, peers = layout.MAX_SEGMENTS, layout.MAX_ENTRIES, layout.MAX_PEERS
        self.wrong(head * (segments + 1), f"{segments + 1}: more than {segments} segments (refusal 4, Crowded)")
        many = [f"{ENTRY_LINE}\n".replace("1-ff00:0:110", f"1-{k}") for k in range(entries + 1)]
        self.wrong(head + "".join(many), f"{entries + 2}: more than {entries} entries in segment 0 (refusal 5, Long)")
        self.wrong(head + "".join(many[:-1] + many[:1]), f"{entries + 2}: more than {entries} entries in segment 0 (refusal 5, Long)")
        self.wrong(head + f"{ENTRY_LINE}\n" + f"{PEER_LINE}\n" * (peers + 1),
                   f"{peers + 3}: more than {peers} peers at entry 0 of segment 0 (refusal 6, Peers)")
        full = (head + "".join(line + f"{PEER_LINE}\n" * peers for line in many[:-1])) * segments
        sizes, lines, line, size = {"core": HEAD.size, "entry": ENTRY.size, "peer": PEER.size}, full.splitlines(), 0, COUNTS.size
        while size <= layout.MAX_BOOK:
            size += sizes[lines[line].split()[0]]
            line += 1
        self.wrong(full, f"{line}: the book has {size} bytes up to here, at most {layout.MAX_BOOK} are taken (refusal 3, Oversize)")

    def test_twice(self):
        head, lines = "core timestamp 1 id 0001\n", {a: f"{ENTRY_LINE}\n".replace("1-ff00:0:110", a) for a in ("1-1", "1-2", "2-1")}

        def of(*ases):
            return head + "".join(map(lines.get, ases))

        self.wrong(of("1-1", "1-1"), "3: the AS of entry 1 stands earlier in segment 0, at entry 0: 1-1 (refusal 11, Twice)")
        self.wrong(of("1-1") + of("2-1", "1-1", "1-2", "1-1"), "7: the AS of entry 3 stands earlier in segment 1, at entry 1: 1-1 (refusal 11, Twice)")
        # Another ISD, another segment, an equal one.
        self.assertEqual([len(s.entries) for s in text.parse((of("1-1", "1-2", "2-1") * 2).encode())], [3, 3])
        self.assertEqual([len(s.entries) for s in text.parse(of("1-1", "1-1").encode(), repeats=True)], [2])
        # Every command takes it for an error, with the name of the AS where there is one.
        with tempfile.TemporaryDirectory() as folder:
            Path(folder, "names").write_text("1-1 the kiln\n")
            named = "--names", Path(folder, "names")
            for args, shown in ((("encode",), "1-1"), (("check",), "1-1"), (("check", *named), "the kiln (1-1)"), (("decode", *named), "the kiln (1-1)"),
                                (("list", "--program", MODEL, *named, "1-1", "1-2"), "the kiln (1-1)")):
                self.assertEqual(book(*args, given=of("1-1", "1-1").encode()), (1, b"", "book: <standard input>:3: the AS of entry 1 stands earlier in "
                                                                                f"segment 0, at entry 0: {shown} (refusal 11, Twice)\n"))

    def test_command(self):
        for run in (book, alone):
            self.assertEqual(run("encode", given=b"core timestamp 1\n"), (1, b"", "book: <standard input>:1: core lacks id\n"))
        status, out, said = book("encode", "/no/such/file")
        self.assertEqual((status, out, said), (2, b"", "book: /no/such/file: No such file or directory\n"))


class Refusals(unittest.TestCase):
    def refused(self, data, number, place, reason):
        with self.subTest(reason=reason):
            found = refusal.verdict(data)
            self.assertEqual((found.number, found.place, found.reason), (number, place, reason))
            self.assertEqual(model.verdict(data), number)

    def test_each_with_its_place(self):
        worked = WORKED_INPUT[ENDS.size:]
        self.refused(bytes(61441), 3, "", "the book has 61441 bytes, at most 61440 are taken")
        self.refused(bytes(7), 1, "byte 7", "the book has 7 bytes, its sizes alone take 8")
        self.refused(b"", 1, "byte 0", "the book has 0 bytes, its sizes alone take 8")
        self.refused(COUNTS.pack(65, 0, 0), 4, "", "65 core and 0 non-core segments are 65, at most 64 are taken")
        size = ENTRY.size
        whole, last = 18 + 2 * size, 18 + size + ENTRY.at.peer_count
        sum_of = f"0 core and 1 non-core segments with bodies of {2 * size} bytes make a book of {whole}"
        self.refused(worked[:17], 1, "segment 0 (non-core), byte 17", f"{sum_of}, this one ends at 17, in a head")
        self.refused(worked[:18], 1, "segment 0 (non-core), entry 0, byte 18", f"{sum_of}, this one ends at 18")
        self.refused(worked[:-1], 1, f"segment 0 (non-core), entry 1, byte {whole - 1}", f"{sum_of}, this one ends at {whole - 1}")
        self.refused(worked + b"\0", 2, f"byte {whole}", f"{sum_of}, this one has {whole + 1}")
        most = layout.MAX_ENTRIES
        self.refused(numbers([(1, entry()), (most + 1, entry())]), 5, "segment 1 (non-core), byte 18",
                     f"its head counts {most + 1} entries, at most {most} are taken")
        self.refused(numbers([(2, entry() + entry(5))]), 6, f"segment 0 (non-core), entry 1, byte {last}", "it counts 5 peers, at most 4 are taken")
        uneven = bytearray(numbers([(1, entry()), (1, entry())]))
        HEAD.put(uneven, COUNTS.size, "body_length", len(entry()) - 1)
        self.refused(bytes(uneven), 7, "byte 4", f"the body lengths in the heads sum to {2 * size - 1}, the sizes say {2 * size}")
        self.refused(numbers([(2, entry() + bytes(size - 1))]), 7, f"segment 0 (non-core), entry 1, byte {18 + size}",
                     f"{size - 1} bytes left in the body for an entry of {size} (its head counts 2 entries)")
        self.refused(numbers([(0, b""), (1, entry(2, bytes(45)))]), 7, f"segment 1 (non-core), entry 0, byte {28 + size}",
                     "45 bytes left in the body for 2 peers of 23")
        self.refused(numbers([(1, entry() + b"\0")]), 7, f"segment 0 (non-core), byte {18 + size}", "1 byte left in the body after its 1 entry")

    def test_twice(self):
        size, other_isd = ENTRY.size, A ^ 3 << 48

        def twice(number, earlier):
            return f"its AS stands earlier in the segment, at entry {earlier}: {number}"

        # Not only neighbours and not only the last entry; of several, the first that stands earlier.
        for ases, at, earlier, shown in (((A, A), 1, 0, "1-ff00:0:111"), ((A, B, A), 2, 0, "1-ff00:0:111"), ((B, A, A), 2, 1, "1-ff00:0:111"),
                                         ((A, B, A, C), 2, 0, "1-ff00:0:111"), ((C, A, B, B, A), 3, 2, "1-ff00:0:110"), ((A, A, A), 1, 0, "1-ff00:0:111"),
                                         ((A, B, B, A), 2, 1, "1-ff00:0:110"), ((0, 0), 1, 0, "0-0"), ((*range(15), 7), 15, 7, "0-7"),
                                         ((A, other_isd, A), 2, 0, "1-ff00:0:111")):
            self.refused(numbers([over(*ases)]), 11, f"segment 0 (non-core), entry {at}, byte {18 + at * size}", twice(shown, earlier))
            self.refused(numbers([over(A, B), (0, b""), over(*ases)]), 11, f"segment 2 (non-core), entry {at}, byte {38 + (2 + at) * size}",
                         twice(shown, earlier))
        # Behind peers, of a core.
        behind = bytearray(numbers([over(A), (3, entry(2, bytes(2 * PEER.size), isd_as=A) + entry(1, bytes(PEER.size), isd_as=B) + entry(isd_as=A))]))
        COUNTS.put(behind, 0, "cores", 2)
        COUNTS.put(behind, 0, "non_cores", 0)
        self.refused(bytes(behind), 11, f"segment 1 (core), entry 2, byte {28 + 3 * size + 3 * PEER.size}", twice("1-ff00:0:111", 0))
        # The whole ISD-AS counts, and one segment alone.
        for segments in ([over(A, other_isd)], [over(A, B), over(A, B)], [over(A), over(A)], [over(B, A), over(C, A), over(A, B)], [over(*range(16))]):
            data = numbers(segments)
            self.assertIsNone(refusal.verdict(data))
            self.assertEqual(model.verdict(data), 0)
        # A peer's AS is not passed.
        self.assertIsNone(refusal.verdict(numbers([(2, entry(2, Peer(isd_as=A).bytes() * 2, isd_as=A) + entry(1, Peer(isd_as=A).bytes(), isd_as=B))])))

    def test_order_of_twice(self):
        repeats, most = over(A, B, A), layout.MAX_ENTRIES
        many, left = (1, entry(5)), (1, entry() + b"\0")
        for segments, number, position in (
                # Before what is wrong with a later body, after what is wrong with an earlier one.
                ([repeats, many], 11, 0), ([repeats, left], 11, 0), ([repeats, repeats], 11, 0), ([over(A), repeats, many], 11, 1),
                ([many, repeats], 6, 0), ([left, repeats], 7, 0), ([over(A), left, repeats], 7, 1),
                # After what is wrong with the same body, before or behind the entry that is there again.
                ([(3, over(A, A)[1] + entry(5))], 6, 0), ([(3, entry(5, isd_as=A) + over(A, B)[1])], 6, 0), ([(2, over(A, A)[1] + b"\0")], 7, 0),
                ([(3, over(A, A)[1] + bytes(ENTRY.size - 1))], 7, 0), ([(3, over(A, A)[1])], 7, 0), ([(2, entry(isd_as=A) + entry(1, isd_as=A))], 7, 0),
                # After the heads.
                ([repeats, (most + 1, b"")], 5, 1), ([over(*[A] * (most + 1))], 5, 0)):
            data = numbers(segments)
            found = refusal.verdict(data)
            self.assertEqual((found.number, found.position), (number, position))
            self.assertEqual(model.verdict(data), number)
        # After the sum, and after what is wrong with the length.
        uneven = bytearray(numbers([repeats, over(A)]))
        HEAD.put(uneven, head_place(1), "body_length", ENTRY.size + 1)
        for data, number in ((bytes(uneven), 7), (numbers([repeats]) + b"\0", 2), (numbers([repeats])[:-1], 1)):
            self.assertEqual((refusal.verdict(data).number, model.verdict(data)), (number, number))

    def test_order(self):
        # Long at any head before the sum, the sum before any body, bodies by position.
        long = bytearray(numbers([(1, entry(5)), (layout.MAX_ENTRIES + 1, b"")]))
        self.assertEqual(refusal.verdict(bytes(long)).number, 5)
        COUNTS.put(long, 0, "bodies", 0)
        self.assertEqual(refusal.verdict(bytes(long)).number, 2)
        both = numbers([(1, entry() + b"\0"), (1, entry(5))])
        self.assertEqual(refusal.verdict(both).number, 7)
        self.assertEqual(refusal.verdict(COUNTS.pack(64, 1, 2**32 - 1)).number, 4)
        self.assertEqual(refusal.verdict(COUNTS.pack(64, 0, 2**32 - 1)).number, 1)

    def test_at_the_limits(self):
        self.assertIsNone(refusal.verdict(bytes(COUNTS.size)))
        self.assertIsNone(refusal.verdict(numbers([(0, b"")] * layout.MAX_SEGMENTS)))
        self.assertIsNone(refusal.verdict(numbers([over(*range(layout.MAX_ENTRIES))])))
        self.assertIsNone(refusal.verdict(numbers([(1, entry(layout.MAX_PEERS, bytes(layout.MAX_PEERS * PEER.size)))])))

    def test_damaged(self):
        seen = Counter()
        for k, (_, _, data) in enumerate(generate.cases("damaged", 250)):
            rng = random.Random(f"damaged/{k}")
            for _ in range(5):
                broken = generate.damaged(rng, data)
                found = refusal.verdict(broken)
                self.assertEqual(found.number if found else 0, model.verdict(broken))
                if found:
                    self.assertTrue(str(found).startswith(f"refused {found.number} ({layout.WORDS[found.number]})"))
                else:
                    self.assertEqual(layout.write(refusal.read(broken)), broken)
                seen[found.number if found else 0] += 1
        self.assertEqual(set(seen), {0, *range(layout.CUT, layout.MISFIT + 1), layout.TWICE})

    def test_command(self):
        most = layout.MAX_ENTRIES
        status, out, _ = book("check", given=numbers([(1, entry()), (most + 1, entry())]))
        self.assertEqual((status, out.decode()),
                         (1, f"refused 5 (Long), at segment 1 (non-core), byte 18: its head counts {most + 1} entries, at most {most} are taken\n"))
        status, out, said = book("decode", given=bytes(7))
        self.assertEqual((status, out, said),
                         (1, b"", "book: <standard input>: refused 1 (Cut), at byte 7: the book has 7 bytes, its sizes alone take 8\n"))

    def test_command_of_twice(self):
        """Segment, both entries and the AS, by name where there is one; by every command that meets the refusal."""
        data, words = numbers([over(C), over(B, A, C, A)]), "refused 11 (Twice), at segment 1 (non-core), entry 3, byte {}: " \
            "its AS stands earlier in the segment, at entry 1: {}"
        place = 28 + 4 * ENTRY.size
        with tempfile.TemporaryDirectory() as folder:
            Path(folder, "names").write_text("1-ff00:0:111 the kiln\n1-ff00:0:110 the core\n")
            for named, shown in (((), "1-ff00:0:111"), (("--names", Path(folder, "names")), "the kiln (1-ff00:0:111)")):
                said = words.format(place, shown)
                self.assertEqual(book("check", *named, given=data), (1, f"{said}\n".encode(), ""))
                self.assertEqual(book("decode", *named, given=data), (1, b"", f"book: <standard input>: {said}\n"))
                ends = "--program", MODEL, "1-ff00:0:110", "1-ff00:0:111"
                self.assertEqual(book("list", *named, *ends, given=data), (1, f"{said}\n".encode(), ""))
                self.assertEqual(book("list", "--routes", *named, *ends, given=data), (1, f"{said}\n".encode(), ""))
                self.assertEqual(book("draw", *named, *ends, "-o", Path(folder, "x.dot"), given=data), (1, b"", f"book: <standard input>: {said}\n"))
                self.assertEqual(book("list", "--plain", *named, *ends, given=data), (1, b"refused 11\n", ""))
                status, out, _ = book("check", "--json", *named, given=data)
                self.assertEqual((status, json.loads(out)), (1, {"accepted": False, "refusal": {
                    "number": 11, "word": "Twice", "position": 1, "kind": "non-core", "entry": 3, "byte": place, "earlier": 1, "isd_as": "1-ff00:0:111",
                    "words": f"its AS stands earlier in the segment, at entry 1: {shown}"}}))
                status, out, _ = book("list", "--json", *named, *ends, given=data)
                self.assertEqual((status, json.loads(out)["refusal"]), (1, {"number": 11, "word": "Twice"}))

    def test_accepted(self):
        house = ROOT / "examples" / "house.book"
        status, out, _ = book("check", "--now", "2026-01-01T06:30", house)
        self.assertEqual((status, out.decode()),
                         (0, f"accepted: 1 core and 4 non-core segments, 14 entries, 2 peers, {house.stat().st_size} of {layout.MAX_BOOK} bytes\n"))


def entry_line(isd_as, ingress, egress, units=63, mtu=1500, mac="010203040506"):
    return f"  entry {isd_as} mtu {mtu} ingress-mtu 0 ingress {ingress} egress {egress} units {units} mac {mac}\n"


class Notes(unittest.TestCase):
    """Books that are accepted but look wrong."""

    def noted(self, words, expected, **options):
        """The expected notes, each its kind and its line."""
        segments = text.parse(words.encode())
        self.assertEqual([(n.kind, str(n)) for n in notes.notes(segments, **options)], expected)

    def two(self, head="non-core timestamp 1000000 id 0001", top=(0, 1), leaf=(1, 0), **options):
        return f"{head}\n{entry_line('1-1', *top, **options)}{entry_line('1-2', *leaf, **options)}"

    def test_nothing_to_say(self):
        self.noted(self.two(), [], now=1021600, between=(1 << 48 | 1, 1 << 48 | 2))

    def test_equal_empty_peers(self):
        above, leaf = entry_line("1-2", 0, 5), entry_line("1-1", 2, 0)
        peer = f"    {PEER_LINE}\n"
        self.noted(f"core timestamp 1 id 0001\n{above}{peer}{entry_line('1-3', 2, 0)}" + 2 * f"non-core timestamp 1 id 0001\n{above}{leaf}{peer}" +
                   "non-core timestamp 1 id 0001\n", [
                       ("core-peers", "segment 0, entry 0: peers of a core segment yield no edges"),
                       ("one-sided", "segment 1, entry 1, peer 0: no segment has the other end of this link, 1-ff00:0:112#2 to the kiln (1-1#9)"),
                       ("equal", "segment 2: equal to segment 1: they count once, as segment 1"),
                       ("empty", "segment 3: no entries: it yields no edges")], names={1 << 48 | 1: "the kiln"})

    def test_ends_of_a_segment(self):
        self.noted(self.two(top=(7, 1)), [("first-ingress", "segment 0, entry 0: ingress 7, and a segment begins without one, at 0")])
        self.noted(self.two(leaf=(1, 8)), [("last-egress", "segment 0, entry 1: egress 8, and a segment ends without one, at 0")])

    def test_mtu(self):
        # docs/SPECIFICATION.md 6.4: 65,536 counts as 0, 70,000 as 4,464.
        self.noted(self.two(mtu=65535), [])
        for mtu, counts in ((65536, 0), (70000, 4464), (2**32 - 1, 65535)):
            words = f"its MTU {mtu} is above 65535: only the low 16 bits count, which are {counts}"
            self.noted(self.two(mtu=mtu), [("mtu", f"segment 0, entry {k}: {words}") for k in (0, 1)])

    def test_reissue(self):
        first, same = self.two(), "the same ASes and interfaces as segment 0, so that one reissues the other"
        # 63 units live 21,600 seconds, 61 units 20,925: from 1,000,000 to 1,021,600; from 1,000,675 with 61 to the same second.
        for again, longer in ((self.two("non-core timestamp 1000001 id 0002"), "segment 1 lives longer, until 1970-01-12T19:46:41Z"),
                              (self.two("non-core timestamp 999999 id 0001"), "segment 0 lives longer, until 1970-01-12T19:46:40Z"),
                              (self.two("non-core timestamp 1000675 id 0003", units=61), "both live, until 1970-01-12T19:46:40Z"),
                              (self.two(mac="0a0b0c0d0e0f"), "both live, until 1970-01-12T19:46:40Z")):
            self.noted(first + again, [("reissue", f"segment 1: {same}: {longer}")])
        self.noted(first + self.two(top=(0, 2)), [])
        self.noted(self.two("core timestamp 1000000 id 0001") + self.two(), [])

    def test_run_out(self):
        ran_out = ("run-out", "segment 0: ran out at 1970-01-12T19:46:40Z")
        self.noted(self.two(), [], now=1021600)
        self.noted(self.two(), [ran_out], now=1021601)
        # The hop that lives least counts: that of 0 units, 337 seconds.
        mixed = f"core timestamp 1000000 id 0001\n{entry_line('1-1', 0, 1, units=63)}{entry_line('1-2', 1, 0, units=0)}"
        self.noted(mixed, [], now=1000337)
        self.noted(mixed, [("run-out", "segment 0: ran out at 1970-01-12T13:52:17Z")], now=1000338)

    def test_run_out_of_a_peer(self):
        def half(a, mine, other, theirs, units):
            return (f"non-core timestamp 1000000 id 0001\n{entry_line(a, 0, 0)}"
                    f"    peer {other} interface {theirs} mtu 1400 units {units} ingress {mine} egress 0 mac f0f1f2f3f4f5\n")
        words = half("1-1", 3, "1-2", 4, 0) + half("1-2", 4, "1-1", 3, 63)
        self.noted(words, [("run-out", "segment 0, entry 0, peer 0: its hop ran out at 1970-01-12T13:52:17Z")], now=1000338)

    def test_ends(self):
        self.noted(self.two(), [("end", "source 1-3 is in no segment"), ("end", "destination the desk (1-4) is in no segment")],
                   between=(1 << 48 | 3, 1 << 48 | 4), names={1 << 48 | 4: "the desk"})
        self.noted(self.two(), [("end", "source and destination are both 1-1, and no path leads from an AS to itself")],
                   between=(1 << 48 | 1, 1 << 48 | 1))

    def test_command(self):
        data = self.two().encode()
        accepted = f"accepted: 0 core and 1 non-core segments, 2 entries, 0 peers, {18 + 2 * ENTRY.size} of {layout.MAX_BOOK} bytes\n"
        self.assertEqual(book("check", "--now", "1970-01-12 19:46:40", given=data), (0, accepted.encode(), ""))
        for now in (("--now", "1970-01-12T20:46:41+01:00"), ()):
            self.assertEqual(book("check", *now, given=data), (0, f"{accepted}note: segment 0: ran out at 1970-01-12T19:46:40Z\n".encode(), ""))
        status, out, _ = book("check", "--now", "0", "--ends", "1-2", "1-5", given=data)
        self.assertEqual((status, out.decode()), (0, f"{accepted}note: destination 1-5 is in no segment\n"))


class Forms(unittest.TestCase):
    """Bytes, text and JSON are told apart, and each is taken wherever a book is."""

    def test_no_accepted_book_is_text(self):
        # An accepted book begins with a count of core segments that is at most the limit, and no text begins with two such bytes.
        for count in range(layout.MAX_SEGMENTS + 1):
            self.assertEqual(forms.form(COUNTS.pack(cores=count)), forms.BYTES)
            self.assertEqual(forms.form(COUNTS.pack(cores=count)[:2] + b"core"), forms.BYTES)

    def test_what_is_text_is_refused_as_bytes(self):
        seen = Counter()
        for k, (_, _, data) in enumerate(generate.cases("forms", 100)):
            rng = random.Random(f"forms/{k}")
            self.assertEqual(forms.form(data), forms.BYTES)
            words = text.written(refusal.read(data)).encode()
            any_letters = bytes(rng.choice(b"\t\n\r #{core\xff") for _ in range(rng.randrange(1, 20)))
            for given in (generate.damaged(rng, data), words[:rng.randrange(1, 50)], any_letters, as_json.written(refusal.read(data)).encode()):
                if forms.form(given) != forms.BYTES:
                    self.assertIn(refusal.verdict(given).number, (layout.CUT, layout.OVERSIZE, layout.CROWDED))
                    seen[forms.form(given), refusal.verdict(given).number] += 1
        self.assertLessEqual({(forms.TEXT, layout.CUT), (forms.TEXT, layout.CROWDED), (forms.JSON, layout.CROWDED)}, set(seen))

    def test_told_apart(self):
        worked = WORKED_INPUT[ENDS.size:]
        for data, form in ((b"", forms.BYTES), (worked, forms.BYTES), (worked[:7], forms.BYTES), (bytes(61441), forms.BYTES), (b"\x7fELF\2\1", forms.BYTES),
                           (b"core timestamp 1 id 0001\n", forms.TEXT), (b"# only a comment", forms.TEXT), (b"\r\n\t\n", forms.TEXT),
                           (b"cores", forms.TEXT), ("# Köln\n".encode(), forms.TEXT), (b"# K\xf6ln\n", forms.TEXT), (b"core\0", forms.BYTES),
                           (b'\n {"segments": []}', forms.JSON), (b"\xef\xbb\xbf{", forms.JSON)):
            with self.subTest(data=data):
                self.assertEqual(forms.form(data), form)

    def test_taken_by_every_command(self):
        for name, ends in EXAMPLES.items():
            data, words = ((ROOT / "examples" / f"{name}.{kind}").read_bytes() for kind in ("book", "txt"))
            made = as_json.written(refusal.read(data)).encode()
            for args in (("check",), ("decode",), ("decode", "--notes"), ("decode", "--json"), ("list", "--program", MODEL, *ends)):
                answer = book(*args, given=data)
                self.assertEqual((answer[0], answer[2]), (0, NO_REASONS if args[0] == "list" else ""))
                for given in (words, made):
                    self.assertEqual(book(*args, given=given), answer)
            self.assertEqual(book("decode", given=b"\xef\xbb\xbf" + words), book("decode", given=data))
        with tempfile.TemporaryDirectory() as folder:
            for given in (data, words):
                self.assertEqual(book("draw", "--program", MODEL, *ends, "-o", Path(folder, "x.dot"), given=given), (0, b"", ""))
                Path(folder, "x.dot").rename(Path(folder, forms.form(given)))
            self.assertEqual(Path(folder, forms.BYTES).read_bytes(), Path(folder, forms.TEXT).read_bytes())

    def test_wrong_text(self):
        for args in (("check",), ("decode",), ("list", "--program", MODEL, "1-1", "1-2"), ("draw", "--program", MODEL, "1-1", "1-2", "-o", "x.dot")):
            self.assertEqual(book(*args, given=b"# a book\ncore timestamp 1\n"), (1, b"", "book: <standard input>:2: core lacks id\n"))
        self.assertEqual(book("check", given=b"# K\xf6ln\n"), (1, b"", "book: <standard input>:1: not UTF-8 text\n"))

    def test_encode(self):
        data = (ROOT / "examples" / "house.book").read_bytes()
        self.assertEqual(book("encode", given=b""), (0, bytes(COUNTS.size), ""))
        self.assertEqual(book("encode", given=as_json.written(refusal.read(data)).encode()), (0, data, ""))
        self.assertEqual(book("encode", given=data), (1, b"", "book: <standard input>: neither text nor JSON, since it has control characters; "
                                                      "the bytes of a book are taken by decode, check, list and draw\n"))


class Json(unittest.TestCase):
    def test_round_trip(self):
        for _, _, data in generate.cases("json", 100):
            made = as_json.written(refusal.read(data))
            self.assertEqual(forms.book(made.encode(), "x"), data)
            self.assertEqual(as_json.written(as_json.parse(made.encode())), made)

    def test_decode(self):
        # The worked example, by hand.
        above = {"isd_as": "1-ff00:0:110", "mtu": 1500, "ingress_mtu": 0, "ingress": 0, "egress": 5, "units": 63, "mac": "010203040506", "peers": []}
        leaf = {"isd_as": "1-ff00:0:111", "mtu": 1400, "ingress_mtu": 1350, "ingress": 7, "egress": 0, "units": 63, "mac": "0a0b0c0d0e0f", "peers": []}
        status, out, _ = book("decode", "--json", given=WORKED_INPUT[ENDS.size:])
        self.assertEqual((status, json.loads(out)), (0, {"segments": [{"kind": "non-core", "timestamp": 1000000, "id": "1234", "entries": [above, leaf]}]}))
        status, out, _ = book("decode", "--json", given=f"core timestamp 1 id 0002\n{ENTRY_LINE}\n{PEER_LINE}\n".encode())
        [segment] = json.loads(out)["segments"]
        self.assertEqual((segment["kind"], segment["entries"][0]["peers"]),
                         ("core", [{"isd_as": "1-ff00:0:112", "interface": 2, "mtu": 1400, "units": 63, "ingress": 9, "egress": 5, "mac": "f0f1f2f3f4f5"}]))

    def test_free(self):
        free = '{"segments": [{"id": "12AB", "entries": [], "timestamp": "2026-01-01T07:00+01:00", "kind": "core"}]}'
        self.assertEqual(as_json.parse(free.encode()), [Segment(1767247200, 0x12AB, [], True)])

    def wrong(self, made, message):
        with self.subTest(message=message), self.assertRaises(BookError) as found:
            as_json.parse(made if isinstance(made, bytes) else (made if isinstance(made, str) else json.dumps(made)).encode(), "x.json")
        self.assertIn(f"x.json: {message}", str(found.exception))

    def test_wrong(self):
        peer = {"isd_as": "1-2", "interface": 2, "mtu": 1400, "units": 63, "ingress": 9, "egress": 5, "mac": "f0f1f2f3f4f5"}

        def having(**changes):
            entry = {"isd_as": "1-1", "mtu": 1, "ingress_mtu": 0, "ingress": 0, "egress": 0, "units": 0, "mac": "010203040506", "peers": [peer], **changes}
            return {"segments": [{"kind": "core", "timestamp": 1, "id": "0001", "entries": [{k: v for k, v in entry.items() if v is not ...}]}]}

        self.assertEqual(len(as_json.parse(json.dumps(having()).encode())), 1)
        repeating = having()
        repeating["segments"][0]["entries"] *= 2
        here, peers, segments = "segments[0].entries[0]", layout.MAX_PEERS, layout.MAX_SEGMENTS
        for made, message in (("{", "Expecting property name"), (b'{"\xff": 1}', "'utf-8' codec can't decode"),
                              ('{"a": 1, "a": 2}', "'a' stands twice in an object"), ({}, "the document lacks segments"),
                              ({"segments": [], "more": 1}, "the document has no member 'more', its members are segments"),
                              ({"segments": {}}, "segments is no array"), ({"segments": [5]}, "segments[0] is no object"),
                              ({"segments": [{"kind": "up", "timestamp": 1, "id": "0001", "entries": []}]}, "segments[0]: kind is core or non-core, not 'up'"),
                              (having(mtu=...), f"{here} lacks mtu"), (having(mtu=1.5), f"{here}: mtu is a number, not 1.5"),
                              (having(mtu=True), f"{here}: mtu is a number, not true"), (having(egress=65536), f"{here}: egress 65536 is above 65535"),
                              (having(units=-1), f"{here}: units is a number in base ten, not '-1'"), (having(mac=5), f"{here}: mac is a string, not 5"),
                              (having(mac="0102"), f"{here}: mac is written in 12 hex digits"), (having(peers=None), f"{here}.peers is no array"),
                              (having(isd_as=281474976710657), f"{here}: isd_as is a string, not 281474976710657"),
                              (having(peers=[peer] * (peers + 1)), f"{here}.peers[{peers}]: more than {peers} peers"),
                              (repeating, "segments[0].entries[1]: the AS of entry 1 stands earlier in segment 0, at entry 0: 1-1 (refusal 11, Twice)"),
                              ({"segments": having()["segments"] * (segments + 1)}, f"segments[{segments}]: more than {segments} segments"),
                              ('{"a":' + "[" * 100000, "maximum recursion depth exceeded")):
            self.wrong(made, message)
        self.assertEqual(book("check", given=b'{"segments": 1}'), (1, b"", "book: <standard input>: segments is no array\n"))

    def test_check(self):
        most = layout.MAX_ENTRIES
        status, out, said = book("check", "--json", given=numbers([(1, entry()), (most + 1, entry())]))
        self.assertEqual((status, json.loads(out), said), (1, {"accepted": False, "refusal": {
            "number": 5, "word": "Long", "position": 1, "kind": "non-core", "entry": None, "byte": 18, "earlier": None, "isd_as": None,
            "words": f"its head counts {most + 1} entries, at most {most} are taken"}}, ""))
        status, out, said = book("check", "--json", given=bytes(7))
        self.assertEqual(json.loads(out)["refusal"], {"number": 1, "word": "Cut", "position": None, "kind": None, "entry": None, "byte": 7,
                                                      "earlier": None, "isd_as": None,
                                                      "words": "the book has 7 bytes, its sizes alone take 8"})
        given = f"core timestamp 1 id 0002\n{ENTRY_LINE}\n{PEER_LINE}\n".encode()
        status, out, said = book("check", "--json", "--now", "0", "--ends", "1-ff00:0:110", "1-3", given=given)
        self.assertEqual((status, json.loads(out), said), (0, {
            "accepted": True, "core": 1, "non_core": 0, "entries": 1, "peers": 1, "bytes": 18 + ENTRY.size + PEER.size, "notes": [
                {"kind": "last-egress", "position": 0, "entry": 0, "peer": None, "words": "egress 5, and a segment ends without one, at 0"},
                {"kind": "core-peers", "position": 0, "entry": 0, "peer": None, "words": "peers of a core segment yield no edges"},
                {"kind": "end", "position": None, "entry": None, "peer": None, "words": "destination 1-3 is in no segment"}]}, ""))


class NamesOfAses(unittest.TestCase):
    """Names are shown for ASes and taken in their place."""
    FILE = ROOT / "examples" / "house.names"
    HOUSE = ROOT / "examples" / "house.book"

    def test_taken(self):
        given = ("--program", MODEL, "--names", self.FILE)
        for run in (book, alone):
            answer = run("list", *given, *EXAMPLES["house"], self.HOUSE)
            self.assertEqual(answer[0], 0)
            self.assertEqual(run("list", *given, "kiln house 3", " control  desk", self.HOUSE), answer)
        status, out, _ = book("check", "--names", self.FILE, "--ends", "kiln house 3", "1-ff00:0:199", "--now", "0", self.HOUSE)
        self.assertEqual((status, out.decode().splitlines()[1:]), (0, ["note: destination 1-ff00:0:199 is in no segment"]))

    def test_not_taken(self):
        with tempfile.TemporaryDirectory() as folder:
            twice = Path(folder, "names")
            twice.write_text("1-1 kiln\n1-2 kiln\n")
            for args, message in ((("--names", self.FILE, "kiln house 4", "control desk"),
                                   "'kiln house 4' is no ISD-AS and no name of the file of names; near it: 'kiln house 3'"),
                                  (("--names", twice, "kiln", "1-1"), "'kiln' is the name of 1-1 and 1-2: give the ISD-AS"),
                                  (("kiln", "1-1"), "'kiln' is no ISD-AS such as 1-ff00:0:110 or 0001ff0000000110; "
                                                    "names are taken from a file that --names gives"),
                                  (("--names", "-", "1-1", "1-2"), "standard input is either the book or the file of names")):
                status, out, said = book("list", "--program", MODEL, *args)
                self.assertEqual((status, out), (2, b""))
                self.assertTrue(said.startswith("usage: book list") and said.endswith(f"book list: error: {message}\n"), said)
            status, _, said = book("check", "--names", Path(folder, "none"), given=bytes(8))
            self.assertEqual((status, said), (2, f"book: {folder}/none: No such file or directory\n"))
            for words, reason in ((b"1-1\n", "1-1 without a name that can be shown"), (b"1-1 K\xf6ln\n", "not UTF-8 text")):
                twice.write_bytes(words)
                self.assertEqual(book("check", "--names", twice, given=bytes(8)), (2, b"", f"book: {twice}:1: {reason}\n"))

    def test_an_isd_as_is_no_name(self):
        self.assertEqual(names.resolve("1-2", {1: "1-2"}), 1 << 48 | 2)

    def test_shown(self):
        status, out, _ = book("decode", "--notes", "--names", self.FILE, self.HOUSE)
        self.assertEqual((status, out.decode().splitlines()[0]), (0, "# position 0: 2 entries, carrier North, core (1-ff00:0:110) to "
                                                                  "carrier South, core (1-ff00:0:120), issued 2026-01-01T06:00:00Z"))
        status, out, _ = book("list", "--program", MODEL, "--names", self.FILE, *EXAMPLES["house"], self.HOUSE)
        self.assertIn("1-ff00:0:131#2  kiln house 3\n", out.decode())


class Listing(unittest.TestCase):
    def test_names(self):
        status, out, _ = book("list", "--program", MODEL, "1-ff00:0:111", "0001ff0000000110", ROOT / "examples" / "worked.book")
        self.assertEqual((status, out.decode()), (0, """\
solutions 1 paths 1
1 cost 1 segments 1 mtu 1350 expiry 1021600 hops 2  expires 1970-01-12T19:46:40Z
info 0 1336 1000000        against construction, issued 1970-01-12T13:46:40Z
if 0001ff0000000111 7      1-ff00:0:111#7
if 0001ff0000000110 5      1-ff00:0:110#5
"""))

    def test_generated(self):
        for source, destination, data in generate.cases("list", 60):
            answer = model.printed(asked(source, destination, data))
            found = printed.parse(answer)
            self.assertEqual(len(found), int(answer.split()[1]))
            shown = printed.with_names(answer, {source: "the source"})
            self.assertEqual(len(answer.splitlines()), len(shown.splitlines()))
            for plain, named in zip(answer.splitlines(), shown.splitlines()):
                self.assertTrue(named.startswith(plain))
                if plain.startswith("info "):
                    flags = int(plain.split()[1])
                    self.assertEqual(("in construction direction" in named, "peering" in named), (flags % 2 == 1, flags >= 2))
                if plain.startswith("if "):
                    self.assertEqual(isd_as.parse(named.split()[3].split("#")[0]), int(plain.split()[1], 16))

    def test_nothing_found(self):
        house, names = ROOT / "examples" / "house.book", ROOT / "examples" / "house.names"
        for ends, reasons in ((("1-ff00:0:131", "1-5"), ["destination 1-5 is in no segment"]),
                              (("1-6", "1-5"), ["source 1-6 is in no segment", "destination 1-5 is in no segment"]),
                              (("1-ff00:0:131", "1-ff00:0:131"),
                               ["source and destination are both kiln house 3 (1-ff00:0:131), and no path leads from an AS to itself"]),
                              # Both are in segments, and no chain joins them.
                              (("1-ff00:0:121", "1-ff00:0:122"), [])):
            status, out, said = book("list", "--program", MODEL, "--names", names, *ends, house)
            self.assertEqual((status, out.decode().splitlines(), said), (0, ["solutions 0 paths 0", *(f"nothing found: {r}" for r in reasons)], ""))
            self.assertEqual(book("list", "--plain", "--program", MODEL, *ends, house), (0, b"solutions 0 paths 0\n", ""))

    def test_refused(self):
        status, out, _ = book("list", "--program", MODEL, "1-1", "1-2", given=bytes(7))
        self.assertEqual((status, out.decode()), (1, "refused 1 (Cut), at byte 7: the book has 7 bytes, its sizes alone take 8\n"))
        status, out, _ = book("list", "--plain", "--program", MODEL, "1-1", "1-2", given=bytes(7))
        self.assertEqual((status, out), (1, b"refused 1\n"))
        self.assertEqual(printed.refusal_words(8, bytes(8)), f"refused 8 (Full): more than {layout.MAX_SOLUTIONS} solutions")

    def test_program(self):
        status, _, said = book("list", "--program", "/no/such/list", "1-1", "1-2", given=bytes(8))
        self.assertEqual((status, said), (2, "book: cannot run /no/such/list: No such file or directory\n"))
        status, _, said = book("list", "--program", "/bin/false", "1-1", "1-2", given=bytes(8))
        self.assertEqual((status, said), (2, "book: /bin/false printed no list (exit status 1)\n"))
        status, _, said = book("list", "--program", "/bin/pwd", "1-1", "1-2", given=bytes(8))
        self.assertEqual((status, said), (2, "book: the program's output is no printed list\n"))
        for wrong in ("solutions 1 paths 1\n", "solutions 0 paths 0\nif 0001ff0000000111 7\n", "solutions 1 paths 0\n1 cost 1 segments 1 lost\n"):
            with self.assertRaises(BookError):
                printed.parse(wrong)

    def test_program_beside(self):
        with tempfile.TemporaryDirectory() as folder:
            tools = Path(folder, "bin")
            shutil.copytree(ROOT / "tools" / "booktext", tools / "booktext", ignore=shutil.ignore_patterns("__pycache__"))
            shutil.copy(BOOK, tools / "book")
            command = [sys.executable, str(tools / "book"), "list", "--plain", "1-1", "1-2"]
            done = subprocess.run(command, input=bytes(8), capture_output=True, check=False)
            self.assertEqual(done.returncode, 2)
            self.assertIn(f"{tools}/list: build it, or give its path with --program", done.stderr.decode())
            shutil.copy(MODEL, tools / "list")
            done = subprocess.run(command, input=bytes(8), capture_output=True, check=False)
            self.assertEqual((done.returncode, done.stdout), (0, b"solutions 0 paths 0\n"))

    def test_usage(self):
        for args in ((), ("encode", "a", "b"), ("list", "1-1"), ("list", "1-x", "1-2"), ("draw", "1-1", "1-2"), ("draw", "1-1", "1-2", "-o", "x.jpeg"),
                     ("draw", "1-1", "1-2", "-o", "x.svg", "--paths", "3-1"), ("draw", "1-1", "1-2", "-o", "x.svg", "--wire"), ("check", "--all")):
            with self.subTest(args=args):
                status, out, said = book(*args)
                self.assertEqual((status, out), (2, b""))
                self.assertIn("usage: book", said)


class Routes(unittest.TestCase):
    """Routes of the program's list, worked out by hand. Those of the library: test_answers.py."""

    def direct(self, timestamp, ident, units=63):
        return f"non-core timestamp {timestamp} id {ident}\n{entry_line('1-2', 0, 5, units)}{entry_line('1-1', 7, 0, units)}"

    def book(self):
        """A segment, a reissue that lives 22,320 seconds longer, another that lives as long as that, and a longer way.

        63 units live 21,600 seconds, 61 units 20,925."""
        around = f"non-core timestamp 1000000 id 0004\n{entry_line('1-2', 0, 5)}{entry_line('1-3', 6, 8)}{entry_line('1-1', 7, 0)}"
        return (self.direct(1000000, "0001") + self.direct(1022320, "0002") + self.direct(1022995, "0003", 61) + around).encode()

    def listed(self, *options, given=None):
        return book("list", "--program", MODEL, *options, "1-1", "1-2", given=given or self.book())

    def test_listed(self):
        with tempfile.TemporaryDirectory() as folder:
            names = Path(folder, "names")
            names.write_text("1-1 the kiln\n")
            status, out, said = self.listed("--routes", "--names", names)
        self.assertEqual((status, out.decode(), said), (0, """\
routes 2 solutions 4 paths 4
1 cost 1 segments 1 mtu 1500 expiry 1043920 hops 2  expires 1970-01-13T01:58:40Z
info 0 0100 1022320        against construction, issued 1970-01-12T19:58:40Z
if 0001000000000001 7      1-1#7  the kiln
if 0001000000000002 5      1-2#5
  solution 2 of the list, at the place of solution 1, the first of this route
  lives 6h 12m longer than solution 1, which is dropped
  lives as long as solution 3, which is dropped since it stands later
2 cost 2 segments 1 mtu 1500 expiry 1021600 hops 3  expires 1970-01-12T19:46:40Z
info 0 0004 1000000        against construction, issued 1970-01-12T13:46:40Z
if 0001000000000001 7      1-1#7  the kiln
if 0001000000000003 8      1-3#8
if 0001000000000003 6      1-3#6
if 0001000000000002 5      1-2#5
  solution 4 of the list
""", NO_REASONS))

    def test_plain(self):
        self.assertEqual(self.listed("--routes", "--plain"), (0, b"""\
routes 2 solutions 4 paths 4
1 cost 1 segments 1 mtu 1500 expiry 1043920 hops 2
info 0 0100 1022320
if 0001000000000001 7
if 0001000000000002 5
2 cost 2 segments 1 mtu 1500 expiry 1021600 hops 3
info 0 0004 1000000
if 0001000000000001 7
if 0001000000000003 8
if 0001000000000003 6
if 0001000000000002 5
""", ""))

    def test_json(self):
        status, out, said = self.listed("--routes", "--json", "--now", "1021601")
        made = json.loads(out)
        self.assertEqual((status, said), (0, NO_REASONS))
        self.assertEqual({name: made[name] for name in made if name != "routes"}, {
            "source": "1-1", "destination": "1-2", "now": 1021601, "refusal": None, "solution_count": 4, "path_count": 4, "errors": []})
        self.assertEqual([[r[name] for name in ("number", "solution", "first", "expiry", "run_out", "why")] for r in made["routes"]],
                         [[1, 2, 1, 1043920, False, None], [2, 4, 4, 1021600, True, None]])
        self.assertEqual([r["dropped"] for r in made["routes"]], [[{"solution": 1, "edges": None, "expiry": 1021600, "longer": 22320},
                                                                  {"solution": 3, "edges": None, "expiry": 1043920, "longer": 0}], []])

    def test_note(self):
        """The whole list says that there are fewer routes."""
        lines = self.listed()[1].decode().splitlines()
        self.assertEqual((lines[0], lines[-1]), ("solutions 4 paths 4", "note: 4 paths are 2 routes: --routes lists each route once, "
                                                                        "by the path that lives longest"))
        self.assertNotIn(b"note", self.listed(given=self.direct(1, "0001").encode())[1])
        self.assertNotIn(b"note", self.listed("--plain")[1])
        self.assertTrue(self.listed(given=(self.direct(1, "0001") + self.direct(2, "0001")).encode())[1].decode().endswith(
            "note: 2 paths are 1 route: --routes lists each route once, by the path that lives longest\n"))

    def test_renewed(self):
        """The routes of the house, some renewed. By examples/renewed.txt, the segments run out after 1767247200, seconds that are added here:
        0: 21600; 1: 21900; 2: 22500, its peer 17100; 3: 22200, its peer 16800; 4: 10920; 5 and 6: 29100, the peer of 6 23700."""
        renewed, house = ((ROOT / "examples" / f"{name}.{kind}") for name, kind in (("renewed", "book"), ("house", "list")))
        status, out, _ = book("list", "--routes", "--program", MODEL, *EXAMPLES["renewed"], renewed)
        lines = out.decode().splitlines()
        self.assertEqual((status, lines[0]), (0, "routes 5 solutions 11 paths 11"))
        self.assertEqual([line.strip() for line in lines if line.startswith("  ")], [
            "solution 2 of the list, at the place of solution 1, the first of this route", "lives 5m longer than solution 1, which is dropped",
            "solution 3 of the list",
            "solution 7 of the list, at the place of solution 4, the first of this route", "lives 2h longer than solution 4, which is dropped",
            "lives 2h longer than solution 5, which is dropped", "lives 1h 55m longer than solution 6, which is dropped",
            "solution 8 of the list", "lives as long as solution 9, which is dropped since it stands later",
            "solution 10 of the list", "lives as long as solution 11, which is dropped since it stands later"])
        found = [int(number) - 1767247200 for number in re.findall(r" expiry ([0-9]+) ", out.decode())]
        self.assertEqual(found, [17100, 10920, 29100, 21600, 10920])
        # They are the routes of the house, in its order.
        interfaces = [line[:25].rstrip() for line in lines if line.startswith("if ")]
        self.assertEqual(interfaces, [line for line in house.read_text().splitlines() if line.startswith("if ")])

    def test_told_apart(self):
        """By ASes and ids together, and in their order."""
        def path(number, *interfaces):
            return printed.Solution(number, 1, 1, "path", 1500, 10 + number, 2, [], list(interfaces))
        found = [path(1, (1, 5), (2, 7)), path(2, (1, 5), (3, 7)), path(3, (1, 5), (2, 8)), path(4, (2, 7), (1, 5)), path(5, (1, 5), (2, 7), (2, 7)),
                 path(6, (1, 5), (2, 7))]
        self.assertEqual([(r.number, r.held.number, [s.number for s in r.dropped]) for r in routes.routes(found)],
                         [(1, 6, [1]), (2, 2, []), (3, 3, []), (4, 4, []), (5, 5, [])])

    def test_nothing(self):
        # 1-3 is shown at 2, 4 and 3.
        loop = (f"non-core timestamp 1 id 0001\n{entry_line('1-3', 0, 2)}{entry_line('1-1', 1, 0)}"
                f"non-core timestamp 1 id 0002\n{entry_line('1-3', 4, 3)}{entry_line('1-2', 1, 0)}").encode()
        self.assertEqual(self.listed("--routes", given=loop), (0, b"routes 0 solutions 1 paths 0\nnothing found: no solution has a path, "
                                                                  b"and without --routes the list says why\n", NO_REASONS))
        self.assertEqual(book("list", "--routes", "--program", MODEL, "1-1", "1-9", given=loop),
                         (0, b"routes 0 solutions 0 paths 0\nnothing found: destination 1-9 is in no segment\n", ""))

    def test_refused(self):
        for options, words in (((), "refused 1 (Cut), at byte 7: the book has 7 bytes, its sizes alone take 8\n"), (("--plain",), "refused 1\n")):
            self.assertEqual(self.listed("--routes", *options, given=bytes(7)), (1, words.encode(), ""))
        status, out, _ = self.listed("--routes", "--json", given=bytes(7))
        made = json.loads(out)
        self.assertEqual((status, made["refusal"], made["routes"], made["solution_count"]), (1, {"number": 1, "word": "Cut"}, None, None))

    def test_drawn(self):
        with tempfile.TemporaryDirectory() as folder:
            made = Path(folder, "x.dot")
            draw_ = ("draw", "--program", MODEL, "-o", made, "1-1", "1-2")
            self.assertEqual(book(*draw_, given=self.book()), (0, b"", "book: 4 paths are 2 routes: --routes draws each route once, "
                                                                       "by the path that lives longest\n"))
            self.assertIn("4 solutions, 4 paths", made.read_text())
            self.assertEqual(book(*draw_, "--paths", "2,4", given=self.book()), (0, b"", ""))
            self.assertEqual(book(*draw_, "--routes", given=self.book()), (0, b"", ""))
            words = made.read_text()
            self.assertIn("2 routes", words)
            self.assertIn("1970-01-13T01:58:40Z", words)
            self.assertNotIn(COLOURS[2], words)
            status, _, said = book(*draw_, "--routes", "--paths", "3", given=self.book())
            self.assertEqual((status, said), (2, "book: there is no route 3: the list has 2\n"))


class Wire(unittest.TestCase):
    """Bytes for the routers, worked out by hand from the data draft's layout. Those of the library: test_answers.py."""
    # The first path of the house, out by the peer of entry 1 of segment 2 and in by that of segment 3. By examples/house.txt the ids are
    # 66da ^ b191 ^ c31b and 7178 ^ bd92 ^ ec95; 2026-01-01T06:15:00Z is 695610e4, five minutes before it 69560fb8.
    HOUSE = bytes.fromhex("00002080" "02" "00" "1450" "695610e4" "03" "00" "207f" "69560fb8" "00" "3f" "0002" "0000" "606fb495ca0b"
                          "00" "2f" "0003" "0002" "d1a45aeafc33" "00" "2f" "0003" "0002" "9f8df64c59dd" "00" "3f" "0001" "0000" "22af02298783")

    def path(self, infos, hops):
        """A path of the library's. Infos are (flags, hop count, id, timestamp), hops (units, ingress, egress, MAC)."""
        return answers.combinator.Path(layout.path(1500, 1, infos, hops, [(A, 7), (B, 5)]))

    def solution(self, path, data):
        return printed.Solution(1, 1, 1, "path", path=path, wire=data)

    def worked(self):
        return self.path([(0, 2, 0x1336, 1000000)], [(63, 7, 0, bytes.fromhex("0a0b0c0d0e0f")), (63, 0, 5, bytes.fromhex("010203040506"))])

    def model_paths(self, name):
        """The paths of an example by the model, as those of the library."""
        source, destination = map(isd_as.parse, EXAMPLES[name])
        for chain in model.solutions((ROOT / "examples" / f"{name}.book").read_bytes(), source, destination):
            p = model.path(chain)
            yield self.path([(flags, count, ident, timestamp) for flags, ident, timestamp, count in p.infos], p.hops)

    def test_worked_out(self):
        path = self.worked()
        data = bytes.fromhex("00002000" "00001336000f4240" "003f000700000a0b0c0d0e0f" "003f00000005010203040506")
        self.assertEqual(wire.worked_out(path), data)
        self.assertEqual(wire.told(self.solution(path, data)), WORKED_WIRE)
        self.assertEqual(wire.line(self.solution(path, data)), f"wire {data.hex()}\n")
        self.assertEqual(wire.worked_out(next(self.model_paths("house"))), self.HOUSE)
        for name in EXAMPLES:
            for path in self.model_paths(name):
                self.assertEqual(wire.worked_out(path), model.written(path.as_bytes()))

    def test_order(self):
        """The meta header has the counts in the order of the infos, and every hop is told with its info."""
        mac = bytes(layout.MAC_SIZE)
        path = self.path([(1, 3, 1, 2), (3, 1, 3, 4), (0, 2, 5, 6)], [(k, 2 * k, 2 * k + 1, mac) for k in range(6)])
        data = wire.worked_out(path)
        # 3 * 4096 + 1 * 64 + 2
        self.assertEqual((data[:4].hex(), len(data)), ("00003042", 4 + 3 * 8 + 6 * 12))
        self.assertEqual(data[4:28].hex(), "0100" "0001" "00000002" "0300" "0003" "00000004" "0000" "0005" "00000006")
        self.assertEqual(data[28 + 12 * 5:].hex(), "0005" "000a" "000b" "000000000000")
        told = [words for _, words in wire.parts(data)]
        self.assertEqual([words.split(":")[0] for words in told], ["meta", "info 0", "info 1", "info 2", "hop 0, of info 0", "hop 1, of info 0",
                                                                  "hop 2, of info 0", "hop 3, of info 1", "hop 4, of info 2", "hop 5, of info 2"])
        self.assertEqual(told[0], "meta: current info 0, current hop 0, reserved 0, hops 3 1 2")
        self.assertEqual(told[2], "info 1: flags 3 (in construction direction, peering), reserved 0, segment id 0003, timestamp 4 (1970-01-01T00:00:04Z)")

    def test_meta(self):
        """Current info 2 bits, current hop 6, reserved 6, three counts of 6."""
        data, numbers = (1 << 30 | 2 << 24 | 3 << 18 | 4 << 12 | 5 << 6 | 6).to_bytes(4, "big"), (1, 2, 3, 4, 5, 6)
        meta = layout.WIRE_META.unpack(data)
        self.assertEqual((meta, meta.current_info, meta.current_hop, meta.reserved), (numbers, 1, 2, 3))
        self.assertEqual(layout.WIRE_META.pack(*numbers), data)

    def test_other_bytes(self):
        """Bytes that are not as worked out here, of whatever form, have no parts."""
        for data in (b"", b"\xff", b"\xff" * 36, bytes(35), bytes(37)):
            said = f"  wire, {len(data)} byte{'' if len(data) == 1 else 's'}:\n    {data.hex()}\n"
            self.assertEqual(wire.told(self.solution(self.worked(), data)), said)
        self.assertEqual((wire.told(self.solution(self.worked(), None)), wire.line(self.solution(self.worked(), None))), ("", ""))

    def test_program(self):
        """The program gives none, whatever the book."""
        said = "book: the program gives no bytes for the wire, the library does: build it with make lib, or name it with --library\n"
        for data in ((ROOT / "examples" / "worked.book").read_bytes(), COUNTS.pack(), bytes(7)):
            for options in ((), ("--plain",), ("--json",), ("--routes",)):
                self.assertEqual(book("list", "--wire", *options, "--program", MODEL, *EXAMPLES["worked"], given=data), (2, b"", said))

    def test_example(self):
        """examples/house.wire: its bytes by the model's paths, and all else as without them."""
        lines = (ROOT / "examples" / "house.wire").read_text().splitlines()
        found = [lines[k + 1].strip() for k, line in enumerate(lines) if line.startswith("  wire, ")]
        self.assertEqual(found, [model.written(path.as_bytes()).hex() for path in self.model_paths("house")])
        self.assertEqual((len(found), found[0]), (5, self.HOUSE.hex()))
        listed = [line for line in lines if not line.startswith("  ")]
        for plain, line in zip((ROOT / "examples" / "house.list").read_text().splitlines(), listed):
            self.assertTrue(line.startswith(plain))
        # The parts are the whole, and stand below each path.
        parts = ["".join(re.match(r"    ((?:[0-9a-f]+ )+)", line)[1].split()) for line in lines if re.match(r"    [0-9a-f ]+  \w", line)]
        self.assertEqual("".join(parts), "".join(found))


@contextlib.contextmanager
def somebody():
    """Not as root, who may read and write everything."""
    if os.geteuid():
        yield
        return
    try:
        os.seteuid(65534)
    except OSError:
        raise unittest.SkipTest("root cannot act as somebody else here") from None
    try:
        yield
    finally:
        os.seteuid(0)


needs_full = unittest.skipUnless(Path("/dev/full").is_char_device(), "there is no device /dev/full")


class Robust(unittest.TestCase):
    """What goes wrong with files and streams is a line on standard error, never a traceback."""
    HOUSE = ROOT / "examples" / "house.book"
    UNBUFFERED = {**os.environ, "PYTHONUNBUFFERED": "1"}
    BUFFERED = {name: value for name, value in os.environ.items() if name != "PYTHONUNBUFFERED"}

    def test_closed_pipe(self):
        for args in (("decode", self.HOUSE), ("check", self.HOUSE), ("--help",)):
            reading, writing = os.pipe()
            os.close(reading)
            with open(writing, "wb") as out:
                self.assertEqual(alone(*args, stdout=out), (2, None, "book: <standard output>: Broken pipe\n"))

    @needs_full
    def test_full_disk(self):
        for env, args in ((self.BUFFERED, ("decode", self.HOUSE)), (self.BUFFERED, ("list", "--program", MODEL, "1-1", "1-2", self.HOUSE)),
                          (self.UNBUFFERED, ("check", self.HOUSE)), (self.UNBUFFERED, ("--version",))):
            with open("/dev/full", "wb") as full:
                self.assertEqual(alone(*args, stdout=full, env=env), (2, None, "book: <standard output>: No space left on device\n"))
        with open("/dev/full", "wb") as full:
            self.assertEqual(alone("check", "/no/such/file", stderr=full), (2, b"", ""))
            self.assertEqual(alone("check", self.HOUSE, stdout=full, stderr=full), (2, None, ""))

    @needs_full
    def test_full_device(self):
        # Never as root: a fault could put a file in the device's place.
        with somebody():
            self.assertEqual(book("encode", "-o", "/dev/full", given=b""), (2, b"", "book: /dev/full: No space left on device\n"))

    def test_what_is_no_file_is_not_replaced(self):
        with tempfile.TemporaryDirectory() as folder:
            pipe = Path(folder, "pipe")
            os.mkfifo(pipe)
            reading = os.open(pipe, os.O_RDONLY | os.O_NONBLOCK)
            try:
                self.assertEqual(book("encode", "-o", pipe, given=b""), (0, b"", ""))
                self.assertTrue(pipe.is_fifo())
                self.assertEqual(os.read(reading, 100), bytes(8))
            finally:
                os.close(reading)

    def test_closed_streams(self):
        for closed, args, answer in ((0, ("check",), (2, b"", "book: <standard input>: Bad file descriptor\n")),
                                     (1, ("check", self.HOUSE), (2, b"", "book: <standard output>: Bad file descriptor\n")),
                                     (2, ("check", "/no/such/file"), (2, b"", ""))):
            self.assertEqual(alone(*args, preexec_fn=lambda: os.close(closed)), answer)
        with tempfile.TemporaryDirectory() as folder:
            self.assertEqual(alone("decode", self.HOUSE, "-o", Path(folder, "x.txt"), preexec_fn=lambda: os.close(1)), (0, b"", ""))

    def test_letters(self):
        """Names with umlauts where the locale, or the stream, has only ASCII."""
        plain = {"LC_ALL": "C", "PYTHONCOERCECLOCALE": "0", "PYTHONUTF8": "0"}
        with tempfile.TemporaryDirectory() as folder:
            names, picture = Path(folder, "names"), Path(folder, "x.dot")
            names.write_text("1-ff00:0:131 Köln\n1-ff00:0:141 Desk\n", encoding="utf-8")
            for env, shown in (({"LC_ALL": "C"}, "Köln".encode()), (plain, b"K\\xf6ln"), ({"PYTHONIOENCODING": "ascii"}, b"K\\xf6ln"),
                               ({**plain, "PYTHONIOENCODING": "latin-1"}, "Köln".encode("latin-1"))):
                with self.subTest(env=env):
                    env = {**self.BUFFERED, **env}
                    status, out, said = alone("list", "--program", MODEL, "--names", names, "Köln", "Desk", self.HOUSE, env=env)
                    self.assertEqual((status, said), (0, NO_REASONS))
                    self.assertIn(b"1-ff00:0:131#2  " + shown, out)
            status, _, said = alone("check", "Köln", env={**self.BUFFERED, **plain})
            self.assertEqual((status, said.count("\n")), (2, 1))
            args = ("draw", "--program", MODEL, "--names", names, "Köln", "Desk", self.HOUSE, "-o", picture, "--title")
            self.assertEqual(alone(*args, "Züge", env={**self.BUFFERED, **plain}), (0, b"", ""))
            self.assertIn("Züge", picture.read_text(encoding="utf-8"))
            status, _, said = book(*args, "Z\udcfcge")
            self.assertEqual((status, said.splitlines()[-1]), (2, "book draw: error: argument --title: 'Z\\udcfcge' is not UTF-8"))

    def test_interrupted(self):
        with tempfile.TemporaryDirectory() as folder:
            started, program = Path(folder, "started"), Path(folder, "list")
            program.write_text(f"#!/bin/sh\n: > {started}\nexec sleep 60\n")
            program.chmod(0o755)
            command = [str(BOOK), "list", "--program", str(program), "1-1", "1-2", str(self.HOUSE)]
            # A gate that runs in the background may ignore the signal.
            with subprocess.Popen(command, stdout=subprocess.PIPE, stderr=subprocess.PIPE,
                                  preexec_fn=lambda: signal.signal(signal.SIGINT, signal.SIG_DFL)) as run:
                while not started.exists() and run.poll() is None:
                    time.sleep(0.01)
                run.send_signal(signal.SIGINT)
                out, said = run.communicate(timeout=30)
            self.assertEqual((run.returncode, out, said), (130, b"", b"book: interrupted\n"))

    def test_files_that_cannot_be_read(self):
        long = "x" * 256
        for name, reason in (("/no/such/file", "No such file or directory"), ("/", "Is a directory"), (f"{self.HOUSE}/x", "Not a directory"),
                             (long, "File name too long"), ("/proc/self/mem", "Input/output error"),
                             ("/dev/zero", "more than 16777216 bytes, which no book has")):
            for args in (("check", name), ("encode", name), ("decode", "--names", name)):
                self.assertEqual(book(*args), (2, b"", f"book: {name}: {reason}\n"))

    def test_files_that_cannot_be_written(self):
        for name, reason in (("/no/such/x", "No such file or directory"), ("/", "Is a directory"), (f"{self.HOUSE}/x", "Not a directory")):
            self.assertEqual(book("decode", self.HOUSE, "-o", name), (2, b"", f"book: {name}: {reason}\n"))

    def test_permissions(self):
        with tempfile.TemporaryDirectory() as folder:
            closed, kept, open_one = Path(folder, "closed"), Path(folder, "kept"), Path(folder, "open")
            for file, mode in ((closed, 0), (kept, 0o444), (open_one, 0o666)):
                file.write_bytes(b"old")
                file.chmod(mode)
            os.chmod(folder, 0o777)
            with somebody():
                if not os.access(open_one, os.W_OK, effective_ids=True):
                    self.skipTest("only root can reach the folder for temporary files")
                self.assertEqual(book("check", closed), (2, b"", f"book: {closed}: Permission denied\n"))
                self.assertEqual(book("decode", "-o", kept, given=bytes(8)), (2, b"", f"book: {kept}: Permission denied\n"))
            self.assertEqual(kept.read_bytes(), b"old")
            os.chmod(folder, 0o555)
            with somebody():
                # Nothing can stand beside it, but the file itself may be written.
                self.assertEqual(book("encode", "-o", open_one, given=b""), (0, b"", ""))
                new = Path(folder, "new")
                self.assertEqual(book("encode", "-o", new, given=b""), (2, b"", f"book: {new}: Permission denied\n"))
            self.assertEqual(open_one.read_bytes(), bytes(8))
            os.chmod(folder, 0o777)

    def test_whole_or_not_at_all(self):
        """A limit on the size of files stands in for a disk that runs full."""
        with tempfile.TemporaryDirectory() as folder:
            file = Path(folder, "x.txt")
            limited = {"preexec_fn": lambda: resource.setrlimit(resource.RLIMIT_FSIZE, (100, 100))}
            for old in (None, "old"):
                if old:
                    file.write_text(old)
                self.assertEqual(alone("decode", self.HOUSE, "-o", file, **limited), (2, b"", f"book: {file}: File too large\n"))
                self.assertEqual([p.name for p in Path(folder).iterdir()], ["x.txt"] if old else [])
            self.assertEqual(file.read_text(), "old")

    def test_written_files(self):
        with tempfile.TemporaryDirectory() as folder:
            new, there, link = Path(folder, "new"), Path(folder, "there"), Path(folder, "link")
            there.write_bytes(b"old")
            there.chmod(0o604)
            link.symlink_to("there")
            mask = os.umask(0o027)
            try:
                for file in (new, link):
                    self.assertEqual(book("encode", "-o", file, given=b""), (0, b"", ""))
            finally:
                os.umask(mask)
            self.assertTrue(link.is_symlink())
            self.assertEqual([(p.read_bytes(), p.stat().st_mode & 0o777) for p in (new, there)], [(bytes(8), 0o640), (bytes(8), 0o604)])
            self.assertEqual(book("encode", "-o", "-", given=b""), (0, bytes(8), ""))


class Drawing(unittest.TestCase):
    def picture(self, name="house", **options):
        source, destination = map(isd_as.parse, EXAMPLES[name])
        data = (ROOT / "examples" / f"{name}.book").read_bytes()
        return Picture(refusal.read(data), source, destination, printed.parse(model.printed(asked(source, destination, data))), {}, **options)

    def dot(self, picture):
        return dot.dot_text(picture, {a: k for k, a in enumerate(picture.ases)}, forced=True)

    def test_levels(self):
        level = {isd_as.written(a): n for a, n in self.picture().level.items()}
        self.assertEqual({a for a, n in level.items() if n == 0}, {"1-ff00:0:110", "1-ff00:0:120"})
        self.assertEqual({a for a, n in level.items() if n == 2}, {"1-ff00:0:131", "1-ff00:0:141"})

    def test_links(self):
        found = {(isd_as.written(k.first[0]), k.first[1], isd_as.written(k.second[0]), k.second[1]): (k.kind, k.paths, k.segments)
                 for k in self.picture().links}
        self.assertEqual(len(found), 10)
        self.assertEqual(found["1-ff00:0:110", 1, "1-ff00:0:120", 1], ("core", [4, 5], [0]))
        self.assertEqual(found["1-ff00:0:121", 3, "1-ff00:0:112", 3], ("peering", [1], [2, 3]))
        self.assertEqual(found["1-ff00:0:121", 2, "1-ff00:0:131", 2], ("parent", [1, 2, 4], [2]))

    def test_text(self):
        words = self.dot(self.picture())
        for expected in ("5 solutions, 5 paths", "1767264000", "2026-01-01T10:40:00Z",
                         "1-ff00:0:131 2&gt;2 1-ff00:0:121 3&gt;3 1-ff00:0:112 2&gt;1 1-ff00:0:141", "style=dashed", "destination", *COLOURS[:5]):
            self.assertIn(expected, words)
        self.assertNotIn(COLOURS[5], words)

    def test_some_paths(self):
        picture = self.picture(wanted={2, 5})
        self.assertEqual([s.number for s in picture.drawn], [2, 5])
        self.assertIn("5 solutions, 5 paths, 2 drawn", self.dot(picture))
        self.assertEqual(len(self.picture(wanted={1}, used=True).links), 3)
        self.assertEqual(self.picture(wanted={1}, used=True).level[isd_as.parse("1-ff00:0:131")], 2)
        with self.assertRaisesRegex(BookError, "there is no solution 6: the list has 5"):
            self.picture(wanted={6})
        with self.assertRaisesRegex(BookError, "11 paths are too many"):
            self.picture(wanted=set(range(1, 12)))

    def test_hint(self):
        def fan(leaves):
            """A core AS and leaves below it."""
            return "".join(f"non-core timestamp 1 id 0001\n{entry_line('1-1', 0, k)}{entry_line(f'1-{k + 1}', 1, 0)}" for k in range(1, leaves + 1)).encode()

        with tempfile.TemporaryDirectory() as folder:
            args = ("draw", "--program", MODEL, "-o", Path(folder, "x.dot"), "1-2")
            hint = "book: 25 ASes are drawn, more than 24 hardly fit a page: --used draws only the 3 that the paths pass\n"
            for leaves, more, said in ((23, ("1-3",), ""), (24, ("1-3",), hint), (24, ("1-3", "--used"), ""), (24, ("1-99",), "")):
                self.assertEqual(book(*args, *more, given=fan(leaves)), (0, b"", said))
            # Up by 15 ASes and down by as many: --used would draw them all.
            long = [[f"1-{k}" for k in range(start, start + 30, 2)] + ["1-1"] for start in (2, 3)]
            words = "".join("non-core timestamp 1 id 0001\n" + "".join(entry_line(a, k and 5, (15 - k) and 6) for k, a in enumerate(reversed(ases)))
                            for ases in long)
            self.assertEqual(book(*args, "1-3", given=words.encode()), (0, b"", ""))
            self.assertEqual(Path(folder, "x.dot").read_text().count(" [label="), 31)

    def test_unlisted(self):
        # The middle AS shows no interface, so that the path leaps over it.
        top, middle, leaf = (isd_as.parse(f"1-{k}") for k in (1, 2, 3))
        segments = [Segment(entries=[Entry(isd_as=top, mtu=1500, egress=5), Entry(isd_as=middle, mtu=1500), Entry(isd_as=leaf, mtu=1500, ingress=7)])]
        source, destination = leaf, top
        answer = printed.parse(model.printed(asked(source, destination, layout.write(segments))))
        picture = Picture(segments, source, destination, answer, {})
        self.assertEqual([link.kind for link in picture.links if link.paths], ["unlisted"])
        self.assertEqual([picture.level[a] for a in (top, middle, leaf)], [0, 1, 2])
        self.assertIn("style=dotted", self.dot(picture))

    def test_generated(self):
        for source, destination, data in generate.cases("draw", 60):
            answer = printed.parse(model.printed(asked(source, destination, data)))
            picture = Picture(refusal.read(data), source, destination, answer, {source: 'a "name" <b> & \\'})
            words = self.dot(picture)
            for a in picture.ases:
                self.assertIn(f"{dot.node(a)} [label=", words)
            for s in picture.drawn:
                self.assertIn(picture.colours[s.number], words)

    def test_without_graphviz(self):
        house = ROOT / "examples" / "house.book"
        with tempfile.TemporaryDirectory() as folder:
            # The program runs by its shebang, so python3 must be found; dot must not.
            Path(folder, "python3").symlink_to(sys.executable)
            args = ("draw", "--program", MODEL, *EXAMPLES["house"], house, "-o")
            status, _, said = book(*args, Path(folder, "x.svg"), path=folder)
            self.assertEqual(status, 2)
            self.assertIn("dot is not installed (package graphviz); -o with a name that ends in .dot", said)
            self.assertEqual(book(*args, Path(folder, "x.dot"), path=folder), (0, b"", ""))
            self.assertTrue(Path(folder, "x.dot").read_text().startswith("graph paths {"))

    @unittest.skipUnless(draw.installed(), "dot is not installed")
    def test_with_graphviz(self):
        with tempfile.TemporaryDirectory() as folder:
            names = Path(folder, "names")
            names.write_text("1-ff00:0:131 kiln <3> & \"desk\"\n")
            status, _, said = book("draw", "--program", MODEL, "--names", names, *EXAMPLES["house"], ROOT / "examples" / "house.book",
                                   "-o", Path(folder, "x.svg"))
            self.assertEqual((status, said), (0, ""))
            words = Path(folder, "x.svg").read_text()
            self.assertIn("<svg", words)
            self.assertIn("kiln &lt;3&gt; &amp; &quot;desk&quot;", words)

    def test_refused(self):
        status, _, said = book("draw", "--program", MODEL, "1-1", "1-2", "-o", "x.dot", given=bytes(7))
        self.assertEqual((status, said), (1, "book: <standard input>: refused 1 (Cut), at byte 7: the book has 7 bytes, its sizes alone take 8\n"))

    def test_names_file(self):
        for words, message in (("1-ff00:0:110\n", "n:1: 1-ff00:0:110 without a name that can be shown"), ("# x\nx y\n", "n:2: 'x' is no ISD-AS such as"),
                               ("1-1 a\n1-1 b\n", "n:2: 1-1 has a name already")):
            with self.assertRaises(BookError) as found:
                names.read(words.encode(), "n")
            self.assertIn(message, str(found.exception))


class Model(unittest.TestCase):
    """Cases whose answers the specification settles, so that the model deserves to be asked."""
    MAC, LEAF_MAC = bytes.fromhex("010203040506"), bytes.fromhex("0a0b0c0d0e0f")

    def two(self, mtu=1500, units=63, timestamp=1000000, peers=()):
        above = Entry(isd_as=B, mtu=mtu, egress=5, units=units, mac=self.MAC, peers=list(peers))
        return Segment(timestamp, 0x1234, [above, Entry(isd_as=A, mtu=9000, ingress=7, units=units, mac=self.LEAF_MAC)])

    def listed(self, source, destination, *segments):
        return model.printed(asked(source, destination, layout.write(segments)))

    def test_worked(self):
        self.assertEqual(model.printed(WORKED_INPUT), WORKED_LIST)
        turned = model.printed(asked(B, A, WORKED_INPUT[ENDS.size:]))
        self.assertIn("info 1 1234 1000000\n", turned)

    def test_peers(self):
        back = Peer(isd_as=B, interface=9, mtu=1500, units=63, ingress=2, mac=self.MAC)
        one = Segment(entries=[Entry(isd_as=C, mtu=1500, units=63, mac=self.LEAF_MAC, peers=[back])])
        link = Peer(isd_as=C, interface=2, mtu=1500, units=63, ingress=9, egress=5, mac=bytes.fromhex("f0f0f0f0f0f0"))
        answer = self.listed(C, A, self.two(peers=[link]), one)
        self.assertIn("info 2 0a0b 0\ninfo 3 1336 1000000\n", answer)

    def test_life(self):
        for units, life in ((0, 337), (1, 675), (255, 86400)):
            self.assertIn(f" expiry {life} ", self.listed(A, B, self.two(units=units, timestamp=0)))
        self.assertIn(" expiry 4294967295 ", self.listed(A, B, self.two(timestamp=2**32 - 1)))

    def test_mtu(self):
        self.assertIn(" mtu 4464 ", self.listed(A, B, self.two(mtu=70000)))

    def test_loop_and_bare(self):
        def pair(top, low, ingress, egress):
            return Segment(entries=[Entry(isd_as=top, mtu=1500, ingress=ingress, egress=egress), Entry(isd_as=low, mtu=1500, ingress=1)])
        self.assertEqual(self.listed(A, C, pair(B, A, 0, 1), pair(B, C, 3, 2)), "solutions 1 paths 0\n1 cost 2 segments 2 loop\n")
        self.assertIn("paths 1\n", self.listed(A, C, pair(B, A, 0, 1), pair(B, C, 0, 2)))
        bare = Segment(entries=[Entry(isd_as=x, mtu=1500) for x in (B, A)])
        self.assertEqual(self.listed(A, B, bare), "solutions 1 paths 0\n1 cost 1 segments 1 bare\n")

    def test_short_input(self):
        self.assertEqual(model.printed(bytes(ENDS.size - 1)), "refused 1\n")
        self.assertEqual(model.printed(bytes(ENDS.size)), "refused 1\n")
        self.assertEqual(model.printed(bytes(ENDS.size + COUNTS.size)), "solutions 0 paths 0\n")


class Examples(unittest.TestCase):
    def test_up_to_date(self):
        for name, (source, destination) in EXAMPLES.items():
            with self.subTest(example=name):
                words, data, listed = (ROOT / "examples" / f"{name}.{kind}" for kind in ("txt", "book", "list"))
                self.assertEqual(book("encode", words), (0, data.read_bytes(), ""))
                plain = [line for line in words.read_text().splitlines() if line and not line.startswith("#")]
                self.assertEqual(text.written(refusal.read(data.read_bytes())).splitlines(), plain)
                self.assertEqual(book("list", "--plain", "--program", MODEL, source, destination, data), (0, listed.read_bytes(), ""))
                self.assertIn(f"| `{name}` | {source} | {destination} |", (ROOT / "examples" / "README.md").read_text())

    def test_worked(self):
        self.assertEqual((ROOT / "examples" / "worked.book").read_bytes(), WORKED_INPUT[ENDS.size:])
        self.assertEqual((ROOT / "examples" / "worked.list").read_text(), WORKED_LIST)

    def test_twice(self):
        """The book that is refused: what check says of its bytes, and which line of its text is wrong."""
        words, data, checked = (ROOT / "examples" / f"twice.{kind}" for kind in ("txt", "book", "check"))
        self.assertEqual(layout.write(text.parse(words.read_bytes(), repeats=True)), data.read_bytes())
        self.assertEqual(book("check", "--names", ROOT / "examples" / "house.names", data), (1, checked.read_bytes(), ""))
        again = [number for number, line in enumerate(words.read_text().splitlines(), 1) if "entry 1-ff00:0:121 " in line]
        self.assertEqual(book("encode", words), (1, b"", f"book: {words}:{again[1]}: the AS of entry 3 stands earlier in segment 2, at entry 1: 1-ff00:0:121 "
                                                         "(refusal 11, Twice)\n"))
        self.assertIn(checked.read_text(), Manual.PAGE)

    def test_picture(self):
        words = html.unescape((ROOT / "examples" / "house.svg").read_text()).replace("\xa0", " ")
        for s in printed.parse((ROOT / "examples" / "house.list").read_text()):
            for expected in (s.mtu, s.expiry, " ".join(dot.route(s))):
                self.assertIn(f">{expected}<", words)

    @unittest.skipUnless(os.access(LIST, os.X_OK), "the program list is not built")
    def test_program(self):
        for name, (source, destination) in EXAMPLES.items():
            data = ROOT / "examples" / f"{name}.book"
            self.assertEqual(book("list", "--plain", "--program", LIST, source, destination, data), (0, (ROOT / "examples" / f"{name}.list").read_bytes(), ""))
        for source, destination, data in generate.cases("program", 200):
            given = asked(source, destination, data)
            self.assertEqual(printed.run(str(LIST), source, destination, data), model.printed(given))

    @unittest.skipUnless(os.access(LIST, os.X_OK), "the program list is not built")
    def test_exit_status_of_the_program(self):
        """As man/list.1 has it."""
        done = subprocess.run([LIST], input=b"", capture_output=True, check=False)
        self.assertEqual((done.returncode, done.stdout), (0, b"refused 1\n"))
        with open("/dev/full", "wb") as full:
            self.assertEqual(subprocess.run([LIST], input=WORKED_INPUT, stdout=full, check=False).returncode, 0)


class Version(unittest.TestCase):
    def test_is_that_of_the_makefile(self):
        [number] = re.findall(r"^VERSION = (\S+)$", (ROOT / "Makefile").read_text(), re.MULTILINE)
        self.assertEqual(book("--version"), (0, f"book {number}\n".encode(), ""))


class Manual(unittest.TestCase):
    PAGE = (ROOT / "man" / "book.1").read_text().replace("\\-", "-")

    def test_commands_and_options(self):
        commands = next(a for a in tool.parser()._actions if a.dest == "command").choices
        before, after = self.PAGE.split(".SH DESCRIPTION")
        synopsis = re.split(r"^\.B book ", before, flags=re.MULTILINE)[1:]
        self.assertEqual([part.split()[0] for part in synopsis], [*commands, "--version"])
        for (name, command), part in zip(commands.items(), synopsis):
            taken = {option for a in command._actions for option in a.option_strings} - {"-h", "--help"}
            self.assertEqual(set(re.findall(r"(?<!\S)--?[a-z]+", part)), taken, name)
            for option in taken:
                self.assertTrue(re.search(rf"^\.BI? {option}\b", after.split(".SH TEXT")[0], re.MULTILINE), f"{name} {option}")

    def test_numbers(self):
        for words in (f"Where more than {PAGE} ASes are drawn", f"Without it, the first {MOST}.", f"at most {len(COLOURS)}.", times.written(2**32 - 1)):
            self.assertIn(words, self.PAGE)
        for number in (*range(layout.CUT, layout.FULL + 1), layout.TWICE):
            self.assertIn(f"\n{number} {layout.WORDS[number]}\n", (ROOT / "man" / "list.1").read_text(), number)
        self.assertIn(".SH EXIT STATUS\nAlways 0,", (ROOT / "man" / "list.1").read_text())
        exits = self.PAGE[self.PAGE.index(".SH EXIT STATUS"):self.PAGE.index(".SH ENVIRONMENT")]
        self.assertEqual(re.findall(r"\.B (\d+)\n", exits), ["0", str(BookError.status), str(Trouble.status), str(tool.INTERRUPTED)])

    def test_json(self):
        """The shapes of the page are those that are written."""
        segments, accepted, refused = (json.loads(x) for x in re.findall(r"\.RS\n({.*?})\n\.RE", self.PAGE, re.DOTALL))
        data = layout.write(as_json.parse(json.dumps(segments).encode()))
        self.assertEqual(json.loads(book("decode", "--json", given=data)[1]), segments)
        found = json.loads(book("check", "--json", "--now", "2026-01-01T12:00:01", ROOT / "examples" / "house.book")[1])
        self.assertEqual({**found, "notes": [n for n in found["notes"] if n["position"] == 0]}, accepted)
        self.assertEqual(json.loads(book("check", "--json", ROOT / "examples" / "twice.book")[1]), refused)

    def test_wire(self):
        """The example of the page is the worked one."""
        self.assertIn("".join(line[2:] + "\n" for line in WORKED_WIRE.splitlines()), self.PAGE)

    def test_notes(self):
        section = self.PAGE[self.PAGE.index(".SH NOTES"):self.PAGE.index(".SH EXIT STATUS")]
        kinds = {kind for line in re.findall(r"\.TP\n\.BR? (.*)", section) for kind in line.replace('", "', "").split()}
        self.assertEqual(kinds, set(re.findall(r'Note\("([a-z-]+)"', (ROOT / "tools" / "booktext" / "notes.py").read_text())))


if __name__ == "__main__":
    ended = unittest.main(exit=False).result
    for case, reason in ended.skipped:
        print(f"skipped: {case.id().partition('.')[2]}: {reason}")
    sys.exit(not ended.wasSuccessful())
