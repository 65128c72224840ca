#!/usr/bin/env python3
"""Writes wire.bin: what combinator_write and combinator_read answer (README.md).

    wire.py OUT

First cases by hand, each with what is expected beside it: bytes laid out from the data draft's layout, and each of their fields changed. Then paths of
the Rust from answers.bin, of which one is kept where it shows something that no kept one shows. Every case is held to tests/model.py, and what is stored
of a path of the Rust is the model's.
"""
import os
import sys

import form
from booktext import layout
from booktext.layout import HOP, INFO, INTERFACE_SIZE, MAX_EDGES, MAX_ENTRIES, MAX_INTERFACES, PATH, PATH_HEAD, PATH_SIZE, SMALL, WIRE, WIRE_SIZE
from form import READING, WRITING

sys.path.insert(0, os.path.join(form.HERE, ".."))
import model  # noqa: E402

CASES = []


def case(call, want, given, room):
    """`want` is a refusal's number, or the bytes."""
    CASES.append((bytes(given), call, room, want if isinstance(want, int) else 0, b"" if isinstance(want, int) else bytes(want)))


def write(want, path, room=WIRE_SIZE):
    case(WRITING, want, path, room)


def read(want, wire, room=PATH_SIZE):
    case(READING, want, wire, room)


def changed(data, at, *values):
    out = bytearray(data)
    out[at:at + len(values)] = bytes(values)
    return bytes(out)


def bits(data, at):
    """The data with one bit of a byte changed, bit by bit."""
    return [changed(data, at, data[at] ^ 1 << bit) for bit in range(8)]


# ---- by hand: the path of the worked example, of one segment against construction. Its head, its info and hops, its interfaces.

HEAD = bytes.fromhex("01 02 02 00 0546 000f96a0 0001ff0000000111 0001ff0000000110")
FIELDS = bytes.fromhex("00 02 1336 000f4240" "3f 0007 0000 0a0b0c0d0e0f" "3f 0000 0005 010203040506")
SHOWN = bytes.fromhex("0001ff0000000111 0001ff0000000110 0007 0005")
ONE = HEAD + FIELDS + SHOWN
ONE_PLAIN = bytes.fromhex("01 02") + bytes(24) + FIELDS
# Lengths 2, 0, 0: 2 * 4096 = 2000 in hex.
ONE_WIRE = bytes.fromhex("00002000" "00 00 1336 000f4240" "00 3f 0007 0000 0a0b0c0d0e0f" "00 3f 0000 0005 010203040506")

# Three segments of 3, 1 and 2 hops: 3 * 4096 + 1 * 64 + 2 = 3042 in hex. No two fields of a kind are equal.
THREE_INFOS = ["00 {} 1111 000f4240", "01 {} 2222 000f4241", "02 {} 3333 000f4242"]
THREE_HOPS = ["10 0101 0201 a10000000001", "11 0102 0202 a20000000002", "12 0103 0203 a30000000003", "20 0104 0204 b10000000004",
              "30 0105 0205 c10000000005", "31 0106 0206 c20000000006"]
THREE_FIELDS = bytes.fromhex("".join(info.format(n) for info, n in zip(THREE_INFOS, ("03", "01", "02"))) + "".join(THREE_HOPS))
THREE_PLAIN = bytes.fromhex("03 06") + bytes(24) + THREE_FIELDS
THREE = bytes.fromhex("03 06 03 00 05dc 000f96a0 0001ff0000000111 0001ff0000000113") + THREE_FIELDS + bytes.fromhex(
    "0001ff0000000111 0001ff0000000112 0001ff0000000113 0001 0002 0003")
THREE_WIRE = bytes.fromhex("00003042" + "".join(info.format("00") for info in THREE_INFOS) + "".join("00" + hop for hop in THREE_HOPS))

for RECORD, PLAIN, BYTES in ((ONE, ONE_PLAIN, ONE_WIRE), (THREE, THREE_PLAIN, THREE_WIRE)):
    write(BYTES, RECORD)
    write(BYTES, PLAIN)
    read(PLAIN, BYTES)
    # Bytes after the path are ignored; those after the wire are not.
    for after in (b"\0", b"\1", bytes(range(40))):
        write(BYTES, RECORD + after)
        read(WIRE, BYTES + after)

# Too short an output, before anything else; the least; longer ones.
for room in (0, 1, len(ONE_WIRE), WIRE_SIZE - 1):
    write(SMALL, ONE, room)
    write(SMALL, ONE[:-1], room)
for room in (0, len(ONE_PLAIN), WIRE_SIZE, PATH_SIZE - 1):
    read(SMALL, ONE_WIRE, room)
    read(SMALL, ONE_WIRE[:-1], room)
for more in (1, 2, 100):
    write(ONE_WIRE, ONE, WIRE_SIZE + more)
    write(WIRE, ONE[:-1], WIRE_SIZE + more)
    read(ONE_PLAIN, ONE_WIRE, PATH_SIZE + more)
    read(WIRE, ONE_WIRE[:-1], PATH_SIZE + more)

# Cut at every length: the path within its head, its info, its hops and its interfaces.
for n in range(len(ONE)):
    write(WIRE, ONE[:n])
for n in range(len(ONE_WIRE)):
    read(WIRE, ONE_WIRE[:n])
for n in (25, 26, 27, 49, 50, 51, 115, 116, 117, 139, 140, 141, 145):
    write(WIRE, THREE[:n])
for n in (3, 4, 5, 27, 28, 29, 39, 40, 99):
    read(WIRE, THREE_WIRE[:n])
# A whole segment, info or hop less or more.
read(WIRE, THREE_WIRE[:-12])
read(WIRE, THREE_WIRE + THREE_WIRE[-12:])
read(WIRE, THREE_WIRE[:20] + THREE_WIRE[28:])
read(WIRE, THREE_WIRE[:28] + THREE_WIRE[20:])

# What stands at offsets 3 to 25 and in the interfaces makes no difference.
for at in (3, 4, 5, 6, 9, 10, 17, 18, 25, 56, 71, 72, 75):
    write(ONE_WIRE, changed(ONE, at, ONE[at] ^ 0xFF))
write(ONE_WIRE, changed(ONE, 3, *(b ^ 0xFF for b in ONE[3:26])))

# Counts of a path: infos, hops, interfaces. Of interfaces fewer need fewer bytes.
for at, counts in ((0, (0, 2, 3, 4, 255)), (1, (0, 1, 3, 4, 255)), (2, (3, 4, 128, 255))):
    for count in counts:
        write(WIRE, changed(ONE, at, count))
for at, counts in ((0, (0, 2, 4)), (1, (5, 7)), (2, (4,))):
    for count in counts:
        write(WIRE, changed(THREE, at, count))
for count in range(3):
    write(ONE_WIRE, changed(ONE, 2, count))
write(ONE_WIRE, changed(ONE, 2, 3) + bytes(INTERFACE_SIZE))
write(WIRE, changed(ONE, 2, 3) + bytes(INTERFACE_SIZE - 1))

# Flags of an info: construction is bit 0 and peering bit 1, in both.
for flags in range(4):
    write(changed(ONE_WIRE, 4, flags), changed(ONE, 26, flags))
    read(changed(ONE_PLAIN, 26, flags), changed(ONE_WIRE, 4, flags))
for flags in (4, 5, 7, 8, 16, 32, 64, 128, 129, 255):
    write(WIRE, changed(ONE, 26, flags))
    read(WIRE, changed(ONE_WIRE, 4, flags))
# Its reserved byte; the flags of a hop: the alerts and the reserved bits.
for at in (5, 12, 24):
    for wire in bits(ONE_WIRE, at):
        read(WIRE, wire)
for k in (1, 2):
    for flags in (4, 128):
        write(WIRE, changed(THREE, 26 + 8 * k, flags))
        read(WIRE, changed(THREE_WIRE, 4 + 8 * k, flags))
        read(WIRE, changed(THREE_WIRE, 5 + 8 * k, flags))
for k in range(6):
    read(WIRE, changed(THREE_WIRE, 28 + 12 * k, 1))

# Every bit of the meta header: the current indexes, the reserved bits, and the lengths, which then ask for another number of bytes.
for BYTES in (ONE_WIRE, THREE_WIRE):
    for at in range(4):
        for wire in bits(BYTES, at):
            read(WIRE, wire)
# The current hop is the last one, the current info too.
read(WIRE, changed(THREE_WIRE, 0, 0x05))
read(WIRE, changed(THREE_WIRE, 0, 0x85))

# Every other byte of the wire, and where it stands in the path. The info's: id, timestamp; a hop's: units, ingress, egress, MAC.
PLACES = [(4 + i, 26 + i) for i in range(2, 8)] + [(12 + 12 * k + i, 34 + 11 * k + i - 1) for k in range(2) for i in range(1, 12)]
for at, place in PLACES:
    write(changed(ONE_WIRE, at, 0xE7), changed(ONE, place, 0xE7))
    read(changed(ONE_PLAIN, place, 0xE7), changed(ONE_WIRE, at, 0xE7))


# ---- by hand: counts and lengths, with all the bytes that they ask for

def meta(a, b=0, c=0):
    return (a * 4096 + b * 64 + c).to_bytes(4, "big")


def zero_path(*counts, hops=None, interfaces=0):
    hops = sum(counts) if hops is None else hops
    infos = b"".join(bytes([0, n]) + bytes(6) for n in counts)
    return bytes([len(counts), hops, interfaces]) + bytes(23) + infos + bytes(11 * hops + 10 * interfaces)


def zero_wire(*lengths, infos=None):
    infos = sum(n > 0 for n in lengths) if infos is None else infos
    return meta(*lengths) + bytes(8 * infos + 12 * sum(lengths))


E = MAX_ENTRIES
for counts in ((1,), (E,), (1, 1), (1, E), (2, 1), (1, 1, 1), (1, 2, 1), (2, 1, 1), (1, 1, E)):
    write(zero_wire(*counts), zero_path(*counts))
    read(zero_path(*counts), zero_wire(*counts))

# No info, four and more; no hop of an info, too many; 65 is 1 by its low six bits.
for counts in ((), (1, 1, 1, 1), (1, 1, 1, 1, 1), (0,), (E + 1,), (32,), (65,), (0, 1), (1, 0), (E + 1, 1), (1, E + 1), (0, 1, 1), (1, 0, 1), (1, 1, 0),
               (1, 0, 0), (1, 1, E + 1)):
    write(WIRE, zero_path(*counts))
# Sums that are not the path's, with the bytes for either.
for counts, hops in (((1,), 0), ((1,), 2), ((E,), E + 1), ((1, 1), 1), ((1, 1), 3), ((1, 1, 1), 2), ((1, 1, 1), 4)):
    write(WIRE, zero_path(*counts, hops=hops))
    write(WIRE, zero_path(*counts, hops=hops) + bytes(11))
# The order of the lengths is that of the infos.
write(meta(1, 3, 2) + THREE_WIRE[4:], changed(changed(changed(THREE, 27, 1), 35, 3), 43, 2))
read(changed(changed(changed(THREE_PLAIN, 27, 2), 35, 1), 43, 3), meta(2, 1, 3) + THREE_WIRE[4:])

# A length of 0 before one that is used, with the bytes of as many infos as are used, of one for it too, and of others.
for lengths in ((0, 0, 0), (0, 1, 0), (0, 0, 1), (0, 1, 1), (1, 0, 1), (2, 0, 1), (1, 0, 2)):
    for infos in range(MAX_EDGES + 1):
        read(WIRE, zero_wire(*lengths, infos=infos))
# Lengths above the most entries.
for lengths in ((E + 1,), (32,), (1, E + 1), (1, 1, E + 1)):
    read(WIRE, zero_wire(*lengths))
# Infos that are not those of the lengths.
for lengths, infos in (((1,), 0), ((1,), 2), ((1, 1), 1), ((1, 1), 3), ((1, 1, 1), 2), ((1, 1, 1), 4)):
    read(WIRE, zero_wire(*lengths, infos=infos))
# 12 bytes are a hop, or an info and a half: one more of the one and fewer of the other.
read(WIRE, meta(1) + bytes(8 + 24))
read(WIRE, meta(3) + bytes(24 + 12))

# The longest path, every byte of its hops and interfaces another.
HOPS = [bytes([k]) + (0x100 + k).to_bytes(2, "big") + (0x200 + k).to_bytes(2, "big") + bytes([k ^ 0xFF, k, 1, 2, 3, 4]) for k in range(MAX_EDGES * E)]
INFOS = [(1, 0x0A01), (0, 0x0A02), (3, 0x0A03)]
MOST_FIELDS = b"".join(bytes([flags, E]) + ident.to_bytes(2, "big") + bytes([0, 0, 0, flags]) for flags, ident in INFOS) + b"".join(HOPS)
MOST = bytes([MAX_EDGES, MAX_EDGES * E, MAX_INTERFACES]) + bytes(range(3, 26)) + MOST_FIELDS + bytes(k % 251 for k in range(INTERFACE_SIZE * MAX_INTERFACES))
MOST_WIRE = meta(E, E, E) + b"".join(bytes([flags, 0]) + ident.to_bytes(2, "big") + bytes([0, 0, 0, flags]) for flags, ident in INFOS)
MOST_WIRE += b"".join(b"\0" + hop for hop in HOPS)
write(MOST_WIRE, MOST)
read(bytes([MAX_EDGES, MAX_EDGES * E]) + bytes(24) + MOST_FIELDS, MOST_WIRE)


# ---- the paths of the Rust

def rust_paths():
    """The bytes of every path in answers.bin."""
    r = form.Reader("answers.bin")
    while r.at < len(r.data):
        r.take(int.from_bytes(r.take(form.FRONT), "big"))
        count = r.next(form.COUNT).solutions
        r.take(layout.RECORD_SIZE * count)
        for _ in range(count):
            outcome = r.next(form.OUTCOME)
            path = r.take(outcome.length)
            if outcome.answer == PATH:
                yield path


def shows(path):
    """What a path has that is worth keeping."""
    head = PATH_HEAD.unpack(path)
    infos = [INFO.unpack(path, PATH_HEAD.size + INFO.size * k) for k in range(head.info_count)]
    hops = [HOP.unpack(path, PATH_HEAD.size + INFO.size * head.info_count + HOP.size * k) for k in range(head.hop_count)]
    found = {("flags", *(i.flags for i in infos)), ("hops", *(min(i.hop_count, 3) for i in infos))}
    found.update(("last", i.timestamp == INFO.of.timestamp.most) for i in infos)
    found.update(("hop", h.ingress == 0, h.egress == 0) for h in hops)
    return found


def answer(given, call, room):
    """Number and bytes by the model."""
    number, out = (model.read if call == READING else model.write)(given, room)
    assert len(out) == room and (number < layout.REFUSED or not any(out))
    return (number - layout.REFUSED, b"") if number >= layout.REFUSED else (0, out[:number])


def main():
    kept = []
    for given, call, room, number, found in CASES:
        assert answer(given, call, room) == (number, found), (call, given.hex(), room, answer(given, call, room), number, found.hex())
        kept.append(form.carried(given, call, room, number, found))
    by_hand, seen, paths = len(kept), set(), 0
    for path in sorted(set(rust_paths()), key=lambda p: (len(p), p)):
        if shows(path) <= seen:
            continue
        seen |= shows(path)
        paths += 1
        for given, call, room in ((path, WRITING, WIRE_SIZE), (model.written(path), READING, PATH_SIZE)):
            kept.append(form.carried(given, call, room, *answer(given, call, room)))
    with open(sys.argv[1], "wb") as f:
        f.write(b"".join(kept))
    print(f"{by_hand} cases by hand, {paths} paths of the Rust written and read, {sum(map(len, kept))} bytes, {len(seen)} things shown")


if __name__ == "__main__":
    main()
