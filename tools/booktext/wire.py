"""A path on the wire, docs/SPECIFICATION.md 15: its bytes worked out of the path, and bytes with their fields named."""
from . import counted, times
from .layout import MAX_EDGES, WIRE_HOP, WIRE_INFO, WIRE_META
from .printed import DIRECTIONS


def worked_out(path):
    """The bytes of a combinator.Path, to hold those of the library to."""
    meta = WIRE_META.pack(**{f"hops_{k}": i.hops for k, i in enumerate(path.infos)})
    infos = [WIRE_INFO.pack(flags=i.flags, id=i.id, timestamp=i.timestamp) for i in path.infos]
    return meta + b"".join(infos + [WIRE_HOP.pack(**h._asdict()) for h in path.hops])


# ---- in words

def hex_of(record, data, at):
    """The fields of a record in hex, with a space between them."""
    return " ".join(data[at + place:at + place + f.size].hex() for f, place in zip(record.fields, record.at))


def parts(data):
    """The parts of bytes as they are worked out, in turn: each in hex, and in words. Infos and hops count from 0, as the current ones do."""
    meta, at = WIRE_META.unpack(data), WIRE_META.size
    counts = meta[-MAX_EDGES:]
    yield data[:at].hex(), (f"meta: current info {meta.current_info}, current hop {meta.current_hop}, reserved {meta.reserved}, "
                            f"hops {' '.join(map(str, counts))}")
    for k in range(sum(count > 0 for count in counts)):
        info = WIRE_INFO.unpack(data, at)
        yield hex_of(WIRE_INFO, data, at), (f"info {k}: flags {info.flags} ({DIRECTIONS[info.flags]}), reserved {info.reserved}, segment id {info.id:04x}, "
                                            f"timestamp {info.timestamp} ({times.written(info.timestamp)})")
        at += WIRE_INFO.size
    infos = [k for k, count in enumerate(counts) for _ in range(count)]
    for k, info in enumerate(infos):
        hop = WIRE_HOP.unpack(data, at)
        yield hex_of(WIRE_HOP, data, at), (f"hop {k}, of info {info}: flags {hop.flags}, units {hop.units}, ingress {hop.ingress}, egress {hop.egress}, "
                                           f"MAC {hop.mac.hex()}")
        at += WIRE_HOP.size


# A hop is the widest part: its fields in hex, and the spaces between them.
WIDTH = 2 * WIRE_HOP.size + len(WIRE_HOP.fields) - 1


def told(solution):
    """The lines of a solution's bytes: all of them in one, then one for each part. Of bytes that are not as worked out here no part is named."""
    if solution.wire is None:
        return ""
    lines = [f"  wire, {counted(len(solution.wire), 'byte')}:", f"    {solution.wire.hex()}"]
    if solution.wire == worked_out(solution.path):
        lines += [f"    {part:<{WIDTH}}  {words}" for part, words in parts(solution.wire)]
    return "".join(line + "\n" for line in lines)


def line(solution):
    """The bytes in a line of the printed list."""
    return "" if solution.wire is None else f"wire {solution.wire.hex()}\n"
