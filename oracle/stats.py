#!/usr/bin/env python3
"""Statistics of an oracle run, and the router's walk (docs/SPECIFICATION.md 7) over the Rust's own paths.

    stats.py CASES.batch ORACLE.out [INDEX]

Exit status 1 if a list is out of order (docs/SPECIFICATION.md 5) or a router walk fails.
"""
import sys
from collections import Counter, defaultdict

from batch import book, cases, layout, oracle_blocks, tie_key
from booktext.layout import CONSTRUCTION, ENDS, PEERING


def fold(sid, macs):
    for m in macs:
        sid ^= int.from_bytes(m[:2], "big")
    return sid


def hop_of(x):
    return x.units, x.ingress, x.egress, x.mac.hex()


def router_ok(segs, s):
    """Ids held, infos, hops against the segments."""
    at = 0
    if len(s["infos"]) != s["n"]:
        return False
    for edge, (flags, sid, ts, count) in zip(s["edges"], s["infos"]):
        seg, sc, d = segs[edge.position], edge.shortcut, edge.direction
        n = len(seg.entries)
        if flags != (CONSTRUCTION if d else 0) + (0 if edge.peer is None else PEERING) or count != n - sc or ts != seg.timestamp:
            return False
        held = int(sid, 16)
        for j in range(count):
            m = sc + j if d else n - 1 - j
            is_peer = bool(flags & PEERING) and j == (0 if d else count - 1)
            mac = bytes.fromhex(s["hops"][at][3])
            if not d and not is_peer and j > 0:
                held = fold(held, [mac])
            e = seg.entries[m]
            if s["hops"][at] != hop_of(e.peers[edge.peer] if is_peer else e):
                return False
            if held != fold(seg.id, [x.mac for x in seg.entries[:m + 1 if is_peer else m]]):
                return False
            if d and not is_peer:
                held = fold(held, [mac])
            at += 1
    return at == len(s["hops"])


def main():
    blob = open(sys.argv[1], "rb").read()
    names = open(sys.argv[3]).read().split() if len(sys.argv) > 3 else None
    tot, kinds, verdicts, by_kind = Counter(), Counter(), Counter(), defaultdict(Counter)
    feats, per = Counter(), defaultdict(Counter)
    most, longest, tied, runs, wrong = 0, 0, 0, 0, 0
    for i, (case, sols) in enumerate(zip(cases(blob), oracle_blocks(sys.argv[2]))):
        tot["cases"] += 1
        name = names[i] if names else "all"
        per[name]["cases"] += 1
        if isinstance(sols, int):
            tot["undecodable"] += 1
            per[name]["undecodable"] += 1
            # Told apart where the oracle printed numbers.
            tot["an AS twice in a segment"] += sols == layout.TWICE
            per[name]["an AS twice in a segment"] += sols == layout.TWICE
            continue
        source, destination = ENDS.unpack(case)
        b = case[ENDS.size:]
        c, segs = book(b)
        feats["largest book"] = max(feats["largest book"], len(b))
        feats["most segments"] = max(feats["most segments"], len(segs))
        # Features of books.
        feats["books with an empty segment"] += any(not s.entries for s in segs)
        feats["books with a one-entry segment"] += any(len(s.entries) == 1 for s in segs)
        feats["books with equal segments"] += len(set(map(repr, segs))) < len(segs)
        feats["books with peers in a core segment"] += any(e.peers for s in segs if s.core for e in s.entries)
        over = False
        for s in segs:
            if s.core:
                continue
            pe = [(e.isd_as, q.ingress, q.isd_as, q.interface) for e in s.entries for q in e.peers]
            over |= len(set(pe)) < len(pe)
        feats["books where a peer's edge overwrites another"] += over
        tot["accepted"] += 1
        if source == destination:
            tot["source = destination"] += 1
        tot["with solutions"] += bool(sols)
        tot["solutions"] += len(sols)
        per[name]["solutions"] += len(sols)
        most = max(most, len(sols))
        keys = [tie_key(s["cost"], s["edges"]) for s in sols]
        if keys != sorted(keys):
            wrong += 1
            print("not in order: case", i)
        for k, v in Counter(keys).items():
            if v > 1:
                tied += v
                runs += 1
        for s in sols:
            k = "".join("C" if e.position < c else "N" for e in s["edges"])
            if any(e.peer is not None for e in s["edges"]):
                k += "+peers"
            kinds[k] += 1
            verdicts[s["verdict"]] += 1
            by_kind[k][s["verdict"]] += 1
            per[name][s["verdict"]] += 1
            if s["verdict"] == "path":
                longest = max(longest, len(s["hops"]))
                feats["most interfaces"] = max(feats["most interfaces"], len(s["ifs"]))
                feats["paths with MTU 0"] += s["mtu"] == 0
                feats["paths with the last expiry"] += s["expiry"] == layout.PATH_HEAD.of.expiry.most
                if not router_ok(segs, s):
                    wrong += 1
                    print("the router walk fails: case", i, s)
                else:
                    tot["router walks good"] += 1
    print(dict(tot))
    print("most solutions", most, "longest path (hops)", longest, "ties", tied, "in runs", runs)
    print("verdicts", dict(verdicts))
    for k in sorted(by_kind):
        print(f"  {k:9} {kinds[k]:8} {dict(by_kind[k])}")
    for k, v in feats.items():
        print(f"  {k}: {v}")
    if names:
        for k, v in per.items():
            print(f"  profile {k}: {dict(v)}")
    sys.exit(1 if wrong else 0)


if __name__ == "__main__":
    main()
