#!/usr/bin/env python3
"""Compares the oracle's batch text with the driver's (README.md).

    compare.py ORACLE.out DRIVER.out [--show K] [--refused] [--wire]

The Rust leaves ties open (equal cost, edge count and, edge by edge, peer, shortcut and fingerprint):
each run of ties is compared as a multiset, and the driver's must go by position. Everything else is
compared in order, every field. `panic` of the Rust stands for `bare`, `undecodable` for a refusal 1
to 7 or 11, whose number is compared where the oracle printed it (--numbers). `full` must stand where there
are more solutions than slots, and only there. Books whose segments pass an AS twice are not given to the
Rust: they are counted as `twice`, the books that it answers as `once`.

With --refused the oracle was given such books too (--repeats): each must have solutions there, and be refused by the driver.

Of every path the bytes that the driver writes must be those of the Rust's encoder; they are counted as `written`.

With --wire both were given paths on the wire. The driver must read those that the Rust's view takes whole and its encoder gives back, if both
current indexes are 0, no segment has more hops than a book's has entries, and no flag is set but those two of infos; infos and hops must be
the same.
It must refuse all others, which are counted by PARTS.

Routes: the driver's must be those that the rule gives over the Rust's solutions, told apart by their
lists of interfaces. Where the oracle printed what `combine` answers (--combine), that must be what the
rule gives by the Rust's own key, a path's fingerprint; where the two keys split the paths alike, the
routes and their paths must be the same. The other cases are counted by the way in which the keys part:
`finer`, where paths with one list of interfaces have several fingerprints, and `coarser`, where paths
with one fingerprint have several lists. Where ties are open, so are the order of routes that first
appear in one run and which of several copies of one run is kept.

Exit status 1 if any case differs.
"""
import argparse
import sys
from collections import Counter
from itertools import groupby

from batch import Edge, driver_blocks, edge, layout, oracle_blocks, tie_key, views

# Why the reader refuses bytes of the wire, the first that holds. Of the first three the Rust takes none as a path that it could encode: fewer bytes
# than the lengths say, more, and no path of its own: no hops, or a current index past them. Of `reserved` its encoder gives other bytes.
# The last four it takes and gives back.
PARTS = "short", "surplus", "unencoded", "reserved", "current", "long", "flags", "alerts"


def path_words(s):
    """The driver's words for a path of the oracle."""
    w = [s["mtu"], s["expiry"]]
    for part in ("infos", "hops", "ifs"):
        for x in s[part]:
            w += x
    return w + ["wire", s["wire"]]


def line(s):
    """The driver's line for a solution of the oracle."""
    w = [s["cost"], s["n"]]
    for e in s["edges"]:
        w += e._replace(peer="-" if e.peer is None else e.peer)
    if s["verdict"] == "path":
        w += path_words(s)
    else:
        w.append({"panic": "bare"}.get(s["verdict"], s["verdict"]))
    return " ".join(map(str, w))


def without_wire(l):
    return l.partition(" wire ")[0]


def driver_key(l):
    return tie_key(int(l.split()[0]), driver_edges(l))


def driver_edges(l):
    """The edges of a line of the driver, which follow cost and count."""
    _, count, *w = l.split()
    n = len(Edge._fields)
    return [edge(w[n * i:n * (i + 1)]) for i in range(int(count))]


def positions(l):
    return [e.position for e in driver_edges(l)]


def runs(lines, keys):
    out, at = [], 0
    for k, g in groupby(keys):
        n = len(list(g))
        out.append((k, lines[at:at + n]))
        at += n
    return out


def interfaces(s):
    """By what routes are told apart here."""
    return tuple(s["ifs"])


def fingerprint(s):
    """By what `combine` tells them apart."""
    return s["key"]


def classes(a, key):
    """The routes of the oracle's solutions by a key: of each the run of ties in which it first appears, and the paths of which one must be
    held, those of the greatest expiry in the first run that has one."""
    ks = [tie_key(s["cost"], s["edges"]) for s in a]
    found = {}
    for number, (_, run) in enumerate(runs(a, ks)):
        for s in run:
            if s["verdict"] == "path":
                found.setdefault(key(s), []).append((number, s))
    routes = {}
    for k, members in found.items():
        most = max(s["expiry"] for _, s in members)
        held = min(number for number, s in members if s["expiry"] == most)
        routes[k] = members[0][0], [path_words(s) for number, s in members if s["expiry"] == most and number == held]
    return routes


def not_routes(routes, paths, key):
    """Why the paths, in order, are not the routes; None where they are."""
    keys = [key(s) for s in paths]
    if len(set(keys)) != len(keys):
        return "a route twice"
    if set(keys) != set(routes):
        return "other routes"
    firsts = [routes[k][0] for k in keys]
    if firsts != sorted(firsts):
        return "routes in another order"
    if any(path_words(s) not in routes[k][1] for k, s in zip(keys, paths)):
        return "another copy of a route"
    return None


def held_by_position(solutions):
    """The rule itself, over solutions in order: a key that is there keeps its place. The index of what is held for each route."""
    held = {}
    for i, s in enumerate(solutions):
        if s["verdict"] == "path" and (interfaces(s) not in held or s["expiry"] > solutions[held[interfaces(s)]]["expiry"]):
            held[interfaces(s)] = i
    return list(held.values())


def by_position(a, lines):
    """The oracle's solutions in the order of the driver's lines, which are the same but for the order of ties."""
    at = {line(s): s for s in a}
    return [at[l] for l in lines]


def routes_differ(a, b, said, count):
    """Why the routes that the driver says are not the Rust's; None where they are. b are the driver's lines of solutions."""
    if said[:1] == ["refused"]:
        return "routes refused"
    numbers = [int(w) - 1 for w in said]
    count["routes"] += len(numbers)
    solutions = by_position(a, b)
    here = classes(a, interfaces)
    paths = [solutions[i] for i in numbers]
    why = not_routes(here, paths, interfaces)
    if why:
        return why
    if numbers != held_by_position(solutions):
        return "routes not by position"
    if a.combined is None:
        return None
    panics = a.combined == "panic"
    if panics != any(s["verdict"] == "panic" for s in a):
        return "combine panics, or not"
    if panics:
        count["panic"] += 1
        return None
    there = classes(a, fingerprint)
    why = not_routes(there, a.combined, fingerprint)
    if why:
        return f"combine: {why}"
    both = len({(interfaces(s), fingerprint(s)) for s in a if s["verdict"] == "path"})
    if both == len(here) == len(there):
        count["alike"] += 1
        why = not_routes(here, a.combined, interfaces)
        return why and f"combine and routes: {why}"
    count["finer"] += both > len(here)
    count["coarser"] += both > len(there)
    return None


def differs(a, b, count):
    """Why the driver's lines b are not those of the oracle's solutions a; None where they are."""
    said = b[-1].split()[1:] if b and b[-1].startswith("routes") else None
    if said is None:
        return "no routes"
    b = b[:-1]
    if b and b[0].startswith("refused"):
        if ["refused", b[0].split()[1]] != said:
            return "another refusal of routes"
        if not isinstance(a, int):
            return "only the driver refuses"
        count["refused"] += 1
        count["twice"] += a == layout.TWICE
        return "another refusal" if a and b != [f"refused {a}"] else None
    if isinstance(a, int):
        return "only the oracle refuses"
    count["once"] += 1
    full = b[:1] == ["full"]
    if full:
        b = b[1:]
        count["full"] += 1
    if full != (len(a) > layout.MAX_SOLUTIONS) or full != (said == ["refused", str(layout.FULL)]):
        return "full, or not"
    la, ka, kb = [line(s) for s in a], [tie_key(s["cost"], s["edges"]) for s in a], [driver_key(l) for l in b]
    count["solutions"] += len(la)
    count["paths"] += sum(s["verdict"] == "path" for s in a)
    if Counter(la) != Counter(b):
        return "other bytes on the wire" if Counter(map(without_wire, la)) == Counter(map(without_wire, b)) else "other solutions"
    count["written"] += sum(" wire " in l for l in b)
    if kb != sorted(kb):
        return "out of order"
    rb = runs(b, kb)
    for _, ls in rb:
        ps = [positions(l) for l in ls]
        if ps != sorted(ps) or len(set(map(tuple, ps))) != len(ps):
            return "ties not by position"
    if [(k, sorted(ls)) for k, ls in runs(la, ka)] != [(k, sorted(ls)) for k, ls in rb]:
        return "another order"
    return None if full else routes_differ(a, b, said, count)


def only_refused(a, b, count):
    """Why it is not so that the oracle has solutions and the driver refuses an AS that is passed twice; None where it is."""
    if isinstance(a, int) or not a:
        return "no solutions of the Rust"
    count["solutions"] += len(a)
    return None if b == [f"refused {layout.TWICE}", f"routes refused {layout.TWICE}"] else "not refused"


def parting(view):
    """Why the reader refuses what the Rust makes so of bytes of the wire; None where it takes them."""
    if view is None:
        return "short"
    holds = {"surplus": view.rest, "unencoded": view.encoded == "refused", "reserved": view.encoded == "other", "current": any(view.current),
             "long": max(view.lengths) > layout.MAX_ENTRIES, "flags": any(i[0] > layout.CONSTRUCTION + layout.PEERING for i in view.infos),
             "alerts": any(h[0] for h in view.hops)}
    return next((part for part in PARTS if holds.get(part)), None)


def compare_wires(oracle, driver, show):
    """The Rust's views against what the driver reads."""
    count, wrong = Counter(), 0
    with open(driver) as f:
        for i, (view, said) in enumerate(zip(views(oracle), f, strict=True)):
            part = parting(view)
            count["wires"] += 1
            count[part or "taken"] += 1
            if part:
                want = ["refused", layout.WIRE]
            else:
                want = ["path", *(x for info, hops in zip(view.infos, view.lengths) for x in (*info, hops)), *(x for h in view.hops for x in h[1:])]
            if said.split() != list(map(str, want)):
                wrong += 1
                if wrong <= show:
                    print(f"wire {i}: {part or 'taken'}\n  oracle: {' '.join(map(str, want))}\n  driver: {said.rstrip()}")
    print(" ".join(f"{k} {count[k]}" for k in ("wires", "taken", *PARTS)), "differing", wrong)
    return wrong


def main():
    p = argparse.ArgumentParser()
    p.add_argument("oracle")
    p.add_argument("driver")
    p.add_argument("--show", type=int, default=5)
    p.add_argument("--refused", action="store_true")
    p.add_argument("--wire", action="store_true")
    o = p.parse_args()
    if o.wire:
        sys.exit(1 if compare_wires(o.oracle, o.driver, o.show) else 0)
    count, wrong = Counter(), Counter()
    for i, (a, b) in enumerate(zip(oracle_blocks(o.oracle), driver_blocks(o.driver), strict=True)):
        count["cases"] += 1
        why = only_refused(a, b, count) if o.refused else differs(a, b, count)
        if why is None:
            continue
        wrong[why] += 1
        if sum(wrong.values()) <= o.show:
            print(f"case {i}: {why}")
            if not isinstance(a, int):
                x, y = Counter(map(line, a)), Counter(b)
                for l in (x - y):
                    print("  oracle:", l)
                for l in (y - x):
                    print("  driver:", l)
    counted = "cases", "once", "solutions", "paths", "written", "refused", "twice", "full", "routes", "alike", "finer", "coarser", "panic"
    print(" ".join(f"{k} {count[k]}" for k in counted), "differing", sum(wrong.values()), *(f"({k} {v})" for k, v in wrong.items()))
    sys.exit(1 if wrong else 0)


if __name__ == "__main__":
    main()
