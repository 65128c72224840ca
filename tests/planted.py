#!/usr/bin/env python3
"""Wrong definitions made by rule, in the form of planted.edits, on standard output: for `plant FILE`.

Every rule of a hop at every place of the hop, in both directions, on every kind of edge; every part of an info so; every part of a path on
every edge of a chain; every key of the order on every edge of a chain, and of a record; what is worked out for every pair of edges, and what
follows it; every number of a stored edge, by its entry and peer. Left out are places that no chain has. On the wire every byte of an info and of
a hop, by its number there, read or written as 0; every bit that must be 0.
"""
PLACES = {
    "the leaf": "eqb (i + 1) (length seg.entries) && not (at_shortcut e i)",
    "the leaf that is the shortcut": "eqb (i + 1) (length seg.entries) && at_shortcut e i",
    "a middle hop": "not (at_shortcut e i) && ltb (i + 1) (length seg.entries)",
    "the shortcut": "at_shortcut e i && ltb (i + 1) (length seg.entries)",
}
DIRECTIONS = {"in construction direction": "e.construction", "against construction": "not e.construction"}
KINDS = {
    "of a core": "e.core",
    "of a whole segment": "not e.core && eqb e.peer 0 && eqb e.shortcut 0",
    "at a shortcut of 1": "eqb e.peer 0 && eqb e.shortcut 1",
    "at a shortcut above 1": "eqb e.peer 0 && ltb 1 e.shortcut",
    "of a peer edge at 0": "eqb e.peer 1 && eqb e.shortcut 0",
    "of a peer edge above 0": "eqb e.peer 1 && ltb 0 e.shortcut",
    "of a second peer at 0": "ltb 1 e.peer && eqb e.shortcut 0",
    "of a second peer above 0": "ltb 1 e.peer && ltb 0 e.shortcut",
}
EGRESS = "interface_if (not (eqb hop.egress 0)) (as_of seg i) hop.egress"
INGRESS = "interface_if (not (eqb hop.ingress 0) && (not (at_shortcut e i) || eqb e.shortcut 0 || is_peer_hop e i)) (as_of seg i) hop.ingress"
AS_MTU = "      ++ ((entry_of seg i).own.mtu % 2 ^ 16 ∷ [])"
PEER_MTU = "(if is_peer_hop e i then (peer_of seg i (e.peer - 1)).mtu ∷ []"
UNITS = "life (least 255 (map units_of hops_of))"
HOP = "  hop_of i = if is_peer_hop e i then"
REGULAR, AT_PEER, AT_SHORTCUT = "regular", "at a peer hop", "at a shortcut"
# What is wrong: where it can be, the text, and what stands in its place, with HERE for the condition.
RULES = {
    "no AS MTU": (None, AS_MTU, "      ++ (if HERE then [] else (entry_of seg i).own.mtu % 2 ^ 16 ∷ [])"),
    "an AS MTU of more than 16 bits":
        (None, AS_MTU, "      ++ ((if HERE then (entry_of seg i).own.mtu else (entry_of seg i).own.mtu % 2 ^ 16) ∷ [])"),
    "no ingress MTU": (REGULAR, "      else if eqb ingress_mtu 0 || (at_shortcut", "      else if eqb ingress_mtu 0 || (HERE) || (at_shortcut"),
    "an ingress MTU that should not count": (AT_SHORTCUT, "else if eqb ingress_mtu 0 || (at_shortcut e i && ltb 0 e.shortcut) then []",
                                             "else if eqb ingress_mtu 0 || (at_shortcut e i && ltb 0 e.shortcut && not (HERE)) then []"),
    "no peer MTU": (AT_PEER, PEER_MTU, "(if is_peer_hop e i then (if HERE then [] else (peer_of seg i (e.peer - 1)).mtu ∷ [])"),
    "the ingress MTU beside the peer MTU":
        (AT_PEER, PEER_MTU, PEER_MTU[:-2] + "(if HERE && not (eqb ingress_mtu 0) then ingress_mtu ∷ [] else [])"),
    "no egress": (None, "interface_if (not (eqb hop.egress 0)) (as_of", "interface_if (not (eqb hop.egress 0) && not (HERE)) (as_of"),
    "no ingress": ("shown", "interface_if (not (eqb hop.ingress 0) && (", "interface_if (not (eqb hop.ingress 0) && not (HERE) && ("),
    "an ingress that should not be shown":
        (AT_SHORTCUT, "|| eqb e.shortcut 0 || is_peer_hop e i)", "|| eqb e.shortcut 0 || is_peer_hop e i || (HERE))"),
    "egress after ingress": ("shown", f"      {EGRESS}\\n      ++ {INGRESS}", f"      (if HERE then {INGRESS} ++ {EGRESS} else {EGRESS} ++ {INGRESS})"),
    "no units": (None, UNITS, "life (least 255 (map (λ i. if HERE then 255 else units_of (hop_of seg e i)) (used_entries seg e)))"),
    "the units of the entry":
        (AT_PEER, UNITS, "life (least 255 (map (λ i. if HERE then (entry_of seg i).own.hop.units else units_of (hop_of seg e i)) (used_entries seg e)))"),
    "the hop of the next entry":
        (None, HOP, "  hop_of i = if HERE then (entry_of seg (if eqb (length seg.entries) 1 then 1 else if eqb i 0 then 1 else i - 1)).own.hop "
                    "else if is_peer_hop e i then"),
    "the hop of the entry": (AT_PEER, HOP, "  hop_of i = if is_peer_hop e i && not (HERE) then"),
}
STOP = "if is_peer_edge e && eqb e.shortcut k then k + 1 else k"
# Of a whole edge.
PARTS = {
    "an id of one MAC more": (STOP, f"({STOP}) + (if HERE then 1 else 0)"),
    "an id of one MAC less": (STOP, f"({STOP}) - (if HERE then 1 else 0)"),
    "the other construction flag": ("construction = e.construction;", "construction = if HERE then not e.construction else e.construction;"),
    "the other peering flag": ("peering = is_peer_edge e;", "peering = if HERE then not (is_peer_edge e) else is_peer_edge e;"),
    "hops the other way":
        ("hops_of = in_direction e.construction (", "hops_of = in_direction (if HERE then not e.construction else e.construction) ("),
    "interfaces the other way":
        ("interfaces_of = in_direction e.construction (", "interfaces_of = in_direction (if HERE then not e.construction else e.construction) ("),
    "a hop count of one less": ("hops = hop_count seg e;", "hops = if HERE then hop_count seg e - 1 else hop_count seg e;"),
}
KEYS = {
    "peer": ("compare x.peer y.peer", "compare y.peer x.peer"),
    "shortcut": ("compare y.shortcut x.shortcut", "compare x.shortcut y.shortcut"),
    "fingerprint": ("compare_by compare (fingerprint x.position) (fingerprint y.position)",
                    "compare_by compare (fingerprint y.position) (fingerprint x.position)"),
}
# How the line begins that brings in the library's words.
PRELUDE = "use Rattle.std.specs.Prelude.{"
# Entries of a stored edge, and the peers of one.
ENTRIES = {"entry 0 of two": "eqb i 0 && eqb n 2", "entry 0 of more": "eqb i 0 && ltb 2 n", "entry 1": "eqb i 1", "entry 2 or above": "ltb 1 i"}
PEERED = {"the only entry": "eqb n 1", "the first of several": "eqb i 0 && ltb 1 n", "a middle entry": "ltb 0 i && ltb (i + 1) n",
          "the leaf of several": "ltb 0 i && eqb (i + 1) n"}
PEERS = {"peer 0": "eqb p 0", "peer 1": "eqb p 1", "peer 2 or 3": "ltb 1 p"}
# The text of an edge, and its ends, weight and peer.
AS_EDGES = {"up": ("leaf there", " ∷ edge_of"), "down": ("there leaf", " ∷ []")}
PEER_EDGES = {"up": ("leaf (Peering local link.hop.ingress link.peer link.interface)", "n - i"),
              "down": ("(Peering link.peer link.interface local link.hop.ingress) leaf", "n - 1 - i")}

# Of a pair of edges: how many fingerprints are worked out, and whether the next pair is looked at; by how many edges are left.
PAIRS = {"pair 1": 2, "pair 2": 1, "pair 3": 0}
SAME_PEER, SAME_SHORTCUT, SAME_POSITION = (f"eqb e.{key} f.{key}" for key in ("peer", "shortcut", "position"))
LEFT_EQUAL = "compare_is_eq (compare_edges digest b e f)"
WORKED_OUT = {
    "one is counted": "if HERE then pair_digests e f / 2 else pair_digests e f",
    "nothing is counted": "if HERE then 0 else pair_digests e f",
    "one position is counted": f"if HERE && {SAME_PEER} && {SAME_SHORTCUT} then 2 else pair_digests e f",
    "counted where the peer decides": f"if HERE && {SAME_SHORTCUT} && not ({SAME_POSITION}) then 2 else pair_digests e f",
    "counted where the shortcut decides": f"if HERE && {SAME_PEER} && not ({SAME_POSITION}) then 2 else pair_digests e f",
    "equal fingerprints are not counted": f"if HERE && {LEFT_EQUAL} then 0 else pair_digests e f",
    "different fingerprints are not counted": f"if HERE && not ({LEFT_EQUAL}) then 0 else pair_digests e f",
}
NEXT = {
    "the next is counted where the peer decides": f"{LEFT_EQUAL} || (HERE && not ({SAME_PEER}))",
    "the next is counted where the shortcut decides": f"{LEFT_EQUAL} || (HERE && not ({SAME_SHORTCUT}))",
    "the next is counted where the fingerprint decides": f"{LEFT_EQUAL} || (HERE && {SAME_PEER} && {SAME_SHORTCUT})",
    "the next is not counted after one position": f"{LEFT_EQUAL} && not (HERE && {SAME_POSITION})",
    "the next is not counted after equal fingerprints": f"{LEFT_EQUAL} && not (HERE && not ({SAME_POSITION}))",
}

# On the wire: what must be 0, its bits, its text, and the number that has the bits; the text of what is read and written, with the number of an info or hop.
ZERO = {
    "the current info": (range(30, 32), "current_info w = NUMBER / 2 ^ 30", "be32 w 0"),
    "the current hop": (range(24, 30), "current_hop w = NUMBER / 2 ^ 24 % 2 ^ 6", "be32 w 0"),
    "what is reserved": (range(18, 24), "meta_reserved w = NUMBER / 2 ^ 18 % 2 ^ 6", "be32 w 0"),
    "an info's flags": (range(2, 8), "ltb 3 (NUMBER) ||", "get_or w at 0"),
    "an info's reserved byte": (range(8), "|| not (eqb (NUMBER) 0)", "get_or w (at + 1) 0"),
    "a hop's flags": (range(8), "not (eqb (NUMBER) 0)", "get_or w (wire_hop_offset w k) 0"),
    "a record's flags": (range(2, 8), "ltb 3 (NUMBER) ||", "get_or r at 0"),
}
CARRIED = {
    "an info read": ("wire_infos_in w = map (wire_info BYTES)", "w", "wire_info_offset K", (0, *range(2, 8)), range(3)),
    "an info written": ("wire_octets (infos_in BYTES)", "r", "path_head_size + info_size * K", (0, *range(2, 8)), range(3)),
    "a hop read": ("wire_hops_in w = map (wire_hop BYTES)", "w", "wire_hop_offset w K", range(1, 12), (0, 1, 7)),
    "a hop written": ("(hops_in BYTES)", "r", "path_head_size + info_size * (path_head_in r).infos + hop_size * K", range(11), (0, 1, 7)),
}


def possible(where, place, kind):
    peer, at = "peer" in kind, place in ("the shortcut", "the leaf that is the shortcut")
    hidden = kind.startswith("at a shortcut") and place == "the shortcut"
    if place == "the leaf that is the shortcut" and not peer:
        return False
    return {None: True, AT_PEER: peer and at, AT_SHORTCUT: hidden, "shown": not hidden, REGULAR: not hidden and not (peer and at)}[where]


def key_orders(key, fingerprint):
    """The keys of an edge with one of them lost, reversed or taken first; and how the fingerprint of a position is said there."""
    right, others = KEYS[key][0], [r for k, (r, _) in KEYS.items() if k != key]
    orders = {"lost": others, "reversed": [wrong if k == key else r for k, (r, wrong) in KEYS.items()], "before the other keys": [right] + others}
    return {how: " then_by ".join(keys).replace("(fingerprint ", f"({fingerprint} ") for how, keys in orders.items()
            if key != "peer" or how != "before the other keys"}


def also(line, names):
    """The change of a `use` line that brings in more names, before its first."""
    module, first = line.split("{")
    return f"{line},", f"{module}{{{names}, {first},"


def plant(said, *changes):
    print(f"# {said}")
    for old, new in changes:
        print(f"old: {old}\nnew: {new}")


def main():
    print("file: specs/Assembly.antt")
    for wrong, (where, old, new) in RULES.items():
        for place, here in PLACES.items():
            for direction, way in DIRECTIONS.items():
                for kind, of in KINDS.items():
                    if possible(where, place, kind):
                        plant(f"{wrong} at {place}, {direction}, {kind}", (old, new.replace("HERE", f"{here} && {way} && {of}")))
    for wrong, (old, new) in PARTS.items():
        for direction, way in DIRECTIONS.items():
            for kind, of in KINDS.items():
                plant(f"{wrong}, {direction}, {kind}", (old, new.replace("HERE", f"{way} && {of}")))
    lists = also(f"{PRELUDE}ℕ", "drop")
    for count in (2, 3):
        for at in range(count):
            one = f"edge {at + 1} of {count}"
            without = f"(if eqb (length c) {count} then (take {at} c ++ drop {at + 1} c) else c)"
            twice = f"(if eqb (length c) {count} then take {at} c ++ take 1 (drop {(at + 1) % count} c) ++ drop {at + 1} c else c)"
            plant(f"no MTU of {one}", ("least max_mtu (flat_map mtus_on c)", f"least max_mtu (flat_map mtus_on {without})"), lists)
            plant(f"no expiry of {one}", ("least max_time (map expiry_on c)", f"least max_time (map expiry_on {without})"), lists)
            for field, of in (("infos", "map info_on"), ("hops", "flat_map hops_on"), ("interfaces", "flat_map interfaces_on")):
                plant(f"{field} of {one} are another edge's", (f"{field} = {of} c;", f"{field} = {of} {twice};"), lists)
    print("file: specs/Edges.antt")
    nowhere = "(Peering (as_of seg 0) 0 (as_of seg 0) 0)"

    def edges(said, ends, weight, peer, after, here):
        edge = f"edge_of seg {ends} ({weight}) i {peer}{after}"
        for wrong, new in {
            "weight one more": edge.replace(f"({weight})", f"({weight} + (if {here} then 1 else 0))"),
            "weight one less": edge.replace(f"({weight})", f"({weight} - (if {here} then 1 else 0))"),
            "shortcut one more": edge.replace(f"({weight}) i", f"({weight}) (i + (if {here} then 1 else 0))"),
            "peer one more": edge.replace(f" i {peer}", f" i ({peer} + (if {here} then 1 else 0))"),
            "lost": f"(if {here} then edge_of seg {nowhere} {nowhere} 0 0 0 else edge_of seg {ends} ({weight}) i {peer}){after}",
        }.items():
            plant(f"{said}: {wrong}", (edge, new))

    for way, (ends, after) in AS_EDGES.items():
        for entry, here in ENTRIES.items():
            edges(f"an AS edge {way}, {entry}", ends, "n - 1 - i", "0", after, here)
    for way, (ends, weight) in PEER_EDGES.items():
        for entry, here in PEERED.items():
            for peer, which in PEERS.items():
                edges(f"a peer edge {way}, {peer} of {entry}", ends, weight, "(p + 1)", "", f"{here} && {which}")
    print("file: specs/Order.antt")
    lists = also(f"{PRELUDE}◌≡◌", "take, drop, eqb")
    for count in (1, 2, 3):
        for at in range(count):
            def on(compare, before, swapped=False):
                xs, ys = ("fs", "es") if swapped else ("es", "fs")
                return (f"then_by (if eqb (length es) {count} then compare_by {before} (take {at} es) (take {at} fs) "
                        f"then_by compare_by {compare} (take 1 (drop {at} {xs})) (take 1 (drop {at} {ys})) "
                        f"then_by compare_by {before} (drop {at + 1} es) (drop {at + 1} fs) else compare_by {before} es fs)")

            one, old = f"edge {at + 1} of {count}", "then_by compare_by compare_edges es fs"
            for key in KEYS:
                for how, keys in key_orders(key, "fingerprint").items():
                    plant(f"{key} {how} on {one}", (old, on(f"(λ x y. {keys})", "compare_edges")), lists)
            plant(f"positions reversed on {one}", ("then_by compare_by compare_positions es fs", on("compare_positions", "compare_positions", True)), lists)
    print("file: specs/Digests.antt")
    words, half = also(f"{PRELUDE}ℕ", "◌||◌"), also(f"{PRELUDE}ℕ", "◌/◌")
    for pair, left in PAIRS.items():
        here = f"eqb (length es) {left}"
        for wrong, new in WORKED_OUT.items():
            plant(f"comparison: {wrong}, {pair}", ("pair_digests e f + (if", f"({new.replace('HERE', here)}) + (if"), half)
        for wrong, new in NEXT.items() if left else ():
            plant(f"comparison: {wrong}, {pair}", (f"if {LEFT_EQUAL} then rest", f"if {new.replace('HERE', here)} then rest"), words)
    print("file: specs/ByRecord.antt")
    lists, names = also(f"{PRELUDE}Bool", "take, drop"), also("use Rattle.spec.specs.Order.{◌then_by◌", "fingerprint")
    es, fs = "(solution_in r).edges", "(solution_in s).edges"
    for at, pair in enumerate(PAIRS):
        def of(compare, before):
            return (f"then_by compare_by {before} (take {at} {es}) (take {at} {fs})"
                    + (f" then_by compare_by {compare} (take 1 (drop {at} {es})) (take 1 (drop {at} {fs}))" if compare else "")
                    + f" then_by compare_by {before} (drop {at + 1} {es}) (drop {at + 1} {fs})")

        for key in KEYS:
            for how, keys in key_orders(key, "fingerprint digest b").items():
                plant(f"comparison: {key} {how} on {pair}",
                      (f"then_by compare_by (compare_edges digest b) {es} {fs}", of(f"(λ x y. {keys})", "(compare_edges digest b)")), lists, names)
        for how, compare in {"lost": "", "reversed": "(λ x y. compare_positions digest b y x)"}.items():
            plant(f"comparison: positions {how} on {pair}",
                  (f"then_by compare_by (compare_positions digest b) {es} {fs}", of(compare, "(compare_positions digest b)")), lists)
    print("file: specs/Wire.antt")
    lists = also(f"{PRELUDE}ℕ", "take, drop")
    for what, (bits, text, number) in ZERO.items():
        for bit in bits:
            without = f"({number} - {number} / 2 ^ {bit} % 2 * 2 ^ {bit})"
            plant(f"wire: bit {bit} of {what} is not asked for", (text.replace("NUMBER", number), text.replace("NUMBER", without)))
    for what, (text, of, start, places, numbers) in CARRIED.items():
        for k in numbers:
            for byte in places:
                at = f"{start.replace('K', str(k))} + {byte}"
                lost = f"(take ({at}) {of} ++ (0 ∷ []) ++ drop ({at} + 1) {of})"
                plant(f"wire: byte {byte} of {what} is 0, number {k}", (text.replace("BYTES", of), text.replace("BYTES", lost)), lists)


main()
