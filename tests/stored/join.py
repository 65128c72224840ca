#!/usr/bin/env python3
"""Joins the bench cases, answers.bin, refusals.bin, routes.bin, wire.bin and comparisons.bin to what crate replay is run on (README.md).

    join.py            writes crates/replay/stdin and crates/replay/stdout
    join.py --check    says whether they are what it would write
"""
import os
import sys

import bench
import comparisons
import form

HERE = os.path.dirname(os.path.abspath(__file__))
CRATE = os.path.join(HERE, "..", "..", "crates", "replay")


def tagged(tag, cases):
    return [bytes([tag]) + case for case in cases]


def main():
    parts = bench.checked()
    parts["answers of the Rust"] = tagged(form.ANSWERED, form.answers())
    parts["refusals"] = tagged(form.CALLED, form.refusals())
    parts["routes"] = tagged(form.ASKED, form.routes())
    parts["wire"] = tagged(form.CARRIED, form.wire())
    parts["comparisons"] = tagged(form.COMPARED, comparisons.checked())
    files = {
        "stdin": b"".join(bytes([form.LABEL, len(label)]) + label.encode() + b"".join(cases) for label, cases in parts.items()),
        "stdout": "".join(f"{label}: {len(cases)} cases, 0 differ\n" for label, cases in parts.items()).encode(),
    }
    for name, data in files.items():
        path = os.path.join(CRATE, name)
        if sys.argv[1:] == ["--check"]:
            with open(path, "rb") as f:
                if f.read() != data:
                    sys.exit(f"crates/replay/{name} is not what tests/stored/join.py writes")
        else:
            with open(path, "wb") as f:
                f.write(data)
    print(f"stored: {len(parts)} labels, {sum(map(len, parts.values()))} cases")


if __name__ == "__main__":
    main()
