#!/usr/bin/env python3
"""Holds docs/ARCHITECTURE.md against crates.txt: its table of crates names each crate once, in the order and under the
layer of crates.txt.

    tools/names_crates.py

The status is 1, with a line for each crate that is missing, named twice or under another layer.
"""

import collections
import os
import re
import sys

TOP = os.path.dirname(os.path.dirname(os.path.realpath(__file__)))


def listed():
    """Each crate of crates.txt with its section: a layer's number, or `tests`."""
    layer, out = None, []
    with open(os.path.join(TOP, "crates.txt"), encoding="utf-8") as file:
        for line in file:
            section = re.match(r"# (?:(\d+)\. |(Tests))", line)
            if section:
                layer = section.group(1) or "tests"
            elif line.strip() and not line.startswith("#"):
                out.append((line.partition(":")[0].strip(), layer))
    return out


def drawn():
    """Each crate of the table, with the layer that its row or one above it names."""
    layer, out = None, []
    with open(os.path.join(TOP, "docs", "ARCHITECTURE.md"), encoding="utf-8") as file:
        for line in file:
            row = re.match(r"\| *(\w*) *\| `(\w+)` \|", line)
            if row:
                layer = row.group(1) or layer
                out.append((row.group(2), layer))
    return out


def main():
    crates, rows = listed(), drawn()
    counts = collections.Counter(name for name, _ in rows)
    faults = [f"{name} has no row" for name, _ in crates if not counts[name]]
    faults += [f"{name} has {count} rows" for name, count in counts.items() if count > 1]
    layers = dict(crates)
    faults += [f"{name} is no crate" for name in counts if name not in layers]
    faults += [f"{name} stands under {at}, not {layers[name]}" for name, at in rows if layers.get(name, at) != at]
    if not faults and rows != crates:
        faults.append("the rows are in another order")
    print("\n".join(faults) or f"{len(rows)} crates, each once")
    return 1 if faults else 0


if __name__ == "__main__":
    sys.exit(main())
