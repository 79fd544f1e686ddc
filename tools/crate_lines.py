#!/usr/bin/env python3
"""Says what the lines of crates.txt cost a gate, and which libraries a line lists that its crate doesn't name.

    tools/crate_lines.py [NUMBER]

Around the proof of a library `rt ci` asks for all that stands below it, and goes there once for each way that leads
there through crates.txt. So a library that is listed beside one that stands on it costs all that is below it once more,
for each way that leads to the line. The first line says how many files are passed so, before all proofs together; then
come the NUMBER dearest of the entries that could go (20 without a word), each with the files that are passed for it and
the lines of its crate that name it: those whose library stands below another one of the same line, which may pass
its names on (docs/ARCHITECTURE.md). The status is 1 where a line lists what its crate doesn't name.
"""

import collections
import pathlib
import re
import subprocess
import sys


def main():
    asked = subprocess.run(["git", "rev-parse", "--show-toplevel"], check=True, capture_output=True, text=True)
    top = pathlib.Path(asked.stdout.strip())
    lists = {}
    for line in (top / "crates.txt").read_text().splitlines():
        name, _, rest = line.partition("#")[0].partition(":")
        if name.strip():
            lists[name.split()[0]] = rest.split()
    sources = {}
    for name in lists:
        parts = [top / "crates" / name / part for part in ("src", "specs", "proofs")]
        sources[name] = [it for part in parts for it in part.rglob("*") if it.is_file()]
    texts = {name: [it.read_text(errors="replace") for it in files] for name, files in sources.items()}

    def names(crate, library):
        """How many lines of the crate name something of the library."""
        word = re.compile(rf"\b{library}(::|\.|;| as\b)")
        return sum(bool(word.search(line)) for text in texts[crate] for line in text.splitlines())

    below, cost, order = {}, {}, []

    def visit(crate):
        if crate in below:
            return
        below[crate] = set()
        own = [it for it in lists[crate] if it in lists]
        for it in own:
            visit(it)
            below[crate] |= {it} | below[it]
        cost[crate] = len(sources[crate]) + sum(cost[it] for it in own)
        order.append(crate)

    for crate in lists:
        visit(crate)
    # the ways that lead to a crate from the libraries that are built, itself one of them or not
    ways = collections.Counter(it for it in lists if not (top / "crates" / it / "src/main.rt").exists())
    for crate in reversed(order):
        for it in lists[crate]:
            ways[it] += ways[crate]
    print(f"{sum(ways[it] * len(sources[it]) for it in lists):,} files, by {sum(ways[it] for it in lists):,} ways")

    unnamed = [(crate, it) for crate in lists for it in lists[crate] if not names(crate, it)]
    for crate, it in unnamed:
        print(f"{crate} doesn't name {it}")
    more = [
        (ways[crate] * cost[it], crate, it)
        for crate in lists
        for it in lists[crate]
        if it in lists and any(it in below.get(other, ()) for other in lists[crate])
    ]
    for files, crate, it in sorted(more, reverse=True)[: int(sys.argv[1]) if sys.argv[1:] else 20]:
        print(f"{files:>9,} {crate}: {it}, named in {names(crate, it)} lines")
    return 1 if unnamed else 0


if __name__ == "__main__":
    sys.exit(main())
