#!/usr/bin/env python3
"""Counts instructions a byte of the tokenizer and of whole trees, beside html5ever's, on the same pages in one run.

    bench/beside.py COUNT_TOKENS COUNT_TREES HTML5EVER PAGE..

The first two are built by bench/unproved.sh (or by the gate's compiler) from bench/count_tokens and bench/count_trees,
the third by bench/html5ever/build.sh. Each reads the page in pieces of 64 KB; the figure is two readings less one, by
`valgrind --tool=callgrind`, divided by the bytes of the page. A page whose name begins with `script` begins in script
data, for the tokenizer alone. Four runs are counted at a time where there are that many processors."""
import os
import re
import subprocess
import sys
from concurrent.futures import ThreadPoolExecutor


def instructions(command, page):
    command = ["valgrind", "--tool=callgrind", "--callgrind-out-file=/dev/null"] + command
    with open(page, "rb") as bytes_of_page:
        run = subprocess.run(command, stdin=bytes_of_page, capture_output=True, text=True)
    return int(re.search(r"Collected : (\d+)", run.stderr).group(1))


def a_byte(command, page):
    once, twice = instructions(command + ["1"], page), instructions(command + ["2"], page)
    return "%.1f" % ((twice - once) / os.path.getsize(page))


def row(words):
    tokens, trees, other, page = words
    name = os.path.basename(page)
    if name.startswith("script"):
        return [name, a_byte([tokens, "64", "script"], page), "", "", ""]
    return [name, a_byte([tokens, "64", "data"], page), a_byte([other, "tokens", "64"], page),
            a_byte([trees, "64"], page), a_byte([other, "trees", "64"], page)]


def main(words):
    if len(words) < 4:
        print(__doc__)
        return 2
    tokens, trees, other = words[:3]
    print("| page | bytes | tokenizer | html5ever's | tree | html5ever's |\n|---|---|---|---|---|---|")
    with ThreadPoolExecutor(max_workers=min(4, os.cpu_count() or 1)) as pool:
        for page, cells in zip(words[3:], pool.map(row, [(tokens, trees, other, page) for page in words[3:]])):
            cells.insert(1, "{:,}".format(os.path.getsize(page)))
            print("| " + " | ".join(cells) + " |")
    return 0


sys.exit(main(sys.argv[1:]))
