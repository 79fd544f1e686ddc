#!/usr/bin/env python3
"""Counts the words that are cut on real pages with tables, at 80 columns, with fitted columns and without.

    bench/cut_words.py FOLDER STORED_ROWS [--each]

The packages are downloaded into FOLDER and unpacked there, the first time; nothing of them is installed. STORED_ROWS is
the built program of that name (also one of bench/unproved.sh), which renders each page as plain text without targets.
A word is what stands between white space and borders; it is cut where the page has it more often at 5,000 columns, at
which no column of a table has to be narrow, than at 80. Words of more than 80 characters don't count. The pages are
thirty of each package that have a table with four cells or more, from first to last by name (all, where they are
fewer). A line says pages, words, words that are cut and pages on which some are, and lines, with fitted columns and
without; with --each also of each page on which words are cut.
"""

import collections
import os
import re
import subprocess
import sys
from concurrent.futures import ThreadPoolExecutor

from real_pages import unpacked

PACKAGES = {
    "postgresql-doc-15": "postgresql-doc-15/html",
    "sqlite3-doc": "sqlite3",
    "apache2-doc": "apache2-doc/manual/en",
    "python3.11-doc": "python3.11/html",
}
MOST, WIDTH, WIDE, LARGE = 30, 80, 5000, 200_000
ESCAPES = {"\\": "\\\\", "\n": "\\n", "\t": "\\t"}


def pages_in(folder):
    """Pages with a table, in the order of their names."""
    found = []
    for here, _, files in os.walk(folder):
        for name in files:
            file = os.path.join(here, name)
            if not name.endswith((".html", ".html.en")) or os.path.islink(file) or os.path.getsize(file) > LARGE:
                continue
            with open(file, encoding="utf-8", errors="replace") as it:
                page = it.read()
            if "<table" in page and len(re.findall("<t[dh][ >]", page)) >= 4:
                found.append(file)
    found.sort()
    return found if len(found) <= MOST else [found[len(found) * it // MOST] for it in range(MOST)]


def escaped(char):
    code = ord(char)
    return ESCAPES.get(char) or (char if code >= 0x20 and code != 0x7F else f"\\u{{{code:X}}}")


def lines_of(program, page, width, fitted):
    """The lines of a page, each the text of its strings."""
    options = f"link_footnotes=false fit_columns={fitted}"
    case = f"page\tplain_no_decorate\t{width}\t{options}\t{page}\n\n"
    said = subprocess.run([program], input=case.encode(), capture_output=True, check=True).stdout.decode()
    lines = [line.split("\t")[1:] for line in said.split("\n") if line.startswith("line")]
    return ["".join(part.partition("|")[2] for part in parts) for parts in lines]


def words_of(lines):
    words = (word for line in lines for word in re.split(r"[\s\u2500-\u257f/]+", line))
    return collections.Counter(word for word in words if word and len(word) <= WIDTH)


def measured(program, file):
    """Words of a page, and for both settings the words that are cut, and the lines."""
    with open(file, encoding="utf-8", errors="replace") as it:
        page = "".join(escaped(char) for char in it.read())
    answer = [0]
    for fitted in ("false", "true"):
        whole = words_of(lines_of(program, page, WIDE, fitted))
        lines = lines_of(program, page, WIDTH, fitted)
        answer[0] = whole.total()
        answer.append(((whole - words_of(lines)).total(), len(lines)))
    return answer


def main(words):
    each = "--each" in words
    words = [it for it in words if it != "--each"]
    if len(words) != 2:
        print(__doc__, file=sys.stderr)
        return 2
    documents, program = unpacked(words[0], PACKAGES), os.path.abspath(words[1])
    totals = collections.Counter()
    for package, folder in PACKAGES.items():
        files = pages_in(os.path.join(documents, folder))
        with ThreadPoolExecutor(max_workers=len(os.sched_getaffinity(0))) as pool:
            pages = list(pool.map(lambda file: measured(program, file), files))
        count = collections.Counter(pages=len(pages))
        for file, (whole, plain, fitted) in zip(files, pages):
            count.update(words=whole, cut=plain[0], cut_fitted=fitted[0], lines=plain[1], lines_fitted=fitted[1])
            count.update(on=plain[0] > 0, on_fitted=fitted[0] > 0)
            if each and (plain[0] or fitted[0]):
                print(f"  {os.path.relpath(file, documents)}: {plain[0]} cut, {fitted[0]} fitted")
        totals.update(count)
        print(line_of(package, count), flush=True)
    print(line_of("all", totals))
    return 0


def line_of(name, count):
    cells = [name, *(f"{count[it]:,}" for it in ("pages", "words", "cut", "cut_fitted", "on", "on_fitted"))]
    cells += [f"{count['lines']:,}", f"{count['lines_fitted']:,}", f"{count['lines_fitted'] / count['lines']:.3f}"]
    return f"| {' | '.join(cells)} |"


if __name__ == "__main__":
    sys.exit(main(sys.argv[1:]))
