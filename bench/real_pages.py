#!/usr/bin/env python3
"""Counts what programs take for real pages: the documentation that Debian's packages have as HTML.

    bench/real_pages.py FOLDER PROGRAM..

The packages are downloaded into FOLDER and unpacked there, the first time; nothing of them is installed. A PROGRAM is a
built html2text_program (also one of bench/unproved.sh), or a peer by the name of its file: `links`, `w3m`, `lynx`, or
`html2text_rs` (bench/html2text_rs/build.sh). Each writes the page's text in 80 columns. For each page and program a
line says instructions a byte of the page (`valgrind --tool=cachegrind`), requests for memory (`--tool=memcheck`) and
the peak of memory in KB; after it, for all but the first program, how its instructions compare with the first's, and
whether both write the same. Four pages are counted at a time, where there are that many processors.
"""

import os
import re
import subprocess
import sys
from concurrent.futures import ThreadPoolExecutor

PACKAGES = ("haproxy-doc", "postgresql-doc-15", "python3.11-doc", "git-doc", "rust-doc")
CODE = "rust-doc/html/src/core/up/up/stdarch/crates/core_arch/src/arm_shared/neon/generated.rs.html"
# What a page is full of, its file below usr/share/doc, and how many bytes of it are taken.
PAGES = (
    ("text", "haproxy/html/intro.html", None),
    ("links", "postgresql-doc-15/html/bookindex.html", None),
    ("tables", "postgresql-doc-15/html/features-sql-standard.html", None),
    ("book", "rust-doc/html/nomicon/print.html", None),
    ("lists", "python3.11/html/genindex-all.html", None),
    ("code", CODE, 1_000_000),
    ("manual", "git/html/git-config.html", None),
)
PEERS = {
    "links": ["-dump", "-width", "80"],
    "w3m": ["-dump", "-cols", "80", "-T", "text/html"],
    "lynx": ["-dump", "-width=80"],
}


def unpacked(folder, packages):
    """The folder of the documents of these packages, which are downloaded where they are not there yet."""
    documents = os.path.join(folder, "usr/share/doc")
    if not os.path.isdir(documents):
        os.makedirs(folder, exist_ok=True)
        subprocess.run(["apt-get", "download", "-qq", *packages], cwd=folder, check=True)
        for package in (it for it in os.listdir(folder) if it.endswith(".deb")):
            subprocess.run(["dpkg-deb", "-x", package, "."], cwd=folder, check=True)
    return documents


def pages_of(folder):
    """Kind and file of each page, cut to its length where it has one."""
    documents, found = unpacked(folder, PACKAGES), []
    for kind, name, length in PAGES:
        with open(os.path.join(documents, name), "rb") as it:
            page = it.read(length)
        file = os.path.join(folder, f"{kind}.html")
        with open(file, "wb") as it:
            it.write(page)
        found.append((kind, file))
    return found


def words_of(program, page):
    """The command line, and the file on standard input."""
    name = os.path.basename(program)
    if name == "html2text_rs":
        return [program], page
    if name in PEERS:
        return [program, *PEERS[name], page], os.devnull
    return [program, "--width", "80", page], os.devnull


def run(words, source):
    with open(source, "rb") as it:
        return subprocess.run(words, stdin=it, capture_output=True, check=False)


def measured(program, page):
    """Instructions, requests for memory, peak memory in KB, and what was written."""
    words, source = words_of(program, page)
    counted = run(
        ["valgrind", "--tool=cachegrind", "--cache-sim=no", "--cachegrind-out-file=/dev/null", *words], source
    )
    said = counted.stderr.decode(errors="replace").replace(",", "")
    instructions = int(re.search(r"I +refs: +(\d+)", said)[1])
    said = run(["valgrind", "--undef-value-errors=no", *words], source).stderr.decode(errors="replace").replace(",", "")
    requests = int(re.search(r"total heap usage: (\d+) allocs", said)[1])
    peak = run(["/usr/bin/time", "-f", "%M", *words], source).stderr.decode(errors="replace").split()[-1]
    return instructions, requests, int(peak), counted.stdout


def lines_of(kind, page, programs):
    """A line for each program."""
    size, first, lines = os.path.getsize(page), None, []
    for program in programs:
        instructions, requests, peak, text = measured(program, page)
        cells = [kind, f"{size:,}", os.path.basename(program), f"{instructions / size:.1f}", f"{requests:,}"]
        cells += [f"{peak:,}", "", ""]
        if first:
            cells[-2:] = [f"{instructions / first[0]:.3f}", "same" if text == first[1] else "other"]
        first = first or (instructions, text)
        lines.append(f"| {' | '.join(cells)} |")
    return lines


def main(words):
    if len(words) < 2:
        print(__doc__, file=sys.stderr)
        return 2
    pages = pages_of(words[0])
    print("| page | bytes | program | instructions a byte | requests | peak KB | of the first | text |")
    print("|---|---|---|---|---|---|---|---|")
    with ThreadPoolExecutor(max_workers=min(4, os.cpu_count() or 1)) as pool:
        for lines in pool.map(lambda it: lines_of(*it, words[1:]), pages):
            print("\n".join(lines), flush=True)
    return 0


if __name__ == "__main__":
    sys.exit(main(sys.argv[1:]))
