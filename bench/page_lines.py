#!/usr/bin/env python3
"""Times the built program stored_rows on pages that nest, long lists and paragraphs.

    bench/page_lines.py PROGRAM

The program renders each page twice, as a whole and a byte at a time, compares both and writes the lines of one. A line
says the seconds of processor time of the best of three runs, the peak of memory, and what the page came to.
"""

import os
import resource
import subprocess
import sys
import tempfile

SENTENCE = "The quick brown fox jumps over the lazy dog and <b>runs</b> into the <a href=u>forest</a>. "
PAGES = {
    "`i` within one another": ("<i>", "x", ""),
    "`blockquote` within one another": ("<blockquote>", "x", ""),
    "`ul` and `li` within one another": ("<ul><li>", "x", ""),
    "items of a list": ("<li>some words in an item", "", "<ul>"),
    "paragraphs with marks and links": ("<p>" + SENTENCE * 5 + "</p>", "", ""),
}


def run(program, case):
    """Seconds of processor time, kilobytes of memory at most, and the output."""
    with tempfile.TemporaryFile() as page, tempfile.TemporaryFile() as output:
        page.write(case.encode())
        page.seek(0)
        child = subprocess.Popen([program], stdin=page, stdout=output)
        _, status, usage = os.wait4(child.pid, 0)
        if status:
            sys.exit(f"{program}: status {status}")
        output.seek(0)
        return usage.ru_utime + usage.ru_stime, usage.ru_maxrss, output.read().decode()


def pages():
    """The pages, each with its name."""
    for name, (repeated, behind, before) in PAGES.items():
        counts = (2500, 5000, 10000) if name.startswith("paragraphs") else (25000, 50000, 100000)
        for count in counts:
            yield f"{count:,} {name}", before + repeated * count + behind


def main():
    if len(sys.argv) != 2:
        sys.exit(__doc__)
    resource.setrlimit(resource.RLIMIT_STACK, (1 << 20, 1 << 20))
    print("| page | bytes | seconds | memory | came to |\n|---|---|---|---|---|")
    for name, page in pages():
        runs = [run(sys.argv[1], f"page\tplain\t72\t\t{page}\n\n") for _ in range(3)]
        seconds, memory = min(r[0] for r in runs), min(r[1] for r in runs)
        lines = runs[0][2].splitlines()
        came = f"{len(lines) - 1:,} lines" if lines[0] != "TooNarrow" else "`TooNarrow`"
        print(f"| {name} | {len(page):,} | {seconds:.2f} | {memory / 1000:.0f} MB | {came} |")


if __name__ == "__main__":
    main()
