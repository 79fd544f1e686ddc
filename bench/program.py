#!/usr/bin/env python3
"""Times the built program html2text_program on markup of make_tokens.py and on the pages of page_lines.py.

    bench/program.py PROGRAM

A line says the seconds of processor time of the best of five runs at width 72, what that is a second, the peak of
memory, and how many lines came or what the page was refused for.
"""

import os
import resource
import subprocess
import sys
import tempfile

from page_lines import pages


def run(program, page):
    """Seconds of processor time, kilobytes of memory at most, the output and what was reported of a fault."""
    with tempfile.TemporaryFile() as source, tempfile.TemporaryFile() as output, tempfile.TemporaryFile() as errors:
        source.write(page)
        source.seek(0)
        child = subprocess.Popen([program, "--width", "72"], stdin=source, stdout=output, stderr=errors)
        _, _, usage = os.wait4(child.pid, 0)
        output.seek(0)
        errors.seek(0)
        return usage.ru_utime + usage.ru_stime, usage.ru_maxrss, output.read(), errors.read().decode()


def show(program, name, page):
    """Times a page, and prints its line."""
    runs = [run(program, page) for _ in range(5)]
    seconds, memory = min(r[0] for r in runs), min(r[1] for r in runs)
    lines, fault = runs[0][2].count(b"\n"), runs[0][3].strip()
    speed = f"{len(page) / max(seconds, 0.001) / 1e6:.1f} MB"
    came = fault or f"{lines:,} lines"
    print(f"| {name} | {len(page):,} | {seconds:.2f} | {speed} | {memory / 1000:.0f} MB | {came} |")


def show_all(program, named_pages):
    """Times pages, each with its name, on a stack of one megabyte, and prints their lines below a head."""
    resource.setrlimit(resource.RLIMIT_STACK, (1 << 20, 1 << 20))
    print("| page | bytes | seconds | a second | memory | came to |\n|---|---|---|---|---|---|")
    for name, page in named_pages:
        show(program, name, page.encode())


def main():
    if len(sys.argv) != 2:
        sys.exit(__doc__)
    show_all(sys.argv[1], pages())
    maker = os.path.join(os.path.dirname(os.path.abspath(__file__)), "make_tokens.py")
    for size in ("1", "2", "4", "8"):
        page = subprocess.run([sys.executable, maker, "markup", size], capture_output=True, check=True).stdout
        show(sys.argv[1], f"markup, {size} MB", page)


if __name__ == "__main__":
    main()
