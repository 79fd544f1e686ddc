#!/usr/bin/env python3
"""Times the built program html2text_program on hostile pages, each at 1, 2, 4 and 8 times its length.

    bench/hostile.py PROGRAM [WORD..]

With words, only the kinds whose name has one of them. A run is at width 72 from standard input, on a stack of 1 MB,
with an address space of 8 GB and 120 s of processor time at most. A line is of a kind: the bytes of its longest page;
the user processor seconds of each length, the best of three runs, or of one that takes a second; the exponent from the
last two, of the time and of the text that came, where they are long enough to say; the peak of memory, what a page of
one letter takes left out, and what that is a byte of the page; and what the longest page came to. Kinds that nest have
a further line at ten times their longest, unless the last exponent says that it would pass the limit.
"""

import math
import os
import resource
import subprocess
import sys
import tempfile

SECONDS, ROOM, STACK = 120, 8 << 30, 1 << 20
NESTED, MEGABYTE = 12_500, 125_000


def nested(tag):
    """The page kind of one tag within itself."""

    def page(count):
        yield tag * count
        yield "x"

    return page


def numbered(before, behind, inner="", head="", tail="x"):
    """The page kind of one part again and again, with its number in it."""

    def page(count):
        yield head
        for number in range(count):
            yield f"{before}{number}{behind}{inner}"
        yield tail

    return page


def again(part, head="", tail=""):
    """The page kind of one part again and again."""

    def page(count):
        yield head
        yield part * count
        yield tail

    return page


def tables_to_a_depth(count):
    """Tables within one another, each with a text and two cells."""
    yield "<table><tr><td>a<td>" * count
    yield "x"
    yield "</table>" * count


def struck(count):
    """Words of five letters, each letter with U+0336 after it."""
    for number in range(count):
        yield "a\u0336 " if number % 5 == 4 else "a\u0336"


def invalid(count):
    """The bytes from 0x80 to 0xFF in order again and again: no two of them are UTF-8."""
    for _ in range(count // 128):
        yield bytes(range(0x80, 0x100))


# of each kind: its name, its page by a count, the count of the shortest, and further words of the command line
WITHIN = [
    ("`div`", nested("<div>")),
    ("`b`", nested("<b>")),
    ("`i`", nested("<i>")),
    ("`font` with differing attributes", numbered("<font size=", ">")),
    ("`a`", nested("<a href=u>")),
    ("`table`", nested("<table>")),
    ("`table`, `tr` and `td`", nested("<table><tr><td>")),
    ("`blockquote`", nested("<blockquote>")),
    ("`ul` and `li`", nested("<ul><li>")),
    ("`span` with an `id`", numbered("<span id=s", ">")),
]
KINDS = [
    ("`p`, each left open", again("<p>x"), NESTED, []),
    ("attributes of one tag", numbered(" a", "=x", head="<p", tail=">x"), NESTED, []),
    ("`br` fostered out of a table", again("<br>", "<table>", "</table>"), NESTED, []),
    ("`b` and a letter fostered out of a table", again("<b>x</b>", "<table>", "</table>"), NESTED, []),
    ("letters of one word", again("w"), MEGABYTE, []),
    ("letters of a comment", again("w", "<!--", "-->x"), MEGABYTE, []),
    ("letters of an attribute's value", again("w", "<p title=\"", "\">x"), MEGABYTE, []),
    ("letters of a reference's name", again("w", "&", ";"), MEGABYTE, []),
    ("digits of a reference", again("1", "&#", ";"), MEGABYTE, []),
    ("links, with their targets after the page", numbered("<a href=u", ">word</a> ", tail=""), NESTED, ["--footnotes"]),
    ("tables within one another, with two cells", tables_to_a_depth, 125, []),
    ("items of a list", again("<li>x", "<ul>"), MEGABYTE, []),
    ("`br`", again("<br>"), MEGABYTE, []),
    ("tabs in `pre`", again("\t", "<pre>", "x"), MEGABYTE, []),
    ("letters with U+0336", struck, MEGABYTE, []),
    ("bytes that are not UTF-8", invalid, MEGABYTE, []),
]


def limits():
    """Sets the limits of a run, in the process that becomes it."""
    for kind, most in (resource.RLIMIT_CPU, SECONDS), (resource.RLIMIT_AS, ROOM), (resource.RLIMIT_STACK, STACK):
        resource.setrlimit(kind, (most, most))


def written(page, file):
    """Writes a page, and says how many bytes it has."""
    for part in page:
        file.write(part if isinstance(part, bytes) else part.encode())
    return file.tell()


def run(words, source):
    """User seconds, bytes of memory at most, lines and bytes of the text, and what it came to.

    GNU time starts the program: the peak that the system reports of a child has that of its parent in it.
    """
    with tempfile.TemporaryFile() as output, tempfile.TemporaryFile() as errors, tempfile.NamedTemporaryFile() as spent:
        source.seek(0)
        command = ["/usr/bin/time", "-o", spent.name, "-f", "%U %M", *words, "--width", "72"]
        status = subprocess.call(command, stdin=source, stdout=output, stderr=errors, preexec_fn=limits)
        seconds, memory = spent.read().split()[-2:]
        output.seek(0)
        errors.seek(0)
        fault = errors.read().decode().strip().removeprefix("html2text: ")
        length, lines = 0, 0
        while part := output.read(1 << 20):
            length, lines = length + len(part), lines + part.count(b"\n")
    kinds = {"output width not wide enough": "too narrow", "out of memory": "memory"}
    came = f"{lines:,} line" + "s" * (lines != 1) if status == 0 else kinds.get(fault, fault or f"status {status}")
    if float(seconds) > SECONDS - 1:
        came = f"stopped after {SECONDS} s"
    return float(seconds), int(memory) * 1024, length, came


def best(words, source):
    """The best of three runs, or the first, where it takes a second."""
    first = run(words, source)
    return first if first[0] >= 1 else min(first, run(words, source), run(words, source))


def exponent(shorter, longer, least, times=2):
    """By which power a figure grew, of pages of which one is that many times the other."""
    return f"{math.log(longer / shorter, times):.2f}" if shorter >= least else ""


def show(name, size, seconds, powers, memory, came):
    """Tells the line of a page."""
    shown = " ".join(f"{s:.2f}" for s in seconds)
    figures = [*powers, f"{memory / 1e6:.0f} MB", f"{memory / size:.0f}"]
    print(f"| {name} | {size:,} | {shown} | {' | '.join(figures)} | {came} |", flush=True)


def measure(program, kind):
    """Times the pages of a kind, and prints its lines."""
    name, page, count, words, further = kind
    ran = []
    for times in (1, 2, 4, 8):
        with tempfile.TemporaryFile() as source:
            size = written(page(count * times), source)
            ran.append(best([program, *words], source))
    empty = smallest(program)
    seconds = [r[0] for r in ran]
    powers = [exponent(seconds[2], seconds[3], 0.02), exponent(ran[2][2], ran[3][2], 1000)]
    show(f"{count * 8:,} {name}", size, seconds, powers, max(0, ran[3][1] - empty), ran[3][3])
    if further:
        grows = math.log2(seconds[3] / seconds[2]) if seconds[2] >= 0.02 else 1
        if seconds[3] * 10**grows > SECONDS:
            print(f"| {count * 80:,} {name} | | not run: some {seconds[3] * 10**grows:,.0f} s | | | | | |", flush=True)
            return
        with tempfile.TemporaryFile() as source:
            size = written(page(count * 80), source)
            longest = run([program, *words], source)
        powers = [exponent(seconds[3], longest[0], 0.02, 10), exponent(ran[3][2], longest[2], 1000, 10)]
        show(f"{count * 80:,} {name}", size, [longest[0]], powers, max(0, longest[1] - empty), longest[3])


def smallest(program):
    """The bytes of memory that a page of a letter takes."""
    with tempfile.TemporaryFile() as source:
        written(["x"], source)
        return run([program], source)[1]


def main():
    if len(sys.argv) < 2:
        sys.exit(__doc__)
    program, wanted = os.path.abspath(sys.argv[1]), sys.argv[2:]
    kinds = [(f"{name} within one another", page, NESTED, [], True) for name, page in WITHIN]
    kinds += [(name, page, count, words, False) for name, page, count, words in KINDS]
    print("| page | bytes | seconds | exponent | of the text | memory | a byte | came to |\n" + "|---" * 8 + "|")
    for kind in kinds:
        if not wanted or any(word in kind[0] for word in wanted):
            measure(program, kind)


if __name__ == "__main__":
    main()
