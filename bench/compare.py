"""Compares the built program with a model of its definitions, written apart from it, on random small pages.

Usage: python3 bench/compare.py PROGRAM PAGES TEXTS

The model finds the fullest layout by trying all layouts. Its characters and their columns are those of a short list.
The decoded texts are compared with Python's own decoder.
"""
import random
import subprocess
import sys
import unicodedata
from functools import lru_cache

COLUMNS = {"a": 1, "b": 1, "é": 1, "漢": 2, "\u0301": 0, "\u00a0": 1}
WITHOUT_WIDTH = {"\x07"}
BREAK_POINTS = {" ", "\t", "\n", "\u200b", "\u3000"}
ALPHABET = "aab  é漢\u0301\u00a0\u200b\t\n\u3000\x07a"
BYTES = bytes.fromhex("C3A9E0A080EDF09F98F48F90BFEFBBE6BCA261FFC0")


def columns(characters):
    return sum(COLUMNS[c] for c in characters)


def units(text):
    """The units of a stretch, each with whether a gap stands in front of it."""
    found, held, gap = [], "", False
    for c in text:
        if c in BREAK_POINTS:
            if columns(held) > 0:
                found.append((held, gap))
                held, gap = "", False
            gap = gap or c != "\u200b"
        elif c not in WITHOUT_WIDTH:
            held += c
    if held:
        found.append((held, gap))
    return found


def next_lines(stretch, width, unit, offset):
    """Each line that can come next: how many characters it takes, its text, and where the rest begins."""
    found = []

    def go_on(text, count, used, unit, first):
        if count:
            found.append((count, text, (unit, 0)))
        if unit == len(stretch):
            return
        word, gap = stretch[unit]
        if columns(word) <= width:
            space = "" if first or not gap else " "
            if used + len(space) + columns(word) <= width:
                go_on(text + space + word, count + len(word), used + len(space) + columns(word), unit + 1, False)
        elif first:
            cut(text, count, unit, 0)

    def cut(text, count, unit, offset):
        word, used = stretch[unit][0], 0
        for place in range(offset, len(word)):
            used += columns(word[place])
            if used > width:
                return
            text, count = text + word[place], count + 1
            if place + 1 < len(word):
                found.append((count, text, (unit, place + 1)))
            else:
                go_on(text, count, used, unit + 1, False)

    if offset:
        cut("", 0, unit, offset)
    else:
        go_on("", 0, 0, unit, True)
    return found


def fullest_layout(text, width):
    stretch = units(text)

    @lru_cache(None)
    def is_legal(unit, offset):
        at_end = (unit, offset) == (len(stretch), 0)
        return at_end or any(is_legal(*rest) for _, _, rest in next_lines(stretch, width, unit, offset))

    place, lines = (0, 0), []
    if not is_legal(*place):
        return None
    while place != (len(stretch), 0):
        legal = (it for it in next_lines(stretch, width, *place) if is_legal(*it[2]))
        _, line, place = max(legal, key=lambda it: it[0])
        lines.append(line)
    return lines


def page_lines(paragraphs, width):
    if width == 0:
        return None
    lines = []
    for text in paragraphs:
        own = fullest_layout(text, width)
        if own is None:
            return None
        lines += [""] * any(lines) + own
    return lines


def run(program, page, width):
    return subprocess.run([program, "--width", str(width)], input=page, capture_output=True)


def compare_pages(program, count, chosen):
    wrong = 0
    for _ in range(count):
        paragraphs = [
            "".join(chosen.choice(ALPHABET) for _ in range(chosen.randint(0, 12))) for _ in range(chosen.randint(0, 3))
        ]
        width = chosen.randint(0, 6)
        page = "".join(f"<p>{it}</p>" for it in paragraphs)
        ran, wanted = run(program, page.encode(), width), page_lines(paragraphs, width)
        if wanted is None:
            well = ran.returncode == 1 and b"not wide enough" in ran.stderr and not ran.stdout
        else:
            well = ran.returncode == 0 and ran.stdout.decode() == "".join(f"{it}\n" for it in wanted)
        if not well:
            wrong += 1
            print(f"width {width}, {page!r}: {ran.stdout.decode()!r}, not {wanted!r}")
    print(f"{count} pages, {wrong} wrong")


def compare_texts(program, count, chosen):
    wrong = 0
    while count > 0:
        text_bytes = bytes(chosen.choice(BYTES) for _ in range(chosen.randint(1, 12)))
        text = text_bytes.decode("utf-8", "replace")
        if any(c.isspace() or c == "\u200b" or unicodedata.category(c).startswith("C") for c in text):
            continue
        count -= 1
        found = run(program, b"<p>" + text_bytes + b"</p>", 4000).stdout.decode()
        if found != text + "\n":
            wrong += 1
            print(f"{text_bytes!r}: {found!r}, not {text!r}")
    print(f"texts compared, {wrong} wrong")


def main():
    program, pages, texts = sys.argv[1], int(sys.argv[2]), int(sys.argv[3])
    chosen = random.Random(11)
    compare_pages(program, pages, chosen)
    compare_texts(program, texts, chosen)


main()
