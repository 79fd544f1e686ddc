"""Writes a page of a kind to standard output, of about the given megabytes."""
import random
import sys

WORDS = "the quick brown fox jumps over lazy dogs wrapping paragraphs naïve 漢字 information a of to and".split()


def words(chosen, count):
    return " ".join(chosen.choice(WORDS) for _ in range(count))


def markup(chosen, number):
    """A list's item with a link, an image now and then, a reference now and then."""
    image = f'<img src="/images/{number}.png" alt="{words(chosen, 2)}" width=640 />' if number % 4 == 0 else ""
    ampersand = " &amp; " if number % 3 == 0 else " "
    return (
        f'<li class="item item-{number % 7}">{image}'
        f'<a href="/pages/{number}?from=list" title="{words(chosen, 3)}">{words(chosen, 4)}</a>\n'
        f"<p>{words(chosen, 25)}{ampersand}<em>{words(chosen, 3)}</em> {words(chosen, 10)}.</p></li>\n"
    )


def text(chosen, _number):
    return words(chosen, 60) + "\n"


def references(chosen, number):
    return (
        f"{words(chosen, 2)}&amp;{words(chosen, 1)}&#{65 + number % 26};&lt;"
        f"{words(chosen, 1)}&#x{97 + number % 26:x};&nbsp;"
    )


def comment(chosen, _number):
    return words(chosen, 20) + " - -- > "


def attributes(chosen, number):
    return f' data-{number}="{words(chosen, 3)}"'


def script(chosen, number):
    return (
        f"  if (count_{number} < limit && items[{number}] !== null) {{ "
        f"add('<b>{words(chosen, 2)}</b>'); total -= {number}; }}\n"
    )


# of each kind: what stands before and after the parts, and a part
KINDS = {
    "markup": ("<!DOCTYPE html><ul>", markup, "</ul>"),
    "text": ("", text, ""),
    "references": ("", references, ""),
    "comment": ("<!--", comment, "-->"),
    "attributes": ("<p", attributes, ">"),
    "script": ("", script, ""),
}


def main():
    before, part, behind = KINDS[sys.argv[1]]
    left = round(float(sys.argv[2]) * 1_000_000)
    chosen = random.Random(1)
    sys.stdout.write(before)
    number = 0
    while left > 0:
        written = part(chosen, number)
        sys.stdout.write(written)
        left -= len(written.encode())
        number += 1
    sys.stdout.write(behind)


main()
