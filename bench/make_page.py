"""Writes a page of paragraphs to standard output, of about the given megabytes."""
import random
import sys

WORDS = (
    "the quick brown fox jumps over lazy dogs wrapping paragraphs &amp; naïve 漢字 information a of to and".split()
)


def main():
    left = int(sys.argv[1]) * 1_000_000
    chosen = random.Random(1)
    while left > 0:
        paragraph = "<p>" + " ".join(chosen.choice(WORDS) for _ in range(60)) + "</p>"
        sys.stdout.write(paragraph)
        left -= len(paragraph.encode())


main()
