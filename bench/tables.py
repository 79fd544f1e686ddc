#!/usr/bin/env python3
"""Times the built program html2text_program on pages of tables, at width 72 and on a stack of one megabyte.

    bench/tables.py PROGRAM

A line says what program.py says.
"""

import sys

from program import show_all

ROW = "<tr><td>some words<td>and others<td>here</tr>"


def rows(count, row=ROW):
    """A table of that many rows."""
    return "<table>" + row * count + "</table>"


def spans_that_end_in_turn(count):
    """Rows of three cells, whose row spans end in the last row or the last but one in turn."""
    cells = [f"<tr><td rowspan={count - row - row % 2}>a<td>b<td>c</tr>" for row in range(count)]
    return "<table>" + "".join(cells) + "</table>"


def nested(depth):
    """Tables within one another."""
    return "<table><tr><td>a<td>" * depth + "x" + "</table>" * depth


def pages():
    """The pages, each with its name."""
    for count in (25000, 50000, 100000):
        yield f"{count:,} rows of three cells", rows(count)
    for count in (250, 500, 1000):
        yield f"{count:,} columns in a row", "<table><tr>" + "<td>a" * count + "</table>"
    for depth in (25, 50, 100):
        yield f"tables within one another, to depth {depth}", nested(depth)
    for count in (2500, 5000, 10000):
        yield f"{count:,} cells with `colspan=1000000000`", rows(count, "<tr><td colspan=1000000000>a</tr>")
        yield f"{count:,} cells with `rowspan=999999999`", rows(count, "<tr><td rowspan=999999999>a</tr>")
    for count in (2500, 5000, 10000):
        yield f"{count:,} rows with spans that end in turn", spans_that_end_in_turn(count)


def main():
    if len(sys.argv) != 2:
        sys.exit(__doc__)
    show_all(sys.argv[1], pages())


if __name__ == "__main__":
    main()
