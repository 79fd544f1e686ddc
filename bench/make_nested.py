"""Writes a page of the given number of parts of a kind to standard output: pages on which a tree builder could take
more than its time."""
import sys

# of each kind: what stands before the parts, a part by its number, and what stands after them; of ENDS that as often
# as there are parts
KINDS = {
    "div": ("<!DOCTYPE html>", lambda n: "<div>", ""),
    "i": ("<!DOCTYPE html>", lambda n: "<i>", ""),
    "li": ("<!DOCTYPE html><ul>", lambda n: "<li>x", "</ul>"),
    "p": ("<!DOCTYPE html>", lambda n: "<p>x<b>y", ""),
    "flat": ("<!DOCTYPE html>", lambda n: "<p>x", ""),
    "cells": ("<!DOCTYPE html><table><tr>", lambda n: "<td>x", "</table>"),
    "a": ("<!DOCTYPE html>", lambda n: "<a href=x>y", ""),
    "attributes": ("<!DOCTYPE html><p", lambda n: f" data-{n}=x", ">"),
    "other_ends": ("<!DOCTYPE html>", lambda n: "<span>", "</x>"),
    "listed_ends": ("<!DOCTYPE html>", lambda n: f"<font size={n}>", "</a>"),
    "listed": ("<!DOCTYPE html>", lambda n: f"<font size={n}>", ""),
    "foreign_ends": ("<!DOCTYPE html><svg>", lambda n: "<g>", "</x>"),
    "adopted": ("<!DOCTYPE html>", lambda n: "<a><div>", ""),
    "fostered": ("<!DOCTYPE html><table>", lambda n: "<br>", "</table>"),
    "body_attributes": ("<!DOCTYPE html>", lambda n: f"<body a{n}=x>", ""),
}


ENDS = {"other_ends", "listed_ends", "foreign_ends"}


def main():
    kind, count = sys.argv[1], int(sys.argv[2])
    before, part, behind = KINDS[kind]
    times = count if kind in ENDS else 1
    sys.stdout.write(before + "".join(map(part, range(count))) + behind * times)


main()
