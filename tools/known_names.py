#!/usr/bin/env python3
"""Writes what follows from the list of the standard's names that are known without a text.

    tools/known_names.py [--check] [--add NAME]

The list is the definition `known_text` in crates/lex_base/specs/Known.antt, a line a name; --add NAME writes that
line first. Written from it are

- in lex_base the enum `KnownName`, its texts, `all_known`, the table by which a text is looked up with its hash, and
  the lemma that goes through all names;
- in tree_names the table of each set, by the definition of the set in specs/, and which count each name has;
- in tree_names the group of each name, by `tree_names` in specs/Groups.antt;
- the edits that change a line of one of these tables.

So a name that belongs to a set or a group is added to its definition by hand, before the run. The names are numbered in
the order of their letters. The hash is (first byte + third * A + last * B) % 1024, where a byte that a name lacks is 0:
A and B are the pair with the least sum (of these the least A) for which no two names have one place.

Each file that changes is named. With --check none is written, and the status is 1 where one is not as it would be
written. Status 2: a wrong word, a name that is no name or known already, or names that no such hash keeps apart.
"""

import os
import re
import sys

TOP = os.path.dirname(os.path.dirname(os.path.realpath(__file__)))
PLACES, SHARED, COLUMNS = 1024, 128, 99
KNOWN, FIND = "crates/lex_base/src/known.rt", "crates/lex_base/src/find.rt"
NAMES = "crates/lex_base/specs/Known.antt"
LEMMAS, FIND_LEMMAS = "crates/lex_base/proofs/KnownLemmas.antt", "crates/lex_base/proofs/FindLemmas.antt"
TABLES, COUNTS = "crates/tree_names/src/tables.rt", "crates/tree_names/src/counts.rt"
GROUPS, GROUP_WORDS = "crates/tree_names/src/names.rt", "crates/tree_names/specs/Groups.antt"
SIZED = (KNOWN, FIND, TABLES, COUNTS, GROUPS, "crates/tree_names/src/element_sets.rt")
SETS = [f"crates/tree_names/specs/{it}.antt" for it in ("ElementSets", "TagSets", "Counts")]
# A table's definition has the table's name, in lower case, or this one.
DEFINITIONS = {"SPECIAL": "special_elements", "VOID": "void_elements"}
# Edits of tree_names that put one name into a table, or take it out.
TURNED = {
    "special_has_a_name_too_many": ("SPECIAL", "span"),
    "has_implied_end_tag_lacks_rtc": ("IMPLIED_END_TAGS", "rtc"),
    "is_button_scope_barrier_lacks_button": ("BUTTON_SCOPE_BARRIERS", "button"),
    "is_formatting_tag_lacks_strong": ("FORMATTING", "strong"),
    "is_heading_lacks_h6": ("HEADINGS", "h6"),
    "is_void_lacks_img": ("VOID", "img"),
}


class Refused(Exception):
    """What the names or the files do not allow."""


class Files:
    """The files as they are to be written."""

    def __init__(self):
        self.texts = {}

    def text(self, file):
        if file not in self.texts:
            with open(f"{TOP}/{file}", encoding="utf-8") as it:
                self.texts[file] = it.read()
        return self.texts[file]

    def put(self, file, pattern, made, times=1):
        """Puts what is made of each match in the place of the match."""
        text, found = re.subn(pattern, made, self.text(file), flags=re.S | re.M)
        if found != times:
            raise Refused(f"{file}: {pattern!r} is there {found} times, and not {times}")
        self.texts[file] = text

    def put_table(self, file, head, lines):
        pattern = rf"(^(?:pub\(crate\) )?{head}: [^\n]* = \[\n).*?(^\];)"
        self.put(file, pattern, lambda it: it[1] + "".join(lines) + it[2])

    def changed(self):
        """The files that differ from what they were."""
        found = []
        for file, text in sorted(self.texts.items()):
            with open(f"{TOP}/{file}", encoding="utf-8") as it:
                if it.read() != text:
                    found.append(file)
        return found

    def write(self, file):
        with open(f"{TOP}/{file}", "w", encoding="utf-8") as it:
            it.write(self.texts[file])


def variant(name):
    return "".join(part.capitalize() for part in name.split("-"))


def filled(words):
    """Words of an array, as many on a line as `rt fmt` puts there."""
    lines = [""]
    for word in words:
        if lines[-1] and len(lines[-1]) + len(word) + 6 > COLUMNS:
            lines.append("")
        lines[-1] += f" {word}," if lines[-1] else f"{word},"
    return [f"    {it}\n" for it in lines]


def bytes_of_place(name):
    text = name.encode()
    return text[0], text[2] if len(text) > 2 else 0, text[-1]


def multipliers(names):
    """The least multipliers by which no two names have one place."""
    looked_at = {}
    for name in names:
        other = looked_at.setdefault(bytes_of_place(name), name)
        if other != name:
            raise Refused(f"{other} and {name} have the same first, third and last byte: the hash needs another byte")
    for total in range(2 * PLACES - 1):
        for third in range(max(0, total - PLACES + 1), min(total + 1, PLACES)):
            taken = set()
            for one, two, three in looked_at:
                place = (one + two * third + three * (total - third)) % PLACES
                if place in taken:
                    break
                taken.add(place)
            else:
                return third, total - third
    raise Refused(f"no multipliers keep {len(names)} names apart in {PLACES} places")


class Words:
    """Lists of words that definitions of specs/ give, by their names."""

    def __init__(self, files, names):
        self.texts, self.found = {}, {}
        for file in names:
            definition = r"^abbrev pub (\w+) : .*\n\1 =(.*\n(?:[ \t]+\S.*\n)*)"
            self.texts.update(re.findall(definition, files.text(file), re.M))

    def of(self, name):
        if name not in self.found:
            if name not in self.texts:
                raise Refused(f"no definition of {name}")
            self.found[name] = self.read(self.texts[name])
        return self.found[name]

    def read(self, text):
        """The words of a list: `◌∷◌` and `++` put them in a row, and of a set of elements those of HTML count."""
        found = []
        for word, name in re.findall(r'codes "([^"]*)"|([a-z]\w*)', text):
            if word:
                found.append(word)
            elif name not in ("html_elements", "with_foreign_barriers"):
                found += self.of(name)
        return found


def enum_of(names):
    return "".join(f"    /// `{it}`.\n    {variant(it)},\n" for it in names)


def write_edit(files, crate, name, file, old, new):
    """An edit, in whichever folder of edits it stands."""
    if files.text(file).count(old) != 1:
        raise Refused(f"{crate}/{name}.edit: the text that it changes is not once in {file}: choose another by hand")
    path = file.removeprefix(f"crates/{crate}/")
    for folder in ("must-fail", "wrong-bodies"):
        edit = f"crates/{crate}/{folder}/{name}.edit"
        if os.path.exists(f"{TOP}/{edit}"):
            files.text(edit)
            files.texts[edit] = f"file: {path}\nold: {old}\nnew: {new}\n"


def write_known_names(files, names):
    """The names, their texts and the lemma on all of them."""
    variants = [variant(it) for it in names]
    known = "".join(f'known_text names.{it} = codes "{name}"\n' for it, name in zip(variants, names))
    files.put(NAMES, r"(?:^known_text names.*?\n)+", known)
    rows = "".join(f"    ∷ names.{it}\n" for it in [*variants[1:]])
    files.put(NAMES, r"^all_known = .*?∷ \[\]\n", f"all_known = names.{variants[0]}\n{rows}    ∷ []\n")
    files.put(KNOWN, r"(^pub enum KnownName \{\n).*?^\}", lambda it: it[1] + enum_of(names) + "}")
    files.put_table(KNOWN, "static TEXTS", [f'    "{it}",\n' for it in names])
    files.put_table(FIND, "static ALL", [f"    KnownName::{it},\n" for it in variants])
    lemma = "".join(f"at_number f d names.{it} = refl\n" for it in variants)
    files.put(LEMMAS, r"(?:^at_number f d names\.\w+ = refl\n)+", lemma)


def write_hash(files, names):
    """The hash of a text, the table of the numbers at their places, and the edit that exchanges two of these."""
    third, last = multipliers(names)
    for file, times in ((FIND, 1), (NAMES, 1), (FIND_LEMMAS, 4)):
        pattern = rf" \* \d+( \+ [^\n*]* \* )\d+\) % {PLACES}"
        files.put(file, pattern, rf" * {third}\g<1>{last}) % {PLACES}", times)
    none, numbers = len(names), [len(names)] * PLACES
    for number, (one, two, three) in enumerate(map(bytes_of_place, names)):
        numbers[(one + two * third + three * last) % PLACES] = number
    files.put_table(FIND, "static NUMBERS", filled(map(str, numbers)))
    files.put(FIND, r"\d+ where none has it", f"{none} where none has it")
    write_exchange(files, [str(it) for it in numbers], str(none))


def write_exchange(files, numbers, none):
    """The edit that exchanges the first two numbers beside one another whose neighbours are with them on a line."""
    for at in range(3, PLACES - 2):
        row = numbers[at - 3 : at + 3]
        old = ", ".join(row) + ","
        if none not in row[3:5] and files.text(FIND).count(old) == 1:
            turned = [*row[:3], row[4], row[3], row[5]]
            write_edit(files, "lex_base", "two_numbers_are_exchanged", FIND, old, ", ".join(turned) + ",")
            return
    raise Refused(f"no two numbers in {FIND} stand beside one another")


def stop_on_unknown(what, held, names):
    unknown = sorted({*held}.difference(names))
    if unknown:
        raise Refused(f"{what} has what is no known name: {', '.join(unknown)}")


def write_sets(files, names, words):
    """The table of each set, and the edits that turn one name in one of them."""
    tables = re.findall(r"static (\w+): \[bool;", files.text(TABLES))
    for table in tables:
        held = {*words.of(DEFINITIONS.get(table, table.lower()))}
        stop_on_unknown(table, held, names)
        files.put_table(TABLES, f"static {table}", filled("true" if it in held else "false" for it in names))
    for edit, (table, name) in TURNED.items():
        lines = re.search(rf"static {table}: [^\n]* = \[\n(.*?)^\];", files.text(TABLES), re.S | re.M)[1].split("\n")
        at = names.index(name)
        for line in lines:
            flags = line.strip(" ,").split(", ")
            if at < len(flags):
                flags[at] = "false" if flags[at] == "true" else "true"
                write_edit(files, "tree_names", edit, TABLES, line, f"    {', '.join(flags)},")
                break
            at -= len(flags)


def write_counts(files, names, words):
    """Which count each name has: its own, or one that it shares by a number that is made of its letters."""
    counted = words.of("counted_names")
    stop_on_unknown("counted_names", counted, names)

    def place(name):
        share = 0
        for byte in name.encode():
            share = (share * 31 + byte) % SHARED
        return counted.index(name) if name in counted else len(counted) + share

    files.put_table(COUNTS, "static PLACES", filled(str(place(it)) for it in names))
    if f"[usize; {len(counted) + SHARED}]" not in files.text(COUNTS):
        raise Refused(f"counted_names has {len(counted)} names: change the other numbers of {COUNTS} by hand first")


def write_groups(files, names, words):
    """The group of each name: that of the first row of `tree_names` that has it."""
    rows = re.findall(r"\(([^(]*), groups\.(\w+)\)", files.text(GROUP_WORDS).partition("\ntag_groups =")[2])
    groups = {name: group for held, group in reversed(rows) for name in words.read(held)}
    stop_on_unknown("tree_names", groups, names)
    lines = [f"    TagGroup::{groups.get(it, 'Other')}, // {it}\n" for it in names]
    files.put_table(GROUPS, "static GROUPS", lines)


def write_sizes(files, names):
    """How many names there are, in the types of the tables."""
    old = re.search(r"static TEXTS: \[&str; (\d+)\]", files.text(KNOWN))[1]
    for file in SIZED:
        files.texts[file] = files.text(file).replace(f"; {old}]", f"; {len(names)}]")


def names_of(files, more):
    """The names of the list, and those that are to be in it."""
    names = re.findall(r'^known_text names\.\w+ = codes "([^"]*)"$', files.text(NAMES), re.M)
    for name in more:
        if not re.fullmatch(r"[a-z][a-z0-9]*(-[a-z0-9]+)*", name) or name in names:
            raise Refused(f"{name} is {'known already' if name in names else 'no name in small letters'}")
        names.append(name)
    if len(names) > 255:
        raise Refused("more than 255 names: a number no longer fits a u8")
    return sorted(names)


def main():
    words, more = sys.argv[1:], []
    while "--add" in words[:-1]:
        at = words.index("--add")
        more.append(words[at + 1])
        del words[at : at + 2]
    if words not in ([], ["--check"]):
        print(__doc__, file=sys.stderr)
        return 2
    files = Files()
    try:
        names = names_of(files, more)
        held = Words(files, [*SETS, GROUP_WORDS])
        write_sizes(files, names)
        write_known_names(files, names)
        write_hash(files, names)
        write_sets(files, names, held)
        write_counts(files, names, held)
        write_groups(files, names, held)
    except Refused as why:
        print(f"known_names: {why}", file=sys.stderr)
        return 2
    changed = files.changed()
    for file in changed:
        if not words:
            files.write(file)
        print(f"{file}: {'is not as it would be written' if words else 'written'}")
    return 1 if words and changed else 0


if __name__ == "__main__":
    sys.exit(main())
