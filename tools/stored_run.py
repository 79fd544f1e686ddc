#!/usr/bin/env python3
"""Says which cases of a program's stored run differ, and how.

    tools/stored_run.py [NAME] [--wrote FILE] [--case WORDS]..
    tools/stored_run.py [NAME] [--case WORDS].. -- COMMAND..
    tools/stored_run.py [NAME] [--case WORDS].. --list

NAME is a crate with the files stdin and stdout, stored_rows without it. What the program wrote is in out/stdout of the
crate, where `rt ci` leaves it, or in FILE, or it is what the command writes: it runs in the crate's folder and is given
the cases that are asked for, all of them without --case. So

    tools/stored_run.py --case 'tree 12' -- rt try

runs one case without proof. A case has a name: its kind, its number among those of the kind, and a part of its text, as
`tree 12 td-x-1-x-2`. --case takes it by that name, or by its kind, or by its kind and number; --list shows the names,
each with its line of stdin.

Of each case that differs come its name, its text, and its lines as a diff from what is wanted to what was written; of
those after the tenth only the names. The last line counts the cases. The status is 0 where no case differs, 1 where one
does, and 2 for a wrong word.
"""

import difflib
import os
import re
import subprocess
import sys
from dataclasses import dataclass

TOP = os.path.dirname(os.path.dirname(os.path.realpath(__file__)))
SHOWN, LINES, SLUG = 10, 200, 32


@dataclass(frozen=True)
class Form:
    """How a program's cases stand in its stdin and stdout: an empty line ends a case, and an answer, but for kinds
    whose answer is one line, and kinds that have none and are there for the cases of another kind after them."""

    one_line: tuple = ()
    serving: tuple = ()


# Of a program that is not named here all of the input is one case.
FORMS = {
    "stored_rows": Form(one_line=("reference",), serving=(("table", "reference"),)),
}


@dataclass(eq=False)
class Case:
    """A case: its kind and number, its text and where it begins in stdin, and what is wanted as its answer."""

    kind: str
    number: int
    text: str
    line: int
    wanted: str = ""

    def name(self):
        words = re.findall(r"\w+", self.text.partition("\t")[2].split("\n")[0])
        slug = "-".join(it for it in words if it not in ("N", "n"))[:SLUG].strip("-")
        return f"{self.kind} {self.number} {slug}".rstrip()

    def is_asked_by(self, words):
        return words in (self.kind, f"{self.kind} {self.number}", self.name())


def cases_of(given, form):
    """The cases of a program's input."""
    if not form:
        return [Case("whole", 1, given, 1)]
    found, numbers, line = [], {}, 1
    for text in given.removesuffix("\n\n").split("\n\n"):
        kind = text.partition("\t")[0].partition("\n")[0]
        numbers[kind] = numbers.get(kind, 0) + 1
        found.append(Case(kind, numbers[kind], text, line))
        line += text.count("\n") + 2
    return found


def answers_of(cases, output, form):
    """Parts an output into answers, one for each of these cases; what is left over comes last."""
    found, at = [], 0
    for case in cases:
        if not form:
            end = len(output)
        elif case.kind in form.one_line or output.startswith("\n", at):
            end = output.find("\n", at) + 1
        else:
            end = output.find("\n\n", at) + 2
        if end < at + 1 or at == len(output):
            break
        found.append(output[at:end])
        at = end
    return [*found, output[at:]] if at < len(output) else found


def pairs_of(cases, answers):
    """Each case with what was written as its answer, None where nothing was; and answers that are no case's."""
    if len(answers) == len(cases):
        return [*zip(cases, answers)], []
    found, beside = [], []
    wanted = [it.wanted for it in cases]
    for _, a, b, c, d in difflib.SequenceMatcher(None, wanted, answers, autojunk=False).get_opcodes():
        some = [*answers[c:d], *[None] * (b - a)]
        found += zip(cases[a:b], some)
        beside += answers[c:d][b - a :]
    return found, beside


def run(command, folder, given):
    ran = subprocess.run(command, cwd=folder, input=given.encode(), stdout=subprocess.PIPE, check=False)
    if ran.returncode:
        print(f"the command ended with status {ran.returncode}")
    return ran.stdout.decode(errors="replace")


def show(case, answer):
    """The case, and its answer as a diff."""
    wanted, written = case.wanted.split("\n"), (answer or "").split("\n")
    said = "no answer" if answer is None else f"{len(wanted) - 1} lines wanted, {len(written) - 1} written"
    print(f"{case.name()}: {said} (stdin, line {case.line})")
    print("\n".join(f"    {it}" for it in case.text.split("\n")))
    for line in [*difflib.unified_diff(wanted, written, "wanted", "written", lineterm="")][:LINES]:
        print(f"  {line}")


def stop(why):
    print(f"stored_run: {why}", file=sys.stderr)
    sys.exit(2)


def text_of(file):
    try:
        with open(file, encoding="utf-8", errors="replace", newline="") as it:
            return it.read()
    except OSError as why:
        return stop(f"{file}: {why.strerror}")


def options():
    """The words of the command line."""
    given, words, command = {"--wrote": "", "--list": False, "--case": []}, sys.argv[1:], []
    if "--" in words:
        words, command = words[: words.index("--")], words[words.index("--") + 1 :]
    names = []
    while words:
        word = words.pop(0)
        if word == "--list":
            given[word] = True
        elif word == "--wrote" and words:
            given[word] = words.pop(0)
        elif word == "--case" and words:
            given[word].append(words.pop(0))
        elif word.startswith("-") or names:
            print(__doc__, file=sys.stderr)
            sys.exit(2)
        else:
            names.append(word)
    return given, names[0] if names else "stored_rows", command


def input_of(cases, asked, form):
    """The input that has the cases that are asked for, and what serves them."""
    if not form:
        return cases[0].text
    kinds, asked = {it.kind for it in asked}, {*asked}
    serving = {kind for kind, served in form.serving if served in kinds}
    return "".join(f"{it.text}\n\n" for it in cases if it in asked or it.kind in serving)


def main():
    given, name, command = options()
    folder, form = f"{TOP}/crates/{name}", FORMS.get(name)
    cases = cases_of(text_of(f"{folder}/stdin"), form)
    answered = [it for it in cases if not form or it.kind not in dict(form.serving)]
    wanted = answers_of(answered, text_of(f"{folder}/stdout"), form)
    if len(wanted) != len(answered):
        stop(f"{name}: {len(answered)} cases have answers, and the file stdout has {len(wanted)}")
    for case, answer in zip(answered, wanted):
        case.wanted = answer
    for words in given["--case"]:
        if not any(it.is_asked_by(words) for it in answered):
            stop(f"no case {words}")
    asked = [it for it in answered if not given["--case"] or any(it.is_asked_by(words) for words in given["--case"])]
    if given["--list"]:
        print("\n".join(f"{it.line}\t{it.name()}" for it in asked))
        return 0
    if command:
        output = run(command, folder, input_of(cases, asked, form))
        pairs, beside = pairs_of(asked, answers_of(asked, output, form))
    else:
        output = text_of(given["--wrote"] or f"{folder}/out/stdout")
        pairs, beside = pairs_of(answered, answers_of(answered, output, form))
        pairs = [it for it in pairs if it[0] in {*asked}] if given["--case"] else pairs
    wrong = [it for it in pairs if it[0].wanted != it[1]]
    for at, (case, answer) in enumerate(wrong):
        if at < SHOWN:
            show(case, answer)
        else:
            print(case.name())
    for answer in beside[:SHOWN]:
        print("written beside:", *answer.split("\n"), sep="\n  ")
    print(f"{name}: {len(wrong)} of {len(pairs)} cases differ" + (f", {len(beside)} answers beside" if beside else ""))
    return 1 if wrong or beside else 0


if __name__ == "__main__":
    sys.exit(main())
