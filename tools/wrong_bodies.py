#!/usr/bin/env python3
"""Tries the wrong bodies of crates: the prover must refuse each edit of crates/NAME/wrong-bodies/.

    tools/wrong_bodies.py [--all | --since COMMIT | NAME..] [--over TREE] [--keep FOLDER] [--applies]

It takes the named crates, or with --all each that has such edits; without names those whose files, or whose lower
crates' files, changed since the commit (the last one without --since). It works on a copy of HEAD, on as many crates
at once as processors and memory allow (or as RT_JOBS says).

Edits of different functions are planted together, as many as there are functions, and one check says which of these
functions are not proved: an edit is refused where its function's own goals are. Each check takes over what the ones
before it proved. Alone are tried: an edit that is no function's body (but a clause, a table, a definition), one whose
function is proved in such a check (a caller or a law may refuse it), and one that the check of several says nothing of.

--over TREE takes the libraries below from a clone in which tools/gate_on.py has proved them (this one without it),
where their sources are the same; what is lacking is proved first. A crate that was not proved there itself is first
checked as it is. --keep FOLDER keeps what checks prove there, for the next call. --applies checks nothing, and says of
which edits the text that they change is no longer there once.

A line for each crate: `NAME: N refused, M let through (K checks)`, and below it a line for each edit that is let
through, no longer applies, does not compile, or is refused only for a name that a proof of its function lost, which
says little of the contract. How far it is stands on standard error. The status is 1 where an edit is let through, no
longer applies or does not compile, or a crate is not proved without edits, and 2 for a wrong word.
"""

import io
import os
import re
import shutil
import signal
import subprocess
import sys
import tarfile
import tempfile
from dataclasses import dataclass, field

sys.dont_write_bytecode = True
import gate_on

TOP = os.path.dirname(os.path.dirname(os.path.realpath(__file__)))
PARTS = ("src", "specs", "proofs", "wrong-bodies")
HEADER = re.compile(r"( *)(?:pub(?:\([a-z]+\))? )?(?:(?:const|unsafe|safe|extern \"C\") )*fn (\w+)")
OUTER = re.compile(r" *(?:pub(?:\([a-z]+\))? )?(?:unsafe )?(impl|trait|mod)\b(.*)")
# What antt says of a proof file that names what the edit took away.
LOST = re.compile(r"has no field|is not in scope|has no `|was not admitted")


@dataclass(frozen=True)
class Function:
    """A function of a source file: its name, the block that it stands in, its first line and those of its body."""

    file: str
    outer: str
    name: str
    head: int
    first: int
    last: int

    def key(self):
        return self.file, self.outer, self.name

    def module(self):
        path = self.file[len("src/") : -len(".rt")].split("/")
        return path[:-1] if path[-1] in ("lib", "main", "mod") else path

    def is_changed(self, line, old, new):
        """Whether an edit at this line gives it another body: it lies in the body, or puts one after a clause."""
        return self.first <= line <= self.last or self.head <= line < self.first and new.startswith(old)

    def is_printed_as(self, path):
        """Whether a check prints it with this path below the crate: a module, with the type and the trait, and it."""
        if path[-1] != self.name:
            return False
        if not self.outer:
            return path[:-1] == self.module()
        return len(path) > 1 and is_outer(path[-2], self.outer)


def path_of(printed):
    """A printed name's path below its crate; a closure has that of its function."""
    path = printed.split("::")[1:]
    if "fn" in path[:-1]:
        at = path.index("fn")
        path = [*path[:at], path[at + 1]]
    return path


def words_of(text):
    """The words of a type or a trait, as names of functions have them: each the last of its path."""
    return re.findall(r"(?:\w+::)*(\w+)", re.sub(r"'\w+|\b(?:dyn|mut)\b", "", text)) or [""]


def is_outer(word, outer):
    """Whether a word stands for an `impl` or a `trait`: the type, with the trait and its parameters."""
    kind, text = outer.split(" ", 1)
    if kind != "impl":
        return word == words_of(text)[0]
    text = re.split(r"\bwhere\b|\{", without_first_parameters(text))[0]
    trait, is_trait, of = text.partition(" for ")
    if not is_trait:
        return word == words_of(text)[0]
    base, trait = words_of(of)[0], words_of(trait)
    return word == base or word.startswith(base + trait[0]) and (base + "".join(trait)).startswith(word)


def without_first_parameters(text):
    text = text.strip()
    depth = 0
    for at, letter in enumerate(text):
        depth += (letter == "<") - (letter == ">" and text[at - 1] != "-")
        if not depth:
            return text[at + 1 :] if letter == ">" else text
    return text


def functions_of(file, text):
    """The functions of a file, which `rt fmt` has laid out: a body ends where its first line's indentation is again."""
    lines, found, outers = text.split("\n"), [], []
    for at, line in enumerate(lines):
        indent = len(line) - len(line.lstrip())
        header, block = HEADER.match(line), OUTER.match(line)
        if block and line.rstrip().endswith((";", "{}")):
            continue
        if block:
            outers = [*[it for it in outers if it[0] < indent], (indent, f"{block[1]} {block[2]}")]
        if not header:
            continue
        around = [it for it in outers if it[0] < indent]
        outer = around[-1][1] if around and not around[-1][1].startswith("mod") else ""
        begin = next((it for it in range(at, len(lines)) if opens_body(lines[it], indent)), None)
        if begin is None or any(re.match(rf" {{{indent}}}\S.*;$", it) for it in lines[at : begin + 1]):
            continue
        end = begin
        if not lines[begin].endswith("{}"):
            end = next(it for it in range(begin + 1, len(lines)) if lines[it] == " " * indent + "}")
        found.append(Function(file, outer, header[2], at + 1, begin + 1, end + 1))
    return found


def opens_body(line, indent):
    return len(line) - len(line.lstrip()) == indent and line.endswith(("{", "{}"))


@dataclass
class Edit:
    """An edit, with the functions whose bodies it changes; none where it is to be tried alone."""

    path: str
    pairs: list
    functions: set = field(default_factory=set)
    avoids: set = field(default_factory=set)

    def name(self):
        return os.path.basename(self.path)


def read_edit(path):
    pairs, file, old = [], "", ""
    with open(path, encoding="utf-8") as it:
        for line in it.read().split("\n"):
            if line.startswith("file: "):
                file = line[len("file: ") :].strip()
            elif line.startswith("old: "):
                old = line[len("old: ") :]
            elif line.startswith("new:"):
                pairs.append((file, old, re.sub(r"\A ", "", line[len("new:") :])))
    return Edit(path, pairs)


def edits_in(folder):
    return [read_edit(f"{folder}/{it}") for it in sorted(os.listdir(folder)) if it.endswith(".edit")]


def planted(edit, texts, read):
    """The texts with the edit, and the functions whose bodies it changes; or None where it does not apply to them."""
    texts, functions, has_places = dict(texts), set(), True
    for file, old, new in edit.pairs:
        text = texts[file] if file in texts else read(file)
        if text.count(old) != 1:
            return None
        at = text.find(old)
        line = text.count("\n", 0, at) + 1
        around = []
        if file.startswith("src/") and file.endswith(".rt"):
            # (of a function in a function the inner one)
            around = [it for it in functions_of(file, text) if it.is_changed(line, old, new)][-1:]
        has_places = has_places and bool(around)
        functions |= {it.key() for it in around}
        texts[file] = text[:at] + new + text[at + len(old) :]
    return texts, functions if has_places else set()


class Trial:
    """The edits of one crate, and what checks say of them."""

    def __init__(self, rt, crate, folder, kept, jobs):
        self.rt, self.crate, self.kept, self.flags = rt, crate, kept, ["--jobs", str(jobs)]
        self.checks, self.refused, self.through, self.said, self.names = 0, 0, 0, [], []
        self.is_well, self.edits = True, edits_in(folder)

    def read(self, file):
        with open(f"{self.crate.folder}/{file}", encoding="utf-8") as it:
            return it.read()

    def check(self, texts):
        self.checks += 1
        ran = self.rt.checked(self.crate, texts, self.flags, self.kept)
        return ran.returncode, ran.stdout.rstrip("\n").split("\n")

    def fails(self, edit, why):
        self.is_well = False
        self.said.append(f"{edit.name()}: {why}")

    def is_proved(self, log):
        """Whether the crate is proved as it is, by the log of its proof or by a check, and which functions it has."""
        if log:
            lines = log.split("\n")
        else:
            status, lines = self.check({})
            if status:
                self.is_well = False
                shown = [it[:200] for it in lines if "error" in it or "not proved" in it]
                self.said = shown[:10] or lines[-3:]
                return False
        self.names = [it[1] for it in (re.match(r"fn (\S+): proved", line) for line in lines) if it]
        return True

    def run(self, log=""):
        if not self.is_proved(log):
            return f"{self.crate.name}: not proved without an edit"
        waiting, alone = [], []
        for edit in self.edits:
            _, why = self.rt.read_edit(edit.path, self.crate.folder)
            if why:
                self.fails(edit, f"no longer applies: {why}")
                continue
            edit.functions = planted(edit, {}, self.read)[1]
            known = all(self.printed(it) for it in edit.functions)
            (waiting if edit.functions and known else alone).append(edit)
        while waiting:
            waiting = self.try_together(waiting, alone)
        for edit in alone:
            self.try_alone(edit)
        rest = len(self.edits) - self.refused - self.through
        more = f", {rest} not tried" if rest else ""
        one = "check" if self.checks == 1 else "checks"
        return f"{self.crate.name}: {self.refused} refused, {self.through} let through{more} ({self.checks} {one})"

    def printed(self, key):
        """The names under which a check prints a function and its closures."""
        function = Function(*key, 0, 0, 0)
        found = [it for it in self.names if function.is_printed_as(path_of(it))]
        # (an impl may stand in another module than its type)
        found = [it for it in found if path_of(it)[:-2] == function.module()] or found
        return found if len({(*path_of(it),) for it in found}) == 1 else []

    def try_together(self, waiting, alone):
        """Tries as many of the edits as change different functions, and returns those that are still to be tried."""
        texts, batch, taken, later = {}, [], set(), []
        for edit in waiting:
            made = planted(edit, texts, self.read)
            if made is None or made[1] != edit.functions or taken & (edit.functions | edit.avoids):
                later.append(edit)
            else:
                texts, batch, taken = made[0], [*batch, edit], taken | edit.functions
        if not batch:
            alone += later
            return []
        status, lines = self.check(texts)
        if status == 0 or not any(it.startswith("fn ") for it in lines):
            faulty = self.at_fault(batch, texts, lines) if status else batch
            alone += faulty or batch
            return [*[it for it in batch if faulty and it not in faulty], *later]
        failed = failed_in(lines)
        changed = {name for edit in batch for key in edit.functions for name in self.printed(key)}
        for name in sorted(failed.keys() & {*self.names} - changed):
            if goals_of(name, failed[name], lines):
                self.is_well = False
                self.said.append(f"{name}: not proved in a check of edits, though none of them changes it")
        for edit in batch:
            is_refused = self.judge(edit, lines, failed)
            if is_refused:
                self.take(edit, "refused only for a name that its proof lost" if is_refused == "lost" else "")
            elif is_refused is None and len(batch) > 1 and not edit.avoids:
                edit.avoids = taken - edit.functions
                later.append(edit)
            else:
                alone.append(edit)
        return later

    def take(self, edit, why):
        self.refused += 1
        if why:
            self.said.append(f"{edit.name()}: {why}")

    def at_fault(self, batch, texts, lines):
        """The edits in whose functions the front end sees an error."""
        places = [re.match(r"(?:\./)?(src/\S+?):(\d+):\d+: error", it) for it in lines]
        wrong = set()
        for file, line in {(it[1], int(it[2])) for it in places if it}:
            text = texts[file] if file in texts else self.read(file)
            wrong |= {it.key() for it in functions_of(file, text) if it.head <= line <= it.last}
        return [it for it in batch if it.functions & wrong]

    def judge(self, edit, lines, failed):
        """Whether goals of the edit's functions are refused (`lost` where only names are): None where the check does
        not say, since a function that they call is not proved."""
        names = {name for key in edit.functions for name in self.printed(key)}
        found = {goals_of(it, failed[it], lines) for it in names & failed.keys()}
        if not found:
            return False
        return next((it for it in (True, "lost") if it in found), None)

    def try_alone(self, edit):
        """Tries one edit as the gate tries its own."""
        self.checks += 1
        is_refused, said = self.rt.must_fail(self.crate, edit.path, self.flags, self.kept)
        said = said.partition(f"{edit.name()}: ")[2]
        if is_refused:
            self.take(edit, "refused only for a name that its proof lost" if "(only because" in said else "")
        elif "NOT REFUSED" in said:
            self.through += 1
            self.fails(edit, "let through")
        else:
            why = said.partition("BAD EDIT: ")[2].removeprefix("it did not reach the prover; ")
            self.fails(edit, "does not compile: " + " ".join(why.split("\n"))[:300])


def failed_in(lines):
    """What a check says of each function that is not proved."""
    found = (re.match(r"fn (\S+): ((?:not proved|no proof|could not tell).*)", it) for it in lines)
    return {it[1]: it[2] for it in found if it}


def goals_of(name, why, lines):
    """Whether a function that is not proved has goals of its own that are not (`lost` where only names are)."""
    # (functions that call one another have one proof, which does not say whose goal it is)
    if "did not prove" in why and "proofs/+" not in why:
        return True
    folder = "/".join(["proofs", *name.split("::")[1:]]) + "/"
    own = [it for it in lines if re.match(rf"(?:\./)?{re.escape(folder)}\S+:\d+:\d+: error", it)]
    if not own:
        return None
    return "lost" if all(LOST.search(it) for it in own) else True


def stop(why):
    print(f"wrong_bodies: {why}", file=sys.stderr)
    sys.exit(2)


def git(*words):
    ran = subprocess.run(["git", "-C", TOP, *words], stdout=subprocess.PIPE, check=False)
    if ran.returncode:
        stop(f"git {' '.join(words)} failed")
    return ran.stdout


def options():
    """The words of the command line: what is wanted, and the crates that are named."""
    given, names, words = {"--since": "HEAD~1", "--over": TOP, "--keep": ""}, [], sys.argv[1:]
    while words:
        word = words.pop(0)
        if word in given and words:
            given[word] = words.pop(0)
        elif word in ("--all", "--applies"):
            given[word] = True
        elif word.startswith("-"):
            print(__doc__, file=sys.stderr)
            sys.exit(2)
        else:
            names.append(word)
    given["--over"] = os.path.abspath(given["--over"])
    given["--keep"] = given["--keep"] and os.path.abspath(given["--keep"])
    return given, names


def wanted(gate, given, names):
    """The crates whose edits are to be tried."""
    known = {it.name: it for it in gate.crates}
    for name in names:
        if name not in known:
            stop(f"no crate {name}")
    have = [it for it in gate.crates if os.path.isdir(f"{it.folder}/wrong-bodies")]
    if names:
        return [it for it in have if it.name in names]
    if given.get("--all"):
        return have
    changed = {tuple(it.split("/")[1:3]) for it in git("diff", "--name-only", given["--since"]).decode().split("\n")
               if it.startswith("crates/") and it.count("/") > 2}
    is_changed = {name for name, part in changed if part in PARTS}
    return [it for it in have if is_changed & {dep.name for dep in [it, *gate.below(it)]}]


def proved_in(gate, crate, tree):
    """The folder with what a tree keeps of a crate's proof, where it is proved there with the same sources."""
    made = f"{tree}/crates/{crate.name}/out"
    return made if gate.lib.text_of(f"{made}/passed-proof") == gate.stamp(crate) else ""


def take_over(gate, crate, tree):
    """Takes a library from a tree in which it is proved, by links."""
    made = proved_in(gate, crate, tree)
    if not made or not os.path.isdir(f"{made}/rlib"):
        return
    os.makedirs(f"{crate.folder}/out", exist_ok=True)
    same_disk = os.stat(made).st_dev == os.stat(crate.folder).st_dev
    shutil.copytree(f"{made}/rlib", f"{crate.folder}/out/rlib", copy_function=os.link if same_disk else shutil.copy2)
    shutil.copy2(f"{made}/passed-proof", f"{crate.folder}/out/passed-proof")


def attempt(rt, gate, crate, given, room, jobs):
    """Tries the edits of a crate, and says how they went."""
    kept = f"{given['--keep'] or room}/{crate.name}"
    os.makedirs(kept, exist_ok=True)
    trial = Trial(rt, crate, f"{crate.folder}/wrong-bodies", kept, jobs)
    made = proved_in(gate, crate, given["--over"])
    line = trial.run(gate.lib.text_of(f"{made}/log-proof") if made else "")
    with gate_on.PRINTING:
        print("\n".join([line, *[f"  {it}" for it in trial.said]]), flush=True)
    return trial.is_well


def tasks_of(rt, gate, crates, given, room):
    """What is to be proved below the crates, and their edits, for the kit to run side by side."""
    tasks = {}
    for crate in gate.crates:
        waits, lines = [(it.name, "proof") for it in gate.below(crate)], crate.count(rb"\n")

        def prove(before, jobs, crate=crate):
            return gate.work(crate, "proof", before, jobs)

        def edits(before, jobs, crate=crate):
            if all(before[it.name, "proof"] for it in gate.below(crate)):
                return attempt(rt, gate, crate, given, room, jobs)
            print(f"{crate.name}: a crate below is not proved", flush=True)
            return False

        if any(crate in gate.below(it) for it in crates):
            take_over(gate, crate, given["--over"])
            tasks[crate.name, "proof"] = waits, lines, rt.need(crate), prove
        if crate in crates:
            tasks[crate.name, "bodies"] = waits, lines, rt.need(crate), edits
    return tasks


def apply_alone(rt, crates):
    """Says which edits no longer apply."""
    is_well = True
    for crate in crates:
        edits = edits_in(f"{crate.folder}/wrong-bodies")
        faults = [(it.name(), rt.read_edit(it.path, crate.folder)[1]) for it in edits]
        faults = [it for it in faults if it[1]]
        print("\n  ".join([f"{crate.name}: {len(edits) - len(faults)} apply", *map(": ".join, faults)]))
        is_well = is_well and not faults
    return is_well


def main():
    given, names = options()
    # (so that a run that is ended leaves no copy)
    signal.signal(signal.SIGTERM, lambda *_: sys.exit(1))
    with tempfile.TemporaryDirectory(prefix="wrong-bodies-") as room:
        tree = f"{room}/tree"
        with tarfile.open(fileobj=io.BytesIO(git("archive", "HEAD"))) as it:
            it.extractall(tree)
        os.chdir(tree)
        gate_on.say = lambda text: print(text, file=sys.stderr, flush=True)
        rt = gate_on.load_rt()
        gate = gate_on.Gate(rt, tree)
        crates = wanted(gate, given, names)
        if given.get("--applies"):
            return 0 if apply_alone(rt, crates) else 1
        return 0 if all(rt.in_lanes(tasks_of(rt, gate, crates, given, room)).values()) else 1


if __name__ == "__main__":
    sys.exit(main())
