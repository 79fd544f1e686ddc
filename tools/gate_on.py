#!/usr/bin/env python3
"""Does what `rt ci` does, and goes on where the last call stopped.

    tools/gate_on.py TREE [--edits] [--no-tests] [NAME..]

TREE is a clone that no one else works in. Of the named crates, or of all, it makes the proof, the tests' proof and
(with --edits) the wrong bodies of must-fail/ as `rt ci` makes them, by the kit's own functions, each from nothing, and
last of all it runs tests and programs; of crates that stand below named ones it makes the proof alone. What has passed
is noted in the crate's out/ beside the sum of all that it stands on, and not made again until that changes: so a
mistake high up costs what stands on it, where a kit's `rt ci` begins from nothing. What a check printed is in
out/log-proof and out/log-tests. Each check's processor time goes to TREE/times.log (crate, kind, command, user and
system seconds, kilobytes, seconds), after a line where a crate's checks of a kind begin. RT_JOBS says how many checks
run at once, as many as there are processors without it.

The verdict is `rt ci`'s alone: it also looks at the repository as a whole (HANDLES, files that no check reads), and
trusts nothing of before.
"""

import atexit
import copy
import hashlib
import importlib.machinery
import importlib.util
import os
import shutil
import sys
import tempfile
import threading
import time

BEGUN = time.time()
PRINTING = threading.Lock()
TIMED = """#!/bin/bash
case "$1" in check | build) ;; *) exec {rattle} "$@" ;; esac
name="" kind=proof before=""
for word in "$@"; do
  [ "$before" = --crate-name ] && name=$word
  [ "$word" = --test ] && kind=tests
  before=$word
done
case "$PWD" in */rt-edit-*) kind=edits ;; esac
[ -n "$name" ] || exec {rattle} "$@"
exec /usr/bin/time -q -f "$name $kind $1 %U %S %M %e" -a -o {times} {rattle} "$@"
"""


def load_rt():
    """The kit's `rt` as a module; its `rtlib` is what the crates are made of."""
    file = os.path.realpath(shutil.which("rt"))
    loader = importlib.machinery.SourceFileLoader("kit_rt", file)
    made = importlib.util.module_from_spec(importlib.util.spec_from_loader("kit_rt", loader))
    sys.dont_write_bytecode = True
    loader.exec_module(made)
    return made


def say(text):
    with PRINTING:
        print(f"[{(time.time() - BEGUN) / 60:5.1f}] {text}", flush=True)


def compute_once(rt):
    """What stands below a crate, and the sum of its sources with all below, computed once a crate."""
    lib, below_of, sum_of = rt.rtlib, {}, {}
    kit = lib.text_of(f"{lib.KIT}/KIT-ID") or ""

    def below(crate):
        if crate.folder not in below_of:
            found = []
            for dep in crate.deps:
                found += [it for it in [*below(dep), dep] if it not in found]
            below_of[crate.folder] = found
        return below_of[crate.folder]

    def stamp(crate):
        if crate.folder not in sum_of:
            parts = [repr(crate.said), kit, *[stamp(dep) for dep in crate.deps]]
            for file in lib.files_of(crate.folder):
                with open(file, "rb") as it:
                    parts.append(f"{os.path.relpath(file, crate.folder)} {hashlib.sha256(it.read()).hexdigest()}")
            sum_of[crate.folder] = hashlib.sha256("\n".join(parts).encode()).hexdigest()
        return sum_of[crate.folder]

    for kind in rt.Crate.__mro__[:2]:
        kind.below, kind.stamp = below, stamp
    return below, stamp


class Gate:
    """The crates of a tree, and what of them has passed."""

    def __init__(self, rt, top):
        self.rt, self.lib = rt, rt.rtlib
        self.lib.stop = rt.stop
        room = tempfile.mkdtemp(prefix="gate-on-")
        atexit.register(shutil.rmtree, room, ignore_errors=True)
        timed = f"{room}/rattle"
        with open(timed, "w", encoding="utf-8") as it:
            it.write(TIMED.format(rattle=self.lib.RATTLE, times=f"{top}/times.log"))
        os.chmod(timed, 0o755)
        self.lib.RATTLE = timed
        rt.Crate.cuts_libraries = True
        for it in (self.lib.ALLOW_C, self.lib.BACKEND, "RT_SECONDS"):
            os.environ.pop(it, None)
        self.lib.guarded()
        rt.Crate.allowed = rt.handles_of(top)
        self.lib.Crate = rt.Crate
        self.below, self.stamp = compute_once(rt)
        self.crates = sorted(self.lib.crates_below(top), key=lambda it: len(self.below(it)))

    def sum_with_edits(self, crate):
        total = hashlib.sha256(self.stamp(crate).encode())
        for edit in self.rt.edits_of(crate)[0]:
            with open(edit, "rb") as it:
                total.update(it.read())
        return total.hexdigest()

    def prove(self, crate, tests, jobs):
        crate = copy.copy(crate)
        kind, status, begun = "tests" if tests else "proof", 1, time.time()
        with tempfile.TemporaryFile("a+", errors="replace") as crate.out:
            os.makedirs(f"{crate.folder}/out", exist_ok=True)
            try:
                is_laid_out = tests or not self.lib.fmt(crate.folder, "--check", crate.out)
                status = crate.ci(["--jobs", str(jobs)], tests) if is_laid_out else 1
            except SystemExit:
                pass
            crate.out.seek(0)
            said = crate.out.read()
        with open(f"{crate.folder}/out/log-{kind}", "w", encoding="utf-8") as it:
            it.write(said)
        say(f"{crate.name}: {kind} {'NOT proved' if status else 'proved'} in {time.time() - begun:.0f} s")
        if status:
            words = (": error", "rror[", ": not proved", "no proof", "not in the layout", "rt: ")
            shown = [it[:300] for it in said.split("\n") if any(word in it for word in words)]
            say("\n".join(shown[:30]) or said[-2000:])
        return not status

    def try_edits(self, crate):
        good, bad = self.rt.edits_of(crate)
        tried = self.rt.must_fail_all(crate, good, ["--jobs", "1"])
        for _, text in tried:
            say(text[:300])
        return not bad and all(well for well, _ in tried)

    def work(self, crate, kind, given, jobs):
        if not all(given.get((it.name, "proof")) for it in self.below(crate)):
            return False
        if kind == "edits" and not (given[crate.name, "proof"] and given.get((crate.name, "tests"), True)):
            return False
        if kind == "tests" and not crate.has_tests() or kind == "edits" and not self.rt.edits_of(crate)[0]:
            return True
        wanted = self.sum_with_edits(crate) if kind == "edits" else self.stamp(crate)
        note, made = f"{crate.folder}/out/passed-{kind}", crate.rlib
        if kind == "tests" or crate.is_program:
            made = f"{crate.folder}/out/{crate.name}{'_tests' if kind == 'tests' else ''}"
        if self.lib.text_of(note) == wanted and (kind == "edits" or os.path.exists(made)):
            return True
        with open(f"{os.getcwd()}/times.log", "a", encoding="utf-8") as log:
            log.write(f"{crate.name} {kind} begins 0 0 0 0\n")
        well = self.try_edits(crate) if kind == "edits" else self.prove(crate, kind == "tests", jobs)
        if well:
            with open(note, "w", encoding="utf-8") as it:
                it.write(wanted)
        return well

    def runs(self, crate):
        """Whether a program, and a crate's tests, do as they should once they are run."""
        for tests in (False, True):
            made = f"{crate.folder}/out/{crate.name}{'_tests' if tests else ''}"
            ends = [it for it in self.rt.BACKENDS.values() if (tests or crate.is_program) and os.path.isfile(made + it)]
            if not all(self.rt.run(crate, tests, it) for it in ends):
                return False
        return True


def main():
    words = sys.argv[1:]
    flags, words = {it for it in words if it.startswith("--")}, [it for it in words if not it.startswith("--")]
    if not words or flags - {"--edits", "--no-tests"}:
        print(__doc__, file=sys.stderr)
        return 2
    top = os.path.abspath(words[0])
    os.chdir(top)
    os.environ.setdefault("RT_JOBS", str(len(os.sched_getaffinity(0))))
    rt = load_rt()
    gate = Gate(rt, top)
    named = set(words[1:]) or {it.name for it in gate.crates}
    wanted = named | {dep.name for it in gate.crates if it.name in named for dep in gate.below(it)}
    tasks = {}
    for crate in [it for it in gate.crates if it.name in wanted]:
        waits, lines, needs = [(it.name, "proof") for it in gate.below(crate)], crate.count(rb"\n"), rt.need(crate)
        kinds = {"proof": (waits, lines)}
        if crate.name in named and "--no-tests" not in flags:
            kinds["tests"] = waits, lines * crate.has_tests()
        if crate.name in named and "--edits" in flags:
            kinds["edits"] = [(crate.name, it) for it in kinds], lines * bool(rt.edits_of(crate)[0])
        for kind, (before, size) in kinds.items():
            call = lambda given, jobs, crate=crate, kind=kind: gate.work(crate, kind, given, jobs)
            tasks[crate.name, kind] = before, size, needs, call
    given = rt.in_lanes(tasks)
    failed = [" ".join(key) for key, well in given.items() if not well]
    if "--no-tests" not in flags:
        proved = [it for it in gate.crates if it.name in named and given.get((it.name, "proof"))]
        failed += [f"{it.name} (run)" for it in proved if not gate.runs(it)]
    say(f"{len(wanted)} crates; failed: {', '.join(failed) or 'none'}")
    return 1 if failed else 0


if __name__ == "__main__":
    sys.exit(main())
