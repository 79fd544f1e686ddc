#!/usr/bin/env python3
"""What the gate takes: seconds of processor time for the proof, the tests' proof and the edits of each crate.

    tools/gate_times.py [--write] [--anew] [FOLDER]     runs the gate on a copy of HEAD, and measures it
    tools/gate_times.py [--write] --of TREE             what tools/gate_on.py measured in TREE, without a run

It prints a table with a row for each crate that takes 400 seconds or more and one for the others, and what libraries,
programs, tests and edits take in all; with --write it puts the table into docs/GATE.md in place of the one there. A crate is proved, its tests are proved and built, and its
must-fail/ edits are checked; a program's proof includes both compilers' builds. A measured run looks at the running
checks twice a second, so a number may be short by half a second a check; `rt` itself, which reads the sources below
each library before and after its proof, is counted beside them. With --anew all is proved, also what earlier runs kept on
this machine, by a kit that keeps it (another has no such word). The gate's own output goes to FOLDER/gate.log (a new
folder in /tmp without one); its status is this program's.
"""

import collections
import os
import re
import subprocess
import sys
import tempfile
import time

TICKS = os.sysconf("SC_CLK_TCK")
LEAST = 400  # seconds of a crate with a row of its own
HEAD = "| crate | functions | proof | tests | edits |"


def processes():
    """Of each process its parent, when it began, and seconds of processor time so far, with its ended children's."""
    found = {}
    for pid in filter(str.isdigit, os.listdir("/proc")):
        try:
            with open(f"/proc/{pid}/stat", encoding="utf-8", errors="replace") as it:
                stat = it.read().rsplit(")", 1)[1].split()
        except OSError:
            continue
        found[pid] = stat[1], stat[19], sum(map(int, stat[11:15])) / TICKS
    return found


def own_seconds(pid):
    """Seconds of processor time of a process, without its children's."""
    try:
        with open(f"/proc/{pid}/stat", encoding="utf-8", errors="replace") as it:
            return sum(map(int, it.read().rsplit(")", 1)[1].split()[11:13])) / TICKS
    except OSError:
        return 0.0


def checks():
    """The running checks: process, folder, crate, kind of check, and seconds of processor time so far, of the processes
    that a check starts too."""
    running, found = processes(), {}
    for pid in running:
        try:
            with open(f"/proc/{pid}/cmdline", "rb") as it:
                words = it.read().decode(errors="replace").split("\0")
            if not words[0].endswith("/rattle") or "--crate-name" not in words:
                continue
            folder = os.readlink(f"/proc/{pid}/cwd")
        except OSError:
            continue
        crate = words[words.index("--crate-name") + 1]
        kind = "edits" if "/rt-edit-" in folder else "tests" if "--test" in words else "proof"
        found[pid] = folder, crate, kind
    seconds = collections.Counter()
    for pid in running:
        top, at = None, pid
        while at in running:
            top = at if at in found else top
            at = running[at][0]
        if top:
            seconds[top] += running[pid][2]
    return [((pid, running[pid][1]), *found[pid], spent) for pid, spent in seconds.items()]


def measured(top, room, gate_words):
    """Runs the gate on a copy of HEAD: seconds by crate and kind, functions by crate, a last line and a status."""
    tree = f"{room}/tree"
    subprocess.run(["git", "clone", "-q", top, tree], check=True)
    seen, begun, own = {}, time.time(), 0.0
    with open(f"{room}/gate.log", "w", encoding="utf-8") as log:
        gate = subprocess.Popen(gate_words, cwd=tree, stdin=subprocess.DEVNULL, stdout=log, stderr=subprocess.STDOUT)
        while gate.poll() is None:
            own = max(own, own_seconds(gate.pid))
            for key, folder, crate, kind, seconds in checks():
                if kind == "edits" or folder.startswith(tree):
                    seen[key] = crate, kind, max(seconds, seen.get(key, (crate, kind, 0))[2])
            time.sleep(0.5)
    total = collections.Counter()
    for crate, kind, seconds in seen.values():
        total[crate, kind] += seconds
    with open(f"{room}/gate.log", encoding="utf-8", errors="replace") as log:
        text = log.read()
    functions = dict(re.findall(r"== (\w+)\n(?:(?!== ).*\n)*?logic=proved functions=(\d+)", text))
    last = f"{text.rstrip().splitlines()[-1]}: {time.time() - begun:.0f} s, of which rt itself {own:.0f} s"
    return total, functions, last, gate.returncode


def noted(tree):
    """The same of what tools/gate_on.py made in a tree: each check as it was made last."""
    total, functions = collections.Counter(), {}
    with open(f"{tree}/times.log", encoding="utf-8") as log:
        for line in log:
            crate, kind, command, user, system = line.split()[:5]
            total[crate, kind] = 0 if command == "begins" else total[crate, kind] + float(user) + float(system)
    for crate in {it for it, _ in total}:
        log = f"{tree}/crates/{crate}/out/log-proof"
        if os.path.exists(log):
            with open(log, encoding="utf-8", errors="replace") as it:
                counts = re.findall(r"^logic=proved functions=(\d+)", it.read(), re.M)
            functions.update((crate, count) for count in counts)
    return total, functions, f"measured in {tree}", 0


def row_of(name, functions, seconds):
    """A line of the table: what a crate, or some, take for the proof, the tests and the edits."""
    cells = [name, functions, *(f"{it:.0f}" if it else "" for it in seconds)]
    return f"| {' | '.join(map(str, cells))} |"


def rows_of(top, total, functions):
    """The table's lines: crates that take 400 seconds or more in the order of crates.txt, the others together, and all."""
    with open(f"{top}/crates.txt", encoding="utf-8") as it:
        names = re.findall(r"^(\w+)[^:\n]*:", it.read(), re.M)
    takes = {crate: [total[crate, kind] for kind in ("proof", "tests", "edits")] for crate in names}
    others = [crate for crate in names if sum(takes[crate]) < LEAST]
    rows = [row_of(crate, functions.get(crate, ""), takes[crate]) for crate in names if crate not in others]
    count = sum(int(functions.get(crate, 0)) for crate in others)
    together = [sum(it) for it in zip(*(takes[crate] for crate in others))]
    rows.append(row_of(f"{len(others)} others", count, together))
    every = sum(int(functions.get(crate, 0)) for crate in names)
    rows.append(row_of("all", every, [sum(it) for it in zip(*takes.values())]))
    return [HEAD, "|---|---|---|---|---|", *rows]


def sums_of(top, total):
    """What all libraries, programs, tests and edits take, in a line."""
    sums = collections.Counter()
    for (crate, kind), seconds in total.items():
        is_program = os.path.exists(f"{top}/crates/{crate}/src/main.rt")
        sums["programs" if kind == "proof" and is_program else "libraries" if kind == "proof" else kind] += seconds
    parts = [f"{kind} {sums[kind] / 60:.0f}" for kind in ("libraries", "programs", "tests", "edits")]
    return f"minutes of processor time: {', '.join(parts)}, all {sum(sums.values()) / 60:.0f}"


def write_table(top, rows):
    """Puts the rows in place of the table in docs/GATE.md."""
    file = f"{top}/docs/GATE.md"
    with open(file, encoding="utf-8") as it:
        lines = it.read().split("\n")
    begin = lines.index(HEAD)
    end = next((at for at in range(begin, len(lines)) if not lines[at].startswith("|")), len(lines))
    with open(file, "w", encoding="utf-8") as it:
        it.write("\n".join([*lines[:begin], *rows, *lines[end:]]))


def main():
    words = sys.argv[1:]
    flags = {it for it in words if it.startswith("--")}
    words = [it for it in words if not it.startswith("--")]
    if flags - {"--anew", "--of", "--write"} or len(words) > 1 or "--of" in flags and not words:
        print(__doc__, file=sys.stderr)
        return 2
    asked = subprocess.run(["git", "rev-parse", "--show-toplevel"], check=True, capture_output=True, text=True)
    top = asked.stdout.strip()
    if "--of" in flags:
        total, functions, last, status = noted(words[0])
    else:
        room = words[0] if words else tempfile.mkdtemp(prefix="gate-times-")
        gate_words = ["bash", ".ci/run", *(["--anew"] if "--anew" in flags else [])]
        total, functions, last, status = measured(top, room, gate_words)
    rows = rows_of(top, total, functions)
    print("\n".join(rows))
    print(sums_of(top, total))
    print(last)
    if "--write" in flags and status == 0:
        write_table(top, rows)
    return status


if __name__ == "__main__":
    sys.exit(main())
