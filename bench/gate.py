#!/usr/bin/env python3
"""Runs the gate, or another command, and prints the processor time that each crate took in it (proof, tests, edits, guards), and each
part of the gate that needs no proof.

    python3 bench/gate.py                                 runs .ci/run --anew
    taskset -c 0,1 python3 bench/gate.py                  the same on two processors
    python3 bench/gate.py -- rt must-fail nas_security    runs another command

What the command prints goes to standard error, the table to standard output. Once a second all processes that descend from
the command are looked at, so a figure may lack a second for each process. Linux alone."""

import argparse
import collections
import os
import re
import subprocess
import sys
import time

TOP = os.path.realpath(os.path.join(os.path.dirname(os.path.realpath(__file__)), ".."))
TICKS = os.sysconf("SC_CLK_TCK")
PARTS = ("proof", "tests", "edits", "guards", "run")
# A part of the gate, as .ci/run names it.
PART = re.compile(r"tests/\w+/(?:run|memory)")

Process = collections.namedtuple("Process", "parent own waited words folder")


def read_process(pid):
    """Returns a process as it is now, or nothing where it has gone."""
    try:
        with open(f"/proc/{pid}/stat", encoding="utf-8", errors="replace") as it:
            fields = it.read().rpartition(")")[2].split()
        with open(f"/proc/{pid}/cmdline", "rb") as it:
            words = it.read().decode(errors="replace").split("\0")
        folder = os.readlink(f"/proc/{pid}/cwd")
    except OSError:
        return None
    times = [int(it) / TICKS for it in fields[11:15]]
    return Process(int(fields[1]), sum(times[:2]), sum(times[2:]), words, folder)


def children_of(pid):
    try:
        tasks = os.listdir(f"/proc/{pid}/task")
        return [int(it) for task in tasks for it in open(f"/proc/{pid}/task/{task}/children", encoding="utf-8").read().split()]
    except OSError:
        return []


def processes(root):
    """Returns the process and all that descend from it: no other process is looked at."""
    found, left = {}, [root]
    while left:
        pid = left.pop()
        process = read_process(pid)
        if process:
            found[pid] = process
            left += children_of(pid)
    return found


def chain(pid, seen):
    """Returns the process and those above it, from the lowest."""
    while pid in seen:
        yield pid
        pid = seen[pid].parent


def told(process):
    """Returns the crate and the part that a prover's process works on, or a part of the gate, if it is one of these."""
    part = next(filter(PART.fullmatch, process.words), None)
    if part:
        return part, "run"
    if "--crate-name" not in process.words:
        return None
    crate = process.words[process.words.index("--crate-name") + 1]
    if "rt-edit" in process.folder:
        return crate, "guards" if "--only" in process.words else "edits"
    return crate, "tests" if "--test" in process.words else "proof"


def sample(root, spent):
    """Notes for each topmost process that is told of what it and all below it have taken so far."""
    seen = processes(root)
    sums = collections.Counter()
    for pid, process in seen.items():
        found = [it for it in chain(pid, seen) if told(seen[it])]
        top = found[-1] if found else None
        if top is not None:
            sums[top] += process.own + process.waited
    for pid, seconds in sums.items():
        key = pid, told(seen[pid])
        spent[key] = max(spent.get(key, 0), seconds)


def table(spent):
    rows = collections.defaultdict(collections.Counter)
    for (_, (crate, part)), seconds in spent.items():
        rows[crate][part] += seconds
    print("| Crate | %s |\n|---|%s" % (" | ".join(PARTS), "---|" * len(PARTS)))
    for crate in sorted(rows, key=lambda it: -sum(rows[it].values())):
        print(f"| `{crate}` | " + " | ".join(f"{rows[crate][part] / 60:.1f}" for part in PARTS) + " |")
    whole = {part: sum(it[part] for it in rows.values()) / 60 for part in PARTS}
    print("| all | " + " | ".join(f"{whole[part]:.1f}" for part in PARTS) + " |")


def main():
    parser = argparse.ArgumentParser(description=__doc__, formatter_class=argparse.RawDescriptionHelpFormatter)
    parser.add_argument("command", nargs="*", default=[".ci/run", "--anew"])
    words = parser.parse_args().command
    spent, began = {}, time.monotonic()
    child = subprocess.Popen(words, cwd=TOP, stdout=sys.stderr)
    while child.poll() is None:
        sample(child.pid, spent)
        time.sleep(1)
    took = (time.monotonic() - began) / 60
    table(spent)
    print(f"\n{took:.1f} minutes by the clock on {len(os.sched_getaffinity(0))} processors, status {child.returncode}; processor minutes in the table")
    return child.returncode


if __name__ == "__main__":
    sys.exit(main())
