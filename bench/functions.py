#!/usr/bin/env python3
"""Prints what each function of a crate took in its last check, in seconds by the clock, the dearest first.

    rm -rf crates/NAME/out && (cd crates/NAME && rt check --jobs 1) && python3 bench/functions.py NAME

The prover keeps a file for each module that it has checked; in the order in which they were written, a file took the time
since the one before. So the crate must have been checked from nothing by one process, with nothing beside it."""

import argparse
import collections
import os
import re

TOP = os.path.realpath(os.path.join(os.path.dirname(os.path.realpath(__file__)), ".."))
# The parts of a function's work: what its locals live for, what ties its clauses, its proof, and others.
PARTS = r"Lts|Tie|Proof|Kinds|Reads|Code|Key|Statement|Met|Symbol|TheLinks?|Goals|Given|Answers|Invariants|Layout|Borrows|Mir"
MODULE = re.compile(rf"Rattle-\w+?-(?:proofs|specs)\.(?:contracts\.|declared\.)?(.*?)(?:\.({PARTS})(?:\.\w+)*|\.decls)?$")


def modules(crate):
    """Returns the modules that were kept, each with the time at which it was written, from the first."""
    folder = os.path.join(TOP, "crates", crate, "out", "incremental")
    found = []
    for below, _, names in os.walk(folder):
        for name in names:
            if name.endswith(".oantt"):
                found.append((os.stat(os.path.join(below, name)).st_mtime_ns / 1e9, name.removesuffix(".oantt")))
    return sorted(found)


def costs(crate):
    """Returns the seconds of each function and of each part of the work."""
    functions, parts = collections.Counter(), collections.Counter()
    kept = modules(crate)
    for (before, _), (at, name) in zip(kept, kept[1:]):
        told = MODULE.match(name)
        function, part = told.groups() if told else (name, None)
        functions[function] += at - before
        parts[part or "definitions and the rest"] += at - before
    return functions, parts


def main():
    words = argparse.ArgumentParser(description=__doc__, formatter_class=argparse.RawDescriptionHelpFormatter)
    words.add_argument("crate", help="a crate that was just checked from nothing")
    words.add_argument("--most", type=int, default=40, help="how many functions to print (40)")
    given = words.parse_args()
    functions, parts = costs(given.crate)
    if not functions:
        words.error(f"nothing is kept of {given.crate}: check it first")
    for name, seconds in parts.most_common():
        print(f"{seconds:7.1f}  {name}")
    print()
    for name, seconds in functions.most_common(given.most):
        print(f"{seconds:7.1f}  {name}")


if __name__ == "__main__":
    main()
