#!/usr/bin/env python3
"""Runs two programs in turn and sets their best rates side by side.

usage: compare.py RUNS PROGRAM OTHER

Each may have words of its own after it, as 'out/benchmarks speed', and prints lines
'NAME: CALLS in NANOSECONDS ns [OCTET]'. A line of OTHER that PROGRAM lacks is set beside the line of
PROGRAM whose name it begins with."""

import re
import shlex
import subprocess
import sys

LINE = re.compile(r"(.+): (\d+) in (\d+) ns \[(\d+)\]")


def rates(program):
    text = subprocess.run(shlex.split(program), stdout=subprocess.PIPE, check=True, text=True).stdout
    found = {}
    for name, calls, took, octet in LINE.findall(text):
        found[name] = (int(calls) * 1e9 / int(took), octet)
    return found


def best(kept, new):
    for name, (rate, octet) in new.items():
        kept[name] = max(kept.get(name, (0, octet)), (rate, octet))


def main():
    if len(sys.argv) != 4:
        print(__doc__.strip())
        sys.exit(0 if sys.argv[1:] in (["--help"], ["-h"]) else 2)
    runs, program, other = int(sys.argv[1]), sys.argv[2], sys.argv[3]
    ours, theirs = {}, {}
    for _ in range(runs):
        best(ours, rates(program))
        best(theirs, rates(other))
    print(f"{'':46} {'program':>12} {'other':>12} {'ratio':>6}")
    for name, (rate, octet) in theirs.items():
        own = max((own for own in ours if name.startswith(own)), key=len)
        if ours[own][1] != octet:
            sys.exit(f"{name}: the two programs don't compute the same")
        print(f"{name:46} {ours[own][0]:10.0f}/s {rate:10.0f}/s {ours[own][0] / rate:6.2f}")


if __name__ == "__main__":
    main()
