#!/usr/bin/env python3
"""Times tools/show --brief, tools/explain --brief and tools/chart on a long run: phones attach and are released, again and again,
with the MME's answers.

    tools.py [--phones N] [--times T] [--rounds R] [--keep FOLDER]

The trace is that of `attaches.py N --times T --release --information`, of 8 lines for each attach and of one for each vector; the
answers have six. N is 10000 and T is 4 where they aren't given. Of R rounds (3) the best counts: the seconds of the processor and
those of the clock, as one process alone takes them, and its most memory. FOLDER keeps the trace and the answers, and has them
from a run before. Nothing here is part of a proof.
"""
import argparse
import os
import pathlib
import subprocess
import sys
import tempfile
import time

sys.dont_write_bytecode = True
if __name__ == "__main__":
    sys.path[0] = str(pathlib.Path(__file__).resolve().parent.parent)
from bench import attaches

TOOLS = pathlib.Path(__file__).resolve().parent.parent / "tools"
MILLION = 10**6


def made(folder, count, times):
    """The trace and the answers, as files."""
    paths = [folder / ("%d.%d.%s" % (count, times, end)) for end in ("trace", "answers")]
    if not all(path.exists() for path in paths):
        # (by a process of its own, since the memory of this one would count for what it starts)
        words = [str(count), "--times", str(times), "--release", "--information", "--answers", paths[1]]
        with open(paths[0], "wb") as file:
            subprocess.run([sys.executable, "-B", attaches.__file__, *words], stdout=file, check=True)
    return paths


def cost(*words):
    """Seconds of the processor and of the clock, and MB at most, of a tool that prints to nowhere."""
    begun = time.monotonic()
    running = subprocess.Popen(words, stdout=subprocess.DEVNULL, stderr=subprocess.DEVNULL)
    _, status, used = os.wait4(running.pid, 0)
    if status:
        sys.exit("%s ended with status %d" % (words[0], os.waitstatus_to_exitcode(status)))
    return used.ru_utime + used.ru_stime, time.monotonic() - begun, used.ru_maxrss / 1024


def measured(name, lines, rounds, *words):
    processor, clock, memory = map(min, zip(*(cost(TOOLS / words[0], *words[1:]) for _ in range(rounds))))
    print("%-28s %9d lines  %6.2f s of the processor  %6.2f s  %9.0f lines a second  %5.0f MB  %5.1f s for a million lines" % (
        name, lines, processor, clock, lines / processor, memory, processor * MILLION / lines), flush=True)


def lines_in(path):
    return path.read_bytes().count(b"\n")


def main():
    parser = argparse.ArgumentParser(description=__doc__, formatter_class=argparse.RawDescriptionHelpFormatter)
    parser.add_argument("--phones", type=int, choices=range(1, attaches.MOST + 1), default=10000, metavar="N")
    parser.add_argument("--times", type=int, choices=range(1, attaches.MOST_TIMES + 1), default=4, metavar="T")
    parser.add_argument("--rounds", type=int, choices=range(1, 100), default=3, metavar="R")
    parser.add_argument("--keep", type=pathlib.Path, metavar="FOLDER")
    given = parser.parse_args()
    with tempfile.TemporaryDirectory() as folder:
        trace, answers = made(given.keep or pathlib.Path(folder), given.phones, given.times)
        measured("show --brief, the trace", lines_in(trace), given.rounds, "show", "--brief", trace)
        measured("show --brief, the answers", lines_in(answers), given.rounds, "show", "--brief", answers)
        measured("explain --brief", lines_in(trace), given.rounds, "explain", "--brief", trace, answers)
        measured("chart", lines_in(trace), given.rounds, "chart", trace, answers)
        measured("chart --svg", lines_in(trace), given.rounds, "chart", "--svg", trace, answers)


if __name__ == "__main__":
    main()
