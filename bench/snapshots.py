#!/usr/bin/env python3
"""Times snapshots through the library for C, of an MME whose subscribers are all registered.

    snapshots.py FOLDER [--subscribers N] [--vectors V] [--rounds R] [--bound]

FOLDER has libsoizkadur.a and soizkadur.h, as `./mme --library` leaves them in crates/mme_c/out/library. N subscribers (32,768)
attach one after another and are released, each with V vectors (8) that aren't spent then. Printed are, each the least of R rounds
(5), the seconds of a save of all parts, those of one subscriber's part, and those of a restore; the octets of the snapshot, and
what is allocated for the MME before and after (snapshots.c). With --bound it ends with 1 where a figure is above its bound, which
holds for 32,768 subscribers with 8 vectors.
"""
import argparse
import pathlib
import re
import subprocess
import sys
import tempfile

sys.dont_write_bytecode = True
if __name__ == "__main__":
    sys.path[0] = str(pathlib.Path(__file__).resolve().parent.parent)
from bench import attaches

HERE = pathlib.Path(__file__).resolve().parent
# Seconds of a save, microseconds of a part, seconds of a restore, octets.
BOUNDS = 0.3, 20, 1.5, 30 * 2**20
PRINTED = re.compile(r"(\d+) subscribers: saved in ([\d.]+) s, one in ([\d.]+) us, restored in ([\d.]+) s; (\d+) octets")


def registered(count, vectors):
    """The trace of so many subscribers who attach and are released, each with so many vectors more."""
    trace, station, made = attaches.provisioned(count, 1 + vectors)
    for phone in made:
        phone.attaches(station, phone.slot + 1)
        phone.is_released()
    return trace.text()


def main():
    parser = argparse.ArgumentParser(description=__doc__, formatter_class=argparse.RawDescriptionHelpFormatter)
    parser.add_argument("folder", metavar="FOLDER", type=pathlib.Path)
    parser.add_argument("--subscribers", metavar="N", type=int, choices=range(1, attaches.MOST + 1), default=attaches.MOST)
    parser.add_argument("--vectors", metavar="V", type=int, choices=range(64), default=8)
    parser.add_argument("--rounds", metavar="R", type=int, default=5)
    parser.add_argument("--bound", action="store_true")
    given = parser.parse_args()
    with tempfile.TemporaryDirectory() as name:
        room = pathlib.Path(name)
        program, trace = room / "snapshots", room / "trace"
        subprocess.run(["cc", "-std=c11", "-O2", "-I", HERE.parent / "tests" / "library", "-I", given.folder, HERE / "snapshots.c",
                        given.folder / "libsoizkadur.a", "-o", program], check=True)
        trace.write_text(registered(given.subscribers, given.vectors), encoding="utf-8")
        printed = subprocess.run([program, trace, str(given.rounds)], capture_output=True, text=True, check=True).stdout
    print(printed, end="")
    _, *figures = map(float, PRINTED.match(printed).groups())
    return 1 if given.bound and any(figure > bound for figure, bound in zip(figures, BOUNDS)) else 0


if __name__ == "__main__":
    sys.exit(main())
