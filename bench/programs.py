#!/usr/bin/env python3
"""Makes one program of the benchmarks in Rattle, NAME.rt.txt in this folder, in a repository of its own.

    programs.py FOLDER [NAME ..]

FOLDER isn't there yet, and gets a copy of the crates with one crate more, `benchmarks`. There `rt run -- NAME` in
crates/benchmarks proves and builds the program, and runs the benchmark of this name: speed, codec, steps, tables or simulated. With
names the program has these alone, and only the crates that they use have to be proved. What they compute is looked at by
tests/bench/run.
"""
import argparse
import pathlib
import re
import sys

sys.dont_write_bytecode = True
if __name__ == "__main__":
    sys.path[0] = str(pathlib.Path(__file__).resolve().parent.parent)
from bench import repository

HERE = pathlib.Path(__file__).resolve().parent
NAME, END = "benchmarks", ".rt"


def sources():
    """The sources of the program of all benchmarks by their places in its src/."""
    return repository.sources_below(HERE)


def benchmarks():
    """The name of each."""
    return [place.removesuffix(END) for place in sources() if place != repository.ROOT]


def made(folder, names=()):
    """The repository in a folder, with the program of these benchmarks, or of all; returns the crate's folder."""
    others = set(benchmarks()) - set(names or benchmarks())
    chosen = {place: source for place, source in sources().items() if place.removesuffix(END) not in others}
    folder.mkdir()
    crate = repository.with_crate(folder, NAME, chosen)
    root = crate / "src" / repository.ROOT
    text = root.read_text(encoding="utf-8")
    for name in others:
        text = re.sub(r"^.*\b(?:mod %s;|%s::).*\n" % (name, name), "", text, flags=re.M)
    root.write_text(text, encoding="utf-8")
    return crate


def main():
    parser = argparse.ArgumentParser(description=__doc__, formatter_class=argparse.RawDescriptionHelpFormatter)
    parser.add_argument("folder", metavar="FOLDER", type=pathlib.Path)
    parser.add_argument("names", metavar="NAME", nargs="*")
    given = parser.parse_args()
    unknown = set(given.names) - set(benchmarks())
    if unknown:
        parser.error("no benchmark is named %s: there are %s" % (", ".join(sorted(unknown)), ", ".join(benchmarks())))
    try:
        print(made(given.folder, given.names))
    except OSError as fault:
        sys.exit("programs.py: %s" % fault)
    return 0


if __name__ == "__main__":
    sys.exit(main())
