#!/usr/bin/env python3
"""The calculator of the protocol's parts: reads a call a line and prints what the library answers. Builds it first where it isn't
kept.

    calculator.py          reads calls from standard input
    calculator.py again    plays a trace from standard input, and makes each call again that memory was refused to
    calculator.py restarted    plays a trace from standard input by MMEs that are saved and restored, as its line `# every N` says
    calculator.py brief    runs each benchmark of bench/ briefly, `steps` over the trace of standard input
    calculator.py --help   prints which calls there are

Its sources stand in calculator/, and in bench/ those of the benchmarks, which are a module of it, so that tests build one program for
all that they run unproved. It is built with every access checked, and so that any of its allocations can be refused
(tests/refused/unproved.py). It is kept in calculator/out under the digest of all that it is made of; where several ask for it at
once, one builds it and the others wait.
"""
import fcntl
import functools
import os
import pathlib
import sys

sys.dont_write_bytecode = True
HERE = pathlib.Path(__file__).resolve().parent
TOP = HERE.parent.parent
if __name__ == "__main__":
    sys.path[0] = str(TOP)
from bench import programs, repository
from tools.program import tried
from tools.program.words import Failed

NAME = "calculator"
FOLDER = HERE / NAME
KEPT = FOLDER / "out"
WORDS = ["--steps", "1", "--fail-alloc", str(tried.NONE)]
# What it is given while it is taken from where it runs: it is to run for long.
LONG_RUN = b"s1ap_turned 000f40080000010002400130\n" * 10000


def sources():
    """Its sources by their places in its src/."""
    return {**repository.sources_below(FOLDER), **repository.as_module(programs.NAME, programs.sources())}


def digest():
    """The SHA-256 of all that it is made of."""
    texts = [(place, source.read_bytes()) for place, source in sources().items()]
    return tried.digest(repository.used(sources()), texts, WORDS)


def build(target):
    """Builds it, and keeps it in place of an older one."""
    repository.build(NAME, sources(), WORDS, LONG_RUN, KEPT / "new")
    for older in KEPT.glob(NAME + "-*"):
        older.unlink()
    os.replace(KEPT / "new", target)


@functools.lru_cache
def program():
    """Where it stands, built; to be asked in the main thread, where signals end a build whole."""
    target = KEPT / ("%s-%s" % (NAME, digest()[:32]))
    KEPT.mkdir(exist_ok=True)
    with open(KEPT / "lock", "wb") as lock:
        fcntl.flock(lock, fcntl.LOCK_EX)
        if not target.exists():
            build(target)
    return target


def main(words):
    try:
        found = program()
    except Failed as fault:
        print("calculator.py: %s" % fault, file=sys.stderr)
        return fault.status
    os.execv(found, [NAME, *words])


if __name__ == "__main__":
    sys.exit(main(sys.argv[1:]))
