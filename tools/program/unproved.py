#!/usr/bin/env python3
"""Runs the unproved program, which stops at any access that isn't right, and builds it first where it isn't kept.

    unproved.py plain|explained WORD ..

`mme play` and `mme sim` get a program that does this alone, which is built in two thirds of the time of the whole one; other words
get the whole. The toolchain builds it by `rt try`, in a folder that is gone afterwards; from there it is taken and kept in
crates/mme/out/unproved under the digest of what it was made of, so the next run needs no build. Ctrl-C leaves nothing of it.
"""
import contextlib
import os
import pathlib
import shutil
import signal
import sys
import tempfile
import time

sys.dont_write_bytecode = True
HERE = pathlib.Path(__file__).resolve().parent
if __name__ == "__main__":
    sys.path[0] = str(pathlib.Path(__file__).resolve().parents[2])
from tools.program import children, explained, record, tried
from tools.program.words import BAD_WORDS, Failed, say

KEPT = record.TOP / "crates" / record.NAME / "out" / "unproved"
SMALL = HERE / "play.rt.txt"  # the program of `mme play` alone; that of `mme sim` is the same with other names
OF_SIM = (("Plays a trace", "Plays a script"), ("`mme play`", "`mme sim`"),
          ("use trace_run::{PlayFault, Watched, run_play};", "use sim_run::run_sim;\nuse trace_run::{PlayFault, Watched};"),
          ("run_play(", "run_sim("))
USES = {"play": ["trace_run"], "sim": ["trace_run", "sim_run"]}
CRATE = "small"
# What the program is given while it is taken from where it runs: it is to run for long.
LONG_RUN = b"mme 001 01 8001 01 internet 1 1\nup 0\ntick 1000000\n"
STEPS = {"clang": "compiling", "ld.lld": "linking"}
NO_TOOLCHAIN = 'no toolchain here: use the package (README.md, "Install"), or put the toolchain\'s `rt` on the path'
READ_FAILED, STATUS_READ = "mme: read failed", 3


# --- What is built ---


def small_source(verb):
    """The source of the program that does this alone."""
    text = SMALL.read_text(encoding="utf-8")
    for here, there in OF_SIM if verb == "sim" else ():
        text = text.replace(here, there)
    return text


def crates_of(verb):
    """The crates that the program of a verb is made of; of the whole program where there is none."""
    return tried.crates_below(USES[verb] if verb else [record.NAME])


def digest(verb):
    """The SHA-256 of all that the program is made of."""
    return tried.digest(crates_of(verb), verb, verb and small_source(verb))


def repository(folder, verb):
    """A repository with the crates that the program stands on, and one crate more that is the program: the folder of that."""
    shutil.copy(record.TOP / "HANDLES", folder)
    uses, names = record.uses_of(), crates_of(verb)
    rows = ["%s: %s\n" % (name, " ".join(uses[name])) for name in names] + ["%s: %s\n" % (CRATE, " ".join(USES[verb]))]
    (folder / "crates.txt").write_text("".join(rows), encoding="utf-8")
    for name in names:
        for part in ("src", "specs", "proofs"):
            if (record.TOP / "crates" / name / part).exists():
                shutil.copytree(record.TOP / "crates" / name / part, folder / "crates" / name / part)
    source = folder / "crates" / CRATE / "src" / "main.rt"
    source.parent.mkdir(parents=True)
    source.write_text(small_source(verb), encoding="utf-8")
    (folder / ".git").mkdir()  # where the toolchain's search for the top ends
    return source.parent.parent


# --- The build ---


class Wait:
    """What is said while a build goes on: a line for each step at a terminal."""

    def __init__(self):
        self.begun, self.step, self.shows = time.monotonic(), "reading", sys.stderr.isatty()

    def seconds(self):
        return time.monotonic() - self.begun

    def look(self, process):
        """Looks which step is under way."""
        for one in children.below(process):
            with contextlib.suppress(OSError):
                words = pathlib.Path("/proc/%d/cmdline" % one).read_bytes().decode(errors="replace").split("\0")[:2]
                step = next((STEPS[name] for name in map(os.path.basename, words) if name in STEPS), None)
                if step and step != self.step:
                    self.step = step
                    if self.shows:
                        say("%s, %d s so far" % (step, self.seconds()))


def build(verb, target):
    """Builds the program of a verb, or the whole one, and keeps it."""
    wait = Wait()
    KEPT.mkdir(parents=True, exist_ok=True)
    with tempfile.TemporaryDirectory(prefix="building-", dir=KEPT) as name:
        folder = pathlib.Path(name)
        (folder / "repository").mkdir()
        crate = repository(folder / "repository", verb) if verb else record.TOP / "crates" / record.NAME
        if wait.shows:
            say("reading %d crates and the toolchain's libraries" % len(crates_of(verb)))
        words = ["--steps", "1", *([] if verb else ["--", "play"])]
        try:
            tried.build(crate, words, LONG_RUN, folder, folder / "program", wait.look)
        except children.Stopped as stopped:
            raise Failed("stopped while %s; nothing of it is kept" % wait.step, stopped.status) from None
        for older in KEPT.glob("%s-*" % (verb or "whole")):
            older.unlink()
        os.replace(folder / "program", target)
    if wait.shows:
        say("built in %d s, and kept for the next time" % wait.seconds())


def program_of(verb):
    """The unproved program of a verb, built where it isn't kept."""
    if record.kit() is None:
        raise Failed(NO_TOOLCHAIN, BAD_WORDS)
    target = KEPT / ("%s-%s" % (verb or "whole", digest(verb)[:32]))
    if not target.exists():
        say("no proved program yet: this one is unproved, checked as it runs, and takes a minute or two to build; ./mme --prove "
            "proves it")
        children.catch_signals()
        build(verb, target)
        children.leave_signals()
    return target


# --- The run ---


def opened(path):
    """Has standard input read a file, as the program's own command line does; whether it could."""
    try:
        with open(os.open(path, os.O_RDONLY), "rb", buffering=0) as file:
            os.dup2(file.fileno(), 0)
    except OSError:
        return False
    return True


def main(given):
    how, *words = given
    verb = words[0] if words and words[0] in USES and len(words) <= 2 and not words[-1].startswith("-") else None
    try:
        program = program_of(verb)
    except Failed as fault:
        say(fault)
        return fault.status
    file = explained.file_of(words) if verb else None
    if verb and len(words) == 2 and not opened(words[1]):
        print(READ_FAILED, file=sys.stderr)
        if how == "explained":
            explained.explain(READ_FAILED, verb, file, None)
        return STATUS_READ
    own = [] if verb else words
    if how == "explained":
        return explained.run(program, own, verb, file)
    signal.signal(signal.SIGPIPE, signal.SIG_DFL)  # which Python ignores, and the program would too
    os.execv(program, [record.NAME, *own])


if __name__ == "__main__":
    sys.exit(main(sys.argv[1:]))
