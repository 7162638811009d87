#!/usr/bin/env python3
"""Proves each crate in turn and builds the program, with a line for each: `./mme --prove [PROCESSOR]`.

The program's record (record.py) is written where text and toolchain are the same at the end as before the first proof. Ctrl-C says
what was stopped; the crates that were proved stay so, and the program that stood before stands again.
"""
import contextlib
import os
import pathlib
import shutil
import sys
import tempfile
import time

sys.dont_write_bytecode = True
if __name__ == "__main__":
    sys.path[0] = str(pathlib.Path(__file__).resolve().parents[2])
from tools.program import children, record, toolchain
from tools.program.words import BAD_WORDS, Failed, say

PROCESSORS = ("x86-64", "x86-64-v2", "x86-64-v3")
PROGRAM = record.TOP / "crates" / record.NAME / "out" / record.NAME
MADE = ("", ".o", ".stamp", record.END)  # the ends of the names of what a build writes


def processor_of(word, given):
    """The processor that the words after `--prove` or `--library` name, or None where they name none."""
    if len(given) > 1:
        raise Failed("%s takes one processor at the most" % word, BAD_WORDS)
    if given and given[0] not in PROCESSORS:
        raise Failed("%s takes %s or %s, and not %s" % (word, ", ".join(PROCESSORS[:-1]), PROCESSORS[-1], given[0]), BAD_WORDS)
    return given[0] if given else None


def compiled_for(processor):
    """What the toolchain is told of the processor, if one is named."""
    return ["--cpu=" + processor] if processor else []


@contextlib.contextmanager
def program_replaced(program):
    """Where what is done here doesn't come to its end, the program and its record are again what they were before."""
    made = [program.with_name(program.name + end) for end in MADE]
    with tempfile.TemporaryDirectory() as room:
        for path in made:
            if path.exists():
                shutil.copy2(path, room)
        try:
            record.path_of(program).unlink(missing_ok=True)
            yield
        except BaseException:
            with children.uninterrupted():
                put_back(made, room)
            raise


def put_back(made, room):
    """Puts back what is kept in a folder, and takes away what isn't there."""
    for path in made:
        kept = pathlib.Path(room, path.name)
        path.unlink(missing_ok=True)
        if kept.exists():
            shutil.copy2(kept, path)


def asked_of(name, processor):
    """What the toolchain is asked for a crate."""
    if name != record.NAME:
        return toolchain.command("lib")
    return toolchain.command("run", *compiled_for(processor), "--", "play")


def made(name, words):
    """Has the toolchain make a crate; says what it said where it couldn't."""
    with tempfile.TemporaryFile() as log:
        status = children.status_of(words, cwd=record.TOP / "crates" / name, stdout=log, stderr=log)
        if status:
            log.seek(0)
            sys.stderr.buffer.write(log.read())
            raise Failed("%s isn't proved" % name)


def prove(processor, begun):
    """Proves the crates below the program, and builds it."""
    crates = record.crates_of(record.NAME)
    before = record.now()
    for at, name in enumerate(crates, 1):
        what = "%s, %d of %d" % (name, at, len(crates))
        say("proving %s, %d s so far" % (what, time.monotonic() - begun))
        try:
            with program_replaced(PROGRAM) if name == record.NAME else contextlib.nullcontext():
                made(name, asked_of(name, processor))
                if name == record.NAME:
                    keep_record(before, processor)
        except children.Stopped as stopped:
            raise Failed("stopped while proving %s; what was proved before it is kept" % what, stopped.status) from None


def keep_record(before, processor):
    """Writes the record, where the text is what was read before the first proof."""
    if record.digests_of_crates() != before["crates"]:
        raise Failed("the crates changed while they were proved: ./mme --prove once more")
    os.utime(PROGRAM)
    record.write(PROGRAM, before["crates"], before["toolchain"], processor or record.DEFAULT_PROCESSOR)


def status_of(work):
    """Does what proves or builds, which is told when it began; says why it failed or stopped, and returns the status."""
    try:
        work(time.monotonic())
    except Failed as fault:
        say(fault)
        return fault.status
    except children.Stopped as stopped:
        say("stopped before the first proof")
        return stopped.status
    return 0


def main(given):
    def work(begun):
        processor = processor_of("--prove", given)
        if not record.has_sources():
            raise Failed("no sources here: --prove is for a clone of the repository")
        if record.kit() is None:
            raise Failed("no toolchain on the path: --prove needs `rt`")
        children.catch_signals()
        prove(processor, begun)
        say("proved and built in %d s" % (time.monotonic() - begun))

    return status_of(work)


if __name__ == "__main__":
    sys.exit(main(sys.argv[1:]))
