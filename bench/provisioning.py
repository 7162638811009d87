#!/usr/bin/env python3
"""Counts what it costs to provision an MME that runs, through the library for C.

    provisioning.py FOLDER [--only WORD ..] [--base MME [--program MME]] [--attaches N]

FOLDER has libsoizkadur.a and soizkadur.h, as `./mme --library` leaves them in crates/mme_c/out/library. Instructions are counted
by valgrind, so nothing else on the machine changes them. WORD is one of

    calls     one vector and one subscriber more, at 20, 2,048 and 32,768 subscribers (provisioning.c)
    attaches  an attach by an MME that was provisioned before it was started, and by one that was while it ran; with --base also by
              `mme play` of an earlier program and of this one, which is --program (measure.py)
    memory    what is allocated for an MME after a phone has attached a hundred times, and after N times (10,000), each time by a
              vector that was given just before

Ends with 1 where an answer is wrong, where a call costs a tenth more or less among some subscribers than among others, where an
attach costs a fiftieth more or less, or where the memory after all attaches isn't what it was after a hundred.
"""
import argparse
import pathlib
import re
import subprocess
import sys
import tempfile

sys.dont_write_bytecode = True
if __name__ == "__main__":
    sys.path[0] = str(pathlib.Path(__file__).resolve().parent.parent)
from bench import attaches, measure
from reference import phones

HERE = pathlib.Path(__file__).resolve().parent
VECTORS = 64  # that are given to one subscriber, whose mean counts
GROWING = 2049  # the subscriber for whom a table is moved that 2,048 have filled
ATTACHING = 20  # phones of those that are provisioned
FIRST = 100  # attaches after which memory is looked at first
TENTH, FIFTIETH = 0.1, 0.02
WORDS = "calls", "attaches", "memory"
COUNTED = re.compile(r"Collected : (\d+)")


class Library:
    """The program of provisioning.c over the library in a folder."""

    def __init__(self, folder, room):
        self.room, self.program = pathlib.Path(room), pathlib.Path(room, "provisioning")
        subprocess.run(["cc", "-std=c11", "-O2", "-I", HERE.parent / "tests" / "library", "-I", folder, HERE / "provisioning.c",
                        pathlib.Path(folder, "libsoizkadur.a"), "-o", self.program], check=True)

    def instructions(self, call, *words):
        """How many instructions all calls of one function take in a run."""
        valgrind = ["valgrind", "--tool=callgrind", "--callgrind-out-file=/dev/null", "--toggle-collect=%s" % call]
        said = subprocess.run([*valgrind, self.program, *map(str, words)], capture_output=True, text=True, check=True).stderr
        return int(COUNTED.search(said)[1])

    def files_of(self, trace):
        """The files of a trace and of the answers that are owed."""
        files = self.room / "trace", self.room / "answers"
        for file, text in zip(files, (trace.text(), trace.answer_text())):
            file.write_text(text, encoding="utf-8")
        return files


def provisioned(count, late):
    """A trace of subscribers, of whom the first have a vector, and a station that is set up, which is all there is of the head
    where they come late; the station and the phones."""
    trace = phones.Trace()
    vectors = [[phones.Vector.made("%d" % slot)] if slot < ATTACHING else [] for slot in range(count)]
    made = [phones.Phone(trace, slot, own) for slot, own in enumerate(vectors)]
    trace.provision(made)
    further = trace.lines[1:] if late else []
    del trace.lines[len(trace.lines) - len(further):]
    station = phones.Station(0)
    trace.set_up(station)
    trace.lines += further
    return trace, station, made


def attach(library, count, late):
    """How many instructions an attach takes among so many subscribers."""
    trace, station, made = provisioned(count, late)
    before = library.instructions("soizkadur_in", "play", *library.files_of(trace))
    for phone in made[:ATTACHING]:
        phone.attaches(station, phone.slot + 1)
    return (library.instructions("soizkadur_in", "play", *library.files_of(trace)) - before) / ATTACHING


def told(what, figures, share):
    """Prints figures by columns, and how the dearest is to the cheapest; whether they are near enough."""
    is_near = max(figures) <= (1 + share) * min(figures)
    print("%s: %s; the most beside the least: %.3f%s" % (
        what, ", ".join(map("{:,.0f}".format, figures)), max(figures) / min(figures), "" if is_near else ", TOO MUCH"), flush=True)
    return is_near


def calls(library):
    """The instructions of one vector and of one subscriber more; and of subscribers at whose additions tables grow."""
    names = ", ".join(measure.COLUMNS)
    given = [library.instructions("soizkadur_give_live", "give", count, VECTORS) / VECTORS for count in measure.COUNTS]
    yield told("a vector more among %s, the mean of %d, instructions" % (names, VECTORS), given, TENTH)
    added = [library.instructions("soizkadur_add_live", "add", count, 1) for count in measure.COUNTS]
    yield told("a subscriber more, the last of %s, instructions" % names, added, TENTH)
    means = [library.instructions("soizkadur_add_live", "add", count, count) / count for count in measure.COUNTS]
    print("a subscriber more, the mean of all %s, instructions: %s" % (names, ", ".join(map("{:,.0f}".format, means))))
    print("a subscriber more, number {:,}, for whom a table is moved, instructions: {:,}".format(
        GROWING, library.instructions("soizkadur_add_live", "add", GROWING, 1)), flush=True)


def attaches_of(library):
    """The instructions of an attach by either way to provision."""
    for count, column in zip(measure.COUNTS, measure.COLUMNS):
        figures = [attach(library, count, late) for late in (False, True)]
        yield told("an attach among %s, provisioned before it ran and while it ran, instructions" % column, figures, FIFTIETH)


def attaches_beside(base, program):
    """The instructions of an attach by `mme play` of two programs."""
    benches = [measure.Bench(one, 1) for one in (base, program)]
    for count, column in zip(measure.COUNTS, measure.COLUMNS):
        before, whole = attaches.provisioned(count)[0].text(), measure.attached(count, False)[0].text()
        figures = [(bench.instructions(whole) - bench.instructions(before)) / count for bench in benches]
        yield told("an attach among %s by mme play, of the base and now, instructions" % column, figures, FIFTIETH)


def many_attaches(count):
    """A trace in which a phone attaches and is released so often, with a vector given before each attach."""
    trace = phones.Trace()
    phone = phones.Phone(trace, 0, [])
    trace.provision([phone])
    station = phones.Station(0)
    trace.set_up(station)
    for at in range(count):
        phone.vectors.append(phones.Vector.made("attach %d" % at))
        trace.say(phone.vectors[-1].words(phone.imsi))
        phone.attaches(station, 1)
        phone.is_released()
        if at + 1 in (FIRST, count):
            trace.say("# heap")
    return trace


def memory(library, count):
    """What is allocated after the first attaches and after all."""
    files = library.files_of(many_attaches(count))
    done = subprocess.run([library.program, "play", *files], capture_output=True, text=True, check=False)
    figures = [int(line.split(" ")[1]) for line in done.stdout.splitlines()]
    is_right = done.returncode == 0 and len(figures) == 2 and figures[0] == figures[1]
    print("allocated after %d and after %s attaches of one phone, each by a vector more: %s octets%s" % (
        FIRST, "{:,}".format(count), " and ".join("{:,}".format(figure) for figure in figures), "" if is_right else ", WRONG"))
    return is_right


def main():
    parser = argparse.ArgumentParser(description=__doc__, formatter_class=argparse.RawDescriptionHelpFormatter)
    parser.add_argument("folder", metavar="FOLDER", type=pathlib.Path)
    parser.add_argument("--only", nargs="+", choices=WORDS, default=WORDS)
    parser.add_argument("--base", metavar="MME")
    parser.add_argument("--program", metavar="MME", default=measure.PROGRAM)
    parser.add_argument("--attaches", metavar="N", type=int, default=10_000)
    given = parser.parse_args()
    right = []
    with tempfile.TemporaryDirectory() as room:
        library = Library(given.folder, room)
        if "calls" in given.only:
            right += calls(library)
        if "attaches" in given.only:
            right += [*attaches_of(library), *(attaches_beside(given.base, given.program) if given.base else ())]
        if "memory" in given.only:
            right.append(memory(library, given.attaches))
    return 0 if all(right) else 1


if __name__ == "__main__":
    sys.exit(main())
