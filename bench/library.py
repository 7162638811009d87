#!/usr/bin/env python3
"""Times a phone's day through the libraries for C and for Python, beside `mme play` of the same events.

    library.py FOLDER .. [--program MME ..] [--count N ..] [--rounds N]
    library.py FOLDER --steps PROGRAM [--count N ..] [--rounds N]

FOLDER has libsoizkadur.a, libsoizkadur.so.1 and soizkadur.h, as `./mme --library` leaves them in crates/mme_c/out/library. A day is
attach, release, service request, release, a tracking area update from idle, detach (measure.py, `days`). Through the library for C
an event is a call with its octets and a copy of each message that it sends (library.c), in Python the same (`receive`) or a line of
a trace (`line`); through `mme play` it is lines of text, and what the program takes to start and to be provisioned is taken off.
Times are of one processor, the best of the rounds; with several folders or programs all are run in turn, so that they meet the same
machine, and Python goes over the first folder. Ends with 1 where an answer is wrong.

With --steps an event through the library for C is set beside one that `Mme::step` alone hears, by PROGRAM, which is built of
steps.rt.txt (programs.py). In each round both programs run, one after the other, and each has ten rounds of its own.
"""
import argparse
import functools
import os
import pathlib
import re
import subprocess
import sys
import tempfile
import time

sys.dont_write_bytecode = True
HERE = pathlib.Path(__file__).resolve().parent
if __name__ == "__main__":
    sys.path[0] = str(HERE.parent)
    sys.path.append(str(HERE.parent / "python"))
import soizkadur
from bench import measure
from reference import scripts

ACTS = ("attach %s 0 %d", "idle %s", "service %s 0 %d", "idle %s", "tau %s 0 %d", "detach %s")
LINE = re.compile(r"(\d+) events, (\d+) messages, (\d+) octets in (\d+) ns\n")
EACH = 10  # rounds of library.c, as ROUNDS in steps.rt.txt


def built(folder, room):
    """The program of library.c over the archive in a folder."""
    program = pathlib.Path(room, "library_speed")
    subprocess.run(["cc", "-std=c11", "-O2", "-I", HERE.parent / "tests" / "library", "-I", folder, HERE / "library.c",
                    pathlib.Path(folder, "libsoizkadur.a"), "-o", program], check=True)
    return program


def days_of(count):
    """The traces of phones that are provisioned, and of their days."""
    lines, made = measure.provided(count)
    acts = [act % (phone.imsi, phone.slot) if "%d" in act else act % phone.imsi for phone in made for act in ACTS]
    return [measure.played(scripts.owed("\n".join(part) + "\n")) for part in (lines, lines + acts)]


def events_in(trace):
    """How many lines of a trace are events."""
    return sum(line.split(" ")[0] not in ("mme", "sub", "vec") for line in trace.lines)


def timed(words, bench, trace):
    """The seconds that the events of a trace take by a program which reads it and prints what library.c does, and whether as many
    messages with as many octets were sent as are owed."""
    with open(bench.kept("library", trace.text()), encoding="utf-8") as text:
        said = subprocess.run(words, stdin=text, check=True, capture_output=True, text=True).stdout
    events, messages, octets, took = map(int, LINE.fullmatch(said).groups())
    owed = [bytes.fromhex(line.split(" ")[3]) for line in trace.answers if line.startswith("out ")]
    return took / 1e9, (events, messages, octets) == (events_in(trace), len(owed), sum(map(len, owed)))


def through_library(program, bench, trace, rounds):
    """The seconds that the events of a trace take through the library for C, and whether it sends what is owed."""
    return timed([program, "-", str(rounds)], bench, trace)


def event_of(mme, line, by_lines):
    """The call of an event: a message as its octets, or as all others by its line."""
    word, *fields = line.split(" ")
    if word == "in" and not by_lines:
        return functools.partial(mme.receive, int(fields[0]), bytes.fromhex(fields[1]))
    return functools.partial(mme.line, line)


def through_python(folder, trace, rounds, by_lines):
    """The seconds that the events of a trace take through the package for Python, and whether it answers what is owed."""
    os.environ["SOIZKADUR_LIBRARY"] = str(pathlib.Path(folder, "libsoizkadur.so.1").resolve())  # (read at the first call)
    first = next(at for at, line in enumerate(trace.lines) if line.startswith("up "))
    owed, best, right = [line for line in trace.answers if line.startswith("out ")], float("inf"), True
    for _ in range(rounds):
        with soizkadur.Mme.from_lines(trace.lines[:first]) as mme:
            events = [event_of(mme, line, by_lines) for line in trace.lines[first:]]
            begun = time.process_time()
            sent = [event() for event in events]
            best = min(best, time.process_time() - begun)
        right = right and [str(out) for each in sent for out in each] == owed
    return best, right


def in_turn(programs, benches, bench, traces, rounds):
    """The seconds of the days through each library for C and by `mme play` of each program, all in turn, and whether the libraries
    send what is owed."""
    base, trace = traces
    best, right = {}, True
    for _ in range(rounds):
        for folder, program in programs.items():
            took, is_right = through_library(program, bench, trace, EACH)
            best["the library in %s" % folder], right = min(best.get("the library in %s" % folder, took), took), right and is_right
        for one in benches:
            least, most = one.best([base.text(), trace.text()], 1)
            for what, took in ((one, least), ((one, "days"), most)):
                best[what] = min(best.get(what, took), took)
    for one in benches:
        best["mme play of %s" % one.program] = best.pop((one, "days")) - best.pop(one)
    return best, right


def beside_steps(program, steps, bench, trace, rounds):
    """The seconds that the events of a trace take through the library for C and by `Mme::step` alone, both in turn, and whether
    both send what is owed."""
    best, right = [float("inf")] * 2, True
    for _ in range(rounds):
        for at, words in enumerate(([program, "-", str(EACH)], [steps, "steps"])):
            took, is_right = timed(words, bench, trace)
            best[at], right = min(best[at], took), right and is_right
    return best, right


def print_steps(program, steps, bench, counts):
    """Prints what an event costs by each, with the days of each number of phones; how often something was wrong."""
    wrong = 0
    for count in counts:
        trace = days_of(count)[1]
        best, right = beside_steps(program, steps, bench, trace, max(bench.rounds, 2000 // count))
        library, alone = (seconds / events_in(trace) * 1e9 for seconds in best)
        print("%d phones, an event by the library: %.0f ns, by Mme::step: %.0f ns, the difference: %.0f ns; the messages: %s" % (
            count, library, alone, library - alone, "as owed" if right else "WRONG"), flush=True)
        wrong += not right
    return wrong


def main():
    parser = argparse.ArgumentParser(description=__doc__, formatter_class=argparse.RawDescriptionHelpFormatter)
    parser.add_argument("folders", metavar="FOLDER", nargs="+")
    parser.add_argument("--program", metavar="MME", nargs="+", default=[measure.PROGRAM])
    parser.add_argument("--steps", metavar="PROGRAM")
    parser.add_argument("--count", type=int, nargs="+", default=[measure.FEW, measure.MANY])
    parser.add_argument("--rounds", type=int, default=10)
    given = parser.parse_args()
    benches, wrong = [measure.Bench(program, given.rounds) for program in given.program], 0
    bench = benches[0]
    with tempfile.TemporaryDirectory() as room:
        programs = {folder: built(folder, pathlib.Path(tempfile.mkdtemp(dir=room))) for folder in given.folders}
        if given.steps:
            return 1 if print_steps(programs[given.folders[0]], given.steps, bench, given.count) else 0
        for count in given.count:
            traces = days_of(count)
            for one in benches:
                one.checked("%d days" % count, traces[1])
            best, right = in_turn(programs, benches, bench, traces, max(given.rounds, 2000 // count))
            for what, by_lines in (("calls in Python", False), ("lines in Python", True)):
                best[what], is_right = through_python(given.folders[0], traces[1], given.rounds, by_lines)
                right = right and is_right
            wrong += not right
            for what, seconds in best.items():
                print("%d phones, a day by %s: %.1f us, %.0f a second; %.0f events a second" % (
                    count, what, seconds / count * 1e6, count / seconds, events_in(traces[1]) / seconds))
            print("the libraries' messages: %s" % ("as owed" if right else "WRONG"), flush=True)
    return 1 if wrong or any(one.wrong for one in benches) else 0


if __name__ == "__main__":
    sys.exit(main())
