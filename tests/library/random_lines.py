"""Random lines by `mme play` and by the library, which have to answer alike.

The lines are those of tests/hostile: random events of phones and stations that lie, each chosen by what the program answered
before. A session of them is played by the library line by line, by the calls that the lines stand for, and by an MME that is saved
and restored after each 97th event, with the states of each subscriber after each event. Then it is played by calls once more, with
subscribers and vectors that come among the events: each subscriber before a line names it, each vector before the phone is
challenged by it. The program has them in the head of the same trace, and must have the same answers and states. At last come short
traces of the session's lines, of which one is spoiled: the program ends at the first line that is wrong, with the fault's number;
the library has to refuse that line with the same number, and to answer alike before.
"""
import bisect
import collections
import concurrent.futures
import functools
import itertools
import random
import re
import subprocess

from tests.hostile import compare, fuzz, program
from tests.hostile.laboratory import IMSIS
from tests.hostile.lies import Liar

PROGRAM = program.PROGRAM
SEED = "library"
SHORT_TRACES = 25  # after each session
MOST_EVENTS = 60  # of a short trace
FEW_VECTORS = 2  # of each subscriber in a short trace
TOO_LONG = 40001  # octets
SECONDS = 600  # for one run
RESTARTED = "--restarted 97"  # (a number of events that divides no other number here)
MOST_SHOWN = 3000  # of a difference
SHOWS = ["show " + imsi for imsi in IMSIS]
FAULT = re.compile(rb"mme: line \d+: fault (\d)\n")
TAKEN, TAKEN_ALREADY, NOBODY = 0, 17, 5  # what a line that provisions an MME which runs is answered (soizkadur.h)
MOST_REFUSED = 8  # such lines of a session
NEW_IMSI, NEW_ADDRESS = "001010000000888", 0x0A00FFFF  # of nobody
EACH_FAULT = ["fault %d" % number for number in range(1, 8)]


def text_of(lines):
    return b"".join(line + b"\n" for line in lines)


def run_over(words, lines):
    """A run over a trace: its status, what it printed, and what it said."""
    done = subprocess.run(words, input=text_of(lines), capture_output=True, timeout=SECONDS, check=False)
    return done.returncode, done.stdout, done.stderr


class Players:
    """The program, and that of play.c over the library."""

    def __init__(self, mme, play):
        self.mme, self.play = mme, play

    def by_program(self, lines):
        return run_over([self.mme, "play"], lines)

    def by_library(self, lines, way="--lines"):
        return run_over([self.play, *way.split(" "), "-"], lines)

    def differ(self, lines):
        return self.by_program(lines) != self.by_library(lines)

    def told(self, name, lines, way="--lines"):
        """A difference in words, with the shortest trace that still has it where the library plays lines."""
        if way == "--lines":
            lines = compare.shortest(lines, self.differ)
        said = "%s, by the program %s, by the library %s" % (name, self.by_program(lines), self.by_library(lines, way))
        return "%s\nover\n%s" % (said[-MOST_SHOWN:], text_of(lines).decode(errors="backslashreplace")[-MOST_SHOWN:])


# --- Lines that may be wrong ---


def spoiled(liar, line, others):
    """What stands in place of a line: it, damaged; with a field less, a field twice or another's; too long; or after another."""
    rng, fields, other = liar.rng, line.split(b" "), liar.rng.choice(others)
    place, choice = rng.randrange(len(fields)), rng.random()
    if choice < 0.4:
        return [liar.damaged(line)]
    if choice < 0.5:
        return [b" ".join(fields[:place] + fields[place + 1:])]
    if choice < 0.6:
        return [b" ".join(fields[:place + 1] + fields[place:])]
    if choice < 0.8:
        return [b" ".join(fields[:place] + [rng.choice(other.split(b" "))] + fields[place + 1:])]
    if choice < 0.82:
        return [line + rng.choice((b"0", b" ")) * TOO_LONG]
    return [other, line]


def short_trace(liar, run):
    """Some of a session's lines, of which one is spoiled."""
    rng = liar.rng
    first = rng.choice((0, rng.randrange(len(run.events))))
    lines = [line for line in run.provisioning if not line.startswith("vec ")]
    for imsi in IMSIS:
        lines += [line for line in run.provisioning if line.startswith("vec " + imsi)][:FEW_VECTORS]
    lines += run.events[first:first + rng.randint(1, MOST_EVENTS)] + SHOWS
    lines = [line.encode() for line in lines]
    at = rng.randrange(len(lines))
    lines[at:at + 1] = spoiled(liar, lines[at], lines)
    return lines


# --- Subscribers and vectors that come while the MME runs ---


def named_at(run, slot):
    """The places of the events of a session that name a slot, or begin what it takes over later."""
    return {*run.projection.places[slot], *(began for by, began in run.projection.claims if by == slot)}


def with_joining(rng, run):
    """A session in which no subscriber is named before it joins, and the places at which they do, by slots, which rise: 0 is
    before the first event. Who isn't named may be once other messages are gone, so it is looked at again."""
    joins = sorted(rng.choice((0, rng.randint(0, len(run.events) // 3))) for _ in IMSIS)
    while True:
        early = {place for slot, join in enumerate(joins) for place in named_at(run, slot) if place < join}
        if not early:
            return run, joins
        kept = [place for place in range(len(run.events)) if place not in early]
        joins = [bisect.bisect_left(kept, join) for join in joins]
        run = compare.played(run.names, run.provisioning, IMSIS, [run.events[place] for place in kept], run.used)


def asked_at(run, line):
    """The place of the event by which the phone is challenged by the vector of a line; that of the end where none is."""
    rand = line.split(" ")[2]
    return next((place for place, answers in enumerate(run.answers) if any(rand in answer for answer in answers)), len(run.events))


class Late:
    """A session with what is provisioned in it while the MME runs: `lines` by places, each with what it is answered; what comes at
    place 0 stands in the head, and all else just before the event at its place."""

    def __init__(self, rng, run):
        self.run, self.joins = with_joining(rng, run)
        self.lines = collections.defaultdict(list)
        subs = [line for line in run.provisioning if line.startswith("sub ")]
        for slot, imsi in enumerate(IMSIS):
            self.lines[self.joins[slot]].append((subs[slot], TAKEN))
            self.vectors_of(rng, slot, [line for line in run.provisioning if line.startswith("vec %s " % imsi)])
        for place in rng.sample(range(1, len(self.run.events)), min(MOST_REFUSED, len(self.run.events) - 1)):
            self.lines[place].insert(0, self.refused(rng, place, subs))

    def vectors_of(self, rng, slot, lines):
        """The vectors of a slot come between its joining and their use, in order."""
        place = self.joins[slot]
        for line in lines:
            place = rng.choice((place, rng.randint(place, asked_at(self.run, line))))
            self.lines[place].append((line, TAKEN))

    def refused(self, rng, place, subs):
        """A line that is refused before the event at a place, and its number."""
        there = [slot for slot, join in enumerate(self.joins) if join < place]
        absent = [IMSIS[slot] for slot, join in enumerate(self.joins) if join >= place] + [NEW_IMSI]
        vector = rng.choice([line for line in self.run.provisioning if line.startswith("vec ")]).split(" ")
        wrong = [(" ".join(["vec", rng.choice(absent), *vector[2:]]), NOBODY)]
        if there:
            _, imsi, address, *rest = subs[rng.choice(there)].split(" ")
            wrong.append((" ".join(["sub", imsi, "%08x" % NEW_ADDRESS, *rest]), TAKEN_ALREADY))
            wrong.append((" ".join(["sub", NEW_IMSI, address, *rest]), TAKEN_ALREADY))
        return rng.choice(wrong)

    def known(self, place):
        """The slots of those who have joined after the event at a place."""
        return [slot for slot, join in enumerate(self.joins) if join <= place]

    def shows(self, place):
        """The lines that ask for their states."""
        return [SHOWS[slot] for slot in self.known(place)]

    def owed(self, place):
        """What is printed for the event at a place and for these lines."""
        return [*self.run.answers[place], *(self.run.states[place][slot] for slot in self.known(place))]

    def in_head(self):
        """The lines for the program, and what it has to print."""
        lines, printed = list(self.run.provisioning), []
        for place, event in enumerate(self.run.events):
            lines += [event, *self.shows(place)]
            printed += self.owed(place)
        return lines, printed

    def among_events(self):
        """The lines for the library, and what it has to print."""
        lines, printed = [self.run.provisioning[0], *(line for line, _ in self.lines[0])], []
        for place, event in enumerate(self.run.events):
            live = self.lines[place] if place else []
            lines += [*(line for line, _ in live), event, *self.shows(place)]
            printed += [*("told %d" % number for _, number in live), *self.owed(place)]
        return lines, printed

    def count(self, counts):
        """Counts what came while the MME ran."""
        for place, live in self.lines.items():
            for line, number in live if 0 < place < len(self.run.events) else ():
                counts["refused late" if number else line[:3] + " late"] += 1


def played_late(rng, run, players, counts):
    """What is wrong with a session whose subscribers and vectors come late, if anything."""
    late = Late(rng, run)
    late.count(counts)
    for play, (lines, printed) in ((players.by_program, late.in_head()),
                                   (functools.partial(players.by_library, way="--live"), late.among_events())):
        status, told, said = play([line.encode() for line in lines])
        if (status, told.decode().splitlines(), said) != (0, printed, b""):
            return "with lines of provisioning among the events: status %d, %s %s" % (
                status, said.decode(errors="replace")[-MOST_SHOWN:], first_difference(told.decode().splitlines(), printed))
    return None


def first_difference(got, wanted):
    pairs = itertools.zip_longest(got, wanted, fillvalue="nothing")
    return next(("line %d is %.150s, and not %.150s" % (at, *pair) for at, pair in enumerate(pairs, 1) if pair[0] != pair[1]), "")


# --- Sessions ---


def whole(run):
    """The lines of a session, and what the program printed for them."""
    lines = run.provisioning + [line for event in run.events for line in (event, *SHOWS)]
    printed = [line for answers, states in zip(run.answers, run.states) for line in (*answers, *states)]
    return [line.encode() for line in lines], text_of(line.encode() for line in printed)


def session(seed, count, players):
    """A session of `count` events, and the short traces after it: what they had, and what the first difference is."""
    counts = collections.Counter()
    try:
        run = fuzz.lived(seed, count, players.mme)
    except fuzz.Failed as failed:
        return counts, "session %s: %s" % (seed, failed.args[0])
    lines, printed = whole(run)
    counts.update({"events": len(run.events), "answers": sum(map(len, run.answers))})
    counts["refused"] = sum(line.startswith("refused ") for answers in run.answers for line in answers)
    for way in ("--lines", "--calls", RESTARTED):
        if players.by_library(lines, way) != (0, printed, b""):
            return counts, players.told("session %s %s" % (seed, way), lines, way)
    wrong = played_late(random.Random("%s late" % seed), run, players, counts)
    if wrong:
        return counts, "session %s %s" % (seed, wrong)
    liar = Liar(random.Random("%s short" % seed))
    for at in range(SHORT_TRACES):
        lines = short_trace(liar, run)
        wanted = players.by_program(lines)
        fault = FAULT.fullmatch(wanted[2])
        counts.update(["short traces", "fault " + fault[1].decode() if fault else "no fault"])
        if players.by_library(lines) != wanted:
            return counts, players.told("short trace %d of session %s" % (at, seed), lines)
    return counts, None


def sessions(count):
    """The seeds of the sessions, and the events of each."""
    full, rest = divmod(count, fuzz.SESSION)
    return [("%s.%d" % (SEED, at), fuzz.SESSION if at < full else rest) for at in range(full + bool(rest))]


def compared(count, jobs, players, counts):
    """For each session of `count` random events its seed and a difference, if there is one; `counts` grows."""
    with concurrent.futures.ProcessPoolExecutor(jobs) as pool:
        asked = {pool.submit(session, *one, players): one[0] for one in sessions(count)}
        for done in concurrent.futures.as_completed(asked):
            of_session, fault = done.result()
            counts.update(of_session)
            yield "session %s" % asked[done], fault


def left_out(players):
    """What is wrong where the library isn't given an event that was answered: nothing, if the comparison sees it."""
    run = fuzz.lived(SEED, 100, players.mme)
    lines, printed = whole(run)
    event = next(event for event, answers in zip(run.events, run.answers) if answers)
    lines.remove(event.encode())
    return "an event that is left out isn't seen" if players.by_library(lines)[1] == printed else None


def too_late(players):
    """What is wrong where the library is given a vector just after the phone asked for it: nothing, if the comparison sees it."""
    late = Late(random.Random(SEED), fuzz.lived(SEED, 100, players.mme))
    vectors = [line for line in late.run.provisioning if line.startswith("vec ")]
    asked, line = min((asked_at(late.run, line), line) for line in vectors)
    for live in late.lines.values():
        live[:] = [one for one in live if one[0] != line]
    late.lines[asked + 1].append((line, TAKEN))
    lines, printed = late.among_events()
    got = players.by_library([line.encode() for line in lines], "--live")[1].decode().splitlines()
    return "a vector that comes too late isn't seen" if got == printed else None


def figures(counts):
    """What the sessions had, in words."""
    faults = ", ".join("%d %s" % (counts[word], word) for word in (*EACH_FAULT, "no fault"))
    return ("random lines: %d events with %d answers and refusals, %d of them refused; among events %d subscribers, %d vectors, "
            "and %d of either that were refused; %d short traces with a spoiled line: %s" % (
                counts["events"], counts["answers"], counts["refused"], counts["sub late"], counts["vec late"],
                counts["refused late"], counts["short traces"], faults))
