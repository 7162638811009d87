#!/usr/bin/env python3
"""Measures `mme play` over traces of phones that attach, and `mme sim` over scripts, and checks each answer.

    measure.py [PROGRAM] [--only WORD ..] [--rounds N] [--ticks N]
    measure.py [PROGRAM] --table

PROGRAM is the built one of this repository where none is given. `--table` prints, after the figures one by one, the table of
bench/README.md. The words: attaches, growth, events, ticks, setups, instructions, stations, waiting, due, scripts, days. Times are those of the
processor, of one thread; the best of the rounds counts, and a run's start and provisioning, measured in the same rounds, are taken
off. `instructions`, `stations`, `waiting` and `due` count them by valgrind, which no other work on the machine can change. Most are taken
at 20, 2,048 and 32,768 subscribers. Ends with 1 where an answer is wrong.
"""
import argparse
import functools
import hashlib
import os
import pathlib
import re
import subprocess
import sys
import tempfile

if __name__ == "__main__":
    sys.path[0] = str(pathlib.Path(__file__).resolve().parent.parent)
from bench import attaches
from reference import lte, phones, scripts

FEW, MANY, MOST = COUNTS = (20, 2048, attaches.MOST)
COLUMNS = ["{:,}".format(count) for count in COUNTS]  # of the table
PROGRAM = os.path.join(os.path.dirname(os.path.abspath(__file__)), "..", "crates", "mme", "out", "mme")
USUAL = ("attaches", "growth", "events", "ticks", "setups")
OF_TABLE = ("instructions", "stations", "waiting", "due", "growth", "events", "days", "scripts")


class Bench:
    def __init__(self, program, rounds):
        self.program, self.rounds, self.wrong = os.path.abspath(program), rounds, 0
        self.folder = tempfile.TemporaryDirectory()
        self.figures, self.counted = {}, {}

    def figure(self, row, count, value):
        """Keeps a figure for the table: its row, for how many subscribers, and its text."""
        self.figures.setdefault(row, {})["{:,}".format(count)] = value

    def table(self):
        """The figures as the table of bench/README.md, a row for each."""
        lines = ["| What | %s |" % " | ".join(COLUMNS), "|---|%s" % ("---|" * len(COLUMNS))]
        for row, values in self.figures.items():
            lines.append("| %s | %s |" % (row, " | ".join(values.get(column, "") for column in COLUMNS)))
        return "\n".join(lines)

    def kept(self, name, text):
        path = os.path.join(self.folder.name, name)
        with open(path, "w") as file:
            file.write(text)
        return path

    def checked(self, what, trace):
        """The answers are those that are owed."""
        path = self.kept("checked", trace.text())
        said = subprocess.run([self.program, "play", path], capture_output=True, text=True)
        right = said.returncode == 0 and not said.stderr and said.stdout == trace.answer_text()
        self.wrong += not right
        print("%s: %d answers %s" % (what, len(trace.answers), "as owed" if right else "WRONG"))

    def usage(self, path, word="play"):
        """What one run used, its output dropped."""
        with open(os.devnull, "w") as none:
            child = subprocess.Popen([self.program, word, path], stdout=none)
            _, status, usage = os.wait4(child.pid, 0)
        child.returncode = os.waitstatus_to_exitcode(status)
        if child.returncode:
            raise SystemExit("%s ended with %d" % (path, child.returncode))
        return usage

    def seconds(self, path, word="play"):
        """The processor's time of one run."""
        usage = self.usage(path, word)
        return usage.ru_utime + usage.ru_stime

    def instructions(self, text):
        """How many instructions a run takes; the same text is run once."""
        digest = hashlib.sha256(text.encode()).digest()
        if digest not in self.counted:
            words = ["valgrind", "--tool=callgrind", "--callgrind-out-file=/dev/null", self.program, "play"]
            said = subprocess.run(words + [self.kept("counted", text)], capture_output=True, text=True).stderr
            self.counted[digest] = int(re.search(r"Collected : (\d+)", said).group(1))
        return self.counted[digest]

    def best(self, traces, rounds=None, word="play"):
        """For each trace or script the least time of the rounds; they are run in turn, so that they meet the same machine."""
        paths = [self.kept("timed%d" % at, text) for at, text in enumerate(traces)]
        times = [[self.seconds(path, word) for path in paths] for _ in range(rounds or self.rounds)]
        return [min(column) for column in zip(*times)]


@functools.lru_cache(None)
def attached(count, release):
    """The trace of `count` attaches, made once: 32,768 take minutes."""
    return attaches.attached(count, release, show=False)


def before_and_whole(count, more, release=True):
    """The text of a trace in which `count` phones are attached, and a trace with the lines that `more` adds."""
    trace, station, made = attached(count, release)
    lines, answers, states = trace.lines, trace.answers, [dict(vars(phone)) for phone in made]
    trace.lines, trace.answers = list(lines), list(answers)
    more(trace, station, made)
    whole = phones.Trace(trace.network)
    whole.lines, whole.answers = trace.lines, trace.answers
    trace.lines, trace.answers = lines, answers
    for phone, state in zip(made, states):
        phone.__dict__ = state
    return trace.text(), whole


def attaches_per_second(bench):
    for choices in ({}, {"release": True}, {"release": True, "information": True}):
        bench.checked("%d attaches, %s" % (MANY, choices), attaches.attached(MANY, **choices)[0])
    base = attaches.provisioned(MANY)[0].text()
    least, most = bench.best([base, attached(MANY, False)[0].text()])
    print("start and provisioning of %d: %.4f s; the whole: %.4f s" % (MANY, least, most))
    print("attaches: %.0f a second, %.1f us each" % (MANY / (most - least), (most - least) / MANY * 1e6))


def growth(bench):
    """Time of one attach with N subscribers, each attached once."""
    each = {}
    for count in COUNTS:
        base, (trace, _, _) = attaches.provisioned(count)[0].text(), attached(count, False)
        bench.checked("%d attaches" % count, trace)
        least, most = bench.best([base, trace.text()], max(bench.rounds, 6000 // count))
        each[count] = (most - least) / count
        bench.figure("an attach, µs", count, "%.1f" % (each[count] * 1e6))
        print("attach among %d subscribers: %.2f us" % (count, each[count] * 1e6))
    print("%d beside %d: %.3f, beside %d: %.3f" % (MOST, FEW, each[MOST] / each[FEW], MANY, each[MOST] / each[MANY]))


EVENTS, COUNTED = 20000, 200


def statuses(trace, station, phone, count=EVENTS):
    """EMM STATUS under the context: accepted, nothing is owed."""
    for _ in range(count):
        phone.sends(phone.protected_up(b"\x07\x60\x61"))


def requests(trace, station, phone, count=EVENTS):
    """PDN CONNECTIVITY REQUEST: owed PDN CONNECTIVITY REJECT with cause 31."""
    for _ in range(count):
        phone.sends(phone.protected_up(lte.pdn_connectivity_request(9, 1, False)))
        phone.owed_nas(phone.protected_down(b"\x02\x09\xd1\x1f"))


def notices(trace, station, phone, count=EVENTS):
    """Data for a phone that is idle: the first is owed PAGING, and while that is under way the others nothing."""
    phone.has_data_waiting([station])
    for _ in range(count - 1):
        phone.has_data_waiting([])


def wrong_ways(trace, station, phone, count=EVENTS):
    """A message that only an MME sends: owed ERROR INDICATION to the station, and nobody is called."""
    for _ in range(count):
        trace.hear(station, lte.downlink_nas(phone.m, 1, b"\x07\x44\x08"))
        trace.owe("e0", station, lte.s1ap(lte.INITIATING, 15, lte.IGNORE, (lte.IGNORE, lte.cause(((3, 3), 3)))))


KINDS = (("uplink NAS with nothing owed", False, statuses), ("uplink NAS with a reject owed", False, requests),
         ("a data notice while a page is under way", True, notices), ("a station's own answer", False, wrong_ways))


def events(bench):
    """Time of one event of one subscriber among N that are attached."""
    for what, release, add in KINDS:
        each = {}
        for count in COUNTS:
            before, trace = before_and_whole(count, lambda t, s, made: add(t, s, made[10]), release)
            bench.checked("%s among %d" % (what, count), trace)
            least, most = bench.best([before, trace.text()])
            each[count] = (most - least) / EVENTS
            bench.figure("%s, µs" % what, count, "%.1f" % (each[count] * 1e6))
            print("%s among %d: %.2f us" % (what, count, each[count] * 1e6))
        print("%s: %d beside %d: %.3f" % (what, MOST, FEW, each[MOST] / each[FEW]))
    paged(bench)


def paged(bench):
    """A data notice for each of N idle phones, each owed PAGING."""
    for count in COUNTS:
        before, trace = before_and_whole(count, lambda t, s, made: [phone.has_data_waiting([s]) for phone in made])
        bench.checked("a page for each of %d" % count, trace)
        least, most = bench.best([before, trace.text()], max(bench.rounds, 2000 // count))
        bench.figure("a page for each idle phone, µs each", count, "%.1f" % ((most - least) / count * 1e6))
        print("a page for each of %d: %.2f us each" % (count, (most - least) / count * 1e6))


def told(bench, what, count, each):
    """Keeps and prints how many instructions something takes with `count` subscribers."""
    bench.figure("%s, instructions" % what, count, "{:,.0f}".format(each))
    print("%s among %d: %.0f instructions" % (what, count, each))
    sys.stdout.flush()


def stations(bench):
    """Instructions of what concerns none of N subscribers: a station's set-up, its loss and its return, and a tick."""
    for count in (0, *COUNTS):
        trace, station, _ = attaches.provisioned(count)
        before = trace.text()
        trace.set_up(station, connects=False)
        lost = "lost %d\nup %d\n" % (station.number, station.number)
        for what, lines in (("a station's set-up", trace.text()[len(before):]), ("a station lost and up again", lost),
                            ("a tick with nothing due", "tick 1\n")):
            each = bench.instructions(before + lines * COUNTED) - bench.instructions(before)
            told(bench, what, count, each / COUNTED)


def waiting(bench):
    """Instructions of a tick and of one more first message, with N unknown phones that were asked for their identity."""
    nas = lte.attach_request(1, scripts.FOREIGN_GUTI, b"\xe0\x60", lte.pdn_connectivity_request(1, 1, False))
    for count in (0, *COUNTS):
        trace, station, _ = attaches.provisioned(FEW)
        messages = [lte.initial_ue_message(trace.network, station, b, nas) for b in range(count + COUNTED)]
        for message in messages[:count]:
            trace.hear(station, message)
        before = trace.text()
        for message in messages[count:]:
            trace.hear(station, message)
        begun, ticked, asked, more = map(bench.instructions, (before, before + "tick 5\n", before + "tick 6\n", trace.text()))
        told(bench, "a tick while unknown phones wait", count, (ticked - begun) / 5)
        told(bench, "an unknown phone's first message", count, (more - begun) / COUNTED)
        if count:
            told(bench, "a tick for each whom it asks again", count, (asked - ticked) / count)


def challenged(count, alone):
    """The text of a trace in which `count` phones are challenged and don't answer, up to a second in which none is due, after which
    the first challenge is sent again: that of the phone in the middle, a second before the others', or of all at once."""
    trace, station, made = attaches.provisioned(count)
    early = made[count // 2:count // 2 + 1] if alone else []
    for phone in early:
        phone.asks_to_attach(station, 1 + phone.slot)
    if early:
        trace.say("tick 1")
    for phone in made:
        if phone not in early:
            phone.asks_to_attach(station, 1 + phone.slot)
    trace.say("tick 3" if early else "tick 4")
    return trace.text()


def due(bench):
    """Instructions of a challenge that is sent again because its countdown ends, with N countdowns that run: of one phone alone,
    and for each phone where all end at once."""
    for what, alone in (("of one phone alone", True), ("where all are due at once, for each", False)):
        for count in COUNTS:
            before = challenged(count, alone)
            begun, quiet, whole = (bench.instructions(before + "tick 1\n" * ticks) for ticks in range(3))
            told(bench, "a challenge again, " + what, count, (whole - 2 * quiet + begun) / (1 if alone else count))


def instructions(bench):
    """Instructions of an attach, of an event of one subscriber and of a tick, with N subscribers."""
    for count in COUNTS:
        base = bench.instructions(attaches.provisioned(count)[0].text())
        told(bench, "an attach", count, (bench.instructions(attached(count, False)[0].text()) - base) / count)
    for what, release, add in KINDS:
        for count in COUNTS:
            before, trace = before_and_whole(count, lambda t, s, made: add(t, s, made[10], COUNTED), release)
            told(bench, what, count, (bench.instructions(trace.text()) - bench.instructions(before)) / COUNTED)
    for count in COUNTS:
        before, trace = before_and_whole(count, lambda t, s, made: t.say("tick 10"))
        told(bench, "a tick over idle phones", count, (bench.instructions(trace.text()) - bench.instructions(before)) / 10)


def ticks(bench, most):
    """Time of N ticks with idle subscribers, and with ones who were never seen; fewer ticks where there are most."""
    for subscribers, longest in ((MANY, most), (MOST, min(most, 1000))):
        for what, trace in (("idle", attached(subscribers, True)[0]), ("never seen", attaches.provisioned(subscribers)[0])):
            before = trace.text()
            for count in sorted({100, 1000, 3000, longest}):
                if count <= longest:
                    least, whole = bench.best([before, before + "tick %d\n" % count], 1 if count > 1000 else 3)
                    print("%d %s, tick %d: %.3f s, %.2f us a tick" % (
                        subscribers, what, count, whole - least, (whole - least) / count * 1e6))
                    sys.stdout.flush()


def set_ups(bench):
    """Lines of a second where each is an S1 SETUP REQUEST, with N subscribers."""
    for count, lines in ((0, 100000), (2, 100000), (MANY, 2000), (MOST, 2000)):
        trace, station, _ = attaches.provisioned(count)
        before = trace.text()
        for _ in range(lines):
            trace.set_up(station, connects=False)
        bench.checked("%d set-ups with %d subscribers" % (lines, count), trace)
        least, most = bench.best([before, trace.text()], 3)
        print("set-ups with %d subscribers: %.0f lines a second" % (count, lines / (most - least)))


def provided(count):
    """The lines of a script that provide `count` phones, each with one vector, and a station that is set up."""
    trace, station, made = attaches.provisioned(count)
    lines = [line for line in trace.lines if line.split(" ")[0] in ("mme", "sub", "vec")]
    return lines + ["station %d %05x %04x" % (station.number, station.identity, station.tac), "up %d" % station.number], made


def simulated(bench):
    """Attaches of a second by a script, and the memory of long scripts."""
    scripts_of = {}
    for count in COUNTS:
        lines, made = provided(count)
        acts = ["attach %s 0 %d" % (phone.imsi, phone.slot) for phone in made]
        text, whole = "\n".join(lines) + "\n", "\n".join(lines + acts) + "\n"
        said = subprocess.run([bench.program, "sim", bench.kept("script", whole)], capture_output=True, text=True)
        right = said.returncode == 0 and said.stdout == scripts.owed(whole)
        bench.wrong += not right
        scripts_of[count] = whole, made
        least, most = bench.best([text, whole], max(bench.rounds, 2000 // count), word="sim")
        bench.figure("attaches of a second by a script", count, "{:,.0f}".format(count / (most - least)))
        print("%d attaches by a script, the output %s: %.0f a second" % (
            count, "as owed" if right else "WRONG", count / (most - least)))
        sys.stdout.flush()
    whole, made = scripts_of[MANY]
    for turns in (1, 25):
        more = ["%s %s%s" % (word, phone.imsi, place) for _ in range(turns)
                for phone in made for word, place in (("idle", ""), ("service", " 0 %d" % phone.slot))]
        usage = bench.usage(bench.kept("long", whole + "\n".join(more) + "\n"), word="sim")
        print("%d lines of idle and service: %.2f s in all, %.1f MB at most" % (
            len(more), usage.ru_utime + usage.ru_stime, usage.ru_maxrss / 1000))


def days(bench):
    """Time and instructions of a phone's day, one phone after another: attach, release, service request, release, a tracking area
    update from idle, detach. The trace is what `mme sim` owes for the script of these acts."""
    for count in COUNTS:
        lines, made = provided(count)
        acts = [act % (phone.imsi, phone.slot) if "%d" in act else act % phone.imsi for phone in made for act in
                ("attach %s 0 %d", "idle %s", "service %s 0 %d", "idle %s", "tau %s 0 %d", "detach %s")]
        base, trace = (played(scripts.owed("\n".join(part) + "\n")) for part in (lines, lines + acts))
        bench.checked("%d days" % count, trace)
        least, most = bench.best([base.text(), trace.text()], max(bench.rounds, 2000 // count))
        bench.figure("a phone's day, µs", count, "%.1f" % ((most - least) / count * 1e6))
        print("days of %d phones: %.0f a second" % (count, count / (most - least)))
        told(bench, "a phone's day", count, (bench.instructions(trace.text()) - bench.instructions(base.text())) / count)


def played(output):
    """The output of a simulation as a trace and its answers."""
    trace = phones.Trace()
    for line in output.splitlines():
        if line.startswith("# "):
            trace.answers.append(line[2:])
        else:
            trace.say(line)
    return trace


def main():
    parser = argparse.ArgumentParser(description=__doc__, formatter_class=argparse.RawDescriptionHelpFormatter)
    parser.add_argument("program", nargs="?", default=PROGRAM)
    parser.add_argument("--table", action="store_true", help="at the end print the table of bench/README.md; measures what it has")
    parser.add_argument("--only", nargs="*", choices=[*USUAL, "instructions", "stations", "waiting", "due", "scripts", "days"])
    parser.add_argument("--rounds", type=int, default=10)
    parser.add_argument("--ticks", type=int, default=3000)
    given = parser.parse_args()
    if not os.path.exists(given.program):
        sys.exit("measure.py: %s isn't built: ./mme --prove" % given.program)
    bench = Bench(given.program, given.rounds)
    for word in given.only or (OF_TABLE if given.table else USUAL):
        {"attaches": attaches_per_second, "growth": growth, "events": events, "setups": set_ups, "instructions": instructions,
         "stations": stations, "waiting": waiting, "due": due, "scripts": simulated, "days": days,
         "ticks": lambda bench: ticks(bench, given.ticks)}[word](bench)
        sys.stdout.flush()
    if given.table:
        print("\n" + bench.table())
    sys.exit(1 if bench.wrong else 0)


if __name__ == "__main__":
    main()
