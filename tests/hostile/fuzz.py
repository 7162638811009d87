"""Sessions of random events, each played as one MME with all phones and as one MME for each owner alone."""
import collections
import random

from tests.hostile import compare, laboratory, program
from tests.hostile.lies import Liar
from tests.hostile.projection import Names

SESSION = 1000  # events
STRANGERS = 3  # strangers of a session that are compared, beside all subscribers and stations

class Failed(Exception):
    """The program ended in the midst of a session: how, and the run with the events that it was told."""


def names():
    return Names(laboratory.NETWORK, laboratory.IMSIS)


def lived(seed, count, used=program.PROGRAM):
    """The run of one session: this number of events, chosen by the seed and by what the MME answers."""
    lab = Liar(random.Random(seed))
    provisioning = laboratory.provisioning()
    run = compare.Run(names(), provisioning, laboratory.IMSIS, used)
    run.told = lab.told
    live = program.Live(provisioning, laboratory.IMSIS, used)
    events = lab.morning()
    try:
        while events:
            for event, (answers, states) in zip(events, live.happen(events)):
                run.take(event, answers, states)
                lab.hears(answers)
            left = count - len(run.events)
            events = lab.batch(left) if left > 0 else []
        live.close()
    except program.Ended as ended:
        text = "%s after %d events" % (ended, len(run.events))
        run.events += events
        raise Failed(text, run) from None
    return run


def found_in(run):
    """The first difference of a run."""
    try:
        return run.difference(STRANGERS)
    except program.Ended as ended:
        return compare.Difference("program", len(run.events), "an end with status 0", str(ended))


def shrunk(run, owner):
    """The shortest trace that still has a difference for the owner, or that the program still ends at."""
    vectors = [line for line in run.provisioning if line.startswith("vec ")]
    fixed = [line for line in run.provisioning if not line.startswith("vec ")]

    def rerun(items):
        provisioning = fixed + [line for line in items if line.startswith("vec ")]
        events = [line for line in items if not line.startswith("vec ")]
        return compare.played(run.names, provisioning, run.imsis, events, run.used)

    def differs(items):
        try:
            again = rerun(items)
            return bool(again.stirred or again.difference_of(owner))
        except program.Ended:
            return True

    return fixed + compare.shortest(vectors + run.events, differs)


class Figures:
    """What the sessions did."""

    def __init__(self):
        self.counts = collections.Counter()

    def take(self, run):
        self.counts["events"] += len(run.events)
        self.counts["sessions"] += 1
        self.counts.update(run.told)
        for answers in run.answers:
            self.counts["messages sent"] += len(answers)
        for states in run.states:
            for state in states:
                self.counts[state.split(" ", 2)[2]] += 1

    def text(self):
        return ", ".join("%d %s" % (self.counts[word], word) for word in ("events", "sessions", "messages sent"))
