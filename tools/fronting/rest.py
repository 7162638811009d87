"""A front's log that is read from a snapshot on, by the tools that tell of runs: the network as it was then, the events since, and
what the library answers to each. A line that was given while the front ran (`#+ `) is no event of these tools: by it the network is
longer.
"""
import os
import typing

from tools import progress, runs, versions
from tools.eps import story
from tools.eps.remembered import Remembered

from tools.fronting.adding import FORM
from tools.fronting.faults import told
from tools.fronting.mme import FURTHER, add_live, library
from tools.fronting.playing import REFUSED, Series, after_snapshot, last_of, restored
from tools.fronting.snapshots import Unfit

OF_LIBRARY = "%s is read from a snapshot on, where the library alone answers: without ANSWERS and --mme"
OF_A_FILE = "--from is of a log's file"


class Further(typing.NamedTuple):
    """A line `sub` or `vec` that was given, by the number of its line."""
    line: int
    text: bytes


class Rest(typing.NamedTuple):
    """What a log has besides its events that is read from a snapshot on: what the snapshot has, the lines that were given since,
    when it was made, and the octets since."""
    remembered: Remembered
    further: list
    made: str
    octets: bytes


class Answering:
    """The MME of a snapshot, which is given the lines since one by one: `steps` are the events with its answers."""

    def __init__(self, package, mme, remembered):
        self.package, self.mme = package, mme
        self.second, self.imsis, self.known = remembered.second, list(remembered.imsis), set(remembered.imsis)
        self.steps, self.further = [], []

    def take(self, number, text):
        """Takes a line by its number."""
        if text.startswith(FURTHER):
            self.give(number, text.removeprefix(FURTHER))
        elif text and text[0] != runs.COMMENT:
            self.step(number, text)

    def step(self, number, text):
        """Takes an event."""
        event = runs.usual_event(number, text) or runs.event_of(number, *runs.fields_of(text, runs.EVENTS))
        if event.word == "show" and event.imsi not in self.known:
            raise runs.Fault("there is no subscriber %s to show" % event.imsi)
        self.steps.append(runs.Step(event, self.second, self.answers(event)))
        self.second += event.ticks or 0

    def answers(self, event):
        """What the MME answers, each with its second."""
        if event.ticks is None:
            texts = [(self.second, text) for text in self.mme.answers(runs.event_text(event))]
        else:
            replies = enumerate(self.mme.tick(event.ticks), self.second + 1)
            texts = [(second, text) for second, reply in replies for text in self.texts_of(reply)]
        return [(second, runs.answer_of(text.encode())) for second, text in texts]

    def texts_of(self, reply):
        """The lines of a reply to a tick."""
        return ["refused %d" % reply] if isinstance(reply, self.package.Refusal) else map(str, reply)

    def give(self, number, text):
        """Takes a line of provisioning. One that the MME refused when it was given changes nothing here either."""
        line = text.decode("latin-1")
        if not FORM.fullmatch(line):
            raise runs.Fault("it isn't one that could be given")
        word, imsi, *fields = line.split(" ")
        try:
            add_live(self.package, self.mme, word, imsi, *fields)
        except self.package.Refused as refused:
            if refused.refusal in (self.package.Refusal.NO_MEMORY, self.package.Refusal.LOST):
                raise
            versions.complain(REFUSED % (number, word, imsi))
            return
        self.further.append(Further(number, text))
        if word == "sub":
            self.imsis.append(imsi)
            self.known.add(imsi)


def series_of(given):
    """The log that is asked for, where it is to be read from a snapshot on; nothing where it is read from its beginning."""
    path, is_asked_for = given.trace, given.after is not None
    last = last_of(path)
    if not os.path.isfile(last) or runs.SEGMENT_END.search(path):
        if is_asked_for:
            raise runs.Fault(OF_A_FILE)
        return None
    try:
        with open(last, "rb") as file:
            is_later = runs.LATER_SEGMENT.match(file.readline(runs.LONGEST_LINE))
        series = Series(path) if is_later or is_asked_for else None
    except OSError as fault:
        raise runs.Fault("%s: %s" % (path, told(fault))) from None
    return series if is_asked_for or series and series.first > 1 else None


def taken(package, snapshot):
    """The MME of a snapshot, what the snapshot has of it, and when it was made."""
    mme = restored(package, snapshot.octets)
    try:
        return mme, Remembered(snapshot.octets), snapshot.about["made"]
    except runs.Fault as fault:
        mme.close()
        raise Unfit(str(fault)) from None


def octets_of(series):
    """What is to be read of a log."""
    try:
        return b"".join(series.pieces())
    except OSError as fault:
        raise runs.Fault("%s: %s" % (series.path, told(fault))) from None


def played(series, given):
    """The trace of what came after a snapshot, and its steps with the library's answers."""
    package = library()
    mme, remembered, made = after_snapshot(series, given, lambda snapshot: taken(package, snapshot))
    with mme:
        octets, answering, number = octets_of(series), Answering(package, mme, remembered), 0
        lines = octets.split(b"\n")
        try:
            for number, text in enumerate(progress.over("plays line", lines, len(lines)), 1):
                answering.take(number, text)
        except (runs.Fault, package.Refused) as fault:
            raise runs.Fault("%s: line %d: %s" % (series.path, number, fault)) from None
    events = [step.event for step in answering.steps]
    return runs.Trace((), answering.imsis, events, Rest(remembered, answering.further, made, octets)), answering.steps


def run_of(given, most=None, extent=story.Extent.WHOLE):
    """The run that a command line asks for, told as story.run_of has it: of a front's log whose first segments are gone from a
    snapshot on."""
    series = series_of(given)
    if series is None:
        return story.run_of(given.trace, given.answers, given.mme, most, extent)
    if given.answers is not None or given.mme is not None:
        raise runs.Fault(OF_LIBRARY % given.trace)
    trace, steps = played(series, given)
    return story.Run(trace, steps) if story.why_untold(trace, most) else story.told_run(trace, steps, extent)
