"""A run told: each event of a trace with what it was, each message of the MME with what it was to the procedure, and where the
MME did otherwise than the standards' model (world.py) expects.
"""
import collections
import dataclasses
import enum
import typing

from tools import progress, runs
from tools.eps import macs, messages, render
from tools.eps.elements import CAUSE
from tools.eps.telling import BriefNow, Expected, Now
from tools.eps.world import World

MOST_TOLD = 50000  # events of a run that is told where that isn't asked for


class Extent(enum.Enum):
    """What is kept of a run that is told: all of it, the events with a reason, or of these the reasons alone."""
    WHOLE, EVENTS, REASONS = "whole", "events", "reasons"

    def now(self):
        """What takes what is told of an event."""
        return BriefNow if self is Extent.REASONS else Now


@dataclasses.dataclass(slots=True)
class Answered:
    """An answer of the MME with its owner and second, and the message that is expected in its place; `fits` where it is that."""
    owner: str
    second: int
    answer: runs.Answer
    expected: Expected | None = None
    fits: bool = False

    def text(self):
        """The answer in words: a message by its innermost name."""
        answer = self.answer
        if answer.word == "refused":
            return "refused %d: %s" % (answer.fault, runs.REFUSALS.get(answer.fault, "?"))
        return answer.states if answer.word == "state" else message_name(answer.octets, True)


@dataclasses.dataclass(slots=True)
class Told:
    """An event: what it was to each of its owners, what was sent for it, and how the MME did otherwise, by owner and in words."""
    event: runs.Event
    second: int
    tellings: list
    answered: list
    otherwise: list = dataclasses.field(default_factory=list)

    def owners(self):
        """Who has a part in it, in order."""
        parts = [telling.owner for telling in self.tellings] + [each.owner for each in self.answered]
        return list(dict.fromkeys(parts + [owner for owner, _ in self.otherwise]))

    def has_reason(self):
        """Whether it is told why something did not do more, or that the MME did otherwise."""
        return bool(self.otherwise) or has_reason(self.tellings)

    def subject(self, telling):
        """What a telling is said of: a station's message by its innermost name, or what else the telling says."""
        return telling.subject or message_name(self.event.octets)

    def sentence(self, telling):
        """A telling in words: what it is said of, what that was, and why, as `ATTACH COMPLETE is dropped (replayed): ..`."""
        mark, reason = telling.mark(), telling.reason()
        text = "%s %s%s" % (self.subject(telling), telling.role, " (%s)" % mark.value if mark else "")
        return "%s: %s" % (text, reason) if reason else text


def has_reason(tellings):
    return any([telling.why for telling in tellings])


def message_name(octets, from_mme=False):
    """The name of the NAS message in a message, with its causes; else that of S1AP."""
    message = messages.decode(octets)
    carried = message.nas()
    if carried:
        return render.Nas(carried, from_mme).short_text()
    cause = message.get(CAUSE)
    name = message.name if message.code is not None else "a message that can't be read"
    return "%s %s" % (name, render.cause_text(cause)) if cause else name


def differences(expected, answered, is_right=macs.is_right):
    """How an answer isn't what is expected, a line or a message, in words; `is_right` says whether a MAC is."""
    answer = answered.answer
    if isinstance(expected, str) or answer.word != "out":
        return [] if expected == line_of(answer) else ["it answers %s" % answered.text()]
    return list(expected.differences(answer.owner, answer.station, answer.octets, is_right))


def is_owed(expected, answer, is_right):
    """Whether an answer is what is expected, a line or a message; `is_right` says whether a MAC is."""
    if answer.word == "out":
        return not isinstance(expected, str) and expected.is_sent(answer.owner, answer.station, answer.octets, is_right)
    return expected == line_of(answer)


def are_owed(owed, answers, is_right):
    """Whether answers are those that are owed, in their order."""
    return len(owed) == len(answers) and all([is_owed(*pair, is_right) for pair in zip(owed, answers)])


def line_of(answer):
    """A refusal or a state as the line of an answer."""
    return "refused %d" % answer.fault if answer.word == "refused" else "state %s %s" % (answer.imsi, answer.states)


def text_of(expected):
    return expected if isinstance(expected, str) else expected.text()


def owner_of(expected):
    return "" if isinstance(expected, str) else expected.owner


class Teller:
    """Tells a run, event by event, by a world of its own; `is_right` says whether a MAC is, and `now` takes what is told."""

    def __init__(self, trace, is_right=macs.is_right, now=Now):
        rest = trace.rest
        self.world = rest.remembered.world(is_right, now) if rest else World(trace.head, is_right, now)
        self.further = collections.deque(rest.further if rest else ())
        self.strayed = set()  # owners of which the MME did otherwise: no more of theirs is compared

    def owed(self, event):
        """The second of an event, its refusals and states as lines and its messages, and what it was."""
        while self.further and self.further[0].line < event.line:
            self.world.lengthen([self.further.popleft().text])
        second = self.world.second
        line, sent, tellings = self.world.take(event)
        return second, [line, *sent] if line else sent, tellings

    def told(self, event, pairs):
        """An event with its answers, each with its second."""
        second, owed, tellings = self.owed(event)
        own = self.owner(event)
        told = Told(event, second, tellings, [Answered(answer.owner or own, at, answer) for at, answer in pairs])
        missing, place = [], 0
        for answered in told.answered:
            found = next((at for at in range(place, len(owed)) if is_owed(owed[at], answered.answer, macs.is_right)), None)
            if found is not None:
                missing += owed[place:found]
                self.fit(answered, owed[found], second)
                place = found + 1
        self.strays(told, missing + owed[place:])
        return told

    def owner(self, event):
        """Whose a refusal of an event, or a state that it asks for, is."""
        if event.station is not None:
            return "e%d" % event.station
        subscriber = self.world.by_imsi.get(event.imsi)
        return subscriber.owner if subscriber else ""

    def fitting(self, event, answer, expected, second):
        """An answer to an event that is what is expected."""
        answered = Answered(answer.owner or self.owner(event), second, answer)
        self.fit(answered, expected, second)
        return answered

    @staticmethod
    def fit(answered, expected, second):
        answered.fits = True
        if isinstance(expected, str):
            answered.second = second
        else:
            answered.second, answered.expected = expected.second, expected

    def strays(self, told, missing):
        """Says how the MME did otherwise, of each owner once."""
        for answered in told.answered:
            if answered.fits:
                continue
            instead = next((each for each in missing if owner_of(each) in ("", answered.owner)), None)
            if instead is None:
                self.stray(told, answered.owner, "the MME sends %s, which isn't owed" % answered.text())
            else:
                missing.remove(instead)
                self.stray(told, answered.owner, "the MME does otherwise: %s is expected, and %s" % (
                    text_of(instead), "; ".join(differences(instead, answered))))
        for each in missing:
            self.stray(told, owner_of(each) or self.owner(told.event), "the MME owes %s, and doesn't send it" % text_of(each))

    def stray(self, told, owner, text):
        if owner not in self.strayed:
            self.strayed.add(owner)
            told.otherwise.append((owner, text))


def story_of(trace, steps, extent=Extent.WHOLE):
    """Each event of a run, told, to this extent; and the network as it is at the end."""
    def tell(is_right):
        teller = Teller(trace, is_right, extent.now())
        told = (teller.told(step.event, step.answers) for step in progress.over("tells event", steps, len(steps)))
        return [each for each in told if extent is Extent.WHOLE or each.has_reason()], teller.world

    return with_claims(tell)


def with_claims(tell):
    """What `tell` makes of a run, which is given what says whether a MAC is right. Each is taken for right at first, and many are
    looked at at once; if one is wrong, the run is told anew, and each is looked at as it comes."""
    claims = macs.Claims()
    try:
        made = tell(claims.is_right)
        claims.check()
        return made
    except macs.Wrong:
        return tell(macs.is_right)


# --- Which event each answer is to ---


class Run(typing.NamedTuple):
    """A trace, its steps, and their story with the network as it is at the end, where they were told: of those that were told to an
    extent perhaps only the ones that are kept. Steps that aren't told come one by one, each once its answers are known, and once in
    all."""
    trace: runs.Trace
    steps: typing.Iterable
    told: list | None = None
    world: World | None = None


def exact_run(trace, answers, extent=Extent.WHOLE):
    """The run of a trace with its answers as the model owes them, in their order; None where they aren't those."""
    return with_claims(lambda is_right: run_as_owed(trace, answers, extent, is_right))


def run_as_owed(trace, answers, extent, is_right):
    """The same, where `is_right` says whether a MAC is."""
    teller, at, steps, told, is_whole = Teller(trace, is_right, extent.now()), 0, [], [], extent is Extent.WHOLE
    for event in progress.over("tells event", trace.events, len(trace.events)):
        second, owed, tellings = teller.owed(event)
        taken = answers[at:at + len(owed)]
        if owed and not are_owed(owed, taken, is_right):
            return None
        at += len(owed)
        if is_whole or tellings and has_reason(tellings):
            answered = [teller.fitting(event, *pair, second) for pair in zip(taken, owed)]
            told.append(Told(event, second, tellings, answered))
            steps.append(runs.Step(event, second, [(each.second, each.answer) for each in answered]))
    return Run(trace, steps, told, teller.world) if at == len(answers) else None


def matched_run(trace, answers, extent=Extent.WHOLE):
    """The run of a trace with answers that may be others than the model owes."""
    return exact_run(trace, answers, extent) or told_run(trace, runs.matched(trace, answers), extent)


def told_run(trace, steps, extent=Extent.WHOLE):
    return Run(trace, steps, *story_of(trace, steps, extent))


def run_of(trace_path, answers_path, program=None, most=None, extent=Extent.WHOLE):
    """A run by the paths of its trace and answers, as runs.run_of has them, told to an extent; answers that are given go to the
    events that owe them by the standards.

    Where there are more than `most` events, or the trace is a log without keys, the run isn't told, and answers are matched by
    their kinds alone, which is quicker. Where it has to be told, with no `most`, a log without keys is a fault.
    """
    if answers_path is None or "-" == trace_path == answers_path:
        trace, steps = runs.run_of(trace_path, answers_path, program)
        return Run(trace, steps) if why_untold(trace, most) else told_run(trace, steps, extent)
    trace = runs.read_trace(runs.read_file(trace_path), trace_path)
    answers = runs.read_answers(runs.read_file(answers_path), answers_path)
    return Run(trace, runs.matching(trace, answers)) if why_untold(trace, most) else matched_run(trace, answers, extent)


def why_untold(trace, most=MOST_TOLD):
    """Why a run isn't told, or nothing where it is."""
    if runs.lacks_keys(trace.head):
        if most is None:
            raise runs.Fault(runs.NO_KEYS)
        return runs.NO_KEYS
    return "%d events" % len(trace.events) if most is not None and len(trace.events) > most else None
