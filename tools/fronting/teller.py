"""Why messages did not do what they seem to, in the words of tools/explain: its model plays along what the MME is given.

It costs the stations next to nothing: it reads a few lines at a time, and only while no message waits. Where more comes than it can
read so, or than it may keep, it ends, and says why.
"""
import collections
import functools
import time
import typing

from tools import runs
from tools.eps.story import Told
from tools.eps.telling import Telling
from tools.eps.world import World

from tools.fronting import limits

TOO_FAST = "messages came faster than their reasons could be found"
TOO_MANY = "they are found for %d subscribers with %d vectors at the most" % (limits.MOST_TOLD_OF, limits.MOST_TOLD_BY)
UNREADABLE = "what the MME was given can't be read on"
REFUSED = "the MME refused a line of provisioning that was given"
UNKNOWN_LINE = "?, before this start or in no log"
END = object()  # what comes after the last step
OF_FURTHER = runs.FURTHER + "sub ", runs.FURTHER + "vec "
ELSEWHERE = Told(None, 0, [], [])  # puts what is told into a sentence


class Reason(typing.NamedTuple):
    """Why something did not do what it seems to: when that was, by which event, and what is told of it."""
    when: float
    event: int
    telling: Telling

    def text(self):
        return "%s (%s)" % (ELSEWHERE.sentence(self.telling), self.telling.clause())


class Line:
    """The number of a line of the log, as reasons have it: in words where that isn't known."""

    __slots__ = ("number",)

    def __init__(self, number):
        self.number = number

    def __int__(self):
        return self.number or 0

    def __str__(self):
        return UNKNOWN_LINE if self.number is None else "%d" % self


def cut(fact):
    """A fact of a reason, which is no longer than it may be."""
    is_long = isinstance(fact, str) and len(fact) > limits.LONGEST_FACT
    return fact[:limits.LONGEST_FACT] + " .." if is_long else fact


class Teller:
    """The model and what it told: the reasons of messages, by the station and the message's place among the station's, and those
    that are no message's."""

    def __init__(self, front):
        self.front, self.world, self.why_not = front, None, None
        self.waiting, self.lines, self.octets = collections.deque(), 0, 0  # what is still to be read, and how much that is
        self.places, self.events, self.is_anew, self.timer = collections.Counter(), 0, False, None
        self.room = 0, 0  # for further subscribers, and vectors
        self.of_messages, self.others = {}, collections.deque(maxlen=limits.MOST_REASONS)

    def begin(self, head):
        """The model of a head."""
        count, lines = len(head.imsis), [line.encode("latin-1") for line in head.facts]
        self.begin_with(functools.partial(World, lines), count, len(lines) - count - 1, UNREADABLE)

    def begin_with(self, make, subscribers, vectors, why_not):
        """The model that is made, which has so many subscribers and vectors; none where these are too many, or it can't be made."""
        self.room = limits.MOST_TOLD_OF - subscribers, limits.MOST_TOLD_BY - vectors
        if min(self.room) < 0:
            self.end(TOO_MANY)
            return
        try:
            self.world, self.why_not = make(), None
            self.front.exchange.follow = self.take
        except (runs.Fault, TypeError):  # a head that the MME won't take, or a snapshot of another form
            self.end(why_not)

    def end(self, why):
        """No more is told; what was told stays."""
        self.world, self.why_not = None, why
        self.waiting.clear()
        self.lines = self.octets = 0

    def refuse(self):
        """The MME refused a further line of provisioning, which the model took or is to take."""
        if self.world is not None:
            self.end(REFUSED)

    # What the MME is given.

    def has_room(self, *counts):
        """Whether the model goes on with so many further subscribers, and vectors, among lines that come."""
        if self.world is not None:
            self.room = tuple(room - count for room, count in zip(self.room, counts))
            if min(self.room) < 0:
                self.end(TOO_MANY)
        return self.world is not None

    def take(self, batch):
        """A batch of lines."""
        if self.has_room(*(sum(line.startswith(word) for line in batch.lines) for word in OF_FURTHER)):
            self.put(self.read_batch(batch, self.front.meters.now), len(batch.lines), batch.octets)

    def take_before(self, octets):
        """Lines that stood in the log when the run began."""
        if self.has_room(*(octets.count(word.encode()) for word in OF_FURTHER)):
            self.put(self.read_before(octets), octets.count(b"\n"), len(octets))

    def put(self, reading, lines, octets):
        """What is to be read, in steps, after what waits."""
        self.waiting.append((reading, lines, octets))
        self.lines, self.octets = self.lines + lines, self.octets + octets
        if self.lines > limits.MOST_UNTOLD or self.octets > limits.MOST_UNTOLD_OCTETS:
            self.end(TOO_FAST)
        elif self.timer is None:
            self.timer = self.front.loop.after(0, self.go_on)

    def go_on(self):
        """Reads a while, where no message waits."""
        front, rest = self.front, limits.ASIDE_REST
        if front.crowd is not None and front.aside.is_quiet and not front.exchange.is_held:
            rest = 0
            try:
                self.read_a_while()
            except Exception:  # whatever it is, the stations go on
                self.end(UNREADABLE)
        self.timer = front.loop.after(rest, self.go_on) if self.waiting else None

    def read_a_while(self):
        end = time.monotonic() + limits.TELLING_SECONDS
        while self.waiting and time.monotonic() < end:
            reading, lines, octets = self.waiting[0]
            if next(reading, END) is END:
                self.waiting.popleft()
                self.lines, self.octets = self.lines - lines, self.octets - octets

    # What is read of it.

    def read_batch(self, batch, when):
        number = batch.before
        for entry in batch.lines:
            number = None if number is None else number + entry.count("\n") + 1
            for text in entry.split("\n"):
                yield self.read(text, number, when)

    def read_before(self, octets):
        for text in octets.decode("latin-1").split("\n"):
            yield self.read(text, None, None)

    def read(self, text, number, when):
        """A line: at an event the reasons that the model tells are noted, where it happens now."""
        word, *fields = text.split(" ")
        if text.startswith(runs.FURTHER):
            self.world.lengthen([text[len(runs.FURTHER):].encode("latin-1")])
        if not text or text.startswith("#") or word == "show":
            self.is_anew = self.is_anew or text.startswith(runs.BEGUN_ANEW)
            return
        event = runs.event_of(Line(number), word, fields)._replace(is_anew=self.is_anew)
        self.is_anew, self.events = False, self.events + 1
        _, _, tellings = self.world.take(event)
        if when is not None:
            self.places[event.station] += word == "in"
            self.note(event, when, [telling for telling in tellings if telling.why])
        if not self.events % limits.FORGETS_AFTER:
            self.world.forget(limits.MOST_LINES_OF_PHONE)

    def note(self, event, when, tellings):
        """Notes the reasons of an event: those of its message, and others'."""
        told = Told(event, 0, tellings, [])
        for telling in tellings:
            is_of_message, telling.subject = telling.subject is None, told.subject(telling)
            telling.facts = {name: cut(fact) for name, fact in telling.facts.items()}
            reason = Reason(when, self.events, telling)
            if is_of_message and event.word == "in":
                self.of_messages.setdefault((event.station, self.places[event.station]), []).append(reason)
            else:
                self.others.append(reason)
        while len(self.of_messages) > limits.MOST_REASONS:
            del self.of_messages[next(iter(self.of_messages))]
