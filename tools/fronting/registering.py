"""Where phones are, which a source is told, and what a source orders (docs/LAB.md, "Sources of vectors").

A source that takes it is told `registered IMSI` once a phone has completed an attach (TS 29.272 clause 5.2.1.1), and `gone IMSI`
once one that it may know to be here isn't registered any more (clause 5.2.1.3). Both are what the MME's states say: it is asked
for them, in lines that stand in no log, where what it sends says that they may have changed. Where it sends nothing, it is asked
once a procedure has to be over, or the phone's mobile reachable timer.

After `reset`, a phone is said to be registered again at its next contact: a message that the MME sends only to one that has proved
who it is. So it is with each phone of a front that goes on, which doesn't know what a source was told before; and those who were
challenged once and aren't registered then are said to be gone. For that it looks at all phones, a few at a time beside all else.
"""
import collections
import enum
import functools
import re
import time

from tools import runs, s1ap

from tools.fronting import limits
from tools.fronting.attaches import ACCEPT as ATTACH_ACCEPT
from tools.fronting.bearers import IDLE, RELEASE, SWITCHED
from tools.fronting.meters import CONTEXT_REQUEST, DOWNLINK
from tools.fronting.pace import Pace

TAKES, REGISTERED, GONE, CANCEL, RESET = "takes", "registered", "gone", "cancel", "reset"
WORDS = TAKES, REGISTERED, GONE, CANCEL, RESET
UNKNOWN, ENDED, LATE = "unknown", "ended", "late"  # how else a statement may end
UNSURE = "unsure"  # what an earlier front may have said of a phone
TOGETHER = 20  # phones that the MME is asked for at a time
HERE = re.compile("REGISTERED |COMMON-PROCEDURE-INITIATED CONNECTED ACTIVE$")  # the states of who is registered (docs/TABLE.md)
NOT_HERE = "DEREGISTERED "
NAS_GROUP, DETACH = 2, b"\x24"  # of causes, in the first octet (TS 36.413 clause 9.2.1.3)
TAU_ACCEPT = bytes([s1ap.EMM, 0x49])  # (TS 24.301 clause 8.2.26)
IMSI, DIGITS = re.compile("[0-9]{14,15}"), re.compile("[0-9]{1,15}")
NO_ANSWER = "tells a line that is no answer"
NOT_ASKED = "tells of an IMSI that it wasn't asked for"
WHY = {UNKNOWN: "it doesn't know it", ENDED: "it ends at that", LATE: "there is no answer", "later": "it says `later`"}


def is_contact(octets):
    """Whether the MME sends a message only to a phone that is registered and has proved who it is, or whose station it follows."""
    kind = octets[:2]
    if kind == CONTEXT_REQUEST:
        return not s1ap.carries(octets, ATTACH_ACCEPT)
    return kind == SWITCHED or kind == DOWNLINK and s1ap.carries(octets, TAU_ACCEPT)


class Why(enum.Enum):
    """Why a phone's states are asked for."""

    CHANGE = "they may have changed"
    CONTACT = "it is in contact"
    OVERDUE = "it may be unreachable"
    FIRST = "the run goes on, and nothing is known"


class Statement:
    """What is said of a phone. `ends` is how often the source ended while it was told this."""

    is_waited_for = False

    def __init__(self, owner, slot, word):
        self.owner, self.key, self.word, self.imsi = owner, slot, word, owner.front.head.imsis[slot]
        self.since, self.is_told, self.ends, self.number = 0.0, False, 0, 0

    def text(self, _network):
        return "%s %s" % (self.word, self.imsi)


class Later:
    """Slots, each of which is to be looked at so many ticks after it was put here last."""

    def __init__(self, ticks):
        self.ticks, self.due = ticks, collections.OrderedDict()

    def put(self, slot, now):
        self.due[slot] = now + self.ticks
        self.due.move_to_end(slot)

    def discard(self, slot):
        self.due.pop(slot, None)

    def is_due(self, now):
        return bool(self.due) and next(iter(self.due.values())) <= now

    def take(self):
        """Takes the first."""
        return self.due.popitem(last=False)[0]


class Registering:
    """What is said to the source of `asking`, one thing of a phone at a time, and what that orders."""

    def __init__(self, front, asking):
        self.front, self.asking = front, asking
        self.takes = None  # whether the source takes what is said; nothing before its first line
        self.is_new, self.counted, self.now = True, collections.Counter(), 0  # whether none took it yet; the last: in ticks
        self.forget()
        # Phones in whose procedure something isn't sure, that may have become unreachable, that are idle for longer than that, and
        # of which something is to be said again.
        self.doubts, self.silent, self.idle, self.again = self.laters = [
            Later(ticks) for ticks in (limits.DOUBT_TICKS, limits.REACHABLE_TICKS, limits.IDLE_TICKS, limits.LATER_SECONDS)]
        self.is_asking = False
        self.cancels, self.timer = collections.OrderedDict(), None  # slots of phones whose registration is to be ended
        self.pace, self.of_nobody = Pace(limits.CANCELS), Pace(limits.SOURCE_ORDERS)

    def forget(self):
        """Nothing is known of what a source was told."""
        self.known, self.count = {}, 0  # by slot: the last word that was answered, and how many were until then
        self.resets = {"": 0}  # by the first digits of IMSIs: how many words were answered until then
        self.waiting, self.after = collections.OrderedDict(), {}  # by slot: words that are to be said, after another the second
        self.saying, self.suspects = {}, collections.OrderedDict()  # by slot: statements; the second as in Asking
        self.owed = set()  # slots of phones of whom the last word wasn't answered
        self.looking = collections.OrderedDict()  # by slot: phones whose states are wanted, and why
        self.unseen = iter(())  # slots of a run that goes on, which are looked at once

    @property
    def size(self):
        """How many words aren't answered yet."""
        return len(self.waiting) + len(self.saying) + len(self.after) + len(self.owed)

    # What is known of a phone.

    def is_known_here(self, slot):
        """Whether the source may know a phone to be here."""
        return (self.known.get(slot, (GONE,))[0] != GONE or slot in self.saying or slot in self.waiting or slot in self.owed)

    def is_stale(self, slot):
        """Whether a phone has to be said to be registered again."""
        since, imsi = self.known.get(slot, (None, 0))[1], self.front.head.imsis[slot]
        if len(self.resets) == 1:
            return self.resets[""] >= since
        return any(self.resets.get(imsi[:length], -1) >= since for length in range(len(imsi) + 1))

    # What the MME sends, and what happens.

    def note_batch(self, batch):
        """A batch is answered and kept."""
        count = len(self.front.head.imsis)
        if self.takes is not False:
            for slot, _, octets in batch.sent:
                if slot is not None and slot < count:
                    self.note(slot, octets)

    def note(self, slot, octets):
        """A message to a phone may mean that it isn't registered any more, or that it is in contact."""
        is_known_here = self.is_known_here(slot)
        if is_known_here:
            self.silent.put(slot, self.now)
            self.idle.discard(slot)
        if octets[:2] == RELEASE:
            cause = (s1ap.element(octets, s1ap.CAUSE) or b"\0")[:1]
            if is_known_here and (cause[0] >> 4 == NAS_GROUP or slot in self.doubts.due):
                self.look(slot)
            elif cause == DETACH and slot not in self.known:
                self.known[slot] = UNSURE, 0
                self.look(slot)
        elif not (slot in self.saying or slot in self.waiting) and self.is_stale(slot) and is_contact(octets):
            self.look(slot, Why.CONTACT)

    def note_challenge(self, slot):
        """A phone is challenged, so that it isn't registered for now."""
        if self.is_known_here(slot):
            self.doubts.put(slot, self.now)

    def note_attached(self, slot):
        """A phone has completed an attach."""
        if self.takes is not False and slot not in self.cancels:
            self.doubts.discard(slot)
            self.silent.put(slot, self.now)
            self.say(slot, REGISTERED)

    def tick(self, seconds):
        self.now += seconds
        self.plan()

    # What the MME's states are.

    def look(self, slot, why=Why.CHANGE):
        """Has the MME be asked for a phone's states."""
        if self.takes is not False:
            if self.looking.get(slot) is not Why.CONTACT:
                self.looking[slot] = why
            self.plan()

    def plan(self):
        """Has the next be asked for, beside the stations' messages."""
        if not self.is_asking and self.takes is not False and (
                self.looking or any(later.is_due(self.now) for later in self.laters)):
            self.is_asking = True
            self.front.aside.do(self.ask)

    def ask(self):
        """Asks for the next phones."""
        asked = {}
        while self.looking and len(asked) < TOGETHER:
            slot, asked[slot] = self.looking.popitem(last=False)
        for later in self.laters:
            while len(asked) < TOGETHER and later.is_due(self.now):
                asked.setdefault(later.take(), Why.OVERDUE if later in (self.silent, self.idle) else Why.CHANGE)
        while len(asked) < TOGETHER and (slot := next(self.unseen, None)) is not None:
            asked.setdefault(slot, Why.FIRST)
        if asked and self.asking.is_open:
            imsis = self.front.head.imsis
            self.front.exchange.ask(["show " + imsis[slot] for slot in asked], functools.partial(self.hear, asked), self.has_asked)
        else:
            self.is_asking = False

    def has_asked(self):
        self.is_asking = True
        self.front.aside.do(self.ask)

    def hear(self, asked, answer):
        """The states of a phone that was asked for."""
        slot, states = self.front.head.slots[answer.imsi], answer.states
        if HERE.match(states):
            self.doubts.discard(slot)
            (self.idle if asked[slot] is Why.OVERDUE and IDLE in states else self.silent).put(slot, self.now)
            self.is_here(slot, asked[slot] is Why.CONTACT)
        elif states.startswith(NOT_HERE):
            for later in self.laters:
                later.discard(slot)
            was_here = asked[slot] is Why.FIRST and slot not in self.known and self.front.stock.spent[slot]
            if was_here or self.is_known_here(slot):
                self.say(slot, GONE)
        else:
            self.doubts.put(slot, self.now)

    def is_here(self, slot, is_in_contact):
        """A phone is registered."""
        if slot not in self.cancels and (slot in self.owed or is_in_contact and self.is_stale(slot)):
            self.say(slot, REGISTERED)
        elif slot not in self.known:
            self.known[slot] = UNSURE, 0

    # What is said.

    def say(self, slot, word):
        """Has something be said of a phone, after what is being said of it."""
        statement = self.saying.get(slot)
        if self.takes is False:
            return
        if statement is None:
            self.waiting[slot] = word
            self.asking.tell()
        elif statement.word == word:
            self.after.pop(slot, None)
        else:
            self.after[slot] = word

    def next_statement(self):
        """The statement that the source may be told now, or nothing."""
        if not self.takes:
            return None
        statement = None
        if self.waiting and len(self.saying) < limits.MOST_SAYING:
            slot, word = self.waiting.popitem(last=False)
            self.saying[slot] = statement = Statement(self, slot, word)
        elif self.suspects:
            _, statement = self.suspects.popitem(last=False)
        if statement is not None:
            statement.since = time.monotonic()
        return statement

    def tell_again(self, statement):
        """The source ended that was told a statement."""
        self.suspects[statement.key] = statement

    def earlier(self, imsi, request):
        """The statement of an IMSI that was told before a request for its vectors, if there is one."""
        statement = self.saying.get(self.front.head.slots.get(imsi))
        if statement is None or not statement.is_told:
            return None
        return statement if request is None or not request.is_told or statement.number < request.number else None

    def end(self, statement, how):
        """A statement is over: it was answered by its word, or it is to be said again later, or wouldn't be of use."""
        slot = statement.key
        del self.saying[slot]
        self.suspects.pop(slot, None)
        self.asking.settle(statement)
        self.counted[how if how != statement.word else "answered"] += 1
        if how != statement.word:
            self.asking.source.say("not_told", "the source doesn't take `%s`: %s" % (statement.text(None), WHY[how]))
        if how in (statement.word, UNKNOWN, ENDED):
            self.is_settled(slot, statement.word if how == statement.word else GONE)
        else:
            self.owed.add(slot)
            self.again.put(slot, self.now)
        if slot in self.after:
            self.waiting[slot] = self.after.pop(slot)
        self.asking.tell()

    def is_settled(self, slot, word):
        """It is known of a phone what the source knows."""
        self.count += 1
        self.known[slot] = word, self.count
        self.owed.discard(slot)
        self.again.discard(slot)

    # What the source tells.

    def begin(self):
        """A source begins, and says in its first line whether it takes what is said."""
        self.takes = None

    def take_first(self, fields):
        """The first line of a source, with what it takes."""
        takes = {REGISTERED, GONE} <= set(fields)
        if takes and self.is_new and self.front.resumed:
            self.unseen = iter(range(len(self.front.head.imsis)))
            self.has_asked()
        self.is_new = self.is_new and not takes
        if not takes:
            for statement in self.saying.values():
                self.asking.settle(statement)
            self.forget()
            for later in self.laters:
                later.due.clear()
        self.takes = takes
        self.asking.tell()

    def take(self, word, fields):
        """A line that isn't about vectors."""
        slot = self.front.head.slots.get(fields[0]) if fields else None
        if word == RESET and (not fields or len(fields) == 1 and DIGITS.fullmatch(fields[0])):
            self.reset("".join(fields))
        elif word in (TAKES, RESET) or len(fields) != 1 or not IMSI.fullmatch(fields[0]):
            self.asking.is_wrong(NO_ANSWER)
        elif word == CANCEL:
            self.cancel(fields[0], slot)
        elif (statement := self.saying.get(slot)) is not None and statement.is_told and statement.word == word:
            self.asking.source.is_of_use()
            self.end(statement, word)
        elif slot not in self.owed:  # what is answered late is said again
            self.asking.is_wrong(NOT_ASKED)

    def reset(self, digits):
        """The phones whose IMSIs begin so are said to be registered again."""
        if self.resets.get(digits) == self.count:
            self.asking.is_wrong("orders `reset` again, and took nothing that was said since")
            return
        self.counted[RESET] += 1
        self.resets[digits] = self.count
        if len(self.resets) > limits.MOST_RESETS:
            self.resets = {"": self.count}
        self.asking.source.say("source_reset", "the source orders `reset`: phones%s are said to be registered again" % (
            " of IMSIs that begin with %s" % digits if digits else ""))

    def cancel(self, imsi, slot):
        """A phone's registration ends, and nothing is said of that."""
        if slot is None:
            self.cancel_nobody(imsi)
        elif slot in self.cancels:
            self.asking.is_wrong("orders `cancel` again, which isn't done yet")
        else:
            self.counted[CANCEL] += 1
            self.is_settled(slot, GONE)
            self.waiting.pop(slot, None)
            self.after.pop(slot, None)
            self.cancels[slot] = None
            if self.timer is None:
                self.obey()

    def cancel_nobody(self, imsi):
        """A source may order that of who was never here, but not without end."""
        self.counted["of nobody"] += 1
        now = time.monotonic()
        if not self.of_nobody.is_open(now):
            self.asking.is_wrong("orders `cancel` of IMSIs that nobody has, more than %d a second" % limits.SOURCE_ORDERS)
            return
        self.of_nobody.take(1, now)
        self.asking.source.say("source_cancel", "the source orders `cancel %s`, whom nobody has (%d)" % (imsi, runs.UNKNOWN_IMSI))

    def obey(self):
        """Has the MME end registrations, so many a second."""
        exchange, now, self.timer = self.front.exchange, time.monotonic(), None
        for _ in range(self.pace.allows(now)):
            if not (self.cancels and self.asking.is_open and exchange.has_room and exchange.held_since is None):
                break
            slot, _ = self.cancels.popitem(last=False)
            self.pace.take(1, now)
            exchange.put("cancel " + self.front.head.imsis[slot])
            exchange.batch.after.append(functools.partial(self.look, slot))
        if self.cancels and self.asking.is_open:
            self.timer = self.front.loop.after(1 / limits.CANCELS, self.obey)
