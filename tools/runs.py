"""A run of the MME for the tools of this folder: the events of a trace, and what the MME answered to each.

`mme play` prints answers without saying to which event each is. `played` runs it with a mark after each event, and so knows;
`told` takes the answers that stand in the trace as comments, each after its event, as `mme sim` prints them; `matched` takes
answers that were printed before, and finds for each the event that can have caused it, by the standards' procedures. Nothing here
is part of a proof.
"""
import binascii
import bisect
import collections
import functools
import pathlib
import re
import subprocess
import sys
import tempfile

from tools import progress, s1ap, versions
from tools.causes import nas_cause
from tools.eps import holes, messages, quick, timers

LONGEST_LINE = 40000  # octets
STATIONS = 128
LONGEST_TICK = 1000000
# No countdown of the MME is longer than its mobile reachable timer, which can follow on a procedure of under a minute; so nothing is
# sent after that many ticks without another event.
TICKS_WITH_ANSWERS = timers.REACHABLE.seconds + 60
FIRST_STRANGER = 1 << 31  # MME UE S1AP IDs from here on are strangers'
SLOT_BITS = 16  # an id and an M-TMSI are a slot, and a counter of this many bits after it

PROVISIONING = {"mme": 7, "sub": 4, "vec": 5}  # the words of a line, with how many fields follow
EVENTS = {"up": 1, "lost": 1, "in": 2, "tick": 1, "data": 1, "cancel": 1, "show": 1}
WORDS = PROVISIONING | EVENTS
REFUSALS = {1: "the station isn't connected", 2: "the station is connected already", 3: "the clock is spent",
            5: "nobody has this IMSI"}
NOT_UP, ALREADY_UP, UNKNOWN_IMSI = 1, 2, 5
SYSTEM = pathlib.Path(__file__).resolve().parent.parent / "mme"

# A log without keys (tools/fronting/keys.py): what stands there for XRES and for KASME, and how the lines begin that say where a
# message had an XRES.
NO_KEY, LEFT_OUT = "-", "# left out at octet "
NO_KEYS = "the trace is a log without keys, which `tools/front fill` puts back"

# How a line of a log begins that is `sub` or `vec`, and was given where it stands (tools/fronting/adding.py). `mme play` skips it.
FURTHER = "#+ "
GIVEN_LATER = "the trace has lines of provisioning where they were given (`#+ `), which `tools/front fill --head` puts into its head"

# How a comment of a log began, above a `cancel` by which a front with a program began a subscriber anew. None writes it any more.
BEGUN_ANEW = "# begun anew: "

Event = collections.namedtuple("Event", "line word station octets ticks imsi is_anew", defaults=[None, None, None, None, False])
Answer = collections.namedtuple("Answer", "word owner station octets imsi states fault", defaults=[None] * 6)
# `rest` has what a log has besides that is read from a snapshot on (tools/fronting/rest.py).
Trace = collections.namedtuple("Trace", "head imsis events rest", defaults=[None])


class Fault(Exception):
    """Input that can't be taken; its text says why."""


def counted(count, thing):
    """A number of things in words: `1 subscriber`, `2 subscribers`."""
    return "%d %s%s" % (count, thing, "" if count == 1 else "s")


class Step:
    """An event, the second at which it happens, and the answers to it, each with its own second."""

    __slots__ = ("event", "second", "answers")

    def __init__(self, event, second, answers=()):
        self.event, self.second, self.answers = event, second, list(answers)

    @property
    def end(self):
        """The second once it has happened: for a tick the one that it ends in."""
        return self.second + (self.event.ticks or 0)


@functools.lru_cache(1)
def standard_input():
    """All of it, whoever asks first."""
    return sys.stdin.buffer.read()


def read_file(path):
    """The octets of a file, or of standard input for `-`."""
    try:
        return standard_input() if path == "-" else pathlib.Path(path).read_bytes()
    except OSError as fault:
        raise Fault("%s: %s" % (path, fault.strerror)) from None


# --- Lines ---


@functools.lru_cache(1 << 10)
def number(text, low, high):
    digits = text.lstrip("0") or "0"
    if not (text.isascii() and text.isdigit() and len(digits) < 20 and low <= int(digits) <= high):
        raise Fault("%r isn't a number from %d to %d" % (text[:40], low, high))
    return int(digits)


@functools.lru_cache(STATIONS)
def station_of(text):
    return number(text, 0, STATIONS - 1)


STATION_WORDS = {b"%d" % station: station for station in range(STATIONS)}  # as stations are usually written


def octets_of(text):
    if text == "-":
        return b""
    try:
        octets = binascii.unhexlify(text)
    except ValueError:
        octets = b""
    if not octets:
        raise Fault("%r aren't octets in hex" % text[:40])
    return octets


def imsi_of(text):
    if not re.fullmatch("[0-9]{14,15}", text):
        raise Fault("%r isn't an IMSI" % text[:40])
    return text


def event_of(line, word, fields):
    """An event by its word and its fields."""
    if word == "in":
        return Event(line, "in", station_of(fields[0]), octets_of(fields[1]))
    if word in ("up", "lost"):
        return Event(line, word, station_of(fields[0]))
    if word == "tick":
        return Event(line, word, ticks=number(fields[0], 1, LONGEST_TICK))
    return Event(line, word, imsi=imsi_of(fields[0]))


def usual_event(line, text):
    """The event of a line `in` that is written as usual, of which a trace has most; nothing of any other."""
    try:
        word, station, octets = text.split(b" ")
        if word == b"in" and octets:
            return Event(line, "in", STATION_WORDS[station], binascii.unhexlify(octets))
    except (ValueError, KeyError):
        pass
    return None


def event_text(event):
    """An event as a line of a trace."""
    if event.word == "in":
        return "in %d %s" % (event.station, event.octets.hex() or "-")
    return "%s %s" % (event.word, event.station if event.ticks is None and event.imsi is None else event.ticks or event.imsi)


def fields_of(text, counts):
    """The word and the fields of a line, whose words are these."""
    fields = text.decode("latin-1").split(" ")
    word = fields.pop(0)
    if word not in counts:
        raise Fault("no line begins with %r" % word[:40])
    if len(fields) != counts[word]:
        raise Fault("%s has %s, not %d" % (word, counted(counts[word], "field"), len(fields)))
    return word, fields


COMMENT = ord("#")  # how a line begins that is one


def lines_of(octets, name, read, comments=False):
    """Reads each line that isn't empty, of those that are comments or of those that aren't; a fault gets the line's number."""
    lines, line = octets.split(b"\n"), 0
    are_long = max(map(len, lines)) > LONGEST_LINE
    try:
        for line, text in enumerate(progress.over("reads line", lines, len(lines)), 1):
            if are_long and len(text) > LONGEST_LINE:
                raise Fault("longer than %d octets" % LONGEST_LINE)
            if text and (text[0] == COMMENT) == comments:
                read(line, text)
    except Fault as fault:
        raise Fault("%s: line %d: %s" % (name, line, fault)) from None


# How a later segment of a log begins (tools/fronting/segments.py), with its number; and what follows a log's name in that of one.
LATER_SEGMENT = re.compile(rb"# segment (\d+), begun ")
SEGMENT_END = re.compile(r"\.segment\.\d+$")


def earlier_segments(name, number):
    """The segments of a log before this one, by the name of its file."""
    log = "LOG" if name in ("-", "trace") else SEGMENT_END.sub("", name)
    first, last = ("%s.segment.%06d" % (log, at) for at in (1, number - 1))
    return first if first == last else "%s and so on to %s" % (first, last)


def read_trace(octets, name="trace"):
    """A trace: its lines before the first event as they are, the IMSIs by slot, and its events."""
    imsis, known, events, is_begun = [], set(), [], False
    if found := LATER_SEGMENT.match(octets):
        number = int(found[1])
        raise Fault("%s: this is segment %d of a front's log, which goes on after %s: join them by `cat` in this order, it last; "
                    "if one is gone, give the log itself, which is read from a snapshot on" % (
                        name, number, earlier_segments(name, number)))

    def read(line, text):
        nonlocal is_begun
        if is_begun and not events and text.startswith(b"vec ") and text.count(b" ") == PROVISIONING["vec"]:
            return
        event = usual_event(line, text) if events else None
        if event:
            events.append(event)
            return
        word, fields = fields_of(text, WORDS)
        if (word == "mme") == is_begun:
            raise Fault("the line mme stands first, and once")
        is_begun = True
        if word in EVENTS:
            event = event_of(line, word, fields)
            if word == "show" and event.imsi not in known:
                raise Fault("there is no subscriber %s to show" % event.imsi)
            events.append(event)
        elif events:
            raise Fault("%s stands before all events" % word)
        elif word == "sub":
            imsis.append(imsi_of(fields[0]))
            known.add(imsis[-1])

    lines_of(octets, name, read)
    lines = octets.split(b"\n")
    for place, event in enumerate(events):
        if event.word == "cancel" and lines[event.line - 2].startswith(BEGUN_ANEW.encode()):
            events[place] = event._replace(is_anew=True)
    return Trace(lines[:events[0].line - 1] if events else lines, imsis, events)


def lacks_keys(head):
    """Whether a vector among the lines of a head has no keys."""
    return any(line.startswith(b"vec ") and line.endswith(b" " + NO_KEY.encode()) for line in head)


ANSWERS = {"out": 3, "refused": 1, "state": 4}
OWNER = re.compile(r"e\d{1,3}|x\d{1,3}\.\d{1,8}|s\d{1,5}")

# How a comment of a trace begins that is an answer.
TOLD = re.compile(rb"# (?=out [esx]\d|refused \d|state \d)")


def usual_answer(text, owners):
    """The answer of a line `out` that is written as usual, for one of these owners, by what stands for them; nothing of any
    other."""
    try:
        word, owner, station, octets = text.split(b" ")
        if word == b"out" and octets:
            return Answer("out", owners[owner], STATION_WORDS[station], binascii.unhexlify(octets))
    except (ValueError, KeyError):
        pass
    return None


def answer_of(text):
    """An answer by its line."""
    word, fields = fields_of(text, ANSWERS)
    if word == "out":
        return sent(*fields)
    if word == "refused":
        return Answer(word, fault=number(fields[0], 1, 9))
    return Answer(word, imsi=imsi_of(fields[0]), states=" ".join(fields[1:]))


def sent(owner, station, octets):
    """An answer that is a message."""
    if not OWNER.fullmatch(owner):
        raise Fault("%r is nobody a message is sent for" % owner[:40])
    return Answer("out", sys.intern(owner), station_of(station), octets_of(octets))


def read_answers(octets, name="answers"):
    """What `mme play` printed."""
    answers, owners = [], {}

    def read(_, text):
        answer = usual_answer(text, owners)
        if answer is None:
            answer = answer_of(text)
            if answer.owner:
                owners[answer.owner.encode()] = answer.owner
        answers.append(answer)

    lines_of(octets, name, read)
    return answers


def read_told(octets, name="trace"):
    """The answers that stand in a trace as comments, each with the number of its line."""
    answers = []

    def read(line, text):
        mark = TOLD.match(text)
        if mark:
            answers.append((line, answer_of(text[mark.end():])))

    lines_of(octets, name, read, comments=True)
    return answers


def owner_text(owner, imsis):
    """An owner in words."""
    if owner[0] == "e":
        return "station %s" % owner[1:]
    if owner[0] == "x":
        return "a stranger, eNB UE S1AP ID %s at station %s" % tuple(reversed(owner[1:].split(".")))
    slot = int(owner[1:])
    return "subscriber %d%s" % (slot, ", IMSI " + imsis[slot] if slot < len(imsis) else "")


# --- What an event must be answered with, whatever the MME's state: refusals and states ---


def certain_answers(trace):
    """For each event the one answer that it is known to get, as `refused` or `state`, or nothing."""
    up, known, imsis = set(), [], set(trace.imsis)
    for event in trace.events:
        answer = None
        if event.word == "up":
            answer = Answer("refused", fault=ALREADY_UP) if event.station in up else None
            up.add(event.station)
        elif event.word in ("lost", "in"):
            answer = Answer("refused", fault=NOT_UP) if event.station not in up else None
            if event.word == "lost":
                up.discard(event.station)
        elif event.word in ("data", "cancel"):
            answer = Answer("refused", fault=UNKNOWN_IMSI) if event.imsi not in imsis else None
        elif event.word == "show":
            answer = Answer("state", imsi=event.imsi)
        known.append(answer)
    return known


def is_certain(answer, certain):
    """Whether an answer is the one that is known."""
    return answer._replace(states=None) == certain


def begun(trace):
    """The second at which a trace begins."""
    return trace.rest.remembered.second if trace.rest else 0


def started(trace):
    """The steps of a trace without answers: an event stands at the second in which it happens, a tick at its beginning."""
    steps, second = [], begun(trace)
    for event in trace.events:
        steps.append(Step(event, second))
        second += event.ticks or 0
    return steps


def end_of(steps):
    """The second after the last step."""
    return steps[-1].end if steps else 0


# --- Which event caused an answer ---

# What may be sent by DOWNLINK NAS TRANSPORT on a message of a phone (TS 24.301 clauses 5.4 to 5.6, 6.5, 6.6); each may also be
# answered by a status.
ANSWERS_TO = {
    s1ap.ATTACH_REQUEST: {0x52, 0x44, 0x55}, s1ap.AUTHENTICATION_RESPONSE: {0x5D, 0x54},
    s1ap.AUTHENTICATION_FAILURE: {0x52, 0x54, 0x44}, s1ap.IDENTITY_RESPONSE: {0x52, 0x44},
    s1ap.SECURITY_MODE_COMPLETE: {0xD9}, s1ap.TAU_REQUEST: {0x49, 0x4B}, s1ap.SERVICE_REQUEST: {0x4E},
    s1ap.DETACH_REQUEST: {0x46}, 0xD0: {0xD1}, 0xD2: {0xD3},
}
STATUSES = {s1ap.EMM_STATUS, s1ap.ESM_STATUS}
UNANSWERED = {s1ap.ATTACH_COMPLETE, s1ap.TAU_COMPLETE, s1ap.DETACH_ACCEPT, s1ap.SECURITY_MODE_REJECT} | STATUSES
SETS_UP_CONTEXT = {s1ap.SERVICE_REQUEST, s1ap.SECURITY_MODE_COMPLETE, s1ap.INFORMATION_RESPONSE}
# The NAS messages on a connection that may end it with nothing else sent before; a completed update does where it came from idle.
ENDS_CONNECTION = {s1ap.SECURITY_MODE_REJECT, s1ap.DETACH_REQUEST, s1ap.DETACH_ACCEPT}
TAU_ACCEPT = 0x49
# ATTACH REJECT, DETACH ACCEPT, TRACKING AREA UPDATE REJECT, SERVICE REJECT and AUTHENTICATION REJECT: after them it ends.
LAST_OF_CONNECTION = {0x44, 0x46, 0x4B, 0x4E, 0x54}
TIMED_OUT = "nas unspecified"
# The timer that runs after a NAS message.
TIMERS = {0x42: timers.T3450_ATTACH, 0x49: timers.T3450_UPDATE, 0x45: timers.T3422, 0x52: timers.T3460_CHALLENGE,
          0x5D: timers.T3460_SECURITY, 0x55: timers.T3470, 0xD9: timers.T3489}

# What is read of a message: first what is its own, then what others of its shape have too. `identity` is who the NAS message in it
# says it is, by IMSI and by M-TMSI; `tmsi` the M-TMSI in the element S-TMSI; `outcome` a pair of its procedure's code and which of
# its messages it is; `nas` the type and the name of the NAS message; `listed` the associations that it lists; `said` has its causes
# and its fault in words; `fails` says whether it refuses, fails, or can't be read.
Content = collections.namedtuple("Content", "mme_id enb_id identity tmsi name code outcome fault cause nas listed said fails")
OWN = 4  # parts of it that are its own
Inner = collections.namedtuple("Inner", "type name")
# NAS messages that refuse or fail (TS 24.301 clause 9.8): rejects, failures and statuses.
NAS_FAULTS = {0x44, 0x4B, 0x4E, 0x54, 0x5C, 0x5F, 0x60, 0xC3, 0xD1, 0xD3, 0xE8}


class Kept:
    """What messages of a shape have in common, and where stands what they don't."""

    def __init__(self, octets, made, nas):
        found = s1ap.spans(octets)
        self.has_mme_id, self.has_enb_id = made.mme_id is not None, made.enb_id is not None
        self.type, self.inside, self.identity, self.tmsi, self.common = nas and nas.type, None, made.identity, None, made[OWN:]
        span = holes.nas_span(octets, found)
        if span and self.type in s1ap.IDENTITY_PLACES:
            self.inside = slice(span[1] - len(nas.octets), span[1])
        if made.tmsi is not None:
            end = found[s1ap.S_TMSI][1]
            self.tmsi = slice(end - TMSI_OCTETS, end)

    def of(self, octets, ids):
        """The content of another message with these ids."""
        own = (ids[0] if self.has_mme_id else None, ids[-1] if self.has_enb_id else None,
               s1ap.identity(self.type, octets[self.inside]) if self.inside else self.identity,
               int.from_bytes(octets[self.tmsi], "big") if self.tmsi else None)
        return Content._make(own + self.common)


TMSI_OCTETS = 4
SHAPES = quick.Shapes()


@functools.lru_cache(1 << 10)
def content(octets):
    """What is read of a message."""
    found = SHAPES.find(octets)
    return found[0].of(octets, found[1]) if found else met(octets)


def met(octets):
    """What is read of a message of another shape than those before; its own is kept, where it has one."""
    message = s1ap.read(octets)
    cause, nas = s1ap.cause(message), s1ap.nas(s1ap.carried(message))
    said = (cause, nas_cause(nas) if nas else None, message.fault and "can't be read: " + message.fault)
    fails = message.outcome == s1ap.UNSUCCESSFUL or message.code == s1ap.ERROR or nas is not None and nas.type in NAS_FAULTS
    own = (*s1ap.ids(message), s1ap.identity(nas.type, nas.octets) if nas else (None, None), s1ap.tmsi(message))
    made = Content(*own, s1ap.name(message), message.code, (message.code, message.outcome), message.fault, cause,
                   nas and Inner(nas.type, nas.name), s1ap.listed(message), "; ".join(filter(None, said)),
                   bool(message.fault) or fails)
    free = quick.holes_of(messages.decode(octets), None)
    if free is not None:
        SHAPES.keep(octets, quick.Shape(octets, free, Kept(octets, made, nas)))
    return made


def may_answer(heard, said):
    """Whether a message for a phone may be sent on one of its messages, as far as the NAS messages in them tell."""
    kind = heard.nas and heard.nas.type
    if said.code == s1ap.CONTEXT_SETUP:
        return kind in SETS_UP_CONTEXT
    if said.code == s1ap.DOWNLINK_NAS and heard.nas and said.nas:
        return said.nas.type in ANSWERS_TO.get(kind, ()) or said.nas.type in STATUSES and kind not in UNANSWERED
    return said.code == s1ap.RELEASE


def may_follow(first, second):
    """Whether two messages for one phone may answer one message: the release of an old connection is first, that of its own is
    after what refuses or detaches the phone."""
    if first.code == s1ap.RELEASE:
        return second.code != s1ap.RELEASE
    return first.nas is not None and first.nas.type in LAST_OF_CONNECTION and second.code == s1ap.RELEASE


# How many steps are looked at for answers that fit none, besides this many for each event; and then, how many for each answer.
LOOKS, LOOKS_OF_AN_EVENT, NEAR = 1000000, 20, 20


class Causes:
    """Which events can have caused an answer, by what was heard and sent so far."""

    def __init__(self, imsis):
        self.slots = {imsi: slot for slot, imsi in enumerate(imsis)}
        self.ready, self.sent, self.due, self.from_idle = set(), collections.defaultdict(set), {}, set()
        self.may_look = LOOKS  # at steps that don't fit, for answers that fit none

    def slot_of(self, heard):
        """The slot that a message names, or nothing."""
        if heard.mme_id is not None and heard.mme_id < FIRST_STRANGER:
            return heard.mme_id >> SLOT_BITS
        imsi, tmsi = heard.identity
        if tmsi is None:
            tmsi = heard.tmsi
        if imsi is not None:
            return self.slots.get(imsi)
        return None if tmsi is None else tmsi >> SLOT_BITS

    def concerns(self, event, heard, answer):
        """Whether what was heard, without the answer's MME UE S1AP ID, is about whom the answer is for."""
        if answer.owner[0] == "s":
            return answer.owner == "s%s" % self.slot_of(heard)
        return answer.owner == "x%d.%s" % (event.station, heard.enb_id)

    def fits_station(self, step, heard, answer, said):
        """An answer for a station itself, which a message gets one of at the most (TS 36.413 clauses 8.6, 8.7, 10)."""
        event = step.event
        if answer.owner != "e%d" % event.station or any(other.owner == answer.owner for _, other in step.answers):
            return False
        if said.code != s1ap.ERROR:
            same = heard.listed == said.listed
            return same and heard.outcome == (said.code, s1ap.INITIATING)
        wrong = heard.fault or heard.outcome not in s1ap.OF_STATION
        return bool(wrong) or event.station not in self.ready

    def fits_message(self, step, answer, said):
        """An answer to a station's message."""
        event, heard = step.event, content(step.event.octets)
        if answer.owner[0] == "e":
            return self.fits_station(step, heard, answer, said)
        if said.code == s1ap.ERROR:
            return (heard.mme_id, heard.enb_id) == (said.mme_id, said.enb_id)
        if said.code == s1ap.PATH_SWITCH:
            return heard.outcome == (s1ap.PATH_SWITCH, s1ap.INITIATING) and heard.enb_id == said.enb_id
        if (heard.mme_id is None or heard.mme_id != said.mme_id) and not self.concerns(event, heard, answer):
            return False
        if not may_answer(heard, said):
            return False
        before = step.answers and [other for _, other in step.answers if other.owner == answer.owner]
        if before:
            return may_follow(content(before[-1].octets), said)
        return said.code != s1ap.RELEASE or self.ends_connection(heard, answer.owner)

    def ends_connection(self, heard, owner):
        """Whether a message may be answered by the release of a connection alone: of its own, or of an older one."""
        if heard.code in (s1ap.INITIAL_UE, s1ap.RELEASE_REQUEST) or heard.outcome == (s1ap.CONTEXT_SETUP, s1ap.UNSUCCESSFUL):
            return True
        kind = heard.nas and heard.nas.type
        return kind in ENDS_CONNECTION or kind == s1ap.TAU_COMPLETE and owner in self.from_idle

    def fits(self, step, answer, said):
        """Whether this event can have caused this answer."""
        event = step.event
        if event.word == "in":
            return self.fits_message(step, answer, said)
        if event.word == "tick":
            return self.second_of(step, answer, said) is not None
        named = answer.owner == "s%s" % self.slots.get(event.imsi)
        if event.word == "data":
            paged = any(other.station == answer.station for _, other in step.answers)
            return named and not paged and said.code == s1ap.PAGING
        return event.word == "cancel" and named and said.code in (s1ap.RELEASE, s1ap.DOWNLINK_NAS)

    @staticmethod
    def kind_of(said):
        """What is the same of a message and of its repeat."""
        return said.nas.name if said.nas else said.outcome

    def second_of(self, step, answer, said):
        """The second of a tick at which a timer of the owner ends and this answer can be sent, or nothing."""
        for second, other in step.answers:
            if other.owner == answer.owner and other.octets == answer.octets and other.station > answer.station:
                return None
            if other.owner == answer.owner and other.octets == answer.octets and other.station < answer.station:
                return second
        timed_out = said.code == s1ap.RELEASE and said.cause == TIMED_OUT
        due = self.due.get(answer.owner, step.second)
        if timed_out or self.kind_of(said) in self.sent.get(answer.owner, ()):
            return due if step.second < due <= step.second + step.event.ticks else None
        return None

    def note(self, step, second, answer, said):
        """Keeps what was sent, on what, and when it is due again."""
        self.sent[answer.owner].add(self.kind_of(said))
        if said.outcome == (s1ap.SETUP, s1ap.SUCCESSFUL):
            self.ready.add(answer.station)
        kind = said.nas and said.nas.type
        timer = timers.T3413 if said.code == s1ap.PAGING else TIMERS.get(kind)
        if timer:
            self.due[answer.owner] = second + timer.seconds
        if kind == TAU_ACCEPT and step.event.word == "in":
            first = content(step.event.octets).code == s1ap.INITIAL_UE
            (self.from_idle.add if first else self.from_idle.discard)(answer.owner)

    def place_from(self, at, able, steps, answer, said):
        """The first place from one on among the steps that are able to have answers whose step fits an answer, else this one."""
        end = len(able) if self.may_look > 0 else min(len(able), at + NEAR)
        for place in range(at, end):
            if self.fits(steps[able[place]], answer, said):
                return place
        self.may_look -= end - at
        return at

    def given(self, steps, answers):
        """The steps, each once it has its answers. One goes to the first step, not before that of the answer before, which fits it;
        else to the one before."""
        able, at, done = [place for place, step in enumerate(steps) if step.event.word not in ("up", "lost")], 0, 0
        self.may_look += LOOKS_OF_AN_EVENT * len(steps)
        for answer in answers:
            said = content(answer.octets)
            at = self.place_from(at, able, steps, answer, said)
            if done < able[at]:
                yield from steps[done:able[at]]
                done = able[at]
            self.take(steps[done], answer, said)
        yield from steps[done:]

    def take(self, step, answer, said):
        """Gives the answer to this step; in a tick at the second of its timer, else at the end."""
        second = step.second
        if step.event.word == "tick":
            second = self.second_of(step, answer, said) or step.second + step.event.ticks
        step.answers.append((second, answer))
        self.note(step, second, answer, said)


def matched(trace, answers):
    """The steps of a trace with answers that were printed before."""
    return list(progress.over("finds answers to event", matching(trace, answers), len(trace.events)))


def matching(trace, answers):
    """The same, each once its answers are known."""
    causes, waiting, at = Causes(trace.imsis), [], 0

    def given_until(place):
        if at < place and all(step.event.word in ("up", "lost") for step in waiting):
            raise Fault("the answers aren't those to this trace: message %d is owed to no event" % (at + 1))
        for step in causes.given(waiting, answers[at:place]):
            if len(step.answers) > 1:
                step.answers.sort(key=second_of_answer)
            yield step

    for step, certain in zip(started(trace), certain_answers(trace)):
        if certain is None:
            waiting.append(step)
            continue
        place = next((place for place in range(at, len(answers)) if answers[place].word != "out"), None)
        if place is None or not is_certain(answers[place], certain):
            raise Fault("the answers aren't those to this trace: line %d of it, %s, isn't answered where it must be"
                        % (step.event.line, event_text(step.event)[:60]))
        yield from given_until(place)
        step.answers.append((step.second, answers[place]))
        yield step
        waiting, at = [], place + 1
    if any(answer.word != "out" for answer in answers[at:]):
        raise Fault("the answers aren't those to this trace: it ends before they do")
    yield from given_until(len(answers))


def second_of_answer(pair):
    """The second of an answer of a step."""
    return pair[0]


# --- Answers that stand in the trace ---


def is_met(step, certain):
    """Whether a step has the answer that is known and no other; where none is known, messages alone."""
    answers = [answer for _, answer in step.answers]
    if certain is None:
        return all(answer.word == "out" for answer in answers)
    return len(answers) == 1 and is_certain(answers[0], certain)


def told(trace, answers):
    """The steps of a trace whose comments are its answers: each, with the number of its line, is to the event above it."""
    steps, causes = started(trace), Causes(trace.imsis)
    lines = [event.line for event in trace.events]
    for line, answer in answers:
        place = bisect.bisect(lines, line) - 1
        if place < 0:
            raise Fault(not_the_answers("line %d stands before all events" % line))
        step = steps[place]
        if answer.word == "out":
            causes.take(step, answer, content(answer.octets))
        else:
            step.answers.append((step.second, answer))
    for step, certain in zip(steps, certain_answers(trace)):
        if not is_met(step, certain):
            raise Fault(not_the_answers("line %d of it, %s, isn't answered as it must be"
                                        % (step.event.line, event_text(step.event)[:60])))
    return steps


def not_the_answers(why):
    """That the comments of a trace aren't its answers, and what helps."""
    return "the comments aren't the answers to this trace: %s; with --mme %s the program answers it, whatever stands there" % (
        why, versions.program())


# --- Running the program ---


def marked(trace, mark):
    """The trace with a mark after each event and each second; and for each mark the step's place and its seconds."""
    lines, marks = list(trace.head), []
    for place, event in enumerate(trace.events):
        singles = min(event.ticks or 0, TICKS_WITH_ANSWERS)
        for second in range(1, singles + 1):
            lines += [b"tick 1", mark]
            marks.append((place, second))
        if event.ticks is None:
            lines += [event_text(event).encode(), mark]
            marks.append((place, 0))
        elif event.ticks > singles:
            lines += [b"tick %d" % (event.ticks - singles), mark]
            marks.append((place, event.ticks))
    return b"\n".join(lines) + b"\n", marks


def unknown_imsi(imsis):
    """An IMSI that nobody has."""
    return next(imsi for imsi in ("%015d" % (10**15 - 1 - back) for back in range(len(imsis) + 1)) if imsi not in imsis)


def output_of(program, text):
    """What the program prints for a trace."""
    with tempfile.NamedTemporaryFile(suffix=".trace") as file:
        file.write(text)
        file.flush()
        try:
            done = subprocess.run([program, "play", file.name], stdout=subprocess.PIPE, stdin=subprocess.DEVNULL, check=False)
        except OSError as fault:
            raise Fault("%s: %s" % (program, fault.strerror)) from None
    if done.returncode:
        raise Fault("%s ended with status %d" % (program, done.returncode))
    return done.stdout


def played(trace, program=SYSTEM):
    """The steps of a trace as the program answers them: after each event stands data for nobody, which is always refused."""
    if lacks_keys(trace.head):
        raise Fault(NO_KEYS)
    text, marks = marked(trace, b"data " + unknown_imsi(trace.imsis).encode())
    answers = iter(read_answers(output_of(program, text), "the program's answers"))
    steps, known = started(trace), certain_answers(trace)
    for place, seconds in marks:
        step = steps[place]
        own_refusal = known[place] is not None and known[place].fault == UNKNOWN_IMSI
        for answer in answers:
            if answer.word == "refused" and answer.fault == UNKNOWN_IMSI and not own_refusal:
                break
            own_refusal = own_refusal and not (answer.word == "refused" and answer.fault == UNKNOWN_IMSI)
            step.answers.append((step.second + seconds, answer))
        else:
            raise Fault("the program's answers end before the trace does")
    return steps


def run_of(trace_path, answers_path, program=None):
    """A trace by its path and its steps. Where no answers are given, those count that stand in it as comments; where it has none,
    or a program is given, the program plays it."""
    if "-" == trace_path == answers_path:
        raise Fault("standard input is one file: the trace or the answers")
    octets = read_file(trace_path)
    trace = read_trace(octets, trace_path)
    if answers_path is not None:
        return trace, matched(trace, read_answers(read_file(answers_path), answers_path))
    comments = [] if program else read_told(octets, trace_path)
    if not trace.events:
        return trace, []
    if comments:
        return trace, told(trace, comments)
    if b"\n" + FURTHER.encode() in octets:
        versions.complain(GIVEN_LATER + ": they are skipped here")
    return trace, played(trace, program or SYSTEM)
