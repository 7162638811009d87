"""Why `mme sim` skipped lines of a script (docs/SCRIPTS.md): what stations and phones have is read from what it printed."""
import dataclasses

from tools import runs, s1ap
from tools.eps import messages, nas, render
from tools.eps.elements import ENB_ID
from tools.eps.reasons import Why

SKIPPED = "## skipped"
SILENT = ("station", "deaf")  # words that print nothing where they are done
FIRST_WORDS = ("attach", "info", "foreign", "service", "tau", "switch")  # words that need a phone, and a station that is set up
LYING = ("replay", "forge")
PLAIN_WORDS = ("detach", "off", "idle", "deaf") + LYING  # words that have a phone alone
# How many fields follow a word, and which of them is a station.
COUNTS = runs.PROVISIONING | runs.EVENTS | {"raw": 2, "station": 3}
COUNTS |= dict.fromkeys(FIRST_WORDS, 3) | dict.fromkeys(PLAIN_WORDS, 1)
del COUNTS["in"]
STATION_PLACES = {"station": 0, "raw": 0, "up": 0, "lost": 0} | dict.fromkeys(FIRST_WORDS, 1)
MOST_ENB_ID = (1 << 24) - 1  # TS 36.413 clause 9.2.3.4
FORGETS = {nas.ATTACH_REJECT, nas.TAU_REJECT, nas.SERVICE_REJECT, nas.AUTHENTICATION_REJECT, nas.DETACH_ACCEPT, nas.DETACH_REQUEST}


@dataclasses.dataclass
class Skip:
    """A line of the script that was skipped, and why."""
    line: int
    text: str
    why: Why
    facts: dict

    def reason(self):
        return self.why.text(self.facts)

    def clause(self):
        return self.why.clause(self.facts)

    def object(self):
        return {"script line": self.line, "text": self.text, "why": self.why.name, "reason": self.reason(), "clause": self.clause()}


@dataclasses.dataclass
class Phone:
    """What a simulated phone has: a security context, a GUTI, a connection, where it was last, and its last protected message."""
    has_context: bool = False
    has_guti: bool = False
    pair: tuple | None = None
    place: tuple | None = None
    sent: bytes = b""
    deaf: bool = False

    def forgets(self):
        self.has_context = self.has_guti = False


class Laboratory:
    """The stations and phones of a script, as far as it was played."""

    def __init__(self):
        self.phones, self.stations, self.ready, self.at = {}, set(), set(), {}
        self.becoming_deaf = []  # phones that are deaf as soon as what came of the lines before is heard

    # --- Why a line can't be done ---

    def why_not(self, word, fields):
        """The reason that a line is skipped, with facts; or nothing where it can be done."""
        if word in ("station", "up"):
            return self.about_station(word, int(fields[0]))
        if word not in FIRST_WORDS + PLAIN_WORDS:
            return None
        phone = self.phones.get(fields[0])
        if phone is None:
            return Why.NO_PHONE, {"imsi": fields[0]}
        if word in FIRST_WORDS:
            return self.about_place(int(fields[1])) or self.about_phone(word, phone)
        return self.about_connection(word, phone)

    def about_station(self, word, station):
        if word == "station":
            return (Why.STATION_TWICE, {"station": station}) if station in self.stations else None
        return None if station in self.stations else (Why.NO_STATION, {"station": station})

    def about_place(self, station):
        if station not in self.stations:
            return Why.NO_STATION, {"station": station}
        return None if station in self.ready else (Why.STATION_NOT_READY, {"station": station})

    @staticmethod
    def about_phone(word, phone):
        if word in ("service", "tau") and not phone.has_context:
            return Why.NO_KEYS, {}
        if word == "tau" and not phone.has_guti:
            return Why.NO_GUTI, {}
        return (Why.IS_IDLE, {}) if word == "switch" and not phone.pair else None

    def about_connection(self, word, phone):
        if phone.pair:
            return (Why.NOTHING_SENT, {}) if word in LYING and not phone.sent else None
        if word in ("idle", *LYING):
            return Why.IS_IDLE if phone.place else Why.NEVER_CONNECTED, {}
        if word == "deaf":
            return None
        if phone.place is None:
            return Why.NEVER_CONNECTED, {}
        return self.about_place(phone.place[0])

    # --- What is done ---

    def does(self, word, fields):
        """A line of the script is done."""
        phone = self.phones.get(fields[0])
        if word == "sub":
            self.phones[fields[0]] = Phone()
        elif word == "station":
            self.stations.add(int(fields[0]))
        elif word == "deaf":
            self.becoming_deaf.append(phone)
        elif word in FIRST_WORDS and word != "switch":
            self.goes_to(word, phone, (int(fields[1]), int(fields[2])))
        elif word in ("detach", "off") and phone.pair is None:
            self.at[phone.place] = phone
        if word == "off":
            phone.forgets()

    def goes_to(self, word, phone, place):
        if word in ("attach", "info", "foreign"):
            phone.forgets()
        if word != "tau" or phone.pair != place:
            phone.place = place
            self.at[place] = phone

    # --- What comes of it ---

    def hears(self, told):
        """An event of the run, with its answers."""
        event = told.event
        if event.word == "lost":
            self.ends(event.station)
        elif event.word == "in":
            self.sends(event)
        for each in told.answered:
            if each.answer.word == "out":
                self.delivers(each.answer)

    def hear_no_more(self):
        """Phones that were told to be deaf are so from here on."""
        for phone in self.becoming_deaf:
            phone.deaf = True
        self.becoming_deaf = []

    def ends(self, station):
        """A station's connections end."""
        self.ready.discard(station)
        for phone in self.phones.values():
            if phone.pair and phone.pair[0] == station:
                phone.pair = None

    def sends(self, event):
        message = messages.decode(event.octets)
        phone = self.at.get((event.station, message.get(ENB_ID)))
        carried = message.nas()
        if phone and carried and nas.split(carried):
            phone.sent = carried

    def delivers(self, answer):
        """A message of the MME reaches its station, and the phone there."""
        message = messages.decode(answer.octets)
        kind, enb_id = message.kind, render.message_ids(message)[1]
        if kind == (s1ap.SETUP, 1):
            self.ends(answer.station)
            self.ready.add(answer.station)
        place = answer.station, enb_id
        phone = self.at.get(place)
        if kind == (s1ap.PATH_SWITCH, 1):
            self.switched(answer.owner, place)
        elif phone and kind == (s1ap.RELEASE, 0):
            phone.pair = None if phone.pair == place else phone.pair
        elif phone and kind in ((s1ap.DOWNLINK_NAS, 0), (s1ap.CONTEXT_SETUP, 0)) and phone.place == place:
            phone.pair = place
            if message.nas() and not phone.deaf:
                self.reads(phone, render.Nas(message.nas(), True).plain)

    def switched(self, owner, place):
        """A phone's connection has moved; where the output isn't that of the script, the owner may be none of its phones."""
        phone = dict(zip(("s%d" % slot for slot in range(len(self.phones))), self.phones.values())).get(owner)
        if phone is None:
            return
        phone.pair = phone.place = place
        self.at[place] = phone

    @staticmethod
    def reads(phone, message):
        if message.is_esm:
            return
        if message.type == nas.SECURITY_MODE_COMMAND:
            phone.has_context = True
        elif message.type in (nas.ATTACH_ACCEPT, nas.TAU_ACCEPT):
            phone.has_guti = True
        elif message.type in FORGETS:
            phone.forgets()


class Output:
    """What was printed for a script, line by line."""

    def __init__(self, octets, told, laboratory):
        self.lines = octets.decode("latin-1").split("\n")
        self.told = {each.event.line: each for each in told}
        self.laboratory, self.at = laboratory, 0

    def next_of(self, is_begun):
        """Goes to the next line that was skipped or that begins a line of the script; answers its text, or None at the end.

        What stands before it is what came of lines before.
        """
        while self.at < len(self.lines):
            text, told = self.lines[self.at], self.told.get(self.at + 1)
            self.at += 1
            if text == SKIPPED or is_begun(text, told):
                self.laboratory.hear_no_more()
                return text
            if told:
                self.laboratory.hears(told)
        return None

    def hear_last(self):
        """What came of the line that was found last."""
        told = self.told.get(self.at)
        if told:
            self.laboratory.hears(told)


def begins(word, fields, text, told, laboratory):
    """Whether a line of the output is the first that a line of the script prints."""
    if word in ("up", "lost"):
        return text == "%s %d" % (word, int(fields[0]))
    if word in ("data", "cancel", "show", "mme", "sub", "vec"):
        return text == " ".join((word, *fields))
    if word == "tick":
        return text == "tick 1"
    if told is None or told.event.word != "in":
        return False
    if word == "raw":
        return told.event.station == int(fields[0]) and told.event.octets == runs.octets_of(fields[1])
    message = messages.decode(told.event.octets)
    if word in LYING:
        phone = laboratory.phones.get(fields[0])
        return phone is not None and message.nas() == lied(word, phone.sent)
    return is_of_phone(word, message)


def lied(word, sent):
    """A protected message as it is sent again: the same, or with its sequence number one more."""
    return sent if word == "replay" else sent[:5] + bytes([sent[5] + 1 & 0xFF]) + sent[6:] if sent else None


BY_CONNECTION_OR_NOT = {(s1ap.INITIAL_UE, 0), (s1ap.UPLINK_NAS, 0)}
# What a phone's word begins with, where it isn't always a first message; and the NAS message that it is.
STARTED = {"switch": {(s1ap.PATH_SWITCH, 0)}, "idle": {(s1ap.RELEASE_REQUEST, 0)}, "tau": BY_CONNECTION_OR_NOT,
           "detach": BY_CONNECTION_OR_NOT, "off": BY_CONNECTION_OR_NOT}
ASKED = {"tau": nas.TAU_REQUEST, "detach": nas.DETACH_REQUEST, "off": nas.DETACH_REQUEST}


def is_of_phone(word, message):
    """Whether a message is one that a phone sends by a word of its own, and not for an answer."""
    kind = message.kind
    if kind not in STARTED.get(word, {(s1ap.INITIAL_UE, 0)}):
        return False
    carried = message.nas() or b""
    return word not in ASKED or nas.decode_emm(inside(carried), nas.UP).type == ASKED[word]


def inside(octets):
    protected = nas.split(octets)
    return protected.inner if protected else octets


def skipped(script, output, told):
    """The lines of a script that were skipped; a fault where the output isn't that of this script."""
    laboratory = Laboratory()
    printed, found = Output(output, told, laboratory), []

    def read(line, text):
        word, fields = fields_of(text)
        skip = played(line, text.decode("latin-1"), word, fields, laboratory, printed)
        if skip:
            found.append(skip)

    runs.lines_of(script, "the script", read)
    return found


def fields_of(text):
    """The word of a line and its fields, of which those are numbers that have to be."""
    word, fields = runs.fields_of(text, COUNTS)
    if word in STATION_PLACES:
        runs.station_of(fields[STATION_PLACES[word]])
    if word == "tick":
        runs.number(fields[0], 1, runs.LONGEST_TICK)
    elif word == "raw":
        runs.octets_of(fields[1])
    elif word in FIRST_WORDS:
        runs.number(fields[2], 0, MOST_ENB_ID)
    return word, fields


def played(line, text, word, fields, laboratory, printed):
    """A line of the script with what was printed for it: the skip, or nothing where it was done."""
    reason = laboratory.why_not(word, fields)
    if word in SILENT and reason is None:
        laboratory.does(word, fields)
        return None
    for _ in range(int(fields[0]) if word == "tick" else 1):
        first = printed.next_of(lambda text, told: begins(word, fields, text, told, laboratory))
        reason = laboratory.why_not(word, fields)
        if first is None or (first == SKIPPED) != (reason is not None):
            raise runs.Fault("the output isn't that of the script: %s was %s" % (
                text[:60], "not found" if first is None else "skipped" if first == SKIPPED else "done"))
        if reason:
            return Skip(line, text, *reason)
        laboratory.does(word, fields)
        printed.hear_last()
    return None
