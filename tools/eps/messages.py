"""S1AP messages decoded whole: frame, elements with their values, and the first fault by the profile's grammar.

What can be read after a fault is read too, so that it can be shown; only octets that spell nothing end the reading.
"""
import dataclasses
import enum
import functools

from tools import s1ap
from tools.eps.elements import ELEMENTS, ENB_ID, MME_ID, NAS_PDU, SETUP_LIST, SOURCE_MME_ID
from tools.eps.frames import Frame, without_nas
from tools.eps.per import Number, Reader, Unreadable, read_criticality, skip_additions
from tools.eps.shapes import Shape, Shapes
from tools.eps.usual import INSIDE

OUTCOMES = ("initiating", "successful", "unsuccessful")
REJECT, IGNORE, NOTIFY = "reject", "ignore", "notify"
PASSED_OVER = {75: "GUMMEI", 127: "CSG Id", 128: "CSG Id List"}  # elements that are skipped though they are marked reject


class Sender(enum.Enum):
    """Who sends a message."""
    STATION, MME, BOTH = "station", "MME", "both"


@dataclasses.dataclass(frozen=True)
class Form:
    """A message of the profile: who sends it, its criticality, and its elements as pairs of id and criticality, in order."""
    sender: Sender
    criticality: str
    elements: tuple
    optional: frozenset

    def ids(self):
        return [number for number, _ in self.elements]

    @functools.cached_property
    def known(self):
        return frozenset(self.ids())

    @functools.cached_property
    def needed(self):
        return self.known - self.optional


def form(sender, criticality, text):
    """A form by its elements as docs/PROFILE.md has them: `60i?` is element 60, ignore, and optional."""
    words = [(word.rstrip("?"), word.endswith("?")) for word in text.split()]
    elements = tuple((int(word[:-1]), {"r": REJECT, "i": IGNORE}[word[-1]]) for word, _ in words)
    return Form(sender, criticality, elements, frozenset(int(word[:-1]) for word, optional in words if optional))


# By procedure code and outcome (TS 36.413 clause 9.1, and docs/PROFILE.md for what is optional).
FORMS = {
    (s1ap.SETUP, 0): form(Sender.STATION, REJECT, "59r 60i? 64r 137i"),
    (s1ap.SETUP, 1): form(Sender.MME, REJECT, "61i? 105r 87i"),
    (s1ap.SETUP, 2): form(Sender.MME, REJECT, "2i"),
    (s1ap.INITIAL_UE, 0): form(Sender.STATION, IGNORE, "8r 26r 67r 100i 134i 96r?"),
    (s1ap.DOWNLINK_NAS, 0): form(Sender.MME, IGNORE, "0r 8r 26r"),
    (s1ap.UPLINK_NAS, 0): form(Sender.STATION, IGNORE, "0r 8r 26r 100i 67i"),
    (s1ap.NON_DELIVERY, 0): form(Sender.STATION, IGNORE, "0r 8r 26i 2i"),
    (s1ap.CAPABILITY, 0): form(Sender.STATION, IGNORE, "0r 8r 74i"),
    (s1ap.CONTEXT_SETUP, 0): form(Sender.MME, REJECT, "0r 8r 66r 24r 107r 73r"),
    (s1ap.CONTEXT_SETUP, 1): form(Sender.STATION, REJECT, "0i 8i 51i"),
    (s1ap.CONTEXT_SETUP, 2): form(Sender.STATION, REJECT, "0i 8i 2i"),
    (s1ap.RELEASE_REQUEST, 0): form(Sender.STATION, IGNORE, "0r 8r 2i"),
    (s1ap.RELEASE, 0): form(Sender.MME, REJECT, "99r 2i"),
    (s1ap.RELEASE, 1): form(Sender.STATION, REJECT, "0i 8i"),
    (s1ap.PAGING, 0): form(Sender.MME, IGNORE, "80i 43i 109i 46i"),
    (s1ap.PATH_SWITCH, 0): form(Sender.STATION, REJECT, "8r 22r 88r 100i 67i 107i"),
    (s1ap.PATH_SWITCH, 1): form(Sender.MME, REJECT, "0i 8i 40r"),
    (s1ap.PATH_SWITCH, 2): form(Sender.MME, REJECT, "0i 8i 2i"),
    (s1ap.RESET, 0): form(Sender.STATION, REJECT, "2i 92r"),
    (s1ap.RESET, 1): form(Sender.BOTH, REJECT, "93i?"),
    (s1ap.ERROR, 0): form(Sender.BOTH, IGNORE, "0i? 8i? 2i?"),
}


class Fault(enum.Enum):
    """Why the profile's grammar has no such message (TS 36.413 clauses 10.2 and 10.3)."""
    SYNTAX = "transfer syntax error"
    UNKNOWN_PROCEDURE = "unknown procedure"
    MISSING_ELEMENT = "missing element"
    REFUSED_ELEMENT = "unknown element that is marked reject"
    REPEATED_ELEMENT = "repeated element"


@dataclasses.dataclass(slots=True)
class Element:
    """An element: `value` by its type, or None where it has none that is known; `octets` its open type."""
    id: int
    criticality: str
    octets: bytes
    value: object = None

    @property
    def name(self):
        return name_of(self.id)


def name_of(number):
    """The name of an element by its id."""
    known = ELEMENTS.get(number)
    return known[0] if known else PASSED_OVER.get(number, "element %d" % number)


class Message:
    """A message of S1AP: what was read of it, and its first fault with words on it, or None. Its kind is its procedure's code and
    which of its messages it is, each None where that can't be read; `values` has of each id the value of the first element."""
    fault = why = None

    def __init__(self, octets):
        self.octets, self.kind, self.criticality, self.elements, self.values = octets, (None, None), None, [], {}

    @property
    def code(self):
        return self.kind[0]

    @property
    def outcome(self):
        return self.kind[1]

    @property
    def name(self):
        return s1ap.name(self)

    @property
    def form(self):
        return FORMS.get(self.kind)

    def get(self, number):
        """The value of the first element with this id, or None."""
        return self.values.get(number)

    def own_ids(self):
        """The MME UE S1AP ID that the message names an association by, and the eNB UE S1AP ID in an element of its own; each None
        where it isn't there."""
        return self.get(SOURCE_MME_ID if self.kind == (s1ap.PATH_SWITCH, 0) else MME_ID), self.get(ENB_ID)

    def mme_id(self):
        return self.own_ids()[0]

    def nas(self):
        """The octets of the NAS message in it, or None."""
        carried = self.get(NAS_PDU)
        if carried is None and self.get(SETUP_LIST):
            carried = self.get(SETUP_LIST)[0].get(INSIDE)
        return carried

    def values_without_nas(self):
        """The values of its elements, but for the NAS messages in them."""
        return without_nas(self.values)

    def is_in_order(self):
        """Whether it has its elements in the order and with the criticalities that a sender of the profile writes."""
        written = [(element.id, element.criticality) for element in self.elements]
        return are_in_order(self.form, self.criticality, written) and are_as_written(element.value for element in self.elements)

    def at_fault(self, fault, why):
        if self.fault is None:
            self.fault, self.why = fault, why


class Framed(Message):
    """One that is spelled as usual, and has no fault: its frame, the ids in it, and the values that were read to see that it can be
    read. The others are read once they are asked for."""

    def __init__(self, octets, frame, ids, given=()):
        self.octets, self.kind, self.frame, self.ids, self.given = octets, frame.kind, frame, ids, given

    @property
    def criticality(self):
        return self.frame.criticality

    @functools.cached_property
    def values(self):
        return self.frame.values(self)

    @functools.cached_property
    def elements(self):
        return [Element(number, criticality, self.octets[start:end], self.values[number])
                for (number, criticality), (start, end) in zip(self.frame.written(), self.frame.spans.values())]

    def get(self, number):
        return self.frame.get(self, number)

    def own_ids(self):
        return self.ids if self.frame.has_own_ids else self.frame.own_ids(self.ids)

    def nas(self):
        return self.octets[self.frame.nas] if self.frame.nas else super().nas()

    def values_without_nas(self):
        return self.frame.values_without_nas(self)

    def is_in_order(self):
        return self.frame.is_in_order and (not self.given or are_as_written(self.given))


FRAMES = Shapes()


def decode(octets):
    """The message that these octets are. One that is spelled as usual and has no fault is read by its frame, which is looked at
    once: that reads what decode_whole does."""
    found = FRAMES.find(octets) or frame_met(octets)
    if found is None:
        return decode_whole(octets)
    frame, ids = found
    if not frame.doubtful:
        return Framed(octets, frame, ids)
    try:
        return Framed(octets, frame, ids, frame.read_doubtful(octets))
    except Unreadable:
        return decode_whole(octets)


def frame_met(octets):
    """The frame of a message of another one than those before, which is kept, and its ids; None where it isn't spelled as usual."""
    found = s1ap.spans(octets)
    form_of = found is not None and FORMS.get((octets[1], octets[0] >> 5))
    if not form_of or not form_of.needed <= found.keys() <= form_of.known:
        return None
    try:
        values = {number: ELEMENTS[number][1].whole(octets[start:end]) for number, (start, end) in found.items()}
    except Unreadable:
        return None
    frame = Frame(octets, found, values)
    frame.is_in_order = are_in_order(form_of, frame.criticality, frame.written()) and are_as_written(
        values[number] for number, *_ in frame.varying)
    FRAMES.keep(octets, Shape(octets, frame.holes, frame))
    return FRAMES.find(octets)


def decode_whole(octets):
    """The same, of any octets."""
    message = Message(octets)
    try:
        value = read_frame(message, Reader(octets))
        if message.form is None:
            message.at_fault(Fault.UNKNOWN_PROCEDURE, "no procedure of the profile")
        read_elements(message, Reader(value))
        missing(message)
    except Unreadable as why:
        message.at_fault(Fault.SYNTAX, str(why))
    return message


def read_frame(message, reader):
    """The frame (TS 36.413 clause 9.3.2) with its end; answers the octets of its value."""
    extended, kind = reader.bits(1), reader.bits(2)
    if extended or kind >= len(OUTCOMES):
        raise Unreadable("no kind of message that there is")
    code = Number(0, 255).read(reader)
    criticality = read_criticality(reader)
    message.kind, message.criticality = (code, kind), str(criticality)
    value = reader.open()
    reader.finish()
    return value


def read_elements(message, reader):
    """The elements of the message's value, from the left, and its end."""
    extended = reader.bits(1)
    known = message.form.ids() if message.form else []
    seen = set()
    for _ in range(Number(0, 65535).read(reader)):
        number = Number(0, 65535).read(reader)
        if number in known and number in seen:
            message.at_fault(Fault.REPEATED_ELEMENT, "element %d, %s" % (number, ELEMENTS[number][0]))
        seen.add(number)
        criticality = str(read_criticality(reader))
        if number not in known and criticality == REJECT and number not in PASSED_OVER and message.form:
            message.at_fault(Fault.REFUSED_ELEMENT, "element %d" % number)
        element = Element(number, criticality, reader.open())
        message.elements.append(element)
        read_value(element, number in known and message.fault is None)
        message.values.setdefault(number, element.value)
    if extended:
        skip_additions(reader)
    reader.finish()


def read_value(element, needed):
    """The element's value; octets that are none are a fault only where the message needs it."""
    if element.id in ELEMENTS:
        try:
            element.value = ELEMENTS[element.id][1].whole(element.octets)
        except Unreadable as why:
            if needed:
                raise Unreadable("%s: %s" % (element.name, why)) from None


def missing(message):
    """The first element that has to stand and doesn't."""
    there = {element.id for element in message.elements}
    for number in message.form.ids() if message.form else []:
        if number not in there and number not in message.form.optional:
            message.at_fault(Fault.MISSING_ELEMENT, "element %d, %s" % (number, ELEMENTS[number][0]))


def are_as_written(values):
    """Whether in the lists among values each item has the criticality that a sender of the profile gives it."""
    return all(getattr(value, "as_written", True) for value in values)


def are_in_order(form_of, criticality, written):
    """Whether elements, as pairs of id and criticality, and the message's own criticality are as the form has them."""
    return written == [pair for pair in form_of.elements if pair in written] and criticality == form_of.criticality
