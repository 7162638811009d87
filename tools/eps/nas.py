"""EPS NAS messages decoded whole (TS 24.301 clauses 8 and 9), with the first fault by the profile's grammar.

What can be read after a fault is read too, so that it can be shown.
"""
import dataclasses
import enum
import functools

from tools import s1ap
from tools.eps import nas_elements as forms
from tools.eps.nas_elements import Beyond, Refused, named
from tools.eps.shapes import NAS_HEAD, Shape, Shapes, of_octets

KEPT = 1 << 8  # messages that aren't decoded again
UP, DOWN = 0, 1  # directions, as a MAC takes them (TS 33.401 annex B.2.1)
PLAIN_EMM = 0x07  # the first octet of a plain EMM message
SERVICE_OCTETS = 4
HEADERS = {0: "plain", 1: "integrity protected", 2: "integrity protected and ciphered",
           3: "integrity protected with new EPS security context",
           4: "integrity protected and ciphered with new EPS security context",
           12: "security header for the SERVICE REQUEST message"}
INTEGRITY, CIPHERED, NEW_CONTEXT, NEW_CIPHERED, SERVICE_HEADER = 1, 2, 3, 4, 12
PROTECTED_HEADERS = (INTEGRITY, CIPHERED, NEW_CONTEXT, NEW_CIPHERED)
PROTECTED_FIRST = {bytes([header << 4 | s1ap.EMM]): header for header in PROTECTED_HEADERS}  # by a message's first octet

ATTACH_REQUEST, ATTACH_ACCEPT, ATTACH_COMPLETE, ATTACH_REJECT = 0x41, 0x42, 0x43, 0x44
DETACH_REQUEST, DETACH_ACCEPT = 0x45, 0x46
TAU_REQUEST, TAU_ACCEPT, TAU_COMPLETE, TAU_REJECT = 0x48, 0x49, 0x4A, 0x4B
SERVICE_REJECT, SERVICE_REQUEST = 0x4E, 0xC7
AUTHENTICATION_REQUEST, AUTHENTICATION_RESPONSE, AUTHENTICATION_REJECT, AUTHENTICATION_FAILURE = 0x52, 0x53, 0x54, 0x5C
IDENTITY_REQUEST, IDENTITY_RESPONSE = 0x55, 0x56
SECURITY_MODE_COMMAND, SECURITY_MODE_COMPLETE, SECURITY_MODE_REJECT, EMM_STATUS = 0x5D, 0x5E, 0x5F, 0x60
ACTIVATE_REQUEST, ACTIVATE_ACCEPT, ACTIVATE_REJECT = 0xC1, 0xC2, 0xC3
CONNECTIVITY_REQUEST, CONNECTIVITY_REJECT, DISCONNECT_REQUEST, DISCONNECT_REJECT = 0xD0, 0xD1, 0xD2, 0xD3
INFORMATION_REQUEST, INFORMATION_RESPONSE, ESM_STATUS = 0xD9, 0xDA, 0xE8


class Fault(enum.Enum):
    """Why the profile's grammar has no such NAS message (TS 24.301 clause 7)."""
    TOO_SHORT = "too short for a message type"
    UNKNOWN_TYPE = "unknown message type"
    MANDATORY = "invalid mandatory part"
    OPTIONAL = "optional part beyond the end"


class PastEnd(Exception):
    """An element ends after the octets."""


@dataclasses.dataclass(slots=True)
class Plain:
    """A plain NAS message, or one without its protection: what was read of it, and its first fault with words on it, or None.

    `lengths` has the octets of each element that stands after its length, by its name, and `places` where an element's octets
    begin; `spare` says that a spare bit is set. `parts` has of each element that is read from octets of its own its name, where
    they begin and end, and what makes its value of them.
    """
    octets: bytes
    is_esm: bool
    type: int | None = None
    fields: dict = dataclasses.field(default_factory=dict)
    lengths: dict = dataclasses.field(default_factory=dict)
    places: dict = dataclasses.field(default_factory=dict)
    spare: bool = False
    fault: Fault | None = None
    why: str | None = None
    parts: list = dataclasses.field(default_factory=list, compare=False)

    @property
    def name(self):
        if self.type is None:
            return "unreadable NAS message"
        if (self.type == DETACH_REQUEST, self.is_esm) == (True, False):
            return "DETACH REQUEST"
        if self.is_service_request():
            return "SERVICE REQUEST"
        names = s1ap.ESM_NAMES if self.is_esm else s1ap.EMM_TYPES
        return names.get(self.type, "%s message type %02x" % ("ESM" if self.is_esm else "EMM", self.type))

    def is_service_request(self):
        """Whether it is one by its form: there is no such message type, and a message of this type has a fault."""
        return self.type == SERVICE_REQUEST and not self.is_esm and self.fault is None

    def cause(self):
        """The message's cause in words, or None."""
        return next((self.fields[name] for name in ("EMM cause", "ESM cause") if name in self.fields), None)

    def at_fault(self, fault, why):
        if self.fault is None:
            self.fault, self.why = fault, why

    def like(self, octets):
        """The message of other octets that differ from these in its parts alone, or None where one of them is at fault."""
        fields = self.fields.copy()
        try:
            for name, start, end, form in self.parts:
                fields[name] = form(octets[start:end])
        except Refused:
            return None
        return Plain(octets, self.is_esm, self.type, fields, self.lengths, self.places, self.spare, parts=self.parts)


class Cursor:
    """Takes octets of a message from the left."""

    def __init__(self, octets, at):
        self.octets, self.at = octets, at

    def take(self, count):
        if self.at + count > len(self.octets):
            raise PastEnd
        self.at += count
        return self.octets[self.at - count:self.at]

    def number(self, count):
        return int.from_bytes(self.take(count), "big")

    def is_at_end(self):
        return self.at == len(self.octets)


# --- The mandatory part: each item takes its octets and gives the message its fields ---


def kept(message, name, form, octets, only=None):
    """Gives the message the value of these octets, which a form makes; what the profile doesn't have is a fault."""
    try:
        message.fields[name] = form(octets)
        if only is not None and octets != only:
            raise Refused("another %s than %s" % (name, only.hex()))
    except Beyond as beyond:
        message.fields[name] = beyond.value
        message.at_fault(Fault.MANDATORY, str(beyond))
    except Refused as why:
        message.fields.setdefault(name, octets.hex())
        message.at_fault(Fault.MANDATORY, str(why))


@dataclasses.dataclass
class Octet:
    """One octet."""
    name: str
    form: object
    only: int | None = None

    def take(self, cursor, message):
        only = None if self.only is None else bytes([self.only])
        kept(message, self.name, lambda octets: self.form(octets[0]), cursor.take(1), only)


@dataclasses.dataclass
class Fixed:
    """Octets of a fixed size."""
    name: str
    size: int

    def take(self, cursor, message):
        message.places[self.name] = cursor.at
        message.parts.append((self.name, cursor.at, cursor.at + self.size, forms.hexed))
        kept(message, self.name, forms.hexed, cursor.take(self.size))


@dataclasses.dataclass
class Sized:
    """Octets after their length, of one octet or of two."""
    name: str
    form: object
    octets_of_length: int = 1
    only: bytes | None = None

    def take(self, cursor, message):
        octets = cursor.take(cursor.number(self.octets_of_length))
        message.lengths[self.name], message.places[self.name] = len(octets), cursor.at - len(octets)
        if self.only is None:
            message.parts.append((self.name, cursor.at - len(octets), cursor.at, self.form))
        kept(message, self.name, self.form, octets, self.only)


@dataclasses.dataclass
class Halves:
    """An octet of two halves: names and forms of the low one and of the high one, and what the low three bits have to be."""
    low: str
    low_form: object
    high: str | None = None
    high_form: object = None
    only: int | None = None

    def take(self, cursor, message):
        octet = cursor.take(1)[0]
        message.spare |= bool(octet & (0x08 if self.high else 0xF8))
        message.fields[self.low] = self.low_form(octet & 0xF)
        if self.high:
            message.fields[self.high] = self.high_form(octet >> 4)
        if self.only is not None and octet & 7 != self.only:
            message.at_fault(Fault.MANDATORY, "another %s than %d" % (self.low, self.only))


def low_bits(names):
    """The name of the low three bits of half an octet."""
    return lambda half: named(names, half & 7)


class Flagged(Halves):
    """A type of three bits with a flag above them (TS 24.301 clauses 9.9.3.7 and 9.9.3.14), and the key set."""

    def __init__(self, name, names, flag):
        super().__init__(name, low_bits(names), KEY_SET, forms.key_set)
        self.flag = flag

    def take(self, cursor, message):
        super().take(cursor, message)
        message.fields[self.flag] = bool(cursor.octets[cursor.at - 1] & 8)


def contained(octets):
    """An ESM message in its container."""
    return decode_esm(octets)


def algorithms(octet):
    """Selected NAS security algorithms (clause 9.9.3.23)."""
    return {"ciphering": named(forms.CIPHERINGS, octet >> 4 & 7), "integrity": named(forms.INTEGRITIES, octet & 7)}


KEY_SET = "NAS key set identifier"
CONTAINER = Sized("ESM message container", contained, 2)
EMM_CAUSE, ESM_CAUSE = Octet("EMM cause", forms.emm), Octet("ESM cause", forms.esm)
T3412_OCTET = 0x49
KEY_SET_HALF = Halves(KEY_SET, forms.key_set)
IDENTITY = Sized("EPS mobile identity", forms.mobile_identity)

# The mandatory parts by type, and by direction for DETACH REQUEST (TS 24.301 clause 8.2, in the profile).
EMM_PARTS = {
    ATTACH_REQUEST: (Halves("EPS attach type", low_bits(forms.ATTACH_TYPES), KEY_SET, forms.key_set), IDENTITY,
                     Sized("UE network capability", forms.capability), CONTAINER),
    ATTACH_ACCEPT: (Halves("EPS attach result", low_bits(forms.ATTACH_RESULTS), only=1),
                    Octet("T3412 value", forms.timer, T3412_OCTET), Sized("TAI list", forms.tai_list), CONTAINER),
    ATTACH_COMPLETE: (CONTAINER,),
    ATTACH_REJECT: (EMM_CAUSE,),
    (DETACH_REQUEST, UP): (Flagged("detach type", forms.DETACH_TYPES, "switch off"), IDENTITY),
    (DETACH_REQUEST, DOWN): (Halves("detach type", low_bits(forms.NETWORK_DETACH_TYPES), only=2),),
    DETACH_ACCEPT: (),
    TAU_REQUEST: (Flagged("EPS update type", forms.UPDATE_TYPES, "active flag"), Sized("old GUTI", forms.guti)),
    TAU_ACCEPT: (Halves("EPS update result", low_bits(forms.UPDATE_RESULTS), only=0),),
    TAU_COMPLETE: (),
    TAU_REJECT: (EMM_CAUSE,),
    SERVICE_REJECT: (EMM_CAUSE,),
    AUTHENTICATION_REQUEST: (KEY_SET_HALF, Fixed("RAND", 16), Sized("AUTN", forms.autn)),
    AUTHENTICATION_RESPONSE: (Sized("RES", forms.res),),
    AUTHENTICATION_REJECT: (),
    AUTHENTICATION_FAILURE: (EMM_CAUSE,),
    IDENTITY_REQUEST: (Halves("identity type", low_bits(forms.ASKED_IDENTITIES), only=1),),
    IDENTITY_RESPONSE: (Sized("mobile identity", forms.mobile_identity),),
    SECURITY_MODE_COMMAND: (Octet("selected NAS security algorithms", algorithms, 0x02), KEY_SET_HALF,
                            Sized("replayed UE security capabilities", forms.capability)),
    SECURITY_MODE_COMPLETE: (),
    SECURITY_MODE_REJECT: (EMM_CAUSE,),
    EMM_STATUS: (EMM_CAUSE,),
}
ESM_PARTS = {
    ACTIVATE_REQUEST: (Sized("EPS QoS", forms.qos, only=b"\x09"), Sized("access point name", forms.apn),
                       Sized("PDN address", forms.pdn_address)),
    ACTIVATE_ACCEPT: (),
    ACTIVATE_REJECT: (ESM_CAUSE,),
    CONNECTIVITY_REQUEST: (Halves("request type", low_bits(forms.REQUEST_TYPES), "PDN type", low_bits(forms.PDN_TYPES)),),
    CONNECTIVITY_REJECT: (ESM_CAUSE,),
    DISCONNECT_REQUEST: (Halves("linked EPS bearer identity", int),),
    DISCONNECT_REJECT: (ESM_CAUSE,),
    INFORMATION_REQUEST: (),
    INFORMATION_RESPONSE: (),
    ESM_STATUS: (ESM_CAUSE,),
}

# --- The optional part: names by message, and the values that are looked into ---

PCO = {0x27: "protocol configuration options"}
OLD_NETWORK = {0x19: "old P-TMSI signature", 0x50: "additional GUTI", 0x52: "last visited registered TAI", 0x5C: "DRX parameter",
               0x31: "MS network capability", 0x13: "old location area identification", 0x90: "TMSI status",
               0x11: "mobile station classmark 2", 0x20: "mobile station classmark 3", 0x40: "supported codecs"}
OF_ACCEPT = {0x50: "GUTI", 0x13: "location area identification", 0x23: "MS identity", 0x53: "EMM cause", 0x17: "T3402 value",
             0x59: "T3423 value", 0x4A: "equivalent PLMNs", 0x34: "emergency number list", 0x64: "EPS network feature support"}
EMM_OPTIONS = {
    ATTACH_REQUEST: OLD_NETWORK, ATTACH_ACCEPT: OF_ACCEPT, ATTACH_REJECT: {0x78: "ESM message container"},
    DETACH_REQUEST: {0x53: "EMM cause"},
    TAU_REQUEST: {**OLD_NETWORK, 0xB0: "non-current native NAS key set identifier", 0x80: "GPRS ciphering key sequence number",
                  0x55: "nonceUE", 0x58: "UE network capability", 0xA0: "UE radio capability information update needed",
                  0x57: "EPS bearer context status"},
    TAU_ACCEPT: {**OF_ACCEPT, 0x5A: "T3412 value", 0x54: "TAI list", 0x57: "EPS bearer context status"},
    AUTHENTICATION_FAILURE: {0x30: "authentication failure parameter"},
    SECURITY_MODE_COMMAND: {0xC0: "IMEISV request", 0x55: "replayed nonceUE", 0x56: "nonceMME"},
    SECURITY_MODE_COMPLETE: {0x23: "IMEISV"}, SERVICE_REJECT: {0x5B: "T3442 value"},
}
ESM_OPTIONS = {
    ACTIVATE_REQUEST: {**PCO, 0x5D: "transaction identifier", 0x30: "negotiated QoS", 0x32: "negotiated LLC SAPI",
                       0x80: "radio priority", 0x34: "packet flow identifier", 0x5E: "APN-AMBR", 0x58: "ESM cause"},
    CONNECTIVITY_REQUEST: {**PCO, 0xD0: "ESM information transfer flag", 0x28: "access point name"},
    INFORMATION_RESPONSE: {**PCO, 0x28: "access point name"},
}
OPTION_FORMS = {
    "additional GUTI": forms.mobile_identity, "GUTI": forms.mobile_identity, "last visited registered TAI": forms.tai,
    "EMM cause": forms.of_octet(forms.emm), "ESM cause": forms.of_octet(forms.esm), "T3412 value": forms.of_octet(forms.timer),
    "T3402 value": forms.of_octet(forms.timer), "T3423 value": forms.of_octet(forms.timer), "TAI list": forms.tai_list,
    "access point name": forms.apn, "ESM message container": contained, "UE network capability": forms.capability,
}
# Octets after the identifier of the elements that have neither a length nor stand in one octet (docs/PROFILE.md).
OPTION_SIZES = {0x13: 5, 0x19: 3, 0x52: 5, 0x53: 1, 0x55: 4, 0x5A: 1, 0x5C: 2}
ESM_OPTION_SIZES = {**OPTION_SIZES, 0x58: 1}
LONG = range(0x78, 0x80)  # identifiers of elements with two octets of length


def options(cursor, message):
    """The optional part, to the end of the octets; of repeated elements the first counts."""
    names = (ESM_OPTIONS if message.is_esm else EMM_OPTIONS).get(message.type, PCO if message.is_esm else {})
    while not cursor.is_at_end():
        identifier = cursor.number(1)
        if identifier >= 0x80:
            message.fields.setdefault(names.get(identifier & 0xF0, "element %x-" % (identifier >> 4)), identifier & 0xF)
            continue
        size = (ESM_OPTION_SIZES if message.is_esm else OPTION_SIZES).get(identifier)
        sized = size is None
        octets = cursor.take(cursor.number(2 if identifier in LONG else 1) if sized else size)
        name = names.get(identifier, "element %02x" % identifier)
        if name not in message.fields:
            message.fields[name], message.places[name] = option_value(name, octets), cursor.at - len(octets)
            message.parts.append((name, cursor.at - len(octets), cursor.at, functools.partial(option_value, name)))
            message.lengths.update({name: len(octets)} if sized else {})


def option_value(name, octets):
    """The value of an optional element, or its octets where it is none."""
    try:
        return OPTION_FORMS.get(name, forms.hexed)(octets)
    except Beyond as beyond:
        return beyond.value
    except (Refused, IndexError):
        return octets.hex()


# --- Messages ---


def read_parts(message, parts, at):
    """The mandatory part from a place on, then the optional one."""
    cursor = Cursor(message.octets, at)
    try:
        for part in parts:
            part.take(cursor, message)
    except PastEnd:
        message.at_fault(Fault.MANDATORY, "the mandatory part ends too early")
        return
    try:
        options(cursor, message)
    except PastEnd:
        message.at_fault(Fault.OPTIONAL, "an optional element ends after the message")


def octets_text(count):
    return "%d octet%s" % (count, "" if count == 1 else "s")


EMM_SHAPES, ESM_SHAPES = {UP: Shapes(NAS_HEAD), DOWN: Shapes(NAS_HEAD)}, Shapes(NAS_HEAD)


def decoded(shapes, octets, read):
    """The message that `read` makes of octets. Of one that has the shape of a message that was met the parts alone are read."""
    known = shapes.kept_of(octets)
    message = known and known.like(octets)
    if not message:
        message = read(octets)
        if not message.fault and message.parts:
            shapes.keep(octets, Shape(octets, [of_octets(start, end) for _, start, end, _ in message.parts], message))
    return message


@functools.lru_cache(KEPT)
def decode_emm(octets, direction):
    """An EMM message, or octets that are read as one."""
    return decoded(EMM_SHAPES[direction], octets, lambda whole: read_emm(whole, direction))


def read_emm(octets, direction):
    message = Plain(octets, is_esm=False)
    if len(octets) < 2:
        message.at_fault(Fault.TOO_SHORT, octets_text(len(octets)))
    elif octets[0] == SERVICE_REQUEST and len(octets) == SERVICE_OCTETS:
        message.type = SERVICE_REQUEST
        message.fields = {KEY_SET: octets[1] >> 5, "sequence number": octets[1] & 31, "short MAC": octets[2:].hex()}
    elif octets[0] != PLAIN_EMM:
        message.at_fault(Fault.UNKNOWN_TYPE, "first octet %02x" % octets[0])
    else:
        message.type = octets[1]
        parts = EMM_PARTS.get(message.type, EMM_PARTS.get((message.type, direction)))
        if parts is None:
            message.at_fault(Fault.UNKNOWN_TYPE, "no EMM message of the profile")
        else:
            read_parts(message, parts, 2)
    return message


@functools.lru_cache(KEPT)
def decode_esm(octets):
    """An ESM message, or octets that are read as one."""
    return decoded(ESM_SHAPES, octets, read_esm)


def read_esm(octets):
    message = Plain(octets, is_esm=True)
    if len(octets) < 3:
        message.at_fault(Fault.TOO_SHORT, octets_text(len(octets)))
    elif octets[0] & 0xF != s1ap.ESM:
        message.at_fault(Fault.UNKNOWN_TYPE, "first octet %02x" % octets[0])
    else:
        message.type = octets[2]
        message.fields = {"EPS bearer identity": octets[0] >> 4, "procedure transaction identity": octets[1]}
        parts = ESM_PARTS.get(message.type)
        if parts is None:
            message.at_fault(Fault.UNKNOWN_TYPE, "no ESM message of the profile")
        else:
            read_parts(message, parts, 3)
    return message


def decode_plain(octets, direction):
    """A plain message: ESM by the low half of its first octet, all other as EMM."""
    return decode_esm(octets) if octets and octets[0] & 0xF == s1ap.ESM else decode_emm(octets, direction)


@dataclasses.dataclass(slots=True)
class Protected:
    """The protected form (TS 24.301 clause 9.1): header type, MAC, sequence number, and the message in it."""
    header: int
    mac: bytes
    sequence: int
    inner: bytes

    def covered(self):
        """The octets that the MAC is over (clause 4.4.3.3)."""
        return bytes([self.sequence]) + self.inner


def split(octets):
    """The protected form of these octets, or None where they haven't it."""
    header = PROTECTED_FIRST.get(octets[:1])
    if header is None or len(octets) < s1ap.PROTECTED:
        return None
    return Protected(header, octets[1:5], octets[5], octets[6:])


def named_message(octets):
    """The octets of a first message that says who a phone is: of header 1 and 2 those inside, whatever the MAC is."""
    protected = split(octets)
    return protected.inner if protected and protected.header in (INTEGRITY, CIPHERED) else octets
