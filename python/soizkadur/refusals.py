"""Why a call is refused: `enum soizkadur_refusal` of library/soizkadur.h."""
import enum


class Refusal(enum.IntEnum):
    """What a call answers where it is refused; 0, which isn't here, is that it was taken."""

    NOT_UP = 1
    ALREADY_UP = 2
    CLOCK_SPENT = 3
    NO_MEMORY = 4
    UNKNOWN_IMSI = 5

    UNKNOWN_WORD = 11
    FIELD_COUNT = 12
    BAD_NUMBER = 13
    BAD_OCTETS = 14
    TOO_LONG = 15
    ORDER = 16
    PROVISION = 17

    NO_MME = 21
    IN_USE = 22
    NO_OUTPUT = 23
    NO_ROOM = 24
    LOST = 25
    NOT_SAVED = 26
    OTHER_VERSION = 27
    NO_SNAPSHOT = 28
    TOO_MUCH_WORK = 29

    S1AP_SYNTAX = 31
    S1AP_UNKNOWN_PROCEDURE = 32
    S1AP_MISSING_ELEMENT = 33
    S1AP_REPEATED_ELEMENT = 34
    S1AP_REFUSED_ELEMENT = 35

    NAS_TOO_SHORT = 41
    NAS_MANDATORY = 42
    NAS_UNKNOWN_TYPE = 43
    NAS_OPTIONAL_PART = 44
    NAS_NOT_PROTECTED = 45

    @property
    def words(self) -> str:
        """What it means, in words."""
        return _WORDS[self]


_WORDS = {
    Refusal.NOT_UP: "the station is down",
    Refusal.ALREADY_UP: "the station is not down",
    Refusal.CLOCK_SPENT: "the clock is at its last tick",
    Refusal.NO_MEMORY: "there is no memory; nothing changed",
    Refusal.UNKNOWN_IMSI: "nobody is provisioned with the IMSI",
    Refusal.UNKNOWN_WORD: "no line begins with this word",
    Refusal.FIELD_COUNT: "too few or too many fields for the word",
    Refusal.BAD_NUMBER: "not a number in its range, not an IMSI, or not a name as it should be",
    Refusal.BAD_OCTETS: "not octets in hex, or not as many octets as it should be",
    Refusal.TOO_LONG: "the line has more than 40000 octets",
    Refusal.ORDER: "what came before doesn't allow it",
    Refusal.PROVISION: "the subscriber or the vector can't be taken, or nobody has the IMSI",
    Refusal.NO_MME: "there is no MME, or it isn't started",
    Refusal.IN_USE: "the handle isn't empty",
    Refusal.NO_OUTPUT: "no reply or no message has this place",
    Refusal.NO_ROOM: "the buffer is too small for the message or the part",
    Refusal.LOST: "memory ran out as the MME was started; nothing is provisioned any more",
    Refusal.NOT_SAVED: "a part of the MME has a state that a snapshot can't have",
    Refusal.OTHER_VERSION: "a snapshot of another version",
    Refusal.NO_SNAPSHOT: "the octets are no snapshot",
    Refusal.TOO_MUCH_WORK: "more next hops would be derived than the call allows",
    Refusal.S1AP_SYNTAX: "the octets spell no S1AP message",
    Refusal.S1AP_UNKNOWN_PROCEDURE: "an S1AP procedure that isn't known",
    Refusal.S1AP_MISSING_ELEMENT: "an S1AP element that must stand does not",
    Refusal.S1AP_REPEATED_ELEMENT: "an S1AP element comes twice",
    Refusal.S1AP_REFUSED_ELEMENT: "an unknown S1AP element is marked reject",
    Refusal.NAS_TOO_SHORT: "too few octets for a NAS message type",
    Refusal.NAS_MANDATORY: "the mandatory part of the NAS message isn't of its form",
    Refusal.NAS_UNKNOWN_TYPE: "no NAS message has this header or this type",
    Refusal.NAS_OPTIONAL_PART: "an optional NAS element ends past the octets",
    Refusal.NAS_NOT_PROTECTED: "the NAS message isn't in the protected form",
}


SAVED = 2**64 - 1  # the place after the last part of a snapshot
_STRANGERS, _SUBSCRIBERS = 2**33, 2**34  # where the places of strangers and of subscribers begin


def _place(refusal: Refusal, place: int) -> str:
    """What a place is that of, in words."""
    if refusal is Refusal.OTHER_VERSION:
        return "version %d: " % place
    if place == SAVED:
        return ""
    if place < _STRANGERS:
        return "what stands first: "
    return "stranger %d: " % (place - _STRANGERS) if place < _SUBSCRIBERS else "slot %d: " % (place - _SUBSCRIBERS)


class Refused(Exception):
    """A call was refused; what it was made on is as it was, but for the lines that `Mme.play_text` has played before."""

    refusal: Refusal
    line: int | None  # of lines, the one that was refused, from 1
    place: int | None  # of a snapshot, that of the part with the first fault; of another version, the version
    answers: bytes  # to the lines before, of `Mme.play_text`

    def __init__(self, refusal: int, line: int | None = None, place: int | None = None, answers: bytes = b"") -> None:
        self.refusal, self.line, self.place, self.answers = Refusal(refusal), line, place, answers
        where = "" if line is None else "line %d: " % line
        where += "" if place is None else _place(self.refusal, place)
        super().__init__("%s%s (%s)" % (where, self.refusal.words, self.refusal.name))


def check(answer: int) -> None:
    """Raises `Refused` where a call answered that it is."""
    if answer:
        raise Refused(answer)


def within(number: int, bits: int) -> int:
    """The number, which a C parameter of `bits` bits takes; one that it can't take is refused as the call refuses one out of
    range."""
    if not 0 <= number < 1 << bits:
        raise Refused(Refusal.BAD_NUMBER)
    return number
