"""What the model says of a run: of each event what it was and why it did not do more, and the messages that answer it."""
import dataclasses

from tools import s1ap
from tools.eps import macs, messages, nas, writing
from tools.eps.elements import BOTH_IDS, CAUSE, ENB_ID, MME_ID
from tools.eps.reasons import FORGERIES, REPLAYS, Mark, Why


@dataclasses.dataclass(slots=True)
class Telling:
    """What something was to its owner: `role` in words, with the reason where it did not do what it seems to.

    `owner` is written as in an answer's line; `subject` is what the role is said of, where that isn't the message that was heard;
    `lines` are those of the trace that the reason is about; `dropped` says that nothing was sent and nothing changed.
    """
    owner: str
    second: int
    subject: str | None
    role: str
    why: Why | None = None
    facts: dict = dataclasses.field(default_factory=dict)
    dropped: bool = False
    lines: tuple = ()

    def reason(self):
        return self.why.text(self.facts) if self.why else None

    def clause(self):
        return self.why.clause(self.facts) if self.why else None

    def mark(self):
        if self.why in REPLAYS:
            return Mark.REPLAYED
        return Mark.FORGED if self.why in FORGERIES else None


@dataclasses.dataclass(slots=True, eq=False)
class Said:
    """A NAS message that is expected: its type and its fields, and how it is protected, by header, vector's KASME and count."""
    type: int
    fields: dict
    is_esm: bool = False
    header: int = 0
    kasme: bytes | None = None
    count: int | None = None

    def under(self, header, context):
        """It is protected under the context's next downlink count."""
        self.header, self.kasme, self.count = header, context.kasme, context.spend()
        return self

    def __eq__(self, other):
        """Whether another message says the same, whatever protects it: one that is expected, or one that was read."""
        is_read = isinstance(other, nas.Plain) and not other.fault
        return (is_read or isinstance(other, Said)) and self.type == other.type and self.fields == other.fields

    def is_in(self, octets, is_right):
        """Whether a NAS message is as expected; `is_right` says whether a MAC is."""
        protected = nas.split(octets)
        plain = nas.decode_plain(protected.inner if protected else octets, nas.DOWN)
        if self != plain or self.is_esm != plain.is_esm or plain.spare:
            return False
        if protected is None:
            return self.header == 0
        return (protected.header == self.header and protected.sequence == self.count & 0xFF
                and is_right(self.kasme, self.count, nas.DOWN, protected.covered(), protected.mac))

    def differences(self, octets, is_right):
        """How a NAS message isn't as expected, in words."""
        protected = nas.split(octets)
        plain = nas.decode_plain(protected.inner if protected else octets, nas.DOWN)
        if (plain.type, plain.is_esm) != (self.type, self.is_esm):
            yield "the NAS message is %s" % plain.name
            return
        if plain.fault:
            yield "the NAS message can't be read: %s" % plain.why
        if plain.spare:
            yield "a spare bit is set"
        yield from unlike("", self.fields, plain.fields)
        yield from self.protection(protected, is_right)

    def protection(self, protected, is_right):
        """How its protection isn't as expected."""
        header = protected.header if protected else 0
        if header != self.header:
            yield "the security header is %d, not %d" % (header, self.header)
        elif protected:
            if protected.sequence != self.count & 0xFF:
                yield "the sequence number is %d, not that of count %d" % (protected.sequence, self.count)
            elif not is_right(self.kasme, self.count, nas.DOWN, protected.covered(), protected.mac):
                yield "the MAC is wrong for count %d" % self.count


def unlike(path, wanted, found):
    """How a value isn't the wanted one, in words."""
    if wanted == found:
        return
    if isinstance(wanted, Said) and isinstance(found, nas.Plain):
        if found.type != wanted.type or found.fault:
            yield "%s is %s" % (path, found.name)
        yield from unlike(path, wanted.fields, found.fields)
    elif isinstance(wanted, dict) and isinstance(found, dict):
        for name in {**wanted, **found}:
            if wanted.get(name) != found.get(name):
                yield from unlike("%s %s" % (path, name), wanted.get(name), found.get(name))
    else:
        yield "%s is %s, not %s" % (path.strip(), shown(found), shown(wanted))


def shown(value):
    """A value in words, for a difference."""
    return "missing" if value is None else value.hex() if isinstance(value, bytes) else str(value)


@dataclasses.dataclass(slots=True)
class Expected:
    """A message that the MME owes: whose it is, where it goes, what it is and holds, and what it is to the procedure.

    `repeat` says which repeat of how many it is.
    """
    owner: str
    station: int
    second: int
    kind: tuple
    values: dict
    said: Said | None = None
    role: str = ""
    repeat: tuple | None = None

    def name(self):
        return s1ap.NAMES[self.kind[0]][self.kind[1]]

    def text(self):
        """Its name, with the NAS message in it and causes."""
        parts = [self.name()]
        if CAUSE in self.values:
            [(group, name)] = self.values[CAUSE].items()
            parts.append("%s %s" % (group, name))
        if self.said:
            plain = nas.Plain(b"", self.said.is_esm, self.said.type, self.said.fields)
            cause = plain.cause()
            parts.append("with %s%s" % (plain.name, " %s" % cause if cause else ""))
        return " ".join(parts)

    def is_sent(self, owner, station, octets, is_right):
        """Whether a message that was sent is this one; `is_right` says whether a MAC is."""
        if owner != self.owner or station != self.station:
            return False
        return writing.is_written(self, octets, is_right) or self.is_read(octets, is_right)

    def is_read(self, octets, is_right):
        """The same of a message by what is read of it."""
        message = messages.decode(octets)
        if message.fault or message.kind != self.kind:
            return False
        if not message.is_in_order() or message.values_without_nas() != self.values:
            return False
        carried = message.nas()
        if carried is not None if self.said is None else carried is None or not self.said.is_in(carried, is_right):
            return False
        writing.learn(self, message)
        return True

    def differences(self, owner, station, octets, is_right=macs.is_right):
        """How a message that was sent isn't this one, in words; nothing where it is."""
        if (owner, station) != (self.owner, self.station):
            yield "it is for %s at station %d, not for %s at station %d" % (owner, station, self.owner, self.station)
        message = messages.decode(octets)
        if message.fault or message.kind != self.kind:
            yield "it is %s, not %s" % (message.name, self.name())
            return
        if not message.is_in_order():
            yield "its elements aren't written as in the profile"
        yield from self.elements(message, is_right)

    def elements(self, message, is_right):
        """How its elements aren't as expected; the NAS message by its content."""
        found, carried = message.values_without_nas(), message.nas()
        if found != self.values:
            yield from unlike("", *({messages.name_of(number): value for number, value in values.items()}
                                    for values in (self.values, found)))
        if (carried is None) != (self.said is None):
            yield "it carries %s NAS message" % ("no" if carried is None else "a")
        elif carried is not None:
            yield from self.said.differences(carried, is_right)


# --- Messages of the MME ---


DOWNLINK, RELEASE = (s1ap.DOWNLINK_NAS, 0), (s1ap.RELEASE, 0)


def with_ids(mme_id, enb_id):
    return {number: value for number, value in ((MME_ID, mme_id), (ENB_ID, enb_id)) if value is not None}


def cause(text):
    """The value of a cause by its group and name, as `nas detach`."""
    group, name = text.split(" ", 1)
    return {group: name}


NORMAL_RELEASE, DETACHED, FAILED, UNSPECIFIED = (cause("nas " + name) for name in (
    "normal-release", "detach", "authentication-failure", "unspecified"))
RADIO_UNSPECIFIED, UNKNOWN_ID, UNKNOWN_PAIR = (cause("radioNetwork " + name) for name in (
    "unspecified", "unknown-mme-ue-s1ap-id", "unknown-pair-ue-s1ap-id"))
NOT_COMPATIBLE = cause("protocol message-not-compatible-with-receiver-state")


class Now:
    """An event under way: its line, its second, the station and the message that was heard, its kind and its ids, and what comes of
    it."""
    message = kind = mme_id = enb_id = None

    def __init__(self, line, second, station=None):
        self.line, self.second, self.station, self.sent, self.tellings = line, second, station, [], []

    def hear(self, octets):
        """A message was heard."""
        self.message = message = messages.decode(octets)
        self.kind, (self.mme_id, self.enb_id) = message.kind, message.own_ids()

    def tell(self, owner, role, why=None, dropped=False, lines=(), subject=None, **facts):
        self.tellings.append(Telling(owner, self.second, subject, role, why, facts, dropped, tuple(lines)))

    def send(self, owner, station, kind, values, role, said=None, repeat=None):
        """A message is owed."""
        self.sent.append(Expected(owner, station, self.second, kind, values, said, role, repeat))

    def send_nas(self, owner, place, said, role, repeat=None):
        """DOWNLINK NAS TRANSPORT by a connection."""
        values = {MME_ID: place.mme_id, ENB_ID: place.enb_id}
        self.sent.append(Expected(owner, place.station, self.second, DOWNLINK, values, said, role, repeat))

    def send_release(self, owner, place, why, role):
        values = {BOTH_IDS: {"pair": {"MME UE S1AP ID": place.mme_id, "eNB UE S1AP ID": place.enb_id}}, CAUSE: why}
        self.sent.append(Expected(owner, place.station, self.second, RELEASE, values, None, role))

    def send_error(self, owner, why, with_received_ids=True):
        """ERROR INDICATION to the sender, with the ids that it sent, or without."""
        values = with_ids(self.mme_id, self.enb_id) if with_received_ids else {}
        self.send(owner, self.station, (s1ap.ERROR, 0), values | {CAUSE: why}, "says what is wrong")

    def send_switch_failure(self, owner, why):
        values = with_ids(self.mme_id, self.enb_id) | {CAUSE: why}
        self.send(owner, self.station, (s1ap.PATH_SWITCH, 2), values, "refuses the switch")


class BriefNow(Now):
    """The same, of which only that is told which has a reason."""

    def tell(self, owner, role, why=None, dropped=False, lines=(), **facts):
        if why:
            super().tell(owner, role, why, dropped, lines, **facts)


@dataclasses.dataclass(slots=True)
class Place:
    """An association: its MME UE S1AP ID, its station and the eNB UE S1AP ID there, and the line that made it."""
    mme_id: int
    station: int
    enb_id: int
    line: int | None = None

    def is_at(self, station, enb_id):
        return (self.station, self.enb_id) == (station, enb_id)

    def is_listed(self, ids):
        """Whether an item of a RESET's list means it."""
        mme_id, enb_id = ids.get("MME UE S1AP ID"), ids.get("eNB UE S1AP ID")
        return (mme_id, enb_id) != (None, None) and mme_id in (None, self.mme_id) and enb_id in (None, self.enb_id)
