"""Whose an event is: read from its octets and the provisioning, and of strangers from whose answers were printed.

Octets are read leniently. What the MME refuses may be read as some phone's here: then that phone's MME alone refuses it too, so
nothing is lost but a little of the comparison.
"""
import collections

from tests.hostile.standards import lte

INITIATING = 0
PATH_SWITCH, INITIAL_UE, RESET, SETUP = 3, 12, 14, 17
MME_ID, ENB_ID, NAS_PDU, SOURCE_ID, S_TMSI = 0, 8, 26, 88, 96
FIRST_STRANGER = 1 << 31
EMM, PLAIN, SERVICE_REQUEST = 7, 0x07, 0xC7
PROTECTED = 6  # octets before the message in a protected one
# S1 SETUP RESPONSE and FAILURE, and RESET ACKNOWLEDGE without a list: what a station is sent where all its strangers end.
ENDS_STRANGERS = ("2011", "4011", "200e0003000000")
ACKNOWLEDGES, RESET_LIST = "200e", 93  # RESET ACKNOWLEDGE, and its list of the associations that end

Message = collections.namedtuple("Message", "kind code elements")


class Unreadable(Exception):
    pass


def sized(octets, at):
    """What stands after its length (X.691 clause 11.9.3), and where it ends."""
    if at >= len(octets):
        raise Unreadable
    size = octets[at]
    at += 1
    if size >= 128:
        if size >= 192 or at >= len(octets):
            raise Unreadable
        size, at = (size & 63) << 8 | octets[at], at + 1
    if at + size > len(octets):
        raise Unreadable
    return octets[at:at + size], at + size


def read(octets):
    """A message of S1AP; an element that comes again counts as it came first."""
    value, _ = sized(octets, 3)
    elements, at = {}, 3
    for _ in range(int.from_bytes(value[1:3], "big")):
        number = int.from_bytes(value[at:at + 2], "big")
        content, at = sized(value, at + 3)
        elements.setdefault(number, content)
    return Message(octets[0] >> 5 & 3, octets[1], elements)


def number(content):
    """An id, after the number of its octets."""
    if not content:
        return None
    return int.from_bytes(content[1:(content[0] >> 6) + 2], "big")


def listed(content):
    """The associations of a list, as the MME writes them: of each its MME UE S1AP ID and its eNB UE S1AP ID, where they are."""
    found, at = [], 1
    for _ in range(content[0] + 1):
        item, at = sized(content, at + 3)
        by_id, by_number = item[0] & 0x40, item[0] & 0x20
        size, rest = (item[0] >> 2 & 3) + 1, item[1:]
        m = int.from_bytes(rest[:size], "big") if by_id else None
        if by_id and by_number:  # after the first number the size of the second has an octet of its own
            size, rest = (rest[size] >> 6) + 1, rest[size + 1:]
        found.append((m, int.from_bytes(rest[:size], "big") if by_number else None))
    return found


def matches(m, ids):
    """Whether the ids that are given of an association are those of a stranger."""
    by_id, by_number = ids
    return ids != (None, None) and by_id in (None, m) and by_number in (None, m & 0xFFFFFF)


def digits(identity):
    """The digits of an IMSI (TS 24.301 clause 9.9.3.12)."""
    text = identity.hex()
    return text[0] + "".join(text[at + 1] + text[at] for at in range(2, 16, 2)).rstrip("f")


class Names:
    """Whom octets name, by the provisioning alone."""

    def __init__(self, network, imsis):
        self.own = b"\xf6" + network.nas_plmn + network.group + network.code
        self.code = network.code[0]
        self.slots = {imsi: slot for slot, imsi in enumerate(imsis)}

    def provisioned(self, number_of_slot):
        slot = number_of_slot // lte.IDS_OF_A_SLOT
        return slot if slot < len(self.slots) else None

    def by_nas(self, nas, elements):
        """The slot that a first NAS message names, or nobody."""
        if nas[:1] and nas[0] & 15 == EMM and nas[0] >> 4 in (1, 2):
            nas = nas[PROTECTED:]
        if nas[:1] == bytes([SERVICE_REQUEST]) and len(nas) == 4:
            return self.by_s_tmsi(elements.get(S_TMSI))
        if nas[:1] != bytes([PLAIN]) or len(nas) < 4 or nas[1] not in (0x41, 0x45, 0x48):
            return None
        identity = nas[4:4 + nas[3]]
        if len(identity) == 8 and identity[0] & 7 == 1 and nas[1] != 0x48:
            return self.slots.get(digits(identity))
        if len(identity) == 11 and identity.startswith(self.own):
            return self.provisioned(int.from_bytes(identity[7:], "big"))
        return None

    def by_s_tmsi(self, content):
        if content is None or len(content) < 6 or (content[0] << 8 | content[1]) >> 6 & 255 != self.code:
            return None
        return self.provisioned(int.from_bytes(content[2:6], "big"))

    def first_message(self, message):
        try:
            return self.by_nas(sized(message.elements.get(NAS_PDU, b""), 0)[0], message.elements)
        except Unreadable:
            return None


def owners(answers):
    """The owners of what was printed for an event."""
    return [line[4:line.index(" ", 4)] for line in answers if line.startswith("out ")]


def stranger(station, b):
    return FIRST_STRANGER + (station << 24) + b


class Projection:
    """Each slot's own events of a list, by their places; a set of slots, or `EVERYONE`, for each event that is taken."""
    EVERYONE = None

    def __init__(self, names):
        self.names, self.count = names, 0
        self.held = {}  # slots, by the strangers' ids that they hold
        self.began = {}  # where the stranger that waits or is held began
        self.claims = []  # pairs of a slot and the place of the first message that it took over
        self.everyone = []  # places of ticks and of what stations are and become
        self.places = collections.defaultdict(list)
        self.of_strangers = collections.defaultdict(list)
        self.heard_at = self.heard_of = None  # the station and the stranger's id of the event that was taken last

    def take(self, line, answers):
        """Whose the next event is, which was answered so."""
        word, _, rest = line.partition(" ")
        place, self.count = self.count, self.count + 1
        self.heard_at = self.heard_of = None
        if word in ("data", "cancel"):
            slots = {self.names.slots.get(rest)}
        elif word == "in":
            station, _, octets = rest.partition(" ")
            self.heard_at = "e" + station
            slots = self.heard(place, int(station), b"" if octets == "-" else bytes.fromhex(octets), answers)
        else:
            slots = self.EVERYONE
            if word == "lost":
                self.closes(int(rest))
        if slots is self.EVERYONE:
            self.everyone.append(place)
            return slots
        slots.discard(None)
        for slot in slots:
            self.places[slot].append(place)
        return slots

    def heard(self, place, station, octets, answers):
        try:
            message = read(octets)
        except (Unreadable, IndexError):
            return set()
        if message.kind == INITIATING and message.code in (SETUP, RESET):
            for text in [line.split(" ")[3] for line in answers if line.startswith("out e")]:
                if text.startswith(ENDS_STRANGERS):
                    self.closes(station)
                elif text.startswith(ACKNOWLEDGES):
                    ended = listed(read(bytes.fromhex(text)).elements[RESET_LIST])
                    self.closes(station, lambda m, ended=ended: any(matches(m, ids) for ids in ended))
            return self.EVERYONE
        if message.kind == INITIATING and message.code == INITIAL_UE:
            return self.first(place, station, message, answers)
        switches = message.kind == INITIATING and message.code == PATH_SWITCH
        m = number(message.elements.get(SOURCE_ID if switches else MME_ID))
        if m is None:
            return set()
        return {self.names.provisioned(m)} if m < FIRST_STRANGER else self.by_stranger(place, m, answers)

    def first(self, place, station, message, answers):
        """An INITIAL UE MESSAGE: the slot that it names, and who holds the stranger's id there if it is foreign."""
        slots = {self.names.first_message(message)}
        b = number(message.elements.get(ENB_ID))
        if b is not None:
            m = self.heard_of = stranger(station, b)
            self.of_strangers[m].append(place)
            slots.add(self.held.get(m))
            if any(owner[0] == "x" for owner in owners(answers)):
                self.held.pop(m, None)
                self.began[m] = place
        return slots

    def by_stranger(self, place, m, answers):
        """A message with a stranger's id: who holds it, or who takes it over by this message."""
        self.heard_of = m
        self.of_strangers[m].append(place)
        if m in self.held:
            return {self.held[m]}
        claiming = [int(owner[1:]) for owner in owners(answers) if owner[0] == "s"]
        if claiming and m in self.began:
            self.held[m] = claiming[0]
            self.claims.append((claiming[0], self.began[m]))
            return {claiming[0]}
        return set()

    def closes(self, station, means=lambda m: True):
        """The strangers of a station are closed, all or those that are meant."""
        for kept in (self.held, self.began):
            for m in [m for m in kept if m - FIRST_STRANGER >> 24 == station and means(m)]:
                del kept[m]

    def outsider(self, line, slots, answers):
        """An owner that something was sent for at the event that was taken last, and that it isn't of; or nothing."""
        ticks = line.startswith("tick ")
        for owner in owners(answers):
            if owner[0] == "s":
                wrong = not ticks if slots is self.EVERYONE else int(owner[1:]) not in slots
            elif owner[0] == "x":
                station, b = map(int, owner[1:].split("."))
                m = stranger(station, b)
                wrong = m not in self.began if ticks else m != self.heard_of
            else:
                wrong = owner != self.heard_at
            if wrong:
                return owner
        return None

    def own_places(self, slot):
        """The places of a slot's events, with the first messages of the strangers that it took over."""
        return sorted({*self.everyone, *self.places[slot], *(began for by, began in self.claims if by == slot)})

    def stranger_places(self, m):
        return sorted({*self.everyone, *self.of_strangers[m]})
