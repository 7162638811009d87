"""Snapshots of an MME, written by their formats (crates/snapshot_formats/specs/Formats.antt) from what the phones of
reference/phones.py keep, and never by an MME."""
from reference import lte

DEREGISTERED, AUTHENTICATING, SECURITY_MODE, ESM_INFORMATION, ACCEPTING, UPDATING, REGISTERED, DETACHING = range(8)
T3413, T3422, T3450, T3460, T3489 = range(5)
INACTIVE, PENDING, ACTIVE = range(3)
LONG, COUNT, TICKS = (0, 1 << 62), (0, (1 << 32) - 1), (1, 3480)
CIPHERED = 2  # a security header


def begin(*optional):
    """A sequence with these optional parts, of which those that are None are absent."""
    out = lte.Bits()
    for part in optional:
        out.put(part is not None, 1)
    return out


def joined(out, other):
    """The bits of another part, which begin at an octet, after the next octet begins."""
    return out.align().put(other.value, other.count)


def head(network, clock, began=0):
    """The network, where the clock began, and where it is."""
    out = lte.Bits().octets(network.s1ap_plmn).put(int.from_bytes(network.group, "big"), 16).put(network.code[0], 8)
    out.whole(len(network.apn), 1, 63).octets(network.apn)
    for rate in network.rates:
        out.whole(rate, 1, 10**10)
    return out.whole(began, *LONG).whole(clock, *LONG)


def station(network, tac):
    """A station: down, None; up, 0; set up, with its tracking area."""
    out = lte.Bits().put(0, 1).whole(0 if tac is None else 1 if tac == 0 else 2, 0, 2)
    if tac:
        out.whole(1, 1, 256).put(0, 2).put(tac, 16).whole(1, 1, 6).octets(network.s1ap_plmn)
    return out


def area(out, network, tac):
    return out.put(0, 2).octets(network.s1ap_plmn).put(tac, 16)


def waiting(network, number, nas, tac, left, repeats):
    """A stranger by its id who is asked for its identity."""
    out = lte.Bits().whole(number, 0, (1 << 32) - 1).put(0, 2).open(nas)
    return area(out, network, tac).whole(left, *TICKS).whole(repeats, 0, 255)


def held(number, slot):
    """A stranger by its id whom the subscriber of a slot holds."""
    return lte.Bits().whole(number, 0, (1 << 32) - 1).put(0, 1).put(1, 1).whole(slot, 0, (1 << 15) - 1)


class Kept:
    """What is kept of a phone, which may be changed before it is written."""

    def __init__(self, phone, phase):
        self.phone, self.phase, self.spent, self.tac = phone, phase, phone.place, getattr(phone, "accepted_tac", 1)
        self.connection = None if phone.station is None else (phone.m, phone.station.number, phone.b)
        self.context = None if phone.key is None else (
            phone.place - 1, phone.down_count, phone.up_count - 1 if phone.up_count else None, phone.vector.kasme)
        self.trail = 0, 0
        self.combined = self.initial = False
        self.bearer, self.request, self.repeat, self.procedure, self.reachable = INACTIVE, None, None, None, None
        self.tmsi = phone.tmsi if phone.tmsis else None
        if phase == AUTHENTICATING:
            self.spent, self.context = self.spent - 1, None

    def link(self, out):
        """The phase, the connection and the context."""
        inside = begin(self.connection, self.context)
        out.put(inside.value, inside.count).whole(self.phase, 0, 7)
        if self.connection:
            number, at, b = self.connection
            out.whole(number, 0, (1 << 32) - 1).whole(at, 0, 127).whole(b, 0, (1 << 24) - 1)
        if self.context:
            place, down, last, kasme = self.context
            out.put(last is not None, 1).whole(place, *LONG).whole(down, *COUNT)
            if last is not None:
                out.whole(last, *COUNT)
            out.octets(kasme).put(0, 1)
            self.radio(out)

    def radio(self, out):
        """What the radio keys come of; zeros until the phone has proved itself."""
        if self.trail is None:
            out.put(0, 1).put(1, 1).octets(bytes(32)).octets(bytes(32)).whole(0, 0, 7)
        else:
            out.put(1, 1).whole(self.trail[0], *COUNT).whole(self.trail[1], *LONG)

    def waits(self, out):
        """What is sent again, and the countdowns."""
        for part in (self.repeat, self.procedure, self.reachable):
            out.put(part is not None, 1)
        if isinstance(self.repeat, bytes):
            is_plain = self.phase == AUTHENTICATING
            out.put(0, 2).put(not is_plain, 1)
            (out if is_plain else out.whole(CIPHERED, 1, 4)).open(self.repeat)
        elif self.repeat is not None:
            out.put(1, 2).whole(len(self.repeat), 0, 128)
            for at in self.repeat:
                out.whole(at, 0, 127)
        if self.procedure:
            timer, left, repeats = self.procedure
            out.whole(timer, 0, 4).whole(left, *TICKS).whole(repeats, 0, 255)
        if self.reachable is not None:
            out.whole(self.reachable, *TICKS)

    def written(self):
        """Its part."""
        phone, out = self.phone, lte.Bits()
        out.octets(lte.imsi_identity(phone.imsi)).octets(phone.address).octets(phone.gateway).octets(phone.teid)
        out.whole(self.spent, *LONG).whole(len(phone.vectors) - self.spent, 0, 65535)
        for vector in phone.vectors[self.spent:]:
            out.octets(vector.rand).octets(vector.autn).whole(len(vector.xres), 4, 16).octets(vector.xres).octets(vector.kasme)
        self.link(out)
        out.put(self.tmsi is not None, 1).whole(phone.associations, 0, 65535).whole(phone.tmsis, 0, 65535)
        if self.tmsi is not None:
            out.whole(self.tmsi, 0, (1 << 32) - 1)
        area(out, phone.network, self.tac)
        asked = phone.capability if phone.associations else bytes(2)
        out.whole(len(asked), 2, 13).octets(asked).put(self.combined, 1).put(self.initial, 1)
        out.put(self.request is not None, 1).whole(self.bearer, 0, 2)
        if self.request:
            transaction, dual, information = self.request
            out.whole(transaction, 0, 255).put(dual, 1).put(information, 1)
        self.waits(out)
        return out


def snapshot(network, clock, areas, kept, strangers=(), began=0, version=1):
    """The octets of an MME: the tracking areas of its stations by number, its phones, and its strangers in the order of their
    ids."""
    out = joined(lte.Bits().whole(version, 0, 255), head(network, clock, began))
    for number in range(128):
        joined(out, station(network, areas.get(number)))
    joined(out, lte.Bits().whole(len(strangers), 0, (1 << 32) - 1))
    for stranger in strangers:
        joined(out, stranger)
    joined(out, lte.Bits().whole(len(kept), 0, 1 << 15))
    for each in kept:
        joined(out, each.written())
    return out.done()
