"""Random events of a few phones and stations, with lies mixed in; what the MME answers decides what the phones send next.

`lies.Liar` has the lies: `damaged`, `twisted` and `lie`.
"""
import collections

from tests.hostile import projection, standards
from tests.hostile.handsets import ELSEWHERE_GUTI, FOREIGN_GUTI, UNSPECIFIED, Handset, Said, Speech
from tests.hostile.standards import IGNORE, INITIATING, REJECT, lte, phones
from tools.eps import timers

SUBSCRIBERS, PLENTY, FEW = 4, 64, 12  # subscribers; vectors of the first ones and of the last
UNKNOWN_IMSI = "001010000000777"
NETWORK = phones.Network()
STATIONS = [phones.Station(0), phones.Station(1, 2, 1, 0x201), phones.Station(127, 3, 2, 0x301)]
RADIO_IDS = (1, 2, 3, 4, 2**24 - 1)
LATER_CAUSE = 2, lte.bits((0, 1), (0, 3), (1, 1), (0, 7))


def vectors_of(slot):
    return [phones.Vector.made("hostile %d.%d" % (slot, place)) for place in range(PLENTY if slot + 1 < SUBSCRIBERS else FEW)]


VECTORS = [vectors_of(slot) for slot in range(SUBSCRIBERS)]
# The last has an IMSI of 14 digits.
IMSIS = ["00101%010d" % (slot + 1) for slot in range(SUBSCRIBERS - 1)] + ["00101000000044"]


def provisioning():
    lines = [NETWORK.words]
    lines += ["sub %s %08x 0a000064 %08x" % (imsi, 0x0A000001 + slot, slot + 1) for slot, imsi in enumerate(IMSIS)]
    return lines + [vector.words(imsi) for imsi, own in zip(IMSIS, VECTORS) for vector in own]


def reset(value):
    """RESET with this ResetType."""
    return standards.message(INITIATING, 14, REJECT, (IGNORE, standards.cause(UNSPECIFIED)), (REJECT, (92, value)))


WHOLE, LATER_WHOLE = lte.WHOLE_INTERFACE[1], lte.bits((0, 2), (1, 1), (5, 7))
MOST_LISTED = 256  # associations of a RESET


class Laboratory:
    """The phones, the stations, and what was sent so far."""

    def __init__(self, rng):
        self.rng, self.speech = rng, Speech(NETWORK)
        self.phones = [Handset(NETWORK, imsi, own) for imsi, own in zip(IMSIS, VECTORS)]
        self.phones.append(Handset(NETWORK, UNKNOWN_IMSI, ()))
        self.at = {}  # the phone that was last at a station with a radio id
        self.sent = []  # stations and octets, the last some hundred
        self.todo = []  # what stations answer
        self.ready = []  # the stations that were set up
        self.told = collections.Counter()  # how many lies of each kind
        self.speaking = self.phones[0]  # the phone of the message that is made

    # --- What is chosen ---

    def morning(self):
        """The stations connect and set up, the last one not always."""
        stations = STATIONS[:2] + STATIONS[2:] * (self.rng.random() < 0.8)
        return [line for station in stations for line in ("up %d" % station.number, self.set_up(station))]

    def batch(self, most):
        """The next events: a few that cross on their way."""
        events = []
        while not events:
            for _ in range(self.rng.randint(1, 6)):
                events += self.chosen()
        return events[:most]

    def chosen(self):
        choice = self.rng.random()
        for share, of in ((0.66, self.answer), (0.80, self.act), (0.87, self.lie), (0.92, self.passes), (0.97, self.notice)):
            if choice < share:
                return of()
        return self.station_event()

    def say(self, said):
        """A message on its way: mostly as it is, else with a lie in it."""
        if said is None:
            return []
        if self.rng.random() < 0.07:
            said = self.twisted(said)
            self.told["messages with a lie in a part"] += 1
        octets = self.speech.octets(said)
        station = said.station
        if said.kind == "initial":
            self.at[station.number, said.b] = self.speaking
        choice = self.rng.random()
        if choice < 0.04:
            octets = self.damaged(octets)
            self.told["messages damaged"] += 1
        elif choice < 0.05:
            station = self.rng.choice(STATIONS)
        copies = 2 if self.rng.random() < 0.03 else 1
        self.told["messages sent twice"] += copies - 1
        if len(self.sent) > 200:
            del self.sent[:100]
        self.sent.append((station, octets))
        return [self.heard(station, octets)] * copies

    @staticmethod
    def heard(station, octets):
        return "in %d %s" % (station.number, octets.hex() or "-")

    def answer(self):
        """What a phone or a station owes; now and then it is never sent, or out of turn."""
        waiting = [phone for phone in self.phones if phone.owed]
        if self.todo and (not waiting or self.rng.random() < 0.4):
            return self.say(self.todo.pop(self.rng.choice((0, -1))))
        if not waiting:
            return self.act()
        self.speaking = self.rng.choice(waiting)
        made = self.speaking.owed.pop(self.rng.choice((0, 0, 0, -1)))
        return [] if self.rng.random() < 0.04 else self.say(made())

    def act(self):
        """Something that a phone does of its own accord."""
        quiet = [phone for phone in self.phones[:SUBSCRIBERS] if not (phone.registered or phone.owed or phone.is_refused)]
        self.speaking = phone = self.rng.choice(quiet if quiet and self.rng.random() < 0.5 else self.phones)
        acts = [self.attach] * 6 + [self.attach_otherwise] * 2 + [self.foreign] * 2
        if phone.cmac and (phone.registered or self.rng.random() < 0.2):
            later = [self.service, self.update, self.service, self.update, self.detach, self.session]
            if phone.m is not None:
                later += [self.idle, self.idle, self.idle, self.switch, self.switch, self.session]
            acts = later if self.rng.random() < 0.9 else acts
        return self.say(self.rng.choice(acts)(phone))

    def somewhere(self):
        """A station, mostly one that is ready, and a radio id."""
        return self.rng.choice(self.ready if self.ready and self.rng.random() < 0.95 else STATIONS), self.rng.choice(RADIO_IDS)

    # --- Acts ---

    def attach(self, phone):
        return phone.first(*self.somewhere(), phone.attach_nas(information=self.rng.random() < 0.3))

    def attach_otherwise(self, phone):
        """An attach with another identity, type or capability, protected or not."""
        rng = self.rng
        identity = rng.choice((None, None, phone.guti(), ELSEWHERE_GUTI))
        capability = rng.choice((None, None, b"\xe0\x40", b"\xf0\x70\xc0\xe0", b"\xe0\x60" + b"\xff" * 11))
        nas = phone.attach_nas(identity, rng.choice((1, 2, 6)), rng.choice((1, 1, 2, 3)), rng.random() < 0.3, capability)
        if rng.random() < 0.2:
            nas = nas[:-4] + rng.choice((b"\0\0", b"\0\2\2\1", b"\0\4\2\1\xd3\5", b"\0\4\2\1\xd0\x11\x52"))
        if phone.cmac and rng.random() < 0.4:
            nas = phone.under(nas)
        return phone.first(*self.somewhere(), nas)

    def foreign(self, phone):
        return phone.first(*self.somewhere(), phone.attach_nas(FOREIGN_GUTI))

    def service(self, phone):
        return phone.first(*self.somewhere(), phone.service_nas(), phone.tmsi)

    def update(self, phone):
        """An area update, on the connection where there is one."""
        nas = phone.under(phone.tau_nas(self.rng.choice((0, 0, 1, 2, 8))), self.rng.choice((1, 2)))
        if phone.m is not None and self.rng.random() < 0.6:
            return phone.uplink(nas)
        return phone.first(*self.somewhere(), nas)

    def detach(self, phone):
        nas = phone.detach_nas(self.rng.choice((1, 9)))
        if self.rng.random() < 0.9:
            nas = phone.under(nas)
        if phone.m is not None and self.rng.random() < 0.6:
            return phone.uplink(nas)
        return phone.first(*self.somewhere(), nas)

    def session(self, phone):
        """A message that is refused or told back, or dropped."""
        if phone.m is None:
            return None
        nas = bytes.fromhex(self.rng.choice((
            "0202d011", "0203d205", "0201da", "0207da", "5200c2", "5200c31f", "5200e861", "0202d9", "0202d4", "0202d0", "0202",
            "07", "", "0763", "0756", "076061", "074e09", "075f17", "0846", "074a", "0746", "0742", "075c15", "075c14", "0753")))
        return phone.uplink(phone.under(nas, self.rng.choice((1, 1, 2, 3, 4))) if phone.cmac and self.rng.random() < 0.8 else nas)

    def idle(self, phone):
        return Said("asks_release", phone.station, phone.m, phone.b, more=lte.USER_INACTIVITY)

    def switch(self, phone):
        m, (station, b) = phone.m, self.somewhere()
        phone.station, phone.b = station, b
        self.at[station.number, b] = phone
        return Said("switch", station, m, b, more=phone.capability)

    # --- Time, notices, stations ---

    def passes(self):
        choice = self.rng.random()
        ticks = self.rng.randint(1, 3) if choice < 0.75 else self.rng.randint(4, 40) if choice < 0.985 else timers.REACHABLE.seconds
        return ["tick %d" % ticks]

    def notice(self):
        phone = self.rng.choice([phone for phone in self.phones if phone.registered] or self.phones)
        return ["cancel " + phone.imsi if self.rng.random() < 0.2 else "data " + phone.imsi]

    def set_up(self, station, network=NETWORK):
        return self.heard(station, lte.s1_setup_request(network, station))

    def station_event(self):
        """A station is lost, connects, sets up or resets; often in the midst of procedures."""
        station, choice = self.rng.choice(STATIONS), self.rng.random()
        if choice < 0.3:
            self.ready = [each for each in self.ready if each is not station]
            return ["lost %d" % station.number] + ["up %d" % station.number, self.set_up(station)] * (self.rng.random() < 0.8)
        if choice < 0.6:
            return ["up %d" % station.number, self.set_up(station)]
        if choice < 0.7:
            return [self.set_up(station)]
        if choice < 0.75:
            return [self.set_up(station, phones.Network("208", "93"))]
        if choice < 0.85:
            return [self.heard(station, reset(self.rng.choice((WHOLE, WHOLE, LATER_WHOLE))))]
        return self.resets_part()

    def resets_part(self):
        """A station, mostly that of a phone's connection, resets a list of associations, of which some are there."""
        rng = self.rng
        station = rng.choice([phone.station for phone in self.phones if phone.m is not None and phone.station] or STATIONS)
        station = station if rng.random() < 0.9 else rng.choice(STATIONS)
        count = MOST_LISTED if rng.random() < 0.02 else rng.choice((1, 1, 1, 2, 3, 8))
        octets = reset(lte.part_of_interface(*[self.some_ids(station) for _ in range(count)])[1])
        self.told["resets of a part"] += 1
        return [self.heard(station, octets if rng.random() < 0.9 else self.damaged(octets))]

    def some_ids(self, station):
        """The ids that are given of an association: a phone's or a stranger's, both, one or none; or another pair."""
        rng, b = self.rng, self.rng.choice(RADIO_IDS)
        phone = rng.choice([phone for phone in self.phones if phone.station is station] or self.phones)
        of_slot = lte.id_of_slot(rng.randrange(SUBSCRIBERS), rng.randrange(8))
        m = rng.choice((phone.m, phone.m, projection.stranger(station.number, b), of_slot))
        return rng.choice(((m, None), (m, None), (m, phone.b), (m, b), (None, phone.b), (None, b), (None, None)))

    # --- What the MME sends ---

    def hears(self, answers):
        """Each message is delivered."""
        for line in answers:
            if not line.startswith("out "):
                continue
            _, owner, number, octets = line.split(" ")
            station = next(each for each in STATIONS if each.number == int(number))
            if owner[0] == "e":
                self.ready += [station] * (octets.startswith("2011") and station not in self.ready)
                continue
            message = projection.read(bytes.fromhex(octets))
            m, b = (projection.number(message.elements.get(at)) for at in (0, 8))
            if owner[0] == "s":
                self.deliver(self.phones[int(owner[1:])], station, message, m, b)
            elif (station.number, b) in self.at:
                self.deliver(self.at[station.number, b], station, message, m, b)

    def deliver(self, phone, station, message, m, b):
        if message.code == 10 and phone.cmac:
            phone.owed.append(lambda: self.service(phone) if phone.cmac else None)
        if message.kind != INITIATING:
            return
        if message.code == 23:
            self.releases(phone, station, message)
        elif message.code in (9, 11) and (phone.m in (None, m) or phone.b == b):
            phone.station, phone.m, phone.b = station, m, b
            self.at[station.number, b] = phone
            self.carries(phone, station, message, m, b)

    def carries(self, phone, station, message, m, b):
        """NAS for a phone, alone or with the set-up of its context."""
        if message.code == 11:
            phone.hear_nas(projection.sized(message.elements[26], 0)[0])
            return
        self.todo.append(Said("is_set_up" if self.rng.random() < 0.95 else "is_not_set_up", station, m, b))
        bearer = message.elements[24]
        at = bearer.find(b"\x07\x42\x01\x49")
        if at >= 0:
            phone.hear_nas(bearer[at - 6:])

    def releases(self, phone, station, message):
        """UE CONTEXT RELEASE COMMAND, with both ids in one element."""
        pair = message.elements[99]
        size = (pair[0] >> 2 & 3) + 1
        m = int.from_bytes(pair[1:1 + size], "big")
        b = int.from_bytes(pair[2 + size:], "big")
        if phone.m == m:
            phone.m = None
            if not phone.registered:
                phone.cmac = None
        if self.rng.random() < 0.2:
            self.todo.append(Said("released", station, m, b))
