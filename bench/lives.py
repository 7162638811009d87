"""Phones that live through the ends of a front: each attaches, sleeps, comes back, updates its area, changes stations and detaches,
by what it hears alone, and says of each message what a phone with its keys finds (watch.py). What it sent is kept, so that
somebody else can send it again.
"""
import collections
import itertools
import random
import select
import time

from bench import wire
from reference import lte, phones
from tools import s1ap

OUT, UNSURE, REGISTERED = "out", "unsure", "registered"  # what a phone knows of itself
CHALLENGE, COMMAND, ACCEPT, SERVICE, UPDATE, SWITCH, DETACH, RELEASE = (
    "challenge", "command", "accept", "service", "update", "switch", "detach", "release")  # what it waits for
OF_ATTACH = (CHALLENGE, COMMAND, ACCEPT)
AUTHENTICATION_REQUEST, SECURITY_MODE_COMMAND, ATTACH_ACCEPT, TAU_ACCEPT = 0x52, 0x5D, 0x42, 0x49
ATTACH_REJECT, AUTHENTICATION_REJECT, SERVICE_REJECT, TAU_REJECT = 0x44, 0x54, 0x4E, 0x4B
GUTI_OF_UPDATE = 5  # where it begins in TRACKING AREA UPDATE ACCEPT, after a timer
REJECTS = (ATTACH_REJECT, AUTHENTICATION_REJECT, SERVICE_REJECT, TAU_REJECT)
SECURITY_KEY, SECURITY_CONTEXT, PAGING_IDENTITY = 73, 40, 43  # TS 36.413 clause 9.3.6
FIRST_FENCE = 1 << 23  # of the eNB UE S1AP IDs that no phone has
FIRST_VECTORS = 3  # that a phone may use at once
SYNCH_FAILURE = b"\x07\x5c\x15\x30\x0e" + bytes(14)  # AUTHENTICATION FAILURE with its parameter AUTS (TS 24.301 clause 8.2.5)
OUT_OF_SYNC = 0.05  # the share of challenges that are answered by it
SLOW = 0.03  # the share of messages that a phone answers only once they are repeated
LONGEST_WAIT = 60  # ticks after which a phone gives up what it waits for
QUIET_SECONDS = 60  # that an answer may be owed
STAGE_SECONDS = 2  # without a message where the run's end has begun, as on a full disk

# What a phone sent: what it is, its station and octets there, the NAS message, its COUNT and context where it is protected, and the
# M-TMSI that went with it.
Record = collections.namedtuple("Record", "kind station octets nas count context tmsi")


def tmsi_of(nas, at):
    """The M-TMSI, which stands last in the GUTI whose element begins there (TS 24.301 clause 9.9.3.12)."""
    return int.from_bytes(nas[at + 2 + nas[at + 1] - 4:at + 2 + nas[at + 1]], "big")


class Lingers(Exception):
    """The front isn't over, long after it should be."""


class Radio(phones.Trace):
    """What is between phones and the front: stations with their connections. `due` is called once `due_at` messages have passed."""

    def __init__(self, watch, seed, stations):
        super().__init__()
        self.watch, self.chance, self.run = watch, random.Random(seed), 0
        self.stations = [phones.Station(n, identity=n + 1, tac=n + 1, cell=0x101 + 0x100 * n) for n in range(stations)]
        self.phones, self.wires, self.by_id, self.fences, self.attack = [], {}, {}, set(), None
        self.ids, self.fence_ids = itertools.count(1), itertools.count(FIRST_FENCE)
        self.passed, self.due_at, self.due, self.moved_at = 0, None, lambda: None, time.monotonic()
        self.is_ending = False  # whether the run's end has begun
        self.over_by = None  # when the run is to be over, once the last thing was done that ends it
        self.answers_pages = False
        self.part = lambda: 0.0  # how much of the whole is over, of 1

    # Messages.

    def hear(self, station, octets):
        """A station sends a message."""
        self.watch.counted["messages to the front"] += 1
        self.wires[station.number].put(octets)
        self.passes()

    def passes(self):
        self.passed, self.moved_at = self.passed + 1, time.monotonic()
        if self.passed == self.due_at:
            self.due()  # where the run is to end, or to go on with its end

    def turn(self, seconds=0.0):
        """Hears what came, for so long at the most."""
        wires = list(self.wires.values())
        select.select(wires, [one for one in wires if one.unsent], [], seconds)
        for number, one in list(self.wires.items()):
            one.flush()
            for octets in one.take():
                self.hears(self.stations[number], octets)
        if any(one.has_ended for one in wires):
            raise wire.Gone
        if self.over_by is not None and time.monotonic() > self.over_by:
            raise Lingers
        if self.is_ending and time.monotonic() - self.moved_at > STAGE_SECONDS:
            self.ends()

    def ends(self):
        """Goes on with the end of the run, whatever has passed."""
        self.due_at, self.moved_at = self.passed, time.monotonic()
        self.due()

    def until(self, holds):
        """Waits for what is owed at once."""
        end = time.monotonic() + QUIET_SECONDS
        while not holds():
            self.turn(0.05)
            if time.monotonic() > end and not self.is_ending:
                self.watch.violates("an answer is owed for %d s" % QUIET_SECONDS)
                self.ends()

    def may_attach(self, phone):
        """Whether a phone may use a vector more: all of them are to last for the whole time."""
        return len(phone.rands) < min(len(phone.vectors), FIRST_VECTORS + self.part() * len(phone.vectors))

    def hears(self, station, octets):
        """A station is sent a message."""
        self.watch.counted["messages from the front"] += 1
        self.passes()
        message = s1ap.read(octets)
        if message.code == s1ap.SETUP:
            self.wires[station.number].is_set_up = message.outcome == s1ap.SUCCESSFUL
        elif message.code == s1ap.RESET:
            self.fences.difference_update(number for _, number in s1ap.listed(message) or ())
        elif message.code == s1ap.PAGING:
            self.pages(station, int.from_bytes(message.elements[PAGING_IDENTITY][-4:], "big"))
        else:
            self.hears_of_phone(station, message, octets)

    def hears_of_phone(self, station, message, octets):
        ids = s1ap.ids(message)
        receiver = self.by_id.get(ids[1])
        if self.attack is not None:
            self.attack.judges(message, octets, ids)
        if receiver is not None:
            receiver.hears(station, message, octets, ids)
        elif message.code != s1ap.ERROR:
            self.watch.violates("a message for eNB UE S1AP ID %s, which no phone has" % ids[1], octets)

    def pages(self, station, tmsi):
        """A phone that is idle and named comes for service."""
        self.watch.counted["pages"] += 1
        for phone in self.phones:
            if self.answers_pages and phone.tmsi == tmsi and phone.is_asleep:
                phone.asks_to_be_served(station)

    # Connections.

    def connect(self, port, link):
        """All stations connect and set up."""
        self.moved_at = time.monotonic()
        for station in self.stations:
            try:
                self.wires[station.number] = one = link(port)
            except OSError:
                raise wire.Gone from None
            one.is_set_up = False
            self.hear(station, lte.s1_setup_request(self.network, station))
            self.until(lambda: one.is_set_up)

    def fence(self):
        """Waits until all that stations sent before is answered: each resets an association that nobody has, and is told so."""
        for station in self.stations:
            number = next(self.fence_ids)
            self.fences.add(number)
            self.hear(station, lte.reset(lte.part_of_interface((None, number))))
        self.until(lambda: not self.fences)

    def drain(self):
        """Hears what the front sent before it ended, and ends the connections."""
        end = time.monotonic() + wire.END_SECONDS
        while time.monotonic() < end and not all(one.has_ended for one in self.wires.values()):
            for number, one in self.wires.items():
                for octets in one.take():
                    self.hears(self.stations[number], octets)
            time.sleep(0.001)
        for one in self.wires.values():
            one.close()
        self.wires.clear()
        self.fences.clear()
        self.by_id.clear()
        self.attack = None
        for phone in self.phones:
            phone.is_gone()

    def new_id(self, receiver):
        """An eNB UE S1AP ID that nobody has."""
        number = next(self.ids)
        self.by_id[number] = receiver
        return number


class Phone(phones.Phone):
    """A phone that does the next thing by what it heard."""

    m = tmsi = None  # as they came
    declined = None  # the RAND of the challenge in place of which it asked for another

    def __init__(self, radio, slot, vectors):
        super().__init__(radio, slot, vectors)
        self.radio, self.watch = radio, radio.watch
        self.contexts = []
        self.is_given(vectors)
        self.waits = self.held = self.asked = self.kenb = None
        self.since, self.is_from_idle = 0.0, False
        self.records, self.recorded = [], {}  # what it sent, by and by; and its whole attaches, by RAND

    def is_given(self, vectors):
        """It has these vectors, and isn't registered."""
        self.vectors, self.by_rand = vectors, {vector.rand: vector for vector in vectors}
        self.standing, self.rands = OUT, set()

    # What it says.

    def keeps(self, kind, octets, nas, count=None, tmsi=None):
        """Sends a message, of which it keeps all that somebody else could have heard."""
        context = None if count is None else self.contexts[0]
        if context is not None:
            context.sent.add(count)
            self.asked = count
        self.records.append(Record(kind, self.station, octets, nas, count, context, tmsi))
        self.watch.counted[kind] += 1
        self.radio.hear(self.station, octets)

    def says(self, kind, message, header=2):
        """A protected message on its connection."""
        count = self.up_count
        nas = self.protected_up(message, header)
        self.keeps(kind, lte.uplink_nas(self.network, self.station, self.m, self.b, nas), nas, count)

    def says_first(self, kind, station, nas, count=None, tmsi=None):
        """A message that begins a connection."""
        self.station, self.b, self.m = station, self.radio.new_id(self), None
        self.keeps(kind, lte.initial_ue_message(self.network, station, self.b, nas, tmsi), nas, count, tmsi)

    def awaits(self, what):
        self.waits, self.held, self.since = what, None, time.monotonic()

    # What it does by itself.

    @property
    def is_free(self):
        return self.waits is None

    @property
    def is_asleep(self):
        return self.is_free and self.station is None and self.standing == REGISTERED

    def acts(self):
        """Does what it may do where it is."""
        station, kind = self.radio.chance.choice(self.radio.stations), self.radio.chance.random()
        if self.standing == OUT:
            if self.radio.may_attach(self):
                self.begins_attach(station)
        elif self.station is None:
            self.wakes(station, kind)
        else:
            self.moves(station, kind)

    def wakes(self, station, kind):
        """From idle: for service, to update its area, to detach, or to attach anew."""
        if kind < 0.65 or not self.radio.may_attach(self) and kind > 0.94:
            self.asks_to_be_served(station)
        elif kind < 0.94:
            self.begins_update(station)
        elif kind < 0.97:
            self.begins_detach(station)
        else:
            self.begins_attach(station)

    def moves(self, station, kind):
        """From a connection: it is released, updates, changes stations, or detaches."""
        if self.standing == UNSURE or kind < 0.4:
            self.awaits(RELEASE)
            self.radio.hear(self.station, lte.release_request(self.m, self.b, lte.USER_INACTIVITY))
        elif kind < 0.6:
            self.begins_update()
        elif kind < 0.97 or not self.radio.may_attach(self):
            self.begins_switch(station)
        else:
            self.begins_detach()

    def begins_attach(self, station):
        esm = lte.pdn_connectivity_request(1, 1, False)
        nas = lte.attach_request(1, lte.imsi_identity(self.imsi), self.capability, esm)
        self.standing = OUT
        self.awaits(CHALLENGE)
        self.says_first("ATTACH REQUEST", station, nas)

    def asks_to_be_served(self, station):
        count = self.up_count
        self.up_count += 1
        self.awaits(SERVICE)
        self.says_first("SERVICE REQUEST", station, lte.service_request(self.key, self.ksi, count), count, self.tmsi)

    def begins_update(self, station=None):
        """From idle at a station, or on its connection."""
        count, message = self.up_count, lte.tau_request(0, self.ksi, self.network, self.tmsi)
        self.is_from_idle = station is not None
        self.awaits(UPDATE)
        if self.is_from_idle:
            self.says_first("TRACKING AREA UPDATE REQUEST", station, self.protected_up(message, header=1), count, self.tmsi)
        else:
            self.says("TRACKING AREA UPDATE REQUEST", message)

    def begins_detach(self, station=None):
        """Likewise."""
        self.standing = UNSURE
        self.awaits(DETACH)
        if station is not None:
            count = self.up_count
            self.says_first("DETACH REQUEST", station, self.protected_up(self.asks_to_detach(), header=1), count, self.tmsi)
        else:
            self.says("DETACH REQUEST", self.asks_to_detach())

    def begins_switch(self, station):
        if station is self.station:
            return
        self.awaits(SWITCH)
        self.station, self.b = station, self.radio.new_id(self)
        octets = lte.path_switch_request(self.network, station, self.m, self.b, self.capability)
        self.keeps("PATH SWITCH REQUEST", octets, None)

    def is_gone(self):
        """Its connection is over; what it waited for doesn't come."""
        self.station = self.b = self.m = self.waits = self.held = None

    def gives_up(self):
        """What it waits for has not come for longer than any timer runs."""
        self.watch.counted["waits that were given up: " + self.waits] += 1
        self.is_gone()

    # What it hears.

    def hears(self, station, message, octets, ids):
        """A message that its station was sent for it."""
        nas, context = self.examines(message, octets, ids)
        if ids[1] != self.b:
            if message.code == s1ap.RELEASE:
                self.radio.hear(station, lte.release_complete(*ids))
            return
        self.m = ids[0] or self.m
        if message.code == s1ap.RELEASE:
            self.is_released_by(message)
        elif message.code == s1ap.ERROR or (message.code, message.outcome) == (s1ap.PATH_SWITCH, s1ap.UNSUCCESSFUL):
            self.watch.counted["errors to phones"] += 1
            self.is_gone()
        else:
            self.goes_on(message, nas, context, octets)

    def examines(self, message, octets, ids):
        """Looks at what a message for it has: the NAS message, and the context of a protected one."""
        carried, context = s1ap.carried(message), None
        nas = s1ap.nas(carried)
        if nas is not None and nas.header != s1ap.PLAIN_HEADER:
            context = self.watch.hears_protected("IMSI " + self.imsi, self.contexts, carried)
        elif nas is not None and nas.type == AUTHENTICATION_REQUEST:
            self.hears_challenge(nas.octets, octets, ids[1])
        if message.code == s1ap.CONTEXT_SETUP:
            self.looks_at_kenb(message, octets)
        elif (message.code, message.outcome) == (s1ap.PATH_SWITCH, s1ap.SUCCESSFUL):
            self.looks_at_next_hop(message, octets)
        return nas, context

    def hears_challenge(self, nas, octets, number):
        """A challenge that is sent for it, to itself or to somebody else under an eNB UE S1AP ID."""
        rand = nas[3:19]
        self.rands.add(rand)
        self.watch.hears_challenge("IMSI " + self.imsi, rand, (self.radio.run, number), octets)
        if rand not in self.by_rand or nas[20:36] != self.by_rand[rand].autn:
            self.watch.violates("IMSI %s: a challenge that is none of its vectors" % self.imsi, octets)

    def looks_at_kenb(self, message, octets):
        """KeNB that is handed out is of a COUNT that it sent."""
        key = message.elements[SECURITY_KEY]
        self.watch.hears_key("IMSI " + self.imsi, key, octets)
        for context in self.contexts:
            count = context.count_of_radio_key(key)
            if count is not None:
                context.accepted, self.kenb = max(context.accepted, count), key
                return
        self.watch.violates("IMSI %s: KeNB is of no COUNT that the phone sent" % self.imsi, octets)

    def looks_at_next_hop(self, message, octets):
        """The next hop that is handed out comes after its KeNB, by so many as its counter says."""
        element = message.elements[SECURITY_CONTEXT]
        chaining, key = element[0] >> 3 & 7, element[1:]
        self.watch.hears_key("IMSI " + self.imsi, key, octets)
        place = self.contexts[0].place_of_next_hop(self.kenb, key) if self.kenb else None
        if place is None or place % 8 != chaining:
            self.watch.violates("IMSI %s: the next hop with NCC %d isn't the phone's" % (self.imsi, chaining), octets)

    def is_accepted(self):
        """The MME has accepted what the phone asked for last."""
        context = self.contexts[0]
        context.accepted = max(context.accepted, self.asked)

    def holds(self, kind):
        """Whether it leaves a message unanswered until that comes again."""
        is_first = self.held != kind and self.radio.chance.random() < SLOW
        self.held = kind if is_first else None
        return is_first

    def goes_on(self, message, nas, context, octets):
        """What it does next."""
        if message.code == s1ap.CONTEXT_SETUP:
            self.radio.hear(self.station, lte.context_setup_response(self.station, self.m, self.b))
            if nas is None:
                self.is_served()
        elif message.code == s1ap.PATH_SWITCH and self.waits == SWITCH:
            self.waits = None
        if nas is None:
            return
        if nas.type in REJECTS:
            self.is_rejected(nas, octets)
        elif context is None:
            if nas.type == AUTHENTICATION_REQUEST and self.waits in (CHALLENGE, COMMAND) and not self.holds(nas.type):
                self.is_challenged(nas.octets)
        elif nas.type == SECURITY_MODE_COMMAND:
            self.is_commanded()
        elif nas.type == ATTACH_ACCEPT:
            self.is_attached(nas.octets)
        elif nas.type == TAU_ACCEPT:
            self.is_updated(nas.octets)
        elif nas.type == s1ap.DETACH_ACCEPT and self.waits == DETACH:
            self.is_accepted()
            self.standing = OUT
            self.awaits(RELEASE)

    # An attach.

    def is_challenged(self, nas):
        """It answers, or now and then it asks for another challenge; one that comes again after that isn't answered."""
        if nas[3:19] == self.declined:
            return
        if self.waits == CHALLENGE and self.radio.chance.random() < OUT_OF_SYNC and self.radio.may_attach(self):
            self.awaits(CHALLENGE)
            self.declined = nas[3:19]
            octets = lte.uplink_nas(self.network, self.station, self.m, self.b, SYNCH_FAILURE)
            self.keeps("AUTHENTICATION FAILURE", octets, SYNCH_FAILURE)
        elif nas[3:19] in self.by_rand:
            self.answers(nas)

    def answers(self, nas):
        """AUTHENTICATION RESPONSE."""
        self.vector, self.ksi = self.by_rand[nas[3:19]], nas[2] & 7
        context = self.watch.context(self.vector)
        self.contexts = [context] + [other for other in self.contexts if other is not context]
        self.key, self.up_count = context.key, 0
        self.awaits(COMMAND)
        response = lte.authentication_response(self.vector.xres)
        self.keeps("AUTHENTICATION RESPONSE", lte.uplink_nas(self.network, self.station, self.m, self.b, response), response)

    def is_commanded(self):
        """SECURITY MODE COMPLETE."""
        self.watch.hears_end_of_challenge("IMSI " + self.imsi)
        if self.waits in (COMMAND, ACCEPT) and not self.holds(SECURITY_MODE_COMMAND):
            self.awaits(ACCEPT)
            self.says("SECURITY MODE COMPLETE", lte.SECURITY_MODE_COMPLETE, header=4)

    def is_attached(self, nas):
        """ATTACH COMPLETE, whatever of it comes again."""
        at = 5 + nas[4]
        at += 2 + int.from_bytes(nas[at:at + 2], "big")
        self.tmsi = tmsi_of(nas, at)
        if self.waits == ACCEPT and not self.holds(ATTACH_ACCEPT):
            self.standing, self.waits = UNSURE, None
            self.says("ATTACH COMPLETE", lte.ATTACH_COMPLETE)
            first = max(at for at, record in enumerate(self.records) if record.kind == "ATTACH REQUEST")
            self.recorded[self.vector.rand] = self.records[first:]

    # What follows an attach.

    def is_served(self):
        if self.waits == SERVICE:
            self.watch.counted["phones that came back and were served"] += 1
            self.standing, self.waits = REGISTERED, None

    def is_updated(self, nas):
        """TRACKING AREA UPDATE COMPLETE. An acceptance with the M-TMSI that it has already is one that comes again: of what it asked
        for last only where it left that unanswered."""
        tmsi = tmsi_of(nas, GUTI_OF_UPDATE)
        if self.waits != UPDATE or tmsi == self.tmsi and self.held != TAU_ACCEPT:
            return
        if tmsi != self.tmsi:
            self.is_accepted()
            self.tmsi, self.standing = tmsi, REGISTERED
        if not self.holds(TAU_ACCEPT):
            self.awaits(RELEASE if self.is_from_idle else None)
            self.says("TRACKING AREA UPDATE COMPLETE", lte.TAU_COMPLETE)

    def is_rejected(self, nas, octets):
        """What a registered phone asks for with its next COUNT isn't rejected, nor is the right answer to a challenge."""
        if self.standing == REGISTERED or nas.type == AUTHENTICATION_REJECT:
            self.watch.violates("IMSI %s: a phone that waits for %s has %s" % (self.imsi, self.waits, nas.name), octets)
        self.watch.counted[nas.name] += 1
        self.standing = OUT
        self.awaits(RELEASE)

    def is_released_by(self, message):
        """Where it asked for the release, what it sent before on its connection has come."""
        if self.waits in OF_ATTACH:
            self.standing = OUT
        elif self.standing == UNSURE and self.waits == RELEASE:
            is_own = s1ap.cause(message) == "radioNetwork user-inactivity"
            self.standing = REGISTERED if is_own else OUT
            if is_own:
                self.is_accepted()
        self.radio.hear(self.station, lte.release_complete(self.m, self.b))
        self.is_gone()
