"""Somebody without any key who sends again what phones sent, after a front has begun again: nothing of it may be accepted.

What phones sent and the MME accepted goes once as it was, from its station; once more from another station as the first message of
a connection, where it may be one; and once within the connection that the phone has now. A whole attach goes from another station
under another eNB UE S1AP ID, with the answer that belongs to its challenge where that was ever heard.

SERVICE REQUEST has 16 bits of a MAC and five of its COUNT (TS 24.301 clause 8.2.25). So once in 65,536 times an old one has the
right MAC of the COUNT that the MME takes it to have, and nobody can tell it from the phone's own. Such a one isn't sent again.
"""
from bench import lives
from reference import lte
from tools import s1ap

SERVICE_REQUEST = "SERVICE REQUEST"
FIRST_MESSAGES = (SERVICE_REQUEST, "TRACKING AREA UPDATE REQUEST", "DETACH REQUEST")
SHORT_COUNTS = 32  # COUNTs that five bits tell from each other
KEPT = 16  # records of a phone that are sent again after later runs too


def stale(phone):
    """What a phone sent that the MME has accepted, or can't accept any more: of an older context, or of a COUNT up to one that was
    accepted. An ATTACH REQUEST isn't among it, as anybody may send one."""
    return [record for record in phone.records if record.kind != "ATTACH REQUEST" and (
        record.context is None or record.context is not phone.contexts[0] or record.count <= record.context.accepted)]


def is_right_by_chance(phone, record):
    """Whether a SERVICE REQUEST has the MAC of a later COUNT with the same five bits, of those that the MME may take it to have."""
    if record.kind != SERVICE_REQUEST:
        return False
    first = phone.contexts[0].accepted + 1
    head, mac = record.nas[:2], record.nas[2:]
    later = range(first + (head[1] - first) % SHORT_COUNTS, phone.up_count + SHORT_COUNTS, SHORT_COUNTS)
    return any(lte.eia2(phone.key, count, lte.UP, head)[2:] == mac for count in later)


class Replay:
    """What is sent again, and what is answered."""

    def __init__(self, radio, run):
        self.radio, self.run, self.watch = radio, run, radio.watch
        self.sent, self.challenges = {}, {}  # by eNB UE S1AP ID: a phone and a record of it; RAND and MME UE S1AP ID
        radio.attack = self

    def records(self):
        """Each phone with each record of it that can't be accepted again."""
        for phone in self.radio.phones:
            for record in stale(phone):
                if is_right_by_chance(phone, record):
                    self.watch.counted["SERVICE REQUESTs whose MAC is right by chance, left out"] += 1
                else:
                    yield phone, record

    def sends(self, phone, record, station, octets, number):
        """A message under an eNB UE S1AP ID."""
        self.sent[number] = phone, record
        self.radio.by_id.setdefault(number, self)
        self.watch.counted["messages that were sent again without the key"] += 1
        self.radio.hear(station, octets)

    def first(self, phone, record):
        """A record as the first message of a connection, from another station than it came from."""
        station = self.radio.stations[(record.station.number + 1) % len(self.radio.stations)]
        number = self.radio.new_id(self)
        octets = lte.initial_ue_message(self.radio.network, station, number, record.nas, record.tmsi)
        self.sends(phone, record, station, octets, number)
        return station, number

    def without_connections(self):
        """All records while no phone has a connection."""
        before = self.run.states()
        for phone, record in self.records():
            self.sends(phone, record, record.station, record.octets, s1ap.ids(s1ap.read(record.octets))[1])
            if record.kind in FIRST_MESSAGES:
                self.first(phone, record)
        self.radio.fence()
        self.compare(before, "while no phone had a connection")

    def within_connections(self):
        """All protected records within the connections that their phones have now."""
        before = self.run.states()
        for phone, record in self.records():
            if phone.m is not None and record.count is not None:
                octets = lte.uplink_nas(self.radio.network, phone.station, phone.m, phone.b, record.nas)
                self.sends(phone, record, phone.station, octets, phone.b)
        self.radio.fence()
        self.compare(before, "within its connection")

    def compare(self, before, where):
        """No phone has other states than before."""
        after = self.run.states()
        for phone in self.radio.phones:
            if before[phone.imsi] != after[phone.imsi]:
                self.watch.violates("IMSI %s: was %s, and is %s after what it had sent was sent again %s" % (
                    phone.imsi, before[phone.imsi], after[phone.imsi], where))

    def attaches(self, phone):
        """A whole attach of a phone is sent again. That costs a challenge, by which the phone's registration ends, and no more."""
        records = next(reversed(phone.recorded.values()))
        station, number = self.first(phone, records[0])
        self.radio.fence()
        phone.standing = lives.OUT
        rand, association = self.challenges.get(number, (None, None))
        for record in phone.recorded.get(rand, records)[1:]:
            if association is not None:
                octets = lte.uplink_nas(self.radio.network, station, association, number, record.nas)
                self.sends(phone, record, station, octets, number)
        self.radio.fence()
        state = self.run.states()[phone.imsi]
        if state.startswith("REGISTERED"):
            self.watch.violates("IMSI %s: is %s after its attach was sent again" % (phone.imsi, state), records[0].octets)
        self.watch.counted["whole attaches that were sent again without the key"] += 1

    # What is answered.

    def hears(self, station, message, octets, ids):
        """A message for an id under which something was sent again."""
        phone, _ = self.sent[ids[1]]
        nas, _ = phone.examines(message, octets, ids)
        if nas is not None and nas.header == s1ap.PLAIN_HEADER and nas.type == lives.AUTHENTICATION_REQUEST:
            self.challenges[ids[1]] = nas.octets[3:19], ids[0]
        if message.code == s1ap.RELEASE:
            self.radio.hear(station, lte.release_complete(*ids))

    def judges(self, message, octets, ids):
        """Any message while things are sent again: nothing is answered as to a phone that has its key."""
        nas = s1ap.nas(s1ap.carried(message))
        is_protected = nas is not None and nas.header != s1ap.PLAIN_HEADER
        hands_key = message.code == s1ap.CONTEXT_SETUP or (message.code, message.outcome) == (s1ap.PATH_SWITCH, s1ap.SUCCESSFUL)
        if is_protected or hands_key:
            phone, record = self.sent.get(ids[1], (None, None))
            name = s1ap.name(message) + (" with " + nas.name if nas else "")
            if phone is None:
                self.watch.violates("%s came while things were sent again" % name, octets)
            else:
                self.watch.violates("IMSI %s: %s came after its %s was sent again" % (phone.imsi, name, record.kind), record.octets,
                                    octets)
