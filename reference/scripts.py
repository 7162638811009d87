#!/usr/bin/env python3
"""Prints what `mme sim` owes for a script: its events as a trace, and after each the MME's answers as comments.

    scripts.py SCRIPT      `-` for standard input

Stations, phones and the MME are played from the standards' formats (lte.py) and from what docs/SCRIPTS.md and docs/TABLE.md say,
never from the MME's output. It takes scripts without faults; of `raw` it knows the octets of `heard_raw`, and it ends with a
text where a script goes where it hasn't the MME's answer.
"""
import collections
import pathlib
import sys

if __name__ == "__main__":
    sys.path[0] = str(pathlib.Path(__file__).resolve().parent.parent)
from reference import lte
from reference.phones import Network, Vector

MOST_FURTHER = 64  # events of a script's line or a tick beyond its own
FOREIGN_GUTI = bytes.fromhex("f602f83900010212345678")
FIRST_STRANGER = 1 << 31
LATE = 77  # the counter of an id that no phone of a script comes to
REACHABLE = 3480
SERVICE_REJECT_10 = b"\x07\x4e\x0a"
AWAY, AUTHENTICATING, SECURING, INFORMING = "AWAY", "AUTHENTICATING", "SECURING", "INFORMING"
ACCEPTING, REGISTERED, UPDATING, DETACHING = "ACCEPTING", "REGISTERED", "UPDATING", "DETACHING"
WORDS = {AWAY: "DEREGISTERED IDLE INACTIVE", ACCEPTING: "COMMON-PROCEDURE-INITIATED CONNECTED ACTIVE-PENDING",
         UPDATING: "COMMON-PROCEDURE-INITIATED CONNECTED ACTIVE", DETACHING: "DEREGISTERED-INITIATED CONNECTED ACTIVE",
         REGISTERED: "REGISTERED %s ACTIVE"}

# An event: its line, and what is sent at it. What is sent: whose it is, to which station, and what comes back when it is delivered.
Event = collections.namedtuple("Event", "line happens")
Out = collections.namedtuple("Out", "owner station octets delivered")
Connection = collections.namedtuple("Connection", "station m b")


class Unknown(Exception):
    """A script goes where this has no answer."""


def nothing():
    return []


class Station:
    """A station as `station` gives it: it serves cell 1, and has the address 192.168.0.N."""

    def __init__(self, number, identity, tac):
        self.number, self.identity, self.tac, self.cell = number, identity, tac, identity << 8 | 1
        self.address = bytes([0xC0, 0xA8, 0, number])
        self.up = self.ready = False


class Context:
    """A security context, with the next count of each direction."""

    def __init__(self, vector, ksi):
        self.kasme, self.ksi = vector.kasme, ksi
        self.key = lte.Cmac(lte.nas_integrity_key(vector.kasme))
        self.up = self.down = 0

    def secured(self, header, count, direction, message):
        inside = bytes([count & 0xFF]) + message
        return bytes([header << 4 | 7]) + lte.eia2(self.key, count, direction, inside) + inside

    def upward(self, message, header=1):
        self.up += 1
        return self.secured(header, self.up - 1, lte.UP, message)

    def downward(self, message, header=2):
        self.down += 1
        return self.secured(header, self.down - 1, lte.DOWN, message)


class Timer:
    """What is sent again so often, and what comes at the end."""

    def __init__(self, now, seconds, repeats, again, end):
        self.at, self.seconds, self.repeats, self.again, self.end = now + seconds, seconds, repeats, again, end


class Phone:
    """A subscriber: what its phone keeps, and what the MME keeps of it."""

    capability = b"\xe0\x60"

    def __init__(self, slot, imsi, address, gateway, teid):
        self.slot, self.imsi, self.owner = slot, imsi, "s%d" % slot
        self.address, self.gateway, self.teid, self.vectors = address, gateway, teid, []
        # The phone's.
        self.deaf, self.sent, self.place, self.pair = False, None, None, None
        self.challenge = self.context = self.tmsi = None
        # The MME's.
        self.phase, self.known, self.connection, self.timer, self.forgotten_at = AWAY, None, None, None, None
        self.used = self.associations = self.tmsis = 0
        self.paged = self.from_idle = False
        self.paged_at = []  # the stations to page at again

    def states(self):
        words = WORDS.get(self.phase, "COMMON-PROCEDURE-INITIATED CONNECTED INACTIVE")
        return words % ("CONNECTED" if self.connection else "IDLE") if "%" in words else words

    def protected(self, message, header=1):
        self.sent = self.context.upward(message, header)
        return self.sent

    def unregisters(self):
        """The phone forgets its registration."""
        self.challenge = self.context = self.tmsi = None

    def is_forgotten(self):
        """The MME does."""
        self.phase, self.known, self.connection, self.timer, self.forgotten_at = AWAY, None, None, None, None
        self.paged = False

    def next_id(self):
        self.associations += 1
        return lte.id_of_slot(self.slot, self.associations)


class Player:
    def __init__(self):
        self.lines, self.now, self.network = [], 0, None
        self.stations, self.phones = {}, {}

    # ---- lines

    def play(self, line):
        word, *fields = line.split(" ") if line and line[0] != "#" else [""]
        if word:
            getattr(self, "play_" + word)(line, *fields)

    def run(self, *events):
        """Plays events, and what comes back for what they send."""
        queue, further = collections.deque(), 0
        for event in events:
            queue += self.happen(event)
        while queue and further < MOST_FURTHER:
            queue += self.happen(queue.popleft())
            further += 1
        if queue:
            self.lines.append("## dropped %d" % len(queue))

    def happen(self, event):
        self.lines.append(event.line)
        sent = event.happens()
        if isinstance(sent, int):
            self.lines.append("# refused %d" % sent)
            return []
        self.lines += ["# out %s %d %s" % (out.owner, out.station.number, out.octets.hex()) for out in sent]
        return [event for out in sent for event in out.delivered()]

    def skipped(self):
        self.lines.append("## skipped")

    def play_mme(self, line, *fields):
        self.network = Network(*fields[:5], tuple(map(int, fields[5:])))
        self.lines.append(line)

    def play_sub(self, line, imsi, *octets):
        self.phones[imsi] = Phone(len(self.phones), imsi, *map(bytes.fromhex, octets))
        self.lines.append(line)

    def play_vec(self, line, imsi, *octets):
        self.phones[imsi].vectors.append(Vector(*map(bytes.fromhex, octets)))
        self.lines.append(line)

    def play_station(self, _line, number, identity, tac):
        if int(number) in self.stations:
            return self.skipped()
        self.stations[int(number)] = Station(int(number), int(identity, 16), int(tac, 16))

    def play_up(self, _line, number):
        station = self.stations.get(int(number))
        if station is None:
            return self.skipped()
        request = lte.s1_setup_request(self.network, station)
        self.run(Event("up %d" % station.number, lambda: self.connects(station)),
                 self.heard(station, request, lambda: self.is_set_up(station)))

    def play_lost(self, _line, number):
        station = self.stations.get(int(number))
        self.run(Event("lost %d" % int(number), lambda: self.is_lost(station)))

    def play_tick(self, _line, count):
        for _ in range(int(count)):
            self.run(Event("tick 1", self.ticks))

    def play_data(self, line, imsi):
        self.run(Event(line, lambda: self.has_data(self.phones[imsi]) if imsi in self.phones else 5))

    def play_cancel(self, line, imsi):
        self.run(Event(line, lambda: self.is_cancelled(self.phones[imsi]) if imsi in self.phones else 5))

    def play_show(self, line, imsi):
        self.lines += [line, "# state %s %s" % (imsi, self.phones[imsi].states())]

    def play_raw(self, _line, number, octets):
        station = self.stations.get(int(number)) or Station(int(number), 0, 0)
        octets = b"" if octets == "-" else bytes.fromhex(octets)
        self.run(self.heard(station, octets, lambda: self.heard_raw(station, octets)))

    # ---- stations

    def heard(self, station, octets, happens):
        """The station sends a message."""
        return Event("in %d %s" % (station.number, octets.hex() or "-"), lambda: happens() if station.up else 1)

    def connects(self, station):
        if station.up:
            return 2
        station.up = True
        return []

    def is_set_up(self, station):
        self.goes(station)
        station.ready = True
        return [Out("e%d" % station.number, station, lte.s1_setup_response(self.network), nothing)]

    def is_lost(self, station):
        if station is None or not station.up:
            return 1
        station.up = station.ready = False
        self.goes(station)
        return []

    def goes(self, station):
        """All connections of a station end."""
        for phone in self.phones.values():
            phone.paged_at = [each for each in phone.paged_at if each is not station]
            if phone.pair and phone.pair.station is station:
                phone.pair = None
            if phone.connection and phone.connection.station is station:
                self.ends(phone)

    def ends(self, phone):
        """A connection ends without a word, or with the release of a registered phone."""
        if phone.phase not in (REGISTERED, UPDATING):
            return phone.is_forgotten()
        phone.phase, phone.connection, phone.timer = REGISTERED, None, None
        phone.forgotten_at = self.now + REACHABLE

    def heard_raw(self, station, octets):
        """What is answered to the few octets that are known here."""
        if not octets:
            return [Out("e%d" % station.number, station, lte.error_indication(lte.SYNTAX), nothing)]
        late = [(lte.id_of_slot(phone.slot, LATE), phone.owner) for phone in self.phones.values()]
        for m, owner in [(2**32 - 1, "x127.16777215")] + late:
            if octets == lte.uplink_nas(self.network, station, m, 1, b"\x07\x60\x61"):
                return [Out(owner, station, lte.error_indication(lte.UNKNOWN_MME_ID, (m, 1)), nothing)]
        for phone in self.phones.values():
            if phone.connection and octets == lte.uplink_nas(self.network, station, phone.connection.m, 9, b"\x07\x60\x61"):
                return [Out(phone.owner, station, lte.error_indication(lte.UNKNOWN_PAIR, (phone.connection.m, 9)), nothing)]
        raise Unknown("raw " + octets.hex())

    # ---- messages on an association

    def release(self, phone, connection, why, owner=None):
        """UE CONTEXT RELEASE COMMAND; the station completes it."""
        def delivered():
            if phone.pair == connection:
                phone.pair = None
            return [self.heard(connection.station, lte.release_complete(connection.m, connection.b), nothing)]
        return Out(owner or phone.owner, connection.station, lte.release_command(connection.m, connection.b, why), delivered)

    def hears(self, phone, connection, answer):
        """What a phone answers to what comes on a connection: that which it has, or a new one where it is."""
        def delivered():
            if phone.pair != connection and phone.place and phone.place != (connection.station, connection.b):
                return []
            phone.pair = connection
            return [] if phone.deaf else answer()
        return delivered

    def down(self, phone, connection, nas, answer=nothing, owner=None):
        octets = lte.downlink_nas(connection.m, connection.b, nas)
        return Out(owner or phone.owner, connection.station, octets, self.hears(phone, connection, answer))

    def up(self, connection, nas, happens):
        octets = lte.uplink_nas(self.network, connection.station, connection.m, connection.b, nas)
        return self.heard(connection.station, octets, happens)

    def first(self, phone, station, b, nas, happens, tmsi=None):
        """A first message on a new radio connection."""
        phone.place = station, b
        octets = lte.initial_ue_message(self.network, station, b, nas, tmsi)
        self.run(self.heard(station, octets, happens))

    def begins(self, phone, station, b, m=None):
        """The MME takes an association for a first message; what it sends of the old one."""
        old = phone.connection
        phone.connection = Connection(station, phone.next_id() if m is None else m, b)
        phone.paged, phone.forgotten_at = False, None
        return [self.release(phone, old, lte.NORMAL_RELEASE)] if old and (old.station, old.b) != (station, b) else []

    def waits(self, phone, seconds, repeats, again, end=None):
        """A timer runs until the phone answers; at its end the connection is released."""
        def ended():
            out = self.release(phone, phone.connection, lte.NAS_UNSPECIFIED)
            self.ends(phone)
            return [out]
        phone.timer = Timer(self.now, seconds, repeats, again, end or ended)
        return again()

    def ticks(self):
        self.now += 1
        sent = []
        for phone in self.phones.values():
            timer = phone.timer
            if timer and timer.at == self.now:
                timer.at, timer.repeats = self.now + timer.seconds, timer.repeats - 1
                sent += timer.again() if timer.repeats >= 0 else timer.end()
            if phone.forgotten_at == self.now:
                phone.is_forgotten()
        return sent

    # ---- attach (TS 24.301 clause 5.5.1)

    def there(self, imsi, number, needs=lambda phone: True):
        """The phone and the station of an act, where it can be done."""
        phone, station = self.phones.get(imsi), self.stations.get(int(number))
        if phone is None or station is None or not station.ready or not needs(phone):
            return None, None
        return phone, station

    def attaches(self, imsi, number, b, information=False, foreign=False):
        phone, station = self.there(imsi, number)
        if phone is None:
            return self.skipped()
        b = int(b)
        phone.unregisters()
        identity = FOREIGN_GUTI if foreign else lte.imsi_identity(imsi)
        nas = lte.attach_request(1, identity, phone.capability, lte.pdn_connectivity_request(1, 1, information))
        begin = self.asks_identity if foreign else self.challenges
        self.first(phone, station, b, nas, lambda: begin(phone, station, b, information))

    def play_attach(self, _line, *fields):
        self.attaches(*fields)

    def play_info(self, _line, *fields):
        self.attaches(*fields, information=True)

    def play_foreign(self, _line, *fields):
        self.attaches(*fields, foreign=True)

    def asks_identity(self, phone, station, b, information):
        if phone.deaf:
            raise Unknown("a deaf stranger")
        stranger = Connection(station, FIRST_STRANGER + (station.number << 24) + b, b)
        for each in self.phones.values():
            if each.pair == stranger:
                each.pair = None
            if each.connection == stranger:
                self.ends(each)
        told = lte.identity_response(lte.imsi_identity(phone.imsi))
        answer = lambda: [self.up(stranger, told, lambda: self.challenges(phone, station, b, information, stranger.m))]
        return [self.down(phone, stranger, lte.IDENTITY_REQUEST, answer, "x%d.%d" % (station.number, b))]

    def challenges(self, phone, station, b, information, m=None):
        """AUTHENTICATION REQUEST with the next vector."""
        sent = self.begins(phone, station, b, m)
        phone.known = phone.timer = None
        connection = phone.connection
        if phone.used == len(phone.vectors):
            sent += [self.down(phone, connection, b"\x07\x44\x11", lambda: phone.unregisters() or []),
                     self.release(phone, connection, lte.NORMAL_RELEASE)]
            phone.is_forgotten()
            return sent
        vector, ksi = phone.vectors[phone.used], phone.used % 7
        phone.used, phone.phase = phone.used + 1, AUTHENTICATING
        request = lte.authentication_request(ksi, vector)

        def answer():
            phone.challenge = Context(vector, ksi)
            return [self.up(connection, lte.authentication_response(vector.xres), lambda: self.secures(phone, information))]
        return sent + self.waits(phone, 6, 4, lambda: [self.down(phone, connection, request, answer)])

    def secures(self, phone, information):
        """SECURITY MODE COMMAND, the first message of the new context."""
        phone.known, phone.phase = phone.challenge, SECURING
        command = lte.security_mode_command(phone.known.ksi, phone.capability)

        def answer():
            phone.context, phone.challenge = phone.challenge, None
            complete = phone.protected(lte.SECURITY_MODE_COMPLETE, header=4)
            return [self.up(phone.connection, complete, lambda: self.informs(phone, information))]
        return self.waits(phone, 6, 4, lambda: [self.down(phone, phone.connection, phone.known.downward(command, 3), answer)])

    def informs(self, phone, information):
        """ESM INFORMATION REQUEST where it was asked for."""
        phone.key = lte.kenb(phone.known.kasme, 0)
        if not information:
            return self.accepts(phone)
        phone.phase = INFORMING
        request = bytes([2, 1, lte.INFORMATION_REQUEST])

        def answer():
            response = phone.protected(bytes([2, 1, lte.INFORMATION_RESPONSE]))
            return [self.up(phone.connection, response, lambda: self.accepts(phone))]
        return self.waits(phone, 4, 2, lambda: [self.down(phone, phone.connection, phone.known.downward(request), answer)])

    def sets_up(self, phone, nas=None, answer=nothing):
        """INITIAL CONTEXT SETUP REQUEST with a new radio key; the station answers before the phone."""
        connection, heard = phone.connection, self.hears(phone, phone.connection, answer)
        phone.next_hop, phone.chaining = lte.next_hop(phone.known.kasme, phone.key), 1
        octets = lte.context_setup_request(self.network, connection.m, connection.b, phone, phone.key, nas)
        response = lte.context_setup_response(connection.station, connection.m, connection.b)
        return Out(phone.owner, connection.station, octets, lambda: [self.heard(connection.station, response, nothing)] + heard())

    def accepts(self, phone):
        """ATTACH ACCEPT; its repeats come without the context."""
        phone.phase, phone.tac = ACCEPTING, phone.connection.station.tac
        phone.tmsis += 1
        tmsi = lte.id_of_slot(phone.slot, phone.tmsis)
        esm = lte.activate_default_bearer(self.network, 1, phone.address, 1)
        accept = lte.attach_accept(self.network, phone.tac, tmsi, 1, esm)

        def answer():
            phone.tmsi = tmsi
            return [self.up(phone.connection, phone.protected(lte.ATTACH_COMPLETE), lambda: self.is_registered(phone))]
        self.waits(phone, 6, 4, lambda: [self.down(phone, phone.connection, phone.known.downward(accept), answer)])
        phone.known.down -= 1  # the first goes with the context
        return [self.sets_up(phone, phone.known.downward(accept), answer)]

    def is_registered(self, phone):
        phone.phase, phone.timer, phone.given_tmsi = REGISTERED, None, phone.tmsi
        return []

    # ---- service, update, path switch

    def play_service(self, _line, imsi, number, b):
        phone, station = self.there(imsi, number, lambda phone: phone.context)
        if phone is None:
            return self.skipped()
        b, context, tmsi = int(b), phone.context, phone.tmsi
        count, context.up = context.up, context.up + 1
        nas = lte.service_request(context.key, context.ksi, count)
        self.first(phone, station, b, nas, lambda: self.serves(phone, station, b, context, count), tmsi)

    def serves(self, phone, station, b, context, count):
        if phone.phase not in (REGISTERED, UPDATING):
            aside = Connection(station, phone.next_id(), b)
            heard = lambda: phone.unregisters() or []
            return [self.down(phone, aside, SERVICE_REJECT_10, heard), self.release(phone, aside, lte.NORMAL_RELEASE)]
        if phone.known is not context:
            raise Unknown("a service request under another context")
        sent = self.begins(phone, station, b)
        phone.phase, phone.timer, phone.key = REGISTERED, None, lte.kenb(context.kasme, count)
        return sent + [self.sets_up(phone)]

    def play_tau(self, _line, imsi, number, b):
        phone, station = self.there(imsi, number, lambda phone: phone.context and phone.tmsi is not None)
        if phone is None:
            return self.skipped()
        b, request = int(b), lte.tau_request(0, phone.context.ksi, self.network, phone.tmsi)
        nas = phone.protected(request)
        if phone.pair and (phone.pair.station, phone.pair.b) == (station, b):
            return self.run(self.up(phone.pair, nas, lambda: self.updates(phone)))
        self.first(phone, station, b, nas, lambda: self.updates(phone, station, b))

    def updates(self, phone, station=None, b=None):
        """TRACKING AREA UPDATE ACCEPT with a new M-TMSI."""
        if phone.phase not in (REGISTERED, UPDATING) or phone.known is not phone.context or phone.phase == UPDATING and not station:
            raise Unknown("an update in " + phone.phase)
        sent = self.begins(phone, station, b) if station else []
        phone.phase, phone.tac, from_idle = UPDATING, phone.connection.station.tac, station is not None
        phone.tmsis += 1
        tmsi = lte.id_of_slot(phone.slot, phone.tmsis)
        accept = lte.tau_accept(self.network, phone.tac, tmsi, 0)

        def answer():
            phone.tmsi = tmsi
            return [self.up(phone.connection, phone.protected(lte.TAU_COMPLETE), lambda: self.is_updated(phone, from_idle))]
        phone.given_tmsi = tmsi
        return sent + self.waits(phone, 6, 4, lambda: [self.down(phone, phone.connection, phone.known.downward(accept), answer)])

    def is_updated(self, phone, from_idle):
        phone.phase, phone.timer = REGISTERED, None
        if not from_idle:
            return []
        out = self.release(phone, phone.connection, lte.NORMAL_RELEASE)
        self.ends(phone)
        return [out]

    def play_switch(self, _line, imsi, number, b):
        phone, station = self.there(imsi, number, lambda phone: phone.pair)
        if phone is None:
            return self.skipped()
        new = Connection(station, phone.pair.m, int(b))
        octets = lte.path_switch_request(self.network, station, new.m, new.b, phone.capability)
        self.run(self.heard(station, octets, lambda: self.switches(phone, new)))

    def switches(self, phone, new):
        if not phone.connection or phone.connection.m != new.m:
            raise Unknown("a path switch in " + phone.phase)
        why = lte.UNKNOWN_MME_ID if new.m >= FIRST_STRANGER else lte.NOT_COMPATIBLE
        if new.m >= FIRST_STRANGER or phone.phase not in (REGISTERED, UPDATING):
            return [Out(phone.owner, new.station, lte.path_switch_failure(new.m, new.b, why), nothing)]
        phone.connection = new
        phone.next_hop, phone.chaining = lte.next_hop(phone.known.kasme, phone.next_hop), (phone.chaining + 1) % 8
        octets = lte.path_switch_acknowledge(new.m, new.b, phone.chaining, phone.next_hop)

        def delivered():
            phone.pair, phone.place = new, (new.station, new.b)
            return []
        return [Out(phone.owner, new.station, octets, delivered)]

    # ---- detach, release, paging

    def play_detach(self, _line, imsi, switch_off=False):
        phone = self.phones.get(imsi)
        if phone is None or not (phone.pair or phone.place and phone.place[0].ready):
            return self.skipped()
        identity = lte.imsi_identity(imsi) if phone.tmsi is None else lte.guti(self.network, phone.tmsi)
        request = lte.detach_request(identity, phone.context.ksi if phone.context else 7, switch_off)
        nas = phone.protected(request) if phone.context else request
        context = phone.context
        if switch_off:
            phone.unregisters()
        if phone.pair:
            return self.run(self.up(phone.pair, nas, lambda: self.detaches(phone, switch_off, context)))
        station, b = phone.place
        self.first(phone, station, b, nas, lambda: self.detaches(phone, switch_off, context, station, b))

    def play_off(self, _line, imsi):
        self.play_detach(_line, imsi, switch_off=True)

    def detaches(self, phone, switch_off, context, station=None, b=None):
        """DETACH ACCEPT, but for a phone that is switched off; protected where the MME knows the phone."""
        if phone.phase not in (AWAY, AUTHENTICATING, REGISTERED, UPDATING) or phone.known and phone.known is not context:
            raise Unknown("a detach in " + phone.phase)
        sent = self.begins(phone, station, b) if station else []
        connection = phone.connection
        if not switch_off:
            accept = phone.known.downward(lte.DETACH_ACCEPT) if phone.known else lte.DETACH_ACCEPT
            sent.append(self.down(phone, connection, accept, lambda: phone.unregisters() or []))
        phone.is_forgotten()
        return sent + [self.release(phone, connection, lte.DETACHED)]

    def play_idle(self, _line, imsi):
        phone = self.phones.get(imsi)
        if phone is None or not phone.pair:
            return self.skipped()
        request = lte.release_request(phone.pair.m, phone.pair.b, lte.USER_INACTIVITY)
        self.run(self.heard(phone.pair.station, request, lambda: self.is_inactive(phone)))

    def is_inactive(self, phone):
        if phone.connection != phone.pair:
            raise Unknown("a release of what isn't a connection")
        out = self.release(phone, phone.connection, lte.USER_INACTIVITY)
        self.ends(phone)
        return [out]

    def has_data(self, phone):
        """PAGING by each station of the tracking area, and once more after 10 seconds."""
        if phone.phase != REGISTERED or phone.connection or phone.paged:
            return []
        phone.paged = True

        phone.paged_at = [station for _, station in sorted(self.stations.items()) if station.ready and station.tac == phone.tac]

        def pages():
            octets = lte.paging(self.network, phone.imsi, phone.given_tmsi, phone.tac)
            stations = list(phone.paged_at)  # without those that went since
            return [Out(phone.owner, station, octets, nothing) for station in stations]

        def ended():
            phone.paged = False
            phone.timer = None
            return []
        return self.waits(phone, 10, 1, pages, ended)

    def is_cancelled(self, phone):
        """The network's DETACH REQUEST to a registered phone that is connected."""
        if phone.phase in (AWAY, DETACHING):
            return []
        connection = phone.connection
        if phone.phase not in (REGISTERED, UPDATING) or not connection:
            phone.is_forgotten()
            return [self.release(phone, connection, lte.DETACHED)] if connection else []
        phone.phase = DETACHING

        def answer():
            accept = phone.protected(lte.DETACH_ACCEPT)
            phone.unregisters()
            return [self.up(connection, accept, lambda: self.is_detached(phone, connection))]
        return self.waits(phone, 6, 4, lambda: [self.down(phone, connection, phone.known.downward(lte.NETWORK_DETACH), answer)])

    def is_detached(self, phone, connection):
        phone.is_forgotten()
        return [self.release(phone, connection, lte.DETACHED)]

    # ---- deafness and lies

    def play_deaf(self, _line, imsi):
        if imsi not in self.phones:
            return self.skipped()
        self.phones[imsi].deaf = True

    def lies(self, imsi, forge):
        """The last protected message again: its count was used, or its MAC is wrong, and the MME says nothing."""
        phone = self.phones.get(imsi)
        if phone is None or not phone.pair or phone.sent is None:
            return self.skipped()
        nas = bytearray(phone.sent)
        nas[5] = (nas[5] + forge) % 256
        self.run(self.up(phone.pair, bytes(nas), nothing))

    def play_replay(self, _line, imsi):
        self.lies(imsi, 0)

    def play_forge(self, _line, imsi):
        self.lies(imsi, 1)


def owed(text):
    """What `mme sim` prints for the text of a script."""
    player = Player()
    for line in text.removesuffix("\n").split("\n"):
        player.play(line)
    return "".join(line + "\n" for line in player.lines)


def main(words):
    if len(words) != 1 or words[0].startswith("--"):
        print(__doc__)
        return 2
    if words[0] == "-":
        text = sys.stdin.read()
    else:
        with open(words[0]) as file:
            text = file.read()
    sys.stdout.write(owed(text))
    return 0


if __name__ == "__main__":
    sys.exit(main(sys.argv[1:]))
