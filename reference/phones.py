"""Phones that attach, are released, update their area and change stations, as lines of a trace for `mme play`, with the answers
that the MME owes, made from the standards' formats (lte.py) and never from the MME's output.
"""
import functools
import hashlib

from . import lte  # (so that it is found beside this file too where soizkadur.standards has both)

CONNECTED, IDLE = "REGISTERED CONNECTED ACTIVE", "REGISTERED IDLE ACTIVE"
UNDER_WAY = "COMMON-PROCEDURE-INITIATED CONNECTED INACTIVE"
PENDING = "COMMON-PROCEDURE-INITIATED CONNECTED ACTIVE-PENDING"


class Network:
    """The MME: its network's two forms, group, code, access point and bit rates down and up."""

    def __init__(self, country="001", network="01", group="8001", code="01", apn="internet", rates=(10**9, 10**9)):
        self.words = "mme %s %s %s %s %s %d %d" % (country, network, group, code, apn, *rates)
        mcc, mnc = [int(x) for x in country], [int(x) for x in network]
        two = len(mnc) == 2
        last = 15 if two else mnc[2]
        self.nas_plmn = bytes([mcc[1] << 4 | mcc[0], last << 4 | mcc[2], mnc[1] << 4 | mnc[0]])
        packed = [15] + mnc if two else mnc
        self.s1ap_plmn = bytes([mcc[1] << 4 | mcc[0], packed[0] << 4 | mcc[2], packed[2] << 4 | packed[1]])
        self.group, self.code = bytes.fromhex(group), bytes.fromhex(code)
        self.apn, self.rates = apn.encode(), rates


class Station:
    """A station by its number: macro identity, tracking area, cell, address."""

    def __init__(self, number, identity=1, tac=1, cell=0x101):
        self.number, self.identity, self.tac, self.cell = number, identity, tac, cell
        self.address = bytes([0xC0, 0xA8, 0, number])


class Vector:
    """An authentication vector (TS 33.401 clause 6.1.2)."""

    def __init__(self, rand, autn, xres, kasme):
        self.rand, self.autn, self.xres, self.kasme = rand, autn, xres, kasme

    @staticmethod
    def made(name, res=8):
        """A vector of its own for each name."""
        text = b"".join(hashlib.sha256(b"%d %s" % (at, name.encode())).digest() for at in range(3))
        return Vector(text[:16], text[16:32], text[32:32 + res], text[64:96])

    def words(self, imsi):
        """Its line in a trace, for a subscriber."""
        return "vec %s %s" % (imsi, " ".join(x.hex() for x in (self.rand, self.autn, self.xres, self.kasme)))


KNOWN_VECTOR = Vector(bytes(range(16)), bytes(range(16, 32)), bytes(range(32, 40)), bytes(range(48, 80)))


class Trace:
    """The lines of a trace and the answers that the MME owes to them."""

    def __init__(self, network=None):
        self.network, self.lines, self.answers = network or Network(), [], []

    def say(self, line):
        """One more line."""
        self.lines.append(line)

    def hear(self, station, octets):
        """A station sends a message."""
        self.say("in %d %s" % (station.number, octets.hex()))

    def owe(self, owner, station, octets):
        """The MME owes a station a message, for its owner: `s0` a subscriber, `x0.2` a stranger, `e0` the station itself."""
        self.answers.append("out %s %d %s" % (owner, station.number, octets.hex()))

    def provision(self, phones):
        """The MME, its subscribers and their vectors."""
        self.say(self.network.words)
        for phone in phones:
            self.say("sub %s %s %s %s" % (phone.imsi, phone.address.hex(), phone.gateway.hex(), phone.teid.hex()))
        for phone in phones:
            for vector in phone.vectors:
                self.say(vector.words(phone.imsi))

    def set_up(self, station, connects=True):
        """A station connects and sets up its interface."""
        if connects:
            self.say("up %d" % station.number)
        self.hear(station, lte.s1_setup_request(self.network, station))
        self.owe("e%d" % station.number, station, lte.s1_setup_response(self.network))

    def set_back(self, station, *associations):
        """RESET of these associations, each by its ids, or of the whole interface; owed RESET ACKNOWLEDGE with the same."""
        reset_type = lte.part_of_interface(*associations) if associations else lte.WHOLE_INTERFACE
        self.hear(station, lte.reset(reset_type))
        self.owe("e%d" % station.number, station, lte.reset_acknowledge(*associations))

    def text(self):
        """The lines, as `mme play` reads them."""
        return "\n".join(self.lines) + "\n"

    def answer_text(self):
        """The answers, as `mme play` prints them."""
        return "".join(line + "\n" for line in self.answers)


class OutOfPlace(Exception):
    """A step that a phone can't take where it is; the text says what it lacks, and what brings that."""


def must_have(phone, step, *parts):
    """Refuses a step where the phone doesn't have these, of `lacks`."""
    for part in parts:
        if not getattr(phone, part):
            raise OutOfPlace("%s: the phone with IMSI %s %s" % (step, phone.imsi, phone.lacks[part]))


def needs(*parts):
    """A step that its phone takes where it has these."""
    def of(step):
        @functools.wraps(step)
        def taken(phone, *given, **named):
            must_have(phone, step.__name__, *parts)
            return step(phone, *given, **named)
        return taken
    return of


class Phone:
    """A phone with its subscription, and what the MME keeps of it. Each step adds what the station hears to the trace, and
    what the MME owes."""

    def __init__(self, trace, slot, vectors=(KNOWN_VECTOR,), capability=b"\xe0\x60", imsi=None):
        self.trace, self.network, self.slot = trace, trace.network, slot
        self.imsi = imsi or "00101%010d" % (slot + 1)
        self.address = (0x0A000001 + slot).to_bytes(4, "big")
        self.gateway, self.teid = bytes([10, 0, 0, 100]), (slot + 1).to_bytes(4, "big")
        self.vectors, self.capability = vectors, capability
        self.associations = self.tmsis = self.place = 0
        self.station = self.b = self.vector = self.key = self.next_hop = None

    # What a step can need of its phone, and what is said where that isn't there.
    lacks = {
        "station": "has no connection; a step with a station begins one, as asks_to_attach or asks_for_service",
        "unused": "has no vector left; it is given its vectors as it is made",
        "vector": "was sent no challenge; asks_to_attach brings one",
        "key": "has no keys; authenticates brings them",
        "next_hop": "has no radio keys; completes_security brings them",
        "tmsis": "has no GUTI; a whole attach brings one",
    }

    # What both sides keep.

    @property
    def m(self):
        """The MME UE S1AP ID of its connection."""
        return lte.id_of_slot(self.slot, self.associations)

    @property
    def unused(self):
        """Its vectors that no challenge was made of yet."""
        return self.vectors[self.place:]

    @property
    def tmsi(self):
        """Its M-TMSI."""
        return lte.id_of_slot(self.slot, self.tmsis)

    def secured(self, header, count, direction, message):
        """A NAS message in the protected form, with the MAC of this count."""
        inside = bytes([count & 0xFF]) + message
        return bytes([header << 4 | 7]) + lte.eia2(self.key, count, direction, inside) + inside

    def protected_up(self, message, header=2):
        """A message of the phone's under its next count."""
        octets = self.secured(header, self.up_count, lte.UP, message)
        self.up_count += 1
        return octets

    def protected_down(self, message, header=2):
        """A message for the phone under the network's next count."""
        octets = self.secured(header, self.down_count, lte.DOWN, message)
        self.down_count += 1
        return octets

    @needs("station")
    def sends(self, nas):
        """A NAS message by UPLINK NAS TRANSPORT; what is owed for it is not said."""
        self.trace.hear(self.station, lte.uplink_nas(self.network, self.station, self.m, self.b, nas))

    def sends_first(self, station, b, nas, tmsi=None):
        """An INITIAL UE MESSAGE, which the MME takes a new association for; owed the release of an old one elsewhere."""
        self.trace.hear(station, lte.initial_ue_message(self.network, station, b, nas, tmsi))
        if self.station is not None and (self.station, self.b) != (station, b):
            self.owed(lte.release_command(self.m, self.b, lte.NORMAL_RELEASE))
        self.station, self.b = station, b
        self.associations += 1

    def owed(self, octets):
        """Owed this message, at the station of its connection."""
        self.trace.owe("s%d" % self.slot, self.station, octets)

    def owed_nas(self, nas):
        """Owed this NAS message by DOWNLINK NAS TRANSPORT."""
        self.owed(lte.downlink_nas(self.m, self.b, nas))

    def shows(self, states):
        """The states are asked for; owed these, in the words of `mme play`."""
        self.trace.say("show " + self.imsi)
        self.trace.answers.append("state %s %s" % (self.imsi, states))

    # The steps of an attach.

    @needs("unused")
    def asks_to_attach(self, station, b, pdn_type=1, attach_type=1, information=False):
        """ATTACH REQUEST by IMSI; owed AUTHENTICATION REQUEST."""
        self.pdn_type, self.attach_type, self.information = pdn_type, attach_type, information
        esm = lte.pdn_connectivity_request(1, pdn_type, information)
        nas = lte.attach_request(attach_type, lte.imsi_identity(self.imsi), self.capability, esm)
        self.sends_first(station, b, nas)
        self.accepted_tac = station.tac
        self.vector, self.ksi = self.vectors[self.place], self.place % 7
        self.place += 1
        self.owed_nas(lte.authentication_request(self.ksi, self.vector))

    @needs("station", "vector")
    def authenticates(self):
        """AUTHENTICATION RESPONSE; owed SECURITY MODE COMMAND, the first message of the new context."""
        self.sends(lte.authentication_response(self.vector.xres))
        self.key = lte.Cmac(lte.nas_integrity_key(self.vector.kasme))
        self.up_count = self.down_count = 0
        self.owed_nas(self.protected_down(lte.security_mode_command(self.ksi, self.capability), header=3))

    @needs("station", "key")
    def completes_security(self):
        """SECURITY MODE COMPLETE; owed ESM INFORMATION REQUEST where the phone asked for it, else the acceptance."""
        count = self.up_count
        self.sends(self.protected_up(lte.SECURITY_MODE_COMPLETE, header=4))
        self.radio_key = lte.kenb(self.vector.kasme, count)
        self.next_hop = lte.next_hop(self.vector.kasme, self.radio_key)
        self.chaining = 1
        if self.information:
            self.owed_nas(self.protected_down(bytes([2, 1, lte.INFORMATION_REQUEST])))
        else:
            self.owed_acceptance()

    @needs("station", "key", "next_hop")
    def gives_information(self):
        """ESM INFORMATION RESPONSE; owed the acceptance."""
        self.sends(self.protected_up(bytes([2, 1, lte.INFORMATION_RESPONSE])))
        self.owed_acceptance()

    def owed_acceptance(self):
        """INITIAL CONTEXT SETUP REQUEST with the radio key and ATTACH ACCEPT."""
        self.tmsis += 1
        esm = lte.activate_default_bearer(self.network, 1, self.address, self.pdn_type)
        accept = lte.attach_accept(self.network, self.accepted_tac, self.tmsi, self.attach_type, esm)
        nas = self.protected_down(accept)
        self.owed(lte.context_setup_request(self.network, self.m, self.b, self, self.radio_key, nas))

    @needs("station")
    def context_is_set_up(self):
        """The station's INITIAL CONTEXT SETUP RESPONSE; nothing is owed."""
        self.trace.hear(self.station, lte.context_setup_response(self.station, self.m, self.b))

    @needs("station", "key")
    def completes_attach(self):
        """ATTACH COMPLETE; nothing is owed."""
        self.sends(self.protected_up(lte.ATTACH_COMPLETE))

    def attach_steps(self, station, b, pdn_type=1, attach_type=1, information=False):
        """The steps of a whole attach, to be done in this order."""
        yield lambda: self.asks_to_attach(station, b, pdn_type, attach_type, information)
        yield self.authenticates
        yield self.completes_security
        if information:
            yield self.gives_information
        yield self.context_is_set_up
        yield self.completes_attach

    def attaches(self, station, b, **choices):
        """A whole attach, at a station under an eNB UE S1AP ID; the choices are those of asks_to_attach."""
        for step in self.attach_steps(station, b, **choices):
            step()

    # What follows an attach.

    @needs("station")
    def is_released(self):
        """The station asks for the release, since the phone is inactive, and completes it; owed the release."""
        self.trace.hear(self.station, lte.release_request(self.m, self.b, lte.USER_INACTIVITY))
        self.owed(lte.release_command(self.m, self.b, lte.USER_INACTIVITY))
        self.goes()

    @needs("station")
    def goes(self):
        """UE CONTEXT RELEASE COMPLETE; nothing is owed."""
        self.trace.hear(self.station, lte.release_complete(self.m, self.b))
        self.station = self.b = None

    def is_gone(self):
        """The association has ended without a word."""
        self.station = self.b = None

    def has_data_waiting(self, stations):
        """Downlink data for an idle phone; owed PAGING by each of these stations."""
        if stations:
            must_have(self, "has_data_waiting", "tmsis")
        self.trace.say("data " + self.imsi)
        self.is_paged(stations)

    def is_paged(self, stations):
        """Owed PAGING by each of these stations."""
        for station in stations:
            octets = lte.paging(self.network, self.imsi, self.tmsi, self.accepted_tac)
            self.trace.owe("s%d" % self.slot, station, octets)

    def owed_update(self, station, update_type):
        """Owed TRACKING AREA UPDATE ACCEPT with a new M-TMSI."""
        self.accepted_tac = station.tac
        self.tmsis += 1
        accept = lte.tau_accept(self.network, station.tac, self.tmsi, update_type)
        self.owed_nas(self.protected_down(accept))

    @needs("key", "tmsis")
    def updates_from_idle(self, station, b, update_type=0):
        """TRACKING AREA UPDATE REQUEST as the first message; owed the acceptance with a new M-TMSI."""
        nas = self.protected_up(lte.tau_request(update_type, self.ksi, self.network, self.tmsi), header=1)
        self.sends_first(station, b, nas)
        self.owed_update(station, update_type)

    @needs("station", "key", "tmsis")
    def updates(self, update_type=0):
        """TRACKING AREA UPDATE REQUEST on the connection that is there; owed the acceptance with a new M-TMSI."""
        self.sends(self.protected_up(lte.tau_request(update_type, self.ksi, self.network, self.tmsi)))
        self.owed_update(self.station, update_type)

    @needs("station", "key")
    def completes_update(self, from_idle):
        """TRACKING AREA UPDATE COMPLETE; owed the release where the update came from idle."""
        self.sends(self.protected_up(lte.TAU_COMPLETE))
        if from_idle:
            self.owed(lte.release_command(self.m, self.b, lte.NORMAL_RELEASE))
            self.goes()

    @needs("station", "next_hop")
    def switches_path(self, station, b):
        """PATH SWITCH REQUEST by another station; owed its acknowledgement with the next hop and its counter."""
        self.trace.hear(station, lte.path_switch_request(self.network, station, self.m, b, self.capability))
        self.station, self.b = station, b
        self.next_hop = lte.next_hop(self.vector.kasme, self.next_hop)
        self.chaining = (self.chaining + 1) % 8
        self.owed(lte.path_switch_acknowledge(self.m, b, self.chaining, self.next_hop))

    @needs("key", "tmsis")
    def asks_for_service(self, station, b):
        """SERVICE REQUEST from idle (TS 24.301 clause 5.6.1); owed the context with the radio key of its count."""
        count = self.up_count
        self.up_count += 1
        self.sends_first(station, b, lte.service_request(self.key, self.ksi, count), self.tmsi)
        self.radio_key = lte.kenb(self.vector.kasme, count)
        self.next_hop, self.chaining = lte.next_hop(self.vector.kasme, self.radio_key), 1
        self.owed(lte.context_setup_request(self.network, self.m, self.b, self, self.radio_key))

    # How a phone leaves.

    def asks_to_detach(self):
        """DETACH REQUEST by its GUTI."""
        return lte.detach_request(lte.guti(self.network, self.tmsi), self.ksi, False)

    def is_detached(self):
        """Owed DETACH ACCEPT, and the release for detach (TS 24.301 clause 5.5.2.2)."""
        self.owed_nas(self.protected_down(lte.DETACH_ACCEPT))
        self.owed(lte.release_command(self.m, self.b, lte.DETACHED))
        self.goes()

    @needs("station", "key", "tmsis")
    def detaches(self):
        """DETACH REQUEST on the connection that is there."""
        self.sends(self.protected_up(self.asks_to_detach()))
        self.is_detached()

    @needs("key", "tmsis")
    def detaches_from_idle(self, station, b):
        """DETACH REQUEST as the first message."""
        self.sends_first(station, b, self.protected_up(self.asks_to_detach(), header=1))
        self.is_detached()
