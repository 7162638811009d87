"""Phones in each phase of a subscriber's machine, as the lines of a trace for `mme play`.

The octets are those of reference/phones.py and reference/lte.py, which know the standards and not the MME; so are the answers that
the MME owes on the way into the phase.
"""
from reference import lte, phones

FIRST_STRANGER = 1 << 31
# The GUTI of another MME (TS 24.301 clause 9.9.3.12).
FOREIGN_GUTI = bytes.fromhex("f602f83900010212345678")
DETACHED = ((2, 2), 2)  # the cause nas detach (TS 36.413 clause 9.2.1.3)
ASKS_IMSI = b"\x07\x55\x01"
NETWORK_DETACH = b"\x07\x45\x02"
SWITCHED_OFF = 9
PTI = 1
PLENTY = 6  # vectors


def stranger_id(station, b):
    """The MME UE S1AP ID of a stranger."""
    return FIRST_STRANGER + (station.number << 24) + b


def detach_request(phone, detach_type=1, guti=None):
    """DETACH REQUEST with the phone's GUTI (TS 24.301 clause 8.2.11.1)."""
    return bytes([0x07, 0x45, phone.ksi << 4 | detach_type]) + lte.sized(guti or lte.guti(phone.network, phone.tmsi))


class Handset(phones.Phone):
    """A phone whose association may be one that it had as a stranger."""
    held = None

    @property
    def m(self):
        return super().m if self.held is None else self.held

    def sends_first(self, station, b, nas):
        super().sends_first(station, b, nas)
        self.held = None

    def is_foreign(self, station, b, information=False):
        """ATTACH REQUEST with the GUTI of another MME; owed IDENTITY REQUEST, as a stranger."""
        esm = lte.pdn_connectivity_request(PTI, 1, information)
        nas = lte.attach_request(1, FOREIGN_GUTI, self.capability, esm)
        self.trace.hear(station, lte.initial_ue_message(self.network, station, b, nas))
        asked = lte.downlink_nas(stranger_id(station, b), b, ASKS_IMSI)
        self.trace.owe("x%d.%d" % (station.number, b), station, asked)

    def tells_identity(self, station, b):
        """IDENTITY RESPONSE with the IMSI, as a stranger; nothing is said of what is owed."""
        nas = b"\x07\x56" + lte.sized(lte.imsi_identity(self.imsi))
        self.trace.hear(station, lte.uplink_nas(self.network, station, stranger_id(station, b), b, nas))

    def is_claimed(self, station, b, information=False):
        """An attach as a stranger, who tells its IMSI; owed AUTHENTICATION REQUEST on the stranger's association."""
        self.pdn_type, self.attach_type, self.information = 1, 1, information
        self.is_foreign(station, b, information)
        self.tells_identity(station, b)
        self.station, self.b, self.held = station, b, stranger_id(station, b)
        self.accepted_tac = station.tac
        self.vector, self.ksi = self.vectors[self.place], self.place % 7
        self.place += 1
        self.owed_nas(lte.authentication_request(self.ksi, self.vector))

    def leaves(self):
        """DETACH REQUEST of a phone that is switched off; owed the release."""
        self.sends(self.protected_up(detach_request(self, SWITCHED_OFF)))
        self.owed(lte.release_command(self.m, self.b, DETACHED))
        self.goes()

    def goes(self):
        super().goes()
        self.held = None

    def is_cancelled(self):
        """Its subscription is withdrawn while it is connected; owed the network's DETACH REQUEST."""
        self.trace.say("cancel " + self.imsi)
        self.owed_nas(self.protected_down(NETWORK_DETACH))


class Scene:
    """A fresh MME with three stations, the first two in one tracking area, and a phone that is to come into a phase."""

    phase = None
    down = None  # a station that was lost

    def __init__(self, vectors=PLENTY, information=False, claimed=False, idle_for=0):
        self.trace = phones.Trace()
        self.stations = [phones.Station(0), phones.Station(1, 2, 1, 0x201), phones.Station(2, 3, 2, 0x301)]
        self.home = self.stations[0]
        made = [phones.Vector.made("vector %d" % place) for place in range(vectors)]
        self.phone = Handset(self.trace, 0, made)
        self.information, self.claimed, self.idle_for = information, claimed, idle_for
        self.trace.provision([self.phone])
        for station in self.stations:
            self.trace.set_up(station)
        self.paged_at = self.stations[:2]

    def begins_attach(self):
        """The phone asks to attach, by its IMSI or as a stranger."""
        begin = self.phone.is_claimed if self.claimed else self.phone.asks_to_attach
        begin(self.home, 1, information=self.information)

    def registers(self):
        """A whole attach."""
        self.begins_attach()
        self.phone.authenticates()
        self.phone.completes_security()
        if self.information:
            self.phone.gives_information()
        self.phone.context_is_set_up()
        self.phone.completes_attach()

    def was_registered(self):
        """A whole attach by IMSI, and the phone is idle."""
        self.phone.attaches(self.home, 1)
        self.phone.is_released()


def deregistered(scene):
    scene.registers()
    scene.phone.leaves()


def authenticating(scene):
    scene.was_registered()
    scene.begins_attach()


def security_mode(scene):
    authenticating(scene)
    scene.phone.authenticates()


def esm_information(scene):
    scene.information = True
    security_mode(scene)
    scene.phone.completes_security()


def accepting(scene):
    security_mode(scene)
    scene.phone.completes_security()


def registered_idle(scene):
    scene.registers()
    scene.phone.is_released()


def registered_paged(scene):
    registered_idle(scene)
    if scene.idle_for:
        scene.trace.say("tick %d" % scene.idle_for)
    scene.phone.has_data_waiting(scene.paged_at)


def updating(scene):
    registered_idle(scene)
    scene.phone.updates_from_idle(scene.home, 1)


def updating_connected(scene):
    scene.registers()
    scene.phone.updates()


def detaching(scene):
    scene.registers()
    scene.phone.is_cancelled()


# What brings a phone into each phase.
PHASES = {
    "Deregistered": deregistered,
    "Authenticating": authenticating,
    "SecurityMode": security_mode,
    "EsmInformation": esm_information,
    "Accepting": accepting,
    "Registered connected": Scene.registers,
    "Registered idle": registered_idle,
    "Registered paged": registered_paged,
    "Updating": updating,
    "Updating connected": updating_connected,
    "Detaching": detaching,
}
UNCONNECTED = ("Deregistered", "Registered idle", "Registered paged")
CONNECTED = tuple(phase for phase in PHASES if phase not in UNCONNECTED)
# The phases that hear protected messages alone, and under a context in use.
LATER = tuple(phase for phase in CONNECTED if phase not in ("Authenticating", "SecurityMode"))


def scene_of(phase, spare_vectors=None, **choices):
    """A phone in a phase, with this number of vectors left, or plenty."""
    scene = Scene(**choices)
    PHASES[phase](scene)
    if spare_vectors is not None:
        scene = Scene(vectors=scene.phone.place + spare_vectors, **choices)
        PHASES[phase](scene)
    scene.phase = phase
    return scene
