"""What a phone's machine hears in a phase: each event by its name in docs/TABLE.md, as lines of a trace.

An event is `NAME` or `NAME (VARIANT)`. `first` stands before a NAS message in an INITIAL UE MESSAGE, `uplink` before one in an
UPLINK NAS TRANSPORT on the phone's association.
"""
import collections

from tests.docs.scenes import CONNECTED, LATER, PHASES, PTI, SWITCHED_OFF, UNCONNECTED, detach_request, lte, stranger_id

ELSEWHERE, STRANGERS_B = 2, 5  # eNB UE S1AP IDs of a first message, and of a stranger
ALL = tuple(PHASES)

Event = collections.namedtuple("Event", "phases happen choices", defaults=[{}])
EVENTS = {}


def event(*names, phases=ALL, **kept):
    """The function is what happens at these events, which there are in these phases; `choices` are the scene's."""
    def keep(happen):
        for name in names:
            EVENTS[name] = Event(phases, happen, **kept)
        return happen
    return keep


class Arrival:
    """What an event is about: the association that it would make, or that its message has."""

    def __init__(self, m, b, station):
        self.m, self.b, self.station = m, b, station

    def place(self):
        """Its ids and its station's number."""
        return self.m, self.b, self.station and self.station.number


def turned(octets, place):
    """The octets with one bit turned."""
    return octets[:place] + bytes([octets[place] ^ 1]) + octets[place + 1:]


# --- INITIAL UE MESSAGE ---


def s_tmsi(network, tmsi):
    """The element S-TMSI (TS 36.413 clause 9.2.3.6)."""
    return 96, lte.Bits().put(0, 2).put(network.code[0], 8).octets(tmsi.to_bytes(4, "big")).done()


def initial(network, station, b, nas, tmsi=None):
    """INITIAL UE MESSAGE, with the S-TMSI where there is one."""
    if tmsi is None:
        return lte.initial_ue_message(network, station, b, nas)
    named = [(lte.REJECT, lte.enb_id(b)), (lte.REJECT, lte.nas_pdu(nas)), (lte.REJECT, lte.tai(network, station.tac)),
             (lte.IGNORE, lte.cell(network, station.cell)), (lte.IGNORE, lte.rrc_cause(3)), (lte.REJECT, s_tmsi(network, tmsi))]
    return lte.s1ap(lte.INITIATING, 12, lte.IGNORE, *named)


def arrives(scene, nas, b=ELSEWHERE, tmsi=None):
    """A first message at a station, which would make the slot's next association."""
    phone = scene.phone
    scene.trace.hear(scene.home, initial(scene.trace.network, scene.home, b, nas, tmsi))
    return Arrival(lte.id_of_slot(phone.slot, phone.associations + 1), b, scene.home)


def attach_nas(phone, identity=None, capability=b"\xe0\x60", esm=None):
    esm = lte.pdn_connectivity_request(PTI, 1, False) if esm is None else esm
    return lte.attach_request(1, identity or lte.imsi_identity(phone.imsi), capability, esm)


def under(phone, nas, header=1, count=None):
    """The message protected under the phone's context, right."""
    return phone.secured(header, phone.up_count if count is None else count, lte.UP, nas)


def own_guti(phone):
    return lte.guti(phone.network, phone.tmsi)


def old_guti(phone):
    """A GUTI of the phone's slot that isn't its last one."""
    return lte.guti(phone.network, phone.tmsi ^ 0xFF)


IPV6 = lte.pdn_connectivity_request(PTI, 2, False)
ATTACHES = {
    " (IMSI)": attach_nas,
    " (own GUTI)": lambda phone: attach_nas(phone, own_guti(phone)),
    " (old GUTI)": lambda phone: attach_nas(phone, old_guti(phone)),
    " (protected)": lambda phone: under(phone, attach_nas(phone)),
    " (wrong MAC)": lambda phone: turned(under(phone, attach_nas(phone)), 3),
    " (unreadable ESM part)": lambda phone: attach_nas(phone, esm=b"\x02\x01\xd0"),
    " (IPv6)": lambda phone: attach_nas(phone, esm=IPV6),
    " (no EIA2)": lambda phone: attach_nas(phone, capability=b"\xe0\x40"),
    " (IPv6 and no EIA2)": lambda phone: attach_nas(phone, capability=b"\xe0\x40", esm=IPV6),
}
for variant, made in ATTACHES.items():
    event("first ATTACH REQUEST" + variant)(lambda scene, made=made: arrives(scene, made(scene.phone)))
event("first ATTACH REQUEST (no vector left)", choices={"spare_vectors": 0})(
    lambda scene: arrives(scene, attach_nas(scene.phone)))
event("first ATTACH REQUEST (same eNB id)", phases=CONNECTED)(
    lambda scene: arrives(scene, attach_nas(scene.phone), b=scene.phone.b))


def service_nas(phone, ksi=None, back=0):
    """SERVICE REQUEST (TS 24.301 clause 8.2.25)."""
    count = phone.up_count - back
    head = bytes([0xC7, (phone.ksi if ksi is None else ksi) << 5 | count % 32])
    return head + lte.eia2(phone.key, count, lte.UP, head)[2:]


# The variant that there isn't in SecurityMode, whose context hasn't accepted a count.
USED_COUNT = " (used count)"


def phases_with(variant):
    return tuple(phase for phase in ALL if variant != USED_COUNT or phase != "SecurityMode")


SERVICES = {
    "": service_nas,
    " (wrong MAC)": lambda phone: turned(service_nas(phone), 3),
    " (wrong KSI)": lambda phone: service_nas(phone, ksi=(phone.ksi + 1) % 7),
    USED_COUNT: lambda phone: service_nas(phone, back=1),
}
for variant, made in SERVICES.items():
    event("first SERVICE REQUEST" + variant, phases=phases_with(variant))(
        lambda scene, made=made: arrives(scene, made(scene.phone), tmsi=scene.phone.tmsi))
event("first SERVICE REQUEST (same eNB id)", phases=CONNECTED)(
    lambda scene: arrives(scene, service_nas(scene.phone), b=scene.phone.b, tmsi=scene.phone.tmsi))
event("first SERVICE REQUEST (wrong MAC, same eNB id)", phases=CONNECTED)(
    lambda scene: arrives(scene, turned(service_nas(scene.phone), 3), b=scene.phone.b, tmsi=scene.phone.tmsi))


def update_nas(phone, guti=None):
    """TRACKING AREA UPDATE REQUEST (TS 24.301 clause 8.2.29)."""
    return bytes([0x07, 0x48, phone.ksi << 4]) + lte.sized(guti or own_guti(phone))


def known(name, nas_of):
    """A request that a context has to prove, as it may come."""
    variants = {
        " (header 1)": lambda phone: under(phone, nas_of(phone)),
        " (header 2)": lambda phone: under(phone, nas_of(phone), header=2),
        " (wrong MAC)": lambda phone: turned(under(phone, nas_of(phone)), 3),
        USED_COUNT: lambda phone: under(phone, nas_of(phone), count=phone.up_count - 1),
        " (old GUTI)": lambda phone: under(phone, nas_of(phone, guti=old_guti(phone))),
        " (plain)": nas_of,
    }
    for variant, made in variants.items():
        event(name + variant, phases=phases_with(variant))(lambda scene, made=made: arrives(scene, made(scene.phone)))
    event(name + " (same eNB id)", phases=CONNECTED)(
        lambda scene: arrives(scene, under(scene.phone, nas_of(scene.phone)), b=scene.phone.b))


known("first TRACKING AREA UPDATE REQUEST", update_nas)
known("first DETACH REQUEST", detach_request)
event("first DETACH REQUEST (switched off)")(
    lambda scene: arrives(scene, under(scene.phone, detach_request(scene.phone, SWITCHED_OFF))))


# --- Messages with the association's ids ---

UNSUCCESSFUL = 2
MAC_FAILURE = b"\x07\x5c\x14"
# radioNetwork, by the first of the values that a later release added (TS 36.413 clause 9.2.1.3)
LATER_CAUSE = 2, lte.bits((0, 1), (0, 3), (1, 1), (0, 7))


def both(m, b, criticality=lte.REJECT):
    return (criticality, lte.mme_id(m)), (criticality, lte.enb_id(b))


def with_cause(kind, code, criticality, ids, why):
    return lte.s1ap(kind, code, criticality, *ids, (lte.IGNORE, why))


UNSPECIFIED = lte.cause((lte.RADIO, 0))
RADIO_CAPABILITY = 74, lte.Bits().open(b"\x01\x02").done()
# Each with a network, a station and the ids (TS 36.413 clause 9.1).
MESSAGES = {
    "UPLINK NAS TRANSPORT": lambda n, e, m, b: lte.uplink_nas(n, e, m, b, b"\x07\x60\x61"),
    "NAS NON DELIVERY INDICATION": lambda n, e, m, b: lte.s1ap(
        lte.INITIATING, 16, lte.IGNORE, *both(m, b), (lte.IGNORE, lte.nas_pdu(b"\x07\x60\x61")), (lte.IGNORE, UNSPECIFIED)),
    "UE CAPABILITY INFO INDICATION": lambda n, e, m, b: lte.s1ap(
        lte.INITIATING, 22, lte.IGNORE, *both(m, b), (lte.IGNORE, RADIO_CAPABILITY)),
    "INITIAL CONTEXT SETUP RESPONSE": lambda n, e, m, b: lte.context_setup_response(e, m, b),
    "INITIAL CONTEXT SETUP FAILURE": lambda n, e, m, b: with_cause(
        UNSUCCESSFUL, 9, lte.REJECT, both(m, b, lte.IGNORE), UNSPECIFIED),
    "UE CONTEXT RELEASE REQUEST": lambda n, e, m, b: lte.release_request(m, b, lte.USER_INACTIVITY),
    "UE CONTEXT RELEASE COMPLETE": lambda n, e, m, b: lte.release_complete(m, b),
}


def sent_by(scene, message, station, m, b):
    """A message with ids from a station."""
    scene.trace.hear(station, message(scene.trace.network, station, m, b))
    return Arrival(m, b, station)


def place_of(scene):
    """The phone's association, or its last one."""
    phone = scene.phone
    return phone.station or scene.home, phone.m, phone.b or 1


def by_ids(name, message):
    """A message on the phone's association, and beside it."""
    def at(scene, other_station=False, m_more=0, b_more=0):
        station, m, b = place_of(scene)
        return sent_by(scene, message, scene.stations[1] if other_station else station, m + m_more, b + b_more)

    if name != "UPLINK NAS TRANSPORT":
        event(name, phases=CONNECTED)(at)
    event(name + " (last id)", phases=UNCONNECTED)(at)
    event(name + " (another id)")(lambda scene: at(scene, m_more=1))
    event(name + " (another eNB id)", phases=CONNECTED)(lambda scene: at(scene, b_more=7))
    event(name + " (another station)", phases=CONNECTED)(lambda scene: at(scene, other_station=True))


for message_name, message_made in MESSAGES.items():
    by_ids(message_name, message_made)


@event("UE CONTEXT RELEASE REQUEST (cause of a later release)", phases=CONNECTED)
def asks_release_for_later_cause(scene):
    def message(n, e, m, b):
        return with_cause(lte.INITIATING, 18, lte.IGNORE, both(m, b), LATER_CAUSE)
    return sent_by(scene, message, *place_of(scene))


def switches(scene, m_more=0):
    """PATH SWITCH REQUEST by another station and eNB UE S1AP ID."""
    _, m, _ = place_of(scene)

    def message(n, e, m, b):
        return lte.path_switch_request(n, e, m, b, scene.phone.capability)
    return sent_by(scene, message, scene.stations[1], m + m_more, ELSEWHERE)


NO_STRANGER = ("Deregistered", "Registered idle", "Registered paged", "Updating")
CLAIMED = tuple(phase for phase in ALL if phase not in NO_STRANGER)
event("PATH SWITCH REQUEST", phases=CONNECTED)(switches)
event("PATH SWITCH REQUEST (last id)", phases=UNCONNECTED)(switches)
event("PATH SWITCH REQUEST (another id)")(lambda scene: switches(scene, m_more=1))
event("PATH SWITCH REQUEST (claimed association)", phases=CLAIMED, choices={"claimed": True})(switches)


# --- NAS on the association ---


def sends(scene, nas):
    """NAS of the phone on its association."""
    phone = scene.phone
    phone.sends(nas)
    return Arrival(phone.m, phone.b, phone.station)


def usual(phase):
    """How a phone sends in a phase: the header that its machine waits for, or none."""
    return {"Authenticating": None, "SecurityMode": 4}.get(phase, 1)


def uplink(name, nas_of, phases=CONNECTED, **kept):
    """NAS on the association, as the phase takes it."""
    def happen(scene):
        header = usual(scene.phase)
        nas = nas_of(scene.phone)
        return sends(scene, nas if header is None else under(scene.phone, nas, header))
    event("uplink " + name, phases=phases, **kept)(happen)


def constant(octets):
    return lambda phone: bytes.fromhex(octets)


UPLINKS = {
    "ATTACH REQUEST": attach_nas,
    "ATTACH COMPLETE": lambda phone: lte.ATTACH_COMPLETE,
    "DETACH REQUEST": detach_request,
    "DETACH REQUEST (switched off)": lambda phone: detach_request(phone, SWITCHED_OFF),
    "DETACH ACCEPT": constant("0746"),
    "TRACKING AREA UPDATE REQUEST": update_nas,
    "TRACKING AREA UPDATE COMPLETE": lambda phone: lte.TAU_COMPLETE,
    "AUTHENTICATION RESPONSE": lambda phone: lte.authentication_response(phone.vector.xres),
    "AUTHENTICATION FAILURE": lambda phone: MAC_FAILURE,
    "IDENTITY RESPONSE": lambda phone: b"\x07\x56" + lte.sized(lte.imsi_identity(phone.imsi)),
    "SECURITY MODE COMPLETE": lambda phone: lte.SECURITY_MODE_COMPLETE,
    "SECURITY MODE REJECT": constant("075f17"),
    "EMM STATUS": constant("076061"),
    "network's message": constant("074e09"),  # SERVICE REJECT
    "unknown EMM type": constant("0763"),
    "unreadable EMM message": constant("0756"),  # IDENTITY RESPONSE without an identity
    "EMM message of one octet": constant("07"),
    "PDN CONNECTIVITY REQUEST": constant("0202d011"),
    "PDN DISCONNECT REQUEST": constant("0203d205"),
    "ESM INFORMATION RESPONSE": lambda phone: bytes([2, PTI, lte.INFORMATION_RESPONSE]),
    "ESM INFORMATION RESPONSE (another transaction)": lambda phone: bytes([2, PTI + 6, lte.INFORMATION_RESPONSE]),
    "ACTIVATE DEFAULT EPS BEARER CONTEXT ACCEPT": constant("5200c2"),
    "ACTIVATE DEFAULT EPS BEARER CONTEXT REJECT": constant("5200c31f"),
    "ESM STATUS": constant("5200e861"),
    "network's ESM message": constant("0202d9"),  # ESM INFORMATION REQUEST
    "unknown ESM type": constant("0202d4"),
    "unreadable ESM message": constant("0202d0"),
    "ESM message of two octets": constant("0202"),
}
for nas_name, nas_made in UPLINKS.items():
    uplink(nas_name, nas_made)
uplink("SERVICE REQUEST", service_nas)
uplink("empty message", constant(""), phases=LATER)
uplink("unknown discriminator", constant("0846"), phases=LATER)
uplink("AUTHENTICATION RESPONSE (wrong RES)", lambda phone: lte.authentication_response(turned(phone.vector.xres, 7)),
       phases=("Authenticating",))
SYNCH_FAILURE = "075c15300e" + "00" * 14
uplink("AUTHENTICATION FAILURE (cause 21)", constant(SYNCH_FAILURE), phases=("Authenticating",))
uplink("AUTHENTICATION FAILURE (cause 21, no vector left)", constant(SYNCH_FAILURE), phases=("Authenticating",),
       choices={"spare_vectors": 0})
uplink("SECURITY MODE COMPLETE (ESM information)", lambda phone: lte.SECURITY_MODE_COMPLETE, phases=("SecurityMode",),
       choices={"information": True})
uplink("ATTACH COMPLETE (bearer not accepted)", constant("0743" + "0004" + "5200c31f"), phases=("Accepting",))


def awaited(scene):
    """A message that is answered in the phase where it is accepted."""
    return lte.SECURITY_MODE_COMPLETE if scene.phase == "SecurityMode" else detach_request(scene.phone)


def not_accepted(variant, nas_of, phases=LATER + ("SecurityMode",)):
    """NAS that the phone's context doesn't prove."""
    event("uplink not accepted (%s)" % variant, phases=phases)(lambda scene: sends(scene, nas_of(scene)))


def under_used_count(scene):
    """A message under a count that was accepted already."""
    phone = scene.phone
    if phone.up_count == 0:
        sends(scene, under(phone, b"\x07\x60\x61", usual(scene.phase)))
        phone.up_count += 1
    return under(phone, awaited(scene), usual(scene.phase), phone.up_count - 1)


not_accepted("plain", awaited)
not_accepted("wrong MAC", lambda scene: turned(under(scene.phone, awaited(scene), usual(scene.phase)), 3))
not_accepted("used count", under_used_count)
TAKEN = {"Authenticating": (), "SecurityMode": (4,)}
for header in (1, 2, 3, 4):
    not_accepted("header %d" % header, lambda scene, header=header: under(scene.phone, awaited(scene), header),
                 tuple(phase for phase in CONNECTED if header not in TAKEN.get(phase, (1, 2))))
event("uplink DETACH REQUEST (header 2)", phases=LATER)(
    lambda scene: sends(scene, under(scene.phone, detach_request(scene.phone), 2)))
event("uplink SECURITY MODE REJECT (plain)", phases=("SecurityMode",))(
    lambda scene: sends(scene, bytes.fromhex("075f17")))


# --- What isn't a message of the phone ---


def station_event(name, happen):
    """Something that ends a station's associations: of the phone's own, or of another."""
    def own(scene):
        happen(scene, scene.phone.station or scene.home)
        scene.paged_at = [station for station in scene.paged_at if station is not (scene.phone.station or scene.home)]

    event(name + " (its station)")(own)
    event(name + " (another station)")(lambda scene: happen(scene, scene.stations[2]))


RESET_ALL = lte.reset()


def loses(scene, station):
    scene.trace.say("lost %d" % station.number)
    scene.down = station


station_event("lost", loses)
station_event("S1 SETUP REQUEST", lambda scene, station: scene.trace.hear(
    station, lte.s1_setup_request(scene.trace.network, station)))
station_event("RESET", lambda scene, station: scene.trace.hear(station, RESET_ALL))


def resets(scene, station, *associations):
    """A station resets these associations; none is struck from a paging."""
    scene.trace.hear(station, lte.reset(lte.part_of_interface(*associations)))


def each_by_itself(m, b):
    """An association by its id, by its number, and by both."""
    return (m, None), (None, b), (m, b)


# What a RESET of a part by the connection's station lists, by the connection's ids.
LISTED = {
    "its id": lambda m, b: [(m, None)],
    "its eNB id": lambda m, b: [(None, b)],
    "its pair": lambda m, b: [(None, None), (m ^ 0x40, None), (m, b)],
    "another id": lambda m, b: [(m ^ 0x40, None)],
    "another eNB id": lambda m, b: [(None, b + 7)],
    "another pair": lambda m, b: [(m, b + 7), (m ^ 0x40, b)],
    "no id": lambda m, b: [(None, None)],
}
for variant, of_ids in LISTED.items():
    event("RESET of a part (%s)" % variant, phases=ALL if variant == "no id" else CONNECTED)(lambda scene, of_ids=of_ids: resets(
        scene, scene.phone.station or scene.home, *of_ids(scene.phone.m, scene.phone.b or 1)))
event("RESET of a part (claimed association)", phases=CLAIMED, choices={"claimed": True})(
    lambda scene: resets(scene, scene.home, (scene.phone.m, scene.phone.b)))
event("RESET of a part (last id)", phases=UNCONNECTED)(
    lambda scene: resets(scene, scene.home, *each_by_itself(scene.phone.m, 1)))
event("RESET of a part (another station)")(
    lambda scene: resets(scene, scene.stations[2], *each_by_itself(scene.phone.m, scene.phone.b or 1)))


@event("displaced", phases=CLAIMED, choices={"claimed": True})
def is_displaced(scene):
    """Another MME's phone comes to the station under the eNB UE S1AP ID at which the phone was a stranger."""
    scene.phone.is_foreign(scene.home, 1)


@event("claim")
def claims(scene):
    """A stranger tells the phone's IMSI."""
    scene.phone.is_foreign(scene.home, STRANGERS_B)
    scene.phone.tells_identity(scene.home, STRANGERS_B)
    return Arrival(stranger_id(scene.home, STRANGERS_B), STRANGERS_B, scene.home)


event("data")(lambda scene: scene.trace.say("data " + scene.phone.imsi))
event("cancel")(lambda scene: scene.trace.say("cancel " + scene.phone.imsi))
