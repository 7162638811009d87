"""A snapshot of an MME, and the network of the model as it was then.

A snapshot is a row of parts in aligned PER, each up to the next octet: the version, the network with the clock, 128 stations; how
many strangers there are, and each of them; how many subscribers, and each of them. The formats stand in crates/snapshot_formats,
and what they mean in crates/snapshot_states. Of the time before it has no lines, no vectors that are spent, and of the associations
that ended only how many there were: where a reason would cite these, the model says that they lie before the snapshot.
"""
import functools
import typing

from tools import runs
from tools.eps import macs, nas, timers
from tools.eps.context import LAST_COUNT
from tools.eps.elements import CODE, ELEMENTS, ENB_UE_ID, GROUP, MME_UE_ID, PLMN, SUPPORTED_TAS, TAI_TYPE, number, printable
from tools.eps.identities import address
from tools.eps.nas_elements import Refused, imsi
from tools.eps.per import Choice, Fields, ListOf, Number, Octets, OctetString, Optional, Reader
from tools.eps.provisioned import FIRST_STRANGER, IDS_OF_A_SLOT, Network, Profile, Vector, stranger_of
from tools.eps.reasons import BEFORE
from tools.eps.stranger import Attach
from tools.eps.subscriber import IPV4V6, Phase, Subscriber
from tools.eps.telling import Now, Place
from tools.eps.world import State, World
from tools.s1ap import Unreadable

VERSION = 1
SLOTS = 1 << 15

# --- The formats ---

LONG, NAS_COUNT, FLAG = Number(0, 1 << 62), Number(0, (1 << 32) - 1), Number(0, 1)
TICKS, REPEATS, COUNTER = Number(1, timers.REACHABLE.seconds), Number(0, 255), Number(0, IDS_OF_A_SLOT - 1)
RATE, STATION_NUMBER, SLOT = Number(1, 10**10), Number(0, runs.STATIONS - 1), Number(0, SLOTS - 1)
KEY, IPV4 = Octets(32), Octets(4, functools.partial(address, 32))
HEAD = Fields(
    network=Fields(plmn=PLMN, group=GROUP, code=CODE, apn=OctetString(printable, 1, 63), down=RATE, up=RATE), began=LONG,
    clock=LONG)
STATION = Choice(down=Fields(), up=Fields(), ready=ELEMENTS[SUPPORTED_TAS][1])
WAITING = Fields(nas=OctetString(), tai=TAI_TYPE, left=TICKS, repeats=REPEATS)
STRANGER = Fields(id=MME_UE_ID, state=Choice(waiting=WAITING, held=SLOT))
CONTEXT = Fields(place=LONG, down=NAS_COUNT, last=Optional(NAS_COUNT), kasme=KEY, radio=Choice(
    keys=Fields(kenb=KEY, next_hop=Optional(KEY), chaining=Number(0, 7)), trail=Fields(count=NAS_COUNT, moves=LONG)))
REQUEST = Fields(transaction=Number(0, 255), dual=FLAG, information=FLAG)
REPEATED = Choice(nas=Fields(header=Optional(Number(1, 4)), octets=OctetString()), paging=ListOf(0, runs.STATIONS, STATION_NUMBER))
LINK = Fields(
    phase=Number(0, 7), connection=Optional(Fields(id=MME_UE_ID, station=STATION_NUMBER, enb_id=ENB_UE_ID)),
    context=Optional(CONTEXT))
IDS = Fields(associations=COUNTER, tmsis=COUNTER, tmsi=Optional(Number(0, (1 << 32) - 1)))
ASKED = Fields(capability=OctetString(least=2, most=13), combined=FLAG, initial_update=FLAG)
BEARER = Fields(state=Number(0, 2), request=Optional(REQUEST))
WAITS = Fields(repeat=Optional(REPEATED), procedure=Optional(Fields(timer=Number(0, 4), left=TICKS, repeats=REPEATS)),
               reachable=Optional(TICKS))
VECTOR = Fields(rand=Octets(16), autn=Octets(16), xres=OctetString(least=4, most=16), kasme=KEY)
SUBSCRIBER = Fields(
    imsi=Octets(8), address=IPV4, gateway=IPV4, teid=Octets(4, number), spent=LONG, vectors=ListOf(0, 65535, VECTOR), link=LINK,
    ids=IDS, tai=TAI_TYPE, asked=ASKED, bearer=BEARER, waits=WAITS)

# --- What its numbers mean ---

TIMERS = "T3413", "T3422", "T3450", "T3460", "T3489"
BEARERS = "INACTIVE", "ACTIVE-PENDING", "ACTIVE"
NEVER_ASKED = bytes(2)  # the algorithms of a phone that has never attached


class Procedure(typing.NamedTuple):
    """What is under way in a phase: its timer, and what sends its message again; nothing where none has to be."""
    timer: timers.Kind | None = None
    again: typing.Callable | None = None


# The phases by their numbers; a registered phone may be paged.
PHASES = {
    Phase.DEREGISTERED: Procedure(),
    Phase.AUTHENTICATING: Procedure(timers.T3460_CHALLENGE, Subscriber.send_challenge),
    Phase.SECURITY_MODE: Procedure(timers.T3460_SECURITY, Subscriber.send_security_mode),
    Phase.ESM_INFORMATION: Procedure(timers.T3489, Subscriber.ask_information),
    Phase.ACCEPTING: Procedure(timers.T3450_ATTACH, Subscriber.send_acceptance),
    Phase.UPDATING: Procedure(timers.T3450_UPDATE, Subscriber.send_update),
    Phase.REGISTERED: Procedure(timers.T3413, Subscriber.page),
    Phase.DETACHING: Procedure(timers.T3422, Subscriber.send_detach)}
BY_NUMBER = tuple(PHASES)
WITHOUT_CONTEXT = Phase.DEREGISTERED, Phase.AUTHENTICATING


class Unfit(runs.Fault):
    """Octets that are no snapshot that is read here; its text says why."""


def need(holds, why):
    """Refuses a part where something doesn't hold."""
    if not holds:
        raise Unreadable(why)


# --- The octets ---


class Reading:
    """Reads the parts of a snapshot, each up to the next octet."""

    def __init__(self, octets):
        self.reader, self.part = Reader(octets), "the version"

    def read(self, part, kind):
        """The next part."""
        self.part = part
        value = kind.read(self.reader)
        self.reader.align()
        return value

    def each(self, part, most, kind):
        """How many of something there are, and each of them."""
        count = self.read("the number of %ss" % part, Number(0, most))
        return [self.read("%s %d" % (part, place), kind) for place in range(count)]


class Remembered:
    """A snapshot by its octets."""

    def __init__(self, octets):
        reading = Reading(octets)
        try:
            version = reading.read(reading.part, Number(0, 255))
            need(version == VERSION, "it is %d, and %d is read here" % (version, VERSION))
            self.head = reading.read("the network", HEAD)
            self.stations = [reading.read("station %d" % station, STATION) for station in range(runs.STATIONS)]
            self.strangers = reading.each("stranger", (1 << 32) - 1, STRANGER)
            self.subscribers = reading.each("subscriber", SLOTS, SUBSCRIBER)
            reading.part = "the end"
            reading.reader.finish()
            self.held = {value["id"]: value["state"]["held"] for value in self.strangers if "held" in value["state"]}
            self.imsis = self.checked(reading)
        except Unreadable as why:
            raise Unfit("%s of the MME's snapshot can't be read: %s" % (reading.part, why)) from None

    @property
    def second(self):
        """The seconds since the run began."""
        return self.head["clock"] - self.head["began"]

    def checked(self, reading):
        """The IMSIs by slot, where all parts can be of one network."""
        reading.part, imsis = "the network", {}
        need(self.second >= 0, "its clock is before its beginning")
        for place, stranger in enumerate(self.strangers):
            reading.part = "stranger %d" % place
            check_stranger(stranger, self.strangers[place - 1]["id"] if place else FIRST_STRANGER - 1, len(self.subscribers))
        for slot, subscriber in enumerate(self.subscribers):
            reading.part = "subscriber %d" % slot
            digits = imsi_of(subscriber)
            need(imsis.setdefault(digits, slot) == slot, "another has its IMSI")
            check_state(subscriber)
        return list(imsis)

    # --- The model ---

    def world(self, is_right=macs.is_right, now=Now):
        """The network as it was; `is_right` says whether a MAC is, and `now` is what takes what is told of an event."""
        world, network = World((), is_right, now), self.head["network"]
        mcc, mnc = network["plmn"].split(" ")
        world.network = Network(mcc, mnc, network["group"], network["code"], network["apn"], (network["down"], network["up"]))
        world.second = self.second
        for station, value in enumerate(self.stations):
            [(state, areas)] = value.items()
            if state != "down":
                world.stations.set(station, State(state), areas if state == "ready" else ())
        for slot, value in enumerate(self.subscribers):
            Restoring(world, world.add(profile_of(slot, value)), value).restore()
        for value in self.strangers:
            restore_stranger(world, value)
        return world

    # --- Who was connected ---

    def connections(self):
        """The associations that there were: of each its slot, its MME UE S1AP ID, its station and its eNB UE S1AP ID."""
        for slot, value in enumerate(self.subscribers):
            if connection := value["link"]["connection"]:
                yield slot, connection["id"], connection["station"], connection["enb_id"]

    def slot_before(self, mme_id):
        """The slot whose association this was, and isn't any more; or nothing."""
        slot, counter = divmod(mme_id, IDS_OF_A_SLOT)
        if mme_id >= FIRST_STRANGER:
            slot = self.held.get(mme_id)
        elif slot >= len(self.subscribers) or not 0 < counter <= self.subscribers[slot]["ids"]["associations"]:
            slot = None
        connection = None if slot is None else self.subscribers[slot]["link"]["connection"]
        return None if connection and connection["id"] == mme_id else slot


def imsi_of(value):
    try:
        return imsi(value["imsi"])["IMSI"]
    except Refused as why:
        raise Unreadable(str(why)) from None


def profile_of(slot, value):
    """A subscriber's profile, with the vectors that aren't spent."""
    gone = value["spent"]
    vectors = [Vector(gone + place, *vector.values()) for place, vector in enumerate(value["vectors"], 1)]
    return Profile(slot, imsi_of(value), value["address"], value["gateway"], value["teid"], vectors, gone)


# --- Which of them can be ---


def check_stranger(value, before, subscribers):
    """Refuses a stranger that can't be, after the one with that id."""
    state = value["state"]
    need(value["id"] > before, "its id isn't above that of the one before")
    if "held" in state:
        need(state["held"] < subscribers, "nobody has the slot that holds it")
    else:
        check_countdown(state["waiting"], timers.T3470)
        message = nas.decode_emm(nas.named_message(state["waiting"]["nas"]), nas.UP)
        need(message.type == nas.ATTACH_REQUEST and not message.fault, "it didn't begin by an ATTACH REQUEST")


def check_countdown(value, kind):
    """Refuses a countdown that isn't one of a timer."""
    need(value["left"] <= kind.seconds and value["repeats"] <= kind.repeats, "%s runs too long" % kind.name)


def check_state(value):
    """Refuses a subscriber in a state that can't be."""
    phase, link, waits = BY_NUMBER[value["link"]["phase"]], value["link"], value["waits"]
    need((link["context"] is None) == (phase in WITHOUT_CONTEXT), "it has a security context, or none, in the wrong phase")
    if link["context"]:
        check_context(link["context"], phase, value["spent"])
    need(phase is not Phase.AUTHENTICATING or value["vectors"], "it has no vector for its challenge")
    is_idle = link["connection"] is None
    need(phase is Phase.REGISTERED or is_idle == (phase is Phase.DEREGISTERED), "it has a connection, or none, in the wrong phase")
    need((waits["reachable"] is not None) == (is_idle and phase is Phase.REGISTERED), "it is awaited, or isn't, in the wrong phase")
    check_procedure(waits, phase, is_idle)


def check_context(context, phase, spent):
    """Refuses a context that can't be."""
    need(context["place"] < spent, "the vector of its context isn't spent")
    need(context["down"] <= LAST_COUNT + 1 and (context["last"] or 0) <= LAST_COUNT, "its counts are beyond the last")
    trail = context["radio"].get("trail")
    if phase is not Phase.SECURITY_MODE:
        need(trail and context["last"] is not None and trail["count"] <= context["last"], "no count gave its KeNB")


def check_procedure(waits, phase, is_idle):
    """Refuses a procedure that isn't that of a phase. A registered phone has none, but may be paged where it is idle."""
    kind, running, kept = PHASES[phase].timer, waits["procedure"], waits["repeat"]
    is_at_rest = phase in (Phase.DEREGISTERED, Phase.REGISTERED)
    if running is None:
        need(is_at_rest and kept is None, "its procedure has no timer")
        return
    need(kind and TIMERS[running["timer"]] == kind.name and (is_idle or not is_at_rest), "its timer is another procedure's")
    need(kept and ("paging" in kept) == (kind is timers.T3413), "another message is sent again")
    check_countdown(running, kind)


# --- The model's subscribers and strangers ---


def running_of(kind, second, left, repeats=0, again=None):
    """A timer that runs, which began before the snapshot of this second: it has so many seconds left, and so many repeats."""
    made = timers.Running(kind, Now(None, second), again)
    made.sent, made.ends = kind.repeats - repeats, second + left
    return made


class Restoring:
    """Gives a subscriber of the model the state that the snapshot has of it."""

    def __init__(self, world, subscriber, value):
        self.world, self.subscriber, self.value = world, subscriber, value
        self.phase = BY_NUMBER[value["link"]["phase"]]

    def restore(self):
        subscriber, ids = self.subscriber, self.value["ids"]
        subscriber.phase, subscriber.area, subscriber.tmsi = self.phase, self.value["tai"], ids["tmsi"]
        subscriber.associations, subscriber.tmsis, subscriber.earlier = ids["associations"], ids["tmsis"], ids["associations"]
        subscriber.spent = self.value["spent"]
        if self.phase is Phase.AUTHENTICATING:
            subscriber.vector = subscriber.profile.vectors[0]
            subscriber.spent += 1
        if connection := self.value["link"]["connection"]:
            subscriber.move_to(Place(connection["id"], connection["station"], connection["enb_id"]))
        self.restore_asked()
        if self.value["link"]["context"]:
            self.restore_context(self.value["link"]["context"])
        self.restore_waits(self.value["waits"])

    def restore_asked(self):
        """What the phone asked for."""
        subscriber, asked, request = self.subscriber, self.value["asked"], self.value["bearer"]["request"]
        subscriber.capability, subscriber.from_idle = asked["capability"], bool(asked["initial_update"])
        subscriber.combined = bool(asked["combined"])
        subscriber.bearer = BEARERS[self.value["bearer"]["state"]]
        if request:
            subscriber.transaction, subscriber.asks_information = request["transaction"], bool(request["information"])
            subscriber.pdn_type = IPV4V6 if request["dual"] else subscriber.pdn_type
        if subscriber.spent or subscriber.associations or subscriber.tmsis or asked["capability"] != NEVER_ASKED:
            subscriber.how = "since " + BEFORE

    def restore_context(self, value):
        """The security context; the counts that it took before the last one aren't known."""
        subscriber = self.subscriber
        subscriber.make_context(Vector(value["place"] + 1, b"", b"", b"", value["kasme"]))
        context, trail = subscriber.context, value["radio"].get("trail")
        context.down = value["down"]
        if value["last"] is not None:
            context.keep(value["last"], None)
        if trail:
            context.make_radio_key(trail["count"])
            context.hops = trail["moves"]

    def restore_waits(self, waits):
        """The timers that run, and what is sent at their end."""
        subscriber, world = self.subscriber, self.world
        kept, running = waits["repeat"] or {}, waits["procedure"]
        if "paging" in kept:
            subscriber.pages = kept["paging"]
            for station in subscriber.pages:
                world.near[station].add(subscriber.profile.slot)
        elif self.phase is Phase.UPDATING:  # what an update was is known by what it was answered with
            subscriber.combined = "EMM cause" in nas.decode_plain(kept["nas"]["octets"], nas.DOWN).fields
        if running:
            kind, again = PHASES[self.phase]
            again = functools.partial(again, subscriber)
            subscriber.procedure = running_of(kind, world.second, running["left"], running["repeats"], again)
            world.alarms.note(subscriber.procedure.ends, subscriber.key())
        if waits["reachable"]:
            subscriber.reachable = running_of(timers.REACHABLE, world.second, waits["reachable"])
            world.alarms.note(subscriber.reachable.ends, subscriber.key())


def restore_stranger(world, value):
    """Gives the model a stranger: one that is asked for its identity, or whom a subscriber holds."""
    stranger = world.stranger(*stranger_of(value["id"]))
    if "held" in value["state"]:
        stranger.holder = holder = world.subscribers[value["state"]["held"]]
        if holder.place and holder.place.mme_id == stranger.mme_id:
            holder.place = stranger.place
        else:
            holder.ended[stranger.mme_id] = None, None
        return
    waiting = value["state"]["waiting"]
    stranger.attach = Attach(nas.decode_emm(nas.named_message(waiting["nas"]), nas.UP), waiting["tai"], None)
    stranger.timer = running_of(timers.T3470, world.second, waiting["left"], waiting["repeats"], stranger.ask)
    world.alarms.note(stranger.timer.ends, stranger.key())
