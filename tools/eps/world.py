"""The network as the standards have it, over the events of a trace: stations, strangers and subscribers, each by its own rules.

It knows docs/TABLE.md and docs/PROFILE.md and not the MME. For each event it says what the MME owes and why.
"""
import collections
import enum

from tools import runs, s1ap
from tools.eps import macs, messages, nas
from tools.eps.context import Spent
from tools.eps.elements import CAPACITY, CAUSE, GUMMEIS, RESET_LIST, RESET_TYPE, S_TMSI, SUPPORTED_TAS
from tools.eps.messages import Fault, Sender
from tools.eps.provisioned import FIRST_STRANGER, IDS_OF_A_SLOT, provisioned, stranger_of, take_line
from tools.eps.reasons import RESET, SCTP, SET_UP, Why
from tools.eps.stranger import Stranger, closed
from tools.eps.subscriber import Subscriber
from tools.eps.telling import NOT_COMPATIBLE, Now, cause
from tools.eps.timers import Alarms

NOT_UP, ALREADY_UP, UNKNOWN_IMSI = 1, 2, 5  # what `refused` says (README.md, "A trace")
# How octets that are no message are answered (TS 36.413 clause 10.3.4.1 for what a procedure's criticality asks for).
SYNTAX, ABSTRACT, NOTIFIED, FALSE = ("protocol " + name for name in (
    "transfer-syntax-error", "abstract-syntax-error-reject", "abstract-syntax-error-ignore-and-notify",
    "abstract-syntax-error-falsely-constructed-message"))
UNKNOWN_CAUSES = {messages.REJECT: ABSTRACT, messages.NOTIFY: NOTIFIED, messages.IGNORE: None}
FAULTS = {Fault.SYNTAX: (Why.SYNTAX, SYNTAX), Fault.MISSING_ELEMENT: (Why.MISSING_ELEMENT, ABSTRACT),
          Fault.REFUSED_ELEMENT: (Why.REFUSED_ELEMENT, ABSTRACT), Fault.REPEATED_ELEMENT: (Why.REPEATED_ELEMENT, FALSE)}
STATION = "the station"
NOTICES = {"data": "downlink data", "cancel": "the end of a subscription"}
SETUP, INITIAL_UE, RESET_REQUEST = (s1ap.SETUP, 0), (s1ap.INITIAL_UE, 0), (s1ap.RESET, 0)
NEVER_ANSWERED = frozenset({(s1ap.ERROR, 0), (s1ap.RESET, 1)})
OF_MME, OF_STATION = (frozenset(kind for kind, form in messages.FORMS.items() if form.sender is sender)
                      for sender in (Sender.MME, Sender.STATION))
OF_PHONES = OF_STATION - {SETUP, RESET_REQUEST}


class State(enum.Enum):
    """A station's state (docs/TABLE.md, "Station")."""
    DOWN, UP, READY = "down", "up", "ready"


DOWN, UP, READY = State


class Stations:
    """The state of each station, and the areas of those that are set up."""

    def __init__(self):
        self.states, self.areas = {}, {}

    def state(self, station):
        return self.states.get(station, DOWN)

    def set(self, station, state, areas=()):
        self.states[station], self.areas[station] = state, areas

    def broadcasting(self, area):
        """The stations that are set up and broadcast a tracking area, by number."""
        return [station for station in sorted(self.states) if self.state(station) is READY and any(
            item["TAC"] == area["TAC"] and area["PLMN"] in item["broadcast PLMNs"] for item in self.areas[station])]


def order_of(owner):
    """Where an owner's messages stand in an event's: stations, strangers, subscribers."""
    numbers = tuple(map(int, owner[1:].split(".")))
    return "exs".index(owner[0]), numbers


class World:
    """The network of a trace's head; `is_right` says whether a MAC is, and `now` is what takes what is told of an event."""

    def __init__(self, head, is_right=macs.is_right, now=Now):
        self.network, profiles = provisioned(head)
        self.alarms, self.stations, self.strangers = Alarms(), Stations(), {}
        # By station the slots that may be connected or paged there, and the eNB ids of strangers: one too many does no harm.
        self.near, self.waiting = collections.defaultdict(set), collections.defaultdict(set)
        self.is_right = is_right
        self.subscribers = [self.subscriber(profile) for profile in profiles]
        self.by_imsi = {each.profile.imsi: each for each in self.subscribers}
        self.profiles = {profile.imsi: profile for profile in profiles}
        self.second, self.now = 0, now
        self.acts = {word: getattr(self, "on_" + word) for word in runs.EVENTS}

    def subscriber(self, profile):
        return Subscriber(self.network, profile, self.alarms, self.near, self.is_right)

    def add(self, profile):
        """There is one more subscriber."""
        made = self.by_imsi[profile.imsi] = self.subscriber(profile)
        self.profiles[profile.imsi] = profile
        self.subscribers.append(made)
        return made

    def lengthen(self, lines):
        """The head has these further lines."""
        for line in lines:
            word, *fields = line.decode("latin-1").split(" ")
            take_line(self.profiles, word, fields)
            if word == "sub":
                self.add(self.profiles[fields[0]])

    def forget(self, most):
        """Forgets what it knows for reasons alone, but for the last of it, `most` of a subscriber: so a run may have no end."""
        for subscriber in self.subscribers:
            subscriber.forget(most)
        self.strangers = {place: stranger for place, stranger in self.strangers.items() if not stranger.is_closed()}
        timers = [(timer, each.key()) for each in self.subscribers for timer in (each.procedure, each.reachable)]
        timers += [(each.timer, each.key()) for each in self.strangers.values()]
        self.alarms.renew((timer.ends, key) for timer, key in timers if timer)

    # --- Events ---

    def take(self, event):
        """What comes of an event: refusals or states as `refused K` or `state ..`, messages that are owed, and tellings."""
        now = self.now(event.line, self.second, event.station)
        answer = self.acts[event.word](now, event)
        if len(now.sent) > 1:
            now.sent.sort(key=lambda expected: (expected.second, order_of(expected.owner)))
        return answer, now.sent, now.tellings

    def on_up(self, now, event):
        if self.stations.state(event.station) is not DOWN:
            now.tell(station_owner(now), "connects", Why.CONNECTED_ALREADY, dropped=True, subject=STATION, station=event.station)
            return "refused %d" % ALREADY_UP
        self.stations.set(event.station, UP)
        now.tell(station_owner(now), "connects", subject=STATION)
        return None

    def on_lost(self, now, event):
        if self.stations.state(event.station) is DOWN:
            now.tell(station_owner(now), "is lost", Why.NOT_CONNECTED, dropped=True, subject=STATION, station=event.station)
            return "refused %d" % NOT_UP
        self.stations.set(event.station, DOWN)
        now.tell(station_owner(now), "is lost, and with it all its connections", subject=STATION)
        self.station_gone(now, "was lost", SCTP)
        return None

    def on_data(self, now, event):
        return self.on_notice(now, event, Subscriber.on_data, self.stations)

    def on_cancel(self, now, event):
        return self.on_notice(now, event, Subscriber.on_cancel, event.is_anew)

    def on_notice(self, now, event, act, more):
        subscriber = self.by_imsi.get(event.imsi)
        if subscriber is None:
            now.tell("", "is refused", Why.NO_SUCH_IMSI, dropped=True, subject=NOTICES[event.word], imsi=event.imsi)
            return "refused %d" % UNKNOWN_IMSI
        self.acting(now, act, subscriber, more)
        return None

    def on_show(self, _, event):
        return "state %s %s" % (event.imsi, self.by_imsi[event.imsi].states())

    def on_tick(self, now, event):
        """The seconds up to the end of a tick, those alone at which a timer ends."""
        end = self.second + event.ticks
        while due := self.alarms.due(end):
            now.second, keys = due
            for key in keys:
                self.on_time(now, key)
        self.second = now.second = end

    def on_time(self, now, key):
        if key[0] == 0:
            if key[1:] in self.strangers:
                self.strangers[key[1:]].on_time(now)
        else:
            subscriber = self.subscribers[key[1]]
            self.acting(now, Subscriber.on_time, subscriber)

    @staticmethod
    def acting(now, act, subscriber, *more):
        """A subscriber's act; where it needs a count that there isn't, the connection ends instead."""
        before = len(now.sent)
        try:
            act(subscriber, now, *more)
        except Spent:
            subscriber.spends_last(now, before)

    # --- Octets of a station ---

    def on_in(self, now, event):
        state = self.stations.states.get(event.station, DOWN)
        if state is DOWN:
            now.tell(station_owner(now), "isn't heard", Why.NOT_CONNECTED, dropped=True, station=event.station)
            return "refused %d" % NOT_UP
        now.hear(event.octets)
        kind = now.kind
        if now.message.fault:
            self.on_fault(now)
        elif state is READY and kind in OF_PHONES:
            self.on_phone(now, kind)
        elif kind == SETUP:
            self.on_setup(now)
        elif kind in NEVER_ANSWERED:
            now.tell(station_owner(now), "is taken without an answer")
        elif kind in OF_MME:
            self.not_compatible(now, Why.MME_MESSAGE)
        elif state is UP:
            self.not_compatible(now, Why.NOT_SET_UP, station=event.station)
        else:
            self.on_reset(now, now.message.get(RESET_TYPE))
        return None

    @staticmethod
    def not_compatible(now, why, **facts):
        now.tell(station_owner(now), "is refused", why, **facts)
        now.send_error(station_owner(now), NOT_COMPATIBLE, with_received_ids=False)

    @staticmethod
    def on_fault(now):
        """Octets that are no message of the profile (TS 36.413 clause 10)."""
        message = now.message
        if message.fault is Fault.UNKNOWN_PROCEDURE:
            why, answer = Why.UNKNOWN_PROCEDURE, UNKNOWN_CAUSES[message.criticality]
        else:
            why, answer = FAULTS[message.fault]
        now.tell(station_owner(now), "is refused", why, dropped=answer is None, fault=message.why, element=message.why)
        if answer:
            now.send_error(station_owner(now), cause(answer), with_received_ids=False)

    def on_setup(self, now):
        """S1 SETUP REQUEST (TS 36.413 clause 8.7.3): all that the station had before ends first."""
        self.station_gone(now, "set up again", SET_UP)
        areas = now.message.get(SUPPORTED_TAS)
        broadcast = sorted({plmn for item in areas for plmn in item["broadcast PLMNs"]})
        if self.network.plmn in broadcast:
            self.stations.set(now.station, READY, areas)
            now.tell(station_owner(now), "sets up the interface")
            served = {"PLMNs": [self.network.plmn], "MME groups": [self.network.group], "MME codes": [self.network.code]}
            now.send(station_owner(now), now.station, (s1ap.SETUP, 1), {GUMMEIS: [served], CAPACITY: 255}, "says which MME this is")
        else:
            self.stations.set(now.station, UP)
            now.tell(station_owner(now), "is refused", Why.OTHER_PLMN, broadcast=", ".join(broadcast), network=self.network.plmn)
            now.send(station_owner(now), now.station, (s1ap.SETUP, 2), {CAUSE: cause("misc unknown-PLMN")}, "refuses the set-up")

    def station_gone(self, now, how, clause):
        """All connections and strangers of the station end."""
        for stranger in self.strangers_of(now.station):
            stranger.close()
        for subscriber in self.subscribers_near(now.station):
            subscriber.on_station_gone(now, now.station, how, clause)

    def strangers_of(self, station):
        """The strangers of a station that aren't closed, in the order of their eNB ids."""
        self.waiting[station] = {enb_id for enb_id in self.waiting[station] if self.is_open(station, enb_id)}
        return [self.strangers[station, enb_id] for enb_id in sorted(self.waiting[station])]

    def is_open(self, station, enb_id):
        """Whether there is a stranger that isn't closed."""
        return (station, enb_id) in self.strangers and not self.strangers[station, enb_id].is_closed()

    def subscribers_near(self, station):
        """The subscribers that are connected or paged at a station, in the order of their slots."""
        self.near[station] = {slot for slot in self.near[station] if self.subscribers[slot].is_near(station)}
        return [self.subscribers[slot] for slot in sorted(self.near[station])]

    def on_reset(self, now, reset_type):
        """RESET of the interface or of a part of it (TS 36.413 clause 8.7.1)."""
        owner, items = station_owner(now), reset_type.get("part of S1 interface")
        if items is None:
            now.tell(owner, "resets the whole interface")
            self.station_gone(now, "reset the interface", RESET)
            now.send(owner, now.station, (s1ap.RESET, 1), {}, "acknowledges the reset")
            return
        self.tell_part(now, owner, items)
        for stranger in self.strangers_of(now.station):
            if any(map(stranger.place.is_listed, items)):
                stranger.close()
        for subscriber in self.subscribers_near(now.station):
            subscriber.on_part_reset(now, items)
        now.send(owner, now.station, (s1ap.RESET, 1), {RESET_LIST: items}, "acknowledges the reset")

    def tell_part(self, now, owner, items):
        """Says whose associations a RESET's list means, each once however often it is listed, and which of its ids nobody has."""
        meant = [(whose, place) for whose, place in self.associations_at(now.station) if any(map(place.is_listed, items))]
        nobodys = dict.fromkeys(listed_text(ids) for ids in items if not any(place.is_listed(ids) for _, place in meant))
        role = "resets nothing"
        if meant:
            role = "resets %s, of %s" % (runs.counted(len(meant), "association"), ", ".join(whose for whose, _ in meant))
        if nobodys:
            now.tell(owner, role, Why.NOBODY_RESET, station=now.station, ids=", ".join(nobodys))
        else:
            now.tell(owner, role)

    def associations_at(self, station):
        """Whose each association of a station is, in words, with its place."""
        for subscriber in self.subscribers_near(station):
            if subscriber.place and subscriber.place.station == station:
                yield "IMSI " + subscriber.profile.imsi, subscriber.place
        for stranger in self.strangers_of(station):
            if stranger.is_waiting():
                yield "a stranger with eNB id %d" % stranger.enb_id, stranger.place

    # --- Whose a message is ---

    def slot_of_tmsi(self, tmsi):
        """The subscriber of an M-TMSI, or None."""
        slot = tmsi // IDS_OF_A_SLOT if tmsi is not None else len(self.subscribers)
        return self.subscribers[slot] if slot < len(self.subscribers) else None

    def named(self, now, message):
        """The subscriber that the NAS message in an INITIAL UE MESSAGE names, or None (docs/PROFILE.md, Identities)."""
        if message.fault:
            return None
        if message.type == nas.SERVICE_REQUEST:
            identity = now.message.get(S_TMSI)
            known = identity and identity["MME code"] == self.network.code
            return self.slot_of_tmsi(identity["M-TMSI"]) if known else None
        if message.type not in (nas.ATTACH_REQUEST, nas.DETACH_REQUEST, nas.TAU_REQUEST):
            return None
        identity = message.fields["old GUTI" if message.type == nas.TAU_REQUEST else "EPS mobile identity"]
        if "IMSI" in identity:
            return self.by_imsi.get(identity["IMSI"])
        return self.slot_of_tmsi(self.network.tmsi_of(identity["GUTI"]))

    def on_initial(self, now, octets):
        message = nas.decode_emm(nas.named_message(octets), nas.UP)
        subscriber = self.named(now, message)
        if subscriber:
            self.acting(now, Subscriber.on_initial, subscriber, octets, message)
            return
        stranger = self.stranger(now.station, now.enb_id)
        holder = stranger.holder
        stranger.on_first(now, message)
        if holder:
            holder.on_displaced(now, stranger.mme_id)

    def stranger(self, station, enb_id):
        if (station, enb_id) not in self.strangers:
            self.strangers[station, enb_id] = Stranger(station, enb_id, self.alarms)
        self.waiting[station].add(enb_id)
        return self.strangers[station, enb_id]

    def on_phone(self, now, kind):
        """A phone's message, of a station that is set up: a first one, or one that names an association by its MME UE S1AP ID."""
        if kind == INITIAL_UE:
            self.on_initial(now, now.message.nas())
        elif now.mme_id < FIRST_STRANGER:
            slot = now.mme_id // IDS_OF_A_SLOT
            if slot < len(self.subscribers):
                self.acting(now, Subscriber.on_message, self.subscribers[slot])
            else:
                closed(now, station_owner(now), kind)
        else:
            self.on_stranger(now)

    def on_stranger(self, now):
        """A message with a stranger's id."""
        stranger = self.stranger(*stranger_of(now.mme_id))
        if stranger.holder:
            self.acting(now, Subscriber.on_message, stranger.holder)
            return
        claimed = stranger.on_message(now, self.by_imsi)
        if claimed:
            attach = stranger.attach
            self.acting(now, Subscriber.on_claim, claimed, stranger.place, attach.message, attach.area)


def station_owner(now):
    return "e%d" % now.station


def listed_text(ids):
    """An item of a RESET's list in words."""
    parts = (("MME id %d", ids.get("MME UE S1AP ID")), ("eNB id %d", ids.get("eNB UE S1AP ID")))
    return " with ".join(words % number for words, number in parts if number is not None) or "an item without ids"
