"""The tunnels of connected phones: their stations' ends, as the MME's answers say which of them hold.

A connection begins with the MME's INITIAL CONTEXT SETUP REQUEST, and has a tunnel from the RESPONSE on that comes from its station
with its ids. PATH SWITCH REQUEST ACKNOWLEDGE gives it that of the request. It ends with UE CONTEXT RELEASE COMMAND, with RESET
ACKNOWLEDGE, S1 SETUP or the loss of its station, and where the MME speaks with the phone on another connection.

Answers don't say which message they are to. So what stations said in a batch is looked at before what the MME answered to it: a
RESPONSE is to a REQUEST of an earlier batch, or it is to none. Where the answers leave it open whether a connection ended, the MME
is asked for the phone's states.
"""
import collections

from tools import s1ap
from tools.eps import messages
from tools.eps.elements import DONE_LIST, ENB_ID, RESET_LIST, SWITCHED_LIST

from tools.fronting.meters import CONTEXT_REQUEST, DOWNLINK, RESET_ACKNOWLEDGE, SETUP_RESPONSE

DEFAULT_BEARER = 5  # the E-RAB ID of a phone's one bearer
CONTEXT_RESPONSE = bytes([s1ap.SUCCESSFUL << 5, s1ap.CONTEXT_SETUP])
SWITCH = bytes([0, s1ap.PATH_SWITCH])
SWITCHED, NOT_SWITCHED = (bytes([outcome << 5, s1ap.PATH_SWITCH]) for outcome in (s1ap.SUCCESSFUL, s1ap.UNSUCCESSFUL))
RELEASE, SETUP_FAILURE = bytes([0, s1ap.RELEASE]), bytes([s1ap.UNSUCCESSFUL << 5, s1ap.SETUP])
OF_STATION = {CONTEXT_RESPONSE, SWITCH}
OF_MME = {CONTEXT_REQUEST, DOWNLINK, RESET_ACKNOWLEDGE, SETUP_RESPONSE, SETUP_FAILURE, SWITCHED, NOT_SWITCHED, RELEASE}
OF_STRANGER, BEGIN_ONE = {DOWNLINK, RELEASE}, {CONTEXT_REQUEST, SWITCHED, NOT_SWITCHED}
IDLE = " IDLE "  # in the states of a phone without a connection
REJECT, IGNORE = 0, 0x40  # criticalities, as the octet that begins with them
NO_TRANSPORT = b"\x10"  # the cause transport-resource-unavailable of the group transport (TS 36.413 clause 9.2.1.3)


def tunnel_of(bearers):
    """The address and the TEID that a list of bearers has for the default one; nothing where that isn't by IPv4."""
    for bearer in bearers or ():
        if bearer["E-RAB ID"] == DEFAULT_BEARER:
            address = bearer["transport layer address"].split(" ")[0]
            return (address, bearer["GTP-TEID"]) if address.count(".") == 3 else None
    return None


def ids_of(octets):
    """The MME UE S1AP ID and the eNB UE S1AP ID of what the MME sends."""
    return s1ap.ids(s1ap.read(octets))


def id_element(number, value):
    """An id in an element that is marked reject (TS 36.413 clauses 9.2.3.3 and 9.2.3.4)."""
    size = max(1, (value.bit_length() + 7) // 8)
    return number.to_bytes(2, "big") + bytes([REJECT, 1 + size, size - 1 << 6]) + value.to_bytes(size, "big")


def release_request(mme_id, enb_id):
    """UE CONTEXT RELEASE REQUEST of a station that has no room for the tunnel any more."""
    cause = s1ap.CAUSE.to_bytes(2, "big") + bytes([IGNORE, len(NO_TRANSPORT)]) + NO_TRANSPORT
    value = b"\0\0\3" + id_element(s1ap.MME_ID, mme_id) + id_element(s1ap.ENB_ID, enb_id) + cause
    return bytes([0, s1ap.RELEASE_REQUEST, IGNORE, len(value)]) + value


class Connection:
    """A phone's connection: its station, its ids, and its tunnel's end, once it has one."""

    __slots__ = ("station", "mme_id", "enb_id", "tunnel")

    def __init__(self, station, mme_id, enb_id, tunnel=None):
        self.station, self.mme_id, self.enb_id, self.tunnel = station, mme_id, enb_id, tunnel


class Connections:
    """The connections by slot, by MME UE S1AP ID, and by station and eNB UE S1AP ID, which several may share."""

    def __init__(self):
        self.by_slot, self.by_id, self.by_station = {}, {}, collections.defaultdict(dict)

    def put(self, slot, connection):
        """A phone has this connection, and no other."""
        self.remove(slot)
        self.by_slot[slot], self.by_id[connection.mme_id] = connection, slot
        self.by_station[connection.station].setdefault(connection.enb_id, set()).add(slot)

    def remove(self, slot):
        """A phone has none; the one that it had, or nothing."""
        connection = self.by_slot.pop(slot, None)
        if connection is not None:
            del self.by_id[connection.mme_id]
            at_station = self.by_station[connection.station]
            at_station[connection.enb_id].remove(slot)
            if not at_station[connection.enb_id]:
                del at_station[connection.enb_id]
        return connection

    def at(self, station):
        """The slots of those at a station."""
        return [slot for slots in self.by_station[station].values() for slot in slots]

    def slot_of(self, station, mme_id, enb_id):
        """Whose connection has this station and these ids; nobody's where there is none."""
        slot = self.by_id.get(mme_id)
        return slot if slot is not None and self.is_meant(slot, station, mme_id, enb_id) else None

    def is_meant(self, slot, station, mme_id, enb_id):
        """Whether a phone's connection has this station and each id that is given."""
        found = self.by_slot[slot]
        return found.station == station and mme_id in (None, found.mme_id) and enb_id in (None, found.enb_id)

    def listed(self, station, mme_id, enb_id):
        """The slots of the connections that an item of a RESET means."""
        if mme_id is None:
            return list(self.by_station[station].get(enb_id, ())) if enb_id is not None else []
        slot = self.by_id.get(mme_id)
        return [slot] if slot is not None and self.is_meant(slot, station, mme_id, enb_id) else []


class Bearers:
    """Takes batches that are answered, and tells the changes: `tell` is called with a slot and its tunnel, or nothing. `ask` is
    called with a slot whose states are to be told to `note`."""

    def __init__(self, tell, ask):
        self.tell, self.ask = tell, ask
        self.connections = Connections()
        self.before = {}  # by slot, the tunnel before the batch
        self.others = collections.defaultdict(set)  # by slot, the ids of other connections that the MME speaks on
        self.switches = collections.defaultdict(collections.deque)  # the tunnels of PATH SWITCH REQUESTs, by station and ids
        self.steps = {
            CONTEXT_REQUEST: self.begin, DOWNLINK: self.speak, RELEASE: self.release, SWITCHED: self.move, NOT_SWITCHED: self.stay}

    def tunnel(self, slot):
        """The tunnel of a phone, or nothing."""
        connection = self.connections.by_slot.get(slot)
        return connection and connection.tunnel

    def take(self, batch):
        """A batch whose lines are answered and kept."""
        for station, octets in batch.said:
            self.hear(station, octets)
        for slot, station, octets in batch.sent:
            self.answer(slot, station, octets)
        for slot, mme_ids in self.others.items():
            if slot in self.connections.by_slot and mme_ids - {self.connections.by_slot[slot].mme_id}:
                self.end(slot)
        for station in batch.lost:
            self.end_at(station)
        self.others.clear()
        self.switches.clear()
        self.tell_changes()

    def tell_changes(self):
        before, self.before = self.before, {}
        for slot, tunnel in before.items():
            if self.tunnel(slot) != tunnel:
                self.tell(slot, self.tunnel(slot))

    def note(self, slot, states):
        """The states of a phone that was asked for."""
        if IDLE in states:
            self.end(slot)
            self.tell_changes()

    # What stations say.

    def hear(self, station, octets):
        if octets[:2] == SWITCH:
            message = messages.decode(octets)
            if not message.fault:
                place = station, message.mme_id(), message.get(ENB_ID)
                self.switches[place].append(tunnel_of(message.get(SWITCHED_LIST)))
            return
        ids = (s1ap.number_in(s1ap.element(octets, number)) for number in (s1ap.MME_ID, s1ap.ENB_ID))
        slot = self.connections.slot_of(station, *ids)
        if slot is not None and self.tunnel(slot) is None:
            message = messages.decode(octets)
            if not message.fault:
                self.set_tunnel(slot, tunnel_of(message.get(DONE_LIST)))

    # What the MME answers.

    def answer(self, slot, station, octets):
        """What the MME sent to a station, for a subscriber or, without a slot, for a stranger or the station."""
        kind = octets[:2]
        if kind == RESET_ACKNOWLEDGE:
            self.reset(station, messages.decode(octets).get(RESET_LIST))
        elif kind in (SETUP_RESPONSE, SETUP_FAILURE):
            self.end_at(station)
        elif slot is not None:
            if kind in BEGIN_ONE or slot in self.connections.by_slot:
                self.steps[kind](slot, station, *ids_of(octets))
        elif kind in OF_STRANGER:
            self.displace(station, *ids_of(octets))

    def begin(self, slot, station, mme_id, enb_id):
        """INITIAL CONTEXT SETUP REQUEST."""
        self.put(slot, Connection(station, mme_id, enb_id))

    def move(self, slot, station, mme_id, enb_id):
        """PATH SWITCH REQUEST ACKNOWLEDGE."""
        waiting = self.switches[station, mme_id, enb_id]
        self.put(slot, Connection(station, mme_id, enb_id, waiting.popleft() if waiting else None))

    def stay(self, slot, station, mme_id, enb_id):
        """PATH SWITCH REQUEST FAILURE."""
        waiting = self.switches[station, mme_id, enb_id]
        if waiting:
            waiting.popleft()

    def speak(self, slot, station, mme_id, enb_id):
        """DOWNLINK NAS TRANSPORT: where it goes by another connection, and that isn't released at once, the phone has that one."""
        if self.connections.by_slot[slot].mme_id != mme_id:
            self.others[slot].add(mme_id)

    def release(self, slot, station, mme_id, enb_id):
        """UE CONTEXT RELEASE COMMAND. One of another connection may be of a refusal beside this one, which then stays, or the end
        of the phone's registration."""
        if self.connections.by_slot[slot].mme_id == mme_id:
            self.end(slot)
        else:
            self.others[slot].discard(mme_id)
            self.ask(slot)

    def displace(self, station, mme_id, enb_id):
        """Another phone is spoken to by ids that a stranger had who turned out to be a subscriber."""
        slot = self.connections.slot_of(station, mme_id, enb_id)
        if slot is not None:
            self.ask(slot)

    def reset(self, station, items):
        """RESET ACKNOWLEDGE, of a part with its items."""
        if items is None:
            self.end_at(station)
        for item in items or ():
            for slot in self.connections.listed(station, item.get("MME UE S1AP ID"), item.get("eNB UE S1AP ID")):
                self.end(slot)

    # Changes.

    def put(self, slot, connection):
        """A phone has this connection; one with its id has ended, whoever had it."""
        other = self.connections.by_id.get(connection.mme_id)
        if other is not None:
            self.end(other)
        self.before.setdefault(slot, self.tunnel(slot))
        self.connections.put(slot, connection)

    def set_tunnel(self, slot, tunnel):
        self.before.setdefault(slot, self.tunnel(slot))
        self.connections.by_slot[slot].tunnel = tunnel

    def end(self, slot):
        """A phone's connection has ended."""
        self.before.setdefault(slot, self.tunnel(slot))
        self.connections.remove(slot)

    def end_at(self, station):
        """All connections at a station have ended."""
        for slot in self.connections.at(station):
            self.end(slot)
