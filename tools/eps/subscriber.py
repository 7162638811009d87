"""One subscriber as the network keeps it: its procedures by TS 24.301 clauses 5 and 6 in the profile of docs/TABLE.md.

Each event gives what the MME owes for it, and says what the event was and why it did not do more.
"""
import enum
import functools

from tools import s1ap
from tools.eps import context as security
from tools.eps import identities, nas, timers
from tools.eps.context import Context, Refusal
from tools.eps.elements import AMBR, CAPABILITIES, CAUSE, CN_DOMAIN, PAGING_ID, PAGING_INDEX, SECURITY_CONTEXT, SECURITY_KEY
from tools.eps.elements import SETUP_LIST, TAI, TAI_LIST
from tools.eps.nas_elements import emm, esm, named, timer
from tools.eps.provisioned import FIRST_STRANGER, IDS_OF_A_SLOT, id_of_slot
from tools.eps.reasons import RESET, Why
from tools.eps.telling import (DETACHED, FAILED, NORMAL_RELEASE, NOT_COMPATIBLE, RADIO_UNSPECIFIED, UNKNOWN_ID, UNKNOWN_PAIR,
                               UNSPECIFIED)
from tools.eps.telling import Place, Said

BEARER = 5
PRIORITY = {"priority level": 15, "pre-emption capability": "shall not trigger pre-emption",
            "pre-emption vulnerability": "not pre-emptable"}
QOS = {"QCI": 9, "allocation and retention priority": PRIORITY}
PHONE, DATA, SUBSCRIPTION, FRONT = "the phone", "downlink data", "the subscription", "the front"  # what things are said of
# Why a registration ends by `cancel`: what that is said of, what it is, and how it is said of what ended by it.
WITHDRAWN = SUBSCRIPTION, "is withdrawn", "subscription was withdrawn"
BEGUN_ANEW = (FRONT, "begins the subscriber anew, since it was given lines for it, and the phone was sent other answers than those "
              "above; nobody withdrew the subscription", "subscriber was begun anew by the front")
EMM_SYNCH_FAILURE, EMM_MAC_FAILURE, EMM_NON_EPS = 21, 20, 26
IPV6, IPV4V6 = 2, 3
ASKS_INFORMATION = 1
COMBINED_ATTACH, COMBINED_UPDATES = 2, (1, 2)


class Phase(enum.Enum):
    """The phases of docs/TABLE.md, with the words of `show` for EMM."""
    DEREGISTERED = "Deregistered", "DEREGISTERED"
    AUTHENTICATING = "Authenticating", "COMMON-PROCEDURE-INITIATED"
    SECURITY_MODE = "SecurityMode", "COMMON-PROCEDURE-INITIATED"
    ESM_INFORMATION = "EsmInformation", "COMMON-PROCEDURE-INITIATED"
    ACCEPTING = "Accepting", "COMMON-PROCEDURE-INITIATED"
    REGISTERED = "Registered", "REGISTERED"
    UPDATING = "Updating", "COMMON-PROCEDURE-INITIATED"
    DETACHING = "Detaching", "DEREGISTERED-INITIATED"


DEREGISTERED, AUTHENTICATING, SECURITY_MODE, ESM_INFORMATION, ACCEPTING, REGISTERED, UPDATING, DETACHING = Phase
SERVED = (REGISTERED, UPDATING)
FIRST_CAUSES = {EMM_MAC_FAILURE: Why.MAC_FAILURE, EMM_NON_EPS: Why.NON_EPS}
FREE_OF_ANSWER = {nas.IDENTITY_RESPONSE, nas.EMM_STATUS}
ESM_OF_PHONE = {nas.ACTIVATE_ACCEPT, nas.CONNECTIVITY_REQUEST, nas.DISCONNECT_REQUEST, nas.INFORMATION_RESPONSE, nas.ESM_STATUS}
UPLINK, SWITCH = (s1ap.UPLINK_NAS, 0), (s1ap.PATH_SWITCH, 0)
RELEASE_REQUEST, RELEASED = (s1ap.RELEASE_REQUEST, 0), (s1ap.RELEASE, 1)
TAKEN_WITHOUT_ANSWER = {
    (s1ap.CONTEXT_SETUP, 1): "says that the phone's context is set up", (s1ap.CAPABILITY, 0): "gives the phone's radio capability",
    (s1ap.NON_DELIVERY, 0): "says that a message didn't reach the phone: its timer sends it again"}


class Subscriber:
    """What the network keeps of a subscriber, and what it does at each event."""

    def __init__(self, network, profile, alarms, near, is_right):
        self.network, self.profile, self.owner, self.alarms, self.near = network, profile, profile.owner, alarms, near
        self.is_right = is_right
        self.phase, self.place, self.context = DEREGISTERED, None, None
        self.associations = self.tmsis = self.spent = 0
        self.tmsi = self.area = self.vector = None
        self.bearer = "INACTIVE"
        self.procedure = self.reachable = None
        self.pages = []
        self.ended = {}  # of each association that ended the line and how
        self.earlier = 0  # associations that it had before a snapshot, each but the current one ended
        self.contexts = []
        self.capability, self.combined, self.pdn_type, self.transaction, self.asks_information = b"\0\0", False, 1, 0, False
        self.from_idle = False
        self.how = "it hasn't attached yet"

    def forget(self, most):
        """Forgets which lines ended its associations and brought its counts, but for so many of the last."""
        self.ended = dict(list(self.ended.items())[-most:])
        if self.context:
            self.context.accepted = dict(list(self.context.accepted.items())[-most:])

    # --- What everything is made of ---

    def phase_text(self):
        return "%s%s" % (self.phase.value[0], " (%s)" % self.how if self.phase is DEREGISTERED else
                         (" connected" if self.place else " idle") if self.phase is REGISTERED else "")

    def is_amid(self):
        """Whether a procedure is under way that the phone or a station is to go on with."""
        return self.phase not in (DEREGISTERED, REGISTERED)

    def states(self):
        return "%s %s %s" % (self.phase.value[1], "CONNECTED" if self.place else "IDLE", self.bearer)

    def tell(self, now, role, why=None, dropped=False, lines=(), **facts):
        """Says what the message that was heard was; with `subject` what something else was."""
        now.tell(self.owner, role, why, dropped, lines, **facts)

    def refuses(self, now, role, refusal, dropped=False):
        self.tell(now, role, refusal.why, dropped, refusal.lines, **refusal.facts)

    def send(self, now, said, role, repeat=None):
        now.send_nas(self.owner, self.place, said, role, repeat)

    def protected(self, said, header=nas.CIPHERED):
        return said.under(header, self.context)

    def start(self, now, kind, again=None):
        """A timer runs; at its end `again` sends what it waits for once more."""
        running = timers.Running(kind, now, again)
        if kind is timers.REACHABLE:
            self.reachable = running
        else:
            self.procedure = running
        self.alarms.note(running.ends, self.key())
        return running

    def key(self):
        return (1, self.profile.slot)

    def move_to(self, place):
        """The connection is at an association."""
        self.place = place
        self.near[place.station].add(self.profile.slot)

    def is_near(self, station):
        """Whether it is connected or paged at a station."""
        return self.place is not None and self.place.station == station or station in self.pages

    def next_place(self, now):
        """An association of the phone's next id."""
        self.associations = (self.associations + 1) % IDS_OF_A_SLOT
        return Place(id_of_slot(self.profile.slot, self.associations), now.station, now.enb_id, now.line)

    def connect(self, now, place=None):
        """The phone's connection, at the sending station; an old one elsewhere ends."""
        old = self.place
        self.move_to(place or self.next_place(now))
        if old and not old.is_at(now.station, now.enb_id):
            now.send_release(self.owner, old, NORMAL_RELEASE, "ends the phone's old connection")
        if old:
            self.ended[old.mme_id] = now.line, "the phone came anew"

    def leave(self, now, how):
        """The connection is gone."""
        if self.place:
            self.ended[self.place.mme_id] = now.line, how
        self.place = None

    def release(self, now, why, role):
        if self.place:
            now.send_release(self.owner, self.place, why, role)
        self.leave(now, role)

    def wipe(self, how, keeps_place=False):
        self.phase, self.context, self.tmsi, self.bearer, self.how = DEREGISTERED, None, None, "INACTIVE", how
        self.procedure = self.reachable = None
        self.pages = []
        if not keeps_place:
            self.place = None

    def falls(self, now, how):
        """What is left when a connection has ended: a registered phone is idle, any other is forgotten."""
        if self.phase in SERVED:
            self.phase, self.procedure = REGISTERED, None
            self.start(now, timers.REACHABLE)
        else:
            self.wipe(how)

    def fall(self, now, why, role):
        self.release(now, why, role)
        self.falls(now, role)

    def refuse(self, now, said, why_text):
        """A request is refused on an association of its own; all else stays."""
        aside = self.next_place(now)
        now.send_nas(self.owner, aside, said, why_text)
        now.send_release(self.owner, aside, NORMAL_RELEASE, "ends the association that the refusal went by")
        self.ended[aside.mme_id] = now.line, "it was for the refusal alone"

    def accepted(self, octets, headers, line):
        """The message in a protected one, or the refusal."""
        if self.context is None:
            return Refusal(Why.NO_CONTEXT, {})
        return self.context.accept(octets, headers, line)

    # --- First messages ---

    def on_initial(self, now, octets, message):
        """An INITIAL UE MESSAGE whose NAS message, of these octets, names the phone."""
        if message.type == nas.ATTACH_REQUEST:
            self.attach(now, message, now.message.get(TAI))
        elif message.type == nas.SERVICE_REQUEST:
            self.serve(now, message)
        elif message.type == nas.TAU_REQUEST:
            self.update_first(now, octets, message)
        else:
            self.detach_first(now, octets, message)

    def on_claim(self, now, place, attach, area):
        """A stranger turned out to be the phone: its attach is taken over with its association."""
        self.attach(now, attach, area, place)

    def attach(self, now, message, area, place=None):
        self.connect(now, place)
        self.wipe("it attaches", keeps_place=True)
        self.area, self.capability = area, capability_octets(message)
        self.combined = message.fields["EPS attach type"].number == COMBINED_ATTACH
        inside = message.fields["ESM message container"]
        fault = self.attach_fault(inside)
        if fault:
            self.reject_attach(now, *fault)
            return
        self.pdn_type, self.transaction = inside.fields["PDN type"].number, inside.fields["procedure transaction identity"]
        self.asks_information = bool(inside.fields.get("ESM information transfer flag", 0) & ASKS_INFORMATION)
        self.tell(now, "begins an attach")
        self.challenge(now)

    def attach_fault(self, inside):
        """Why an attach is refused: the reason, the reject, and facts; or nothing."""
        if inside.fault or inside.type != nas.CONNECTIVITY_REQUEST:
            return Why.UNREADABLE_ESM, attach_reject(96), {}
        if inside.fields["PDN type"].number == IPV6:
            refused = Said(nas.CONNECTIVITY_REJECT, {**of_transaction(inside), "ESM cause": esm(50)}, is_esm=True)
            return Why.IPV6_ALONE, attach_reject(19, refused), {}
        if not self.capability[1] & identities.EIA2_BIT:
            return Why.NO_EIA2, attach_reject(111), {}
        return self.no_vector()

    def no_vector(self):
        if self.spent < self.profile.count():
            return None
        return Why.NO_VECTOR, attach_reject(17), {"vectors": self.spent}

    def reject_attach(self, now, why, said, facts):
        self.tell(now, "is refused", why, **facts)
        self.send(now, said, "refuses the attach")
        self.release(now, NORMAL_RELEASE, "the attach was refused")
        self.wipe("its attach was refused")

    def challenge(self, now):
        """The next vector's challenge."""
        self.vector = self.profile.vectors[self.spent - self.profile.gone]
        self.spent += 1
        self.phase = AUTHENTICATING
        self.send_challenge(now)
        self.start(now, timers.T3460_CHALLENGE, self.send_challenge)

    def send_challenge(self, now, repeat=None):
        fields = {nas.KEY_SET: self.vector.key_set, "RAND": self.vector.rand.hex(), "AUTN": self.vector.autn.hex()}
        self.send(now, Said(nas.AUTHENTICATION_REQUEST, fields), "challenges the phone by vector %d" % self.vector.number, repeat)

    def serve(self, now, message):
        """SERVICE REQUEST (clause 5.6.1)."""
        if self.phase not in SERVED:
            self.tell(now, "is refused", Why.NOT_REGISTERED, phase=self.phase_text(), clause="5.6.1.5")
            self.refuse(now, service_reject(10), "refuses the service")
            return
        refusal = self.context.accept_short(message.octets, now.line)
        if refusal:
            self.refuses(now, "is refused", refusal)
            self.refuse(now, service_reject(9), "refuses the service")
            return
        self.tell(now, "asks for service, and is proved by count %d" % self.context.last)
        self.connect(now)
        self.procedure = self.reachable = None
        self.phase = REGISTERED
        self.context.make_radio_key(self.context.last)
        self.set_up_context(now, None)

    def update_first(self, now, octets, message):
        """TRACKING AREA UPDATE REQUEST as a first message (clause 5.5.3.2)."""
        if self.phase not in SERVED:
            self.tell(now, "is refused", Why.NOT_REGISTERED, phase=self.phase_text(), clause="5.5.3.2.5")
            self.refuse(now, update_reject(10), "refuses the update")
            return
        inside = self.accepted(octets, security.LATER, now.line)
        if isinstance(inside, Refusal):
            self.refuses(now, "is refused", inside)
            self.refuse(now, update_reject(9), "refuses the update")
            return
        self.connect(now)
        self.procedure = self.reachable = None
        self.update(now, message, from_idle=True)

    def update(self, now, message, from_idle):
        self.tell(now, "updates its tracking area")
        self.area, self.from_idle = now.message.get(TAI), from_idle
        self.combined = message.fields["EPS update type"].number in COMBINED_UPDATES
        self.next_tmsi()
        self.phase = UPDATING
        self.send_update(now)
        self.start(now, timers.T3450_UPDATE, self.send_update)

    def next_tmsi(self):
        self.tmsis = (self.tmsis + 1) % IDS_OF_A_SLOT
        self.tmsi = id_of_slot(self.profile.slot, self.tmsis)

    def send_update(self, now, repeat=None):
        fields = {"EPS update result": "TA updated", "T3412 value": timer(nas.T3412_OCTET), "GUTI": self.guti(),
                  "TAI list": self.tai()}
        said = Said(nas.TAU_ACCEPT, fields | self.eps_alone())
        self.send(now, self.protected(said), "accepts the update with a new GUTI", repeat)

    def guti(self):
        return {"GUTI": self.network.guti(self.tmsi)}

    def tai(self):
        """The accepted tracking area in the form of NAS."""
        return {"PLMN": nas_text_of(self.area["PLMN"]), "TAC": self.area["TAC"]}

    def eps_alone(self):
        return {"EMM cause": emm(18)} if self.combined else {}

    def detach_first(self, now, octets, message):
        """DETACH REQUEST as a first message (clause 5.5.2.2)."""
        switched_off = message.fields["switch off"]
        if self.phase is DEREGISTERED:
            self.tell(now, "detaches, though it isn't registered")
            self.connect(now)
            self.accept_detach(now, Said(nas.DETACH_ACCEPT, {}), switched_off)
            return
        inside = self.accepted(octets, security.LATER, now.line)
        if isinstance(inside, Refusal):
            self.refuses(now, "does nothing to the phone", inside)
            aside = self.next_place(now)
            now.send_release(self.owner, aside, NORMAL_RELEASE, "ends the association of a detach that isn't proved")
            self.ended[aside.mme_id] = now.line, "its detach wasn't proved"
            return
        self.tell(now, "detaches" + (" as it is switched off" if switched_off else ""))
        self.connect(now)
        self.accept_detach(now, None if switched_off else self.protected(Said(nas.DETACH_ACCEPT, {})), switched_off)

    def accept_detach(self, now, said, switched_off):
        if not switched_off:
            self.send(now, said, "accepts the detach")
        self.release(now, DETACHED, "the phone detached")
        self.wipe("it detached")

    # --- Messages with an MME UE S1AP ID that is the phone's ---

    def on_message(self, now):
        kind, place = now.kind, self.place
        if kind == RELEASED:
            now.tell(self.owner, "completes a release, which had ended the association already")
        elif place is None or place.mme_id != now.mme_id:
            self.on_other_id(now, kind)
        elif kind == SWITCH:
            self.on_switch(now)
        elif place.station != now.station or place.enb_id != now.enb_id:
            self.tell(now, "isn't the phone's", Why.WRONG_PAIR, lines=(place.line,), mme_id=now.mme_id, station=place.station,
                      enb_id=place.enb_id)
            now.send_error(self.owner, UNKNOWN_PAIR)
        else:
            self.on_connection(now, kind)

    def end_of(self, mme_id):
        """The line at which an association ended, and how; both None where that was before a snapshot, and nothing where there was
        no such association."""
        counter = mme_id - id_of_slot(self.profile.slot, 0)
        return self.ended.get(mme_id, (None, None) if 0 < counter <= self.earlier else None)

    def on_other_id(self, now, kind):
        end = self.end_of(now.mme_id)
        if end is None:
            self.tell(now, "is of nobody", Why.NO_ASSOCIATION, mme_id=now.mme_id)
        else:
            line, how = end
            self.tell(now, "comes too late", Why.ASSOCIATION_ENDED, lines=(line,), mme_id=now.mme_id, line=line, how=how)
        if kind == SWITCH:
            now.send_switch_failure(self.owner, UNKNOWN_ID)
        else:
            now.send_error(self.owner, UNKNOWN_ID)

    def on_switch(self, now):
        """PATH SWITCH REQUEST (TS 36.413 clause 8.4.4)."""
        if now.mme_id >= FIRST_STRANGER:
            self.tell(now, "fails", Why.SWITCH_OF_STRANGER, mme_id=now.mme_id)
            now.send_switch_failure(self.owner, UNKNOWN_ID)
        elif self.phase not in SERVED:
            self.tell(now, "fails", Why.SWITCH_UNREGISTERED, phase=self.phase_text())
            now.send_switch_failure(self.owner, NOT_COMPATIBLE)
        else:
            self.tell(now, "moves the phone's connection from station %d to station %d" % (self.place.station, now.station))
            self.move_to(Place(now.mme_id, now.station, now.enb_id, now.line))
            self.context.take_hop()
            values = {0: now.mme_id, 8: now.enb_id, SECURITY_CONTEXT: {
                "next hop chaining count": self.context.chaining, "NH": self.context.next_hop}}
            now.send(self.owner, now.station, (s1ap.PATH_SWITCH, 1), values, "gives the next hop")

    def on_connection(self, now, kind):
        """A message on the phone's own connection."""
        if kind == UPLINK:
            self.on_nas(now, now.message.nas())
        elif kind in TAKEN_WITHOUT_ANSWER:
            now.tell(self.owner, TAKEN_WITHOUT_ANSWER[kind])
        elif kind == RELEASE_REQUEST:
            [(group, name)] = now.message.get(CAUSE).items()
            self.tell(now, "asks for the connection's release: %s %s" % (group, name))
            self.fall(now, RADIO_UNSPECIFIED if name.number is None else {group: name}, "the station asked for the release")
        else:
            self.tell(now, "ends the connection", Why.CONTEXT_FAILED)
            self.fall(now, RADIO_UNSPECIFIED, "the station couldn't set up the context")

    # --- NAS on the connection ---

    def on_nas(self, now, octets):
        if self.phase is AUTHENTICATING:
            self.while_authenticating(now, octets)
        elif self.phase is SECURITY_MODE:
            self.while_securing(now, octets)
        else:
            inside = self.accepted(octets, security.LATER, now.line)
            if isinstance(inside, Refusal):
                self.refuses(now, "is dropped", inside, dropped=True)
            else:
                self.on_protected(now, nas.decode_plain(inside.inner, nas.UP))

    def while_authenticating(self, now, octets):
        """Clause 5.4.2: the answer to the challenge, plain."""
        if octets[:1] != bytes([nas.PLAIN_EMM]):
            self.tell(now, "is dropped", Why.NO_CONTEXT, dropped=True)
            return
        message = nas.decode_emm(octets, nas.UP)
        if message.fault:
            self.status(now, message)
        elif message.type == nas.AUTHENTICATION_RESPONSE:
            self.on_response(now, message.fields["RES"])
        elif message.type == nas.AUTHENTICATION_FAILURE:
            self.on_failure(now, message.fields["EMM cause"].number)
        elif message.type == nas.DETACH_REQUEST:
            self.tell(now, "detaches in the midst of the attach")
            self.accept_detach(now, Said(nas.DETACH_ACCEPT, {}), message.fields["switch off"])
        else:
            self.status(now, message)

    def on_response(self, now, res):
        if res != self.vector.xres.hex():
            self.on_wrong_response(now, res)
            return
        self.tell(now, "proves the phone by RES of vector %d" % self.vector.number)
        self.make_context(self.vector)
        self.phase = SECURITY_MODE
        self.send_security_mode(now)
        self.start(now, timers.T3460_SECURITY, self.send_security_mode)

    def make_context(self, vector):
        """The phone has a context by a vector; those of the vectors that were gone before a snapshot aren't known."""
        gone = self.profile.gone - sum(known.number <= self.profile.gone for known in (*self.contexts, vector))
        self.context = Context(vector, [old for old in self.contexts if old is not vector], self.is_right, gone <= 0)
        self.contexts.append(vector)

    def on_wrong_response(self, now, res):
        other = next((vector for vector in self.profile.vectors if vector.xres.hex() == res), None)
        if other:
            self.tell(now, "fails", Why.OTHER_RES, vector=self.vector.number, other=other.number)
        else:
            self.tell(now, "fails", Why.WRONG_RES, vector=self.vector.number)
        self.reject_authentication(now)

    def send_security_mode(self, now, repeat=None):
        fields = {"selected NAS security algorithms": {"ciphering": "EEA0", "integrity": "EIA2"}, nas.KEY_SET: self.context.key_set,
                  "replayed UE security capabilities": replayed(self.capability)}
        said = self.protected(Said(nas.SECURITY_MODE_COMMAND, fields), nas.NEW_CONTEXT)
        self.send(now, said, "takes the keys of vector %d into use" % self.context.vector.number, repeat)

    def on_failure(self, now, cause):
        """AUTHENTICATION FAILURE (clause 5.4.2.7)."""
        if cause != EMM_SYNCH_FAILURE:
            self.tell(now, "fails", FIRST_CAUSES.get(cause, Why.REFUSED_CHALLENGE), vector=self.vector.number)
            self.reject_authentication(now)
            return
        fault = self.no_vector()
        if fault:
            self.reject_attach(now, *fault)
            return
        self.tell(now, "asks for another challenge", Why.SYNCH_FAILURE, vector=self.vector.number)
        self.challenge(now)

    def reject_authentication(self, now):
        self.send(now, Said(nas.AUTHENTICATION_REJECT, {}), "refuses the phone")
        self.release(now, FAILED, "the phone's authentication failed")
        self.wipe("its authentication failed")

    def while_securing(self, now, octets):
        """Clause 5.4.3: SECURITY MODE COMPLETE under the new context, or a plain SECURITY MODE REJECT."""
        if octets[:1] == bytes([nas.PLAIN_EMM]):
            message = nas.decode_emm(octets, nas.UP)
            if message.type == nas.SECURITY_MODE_REJECT and not message.fault:
                self.tell(now, "ends the attach", Why.SECURITY_REFUSED)
                self.fall(now, UNSPECIFIED, "the phone refused the security mode")
                return
        inside = self.accepted(octets, security.COMPLETING, now.line)
        if isinstance(inside, Refusal):
            self.refuses(now, "is dropped", inside, dropped=True)
            return
        message = nas.decode_plain(inside.inner, nas.UP)
        if message.fault or message.is_esm or message.type != nas.SECURITY_MODE_COMPLETE:
            self.tell(now, "is dropped, and its count stays accepted", Why.NOT_COMPLETE, dropped=True)
            return
        self.tell(now, "completes the security mode, by count %d" % self.context.last)
        self.context.make_radio_key(self.context.last)
        if self.asks_information:
            self.phase = ESM_INFORMATION
            self.ask_information(now)
            self.start(now, timers.T3489, self.ask_information)
        else:
            self.accept(now)

    def ask_information(self, now, repeat=None):
        fields = {"EPS bearer identity": 0, "procedure transaction identity": self.transaction}
        said = Said(nas.INFORMATION_REQUEST, fields, is_esm=True)
        self.send(now, self.protected(said), "asks for the ESM information that the phone has", repeat)

    def accept(self, now):
        """The attach is accepted, and the context set up at the station."""
        self.next_tmsi()
        self.bearer, self.phase = "ACTIVE-PENDING", ACCEPTING
        self.set_up_context(now, self.protected(self.acceptance()))
        self.start(now, timers.T3450_ATTACH, self.send_acceptance)

    def send_acceptance(self, now, repeat=None):
        self.send(now, self.protected(self.acceptance()), "accepts the attach", repeat)

    def acceptance(self):
        bearer = {"EPS bearer identity": BEARER, "procedure transaction identity": self.transaction, "EPS QoS": {"QCI": 9},
                  "access point name": self.network.apn, "PDN address": {"PDN type": "IPv4", "address": self.profile.address}}
        bearer |= {"ESM cause": esm(50)} if self.pdn_type == IPV4V6 else {}
        fields = {"EPS attach result": "EPS only", "T3412 value": timer(nas.T3412_OCTET), "TAI list": self.tai(),
                  "ESM message container": Said(nas.ACTIVATE_REQUEST, bearer, is_esm=True), "GUTI": self.guti()}
        return Said(nas.ATTACH_ACCEPT, fields | self.eps_alone())

    def set_up_context(self, now, said):
        """INITIAL CONTEXT SETUP REQUEST with KeNB and the default bearer (TS 36.413 clause 9.1.4.1)."""
        item = {"E-RAB ID": BEARER, "E-RAB level QoS parameters": QOS, "transport layer address": self.profile.gateway,
                "GTP-TEID": self.profile.teid}
        down, up = self.network.rates
        values = {0: self.place.mme_id, 8: self.place.enb_id, AMBR: {"down": down, "up": up}, SETUP_LIST: [item],
                  CAPABILITIES: shifted(self.capability), SECURITY_KEY: self.context.radio_key}
        role = "accepts the attach, and gives the station the phone's context" if said else "gives the station the phone's context"
        now.send(self.owner, self.place.station, (s1ap.CONTEXT_SETUP, 0), values, role, said)

    def on_protected(self, now, message):
        """A message that the phone's context proves (clauses 5.5, 6.4 to 6.6)."""
        if message.fault:
            self.status(now, message)
        elif message.is_esm:
            self.on_session(now, message)
        elif message.type == nas.ATTACH_COMPLETE and self.phase is ACCEPTING:
            self.on_attach_complete(now, message.fields["ESM message container"])
        elif message.type == nas.TAU_COMPLETE and self.phase is UPDATING:
            self.on_update_complete(now)
        elif message.type == nas.TAU_REQUEST and self.phase is REGISTERED:
            self.update(now, message, from_idle=False)
        elif message.type == nas.DETACH_REQUEST:
            self.tell(now, "detaches")
            switched_off = message.fields["switch off"]
            self.accept_detach(now, None if switched_off else self.protected(Said(nas.DETACH_ACCEPT, {})), switched_off)
        elif message.type == nas.DETACH_ACCEPT and self.phase is DETACHING:
            self.tell(now, "completes the network's detach")
            self.release(now, DETACHED, "the phone accepted the network's detach")
            self.wipe("its subscription was withdrawn")
        else:
            self.status(now, message)

    def on_attach_complete(self, now, inside):
        if inside.fault or inside.type != nas.ACTIVATE_ACCEPT:
            self.tell(now, "ends the attach", Why.BEARER_REFUSED)
            self.fall(now, UNSPECIFIED, "the phone didn't accept the default bearer")
            return
        self.tell(now, "completes the attach: the phone is registered")
        self.phase, self.bearer, self.procedure = REGISTERED, "ACTIVE", None

    def on_update_complete(self, now):
        self.tell(now, "completes the update")
        self.phase, self.procedure = REGISTERED, None
        if self.from_idle:
            self.fall(now, NORMAL_RELEASE, "the update came from idle and is complete")

    def on_session(self, now, message):
        """An ESM message (clause 6)."""
        if message.type == nas.INFORMATION_RESPONSE and self.phase is ESM_INFORMATION:
            transaction = message.fields["procedure transaction identity"]
            if transaction != self.transaction:
                self.tell(now, "is dropped", Why.OTHER_TRANSACTION, dropped=True, transaction=transaction, wanted=self.transaction)
                return
            self.tell(now, "gives the ESM information")
            self.accept(now)
        elif message.type == nas.CONNECTIVITY_REQUEST:
            self.tell(now, "is refused", Why.FURTHER_CONNECTION)
            self.reject_session(now, message, nas.CONNECTIVITY_REJECT, 31)
        elif message.type == nas.DISCONNECT_REQUEST:
            self.tell(now, "is refused", Why.LAST_CONNECTION)
            self.reject_session(now, message, nas.DISCONNECT_REJECT, 49)
        else:
            self.status(now, message)

    def reject_session(self, now, message, kind, cause):
        fields = {**of_transaction(message), "ESM cause": esm(cause)}
        self.send(now, self.protected(Said(kind, fields, is_esm=True)), "refuses it")

    def status(self, now, message):
        """A message that nothing waits for, or that can't be read (clause 7)."""
        if message.fault is nas.Fault.TOO_SHORT:
            self.tell(now, "is dropped", Why.TOO_SHORT, dropped=True)
            return
        if not message.fault and message.type in ((nas.ESM_STATUS,) if message.is_esm else FREE_OF_ANSWER):
            self.tell(now, "is taken without an answer")
            return
        why, cause, facts = self.status_cause(message)
        self.tell(now, "is answered by a status", why, **facts)
        if message.is_esm:
            fields = {"EPS bearer identity": message.octets[0] >> 4, "procedure transaction identity": message.octets[1],
                      "ESM cause": esm(cause)}
        else:
            fields = {"EMM cause": emm(cause)}
        said = Said(nas.ESM_STATUS if message.is_esm else nas.EMM_STATUS, fields, message.is_esm)
        self.send(now, said if self.phase is AUTHENTICATING else self.protected(said), "says what is wrong")

    def status_cause(self, message):
        unknown = message.fault is nas.Fault.UNKNOWN_TYPE
        if message.fault and not unknown:
            return Why.UNREADABLE, 96, {"fault": message.why}
        if unknown or message.is_esm and message.type not in ESM_OF_PHONE:
            return Why.UNKNOWN_TYPE, 97, {}
        return Why.UNEXPECTED, 98, {"phase": self.phase_text()}

    # --- What isn't a message of the phone ---

    def loses_place(self, now, why, **facts):
        """The connection has ended, and nothing is sent for it."""
        self.tell(now, "loses its connection", why, lines=(self.place.line,), subject=PHONE, **facts)
        self.leave(now, facts.get("how", "another phone came there"))
        self.falls(now, "its connection was lost")

    def on_station_gone(self, now, station, how, clause):
        self.pages = [page for page in self.pages if page != station]
        if self.place and self.place.station == station:
            self.loses_place(now, Why.STATION_GONE, station=station, how=how, clause=clause)

    def on_part_reset(self, now, items):
        if self.place and self.place.station == now.station and any(map(self.place.is_listed, items)):
            self.loses_place(now, Why.STATION_GONE, station=now.station, how="reset the phone's association", clause=RESET)

    def on_displaced(self, now, mme_id):
        if self.place and self.place.mme_id == mme_id:
            self.loses_place(now, Why.DISPLACED, station=self.place.station, enb_id=self.place.enb_id)

    def on_data(self, now, stations):
        """Downlink data waits: an idle phone is paged (clause 5.6.2)."""
        if self.phase is not REGISTERED or self.place:
            self.tell(now, "waits, and nothing is sent", Why.NOT_PAGED, dropped=True, subject=DATA, phase=self.phase_text())
            return
        if self.procedure:
            self.tell(now, "waits, and nothing is sent", Why.PAGED_ALREADY, dropped=True, subject=DATA)
            return
        self.pages = stations.broadcasting(self.area)
        for station in self.pages:
            self.near[station].add(self.profile.slot)
        if self.pages:
            self.tell(now, "waits, and the phone is paged", subject=DATA)
        else:
            self.tell(now, "waits, and nothing is sent", Why.NO_CELL, subject=DATA, tac=self.area["TAC"])
        self.page(now)
        self.start(now, timers.T3413, self.page)

    def page(self, now, repeat=None):
        values = {PAGING_INDEX: int(self.profile.imsi) % 1024, CN_DOMAIN: "ps", TAI_LIST: [{"TAI": self.area}],
                  PAGING_ID: {"S-TMSI": {"MME code": self.network.code, "M-TMSI": self.tmsi}}}
        for station in self.pages:
            now.send(self.owner, station, (s1ap.PAGING, 0), values, "pages the phone", repeat=repeat)

    def on_cancel(self, now, is_anew=False):
        """The subscription is withdrawn (clause 5.5.2.3), or the front begins the subscriber anew."""
        subject, role, ended = BEGUN_ANEW if is_anew else WITHDRAWN
        if self.phase in SERVED and self.place:
            self.tell(now, role + ": the network detaches the phone", subject=subject)
            self.phase = DETACHING
            self.send_detach(now)
            self.start(now, timers.T3422, self.send_detach)
        elif self.phase is REGISTERED:
            self.tell(now, role + ": the idle phone is forgotten", subject=subject)
            self.wipe("its " + ended)
        elif self.phase in (DEREGISTERED, DETACHING):
            self.tell(now, role, Why.NOTHING_TO_END, dropped=True, subject=subject, phase=self.phase_text())
        else:
            self.tell(now, role + (": the attach ends" if is_anew else " in the midst of the attach"), subject=subject)
            self.release(now, DETACHED, "the " + ended)
            self.wipe("its " + ended)

    def send_detach(self, now, repeat=None):
        said = Said(nas.DETACH_REQUEST, {"detach type": named({2: "re-attach not required"}, 2)})
        self.send(now, self.protected(said), "detaches the phone", repeat)

    # --- Time ---

    def on_time(self, now):
        """A second at which a timer may end; the procedure's goes first."""
        if self.procedure and self.procedure.ends == now.second:
            self.on_procedure_end(now)
        if self.reachable and self.reachable.ends == now.second:
            self.tell(now, "is forgotten", Why.UNREACHABLE, subject=PHONE, seconds=timers.REACHABLE.seconds)
            self.wipe("it was idle for too long")

    def on_procedure_end(self, now):
        running = self.procedure
        if not running.is_used_up():
            running.again(now, running.repeat())
            running.restart(now)
            self.alarms.note(running.ends, self.key())
        elif running.kind is timers.T3413:
            self.tell(now, "is paged no more", Why.PAGING_ENDED, subject=PHONE)
            self.procedure, self.pages = None, []
        else:
            self.tell(now, "is given up", Why.GAVE_UP, lines=(running.line,), subject=PHONE, **running.facts())
            self.fall(now, UNSPECIFIED, "%s ended too often" % running.kind.name)

    def spends_last(self, now, before):
        """A context has no downlink count left: the connection is released and the phone forgotten."""
        now.sent[before:] = []
        self.tell(now, "loses its connection", Why.COUNTS_SPENT, subject=PHONE)
        self.release(now, UNSPECIFIED, "the counts are spent")
        self.wipe("its counts were spent")


# --- What messages are made of ---


def attach_reject(cause, inside=None):
    return Said(nas.ATTACH_REJECT, {"EMM cause": emm(cause)} | ({"ESM message container": inside} if inside else {}))


def service_reject(cause):
    return Said(nas.SERVICE_REJECT, {"EMM cause": emm(cause)})


def update_reject(cause):
    return Said(nas.TAU_REJECT, {"EMM cause": emm(cause)})


def of_transaction(message):
    """The bearer and the transaction of an answer to an ESM message."""
    return {"EPS bearer identity": 0, "procedure transaction identity": message.fields["procedure transaction identity"]}


def capability_octets(message):
    """The octets of UE network capability in an ATTACH REQUEST: after type, key set and identity (clause 8.2.4)."""
    at = 4 + message.octets[3]
    return message.octets[at + 1:at + 1 + message.octets[at]]


@functools.lru_cache(1 << 8)
def replayed(capability):
    """The capability as SECURITY MODE COMMAND replays it (clause 9.9.3.36): EEA and EIA; of UMTS the third octet, and the fourth
    without its first bit."""
    value = {"EEA": identities.algorithms(identities.EEA, capability[0]),
             "EIA": identities.algorithms(identities.EIA, capability[1])}
    if len(capability) >= 4:
        value |= {"UEA": identities.algorithms(identities.UEA, capability[2]),
                  "UIA": identities.algorithms(identities.UIA, capability[3] & 0x7F)}
    return value


@functools.lru_cache(1 << 8)
def shifted(capability):
    """The capability as S1AP has it: the algorithms from 1 on (TS 36.413 clause 9.2.1.40)."""
    encryption, integrity = (identities.algorithms(identities.numbered(prefix, 1), octet << 1 & 0xFF)
                             for prefix, octet in zip(("EEA", "EIA"), capability))
    return {"encryption algorithms": encryption, "integrity algorithms": integrity}


@functools.lru_cache(1 << 8)
def nas_text_of(plmn):
    """A network as NAS writes what S1AP has."""
    mcc, mnc = plmn.split(" ")
    return identities.nas_plmn(identities.from_s1ap(identities.written_s1ap_plmn(mcc, mnc)))
