"""A stranger: who came to a station under an eNB UE S1AP ID and named no subscriber (docs/TABLE.md, "Stranger")."""
import dataclasses

from tools import s1ap
from tools.eps import nas, timers
from tools.eps.elements import CAUSE, S_TMSI, TAI
from tools.eps.nas_elements import emm, named
from tools.eps.provisioned import stranger_id
from tools.eps.reasons import BEFORE, Why
from tools.eps.telling import NORMAL_RELEASE, RADIO_UNSPECIFIED, UNKNOWN_ID, UNKNOWN_PAIR, UNSPECIFIED, Place, Said

REJECTS = {nas.ATTACH_REQUEST: nas.ATTACH_REJECT, nas.TAU_REQUEST: nas.TAU_REJECT, nas.SERVICE_REQUEST: nas.SERVICE_REJECT}
NO_SUBSCRIBER, NOT_DERIVED, INVALID = 8, 9, 96
UNREADABLE = (nas.Fault.MANDATORY, nas.Fault.OPTIONAL)


@dataclasses.dataclass
class Attach:
    """What a stranger's first message asked for, to be taken over by the subscriber that it turns out to be."""
    message: nas.Plain
    area: dict
    line: int


class Stranger:
    """A stranger, who is closed, waits for an answer to IDENTITY REQUEST, or is held by a subscriber."""

    def __init__(self, station, enb_id, alarms):
        self.station, self.enb_id, self.alarms = station, enb_id, alarms
        self.mme_id, self.owner = stranger_id(station, enb_id), "x%d.%d" % (station, enb_id)
        self.place = Place(self.mme_id, station, enb_id)
        self.attach = self.timer = self.holder = None

    def is_waiting(self):
        return self.timer is not None

    def is_closed(self):
        return self.timer is None and self.holder is None

    def tell(self, now, role, why=None, dropped=False, lines=(), **facts):
        now.tell(self.owner, role, why, dropped, lines, **facts)

    def close(self):
        self.attach = self.timer = self.holder = None

    def key(self):
        return (0, self.station, self.enb_id)

    # --- A first message that names nobody ---

    def on_first(self, now, message):
        self.close()
        if message.type == nas.ATTACH_REQUEST and not message.fault:
            self.on_attach(now, message)
        elif message.type in (nas.ATTACH_REQUEST, nas.TAU_REQUEST) and message.fault in UNREADABLE:
            self.reject(now, message, INVALID, Why.UNREADABLE_REQUEST, fault=message.why)
        elif message.type == nas.TAU_REQUEST and not message.fault:
            self.reject(now, message, NOT_DERIVED, Why.FOREIGN_IDENTITY)
        elif message.is_service_request():
            self.on_service_request(now, message)
        else:
            self.tell(now, "is answered by a release", Why.NAMES_NOBODY)
            now.send_release(self.owner, self.place, UNSPECIFIED, "ends the association")

    def on_service_request(self, now, message):
        identity = now.message.get(S_TMSI)
        if identity is None:
            self.reject(now, message, NOT_DERIVED, Why.NO_S_TMSI)
        else:
            self.reject(now, message, NOT_DERIVED, Why.UNKNOWN_S_TMSI, code=identity["MME code"], tmsi=identity["M-TMSI"])

    def on_attach(self, now, message):
        identity = message.fields["EPS mobile identity"]
        if "IMSI" in identity:
            self.reject(now, message, NO_SUBSCRIBER, Why.NO_SUBSCRIBER, imsi=identity["IMSI"])
            return
        self.tell(now, "begins an attach by the GUTI of another MME or of nobody: the phone is asked for its IMSI")
        self.attach = Attach(message, now.message.get(TAI), now.line)
        self.place.line = now.line
        self.ask(now)
        self.timer = timers.Running(timers.T3470, now, self.ask)
        self.alarms.note(self.timer.ends, self.key())

    def ask(self, now, repeat=None):
        said = Said(nas.IDENTITY_REQUEST, {"identity type": named({1: "IMSI"}, 1)})
        now.send_nas(self.owner, self.place, said, "asks for the IMSI", repeat)

    def reject(self, now, message, cause, why, **facts):
        self.tell(now, "is refused", why, **facts)
        self.refuse(now, message.type, cause)

    def refuse(self, now, kind, cause):
        now.send_nas(self.owner, self.place, Said(REJECTS[kind], {"EMM cause": emm(cause)}), "refuses the request")
        now.send_release(self.owner, self.place, NORMAL_RELEASE, "the request was refused")
        self.close()

    # --- Messages with the stranger's id ---

    def on_message(self, now, subscribers):
        """A message with this id, where no subscriber holds it; answers the subscriber that the stranger turns out to be."""
        kind = now.kind
        if kind in ((s1ap.RELEASE, 1), (s1ap.PATH_SWITCH, 0)) or not self.is_waiting():
            closed(now, self.owner, kind)
        elif not self.place.is_at(now.station, now.enb_id):
            self.tell(now, "isn't the stranger's", Why.WRONG_PAIR, mme_id=self.mme_id, station=self.station, enb_id=self.enb_id,
                      lines=(self.place.line,))
            now.send_error(self.owner, UNKNOWN_PAIR)
        elif kind == (s1ap.RELEASE_REQUEST, 0):
            [(group, name)] = now.message.get(CAUSE).items()
            self.tell(now, "asks for the release: %s %s" % (group, name))
            why = RADIO_UNSPECIFIED if name.number is None else {group: name}
            now.send_release(self.owner, self.place, why, "the station asked for the release")
            self.close()
        elif kind == (s1ap.UPLINK_NAS, 0):
            return self.on_identity(now, now.message.nas(), subscribers)
        else:
            self.tell(now, "is taken without an answer")
        return None

    def on_identity(self, now, octets, subscribers):
        """The answer to IDENTITY REQUEST (TS 24.301 clause 5.4.4.4)."""
        message = nas.decode_emm(octets, nas.UP)
        identity = message.fields.get("mobile identity", {}) if message.type == nas.IDENTITY_RESPONSE and not message.fault else {}
        if "IMSI" not in identity:
            self.tell(now, "is dropped", Why.NOT_IDENTITY, dropped=True)
            return None
        subscriber = subscribers.get(identity["IMSI"])
        if subscriber is None:
            self.tell(now, "is refused", Why.NO_SUBSCRIBER, imsi=identity["IMSI"])
            self.refuse(now, nas.ATTACH_REQUEST, NO_SUBSCRIBER)
            return None
        line = self.attach.line
        whence = BEFORE if line is None else "of line %d" % line
        self.tell(now, "tells the IMSI %s: the attach %s is this phone's" % (identity["IMSI"], whence))
        self.holder, self.timer = subscriber, None
        return subscriber

    # --- Time ---

    def on_time(self, now):
        if not self.is_waiting() or self.timer.ends != now.second:
            return
        if self.timer.is_used_up():
            self.tell(now, "is given up", Why.GAVE_UP, lines=(self.timer.line,), subject="the stranger", **self.timer.facts())
            now.send_release(self.owner, self.place, UNSPECIFIED, "T3470 ended too often")
            self.close()
            return
        self.timer.again(now, self.timer.repeat())
        self.timer.restart(now)
        self.alarms.note(self.timer.ends, self.key())


def closed(now, owner, kind):
    """A message with an id that is of nobody."""
    if kind == (s1ap.RELEASE, 1):
        now.tell(owner, "completes a release, which had ended the association already")
        return
    now.tell(owner, "is of nobody", Why.NO_ASSOCIATION, mme_id=now.mme_id)
    if kind == (s1ap.PATH_SWITCH, 0):
        now.send_switch_failure(owner, UNKNOWN_ID)
    else:
        now.send_error(owner, UNKNOWN_ID)
