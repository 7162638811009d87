"""The rows of docs/TABLE.md on a stranger's machine, each tried by the built program.

The stranger's state isn't printed: it is seen by who answers a message with its id under another eNB UE S1AP ID, and how.
"""
from tests.docs.answers import Failure, judge_steps, must, play
from tests.docs.events import (LATER_CAUSE, LISTED, MESSAGES, RESET_ALL, attach_nas, both, each_by_itself, initial, resets,
                               with_cause)
from tests.docs.scenes import FOREIGN_GUTI, PTI, Scene, lte, phones, stranger_id
from tests.docs.subscribers import AGE, LONG

B = 1  # the stranger's eNB UE S1AP ID
NOBODY = "001010000000009"
STATES = "closed", "waiting", "held"
PRESENT = "waiting", "held"

# --- The strangers' scenes ---


def scene_in(state):
    """A fresh MME with a provisioned phone that was never seen, or that is or was a stranger."""
    scene = Scene()
    if state == "waiting":
        scene.phone.is_foreign(scene.home, B)
    elif state == "held":
        scene.phone.is_claimed(scene.home, B)
    return scene


EVENTS = {}


def event(name, states=STATES):
    """The function is what happens at the event, which there is in these states."""
    def keep(happen):
        EVENTS[name] = states, happen
        return happen
    return keep


# --- INITIAL UE MESSAGEs that name nobody, and one that names a phone ---


OWN_TMSI, NOBODYS_TMSI = lte.id_of_slot(0, 1), lte.id_of_slot(5, 1)  # of the subscriber's slot, and of one that isn't provisioned


def unknown_guti(scene):
    """A GUTI of this MME, of a slot that isn't provisioned."""
    return lte.guti(scene.trace.network, NOBODYS_TMSI)


def guti_of(**other):
    """A GUTI of the subscriber's slot, but for what it has of another MME."""
    return lte.guti(phones.Network(**other), OWN_TMSI)


def protected(nas, header=1):
    """A message in the protected form, under some key."""
    return bytes([header << 4 | 7]) + b"\1\2\3\4\0" + nas


def tau(guti):
    return b"\x07\x48\x00" + lte.sized(guti)


def detach(identity):
    return b"\x07\x45\x01" + lte.sized(identity)


NOBODYS_IMSI = lte.imsi_identity(NOBODY)
SERVICE = bytes.fromhex("c7000000")
FIRSTS = {
    "first ATTACH REQUEST (another MME's GUTI)": lambda s: attach_nas(s.phone, FOREIGN_GUTI),
    "first ATTACH REQUEST (GUTI of another network)": lambda s: attach_nas(s.phone, guti_of(network="02")),
    "first ATTACH REQUEST (GUTI of another group)": lambda s: attach_nas(s.phone, guti_of(group="8002")),
    "first ATTACH REQUEST (GUTI of another code)": lambda s: attach_nas(s.phone, guti_of(code="02")),
    "first ATTACH REQUEST (GUTI of nobody)": lambda s: attach_nas(s.phone, unknown_guti(s)),
    "first ATTACH REQUEST (another MME's GUTI, protected)": lambda s: protected(attach_nas(s.phone, FOREIGN_GUTI)),
    "first ATTACH REQUEST (unknown IMSI)": lambda s: attach_nas(s.phone, NOBODYS_IMSI),
    "first ATTACH REQUEST (unreadable)": lambda s: attach_nas(s.phone, FOREIGN_GUTI)[:-1],
    "first ATTACH REQUEST (unreadable optional part)": lambda s: attach_nas(s.phone, FOREIGN_GUTI) + b"\x52\x00",
    "first TRACKING AREA UPDATE REQUEST (another MME's GUTI)": lambda s: tau(FOREIGN_GUTI),
    "first TRACKING AREA UPDATE REQUEST (GUTI of nobody)": lambda s: tau(unknown_guti(s)),
    "first TRACKING AREA UPDATE REQUEST (another MME's GUTI, protected)": lambda s: protected(tau(FOREIGN_GUTI)),
    "first TRACKING AREA UPDATE REQUEST (unreadable)": lambda s: tau(FOREIGN_GUTI)[:-1],
    "first SERVICE REQUEST (no S-TMSI)": lambda s: SERVICE,
    "first DETACH REQUEST (another MME's GUTI)": lambda s: detach(FOREIGN_GUTI),
    "first DETACH REQUEST (unknown IMSI)": lambda s: detach(NOBODYS_IMSI),
    "first DETACH REQUEST (unreadable)": lambda s: detach(FOREIGN_GUTI)[:-1],
    "first other message (EMM)": lambda s: b"\x07\x60\x61",
    "first other message (ESM)": lambda s: lte.pdn_connectivity_request(PTI, 1, False),
    "first other message (header 3)": lambda s: protected(attach_nas(s.phone, FOREIGN_GUTI), 3),
    "first other message (header 4)": lambda s: protected(attach_nas(s.phone, FOREIGN_GUTI), 4),
    "first other message (unknown type)": lambda s: b"\x07\x63",
    "first other message (one octet)": lambda s: b"\x07",
    "first other message (none)": lambda s: b"",
}


def arrives(scene, nas, tmsi=None, network=None):
    scene.trace.hear(scene.home, initial(network or scene.trace.network, scene.home, B, nas, tmsi))


for name, made in FIRSTS.items():
    event(name)(lambda scene, made=made: arrives(scene, made(scene)))
event("first SERVICE REQUEST (S-TMSI of nobody)")(lambda scene: arrives(scene, SERVICE, NOBODYS_TMSI))
event("first SERVICE REQUEST (S-TMSI of another code)")(
    lambda scene: arrives(scene, SERVICE, OWN_TMSI, phones.Network(code="02")))
event("first ATTACH REQUEST (IMSI of a subscriber)")(lambda scene: arrives(scene, attach_nas(scene.phone)))


# --- Messages with its id ---


def says(scene, message, station=None, b=B):
    station = station or scene.home
    scene.trace.hear(station, message(scene.trace.network, station, stranger_id(scene.home, B), b))


def switch(n, e, m, b):
    return lte.path_switch_request(n, e, m, b, b"\xe0\x60")


def by_ids(name, message):
    event(name)(lambda scene: says(scene, message))
    event(name + " (another eNB id)", PRESENT)(lambda scene: says(scene, message, b=B + 7))
    event(name + " (another station)", PRESENT)(lambda scene: says(scene, message, scene.stations[1]))


for name, made in {**MESSAGES, "PATH SWITCH REQUEST": switch}.items():
    by_ids(name, made)


def later_cause(n, e, m, b):
    return with_cause(lte.INITIATING, 18, lte.IGNORE, both(m, b), LATER_CAUSE)


event("UE CONTEXT RELEASE REQUEST (cause of a later release)", ("waiting",))(lambda scene: says(scene, later_cause))


def identity_response(identity):
    return b"\x07\x56" + lte.sized(identity)


UPLINKS = {
    "uplink IDENTITY RESPONSE (IMSI of a subscriber)": lambda s: identity_response(lte.imsi_identity(s.phone.imsi)),
    "uplink IDENTITY RESPONSE (unknown IMSI)": lambda s: identity_response(NOBODYS_IMSI),
    "uplink IDENTITY RESPONSE (GUTI)": lambda s: identity_response(FOREIGN_GUTI),
    "uplink IDENTITY RESPONSE (unreadable)": lambda s: identity_response(NOBODYS_IMSI)[:-1],
    "uplink IDENTITY RESPONSE (protected)": lambda s: protected(identity_response(lte.imsi_identity(s.phone.imsi))),
    "uplink other message": lambda s: attach_nas(s.phone),
}
for name, made in UPLINKS.items():
    event(name, ("waiting",))(lambda scene, made=made: says(
        scene, lambda n, e, m, b: lte.uplink_nas(n, e, m, b, made(scene))))
event("uplink AUTHENTICATION RESPONSE", ("held",))(lambda scene: says(
    scene, lambda n, e, m, b: lte.uplink_nas(n, e, m, b, lte.authentication_response(scene.phone.vector.xres))))


# --- Stations that go ---


def goes(name, happen):
    event(name + " (its station)")(lambda scene: happen(scene, scene.home))
    event(name + " (another station)")(lambda scene: happen(scene, scene.stations[2]))


def sets_up(scene, station):
    scene.trace.hear(station, lte.s1_setup_request(scene.trace.network, station))


def is_lost(scene, station):
    """A station is lost, and comes back to tell what became of its strangers."""
    scene.trace.say("lost %d" % station.number)
    scene.trace.say("up %d" % station.number)
    sets_up(scene, station)


goes("lost", is_lost)
goes("S1 SETUP REQUEST", sets_up)
goes("RESET", lambda scene, station: scene.trace.hear(station, RESET_ALL))
for variant, of_ids in LISTED.items():
    event("RESET of a part (%s)" % variant)(lambda scene, of_ids=of_ids: resets(
        scene, scene.home, *of_ids(stranger_id(scene.home, B), B)))
event("RESET of a part (another station)")(lambda scene: resets(
    scene, scene.stations[2], *each_by_itself(stranger_id(scene.home, B), B)))


# --- A stranger's row, tried ---


def told(group, owners="xs"):
    """What was sent for strangers and subscribers, as the table has it."""
    marks = {"x": "", "s": "subscriber: "}
    return "; ".join(marks[message.owner[0]] + message.text for message in group.sent if message.owner[0] in owners) or "-"


class Trial:
    """A row, the trace that tries it, and what must come of each step of it."""

    def __init__(self, row, facts):
        self.row, self.steps = row, []
        must(row.next in STATES, "there is no state %s", row.next)
        must(row.timer in (("T3470", "T3470 goes on") if row.next == "waiting" else ("-",)), "another timer runs")
        self.length, self.repeats = facts.lengths["T3470"]
        self.scene = scene_in(row.phase)
        self.is_timer = row.event.startswith("T3470 ends")

    def step(self, judged):
        self.scene.trace.say("show " + self.scene.phone.imsi)
        self.steps.append(judged)

    def ticks(self, count, judged):
        if count:
            self.scene.trace.say("tick %d" % count)
            self.step(judged)

    def make(self):
        """All lines of the trace."""
        self.step(lambda group: None)
        if self.is_timer:
            for _ in range(self.repeats if self.row.event != "T3470 ends" else 0):
                self.ticks(self.length - 1, self.judge_quiet)
                self.ticks(1, self.judge_asked)
            self.ticks(self.length - 1, self.judge_quiet)
            self.scene.trace.say("tick 1")
        else:
            self.ticks(AGE, self.judge_quiet)
            EVENTS[self.row.event][1](self.scene)
        self.step(self.judge_event)
        says(self.scene, MESSAGES["UE CAPABILITY INFO INDICATION"], b=B + 7)
        self.step(self.judge_state)
        if self.row.next == "waiting":
            left = self.length - (AGE if "goes on" in self.row.timer else 0)
            self.ticks(left - 1, self.judge_quiet)
            self.ticks(1, self.judge_asked)
        else:
            self.ticks(LONG, self.judge_quiet)
        return self

    def judge_quiet(self, group):
        must(told(group, "x") == "-", "%s is sent before a timer's end", told(group, "x"))

    def judge_asked(self, group):
        must(told(group, "x") == "IDENTITY REQUEST", "sent again is %s", told(group, "x"))

    def judge_event(self, group):
        must(told(group) == "; ".join(self.row.sent or ["-"]), "sent is %s", told(group))
        for message in group.sent:
            if message.owner[0] == "x":
                ids = (stranger_id(self.scene.home, B), B, 0)
                found = message.mme_id, message.enb_id, message.station
                received = message.text.startswith(("ERROR", "PATH SWITCH"))
                must(found == ids or received and found[0] == ids[0], "%s has the ids %s", message.text, found)

    def judge_state(self, group):
        """Who answers a message with the id and another eNB id, and how."""
        answers = {"closed": ("x", "mme"), "waiting": ("x", "pair"), "held": ("s", None)}
        owner, why = answers[self.row.next]
        text = told(group).removeprefix("subscriber: ")
        must(group.sent and group.sent[0].owner[0] == owner and text.startswith("ERROR radioNetwork unknown-" + (why or "")),
             "the stranger isn't %s: %s", self.row.next, told(group))


def judged(row, facts):
    """What is wrong with a row, or nothing."""
    try:
        trial = Trial(row, facts).make()
        judge_steps(play(trial.scene.trace), trial.steps)
    except Failure as failure:
        return str(failure)
    return None
