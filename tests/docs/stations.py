"""The rows of docs/TABLE.md on a station, each tried by the built program.

A station's state isn't printed: it is seen by what a reset is answered with.
"""
from tests.docs.answers import Failure, judge_steps, must, play, texts
from tests.docs.events import MESSAGES, RESET_ALL, both, initial
from tests.docs.scenes import lte, phones
from tests.docs.strangers import SERVICE, switch

NOTIFY = 2  # criticality
OTHER_NETWORK = phones.Network("208", "93")


def setup_elements(network, station):
    return [(lte.REJECT, lte.enb_identity(network, station.identity)), (lte.REJECT, lte.supported_areas(network, station.tac)),
            (lte.IGNORE, (137, lte.bits((0, 1), (2, 2))))]


def setup_with(network, station, *more, without=0):
    """S1 SETUP REQUEST with further elements, or without the first ones."""
    return lte.s1ap(lte.INITIATING, 17, lte.REJECT, *setup_elements(network, station)[without:], *more)


UNKNOWN_ELEMENT = 999, b"\0"
UNKNOWN_SLOT = lte.id_of_slot(9, 1)
LISTED = [(UNKNOWN_SLOT, None), (None, 1), (None, None), (UNKNOWN_SLOT, 1), (None, 1)]  # of nobody, as it comes
RESET_UNREADABLE = lte.reset((92, b"\x40"))  # a part without a list
IDS_IGNORED = both(1, 1, lte.IGNORE)
WHY = lte.IGNORE, lte.cause((lte.RADIO, 0))
SUBSCRIBER = phones.Phone(phones.Trace(), 0)
# What a station sends, with its network and itself (TS 36.413 clause 9.1).
SENT = {
    "S1 SETUP REQUEST": lte.s1_setup_request,
    "S1 SETUP REQUEST (another network)": lambda n, e: lte.s1_setup_request(OTHER_NETWORK, e),
    "RESET": lambda n, e: RESET_ALL,
    "RESET of a part": lambda n, e: lte.reset(lte.part_of_interface(*LISTED)),
    "RESET (unreadable)": lambda n, e: RESET_UNREADABLE,
    "RESET ACKNOWLEDGE": lambda n, e: lte.reset_acknowledge(),
    "RESET ACKNOWLEDGE (of a part)": lambda n, e: lte.reset_acknowledge(*LISTED),
    "ERROR INDICATION": lambda n, e: lte.s1ap(lte.INITIATING, 15, lte.IGNORE, WHY),
    "S1 SETUP RESPONSE": lambda n, e: lte.s1_setup_response(n),
    "S1 SETUP FAILURE": lambda n, e: lte.s1ap(2, 17, lte.REJECT, WHY),
    "INITIAL CONTEXT SETUP REQUEST": lambda n, e: lte.context_setup_request(n, 1, 1, SUBSCRIBER, bytes(32)),
    "DOWNLINK NAS TRANSPORT": lambda n, e: lte.downlink_nas(1, 1, b"\x07\x46"),
    "PAGING": lambda n, e: lte.paging(n, SUBSCRIBER.imsi, 1, 1),
    "UE CONTEXT RELEASE COMMAND": lambda n, e: lte.release_command(1, 1, lte.NORMAL_RELEASE),
    "PATH SWITCH REQUEST ACKNOWLEDGE": lambda n, e: lte.path_switch_acknowledge(1, 1, 1, bytes(32)),
    "PATH SWITCH REQUEST FAILURE": lambda n, e: lte.s1ap(2, 3, lte.REJECT, *IDS_IGNORED, WHY),
    "INITIAL UE MESSAGE": lambda n, e: initial(n, e, 1, SERVICE),
    "no octets": lambda n, e: b"",
    "unreadable octets": lambda n, e: lte.s1_setup_request(n, e)[:-1],
    "missing element": lambda n, e: setup_with(n, e, without=1),
    "repeated element": lambda n, e: setup_with(n, e, setup_elements(n, e)[0]),
    "unknown element (reject)": lambda n, e: setup_with(n, e, (lte.REJECT, UNKNOWN_ELEMENT)),
    "unknown element (ignore)": lambda n, e: setup_with(n, e, (lte.IGNORE, UNKNOWN_ELEMENT)),
    "unknown element (notify)": lambda n, e: setup_with(n, e, (NOTIFY, UNKNOWN_ELEMENT)),
    "unknown procedure (reject)": lambda n, e: lte.s1ap(lte.INITIATING, 40, lte.REJECT),
    "unknown procedure (ignore)": lambda n, e: lte.s1ap(lte.INITIATING, 40, lte.IGNORE),
    "unknown procedure (notify)": lambda n, e: lte.s1ap(lte.INITIATING, 40, NOTIFY),
}
for name, made in {**MESSAGES, "PATH SWITCH REQUEST": switch}.items():
    SENT[name] = lambda n, e, made=made: made(n, e, UNKNOWN_SLOT, 1)
EVENTS = ("up", "lost", *SENT)


def trace_of(row, station):
    """A fresh MME whose station comes into a state and does something; then it asks for a reset, which tells its state."""
    trace = phones.Trace()
    show = "show " + SUBSCRIBER.imsi
    trace.provision([SUBSCRIBER])
    if row.phase == "up":
        trace.say("up 0")
    elif row.phase == "ready":
        trace.set_up(station)
    trace.say(show)
    if row.event in SENT:
        trace.say("in 0 " + (SENT[row.event](trace.network, station).hex() or "-"))
    else:
        trace.say(row.event + " 0")
    trace.say(show)
    trace.hear(station, RESET_ALL)
    trace.say(show)
    return trace


PROBED = {"down": "refused 1", "up": "ERROR protocol message-not-compatible-with-receiver-state", "ready": "RESET ACKNOWLEDGE"}


def check_ids(message):
    """An error that a station makes has no ids; one of an unknown id has those that were received."""
    if message.text.startswith("ERROR"):
        wanted = (UNKNOWN_SLOT, 1) if "radioNetwork" in message.text else (None, None)
        must((message.mme_id, message.enb_id) == wanted, "%s has the ids %s, %s", message.text, message.mme_id, message.enb_id)


def judge_of(row, wanted):
    """The judge of a step that is to be answered by this."""
    def judge(group):
        own = [message for message in group.sent if message.owner == "e0"]
        found = "; ".join(group.refused) or texts(own) or "-"
        must(found == wanted, "sent is %s, not %s", found, wanted)
        for message in own:
            must(message.listed in (None, LISTED), "the list is %s", message.listed)
        must(own == group.sent or row.event == "INITIAL UE MESSAGE", "others are sent something")
        for message in own:
            check_ids(message)
    return judge


def judged(row, _facts):
    """What is wrong with a row, or nothing."""
    try:
        must(row.next in PROBED, "there is no state %s", row.next)
        judges = [lambda group: None, judge_of(row, "; ".join(row.sent) or "-"), judge_of(row, PROBED[row.next])]
        judge_steps(play(trace_of(row, phones.Station(0))), judges)
    except Failure as failure:
        return str(failure)
    return None
