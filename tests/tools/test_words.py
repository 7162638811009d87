"""The words of tools/explain as the documents have them, and the answers to a station's mistakes as docs/STATIONS.md has them."""
import importlib
import re
import unittest

from tests.tools import failures, tools

RUNS = importlib.import_module("tools.runs")
WORLD = importlib.import_module("tools.eps.world")
WHY = importlib.import_module("tools.eps.reasons").Why
lte, phones = failures.lte, failures.phones

DOCUMENTS = {name: (tools.TOP / "docs" / name).read_text(encoding="utf-8") for name in ("LAB.md", "STATIONS.md")}
PLAIN = {  # reasons that say themselves what it is
    "the S-TMSI, MME code N and M-TMSI N, is of no subscriber of this MME",
    "it has no S-TMSI, and nothing else in it names a phone",
    "the message names nobody who is provisioned here",
    "the phone was idle for N s, the mobile reachable timer",
    "the phone isn't registered: it is in N",
    "the phone doesn't have 128-EIA2, the only integrity algorithm here",
    "the ESM message in it is no PDN CONNECTIVITY REQUEST that can be read",
    "the phone refuses the challenge with vector N",
    "it is too short for the security header that it has",
    "count N was accepted at line N",
    "its count N is below N, which was accepted at line N",
    "the MAC is wrong under vector N's key, for count N, and the keys of contexts that ended before the snapshot aren't known",
    "key set N isn't the phone's, whose context has N",
    "only SECURITY MODE COMPLETE is taken here",
    "transaction N isn't that of the request, N",
    "nothing waits for it: the phone is in N",
    "the profile has no such message of a phone",
    "it can't be read: N",
    "it is too short to have a message type",
    "the phone has its one connection to a network",
    "it is the phone's last connection to a network",
    "N ended the N time without an answer, so the network gave up",
    "T3413 ended the second time: the phone didn't answer the paging",
    "only a registered, idle phone is paged, and this one is in N",
    "the phone is being paged already",
    "there is no registration that could be ended: the phone is in N",
}
NETWORK, STATION = phones.Network(), phones.Station(0)
NOTIFY, UNKNOWN = 2, 40  # a criticality; a procedure that the profile hasn't
NEVER_GIVEN = lte.id_of_slot(0, 77)
FOREIGN_GUTI = bytes.fromhex("f602f83900010212345678")
STATUS = failures.STATUS


def words_of(why):
    """A reason's words, with N for what a run has there."""
    return re.sub(r"\{\w+\}", "N", why.value.words)


def rows_of(text, heading):
    """The rows of the table with this first column."""
    table = text.partition("| %s |" % heading)[2].partition("\n\n")[0]
    return [[cell.strip() for cell in line.strip("|").split(" | ")] for line in table.splitlines()[2:]]


class Words(unittest.TestCase):
    def test_every_reason_stands_in_a_document(self):
        """As it is printed, but for those that need no more words; and no table or list has words that aren't printed."""
        of_scripts = {words_of(why) for why in WHY if why.value.clause.startswith("docs/")}  # which say what a line lacks
        reasons = DOCUMENTS["LAB.md"].partition("\n## Where it doesn't go through\n")[2].partition("\n## ")[0]
        lab = set(re.findall(r"(?m)^- \*(.*?)\*: ", reasons))
        stations = {row[2] for row in rows_of(DOCUMENTS["STATIONS.md"], "Mistake")}
        beside = set(re.findall("`([^`]*, which ended[^`]*)`", DOCUMENTS["STATIONS.md"]))
        told = lab | stations | beside
        self.assertFalse(told & PLAIN)
        self.assertEqual(told | PLAIN | of_scripts, {words_of(why) for why in WHY})


# --- The mistakes of docs/STATIONS.md, each with the trace that makes it ---


def ready():
    """A station that is set up, and a phone."""
    trace, phone, _ = failures.begun()
    return trace, phone


def attaching():
    trace, phone = ready()
    phone.asks_to_attach(STATION, 1)
    return trace, phone


def sends(octets):
    """A station that is set up sends octets."""
    trace, _ = ready()
    trace.hear(STATION, octets)
    return trace


def on_id(mme_id, enb_id=1, released=False):
    """UPLINK NAS TRANSPORT with these ids of a phone that attaches."""
    trace, phone = attaching()
    if released:
        trace.hear(STATION, lte.release_request(phone.m, phone.b, lte.USER_INACTIVITY))
    trace.hear(STATION, lte.uplink_nas(NETWORK, STATION, mme_id or phone.m, enb_id, STATUS))
    return trace


def set_up_with(*more, without=0):
    elements = [(lte.REJECT, lte.enb_identity(NETWORK, 1)), (lte.REJECT, lte.supported_areas(NETWORK, 1)),
                (lte.IGNORE, (137, lte.bits((0, 1), (2, 2))))]
    return sends(lte.s1ap(lte.INITIATING, 17, lte.REJECT, *elements[without:], *more))


def unknown(criticality):
    return sends(lte.s1ap(lte.INITIATING, UNKNOWN, criticality))


def without_set_up(*lines):
    trace = phones.Trace()
    trace.provision([phones.Phone(trace, 0)])
    for line in lines:
        trace.say(line)
    return trace


def of_a_stranger():
    """A phone that came by a foreign GUTI, told its IMSI, and is switched on the stranger's id."""
    trace, phone = ready()
    esm = lte.pdn_connectivity_request(1, 1, False)
    trace.hear(STATION, lte.initial_ue_message(NETWORK, STATION, 2, lte.attach_request(1, FOREIGN_GUTI, phone.capability, esm)))
    stranger = (1 << 31) + 2
    trace.hear(STATION, lte.uplink_nas(NETWORK, STATION, stranger, 2, lte.identity_response(lte.imsi_identity(phone.imsi))))
    trace.hear(STATION, lte.path_switch_request(NETWORK, STATION, stranger, 7, phone.capability))
    return trace


def switched_early():
    trace, phone = attaching()
    trace.hear(STATION, lte.path_switch_request(NETWORK, STATION, phone.m, 7, phone.capability))
    return trace


def not_set_up():
    trace, phone = attaching()
    trace.hear(STATION, lte.s1ap(lte.UNSUCCESSFUL, 9, lte.REJECT, (lte.IGNORE, lte.mme_id(phone.m)), (lte.IGNORE, lte.enb_id(1)),
                                 (lte.IGNORE, lte.cause((lte.RADIO, 0)))))
    return trace


SETUP = lte.s1_setup_request(NETWORK, STATION)
# (the id 1 in two octets; a bit set after the bits that say how many octets an id has)
LONG_ID = bytes.fromhex("000d402e00000500000003400001000800020001001a000403076061006440080000f11000001010004340060000f1100001")
PADDED = bytes.fromhex("000d402d00000500000002010100080002000" + "1001a000403076061006440080000f11000001010004340060000f1100001")
MISTAKES = {
    "a message that is cut": lambda: sends(SETUP[:-1]),
    "octets after the message's end": lambda: sends(SETUP + b"\0"),
    "a number in more octets than it needs": lambda: sends(LONG_ID),
    "padding that isn't zero": lambda: sends(PADDED),
    "a mandatory element is missing": lambda: set_up_with(without=1),
    "an unknown element that is marked reject": lambda: set_up_with((lte.REJECT, (200, b"\0"))),
    "an element twice": lambda: set_up_with((lte.REJECT, lte.enb_identity(NETWORK, 1))),
    "a procedure out of the profile, marked reject": lambda: unknown(lte.REJECT),
    "a procedure out of the profile, marked notify": lambda: unknown(NOTIFY),
    "a procedure out of the profile, marked ignore": lambda: unknown(lte.IGNORE),
    "a message that only an MME sends": lambda: sends(lte.downlink_nas(1, 1, STATUS)),
    "a message before S1 SETUP": lambda: without_set_up("up 0", "in 0 " + lte.reset().hex()),
    "S1 SETUP of another network": lambda: without_set_up(
        "up 0", "in 0 " + lte.s1_setup_request(failures.OTHER_NETWORK, STATION).hex()),
    "an MME UE S1AP ID that was never given": lambda: on_id(NEVER_GIVEN),
    "an MME UE S1AP ID after the release": lambda: on_id(None, released=True),
    "another eNB UE S1AP ID than the connection's": lambda: on_id(None, 9),
    "RESET of a part that lists ids of nobody": lambda: sends(lte.reset(lte.part_of_interface((NEVER_GIVEN, None)))),
    "PATH SWITCH REQUEST in the midst of an attach": switched_early,
    "PATH SWITCH REQUEST with an id that was a stranger's": of_a_stranger,
    "INITIAL CONTEXT SETUP FAILURE": not_set_up,
    "a message without a connection": lambda: without_set_up("in 0 " + SETUP.hex()),
    "a second connection": lambda: without_set_up("up 0", "up 0"),
}


class Mistakes(unittest.TestCase):
    def test_rows(self):
        """Each mistake of a row is answered, and has its words, as the row says."""
        rows = [(mistake, sent, words) for mistakes, sent, words in rows_of(DOCUMENTS["STATIONS.md"], "Mistake")
                for mistake in mistakes.split("; ")]
        self.assertEqual([row[0] for row in rows], list(MISTAKES))
        for mistake, sent, words in rows:
            with self.subTest(mistake=mistake):
                trace = RUNS.read_trace(MISTAKES[mistake]().text().encode())
                world = WORLD.World(trace.head)
                *_, (line, owed, tellings) = [world.take(event) for event in trace.events]
                self.assertEqual(line or "; ".join(each.text() for each in owed) or "nothing", sent)
                self.assertEqual([words_of(telling.why) for telling in tellings], [words])
