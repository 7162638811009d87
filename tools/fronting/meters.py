"""What is counted while the front runs: messages by procedure and cause, attaches by outcome, and times from message to answer."""
import bisect
import collections
import time

from tools import s1ap

ERROR_INDICATION, SETUP_RESPONSE = bytes([0, s1ap.ERROR]), bytes([s1ap.SUCCESSFUL << 5, s1ap.SETUP])
SETUP_REQUEST, PAGING = bytes([0, s1ap.SETUP]), bytes([0, s1ap.PAGING])
RESET_ACKNOWLEDGE = bytes([s1ap.SUCCESSFUL << 5, s1ap.RESET])
INITIAL_MESSAGE, UPLINK, DOWNLINK = (bytes([0, code]) for code in (s1ap.INITIAL_UE, s1ap.UPLINK_NAS, s1ap.DOWNLINK_NAS))
CONTEXT_REQUEST = bytes([0, s1ap.CONTEXT_SETUP])
# The messages whose cause is counted.
WITH_CAUSE = {ERROR_INDICATION, bytes([0, s1ap.RELEASE_REQUEST]), bytes([0, s1ap.RELEASE]), bytes([0, s1ap.NON_DELIVERY])}
WITH_CAUSE |= {bytes([s1ap.UNSUCCESSFUL << 5, code]) for code in (s1ap.SETUP, s1ap.PATH_SWITCH, s1ap.CONTEXT_SETUP)}
# Of which messages which NAS type says how an attach goes (TS 24.301 clause 9.8), and what it says. That one is completed no
# message says (attaches.py).
ATTACH_STEPS = {
    INITIAL_MESSAGE: {s1ap.ATTACH_REQUEST: "requested"},
    UPLINK: {s1ap.ATTACH_REQUEST: "requested"},
    CONTEXT_REQUEST: {0x42: "accepted"}, DOWNLINK: {0x44: "rejected", 0x54: "authentication rejected"},
}
KNOWN = {bytes([outcome << 5, code]) for code, names in s1ap.NAMES.items() for outcome in range(len(names))}
SHOWN = 1024  # octets of a message that are kept for the page
RECENT = 2000  # messages that are kept for the page
LOOKED_AT = WITH_CAUSE | ATTACH_STEPS.keys()  # how messages begin of which more is counted than that they came or went
PHONE_OWNER = b"s"  # how the owner of what the MME sends for a phone begins
OTHER = b""  # stands for octets that begin as no message of S1AP does
BOUNDS = (0.0005, 0.001, 0.002, 0.005, 0.01, 0.02, 0.05, 0.1, 0.25, 0.5, 1.0, 2.5, 5.0)  # seconds


def cause_of(octets):
    """The cause in a message."""
    content = s1ap.element(octets, s1ap.CAUSE)
    return "" if content is None else s1ap.cause_text(content) or ""


def name_of(kind):
    """The name of a message by how its octets begin."""
    if len(kind) < 2:
        return "no S1AP"
    return s1ap.name(s1ap.Message(kind[1], kind[0] >> 5, {}, None))


class Meters:
    """The counts since the front began, and where they are kept, the last messages."""

    def __init__(self, keeps_messages=True):
        self.keeps_messages = keeps_messages
        self.begun = self.now = time.time()  # the second is when the turn under way began
        self.inward, self.outward = collections.Counter(), collections.Counter()
        self.inward_causes, self.outward_causes = collections.Counter(), collections.Counter()
        self.attaches, self.losses = collections.Counter(), collections.Counter()
        self.connections = self.refused = self.protected = self.gone = 0
        # The last messages: when, of which station, whether it sent them, octets, and which of the station's messages it is, or
        # for whom the MME sent it.
        self.recent = collections.deque(maxlen=RECENT)
        self.heard, self.ups = collections.Counter(), collections.Counter()  # by station, its messages and its connections
        self.places = {}  # by a phone's owner, the station that was sent something for it last, and which connection of it
        self.answered, self.seconds, self.buckets = 0, 0.0, [0] * (len(BOUNDS) + 1)
        # An attach step is looked for where its type stands after the discriminator of EMM.
        self.steps = {kind: [(bytes([s1ap.EMM, number]), number) for number in steps] for kind, steps in ATTACH_STEPS.items()}

    def count_in(self, messages):
        """What stations sent."""
        self.count(messages, self.inward, self.inward_causes)

    def count_out(self, messages):
        """What stations were sent."""
        self.count(messages, self.outward, self.outward_causes)

    def count(self, messages, counts, causes):
        kinds = [octets[:2] for octets in messages]
        for kind, count in collections.Counter(kinds).items():
            counts[kind if kind in KNOWN else OTHER] += count
        if LOOKED_AT.isdisjoint(kinds):
            return
        for kind, octets in zip(kinds, messages):
            if kind in WITH_CAUSE:
                causes[kind, cause_of(octets)] += 1
            elif kind in LOOKED_AT:
                self.count_steps(kind, octets)

    def keep_in(self, station, messages):
        """Keeps what a station sent."""
        now, first = self.now, self.heard[station] + 1
        self.recent += [(now, station, True, octets[:SHOWN], place) for place, octets in enumerate(messages, first)]
        self.heard[station] += len(messages)

    def keep_out(self, sent):
        """Keeps what stations were sent: of each message the station, whether that was there still, the octets, and for whom it is,
        as the MME's answer has it."""
        now = self.now
        self.recent += [(now, station, False, octets[:SHOWN], owner) for station, _, octets, owner in sent]
        for station, is_there, octets, owner in sent:
            if is_there and owner[:1] == PHONE_OWNER and octets[:2] != PAGING:
                self.places[owner] = station, self.ups[station]

    @property
    def messages(self):
        """How many there were, of which `recent` has the last."""
        return sum(self.inward.values()) + sum(self.outward.values())

    def count_steps(self, kind, octets):
        for pattern, number in self.steps[kind]:
            if s1ap.carries(octets, pattern):
                self.attaches[ATTACH_STEPS[kind][number]] += 1

    def count_answers(self, seconds, count):
        """`count` answers came `seconds` after their messages."""
        self.answered += count
        self.seconds += seconds * count
        self.buckets[bisect.bisect_left(BOUNDS, seconds)] += count
