"""Why a message wasn't answered, or did not do what it seems to: each reason in words, with the clause of the standard.

docs/LAB.md and docs/STATIONS.md have the same words; a test compares them. `{name}` stands for a fact of the run.
"""
import dataclasses
import enum

NAS, S1AP, KEYS = "TS 24.301 clause ", "TS 36.413 clause ", "TS 33.401 clause "
SCTP, RESET, SET_UP = "TS 36.412 clause 7", S1AP + "8.7.1.2.2", S1AP + "8.7.3.1"
TRACE, SCRIPT = "README.md, A trace", "docs/SCRIPTS.md, Lines"
BEFORE = "before the snapshot"  # in the place of a line of the trace


@dataclasses.dataclass(frozen=True)
class Reason:
    """The words of a reason, and where the standards in their Release 8 (or a page of this repository) have it; and where the words
    name a line, those for one that lies before the snapshot from which a log is read on."""
    words: str
    clause: str
    before: str = ""


class Why(enum.Enum):
    """The reasons. A name is stable: it stands in what `explain --json` prints."""

    # Stations and their messages.
    NOT_CONNECTED = Reason("station {station} isn't connected", SCTP)
    CONNECTED_ALREADY = Reason("station {station} is connected already", SCTP)
    NO_SUBSCRIBER = Reason("nobody is provisioned with IMSI {imsi}", NAS + "5.5.1.2.5")
    NO_SUCH_IMSI = Reason("nobody is provisioned with IMSI {imsi}", TRACE)
    SYNTAX = Reason("the octets spell no S1AP message: {fault}", S1AP + "10.2")
    UNKNOWN_PROCEDURE = Reason("the profile has no such procedure", S1AP + "10.3.4.1")
    MISSING_ELEMENT = Reason("an element is missing: {element}", S1AP + "10.3.5")
    REFUSED_ELEMENT = Reason("an element isn't of this message and is marked reject: {element}", S1AP + "10.3.4.2")
    REPEATED_ELEMENT = Reason("an element comes twice: {element}", S1AP + "10.3.6")
    NOT_SET_UP = Reason("station {station} isn't set up", SET_UP)
    OTHER_PLMN = Reason("the station broadcasts {broadcast}, and not the MME's network {network}", S1AP + "8.7.3.4")
    MME_MESSAGE = Reason("only an MME sends this message", S1AP + "10.4")

    # Ids of associations.
    NO_ASSOCIATION = Reason("MME id {mme_id} is of no association", S1AP + "10.6")
    ASSOCIATION_ENDED = Reason("MME id {mme_id} was of a connection that ended at line {line}: {how}", S1AP + "10.6",
                               "MME id {mme_id} was of a connection that ended " + BEFORE)
    WRONG_PAIR = Reason("the pair isn't the connection's: MME id {mme_id} is of station {station} with eNB id {enb_id}",
                        S1AP + "10.6")
    NOBODY_RESET = Reason("no association of station {station} is meant by {ids}", RESET)
    SWITCH_OF_STRANGER = Reason("MME id {mme_id} was given before the phone was known, and can't be switched", S1AP + "8.4.4.3")
    SWITCH_UNREGISTERED = Reason("only a registered phone's path can be switched, and this one is in {phase}", S1AP + "8.4.4.3")

    # First messages.
    UNREADABLE_REQUEST = Reason("the request can't be read: {fault}", NAS + "7.5.1")
    UNREADABLE_ESM = Reason("the ESM message in it is no PDN CONNECTIVITY REQUEST that can be read", NAS + "7.5.1")
    IPV6_ALONE = Reason("the phone asks only for IPv6, and its subscription has IPv4", NAS + "6.5.1.4")
    NO_EIA2 = Reason("the phone doesn't have 128-EIA2, the only integrity algorithm here", KEYS + "7.2.4")
    NO_VECTOR = Reason("no vector is left: the phone was given {vectors}, and each challenge takes one", NAS + "5.4.2.2")
    FOREIGN_IDENTITY = Reason(
        "the old GUTI is of another MME or of nobody here, and a phone is asked for its IMSI only at an attach", NAS + "5.5.3.2.5")
    NO_S_TMSI = Reason("it has no S-TMSI, and nothing else in it names a phone", NAS + "5.6.1.5")
    UNKNOWN_S_TMSI = Reason("the S-TMSI, MME code {code} and M-TMSI {tmsi}, is of no subscriber of this MME", NAS + "5.6.1.5")
    NAMES_NOBODY = Reason("the message names nobody who is provisioned here", NAS + "4.4.4.3")
    NOT_REGISTERED = Reason("the phone isn't registered: it is in {phase}", NAS + "{clause}")
    WRONG_KEY_SET = Reason("key set {key_set} isn't the phone's, whose context has {wanted}", NAS + "5.6.1.5")

    # Protection.
    NO_CONTEXT = Reason("there is no security context yet, and only plain EMM messages are taken", NAS + "4.4.4.3")
    PLAIN = Reason("the message isn't protected, and only a protected one is taken here", NAS + "4.4.4.3")
    WRONG_HEADER = Reason("security header {header} isn't taken here: {belongs}", NAS + "9.3.1")
    CUT_SHORT = Reason("it is too short for the security header that it has", NAS + "9.1")
    COUNT_USED = Reason("count {count} was accepted at line {line}", NAS + "4.4.3.2", "count {count} was accepted " + BEFORE)
    COUNT_PASSED = Reason("its count {count} is below {last}, which was accepted at line {line}", NAS + "4.4.3.2",
                          "its count {count} is below {last}, which was accepted " + BEFORE)
    OTHER_KEY = Reason("the MAC is right under vector {other}'s key, and the context is vector {vector}'s", NAS + "4.4.4.3")
    WRONG_MAC = Reason("the MAC is wrong under vector {vector}'s key, for count {count}", NAS + "4.4.4.3")
    UNKNOWN_KEY = Reason("the MAC is wrong under vector {vector}'s key, for count {count}, and the keys of contexts that ended "
                         "before the snapshot aren't known", NAS + "4.4.4.3")
    COUNTS_SPENT = Reason("the context has no count left", NAS + "4.4.3.5")

    # Authentication and security mode.
    WRONG_RES = Reason("RES isn't XRES of vector {vector}", NAS + "5.4.2.5")
    OTHER_RES = Reason("RES is XRES of vector {other}, and the challenge is vector {vector}'s", NAS + "5.4.2.5")
    MAC_FAILURE = Reason("the phone found the MAC of vector {vector}'s AUTN wrong: another K or OPc", NAS + "5.4.2.7")
    SYNCH_FAILURE = Reason("the SQN of vector {vector} isn't above the phone's", NAS + "5.4.2.7")
    NON_EPS = Reason("the AUTN of vector {vector} lacks the separation bit, which a vector for LTE has", NAS + "5.4.2.7")
    REFUSED_CHALLENGE = Reason("the phone refuses the challenge with vector {vector}", NAS + "5.4.2.6")
    SECURITY_REFUSED = Reason("the phone refuses the security mode", NAS + "5.4.3.5")
    NOT_COMPLETE = Reason("only SECURITY MODE COMPLETE is taken here", NAS + "5.4.3.4")

    # What follows.
    BEARER_REFUSED = Reason("the phone doesn't accept the default bearer", NAS + "6.4.1.4")
    CONTEXT_FAILED = Reason("the station couldn't set up the phone's context", S1AP + "8.3.1.3")
    OTHER_TRANSACTION = Reason("transaction {transaction} isn't that of the request, {wanted}", NAS + "7.3.1")
    UNEXPECTED = Reason("nothing waits for it: the phone is in {phase}", NAS + "7.4")
    UNKNOWN_TYPE = Reason("the profile has no such message of a phone", NAS + "7.4")
    UNREADABLE = Reason("it can't be read: {fault}", NAS + "7.5.1")
    TOO_SHORT = Reason("it is too short to have a message type", NAS + "7.2")
    FURTHER_CONNECTION = Reason("the phone has its one connection to a network", NAS + "6.5.1.4")
    LAST_CONNECTION = Reason("it is the phone's last connection to a network", NAS + "6.5.2.4")
    NOT_IDENTITY = Reason("the phone was asked for its IMSI, and this isn't a plain IDENTITY RESPONSE with one", NAS + "5.4.4.4")

    # Timers, notices, stations.
    GAVE_UP = Reason("{timer} ended the {time} time without an answer, so the network gave up", NAS + "{clause}")
    PAGING_ENDED = Reason("T3413 ended the second time: the phone didn't answer the paging", NAS + "5.6.2.2")
    UNREACHABLE = Reason("the phone was idle for {seconds} s, the mobile reachable timer", NAS + "5.3.5")
    STATION_GONE = Reason("station {station} {how}, which ended the phone's connection", "{clause}")
    DISPLACED = Reason("another phone came to station {station} under eNB id {enb_id}, which ended the connection",
                       S1AP + "8.6.2.1")
    NOT_PAGED = Reason("only a registered, idle phone is paged, and this one is in {phase}", NAS + "5.6.2")
    PAGED_ALREADY = Reason("the phone is being paged already", NAS + "5.6.2")
    NO_CELL = Reason("no station that is set up broadcasts the phone's tracking area {tac}", S1AP + "8.5")
    NOTHING_TO_END = Reason("there is no registration that could be ended: the phone is in {phase}", NAS + "5.5.2.3")

    # Lines of a script.
    NO_PHONE = Reason("no `sub` line gives a phone {imsi}", SCRIPT)
    NO_STATION = Reason("no `station` line gives a station {station}", SCRIPT)
    STATION_TWICE = Reason("there is a station {station} already", SCRIPT)
    STATION_NOT_READY = Reason("station {station} isn't set up", SCRIPT)
    NO_KEYS = Reason("the phone has no security context", SCRIPT)
    NO_GUTI = Reason("the phone has no GUTI", SCRIPT)
    NEVER_CONNECTED = Reason("the phone was never connected", SCRIPT)
    IS_IDLE = Reason("the phone has no connection", SCRIPT)
    NOTHING_SENT = Reason("the phone has sent no protected message", SCRIPT)

    def text(self, facts):
        is_before = self.value.before and facts["line"] is None
        return (self.value.before if is_before else self.value.words).format(**facts)

    def clause(self, facts):
        return self.value.clause.format(**facts)


class Mark(enum.Enum):
    """What a message is beside its name."""
    REPLAYED, FORGED = "replayed", "forged"


FORGERIES = (Why.WRONG_MAC,)
REPLAYS = (Why.COUNT_USED,)
