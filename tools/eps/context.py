"""A phone's security context: its keys and counts, and why a message isn't accepted under it (TS 24.301 clause 4.4)."""
import dataclasses

from tools.eps import ciphers, macs, nas
from tools.eps.reasons import Why

LAST_COUNT = (1 << 24) - 1
SERVICE_BITS, MESSAGE_BITS = 5, 8  # of a count, that go with a message
COMPLETING, LATER = frozenset({nas.NEW_CIPHERED}), frozenset({nas.INTEGRITY, nas.CIPHERED})  # headers that are taken
COMPLETE = bytes([7, nas.SECURITY_MODE_COMPLETE])  # as a SECURITY MODE COMPLETE begins, plain
# Whose a header is that isn't taken (clause 9.3.1).
OWNERS_OF_HEADERS = {nas.NEW_CONTEXT: "it belongs to SECURITY MODE COMMAND",
                     nas.NEW_CIPHERED: "it belongs to SECURITY MODE COMPLETE",
                     nas.SERVICE_HEADER: "it belongs to SERVICE REQUEST, a first message"}


def wrong_header(header, headers, inner=b""):
    """The refusal of a header that isn't one of those that are taken, before the message inside."""
    belongs = OWNERS_OF_HEADERS.get(header, "it is reserved")
    if header in LATER and headers == COMPLETING:
        belongs = "SECURITY MODE COMPLETE has header 4"
    elif header in COMPLETING and inner[:2] == COMPLETE:
        belongs = "the security mode is complete already, and later messages have header 1 or 2"
    return Refusal(Why.WRONG_HEADER, {"header": header, "belongs": belongs})


class Spent(Exception):
    """A context has no downlink count left."""


@dataclasses.dataclass
class Refusal:
    """Why a message isn't accepted."""
    why: Why
    facts: dict
    lines: tuple = ()


def estimate(last, bits, width):
    """The least count above the last accepted one with these low bits, or None where there is none (clause 4.4.3.1)."""
    least = 0 if last is None else last + 1
    count = least + (bits - least) % (1 << width)
    return count if count <= LAST_COUNT else None


class Context:
    """A context by the vector it came of; `accepted` has the line of each accepted uplink count, and `is_right` says whether a
    MAC is."""

    def __init__(self, vector, before, is_right=macs.is_right, knows_all=True):
        self.vector, self.kasme, self.key_set, self.is_right = vector, vector.kasme, vector.key_set, is_right
        self.before, self.knows_all = before, knows_all  # the vectors of earlier contexts, and whether these are all
        self.down, self.last, self.accepted = 0, None, {}
        self.radio_key = self.next_hop = self.chaining = None
        self.hops = 0  # how many next hops were taken that aren't made yet

    def spend(self):
        """The next downlink count."""
        if self.down > LAST_COUNT:
            raise Spent
        self.down += 1
        return self.down - 1

    def make_radio_key(self, count):
        """KeNB by an uplink count; the first next hop is made of it once it is needed (TS 33.401 clauses A.3, A.4)."""
        self.radio_key, self.next_hop, self.chaining, self.hops = ciphers.kenb(self.kasme, count), None, 1, 0

    def take_hop(self):
        for _ in range(self.hops + 1):
            before = self.next_hop or ciphers.next_hop(self.kasme, self.radio_key)
            self.next_hop, self.chaining = ciphers.next_hop(self.kasme, before), (self.chaining + 1) % 8
        self.hops = 0

    def keep(self, count, line):
        self.last = count
        self.accepted[count] = line

    def accept(self, octets, headers, line):
        """The message in a protected one, whose count is then accepted; or the refusal."""
        protected = nas.split(octets)
        if protected is None:
            return self.unprotected(octets, headers)
        if protected.header not in headers:
            return wrong_header(protected.header, headers, protected.inner)
        return self.checked(MESSAGE_BITS, protected.sequence, protected.covered(), protected.mac, line) or protected

    @staticmethod
    def unprotected(octets, headers):
        header = octets[0] >> 4 if octets else 0
        if not octets or octets[0] & 0xF != nas.PLAIN_EMM & 0xF or header == 0:
            return Refusal(Why.PLAIN, {})
        if header in nas.PROTECTED_HEADERS:
            return Refusal(Why.CUT_SHORT, {})
        return wrong_header(header, headers)

    def accept_short(self, octets, line):
        """The count of a SERVICE REQUEST, accepted; or the refusal (clause 4.4.3.1: 5 bits, and half a MAC)."""
        key_set, sequence = octets[1] >> 5, octets[1] & 31
        if key_set != self.key_set:
            return Refusal(Why.WRONG_KEY_SET, {"key_set": key_set, "wanted": self.key_set})
        return self.checked(SERVICE_BITS, sequence, octets[:2], octets[2:], line)

    def checked(self, width, bits, inside, mac, line):
        """Accepts the count, or answers why the message isn't right."""
        count = estimate(self.last, bits, width)
        if count is None:
            return Refusal(Why.COUNTS_SPENT, {})
        if self.is_right(self.kasme, count, nas.UP, inside, mac):
            self.keep(count, line)
            return None
        return self.wrong(width, bits, inside, mac, count)

    def wrong(self, width, bits, inside, mac, count):
        """Why a MAC is wrong: by an earlier count, by another context's key, or by neither."""
        for used in range(bits, (self.last if self.last is not None else -1) + 1, 1 << width):
            if self.is_right(self.kasme, used, nas.UP, inside, mac):
                return self.passed(used)
        for vector in self.before:
            tried = range(bits, count + (1 << width), 1 << width)
            if any(self.is_right(vector.kasme, used, nas.UP, inside, mac) for used in tried):
                return Refusal(Why.OTHER_KEY, {"other": vector.number, "vector": self.vector.number})
        why = Why.WRONG_MAC if self.knows_all else Why.UNKNOWN_KEY
        return Refusal(why, {"vector": self.vector.number, "count": count})

    def passed(self, used):
        """A count that was accepted, or that is below one that was; of those before a snapshot the last alone is known."""
        if used in self.accepted:
            line = self.accepted[used]
            return Refusal(Why.COUNT_USED, {"count": used, "line": line}, (line,))
        line = self.accepted[self.last]
        return Refusal(Why.COUNT_PASSED, {"count": used, "last": self.last, "line": line}, (line,))
