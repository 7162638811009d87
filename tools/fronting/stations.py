"""A station: its connection, its number, its pace, and how far it has come."""
from tools.fronting import hearing, identity, limits
from tools.fronting.associations import Associations
from tools.fronting.identity import Identity
from tools.fronting.pace import Pace

from tools import runs


IN = ["in %d " % number for number in range(runs.STATIONS)]  # how the line of a station's message begins


def heard(numbers, messages):
    """The lines of messages as they came, each of the station of its number."""
    return [IN[number] + (octets.hex() or "-") for number, octets in zip(numbers, messages)]


def heard_plain(number, octets):
    """The lines of a message for which another one is handed on: a comment with what came, and that one. Nothing for others."""
    plain = hearing.plain(octets)
    if plain is None:
        return None
    came = "# came protected: %s%s" % (IN[number], octets.hex())
    return "%s\n%s%s" % (came[:runs.LONGEST_LINE], IN[number], plain.hex())


class Station:
    """A connection and the number that it gets."""

    def __init__(self, link, address, port, rate, now):
        self.link, self.address, self.port = link, address, port
        self.pace, self.octet_pace = Pace(rate), Pace(rate * limits.OCTETS)
        self.number, self.since, self.is_set_up = None, now, False
        self.is_lost, self.associations = False, Associations()
        self.heard = self.sent = 0
        self.request = self.read = None  # its last S1 SETUP REQUEST, and the one that was read
        self.identity = Identity()  # what stands in that

    def __str__(self):
        return "%s port %d" % (self.address, self.port)

    def read_request(self):
        """Reads what it said of itself last; whether that was something new."""
        is_new = self.request != self.read
        if is_new:
            self.read, self.identity = self.request, identity.read(self.request)
        return is_new

    def allows(self, now):
        """How many messages it may say now."""
        return self.pace.allows(now) if self.octet_pace.is_open(now) else 0

    def next(self):
        """When it may say one, where it may say none now."""
        return max(self.pace.next(), self.octet_pace.next())

    def take(self, most, most_octets, now):
        """What it says: `most` messages at the most, and none after `most_octets` octets."""
        messages = self.link.take(most, most_octets)
        if messages:
            self.pace.take(len(messages), now)
            self.octet_pace.take(sum(map(len, messages)), now)
            self.heard += len(messages)
        return messages

    def fault(self, now, setup_seconds):
        """Why its connection is to end, or nothing."""
        link = self.link
        if link.why is not None:
            return link.why
        if link.size > limits.MOST_WAITING:
            return "more than %d octets wait for it to read" % limits.MOST_WAITING
        if link.half_since is not None and now - link.half_since > limits.PATIENCE:
            return "a message wasn't whole within %d s" % limits.PATIENCE
        if not self.is_set_up and now - self.since > setup_seconds:
            return "S1 SETUP wasn't done within %g s" % setup_seconds
        return None
