"""A peer: the connection to it with its capabilities (RFC 6733 clause 5), and the watchdog that finds it gone (RFC 3539)."""
import collections
import enum
import random
import time

from tools.diameter import avps, messages
from tools.diameter.avps import Malformed
from tools.diameter.messages import BASE, IS_ERROR, IS_PROXIABLE, IS_REQUEST, RELAY, S6A, Command, Header, Message
from tools.diameter.results import Result, is_of_protocol, is_success, name_of

EXCHANGE_SECONDS = 5  # from the beginning of a connection to Capabilities-Exchange-Answer
FIRST_REST, LONGEST_REST = 0.5, 30  # seconds until a connection is tried again: twice as long each time (RFC 6733 clause 2.1, Tc)
SETTLED_SECONDS = 5  # that a connection lasts until the next rest is the first one again
JITTER, LEAST_JITTERED = 2, 6  # seconds by which a watchdog's time varies, from this time on (RFC 3539 clause 3.4.1)
PROVEN = 3  # watchdogs that a peer which was gone answers before it is one as any other
CLOSING_SECONDS = 1  # for Disconnect-Peer-Answer
REBOOTING = 0  # values of Disconnect-Cause (RFC 6733 clause 5.4.3)
NO_INBAND_SECURITY = 0
PRODUCT = "mme-s6a"

Node = collections.namedtuple("Node", "host realm state")  # this side: its names and its Origin-State-Id


class Phase(enum.Enum):
    CLOSED = "closed"
    CONNECTING = "connecting"
    EXCHANGING = "exchanging"  # until Capabilities-Exchange-Answer
    OKAY = "okay"
    REOPENED = "reopened"  # it was gone, and hasn't answered enough watchdogs since
    SUSPECT = "suspect"  # it hasn't answered a watchdog
    CLOSING = "closing"  # until Disconnect-Peer-Answer


LIVE = (Phase.OKAY, Phase.REOPENED, Phase.SUSPECT)


def identity(node):
    return [(avps.ORIGIN_HOST, node.host), (avps.ORIGIN_REALM, node.realm)]


def s6a_application():
    return avps.VENDOR_SPECIFIC_APPLICATION_ID, [(avps.VENDOR_ID, avps.VENDOR_3GPP), (avps.AUTH_APPLICATION_ID, S6A)]


def shares_s6a(answer):
    """Whether a Capabilities-Exchange-Answer has S6a, or relays all."""
    found = answer.every(avps.AUTH_APPLICATION_ID)
    for group in answer.every(avps.VENDOR_SPECIFIC_APPLICATION_ID):
        found += group.every(avps.AUTH_APPLICATION_ID)
    return S6A in found or RELAY in found


class Peer:
    """The peer at an address. `client` hears what it asks and answers, when it is usable and when it is gone, and gives numbers."""

    def __init__(self, client, address, port):
        self.client, self.loop, self.address, self.port = client, client.loop, address, port
        self.phase, self.link, self.buffer, self.host = Phase.CLOSED, None, bytearray(), None
        self.counts = collections.Counter()  # of this connection: what couldn't be taken
        self.rest, self.was_gone, self.opened_at, self.due = FIRST_REST, False, 0.0, 0.0
        self.unanswered, self.proven, self.hop = False, 0, None  # a watchdog that isn't answered, and how many were
        self.timer = self.watchdog = None

    def __str__(self):
        return ("[%s]:%d" if self.address.version == 6 else "%s:%d") % (self.address, self.port)

    def say(self, text):
        self.client.say("%s: %s" % (self, text))

    # The beginning of a connection, and its end.

    def connect(self):
        self.timer = None
        self.counts.clear()
        self.buffer.clear()
        self.phase = Phase.CONNECTING
        self.link = self.client.link(self.loop, self.come_up, self.hear, self.lose)
        try:
            self.link.begin(self.address, self.port, self.client.source)
        except OSError as fault:
            self.lose(fault.strerror or str(fault))
            return
        self.timer = self.loop.after(EXCHANGE_SECONDS, lambda: self.drop("no Capabilities-Exchange-Answer within %d s"
                                                                         % EXCHANGE_SECONDS))

    def come_up(self):
        """The connection is there: says who is here."""
        self.phase, self.hop = Phase.EXCHANGING, self.client.next_hop()
        own = self.client.host_address(self.link.own_address())
        self.put(Header(IS_REQUEST, Command.CAPABILITIES_EXCHANGE, BASE, self.hop, self.client.next_end()), [
            *identity(self.client.node), (avps.HOST_IP_ADDRESS, own), (avps.VENDOR_ID, 0), (avps.PRODUCT_NAME, PRODUCT),
            (avps.ORIGIN_STATE_ID, self.client.node.state), (avps.SUPPORTED_VENDOR_ID, avps.VENDOR_3GPP),
            s6a_application(), (avps.INBAND_SECURITY_ID, NO_INBAND_SECURITY)])

    def come_open(self, message):
        """Capabilities-Exchange-Answer."""
        code = message.avps.first(avps.RESULT_CODE, 0)
        if not is_success(code):
            self.drop("it refuses the connection: %s %s" % (name_of(code, Result), message.avps.first(avps.ERROR_MESSAGE, "")))
            return
        if not shares_s6a(message.avps):
            self.drop("it has no S6a")
            return
        self.timer.cancel()
        self.timer, self.host, self.opened_at = None, message.avps.first(avps.ORIGIN_HOST, "?"), time.monotonic()
        self.phase, self.unanswered, self.proven = Phase.REOPENED if self.was_gone else Phase.OKAY, False, 0
        self.say("connected to %s" % self.host)
        if self.was_gone:
            self.send_watchdog()
        self.set_watchdog()
        self.look()
        self.client.came_open(self)

    def drop(self, why):
        """Ends the connection, for this."""
        if self.link is not None:
            self.link.close()
            self.lose(why)

    def lose(self, why):
        """The connection is over, for this; another is begun after a rest."""
        was_live = self.phase in LIVE
        for timer in (self.timer, self.watchdog):
            if timer is not None:
                timer.cancel()
        is_ending, self.phase, self.link, self.timer, self.watchdog = self.phase is Phase.CLOSING, Phase.CLOSED, None, None, None
        if is_ending:
            self.client.has_closed(self)
            return
        if was_live:
            self.was_gone = True
        if was_live and time.monotonic() - self.opened_at > SETTLED_SECONDS:
            self.rest = FIRST_REST
        self.say("lost: %s%s" % (why, self.counted()))
        self.timer = self.loop.after(self.rest * random.uniform(0.75, 1.25), self.connect)
        self.rest = min(LONGEST_REST, 2 * self.rest)
        self.client.was_lost(self)

    def counted(self):
        """What couldn't be taken of a connection, in words."""
        return "".join("; %d %s" % (count, what) for what, count in sorted(self.counts.items()))

    def close(self):
        """Ends the connection in order (RFC 6733 clause 5.4)."""
        if self.phase in LIVE:
            self.watchdog.cancel()
            self.phase = Phase.CLOSING
            self.send(Command.DISCONNECT_PEER, [(avps.DISCONNECT_CAUSE, REBOOTING)])
            self.timer = self.loop.after(CLOSING_SECONDS, lambda: self.drop("no answer"))
            return
        if self.phase is not Phase.CLOSING:
            self.phase = Phase.CLOSING
            if self.link is not None:
                self.link.close()
            self.lose("ended")

    # The watchdog (RFC 3539 clause 3.4.1).

    def set_watchdog(self):
        """The time of a watchdog begins."""
        seconds = self.client.watchdog_seconds
        self.due = time.monotonic() + seconds + (random.uniform(-JITTER, JITTER) if seconds >= LEAST_JITTERED else 0)

    def look(self):
        """Looks whether the time of a watchdog has passed."""
        if time.monotonic() >= self.due:
            self.miss()
            if self.phase not in LIVE:
                return
            self.set_watchdog()
        self.watchdog = self.loop.after(max(0.0, self.due - time.monotonic()), self.look)

    def miss(self):
        """Nothing came in the time of a watchdog: asks, and takes silence to that for an end."""
        if not self.unanswered:
            self.send_watchdog()
        elif self.phase is Phase.OKAY:
            self.phase = Phase.SUSPECT
            self.say("it hasn't answered a watchdog")
            self.client.was_lost(self)
        elif self.phase is Phase.REOPENED and self.proven >= 0:
            self.proven = -1
        else:
            self.drop("it answers no watchdog")

    def send_watchdog(self):
        self.unanswered = True
        self.send(Command.DEVICE_WATCHDOG, [(avps.ORIGIN_STATE_ID, self.client.node.state)])

    def take_watchdog(self):
        """Device-Watchdog-Answer."""
        self.unanswered = False
        if self.phase is Phase.REOPENED:
            self.proven += 1
            if self.proven == PROVEN:
                self.phase, self.was_gone = Phase.OKAY, False
                self.client.came_open(self)

    # What is sent.

    def put(self, header, pairs):
        if self.link is not None:
            self.link.put(messages.written(header, pairs))

    def send(self, command, pairs):
        """A request of the base protocol."""
        self.put(Header(IS_REQUEST, command, BASE, self.client.next_hop(), self.client.next_end()),
                 identity(self.client.node) + pairs)

    def answer(self, asked, pairs, error=False):
        """Answers a request (RFC 6733 clause 6.2): its own session first, and what proxies have in it last."""
        flags = asked.header.flags & IS_PROXIABLE | (IS_ERROR if error else 0)
        session = [(avps.SESSION_ID, text) for text in asked.avps.every(avps.SESSION_ID)[:1]]
        proxies = [(avps.PROXY_INFO, octets) for octets in asked.avps.every(avps.PROXY_INFO)]
        self.put(asked.header._replace(flags=flags), session + pairs + proxies)

    def refuse(self, asked, result, text="", failed=b""):
        """Answers a request that isn't done."""
        pairs = [(avps.RESULT_CODE, result), *identity(self.client.node)]
        if text:
            pairs.append((avps.ERROR_MESSAGE, text))
        if failed:
            pairs.append((avps.FAILED_AVP, failed))
        self.answer(asked, pairs, is_of_protocol(result))

    # What comes.

    def hear(self, octets):
        """Octets of the connection."""
        self.buffer += octets
        found, why = messages.taken(self.buffer)
        link = self.link
        for one in found:
            self.take(one)
            if self.link is not link:
                return  # which has ended meanwhile
        if why:
            self.drop(why)

    def take(self, octets):
        """A message."""
        if self.phase in (Phase.OKAY, Phase.SUSPECT):
            self.set_watchdog()
        header = messages.header_of(octets)
        try:
            message = Message(header, avps.read(octets[messages.HEADER:]))
        except Malformed as fault:
            self.take_malformed(header, fault)
            return
        if self.phase is Phase.SUSPECT:
            self.phase = Phase.OKAY
            self.client.came_open(self)
        if header.flags & IS_REQUEST:
            self.take_request(message)
        else:
            self.take_answer(message)

    def take_malformed(self, header, fault):
        """A message whose AVPs can't be read: a request is answered, and an answer is none."""
        self.note("messages that can't be read", str(fault))
        if self.phase is Phase.EXCHANGING:
            self.drop("a message that can't be read before Capabilities-Exchange-Answer")
        elif header.flags & IS_REQUEST:
            self.refuse(Message(header, avps.Group()), fault.result, str(fault), fault.failed)
        else:
            self.client.was_answered(self, header, None)

    def note(self, what, text):
        """Counts what can't be taken, and says the first of a connection."""
        self.counts[what] += 1
        if self.counts[what] == 1:
            self.say("%s: %s" % (what, text))

    def take_request(self, message):
        command = message.header.command
        if self.phase is Phase.EXCHANGING:
            self.drop("a request before Capabilities-Exchange-Answer")
        elif self.phase is Phase.CLOSING and command != Command.DISCONNECT_PEER:
            self.note("requests while the connection is ended", str(command))
        elif message.header.flags & IS_ERROR:
            self.note("requests with the E bit", str(command))
            self.refuse(message, Result.INVALID_HDR_BITS)
        elif command == Command.DEVICE_WATCHDOG and message.header.application == BASE:
            self.answer(message, [(avps.RESULT_CODE, Result.SUCCESS), *identity(self.client.node),
                                  (avps.ORIGIN_STATE_ID, self.client.node.state)])
        elif command == Command.DISCONNECT_PEER and message.header.application == BASE:
            self.part(message)
        else:
            self.client.was_asked(self, message)

    def part(self, message):
        """Disconnect-Peer-Request. A peer that doesn't begin anew at once wants to be left alone."""
        cause = message.avps.first(avps.DISCONNECT_CAUSE, REBOOTING)
        self.answer(message, [(avps.RESULT_CODE, Result.SUCCESS), *identity(self.client.node)])
        if cause != REBOOTING:
            self.rest = LONGEST_REST
        self.drop("it ends the connection, for cause %d" % cause)

    def take_answer(self, message):
        command, hop = message.header.command, message.header.hop
        if self.phase is Phase.EXCHANGING:
            if command == Command.CAPABILITIES_EXCHANGE and hop == self.hop:
                self.come_open(message)
            else:
                self.drop("an answer before Capabilities-Exchange-Answer")
        elif command == Command.DEVICE_WATCHDOG:
            self.take_watchdog()
        elif command == Command.DISCONNECT_PEER and self.phase is Phase.CLOSING:
            self.drop("ended")
        elif not self.client.was_answered(self, message.header, message):
            self.note("answers to nothing", str(command))
