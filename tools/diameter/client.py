"""Requests to the peers and their answers: which peer is asked, what happens to a request when its peer is gone, and how long an
answer may take (RFC 6733 clauses 5.5.4 and 6.1)."""
import ipaddress
import random
import time

from tools.diameter import avps
from tools.diameter.messages import IS_AGAIN, IS_ERROR, IS_PROXIABLE, IS_REQUEST, S6A, Header
from tools.diameter.peer import Node, Peer, Phase, identity, s6a_application
from tools.diameter.results import Result

NO_STATE_MAINTAINED = 1  # of Auth-Session-State (RFC 6733 clause 8.11)
# What another peer may do: the first one doesn't reach the HSS, or has too much to do (RFC 6733 clause 7.1.3).
OF_THE_PEER = (Result.UNABLE_TO_DELIVER, Result.TOO_BUSY)
NUMBERS = 1 << 32
START_BITS = 20  # of an End-to-End Identifier, below those of the time (RFC 6733 clause 3)
NO_PEER, LATE, UNREADABLE = "no peer is connected", "no answer in time", "the answer can't be read"


class Asked:
    """A request under way. `then` is called with its answer, or with nothing and why there is none."""

    __slots__ = "command pairs then session end timer peer hop is_again refused_by".split()

    def __init__(self, command, pairs, then):
        self.command, self.pairs, self.then = command, pairs, then
        self.session = self.end = self.timer = self.peer = self.hop = None
        self.is_again, self.refused_by = False, set()


class Client:
    """Asks the peers: the first one that can be asked, in their order. What they ask goes to `asked(peer, message)`."""

    def __init__(self, loop, settings, link, say):
        self.loop, self.link, self.say = loop, link, say
        self.node = Node(settings.host, settings.realm, int(time.time()))
        self.hss_host, self.hss_realm = settings.hss, settings.hss_realm or settings.realm
        self.source, self.watchdog_seconds = settings.source, settings.watchdog
        self.peers = [Peer(self, *place) for place in settings.peers]
        self.asked, self.closed = None, None  # who hears of requests, and of the end of all connections
        self.hop, self.sessions = random.randrange(NUMBERS), 0
        self.end = (self.node.state << START_BITS | random.getrandbits(START_BITS)) % NUMBERS
        self.under_way, self.waiting = {}, []  # requests by their Hop-by-Hop Identifier, and those that wait for a peer

    def begin(self):
        for peer in self.peers:
            peer.connect()

    def close(self):
        """Ends all connections in order; `closed()` is called then."""
        for peer in self.peers:
            peer.close()

    def has_closed(self, peer):
        if all(peer.phase is Phase.CLOSED for peer in self.peers):
            self.closed()

    # Numbers and names.

    def next_hop(self):
        self.hop = (self.hop + 1) % NUMBERS
        return self.hop

    def next_end(self):
        self.end = (self.end + 1) % NUMBERS
        return self.end

    def next_session(self):
        """A Session-Id (RFC 6733 clause 8.8)."""
        self.sessions += 1
        return "%s;%d;%d" % (self.node.host, self.node.state, self.sessions)

    @staticmethod
    def host_address(text):
        """This side's address as Host-IP-Address has it."""
        return ipaddress.ip_address(text.partition("%")[0])

    # Requests.

    def ask(self, command, pairs, seconds, then):
        """Asks the HSS, with an answer within so many seconds."""
        asked = Asked(command, pairs, then)
        asked.session, asked.end = self.next_session(), self.next_end()
        asked.timer = self.loop.after(seconds, lambda: self.expire(asked))
        self.send(asked)

    def usable(self, without):
        """The peer to be asked, none of these: one that is as it should be, else one that was gone just now."""
        for phase in (Phase.OKAY, Phase.REOPENED):
            for peer in self.peers:
                if peer.phase is phase and peer not in without:
                    return peer
        return None

    def send(self, asked):
        """Sends a request to a peer; where there is none, it waits for one."""
        asked.peer = self.usable(asked.refused_by)
        if asked.peer is None:
            self.waiting.append(asked)
            return
        asked.hop = self.next_hop()
        self.under_way[asked.hop] = asked
        to = [(avps.DESTINATION_HOST, self.hss_host)] if self.hss_host else []
        head = [(avps.SESSION_ID, asked.session), s6a_application(), (avps.AUTH_SESSION_STATE, NO_STATE_MAINTAINED),
                *identity(self.node), *to, (avps.DESTINATION_REALM, self.hss_realm)]
        flags = IS_REQUEST | IS_PROXIABLE | (IS_AGAIN if asked.is_again else 0)
        asked.peer.put(Header(flags, asked.command, S6A, asked.hop, asked.end), head + asked.pairs)

    def finish(self, asked, answer, why=None):
        """A request has its answer, or none."""
        asked.timer.cancel()
        if asked.peer is None:
            self.waiting.remove(asked)
        else:
            self.under_way.pop(asked.hop)
        asked.then(answer, why)

    def expire(self, asked):
        """The time of a request is over."""
        self.finish(asked, None, NO_PEER if asked.peer is None else LATE)

    # What a peer does.

    def came_open(self, peer):
        """A peer can be asked."""
        waiting, self.waiting = self.waiting, []
        for asked in waiting:
            self.send(asked)

    def was_lost(self, peer):
        """A peer can't be asked any more: what it was asked goes to another, as what may come twice."""
        for asked in [asked for asked in self.under_way.values() if asked.peer is peer]:
            del self.under_way[asked.hop]
            asked.is_again = True
            self.send(asked)

    def was_answered(self, peer, header, message):
        """A peer answers a request, perhaps by a message that can't be read; whether it was one."""
        asked = self.under_way.get(header.hop)
        if asked is None or asked.peer is not peer or (header.command, header.end) != (asked.command, asked.end):
            return False
        if message is None:
            self.finish(asked, None, UNREADABLE)
        elif header.flags & IS_ERROR and message.avps.first(avps.RESULT_CODE) in OF_THE_PEER and self.is_asked_elsewhere(asked):
            pass
        else:
            self.finish(asked, message)
        return True

    def is_asked_elsewhere(self, asked):
        """Whether there is another peer for what this one can't do; it is asked then."""
        refused_by = asked.refused_by | {asked.peer}
        if self.usable(refused_by) is None:
            return False
        del self.under_way[asked.hop]
        asked.refused_by = refused_by
        self.send(asked)
        return True

    def was_asked(self, peer, message):
        self.asked(peer, message)
