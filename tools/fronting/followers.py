"""Those who follow the tunnels of phones at the control socket: a gateway beside the front.

A follower is told each subscriber and each tunnel that there is, then `now`, and from then on each change, once what led to it is
kept. It is told piece by piece, beside the stations' messages, and nobody waits for it: one that doesn't read is cut off.

    sub IMSI ADDRESS GATEWAY TEID    a subscriber, as its line in the head has it
    up IMSI ADDRESS TEID             a phone's tunnel leads to a station's address and TEID from now on
    down IMSI                        a phone has no tunnel from now on
    now                              what stands was told
    end                              the front ends in order, and no station is connected any more
"""
from tools.fronting import limits
from tools.fronting.bearers import Bearers, release_request

PIECE = 500  # subscribers that are told of at a time
REST = 0.01  # seconds until more is told to one that has much to read still
RELEASED = "the gateway has a phone released, whose station doesn't know its tunnel: %s"
NOT_THERE = "refused: the tunnel of %s doesn't lead there"


class Follower:
    """One who follows; the subscribers before `told` were told of."""

    def __init__(self, guest):
        self.guest, self.told, self.is_new, self.is_resting = guest, 0, True, False

    def say(self, text):
        """Tells it lines; where it doesn't read, it is cut off."""
        self.guest.say(text.encode("latin-1"))
        if self.guest.is_open:
            self.guest.wait()
        if self.guest.size > limits.MOST_FOLLOWED:
            self.guest.close()


class Followers:
    """The tunnels of a front's phones, and who follows them."""

    def __init__(self, front):
        self.front, self.all = front, []
        self.count = len(front.head.imsis)  # of the subscribers that may be told of
        self.bearers = Bearers(self.tell, self.ask)

    def words(self, slot):
        """A phone and where its tunnel leads to, in words; `-` where it has none."""
        imsi, tunnel = self.front.head.imsis[slot], self.bearers.tunnel(slot)
        return "%s %s %d" % (imsi, *tunnel) if tunnel else "%s -" % imsi

    def line(self, slot):
        """What is told of a phone's tunnel."""
        return "up %s\n" % self.words(slot) if self.bearers.tunnel(slot) else "down %s\n" % self.front.head.imsis[slot]

    # Who follows.

    def follow(self, guest):
        """Somebody follows from now on."""
        guest.wait()
        self.all = [follower for follower in self.all if follower.guest.is_open] + [Follower(guest)]
        self.go_on(self.all[-1])

    def lengthen(self):
        """There are further subscribers, whose lines are kept."""
        self.count = len(self.front.head.imsis)
        for follower in self.all:
            self.go_on(follower)

    def go_on(self, follower):
        """Has the next piece be told, unless that is planned."""
        if not follower.is_resting and follower.guest.is_open:
            follower.is_resting = True
            self.front.aside.do(lambda: self.tell_piece(follower))

    def tell_piece(self, follower):
        """Tells the next subscribers and their tunnels; after the last of those that there were, `now`."""
        follower.is_resting = False
        if not follower.guest.is_open:
            return
        head, bearers = self.front.head, self.bearers
        if follower.guest.size > limits.MOST_FOLLOWED // 4:
            follower.is_resting = True
            self.front.loop.after(REST, lambda: self.tell_piece(follower))
            return
        slots = range(follower.told, min(follower.told + PIECE, self.count))
        follower.told = slots.stop
        lines = [head.subscribers[slot] + "\n" for slot in slots]
        lines += [self.line(slot) for slot in slots if bearers.tunnel(slot)]
        is_last = slots.stop == self.count
        if is_last and follower.is_new:
            follower.is_new = False
            lines.append("now\n")
        follower.say("".join(lines))
        if not is_last:
            self.go_on(follower)

    def tell(self, slot, _):
        """A phone's tunnel has changed: tells those who were told of the phone."""
        line = self.line(slot)
        for follower in self.all:
            if slot < follower.told and follower.guest.is_open:
                follower.say(line)

    def end(self):
        """The front ends in order."""
        for follower in self.all:
            follower.say("end\n")

    # What the MME is asked and told.

    def ask(self, slot):
        """The MME is to tell a phone's states."""
        words = "show " + self.front.head.imsis[slot]
        self.front.loop.after(0, lambda: self.front.exchange.ask([words], self.note, lambda: None))

    def note(self, answer):
        self.bearers.note(self.front.head.slots[answer.imsi], answer.states)

    def release(self, slot, address, teid):
        """Has a phone be released as its station would have it, where its tunnel leads to this end; what is answered."""
        imsi, tunnel = self.front.head.imsis[slot], self.bearers.tunnel(slot)
        if tunnel is None or (address, teid) != (tunnel[0], str(tunnel[1])):
            return NOT_THERE % imsi
        connection = self.bearers.connections.by_slot[slot]
        octets = release_request(connection.mme_id, connection.enb_id)
        is_told = self.front.crowd.speak_for(connection.station, octets, RELEASED % imsi)
        return "taken" if is_told else NOT_THERE % imsi
