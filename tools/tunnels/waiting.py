"""Packets that wait: those of idle phones until they come, and those of a station until its tunnel is known."""
import collections


class Waiting:
    """Packets by phone, each with when it came and from whom: so many of a phone, so many octets of all, so many seconds."""

    def __init__(self, most, octets, seconds, drop):
        self.most, self.room, self.seconds, self.drop = most, octets, seconds, drop
        self.of, self.octets = {}, 0

    def __len__(self):
        return sum(map(len, self.of.values()))

    def put(self, phone, packet, now, sender=None):
        """One more packet; the oldest of the phone goes for it, and where there is no room it goes itself."""
        if self.octets + len(packet) > self.room:
            self.drop(phone, sender, "no room is left")
            return
        waiting = self.of.setdefault(phone, collections.deque())
        waiting.append((now, packet, sender))
        self.octets += len(packet)
        if len(waiting) > self.most:
            _, oldest, other = waiting.popleft()
            self.octets -= len(oldest)
            self.drop(phone, other, "more than %d waited" % self.most)

    def take(self, phone):
        """The packets of a phone, with their senders; none waits any more."""
        waiting = self.of.pop(phone, None)
        if waiting is None:
            return ()
        self.octets -= sum(len(packet) for _, packet, _ in waiting)
        return [(packet, sender) for _, packet, sender in waiting]

    def count(self, phone):
        return len(self.of.get(phone, ()))

    def forget(self, phone, why):
        """A phone's packets are of no use any more."""
        for _, sender in self.take(phone):
            self.drop(phone, sender, why)

    def sweep(self, now):
        """Drops what waited too long."""
        for phone, waiting in list(self.of.items()):
            while waiting and now - waiting[0][0] > self.seconds:
                _, packet, sender = waiting.popleft()
                self.octets -= len(packet)
                self.drop(phone, sender, "waited for %g s" % self.seconds)
            if not waiting:
                del self.of[phone]
