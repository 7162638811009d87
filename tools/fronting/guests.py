"""Connections of those who ask: at the control socket, or for metrics and the page. Each has its limits of octets and of time."""
import collections
import contextlib
import select
import time

from tools.fronting import limits
from tools.fronting.pace import Pace

ENDING = select.EPOLLRDHUP | select.EPOLLHUP | select.EPOLLERR
REST = 0.02  # seconds until a door that too many came to opens again, and until more is read of a line that isn't whole


class Guest:
    """One who asks. `take` is called with what it has said so far, and returns what is left of that; where that is the beginning of
    something long, it has said by `wanted` how many octets are to come together, which it is given as a bytearray."""

    def __init__(self, loop, connection, most, seconds, take, left):
        self.loop, self.connection, self.most, self.seconds = loop, connection, most, seconds
        self.take, self.left = take, left  # what is done with what it says, and when it has gone
        self.received, self.waiting, self.size = b"", collections.deque(), 0
        self.further, self.wanted = bytearray(), 0  # of what is wanted together, what came
        self.is_last, self.is_open, self.is_deaf, self.is_resting = False, True, False, False
        self.timer = None
        self.rest_assured()
        connection.setblocking(False)
        loop.watch(connection.fileno(), select.EPOLLIN | select.EPOLLRDHUP, self.look)

    def rest_assured(self):
        """It has its time from now on again."""
        if self.timer is not None:
            self.timer.cancel()
        self.timer = self.loop.after(self.seconds, self.close)

    def wait(self):
        """It waits for an answer, for as long as that takes: its time doesn't run meanwhile, and what it says is left unread."""
        self.timer.cancel()
        self.is_deaf = True
        self.listen()

    def listen(self):
        """Waits for what is to be looked at of the connection."""
        reads = 0 if self.is_deaf or self.is_last or self.is_resting else select.EPOLLIN
        self.loop.change(self.connection.fileno(), reads | select.EPOLLRDHUP | (select.EPOLLOUT if self.waiting else 0))

    def look(self, events):
        if events & select.EPOLLOUT:
            self.write()
        if self.is_open and events & ENDING and not events & select.EPOLLIN:
            self.close()
        elif self.is_open and events & select.EPOLLIN:
            self.read()

    def read(self):
        try:
            piece = self.connection.recv(limits.PIECE)
        except BlockingIOError:
            return
        except OSError:
            piece = b""
        if not piece:
            self.close()
            return
        if self.wanted:
            self.further += piece
            if len(self.further) < self.wanted:
                return
            piece, self.further = self.further, bytearray()
        self.hear(self.received + piece if self.received else piece)
        if len(self.received) > self.most:
            self.close()
        elif self.received and not self.wanted and self.is_open and len(piece) < limits.PIECE:
            self.rest()

    def hear(self, received):
        """Has what it said be taken; of something long what is left waits for the rest of it."""
        self.wanted = 0
        self.received = self.take(self, received)
        if self.wanted:
            self.further, self.received = bytearray(self.received), b""

    def rest(self):
        """Reads on in a while, since it speaks in small pieces."""
        self.is_resting = True
        self.listen()
        self.loop.after(REST, self.read_on)

    def read_on(self):
        self.is_resting = False
        if self.is_open:
            self.listen()

    def go_on(self):
        """Looks again at what it said."""
        if self.is_open:
            self.hear(self.received)

    def say(self, octets, is_last=False):
        """Tells it something; after the last it goes."""
        if self.is_open:
            self.waiting.append(memoryview(octets))
            self.size += len(octets)
            self.is_deaf, self.is_last = False, self.is_last or is_last
            self.rest_assured()
            self.write()

    def write(self):
        """Sends what waits, as far as it goes."""
        try:
            while self.waiting:
                sent = self.connection.send(self.waiting[0])
                self.size -= sent
                if sent == len(self.waiting[0]):
                    self.waiting.popleft()
                else:
                    self.waiting[0] = self.waiting[0][sent:]
        except BlockingIOError:
            pass
        except OSError:
            self.close()
            return
        if self.size > limits.MOST_TOLD or self.is_last and not self.waiting:
            self.close()
            return
        self.listen()

    def close(self):
        if self.is_open:
            self.is_open = False
            self.waiting.clear()
            with contextlib.suppress(OSError):
                self.connection.recv(limits.PIECE)  # what was left unread would have the other side lose what it was told last
            self.timer.cancel()
            self.loop.unwatch(self.connection.fileno())
            self.connection.close()
            self.left(self)


class Door:
    """A listening socket for guests, of whom there are `most_guests` at the most; a further one is closed at once."""

    def __init__(self, loop, listener, most_guests, most_octets, seconds, take):
        self.loop, self.listener, self.take = loop, listener, take
        self.most_guests, self.most_octets, self.seconds = most_guests, most_octets, seconds
        self.guests, self.pace, self.is_open = {}, Pace(limits.GUEST_RATE), True
        listener.setblocking(False)
        self.open()

    def open(self):
        if self.is_open:
            self.loop.watch(self.listener.fileno(), select.EPOLLIN, self.accept)

    def accept(self, events):
        """Takes one who comes; where too many come, the others wait a while."""
        now = time.monotonic()
        if not self.pace.allows(now):
            self.loop.unwatch(self.listener.fileno())
            self.loop.after(REST, self.open)
            return
        self.pace.take(1, now)
        try:
            connection, _ = self.listener.accept()
        except OSError:
            return
        if len(self.guests) >= self.most_guests:
            connection.close()
            return
        guest = Guest(self.loop, connection, self.most_octets, self.seconds, self.take, lambda guest: self.guests.pop(guest, None))
        self.guests[guest] = True

    def close(self):
        self.is_open = False
        self.loop.unwatch(self.listener.fileno())
        for guest in list(self.guests):
            guest.close()
