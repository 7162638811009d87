"""What the front tells of phones' tunnels, by the word `bearers` of its control socket (fronting/followers.py)."""
import select
import socket

from tools.tunnels import limits
from tools.tunnels.phones import Fault, subscriber, tunnel

ASKED = b"bearers\n"


class Feed:
    """A connection to the front, which is made again where it ends. What the front has told by `now` is all that stands; the
    changes of one read are taken together."""

    def __init__(self, loop, path, voice, gateway):
        self.loop, self.path, self.voice, self.gateway = loop, path, voice, gateway
        self.socket, self.is_told, self.is_over, self.was_there = None, False, False, True
        self.steps = {"sub": self.take_subscriber, "up": self.take_up, "down": self.take_down, "now": self.take_now,
                      "end": self.take_end}
        self.connect()

    def connect(self):
        """Tries the front, until it is there."""
        self.rest, self.subscribers, self.tunnels, self.is_told, self.is_over = b"", [], {}, False, False
        made = socket.socket(socket.AF_UNIX)
        made.setblocking(False)
        try:
            made.connect(self.path)
            made.send(ASKED)
        except OSError:
            made.close()
            self.say_gone("no front is there yet, which is asked for at %s" % self.path)
            self.loop.after(limits.RETRY_SECONDS, self.connect)
            return
        self.socket = made
        self.loop.watch(made.fileno(), select.EPOLLIN, lambda events: self.read())

    def say_gone(self, text):
        if self.was_there:
            self.was_there = False
            self.voice.say("front_gone", text)

    def read(self):
        try:
            piece = self.socket.recv(limits.FRONT_PIECE)
        except BlockingIOError:
            return
        except OSError:
            piece = b""
        if not piece:
            self.end("the front has ended" if self.is_over else "the front is gone: tunnels stay until it is back")
            return
        *lines, self.rest = (self.rest + piece).split(b"\n")
        try:
            for line in lines:
                self.take(line.decode("latin-1"))
            if len(self.rest) > limits.LONGEST_LINE:
                raise Fault("a line that is too long")
        except Fault as fault:
            self.end("the front said what can't be taken: %s" % fault)
            return
        if self.is_told:
            self.hand_on()

    def end(self, why):
        """The connection is over."""
        if self.is_told:
            self.hand_on()
        self.loop.unwatch(self.socket.fileno())
        self.socket.close()
        self.socket = None
        self.say_gone(why)
        self.loop.after(limits.RETRY_SECONDS, self.connect)

    def take(self, line):
        """A line of the front; one with a word that isn't known is of a later front."""
        word, *fields = line.split(" ")
        if word in self.steps:
            self.steps[word](fields)

    def take_subscriber(self, fields):
        self.subscribers.append(subscriber(fields))

    def take_up(self, fields):
        imsi, found = tunnel(fields)
        self.tunnels[imsi] = found

    def take_down(self, fields):
        self.tunnels[fields[0] if fields else ""] = None

    def take_now(self, _):
        self.is_told = self.was_there = True
        self.gateway.take_all(self.subscribers, self.tunnels)
        self.voice.say("told", "the front tells of %d subscribers and %d tunnels" % (
            len(self.subscribers), sum(found is not None for found in self.tunnels.values())),
            subscribers=len(self.subscribers))
        self.subscribers, self.tunnels = [], {}

    def take_end(self, _):
        self.is_over = True

    def hand_on(self):
        """The changes since the last time."""
        subscribers, tunnels = self.subscribers, self.tunnels
        self.subscribers, self.tunnels = [], {}
        if subscribers:
            self.gateway.add(subscribers)
        if tunnels:
            self.gateway.change(tunnels)
