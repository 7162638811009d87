"""What the gateway asks the front, by lines of the control socket: that a phone is paged or released, and a phone's states."""
import collections
import select
import socket
import time

from tools.fronting.pace import Pace

from tools.tunnels import limits

STATE = "state"  # how the answer begins that has a phone's states
REFUSED = ("refused", "fault")


class Asking:
    """A connection to the control socket while there is something to ask. `hear` is called with an IMSI and its states."""

    def __init__(self, loop, path, voice, hear):
        self.loop, self.path, self.voice, self.hear = loop, path, voice, hear
        self.socket, self.received = None, b""
        self.waiting, self.asked = collections.deque(), 0  # lines that wait for their turn, and how many wait for an answer
        self.pace, self.due, self.is_planned = Pace(limits.ASKED_A_SECOND), 0.0, False

    def page(self, imsi):
        """Has a phone be paged, and its states be told; whether that is asked for."""
        return self.ask("data %s\nshow %s\n" % (imsi, imsi), 2)

    def release(self, imsi, tunnel):
        """Has a phone be released whose tunnel isn't known at its station."""
        return self.ask("release %s %s %d\n" % (imsi, *tunnel), 1)

    def ask(self, lines, answers):
        if len(self.waiting) >= limits.MOST_ASKED:
            return False
        self.waiting.append((lines, answers))
        self.go_on()
        return True

    def go_on(self):
        """Asks what may be asked now."""
        self.is_planned = False
        now = time.monotonic()
        while self.waiting and self.asked < limits.ASKED_AT_ONCE and self.pace.is_open(now) and self.is_connected():
            lines, answers = self.waiting.popleft()
            self.pace.take(1, now)
            if not self.asked:
                self.due = now + limits.ANSWER_SECONDS
            self.asked += answers
            try:
                self.socket.send(lines.encode())
            except OSError:
                self.end()
        if self.waiting and not self.is_planned:
            self.is_planned = True
            self.loop.after(limits.RETRY_SECONDS if self.socket is None else self.pace.apart, self.go_on)

    def is_connected(self):
        """Whether there is a connection, or one can be made."""
        if self.socket is None:
            made = socket.socket(socket.AF_UNIX)
            made.setblocking(False)
            try:
                made.connect(self.path)
            except OSError:
                made.close()
                self.waiting.clear()  # where it still matters, it is asked for again
                return False
            self.socket = made
            self.loop.watch(made.fileno(), select.EPOLLIN, lambda events: self.read())
        return True

    def read(self):
        try:
            piece = self.socket.recv(limits.FRONT_PIECE)
        except BlockingIOError:
            return
        except OSError:
            piece = b""
        if not piece:
            self.end()
            return
        *lines, self.received = (self.received + piece).split(b"\n")
        for line in lines:
            self.asked = max(0, self.asked - 1)
            self.due = time.monotonic() + limits.ANSWER_SECONDS
            self.take(line.decode("latin-1"))
        self.go_on()

    def take(self, answer):
        """An answer of the front."""
        word, _, rest = answer.partition(" ")
        if word == STATE:
            self.hear(*rest.partition(" ")[::2])
        elif word.rstrip(":") in REFUSED:
            self.voice.say("refused", "the front: " + answer)

    def look(self, now):
        """Ends a connection that no answer comes by."""
        if self.asked and now > self.due:
            self.end()

    def end(self):
        if self.socket is not None:
            self.loop.unwatch(self.socket.fileno())
            self.socket.close()
        self.socket, self.received, self.asked = None, b"", 0
