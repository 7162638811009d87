"""A source of vectors that asks an HSS: the requests of standard input, and what comes of them."""
import collections
import contextlib
import functools
import os
import select
import signal
import socket
import time

from tools.diameter.client import Client
from tools.diameter.orders import Orders
from tools.diameter.output import Output
from tools.diameter.procedures import NoSuccess, of_request
from tools.fronting.loop import Loop
from tools.sourcing import asking
from tools.sourcing.asking import GONE, LATER, REGISTERED, Refused
from tools.sourcing.milenage import plmn_octets

INPUT, OUTPUT = 0, 1
MOST_UNDER_WAY = 1000  # requests, beyond which no more are read
LAST_SECONDS = 1  # that a reader has for the last lines after a signal
WRONG = 2  # the status where nobody reads the answers

# A request with its procedure, and the time until which the HSS may take for all of it.
Work = collections.namedtuple("Work", "request procedure until")


def is_pollable(file):
    """Whether epoll can wait for a file; one on a disk always is ready."""
    with contextlib.closing(select.epoll()) as poll:
        try:
            poll.register(file, select.EPOLLIN)
            return True
        except OSError:
            return False


class Source:
    """Reads requests, and writes what the HSS says to them. Those of one IMSI are asked one after the other."""

    def __init__(self, settings, link, say):
        self.say, self.loop = say, Loop()
        self.answer_seconds, self.plmn = settings.answer_seconds, plmn_octets(*settings.plmn)
        self.client = Client(self.loop, settings, link, say)
        self.output = Output(self.loop, OUTPUT, self.care, self.break_off)
        self.registered = set()  # IMSIs
        self.queues, self.count = {}, 0  # requests by their IMSI, the first of which is under way; and how many there are
        self.lines, self.is_pollable, self.next_read = asking.Lines(), is_pollable(INPUT), None
        self.has_ended = self.is_reading = self.is_closing = self.is_over = self.is_broken = False
        self.until = 0.0  # when a reader's time for the last lines is over
        self.client.asked = Orders(self.client.node, self.output, self.registered).take
        self.client.closed = self.end

    def run(self):
        """Until standard input ends, or a signal comes; the status."""
        ours, theirs = socket.socketpair()
        with ours, theirs:
            theirs.setblocking(False)
            signal.set_wakeup_fd(theirs.fileno())
            for number in (signal.SIGTERM, signal.SIGINT):
                signal.signal(number, lambda *_: None)
            self.loop.watch(ours.fileno(), select.EPOLLIN, lambda events: self.stop(ours.recv(asking.PIECE)))
            self.output.put(asking.TAKES)
            self.client.begin()
            self.care()
            while not self.is_over:
                self.loop.turn()
            signal.set_wakeup_fd(-1)
        return WRONG if self.is_broken else 0

    # Standard input.

    def read(self, _events=0):
        """Reads a piece."""
        self.is_reading = self.is_pollable
        try:
            octets = os.read(INPUT, asking.PIECE)
        except OSError as fault:
            self.say("standard input: %s" % fault.strerror)
            octets = b""
        self.has_ended = not octets
        for line in self.lines.take(octets) if octets else self.lines.last():
            self.take(line)
        self.care()

    def care(self):
        """Reads where there is room for more; ends where all is done."""
        if self.is_closing:
            return
        if self.has_ended and not self.count and self.output.is_written:
            self.close()
            return
        wants = not self.has_ended and self.count < MOST_UNDER_WAY and not self.output.is_full
        if wants != self.is_reading:
            self.is_reading = wants
            if wants:
                self.wait_for_input()
            else:
                self.leave_input()

    def wait_for_input(self):
        """Reads once there is something; what can't be waited for, in the next turn."""
        if self.is_pollable:
            self.loop.watch(INPUT, select.EPOLLIN, self.read)
        else:
            self.next_read = self.loop.after(0, self.read)

    def leave_input(self):
        if self.is_pollable:
            self.loop.unwatch(INPUT)
        else:
            self.next_read.cancel()

    def take(self, line):
        """A line of standard input."""
        try:
            request = asking.read_line(line)
        except Refused as fault:
            self.say(str(fault))
            if fault.answer:
                self.output.put(fault.answer)
            return
        if request is not None:
            queue = self.queues.setdefault(request.imsi, collections.deque())
            queue.append(request)
            self.count += 1
            if len(queue) == 1:
                self.begin(request)

    # Requests.

    def begin(self, request):
        self.go_on(Work(request, of_request(request, self.plmn), time.monotonic() + self.answer_seconds), None)

    def go_on(self, work, answer, why=None):
        """A procedure has an answer of the HSS, or there is none, for this; the next step."""
        if self.is_closing:
            return
        try:
            command, pairs = work.procedure.throw(NoSuccess(why)) if why else work.procedure.send(answer)
        except StopIteration as done:
            self.finish(work.request, done.value)
        except NoSuccess as fault:
            self.say("IMSI %s: %s" % (work.request.imsi, fault))
            self.finish(work.request, asking.answer(fault.word, work.request.imsi))
        else:
            seconds = max(0.0, work.until - time.monotonic())
            self.client.ask(command, pairs, seconds, functools.partial(self.go_on, work))

    def finish(self, request, text):
        """A request is answered; the next one of its IMSI begins."""
        self.output.put(text)
        if text == asking.answer(REGISTERED, request.imsi):
            self.registered.add(request.imsi)
        elif request.word == GONE:
            self.registered.discard(request.imsi)
        queue = self.queues[request.imsi]
        queue.popleft()
        self.count -= 1
        if queue:
            self.begin(queue[0])
        else:
            del self.queues[request.imsi]
        self.care()

    # The end.

    def stop(self, _signals):
        """A signal: what is under way is left."""
        if not self.is_closing:
            for imsi, queue in self.queues.items():
                self.output.put(asking.answer(LATER, imsi) * len(queue))
            self.close()

    def break_off(self):
        """Nobody reads the answers any more."""
        self.is_broken = True
        if not self.is_closing:
            self.close()

    def close(self):
        """Takes no more, and ends the connections."""
        self.is_closing = True
        if self.is_reading:
            self.leave_input()
        self.client.close()

    def end(self):
        """All connections have ended; a reader may still be slow."""
        self.until = time.monotonic() + LAST_SECONDS
        self.see_off()

    def see_off(self):
        self.is_over = self.output.is_written or self.is_broken or time.monotonic() > self.until
        if not self.is_over:
            self.loop.after(0.01, self.see_off)
