"""A source of vectors (docs/LAB.md): a program that is told requests and tells answers, a line each, and is begun again where it
ends."""
import contextlib
import os
import re
import select
import signal
import subprocess
import time

from tools.fronting import limits
from tools.fronting.faults import Failed, WRONG, told
from tools.fronting.lines import Lines
from tools.fronting.pace import Pace

# What may be keys in its words, and is no IMSI.
KEYS = re.compile(r"(?<![0-9a-fA-F])(?!\d{14,15}(?![0-9a-fA-F]))[0-9a-fA-F]{8,}")
HIDDEN = ".."
TOO_MUCH = "the source says a line of more than %d octets" % limits.LONGEST_SAID
LAST_PIECES = 64  # that are read of one that has ended; what it began may write for ever


class Source:
    """A source by its words. `take` is called with each line that it tells, with nothing for one that is too long, `begun` once it
    runs, and `ended` once it doesn't."""

    def __init__(self, loop, voice, words, take, begun, ended):
        self.loop, self.voice, self.words, self.take, self.begun, self.ended = loop, voice, words, take, begun, ended
        self.process = self.timer = self.exit = None  # of one that runs; what begins the next; what tells the end of one
        self.next_at = 0.0  # when the next begins
        self.waiting, self.lines, self.words_said = b"", None, None
        self.useful_at, self.wrong = 0.0, 0  # when it was of use last, and the lines since that aren't taken
        self.pause, self.starts, self.ends = limits.SOURCE_PAUSES[0], 0, 0
        self.pace, self.is_over = Pace(limits.SOURCE_FAULTS), False

    # Its life.

    def begin(self):
        """Begins it for the first time."""
        try:
            self.start()
        except OSError as fault:
            raise Failed("--source: %s: %s" % (self.words[0], told(fault)), WRONG) from None

    def begin_again(self):
        """Begins it after a pause."""
        self.timer = None
        if self.is_over:
            return
        try:
            self.start()
        except OSError as fault:
            self.rests("can't be begun: %s" % told(fault))

    def start(self):
        self.process = subprocess.Popen(self.words, stdin=subprocess.PIPE, stdout=subprocess.PIPE, stderr=subprocess.PIPE,
                                        start_new_session=True)
        self.waiting, self.starts, self.useful_at, self.wrong = b"", self.starts + 1, time.monotonic(), 0
        self.lines, self.words_said = Lines(limits.LONGEST_SUPPLIED), Lines(limits.LONGEST_SAID)
        self.exit = os.pidfd_open(self.process.pid)
        for pipe in (self.process.stdin, self.process.stdout, self.process.stderr):
            os.set_blocking(pipe.fileno(), False)
        self.loop.watch(self.process.stdin.fileno(), select.EPOLLOUT | select.EPOLLET, lambda events: self.write())
        self.loop.watch(self.process.stdout.fileno(), select.EPOLLIN, lambda events: self.read())
        self.loop.watch(self.process.stderr.fileno(), select.EPOLLIN, lambda events: self.read_words())
        self.loop.watch(self.exit, select.EPOLLIN, lambda events: self.has_ended())
        self.begun()

    @property
    def is_there(self):
        return self.process is not None

    def has_ended(self):
        """It is over; what it told before still counts."""
        process = self.process
        for _ in range(LAST_PIECES):
            if not (self.read() or self.read_words()):
                break
        self.leave()
        status = process.wait()
        self.rests("ended %s" % ("by signal %d" % -status if status < 0 else "with status %d" % status))

    def rests(self, why):
        """It is begun again after a pause, which grows until it has supplied something."""
        self.ends += 1
        if not self.is_over:
            self.voice.say("source_ends", "the source %s, and is begun again in %g s" % (why, self.pause))
            self.begin_in(self.pause)
            self.pause = min(2 * self.pause, limits.SOURCE_PAUSES[1])
            self.ended()

    def begin_in(self, seconds):
        self.next_at, self.timer = time.monotonic() + seconds, self.loop.after(seconds, self.begin_again)

    def hurry(self):
        """Somebody waits for it: a long pause becomes a short one."""
        if self.timer is not None and self.next_at - time.monotonic() > limits.SHORT_PAUSE:
            self.timer.cancel()
            self.begin_in(limits.SHORT_PAUSE)

    def is_of_use(self):
        """It has answered what it was asked."""
        self.pause, self.useful_at, self.wrong = limits.SOURCE_PAUSES[0], time.monotonic(), 0

    def is_wrong(self, why):
        """It tells a line that isn't taken; after many it is ended."""
        self.wrong += 1
        self.say("source_fault", "the source %s" % why)
        if self.wrong == limits.MOST_WRONG:
            self.end("tells only what can't be taken, and is ended")

    def end(self, why):
        """Ends one that is of no use, which is begun again."""
        self.voice.say("source_fault", "the source %s" % why)
        if self.process is not None:
            self.kill(self.process)

    @staticmethod
    def kill(process):
        """Kills it with what it began."""
        with contextlib.suppress(ProcessLookupError):
            os.killpg(process.pid, signal.SIGKILL)

    def leave(self):
        """Nothing is read of it or written to it any more."""
        for pipe in (self.process.stdin, self.process.stdout, self.process.stderr):
            self.loop.unwatch(pipe.fileno())
            with contextlib.suppress(OSError):  # of what waits to be written
                pipe.close()
        self.loop.unwatch(self.exit)
        os.close(self.exit)
        self.process = None

    def close(self):
        """Ends it: its input ends; if that doesn't end it, it is killed with what it began."""
        self.is_over, process = True, self.process
        if self.timer is not None:
            self.timer.cancel()
        if process is None:
            return
        self.leave()
        try:
            process.wait(limits.SENDING_SECONDS)
        except subprocess.TimeoutExpired:
            self.kill(process)
            process.wait()

    # What it is told and tells.

    def tell(self, line):
        """Tells it a request, once it reads."""
        if self.process is not None:
            self.waiting += line.encode() + b"\n"
            self.write()

    def write(self):
        with contextlib.suppress(OSError):  # it ends, or reads later
            while self.waiting:
                self.waiting = self.waiting[os.write(self.process.stdin.fileno(), self.waiting):]

    def read(self):
        """Takes the lines of a piece; whether there was one."""
        try:
            piece = os.read(self.process.stdout.fileno(), limits.SOURCE_PIECE)
        except OSError:
            return False
        if not piece:
            self.loop.unwatch(self.process.stdout.fileno())
            return False
        for line in self.lines.take(piece):
            self.take(None if line is None else line.decode("latin-1"))
        return True

    def read_words(self):
        """Says what it says, but for what may be keys; whether there was something."""
        try:
            piece = os.read(self.process.stderr.fileno(), limits.SOURCE_PIECE)
        except OSError:
            return False
        if not piece:
            self.loop.unwatch(self.process.stderr.fileno())
        for line in self.words_said.take(piece):
            self.say("source", TOO_MUCH if line is None else KEYS.sub(HIDDEN, line.decode(errors="replace")))
        return bool(piece)

    def say(self, event, text):
        """Says something, of which so much a second is said."""
        now = time.monotonic()
        if self.pace.allows(now):
            self.pace.take(1, now)
            self.voice.say(event, text)
