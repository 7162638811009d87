"""The MME, which is given lines and answers them: `mme play` as a process of its own, or in this process by the library.

The library's also takes further subscribers and vectors while it runs, by lines that begin with `#+ ` (adding.py). It answers each
by the line itself, after `+ ` where it took it, and after `- ` and the refusal's number where it didn't.
"""
import binascii
import collections
import contextlib
import fcntl
import os
import pathlib
import re
import select
import signal
import subprocess
import time

from tools import runs

from tools.fronting import limits
from tools.fronting.faults import Failed, WRONG, told

PIPE_OCTETS = 1 << 20
MARK_ANSWER = b"refused %d" % runs.UNKNOWN_IMSI
FURTHER, TAKEN, NOT_TAKEN = runs.FURTHER.encode(), b"+ ", b"- "  # how such a line and its answers begin
ALL_FURTHER = re.compile(rb"(?:%s[^\n]*\n)+" % re.escape(FURTHER))  # such lines in a row
TOP = pathlib.Path(__file__).resolve().parents[2]
# Why there is no library: in a clone, and in a package.
NOT_BUILT = "there is no library, which `./mme --library` builds (docs/LIBRARY.md)"
NOT_PACKED = ("there is no library: this package was made without it; one with it is made in a clone: ./mme --library, then "
              "deploy/package FOLDER")
LINE_IS_WRONG, OUT_OF_MEMORY = 1, 4  # what the program ends with (README.md, "How it ends")


def nothing():
    """What is done where nobody waits for anything."""


class Mme:
    """What an MME is to the front: `give` and `finish` for what it is given, `taken` for when it took some of what waited, `hear`
    for a piece of its answers, `say` for its words, `end` for its end. It has ended once there is a status and it is silent; `pid`
    is the process that it is in. `takes_further` says whether it is provisioned while it runs."""

    takes_further = False

    def __init__(self, loop, hear, say):
        self.loop, self.hear, self.say = loop, hear, say
        self.end, self.taken = lambda status: None, nothing
        self.pid, self.status, self.is_silent = os.getpid(), None, False
        self.waiting, self.size, self.is_last = collections.deque(), 0, False  # what it is to be given, and its octets

    def begin(self, head):
        """Gives it what it is provisioned with."""
        self.give(head.text.encode("latin-1"))

    def is_over(self):
        if self.is_silent and self.status is not None:
            self.end(self.status)


class PipedMme(Mme):
    """A process that reads lines and writes answers, over pipes that don't block."""

    def __init__(self, program, loop, hear, say):
        super().__init__(loop, hear, say)
        try:
            self.process = subprocess.Popen([program, "play"], stdin=subprocess.PIPE, stdout=subprocess.PIPE,
                                            stderr=subprocess.PIPE, start_new_session=True)
        except OSError as fault:
            raise Failed("%s: %s" % (program, told(fault)), WRONG) from None
        self.pid, self.is_writable = self.process.pid, True
        pipes = self.process.stdin, self.process.stdout, self.process.stderr
        self.given, self.answers, self.says = (pipe.fileno() for pipe in pipes)
        for pipe in (self.given, self.answers, self.says):
            os.set_blocking(pipe, False)
            with contextlib.suppress(OSError):
                fcntl.fcntl(pipe, fcntl.F_SETPIPE_SZ, PIPE_OCTETS)
        self.exit = os.pidfd_open(self.pid)
        loop.watch(self.given, select.EPOLLOUT | select.EPOLLET, self.can_write)
        loop.watch(self.answers, select.EPOLLIN, lambda events: self.read())
        loop.watch(self.says, select.EPOLLIN, lambda events: self.read_says())
        loop.watch(self.exit, select.EPOLLIN, lambda events: self.has_ended())

    # To the process.

    def give(self, octets):
        """Gives it octets, once it takes them."""
        if self.process.stdin.closed:
            return
        self.waiting.append(octets)
        self.size += len(octets)
        self.write()

    def can_write(self, events):
        self.is_writable = True
        self.write()
        self.taken()

    def write(self):
        while self.is_writable and self.waiting:
            octets = self.waiting[0]
            try:
                sent = os.write(self.given, octets)
            except BlockingIOError:
                self.is_writable = False
                return
            except OSError:
                self.waiting.clear()  # it ends, which the process tells
                self.size = 0
                return
            self.size -= sent
            if sent < len(octets):
                self.waiting[0] = memoryview(octets)[sent:]
            else:
                self.waiting.popleft()
        if self.is_last and not self.waiting:
            self.close_input()

    def finish(self):
        """Ends what it is given, once it has taken all."""
        self.is_last = True
        self.write()

    def close_input(self):
        """Ends what it is given."""
        if not self.process.stdin.closed:
            self.loop.unwatch(self.given)
            self.process.stdin.close()

    # From the process.

    def read(self):
        """Reads a piece of its answers; whether there was one."""
        try:
            piece = os.read(self.answers, limits.MME_PIECE)
        except BlockingIOError:
            return False
        if piece:
            self.hear(piece)
            return True
        self.loop.unwatch(self.answers)
        self.is_silent = True
        self.is_over()
        return False

    def read_says(self):
        with contextlib.suppress(BlockingIOError):
            octets = os.read(self.says, limits.PIECE)
            for line in octets.decode(errors="replace").splitlines():
                self.say("mme", line[:1000])
            if not octets:
                self.loop.unwatch(self.says)

    def has_ended(self):
        """The process is over; what it wrote before still comes."""
        self.loop.unwatch(self.exit)
        self.status = self.process.wait()
        self.read_says()
        while not self.is_silent and self.read():
            pass
        self.is_silent = True
        self.is_over()

    def kill(self, number=signal.SIGKILL):
        """Sends it a signal, and what it started."""
        if self.status is None:
            with contextlib.suppress(ProcessLookupError):
                os.killpg(self.pid, number)

    def close(self):
        """Ends it, and all that it was known by."""
        self.end = lambda status: None
        self.is_silent = True
        self.kill()
        self.close_input()
        for file in (self.answers, self.says, self.exit):
            self.loop.unwatch(file)
        self.process.wait()
        self.process.stdout.close()
        self.process.stderr.close()
        os.close(self.exit)


# --- In this process ---


def library():
    """The package soizkadur, of this clone or an installed one (tools/front has both on its path), with its shared object."""
    try:
        import soizkadur
        soizkadur.version()
    except ImportError as fault:
        if isinstance(fault, ModuleNotFoundError):
            raise Failed(NOT_PACKED, WRONG) from None
        raise Failed("%s: %s" % (NOT_BUILT if (TOP / "crates").exists() else "there is no library", fault), WRONG) from None
    return soizkadur


def add_live(package, mme, word, imsi, *fields):
    """Gives an MME of the library that runs a further subscriber or vector, by the words of its line."""
    try:
        octets = list(map(binascii.unhexlify, fields))
    except ValueError:
        raise package.Refused(package.Refusal.BAD_OCTETS) from None
    if word == "vec" and len(octets) == 4:
        mme.give_live(imsi, *octets)
    elif word == "sub" and [len(field) for field in octets] == [4, 4, 4]:
        mme.add_live(imsi, *[int.from_bytes(field, "big") for field in octets])
    else:
        raise package.Refused(package.Refusal.FIELD_COUNT)


class LibraryMme(Mme):
    """An MME of the library. What it is given it plays in later turns of the loop, a while in each."""

    takes_further = True
    stays = False  # whether it is there to be saved once it has ended in order
    call_octets = limits.LIBRARY_OCTETS  # of lines that one call plays

    def __init__(self, package, loop, hear, say):
        super().__init__(loop, hear, say)
        self.library, self.mme = package, package.Mme()
        self.place, self.played = 0, 0  # how far the first of what waits was played, and how many lines were
        self.timer = None  # what plays the next
        self.has_started = False  # whether it surely runs

    # To the library.

    def give(self, octets):
        """Gives it whole lines."""
        if self.status is None and not self.is_last:
            if octets:
                self.waiting.append(octets)
                self.size += len(octets)
            self.go_on()

    def finish(self):
        """Ends what it is given, once it has played all."""
        self.is_last = True
        self.go_on()

    def go_on(self):
        """Has it play on in the next turn."""
        if self.timer is None and self.status is None:
            self.timer = self.loop.after(0, self.play)

    def play(self):
        """Plays lines for a while, some in each call of the library, and hands on their answers."""
        self.timer, answers, fault, end = None, [], None, time.monotonic() + limits.LIBRARY_SECONDS
        while self.waiting and fault is None and time.monotonic() < end:
            lines = self.next_lines()
            try:
                answers.append(self.take(lines) if lines.startswith(FURTHER) else self.mme.play_text(lines))
                self.played += lines.count(b"\n")
            except self.library.Refused as refused:
                answers.append(refused.answers)
                self.played += refused.line or 1
                fault = refused.refusal
        if any(answers):
            self.hear(b"".join(answers))
        if self.status is not None:
            return
        if fault is not None:
            self.fail(fault)
        elif self.waiting:
            self.go_on()
        elif self.is_last:
            self.has_ended(0)
        self.taken()

    def next_lines(self):
        """Takes what is played next: lines for further subscribers and vectors, or other lines, for one call of the library."""
        text, at = self.waiting[0], self.place
        end = text.rfind(b"\n", at, at + self.call_octets) + 1 or text.index(b"\n", at) + 1
        if text.startswith(FURTHER, at):
            end = ALL_FURTHER.match(text, at, end).end()
        else:
            end = text.find(b"\n" + FURTHER, at, end) + 1 or end
        self.place = end
        if end == len(text):
            self.waiting.popleft()
            self.place = 0
        self.size -= end - at
        return text[at:end]

    def take(self, lines):
        """Takes further subscribers and vectors; what is answered. Lack of memory is raised: played again, the line is taken."""
        answers = []
        for text in lines.decode("latin-1").removeprefix(runs.FURTHER).removesuffix("\n").split("\n" + runs.FURTHER):
            try:
                self.add(*text.split(" "))
                answers.append("+ %s\n" % text)
            except self.library.Refused as refused:
                if refused.refusal in (self.library.Refusal.NO_MEMORY, self.library.Refusal.LOST):
                    told = "".join(answers).encode("latin-1")
                    raise self.library.Refused(refused.refusal, len(answers) + 1, answers=told) from None
                answers.append("- %d %s\n" % (refused.refusal, text))
        return "".join(answers).encode("latin-1")

    def add(self, word, imsi="", *fields):
        """Takes one by its words."""
        if not self.has_started:
            self.mme.start()
            self.has_started = True
        add_live(self.library, self.mme, word, imsi, *fields)

    # Its end.

    def fail(self, fault):
        """Ends as the program does at a line that is wrong, and for lack of memory, with the program's words."""
        kinds = self.library.Refusal
        if fault in (kinds.NO_MEMORY, kinds.LOST):
            self.say("mme", "mme: out of memory")
            self.has_ended(OUT_OF_MEMORY)
        else:
            self.say("mme", "mme: line %d: fault %d" % (self.played, fault - kinds.UNKNOWN_WORD + 1))
            self.has_ended(LINE_IS_WRONG)

    def has_ended(self, status):
        if self.status is None:
            self.status, self.is_silent = status, True
            if self.timer is not None:
                self.timer.cancel()
            if status or not self.stays:
                self.mme.close()
            self.is_over()

    def kill(self, number=signal.SIGKILL):
        """Ends it with what it still was to play, as by a signal."""
        self.has_ended(-number)

    def close(self):
        """Ends it, and all that it was known by."""
        self.end = lambda status: None
        self.kill()
        self.mme.close()
