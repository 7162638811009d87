"""Stations' connections to tools/front that don't block, by TCP and by SCTP, and a run of a front over a folder."""
import contextlib
import json
import os
import pathlib
import re
import select
import signal
import socket
import struct
import subprocess
import sys
import time

TOP = pathlib.Path(__file__).resolve().parent.parent
HERE = "127.0.0.1"
PIECE = 1 << 16
BEGIN_SECONDS, END_SECONDS, ASK_SECONDS = 120, 60, 120
PLAYED = 1 << 20  # octets of a log that are played in a second, at the least
SCTP_INIT, SCTP_NODELAY, SEND_INFORMATION, S1AP_PROTOCOL = 2, 3, 2, 18  # RFC 6458 by Linux's numbers; TS 36.412 clause 7
FRONT = TOP / "tools" / "front"
READY = re.compile(r"ready: stations at \S+ port (\d+) by")
MOST_ASKING = 4
LIBRARY = object()  # in a program's place: the MME in the front's own process


class Gone(Exception):
    """The front is over, or a station's connection to it."""


class Wire:
    """A station's connection. What can't be sent waits; once the other side has ended it, what came before can still be taken."""

    def __init__(self, connection):
        self.socket, self.has_ended = connection, False
        connection.setblocking(False)

    def fileno(self):
        return self.socket.fileno()

    def close(self):
        self.socket.close()


class TcpWire(Wire):
    """By TCP, with two octets of length before each message."""

    WORD = "--tcp"

    def __init__(self, port):
        super().__init__(socket.create_connection((HERE, port), timeout=END_SECONDS))
        self.socket.setsockopt(socket.IPPROTO_TCP, socket.TCP_NODELAY, 1)
        self.rest = self.unsent = b""

    def put(self, octets):
        self.unsent += len(octets).to_bytes(2, "big") + octets
        self.flush()

    def flush(self):
        try:
            while self.unsent:
                self.unsent = self.unsent[self.socket.send(self.unsent):]
        except BlockingIOError:
            pass
        except OSError:
            self.unsent = b""

    def take(self):
        """The messages that are there."""
        while not self.has_ended:
            try:
                piece = self.socket.recv(PIECE)
            except BlockingIOError:
                break
            except OSError:
                piece = b""
            self.rest += piece
            self.has_ended = not piece
        found, at = [], 0
        while len(self.rest) >= at + 2 and len(self.rest) >= (end := at + 2 + int.from_bytes(self.rest[at:at + 2], "big")):
            found.append(self.rest[at + 2:end])
            at = end
        self.rest = self.rest[at:]
        return found


class SctpWire(Wire):
    """By SCTP, which keeps messages apart; with one stream each way, so that they come in the order in which they were sent."""

    WORD = "--sctp"

    def __init__(self, port):
        connection = socket.socket(socket.AF_INET, socket.SOCK_STREAM, socket.IPPROTO_SCTP)
        connection.setsockopt(socket.IPPROTO_SCTP, SCTP_NODELAY, 1)
        connection.setsockopt(socket.IPPROTO_SCTP, SCTP_INIT, struct.pack("=HHHH", 1, 1, 0, 0))
        connection.settimeout(END_SECONDS)
        connection.connect((HERE, port))
        super().__init__(connection)
        self.part, self.unsent, self.is_cut = b"", [], False

    def put(self, octets):
        self.unsent.append(octets)
        self.flush()

    def flush(self):
        information = struct.pack("=HHIIi", 0, 0, socket.htonl(S1AP_PROTOCOL), 0, 0)
        try:
            while self.unsent:
                self.socket.sendmsg([self.unsent[0]], [(socket.IPPROTO_SCTP, SEND_INFORMATION, information)])
                del self.unsent[0]
        except BlockingIOError:
            pass
        except OSError:  # by which the end is told; who receives isn't told then
            self.unsent, self.is_cut = [], True

    def take(self):
        """The messages that are there."""
        found = []
        while not self.has_ended:
            try:
                octets, _, flags, _ = self.socket.recvmsg(PIECE)
            except BlockingIOError:
                self.has_ended = self.is_cut
                break
            except OSError:
                octets, flags = b"", 0
            self.has_ended = not octets
            self.part += octets
            if octets and flags & socket.MSG_EOR:
                found.append(self.part)
                self.part = b""
        return found


class Run:
    """One run of a front, whose log and subscribers stand in a folder, and its control socket in another, as a socket's path is
    short and not on any file system. What it says goes to a file beside the log."""

    def __init__(self, folder, room, program, *words, front=(FRONT,)):
        self.log, self.words_said, self.port, self.mmes = folder / "log", folder / "said", None, []
        self.asking = []  # connections to the control socket whose answers are due
        self.giving, self.gives_no_more = None, False  # the same of what is given; whether something wasn't
        self.control = pathlib.Path(room, "control")
        self.is_of_library = program is LIBRARY
        mme = ["--library"] if self.is_of_library else ["--mme", program]
        given = [sys.executable, *front, "run", folder / "subscribers", self.log, "--control", self.control,
                 "--port", "0", "--per-address", "128", "--setup-seconds", "3600", "--segments", "10000", "--answer-seconds", "120",
                 *mme, *words]
        with open(self.words_said, "wb") as said:
            self.process = subprocess.Popen(given, stdin=subprocess.DEVNULL, stderr=said,
                                            env={**os.environ, "PYTHONFAULTHANDLER": "1"})

    def said(self):
        return self.words_said.read_text(errors="replace")

    def serves(self, seconds=None):
        """Whether it takes stations within so long, or in the time that its log asks for; not where it ends before."""
        if seconds is None:
            counts = self.log.parent.glob(self.log.name + ".counts*")
            seconds = BEGIN_SECONDS + sum(path.stat().st_size for path in counts) / PLAYED
        end = time.monotonic() + seconds
        while self.port is None and time.monotonic() < end and self.process.poll() is None:
            found = READY.search(self.said())
            self.port = int(found[1]) if found else None
            time.sleep(0 if found else 0.005)
        self.mmes = [os.pidfd_open(pid) for pid in self.children()]
        return self.port is not None

    def stays(self):
        """Where a front stands that neither serves nor ends: it says so of each thread as it ends by SIGABRT."""
        if self.process.poll() is None:
            self.process.send_signal(signal.SIGABRT)
            with contextlib.suppress(subprocess.TimeoutExpired):
                self.process.wait(END_SECONDS)

    @property
    def has_resumed(self):
        """Whether it said that it goes on with the run before."""
        return " goes on: " in self.said()

    def asks(self, *words):
        """What it answers at its control socket."""
        try:
            with socket.socket(socket.AF_UNIX) as asking:
                asking.settimeout(ASK_SECONDS)
                asking.connect(str(self.control))
                asking.sendall(" ".join(words).encode() + b"\n")
                answer = asking.makefile().readline()
        except OSError:
            answer = ""
        if not answer:
            raise Gone
        return answer

    def tells(self, *words):
        """Asks at its control socket, and leaves the answer; where too many are due, it asks nothing."""
        self.asking = [one for one in self.asking if not is_answered(one)]
        if len(self.asking) < MOST_ASKING:
            asking = socket.socket(socket.AF_UNIX)
            asking.setblocking(False)
            self.asking.append(asking)
            with contextlib.suppress(OSError):
                asking.connect(str(self.control))
                asking.send(" ".join(words).encode() + b"\n")

    def may_give(self):
        """Whether all that was given is known to stand in the log."""
        if self.giving is not None:
            try:
                self.gives_no_more = not self.giving.recv(PIECE).startswith(b"given ")
            except BlockingIOError:
                return False
            except OSError:
                self.gives_no_more = True
            self.giving.close()
            self.giving = None
        return not self.gives_no_more

    def gives(self, line):
        """Gives a line of provisioning, where all before it stand in the log, and leaves the answer."""
        self.giving = socket.socket(socket.AF_UNIX)
        self.giving.setblocking(False)
        octets = line.encode() + b"\n"
        with contextlib.suppress(OSError):
            self.giving.connect(str(self.control))
            self.giving.send(b"give %d\n" % len(octets) + octets)

    def states(self):
        """The states of all phones, by IMSI."""
        word, _, rest = self.asks("phones").partition(" ")
        if word != "phones":  # it ends, and says so
            raise Gone
        return {imsi: phone["states"] for imsi, phone in json.loads(rest).items()}

    def children(self):
        """The processes that it began: its MME, where that is one."""
        with contextlib.suppress(OSError):
            path = pathlib.Path("/proc/%d/task/%d/children" % (self.process.pid, self.process.pid))
            return [int(word) for word in path.read_text().split()]
        return []

    def is_over(self, number=signal.SIGKILL):
        """Ends it by a signal where it runs still, and waits until it and its MME are gone."""
        if self.process.poll() is None:
            self.process.send_signal(number)
        self.process.wait(END_SECONDS)
        for asking in (*self.asking, *filter(None, [self.giving])):
            asking.close()
        self.asking, self.giving = [], None
        while self.mmes:
            mme = self.mmes.pop()
            if not select.select([mme], [], [], END_SECONDS)[0]:
                signal.pidfd_send_signal(mme, signal.SIGKILL)
            os.close(mme)


def is_answered(asking):
    """Whether something was answered, or nothing will be; then the connection ends."""
    try:
        asking.recv(PIECE)
    except BlockingIOError:
        return False
    except OSError:
        pass
    asking.close()
    return True
