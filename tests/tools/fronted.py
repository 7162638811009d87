"""A front that runs, what it runs in the MME's place, and stations by TCP, for the tests of tools/front."""
import contextlib
import fcntl
import io
import os
import pathlib
import re
import signal
import socket
import struct
import subprocess
import sys
import tempfile
import termios
import threading
import time

from tests.tools import tools
from tools.fronting import command, saying

PROGRAM = tools.TOP / "crates" / "mme" / "out" / "mme"
LIBRARY = object()  # in a program's place: the MME in the front's own process
IMSI, NOBODY = "001010000000001", "001010000000009"
HEAD = "mme 001 01 8001 01 internet 1000000000 1000000000\nsub %s 0a000001 0a000064 00000001\n" % IMSI
SLOW, MANY, ENDS, KILLS, BABBLES, HANGS = b"\xf0", b"\xf1", b"\xf2", b"\xf3", b"\xf4", b"\xf5"
REMEMBERED, OF_SLOT = b"\xf6", b"\xf7"
PATIENCE = 60  # seconds for what takes a moment where the machine has nothing else to do
BEGIN_SECONDS = 180  # in which a front serves, whatever it has to read

# A program in the MME's place: it knows who is provisioned, and has further branches for each word.
FRAME = """#!%s
import os, sys, time
up, known, heard = set(), [], 0
for line in sys.stdin:
    word, *fields = line.split()
    if word == "sub":
        known.append(fields[0])
    elif word == "data" and fields[0] not in known:
        print("refused 5")
%%s    sys.stdout.flush()
""" % sys.executable

# Keeps which stations are up, as the MME does, and sends each message back; these ones begin what is asked of it otherwise. It
# counts those to be remembered, which show tells, and answers those of a slot for its subscriber, where there is one.
STAND_IN = FRAME % """\
    elif word == "up":
        up.add(fields[0])
    elif word == "lost":
        up.remove(fields[0]) if fields[0] in up else print("refused 1")
    elif word == "show":
        print("state", fields[0], "HEARD-%d" % heard if heard else "DEREGISTERED", "IDLE INACTIVE")
    elif word == "in" and fields[0] in up:
        kind, count = fields[1][:2], 1
        if kind == "f0":
            time.sleep(0.2)
        elif kind == "f1":
            count = 200
        elif kind == "f2":
            sys.exit(7)
        elif kind == "f3":
            os.kill(os.getpid(), 9)
        elif kind == "f4":
            print("babble")
        elif kind == "f5":
            time.sleep(3600)
        elif kind == "f6":
            heard += 1
        elif kind == "f7":
            slot = int(fields[1][2:4])
            count = 0
            print("out %s %s 0011" % ("s%d" % slot if slot < len(known) else "e" + fields[0], fields[0]))
        for _ in range(count):
            print("out e%s %s %s" % (fields[0], fields[0], fields[1][:30000]))
"""


class Connected:
    """A station's connection by TCP."""

    def __init__(self, port):
        self.socket = socket.create_connection(("127.0.0.1", port), timeout=PATIENCE)
        self.socket.setsockopt(socket.IPPROTO_TCP, socket.TCP_NODELAY, 1)
        self.got = b""

    def send(self, octets):
        self.socket.sendall(len(octets).to_bytes(2, "big") + octets)

    def is_delivered(self):
        """Whether all that it sent stands where the front reads it."""
        return not struct.unpack("i", fcntl.ioctl(self.socket, termios.TIOCOUTQ, bytes(4)))[0]

    def exactly(self, count):
        while len(self.got) < count:
            piece = self.socket.recv(1 << 16)
            if not piece:
                raise EOFError
            self.got += piece
        octets, self.got = self.got[:count], self.got[count:]
        return octets

    def receive(self):
        return self.exactly(int.from_bytes(self.exactly(2), "big"))

    def says(self, octets):
        """What comes back for a message."""
        self.send(octets)
        return self.receive()

    def has_ended(self):
        with contextlib.suppress(ConnectionError):
            while self.socket.recv(1 << 16):
                pass
        return True

    def close(self):
        self.socket.close()

    def reset(self):
        """Ends the connection at once (SO_LINGER of 0 seconds)."""
        self.socket.setsockopt(socket.SOL_SOCKET, socket.SO_LINGER, struct.pack("ii", 1, 0))
        self.socket.close()


def events_of(text):
    """The events of a trace, without ticks."""
    return [line for line in text.splitlines() if line.split(" ")[0] not in ("mme", "sub", "vec", "tick", "#", "")]


class Running:
    """A front that runs, in a folder of its own; `front` is its program, where that is another, and `READY` what it says once it
    does what it is for."""

    READY = rb"ready: stations at \S+ port (\d+) by"
    front = (tools.TOP / "tools" / "front",)

    def __init__(self, test, *words, head=HEAD, program=None, before=None, folder=None, link="--tcp", environment=()):
        self.folder = folder or pathlib.Path(test.enterContext(tempfile.TemporaryDirectory()))
        self.log, self.control, self.subscribers = (self.folder / name for name in ("log", "log.control", "subscribers"))
        self.subscribers.write_text(head)
        if program is None:
            program = self.folder / "stand_in"
            program.write_text(STAND_IN)
            program.chmod(0o755)
        given = ["run", self.subscribers, self.log, link, "--port", "0", "--per-address", "128", "--setup-seconds", "3600",
                 "--answer-seconds", "120", *(["--library"] if program is LIBRARY else ["--mme", program]), *words]
        self.process = subprocess.Popen([sys.executable, *map(str, [*self.front, *given])], stderr=subprocess.PIPE,
                                        preexec_fn=before, env={**os.environ, **dict(environment)})
        self.told, self.connections = b"", []
        test.addCleanup(self.end)
        limit = threading.Timer(BEGIN_SECONDS, self.process.kill)
        limit.start()
        for line in self.process.stderr:
            self.told += line
            if self.is_ready(line):
                break
        limit.cancel()

    def is_ready(self, line):
        """Whether it says so in this line."""
        found = re.search(self.READY, line)
        self.port = int(found[1]) if found and found.lastindex else None
        return bool(found)

    def said(self):
        """What it said so far."""
        os.set_blocking(self.process.stderr.fileno(), False)
        self.told += self.process.stderr.read() or b""
        return self.told

    def station(self):
        """One more connection, once it is a station."""
        before = self.lines().count("up")
        made = Connected(self.port)
        self.connections.append(made)
        self.until(lambda: self.lines().count("up") > before)
        return made

    def lines(self):
        """The first words of the log's lines."""
        return [line.split(" ")[0] for line in self.log.read_text().splitlines()]

    def events(self):
        """The log from its first event on, without ticks and comments."""
        return events_of(self.log.read_text())

    def busy(self):
        """The seconds of a processor that its loop has taken: however busy the machine is, these are its own."""
        return int(pathlib.Path("/proc/%d/schedstat" % self.process.pid).read_text().split()[0]) / 1e9

    def until(self, holds):
        end = time.monotonic() + PATIENCE
        while not holds():
            assert time.monotonic() < end, "not within %d s" % PATIENCE
            time.sleep(0.005)

    def asks(self, *words):
        """What `ask` prints, without a process of its own for it."""
        text = io.StringIO()
        with contextlib.redirect_stdout(text):
            said(["ask", self.control, *words])
        return text.getvalue()

    def stop(self, number=signal.SIGTERM):
        """Ends it by a signal; its status and what it said."""
        self.process.send_signal(number)
        return self.ended()

    def ended(self):
        os.set_blocking(self.process.stderr.fileno(), True)
        self.told += self.process.stderr.read()
        return self.process.wait(PATIENCE), self.told.decode()

    def end(self):
        for connection in self.connections:
            connection.close()
        if self.process.poll() is None:
            self.process.terminate()
        self.process.wait(PATIENCE)
        self.process.stderr.close()


def said(words):
    """The status of a front that begins by these words and doesn't come to serve, and what it says."""
    reading, writing = os.pipe()
    place, before, text = saying.PLACE, sys.argv, io.StringIO()
    saying.PLACE, sys.argv = writing, ["front", *map(str, words)]
    try:
        with contextlib.redirect_stderr(text):
            status = command.main("")
    except SystemExit as end:
        status = end.code
    finally:
        saying.PLACE, sys.argv = place, before
        os.close(writing)
    with os.fdopen(reading) as told:
        return status, text.getvalue() + told.read()
