"""Sources of vectors that run, for their tests: requests and answers, a line each."""
import contextlib
import os
import select
import subprocess
import sys
import time

from tests.tools import tools

PATIENCE = 60  # seconds for what takes a moment where the machine has nothing else to do


class Running:
    """A source as a process. It is ended by its own number. One that asks an HSS says first that it is to be told where phones
    are."""

    FIRST = {"s6a": "takes registered gone"}

    def __init__(self, test, tool, *words, before=None, cwd=tools.TOP):
        self.process = subprocess.Popen([sys.executable, "-B", tools.TOP / "tools" / tool, *map(str, words)], stdin=subprocess.PIPE,
                                        stdout=subprocess.PIPE, stderr=subprocess.PIPE, preexec_fn=before, cwd=cwd)
        self.got, self.told = b"", b""
        os.set_blocking(self.process.stderr.fileno(), False)
        test.addCleanup(self.end)
        if tool in self.FIRST:
            test.assertEqual(self.line(), self.FIRST[tool])

    def say(self, *lines):
        """Writes requests."""
        with contextlib.suppress(BrokenPipeError):  # where it was killed
            self.process.stdin.write("".join(line + "\n" for line in lines).encode())
            self.process.stdin.flush()

    def line(self, seconds=PATIENCE):
        """The next line of what it writes; raises EOFError at the end."""
        end = time.monotonic() + seconds
        while b"\n" not in self.got:
            ready, _, _ = select.select([self.process.stdout], [], [], max(0, end - time.monotonic()))
            if not ready:
                raise TimeoutError("no line within %g s; it said: %s" % (seconds, self.said()))
            octets = os.read(self.process.stdout.fileno(), 1 << 16)
            if not octets:
                raise EOFError(self.said())
            self.got += octets
        line, _, self.got = self.got.partition(b"\n")
        return line.decode()

    def answers(self, request, count=1):
        """What it answers to a request: so many lines, or the one that stands in their place."""
        self.say(request)
        found = [self.line()]
        while len(found) < count and found[0].startswith("vec "):
            found.append(self.line())
        return found

    def said(self):
        """What it said so far."""
        self.told += self.process.stderr.read() or b""
        return self.told.decode()

    def until_said(self, text, seconds=PATIENCE):
        end = time.monotonic() + seconds
        while text not in self.said():
            assert time.monotonic() < end, "not said within %g s: %s; but: %s" % (seconds, text, self.said())
            time.sleep(0.01)

    def finish(self, seconds=PATIENCE):
        """Ends its input: the rest of what it writes, and its status."""
        self.process.stdin.close()
        octets = self.process.stdout.read()
        status = self.process.wait(seconds)
        rest, self.got = self.got + octets, b""
        return rest.decode().splitlines(), status

    def kill(self):
        self.process.kill()
        self.process.wait()
        return self.got + self.process.stdout.read()

    def end(self):
        if self.process.poll() is None:
            self.process.kill()
            self.process.wait()
        for file in (self.process.stdin, self.process.stdout, self.process.stderr):
            with contextlib.suppress(OSError):
                file.close()


def vector(line):
    """The IMSI and the parts of a line `vec`."""
    word, imsi, *parts = line.split(" ")
    assert word == "vec", line
    return imsi, *map(bytes.fromhex, parts)
