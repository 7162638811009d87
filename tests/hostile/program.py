"""The built MME, over a whole trace or as one that answers batch by batch."""
import os
import pathlib
import select
import subprocess

PROGRAM = pathlib.Path(__file__).resolve().parent.parent.parent / "crates" / "mme" / "out" / "mme"

PATIENCE = 60  # seconds for one answer


class Ended(Exception):
    """The program came to an end that it should not come to."""


def play(lines, program=PROGRAM):
    """The lines that the program prints for a trace."""
    text = "".join(line + "\n" for line in lines)
    done = subprocess.run([program, "play"], input=text.encode(), capture_output=True, timeout=600, check=False)
    if done.returncode:
        raise Ended("status %d: %s" % (done.returncode, done.stderr.decode(errors="replace").strip()[:200]))
    return done.stdout.decode().splitlines()


class Live:
    """A running program. Each event is followed by a line that shows each subscriber, so that its answers have an end."""
    WORD, STATE = "play", "state "

    def __init__(self, provisioning, imsis, program=PROGRAM):
        self.shows = "".join("show %s\n" % imsi for imsi in imsis)
        self.count = len(imsis)
        pipes = {"stdin": subprocess.PIPE, "stdout": subprocess.PIPE, "stderr": subprocess.PIPE}
        self.process = subprocess.Popen([program, self.WORD], bufsize=0, **pipes)
        self.rest = b""
        self.write("".join(line + "\n" for line in provisioning))

    def write(self, text):
        octets = text.encode()
        while octets:
            octets = octets[os.write(self.process.stdin.fileno(), octets):]

    def happen(self, events):
        """For each event what was printed for it, and the states after it."""
        try:
            self.write("".join(event + "\n" + self.shows for event in events))
        except BrokenPipeError:
            raise Ended(self.last_words()) from None
        replies, answers, states = [], [], []
        while len(replies) < len(events):
            for line in self.lines():
                if not line.startswith(self.STATE):
                    answers.append(line)
                    continue
                states.append(line)
                if len(states) == self.count:
                    replies.append((answers, states))
                    answers, states = [], []
        return replies

    def lines(self):
        """The whole lines that are there next."""
        if not select.select([self.process.stdout], [], [], PATIENCE)[0]:
            self.process.kill()
            raise Ended("no answer in %d s" % PATIENCE)
        octets = os.read(self.process.stdout.fileno(), 1 << 16)
        if not octets:
            raise Ended(self.last_words())
        whole, end, self.rest = (self.rest + octets).rpartition(b"\n")
        return whole.decode().split("\n") if end else []

    def last_words(self):
        self.process.stdin.close()
        told = self.process.stderr.read().decode(errors="replace").strip()
        return "status %d: %s" % (self.process.wait(), told[:200])

    def close(self):
        """The end of the trace."""
        self.process.stdin.close()
        left = self.rest + self.process.stdout.read()
        status, told = self.process.wait(), self.process.stderr.read()
        self.process.stdout.close()
        self.process.stderr.close()
        if status or left or told:
            raise Ended("status %d at the end, and %d octets more" % (status, len(left)))
