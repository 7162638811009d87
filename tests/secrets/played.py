"""Phones whose secrets stand nowhere else, and the program that plays what they say."""
import fcntl
import os
import pathlib
import signal
import struct
import subprocess
import termios
import threading
import time

from soizkadur.standards import FailingPhone, Vector, lte, phones
from tests.secrets.residue import COUNTS, Secret, of_context, of_vector
from tests.secrets.searching import Fault, regions
from tools.eps import timers

SECONDS = 300  # for the whole run of the program
NO_SNAPSHOT = 28  # the number of soizkadur.h
PIPE = 65536  # octets that a pipe holds, and that the program reads at once


class Phone(FailingPhone):
    """A phone with vectors of its own, which knows the vectors that contexts were made of."""

    def __init__(self, trace, slot, vectors, whose):
        super().__init__(trace, slot, [random_vector(16 if (slot + at) % 2 else 8) for at in range(vectors)])
        self.whose, self.keyed, self.latest = whose, [], 0

    def authenticates(self):
        super().authenticates()
        self.keyed.append(self.vector)

    def secured(self, header, count, direction, message):
        self.latest = max(self.latest, count)
        return super().secured(header, count, direction, message)

    @property
    def line(self):
        """The line that provisions it."""
        return "sub %s %s %s %s" % (self.imsi, self.address.hex(), self.gateway.hex(), self.teid.hex())

    def secrets(self):
        """Those of its spent vectors, and of each context that was made."""
        assert self.latest < COUNTS, "the counts of the phone with IMSI %s go up to %d" % (self.imsi, self.latest)
        of_all = [pair for vector in self.vectors[:self.place] for pair in of_vector(vector)]
        of_all += [pair for vector in self.keyed for pair in of_context(vector)]
        return [Secret(self.whose, kind, octets) for kind, octets in of_all]

    # --- What other phones don't do ---

    def gives_any_res(self):
        """AUTHENTICATION RESPONSE with octets that have nothing of XRES; owed the reject and the release."""
        self.sends(lte.authentication_response(os.urandom(len(self.vector.xres))))
        self.fails_authentication()

    def is_switched_off(self):
        """DETACH REQUEST of a phone that is switched off; owed the release alone."""
        self.sends(self.protected_up(lte.detach_request(lte.guti(self.network, self.tmsi), self.ksi, True)))
        self.owed(lte.release_command(self.m, self.b, lte.DETACHED))
        self.goes()

    def detaches_plainly(self):
        """DETACH REQUEST while it is challenged; owed DETACH ACCEPT and the release, both plain."""
        self.sends(lte.detach_request(lte.imsi_identity(self.imsi), self.ksi, False))
        self.owed_nas(lte.DETACH_ACCEPT)
        self.owed(lte.release_command(self.m, self.b, lte.DETACHED))
        self.goes()

    def is_cancelled(self):
        """Its subscription is withdrawn while it is connected; owed DETACH REQUEST, which it accepts, and the release."""
        self.trace.say("cancel " + self.imsi)
        self.owed_nas(self.protected_down(lte.NETWORK_DETACH))
        self.sends(self.protected_up(lte.DETACH_ACCEPT))
        self.owed(lte.release_command(self.m, self.b, lte.DETACHED))
        self.goes()

    def holds_back_detach_accept(self):
        """The same, and it is silent: DETACH REQUEST comes again until the network gives up."""
        self.trace.say("cancel " + self.imsi)
        self.owed_nas(self.protected_down(lte.NETWORK_DETACH))
        self.holds_back(lambda: self.protected_down(lte.NETWORK_DETACH), timers.T3422.seconds, timers.T3422.repeats)

    def is_cancelled_unfinished(self):
        """Its subscription is withdrawn before it is registered; owed the release alone."""
        self.trace.say("cancel " + self.imsi)
        self.owed(lte.release_command(self.m, self.b, lte.DETACHED))
        self.goes()


def random_vector(res):
    """A vector of random octets with an XRES of that many."""
    return Vector(os.urandom(16), os.urandom(16), os.urandom(res), os.urandom(32))


class Played(phones.Trace):
    """A trace that a program, by its words, plays line by line, and whose answers are those that are owed."""

    def __init__(self, words):
        super().__init__()
        self.heard = 0
        self.words = words
        self.begin()
        self.late = threading.Timer(SECONDS, lambda: self.process.kill())
        self.late.daemon = True
        self.late.start()

    def begin(self):
        """Begins the program."""
        self.process = subprocess.Popen(self.words, stdin=subprocess.PIPE, stdout=subprocess.PIPE)
        self.input = self.process.stdin.fileno()

    def say(self, line):
        """Plays a line, once all that is owed for the last one has come."""
        self.settle()
        super().say(line)
        self.hand((line + "\n").encode())

    def settle(self):
        """Reads the answers that are owed."""
        for wanted in self.answers[self.heard:]:
            answer = self.process.stdout.readline().decode().rstrip("\n")
            if answer != wanted:
                raise Fault("line %d: %s\nthe MME owes\n  %s\nand answers\n  %s"
                            % (len(self.lines), self.lines[-1], wanted, answer or "nothing"))
        self.heard = len(self.answers)

    def say_in_parts(self, line):
        """Plays a line that comes in two pieces, as a line does where what is read at once ends in it."""
        self.settle()
        super().say(line)
        octets = (line + "\n").encode()
        for part in octets[:len(octets) // 2], octets[len(octets) // 2:]:
            self.hand(part)
            self.wait()

    def hand(self, octets):
        """Hands the program octets."""
        try:
            while octets:
                octets = octets[os.write(self.input, octets):]
        except BrokenPipeError:
            raise Fault("the program has ended with status %d" % self.process.wait()) from None

    def wait(self):
        """Waits until the program has done all that it was handed, and reads."""
        while self.process.poll() is None:
            (left,) = struct.unpack("i", fcntl.ioctl(self.input, termios.FIONREAD, bytes(4)))
            stat = pathlib.Path("/proc/%d/stat" % self.process.pid).read_text(encoding="utf-8")
            if not left and stat.rpartition(")")[2].split()[0] == "S":
                return
            time.sleep(0.002)
        raise Fault("the program has ended with status %d" % self.process.returncode)

    def fill(self, line, answer=None):
        """Hands the program as many of these lines as it reads at once, and has it read them so."""
        self.settle()
        self.wait()
        self.stop()
        count = PIPE // (len(line) + 1)
        text = (line + "\n") * count
        self.hand(text.encode() + b"\n" * (PIPE - len(text)))
        os.kill(self.process.pid, signal.SIGCONT)
        self.lines += [line] * count
        self.answers += [answer] * count if answer else []
        self.settle()
        self.wait()

    def stop(self):
        """Stops the program, which is a child of this one."""
        os.kill(self.process.pid, signal.SIGSTOP)
        os.waitpid(self.process.pid, os.WUNTRACED)

    def memory(self):
        """What the program has in memory once it has done all that it was handed; it goes on."""
        self.settle()
        self.wait()
        self.stop()
        try:
            return regions(self.process.pid)
        finally:
            os.kill(self.process.pid, signal.SIGCONT)

    # --- What live.c does besides ---

    def saves(self):
        """The MME is saved, and what it is saved as overwritten."""
        self.say("save")
        self.answers.append("saved")

    def snapshot(self):
        """The digits of a snapshot of the MME."""
        self.settle()
        self.hand(b"hand\n")
        word, _, snapshot = self.process.stdout.readline().decode().rstrip("\n").partition(" ")
        if word != "handed":
            raise Fault("no snapshot, but %s" % word)
        return snapshot

    def restores(self, snapshot, answer="restored"):
        """An MME is restored, or what is no snapshot is refused."""
        self.settle()
        self.hand(b"restore " + snapshot.encode() + b"\n")
        self.answers.append(answer)
        self.settle()

    def is_refused(self, snapshot):
        """A snapshot without its last octet is refused, and the MME that ran has ended; the memory then."""
        self.restores(snapshot[:-2], "restored %d" % NO_SNAPSHOT)
        return self.memory()

    def begins_again(self):
        """The program ends, and another one begins."""
        self.process.communicate()
        self.begin()

    def end(self):
        """Ends the program."""
        self.late.cancel()
        self.process.kill()
        self.process.communicate()
