"""Those who ask a front, at its control socket or for its page: how many at a time, how much they say, and how long they take."""
import contextlib
import socket
import tempfile
import time
import types
import unittest
import unittest.mock

from tests.tools.fronted import HEAD, IMSI, Running
from tools.fronting import limits
from tools.fronting.control import Control
from tools.fronting.guests import Door
from tools.fronting.loop import Loop

GUESTS, OCTETS, SECONDS = 3, 100, 0.3  # of a door here
MIB = 1 << 20


def has_ended(one):
    """Whether the other side of a connection has ended it, with nothing said."""
    one.settimeout(0)
    try:
        return one.recv(100) == b""
    except ConnectionResetError:  # it left what came unread
        return True
    except BlockingIOError:
        return False


def echoed(guest, received):
    """Tells a guest each line that it says."""
    *lines, rest = received.split(b"\n")
    for line in lines:
        guest.say(line + b"\n")
    return rest


class Turned(unittest.TestCase):
    """A loop and a listening socket."""

    def setUp(self):
        self.path = self.enterContext(tempfile.TemporaryDirectory()) + "/door"
        self.loop = Loop()
        self.addCleanup(self.loop.close)
        self.listener = self.enterContext(socket.socket(socket.AF_UNIX))
        self.listener.bind(self.path)
        self.listener.listen()

    def guest(self, says=b""):
        """One who comes and says something."""
        made = self.enterContext(socket.socket(socket.AF_UNIX))
        made.connect(self.path)
        made.sendall(says)
        self.turn()
        return made

    def turn(self, seconds=0.05):
        """Turns for so long."""
        end = time.monotonic() + seconds
        while (left := end - time.monotonic()) > 0:
            timer = self.loop.after(left, lambda: None)
            self.loop.turn()
            timer.cancel()


class Doors(Turned):
    def door(self):
        door = Door(self.loop, self.listener, GUESTS, OCTETS, SECONDS, echoed)
        self.addCleanup(door.close)
        return door

    def test_how_many(self):
        """A further one is closed at once, and where one goes there is room."""
        self.door()
        guests = [self.guest() for _ in range(GUESTS + 1)]
        self.assertEqual([has_ended(one) for one in guests], [False] * GUESTS + [True])
        guests[0].close()
        self.turn()
        self.assertFalse(has_ended(self.guest()))

    def test_how_long(self):
        """Who says no whole line in time goes, however slowly it goes on; who is answered has its time again."""
        self.door()
        silent, slow, busy = self.guest(), self.guest(b"half a li"), self.guest()
        for _ in range(6):
            with contextlib.suppress(BrokenPipeError):
                slow.sendall(b"x")
            busy.sendall(b"line\n")
            self.turn(SECONDS / 3)
            self.assertEqual(busy.recv(100), b"line\n")
        self.assertEqual([has_ended(one) for one in (silent, slow, busy)], [True, True, False])

    def test_how_much(self):
        """Who says more than it may, and no whole line, goes."""
        self.door()
        self.assertFalse(has_ended(self.guest(b"x" * OCTETS)))
        self.assertTrue(has_ended(self.guest(b"x" * (OCTETS + 1))))

    def test_who_never_reads(self):
        """What waits for one to read is bounded, and one that doesn't read in time goes."""
        door = self.door()
        self.guest()
        [near] = door.guests
        for _ in range(limits.MOST_TOLD // MIB + 2):
            near.say(bytes(MIB))
        self.assertFalse(near.is_open)
        self.guest()
        [near] = door.guests
        near.say(bytes(MIB))
        self.assertTrue(near.is_open)
        self.turn(1.5 * SECONDS)
        self.assertEqual((near.is_open, door.guests), (False, {}))


class ControlSocket(Turned):
    def test_limits(self):
        """Its guests are few, say whole lines in time, and what follows `give` too; then others have their places."""
        with unittest.mock.patch.multiple(limits, MOST_ASKING=GUESTS, ASKING_SECONDS=SECONDS):
            control = Control(types.SimpleNamespace(loop=self.loop), self.listener)
        self.addCleanup(control.close)
        guests = [self.guest(), self.guest(b"show 00101"), self.guest(b"give 100\nsub 00101")]
        self.assertTrue(has_ended(self.guest()))
        self.turn(1.5 * SECONDS)
        self.assertEqual([has_ended(one) for one in guests], [True] * 3)
        self.assertTrue(has_ended(self.guest(b"x" * (limits.LONGEST_ASKED + 1))))
        told = self.guest(b"nothing\ngive %d\n" % (limits.LONGEST_ADDED + 1)).recv(1000).decode().splitlines()
        self.assertEqual(told, ["fault no line begins with 'nothing'",
                                "fault give has the number of octets that follow, up to %d" % limits.LONGEST_ADDED])

    def test_slow_answers(self):
        """Who waits for an answer isn't sent away meanwhile, and has its time again after it."""
        with unittest.mock.patch.multiple(limits, MOST_ASKING=GUESTS, ASKING_SECONDS=SECONDS):
            front = types.SimpleNamespace(loop=self.loop, give=unittest.mock.Mock())
            control = Control(front, self.listener)
        self.addCleanup(control.close)
        guest = self.guest(b"give 4\nsub ")
        [(text, reply)] = [call.args for call in front.give.call_args_list]
        self.turn(3 * SECONDS)
        self.assertEqual((text, has_ended(guest)), (b"sub ", False))
        reply("given")
        self.turn()
        self.assertEqual(guest.recv(100), b"given\n")
        self.turn(1.5 * SECONDS)
        self.assertTrue(has_ended(guest))

    def test_slow_guests(self):
        """Those who don't say all of it keep nobody waiting, neither a station nor another who asks."""
        running = Running(self)
        station = running.station()
        for said in (b"", b"show 00101", b"give 1000\nsub 00101", b"counters\n" * 1000):
            slow = self.enterContext(socket.socket(socket.AF_UNIX))
            slow.connect(str(running.control))
            slow.sendall(said)
            self.assertTrue(running.asks("show", IMSI).startswith("state " + IMSI))
            self.assertEqual(station.says(b"still"), b"still")
        self.assertEqual(running.stop()[0], 0)
        self.assertTrue(running.log.read_text().startswith(HEAD))
