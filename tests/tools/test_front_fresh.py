"""tools/front: nothing that a phone or the MME said counts twice, whatever ended a run and however the next one begins. A log that
was given up isn't gone on after, no vector is used twice, a log is of one front at a time, what changes nothing isn't kept as what
counts, and files that are damaged are told in words."""
import hashlib
import itertools
import os
import pathlib
import resource
import shutil
import signal
import subprocess
import sys
import tempfile
import unittest
import unittest.mock

from tests.tools.fronted import HEAD, IMSI, PROGRAM, REMEMBERED, STAND_IN, Running, events_of, said
from tests.tools.test_front_log import LTE, PHONES, Talk, whole
from tools import runs, s1ap
from tools.fronting import associations, challenges, journal, limits, locking, provisioning, resuming, segments, used
from tools.fronting.faults import Failed

STILL = ("--second", "86400")  # a run in which no time passes
CONTEXT_REQUEST, DOWNLINK = b"\0\x09", b"\0\x0b"
UNKNOWN = [(77 << 16 | 5, None), (None, 4242), (12, 4243)]  # ids that nobody has
END_OF_FILES = resource.RLIM_INFINITY
PATIENCE = 120  # seconds, for a front that doesn't serve to end


def limit_files(running, octets):
    """Has no file of a front that runs grow beyond this, which is a full disk to it."""
    resource.prlimit(running.process.pid, resource.RLIMIT_FSIZE, (octets, END_OF_FILES))


def answered(*words):
    """The status of a front that begins by these words and doesn't come to serve, and what it says; a fault where it serves."""
    def serves(number, frame):
        raise AssertionError("it serves: %s" % (words,))
    before = signal.signal(signal.SIGALRM, serves)
    signal.alarm(PATIENCE)
    try:
        return said(["run", *words])
    finally:
        signal.alarm(0)
        signal.signal(signal.SIGALRM, before)


def rands_of(running):
    """The RANDs that LOG.used has of each IMSI."""
    lines = pathlib.Path(str(running.log) + ".used").read_text().splitlines()
    return [tuple(line.split(" ")) for line in lines]


class Phones(unittest.TestCase):
    """A phone at a station of a front, over runs of it; each message for it is owed under its next COUNT, to the octet."""

    def setUp(self):
        self.folder = pathlib.Path(self.enterContext(tempfile.TemporaryDirectory()))
        self.trace, self.station = PHONES.Trace(), PHONES.Station(0)
        self.phone = PHONES.Phone(self.trace, 0, [PHONES.Vector.made("fresh %d" % at) for at in range(6)])
        self.trace.provision([self.phone])
        self.head = self.trace.text()

    def begin(self, *words, **named):
        """A run, whose station is set up."""
        running = Running(self, *STILL, *words, head=named.pop("head", self.head), program=PROGRAM, folder=self.folder, **named)
        self.assertIn(b"front: ready", running.told)
        self.talk = Talk(self, self.trace, running)
        self.trace.set_up(self.station, connects=False)
        self.talk.settle()
        return running

    def refused(self, *words, head=None):
        """What a front says that doesn't come to serve."""
        (self.folder / "subscribers").write_text(head or self.head)
        files = self.folder / "subscribers", self.folder / "log"
        status, told = answered(*files, "--tcp", "--port", "0", "--mme", PROGRAM, *words)
        self.assertEqual(status, 2, told)
        return told

    def settle(self):
        self.talk.settle()

    def attaches(self, number=1):
        """A whole attach, and the station's release; the octets that the phone said."""
        before = len(self.trace.lines)
        self.phone.attaches(self.station, number)
        self.phone.is_released()
        self.settle()
        return self.said_since(before)

    def is_served(self, number):
        """SERVICE REQUEST from idle, the context, and the release; the octets of the request."""
        before = len(self.trace.lines)
        self.phone.asks_for_service(self.station, number)
        self.phone.context_is_set_up()
        self.phone.is_released()
        self.settle()
        return self.said_since(before)[0]

    def said_since(self, place):
        """The octets that a station said since a line of the trace."""
        return [bytes.fromhex(line.split(" ")[2]) for line in self.trace.lines[place:] if line.startswith("in ")]

    def answer_again(self, octets):
        """What the MME answers to octets that it had before."""
        return self.talk.connection.says(octets)

    def answers_to(self, messages):
        """What comes for these messages before a last S1 SETUP RESPONSE, which the station asks for after them."""
        connection = self.talk.connection
        for octets in messages:
            connection.send(octets)
        connection.send(LTE.s1_setup_request(self.trace.network, self.station))
        last, found = LTE.s1_setup_response(self.trace.network), []
        while (octets := connection.receive()) != last:
            found.append(octets)
        return found

    def check_not_served(self, request):
        """A SERVICE REQUEST that was accepted before isn't accepted again: no radio key comes for it."""
        kinds = [octets[:2] for octets in self.answers_to([request])]
        self.assertNotIn(CONTEXT_REQUEST, kinds)

    def check_replayed_attach(self, running, messages, place):
        """A recorded attach is challenged by a vector of its own, this one of the phone's, and lets nobody in."""
        answers = self.answers_to(messages)
        rands = [challenges.challenged(octets) for octets in answers]
        self.assertEqual([rand for rand in rands if rand], [self.phone.vectors[place].rand])
        self.assertNotIn(CONTEXT_REQUEST, [octets[:2] for octets in answers])
        self.assertEqual(running.asks("show", self.phone.imsi), "state %s DEREGISTERED IDLE INACTIVE\n" % self.phone.imsi)


@unittest.skipUnless(PROGRAM.exists(), "the program isn't built (./mme --prove)")
class GivenUp(Phones):
    def test_full_disk(self):
        """A run that went on without its log isn't resumed, not after a clean end either: the service request that it accepted then
        isn't accepted a second time."""
        running = self.begin("--full-disk", "go-on")
        attach = self.attaches()
        limit_files(running, 1)
        request = self.is_served(2)
        running.until(lambda: b"the run goes on without a log" in running.said())
        limit_files(running, END_OF_FILES)
        self.assertEqual(running.stop()[0], 0)
        names = {path.name for path in self.folder.iterdir()}
        self.assertIn("log.counts.given-up", names)
        self.assertNotIn("log.counts", names)
        told = self.refused("--resume")
        self.assertIn("log was given up", told)
        self.assertIn("--anew", told)
        self.assertIn("there is one already", self.refused())
        running = self.begin("--resume", "--anew", "--keep", "1")
        self.check_not_served(request)
        self.check_replayed_attach(running, attach, 1)
        self.assertTrue((self.folder / "log.1.counts.given-up").exists())

    def test_it_cannot_be_given_up(self):
        """Where the name can't be changed, the front doesn't go on: it ends with status 74."""
        running = self.begin("--full-disk", "go-on")
        (self.folder / "log.counts.given-up").mkdir()
        limit_files(running, 1)
        self.trace.set_up(self.station, connects=False)
        self.talk.connection.send(self.said_since(len(self.trace.lines) - 1)[0])
        status, told = running.ended()
        self.assertEqual(status, 74, told)
        self.assertIn("it can't be given up: Is a directory", told)
        self.assertNotIn("Traceback", told)


@unittest.skipUnless(PROGRAM.exists(), "the program isn't built (./mme --prove)")
class Vectors(Phones):
    def test_starts(self):
        """An attach that was recorded is challenged by the next vector, however the run begins that doesn't go on after the last;
        and where the file of subscribers begins with other lines than the log none begins, unless that is asked for."""
        running = self.begin()
        attach = self.attaches()
        self.assertEqual(running.stop()[0], 0)
        self.assertEqual(rands_of(running), [(self.phone.imsi, self.phone.vectors[0].rand.hex())])
        other = self.head.replace(" internet ", " another ")
        self.assertIn("begins with other lines than", self.refused("--resume", "--keep", "1", head=other))
        (self.folder / "log").unlink()
        (self.folder / "log.counts").unlink()
        for place, (words, head) in enumerate(((("--resume",), self.head), (("--keep", "1"), self.head),
                                               (("--resume", "--anew", "--keep", "1"), other)), 1):
            with self.subTest(words=words):
                running = self.begin(*words, head=head)
                self.assertIn("%s left out, used before" % ("1 vector is" if place == 1 else "%d vectors are" % place),
                              running.told.decode())
                self.check_replayed_attach(running, attach, place)
                self.assertEqual(running.stop()[0], 0)
                self.assertNotIn(self.phone.vectors[place - 1].rand.hex(), running.log.read_text().partition("# segment")[0])
                self.assertEqual(len(rands_of(running)), place + 1)

    def test_without_the_file(self):
        """Where LOG.used is lost, a run that begins anew has none of the vectors of a log with messages of phones; one that goes on
        finds in the log which were used."""
        running = self.begin()
        attach = self.attaches()
        self.assertEqual(running.stop()[0], 0)
        path = self.folder / "log.used"
        path.unlink()
        self.assertIn("there is one already", self.refused())
        running = self.begin("--resume")
        self.is_served(7)
        self.assertEqual(running.stop()[0], 0)
        self.assertEqual(len(rands_of(running)), 1)
        path.unlink()
        running = self.begin("--keep", "1")
        self.assertIn("log.used is lost: all vectors of the log count as used", running.told.decode())
        self.assertEqual(rands_of(running), [(self.phone.imsi, vector.rand.hex()) for vector in self.phone.vectors])
        self.assertEqual([octets for octets in self.answers_to(attach)
                          if challenges.challenged(octets) or octets[:2] == CONTEXT_REQUEST], [])
        self.assertEqual(running.stop()[0], 0)

    def test_without_the_file_and_the_beginning(self):
        """Where LOG.used is lost and no segment has the head that the log began with, all vectors of the subscribers' file count as
        used."""
        running = self.begin()
        attach = self.attaches()
        self.assertEqual(running.stop()[0], 0)
        for name in ("log", "log.counts"):
            text = (self.folder / name).read_text()
            (self.folder / name).write_text(text[text.index("# segment 1, "):].replace("# segment 1, ", "# segment 2, ", 1))
        (self.folder / "log.used").unlink()
        running = self.begin("--keep", "1")
        self.assertIn("log.used is lost: all vectors of the log count as used", running.told.decode())
        self.assertEqual(rands_of(running), [(self.phone.imsi, vector.rand.hex()) for vector in self.phone.vectors])
        self.assertEqual([octets for octets in self.answers_to(attach)
                          if challenges.challenged(octets) or octets[:2] == CONTEXT_REQUEST], [])
        self.assertEqual(running.stop()[0], 0)

    def test_without_the_file_and_a_phone(self):
        """Where no phone spoke, none of its vectors was used."""
        self.assertEqual(self.begin().stop()[0], 0)
        (self.folder / "log.used").unlink()
        running = self.begin("--keep", "1")
        self.assertNotIn(b"is lost", running.told)
        self.attaches()
        self.assertEqual(running.stop()[0], 0)

    def test_resumed(self):
        """A run that goes on has the vectors of its log, also where that began without some, and goes on counting."""
        (self.folder / "log.used").write_text("%s %s\n" % (self.phone.imsi, self.phone.vectors[0].rand.hex()))
        left = self.phone.vectors[1:]
        self.phone.vectors = left
        running = self.begin()
        self.attaches()
        self.assertEqual(running.stop()[0], 0)
        running = self.begin("--resume")
        self.assertIn(b"goes on", running.told)
        self.is_served(7)
        path = self.folder / "log.used"
        before = path.read_text()
        path.unlink()
        running.until(lambda: b"was moved or cut, and is written again" in running.said())
        self.assertEqual((sorted(path.read_text().splitlines()), path.stat().st_mode & 0o777), (sorted(before.splitlines()), 0o600))
        self.assertEqual(running.stop()[0], 0)
        self.assertEqual(len(rands_of(running)), 2)

    def test_an_older_log(self):
        """A log that lacks a challenge which went out is none to go on after."""
        running = self.begin()
        kept = {name: (self.folder / name).read_bytes() for name in ("log", "log.counts")}
        self.attaches()
        self.assertEqual(running.stop()[0], 0)
        for name, octets in kept.items():
            (self.folder / name).write_bytes(octets)
        self.assertIn("log has no challenge of 1 vector that", self.refused("--resume"))

    def full(self, *words, **named):
        """A run whose LOG.used can't grow, while there is room for its log."""
        lines = "".join("001019999999999 %032x\n" % number for number in range(20000))
        (self.folder / "log.used").write_text(lines)
        running = self.begin(*words, **named)
        limit_files(running, len(lines))
        return running

    def asks(self):
        """ATTACH REQUEST goes out; its challenge isn't looked for yet."""
        self.phone.asks_to_attach(self.station, 1)
        self.talk.connection.send(self.said_since(len(self.trace.lines) - 1)[0])
        self.talk.told = len(self.trace.lines)
        return self.trace.answers.pop().split(" ")[3]

    def test_no_room_end(self):
        """Where it can't be written that a vector is used, its challenge goes to nobody, and the front ends."""
        running = self.full()
        self.asks()
        status, told = running.ended()
        self.assertEqual(status, 74)
        self.assertIn("log.used: File too large", told)
        self.assertTrue(self.talk.connection.has_ended())
        self.assertEqual(self.talk.connection.got, b"")

    def test_no_room_refuse(self):
        """It waits until there is room, and then is challenged by the vector that was noted."""
        running = self.full("--full-disk", "refuse")
        challenge = self.asks()
        running.until(lambda: b"stations are refused and not heard until there is room" in running.said())
        limit_files(running, END_OF_FILES)
        self.assertEqual(self.talk.connection.receive().hex(), challenge)
        self.assertEqual(rands_of(running)[-1], (self.phone.imsi, self.phone.vectors[0].rand.hex()))
        self.assertEqual(running.stop()[0], 0)

    def test_no_room_go_on(self):
        """Stations are answered, and no phone is challenged until its vector can be noted."""
        running = self.full("--full-disk", "go-on", *STILL[:1], "0.1")
        challenge = self.asks()
        running.until(lambda: b"no phone is challenged by a vector that isn't noted there" in running.said())
        self.assertEqual(self.answers_to([]), [])
        challenge = self.asks_again(challenge)
        limit_files(running, END_OF_FILES)
        self.assertEqual(self.talk.connection.receive().hex(), challenge)
        self.assertEqual(len(rands_of(running)), 20001)

    def asks_again(self, challenge):
        """The same request, since the set-up ended the first one's connection; its challenge is of the next vector."""
        self.phone.is_gone()
        return self.asks()


@unittest.skipUnless(PROGRAM.exists(), "the program isn't built (./mme --prove)")
class Unsynced(Phones):
    """A power cut took of LOG.used what a run without syncs wrote there last, and the machine was booted."""

    def check_begins_anew(self, *words):
        """A run that begins so has none of the log's vectors, also where LOG.used has one of them."""
        path, first = self.folder / "log.used", self.phone.vectors[-1]
        path.write_text("%s %s\n" % (self.phone.imsi, first.rand.hex()))
        self.phone.vectors.pop()
        running = self.begin("--sync", "no", environment={"BOOT_ID": "one"})
        attach = self.attaches()
        running.process.kill()
        running.ended()
        kept = path.read_text().splitlines(keepends=True)
        self.assertEqual(len(kept), 2)
        path.write_text(kept[0])
        running = self.begin(*words, environment={"BOOT_ID": "two"})
        self.assertIn(b"none of its vectors can be used again", running.told)
        self.assertEqual(sorted(rands_of(running)),
                         sorted((self.phone.imsi, vector.rand.hex()) for vector in [*self.phone.vectors, first]))
        self.assertEqual([octets for octets in self.answers_to(attach)
                          if challenges.challenged(octets) or octets[:2] == CONTEXT_REQUEST], [])
        self.assertEqual(running.stop()[0], 0)

    def test_anew(self):
        self.check_begins_anew("--resume", "--anew", "--keep", "1")

    def test_without_resume(self):
        self.check_begins_anew("--keep", "1")


class UsedFile(unittest.TestCase):
    def setUp(self):
        self.path = pathlib.Path(self.enterContext(tempfile.TemporaryDirectory()), "log.used")

    def made(self):
        made = used.UsedVectors(str(self.path))
        self.addCleanup(made.close)
        return made

    def test_lines(self):
        """Each vector once, in a file of its owner alone; what was noted counts once it is written."""
        made = self.made()
        for number in (1, 2, 1):
            made.note(IMSI, bytes([number]) * 16)
        self.assertEqual(self.path.read_text(), "")
        made.write()
        self.assertFalse(made.note(IMSI, bytes([2]) * 16))
        made.write()
        self.assertEqual(self.path.read_text(), "".join("%s %s\n" % (IMSI, "%02x" % number * 16) for number in (1, 2)))
        self.assertEqual(self.path.stat().st_mode & 0o777, 0o600)
        self.assertEqual(self.made().known, made.known)

    def test_first(self):
        """What it told of itself before holds while vectors are added, and after it was read or written again; of another file, or of
        one that lacks some, it doesn't."""
        made = self.made()
        told = [made.told()]
        for number in (2, 1, 3):
            made.note(IMSI, bytes([number]) * 16)
            made.write()
            told.append(made.told())
        lines = self.path.read_text().splitlines(keepends=True)
        self.assertEqual(told[3], {"vectors": 3, "digest": hashlib.sha256("".join(lines).encode()).hexdigest()})
        self.path.unlink()
        self.assertTrue(made.look_after())
        for one in (made, self.made()):
            self.assertEqual([one.begins_with(each) for each in told], [True] * 4)
        for text, wanted in (("".join(lines[:2]), [True, True, True, False]), (lines[1] + lines[0] + lines[2], [True] + [False] * 3),
                             ("", [True, False, False, False])):
            self.path.write_text(text)
            self.assertEqual([self.made().begins_with(each) for each in told], wanted)

    def test_damage(self):
        """A last line that isn't whole is cut; one that is damaged elsewhere is told by its number."""
        lines = ["%s %032x\n" % (IMSI, number) for number in range(3)]
        for end in ("", "0", IMSI, lines[2][:-2], "x" + lines[2][1:], "\0" * 100):
            with self.subTest(end=end):
                self.path.write_text("".join(lines[:2]) + end)
                self.assertEqual(len(self.made().known), 2)
                self.assertEqual(self.path.read_text(), "".join(lines[:2]))
        for place in range(len(lines[0]) - 1):
            self.path.write_text(lines[0] + lines[1][:place] + "x" + lines[1][place + 1:] + lines[2])
            with self.assertRaisesRegex(Failed, "line 2 is damaged") as caught:
                self.made()
            self.assertEqual(caught.exception.status, 2)

    def test_told(self):
        """The front ends with it."""
        folder = self.path.parent
        self.path.write_text("damaged\n%s %032x\n" % (IMSI, 1))
        (folder / "subscribers").write_text(HEAD)
        status, told = answered(folder / "subscribers", folder / "log", "--tcp", "--port", "0")
        self.assertEqual(status, 2)
        self.assertIn("log.used: line 1 is damaged", told)


class Locked(unittest.TestCase):
    def test_two(self):
        """A second front for a log is told which process has it, whatever its control socket and its way to begin; the first goes
        on."""
        running = Running(self)
        station = running.station()
        self.assertEqual(station.says(REMEMBERED), REMEMBERED)
        for words in ((), ("--keep", "1"), ("--resume",), ("--resume", "--anew", "--keep", "1")):
            status, told = answered(running.subscribers, running.log, "--tcp", "--port", "0",
                                    "--mme", running.folder / "stand_in", "--control", running.folder / "other", *words)
            self.assertEqual((status, "another front has this log: process %d" % running.process.pid in told), (75, True), told)
        self.assertEqual(station.says(REMEMBERED), REMEMBERED)
        self.assertEqual(events_of(whole(running)), ["up 0", "in 0 f6", "in 0 f6"])

    def test_without_a_number(self):
        folder = pathlib.Path(self.enterContext(tempfile.TemporaryDirectory()))
        made = locking.Lock(str(folder / "log"))
        self.addCleanup(made.close)
        os.truncate(made.path, 0)
        with self.assertRaisesRegex(Failed, "another front has this log$"):
            locking.Lock(str(folder / "log"))

    def left_by(self, log, seconds):
        """The number of a process that took the lock and was killed, while a child of it has it for so many seconds more."""
        words = "import os, sys, time; from tools.fronting import locking; lock = locking.Lock(sys.argv[1])\n" \
            "if os.fork():\n    print(flush=True)\n    time.sleep(60)\ntime.sleep(float(sys.argv[2]))"
        with subprocess.Popen([sys.executable, "-c", words, log, str(seconds)], cwd=pathlib.Path(__file__).parents[2],
                              stdout=subprocess.PIPE) as running:
            running.stdout.readline()
            running.kill()
        return running.pid

    def test_child_of_one_that_was_killed(self):
        """Where the front was killed, a child of it that still goes is waited for, and not for ever."""
        log = str(pathlib.Path(self.enterContext(tempfile.TemporaryDirectory())) / "log")
        self.left_by(log, 0.5)
        locking.Lock(log).close()
        number = self.left_by(log, 2)
        with unittest.mock.patch.object(limits, "LOCK_SECONDS", 0.2), \
                self.assertRaisesRegex(Failed, "another front has this log: process %d$" % number):
            locking.Lock(log)
        locking.Lock(log).close()


@unittest.skipUnless(PROGRAM.exists(), "the program isn't built (./mme --prove)")
class WhatChangesNothing(Phones):
    def test_nobodys(self):
        """RESETs of associations that nobody has, and messages with the ids of nobody, aren't among what counts, however many come.
        A RESET of the phone's own association is."""
        running = self.begin("--segment-size", "1", "--segments", "2", "--rate", "100000")
        self.phone.attaches(self.station, 9)
        self.settle()
        before = len(whole(running, ".counts"))
        message = LTE.reset(LTE.part_of_interface(*(UNKNOWN * 80)))
        stray = LTE.uplink_nas(self.trace.network, self.station, 44, 9, b"\x07\x60\x61" + bytes(9000))
        for _ in range(52):
            self.assertEqual(self.answer_again(message)[:2], b"\x20\x0e")
            self.assertEqual(self.answer_again(stray)[:2], b"\x00\x0f")
        running.until(lambda: 1 in segments.older_segments(str(running.log)))
        own = LTE.reset(LTE.part_of_interface((self.phone.m, None)))
        self.assertEqual(self.answer_again(own)[:2], b"\x20\x0e")
        running.until(lambda: own.hex() in whole(running, ".counts"))
        self.assertNotIn(message.hex(), whole(running, ".counts"))
        self.assertNotIn(stray.hex(), whole(running, ".counts"))
        self.assertLess(len(whole(running, ".counts")), before + 10000)
        shown = running.asks("show", self.phone.imsi)
        self.assertIn("REGISTERED IDLE", shown)
        running.process.kill()
        running.ended()
        self.phone.is_gone()
        again = self.begin("--resume")
        self.assertEqual(again.asks("show", self.phone.imsi), shown)
        self.is_served(10)

    def test_mixed(self):
        """Nor are they among what counts where a message that may count comes with them."""
        running = self.begin("--rate", "100000")
        self.phone.attaches(self.station, 9)
        self.settle()
        before = len(whole(running, ".counts"))
        own = LTE.uplink_nas(self.trace.network, self.station, self.phone.m, 9, b"\x27" + bytes(9))  # whose MAC is wrong
        others = (LTE.reset(LTE.part_of_interface(*(UNKNOWN * 80))), LTE.error_indication(LTE.OM_INTERVENTION, (self.phone.m, 9)),
                  LTE.uplink_nas(self.trace.network, self.station, self.phone.m, 4242, b"\x07\x60\x61" + bytes(9000)))
        said = b"".join(len(octets).to_bytes(2, "big") + octets for octets in (own, *others))
        for _ in range(52):
            self.talk.connection.socket.sendall(said)
            self.assertEqual([self.talk.connection.receive()[:2] for _ in range(2)], [b"\x20\x0e", b"\x00\x0f"])
        running.until(lambda: whole(running, ".counts").count(own.hex()) == 52)
        for octets in others:
            self.assertNotIn(octets.hex(), whole(running, ".counts"))
        self.assertLess(len(whole(running, ".counts")), before + 10000)


class OfNobody(unittest.TestCase):
    """What is known of a station's associations."""

    network, station = PHONES.Network(), PHONES.Station(0)

    def initial(self, number):
        return LTE.initial_ue_message(self.network, self.station, number, b"\x07\x41")

    def test_resets(self):
        """An item means nobody where its eNB UE S1AP ID began no association here, or its MME UE S1AP ID is of no subscriber."""
        made = associations.Associations()
        part = lambda *items: LTE.reset(LTE.part_of_interface(*items))
        self.assertTrue(made.is_reset_of_nobody(part((1, None), (None, 1), (1, 1), (None, None)), 1))
        made.note(self.initial(7))
        made.note(LTE.path_switch_request(self.network, self.station, 1, 8, b"\xe0\x60"))
        for item, is_nobodys in (((None, 7), False), ((None, 8), False), ((None, 9), True), ((1, 7), False), ((1, 9), True),
                                 ((1, None), False), ((0xFFFF, None), False), ((0x10000, None), True), ((1 << 31, None), False),
                                 ((None, None), True)):
            with self.subTest(item=item):
                self.assertEqual(made.is_reset_of_nobody(part(item), 1), is_nobodys)
                self.assertEqual(made.is_reset_of_nobody(part((None, 99), item), 1), is_nobodys)
        self.assertFalse(made.is_reset_of_nobody(LTE.reset(LTE.WHOLE_INTERFACE), 1))
        self.assertFalse(made.is_reset_of_nobody(LTE.reset_acknowledge((None, 9)), 1))
        self.assertFalse(made.is_reset_of_nobody(part((None, 9))[:-1], 1))
        made.note(self.initial(10)[:9])
        self.assertFalse(made.is_reset_of_nobody(part((None, 9)), 1))

    def with_both_ids(self, octets, mme_id, enb_id):
        """A station's message with an element more, by which no message of a station names an association: an MME ignores it."""
        message = s1ap.read(octets)
        elements = [*message.elements.items(), LTE.pair(mme_id, enb_id)]
        made = LTE.s1ap(message.outcome, message.code, LTE.REJECT, *((LTE.IGNORE, element) for element in elements))
        self.assertEqual(s1ap.ids(s1ap.read(made)), (mme_id, enb_id))
        return made

    def test_both_ids(self):
        """An association has the id of the element that is for it, whatever else a station puts beside that."""
        made = associations.Associations()
        made.note(self.with_both_ids(self.initial(7), 1, 9))
        for number, is_nobodys in ((7, False), (9, True)):
            self.assertEqual(made.is_reset_of_nobody(LTE.reset(LTE.part_of_interface((None, number))), 1), is_nobodys)
        uplink = LTE.uplink_nas(self.network, self.station, 1, 7, b"\x07\x60\x61")
        self.assertFalse(made.is_nobodys(self.with_both_ids(uplink, 1, 9)))
        self.assertTrue(made.is_nobodys(self.with_both_ids(LTE.uplink_nas(self.network, self.station, 1, 8, b""), 1, 7)))

    def test_counting(self):
        """RESET ACKNOWLEDGE says that nothing changed where each RESET of the station is of nobody; else those count that are of
        somebody."""
        for resets, left in (([True, True], 0), ([True, False], 1), ([False, True], 1), ([], 2)):
            batch = journal.Batch()
            for line in ("in 0 aa", "in 0 bb"):
                batch.add(line, 0)
            batch.heard[0] = 2
            for line, is_of_nobody in zip(batch.lines, resets):
                batch.note_reset(0, is_of_nobody, line)
            for _ in range(2):
                batch.note_answer(0, is_reset=True)
            self.assertEqual(len(batch.counting()), left)

    def mixed(self, errors, *messages):
        """Which of these messages of station 0 count, each an octet string and whether it is noted to change nothing, or not noted,
        where so many are answered by an ERROR INDICATION."""
        made, batch = associations.Associations(), journal.Batch()
        made.note(self.initial(7))
        batch.note_station(0, made)
        for octets, is_still in messages:
            line = "in 0 " + octets.hex()
            batch.add(line, 0)
            if is_still is not None:
                batch.note_still(line, is_still)
        batch.heard[0] = len(messages)
        for _ in range(errors):
            batch.note_answer(0, is_reset=False)
        lines = batch.counting()
        return batch, [lines.count("in 0 " + octets.hex()) > 0 for octets, _ in messages]

    def test_mixed(self):
        """Where a station said something that changed something, what is surely nobody's doesn't count, and all else does."""
        uplink = lambda number: LTE.uplink_nas(self.network, self.station, 1, number, b"\x07\x60\x61")
        reset, silent = LTE.reset(LTE.part_of_interface((None, 9))), LTE.reset_acknowledge()
        own, other = (uplink(7), None), (uplink(8), None)
        self.assertEqual(self.mixed(0, own, other)[1], [True, True])
        self.assertEqual(self.mixed(1, own, other)[1], [True, False])
        self.assertEqual(self.mixed(2, own, other)[1], [False, False])
        self.assertEqual(self.mixed(1, own, (self.initial(8), None))[1], [True, True])
        self.assertEqual(self.mixed(1, own, (b"\x00\x0d", None))[1], [True, True])
        self.assertEqual(self.mixed(0, own, (reset, True), (silent, True))[1], [True, False, False])
        self.assertEqual(self.mixed(0, (reset, True), own, (reset, False))[1], [True, True, True])
        batch, _ = self.mixed(1, own, other)
        batch.note_station(0, associations.Associations())
        self.assertEqual(batch.counting(), batch.lines)

    def test_silent(self):
        """RESET ACKNOWLEDGE and ERROR INDICATION have no answer; what is like them has one, or isn't sure to have none."""
        error = LTE.error_indication(LTE.OM_INTERVENTION, (1, 9))
        for octets, is_silent in ((LTE.reset_acknowledge((None, 9)), True), (LTE.reset_acknowledge(), True), (error, True),
                                  (LTE.reset(LTE.WHOLE_INTERFACE), False), (LTE.reset_acknowledge((None, 9))[:-1], False),
                                  (error[:-1], False), (b"\x20\x0f" + error[2:], False), (b"", False)):
            with self.subTest(octets=octets):
                self.assertEqual(associations.is_silent(octets), is_silent)


@unittest.skipUnless(PROGRAM.exists(), "the program isn't built (./mme --prove)")
class Shorter(Phones):
    def test_than_what_is_settled(self):
        """What happened lost its end on the disk, so that it is shorter than what is settled. The run goes on, and so does the
        next, after a kill within a second: what the first accepted isn't accepted again."""
        running = self.begin()
        self.attaches()
        self.assertEqual(running.stop()[0], 0)
        octets = running.log.read_bytes()
        os.truncate(running.log, segments.NUMBERED.search(octets).end())
        running = self.begin("--resume")
        self.assertIn(b"goes on", running.told)
        request = self.is_served(2)
        running.process.kill()
        running.ended()
        running = self.begin("--resume")
        self.assertIn(b"goes on", running.told)
        self.check_not_served(request)
        self.phone.associations += 1  # that of the refusal
        self.is_served(3)


class Broken(unittest.TestCase):
    """Logs that a crash left, or whose files were damaged."""

    names = ("log", "log.counts", "log.segment.000001", "log.counts.segment.000001")

    def setUp(self):
        self.folder = pathlib.Path(self.enterContext(tempfile.TemporaryDirectory()))
        self.log = self.folder / "log"
        (self.folder / "subscribers").write_text(HEAD)
        self.program = self.folder / "stand_in"
        self.program.write_text(STAND_IN)
        self.program.chmod(0o755)
        self.write()

    def write(self):
        """A log of two segments of each series, by which three messages were heard; the last isn't settled yet."""
        for name in self.names:
            (self.folder / name).unlink(missing_ok=True)
        made = journal.Journal.begun(str(self.log), provisioning.Head(HEAD.splitlines()), 1 << 20, 3)
        for lines in (["up 0", "in 0 f6"], ["tick 1", "in 0 f6"], ["in 0 f6", "show " + IMSI]):
            batch = journal.Batch()
            for line in lines:
                batch.add(line)
            made.add([batch])
            if lines[0] == "tick 1":
                made.write_settled(0.0)
                made.happened.roll()
                made.counts.roll()
            if lines[0] != "in 0 f6":
                made.settle(batch)
        made.write_settled(0.0)
        made.close()

    def resumed(self):
        """A run that goes on after the log, and what it remembers."""
        running = Running(self, "--resume", *STILL, folder=self.folder)
        self.assertIn(b"goes on", running.told)
        self.assertEqual(running.asks("show", IMSI), "state %s HEARD-3 IDLE INACTIVE\n" % IMSI)
        return running

    def refused(self, *words):
        """What a front says that doesn't begin with this log."""
        status, told = answered(self.folder / "subscribers", self.log, "--tcp", "--port", "0", "--mme", self.program, *words)
        self.assertEqual(status, 2, told)
        return told

    def names_between(self, end, keeps):
        """A crash comes between the two names of a new segment, whose file kept what it had or didn't."""
        path = str(self.log) + end
        os.rename(path, segments.name_of(path, 2))
        pathlib.Path(path + ".new").write_bytes(segments.line_of(3) if keeps else b"")

    def test_between_two_names(self):
        """The log is whole, and a run goes on after it."""
        wanted = self.standing_of()
        for end, keeps in itertools.product(("", ".counts"), (True, False)):
            with self.subTest(end=end, keeps=keeps):
                self.write()
                self.names_between(end, keeps)
                self.assertEqual(self.standing_of(), wanted)
        self.write()
        for end in ("", ".counts"):
            self.names_between(end, keeps=True)
        self.assertEqual(self.resumed().station().says(REMEMBERED), REMEMBERED)

    def test_a_name_that_is_lost(self):
        """A new segment was written on, and then a power cut took its second name."""
        wanted = self.standing_of()
        for end in ("", ".counts"):
            with self.subTest(end=end):
                self.write()
                os.rename(str(self.log) + end, str(self.log) + end + ".new")
                self.assertEqual(self.standing_of(), wanted)

    def standing_of(self):
        """What a log has to go on after."""
        standing = resuming.Standing(str(self.log))
        lines = b"".join(standing.events()).splitlines()
        events = [line for line in lines if not line.startswith(b"#")]
        return events, [line for batch in standing.tail_batches(bytes) for line in batch.lines]

    def test_missing(self):
        """Where a file of a log is missing no run begins; and where all of them are one does."""
        for name in self.names:
            with self.subTest(name=name):
                self.write()
                (self.folder / name).unlink()
                if name != "log.segment.000001":  # what counts is whole, and so is what happened since
                    self.assertIn("the last run isn't resumed: ", self.refused("--resume", "--keep", "1"))
                self.assertIn("there is one already", self.refused())
        for name in self.names:
            (self.folder / name).unlink(missing_ok=True)
        self.assertIn(b"front: ready", Running(self, "--resume", folder=self.folder).told)

    def test_a_torn_end(self):
        """What a crash left half written of what counts, of more than a page, is cut."""
        with open(str(self.log) + ".counts", "ab") as counts:
            counts.write(b"in 0 " + b"f6" * 40000)
        self.resumed()

    def test_a_damaged_line(self):
        """A line that is none, among those that happened since what is settled, is told in words."""
        before = self.log.read_bytes()
        for line in (b"in x f6", b"in 0 f", b"in 0", b"junk", b"\xff\xfe", b"show 001"):
            with self.subTest(line=line):
                self.log.write_bytes(before + line + b"\ntick 1\n")
                self.assertIn("the last run isn't resumed: ", self.refused("--resume"))

    def test_nobodys_line(self):
        """A line for an IMSI that nobody has, whose answer the front takes for the end of what it gave, is told in words, wherever
        it stands."""
        for name, word in itertools.product(("log", "log.counts", "log.counts.segment.000001"), (b"data", b"cancel", b"show")):
            with self.subTest(name=name, word=word):
                self.write()
                path = self.folder / name
                octets = path.read_bytes()
                at = octets.index(b"in 0 f6\n") if name == "log.counts.segment.000001" else segments.NUMBERED.search(octets).end()
                path.write_bytes(octets[:at] + word + b" 001010000000008\n" + octets[at:])
                self.assertIn("nobody has the IMSI 001010000000008", self.refused("--resume"))

    def test_anywhere(self):
        """Each file of a log cut at many places, and with an octet of another value at many: it is taken up, or it is said why it
        isn't."""
        kept = pathlib.Path(self.enterContext(tempfile.TemporaryDirectory()))
        for name in self.names:
            shutil.copy(self.folder / name, kept / name)
        words = set()
        for name in sorted(os.listdir(kept)):
            octets = (kept / name).read_bytes()
            spoiled = [octets[:at] for at in range(0, len(octets), 7)]
            for at, value in itertools.product(range(0, len(octets), 5), (b"\n", b"\xff", b"7")):
                spoiled.append(octets[:at] + value + octets[at + 1:])
            for other in spoiled:
                words.add(self.taken_up(kept, name, other))
        self.assertIn("taken up", words)
        self.assertGreater(len(words), 5)

    def taken_up(self, kept, name, octets):
        """What becomes of a log whose one file has these octets."""
        with tempfile.TemporaryDirectory() as folder:
            for path in kept.iterdir():
                shutil.copy(path, folder)
            pathlib.Path(folder, name).write_bytes(octets)
            log = folder + "/log"
            try:
                standing = resuming.Standing(log)
                self.assertTrue(b"".join(standing.events()).endswith(b"\n"))
                standing.tail_batches(lambda entry: entry)
                self.assertGreaterEqual(standing.seconds_since(), 0)
                standing.journal(1 << 20, 3, journal.Whole()).close()
                return "taken up"
            except (resuming.NoResume, runs.Fault) as fault:
                return str(fault).replace(folder, "")

    def test_a_disk_that_is_full_at_the_start(self):
        """Nothing is left that a later start would take for a log."""
        log, limits = str(self.folder / "other"), resource.getrlimit(resource.RLIMIT_FSIZE)
        for octets in (10, len(HEAD) + 10):
            resource.setrlimit(resource.RLIMIT_FSIZE, (octets, limits[1]))
            try:
                with self.assertRaisesRegex(Failed, "File too large"):
                    journal.Journal.begun(log, provisioning.Head(HEAD.splitlines()), 1 << 20, 3)
            finally:
                resource.setrlimit(resource.RLIMIT_FSIZE, limits)
            self.assertEqual(resuming.parts_of(log), {})

    def test_anew_goes_with_resume(self):
        self.assertIn("--anew goes with --resume", self.refused("--anew"))


if __name__ == "__main__":
    unittest.main()
