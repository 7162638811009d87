"""tools/front: the log in its segments, full disks, files that move, what counts, a run that is taken up, what is given while it
runs, and an MME or a reader that hangs."""
import json
import os
import pathlib
import resource
import signal
import socket
import subprocess
import time
import unittest

from reference import lte as LTE, phones as PHONES
from tests.tools import tools
from tests.tools.fronted import HANGS, HEAD, IMSI, PROGRAM, REMEMBERED, Connected, Running, events_of
from tools.fronting import limits
from tools.fronting.front import OF_PROGRAM
from tools.fronting.segments import older_segments

ERROR = bytes.fromhex("000f40070000010002400110")  # an ERROR INDICATION, which the stand-in sends back
OTHER_SUB = "sub 001010000000002 0a000002 0a000064 00000002\n"


def whole(running, end=""):
    """The trace in all segments of a series."""
    path = str(running.log) + end
    paths = [name for _, name in sorted(older_segments(path).items())] + [path]
    return "".join(pathlib.Path(name).read_text() for name in paths)


class Log(unittest.TestCase):
    def test_what_counts(self):
        """What was answered by an ERROR INDICATION to its station alone is in what happened, and not in what counts."""
        running = Running(self)
        good, bad = running.station(), running.station()
        for number in range(50):
            bad.send(ERROR + bytes([number]))
        for number in range(50):
            self.assertEqual(bad.receive(), ERROR + bytes([number]))
        self.assertEqual(good.says(b"kept"), b"kept")
        self.assertEqual(running.stop()[0], 0)
        self.assertEqual(len([line for line in events_of(whole(running)) if line.startswith("in 1 ")]), 50)
        self.assertEqual(events_of(whole(running, ".counts")), ["up 0", "up 1", "in 0 6b657074", "lost 0", "lost 1"])

    def test_times(self):
        """The time of day stands before what came then, in milliseconds."""
        running = Running(self)
        begun = time.time()
        self.assertEqual(running.station().says(b"now"), b"now")
        lines = running.log.read_text().splitlines()
        place = lines.index("in 0 6e6f77")
        stamps = [line for line in lines[:place] if line.startswith("# time ")]
        self.assertRegex(stamps[-1], r"^# time \d{4}-\d\d-\d\d \d\d:\d\d:\d\d\.\d{3}$")
        told = time.mktime(time.strptime(stamps[-1][7:26], "%Y-%m-%d %H:%M:%S")) - time.timezone
        self.assertLess(abs(told - begun), 20)

    def test_segments(self):
        """Each series is bounded: the oldest segment goes, and the front says so."""
        running = Running(self, "--segment-size", "1", "--segments", "3", "--rate", "100000")
        station = running.station()
        for number in range(200):
            station.send(bytes([number]) * 18000)
            station.receive()
        status, told = running.stop()
        self.assertEqual(status, 0)
        self.assertLessEqual(len(older_segments(str(running.log))), 2)
        self.assertLess(sum(path.stat().st_size for path in running.folder.iterdir()), 9 << 20)
        self.assertIn("log.segment.000001 is the oldest segment, and removed: the trace no longer plays from its beginning", told)
        self.assertIn("log.counts.segment.000001 is the oldest segment, and removed: --resume and give can't use this run", told)

    def test_a_flood_of_errors(self):
        """It rolls away what happened, and leaves what counts whole, so that the run can still be taken up."""
        running = Running(self, "--segment-size", "1", "--segments", "2", "--rate", "100000")
        station, bad = running.station(), running.station()
        self.assertEqual(station.says(REMEMBERED), REMEMBERED)
        for number in range(150):
            bad.send(ERROR + bytes([number]) * 18000)
            bad.receive()
        running.until(lambda: 1 not in older_segments(str(running.log)))
        running.process.kill()
        running.ended()
        self.assertNotIn("in 1 ", whole(running, ".counts"))
        again = Running(self, "--resume", folder=running.folder)
        self.assertEqual(again.asks("show", IMSI), "state %s HEARD-1 IDLE INACTIVE\n" % IMSI)

    def test_hangup(self):
        """SIGHUP begins new segments, and ends nothing."""
        running = Running(self)
        station = running.station()
        self.assertEqual(station.says(b"one"), b"one")
        running.process.send_signal(signal.SIGHUP)
        running.until(lambda: 1 in older_segments(str(running.log)))
        self.assertEqual(station.says(b"two"), b"two")
        self.assertEqual(running.stop()[0], 0)
        self.assertEqual(events_of(whole(running)), ["up 0", "in 0 6f6e65", "in 0 74776f", "lost 0"])
        self.assertEqual(events_of(whole(running, ".counts")), events_of(whole(running)))

    def test_moved_and_cut(self):
        """A log that was moved or cut is noticed, said, and written on."""
        for act, told in ((lambda path: os.replace(path, str(path) + ".elsewhere"), "was moved"),
                          (lambda path: os.truncate(path, 5), "was cut")):
            with self.subTest(told=told):
                running = Running(self)
                station = running.station()
                self.assertEqual(station.says(b"one"), b"one")
                act(running.log)
                running.until(lambda: told.encode() in running.said())
                self.assertEqual(station.says(b"two"), b"two")
                self.assertIn("in 0 74776f", running.log.read_text())
                self.assertEqual(running.stop()[0], 0)


def small_files(octets):
    """Has no file of the front grow beyond this, which is a full disk to it."""
    return lambda: resource.setrlimit(resource.RLIMIT_FSIZE, (octets, resource.RLIM_INFINITY))


class FullDisk(unittest.TestCase):
    def test_end(self):
        """The front ends with a status that a service manager starts again, and the log has whole lines."""
        running = Running(self, before=small_files(4000))
        station = running.station()
        station.send(bytes(3000))
        status, told = running.ended()
        self.assertEqual(status, 74)
        self.assertIn("log: File too large\n", told)
        self.assertTrue(running.log.read_text().endswith("\n"))

    def test_go_on(self):
        running = Running(self, "--full-disk", "go-on", before=small_files(4000))
        station = running.station()
        for number in range(5):
            self.assertEqual(station.says(bytes([number]) * 3000), bytes([number]) * 3000)
        running.until(lambda: b"the run goes on without a log" in running.said())
        self.assertEqual(running.asks("phones").splitlines()[-1], "no log")
        self.assertEqual(running.stop()[0], 0)

    def test_refuse(self):
        """Stations wait and others are refused until there is room; then what was sent meanwhile is answered."""
        running = Running(self, "--full-disk", "refuse", before=small_files(4000))
        station = running.station()
        station.send(b"x" * 3000)
        running.until(lambda: b"stations are refused and not heard until there is room" in running.said())
        further = Connected(running.port)
        self.assertTrue(further.has_ended())
        station.send(b"later")
        resource.prlimit(running.process.pid, resource.RLIMIT_FSIZE, (resource.RLIM_INFINITY, resource.RLIM_INFINITY))
        self.assertEqual((station.receive(), station.receive()), (b"x" * 3000, b"later"))
        self.assertEqual(running.stop()[0], 0)
        self.assertEqual([line for line in running.events() if line.startswith("in")], ["in 0 " + "78" * 3000, "in 0 6c61746572"])


class Resuming(unittest.TestCase):
    def test_after_a_kill(self):
        """What was remembered before the front was killed still is; stations that were there are lost, and the log goes on."""
        running = Running(self)
        station = running.station()
        for _ in range(3):
            self.assertEqual(station.says(REMEMBERED), REMEMBERED)
        self.assertEqual(running.asks("show", IMSI), "state %s HEARD-3 IDLE INACTIVE\n" % IMSI)
        running.process.kill()
        running.ended()
        with open(running.log, "ab") as log:
            log.write(b"in 0 f6f6f")  # a line that was begun when it was killed
        again = Running(self, "--resume", folder=running.folder)
        self.assertIn(b"goes on: 1 station was lost", again.told)
        self.assertEqual(again.asks("show", IMSI), "state %s HEARD-3 IDLE INACTIVE\n" % IMSI)
        station = again.station()
        self.assertEqual(station.says(REMEMBERED), REMEMBERED)
        self.assertEqual(again.stop()[0], 0)
        wanted = ["up 0", *["in 0 f6"] * 3, "show " + IMSI, "lost 0", "show " + IMSI, "up 0", "in 0 f6", "lost 0"]
        self.assertEqual(events_of(whole(again)), wanted)
        self.assertEqual(events_of(whole(again, ".counts")), wanted)

    def test_time_that_passed(self):
        """The seconds in which no front ran are ticks."""
        running = Running(self)
        self.assertEqual(running.station().says(b"here"), b"here")
        self.assertEqual(running.stop()[0], 0)
        time.sleep(2.1)
        again = Running(self, "--resume", folder=running.folder)
        ticks = [line for line in again.log.read_text().partition("# resumed")[2].splitlines() if line.startswith("tick")]
        self.assertGreaterEqual(int(ticks[0].split(" ")[1]), 2)

    def test_again_and_again(self):
        """Each run takes up the one before, over several segments."""
        folder, heard = None, 0
        for _ in range(4):
            running = Running(self, "--resume", "--segment-size", "1", folder=folder)
            folder = running.folder
            station = running.station()
            for _ in range(24):
                station.send(REMEMBERED + bytes(18000))
                station.receive()
                heard += 1
            self.assertEqual(running.asks("show", IMSI), "state %s HEARD-%d IDLE INACTIVE\n" % (IMSI, heard))
            running.process.kill() if heard % 48 else running.process.terminate()
            running.ended()
        self.assertGreater(len(older_segments(str(running.log))), 1)

    def test_not_whole(self):
        """Where the log isn't whole the front says so and ends; where that is asked for it begins with nobody and keeps the log."""
        running = Running(self)
        station = running.station()
        self.assertEqual(station.says(REMEMBERED), REMEMBERED)
        running.process.send_signal(signal.SIGHUP)
        running.until(lambda: 1 in older_segments(str(running.log) + ".counts"))
        self.assertEqual(running.stop()[0], 0)
        pathlib.Path(str(running.log) + ".counts.segment.000001").unlink()
        status, told = Running(self, "--resume", "--keep", "3", folder=running.folder).ended()
        self.assertEqual((status, "isn't whole: its segments are 2 (--anew begins with nobody attached)" in told), (2, True), told)
        again = Running(self, "--resume", "--anew", "--keep", "3", folder=running.folder)
        self.assertIn(b"the last run isn't resumed, and nobody is attached", again.told)
        self.assertEqual(again.asks("show", IMSI), "state %s DEREGISTERED IDLE INACTIVE\n" % IMSI)
        self.assertEqual(again.stop()[0], 0)
        names = {path.name for path in running.folder.iterdir()}
        self.assertLessEqual({"log", "log.counts", "log.1", "log.1.counts", "log.1.segment.000001"}, names)

    def test_other_subscribers(self):
        """A file that begins with other lines is another MME's; one that has more is given what is new."""
        running = Running(self)
        self.assertEqual(running.station().says(REMEMBERED), REMEMBERED)
        self.assertEqual(running.stop()[0], 0)
        again = Running(self, "--resume", head=HEAD + OTHER_SUB, folder=running.folder)
        again.until(lambda: b"given 1 subscriber" in again.said())
        self.assertEqual(again.asks("show", "001010000000002"), "state 001010000000002 HEARD-1 IDLE INACTIVE\n")
        self.assertEqual(again.stop()[0], 0)
        other = Running(self, "--resume", head=HEAD.replace("8001", "8002"), folder=running.folder)
        self.assertEqual(other.ended()[0], 2)
        self.assertIn(b"begins with other lines than", other.told)
        self.assertIn(b": lines that were given have to stand at its end", other.told)

    def test_an_mme_that_cannot(self):
        """Where the MME ends over the last log the front does too, or begins with nobody where that is asked for."""
        running = Running(self)
        self.assertEqual(running.station().says(b"here"), b"here")
        self.assertEqual(running.stop()[0], 0)
        counts = pathlib.Path(str(running.log) + ".counts")
        counts.write_text(counts.read_text().replace("in 0 68657265", "in 0 f2"))
        status, told = Running(self, "--resume", folder=running.folder).ended()
        self.assertEqual((status, "the last run isn't resumed: the MME ended with status 7" in told), (7, True), told)
        again = Running(self, "--resume", "--anew", "--keep", "1", folder=running.folder)
        self.assertIn(b"nobody is attached: the MME ended with status 7", again.told)
        self.assertEqual(again.station().says(b"still"), b"still")


def give(running, text):
    """Gives a front lines; its answer."""
    path = running.folder / "given"
    path.write_text(text)
    return running.asks("give", path)


class Giving(unittest.TestCase):
    """A front with a program, which takes no lines while it runs."""

    def test_refused(self):
        """It says so, and what helps; nothing changes, and the station notices nothing."""
        running = Running(self)
        station = running.station()
        self.assertEqual(station.says(REMEMBERED), REMEMBERED)
        self.assertEqual(give(running, OTHER_SUB), "fault %s\n" % OF_PROGRAM)
        self.assertEqual(station.says(b"still"), b"still")
        self.assertIn("given: 0", running.asks("counters"))
        self.assertEqual(running.asks("data", "001010000000002"), "refused 5: nobody has this IMSI\n")
        self.assertEqual(running.stop()[0], 0)
        for end in ("", ".counts"):
            self.assertEqual(whole(running, end)[:len(HEAD) + 10], HEAD + "# segment ")

    def test_longer_file(self):
        """A subscriber that the file has more at the next start: what counts is played with the longer head, which both series have
        from then on, over several segments too."""
        running = Running(self)
        station = running.station()
        self.assertEqual(station.says(REMEMBERED), REMEMBERED)
        for _ in range(2):
            count = len(older_segments(running.log))
            running.process.send_signal(signal.SIGHUP)
            running.until(lambda count=count: len(older_segments(running.log)) > count)
        self.assertEqual(station.says(REMEMBERED), REMEMBERED)
        self.assertEqual(running.stop()[0], 0)
        for times, told in ((1, True), (2, False)):
            running = Running(self, "--resume", head=HEAD + OTHER_SUB, folder=running.folder)
            self.assertEqual(b"given 1 subscriber, 0 vectors: they stand in the head of" in running.said(), told)
            self.assertEqual(running.asks("show", "001010000000002"), "state 001010000000002 HEARD-2 IDLE INACTIVE\n")
            self.assertEqual(running.station().says(b"still"), b"still")
            self.assertEqual(running.stop()[0], 0)
            for end in ("", ".counts"):
                text = whole(running, end)
                self.assertTrue(text.startswith(HEAD + OTHER_SUB + "# segment 1,"), text)
                self.assertEqual(events_of(text).count("in 0 7374696c6c"), times)

    def test_longer_file_that_is_wrong(self):
        """Lines that can't be taken end it with words, and the log stays as it is."""
        running = Running(self)
        self.assertEqual(running.station().says(REMEMBERED), REMEMBERED)
        self.assertEqual(running.stop()[0], 0)
        before = [whole(running, end) for end in ("", ".counts")]
        for more, why in ((HEAD.splitlines()[1] + "\n", "line 1: it stands already"), (OTHER_SUB * 2, "line 2: it stands already"),
                          ("vec 001010000000007 %s %s %s %s\n" % ("00" * 16, "00" * 16, "00" * 8, "00" * 32),
                           "line 1: 001010000000007 has no line sub")):
            status, told = Running(self, "--resume", head=HEAD + more, folder=running.folder).ended()
            self.assertEqual((status, "can't be given: %s\n" % why in told), (2, True), told)
            self.assertEqual([whole(running, end) for end in ("", ".counts")], before)

    def test_faults(self):
        """A number of octets that can't be."""
        running = Running(self)
        with socket.socket(socket.AF_UNIX) as asking:
            asking.connect(str(running.control))
            asking.sendall(b"give 99999999999\ngive x\n")
            answers = asking.makefile()
            for _ in range(2):
                self.assertEqual(answers.readline(), "fault give has the number of octets that follow, up to 67108864\n")
        self.assertEqual(running.stop()[0], 0)


class Talk:
    """What a station hears goes to a front that runs, and what it is owed is looked for there."""

    def __init__(self, test, trace, running):
        self.test, self.trace, self.connection = test, trace, running.station()
        self.told = len(trace.lines)

    def settle(self):
        """Sends what the station heard since, and receives what is owed."""
        for line in self.trace.lines[self.told:]:
            if line.startswith("in "):
                self.connection.send(bytes.fromhex(line.split(" ")[2]))
        self.told = len(self.trace.lines)
        owed = [line.split(" ")[3] for line in self.trace.answers]
        self.test.assertEqual([self.connection.receive().hex() for _ in owed], owed)
        self.trace.answers.clear()


@unittest.skipUnless(PROGRAM.exists(), "the program isn't built (./mme --prove)")
class GivenToPhones(unittest.TestCase):
    """What the program itself is given at its next start, and phones that needed it."""

    program = PROGRAM  # of the front

    def setUp(self):
        self.trace, self.station = PHONES.Trace(), PHONES.Station(0)
        self.phones = [PHONES.Phone(self.trace, slot, [PHONES.Vector.made("%d.%d" % (slot, place)) for place in range(2)])
                       for slot in range(2)]
        self.trace.provision(self.phones)

    def running(self, withheld):
        """A front that is provisioned without these lines, a station that is set up there, and its talk."""
        lines = self.trace.text().splitlines()
        running = Running(self, head="".join(line + "\n" for line in lines if line not in withheld), program=self.program)
        talk = Talk(self, self.trace, running)
        self.trace.set_up(self.station)
        return running, talk

    def lines_of(self, phone):
        """What is provisioned of a phone."""
        return [line for line in self.trace.text().splitlines() if line.split(" ")[1] == phone.imsi]

    def restarted(self, running, given):
        """The front that goes on after one, with these lines at the end of its file, and the station's talk with it."""
        self.assertEqual(running.stop()[0], 0)
        lines = self.trace.text().splitlines()
        head = [line for line in lines if line.startswith(("mme ", "sub ", "vec ")) and line not in given] + given
        again = Running(self, "--resume", head="\n".join(head) + "\n", program=self.program, folder=running.folder)
        self.assertIn(b"they stand in the head of", again.said())
        talk = Talk(self, self.trace, again)
        self.trace.set_up(self.station, connects=False)
        talk.settle()
        return again, talk

    def is_served(self, phone, number):
        """A phone comes for service, and stays connected."""
        phone.asks_for_service(self.station, number)
        phone.context_is_set_up()

    def check_end(self, running):
        """Both phones are registered, and the log plays."""
        for phone in self.phones:
            self.assertEqual(running.asks("show", phone.imsi), "state %s %s\n" % (phone.imsi, PHONES.CONNECTED))
        self.assertEqual(running.stop()[0], 0)
        played = subprocess.run([PROGRAM, "play", running.log], capture_output=True, timeout=60, check=False)
        self.assertEqual((played.returncode, played.stderr), (0, b""))

    def test_vectors(self):
        """A SIM whose vectors are spent attaches after it was given more, and another phone stays as it is."""
        spent, other = self.phones
        withheld = self.lines_of(spent)[-1:]
        running, talk = self.running(withheld)
        other.attaches(self.station, 2)
        spent.attaches(self.station, 1)
        spent.is_released()
        talk.settle()
        other.is_gone()
        running, talk = self.restarted(running, withheld)
        self.assertIn("%s %s vectors_left=1\n" % (spent.imsi, PHONES.IDLE), running.asks("phones"))
        spent.attaches(self.station, 9)
        self.is_served(other, 10)
        talk.settle()
        self.check_end(running)

    def test_a_phone_that_was_refused(self):
        """A phone that was refused as nobody's attaches after its subscriber was given, and one that is registered is served. With
        the longer head the refused request was challenged, by the first vector, which nobody heard of."""
        other, late = self.phones
        withheld = self.lines_of(late)
        running, talk = self.running(withheld)
        other.attaches(self.station, 1)
        self.is_nobodys(late)
        talk.settle()
        other.is_gone()
        running, talk = self.restarted(running, withheld)
        self.assertIn("%s DEREGISTERED IDLE INACTIVE vectors_left=1\n" % late.imsi, running.asks("phones"))
        late.place = late.associations = 1
        late.attaches(self.station, 3)
        self.is_served(other, 4)
        talk.settle()
        self.check_end(running)

    def is_nobodys(self, phone):
        """A phone asks to attach whose subscriber isn't known."""
        esm = LTE.pdn_connectivity_request(1, 1, False)
        request = LTE.attach_request(1, LTE.imsi_identity(phone.imsi), phone.capability, esm)
        self.trace.hear(self.station, LTE.initial_ue_message(self.trace.network, self.station, 2, request))
        stranger = (1 << 31) + 2
        self.trace.owe("x0.2", self.station, LTE.downlink_nas(stranger, 2, b"\x07\x44\x08"))
        self.trace.owe("x0.2", self.station, LTE.release_command(stranger, 2, LTE.NORMAL_RELEASE))


class Hanging(unittest.TestCase):
    def test_mme(self):
        """An MME that owes an answer too long ends the run with its own status."""
        running = Running(self, "--answer-seconds", "1")
        running.station().send(HANGS)
        status, told = running.ended()
        self.assertEqual(status, 76)
        self.assertIn("the MME hasn't answered for 1 s", told)

    def test_standard_error(self):
        """A reader that doesn't read keeps nobody waiting: 800 connections say more than a pipe holds."""
        running = Running(self)
        quiet = running.station()
        for _ in range(800):
            Connected(running.port).close()
        begun = time.monotonic()
        self.assertEqual(quiet.says(b"still"), b"still")
        self.assertLess(time.monotonic() - begun, 10)
        self.assertEqual(running.stop()[0], 0)


class Strangers(unittest.TestCase):
    def test_silent_connections(self):
        """They end where S1 SETUP doesn't come, so that a station finds room."""
        running = Running(self, "--setup-seconds", "1")
        silent = [Connected(running.port) for _ in range(128)]
        running.connections += silent
        for one in silent:
            self.assertTrue(one.has_ended())
        self.assertEqual(Connected(running.port).says(b"room"), b"room")
        running.until(lambda: b"S1 SETUP wasn't done within 1 s" in running.said())

    def test_set_up(self):
        """A station that is set up stays."""
        running = Running(self, "--setup-seconds", "1")
        station = running.station()
        response = bytes.fromhex("201100170000020069000b000000f11000008001000100574001ff")
        self.assertEqual(station.says(response), response)
        time.sleep(2.5)
        self.assertEqual(station.says(b"still"), b"still")

    def test_half_a_message(self):
        """One that isn't whole in time ends its connection."""
        running = Running(self)
        station = running.station()
        station.socket.sendall(b"\0\5hel")
        self.assertTrue(station.has_ended())
        running.until(lambda: b"a message wasn't whole within %d s" % limits.PATIENCE in running.said())

    def test_per_address(self):
        running = Running(self, "--per-address", "2")
        stations = [running.station(), running.station()]
        self.assertTrue(Connected(running.port).has_ended())
        stations[0].close()
        running.until(lambda: "lost 0" in running.events())
        self.assertEqual(running.station().says(b"room"), b"room")
        running.until(lambda: b"there are 2 connections of its address already" in running.said())

    def test_allowed(self):
        """Those of a list alone may come."""
        running = Running(self, "--allow", "192.0.2.0/24", "--allow", "127.0.0.9")
        self.assertTrue(Connected(running.port).has_ended())
        with socket.create_connection(("127.0.0.1", running.port), timeout=20, source_address=("127.0.0.9", 0)) as station:
            station.sendall(b"\0\2hi")
            self.assertEqual(station.recv(100), b"\0\2hi")
        running.until(lambda: b"its address isn't among those that may come" in running.said())


class ControlSocket(unittest.TestCase):
    def test_guests(self):
        """So many at a time; a further one is turned away, and one that has gone makes room."""
        running = Running(self)
        guests = []
        for _ in range(limits.MOST_ASKING):
            guests.append(self.enterContext(socket.socket(socket.AF_UNIX)))
            guests[-1].connect(str(running.control))
            guests[-1].sendall(b"show %s\n" % IMSI.encode())
            self.assertTrue(guests[-1].recv(100).startswith(b"state"))
        with socket.socket(socket.AF_UNIX) as further:
            further.connect(str(running.control))
            self.assertEqual(further.recv(100), b"")
        guests[0].close()
        running.until(lambda: running.asks("show", IMSI).startswith("state"))

    def test_anothers_socket(self):
        """A front that ends leaves a socket that another put in the place of its own."""
        running = Running(self)
        running.control.unlink()
        with socket.socket(socket.AF_UNIX) as other:
            other.bind(str(running.control))
            self.assertEqual(running.stop()[0], 0)
            self.assertTrue(running.control.exists())

    def test_told(self):
        """Stations, phones and counters."""
        running = Running(self)
        self.assertEqual(running.station().says(b"here"), b"here")
        self.assertRegex(running.asks("stations"),
                         r"^station=0 address=127\.0\.0\.1 port=\d+ set_up=False .*messages_in=1 messages_out=1")
        self.assertRegex(running.asks("phones"),
                         r"^%s DEREGISTERED IDLE INACTIVE vectors_left=0\nlog whole=True segments_share=[\d.]+\n$" % IMSI)
        self.assertIn("connections: 1\n", running.asks("counters"))
        self.assertIn('"connections": 1', running.asks("counters", "--json"))
        self.assertNotIn("show", running.log.read_text())


class Said(unittest.TestCase):
    def test_json(self):
        """Each line is an object with its time, its event and its text."""
        running = Running(self, "--log", "json")
        running.station().close()
        running.until(lambda: "lost 0" in running.events())
        _, told = running.stop()
        lines = [json.loads(line) for line in told.splitlines()]
        self.assertEqual([line["event"] for line in lines], ["ready", "connects", "lost"])
        self.assertEqual((lines[1]["station"], lines[1]["address"]), (0, "127.0.0.1"))
