#!/usr/bin/env python3
"""tools/front with the MME in its own process, by the shared object that SOIZKADUR_LIBRARY names: what stations and phones see is
what they are owed, and lives of phones leave the log that they leave with `mme play`. Closes with 'N passed, M failed'.

These are tests of tests/tools whose front has the library in the program's place.
"""
import contextlib
import itertools
import os
import pathlib
import re
import runpy
import shutil
import signal
import socket
import statistics
import subprocess
import sys
import tempfile
import threading
import time
import unittest
import unittest.mock

sys.dont_write_bytecode = True

TOP = pathlib.Path(__file__).resolve().parent.parent.parent
if __name__ == "__main__":
    sys.path[:1] = [str(TOP), str(TOP / "python")]
from bench import gives, kills, wire
from bench.etcds import MISSING, PROGRAM as ETCD, Members, free_port
from reference import lte, phones as PHONES
from tests.tools import fronted, test_front, test_front_etcd, test_front_keys, test_front_kills, test_front_log, test_front_power
from tests.tools import test_front_sctp, tools
from tests.tools.test_front_log import Talk, give, whole
from tools import runs
from tools.fronting import limits, playing, snapshots
from tools.fronting.segments import SNAPSHOT, numbered, older_segments

SETUP_REQUEST = bytes.fromhex("0011001f000003003b00080000f11000000010004000070000004000f1100089400140")
TIMES = re.compile(r"(?m)^(?:# time|# segment|# settled|# snapshot|tick) .*\n|(?<= port )\d+")
BUILT = fronted.PROGRAM.exists()
OFTEN, NEVER = ("--snapshot", "0.005,0.005"), ("--snapshot", "1440,4096")  # some three a second; at an orderly end alone
NOT_BUILT = "the program isn't built (./mme --prove)"
# Of gives and snapshots: seconds for one line and for all that an MME takes, and for messages of a station meanwhile; how many times
# as much a machine with other work may take.
ONE, ALL, TURN, ROOM = 0.01, 10, 0.05, 4
LONG = 100000  # lines of a log
MOMENTS = 100 if os.environ.get("CI") == "true" else 10  # at which a front is killed in a storm
OF_THE_RUN = re.compile("seconds|answer_seconds_mean|memory_octets|mme_memory_octets|log_octets")
PROVISIONED_TWICE = fronted.HEAD + fronted.HEAD.splitlines()[1] + "\n"


class Round(test_front.Round):
    """Ten phones at two stations, beside one that floods."""
    program = fronted.LIBRARY


def further(running, end=""):
    """The lines of provisioning that were given, as a series of the log has them, each with the line before it that is an event; what
    a kill left of a line is none."""
    found, before = [], None
    for line in whole(running, end).rpartition("\n")[0].splitlines():
        if line.startswith(runs.FURTHER):
            found.append((before, line.removeprefix(runs.FURTHER)))
        elif not line.startswith(("#", "tick")):
            before = line
    return found


def filled(*words):
    """What `fill` prints, with nothing on standard error."""
    done = tools.ran("front", "fill", *words)
    assert (done.returncode, done.stderr) == (0, b""), done
    return done.stdout.decode()


class GivenToPhones(test_front_log.GivenToPhones):
    """Subscribers and vectors that come while it runs."""
    program = fronted.LIBRARY

    def head(self, withheld=(), more=()):
        """The subscribers' file without some lines, and with others at its end."""
        lines = [line for line in self.trace.text().splitlines() if line.startswith(("mme ", "sub ", "vec "))]
        return "".join(line + "\n" for line in [*(line for line in lines if line not in withheld), *more])

    def goes_on(self, running, *words, head, program=fronted.LIBRARY):
        """The front that goes on after one."""
        return fronted.Running(self, "--resume", *words, head=head, program=program, folder=running.folder)

    def test_vectors(self):
        """A SIM whose vectors are spent attaches after it was given more, and another phone stays as it is."""
        spent, other = self.phones
        withheld = self.lines_of(spent)[-1:]
        running, talk = self.running(withheld)
        other.attaches(self.station, 2)
        spent.attaches(self.station, 1)
        spent.is_released()
        talk.settle()
        self.assertEqual(give(running, withheld[0] + "\n"), "given 0 subscribers, 1 vector\n")
        self.assertIn("%s %s vectors_left=1\n" % (spent.imsi, PHONES.IDLE), running.asks("phones"))
        spent.attaches(self.station, 9)
        talk.settle()
        self.check_end(running)
        self.assertNotIn("cancel", running.log.read_text())

    def test_a_phone_that_was_refused(self):
        """A phone that was refused as nobody's attaches once its subscriber was given, by its first vector; nobody hears of it."""
        other, late = self.phones
        withheld = self.lines_of(late)
        running, talk = self.running(withheld)
        other.attaches(self.station, 1)
        self.is_nobodys(late)
        talk.settle()
        self.assertEqual(give(running, "\n".join(withheld) + "\n"), "given 1 subscriber, 2 vectors\n")
        self.assertIn("%s DEREGISTERED IDLE INACTIVE vectors_left=2\n" % late.imsi, running.asks("phones"))
        last = [line for line in self.trace.lines if line.startswith("in ")][-1]
        late.attaches(self.station, 3)
        talk.settle()
        self.check_end(running)
        for end in ("", ".counts"):
            self.assertEqual(further(running, end), [(last, line) for line in withheld])
            self.assertNotIn("cancel", whole(running, end))
        (running.folder / "subscribers").write_text(self.head(withheld, withheld))
        told = tools.ran("front", "fill", "--head", running.subscribers, running.log).stderr.decode()
        self.assertRegex(told, r"^front: line \d+, as it is printed here, is answered otherwise than it was, to .*\n$")

    def test_killed(self):
        """Killed right after it answered, a front goes on with what was given, and without these lines in its file it doesn't."""
        spent, late = self.phones
        withheld = self.lines_of(late) + self.lines_of(spent)[-1:]
        running, talk = self.running(withheld)
        spent.attaches(self.station, 1)
        talk.settle()
        for lines in (withheld[:1], withheld[1:]):
            self.assertRegex(give(running, "\n".join(lines) + "\n"), "^given ")
        running.process.kill()
        running.ended()
        status, told = self.goes_on(running, head=self.head(withheld)).ended()
        self.assertEqual(status, 2)
        self.assertIn("subscribers: lines that were given have to stand at its end", told)
        again = self.goes_on(running, head=self.head(withheld, withheld))
        self.assertIn(b"goes on: 1 station was lost", again.told)
        self.assertEqual([phone.rpartition("=")[2] for phone in again.asks("phones").splitlines()[:2]], ["1", "2"])
        spent.is_gone()
        talk = Talk(self, self.trace, again)
        self.trace.set_up(self.station, connects=False)
        for phone, number in ((late, 7), (spent, 8)):
            phone.attaches(self.station, number)
        talk.settle()
        self.check_end(again)

    def test_at_the_start(self):
        """What the file has more than the log is given once the front serves, and only once."""
        first, late = self.phones
        withheld = self.lines_of(late)
        running, talk = self.running(withheld)
        first.attaches(self.station, 1)
        talk.settle()
        self.assertEqual(running.stop()[0], 0)
        for times in range(2):
            running = self.goes_on(running, head=self.head(withheld, withheld))
            if not times:
                running.until(lambda: b"given 1 subscriber, 2 vectors" in running.said())
            self.assertEqual(running.stop()[0], 0)
        self.assertEqual([line for _, line in further(running)], withheld)

    def test_by_the_program(self):
        """The program doesn't go on with such a log, and says what helps; nothing changes. With the log that has all in its head it
        does."""
        first, late = self.phones
        withheld = self.lines_of(late)
        running, talk = self.running(withheld)
        first.attaches(self.station, 1)
        self.assertEqual(give(running, "\n".join(withheld) + "\n"), "given 1 subscriber, 2 vectors\n")
        late.attaches(self.station, 2)
        talk.settle()
        self.assertEqual(running.stop()[0], 0)
        before, head = whole(running), self.head(withheld, withheld)
        status, told = self.goes_on(running, head=head, program=fronted.PROGRAM).ended()
        self.assertEqual(status, 2)
        self.assertIn("which `mme play` skips: go on with --library, or with what `mme-front fill --head` makes of it", told)
        self.assertEqual(whole(running), before)
        text = filled("--head", running.subscribers, running.log)
        shutil.copy(running.folder / "log.used", running.folder / "kept")
        for path in running.folder.glob("log*"):
            path.unlink()
        running.log.write_text(text)
        (running.folder / "log.counts").write_text(text[:text.index("\n", text.index("# segment 1,")) + 1])
        shutil.copy(running.folder / "kept", running.folder / "log.used")
        again = self.goes_on(running, head=head, program=fronted.PROGRAM)
        self.assertIn(b"goes on", again.told)
        for phone in self.phones:
            self.assertEqual(again.asks("show", phone.imsi), "state %s %s\n" % (phone.imsi, PHONES.IDLE))

    def test_killed_between(self):
        """Killed in the midst of many lines, a front has the first of them in its log, and gives the others at the next start; what
        was asked for meanwhile wasn't given."""
        running, _ = self.running(())
        lines = ["sub %015d 0b%06x 0a000064 %08x" % (int(fronted.IMSI) + place, place, place) for place in range(10, 20010)]
        (running.folder / "given").write_text("\n".join(lines) + "\n")
        with subprocess.Popen([tools.TOP / "tools" / "front", "ask", running.control, "give", running.folder / "given"],
                              stdout=subprocess.PIPE, stderr=subprocess.DEVNULL) as asking:
            running.until(lambda: lines[1000] in running.log.read_text())
            self.assertEqual(running.asks("give", running.subscribers), "fault something is being given already\n")
            running.process.kill()
            running.ended()
            self.assertEqual(asking.stdout.read(), b"")
        count = len(further(running))
        self.assertEqual([line for _, line in further(running)], lines[:count])
        self.assertLess(count, len(lines))
        again = self.goes_on(running, head=self.head((), lines))
        again.until(lambda: b"given %d subscribers, 0 vectors" % (len(lines) - count) in again.said())
        imsi = lines[-1].split(" ")[1]
        self.assertEqual(again.asks("show", imsi), "state %s DEREGISTERED IDLE INACTIVE\n" % imsi)
        self.assertEqual([line for _, line in further(again)], lines)
        self.assertEqual(again.stop()[0], 0)

    def lacks_a_vector(self, phone, number):
        """A phone that has left asks to attach, and has no vector."""
        esm = lte.pdn_connectivity_request(1, 1, False)
        phone.sends_first(self.station, number, lte.attach_request(1, lte.imsi_identity(phone.imsi), phone.capability, esm))
        phone.owed_nas(b"\x07\x44\x11")
        phone.owed(lte.release_command(phone.m, phone.b, lte.NORMAL_RELEASE))
        phone.goes()

    def test_reasons(self):
        """The page says why a phone wasn't let in before it was given a vector, and goes on to tell after that."""
        phone, port = self.phones[0], free_port()
        withheld = self.lines_of(phone)[-1:]
        running = fronted.Running(self, "--page", "127.0.0.1:%d" % port, head=self.head(withheld), program=fronted.LIBRARY)
        talk = Talk(self, self.trace, running)
        self.trace.set_up(self.station)
        page = lambda: " ".join(re.sub("<[^>]*>", " ", test_front_etcd.Fronts.get(port, "/?imsi=" + phone.imsi).decode()).split())
        for count in (1, 2):
            phone.attaches(self.station, 2 * count)
            phone.detaches()
            self.lacks_a_vector(phone, 2 * count + 1)
            talk.settle()
            running.until(lambda: "no vector is left: the phone was given %d," % count in page())
            if count == 1:
                self.assertEqual(give(running, withheld[0] + "\n"), "given 0 subscribers, 1 vector\n")
        self.assertEqual(running.stop()[0], 0)

    def test_followed(self):
        """Who follows the tunnels learns of a subscriber that is given."""
        running, _ = self.running(())
        line = "sub 001010000000009 0a000009 0a000064 00000009\n"
        with socket.socket(socket.AF_UNIX) as following:
            following.connect(str(running.control))
            following.sendall(b"bearers\n")
            told = following.makefile()
            while told.readline() != "now\n":
                pass
            self.assertEqual(give(running, line), "given 1 subscriber, 0 vectors\n")
            self.assertEqual(told.readline(), line)
        self.assertIn("given: 1\n", running.asks("counters"))
        self.assertEqual(running.stop()[0], 0)

    def test_refused(self):
        """A file of which one line can't be taken changes nothing."""
        running, talk = self.running(())
        first = self.phones[0]
        first.attaches(self.station, 1)
        talk.settle()
        before = fronted.events_of(whole(running))
        sub = "sub 001010000000009 0a000009 0a000064 00000009\n"
        for text, told in ((sub + "up 0\n", "fault line 2: no line begins with 'up'\n"),
                           (sub + sub.replace("000009 0a000009", "00000a 0a000001").replace("a 0", "8 0"),
                            "fault line 2: another subscriber has the address 0a000001\n"),
                           (sub + first.vectors[0].words(first.imsi) + "\n", "fault line 2: it stands already\n"),
                           (sub + "".join(PHONES.Vector.made("more %d" % place).words(first.imsi) + "\n" for place in range(63)),
                            "fault line 64: %s would have 65 vectors that aren't spent or answered yet, and has 64 at most\n"
                            % first.imsi)):
            with self.subTest(told=told):
                self.assertEqual(give(running, text), told)
        self.assertEqual((fronted.events_of(whole(running)), further(running)), (before, []))
        more = "".join(PHONES.Vector.made("more %d" % place).words(first.imsi) + "\n" for place in range(62))
        self.assertEqual(give(running, more), "given 0 subscribers, 62 vectors\n")
        self.assertEqual(running.stop()[0], 0)

    def test_while_challenged(self):
        """A phone that hasn't answered its challenge has no room for another vector in that one's place."""
        running, talk = self.running(())
        phone = self.phones[0]
        lines = [PHONES.Vector.made("more %d" % place).words(phone.imsi) + "\n" for place in range(63)]
        self.assertEqual(give(running, "".join(lines[:62])), "given 0 subscribers, 62 vectors\n")
        phone.asks_to_attach(self.station, 1)
        talk.settle()
        self.assertEqual(
            give(running, lines[62]),
            "fault line 1: %s would have 65 vectors that aren't spent or answered yet, and has 64 at most\n" % phone.imsi)
        self.assertEqual([line for _, line in further(running)], [line.rstrip("\n") for line in lines[:62]])
        self.assertEqual(running.stop()[0], 0)

    def test_the_mark(self):
        """Who has the IMSI that marks were for is one like others, also where the log is played again."""
        withheld, imsi = self.lines_of(self.phones[1]), "999999999999999"
        running, talk = self.running(withheld)
        self.phones[0].attaches(self.station, 1)
        talk.settle()
        lines = ["sub %s 0a0000ff 0a000064 000000ff" % imsi, "sub 999999999999998 0a0000fe 0a000064 000000fe"]
        for line in lines:
            self.assertEqual(give(running, line + "\n"), "given 1 subscriber, 0 vectors\n")
        self.assertEqual(running.asks("data", imsi), "taken\n")
        self.assertEqual(running.asks("show", imsi), "state %s DEREGISTERED IDLE INACTIVE\n" % imsi)
        running.process.kill()
        running.ended()
        again = self.goes_on(running, head=self.head(withheld, lines))
        self.assertEqual(again.asks("show", imsi), "state %s DEREGISTERED IDLE INACTIVE\n" % imsi)
        self.assertEqual(again.asks("show", self.phones[0].imsi), "state %s %s\n" % (self.phones[0].imsi, PHONES.IDLE))
        self.assertEqual(again.stop()[0], 0)


class Leading(test_front_etcd.Stored):
    """A front with its log in a store, and phones."""

    front = (test_front_etcd.CHANGED, "patient")

    def __init__(self, test, members, *words, **named):
        super().__init__(test, members, "--second", "1", *words, front=self.front, **named)

    def station(self):
        made = fronted.Connected(self.port)
        self.connections.append(made)
        return made


class Following(Leading):
    """One that stands by."""

    READY = test_front_etcd.StandingBy.READY

    def __init__(self, test, members, *words, **named):
        super().__init__(test, members, "--standby", *words, **named)


@unittest.skipUnless(ETCD, MISSING)
class GivenInAStore(unittest.TestCase):
    """What is given where the log is in etcd, of three members."""

    setUp, lines_of, head = test_front_log.GivenToPhones.setUp, test_front_log.GivenToPhones.lines_of, GivenToPhones.head

    def begin(self, running, connects):
        """The station is set up at a front; its talk."""
        talk = Talk(self, self.trace, running)
        self.trace.set_up(self.station, connects=connects)
        talk.settle()
        return talk

    def test_standby(self):
        """A standby plays what is given, and leads with it once the leader is killed; so does one that begins later, whose file has
        these lines. One with other lines doesn't, nor a program."""
        first, late = self.phones
        members, withheld = Members(self.enterContext(contextlib.ExitStack())), self.lines_of(late)
        leader, standby = (kind(self, members, head=self.head(withheld), program=fronted.LIBRARY) for kind in (Leading, Following))
        talk = self.begin(leader, True)
        first.attaches(self.station, 1)
        talk.settle()
        self.assertEqual(give(leader, "\n".join(withheld) + "\n"), "given 1 subscriber, 2 vectors\n")
        late.attaches(self.station, 2)
        talk.settle()
        self.assertEqual(members.values("given"), {})
        standby.until(lambda: "%s %s vectors_left=1" % (late.imsi, PHONES.CONNECTED) in standby.asks("phones"))
        self.check_others(members, withheld)
        leader.process.kill()
        standby.leads()
        for phone in self.phones:
            phone.is_gone()
            self.assertEqual(standby.asks("show", phone.imsi), "state %s %s\n" % (phone.imsi, PHONES.IDLE))
        talk = self.begin(standby, False)
        late.attaches(self.station, 3)
        talk.settle()
        self.check_longer(members, standby, withheld)

    def check_others(self, members, withheld):
        """Fronts that can't stand by, and what they say."""
        other = withheld[0].replace("0a000002", "0a000003")
        for head, program, told in ((self.head(withheld, [other]), fronted.LIBRARY, "than were given"),
                                    (self.head(withheld), None, "`mme play` skips: go on with --library")):
            status, text = Following(self, members, head=head, program=program).ended()
            self.assertEqual((status, told in text), (2, True), text)

    def check_longer(self, members, standby, withheld):
        """The front begins again, with what was given in its file and one line more, which is given then."""
        more = "sub 001010000000003 0a000003 0a000064 00000003"
        self.assertEqual(standby.stop()[0], 0)
        again = Leading(self, members, head=self.head(withheld, [*withheld, more]), program=fronted.LIBRARY)
        again.until(lambda: "001010000000003" in again.asks("phones"))
        self.assertEqual(again.asks("show", self.phones[1].imsi), "state %s %s\n" % (self.phones[1].imsi, PHONES.IDLE))
        again.process.kill()
        third = Leading(self, members, head=self.head(withheld, withheld), program=fronted.LIBRARY)
        self.assertIn("001010000000003", third.asks("phones"))
        given = [line for turn in members.turns() for line in turn.decode().splitlines() if line.startswith(runs.FURTHER)]
        self.assertEqual(given, [runs.FURTHER + line for line in [*withheld, more]])


def delay_of(running, station):
    """The seconds until a station has its answer, and for how many of them the front's loop was busy."""
    begun, busy = time.monotonic(), running.busy()
    station.says(SETUP_REQUEST)
    return time.monotonic() - begun, running.busy() - busy


class Cost(unittest.TestCase):
    """What a give costs."""

    def long_log(self, folder):
        """A log of many lines, and nothing of it settled."""
        begun = fronted.HEAD + "# segment 1, begun now\n"
        (folder / "log.counts").write_text(begun)
        (folder / "log").write_text(begun + "up 0\nin 0 %s\n" % SETUP_REQUEST.hex() + "data %s\n" % fronted.IMSI * LONG)

    def test_one_line(self):
        """A line costs what it costs, however long the log is."""
        folder = pathlib.Path(self.enterContext(tempfile.TemporaryDirectory()))
        self.long_log(folder)
        running, seconds = fronted.Running(self, "--resume", program=fronted.LIBRARY, folder=folder), []
        with socket.socket(socket.AF_UNIX) as asking:
            asking.connect(str(running.control))
            answers = asking.makefile("rb")
            for place in range(30):
                line = PHONES.Vector.made("one %d" % place).words(fronted.IMSI).encode() + b"\n"
                begun = time.monotonic()
                asking.sendall(b"give %d\n" % len(line) + line)
                self.assertEqual(answers.readline(), b"given 0 subscribers, 1 vector\n")
                seconds.append(time.monotonic() - begun)
        self.assertLess(min(seconds), ONE)
        self.assertLess(statistics.median(seconds), ROOM * ONE)
        self.assertEqual((running.stop()[0], len(further(running))), (0, 30))

    def test_snapshots(self):
        """All that an MME takes, saved several times while a station is served."""
        folder = pathlib.Path(self.enterContext(tempfile.TemporaryDirectory()))
        running = fronted.Running(self, *OFTEN, head=fronted.HEAD + "".join(self.all_lines()), program=fronted.LIBRARY, folder=folder)
        station, delays = running.station(), []
        snapshots_made = lambda: max(numbered(str(running.log), SNAPSHOT), default=0)
        end = time.monotonic() + fronted.PATIENCE
        while snapshots_made() < 3 and time.monotonic() < end:
            delays.append(delay_of(running, station))
            time.sleep(0.005)
        self.assertGreaterEqual(snapshots_made(), 3)
        self.check_delays(delays)
        running.process.kill()

    def check_delays(self, delays):
        """A message waits for one turn, and the loop is busy with no turn for long."""
        seconds, busy = zip(*delays)
        self.assertLess(statistics.median(seconds), TURN)
        self.assertLess(max(busy), ROOM * TURN)

    def all_lines(self):
        """All subscribers that there can be beside the first, and eight vectors of each."""
        for slot in range(limits.MOST_SUBSCRIBERS):
            imsi = "%015d" % (int(fronted.IMSI) + slot)
            if slot:
                yield "sub %s 0b%06x 0a000064 %08x\n" % (imsi, slot, slot)
            for place in range(8):
                yield "vec %s %s%024x %032x %016x %064x\n" % (imsi, "a%07x" % slot, place, slot, slot * 8 + place, slot)

    def test_all(self):
        """All that an MME takes, while a station is served."""
        running, delays, is_over = fronted.Running(self, program=fronted.LIBRARY), [], threading.Event()
        (running.folder / "given").write_text("".join(self.all_lines()))
        station = running.station()

        def speak():
            while not is_over.wait(0.005):
                delays.append(delay_of(running, station))

        speaking, begun = threading.Thread(target=speak), time.monotonic()
        speaking.start()
        try:
            told = subprocess.run([tools.TOP / "tools" / "front", "ask", running.control, "give", running.folder / "given"],
                                  capture_output=True, text=True, check=False, timeout=ROOM * ALL).stdout
        finally:
            is_over.set()
            speaking.join()
        seconds = time.monotonic() - begun
        self.assertEqual(told, "given 32767 subscribers, 262144 vectors\n")
        self.assertLess(seconds, ROOM * ALL)
        self.check_delays(delays)
        self.assertEqual((running.stop()[0], len(further(running, ".counts"))), (0, 294911))


class Snapshots(unittest.TestCase):
    """Phones at a front that goes on after a snapshot: what they are sent is what they are owed, octet by octet."""

    setUp, lines_of, head = test_front_log.GivenToPhones.setUp, test_front_log.GivenToPhones.lines_of, GivenToPhones.head

    def begin(self, *words, folder=None, withheld=(), more=()):
        """A front, and the talk of the station, which is set up there."""
        running = fronted.Running(self, *(["--resume"] if folder else []), *words, head=self.head(withheld, more),
                                  program=fronted.LIBRARY, folder=folder)
        talk = Talk(self, self.trace, running)
        self.trace.set_up(self.station, connects=folder is None)
        talk.settle()
        return running, talk

    def saved(self, running):
        """The numbers of the snapshots that stand."""
        return sorted(numbered(str(running.log), SNAPSHOT))

    def is_served(self, phone, number, talk):
        """A phone comes for service, and is released."""
        phone.asks_for_service(self.station, number)
        phone.context_is_set_up()
        phone.is_released()
        talk.settle()

    def test_lives(self):
        """A phone that is registered, and one that attached and was given a vector since the snapshot, after an orderly end and
        after a kill."""
        first, second = self.phones
        withheld = self.lines_of(second)[-1:]
        running, talk = self.begin(*NEVER, withheld=withheld)
        first.attaches(self.station, 1)
        talk.settle()
        self.assertEqual(running.stop()[0], 0)
        first.is_gone()
        for path in running.folder.glob("log.counts.segment.*"):
            path.unlink()
        running, talk = self.begin(*NEVER, folder=running.folder, withheld=withheld)
        self.assertNotIn(b"isn't taken", running.told)
        self.is_served(first, 2, talk)
        second.attaches(self.station, 3)
        second.is_released()
        talk.settle()
        self.assertEqual(give(running, withheld[0] + "\n"), "given 0 subscribers, 1 vector\n")
        running.process.kill()
        running.ended()
        self.assertEqual(self.saved(running), [1])
        running, talk = self.begin(*NEVER, folder=running.folder, withheld=withheld, more=withheld)
        self.assertIn("%s %s vectors_left=1\n" % (second.imsi, PHONES.IDLE), running.asks("phones"))
        self.is_served(first, 4, talk)
        self.is_served(second, 5, talk)
        second.attaches(self.station, 6)
        talk.settle()
        self.assertEqual((running.stop()[0], self.saved(running)), (0, [1, 2]))

    def test_without_the_beginning(self):
        """Where the log has no beginning any more, phones are served after the snapshot all the same."""
        first, second = self.phones
        running, talk = self.begin(*OFTEN, "--segments", "10000")
        for phone, number in ((first, 1), (second, 2)):
            phone.attaches(self.station, number)
            phone.is_released()
        talk.settle()
        for number in range(3, 40):
            self.is_served(first, number, talk)
            running.process.send_signal(signal.SIGHUP)
            running.until(lambda number=number: len(older_segments(str(running.log) + ".counts")) >= number - 2)
        numbers = itertools.count(40)
        running.until(lambda: len(self.saved(running)) == 2 or self.is_served(first, next(numbers), talk))
        running.process.kill()
        running.ended()
        counts = older_segments(str(running.log) + ".counts")
        needed = min(snapshots.read(path).about["counts"][0] for path in numbered(str(running.log), SNAPSHOT).values())
        self.assertGreater(needed, 1)
        for number in range(1, needed):
            pathlib.Path(counts[number]).unlink()
        running, talk = self.begin(*NEVER, folder=running.folder)
        self.is_served(second, next(numbers), talk)
        self.is_served(first, next(numbers), talk)
        self.assertEqual(running.stop()[0], 0)


class InStore(test_front_etcd.Stored):
    """A front whose log is in a store; it leads."""

    def __init__(self, test, members, *words, **named):
        super().__init__(test, members, "--second", "1", *words, front=(test_front_etcd.CHANGED, "patient", "restless"),
                         program=fronted.LIBRARY, **named)

    def station(self):
        """One more connection, once it is a station."""
        before = len(self.asks("stations").splitlines())
        made = fronted.Connected(self.port)
        self.connections.append(made)
        self.until(lambda: len(self.asks("stations").splitlines()) > before)
        return made


class Beside(InStore):
    """One that stands by."""

    READY = rb"follows the log in the store"

    def __init__(self, test, members, *words, **named):
        super().__init__(test, members, "--standby", *words, **named)


@unittest.skipUnless(ETCD, MISSING)
class StoredSnapshots(unittest.TestCase):
    """Phones at fronts that begin at a snapshot in the store: what they are sent is what they are owed, octet by octet."""

    lines_of, head, is_served = test_front_log.GivenToPhones.lines_of, GivenToPhones.head, Snapshots.is_served
    NONE = "--snapshot", "no"

    @classmethod
    def setUpClass(cls):
        cls.members = Members(cls.enterClassContext(contextlib.ExitStack()), count=1)

    def setUp(self):
        self.members.forget()
        test_front_log.GivenToPhones.setUp(self)
        self.numbers = itertools.count(1)

    def talk(self, running, connects=False):
        """The station's, once it is set up there."""
        talk = Talk(self, self.trace, running)
        self.trace.set_up(self.station, connects=connects)
        talk.settle()
        return talk

    def first_turn(self):
        return min(self.members.values("turn"))

    def serve(self, talk, number):
        """Phones are served in turn until the turns up to this one are gone."""
        turn = itertools.cycle(self.phones)
        end = time.monotonic() + fronted.PATIENCE
        while self.first_turn() <= number:
            self.assertLess(time.monotonic(), end)
            self.is_served(next(turn), next(self.numbers), talk)

    def attach(self, talk):
        for phone in self.phones:
            phone.attaches(self.station, next(self.numbers))
            phone.is_released()
        talk.settle()

    def check_leads(self, leader, standby):
        """Killed, the leader is followed by one that began at a snapshot: each phone is served by its next count, and attaches."""
        leader.process.kill()
        standby.leads()
        self.assertIn(b"begins at the snapshot after turn", standby.told)
        talk = self.talk(standby)
        for phone in self.phones * 2:
            self.is_served(phone, next(self.numbers), talk)
        return talk

    def test_from_nothing(self):
        """One that begins beside a leader, once the first turns are gone; and that one again, killed, by itself."""
        leader = InStore(self, self.members, *self.NONE, head=self.head())
        maker = Beside(self, self.members, *OFTEN, head=self.head())
        talk = self.talk(leader, connects=True)
        self.attach(talk)
        self.serve(talk, 10)
        self.assertEqual(maker.stop()[0], 0)
        standby = Beside(self, self.members, *OFTEN, head=self.head())
        for phone in self.phones:
            self.is_served(phone, next(self.numbers), talk)
        standby.follows_all()
        talk = self.check_leads(leader, standby)
        self.serve(talk, max(self.members.values("turn")))
        alone = lambda: InStore(self, self.members, *OFTEN, head=self.head(), folder=standby.folder)
        standby.process.kill()
        standby.ended()
        again = alone()
        self.assertIn(b"begins at the snapshot after turn", again.told)
        talk = self.talk(again)
        for phone in self.phones:
            self.is_served(phone, next(self.numbers), talk)
            phone.attaches(self.station, next(self.numbers))
        talk.settle()
        self.assertEqual(again.stop()[0], 0)

    def test_paused(self):
        """One that was paused while its turns went."""
        leader = InStore(self, self.members, *self.NONE, head=self.head())
        maker = Beside(self, self.members, *OFTEN, head=self.head())
        sleeper, talk = Beside(self, self.members, *self.NONE, head=self.head()), self.talk(leader, connects=True)
        self.attach(talk)
        sleeper.follows_all()
        sleeper.process.send_signal(signal.SIGSTOP)
        self.serve(talk, max(self.members.values("turn")))
        self.assertEqual(maker.stop()[0], 0)
        sleeper.process.send_signal(signal.SIGCONT)
        sleeper.until(lambda: b"begins at the snapshot after turn" in sleeper.said())
        self.is_served(self.phones[0], next(self.numbers), talk)
        sleeper.follows_all()
        self.check_leads(leader, sleeper)

    def test_given(self):
        """What was given before the snapshot lets a phone in at a front whose file lacks it."""
        spent, withheld = self.phones[0], self.lines_of(self.phones[0])[-1:]
        head = self.head(withheld)
        leader, maker = InStore(self, self.members, *self.NONE, head=head), Beside(self, self.members, *OFTEN, head=head)
        talk = self.talk(leader, connects=True)
        self.attach(talk)
        self.assertEqual(give(leader, withheld[0] + "\n"), "given 0 subscribers, 1 vector\n")
        self.serve(talk, max(self.members.values("turn")))
        self.assertEqual(maker.stop()[0], 0)
        standby = Beside(self, self.members, *self.NONE, head=head)
        standby.follows_all()
        talk = self.check_leads(leader, standby)
        spent.attaches(self.station, next(self.numbers))
        talk.settle()
        again = self.lines_of(spent)[1]
        again = again[:-1] + ("1" if again.endswith("0") else "0")  # with another key
        self.assertIn("its vector was used already", give(standby, again + "\n"))
        self.assertIn("vectors_left=0", standby.asks("phones"))


class PlayedLogs(unittest.TestCase):
    """`front play`: what phones were sent, and what `mme play` prints."""

    setUp, lines_of, head = test_front_log.GivenToPhones.setUp, test_front_log.GivenToPhones.lines_of, GivenToPhones.head
    begin = Snapshots.begin

    def played(self, *words):
        """What it prints, with nothing on standard error."""
        done = tools.ran("front", "play", *words)
        self.assertEqual((done.returncode, done.stderr), (0, b""))
        return done.stdout.decode().splitlines()

    def test_rows(self):
        """Each row is answered as it is by the program, and ends so."""
        for path in sorted((TOP / "tests" / "rows").glob("*.trace")):
            with self.subTest(row=path.stem):
                printed = []
                with unittest.mock.patch.object(playing, "written", printed.append):
                    status, told = fronted.said(["play", path])
                owed = [path.with_suffix(end) for end in (".answers", ".errors", ".status")]
                owed = [one.read_text() if one.exists() else "" for one in owed]
                self.assertEqual((b"".join(printed).decode(), told, status), (*owed[:2], int(owed[2] or 0)))

    def test_lives(self):
        """Lives over three runs of a front, with a log that keeps keys and with one that doesn't."""
        for words in ((), test_front_keys.NO_KEYS):
            with self.subTest(words=words):
                lives = test_front_keys.Lives(self, *words, program=fronted.LIBRARY)
                running = lives.live()
                printed = self.played(*(["--vectors", running.subscribers] if words else []), running.log)
                self.assertEqual([line for line in printed if line.startswith("out ")], lives.owed)

    def test_more_than_a_head_takes(self):
        """A phone that was given 70 vectors, one after the other, over two runs; all of it, and what came after the snapshot."""
        phone, owed, place = self.phones[0], [], 0
        running, talk = self.begin(*NEVER, withheld=self.lines_of(phone)[1:])
        phone.vectors.clear()
        more = []
        for count in (35, 70):
            while len(more) < count:
                vector = PHONES.Vector.made("more %d" % len(more))
                phone.vectors.append(vector)
                more.append(vector.words(phone.imsi))
                self.assertEqual(give(running, more[-1] + "\n"), "given 0 subscribers, 1 vector\n")
                phone.attaches(self.station, len(more))
                phone.is_released()
                owed += self.trace.answers
                talk.settle()
            self.assertEqual(running.stop()[0], 0)
            if count == 35:
                place = len(owed)
                running, talk = self.begin(*NEVER, folder=running.folder, withheld=self.lines_of(phone)[1:], more=more)
        self.assertEqual([line for line in self.played(running.log) if line.startswith("out s")], owed)
        done = tools.ran("front", "play", "--from", "1", running.log)
        self.assertEqual(done.returncode, 0)
        self.assertEqual([line for line in done.stdout.decode().splitlines() if line.startswith("out s")], owed[place:])
        self.assertEqual(tools.ran("front", "fill", "--head", running.subscribers, running.log).returncode, 2)


class Storms(test_front_kills.Storms):
    """The front killed again and again under phones."""
    program = fronted.LIBRARY

    def test_snapshots(self):
        """Killed at random moments of attaches, gives and snapshots, a front goes on after the newest: nothing is used twice, and
        who was registered still is, and is served."""
        violations, counted, said = test_front_kills.storm(
            self.program, "--runs", str(MOMENTS), "--gives", "--ends", "kill", "--", *OFTEN)
        self.assertEqual(violations, [], said)
        self.assertEqual([name for name in (*test_front_kills.DONE, "vectors given") if not counted[name]], [], said)
        self.assertEqual(counted["beginnings that went on"], MOMENTS, said)
        self.assertGreater(counted["snapshots"], 1, said)

    def test_source(self):
        """The same where a source supplies the vectors, and some are given beside."""
        violations, counted, said = test_front_kills.storm(
            self.program, "--runs", "10", "--gives", "--source", "--ends", "kill", "kill", "kill", "clean", "--", *OFTEN)
        self.assertEqual(violations, [], said)
        self.assertEqual([name for name in (*test_front_kills.DONE, "vectors given") if not counted[name]], [], said)
        self.assertEqual(counted["beginnings that went on"], 10, said)
        self.assertGreater(counted["snapshots"], 1, said)
        self.assertGreater(counted["requests to the source"], 10, said)


class PowerCuts(test_front_power.PowerCuts):
    """A front that makes snapshots, and power cuts."""
    program, words = fronted.LIBRARY, OFTEN


class StormBySctp(test_front_sctp.Sctp):
    """The same by the SCTP of a kernel."""
    cases, variables = ("StormOfLibrary",), ("SOIZKADUR_LIBRARY",)


class GivenInStorms(unittest.TestCase):
    """The front killed again and again while it is given phones and their vectors (bench/gives.py)."""

    def test_ends(self):
        """Each line stands in its log once, in the file's order; nothing is used twice, and who was registered still is."""
        given, told = kills.parser(gives.__doc__, gives.Storm).parse_args(
            [*test_front_kills.SHORT, "--runs", "4", "--ends", "kill", "clean", "mme", "disk"]), []
        given.mme = wire.LIBRARY
        blown = gives.Storm(given, pathlib.Path(self.enterContext(tempfile.TemporaryDirectory())), told.append)
        blown.blow()
        said = "\n".join(told)
        self.assertEqual(blown.watch.violations, [], said)
        self.assertEqual(blown.counted["beginnings that went on"], 4, said)
        self.assertGreater(blown.counted[gives.ANSWERED], 0, said)


class Same(unittest.TestCase):
    """What is the same with the library as with the program."""

    def both(self, *words, **named):
        return [fronted.Running(self, *words, program=program, **named) for program in (fronted.PROGRAM, fronted.LIBRARY)]

    @unittest.skipUnless(BUILT, NOT_BUILT)
    def test_lives(self):
        """The log of three runs, one killed and each after the one before, and what counts of it; but for times and ports, and for
        what was given, which the library's log has where it was, and with `fill --head` in its head."""
        logs = []
        for program in (fronted.PROGRAM, fronted.LIBRARY):
            running = test_front_keys.Lives(self, program=program).live()
            logs.append([self.bare(filled("--head", running.subscribers, str(running.log) + end)) for end in ("", ".counts")])
            self.assertEqual(len(further(running)), 2 if program is fronted.LIBRARY else 0)
        self.assertEqual(logs[0], logs[1])

    @staticmethod
    def bare(text):
        """A log without times and ports, and without comments in its head."""
        head, mark, rest = text.partition("# segment 1,")
        return test_front_keys.facts(head), TIMES.sub("", mark + rest)

    @unittest.skipUnless(BUILT, NOT_BUILT)
    def test_played(self):
        """What `fill --head` prints is answered by the program as the phones were answered; of a log without keys too, which has
        none anywhere."""
        for words in ((), test_front_keys.NO_KEYS):
            with self.subTest(words=words):
                lives = test_front_keys.Lives(self, *words, program=fronted.LIBRARY)
                running = lives.live()
                if words:
                    secrets = test_front_keys.Secrets(*lives.texts, lives.given)
                    self.assertEqual(secrets.in_log(lives.folder), set())
                status, printed, told = test_front_keys.played(filled("--head", running.subscribers, running.log).encode())
                self.assertEqual((status, told), (0, ""))
                self.assertEqual([line for line in printed.splitlines() if line.startswith("out ")], lives.owed)

    @unittest.skipUnless(BUILT, NOT_BUILT)
    def test_a_line_that_is_wrong(self):
        """Its words and its status."""
        ends = [running.ended() for running in self.both(head=PROVISIONED_TWICE)]
        self.assertEqual(ends[0], (2, "front: mme: line 3: fault 7\nfront: the MME ended with status 1\n"))
        self.assertEqual(ends[0], ends[1])

    @unittest.skipUnless(BUILT, NOT_BUILT)
    def test_counters(self):
        """What is counted after the same."""
        told = []
        for running in self.both("--second", "86400"):
            station = running.station()
            for octets in (b"", b"no S1AP", SETUP_REQUEST):
                station.says(octets)
            told.append([line for line in running.asks("counters").splitlines() if not OF_THE_RUN.match(line)])
            self.assertEqual(running.stop()[0], 0)
        self.assertEqual(told[0], told[1])


if __name__ == "__main__":
    judged = runpy.run_path(str(TOP / "tests" / "tools" / "run"))["judged"]
    sys.exit(judged([unittest.defaultTestLoader.loadTestsFromName("__main__")]))
