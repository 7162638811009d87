"""tools/front with an MME that can be saved: snapshots beside the log, and a run that goes on after one. The MME isn't the
library's here, but saved_front.py; tests/library has that."""
import collections
import contextlib
import hashlib
import html
import json
import os
import pathlib
import random
import re
import resource
import shutil
import statistics
import tempfile
import time
import types
import unittest
import unittest.mock

from bench.etcds import free_port
from reference import phones as PHONES
from tests.tools import test_front_etcd, tools
from tests.tools.fronted import HEAD, IMSI, LIBRARY, REMEMBERED, Running, said
from tests.tools.test_front_log import give
from tools.fronting import command, limits, saving, snapshots
from tools.fronting.restoring import NO_REASONS
from tools.fronting.segments import SNAPSHOT, numbered, older_segments

SAVED = tools.TOP / "tests" / "tools" / "saved_front.py"
OFTEN = ("--snapshot", "0.0005,0.0005", "--second", "0.1")  # 30 ms, some 500 octets
NEVER = ("--snapshot", "1440,4096")  # but at an orderly end
CHALLENGED = b"\xf8"
VECTORS = [PHONES.Vector.made("snapshot %d" % place) for place in range(8)]
PROVISIONED = HEAD + "".join(vector.words(IMSI) + "\n" for vector in VECTORS[:4])
OTHER_SUB = "sub 001010000000002 0a000002 0a000064 00000002"
STATE = re.compile(r"state \d+ HEARD-(\d+) SECONDS-(\d+) PLAYED-(\d+)\n")


class Saved(Running):
    """A front whose MME can be saved, by the words that it is begun with."""

    def __init__(self, test, *words, changes=(), **named):
        self.front = (SAVED, *changes)
        super().__init__(test, *words, program=LIBRARY, **{"head": PROVISIONED, **named})

    def state(self):
        """How many messages the MME has counted, its seconds, and how many events it was given since it began."""
        return tuple(map(int, STATE.fullmatch(self.asks("show", IMSI)).groups()))

    def snapshots(self):
        """The snapshots that stand, by number."""
        return snapshots_in(self.folder)

    def has_saved(self, number):
        """Waits for a snapshot with this number or a later one."""
        self.until(lambda: max(self.snapshots(), default=0) >= number)

    def says(self, count, station):
        """So many messages that count come and are answered."""
        for _ in range(count):
            assert station.says(REMEMBERED) == REMEMBERED

    def challenges(self, station):
        station.send(CHALLENGED + b"\0")
        return station.receive()

    def killed(self):
        self.process.kill()
        self.ended()
        return self

    def goes_on(self, test, *words, **named):
        """The front that goes on after it."""
        return Saved(test, "--resume", *words, **{"folder": self.folder, **named})


def snapshots_in(folder):
    """The snapshots that stand beside a log, by number."""
    return numbered(str(folder / "log"), SNAPSHOT)


def sealed(octets):
    """A snapshot with these octets and their digest."""
    return octets + hashlib.sha256(octets).digest()


class Standing(unittest.TestCase):
    """A front with two snapshots was killed, and had answered so many messages that count: each test goes on after a copy of it."""

    HEARD = 10

    @classmethod
    def setUpClass(cls):
        of_all = types.SimpleNamespace(enterContext=cls.enterClassContext, addCleanup=cls.addClassCleanup)
        running = Saved(of_all, *OFTEN)
        station = running.station()
        for number in (1, 2):
            running.says(cls.HEARD // 2, station)
            running.challenges(station)
            running.has_saved(number)
        cls.made = running.killed().folder

    def setUp(self):
        self.folder = pathlib.Path(self.enterContext(tempfile.TemporaryDirectory()))
        shutil.copytree(self.made, self.folder, ignore=shutil.ignore_patterns("*.control"), dirs_exist_ok=True)
        self.log, self.counts = self.folder / "log", self.folder / "log.counts"

    def again(self, *words, **named):
        """It goes on, without a snapshot of its own but at an orderly end."""
        return Saved(self, "--resume", *NEVER, *words, **{"folder": self.folder, **named})

    def newest(self):
        return pathlib.Path(max(snapshots_in(self.folder).items())[1])


class GoesOn(unittest.TestCase):
    """What is the same after a snapshot as where the whole log is played."""

    def test_kept(self):
        """The last two are kept, and no unfinished one, for their owner alone."""
        running = Saved(self, *OFTEN)
        station = running.station()
        for number in range(1, 5):
            running.says(4, station)
            running.has_saved(number)
        running.until(lambda: len(running.snapshots()) == 2)
        self.assertEqual(running.stop()[0], 0)
        found = running.snapshots()
        self.assertEqual(len(found), 2)
        self.assertEqual({os.stat(path).st_mode & 0o777 for path in found.values()}, {0o600})
        self.assertFalse(os.path.exists(str(running.log) + saving.END))

    def test_orderly_end(self):
        """After an orderly end nothing is played again."""
        running = Saved(self, *NEVER)
        station = running.station()
        running.says(3, station)
        self.assertEqual((running.stop()[0], list(running.snapshots())), (0, [1]))
        again = running.goes_on(self, *NEVER)
        heard, _, played = again.state()
        self.assertEqual(heard, 3)
        self.assertLessEqual(played, 1)  # the seconds that passed
        self.assertEqual(again.stop()[0], 0)
        self.assertEqual(list(running.snapshots()), [1, 2])

    def test_random_moments(self):
        """Killed at any moment, a front goes on as it does where the whole log is played, and knows all that was answered."""
        chance = random.Random(5)
        for place in range(9):
            running = Saved(self, *OFTEN, changes=("slow",) if place % 3 == 2 else ())
            station, count = running.station(), chance.randint(1, 60)
            given = ["vec " + VECTORS[4].words(IMSI).partition(" ")[2], OTHER_SUB] if place % 2 else []
            for number in range(count):
                running.says(1, station)
                time.sleep(chance.random() * 0.01)
                if number == count // 2:
                    running.challenges(station)
                    if given:
                        self.assertRegex(give(running, "\n".join(given) + "\n"), "^given ")
            had = len(running.killed().snapshots())
            copy = running.folder.with_name(running.folder.name + ".copy")
            self.addCleanup(shutil.rmtree, copy)
            shutil.copytree(running.folder, copy, ignore=shutil.ignore_patterns("*.control"))
            for path in copy.glob("log.snapshot.*"):
                path.unlink()
            head, states = PROVISIONED + "".join(line + "\n" for line in given), []
            for folder in (running.folder, copy):
                again = Saved(self, "--resume", *NEVER, "--second", "86400", head=head, folder=folder)
                states.append((again.state(), again.asks("phones")))
                self.assertEqual(again.stop()[0], 0)
            with self.subTest(place=place, count=count, snapshots=had):
                (heard, seconds, played), phones = states[0]
                (all_heard, all_seconds, all_played), all_phones = states[1]
                self.assertEqual((heard, all_heard), (count, count))
                self.assertLessEqual(abs(all_seconds - seconds), 3)  # they didn't begin at the same second
                self.assertEqual([line.rpartition(" ")[2] for line in phones.splitlines()],
                                 [line.rpartition(" ")[2] for line in all_phones.splitlines()])
                self.assertEqual(phones.count("vectors_left="), 2 if given else 1)
                self.assertIn("vectors_left=%d\n" % (4 if given else 3), phones)
                self.assertGreaterEqual(all_played, played)

    def test_ticks(self):
        """The seconds that passed while it was down pass once, by one line."""
        running = Saved(self, *NEVER)
        running.station()
        self.assertEqual(running.stop()[0], 0)
        text = running.log.read_text()
        stamps = re.findall(r"(?m)^# time (\S+ \S+)$", text)
        hour = "%02d" % ((int(stamps[-1][11:13]) - 3) % 24)
        day = time.strftime("%Y-%m-%d", time.gmtime(time.time() - 3 * 3600))
        running.log.write_text(text.replace(stamps[-1], "%s %s%s" % (day, hour, stamps[-1][13:])))
        again = running.goes_on(self, *NEVER, "--second", "86400")
        _, seconds, played = again.state()
        self.assertLess(abs(seconds - 3 * 3600), 60)
        self.assertEqual(played, 1)

    def test_while_it_saves(self):
        """Stations are served while a snapshot is saved, which takes a second."""
        running = Saved(self, *OFTEN, changes=("slow",))
        station, delays, new = running.station(), [], pathlib.Path(str(running.log) + saving.END)
        running.says(5, station)
        running.until(new.exists)
        while new.exists():
            begun = time.monotonic()
            running.says(1, station)
            delays.append(time.monotonic() - begun)
        self.assertGreater(sum(delays), 0.8)
        self.assertLess(statistics.median(delays), limits.MOST_DELAY)
        running.has_saved(1)

    def test_stations(self):
        """Stations that were connected are lost at the start, and no others."""
        running = Saved(self, *OFTEN)
        first, _ = running.station(), running.station()
        running.says(5, first)
        running.has_saved(1)
        first.close()
        running.until(lambda: "lost" in running.lines())
        again = running.killed().goes_on(self, *NEVER)
        self.assertIn(b"1 station was lost", again.told)
        self.assertEqual(again.events().count("lost 1"), 1)
        self.assertEqual(again.events().count("lost 0"), 1)

    def test_segments_go(self):
        """Segments before the older snapshot go, and the run goes on without them."""
        running = Saved(self, "--snapshot", "0.001,1", "--segment-size", "1", "--segments", "2", "--rate", "100000")
        station = running.station()
        for _ in range(250):
            station.says(REMEMBERED + bytes(18000))
        running.until(lambda: station.says(REMEMBERED) and 1 not in older_segments(str(running.log) + ".counts"))
        heard = running.state()[0]
        running.until(lambda: b"log.counts.segment.000001 is the oldest segment, and removed: a snapshot has what it led to" in
                      running.said())
        self.assertEqual(running.killed().goes_on(self, *NEVER).state()[0], heard)

    def test_segments_stay(self):
        """Where none can be made, which is said once, no segment of what counts goes."""
        running = Saved(self, "--snapshot", "0.001,1", "--segment-size", "1", "--segments", "2", "--rate", "100000",
                        changes=("refusing",))
        station = running.station()
        for _ in range(130):
            station.says(REMEMBERED + bytes(18000))
        running.until(lambda: len(older_segments(str(running.log) + ".counts")) > 2)
        status, told = running.stop()
        self.assertEqual((status, told.count("no snapshot can be made, so that no segment of")), (0, 1))
        self.assertEqual((min(older_segments(str(running.log) + ".counts")), running.snapshots()), (1, {}))
        self.assertEqual(running.goes_on(self, *NEVER).state()[0], 130)

    def test_page(self):
        """The page says why it has no reasons, and raises an alarm where no snapshot can be made."""
        running, port = Saved(self, *NEVER), free_port()
        running.says(3, running.station())
        self.assertEqual(running.stop()[0], 0)
        again = running.goes_on(self, *OFTEN, "--page", "127.0.0.1:%d" % port, changes=("refusing",))
        page = lambda: " ".join(html.unescape(test_front_etcd.Fronts.get(port, "/").decode()).split())
        self.assertIn(NO_REASONS, page())
        station = again.station()
        again.until(lambda: station.says(REMEMBERED) and b"no snapshot can be made" in again.said())
        again.until(lambda: "No snapshot can be made: the MME can't be saved." in page())
        self.assertIn(b'{of="snapshots"} 1', test_front_etcd.Fronts.get(port, "/metrics"))

    def test_moved(self):
        """Where what counts is moved away, the next snapshot is made at once, after which the run can go on again."""
        running = Saved(self, *NEVER)
        station, counts = running.station(), str(running.log) + ".counts"
        running.says(3, station)
        running.until(lambda: "in 0 f6" in pathlib.Path(counts).read_text())
        os.replace(counts, counts + ".elsewhere")
        running.until(lambda: b"--resume can't use this run until there is another snapshot" in running.said())
        running.until(lambda: station.says(REMEMBERED) and running.snapshots())
        heard = running.state()[0]
        self.assertEqual(running.killed().goes_on(self, *NEVER).state()[0], heard)

    def test_given_by_a_program(self):
        """What a program is begun with stands in the log's head, so that no snapshot before is of it."""
        running = Saved(self, *NEVER)
        running.says(3, running.station())
        self.assertEqual((running.stop()[0], list(running.snapshots())), (0, [1]))
        head = PROVISIONED + OTHER_SUB + "\n"
        program = Running(self, "--resume", head=head, folder=running.folder)
        self.assertEqual((program.stop()[0], running.snapshots()), (0, {}))
        again = running.goes_on(self, *NEVER, head=head)
        self.assertEqual(again.asks("phones").count("vectors_left="), 2)
        self.assertEqual(again.state()[0], 3)

    def test_begun_without_vectors(self):
        """A run that began without the vectors that were used goes on after a snapshot, also where the subscribers' file lacks
        some of these since."""
        running = Saved(self, *NEVER)
        station = running.station()
        for _ in range(2):
            running.challenges(station)
        running.killed()
        for path in running.folder.glob("log*"):
            if path.name != "log.used":
                path.unlink()
        running = Saved(self, *NEVER, folder=running.folder)
        self.assertIn(b"2 vectors are left out", running.told)
        running.challenges(running.station())
        self.assertEqual(running.stop()[0], 0)
        lines = PROVISIONED.splitlines(keepends=True)
        for head in (PROVISIONED, "".join(lines[:2] + lines[3:]), "".join(lines[:2] + lines[4:])):
            running = running.goes_on(self, *NEVER, head=head)
            self.assertEqual(running.state()[2] <= 1, True)
            self.assertIn("vectors_left=1", running.asks("phones"))
            self.assertEqual(running.stop()[0], 0)


    def test_given_beside_one_that_was_used(self):
        """A run that was given lines, and not one between them that was used before, goes on after a snapshot with the same file."""
        begun, used, more = ("".join(vector.words(IMSI) + "\n" for vector in vectors)
                             for vectors in (VECTORS[:3], VECTORS[3:4], VECTORS[4:5]))
        folder = pathlib.Path(self.enterContext(tempfile.TemporaryDirectory()))
        (folder / "log.used").write_text("%s %s\n" % (IMSI, VECTORS[3].rand.hex()))
        running = Saved(self, *NEVER, head=HEAD + begun, folder=folder)
        for _ in range(2):
            self.assertEqual(running.stop()[0], 0)
            running = running.goes_on(self, *NEVER, head=HEAD + begun + used + more)
            running.until(lambda: "vectors_left=4" in running.asks("phones"))
            self.assertNotIn(b"isn't taken", running.told)
        self.assertEqual(running.stop()[0], 0)


class Refused(Standing):
    """Snapshots that can't be taken: said in words, and the older one is taken."""

    def check_older(self, told, *words):
        """The newest isn't taken, for which this is said; with the older one all is as it was."""
        newest = self.newest()
        again = self.again(*words)
        self.assertRegex(again.told.decode(), re.escape("%s isn't taken: " % newest) + told)
        self.assertEqual(again.told.count(b"isn't taken"), 1)
        self.assertEqual(again.state()[0], self.HEARD)
        again.killed()

    def test_damaged(self):
        """Of another version, with an octet that is another one, empty, and no snapshot."""
        octets = self.newest().read_bytes()
        middle = len(octets) // 2
        for damaged, told in (
                (octets.replace(b"snapshot 1", b"snapshot 2", 1), "it is of version 2, and this front takes 1"),
                (octets[:middle] + bytes([octets[middle] ^ 1]) + octets[middle + 1:], "it is damaged or cut"),
                (octets + b"!", "it is damaged or cut"), (b"", "it is no snapshot"), (bytes(5000), "it is no snapshot"),
                (octets.replace(b'"subscribers": 1', b'"subscribers": 9', 1), "it is damaged or cut"),
                (octets.replace(b'{"number"', b'["number"', 1), "it is damaged or cut"),
                (sealed(octets[:-32].replace(b'"used"', b'"uses"', 1)), "it is damaged or cut")):
            with self.subTest(told=told):
                self.newest().write_bytes(damaged)
                self.check_older(told)

    def test_cut(self):
        """Cut at each kilobyte, and at each octet of its beginning and its end."""
        running = Saved(self, *NEVER, head=PROVISIONED + "".join(
            "sub %015d 0b%06x 0a000064 %08x\n" % (int(IMSI) + place, place, place) for place in range(1, 3000)))
        self.assertEqual(running.stop()[0], 0)
        path = running.snapshots()[1]
        octets = pathlib.Path(path).read_bytes()
        self.assertGreater(len(octets), 64 << 10)
        snapshots.read(path)
        for end in {*range(0, len(octets), 1 << 10), *range(800), *range(len(octets) - 100, len(octets))}:
            os.truncate(path, end) if end else pathlib.Path(path).write_bytes(b"")
            with self.assertRaises(snapshots.Unfit, msg=end):
                snapshots.read(path)
            pathlib.Path(path).write_bytes(octets)
        snapshots.read(path)

    def test_by_the_library(self):
        """One that the library doesn't take."""
        running = self.again(changes=("newer",))
        self.assertEqual(running.stop()[0], 0)
        again = self.again()
        self.assertIn("the library doesn't take it: version 2: a snapshot of another version", again.told.decode())
        self.assertEqual(again.state()[0], self.HEARD)

    def test_of_another_provisioning(self):
        """The subscribers' file has other lines than the snapshots, and than the log."""
        status, told = self.again(head=PROVISIONED.replace("0a000001", "0a000009")).ended()
        self.assertEqual(status, 2)
        self.assertEqual(told.count("it is of another provisioning: the subscribers' file has to begin with its 6 lines"), 2)
        self.assertIn("log begins with other lines than", told)

    def test_of_another_log(self):
        """Snapshots that stand beside another log aren't its own."""
        other = Saved(self, *NEVER)
        self.folder.joinpath("log.used").unlink()
        other.says(1, other.station())
        other.killed()
        for path in snapshots_in(self.folder).values():
            shutil.copy(path, other.folder)
        again = other.goes_on(self, *NEVER)
        self.assertEqual(again.told.count(b"doesn't have its place: it is of another log"), 2)
        self.assertEqual(again.state()[0], 1)

    def test_without_its_log(self):
        """Without a log nothing is begun but by --anew, and then the snapshots are put away with what is left."""
        for path in self.folder.glob("log.counts*"):
            path.unlink()
        status, told = self.again().ended()
        self.assertEqual(status, 2)
        self.assertIn("log.counts: No such file or directory", told)
        again = self.again("--anew", "--keep", "2")
        self.assertEqual((again.state()[0], again.snapshots()), (0, {}))
        self.assertEqual(len(list(self.folder.glob("log.1.snapshot.*"))), 2)

    def test_without_its_segment(self):
        """Where the segments are gone that a start needs, each snapshot says so, and nothing goes on."""
        text = self.counts.read_text()
        self.counts.write_text("# segment 9, begun later\n" + text[text.rindex("# settled until"):])
        status, told = self.again().ended()
        self.assertEqual((status, told.count("log that it stands in is gone")), (2, 2))
        self.assertIn("log.counts isn't whole: its segments are 9", told)

    def test_a_log_that_is_cut(self):
        """A log that ends before the newest snapshot lacks what was answered: nothing goes on, and not with the older one."""
        counts = self.counts
        octets = counts.read_bytes()
        marks = [found.start() for found in re.finditer(rb"(?m)^# snapshot \d+ ", octets)]
        about = snapshots.read(self.newest()).about
        place = octets.index(snapshots.mark_line(about["number"], about["mark"]))
        self.assertIn(place, marks)
        for end in (place, place + 5, place + len(snapshots.mark_line(about["number"], about["mark"]))):
            os.truncate(counts, end)
            status, told = self.again().ended()
            self.assertEqual(status, 2)
            self.assertIn("log ends before %s was made: something is missing in it" % self.newest(), told)
            counts.write_bytes(octets)

    def test_a_line_that_is_lost(self):
        """What a kill left of a line is none; where the line of a challenge is lost, nothing goes on."""
        running = self.again()
        running.says(2, running.station())
        heard = running.state()[0]
        running.killed()
        with open(running.log, "ab") as log:
            log.write(b"in 0 f6f")
        running = self.again()
        self.assertEqual(running.state()[0], heard)
        station = running.station()
        size = running.log.stat().st_size
        running.challenges(station)
        running.killed()
        os.truncate(running.log, size)
        counts = pathlib.Path(str(running.log) + ".counts")
        text = counts.read_text()
        counts.write_text(text[:text.rindex("# settled until")] if "in 0 f800" in text[text.rindex("# resumed"):] else text)
        status, told = self.again().ended()
        self.assertEqual(status, 2)
        self.assertRegex(told, "has no challenge of 1 vector that|has no line that ends where|something is missing in it")

    def test_by_a_program(self):
        """A program plays the log from its beginning, and says that it can't do else."""
        running = Saved(self, *NEVER)
        running.says(3, running.station())
        self.assertEqual(running.stop()[0], 0)
        again = Running(self, "--resume", head=PROVISIONED, folder=running.folder)
        self.assertIn(b"has snapshots, which the library alone takes (--library): the log is played from its beginning", again.told)
        self.assertEqual(again.asks("show", IMSI), "state %s HEARD-3 IDLE INACTIVE\n" % IMSI)

    def test_two_fronts(self):
        """A second front doesn't begin, also while the first saves; once that is killed in the midst of it, the next one begins."""
        running = Saved(self, "--resume", *OFTEN, changes=("slow",), folder=self.folder)
        new, station = pathlib.Path(str(running.log) + saving.END), running.station()
        running.until(lambda: station.says(REMEMBERED) and new.exists())
        status, told = self.again().ended()
        self.assertEqual((status, "another front has this log" in told), (75, True))
        running.until(lambda: station.says(REMEMBERED) and new.exists())
        heard = running.state()[0]
        running.killed()
        again = self.again()
        self.assertEqual(again.state()[0], heard)
        self.assertFalse(new.exists())


class Keyed(unittest.TestCase):
    """Snapshots that are sealed by a key."""

    def setUp(self):
        self.folder = pathlib.Path(self.enterContext(tempfile.TemporaryDirectory()))
        self.key, self.other, self.short = (self.folder / name for name in ("key", "other", "short"))
        for path, octets in ((self.key, bytes(range(32))), (self.other, bytes(32)), (self.short, bytes(15))):
            path.write_bytes(octets)

    def ended(self, *words, **named):
        """A front that has counted three messages and ended in order."""
        running = Saved(self, *NEVER, *words, **named)
        running.says(3, running.station())
        self.assertEqual(running.stop()[0], 0)
        return running

    def test_sealed(self):
        """Who has the key takes it, and nobody else."""
        running = self.ended("--snapshot-key", self.key)
        for words, told in ((("--snapshot-key", self.other), "damaged or cut, or sealed by another key"),
                            ((), "it is sealed by a key, and this front has none (--snapshot-key)"),
                            (("--snapshot-key", self.key), None)):
            again = running.goes_on(self, *NEVER, *words)
            self.assertEqual("isn't taken" in again.told.decode(), told is not None)
            self.assertIn(told or "", again.told.decode())
            self.assertEqual(again.state()[0], 3)
            again.killed()

    def test_planted(self):
        """One without a seal by the key isn't taken, whatever it says of its seal."""
        running = self.ended()
        octets = pathlib.Path(running.snapshots()[1]).read_bytes()
        for text in (octets, octets.replace(b'"seal": "sha256"', b'"seal": "hmac-sha256"')):
            pathlib.Path(running.snapshots()[1]).write_bytes(text)
            again = running.goes_on(self, *NEVER, "--snapshot-key", self.key)
            self.assertRegex(again.told.decode(), "isn't taken: (it isn't sealed by a key|it is damaged or cut)")
            again.killed()

    def test_credential(self):
        """The service's credential is the key, where there is one."""
        (self.folder / "snapshot-key").write_bytes(bytes(range(32)))
        running = self.ended(environment={"CREDENTIALS_DIRECTORY": str(self.folder)})
        again = running.goes_on(self, *NEVER, "--snapshot-key", self.key)
        self.assertNotIn(b"isn't taken", again.told)
        self.assertIn("seal=hmac-sha256", tools.ran("front", "snapshot", "--snapshot-key", self.key, running.log).stdout.decode())

    def test_no_key(self):
        """A key that is too short, and one that isn't there."""
        for path, told in ((self.short, "a key has 16 octets or more"), (self.folder / "none", "No such file or directory")):
            status, text = Saved(self, "--snapshot-key", path).ended()
            self.assertEqual((status, "%s: %s\n" % (path, told) in text), (2, True), text)


class FullDisk(unittest.TestCase):
    def test_while_it_saves(self):
        """A disk that has no room for a snapshot has the log go on, and keeps nothing of it."""
        running = Saved(self, *OFTEN, changes=("large",), before=lambda: resource.setrlimit(
            resource.RLIMIT_FSIZE, (1 << 20, resource.RLIM_INFINITY)))
        station = running.station()
        running.until(lambda: station.says(REMEMBERED) and b"no snapshot can be made" in running.said())
        self.assertIn("so that no segment of %s.counts goes: File too large" % running.log, running.told.decode())
        self.assertEqual(running.snapshots(), {})
        heard = running.state()[0]
        running.says(3, station)
        self.assertEqual(running.stop()[0], 0)
        self.assertFalse(os.path.exists(str(running.log) + saving.END))
        self.assertEqual(running.goes_on(self, *NEVER).state()[0], heard + 3)

    def test_before(self):
        """None is begun where the disk has less than twice the room that it needs."""
        made = saving.Saving(types.SimpleNamespace(
            settings=types.SimpleNamespace(snapshot=(1, 1), snapshot_key=None, log="log"),
            stock=types.SimpleNamespace(phones=collections.Counter({2: 10, 0: 5}))))
        needed = saving.LEAST + 15 * saving.PER_SUBSCRIBER + 20 * saving.PER_VECTOR
        for blocks, is_enough in ((2 * needed - 1, False), (2 * needed, True)):
            with unittest.mock.patch("os.statvfs", return_value=types.SimpleNamespace(f_bavail=blocks, f_frsize=1)):
                with contextlib.nullcontext() if is_enough else self.assertRaisesRegex(OSError, "less room"):
                    made.check_room()


class Due(unittest.TestCase):
    """When one is made."""

    def test_rule(self):
        """After so many octets of what counts, or after so long where there are some."""
        journal = types.SimpleNamespace(counted=0)
        made = saving.Saving(types.SimpleNamespace(exchange=types.SimpleNamespace(journal=journal), settings=types.SimpleNamespace(
            snapshot=(60, 10000), snapshot_key=None, log="log")))
        made.saved_at, made.counted = 100.0, 5000
        for now, octets, is_due in ((101, 9999, False), (101, 10000, True), (159.9, 9999, False), (160, limits.SNAPSHOT_LEAST, True),
                                    (1000, limits.SNAPSHOT_LEAST - 1, False)):
            journal.counted = 5000 + octets
            self.assertEqual(made.is_due(now), is_due, (now, octets))

    def test_default(self):
        """Ten minutes or 8 MiB, with a source or a store too; none with a log without keys."""
        for named, wanted in (({}, (600, 8 << 20)), ({"source": ["serve"]}, (600, 8 << 20)), ({"log_keys": "no"}, None),
                              ({"store": "x"}, (600, 8 << 20)), ({"library": False}, None), ({"snapshot": ()}, None)):
            given = types.SimpleNamespace(**{"library": True, "snapshot": None, "snapshot_key": None, "store": None,
                                             "log_keys": "yes", "source": None, **named})
            command.read_snapshot(given)
            self.assertEqual(given.snapshot, wanted, named)


class Provisioned(unittest.TestCase):
    """The digests of lines of provisioning."""

    def test_restored(self):
        """Further lines change the digest of all as they do where the lines before are known; those that were first have their own."""
        made = snapshots.Provisioned(["mme 1", "sub 2"])
        made.add(["vec 3"])
        again = snapshots.Provisioned.restored(json.loads(json.dumps(made.told())))
        for one in (made, again):
            one.add(["sub 4", "vec 5"])
        self.assertEqual((made.told(), made.begun, made.lines), (again.told(), 2, 5))
        self.assertEqual(made.begun_digest, hashlib.sha256(b"mme 1\nsub 2\n").hexdigest())
        for begun, more in ((["mme 1", "sub 2"], ["vec 3", "vec 5", "sub 4"]), (["mme 1", "sub 2"], ["vec 3", "sub 4"]),
                            (["mme 1", "sub 2"], ["vec 3", "sub 4", "vec 6"]), (["mme 1"], ["sub 2", "vec 3", "sub 4", "vec 5"])):
            other = snapshots.Provisioned(begun)
            other.add(more)
            self.assertNotEqual(other.told(), made.told())


class Words(unittest.TestCase):
    """The command line, and what is told of snapshots."""

    def test_refused(self):
        """With a program or a log without keys there is none."""
        folder = pathlib.Path(self.enterContext(tempfile.TemporaryDirectory()))
        (folder / "subscribers").write_text(HEAD)
        for words, told in (
                (["--snapshot", "10,8"], "--snapshot goes with --library"),
                (["--snapshot", "no"], "--snapshot goes with --library"),
                (["--snapshot-key", "x"], "--snapshot-key goes with --library"),
                (["--library", "--snapshot", "10,8", "--log-keys", "no"], "--snapshot is of a log that keeps"),
                (["--snapshot", "10,8", "--store", "http://127.0.0.1:1", "--mme", "x"], "--snapshot goes with --library"),
                (["--library", "--snapshot", "10"], "'10' isn't `no`"), (["--library", "--snapshot", "0,8"], "'0,8' isn't"),
                (["--library", "--snapshot", "nan,8"], "'nan,8' isn't"), (["--library", "--snapshot", "1,1e9"], "'1,1e9' isn't")):
            with self.subTest(words=words):
                status, text = said(["run", folder / "subscribers", folder / "log", "--tcp", "--port", "0", *words])
                self.assertEqual((status, told in text), (2, True), text)

    def test_none(self):
        """Where none is wanted, and with a log without keys, none is made."""
        for words in (("--snapshot", "no"), ("--log-keys", "no")):
            running = Saved(self, *words)
            running.says(3, running.station())
            self.assertEqual((running.stop()[0], running.snapshots()), (0, {}))

    def test_told(self):
        """What a snapshot has, without keys; and that there is none."""
        running = Saved(self, *NEVER)
        station = running.station()
        running.challenges(station)
        done = tools.ran("front", "snapshot", running.log)
        self.assertEqual((done.returncode, b"has no snapshot" in done.stderr), (2, True))
        self.assertEqual(running.stop()[0], 0)
        done = tools.ran("front", "snapshot", running.log)
        self.assertRegex(done.stdout.decode(), r"^snapshot 1 made=\d{4}-\d\d-\d\dT[0-9:.]+ by=\S+ seal=sha256 subscribers=1 "
                         r"given_subscribers=0 lines=6 given_lines=0 vectors_used=1 vectors_left=3 stations=- counts=1:\d+ happened=1:\d+ mme_octets=\d+\n$")
        octets = pathlib.Path(running.snapshots()[1]).read_bytes()
        os.truncate(running.snapshots()[1], len(octets) - 1)
        done = tools.ran("front", "snapshot", running.log)
        self.assertEqual((done.returncode, done.stdout), (0, b"snapshot 1 can't be taken: it is damaged or cut\n"))

    def test_counters(self):
        """Counters have the last one."""
        running = Saved(self, *OFTEN)
        station = running.station()
        running.says(5, station)
        running.has_saved(1)
        running.until(lambda: '"number": ' in running.asks("counters"))
        self.assertRegex(running.asks("counters"), r'snapshot: {"number": \d+, "octets": \d+, "seconds": [0-9.]+, "age": [0-9.]+}')


if __name__ == "__main__":
    unittest.main()
