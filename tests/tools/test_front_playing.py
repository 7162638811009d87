"""`front play`: a log through the library. The MME isn't the library's here, but saved_front.py; tests/library has that. What is to
be printed is what the stations received."""
import os
import pathlib
import re
import signal
import subprocess
import sys
import types
import unittest
import unittest.mock

from reference import lte as LTE, phones as PHONES
from tests.tools import test_front_keys, tools
from tests.tools.fronted import HEAD, IMSI, REMEMBERED
from tests.tools.test_front_log import give, whole
from tests.tools.test_front_snapshots import CHALLENGED, NEVER, OTHER_SUB, PROVISIONED, SAVED, VECTORS, Saved
from tools import runs
from tools.fronting import keys, limits, playing, snapshots
from tools.fronting.segments import older_segments

OTHER = OTHER_SUB.split(" ")[1]
BEGUN = "# segment 1, begun now\n"
SHOWN = "state %s HEARD-%d SECONDS-%d PLAYED-%d\n"  # what that MME shows


def played(*words, given=b"", out=subprocess.PIPE):
    """The status of `play`, what it prints, and what it says."""
    done = subprocess.run([sys.executable, SAVED, "play", *map(str, words)], input=given, stdout=out, stderr=subprocess.PIPE,
                          timeout=60, check=False)
    return done.returncode, (done.stdout or b"").decode(), done.stderr.decode()


class Lived:
    """A front, and what its one station received from it."""

    def __init__(self, test, *words):
        self.running, self.received, self.test = Saved(test, *NEVER, *words), [], test
        self.log = self.running.log
        self.station = self.running.station()

    def says(self, octets):
        self.station.send(octets)
        self.received.append(self.station.receive())

    def rolls(self):
        """The log's next segments begin."""
        paths = [str(self.log), str(self.log) + ".counts"]
        count = len(older_segments(paths[0]))
        self.running.process.send_signal(signal.SIGHUP)
        self.running.until(lambda: all(len(older_segments(path)) > count and os.path.exists(path) for path in paths))

    def goes_on(self, more=()):
        """It ends in order, which saves it, and goes on after that."""
        self.test.assertEqual(self.running.stop()[0], 0)
        self.running = self.running.goes_on(self.test, *NEVER, "--second", "86400", head=PROVISIONED + "".join(more))
        self.station = self.running.station()

    def sent(self, printed):
        """The octets of messages that are printed."""
        lines = [line for line in printed.splitlines() if line.startswith("out ")]
        return [bytes.fromhex(line.split(" ")[3]) for line in lines]

    def challenge(self, vector, slot):
        """What the station received last is a challenge by a vector."""
        nas = LTE.authentication_request(0, PHONES.Vector(vector.rand, bytes(16), bytes(8), bytes(32)))
        self.test.assertEqual(self.received[-1], LTE.downlink_nas(1, 1, nas), slot)


class Whole(unittest.TestCase):
    """A log from its beginning on."""

    def test_given(self):
        """What was given while it ran is an event where it stands, over several segments, in what happened and in what counts."""
        lived = Lived(self)
        lived.says(REMEMBERED)
        more = [OTHER_SUB, *(vector.words(OTHER) for vector in VECTORS[5:7])]
        for line in more:
            self.assertRegex(give(lived.running, line + "\n"), "^given ")
            lived.rolls()
        for vector in VECTORS[5:7]:
            lived.says(CHALLENGED + b"\1")
            lived.challenge(vector, 1)
        lived.says(REMEMBERED)
        self.assertEqual(lived.running.asks("show", IMSI).split(" ")[2], "HEARD-2")
        self.assertEqual(lived.running.stop()[0], 0)
        self.assertEqual(len(older_segments(lived.log)), 3)
        for end in ("", ".counts"):
            status, printed, told = played(str(lived.log) + end)
            self.assertEqual((status, lived.sent(printed), told), (0, lived.received, ""))
            self.assertNotIn("\n+ ", printed)
        self.assertIn("state %s HEARD-2 " % IMSI, played(lived.log)[1])

    def test_from_a_pipe(self):
        """Standard input is played as it comes."""
        with subprocess.Popen([sys.executable, SAVED, "play", "-"], stdin=subprocess.PIPE, stdout=subprocess.PIPE) as playing_one:
            for text, told in ((HEAD + "up 0\nin 0 f6\n", "out e0 0 f6\n"), (runs.FURTHER + OTHER_SUB + "\n", ""),
                               ("show %s\n" % OTHER, SHOWN % (OTHER, 1, 0, 2))):
                playing_one.stdin.write(text.encode())
                playing_one.stdin.flush()
                if told:
                    self.assertEqual(playing_one.stdout.readline().decode(), told)
            playing_one.stdin.close()
            self.assertEqual((playing_one.stdout.read(), playing_one.wait()), (b"", 0))

    def test_keyless(self):
        """A log without keys is played with those of a file, which stand in it where they were given too."""
        vector, more = VECTORS[0].words(IMSI), VECTORS[5].words(IMSI)
        form = keys.Keyless(types.SimpleNamespace(facts=[vector, more]))
        text = HEAD + "".join(line + "\n" for line in [
            keys.without_keys(vector), "# segment 1, begun now, without keys", "up 0", runs.FURTHER + keys.without_keys(more),
            *form.written(["in 0 f6" + VECTORS[5].xres.hex()])])
        folder = pathlib.Path(self.enterContext(tools.tempfile.TemporaryDirectory()))
        log, vectors = folder / "log", folder / "vectors"
        log.write_text(text)
        vectors.write_text(vector + "\n" + more + "\n")
        self.assertNotIn(VECTORS[5].xres.hex(), text)
        self.assertEqual(played("--vectors", vectors, log), (0, "out e0 0 f6%s\n" % VECTORS[5].xres.hex(), ""))
        vectors.write_text(vector + "\n")
        status, _, told = played("--vectors", vectors, log)
        self.assertEqual((status, "that isn't among those given" in told), (2, True), told)

    def test_pieces(self):
        """Lines come in whole pieces, however small these are; of a line that is too long comes as much as shows that."""
        text = b"".join(b"%d%s\n" % (number, b"x" * (number % 9)) for number in range(200))
        name = pathlib.Path(self.enterContext(tools.tempfile.TemporaryDirectory())) / "log"
        for most in (1, 10, 100, 1 << 20):
            for is_log, rest, last in ((True, b"last", b""), (False, b"last", b"last\n"), (False, b"", b"")):
                name.write_bytes(text + rest)
                with unittest.mock.patch.object(limits, "PLAYED_OCTETS", most), open(name, "rb") as file:
                    found = list(playing.pieces_of(file, is_log))
                self.assertEqual(b"".join(found), text + last)
                self.assertEqual({piece[-1:] for piece in found}, {b"\n"})
        name.write_bytes(b"up 0\n" + b"x" * (10 * runs.LONGEST_LINE))
        with open(name, "rb") as file:
            *_, longest = playing.pieces_of(file, False)
        self.assertTrue(runs.LONGEST_LINE < len(longest) - 1 <= runs.LONGEST_LINE + limits.PLAYED_OCTETS)


class Ends(tools.InFolder):
    """How it ends, in the words of `mme play` and with its statuses (README.md, "How it ends")."""

    def test_a_line_that_is_wrong(self):
        """What was answered before stays, and the line is counted through all segments."""
        self.file("log.segment.000001", HEAD + BEGUN + "up 0\nin 0 f6\n")
        log = self.file("log", "# segment 2, begun now\nin 0 f601\nfly 1\nin 0 f602\n")
        self.assertEqual(played(log), (1, "out e0 0 f6\nout e0 0 f601\n", "mme: line 8: fault 1\n"))

    def test_what_was_given(self):
        """A line that was given and is damaged is wrong as `sub` and `vec` are; one that the MME refused when it was given is no
        fault, and is named without its keys."""
        for line, fault in (("vec 1", 2), ("vec %s 0g 00 00 00" % IMSI, 4), ("up 0", 2)):
            log = self.file("log", HEAD + BEGUN + runs.FURTHER + line + "\nup 0\n")
            self.assertEqual(played(log), (1, "", "mme: line 4: fault %d\n" % fault))
        nobodys = VECTORS[0].words("001010000000009")
        log = self.file("log", HEAD + BEGUN + runs.FURTHER + nobodys + "\nup 0\nin 0 f6\n")
        self.assertEqual(played(log), (0, "out e0 0 f6\n", "saved_front.py: %s\n" % (
            playing.REFUSED % (4, "vec", "001010000000009"))))

    def test_broken_off(self):
        """What a crash left of a log's last line isn't played; of a trace that is no log the last line needn't have its end."""
        text = "up 0\nin 0 f6\nin 0 f6"
        self.assertEqual(played(self.file("log", HEAD + BEGUN + text)), (0, "out e0 0 f6\n", ""))
        self.assertEqual(played(self.file("trace", HEAD + text)), (0, "out e0 0 f6\n" * 2, ""))
        self.assertEqual(played(self.file("empty", "")), (0, "", ""))

    def test_between_two_names(self):
        """A segment that a crash kept from its name is played too."""
        self.file("log.segment.000001", HEAD + BEGUN + "up 0\nin 0 f6\n")
        new = self.file("log.new", "# segment 2, begun now\nin 0 f601\n")
        self.assertEqual(played(self.folder / "log"), (0, "out e0 0 f6\nout e0 0 f601\n", ""))
        new.write_bytes(bytes(10))  # as a power cut may leave it
        self.assertEqual(played(self.folder / "log"), (0, "out e0 0 f6\n", ""))

    def test_grown(self):
        """A segment that begins while it is played is noticed: the file that had the last name has another one then."""
        self.file("log", HEAD + BEGUN + "up 0\n")
        made = playing.Series(str(self.folder / "log"))
        os.replace(self.folder / "log", self.folder / "log.segment.000001")
        self.file("log", "# segment 2, begun now\n")
        with self.assertRaisesRegex(runs.Fault, "the log has grown meanwhile"):
            list(made.pieces())

    def test_no_keys(self):
        """A log without keys ends at its first vector, as the program ends there, and it is said what helps."""
        log = self.file("log", HEAD + keys.without_keys(VECTORS[0].words(IMSI)) + "\n# segment 1, begun now, without keys\n")
        self.assertEqual(played(log), (1, "", "mme: line 3: fault 4\nsaved_front.py: %s\n" % (playing.KEYLESS % log)))

    def test_files(self):
        """What can't be read or written."""
        self.assertEqual(played(self.folder / "none"), (3, "", "mme: read failed\n"))
        self.assertEqual(played(self.folder), (3, "", "mme: read failed\n"))
        log = self.file("log", HEAD + BEGUN + "up 0\nin 0 f6\n")
        with open("/dev/full", "wb") as full:
            self.assertEqual(played(log, out=full), (3, "", "mme: write failed\n"))

    def test_without_the_library(self):
        """It says what is missing."""
        log = self.file("log", HEAD + BEGUN)
        with unittest.mock.patch.dict(os.environ, {"SOIZKADUR_LIBRARY": str(self.folder / "none")}):
            done = tools.ran("front", "play", log)
        self.assertEqual((done.returncode, done.stdout), (2, b""))
        self.assertIn("front: there is no library", done.stderr.decode())


class AfterSnapshots(unittest.TestCase):
    """A log with two snapshots, of the ends of its first two runs."""

    def setUp(self):
        self.lived = lived = Lived(self)
        self.ends = []
        for count in (2, 3, 1):
            for _ in range(count):
                lived.says(REMEMBERED)
            lived.says(CHALLENGED + b"\0")
            self.ends.append(len(lived.received))
            lived.rolls()
            if len(self.ends) < 3:
                lived.goes_on()
        self.log, self.counts = lived.log, str(lived.log) + ".counts"
        counted = lambda: sum(line.startswith("in ") for line in whole(lived.running, ".counts").splitlines())
        lived.running.until(lambda: counted() == len(lived.received))
        lived.running.killed()
        self.assertEqual(list(lived.running.snapshots()), [1, 2])

    def name(self, number):
        return snapshots.name_of(self.log, number)

    def loses(self, count):
        """So many segments of both series are gone."""
        for path in (self.log, self.counts):
            for number in range(1, count + 1):
                pathlib.Path(older_segments(path)[number]).unlink()

    def check(self, words, number, received):
        """What is printed is what the station received since that snapshot, which is said."""
        for path in (self.log, self.counts):
            status, printed, told = played(*words, path)
            self.assertEqual((status, self.lived.sent(printed)), (0, received))
            self.assertEqual(told, "saved_front.py: %s\n" % (playing.AFTER % (path, self.name(number))) if number else "")

    def test_from(self):
        """All of it, or what came after the one that is asked for."""
        received = self.lived.received
        self.check((), None, received)
        self.check(("--from", 1), 1, received[self.ends[0]:])
        self.check(("--from", 2), 2, received[self.ends[1]:])

    def test_without_the_beginning(self):
        """Where the first segments are gone, the newest that can be taken; the MME knows then what came before."""
        self.loses(1)
        received = self.lived.received
        self.check((), 2, received[self.ends[1]:])
        self.lived.challenge(VECTORS[2], 0)  # the third, since two were used before
        newest, digits = pathlib.Path(self.name(2)), playing.AFTER % (self.log, self.name(1))
        newest.write_bytes(newest.read_bytes()[:-1])
        status, printed, told = played(self.log)
        self.assertEqual((status, self.lived.sent(printed)), (0, received[self.ends[0]:]))
        self.assertEqual(told.splitlines(), ["saved_front.py: %s isn't taken: it is damaged or cut" % newest,
                                             "saved_front.py: " + digits])

    def test_refused(self):
        """Each that can't be taken says why, and without one nothing is played."""
        self.loses(1)
        pathlib.Path(self.name(1)).unlink()
        changes = (
            (["--snapshot-key", self.key()], self.name(2), None, "it isn't sealed by a key, and this front has one"),
            ([], self.name(2), lambda octets: b"soizkadur snapshot 9\n" + octets.partition(b"\n")[2], "it is of version 9"),
            ([], self.counts, lambda octets: re.sub(rb"# snapshot 2 \S+\n", b"", octets), "something is missing"))
        for words, path, change, why in changes:
            with self.subTest(why=why):
                paths = [pathlib.Path(path), *map(pathlib.Path, older_segments(path).values())]
                before = [one.read_bytes() for one in paths]
                for one, octets in zip(paths, before if change else ()):
                    one.write_bytes(change(octets))
                for asked in ([], ["--from", 2]):
                    status, printed, told = played(*words, *asked, self.log)
                    self.assertEqual((status, printed), (2, ""))
                    self.assertIn(why, told)
                    self.assertEqual(playing.NOT_WHOLE % (self.log, 2) in told, not asked)
                for one, octets in zip(paths, before):
                    one.write_bytes(octets)
        self.assertEqual(played("--from", 7, self.log)[::2], (2, "saved_front.py: %s can't be taken: No such file or directory\n"
                                                              % self.name(7)))

    def key(self):
        """A file with a key."""
        path = self.lived.running.folder / "key"
        path.write_bytes(b"k" * snapshots.LEAST_KEY)
        return path

    def test_gone(self):
        """A snapshot whose place is gone isn't taken; nor is a log played over a segment that is missing."""
        self.loses(2)
        status, printed, told = played("--from", 1, self.log)
        self.assertEqual((status, printed), (2, ""))
        self.assertIn("the segment of", told)
        for path in (self.log, self.counts):
            extra = pathlib.Path("%s.segment.000001" % path)
            extra.write_bytes(HEAD.encode() + BEGUN.encode())
            status, printed, told = played(path)
            self.assertEqual((status, printed, "isn't whole: its segments are 1, 3, " in told), (2, "", True), told)


if __name__ == "__main__":
    unittest.main()
