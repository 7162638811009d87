"""tools/front --log-keys no: no key of a phone in any file that a run leaves, the log played with the keys of a file, runs that go
on after it, and what the other tools say of it."""
import contextlib
import importlib
import io
import os
import pathlib
import signal
import subprocess
import tempfile
import time
import unittest

from tests.tools import tools
from tests.tools.fronted import HEAD, IMSI, LIBRARY, PROGRAM, Running, events_of, said
from tests.tools.test_front_log import LTE, PHONES, Talk, give, whole

RUNS = importlib.import_module("tools.runs")
KEYS = importlib.import_module("tools.fronting.keys")
PROVISIONING = importlib.import_module("tools.fronting.provisioning")

NO_KEYS = ("--log-keys", "no")
FAILED = ((2, 2), 1)  # nas authentication-failure (TS 36.413 clause 9.2.1.3)
# K and OPc of test sets 1 and 2 of TS 35.207 clause 4.
SIMS = (("465b5ce8b199b49faa5f0a2ee238a6bc", "cd63cb71954a9f4e48a5994e37a02baf"),
        ("0396eb317b6d1c36f19c1c84cd6ffd16", "53c15671c60a4b731c55b4a441c0bde2"))
ONE_CHALLENGE = "two vectors of %s have the same RAND and AUTN, and a log without keys can't tell them apart" % IMSI
NO_KEYS_HERE = "the trace is a log without keys, which `tools/front fill` puts back"


def vectors_of(imsi, sim, sqn, count):
    """What tools/vectors prints for a SIM: vectors, and what they were made of as comments."""
    done = tools.ran("vectors", "--imsi", imsi, "--plmn", "001", "01", "--k", sim[0], "--opc", sim[1], "--sqn", "%012x" % sqn,
                     "--count", count, "--seed", "keys %d" % sqn, "--functions")
    assert done.returncode == 0, done.stderr
    return done.stdout.decode()


def made(text):
    """The vectors in lines, for a phone."""
    lines = [line.split(" ") for line in text.splitlines() if line.startswith("vec ")]
    return [PHONES.Vector(*map(bytes.fromhex, line[2:])) for line in lines]


class Secrets:
    """The keys in what tools/vectors prints and of the SIMs, and where octets have one of them."""

    def __init__(self, *texts):
        lines = [line.split(" ") for text in texts for line in text.splitlines()]
        self.keys = {key for sim in SIMS for key in sim}
        self.keys |= {key for words in lines if words[0] == "vec" for key in words[4:]}
        self.keys |= {words[2] for words in lines if words[1] in ("OPc", "f2", "f3", "f4")}

    def found(self, octets):
        """Those that stand there in hex or as they are."""
        text = octets.lower()
        return {key for key in self.keys if key.encode() in text or bytes.fromhex(key) in octets}

    def in_log(self, folder):
        """Those in the files of a folder, but for those that the test put there."""
        files = [path for path in folder.iterdir() if path.name not in ("subscribers", "given")]
        return {key for path in files for key in self.found(path.read_bytes())}


class Lives:
    """Two phones over three runs of a front: they attach, one with an answer that is the other's and one with an answer that is
    protected, more vectors are given, the front ends and goes on, is killed and goes on."""

    def __init__(self, test, *words, program=PROGRAM):
        self.test, self.words, self.program = test, words, program
        self.texts = [vectors_of("00101000000000%d" % (slot + 1), sim, 0x20, 3) for slot, sim in enumerate(SIMS)]
        self.given = vectors_of(IMSI, SIMS[0], 0x200, 2)
        self.trace, self.station = PHONES.Trace(), PHONES.Station(0)
        self.first, self.second = (PHONES.Phone(self.trace, slot, made(text)) for slot, text in enumerate(self.texts))
        self.trace.provision((self.first, self.second))
        self.head = "\n".join(self.trace.text().splitlines()[:3]) + "\n" + "".join(self.texts)
        self.owed, self.folder = [], None

    def begin(self, *words):
        """A run, whose station is set up."""
        running = Running(self.test, *self.words, *words, "--second", "86400", head=self.head, program=self.program,
                          folder=self.folder)
        self.folder, self.talk = running.folder, Talk(self.test, self.trace, running)
        self.trace.set_up(self.station, connects=False)
        self.settle()
        return running

    def settle(self):
        """What the phones sent is answered as it is owed."""
        self.owed += self.trace.answers
        self.talk.settle()

    def answers_as_other(self):
        """RES of the second phone is XRES of the first one's last vector; owed AUTHENTICATION REJECT."""
        self.second.asks_to_attach(self.station, 2)
        self.second.sends(LTE.authentication_response(self.first.vectors[-1].xres))
        self.second.owed_nas(b"\x07\x54")
        self.second.owed(LTE.release_command(self.second.m, self.second.b, FAILED))
        self.second.is_gone()

    def attaches_protected(self):
        """The second phone protects its AUTHENTICATION RESPONSE by a context that the MME doesn't have."""
        said, phone = self.trace.hear, self.second
        plain = LTE.authentication_response(phone.unused[0].xres)

        def hear(station, octets):
            said(station, LTE.uplink_nas(self.trace.network, station, phone.m, phone.b, b"\x17\xde\xad\xbe\xef\x09" + plain)
                 if plain in octets else octets)

        self.trace.hear = hear
        phone.attaches(self.station, 3)
        self.trace.hear = said

    def is_heard(self, running):
        """What the phones said last stands in the log: nothing answers ATTACH COMPLETE, so the front may not have heard it yet."""
        last = [line for line in self.trace.text().splitlines() if line.startswith("in ")][-1]
        for _ in range(200):
            if last in running.log.read_text(encoding="utf-8"):
                return
            time.sleep(0.05)
        self.test.fail("the front hasn't heard " + last)

    def ends(self, phones, running, kill=False):
        """The run is over, and the phones' station with it."""
        for phone in phones:
            phone.is_gone()
        if kill:
            running.process.kill()
            running.ended()
        else:
            self.test.assertEqual(running.stop()[0], 0)

    def live(self):
        running = self.begin()
        self.first.attaches(self.station, 1)
        self.answers_as_other()
        self.attaches_protected()
        self.settle()
        running.process.send_signal(signal.SIGHUP)
        if self.program is LIBRARY:
            self.test.assertEqual(give(running, self.given), "given 0 subscribers, 2 vectors\n")
        self.head += self.given  # which a program takes at the next start
        self.first.vectors += made(self.given)
        self.ends((self.first, self.second), running)
        running = self.begin("--resume")
        self.test.assertIn(b"goes on", running.told)
        for number in (11, 12, 13):
            self.first.attaches(self.station, number)
        self.settle()
        self.is_heard(running)
        self.ends((self.first,), running, kill=True)
        running = self.begin("--resume")
        self.test.assertIn(b"goes on: 1 station was lost", running.told)
        self.test.assertEqual(running.asks("show", IMSI), "state %s %s\n" % (IMSI, PHONES.IDLE))
        self.first.attaches(self.station, 21)
        self.settle()
        self.test.assertEqual(running.asks("show", IMSI), "state %s %s\n" % (IMSI, PHONES.CONNECTED))
        self.ends((self.first,), running)
        return running


def played(text):
    """What the program prints for a trace."""
    done = subprocess.run([PROGRAM, "play"], input=text, capture_output=True, timeout=60, check=False)
    return done.returncode, done.stdout.decode(), done.stderr.decode()


@unittest.skipUnless(PROGRAM.exists(), "the program isn't built (./mme --prove)")
class Phones(unittest.TestCase):
    def test_lives(self):
        """The same lives with a log that keeps keys and with one that doesn't: what is left out is all that differs, and with the
        keys of the subscribers' file the one plays as the other, with what the phones were owed."""
        kept, left = Lives(self), Lives(self, *NO_KEYS)
        logs = [lives.live() for lives in (kept, left)]
        secrets = Secrets(*kept.texts, kept.given)
        spent = {vector.xres.hex() for phone in (kept.first, kept.second) for vector in phone.vectors[:phone.place]}
        self.assertGreater(len(spent), 5)
        self.assertEqual(secrets.in_log(kept.folder) & {sim[1] for sim in SIMS}, {sim[1] for sim in SIMS})
        self.assertLessEqual(spent, secrets.in_log(kept.folder))
        self.assertEqual(secrets.in_log(left.folder), set())
        status, printed, told = played(whole(logs[1]).encode())
        self.assertEqual((status, printed, told), (1, "", "mme: line 4: fault 4\n"))
        filled = tools.ran("front", "fill", left.folder / "subscribers", logs[1].log)
        self.assertEqual((filled.returncode, filled.stderr), (0, b""))
        self.assertEqual(events_of(filled.stdout.decode()), events_of(whole(logs[0])))
        ends = [played(whole(logs[0]).encode()), played(filled.stdout)]
        self.assertEqual(ends[1], ends[0])
        self.assertEqual([line for line in ends[1][1].splitlines() if line.startswith("out ")], left.owed)
        self.assertEqual(left.owed, kept.owed)


def facts(text):
    """The lines of a trace that aren't comments."""
    return [line for line in text.splitlines() if line and not line.startswith("#")]


def keyless(text):
    """A trace as a log without keys has it."""
    lines = text.splitlines()
    first = next((at for at, line in enumerate(lines) if line.split(" ")[0] in RUNS.EVENTS), len(lines))
    form = KEYS.Keyless(PROVISIONING.Head(lines[:first]))
    return form.text(PROVISIONING.Head(lines[:first])) + "# segment 1, begun now, without keys\n" + "".join(
        line + "\n" for line in form.written(lines[first:]))


def filled(vectors, log):
    """The status of `fill`, and what it says, without a process of its own for it."""
    with contextlib.redirect_stdout(io.TextIOWrapper(io.BytesIO())):
        return said(["fill", vectors, log])


class Rows(unittest.TestCase):
    def setUp(self):
        self.folder = pathlib.Path(self.enterContext(tempfile.TemporaryDirectory()))
        self.log = self.folder / "log"

    def written(self, name):
        """A row as a log without keys, its own path, and that of its answers."""
        row = tools.ROWS / (name + ".trace")
        self.log.write_text(keyless(row.read_text()))
        return row, row.with_suffix(".answers")

    def test_filled(self):
        """Each row, without its keys and with them again, has the events that it had; and no key between."""
        for name in tools.playable():
            with self.subTest(name=name):
                row, _ = self.written(name)
                text, there = row.read_text(), self.log.read_text()
                messages = [bytes.fromhex(line.split(" ")[2].replace("-", "")) for line in facts(there) if line.startswith("in ")]
                for line in facts(text):
                    if line.startswith("vec "):
                        xres, kasme = line.split(" ")[4:]
                        self.assertNotIn(kasme, there)
                        self.assertFalse([octets.hex() for octets in messages if bytes.fromhex(xres) in octets])
                filling = KEYS.Filling(KEYS.read_vectors(row))
                filled = b"".join(filling.whole(there.encode().splitlines(keepends=True))).decode()
                self.assertEqual(facts(filled), facts(text))

    def test_shown(self):
        """tools/show shows its messages, and says what isn't there."""
        self.written("attach_whole")
        done = tools.ran("show", "--brief", self.log)
        self.assertEqual((done.returncode, done.stderr.decode()),
                         (0, "show: %s: a log without keys: each RES that was an XRES is shown as zeros\n" % self.log))
        self.assertIn("AUTHENTICATION RESPONSE", done.stdout.decode())

    def test_drawn(self):
        """A chart and a capture are made with answers, and without reasons."""
        _, answers = self.written("wrong_res")
        for tool, *words in (("chart", self.log), ("capture", "out", self.log)):
            done = tools.ran(tool, *words, answers)
            self.assertEqual(done.returncode, 0)
            self.assertTrue(done.stderr.decode().startswith("%s: %s: " % (tool, NO_KEYS_HERE)), done.stderr)
            self.assertIn("without reasons", done.stderr.decode())
        self.assertIn("AUTHENTICATION REJECT", tools.ran("chart", self.log, answers).stdout.decode())

    def test_refused(self):
        """What needs the keys says so."""
        _, answers = self.written("wrong_res")
        for tool, *words in (("explain", self.log, answers), ("chart", "--reasons", self.log, answers),
                             ("capture", "out", self.log)):
            done = tools.ran(tool, *words)
            self.assertEqual((done.returncode, done.stdout, done.stderr.decode()), (2, b"", "%s: %s\n" % (tool, NO_KEYS_HERE)))
        silent = self.folder / "silent"
        silent.write_text("#!/bin/sh\ncat >/dev/null\n")
        silent.chmod(0o755)
        done = tools.ran("capture", "out", self.log, "--follow", "--mme", silent)
        self.assertEqual((done.returncode, done.stderr.decode()), (2, "capture: %s: so it can't be followed\n" % NO_KEYS_HERE))

    def test_filling_faults(self):
        """Vectors that aren't those of the log, and a log that isn't whole."""
        row, _ = self.written("attach_whole")
        others = self.folder / "others"
        line = next(line for line in row.read_text().splitlines() if line.startswith("vec "))
        for text, told in (
                ("", "the log has a vector of %s, by its RAND and AUTN, that isn't among those given" % IMSI),
                ("vec 1\n", "%s: line 1: vec has 5 fields, not 1" % others),
                (line + "\n" + line[:-1] + "0\n", "%s: line 2: %s" % (others, ONE_CHALLENGE)),
                (self.log.read_text(), "%s: line 3: a vector of %s has no keys: they were left out of a log" % (others, IMSI))):
            with self.subTest(told=told):
                others.write_text(text)
                self.assertEqual(filled(others, self.log), (2, "front: %s\n" % told))
        os.replace(self.log, self.folder / "log.segment.000002")
        self.log.write_text("# segment 3, begun now, without keys\n")
        self.assertEqual(filled(row, self.log), (2, "front: %s isn't whole: its segments are 2, 3\n" % self.log))
        os.unlink(self.folder / "log.segment.000002")
        self.assertEqual(filled(row, self.log), (2, "front: %s isn't whole: its segments are 3\n" % self.log))
        (self.folder / "log.snapshot.000001").touch()
        self.assertEqual(filled(row, self.log), (
            2, "front: %s isn't whole: its segments are 3: `tools/front play` plays it from a snapshot on\n" % self.log))

    def test_crashes(self):
        """What a crash left of a message is of no other."""
        row, _ = self.written("attach_whole")
        told = [line for line in self.log.read_text().splitlines() if line.startswith("# left out ")]
        self.assertEqual(len(told), 1)
        filling = KEYS.Filling(KEYS.read_vectors(row))
        lines = [told[0], "# time 2026-11-27 06:00:00.000", "in 0 " + "00" * 40, "in 0 0011"]
        self.assertEqual([filling.line(line) for line in lines], lines)


class Found(unittest.TestCase):
    def test_places(self):
        """Any XRES of any length, wherever it stands, the longest where one begins as another does."""
        names = {"aabbccdd": "4", "aabbccddee": "5", "00" * 16: "16"}
        lines = ["vec %015d %032x %032x %s %064x" % (int(name), 1, 2, xres, 3) for xres, name in names.items()]
        finder = KEYS.Finder(KEYS.Vectors(lines))
        for digits, places in (("aabbccdd", [(0, 4)]), ("11aabbccddeeff", [(2, 5)]), ("1aabbccdd1", []), ("aabbcc", []), ("-", []),
                               ("aabbccdd" * 3, [(0, 4), (8, 4), (16, 4)]), ("00" * 17, [(0, 16)])):
            self.assertEqual([(at, int(name.split(" ")[0])) for at, _, name in finder.places(digits)], places)
        self.assertEqual(KEYS.Finder(KEYS.Vectors()).places("aabbccdd"), [])


VECTOR = "vec %s %s\n" % (IMSI, " ".join(octet * count for octet, count in (("a1", 16), ("b2", 16), ("c3", 8), ("d4", 32))))


class Resuming(unittest.TestCase):
    def refused(self, head, *words):
        """The status of a front that doesn't come to serve these subscribers, and what it says."""
        folder = pathlib.Path(self.enterContext(tempfile.TemporaryDirectory()))
        (folder / "subscribers").write_text(head)
        return said(["run", folder / "subscribers", folder / "log", "--tcp", "--port", "0", *words])

    def ended(self, *words, head=HEAD + VECTOR):
        """A front that heard an XRES, and ended."""
        running = Running(self, *words, head=head)
        station = running.station()
        self.assertEqual(station.says(b"x" + b"\xc3" * 8 + b"y"), b"x" + b"\xc3" * 8 + b"y")
        self.assertEqual(running.stop()[0], 0)
        return running

    def test_log(self):
        """A message is without an XRES wherever it stands, and the vector without its keys."""
        running = self.ended(*NO_KEYS)
        for text in (whole(running), whole(running, ".counts")):
            self.assertIn("vec %s %s %s - -\n" % (IMSI, "a1" * 16, "b2" * 16), text)
            self.assertIn("# left out at octet 1: XRES of %s %s %s\nin 0 78%s79\n" % (IMSI, "a1" * 16, "b2" * 16, "00" * 8), text)
            self.assertNotIn("c3", text)
            self.assertNotIn("d4" * 4, text)
        again = Running(self, "--resume", *NO_KEYS, head=HEAD + VECTOR, folder=running.folder)
        self.assertIn(b"goes on", again.told)

    def test_longer_file(self):
        """A vector that the file has more at the next start stands in the log's head without its keys."""
        ended, other = self.ended(*NO_KEYS), VECTOR.replace("a1", "a7")
        again = Running(self, "--resume", *NO_KEYS, head=HEAD + VECTOR + other, folder=ended.folder)
        self.assertIn(b"given 0 subscribers, 1 vector: they stand in the head of", again.said())
        for text in (whole(again), whole(again, ".counts")):
            self.assertIn(KEYS.without_keys(other.rstrip()) + "\n# segment 1,", text)
            self.assertNotIn("d4" * 4, text)

    def test_without_the_vectors(self):
        """It isn't resumed with a file that lacks them, and not in another form."""
        for before, words, head, told in (
                (NO_KEYS, NO_KEYS, HEAD, "subscribers, and has no keys: each of its vectors has to stand there"),
                (NO_KEYS, (), HEAD + VECTOR, "log keeps no keys, and this run's log is to keep the vectors' keys (--log-keys)"),
                ((), NO_KEYS, HEAD + VECTOR, "log keeps the vectors' keys, and this run's log is to keep no keys (--log-keys)")):
            with self.subTest(told=told):
                ended = self.ended(*before)
                again = Running(self, "--resume", *words, head=head, folder=ended.folder)
                self.assertEqual(again.ended()[0], 2)
                self.assertIn("the last run isn't resumed: ", again.told.decode())
                self.assertIn(told, again.told.decode())

    def test_its_head_as_subscribers(self):
        """What a log without keys begins with provisions nobody, at the start or later."""
        vector = KEYS.without_keys(VECTOR.replace("a1", "a7")) + "\n"
        status, told = self.refused(HEAD + vector)
        self.assertEqual(status, 2)
        self.assertIn("subscribers: a vector has no keys: they were left out of a log", told)
        ended = self.ended()
        status, told = Running(self, "--resume", head=HEAD + VECTOR + vector, folder=ended.folder).ended()
        self.assertEqual((status, "a vector has no keys: they were left out of a log" in told), (2, True), told)

    def test_two_of_one_challenge(self):
        """Vectors that such a log couldn't tell apart aren't taken, at the start or later."""
        other, why = VECTOR.replace("d4" * 32, "d5" * 32), PROVISIONING.SAME_RAND % IMSI
        status, told = self.refused(HEAD + VECTOR + other, *NO_KEYS)
        self.assertEqual(status, 2)
        self.assertIn("subscribers: line 4: %s\n" % why, told)
        ended = self.ended(*NO_KEYS)
        status, told = Running(self, "--resume", *NO_KEYS, head=HEAD + VECTOR + other, folder=ended.folder).ended()
        self.assertEqual((status, "subscribers: line 4: %s\n" % why in told), (2, True), told)


if __name__ == "__main__":
    unittest.main()
