"""tools/front that asks a source for vectors and goes on after snapshots: what it knows of lines that stand in no file. The MME is a
stand-in here (standing_in.py); tests/library has the library's."""
import os
import pathlib
import random
import re
import shutil
import signal
import time
import unittest
import unittest.mock

from bench.etcds import free_port
from reference import lte
from tests.tools import test_front_etcd, tools
from tests.tools.asked import STANDING_IN, Asking
from tests.tools.fronted import LIBRARY, Running
from tests.tools.handsets import REGISTERED
from tests.tools.test_front_asking import Asked, KEY, POOL
from tests.tools.test_front_snapshots import NEVER, snapshots_in
from tools.fronting import snapshots
from tools.fronting.segments import older_segments

OFTEN = ("--snapshot", "0.0005,0.0005")
NO_ANSWER = ("--source", "sleep 1000")  # one that changes nothing
ANOTHER = "sub 00102000000000%d 0b00000%d 0a000064 0000010%d\n"
LEFT = re.compile(r"^(\d+) .*vectors_left=(\d+)", re.MULTILINE)
VEC = "vec %s %032x %032x %016x %064x\n"


class Stays(Asked):
    """Fronts with a source that are ended and go on."""

    patient = STANDING_IN, "--held", "30", "--rest", "0.05"

    def added(self, count, *words, **named):
        """SIMs of whom no file knows, each registered once, with its stock."""
        lab = self.laboratory(count, "--resume", *words, *POOL, provisioned=False, **named)
        lab.attach(lab.phones)
        self.are_stocked(lab)
        return lab

    @staticmethod
    def are_stocked(lab):
        lab.running.until(lambda: lab.running.asks("phones").count("vectors_left=5") == len(lab.phones))

    def killed(self, lab):
        lab.running.process.kill()
        lab.running.ended()

    def goes_on(self, lab, *words, **named):
        """The front that goes on, after a snapshot."""
        lab.begin(*words, **named)
        self.assertIn(b"goes on", lab.running.told)
        self.assertNotIn(b"isn't taken", lab.running.told)

    def newest(self, lab):
        return pathlib.Path(max(snapshots_in(lab.folder).items())[1])

    def another(self, lab):
        """Waits for a further snapshot, which is made since something counts."""
        before, request = max(snapshots_in(lab.folder), default=0), lte.s1_setup_request(lab.radio.network, lab.radio.station)
        lab.running.until(lambda: lab.radio.send(request) or max(snapshots_in(lab.folder), default=0) > before)

    def two_more(self, lab):
        """Waits until both snapshots are of now; the first that comes may have been begun before."""
        for _ in range(3):
            self.another(lab)

    def without_the_beginning(self, lab):
        """Kills a front whose log goes on in a second segment, by two snapshots that are of that, and removes the first."""
        log, counts = lab.running.log, pathlib.Path(str(lab.running.log) + ".counts")
        lab.running.until(lambda: all(path.read_text().count("#+ ") == len(lab.running.given()) for path in (log, counts)))
        lab.running.process.send_signal(signal.SIGHUP)
        lab.running.until(lambda: older_segments(str(counts)))
        self.two_more(lab)
        self.killed(lab)
        for series in (log, counts):
            os.unlink(older_segments(str(series))[1])

    def check_rands(self, lab):
        """No RAND came twice, and each stands in LOG.used once."""
        heard = [rand.hex() for phone in lab.phones for rand in phone.heard]
        used = [line.split(" ")[1] for line in (lab.folder / "log.used").read_text().splitlines()]
        self.assertEqual((len(heard), len(used)), (len(set(heard)), len(set(used))))
        self.assertLessEqual(set(heard), set(used))


class GoesOn(Stays):
    def test_without_the_beginning(self):
        """Where the lines that were supplied are gone with their segment, all stay: who was added is let in by the vectors that are
        left, nothing is asked for that is there, and who comes next has an address and a TEID of his own."""
        lab = self.laboratory(3, "--resume", *OFTEN, *POOL, provisioned=False)
        lab.attach(lab.phones[:2])
        lab.running.until(lambda: lab.running.asks("phones").count("vectors_left=5") == 2)
        subs = [line for line in lab.running.log.read_text().splitlines() if line.startswith("#+ sub")]
        left = LEFT.findall(lab.running.asks("phones"))
        self.without_the_beginning(lab)
        asked = lab.running.asked()
        self.assertEqual([path.name for path in lab.folder.glob("log*") if path.suffix not in (".control", ".lock") and
                          b"#+ vec" in path.read_bytes()], [])
        port = free_port()
        self.goes_on(lab, *OFTEN, "--page", "127.0.0.1:%d" % port)
        self.assertEqual((len(left), LEFT.findall(lab.running.asks("phones"))), (2, left))
        page, metrics = (test_front_etcd.Fronts.get(port, path).decode() for path in ("/", "/metrics"))
        self.assertIn('soizkadur_vectors_left{left="4+"} 2\n', metrics)
        self.assertIn('soizkadur_vectors_left_minimum 5\n', metrics)
        self.assertEqual([imsi in page for imsi in lab.imsis(0, 1, 2)], [True, True, False])
        self.assertEqual(KEY.findall(page + metrics), [])
        lab.attach(lab.phones)
        self.assertEqual([phone.outcomes for phone in lab.phones], [[REGISTERED] * 2, [REGISTERED] * 2, [REGISTERED]])
        self.assertEqual({line.split(" ")[1] for line in lab.running.asked()[len(asked):]}, {lab.phones[2].imsi})
        subs += [line for line in lab.running.log.read_text().splitlines() if line.startswith("#+ sub")]
        self.assertEqual([len({line.split(" ")[field] for line in subs}) for field in (2, 3, 5)], [3, 3, 3])
        self.check_rands(lab)
        self.assertEqual(lab.running.stop()[0], 0)

    def test_killed(self):
        """Killed at random moments while phones attach and are stocked: as where the whole log is played; nobody is rejected, and no
        RAND comes twice."""
        lab, chance = self.added(4, *OFTEN), random.Random(7)
        for times in range(8):
            for phone in lab.phones:
                phone.begins()
            end = time.monotonic() + chance.uniform(0, 0.3)
            while time.monotonic() < end:
                lab.radio.hears(0.001)
            self.killed(lab)
            copy, told = lab.folder.with_name(lab.folder.name + ".copy"), []
            shutil.copytree(lab.folder, copy, ignore=shutil.ignore_patterns("*.control", "sqns*"))
            self.addCleanup(shutil.rmtree, copy, True)
            for number, path in snapshots_in(copy).items():
                os.unlink(path)
            for folder in (lab.folder, copy):
                running = Asking(self, folder, "--resume", *NEVER, *NO_ANSWER, *POOL, head=lab.head, front=self.patient)
                told.append((LEFT.findall(running.asks("phones")), b"isn't taken" in running.told))
                running.process.kill()
                running.ended()
            shutil.rmtree(copy)
            with self.subTest(times=times):
                self.assertEqual(told[0], told[1])
                self.assertEqual((len(told[0][0]), told[0][1]), (4, False))
            self.goes_on(lab, *OFTEN)
            lab.attach(lab.phones)
        self.assertEqual({outcome for phone in lab.phones for outcome in phone.outcomes}, {REGISTERED})
        self.check_rands(lab)
        self.assertEqual(lab.running.stop()[0], 0)

    def test_low(self):
        """Who is here and has few vectors is asked for at the start, and nobody else is."""
        lab = self.laboratory(2, "--resume", *NEVER, *NO_ANSWER, oddities=None)
        (lab.folder / "given").write_text("".join(VEC % (phone.imsi, number, 0, 0, 0) for number, phone in enumerate(lab.phones)))
        self.assertRegex(lab.running.asks("give", lab.folder / "given"), "^given 0 subscribers, 2 vectors")
        lab.phones[0].begins()
        lab.running.until(lambda: "vectors_left=0" in lab.running.asks("phones"))
        self.assertEqual((lab.running.stop()[0], len(snapshots_in(lab.folder))), (0, 1))
        lab.words, lab.oddities = ["--resume", *NEVER], ()
        self.goes_on(lab)
        lab.running.until(lambda: "vectors_left=5" in lab.running.asks("phones"))
        self.assertEqual(lab.running.asked(), ["vectors %s 5 001 01" % lab.phones[0].imsi])
        self.assertEqual(lab.running.stop()[0], 0)

    def test_bounded(self):
        """What the front puts into a snapshot doesn't grow with the vectors that are spent; the numbers of both are told."""
        lab, sizes, used = self.added(1, *NEVER), [], []
        for count in (2, 30):
            for _ in range(count):
                self.assertEqual(lab.phones[0].attaches(), REGISTERED)
            self.assertEqual(lab.running.stop()[0], 0)
            path = self.newest(lab)
            snapshot = snapshots.read(path)
            left = sum(map(len, snapshot.known.left))
            sizes.append(path.stat().st_size - len(snapshot.octets) - left - len(path.read_bytes().split(b"\n", 2)[1]))
            used.append(sum(snapshot.known.spent))
            self.goes_on(lab)
        self.assertEqual(sizes[0], sizes[1])
        self.assertEqual(used, [3, 33])
        self.check_rands(lab)
        self.assertEqual(lab.running.stop()[0], 0)

    def test_no_keys(self):
        """The front's own part has no key of a vector, and what is told of a snapshot has none, nor an IMSI."""
        lab = self.added(2, *NEVER)
        keys = [key for line in lab.running.log.read_text().splitlines() if line.startswith("#+ vec") for key in line.split(" ")[4:]]
        self.assertEqual(lab.running.stop()[0], 0)
        octets, mme = self.newest(lab).read_bytes(), snapshots.read(self.newest(lab)).octets
        own = octets.replace(mme, b"")
        self.assertEqual(len(own), len(octets) - len(mme))
        self.assertGreater(len(keys), 20)
        self.assertEqual([key for key in keys if bytes.fromhex(key) in own or key.encode() in own], [])
        told = tools.ran("front", "snapshot", lab.running.log).stdout.decode()
        self.assertRegex(told, "^snapshot 1 .* subscribers=2 given_subscribers=2 lines=15 given_lines=14 vectors_used=2 vectors_left=10 ")
        self.assertEqual((KEY.findall(told), lab.phones[0].imsi in told), ([], False))


class Tools(Stays):
    """What tools make of a log whose first segments are gone."""

    def test_tools(self):
        """`show` reads what is there, and the others say that they need the library for it (tests/library has them with that); `fill`
        says which segments there are, and what plays them."""
        self.enterContext(unittest.mock.patch.dict(os.environ, {"SOIZKADUR_LIBRARY": str(tools.TOP / "none")}))
        lab = self.added(2, *OFTEN)
        self.without_the_beginning(lab)
        self.goes_on(lab, *OFTEN)
        for _ in range(3):
            lab.attach(lab.phones)
        self.are_stocked(lab)
        self.assertEqual(lab.running.stop()[0], 0)
        for log, mark in ((lab.running.log, "\n# resumed\n"), (pathlib.Path(str(lab.running.log) + ".counts"), "\n# snapshot ")):
            with self.subTest(log=log.name):
                text = log.read_text()
                self.assertTrue(text.startswith("# segment 2, begun ") and mark in text and "\n#+ vec " in text)
                shown = tools.ran("show", "--brief", log)
                self.assertEqual((shown.returncode, shown.stderr), (0, b""))
                self.assertEqual(shown.stdout.count(b"[ATTACH REQUEST"), 6)
                for words in (["explain"], ["chart"], ["capture", "out"]):
                    done = tools.ran(*words, log)
                    self.assertEqual((done.returncode, done.stdout, b"there is no library" in done.stderr), (2, b"", True), done)
        (lab.folder / "vectors").write_text("")
        for words in ((), ("--head",)):
            done = tools.ran("front", "fill", *words, lab.folder / "vectors", lab.running.log)
            said = b"log isn't whole: its segments are 2: `tools/front play` plays it from a snapshot on"
            self.assertEqual((done.returncode, said in done.stderr), (2, True), done)


class Refused(Stays):
    """What is checked of a log with snapshots as of one without."""

    def test_had_before(self):
        """A RAND that was used before, or that is left, isn't taken after a snapshot either."""
        lab = self.added(1, *NEVER)
        rands = [line.split(" ")[3] for line in lab.running.log.read_text().splitlines() if line.startswith("#+ vec")]
        self.assertEqual(lab.running.stop()[0], 0)
        (lab.folder / "sqns").unlink()  # so the source begins again
        self.goes_on(lab)
        imsi = lab.phones[0].imsi
        for rand, told in ((rands[0], "its vector was used already"), (rands[-1], "has a vector with this RAND already")):
            (lab.folder / "given").write_text(VEC % (imsi, int(rand, 16), 0, 0, 0))
            self.assertIn(told, lab.running.asks("give", lab.folder / "given"))
        outcomes = [lab.phones[0].attaches() for _ in range(5)]
        self.assertEqual(outcomes[:5], [REGISTERED] * 5)
        lab.running.until(lambda: b"tells what can't be taken for IMSI %s: its vector was used already" % imsi.encode() in
                          lab.running.said())
        self.check_rands(lab)
        self.assertEqual(lab.running.stop()[0], 0)

    def test_a_challenge_that_is_missing(self):
        """A log without a challenge since the snapshot isn't gone on with."""
        lab = self.added(1, *NEVER)
        self.assertEqual(lab.running.stop()[0], 0)
        self.goes_on(lab)
        before = {path: path.read_bytes() for path in (lab.folder / "log.counts", lab.folder / "log")}
        self.assertEqual(lab.phones[0].attaches(), REGISTERED)
        self.killed(lab)
        for path, octets in before.items():
            path.write_bytes(octets)
        status, told = Asking(self, lab.folder, "--resume", *NEVER, *POOL, head=lab.head, front=self.patient).ended()
        self.assertEqual(status, 2)
        self.assertRegex(told, "has no challenge of 1 vector that .*log.used has")

    def test_used_is_lost(self):
        """Where LOG.used lacks what it had, the log is played from its beginning; where that is gone, nothing goes on."""
        lab = self.added(2, *OFTEN)
        self.two_more(lab)
        self.killed(lab)
        used = lab.folder / "log.used"
        lines = used.read_text().splitlines(keepends=True)
        for text in ("", "".join(lines[:1]), "".join(lines[::-1][:1]) + lines[0][:-3] + "00\n"):
            used.write_text(text)
            saved = len(snapshots_in(lab.folder))
            lab.begin(*NEVER)
            why = b"isn't taken: %s lacks vectors that were used before" % str(used).encode()
            self.assertEqual(lab.running.told.count(why), saved)
            self.assertIn(b"goes on", lab.running.told)
            self.assertLessEqual(set(lines), set(used.read_text().splitlines(keepends=True)))
            self.killed(lab)
        used.write_text("".join(lines))
        self.goes_on(lab, *OFTEN)
        self.without_the_beginning(lab)
        used.unlink()
        saved = len(snapshots_in(lab.folder))
        status, told = Asking(self, lab.folder, "--resume", *NEVER, *POOL, head=lab.head, front=self.patient).ended()
        self.assertEqual((status, told.count("lacks vectors that were used before")), (2, saved))
        self.assertIn("log.counts isn't whole: its segments are 2", told)

    def test_moved(self):
        """LOG.used that was moved away is written again as it was, so that snapshots before stay good."""
        lab = self.added(3, *OFTEN)
        self.assertEqual(lab.phones[0].attaches(), REGISTERED)
        self.another(lab)
        used = lab.folder / "log.used"
        before = used.read_text()
        self.assertNotEqual(before.splitlines(), sorted(before.splitlines()))
        used.unlink()
        lab.running.until(used.exists)
        lab.running.until(lambda: used.read_text() == before)
        self.assertEqual(len(before.splitlines()), 4)
        self.killed(lab)
        self.goes_on(lab)
        self.assertEqual(lab.running.stop()[0], 0)


class Plain(Running):
    """A front that goes on with a log and a file, by these words."""

    def __init__(self, test, lab, head, *words):
        self.front = test.patient
        super().__init__(test, "--resume", *NEVER, *words, head=head, program=LIBRARY, folder=lab.folder)


class Provisioning(Stays):
    """Subscribers' files and sources that are others than before."""

    def told(self, *given):
        """What a front says that doesn't begin."""
        status, told = Plain(self, *given).ended()
        self.assertEqual(status, 2, told)
        return told

    def saved(self):
        """One phone in the file, which is registered and stocked."""
        lab = self.laboratory(1, "--resume", *NEVER)
        self.assertEqual(lab.phones[0].attaches(), REGISTERED)
        self.are_stocked(lab)
        return lab

    def test_lengthened(self):
        """A file that has more is given what it has more, once; what was given and isn't there stays."""
        lab = self.saved()
        (lab.folder / "given").write_text(ANOTHER % (1, 1, 1) + VEC % ("001020000000001", 7, 7, 7, 7))
        self.assertEqual(lab.running.asks("give", lab.folder / "given"), "given 1 subscriber, 1 vector\n")
        for more, given in (("", []), (ANOTHER % (1, 1, 1) + VEC % ("001020000000001", 7, 7, 7, 7) + ANOTHER % (2, 2, 2), [2]),
                            ("", []), (ANOTHER % (3, 3, 3), [3])):
            self.assertEqual(lab.running.stop()[0], 0)
            before = lab.running.given()
            self.goes_on(lab, head=lab.head + more)
            lab.running.until(lambda wanted=[("sub", "00102000000000%d" % number) for number in given]:
                              lab.running.given() == before + wanted)
            with self.subTest(given=given):
                self.assertNotIn(b"isn't given", lab.running.said())
                self.assertIn("001020000000001 DEREGISTERED IDLE INACTIVE vectors_left=1\n", lab.running.asks("phones"))
        self.assertEqual(lab.phones[0].attaches(), REGISTERED)
        self.check_rands(lab)
        self.assertEqual(lab.running.stop()[0], 0)

    def test_another(self):
        """A file whose first lines are others is refused, for each snapshot and for the log."""
        lab = self.saved()
        self.assertEqual(lab.running.stop()[0], 0)
        told = self.told(lab, lab.head.replace("0a000001", "0a000009"), *NO_ANSWER)
        self.assertIn("it is of another provisioning: the subscribers' file has to begin with its 2 lines", told)
        self.assertIn("log begins with other lines than", told)

    def test_without_its_source(self):
        """A run without the source goes on once the file has all that was supplied, and is refused in words before."""
        lab = self.saved()
        lines = [line.removeprefix("#+ ") + "\n" for line in lab.running.log.read_text().splitlines() if line.startswith("#+ ")]
        self.assertEqual(lab.running.stop()[0], 0)
        for head in (lab.head, lab.head + "".join(lines[:-1])):
            told = self.told(lab, head)
            self.assertIn("isn't taken: it has lines that the subscribers' file lacks: put them at its end, or give "
                          "--source", told)
            self.assertIn("log begins with other lines than", told)
        running = Plain(self, lab, lab.head + "".join(lines))
        self.assertNotIn(b"isn't taken", running.told)
        self.assertIn("vectors_left=5", running.asks("phones"))
        self.assertEqual(running.stop()[0], 0)

    def test_with_a_source_since(self):
        """A run that begins with a source after one without: the file needn't have any more what was given."""
        lab = self.saved()
        self.killed(lab)
        for path in lab.folder.glob("log*"):
            path.unlink()
        vectors = "".join(VEC % (lab.phones[0].imsi, number, number, number, number) for number in range(1, 4))
        running = Plain(self, lab, lab.head)
        (lab.folder / "given").write_text(vectors)
        self.assertEqual(running.asks("give", lab.folder / "given"), "given 0 subscribers, 3 vectors\n")
        self.assertEqual(running.stop()[0], 0)
        for head in (lab.head + vectors, lab.head):
            self.goes_on(lab, head=head)
            self.assertIn("vectors_left=3", lab.running.asks("phones"))
            self.assertEqual(lab.running.stop()[0], 0)

    def test_anew(self):
        """A run that begins anew, since the log can't be gone on with once it was played, asks for nobody of the log."""
        lab = self.laboratory(2, "--resume", "--anew", "--keep", "1", "--snapshot", "no", *POOL, provisioned=False)
        lab.attach(lab.phones)
        self.killed(lab)
        used = lab.folder / "log.used"
        line = next(line for line in reversed(lab.running.log.read_text().splitlines()) if line.startswith("#+ vec"))
        with open(used, "a", encoding="ascii") as file:
            file.write(" ".join(line.split(" ")[2:4]) + "\n")
        lab.begin()
        self.assertIn(b"nobody is attached", lab.running.told)
        self.assertEqual(lab.running.asks("phones"), "log whole=True segments_share=0.062\n")
        lab.attach(lab.phones)
        self.assertEqual([phone.outcomes for phone in lab.phones], [[REGISTERED] * 2] * 2)
        self.check_rands(lab)
        self.assertEqual(lab.running.stop()[0], 0)


if __name__ == "__main__":
    unittest.main()
