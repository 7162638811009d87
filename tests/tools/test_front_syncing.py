"""The log's turns on disk: answers that wait for them, faults of a sync, what counts, what stands beside, and what a crash left."""
import errno
import os
import pathlib
import tempfile
import types
import unittest
import unittest.mock

from reference import lte as LTE
from tests.tools.fronted import HEAD, IMSI, REMEMBERED, Running, said
from tools.fronting import exchange, front, journal, limits, provisioning, resuming, segments, syncing, used
from tools.fronting.faults import LOG_FAILS, Failed
from tools.fronting.loop import Loop
from tools.fronting.meters import Meters

DOWN, OTHER_DOWN = b"out s0 0 000b01\n", b"out s0 0 000b02\n"
MARK = b"refused 5\n"
FAULT = OSError(errno.EIO, os.strerror(errno.EIO))


def challenge(number):
    """A phone's challenge, by a vector of this number."""
    return LTE.downlink_nas(0x10001, 7, b"\x07\x52\x00" + bytes([number]) * 16 + b"\x10" + bytes(16))


def challenge_line(number):
    """The MME's answer that has it."""
    return b"out s0 0 %s\n" % challenge(number).hex().encode()


class ByHand:
    """Syncs when it is told to."""

    def __init__(self):
        self.jobs = []

    def sync(self, acts, then):
        self.jobs.append((acts, then))

    def files(self):
        """How many files the next job syncs."""
        return len(self.jobs[0][0])

    def end(self, fault=None):
        """Ends the first job."""
        acts, then = self.jobs.pop(0)
        if fault is None:
            for act, file in acts:
                act(file)
        then(fault)

    def close(self):
        pass


class Notes:
    """What stands beside a log, as the vectors that were used: true while it has something to be written."""

    def __init__(self, path):
        self.path, self.file, self.waiting = path, os.open(path, os.O_RDWR | os.O_CREAT | os.O_APPEND), b""

    @property
    def noted(self):
        return self.waiting

    def look_after(self):
        return False

    def forget_noted(self):
        self.waiting = b""

    def __bool__(self):
        return bool(self.waiting)

    def write(self):
        os.write(self.file, self.waiting)
        self.waiting = b""

    def sync(self):
        os.fsync(self.file)


class Receiver:
    """A station, which keeps what it is sent."""

    def __init__(self, kept):
        self.link, self.sent, self.is_lost = types.SimpleNamespace(put=kept.append), 0, False


class Turns(unittest.TestCase):
    """An exchange whose MME and disk are worked by hand."""

    syncer, full_disk = ByHand, exchange.END

    def setUp(self):
        self.folder = pathlib.Path(self.enterContext(tempfile.TemporaryDirectory()))
        self.log, self.loop, self.told, self.given = str(self.folder / "log"), Loop(), [], []
        self.addCleanup(self.loop.close)
        voice = types.SimpleNamespace(say=lambda event, text, **fields: self.told.append(event))
        self.notes = Notes(self.folder / "notes")
        self.addCleanup(os.close, self.notes.file)
        self.exchange = exchange.Exchange(self.loop, voice, Meters(), self.notes, self.full_disk)
        self.exchange.program = types.SimpleNamespace(give=self.given.append, size=0, takes_further=False)
        self.exchange.mark = b"data 9\n"
        self.journal = journal.Journal.begun(self.log, provisioning.Head(HEAD.splitlines()), 1 << 20, 3)
        self.disk = self.syncer() if self.syncer else None
        self.journal.keep_by(self.disk)
        self.exchange.write_to(self.journal)
        self.addCleanup(lambda: self.exchange.journal and self.exchange.journal.close())
        self.sent = []
        self.exchange.receivers[b"0"] = Receiver(self.sent)

    def turn(self, line="in 0 aa"):
        self.exchange.put(line, 0)
        self.exchange.flush()

    def lines(self, end=""):
        lines = pathlib.Path(self.log + end).read_text().splitlines()
        return [line for line in lines if not line.startswith(("mme ", "sub ", "# segment ", "# time "))]


class Held(Turns):
    def test_held(self):
        """The MME plays a turn while it is synced; its answers go out once it is on disk, in their order; later ones at once."""
        self.turn()
        self.assertEqual((self.given, self.lines()), ([b"in 0 aa\ndata 9\n"], ["in 0 aa"]))
        self.exchange.hear(DOWN + OTHER_DOWN[:5])
        self.assertEqual((self.sent, self.exchange.meters.outward), ([], {}))
        self.disk.end()
        self.assertEqual(self.sent, [b"\0\x0b\1"])
        self.exchange.hear(OTHER_DOWN[5:] + MARK)
        self.assertEqual(self.sent, [b"\0\x0b\1", b"\0\x0b\2"])
        self.assertTrue(self.exchange.is_quiet)

    def test_next_turn(self):
        """One turn is under way at a time; what comes meanwhile is the next, which has bounds."""
        self.turn()
        self.turn("in 0 bb")
        self.turn("tick 1")
        self.assertEqual(len(self.given), 1)
        self.assertEqual(self.lines(), ["in 0 aa"])
        self.assertTrue(self.exchange.is_free)
        for _ in range(limits.TURN_MESSAGES):
            self.exchange.put("in 0 cc", 0)
        self.assertFalse(self.exchange.is_free)
        self.exchange.hear(DOWN + MARK)
        self.disk.end()
        self.assertEqual(self.sent, [b"\0\x0b\1"])
        self.assertTrue(self.given[1].startswith(b"in 0 bb\ndata 9\ntick 1\ndata 9\nin 0 cc\n"))
        self.exchange.hear(OTHER_DOWN + MARK)
        self.assertEqual(len(self.sent), 1)
        self.disk.end()
        self.assertEqual(len(self.sent), 2)

    def test_those_who_ask(self):
        """They are told of states, and that something is taken, once the turn that these are of is on disk."""
        answers = []
        self.exchange.put("show " + IMSI)
        self.exchange.shows.append(lambda answer: answers.append(answer.states))
        self.exchange.when_kept(lambda: answers.append("taken"))
        self.exchange.flush()
        self.exchange.ask(["show " + IMSI], lambda answer: answers.append("asked"), lambda: answers.append("done"))
        self.assertEqual(self.given[1:], [b"show %s\ndata 9\n" % IMSI.encode()])
        state = b"state %s A B C\n" % IMSI.encode()
        self.exchange.hear(state + MARK + state + MARK)
        self.assertEqual(answers, [])
        self.disk.end()
        self.assertEqual(answers, ["A B C", "taken", "asked", "done"])

    def test_asking_meanwhile(self):
        """Who asks while a turn is under way is answered by what the MME was given so far, once that is on disk."""
        answers = []
        self.turn()
        self.turn("in 0 bb")
        self.exchange.ask(["show " + IMSI], lambda answer: answers.append("asked"), lambda: answers.append("done"))
        self.assertEqual(self.given[1:], [b"show %s\ndata 9\n" % IMSI.encode()])
        self.exchange.hear(MARK + b"state %s A B C\n" % IMSI.encode() + MARK)
        self.assertEqual(answers, [])
        self.disk.end()
        self.assertEqual(answers, ["asked", "done"])
        self.assertEqual(self.given[2:], [b"in 0 bb\ndata 9\n"])

    def test_lost_meanwhile(self):
        """What waits for a station that is lost meanwhile goes to nobody, not to the same association begun anew either."""
        self.turn()
        self.exchange.hear(DOWN + MARK)
        self.exchange.receivers[b"0"].is_lost = True
        self.disk.end()
        self.assertEqual((self.sent, self.exchange.is_quiet), ([], True))

    def test_replayed(self):
        """What was replayed waits for nothing."""
        done = []
        self.exchange.replay(b"in 0 aa\n", lambda: done.append(1))
        self.exchange.hear(DOWN + MARK)
        self.assertEqual((self.sent, done), ([b"\0\x0b\1"], [1]))


class Settling(Turns):
    def passes(self, line):
        """A turn is given, answered and on disk."""
        self.turn(line)
        self.exchange.hear(MARK)
        self.disk.end()

    def left_by_turns(self, write):
        """How many older segments there are after each of three turns of a second, before which what counts is written so."""
        left = []
        for _ in range(3):
            write()
            self.passes("tick 1")
            left.append(len(segments.older_segments(self.log)))
        return left

    def settled(self):
        return [line for line in self.lines(".counts") if line.startswith("# settled")]

    def test_what_counts(self):
        """The line on what is settled comes once what counts before it is on disk, and never before what happened is."""
        self.turn()
        self.exchange.hear(MARK)
        self.journal.write_settled(0.0)
        self.assertEqual(self.lines(".counts"), [])
        self.disk.end()
        self.journal.write_settled(0.0)
        self.assertEqual(self.lines(".counts"), ["in 0 aa"])
        self.turn("in 0 bb")
        self.assertEqual((self.disk.files(), self.settled()), (2, []))
        place = self.journal.until
        self.disk.end()
        self.assertEqual(self.settled(), ["# settled until segment %d, octet %d" % place])
        self.exchange.hear(MARK)
        self.turn("in 0 cc")
        self.assertEqual(self.disk.files(), 1)

    def test_removal(self):
        """A segment goes once a line that is on disk says that it is settled."""
        for number in range(4):
            self.passes("in 0 0%d" % number)
            self.journal.happened.roll()
        self.assertEqual(len(segments.older_segments(self.log)), 4)
        self.assertEqual(self.left_by_turns(lambda: self.journal.write_settled(0.0)), [4, 2, 2])

    def test_removal_by_seconds(self):
        """It goes even if nothing happens any more but that time passes."""
        for _ in range(4):
            self.passes("tick 1")
            self.journal.happened.roll()
        self.passes("tick 1")
        self.assertEqual(self.left_by_turns(self.exchange.write_settled), [4, 2, 2])

    def test_at_once(self):
        """Before new segments and at the end all is settled."""
        self.turn()
        self.exchange.hear(MARK)
        self.disk.end()
        self.journal.write_settled(0.0)
        self.exchange.look_after_log(rolls=True)
        self.assertEqual(sorted(segments.older_segments(self.log + ".counts")), [1])
        first = pathlib.Path(self.log + ".counts.segment.000001").read_text().splitlines()
        self.assertEqual([line.split(" ")[:2] for line in first[-2:]], [["in", "0"], ["#", "settled"]])
        self.turn("in 0 bb")
        self.exchange.look_after_log(rolls=True)  # after the turn
        self.assertEqual(sorted(segments.older_segments(self.log)), [1])
        self.exchange.hear(MARK)
        self.disk.end()
        self.assertEqual(sorted(segments.older_segments(self.log)), [1, 2])
        self.exchange.end_log()
        self.assertRegex(self.lines(".counts")[-1], "# settled until segment 2, octet [1-9]")


class Ends(Turns):
    def test_fault(self):
        """After a fault of the sync nothing of the turn goes out, and the front ends."""
        self.turn()
        self.exchange.hear(DOWN + MARK)
        with self.assertRaisesRegex(Failed, "log: Input/output error") as caught:
            self.disk.end(FAULT)
        self.assertEqual((caught.exception.status, self.sent), (LOG_FAILS, []))
        self.assertFalse(self.exchange.is_syncing or self.exchange.takes)

    def test_slow_disk(self):
        """A sync that takes too long is a fault."""
        self.turn()
        self.journal.since -= limits.FULL_SECONDS + 1
        with self.assertRaisesRegex(Failed, "it isn't on disk after 60 s"):
            self.exchange.look_after_log()


class Refuses(Turns):
    full_disk = exchange.REFUSE

    def test_fault(self):
        """The turn is cut off and written again, since the system may take for written what isn't; then its answers go out."""
        self.turn()
        before, safe = pathlib.Path(self.log).read_text(), self.journal.happened.safe
        self.exchange.hear(DOWN + MARK)
        self.disk.end(FAULT)
        self.assertEqual((self.told, self.sent, self.exchange.is_free), (["held"], [], False))
        with unittest.mock.patch.object(segments.os, "ftruncate", wraps=os.ftruncate) as cutting:
            self.exchange.look_after_log()
        cutting.assert_called_once_with(self.journal.happened.file, safe)
        self.assertEqual(pathlib.Path(self.log).read_text(), before)
        self.disk.end(FAULT)
        self.assertEqual(self.sent, [])
        self.exchange.look_after_log()
        self.disk.end()
        self.assertEqual((self.told, self.sent), (["held", "log_goes_on"], [b"\0\x0b\1"]))

    def test_not_for_ever(self):
        self.turn()
        self.disk.end(FAULT)
        self.exchange.held_since -= limits.FULL_SECONDS + 1
        self.exchange.look_after_log()
        with self.assertRaises(Failed):
            self.disk.end(FAULT)


class GoesOn(Turns):
    full_disk = exchange.GO_ON

    def test_fault(self):
        """The run goes on without its log, which no run takes up then."""
        self.turn()
        self.exchange.hear(DOWN + MARK)
        self.disk.end(FAULT)
        self.assertEqual((self.told, self.sent), (["no_log"], [b"\0\x0b\1"]))
        with self.assertRaisesRegex(resuming.NoResume, "log was given up, and the run went on without it"):
            resuming.Standing(self.log)
        os.unlink(self.log)
        begun = journal.Journal.begun(self.log, provisioning.Head(HEAD.splitlines()), 1 << 20, 3)
        self.addCleanup(begun.close)
        resuming.Standing(self.log)

    def test_that_cannot_be_said(self):
        """Where that can't be made so, the front ends."""
        self.turn()
        self.exchange.hear(DOWN + MARK)
        with unittest.mock.patch.object(journal.os, "replace", side_effect=FAULT), self.assertRaises(Failed):
            self.disk.end(FAULT)
        self.assertEqual(self.sent, [])

    def test_vectors(self):
        """Which vectors are used is on disk before their challenges go out then too; where it isn't, they go to nobody."""
        vectors = used.UsedVectors(self.log + used.LOG_END)
        self.addCleanup(vectors.close)
        self.exchange.used, self.exchange.imsis, self.journal.beside = vectors, [IMSI], [vectors]
        self.turn()
        self.disk.end(FAULT)
        self.turn()
        synced = []
        with unittest.mock.patch.object(used.os, "fsync", side_effect=lambda file: synced.append((file, len(self.sent)))):
            self.exchange.hear(MARK + challenge_line(1))
        self.assertEqual((synced, self.sent), ([(vectors.file, 0)], [challenge(1)]))
        with unittest.mock.patch.object(used.os, "fsync", side_effect=FAULT):
            self.exchange.hear(challenge_line(2) + OTHER_DOWN)
        self.exchange.hear(challenge_line(2) + challenge_line(1) + MARK)
        self.assertEqual(self.sent[1:], [b"\0\x0b\2", challenge(2), challenge(1)])
        self.assertEqual(self.told, ["no_log", "no_challenge"])


class Beside(Turns):
    def test_beside(self):
        """What stands beside the log is written and on disk before the answer that it is of, and those after that, go out."""
        notes = self.notes
        self.turn()
        self.disk.end()
        self.exchange.hear(DOWN)
        self.assertEqual(len(self.sent), 1)
        notes.waiting = b"of the next"
        self.exchange.hear(OTHER_DOWN)
        self.exchange.hear(DOWN + MARK)
        self.assertEqual((len(self.sent), os.pread(notes.file, 100, 0)), (1, b"of the next"))
        self.disk.end()
        self.assertEqual(self.sent[1:], [b"\0\x0b\2", b"\0\x0b\1"])

    def test_both(self):
        """Where the turn is on disk later, they wait for that; what comes while notes are written is written after them."""
        notes = self.notes
        self.turn()
        notes.waiting = b"one "
        self.exchange.hear(DOWN)
        notes.waiting = b"two"
        self.exchange.hear(OTHER_DOWN + MARK)
        self.disk.jobs.reverse()
        self.disk.end()
        self.assertEqual((self.sent, os.pread(notes.file, 100, 0)), ([], b"one two"))
        self.disk.end()
        self.assertEqual(self.sent, [b"\0\x0b\1"])
        self.disk.end()
        self.assertEqual(self.sent, [b"\0\x0b\1", b"\0\x0b\2"])


    def test_fault(self):
        """After a fault of such a sync the front ends, and what waited for it never goes out."""
        notes = self.notes
        self.turn()
        self.disk.end()
        notes.waiting = b"one"
        self.exchange.hear(DOWN)
        with self.assertRaisesRegex(Failed, "what stands beside .*log isn't on disk: Input/output error"):
            self.disk.end(FAULT)
        notes.waiting = b"two"
        self.exchange.hear(OTHER_DOWN + MARK)
        self.exchange.end_log()
        self.assertEqual((self.sent, self.disk.jobs, self.exchange.is_syncing), ([], [], False))


class Challenges(Turns):
    """Of answers that come together, some challenge phones."""

    syncer, full_disk = None, exchange.GO_ON

    def setUp(self):
        super().setUp()
        self.journal.beside.clear()
        self.vectors = used.UsedVectors(self.log + used.LOG_END)
        self.addCleanup(self.vectors.close)
        self.exchange.used, self.exchange.imsis = self.vectors, [IMSI]
        self.journal.beside.append(self.vectors)

    def answers(self):
        """What the MME answers at once, in the form of its lines; the first challenge is a repeated one."""
        self.vectors.add(["vec %s %s - - -" % (IMSI, "01" * 16)])
        first, second, third = map(challenge_line, (1, 2, 3))
        return b"".join((DOWN, first, OTHER_DOWN, second, DOWN, third, OTHER_DOWN, MARK))

    def test_order(self):
        """Those before the first of a new vector go out without it; the others once all the vectors are written, in their order."""
        self.turn()
        told, answers = [], self.answers()
        self.exchange.note_challenge = lambda slot, rand: told.append((slot, rand[0]))
        with unittest.mock.patch.object(self.exchange, "write_beside"):
            self.exchange.hear(answers)
        self.assertEqual(self.sent, [b"\0\x0b\1", challenge(1), b"\0\x0b\2"])
        self.exchange.write_beside()
        self.assertEqual(self.sent[3:], [challenge(2), b"\0\x0b\1", challenge(3), b"\0\x0b\2"])
        self.assertEqual(told, [(0, 1), (0, 2), (0, 3)])
        lines = pathlib.Path(self.vectors.path).read_text().split()
        self.assertEqual(lines, [word for number in "123" for word in (IMSI, ("0" + number) * 16)])

    def test_not_written(self):
        """Where the vectors can't be written and the front goes on, their challenges go to nobody, and all else goes out."""
        self.turn()
        answers = self.answers()
        with unittest.mock.patch.object(used, "add_whole", side_effect=FAULT):
            self.exchange.hear(answers)
        self.assertEqual(self.sent, [b"\0\x0b\1", challenge(1), b"\0\x0b\2", b"\0\x0b\1", b"\0\x0b\2"])
        self.assertEqual(self.told, ["no_log", "no_challenge"])

    def test_nobodys(self):
        """A challenge for a phone that there isn't ends the front; what the MME answered before went out."""
        self.turn()
        with self.assertRaisesRegex(Failed, "for nobody: s1"):
            self.exchange.hear(DOWN + challenge_line(2).replace(b"s0", b"s1"))
        self.assertEqual(self.sent, [b"\0\x0b\1"])

    def test_no_answer(self):
        """So does a line that is none; what came before it goes out."""
        for line in (b"out s0 0\n", b"out s0 128 00\n", b"out s 0 00\n", b"out q0 0 00\n", b"out s0 0 0g\n", b"out s0 0 00 00\n"):
            with self.subTest(line=line):
                self.turn()
                with self.assertRaisesRegex(Failed, "what the MME printed is no answer: " + line.decode().strip()):
                    self.exchange.hear(DOWN + line + OTHER_DOWN)
                self.assertEqual(self.sent, [b"\0\x0b\1"])
                self.sent.clear()

    def test_without_a_page(self):
        """What nobody looks at isn't kept; it is counted as where it is."""
        for keeps in (True, False):
            self.exchange.meters = Meters(keeps)
            self.turn()
            self.exchange.hear(DOWN + OTHER_DOWN + MARK)
            self.assertEqual(sum(self.exchange.meters.outward.values()), 2)
            self.assertEqual((len(self.exchange.meters.recent), len(self.exchange.meters.places)), (2, 1) if keeps else (0, 0))


class Unsynced(Turns):
    syncer = None

    def test_at_once(self):
        """Without syncs nothing waits but for what stands beside the log to be written."""
        notes = self.notes
        self.turn()
        self.exchange.hear(DOWN)
        notes.waiting = b"of the next"
        with unittest.mock.patch.object(notes, "write", side_effect=FAULT), self.assertRaises(Failed):
            self.exchange.hear(OTHER_DOWN)
        self.assertEqual(self.sent, [b"\0\x0b\1"])
        self.exchange.hear(MARK)
        self.assertEqual((self.sent, os.pread(notes.file, 100, 0)), ([b"\0\x0b\1", b"\0\x0b\2"], b"of the next"))

    def test_boots(self):
        """It is known in which boot the log was written, until all of it is on disk."""
        self.assertIsNone(syncing.why_unsure(self.log))
        with unittest.mock.patch.dict(os.environ, {"BOOT_ID": "another"}):
            self.assertIn("isn't known", syncing.why_unsure(self.log))
        pathlib.Path(self.log + syncing.UNSYNCED).write_bytes(bytes(33))
        self.assertIn("isn't known", syncing.why_unsure(self.log))
        self.exchange.end_log()
        self.assertIsNone(syncing.why_unsure(self.log))

    def test_beside_at_the_beginning(self):
        """What stands beside a log that wasn't synced is on disk before it counts as synced, where it is taken up."""
        done = unittest.mock.Mock()
        settings = types.SimpleNamespace(sync="no", log=self.log)
        begun = types.SimpleNamespace(exchange=done.exchange, used=done.used, voice=done.voice, saving=done.saving, loop=None,
                                      settings=settings)
        front.Front.write_to(begun, done.journal)
        names = [name for name, _, _ in done.mock_calls]
        self.assertLess(names.index("used.sync"), names.index("journal.keep_by"))

    def test_beside_at_the_end(self):
        """And so at the end."""
        synced = []
        with unittest.mock.patch.object(journal.os, "fdatasync", side_effect=lambda file: synced.append(
                (file, os.path.exists(self.log + syncing.UNSYNCED)))):
            self.exchange.end_log()
        self.assertIn((self.notes.file, True), synced)
        self.assertIsNone(syncing.why_unsure(self.log))


class Crashes(unittest.TestCase):
    def folder(self):
        return pathlib.Path(self.enterContext(tempfile.TemporaryDirectory()))

    def killed(self):
        """A front that was killed after something was to be remembered."""
        running = Running(self)
        self.assertEqual(running.station().says(REMEMBERED), REMEMBERED)
        running.process.kill()
        running.ended()
        return running

    def resumed(self, running, *words):
        again = Running(self, "--resume", *words, folder=running.folder)
        self.assertIn(b"goes on", again.told, again.process.poll())
        self.assertEqual(again.asks("show", IMSI), "state %s HEARD-1 IDLE INACTIVE\n" % IMSI)
        self.assertEqual(again.stop()[0], 0)
        return again

    def test_torn_ends(self):
        """What a crash leaves after the last turn is cut off: a long line that was begun, or zeros with later lines after them."""
        running = self.killed()
        for more in (b"in 0 " + b"f6" * 10000, b"in 0 f6" + bytes(9000) + b"\nin 0 f6\n", bytes(5000) + b"\nin 0 f6\n"):
            for end in ("", ".counts"):
                with open(str(running.log) + end, "ab") as log:
                    log.write(more)
            self.resumed(running)
            self.assertNotIn(b"\0", running.log.read_bytes())

    def test_between_two_names(self):
        """Where the file that is written has got its number and the next one not yet its place, that is done."""
        for end in ("", ".counts"):
            running = self.killed()
            path = str(running.log) + end
            os.replace(path, path + ".segment.000001")
            pathlib.Path(path + ".new").write_bytes(segments.line_of(2))
            self.resumed(running)

    def test_not_synced(self):
        """Where the log isn't synced the front says so. It takes it up after a kill; after a boot, where it ended in order."""
        running = Running(self, "--sync", "no", environment={"BOOT_ID": "one"})
        self.assertIn(b"isn't synced (--sync no): after a power cut it may lack what was answered", running.told)
        self.assertEqual(running.station().says(REMEMBERED), REMEMBERED)
        running.process.kill()
        running.ended()
        with unittest.mock.patch.dict(os.environ, {"BOOT_ID": "two"}):
            words = ["run", "--resume", "--tcp", "--port", "0", running.subscribers, running.log]
            status, told = said(words)
            self.assertEqual(status, 2)
            self.assertIn("the machine was booted since: what was answered at the end isn't known", told)
            running.log.rename(running.folder / "elsewhere")
            self.assertEqual(said(words)[0], 2)
            (running.folder / "elsewhere").rename(running.log)
        with unittest.mock.patch.dict(os.environ, {"BOOT_ID": "one"}):
            self.resumed(running, "--sync", "no")
        self.resumed(running)

    def test_an_end_twice(self):
        """An MME that ends over the last log is ended once, and the front ends at once where it can't begin."""
        running = self.killed()
        counts = pathlib.Path(str(running.log) + ".counts")
        counts.write_text(counts.read_text().replace("in 0 f6", "in 0 f2"))
        running.log.write_text(running.log.read_text().replace("in 0 f6", "in 0 f2"))
        again = Running(self, "--resume", folder=running.folder)
        status, told = again.ended()
        self.assertEqual(status, 7)
        self.assertIn("the last run isn't resumed: the MME ended with status 7", told)
        self.assertNotIn("the MME doesn't end", told)
        self.assertNotIn("Traceback", told)
