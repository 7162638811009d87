"""Why messages did not do what they seem to, as the page of tools/front has it: the same as tools/explain tells of the log, while
the front runs, and at next to no cost for the stations."""
import html
import json
import re
import signal
import subprocess
import sys
import types
import unittest
import unittest.mock

from tests.tools import remembering, tools
from tests.tools.fronted import HEAD, PROGRAM
from tests.tools.test_front_page import PHONES, Spoken, lte
from tools import runs, s1ap
from tools.eps import story
from tools.eps.remembered import Remembered
from tools.fronting import limits, teller
from tools.fronting.journal import Batch
from tools.fronting.loop import Loop
from tools.fronting.provisioning import Head
from tools.fronting.teller import Teller

EXAMPLES = sorted((tools.TOP / "examples").glob("*.trace"))
REASON = re.compile(r'<text class="reason fault"[^>]*>([^<]*)</text>')


def batch_of(text, before):
    """A line that the MME is given, below so many lines of the log."""
    batch = Batch()
    batch.add(text)
    batch.before = before
    return batch


def complete_of(lines):
    """The NAS message ATTACH COMPLETE among the messages of an attach."""
    carried = [s1ap.carried(s1ap.read(bytes.fromhex(line.split(" ")[2]))) for line in lines]
    return next(octets for octets in carried if octets and s1ap.nas(octets).type == s1ap.ATTACH_COMPLETE)


class MadeUp(unittest.TestCase):
    """A teller of a front whose loop, MME and stations are made up."""

    def setUp(self):
        self.timers = []
        self.exchange = types.SimpleNamespace(is_held=False, follow=None)
        self.aside = types.SimpleNamespace(is_quiet=True)
        self.front = types.SimpleNamespace(exchange=self.exchange, aside=self.aside, crowd=object(), loop=self,
                                           meters=types.SimpleNamespace(now=1.0))
        self.teller = Teller(self.front)

    def after(self, seconds, act):
        self.timers.append(seconds)
        self.act = act
        return act

    def turn(self, count=1000):
        """Turns of the loop, until nothing is to be done, or so many."""
        while self.timers and count:
            self.timers.pop()
            self.act()
            count -= 1

    def texts(self):
        """All that was told, each with its event."""
        told = [reason for reasons in self.teller.of_messages.values() for reason in reasons] + list(self.teller.others)
        return sorted((reason.event, reason.text()) for reason in told)

    def play(self, octets):
        """Plays a trace, each line in a turn of its own."""
        trace = runs.read_trace(octets)
        self.teller.begin(Head([line.decode() for line in trace.head]))
        for number, line in enumerate(octets.decode().split("\n")[len(trace.head):], len(trace.head)):
            self.exchange.follow(batch_of(line, number))
            self.turn()
        return trace

    def test_examples(self):
        """Over each example the reasons are those of tools/explain, lines of the trace and all; though it forgets what is past."""
        reasons = 0
        for path in EXAMPLES:
            with self.subTest(path.name), unittest.mock.patch.object(limits, "FORGETS_AFTER", 1):
                self.setUp()
                trace = self.play(path.read_bytes())
                told, _ = story.story_of(trace, runs.started(trace))
                shows = [event.word == "show" for event in trace.events]
                expected = sorted((place + 1 - sum(shows[:place]), "%s (%s)" % (each.sentence(telling), telling.clause()))
                                  for place, each in enumerate(told) for telling in each.tellings if telling.why)
                self.assertEqual((self.teller.why_not, self.texts()), (None, expected))
                reasons += len(expected)
        self.assertGreater(reasons, 10)

    def test_after_a_snapshot(self):
        """From a snapshot on, reasons say of what lies before it that it does; there are none where that has too much, or can't be
        read."""
        trace, station = PHONES.Trace(), PHONES.Station(0)
        phone = PHONES.Phone(trace, 0, [PHONES.Vector.made("reasons")])
        trace.set_up(station)
        phone.attaches(station, 1)
        kept = remembering.Kept(phone, remembering.REGISTERED)
        octets = remembering.snapshot(trace.network, 7, {0: 1}, [kept])
        make = lambda: Remembered(octets).world()
        for more, made, why_not in ((0, make, None), (1, make, teller.TOO_MANY), (0, lambda: Remembered(octets[:-1]), "unread")):
            self.setUp()
            self.teller.begin_with(made, limits.MOST_TOLD_OF, limits.MOST_TOLD_BY + more, "unread")
            self.assertEqual(self.teller.why_not, why_not)
            if why_not is None:
                self.exchange.follow(batch_of(trace.lines[-1], 0))
                self.turn()
                self.assertEqual(self.texts(), [(1, "ATTACH COMPLETE is dropped (replayed): count 1 was accepted before the "
                                                    "snapshot (TS 24.301 clause 4.4.3.2)")])

    def test_gives_way(self):
        """While messages wait, or the stations are held, or have not been let in yet, nothing is read."""
        self.teller.begin(Head(HEAD.splitlines()))
        self.exchange.follow(batch_of("lost 0", 2))
        for part, name, value in ((self.aside, "is_quiet", False), (self.exchange, "is_held", True), (self.front, "crowd", None)):
            before = getattr(part, name)
            setattr(part, name, value)
            self.turn(10)
            self.assertEqual((self.texts(), self.timers), ([], [limits.ASIDE_REST]))
            setattr(part, name, before)
        self.turn()
        self.assertEqual([text for _, text in self.texts()],
                         ["the station is lost: station 0 isn't connected (TS 36.412 clause 7)"])
        self.assertEqual((self.timers, self.teller.lines, self.teller.octets), ([], 0, 0))

    def test_too_much(self):
        """Where more waits than may be kept, no more is told, and it is said why; what was told stays."""
        self.teller.begin(Head(HEAD.splitlines()))
        self.exchange.follow(batch_of("lost 0", 2))
        self.turn()
        self.aside.is_quiet = False
        for number in range(limits.MOST_UNTOLD + 1):
            self.exchange.follow(batch_of("up 0", number))
        self.assertEqual((self.teller.why_not, self.teller.world, len(self.teller.waiting)), (teller.TOO_FAST, None, 0))
        self.aside.is_quiet = True
        self.exchange.follow(batch_of("up 0", 9))
        self.turn()
        self.assertEqual(len(self.texts()), 1)

    def test_octets(self):
        self.teller.begin(Head(HEAD.splitlines()))
        self.teller.take_before(b"# " + bytes(limits.MOST_UNTOLD_OCTETS))
        self.assertEqual(self.teller.why_not, teller.TOO_FAST)

    def test_subscribers(self):
        """Of more subscribers or vectors than it is for it tells nothing, from the beginning or once there are so many."""
        def head(count):
            return Head([HEAD.splitlines()[0], *("sub 00101%010d 0a000001 0a000064 00000001" % slot for slot in range(count))])

        self.teller.begin(head(limits.MOST_TOLD_OF))
        self.assertIsNotNone(self.teller.world)
        self.exchange.follow(batch_of(runs.FURTHER + "sub 001020000000000 0a000002 0a000064 00000002", 1))
        self.assertEqual(self.teller.why_not, teller.TOO_MANY)
        vectors = ["vec 001010000000000 " + PHONES.Vector.made("").words("").split(" ", 2)[2]] * limits.MOST_TOLD_BY
        for lines, is_there in ((head(limits.MOST_TOLD_OF + 1).lines, False), (head(1).lines + vectors, True),
                                (head(1).lines + vectors + vectors[:1], False)):
            self.setUp()
            self.teller.begin(Head(lines))
            self.assertEqual(self.teller.world is not None, is_there)
            self.assertEqual(self.teller.why_not, None if is_there else teller.TOO_MANY)

    def test_fault(self):
        """A fault of the model ends it, and not the front."""
        self.teller.begin(Head(HEAD.splitlines()))
        self.teller.world.take = None
        self.exchange.follow(batch_of("up 0", 2))
        self.turn()
        self.assertEqual((self.teller.why_not, self.timers), (teller.UNREADABLE, []))

    def test_kept(self):
        """So many reasons are kept, and of each so much, whatever stations send."""
        self.enterContext(unittest.mock.patch.object(limits, "MOST_REASONS", 20))
        self.setUp()
        self.teller.begin(Head(HEAD.splitlines()))
        items = [(None, number) for number in range(1, 201)]
        lines = ["up 0", "in 0 " + lte.s1_setup_request(PHONES.Network(), PHONES.Station(0)).hex()]
        lines += ["in 0 " + lte.reset(lte.part_of_interface(*items)).hex(), "lost 1"] * (limits.MOST_REASONS + 10)
        for number, line in enumerate(lines):
            self.exchange.follow(batch_of(line, number))
            self.turn()
        self.assertEqual((len(self.teller.of_messages), len(self.teller.others)), (limits.MOST_REASONS, limits.MOST_REASONS))
        self.assertLess(max(len(text) for _, text in self.texts()), limits.LONGEST_FACT + 200)

    def test_lines(self):
        """The lines of the log are told, and as unknown where they are that."""
        trace = PHONES.Trace()
        phone, station = PHONES.Phone(trace, 0, [PHONES.Vector.made("reason")]), PHONES.Station(0)
        trace.provision([phone])
        head = Head(trace.lines[:])
        del trace.lines[:]
        trace.set_up(station)
        phone.attaches(station, 1)
        self.teller.begin(head)
        for number, line in enumerate([*trace.lines, trace.lines[-1]], 1000):
            self.exchange.follow(batch_of(line, number))
        self.turn()
        at = 1000 + len(trace.lines)
        text = "ATTACH COMPLETE is dropped (replayed): count 1 was accepted at line %s (TS 24.301 clause 4.4.3.2)"
        self.assertEqual([told for _, told in self.texts()], [text % at])
        self.setUp()
        self.teller.begin(head)
        self.teller.take_before("".join(line + "\n" for line in trace.lines).encode())
        self.exchange.follow(batch_of(trace.lines[-1], 5))
        self.turn()
        self.assertEqual([told for _, told in self.texts()], [text % teller.UNKNOWN_LINE])


@unittest.skipUnless(PROGRAM.exists(), "the program isn't built (./mme --prove)")
class Live(Spoken):
    """With the MME, and stations by TCP: a phone says again what it said before."""

    def setUp(self):
        [self.phone] = self.provision(3)
        self.cell = PHONES.Station(0)

    def begin(self, *words, **others):
        super().begin(*words, **others)
        self.says(lambda: self.trace.set_up(self.cell, connects=False))

    def told(self):
        """The reasons on the page, together."""
        return " ".join(map(html.unescape, REASON.findall(self.get("/")[0])))

    def explained(self, octets):
        """What tools/explain says of a log, but for the lines that it names after the clauses."""
        words = [sys.executable, "-B", tools.TOP / "tools" / "explain", "--brief", "--json", "--mme", PROGRAM, "-"]
        done = subprocess.run(words, input=octets, stdout=subprocess.PIPE, check=True)
        found = [told for line in done.stdout.splitlines() for told in json.loads(line)["told"] if "why" in told]
        return ["%s (%s)" % (told["reason"], told["clause"]) for told in found]

    def check(self, count, read=None):
        """The page has each reason that tools/explain tells, of which there are so many."""
        self.front.until(lambda: self.told().count(" (TS ") == count)
        explained = self.explained(read() if read else self.front.log.read_bytes())
        self.assertEqual(len(explained), count)
        self.front.until(lambda: all(reason in self.told() for reason in explained))

    def test_without_keys(self):
        """Lines are those of the log where that has no keys too."""
        self.begin("--log-keys", "no")
        self.says(*self.phone.attach_steps(self.cell, 1), again=True)
        (self.front.folder / "vectors").write_text(self.head)
        words = [sys.executable, "-B", tools.TOP / "tools" / "front", "fill", self.front.folder / "vectors", self.front.log]
        self.check(1, lambda: subprocess.run(words, stdout=subprocess.PIPE, check=True).stdout)

    def test_resumed(self):
        """A run that goes on tells of what comes by what came before, whose lines aren't known; those of its own are."""
        self.begin()
        self.says(*self.phone.attach_steps(self.cell, 1), self.phone.is_released)
        attached = [line for line in self.trace.lines if line.startswith("in ")]
        self.assertEqual(self.front.stop()[0], 0)
        self.begin("--resume", folder=self.front.folder)
        self.says(lambda: self.phone.asks_for_service(self.cell, 2))
        self.says(lambda: self.trace.hear(self.cell, lte.uplink_nas(
            self.trace.network, self.cell, self.phone.m, 2, complete_of(attached))))
        self.says(lambda: self.phone.sends(self.phone.protected_up(bytes([7, 0x60, 97]))), again=True)
        self.front.until(lambda: "EMM STATUS" in self.told())
        explained = self.explained(self.front.log.read_bytes())
        before = re.sub(r"line \d+", "line " + teller.UNKNOWN_LINE, explained[-2])
        for reason in (before, explained[-1]):
            self.assertIn(reason, self.told())

    def test_segments(self):
        """A new segment of the log begins with a line too, which counts where they are joined."""
        self.begin()
        self.front.process.send_signal(signal.SIGHUP)
        self.front.until(lambda: "rolled" in self.front.said().decode() or list(self.front.folder.glob("log.segment.*")))
        self.says(*self.phone.attach_steps(self.cell, 1), again=True)
        older = sorted(self.front.folder.glob("log.segment.*"))
        self.check(1, lambda: b"".join(path.read_bytes() for path in [*older, self.front.log]))
