"""The page and whoever asks for phones: they cost the stations next to nothing, in time and in memory, whatever their manners."""
import collections
import contextlib
import json
import pathlib
import re
import subprocess
import sys
import time
import types
import unittest

from tests.tools import tools
from tests.tools.test_front_page import Served
from tools.fronting import limits
from tools.fronting.aside import Aside
from tools.fronting.census import TOGETHER, UNKNOWN, Census
from tools.fronting.exchange import Exchange
from tools.fronting.meters import Meters
from tools.fronting.provisioning import Head

SUBSCRIBERS, CLIENTS, SECONDS = 8000, 64, 8
# Of an answer, in seconds: a page that doesn't give way takes a minute, and a busy machine more than one second. Of memory beyond
# what there is without clients.
LATEST, MOST_MIB = 10.0, 50
MESSAGE, APART = b"a message", 0.02


def head(count):
    lines = ["mme 001 01 8001 01 internet 1000000000 1000000000"]
    lines += ["sub 00101%010d 0a%06x 0b000001 %08x" % (slot + 1, slot + 1, slot + 1) for slot in range(count)]
    return "\n".join(lines) + "\n"


def memory(pid):
    """The MiB of memory that a process held at the most."""
    return int(re.search(r"VmHWM:\s+(\d+) kB", pathlib.Path("/proc/%d/status" % pid).read_text())[1]) / 1024


class Beside(Served):
    def test_all_manners(self):
        """Some ask and leave, read octet by octet, say half a request, or many at once: each message is answered within 10 s,
        the front holds 50 MiB more at the most, and who comes after them is told all."""
        running = self.check_all_manners(SUBSCRIBERS, SECONDS)
        self.assertEqual(running.stop()[0], 0)

    def test_with_reasons(self):
        """So it is where the page's reasons are found too, of which each message here has one."""
        running = self.check_all_manners(limits.MOST_TOLD_OF, SECONDS // 2)
        running.until(lambda: "Reasons are missing here" not in self.get("/")[0])
        text, _ = self.get("/")
        self.assertEqual(running.stop()[0], 0)
        self.assertIn("the octets spell no S1AP message: ", " ".join(re.findall('<text class="reason[^>]*>([^<]*)<', text)))

    def check_all_manners(self, subscribers, seconds):
        """The front that was asked so."""
        running = self.running(head=head(subscribers))
        station = running.station()
        for _ in range(10):
            station.says(MESSAGE)
        self.get("/")
        before, latest = memory(running.process.pid), 0.0
        words = ["nice", sys.executable, "-B", tools.TOP / "bench" / "browsers.py", *map(str, (self.port, CLIENTS, seconds))]
        with subprocess.Popen(words, stdout=subprocess.PIPE) as browsers:
            while browsers.poll() is None:
                begun = time.monotonic()
                self.assertEqual(station.says(MESSAGE), MESSAGE)
                latest = max(latest, time.monotonic() - begun)
                time.sleep(APART)
        self.assertLess(latest, LATEST)
        self.assertLess(memory(running.process.pid) - before, MOST_MIB)
        running.until(self.is_open)
        self.assertEqual(sum(value for name, value in self.values().items() if name.startswith("soizkadur_phones{")), subscribers)
        self.assertEqual(len(json.loads(running.asks("phones", "--json"))), subscribers)
        return running

    def is_open(self):
        """Whether there is room for one who asks."""
        with contextlib.suppress(OSError):
            return bool(self.get("/health"))
        return False


class Given:
    """What an MME is given."""
    takes_further = False

    def __init__(self, loop, hear, say):
        self.text, self.size = b"", 0

    def begin(self, head):
        """It needs nothing of its head."""

    def give(self, octets):
        self.text += octets


class Order(unittest.TestCase):
    def test_questions_before_what_waits(self):
        """Where lines can't be given yet, who asks meanwhile is answered before, and each gets the answer to its own question."""
        exchange, heard = Exchange(None, types.SimpleNamespace(say=None), Meters(), types.SimpleNamespace(noted={})), []
        exchange.begin(Given, Head(head(3).splitlines()))
        imsis = ["00101%010d" % slot for slot in (1, 2, 3)]

        def note(who):
            return lambda answer: heard.append((who, answer.imsi))

        exchange.put("show " + imsis[0])
        exchange.shows.append(note("first"))
        exchange.flush()
        exchange.is_held = True
        exchange.put("show " + imsis[1])
        exchange.shows.append(note("waits"))
        exchange.put("in 0 00")
        exchange.ask_after("in 0 00", imsis[0], note("after a line"))
        exchange.ask(["show " + imsis[2]] * 2, note("asks"), lambda: heard.append("all"))
        exchange.is_held = False
        exchange.flush()
        for line in exchange.program.text.splitlines():
            word, _, rest = line.partition(b" ")
            if word == b"show":
                exchange.hear(b"state %s DEREGISTERED IDLE INACTIVE\n" % rest)
            elif word == b"data":
                exchange.hear(b"refused 5\n")
        self.assertEqual(heard, [("first", imsis[0]), ("asks", imsis[2]), ("asks", imsis[2]), "all", ("waits", imsis[1]),
                                 ("after a line", imsis[0])])


class MadeUp(unittest.TestCase):
    """The census of a front whose loop, MME and stations are made up."""

    def setUp(self):
        self.timers, self.asked = [], []
        loop = types.SimpleNamespace(after=lambda seconds, act: self.timers.append(act) or act)
        exchange = types.SimpleNamespace(is_held=False, marks=[], closed=[], batch=types.SimpleNamespace(lines=[]), ask=self.ask)
        imsis = ["00101%010d" % slot for slot in range(10 * TOGETHER)]
        named = types.SimpleNamespace(imsis=imsis, slots={imsi: slot for slot, imsi in enumerate(imsis)})
        self.front = types.SimpleNamespace(loop=loop, exchange=exchange, head=named, crowd=types.SimpleNamespace(eager=[]))
        self.front.aside = Aside(self.front)
        self.census, self.told = Census(self.front), collections.Counter()

    def ask(self, lines, note, after):
        """The MME answers at once."""
        self.asked.append(lines)
        for line in lines:
            note(types.SimpleNamespace(imsi=line.split(" ")[1], states="REGISTERED IDLE ACTIVE"))
        after()

    def turn(self, count=1):
        """Turns of the loop."""
        for _ in range(count):
            due, self.timers = self.timers, []
            for act in due:
                act()

    def wants(self, who, first=0, end=10 * TOGETHER, seconds=1, is_wanted=lambda: True):
        self.census.want(first, end, seconds, is_wanted, lambda: self.told.update([who]))

    def test_shared(self):
        """Those who want the states at a time share the questions, of a few phones in a turn; and for a while those who come later
        share the answers, unless they want them anew."""
        for who in range(20):
            self.wants(who)
        self.assertEqual(self.asked, [])
        for count in range(1, 11):
            self.turn()
            self.assertEqual(([len(lines) for lines in self.asked], len(self.told)), ([TOGETHER] * count, 20 * (count == 10)))
        self.wants("later")
        self.assertEqual((self.told["later"], self.timers), (1, []))
        self.wants("anew", end=2 * TOGETHER, seconds=0)
        self.turn(5)
        self.assertEqual((self.told["anew"], len(self.asked), set(self.told.values())), (1, 12, {1}))
        self.assertEqual(self.census.by_states(), {"REGISTERED IDLE ACTIVE": 10 * TOGETHER})

    def test_who_leaves(self):
        """Once the last who waits has gone, nobody is asked for any more."""
        here = {"one", "other"}
        for who in tuple(here):
            self.wants(who, is_wanted=lambda who=who: who in here)
        self.turn(3)
        here.remove("one")
        self.turn(2)
        self.assertEqual(len(self.asked), 5)
        here.clear()
        self.turn(20)
        self.assertEqual((len(self.asked), self.told, self.timers, self.census.wishes), (5, {}, [], {}))
        self.wants("next")
        self.turn(5)
        self.assertEqual(self.told["next"], 1)

    def test_begins(self):
        """Of an MME that begins nothing is known, and it may have fewer phones; who waits is answered."""
        self.wants("first")
        self.turn(20)
        self.wants("waits", seconds=0)
        del self.front.head.imsis[TOGETHER:]
        self.census.begin()
        self.assertEqual((self.told["waits"], self.census.by_states(), self.census.of(0)), (1, {}, UNKNOWN))
        self.asked.clear()
        self.wants("later", end=TOGETHER)
        self.turn(5)
        self.assertEqual((self.told["later"], self.census.by_states()), (1, {"REGISTERED IDLE ACTIVE": TOGETHER}))

    def test_gives_way(self):
        """Where messages wait nobody is asked for, until the last question is a while ago; and never while the MME is held."""
        exchange, crowd = self.front.exchange, self.front.crowd
        self.wants("one")
        self.turn()
        for waits in (exchange.marks, exchange.closed, exchange.batch.lines, crowd.eager):
            waits.append(1)
            before = len(self.asked)
            self.front.aside.last = time.monotonic() + 1
            self.turn(5)
            self.assertEqual(len(self.asked), before)
            self.front.aside.last = time.monotonic() - limits.ASIDE_SECONDS
            self.turn()
            self.assertEqual(len(self.asked), before + 1)
            waits.clear()
        exchange.is_held, before = True, len(self.asked)
        self.front.aside.last = 0.0
        self.turn(5)
        self.assertEqual(len(self.asked), before)
