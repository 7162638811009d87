"""tools/front with an MME that takes further subscribers and vectors while it runs: what is looked at before, the lines in the log,
the MME's answers to them, and a log that has all of them in its head. The MME isn't the library here; tests/library has that."""
import collections
import contextlib
import functools
import gc
import io
import pathlib
import socket
import sys
import tempfile
import types
import unittest
import unittest.mock
import weakref

import soizkadur
from reference import lte as LTE, phones as PHONES
from tests.tools import tools
from tests.tools.fronted import HEAD, IMSI, Running, said
from tests.tools.test_front_guests import Turned
from tests.tools.test_front_syncing import ByHand, Receiver
from tools import runs
from tools.fronting import (
    adding, command, crowd, exchange, heads, journal, keys, limits, provisioning, resuming, standby, stations, stock, teller)
from tools.fronting.faults import Failed
from tools.fronting.front import Front
from tools.fronting.guests import Door
from tools.fronting.loop import Loop
from tools.fronting.meters import Meters
from tools.fronting.mme import LibraryMme
from tools.fronting.used import UsedVectors

OTHER = "001010000000002"
SUB = "sub %s 0a000002 0a000064 00000002" % OTHER
NOBODY_AT_ALL = "999999999999999"  # whom the first mark is for


def vector(imsi, number, kasme=1):
    """A line `vec`."""
    return "vec %s %032x %032x %016x %064x" % (imsi, number, number + 1, number + 2, kasme)


def none(*_):
    """What nobody waits for."""


class Looked(unittest.TestCase):
    """What is looked at before anything is given."""

    def setUp(self):
        self.head = provisioning.Head(HEAD.splitlines() + [vector(IMSI, 1), vector(IMSI, 0xcd)])
        path = self.enterContext(tempfile.TemporaryDirectory()) + "/used"
        pathlib.Path(path).write_text("%s %032x\n" % (IMSI, 7))
        self.used = UsedVectors(path)
        self.addCleanup(self.used.close)

    def further(self, form=None):
        return adding.Further(self.head, stock.Stock(self.head, none), self.used, form or keys.Whole())

    def test_taken(self):
        """Comments and empty lines aside, all lines in their order, of either case."""
        made, lines = self.further(), [SUB, vector(OTHER, 1), vector(IMSI, 0xab).upper().replace("VEC", "vec"), vector(IMSI, 2)]
        for line in ["# more", "", *lines, ""]:
            made.take(line)
        self.assertEqual((made.lines, made.imsis), (lines, {OTHER}))

    def test_refused(self):
        """Each fault has the number of its line, and words."""
        short = "line 1: an IMSI has 14 or 15 digits, RAND and AUTN have 16 octets in hex, XRES 4 to 16, and KASME 32$"
        digits = "line 1: an IMSI has 14 or 15 digits, and an address, an S-GW's address and its tunnel end have 8 in hex each$"
        for lines, why in (
                (["up 0"], "line 1: no line begins with 'up'"), ([self.head.lines[0]], "line 1: no line begins with 'mme'"),
                (["ab" * 32], "line 1: no line begins so$"), (["vec " + "0 " * 20000], "line 1: longer than 40000 octets"),
                (["sub"], "line 1: sub has 4 fields, not 0"), (["sub x 0a000002 0a000064 00000002"], digits),
                (["", "# x", runs.FURTHER + SUB], "line 3: it stands so in a log alone"),
                ([SUB[:-2]], digits), ([vector(IMSI, 9)[:-2]], short), (["vec %s aa bb cc dd" % IMSI], short),
                ([vector("00" * 16, 9)], short), ([vector(IMSI, 9)[:-1]], short),
                (["vec %s %032x %032x 000001 %064x" % (IMSI, 8, 8, 8)], short),
                ([keys.without_keys(vector(IMSI, 9))], "line 1: it has no keys"),
                ([vector(IMSI, 1)], "line 1: it stands already"), ([vector(IMSI, 9)] * 2, "line 2: it stands already"),
                *((lines, "line 2: %s has a vector with this RAND already" % IMSI) for lines in (
                    [SUB, vector(IMSI, 1, 2)], [SUB, vector(IMSI, 0xcd).upper().replace("VEC", "vec")],
                    [vector(IMSI, 0xab), vector(IMSI, 0xab, 2)],
                    [vector(IMSI, 0xab), vector(IMSI, 0xab).upper().replace("VEC", "vec")])),
                ([SUB, SUB.replace("0a000002", "0a000003")], "line 2: %s has its line sub" % OTHER),
                ([SUB.replace(OTHER, IMSI)], "line 1: %s has its line sub" % IMSI),
                ([vector(OTHER, 9), SUB], "line 1: %s has no line sub" % OTHER),
                ([SUB.replace("0a000002", "0A000001")], "line 1: another subscriber has the address 0a000001"),
                ([SUB, SUB.replace(OTHER, "001010000000003")], "line 2: another subscriber has the address 0a000002"),
                ([vector(IMSI, 7)], "line 1: its vector was used already: its RAND stands in "),
                ([vector(IMSI, number) for number in range(100, 164)],
                 "line 63: %s would have 65 vectors that aren't spent or answered yet, and has 64 at most" % IMSI),
                ([SUB] + [vector(OTHER, number) for number in range(65)], "line 66: %s would have 65 vectors" % OTHER)):
            with self.subTest(why=why):
                made = self.further()
                with self.assertRaisesRegex(runs.Fault, why):
                    for line in lines:
                        made.take(line)

    def test_spent(self):
        """A vector that is spent makes room for one once another is challenged with: the MME keeps it until it is answered."""
        made = self.further()
        for rand in (1, 0xcd):
            made.stock.note(0, rand.to_bytes(16, "big"))
        for number in range(100, 163):
            made.take(vector(IMSI, number))
        with self.assertRaisesRegex(runs.Fault, "line 64: %s would have 65 vectors" % IMSI):
            made.take(vector(IMSI, 200))

    def test_on_their_way(self):
        """What is on its way to the MME counts, until it is answered."""
        coming, first = adding.Coming(), self.further()
        for line in [SUB, vector(OTHER, 1), vector(IMSI, 9), *(vector(IMSI, number) for number in range(100, 161))]:
            first.take(line)
        coming.add(first)
        lines = [SUB, vector(OTHER, 1), vector(OTHER, 1, 2), vector(OTHER, 2), SUB.replace("0a000002", "0a000003")]
        self.assertEqual([coming.brings(line) for line in lines], [True, True, False, False, False])
        others = (SUB, "stands already"), (SUB.replace("0a000002", "0a000003"), "has its line sub"), (
            SUB.replace(OTHER, "001010000000003"), "has the address"), (vector(OTHER, 1, 2), "has a vector with this RAND"), (
            vector(IMSI, 200), "would have 65 vectors")
        for line, why in others:
            with self.subTest(why=why), self.assertRaisesRegex(runs.Fault, why):
                made = adding.Further(self.head, stock.Stock(self.head, none), self.used, keys.Whole(), [coming])
                made.take(vector(OTHER, 2))
                made.take(line)
        lines = SUB, vector(OTHER, 1), vector(OTHER, 1, 2), vector(OTHER, 2)
        self.assertEqual([coming.brings(line) for line in lines], [True, True, False, False])
        coming.remove(first)
        self.assertFalse(coming.brings(SUB))
        self.assertEqual([coming.imsis, coming.places, coming.seen, +coming.vectors], [set(), set(), {}, {}])
        made = adding.Further(self.head, stock.Stock(self.head, none), self.used, keys.Whole(), [coming])
        for line in (SUB, vector(OTHER, 1), vector(IMSI, 9)):
            made.take(line)

    def test_too_many(self):
        """There are so many subscribers at most."""
        made = self.further()
        with unittest.mock.patch.object(limits, "MOST_SUBSCRIBERS", 2):
            made.take(SUB)
            with self.assertRaisesRegex(runs.Fault, "line 2: there are 2 subscribers, and no more than that"):
                made.take("sub 001010000000003 0a000003 0a000064 00000003")

    def test_of_one_challenge(self):
        """What a log without keys couldn't tell apart isn't taken with it: from a vector that is there, or another line."""
        form = keys.Keyless(self.head)
        for lines in ([vector(IMSI, 1, 2)], [vector(IMSI, 9), vector(IMSI, 9, 2)]):
            made = self.further(form)
            with self.assertRaisesRegex(runs.Fault, "have the same RAND and AUTN, and a log without keys"):
                for line in lines:
                    made.take(line)
        self.assertEqual(len(form.vectors.keys), 2)

    def test_parts(self):
        """A text in parts of whole lines, however small they are."""
        text = b"".join(b"%d%s\n" % (number, b"x" * (number % 9)) for number in range(200)) + b"last"
        for most in (1, 10, 100, 1 << 20):
            with unittest.mock.patch.object(limits, "ADDED_OCTETS", most):
                found = [line for part in adding.lines_in(text) for line in part]
            self.assertEqual("\n".join(found), text.decode())
        self.assertEqual(list(adding.lines_in(b"")), [])

    def test_long(self):
        """Of a line that is too long no more is read than shows that; the longest that isn't is read whole."""
        longest = "x" * runs.LONGEST_LINE
        for text, lines in ((longest, [longest]), (longest + "\ny\n", [longest, "y"]), ("y\n" + longest, ["y", longest])):
            self.assertEqual([line for part in adding.lines_in(text.encode()) for line in part], lines)
        self.assertEqual(next(adding.lines_in(longest.encode() * 30)), [longest + "x"])

    def test_little_work(self):
        """What is seen is nothing that Python goes through when it looks for what isn't used any more."""
        made = self.further()
        for line in (SUB, vector(OTHER, 1), vector(IMSI, 2)):
            made.take(line)
        self.assertEqual((len(made.seen), gc.is_tracked(made.seen)), (3, False))

    def test_parts_of(self):
        """Lines in parts."""
        self.assertEqual([line for part in adding.parts_of(list(range(1000))) for line in part], list(range(1000)))


class Live:
    """An MME of the package: it answers messages by themselves, and refuses who ends with 9."""

    def __init__(self):
        self.taken = []

    def start(self):
        self.taken.append("start")

    def play_text(self, text):
        assert b"\n" + runs.FURTHER.encode() not in b"\n" + text, "such a line has a call of its own"
        return b"".join(self.answer(line) for line in text.splitlines(keepends=True))

    @staticmethod
    def answer(line):
        if line == b"data %s\n" % NOBODY_AT_ALL.encode():
            return b"refused 5\n"
        return line if line.startswith(b"out ") else b""

    def add_live(self, imsi, *numbers):
        if imsi.endswith("9"):
            raise soizkadur.Refused(soizkadur.Refusal.PROVISION)
        self.taken.append((imsi, *numbers))

    def give_live(self, imsi, *octets):
        if imsi.endswith("8"):
            raise soizkadur.Refused(soizkadur.Refusal.NO_MEMORY)
        self.taken.append((imsi, *octets))

    def close(self):
        """Its end."""


class Answered(unittest.TestCase):
    """The MME's answers to such lines, and what the exchange makes of them."""

    def setUp(self):
        self.loop, self.heard, self.ends = Loop(), [], []
        self.addCleanup(self.loop.close)
        self.package = types.SimpleNamespace(Mme=Live, Refused=soizkadur.Refused, Refusal=soizkadur.Refusal)

    def made(self, loop=None, hear=None, say=none):
        made = LibraryMme(self.package, loop or self.loop, hear or self.heard.append, say)
        made.end = self.ends.append
        return made

    def turn(self, count=20):
        for _ in range(count):
            self.loop.after(0, none)
            self.loop.turn()

    def test_lines(self):
        """A line is taken in its place, refused, or none; the MME is started before the first."""
        made, lines = self.made(), [SUB, vector(OTHER, 1), SUB.replace(OTHER, "9"), "sub", "vec 1 0g", "vec 1", "cancel 1"]
        made.give("".join(runs.FURTHER + line + "\n" for line in lines).encode() + b"out e0 0 00\n#  + x\n")
        self.turn()
        numbers = [0x0a000002, 0x0a000064, 2]
        octets = [bytes.fromhex(field) for field in vector(OTHER, 1).split(" ")[2:]]
        self.assertEqual(made.mme.taken, ["start", (OTHER, *numbers), (OTHER, *octets)])
        refused = [soizkadur.Refusal.PROVISION, *[soizkadur.Refusal.FIELD_COUNT] * 4]
        refused[2] = soizkadur.Refusal.BAD_OCTETS
        told = ["+ " + line for line in lines[:2]] + ["- %d %s" % pair for pair in zip(refused, lines[2:])] + ["out e0 0 00"]
        self.assertEqual(b"".join(self.heard).decode().splitlines(), told)

    def test_no_memory(self):
        """It ends as at any other line: the log has this one, which is taken when it is played again."""
        made = self.made()
        made.give((runs.FURTHER + vector("8", 1) + "\ntick 1\n").encode())
        self.turn()
        self.assertEqual((self.ends, self.heard), ([4], []))

    def test_no_memory_between(self):
        """Those in a row before it are taken and answered, and none after it is."""
        made, lines = self.made(), [SUB, SUB.replace(OTHER, "9"), vector("8", 1), vector(OTHER, 2)]
        made.give("".join(runs.FURTHER + line + "\n" for line in lines).encode())
        self.turn()
        self.assertEqual(b"".join(self.heard).decode(), "+ %s\n- %d %s\n" % (SUB, soizkadur.Refusal.PROVISION, lines[1]))
        self.assertEqual((self.ends, made.mme.taken), ([4], ["start", (OTHER, 0x0a000002, 0x0a000064, 2)]))
        self.assertEqual(made.played, 3)

    def exchanged(self):
        """An exchange with such an MME, and what it tells of further lines and of messages."""
        made, told = exchange.Exchange(self.loop, types.SimpleNamespace(say=none), Meters(), collections.UserDict()), []
        made.used = types.SimpleNamespace(noted={}, note=lambda *given: False)
        made.lengthen, made.note_refused = told.append, lambda *given: told.append(given)
        made.receivers[b"0"] = Receiver(told)
        made.begin(self.made, provisioning.Head(HEAD.splitlines()))
        return made, told

    def test_order(self):
        """What follows phones is told of a line after the messages before it and before those after it; in a log that is played
        too."""
        made, told = self.exchanged()
        for line in ("out e0 0 0001", runs.FURTHER + SUB, runs.FURTHER + vector(OTHER, 1), runs.FURTHER + "sub 9 0a 0b 0c",
                     "out e0 0 0002"):
            made.put(line)
        made.flush()
        self.turn()
        self.assertEqual(told, [b"\0\1", [SUB, vector(OTHER, 1)], (soizkadur.Refusal.FIELD_COUNT, "sub 9 0a 0b 0c"), b"\0\2"])
        self.assertFalse(made.marks)
        made.is_replaying = True
        made.replay((runs.FURTHER + SUB + "\n").encode())
        self.turn()
        self.assertEqual(told[4:], [[SUB]])

    def test_mark(self):
        """A mark is for nobody, whoever comes."""
        made, _ = self.exchanged()
        self.assertEqual(made.mark, b"data %s\n" % NOBODY_AT_ALL.encode())
        made.keep_unknown({OTHER})
        self.assertEqual(made.mark, b"data %s\n" % NOBODY_AT_ALL.encode())
        seen = {IMSI, OTHER}
        for _ in range(5):
            imsi = made.mark.split()[1].decode()
            self.assertNotIn(imsi, seen)
            seen.add(imsi)
            made.keep_unknown({imsi})

    def test_a_program_that_says_so(self):
        """Such an answer of another MME is none."""
        made, _ = self.exchanged()
        made.program.takes_further = False
        made.flush()
        made.put("tick 1")
        made.flush()
        with self.assertRaisesRegex(Exception, "the MME's answer: no line begins with '\\+'"):
            made.hear(b"+ sub x\n")


class Unused(dict):
    """No vector was used."""
    noted = {}


class Whole(unittest.TestCase):
    """What a file's lines become in turns."""

    def setUp(self):
        self.loop, self.replies, self.said = Loop(), [], []
        self.addCleanup(self.loop.close)
        self.head = provisioning.Head(HEAD.splitlines())
        self.exchange = exchange.Exchange(self.loop, types.SimpleNamespace(say=none), Meters(), types.SimpleNamespace(noted={}))
        package = types.SimpleNamespace(Mme=Live, Refused=soizkadur.Refused, Refusal=soizkadur.Refusal)
        self.exchange.begin(lambda *given: LibraryMme(package, *given), self.head)
        self.front = types.SimpleNamespace(
            loop=self.loop, exchange=self.exchange, head=self.head, stock=stock.Stock(self.head, none), form=keys.Whole(), given=0,
            used=types.SimpleNamespace(check_vector=none), giving=None, coming=[], asking=None,
            voice=types.SimpleNamespace(say=lambda event, text: self.said.append((event, text))),
            teller=types.SimpleNamespace(refuse=lambda: self.said.append("refuse")))
        self.exchange.lengthen = self.head.add
        self.exchange.note_refused = functools.partial(Front.has_refused, self.front)
        self.batches = []
        self.exchange.follow = lambda batch: self.batches.append(list(batch.lines))

    def give(self, text):
        self.front.giving = adding.Adding(self.front, adding.lines_in(text.encode()), self.replies.append)
        self.front.giving.go_on()

    def turn(self, count=50):
        for _ in range(count):
            self.loop.after(0, none)
            self.loop.turn()
            self.exchange.flush()

    def test_given(self):
        """Lines are one batch, in their order, and answered once that is."""
        self.give("# x\n%s\n%s\n" % (SUB, vector(OTHER, 1)))
        self.assertEqual(self.replies, [])
        self.turn()
        self.assertEqual(self.batches, [[runs.FURTHER + SUB, runs.FURTHER + vector(OTHER, 1)]])
        self.assertEqual((self.replies, self.front.giving, self.front.given), (["given 1 subscriber, 1 vector"], None, 1))
        self.assertEqual((self.head.imsis, self.head.slots[OTHER]), ([IMSI, OTHER], 1))
        self.give("")
        self.assertEqual(self.replies[1:], ["given 0 subscribers, 0 vectors"])

    def test_many(self):
        """Many lines are several turns, of which the next comes once one is answered, with what others say between."""
        lines = ["sub %015d %08x 0a000064 %08x" % (place, place, place) for place in range(1, 1001) if place % 10 < 9]
        self.give("\n".join(lines))
        for _ in range(40):
            self.exchange.put("tick 1")
            self.turn(1)
        self.turn()
        self.assertEqual(self.replies, ["given 900 subscribers, 0 vectors"])
        given = [line for batch in self.batches for line in batch if line.startswith(runs.FURTHER)]
        self.assertEqual(given, [runs.FURTHER + line for line in lines])
        sizes = [sum(line.startswith(runs.FURTHER) for line in batch) for batch in self.batches]
        self.assertEqual(max(sizes), limits.ADDED_LINES)
        places = [place for place, size in enumerate(sizes) if size]
        self.assertTrue(any("tick 1" in batch for batch in self.batches[places[0]:places[-1]]))

    def test_forgotten(self):
        """Once it is answered nothing of it is kept, and that need not be found out: to forget much at once takes long."""
        gc.disable()
        self.addCleanup(gc.enable)
        self.give("%s\n%s\n" % (SUB, vector(OTHER, 1)))
        self.assertEqual((self.front.giving.further.seen, self.front.giving.further.form), ({}, None))
        giving = weakref.ref(self.front.giving)
        self.turn()
        self.assertEqual(self.replies, ["given 1 subscriber, 1 vector"])
        self.assertIsNone(giving())

    def in_log(self, full_disk="end", syncer=None):
        """A log which has what the MME is given; it isn't synced unless by this one."""
        made = journal.Journal.begun(self.enterContext(tempfile.TemporaryDirectory()) + "/log", self.head, 1 << 20, 5)
        self.addCleanup(made.close)
        made.keep_by(syncer)
        self.exchange.used, self.exchange.full_disk = Unused(), full_disk
        self.exchange.write_to(made)
        return made

    def test_on_disk(self):
        """A turn with such lines is on disk before the MME gets it, also where no other is."""
        made, synced = self.in_log(), []
        first = made.happened.file
        self.exchange.follow = lambda batch: synced.append("given")
        with unittest.mock.patch.object(journal.os, "fdatasync", side_effect=synced.append):
            self.exchange.put("tick 1")
            self.turn(1)
            self.give(SUB)
            self.turn()
            made.roll(made.happened)
            self.give(vector(IMSI, 1))
            self.turn()
        self.assertEqual(synced, ["given", first, "given", made.happened.file, "given"])
        self.assertFalse(made.happened.has_new_name)
        self.assertEqual(self.replies, ["given 1 subscriber, 0 vectors", "given 0 subscribers, 1 vector"])

    def test_followers(self):
        """Who follows the tunnels is told of a subscriber once the line is on disk."""
        made = self.in_log(syncer=ByHand())
        self.front.followers = types.SimpleNamespace(lengthen=lambda: self.said.append(list(self.head.imsis)))
        self.exchange.lengthen = functools.partial(Front.lengthen, self.front)
        self.give(SUB)
        self.turn()
        self.assertEqual((self.head.imsis, self.said, self.replies), ([IMSI, OTHER], [], []))
        made.syncer.end()
        self.turn()
        self.assertEqual((self.said[0], self.replies), ([IMSI, OTHER], ["given 1 subscriber, 0 vectors"]))

    def test_not_on_disk(self):
        """Where it can't be known to be there the MME doesn't get it, and the front ends."""
        for full_disk in ("end", "refuse"):
            with self.subTest(full_disk=full_disk):
                self.setUp()
                self.in_log(full_disk)
                with unittest.mock.patch.object(journal.os, "fdatasync", side_effect=OSError(5, "Input/output error")):
                    self.give(SUB)
                    with self.assertRaisesRegex(Failed, "/log: Input/output error"):
                        self.turn()
                self.assertEqual((self.batches, self.replies), ([], []))

    def test_nothing_changes(self):
        """Where one line can't be taken none is given."""
        self.give("%s\nup 0\n" % SUB)
        self.turn()
        self.assertEqual((self.replies, self.batches), (["fault line 2: no line begins with 'up'"], []))
        self.assertEqual((self.said, self.head.imsis), ([], [IMSI]))

    def test_refused_all_the_same(self):
        """What the MME refuses is told, and nobody follows it. It isn't given a second time."""
        refused = SUB.replace(OTHER, "001010000000009")
        self.give("%s\n%s\n" % (refused, SUB.replace("0a000002", "0a000003")))
        self.turn()
        self.assertEqual(self.said[0], "refuse")
        self.give(refused)
        self.assertEqual(self.replies.pop(), "fault line 1: it stands already")
        self.assertEqual(self.replies, [
            "refused: the MME doesn't take 1 line of 2; as they stand in the log, they belong to the subscribers too: "
            "sub 001010000000009 (17)"])
        self.assertEqual(self.head.imsis, [IMSI, OTHER])

    def test_the_mark(self):
        """The IMSI that marks were for may be given."""
        self.give(SUB.replace(OTHER, NOBODY_AT_ALL))
        self.assertNotEqual(self.exchange.mark, b"data %s\n" % NOBODY_AT_ALL.encode())

    def test_a_reset(self):
        """A RESET by the id of a subscriber that was given just before may change something, so that it counts."""
        settings = types.SimpleNamespace(rate=1, per_address=1, allow=(), setup_seconds=1)
        made, station = crowd.Crowd(None, self.exchange, None, Meters(), None, settings), stations.Station(None, "", 0, 1, 0.0)
        station.number = 0
        station.associations.enb_ids.add(7)
        reset = LTE.reset(LTE.part_of_interface((1 << runs.SLOT_BITS, None)))
        for lines, nobodys in (("", {0}), (SUB, set())):
            self.exchange.batch = journal.Batch()
            self.give(lines)
            made.hear([(station, [reset])])
            self.assertEqual(self.exchange.batch.nobodys, nobodys)
        self.assertEqual((self.exchange.slots, self.exchange.coming), (2, {OTHER}))
        self.turn()
        self.assertEqual((self.exchange.imsis, self.exchange.slots, self.exchange.coming), ([IMSI, OTHER], 2, set()))

    def test_an_end_between(self):
        """Where the front ends, it is said how much was given that is known to stand in the log."""
        lines = ["sub %015d %08x 0a000064 %08x" % (place * 10, place, place) for place in range(1, 1001)]
        for turns in (0, 2):
            kept = turns * limits.ADDED_LINES
            with self.subTest(kept=kept), unittest.mock.patch.object(limits, "ADDING_SECONDS", 60):
                self.setUp()
                self.give("\n".join(lines))
                for _ in range(turns):
                    self.exchange.flush()
                    while self.exchange.marks:  # isn't answered yet
                        self.loop.after(0, none)
                        self.loop.turn()
                self.front.giving.refuse("the front ends")
                self.assertEqual(self.replies, ["refused: the front ends: at least the first %d of 1000 lines were given" % kept])
                self.turn()
                self.assertEqual(sum(map(len, self.batches)), kept + limits.ADDED_LINES)

    def test_an_end_before(self):
        """Where it ends before all lines were looked at, nothing was given."""
        with unittest.mock.patch.object(limits, "ADDING_SECONDS", -1):
            self.give("%s\n%s\n" % (SUB, vector(OTHER, 1)))
            self.assertEqual(self.front.giving.further.lines, [SUB, vector(OTHER, 1)])
            self.front.giving.refuse("the front ends")
        self.turn()
        self.assertEqual((self.replies, self.batches), (["refused: the front ends: nothing was given"], []))


class Keyless(unittest.TestCase):
    """A log without keys."""

    def setUp(self):
        self.form = keys.Keyless(provisioning.Head(HEAD.splitlines()))
        self.line = runs.FURTHER + vector(IMSI, 0xab)
        self.left = runs.FURTHER + keys.without_keys(vector(IMSI, 0xab))

    def test_written(self):
        """A vector has no keys where it was given, and is found in messages from then on."""
        xres = "%016x" % 0xad
        heard = ["in 0 00%s" % xres, runs.FURTHER + SUB]
        self.assertEqual(self.form.written([self.line, *heard]), [self.left, *heard])
        self.form.add([SUB, vector(IMSI, 0xab)])
        left, other = self.form.written(heard)
        self.assertEqual(other, heard[1])
        self.assertEqual(left, "%s1: XRES of %s %032x %032x\nin 0 00%s" % (runs.LEFT_OUT, IMSI, 0xab, 0xac, "0" * 16))
        filling = keys.Filling(self.form.vectors)
        self.assertEqual([filling.line(line) for line in (self.left, *left.split("\n"))],
                         [self.line, left.split("\n")[0], heard[0]])

    def test_found(self):
        """Vectors that come one by one are found as those that come together."""
        lines = ["vec %015d %032x %032x %s %064x" % (place, 1, 2, xres, 3) for place, xres in enumerate(
            ("aabbccddee", "aabbccdd", "00" * 16, "aabbccdd", "aabbccddeeff", "11223344"), 1)]
        together = keys.Finder(keys.Vectors(lines))
        for order in (lines, lines[::-1], lines[2:] + lines[:2]):
            made = keys.Finder(keys.Vectors())
            for line in order:
                made.add(keys.Vectors([line]).keys)
            for digits in ("aabbccdd", "aabbccddee", "aabbccddeeff", "aabbccddeeff" * 2, "00" * 17, "1122334455", "aa"):
                self.assertEqual([(at, xres) for at, xres, _ in made.places(digits)],
                                 [(at, xres) for at, xres, _ in together.places(digits)])


    def test_little_work(self):
        """One with a shorter XRES than all others is added without a look at these, and what is known of all is nothing that Python
        goes through when it looks for what isn't used any more."""
        self.form.add([vector(IMSI, number) for number in range(3)])
        finder = self.form.finder
        finder.by_length = {length: Unread(known) for length, known in finder.by_length.items()}
        self.form.add(["vec %s %032x %032x aabbccdd %064x" % (IMSI, 8, 8, 8)])
        self.assertEqual([at for at, _, _ in finder.places("aabbccdd%016x" % 3)], [0, 8])
        self.form = keys.Keyless(provisioning.Head([*HEAD.splitlines(), vector(IMSI, 1)]))
        further = self.form.further()
        further.add(vector(IMSI, 2))
        self.form.add([vector(IMSI, 2)])
        known = [self.form.vectors.keys, further.vectors.keys, *self.form.finder.by_length.values()]
        self.assertEqual([(len(each), gc.is_tracked(each)) for each in known], [(2, False), (1, False), (2, False)])


class Unread(dict):
    """A dict that nobody goes through."""

    def __iter__(self):
        raise AssertionError

    keys = values = items = __iter__


class Standing(unittest.TestCase):
    """A log that stands, with such lines."""

    LINES = ["up 0", runs.FURTHER + SUB, "show " + OTHER, runs.FURTHER + vector(OTHER, 1), "lost 0"]

    def setUp(self):
        self.log = self.enterContext(tempfile.TemporaryDirectory()) + "/log"

    def write(self, settled, form=keys.Whole(), head=HEAD):
        """A log whose first so many lines are settled."""
        made = journal.Journal.begun(self.log, provisioning.Head(head.splitlines()), 1 << 20, 5, form)
        for place, line in enumerate(self.LINES):
            batch = journal.Batch()
            batch.add(line)
            made.add([batch])
            if place < settled:
                made.settle(batch)
        made.write_settled(0.0)
        made.close()

    def test_found(self):
        """They are found whether they are settled or not, in both series, with and without keys."""
        for settled in range(len(self.LINES) + 1):
            for form in (keys.Whole(), keys.Keyless(provisioning.Head(HEAD.splitlines()))):
                with self.subTest(settled=settled, form=form.note), tempfile.TemporaryDirectory() as folder:
                    self.log = folder + "/log"
                    self.write(settled, form)
                    standing = resuming.Standing(self.log)
                    line = vector(OTHER, 1) if form.has_keys else keys.without_keys(vector(OTHER, 1))
                    self.assertEqual(standing.further, [SUB, line])
                    [batch] = standing.tail_batches(lambda entry: entry)
                    self.assertEqual(batch.lines, form.written(self.LINES[settled:]))
                    self.assertEqual(resuming.facts_in(self.log, [])[:2], HEAD.splitlines())
                    self.assertLessEqual({SUB, line}, set(resuming.facts_in(self.log, [])))

    def test_by_a_program(self):
        """A program that can't play it isn't given it: what to do is said."""
        self.write(5)
        folder = pathlib.Path(self.log).parent
        (folder / "subscribers").write_text(HEAD + SUB + "\n" + vector(OTHER, 1) + "\n")
        words = ["--tcp", "--port", "0", "--resume", "--mme", "/bin/false"]
        status, told = said(["run", folder / "subscribers", self.log, *words])
        self.assertEqual(status, 2)
        self.assertIn(resuming.OF_LIBRARY % self.log + resuming.OR_FILLED, told)

    def test_in_a_store(self):
        """Of a log in a store, of which `fill` makes nothing, that isn't said."""
        front = types.SimpleNamespace(settings=types.SimpleNamespace(library=False))
        with self.assertRaises(Failed) as caught:
            standby.Standby.note_further(types.SimpleNamespace(front=front), [SUB])
        self.assertEqual(str(caught.exception), "the store's log has lines of provisioning where they were given (`#+ `), which "
                         "`mme play` skips: go on with --library")

    def test_used(self):
        """Where it isn't known which vectors were used, those count too that were given while it ran."""
        self.LINES.insert(1, "in 0 000c00")
        self.addCleanup(self.LINES.remove, "in 0 000c00")
        self.write(0)
        self.assertIn(vector(OTHER, 1), resuming.perhaps_used(self.log, []))

    def begun_anew(self, head, *words):
        """The vectors that count as used once a run begins anew, after a log of an earlier boot or without its LOG.used."""
        folder = pathlib.Path(self.log).parent
        (folder / "subscribers").write_text(head)
        words = ["--tcp", "--port", "0", "--mme", "/bin/false", "--keep", "1", *words]
        told = said(["run", folder / "subscribers", self.log, *words])[1]
        self.assertIn("front: the MME ended with status 1\n", told)
        return (folder / "log.used").read_text().splitlines()

    def test_a_beginning_that_is_lost(self):
        """Where no segment has the head that a log began with, what counts has it; where that is lost too, all vectors of the
        subscribers' file count as used, and those that were given."""
        self.LINES.insert(1, "in 0 000c00")
        self.addCleanup(self.LINES.remove, "in 0 000c00")
        head, other = HEAD + vector(IMSI, 7) + "\n", HEAD + vector(IMSI, 8) + "\n"
        entries = [" ".join(vector(*given).split(" ")[1:3]) for given in ((OTHER, 1), (IMSI, 7), (IMSI, 8))]
        for lost, used in (((), entries[:2]), (("log",), entries[:2]), (("log", "log.counts"), entries[::2])):
            for words in (("--resume", "--anew"), ()):
                with self.subTest(lost=lost, words=words), tempfile.TemporaryDirectory() as folder:
                    self.log = folder + "/log"
                    self.write(5, head=head)
                    for name in lost:
                        path = pathlib.Path(folder, name)
                        path.write_text("# segment 2, begun now\n%s" % path.read_text().rpartition("begun ")[2].partition("\n")[2])
                    if words:
                        pathlib.Path(folder, "log.unsynced").write_text("another\n")
                    self.assertEqual(sorted(self.begun_anew(other, *words)), sorted(used))

    def test_a_line_that_is_damaged(self):
        """A vector that was given and can't be read any more is perhaps one of the subscribers' file, which count as used then. The
        file with those that were used can be read again."""
        self.write(0)
        text = vector(OTHER, 1)
        for place in (0, 8, 25, len("vec " + OTHER)):
            with self.subTest(place=place), tempfile.TemporaryDirectory() as folder:
                path = pathlib.Path(folder, "log")
                path.write_text("".join([
                    HEAD, vector(IMSI, 7), "\n# segment 1, begun now\n", runs.FURTHER, SUB, "\nin 0 000c00\n", runs.FURTHER,
                    text[:place], "\0" * 5, text[place + 5:], "\n"]))
                pathlib.Path(folder, "log.unsynced").write_text("another\n")
                self.log = str(path)
                self.assertEqual(self.begun_anew(HEAD + "\n".join([SUB, text, ""]), "--resume", "--anew"), [
                    " ".join(line.split(" ")[1:3]) for line in (vector(IMSI, 7), text)])
                UsedVectors(self.log + ".used").close()

    def test_of_a_log(self):
        """Such a line isn't one of a subscribers' file."""
        folder = pathlib.Path(self.log).parent
        (folder / "subscribers").write_text(HEAD + runs.FURTHER + SUB + "\n")
        status, told = said(["run", folder / "subscribers", self.log, "--tcp", "--port", "0", "--mme", "/bin/false"])
        self.assertEqual((status, told), (2, "front: %s: line 3: %s\n" % (folder / "subscribers", provisioning.OF_A_LOG)))


    def test_same_rand(self):
        """Nor has such a file two vectors of a subscriber with the same RAND, and nothing like it is given to a program."""
        folder, first = pathlib.Path(self.log).parent, vector(IMSI, 0xab)
        words = [folder / "subscribers", self.log, "--tcp", "--port", "0", "--mme", "/bin/false"]
        for second in (first, vector(IMSI, 0xab, 2), first.upper().replace("VEC", "vec")):
            (folder / "subscribers").write_text("%s%s\n# more\n%s\n" % (HEAD, first, second))
            status, told = said(["run", *words])
            self.assertEqual((status, told), (2, "front: %s: line 5: %s\n" % (
                folder / "subscribers", provisioning.SAME_RAND % IMSI)))
            if second != first:
                with self.assertRaisesRegex(runs.Fault, "line 2: " + provisioning.SAME_RAND % IMSI):
                    provisioning.Head([*HEAD.splitlines(), first]).with_more([SUB, second])


class Asking(tools.InFolder):
    """`ask .. give`."""

    def test_long(self):
        """It waits for its answer, however long that takes; other words don't."""
        asking = unittest.mock.MagicMock()
        asking.__enter__.return_value = asking
        asking.makefile.return_value.readline.return_value = "taken\n"
        lines = str(self.file("lines", SUB))
        with unittest.mock.patch.object(command, "connected", return_value=asking), contextlib.redirect_stdout(io.StringIO()):
            for word, more, seconds in (("give", lines, None), ("data", IMSI, limits.ANSWERED_SECONDS)):
                command.ask(command.parser("").parse_args(["ask", "control", word, more]))
                self.assertEqual(asking.settimeout.mock_calls, [unittest.mock.call(seconds)])
                asking.settimeout.reset_mock()


class Long(Turned):
    """A guest who says much."""

    def test_wanted(self):
        """What is wanted together comes together, and what is beyond it is read on."""
        heard = []

        def take(guest, received):
            heard.append(received)
            guest.wanted = 300000 if len(received) < 300000 else 0
            return b"" if not guest.wanted else received

        door = Door(self.loop, self.listener, 1, 1 << 20, 60, take)
        self.addCleanup(door.close)
        with socket.socket(socket.AF_UNIX) as guest:
            guest.connect(self.path)
            guest.setblocking(False)
            rest = b"x" * 300000
            while rest:
                try:
                    rest = rest[guest.send(rest):]
                except BlockingIOError:
                    pass
                self.turn(0.001)
            self.turn()
        self.assertEqual(heard[-1], b"x" * 300000)
        self.assertLessEqual(len(heard), 2)


class Told(unittest.TestCase):
    """The model of the reasons."""

    def test_lengthened(self):
        """It has a line's subscriber from there on, and ends where there are too many."""
        front = types.SimpleNamespace(exchange=types.SimpleNamespace(follow=none, journal=None), loop=None,
                                      meters=types.SimpleNamespace(now=0.0))
        made = teller.Teller(front)
        made.begin(provisioning.Head(HEAD.splitlines()))
        for text in ("# x", runs.FURTHER + SUB, runs.FURTHER + vector(OTHER, 1), "data " + OTHER):
            made.read(text, 1, 0.0)
        self.assertEqual([len(each.profile.vectors) for each in made.world.subscribers], [0, 1])
        self.assertEqual([reason for reason in made.others if "nobody is provisioned" in reason.text()], [])
        batch = journal.Batch()
        for place in range(limits.MOST_TOLD_OF):
            batch.add(runs.FURTHER + "sub %015d 0a000000 0a000000 00000000" % place)
        made.take(batch)
        self.assertEqual((made.world, made.why_not), (None, teller.TOO_MANY))
        made.refuse()
        self.assertEqual(made.why_not, teller.TOO_MANY)

    def test_refused(self):
        """It ends where the MME refused a line that it took."""
        front = types.SimpleNamespace(exchange=types.SimpleNamespace(follow=none, journal=None), loop=None)
        made = teller.Teller(front)
        made.begin(provisioning.Head(HEAD.splitlines()))
        made.refuse()
        self.assertEqual((made.world, made.why_not), (None, teller.REFUSED))


class Gathered(tools.InFolder):
    """`fill --head`: the log with all that was given in its head."""

    def setUp(self):
        super().setUp()
        self.trace, self.station = PHONES.Trace(), PHONES.Station(0)
        self.phones = [PHONES.Phone(self.trace, slot, [PHONES.Vector.made("%d.%d" % (slot, place)) for place in range(2)])
                       for slot in range(2)]
        self.trace.provision(self.phones)
        self.lines = self.trace.text().splitlines()
        self.trace.set_up(self.station)

    def filled(self, given):
        """What `fill --head` makes of the run: lines are given, each by the number of the event before which it is; its words."""
        events = self.trace.text().splitlines()[len(self.lines):]
        text = [line for line in self.lines if line not in given.values()] + ["# segment 1, begun now"]
        for place, line in enumerate(events):
            text += [runs.FURTHER + found for at, found in given.items() if int(at) == place] + [line]
        log = self.file("log", "\n".join(text) + "\n")
        done = tools.ran("front", "fill", "--head", self.file("vectors", "\n".join(self.lines) + "\n"), log)
        return done.returncode, done.stdout.decode(), done.stderr.decode()

    def test_same(self):
        """A vector that comes before its phone needs it: the head has it, and nothing is answered otherwise."""
        self.phones[0].attaches(self.station, 1)
        last = self.lines[-1]
        status, printed, told = self.filled({3: last})
        self.assertEqual((status, told), (0, ""))
        self.assertEqual(printed.splitlines()[:len(self.lines)], self.lines)
        self.assertNotIn(runs.FURTHER, printed)
        events = [line for line in printed.splitlines()[len(self.lines):] if not line.startswith("# segment")]
        self.assertEqual(events, self.trace.text().splitlines()[len(self.lines):])

    def test_a_stranger(self):
        """A phone whose subscriber came later was answered otherwise: the line is said, of the log as it is printed."""
        self.phones[0].attaches(self.station, 1)
        request = len(self.trace.lines)
        self.phones[1].asks_to_attach(self.station, 2)
        self.trace.say("tick 1")
        last = len(self.trace.lines) - 1 - len(self.lines)
        withheld = [line for line in self.lines if line.split(" ")[1] == self.phones[1].imsi]
        status, printed, told = self.filled({last + place / 10: line for place, line in enumerate(withheld)})
        self.check_otherwise(status, printed, told, request, 1)

    def check_otherwise(self, status, printed, told, place, slot):
        """A line of the trace is said to be answered otherwise, to a phone, by its place in what is printed."""
        self.assertEqual(status, 0)
        [line] = told.splitlines()
        self.assertRegex(line, r"^front: line \d+, as it is printed here, is answered otherwise than it was, to ")
        number = int(line.split(" ")[2].rstrip(","))
        self.assertEqual(printed.splitlines()[number - 1], self.trace.text().splitlines()[place])
        self.assertIn("subscriber %d, IMSI %s" % (slot, self.phones[slot].imsi), line)

    def test_no_vector(self):
        """So was one that had no vector left, and is challenged now."""
        phone, other = self.phones
        other.attaches(self.station, 9)
        for number in (1, 2):
            phone.attaches(self.station, number)
            phone.detaches()
        esm, request = LTE.pdn_connectivity_request(1, 1, False), len(self.trace.lines)
        phone.sends_first(self.station, 3, LTE.attach_request(1, LTE.imsi_identity(phone.imsi), phone.capability, esm))
        phone.goes()
        more = PHONES.Vector.made("more").words(phone.imsi)
        self.lines.append(more)
        self.trace.lines.insert(len(self.lines) - 1, more)
        self.trace.say("tick 1")
        self.check_otherwise(*self.filled({len(self.trace.lines) - 1 - len(self.lines): more}), request + 1, 0)

    def test_too_many(self):
        """A head that a program doesn't take isn't printed."""
        lines = [vector(IMSI, number) for number in range(65)]
        log = self.file("log", HEAD + "# segment 1, begun now\n" + "".join(runs.FURTHER + line + "\n" for line in lines))
        done = tools.ran("front", "fill", "--head", self.file("vectors", ""), log)
        self.assertEqual((done.returncode, done.stdout, done.stderr.decode()), (2, b"", "front: %s\n" % (
            heads.TOO_MANY % (IMSI, 65, 64))))

    def test_much(self):
        """What is past is forgotten now and then."""
        lines = ["tick 1\n"] * 30
        text = HEAD + "# segment 1, begun now\n" + "".join([*lines, runs.FURTHER, SUB, "\n"])
        with unittest.mock.patch.object(limits, "FORGETS_AFTER", 10), unittest.mock.patch.object(heads.World, "forget") as forget:
            made = heads.Gathered(lambda: iter(text.encode().splitlines(keepends=True)))
            self.assertEqual(list(made.differences()), [])
        self.assertEqual(forget.mock_calls, [unittest.mock.call(limits.MOST_LINES_OF_PHONE)] * 6)

    def test_damaged(self):
        """A line that is none is told by its number, of the log as it is printed."""
        begun, given = HEAD + "# segment 1, begun now\n", runs.FURTHER + SUB + "\n"
        for text, number, why in (
                (begun + "up\n" + given, 5, "up has 1 field, not 0"), (begun + "u 0\n" + given, 5, "no line begins with 'u'"),
                (begun + "in 0 0g\n" + given, 5, "'0g' aren't octets in hex"),
                (begun + "show %s\n" % OTHER + given, 5, "nobody has the IMSI " + OTHER),
                (begun + runs.FURTHER + "vec 1\n", 3, "vec has 5 fields, not 1"),
                (begun + runs.FURTHER + "up 0\n", 3, "no line begins with 'up'"),
                (begun + given + runs.FURTHER + SUB[:-1] + "\n", 4, adding.LENGTHS["sub"]),
                (HEAD + "sub\n# segment 1, begun now\n", 3, "sub has 4 fields, not 0")):
            with self.subTest(why=why), self.assertRaises(runs.Fault) as caught:
                lines = text.encode().splitlines(keepends=True)
                list(heads.Gathered(lambda lines=lines: iter(lines)).differences())
            self.assertEqual(str(caught.exception), heads.DAMAGED % (number, why))

    def test_a_comment(self):
        """A comment of the subscribers' file doesn't end the head, whatever it begins with."""
        text = HEAD + "# segment of the north\n%s\n# segment 1, begun now\nup 0\n" % SUB
        lines = text.encode().splitlines(keepends=True)
        made = heads.Gathered(lambda: iter(lines))
        self.assertEqual((made.head, list(made.lines())), (lines[:4], lines))

    def test_unsure(self):
        """Of a log that may lack what was answered nothing is printed, since a run could go on after it."""
        log = self.file("log", HEAD + "# segment 1, begun now\n")
        words = "fill", "--head", self.file("vectors", ""), log
        for end, why in ((".unsynced", "%s was written without being synced" % log), (".counts.given-up", "%s was given up" % log)):
            with self.subTest(end=end):
                beside = self.file("log" + end, "another\n")
                done = tools.ran("front", *words)
                self.assertEqual((done.returncode, done.stdout), (2, b""))
                self.assertIn("front: %s" % why, done.stderr.decode())
                pathlib.Path(beside).unlink()
        self.assertEqual(tools.ran("front", *words).returncode, 0)

    def test_keyless(self):
        """A vector gets its keys in the head; without --head where it stands."""
        line = vector(IMSI, 1)
        begun = HEAD + "# segment 1, begun now, without keys\nup 0\n"
        log = self.file("log", "%s%s%s\n" % (begun, runs.FURTHER, keys.without_keys(line)))
        vectors = self.file("vectors", line + "\n")
        for words, told in ((("--head",), HEAD + line + "\n# segment 1, begun now\nup 0\n"),
                            ((), HEAD + "# segment 1, begun now\nup 0\n%s%s\n" % (runs.FURTHER, line))):
            done = tools.ran("front", "fill", *words, vectors, log)
            self.assertEqual((done.returncode, done.stdout.decode(), done.stderr), (0, told, b""))


class Read(tools.InFolder):
    """What the other tools say of such a log."""

    def test_said(self):
        """That these lines are skipped, or that it can't be followed."""
        program = self.file("mme", """#!%s\nimport sys
for line in open(sys.argv[2]) if sys.argv[2:] else sys.stdin:
    print("refused 5" if line.startswith("data") else "", flush=True)
""" % sys.executable)
        program.chmod(0o755)
        log = self.file("log", HEAD + "# segment 1, begun now\nup 0\n%s%s\nlost 0\n" % (runs.FURTHER, SUB))
        for words, status, end in ((("chart", log), 0, "they are skipped here"),
                                   (("capture", "out", "--follow", log), 2, "so it can't be followed")):
            done = tools.ran(*words, "--mme", program)
            self.assertEqual((done.returncode, done.stderr.decode()), (status, "%s: %s: %s\n" % (words[0], runs.GIVEN_LATER, end)))


class TooMuch(unittest.TestCase):
    """What is asked of a front."""

    def test_too_much(self):
        """More than is taken at once isn't read to its end, and it is said how much that is."""
        running = Running(self)
        (running.folder / "given").write_bytes(b"#\n" * limits.LONGEST_ADDED)
        self.assertEqual(running.asks("give", running.folder / "given"),
                         "fault give has the number of octets that follow, up to %d\n" % limits.LONGEST_ADDED)
        self.assertEqual(running.stop()[0], 0)


if __name__ == "__main__":
    unittest.main()
