"""The parts of tools/fronting: connections, paces, segments, what counts, and what is compared where something is given."""
import contextlib
import itertools
import os
import pathlib
import socket
import stat
import struct
import tempfile
import time
import types
import unittest
import unittest.mock

import soizkadur
from reference import lte as LTE, phones as PHONES
from tests.tools import tools
from tests.tools.fronted import HEAD, IMSI
from tools import runs as RUNS
from tools.fronting import command, crowd, journal, limits, links, provisioning, resuming, sctp, segments, stations
from tools.fronting.faults import Failed
from tools.fronting.loop import Loop
from tools.fronting.meters import Meters
from tools.fronting.mme import LibraryMme
from tools.fronting.notify import Manager
from tools.fronting.pace import Pace

SETUP = bytes.fromhex("201100170000020069000b000000f11000008001000100574001ff")  # S1 SETUP RESPONSE
SETUP_REQUEST = LTE.s1_setup_request(PHONES.Network(), PHONES.Station(0))
UPLINK = LTE.uplink_nas(PHONES.Network(), PHONES.Station(0), 0x10001, 7, b"\x07\x60\x61")
ERROR = bytes.fromhex("000f40070000010002400110")  # ERROR INDICATION with a cause (TS 36.413 clause 9.1.8.3)


@contextlib.contextmanager
def pair():
    """Both ends of a connection by TCP."""
    with socket.create_server(("127.0.0.1", 0)) as listener, socket.create_connection(listener.getsockname()) as far:
        near, _ = listener.accept()
        with near:
            yield far, near


class Tcp(unittest.TestCase):
    def received(self, pieces, closed=True, most=100, octets=1 << 20):
        """What a link makes of octets that come in these pieces, and why it ended."""
        with pair() as (far, near):
            link, messages = links.TcpLink(near), []
            for piece in pieces:
                far.sendall(piece)
                time.sleep(0.002)
                link.readable = True
                messages += link.take(most, octets)
            if closed:
                far.shutdown(socket.SHUT_WR)
                end = time.monotonic() + 20
                while link.why is None and time.monotonic() < end:
                    link.readable = link.readable or link.last is None
                    messages += link.take(most, octets)
            return messages, link.why

    def test_messages(self):
        longest = (bytes(range(250)) * 80)[:limits.LONGEST_MESSAGE]
        whole = b"\0\5hello" + b"\0\0" + len(longest).to_bytes(2, "big") + longest + b"\0\1!"
        single = [bytes([octet]) for octet in whole[:12]]
        for pieces in ([whole], [whole[:1], whole[1:]], [whole[:9], whole[9:]], single + [whole[12:]]):
            for most, octets in ((100, 1 << 20), (1, 1 << 20), (100, 1)):
                with self.subTest(pieces=len(pieces), most=most, octets=octets):
                    self.assertEqual(self.received(pieces, most=most, octets=octets), ([b"hello", b"", longest, b"!"], links.ENDED))
        self.assertEqual(self.received([]), ([], links.ENDED))

    def test_turns(self):
        """No more messages than are asked for, and none after as many octets as are asked for."""
        with pair() as (far, near):
            link = links.TcpLink(near)
            far.sendall(b"\0\3abc" * 10)
            time.sleep(0.01)
            self.assertEqual(link.take(4, 1000), [b"abc"] * 4)
            self.assertTrue(link.has_more)
            self.assertEqual(link.take(4, 1), [b"abc"])
            self.assertEqual(link.take(100, 1000), [b"abc"] * 5)
            self.assertFalse(link.has_more or link.readable)

    def test_longest(self):
        """The longest message is one of a trace for each station, and one octet more isn't."""
        for more, fits in ((0, True), (1, False)):
            line = b"in 127 " + b"00" * (limits.LONGEST_MESSAGE + more)
            self.assertEqual(len(line) <= RUNS.LONGEST_LINE, fits)

    def test_faults(self):
        """What came whole before a fault counts."""
        for pieces, messages, why in (([b"\x4e\x1d"], [], "a message of 19997 octets"),
                                      ([b"\0\1!\xff\xff" + bytes(9)], [b"!"], "a message of 65535 octets"),
                                      ([b"\0"], [], links.CUT), ([b"\0\5hell"], [], links.CUT),
                                      ([b"\0\1!\0\5"], [b"!"], links.CUT)):
            with self.subTest(why=why, pieces=pieces):
                self.assertEqual(self.received(pieces), (messages, why))

    def test_half_a_message(self):
        """Since when there is half of one is known, and forgotten once it is whole."""
        with pair() as (far, near):
            link = links.TcpLink(near)
            far.sendall(b"\0\5hel")
            time.sleep(0.01)
            self.assertEqual(link.take(10, 1000), [])
            self.assertLessEqual(link.half_since, time.monotonic())
            far.sendall(b"lo")
            time.sleep(0.01)
            link.readable = True
            self.assertEqual(link.take(10, 1000), [b"hello"])
            self.assertIsNone(link.half_since)

    def test_who_vanishes(self):
        """Probes begin soon, and nobody who leaves them or what was sent unanswered keeps its place for half a minute (tcp(7))."""
        with pair() as (_, near):
            connection = links.TcpLink(near).connection
            idle, apart, count, user = (connection.getsockopt(socket.IPPROTO_TCP, option) for option in (
                socket.TCP_KEEPIDLE, socket.TCP_KEEPINTVL, socket.TCP_KEEPCNT, socket.TCP_USER_TIMEOUT))
            self.assertTrue(connection.getsockopt(socket.SOL_SOCKET, socket.SO_KEEPALIVE))
            self.assertLess(idle + apart * count, 30)
            self.assertTrue(0 < user < 30000)

    def test_send(self):
        """By one call for all that waits; what doesn't go at once waits, and what waits is known."""
        with pair() as (far, near):
            link = links.TcpLink(near)
            messages = [bytes([number % 250]) * 15000 for number in range(1000)]
            link.put(b"hello")
            link.put(b"")
            link.flush()
            self.assertEqual(far.recv(100), b"\0\5hello\0\0")
            for message in messages:
                link.put(message)
            link.flush()
            self.assertFalse(link.writable)
            self.assertGreater(link.size, 0)
            got = b""
            while len(got) < 1000 * 15002:
                got += far.recv(1 << 20)
                link.writable = True
                link.flush()
            self.assertEqual(got, b"".join(len(message).to_bytes(2, "big") + message for message in messages))
            self.assertEqual(link.size, 0)


class Streams(unittest.TestCase):
    def test_streams(self):
        """The common one for what is no phone's, PAGING among that; a phone's by its eNB UE S1AP ID (TS 36.412 clause 7)."""
        paging = LTE.paging(PHONES.Network(), IMSI, 0x10001, 1)
        for octets in (SETUP, ERROR, paging, b"", b"\xff"):
            self.assertEqual(sctp.stream_of(octets, 10), 0)
        for enb_id in (0, 1, 8, 9, 300, 1 << 23):
            nas = LTE.downlink_nas(0x10001, enb_id, b"\x07\x60\x6f")
            release = LTE.release_command(0x10001, enb_id, LTE.NORMAL_RELEASE)
            self.assertEqual(sctp.stream_of(nas, 10), 1 + enb_id % 9)
            self.assertEqual(sctp.stream_of(release, 10), sctp.stream_of(nas, 10))
            self.assertEqual(sctp.stream_of(nas, 1), 0)

    def test_restart(self):
        """The notification of a restart has the streams (RFC 6458 clause 6.1.1); others, and what is cut, have none."""
        def change(kind, state):
            return struct.pack("=HHIHHHHi", kind, 0, 20, state, 0, 3, 4, 7)
        self.assertEqual(sctp.streams_after_restart(change(0x8001, 2)), 3)
        for octets in (change(0x8001, 0), change(0x8001, 1), change(0x8002, 2), change(0x8001, 2)[:19], b""):
            self.assertIsNone(sctp.streams_after_restart(octets))


class Paces(unittest.TestCase):
    def test_pace(self):
        """A second's worth at once, and then as many a second."""
        pace = Pace(100)
        self.assertEqual(pace.allows(1000.0), 100)
        pace.take(100, 1000.0)
        self.assertEqual(pace.allows(1000.0), 0)
        self.assertAlmostEqual(pace.next(), 1000.01)
        self.assertEqual([pace.allows(1000 + seconds) for seconds in (0.009, 0.011, 0.305, 1.0, 50.0)], [0, 1, 30, 100, 100])
        pace.take(300, 1001.0)
        self.assertEqual(pace.allows(1002.9), 0)

    def test_attaches(self):
        """At the usual rate 500 phones may attach through one station within 2 s, by their messages and by their octets."""
        trace, station = PHONES.Trace(), PHONES.Station(0)
        PHONES.Phone(trace, 0, [PHONES.Vector.made("pace")]).attaches(station, 400, information=True)
        sizes = [len(line.split(" ")[2]) // 2 for line in trace.lines]
        for rate, whole in ((limits.RATE, 500 * len(sizes)), (limits.RATE * limits.OCTETS, 500 * sum(sizes))):
            pace, passed, steps = Pace(rate), 0, 0
            while passed < whole:
                count = min(whole - passed, pace.allows(1000 + steps / 100))
                pace.take(count, 1000 + steps / 100)
                passed, steps = passed + count, steps + 1
            self.assertLess(steps, 200)


class Segments(unittest.TestCase):
    def setUp(self):
        self.folder = pathlib.Path(self.enterContext(tempfile.TemporaryDirectory()))
        self.path = str(self.folder / "log")

    def series(self, size=200, most=3):
        made = segments.Series(self.path, "what happened", size, most, HEAD.encode())
        self.addCleanup(made.close)
        return made

    def test_segments(self):
        """In their order they are one trace; the oldest goes for a new one."""
        series = self.series()
        for number in range(20):
            series.add(b"tick %d\n" % (10000 + number))
        self.assertEqual(series.trim(series.number), [])
        self.assertTrue(series.is_whole)
        text = "".join(pathlib.Path(path).read_text() for path in series.paths())
        self.assertTrue(text.startswith(HEAD))
        self.assertEqual([line for line in text.splitlines() if line.startswith("tick")],
                         ["tick %d" % (10000 + number) for number in range(20)])
        for number in range(20, 60):
            series.add(b"tick %d\n" % (10000 + number))
        self.assertEqual(series.trim(2), [self.path + ".segment.000001"])
        self.assertEqual(series.trim(series.number)[0], self.path + ".segment.000002")
        self.assertFalse(series.is_whole)
        self.assertLessEqual(len(series.paths()), 3)
        self.assertLess(series.octets(), 800)

    def test_owner_alone(self):
        """The vectors in it are nobody else's."""
        series = self.series(size=100)
        series.add(b"tick 1\n" * 20)
        for path in series.paths():
            self.assertEqual(stat.S_IMODE(os.stat(path).st_mode), 0o600)

    def test_places(self):
        self.series()
        with self.assertRaisesRegex(RUNS.Fault, "there is one already") as caught:
            self.series()
        self.assertEqual(caught.exception.status, 2)
        with self.assertRaisesRegex(RUNS.Fault, "No such file"):
            segments.Series(str(self.folder / "none" / "log"), "what happened", 100, 3, b"")

    def test_moved_and_cut(self):
        """Both are noticed, what comes goes into a new file, and a number stays free, so that the series isn't taken for whole."""
        series = self.series()
        series.add(b"tick 1\n")
        self.assertIsNone(series.check())
        os.replace(self.path, self.path + ".elsewhere")
        self.assertEqual(series.check(), "was moved")
        series.add(b"tick 2\n")
        self.assertEqual([line for line in pathlib.Path(self.path).read_text().splitlines() if line.startswith("tick")], ["tick 2"])
        os.truncate(self.path, 3)
        self.assertEqual(series.check(), "was cut")
        series.add(b"tick 3\n")
        self.assertFalse(series.is_whole)
        self.assertEqual(series.number, 4)
        self.assertEqual(sorted(segments.older_segments(self.path)), [2])
        pathlib.Path(self.path).unlink()
        pathlib.Path(self.path).write_text("another's")
        with self.assertRaisesRegex(Failed, "another file stands in its place"):
            series.check()

    def test_longer_head(self):
        """It stands in the first segment, which may be the one that is written, and the events stay."""
        for count in (1, 30):
            with self.subTest(count=count):
                for path in self.folder.iterdir():
                    path.unlink()
                series = segments.Series(self.path, "what happened", 200, 100, HEAD.encode())
                for number in range(count):
                    series.add(b"tick %d\n" % (10000 + number))
                place = series.place
                series.lengthen(HEAD.encode() + b"# more\n")
                self.assertEqual(series.place, place)
                series.add(b"tick 77\n")
                text = "".join(pathlib.Path(path).read_text() for path in series.paths())
                self.assertTrue(text.startswith(HEAD + "# more\n# segment 1, "))
                self.assertEqual([line for line in text.splitlines() if line.startswith("tick")],
                                 ["tick %d" % (10000 + number) for number in range(count)] + ["tick 77"])
                series.close()


class Speaking(unittest.TestCase):
    def test_turns(self):
        """A message of each station comes after one of each other, each station's in their order, and each is noted as its own."""
        batch, meters = journal.Batch(), Meters()
        settings = types.SimpleNamespace(rate=1, per_address=1, allow=(), setup_seconds=1)
        heard = []
        attaches = types.SimpleNamespace(hear=lambda station, octets, line: heard.append((station, octets, line)))
        made = crowd.Crowd(None, types.SimpleNamespace(batch=batch, imsis=[]), None, meters, attaches, settings)
        said = {5: [b"\xff\1", UPLINK, b"\xff\3"], 0: [b""], 127: [SETUP_REQUEST, b"\xff\2"]}
        spoken = []
        for number, messages in said.items():
            spoken.append((stations.Station(None, "", 0, 1, 0.0), messages))
            spoken[-1][0].number = number
        made.hear(spoken)
        wanted = [(5, "ff01"), (0, "-"), (127, SETUP_REQUEST.hex()), (5, UPLINK.hex()), (127, "ff02"), (5, "ff03")]
        self.assertEqual(batch.lines, ["in %d %s" % one for one in wanted])
        self.assertEqual((batch.owners, batch.heard), ([number for number, _ in wanted], {5: 3, 0: 1, 127: 2}))
        self.assertEqual(batch.octets, sum(map(len, batch.lines)))
        self.assertEqual([station.request for station, _ in spoken], [None, None, SETUP_REQUEST])
        self.assertEqual(heard, [(5, UPLINK, "in 5 " + UPLINK.hex())])
        self.assertEqual(meters.inward, {b"": 4, UPLINK[:2]: 1, SETUP_REQUEST[:2]: 1})
        self.assertEqual([(row[1], row[4]) for row in meters.recent], [(5, 1), (5, 2), (5, 3), (0, 1), (127, 1), (127, 2)])


class Counting(unittest.TestCase):
    def batch(self, *items):
        made = journal.Batch()
        for line, station in items:
            made.add(line, station)
            if station is not None:
                made.heard[station] = made.heard.get(station, 0) + 1
        return made

    def test_what_counts(self):
        """Where each message of a station was answered by an ERROR INDICATION they don't count; else all of them do."""
        items = [("up 1", None), ("in 0 aa", 0), ("in 1 bb", 1), ("in 0 cc", 0), ("in 2 dd", 2)]
        for errors, left in (({}, items), ({0: 1}, items), ({0: 2}, [items[0], items[2], items[4]]),
                             ({0: 2, 1: 1, 2: 1}, items[:1])):
            batch = self.batch(*items)
            for station, count in errors.items():
                for _ in range(count):
                    batch.note_answer(station, is_reset=False)
            self.assertEqual(batch.counting(), [line for line, _ in left])

    def test_ticks(self):
        """Seconds in which nothing else counts are one line."""
        folder = self.enterContext(tempfile.TemporaryDirectory())
        made = journal.Journal.begun(folder + "/log", provisioning.Head(HEAD.splitlines()), 1 << 20, 3)
        self.addCleanup(made.close)
        for lines in (["tick 1"], ["tick 1"], ["tick 1", "up 0"], ["tick 1"], ["tick 7"], ["lost 0"]):
            batch = self.batch(*((line, None) for line in lines))
            made.add([batch])
            made.settle(batch)
        made.write_settled(0.0)
        lines = pathlib.Path(folder, "log.counts").read_text().splitlines()
        self.assertEqual([line for line in lines[2:] if line[0] != "#"], ["tick 3", "up 0", "tick 8", "lost 0"])
        self.assertEqual(lines[-1], "# settled until segment 1, octet %d" % made.happened.place[1])


class Echo:
    """An MME of the package: answers each line by itself, slowly at one that asks for it, and refuses what is a number."""
    is_open = True

    def __init__(self):
        self.texts = []

    def play_text(self, text):
        self.texts.append(text)
        told = b""
        for number, line in enumerate(text.splitlines(), 1):
            if line.isdigit():
                raise soizkadur.Refused(int(line), number, answers=told)
            time.sleep(limits.LIBRARY_SECONDS if line.startswith(b"slow") else 0)
            told += line + b"\n" if line != b"quiet" else b""
        return told

    def close(self):
        self.is_open = False


class Chosen(unittest.TestCase):
    """Which MME a front runs."""

    def test_words(self):
        """The library's where it is there, unless a program is named; else the program beside the tool."""
        for is_there in (True, False):
            found = {"return_value": soizkadur} if is_there else {"side_effect": Failed("there is no library", 2)}
            for mme, library, chosen in ((None, False, (RUNS.SYSTEM, is_there)), (None, True, (RUNS.SYSTEM, True)),
                                         ("x", False, ("x", False))):
                given = types.SimpleNamespace(mme=mme, library=library)
                with unittest.mock.patch.object(command, "library", **found):
                    command.choose_mme(given)
                self.assertEqual((given.mme, given.library), chosen)


class InProcess(unittest.TestCase):
    """An MME in the front's process, which isn't the library's here."""

    def setUp(self):
        self.loop, self.heard, self.said, self.ends = Loop(), [], [], []
        self.addCleanup(self.loop.close)
        package = types.SimpleNamespace(Mme=Echo, Refused=soizkadur.Refused, Refusal=soizkadur.Refusal)
        self.mme = LibraryMme(package, self.loop, self.heard.append, lambda event, text: self.said.append((event, text)))
        self.mme.end = self.ends.append

    def turn(self, count=20):
        """Turns of the loop, each with something else to do."""
        for _ in range(count):
            self.loop.after(0, lambda: None)
            self.loop.turn()

    def test_answers(self):
        """What it is given is answered in later turns, in its order; it ends once it has played all."""
        self.mme.give(b"a\nquiet\nb\n")
        self.mme.give(b"c\n")
        self.assertEqual((self.heard, self.mme.size), ([], 12))
        self.turn()
        self.assertEqual((b"".join(self.heard), self.mme.size, self.ends), (b"a\nb\nc\n", 0, []))
        self.mme.give(b"d\n")
        self.mme.finish()
        self.mme.give(b"late\n")
        self.turn()
        self.assertEqual((b"".join(self.heard), self.ends), (b"a\nb\nc\nd\n", [0]))
        self.assertEqual((self.mme.status, self.mme.is_silent, self.mme.mme.is_open, self.said), (0, True, False, []))

    def test_turns(self):
        """It plays for a while in each turn, so that others have theirs."""
        slow = b"slow".ljust(limits.LIBRARY_OCTETS - 1, b"w") + b"\n"
        self.mme.give(slow * 3 + b"a\n")
        self.turn(1)
        self.assertEqual(len(self.heard), 1)
        self.turn()
        self.assertEqual(self.heard, [slow] * 3 + [b"a\n"])

    def test_calls(self):
        """A call of the library plays as many whole lines as it may, or one that is longer; what was given apart is played apart."""
        most = limits.LIBRARY_OCTETS
        few, line = b"a\n" * 3, b"b" * (most // 2 - 1) + b"\n"
        for given, texts in (([few, few], [few, few]), ([line * 5], [line * 2, line * 2, line]),
                             ([line + few + line], [line + few, line]), ([few + line * 4], [few + line, line * 2, line]),
                             ([few + b"c" * most + b"\n" + few], [few, b"c" * most + b"\n", few]), ([b""], [])):
            with self.subTest(given=[len(text) for text in given]):
                self.setUp()
                for text in given:
                    self.mme.give(text)
                self.assertEqual(self.mme.size, len(b"".join(given)))
                self.turn()
                self.assertEqual((self.mme.mme.texts, b"".join(self.heard)), (texts, b"".join(given)))
                self.assertEqual((self.mme.size, self.mme.played), (0, b"".join(given).count(b"\n")))

    def test_taken(self):
        """Whoever waits for it to take what it was given is told, though nothing of that is answered."""
        sizes = []
        self.mme.taken = lambda: sizes.append(self.mme.size)
        self.mme.give(b"quiet\n" * 3)
        self.turn()
        self.assertEqual((sizes[-1], self.heard), (0, []))

    def test_faults(self):
        """A line that is wrong, and lack of memory, end it as they end the program, after the answers of before."""
        for refusal, told, status in ((soizkadur.Refusal.UNKNOWN_WORD, "line 3: fault 1", 1),
                                      (soizkadur.Refusal.PROVISION, "line 3: fault 7", 1),
                                      (soizkadur.Refusal.NO_MEMORY, "out of memory", 4),
                                      (soizkadur.Refusal.LOST, "out of memory", 4)):
            with self.subTest(refusal=refusal):
                self.setUp()
                self.mme.give(b"a\n")
                self.mme.give(b"b\n%d\nc\n" % refusal)
                self.turn()
                self.assertEqual((b"".join(self.heard), self.said, self.ends), (b"a\nb\n", [("mme", "mme: " + told)], [status]))

    def test_ends(self):
        """One that is killed or closed plays no more, and one that is closed tells nobody."""
        for act, ends in ((self.mme.kill, [-9]), (None, [])):
            if act is None:
                self.setUp()
            self.mme.give(b"a\n")
            (act or self.mme.close)()
            self.turn()
            self.assertEqual((self.heard, self.ends, self.mme.status), ([], ends, -9))


class Resumed(unittest.TestCase):
    def test_comments_of_a_line(self):
        """What says why the front begins a subscriber anew stays with its line; times and numbers of segments don't come again."""
        anew = RUNS.BEGUN_ANEW + "the front was given lines for %s\ncancel %s" % (IMSI, IMSI)
        entries = resuming.entries_of("# time 1\n%s\n# segment 2, begun\n# resumed\nup 0\n" % anew)
        self.assertEqual(entries, [anew, "# resumed", "up 0"])


class Provisioning(unittest.TestCase):
    def test_more(self):
        """Further lines are of a new subscriber, or vectors of one that there is; anything else is refused with its line."""
        head = provisioning.Head(HEAD.splitlines())
        sub, vector = "sub 001010000000002 0a000002 0a000064 00000002", "vec %s aa bb cc dd" % IMSI
        longer = head.with_more(["# more", sub, vector, vector.replace(IMSI, "001010000000002")])
        self.assertEqual((longer.imsis, longer.slots["001010000000002"]), ([IMSI, "001010000000002"], 1))
        for lines, why in ((["up 0"], "line 1: no line begins with 'up'"), ([sub, sub], "line 2: it stands already"),
                           ([sub.replace("0a000002", "0a000003"), sub], "line 2: 001010000000002 has its line sub"),
                           (["vec 001010000000003 aa bb cc dd"], "line 1: 001010000000003 has no line sub"),
                           (["sub x 0a000002 0a000064 00000002"], "line 1: 'x' isn't an IMSI"),
                           ([vector[:-1]], "aren't octets in hex"),
                           ([head.lines[0]], "line 1: no line begins with 'mme'"), (["sub"], "line 1: sub has 4 fields, not 0")):
            with self.subTest(why=why), self.assertRaisesRegex(RUNS.Fault, why):
                head.with_more(lines)


class Counts(unittest.TestCase):
    def test_attach(self):
        """The steps of an attach, by the messages of an example trace; that it is completed none of them says."""
        meters = Meters()
        row = (tools.TOP / "examples" / "attach_whole.trace").read_text()
        for line in row.splitlines():
            words = line.removeprefix("# ").split(" ")
            if words[0] == "in":
                meters.count_in([bytes.fromhex(words[2])])
            elif words[0] == "out" and line.startswith("# out"):
                meters.count_out([bytes.fromhex(words[3])])
        self.assertEqual(meters.attaches, {"requested": 1, "accepted": 1})
        self.assertEqual(meters.inward[b"\0\x0c"], 1)

    def test_junk(self):
        """What is no S1AP has one name, however much of it there is."""
        meters = Meters()
        for first, second in itertools.product(range(0, 256, 5), repeat=2):
            meters.count_in([bytes([first, second])])
        self.assertLess(len(meters.inward), 60)

    def test_times(self):
        meters = Meters()
        for seconds, count in ((0.0001, 5), (0.003, 2), (100.0, 1)):
            meters.count_answers(seconds, count)
        self.assertEqual((meters.answered, meters.buckets[0], meters.buckets[3], meters.buckets[-1]), (8, 5, 2, 1))


class ServiceManager(unittest.TestCase):
    def test_notify(self):
        """sd_notify(3): a datagram of words to the socket that the environment names, by path or by abstract name."""
        with tempfile.TemporaryDirectory() as folder:
            abstract = "soizkadur.%d" % os.getpid()
            for name, bound in ((folder + "/notify", folder + "/notify"), ("@" + abstract, "\0" + abstract)):
                with socket.socket(socket.AF_UNIX, socket.SOCK_DGRAM) as manager:
                    manager.bind(bound)
                    made = Manager({"NOTIFY_SOCKET": name, "WATCHDOG_USEC": "10000000"})
                    self.assertEqual(made.period, 5.0)
                    made.tell(READY=1, STATUS="two words")
                    self.assertEqual(manager.recv(100), b"READY=1\nSTATUS=two words")
        Manager({"NOTIFY_SOCKET": "/none/there"}).tell(READY=1)
        self.assertIsNone(Manager({"WATCHDOG_USEC": "10000000"}).period)
        self.assertIsNone(Manager({"NOTIFY_SOCKET": "/none", "WATCHDOG_USEC": "1000000", "WATCHDOG_PID": "1"}).period)
