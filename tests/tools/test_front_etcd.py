"""tools/front with its log in etcd: what its client makes of answers, turns that are held until they stand, and fronts with a
stand-in for the MME, whose store has three members."""
import contextlib
import http.client
import json
import os
import pathlib
import random
import re
import shlex
import shutil
import signal
import socket
import subprocess
import tempfile
import threading
import time
import types
import unittest
import unittest.mock

from bench.etcds import MISSING, PROGRAM, Cutter, Members, b64, free_port, without_rights
from tests.tools import tools
from tests.tools.fronted import HEAD, IMSI, PATIENCE, REMEMBERED, STAND_IN, Connected, Running, said
from tests.tools.test_front_syncing import DOWN, MARK, Notes, OTHER_DOWN, Receiver
from tools import versions
from tools.fronting import etcd, exchange, limits, room, stored
from tools.fronting.faults import LOG_FAILS, NOT_YET, SILENT, WRONG, Failed
from tools.fronting.front import OF_PROGRAM
from tools.fronting.keys import Whole
from tools.fronting.loop import Loop
from tools.fronting.meters import Meters
from tools.fronting.provisioning import Head

OTHER_SUB = "sub 001010000000002 0a000002 0a000064 00000002\n"
VECTOR = "vec %s %s %s %s %s\n" % (IMSI, "ab" * 16, "cd" * 16, "ef" * 8, "01" * 32)
CHANGED = tools.TOP / "tests" / "tools" / "changed_front.py"
HURRIED = (CHANGED, "hurried", "patient")
GOES_ON = rb"the run in the store goes on"


class Answers(unittest.TestCase):
    """What is read of an answer, however it is cut into pieces."""

    def read(self, octets, size, is_text=False):
        reply, is_whole = etcd.Reply(is_text), False
        for at in range(0, len(octets), size):
            is_whole = reply.take(octets[at:at + size])
        return reply if is_whole else None

    def test_pieces(self):
        body = json.dumps({"succeeded": True, "x": "y" * 50}).encode()
        chunks = b"HTTP/1.1 200 OK\r\nTransfer-Encoding: chunked\r\n\r\n" + b"".join(
            b"%x\r\n%s\r\n" % (len(part), part) for part in (body[:7], body[7:]))
        for octets in (b"HTTP/1.1 200 OK\r\nContent-Length: %d\r\n\r\n" % len(body) + body, chunks + b"0\r\n\r\n",
                       chunks + b"0\r\nGrpc-Trailer-X: y\r\n\r\n"):
            for size in (1, 2, 3, 7, 1000):
                reply = self.read(octets, size)
                self.assertEqual((reply.fault, reply.found), (None, json.loads(body)))
            self.assertIsNone(self.read(octets[:-1], 5))

    def test_faults(self):
        for status, body, fault in ((400, {"error": "it is too large", "code": 3}, ("it is too large", True)),
                                    (429, {"message": "no room", "code": 8}, ("no room", False)), (500, {}, ("status 500", False))):
            text = json.dumps(body).encode()
            reply = self.read(b"HTTP/1.1 %d No\r\nContent-Length: %d\r\n\r\n" % (status, len(text)) + text, 9)
            self.assertEqual(reply.fault, fault)
        text = b"CommonName of client will be ignored\n"
        reply = self.read(b"HTTP/1.1 400 No\r\nContent-Length: %d\r\n\r\n" % len(text) + text, 9)
        self.assertEqual(reply.fault, ("CommonName of client will be ignored", False))
        for code, words, is_of_nobody in ((16, "invalid auth token", True), (3, "revision of auth store is old", True),
                                          (3, "", False)):
            text = json.dumps({"error": "etcdserver: " + words, "code": code}).encode()
            reply = self.read(b"HTTP/1.1 400 No\r\nContent-Length: %d\r\n\r\n" % len(text) + text, 9)
            self.assertEqual(reply.is_of_nobody, is_of_nobody)
        for octets in (b"HTTP/1.1 200 OK\r\nContent-Length: 2\r\n\r\n[]", b"HTTP/1.1 200 OK\r\nContent-Length: 1\r\n\r\nx",
                       b"no\r\n\r\n", b"HTTP/1.1 OK\r\n\r\n",
                       b"HTTP/1.1 200 OK\r\nTransfer-Encoding: chunked\r\n\r\n-5\r\n{}\r\n0\r\n\r\n"):
            with self.assertRaises(ValueError):
                self.read(octets, 100)

    def test_what_is_not_a_member(self):
        """Who answers something else, or lets nobody in by a token, gets no more said; the call has a fault in words."""
        body = b'{"header": {}}'
        for answer, words in ((b"220 ready\r\n\r\n", etcd.UNREADABLE), (b"ready\r\n\r\n", etcd.UNREADABLE),
                              (b"HTTP/1.1 200 OK\r\nContent-Length: %d\r\n\r\n%s" % (len(body), body), etcd.UNREADABLE),
                              (b"HTTP/1.1 200 OK\r\nContent-Length: 2\r\n\r\n{}", etcd.UNREADABLE),
                              (b"", "it ended the connection")):
            with self.subTest(answer=answer), socket.create_server(("127.0.0.1", 0)) as server:
                access = etcd.access_of(["http://127.0.0.1:%d" % server.getsockname()[1]])._replace(user="x", password="y")
                loop, told = Loop(), []
                self.addCleanup(loop.close)
                etcd.Etcd(loop, access).call(etcd.RANGE, b"{}", lambda found, fault: told.append((found, fault)))
                peer = server.accept()[0]
                loop.turn()
                self.assertIn(b"POST " + etcd.AUTHENTICATE.encode(), peer.recv(1000))
                peer.sendall(answer)
                peer.close()
                end = time.monotonic() + PATIENCE
                while not told and time.monotonic() < end:
                    loop.turn()
                self.assertEqual(told, [(None, ("%s: %s" % (access.endpoints[0], words), False))])


    def test_text(self):
        """The metrics are text; a fault isn't."""
        text = b"etcd_mvcc_db_total_size_in_bytes 24576\n# etcd\netcd_server_quota_backend_bytes 2.147483648e+09\n"
        found = self.read(b"HTTP/1.1 200 OK\r\nContent-Length: %d\r\n\r\n" % len(text) + text, 9, True).found["text"]
        self.assertEqual([room.number_in(pattern, found) for pattern in (room.SIZE, room.QUOTA)], [24576, 2 << 30])
        self.assertEqual(room.number_in(room.QUOTA, ""), 0)
        reply = self.read(b"HTTP/1.1 404 No\r\nContent-Length: 2\r\n\r\n{}", 9, True)
        self.assertEqual(reply.fault, ("status 404", False))


class Pieces(unittest.TestCase):
    """What is too much for one turn becomes several, of whole lines."""

    def test_pieces(self):
        lines = [b"%d %s\n" % (number, b"x" * (number % 7)) for number in range(300)]
        for most in (1, 9, 50, 1 << 20):
            with unittest.mock.patch.object(limits, "STORED_OCTETS", most):
                found = list(stored.pieces_of(b"".join(lines), b"# time\n"))
            self.assertTrue(all(piece.startswith(b"# time\n") and piece.endswith(b"\n") for piece in found))
            pieces = [piece.removeprefix(b"# time\n") for piece in found]
            self.assertEqual(b"".join(pieces), b"".join(lines))
            self.assertLessEqual(max(map(len, pieces)), max(most, max(map(len, lines))))
        self.assertEqual(list(stored.pieces_of(b"", b"# time\n")), [b"# time\n"])


class Words(tools.InFolder):
    def ends(self, *words):
        """The status of a front with these words, and what it says."""
        subscribers = self.file("subscribers", HEAD)
        return said(["run", subscribers, self.folder / "log", "--tcp", "--port", "0", "--mme", "/bin/false", *words])

    def test_refused(self):
        store = ("--store", "http://127.0.0.1:1")
        for words, told in ((("--standby",), "--standby goes with --store"),
                            (("--store-user", "x"), "--store-user goes with --store"),
                            (("--store", "ftp://127.0.0.1"), "'ftp://127.0.0.1' isn't where a member of etcd is"),
                            (("--store", "http://127.0.0.1,https://127.0.0.1"), "are all http or all https"),
                            ((*store, "--store-ca", "x"), "--store-ca and --store-cert go with https"),
                            ((*store, "--store-user", "x"), "--store-user and --store-password go together"),
                            ((*store, "--store-user", "x", "--store-password", "none"), "none: No such file or directory"),
                            (("--store", "https://127.0.0.1", "--store-ca", "none"), "none: No such file or directory"),
                            ((*store, "--resume", "--anew"), "--anew is of a log in files"),
                            ((*store, "--log-keys", "no"), "--log-keys no is of a log in files"),
                            ((*store, "--sync", "no"), "--sync no is of a log in files"),
                            ((*store, "--full-disk", "go-on"), "--full-disk go-on is of a log in files, and not in a store")):
            with self.subTest(words=words):
                status, text = self.ends(*words)
                self.assertEqual(status, WRONG)
                self.assertIn(told, text)

    def test_no_store(self):
        """It is said, waited for, and then the front ends with a status by which it is started again."""
        with unittest.mock.patch.object(limits, "STORE_SECONDS", 0.3):
            status, text = self.ends("--store", "http://127.0.0.1:%d" % free_port())
        self.assertEqual(status, NOT_YET)
        self.assertRegex(text, "the store isn't there: http://127.0.0.1:.*: Connection refused\n"
                               ".*the store isn't there after 0 s: .*Connection refused\n")


class Leader:
    """An exchange whose MME is worked by hand, with its log in a store."""

    def __init__(self, test, urls, last=stored.NOTHING):
        self.loop, self.given, self.sent, self.told = Loop(), [], [], []
        test.addCleanup(self.loop.close)
        self.notes = Notes(pathlib.Path(test.enterContext(tempfile.TemporaryDirectory())) / "notes")
        self.exchange = exchange.Exchange(self.loop, types.SimpleNamespace(say=lambda *words, **fields: None), Meters(), self.notes)
        self.exchange.program, self.exchange.mark = types.SimpleNamespace(
            give=self.given.append, size=0, takes_further=False), b"data 9\n"
        self.exchange.receivers[b"0"] = Receiver(self.sent)
        self.head = Head(HEAD.splitlines())
        self.scheme, self.etcd = stored.Scheme(self.head.mme), etcd.Etcd(self.loop, etcd.access_of(urls.split(",")))
        self.last = stored.Last(last.epoch + 1, last.number + 1, stored.drawn())
        self.step = stored.Step(self.etcd, self.scheme, last, self.last, self.scheme.turn(self.last.number, b"# leads\n"),
                                self.told.append)
        self.until(lambda: self.told)
        self.journal = stored.StoreJournal(self.etcd, self.scheme, self.last, self.head, Whole())
        self.exchange.write_to(self.journal)
        test.addCleanup(self.journal.close)

    def until(self, holds, seconds=PATIENCE):
        end = time.monotonic() + seconds
        while not holds():
            assert time.monotonic() < end
            timer = self.loop.after(0.02, lambda: None)
            self.loop.turn()
            timer.cancel()

    def turn(self, line):
        self.exchange.put(line, 0)
        self.exchange.flush()


@unittest.skipUnless(PROGRAM, MISSING)
class Chain(unittest.TestCase):
    """Turns of a leader in this process."""

    @classmethod
    def setUpClass(cls):
        cls.members = Members(cls.enterClassContext(contextlib.ExitStack()))

    def setUp(self):
        self.members.forget()

    def stands(self):
        """The lines of all turns but the one by which each epoch begins."""
        return [line for turn in self.members.turns() for line in turn.decode().splitlines() if not line.startswith("#")]

    def test_held(self):
        """The MME plays a turn while it is on its way; its answers go out once it stands, in their order; later ones at once."""
        leader = Leader(self, self.members.urls())
        leader.turn("in 0 aa")
        leader.turn("in 0 bb")
        self.assertEqual(leader.given, [b"in 0 aa\ndata 9\n"])
        leader.exchange.hear(DOWN + OTHER_DOWN[:5])
        self.assertEqual(leader.sent, [])
        leader.until(lambda: len(leader.given) == 2)
        self.assertEqual(leader.sent, [b"\0\x0b\1"])
        leader.exchange.hear(OTHER_DOWN[5:] + MARK)
        self.assertEqual(leader.sent, [b"\0\x0b\1", b"\0\x0b\2"])
        leader.until(lambda: leader.journal.takes)
        self.assertEqual(self.stands(), ["in 0 aa", "in 0 bb"])
        self.assertEqual(self.members.last(), leader.last._replace(number=3))

    def test_beside(self):
        """What stands beside is written once the turn stands, and not before, and the answers wait for it too."""
        leader = Leader(self, self.members.urls())
        leader.turn("in 0 aa")
        leader.notes.waiting = b"noted\n"
        leader.exchange.hear(DOWN + MARK)
        self.assertEqual((leader.sent, leader.notes.path.read_bytes()), ([], b""))
        leader.until(lambda: leader.sent)
        self.assertEqual(leader.notes.path.read_bytes(), b"noted\n")

    def test_deposed(self):
        """Where another leads, nothing of a turn is answered, the front ends in words, and no further turn is taken."""
        leader = Leader(self, self.members.urls())
        other = Leader(self, self.members.urls(), leader.last)
        self.assertEqual(other.told, [True])
        leader.turn("in 0 aa")
        leader.exchange.hear(DOWN)
        with self.assertRaisesRegex(Failed, "another front leads: turn 2 of epoch 1 isn't taken") as caught:
            leader.until(lambda: False, 10)
        leader.exchange.hear(OTHER_DOWN + MARK)
        leader.turn("in 0 bb")
        self.assertEqual((caught.exception.status, leader.sent, leader.exchange.takes, leader.exchange.is_syncing),
                         (NOT_YET, [], False, False))
        other.turn("in 0 cc")
        other.until(lambda: other.journal.takes)
        self.assertEqual(self.stands(), ["in 0 cc"])

    def test_two_takers(self):
        """Of two that take the lead after the same turn one has it."""
        first = Leader(self, self.members.urls())
        self.assertEqual([Leader(self, self.members.urls(), first.last).told for _ in range(3)], [[True], [False], [False]])

    def test_cut(self):
        """Requests that are lost, and answers: each turn stands once, in its order, and is answered."""
        chance = random.Random(90)
        cutters = [Cutter(self.enterContext(contextlib.ExitStack()), port, lambda request: chance.choice(
            (Cutter.WHOLE, Cutter.WHOLE, Cutter.LOST, Cutter.UNANSWERED))) for port in self.members.clients]
        leader = Leader(self, self.members.urls([cutter.port for cutter in cutters]))
        for number in range(30):
            leader.turn("in 0 %02x" % number)
            leader.exchange.hear(DOWN + MARK)
            leader.until(lambda: leader.journal.takes)
        self.assertEqual(self.stands(), ["in 0 %02x" % number for number in range(30)])
        self.assertEqual(len(leader.sent), 30)
        self.assertGreater(sum(cutter.count for cutter in cutters), 10)

    def test_lead_whose_answer_is_lost(self):
        """Who took the lead and isn't told so finds it out; who didn't, too."""
        ways = [Cutter.UNANSWERED, Cutter.LOST]
        cuts = lambda request: ways.pop() if ways and b"/txn" in request else Cutter.WHOLE
        cutter = Cutter(self.enterContext(contextlib.ExitStack()), self.members.clients[0], cuts)
        first = Leader(self, self.members.urls([cutter.port]))
        self.assertEqual((first.told, cutter.count, self.members.last()), ([True], 2, first.last))
        ways.append(Cutter.UNANSWERED)
        other = Leader(self, self.members.urls([cutter.port]))
        self.assertEqual((other.told, cutter.count, self.members.last()), ([False], 3, first.last))

    def test_late_request(self):
        """A request that comes late, once more, changes nothing."""
        leader = Leader(self, self.members.urls())
        leader.turn("in 0 aa")
        body = json.loads(leader.journal.step.body)
        for line in ("in 0 bb", "in 0 cc"):
            leader.until(lambda: leader.journal.takes)
            self.assertNotIn("succeeded", self.members.ask(etcd.TXN, body))
            leader.turn(line)
        leader.until(lambda: leader.journal.takes)
        self.assertEqual(self.stands(), ["in 0 aa", "in 0 bb", "in 0 cc"])

    @unittest.skipUnless(shutil.which("etcdctl"), "no etcdctl (Debian's etcd-client)")
    def test_a_second_reader(self):
        """The turns stand below the MME's keys, in their order, as lines of a trace."""
        leader = Leader(self, self.members.urls())
        for line in ("up 0", "in 0 aa"):
            leader.turn(line)
            leader.until(lambda: leader.journal.takes)
        words = ["etcdctl", "--endpoints", self.members.urls(), "get", "--prefix", "/soizkadur/001.01.8001.01/turn/"]
        told = subprocess.run([*words, "--print-value-only"], env={"ETCDCTL_API": "3", "PATH": "/usr/bin"}, capture_output=True,
                              text=True, timeout=PATIENCE, check=True).stdout
        self.assertEqual([line for line in told.splitlines() if line and not line.startswith("#")], ["up 0", "in 0 aa"])

    def test_no_majority(self):
        """While two members are gone nothing is answered; a leader ends after a while; what it sent may stand once they come."""
        leader = Leader(self, self.members.urls())
        for place in (0, 1):
            self.addCleanup(self.members.wake, place)
            self.members.pause(place)
        leader.turn("in 0 aa")
        leader.exchange.hear(DOWN + MARK)
        with self.assertRaises(AssertionError):
            leader.until(lambda: leader.sent, 2)
        leader.journal.care(time.monotonic())
        with self.assertRaisesRegex(Failed, "the store has taken no turn for 5 s: http://.*") as caught:
            leader.journal.care(time.monotonic() + limits.UNCOMMITTED_SECONDS)
        self.assertEqual((caught.exception.status, leader.sent), (LOG_FAILS, []))
        for place in (0, 1):
            self.members.wake(place)
        leader.until(lambda: leader.sent)
        self.assertEqual(self.stands(), ["in 0 aa"])

    def test_much(self):
        """What is too much for one transaction is several turns, and what they answer goes out once the last of them stands."""
        leader = Leader(self, self.members.urls())
        lines = ["in 0 " + "%02x" % number * 19000 for number in range(60)]
        for line in lines:
            leader.exchange.put(line, 0)
        leader.exchange.flush()
        self.assertEqual(b"".join(leader.given).count(b"in 0 "), 60)
        leader.exchange.hear(DOWN + MARK)
        leader.until(lambda: leader.journal.committed > 3)
        self.assertEqual((leader.sent, leader.journal.takes), ([], False))
        leader.until(lambda: leader.journal.takes)
        self.assertEqual((self.stands(), len(leader.sent)), (lines, 1))
        self.assertEqual(self.members.last().number, leader.journal.turn)
        self.assertGreater(leader.journal.turn, 8)

    def test_too_large(self):
        """A turn that the store would never take ends the front at once."""
        leader = Leader(self, self.members.urls())
        leader.turn("in 0 " + "aa" * (800 << 10))
        leader.exchange.hear(DOWN + MARK)
        with self.assertRaisesRegex(Failed, "the store refuses a turn: .*too large"):
            leader.until(lambda: False, 10)
        self.assertEqual(leader.sent, [])


class Stored(Running):
    """A front with its log in a store, which leads."""

    def __init__(self, test, members, *words, front=HURRIED, **named):
        self.front = front
        super().__init__(test, "--store", members.urls(), "--second", "0.1", *words, **named)

    def station(self):
        """One more connection, by which something was answered."""
        made = Connected(self.port)
        self.connections.append(made)
        assert made.says(b"here") == b"here"
        return made

    def remembers(self):
        """How many messages the MME remembers."""
        return int(re.search("HEARD-([0-9]+)|DEREGISTERED", self.asks("show", IMSI))[1] or 0)

    def store(self):
        """What it says of its store."""
        found = re.search("^store: (.*)$", self.asks("counters"), re.M)
        assert found, self.said()
        return json.loads(found[1])

    def leads(self, seconds=PATIENCE):
        """Waits until it leads."""
        end = time.monotonic() + seconds
        while not (found := re.search(Running.READY, self.said())):
            assert time.monotonic() < end and self.process.poll() is None, self.told
            time.sleep(0.01)
        self.port = int(found[1])

    def follows_all(self):
        """Waits until it has played all that it knows of."""
        self.until(lambda: (told := self.store())["turn"] == told["last_turn"])


class StandingBy(Stored):
    """One that stands by."""

    READY = rb"follows the log in the store"

    def __init__(self, test, members, *words, **named):
        super().__init__(test, members, "--standby", *words, **named)


class StandingByFor(StandingBy):
    """One by all of its words on the store, with the silence that it waits for elsewhere."""

    front = CHANGED, "patient"

    def __init__(self, test, words):
        Running.__init__(self, test, "--second", "0.1", *words)


@unittest.skipUnless(PROGRAM, MISSING)
class Fronts(unittest.TestCase):
    """Fronts with a stand-in for the MME, which remembers how many messages it heard."""

    @classmethod
    def setUpClass(cls):
        cls.members = Members(cls.enterClassContext(contextlib.ExitStack()))

    def setUp(self):
        self.members.forget()

    def test_killed(self):
        """The standby has played all that was answered, and leads after the silence; stations connect only then."""
        leader, standby = Stored(self, self.members), StandingBy(self, self.members, front=(*HURRIED, "ahead"))
        station = leader.station()
        for _ in range(5):
            self.assertEqual(station.says(REMEMBERED), REMEMBERED)
        standby.follows_all()
        self.assertEqual((standby.store()["leads"], leader.store()["leads"]), (False, True))
        self.assertEqual(standby.asks("show", IMSI), "refused: this front stands by, and another one leads\n")
        self.assertEqual(standby.asks("health"), "follows\n")
        self.assertIn("HEARD-5", standby.asks("phones"))
        leader.process.kill()
        standby.leads()
        passed = re.search(GOES_ON + rb": 1 station was lost, (\d+) s passed", standby.told)
        self.assertLess(int(passed[1]), 60)  # though the machines' times of day are an hour apart
        self.assertEqual(standby.remembers(), 5)
        self.assertEqual(standby.station().says(REMEMBERED), REMEMBERED)
        self.assertEqual((standby.remembers(), self.members.last().epoch, standby.asks("health")), (6, 2, "serves\n"))
        self.members.turns()
        self.assertEqual(standby.stop()[0], 0)

    def test_paused(self):
        """A leader that was paused says nothing more once it wakes up, but that another leads."""
        leader, standby = Stored(self, self.members), StandingBy(self, self.members)
        station = leader.station()
        standby.follows_all()
        leader.process.send_signal(signal.SIGSTOP)
        station.send(REMEMBERED)
        standby.leads()
        self.assertEqual(standby.station().says(REMEMBERED), REMEMBERED)
        leader.process.send_signal(signal.SIGCONT)
        status, told = leader.ended()
        self.assertEqual(status, NOT_YET)
        self.assertIn("another front leads", told)
        self.assertTrue(station.has_ended())
        self.assertEqual((station.got, standby.remembers()), (b"", 1))

    def test_at_once(self):
        """Without --standby a front takes the lead from one that serves; a standby doesn't."""
        leader, standby = Stored(self, self.members), StandingBy(self, self.members)
        station = leader.station()
        time.sleep(1.5)
        self.assertFalse(standby.store()["leads"])
        other = Stored(self, self.members)
        self.assertEqual(leader.ended()[0], NOT_YET)
        self.assertTrue(station.has_ended())
        self.assertEqual(other.station().says(REMEMBERED), REMEMBERED)
        self.assertEqual(standby.stop()[0], 0)
        self.assertEqual(other.stop()[0], 0)

    def test_both_stand_by(self):
        """Of two that stand by one begins the log."""
        one, two = StandingBy(self, self.members), StandingBy(self, self.members)
        one.until(lambda: one.store()["leads"] or two.store()["leads"])
        time.sleep(0.3)
        self.assertEqual(one.store()["leads"] + two.store()["leads"], 1)

    def test_members(self):
        """One member may go. While two are gone nothing is answered; what was sent is answered once one is back."""
        leader = Stored(self, self.members)
        station, place = leader.station(), 0
        self.members.kill(place)
        for _ in range(20):
            self.assertEqual(station.says(REMEMBERED), REMEMBERED)
        self.members.kill(1)
        station.send(REMEMBERED)
        station.socket.settimeout(1)
        with self.assertRaises(TimeoutError):
            station.receive()
        self.members.start(1)
        station.socket.settimeout(PATIENCE)
        with contextlib.suppress(EOFError):  # where the machine is slow, the leader has ended by now
            self.assertEqual(station.receive(), REMEMBERED)
        self.members.start(0)
        self.members.is_there()
        self.members.turns()

    def test_no_members(self):
        """For longer: the leader ends with its status, no standby leads, and nothing that was answered is lost."""
        leader, standby = Stored(self, self.members, front=(CHANGED, "hurried", "brief")), StandingBy(self, self.members)
        station = leader.station()
        for _ in range(3):
            self.assertEqual(station.says(REMEMBERED), REMEMBERED)
        standby.follows_all()
        for place in (0, 1):
            self.members.kill(place)
        station.send(REMEMBERED)
        status, told = leader.ended()
        self.assertEqual((status, station.got, station.has_ended()), (LOG_FAILS, b"", True))
        self.assertIn("the store has taken no turn for 2 s", told)
        standby.until(lambda: b"the store isn't there" in standby.said())
        self.assertNotRegex(standby.told, GOES_ON)
        for place in (0, 1):
            self.members.start(place)
        standby.leads()
        self.assertIn(b"the store answers again", standby.told)
        self.assertIn(standby.remembers(), (3, 4))
        self.members.turns()

    def test_from_nothing(self):
        """A standby that begins beside a leader under load plays all of it, and goes on where that was answered."""
        leader = Stored(self, self.members, "--rate", "100000")
        station, answered, is_over = leader.station(), [0], threading.Event()

        def load():
            with contextlib.suppress(EOFError, ConnectionError):
                while not is_over.is_set():
                    for _ in range(50):
                        station.send(REMEMBERED)
                    for _ in range(50):
                        station.receive()
                        answered[0] += 1

        thread = threading.Thread(target=load)
        thread.start()
        try:
            leader.until(lambda: answered[0] > 1000)
            standby = StandingBy(self, self.members)
            standby.until(lambda: (told := standby.store())["turn"] == told["last_turn"] > 20)
        finally:
            leader.process.kill()
            is_over.set()
            thread.join()
        standby.leads()
        self.assertGreaterEqual(standby.remembers(), answered[0])
        self.assertEqual(standby.remembers(), sum(turn.decode().count("in 0 f6\n") for turn in self.members.turns()))

    def test_given(self):
        """What a front with a program once gave stands beside the turns: a standby begins with it, whose file may have it or not."""
        leader = Stored(self, self.members)
        self.assertEqual(leader.station().says(REMEMBERED), REMEMBERED)
        more = leader.folder / "more"
        more.write_text(OTHER_SUB)
        self.assertEqual(leader.asks("give", more), "fault %s\n" % OF_PROGRAM)
        key = "/soizkadur/001.01.8001.01/given/%016x"
        self.members.ask("/v3/kv/put", {"key": b64((key % 1).encode()), "value": b64(OTHER_SUB.encode())})
        standby = StandingBy(self, self.members)
        standby.until(lambda: "001010000000002" in standby.asks("phones"))
        standby.follows_all()
        later = StandingBy(self, self.members, head=HEAD + OTHER_SUB)
        leader.process.kill()
        standby.until(lambda: standby.store()["leads"] or later.store()["leads"])
        leads = standby if standby.store()["leads"] else later
        leads.leads()
        self.assertIn("state 001010000000002 HEARD-1", leads.asks("show", "001010000000002"))

    def test_given_by_the_file(self):
        """Lines that the subscribers' file has beyond the log's are refused, since a program can't be given them."""
        self.assertEqual(Stored(self, self.members).stop()[0], 0)
        self.assertIn("has lines that the store's log lacks, and a program takes none", self.refused(head=HEAD + OTHER_SUB))

    def refused(self, *words, head=HEAD, log=None):
        """What a front says that ends with status 2."""
        folder = pathlib.Path(self.enterContext(tempfile.TemporaryDirectory()))
        (folder / "subscribers").write_text(head)
        for end, text in (log or {}).items():
            pathlib.Path(str(folder / "log") + end).write_text(text)
        (folder / "mme").write_text(STAND_IN)
        (folder / "mme").chmod(0o755)
        status, text = said(["run", folder / "subscribers", folder / "log", "--tcp", "--port", "0", "--mme", folder / "mme",
                             "--store", self.members.urls(), *words])
        self.assertEqual(status, WRONG, text)
        return text

    def test_other_lines(self):
        """A log that begins with other lines or is of another version isn't gone on with, nor one that lacks a challenge."""
        self.assertEqual(Stored(self, self.members, head=HEAD + VECTOR).stop()[0], 0)
        other = HEAD.replace("0a000001", "0a000003") + VECTOR
        self.assertIn("the store's log begins with other lines than", self.refused(head=other))
        self.assertIn("there is one already", self.refused(head=HEAD + VECTOR, log={"": "mme", ".counts": "mme"}))
        with unittest.mock.patch.object(versions, "number", return_value="0.0.1"):
            self.assertIn("is of version %s, and this is 0.0.1" % self.version(), self.refused(head=HEAD + VECTOR))
        used = {".used": "%s %s\n" % (IMSI, "ab" * 16)}
        text = self.refused(head=HEAD + VECTOR, log=used)
        self.assertIn("the store's log has no challenge of 1 vector that", text)
        self.members.forget()
        self.assertIn("to begin a log in the store, leave these vectors out of", self.refused(head=HEAD + VECTOR, log=used))
        self.assertIsNone(self.members.last())

    @staticmethod
    def version():
        return (tools.TOP / "VERSION").read_text().strip()

    def test_damaged(self):
        """A log that lacks a turn isn't gone on with."""
        leader = Stored(self, self.members)
        self.assertEqual(leader.station().says(b"x"), b"x")
        self.assertEqual(leader.stop()[0], 0)
        key = "/soizkadur/001.01.8001.01/turn/%016x"
        self.members.ask("/v3/kv/deleterange", {"key": b64((key % 2).encode())})
        self.assertIn("the store's log isn't whole after turn 0", self.refused())

    def test_forgotten(self):
        """Where all of the log is gone, the front that wrote it and the one that followed it end, to be started again."""
        leader, standby = Stored(self, self.members), StandingBy(self, self.members)
        standby.follows_all()
        self.members.forget()
        (_, told), (status, words) = ended = leader.ended(), standby.ended()
        self.assertEqual([status for status, _ in ended], [NOT_YET, NOT_YET])
        self.assertIn("another front leads", told)
        self.assertIn("the store's log was begun anew, or has gone back", words)

    def test_hangs(self):
        """A leader whose loop turns no more ends by itself, so that its stations learn of it."""
        leader = Stored(self, self.members, front=(CHANGED, "hanging"))
        station = leader.station()
        station.send(b"\xf5")
        status, told = leader.ended()
        self.assertEqual((status, station.has_ended()), (SILENT, True))
        self.assertIn("the front hasn't turned for 1 s", told)

    def test_page(self):
        """The page and the metrics of both say how far they are."""
        ports = [free_port() for _ in range(2)]
        leader = Stored(self, self.members, "--page", "127.0.0.1:%d" % ports[0])
        standby = StandingBy(self, self.members, "--page", "127.0.0.1:%d" % ports[1])
        leader.station()
        standby.follows_all()
        for port, words, value, health in ((ports[0], "leads", 1, b"it serves\n"), (ports[1], "stands by", 0, b"it follows\n")):
            page, metrics, told = (self.get(port, path) for path in ("/", "/metrics", "/health"))
            self.assertIn("<td>%s</td>" % words, page.decode())
            self.assertIn(self.members.urls().replace(",", ", "), page.decode())
            self.assertIn("soizkadur_store_leads %d\n" % value, metrics.decode())
            self.assertRegex(metrics.decode(), r'soizkadur_store_turn{of="front"} [1-9]')
            self.assertEqual(told, health)
            self.assertNotIn(b"There is no log", page)

    @staticmethod
    def get(port, path):
        connection = http.client.HTTPConnection("127.0.0.1", port, timeout=PATIENCE)
        connection.request("GET", path)
        with contextlib.closing(connection):
            return connection.getresponse().read()


@unittest.skipUnless(PROGRAM, MISSING)
class Full(unittest.TestCase):
    """At the store's quota nothing more is answered, nothing is lost, and it goes on once there is more room."""

    QUOTA = 2 << 20

    def setUp(self):
        self.members = Members(self.enterContext(contextlib.ExitStack()), ("--quota-backend-bytes", str(self.QUOTA)))

    def fill(self, station, seconds=PATIENCE):
        """Says something until nothing is answered for so long; how much was."""
        answered = 0
        station.socket.settimeout(seconds)
        with contextlib.suppress(EOFError, TimeoutError):
            while True:
                station.send(REMEMBERED + bytes(14000))
                station.receive()
                answered += 1
        station.socket.settimeout(PATIENCE)
        return answered

    def make_room(self):
        """Gives the store more."""
        self.members.words = []
        for place in range(3):
            self.members.kill(place)
        for place in range(3):
            self.members.start(place)
        alarms = self.members.ask("/v3/maintenance/alarm", {"action": "GET"})["alarms"]
        time.sleep(1)
        for alarm in alarms:
            self.members.ask("/v3/maintenance/alarm", {"action": "DEACTIVATE", **alarm})

    def test_ends(self):
        """The leader ends, and nobody leads until there is room."""
        leader, standby = Stored(self, self.members), StandingBy(self, self.members)
        answered = self.fill(leader.station())
        status, told = leader.ended()
        self.assertEqual(status, LOG_FAILS)
        self.assertRegex(told, "the store is full: .*space exceeded")
        self.assertGreater(answered, 10)
        standby.until(lambda: b"can't lead, and tries again: " in standby.said())
        self.assertNotRegex(standby.told, GOES_ON)
        self.make_room()
        standby.leads()
        self.assertIn(standby.remembers(), (answered, answered + 1))

    def test_waits(self):
        """With --full-disk refuse its stations wait, and no further one is taken; before that there was an alarm."""
        port = free_port()
        leader = Stored(self, self.members, "--full-disk", "refuse", "--page", "127.0.0.1:%d" % port)
        station = leader.station()
        leader.until(lambda: leader.store()["store_quota"] == self.QUOTA)
        self.assertNotIn(b"of its quota", leader.said())
        self.assertIn('soizkadur_alarm{of="store"} 0\n', Fronts.get(port, "/metrics").decode())
        answered = self.fill(station, 2.5)
        self.assertRegex(leader.said(), rb"the store has [0-9.]+ of the 2.0 MiB of its quota: at its quota no turn is taken")
        self.assertRegex(leader.told, rb"the store is full: .*space exceeded: stations are refused and not heard until")
        self.assertIn('soizkadur_alarm{of="store"} 1\n', Fronts.get(port, "/metrics").decode())
        self.assertRegex(Fronts.get(port, "/"), rb'role="alert">The store has [0-9.]+ of the 2.0 MiB of its quota\.<')
        self.assertTrue(Connected(leader.port).has_ended())
        self.make_room()
        station.receive()
        leader.until(lambda: b"the log can be written again" in leader.said())
        self.assertEqual((station.says(REMEMBERED), leader.remembers()), (REMEMBERED, answered + 2))


class Deployed(Members):
    """Members by the files of deploy/standby: their environment, with other addresses and places, and the keys in a folder."""

    FOLDER = tools.TOP / "deploy" / "standby"
    CREDENTIALS, KEYS = "/run/credentials/soizkadur@01.service/store-", "/etc/etcd/"

    def __init__(self, after):
        self.keys = pathlib.Path(after.enter_context(tempfile.TemporaryDirectory()))
        subprocess.run(["sh", self.FOLDER / "certificates", self.keys, "127.0.0.1"], check=True, capture_output=True, timeout=60)
        super().__init__(after, files=(self.keys / "front.pem", self.keys / "ca.pem"))

    def start(self, place, state="new"):
        name = ("one", "two", "three")[place]
        text = (self.FOLDER / "etcd.environment").read_text().replace("ETCD_NAME=one", "ETCD_NAME=" + name)
        text = re.sub(r"^(ETCD_\w+URLS=https://192.0.2.)11", r"\g<1>1%d" % (place + 1), text, flags=re.MULTILINE)
        for number in range(3):
            for port, ports in ((2379, self.clients), (2380, self.peers)):
                text = text.replace("192.0.2.1%d:%d" % (number + 1, port), "127.0.0.1:%d" % ports[number])
        own = self.folder / ("keys%d" % place)
        own.mkdir(exist_ok=True)
        for name, source in (("ca.pem", "ca.pem"), ("member.pem", "127.0.0.1.pem"), ("member.key", "127.0.0.1.key")):
            shutil.copy(self.keys / source, own / name)
        rights = without_rights()
        for path in (own, *own.iterdir()) if rights else ():
            os.chown(path, rights["user"], rights["group"])
        given = dict(line.split("=", 1) for line in text.replace(self.KEYS, "%s/" % own).splitlines() if line.startswith("ETCD_"))
        given.update(ETCD_DATA_DIR=str(self.folder / ("m%d" % place)), ETCD_LOG_LEVEL="error")
        with open(self.folder / ("m%d.log" % place), "ab") as said_there:
            self.processes[place] = subprocess.Popen([PROGRAM], env=given, stdin=subprocess.DEVNULL, stdout=said_there,
                                                     stderr=said_there, cwd="/", **rights)

    def add_users(self, password):
        """By the commands of etcd.environment."""
        lines = re.findall("^#     (export .*|etcdctl .*)$", (self.FOLDER / "etcd.environment").read_text(), re.MULTILINE)
        text = "\n".join(lines).replace("https://192.0.2.11:2379", self.urls(self.clients[:1])).replace("store/", "%s/" % self.keys)
        text = re.sub("user add (\\w+)", r"user add \1:" + password, text)
        subprocess.run(["sh", "-eu", "-c", text], check=True, capture_output=True, timeout=PATIENCE)

    def front_words(self, password):
        """The front's, by 01.environment."""
        for name, source in (("ca", "ca.pem"), ("cert", "front.pem")):
            shutil.copy(self.keys / source, self.keys / name)
        (self.keys / "password").write_text(password + "\n")
        text = (self.FOLDER / "01.environment").read_text()
        [words] = re.findall(r"^WORDS=((?:.*\\\n)*.*)", text, re.MULTILINE)
        words = shlex.split(words.replace("\\\n", " ").replace(self.CREDENTIALS, "%s/" % self.keys))
        words[words.index("--store") + 1] = self.urls()
        words[words.index("--page") + 1] = "127.0.0.1:%d" % free_port()
        return words


@unittest.skipUnless(PROGRAM and shutil.which("etcdctl"), MISSING)
@unittest.skipUnless(shutil.which("openssl"), "no openssl")
class Secret(tools.InFolder):
    """TLS and users of etcd."""

    def test_deployed(self):
        """By the files of deploy/standby: two fronts stand by, one of them leads, and once it is killed the other one does."""
        members = Deployed(self.enterContext(contextlib.ExitStack()))
        members.add_users("s3cret")
        one, two = (StandingByFor(self, members.front_words("s3cret")) for _ in range(2))
        one.until(lambda: one.store()["leads"] or two.store()["leads"])
        leader, standby = (one, two) if one.store()["leads"] else (two, one)
        leader.leads()
        station = leader.station()
        for place in range(3):  # a member that begins anew has forgotten who was let in
            members.kill(place)
            members.start(place, "existing")
            self.assertEqual(station.says(REMEMBERED), REMEMBERED)
            members.is_there()
        self.assertNotIn(b"s3cret", pathlib.Path("/proc/%d/cmdline" % leader.process.pid).read_bytes())
        standby.follows_all()
        leader.process.kill()
        standby.leads()
        self.assertEqual(standby.remembers(), 3)
        self.is_not_let_in(members, standby)

    def is_not_let_in(self, members, standby):
        """Who has no password or a wrong one, no certificate, or one that another CA signed."""
        (self.folder / "wrong").write_text("other\n")
        other = self.folder / "other"
        subprocess.run(["sh", Deployed.FOLDER / "certificates", other, "127.0.0.1"], check=True, capture_output=True, timeout=60)
        ca, cert = ("--store-ca", members.keys / "ca"), ("--store-cert", members.keys / "cert")
        wrong = "--store-user", "mme", "--store-password", self.folder / "wrong"
        for more, status, told in (
                ((*ca, *cert), WRONG, "permission denied"), ((*ca, *cert, *wrong), WRONG, "authentication failed"),
                (ca, NOT_YET, "certificate"),
                ((*ca, "--store-cert", other / "front.pem"), NOT_YET, "."),
                (("--store-ca", other / "ca.pem", *cert), NOT_YET, "CERTIFICATE_VERIFY_FAILED")):
            with self.subTest(more=more), unittest.mock.patch.object(limits, "STORE_SECONDS", 0.3):
                found, text = said(["run", standby.subscribers, self.folder / "log", "--tcp", "--port", "0", "--store",
                                    members.urls(), *more])
                self.assertEqual(found, status, text)
                self.assertIn(told, text)


if __name__ == "__main__":
    unittest.main()
