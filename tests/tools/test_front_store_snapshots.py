"""tools/front with its log in etcd, whose MME can be saved: snapshots in the store, and fronts that begin at one. The MME isn't the
library's here, but saved_front.py; tests/library has that."""
import base64
import contextlib
import json
import pathlib
import random
import re
import shlex
import shutil
import signal
import sys
import tempfile
import threading
import time
import types
import unittest
import unittest.mock

from bench.etcds import MISSING, PREFIX, PROGRAM, Members, b64, free_port
from tests.tools.fronted import IMSI, LIBRARY, REMEMBERED, STAND_IN
from tests.tools.test_front_etcd import Fronts, Leader, Stored
from tests.tools.test_front_log import give
from tests.tools.test_front_snapshots import OTHER_SUB, PROVISIONED, SAVED, VECTORS, Saved
from tools.fronting import etcd, limits, room, shelf, storing
from tools.fronting.journal import clock

OFTEN, NEVER = ("--snapshot", "0.002,0.001"), ("--snapshot", "no")  # after 120 ms, or some 1,000 octets
SELDOM = "--snapshot", "1440,0.001"
BY_ITSELF = ("--snapshot", "0.002,4096", "--second", "0.1")
BEGINS = rb"begins at the snapshot after turn (\d+) of the store's log"
LARGE = bytes(14000)
# A source that supplies these lines, one after the other, whatever it is asked for.
SOURCE = """#!%s
import sys
lines = open(sys.argv[1]).read().splitlines()
for request in sys.stdin:
    _, imsi, count, *_ = request.split()
    for _ in range(int(count)):
        print(lines.pop(0) if lines else "later " + imsi, flush=True)
""" % sys.executable


class InStore(Stored):
    """A front whose MME can be saved, which leads."""

    def __init__(self, test, members, *words, changes=(), silence="hurried", **named):
        super().__init__(test, members, *words, front=(SAVED, *changes, silence, "patient"),
                         **{"program": LIBRARY, "head": PROVISIONED, **named})

    state, says, challenges = Saved.state, Saved.says, Saved.challenges

    def snapshot(self):
        """What it says of the last snapshot; nothing where there is none."""
        found = re.search(r"^snapshot: (.*)$", self.asks("counters"), re.M)
        return json.loads(found[1]) if found else None

    def remembers(self):
        return self.state()[0]

    def killed(self):
        self.process.kill()
        self.ended()


class Beside(InStore):
    """One that stands by."""

    READY = rb"follows the log in the store"

    def __init__(self, test, members, *words, **named):
        super().__init__(test, members, "--standby", *words, **named)

    def begun_after(self):
        """After which turn it began."""
        found = re.findall(BEGINS, self.said())
        return int(found[-1]) if found else 0


@unittest.skipUnless(PROGRAM, MISSING)
class InOneStore(unittest.TestCase):
    """Fronts beside a store of one member."""

    @classmethod
    def setUpClass(cls):
        cls.members = Members(cls.enterClassContext(contextlib.ExitStack()), count=1)

    def setUp(self):
        self.members.forget()

    def value(self, name):
        found = self.members.ask(etcd.RANGE, {"key": b64((PREFIX + name).encode())}).get("kvs", ())
        return base64.b64decode(found[0]["value"]) if found else b""

    def put(self, name, octets):
        self.members.ask("/v3/kv/put", {"key": b64((PREFIX + name).encode()), "value": b64(octets)})

    def remove(self, name):
        self.members.ask("/v3/kv/deleterange", {"key": b64((PREFIX + name).encode())})

    def named(self):
        """The numbers of the snapshots that are named."""
        return [named.number for named in shelf.named_in(self.value("snapshots"))]

    def parts(self):
        """The parts that there are, of each turn's snapshot."""
        found = {}
        for kv in self.members.ask(etcd.RANGE, {"key": b64((PREFIX + "snapshot/").encode()), "keys_only": True,
                                                "range_end": b64((PREFIX + "snapshot0").encode())}).get("kvs", ()):
            number, part = base64.b64decode(kv["key"]).decode().split("/")[-2:]
            found.setdefault(int(number, 16), []).append(int(part, 16))
        return found

    def first_turn(self):
        return min(self.members.values("turn"), default=0)

    def saves(self, leader, station, count=1, least=20):
        """So many snapshots are made, while messages come that count."""
        for _ in range(count):
            before = self.named()[-1:]
            leader.says(least, station)
            leader.until(lambda before=before: self.named()[-1:] != before)

    def begun(self, **named):
        """A leader, one that stands by, which makes snapshots, and a station; two snapshots stand, and turns before the older are
        gone."""
        leader, maker = InStore(self, self.members, *NEVER, **named), Beside(self, self.members, *OFTEN, **named)
        station = leader.station()
        self.saves(leader, station, 3)
        leader.until(lambda: self.first_turn() > 1)
        return leader, maker, station

    def stopped(self, **named):
        """The same, once the maker is gone and nothing is made any more."""
        leader, maker, station = self.begun(**named)
        self.assertEqual(maker.stop()[0], 0)
        return leader, station

    def check_leads(self, leader, standby, count):
        """Killed, the leader is followed by one that has played all, and serves."""
        standby.follows_all()
        leader.killed()
        standby.leads()
        self.assertEqual(standby.remembers(), count)
        self.assertEqual(standby.station().says(REMEMBERED), REMEMBERED)
        self.assertEqual(standby.remembers(), count + 1)


class Makes(InOneStore):
    """Who makes snapshots, and what goes."""

    def test_bounded(self):
        """The last two are kept with the turns after the older, and the store doesn't grow."""
        leader, maker = InStore(self, self.members, *NEVER), Beside(self, self.members, *OFTEN)
        station, sizes = leader.station(), []
        for _ in range(12):
            for _ in range(30):
                station.says(REMEMBERED + LARGE)
            self.saves(leader, station, least=1)
            sizes.append(int(self.members.asked(self.members.clients[0], "/v3/maintenance/status", {})["dbSizeInUse"]))
        maker.until(lambda: sorted(self.parts()) == self.named() and self.first_turn() == self.named()[0] + 1)
        self.assertEqual(len(self.named()), 2)
        self.assertEqual((maker.said().count(b"snapshot"), leader.said().count(b"snapshot")), (0, 0))
        self.assertLess(max(sizes[6:]), 1.5 * max(sizes[:6]), sizes)
        self.assertLess(max(sizes), 12 * 30 * 2 * len(LARGE) / 2, sizes)

    def test_told(self):
        """Counters, metrics and the page of both say which the last is."""
        ports = [free_port() for _ in range(2)]
        leader = InStore(self, self.members, *NEVER, "--page", "127.0.0.1:%d" % ports[0])
        maker = Beside(self, self.members, *OFTEN, "--page", "127.0.0.1:%d" % ports[1])
        self.assertIn(b"There is no snapshot.", Fronts.get(ports[0], "/"))
        self.saves(leader, leader.station(), 2)
        self.assertEqual(maker.stop()[0], 0)
        maker = Beside(self, self.members, *NEVER, "--page", "127.0.0.1:%d" % ports[1])
        number = self.named()[-1]
        for running, port in ((leader, ports[0]), (maker, ports[1])):
            running.until(lambda running=running: (running.snapshot() or {}).get("turn") == number)
            told = running.snapshot()
            self.assertEqual((told["octets"], abs(told["time"] - time.time()) < 600),
                             (sum(len(self.value("snapshot/%016x/%04x" % (number, part))) for part in self.parts()[number]), True))
            self.assertIn("soizkadur_store_snapshot_turn %d\n" % number, Fronts.get(port, "/metrics").decode())
            told = r"The last snapshot is after turn %d, made [-0-9]+ [0-9:.]+ UTC; \d+ turns came since\." % number
            running.until(lambda port=port, told=told: re.search(told, Fronts.get(port, "/").decode()))
        maker.follows_all()
        last = maker.store()["turn"]
        self.assertGreaterEqual(maker.snapshot()["turns_since"], last - number)

    def test_alone(self):
        """A leader without a standby makes them too, and goes on after one, killed or ended in order."""
        leader, count = InStore(self, self.members, *BY_ITSELF, changes=("restless",)), 0
        for end in (signal.SIGKILL, signal.SIGTERM):
            station = leader.station()
            for _ in range(3):
                before = self.named()[-1:]
                leader.says(5, station)
                count += 5
                leader.until(lambda before=before: self.named()[-1:] != before)
            leader.until(lambda: self.first_turn() > 1)
            leader.stop(end)
            leader = InStore(self, self.members, *BY_ITSELF, changes=("restless",))
            self.assertGreater(int(re.search(BEGINS, leader.told)[1]), 0)
            self.assertEqual(leader.remembers(), count)
        self.assertNotIn(b"no snapshot can be made", leader.said())

    def test_leader_waits(self):
        """One that leads makes none while one that stands by does."""
        made = Making(patience=2)
        for seconds, octets, is_due in ((119, limits.SNAPSHOT_LEAST, False), (121, limits.SNAPSHOT_LEAST, True),
                                        (1, 19999, False), (1, 20000, True)):
            made.journal.size = octets
            self.assertEqual(made.is_due(seconds), is_due, (seconds, octets))

    def test_two_makers(self):
        """Two that make them do no harm: who begins then has all that was answered."""
        leader, one = InStore(self, self.members, *NEVER), Beside(self, self.members, *OFTEN, changes=("restless", "parted"))
        two, station, count = Beside(self, self.members, *OFTEN, changes=("restless", "parted")), leader.station(), 0
        for _ in range(12):
            self.saves(leader, station, least=10)
            count += 10
        for maker in (one, two):
            self.assertNotIn(b"no snapshot can be made", maker.said())
            self.assertEqual(maker.stop()[0], 0)
        self.assertEqual(len(self.named()), 2)
        later = Beside(self, self.members, *NEVER)
        self.assertNotIn(b"isn't taken", later.said())
        self.assertEqual(later.begun_after(), self.named()[-1])
        self.check_leads(leader, later, count)

    def test_killed(self):
        """A maker that is killed while it puts parts leaves rests, which the next one removes; the older ones stay good."""
        leader, chance, count = InStore(self, self.members, *NEVER), random.Random(7), 60
        station = leader.station()
        maker = Beside(self, self.members, *OFTEN)
        self.saves(leader, station, 3)
        self.assertEqual(maker.stop()[0], 0)
        names, rests = self.named(), 0
        for _ in range(6):
            maker = Beside(self, self.members, *OFTEN, changes=("parted",))
            maker.until(lambda: any(number > names[-1] and len(parts) > 1 for number, parts in self.parts().items()))
            time.sleep(chance.random() * 0.1)
            maker.killed()
            rests += self.named() == names
            self.assertLessEqual(len(set(self.parts()) - set(self.named())), 2)
            names = self.named()
        self.assertGreater(rests, 2)
        later = Beside(self, self.members, *NEVER)
        self.assertEqual((later.begun_after(), b"isn't taken" in later.said()), (names[-1], False))
        later.stop()
        maker = Beside(self, self.members, *OFTEN)
        self.saves(leader, station, 2)
        maker.until(lambda: sorted(self.parts()) == self.named())
        maker.until(lambda: set(self.members.values("used")) <= set(self.named()))
        self.check_leads(leader, maker, count + 40)

    def test_refusing(self):
        """Where none can be made that is said once, and nothing goes."""
        leader, maker = InStore(self, self.members, *NEVER), Beside(self, self.members, *OFTEN, changes=("refusing", "restless"))
        station = leader.station()
        leader.says(20, station)
        maker.until(lambda: b"no snapshot can be made, so that no turn of the store's log goes: the MME can't be saved" in
                    maker.said())
        leader.says(20, station)
        maker.follows_all()
        self.assertEqual((self.named(), self.first_turn(), maker.said().count(b"no snapshot can be made")), ([], 1, 1))


class Filled(unittest.TestCase):
    """When it is said that the store fills, by what a member says of itself."""

    TEXT = ("etcd_mvcc_db_total_size_in_bytes %d\netcd_mvcc_db_total_size_in_use_in_bytes %d\n"
            "etcd_server_quota_backend_bytes 1000\n")

    def test_said(self):
        """Where half of its quota is in use, and where its file has nearly reached it; not of room that is used again."""
        for size, used, told in ((499, 499, ""), (899, 100, ""), (899, 499, ""), (500, 500, "has 0.0 of the 0.0 MiB of its quota"),
                                 (900, 100, "file has 0.0 of the 0.0 MiB of its quota, most of it unused"), (400, 0, "")):
            with self.subTest(size=size, used=used):
                said = []
                looks = types.SimpleNamespace(call=lambda *given: None, place=0, go_to_next=lambda: None,
                                              loop=types.SimpleNamespace(after=lambda *given: None))
                found = room.Room(looks, types.SimpleNamespace(say=lambda event, text, **fields: said.append(text)))
                found.take({"text": self.TEXT % (size, used)}, None)
                self.assertEqual((len(said), found.is_low), (bool(told), bool(told)))
                self.assertIn(told, "".join(said))


class Making(storing.Storing):
    """What decides whether one is due, after a minute or 10,000 octets."""

    patience = journal = None

    def __init__(self, patience):
        self.rule, self.saved_at, self.counted, self.patience = (60, 10000), 0.0, 0, patience
        self.journal = types.SimpleNamespace(size=0)


class Begins(InOneStore):
    """Fronts that begin at a snapshot."""

    def test_from_nothing(self):
        """One that begins beside a leader with load plays what came since the snapshot, and has all that was answered."""
        leader, maker, station = self.begun(changes=())
        answered, is_over = [60], threading.Event()

        def load():
            with contextlib.suppress(EOFError, ConnectionError):
                while not is_over.is_set():
                    for _ in range(50):
                        station.send(REMEMBERED)
                    for _ in range(50):
                        station.receive()
                        answered[0] += 1

        thread = threading.Thread(target=load)
        thread.start()
        try:
            leader.until(lambda: answered[0] > 1000)
            standby = Beside(self, self.members, *NEVER)
            standby.until(lambda: (told := standby.store())["turn"] == told["last_turn"])
            self.assertGreater(standby.begun_after(), 1)
            maker.killed()
        finally:
            leader.process.kill()
            is_over.set()
            thread.join()
        standby.leads()
        self.assertGreaterEqual(standby.remembers(), answered[0])
        self.assertLessEqual(standby.remembers(), answered[0] + 50)

    def test_paused(self):
        """One whose turns went while it was paused begins anew at the snapshot, and goes on."""
        leader, maker = InStore(self, self.members, *NEVER), Beside(self, self.members, *OFTEN)
        sleeper, station = Beside(self, self.members, *NEVER), leader.station()
        leader.says(3, station)
        sleeper.follows_all()
        number = sleeper.store()["turn"]
        sleeper.process.send_signal(signal.SIGSTOP)
        self.saves(leader, station, 3)
        leader.until(lambda: self.first_turn() > number + 1)
        self.assertEqual(maker.stop()[0], 0)
        sleeper.process.send_signal(signal.SIGCONT)
        sleeper.until(lambda: sleeper.begun_after() == self.named()[-1])
        self.check_leads(leader, sleeper, 63)

    def test_stations(self):
        """Stations that were connected at the snapshot are lost once another front leads, and the seconds pass that it takes."""
        leader, station = self.stopped()
        self.assertEqual(leader.station().says(REMEMBERED), REMEMBERED)
        standby = Beside(self, self.members, *NEVER)
        standby.follows_all()
        leader.killed()
        standby.leads()
        self.assertIn(b"goes on: 2 stations were lost", standby.told)

    def refused(self, changed, told):
        """The newest isn't taken, since it was changed so; with the older one all is as it was answered."""
        leader, station = self.stopped()
        older, newest = self.named()
        changed(newest)
        standby = Beside(self, self.members, *NEVER)
        self.assertRegex(standby.told.decode(), "the store's snapshot after turn %d isn't taken: %s" % (newest, told))
        self.assertEqual((standby.told.count(b"isn't taken"), standby.begun_after()), (1, older))
        self.check_leads(leader, standby, 60)

    def test_damaged(self):
        name = "snapshot/%016x/0000"
        self.refused(lambda number: self.put(name % number, self.value(name % number)[:-1] + b"!"), "it is damaged or cut")

    def test_missing(self):
        self.refused(lambda number: self.remove("snapshot/%016x/0000" % number), "its part 0 is missing")

    def test_of_another_log(self):
        """Octets of another snapshot in its place."""
        def change(number):
            older, newest = shelf.named_in(self.value("snapshots"))
            self.put("snapshot/%016x/0000" % number, self.value("snapshot/%016x/0000" % older.number))
            self.put("snapshots", older.line() + newest._replace(octets=older.octets, digest=older.digest).line())

        self.refused(change, "it is of another log, or after another turn")

    def test_none_fits(self):
        """Where none can be taken, and the first turns are gone, it ends with status 2."""
        leader, _ = self.stopped()
        for number in self.named():
            self.remove("snapshot/%016x/0000" % number)
        status, told = Beside(self, self.members, *NEVER).ended()
        self.assertEqual((status, told.count("isn't taken: its part 0 is missing")), (2, 2))
        self.assertIn("the store's log isn't whole after turn 0", told)
        self.assertEqual(leader.stop()[0], 0)

    def test_from_the_first_turn(self):
        """Where none can be taken and all turns are there, they are played; and the next snapshot takes the others' place."""
        leader, maker = InStore(self, self.members, *NEVER), Beside(self, self.members, *OFTEN)
        station = leader.station()
        self.saves(leader, station)
        self.assertEqual(maker.stop()[0], 0)
        [number] = self.named()
        self.remove("snapshot/%016x/0000" % number)
        maker = Beside(self, self.members, *OFTEN)
        self.assertIn(b"isn't taken: its part 0 is missing", maker.told)
        self.saves(leader, station)
        self.assertNotIn(number, self.named())
        self.check_leads(leader, maker, 40)

    def test_version(self):
        """One that saves itself as another version does: the library doesn't take it."""
        leader, station = self.stopped()
        newer = Beside(self, self.members, *OFTEN, changes=("newer",))
        self.saves(leader, station)
        self.assertEqual(newer.stop()[0], 0)
        standby = Beside(self, self.members, *NEVER)
        self.assertIn(b"isn't taken: the library doesn't take it: version 2", standby.told)
        self.assertEqual(standby.begun_after(), self.named()[0])
        self.check_leads(leader, standby, 80)

    def test_key(self):
        """By another key than it was sealed by, or without one, none is taken."""
        folder = pathlib.Path(self.enterContext(tempfile.TemporaryDirectory()))
        for name in ("key", "other"):
            (folder / name).write_bytes(name.encode() * 10)
        key = "--snapshot-key", folder / "key"
        leader, maker = InStore(self, self.members, *NEVER, *key), Beside(self, self.members, *OFTEN, *key)
        station = leader.station()
        self.saves(leader, station, 3)
        self.assertEqual(maker.stop()[0], 0)
        for words, told in ((("--snapshot-key", folder / "other"), "damaged or cut, or sealed by another key"),
                            ((), "it is sealed by a key, and this front has none")):
            status, text = Beside(self, self.members, *NEVER, *words).ended()
            self.assertEqual((status, text.count(told)), (2, 2), text)
        self.check_leads(leader, Beside(self, self.members, *NEVER, *key), 60)

    def test_by_a_program(self):
        """A program takes none, says so, and can't begin where the first turns are gone."""
        leader, _ = self.stopped()
        folder = pathlib.Path(self.enterContext(tempfile.TemporaryDirectory()))
        (folder / "mme").write_text(STAND_IN)
        (folder / "mme").chmod(0o755)
        status, told = Beside(self, self.members, program=folder / "mme", folder=folder).ended()
        self.assertEqual((status, "which the library alone takes (--library)" in told), (2, True))
        self.assertEqual(leader.stop()[0], 0)


class Upgrades(InOneStore):
    """Another version goes on where there is a snapshot after the last turn, which a leader makes that ends in order."""

    OLDER = "0.9.0"

    def is_of(self, version):
        """The log is of another version."""
        head = self.value("head")
        self.put("head", version.encode() + head[head.index(b" "):])

    def ended(self, **named):
        """A leader that has counted ten messages and ended in order."""
        leader = InStore(self, self.members, "--snapshot", "1440,4096", **named)
        leader.says(10, leader.station())
        self.assertEqual(leader.stop()[0], 0)
        self.assertEqual(self.named()[-1], self.members.last().number)
        return leader

    def test_goes_on(self):
        """It takes the snapshot and the lead, and the log is of its version then."""
        self.ended()
        self.is_of(self.OLDER)
        leader = InStore(self, self.members, *NEVER)
        self.assertEqual((leader.remembers(), leader.station().says(REMEMBERED)), (10, REMEMBERED))
        self.assertEqual(self.value("head").decode().split(" ")[0], Fronts.version())
        leader.killed()
        again = InStore(self, self.members, *NEVER)
        self.assertEqual(again.remembers(), 11)

    def test_turns_since(self):
        """Where turns came since, it plays none of them."""
        leader, _ = self.stopped()
        self.is_of(self.OLDER)
        status, told = Beside(self, self.members, *NEVER).ended()
        self.assertEqual(status, 2)
        self.assertIn("the store's log is of version %s, and this is %s" % (self.OLDER, Fronts.version()), told)
        self.assertEqual(leader.stop()[0], 0)

    def test_turns_meanwhile(self):
        """One that follows at such a snapshot ends where another version writes a turn, to be started again."""
        self.ended()
        self.is_of(self.OLDER)
        standby = Beside(self, self.members, *NEVER, silence="lenient")
        last = self.members.last()
        self.put("turn/%016x" % (last.number + 1), b"tick 1\n")
        self.put("last", last._replace(number=last.number + 1).octets())
        status, told = standby.ended()
        self.assertEqual(status, 75)
        self.assertIn("the store's log is of version %s" % self.OLDER, told)

    def test_who_follows(self):
        """One that stands by goes on following where the version changes to its own."""
        self.ended()
        self.is_of(self.OLDER)
        standby = Beside(self, self.members, *NEVER, silence="lenient")  # (nobody leads at first)
        leader = InStore(self, self.members, *NEVER)
        leader.says(3, leader.station())
        self.check_leads(leader, standby, 13)


class Provisioned(InOneStore):
    """What was given and what was used, after a start at a snapshot elsewhere."""

    GIVEN = [VECTORS[4].words(IMSI), OTHER_SUB, VECTORS[5].words("001010000000002")]

    def given(self):
        """A leader that was given lines, whose phone used a vector, and snapshots since."""
        leader, maker = InStore(self, self.members, *NEVER), Beside(self, self.members, *OFTEN)
        station = leader.station()
        self.assertRegex(give(leader, "".join(line + "\n" for line in self.GIVEN)), "^given 1 subscriber, 2 vectors")
        leader.challenges(station)
        self.saves(leader, station, 3)
        leader.until(lambda: self.first_turn() > 1)
        self.assertEqual(maker.stop()[0], 0)
        return leader, station

    def test_given(self):
        """Lines that were given are there, whether the subscribers' file has them or not; those that it has more are given."""
        more = "sub 001010000000003 0a000003 0a000064 00000003"
        for lines, wanted in ((self.GIVEN, 2), ([], 2), ([*self.GIVEN, more], 3), ([self.GIVEN[0], more], 3)):
            with self.subTest(lines=len(lines), wanted=wanted):
                self.members.forget()
                leader, _ = self.given()
                standby = Beside(self, self.members, *NEVER, head=PROVISIONED + "".join(line + "\n" for line in lines))
                self.assertGreater(standby.begun_after(), 1)
                self.check_leads(leader, standby, 60)
                standby.until(lambda wanted=wanted, standby=standby: standby.asks("phones").count("vectors_left=") == wanted)
                left = re.findall(r"vectors_left=(\d+)", standby.asks("phones"))
                self.assertEqual(left, ["4", "1", "0"][:wanted])
                standby.killed()

    def test_used(self):
        """A vector that was used before the snapshot isn't taken a second time, on a machine that didn't hear of it."""
        leader, _ = self.given()
        standby = Beside(self, self.members, *NEVER)
        self.check_leads(leader, standby, 60)
        self.assertIn(VECTORS[0].rand.hex(), (standby.folder / "log.used").read_text())
        vector = VECTORS[0].words(IMSI)
        self.assertIn("its vector was used already", give(standby, vector.replace(vector[-8:], "0" * 8) + "\n"))

    def test_source(self):
        """What a source supplied is there too, and what it supplies a second time isn't taken."""
        folder = pathlib.Path(self.enterContext(tempfile.TemporaryDirectory()))
        (folder / "source").write_text(SOURCE)
        (folder / "first").write_text("".join(VECTORS[at].words(IMSI) + "\n" for at in (2, 3, 4, 5, 6)))
        (folder / "again").write_text("".join(VECTORS[at].words(IMSI) + "\n" for at in (0, 2, 7)))
        words = lambda name: ("--source", shlex.join(map(str, (sys.executable, folder / "source", folder / name))))
        head = "".join(PROVISIONED.splitlines(keepends=True)[:4])  # two vectors
        leader = InStore(self, self.members, *NEVER, *words("first"), head=head)
        maker, station = Beside(self, self.members, *OFTEN, *words("first"), head=head), leader.station()
        for _ in range(3):
            leader.challenges(station)
            leader.until(lambda: int(re.search(r"vectors_left=(\d+)", leader.asks("phones"))[1]) > 2)
        self.saves(leader, station, 3)
        leader.until(lambda: self.first_turn() > 1)
        self.assertEqual(maker.stop()[0], 0)
        standby = Beside(self, self.members, *NEVER, *words("again"), head=head)
        standby.follows_all()
        left = re.search(r"vectors_left=(\d+)", standby.asks("phones"))[1]
        self.assertIn("vectors_left=%s" % left, leader.asks("phones"))
        leader.killed()
        standby.leads()
        station, number = standby.station(), max(self.members.values("turn"))
        while int(re.search(r"vectors_left=(\d+)", standby.asks("phones"))[1]) > 1:
            standby.challenges(station)
        standby.until(lambda: VECTORS[7].rand.hex() in self.since(number))
        for used in (VECTORS[0], VECTORS[2]):
            self.assertNotIn("vec %s %s" % (IMSI, used.rand.hex()), self.since(number))

    def since(self, number):
        """The turns since one."""
        return b"".join(self.members.values("turn", number).values()).decode("latin-1")


class Changed(InOneStore):
    """A front that is changed so that its snapshots are of no use is found."""

    def older_is_good(self, *changes):
        """Where the newest is damaged, the older one is begun at."""
        leader, maker = InStore(self, self.members, *NEVER), Beside(self, self.members, *SELDOM, changes=changes)
        station = leader.station()
        self.saves(leader, station, 3)
        maker.until(lambda: self.first_turn() > self.named()[-1 if changes else 0])
        maker.killed()
        self.remove("snapshot/%016x/0000" % self.named()[-1])
        standby = Beside(self, self.members, *NEVER)
        self.assertEqual(standby.begun_after(), self.named()[0], standby.said())
        self.check_leads(leader, standby, 60)

    def test_greedy(self):
        """The turns before the newer one go."""
        self.older_is_good()
        self.members.forget()
        with self.assertRaisesRegex(AssertionError, "isn't whole after turn"):
            self.older_is_good("greedy")

    def is_whole_once_named(self, *changes):
        """A maker is killed once one has its name."""
        leader, station = InStore(self, self.members, *NEVER), None
        station = leader.station()
        maker = Beside(self, self.members, *OFTEN, changes=("parted", *changes))
        self.saves(leader, station)
        maker.killed()
        standby = Beside(self, self.members, *NEVER)
        self.assertNotIn(b"isn't taken", standby.said())
        self.check_leads(leader, standby, 20)

    def test_premature(self):
        """One is named before its parts are there."""
        self.is_whole_once_named()
        self.members.forget()
        with self.assertRaisesRegex(AssertionError, "its part 1 is missing"):
            self.is_whole_once_named("premature")


class Deposits(InOneStore):
    """What a maker puts into the store that is late, or has another beside it."""

    HEAD = b"head of a log"

    def deposit(self, leader, number, names=b"", kept=(), used=()):
        moment = storing.Moment(0, number, {"made": clock()}, names, list(kept), list(used))
        standby = types.SimpleNamespace(etcd=leader.etcd, scheme=leader.scheme, head=self.HEAD)
        return storing.Deposit(standby, moment)

    def setUp(self):
        super().setUp()
        self.leader = Leader(self, self.members.urls())
        self.put("head", self.HEAD)

    def made(self, number, **named):
        """One that is made."""
        deposit = self.deposit(self.leader, number, **named)
        deposit.begin()
        deposit.write(b"whole")
        deposit.name()
        deposit.clear()
        return deposit

    def test_superseded(self):
        """One that isn't named before another is leaves nothing."""
        for number in (6, 4):
            with self.subTest(number=number):
                self.members.forget()
                self.put("head", self.HEAD)
                late = self.deposit(self.leader, 5)
                late.begin()
                late.write(b"one")
                late.write(b"two")
                self.made(number)
                with self.assertRaises(storing.Superseded):
                    late.name()
                self.assertEqual((self.named(), sorted(self.parts())), ([number], [number]))

    def test_removed(self):
        """One whose parts were removed as rests puts none any more, and isn't named."""
        late = self.deposit(self.leader, 5)
        late.write(b"one")
        self.made(6)
        for act in (lambda: late.write(b"two"), late.name):
            with self.assertRaises(storing.Superseded):
                act()
        self.assertEqual(sorted(self.parts()), [6])

    def test_of_one_turn(self):
        """Of two after the same turn one is made; once more for a first part whose answer was lost, it goes on."""
        one, two = self.deposit(self.leader, 5), self.deposit(self.leader, 5)
        one.write(b"one")
        with self.assertRaises(storing.Superseded):
            two.write(b"another")
        again = self.deposit(self.leader, 5)
        again.write(b"one")
        self.assertEqual(again.revision, one.revision)
        one.name()
        self.assertEqual((self.named(), self.value("snapshot/%016x/0000" % 5)), ([5], b"one"))
        one.name()  # its answer was lost
        self.assertEqual(self.named(), [5])

    def test_of_a_log_that_is_gone(self):
        """Of a log that was begun anew meanwhile none is begun, and none gets its name."""
        late = self.deposit(self.leader, 5)
        late.write(b"one")
        self.put("head", b"another log")
        with self.assertRaises(storing.Superseded):
            late.name()
        with self.assertRaises(storing.Superseded):
            self.deposit(self.leader, 7).write(b"one")
        self.assertEqual((self.named(), self.parts()), ([], {}))

    def test_late_removal(self):
        """One that was named removes nothing any more once another is."""
        late = self.made(5)
        self.made(7, names=self.value("snapshots"), kept=shelf.named_in(self.value("snapshots")))
        late.moment = late.moment._replace(kept=[shelf.Named(7, 1, 5, "", "")])
        with self.assertRaises(storing.Superseded):
            late.clear()
        self.assertEqual((self.named(), sorted(self.parts())), ([5, 7], [5, 7]))

    def test_turns(self):
        """Many turns go in several steps, and those after the older one stay; what they were is forgotten."""
        for number in range(1, 30):
            self.put("turn/%016x" % number, b"x")
        with unittest.mock.patch.object(limits, "TURNS_REMOVED", 4):
            kept = shelf.Named(21, 1, 5, "00", clock())
            self.put("snapshots", kept.line())
            revision = int(self.members.ask(etcd.RANGE, {"key": b64(b"x")})["header"]["revision"])
            self.made(25, names=kept.line(), kept=[kept])
        self.assertEqual(sorted(self.members.values("turn")), list(range(22, 30)))
        with self.assertRaisesRegex(OSError, "compacted"):
            self.members.asked(self.members.clients[0], etcd.RANGE, {"key": b64(b"x"), "revision": revision})

    def test_used(self):
        """What was used stands beside, in parts; rests of it go with the next one, and what others named stays."""
        entries = [b"%s %032x" % (IMSI.encode(), number) for number in range(9)]
        deposit = self.deposit(self.leader, 5, used=entries)
        deposit.PIECE = 3 * storing.LONGEST_ENTRY
        deposit.write(b"one")
        deposit.add_used()
        self.assertEqual(b"".join(self.value("used/%016x/%04x" % (5, part)) for part in range(3)),
                         b"".join(entry + b"\n" for entry in entries))
        self.made(6)
        self.assertEqual(self.value("used/%016x/0000" % 5), b"")


if __name__ == "__main__":
    unittest.main()
