"""What a front counts of phones: attaches by the MME's states, and the vectors that are left; and how its log is doing."""
import collections
import json
import os
import pathlib
import signal
import subprocess
import sys
import tempfile
import types
import unittest
import unittest.mock

from reference import lte as LTE, phones as PHONES
from tests.tools import tools
from tests.tools.fronted import FRAME, IMSI, PATIENCE, PROGRAM
from tests.tools.test_front_page import Served
from tools.fronting.attaches import Attaches
from tools.fronting.challenges import challenged
from tools.fronting.provisioning import Head
from tools.fronting.stock import Stock

NETWORK, STATION = PHONES.Network(), PHONES.Station(0)
COMPLETED = 'soizkadur_attaches_total{step="completed"}'
MAC_OCTETS = 4
# Sends each message of a station back to it, as the first subscriber's.
OF_ONE_PHONE = FRAME % """\
    elif word == "show":
        print("state", fields[0], "DEREGISTERED IDLE INACTIVE")
    elif word == "in":
        print("out s0", *fields)
"""


def vectors(count, name="v"):
    return [PHONES.Vector.made("%s%d" % (name, place)) for place in range(count)]


def challenge(vector):
    """A DOWNLINK NAS TRANSPORT with this vector's AUTHENTICATION REQUEST."""
    return LTE.downlink_nas(0x10001, 7, LTE.authentication_request(0, vector))


def forged(nas):
    """A protected NAS message with another MAC."""
    return nas[:1] + bytes(octet ^ 0xFF for octet in nas[1:1 + MAC_OCTETS]) + nas[1 + MAC_OCTETS:]


class Spoken(PHONES.Trace):
    """What stations and phones do goes to a front, and what they are owed is waited for."""

    def __init__(self, connection):
        super().__init__(NETWORK)
        self.connection = connection

    def hear(self, station, octets):
        self.connection.send(octets)

    def owe(self, owner, station, octets):
        got = self.connection.receive()
        assert got == octets, (got.hex(), octets.hex())


@unittest.skipUnless(PROGRAM.exists(), "the program isn't built (./mme --prove)")
class Completed(Served):
    def begun(self):
        """A front with a phone that was sent its ATTACH ACCEPT, and the phone."""
        trace = PHONES.Trace()
        made = PHONES.Phone(trace, 0, vectors(4))
        trace.provision([made])
        self.running_front = self.running(head=trace.text(), program=PROGRAM)
        made.trace = Spoken(self.running_front.station())
        made.trace.set_up(STATION)
        self.to_acceptance(made)
        return made

    @staticmethod
    def to_acceptance(phone):
        for step in list(phone.attach_steps(STATION, phone.place + 1))[:-1]:
            step()

    def completed(self):
        """How many attaches are counted as completed, once all that was sent is answered."""
        self.running_front.asks("show", IMSI)
        counters = json.loads(self.running_front.asks("counters", "--json"))
        return counters["attaches"].get("completed", 0)

    def test_forged(self):
        """ATTACH COMPLETE counts where the MME takes it: not with another MAC, from another station, or a second time."""
        phone = self.begun()
        other = self.running_front.station()
        complete = phone.protected_up(LTE.ATTACH_COMPLETE)
        phone.sends(forged(complete))
        other.send(LTE.uplink_nas(NETWORK, PHONES.Station(1), phone.m, phone.b, forged(complete)))
        self.assertEqual(self.completed(), 0)
        phone.sends(complete)
        self.assertEqual(self.completed(), 1)
        phone.sends(complete)
        self.assertEqual(self.completed(), 1)
        self.assertEqual(self.values()[COMPLETED], 1)

    def test_at_once(self):
        """It counts though forged ones stand around it, and though the phone is switched off right after it."""
        phone = self.begun()
        lines = []
        complete = phone.protected_up(LTE.ATTACH_COMPLETE)
        off = phone.protected_up(LTE.detach_request(LTE.guti(NETWORK, phone.tmsi), phone.ksi, True))
        for nas in (complete, forged(complete), off):
            octets = LTE.uplink_nas(NETWORK, STATION, phone.m, phone.b, nas)
            lines.append(len(octets).to_bytes(2, "big") + octets)
        phone.trace.connection.socket.sendall(b"".join(lines))
        self.assertEqual(phone.trace.connection.receive(), LTE.release_command(phone.m, phone.b, LTE.DETACHED))
        self.assertEqual(self.completed(), 1)
        phone.goes()
        self.to_acceptance(phone)
        self.assertEqual(self.completed(), 1)
        phone.completes_attach()
        self.assertEqual(self.completed(), 2)

    def test_no_question_stands_in_the_log(self):
        phone = self.begun()
        phone.completes_attach()
        self.running_front.until(lambda: self.values().get(COMPLETED) == 1)
        self.assertNotIn("show", self.running_front.log.read_text())


class Questions(unittest.TestCase):
    """Which questions the front puts, of a front and an MME that are made up."""

    def setUp(self):
        exchange = types.SimpleNamespace(batch=types.SimpleNamespace(after=[]), ask=unittest.mock.Mock(),
                                         ask_after=unittest.mock.Mock())
        loop = types.SimpleNamespace(after=lambda seconds, act: act())
        head = types.SimpleNamespace(imsis=[IMSI], slots={IMSI: 0})
        self.front = types.SimpleNamespace(exchange=exchange, loop=loop, head=head, note_attached=unittest.mock.Mock(),
                                           meters=types.SimpleNamespace(attaches=collections.Counter()))
        self.attaches = Attaches(self.front)
        phone = PHONES.Phone(PHONES.Trace(), 0, vectors(1))
        for step in phone.attach_steps(STATION, 1):
            step()
        self.accept = bytes.fromhex(phone.trace.answers[-1].split(" ")[3])
        self.complete = bytes.fromhex(phone.trace.lines[-1].split(" ")[2])

    def told(self, states):
        self.attaches.note(types.SimpleNamespace(imsi=IMSI, states=states))
        self.assertEqual(self.front.note_attached.call_count, self.front.meters.attaches["completed"])
        return self.front.meters.attaches["completed"]

    def test_flood(self):
        """A flood of ATTACH COMPLETEs is one question at a time, and none where nothing was accepted, or from elsewhere."""
        for _ in range(100):
            self.attaches.hear(0, self.complete, "in 0")
        self.assertEqual(self.front.exchange.ask_after.call_count, 0)
        for act in self.front.exchange.batch.after:
            act()
        self.assertFalse(self.attaches.early)
        self.attaches.accept(0, 0, self.accept)
        for station in (0, 1):
            for _ in range(100):
                self.attaches.hear(station, self.complete, "in %d" % station)
        self.front.exchange.ask_after.assert_called_once_with("in 0", IMSI, self.attaches.note)
        self.assertEqual(self.told(PHONES.PENDING), 0)
        self.front.exchange.ask.assert_called_once()
        self.assertEqual(self.told(PHONES.CONNECTED), 1)
        self.attaches.hear(0, self.complete, "in 0")
        self.assertEqual((self.front.exchange.ask_after.call_count, self.front.exchange.ask.call_count), (1, 1))

    def test_early(self):
        """One that came before the accept was sent is asked for once that is."""
        self.attaches.hear(0, self.complete, "in 0")
        self.attaches.accept(0, 0, self.accept)
        self.front.exchange.ask.assert_called_once()
        self.assertEqual(self.told(PHONES.CONNECTED), 1)


class Vectors(unittest.TestCase):
    def stock(self, *counts):
        """The vectors of phones, and the alarms that there were."""
        self.made = [vectors(count, "phone %d " % slot) for slot, count in enumerate(counts)]
        lines = [NETWORK.words]
        for slot, made in enumerate(self.made):
            imsi = "00101%010d" % (slot + 1)
            lines += ["sub %s 0a000001 0a000064 00000001" % imsi, *(vector.words(imsi) for vector in made)]
        self.head, self.alarms = Head(lines), []
        return Stock(self.head, lambda slot, left: self.alarms.append((slot, left)))

    def test_challenge(self):
        """Its RAND (TS 24.301 clause 8.2.7), and nothing of another message, which may have the same octets in it."""
        [vector] = vectors(1)
        self.assertEqual(challenged(challenge(vector)), vector.rand)
        request = LTE.authentication_request(0, vector)
        others = [b"", b"\x00\x0b", challenge(vector)[:-1], LTE.downlink_nas(0x10001, 7, request[:18]),
                  LTE.downlink_nas(0x10001, 7, b"\x07\x55\x01" + request), LTE.uplink_nas(NETWORK, STATION, 1, 7, request)]
        self.assertEqual([challenged(octets) for octets in others], [None] * len(others))

    def test_left(self):
        """A vector is used once, however often its challenge is sent; with one of them those before it are."""
        stock = self.stock(5, 2, 0)
        self.assertEqual(([stock.left(slot) for slot in range(3)], stock.least()), ([5, 2, 0], 0))
        first, second = self.made[:2]
        for vector, left in ((first[0], 4), (first[0], 4), (first[2], 2), (first[1], 2), (second[0], 2), (first[4], 0)):
            stock.note(0, vector.rand)
            self.assertEqual(stock.left(0), left)
        self.assertEqual(stock.by_left(), {"0": 2, "1": 0, "2": 1, "3": 0, "4+": 0})
        self.assertEqual(self.alarms, [(0, 2)])

    def test_alarms(self):
        """At three left, once; and again where further ones were given and used."""
        stock = self.stock(6, 6)
        for place in range(5):
            stock.note(0, self.made[0][place].rand)
        self.assertEqual((self.alarms, stock.few()), ([(0, 3)], 1))
        more = vectors(4, "more ")
        stock.lengthen(Head(self.head.lines + [vector.words("001010000000001") for vector in more]))
        self.assertEqual((stock.left(0), stock.few()), (5, 0))
        for vector in (self.made[0][5], *more[:2]):
            stock.note(0, vector.rand)
        self.assertEqual((self.alarms, stock.few()), ([(0, 3), (0, 3)], 1))

    def test_restored(self):
        """After a snapshot, which has the RANDs of those that are left alone, it counts on; a challenge by one that was spent before
        comes again and changes nothing."""
        stock = self.stock(6, 6, 0)
        rands = [[vector.rand for vector in made] for made in self.made]
        stock.restore([2, 4, 0], [b"".join(rands[0][2:]), b"".join(rands[1][4:]), b""])
        self.assertEqual([stock.unspent(slot) for slot in range(3)], [rands[0][2:], rands[1][4:], []])
        self.assertEqual((stock.by_left(), stock.few(), stock.least()), ({"0": 1, "1": 0, "2": 1, "3": 0, "4+": 1}, 2, 0))
        self.assertEqual((stock.low, [stock.most_unspent(slot) for slot in range(3)]), ({1}, [5, 3, 0]))
        for rand, left in ((rands[0][1], 4), (rands[0][0], 4), (rands[0][2], 3), (rands[0][2], 3), (rands[0][5], 0)):
            stock.note(0, rand)
            self.assertEqual((stock.left(0), stock.spent[0] + stock.left(0)), (left, 6))
        self.assertEqual(([stock.place_of(0, rand) is None for rand in rands[0][:3]], self.alarms), ([True, True, False], [(0, 3)]))
        [more] = vectors(1, "more ")
        stock.lengthen(Head(self.head.lines + [more.words("001010000000001")]))
        self.assertEqual((stock.unspent(0), stock.rands_left(1)), ([more.rand], b"".join(rands[1][4:])))


class Told(Served):
    def begun(self, count, *words, **others):
        """A front of one phone with these vectors."""
        self.made = vectors(count)
        head = "%s\nsub %s 0a000001 0a000064 00000001\n" % (NETWORK.words, IMSI)
        program = pathlib.Path(self.enterContext(tempfile.TemporaryDirectory()), "mme")
        program.write_text(OF_ONE_PHONE)
        program.chmod(0o755)
        return self.running(*words, head=head + "".join(vector.words(IMSI) + "\n" for vector in self.made),
                            program=program, **others)

    def test_a_reader_that_has_gone(self):
        """`ask` ends without a word where nobody reads what it prints any more."""
        running, (reading, writing) = self.begun(5), os.pipe()
        os.close(reading)
        for word in ("phones", "counters", "health"):
            done = subprocess.run([sys.executable, tools.TOP / "tools" / "front", "ask", running.control, word], stdout=writing,
                                  stderr=subprocess.PIPE, check=False, timeout=PATIENCE)
            self.assertEqual((done.returncode, done.stderr), (0, b""), word)
        os.close(writing)

    def test_vectors(self):
        """Left in `ask phones`, counters, metrics and the page; an alarm once; and the same after the run was resumed."""
        running = self.begun(5)
        station = running.station()
        self.assertIn(" vectors_left=5\n", running.asks("phones"))
        self.assertEqual(self.values()['soizkadur_alarm{of="vectors"}'], 0)
        for place in (0, 0, 1, 2):
            station.says(challenge(self.made[place]))
        found = json.loads(running.asks("phones", "--json"))
        self.assertEqual(found, {IMSI: {"states": "DEREGISTERED IDLE INACTIVE", "vectors_left": 2}})
        counters = json.loads(running.asks("counters", "--json"))
        self.assertEqual((counters["fewest_vectors_left"], counters["phones_by_vectors_left"]["2"]), (2, 1))
        running.until(lambda: self.values()['soizkadur_vectors_left{left="2"}'] == 1)
        values = self.values()
        self.assertEqual((values["soizkadur_vectors_left_minimum"], values['soizkadur_alarm{of="vectors"}']), (2, 1))
        self.assertIn("1 of 1 phones has 3 vectors or fewer left", self.get("/")[0])
        running.until(lambda: b"s0 has 3 vectors left" in running.said())
        self.assertEqual(running.said().count(b"left ("), 1)
        running.process.send_signal(signal.SIGKILL)
        running.ended()
        again = self.begun(5, "--resume", folder=running.folder)
        self.assertIn(" vectors_left=2\n", again.asks("phones"))
        self.assertIn(b"1 phone used all vectors but 3 or fewer", again.said())
        self.assertEqual(json.loads(again.asks("counters", "--json"))["messages_out"], {})
        again.station().says(challenge(self.made[3]))
        self.assertIn(" vectors_left=1\n", again.asks("phones"))

    def test_log(self):
        """Its segments, which part of those that are kept they are, whether it is whole, and an alarm once at three quarters."""
        running = self.begun(0, "--segments", "4")
        values = self.values()
        for name, value in (("segments", 1), ("segments_share", 0.25), ("whole", 1)):
            self.assertEqual(values['soizkadur_log_%s{of="what counts"}' % name], value)
        self.assertEqual(running.asks("phones").splitlines()[1:], ["log whole=True segments_share=0.25"])
        for number in range(1, 5):
            running.process.send_signal(signal.SIGHUP)
            running.until(lambda: running.log.with_name("log.counts.segment.%06d" % number).exists())
            if number == 2:
                running.until(lambda: b"3 of 4 segments of %s.counts are used" % bytes(running.log) in running.said())
        running.until(lambda: self.values()['soizkadur_log_whole{of="what counts"}'] == 0)
        values = self.values()
        self.assertEqual((values['soizkadur_log_segments{of="what counts"}'], values['soizkadur_alarm{of="what counts"}']), (4, 1))
        counts = json.loads(running.asks("counters", "--json"))["log"]["what counts"]
        self.assertEqual(counts, {"segments": 4, "segments_kept": 4, "share": 1.0, "whole": False})
        self.assertEqual(running.asks("phones").splitlines()[1:], ["log whole=False segments_share=1.0"])
        self.assertIn("isn't whole since the start", self.get("/")[0].replace("&#x27;", "'"))
        self.assertEqual(running.said().count(b"segments of %s.counts are used" % bytes(running.log)), 1)
