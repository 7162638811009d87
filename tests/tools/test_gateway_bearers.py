"""The tunnels that a front tells of: as the MME's answers have them, whatever a station says (fronting/bearers.py), and how they
are told at the control socket (fronting/followers.py). The messages are made from the standards' formats (reference/lte.py)."""
import contextlib
import json
import pathlib
import socket
import tempfile
import time
import unittest
import unittest.mock

from reference import lte, phones
from tests.tools.fronted import FRAME, PATIENCE, Running
from tools.fronting import bearers, followers, limits
from tools.fronting.journal import Batch

REGISTERED_IDLE, REGISTERED = "REGISTERED IDLE ACTIVE", "REGISTERED CONNECTED ACTIVE"
# The causes transport-resource-unavailable and unknown-PLMN (TS 36.413 clause 9.2.1.3): a group, its width, and a number.
TRANSPORT, UNKNOWN_PLMN = ((1, 1), 0), ((4, 3), 5)
# A program in the MME's place that answers each message as a table has it, and counts nothing.
BY_TABLE = FRAME % """\
    elif word == "show":
        print("state", fields[0], "REGISTERED CONNECTED ACTIVE")
    elif word == "in":
        for answer in %s.get(fields[1], []):
            print(answer)
"""


class Told(phones.Trace):
    """A trace whose messages, each a batch of its own, are given to Bearers with what the MME owes to them."""

    def __init__(self):
        super().__init__()
        self.changes, self.asked, self.batch, self.is_together = [], [], None, False
        self.bearers = bearers.Bearers(lambda slot, tunnel: self.changes.append((slot, tunnel)), self.asked.append)

    def hear(self, station, octets):
        if not self.is_together:
            self.flush()
        self.batch = self.batch or Batch()
        if octets[:2] in bearers.OF_STATION:
            self.batch.said.append((station.number, octets))

    def owe(self, owner, station, octets):
        slot = int(owner[1:]) if owner[0] == "s" else None
        if octets[:2] in bearers.OF_MME:
            self.batch.sent.append((slot, station.number, octets))

    def lose(self, station):
        self.hear(station, b"")
        self.batch.lost.append(station.number)

    @contextlib.contextmanager
    def together(self):
        """What is said in between is one batch."""
        self.flush()
        self.is_together = True
        yield
        self.is_together = False
        self.flush()

    def flush(self):
        if self.batch is not None:
            batch, self.batch = self.batch, None
            self.bearers.take(batch)

    def news(self):
        """The changes since the last time."""
        self.flush()
        changes, self.changes = self.changes, []
        return changes


class Tunnels(unittest.TestCase):
    def setUp(self):
        self.trace = Told()
        self.stations = [phones.Station(number) for number in range(3)]
        self.phone, self.other = (phones.Phone(self.trace, slot, [phones.Vector.made("%d %d" % (slot, n)) for n in range(4)])
                                  for slot in range(2))
        for station in self.stations:
            self.trace.set_up(station)
        self.assertEqual(self.trace.news(), [])

    def end(self, number, b):
        return "192.168.0.%d" % number, b

    def attached(self, b=1):
        self.phone.attaches(self.stations[0], b)
        self.assertEqual(self.trace.news(), [(0, self.end(0, b))])

    def is_over(self):
        self.assertEqual(self.trace.news(), [(0, None)])

    def stays(self):
        self.assertEqual(self.trace.news(), [])

    def test_attach(self):
        """From the response to the request on, and not before."""
        steps = list(self.phone.attach_steps(self.stations[0], 1))
        for step in steps[:3]:
            step()
            self.stays()
        steps[3]()
        self.assertEqual(self.trace.news(), [(0, self.end(0, 1))])
        steps[4]()
        self.stays()

    def test_response_of_others(self):
        """With other ids, from another station, a second time, or without the default bearer."""
        for step in list(self.phone.attach_steps(self.stations[0], 1))[:3]:
            step()
        hear, m = self.trace.hear, self.phone.m
        hear(self.stations[1], lte.context_setup_response(self.stations[1], m, 1))
        hear(self.stations[0], lte.context_setup_response(self.stations[0], m + 1, 1))
        hear(self.stations[0], lte.context_setup_response(self.stations[0], m, 2))
        hear(self.stations[0], lte.context_setup_response(self.stations[0], m, 1)[:-1])
        with unittest.mock.patch.object(lte, "RAB", 6):
            hear(self.stations[0], lte.context_setup_response(self.stations[0], m, 1))
        self.stays()
        self.phone.context_is_set_up()
        self.assertEqual(self.trace.news(), [(0, self.end(0, 1))])
        hear(self.stations[0], lte.context_setup_response(self.stations[1], m, 1))
        self.stays()

    def test_response_before_the_request(self):
        """In the batch that leads to the request, or before it: a station's message alone makes no tunnel."""
        steps = list(self.phone.attach_steps(self.stations[0], 1))
        steps[0]()
        self.trace.hear(self.stations[0], lte.context_setup_response(self.stations[0], self.phone.m, 1))
        steps[1]()
        with self.trace.together():
            steps[2]()
            steps[3]()
        self.stays()

    def test_ipv6(self):
        """A station with both versions has the tunnel by IPv4; one with IPv6 alone has none."""
        for bits, address, end in ((160, bytes([192, 0, 2, 9]) + bytes(16), ("192.0.2.9", 1)), (128, bytes(16), None)):
            def put(item, _, teid, bits=bits, address=address):
                return item.put(0, 1).whole(bits, 1, 160).octets(address).octets(teid)
            with self.subTest(bits), unittest.mock.patch.object(lte, "address_and_tunnel", put):
                octets = lte.context_setup_response(self.stations[0], 1, 1)
                self.assertEqual(bearers.tunnel_of(bearers.messages.decode(octets).get(51)), end)

    def test_release(self):
        self.attached()
        self.phone.is_released()
        self.is_over()
        self.phone.asks_for_service(self.stations[1], 5)
        self.stays()
        self.phone.context_is_set_up()
        self.assertEqual(self.trace.news(), [(0, self.end(1, 5))])

    def test_released_at_once(self):
        """A response and the release in one batch come to nothing."""
        self.attached()
        self.phone.is_released()
        self.is_over()
        self.phone.asks_for_service(self.stations[0], 5)
        with self.trace.together():
            self.phone.context_is_set_up()
            self.phone.is_released()
        self.stays()

    def test_switch(self):
        """With the acknowledgement alone; a failure changes nothing."""
        self.attached()
        self.phone.switches_path(self.stations[1], 7)
        self.assertEqual(self.trace.news(), [(0, self.end(1, 7))])
        for mme_id in (self.phone.m, self.phone.m + 1):
            self.trace.hear(self.stations[2], lte.path_switch_request(
                self.trace.network, self.stations[2], mme_id, 8, self.phone.capability))
            self.trace.owe("s0", self.stations[2], lte.path_switch_failure(mme_id, 8, lte.UNKNOWN_MME_ID))
            self.stays()
        self.phone.switches_path(self.stations[2], 9)
        self.assertEqual(self.trace.news(), [(0, self.end(2, 9))])

    def test_switch_without_an_answer(self):
        self.attached()
        self.trace.hear(self.stations[1], lte.path_switch_request(
            self.trace.network, self.stations[1], self.phone.m, 8, self.phone.capability))
        self.stays()

    def test_switches_of_one_batch(self):
        """Each acknowledgement is to the request that came in its place; one that failed isn't taken for another."""
        self.attached()
        request = lte.path_switch_request(self.trace.network, self.stations[2], self.phone.m, 8, self.phone.capability)
        with self.trace.together():
            self.trace.hear(self.stations[1], request)  # the tunnel is that of station 2
            self.trace.owe("s0", self.stations[1], lte.path_switch_failure(self.phone.m, 8, lte.UNKNOWN_MME_ID))
            self.phone.switches_path(self.stations[1], 8)
        self.assertEqual(self.trace.news(), [(0, self.end(1, 8))])

    def test_reset(self):
        self.attached()
        m = self.phone.m
        for station, ids in ((0, (m, 2)), (0, (m + 1, None)), (0, (None, None)), (0, (None, 2)), (1, (m, 1)), (1, (None, 1))):
            self.trace.set_back(self.stations[station], ids)
            self.stays()
        for has_mme_id, has_enb_id in ((True, True), (True, False), (False, True)):
            ids = self.phone.m if has_mme_id else None, 1 if has_enb_id else None
            self.trace.set_back(self.stations[0], (None, None), ids)
            self.is_over()
            self.phone.is_gone()
            self.phone.asks_for_service(self.stations[0], 1)
            self.phone.context_is_set_up()
            self.assertEqual(self.trace.news(), [(0, self.end(0, 1))])
        self.trace.set_back(self.stations[1])
        self.stays()
        self.trace.set_back(self.stations[0])
        self.is_over()

    def test_two_under_one_id(self):
        """A station may give two phones one eNB UE S1AP ID: a reset by it means both."""
        self.attached()
        self.other.attaches(self.stations[0], 1)
        self.assertEqual(self.trace.news(), [(1, self.end(0, 1))])
        self.trace.set_back(self.stations[0], (None, 1))
        self.assertEqual(sorted(self.trace.news()), [(0, None), (1, None)])

    def test_set_up_again(self):
        """Whether it is taken or not."""
        self.attached()
        self.trace.set_up(self.stations[1], connects=False)
        self.stays()
        self.trace.set_up(self.stations[0], connects=False)
        self.is_over()
        self.phone.is_gone()
        self.phone.asks_for_service(self.stations[0], 1)
        self.phone.context_is_set_up()
        self.trace.news()
        self.trace.hear(self.stations[0], b"")
        self.trace.owe("e0", self.stations[0], lte.s1ap(lte.UNSUCCESSFUL, 17, lte.REJECT, (lte.IGNORE, lte.cause(UNKNOWN_PLMN))))
        self.is_over()

    def test_lost(self):
        """With what came before; what is said for its phones in that batch makes nothing that stays."""
        self.attached()
        self.trace.lose(self.stations[1])
        self.stays()
        with self.trace.together():
            self.other.attaches(self.stations[0], 3)
            self.trace.lose(self.stations[0])
        self.is_over()
        self.trace.hear(self.stations[0], lte.context_setup_response(self.stations[0], self.other.m, 3))
        self.stays()

    def test_detach(self):
        self.attached()
        self.phone.detaches()
        self.is_over()
        self.phone.attaches(self.stations[1], 2)
        self.assertEqual(self.trace.news(), [(0, self.end(1, 2))])

    def test_elsewhere(self):
        """A first message elsewhere: the old connection is released, and one under the same ids ends without a word."""
        self.attached()
        self.phone.asks_to_attach(self.stations[1], 2)
        self.is_over()
        self.phone.authenticates()
        self.phone.completes_security()
        self.phone.context_is_set_up()
        self.assertEqual(self.trace.news(), [(0, self.end(1, 2))])
        self.phone.completes_attach()
        self.phone.asks_to_attach(self.stations[1], 2)
        self.is_over()

    def test_update_under_the_same_ids(self):
        """Its connection is another one, which has no context."""
        self.attached()
        self.phone.updates_from_idle(self.stations[0], 1)
        self.is_over()
        self.trace.hear(self.stations[0], lte.context_setup_response(self.stations[0], self.phone.m, 1))
        self.stays()

    def refused(self, nas, *answers):
        """A first message of the phone's name, which is answered beside its connection."""
        aside = lte.id_of_slot(0, self.phone.associations + 1)
        self.trace.hear(self.stations[1], lte.initial_ue_message(self.trace.network, self.stations[1], 9, nas))
        for answer in answers:
            self.trace.owe("s0", self.stations[1], lte.downlink_nas(aside, 9, answer))
        self.trace.owe("s0", self.stations[1], lte.release_command(aside, 9, lte.NORMAL_RELEASE))

    def test_aside(self):
        """The MME is asked whether the connection stays."""
        self.attached()
        self.refused(b"\xc7\0\0\0", b"\x07\x4e\x09")
        self.stays()
        self.assertEqual(self.trace.asked, [0])
        self.trace.bearers.note(0, REGISTERED)
        self.stays()
        self.trace.bearers.note(0, REGISTERED_IDLE)
        self.is_over()

    def test_aside_and_another(self):
        """A refusal beside it doesn't hide that the phone began another connection in the same batch."""
        self.attached()
        with self.trace.together():
            self.phone.asks_to_attach(self.stations[0], 1)
            self.refused(b"\xc7\0\0\0", b"\x07\x4e\x09")
        self.is_over()

    def test_stranger(self):
        """A phone that turned out to be a subscriber keeps a stranger's id."""
        m = s1ap_id = (1 << 31) + 4
        hear, owe = self.trace.hear, self.trace.owe
        hear(self.stations[0], b"")
        owe("s0", self.stations[0], lte.context_setup_request(self.trace.network, m, 4, self.phone, bytes(32)))
        hear(self.stations[0], lte.context_setup_response(self.stations[0], m, 4))
        self.assertEqual(self.trace.news(), [(0, self.end(0, 4))])
        owe_to = lambda octets: (hear(self.stations[0], b""), owe("x0.4", self.stations[0], octets))
        owe_to(lte.downlink_nas(s1ap_id + 1, 5, lte.IDENTITY_REQUEST))
        self.trace.flush()
        self.assertEqual(self.trace.asked, [])
        owe_to(lte.downlink_nas(m, 4, lte.IDENTITY_REQUEST))
        self.trace.flush()
        self.assertEqual(self.trace.asked, [0])
        hear(self.stations[0], b"")
        owe("s1", self.stations[0], lte.context_setup_request(self.trace.network, m, 4, self.other, bytes(32)))
        self.assertEqual(self.trace.news(), [(0, None)])
        hear(self.stations[0], lte.context_setup_response(self.stations[0], m, 4))
        self.assertEqual(self.trace.news(), [(1, self.end(0, 4))])

    def test_release_request(self):
        """The message that the front says for a station is the standard's."""
        for m, b in ((1, 1), (0x10001, 300), ((1 << 31) + 5, 1 << 23), (0, 0)):
            self.assertEqual(bearers.release_request(m, b), lte.release_request(m, b, TRANSPORT))


class Guest:
    """One at the control socket who doesn't read, or reads all."""

    def __init__(self, reads=True):
        self.reads, self.is_open, self.size, self.said = reads, True, 0, []

    @property
    def got(self):
        return b"".join(self.said)

    def say(self, octets):
        self.said.append(octets)
        self.size += 0 if self.reads else len(octets)

    def wait(self):
        pass

    def close(self):
        self.is_open = False


class Following(unittest.TestCase):
    """What followers are told, without a front."""

    def made(self, count):
        front = unittest.mock.Mock()
        front.head.imsis = ["%015d" % slot for slot in range(count)]
        front.head.subscribers = ["sub %015d 0a2d%04x 0a000064 %08x" % (slot, slot, slot + 1) for slot in range(count)]
        front.acts = []
        front.aside.do = front.acts.append
        front.loop.after = lambda seconds, act: front.acts.append(act)
        return front, followers.Followers(front)

    @staticmethod
    def has_tunnel(made, slot, end):
        made.bearers.connections.put(slot, bearers.Connection(0, slot, slot, end))
        made.tell(slot, end)

    def turn(self, front):
        acts, front.acts[:] = list(front.acts), []
        for act in acts:
            act()

    def test_pieces(self):
        """What changes while a follower is told is told once, where it fits."""
        front, made = self.made(1200)
        self.has_tunnel(made, 3, ("192.0.2.1", 7))
        guest = Guest()
        made.follow(guest)
        self.turn(front)
        self.has_tunnel(made, 2, ("192.0.2.1", 8))
        self.has_tunnel(made, 1100, ("192.0.2.1", 9))
        self.turn(front)
        self.turn(front)
        lines = guest.got.decode().splitlines()
        self.assertEqual([line for line in lines if not line.startswith("sub")], [
            "up %015d 192.0.2.1 7" % 3, "up %015d 192.0.2.1 8" % 2, "up %015d 192.0.2.1 9" % 1100, "now"])
        self.assertEqual(lines[:500], front.head.subscribers[:500])
        self.assertEqual([line for line in lines if line.startswith("sub")], front.head.subscribers)
        made.bearers.connections.remove(3)
        made.tell(3, None)
        made.end()
        self.assertEqual(guest.got.decode().splitlines()[-2:], ["down %015d" % 3, "end"])

    def test_further(self):
        """Subscribers that are given later are told without another `now`."""
        front, made = self.made(2)
        guest = Guest()
        made.follow(guest)
        self.turn(front)
        front.head.imsis.append("9" * 15)
        front.head.subscribers.append("sub %s 0a2d0009 0a000064 00000009" % ("9" * 15))
        later = Guest()
        made.follow(later)
        self.turn(front)
        for each in (guest, later):
            self.assertEqual(each.got.decode().splitlines()[2:], ["now"])
        made.lengthen()
        self.turn(front)
        for each in (guest, later):
            self.assertEqual(each.got.decode().splitlines()[2:], ["now", front.head.subscribers[2]])

    def test_who_does_not_read(self):
        """Is told no more than fits, and is cut off; another one hears all the same."""
        front, made = self.made(32768)
        deaf, guest = Guest(reads=False), Guest()
        made.follow(deaf)
        made.follow(guest)
        for _ in range(200):
            self.turn(front)
        self.assertLess(deaf.size, limits.MOST_FOLLOWED // 2)
        self.assertNotIn(b"now", deaf.got)
        self.assertIn(b"now", guest.got)
        for number in range(200000):
            slot = number % 1000
            self.has_tunnel(made, slot, ("192.0.2.1", number))
        self.assertFalse(deaf.is_open)
        self.assertLess(deaf.size, limits.MOST_FOLLOWED + 1000)
        self.assertTrue(guest.is_open)


class Counted(phones.Trace):
    """A trace that knows how many answers are owed to each message."""

    def __init__(self):
        super().__init__()
        self.counts = []

    def hear(self, station, octets):
        self.counts.append([octets.hex(), 0])
        super().hear(station, octets)

    def owe(self, owner, station, octets):
        self.counts[-1][1] += 1
        super().owe(owner, station, octets)


class AtTheSocket(unittest.TestCase):
    """A front by TCP, with a program in the MME's place that answers by a table."""

    def setUp(self):
        self.trace = Counted()
        self.phone = phones.Phone(self.trace, 0, [phones.Vector.made("bearers %d" % n) for n in range(2)])
        self.station = phones.Station(0)
        head = phones.Trace()
        head.provision([self.phone])
        self.head = head.text()

    def running(self, more=(), head=None):
        """A front, and a station that said what the trace has."""
        folder = pathlib.Path(self.enterContext(tempfile.TemporaryDirectory()))
        program = folder / "by_table"
        program.write_text(BY_TABLE % json.dumps(self.table() | dict(more)))
        program.chmod(0o755)
        running = Running(self, folder=folder, program=program, head=head or self.head)
        return running, running.station()

    def table(self):
        """The answers to each message of the trace, in its order."""
        table, answers = {}, list(self.trace.answers)
        for line, count in self.trace.counts:
            table[line], answers = answers[:count], answers[count:]
        return table

    def test_follow(self):
        """A follower hears each change in its turn, and the end."""
        trace = self.trace
        trace.set_up(self.station)
        self.phone.attaches(self.station, 1)
        m = self.phone.m
        self.phone.is_released()
        release = bearers.release_request(m, 1)
        owed = "out s0 0 " + lte.release_command(m, 1, TRANSPORT).hex()
        running, station = self.running(more={release.hex(): [owed]})
        with socket.socket(socket.AF_UNIX) as asking:
            asking.settimeout(PATIENCE)
            asking.connect(str(running.control))
            asking.sendall(b"bearers\n")
            lines = asking.makefile("r")
            subscriber = self.head.splitlines()[1]
            self.assertEqual([lines.readline() for _ in range(2)], [subscriber + "\n", "now\n"])
            for line, count in trace.counts[:-2]:
                station.send(bytes.fromhex(line))
                for _ in range(count):
                    station.receive()
            self.assertEqual(lines.readline(), "up %s 192.168.0.0 1\n" % self.phone.imsi)
            self.assertEqual(running.asks("tunnel", self.phone.imsi), "tunnel %s 192.168.0.0 1\n" % self.phone.imsi)
            self.assertEqual(running.asks("phones").splitlines()[:-1], [
                "%s %s vectors_left=1 tunnel_address=192.168.0.0 tunnel_teid=1" % (self.phone.imsi, REGISTERED)])
            told = {"states": REGISTERED, "vectors_left": 1, "tunnel": {"address": "192.168.0.0", "teid": 1}}
            self.assertEqual(json.loads(running.asks("phones", "--json")), {self.phone.imsi: told})
            with socket.socket(socket.AF_UNIX) as late:
                late.settimeout(PATIENCE)
                late.connect(str(running.control))
                late.sendall(b"bearers\n")
                told = late.makefile("r")
                self.assertEqual([told.readline() for _ in range(3)],
                                 [subscriber + "\n", "up %s 192.168.0.0 1\n" % self.phone.imsi, "now\n"])
            self.check_release(running, lines, release)
            self.assertEqual(running.stop()[0], 0)
            self.assertEqual(lines.readline(), "end\n")
            self.assertEqual(lines.readline(), "")

    def check_release(self, running, lines, release):
        """The gateway's word: a release that stands in the log as the station's, with who asked for it; of that tunnel alone."""
        def said(*words):
            with socket.socket(socket.AF_UNIX) as asking:
                asking.settimeout(PATIENCE)
                asking.connect(str(running.control))
                asking.sendall(" ".join(words).encode() + b"\n")
                return asking.makefile("r").readline()
        imsi = self.phone.imsi
        for place in (("192.168.0.0", "2"), ("192.168.0.1", "1")):
            self.assertEqual(said("release", imsi, *place), "refused: the tunnel of %s doesn't lead there\n" % imsi)
        self.assertEqual(said("release", "001010000000009", "192.168.0.0", "1"), "refused 5: nobody has this IMSI\n")
        self.assertEqual(said("release", imsi), "fault release has 3 fields, not 1\n")
        self.assertEqual(said("release", imsi, "192.168.0.0", "1"), "taken\n")
        self.assertEqual(lines.readline(), "down %s\n" % imsi)
        text = running.log.read_text()
        self.assertIn("\n# the gateway has a phone released, whose station doesn't know its tunnel: %s\nin 0 %s\n" % (
            imsi, release.hex()), text)
        self.assertEqual(running.asks("tunnel", imsi), "tunnel %s -\n" % imsi)
        self.assertEqual(running.asks("phones").splitlines()[:-1], ["%s %s vectors_left=1" % (imsi, REGISTERED)])

    def test_who_does_not_read(self):
        """A follower of 32,768 subscribers that reads nothing: a station is answered as before."""
        more = "".join("sub %015d 0a%06x 0a000064 %08x\n" % (2 + slot, 100 + slot, 100 + slot) for slot in range(32767))
        running, station = self.running(more={"77": ["out e0 0 78"]}, head=self.head.splitlines()[0] + "\n" + more)
        deaf = [socket.socket(socket.AF_UNIX) for _ in range(4)]
        for asking in deaf:
            self.addCleanup(asking.close)
            asking.connect(str(running.control))
            asking.sendall(b"bearers\n")
        begun = time.monotonic()
        for _ in range(100):
            self.assertEqual(station.says(b"\x77"), b"\x78")
        self.assertLess(time.monotonic() - begun, PATIENCE)
        self.assertEqual(running.asks("health"), "serves\n")
        self.assertEqual(running.stop()[0], 0)


if __name__ == "__main__":
    unittest.main()
