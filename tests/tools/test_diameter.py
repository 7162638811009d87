"""Diameter's octets and connections in tools/diameter: against a second writer and reader (hss.py), and 10,000 messages with
octets changed, each of which is answered, dropped and counted, or ends the connection, as RFC 6733 has it."""
import collections
import importlib
import ipaddress
import pathlib
import random
import re
import struct
import types
import unittest
import unittest.mock

from tests.tools import hss
from tests.tools.hss import (AIR, CER, CLR, DPR, DSR, DWR, E, IDR, P, PUR, R, REALM, RESULT, RSR, S6A, SESSION, T, ULR, USER_NAME,
                             VENDOR, Hss, Subscriber, avp)
from tests.tools.sourced import Running
from tests.tools.test_s6a import IMSI, MME, NOBODY, WORDS, air, until

AVPS, CLIENT, MESSAGES, ORDERS, PEER, PROCEDURES = (
    importlib.import_module("tools.diameter." + name) for name in ("avps", "client", "messages", "orders", "peer", "procedures"))
LOOP = importlib.import_module("tools.fronting.loop")
MUTATED = 10000
WIRESHARK = pathlib.Path("/usr/share/wireshark/diameter")


class Octets(unittest.TestCase):
    def test_by_hand(self):
        """RFC 6733 clause 4.1: code, flags, length without padding, vendor, data; an address has its family before it."""
        for pair, wanted in (
                ((AVPS.USER_NAME, IMSI), "00000001" "40" "000017" "303031303130303030303030303031" "00"),
                ((AVPS.RESULT_CODE, 2001), "0000010c" "40" "00000c" "000007d1"),
                ((AVPS.PRODUCT_NAME, "abc"), "0000010d" "00" "00000b" "616263" "00"),
                ((AVPS.VISITED_PLMN_ID, bytes.fromhex("00f110")), "0000057f" "c0" "00000f" "000028af" "00f110" "00"),
                ((AVPS.CLR_FLAGS, 1), "00000666" "80" "000010" "000028af" "00000001"),
                ((AVPS.HOST_IP_ADDRESS, ipaddress.ip_address("192.0.2.1")), "00000101" "40" "00000e" "0001c0000201" "0000"),
                ((AVPS.HOST_IP_ADDRESS, ipaddress.ip_address("::1")), "00000101" "40" "00001a" "0002" + "0" * 31 + "1" "0000"),
                ((AVPS.EXPERIMENTAL_RESULT, [(AVPS.VENDOR_ID, 10415), (AVPS.EXPERIMENTAL_RESULT_CODE, 5001)]),
                 "00000129" "40" "000020" "0000010a" "40" "00000c" "000028af" "0000012a" "40" "00000c" "00001389")):
            with self.subTest(name=pair[0].name):
                self.assertEqual(AVPS.written([pair]).hex(), wanted)
        header = MESSAGES.Header(R | P, AIR, S6A, 0x01020304, 0x05060708)
        self.assertEqual(MESSAGES.written(header, []).hex(), "01000014" "c000013e" "01000023" "01020304" "05060708")

    def test_definitions(self):
        """Each is known by its code and vendor once, and written as the second writer has it."""
        found = [one for one in vars(AVPS).values() if isinstance(one, AVPS.Definition)]
        self.assertEqual(len(AVPS.KNOWN), len(found))
        for one in found:
            value, data = {AVPS.Kind.NUMBER: (7, 7), AVPS.Kind.TEXT: ("é", "é"), AVPS.Kind.OCTETS: (b"abcde", b"abcde"),
                           AVPS.Kind.GROUP: ([(AVPS.ITEM_NUMBER, 3)], avp(1419, 3, VENDOR)),
                           AVPS.Kind.ADDRESS: (ipaddress.ip_address("127.0.0.1"), b"\0\1\x7f\0\0\1")}[one.kind]
            octets = AVPS.written([(one, value)])
            self.assertEqual(octets, avp(one.code, data, one.vendor, 0x40 if one.is_mandatory else 0))
            [read] = AVPS.read(octets)
            self.assertIs(read.definition, one)
            self.assertEqual(AVPS.example(one)[:4], octets[:4])

    @unittest.skipUnless(WIRESHARK.is_dir(), "no dictionary of Wireshark")
    def test_wireshark(self):
        """Each has the name, the code and the vendor that Wireshark knows."""
        known = set()
        for path in WIRESHARK.glob("*.xml"):
            for words in re.findall(r"<avp\s+([^>]*)>", path.read_text(encoding="latin-1")):
                word = dict(re.findall(r'([\w-]+)="([^"]*)"', words))
                known.add((word["name"], int(word["code"], 0), VENDOR if word.get("vendor-id") == "TGPP" else 0))
        for one in AVPS.KNOWN.values():
            self.assertIn((one.name, one.code, one.vendor), known)

    def test_faults(self):
        """Which Result-Code an AVP that can't be read has (RFC 6733 clause 7.1.5), and what goes back of it."""
        nested = avp(1414, b"", VENDOR)
        for _ in range(12):
            nested = avp(1413, nested, VENDOR)
        for octets, result, failed in (
                (b"\0\0\0", 5014, b""), (avp(USER_NAME, IMSI)[:10], 5014, bytes.fromhex("0000000140000008")),
                (struct.pack(">II", 1, 0x40000004), 5014, bytes.fromhex("0000000140000008")),
                (struct.pack(">III", 1407, 0xC0000FFF, VENDOR), 5014, bytes.fromhex("0000057fc000000c000028af")),
                (avp(RESULT, b"\0\0\1"), 5014, avp(RESULT, b"\0\0\1")), (avp(USER_NAME, b"\xff"), 5004, avp(USER_NAME, b"\xff")),
                (avp(1413, avp(1419, b"", VENDOR), VENDOR), 5014, avp(1419, b"", VENDOR)), (nested, 5004, None)):
            with self.subTest(octets=octets[:16].hex()):
                with self.assertRaises(AVPS.Malformed) as caught:
                    AVPS.read(avp(SESSION, "s") + octets)
                self.assertEqual(caught.exception.result, result)
                if failed is not None:
                    self.assertEqual(caught.exception.failed, failed)

    def test_frames(self):
        """Messages come in whatever pieces; a length that can't be, and another version, end it."""
        good = [hss.message(R, DWR, 0, (at, at), avp(SESSION, "x" * at)) for at in range(9)]
        for step in (1, 3, 20, 1000):
            buffer, found = bytearray(), []
            for at in range(0, sum(map(len, good)), step):
                buffer += b"".join(good)[at:at + step]
                more, why = MESSAGES.taken(buffer)
                found += more
                self.assertIsNone(why)
            self.assertEqual((found, buffer), (good, b""))
        for bad, told in ((b"\x02\0\0\x14", "version 2"), (b"\x01\0\0\x10", "a length of 16"), (b"\x01\0\0\x16", "a length of 22"),
                          (b"\x01\xff\xff\xfc", "a length of 16777212")):
            found, why = MESSAGES.taken(bytearray(good[0] + bad))
            self.assertEqual(found, good[:1])
            self.assertIn(told, why)


class Wire:
    """In a connection's place: what is sent stays here."""

    def __init__(self, _loop, opened, heard, lost):
        self.opened, self.heard, self.lost, self.sent, self.is_closed = opened, heard, lost, [], False

    def begin(self, *_):
        pass

    def own_address(self):
        return "127.0.0.1"

    def put(self, octets):
        self.sent.append(octets)

    def close(self):
        self.is_closed = True


class Lines:
    """In the place of standard output: it takes lines at once."""

    is_full = False

    def __init__(self):
        self.texts = []

    def put(self, text, then):
        self.texts.append(text)
        then()


class Connected:
    """A client with a peer that is connected, and a request under way."""

    def __init__(self):
        settings = types.SimpleNamespace(host=MME, realm=REALM, hss=None, hss_realm=None, source=None, watchdog=30.0,
                                         peers=[(ipaddress.ip_address("127.0.0.1"), 3868)])
        self.loop, self.said, self.answers = LOOP.Loop(), [], []
        self.client = CLIENT.Client(self.loop, settings, Wire, self.said.append)
        self.output = Lines()
        self.client.asked = ORDERS.Orders(self.client.node, self.output, set()).take
        [self.peer] = self.client.peers
        self.counts = collections.Counter()
        self.connect()

    def connect(self):
        """A connection anew."""
        if self.peer.timer is not None:
            self.peer.timer.cancel()
        self.peer.was_gone = False
        self.peer.connect()
        self.wire = self.peer.link
        self.wire.opened()
        hop, end = struct.unpack_from(">II", self.wire.sent.pop(), 12)
        body = avp(RESULT, 2001) + avp(hss.HOST, "hss." + REALM) + avp(258, S6A)
        self.wire.heard(hss.message(0, CER, 0, (hop, end), body))
        assert self.peer.phase is PEER.Phase.OKAY

    def ask(self):
        """A request, and its numbers."""
        self.answers.clear()
        for asked in [*self.client.under_way.values(), *self.client.waiting]:
            asked.timer.cancel()
        self.client.under_way.clear()
        self.client.waiting.clear()
        self.client.ask(*PROCEDURES.of_vectors(IMSI, 1, b"\x00\xf1\x10", b""), 1000,
                        lambda answer, why: self.answers.append((answer, why)))
        return struct.unpack_from(">II", self.wire.sent.pop(), 12)

    def has_dropped(self):
        """How much was dropped on this connection."""
        return sum(self.peer.counts.values())


def good_messages(numbers):
    """One of each kind that a peer sends; answers have the numbers of the request under way."""
    identity = avp(hss.HOST, "hss." + REALM) + avp(hss.REALM_OF, REALM)
    head = (avp(SESSION, "hss;1;2") + avp(260, avp(266, VENDOR) + avp(258, S6A)) + avp(277, 1) + identity
            + avp(hss.DEST_HOST, MME) + avp(hss.DEST_REALM, REALM))
    vectors = avp(1413, b"".join(avp(1414, avp(1419, at, VENDOR) + avp(1447, bytes(16), VENDOR) + avp(1448, bytes(8), VENDOR)
                                     + avp(1449, hss.QUICK[0], VENDOR) + avp(1450, bytes(32), VENDOR), VENDOR)
                                 for at in (2, 1)), VENDOR)
    named = head + avp(USER_NAME, IMSI)
    for flags, code, application, body in (
            (P, AIR, S6A, avp(RESULT, 2001) + identity + vectors), (P | E, AIR, S6A, avp(RESULT, 3002) + identity),
            (P, AIR, S6A, avp(297, avp(266, VENDOR) + avp(298, 5001)) + identity), (P, ULR, S6A, avp(RESULT, 2001) + identity),
            (0, DWR, 0, avp(RESULT, 2001) + identity), (P, PUR, S6A, avp(RESULT, 2001)), (R, DWR, 0, identity),
            (R | P, CLR, S6A, named + avp(1420, 2, VENDOR) + avp(1638, 1, VENDOR, flags=0)),
            (R | P | T, CLR, S6A, named + avp(1420, 0, VENDOR) + avp(284, avp(280, "a") + avp(33, b"1"))),
            (R | P, IDR, S6A, named + avp(1400, avp(1424, 0, VENDOR), VENDOR)), (R | P, DSR, S6A, named + avp(1421, 1, VENDOR)),
            (R | P, RSR, S6A, head + avp(1444, "00101", VENDOR, flags=0)), (R | P, 999, S6A, named),
            (R | P, CLR, 4, named), (R, DPR, 0, identity + avp(273, 0)), (R, CER, 0, identity)):
        yield hss.message(flags, code, application, numbers, body)


def mutated(octets, chance):
    """A message with some octets changed; now and then shorter or longer, mostly with the length in its header right."""
    made = bytearray(octets)
    for _ in range(chance.randint(1, 4)):
        at = chance.randrange(4 if chance.random() < 0.3 else hss.HEADER, len(made))
        made[at] = chance.choice((0, 255, chance.randrange(256), made[at] ^ 1 << chance.randrange(8)))
    if chance.random() < 0.2:
        del made[chance.randrange(hss.HEADER, len(made)) // 4 * 4:]
    elif chance.random() < 0.1:
        made += chance.randbytes(4 * chance.randint(1, 30))
    made[1:4] = len(made).to_bytes(3, "big")
    if chance.random() < 0.05:
        made[chance.randrange(4)] ^= 1 << chance.randrange(8)
    return bytes(made)


class First(unittest.TestCase):
    """What comes before Capabilities-Exchange-Answer (RFC 6733 clause 5.6): nothing else, and not too late."""

    def begun(self):
        """A client that has said who it is."""
        connected = Connected()
        connected.peer.drop("the next one")
        connected.peer.timer.cancel()
        connected.peer.connect()
        wire = connected.peer.link
        wire.opened()
        return connected, wire, struct.unpack_from(">II", wire.sent.pop(), 12)

    def test_others(self):
        answer = avp(RESULT, 2001) + avp(258, S6A)
        for flags, code, more, body, told in (
                (R, DWR, 0, b"", "a request"), (0, DWR, 0, answer, "an answer"), (0, CER, 1, answer, "an answer"),
                (0, CER, 0, bytes(4), "a message that can't be read")):
            connected, wire, (hop, end) = self.begun()
            wire.heard(hss.message(flags, code, 0, ((hop + more) % (1 << 32), end), body))
            self.assertTrue(wire.is_closed)
            self.assertIn("lost: %s before Capabilities-Exchange-Answer" % told, connected.said[-1])
            self.assertEqual(wire.sent, [])

    def test_nothing(self):
        connected, wire, _ = self.begun()
        connected.peer.timer.act()
        self.assertTrue(wire.is_closed)
        self.assertIn("lost: no Capabilities-Exchange-Answer within 5 s", connected.said[-1])
        self.assertIs(connected.peer.phase, PEER.Phase.CLOSED)


class Again(unittest.TestCase):
    def test_orders(self):
        """An order that comes again within four minutes isn't done twice; later it is another one that has its number."""
        connected, now = Connected(), [1000.0]
        cancel = next(octets for octets in good_messages((9, 9)) if hss.read(octets).code == CLR)
        with unittest.mock.patch.object(ORDERS.time, "monotonic", lambda: now[0]):
            for seconds, count in ((0, 1), (230, 1), (20, 2), (230, 2), (0, 2), (11, 3)):
                now[0] += seconds
                connected.wire.heard(cancel)
                self.assertEqual(connected.output.texts, ["cancel %s\n" % IMSI] * count)
                self.assertEqual(hss.read(connected.wire.sent.pop()).avps[RESULT, 0], [(2001).to_bytes(4, "big")])
        self.assertEqual(connected.wire.sent, [])

    def test_not_written(self):
        """One that comes again before its line is written isn't done twice; both are answered once it is."""
        connected, written = Connected(), []
        cancel = next(octets for octets in good_messages((9, 9)) if hss.read(octets).code == CLR)
        connected.output.put = lambda text, then: written.append((text, then))
        for _ in range(2):
            connected.wire.heard(cancel)
        self.assertEqual(connected.wire.sent, [])
        [(text, then)] = written
        then()
        self.assertEqual((text, len(connected.wire.sent)), ("cancel %s\n" % IMSI, 2))


class Mutated(unittest.TestCase):
    def test_in_place(self):
        """Ten thousand: a request is answered once, under its own numbers; an answer that is none is dropped and counted, with the
        request under way as it was or told to be without an answer; the connection ends where no further message could be found,
        and at Disconnect-Peer-Request; and a good request is answered after each."""
        chance, connected = random.Random(29272), Connected()
        for place in range(MUTATED):
            numbers = connected.ask()
            octets = mutated(chance.choice(list(good_messages(numbers))), chance)
            wire, before, said = connected.wire, connected.has_dropped(), len(connected.output.texts)
            try:
                wire.heard(octets)
                self.check(connected, octets, before)
                for text in connected.output.texts[said:]:
                    self.assertRegex(text, r"\A(cancel [0-9]{14,15}\n|(reset( [0-9]{1,15})?\n)+)\Z")
            except Exception as fault:
                raise AssertionError("message %d, %s" % (place, octets.hex())) from fault
            if wire.is_closed or connected.peer.buffer:
                connected.peer.drop("the next one")
                connected.connect()
            self.check_alive(connected)
        self.assertGreater(min(connected.counts.values()), 50, connected.counts)
        self.assertEqual(sum(connected.counts.values()), MUTATED)

    def check_alive(self, connected):
        """A watchdog is answered."""
        connected.wire.sent.clear()
        connected.wire.heard(hss.message(R, DWR, 0, (7, 8), avp(hss.HOST, "hss." + REALM)))
        [answer] = connected.wire.sent
        self.assertEqual(hss.read(answer).avps[RESULT, 0], [(2001).to_bytes(4, "big")])
        connected.wire.sent.clear()

    def check(self, connected, octets, dropped_before):
        """What became of a message, by what its header says."""
        wire, length = connected.wire, int.from_bytes(octets[1:4], "big")
        if octets[0] != 1 or length < 20 or length % 4 or length > 1 << 20:
            connected.counts["no frame"] += 1
            self.assertTrue(wire.is_closed)
            return
        if length != len(octets):
            connected.counts["another length"] += 1  # which is another message, or the beginning of one
            return
        _, word, application, *numbers = struct.unpack_from(">IIIII", octets)
        flags, code = word >> 24, word & 0xFFFFFF
        dropped = connected.has_dropped() - dropped_before
        if flags & R:
            self.check_answered(connected, (flags, code, application, numbers))
            return
        connected.counts["an answer that is none" if dropped else "an answer"] += 1
        self.assertEqual((wire.sent, wire.is_closed), ([], False))
        is_own = connected.answers != []
        if is_own:
            [(answer, why)] = connected.answers
            self.assertEqual(code, AIR)
            self.assertEqual((answer is None, dropped), (why is not None, int(why is not None)))
            self.check_vectors(answer)
        elif code != DWR:
            self.assertEqual(dropped, 1)

    def check_answered(self, connected, asked):
        """A request has one answer, with its numbers and, of the protocol's results, the E bit."""
        flags, code, application, numbers = asked
        wire = connected.wire
        connected.counts["a request"] += 1
        [answer] = wire.sent
        got = hss.read(answer)
        self.assertEqual((got.code, got.application, [got.hop, got.end]), (code, application, numbers))
        self.assertEqual(got.flags & (R | P | T), flags & P)
        results = got.avps.get((RESULT, 0))
        self.assertEqual(bool(got.flags & E), bool(results) and results[0][:3] in (b"\0\0\x0b", b"\0\0\x0c") and
                         3000 <= int.from_bytes(results[0], "big") < 4000)
        is_parting = (code, application, flags & E) == (DPR, 0, 0) and results == [(2001).to_bytes(4, "big")]
        self.assertEqual(wire.is_closed, is_parting)

    def check_vectors(self, answer):
        """Vectors of an answer are whole, or there are none."""
        if answer is not None:
            try:
                found = PROCEDURES.vectors_of(answer)
            except PROCEDURES.NoSuccess as fault:
                self.assertIn(fault.word, ("unknown", "later"))
            else:
                for vector in found:
                    self.assertEqual([len(part) for part in (vector.rand, vector.autn, vector.kasme)], [16, 16, 32])

    def test_over_a_connection(self):
        """A peer that sends such messages is connected to again each time, and the source goes on; its words don't pile up."""
        chance, home = random.Random(6733), Hss({IMSI: Subscriber(None)})
        self.addCleanup(home.close)
        source = Running(self, "s6a", "127.0.0.1:%d" % home.port, *WORDS, "--answer-seconds", "20")
        for _ in range(3):
            until(lambda: home.connections)
            connection = home.connections[-1]
            source.answers(air(NOBODY))
            for _ in range(200):
                octets = mutated(chance.choice(list(good_messages((1, 2)))[:12]), chance)
                if octets[0] == 1 and int.from_bytes(octets[1:4], "big") == len(octets):
                    home.send(connection, octets)
            source.say("gone " + IMSI)
            while source.line() != "gone " + IMSI:
                pass  # (orders that are still as they should be)
            home.send(connection, b"\x02" + bytes(19))
            until(lambda connection=connection: connection not in home.connections)
        source.until_said("lost: a message of version 2; ")
        self.assertLess(source.said().count("\n"), 40)
        self.assertIsNone(source.process.poll())


if __name__ == "__main__":
    unittest.main()
