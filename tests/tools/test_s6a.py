"""tools/s6a with an HSS that speaks Diameter by code of its own (hss.py), over TCP: what is asked and what comes of each answer,
what the HSS orders, peers that fall silent, end or refuse, readers and requests that are no good; and tshark as a second reader."""
import contextlib
import importlib
import io
import os
import shutil
import signal
import subprocess
import threading
import time
import unittest

from tests.tools import hss, tools
from tests.tools.card import SYNCH_FAILURE, Card
from tests.tools.hss import (AIR, CER, CLR, DEST_HOST, DEST_REALM, DPR, DSR, DWR, E, EXPERIMENTAL, FAILED, HOST, IDR, P, PUR, R,
                             REALM, RESULT, RSR, S6A, SESSION, T, ULR, USER_NAME, VENDOR, Hss, Subscriber, avp, avps_of)
from tests.tools.sourced import Running, vector

COMMAND = importlib.import_module("tools.diameter.command")
IMSI, OTHER, NOBODY = "001010000000001", "001010000000002", "001010000000009"
MME = "mme1." + REALM
WORDS = ("--host", MME, "--realm", REALM, "--plmn", "001", "01")
K, OPC = bytes.fromhex("465b5ce8b199b49faa5f0a2ee238a6bc"), bytes.fromhex("cd63cb71954a9f4e48a5994e37a02baf")
RESULTS = {"unsupported": 3001, "undeliverable": 3002, "realm": 3003, "busy": 3004, "application": 3007, "header": 3008,
           "avp": 5001, "value": 5004, "missing": 5005, "unable": 5012}


def number(data):
    return int.from_bytes(data, "big")


def result(got):
    """The Result-Code of an answer, or its code of 3GPP with its vendor."""
    if got.avps[EXPERIMENTAL, 0]:
        inner = avps_of(got.avps[EXPERIMENTAL, 0][0])
        return number(inner[266, 0][0]), number(inner[298, 0][0])
    return number(got.avps[RESULT, 0][0])


def until(holds, seconds=60):
    end = time.monotonic() + seconds
    while not holds():
        assert time.monotonic() < end, "not within %g s" % seconds
        time.sleep(0.005)


def air(imsi, count=1, network="001 01", more=""):
    return "vectors %s %d %s%s" % (imsi, count, network, more)


class Asking(unittest.TestCase):
    def setUp(self):
        self.card = Card(K, OPC)
        self.subscribers = {IMSI: Subscriber(self.card)}

    def hss(self, **named):
        made = Hss(self.subscribers, **named)
        self.addCleanup(made.close)
        return made

    def source(self, *homes, words=()):
        """A source that is connected to these."""
        running = Running(self, "s6a", *("127.0.0.1:%d" % home.port for home in homes), *WORDS, *words)
        for home in homes:
            running.until_said("127.0.0.1:%d: connected to %s" % (home.port, home.host))
        return running


class Answers(Asking):
    def test_vectors(self):
        """A SIM takes all vectors in the order in which they come; XRES and KASME are those of a second Milenage, for the network
        that was asked for; the HSS is asked for five at a time, and again where it gives fewer."""
        home = self.hss()
        source = self.source(home)
        for count, most, network, octets, asked in ((12, 5, "001 01", "00f110", [5, 5, 2]), (3, 1, "310 410", "130014", [3, 2, 1])):
            self.subscribers[IMSI].most = most
            before = len(home.of(AIR))
            lines = source.answers(air(IMSI, count, network), count)
            self.assertEqual(len(lines), count)
            for line in lines:
                imsi, rand, autn, xres, kasme = vector(line)
                self.card.plmn = bytes.fromhex(octets)
                self.assertEqual((imsi, self.card.made(rand, self.card.sqn_of(rand, autn))), (IMSI, (autn, xres, kasme)))
                self.assertEqual(self.card.answer(rand, autn), ("res", xres))
            sqns = [self.card.sqn_of(*vector(line)[1:3]) for line in lines]
            self.assertEqual(sqns, sorted(sqns))
            requests = home.of(AIR)[before:]
            self.assertEqual([number(avps_of(got.avps[1408, VENDOR][0])[1410, VENDOR][0]) for got in requests], asked)
            self.assertEqual({got.avps[1407, VENDOR][0].hex() for got in requests}, {octets})
            self.assertEqual({got.flags for got in requests}, {R | P})
            self.assertEqual(len({got.avps[SESSION, 0][0] for got in requests}), len(asked))
            self.assertEqual(len({got.end for got in requests}), len(asked))
        self.assertEqual(source.finish(), ([], 0))
        self.assertEqual([got.code for got in home.got][-1], DPR)

    def test_meanings(self):
        """5001 and 5420 of 3GPP are nobody; 5001 of the base protocol and of others, all else and silence may pass."""
        by_result = (3001, 3002, 3004, 3005, 3006, 3010, 4001, 4002, 5001, 5003, 5005, 5012, 5420, 1001)
        by_3gpp = {5001: "unknown", 5420: "unknown", 4181: "later", 4182: "later", 5004: "later", 5421: "later", 5012: "later"}
        wanted = {}
        for place, code in enumerate(by_result):
            self.subscribers["00102%010d" % place] = Subscriber(self.card, fails=code)
            wanted["00102%010d" % place] = "later"
        for place, (code, word) in enumerate(by_3gpp.items()):
            self.subscribers["00103%010d" % place] = Subscriber(self.card, fails_by=code)
            wanted["00103%010d" % place] = word
        self.subscribers["001040000000001"] = Subscriber(self.card, fails_by=5001, vendor=9)
        wanted["001040000000001"] = "later"
        self.subscribers[OTHER] = Subscriber(self.card, is_mute=True)
        source = self.source(self.hss(), words=("--answer-seconds", "0.5"))
        for imsi, word in (wanted | {OTHER: "later", NOBODY: "unknown"}).items():
            for request in (air(imsi), "registered " + imsi, "gone " + imsi):
                self.assertEqual(source.answers(request), ["%s %s" % (word, imsi)], request)
        for text in ("says 5001 AVP_UNSUPPORTED", "the HSS says 5001 USER_UNKNOWN", "4181 AUTHENTICATION_DATA_UNAVAILABLE",
                     "IMSI %s: no answer in time" % OTHER):
            source.until_said(text)

    def test_what_an_hss_says(self):
        """Its words stand in one line, in which all can be seen."""
        self.subscribers[IMSI] = Subscriber(self.card, fails=5012, says="a\x1b[2J\x9b31m\nvec\r")
        source = self.source(self.hss())
        self.assertEqual(source.answers(air(IMSI)), ["later " + IMSI])
        source.until_said(r": a\x1b[2J\x9b31m\nvec\r")
        self.assertEqual([line for line in source.said().split("\n") if not line.isprintable()], [])

    def test_vectors_that_are_none(self):
        """Parts that are missing or of another length, an AMF that isn't for EPS, and no vector at all."""
        shapes = {"lacks": [lambda parts, place=place: parts[:place] + parts[place + 1:] for place in range(1, 5)],
                  "long": [lambda parts, place=place: [(code, data if at != place else data + bytes(16))
                                                       for at, (code, data) in enumerate(parts)] for place in range(1, 5)]}
        source = self.source(self.hss())
        for shape in shapes["lacks"] + shapes["long"]:
            self.subscribers[IMSI].shape = shape
            self.assertEqual(source.answers(air(IMSI)), ["later " + IMSI])
        source.until_said("a vector of the HSS lacks a part, or has one of another length")
        self.subscribers[IMSI] = Subscriber(self.card, amf=b"\x00\x00")
        self.assertEqual(source.answers(air(IMSI)), ["later " + IMSI])
        source.until_said("the AMF's separation bit is 0")
        self.subscribers[IMSI] = Subscriber(self.card, most=0)
        self.assertEqual(source.answers(air(IMSI)), ["later " + IMSI])
        source.until_said("the HSS says success, and has no vector")
        self.subscribers[IMSI] = Subscriber(self.card)
        self.assertTrue(source.answers(air(IMSI))[0].startswith("vec "))

    def test_resynchronization(self):
        """A SIM that is 2^20 ahead: the HSS is told RAND and AUTS once, and what comes then is taken. A wrong MAC-S may pass."""
        home = self.hss()
        source = self.source(home)
        [line] = source.answers(air(IMSI))
        self.card.highest = [1 << 20] * 32
        why, auts = self.card.answer(*vector(line)[1:3])
        self.assertEqual(why, SYNCH_FAILURE)
        told = vector(line)[1] + auts
        lines = source.answers(air(IMSI, 7, more=" %s %s" % (told[:16].hex(), auts.hex())), 7)
        self.assertEqual([avps_of(got.avps[1408, VENDOR][0])[1411, VENDOR] for got in home.of(AIR)[1:]], [[told], []])
        for one in lines:
            self.assertEqual(self.card.answer(*vector(one)[1:3])[0], "res")
        wrong = auts[:-1] + bytes([auts[-1] ^ 1])
        self.assertEqual(source.answers(air(IMSI, 1, more=" %s %s" % (told[:16].hex(), wrong.hex()))), ["later " + IMSI])

    def test_where_phones_are(self):
        home = self.hss()
        source = self.source(home)
        self.assertEqual(source.answers("registered " + IMSI), ["registered " + IMSI])
        self.assertEqual(self.subscribers[IMSI].mme, MME)
        [got] = home.of(ULR)
        self.assertEqual([number(got.avps[code, VENDOR][0]) for code in (1032, 1405)], [1004, 34])
        self.assertEqual(got.avps[1407, VENDOR][0].hex(), "00f110")
        self.assertEqual(source.answers("gone " + IMSI), ["gone " + IMSI])
        self.assertIsNone(self.subscribers[IMSI].mme)
        self.assertEqual(source.answers("registered " + NOBODY), ["unknown " + NOBODY])

    def test_destination(self):
        """The HSS's own name and realm, where they are given."""
        home = self.hss()
        source = self.source(home, words=("--hss", "hss9.example.org", "--hss-realm", "example.org"))
        source.answers(air(IMSI))
        [got] = home.of(AIR)
        self.assertEqual((got.avps[DEST_HOST, 0], got.avps[DEST_REALM, 0]), ([b"hss9.example.org"], [b"example.org"]))

    def test_many(self):
        """Five hundred IMSIs at once; and requests of one IMSI are answered in their order."""
        imsis = ["00101%010d" % number for number in range(1, 501)]
        self.subscribers |= {imsi: Subscriber(Card(K, OPC)) for imsi in imsis}
        source = self.source(self.hss(), words=("--answer-seconds", "60"))
        source.say(*[air(imsi, 2) for imsi in imsis])
        got = [vector(source.line()) for _ in range(1000)]
        self.assertEqual([one[0] for one in got[::2]], [one[0] for one in got[1::2]])
        self.assertEqual({one[0] for one in got}, set(imsis))
        source.say(*["registered " + IMSI, air(IMSI, 1), "gone " + IMSI] * 20)
        found = [source.line().split(" ")[0] for _ in range(60)]
        self.assertEqual(found, ["registered", "vec", "gone"] * 20)


class Orders(Asking):
    def setUp(self):
        super().setUp()
        self.home = self.hss()
        self.running = self.source(self.home)

    def order(self, code, *more, **named):
        return self.home.orders(code, self.home.head(named.pop("mme", MME), named.pop("realm", REALM)) + b"".join(more), **named)

    def cancel(self, *more, imsi=IMSI, kind=2, **named):
        return self.order(CLR, avp(USER_NAME, imsi), avp(1420, kind, VENDOR), *more, **named)

    def test_cancel(self):
        """Written and answered, whether or not the phone is here; again only answered; the session and the proxies come back."""
        self.running.answers("registered " + IMSI)
        for end, imsi in ((5000, IMSI), (5001, OTHER), (5000, IMSI)):
            got = self.cancel(avp(1638, 1, VENDOR, flags=0), avp(284, avp(280, "a") + avp(33, b"12")), imsi=imsi, end=end,
                              flags=R | P | (T if end == 5000 else 0))
            self.assertEqual((result(got), got.flags, got.end), (2001, P, end))
            self.assertEqual(got.avps[284, 0], [avp(280, "a") + avp(33, b"12")])
            self.assertTrue(got.avps[SESSION, 0][0].startswith(self.home.host.encode()))
        self.assertEqual([self.running.line(), self.running.line()], ["cancel " + IMSI, "cancel " + OTHER])
        self.assertEqual(self.running.answers(air(NOBODY)), ["unknown " + NOBODY])

    def test_cancel_again(self):
        """One that comes again after the phone has registered anew is only answered: the phone stays."""
        self.running.answers("registered " + IMSI)
        self.assertEqual(result(self.cancel(end=5000)), 2001)
        self.assertEqual(self.running.line(), "cancel " + IMSI)
        self.running.answers("registered " + IMSI)
        self.assertEqual(result(self.cancel(end=5000, flags=R | P | T)), 2001)
        self.assertEqual(result(self.order(IDR, avp(USER_NAME, IMSI), avp(1400, b"", VENDOR))), RESULTS["unable"])

    def test_what_is_refused(self):
        """By the Result-Code of RFC 6733 clause 7.1, with the E bit where it is of the protocol, and the AVP at fault."""
        kind, name = avp(1420, 2, VENDOR), avp(USER_NAME, IMSI)
        for case, got, wanted, failed in (
                ("another host", self.cancel(mme="mme9." + REALM), "undeliverable", None),
                ("another realm", self.cancel(realm="example.org"), "realm", None),
                ("another application", self.cancel(application=16777252), "application", None),
                ("application 0", self.cancel(application=0), "unsupported", None),
                ("no such command", self.order(999, name), "unsupported", None),
                ("a command of an HSS", self.order(AIR, name), "unsupported", None),
                ("the E bit", self.cancel(flags=R | P | E), "header", None),
                ("no IMSI", self.order(CLR, kind), "missing", avp(USER_NAME, b"")),
                ("no type", self.order(CLR, name), "missing", avp(1420, 0, VENDOR)),
                ("no session", self.home.orders(CLR, self.home.head(MME).partition(b"\x00\x00\x01\x04")[2].join(
                    [b"\x00\x00\x01\x04", name + kind])), "missing", avp(SESSION, b"")),
                ("a type that there isn't", self.cancel(kind=9), "value", avp(1420, 9, VENDOR)),
                ("an IMSI of letters", self.cancel(imsi="a\nb"), "value", avp(USER_NAME, "a\nb")),
                ("an AVP with M", self.cancel(avp(9999, b"abc", VENDOR)), "avp", avp(9999, b"abc", VENDOR)),
                ("an AVP without M", self.cancel(avp(9999, b"abc", VENDOR, flags=0)), None, None)):
            with self.subTest(case=case):
                self.assertEqual(result(got), RESULTS[wanted] if wanted else 2001)
                self.assertEqual(bool(got.flags & E), wanted is not None and RESULTS[wanted] // 1000 == 3)
                self.assertEqual(got.avps[FAILED, 0], [failed] if failed else [])
        self.assertEqual(self.running.line(), "cancel " + IMSI)
        self.assertEqual(self.running.answers(air(NOBODY)), ["unknown " + NOBODY])

    def test_data(self):
        """USER_UNKNOWN for a phone that isn't here; what is here has no data that could be changed."""
        for code, own in ((IDR, avp(1400, avp(1424, 0, VENDOR), VENDOR)), (DSR, avp(1421, 1, VENDOR))):
            self.assertEqual(result(self.order(code, avp(USER_NAME, IMSI), own)), (VENDOR, 5001))
            self.running.answers("registered " + IMSI)
            self.assertEqual(result(self.order(code, avp(USER_NAME, IMSI), own)), RESULTS["unable"])
            self.assertEqual(result(self.order(code, avp(USER_NAME, IMSI))), RESULTS["missing"])
            self.running.answers("gone " + IMSI)
            self.assertEqual(result(self.order(code, avp(USER_NAME, IMSI), own)), (VENDOR, 5001))
        self.running.answers("registered " + IMSI)
        self.cancel()
        self.assertEqual(self.running.line(), "cancel " + IMSI)
        self.assertEqual(result(self.order(IDR, avp(USER_NAME, IMSI), avp(1400, b"", VENDOR))), (VENDOR, 5001))

    def test_reset(self):
        self.assertEqual(result(self.order(RSR)), 2001)
        self.assertEqual(result(self.order(RSR, avp(1444, "00101", VENDOR, flags=0), avp(1444, "310", VENDOR, flags=0))), 2001)
        self.assertEqual([self.running.line() for _ in range(3)], ["reset", "reset 00101", "reset 310"])
        self.assertEqual(result(self.order(RSR, avp(1444, "x\n", VENDOR, flags=0))), RESULTS["value"])

    def test_watchdog(self):
        got = self.home.orders(DWR, self.home.identity(), flags=R, application=0)
        self.assertEqual((result(got), got.flags, got.avps[HOST, 0]), (2001, 0, [MME.encode()]))


class Peers(Asking):
    def asked_again(self, homes, source, end):
        """A request that the first peer doesn't answer goes to the second one with the T flag, and is otherwise the same."""
        homes[0].is_mute, before = True, len(homes[0].of(AIR))
        source.say(air(IMSI))
        until(lambda: len(homes[0].of(AIR)) > before)
        end()
        self.assertTrue(source.line().startswith("vec "))
        first, second = homes[0].of(AIR)[-1], homes[1].of(AIR)[-1]
        self.assertEqual((first.flags, second.flags), (R | P, R | P | T))
        self.assertEqual((first.end, first.octets[hss.HEADER:]), (second.end, second.octets[hss.HEADER:]))
        self.assertNotEqual(first.hop, second.hop)

    def test_first_is_killed(self):
        """What it was asked goes to the second one; once it is back and has answered three watchdogs, it is the first one again."""
        homes = self.hss(), self.hss(name="hss2")
        source = self.source(*homes, words=("--watchdog", "0.3"))
        self.assertTrue(source.answers(air(IMSI))[0].startswith("vec "))
        self.assertEqual([len(home.of(AIR)) for home in homes], [1, 0])
        self.asked_again(homes, source, homes[0].cut)
        homes[0].is_mute = False
        until(lambda: len(homes[0].of(CER)) == 2)
        source.answers(air(IMSI))
        until(lambda: len(homes[0].of(DWR)) >= 3)
        until(lambda: source.answers(air(IMSI)) and len(homes[0].of(AIR)) > 2)
        self.assertEqual(source.finish()[1], 0)
        self.assertEqual([home.got[-1].code for home in homes], [DPR, DPR])

    def test_first_falls_silent(self):
        """Its watchdog isn't answered: what it was asked goes to the second one, and a while later its connection ends."""
        homes = self.hss(), self.hss(name="hss2")
        source = self.source(*homes, words=("--watchdog", "0.3"))
        self.asked_again(homes, source, lambda: None)
        source.until_said("it hasn't answered a watchdog")
        source.until_said("lost: it answers no watchdog")
        until(lambda: not homes[0].connections)
        self.assertLess(homes[1].of(AIR)[-1].at, homes[0].ended_at)

    def test_silence_and_back(self):
        """A peer that answers late is one as any other again."""
        home = self.hss()
        source = self.source(home, words=("--watchdog", "0.4"))
        source.answers(air(IMSI))
        home.is_mute = True
        source.until_said("it hasn't answered a watchdog")
        home.is_mute = False
        self.home_says(home)
        self.assertTrue(source.answers(air(IMSI))[0].startswith("vec "))
        self.assertEqual(len(home.of(CER)), 1)

    @staticmethod
    def home_says(home):
        home.orders(DWR, home.identity(), flags=R, application=0)

    def test_first_does_not_reach(self):
        """A relay that doesn't reach the HSS, or has too much to do: the other one is asked, as for the first time."""
        homes = self.hss(), self.hss(name="hss2")
        homes[0].subscribers = {IMSI: Subscriber(self.card, fails=3002), OTHER: Subscriber(self.card, fails=3004)}
        homes[1].subscribers = {IMSI: Subscriber(self.card), OTHER: Subscriber(self.card, fails=3004)}
        source = self.source(*homes)
        self.assertTrue(source.answers(air(IMSI))[0].startswith("vec "))
        self.assertEqual(homes[1].of(AIR)[0].flags, R | P)
        self.assertEqual(source.answers(air(OTHER)), ["later " + OTHER])
        self.assertEqual([len(home.of(AIR)) for home in homes], [2, 2])

    def test_back_in_time(self):
        """The only peer ends within a request and is back within its time: it is asked again, with the T flag."""
        home = self.hss()
        source = self.source(home, words=("--answer-seconds", "20"))
        home.is_mute = True
        source.say(air(IMSI))
        until(lambda: home.of(AIR))
        home.is_mute = False
        home.cut()
        self.assertTrue(source.line().startswith("vec "))
        self.assertEqual([got.flags for got in home.of(AIR)], [R | P, R | P | T])

    def test_nobody_there(self):
        """Nobody listens: requests may pass, after their time; and once somebody does, there are vectors."""
        home = self.hss()
        home.close()
        source = Running(self, "s6a", "127.0.0.1:%d" % home.port, *WORDS, "--answer-seconds", "0.3")
        self.assertEqual(source.answers(air(IMSI)), ["later " + IMSI])
        source.until_said("lost: Connection refused")
        source.until_said("IMSI %s: no peer is connected" % IMSI)
        again = self.hss(port=home.port)
        until(lambda: again.of(CER))
        self.assertTrue(source.answers(air(IMSI))[0].startswith("vec "))

    def test_refused_connections(self):
        """Another realm's peer, and one without S6a: each is told, and gets no request."""
        refusing, without = self.hss(), self.hss()
        refusing.capabilities, without.has_s6a_not = 3010, True
        homes = ("127.0.0.1:%d" % home.port for home in (refusing, without))
        source = Running(self, "s6a", *homes, *WORDS, "--answer-seconds", "0.5")
        self.assertEqual(source.answers(air(IMSI)), ["later " + IMSI])
        for text in ("it refuses the connection: 3010 UNKNOWN_PEER", "lost: it has no S6a"):
            source.until_said(text)
        self.assertEqual([home.of(AIR) for home in (refusing, without)], [[], []])

    def test_disconnected(self):
        """Disconnect-Peer-Request is answered; a peer that begins anew is connected to soon, and one that wants rest isn't."""
        home = self.hss()
        source = self.source(home)
        got = home.orders(DPR, home.identity() + avp(273, 0), flags=R, application=0)
        self.assertEqual(result(got), 2001)
        until(lambda: len(home.of(CER)) == 2)
        home.orders(DPR, home.identity() + avp(273, 2), flags=R, application=0)
        source.until_said("it ends the connection, for cause 2")
        time.sleep(1)
        self.assertEqual(len(home.of(CER)), 2)


class Streams(Asking):
    def test_wrong_requests(self):
        source = self.source(self.hss())
        for request, answer, said in (("vectors", None, "vectors has no IMSI"), (air(IMSI, 65), "later " + IMSI, "from 1 to 64"),
                                      (air("123"), "unknown 123", "isn't 14 or 15 digits"), ("x" * 500, None, "more than 200"),
                                      ("cancel " + IMSI, None, "no request begins with 'cancel'")):
            source.say(request, air(NOBODY))
            got = [source.line()]
            while got[-1] != "unknown " + NOBODY:
                got.append(source.line())
            self.assertEqual(sorted(got[:-1]), [answer] if answer else [])
            source.until_said(said)
        self.assertTrue(source.answers(air(IMSI))[0].startswith("vec "))

    def test_slow_reader(self):
        """Answers that nobody reads keep the source from asking more, and not from its peers; an order waits for its line, or is
        refused. Nothing is lost."""
        imsis = ["00101%010d" % number for number in range(1, 151)]
        self.subscribers |= {imsi: Subscriber(None) for imsi in imsis}
        home = self.hss()
        source = self.source(home, words=("--answer-seconds", "60"))
        asked = threading.Thread(target=source.say, args=[air(imsi, 64) for imsi in imsis])
        asked.start()
        count = -1
        while count != len(home.of(AIR)):
            count = len(home.of(AIR))
            time.sleep(0.5)
        got = home.orders(DWR, home.identity(), flags=R, application=0)
        self.assertEqual(result(got), 2001)
        order = home.head(MME) + avp(USER_NAME, IMSI) + avp(1420, 2, VENDOR)
        self.assertEqual(result(home.orders(CLR, order)), RESULTS["busy"])
        lines = [source.line() for _ in range(150 * 64)]
        asked.join()
        counts = {imsi: sum(line.startswith("vec %s " % imsi) for line in lines) for imsi in imsis[:3]}
        self.assertEqual(set(counts.values()), {64})
        self.assertEqual(len({vector(line)[1] for line in lines}), 150 * 64)
        self.assertEqual(result(home.orders(CLR, order)), 2001)
        self.assertEqual(source.finish(), (["cancel " + IMSI], 0))

    def test_slow_hss(self):
        """While many requests are under way, no more are read."""
        home = self.hss()
        source = self.source(home, words=("--answer-seconds", "600"))
        home.is_mute = True
        asked = threading.Thread(target=source.say, args=[air("00101%010d" % number) for number in range(20000)], daemon=True)
        asked.start()
        count = -1
        while count != len(home.of(AIR)):
            count = len(home.of(AIR))
            time.sleep(0.3)
        self.assertTrue(1000 <= count < 3000, count)
        self.assertTrue(asked.is_alive())
        source.kill()
        asked.join()

    def test_signal(self):
        """What is under way may pass; the connection ends in order."""
        self.subscribers[OTHER] = Subscriber(self.card, is_mute=True)
        for number in (signal.SIGTERM, signal.SIGINT):
            home = self.hss()
            source = self.source(home, words=("--answer-seconds", "60"))
            source.answers(air(IMSI))
            source.say(air(OTHER), air(OTHER))
            until(lambda home=home: len(home.of(AIR)) == 2)
            source.process.send_signal(number)
            self.assertEqual(source.process.wait(60), 0)
            self.assertEqual([source.line(), source.line()], ["later " + OTHER] * 2)
            self.assertEqual(home.got[-1].code, DPR)

    def test_input_ends(self):
        """What was asked is answered first, also where there is no peer."""
        home = self.hss()
        source = self.source(home)
        source.say(air(IMSI, 64))
        lines, status = source.finish()
        self.assertEqual((len(lines), status), (64, 0))
        home.close()
        source = Running(self, "s6a", "127.0.0.1:%d" % home.port, *WORDS, "--answer-seconds", "0.2")
        source.say(air(IMSI))
        self.assertEqual(source.finish(), (["later " + IMSI], 0))

    def test_files(self):
        """Standard input and output may be files."""
        home = self.hss()
        words = [tools.TOP / "tools" / "s6a", "127.0.0.1:%d" % home.port, *WORDS]
        with tools.tempfile.TemporaryDirectory() as folder:
            paths = [os.path.join(folder, name) for name in ("requests", "answers")]
            with open(paths[0], "w", encoding="ascii") as file:
                file.write((air(IMSI) + "\n") * 500)
            with open(paths[0], "rb") as requests, open(paths[1], "wb") as answers:
                done = subprocess.run(words, stdin=requests, stdout=answers, stderr=subprocess.PIPE, timeout=60, check=False)
            self.assertEqual(done.returncode, 0, done.stderr)
            with open(paths[1], encoding="ascii") as file:
                self.assertEqual(len({line.split(" ")[2] for line in file if line.startswith("vec ")}), 500)
        done = subprocess.run(words, stdin=subprocess.DEVNULL, capture_output=True, timeout=60, check=False)
        self.assertEqual((done.returncode, done.stdout), (0, b"takes registered gone\n"))

    def test_nobody_reads(self):
        source = self.source(self.hss())
        source.process.stdout.close()
        source.say(air(IMSI))
        self.assertEqual(source.process.wait(60), 2)
        self.assertNotIn("Traceback", source.said())

    def test_no_keys(self):
        """What it says has no part of a vector."""
        self.subscribers[OTHER] = Subscriber(self.card, shape=lambda parts: parts[:-1])
        home = self.hss()
        source = self.source(home)
        lines = source.answers(air(IMSI, 5), 5)
        source.answers(air(OTHER))
        home.cut()
        source.until_said("lost: the peer ended the connection")
        source.finish()
        for line in lines:
            for part in vector(line)[1:]:
                self.assertNotIn(part.hex()[:8], source.said())

    def test_words(self):
        """Words that are wrong, each with status 2 and why."""
        done = tools.ran("s6a", *("127.0.0.1",) * 5, *WORDS)
        self.assertEqual((done.returncode, done.stdout), (2, b""))
        self.assertIn(b"s6a: error: there are 5 peers, and at most 4 are taken", done.stderr)
        for words, told in (((), "PEER"), (("127.0.0.1",), "--host"), (("localhost", *WORDS), "does not appear to be an IPv4"),
                            (("127.0.0.1:0", *WORDS), "'0' isn't a port"), (("[::1]:99999", *WORDS), "'99999' isn't a port"),
                            (("127.0.0.1", *WORDS[:1], "mme", *WORDS[2:]), "'mme' isn't a name with a domain"),
                            (("127.0.0.1", *WORDS, "--watchdog", "0"), "from 0.1 to 86400"),
                            (("127.0.0.1", *WORDS[:-2], "1", "01"), "argument --plmn: '1' isn't 3 digits"),
                            (("127.0.0.1", *WORDS, "--tcp", "--sctp"), "not allowed with")):
            said = io.StringIO()
            with self.subTest(told=told), contextlib.redirect_stderr(said), self.assertRaises(SystemExit) as caught:
                COMMAND.parser("").parse_args(words)
            self.assertEqual(caught.exception.code, 2)
            self.assertIn(told, said.getvalue())

    def test_peers(self):
        """Addresses with a port and without."""
        given = COMMAND.parser("").parse_args(("192.0.2.1", "192.0.2.1:3869", "[2001:db8::1]:3870", "2001:db8::1", *WORDS))
        self.assertEqual([(str(address), port) for address, port in given.peers],
                         [("192.0.2.1", 3868), ("192.0.2.1", 3869), ("2001:db8::1", 3870), ("2001:db8::1", 3868)])

    def test_source_address(self):
        """It connects from the address that it is given, and says it."""
        home = self.hss()
        source = self.source(home, words=("--source", "127.0.0.3"))
        source.answers(air(IMSI))
        self.assertEqual(home.of(CER)[0].avps[257, 0], [b"\x00\x01\x7f\x00\x00\x03"])


@unittest.skipUnless(shutil.which("tshark"), "no tshark")
class Tshark(Asking):
    """Wireshark's dissector reads each message that the source sends, and finds nothing to remark."""

    def test_messages(self):
        home = self.hss()
        source = self.source(home, words=("--watchdog", "0.3"))
        [line] = source.answers(air(IMSI, 1, "310 410"))
        auts = self.card.auts(vector(line)[1], 1 << 20)
        source.answers(air(IMSI, 2, more=" %s %s" % (vector(line)[1].hex(), auts.hex())), 2)
        for request in ("registered " + IMSI, "gone " + IMSI):
            source.answers(request)
        order = home.head(MME) + avp(USER_NAME, IMSI)
        home.orders(CLR, order + avp(1420, 2, VENDOR))
        home.orders(CLR, home.head("mme9." + REALM) + avp(USER_NAME, IMSI) + avp(1420, 2, VENDOR))
        home.orders(CLR, order)
        home.orders(IDR, order + avp(1400, b"", VENDOR))
        home.orders(RSR, home.head(MME))
        until(lambda: home.of(DWR))
        source.finish()
        with tools.tempfile.TemporaryDirectory() as folder:
            path = os.path.join(folder, "messages.pcap")
            own = [(is_own, octets) for is_own, octets in home.messages if is_own]
            hss.capture(path, own)
            self.check(self.read(path, "diameter", "diameter.cmd.code", "diameter.flags.request", "diameter.applicationId"), own)
            self.assertEqual(self.read(path, "_ws.expert || _ws.malformed", "frame.number", "_ws.expert.message"), [])
            [names] = self.read(path, "diameter.cmd.code == 318 && diameter.Re-Synchronization-Info", "e212.mcc", "e212.mnc",
                                "diameter.User-Name", "diameter.Number-Of-Requested-Vectors", "diameter.Re-Synchronization-Info")
            self.assertEqual(names[2:], [IMSI, "2", (vector(line)[1] + auts).hex()])
            [plmn] = self.read(path, "diameter.cmd.code == 318 && !diameter.Re-Synchronization-Info", "diameter.Visited-PLMN-Id")
            self.assertEqual(plmn, ["130014"])

    def check(self, rows, own):
        """tshark sees the messages that were sent, with their commands."""
        self.assertEqual(len(rows), len(own))
        self.assertEqual({int(row[0]) for row in rows}, {CER, DWR, DPR, AIR, ULR, PUR, CLR, IDR, RSR})
        for row in rows:
            self.assertEqual(int(row[2]), 0 if int(row[0]) in (CER, DWR, DPR) else S6A)

    @staticmethod
    def read(path, which, *fields):
        words = ["tshark", "-r", path, "-Y", which, "-T", "fields"]
        for field in fields:
            words += ["-e", field]
        done = subprocess.run(words, capture_output=True, text=True, timeout=120, check=True)
        return [row.split("\t") for row in done.stdout.splitlines()]


if __name__ == "__main__":
    unittest.main()
