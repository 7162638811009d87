#!/usr/bin/env python3
"""What test_s6a_relay.py runs in a network of its own: tools/s6a, Debian's freeDiameter as a relay, and an HSS behind it; or, by
SCTP, tools/s6a and an HSS under a kernel that has SCTP. Writes into a file, by each test's name, nothing where it passed and else
why not.

    relay_inside.py RESULTS Relay|Sctp
"""
import json
import pathlib
import subprocess
import sys
import tempfile
import threading
import time
import unittest

if __name__ == "__main__":
    sys.path[0] = str(pathlib.Path(__file__).resolve().parents[2])
from tests.tools.card import SYNCH_FAILURE, Card
from tests.tools.hss import AIR, CER, CLR, DWR, IDR, P, R, REALM, T, USER_NAME, VENDOR, Hss, Subscriber, avp, capture
from tests.tools.sourced import Running, vector
from tests.tools.test_s6a import IMSI, K, MME, NOBODY, OPC, OTHER, RESULTS, Tshark, air, result, until

PORT = 3868
RELAY_NAME = "dra." + REALM
WORDS = ("--host", MME, "--realm", REALM, "--plmn", "001", "01")
OWN, RELAY, HOME, SECOND = range(1, 5)  # who has which address
# Without security of its own, SCTP and IPv6; its timers are the shortest that it takes.
CONFIGURATION = """Identity = "%s";
Realm = "%s";
ListenOn = "%s";
Port = %d;
SecPort = 0;
No_SCTP;
No_IPv6;
TcTimer = 6;
TwTimer = 6;
AppServThreads = 4;
LoadExtension = "acl_wl.fdx" : "acl.conf";
LoadExtension = "rt_default.fdx" : "routes.conf";
ConnectPeer = "hss.%s" { ConnectTo = "%s"; No_TLS; No_IPv6; Port = %d; Realm = "%s"; };
"""
ALLOWED = "ALLOW_IPSEC *.%s\n" % REALM
# What an MME asks goes to no MME: where the HSS is away, it would be sent to another one of the realm.
ROUTES = 'oh=["^mme"] : ["^mme"] += NO_DELIVERY ;\n'


def name_of(test):
    return test.id().split(".")[-1]


def tests_of(case):
    return list(unittest.defaultTestLoader.loadTestsFromTestCase(case))


def address(test, who):
    """An address of a test's own. freeDiameter listens at none of 127/8, so the network's loopback has others."""
    return "10.6.%d.%d" % (1 + test, who)


class Named(unittest.TestResult):
    """What is written, by each test's name. Tests run beside one another."""

    def __init__(self, path):
        super().__init__()
        self.path, self.found, self.writing = path, {}, threading.Lock()

    def note(self, test, why):
        with self.writing:
            self.found.setdefault(name_of(test), why)
            self.path.write_text(json.dumps(self.found))

    def addSuccess(self, test):
        self.note(test, None)

    def addFailure(self, test, err):
        self.note(test, self._exc_info_to_string(err, test))

    addError = addFailure


class Relay(unittest.TestCase):
    """An MME, a relay and an HSS, at addresses of each test's own."""

    def setUp(self):
        number = [name_of(test) for test in tests_of(type(self))].index(name_of(self))
        self.own, self.at_relay, self.at_home, self.at_second = (address(number, who) for who in (OWN, RELAY, HOME, SECOND))
        self.card = Card(K, OPC)
        self.subscribers = {IMSI: Subscriber(self.card), OTHER: Subscriber(Card(OPC, K))}
        self.folder = pathlib.Path(self.enterContext(tempfile.TemporaryDirectory()))
        for name, text in (("relay.conf", self.configuration()), ("acl.conf", ALLOWED), ("routes.conf", ROUTES)):
            (self.folder / name).write_text(text)
        self.home = self.hss(self.at_home)
        self.relay = None

    def configuration(self):
        return CONFIGURATION % (RELAY_NAME, REALM, self.at_relay, PORT, REALM, self.at_home, PORT, REALM)

    def hss(self, address, **named):
        made = Hss(self.subscribers, address=address, port=PORT, **named)
        self.addCleanup(made.close)
        return made

    def begin_relay(self):
        """The relay, once it is connected to the HSS. It is ended by its own number."""
        before = len(self.home.of(CER))
        self.relay = subprocess.Popen(["freeDiameterd", "-c", "relay.conf"], cwd=self.folder, stdin=subprocess.DEVNULL,
                                      stdout=subprocess.DEVNULL, stderr=subprocess.DEVNULL)
        self.addCleanup(self.end_relay)
        until(lambda: len(self.home.of(CER)) > before)

    def end_relay(self):
        if self.relay.poll() is None:
            self.relay.kill()
        self.relay.wait()

    def source(self, *peers, words=()):
        running = Running(self, "s6a", *peers, *WORDS, "--source", self.own, *words)
        for peer in peers:
            running.until_said("%s:%d: connected" % (peer, PORT))
        return running

    def test_through_a_relay(self):
        """Vectors, resynchronization, registration, orders and an end in order go through; tshark has nothing to remark on what the
        HSS got of it, and the relay's own name stands in it."""
        self.begin_relay()
        source = self.source(self.at_relay)
        until(lambda: source.answers(air(IMSI))[0].startswith("vec "))
        lines = source.answers(air(IMSI, 7), 7)
        self.card.highest = [1 << 20] * 32
        why, auts = self.card.answer(*vector(lines[0])[1:3])
        self.assertEqual(why, SYNCH_FAILURE)
        again = source.answers(air(IMSI, 2, more=" %s %s" % (vector(lines[0])[1].hex(), auts.hex())), 2)
        self.assertEqual([self.card.answer(*vector(line)[1:3])[0] for line in again], ["res", "res"])
        self.assertEqual(source.answers(air(NOBODY)), ["unknown " + NOBODY])
        self.assertEqual(source.answers("registered " + IMSI), ["registered " + IMSI])
        self.assertEqual(self.subscribers[IMSI].mme, MME)
        self.check_orders(source)
        self.assertEqual(source.answers("gone " + IMSI), ["gone " + IMSI])
        self.assertIsNone(self.subscribers[IMSI].mme)
        self.assertEqual(source.finish(), ([], 0))
        self.assertIsNone(self.relay.poll())
        path = self.folder / "messages.pcap"
        capture(path, [(is_own, octets) for is_own, octets in self.home.messages if is_own])
        self.assertEqual(Tshark.read(path, "diameter.cmd.code == 318 && _ws.malformed", "frame.number"), [])
        routes = Tshark.read(path, "diameter.cmd.code == 318", "diameter.Route-Record")
        self.assertEqual({row[0] for row in routes}, {MME})

    def check_orders(self, source):
        """Orders come by the relay, and their answers go back by it."""
        named = avp(USER_NAME, IMSI)
        got = self.home.orders(CLR, self.home.head(MME) + named + avp(1420, 2, VENDOR))
        self.assertEqual((result(got), source.line()), (2001, "cancel " + IMSI))
        got = self.home.orders(IDR, self.home.head(MME) + named + avp(1400, avp(1424, 0, VENDOR), VENDOR))
        self.assertEqual(result(got), (VENDOR, 5001))
        # (the relay knows no such host, and sends it to whoever is of the realm: here, to this MME)
        got = self.home.orders(CLR, self.home.head("mme9." + REALM) + named + avp(1420, 2, VENDOR))
        self.assertEqual(result(got), RESULTS["undeliverable"])

    def test_hss_is_gone(self):
        """The relay lives and its HSS doesn't: requests may pass, at once; and there are vectors once the HSS is back."""
        self.begin_relay()
        source = self.source(self.at_relay)
        until(lambda: source.answers(air(IMSI))[0].startswith("vec "))
        self.home.close()
        until(lambda: not self.home.connections)
        before = time.monotonic()
        self.assertEqual(source.answers(air(IMSI)), ["later " + IMSI])
        source.until_said("%s says 3002 UNABLE_TO_DELIVER" % RELAY_NAME)
        self.assertLess(time.monotonic() - before, 3)
        self.home = self.hss(self.at_home)
        until(lambda: source.answers(air(IMSI))[0].startswith("vec "))

    def test_relay_is_killed(self):
        """Killed with requests under way: the HSS itself, as the second peer, has them with the T flag, and gives vectors."""
        second = self.hss(self.at_second, name="hss2")
        self.begin_relay()
        source = self.source(self.at_relay, self.at_second, words=("--answer-seconds", "20"))
        until(lambda: source.answers(air(IMSI))[0].startswith("vec ") and len(self.home.of(AIR)) > 0)
        asked = len(self.home.of(AIR))
        self.home.is_mute = True
        source.say(*[air(imsi) for imsi in (IMSI, OTHER)])
        until(lambda: len(self.home.of(AIR)) == asked + 2)
        self.relay.kill()
        self.assertEqual({vector(source.line())[0] for _ in range(2)}, {IMSI, OTHER})
        self.assertEqual([got.flags for got in second.of(AIR)[-2:]], [R | P | T] * 2)
        first = {got.end for got in self.home.of(AIR)[-2:]}
        self.assertEqual({got.end for got in second.of(AIR)[-2:]}, first)
        self.home.is_mute = False
        self.begin_relay()
        source.until_said("%s:%d: connected" % (self.at_relay, PORT))
        self.assertTrue(source.answers(air(IMSI))[0].startswith("vec "))

    def test_another_realm(self):
        """A relay that doesn't know this MME refuses it; that is told, and requests may pass."""
        self.begin_relay()
        words = ("--host", "mme1.example.org", *WORDS[2:], "--source", self.own, "--answer-seconds", "1")
        source = Running(self, "s6a", self.at_relay, *words)
        source.until_said("it refuses the connection: 3010 UNKNOWN_PEER")
        self.assertEqual(source.answers(air(IMSI)), ["later " + IMSI])


class Sctp(unittest.TestCase):
    def test_by_sctp(self):
        """The same over SCTP: vectors, orders and watchdogs, many at once, a peer that ends, and an end in order."""
        subscribers = {"00101%010d" % number: Subscriber(Card(K, OPC)) for number in range(1, 101)}
        homes = [Hss(subscribers, address="127.0.0.1", port=PORT + at, name="hss%d" % at, sctp=True) for at in range(2)]
        for home in homes:
            self.addCleanup(home.close)
        source = Running(self, "s6a", *("127.0.0.1:%d" % home.port for home in homes), *WORDS, "--sctp", "--watchdog", "1",
                         "--answer-seconds", "60")
        for home in homes:
            source.until_said("connected to " + home.host)
        source.say(*[air(imsi, 6) for imsi in subscribers])
        lines = [source.line() for _ in range(600)]
        for line in lines:
            imsi, rand, autn, xres, kasme = vector(line)
            card = subscribers[imsi].card
            self.assertEqual(card.made(rand, card.sqn_of(rand, autn)), (autn, xres, kasme))
        self.assertEqual(source.answers("registered " + IMSI), ["registered " + IMSI])
        got = homes[0].orders(CLR, homes[0].head(MME) + avp(USER_NAME, IMSI) + avp(1420, 2, VENDOR))
        self.assertEqual((result(got), source.line()), (2001, "cancel " + IMSI))
        until(lambda: homes[1].of(DWR))
        homes[0].is_mute = True
        source.say(air(OTHER))
        until(lambda: homes[0].of(AIR)[-1].avps[USER_NAME, 0] == [OTHER.encode()])
        homes[0].close()
        self.assertEqual(vector(source.line())[0], OTHER)
        self.assertEqual(homes[1].of(AIR)[-1].flags, R | P | T)
        self.assertEqual(source.finish(), ([], 0))


def main():
    path, case = pathlib.Path(sys.argv[1]), {"Relay": Relay, "Sctp": Sctp}[sys.argv[2]]
    tests = tests_of(case)
    if case is Relay:
        subprocess.run(["ip", "link", "set", "lo", "up"], check=True)
        for test in range(len(tests)):
            for who in (OWN, RELAY, HOME, SECOND):
                subprocess.run(["ip", "addr", "add", address(test, who) + "/32", "dev", "lo"], check=True)
    result_of_all = Named(path)
    running = [threading.Thread(target=test.run, args=(result_of_all,)) for test in tests]
    for thread in running:
        thread.start()
    for thread in running:
        thread.join()


if __name__ == "__main__":
    main()
