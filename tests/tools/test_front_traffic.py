"""What gateways tell tools/front of phones' packets (fronting/traffic.py): on its page and in its metrics, and what is refused."""
import contextlib
import json
import socket
import threading
import time
import unittest

from tests.tools.fronted import HEAD, IMSI, PATIENCE
from tests.tools.test_front_page import SETUP, Reader, Served
from tools.fronting import limits

OTHER = "001010000000002"
TWO = HEAD + "sub %s 0a000002 0a000064 00000002\n" % OTHER
ADDRESS, ANOTHER = "10.0.0.100", "10.0.0.101"
QUIET = 0.3  # seconds in which what isn't to come would have come
TOLD = {"address": ADDRESS, "network": "10.0.0.0/24", "contexts": 1, "stations": 3, "waiting": {"an idle phone": [8, 800]},
        "dropped": {"from stations": {"wrong <source>": 9}}, "passed": [50, 5000, 70, 7000], "phones": {}}
COUNTED = [5, 500, 7, 700, 2, 1]  # of a phone


def traffic(told):
    """The line and the octets that follow it."""
    octets = told if isinstance(told, bytes) else json.dumps(told).encode()
    return b"traffic %d\n" % len(octets) + octets


class Gateway:
    """In a gateway's place: it has these phones, and tells of those that are wanted."""

    def __init__(self, test, running, phones, **fields):
        self.socket, self.phones, self.wanted = test.enterContext(socket.socket(socket.AF_UNIX)), phones, []
        self.told, self.is_silent = TOLD | fields, False
        self.socket.settimeout(PATIENCE)
        self.socket.connect(str(running.control))
        self.socket.sendall(traffic(self.told))
        self.thread = threading.Thread(target=self.run, daemon=True)
        self.thread.start()

    def run(self):
        with contextlib.suppress(OSError):
            for line in self.socket.makefile("r"):
                self.wanted.append(line.split())
                if not self.is_silent:
                    self.tell(self.wanted[-1][1:])

    def tell(self, wanted):
        rows = {imsi: row for imsi, row in self.phones.items() if imsi in wanted or wanted == ["*"]}
        self.socket.sendall(traffic(self.told | {"phones": rows}))

    def leave(self):
        self.socket.shutdown(socket.SHUT_RDWR)


class Traffic(Served):
    """The page and the metrics."""

    def begin(self, *gateways, head=TWO):
        """A front, and gateways with their phones."""
        self.front = self.running(head=head)
        made = [Gateway(self, self.front, phones, **fields) for phones, fields in gateways]
        self.until_told(len(made))
        return made

    def until_told(self, count):
        self.front.until(lambda: self.values()["soizkadur_gateways"] == count)

    def words(self, path):
        """The texts of a page, one after another."""
        reader = Reader()
        reader.feed(self.get(path)[0])
        self.assertEqual(reader.open, [])
        return [words for words in reader.words if words.strip()]

    def row(self, words, table, first, count):
        """So many texts after one, below a heading."""
        at = words.index(first, words.index(table))
        return words[at + 1:at + 1 + count]

    def test_metrics(self):
        self.begin(({IMSI: COUNTED, "001010000000009": COUNTED}, {}))
        values = self.values()
        name = '{gateway="%s"' % ADDRESS
        for metric, value in (
                ("contexts%s}" % name, 1), ("stations%s}" % name, 3), ('waiting_packets%s,for="an idle phone"}' % name, 8),
                ('waiting_octets%s,for="an idle phone"}' % name, 800),
                ('dropped_total%s,way="from stations",why="wrong <source>"}' % name, 9),
                ('packets_total%s,direction="from"}' % name, 50), ('octets_total%s,direction="from"}' % name, 5000),
                ('packets_total%s,direction="to"}' % name, 70), ('octets_total%s,direction="to"}' % name, 7000),
                ('phone_packets_total{imsi="%s",direction="from"}' % IMSI, 5),
                ('phone_octets_total{imsi="%s",direction="from"}' % IMSI, 500),
                ('phone_packets_total{imsi="%s",direction="to"}' % IMSI, 7),
                ('phone_octets_total{imsi="%s",direction="to"}' % IMSI, 700)):
            self.assertEqual(values.get("soizkadur_tunnel_" + metric), value, metric)
        self.assertNotIn("001010000000009", "".join(values))  # who isn't provisioned here

    def test_page(self):
        """Each gateway, what it dropped, and each phone as its gateway has it; on the phone's own page too."""
        self.begin(({IMSI: COUNTED}, {}), ({OTHER: [0] * 6}, {"address": ANOTHER, "dropped": {}}))
        for path in ("/", "/?imsi=" + IMSI):
            words = self.words(path)
            self.assertEqual(self.row(words, "Tunnels", "IMSI", 8), [
                "Leads to", "TEID", "Packets from it", "Octets", "Packets to it", "Octets", "Dropped", "Waiting"])
            self.assertEqual(self.row(words, "Tunnels", IMSI, 8), ["\u2013", "\u2013", "5", "500", "7", "700", "2", "1"])
        words = self.words("/")
        self.assertEqual(self.row(words, "Tunnels", OTHER, 8), ["\u2013"] * 2 + ["0"] * 6)
        for address, dropped in ((ADDRESS, "9"), (ANOTHER, "0")):
            self.assertEqual(self.row(words, "Gateways", address, 9),
                             ["10.0.0.0/24", "1", "3", "50", "5000", "70", "7000", dropped, "8"])
        self.assertEqual(self.row(words, "Dropped packets", ADDRESS, 3), ["from stations", "wrong <source>", "9"])

    def test_nobody_looks(self):
        """Then a gateway isn't asked; whoever looks within a second shares what it tells, of the phones that are shown alone."""
        [gateway] = self.begin(({IMSI: COUNTED, OTHER: COUNTED}, {}))
        self.front.station().says(SETUP)
        before = len(gateway.wanted)
        time.sleep(QUIET)
        self.assertEqual(gateway.wanted[before:], [])
        begun = time.monotonic()
        looking = [threading.Thread(target=self.get, args=("/?imsi=" + OTHER,)) for _ in range(5)]
        for thread in looking:
            thread.start()
        for thread in looking:
            thread.join()
        asked = gateway.wanted[before:]
        self.assertIn(asked, [[["wanted", OTHER]] * count for count in range(1, 2 + int(time.monotonic() - begun))])
        self.words("/")
        self.assertEqual(gateway.wanted[before + len(asked):], [["wanted", IMSI, OTHER]])

    def test_slow(self):
        """A gateway that doesn't answer delays the page by no more than a second, and only once; others are there."""
        slow, _ = self.begin(({IMSI: COUNTED}, {"contexts": 77}), ({OTHER: COUNTED}, {"address": ANOTHER}))
        slow.is_silent = True
        begun = time.monotonic()
        for path in ("/?imsi=" + OTHER, "/", "/?imsi=" + IMSI):
            self.words(path)
        self.assertLess(time.monotonic() - begun, limits.TRAFFIC_SECONDS + PATIENCE / 10)
        self.assertEqual([line for line in slow.wanted if line[1:] != ["*"]], [["wanted", OTHER]])
        self.assertEqual(self.row(self.words("/"), "Tunnels", OTHER, 8)[2:], ["5", "500", "7", "700", "2", "1"])
        self.assertEqual(self.row(self.words("/"), "Gateways", ADDRESS, 2), ["10.0.0.0/24", "77"])

    def test_gone(self):
        """What a gateway told goes with it; another one at its address is it."""
        first, second = self.begin(({IMSI: COUNTED}, {}), ({IMSI: COUNTED}, {"address": ANOTHER}))
        first.leave()
        self.until_told(1)
        again = Gateway(self, self.front, {IMSI: [6] * 6}, address=ANOTHER)
        self.front.until(lambda: self.row(self.words("/"), "Tunnels", IMSI, 8)[2:] == ["6"] * 6)
        self.assertEqual(self.words("/").count(ANOTHER), 2)  # as a gateway, and with what it dropped
        for gateway in (second, again):
            gateway.leave()
        self.until_told(0)
        self.front.until(lambda: "Gateways" not in self.words("/"))
        self.front.until(lambda: "Tunnels" not in self.words("/"))
        self.assertFalse([name for name in self.values() if "tunnel" in name])

    def test_wrong(self):
        """What can't be read is refused in words, and nothing is told by it; the connection goes on."""
        [gateway] = self.begin(({IMSI: COUNTED}, {}))
        with socket.socket(socket.AF_UNIX) as asking:
            asking.settimeout(PATIENCE)
            asking.connect(str(self.front.control))
            answers = asking.makefile("r")
            form = "fault traffic is an object of JSON with %s\n" % ", ".join(TOLD)
            for octets in (b"", b"{}", b"[]", b"\xff", b"[" * 100000, json.dumps({**TOLD, "more": 1}).encode()):
                asking.sendall(traffic(octets))
                self.assertEqual(answers.readline(), form)
            for field, value in (
                    ("address", ""), ("address", 5), ("address", "x" * 81), ("network", "a\nb"), ("network", "\ud800"),
                    ("contexts", -1), ("contexts", True), ("contexts", 1.0), ("stations", 1 << 64), ("waiting", {"a": [1]}),
                    ("waiting", []), ("dropped", {"a": {"b": None}}), ("dropped", {"\x1b": {}}),
                    ("dropped", {"a": {str(number): 1 for number in range(101)}}), ("passed", [1, 2, 3]),
                    ("phones", {IMSI: COUNTED[1:]}), ("phones", {"%015d" % number: COUNTED for number in range(1001)})):
                asking.sendall(traffic({**TOLD, "address": ANOTHER, field: value}))
                self.assertEqual(answers.readline(), "fault traffic has %s that can't be read or are too many\n" % field, value)
            for line in (b"traffic %d\n" % (limits.LONGEST_TRAFFIC + 1), b"traffic x\n", b"traffic -1\n"):
                asking.sendall(line)
                self.assertEqual(answers.readline(), "fault traffic has the number of octets that follow, up to 262144\n")
            self.assertEqual(self.values()["soizkadur_gateways"], 1)
            asking.sendall(traffic({**TOLD, "address": ANOTHER}))
            self.until_told(2)

    def test_stations_come_first(self):
        """While many look and the gateways tell as much as they may, stations are answered."""
        lines = "".join("sub %015d 0a%06x 0a000064 %08x\n" % (slot, slot, slot) for slot in range(10, 3010))
        many = {"%015d" % slot: [1 << 63] * 6 for slot in range(10, 1010)}
        self.begin(*((many, {"address": "10.0.1.%d" % number}) for number in range(3)), head=HEAD + lines)
        station, is_over, seconds = self.front.station(), threading.Event(), []

        def look():
            while not is_over.is_set():
                self.get("/metrics")
                self.get("/?from=100")

        looking = [threading.Thread(target=look) for _ in range(4)]
        for thread in looking:
            thread.start()
        for _ in range(100):
            begun = time.monotonic()
            self.assertEqual(station.says(SETUP), SETUP)
            seconds.append(time.monotonic() - begun)
        is_over.set()
        for thread in looking:
            thread.join()
        self.assertLess(sorted(seconds)[50], limits.MOST_DELAY)
        self.assertEqual(len([name for name in self.values() if "tunnel_phone_packets" in name]), 2000)

    def test_without(self):
        self.begin()
        self.assertFalse({"Tunnels", "Gateways"} & set(self.words("/")))

    def test_ends(self):
        """The front ends in order, with a gateway that waits to be asked."""
        [gateway] = self.begin(({}, {}))
        self.assertEqual(self.front.stop()[0], 0)
        gateway.thread.join(PATIENCE)
        self.assertFalse(gateway.thread.is_alive())


if __name__ == "__main__":
    unittest.main()
