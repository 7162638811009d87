"""The page of tools/front and its metrics: what they say, that Prometheus' text form is met, and their limits."""
import html
import html.parser
import re
import socket
import types
import unittest
import unittest.mock
import urllib.error
import urllib.request
import xml.etree.ElementTree

from bench.etcds import free_port
from reference import lte, phones as PHONES
from tests.tools.fronted import HEAD, IMSI, OF_SLOT, PROGRAM, Running
from tools.eps.reasons import SCTP, Why
from tools.eps.telling import Telling
from tools.fronting import history as history_of_page
from tools.fronting import ladder, limits, page, status
from tools.fronting.history import STRANGER, History
from tools.fronting.meters import RECENT, Meters
from tools.fronting.provisioning import Head
from tools.fronting.teller import Reason

# A line of the text form: https://prometheus.io/docs/instrumenting/exposition_formats
LINE = re.compile(r'[a-z_]+(\{[a-z]+="([^"\\\n]|\\["\\n])*"(,[a-z]+="([^"\\\n]|\\["\\n])*")*\})? -?[0-9.e+-]+$')
SETUP = bytes.fromhex("201100170000020069000b000000f11000008001000100574001ff")  # S1 SETUP RESPONSE
ERROR = bytes.fromhex("000f40080000010002400120")  # ERROR INDICATION


class Served(unittest.TestCase):
    def running(self, *words, **others):
        self.port = free_port()
        return Running(self, "--page", "127.0.0.1:%d" % self.port, *words, **others)

    def get(self, path):
        with urllib.request.urlopen("http://127.0.0.1:%d%s" % (self.port, path), timeout=20) as answer:
            return answer.read().decode(), answer.headers

    def values(self):
        """The metrics by name and labels."""
        text, headers = self.get("/metrics")
        self.assertIn("version=0.0.4", headers["Content-Type"])
        found, typed = {}, set()
        for line in text.splitlines():
            if line.startswith("#"):
                word, name = line.split(" ")[1:3]
                self.assertIn(word, ("HELP", "TYPE"))
                typed |= {name} if word == "TYPE" else set()
            else:
                self.assertRegex(line, LINE)
                key, _, value = line.rpartition(" ")
                self.assertNotIn(key, found)
                self.assertTrue({re.sub("_(bucket|sum|count)$", "", key.partition("{")[0]), key.partition("{")[0]} & typed)
                found[key] = float(value)
        return found


class Spoken(Served):
    """Phones and stations of reference/phones.py that speak with the MME through a front, step by step."""

    def provision(self, *vectors):
        """A phone for each number of vectors, and the head that they are provisioned by."""
        self.trace = PHONES.Trace()
        made = [[PHONES.Vector.made("%d of %d" % (number, slot)) for number in range(count)] for slot, count in enumerate(vectors)]
        phones = [PHONES.Phone(self.trace, slot, each) for slot, each in enumerate(made)]
        self.trace.provision(phones)
        self.head = self.trace.text()
        return phones

    def begin(self, *words, **others):
        """A front, with a station's connection."""
        self.front = self.running(*words, head=self.head, program=PROGRAM, **others)
        self.station = self.front.station()

    def says(self, *acts, again=False):
        """What is heard of acts of a phone or the station, in the end perhaps the last message once more; its answers are taken."""
        for act in acts:
            heard, owed = len(self.trace.lines), len(self.trace.answers)
            act()
            lines = [line for line in self.trace.lines[heard:] if line.startswith("in ")]
            for line in lines + lines[-1:] * (again and act is acts[-1]):
                self.station.send(bytes.fromhex(line.split(" ")[2]))
            for _ in self.trace.answers[owed:]:
                self.station.receive()


class Metrics(Served):
    def test_metrics(self):
        running = self.running()
        first, second = running.station(), running.station()
        self.assertEqual(first.says(SETUP), SETUP)
        for _ in range(3):
            self.assertEqual(second.says(ERROR), ERROR)
        second.close()
        running.until(lambda: "lost 1" in running.events())
        values = self.values()
        for name, value in (
                ('soizkadur_stations{state="set up"}', 1), ('soizkadur_stations{state="connected"}', 0),
                ('soizkadur_phones{emm="DEREGISTERED",ecm="IDLE",esm="INACTIVE"}', 1),
                ('soizkadur_messages_total{direction="in",message="ERROR INDICATION"}', 3),
                ('soizkadur_messages_total{direction="out",message="S1 SETUP RESPONSE"}', 1),
                ('soizkadur_losses_total{why="it ended the connection"}', 1), ("soizkadur_connections_total", 2),
                ("soizkadur_answer_seconds_count", 4), ('soizkadur_answer_seconds_bucket{le="+Inf"}', 4),
                ("soizkadur_resumed", 0), ('soizkadur_waiting_octets{for="mme"}', 0)):
            self.assertEqual(values.get(name), value, name)
        self.assertEqual(sum(value for name, value in values.items() if name.startswith("soizkadur_causes_total")), 6)
        self.assertGreater(values['soizkadur_log_octets{of="what happened"}'], 100)

    @unittest.skipUnless(PROGRAM.exists(), "the program isn't built (./mme --prove)")
    def test_attach(self):
        """The steps of an attach, and the phone's states."""
        trace = PHONES.Trace()
        phone = PHONES.Phone(trace, 0, [PHONES.Vector.made("page")])
        trace.provision([phone])
        running = self.running(head=trace.text(), program=PROGRAM)
        station, connection = PHONES.Station(0), running.station()
        trace.set_up(station)
        phone.attaches(station, 1)
        for line in trace.lines:
            if line.startswith("in "):
                connection.send(bytes.fromhex(line.split(" ")[2]))
        for _ in trace.answers:
            connection.receive()
        running.until(lambda: "CONNECTED" in running.asks("phones"))
        values = self.values()
        for step in ("requested", "accepted", "completed"):
            self.assertEqual(values['soizkadur_attaches_total{step="%s"}' % step], 1)
        self.assertEqual(values['soizkadur_phones{emm="REGISTERED",ecm="CONNECTED",esm="ACTIVE"}'], 1)


class Reader(html.parser.HTMLParser):
    """What a page has: its tags, its words, and where it points to."""

    def __init__(self):
        super().__init__()
        self.open, self.words, self.sources = [], [], []

    def handle_starttag(self, tag, attrs):
        self.sources += [value for name, value in attrs if name in ("src", "href")]
        if tag not in ("meta", "line", "path"):
            self.open.append(tag)

    def handle_endtag(self, tag):
        if tag not in ("line", "path"):
            assert self.open.pop() == tag, tag

    def handle_data(self, data):
        self.words.append(data)


class Page(Served):
    def test_page(self):
        """Stations, phones, and the last messages; nothing of it comes from elsewhere, and it has no script."""
        running = self.running()
        station = running.station()
        self.assertEqual(station.says(SETUP), SETUP)
        text, headers = self.get("/")
        self.assertEqual(headers["Content-Security-Policy"], "default-src 'none'; style-src 'unsafe-inline'")
        reader = Reader()
        reader.feed(text)
        self.assertEqual((reader.open, reader.sources), ([], ["/metrics", "/?imsi=" + IMSI]))
        self.assertNotIn("<script", text)
        for word in ("set up", "127.0.0.1", IMSI, "DEREGISTERED", "station 0", "S1 SETUP RESPONSE"):
            self.assertTrue(any(word in words for words in reader.words), word)

    def test_phone(self):
        """A phone's own page has its messages and no other's, nor a station's."""
        running = self.running(head=HEAD + "sub 001010000000002 0a000002 0a000064 00000002\n")
        station = running.station()
        for slot in (0, 1):
            station.says(OF_SLOT + bytes([slot]))
        station.says(SETUP)
        for imsi, address in ((IMSI, "10.0.0.1"), ("001010000000002", "10.0.0.2")):
            reader = Reader()
            text, _ = self.get("/?imsi=" + imsi)
            reader.feed(text)
            self.assertEqual({words for words in reader.words if words.startswith("00101")}, {imsi})
            self.assertEqual(set(reader.sources), {"/metrics", "/", "/?imsi=" + imsi})
            self.assertIn(address, reader.words)
            self.assertEqual(text.count('class="arrow'), 1)

    def test_no_reasons(self):
        """Where reasons aren't found the page says so."""
        lines = ["sub 00101%010d 0a%06x 0a000064 %08x" % (slot, slot, slot) for slot in range(limits.MOST_TOLD_OF + 1)]
        self.running(head="\n".join([HEAD.splitlines()[0], *lines, ""]))
        self.assertIn("Reasons are missing here: they are found for 1000 subscribers with 20000 vectors at the most. "
                      "`tools/explain` finds them in the log.", self.get("/")[0])

    def test_held(self):
        """Where the log can't be written, so that the stations are held, the page says that too."""
        exchange = types.SimpleNamespace(held_since=None)
        front = types.SimpleNamespace(exchange=exchange, meters=Meters(), head=Head(HEAD.splitlines()))
        with unittest.mock.patch.object(status, "alarms", return_value={"log": "An <alarm>."}):
            for since, alarms in ((None, ["An &lt;alarm&gt;."]), (1.0, ["An &lt;alarm&gt;.", html.escape(page.HELD)])):
                exchange.held_since = since
                self.assertEqual(re.findall(' role="alert">(.*)</p>', "\n".join(page.above(front))), alarms)

    def test_nothing_yet(self):
        self.running(head=HEAD.splitlines()[0] + "\n")
        text, _ = self.get("/")
        for words in ("No station is connected.", "Nobody is provisioned.", "No message came or went."):
            self.assertIn(words, text)
        self.assertEqual(self.get("/health")[0], "it serves\n")

    def test_other_requests(self):
        self.running()
        for request, status in ((b"GET /none HTTP/1.1\r\n\r\n", b"404"), (b"POST / HTTP/1.1\r\n\r\n", b"405"),
                                (b"x\r\n\r\n", b"405"), (b"HEAD / HTTP/1.0\r\n\r\n", b"200")):
            with socket.create_connection(("127.0.0.1", self.port), timeout=20) as asking:
                asking.sendall(request)
                answer = b""
                while piece := asking.recv(1 << 16):
                    answer += piece
            self.assertEqual(answer.split(b" ")[1], status)
            self.assertEqual(answer.endswith(b"\r\n\r\n"), request.startswith(b"HEAD"))

    def test_hosts(self):
        """A name that anybody can give this address to is none that the page is asked for by: a page of another site could read
        here by it. Addresses are, localhost, and the names of --page-host."""
        self.running("--page-host", "mme.example", "--page-host", "Lab-1")
        asked = {"127.0.0.1": b"200", "127.0.0.1:%d" % self.port: b"200", "[::1]:9100": b"200", "[::1]": b"200",
                 "localhost": b"200", "LOCALHOST:80": b"200", "mme.example": b"200", "MME.example:9100": b"200", "lab-1": b"200", "evil.example": b"421",
                 "evil.example:%d" % self.port: b"421", "127.0.0.1.evil.example": b"421", "localhost.evil.example": b"421",
                 "mme.example.evil": b"421", "localhost, evil.example": b"421", "": b"421", "0x7f000001": b"421",
                 "127.0.0.1\r\nHost: evil.example": b"421"}
        for path in ("/", "/metrics", "/health"):
            for host, status in asked.items():
                with self.subTest(path=path, host=host):
                    answer = self.says(("GET %s HTTP/1.1\r\nX: y\r\nhost:  %s \r\n\r\n" % (path, host)).encode())
                    self.assertEqual(answer.split(b" ")[1], status)
                    self.assertEqual(b"--page-host" in answer, status == b"421")

    def says(self, octets):
        """What comes for a request."""
        with socket.create_connection(("127.0.0.1", self.port), timeout=20) as asking:
            asking.sendall(octets)
            pieces = []
            while piece := asking.recv(1 << 16):
                pieces.append(piece)
        return b"".join(pieces)

    def test_pages(self):
        """A hundred phones on a page, and links to those before and after; the metrics count all."""
        lines = ["sub 00101%010d 0a%06x 0a000064 %08x" % (slot, slot, slot) for slot in range(1, 251)]
        self.running(head="\n".join([HEAD.splitlines()[0], *lines, ""]))
        for place, first, last, links in (
                ("", 1, 100, ["/?from=100"]), ("?from=100", 101, 200, ["/?from=0", "/?from=200"]),
                ("?from=200", 201, 250, ["/?from=100"]), ("?from=30", 31, 130, ["/?from=0", "/?from=130"])):
            reader = Reader()
            text, _ = self.get("/" + place)
            reader.feed(text)
            self.assertEqual([words for words in reader.words if words.startswith("00101")],
                             ["00101%010d" % slot for slot in range(first, last + 1)])
            self.assertEqual([source for source in reader.sources if "imsi" not in source], ["/metrics", *links])
        self.assertEqual(self.values()['soizkadur_phones{emm="DEREGISTERED",ecm="IDLE",esm="INACTIVE"}'], 250)
        for query in ("from=250", "from=-1", "from=x", "from=", "from=%C2%B2", "to=1", "from=9999999999", "imsi=001019999999999",
                      "imsi=", "imsi=0", "imsi=001010000000001&from=0"):
            self.assertEqual(self.says(b"GET /?%s HTTP/1.1\r\n\r\n" % query.encode()).split(b" ")[1], b"404")

    def test_manners(self):
        """One that asks many times at once has one answer; one that goes is forgotten at once, whatever it left unread."""
        self.running()
        request = b"GET /health HTTP/1.1\r\n\r\n"
        self.assertEqual(self.says(3 * request).count(b"HTTP/1.1 200 OK"), 1)
        self.assertEqual(self.says(3 * request.replace(b"health", b"metrics")).count(b"HTTP/1.1 200 OK"), 1)
        for _ in range(2 * limits.MOST_BROWSING):
            with socket.create_connection(("127.0.0.1", self.port), timeout=20) as asking:
                asking.sendall(100 * request.replace(b"health", b""))
        self.assertEqual(self.get("/health")[0], "it serves\n")

    def test_limits(self):
        """A request that is too long, or too many who ask, cost the stations nothing."""
        running = self.running()
        station = running.station()
        with socket.create_connection(("127.0.0.1", self.port), timeout=20) as asking:
            asking.sendall(b"GET /" + b"x" * (limits.LONGEST_REQUEST + 100))
            with self.assertRaises((ConnectionError, EOFError)):
                if not asking.recv(100):
                    raise EOFError
        silent = [self.enterContext(socket.create_connection(("127.0.0.1", self.port))) for _ in range(limits.MOST_BROWSING)]
        self.assertEqual(station.says(b"still"), b"still")
        with self.assertRaises((urllib.error.URLError, ConnectionError)):
            self.get("/health")
        silent[0].close()
        self.assertEqual(station.says(b"still"), b"still")


def counted(messages):
    """Meters of a front that these messages came to, each with its station, and the history of them."""
    meters = Meters()
    for when, station, octets in messages:
        meters.now = when
        meters.count_in([octets])
        meters.keep_in(station, [octets])
    history = History(meters, lambda: [IMSI])
    while history.read_on(meters.messages):
        pass
    return history


def chart_of(messages, since=0.0, reasons=(), others=()):
    """The chart of these messages, as its tree of XML; nothing where there is none."""
    teller = types.SimpleNamespace(of_messages=dict(reasons), others=list(others))
    entries = ladder.entries_of(counted(messages).rows, teller, [IMSI], lambda when, name: when >= since)
    chart = ladder.drawn(entries, [IMSI])
    return xml.etree.ElementTree.fromstring(chart) if chart else None


def told(when, event, owner="e0", why=Why.NOT_SET_UP, **facts):
    """A reason as the model tells it."""
    return Reason(when, event, Telling(owner, 0, "a message", "is refused", why, facts))


def texts(chart, kind):
    return ["".join(text.itertext()) for text in chart.iter("text") if kind in text.get("class").split(" ")]


class Ladder(unittest.TestCase):
    def test_chart(self):
        """Well-formed, the newest first, the stations that spoke last alone, and no more messages than are shown."""
        messages = [(1000.0 + number, number % 20, SETUP) for number in range(400)]
        chart = chart_of(messages)
        self.assertEqual(texts(chart, "lane"), ["station %d" % number for number in range(14, 20)] + ["MME"])
        arrows = [line for line in chart.iter("line") if line.get("class") == "arrow"]
        self.assertLessEqual(len(arrows), ladder.MOST_ROWS)
        times = texts(chart, "time")
        self.assertEqual((times[0], sorted(times, reverse=True)), ("00:23:19.000", times))
        self.assertIsNone(chart_of(messages, 5000.0))

    def test_any_octets(self):
        """What stations send is shown, and never taken for a part of the page."""
        for octets in (b"", b"\xff", b"<script>", bytes(1024), ERROR):
            self.assertEqual(len(texts(chart_of([(1.0, 0, octets)]), "label")), 1)

    def test_reasons(self):
        """What has a reason is red, the reason stands below it, and no wider than the chart; what else was told stands between the
        messages, of one event a few."""
        reasons = {(0, 2): [told(2.0, 2, station=7, line=1)]}
        others = [told(2.5, 3, "s0", Why.STATION_GONE, station=7, how="was lost", clause=SCTP)] * 20
        chart = chart_of([(float(number), 0, SETUP) for number in range(1, 4)], 0.0, reasons, others)
        arrows = [line.get("class") for line in chart.iter("line") if "arrow" in line.get("class")]
        self.assertEqual(arrows, ["arrow", "arrow fault", "arrow"])
        words = " ".join(texts(chart, "reason"))
        self.assertEqual(words.count("station 7 isn't set up (TS 36.413 clause 8.7.3.1)"), 1)
        self.assertEqual(words.count("station 7 was lost, which ended the phone's connection (TS 36.412 clause 7)"),
                         ladder.MOST_OF_EVENT)
        self.assertEqual(texts(chart, "phone"), [IMSI] * ladder.MOST_OF_EVENT)


class Names(unittest.TestCase):
    """Whose messages are."""

    def names(self, imsis, lines):
        """The names of the messages of these lines of a trace and of answers."""
        meters = Meters()
        for line in lines:
            word, *fields = line.split(" ")
            if word == "in":
                meters.count_in([bytes.fromhex(fields[1])])
                meters.keep_in(int(fields[0]), [bytes.fromhex(fields[1])])
            else:
                meters.count_out([bytes.fromhex(fields[2])])
                meters.keep_out([(int(fields[1]), True, bytes.fromhex(fields[2]), fields[0].encode())])
        history = History(meters, lambda: imsis)
        while history.read_on(meters.messages):
            pass
        return [row.who.name for row in history.rows]

    def test_phone(self):
        """Each message of a phone has its IMSI, from the first one on, where that names it by a number of the MME's too; so has
        PAGING; a station's own message has nobody's."""
        trace = PHONES.Trace()
        phone, station = PHONES.Phone(trace, 1, [PHONES.Vector.made("page")]), PHONES.Station(0)
        phone.attaches(station, 5)
        phone.is_released()
        phone.asks_for_service(station, 6)
        heard, sent = [line for line in trace.lines if line.startswith("in ")], trace.answers
        self.assertEqual(set(self.names([IMSI, phone.imsi], [heard[0], *sent[:-1], *heard[1:], sent[-1]])), {phone.imsi})
        paging = "out s1 0 " + lte.paging(trace.network, phone.imsi, 1 << 16 | 1, 1).hex()
        self.assertEqual(self.names([IMSI, phone.imsi], [paging, "in 0 " + SETUP.hex()]), [phone.imsi, ""])

    def test_stranger(self):
        """Who isn't provisioned has the IMSI that it says, or is a stranger; the next one under its eNB UE S1AP ID is another."""
        trace = PHONES.Trace()
        station = PHONES.Station(0)

        def first(identity):
            esm = lte.pdn_connectivity_request(1, 1, False)
            return "in 0 " + lte.initial_ue_message(
                trace.network, station, 5, lte.attach_request(1, identity, b"\xe0\x60", esm)).hex()

        answer = "out x0.5 0 " + lte.downlink_nas(1 << 31 | 5, 5, bytes([7, 0x55, 1])).hex()
        lines = [first(lte.imsi_identity("001019999999999")), answer, first(lte.guti(trace.network, 9 << 16)), answer]
        self.assertEqual(self.names([IMSI], lines), ["001019999999999"] * 2 + [STRANGER] * 2)
        served = "out s0 0 " + lte.downlink_nas(5, 5, bytes([7, 0x52])).hex()
        self.assertEqual(self.names([IMSI], [lines[2], answer, served]), [IMSI] * 3)

    def test_much(self):
        """Of more messages than are kept the last are read, a piece at a time."""
        meters = Meters()
        history = History(meters, lambda: [], 100)
        for _ in range(3 * RECENT):
            meters.count_in([SETUP])
            meters.keep_in(0, [SETUP])
        pieces = 1
        while history.read_on(meters.messages):
            pieces += 1
        self.assertEqual((pieces, len(history.rows)), (-(-100 // history_of_page.PIECE), 100))
        self.assertEqual([row.place for row in history.rows], list(range(3 * RECENT - 99, 3 * RECENT + 1)))
