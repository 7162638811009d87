"""The page of tools/front as a browser shows it, on a wide screen and on a narrow one, with what stations and phones sent; and its
reasons beside those of tools/explain. With PICTURES=FOLDER it leaves pictures of the page there."""
import os
import pathlib
import re
import subprocess
import sys
import unittest

from tests.tools import tools
from tests.tools.browsing import IS_MISSING, Browser
from tests.tools.fronted import HEAD, IMSI, PROGRAM
from tests.tools.test_front_page import ERROR, PHONES, SETUP, Spoken, lte
from tests.tools.test_front_traffic import COUNTED, Gateway

WIDE, NARROW = 1280, 420
ENB_NAME, ENB_ID, TACS = 60, 0x1A2B3, (1, 0x2A)
NAME = '<img src="/x"> & "Nord"\x1b\u0085'  # of a station, with what would change the page or a terminal
SHOWN_NAME = '<img src="/x"> & "Nord"\\x1b\\x85'
OTHER = "001019999999999"  # nobody's IMSI
WHOLE_PAGE = "document.documentElement"
# What stands further to the right than the screen has room for, but for what scrolls.
TOO_WIDE = """[...document.querySelectorAll("body *")].filter(each => each.getBoundingClientRect().right > %d + 0.5
    && !each.parentElement.closest(".wide")).map(each => each.outerHTML.slice(0, 80))"""
SCROLLING = """[...document.querySelectorAll(".wide")].filter(each => each.scrollWidth > each.clientWidth).length"""
ROWS = """[...document.querySelectorAll("h2")].find(each => each.textContent == %r).nextElementSibling.querySelectorAll("tr")"""
TABLE = "[...%s].map(row => [...row.children].map(cell => cell.textContent))" % ROWS
# Of an explanation, what it says and its clause.
EXPLAINED = re.compile(r"! line \d+, \d+ s: (.*) \(([^()]*?)(; line [\d, ]+)?\)")
ATTACH = ["INITIAL UE MESSAGE · ATTACH REQUEST", "DOWNLINK NAS TRANSPORT · AUTHENTICATION REQUEST",
          "UPLINK NAS TRANSPORT · AUTHENTICATION RESPONSE", "DOWNLINK NAS TRANSPORT · SECURITY MODE COMMAND",
          "UPLINK NAS TRANSPORT · SECURITY MODE COMPLETE", "INITIAL CONTEXT SETUP REQUEST · ATTACH ACCEPT",
          "INITIAL CONTEXT SETUP RESPONSE", "UPLINK NAS TRANSPORT · ATTACH COMPLETE"]


def set_up_request(network):
    """S1 SETUP REQUEST of a station with a name and two areas."""
    name = NAME.encode("latin-1")
    areas = lte.Bits().whole(len(TACS), 1, 256)
    for tac in TACS:
        areas.put(0, 2).put(tac, 16).whole(1, 1, 6).octets(network.s1ap_plmn)
    return lte.s1ap(lte.INITIATING, 17, lte.REJECT, (lte.REJECT, lte.enb_identity(network, ENB_ID)),
                    (lte.IGNORE, (ENB_NAME, lte.Bits().put(0, 1).whole(len(name), 1, 150).octets(name).done())),
                    (lte.REJECT, (64, areas.done())), (lte.IGNORE, (137, lte.bits((0, 1), (2, 2)))))


@unittest.skipIf(IS_MISSING, "no chromium")
class Browsed(Spoken):
    """A front with its page in a browser."""

    @classmethod
    def setUpClass(cls):
        cls.browser = cls.enterClassContext(Browser())

    def open(self, width, query=""):
        self.browser.open("http://127.0.0.1:%d/%s" % (self.port, query), width)

    def texts(self, selector):
        return self.browser.value("[...document.querySelectorAll(%r)].map(each => each.textContent)" % selector)

    def shows(self, words, width=WIDE, query=""):
        """Whether the page, opened anew, has these words, on however many lines."""
        self.open(width, query)
        return words in " ".join(self.browser.value(WHOLE_PAGE + ".textContent").split())

    def looks(self, name):
        """Leaves a picture, where these are asked for; no part of the page but what scrolls is wider than the screen."""
        width = self.browser.value(WHOLE_PAGE + ".clientWidth")
        self.assertEqual(self.browser.value(TOO_WIDE % width), [])
        self.assertLessEqual(self.browser.value(WHOLE_PAGE + ".scrollWidth"), width)
        if "PICTURES" in os.environ:
            self.browser.picture(pathlib.Path(os.environ["PICTURES"]) / ("%s-%d.png" % (name, width)))
        return width


class AnyMme(Browsed):
    """With a program that sends each message back in the MME's place."""

    def test_station(self):
        """A station's eNB ID, name and TACs, whatever it calls itself; the version; the log; and what it may not send, in red."""
        running = self.running("--page-host", "mme.example")
        station, silent = running.station(), running.station()
        request = set_up_request(PHONES.Network())
        for octets in (request, SETUP, ERROR):
            self.assertEqual(station.says(octets), octets)
        running.until(lambda: self.shows("only an MME sends this message"))
        [version] = self.texts("h1")
        self.assertIn((tools.TOP / "VERSION").read_text().strip(), version)
        heads, first, second = self.browser.value(TABLE % "Stations")
        told = dict(zip(heads, first))
        self.assertEqual([told[head] for head in ("Station", "eNB ID", "Name", "TACs", "Address", "Messages in")],
                         ["0", "1a2b3", SHOWN_NAME, "0001 002a", "127.0.0.1", "3"])
        self.assertEqual(dict(zip(heads, second))["eNB ID"], "–")
        self.assertEqual(self.texts("img, script"), [])
        log = [row[:4:2] + row[3:] for row in self.browser.value(TABLE % "Log")[1:]]
        self.assertEqual(log, [[what, "1 of 16", "yes"] for what in ("what happened", "what counts")])
        self.assertEqual(self.texts("line.fault ~ text.label.fault")[0], "S1 SETUP RESPONSE")
        self.assertEqual(self.looks("station"), WIDE)
        self.open(NARROW)
        self.assertEqual(self.looks("station"), NARROW)
        silent.close()

    def test_tunnels(self):
        """A gateway, and each phone's tunnel with its packets: all of it has room on a wide screen."""
        running = self.running()
        Gateway(self, running, {IMSI: COUNTED}, address="255.255.255.254", passed=[1 << 40] * 4)
        running.until(lambda: self.shows("Gateways"))
        for width in (WIDE, NARROW):
            self.open(width)
            self.assertEqual(self.browser.value(TABLE % "Tunnels")[1][3:], list(map(str, COUNTED)))
            self.assertEqual(self.browser.value(TABLE % "Gateways")[1][4:8], [str(1 << 40)] * 4)
            self.assertEqual(self.looks("tunnels"), width)
            if width == WIDE:
                self.assertEqual(self.browser.value(SCROLLING), 0)

    def test_nothing_yet(self):
        self.running(head=HEAD.splitlines()[0] + "\n")
        for width in (WIDE, NARROW):
            self.assertTrue(self.shows("No station is connected.", width))
            self.assertEqual(self.looks("nothing"), width)


@unittest.skipUnless(PROGRAM.exists(), "the program isn't built (./mme --prove)")
class Run(Browsed):
    """With the MME: one phone attaches and says its last message twice, one has another key, and one isn't provisioned."""

    def setUp(self):
        here, other = self.provision(5, 1)
        cell, network = PHONES.Station(0), self.trace.network
        self.begin()
        self.assertEqual(self.station.says(set_up_request(network)), lte.s1_setup_response(network))
        self.says(*here.attach_steps(cell, 1), again=True)
        self.says(lambda: other.asks_to_attach(cell, 2), lambda: other.sends(lte.authentication_response(bytes(8))))
        esm = lte.pdn_connectivity_request(1, 1, False)
        stranger = lte.attach_request(1, lte.imsi_identity(OTHER), b"\xe0\x60", esm)
        self.says(lambda: self.trace.hear(cell, lte.initial_ue_message(network, cell, 3, stranger)))
        self.vectors = [*here.vectors, *other.vectors]
        self.front.until(lambda: self.shows("nobody is provisioned with IMSI " + OTHER))

    def explained(self):
        """What tools/explain says of the log."""
        words = [sys.executable, "-B", tools.TOP / "tools" / "explain", "--brief", "--mme", PROGRAM, self.front.log]
        done = subprocess.run(words, stdout=subprocess.PIPE, text=True, check=True)
        return sorted("%s (%s)" % EXPLAINED.fullmatch(line).groups()[:2] for line in done.stdout.splitlines() if line[:1] == "!")

    def test_reasons(self):
        """What has a reason is red, the newest first, with the words of tools/explain, the lines of the log in them too."""
        explained = self.explained()
        self.assertEqual(len(explained), 3)
        words = " ".join(self.texts("text.reason"))
        for reason in explained:
            self.assertEqual(words.count(reason), 1, reason)
        self.assertEqual(len(words), len(" ".join(explained)))
        red = self.texts("text.label.fault")
        self.assertEqual(red, ["INITIAL UE MESSAGE · ATTACH REQUEST", "UPLINK NAS TRANSPORT · AUTHENTICATION RESPONSE",
                               "UPLINK NAS TRANSPORT · ATTACH COMPLETE"])
        colours = self.browser.value("""["line.arrow.fault", "line.arrow:not(.fault)"].map(each =>
            getComputedStyle(document.querySelector(each)).stroke)""")
        self.assertEqual(colours, ["rgb(179, 38, 30)", "rgb(11, 98, 196)"])

    def test_whole_page(self):
        """The ladder stands above the phones, and each arrow of a phone has its name; each phone has its station, its address and
        the vectors that it has left. No key is there."""
        places = self.browser.value("""["svg", "a[href^='/?imsi']"].map(each =>
            [...document.querySelectorAll(each)].at(-1).getBoundingClientRect().top)""")
        self.assertLess(*places)
        times = self.texts("svg .time")
        if times[0] < times[-1]:  # past midnight
            times = ["next day " + time if time < "12" else time for time in times]
        self.assertEqual(times, sorted(times, reverse=True))
        names = self.texts("svg .phone")
        self.assertEqual({name: names.count(name) for name in names}[IMSI], len(ATTACH) + 1)
        self.assertIn(OTHER, names)
        self.assertLess(names.index(OTHER), names.index(IMSI))
        heads, *rows = self.browser.value(TABLE % "Phones")
        self.assertEqual(heads, ["IMSI", "Address", "EMM", "ECM", "ESM", "Station", "Vectors left"])
        self.assertEqual(rows, [
            [IMSI, "10.0.0.1", "REGISTERED", "CONNECTED", "ACTIVE", "0 " + SHOWN_NAME, "4"],
            ["001010000000002", "10.0.0.2", "DEREGISTERED", "IDLE", "INACTIVE", "0 " + SHOWN_NAME, "0"]])
        self.assertEqual(self.texts("td .alarm"), ["0"])
        page = self.browser.value(WHOLE_PAGE + ".outerHTML").lower()
        for vector in self.vectors:
            for octets in (vector.xres, vector.kasme, vector.autn):
                self.assertNotIn(octets.hex(), page)
        self.assertEqual(self.looks("run"), WIDE)
        self.assertEqual(self.browser.value(SCROLLING), 0)

    def test_phone(self):
        """A click on a phone leads to its own messages, and back."""
        self.browser.click('svg a[href="/?imsi=%s"]' % IMSI)
        self.assertEqual(self.browser.value("location.search"), "?imsi=" + IMSI)
        self.assertEqual(self.texts("svg .label"), [ATTACH[-1], *reversed(ATTACH)])
        self.assertEqual(set(self.texts("svg .phone")), {IMSI})
        self.assertEqual(self.texts("td")[:2], [IMSI, "10.0.0.1"])
        self.assertEqual(self.looks("phone"), WIDE)
        self.browser.click('a[href="/"]')
        self.assertEqual(self.browser.value("location.search"), "")

    def test_narrow(self):
        """On a narrow screen what is wider scrolls by itself: the chart to the MME's lane, and the tables to their last columns.
        Reasons needn't."""
        for query, name in (("", "run"), ("?imsi=" + IMSI, "phone")):
            self.open(NARROW, query)
            self.assertEqual(self.looks(name), NARROW)
            reasons = "[...document.querySelectorAll('.reason')].map(each => each.getBoundingClientRect().right)"
            self.assertLessEqual(max(self.browser.value(reasons)), NARROW)
            reached = self.browser.value("""[...document.querySelectorAll(".wide")].map(each => { each.scrollLeft = 1e6;
                return each.lastElementChild.getBoundingClientRect().right <= each.getBoundingClientRect().right + 1; })""")
            self.assertEqual(set(reached), {True})
        for width in (NARROW, WIDE):
            self.station.close()
            self.front.until(lambda: self.shows("(gone)", width))  # pylint: disable=cell-var-from-loop
            self.assertEqual(self.looks("gone"), width)
