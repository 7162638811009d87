"""tools/front that tells a source where phones are (TS 29.272 clauses 5.2.1.1 and 5.2.1.3) and does what it orders: what is said of
a phone and when, after ends of source and front, and how floods and orders of nobody are refused. The MME is a stand-in here;
tests/library has the library's."""
import os
import pathlib
import shlex
import signal
import sys
import tempfile
import time
import types
import unittest
import unittest.mock

from reference import lte, phones as lte_phones
from tests.tools import test_front_asking, test_lab, tools
from tests.tools.asked import STANDING_IN
from tests.tools.fronted import IMSI
from tests.tools.handsets import REGISTERED, Radio, sim
from tests.tools.hss import CLR, PUR, REALM, RSR, ULR, USER_NAME, VENDOR, Hss, Subscriber, avp
from tools.fronting import limits, registering

SHORT, SHORTEST = ("--second", "0.2"), ("--second", "0.001")  # with the last a mobile reachable timer takes some seconds
NOBODY = "001019999999999"


class Told(test_front_asking.Asked):
    """Fronts whose phones have states, and a source that takes what is said of them, and orders."""

    patient = (STANDING_IN, "--states", "yes", "--held", "30", "--later", "1")

    def told(self, count, *words, oddities=(), **named):
        """A laboratory whose source says in its first line that it takes this."""
        lab = self.laboratory(count, "--resume", *words, oddities=["takes", *oddities], makes=self.make_orders, **named)
        return lab

    @staticmethod
    def make_orders(folder):
        os.mkfifo(folder / "asked.orders")

    def order(self, lab, *lines):
        with open(lab.folder / "asked.orders", "w", encoding="ascii") as file:
            file.write("".join(line + "\n" for line in lines))

    @staticmethod
    def said(lab):
        """What the source was told of phones."""
        return [tuple(line.split(" ")) for line in lab.running.asked() if not line.startswith("vectors")]

    def until_said(self, lab, *wanted, seconds=30):
        """Until the source was told this and no more, which it has been a moment later too."""
        wanted = [(word, lab.phones[place].imsi) for word, place in wanted]
        lab.radio.until(lambda: len(self.said(lab)) >= len(wanted), seconds)
        end = time.monotonic() + 0.2
        lab.radio.until(lambda: time.monotonic() > end)
        self.assertEqual(self.said(lab), wanted)

    def states(self, lab, states, place=0):
        """Until a phone has these states."""
        lab.radio.until(lambda: states in lab.running.asks("show", lab.phones[place].imsi))


class Where(Told):
    """What is said of phones."""

    def test_attach_and_detach(self):
        """`registered` once an attach is complete, again after another one, `gone` once after a detach."""
        lab = self.told(2)
        one, other = lab.phones
        self.assertEqual(one.attaches(), REGISTERED)
        self.until_said(lab, ("registered", 0))
        self.assertEqual(other.attaches(), REGISTERED)
        self.assertEqual(one.attaches(), REGISTERED)
        self.until_said(lab, ("registered", 0), ("registered", 1), ("registered", 0))
        one.detaches()
        self.until_said(lab, ("registered", 0), ("registered", 1), ("registered", 0), ("gone", 0))
        other.goes_idle()
        self.states(lab, "REGISTERED IDLE", 1)
        other.comes_back()
        self.states(lab, "REGISTERED CONNECTED", 1)
        self.assertEqual(len(self.said(lab)), 4)
        self.assertEqual(lab.running.stop()[0], 0)

    def test_by_hand(self):
        """`gone` after `ask .. cancel`, of an idle phone too, to which nothing is sent."""
        lab = self.told(1)
        self.assertEqual(lab.phones[0].attaches(), REGISTERED)
        lab.phones[0].goes_idle()
        self.states(lab, "REGISTERED IDLE")
        self.assertEqual(lab.running.asks("cancel", lab.phones[0].imsi), "taken\n")
        self.until_said(lab, ("registered", 0), ("gone", 0))

    def test_rejected(self):
        """A registered phone that begins an attach and can't finish it is gone; nothing is said of one that never was here."""
        lab = self.told(2, *SHORT)
        self.assertEqual(lab.phones[0].attaches(), REGISTERED)
        self.until_said(lab, ("registered", 0))
        challenged = []
        for phone in lab.phones:
            phone.is_challenged = lambda rand, autn: challenged.append(rand)
            phone.begins()
        lab.radio.until(lambda: len(set(challenged)) == 2)
        lab.radio.connection.close()
        lab.running.until(lambda: "DEREGISTERED" in lab.running.asks("show", lab.phones[0].imsi))
        lab.radio = Radio(lab.running)
        self.until_said(lab, ("registered", 0), ("gone", 0), seconds=60)

    def test_not_reachable(self):
        """A phone that is silent past its mobile reachable timer is gone, also in a front that didn't say that it was here."""
        lab = self.told(2)
        for phone in lab.phones:
            self.assertEqual(phone.attaches(), REGISTERED)
        self.until_said(lab, ("registered", 0), ("registered", 1))
        self.assertEqual(lab.running.stop()[0], 0)
        lab.begin(*SHORTEST)
        lab.running.until(lambda: len(self.said(lab)) == 4)
        self.assertEqual(sorted(self.said(lab)[2:]), [("gone", phone.imsi) for phone in lab.phones])
        self.assertIn("DEREGISTERED IDLE", lab.running.asks("show", lab.phones[0].imsi))
        self.assertEqual(lab.running.stop()[0], 0)

    def test_not_taken(self):
        """A source that doesn't say that it takes this is told nothing of it."""
        lab = self.laboratory(1, oddities=[])
        self.assertEqual(lab.phones[0].attaches(), REGISTERED)
        lab.phones[0].detaches()
        self.states(lab, "DEREGISTERED")
        self.assertEqual(lab.phones[0].attaches(), REGISTERED)
        self.assertEqual(self.said(lab), [])
        self.assertEqual(lab.running.stop()[0], 0)


    def test_short_source(self):
        """The short source of docs/LAB.md supplies a phone, and hears no word that it doesn't know."""
        folder = pathlib.Path(self.enterContext(tempfile.TemporaryDirectory()))
        program, imsi, made = folder / "source", sim(1)[0], folder / "vectors"
        [text] = [text for text in test_lab.blocks(test_lab.DOCUMENT.read_text()) if "cat >$lab/source" in text]
        program.write_text(text.partition("<<'END'\n")[2].partition("\nEND\n")[0] + "\n")
        (folder / "stock").mkdir()
        lab = self.laboratory(1, "--source", shlex.join(["sh", str(program), str(folder / "stock")]), oddities=None)
        done = tools.ran("vectors", "--sims", lab.folder / "sims", "--plmn", "001", "01", "--sqn", "000000000020", "--count", "40")
        made.write_text("".join(line + "\n" for line in done.stdout.decode().splitlines() if line.startswith("vec ")))
        made.rename(folder / "stock" / imsi)
        for _ in range(3):
            self.assertEqual(lab.phones[0].attaches(), REGISTERED)
            lab.phones[0].detaches()
            self.states(lab, "DEREGISTERED")
        self.assertNotIn(b"registered", lab.running.said())
        self.assertNotIn(b"gone", lab.running.said())
        self.assertEqual(lab.running.stop()[0], 0)


class Again(Told):
    """What is said again."""

    def test_source_killed(self):
        """What a source didn't answer is said to the next one; what it did isn't."""
        lab = self.told(2, oddities=["001010000000002=unheard"])
        for phone in lab.phones:
            self.assertEqual(phone.attaches(), REGISTERED)
        self.until_said(lab, ("registered", 0), ("registered", 1))
        os.kill(lab.running.source(), signal.SIGKILL)
        self.until_said(lab, ("registered", 0), ("registered", 1), ("registered", 1))
        lab.phones[1].detaches()
        self.states(lab, "DEREGISTERED", 1)
        os.kill(lab.running.source(), signal.SIGKILL)
        lab.radio.until(lambda: self.said(lab)[-1] == ("gone", lab.phones[1].imsi), 60)
        self.assertEqual(lab.phones[0].attaches(), REGISTERED)

    def test_front_killed(self):
        """A front that goes on says that a phone is registered at its next contact, and that one is gone that detaches."""
        lab = self.told(3)
        for phone in lab.phones:
            self.assertEqual(phone.attaches(), REGISTERED)
        self.until_said(lab, *(("registered", place) for place in range(3)))
        lab.running.process.kill()
        lab.running.ended()
        before = len(self.said(lab))
        lab.begin()
        self.assertIn(b"goes on", lab.running.told)
        one, other, _ = lab.phones
        one.comes_back()
        lab.radio.until(lambda: self.said(lab)[before:] == [("registered", one.imsi)])
        other.comes_back()
        lab.radio.until(lambda: self.said(lab)[before + 1:] == [("registered", other.imsi)])
        other.detaches()
        lab.radio.until(lambda: self.said(lab)[before + 2:] == [("gone", other.imsi)])
        one.goes_idle()
        self.states(lab, "REGISTERED IDLE")
        one.comes_back()
        self.states(lab, "REGISTERED CONNECTED")
        self.assertEqual(len(self.said(lab)) - before, 3)
        self.assertEqual(lab.running.stop()[0], 0)


    def test_gone_before(self):
        """Of one that had left before a front was killed it is said to the next source, and nothing of one that never was here."""
        lab = self.told(3, oddities=["001010000000002=unheard"])
        one, other, _ = lab.phones
        for phone in (one, other):
            self.assertEqual(phone.attaches(), REGISTERED)
        other.detaches()
        self.states(lab, "DEREGISTERED", 1)
        self.until_said(lab, ("registered", 0), ("registered", 1))
        lab.running.process.kill()
        lab.running.ended()
        lab.begin()
        self.until_said(lab, ("registered", 0), ("registered", 1), ("gone", 1))
        self.assertEqual(lab.running.stop()[0], 0)


class Ordered(Told):
    """What a source orders."""

    def test_cancel(self):
        """An event of the MME that stands in the log as one, of which nothing is said; the phone may attach again."""
        lab = self.told(2)
        for phone in lab.phones:
            self.assertEqual(phone.attaches(), REGISTERED)
        self.until_said(lab, ("registered", 0), ("registered", 1))
        self.order(lab, "cancel " + lab.phones[0].imsi)
        self.states(lab, "DEREGISTERED")
        self.assertEqual(lab.running.events().count("cancel " + lab.phones[0].imsi), 1)
        self.assertIn("REGISTERED CONNECTED", lab.running.asks("show", lab.phones[1].imsi))
        self.until_said(lab, ("registered", 0), ("registered", 1))
        self.assertEqual(lab.phones[0].attaches(), REGISTERED)
        self.until_said(lab, ("registered", 0), ("registered", 1), ("registered", 0))
        self.assertEqual(lab.running.stop()[0], 0)

    def test_reset(self):
        """After `reset` each phone is said to be registered again at its next contact, once; after one with digits only those
        whose IMSIs begin so."""
        lab = self.told(2)
        for phone in lab.phones:
            self.assertEqual(phone.attaches(), REGISTERED)
            phone.goes_idle()
        said = [("registered", 0), ("registered", 1)]
        self.until_said(lab, *said)
        for order, places in (("reset", (0, 1)), ("reset 001010000000002", (1,)), ("reset 0010200", ())):
            with self.subTest(order=order):
                self.order(lab, order)
                lab.running.until(lambda order=order: order.partition(" ")[2].encode() in lab.running.said().partition(
                    b"that begin with ")[2] if " " in order else b"orders `reset`: phones are" in lab.running.said())
                self.until_said(lab, *said)
                for place, phone in enumerate(lab.phones):
                    for _ in range(2):
                        phone.comes_back()
                        self.states(lab, "REGISTERED CONNECTED", place)
                        phone.goes_idle()
                        self.states(lab, "REGISTERED IDLE", place)
                    said += [("registered", place)] if place in places else []
                    self.until_said(lab, *said)
        self.assertEqual(lab.running.stop()[0], 0)

    def test_wrong(self):
        """Orders that are none, and those for nobody, are refused in words; others are served."""
        lab = self.told(1)
        self.order(lab, "cancel " + NOBODY, "cancel", "cancel x", "reset x", "reset 1 2", "registered " + NOBODY, "takes gone",
                   "cancel " + "ab" * 16)
        for text in (b"orders `cancel %s`, whom nobody has (5)" % NOBODY.encode(), b"tells a line that is no answer",
                     b"tells of an IMSI that it wasn't asked for"):
            lab.running.until(lambda text=text: text in lab.running.said())
        self.assertNotIn(b"abab", lab.running.said())
        self.assertEqual(lab.phones[0].attaches(), REGISTERED)
        self.assertNotIn("cancel", lab.running.log.read_text())
        self.assertEqual(lab.running.stop()[0], 0)

    def test_flood(self):
        """One that orders without end is refused, and delays no station."""
        for order in ("cancel " + NOBODY, "reset", "cancel 001010000000001"):
            with self.subTest(order=order):
                lab = self.laboratory(1, "--source", "yes '%s'" % order, oddities=None)
                for _ in range(20):
                    begun = time.monotonic()
                    lab.radio.connection.says(lte.s1_setup_request(lab.radio.network, lab.radio.station))
                    self.assertLess(time.monotonic() - begun, 20 * limits.MOST_DELAY)
                lab.running.until(lambda: b"the source tells only what can't be taken, and is ended" in lab.running.said())
                self.assertLess(lab.running.log.read_text().count("cancel"), 500)
                self.assertEqual(lab.running.stop()[0], 0)


class OfAnHss(Told):
    """A front whose source is tools/s6a, with an HSS."""

    MME = "mme1." + REALM

    def test_life(self):
        """Who isn't provisioned is added, the HSS knows where he is, cancels and resets, and knows that he has left; only what is
        so is said again."""
        imsi, _, card = sim(1)
        subscriber = Subscriber(card)
        home = Hss({imsi: subscriber})
        self.addCleanup(home.close)
        words = [sys.executable, "-B", tools.TOP / "tools" / "s6a", "127.0.0.1:%d" % home.port, "--host", self.MME,
                 "--realm", REALM, "--plmn", "001", "01"]
        lab = self.laboratory(1, *test_front_asking.POOL, "--source", shlex.join(map(str, words)), provisioned=False, oddities=None)
        [phone], counts = lab.phones, lambda: (len(home.of(ULR)), len(home.of(PUR)))
        self.assertEqual(phone.attaches(), REGISTERED)
        lab.radio.until(lambda: subscriber.mme == self.MME)
        order = home.head(self.MME) + avp(USER_NAME, phone.imsi) + avp(1420, 2, VENDOR)
        self.assertIsNotNone(home.orders(CLR, order))
        self.states(lab, "DEREGISTERED")
        self.assertEqual((lab.running.events().count("cancel " + phone.imsi), counts()), (1, (1, 0)))
        self.assertEqual(phone.attaches(), REGISTERED)
        lab.radio.until(lambda: counts() == (2, 0))
        phone.goes_idle()
        self.states(lab, "REGISTERED IDLE")
        self.assertIsNotNone(home.orders(RSR, home.head(self.MME)))
        lab.running.until(lambda: b"orders `reset`" in lab.running.said())
        phone.comes_back()
        lab.radio.until(lambda: counts() == (3, 0))
        phone.detaches()
        lab.radio.until(lambda: subscriber.mme is None)
        self.assertEqual(counts(), (3, 1))
        self.assertEqual(lab.running.stop()[0], 0)


class Apart(Told, test_front_asking.Alone):
    """What one phone's source does is nobody else's."""

    def laboratory(self, *given, oddities=(), **named):
        return super().laboratory(*given, oddities=["takes", *oddities], **named)

    def test_alone(self):
        """Nine phones are sent the same octets beside a phone of whom nothing that is said is answered, that ends the source, or
        whose registration is always to end."""
        wanted = self.lives("")
        self.assertGreater(min(map(len, wanted.values())), 7)
        for oddity in ("unheard", "never", "dies", "cancelled"):
            with self.subTest(oddity=oddity):
                self.assertEqual(self.lives(oddity), wanted)


class Words(unittest.TestCase):
    """The order of what is said, by a source that is told it here."""

    def setUp(self):
        test_front_asking.Requests.setUp(self)
        self.asks, self.now = [], []
        self.front.aside, self.front.resumed = types.SimpleNamespace(do=self.now.append), 0
        self.front.exchange.ask = lambda lines, note, after: self.asks.append((lines, note, after))
        self.front.exchange.has_room, self.front.exchange.held_since = True, None
        self.registering, self.imsis = self.asking.registering, [IMSI, *test_front_asking.OTHERS]

    def takes(self):
        self.asking.take("takes registered gone")

    def states(self, *states):
        """The MME's answers to the next question."""
        while not self.asks:
            self.now.pop(0)()
        lines, note, after = self.asks.pop(0)
        self.assertEqual(len(lines), len(states))
        for line, text in zip(lines, states):
            note(types.SimpleNamespace(imsi=line.removeprefix("show "), states=text))
        after()

    def attach(self, *slots):
        for slot in slots:
            self.registering.note_attached(slot)

    def test_first_line(self):
        """Nothing is said before the source's first line, and nothing at all if that says nothing of it."""
        self.attach(0)
        self.assertEqual(self.told, [])
        self.takes()
        self.assertEqual(self.told, ["registered " + IMSI])
        self.asking.has_ended()
        self.asking.begins()
        self.attach(1)
        self.assertEqual(len(self.told), 1)
        self.asking.take("unknown " + IMSI)
        self.attach(2)
        self.assertEqual((len(self.told), self.registering.size, self.asking.told, self.asking.suspected), (1, 0, 0, 0))
        self.takes()  # too late
        self.assertEqual(self.said[-1], "tells a line that is no answer")

    def test_one_after_another(self):
        """Of a phone one thing is said at a time, and the last is what is so; of others meanwhile."""
        self.takes()
        self.attach(0, 1)
        self.registering.look(0)
        self.states("DEREGISTERED IDLE INACTIVE")
        self.assertEqual(self.told, ["registered " + imsi for imsi in self.imsis[:2]])
        self.asking.take("registered " + IMSI)
        self.assertEqual(self.told[2:], ["gone " + IMSI])
        self.asking.take("gone " + IMSI)
        self.registering.look(0)
        self.states("DEREGISTERED IDLE INACTIVE")
        self.assertEqual(len(self.told), 3)

    def test_contacts(self):
        """The answers to SERVICE REQUEST, TRACKING AREA UPDATE REQUEST and PATH SWITCH REQUEST are, and nothing that is sent to one
        who attaches, is refused or is let go."""
        network = lte_phones.Network()
        subscriber = types.SimpleNamespace(gateway=bytes([10, 0, 0, 100]), teid=bytes(4), capability=b"\xe0\x60")
        esm, protection = lte.activate_default_bearer(network, 1, bytes(4), 1), b"\x27" + bytes(5)
        attach = protection + lte.attach_accept(network, 1, 5, 1, esm)
        for octets, wanted in (
                (lte.context_setup_request(network, 5, 6, subscriber, bytes(32)), True),
                (lte.context_setup_request(network, 5, 6, subscriber, bytes(32), attach), False),
                (lte.path_switch_acknowledge(5, 6, 1, bytes(32)), True),
                (lte.downlink_nas(5, 6, protection + lte.tau_accept(network, 1, 5, 0)), True),
                (lte.downlink_nas(5, 6, b"\x07\x4b\x09"), False), (lte.downlink_nas(5, 6, b"\x07\x4e\x09"), False),
                (lte.downlink_nas(5, 6, protection + lte.NETWORK_DETACH), False),
                (lte.downlink_nas(5, 6, b"\x37" + bytes(5) + lte.security_mode_command(0, b"\xe0\x60")), False),
                (lte.release_command(5, 6, lte.DETACHED), False), (lte.paging(network, IMSI, 5, 1), False)):
            with self.subTest(octets=octets.hex()):
                self.assertIs(registering.is_contact(octets), wanted)

    def test_in_order(self):
        """`later` and `unknown` answer what was told first of an IMSI."""
        self.takes()
        self.attach(0)
        self.asking.want(IMSI, lambda stale: self.over.append(stale))
        self.asking.take("unknown " + IMSI)
        self.assertEqual(self.over, [])
        self.assertIn("the source doesn't take `registered %s`: it doesn't know it" % IMSI, self.said)
        self.attach(0)
        self.asking.take("later " + IMSI)
        self.assertEqual(self.over, [[]])
        self.asking.take("registered " + IMSI)
        self.assertEqual((self.asking.told, self.registering.size), (0, 0))

    def test_later(self):
        """What isn't answered is said again after a while, as it is then."""
        self.takes()
        for how in ("later", "silence"):
            with self.subTest(how=how):
                self.attach(0)
                count = len(self.told)
                if how == "later":
                    self.asking.take("later " + IMSI)
                else:
                    self.asking.look(time.monotonic() + limits.SUPPLY_SECONDS + 1)
                self.registering.tick(limits.LATER_SECONDS - 1)
                self.assertEqual(self.now, [])
                self.registering.tick(1)
                self.states("DEREGISTERED IDLE INACTIVE")
                self.assertEqual(self.told[count:], ["gone " + IMSI])
                self.asking.take("gone " + IMSI)
                self.now.clear()
                self.registering.is_asking = False

    def test_ends(self):
        """What always ends the source isn't said a fourth time; vectors are asked for before it, and what others wait for comes."""
        self.takes()
        self.attach(0)
        self.asking.want(self.imsis[1], lambda stale: self.over.append(stale))
        for times in range(3):
            self.asking.has_ended()
            self.asking.begins()
            self.takes()
            if not times:
                self.assertEqual(self.told[2:], ["vectors %s 2 001 01" % self.imsis[1]])
                test_front_asking.Requests.answer(self, self.imsis[1], 1, 2)
        self.assertEqual(self.told[3:], ["registered " + IMSI] * 2)
        self.assertEqual(self.over, [[]])
        self.assertIn("the source doesn't take `registered %s`: it ends at that" % IMSI, self.said)
        self.assertEqual((self.asking.told, self.asking.suspected, self.registering.size), (0, 0, 0))
        self.attach(1)
        self.assertEqual(self.told[5:], ["registered " + self.imsis[1]])

    def test_not_too_many(self):
        """So many words are under way at a time, and the next one once one is answered."""
        self.takes()
        with unittest.mock.patch.object(limits, "MOST_SAYING", 2):
            self.attach(0, 1, 2)
            self.assertEqual(len(self.told), 2)
            self.asking.take("registered " + self.imsis[1])
            self.assertEqual(self.told[2:], ["registered " + self.imsis[2]])

    def test_cancelled_before(self):
        """`cancel` while `registered` isn't answered: what is said in the end is what is so, and nothing once it is over."""
        self.takes()
        self.attach(0)
        self.asking.take("cancel " + IMSI)
        self.assertEqual(self.put, ["cancel " + IMSI])
        self.asking.take("registered " + IMSI)
        for act in self.front.exchange.batch.after:
            act()
        self.states("DEREGISTERED IDLE INACTIVE")
        self.assertEqual(self.told[1:], ["gone " + IMSI])

    def test_many_orders(self):
        """A hundred registrations are ended in a second, the others after that; what waits is told by `cancel` once."""
        self.takes()
        with unittest.mock.patch.object(limits, "CANCELS", 2):
            self.registering.pace = registering.Pace(2)
            for imsi in self.imsis:
                self.asking.take("cancel " + imsi)
            self.assertEqual(self.put, ["cancel " + imsi for imsi in self.imsis[:2]])
            self.asking.take("cancel " + self.imsis[2])
            self.assertEqual(self.said[-1], "orders `cancel` again, which isn't done yet")
            time.sleep(0.6)
            self.timers[-1][1]()
            self.assertEqual(self.put[2:], ["cancel " + self.imsis[2]])

    def test_many_resets(self):
        """After too many beginnings of IMSIs, `reset` is of all."""
        self.takes()
        self.attach(0)
        self.asking.take("registered " + IMSI)
        self.assertFalse(self.registering.is_stale(0))
        for digits in range(limits.MOST_RESETS):
            self.asking.take("reset 9%04d" % digits)
        self.assertEqual((len(self.registering.resets), self.registering.is_stale(0)), (1, True))


if __name__ == "__main__":
    unittest.main()
