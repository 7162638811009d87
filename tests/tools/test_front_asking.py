"""tools/front that asks a source for vectors: who has none waits and is let in, stocks, phones whose SQN is ahead, who is added, a
source that is slow, dead or wrong, and a log that is taken up. The MME is a stand-in here; tests/library has the library's."""
import contextlib
import json
import os
import random
import re
import shlex
import signal
import subprocess
import tempfile
import time
import types
import unittest
import unittest.mock
import urllib.request

from bench.etcds import MISSING, PROGRAM as ETCD, Members, free_port
from reference import lte
from tests.tools import fronted, tools
from tests.tools.asked import NETWORK, PATIENT, STANDING_IN, Asking, Laboratory
from tests.tools.fronted import IMSI
from tests.tools.handsets import GAVE_UP, REGISTERED, Handset, Radio
from tools import s1ap
from tools.fronting import asking, keys, limits, provisioning, stock
from tools.fronting.front import Front

NO_VECTOR, NOBODY = "rejected 17", "rejected 8"
NOBODYS_GUTI = bytes.fromhex("f600f11080010200010001")  # of another MME code
AHEAD = 1 << 20
OTHERS = ["001010000000002", "001010000000003"]
POOL, WIDE = ("--add", "10.45.0.1", "10.45.0.0/24"), ("--add", "10.45.0.1", "10.45.0.0/16")
ATTACHES, RESTARTS = int(os.environ.get("ATTACHES", "1000" if os.environ.get("CI") == "true" else "200")), 10
KILLS, AT_ONCE, OFTEN = 24, 500, ("--snapshot", "0.005,0.005")
SECONDS, ROOM = 3, 4  # for all who attach at once; how many times as much a machine with other work may take
STATES = re.compile(r"^\d+ REGISTERED ", re.MULTILINE)
KEY, LEFT = re.compile("[0-9a-f]{32}"), re.compile(r"vectors_left=(\d+)")


def initial(octets):
    return octets[1] == s1ap.INITIAL_UE


class StandingBy(Asking):
    """A front beside a store, until it leads."""

    READY = rb"follows the log in the store|" + Asking.READY


class Asked(unittest.TestCase):
    """Fronts with a stand-in: one that holds messages as long as it does, and one that has time for a source."""

    prompt, patient = (STANDING_IN,), PATIENT

    def laboratory(self, count, *words, prompt=False, limits=(), **named):
        """SIMs with a front, whose limits may be other ones, and a source that runs."""
        return Laboratory(self, count, *words, front=[*(self.prompt if prompt else self.patient), *limits], **named)


class Held(Asked):
    """Messages that wait for vectors."""

    def test_attaches(self):
        """A phone without a vector is let in: its vectors stand in the log right before its message, and more come beside."""
        lab = self.laboratory(1)
        self.assertEqual(lab.phones[0].attaches(), REGISTERED)
        imsi = lab.phones[0].imsi
        lab.running.until(lambda: "vectors_left=5" in lab.running.asks("phones"))
        lines = [line for line in lab.running.log.read_text().splitlines() if not line.startswith("# ")]
        place = next(at for at, line in enumerate(lines) if line.startswith("in 0 000c"))
        self.assertEqual([line.split(" ")[1:3] for line in lines[place - 2:place]], [["vec", imsi]] * 2)
        self.assertEqual(lab.running.asked(), ["vectors %s 2 001 01" % imsi, "vectors %s 4 001 01" % imsi])
        self.assertEqual(lab.running.stop()[0], 0)

    def test_stock(self):
        """From then on nobody waits, and a phone never has fewer than two left; each vector is asked for and used once."""
        lab = self.laboratory(1)
        for count in range(1, 31):
            self.assertEqual(lab.phones[0].attaches(), REGISTERED)
            lab.running.until(lambda: lab.running.given().count(("vec", lab.phones[0].imsi)) - count >= 2)
        self.assertEqual(len(set(lab.phones[0].heard)), 30)
        self.assertEqual(json.loads(self.told(lab)["source"])["held"], {"answered": 1})
        lab.running.until(lambda: lab.running.given().count(("vec", lab.phones[0].imsi)) == sum(
            int(line.split(" ")[2]) for line in lab.running.asked()))
        self.assertEqual(lab.running.stop()[0], 0)

    @staticmethod
    def told(lab):
        return dict(line.split(": ", 1) for line in lab.running.asks("counters").splitlines())

    def test_who_it_is(self):
        """By the GUTI that this MME gave, or by the answer to IDENTITY REQUEST where it is another's."""
        lab = self.laboratory(2)
        own = bytes.fromhex("f600f110800101") + (1 << 16 | 5).to_bytes(4, "big")
        self.assertEqual(lab.phones[1].attaches(own), REGISTERED)
        self.assertEqual(lab.phones[0].attaches(NOBODYS_GUTI), REGISTERED)
        lab.running.until(lambda: len(lab.running.asked()) == 4)
        self.assertEqual([line.split(" ")[1] for line in lab.running.asked() if " 2 001 01" in line], lab.imsis(1, 0))
        self.assertEqual(lab.running.stop()[0], 0)

    def test_protected(self):
        """An ATTACH REQUEST that is protected is one."""
        lab = self.laboratory(1)
        esm = lte.pdn_connectivity_request(1, 1, False)
        phone, nas = lab.phones[0], lte.attach_request(1, lte.imsi_identity(lab.phones[0].imsi), b"\xe0\x60", esm)
        phone.b = lab.radio.new_id(phone)
        lab.radio.send(lte.initial_ue_message(lab.radio.network, lab.radio.station, phone.b, b"\x17" + bytes(5) + nas))
        lab.radio.until(lambda: phone.outcomes)
        self.assertEqual(phone.outcomes, [REGISTERED])

    def test_late(self):
        """After two seconds a message goes as it is, and others are served meanwhile; vectors that come late are for next time."""
        lab = self.laboratory(3, prompt=True, oddities=["001010000000001=late"])
        late, *others = lab.phones
        late.begins()
        begun = time.monotonic()
        for _ in range(2):
            lab.attach(others)
        self.assertEqual(late.outcomes, [])
        lab.radio.until(lambda: late.outcomes)
        self.assertTrue(1.9 < time.monotonic() - begun < 5)
        self.assertEqual(late.outcomes, [NO_VECTOR])
        self.assertEqual([phone.outcomes for phone in others], [[REGISTERED] * 2] * 2)
        lab.running.until(lambda: lab.running.given().count(("vec", late.imsi)) == 2)
        self.assertEqual(late.attaches(), REGISTERED)

    def test_order(self):
        """What a phone's station says of it meanwhile comes after, and nobody else's message does."""
        lab = self.laboratory(2, prompt=True, oddities=["001010000000001=never"])
        held, other = lab.phones
        self.assertEqual(other.attaches(), REGISTERED)
        held.begins()
        after = [lte.uplink_nas(lab.radio.network, lab.radio.station, 0x10001, held.b, b"\x07\x60" + bytes([octet]))
                 for octet in (1, 2)]
        for octets in after:
            lab.radio.send(octets)
        other.m = other.m or 0x20001
        other.says(b"\x07\x60\x03")
        lab.running.until(lambda: "in 0 " + after[1].hex() in lab.running.log.read_text())
        said = [bytes.fromhex(line.split(" ")[2]) for line in lab.running.events() if line.startswith("in 0 ")]
        place = next(at for at, octets in enumerate(said) if held.b == s1ap.ids(s1ap.read(octets))[1])
        self.assertTrue(initial(said[place]))
        self.assertEqual(said[place + 1:], after)
        self.assertIn(b"\x07\x60\x03", said[place - 1])

    def test_reset(self):
        """A RESET and the station's loss come after what was held of it, which goes as it is."""
        lab = self.laboratory(1, oddities=["001010000000001=never"])
        for end in ("reset", "loss"):
            with self.subTest(end=end):
                lab.phones[0].begins()
                lab.running.until(lambda: len(lab.running.asked()) == 1)
                lab.radio.send(lte.reset()) if end == "reset" else lab.radio.connection.close()
                lab.running.until(lambda: lab.running.events()[-1].startswith("in 0 000e" if end == "reset" else "lost 0"))
                self.assertTrue(lab.running.events()[-2].startswith("in 0 000c"))
        self.assertEqual(lab.running.stop()[0], 0)

    def test_at_the_end(self):
        """A front that ends gives the MME what it holds."""
        lab = self.laboratory(1, oddities=["001010000000001=never"])
        lab.phones[0].begins()
        lab.running.until(lab.running.asked)
        self.assertEqual(lab.running.stop()[0], 0)
        self.assertEqual([line[:9] for line in lab.running.events()[-2:]], ["in 0 000c", "lost 0"])

    def test_room(self):
        """A station that has much held has no room for more: those messages go as they are, and another station's are held."""
        lab = self.laboratory(2, oddities=["001010000000001=never"])
        greedy, other = lab.phones[0], Handset(Radio(lab.running, 1), *lab.sims[1][::2])
        esm = lte.pdn_connectivity_request(1, 1, False)
        nas = lte.attach_request(1, lte.imsi_identity(greedy.imsi), b"\xe0\x60", esm)
        many = [lte.initial_ue_message(lab.radio.network, lab.radio.station, number, nas) for number in range(1, 1501)]
        for octets in many:
            lab.radio.send(octets)
        self.assertEqual(other.attaches(), REGISTERED)
        fits = (1 << 16) // len(many[-1])
        lab.running.until(lambda: lab.radio.hears() and len(lab.radio.got) > 1500 - fits)
        carried = [s1ap.carried(s1ap.read(octets)) for octets in lab.radio.got[1:]]
        self.assertEqual({nas[:3] for nas in carried if nas}, {b"\x07\x44\x11"})
        self.assertEqual(lab.running.stop()[0], 0)

    def test_beside_a_give(self):
        """While many lines are given, a phone that has none waits no longer than else; all of both are given."""
        lab = self.laboratory(1)
        self.assertEqual(lab.phones[0].attaches(), REGISTERED)
        lines = ["sub 00102%010d 0b%06x 0a000064 %08x\n" % (place, place, place) for place in range(1, 20001)]
        (lab.folder / "given").write_text("".join(lines))
        words = [tools.TOP / "tools" / "front", "ask", lab.running.control, "give", lab.folder / "given"]
        with subprocess.Popen(words, stdout=subprocess.PIPE, text=True) as asking:
            lab.running.until(lambda: lines[100] in lab.running.log.read_text())
            for _ in range(10):
                self.assertEqual(lab.phones[0].attaches(), REGISTERED)
            self.assertEqual(asking.stdout.read(), "given 20000 subscribers, 0 vectors\n")
        self.assertGreater(lab.running.given().count(("vec", lab.phones[0].imsi)), 9)
        self.assertEqual(lab.running.stop()[0], 0)

    def test_hostile(self):
        """Messages that look like an ATTACH REQUEST and are none, and NAS of no octet, change nothing."""
        lab = self.laboratory(1)
        network, station = lab.radio.network, lab.radio.station
        for nas in (b"", b"\x07", b"\x07\x41", b"\x07\x41\x71", b"\x07\x41\x71\x0b", b"\x07\x41\x71\x08" + b"\xff" * 8,
                    b"\x07\x41\x71\x0b\xf6" + bytes(10), b"\x17\x07\x41", b"\x07\x56", b"\x07\x5c\x15", b"\x07\x5c\x15\x30\x0e"):
            lab.radio.send(lte.initial_ue_message(network, station, 7, nas))
            lab.radio.send(lte.uplink_nas(network, station, 0x10001, 7, nas))
            for octets in (lte.initial_ue_message(network, station, 7, nas)[:-2], b"\0\x0c" + nas, b"\0\x0d\0\x02\x07\x41"):
                lab.radio.send(octets)
        self.assertEqual(lab.phones[0].attaches(), REGISTERED)
        self.assertEqual(lab.running.stop()[0], 0)


class Ahead(Asked):
    """Phones whose SQN is ahead."""

    def ahead(self, *oddities):
        """One whose MME has some vectors from before."""
        lab = self.laboratory(2, oddities=oddities)
        phone = lab.phones[0]
        self.assertEqual(phone.attaches(), REGISTERED)
        self.is_stocked(lab)
        return lab, phone

    @staticmethod
    def is_stocked(lab):
        """The first phone has some vectors again."""
        lab.running.until(lambda: int(LEFT.search(lab.running.asks("phones"))[1]) > 2)

    def test_by_much(self):
        """The challenge after cause 21 is right, whatever the MME had before; no vector from before its SQN is heard."""
        lab, phone = self.ahead()
        for times in range(3):
            with self.subTest(times=times):
                phone.card.highest = [sequence + AHEAD for sequence in phone.card.highest]
                count = len(phone.heard)
                self.assertEqual(phone.attaches(seconds=2), REGISTERED)
                self.assertEqual(len(phone.heard) - count, 2)
                self.is_stocked(lab)
        text = lab.running.log.read_text()
        self.assertEqual(len(re.findall("# the message of IMSI %s is given once more for each of [34] v" % phone.imsi, text)), 3)
        self.assertEqual(len(set(phone.heard)), len(phone.heard))
        used = (lab.folder / "log.used").read_text().splitlines()
        self.assertEqual(len(used), len(set(used)))
        self.assertTrue(set(phone.heard) <= {bytes.fromhex(line.split(" ")[1]) for line in used})
        self.assertEqual(lab.phones[1].attaches(), REGISTERED)
        self.assertEqual(lab.running.stop()[0], 0)

    def test_by_index(self):
        """The same where the index of the MME's next vector alone is ahead: others aren't tried in its place."""
        lab, phone = self.ahead()
        vectors = [line.split(" ") for line in lab.running.log.read_text().splitlines() if line.startswith("#+ vec")]
        sequence, index = divmod(phone.card.sqn_of(bytes.fromhex(vectors[1][3]), bytes.fromhex(vectors[1][4])), 32)
        phone.card.highest[index] = sequence + 1
        self.assertEqual(phone.attaches(seconds=2), REGISTERED)
        self.assertEqual(len(phone.heard), 3)
        self.assertEqual(lab.running.stop()[0], 0)

    def test_not_supplied(self):
        """Where the source has nothing for an AUTS, the message goes as it is, and the MME challenges by its next vector."""
        lab, phone = self.ahead("001010000000001=stale")
        phone.card.highest = [sequence + AHEAD for sequence in phone.card.highest]
        phone.begins()
        lab.radio.until(lambda: phone.outcomes[1:])
        self.assertEqual((phone.outcomes, len(phone.heard)), ([REGISTERED, GAVE_UP], 4))
        self.assertNotIn("once more", lab.running.log.read_text())
        self.assertEqual(lab.running.stop()[0], 0)

    def test_of_another(self):
        """AUTHENTICATION FAILURE with ids that aren't those of the challenge asks for nothing."""
        lab, phone = self.ahead()
        count = len(lab.running.asked())
        for m, b in ((phone.m, phone.b + 1), (phone.m + 1, phone.b)):
            lab.radio.send(lte.uplink_nas(lab.radio.network, lab.radio.station, m, b, b"\x07\x5c\x15\x30\x0e" + bytes(14)))
        self.assertEqual(lab.phones[1].attaches(), REGISTERED)
        self.assertEqual([line for line in lab.running.asked()[count:] if phone.imsi in line], [])


class Added(Asked):
    """Who isn't provisioned."""

    def test_added(self):
        """Who is known to the source is added, with an address and a TEID of his own, and let in; nobody else is."""
        lab = self.laboratory(3, *POOL, provisioned=False, oddities=["001010000000003=unknown"])
        lab.attach(lab.phones)
        self.assertEqual([phone.outcomes for phone in lab.phones], [[REGISTERED], [REGISTERED], [NOBODY]])
        subs = [line.split(" ")[2:] for line in lab.running.log.read_text().splitlines() if line.startswith("#+ sub")]
        self.assertEqual([sub[:3] for sub in subs], [[imsi, "0a2d000%d" % (2 + at), "0a2d0001"]
                                                     for at, imsi in enumerate(lab.imsis(0, 1))])
        self.assertEqual(len({sub[3] for sub in subs} - {"00000000"}), 2)
        stranger = Handset(lab.radio, "001019999999999", lab.phones[0].card)
        self.assertEqual(stranger.attaches(), NOBODY)
        self.assertEqual(lab.running.stop()[0], 0)

    def test_not_added(self):
        """Without --add the source isn't asked for him."""
        lab = self.laboratory(1, provisioned=False)
        self.assertEqual(lab.phones[0].attaches(), NOBODY)
        self.assertEqual(lab.running.asked(), [])

    def test_no_address(self):
        """Where there is no address left, this is said, and the others stay."""
        lab = self.laboratory(3, "--add", "10.45.0.1", "10.45.0.0/30", provisioned=False)
        lab.attach(lab.phones[:1])
        lab.attach(lab.phones[1:])
        self.assertEqual(sorted(phone.outcomes for phone in lab.phones), [[REGISTERED], [NOBODY], [NOBODY]])
        text = b"can't have IMSI 001010000000002 be added: 10.45.0.0/30 has no address left"
        lab.running.until(lambda: text in lab.running.said())
        self.assertEqual(lab.phones[0].attaches(), REGISTERED)

    def test_taken_up(self):
        """He stays where the log is taken up, though no file has him, and nothing is asked for twice. The next is another one."""
        lab = self.laboratory(3, *POOL, "--resume", provisioned=False)
        lab.attach(lab.phones[:2])
        lab.running.until(lambda: lab.running.asks("phones").count("vectors_left=5") == 2)
        asked = lab.running.asked()
        lab.running.process.kill()
        lab.running.ended()
        lab.begin()
        self.assertIn(b"goes on", lab.running.told)
        self.assertEqual(lab.running.asks("phones").count("vectors_left=5"), 2)
        lab.attach(lab.phones)
        self.assertEqual([phone.outcomes for phone in lab.phones], [[REGISTERED] * 2, [REGISTERED] * 2, [REGISTERED]])
        self.assertEqual({line.split(" ")[1] for line in lab.running.asked()[len(asked):]}, {lab.phones[2].imsi})
        self.assertEqual(len({line.split(" ")[3] for line in lab.running.log.read_text().splitlines()
                              if line.startswith("#+ sub")}), 3)
        heard = [rand for phone in lab.phones for rand in phone.heard]
        self.assertEqual(len(heard), len(set(heard)))
        self.assertEqual(lab.running.stop()[0], 0)

    def test_given_too(self):
        """What was given beside stands in the log as well, whether or not the file has it then; what the file has more is given."""
        lab, sub = self.laboratory(1, "--resume"), "sub 00102000000000%d 0b00000%d 0a000064 0000010%d\n"
        [phone] = lab.phones
        self.assertEqual(phone.attaches(), REGISTERED)
        (lab.folder / "given").write_text(sub % (1, 1, 1))
        self.assertEqual(lab.running.asks("give", lab.folder / "given"), "given 1 subscriber, 0 vectors\n")
        self.assertEqual(phone.attaches(), REGISTERED)
        for more, count in (("", 2), (sub % (1, 1, 1), 2), (sub % (1, 1, 1) + sub % (2, 2, 2), 3)):
            with self.subTest(count=count, more=bool(more)):
                lab.running.process.kill()
                lab.running.ended()
                lab.begin(head=lab.head + more)
                self.assertIn(b"goes on", lab.running.told)
                lab.running.until(lambda count=count: lab.running.asks("phones").count("vectors_left") == count)
                self.assertEqual(phone.attaches(), REGISTERED)
        self.assertEqual(len(phone.heard), len(set(phone.heard)))
        lab.running.process.kill()
        lab.running.ended()
        status, told = Asking(self, lab.folder, "--resume", front=self.patient,
                              head=lab.head.replace("0a000001 0a000064", "0a000009 0a000064")).ended()
        self.assertEqual((status, "begins with other lines than" in told), (2, True), told)


class Lives(Asked):
    """Many attaches of SIMs with `tools/vectors serve`."""

    patient = (STANDING_IN, "--states", "yes", "--held", "30")

    def served(self, count, *words, **named):
        """SIMs with a front that asks `tools/vectors serve`."""
        return self.laboratory(count, "--resume", *words, oddities=None, **named)

    def check_rands(self, *phones):
        """No RAND came twice."""
        heard = [rand for phone in phones for rand in phone.heard]
        self.assertEqual(len(heard), len(set(heard)))

    def test_restarts(self):
        """A SIM attaches many times by as many challenges, with ten restarts of the source, the front and the station; no file but
        the log knows of its subscriber."""
        lab = self.served(1, *WIDE, provisioned=False)
        [phone] = lab.phones
        for count in range(1, ATTACHES + 1):
            self.assertEqual(phone.attaches(), REGISTERED)
            if not count % (ATTACHES // RESTARTS):
                os.kill(lab.running.source(), signal.SIGKILL)
                self.assertEqual(phone.attaches(), REGISTERED)
                self.assertEqual(lab.running.stop()[0], 0)
                lab.begin()
                self.assertIn(b"goes on", lab.running.told)
        self.assertEqual(set(phone.outcomes), {REGISTERED})
        self.assertEqual(len(phone.heard), ATTACHES + RESTARTS)
        self.check_rands(phone)
        self.assertEqual(lab.running.stop()[0], 0)

    def test_kills(self):
        """The source or the front is killed at random moments while phones attach and the MME is saved: nobody is rejected, and no
        RAND comes twice."""
        lab, chance = self.served(6, *WIDE, *OFTEN, provisioned=False), random.Random(92)
        for times in range(KILLS):
            counts = [len(phone.outcomes) for phone in lab.phones]
            for phone in lab.phones:
                phone.begins()
            end = time.monotonic() + chance.uniform(0, 0.1)
            while time.monotonic() < end:
                lab.radio.hears(0.001)
            if times % 2:
                lab.running.process.kill()
                lab.running.ended()
                lab.begin()
                self.assertIn(b"goes on", lab.running.told)
                self.assertNotIn(b"isn't taken", lab.running.told)
                lab.attach(lab.phones)
            else:
                os.kill(lab.running.source(), signal.SIGKILL)
                lab.radio.until(lambda counts=counts: all(len(phone.outcomes) > count
                                                          for phone, count in zip(lab.phones, counts)))
        for phone in lab.phones:
            self.assertEqual(set(phone.outcomes), {REGISTERED})
        self.check_rands(*lab.phones)
        self.assertEqual(lab.running.stop()[0], 0)

    def test_at_once(self):
        """Five hundred phones attach at once at a front that knows nobody: all are registered within seconds."""
        lab = self.served(AT_ONCE, *WIDE, provisioned=False)
        seconds = lab.attach(lab.phones)
        self.assertEqual([phone.outcomes for phone in lab.phones], [[REGISTERED]] * AT_ONCE)
        self.assertLess(seconds, ROOM * SECONDS)
        lab.running.until(lambda: len(STATES.findall(lab.running.asks("phones"))) == AT_ONCE)
        subs = [line.split(" ") for line in lab.running.log.read_text().splitlines() if line.startswith("#+ sub")]
        self.assertEqual([len({sub[place] for sub in subs}) for place in (2, 3, 5)], [AT_ONCE] * 3)
        self.check_rands(*lab.phones)
        self.assertEqual(lab.running.stop()[0], 0)


class Odd(Asked):
    """Sources that are slow, dead or wrong."""

    def test_wrong(self):
        """What can't be taken is refused in words, without keys, and counted; others are served."""
        words = {"other": b"tells of an IMSI that it wasn't asked for", "garbage": b"tells a line that is no answer",
                 "long": b"tells a line of more than 256 octets",
                 "cut": b"tells what can't be taken for IMSI 001010000000001: an IMSI has 14 or 15 digits, RAND and AUTN",
                 "unknown": b"supplies no vectors for IMSI 001010000000001: it doesn't know it",
                 "later": b"supplies no vectors for IMSI 001010000000001: it says `later`"}
        taken = {"garbage", "long", "cut"}
        for oddity, text in words.items():
            with self.subTest(oddity=oddity):
                lab = self.laboratory(2, prompt=True, oddities=["001010000000001=" + oddity])
                lab.attach(lab.phones)
                self.assertEqual([phone.outcomes for phone in lab.phones],
                                 [[REGISTERED if oddity in taken else NO_VECTOR], [REGISTERED]])
                lab.running.until(lambda: text in lab.running.said())
                self.assertEqual(KEY.findall(lab.running.said().decode()), [])
                if oddity not in ("unknown", "later"):
                    self.assertGreater(json.loads(Held.told(lab)["source"])["wrong"], 0)
                self.assertEqual(lab.running.stop()[0], 0)

    def test_again(self):
        """A RAND that a phone had isn't taken, also of a front that begins anew."""
        lab = self.laboratory(1, "--resume", "--anew", "--keep", "1", oddities=["001010000000001=again"])
        phone = lab.phones[0]
        self.assertEqual([phone.attaches() for _ in range(3)], [REGISTERED, REGISTERED, NO_VECTOR])
        lab.running.until(lambda: b"for IMSI %s: it stands already" % phone.imsi.encode() in lab.running.said())
        self.assertEqual(lab.running.stop()[0], 0)
        for path in lab.folder.glob("log"):
            path.write_text("damaged\n")
        lab.begin()
        self.assertIn(b"nobody is attached", lab.running.told)
        self.assertEqual(len(phone.heard), len(set(phone.heard)))
        self.assertEqual(lab.running.stop()[0], 0)

    def test_dies(self):
        """A source that ends is begun again, with pauses that grow; who waits for it is asked for again."""
        lab = self.laboratory(2, oddities=["001010000000001=dies"])
        lab.attach(lab.phones)
        self.assertEqual([phone.outcomes for phone in lab.phones], [[NO_VECTOR], [REGISTERED]])
        lab.running.until(lambda: b"the source ended with status 9, and is begun again in 0.2 s" in lab.running.said())

    def test_silent(self):
        """One that tells nothing is ended and begun again; one that doesn't heed the end of its input is killed with the front."""
        for words in (["sleep", "1000"], ["sh", "-c", "trap '' TERM HUP; sleep 1000; :"]):
            with self.subTest(words=words):
                lab = self.laboratory(1, "--source", shlex.join(words), prompt=True, oddities=None, limits=["--supply", "1"])
                self.assertEqual(lab.phones[0].attaches(), NO_VECTOR)
                lab.running.until(lambda: b"the source has answered nothing for 1 s, and is ended" in lab.running.said())
                lab.running.until(lambda: b"the source ended by signal 9, and is begun again in 0.1 s" in lab.running.said())
                number = lab.running.source()
                self.assertEqual(lab.running.stop()[0], 0)
                self.assertFalse(fronted.pathlib.Path("/proc/%d" % number).exists())

    def test_babbles(self):
        """One that tells nonsense without end is ended, and delays nobody."""
        lab = self.laboratory(1, "--source", "yes vec 1", prompt=True, oddities=None)
        begun = time.monotonic()
        for _ in range(20):
            lab.radio.connection.says(lte.s1_setup_request(lab.radio.network, lab.radio.station))
        self.assertLess(time.monotonic() - begun, 20 * limits.MOST_DELAY)
        lab.running.until(lambda: b"the source tells only what can't be taken, and is ended" in lab.running.said())
        self.assertEqual(lab.phones[0].attaches(), NO_VECTOR)
        self.assertEqual(lab.running.stop()[0], 0)

    def test_killed(self):
        """Killed at twenty moments: nobody is rejected, and no RAND comes twice."""
        lab = self.laboratory(4)
        for times in range(20):
            with self.subTest(times=times):
                for phone in lab.phones:
                    phone.begins()
                os.kill(lab.running.source(), signal.SIGKILL)
                lab.radio.until(lambda count=times + 1: all(len(phone.outcomes) == count for phone in lab.phones))
        self.assertEqual([phone.outcomes for phone in lab.phones], [[REGISTERED] * 20] * 4)
        heard = [rand for phone in lab.phones for rand in phone.heard]
        self.assertEqual(len(heard), len(set(heard)))
        self.assertEqual(lab.running.stop()[0], 0)

    def test_no_program(self):
        """One that can't be begun at all ends the front with status 2, and so do words that don't fit."""
        folder = self.enterContext(fronted.tempfile.TemporaryDirectory())
        (fronted.pathlib.Path(folder) / "subscribers").write_text(NETWORK)
        words = "run", folder + "/subscribers", folder + "/log", "--tcp", "--port", "0"
        for more, text in ((("--source", "cat"), "--source goes with --library"), (POOL, "--add goes with --source"),
                           (("--library", "--source", "'"), "--source: No closing quotation"),
                           (("--library", "--source", ""), "--source has a program"),
                           (("--library", "--source", "cat", "--log-keys", "no"), "--log-keys no doesn't go with --source"),
                           (("--library", "--source", "cat", "--add", "x", "10.0.0.0/8"), "--add: Expected 4 octets in"),
                           (("--library", "--source", "cat", "--add", "10.0.0.1", "10.0.0.1/8"), "--add: 10.0.0.1/8 has")):
            with self.subTest(more=more):
                status, told = fronted.said([*words, *more])
                self.assertEqual((status, told.startswith("front: " + text)), (2, True), told)
        running = fronted.Running.__new__(fronted.Running)
        running.front = (STANDING_IN,)
        running.__init__(self, "--source", folder + "/none", program=fronted.LIBRARY, folder=fronted.pathlib.Path(folder))
        status, told = running.ended()
        self.assertEqual((status, "--source: %s/none: No such file" % folder in told), (2, True), told)

    def test_seen(self):
        """Page and metrics tell of the source, and have no keys; its end is an alarm."""
        port = free_port()
        lab = self.laboratory(1, "--page", "127.0.0.1:%d" % port, oddities=["001010000000001=later"])
        self.assertEqual(lab.phones[0].attaches(), NO_VECTOR)

        def get(path):
            with urllib.request.urlopen("http://127.0.0.1:%d/%s" % (port, path), timeout=60) as answer:
                return answer.read().decode()

        found = get("metrics")
        for line in ('source_requests_total{end="later"} 1', "source_runs 1", "source_starts_total 1", 'alarm{of="source"} 0',
                     'alarm{of="vectors"} 0', 'held_total{why="answered"} 1', "held_octets 0", "source_vectors_total 0",
                     "source_words 0"):
            self.assertIn("soizkadur_%s\n" % line, found)
        self.assertEqual(KEY.findall(found + get("") + lab.running.said().decode()), [])
        self.assertNotIn("The source of vectors", get(""))
        (lab.folder / "sims").unlink()
        os.kill(lab.running.source(), signal.SIGKILL)
        lab.running.until(lambda: "The source of vectors doesn&#x27;t run." in get(""))
        self.assertEqual(lab.running.stop()[0], 0)


@unittest.skipUnless(ETCD, MISSING)
class InAStore(Asked):
    """Where the log is in etcd."""

    def test_standby(self):
        """Once the leader is killed, the standby leads with all that was supplied and added, begins its own source, and asks for
        what it lacks; no RAND comes twice."""
        members = Members(self.enterContext(contextlib.ExitStack()))
        store = "--store", members.urls(), *POOL
        lab = self.laboratory(2, *store, provisioned=False, oddities=None)
        other = fronted.pathlib.Path(self.enterContext(tempfile.TemporaryDirectory()))
        for name in ("sims", "sqns"):
            (other / name).symlink_to(lab.folder / name)
        first, second = lab.phones
        self.assertEqual(first.attaches(), REGISTERED)
        standby = StandingBy(self, other, *store, "--standby", head=lab.head, oddities=None, front=self.patient)
        standby.until(lambda: "vectors_left=5" in standby.asks("phones"))
        lab.running.process.kill()
        standby.until(lambda: b"ready: stations" in standby.said())
        standby.is_ready(fronted.re.search(fronted.Running.READY, standby.said())[0])
        lab.radio = Radio(standby)
        for phone in lab.phones:
            phone.radio, phone.b = lab.radio, None
            self.assertEqual([phone.attaches() for _ in range(6)], [REGISTERED] * 6)
        heard = [rand for phone in (first, second) for rand in phone.heard]
        self.assertEqual((len(heard), len(set(heard))), (13, 13))
        self.assertEqual(standby.stop()[0], 0)


class Requests(unittest.TestCase):
    """The order of requests, by a source that is told them here."""

    def setUp(self):
        self.head = provisioning.Head(fronted.HEAD.splitlines() + ["sub %s 0a00000%d 0a000064 0000000%d" % (imsi, at, at)
                                                                   for at, imsi in enumerate(OTHERS, 2)])
        self.told, self.said, self.put, self.timers, self.over = [], [], [], [], []
        batch = types.SimpleNamespace(has_further=False, after=[])
        self.front = types.SimpleNamespace(
            head=self.head, stock=stock.Stock(self.head, None), form=keys.Whole(), coming=[], voice=None,
            loop=types.SimpleNamespace(after=lambda seconds, act: self.timers.append((seconds, act))),
            used=types.SimpleNamespace(check_vector=lambda *given: None),
            exchange=types.SimpleNamespace(put=self.put.append, keep_unknown=lambda imsis: None, batch=batch))
        self.asking = asking.Asking(self.front, ["source"])
        self.asking.source = types.SimpleNamespace(
            is_there=True, tell=self.told.append, say=lambda event, text: self.said.append(text), is_wrong=self.said.append,
            end=self.said.append, useful_at=0.0, is_of_use=lambda: None, hurry=lambda: None)
        self.asking.is_open, self.asking.network = True, ["001", "01"]

    def want(self, imsi, *failure):
        self.asking.want(imsi, lambda stale: self.over.append((imsi, stale)), failure)

    def answer(self, imsi, *numbers):
        for number in numbers:
            self.asking.take("vec %s %032x %032x %016x %064x" % (imsi, number, number, number, number))

    def test_together(self):
        """Who waits for the same phone is served by one request, also by one that nobody waited for."""
        self.asking.note(0)
        for imsi in (IMSI, OTHERS[0], OTHERS[0]):
            self.want(imsi)
        self.assertEqual(self.told, ["vectors %s 5 001 01" % IMSI, "vectors %s 2 001 01" % OTHERS[0]])
        self.assertEqual(self.asking.stocking, 0)
        self.answer(OTHERS[0], 1, 2)
        self.assertEqual(self.over, [(OTHERS[0], [])] * 2)
        self.answer(IMSI, 1, 2, 3, 4)
        self.assertEqual((len(self.over), self.put[2:]), (2, []))
        self.answer(IMSI, 5)
        self.assertEqual((self.over[2:], len(self.put)), ([(IMSI, [])], 7))

    def test_after_a_failure(self):
        """A phone's AUTS is told after what was asked for it before; what came by then is from before its SQN."""
        self.asking.note(0)
        self.want(IMSI, b"r" * 16, b"a" * 14)
        self.assertEqual(self.told, ["vectors %s 5 001 01" % IMSI])
        self.answer(IMSI, 1, 2, 3, 4, 5)
        self.assertEqual(self.told[1:], ["vectors %s 2 001 01 %s %s" % (IMSI, "72" * 16, "61" * 14)])
        self.answer(IMSI, 6, 7)
        [(imsi, stale)] = self.over
        self.assertEqual((imsi, sorted(stale)), (IMSI, [number.to_bytes(16, "big") for number in range(1, 6)]))

    def test_nothing_after_a_failure(self):
        """Where nothing comes after an AUTS, none counts as from before."""
        self.want(IMSI, b"r" * 16, b"a" * 14)
        self.asking.take("later " + IMSI)
        self.assertEqual(self.over, [(IMSI, [])])

    def test_ends(self):
        """After the source ended requests are told one at a time, others first; at the third end one is over."""
        for imsi in OTHERS:
            self.want(imsi)
        self.asking.has_ended()
        del self.told[:]
        self.asking.tell()
        self.want(IMSI)
        self.assertEqual(self.told, ["vectors %s 2 001 01" % OTHERS[0]])
        for times in range(2):
            self.asking.has_ended()
            self.asking.tell()
        self.assertEqual([line.split(" ")[1] for line in self.told], [OTHERS[0], IMSI, OTHERS[1]])
        self.asking.take("later " + OTHERS[1])
        self.assertEqual(self.over[-1], (OTHERS[1], []))
        self.asking.has_ended()
        self.assertEqual(self.over[-1], (OTHERS[0], []))
        self.assertIn("the source supplies no vectors for IMSI %s: it ends at the request" % OTHERS[0], self.said)
        self.answer(IMSI, 1, 2)
        self.assertEqual(self.over[-1], (IMSI, []))
        self.assertEqual((self.asking.under_way, self.asking.suspected, self.asking.told), ({}, 0, 0))

    def test_refused(self):
        """What the MME refuses all the same is the source's, and not of a file that is being given."""
        self.want(IMSI)
        self.answer(IMSI, 1, 2)
        self.front.teller, self.front.asking = types.SimpleNamespace(refuse=lambda: None), self.asking
        self.front.exchange.is_replaying, self.front.giving = False, types.SimpleNamespace(is_refused=lambda *given: self.fail(given))
        Front.has_refused(self.front, 17, self.put[0].removeprefix("#+ "))
        self.assertEqual((self.said[-1], self.asking.wrong), ("supplies what the MME doesn't take (17): vec " + IMSI, 1))

    def test_late(self):
        """One that isn't answered is over, and so is a source that answers nothing; it is asked again later."""
        self.want(IMSI)
        self.asking.look(time.monotonic() + limits.SUPPLY_SECONDS + 1)
        self.assertEqual(self.over, [(IMSI, [])])
        self.assertIn("has answered nothing for 10 s, and is ended", self.said)
        [(seconds, act)] = self.timers
        self.assertEqual(seconds, limits.LATER_SECONDS)
        act()
        self.assertEqual(self.told, ["vectors %s 2 001 01" % IMSI, "vectors %s 5 001 01" % IMSI])
        self.answer(OTHERS[0], 1)
        self.assertEqual(self.said[-1], "tells of an IMSI that it wasn't asked for")

    def test_not_too_many(self):
        """Of those that nobody waits for, so many are under way at a time; the next comes once one is over."""
        with unittest.mock.patch.object(limits, "MOST_STOCKING", 2):
            for slot in range(3):
                self.asking.note(slot)
            self.assertEqual([line.split(" ")[1] for line in self.told], [IMSI, OTHERS[0]])
            self.asking.take("unknown " + OTHERS[0])
            self.assertEqual([line.split(" ")[1] for line in self.told[2:]], [OTHERS[1]])


class Alone(Asked):
    """What one phone's source does is nobody else's."""

    def lives(self, oddity):
        """What nine phones are sent beside one at another station, each in its order."""
        lab = self.laboratory(10, oddities=["001010000000001=" + (oddity or "unknown")])
        one, nine = Handset(Radio(lab.running, 1), *lab.sims[0][::2]), lab.phones[1:]
        for times in range(4):
            if oddity:
                one.begins()
            if times == 3:
                for phone in nine[:3]:
                    phone.card.highest = [sequence + AHEAD for sequence in phone.card.highest]
            lab.attach(nine)
            # (a challenge's KSI is made of how many vectors came before its own)
            lab.running.until(lambda: len([left for left in map(int, LEFT.findall(lab.running.asks("phones"))) if left > 2]) >= 9)
        self.assertEqual([phone.outcomes for phone in nine], [[REGISTERED] * 4] * 9)
        self.assertEqual([len(phone.heard) for phone in nine], [5] * 3 + [4] * 6)
        self.assertEqual(lab.running.stop()[0], 0)
        return {phone.imsi: [octets for octets in lab.radio.got if lab.radio.phones.get(s1ap.ids(s1ap.read(octets))[1]) is phone]
                for phone in nine}

    def test_alone(self):
        """Nine phones are sent the same octets beside a phone whose source never answers, dies or is wrong as without it."""
        wanted = self.lives("")
        self.assertGreater(min(map(len, wanted.values())), 7)
        for oddity in ("never", "dies", "garbage", "other"):
            with self.subTest(oddity=oddity):
                self.assertEqual(self.lives(oddity), wanted)


if __name__ == "__main__":
    unittest.main()
