"""tools/front killed again and again under phones (bench/kills.py): nothing is used twice, and nothing that was sent before is of
use. Where the log lacks its last second, and LOG.used is lost too, the storm finds what is used twice. What it finds that by, a
listener with the phones' keys, finds each thing that may not be."""
import tempfile
import types
import unittest
from unittest import mock

from bench import ends, kills, lives, replays, watch, wire
from reference import lte, phones
from tests.tools.fronted import LIBRARY, PROGRAM

SHORT = ("--phones", "6", "--vectors", "12", "--seed", "7")
# What a storm does that is short and finds nothing.
DONE = ("beginnings that went on", "registered phones that were looked for after a beginning", "challenges",
        "protected messages to phones", "radio keys handed to stations", "phones that came back and were served",
        "messages that were sent again without the key", "whole attaches that were sent again without the key")


def storm(program, *words):
    """A storm by these words: its violations, what was counted, and all that it said."""
    given, said = kills.parser().parse_args([*SHORT, *words]), []
    given.mme = wire.LIBRARY if program is LIBRARY else program
    with tempfile.TemporaryDirectory() as folder:
        blown = kills.Storm(given, folder, said.append)
        blown.blow()
    return blown.watch.violations, blown.counted + blown.watch.counted, "\n".join(said)


@unittest.skipUnless(PROGRAM.exists(), "the program isn't built (./mme --prove)")
class Storms(unittest.TestCase):
    """Short storms by TCP."""

    program = PROGRAM  # of the front

    def test_ends(self):
        """The front is killed or ended, its MME is killed, its disk is full: nothing is used twice, nothing sent again is of use,
        and who was registered still is, and is served."""
        violations, counted, said = storm(self.program, "--runs", "6", "--ends", "kill", "clean", "mme", "disk")
        self.assertEqual(violations, [], said)
        self.assertEqual([name for name in DONE if not counted[name]], [], said)
        self.assertEqual(counted["beginnings that went on"], 6, said)

    def test_ends_that_are_refused(self):
        """The subscribers' file is another one, a segment is missing, or the next run is begun without --resume: the front refuses
        to go on until that is put right, or goes on with nobody attached; and nothing is used twice. The first run may have ended
        before it had a segment that can be missing."""
        for end, name in (("subscribers", "beginnings that were refused"), ("segment", "beginnings that went on"),
                          ("anew", "beginnings with nobody")):
            with self.subTest(end=end):
                violations, counted, said = storm(self.program, "--runs", "1", "--ends", end, "--", "--keep", "3")
                self.assertEqual(violations, [], said)
                self.assertEqual((counted[name], counted["ends by " + end]), (1, 2), said)

    def test_an_end_that_does_not_come(self):
        """A front that goes on where it should have ended is found, with where it stands, and the storm ends."""
        with mock.patch.dict(ends.ENDS, clean=([(0, lambda run: None)], ends.Start)), mock.patch.object(wire, "END_SECONDS", 3):
            violations, _, said = storm(self.program, "--runs", "1", "--ends", "clean")
        self.assertEqual(len(violations), 1, said)
        self.assertRegex(violations[0], r"(?s)^the front doesn't end within 3 s: .*\(most recent call first\):\n  File .* in serve\n")

    def test_cut_log(self):
        """A front that goes on with a log without its last second, and without LOG.used, uses COUNTs, keys and challenges again,
        and takes what was sent before for new; and that is found."""
        violations, _, said = storm(self.program, "--runs", "4", "--ends", "cut")
        found = "\n".join(violations)
        for text in (r"COUNT \d+ was used before", r"was handed out before|was sent before",
                     r" came after its [A-Z ]+ was sent again"):
            self.assertRegex(found, text, said)


class Heard(unittest.TestCase):
    """What a listener finds in messages that are made here, by the standards' formats."""

    def setUp(self):
        self.said = []
        self.watch = watch.Watch(self.said.append)
        self.vector = phones.Vector.made("heard")
        self.context = self.watch.context(self.vector)

    def hears(self, count, message, key=None, direction=lte.DOWN):
        """A protected message; the violations after it."""
        inside = bytes([count & 0xFF]) + message
        nas = b"\x27" + lte.eia2(key or self.context.key, count, direction, inside) + inside
        self.watch.hears_protected("a phone", [self.context], nas)
        return [text.partition(": ")[2] for text in self.watch.violations]

    def test_counts(self):
        """Rising COUNTs, some left out and beyond a round, are right; each that comes again isn't, with any octets."""
        for count in (0, 1, 7, 255, 256, 300, 511):
            self.assertEqual(self.hears(count, b"\x07\x60\x61"), [])
        first = "COUNT 7 was used before under this KASME, with the same octets"
        self.assertEqual(self.hears(7, b"\x07\x60\x61"), [first])
        self.assertEqual(self.hears(256, b"\x07\x60\x62"), [first, first.replace("7", "256").replace("the same", "other")])
        self.assertIn("\n    ", self.said[0])
        self.assertEqual(len(self.hears(512, b"\x07\x60\x61")), 2)

    def test_count_after_another_context(self):
        """A KASME that comes into use again still has its COUNTs."""
        self.hears(0, b"\x07\x5d")
        self.assertIs(self.watch.context(self.vector), self.context)
        self.assertEqual(len(self.hears(0, b"\x07\x5d")), 1)

    def test_macs(self):
        """The phone's own direction, and another key, are a wrong MAC."""
        other = lte.Cmac(lte.nas_integrity_key(phones.Vector.made("other").kasme))
        self.assertEqual(self.hears(3, b"\x07\x60\x61", direction=lte.UP), ["a protected message has a wrong MAC"])
        self.assertEqual(len(self.hears(3, b"\x07\x60\x61", key=other)), 2)
        self.assertEqual(len(self.hears(3, b"\x07\x60\x61")), 2)

    def test_keys(self):
        """A radio key that is handed out twice, to whomever."""
        for phone, key in (("one", b"k" * 32), ("one", b"l" * 32), ("two", b"k" * 32)):
            self.watch.hears_key(phone, key, b"octets")
        self.assertEqual(len(self.watch.violations), 1)

    def test_challenges(self):
        """A challenge comes again in its procedure until it is answered, and never in another; it may be another phone's too."""
        rand = self.vector.rand
        for name, procedure in (("one", 1), ("one", 1), ("two", 2)):
            self.watch.hears_challenge(name, rand, procedure, b"")
        self.assertEqual(self.watch.violations, [])
        self.watch.hears_challenge("two", rand, 3, b"")
        self.assertEqual(len(self.watch.violations), 1)
        self.watch.hears_end_of_challenge("one")
        self.watch.hears_challenge("one", rand, 1, b"")
        self.assertEqual(len(self.watch.violations), 2)

    def test_challenge_after_another(self):
        """After a new challenge the one before doesn't come again."""
        for rand in (bytes(16), b"r" * 16):
            self.watch.hears_challenge("one", rand, 1, b"")
        self.assertEqual(self.watch.violations, [])
        self.watch.hears_challenge("one", bytes(16), 1, b"")
        self.assertEqual(len(self.watch.violations), 1)


class Phone(unittest.TestCase):
    """What a phone finds in the keys that its station is handed for it."""

    def setUp(self):
        self.radio = lives.Radio(watch.Watch(lambda text: None), 1, 1)
        self.phone = lives.Phone(self.radio, 0, [phones.Vector.made("phone")])
        self.context = self.radio.watch.context(self.phone.vectors[0])
        self.phone.contexts = [self.context]
        self.context.sent |= {0, 5}
        self.radio.by_id[9] = self.phone

    def hears(self, octets):
        """A message for the phone; how many violations there are."""
        self.radio.hears(self.radio.stations[0], octets)
        return len(self.radio.watch.violations)

    def is_set_up(self, key):
        return self.hears(lte.context_setup_request(self.radio.network, 1, 9, self.phone, key))

    def test_kenb(self):
        """KeNB is of a COUNT that the phone sent."""
        kasme = self.context.vector.kasme
        self.assertEqual(self.is_set_up(lte.kenb(kasme, 5)), 0)
        self.assertEqual(self.context.accepted, 5)
        self.assertEqual(self.is_set_up(lte.kenb(kasme, 4)), 1)
        self.assertEqual(self.is_set_up(lte.kenb(phones.Vector.made("other").kasme, 5)), 2)

    def test_next_hop(self):
        """The next hop stands as far after KeNB as its counter says."""
        kasme = self.context.vector.kasme
        self.is_set_up(lte.kenb(kasme, 0))
        hops = [lte.next_hop(kasme, lte.kenb(kasme, 0))]
        for _ in range(9):
            hops.append(lte.next_hop(kasme, hops[-1]))
        for place, chaining, violations in ((2, 2, 0), (3, 3, 0), (8, 0, 0), (4, 5, 1), (2, 2, 2)):
            octets = lte.path_switch_acknowledge(1, 9, chaining, hops[place - 1])
            self.assertEqual(self.hears(octets), violations, (place, chaining))

    def test_wrong_challenge(self):
        """A challenge whose AUTN isn't that of its RAND."""
        vector = self.phone.vectors[0]
        self.assertEqual(self.hears(lte.downlink_nas(1, 9, lte.authentication_request(0, vector))), 0)
        other = phones.Vector(bytes(16), vector.autn, vector.xres, vector.kasme)
        self.assertEqual(self.hears(lte.downlink_nas(1, 9, lte.authentication_request(0, other))), 1)

    def test_challenge_that_comes_again(self):
        """One that the phone answered by AUTHENTICATION FAILURE isn't answered otherwise when it comes again."""
        self.phone.is_given([phones.Vector.made(name) for name in ("first", "second")])
        self.radio.hear = lambda station, octets: None
        self.radio.chance.random = lambda: 0.0
        self.phone.begins_attach(self.radio.stations[0])
        for _ in range(2):
            challenge = lte.authentication_request(0, self.phone.vectors[0])
            self.assertEqual(self.hears(lte.downlink_nas(1, self.phone.b, challenge)), 0)
        self.assertEqual([record.kind for record in self.phone.records], ["ATTACH REQUEST", "AUTHENTICATION FAILURE"])

    def test_acceptance_that_comes_again(self):
        """An acceptance of the update before isn't one of the next, which may not have come; one that was left unanswered is."""
        phone, context, radio = self.phone, self.context, self.radio
        radio.hear = lambda station, octets: None
        radio.chance.random = lambda: 1.0
        phone.key, phone.ksi, phone.up_count, phone.tmsi, phone.standing = context.key, 0, 6, 1, lives.REGISTERED
        phone.station, phone.b, phone.m = radio.stations[0], 9, 1
        first, second = (lte.tau_accept(radio.network, 1, tmsi, 0) for tmsi in (2, 3))
        for before, accept in ((None, first), (first, second)):
            phone.begins_update()
            asked, accepted = phone.asked, context.accepted
            if before is not None:
                phone.is_updated(before)
                self.assertEqual((phone.waits, context.accepted), (lives.UPDATE, accepted))
            phone.is_updated(accept)
            self.assertEqual((phone.waits, context.accepted), (None, asked))
        radio.chance.random = lambda: 0.0
        phone.begins_update()
        for waits in (lives.UPDATE, None):
            phone.is_updated(lte.tau_accept(radio.network, 1, 4, 0))
            self.assertEqual((phone.waits, context.accepted), (waits, 10))


class ByChance(unittest.TestCase):
    """SERVICE REQUESTs whose 16 bits of a MAC are right for two COUNTs, which a storm came upon."""

    def test_two_counts(self):
        """The one of COUNT 6 is that of COUNT 38 too, so it isn't sent again while the MME may take it to have that."""
        key = lte.Cmac(lte.nas_integrity_key(phones.Vector.made("kills 5070").kasme))
        nas = lte.service_request(key, 0, 6)
        self.assertEqual(nas, lte.service_request(key, 0, 38))
        for kind, nas, accepted, up_count, is_right in (
                (replays.SERVICE_REQUEST, nas, 6, 7, True), (replays.SERVICE_REQUEST, nas, 37, 38, True),
                (replays.SERVICE_REQUEST, nas, 36, 60, True), (replays.SERVICE_REQUEST, nas, 38, 39, False),
                (replays.SERVICE_REQUEST, nas, 5, 6, True), (replays.SERVICE_REQUEST, lte.service_request(key, 0, 7), 7, 8, False),
                ("DETACH REQUEST", nas, 6, 7, False)):
            with self.subTest(kind=kind, nas=nas, accepted=accepted):
                phone = types.SimpleNamespace(key=key, up_count=up_count, contexts=[types.SimpleNamespace(accepted=accepted)])
                record = types.SimpleNamespace(kind=kind, nas=nas)
                self.assertEqual(replays.is_right_by_chance(phone, record), is_right)
