"""The network of the model that begins at a snapshot: it goes on as one that saw what was before. The snapshots are written by
their formats from what the phones of reference/phones.py keep (remembering.py), and what the MME owes later is these phones' too.
tests/library has the library's snapshots."""
import pathlib
import re
import time
import types
import unittest

from reference import lte, phones
from tests.tools import failures, remembering, tools
from tests.tools.remembering import Kept
from tools import runs
from tools.eps import remembered, story
from tools.eps.remembered import Remembered

EXPLAIN = tools.module("tools/explain")
FORMATS = tools.TOP / "crates" / "snapshot_formats" / "specs" / "Formats.antt"
CLOCK, AREAS = 77, {0: 1}
MOST_SECONDS = 30  # of a processor


def vectors(count):
    return [phones.Vector.made("remembered %d" % place) for place in range(count)]


def trace_of(*made, **choices):
    """A station that is set up, and so many phones with three vectors each."""
    trace, station = phones.Trace(), phones.Station(0)
    made = [phones.Phone(trace, slot, vectors(3), **choices) for slot in range(*made)]
    trace.provision(made)
    trace.set_up(station)
    return trace, made, station


def rest_of(trace, octets, since):
    """The trace from a snapshot on: its lines and answers since these."""
    lines, answers = since
    text = "".join(line + "\n" for line in trace.lines[lines:]).encode()
    held = Remembered(octets)
    events = [runs.event_of(number, *runs.fields_of(line, runs.EVENTS)) for number, line in enumerate(text.splitlines(), 1)]
    rest = types.SimpleNamespace(remembered=held, further=())
    return runs.Trace((), held.imsis, events, rest), runs.read_answers("".join(
        line + "\n" for line in trace.answers[answers:]).encode())


def told(trace, octets, since):
    """What explain tells of a trace from a snapshot on, whose answers are those that are owed."""
    run = story.exact_run(*rest_of(trace, octets, since))
    assert run is not None, "the answers aren't those that are owed"
    return "".join(EXPLAIN.text_of(EXPLAIN.entries_of(run.told), run.world, brief=False))


class GoesOn(unittest.TestCase):
    """Of phones in each phase what is owed later is what the standards have."""

    def check(self, trace, kept, later, areas=None, strangers=()):
        """After a snapshot of these phones what comes later is answered as is owed; what is told of it."""
        octets = remembering.snapshot(trace.network, CLOCK, areas or AREAS, kept, strangers)
        since = len(trace.lines), len(trace.answers)
        later()
        return told(trace, octets, since)

    def test_registered(self):
        """An idle phone asks for service, by the next count and with a radio key of it."""
        trace, [phone], station = trace_of(1)
        phone.attaches(station, 1)
        phone.is_released()
        kept = Kept(phone, remembering.REGISTERED)
        kept.bearer, kept.reachable = remembering.ACTIVE, 3000
        text = self.check(trace, [kept], lambda: (phone.asks_for_service(station, 2), phone.shows(phones.CONNECTED)))
        self.assertIn("SERVICE REQUEST asks for service, and is proved by count 2", text)
        self.assertIn("line 1, %d s" % CLOCK, text)

    def test_idle_for_too_long(self):
        """The mobile reachable timer ends after what it had left."""
        trace, [phone], station = trace_of(1)
        phone.attaches(station, 1)
        phone.is_released()
        kept = Kept(phone, remembering.REGISTERED)
        kept.bearer, kept.reachable = remembering.ACTIVE, 30
        text = self.check(trace, [kept], lambda: trace.say("tick 40"))
        self.assertIn("! line 1, %d s: the phone is forgotten: the phone was idle for 3480 s" % (CLOCK + 30), text)

    def test_paged(self):
        """It is paged once more at the end of T3413, at the stations where it was."""
        trace, [phone], station = trace_of(1)
        phone.attaches(station, 1)
        phone.is_released()
        kept = Kept(phone, remembering.REGISTERED)
        kept.bearer, kept.reachable, kept.repeat, kept.procedure = remembering.ACTIVE, 3000, [0], (remembering.T3413, 4, 1)

        def later():
            trace.say("tick 4")
            phone.is_paged([station])
            trace.say("tick 10")

        text = self.check(trace, [kept], later)
        self.assertIn("line 1, %d s: PAGING: pages the phone, repeat 1 of 1" % (CLOCK + 4), text)
        self.assertIn("the phone is paged no more", text)

    def test_challenged(self):
        """Its challenge is sent again, and it attaches by that vector."""
        trace, [phone], station = trace_of(1)
        phone.asks_to_attach(station, 1)
        challenge = lte.authentication_request(phone.ksi, phone.vector)
        kept = Kept(phone, remembering.AUTHENTICATING)
        kept.request, kept.repeat, kept.procedure = (1, False, False), challenge, (remembering.T3460, 2, 3)

        def later():
            trace.say("tick 2")
            phone.owed_nas(challenge)
            phone.authenticates()
            phone.completes_security()
            phone.completes_attach()

        text = self.check(trace, [kept], later)
        self.assertIn("AUTHENTICATION REQUEST: challenges the phone by vector 1, repeat 2 of 4", text)
        self.assertIn("at the end: Registered connected", text)

    def test_given_up(self):
        """Where nobody answers, the reason says that its timer began before."""
        trace, [phone], station = trace_of(1)
        phone.asks_to_attach(station, 1)
        kept = Kept(phone, remembering.AUTHENTICATING)
        kept.request, kept.procedure = (1, False, False), (remembering.T3460, 6, 0)
        kept.repeat = lte.authentication_request(phone.ksi, phone.vector)

        def later():
            trace.say("tick 6")
            phone.owed(lte.release_command(phone.m, phone.b, lte.NAS_UNSPECIFIED))

        text = self.check(trace, [kept], later)
        self.assertIn("without an answer, so the network gave up (TS 24.301 clause 5.4.2.7; before the snapshot)", text)

    def test_security_mode(self):
        """SECURITY MODE COMPLETE by the first count gives KeNB; what the attach asked for is known: IPv4v6, ESM information, and a
        combined attach."""
        trace, [phone], station = trace_of(1)
        phone.asks_to_attach(station, 1, 3, 2, True)
        phone.authenticates()
        kept = Kept(phone, remembering.SECURITY_MODE)
        kept.trail, kept.combined, kept.request = None, True, (1, True, True)
        kept.repeat, kept.procedure = lte.security_mode_command(phone.ksi, phone.capability), (remembering.T3460, 6, 4)

        def later():
            for step in (phone.completes_security, phone.gives_information, phone.completes_attach):
                step()

        self.check(trace, [kept], later)

    def test_accepting(self):
        """ATTACH ACCEPT is sent again under the next count, as it was."""
        trace, [phone], station = trace_of(1)
        phone.asks_to_attach(station, 1, 3, 2, False)
        phone.authenticates()
        phone.completes_security()
        accept = lte.attach_accept(trace.network, station.tac, phone.tmsi, 2, lte.activate_default_bearer(
            trace.network, 1, phone.address, 3))
        kept = Kept(phone, remembering.ACCEPTING)
        kept.combined, kept.request, kept.bearer = True, (1, True, False), remembering.PENDING
        kept.repeat, kept.procedure = accept, (remembering.T3450, 1, 4)

        def later():
            trace.say("tick 1")
            phone.owed_nas(phone.protected_down(accept))
            phone.completes_attach()

        text = self.check(trace, [kept], later)
        self.assertRegex(text, r"line 1, %d s: ATTACH ACCEPT .*: accepts the attach, repeat 1 of 4" % (CLOCK + 1))

    def test_updating(self):
        """A combined update from idle is accepted again as it was, and ends the connection."""
        for update_type in (0, 1):
            with self.subTest(update_type=update_type):
                trace, [phone], station = trace_of(1)
                phone.attaches(station, 1)
                phone.is_released()
                phone.updates_from_idle(station, 2, update_type)
                accept = lte.tau_accept(trace.network, station.tac, phone.tmsi, update_type)
                kept = Kept(phone, remembering.UPDATING)
                kept.initial, kept.bearer = True, remembering.ACTIVE
                kept.repeat, kept.procedure = accept, (remembering.T3450, 6, 4)

                def later():
                    trace.say("tick 6")
                    phone.owed_nas(phone.protected_down(accept))
                    phone.completes_update(from_idle=True)

                self.check(trace, [kept], later)

    def test_switched(self):
        """The next hop after path switches is that of the phone's last KeNB."""
        trace, [phone], station = trace_of(1)
        other = phones.Station(1)
        trace.set_up(other)
        phone.attaches(station, 1)
        for count in range(1, 10):
            phone.switches_path((station, other)[count % 2], 1)
        kept = Kept(phone, remembering.REGISTERED)
        kept.bearer, kept.trail = remembering.ACTIVE, (0, 9)
        text = self.check(trace, [kept], lambda: phone.switches_path(station, 7), {0: 1, 1: 1})
        self.assertIn("moves the phone's connection from station 1 to station 0", text)

    def test_detaching(self):
        """The network's DETACH REQUEST is sent again."""
        trace, [phone], station = trace_of(1)
        phone.attaches(station, 1)
        request = bytes.fromhex("074502")
        phone.protected_down(request)
        kept = Kept(phone, remembering.DETACHING)
        kept.bearer, kept.repeat, kept.procedure = remembering.ACTIVE, request, (remembering.T3422, 6, 4)

        def later():
            trace.say("tick 6")
            phone.owed_nas(phone.protected_down(request))
            phone.sends(phone.protected_up(lte.DETACH_ACCEPT))
            phone.owed(lte.release_command(phone.m, phone.b, lte.DETACHED))

        self.assertIn("completes the network's detach", self.check(trace, [kept], later))

    def test_deregistered(self):
        """A phone that has detached attaches by the vector after those that are spent; one that never came by its first."""
        trace, [gone, new], station = trace_of(2)
        gone.attaches(station, 1)
        gone.detaches()
        kept = [Kept(gone, remembering.DEREGISTERED), Kept(new, remembering.DEREGISTERED)]
        kept[0].context = kept[0].tmsi = None
        text = self.check(trace, kept, lambda: (new.asks_to_attach(station, 3), gone.asks_to_attach(station, 2)))
        self.assertIn("challenges the phone by vector 2", text)
        self.assertIn("challenges the phone by vector 1", text)

    def test_strangers(self):
        """One who is asked for its IMSI, and tells it; its attach lies before."""
        trace, [phone], station = trace_of(1)
        esm = lte.pdn_connectivity_request(1, 1, False)
        attach = lte.attach_request(1, bytes.fromhex("f602f83900010212345678"), phone.capability, esm)
        number = (1 << 31) + 9
        stranger = remembering.waiting(trace.network, number, attach, 1, 6, 4)

        def later():
            identity = lte.identity_response(lte.imsi_identity(phone.imsi))
            trace.hear(station, lte.uplink_nas(trace.network, station, number, 9, identity))
            phone.station, phone.b, phone.vector = station, 9, phone.vectors[0]
            phone.owed(lte.downlink_nas(number, 9, lte.authentication_request(0, phone.vector)))

        text = self.check(trace, [Kept(phone, remembering.DEREGISTERED)], later, strangers=[stranger])
        self.assertIn("tells the IMSI %s: the attach before the snapshot is this phone's" % phone.imsi, text)


class Before(unittest.TestCase):
    """What lies before the snapshot is said to."""

    def setUp(self):
        self.trace, [self.phone], self.station = trace_of(1)
        self.phone.attaches(self.station, 1)
        self.early = self.trace.lines[-1]
        self.phone.is_released()
        self.phone.asks_for_service(self.station, 2)
        self.late = self.phone.protected_up(lte.ATTACH_COMPLETE)
        kept = Kept(self.phone, remembering.REGISTERED)
        kept.bearer, kept.trail = remembering.ACTIVE, (2, 0)
        self.octets = remembering.snapshot(self.trace.network, CLOCK, AREAS, [kept])
        self.since = len(self.trace.lines), len(self.trace.answers)

    def brief(self, *lines, answers=()):
        """What is told in brief of these lines."""
        self.trace.lines += lines
        self.trace.answers += answers
        trace, answers = rest_of(self.trace, self.octets, self.since)
        run = story.matched_run(trace, answers)
        self.assertEqual([each.otherwise for each in run.told if each.otherwise], [])
        return "".join(EXPLAIN.text_of(EXPLAIN.entries_of(run.told, True), run.world, True)), run

    def uplink(self, nas):
        return "in 0 " + lte.uplink_nas(self.trace.network, self.station, self.phone.m, self.phone.b, nas).hex()

    def test_counts(self):
        """The last count was accepted before; one below it was passed, whether it was used or not."""
        last = self.uplink(self.late)
        text, run = self.brief(last, self.uplink(self.phone.secured(2, 1, lte.UP, lte.ATTACH_COMPLETE)))
        self.assertIn("(replayed): count 3 was accepted before the snapshot (TS 24.301 clause 4.4.3.2; before the snapshot)", text)
        self.assertIn("its count 1 is below 3, which was accepted before the snapshot", text)
        [entry] = EXPLAIN.entries_of(run.told[:1])
        [said] = entry.object(run.trace.imsis)["told"]
        self.assertEqual((said["why"], said["lines"], said["facts"]), ("COUNT_USED", [None], {"count": 3, "line": None}))

    def test_association(self):
        """One that ended before, and one that there never was."""
        for number, told_of in ((1, "comes too late: MME id 1 was of a connection that ended before the snapshot"),
                                (9, "is of nobody: MME id 9 is of no association")):
            with self.subTest(number=number):
                self.setUp()
                octets = lte.release_request(number, 1, lte.USER_INACTIVITY)
                error = lte.error_indication(lte.UNKNOWN_MME_ID, (number, 1))
                text, _ = self.brief("in 0 " + octets.hex(), answers=["out s0 0 " + error.hex()])
                self.assertIn(told_of, text)

    def test_key(self):
        """A MAC that is wrong may be right by a key that isn't known any more; in the second vector's context it may, in the
        first's it can't."""
        forged = self.uplink(failures.turned(self.phone.protected_up(lte.ATTACH_COMPLETE)))
        self.assertIn("(forged): the MAC is wrong under vector 1's key", self.brief(forged)[0])
        self.setUp()
        kept = Kept(self.phone, remembering.REGISTERED)
        kept.bearer, kept.trail, kept.spent = remembering.ACTIVE, (2, 0), 2
        kept.context = 1, *kept.context[1:]
        self.octets = remembering.snapshot(self.trace.network, CLOCK, AREAS, [kept])
        text, _ = self.brief(forged)
        self.assertIn("and the keys of contexts that ended before the snapshot aren't known", text)
        self.assertNotIn("forged", text)


class Refused(unittest.TestCase):
    """Octets that aren't read are refused in words."""

    def setUp(self):
        trace, [self.phone], station = trace_of(1)
        self.phone.attaches(station, 1)
        self.network = trace.network

    def kept(self, **changes):
        """The registered, connected phone, with changes."""
        made = Kept(self.phone, remembering.REGISTERED)
        made.bearer = remembering.ACTIVE
        vars(made).update(changes)
        return made

    def check(self, why, kept=None, octets=None, **named):
        made = remembering.snapshot(self.network, CLOCK, AREAS, [kept or self.kept()], **named)
        with self.assertRaisesRegex(remembered.Unfit, "of the MME's snapshot can't be read: .*" + re.escape(why)):
            Remembered(made if octets is None else octets(made))

    def test_octets(self):
        """Another version, an end that is cut, and octets after it; whatever is cut, that is said."""
        self.check("it is 2, and 1 is read here", version=2)
        self.check("octets after the end", octets=lambda octets: octets + b"\0")
        whole = remembering.snapshot(self.network, CLOCK, AREAS, [self.kept()])
        for count in range(len(whole)):
            with self.assertRaisesRegex(remembered.Unfit, "can't be read: cut short"):
                Remembered(whole[:count])
        self.check("its clock is before its beginning", began=CLOCK + 1)

    def test_bits(self):
        """Each bit turned is refused in words, or what comes of it is a network that takes events."""
        whole, refused = remembering.snapshot(self.network, CLOCK, AREAS, [self.kept()]), 0
        for place in range(8 * len(whole)):
            octets = bytearray(whole)
            octets[place // 8] ^= 128 >> place % 8
            try:
                world = Remembered(bytes(octets)).world()
            except remembered.Unfit:
                refused += 1
                continue
            world.take(runs.event_of(1, "tick", ["4000"]))
        self.assertGreater(refused, 100)

    def test_states(self):
        """A subscriber in a state that can't be."""
        paged = {"repeat": [0], "procedure": (remembering.T3413, 4, 1)}
        for why, changes in (
                ("it has a security context, or none, in the wrong phase", {"context": None}),
                ("the vector of its context isn't spent", {"spent": 0}),
                ("no count gave its KeNB", {"trail": None}),
                ("no count gave its KeNB", {"trail": (2, 0)}),
                ("it is awaited, or isn't, in the wrong phase", {"reachable": 9}),
                ("it is awaited, or isn't, in the wrong phase", {"connection": None}),
                ("its timer is another procedure's", paged),
                ("T3413 runs too long", {**paged, "connection": None, "reachable": 9, "procedure": (remembering.T3413, 11, 1)}),
                ("T3413 runs too long", {**paged, "connection": None, "reachable": 9, "procedure": (remembering.T3413, 10, 2)}),
                ("its procedure has no timer", {"repeat": [0]}),
                ("its procedure has no timer", {"phase": remembering.UPDATING}),
                ("it has a connection, or none, in the wrong phase", {"phase": remembering.UPDATING, "connection": None}),
                ("another message is sent again", {"phase": remembering.UPDATING, **paged, "procedure": (remembering.T3450, 6, 4)}),
                ("it has no vector for its challenge", {"phase": remembering.AUTHENTICATING, "context": None, "spent": 3})):
            with self.subTest(why=why, changes=changes):
                self.check(why, self.kept(**changes))

    def test_strangers(self):
        """Strangers out of order, of nobody, or that didn't begin by an attach."""
        numbers = [(1 << 31) + number for number in (5, 4)]
        one = lambda number, nas=b"\x07\x41": remembering.waiting(self.network, number, nas, 1, 6, 4)
        self.check("it didn't begin by an ATTACH REQUEST", strangers=[one(numbers[0])])
        self.check("its id isn't above that of the one before", strangers=[remembering.held(number, 0) for number in numbers])
        self.check("its id isn't above that of the one before", strangers=[remembering.held(4, 0)])
        self.check("nobody has the slot that holds it", strangers=[remembering.held(numbers[0], 1)])

    def test_twice(self):
        """Two subscribers with one IMSI."""
        made = remembering.snapshot(self.network, CLOCK, {}, [self.kept(), self.kept()])
        with self.assertRaisesRegex(remembered.Unfit, "subscriber 1 of the MME's snapshot can't be read: another has its IMSI"):
            Remembered(made)


class Speed(unittest.TestCase):
    def test_all_subscribers(self):
        """The model of 32,768 registered phones with eight vectors each is made within seconds of a processor; it takes some four."""
        trace, station = phones.Trace(), phones.Station(0)
        phone = phones.Phone(trace, 0, vectors(9))
        phone.attaches(station, 1)
        phone.is_released()
        kept = Kept(phone, remembering.REGISTERED)
        kept.bearer, kept.reachable = remembering.ACTIVE, 3000
        parts = []
        for slot in range(lte.SLOTS):
            phone.imsi = "00101%010d" % (slot + 1)
            parts.append(kept.written().done())
        empty = remembering.snapshot(trace.network, CLOCK, AREAS, [])
        octets = empty.removesuffix(bytes(2)) + lte.SLOTS.to_bytes(2, "big") + b"".join(parts)
        begun = time.process_time()
        world = Remembered(octets).world()
        self.assertLess(time.process_time() - begun, MOST_SECONDS)
        self.assertEqual(len(world.by_imsi), lte.SLOTS)


class Formats(unittest.TestCase):
    def test_formats(self):
        """The formats that are read are those of the crate: each with its parts, in their order and as many."""
        text = pathlib.Path(FORMATS).read_text()
        for name, kind in (("head", remembered.HEAD), ("waiting", remembered.WAITING), ("stranger", remembered.STRANGER),
                           ("context", remembered.CONTEXT), ("asked", remembered.ASKED), ("bearer", remembered.BEARER),
                           ("request", remembered.REQUEST), ("waits", remembered.WAITS), ("link", remembered.LINK),
                           ("ids", remembered.IDS), ("vector", remembered.VECTOR)):
            with self.subTest(name=name):
                body = re.search(r"saved_%s =\s+plain \((.*)\bdone" % name, text)[1]
                wanted = ["may" == word for word in re.findall(r"\b(must|may)\b", body)]
                self.assertEqual([isinstance(part, remembered.Optional) for part in kind.components.values()], wanted)


if __name__ == "__main__":
    unittest.main()
