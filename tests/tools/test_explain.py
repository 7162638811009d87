"""tools/explain: the reasons of attaches that fail, in words written by hand; that the reader expects what every row has, and what
the MME does over random events with lies; and that whatever else an MME did would be seen.
"""
import contextlib
import importlib
import json
import os
import pathlib
import random
import re
import subprocess
import tempfile
import time
import unittest
from unittest import mock

from tests.tools import failures, tools

EXPLAIN = tools.module("tools/explain")
RUNS = importlib.import_module("tools.runs")
STORY = importlib.import_module("tools.eps.story")
MESSAGES = importlib.import_module("tools.eps.messages")
NAS, MACS, CIPHERS, TELLING = (importlib.import_module("tools.eps." + name) for name in ("nas", "macs", "ciphers", "telling"))
QUICK, WORLD, WRITING = (importlib.import_module("tools.eps." + name) for name in ("quick", "world", "writing"))
SKIPPING = importlib.import_module("tools.eps.scripts")
REASONS = importlib.import_module("tools.eps.reasons")
# As fronts with a program wrote it into their logs until they took no lines while they ran.
ANEW = "# begun anew: the front was given lines for %s, who was sent other answers than the log gives above; nobody withdrew it"
FUZZ = importlib.import_module("tests.hostile.fuzz")
LABORATORY = importlib.import_module("tests.hostile.laboratory")

PROGRAM = tools.TOP / "crates" / "mme" / "out" / "mme"
SESSIONS, EVENTS = 4, 1000  # of random events, by each seed
FOREIGN_GUTI = bytes.fromhex("f602f83900010212345678")  # of another network
OTHER, NOBODYS = "001010000000008", "001010000000009"  # IMSIs without a `sub` line
TURNED = 40  # bits of a message
MOST_BESIDE_READING = 24  # times what it takes to read the lines of a run, to tell it
MOST_TRIES = 9  # at a time that other processes may have lengthened
SCRIPTS = {**{path: path.with_suffix(".trace") for path in (tools.TOP / "examples").glob("*.script")},
           **{path: path.with_suffix(".expect") for path in (tools.TOP / "tests" / "scripts").glob("*.script")}}


def explained(trace, answers, *words):
    """What tools/explain prints for a trace and its answers, as texts."""
    with tempfile.TemporaryDirectory() as folder:
        paths = [pathlib.Path(folder, name) for name in ("trace", "answers")]
        for path, text in zip(paths, (trace, answers)):
            path.write_text(text)
        return tools.ran("explain", *words, *paths)


def refused_as_nobodys(station):
    """The answers to a stranger, eNB UE S1AP ID 1 there, whose IMSI nobody is provisioned with, as comments of a trace."""
    trace, stranger = failures.phones.Trace(), (1 << 31) + 1
    trace.owe("x0.1", station, failures.lte.downlink_nas(stranger, 1, b"\x07\x44\x08"))
    trace.owe("x0.1", station, failures.lte.release_command(stranger, 1, failures.lte.NORMAL_RELEASE))
    return ["# " + line for line in trace.answers]


def reset_told(listed):
    """What is told of two phones that attach at a station as eNB ids 1 and 2, a stranger who comes there as 3, and a RESET of a
    part with this list, each item by its ids."""
    lte, trace, station = failures.lte, failures.phones.Trace(), failures.phones.Station(0)
    attached = [failures.phones.Phone(trace, slot, [failures.phones.Vector.made("reset %d" % slot)]) for slot in (0, 1)]
    trace.provision(attached)
    trace.set_up(station)
    for phone in attached:
        phone.attaches(station, phone.slot + 1)
    request = lte.attach_request(1, FOREIGN_GUTI, attached[0].capability, lte.pdn_connectivity_request(1, 1, False))
    trace.hear(station, lte.initial_ue_message(trace.network, station, 3, request))
    trace.owe("x0.3", station, lte.downlink_nas((1 << 31) + 3, 3, bytes.fromhex("075501")))  # IDENTITY REQUEST for the IMSI
    trace.set_back(station, *listed)
    done = explained(trace.text(), trace.answer_text())
    assert (done.returncode, done.stderr) == (0, b""), done
    return done.stdout.decode().splitlines()


def strays(trace, answers):
    """How the MME did otherwise than is expected in a run."""
    return [text for each in STORY.matched_run(trace, answers).told for _, text in each.otherwise]


def unseen(expected, answer, rng):
    """Those of some bits of an answer that may be turned without a difference, or so that it is taken for what is expected."""
    found = []
    for place in rng.sample(range(8 * len(answer.octets)), TURNED):
        octets = bytearray(answer.octets)
        octets[place // 8] ^= 128 >> place % 8
        sent = answer.owner, answer.station, bytes(octets)
        if not list(expected.differences(*sent)) or expected.is_sent(*sent, MACS.is_right):
            found.append(place)
    return found


def runs_of_rows():
    """Each row with its answers, and each trace with answers of examples/ and of the scripts."""
    for name in tools.playable():
        trace, answers = ((tools.ROWS / name).with_suffix(end).read_bytes() for end in (".trace", ".answers"))
        yield name, RUNS.read_trace(trace), RUNS.read_answers(answers)
    for path in SCRIPTS.values():
        octets = path.read_bytes()
        if b"\n# out" in octets:
            yield path.name, RUNS.read_trace(octets), [answer for _, answer in RUNS.read_told(octets)]


class Reasons(unittest.TestCase):
    def test_failures(self):
        for failure in failures.FAILURES:
            with self.subTest(failure=failure.name, shows=failure.shows):
                made = failure.make()
                trace, answers = RUNS.read_trace(made.text().encode()), RUNS.read_answers(made.answer_text().encode())
                run = STORY.exact_run(trace, answers)
                self.assertEqual("".join(EXPLAIN.text_of(EXPLAIN.entries_of(run.told), run.world, brief=True)), failure.words + "\n")

    def test_program(self):
        """The program prints the same, of a file and of standard input."""
        failure = failures.FAILURES[3]
        made = failure.make()
        done = explained(made.text(), made.answer_text(), "--brief")
        self.assertEqual((done.returncode, done.stdout.decode(), done.stderr), (0, failure.words + "\n", b""))
        path = tools.TOP / "examples" / "lies.trace"
        self.assertEqual(tools.ran("explain", "-", given=path.read_bytes()).stdout, tools.ran("explain", path).stdout)

    def test_json(self):
        """The same reasons as objects, with the names that tools may rely on."""
        trace = failures.used_count()
        done = explained(trace.text(), trace.answer_text(), "--json", "--brief")
        [entry] = [json.loads(line) for line in done.stdout.splitlines()]
        [told] = entry["told"]
        self.assertEqual({name: told[name] for name in ("why", "clause", "lines", "mark", "dropped")}, {
            "why": "COUNT_USED", "clause": "TS 24.301 clause 4.4.3.2", "lines": [11], "mark": "replayed", "dropped": True})
        self.assertEqual((entry["line"], entry["imsi"], told["facts"]["count"]), (12, "001010000000001", 1))

    def test_repeats_and_seconds(self):
        trace = failures.t3460()
        lines = explained(trace.text(), trace.answer_text()).stdout.decode().splitlines()
        repeats = [line.split(": ")[0].strip() + line[-6:] for line in lines if "repeat" in line]
        self.assertEqual(repeats, ["line 8, %d s%d of 4" % (6 * at, at) for at in range(1, 5)])

    def test_one_phone(self):
        path = tools.TOP / "examples" / "two_stations.trace"
        text = tools.ran("explain", "--imsi", "001010000000002", path).stdout.decode()
        self.assertEqual(re.findall("^[^ !?\n].*", text, re.M), ["IMSI 001010000000002"])

    def test_phone_that_nobody_is_provisioned_with(self):
        """It is told by its IMSI: as whom it came, what it was answered and why; not who else came there under the same eNB id."""
        trace, phone, station = failures.begun()
        esm = failures.lte.pdn_connectivity_request(1, 1, False)
        for imsi in (OTHER, NOBODYS, OTHER):
            request = failures.lte.attach_request(1, failures.lte.imsi_identity(imsi), phone.capability, esm)
            trace.hear(station, failures.lte.initial_ue_message(trace.network, station, 1, request))
            trace.answers += [line.removeprefix("# ") for line in refused_as_nobodys(station)]
        trace.say("data " + NOBODYS)
        trace.answers.append("refused 5")
        done = explained(trace.text(), trace.answer_text(), "--imsi", NOBODYS)
        self.assertEqual((done.returncode, done.stderr, done.stdout.decode()), (0, b"", """\
A stranger, eNB UE S1AP ID 1 at station 0
! line 8, 0 s: ATTACH REQUEST is refused: nobody is provisioned with IMSI 001010000000009 (TS 24.301 clause 5.5.1.2.5)
    ATTACH REJECT #8 EPS services and non-EPS services not allowed: refuses the request
    UE CONTEXT RELEASE COMMAND nas normal-release: the request was refused

Nobody
! line 10, 0 s: downlink data is refused: nobody is provisioned with IMSI 001010000000009 (README.md, A trace)
    line 10, 0 s: refused 5: nobody has this IMSI

"""))
        done = explained(trace.text(), trace.answer_text(), "--imsi", "001010000000007")
        told = b"explain: nobody is provisioned with IMSI 001010000000007, and no message names it\n"
        self.assertEqual((done.returncode, done.stdout, done.stderr), (2, b"", told))

    def test_phone_that_tells_its_imsi_when_asked(self):
        """What came before the IMSI is told too, of a phone that came by another network's GUTI."""
        imsi, station = "001010000000001", failures.phones.Station(0)
        lines = (tools.TOP / "examples" / "foreign.trace").read_text().splitlines()
        lines = [line.replace(imsi, OTHER) for line in lines[:9]] + refused_as_nobodys(station)
        done = tools.ran("explain", "--imsi", imsi, "-", given="\n".join(lines).encode())
        self.assertEqual((done.returncode, done.stderr), (0, b""))
        story = done.stdout.decode().splitlines()
        self.assertEqual(story[0], "A stranger, eNB UE S1AP ID 1 at station 0")
        self.assertIn("begins an attach by the GUTI of another MME or of nobody", story[1])
        self.assertIn("IDENTITY RESPONSE is refused: nobody is provisioned with IMSI " + imsi, story[3])

    def test_example_without_a_subscriber(self):
        """examples/no_subscriber.trace is what the standards' formats make of it, and its comments are what the program answers."""
        path = tools.TOP / "examples" / "no_subscriber.trace"
        lines = path.read_text().splitlines()
        made, gone = failures.unknown_imsi(), failures.lte.release_complete((1 << 31) + 1, 1)
        self.assertEqual([line for line in lines if not line.startswith("#")],
                         [line for line in made.lines if not line.startswith("vec")] + ["in 0 " + gone.hex()])
        self.assertEqual([line[2:] for line in lines if line.startswith("# out")], made.answers)
        told = tools.ran("explain", "--brief", "--imsi", NOBODYS, path).stdout.decode()
        [failure] = [failure for failure in failures.FAILURES if failure.make is failures.unknown_imsi]
        self.assertEqual(told, failure.words.replace("line 7", "line %d" % (lines.index(made.lines[-1]) + 1)) + "\n")
        if PROGRAM.exists():
            played = subprocess.run([PROGRAM, "play", path], capture_output=True, text=True, check=False, timeout=60)
            self.assertEqual((played.returncode, played.stdout.splitlines()), (0, made.answers))

    def test_reset_of_a_part(self):
        """What a RESET of a part did: the phones whose associations it lists, each once, and the ids that nobody there has."""
        one, two = "IMSI 001010000000001", "IMSI 001010000000002"
        nobody = ": no association of station 0 is meant by "
        by_both = "resets 2 associations, of %s, %s" % (one, two)
        for listed, told, gone in (
                ([(1, None)], "resets 1 association, of " + one, [one]),
                ([(None, 2)], "resets 1 association, of " + two, [two]),
                ([(1, 1)], "resets 1 association, of " + one, [one]),
                ([(1, None), (None, 1), (1, 1)], "resets 1 association, of " + one, [one]),
                ([(1, None), (None, 2)], by_both, [one, two]),
                ([(None, 3)], "resets 1 association, of a stranger with eNB id 3", []),
                ([(7, None), (None, 9), (1, None)], "resets 1 association, of %s%sMME id 7, eNB id 9" % (one, nobody), [one]),
                ([(1, 2), (None, None)], "resets nothing%sMME id 1 with eNB id 2, an item without ids" % nobody, []),
                ([(7, None), (7, None), (8, None)], "resets nothing%sMME id 7, MME id 8" % nobody, [])):
            with self.subTest(listed=listed):
                lines = reset_told(listed)
                [reset] = [line for line in lines if "RESET misc" in line]
                clause = " (TS 36.413 clause 8.7.1.2.2)" if nobody in told else ""
                self.assertEqual(reset.partition("RESET misc om-intervention ")[2], told + clause)
                self.assertEqual(reset[0], "!" if clause else " ")
                heads = [line for line in lines if line.startswith("IMSI")]
                losses = [max(head for head in heads if lines.index(head) < at) for at, line in enumerate(lines)
                          if "the phone loses its connection: station 0 reset the phone's association" in line]
                self.assertEqual(losses, gone)

    def test_begun_anew(self):
        """A `cancel` below the front's comment is the front's, and nobody's who withdraws a subscription; so in a chart."""
        imsi, mark = "001010000000001", ANEW + "\n"
        trace = (tools.TOP / "examples" / "cancel.trace").read_text()
        self.assertEqual(trace.count("cancel " + imsi), 2)
        told = tools.ran("explain", "-", given=trace.encode()).stdout.decode()
        self.assertEqual(told.count("the subscription is withdrawn: "), 2)
        marked = trace.replace("cancel " + imsi, mark % imsi + "cancel " + imsi)
        told = tools.ran("explain", "-", given=marked.encode()).stdout.decode()
        self.assertNotIn("is withdrawn", told)
        self.assertEqual(re.findall("the front begins the subscriber anew, .*; nobody withdrew the subscription: (.*)", told),
                         ["the network detaches the phone", "the idle phone is forgotten"])
        self.assertIn("front begins anew P1", tools.ran("chart", "-", given=marked.encode()).stdout.decode())

    def test_begun_anew_before_it_is_registered(self):
        """The same in the midst of an attach, where the connection is released, and where there is nothing to end."""
        for begins, ends in ((True, "; nobody withdrew the subscription: the attach ends"),
                             (False, ": there is no registration that could be ended: the phone is in Deregistered")):
            with self.subTest(begins=begins):
                trace, phone, station = failures.begun()
                if begins:
                    phone.asks_to_attach(station, 1)
                trace.say(ANEW % phone.imsi)
                trace.say("cancel " + phone.imsi)
                if begins:
                    phone.owed(failures.lte.release_command(phone.m, phone.b, failures.lte.DETACHED))
                told = explained(trace.text(), trace.answer_text())
                self.assertEqual(told.returncode, 0, told)
                [line] = re.findall(".*: the front begins the subscriber anew, .*", told.stdout.decode())
                self.assertIn(ends, line)

    def test_every_reason_has_a_clause(self):
        for why in REASONS.Why:
            with self.subTest(why=why.name):
                self.assertRegex(why.value.clause, r"^(TS (24|33|36)\.\d{3} clause (\d|\{clause\})|\{clause\}$|docs/SCRIPTS.md, Lines|README.md, A trace)")


def attached_and_released(count):
    """A trace of so many phones that attach and are released."""
    trace, station = failures.phones.Trace(), failures.phones.Station(0)
    made = [failures.phones.Phone(trace, slot, [failures.phones.Vector.made("%d" % slot)]) for slot in range(count)]
    trace.provision(made)
    trace.set_up(station)
    for phone in made:
        phone.attaches(station, phone.slot)
        phone.is_released()
    return trace


def days(count, network, first, capability):
    """A trace of so many phones of a network and a capability, and of a station that counts their connections from the first: each
    attaches, is released, updates its area from idle, is served and detaches, half of them with a combined attach and update."""
    trace, station = failures.phones.Trace(network), failures.phones.Station(0)
    made = [failures.phones.Phone(trace, slot, [failures.phones.Vector.made("%d" % slot)], capability) for slot in range(count)]
    trace.provision(made)
    trace.set_up(station)
    for phone in made:
        b, combined = first + phone.slot, phone.slot % 2
        phone.attaches(station, b, pdn_type=1 + 2 * combined, attach_type=1 + combined, information=bool(combined))
        phone.is_released()
        phone.updates_from_idle(station, b, combined)
        phone.completes_update(from_idle=True)
        phone.asks_for_service(station, b)
        phone.context_is_set_up()
        phone.detaches()
    return trace


def calls_of(act, *named):
    """How often each of these, by its module and its name, is called in an act that succeeds."""
    with contextlib.ExitStack() as patches:
        calls = [patches.enter_context(mock.patch.object(module, name, wraps=getattr(module, name))) for module, name in named]
        assert act() is not None
        return [call.call_count for call in calls]


def resets_of_nobody(count):
    """A trace of so many phones that don't come, and as often a RESET of an association that nobody has."""
    trace, station = failures.phones.Trace(), failures.phones.Station(0)
    trace.provision([failures.phones.Phone(trace, slot, ()) for slot in range(count)])
    trace.set_up(station)
    for _ in range(count):
        trace.set_back(station, (7, None))
    return trace


class Speed(unittest.TestCase):
    def test_four_times_the_lines(self):
        """They take some four times the time, and not sixteen times."""
        for make, count in ((attached_and_released, 150), (resets_of_nobody, 1500)):
            with self.subTest(trace=make.__name__):
                runs = []
                for lines in (count, 4 * count):
                    made = make(lines)
                    runs.append((RUNS.read_trace(made.text().encode()), RUNS.read_answers(made.answer_text().encode())))
                self.least(lambda: [self.seconds(*run) for run in runs], lambda one, four: four < 7 * one)

    def least(self, tried, holds):
        """The least of each of two times, over as many tries as it takes that they hold: other processes only ever lengthen one."""
        least = tried()
        for _ in range(MOST_TRIES):
            least = [min(times) for times in zip(least, tried())]
            if holds(*least):
                return
        self.fail("%.3f s and %.3f s in the quickest of %d tries" % (*least, MOST_TRIES + 1))

    def seconds(self, trace, answers):
        """How long a run is told."""
        begun = time.process_time()
        run = STORY.exact_run(trace, answers)
        self.assertIsNotNone(run)
        "".join(EXPLAIN.text_of(EXPLAIN.entries_of(run.told), run.world, brief=True))
        return time.process_time() - begun

    def test_work(self):
        """What is worked out anew for a message isn't for each one: of four times the phones hardly more messages are read from the
        left, and no more blocks are encrypted one by one."""
        counts = []
        for count in (150, 600):
            made = attached_and_released(count)
            trace, answers = RUNS.read_trace(made.text().encode()), RUNS.read_answers(made.answer_text().encode())
            counts.append(calls_of(lambda: STORY.exact_run(trace, answers), (CIPHERS, "aes"), (MESSAGES, "decode_whole"), (
                MESSAGES, "frame_met"), (NAS, "read_emm"), (NAS, "read_esm")))
            self.assertGreater(len(trace.events) + len(answers), 10 * count)
        self.assertEqual([counts[1][0], counts[1][1]], [0, 0])
        self.assertLess(sum(counts[1]), 100)

    def test_each_message_is_read_once(self):
        """What a station sends is read once, and an answer is compared as it is: so for any network, address, id and capability."""
        for network, first, capability in (
                (failures.phones.Network(), 1, b"\xe0\x60"),
                (failures.phones.Network("999", "123", "fffe", "80", "a" * 63), 250, b"\xf0\xf0"),
                (failures.phones.Network("208", "93", "0000", "ff", "i", (1, 10**10)), (1 << 24) - 20, b"\xe0\xe0\xc0\x40\x01")):
            with self.subTest(network=network.words):
                made = days(20, network, first, capability)
                trace, answers = RUNS.read_trace(made.text().encode()), RUNS.read_answers(made.answer_text().encode())
                self.assertIsNotNone(STORY.exact_run(trace, answers))  # what has no writer is read the first time
                heard = sum(event.word == "in" for event in trace.events)
                read, decoded = calls_of(lambda: STORY.exact_run(trace, answers), (MESSAGES, "decode"), (NAS, "decode_emm"))
                self.assertEqual(read, heard + 1)  # with S1 SETUP RESPONSE
                self.assertLessEqual(decoded, heard)

    def test_nothing_for_later(self):
        """In brief no event is kept of which there is nothing to tell, nor what each was; and no key is made that isn't sent."""
        made = attached_and_released(20)
        trace, answers = RUNS.read_trace(made.text().encode()), RUNS.read_answers(made.answer_text().encode())
        counts = calls_of(lambda: STORY.exact_run(trace, answers, STORY.Extent.REASONS), (RUNS, "Step"), (STORY, "Answered"), (
            TELLING, "Telling"), (CIPHERS, "next_hop"))
        self.assertEqual(counts, [0, 0, 0, 0])

    def test_beside_reading(self):
        """A run is told in a few times what it takes to read its lines."""
        made = attached_and_released(600)
        text, answer_text = made.text().encode(), made.answer_text().encode()

        def tried():
            begun = time.process_time()
            trace, answers = RUNS.read_trace(text), RUNS.read_answers(answer_text)
            read = time.process_time() - begun
            return read, self.seconds(trace, answers)

        self.least(tried, lambda read, told: told < MOST_BESIDE_READING * read)


class Macs(unittest.TestCase):
    def test_many(self):
        """Of many messages at once the MACs are those of RFC 4493 clause 4, and of each under its key what reference/lte.py has."""
        key = bytes.fromhex("2b7e151628aed2a6abf7158809cf4f3c")
        text = bytes.fromhex("6bc1bee22e409f96e93d7e117393172aae2d8a571e03ac9c9eb76fac45af8e51"
                             "30c81c46a35ce411e5fbc1191a0a52eff69f2445df4f9b17ad2b417be66c3710")
        rng = random.Random(93)
        for size, mac in ((0, "bb1d6929e95937287fa37d129b756746"), (16, "070a16b46b4d4144f79bdd9dd04a287c"),
                          (40, "dfa66747de9ae63030ca32611497c827"), (64, "51f0bebf7e3b9d92fc49741779363cfe")):
            with self.subTest(size=size):
                others = [rng.randbytes(16) for _ in range(9)]
                ciphers = [CIPHERS.Cmac(each) for each in (*others, key)]
                MACS.make_subkeys(ciphers)
                found = [each.hex() for each in MACS.macs(ciphers, 10 * [text[:size]])]
                self.assertEqual(found[-1], mac)
                self.assertEqual(found[:-1], [failures.lte.Cmac(each).of(text[:size]).hex() for each in others])

    def test_claims(self):
        """A wrong MAC among right ones is found: of any message, with four octets or two, once many are looked at or at the end."""
        rng = random.Random(94)
        made = [(rng.randbytes(32), rng.randrange(1 << 24), at % 2, rng.randbytes(rng.randrange(70)), 2 + at % 2 * 2)
                for at in range(60)]
        made = [(*each, mac_of(*each)) for each in made]
        self.assertEqual([MACS.is_right(*each, mac) for *each, _, mac in made], 60 * [True])
        for wrong in (None, 0, 1, 30, 59):
            for most in (7, 1000):
                with self.subTest(wrong=wrong, most=most), mock.patch.object(MACS, "MOST_CLAIMS", most):
                    fails = self.assertRaises(MACS.Wrong) if wrong is not None else contextlib.nullcontext()
                    with fails:
                        claims = MACS.Claims()
                        for at, (*each, _, mac) in enumerate(made):
                            self.assertTrue(claims.is_right(*each, mac if at != wrong else bytes([mac[0] ^ 1]) + mac[1:]))
                        claims.check()


def mac_of(kasme, count, direction, message, size):
    """The last octets of a MAC, by reference/lte.py."""
    return failures.lte.eia2(failures.lte.Cmac(failures.lte.nas_integrity_key(kasme)), count, direction, message)[-size:]


class Usual(unittest.TestCase):
    def test_messages(self):
        """A message that is spelled as usual is read as any other: those of the rows, and each with bits turned by a seed."""
        rng, known = random.Random(74), set()
        for _, trace, answers in runs_of_rows():
            for each in trace.events + answers:
                kind = each.octets and (each.octets[:2], len(each.octets))
                if kind and kind not in known:
                    known.add(kind)
                    for octets in (each.octets, *(with_bit_turned(each.octets, rng) for _ in range(TURNED))):
                        self.assertEqual(all_of(MESSAGES.decode(octets)), all_of(MESSAGES.decode_whole(octets)), octets.hex())
        self.assertGreater(len(known), 100)

    def test_holes(self):
        """The same where the holes of its shape have anything in them, by a seed."""
        rng, frames = random.Random(95), 0
        for _, trace, answers in runs_of_rows():
            for each in trace.events + answers:
                found = each.octets and MESSAGES.FRAMES.find(each.octets)
                for hole in found[0].holes if found else ():
                    frames += 1
                    octets = with_hole_filled(each.octets, hole, rng)
                    self.assertEqual(all_of(MESSAGES.decode(octets)), all_of(MESSAGES.decode_whole(octets)), octets.hex())
        self.assertGreater(frames, 1000)

    def test_lines(self):
        """A line that is written as usual is read as any other: of the rows, and with something else in it."""
        line = b"in 0 0011001f000003003b00080000f11000000010004000070000004000f1100089400140"
        others = [line + b" ", line + b"0", line[:-1], line.upper(), line.replace(b" 0 ", b" 00 "), line.replace(b" 0 ", b" 128 "),
                  line.replace(b" 0 ", b"  "), line.replace(b"00", b"0 "), b"in 0 -", b"in 0 ", b"in 0", b"in", b"up 0", b"in 0 zz",
                  b"in 127 0A0b", b"in 0 \xff\xff"]
        for each in [line, *others]:
            with self.subTest(line=each):
                self.assertEqual(read_or_refused(b"mme 001 01 8001 01 internet 1 1\nup 0\n" + each, RUNS.read_trace),
                                 read_or_refused(b"mme 001 01 8001 01 internet 1 1\nup 0\n" + each, RUNS.read_trace, "usual_event"))
                out = b"out e0" + each[2:]
                self.assertEqual(read_or_refused(b"out e0 0 00\n" + out, RUNS.read_answers),
                                 read_or_refused(b"out e0 0 00\n" + out, RUNS.read_answers, "usual_answer"))

    def test_nas_messages(self):
        """A NAS message of a shape that was met is read as any other: those of the rows, and each with bits turned by a seed."""
        rng, known = random.Random(93), set()
        for octets, direction in nas_of_rows():
            kind = octets[:3], len(octets), direction
            if kind not in known:
                known.add(kind)
                for each in (octets, *(with_bit_turned(octets, rng) for _ in range(TURNED))):
                    is_esm = each[0] & 0xF == 2
                    wanted = NAS.read_esm(each) if is_esm else NAS.read_emm(each, direction)
                    self.assertEqual(all_of_nas(NAS.decode_plain(each, direction)), all_of_nas(wanted), each.hex())
        self.assertGreater(len(known), 60)


def with_hole_filled(octets, hole, rng):
    """The octets with anything in a hole that may stand there."""
    shift = 8 * len(octets) - hole.first - hole.width
    bits, number = rng.randrange(hole.least or 0, 1 << hole.width), int.from_bytes(octets, "big")
    return (number & ~((1 << hole.width) - 1 << shift) | bits << shift).to_bytes(len(octets), "big")


def read_or_refused(octets, read, without=None):
    """What is read of these octets, or why it can't be taken; perhaps without a function of runs.py, which then answers nothing."""
    with mock.patch.object(RUNS, without, lambda *_: None) if without else contextlib.nullcontext():
        try:
            return read(octets)
        except RUNS.Fault as fault:
            return str(fault)


def nas_of_rows():
    """The plain NAS messages of the rows, and those inside protected ones, each with its direction."""
    for _, trace, answers in runs_of_rows():
        for direction, messages in ((NAS.UP, trace.events), (NAS.DOWN, answers)):
            for carried in filter(None, (MESSAGES.decode(each.octets).nas() for each in messages if each.octets)):
                protected = NAS.split(carried)
                if inside := protected.inner if protected else carried:
                    yield inside, direction


def all_of_nas(message):
    """A NAS message with all that is told of it, the messages in it too."""
    fields = {name: all_of_nas(value) if isinstance(value, NAS.Plain) else whole(value) for name, value in message.fields.items()}
    return (message.octets, message.is_esm, message.type, list(fields.items()), message.lengths, message.places, message.spare,
            message.fault, message.why)


def with_bit_turned(octets, rng):
    place, turned = rng.randrange(8 * len(octets)), bytearray(octets)
    turned[place // 8] ^= 128 >> place % 8
    return bytes(turned)


def all_of(message):
    """A message with all that is told of it, numbers of enumerators and criticalities of items too."""
    return (message.octets, message.code, message.outcome, message.criticality, message.fault, message.why,
            [(element.id, element.criticality, element.octets, whole(element.value)) for element in message.elements])


def whole(value):
    """A value with what doesn't count where it is compared."""
    if isinstance(value, dict):
        return [(name, whole(inner)) for name, inner in value.items()]
    if isinstance(value, list):
        return [getattr(value, "as_written", None), *map(whole, value)]
    return value, type(value), getattr(value, "number", None)


class Expected(unittest.TestCase):
    def test_rows(self):
        for name, trace, answers in runs_of_rows():
            with self.subTest(run=name):
                self.assertEqual(strays(trace, answers), [])

    @unittest.skipIf(not PROGRAM.exists() and not os.environ.get("CI"), "the program isn't built")
    def test_random_events(self):
        """Random events with lies, by a seed and by a fresh one: every answer of the MME is expected."""
        fresh = "%016x" % random.SystemRandom().getrandbits(64)
        for seed in ["gate", fresh]:
            for at in range(SESSIONS):
                with self.subTest(seed="%s.%d" % (seed, at)):
                    run = FUZZ.lived("%s.%d" % (seed, at), EVENTS, PROGRAM)
                    text = "".join(line + "\n" for line in LABORATORY.provisioning() + run.events)
                    answers = [RUNS.answer_of(line.encode()) for lines in run.answers for line in lines]
                    self.assertEqual(strays(RUNS.read_trace(text.encode()), answers), [])

    def test_a_bit_turned(self):
        """A bit that is turned in a message of the MME is seen: some bits, by a seed, of one message of each kind and length."""
        known, rng = set(), random.Random(63)
        for name, trace, answers in runs_of_rows():
            world, sent = WORLD.World(trace.head), iter(answer for answer in answers if answer.word == "out")
            for event in trace.events:
                for expected in world.take(event)[1]:
                    answer = next(sent)
                    kind = expected.text(), len(answer.octets)
                    if kind not in known:
                        known.add(kind)
                        with self.subTest(row=name, message=expected.text()):
                            self.assertTrue(expected.is_sent(answer.owner, answer.station, answer.octets, MACS.is_right))
                            self.assertEqual(unseen(expected, answer, rng), [])
        self.assertGreater(len(known), 60)

    def test_another_value(self):
        """A message that is owed isn't one with another value, whether that is read or written; nor is it for another."""
        for name, trace, answers in runs_of_rows():
            world, sent, before = WORLD.World(trace.head), iter(answer for answer in answers if answer.word == "out"), None
            for event in trace.events:
                for expected in world.take(event)[1]:
                    answer = next(sent)
                    if before and before.octets != answer.octets:
                        self.assertFalse(expected.is_sent(answer.owner, answer.station, before.octets, MACS.is_right), name)
                    if expected.is_sent(answer.owner, answer.station, answer.octets, MACS.is_right):
                        before = answer
                    self.assertFalse(expected.is_sent(answer.owner, answer.station + 1, answer.octets, MACS.is_right), name)
                    self.assertFalse(expected.is_sent("e9", answer.station, answer.octets, MACS.is_right), name)

    def test_what_is_said_of_it(self):
        """An answer that is missing, one too many, and one that is another, in a run whose answers stand at their events."""
        trace = (tools.TOP / "examples" / "attach_whole.trace").read_text()
        command = next(line for line in trace.splitlines() if "5d0200" in line)
        changes = (("", "the MME owes DOWNLINK NAS TRANSPORT with SECURITY MODE COMMAND, and doesn't send it"),
                   (command + "\n" + command, "the MME sends SECURITY MODE COMMAND, which isn't owed"),
                   (command.replace("5d0200", "5d0201"), "NAS key set identifier is 1, not 0"))
        for change, words in changes:
            with self.subTest(words=words), tempfile.NamedTemporaryFile("w", suffix=".trace") as file:
                file.write(trace.replace(command, change))
                file.flush()
                done = tools.ran("explain", file.name)
                self.assertEqual(done.returncode, 1)
                lines = [line for line in done.stdout.decode().splitlines() if line[:1] == "?"]
                self.assertEqual(len(lines), 1)
                self.assertIn(words, lines[0])


class Skipped(unittest.TestCase):
    def test_scripts(self):
        """As many lines as were skipped have a reason, in every script of examples/ and tests/scripts."""
        for script, printed in SCRIPTS.items():
            octets = printed.read_bytes()
            if b"\n# out" not in octets or script.with_suffix(".status").exists():
                continue
            with self.subTest(script=script.name):
                trace = RUNS.read_trace(octets)
                told, _ = STORY.story_of(trace, RUNS.told(trace, RUNS.read_told(octets)))
                skipped = SKIPPING.skipped(script.read_bytes(), octets, told)
                self.assertEqual(len(skipped), octets.count(b"## skipped"))

    def test_words(self):
        files = [tools.TOP / "examples" / ("station." + end) for end in ("script", "trace")]
        done = tools.ran("explain", "--brief", "--script", *files)
        self.assertIn("! line 15: up 1 is skipped: no `station` line gives a station 1 (docs/SCRIPTS.md, Lines)\n"
                      "! line 17: station 0 00002 0001 is skipped: there is a station 0 already (docs/SCRIPTS.md, Lines)\n",
                      done.stdout.decode())

    def test_standard_input(self):
        """What `mme sim` prints may come by a pipe, or the script; not both."""
        script, printed = (tools.TOP / "examples" / ("station." + end) for end in ("script", "trace"))
        wanted = tools.ran("explain", "--script", script, printed).stdout
        self.assertIn(b"is skipped", wanted)
        self.assertEqual(tools.ran("explain", "--script", script, "-", given=printed.read_bytes()).stdout, wanted)
        self.assertEqual(tools.ran("explain", "--script", "-", printed, given=script.read_bytes()).stdout, wanted)
        self.assertEqual(tools.ran("explain", "--script", "-", "-").returncode, 2)

    def test_strict(self):
        """--strict ends with status 1 and the line, where a line was skipped."""
        for name, status, told in (("station", 1, "explain: line 15 of the script is skipped\n"), ("attach_whole", 0, "")):
            with self.subTest(script=name):
                files = [tools.TOP / "examples" / (name + end) for end in (".script", ".trace")]
                done = tools.ran("explain", "--strict", "--script", *files)
                self.assertEqual((done.returncode, done.stderr.decode()), (status, told))

    def test_wrong_head(self):
        """A head that can't be taken is told with its line, also by the tool that draws it."""
        for line in ("vec 001010000000001 00 00 00 00", "sub 001010000000001 0a00000x 0a000064 00000001"):
            for tool in ("explain", "chart"):
                with self.subTest(tool=tool, line=line), tempfile.TemporaryDirectory() as folder:
                    trace, answers = (pathlib.Path(folder, name) for name in ("trace", "answers"))
                    trace.write_text("mme 001 01 8001 01 internet 1 1\n%s\nup 0\n" % line)
                    answers.write_text("")
                    done = tools.ran(tool, trace, answers)
                    told = "%s: the head of the trace can't be taken: %s\n" % (tool, line)
                    self.assertEqual((done.returncode, done.stderr.decode()), (2, told))

    def test_no_events(self):
        """Where nothing happened there is nothing to play."""
        for given in (b"", b"mme 001 01 8001 01 internet 1 1\n"):
            done = tools.ran("explain", "-", "--mme", "/nowhere", given=given)
            self.assertEqual((done.returncode, done.stdout, done.stderr), (0, b"", b""))

    def test_another_script(self):
        files = tools.TOP / "examples" / "station.script", tools.TOP / "examples" / "attach_whole.trace"
        done = tools.ran("explain", "--script", *files)
        self.assertEqual(done.returncode, 2)
        self.assertIn("the output isn't that of the script", done.stderr.decode())
