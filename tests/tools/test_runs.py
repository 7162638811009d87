"""tools/runs.py and tools/s1ap.py: which event each answer of the rows is to. What is right comes from reference/phones.py, where
each step of a phone says what the MME owes for it, and from a program that plays a part of the MME's."""
import contextlib
import io
import os
import pathlib
import random
import sys
import tempfile
import unittest

from reference import phones as PHONES, rows as REFERENCE_ROWS
from tests.tools import tools
from tools import runs as RUNS, s1ap as S1AP
from tools.fronting import segments as SEGMENTS


def row(name):
    """The trace and the answers of a row."""
    path = tools.ROWS / name
    return RUNS.read_trace(path.with_suffix(".trace").read_bytes()), RUNS.read_answers(path.with_suffix(".answers").read_bytes())


def answer_text(answer):
    if answer.word == "out":
        return "out %s %d %s" % (answer.owner, answer.station, answer.octets.hex())
    return "refused %d" % answer.fault if answer.word == "refused" else "state %s %s" % (answer.imsi, answer.states)


def given(steps):
    """Each event with the answers to it, as lines."""
    return [(RUNS.event_text(step.event), [answer_text(answer) for _, answer in step.answers]) for step in steps]


class Told(PHONES.Trace):
    """A trace that keeps which answers are owed to which line."""

    def answered(self):
        """Each line with the answers to it."""
        ends = self.ends[1:] + [len(self.answers)]
        return [(line, self.answers[start:end]) for line, start, end in zip(self.lines, self.ends, ends)]

    def told(self):
        """Each line that is an event, with the answers to it."""
        return [(line, answers) for line, answers in self.answered() if line.split(" ")[0] in RUNS.EVENTS]

    def commented(self):
        """The trace with the answers as comments, each after its event."""
        lines = (text for line, answers in self.answered() for text in [line] + ["# " + answer for answer in answers])
        return "\n".join(lines).encode()

    def say(self, line):
        self.ends = getattr(self, "ends", []) + [len(self.answers)]
        super().say(line)


def life(phone, stations, chance):
    """Steps of a phone at these stations, by chance, each to be done before the next is asked for."""
    radio_ids = (phone.slot + 100 * count for count in range(1, 100))
    yield from phone.attach_steps(chance.choice(stations), next(radio_ids), information=chance.random() < 0.5)
    for _ in range(chance.randrange(5)):
        choice = chance.randrange(4)
        if choice == 0:
            yield phone.updates
            yield lambda: phone.completes_update(from_idle=False)
        elif choice == 1:
            yield lambda: phone.switches_path(chance.choice(stations), next(radio_ids))
        elif choice == 2 and phone.place < len(phone.vectors):
            yield from phone.attach_steps(chance.choice(stations), next(radio_ids))
        elif choice == 3:
            break
    yield phone.is_released
    for _ in range(2):
        yield lambda: phone.has_data_waiting(stations)
        yield lambda: phone.updates_from_idle(chance.choice(stations), next(radio_ids))
        yield lambda: phone.completes_update(from_idle=True)


def by_chance(seed):
    """A trace of phones whose steps come in any order, with nothing shown in between."""
    chance, trace = random.Random(seed), Told()
    phones = [PHONES.Phone(trace, slot, [PHONES.Vector.made("%d.%d" % (slot, place)) for place in range(3)])
              for slot in range(chance.randrange(2, 9))]
    trace.provision(phones)
    stations = [PHONES.Station(0), PHONES.Station(3, identity=2, cell=0x201)]
    for station in stations:
        trace.set_up(station)
    lives = [life(phone, stations, chance) for phone in phones]
    while lives:
        going = chance.choice(lives)
        step = next(going, None)
        if step is None:
            lives.remove(going)
        else:
            step()
    return trace


class Matching(unittest.TestCase):
    def test_phones_by_chance(self):
        for seed in range(30):
            with self.subTest(seed=seed):
                trace = by_chance(seed)
                read = RUNS.read_trace(trace.text().encode())
                self.assertEqual(given(RUNS.matched(read, RUNS.read_answers(trace.answer_text().encode()))), trace.told())

    def test_rows_of_phones(self):
        REFERENCE_ROWS.Trace = Told
        for name, _, make in REFERENCE_ROWS.ROWS:
            with self.subTest(row=name):
                trace = make()
                read = RUNS.read_trace(trace.text().encode())
                steps = RUNS.matched(read, RUNS.read_answers(trace.answer_text().encode()))
                self.assertEqual(given(steps), trace.told())

    def test_all_answers_are_given_in_their_order(self):
        for name in tools.playable():
            with self.subTest(row=name):
                trace, answers = row(name)
                got = [answer for step in RUNS.matched(trace, answers) for _, answer in step.answers]
                self.assertEqual(sorted(map(answer_text, got)), sorted(map(answer_text, answers)))
                told = [answer_text(answer) for answer in answers if answer.word != "out"]
                self.assertEqual([answer_text(answer) for answer in got if answer.word != "out"], told)

    def test_acknowledgements(self):
        """An acknowledgement is to the RESET with its items, and to no other."""
        trace, answers = row("reset_of_nobody")
        acknowledged = [answer for answer in answers if answer.word == "out" and answer.octets[:2] == b"\x20\x0e"]
        for kept in ([0, 1], [0], [1]):
            with self.subTest(kept=kept):
                left_out = [acknowledged[at] for at in {0, 1} - set(kept)]
                steps = RUNS.matched(trace, [answer for answer in answers if answer not in left_out])
                found = [(step.event.octets, answer.octets) for step in steps for _, answer in step.answers
                         if answer in acknowledged]
                self.assertEqual([len(S1AP.listed(S1AP.read(octets))) for pair in found for octets in pair],
                                 [(1, 11)[at] for at in kept for _ in range(2)])

    def test_answers_to_ticks(self):
        """Five answers to 30 ticks stand at 6, 12, .. 30: T3460 has 6 seconds (TS 24.301 table 10.2.2)."""
        steps = RUNS.matched(*row("attach_unanswered"))
        [ticks] = [step for step in steps if step.event.word == "tick"]
        self.assertEqual([second for second, _ in ticks.answers], [6, 12, 18, 24, 30])

    def test_answers_to_data(self):
        """A page for data, and one more when the MME's T3413 of 10 seconds ends, with nothing shown in between."""
        path = tools.ROWS / "paging.trace"
        lines = [line for line in path.read_text().splitlines() if not line.startswith("show")]
        answers = [line for line in path.with_suffix(".answers").read_text().splitlines() if not line.startswith("state")]
        trace = RUNS.read_trace("\n".join(lines).encode())
        steps = RUNS.matched(trace, RUNS.read_answers("\n".join(answers).encode()))
        [data] = [step for step in steps if step.event.word == "data"]
        ticks = [second for step in steps if step.event.word == "tick" for second, _ in step.answers]
        self.assertEqual(([second for second, _ in data.answers], ticks), ([0], [10]))

    def test_other_answers(self):
        trace, answers = row("attach_whole")
        for other in (answers[:-1], answers + [RUNS.Answer("refused", fault=1)], row("up_twice")[1]):
            with self.assertRaisesRegex(RUNS.Fault, "answers aren't those to this trace"):
                RUNS.matched(trace, other)


def steps_told(octets):
    """The steps of a trace by the answers that stand in it."""
    return RUNS.told(RUNS.read_trace(octets), RUNS.read_told(octets))


class Telling(unittest.TestCase):
    HEAD = b"mme 001 01 8001 01 internet 1 1\nsub 001010000000001 0a000001 0a000064 00000001\n"

    def test_phones_by_chance(self):
        """Each comment is the answer to the event above it."""
        for seed in range(30):
            with self.subTest(seed=seed):
                trace = by_chance(seed)
                self.assertEqual(given(steps_told(trace.commented())), trace.told())

    def test_seconds(self):
        """T3460 ends each 6 seconds (TS 24.301 table 10.2.2), whether they pass one by one or at once."""
        _, answers = row("attach_unanswered")
        again = ["# " + answer_text(answer) for answer in answers[2:7]]
        ones = [line for answer in again for line in ["tick 1"] * 6 + [answer]]
        for ticks in (ones, ["tick 30"] + again):
            with self.subTest(lines=len(ticks)):
                lines = ["up 0", "in 0 00", "# out s0 0 " + answers[1].octets.hex(), *ticks]
                steps = steps_told(self.HEAD + "\n".join(lines).encode())
                self.assertEqual([second for step in steps for second, _ in step.answers], [0, 6, 12, 18, 24, 30])

    def test_prose(self):
        """A comment that only begins like an answer is none."""
        prose = b"# out of the blue\n# refused twice\n# state of the first phone\n#out s0 0 00\n# # out s0 0 00\n## skipped\n"
        self.assertEqual(RUNS.read_told(self.HEAD + b"up 0\n" + prose), [])

    def test_faults(self):
        """An answer that isn't of its form, that stands before all events, or that isn't what its event must get."""
        for lines, told in (
                ("up 0\n# out s0 0 0g", "line 4: '0g' aren't octets"),
                ("up 0\n# refused 2 2", "line 4: refused has 1 field, not 2"),
                ("# refused 2\nup 0", "line 3 stands before all events"), ("up 0\n# refused 2", "line 3 of it, up 0"),
                ("up 0\nup 0\n# out e0 0 00", "line 4 of it, up 0"), ("lost 0\n# refused 2", "line 3 of it, lost 0"),
                ("up 0\nup 0\n# refused 2\n# refused 2", "line 4 of it, up 0"),
                ("up 0\n# out e0 0 00\nshow 001010000000001", "line 5 of it, show"),
                ("show 001010000000001\n# state 001010000000002 A B C", "line 3 of it, show")):
            with self.subTest(told=told):
                with self.assertRaisesRegex(RUNS.Fault, told):
                    steps_told(self.HEAD + lines.encode())

    def test_what_helps(self):
        """Who has a trace with other comments is told of the flag by which they don't count."""
        with self.assertRaisesRegex(RUNS.Fault, r"isn't answered as it must be; with --mme \S+ the program answers it, whatever stands"):
            steps_told(self.HEAD + b"up 0\nup 0\n# out e0 0 00")


PROGRAM = """#!%s
import sys
states = {}
for line in open(sys.argv[2]):
    word, *fields = line.split()
    if word == "tick":
        for _ in range(int(fields[0])):
            states["clock"] = states.get("clock", 0) + 1
            if states["clock"] %% 6 == 0:
                print("out s0 0 %%08x" %% states["clock"])
    elif word == "show":
        print("state", fields[0], "DEREGISTERED IDLE INACTIVE")
    elif word == "up":
        print("refused 2") if "up" in states else states.update(up=1)
    elif word == "data" and fields[0] != "001010000000001":
        print("refused 5")
    elif word == "in":
        print("out e0 0 aa\\nout e0 0 bb")
"""


class Playing(unittest.TestCase):
    def setUp(self):
        with tempfile.NamedTemporaryFile("w", suffix=".py", delete=False) as file:
            file.write(PROGRAM % sys.executable)
        os.chmod(file.name, 0o755)
        self.addCleanup(os.unlink, file.name)
        self.program = pathlib.Path(file.name)

    def test_program(self):
        """The answers to each event and second are known, whatever they are."""
        lines = ["mme 001 01 8001 01 internet 1 1", "sub 001010000000001 0a000001 0a000064 00000001"]
        lines += ["up 0", "in 0 00", "up 0", "tick 13", "data 001010000000001", "data 999999999999999", "cancel 001010000000001"]
        lines += ["show 001010000000001", "tick 4", "tick 1", "in 0 01", "tick 9000"]
        trace = RUNS.read_trace("\n".join(lines).encode())
        steps = RUNS.played(trace, self.program)
        got = [[(second, answer_text(answer)) for second, answer in step.answers] for step in steps]
        self.assertEqual(got[:-1], [
            [], [(0, "out e0 0 aa"), (0, "out e0 0 bb")], [(0, "refused 2")], [(6, "out s0 0 00000006"), (12, "out s0 0 0000000c")],
            [], [(13, "refused 5")], [], [(13, "state 001010000000001 DEREGISTERED IDLE INACTIVE")], [],
            [(18, "out s0 0 00000012")], [(18, "out e0 0 aa"), (18, "out e0 0 bb")]])
        self.assertEqual(sum(len(step) for step in got[-1:]), 9018 // 6 - 3)

    def test_no_program(self):
        trace = RUNS.read_trace(b"mme 001 01 8001 01 internet 1 1\nup 0")
        with self.assertRaisesRegex(RUNS.Fault, "No such file"):
            RUNS.played(trace, "/nowhere/mme")
        with self.assertRaisesRegex(RUNS.Fault, "ended with status 1"), contextlib.redirect_stderr(io.StringIO()):
            RUNS.played(trace, "/bin/false")
        with self.assertRaisesRegex(RUNS.Fault, "end before the trace does"):
            RUNS.played(trace, "/bin/true")


class Reading(unittest.TestCase):
    def test_faulty_traces(self):
        """What `mme play` refuses as a fault of a line is refused here too, at that line; but for what is a fault of the
        provisioning's values, which the program alone looks into."""
        for path in sorted(tools.ROWS.glob("*.status")):
            number, kind = path.with_suffix(".errors").read_text().removeprefix("mme: line ").split(": fault ")
            octets = path.with_suffix(".trace").read_bytes()
            line = octets.split(b"\n")[int(number) - 1]
            if line[:4] in (b"mme ", b"sub ", b"vec ") and kind.strip() in "347":
                continue
            with self.subTest(row=path.stem):
                with self.assertRaisesRegex(RUNS.Fault, "line %s: " % number):
                    RUNS.read_trace(octets)

    def test_later_segments(self):
        """A log's later segment is named as one, with the files that come before it."""
        for name, number, before in (("log", 2, "log.segment.000001"), ("log", 4, "log.segment.000001 and so on to log.segment.000003"),
                                     ("a/log.segment.000002", 2, "a/log.segment.000001"), ("-", 2, "LOG.segment.000001")):
            with self.subTest(name=name, number=number), self.assertRaises(RUNS.Fault) as raised:
                RUNS.read_trace(SEGMENTS.line_of(number) + b"# time 1\nup 0\n", name)
            told = ("%s: this is segment %d of a front's log, which goes on after %s: join them by `cat` in this order, it last; if "
                    "one is gone, give the log itself, which is read from a snapshot on")
            self.assertEqual(str(raised.exception), told % (name, number, before))

    def test_good_traces(self):
        for name in tools.playable():
            with self.subTest(row=name):
                row(name)

    def test_unknown_imsi(self):
        self.assertEqual(RUNS.unknown_imsi(["999999999999999", "999999999999997"]), "999999999999998")


class Names(unittest.TestCase):
    def test_messages(self):
        """Messages of the worked rows by the names of TS 36.413 clause 9.1 and TS 24.301 clause 8."""
        for text, name, ids, cause, inside in (
                ("0011001f000003003b00080000f11000000010004000070000004000f1100089400140", "S1 SETUP REQUEST", (None, None), None, None),
                ("401100080000010002400145", "S1 SETUP FAILURE", (None, None), "misc unknown-PLMN", None),
                ("000f4018000003000000" + "05c0ffffffff000840020001" + "0002400201a0", "ERROR INDICATION", (2**32 - 1, 1),
                 "radioNetwork unknown-mme-ue-s1ap-id", None),
                ("001700100000020063000400010001" + "0002400126", "UE CONTEXT RELEASE COMMAND", (1, 1), "nas unspecified", None),
                ("00170013000002006300070c800000010001" + "0002400120", "UE CONTEXT RELEASE COMMAND", (2**31 + 1, 1),
                 "nas normal-release", None),
                ("000b4017000003000000020002000800020001001a000403074e09", "DOWNLINK NAS TRANSPORT", (2, 1), None, "SERVICE REJECT cause 9"),
                ("000b401e000003000000020001000800020001001a000b0a0744137800040201d132", "DOWNLINK NAS TRANSPORT", (1, 1), None,
                 "ATTACH REJECT cause 19"),
                ("000a4027000004005040020040002b4006001000000001006d400100002e400b00002f40060000f1100001", "PAGING", (None, None), None, None)):
            with self.subTest(name=name, text=text[-8:]):
                message = S1AP.read(bytes.fromhex(text))
                nas = S1AP.nas(S1AP.carried(message))
                self.assertEqual((S1AP.name(message), S1AP.ids(message), S1AP.cause(message), nas and nas.name), (name, ids, cause, inside))
                self.assertIsNone(message.fault)

    def test_lists_of_associations(self):
        """The ids in RESET and RESET ACKNOWLEDGE (TS 36.413 clauses 9.1.8.1 and 9.1.8.2)."""
        for text, name, listed in (
                ("000e000d0000020002400143005c000100", "RESET", None), ("200e0003000000", "RESET ACKNOWLEDGE", None),
                ("000e001a0000020002400143005c000e4001005b00024001005b00022007", "RESET", [(1, None), (None, 7)]),
                ("200e0014000001005d400d01005b40024001005b40022007", "RESET ACKNOWLEDGE", [(1, None), (None, 7)]),
                ("200e0018000001005d401101005b4001" + "00" + "005b4007" + "68010001" + "40ffff", "RESET ACKNOWLEDGE",
                 [(None, None), (65537, 65535)]),
                ("000e000e0000020002400143005c00022080", "RESET", None), ("000e000e0000020002400143005c00024001", "RESET", None)):
            with self.subTest(text=text):
                message = S1AP.read(bytes.fromhex(text))
                self.assertEqual((S1AP.name(message), S1AP.listed(message), message.fault), (name, listed, None))

    def test_elements(self):
        """An element, and the NAS message, looked for alone are those of the whole message: of the rows, and of each with octets
        turned, cut and added by a seed."""
        chance = random.Random(84)
        ids = S1AP.MME_ID, S1AP.CAUSE, S1AP.ENB_ID, S1AP.NAS_PDU, S1AP.SETUP_LIST, S1AP.BOTH_IDS, S1AP.RESET_TYPE, 1 << 8
        whole = {event.octets for name in tools.playable() for event in row(name)[0].events if event.octets}
        for octets in sorted(octets for octets in whole if len(octets) < 500):
            for turns in (0, *[1, 2] * 10):
                made = bytearray(octets)
                for _ in range(turns):
                    made[chance.randrange(min(len(made), chance.choice((9, 30, 500))))] ^= 1 << chance.randrange(8)
                end = chance.choice((len(made), len(made), chance.randrange(len(made) + 1)))
                made = bytes(made[:end] + bytes(chance.choice((0, 0, 1))))
                message, said = S1AP.read(made), made.hex()
                for number in ids:
                    self.assertEqual(S1AP.element(made, number), message.elements.get(number), said)
                self.assertEqual(S1AP.nas_in(made), S1AP.carried(message), said)

    def test_octets_of_any_kind(self):
        """Whatever the octets, reading ends and names something."""
        for name in tools.playable():
            for event in row(name)[0].events:
                if event.octets is not None and len(event.octets) < 500:
                    for cut in range(len(event.octets)):
                        whole = RUNS.content(event.octets[:cut])
                        self.assertIsNotNone(whole.fault)
                        self.assertIsInstance(whole.name, str)
