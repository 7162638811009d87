"""tools/chart: whole charts of worked rows, written by hand; that every message of every row is drawn, under its name and
between the right lanes; that a chart of a browser is XML with the same arrows."""
import collections
import os
import re
import unittest
import unittest.mock
import xml.etree.ElementTree

from bench import attaches as ATTACHES
from tests.tools import tools
from tools import abreast as ABREAST, runs as RUNS
from tools.charting import lanes as LANES, rows as ROWS, svg as PICTURE, text as TEXT

SVG = "{http://www.w3.org/2000/svg}"

# An attach with an IMSI that nobody has is rejected with cause 8 and released (TS 24.301 clause 5.5.1.2.5).
UNKNOWN_IMSI = """\
P1: IMSI 001010000000009
E0: station 0

second    P1                           E0                                MME
     0    |                            |----------- connects ----------->|
          |                            |------- S1 SETUP REQUEST ------->|
          |                            |<------ S1 SETUP RESPONSE -------|
       !  |------ ATTACH REQUEST ----->|------ INITIAL UE MESSAGE ------>|  nobody is provisioned with IMSI
          |                            |                                 |     001010000000009
       !  |<-- ATTACH REJECT cause 8 --|<---- DOWNLINK NAS TRANSPORT ----|  #8 EPS services and non-EPS services not
          |                            |                                 |     allowed
          |                            |<-- UE CONTEXT RELEASE COMMAND --|  P1 nas normal-release
"""

# T3460 has 6 seconds and 4 repeats (TS 24.301 table 10.2.2).
UNANSWERED = """\
P1: IMSI 001010000000001
E0: station 0

second    P1                                     E0                                MME
     0    |                                      |----------- connects ----------->|
          |                                      |------- S1 SETUP REQUEST ------->|
          |                                      |<------ S1 SETUP RESPONSE -------|
          |----------- ATTACH REQUEST ---------->|------ INITIAL UE MESSAGE ------>|
          |<------ AUTHENTICATION REQUEST -------|<---- DOWNLINK NAS TRANSPORT ----|
  +6 s    :                                      :                                 :
     6    |<-- AUTHENTICATION REQUEST (1 of 4) --|<---- DOWNLINK NAS TRANSPORT ----|
  +6 s    :                                      :                                 :
    12    |<-- AUTHENTICATION REQUEST (2 of 4) --|<---- DOWNLINK NAS TRANSPORT ----|
  +6 s    :                                      :                                 :
    18    |<-- AUTHENTICATION REQUEST (3 of 4) --|<---- DOWNLINK NAS TRANSPORT ----|
  +6 s    :                                      :                                 :
    24    |<-- AUTHENTICATION REQUEST (4 of 4) --|<---- DOWNLINK NAS TRANSPORT ----|
  +6 s    :                                      :                                 :
    30 !  |                                      |                                 |  P1 is given up: T3460 ended the
          |                                      |                                 |     fifth time without an answer,
          |                                      |                                 |     so the network gave up
          |                                      |<-- UE CONTEXT RELEASE COMMAND --|  P1 nas unspecified
    30    |                                      |                                 |  P1 DEREGISTERED IDLE INACTIVE
"""


# Data for an idle phone: it is paged in its tracking area, and once more when T3413, which is of 10 seconds here, ends; it answers
# by a service request (TS 24.301 clause 5.6.2). What then waits for it goes by its connection.
PAGED = """\
          |                              |   |   |                                     |  data waits for P1
          |                              |<------------------ PAGING ------------------|  P1
          |                              |   |   |<-------------- PAGING --------------|  P1
          |                              |   |   |                                     |  data waits for P1 (the phone
          |                              |   |   |                                     |     is being paged already)
 +10 s    :                              :   :   :                                     :
    10    |                              |<------------- PAGING (1 of 1) --------------|  P1
          |                              |   |   |<--------- PAGING (1 of 1) ----------|  P1
          |---------- SERVICE REQUEST ---------->|-------- INITIAL UE MESSAGE -------->|
          |                              |   |   |<-- INITIAL CONTEXT SETUP REQUEST ---|  P1
          |                              |   |   |-- INITIAL CONTEXT SETUP RESPONSE -->|  P1
    10    |                              |   |   |                                     |  P1 REGISTERED CONNECTED ACTIVE
          |                              |   |   |                                     |  data waits for P1 (only a
          |                              |   |   |                                     |     registered, idle phone is
          |                              |   |   |                                     |     paged, and this one is in
          |                              |   |   |                                     |     Registered connected)
 +20 s    :                              :   :   :                                     :
"""


def run_of(name):
    path = tools.ROWS / name
    return RUNS.run_of(str(path.with_suffix(".trace")), str(path.with_suffix(".answers")))


def rows_of(name):
    trace, steps = run_of(name)
    return ROWS.rows_of(trace, steps), RUNS.end_of(steps)


def messages(steps):
    """What is sent in a run: events and answers that are messages, and connections that come and go."""
    for step in steps:
        if step.event.word == "in":
            yield RUNS.content(step.event.octets)
        for _, answer in step.answers:
            if answer.word == "out":
                yield RUNS.content(answer.octets)


def chart(*words, given=b""):
    return tools.ran("chart", *words, given=given)


class Text(unittest.TestCase):
    def test_whole_charts(self):
        for name, wanted in (("unknown_imsi", UNKNOWN_IMSI), ("attach_unanswered", UNANSWERED)):
            with self.subTest(row=name):
                done = chart(tools.ROWS / (name + ".trace"), tools.ROWS / (name + ".answers"))
                self.assertEqual((done.returncode, done.stderr), (0, b""))
                self.assertEqual(done.stdout.decode(), wanted)

    def test_answers_in_the_trace(self):
        """The chart of a trace whose comments are its answers, with no program to be run; --mme asks for one."""
        given = tools.TOP / "examples" / "paging.trace"
        for done in (chart(given), chart("-", given=given.read_bytes())):
            self.assertEqual((done.returncode, done.stderr), (0, b""))
            self.assertEqual(done.stdout.decode()[-len(PAGED):], PAGED)
        self.assertIn(b"/nowhere: No such file", chart(given, "--mme", "/nowhere").stderr)

    def test_seconds_of_the_trace(self):
        """T3460 and T3450 have 6 seconds and 4 repeats (TS 24.301 table 10.2.2); what they wait for never comes. At 30 the
        second phone attaches."""
        trace, steps = RUNS.run_of(str(tools.TOP / "examples" / "deaf.trace"), None)
        drawn = [(row.second, arrow.label) for row in ROWS.rows_of(trace, steps) for arrow in row.arrows]
        for label, seconds in (("AUTHENTICATION REQUEST", [0, 6, 12, 18, 24, 30]), ("UE CONTEXT RELEASE COMMAND", [30, 60]),
                               ("TRACKING AREA UPDATE ACCEPT", [30, 36, 42, 48, 54])):
            with self.subTest(label=label):
                self.assertEqual([second for second, its in drawn if its == label], seconds)

    def test_rows(self):
        """Each line fits, each message has its arrows, and its line; at this width the longest name is whole."""
        for name in tools.playable():
            with self.subTest(row=name):
                trace, steps = run_of(name)
                text = TEXT.text_of(ROWS.rows_of(trace, steps), RUNS.end_of(steps), 132)
                self.assertLessEqual(max(map(len, text.split("\n"))), 132)
                self.assertTrue(text.isascii())
                sent = list(messages(steps))
                links = sum(step.event.word in ("up", "lost") for step in steps)
                drawn = re.findall(r"\|(?=(<?-+ [^|]* -+>?)\|)", text)
                named = [re.sub(r"^[PE]\d+ ", "", arrow.strip("<>-").strip()) for arrow in drawn]
                self.assertEqual(sum(label in ("connects", "is lost") for label in named), links)
                labels = [said.name for said in sent] + [said.nas.name for said in sent if said.nas]
                self.assertEqual(sorted(label for label in named if label not in ("connects", "is lost")), sorted(labels))

    def test_marks(self):
        """Refusals, rejects and what can't be read."""
        for name, count in (("unknown_imsi", 1), ("up_twice", 1), ("wrong_res", 1), ("attach_whole", 0), ("empty_octets", 2),
                            ("setup_other_plmn", 1)):
            with self.subTest(row=name):
                rows, end = rows_of(name)
                marked = [line for line in TEXT.text_of(rows, end, 120).split("\n") if line[7:8] == "!"]
                self.assertEqual(len(marked), count)

    def test_lists_of_associations(self):
        """What a RESET of a part lists stands at the margin: the first four, and how many more."""
        for name, wanted in (("reset_listed", ["misc om-intervention (MME id 1, eNB id 7)", "(MME id 1, eNB id 7)"]),
                             ("reset_registered", ["misc om-intervention", ""]),
                             ("reset_of_another_pair", [
                                 "misc om-intervention (MME id 1 with eNB id 2, MME id 65537 with eNB id 1, MME id 1 with eNB id 3)",
                                 "(MME id 1 with eNB id 2, MME id 65537 with eNB id 1, MME id 1 with eNB id 3)",
                                 "misc om-intervention (MME id 65537 with eNB id 1, MME id 1 with eNB id 1)",
                                 "(MME id 65537 with eNB id 1, MME id 1 with eNB id 1)"]),
                             ("reset_of_nobody", [
                                 "misc om-intervention (no id)", "(no id)",
                                 "misc om-intervention (MME id 65537, no id, MME id 65537 with eNB id 2, MME id 0, 7 more)",
                                 "(MME id 65537, no id, MME id 65537 with eNB id 2, MME id 0, 7 more)"])):
            with self.subTest(row=name):
                rows, _ = rows_of(name)
                said = [LANES.note_texts(row) for row in rows if any(arrow.label.startswith("RESET") for arrow in row.arrows)]
                self.assertEqual(said, wanted)

    def test_phone_of_another_mme(self):
        """A phone that comes with a foreign GUTI is the one whose IMSI it then tells."""
        rows, _ = rows_of("foreign_guti")
        [phone] = LANES.Ends(rows).phones
        self.assertEqual(phone.name(), "IMSI 001010000000001")

    def test_phones_that_are_not_known(self):
        """One that never tells its IMSI; one with another network's GUTI, whose M-TMSI would be that of the first; one that
        names an id of nobody."""
        for name, phones in (("identity_unanswered", ["UE 2 at station 0"]),
                             ("guti_of_other_plmn", ["IMSI 001010000000001", "UE 2 at station 0"]),
                             ("unknown_mme_id", ["UE 1 at station 0"])):
            with self.subTest(row=name):
                self.assertEqual([phone.name() for phone in LANES.Ends(rows_of(name)[0]).told], phones)

    def test_phones_and_stations(self):
        """Each phone and each station has its lane: a path switch moves no phone to another."""
        for name, phones, stations in (("path_switch_eight_times", ["001010000000001"], [0, 1]),
                                       ("two_phones_on_two_stations", ["001010000000001", "001010000000002"], [0, 127]),
                                       ("two_phones_on_one_radio_id", ["001010000000001", "001010000000002"], [0])):
            with self.subTest(row=name):
                found = LANES.Ends(rows_of(name)[0])
                self.assertEqual([phone.name() for phone in found.phones], ["IMSI " + imsi for imsi in phones])
                self.assertEqual(found.stations, stations)

    def test_many_phones(self):
        """They share a lane, and each arrow says whose it is."""
        trace = ATTACHES.attached(60)[0]
        read = RUNS.read_trace(trace.text().encode())
        steps = RUNS.matched(read, RUNS.read_answers(trace.answer_text().encode()))
        text = TEXT.text_of(ROWS.rows_of(read, steps), 0, 120)
        self.assertLessEqual(max(map(len, text.split("\n"))), 120)
        self.assertEqual(len(re.findall(r"- P\d+ ATTACH REQUEST -", text)), 60)
        self.assertIn("- P60 ATTACH COMPLETE -", text)
        self.assertIn("P60: IMSI 001010000000060", text)
        legend = text.partition("\n\n")[0].split("\n")
        self.assertEqual((len(legend), re.findall(r"P\d+|E0", "".join(legend))), (16, ["P%d" % at for at in range(1, 61)] + ["E0"]))

    def test_parts(self):
        """A chart is the same whether one process draws it, or four a part each."""
        trace = ATTACHES.attached(60)[0]
        read = RUNS.read_trace(trace.text().encode())
        rows = ROWS.rows_of(read, RUNS.matched(read, RUNS.read_answers(trace.answer_text().encode())))
        with unittest.mock.patch.object(os, "sched_getaffinity", lambda process: range(4)):
            for drawn in (lambda: TEXT.text_of(rows, 7, 120), lambda: PICTURE.svg_of(rows, 7)):
                whole = drawn()
                with unittest.mock.patch.object(ABREAST, "LEAST", 80), \
                        unittest.mock.patch.object(ABREAST, "started", wraps=ABREAST.started) as started:
                    self.assertEqual(drawn(), whole)
                self.assertEqual(started.call_count, 3)

    def test_one_phone(self):
        words = [tools.ROWS / "two_phones_on_two_stations.trace", tools.ROWS / "two_phones_on_two_stations.answers"]
        text = chart(*words, "--imsi", "001010000000002").stdout.decode()
        self.assertIn("IMSI 001010000000002", text)
        self.assertNotIn("IMSI 001010000000001", text)
        self.assertEqual(text.count("ATTACH REQUEST"), 1)

    def test_widths(self):
        rows, end = rows_of("tau_moves_paging")
        for width in (80, 90, 100, 150):
            with self.subTest(width=width):
                self.assertLessEqual(max(map(len, TEXT.text_of(rows, end, width).split("\n"))), width)

    def test_standard_input(self):
        trace = (tools.ROWS / "unknown_imsi.trace").read_bytes()
        self.assertEqual(chart("-", tools.ROWS / "unknown_imsi.answers", given=trace).stdout.decode(), UNKNOWN_IMSI)


def rows_of_attaches(count):
    """The rows of so many phones that attach, one after the other."""
    trace = ATTACHES.attached(count)[0]
    read = RUNS.read_trace(trace.text().encode())
    return ROWS.rows_of(read, RUNS.matched(read, RUNS.read_answers(trace.answer_text().encode())))


def told_by(rows, tag, label):
    """The line of the trace that the one row of a phone with this label says it is of."""
    [row] = [row for row in rows if row.phone and row.phone.tag == tag and any(arrow.label == label for arrow in row.arrows)]
    return row.where


class Svg(unittest.TestCase):
    def test_rows(self):
        """As many arrows as in the text, faults as such, and all within the picture."""
        for name in tools.playable():
            with self.subTest(row=name):
                rows, end = rows_of(name)
                root = xml.etree.ElementTree.fromstring(PICTURE.svg_of(rows, end))
                arrows = [line for line in root.iter(SVG + "line") if line.get("class") == "arrow"]
                self.assertEqual(len(arrows), sum(len(row.arrows) for row in rows))
                faults = [group for group in root.iter(SVG + "g") if group.get("class") == "fault"]
                self.assertEqual(len(faults), sum(row.kind == ROWS.FAULT for row in rows))
                self.assertEqual([group.find(SVG + "text[.='!']") is None for group in faults], [False] * len(faults))
                width, height = float(root.get("width")), float(root.get("height"))
                self.assertEqual(root.get("viewBox"), "0 0 %.0f %.0f" % (width, height))
                for text in root.iter(SVG + "text"):
                    self.assertLessEqual(float(text.get("y")), height)
                    if text.get("text-anchor") == "start":
                        self.assertLessEqual(float(text.get("x")) + len(text.text or "") * PICTURE.CHARACTER, width)

    def test_lines_of_the_trace(self):
        """Each row says which line of the trace it is of: an event its own, an answer the event's (lines counted by hand)."""
        done = chart("--svg", tools.ROWS / "unknown_imsi.trace", tools.ROWS / "unknown_imsi.answers")
        root = xml.etree.ElementTree.fromstring(done.stdout)
        told = [group.find(SVG + "title").text for group in root.iter(SVG + "g")]
        lines = [line.split(" ")[0] for line in (tools.ROWS / "unknown_imsi.trace").read_text().splitlines()]
        up = lines.index("up") + 1
        self.assertEqual(lines[up - 1:up + 2], ["up", "in", "in"])
        self.assertEqual(told[:3], ["line %d" % up, "line %d" % (up + 1), "answer to line %d" % (up + 1)])
        self.assertEqual(told[3:], ["line %d" % (up + 2)] + ["answer to line %d" % (up + 2)] * 2)
        for group in root.iter(SVG + "g"):
            row = group.find(SVG + "rect")
            low, high = float(row.get("y")), float(row.get("y")) + float(row.get("height"))
            self.assertTrue(all(low <= float(line.get("y1")) <= high for line in group.iter(SVG + "line")))

    def test_signs(self):
        """A legend has what the signs mean, above the lanes."""
        texts = list(xml.etree.ElementTree.fromstring(PICTURE.svg_of(*rows_of("unknown_imsi"))).iter(SVG + "text"))
        head = min(float(text.get("y")) for text in texts if text.text == "MME")
        signs = [text for text in texts if (text.get("class") or "").startswith("sign-")]
        self.assertEqual([text.text.split(":")[0] for text in signs], ["! red", "cross", "green", "2 of 4", "mouse on a row"])
        self.assertTrue(all(float(text.get("y")) < head for text in signs))
        self.assertEqual(len({text.get("y") for text in texts if float(text.get("y")) < head}), len(signs) + 2)

    def test_names_again(self):
        """In a chart of many screens each row has the names of all lanes at most 450 pixels above it."""
        root = xml.etree.ElementTree.fromstring(PICTURE.svg_of(rows_of_attaches(12), 0))
        heads = collections.defaultdict(list)
        for text in root.iter(SVG + "text"):
            if text.get("class") == "head" and text.text != "!":
                heads[text.text].append(float(text.get("y")))
        self.assertEqual(set(heads), {"E0", "MME", *("P%d" % at for at in range(1, 13))})
        tops = [float(rect.get("y")) for rect in root.iter(SVG + "rect") if rect.get("class") == "row"]
        self.assertGreater(max(tops), 1500)
        for places in heads.values():
            self.assertLess(max(top - max(place for place in places if place < top) for top in tops), 450)

    def test_no_gap(self):
        """With many phones the first station stands a step from the last one, and each label ends between the first lane and it."""
        rows = rows_of_attaches(12)
        root = xml.etree.ElementTree.fromstring(PICTURE.svg_of(rows, 0))
        heads = {text.text: float(text.get("x")) for text in root.iter(SVG + "text") if text.get("class") == "head"}
        steps = {heads["P%d" % (at + 1)] - heads["P%d" % at] for at in range(1, 12)}
        self.assertEqual(steps, {heads["E0"] - heads["P12"]})
        label = "SECURITY MODE COMMAND"
        where = told_by(rows, "P12", label)
        [text] = [text for group in root.iter(SVG + "g") if group.find(SVG + "title").text == where
                  for text in group.iter(SVG + "text") if text.text == label]
        self.assertEqual(text.get("text-anchor"), "end")
        self.assertLess(float(text.get("x")), heads["E0"])
        self.assertGreater(float(text.get("x")) - PICTURE.CHARACTER * len(label), heads["P1"])

    def test_program(self):
        done = chart("--svg", tools.ROWS / "attach_whole.trace", tools.ROWS / "attach_whole.answers")
        self.assertEqual((done.returncode, done.stderr), (0, b""))
        texts = [text.text for text in xml.etree.ElementTree.fromstring(done.stdout).iter(SVG + "text")]
        for text in ("P1: IMSI 001010000000001", "ATTACH ACCEPT", "INITIAL CONTEXT SETUP REQUEST", "P1 REGISTERED IDLE ACTIVE"):
            self.assertIn(text, texts)


class Faults(unittest.TestCase):
    def test_words(self):
        rows = tools.ROWS
        good = [rows / "setup.trace", rows / "setup.answers"]
        for words, told in (
                ((), b"TRACE"), ((rows / "none.trace", rows / "setup.answers"), b"No such file"),
                ((rows / "bad_hex.trace", rows / "bad_hex.answers"), b"bad_hex.trace: line 3: '0g' aren't octets in hex"),
                ((rows / "setup.trace", rows / "up_twice.answers"), b"answers aren't those"), (("-", "-"), b"standard input is one file"),
                ((rows / "setup.answers", rows / "setup.answers"), b"no line begins with 'out'"), ((*good, "--width", "79"), b"80 to 1000"),
                ((*good, "--imsi", "001010000000001"), b"no message of the run is of IMSI"),
                ((rows / "setup.trace", "--mme", "/nowhere"), b"No such file")):
            with self.subTest(told=told):
                done = chart(*words)
                self.assertEqual((done.returncode, done.stdout), (2, b""))
                self.assertIn(told, done.stderr)
                self.assertNotIn(b"Traceback", done.stderr)
