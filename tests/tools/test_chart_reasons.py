"""tools/chart: drops with their reasons, repeats, replays and forgeries as they are drawn; the picture of a browser; long runs."""
import os
import pty
import re
import subprocess
import tempfile
import unittest
import xml.etree.ElementTree

from tests.tools import failures, tools
from tools import runs as RUNS
from tools.charting import lanes as LANES, rows as ROWS, svg as PICTURE, text as TEXT
from tools.eps import story as STORY

SVG = "{http://www.w3.org/2000/svg}"

# A phone sends ATTACH COMPLETE again (TS 24.301 clause 4.4.3.2: a count is taken once).
REPLAYED = """\
          |-------- ATTACH COMPLETE ------->|------- UPLINK NAS TRANSPORT ------->|
       !  |-- ATTACH COMPLETE (replayed) -->|------- UPLINK NAS TRANSPORT -------x|  count 1 was accepted at line 11
"""
# It completes the security mode under another key.
FORGED = """\
          |<------- SECURITY MODE COMMAND -------|<-- DOWNLINK NAS TRANSPORT --|
       !  |-- SECURITY MODE COMPLETE (forged) -->|--- UPLINK NAS TRANSPORT ---x|  the MAC is wrong under vector 1's key,
          |                                      |                             |     for count 0
"""


def rows_of(name):
    """The rows of a failure, with its reasons, and the second at the end."""
    trace = next(failure for failure in failures.FAILURES if failure.name == name).make()
    read = RUNS.read_trace(trace.text().encode())
    run = STORY.exact_run(read, RUNS.read_answers(trace.answer_text().encode()))
    return ROWS.rows_of(read, run.steps, run.told), RUNS.end_of(run.steps)


def text_of(name):
    return TEXT.text_of(*rows_of(name), 120)


class Text(unittest.TestCase):
    def test_drops(self):
        """Whole ends of charts, written by hand."""
        for name, wanted in (("used_count", REPLAYED), ("wrong_mac", FORGED)):
            with self.subTest(failure=name):
                self.assertEqual(text_of(name)[-len(wanted):], wanted)

    def test_every_failure(self):
        """Each failure has its reason at the margin, and a cross where nothing was sent."""
        for failure in failures.FAILURES:
            with self.subTest(failure=failure.name):
                rows, _ = rows_of(failure.name)
                LANES.Ends(rows)
                said = " ".join(LANES.note_texts(row) for row in rows)
                for line in re.findall(r"^!.*\(TS .*", failure.words, re.M):
                    reason = re.fullmatch(r"! line \d+, \d+ s: .*?(?: is refused| fails| is dropped(?: \(\w+\))?|challenge|"
                                          r" is given up| is paged no more| is answered by a release|"
                                          r" comes too late| isn't the phone's|"
                                          r" loses its connection): (.*) \(TS .*\)", line)
                    self.assertTrue(reason and reason[1] in said, line)
                self.assertEqual(any(row.dropped for row in rows), " is dropped" in failure.words)

    def test_states_have_times(self):
        lines = tools.ran("chart", tools.TOP / "examples" / "deaf.trace").stdout.decode().splitlines()
        states = [line for line in lines if re.search(r"\|  P\d (DE)?REGISTERED", line)]
        self.assertTrue(states)
        self.assertTrue(all(re.match(r" *\d+ ", line) for line in states))

    def test_width_of_the_terminal(self):
        """At a terminal the text has its columns; to a file it has 120."""
        given = tools.TOP / "examples" / "two_stations.trace"
        self.assertTrue(120 < max(map(len, self.at_terminal(given, 150))) <= 150)
        wide = max(map(len, tools.ran("chart", given).stdout.decode().splitlines()))
        self.assertTrue(100 < wide <= 120)

    @staticmethod
    def at_terminal(given, columns, *words, stream="stdout"):
        """What stands at a terminal of `columns` columns that one of the chart's streams is."""
        ours, its = pty.openpty()
        subprocess.run(["stty", "cols", str(columns)], stdin=its, check=True)
        streams = {"stdout": subprocess.DEVNULL, stream: its}
        with subprocess.Popen([tools.TOP / "tools" / "chart", given, *words], **streams) as drawing:
            os.close(its)
            text = b""
            try:
                while octets := os.read(ours, 1 << 16):
                    text += octets
            except OSError:  # the terminal's other end is closed
                pass
            drawing.wait()
        os.close(ours)
        return text.decode().replace("\r", "").splitlines()

    def test_what_is_marked(self):
        """A phone that is given up is marked like what is refused, and what is said of one message is parted."""
        for name, marked in (("t3460", "P1 is given up: T3460 ended the fifth time without an answer, so the network gave up"),
                             ("cause_26", "#26 Non-EPS authentication unacceptable; the AUTN of vector 1 lacks the separation bit, "
                                          "which a vector for LTE has")):
            with self.subTest(failure=name):
                rows, _ = rows_of(name)
                LANES.Ends(rows)
                self.assertIn(marked, [LANES.note_texts(row) for row in rows if row.kind == ROWS.FAULT])

    def test_marks_are_not_cut(self):
        """Where an arrow is too short for its label, the name loses its end, and the mark stays (T3450 has 4 repeats)."""
        rows, end = rows_of("t3450")
        for width in (80, 100):
            text = TEXT.text_of(rows, end, width)
            for mark in ("(%d of 4)" % at for at in range(1, 5)):
                with self.subTest(width=width, mark=mark):
                    self.assertRegex(text, r"<-* ?A[A-Z ]*(\.\.)? %s -" % re.escape(mark))
        self.assertIn("(replayed)", TEXT.text_of(*rows_of("used_count"), 100))

    def test_long_runs(self):
        """A run that is too long for reasons says so, and has them where they are asked for."""
        with tempfile.NamedTemporaryFile("w", suffix=".trace") as trace, tempfile.NamedTemporaryFile(suffix=".answers") as answers:
            trace.write("mme 001 01 8001 01 internet 1000000000 1000000000\n" + "up 0\nlost 0\n" * (STORY.MOST_TOLD // 2 + 1))
            trace.flush()
            done = tools.ran("chart", trace.name, answers.name)
            self.assertEqual(done.returncode, 0)
            self.assertIn(b"drawn without reasons", done.stderr)
            said = " ".join(self.at_terminal(trace.name, 80, answers.name, stream="stderr"))
            for doing in ("reads line", "places event", "draws row"):
                self.assertRegex(said, r"chart: %s \d+ of \d+" % doing)


class Svg(unittest.TestCase):
    def test_crosses(self):
        root = xml.etree.ElementTree.fromstring(PICTURE.svg_of(*rows_of("used_count")))
        self.assertEqual(len([path for path in root.iter(SVG + "path") if path.get("class") == "cross"]), 1)

    def test_what_it_is(self):
        """A title, a description, colours for light and dark pages, and heads on each screen's height."""
        done = tools.ran("chart", "--svg", tools.TOP / "examples" / "deaf.trace")
        root = xml.etree.ElementTree.fromstring(done.stdout)
        self.assertIn("2 phones at 1 station in 60 s", root.find(SVG + "title").text)
        self.assertIn("P1: IMSI 001010000000001", root.find(SVG + "desc").text)
        self.assertIn("prefers-color-scheme: dark", root.find(SVG + "style").text)
        heads = [float(text.get("y")) for text in root.iter(SVG + "text") if text.get("class") == "head" and text.text == "MME"]
        steps = [after - before for before, after in zip(heads, heads[1:] + [float(root.get("height"))])]
        self.assertGreater(len(heads), 1)
        self.assertLess(max(steps), PICTURE.SCREEN_HEIGHT + 100)

    def test_marks_are_red(self):
        """The `!` of a fault has the fault's colour, though heads have their own."""
        style = PICTURE.STYLE
        self.assertGreater(style.index(".fault text.head { fill: var(--fault) }"), style.index("text.head {"))

    def test_times_have_their_own_colour(self):
        style = PICTURE.STYLE
        self.assertIn("text.time, .pause text { fill: var(--time) }", style)
        self.assertGreater(style.index("text.time"), style.index(".state text"))
