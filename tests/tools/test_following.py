"""tools/capture and the times of day of a trace, and a trace that is still written: its packets, as they come, by a reader of their
own, and the events that come back from them."""
import os
import pathlib
import signal
import subprocess
import sys
import tempfile
import time
import unittest

from reference import lte, phones
from tests.tools import tools
from tests.tools.fronted import FRAME, HEAD, IMSI, STAND_IN
from tools import captures, following

FIRST = "# segment 1, begun 2026-11-27 06:00:00 UTC\n"
EVENTS = ["up 0", "in 0 0011001f00", "in 0 aabb", "tick 1", "lost 0", "up 3", "in 3 cc"]
PAGING = lte.paging(phones.Network(), IMSI, 1, 1)
# A program that pages each second, and reads a file where one is named.
PAGES = FRAME.replace("sys.stdin", "open(sys.argv[2]) if sys.argv[2:] else sys.stdin") % """\
    elif word == "tick":
        print("out s0 0 %s")
""" % PAGING.hex()
BASE = 1795759200  # 2026-11-27 06:00:00 UTC


def timed(events):
    """The events, each after the time of day at which it came, half a second after the one before."""
    return "".join("# time 2026-11-27 06:00:%02d.%03d\n%s\n" % (place // 2, place % 2 * 500, event)
                   for place, event in enumerate(events))


def paged_at(octets):
    """When each PAGING of a capture was sent, in microseconds since the trace began."""
    return [frame.time // 1000 - BASE * 10**6 for frame in captures.read_capture(octets).frames if PAGING in frame.octets]


class Following(unittest.TestCase):
    def setUp(self):
        self.folder = pathlib.Path(self.enterContext(tempfile.TemporaryDirectory()))
        self.trace, self.program = self.folder / "run.trace", self.folder / "stand_in"
        self.program.write_text(STAND_IN)
        self.program.chmod(0o755)

    def events_of(self, octets):
        """The events in a capture, without ticks."""
        return [line for line in captures.events_of(captures.read_capture(octets), False) if not line.startswith("tick")]

    def test_times(self):
        """Packets have the times of day of the trace, also where answers stand in it."""
        text = HEAD + FIRST + timed(EVENTS).replace("in 0 aabb\n", "in 0 aabb\n# out e0 0 000f40\n")
        done = tools.ran("capture", "out", "-", given=HEAD.encode() + b"up 0\n# out e0 0 000f40\n")
        self.assertEqual(captures.read_capture(done.stdout).frames[0].time, 0)
        self.trace.write_text(text)
        done = tools.ran("capture", "out", self.trace)
        self.assertEqual(done.returncode, 0, done.stderr)
        capture = captures.read_capture(done.stdout)
        times = [frame.time // 1000 for frame in capture.frames]
        self.assertEqual(times, sorted(set(times)))
        self.assertEqual(times[0], BASE * 10**6)
        self.assertEqual(times[4], BASE * 10**6 + 500000)
        self.assertEqual(self.events_of(done.stdout), [event for event in EVENTS if not event.startswith("tick")])

    def test_chart(self):
        """The first row of each second has its time of day at its margin."""
        self.trace.write_text(HEAD + FIRST + timed(EVENTS).replace("in 0 aabb\n", "in 0 aabb\n# out e0 0 000f40\n"))
        done = tools.ran("chart", self.trace)
        self.assertEqual(done.returncode, 0, done.stderr)
        told = [line.split("at ")[1] for line in done.stdout.decode().splitlines() if " at 06:" in line]
        self.assertEqual(told, ["06:00:00.000", "06:00:02.000"])

    def test_ticks(self):
        """What a tick brings about has the time of day above the tick, in each capture and in a chart."""
        self.program.write_text(PAGES)
        self.trace.write_text(HEAD + FIRST + timed(["up 0", "data " + IMSI, "tick 1", "data " + IMSI, "tick 1"]))
        whole = tools.ran("capture", "out", self.trace, "--mme", self.program)
        self.assertEqual(whole.returncode, 0, whole.stderr)
        self.assertEqual(paged_at(whole.stdout), [1000000, 2000000])
        out, running = self.followed()
        self.until(lambda: paged_at(out.read_bytes()) == [1000000, 2000000], out)
        running.send_signal(signal.SIGTERM)
        self.assertEqual(running.wait(20), 0)
        done = tools.ran("chart", self.trace, "--mme", self.program)
        self.assertEqual(done.returncode, 0, done.stderr)
        told = [line.split("at ")[1] for line in done.stdout.decode().splitlines() if " at 06:" in line]
        self.assertEqual(told, ["06:00:00.000", "06:00:01.000", "06:00:02.000"])

    def test_follow(self):
        """Each packet comes once its line does, over a segment that ends, and what is written after that."""
        self.trace.write_text(HEAD + FIRST + timed(EVENTS[:3]))
        out, running = self.followed()
        self.until(lambda: self.events_of(out.read_bytes()) == EVENTS[:3], out)
        with open(self.trace, "a", encoding="ascii") as trace:
            trace.write(timed(EVENTS[3:5]) + "up ")
            trace.flush()
            self.until(lambda: "lost 0" in self.events_of(out.read_bytes()), out)
            trace.write("3\n")
        os.replace(self.trace, str(self.trace) + ".segment.000001")
        self.trace.write_text("# segment 2, begun 2026-11-27 06:00:03 UTC\n" + EVENTS[6] + "\n")
        wanted = [event for event in EVENTS if not event.startswith("tick")]
        self.until(lambda: self.events_of(out.read_bytes()) == wanted, out)
        running.send_signal(signal.SIGTERM)
        self.assertEqual(running.wait(20), 0)
        comments = b" ".join(out.read_bytes().split(b"\0"))
        self.assertIn(b"e3: for station 3", comments)

    def followed(self):
        """The capture of the trace, which is still written, and the tool that writes it."""
        out = self.folder / "run.pcapng"
        with open(out, "wb") as file:
            running = subprocess.Popen([sys.executable, tools.TOP / "tools" / "capture", "out", self.trace, "--follow", "--mme",
                                        self.program], stdout=file)
        self.addCleanup(running.wait)
        self.addCleanup(running.kill)
        return out, running

    def until(self, holds, out):
        end = time.monotonic() + 60
        while time.monotonic() < end:
            if out.stat().st_size > 2000 and holds():
                return
            time.sleep(0.05)
        self.fail("not within 60 s: %s" % self.events_of(out.read_bytes()))

    def test_segments_before(self):
        """Those that stand already are read first, in their order."""
        for number, event in enumerate(EVENTS[:3], 1):
            text = (HEAD if number == 1 else "") + event + "\n"
            (self.folder / ("run.trace.segment.%06d" % number if number < 3 else "run.trace")).write_text(text)
        lines = following.lines_of(str(self.trace), lambda: True)
        self.assertEqual([line.decode() for line in lines], HEAD.splitlines() + EVENTS[:3])

    def test_faults(self):
        done = tools.ran("capture", "out", self.folder / "none", "--follow", "--mme", self.program)
        self.assertEqual((done.returncode, b"No such file" in done.stderr), (2, True))
        done = tools.ran("capture", "out", "-", "--follow")
        self.assertEqual((done.returncode, b"--follow reads a file" in done.stderr), (2, True))
        self.trace.write_text(HEAD + "up 0\nwrong\n")
        done = tools.ran("capture", "out", self.trace, "--follow", "--mme", self.program)
        self.assertEqual((done.returncode, b"no line begins with 'wrong'" in done.stderr), (2, True))
