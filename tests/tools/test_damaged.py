"""Damaged and hostile input of the tools: each ends in time, with a status and with words, and never with a traceback."""
import contextlib
import gzip
import importlib
import io
import pathlib
import random
import struct
import sys
import tempfile
import unittest
import unittest.mock

from tests.tools import tools
from tests.tools.fronted import HEAD, IMSI
from tests.tools.test_capture import (INITIAL, PACKETS, SETUP, SETUP_RESPONSE, WANTED, connected, data, down, in_line, pcap, pcapng,
                                      sack, up)

MODULES = {name: tools.module("tools/" + name) for name in ("show", "explain", "chart", "capture", "vectors")}
RUNS, CAPTURES = (importlib.import_module("tools." + name) for name in ("runs", "captures"))
MOST_SECONDS = 1 << 32  # seconds that a file of pcap can have between two packets


def lines_of(octets):
    return CAPTURES.events_of(CAPTURES.read_capture(octets), False)


def with_resolution(octets, resolution):
    """A capture in nanoseconds, as one of another unit of time (draft-ietf-opsawg-pcapng clause 4.2, if_tsresol)."""
    return octets.replace(struct.pack("<HHB3x", 9, 1, 9), struct.pack("<HHB3x", 9, 1, resolution))


class Captures(unittest.TestCase):
    def test_resolution(self):
        """A unit of seconds is read as that; packets that are further apart than any file of pcap can say are refused."""
        octets = with_resolution(pcapng("<", "enhanced"), 0)
        self.assertEqual(lines_of(octets), [WANTED[0], "tick 2", WANTED[1], "tick 2", WANTED[2]])
        time = struct.pack("<II", (1700000000 * 10**9 + 6) >> 32, (1700000000 * 10**9 + 6) & 0xFFFFFFFF)
        for further in (MOST_SECONDS - 10, MOST_SECONDS + 10):
            later = 1700000000 * 10**9 + 2 + further
            apart = octets.replace(time, struct.pack("<II", later >> 32, later & 0xFFFFFFFF))
            self.assertNotEqual(apart, octets)
            if further < MOST_SECONDS:
                self.assertEqual(lines_of(apart)[-1], WANTED[-1])
            else:
                self.assertRaisesRegex(RUNS.Fault, "more than 4294967296 s apart", lines_of, apart)

    def test_gzip(self):
        """What gzip can't unpack (RFC 1952), and what it unpacks to more than is taken."""
        good = gzip.compress(pcap(PACKETS))
        for place in range(10, len(good)):
            with contextlib.suppress(RUNS.Fault):
                self.assertIsInstance(lines_of(good[:place] + bytes([good[place] ^ 0xFF]) + good[place + 1:]), list)
        self.assertRaisesRegex(RUNS.Fault, "gzip file is damaged", lines_of, good[:10] + b"\xff" * 20)
        with unittest.mock.patch.object(CAPTURES, "MOST_UNPACKED", 1000):
            self.assertRaisesRegex(RUNS.Fault, "more than 1000 octets", lines_of, gzip.compress(pcap(PACKETS * 9)))

    def test_fragments(self):
        """Thirty thousand fragments of a message that never begins, and one among them that is whole."""
        packets = connected() + [up(data(1, SETUP)), down(sack(1), data(1, SETUP_RESPONSE))]
        packets += [up(*(data(first + place, b"x", flags=0) for place in range(50))) for first in range(100, 30100, 50)]
        parts = (40000, INITIAL[:9], 2), (40002, INITIAL[20:], 1), (40001, INITIAL[9:20], 0)  # the first, the last, the middle one
        packets += [up(data(tsn, octets, stream=1, flags=flags)) for tsn, octets, flags in parts]
        done = tools.ran("capture", "in", "-", given=pcap(packets))
        self.assertEqual((done.returncode, done.stdout.decode().splitlines()), (0, WANTED))
        self.assertIn(b"30000 fragments are left out", done.stderr)

    def test_what_waits(self):
        """Ten thousand messages that wait for one before them, each followed by a SACK that doesn't release it."""
        packets = connected() + [up(data(1, SETUP))]
        for place in range(10000):
            packets += [up(data(10 + place, INITIAL, number=5 + place, stream=1)), down(sack(2 + place % 2))]
        done = tools.ran("capture", "in", "-", given=pcap([*packets, down(sack(11))]))
        self.assertEqual(done.returncode, 0)
        self.assertEqual(done.stdout.decode().splitlines(), WANTED[:2] + [in_line(INITIAL)] * 10000)


class Traces(tools.InFolder):
    def check(self, tool, *words, status=2, told="", out=None):
        done = tools.ran(tool, *words)
        self.assertNotIn("Traceback", done.stderr.decode())
        self.assertEqual(done.returncode, status, done.stderr)
        self.assertIn(told, done.stderr.decode())
        if out is not None:
            self.assertIn(out, done.stdout.decode())
        return done

    def test_times(self):
        """A comment whose day or hour there isn't, or that is before 1970, is one as any other."""
        plain = self.file("plain", HEAD + "up 0\n")
        for time in ("2026-13-45 99:99:99", "0000-00-00 00:00:00", "1969-12-31 23:59:59", "0001-01-01 00:00:00"):
            trace = self.file("trace", HEAD + "# time %s.000\nup 0\n" % time)
            answers = self.file("answers", "")
            for words in (("capture", "out"), ("chart",)):
                with self.subTest(time=time, tool=words[0]):
                    done = self.check(*words, trace, answers, status=0)
                    self.assertEqual(done.stdout, tools.ran(*words, plain, answers).stdout)

    def test_owners(self):
        """Answers for a slot that nobody has, and for nobody at all."""
        trace = self.file("trace", HEAD + "up 0\nin 0 00\n")
        for owner in ("s1", "s99999"):
            answers = self.file("answers", "out %s 0 0011\n" % owner)
            self.check("explain", trace, answers, status=1, out="Subscriber %s\n" % owner[1:])
            self.check("explain", "--json", trace, answers, status=1)
        for owner in ("s" + "1" * 5000, "x1." + "1" * 5000, "e" + "1" * 5000):
            answers = self.file("answers", "out %s 0 0011\n" % owner)
            for words in (("explain",), ("chart",), ("capture", "out")):
                self.check(*words, trace, answers, told="is nobody a message is sent for")

    def test_scripts(self):
        """Lines of a script that are none, and a switch of a phone that the script doesn't have."""
        output = self.file("output", HEAD + "up 0\n## skipped\n")
        none = self.file("none", "")
        for line in ("tick x", "tick", "station", "station x 00001 0001", "attach %s 0" % IMSI, "raw 0 0g", "hop", "up 128"):
            script = self.file("script", HEAD + line + "\n")
            self.check("explain", "--script", script, output, none, told="the script: line 3: ")
        script = tools.TOP / "examples" / "path_switch.script"
        printed = script.with_suffix(".trace").read_text()
        switched = self.file("output", printed.replace("# out s0 1 2003", "# out s9 1 2003"))
        self.assertNotEqual(switched.read_text(), printed)
        self.check("explain", "--script", script, switched, status=1)

    def test_long_words(self):
        """Octets in hex longer than a name of a file, or than a path; numbers of more digits than Python reads."""
        for count in (128, 3000):
            self.check("show", "0760" + "16" * count, status=0, out="EMM STATUS")
        self.check("show", "x" * 300, told="is neither a file nor octets in hex")
        self.check("show", b"\xff".decode(errors="surrogateescape"), told="is neither a file nor octets in hex")
        self.check("show", self.file("ticks", "tick %s\n" % ("1" * 5000)), told="isn't a number")

    def test_answers_of_another_trace(self):
        """For answers that fit nothing not all events are looked at again and again."""
        trace = RUNS.read_trace((HEAD + "up 0\n" + in_line(SETUP) + "\n" * 2 + (in_line(SETUP) + "\n") * 2000).encode())
        answers = RUNS.read_answers(b"out s0 0 00\n" * 2000)
        with unittest.mock.patch.object(RUNS, "LOOKS", 0), unittest.mock.patch.object(
                RUNS.Causes, "fits", autospec=True, return_value=False) as fits:
            RUNS.matched(trace, answers)
        self.assertLess(fits.call_count, 50 * 2000)


# --- Mutations ---

TURNS, SEED = 25, 1  # of each tool
BITS, WORDS = (0, 1, 0x7F, 0x80, 0xFF), (b"9" * 30, b"-", b"x", b"128", b"")
LINES = "tick 1000000", "# time 2026-13-45 99:99:99.000", "# out s9 0 0011", "show " + IMSI, "in 0 -"


def damaged(octets, rng):
    """Octets with some turned, left out or put in."""
    made = bytearray(octets)
    for _ in range(rng.choice((1, 1, 2, 4))):
        place = rng.randrange(len(made) or 1)
        kind = rng.randrange(4)
        if kind == 0:
            made[place:place + 1] = bytes([rng.choice(BITS)])
        elif kind == 1:
            del made[place:place + rng.choice((1, 4, 1 << 20))]
        elif kind == 2:
            made[place & ~3:(place & ~3) + 4] = struct.pack("<I", rng.choice((0, 1, 12, 1 << 31, (1 << 32) - 1)))
        else:
            made[place:place] = made[:rng.choice((1, 4, 40))]
    return bytes(made)


def damaged_text(octets, rng):
    """Lines with some left out, put in, exchanged, or with another word; and perhaps any octets damaged."""
    lines = octets.split(b"\n")
    for _ in range(rng.choice((1, 2, 4))):
        place, other = rng.randrange(len(lines)), rng.randrange(len(lines))
        kind = rng.randrange(4)
        if kind == 0:
            lines[place], lines[other] = lines[other], lines[place]
        elif kind == 1:
            lines[place] = rng.choice(LINES).encode()
        else:
            words = lines[place].split(b" ")
            chosen = rng.randrange(len(words))
            is_hex = kind == 2 and len(words[chosen]) > 8
            words[chosen] = damaged(words[chosen], rng).hex().encode() if is_hex else rng.choice(WORDS)
            lines[place] = b" ".join(words)
    text = b"\n".join(lines)
    return damaged(text, rng) if rng.randrange(8) == 0 else text


class Captured(io.StringIO):
    """Standard output, with octets too."""

    def __init__(self):
        super().__init__()
        self.buffer = io.BytesIO()


class Mutated(unittest.TestCase):
    """Some mutations by a seed, of each tool's input, in this process."""

    def setUp(self):
        self.folder = pathlib.Path(self.enterContext(tempfile.TemporaryDirectory()))
        self.enterContext(unittest.mock.patch.object(RUNS, "SYSTEM", "/bin/false"))
        self.rng = random.Random(SEED)

    def check(self, tool, *words):
        """That it ends with a status."""
        with contextlib.redirect_stdout(Captured()), contextlib.redirect_stderr(io.StringIO()), \
                unittest.mock.patch.object(sys, "argv", [tool, *map(str, words)]):
            try:
                status = MODULES[tool].main()
            except SystemExit as end:
                status = end.code
        self.assertIn(status, (None, 0, 1, 2))

    def file(self, name, octets):
        path = self.folder / name
        path.write_bytes(octets)
        return path

    def test_captures(self):
        made = [pcap(PACKETS), pcapng("<", "enhanced"), pcapng(">", "old"), gzip.compress(pcap(PACKETS))]
        for _ in range(2 * TURNS):
            path = self.file("capture", damaged(self.rng.choice(made), self.rng))
            self.check("capture", "in", path)
            self.check("show", path)

    def test_traces(self):
        examples = [tools.TOP / "examples" / (name + ".trace") for name in ("attach_whole", "lies", "path_switch", "paging")]
        for _ in range(TURNS):
            example = self.rng.choice(examples)
            path = self.file("trace", damaged_text(example.read_bytes(), self.rng))
            for words in (("show", "--brief"), ("explain",), ("chart",), ("capture", "out")):
                self.check(*words, path)
            script = self.file("script", damaged_text(example.with_suffix(".script").read_bytes(), self.rng))
            self.check("explain", "--script", script, example)

    def test_words(self):
        words = "--imsi %s\n--plmn 001 01\n--k %s\n--op %s\n" % (IMSI, "00" * 16, "11" * 16)
        words += "--sqn 000000000020\n--count 2\n--seed x\n"
        for _ in range(TURNS):
            self.check("vectors", "@%s" % self.file("words", damaged_text(words.encode(), self.rng)))
