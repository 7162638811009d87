"""What others wrote, as each tool shows it: names, states and lines with octets that move a terminal's cursor or begin a line."""
import contextlib
import pathlib
import socket
import subprocess
import tempfile
import threading
import unittest
import urllib.request
import xml.etree.ElementTree

from bench.etcds import free_port
from tests.tools import tools
from tests.tools.fronted import HEAD, IMSI, STAND_IN, Running
from tools import versions as VERSIONS

# ESC, the control sequence introducer among the C1 controls, LF, CR and DEL (ISO/IEC 6429).
HOSTILE = b"a\x1b[2J\x9b31m\nout e0 0 00\r\x7f"
SHOWN = r"a\x1b[2J\x9b31m\nout e0 0 00\r\x7f"
# The same in a line of a file, which has no LF.
LINE, SHOWN_LINE = HOSTILE.replace(b"\n", b""), SHOWN.replace(r"\n", "")
SETUP = bytes.fromhex("00110026000004003b00080000f11000000010003c4003000065004000070000004000f1100089400140")
NAME = bytes.fromhex("003c4003000065")  # the element eNB Name in it


def setup_with_name(name):
    """The S1 SETUP REQUEST of tests/rows/setup_with_name.trace with another name: a bit of extension, eight bits of its length less
    one, and padding before its octets (X.691 clauses 11.5.7 and 30.5)."""
    element = ((len(name) - 1) << 7).to_bytes(2, "big") + name
    octets = SETUP.replace(NAME, NAME[:3] + bytes([len(element)]) + element)
    return octets[:3] + bytes([len(octets) - 4]) + octets[4:]


def response_with_apn(label):
    """An ESM INFORMATION RESPONSE with an access point name of one label (TS 24.301 clause 8.3.14, TS 24.008 clause 10.5.6.1)."""
    return b"\x02\x01\xda\x28%c%c%s" % (len(label) + 1, len(label), label)


class Shown(tools.InFolder):
    """Each tool prints what can't be seen as an escape, and nothing else than lines of what can be seen."""

    def run_of_states(self):
        """A trace that asks for a phone's states, and answers that have more than states."""
        return (self.file("trace", HEAD.encode() + b"show %s\n" % IMSI.encode()),
                self.file("answers", b"state %s DEREGISTERED IDLE %s\n" % (IMSI.encode(), LINE.replace(b" ", b"_"))))

    def check(self, octets, wanted=SHOWN):
        """That a text has this, and nothing that can't be seen beside its own lines."""
        text = octets if isinstance(octets, str) else octets.decode()
        self.assertIn(wanted, text)
        self.assertEqual([line for line in text.split("\n") if not line.isprintable()], [])

    def test_show(self):
        for octets in (setup_with_name(HOSTILE), response_with_apn(HOSTILE)):
            done = tools.ran("show", octets.hex())
            self.assertEqual((done.returncode, done.stderr), (0, b""))
            self.check(done.stdout)
        trace = self.file("trace", b"# out s0%s 0 0011\n" % LINE.replace(b" ", b"_"))
        for words in ([], ["--brief"]):
            self.check(tools.ran("show", *words, trace).stdout, SHOWN_LINE.replace(" ", "_"))
        self.check(tools.ran("show", self.file("a\n\x1b[2J", b"none\n")).stderr, r"/a\n\x1b[2J: line 1")

    def test_explain(self):
        self.check(tools.ran("explain", *self.run_of_states()).stdout, SHOWN_LINE.replace(" ", "_"))
        script = self.file("script", HEAD.encode() + b"idle %s\n" % LINE.replace(b" ", b"_"))
        for printed, stream in ((b"## skipped\n", "stdout"), (b"", "stderr")):
            done = tools.ran("explain", "--script", script, self.file("output", HEAD.encode() + printed), self.file("none", b""))
            self.check(getattr(done, stream), SHOWN_LINE.replace(" ", "_")[:40])

    def test_chart(self):
        files = self.run_of_states()
        wanted = SHOWN_LINE.replace(" ", "_")
        self.check(tools.ran("chart", "--width", "300", *files).stdout, wanted)
        picture = tools.ran("chart", "--svg", *files).stdout
        self.check(picture, wanted)
        self.assertTrue(xml.etree.ElementTree.fromstring(picture))

    def test_capture(self):
        """In the comments of packets, which Wireshark shows."""
        octets = tools.ran("capture", "out", *self.run_of_states()).stdout
        self.assertIn(SHOWN_LINE.replace(" ", "_").encode(), octets)
        self.assertNotIn(LINE.replace(b" ", b"_")[:5], octets)

    def test_vectors(self):
        """Of a file of words."""
        words = "--imsi %s --plmn 001 01 --sqn 000000000020 --k %s --op %s\n" % (IMSI, "00" * 16, "11" * 16)
        done = tools.ran("vectors", "@%s" % self.file("words", words.encode() + LINE.decode("latin-1").replace("\r", "").encode()))
        self.assertEqual(done.returncode, 2)
        self.check(done.stderr, r"a\x1b[2J\x9b31mout")

    def test_gateway(self):
        """Of a list of SIMs, by its name."""
        words = "--sims", self.file("a\n\x1b[2J", b"none\n"), "--given", self.folder / "given", "10.0.0.1", "10.45.0.0/16"
        self.check(tools.ran("gateway", *words).stderr, r"/a\n\x1b[2J: line 1")

    def test_front(self):
        """Its standard error, its page, its metrics, and what `ask` prints: what an MME says on standard error and as states."""
        program = self.file("program", STAND_IN.replace("IDLE INACTIVE", r"IDLE \x1b[2J\x9b<b>").replace(
            "up, known", r"sys.stderr.write('told \x1b[2J\n'); up, known").encode())
        program.chmod(0o755)
        port = free_port()
        running = Running(self, "--page", "127.0.0.1:%d" % port, program=program)
        for words in (("show", IMSI), ("phones",)):
            self.check(running.asks(*words), r"IDLE \x1b[2J")
        for path, wanted in (("", r"\x1b[2J"), ("metrics", r'esm="\\x1b[2J')):
            with urllib.request.urlopen("http://127.0.0.1:%d/%s" % (port, path), timeout=20) as answer:
                self.check(answer.read(), wanted)
        self.check(running.stop()[1], r"told \x1b[2J")

    def test_ask(self):
        """What stands at a socket may be no front."""
        with socket.socket(socket.AF_UNIX) as listener:
            path = str(self.folder / "control")
            listener.bind(path)
            listener.listen()

            def answer():
                with contextlib.closing(listener.accept()[0]) as guest:
                    guest.recv(100)
                    guest.sendall(b"state " + HOSTILE.replace(b"\n", b"\xc2\x85") + b"\n")

            thread = threading.Thread(target=answer)
            thread.start()
            done = subprocess.run([tools.TOP / "tools" / "front", "ask", path, "show", IMSI], capture_output=True, timeout=60,
                                  check=False)
            thread.join()
        self.check(done.stdout, r"a\x1b[2J")

    def test_every_sign(self):
        """Of the first 256 signs those stay that ISO/IEC 8859-1 has a glyph for."""
        for sign in map(chr, range(256)):
            shows = VERSIONS.visible("a%sb" % sign)
            hidden = ord(sign) < 0x20 or 0x7F <= ord(sign) <= 0xA0 or sign == "\u00ad"
            self.assertEqual(shows == "a%sb" % sign, not hidden, repr(sign))
            self.assertTrue(shows.isprintable())
