"""The script `mme`: what it hands on to the program and what it says itself, over programs that stand in for the MME."""
import os
import pathlib
import pty
import shutil
import signal
import subprocess
import tempfile
import time
import unittest

from tests.tools import tools
from tools.program import lines as LINES

TRACE = b"mme 001 01 8001 01 internet 1 1\nup 0\nfly 0 \x1b[2J\n"
WHY = ["mme: line 3: no line of a trace begins with `fly`", "mme:   | fly 0 <1B>[2J", "mme:   | ^^^"]
STATUS_LINE = "mme: line 3: fault 1"


class Script(unittest.TestCase):
    def setUp(self):
        self.room = pathlib.Path(self.enterContext(tempfile.TemporaryDirectory()))
        shutil.copytree(tools.TOP / "tools" / "program", self.room / "tools" / "program")
        for name in ("mme", "VERSION", "tools/__init__.py", "tools/versions.py"):
            shutil.copy(tools.TOP / name, self.room / name)
        (self.room / "crates.txt").write_text("")
        (self.room / "crates" / "mme" / "src").mkdir(parents=True)
        (self.room / "bad.trace").write_bytes(TRACE)

    def program(self, text):
        """Puts a program into the place of the MME."""
        path = self.room / "crates" / "mme" / "out" / "mme"
        path.parent.mkdir(exist_ok=True)
        path.write_text("#!/bin/sh\n" + text)
        path.chmod(0o755)

    def says(self, text, status):
        """A program that reads what it is given, says this text and ends with this status."""
        self.program("echo out\ncat ${2-/dev/stdin} >/dev/null 2>&1\n%s\nexit %d\n" % (text and "echo '%s' >&2" % text, status))

    def ran(self, *words, terminal=False, given=b"", **environment):
        """A run of the script: its status, standard output, and standard error in lines, which may be a terminal."""
        read, write = pty.openpty() if terminal else os.pipe()
        kept = {name: value for name, value in os.environ.items() if name != "MME_EXPLAIN"}
        stdin = {"stdin": given} if hasattr(given, "fileno") else {"stdin": subprocess.PIPE}
        with subprocess.Popen([self.room / "mme", *words], stdout=subprocess.PIPE, stderr=write, cwd=self.room,
                              env={**kept, **environment}, **stdin) as running:
            out, _ = running.communicate(None if hasattr(given, "fileno") else given, timeout=60)
        os.close(write)
        said = b""
        try:
            while piece := os.read(read, 4096):
                said += piece
        except OSError:
            pass
        os.close(read)
        return running.returncode, out.decode(), said.decode().replace("\r\n", "\n").splitlines()

    # --- Words of its own ---

    def test_help(self):
        """On standard output with status 0, whether or not there is a program; it names every word and each exit status."""
        for word in ("--help", "-h"):
            status, printed, told = self.ran(word)
            self.assertEqual((status, told), (0, []))
            for name in ("play", "sim", "--explain", "--prove", "--library", "--version", "--help", "MME_EXPLAIN", "x86-64-v3"):
                self.assertIn(name, printed)
            for number in (0, 1, 2, 3, 4, 70, 127, 130):
                self.assertRegex(printed, r"(?m)^(Status:)? +%d " % number)
        self.assertLessEqual(max(map(len, printed.splitlines())), 132)

    def test_standard_input(self):
        """`-` is standard input, as it is where no file is named; all else goes to the program as it is."""
        self.program('echo "$#: $*"\ncat\n')
        for words, got in ((["play", "-"], "1: play"), (["sim", "-"], "1: sim"), (["play"], "1: play"), ([], "0: "),
                           (["play", "./-"], "2: play ./-"), (["play", "--help"], "2: play --help"), (["a", "b", "-"], "3: a b -")):
            self.assertEqual(self.ran(*words, given=b"some\n"), (0, got + "\nsome\n", []))

    # --- Faults in words ---

    def test_explained_where(self):
        """At a terminal, where it is asked for and where the environment says so; and else nowhere."""
        self.says(STATUS_LINE, 1)
        words = ("play", "bad.trace")
        self.assertEqual(self.ran(*words), (1, "out\n", [STATUS_LINE]))
        for explained in (self.ran(*words, terminal=True), self.ran("--explain", *words), self.ran(*words, MME_EXPLAIN="1")):
            self.assertEqual(explained, (1, "out\n", [STATUS_LINE, *WHY]))

    def test_explained_from_where(self):
        """The line is found in a file, in a file on standard input from where the program began, and in a pipe."""
        self.says(STATUS_LINE, 1)
        wanted = (1, "out\n", [STATUS_LINE, *WHY])
        with open(self.room / "bad.trace", "rb") as file:
            self.assertEqual(self.ran("--explain", "play", given=file), wanted)
        (self.room / "more").write_bytes(b"a line\n" + TRACE)
        with open(self.room / "more", "rb") as file:
            os.lseek(file.fileno(), len(b"a line\n"), os.SEEK_SET)
            self.assertEqual(self.ran("--explain", "play", given=file), wanted)
        self.assertEqual(self.ran("--explain", "play", given=TRACE), wanted)
        self.assertEqual(self.ran("--explain", "play", "-", given=TRACE.removesuffix(b"\n")), wanted)
        long = TRACE.replace(b"up 0\n", b"up 0\n" * 400000)
        self.says("mme: line 400002: fault 1", 1)
        self.assertEqual(self.ran("--explain", "play", given=long)[2][1:], [WHY[0].replace("3", "400002"), *WHY[1:]])

    def test_answers_as_they_come(self):
        """A pipe is passed on as it comes, and the program's end is noticed while more could come."""
        self.program('read -r line\necho "got $line"\nread -r line\necho "mme: line 2: fault 2" >&2\nexit 1\n')
        with subprocess.Popen([self.room / "mme", "--explain", "play"], stdin=subprocess.PIPE, stdout=subprocess.PIPE,
                              stderr=subprocess.PIPE) as running:
            running.stdin.write(b"mme 1\n")
            running.stdin.flush()
            self.assertEqual(running.stdout.readline(), b"got mme 1\n")
            running.stdin.write(b"up\n")
            running.stdin.flush()
            said = running.stderr.read().decode()
            self.assertEqual(running.wait(30), 1)
        self.assertIn("mme: line 2: `up` has 1 field, E, and here is none\n", said)

    def test_why_it_cant_be_read(self):
        self.says("mme: read failed", 3)
        told = self.ran("--explain", "play", "nowhere")
        self.assertEqual(told[2], ["mme: read failed", "mme: nowhere: No such file or directory"])
        self.assertEqual(self.ran("--explain", "play", "crates")[2][1:], ["mme: crates: Is a directory"])
        self.assertEqual(self.ran("--explain", "play", "bad.trace"), (3, "out\n", ["mme: read failed"]))

    def test_what_is_left_as_it_is(self):
        """Other ends get nothing more, and so does a fault that a second reader doesn't find."""
        for text, status in (("", 0), ("mme: write failed", 3), ("mme: out of memory", 4), ("mme: line 3: fault 2", 1),
                             ("mme: line 2: fault 1", 1), ("mme: line 9: fault 1", 1)):
            self.says(text, status)
            self.assertEqual(self.ran("--explain", "play", "bad.trace"), (status, "out\n", [text] if text else []))

    def test_signals(self):
        """The program is stopped with the script, which says so."""
        self.program('echo $$ >started\nexec sleep 600\n')
        for number, told in ((signal.SIGINT, "SIGINT"), (signal.SIGTERM, "SIGTERM")):
            started = self.room / "started"
            started.unlink(missing_ok=True)
            with subprocess.Popen([self.room / "mme", "--explain", "play"], stdin=subprocess.PIPE, stdout=subprocess.PIPE,
                                  stderr=subprocess.PIPE, cwd=self.room) as running:
                until = time.monotonic() + 30
                while not (started.exists() and started.read_text().endswith("\n")) and time.monotonic() < until:
                    time.sleep(0.01)
                process = int(started.read_text())
                running.send_signal(number)
                self.assertEqual(running.wait(30), 128 + number)
                self.assertEqual(running.stderr.read().decode(), "mme: stopped by %s; what was printed before stays\n" % told)
            self.assertFalse(pathlib.Path("/proc/%d" % process).exists())


def kept_rows():
    """Each trace and script of the tests that ends by a fault of a line: its verb, its path, the line and the fault."""
    for folder, verb, end in (("rows", "play", ".trace"), ("scripts", "sim", ".script")):
        for path in sorted((tools.TOP / "tests" / folder).glob("*.status")):
            beside = path.with_suffix(".errors")
            told = (beside if beside.exists() else path).read_text().split("mme: ")[-1].split()
            if told[0] == "line":
                yield verb, path.with_suffix(end), int(told[1].rstrip(":")), int(told[3])


class Words(unittest.TestCase):
    def test_every_row(self):
        """In each kept row, the fault that the row has is found in its line, no other kind of fault there, and none before it."""
        rows = list(kept_rows())
        self.assertGreater(len(rows), 110)
        for verb, path, number, fault in rows:
            with self.subTest(path.name):
                reader = LINES.Reader(verb)
                texts = path.read_bytes().split(b"\n")
                for at, line in enumerate(texts[: number - 1], 1):
                    if line and not line.startswith(b"#"):
                        self.assertEqual([reader.wrong(at, line, kind) for kind in range(1, 8)], [None] * 7)
                    reader.read(at, line)
                found = [reader.wrong(number, texts[number - 1], kind) for kind in range(1, 8)]
                self.assertEqual([wrong.fault for wrong in found if wrong], [fault])

    def told(self, verb, text, fault):
        """The words for the last line of a text."""
        reader, texts = LINES.Reader(verb), text.encode("latin-1").split(b"\n")
        for at, line in enumerate(texts[:-1], 1):
            reader.read(at, line)
        wrong = reader.wrong(len(texts), texts[-1], fault)
        return LINES.told(len(texts), texts[-1], wrong)

    def assert_told(self, verb, text, fault, words, *more):
        told = self.told(verb, text, fault)
        self.assertEqual(told[0].partition(": ")[2], words)
        if more:
            self.assertEqual(told[1:], ["  | " + line for line in more])

    def test_fields(self):
        """The field is named by the word that the documents have for it, and marked."""
        self.assert_told("play", "mme 001 01 80g1 01 internet 1 1", 4, "GROUP is 4 hex digits",
                         "mme 001 01 80g1 01 internet 1 1", "           ^^^^")
        self.assert_told("play", "mme 01 01 8001 01 internet 1 1", 3, "MCC is three digits")
        self.assert_told("play", "mme 001 01 8001 01 inter.net 1 1", 3, "APN is a label of 1 to 63 letters, digits and hyphens")
        self.assert_told("play", "mme 001 01 8001 01 internet 1 0", 3, "UP is a number from 1 to 10000000000")
        self.assert_told("play", "sub 001010000000001 0a000001 0a0001 00000001", 4, "SGW is 8 hex digits, and here are 6")
        self.assert_told("play", "sub 0010100000001 0a000001 0a000001 00000001", 3, "IMSI is 14 or 15 digits, and here are 13")
        self.assert_told("play", "vec 001010000000001 %s %s 1234 %s" % ("00" * 16, "00" * 16, "00" * 32), 4,
                         "XRES is 8 to 32 hex digits, two for each octet, and here are 4")
        self.assert_told("play", "up 128", 3, "E is a number from 0 to 127")
        self.assert_told("play", "in 0 ", 4, "OCTETS is octets in hex, two digits each, or - for none, and here is nothing: "
                         "two spaces stand together, or one at the end", "in 0<SP>", "        ^")
        self.assert_told("sim", "station 0 0001 0001", 3, "ID is five hex digits")
        self.assert_told("sim", "attach 001010000000001 0 16777216", 3, "B is a number from 0 to 16777215")

    def test_blanks(self):
        """CR, tabs, and spaces that are doubled or at an end are shown as what they are."""
        self.assert_told("play", "up 0\r", 3, "E is a number from 0 to 127, and the line ends with a CR: lines end with LF alone",
                         "up 0<CR>", "    ^^^^")
        self.assert_told("play", "up  0", 2, "`up` has 1 field, E, and here are 2: there are 2 spaces together",
                         "up<SP><SP>0", "  ^^^^^^^^")
        self.assert_told("play", "up 0 ", 2, "`up` has 1 field, E, and here are 2: the line ends with a space",
                         "up 0<SP>", "    ^^^^")
        self.assert_told("play", "up\t0", 1, "there is a TAB in the line: words are parted by single spaces",
                         "up<TAB>0", "^^^^^^^^")
        self.assert_told("play", "sub 1\t2", 2, "`sub` has 4 fields, IMSI ADDRESS SGW TEID, and here is 1: "
                         "there is a TAB, and words are parted by single spaces", "sub 1<TAB>2", "     ^^^^^")
        self.assert_told("play", " up 0", 1, "the line begins with a space", "<SP>up 0", "^^^^")
        self.assert_told("play", "\r", 1, "the line is empty but for a CR: lines end with LF alone", "<CR>", "^^^^")
        self.assert_told("play", "\xef\xbb\xbfmme 001", 1, "the file begins with a byte order mark, which is to be left out")

    def test_words_of_others(self):
        """A script that is given to `mme play` is said to be one, and a trace or an answer is likewise."""
        self.assert_told("play", "station 0 00001 0001", 1, "`station` is a word of a script, which `mme sim` plays")
        self.assert_told("play", "attach 001010000000001 0 1", 1, "`attach` is a word of a script, which `mme sim` plays")
        self.assert_told("sim", "in 0 00", 1, "`in` is a word of a trace, which `mme play` plays; in a script it is `raw`")
        self.assert_told("play", "out e0 0 00", 1, "`out` begins an answer of the MME, and no line of a trace")
        self.assert_told("play", "Sub 1 2 3 4", 1, "no line of a trace begins with `Sub`: is it `sub`?")

    def test_order(self):
        head = "mme 001 01 8001 01 internet 1 1\n"
        self.assert_told("play", "# first\nup 0", 6, "the line `mme` has to come first")
        self.assert_told("play", "# segment 3, begun 2026-01-01 00:00:00 UTC\nup 0", 6,
                         "the line `mme` has to come first: this is segment 3 of a front's log, and those before it come first")
        self.assert_told("play", head + "mme 001 01 8001 01 internet 1 1", 6, "there is a line `mme` already, line 1")
        self.assert_told("sim", head + "\nstation 0 00001 0001\nup 0\nsub 001010000000001 0a000001 0a000064 00000001", 6,
                         "`sub` may not come after line 3, with which the events begin")

    def test_provisioning(self):
        """What can't be taken, and which line stands against it."""
        head = "mme 001 01 8001 01 internet 1 1\nsub 001010000000001 0a00000a 0a000064 00000001\n"
        vector = " ".join(["vec 001010000000002", "00" * 16, "00" * 16, "00" * 8, "00" * 32])
        self.assert_told("play", head + "sub 001010000000001 0a00000b 0a000064 00000001", 7,
                         "line 2 has the IMSI 001010000000001 already")
        self.assert_told("play", head + "sub 001010000000002 0A00000A 0a000064 00000001", 7,
                         "line 2 has the address 0A00000A already")
        self.assert_told("play", head + vector, 7, "no line `sub` before it has the IMSI 001010000000002")
        self.assert_told("sim", head + "show 001010000000002", 7, "no line `sub` before it has the IMSI 001010000000002")
        vector = vector.replace("0002", "0001")
        self.assert_told("play", head + "\n".join([vector] * 65), 7,
                         "001010000000001 has 64 vectors already, and more aren't taken")
        subs = "".join("sub %d %08x 0a000064 00000001\n" % (10**14 + number, number) for number in range(32768))
        self.assert_told("play", "mme 001 01 8001 01 internet 1 1\n" + subs + "sub 999999999999999 ffffffff 0a000064 00000001", 7,
                         "there are 32768 subscribers already, and more aren't taken")

    def test_long_lines(self):
        """A part is shown, with what is wrong in it."""
        told = self.told("play", "in 0 " + "00" * 500 + "0g" + "00" * 500, 4)
        self.assertEqual(told[1][:10], "  | in 0 0")
        told = self.told("play", "in 0 " + "0" * 50000, 5)
        self.assertEqual(told[0], "line 1: the line has 50005 octets, and 40000 are the most")
        self.assertTrue(all(len(line) < 132 for line in told))
        self.assertIn("^", told[2])


if __name__ == "__main__":
    unittest.main()
