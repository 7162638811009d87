"""`./mme --prove` and `./mme --version`, over a toolchain that stands in for the real one: what is asked of it, what is said of the
program afterwards, and what a signal leaves behind."""
import os
import pathlib
import shutil
import signal
import subprocess
import sys
import time
import unittest
import tempfile

from tests.tools import tools

# Notes each call, and makes a program; with a file `waits-NAME` it writes half of one first, and waits with a child of its own.
TOOLCHAIN = """#!/bin/sh
name=${PWD##*/}
echo "$name: $*" >>"%(room)s/calls"
mkdir -p out
if [ -e "%(room)s/fails-$name" ]; then
    echo "fn hold: not proved"
    exit 1
fi
if [ -e "%(room)s/waits-$name" ]; then
    [ $name != mme ] || echo half >out/mme
    setsid sleep 600 &
    echo $$ $! >"%(room)s/waiting"
    wait
fi
if [ -e "%(room)s/edits-$name" ]; then
    echo "// more" >>src/lib.rt
fi
[ $name != mme ] || { printf '#!/bin/sh\\necho a program\\n' >out/mme; chmod +x out/mme; }
"""
CRATES = "low:\n# a comment\nmiddle: low std\nother:\nmme: middle\nmme_c staticlib: middle\n"


def is_running(process):
    """Whether a process runs, and isn't only waiting to be asked for its status."""
    try:
        return pathlib.Path("/proc/%d/stat" % process).read_text().rpartition(")")[2].split()[0] != "Z"
    except OSError:
        return False


class Clone(unittest.TestCase):
    """A clone with crates of a line each, and the toolchain that stands in."""

    def setUp(self):
        self.room = pathlib.Path(self.enterContext(tempfile.TemporaryDirectory()))
        self.top = self.room / "clone"
        shutil.copytree(tools.TOP / "tools" / "program", self.top / "tools" / "program")
        for name in ("mme", "VERSION", "tools/__init__.py", "tools/versions.py"):
            shutil.copy(tools.TOP / name, self.top / name)
        (self.top / "crates.txt").write_text(CRATES)
        (self.top / "HANDLES").write_text("Handles allowed: none.\n")
        for name in ("low", "middle", "other", "mme", "mme_c"):
            for part in ("src/lib.rt", "specs/Lib.antt", "must-fail/one.edit"):
                path = self.top / "crates" / name / part
                path.parent.mkdir(parents=True)
                path.write_text("// of %s\n" % name)
        self.kit = self.room / "kit"
        (self.kit / "bin").mkdir(parents=True)
        (self.kit / "bin" / "rt").write_text(TOOLCHAIN % {"room": self.room})
        (self.kit / "bin" / "rt").chmod(0o755)
        (self.kit / "bin" / "prover").write_text("a prover\n")
        (self.kit / "KIT-ID").write_text("kit-1 logic 00\n")
        (self.room / "tmp").mkdir()
        (self.room / "calls").write_text("")
        self.program = self.top / "crates" / "mme" / "out" / "mme"

    def environment(self):
        return {**os.environ, "PATH": "%s:%s" % (self.kit / "bin", os.environ["PATH"]), "TMPDIR": str(self.room / "tmp")}

    def ran(self, *words):
        """A run of the script: its status and what it wrote."""
        done = subprocess.run([self.top / "mme", *words], env=self.environment(), stdin=subprocess.DEVNULL, capture_output=True,
                              text=True, timeout=60, check=False)
        return done.returncode, done.stdout, done.stderr


class Proving(Clone):
    def proved(self, *words):
        """A run of `--prove` that comes to its end; what was asked of the toolchain."""
        (self.room / "calls").write_text("")
        status, printed, told = self.ran("--prove", *words)
        self.assertEqual((status, printed), (0, ""), told)
        return (self.room / "calls").read_text().splitlines()

    def said_of_program(self):
        """The last line of `--version`."""
        status, printed, told = self.ran("--version")
        self.assertEqual((status, told), (0, ""))
        version, toolchain, program = printed.splitlines()
        self.assertEqual(version, "mme %s" % (tools.TOP / "VERSION").read_text().strip())
        self.assertEqual(toolchain, "toolchain: %s" % (self.kit / "KIT-ID").read_text().strip())
        return program

    def assert_proved(self, processor="x86-64-v2"):
        self.assertRegex(self.said_of_program(),
                         r"^program: proved and built [0-9-]+ [0-9:]+ UTC for %s, of this text by this toolchain$" % processor)

    def assert_since_then(self, what):
        self.assertRegex(self.said_of_program(), r"^program: proved and built .*, but since then %s$" % what)

    # --- What is asked, and refused ---

    def test_what_is_proved(self):
        """The libraries below the program, each after those that it uses, then the program, for the processor that is named."""
        self.assertEqual(self.proved(), ["low: lib", "middle: lib", "mme: run -- play"])
        self.assert_proved()
        self.assertEqual(self.proved("x86-64-v3"), ["low: lib", "middle: lib", "mme: run --cpu=x86-64-v3 -- play"])
        self.assert_proved("x86-64-v3")
        self.assertEqual(self.ran("play")[:2], (0, "a program\n"))

    def test_words_refused(self):
        """Before anything is proved."""
        for words in (["bogus"], ["x86-64-v4"], ["x86-64", "x86-64"], [""]):
            for word in ("--prove", "--library"):
                status, printed, told = self.ran(word, *words)
                self.assertEqual((status, printed, told.count("\n")), (2, "", 1), told)
                self.assertTrue(told.startswith("mme: %s takes " % word), told)
        self.assertEqual(self.ran("--prove", "--help")[0], 2)
        self.assertEqual((self.room / "calls").read_text(), "")

    def test_not_proved(self):
        """What the prover said, and which crate; nothing above it is tried, and the program that stood stays."""
        self.proved()
        (self.room / "fails-middle").touch()
        (self.room / "calls").write_text("")
        status, printed, told = self.ran("--prove")
        self.assertEqual((status, printed, told.splitlines()[-2:]), (70, "", ["fn hold: not proved", "mme: middle isn't proved"]))
        self.assertEqual((self.room / "calls").read_text(), "low: lib\nmiddle: lib\n")
        self.assert_proved()

    # --- What is said of the program ---

    def test_none(self):
        self.assertEqual(self.said_of_program(), "program: not proved yet, an unproved one runs")

    def test_of_no_record(self):
        self.proved()
        (self.program.parent / "mme.proved").write_text("{}")
        self.assertIn("no record says of what", self.said_of_program())
        (self.program.parent / "mme.proved").unlink()
        self.assertIn("no record says of what", self.said_of_program())

    def test_another_program(self):
        """A copy of another program isn't called proved, however old it is."""
        self.proved()
        when = self.program.stat().st_mtime
        self.program.write_text("#!/bin/sh\necho another program\n")
        os.utime(self.program, (when, when))
        self.assertEqual(self.said_of_program(), "program: not the one that was proved: its octets are others")

    def test_texts(self):
        """A change of what a proof reads is said by the crate's name, and one of anything else isn't."""
        self.proved()
        (self.top / "crates/other/src/lib.rt").write_text("// not below the program\n")
        (self.top / "crates/low/must-fail/one.edit").write_text("// an edit\n")
        self.assert_proved()
        for path in ("crates/low/src/lib.rt", "crates/low/specs/Lib.antt", "crates/low/proofs/new.antt"):
            kept = (self.top / path).read_text() if (self.top / path).exists() else None
            (self.top / path).parent.mkdir(exist_ok=True)
            (self.top / path).write_text("// changed\n")
            os.utime(self.top / path, (0, 0))
            self.assert_since_then("low has changed")
            (self.top / path).unlink()
            if kept is not None:
                (self.top / path).write_text(kept)
            self.assert_proved()
        (self.top / "HANDLES").write_text("Handles allowed: Net.\n")
        self.assert_since_then("low, middle and mme have changed")

    def test_crates(self):
        """So is a crate more, one less, and other uses."""
        self.proved()
        (self.top / "crates.txt").write_text(CRATES.replace("middle: low std", "middle: low"))
        self.assert_since_then("middle has changed")
        (self.top / "crates.txt").write_text(CRATES.replace("middle: low std", "middle: low std other"))
        self.assert_since_then("middle has changed; other is new")
        (self.top / "crates.txt").write_text("low:\nmme: low\n")
        self.assert_since_then("mme has changed; middle is gone")

    def test_toolchain(self):
        """Another one, by its name or by what it holds; other times of its files are none."""
        self.proved()
        os.utime(self.kit / "bin" / "prover", (0, 0))
        self.assert_proved()
        (self.kit / "bin" / "prover").write_text("another\n")
        self.assert_since_then("the toolchain has the name kit-1 logic 00 and other files")
        (self.kit / "KIT-ID").write_text("kit-2 logic 00\n")
        self.assert_since_then("the toolchain is kit-2 logic 00 and was kit-1 logic 00")

    def test_sources_that_are_newer(self):
        """What runs says so where they are others, and not where they are only newer."""
        self.proved()
        source = self.top / "crates/low/src/lib.rt"
        os.utime(source, (time.time() + 5, time.time() + 5))
        self.assertEqual(self.ran("play"), (0, "a program\n", ""))
        source.write_text("// changed\n")
        os.utime(source, (time.time() + 5, time.time() + 5))
        status, printed, told = self.ran("play")
        self.assertEqual((status, printed), (0, "a program\n"))
        self.assertEqual(told, "mme: the program that runs isn't of this text (low has changed): ./mme --prove proves it\n")

    def test_changed_meanwhile(self):
        """A text that changes while it is proved isn't called proved."""
        (self.room / "edits-middle").touch()
        status, _, told = self.ran("--prove")
        self.assertEqual((status, told.splitlines()[-1]),
                         (70, "mme: the crates changed while they were proved: ./mme --prove once more"))
        self.assertEqual(self.said_of_program(), "program: not proved yet, an unproved one runs")

    def of_record(self, *words, given=b""):
        """What record.py does and prints."""
        return subprocess.run([self.top / "tools" / "program" / "record.py", *words], input=given, env=self.environment(),
                              capture_output=True, check=False, timeout=60)

    def gate_ends(self, before):
        """The program is there, and its record and the libraries' are to be written, as the gate has it."""
        self.program.parent.mkdir(exist_ok=True)
        self.program.write_text("a program\n")
        self.program.chmod(0o755)
        self.of_record("built", given=before)
        return self.of_record("since", self.program, given=before)

    def test_record_of_the_gate(self):
        """Who proves by other means writes the record too, by what stood before."""
        before = self.of_record("now").stdout
        self.assertEqual(self.gate_ends(before).returncode, 0)
        self.assert_proved()
        (self.program.parent / "mme.proved").unlink()
        (self.top / "crates/low/src/lib.rt").write_text("// changed\n")
        done = self.gate_ends(before)
        self.assertEqual((done.returncode, done.stdout), (1, b""))
        self.assertIn("no record says of what", self.said_of_program())

    # --- The library, over what the gate left ---

    def is_built(self):
        """Whether the libraries below the library for C stand as the gate left them, of this text."""
        code = "from tools.program import record; print(record.is_built())"
        done = subprocess.run([sys.executable, "-B", "-c", code], cwd=self.top, env=self.environment(),
                              capture_output=True, text=True, check=True, timeout=60)
        return done.stdout == "True\n"

    def test_built_by_the_gate(self):
        """The library for C is built over what the gate left, as long as text, libraries and toolchain are what they were then."""
        formats = [self.top / "crates" / name / "out" / "rlib" / (name + ".rlib") / "format" for name in ("low", "middle")]
        before = self.of_record("now").stdout
        self.assertEqual(self.gate_ends(before).returncode, 0)
        self.assertFalse(self.is_built(), "nothing is built")
        for path in formats:
            path.parent.mkdir(parents=True)
            path.write_text("digests of %s\n" % path)
        self.assertFalse(self.is_built(), "what was built then isn't known")
        self.assertEqual(self.gate_ends(before).returncode, 0)
        self.assertTrue(self.is_built())
        self.assertEqual(self.ran("--library")[2].splitlines()[0], "mme: 3 crates stand built: the gate proved this text here")
        for path in (*formats, self.top / "crates/low/specs/Lib.antt", self.top / "crates/mme_c/src/lib.rt", self.top / "HANDLES",
                     self.kit / "bin" / "prover"):
            with self.subTest(changed=path.relative_to(self.room)):
                text = path.read_text()
                path.write_text(text + "// more\n")
                self.assertFalse(self.is_built())
                path.write_text(text)
                self.assertTrue(self.is_built())
        (self.top / "crates/other/src/lib.rt").write_text("// changed\n")
        self.assertTrue(self.is_built(), "it doesn't stand on that crate")
        formats[0].unlink()
        self.assertFalse(self.is_built())

    # --- Signals ---

    def stopped(self, name, number=signal.SIGINT):
        """Stops `--prove` while this crate is under way; its status, and what it said last."""
        (self.room / ("waits-" + name)).touch()
        waiting = self.room / "waiting"
        waiting.unlink(missing_ok=True)
        with subprocess.Popen([self.top / "mme", "--prove"], env=self.environment(), stdin=subprocess.DEVNULL,
                              stdout=subprocess.PIPE, stderr=subprocess.PIPE, text=True) as running:
            until = time.monotonic() + 30
            while not (waiting.exists() and waiting.read_text().endswith("\n")) and time.monotonic() < until:
                time.sleep(0.01)
            started = [int(word) for word in waiting.read_text().split()]
            self.assertEqual([is_running(one) for one in started], [True, True])
            running.send_signal(number)
            printed, told = running.communicate(timeout=30)
        (self.room / ("waits-" + name)).unlink()
        self.assertEqual([is_running(one) for one in started], [False, False])
        self.assertEqual((printed, os.listdir(self.room / "tmp")), ("", []))
        return running.returncode, told.splitlines()[-1]

    def test_stopped_at_a_library(self):
        self.proved()
        told = "mme: stopped while proving middle, 2 of 3; what was proved before it is kept"
        self.assertEqual(self.stopped("middle"), (130, told))
        self.assertEqual(self.stopped("middle", signal.SIGTERM), (143, told))
        self.assert_proved()

    def test_stopped_at_the_program(self):
        """The program that stood before stands again, with its record."""
        told = "mme: stopped while proving mme, 3 of 3; what was proved before it is kept"
        self.assertEqual(self.stopped("mme"), (130, told))
        self.assertEqual(self.said_of_program(), "program: not proved yet, an unproved one runs")
        self.assertEqual(os.listdir(self.program.parent), [])
        self.proved()
        self.assertEqual(self.stopped("mme"), (130, told))
        self.assert_proved()
        self.assertEqual(sorted(os.listdir(self.program.parent)), ["mme", "mme.proved"])


if __name__ == "__main__":
    unittest.main()
