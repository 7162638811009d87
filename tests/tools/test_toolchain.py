"""tools/program/toolchain.py: every answer is the one that the toolchain's own `rt` gives, and each is found once."""
import importlib.machinery
import importlib.util
import io
import os
import pathlib
import shutil
import subprocess
import sys
import tempfile
import threading
import time
import unittest
import unittest.mock

from tests.tools import tools
from tools.program import toolchain

SCRIPT = tools.TOP / "tools" / "program" / "toolchain.py"
CRATES = "low:\nleft: low\nright: low\ntop: left right\nhighest: top left low\n"
# Maps four megabytes, and prints the flags that the system has of the mapping (proc(5), VmFlags).
MAPPED = """
import mmap, re
held = mmap.mmap(-1, 4 << 20, flags=mmap.MAP_PRIVATE | mmap.MAP_ANONYMOUS)
parts = re.split(r"(?m)^(?=[0-9a-f]+-[0-9a-f]+ )", open("/proc/self/smaps").read())
print(any(" hg" in part for part in parts))
"""
# Starts that, as what proves is started, where a file says who gets huge pages.
ASKED = """
import os, pathlib, subprocess, sys
from tools.program import toolchain
toolchain.WHO_GETS_THEM = pathlib.Path(%r)
subprocess.run([sys.executable, "-c", %r], check=True, env={**os.environ, **toolchain.asking_for_huge_pages()})
"""
# Says what what it starts is given, where names of the module are others.
GIVEN = """
import os, pathlib, subprocess, sys, tempfile
from tools.program import toolchain
for name, value in %r.items():
    setattr(toolchain, name, type(getattr(toolchain, name))(value))
toolchain.make_provers_quicker()
folder = os.environ.get(toolchain.TEMPORARY, tempfile.gettempdir())
print(os.environ[toolchain.PURGE_DELAY], folder, tempfile.gettempdir(), os.path.isdir(folder))
"""
AT_TOP = {"PYTHONPATH": str(tools.TOP)}  # what finds the module
LOOKS, BETWEEN_LOOKS = 100, 0.05  # for what goes a moment later, in seconds


def plain():
    """The toolchain's command as it is."""
    loader = importlib.machinery.SourceFileLoader("rt", os.path.realpath(shutil.which("rt")))
    rt = importlib.util.module_from_spec(importlib.util.spec_from_loader("rt", loader))
    loader.exec_module(rt)
    return rt


def crates_of(rt, top):
    rt.rtlib.Crate = rt.Crate
    return {crate.name: crate for crate in rt.rtlib.crates_below(str(top))}


class Answers(unittest.TestCase):
    """Over five crates that stand on one another in several ways."""

    def setUp(self):
        self.top = pathlib.Path(self.enterContext(tempfile.TemporaryDirectory()))
        (self.top / ".git").mkdir()
        (self.top / "crates.txt").write_text(CRATES)
        for line in CRATES.splitlines():
            source = self.top / "crates" / line.split(":")[0] / "src" / "lib.rt"
            source.parent.mkdir(parents=True)
            source.write_text("// %s\n" % line)

    def test_same_answers(self):
        own, quick = crates_of(plain(), self.top), crates_of(toolchain.module(), self.top)
        self.assertEqual(list(quick), list(own))
        for name, crate in own.items():
            for _ in range(2):
                self.assertEqual([one.name for one in quick[name].below()], [one.name for one in crate.below()])
                self.assertEqual(quick[name].stamp(), crate.stamp())
        self.assertEqual([one.name for one in quick["highest"].below()], ["low", "left", "right", "top"])

    def test_the_list_is_the_callers(self):
        top = crates_of(toolchain.module(), self.top)["top"]
        top.below().clear()
        self.assertEqual([one.name for one in top.below()], ["low", "left", "right"])

    def test_a_changed_text_has_another_sum(self):
        crates = crates_of(toolchain.module(), self.top)
        before = {name: crate.stamp() for name, crate in crates.items()}
        (self.top / "crates" / "right" / "src" / "lib.rt").write_text("// more\n")
        changed = {name for name, crate in crates.items() if crate.stamp() != before[name]}
        self.assertEqual(changed, {"right", "top", "highest"})

    def test_once(self):
        """Of each crate the text is read once for a sum, and what stands below it is looked for once."""
        asked = []

        class Crate:
            def __init__(self, folder, *deps):
                self.folder, self.deps = folder, deps

            def below(self):
                asked.append(self.folder)
                return [one for dep in self.deps for one in [*dep.below(), dep]]

            def stamp(self):
                asked.append(self.folder)
                return "%s(%s)" % (self.folder, " ".join(dep.stamp() for dep in self.deps))

        Crate.below, Crate.stamp = toolchain.found_once(Crate.below), toolchain.summed_once(Crate.stamp)
        low = Crate("low")
        left, right = Crate("left", low), Crate("right", low)
        top = Crate("top", left, right, left)
        self.assertEqual(top.stamp(), "top(left(low()) right(low()) left(low()))")
        self.assertEqual(sorted(asked), ["left", "low", "right", "top"])
        asked.clear()
        self.assertEqual(len(top.below() + top.below()), 12)
        self.assertEqual(sorted(asked), ["left", "low", "right", "top"])

    def test_compilers(self):
        """The second compiler begins with the first; what it says, and its status, come when it is asked for."""
        both = threading.Barrier(2, timeout=10)

        class Crate:
            folder, out = "program", io.StringIO()

            def compile_by(self, backend, words, to):
                both.wait()
                print("%s: %s to %s" % (backend, words, to), file=self.out)
                return {"llvm": 0, "rattle": 3}[backend]

        Crate.compile_by = toolchain.compiled_at_once(Crate.compile_by)
        crate = Crate()
        self.assertEqual((crate.compile_by("llvm", "words", "made"), crate.out.getvalue()), (0, "llvm: words to made\n"))
        self.assertEqual(crate.compile_by("rattle", "words", "made"), 3)
        self.assertEqual(crate.out.getvalue(), "llvm: words to made\nrattle: words to made\n")

    def test_checked(self):
        """What the check of a static library made stays where it was proved, and counts for the text that it was made of alone."""
        class Crate:
            text, status = "a text", 0

            def __init__(self, folder, is_static):
                self.folder, self.is_static, self.proved = folder, is_static, []

            def stamp(self):
                return "of %s" % self.text

            def prove(self, *commands):
                self.proved += commands
                if "-o" in commands[0]:
                    pathlib.Path(commands[0][-1]).mkdir()
                    pathlib.Path(commands[0][-1], "made").write_text(self.text)
                return self.status

            def ci(self, flags, tests):
                return self.prove(["check", *flags])

        Crate.ci = toolchain.kept_checked(Crate.ci)
        with tempfile.TemporaryDirectory() as room:
            crate, other = Crate(room, True), Crate(room, False)
            for one, tests in ((other, False), (crate, True)):
                self.assertEqual((one.ci(["--jobs"], tests), one.proved[-1], toolchain.checked(one)), (0, ["check", "--jobs"], None))
            self.assertEqual(crate.ci(["--jobs"], False), 0)
            made = toolchain.checked(crate)
            self.assertEqual((crate.proved[-1], (made / "made").read_text()), (["check", "--jobs", "-o", str(made)], "a text"))
            crate.text = "another text"
            self.assertIsNone(toolchain.checked(crate))
            crate.status = 1
            self.assertEqual((crate.ci(["--jobs"], False), toolchain.checked(crate)), (1, None))
            crate.status = 0
            self.assertEqual((crate.ci(["--jobs"], False), (toolchain.checked(crate) / "made").read_text()), (0, "another text"))

    def test_another_form(self):
        """What a toolchain has in another form stays as it is."""
        class Crate:
            def below(self, how):
                return how

            def stamp(self):
                return "a sum"

        below = Crate.below
        toolchain.make_quicker(Crate)
        self.assertIs(Crate.below, below)
        self.assertEqual(Crate.stamp.__wrapped__(None), "a sum")
        self.assertFalse(hasattr(Crate, "compile_by"))


class Command(unittest.TestCase):
    def ran(self, *words, **named):
        return subprocess.run(words, stdin=subprocess.DEVNULL, capture_output=True, text=True, timeout=60, check=False, **named)

    def test_does_what_rt_does(self):
        for words in (["version"], ["doc"], ["ci", "more"], ["bogus"]):
            own, quick = self.ran("rt", *words), self.ran(sys.executable, SCRIPT, *words)
            self.assertEqual((quick.returncode, quick.stdout, quick.stderr), (own.returncode, own.stdout, own.stderr))

    def test_tries_without_a_hint(self):
        """Where a program is tried, what stands in place of the prover does nothing; elsewhere it is the prover."""
        for word, wanted in (("try", "true"), ("version", "rattle")):
            rt = toolchain.module()
            rt.main = lambda words, rt=rt: os.path.basename(rt.rtlib.RATTLE)
            with self.subTest(word=word), unittest.mock.patch.object(toolchain, "module", return_value=rt), \
                    unittest.mock.patch.object(rt.rtlib, "RATTLE", rt.rtlib.RATTLE):
                self.assertEqual(toolchain.main([word]), wanted)

    def test_proves_all(self):
        """A toolchain that keeps nothing proves all at any rate, and is asked for no more."""
        for keeps, wanted in ((True, ["ci", "--anew"]), (False, ["ci"])):
            rt = toolchain.module()
            rt.main = lambda words: words
            vars(rt).pop("Kept", None)
            if keeps:
                rt.Kept = object
            with self.subTest(keeps=keeps), unittest.mock.patch.object(toolchain, "module", return_value=rt), \
                    unittest.mock.patch.object(toolchain, "make_provers_quicker"):
                self.assertEqual(toolchain.main(["ci", "--anew"]), wanted)

    def test_without_a_toolchain(self):
        with tempfile.TemporaryDirectory() as room:
            done = self.ran(sys.executable, SCRIPT, "version", env={"PATH": room})
        self.assertEqual((done.returncode, done.stdout, done.stderr), (70, "", "mme: no toolchain on the path: there is no `rt`\n"))

    def asks(self, who):
        """Whether a process that is started asks for huge pages, where the system says who gets them so."""
        with tempfile.TemporaryDirectory() as room:
            told = pathlib.Path(room, "enabled")
            told.write_text(who)
            script = ASKED % (str(told), MAPPED)
            done = self.ran(sys.executable, "-B", "-c", script, env={**os.environ, "TMPDIR": room, **AT_TOP})
            self.assertEqual(sorted(os.listdir(room)), ["enabled"])
        self.assertEqual((done.returncode, done.stderr), (0, ""))
        return done.stdout

    @unittest.skipUnless(toolchain.WHO_GETS_THEM.exists() and shutil.which("cc"), "no huge pages here, or no C compiler")
    def test_huge_pages(self):
        self.assertEqual(self.asks("always [madvise] never\n"), "True\n")
        self.assertEqual(self.asks("always madvise [never]\n"), "False\n")

    def given(self, **changed):
        """What a process has of a prover's environment, where these names of the module are others: what it keeps of freed memory, its
        temporary folder, and whether that is there; and whether the folder is gone with the process that made it."""
        script = GIVEN % ({name: str(value) for name, value in changed.items()},)
        environment = {name: value for name, value in os.environ.items() if name not in (toolchain.PURGE_DELAY, toolchain.TEMPORARY)}
        done = self.ran(sys.executable, "-B", "-c", script, env={**environment, **AT_TOP})
        self.assertEqual((done.returncode, done.stderr), (0, ""))
        delay, folder, own, is_there = done.stdout.split()
        self.assertEqual((delay, is_there), (toolchain.NEVER, "True"))
        for _ in range(LOOKS):
            if folder == own or not os.path.exists(folder):
                return folder, own
            time.sleep(BETWEEN_LOOKS)
        return self.fail(f"{folder} is still there")

    def test_files_in_memory(self):
        with tempfile.TemporaryDirectory() as room:
            folder, own = self.given(IN_MEMORY=room, ENOUGH=0)
            self.assertEqual(os.listdir(room), [])
        self.assertEqual(os.path.dirname(folder), room)
        self.assertNotEqual(folder, own)

    def test_too_little_memory(self):
        folder, own = self.given(ENOUGH=1 << 60)
        self.assertEqual(folder, own)

    def test_what_is_set_stays(self):
        with tempfile.TemporaryDirectory() as room:
            before = {toolchain.PURGE_DELAY: "5", toolchain.TEMPORARY: room}
            with unittest.mock.patch.dict(os.environ, before):
                told = toolchain.for_provers()
        self.assertEqual((told[toolchain.PURGE_DELAY], toolchain.TEMPORARY in told), ("5", False))


if __name__ == "__main__":
    unittest.main()
