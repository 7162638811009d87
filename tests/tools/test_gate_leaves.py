"""What the gate leaves for `./mme --library`: .ci/run itself over a toolchain and tests that stand in for the real ones, what is taken
for proved of what they leave, and what isn't."""
import pathlib
import shutil
import subprocess
import sys

from tests.tools import test_proving, tools

# `rt ci` takes away what earlier runs left, proves each crate, leaves its library and the program. With a file `late` it does what that
# says before it ends; with a file `fails-ci` one proof fails at the end.
TOOLCHAIN = """#!/bin/sh
echo "$*" >>"%(room)s/calls"
rm -rf crates/*/out
echo "rt: emm_state proved"
for name in low middle other mme_c mme; do
    mkdir -p crates/$name/out/rlib/$name.rlib
    echo "digests of $name" >crates/$name/out/rlib/$name.rlib/format
    echo a program >crates/$name/out/$name
    echo "rt: $name proved"
done
if [ -e "%(room)s/late" ]; then . "%(room)s/late"; fi
if [ -e "%(room)s/fails-ci" ]; then
    echo "4 passed, 1 failed"
    exit 1
fi
echo "5 passed, 0 failed"
"""
# A part of the gate. Where there is a file of its name it does first what that says, which may set the status.
PART = """#!/bin/bash
status=0
if [ -e "%(room)s/%(name)s" ]; then . "%(room)s/%(name)s"; fi
%(does)s
echo "$((1 - status)) passed, $status failed"
exit $status
"""
PARTS = ("edits", "bench/run", "parts/run", "hostile/run", "refused/run", "tools/run", "rows/run", "scripts/run", "docs/run", "pool/run",
         "package/run", "secrets/memory", "library/run")
BUILDS = 'python3 -B tests/library/builds.py "$@" || status=1'
# The tests of the library, as far as they build it, with a compiler that stands in.
LIBRARY = """
import importlib.machinery, importlib.util, pathlib, shutil, sys
loader = importlib.machinery.SourceFileLoader("building", "tests/library/building")
building = importlib.util.module_from_spec(importlib.util.spec_from_loader("building", loader))
loader.exec_module(building)
from tools.program import library
library.compile_over_built = lambda archive, processor: shutil.copy("%(room)s/compiled.a", archive)
building.library_in(pathlib.Path("%(room)s/tests"), pathlib.Path(sys.argv[2]))
"""
HEADER = "int soizkadur_one(void);\n"
SOURCE = "int hidden(void) { return 1; } int soizkadur_one(void) { return hidden(); }\n"
TAKEN = "mme: the gate passed on this text here: 3 crates are proved, and mme_c is compiled"
EMPTY_ARCHIVE = b"!<arch>\n"
# Waits until there is a record of the libraries that `rt ci` built, and until the library for C is compiled.
BUILT = "until [ -e crates/mme_c/out/built.proved ]; do sleep 0.1; done\n"
COMPILED = "until [ -e crates/mme_c/out/gate/libmme_c.a.made_of ]; do sleep 0.1; done\n"


class GateLeaves(test_proving.Clone):
    def setUp(self):
        super().setUp()
        if not all(map(shutil.which, ("cc", "ld", "ar", "objcopy", "readelf"))):
            self.skipTest("no compiler, or no binutils")
        for name in (".ci/run", "tests/__init__.py", "tests/beside.py", "tests/installed.py", "tests/package/__init__.py",
                     "tests/package/roots.py"):
            (self.top / name).parent.mkdir(parents=True, exist_ok=True)
            shutil.copy(tools.TOP / name, self.top / name)
        (self.top / "tests" / "packages").write_text("")
        for name in PARTS:
            path = self.top / "tests" / name
            path.parent.mkdir(exist_ok=True)
            does = BUILDS if name == "library/run" else ""
            path.write_text(PART % {"room": self.room, "name": name.partition("/")[0], "does": does})
            path.chmod(0o755)
        self.make_library()
        (self.kit / "bin" / "rt").write_text(TOOLCHAIN % {"room": self.room})
        (self.kit / "c").mkdir()
        (self.kit / "c" / "liblibc_c.a").write_bytes(EMPTY_ARCHIVE)
        self.left = self.top / "crates" / "mme_c" / "out" / "gate" / "libmme_c.a"

    def make_library(self):
        """What the library is compiled and linked of, and what builds it for its tests."""
        (self.top / "tests" / "library" / "builds.py").write_text(LIBRARY % {"room": self.room})
        shutil.copy(tools.TOP / "tests" / "library" / "run", self.top / "tests" / "library" / "building")
        (self.top / "library").mkdir()
        (self.top / "library" / "soizkadur.h").write_text(HEADER)
        (self.room / "one.c").write_text(SOURCE)
        subprocess.run(["cc", "-c", "-fPIC", "one.c"], cwd=self.room, check=True)
        subprocess.run(["ar", "rcsD", "compiled.a", "one.o"], cwd=self.room, check=True)

    def gate(self):
        """Runs the gate; its status, and the line that it ends with."""
        done = subprocess.run([self.top / ".ci" / "run"], env=self.environment(), stdin=subprocess.DEVNULL, capture_output=True,
                              text=True, timeout=300, check=False)
        return done.returncode, done.stdout.splitlines()[-1]

    def passes(self):
        self.assertEqual(self.gate(), (0, "21 passed, 0 failed"))

    def is_left(self, processor=None):
        """Whether what the gate compiled would be taken."""
        code = "from tools.program import library; print(library.left_by_gate(%r) is not None)" % processor
        done = subprocess.run([sys.executable, "-B", "-c", code], cwd=self.top, env=self.environment(),
                              capture_output=True, text=True, check=True, timeout=300)
        return done.stdout == "True\n"

    def test_taken(self):
        """The library is linked of what the gate compiled, and nothing is proved; it is of the time at which it was proved."""
        self.passes()
        (self.room / "calls").write_text("")
        status, printed, told = self.ran("--library")
        first, last = told.splitlines()
        self.assertEqual((status, printed, first), (0, "", TAKEN))
        built = self.top / "crates" / "mme_c" / "out" / "library"
        self.assertRegex(last, "^mme: linked in [0-9]+ s: libsoizkadur.a and libsoizkadur.so.1 in %s$" % built)
        self.assertEqual((self.room / "calls").read_text(), "")
        self.assertEqual(sorted(path.name for path in built.iterdir()), [
            "libsoizkadur.a", "libsoizkadur.a.proved", "libsoizkadur.so", "libsoizkadur.so.1", "soizkadur.h", "soizkadur.pc"])
        for path in self.left, built / "libsoizkadur.a":
            self.assertIn('"proved"', path.with_name(path.name + ".proved").read_text())
        self.assertEqual(*(path.with_name(path.name + ".proved").read_text().split('"proved"')[1].splitlines()[0]
                           for path in (self.left, built / "libsoizkadur.a")))

    def assert_left_but(self, path, change):
        """It isn't taken while a file is otherwise, and is once that is as it was."""
        text = path.read_bytes()
        with self.subTest(changed=str(path.relative_to(self.room))):
            change(path)
            self.assertFalse(self.is_left())
            path.write_bytes(text)
            self.assertTrue(self.is_left())

    def test_other_text_toolchain_and_artefact(self):
        """It is taken where each file that it was proved of, the toolchain and itself are what they were, and for its processor."""
        self.passes()
        self.assertTrue(self.is_left())
        crates = self.top / "crates"
        read = [crates / name / part for name in ("low", "middle", "mme_c") for part in ("src/lib.rt", "specs/Lib.antt")]
        for path in (*read, self.top / "HANDLES", self.kit / "bin" / "prover", self.kit / "c" / "liblibc_c.a", self.kit / "KIT-ID"):
            self.assert_left_but(path, lambda it: it.write_bytes(it.read_bytes() + b"// more\n"))
        self.assert_left_but(self.top / "crates.txt", lambda it: it.write_text(test_proving.CRATES.replace("low std", "low")))
        for path in (self.left, self.left.with_name("libmme_c.a.proved")):
            self.assert_left_but(path, lambda it: it.write_bytes(it.read_bytes()[:-8]))
            self.assert_left_but(path, pathlib.Path.unlink)
            self.assert_left_but(path, lambda it: it.write_bytes(it.read_bytes().replace(b"e", b"f", 1)))
        new = crates / "middle" / "proofs" / "New.antt"
        new.parent.mkdir()
        new.write_text("")
        self.assertFalse(self.is_left(), "a file more")
        new.unlink()
        (crates / "other" / "src" / "lib.rt").write_text("// changed\n")
        (crates / "low" / "must-fail" / "one.edit").write_text("// changed\n")
        self.assertTrue(self.is_left(), "it isn't proved of these")
        self.assertEqual([self.is_left(name) for name in ("x86-64-v2", "x86-64-v3", "x86-64")], [True, False, False])

    def test_gate_that_failed(self):
        """Nothing is taken where a proof or a test failed, or where the text or a library isn't that of the proofs in the end."""
        (self.room / "fails-ci").touch()
        self.assertEqual(self.gate(), (1, "4 passed, 1 failed"))
        self.assertFalse((self.top / "crates" / "mme" / "out" / "mme.proved").exists(), "its laws may not hold")
        self.assertFalse(self.is_left())
        (self.room / "fails-ci").unlink()
        for part, does, failed in (("library", "status=1", 1), ("rows", "status=1", 1), ("docs", BUILT + "echo // >>crates/low/src/lib.rt", 0),
                                   ("docs", BUILT + "echo // >>crates/low/out/rlib/low.rlib/format", 0),
                                   ("docs", COMPILED + "echo // >>crates/mme_c/out/gate/libmme_c.a", 0)):
            with self.subTest(part=part, does=does):
                source = self.top / "crates" / "low" / "src" / "lib.rt"
                text = source.read_text()
                (self.room / part).write_text(does)
                status, last = self.gate()
                self.assertEqual((status, last.endswith(", %d failed" % failed)), (failed, True), last)
                source.write_text(text)
                self.assertFalse(self.is_left())
                (self.room / part).unlink()
                shutil.rmtree(self.left.parent, ignore_errors=True)
        self.passes()
        self.assertTrue(self.is_left())

    def test_program_is_tested_beside_what_is_left(self):
        """What needs the program begins once that is proved, and not after all other proofs."""
        (self.room / "late").write_text("until [ -e crates/mme/out/tested ]; do sleep 0.1; done\n")
        (self.room / "tools").write_text("touch crates/mme/out/tested\n")
        self.passes()

    def test_compiled_of_another_text(self):
        """What was compiled of another text than the gate's isn't taken, though the text is the gate's again in the end."""
        source = self.top / "crates" / "low" / "src" / "lib.rt"
        text = source.read_text()
        (self.room / "library").write_text(BUILT + "echo // >>crates/low/src/lib.rt")
        (self.room / "package").write_text(COMPILED + "echo '%s' >crates/low/src/lib.rt" % text.strip())
        self.passes()
        self.assertEqual(source.read_text(), text)
        self.assertFalse(self.is_left())


if __name__ == "__main__":
    test_proving.unittest.main()
