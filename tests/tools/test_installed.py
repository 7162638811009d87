"""tests/installed.py over lists of its own, with an apt-get that notes its words; and what a test that is left out counts as."""
import os
import pathlib
import shutil
import subprocess
import sys
import tempfile
import unittest

from tests import installed
from tests.tools import tools

INSTALLED = tools.TOP / "tests" / "installed.py"
APT = """#!/bin/sh
echo "$DEBIAN_FRONTEND $*" >>"%(folder)s/words"
for last; do :; done
case $last in update) ;; to_be_had) >"%(folder)s/to_be_had" ;; *) echo "no package $last"; exit 100 ;; esac
"""
AS_ROOT = "import os, runpy, sys; os.geteuid = lambda: 0; sys.argv[1:] = [%r]; runpy.run_path(%r, run_name='__main__')"
SKIPPED = """import unittest
class Tests(unittest.TestCase):
    def test_passes(self): pass
    @unittest.skip("no such thing")
    def test_one(self): pass
    @unittest.skip("no such thing")
    def test_other(self): pass
"""


def environment(ci, path=None):
    """What the programs are run with: CI as given, and where one is given, PATH."""
    kept = {name: value for name, value in os.environ.items() if name != "CI"}
    return {**kept, **({"CI": "true"} if ci else {}), **({"PATH": str(path)} if path else {})}


class Installing(unittest.TestCase):
    def setUp(self):
        self.folder = pathlib.Path(self.enterContext(tempfile.TemporaryDirectory()))

    def ran(self, text, ci=False):
        """A run over a list where there is no apt: its status, and what it prints."""
        done = subprocess.run([sys.executable, INSTALLED, "-"], input=text, capture_output=True, text=True, timeout=60, check=False,
                              env=environment(ci, self.folder))
        return done.returncode, done.stdout, done.stderr

    def test_all_there(self):
        for ci in (False, True):
            self.assertEqual(self.ran("# some\n\nbase /etc/passwd tests/a: reads it\n", ci), (0, "", ""))

    def test_missing(self):
        """It is named; a failure under CI=true alone."""
        text = "base /etc/passwd tests/a: reads it\nnone /nowhere/none tests/b: a second reader\nno_command none tests/c: more\n"
        told = "missing: none, tests/b: a second reader\nmissing: no_command, tests/c: more\n"
        self.assertEqual(self.ran(text), (0, told, ""))
        self.assertEqual(self.ran(text, ci=True), (1, told, ""))

    def test_bad_list(self):
        status, printed, told = self.ran("base /etc/passwd\n")
        self.assertEqual((status, printed), (2, ""))
        self.assertIn("line 1", told)

    def test_installs(self):
        """Root has apt install each that is missing and no other, and shows what apt says of one that isn't to be had."""
        apt = self.folder / "apt-get"
        apt.write_text(APT % {"folder": self.folder})
        apt.chmod(0o755)
        names = [self.folder / name for name in ("to_be_had", "not_to_be_had")]
        text = "base /etc/passwd tests/a: one\n" + "".join("%s %s tests/b: two\n" % (name.name, name) for name in names)
        given = self.folder / "list"
        given.write_text(text)
        done = subprocess.run([sys.executable, "-c", AS_ROOT % (str(given), str(INSTALLED))], capture_output=True, text=True,
                              timeout=60, check=False, env=environment(True, self.folder))
        self.assertEqual((done.returncode, done.stdout), (1, "missing: not_to_be_had, tests/b: two\n"))
        self.assertIn("no package not_to_be_had", done.stderr)
        words = [line.split() for line in (self.folder / "words").read_text().splitlines()]
        self.assertEqual([line[0] for line in words], ["noninteractive"] * 3)
        self.assertEqual([line[-1] for line in words], ["update", "to_be_had", "not_to_be_had"])

    def test_list(self):
        """The list of this repository is of its form, and each of its tests is there."""
        for package in installed.read(tools.TOP / "tests" / "packages"):
            for name in package.purpose.split(": ")[0].split(", "):
                self.assertTrue((tools.TOP / name / "run").exists(), name)


class LeftOut(unittest.TestCase):
    def test_skipped(self):
        """Tests that are skipped are counted with why, and failed under CI=true."""
        with tempfile.TemporaryDirectory() as name:
            folder = pathlib.Path(name, "tests", "tools")
            folder.mkdir(parents=True)
            for path in ("__init__.py", "installed.py", "tools/__init__.py", "tools/run"):
                shutil.copy(tools.TOP / "tests" / path, folder.parent / path)
            (folder / "test_it.py").write_text(SKIPPED)
            for ci, told in ((False, ["left out: 2 (no such thing)", "1 passed, 0 failed"]),
                             (True, ["FAILED, left out under CI=true: 2 (no such thing)", "1 passed, 2 failed"])):
                with self.subTest(ci=ci):
                    done = subprocess.run([sys.executable, folder / "run"], capture_output=True, text=True, timeout=60, check=False,
                                          env=environment(ci))
                    self.assertEqual((done.returncode, done.stdout.splitlines()[-2:]), (int(ci), told))
