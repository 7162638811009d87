"""tests/beside.py: what waits for a crate of a `rt ci` that runs beside."""
import pathlib
import subprocess
import tempfile
import unittest

from tests.tools import tools

SCRIPT = tools.TOP / "tests" / "beside.py"


class Waiting(unittest.TestCase):
    def setUp(self):
        self.log = pathlib.Path(self.enterContext(tempfile.TemporaryDirectory())) / "gate"
        self.log.write_text("rt: low proved\n")

    def begun(self, crate, *words):
        return subprocess.Popen([SCRIPT, self.log, crate, *words], stdin=subprocess.DEVNULL, stdout=subprocess.PIPE, text=True)

    def write(self, text):
        with open(self.log, "a", encoding="utf-8") as log:
            log.write(text)

    def test_a_crate_that_is_proved(self):
        with self.begun("low", "echo", "one", "two words") as running:
            self.assertEqual((running.communicate(timeout=30)[0], running.returncode), ("one two words\n", 0))

    def test_one_that_comes_to_be(self):
        """Also where its line is written in two parts; until then nothing begins."""
        with self.begun("high", "echo", "begun") as running:
            self.write("rt: middle NOT PROVED\nrt: hi")
            with self.assertRaises(subprocess.TimeoutExpired):
                running.wait(2)
            self.write("gh is kept: of an earlier run\n")
            self.assertEqual(running.communicate(timeout=30)[0], "begun\n")

    def test_an_end_without_it(self):
        with self.begun("high", "echo", "begun") as running:
            self.write("1 passed, 1 failed\n")
            self.assertEqual((running.communicate(timeout=30)[0], running.returncode), ("", 1))

    def test_its_own_status(self):
        with self.begun("low", "sh", "-c", "echo begun; exit 3") as running:
            self.assertEqual((running.communicate(timeout=30)[0], running.returncode), ("begun\n", 3))


if __name__ == "__main__":
    unittest.main()
