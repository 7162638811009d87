"""The version: one number in VERSION, which the newest heading of CHANGELOG.md has and each tool names."""
import os
import re
import subprocess
import unittest

from tests.tools import tools

NUMBER = (tools.TOP / "VERSION").read_text().removesuffix("\n")


class Versions(unittest.TestCase):
    def test_form(self):
        self.assertRegex(NUMBER, r"^\d+\.\d+\.\d+$")

    def test_heading(self):
        """The newest heading with a number is this version's, and has a day where the version has a tag."""
        headings = re.findall(r"(?m)^## (\d+\.\d+\.\d+)\b", (tools.TOP / "CHANGELOG.md").read_text())
        self.assertEqual(headings[0], NUMBER)
        self.assertEqual(headings, sorted(headings, key=lambda one: [int(part) for part in one.split(".")], reverse=True))

    def test_tools(self):
        """Each tool says it, and its help names it."""
        found = [path for path in sorted((tools.TOP / "tools").iterdir()) if path.is_file() and os.access(path, os.X_OK)]
        self.assertGreaterEqual({path.name for path in found}, {"vectors", "show", "explain", "chart", "charts", "capture", "front"})
        for path in found:
            with self.subTest(path.name):
                done = tools.ran(path.name, "--version")
                self.assertEqual((done.returncode, done.stdout.decode(), done.stderr), (0, "%s %s\n" % (path.name, NUMBER), b""))
                self.assertIn(NUMBER, tools.ran(path.name, "--help").stdout.decode())

    def test_script(self):
        done = subprocess.run([tools.TOP / "mme", "--version"], capture_output=True, text=True, timeout=60, check=False)
        self.assertEqual(done.stdout.splitlines()[0].split(",")[0], "mme " + NUMBER)


if __name__ == "__main__":
    unittest.main()
