"""docs/man: each page is there, `man` reads it without a warning, and it has what the documents and the tools say."""
import os
import pathlib
import re
import shutil
import subprocess
import tempfile
import unittest

from tests.tools import tools

COMMAND = tools.TOP / "docs" / "man"
NEEDED = ("pandoc", "man")


def read_by_man(path):
    """A page as `man` lays it out, on lines so long that no word is parted, and what it says of it."""
    wide = {**os.environ, "MANWIDTH": "400", "MANPAGER": "cat", "LC_ALL": "C.UTF-8"}
    done = subprocess.run(["man", "--warnings", "-E", "UTF-8", "-l", path], capture_output=True, text=True, timeout=120, check=False,
                          env=wide)
    return re.sub(r"\s+", " ", done.stdout), done.stderr


@unittest.skipUnless(all(map(shutil.which, NEEDED)), "no pandoc or no man")
class Manuals(unittest.TestCase):
    @classmethod
    def setUpClass(cls):
        cls.folder = pathlib.Path(cls.enterClassContext(tempfile.TemporaryDirectory()))
        subprocess.run([COMMAND, cls.folder], check=True, timeout=300, stdin=subprocess.DEVNULL)
        cls.pages = {path.name: read_by_man(path) for path in sorted(cls.folder.iterdir())}

    def test_pages(self):
        """One of the script, one of each of its texts, one of each tool that is packed; nothing is said against any, and `whatis`
        finds a line."""
        found = [path.name for path in (tools.TOP / "tools").iterdir()
                 if path.is_file() and os.access(path, os.X_OK) and path.name != "charts"]
        wanted = ["mme.1", "mme-trace.5", "mme-script.5", *["mme-%s.1" % name for name in found]]
        self.assertEqual(sorted(self.pages), sorted(wanted))
        for name, (text, said) in self.pages.items():
            with self.subTest(name):
                self.assertEqual(said, "")
                self.assertRegex(text, r"NAME %s [-‐] \w.* (SYNOPSIS|DESCRIPTION) " % re.escape(name[:-2]))
                self.assertIn("Soizkadur " + (tools.TOP / "VERSION").read_text().strip(), text)
                lexed = subprocess.run(["lexgrog", self.folder / name], capture_output=True, text=True, check=False).stdout
                self.assertIn(': "%s - ' % name[:-2], lexed)

    def rows(self, document, heading):
        """The first cells of the tables under a heading, as words."""
        part = re.search(r"^## %s\n(.*?)(?=^## |\Z)" % heading, (tools.TOP / document).read_text(), re.M | re.S)[1]
        cells = [line.split("|")[1].strip() for line in part.splitlines() if line.startswith("|")]
        return [cell.replace("`", "") for cell in cells if cell not in ("Line", "Answer", "Field", "Status") and "---" not in cell]

    def test_documents(self):
        """Each row of README.md's tables and of docs/SCRIPTS.md's words is there."""
        for page, document, heading, least in (("mme-trace.5", "README.md", "A trace", 15),
                                               *((name, "README.md", "How it ends", 4)
                                                 for name in ("mme.1", "mme-trace.5", "mme-script.5")),
                                               ("mme-script.5", "docs/SCRIPTS.md", "Lines", 20)):
            rows = self.rows(document, heading)
            self.assertGreaterEqual(len(rows), least)
            for row in rows:
                self.assertIn(" %s" % row, self.pages[page][0])

    def test_options(self):
        """Each option that a tool's help has stands on its page, and the tool by the name that it is installed under."""
        for name in self.pages:
            tool = re.fullmatch(r"mme-(\w+)\.1", name)
            if tool:
                told = tools.ran(tool[1], "--help").stdout.decode()
                text = self.pages[name][0]
                for option in set(re.findall(r"(?m)^  (--[\w-]+)", told)):
                    self.assertIn(" %s " % option, text)
                self.assertIn(" mme-%s " % tool[1], text)
                self.assertNotIn("tools/%s " % tool[1], text)
        own = self.pages["mme.1"][0]
        told = subprocess.run([tools.TOP / "mme", "--help"], capture_output=True, text=True, check=True).stdout
        for word in told.removeprefix("Usage: ").split():
            self.assertIn(word, own)


if __name__ == "__main__":
    unittest.main()
