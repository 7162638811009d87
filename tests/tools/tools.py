"""How the tests reach the tools: as programs, and as modules."""
import importlib.machinery
import importlib.util
import pathlib
import subprocess
import sys
import tempfile
import unittest

TOP = pathlib.Path(__file__).resolve().parent.parent.parent
ROWS = TOP / "tests" / "rows"


def module(path):
    """A program that is written in Python, as a module: `tools/show` is `tools.show`."""
    loader = importlib.machinery.SourceFileLoader(path.replace("/", "."), str(TOP / path))
    found = importlib.util.module_from_spec(importlib.util.spec_from_loader(loader.name, loader))
    sys.modules[loader.name] = found
    loader.exec_module(found)
    return found


class InFolder(unittest.TestCase):
    """Tests that have files of their own."""

    def setUp(self):
        self.folder = pathlib.Path(self.enterContext(tempfile.TemporaryDirectory()))

    def file(self, name, text):
        """A file with this text, or these octets."""
        path = self.folder / name
        path.write_bytes(text if isinstance(text, bytes) else text.encode())
        return path


def ran(tool, *words, given=b"", cwd=TOP):
    """The tool's run with these words and this standard input."""
    return subprocess.run([TOP / "tools" / tool, *map(str, words)], input=given, capture_output=True, timeout=60, check=False,
                          cwd=cwd)


def playable():
    """The names of the rows that `mme play` plays to their end."""
    return sorted(path.stem for path in ROWS.glob("*.trace") if not path.with_suffix(".status").exists())
