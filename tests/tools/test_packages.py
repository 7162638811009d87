"""The Python of this repository: its modules have names of their own, import each other by these, and leave it to the programs to
say where they are found. What the looks find is tried on small trees too, each with a fault of its kind."""
import ast
import collections
import functools
import os
import pathlib
import re
import sys
import tempfile
import unittest

from tests.tools import tools

PASSED_OVER = {".git", "out", "__pycache__"}  # folders with no text of the repository's
SOURCES = ("", "python")  # the folders that packages and modules stand in, from the repository's top
OTHERS = {"pytest"}  # what is used where it is installed, and isn't Python's own
SHEBANG = re.compile(rb"#!.*\bpython")
SHEBANG_LINE, LINE = "#!/usr/bin/env python3\n", "sys" + ".path[0] = ''\n"  # of made-up files
PATH = re.compile(r"\bsys\s*\.\s*path\b")


def is_program(path):
    """Whether a file is a program in Python that somebody starts: it says so, and may be run."""
    with open(path, "rb") as file:
        return bool(SHEBANG.match(file.readline())) and os.access(path, os.X_OK)


@functools.cache
def texts(top):
    """The text of each file in Python below a folder, by its path."""
    found = {}
    for at, folders, names in os.walk(top):
        folders[:] = sorted(set(folders) - PASSED_OVER)
        for path in (pathlib.Path(at, name) for name in sorted(names)):
            if path.suffix == ".py" or not path.suffix and os.access(path, os.X_OK) and is_program(path):
                found[path] = path.read_text(encoding="utf-8")
    return found


def name_of(path):
    """The full name of a module: that of its file below the packages that it stands in."""
    parts = [] if path.name == "__init__.py" else [path.stem]
    folder = path.parent
    while (folder / "__init__.py").exists():
        parts.insert(0, folder.name)
        folder = folder.parent
    return ".".join(parts)


def names_twice(top):
    """The names that several modules have."""
    counts = collections.Counter(name_of(path) for path in texts(top) if path.suffix == ".py")
    return sorted(name for name, count in counts.items() if count > 1)


def imported(text):
    """The names that a text imports but for those that say where they are from its own place: with each its line."""
    for node in ast.walk(ast.parse(text)):
        if isinstance(node, ast.Import):
            yield from ((node.lineno, alias.name) for alias in node.names)
        elif isinstance(node, ast.ImportFrom) and not node.level:
            yield node.lineno, node.module


def is_there(top, name):
    """Whether a module or package of the repository has this full name."""
    places = [pathlib.Path(top, folder, *name.split(".")) for folder in SOURCES]
    return any((place / "__init__.py").exists() or "." in name and place.with_suffix(".py").exists() for place in places)


def bare_imports(top):
    """What is imported by another name than its full one below a package, as FILE:LINE and the name."""
    known = sys.stdlib_module_names | OTHERS
    return ["%s:%d %s" % (path.relative_to(top), line, name) for path, text in texts(top).items() for line, name in imported(text)
            if name.partition(".")[0] not in known and not is_there(top, name)]


def run_alone(tree):
    """The lines of a module that are gone through only where it is the program."""
    blocks = [node for node in tree.body if isinstance(node, ast.If) and ast.unparse(node.test) == "__name__ == '__main__'"]
    return {line for block in blocks for line in range(block.lineno, block.end_lineno + 1)}


def path_lines(top):
    """The lines that change where modules are found though their file is no program, or though it is a package's module and they do
    it where others import it: as FILE:LINE."""
    found = []
    for path, text in texts(top).items():
        lines = {number for number, line in enumerate(text.splitlines(), 1) if PATH.search(line)}
        if lines and is_program(path):
            lines = lines - run_alone(ast.parse(text)) if path.suffix == ".py" and "." in name_of(path) else set()
        found += ["%s:%d" % (path.relative_to(top), line) for line in sorted(lines)]
    return found


class Tree(unittest.TestCase):
    """What is found in small trees."""

    def setUp(self):
        self.top = pathlib.Path(self.enterContext(tempfile.TemporaryDirectory()))

    def file(self, path, text="", mode=0o644):
        path = self.top / path
        path.parent.mkdir(parents=True, exist_ok=True)
        path.write_text(text)
        path.chmod(mode)

    def found(self, look):
        """What a look finds in the tree as it is now."""
        texts.cache_clear()
        return look(self.top)

    def test_names(self):
        """Modules of two packages may have one last name; outside of packages they may not, and none may have a package's."""
        for path in ("one/__init__.py", "one/links.py", "two/__init__.py", "two/links.py", "three/links.py"):
            self.file(path)
        self.assertEqual(self.found(names_twice), [])
        self.file("four/links.py")
        self.assertEqual(self.found(names_twice), ["links"])
        self.file("one.py")
        self.assertEqual(self.found(names_twice), ["links", "one"])

    def test_imports(self):
        self.file("one/__init__.py")
        self.file("one/links.py", "import os.path\nfrom . import other\nfrom one import links\nimport one.links\n")
        self.file("python/two/__init__.py", "import pytest\n")
        self.file("program", SHEBANG_LINE + "from two import things\n", 0o755)
        self.assertEqual(self.found(bare_imports), [])
        self.file("one/more.py", "import links\n\ndef late():\n    from links import one\n    import one.missing\n")
        self.file("program", SHEBANG_LINE + "import one\nimport more\n", 0o755)
        self.assertEqual(self.found(bare_imports),
                         ["program:3 more", "one/more.py:1 links", "one/more.py:4 links", "one/more.py:5 one.missing"])

    def test_path(self):
        """A program may have the line, also one that others import from no package, and a package's module where it is run; none of
        them where it can't be started."""
        guarded = "if __name__ == '__main__':\n    " + LINE
        self.file("one/__init__.py")
        for path, text in (("program", LINE), ("script.py", LINE), ("one/program", LINE), ("one/both.py", guarded)):
            self.file(path, SHEBANG_LINE + text, 0o755)
        self.assertEqual(self.found(path_lines), [])
        for path, text, mode, line in (("one/both.py", SHEBANG_LINE + LINE, 0o755, 2), ("one/both.py", guarded, 0o755, 2),
                                       ("one/both.py", SHEBANG_LINE + guarded, 0o644, 3), ("script.py", LINE, 0o755, 1)):
            with self.subTest(path=path, text=text, mode=oct(mode)):
                self.file("one/both.py")
                self.file(path, text, mode)
                self.assertEqual(self.found(path_lines), ["%s:%d" % (path, line)])


class Repository(unittest.TestCase):
    """That nothing of it is found here."""

    def test_all_are_read(self):
        """Files of each kind are among those that are looked at."""
        found = {str(path.relative_to(tools.TOP)) for path in texts(tools.TOP)}
        some = {"tools/front", "tools/fronting/command.py", "reference/lte.py", "tests/tools/run", "tests/edits", "deploy/package",
                "python/soizkadur/standards/sim.py", "examples/python/test_attach.py"}
        self.assertEqual(some - found, set())

    def test_names(self):
        self.assertEqual(names_twice(tools.TOP), [])

    def test_imports(self):
        self.assertEqual(bare_imports(tools.TOP), [])

    def test_path(self):
        self.assertEqual(path_lines(tools.TOP), [])
