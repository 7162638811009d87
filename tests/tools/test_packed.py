"""The tools as they are installed: what they say where something is the clone's, and that their pages name nothing that the package
doesn't have."""
import gzip
import pathlib
import re
import shutil
import tempfile
import unittest

from tests.tools import packed, tools
from tests.tools.fronted import HEAD

# What is named by its path from the top of the repository.
FOLDERS = "bench|crates|deploy|docs|examples|library|python|reference|tests|tools|[.]ci"
NAMED = re.compile(r"(?<![\w/.@-])((?:%s)/[\w./@-]*|\./mme\b|[A-Z]+\.md\b|crates\.txt|VERSION\b)" % FOLDERS)
PAGE = re.compile(r"\bmme(?:-\w+)?\(\d\)")
README = (tools.TOP / "README.md").read_text()
# The commands that it says are installed.
NAMES = sorted(set(re.findall("`(mme(?:-\\w+)?)`", re.search("^## Install\n(.*?)^## ", README, re.M | re.S)[1])))
WAYS = {"mme-capture": ["in", "out"], "mme-front": ["run", "ask", "fill"], "mme-vectors": ["serve"]}
COMMANDS = [[name, *way] for name in NAMES for way in ([], *([one] for one in WAYS.get(name, ())))]
WITHOUT_LIBRARY = "this package was made without %s; one with it is made in a clone: ./mme --library, then deploy/package FOLDER\n"


class Installed(unittest.TestCase):
    @classmethod
    def setUpClass(cls):
        cls.folder = pathlib.Path(cls.enterClassContext(tempfile.TemporaryDirectory()))
        cls.tree = packed.laid(cls.folder)

    def ran(self, *words, **named):
        done = packed.ran(self.folder, *words, **named)
        return done.returncode, done.stdout, done.stderr

    def test_without_the_library(self):
        """Who asks for the library is told that it isn't packed, and how a package with it is made."""
        self.assertEqual(self.ran("mme", "--library"), (70, "", "mme: " + WITHOUT_LIBRARY % "the library"))
        subscribers = self.folder / "subscribers"
        subscribers.write_text(HEAD)
        status, printed, told = self.ran("mme-front", "run", subscribers, self.folder / "log", "--tcp", "--port", "0", "--library")
        self.assertEqual((status, printed), (2, ""))
        self.assertIn("there is no library: " + WITHOUT_LIBRARY % "it", told)

    def test_with_the_library(self):
        """Where the package has it, that is said."""
        place = self.folder / "usr/lib/x86_64-linux-gnu/libsoizkadur.so.1"
        place.parent.mkdir()
        place.write_text("")
        self.addCleanup(place.unlink)
        told = "mme: --library is for a clone of the repository; this package has the library, %s\n" % place.resolve()
        self.assertEqual(self.ran("mme", "--library"), (70, "", told))

    def test_each_tool(self):
        """Each of them finds all that it is made of."""
        for name in packed.PACKAGE.TOOLS:
            with self.subTest(tool=name):
                status, _, told = self.ran("mme-" + name, "--help")
                self.assertEqual((status, told), (0, ""))

    def test_folders(self):
        """The package has nothing where services keep and find their own: deploy/README.md says who makes these folders."""
        self.assertEqual({path.partition("/")[0] for path in (*self.tree.files, *self.tree.links)}, {"usr"})
        self.assertIn("usr/lib/systemd/system/soizkadur@.service", self.tree.files)

    def test_commands(self):
        """Those that README.md names, and no others: each with its completions, and with its version."""
        commands = {path.removeprefix("usr/bin/") for path in self.tree.links if path.startswith("usr/bin/")}
        self.assertEqual(sorted(commands), NAMES)
        self.assertLessEqual({"mme-s6a", "mme-gateway", "mme-vectors"}, commands)
        for name in NAMES:
            self.assertTrue((self.folder / "usr/share/bash-completion/completions" / name).exists(), name)
            if name != "mme":
                self.assertEqual(self.ran(name, "--version"), (0, "%s %s\n" % (name, packed.PACKAGE.versions.number()), ""))

    def test_names_in_faults(self):
        """What a tool says on standard error begins with the name that it was called by, and names others as they are called."""
        nothing, keyless = self.folder / "nothing", self.folder / "keyless"
        keyless.write_text(HEAD + "vec 001010000000001 %s %s - -\nup 0\n" % ("00" * 16, "00" * 16))
        told = "%s: No such file or directory\n" % nothing
        for words, said in ((("explain", nothing), told), (("chart", nothing), told), (("capture", "in", nothing), told),
                            (("show", nothing), "%r is neither a file nor octets in hex\n" % str(nothing)[:40]),
                            (("front", "run", nothing, nothing, "--tcp", "--port", "0"), told),
                            (("gateway", "--sims", nothing, "--given", nothing, "192.0.2.1", "10.45.0.0/16"), told),
                            (("explain", keyless), "the trace is a log without keys, which `mme-front fill` puts back\n")):
            with self.subTest(words=words):
                self.assertEqual(self.ran("mme-" + words[0], *words[1:]), (2, "", "mme-%s: %s" % (words[0], said)))

    def test_what_helps_against_comments(self):
        """Who is told that a trace's comments aren't its answers is told the flag that helps, by the program's name here."""
        given = self.folder / "commented"
        given.write_text(HEAD + "up 0\nup 0\n# out e0 0 00\n")
        status, _, told = self.ran("mme-explain", given)
        self.assertEqual(status, 2)
        self.assertTrue(told.endswith("; with --mme mme the program answers it, whatever stands there\n"), told)


def unescaped(page):
    """The text of a manual page, without what is for its reader alone; a blank line between paragraphs."""
    text = re.sub(r"\\f(?:\[\w*\]|.)|\\m\[\w*\]|\\&", "", page)
    text = re.sub(r"(?m)^\.(?:PP|TP|IP|SH|SS|RS|RE|EX|EE)\b.*", "", re.sub(r"\\(?:\[(?:ha|ti)\]|e)", "?", text))
    return text.replace("\\-", "-").replace("\\[aq]", "'").replace("\\[dq]", '"')


def sentences(text):
    return re.split(r"(?<=[.:;])\s+|\n\n+", text)


@unittest.skipUnless(shutil.which("pandoc"), "no pandoc")
class Pages(unittest.TestCase):
    """What the package's pages name is in the package, or said to be a clone's."""

    @classmethod
    def setUpClass(cls):
        cls.folder = pathlib.Path(cls.enterClassContext(tempfile.TemporaryDirectory()))
        cls.pages = packed.PACKAGE.manuals()
        packed.laid(cls.folder, cls.pages)
        cls.documents = cls.folder / packed.DOCUMENTS

    def missing(self, text):
        """What a text names that the package hasn't, but where it says that this is of a clone."""
        for sentence in sentences(text):
            for name in NAMED.findall(sentence):
                name = name.rstrip(".")
                is_there = name != "./mme" and not name.startswith("tools/") and (self.documents / name).exists()
                if not is_there and "clone" not in sentence:
                    yield "%s, in: %s" % (name, " ".join(sentence.split()))

    def test_manual_pages(self):
        for name, octets in self.pages.items():
            with self.subTest(page=name):
                text = unescaped(octets.decode())
                self.assertEqual(list(self.missing(text)), [])
                for page in PAGE.findall(text):
                    self.assertIn("%s.%s" % tuple(page.rstrip(")").split("(")), self.pages)
        for path in (self.folder / "usr/share/man").rglob("*.gz"):
            self.assertTrue(gzip.decompress(path.read_bytes()))

    def test_helps(self):
        for words in COMMANDS:
            with self.subTest(words=words):
                done = packed.ran(self.folder, *words, "--help")
                self.assertEqual((done.returncode, done.stderr), (0, ""))
                self.assertEqual(list(self.missing(done.stdout)), [])
                if re.search(r"(docs|examples)/\w", done.stdout):
                    self.assertIn("/usr/share/doc/soizkadur", " ".join(done.stdout.split()))

    def test_documents(self):
        """Each file of the repository that a packed document names is packed, or among those that README.md says are a clone's."""
        told = re.findall("`([^`]+)`", re.search(r"Only a clone has (.*?)\. ", README)[1]) + ["CHANGELOG.md"]
        for path in sorted(self.documents.rglob("*.md")):
            inside = path.relative_to(self.documents)
            for name in NAMED.findall(path.read_text()):
                name = name.rstrip(".")
                there = any((top / name).exists() for top in (self.documents, path.parent))
                exists = any((top / name).exists() for top in (tools.TOP, (tools.TOP / inside).parent))
                if exists and not there and name != "./mme" and not re.match(r"tools/(?!charts)", name):
                    with self.subTest(document=str(inside), name=name):
                        self.assertTrue(any(name == one or one.endswith("/") and (name + "/").startswith(one) for one in told))


if __name__ == "__main__":
    unittest.main()
