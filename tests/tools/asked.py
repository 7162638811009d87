"""A front that asks a source for vectors, and SIMs that both know, for the tests of that."""
import pathlib
import shlex
import sys
import tempfile

from reference import phones
from tests.tools import fronted, tools
from tests.tools.handsets import Handset, Radio, sim

TESTS, STANDING_IN = tools.TOP / "tests" / "tools", tools.TOP / "tests" / "tools" / "standing_in.py"
PATIENT = STANDING_IN, "--held", "30"  # a front with a stand-in, and time for a source on a machine with other work
NETWORK = phones.Network().words + "\n"


class Asking(fronted.Running):
    """A front in a folder with a list of SIMs, and the source's file of their SQNs. The source is tests/tools/odd_source.py,
    or where its `oddities` are None, `tools/vectors serve`."""

    def __init__(self, test, folder, *words, oddities=(), front=None, **named):
        self.front, files, words = front, [folder / "sims", folder / "sqns"], list(words)
        if "--source" not in words:
            source = [TESTS / "odd_source.py", *files, folder / "asked", *(oddities or ())]
            if oddities is None:
                source = [tools.TOP / "tools" / "vectors", "serve", *files]
            words += ["--source", shlex.join(map(str, [sys.executable, "-B", *source]))]
        super().__init__(test, *words, program=fronted.LIBRARY, folder=folder, **named)

    def asked(self):
        """The requests that the source had."""
        path = self.folder / "asked"
        return [line.split(" ", 1)[1] for line in path.read_text().splitlines()] if path.exists() else []

    def given(self):
        """The words and IMSIs of lines that were given."""
        return [tuple(line.split(" ")[1:3]) for line in self.log.read_text().splitlines() if line.startswith("#+ ")]

    def source(self):
        """The number of the source's process."""
        path = pathlib.Path("/proc/%d/task/%d/children" % (self.process.pid, self.process.pid))
        self.until(lambda: len(path.read_text().split()) == 1)
        return int(path.read_text())


class Laboratory:
    """SIMs, a front that has their lines `sub`, or none, and a station with their phones."""

    def __init__(self, test, count, *words, provisioned=True, front=PATIENT, oddities=(), makes=lambda folder: None):
        self.test, self.words, self.front, self.oddities = test, words, front, oddities
        self.folder = pathlib.Path(test.enterContext(tempfile.TemporaryDirectory()))
        self.sims = [sim(number) for number in range(1, count + 1)]
        makes(self.folder)  # what the source finds there
        path = self.folder / "sims"
        path.write_text("".join(line for _, line, _ in self.sims))
        path.chmod(0o600)
        self.head = NETWORK + "".join("sub %s %08x 0a000064 %08x\n" % (imsi, 0x0a000001 + at, 1 + at)
                                      for at, (imsi, _, _) in enumerate(self.sims) if provisioned)
        self.begin()
        self.phones = [Handset(self.radio, imsi, card) for imsi, _, card in self.sims]

    def begin(self, *words, head=None):
        """A front that begins or goes on, and its station."""
        self.running = Asking(self.test, self.folder, *self.words, *words, head=head or self.head, front=self.front,
                              oddities=self.oddities)
        self.running.until(lambda: self.oddities is None or (self.folder / "asked").exists())
        self.radio = Radio(self.running)
        for phone in getattr(self, "phones", ()):
            phone.radio, phone.b = self.radio, None

    def attach(self, phones, seconds=60):
        """Has phones attach at once: how long until each was let in or rejected."""
        counts = [len(phone.outcomes) + 1 for phone in phones]
        for phone in phones:
            phone.begins()
        return self.radio.until(lambda: all(len(phone.outcomes) == count for phone, count in zip(phones, counts)), seconds)

    def imsis(self, *places):
        return [self.sims[place][0] for place in places]
