"""Programs with shim.c: allocations, reads and writes that are refused or go octet by octet."""
import collections
import pathlib
import subprocess

HERE = pathlib.Path(__file__).resolve().parent
TOP = HERE.parent.parent
SECONDS = 60  # for one run

Ran = collections.namedtuple("Ran", "output text status")
Counts = collections.namedtuple("Counts", "allocations reads writes")


def built(folder, name, *words):
    """A library to be loaded into a program, built of NAME.c in a folder."""
    library = pathlib.Path(folder, name + ".so")
    subprocess.run(["cc", "-O2", "-shared", "-fPIC", *words, "-o", library, HERE / (name + ".c")], check=True)
    return library


class Shim:
    """The library built in a folder, and runs of programs with it."""

    def __init__(self, folder):
        self.library, self.counts_file = str(built(folder, "shim")), str(pathlib.Path(folder, "counts"))
        self.runs = 0

    def ran(self, words, given, **refusals):
        """A run with these words and this standard input; `refusals` are the shim's words."""
        self.runs += 1
        environment = {"LD_PRELOAD": self.library, **{word: str(number) for word, number in refusals.items()}}
        done = subprocess.run(words, input=given, capture_output=True, env=environment, timeout=SECONDS, check=False)
        return Ran(done.stdout, done.stderr, done.returncode)

    def counted(self, words, given, **refusals):
        """A run, and how often it asked for memory, read and wrote."""
        ran = self.ran(words, given, COUNTS=self.counts_file, **refusals)
        with open(self.counts_file, encoding="ascii") as file:
            return ran, Counts(*map(int, file.read().split()))
