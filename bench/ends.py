"""How a run of a front ends, and how the next one begins, by the words of kills.py.

An end is a list of stages, each a number of messages that pass before it and what is done then; the last one ends the front or has
it end. `Start` is how the next run begins: what is done to the folder before it, and the words that it gets. A front may refuse to
begin over what was done, which is then put right.
"""
import os
import pathlib
import re
import resource
import shutil
import signal

UNTIL = re.compile(rb"# settled until segment (\d+), octet (\d+)\n")
NUMBERED = re.compile(rb"^# segment (\d+), begun .*\n", re.MULTILINE)
TIME = re.compile(rb"^# time \S+ (\d+):(\d+):([0-9.]+)\n", re.MULTILINE)
WITHOUT_LOG = "the run goes on without a log"
KEEP = ("--keep", "3")  # a front that begins anew leaves the last log there
LEAST_CUT = 60  # lines of what happened
FURTHER = 300  # messages between the stages of an end


# --- Ends ---


def by_kill(run):
    run.process.send_signal(signal.SIGKILL)


def by_word(run):
    run.process.send_signal(signal.SIGTERM)


def by_mme(run):
    """The MME's process is killed, by which the front ends; with the library both are one, whatever else it has begun."""
    for pid in [run.process.pid] if run.is_of_library else run.children() or [run.process.pid]:
        os.kill(pid, signal.SIGKILL)


def fill_disk(run):
    """No file of the front grows any more."""
    size = min(path.stat().st_size for path in (run.log, pathlib.Path(str(run.log) + ".counts")) if path.exists())
    resource.prlimit(run.process.pid, resource.RLIMIT_FSIZE, (size, resource.RLIM_INFINITY))


def roll(run):
    run.process.send_signal(signal.SIGHUP)


# --- Starts ---


class Start:
    """The next run goes on with the last one. `spoils` does something to the folder, and `mends` puts it right."""

    words = ("--resume",)
    is_spoiled = False  # whether the front may refuse to begin, until what was spoiled is put right

    def __init__(self, folder, chance):
        self.folder, self.chance = folder, chance

    def hears(self, said):
        """What the run before said."""

    def spoils(self):
        """Leaves all as it is."""

    def mends(self):
        """Nothing is to be put right."""


class AfterFullDisk(Start):
    """The last run may have gone on without its log. Where a front refuses to begin over that, its log is put away."""

    def hears(self, said):
        self.is_spoiled = WITHOUT_LOG in said

    def mends(self):
        for path in self.folder.iterdir():
            if path.name.startswith("log"):
                path.unlink()


class Anew(Start):
    """The next run isn't to go on with the last one."""

    words, is_spoiled = KEEP, True


class OtherSubscribers(Start):
    """The subscribers' file has its subscribers in another order."""

    words, is_spoiled = ("--resume", *KEEP), True

    def spoils(self):
        self.path = self.folder / "subscribers"
        self.text = self.path.read_text()
        lines = self.text.splitlines()
        turned = iter([line for line in lines if line.startswith("sub ")][::-1])
        self.path.write_text("".join((next(turned) if line.startswith("sub ") else line) + "\n" for line in lines))

    def mends(self):
        self.path.write_text(self.text)


class NoSegment(Start):
    """A segment of the log is missing."""

    words, is_spoiled = ("--resume", *KEEP), True

    def spoils(self):
        older = sorted(path for path in self.folder.iterdir() if re.fullmatch(r"log(\.counts)?\.segment\.\d+", path.name))
        self.path = self.chance.choice(older) if older else None
        self.aside = self.folder / "aside"
        if self.path is not None:
            shutil.move(self.path, self.aside)

    def mends(self):
        if self.path is not None:
            shutil.move(self.aside, self.path)


class CutLog(Start):
    """The log lacks its last second, as where a machine lost its power before that stood on the disk; and LOG.used, by which a
    front notices that, is lost."""

    is_spoiled = True

    def spoils(self):
        self.whole = {path: path.read_bytes() for path in map(self.folder.joinpath, ("log", "log.counts", "log.used"))}
        cut_last_second(self.folder / "log")
        (self.folder / "log.used").unlink()

    def mends(self):
        for path, octets in self.whole.items():
            path.write_bytes(octets)


def seconds_of(found):
    return 3600 * int(found[1]) + 60 * int(found[2]) + float(found[3])


def cut_last_second(log):
    """Cuts from both series what was written in the last second, and at least `LEAST_CUT` lines of what happened."""
    octets = log.read_bytes()
    own = NUMBERED.search(octets)
    times = [found for found in TIME.finditer(octets) if found.start() >= own.end()]
    last = seconds_of(times[-1])
    place = next((found.start() for found in reversed(times) if not 0 <= last - seconds_of(found) < 1
                  and octets.count(b"\n", found.start()) >= LEAST_CUT), own.end())
    os.truncate(log, place)
    counts = pathlib.Path(str(log) + ".counts")
    octets = counts.read_bytes()
    until = [found for found in UNTIL.finditer(octets) if (int(found[1]), int(found[2])) <= (int(own[1]), place - own.end())]
    os.truncate(counts, until[-1].end() if until else NUMBERED.search(octets).end())


# Each end by its word: its stages, and how the next run begins.
ENDS = {
    "kill": ([(0, by_kill)], Start),
    "clean": ([(0, by_word)], Start),
    "mme": ([(0, by_mme)], Start),
    "disk": ([(0, fill_disk), (FURTHER, by_kill)], AfterFullDisk),
    "cut": ([(0, by_kill)], CutLog),
    "anew": ([(0, by_kill)], Anew),
    "subscribers": ([(0, by_kill)], OtherSubscribers),
    "segment": ([(0, roll), (FURTHER, by_kill)], NoSegment),
}
