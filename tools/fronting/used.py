"""Which vectors were used: LOG.used has a line `IMSI RAND` for each whose challenge goes to a station.

A vector is good for one challenge. Whoever recorded what a phone said could say it again to an MME that hands the vector out a
second time, and would be let in without the phone's key. So the line is written before the challenge goes out; the file stays where
it is while logs come and go; and a run that doesn't go on after its log begins without these vectors.
"""
import hashlib
import itertools
import os
import re

from tools import runs

from tools.fronting.faults import Failed, LOG_FAILS, WRONG, told
from tools.fronting.keys import without_keys
from tools.fronting.provisioning import Head
from tools.fronting.segments import add_whole
from tools.fronting.syncing import folder_of, sync_path

LOG_END = ".used"  # after a log's name
LINE = re.compile(rb"[0-9]{14,15} [0-9a-f]{32}")


def entry_of(imsi, rand):
    """A vector's line, without its end."""
    return b"%s %s" % (imsi.encode(), rand.hex().encode())


def vector_of(line):
    """The same of a line of provisioning, or nothing where that is no vector."""
    word, *fields = line.split(" ")
    return " ".join(fields[:2]).lower().encode("latin-1") if word == "vec" else None


def digest_of(entries):
    """What further entries are added to, of the digest of these."""
    return hashlib.sha256(b"".join(entry + b"\n" for entry in entries))


class UsedVectors:
    """The vectors that were used, each by its IMSI and its RAND: `known` has them as its keys, in the order of the file."""

    def __init__(self, path):
        self.path = path
        self.noted = {}  # those whose lines aren't written yet
        self.syncs = False  # whether they are on disk once they are written, where no log sees to that
        try:
            self.file = os.open(path, os.O_RDWR | os.O_CREAT | os.O_APPEND, 0o600)
        except OSError as fault:
            raise Failed("%s: %s" % (path, told(fault)), WRONG) from None
        try:
            self.known = self.read()
            self.digest = digest_of(self.known)
        except BaseException:
            os.close(self.file)
            raise

    def __bool__(self):
        """Whether something is to be written."""
        return bool(self.noted)

    def read(self):
        """What the file has. A last line that isn't whole was never written; its challenge didn't go out."""
        try:
            with open(self.path, "rb") as file:
                lines = file.read().split(b"\n")
            rest = lines.pop()
            if not rest and lines and not LINE.fullmatch(lines[-1]):
                lines.pop()
            self.size = sum(map(len, lines)) + len(lines)
            for number, line in enumerate(lines, 1):
                if not LINE.fullmatch(line):
                    raise Failed("%s: line %d is damaged: it has an IMSI and a RAND, each vector that was used one line"
                                 % (self.path, number), WRONG)
            os.ftruncate(self.file, self.size)
        except OSError as fault:
            raise Failed("%s: %s" % (self.path, told(fault)), WRONG) from None
        return dict.fromkeys(lines)

    def note(self, imsi, rand):
        """A challenge with this RAND is to go out: whether its vector's line is still to be written."""
        entry = entry_of(imsi, rand)
        if entry in self.known:
            return False
        self.noted[entry] = None
        return True

    def write(self):
        """Adds what was noted to the file, whole. After a fault of the system's, which is raised, none of it counts as written."""
        if self.noted:
            self.size += add_whole(self.file, b"".join(entry + b"\n" for entry in self.noted), self.size)
            if self.syncs:
                self.sync()
            self.digest.update(b"".join(entry + b"\n" for entry in self.noted))
            self.known.update(self.noted)
            self.noted.clear()

    def sync(self):
        """Has what is written be on disk before it goes on."""
        os.fsync(self.file)

    def add(self, lines):
        """Writes the vectors among lines of provisioning as used, on disk too; whether each could be read."""
        entries = list(filter(None, map(vector_of, lines)))
        whole = [entry for entry in entries if LINE.fullmatch(entry)]
        self.learn(whole)
        return len(whole) == len(entries) and not any("\0" in line for line in lines)

    def learn(self, entries):
        """Has it be on disk that these vectors were used, which another front's challenges did."""
        self.noted.update(dict.fromkeys(entry for entry in entries if entry not in self.known))
        try:
            self.write()
            self.sync()
        except OSError as fault:
            raise Failed("%s: %s" % (self.path, told(fault)), LOG_FAILS) from None

    def forget_noted(self):
        """What was noted doesn't go out."""
        self.noted.clear()

    def among(self, entries):
        """Those of some vectors that were used, each as its line here."""
        return self.known.keys() & entries

    def told(self):
        """How many there are, and their digest."""
        return {"vectors": len(self.known), "digest": self.digest.hexdigest()}

    def begins_with(self, told):
        """Whether these were the first of them."""
        first = digest_of(itertools.islice(self.known, told["vectors"]))
        return len(self.known) >= told["vectors"] and first.hexdigest() == told["digest"]

    def begun(self, head):
        """A head to begin a run with: without the vectors that were used."""
        return Head([line for line in head.lines if vector_of(line) not in self.known])

    def after(self, standing, given):
        """The head of a file, for a run that goes on after a log with the lines that stand: without the vectors that were used,
        but for those of the log."""
        facts = given.facts
        left = facts[:len(standing)] if facts[:len(standing)] == standing else []
        place = len(left)
        for line in facts[place:]:
            if place < len(standing) and standing[place] in (line, without_keys(line)):
                place += 1
            elif vector_of(line) in self.known:
                continue
            left.append(line)
        return Head(left)

    def check_vector(self, imsi, rand):
        """Refuses a vector that was used, by its IMSI and its RAND in small letters."""
        if self.known and ("%s %s" % (imsi, rand)).encode() in self.known:
            raise runs.Fault("its vector was used already: its RAND stands in %s" % self.path)

    def look_after(self):
        """Writes a new file where it was moved or cut; whether it was."""
        try:
            there = os.stat(self.path)
            mine = os.fstat(self.file)
            if (there.st_dev, there.st_ino, there.st_size) == (mine.st_dev, mine.st_ino, self.size):
                return False
        except FileNotFoundError:
            pass
        new = self.path + ".new"
        file = os.open(new, os.O_RDWR | os.O_CREAT | os.O_TRUNC | os.O_APPEND, 0o600)
        try:
            size = add_whole(file, b"".join(entry + b"\n" for entry in self.known), 0)
            os.fsync(file)
            os.replace(new, self.path)
            sync_path(folder_of(self.path))
        except OSError:
            os.close(file)
            raise
        os.close(self.file)
        self.file, self.size = file, size
        return True

    def close(self):
        os.close(self.file)
