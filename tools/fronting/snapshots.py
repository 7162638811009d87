"""A snapshot of a front: the MME as the library saves it, and what the front itself knows, as both were at one moment of a run.

LOG.snapshot.000001 and so on are such files. Each has

    soizkadur snapshot 1    the version of this form
    {"made": .., ..}        an object of JSON in one line, which says of what the snapshot is
                            how many vectors of each subscriber are spent, and then how many are left, four octets for each
                            the RANDs of those that are left, of one subscriber after the other
    sub IMSI ..             each subscriber who was given since the run began
    IMSI RAND               each vector that the run began without, since it was used before
                            the parts of the MME
                            32 octets: SHA-256 of all before, or HMAC-SHA-256 by the front's key

So but for the parts of the MME it has no keys, and of vectors that are spent only how many they are: LOG.used has their RANDs, and the
snapshot a digest of LOG.used as it was.

What counts of the log has a line `# snapshot NUMBER MARK` at that moment; the lines after it came later. MARK is a number that is
drawn for each snapshot, so a line of another log isn't taken for it. Of a log in a store, shelf.py has where they are.
"""
import array
import hashlib
import hmac
import json
import os
import re
import secrets
import sys
import typing

from tools import runs, versions

from tools.fronting.challenges import RAND_OCTETS
from tools.fronting.faults import WRONG, Failed, told
from tools.fronting.resuming import NoResume
from tools.fronting.segments import DIGITS, SNAPSHOT, numbered, own_line
from tools.fronting.used import vector_of

VERSION = 1
FIRST, FIRST_LINE = re.compile(rb"soizkadur snapshot ([0-9]{1,9})\n"), b"soizkadur snapshot %d\n"
LONGEST_FIRST, LONGEST_TEXT = 64, 1 << 20  # octets of the first two lines
SAID = "number", "mark", "made", "by", "seal", "up", "begun", "provisioning", "used"
OF_LOG, OF_STORE = ("counts", "happened", "segments"), ("log", "last", "time")  # what else is said, by where the log is
SEAL_OCTETS, LEAST_KEY = 32, 16
PLAIN, KEYED = "sha256", "hmac-sha256"
PIECE = 1 << 20  # octets that are written and read at once
DAMAGED = "it is damaged or cut"
ALIEN = "%s doesn't have its place: it is of another log"
GONE = "the segment of %s that it stands in is gone"
CUT = "%s ends before %s was made: something is missing in it"
OTHER_LINES = "it is of another provisioning: the subscribers' file has to begin with its %d lines"
NO_SOURCE = "it has lines that the subscribers' file lacks: put them at its end, or give --source"


class Unfit(Exception):
    """Why a snapshot can't be taken."""


def name_of(log, number):
    """Where a log's snapshot stands."""
    return "%s%s%0*d" % (log, SNAPSHOT, DIGITS, number)


def key_in(path):
    """The key in a file."""
    try:
        with open(path, "rb") as file:
            key = file.read()
    except OSError as fault:
        raise Failed("%s: %s" % (path, told(fault)), WRONG) from None
    if len(key) < LEAST_KEY:
        raise Failed("%s: a key has %d octets or more" % (path, LEAST_KEY), WRONG)
    return key


def digest_by(key):
    """What makes a seal."""
    return hashlib.sha256() if key is None else hmac.new(key, digestmod="sha256")


def mark_line(number, mark):
    """The line of a snapshot in what counts."""
    return b"# snapshot %d %s\n" % (number, mark.encode())


class Provisioned:
    """Lines of provisioning: how many they are and their digest, of those that a run began with, and of all. A further line changes
    the digest by itself, so that the lines before needn't be known."""

    def __init__(self, lines):
        self.begun = self.lines = len(lines)
        self.begun_digest = self.digest = hashlib.sha256("".join([line + "\n" for line in lines]).encode("latin-1")).hexdigest()

    @classmethod
    def restored(cls, told):
        """What told this of itself."""
        made = cls(())
        vars(made).update((name, told[name]) for name in vars(made))
        return made

    def add(self, lines):
        """There are further lines."""
        self.lines += len(lines)
        for line in lines:
            self.digest = hashlib.sha256(("%s %s" % (self.digest, line)).encode("latin-1")).hexdigest()

    def told(self):
        return dict(vars(self))


class Known(typing.NamedTuple):
    """What the front itself knows: by slot how many vectors are spent and the RANDs of those that are left, the lines `sub` that
    were given, and the vectors that the run began without."""
    spent: list
    left: list
    given: list
    left_out: set

    def octets(self):
        """All of it, and what is said of it."""
        numbers = array.array("I", self.spent) + array.array("I", [len(rands) // RAND_OCTETS for rands in self.left])
        if sys.byteorder == "little":
            numbers.byteswap()
        given = "".join(line + "\n" for line in self.given).encode("latin-1")
        left_out = b"".join(entry + b"\n" for entry in sorted(self.left_out))
        about = {"subscribers": len(self.spent), "given": len(given), "left_out": len(left_out)}
        return b"".join([numbers.tobytes(), *self.left, given, left_out]), about


# --- Written ---


class InFile:
    """A file that gets a snapshot, which is on disk at the end."""

    PIECE = PIECE

    def __init__(self, file):
        self.file = file

    def write(self, octets):
        while octets:
            octets = octets[os.write(self.file, octets):]

    def end(self):
        os.fsync(self.file)


class Sealing:
    """Hands on octets, and at the end their seal, in pieces of which none is larger than `to` takes."""

    def __init__(self, to, key):
        self.to, self.digest, self.waiting = to, digest_by(key), bytearray()

    def write(self, octets):
        self.digest.update(octets)
        self.waiting += octets
        self.hand_on(self.to.PIECE)

    def hand_on(self, least):
        """Hands on pieces, as long as there are so many octets."""
        while len(self.waiting) >= least:
            self.to.write(bytes(self.waiting[:self.to.PIECE]))
            del self.waiting[:self.to.PIECE]

    def end(self):
        self.waiting += self.digest.digest()
        self.hand_on(1)
        self.to.end()


def lines_of_segments(path):
    """The digest of the line of each segment's number, of a series, by number."""
    found = {}
    for name in (*numbered(path, ".segment.").values(), path):
        with open(name, "rb") as file:
            octets = file.read(PIECE)
            while not (own := own_line(octets)) and (more := file.read(PIECE)):
                octets = octets[octets.rfind(b"\n") + 1:] + more
        if own:
            found[own[1].decode()] = hashlib.sha256(own[0]).hexdigest()
    return found


def write(to, about, known, parts, key):
    """Writes a snapshot: what is said of it, what the front knows, and the parts of the MME."""
    sealing, (octets, lengths) = Sealing(to, key), known.octets()
    about = {**about, **lengths, "by": versions.number(), "seal": PLAIN if key is None else KEYED}
    sealing.write(FIRST_LINE % VERSION + json.dumps(about).encode() + b"\n" + octets)
    for part in parts:
        sealing.write(part)
    sealing.end()


def drawn():
    """A mark that no other snapshot has."""
    return secrets.token_hex(16)


# --- Read ---


class Snapshot:
    """A snapshot that is whole: `about` has what is said of it, `known` what the front knew, and `octets` the parts of the MME."""

    def __init__(self, file, key, where=OF_LOG):
        self.file, self.size, self.digest = file, file.seek(0, os.SEEK_END), digest_by(key)
        file.seek(0)
        found = FIRST.fullmatch(self.read(LONGEST_FIRST, file.readline))
        if not found:
            raise Unfit("it is no snapshot")
        if int(found[1]) != VERSION:
            raise Unfit("it is of version %s, and this front takes %d" % (found[1].decode(), VERSION))
        try:
            self.about = json.loads(self.read(LONGEST_TEXT, file.readline))
            if any(name not in self.about for name in (*SAID, *where)):
                raise ValueError
            seal, self.known = self.about["seal"], self.read_known()
        except (ValueError, TypeError, KeyError):
            raise Unfit(DAMAGED) from None
        if seal != (PLAIN if key is None else KEYED):
            raise Unfit("it isn't sealed by a key, and this front has one" if key else
                        "it is sealed by a key, and this front has none (--snapshot-key)")
        self.octets = self.read(max(0, self.size - file.tell() - SEAL_OCTETS))
        if not hmac.compare_digest(file.read(), self.digest.digest()):
            raise Unfit(DAMAGED + (", or sealed by another key" if key else ""))

    def read_known(self):
        """What the front knew."""
        spent, left = self.read_numbers(), self.read_numbers()
        rands = [self.read(RAND_OCTETS * self.within(count)) for count in left]
        given, left_out = (self.read(self.within(self.about[name])).split(b"\n")[:-1] for name in ("given", "left_out"))
        return Known(spent, rands, [line.decode("latin-1") for line in given], set(left_out))

    def read_numbers(self):
        """A number of each subscriber."""
        numbers = array.array("I", self.read(4 * self.within(self.about["subscribers"])))
        if sys.byteorder == "little":
            numbers.byteswap()
        return numbers.tolist()

    def within(self, count):
        """A length that a file of this size may have."""
        if not isinstance(count, int) or not 0 <= count <= self.size:
            raise ValueError
        return count

    def read(self, count, way=None):
        """The next octets, which the seal is of."""
        octets = (way or self.file.read)(count)
        self.digest.update(octets)
        return octets

    def standing_lines(self, given, has_source):
        """The lines of a subscribers' file that it is of: all of its own, or those that the run began with, where a source supplies
        others."""
        told, left_out, begun = self.about["provisioning"], self.known.left_out, None
        for lines in (given, [line for line in given if vector_of(line) not in left_out] if left_out else ()):
            found = Provisioned(lines[:told["begun"]])
            if (found.begun, found.begun_digest) == (told["begun"], told["begun_digest"]):
                found.add(lines[told["begun"]:told["lines"]])
                if found.told() == told:
                    return lines[:told["lines"]]
                begun = lines[:told["begun"]]
        if begun is None:
            raise Unfit(OTHER_LINES % told["begun"])
        if not has_source:
            raise Unfit(NO_SOURCE)
        return begun

    def place_in(self, log, counts, name):
        """Where the lines begin that came later, in what counts, its segments by number: the segment, and the octet in it."""
        number, offset = self.about["counts"]
        line = mark_line(self.about["number"], self.about["mark"])
        for other in sorted(other for other in counts if other >= number):
            start = own_line(counts[other]).end() + offset if other == number else 0
            at = counts[other].find(line, start)
            if at >= 0:
                return other, at + len(line)
        if number < min(counts):
            raise Unfit(GONE % log)
        own = {str(number): hashlib.sha256(own_line(octets)[0]).hexdigest() for number, octets in counts.items()}
        if own.items() & self.about["segments"].items():
            raise NoResume(CUT % (log, name))
        raise Unfit(ALIEN % log)


def read(path, key=None):
    """The snapshot in a file."""
    try:
        with open(path, "rb") as file:
            return Snapshot(file, key)
    except OSError as fault:
        raise Unfit(told(fault)) from None


# --- Told ---


def words(snapshot):
    """What a snapshot has, without keys."""
    about, known, lines = snapshot.about, snapshot.known, snapshot.about["provisioning"]
    return ["made=%s" % about["made"].replace(" ", "T"), "by=%s" % about["by"], "seal=%s" % about["seal"],
            "subscribers=%d" % about["subscribers"], "given_subscribers=%d" % len(known.given),
            "lines=%d" % lines["lines"], "given_lines=%d" % (lines["lines"] - lines["begun"]),
            "vectors_used=%d" % sum(known.spent), "vectors_left=%d" % (sum(map(len, known.left)) // RAND_OCTETS),
            "stations=%s" % (",".join(map(str, about["up"])) or "-"),
            *("%s=%d:%d" % (name, *about[name]) for name in ("counts", "happened") if name in about),
            "mme_octets=%d" % len(snapshot.octets)]


def tell(given):
    """Prints what each snapshot of a log has, a line for each."""
    key = key_in(given.snapshot_key) if given.snapshot_key else None
    found = sorted(numbered(given.log, SNAPSHOT).items())
    if not found:
        raise runs.Fault("%s has no snapshot" % given.log)
    for number, path in found:
        try:
            print("snapshot %d %s" % (number, " ".join(words(read(path, key)))))
        except Unfit as fault:
            print("snapshot %d can't be taken: %s" % (number, fault))
