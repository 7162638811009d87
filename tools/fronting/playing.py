"""Plays a log through the library, and prints what `mme play` prints of a trace, in its words and with its statuses.

A line that was given while the front ran (`#+ `) is an event here, and prints nothing. So each phone is answered as it was, however
many vectors it was given. What a crash broke off at the end of a segment isn't played: no MME was given it.

Where the first segments are gone, a log is played from a snapshot on.
"""
import mmap
import os
import sys

from tools import runs, versions

from tools.fronting import limits
from tools.fronting.adding import FORM
from tools.fronting.faults import told
from tools.fronting.heads import GROWN
from tools.fronting.keys import Filling, Keyless, read_vectors
from tools.fronting.loop import Loop
from tools.fronting.mme import NOT_TAKEN, LibraryMme, library
from tools.fronting.resuming import NoResume, mapped, own_number
from tools.fronting.segments import NEW, NUMBERED, SNAPSHOT, numbered, older_segments, own_line
from tools.fronting.snapshots import CUT, GONE, Unfit, key_in, name_of, read

COUNTS = ".counts"  # after a log's name, the series of what counts
INPUT_OUTPUT = 3  # the status of `mme play` where it can't read or write, with these words
READ_FAILED, WRITE_FAILED = "mme: read failed", "mme: write failed"
NOT_WHOLE = "%s isn't whole: its first segment is %d, and no snapshot can be taken that it goes on after"
APART = "%s isn't whole: its segments are %s"
AFTER = "%s is played from %s on: line 1 is the first after it"
REFUSED = "line %d: the MME doesn't take %s of %s, as it didn't when it was given"
KEYLESS = "%s is a log without keys: --vectors puts back those of a file"
NO_KEYS = Keyless.note.encode() + b"\n"  # how the line of a segment's number ends then


class Failure(Exception):
    """Why it ends as `mme play` does: its status, after its words."""


def fails(words):
    """Says as `mme play` does that it can't read or write."""
    print(words, file=sys.stderr)
    return Failure(INPUT_OUTPUT)


# --- What is read ---


def first_line_of(path):
    """The number of a file's segment, and whether it has no keys; nothing of a trace that is no log."""
    with open(path, "rb") as file:
        if not os.path.isfile(path) or not os.fstat(file.fileno()).st_size:
            return None
        with mmap.mmap(file.fileno(), 0, access=mmap.ACCESS_READ) as octets:
            found = own_line(octets)
            return (int(found[1]), found[0].endswith(NO_KEYS)) if found else None


def last_of(path):
    """The last file of a series: a crash may have kept it from its name."""
    return path + NEW if older_segments(path) and not os.path.lexists(path) and os.path.isfile(path + NEW) else path


def pieces_of(file, is_log):
    """The lines of a file, in pieces; of one that is too long as much as shows that. In a log the last has its end."""
    rest = b""
    while piece := file.read1(limits.PLAYED_OCTETS):
        end = piece.rfind(b"\n") + 1
        if end:
            yield rest + piece[:end]
            rest = b""
        rest += piece[end:]
        if len(rest) > runs.LONGEST_LINE:
            yield rest + b"\n"
            return
    if rest and not is_log:
        yield rest + b"\n"


class Series:
    """A log, or what counts of it, by the path of its last file: `names` has the files by their numbers, `first` is the one that is
    played first, from the octet `start` on."""

    def __init__(self, path):
        self.path, self.start = path, 0
        self.names, last = older_segments(path), last_of(path)
        found = first_line_of(last)
        self.is_log, self.has_keys = found is not None, not (found and found[1])
        if found or last == path:
            self.names[found[0] if found else 1] = last
        self.first, numbers = min(self.names), sorted(self.names)
        if numbers != list(range(self.first, self.first + len(numbers))):
            raise runs.Fault(APART % (path, ", ".join(map(str, numbers))))

    @property
    def log(self):
        """The name of the log, beside which its snapshots stand."""
        return self.path.removesuffix(COUNTS)

    def pieces(self):
        """The lines that are played, in pieces."""
        for number in sorted(number for number in self.names if number >= self.first):
            with open(self.names[number], "rb") as file:
                own = NUMBERED.match(file.readline())  # a first segment begins with a head
                if (int(own[1]) if own else 1) != number:
                    raise runs.Fault(GROWN)
                file.seek(self.start if number == self.first else 0)
                yield from pieces_of(file, self.is_log)

    def begin_after(self, number, key):
        """It is played from a snapshot on, which has its place here; that."""
        name = name_of(self.log, number)
        snapshot = read(name, key)
        counts = counts_of(self.log)
        place, at = snapshot.place_in(self.log, counts, name)
        if self.path == self.log:
            place, at = snapshot.about["happened"]
            if place not in self.names:
                raise Unfit(GONE % self.path)
            octets = mapped(self.names[place])
            at += own_line(octets).end()
            if octets[at - 1:at] != b"\n":
                raise Unfit(CUT % (self.path, name))
        self.first, self.start = place, at
        return snapshot


def counts_of(log):
    """What counts of a log, by the numbers of its segments."""
    path = log + COUNTS
    try:
        found = {number: mapped(name) for number, name in older_segments(path).items()}
        current = mapped(last_of(path))
    except OSError as fault:
        raise Unfit("%s: %s" % (fault.filename, told(fault))) from None
    return {**found, own_number(path, current): current}


# --- What plays ---


class PlayedMme(LibraryMme):
    """An MME of the library that plays a log, as fast as it can."""

    call_octets = limits.PLAYED_OCTETS

    def take(self, lines):
        """Takes what was given; a line that couldn't be is a wrong one."""
        for number, answer in enumerate(super().take(lines).split(b"\n"), 1):
            if answer.startswith(NOT_TAKEN):
                _, refusal, text = answer.decode("latin-1").split(" ", 2)
                if not FORM.fullmatch(text):
                    raise self.library.Refused(int(refusal), number)
                self.say("refused", REFUSED % (self.played + number, *text.split(" ")[:2]))
        return b""


def restored(package, octets):
    """The MME of a snapshot."""
    try:
        return package.Mme.restored(octets)
    except package.Refused as refused:
        raise Unfit("the library doesn't take it: %s" % refused) from None


def after_snapshot(series, given, take):
    """What `take` makes of the snapshot that is asked for, or of the newest that fits, from which the series is played on. It
    raises Unfit for one that it can't take."""
    key = key_in(given.snapshot_key) if given.snapshot_key else None
    found = sorted(numbered(series.log, SNAPSHOT), reverse=True) if given.after is None else [given.after]
    for number in found:
        name = name_of(series.log, number)
        try:
            taken = take(series.begin_after(number, key))
            versions.complain(AFTER % (series.path, name))
            return taken
        except (NoResume, Unfit) as fault:
            if given.after is not None:
                raise runs.Fault("%s can't be taken: %s" % (name, fault)) from None
            versions.complain("%s isn't taken: %s" % (name, fault))
    raise runs.Fault(NOT_WHOLE % (series.path, series.first))


def written(octets):
    """Prints these octets."""
    try:
        while octets:
            octets = octets[os.write(sys.stdout.fileno(), octets):]
    except OSError:
        raise fails(WRITE_FAILED) from None


def say(event, text):
    """Says something on standard error, the MME's own words as it says them."""
    if event == "mme":
        print(text, file=sys.stderr)
    else:
        versions.complain(text)


def filled(pieces, vectors):
    """The same lines with the keys of these vectors."""
    filling = Filling(vectors)
    for piece in pieces:
        yield b"".join(filling.whole(piece.split(b"\n")[:-1]))


def played(package, mme, pieces):
    """Plays all lines, and prints the answers; the status."""
    loop = Loop()
    playing = PlayedMme(package, loop, written, say)
    if mme is not None:
        playing.mme, playing.has_started = mme, True

    def give():
        if playing.status is not None or playing.waiting:
            return
        try:
            piece = next(pieces, None)
        except OSError:
            raise fails(READ_FAILED) from None
        if piece is None:
            playing.finish()
        else:
            playing.give(piece)

    playing.taken = give
    give()
    while playing.status is None:
        loop.turn()
    return playing.status


def play(given):
    """Plays the log that is asked for; the status."""
    package = library()
    vectors = read_vectors(given.vectors) if given.vectors else None
    try:
        series, mme = None, None
        if given.log == "-":
            pieces = pieces_of(sys.stdin.buffer, False)
        else:
            series = series_of(given.log)
            if given.after is not None or series.first > 1:
                mme = after_snapshot(series, given, lambda snapshot: restored(package, snapshot.octets))
            pieces = series.pieces()
        status = played(package, mme, filled(pieces, vectors) if vectors else pieces)
    except Failure as failure:
        return failure.args[0]
    if status and series and not series.has_keys and not vectors:
        versions.complain(KEYLESS % given.log)
    return status


def series_of(path):
    """The series of a path."""
    try:
        return Series(path)
    except OSError:
        raise fails(READ_FAILED) from None
