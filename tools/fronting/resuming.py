"""Taking up a log: what a run that ended has of what counts, and of what happened since that was settled."""
import contextlib
import datetime
import functools
import mmap
import os
import pathlib
import re
import time

from tools import runs

from tools.fronting.faults import WRONG, Failed
from tools.fronting.journal import GIVEN_UP, UNTIL, Batch, Journal, clock
from tools.fronting.keys import Keyless
from tools.fronting.provisioning import Head
from tools.fronting.segments import SNAPSHOT, Series, mend, name_of, numbered, older_segments, own_line
from tools.fronting.syncing import UNSYNCED
from tools.fronting.used import vector_of

TIMES = re.compile(rb"# time ([0-9-]+ [0-9:.]+)\n")
TIME_FORMAT = "%Y-%m-%d %H:%M:%S.%f"
SETTLED, TIME = b"# settled until segment ", b"# time "
CHANGES = re.compile(rb"^(up|lost) (\d+)$", re.MULTILINE)
PHONE = re.compile(rb"^in [0-9]+ 000c", re.MULTILINE | re.IGNORECASE)  # an INITIAL UE MESSAGE, without which nobody is challenged
FURTHER = runs.FURTHER.encode()
NAMED = re.compile(rb"^(?:(?:data|cancel|show) (\d+)$|%ssub (\d+) )" % re.escape(FURTHER), re.MULTILINE)
PIECE = 1 << 18  # octets that the MME is given at once
# Why a program can't go on with a log.
OF_LIBRARY = "%s has lines of provisioning where they were given (`#+ `), which `mme play` skips: go on with --library"
OR_FILLED = ", or with what `mme-front fill --head` makes of it (deploy/README.md)"  # of a log in files
OTHERS = (".counts", GIVEN_UP, UNSYNCED)  # what belongs to a log, after its name
COMMENTS = (runs.LEFT_OUT, "# came protected: ", runs.BEGUN_ANEW)  # how lines begin that are about the line below them


class NoResume(Exception):
    """Why a log can't be taken up."""


def further_in(octets, start=0, end=None):
    """The lines of provisioning that were given where they stand, of whole lines of a log."""
    end, at, found = len(octets) if end is None else end, start, []
    while True:
        if octets[at:at + len(FURTHER)] != FURTHER:
            before = octets.find(b"\n" + FURTHER, at, end)
            at = before + 1 if before >= 0 else end
        stop = octets.find(b"\n", at, end)
        if stop < 0:
            return found
        found.append(octets[at + len(FURTHER):stop].decode("latin-1"))
        at = stop + 1


def lines_of(path):
    """The files of a log that have lines, by the ends of their names: both series, and their segments."""
    found = {}
    for end in ("", *OTHERS):
        if os.path.lexists(path + end):
            found[end] = path + end
        for number in older_segments(path + end):
            found[name_of(end, number)] = name_of(path + end, number)
    return found


def parts_of(path):
    """All files of a log by the ends of their names."""
    snapshots = numbered(path, SNAPSHOT).values()
    return {**lines_of(path), **{snapshot.removeprefix(path): snapshot for snapshot in snapshots}}


def make_way(path, keep):
    """Makes an older log PATH.1, that one PATH.2, and so on up to the number to keep, each with all that belongs to it."""
    if os.path.exists(path) and not os.path.isfile(path):
        raise runs.Fault("%s: isn't a file" % path)
    if not keep:
        for part in parts_of(path).values():
            raise Failed("%s: there is one already: move it away, or keep it by --keep" % part, WRONG)
    names = [path] + ["%s.%d" % (path, number) for number in range(1, keep + 1)]
    for place in range(keep, -1, -1) if keep else ():
        for end, part in parts_of(names[place]).items():
            if place == keep:
                pathlib.Path(part).unlink()
            else:
                os.replace(part, names[place + 1] + end)


def note_stations(octets, up):
    """Notes which stations are connected after these lines."""
    for word, number in CHANGES.findall(octets):
        (up.add if word == b"up" else up.discard)(int(number))


def whole_until(octets, start):
    """Where the last whole line ends, of those from a place on that have no octet 0 before them."""
    zero = octets.find(b"\0", start)
    return octets.rfind(b"\n", 0, zero if zero >= 0 else len(octets)) + 1


def last_of(pattern, beginning, octets):
    """The last place where a pattern stands whole, which begins with these octets; or nothing."""
    at = octets.rfind(beginning)
    while at >= 0:
        found = pattern.match(octets, at)
        if found:
            return found
        at = octets.rfind(beginning, 0, at)
    return None


def time_in(octets):
    """The last time of day that a log's lines have; nothing where they have none."""
    found = last_of(TIMES, TIME, octets)
    return found[1].decode() if found else ""


def seconds_of(time_of_day):
    """A time of day in seconds since 1970; 0 where it is none."""
    with contextlib.suppress(ValueError):
        return datetime.datetime.strptime(time_of_day, TIME_FORMAT).replace(tzinfo=datetime.timezone.utc).timestamp()
    return 0


def seconds_since(octets):
    """How long ago that was; nothing where they have none."""
    found = time_in(octets)
    with contextlib.suppress(ValueError):  # digits that are no time
        if found:
            then, now = (datetime.datetime.strptime(time_of_day, TIME_FORMAT) for time_of_day in (found, clock()))
            return max(0, min(int((now - then).total_seconds()), runs.LONGEST_TICK))
    return None


def mapped(path):
    """A file's octets, which stay in it; a file that is empty is none of a log."""
    with open(path, "rb") as file:
        if not os.fstat(file.fileno()).st_size:
            raise NoResume("%s is empty" % path)
        return mmap.mmap(file.fileno(), 0, access=mmap.ACCESS_READ)


def why_given_up(path):
    """Why a log hasn't all that was answered, where its run went on without it."""
    if os.path.lexists(path + GIVEN_UP):
        return "%s was given up, and the run went on without it (%s)" % (path, path + GIVEN_UP)
    return None


def head_facts(path):
    """The lines of provisioning that a log begins with, by what happened or what counts, or nothing where neither can be read."""
    for series in (path, path + ".counts", path + GIVEN_UP):
        with contextlib.suppress(OSError):
            older = older_segments(series)
            octets = pathlib.Path(older[min(older)] if older else series).read_bytes()
            found = own_line(octets)
            head = octets[:found.start()] if found else b""
            if head and b"\0" not in head:
                return head.decode("latin-1").splitlines()
    return []


def facts_in(path, others):
    """The lines of provisioning that a log begins with, and those that were given since, as far as they can be read; of a log
    whose beginning is lost these others too."""
    parts = [part for part in map(pathlib.Path, lines_of(path).values()) if part.is_file()]
    return (head_facts(path) or others) + [line for part in parts for line in further_in(part.read_bytes())]


def perhaps_used(path, others):
    """The same of a log with messages of phones, whose vectors were perhaps used."""
    parts = map(pathlib.Path, lines_of(path).values())
    return facts_in(path, others) if any(PHONE.search(part.read_bytes()) for part in parts if part.is_file()) else []


def own_number(path, octets):
    """The number that stands in a segment."""
    own = own_line(octets)
    if not own:
        raise NoResume("a segment of %s has no line of its number" % path)
    return int(own[1])


def read_series(path):
    """The segments of a series, by number."""
    mend(path)
    found = {}
    for number, segment in sorted(older_segments(path).items()):
        found[number] = mapped(segment)
        if own_number(path, found[number]) != number:
            raise NoResume("%s is another segment than its name says" % segment)
    current = mapped(path)
    number = own_number(path, current)
    if number <= max(found, default=0):
        raise NoResume("%s is segment %d, and there is a later one" % (path, number))
    return {**found, number: current}


def check_entry(path, entry):
    """Refuses a line of what happened that is none."""
    line = entry.rpartition("\n")[2]
    if line and not line.startswith("#"):
        try:
            word, fields = runs.fields_of(line.encode("latin-1"), runs.EVENTS)
            runs.event_of(0, word, fields)
        except runs.Fault as fault:
            raise NoResume("%s has a line that is damaged: %s" % (path, fault)) from None


def entries_of(text):
    """The lines of a log, each after the comments that are about it; without its times and numbers."""
    entries, comments = [], []
    for line in text.splitlines():
        if line.startswith(COMMENTS):
            comments.append(line)
            continue
        if not line.startswith(("# time ", "# segment ")):
            entries.append("\n".join([*comments, line]))
        comments = []
    return entries


class Standing:
    """A log that stands: its head, what counts from its beginning, the octet `start` of segment `first`, and what happened since
    that was settled."""

    make = None  # what makes the MME that is to play it, where that isn't one with nothing before the head

    def __init__(self, path):
        self.path = path
        if why := why_given_up(path):
            raise NoResume(why)
        try:
            self.counts, self.happened = read_series(path + ".counts"), read_series(path)
        except OSError as fault:
            raise NoResume("%s: %s" % (fault.filename, fault.strerror)) from None
        self.begin()
        self.counts_end = self.end_of_counts()
        self.tail, self.tail_places = self.find_tail()
        self.further = self.find_further()

    def begin(self):
        """Finds where it begins, and with which head."""
        self.begin_with(1)
        first = own_line(self.counts[1])
        self.start, self.has_keys = first.end(), not first[0].endswith(Keyless.note.encode() + b"\n")
        try:
            self.head = Head(self.counts[1][:first.start()].decode("latin-1").removesuffix("\n").split("\n"))
        except (StopIteration, IndexError):
            raise NoResume("%s.counts has no head" % self.path) from None

    def begin_with(self, number):
        """It begins in this segment, and there is each one from there on."""
        self.first, numbers = number, [other for other in self.counts if other >= number]
        if not numbers or numbers != list(range(number, number + len(numbers))):
            raise NoResume("%s.counts isn't whole: its segments are %s" % (self.path, ", ".join(map(str, self.counts))))

    def restore(self, front, up):
        """What the front and `up`, the stations that were connected, have before the first line that is played."""

    @functools.cached_property
    def facts(self):
        """The lines of provisioning, as they stand."""
        return self.head.facts + self.further

    def in_file(self, has_source):
        """Those that the subscribers' file has to begin with: what was given or supplied since stands in the log alone where there is
        a source."""
        return self.head.facts if has_source else self.facts

    @functools.cached_property
    def vectors(self):
        """The vectors that the log has to have a challenge of, where they were used."""
        return set(map(vector_of, self.facts))

    @functools.cached_property
    def later(self):
        """The lines that were given since, each to be found at once."""
        return set(self.further)

    def has(self, line):
        """Whether a further line of the subscribers' file was given or supplied before."""
        return line in self.later

    def end_of_counts(self):
        """Up to where what counts is good: the last line that says what is settled, or what stands before the first of all."""
        last = self.counts[max(self.counts)]
        found = last_of(UNTIL, SETTLED, last)
        return found.end() if found else own_line(last).end()

    def settled_until(self):
        """The place of what happened up to which it is settled."""
        for segment in reversed(self.counts.values()):
            found = last_of(UNTIL, SETTLED, segment)
            if found:
                return int(found[1]), int(found[2])
        return 1, 0

    def spans(self):
        """Each segment of what counts, with where its lines begin and end."""
        for number, segment in self.counts.items():
            if number >= self.first:
                yield (segment, self.start if number == self.first else 0,
                       self.counts_end if number == max(self.counts) else len(segment))

    def find_further(self):
        """The lines of provisioning that were given since, as they stand."""
        found = [line for span in self.spans() for line in further_in(*span)]
        return found + [line for octets in self.tail for line in further_in(octets)]

    def events(self):
        """What counts, in pieces of whole lines."""
        for segment, at, end in self.spans():
            while at < end:
                stop = end if end - at <= PIECE else segment.rfind(b"\n", at, at + PIECE) + 1
                if stop <= at:
                    raise NoResume("%s.counts has a line that is damaged: it is longer than any" % self.path)
                yield segment[at:stop]
                at = stop

    def find_tail(self):
        """What happened since: whole lines, and the place of the end of each segment's. Of what wasn't synced a power cut may leave
        zeros, and later lines after them; it wasn't answered, so it ends before them."""
        number, offset = self.settled_until()
        tail, places = [], []
        for other, octets in self.happened.items():
            if other >= number:
                base, start = own_line(octets).end(), offset if other == number else 0
                end = whole_until(octets, base + start)
                if end < len(octets) and other < max(self.happened):
                    raise NoResume("segment %d of %s isn't whole" % (other, self.path))
                tail.append(octets[base + start:end])
                if octets[base + start - 1:base + start] not in (b"\n", b""):
                    raise NoResume("%s has no line that ends where %s.counts says what is settled" % (self.path, self.path))
                places.append((other, end - base))  # before that of what is settled where the disk lost what came between
                self.happened_end = end
        if [other for other in self.happened if other >= number] != list(range(number, number + len(tail))) or not tail:
            raise NoResume("%s isn't whole since segment %d" % (self.path, number))
        return tail, places

    def seconds_since(self):
        """How long ago it ended, by the last time that it has."""
        return next((seconds for seconds in map(seconds_since, reversed(self.happened.values())) if seconds is not None), 0)

    def tail_batches(self, fill):
        """The tail as batches whose answers settle it; `fill` puts back what the log leaves out."""
        batches = []
        for octets, place in zip(self.tail, self.tail_places):
            batch = Batch()
            batch.logged = entries_of(octets.decode("latin-1"))
            for entry in batch.logged:
                check_entry(self.path, entry)
                word, _, rest = entry.rpartition("\n")[2].partition(" ")
                number = int(rest.partition(" ")[0]) if word == "in" else None
                batch.add(fill(entry.encode("latin-1")).decode("latin-1"), number)
                if number is not None:
                    batch.heard[number] = batch.heard.get(number, 0) + 1
            batch.place, batch.time, batch.given = place, clock(), time.monotonic()
            batches.append(batch)
        return batches

    def journal(self, size, most, form):
        """The log, to be written on: without what a crash left half written. What is mapped is let go before it is cut."""
        numbers, counts = list(self.happened), list(self.counts)
        until = self.settled_until()
        self.happened = self.counts = None
        for path, end in ((self.path, self.happened_end), (self.path + ".counts", self.counts_end)):
            os.truncate(path, end)
        journal = Journal(
            Series.taken_up(self.path, "what happened", size, most, max(numbers), min(numbers), form.note),
            Series.taken_up(self.path + ".counts", "what counts", size, most, max(counts), min(counts), form.note), form)
        for series, segments in zip(journal.series, (numbers, counts)):
            series.is_whole = segments == list(range(1, len(segments) + 1))
        journal.until = journal.written = journal.sure = until
        return journal
