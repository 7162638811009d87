"""The log: what happened, which is each line that the MME is given, before it gets it; and what counts of it.

A message that the MME answered by an ERROR INDICATION changed nothing (docs/TABLE.md), nor did a RESET of associations that nobody
has, or a station's own ERROR INDICATION or RESET ACKNOWLEDGE. So what counts is the rest: enough to bring another MME to where this
one is. Answers don't say which message they are to: where each message of a station was answered so, none counts; where some were,
those count that aren't nobody's by what the station said before (associations.py). It is written once the answers are there, with a
line now and then that says up to where what happened is settled; what comes after that place counts too, until it is settled.

What the MME is given at once is a turn. A turn is committed once it is on disk, or with --sync no once it is written, and what it
is answered waits for that (exchange.py). What counts is an abstract: a power cut may take of it what comes after its last line on
what is settled, since that line is written only once all of what happened up to its place, and all of what counts before it, is on
disk; and what happened is removed only once a line that says more is on disk.
"""
import binascii
import contextlib
import functools
import os
import re
import time

from tools import runs

from tools.fronting import limits
from tools.fronting.faults import Failed, LOG_FAILS, Unheld, told
from tools.fronting.keys import Whole
from tools.fronting.segments import SNAPSHOT, Series, numbered
from tools.fronting.syncing import folder_of, forget_unsynced, note_unsynced, sync_path
from tools.fronting.turns import Turns

UNTIL = re.compile(rb"# settled until segment (\d+), octet (\d+)\n")
SETTLED_UNTIL = b"# settled until segment %d, octet %d\n"
TIME = "# time %s"
GIVEN_UP = ".counts.given-up"  # after a log's name: what counted of it until the front went on without it


def clock():
    """The time of day as comments have it, in UTC and to the millisecond."""
    seconds, rest = divmod(time.time_ns(), 10**9)
    return "%s.%03d" % (second_of(seconds), rest // 10**6)


@functools.lru_cache(1)
def second_of(seconds):
    """The same to the second, of a time since 1970."""
    return time.strftime("%Y-%m-%d %H:%M:%S", time.gmtime(seconds))


def octets_of(lines):
    """Lines as a file has them, each with its end."""
    return "\n".join([*lines, ""]).encode("latin-1")


class Batch:
    """Lines that the MME is given together, and what is known of the answers. `heard` has how many messages came from each
    station, `idle` how many of them were answered as one that changes nothing, `nobodys` the stations whose every RESET is of
    nobody, `meant` those with another, `associations` what each station may have, or nothing for one that came anew, `still` the
    lines of messages that are known to change nothing, `moving` those of messages like them that may, and `logged` what the log has
    of each line, where that isn't the line. `asked` has by a line whose states the MME is asked for right after it, `turn` is the
    number of its turn, 0 for what stood in the log before, `octets` are those of messages alone, `before` is how many lines of the
    log stand before it, where that is known, and `whole` the lines as octets, once they were wanted. `said`, `sent` and `lost` have
    what of it says where tunnels end (bearers.py): messages of stations, answers, and stations that were lost. `has_further` is
    whether lines of provisioning are given in it."""

    __slots__ = ("lines", "logged", "owners", "heard", "idle", "nobodys", "meant", "associations", "still", "moving", "asked",
                 "given", "after", "place", "time", "answers", "has_ticks", "turn", "octets", "before", "whole", "said", "sent",
                 "lost", "has_further")

    def __init__(self):
        self.lines, self.logged, self.owners, self.heard, self.idle, self.has_ticks = [], None, [], {}, {}, False
        self.nobodys, self.meant, self.asked = set(), set(), {}
        self.associations, self.still, self.moving = {}, set(), set()
        self.given, self.after, self.place, self.time, self.answers = 0.0, [], None, None, 0
        self.turn = self.octets = 0
        self.before = self.whole = None
        self.said, self.sent, self.lost, self.has_further = [], [], [], False

    def add(self, line, station=None):
        """A line, and the station that it is a message of."""
        self.lines.append(line)
        self.owners.append(station)
        self.has_ticks = self.has_ticks or line.startswith("tick ")

    def add_further(self, lines):
        """Further lines of provisioning."""
        self.lines += [runs.FURTHER + line for line in lines]
        self.owners += [None] * len(lines)
        self.has_further = self.has_further or bool(lines)

    def note_station(self, number, associations, count=0):
        """A station that says so many messages, and the associations that it may have."""
        self.heard[number] = self.heard.get(number, 0) + count
        if self.associations.setdefault(number, associations) is not associations:
            self.associations[number] = None

    def note_reset(self, station, is_of_nobody, line):
        """A station's RESET, whether it is known to mean nobody, and its line."""
        self.note_still(line, is_of_nobody)
        if not is_of_nobody:
            self.meant.add(station)
        (self.nobodys.discard if station in self.meant else self.nobodys.add)(station)

    def note_still(self, line, is_still):
        """A message by its line, and whether it is known to change nothing, as another one of the same octets perhaps isn't."""
        (self.still if is_still else self.moving).add(line)

    def note_answer(self, station, is_reset):
        """An answer by which a message changed nothing: an ERROR INDICATION, or RESET ACKNOWLEDGE to a RESET of nobody."""
        if not is_reset or station in self.nobodys:
            self.idle[station] = self.idle.get(station, 0) + 1

    def text(self):
        """The lines as octets. No line comes any more."""
        if self.whole is None:
            self.whole = octets_of(self.lines)
        return self.whole

    def logged_text(self):
        """What the log has of them, as octets."""
        return self.text() if self.logged is None else octets_of(self.logged)

    def told(self):
        """What the MME is given, as octets: the lines, and each question, which stands in no log, after its line."""
        if not self.asked:
            return self.text()
        asked, told = dict(self.asked), []
        for line in self.lines:
            told.append(line)
            if line in asked:
                told.append("show " + asked.pop(line))
        return octets_of(told)

    def questions(self):
        """How many states the MME is asked for among its lines."""
        return len(self.asked) + sum(line.startswith("show ") for line in self.lines)

    @property
    def counts_whole(self):
        """Whether each of its lines counts, since none is known to have changed nothing."""
        return not self.idle and not self.still

    def counting(self):
        """What the log has of the lines that count: of all but those of stations whose every message changed nothing, and those of
        messages that by themselves are known to have changed nothing."""
        lines = self.lines if self.logged is None else self.logged
        if self.counts_whole:
            return lines
        idle = {number for number, count in self.heard.items() if self.idle.get(number) == count}
        return [logged for logged, line, owner in zip(lines, self.lines, self.owners)
                if owner not in idle and not self.is_still(line, owner)]

    def counting_text(self):
        """The same as octets."""
        return self.logged_text() if self.counts_whole else octets_of(self.counting())

    def is_still(self, line, owner):
        """Whether a message is known to have changed nothing, by what it is and by the associations that its station may have."""
        if line in self.still:
            return line not in self.moving
        known = self.associations.get(owner) if owner in self.idle else None
        return known is not None and known.is_nobodys(binascii.unhexlify(line.rpartition(" ")[2].replace("-", "")))


class Journal(Turns):
    """Both series, one of what happened and one of what counts, in a form (keys.py)."""

    def __init__(self, happened, counts, form):
        super().__init__(happened.path)
        self.happened, self.counts, self.form = happened, counts, form
        self.settled, self.ticks, self.octets = [], 0, 0  # what counts and isn't written yet; ticks in a row at its end
        self.until, self.written, self.due = happened.place, happened.place, time.monotonic()
        self.last_time, self.gone = None, []
        self.folder = None
        self.since = self.fault = None  # since when the turn under way is synced, and the fault of that
        self.chunk, self.sure = None, happened.place  # what counts is written up to there, and surely on disk up to there
        # How many octets counted since the run began: all, those of the chunk, and those before a line that says so, which is
        # written, and which is surely on disk; and the first segment of what counts that a start needs, where snapshots are made.
        self.counted = self.counted_chunk = self.counted_written = self.counted_sure = 0
        self.needed = None
        # How many lines what happened has, where it has its keys; nothing where that isn't known; and as of which segment.
        self.lines, self.segment = None, happened.number

    @classmethod
    def begun(cls, path, head, size, most, form=Whole()):
        """A log of a run that begins, with nothing before it."""
        octets = form.text(head).encode("latin-1")
        happened = Series(path, "what happened", size, most, octets, form.note)
        try:
            counts = Series(path + ".counts", "what counts", size, most, octets, form.note)
        except Failed:
            happened.remove()
            raise
        with contextlib.suppress(FileNotFoundError):
            os.unlink(path + GIVEN_UP)  # of another log that stood there
        journal = cls(happened, counts, form)
        journal.lines = octets.count(b"\n") + 1
        return journal

    def keep_by(self, syncer):
        """From now on turns are synced, after all that stands; or where there is no syncer, they aren't, which a file says."""
        if syncer is None:
            note_unsynced(self.happened.path)
            return
        for series in self.series:
            series.syncs = True
            series.sync_all()
        self.syncer, self.folder = syncer, os.open(folder_of(self.happened.path), os.O_RDONLY)
        self.sync_names()
        forget_unsynced(self.happened.path)

    # Turns.

    @property
    def is_under_way(self):
        """Whether a turn, or what stands beside the log, is being synced."""
        return self.since is not None or self.is_noting and not self.is_broken

    @property
    def is_cut(self):
        return self.happened.is_cut

    def add(self, batches):
        """Writes a turn, which the MME is about to be given."""
        for series in self.series:
            series.write_again()
        self.happened.make_room()
        now, text, ends = clock(), [], []
        if now != self.last_time:
            self.last_time = now
            text.append(octets_of([TIME % now]))
        place, length = self.happened.place, sum(map(len, text))
        for batch in batches:
            batch.time, batch.logged = now, None if self.form.has_keys else self.form.written(batch.lines)
            text.append(batch.logged_text())
            length += len(text[-1])
            ends.append(length)
        if text:
            self.happened.add(b"".join(text))
        self.count_lines(len(text) - len(batches), batches)
        self.turn += 1
        for batch, end in zip(batches, ends):
            batch.place, batch.turn = (place[0], place[1] + end), self.turn
        if self.syncer is not None:
            self.sync_turn()
            return
        if any(batch.has_further for batch in batches):
            self.sync_further()
        self.committed = self.turn

    def sync_further(self):
        """Has a turn with lines of provisioning be on disk before it goes on, though no other is: a power cut may take of LOG.used
        that a vector was used, and then the log says that it was given."""
        try:
            os.fdatasync(self.happened.file)
            if self.happened.has_new_name:
                self.sync_names()
        except OSError as fault:
            raise Unheld("%s: %s" % (self.path, told(fault)), LOG_FAILS) from None

    def count_lines(self, lines, batches):
        """Counts the lines of a turn: so many, and those of these batches. Each new segment has begun with a line."""
        if self.lines is None:
            return
        self.lines, self.segment = self.lines + self.happened.number - self.segment + lines, self.happened.number
        for batch in batches:
            batch.before = self.lines
            self.lines += batch.text().count(b"\n")

    def count_standing_lines(self):
        """Counts the lines that stand in a log that was taken up, where all of it is there."""
        if self.happened.is_whole:
            self.lines = 0
            for path in self.happened.paths():
                with open(path, "rb") as file:
                    while piece := file.read(1 << 20) + file.readline():
                        self.lines += piece.count(b"\n") - (b"\n" + piece).count(b"\n" + runs.LEFT_OUT.encode())

    def sync_turn(self):
        """Has the turn be on disk, and what counts with it where that was written since."""
        written = [self.happened, self.counts] if self.chunk is not None else [self.happened]
        for series in written:
            series.write_again()
        acts = [(os.fdatasync, series.file) for series in written]
        if any(series.has_new_name for series in self.series):
            acts.append((os.fsync, self.folder))
        self.fault, self.since = None, time.monotonic()
        self.syncer.sync(acts, functools.partial(self.has_synced, written))

    def has_synced(self, written, fault):
        """The turn is on disk, or it isn't known to be."""
        self.since = None
        if fault is not None:
            self.fault = fault
            for series in written:
                series.is_suspect = True
        else:
            self.committed = self.turn
            for series in written:
                series.is_on_disk()
            for series in self.series:
                series.has_new_name = False
            if self.counts in written:
                fault = self.fault_of(self.end_chunk)
        self.tell(fault)

    def care(self, now):
        """Syncs a turn again that had a fault. One that takes too long has one."""
        if self.fault is not None:
            self.sync_turn()
        elif self.since is not None and now - self.since > limits.FULL_SECONDS:
            raise Failed("%s: it isn't on disk after %d s" % (self.happened.path, limits.FULL_SECONDS), LOG_FAILS)

    # What counts.

    def settle(self, batch):
        """What an answered batch has that counts waits to be written."""
        self.until = batch.place
        if batch.has_ticks:
            self.settle_with_ticks(batch.counting(), batch.time)
            return
        if text := batch.counting_text():
            self.write_ticks()
            self.keep(octets_of([TIME % batch.time]) + text)

    def settle_with_ticks(self, lines, time_of_day):
        """Of lines with ticks among them: those in a row are counted, and the time of day stands before the first other line."""
        has_time = False
        for line in lines:
            if line.startswith("tick "):
                self.ticks += int(line[5:])
                continue
            self.write_ticks()
            if not has_time:
                self.keep(octets_of([TIME % time_of_day]))
                has_time = True
            self.keep(octets_of([line]))

    def keep(self, text):
        """Whole lines count."""
        self.settled.append(text)
        self.octets += len(text)
        self.counted += len(text)

    def keep_mark(self, line):
        """A comment counts, right after all that is settled; how many octets count up to its end."""
        self.write_ticks()
        self.keep(line)
        return self.counted

    def write_ticks(self):
        """Seconds in which nothing else happened are one line."""
        if self.ticks:
            self.keep(b"tick %d\n" % self.ticks)
            self.ticks = 0

    def is_due(self, now):
        """Whether something is to be written of what counts."""
        lags = self.until[0] > self.sure[0] or self.until[1] - self.written[1] > limits.SETTLED_OCTETS
        some = self.octets and now - self.due >= limits.SETTLED_SECONDS
        return some or lags or self.octets > limits.SETTLED_OCTETS

    def write_settled(self, now, at_once=False):
        """Writes what counts, and up to where what happened is settled. Where it syncs, that line comes once what counts is on
        disk: with the next turn, or at once."""
        if self.syncer is not None and at_once:
            self.sync_chunk()
        elif self.chunk is not None or not self.takes:
            return
        self.write_ticks()
        text = b"".join(self.settled) if self.syncer else b"".join(self.settled) + SETTLED_UNTIL % self.until
        if text:
            self.counts.add(text)
        self.settled, self.octets, self.due, self.chunk, self.counted_chunk = [], 0, now, self.until, self.counted
        if self.syncer is None:
            self.written, self.chunk = self.chunk, None
            self.sure = self.written
            self.counted_sure = self.counted_written = self.counted_chunk
            self.trim()
        elif at_once:
            self.sync_chunk()

    def sync_chunk(self):
        """Has what counts, as far as it is written, be on disk before it goes on."""
        if self.chunk is not None:
            self.counts.sync()
            self.end_chunk()

    def end_chunk(self):
        """What counts is on disk: says up to where what happened is settled. Then segments that are too many go, but none of what
        happened since a place up to which it is settled by a line that is on disk."""
        self.sure, self.counted_sure = self.written, self.counted_written
        self.counts.write(SETTLED_UNTIL % self.chunk)
        self.written, self.chunk, self.counted_written = self.chunk, None, self.counted_chunk
        self.trim()

    def trim(self):
        """Removes segments that are too many, but none that a start needs; without snapshots it needs all of what counts."""
        counts = self.counts.number if self.needed is None else self.needed
        for series, needed in ((self.happened, self.sure[0]), (self.counts, counts)):
            self.gone += [(series, path) for path in series.trim(needed)]

    def take_gone(self):
        """The segments that went since it was asked last, each with its series."""
        gone, self.gone = self.gone, []
        return gone

    def lengthen(self, head):
        """Both series have this head from now on."""
        for snapshot in numbered(self.path, SNAPSHOT).values():
            os.unlink(snapshot)  # since it is of the head before
        octets = self.form.text(head).encode("latin-1")
        if self.happened.is_whole:
            self.happened.lengthen(octets)
        self.counts.lengthen(octets)
        if self.syncer is not None:
            self.fault_of(self.sync_names)  # where there is one, the next turn has it

    @property
    def series(self):
        return self.happened, self.counts

    def roll(self, series):
        """Begins a new segment of a series, where no turn is under way."""
        if self.syncer is not None:
            self.sync_chunk()
        series.roll()

    def sync_names(self):
        """Has the files' names be on disk."""
        sync_path(folder_of(self.happened.path))
        for series in self.series:
            series.has_new_name = False

    # The end.

    def end(self, now):
        """All that happened is settled and on disk, and what stands beside it, where no turn is under way."""
        if self.takes:
            self.write_settled(now, at_once=True)
            for series in self.series:
                series.sync_all()
            for one in self.beside:
                os.fdatasync(one.file)
            self.sync_names()
            forget_unsynced(self.happened.path)

    def give_up(self):
        """The run goes on without it: no other takes it up any more, since what counts of it has another name, on the disk too."""
        path = self.happened.path + GIVEN_UP
        try:
            os.replace(self.counts.path, path)
        except FileNotFoundError:
            os.close(os.open(path, os.O_WRONLY | os.O_CREAT, 0o600))
        self.sync_names()

    def close(self):
        self.tell = lambda fault=None: None
        if self.syncer is not None:
            self.syncer.close()
            os.close(self.folder)
        for series in self.series:
            series.close()
