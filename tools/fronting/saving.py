"""Saves the MME beside a log in files, every so often (making.py) and at an orderly end; the last two snapshots are kept.

A snapshot gets its name once what counts is on disk up to its place and a line that says so; only then segments that no start needs
may go.
"""
import contextlib
import math
import os
import time
import typing

from tools.fronting import limits
from tools.fronting.faults import Failed, told
from tools.fronting.journal import clock
from tools.fronting.making import KEPT, NOT_SAVED, Making
from tools.fronting.segments import SNAPSHOT, numbered, open_new
from tools.fronting.snapshots import InFile, drawn, lines_of_segments, mark_line, name_of, write
from tools.fronting.syncing import folder_of, sync_path
from tools.fronting.used import vector_of

END = ".snapshot.new"  # of the name of one that isn't whole yet
PER_SUBSCRIBER, PER_VECTOR, LEAST = 400, 140, 1 << 16  # octets that a snapshot has at the most, but for rare states


class Moment(typing.NamedTuple):
    """What a snapshot is of: how many octets count up to its place, its number, the segment of what counts that it stands in, and
    what is said of it."""
    counted: int
    number: int
    segment: int
    about: dict


class Saving(Making):
    """Makes the snapshots of a front whose log is in files."""

    def __init__(self, front):
        super().__init__(front)
        self.path = front.settings.log + END
        self.kept = []  # of those that are kept the number and the segment, the older first
        self.number = 0  # of the last one
        self.written = None  # what waits for its name

    # What the front tells.

    def leave_out(self, used, before, after):
        """Of these lines of the subscribers' file the run has others: without vectors that were used."""
        kept = set(after)
        self.left_out = used.among({vector_of(line) for line in before if line not in kept})

    def begin_anew(self):
        self.kept, self.counted, self.left_out = [], 0, set()

    def has_taken(self, number, snapshot, octets):
        """The run goes on after this snapshot, with so many octets of what counts since."""
        self.kept, self.counted = [(number, snapshot.about["counts"][0])], -octets

    def write_to(self, journal):
        """What happens stands in this log."""
        if self.rule:
            numbers = numbered(self.front.settings.log, SNAPSHOT)
            self.number, self.saved_at = max(numbers, default=0), time.monotonic()
            if not self.kept:
                self.counted = -journal.counts.octets()
            self.need(journal)
            self.front.exchange.program.stays = True
            remove(self.path)

    def need(self, journal):
        """Says which segments a start needs: all from the older snapshot on, and from the beginning where there are no two."""
        journal.needed = self.kept[0][1] if len(self.kept) == KEPT else 1

    def told(self):
        """The number of the last one, its octets, the seconds that it took, and how old it is."""
        if not self.kept:
            return {}
        return {"snapshot": {"number": self.kept[-1][0], "octets": self.octets, "seconds": round(self.seconds, 3),
                             "age": round(time.monotonic() - self.saved_at, 1)}}

    def covers(self, series):
        return bool(self.rule) and self.journal is not None and series is self.journal.counts

    def octets_of_log(self):
        return self.journal.counted

    # When one is made.

    @property
    def is_free(self):
        return self.written is None and super().is_free

    def look(self):
        """One that was made gets its name, and one that is due is made."""
        if self.written is not None and self.journal is not None:
            self.settle(time.monotonic())
        super().look()

    def hurry(self):
        """A part of the log is missing: what is under way is of no use, and the next one is due at once."""
        if self.rule:
            self.stop()
            self.counted, self.again = -math.inf, 0.0

    # How it is made.

    def check_room(self):
        """Refuses to begin where the disk has less than twice the room that is needed: the log goes before."""
        phones = self.front.stock.phones
        needed = LEAST + PER_SUBSCRIBER * phones.total() + PER_VECTOR * sum(left * count for left, count in phones.items())
        room = os.statvfs(folder_of(self.path))
        if room.f_bavail * room.f_frsize < 2 * max(needed, self.octets):
            raise OSError(0, "the disk has less room than two of them need")

    def begin_one(self):
        self.check_room()
        return self.begin_file(self.ups())

    def begin_file(self, ups):
        """A new file, and what it is to be of; what counts has its line then."""
        remove(self.path)
        file, number, mark, journal = open_new(self.path), self.number + 1, drawn(), self.journal
        place = journal.counts.place
        counted = journal.keep_mark(mark_line(number, mark))
        about = {"number": number, "mark": mark, "made": clock(), "counts": place, "happened": journal.until, "up": ups,
                 "begun": self.front.begun, "provisioning": self.provisioned.told(), "used": self.front.used.told()}
        self.number = number
        return file, Moment(counted, number, place[0], about)

    def save(self, file, moment):
        about = {**moment.about, "segments": lines_of_segments(self.journal.counts.path)}
        write(InFile(file), about, self.known(), self.front.exchange.program.mme.parts(), self.key)

    def is_made(self):
        self.written = self.moment

    def discard(self):
        remove(self.path)

    def say_fault(self, why):
        if self.journal is not None:
            self.front.voice.say("no_snapshot", "no snapshot can be made, so that no segment of %s goes: %s" % (
                self.journal.counts.path, why))

    # Its name.

    def settle(self, now):
        """Gives the snapshot that is written its name, once what counts is on disk up to it."""
        journal = self.journal
        if journal.counted_sure < self.written.counted:
            try:
                journal.write_settled(now)
            except (OSError, Failed) as fault:
                self.front.exchange.log_fails(fault)
            return
        moment, self.written = self.written, None
        try:
            os.replace(self.path, name_of(self.front.settings.log, moment.number))
        except OSError as fault:
            self.has_fault(told(fault))
            return
        if journal.syncer is None:
            self.has_name(moment, None)
        else:
            journal.syncer.sync([(os.fsync, journal.folder)], lambda fault: self.has_name(moment, fault))

    def has_name(self, moment, fault):
        """Its name is on disk: the last two are kept."""
        if fault is not None:
            self.has_fault(told(fault))
            return
        log, self.why_not = self.front.settings.log, None
        self.octets = os.path.getsize(name_of(log, moment.number))
        self.kept = [*self.kept, (moment.number, moment.segment)][-KEPT:]
        if len(self.kept) == KEPT:
            numbers = [number for number, _ in self.kept]
            for number, path in numbered(log, SNAPSHOT).items():
                if number not in numbers:
                    remove(path)
        if self.journal is not None:
            self.need(self.journal)

    # The end.

    def begin_end(self):
        """The run ends: what counts has the line of a last snapshot, where the MME has answered all and ends in order."""
        self.stop()
        exchange = self.front.exchange
        has_all = self.rule and self.front.crowd is not None and exchange.journal is not None and exchange.is_quiet
        if not has_all or exchange.program.status != 0:
            return
        try:
            file, self.written = self.begin_file([])
            os.close(file)
        except OSError as fault:
            self.has_fault(told(fault))

    def end(self):
        """Makes the last snapshot, where what counts is on disk with its line."""
        moment, self.written = self.written, None
        if moment is None or self.journal is None or self.journal.counted_written < moment.counted:
            return
        try:
            self.check_room()
            file = os.open(self.path, os.O_WRONLY)
            try:
                self.save(file, moment)
            finally:
                os.close(file)
            os.replace(self.path, name_of(self.front.settings.log, moment.number))
            sync_path(folder_of(self.path))
            self.has_name(moment, None)
        except (OSError, self.front.package.Refused) as fault:
            remove(self.path)
            self.has_fault(told(fault) if isinstance(fault, OSError) else NOT_SAVED)

    def stop(self):
        self.written = None
        super().stop()


def remove(path):
    """Removes a file that may be there."""
    with contextlib.suppress(FileNotFoundError):
        os.unlink(path)
