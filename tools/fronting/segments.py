"""A series of files that together are one trace: PATH is the one that is written, PATH.segment.000001 and so on are those before
it, in their order. A file's own number stands in the line that ends the head of the first, or begins a further one."""
import errno
import mmap
import os
import pathlib
import re
import time

from tools import runs

from tools.fronting.faults import Failed, LOG_FAILS, WRONG, told
from tools.fronting.syncing import folder_of, sync_path

NUMBERED = re.compile(rb"^# segment (\d+), begun .*\n", re.MULTILINE)
NUMBERED_LINE = re.compile(r"# segment \d+, begun ")  # the beginning of such a line
SEGMENT = b"# segment "
DIGITS = 6
SNAPSHOT = ".snapshot."  # after a log's name, before a snapshot's number (snapshots.py)
NEW = ".new"  # after a series' name, before the file has that
PIECE = 1 << 17  # octets that are read at once


def name_of(path, number):
    """Where a segment stands that is written no more."""
    return "%s.segment.%0*d" % (path, DIGITS, number)


def line_of(number, note=""):
    """The line of a segment's number, with a note on what it has."""
    return b"# segment %d, begun %s\n" % (number, (time.strftime("%F %T UTC", time.gmtime()) + note).encode())


def own_line(octets):
    """The line of its number in a segment, or nothing."""
    at = 0 if octets[:len(SEGMENT)] == SEGMENT else octets.find(b"\n" + SEGMENT) + 1
    while octets[at:at + len(SEGMENT)] == SEGMENT and not (found := NUMBERED.match(octets, at)):
        at = octets.find(b"\n" + SEGMENT, at) + 1 or len(octets)
    return found if octets[at:at + len(SEGMENT)] == SEGMENT else None


def older_segments(path):
    """The segments before the one that is written, by number."""
    return numbered(path, ".segment.")


def numbered(path, mark):
    """The files whose names are that of another, a mark and a number, by number."""
    prefix = os.path.basename(path) + mark
    folder = pathlib.Path(path).parent
    found = [entry.name for entry in folder.iterdir() if entry.name.startswith(prefix)] if folder.is_dir() else []
    return {int(name[len(prefix):]): str(folder / name) for name in found if re.fullmatch("[0-9]+", name[len(prefix):])}


def whole_series(path):
    """The files of a series in their order, where the first of them is there."""
    older = sorted(older_segments(path).items())
    with open(path, "rb") as file:
        found = NUMBERED.match(file.readline())  # a first segment begins with a head
    numbers = [number for number, _ in older] + [int(found[1]) if found else 1]
    if numbers != list(range(1, len(numbers) + 1)):
        why = ": `tools/front play` plays it from a snapshot on" if numbered(path, SNAPSHOT) else ""
        raise runs.Fault("%s isn't whole: its segments are %s%s" % (path, ", ".join(map(str, numbers)), why))
    return [name for _, name in older] + [path]


def add_whole(file, octets, size):
    """Adds octets to a file of this size, whole; or none of them, and raises the system's fault. How many they are."""
    added = 0
    try:
        while added < len(octets):
            added += os.write(file, octets[added:] if added else octets)
    except OSError:
        os.ftruncate(file, size)
        raise
    return added


def open_new(path):
    """A new file for its owner alone, since vectors may be in it."""
    return os.open(path, os.O_RDWR | os.O_CREAT | os.O_EXCL | os.O_APPEND, 0o600)


def mend(path):
    """Ends what a crash broke off between the two names of a new segment: the new file gets its name, whatever it had since, or
    where it was lost with what it had, the one before goes on."""
    older, new = older_segments(path), pathlib.Path(path + NEW)
    if not older or os.path.lexists(path) or not new.is_file():
        return
    begun = new.read_bytes()
    found = NUMBERED.match(begun)
    if found and int(found[1]) == max(older) + 1:
        os.replace(new, path)
    elif not begun.strip(b"\0"):
        os.replace(older[max(older)], path)


class Series:
    """What one run writes, in segments of a size, of which a number is kept. Where it syncs, `safe` is how much of the file that is
    written is known to be on disk, and `unsafe` what was written since. After a fault of a sync the system may take that for
    written though it isn't, so then it is cut off and written again before the next one."""

    def __init__(self, path, what, size, most, head=None, note=""):
        self.path, self.what, self.most_octets, self.most, self.note = str(path), what, size, most, note
        self.is_whole = True  # whether all of it since the start is there
        self.number, self.first, self.head = 1, 1, head
        self.file, self.size, self.base = None, 0, 0
        self.syncs, self.is_suspect, self.has_new_name = False, False, False
        self.safe, self.unsafe = 0, []
        if head is not None:
            self.begin(head)

    @classmethod
    def taken_up(cls, path, what, size, most, number, first, note=""):
        """The series that stands there, to be written on."""
        series = cls(path, what, size, most, note=note)
        series.number, series.first = number, first
        series.file = os.open(path, os.O_RDWR | os.O_APPEND)
        series.size = os.fstat(series.file).st_size
        with mmap.mmap(series.file, 0, access=mmap.ACCESS_READ) as octets:
            series.base = own_line(octets).end()
        return series

    def begin(self, head=b""):
        """Opens a file for what comes, with the line of its number; where that can't be, there is none."""
        octets = head + line_of(self.number, self.note)
        try:
            file = open_new(self.path)
        except FileExistsError:
            raise Failed("%s: there is one already: move it away, or keep it by --keep" % self.path, WRONG) from None
        except OSError as fault:
            raise Failed("%s: %s" % (self.path, told(fault)), WRONG if self.file is None else LOG_FAILS) from None
        try:
            add_whole(file, octets, 0)
        except OSError as fault:
            os.close(file)
            os.unlink(self.path)
            raise Failed("%s: %s" % (self.path, told(fault)), LOG_FAILS) from None
        if self.file is not None:
            os.close(self.file)
        self.file, self.size, self.base = file, len(octets), len(octets)
        self.safe, self.unsafe = 0, [octets] if self.syncs else []
        self.has_new_name, self.is_suspect = True, False

    @property
    def place(self):
        """Where the next line comes: the segment, and the octets after the line of its number."""
        return self.number, self.size - self.base

    def write(self, octets):
        """Adds octets whole, or none of them and raises the system's fault."""
        self.size += add_whole(self.file, octets, self.size)
        if self.syncs:
            self.unsafe.append(octets)

    def make_room(self):
        """Begins a new segment where the one that is written has its size."""
        if self.size >= self.most_octets:
            self.roll()

    def add(self, octets):
        """Adds whole lines."""
        self.make_room()
        self.write(octets)

    # On disk.

    def sync_all(self):
        """Has all its segments be on disk; the folder isn't synced."""
        for path in self.paths():
            sync_path(path)
        self.is_on_disk()

    def is_on_disk(self):
        """What is written is on disk."""
        self.safe, self.unsafe, self.is_suspect = self.size, [], False

    def write_again(self):
        """Writes what isn't safe again, where a sync of it had a fault."""
        if self.is_suspect:
            os.ftruncate(self.file, self.safe)
            unsafe, self.size, self.unsafe = self.unsafe, self.safe, []
            try:
                self.write(b"".join(unsafe))
            except OSError:
                self.unsafe = unsafe
                raise
            self.is_suspect = False

    def sync(self):
        """Has what is written be on disk before it goes on."""
        self.write_again()
        try:
            os.fdatasync(self.file)
        except OSError:
            self.is_suspect = True
            raise
        self.is_on_disk()

    # Segments.

    def roll(self):
        """Begins a new segment; where that can't be, nothing changes. Where it syncs, all before is on disk first."""
        line, new, older = line_of(self.number + 1, self.note), self.path + NEW, name_of(self.path, self.number)
        if self.syncs:
            self.sync()
        pathlib.Path(new).unlink(missing_ok=True)
        file = open_new(new)
        try:
            if os.write(file, line) < len(line):
                raise OSError(errno.ENOSPC, os.strerror(errno.ENOSPC))
            self.rename(file, new, older)
        except OSError:
            os.close(file)
            pathlib.Path(new).unlink(missing_ok=True)
            raise
        os.close(self.file)
        self.file, self.number = file, self.number + 1
        self.size = self.base = len(line)
        self.has_new_name = True
        self.is_on_disk()

    def rename(self, file, new, older):
        """Has the new file stand in the place of the one that is written, which gets its number. Where it syncs, the first name is
        on disk before the second is given, so that neither file is ever without one."""
        if self.syncs:
            os.fsync(file)
        os.replace(self.path, older)
        try:
            if self.syncs:
                sync_path(folder_of(self.path))
            os.replace(new, self.path)
        except OSError:
            os.replace(older, self.path)
            raise

    def trim(self, needed):
        """Removes the segments that are too many, but none from the needed one on; those that went."""
        gone = []
        while self.number - self.first >= self.most and self.first < needed:
            gone.append(name_of(self.path, self.first))
            pathlib.Path(gone[-1]).unlink(missing_ok=True)
            self.first, self.is_whole = self.first + 1, False
        return gone

    def check(self):
        """What happened to the file that is written, if it was moved or cut. Then it goes on in a new one, and as the number of
        what is missing stays free, the series isn't whole any more."""
        mine = os.fstat(self.file)
        try:
            there = os.stat(self.path)
        except FileNotFoundError:
            there = None
        if there is None:
            self.go_on()
            return "was moved"
        if (there.st_dev, there.st_ino) != (mine.st_dev, mine.st_ino):
            raise Failed("%s: another file stands in its place" % self.path, LOG_FAILS)
        if self.is_cut:
            os.replace(self.path, name_of(self.path, self.number))
            self.number += 1
            self.go_on()
            return "was cut"
        return None

    @property
    def is_cut(self):
        """Whether the file that is written has less than was written to it."""
        return os.lseek(self.file, 0, os.SEEK_END) < self.size

    def go_on(self):
        """A new file after something that is missing."""
        self.number, self.is_whole = self.number + 1, False
        self.begin()

    def paths(self):
        """The files of the series, in their order."""
        return [path for _, path in sorted(older_segments(self.path).items())] + [self.path]

    def octets(self):
        """How large it is altogether."""
        return self.size + sum(os.path.getsize(path) for path in older_segments(self.path).values())

    def lengthen(self, head):
        """Gives the first segment another head, in the place of its own."""
        path = self.path if self.number == 1 else name_of(self.path, 1)
        whole = pathlib.Path(path).read_bytes()
        end = NUMBERED.search(whole).start()
        new = path + NEW
        pathlib.Path(new).unlink(missing_ok=True)
        file = open_new(new)
        try:
            with os.fdopen(os.dup(file), "wb") as writing:
                writing.write(head + whole[end:])
            if self.syncs:
                os.fsync(file)
            os.replace(new, path)
        except OSError:
            os.close(file)
            pathlib.Path(new).unlink(missing_ok=True)
            raise
        self.has_new_name = True
        if self.number > 1:
            os.close(file)
            return
        os.close(self.file)
        self.file, self.size, self.base = file, len(head) + len(whole) - end, self.base - end + len(head)
        self.is_on_disk()

    def remove(self):
        """Nothing was written to it but its head."""
        self.close()
        os.unlink(self.path)

    def close(self):
        os.close(self.file)
