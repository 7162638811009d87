"""A trace that is still written, as tools/front writes it: its lines in all segments as they come, the answers of an `mme play` of
one's own to each event, and the times of day that stand in it as comments. Nothing here is part of a proof."""
import bisect
import calendar
import glob
import os
import re
import subprocess
import time

from tools import runs

TIME = re.compile(rb"# time (\d{4}-\d\d-\d\d \d\d:\d\d:\d\d)\.(\d{3})$")
PAUSE = 0.1  # seconds between two looks at a trace that has no more lines for now
MILLION = 10**6


def clock_of(line):
    """The microseconds since 1970 that a comment says, or nothing where the line is none of these: nor is a day or an hour that
    there isn't, and a time before."""
    found = TIME.match(line)
    try:
        second = calendar.timegm(time.strptime(found[1].decode(), "%Y-%m-%d %H:%M:%S")) if found else -1
    except ValueError:
        second = -1
    return (second * 1000 + int(found[2])) * 1000 if second >= 0 else None


def clock_text(clock):
    """The time of day of microseconds since 1970, in UTC and to the millisecond."""
    return "%s.%03d" % (time.strftime("%H:%M:%S", time.gmtime(clock // MILLION)), clock % MILLION // 1000)


class Clocks:
    """The times of day of a trace, by the lines after which they stand."""

    def __init__(self, octets, first=""):
        self.lines, self.times = [], []
        begun = clock_of(b"# time %s" % first.encode())
        if begun is not None:
            self.lines.append(0)
            self.times.append(begun)
        if b"# time " in octets:
            for number, line in enumerate(octets.split(b"\n"), 1):
                told = clock_of(line)
                if told is not None:
                    self.lines.append(number)
                    self.times.append(told)

    @classmethod
    def of(cls, path, trace):
        """Those of a trace by its path; of a log that is read from a snapshot on, from when that was made."""
        if trace.rest:
            return cls(trace.rest.octets, trace.rest.made)
        return cls(b"" if path == "-" else runs.read_file(path))

    def at(self, line):
        """The time of an event by its line, or nothing where none stands before it."""
        place = bisect.bisect(self.lines, line)
        return self.times[place - 1] if place else None


def lines_of(path, is_over):
    """The whole lines of a trace and of its earlier segments, without end until it is over; nothing where none is there for now."""
    for older in sorted(glob.glob(glob.escape(path) + ".segment.*")):
        with open(older, "rb") as file:
            yield from (line.rstrip(b"\n") for line in file)
    rest, file = b"", open(path, "rb")
    while True:
        piece = file.read(1 << 16)
        *lines, rest = (rest + piece).split(b"\n")
        yield from lines
        if piece:
            continue
        if is_replaced(file, path):
            file.close()
            rest, file = b"", open(path, "rb")
        elif is_over():
            file.close()
            return
        else:
            yield None
            time.sleep(PAUSE)


def is_replaced(file, path):
    """Whether another file stands at the path now, so that the one that is read has no more."""
    try:
        there = os.stat(path)
    except FileNotFoundError:
        return False
    mine = os.fstat(file.fileno())
    return (there.st_dev, there.st_ino) != (mine.st_dev, mine.st_ino) and file.tell() == mine.st_size


class Playing:
    """An `mme play` that is given lines as they come. After each event it is given data for nobody, which it refuses."""

    def __init__(self, program):
        self.imsis, self.second = [], 0
        try:
            self.process = subprocess.Popen([program, "play"], stdin=subprocess.PIPE, stdout=subprocess.PIPE)
        except OSError as fault:
            raise runs.Fault("%s: %s" % (program, fault.strerror)) from None

    def step(self, text):
        """The step of an event's line, with the answers; nothing for a line of the head."""
        word, fields = runs.fields_of(text, runs.WORDS)
        if runs.lacks_keys([text]):
            raise runs.Fault(runs.NO_KEYS + ": so it can't be followed")
        if word in runs.PROVISIONING:
            self.imsis += [fields[0]] if word == "sub" else []
            self.give(text)
            return None
        step = runs.Step(runs.event_of(None, word, fields), self.second)
        mark = b"data " + runs.unknown_imsi(self.imsis).encode()
        self.second = step.end
        self.give(text, mark)
        for line in self.process.stdout:
            for answer in runs.read_answers(line, "the program's answers"):
                if answer.fault == runs.UNKNOWN_IMSI:
                    return step
                step.answers.append((self.second, answer))
        raise runs.Fault("the program ended before the trace did")

    def give(self, *lines):
        try:
            self.process.stdin.write(b"".join(line + b"\n" for line in lines))
            self.process.stdin.flush()
        except BrokenPipeError:
            raise runs.Fault("the program ended before the trace did") from None

    def close(self):
        self.process.stdin.close()
        self.process.wait()
        self.process.stdout.close()
