#!/usr/bin/env python3
"""Runs the program, and where it ends by a fault says why in words: `mme --explain ..`, `mme` at a terminal or with MME_EXPLAIN.

    explained.py PROGRAM WORD ..

What the program writes and its status stay as they are; the words come after its own text. A trace or script that comes by a pipe
is passed on as it comes, and its last lines are kept so that the one that was wrong can be shown.
"""
import collections
import contextlib
import os
import pathlib
import re
import select
import signal
import stat
import subprocess
import sys

sys.dont_write_bytecode = True
if __name__ == "__main__":
    sys.path[0] = str(pathlib.Path(__file__).resolve().parents[2])
from tools.program import lines
from tools.program.words import say

FAULT = re.compile(r"mme: line (\d+): fault ([1-7])")
READ_FAILED = "mme: read failed"
PIECE = 1 << 16  # octets of one read
KEPT = 1 << 20  # octets of the lines that are kept: more than a pipe and the program's own reads hold
STDIN = 0


class Passed:
    """The text that was passed on to the program, as far as the words for a fault need it."""

    def __init__(self, verb):
        self.reader, self.number, self.rest = lines.Reader(verb), 0, b""
        self.last, self.size = collections.deque(), 0

    def take(self, piece):
        """Takes what comes next."""
        *whole, self.rest = (self.rest + piece).split(b"\n")
        for line in whole:
            self.take_line(line)

    def take_line(self, line):
        self.number += 1
        self.reader.read(self.number, line)
        self.last.append((self.number, line))
        self.size += len(line) + 1
        while self.size > KEPT and len(self.last) > 1:
            self.size -= len(self.last.popleft()[1]) + 1

    def told(self, number, fault):
        """The words for this line's fault, or none where it isn't had."""
        self.take_line(self.rest)
        line = dict(self.last).get(number)
        wrong = self.reader.wrong(number, line, fault) if line is not None else None
        return lines.told(number, line, wrong) if wrong else []


def told_of_file(verb, path, begin, number, fault):
    """The words for the fault of a line of a file: it is read anew from where the program began, as far as that line."""
    reader = lines.Reader(verb)
    try:
        with open(path, "rb") as file:
            file.seek(begin)
            for at, line in enumerate(file, 1):
                line = line.removesuffix(b"\n")
                if at == number:
                    wrong = reader.wrong(number, line, fault)
                    return lines.told(number, line, wrong) if wrong else []
                reader.read(at, line)
    except OSError:
        pass
    return []


def why_unread(path):
    """Why a file can't be read, or None."""
    try:
        with open(path, "rb") as file:
            file.read(1)
    except OSError as fault:
        return fault.strerror
    return None


def write_whole(to, piece):
    """Writes all of it, or as much as somebody reads."""
    with contextlib.suppress(BrokenPipeError):
        while piece:
            piece = piece[os.write(to, piece):]


def pass_on(source, running, passed):
    """Passes standard input on as it comes, until it ends or the program does; returns what that said on standard error."""
    said, watched = b"", select.poll()
    to, err = running.stdin.fileno(), running.stderr.fileno()
    watched.register(source, select.POLLIN)
    watched.register(to, 0)
    watched.register(err, select.POLLIN)
    while True:
        ready = dict(watched.poll())
        if err in ready:
            piece = os.read(err, PIECE)
            if not piece:
                return said
            said += piece
        if to in ready:  # nobody reads any more
            break
        if source in ready:
            piece = os.read(source, PIECE)
            if not piece:
                break
            passed.take(piece)
            write_whole(to, piece)
    with contextlib.suppress(BrokenPipeError):
        running.stdin.close()
    return said + running.stderr.read()


def explain(said, verb, given, passed):
    """Says what the program's last text means; what it read is in what was passed on, or in a file from an octet on."""
    fault = FAULT.fullmatch(said)
    if fault:
        number, kind = int(fault[1]), int(fault[2])
        for text in passed.told(number, kind) if passed else told_of_file(verb, *given, number, kind):
            say(text)
    elif said == READ_FAILED and given is not None:
        why = why_unread(given[0])
        if why:
            say("%s: %s" % (given[0], why))


def file_of(words):
    """The file that the program reads, and the octet that it begins with; or None where it can't be read anew."""
    if len(words) == 2:
        return words[1], 0
    if len(words) == 1 and stat.S_ISREG(os.fstat(STDIN).st_mode):
        return "/proc/self/fd/%d" % STDIN, os.lseek(STDIN, 0, os.SEEK_CUR)
    return None


def start(program, words, **named):
    """Starts the program; a signal that would end this process is handed on to it."""
    running, early = [], []

    def stop(number, _frame=None):
        early.append(number)
        for one in running:
            one.send_signal(number)

    for each in (signal.SIGTERM, signal.SIGHUP, signal.SIGINT):
        signal.signal(each, stop)
    running.append(subprocess.Popen([program, *words], stderr=subprocess.PIPE, bufsize=0, **named))
    if early:
        stop(early[0])
    return running[0]


def run(program, words, verb, file):
    """Runs the program with these words; what it reads by them is a trace or a script, of this file or of standard input."""
    passed = Passed(verb) if verb and file is None else None
    running = start(program, words, stdin=subprocess.PIPE if passed else None)
    said = pass_on(STDIN, running, passed) if passed else running.stderr.read()
    status = running.wait()
    sys.stderr.buffer.write(said)
    sys.stderr.flush()
    if status < 0:
        say("stopped by %s; what was printed before stays" % signal.Signals(-status).name)
        return 128 - status
    explain(said.decode(errors="replace").removesuffix("\n"), verb, file, passed)
    return status


def main(given):
    program, *words = given
    verb = words[0] if words and words[0] in lines.WORDS and len(words) <= 2 else None
    return run(program, words, verb, file_of(words) if verb else None)


if __name__ == "__main__":
    sys.exit(main(sys.argv[1:]))
