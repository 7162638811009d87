#!/usr/bin/env python3
"""A source of vectors for kills.py: supplying.py FILE RECORD. It supplies each line `vec` of FILE once, those of a phone in their
order, whatever SQN the phone has; RECORD has how many, before they are told. One that begins waits for the one before to end."""
import collections
import fcntl
import pathlib
import sys


def main(path, record):
    left = collections.defaultdict(collections.deque)
    for line in pathlib.Path(path).read_text(encoding="ascii").splitlines(keepends=True):
        left[line.split(" ", 2)[1]].append(line)
    with open(record, "a+", encoding="ascii") as file:
        fcntl.flock(file, fcntl.LOCK_EX)
        file.seek(0)
        for line in file:
            imsi, count = line.split(" ")
            for _ in range(int(count)):
                left[imsi].popleft()
        for line in sys.stdin:
            _, imsi, count, *_ = line.split(" ")
            lines = [left[imsi].popleft() for _ in range(min(int(count), len(left[imsi])))]
            file.write("%s %d\n" % (imsi, len(lines)))
            file.flush()
            sys.stdout.write("".join(lines) + ("later %s\n" % imsi if len(lines) < int(count) else ""))
            sys.stdout.flush()


if __name__ == "__main__":
    main(*sys.argv[1:])
