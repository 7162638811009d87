#!/usr/bin/env python3
"""What runs beside the proofs of the gate, and begins with a crate once `rt ci` has proved it.

    beside.py LOG CRATE WORD ..    becomes the command WORD .. once the `rt ci` that writes LOG has proved the crate; where that ends
                                   without it, its status is 1
"""
import os
import re
import sys
import time

# What `rt ci` says of a crate that it proved, or proved in an earlier run; its last line; and seconds between two looks at it.
PROVED = re.compile(r"^rt: (\w+) (?:proved|is kept: .*)\n")
ENDED = re.compile(r"^\d+ passed, \d+ failed")
BETWEEN_LOOKS = 0.5


def proved_in(log):
    """Gives the name of each crate once the `rt ci` that writes this log has proved it, until that ends."""
    line = ""
    with open(log, encoding="utf-8", errors="replace") as lines:
        while not ENDED.match(line):
            # (what is written so far may end within a line)
            line = lines.readline() if line.endswith("\n") else line + lines.readline()
            told = PROVED.match(line)
            if told:
                yield told[1]
            elif not line.endswith("\n"):
                time.sleep(BETWEEN_LOOKS)


def wait_for(log, crate):
    """Returns once the `rt ci` that writes this log has proved a crate, or has ended: whether it has proved it."""
    return any(name == crate for name in proved_in(log))


def main(log, crate, *words):
    if not wait_for(log, crate):
        sys.exit(1)
    os.execvp(words[0], words)


if __name__ == "__main__":
    main(*sys.argv[1:])
