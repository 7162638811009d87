"""What a source says on standard error, a line each. A reader that doesn't read keeps nobody waiting."""
import contextlib
import os
import select

from tools import versions

PLACE = 2  # standard error
LONGEST = 2000  # characters of a line; what can be written is written whole (pipe(7), PIPE_BUF)


class Voice:
    """Says lines. What can't be written at once is left out, and how many lines that were is said in their place."""

    def __init__(self):
        self.left_out = 0

    def say(self, text):
        with contextlib.suppress(OSError):  # nobody can read it any more
            if not select.select([], [PLACE], [], 0)[1]:
                self.left_out += 1
                return
            if self.left_out:
                self.write("%d lines weren't read and are left out" % self.left_out)
                self.left_out = 0
            self.write(text)

    @staticmethod
    def write(text):
        line = "%s: %s" % (versions.called(), versions.visible(versions.as_called(text)))
        os.write(PLACE, line[:LONGEST].encode(errors="replace") + b"\n")
