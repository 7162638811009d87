"""The calculator (tests/parts/calculator.py) with each of its allocations refused, as `rt try --fail-alloc` builds it.

`rt try` builds anew for each number of an allocation that is to be refused. The number stands as a constant in what is built, so
that it is built once; refusing.c takes the place of the comparisons with it.
"""
import os
import pathlib
import subprocess
import tempfile

from tests.parts import calculator
from tests.refused import shimmed
from tools.program import tried
from tools.program.words import Failed

AGAIN = "again"  # the calculator's word for making each refused call again
PATIENCE = 3600  # seconds for all runs on one input, which give way to all else in the gate


class Program:
    """The calculator with some words."""

    def __init__(self, folder, *words):
        self.words = [calculator.program(), *words]
        self.library = shimmed.built(folder, "refusing", "-DNONE=%d" % tried.NONE)

    def ran(self, given):
        """A run with ample memory."""
        done = subprocess.run(self.words, input=given, capture_output=True, timeout=PATIENCE, check=False)
        return shimmed.Ran(done.stdout, done.stderr, done.returncode)

    def each_refused(self, given):
        """A run with ample memory, and one for each of its allocations, in turn, in which that one is refused."""
        with tempfile.TemporaryDirectory() as name:
            folder = pathlib.Path(name)
            status = self.status_in(folder, given)
            statuses = dict(map(int, line.split()) for line in (folder / "statuses").read_text().splitlines())
            if not statuses or sorted(statuses) != list(range(1, len(statuses) + 1)):
                raise Failed("status %d, and not one for each allocation: %s" % (status, sorted(statuses)))
            for number, status in sorted({0: status, **statuses}.items()):
                output, text = ((folder / ("%s.%d" % (file, number))).read_bytes() for file in ("output", "text"))
                yield shimmed.Ran(output, text, status)

    def status_in(self, folder, given):
        """Makes these runs, whose files stand in the folder then; the status of the one with ample memory."""
        (folder / "given").write_bytes(given)
        environment = {**os.environ, "LD_PRELOAD": str(self.library)}
        with (open(folder / "given", "rb") as read, open(folder / "output.0", "wb") as output,
              open(folder / "text.0", "wb") as text):
            return subprocess.run(self.words, cwd=folder, env=environment, stdin=read, stdout=output, stderr=text, timeout=PATIENCE,
                                  check=False).returncode
