"""Reads and writes that fail, each in turn, and those that move one octet, of `mme play` and `mme sim` to standard output from
standard input, and from a file.
"""
import tempfile

READ_FAILED, WRITE_FAILED = b"mme: read failed\n", b"mme: write failed\n"


def fault_of(ran, output, text, status):
    if ran.status != status or ran.text != text:
        return "status %d, %r" % (ran.status, ran.text[:60])
    return None if ran.output == output else "other output: %r" % ran.output[-60:]


class Failing:
    """A program's words, what it is given, and what it owes."""

    def __init__(self, shim, words, given, wanted):
        self.shim, self.words, self.given, self.wanted = shim, words, given, wanted
        self.after = {}  # what is owed, by the number of whole lines
        self.tried, self.otherwise = 0, []

    def must_be(self, what, output, text, status, **refusals):
        fault = fault_of(self.shim.ran(self.words, self.given, **refusals), output, text, status)
        self.tried += 1
        if fault:
            self.otherwise.append("%s: %s" % (what, fault))

    def owed(self, count):
        """What is owed for the lines that end in the first octets, this number of them."""
        lines = self.given[:count].rpartition(b"\n")
        whole = len(lines[0] + lines[1])
        if whole not in self.after:
            self.after[whole] = self.shim.ran(self.words, self.given[:whole]).output
            if not self.wanted.startswith(self.after[whole]):
                self.otherwise.append("other output for %d octets" % whole)
        return self.after[whole]

    def one_octet_each(self):
        """One octet a read, one a write, and both: nothing is changed."""
        for refusals in ({"NARROW_READ": 1}, {"NARROW_WRITE": 1}, {"NARROW_READ": 1, "NARROW_WRITE": 1}):
            ran, counts = self.shim.counted(self.words, self.given, **refusals)
            fault = fault_of(ran, self.wanted, b"", 0)
            wanted = len(self.given) + 1 if "NARROW_READ" in refusals else 0, len(self.wanted) if "NARROW_WRITE" in refusals else 0
            if counts.reads < wanted[0] or counts.writes < wanted[1]:
                fault = fault or "%d reads, %d writes" % (counts.reads, counts.writes)
            self.tried += 1
            if fault:
                self.otherwise.append("%s: %s" % (refusals, fault))

    def reads(self):
        """Each read fails: what stands in the lines before it is answered, and no more."""
        for failed in range(1, len(self.given) + 2):
            self.must_be("read %d of one octet" % failed, self.owed(failed - 1), READ_FAILED, 3, NARROW_READ=1, FAIL_READ=failed)
        _, counts = self.shim.counted(self.words, self.given)
        for failed in range(1, counts.reads + 1):
            at = 0 if failed == 1 else len(self.given)
            self.must_be("read %d" % failed, self.owed(at), READ_FAILED, 3, FAIL_READ=failed)

    def reads_of_file(self):
        """The same from a file that is named; one octet a read changes nothing there."""
        with tempfile.NamedTemporaryFile() as file:
            file.write(self.given)
            file.flush()
            from_file = Failing(self.shim, self.words + [file.name], self.given, self.wanted)
            from_file.one_octet_each()
            _, counts = self.shim.counted(from_file.words, b"")
            for failed in range(1, counts.reads + 1):
                at = 0 if failed == 1 else len(self.given)
                from_file.must_be("read %d of a file" % failed, self.owed(at), READ_FAILED, 3, FAIL_READ=failed)
        self.tried += from_file.tried
        self.otherwise += from_file.otherwise

    def writes(self):
        """Each write fails, with those after it: what went before it stays, and no more."""
        for failed in range(1, len(self.wanted) + 1):
            self.must_be("write %d of one octet" % failed, self.wanted[:failed - 1], WRITE_FAILED, 3, NARROW_WRITE=1,
                         FAIL_WRITE=failed, LASTING=1)
        for more in ({"NARROW_WRITE": 1}, {}, {"NARROW_READ": 1}):
            self.one_write(**more)

    def one_write(self, **more):
        """Each write fails alone: what is written is the first of what is owed, with all that went before. What was kept back may
        be written as the program ends."""
        _, counts = self.shim.counted(self.words, self.given, **more)
        before = 0
        for failed in range(1, counts.writes + 1):
            ran = self.shim.ran(self.words, self.given, FAIL_WRITE=failed, **more)
            self.tried += 1
            least = failed - 1 if "NARROW_WRITE" in more else before
            if ran.status != 3 or ran.text != WRITE_FAILED or not self.wanted.startswith(ran.output) or len(ran.output) < least:
                self.otherwise.append("write %d alone, %s: status %d, %r, %d octets" % (
                    failed, more, ran.status, ran.text[:60], len(ran.output)))
            before = len(ran.output)
