"""Each allocation refused in turn: to `mme play` and `mme sim`, to the calculator's calls, and to the calculator as it makes each
refused call again.
"""
import collections

NO_MEMORY = b"mme: out of memory\n"
REFUSED_LINE, REFUSED_CALL = "wrong line: out of memory", "fault NoMemory"
# Who was refused, where it is no call.
OWN, NOBODY = "the program's own", "nobody"


def played(shim, words, given, wanted):
    """A run of the MME for each of its allocations: how many there were, how many runs were whole, and what went otherwise.

    Status 4 with its text and the first of the answers; or status 0 and all of them, where room is asked for once more.
    """
    ran, counts = shim.counted(words, given)
    otherwise = [] if ran == (wanted, b"", 0) else ["with ample memory: status %d, %r" % (ran.status, ran.text[:60])]
    whole = 0
    for refused in range(1, counts.allocations + 1):
        ran = shim.ran(words, given, REFUSE=refused)
        if ran == (wanted, b"", 0):
            whole += 1
        elif ran.status != 4 or ran.text != NO_MEMORY or not wanted.startswith(ran.output):
            otherwise.append("allocation %d: status %d, %r" % (refused, ran.status, ran.text[:60]))
    return counts.allocations, whole, otherwise


def asked(calls):
    """What the calculator reads."""
    return "".join(call + "\n" for call in calls).encode()


class Calculated:
    """The calculator over rows of tests/parts. Where a call answers that there is no memory, all after it is answered as if it
    hadn't been made. Where the calculator says so, the call was refused, or the text of its answer: then all after it is answered
    as if it hadn't been made, or as if it had.
    """

    def __init__(self, program, rows):
        self.program = program
        self.calls = [call for _, call, _, _ in rows]
        self.wanted = [answer for _, _, _, answer in rows]
        self.without = {}  # what is answered where a call is left out, by its place
        self.told = collections.Counter()

    def answers_without(self, place):
        if place not in self.without:
            ran = self.program.ran(asked(self.calls[:place] + self.calls[place + 1:]))
            self.without[place] = ran.output.decode().splitlines()
        return self.without[place]

    def judged(self, ran):
        """Who was refused in a run, and what went otherwise."""
        lines = ran.output.decode().splitlines()
        if ran.status:
            whole = self.wanted[:len(lines)] == lines
            return OWN, None if ran.status == 1 and whole else "status %d, %r" % (ran.status, ran.text[:60])
        place = next((at for at, (got, wanted) in enumerate(zip(lines, self.wanted)) if got != wanted), None)
        if place is None:
            return NOBODY, None if len(lines) == len(self.wanted) else "%d lines" % len(lines)
        if lines[place] not in (REFUSED_LINE, REFUSED_CALL):
            return NOBODY, "%r is answered %r" % (self.calls[place], lines[place])
        return "the line" if lines[place] == REFUSED_LINE else "the call", self.change(place, lines)

    def change(self, place, lines):
        """What a refused call has changed."""
        others = lines[:place] + lines[place + 1:]
        was_made = lines[place] == REFUSED_LINE and others == self.wanted[:place] + self.wanted[place + 1:]
        if not was_made and others != self.answers_without(place):
            return "%r was refused and has changed something" % self.calls[place]
        return None

    def faults(self):
        """How many allocations there were, and what went otherwise."""
        otherwise, refused = [], 0
        for refused, ran in enumerate(self.program.each_refused(asked(self.calls))):
            who, fault = self.judged(ran)
            if not refused and (fault or who != NOBODY):
                return 0, ["with ample memory: %s" % (fault or "%s was refused" % who)]
            if fault:
                otherwise.append("allocation %d: %s" % (refused, fault))
            self.told[who] += bool(refused)
        return refused, otherwise


def called_again(program, given, wanted):
    """A run that makes refused calls again for each of its allocations: how many there were, the calls that were refused, and what
    went otherwise. It prints the answers, whatever is refused, and one call alone is told."""
    otherwise, calls, refused = [], collections.Counter(), 0
    for refused, ran in enumerate(program.each_refused(given)):
        told = ran.text.decode().split("\n")[:-1]
        if ran.output != wanted or ran.status or len(told) > bool(refused):
            otherwise.append("allocation %d: status %d, told %s, %s" % (
                refused, ran.status, told[:3], "the answers" if ran.output == wanted else repr(ran.output[-60:])))
            if not refused:
                return 0, calls, otherwise
        calls[told[0] if told else NOBODY] += bool(refused)
    return refused, calls, otherwise
