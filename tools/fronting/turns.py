"""What a journal is to the exchange: it commits turns, one after the other, and what stands beside it."""
import os

from tools.fronting import limits
from tools.fronting.faults import Failed, LOG_FAILS


class Turns:
    """A journal, of files (journal.py) or in a store (stored.py).

    To the exchange it is `add`, which takes a turn where it `takes` one; `keeps`, by which it says what is committed; `tell`, which
    it calls when more is, or with a fault; `settle`, `care`, `end` and `close`. Objects in `beside` keep what is to stand on disk before an answer goes out. Such a one is true while it has
    something to be written; `write` writes that to its `file`."""

    series, octets = (), 0  # where nothing is written in segments, or settled later
    is_cut = False  # whether less stands there than was written

    def __init__(self, path):
        self.path, self.syncer, self.tell = path, None, lambda fault=None: None
        self.turn = self.committed = 0  # the last turn that came, and the last that is committed
        self.beside, self.noted, self.kept, self.is_noting = [], 0, 0, False  # writes of those beside, and how many are on disk
        self.is_broken = False  # whether nothing more may go out, as it isn't known what stands

    @property
    def takes(self):
        """Whether the next turn may come."""
        return self.turn == self.committed and not self.is_broken

    def keeps(self, turn, noted=0):
        """Whether a turn, and so many writes of those beside, are committed."""
        return turn <= self.committed and noted <= self.kept

    @staticmethod
    def fault_of(act):
        """Does something; the system's fault, or nothing."""
        try:
            act()
        except OSError as fault:
            return fault
        return None

    # Beside it.

    def mark(self):
        """How many writes of those beside there are once what they know is written."""
        return self.noted + 1 if any(self.beside) else self.noted

    def write_beside(self):
        """Writes what those beside know, and has it be on disk; what comes meanwhile is written after that."""
        if self.is_noting or not any(self.beside):
            return
        files = []
        for one in self.beside:
            if one:
                one.write()
                files.append(one.file)
        self.noted += 1
        if self.syncer is None:
            self.kept = self.noted
        else:
            self.is_noting = True
            self.syncer.sync([(os.fdatasync, file) for file in files], self.has_noted)

    def has_noted(self, fault):
        """What those beside had is on disk. After a fault that can't be known, so the front ends and nothing more goes out."""
        if fault is not None:
            self.is_broken = True
            raise Failed("what stands beside %s isn't on disk: %s" % (self.path, fault.strerror), LOG_FAILS)
        self.is_noting, self.kept = False, self.noted
        self.tell(self.fault_of(self.write_beside))

    # What a journal without segments has nothing to do for.

    def settle(self, batch):
        """A batch is answered and committed."""

    def is_due(self, now):
        """Whether something is to be written of what counts."""
        return False

    def write_settled(self, now, at_once=False):
        """Writes what counts."""

    def take_gone(self):
        """The segments that went since it was asked last, each with its series."""
        return []

    def give_way(self):
        """The run ends, since no turn can be committed."""

    def end(self, now):
        """The run ends in order, where no turn is under way."""
