"""Going on after a snapshot: the newest that is whole and fits, and the log since."""
import functools

from tools.eps.remembered import Remembered

from tools.fronting.challenges import RAND_OCTETS
from tools.fronting.mme import LibraryMme
from tools.fronting.provisioning import Head
from tools.fronting.resuming import NoResume, Standing
from tools.fronting.segments import SNAPSHOT, numbered
from tools.fronting.snapshots import CUT, DAMAGED, Unfit, read
from tools.fronting.stock import rands_in
from tools.fronting.used import entry_of, vector_of

NO_REASONS = "the run goes on after a snapshot from which they can't be found: they are where the log is played from its beginning"
OF_LIBRARY = "%s has snapshots, which the library alone takes (--library): the log is played from its beginning"
USED_LOST = "%s lacks vectors that were used before"


class RestoredMme(LibraryMme):
    """An MME of the library that goes on as it was saved."""

    def __init__(self, package, mme, loop, hear, say):
        super().__init__(package, loop, hear, say)
        self.mme, self.has_started = mme, True

    def begin(self, head):
        """It has what it is provisioned with."""


class Restored:
    """An MME, and what its front knew, of a snapshot. `lines` are those of the subscribers' file that it is of; `beside` are the
    lines `sub` that were given since the run began, where the file lacks them."""

    def __init__(self, snapshot, lines):
        self.snapshot, self.lines, self.make = snapshot, lines, None
        begun, given = snapshot.about["provisioning"]["begun"], snapshot.known.given
        self.head = Head(lines[:begun] + given)
        self.head.known.update(lines[begun:])
        if len(self.head.imsis) != snapshot.about["subscribers"]:
            raise Unfit(DAMAGED)
        self.beside = [] if len(lines) > begun else given

    def take(self, front):
        """Makes the MME. The octets are kept only where the page's reasons begin with them."""
        package = front.package
        try:
            mme = package.Mme.restored(self.snapshot.octets)
        except package.Refused as refused:
            raise Unfit("the library doesn't take it: %s" % refused) from None
        self.make = functools.partial(RestoredMme, package, mme)
        if front.settings.page is None:
            self.snapshot.octets = b""

    def restore(self, front):
        """What the front has before the first line that is played."""
        front.begun = self.snapshot.about["begun"]
        front.saving.restore(self.snapshot)
        front.stock.restore(self.snapshot.known.spent, self.snapshot.known.left)
        if front.asking is not None:
            for slot, count in enumerate(self.snapshot.known.spent):
                if count:
                    front.asking.note(slot)
        if front.settings.page is not None:
            self.begin_reasons(front.teller)

    def begin_reasons(self, teller):
        """The page has reasons from the snapshot on."""
        octets, self.snapshot.octets = self.snapshot.octets, b""
        vectors = sum(map(len, self.snapshot.known.left)) // RAND_OCTETS
        teller.begin_with(lambda: Remembered(octets).world(), self.snapshot.about["subscribers"], vectors, NO_REASONS)

    @functools.cached_property
    def left(self):
        """The vectors that weren't spent then."""
        return {entry_of(imsi, rand) for imsi, rands in zip(self.head.imsis, self.snapshot.known.left) for rand in rands_in(rands)}

    def has(self, line):
        """Whether a line was given or supplied before: a vector that isn't spent is known by its IMSI and RAND."""
        return line in self.beside or vector_of(line) in self.left


class StandingAfter(Standing):
    """A log that stands, from a snapshot on; a source supplied what it has beside the subscribers' file."""

    has_keys = True  # since no snapshot is made beside a log without keys

    def __init__(self, path, number, name, snapshot, lines):
        self.number, self.name, self.snapshot = number, name, snapshot
        self.restored = Restored(snapshot, lines)
        self.head = self.restored.head
        super().__init__(path)
        is_past = self.first == max(self.counts) and self.start > self.counts_end
        if is_past or self.settled_until() < tuple(snapshot.about["happened"]):
            raise NoResume(CUT % (path, name))

    def begin(self):
        first, self.start = self.snapshot.place_in(self.path, self.counts, self.name)
        self.begin_with(first)

    def take(self, front):
        """Makes the MME of the snapshot."""
        self.restored.take(front)
        self.make = self.restored.make

    def restore(self, front, up):
        up.update(self.snapshot.about["up"])
        self.restored.restore(front)
        front.saving.has_taken(self.number, self.snapshot, sum(end - at for _, at, end in self.spans()))

    # Its lines of provisioning.

    @functools.cached_property
    def facts(self):
        """Those that are known: the file's and what a source supplied before, but for its vectors, and those given since."""
        return self.restored.lines + self.restored.beside + self.further

    def in_file(self, has_source):
        return self.restored.lines if has_source else self.facts

    @functools.cached_property
    def vectors(self):
        """Those that weren't spent then, and those given since."""
        return self.restored.left.union(map(vector_of, self.further))

    def has(self, line):
        """Those of its vectors that are spent stand in LOG.used."""
        return super().has(line) or self.restored.has(line)


def standing_after(front):
    """The log that stands, after the newest of its snapshots that can be taken; nothing where none can."""
    log, snapshots = front.settings.log, numbered(front.settings.log, SNAPSHOT)
    if snapshots and not front.settings.library:
        front.voice.say("no_snapshot", OF_LIBRARY % log)
        return None
    for number, name in sorted(snapshots.items(), reverse=True):
        try:
            snapshot = read(name, front.saving.key)
            lines = snapshot.standing_lines(front.head.facts, front.asking is not None)
            standing = StandingAfter(log, number, name, snapshot, lines)
            if not front.used.begins_with(snapshot.about["used"]):
                raise Unfit(USED_LOST % front.used.path)
            standing.take(front)
            return standing
        except Unfit as fault:
            front.voice.say("no_snapshot", "%s isn't taken: %s" % (name, fault), path=name)
    return None
