"""Beginning at a snapshot in the store (shelf.py): at the newest that is whole and fits."""
import hashlib
import io

from tools.fronting import limits, shelf
from tools.fronting.etcd import RANGE
from tools.fronting.faults import Failed, WRONG
from tools.fronting.restoring import Restored
from tools.fronting.snapshots import DAMAGED, OF_STORE, Snapshot, Unfit
from tools.fronting.stored import Last, id_of, values_of
from tools.fronting.used import LINE, vector_of

MISSING = "its part %d is missing"
OTHER_LOG = "it is of another log, or after another turn"
NOT_TAKEN = "the store's snapshot after turn %d isn't taken: %s"
OF_LIBRARY = "the store's log has snapshots, which the library alone takes (--library): it is played from its first turn on"
USED_DAMAGED = "the store's log is damaged: which vectors were used can't be read"


class Over(Exception):
    """The front ends meanwhile."""


class Taken(Restored):
    """The MME after turn `number`. `is_apart` is whether the subscribers' file lacks lines that were given by then, which the log
    alone has; `used` are the vectors that were used, as LOG.used has them."""

    def __init__(self, snapshot, lines, used):
        super().__init__(snapshot, lines)
        self.number, self.used = snapshot.about["number"], used
        self.is_apart = len(lines) < snapshot.about["provisioning"]["lines"]

    def has(self, line):
        return super().has(line) or vector_of(line) in self.used.known


class Reader:
    """Takes a snapshot for a front that stands by, which waits for the store meanwhile."""

    def __init__(self, standby):
        self.standby, self.front, self.scheme = standby, standby.front, standby.scheme

    def newest(self, names):
        """The newest of these that fits; nothing where none does. Which aren't taken is said."""
        if names and not self.front.settings.library:
            self.front.voice.say("no_snapshot", OF_LIBRARY)
            return None
        for named in reversed(names):
            try:
                taken = self.taken(named)
                taken.take(self.front)
                self.learn_used()
                return taken
            except Unfit as fault:
                self.front.saving.refuse(named)
                self.front.voice.say("no_snapshot", NOT_TAKEN % (named.number, fault), turn=named.number)
            except Over:
                break
        return None

    def asked(self, body):
        """What the store answers, once it is there."""
        while not self.front.is_over:
            found = self.standby.asked(RANGE, body, limits.STORE_PAGE_SECONDS)
            if found is not None:
                return found
        raise Over

    def octets_of(self, named):
        """All of a snapshot."""
        octets, part = bytearray(), 0
        while part < named.parts:
            found = self.asked(shelf.parts_from(self.scheme, named, part))
            for kv, value in zip(found.get("kvs", ()), values_of(found)):
                if shelf.numbers_in(kv) == (named.number, part):
                    octets += value
                    part += 1
            if not found.get("kvs") or shelf.numbers_in(found["kvs"][-1])[1] != part - 1:
                raise Unfit(MISSING % part)
        if len(octets) != named.octets or hashlib.sha256(octets).hexdigest() != named.digest:
            raise Unfit(DAMAGED)
        return bytes(octets)

    def taken(self, named):
        """What a snapshot has, of this log."""
        snapshot = Snapshot(io.BytesIO(self.octets_of(named)), self.front.saving.key, OF_STORE)
        about = snapshot.about
        try:
            numbers = {named.number, about["number"], Last.read(about["last"].encode()).number}
        except (ValueError, AttributeError):
            raise Unfit(DAMAGED) from None
        if about["log"] != id_of(self.standby.head) or len(numbers) > 1:
            raise Unfit(OTHER_LOG)
        return Taken(snapshot, snapshot.standing_lines(self.standby.in_file(), has_source=True), self.front.used)

    def learn_used(self):
        """LOG.used gets which vectors the turns used that aren't there any more."""
        key, entries = None, []
        while True:
            found = self.asked(shelf.used_after(self.scheme, key))
            for value in values_of(found):
                entries += value.splitlines()
            if not found.get("more"):
                break
            key = found["kvs"][-1]["key"]
        if not all(map(LINE.fullmatch, entries)):
            raise Failed(USED_DAMAGED, WRONG)
        self.front.used.learn(entries)
