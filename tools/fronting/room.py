"""How full the store is, by what its members say of themselves, one after the other. Once a member's file has reached its quota,
etcd takes nothing more until somebody makes room, so the front says so long before. What was removed leaves room in the file, which
is used again and grows only where there is none; so what counts is the rest, and the file where it is about to be too large."""
import re

from tools.fronting import limits
from tools.fronting.etcd import METRICS

SIZE, USED, QUOTA = (re.compile(r"^%s (\S+)$" % name, re.MULTILINE) for name in (
    "etcd_mvcc_db_total_size_in_bytes", "etcd_mvcc_db_total_size_in_use_in_bytes", "etcd_server_quota_backend_bytes"))
MIB = 1 << 20
LARGE_FILE = "the store's file has %.1f of the %.1f MiB of its quota, most of it unused (etcdctl defrag)"


def number_in(pattern, text):
    """The number that a line of metrics has; 0 where there is none."""
    found = pattern.search(text)
    return int(float(found[1])) if found else 0


class Room:
    """Looks by a connection of its own, now and then. `size`, `used` and `quota` are the octets of the fullest member's file, of
    what is in use of it, and how many it may have; the last is nothing where it isn't limited or isn't known."""

    def __init__(self, etcd, voice):
        self.etcd, self.voice, self.is_told = etcd, voice, False
        self.members, self.size, self.used, self.quota = {}, 0, 0, None
        self.look()

    def look(self):
        self.etcd.call(METRICS, None, self.take)

    def take(self, found, fault):
        """What a member says; the next look is at the next one."""
        if fault is None:
            size, used, quota = (number_in(pattern, found["text"]) for pattern in (SIZE, USED, QUOTA))
            used = used or size
            self.members[self.etcd.place] = (used / quota, size, used, quota) if quota > 0 else (0.0, size, used, None)
            _, self.size, self.used, self.quota = max(self.members.values(), key=lambda member: member[0])
            self.etcd.go_to_next()
        if self.is_low and not self.is_told:
            self.voice.say("store_fills", self.words() + ": at its quota no turn is taken until there is room", octets=self.size,
                           used=self.used, quota=self.quota)
        self.is_told = self.is_low
        self.etcd.loop.after(limits.ROOM_SECONDS, self.look)

    def words(self):
        if self.used < limits.FULLEST * self.quota:
            return LARGE_FILE % (self.size / MIB, self.quota / MIB)
        return "the store has %.1f of the %.1f MiB of its quota" % (self.used / MIB, self.quota / MIB)

    @property
    def is_low(self):
        """Whether somebody is to make room."""
        return self.quota is not None and (self.used >= limits.FULLEST * self.quota or self.size >= limits.LARGEST * self.quota)

    def close(self):
        self.etcd.close()
