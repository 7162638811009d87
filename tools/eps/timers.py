"""Timers: how long each runs, how often its message is sent again, and which end next (docs/PROFILE.md, Timers)."""
import dataclasses
import heapq


@dataclasses.dataclass(frozen=True)
class Kind:
    """A timer: its name, its seconds, its repeats, and the clause that has it (TS 24.301)."""
    name: str
    seconds: int
    repeats: int
    clause: str


T3413 = Kind("T3413", 10, 1, "5.6.2.2")
T3422 = Kind("T3422", 6, 4, "5.5.2.3")
T3450_ATTACH = Kind("T3450", 6, 4, "5.5.1.2.7")
T3450_UPDATE = Kind("T3450", 6, 4, "5.5.3.2.7")
T3460_CHALLENGE = Kind("T3460", 6, 4, "5.4.2.7")
T3460_SECURITY = Kind("T3460", 6, 4, "5.4.3.7")
T3470 = Kind("T3470", 6, 4, "5.4.4.6")
T3489 = Kind("T3489", 4, 2, "6.6.1.2.6")
REACHABLE = Kind("reachable", 3480, 0, "5.3.5")
ORDINALS = {1: "first", 2: "second", 3: "third", 4: "fourth", 5: "fifth"}


class Running:
    """A timer that runs: when it ends, how many repeats were sent, and what sends the next one."""

    def __init__(self, kind, now, again=None):
        self.kind, self.sent, self.again, self.line = kind, 0, again, now.line
        self.ends = now.second + kind.seconds

    def is_used_up(self):
        return self.sent == self.kind.repeats

    def restart(self, now):
        self.sent += 1
        self.ends = now.second + self.kind.seconds

    def repeat(self):
        """Which repeat the next one is, of how many."""
        return self.sent + 1, self.kind.repeats

    def facts(self):
        return {"timer": self.kind.name, "time": ORDINALS[self.kind.repeats + 1], "clause": self.kind.clause}


class Alarms:
    """When which owner's timer may end: owners are asked again, so that one too many does no harm."""

    def __init__(self):
        self.seconds, self.keys = [], {}  # a heap of the seconds with an end, and of each the keys of the owners

    def note(self, second, key):
        """An owner's timer ends at a second; `key` orders owners, and is how they are found."""
        keys = self.keys.get(second)
        if keys is None:
            keys = self.keys[second] = set()
            heapq.heappush(self.seconds, second)
        keys.add(key)

    def renew(self, ends):
        """Knows these ends, each a second and a key, and no others."""
        self.seconds, self.keys = [], {}
        for second, key in ends:
            self.note(second, key)

    def due(self, until):
        """The first second with an end, not after this one, and the keys of the owners there, in their order; or None."""
        if not self.seconds or self.seconds[0] > until:
            return None
        second = heapq.heappop(self.seconds)
        return second, sorted(self.keys.pop(second))
