"""Snapshots of the MME in the store, beside the chain of turns (stored.py). Below the MME's keys stand

    snapshot/N/PART    a part of the octets of a snapshot (snapshots.py) of what the MME was after turn N; PART from 0 on, in 4 hex
                       digits
    used/N/PART        lines `IMSI RAND`, as LOG.used has them, of the vectors of which the turns up to N had challenges, after the
                       turn of the snapshot that was named before
    snapshots          those that are whole, the older first, a line of each: N in decimal digits, how many parts it has, its
                       octets, their SHA-256, and the time of day

Who makes one creates its first part, which nobody else does for that turn then. Each further one is put only where the first is
still that one, and so is the line by which it is named, where besides `head` is that of the same log and no other one was named
since the maker began. So a maker that is late, or was taken to be gone, changes nothing. Parts that no line names are rests of one
that was broken off. Whoever names one removes those before it, and the turns that no start needs any more.
"""
import base64
import json
import typing

from tools.fronting import limits
from tools.fronting.etcd import b64
from tools.fronting.faults import BABBLES, Failed

PART, USED, NAMES, TURN = "snapshot", "used", "snapshots", "turn"
UNREADABLE = "the store's log is damaged: which snapshots it has can't be read"


class Named(typing.NamedTuple):
    """A snapshot that is whole: after which turn it is, how many parts and octets it has, their digest, and when it was made."""
    number: int
    parts: int
    octets: int
    digest: str
    made: str

    @classmethod
    def read(cls, line):
        number, parts, octets, digest, made = line.decode().split(" ", 4)
        return cls(int(number), int(parts), int(octets), digest, made)

    def line(self):
        return b"%d %d %d %s %s\n" % (self.number, self.parts, self.octets, self.digest.encode(), self.made.encode())


def named_in(value):
    """Those that the key of names has, the older first."""
    try:
        return [Named.read(line) for line in value.splitlines()]
    except ValueError:
        raise Failed(UNREADABLE, BABBLES) from None


def numbers_in(kv):
    """The numbers that a part's key has: of the turn, and its own."""
    number, part = base64.b64decode(kv["key"]).split(b"/")[-2:]
    return int(number, 16), int(part, 16)


class Shelf:
    """What a maker of snapshots asks of the store, which knows the log by its head, and the names that there were."""

    def __init__(self, scheme, head, names):
        self.scheme, self.head, self.names = scheme, head, names

    def part(self, kind, number, part):
        return self.scheme.key("%s/%016x/%04x" % (kind, number, part))

    def within(self, kind, first, last):
        """What has numbers from one to another, both among them."""
        return {"key": self.scheme.numbered(kind, first), "range_end": self.scheme.numbered(kind, last + 1)}

    # Comparisons.

    def is_log(self):
        return {"key": self.scheme.key("head"), "target": "VALUE", "result": "EQUAL", "value": b64(self.head)}

    def has_names(self, names):
        key = self.scheme.key(NAMES)
        if not names:
            return {"key": key, "target": "CREATE", "result": "EQUAL", "create_revision": 0}
        return {"key": key, "target": "VALUE", "result": "EQUAL", "value": b64(names)}

    def is_begun(self, number, revision):
        """That the first part is the one which was put at this revision, or with 0 that there is none."""
        return {"key": self.part(PART, number, 0), "target": "CREATE", "result": "EQUAL", "create_revision": revision}

    # Transactions.

    @staticmethod
    def step(compare, success, failure=()):
        return json.dumps({"compare": compare, "success": success, "failure": list(failure)}).encode()

    def begin(self, number, octets):
        """Puts the first part, where nobody else makes this one; else asks for it."""
        key = self.part(PART, number, 0)
        return self.step([self.is_begun(number, 0), self.is_log(), self.has_names(self.names)], [self.scheme.put(key, octets)],
                         [{"request_range": {"key": key}}])

    def go_on(self, number, revision, key, octets):
        """Puts a further part."""
        return self.step([self.is_begun(number, revision)], [self.scheme.put(key, octets)])

    def name(self, number, revision, names):
        """Has the names be these; else asks for them."""
        compare = [self.is_begun(number, revision), self.is_log(), self.has_names(self.names)]
        return self.step(compare, [self.scheme.put(self.scheme.key(NAMES), names)], [self.scheme.range_of(NAMES)])

    def withdraw(self, number, revision):
        """Removes the parts of one that isn't to be named."""
        return self.remove([self.is_begun(number, revision)], (PART, number, number), (USED, number, number))

    def remove(self, compare, *ranges):
        """Removes what there is of a kind, from a number to another, of each of these."""
        return self.step(compare, [{"request_delete_range": self.within(kind, first, last)}
                                   for kind, first, last in ranges if first <= last])

    # Questions.

    def parts(self):
        """Asks for the keys of all parts that there are."""
        return json.dumps({"key": self.scheme.key(PART + "/"), "range_end": self.scheme.key(PART + "0"),
                           "keys_only": True}).encode()

    def first_turn(self):
        """Asks for the key of the first turn that there is."""
        return json.dumps({"key": self.scheme.key(TURN + "/"), "range_end": self.scheme.key(TURN + "0"), "limit": 1,
                           "keys_only": True}).encode()


def parts_from(scheme, named, part):
    """Asks for some parts of a snapshot, from one on."""
    return json.dumps({"key": scheme.key("%s/%016x/%04x" % (PART, named.number, part)), "limit": limits.PARTS_READ,
                       "range_end": scheme.key("%s/%016x0" % (PART, named.number))}).encode()


def used_after(scheme, key):
    """Asks for what is used, some parts at a time, after a key in base64."""
    first = b64(base64.b64decode(key) + b"\0") if key else scheme.key(USED + "/")
    return json.dumps({"key": first, "range_end": scheme.key(USED + "0"), "limit": limits.PARTS_READ}).encode()
