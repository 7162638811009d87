"""The log in a store, as a chain of turns. Below `/soizkadur/`, the MME's network, group and code stand

    last        EPOCH NUMBER ID: the last turn, in which epoch it came, and the id that the epoch's leader drew for it
    turn/N      the turn of this number, from 1 on, in 16 hex digits: lines of a trace
    given/N     the lines sub and vec that a front with a program gave with turn N, which one of today reads and doesn't write
    head        the version, how many lines of provisioning the log was begun with, their digest, and an id of the log

Whoever writes a turn compares `last` with what it knows, in one transaction that also writes the new `last`. To take the lead is
such a turn too, under the next epoch and an id that nobody drew before. Where it isn't known whether a transaction was done, `last`
is read, by a read that is linearizable: the turn's own value says that it stands; the value before, that the identical octets are
to be sent again; any other, that another front leads.

Why nothing is answered twice, or under a count that was used:
  - No value of `last` comes twice, since its number rises by one. So each turn is written by one transaction, right after the turn
    before it, and a request that comes late does nothing.
  - Only the front that drew an id writes a value with it. So whoever is told that its transaction was done, or reads its own value,
    knows that its own octets stand there: it sent no others under that number.
  - What a turn is answered is held until then. So all that ever leaves a front answers turns of the chain.
  - Whoever takes the lead has played the whole chain, as the comparison says that nothing else stood at that moment. So its MME is
    a function of the chain, of which it is proved that no count is used twice.
  - The answers that a standby plays go to nobody. One that led before may still send those that it owes to turns of the chain,
    which nobody else sends: their counts are spent in the chain.
Nothing here has a clock: ticks and silence say when somebody tries to lead, and not what stands.

Of the first turns there may be a snapshot in their place (shelf.py). Why a front that begins there is as one that played them all:
  - A snapshot after turn N is of a front that had played the chain up to N, and nothing else, when it was forked. What is restored
    is what was saved, which is proved, but for vectors that are spent. So with the turns after N it is the same MME.
  - It says of itself which log it is of, by the id of `head`, and what `last` was at turn N, which no other turn ever is; and its
    octets have a digest, and with a key a seal. Where one of these isn't so, it isn't taken. Another version may take it too, but
    plays no turns since: it begins where there are none, and who leads then writes its own version into `head`.
  - Turns go only once two snapshots stand which whoever removes them could take, or made: those up to the older one's, in a
    transaction that compares the names of both. So the older one with all turns after it is there, whatever becomes of the newer.
  - The vectors that the turns used stand beside the snapshots before the turns go, and whoever begins there notes them in LOG.used.
Each question is of the store as it is, so what the store has forgotten of its past is told to nobody.
"""
import collections
import base64
import hashlib
import json
import re
import secrets
import time
import typing

from tools import runs, versions

from tools.fronting import limits
from tools.fronting.etcd import Etcd, RANGE, TXN, b64
from tools.fronting.faults import BABBLES, Failed, LOG_FAILS, NOT_YET, Unheld, WRONG
from tools.fronting.journal import TIME, clock, octets_of
from tools.fronting.turns import Turns

HEAD = re.compile(rb"(\S+) ((\d+) ([0-9a-f]+) ([0-9a-f]+))")
TOO_MUCH = "larger than max"  # what is said of an answer with more octets than a member sends


class Last(typing.NamedTuple):
    """What the last turn is."""
    epoch: int
    number: int
    leader: str

    @classmethod
    def read(cls, octets):
        epoch, number, leader = octets.decode().split(" ")
        return cls(int(epoch), int(number), leader)

    def octets(self):
        return b"%d %d %s" % (self.epoch, self.number, self.leader.encode())


NOTHING = Last(0, 0, "")  # before the first turn


class Scheme:
    """The keys of one MME, and what is asked of the store with them."""

    def __init__(self, mme):
        self.prefix = "/soizkadur/%s/" % ".".join(mme[1:5]).lower()

    def key(self, name):
        return b64((self.prefix + name).encode())

    def numbered(self, kind, number):
        """The key of a turn, or of what was given with it."""
        return self.key("%s/%016x" % (kind, number))

    def range_from(self, kind, number, most):
        """Asks for what has a number of a kind, from one on."""
        return {"request_range": {"key": self.numbered(kind, number), "range_end": self.key(kind + "0"), "limit": most}}

    def range_of(self, name):
        return {"request_range": {"key": self.key(name)}}

    def put(self, key, octets):
        return {"request_put": {"key": key, "value": b64(octets)}}

    def is_last(self, last):
        """The comparison that holds where this turn is the last one."""
        if last == NOTHING:
            return {"key": self.key("last"), "target": "CREATE", "result": "EQUAL", "create_revision": 0}
        return {"key": self.key("last"), "target": "VALUE", "result": "EQUAL", "value": b64(last.octets())}

    def step(self, before, after, puts):
        """Makes `after` the last turn where `before` is it, with what is put; else asks which one is."""
        return json.dumps({"compare": [self.is_last(before)], "success": [self.put(self.key("last"), after.octets()), *puts],
                           "failure": [self.range_of("last")]}).encode()

    def turn(self, number, octets):
        """What is put with a turn."""
        return [self.put(self.numbered("turn", number), octets)]

    def news(self, number, given, most):
        """Asks, all as of one moment, for the head, the last turn, what comes after these numbers of turns and of gives, and which
        snapshots there are."""
        return json.dumps({"success": [self.range_of("head"), self.range_of("last"), self.range_from("given", given + 1, 0),
                                       self.range_from("turn", number + 1, most), self.range_of("snapshots")]}).encode()

    def which_is_last(self):
        """Asks for the last turn."""
        return json.dumps({"key": self.key("last")}).encode()


def values_of(response):
    """The values that a range was answered with."""
    return [base64.b64decode(kv.get("value", "")) for kv in response.get("kvs", ())]


def numbers_of(response):
    """The numbers in their keys."""
    return [int(base64.b64decode(kv["key"])[-16:], 16) for kv in response.get("kvs", ())]


def last_in(response):
    """The last turn that a range was answered with."""
    try:
        values = values_of(response)
        return Last.read(values[0]) if values else NOTHING
    except ValueError:
        raise Failed("the store's log is damaged: what is said to be its last turn can't be read", BABBLES) from None


def pieces_of(octets, first):
    """Whole lines of a trace as turns of which none is too large, each below the line that comes first."""
    at = 0
    while True:
        end = len(octets)
        if end - at > limits.STORED_OCTETS:
            end = (octets.rfind(b"\n", at, at + limits.STORED_OCTETS) + 1) or octets.find(b"\n", at) + 1
        yield first + octets[at:end]
        at = end
        if at == len(octets):
            return


def fewer(most, fault):
    """How many turns to read at once after a fault, which may be of too many."""
    return max(1, most // 4) if TOO_MUCH in fault.words or fault.is_late else most


class Step:
    """From one last turn to the next: sent to the store until it is known whether it stands. `then` is called with that, and
    `fault` is why it isn't known yet."""

    def __init__(self, etcd, scheme, before, after, puts, then):
        self.etcd, self.scheme, self.before, self.after, self.then = etcd, scheme, before, after, then
        self.body, self.fault, self.is_over = scheme.step(before, after, puts), None, False
        self.send()

    @property
    def takes_lead(self):
        """Whether it takes the lead: where there is room again, who leads comes first."""
        return self.before.leader != self.after.leader

    def send(self):
        self.etcd.call(TXN, self.body, self.is_answered)

    def is_answered(self, found, fault):
        if fault is not None:
            self.is_in_doubt(fault)
        elif found.get("succeeded"):
            self.end(True)
        else:
            self.judge(last_in(found["responses"][0]["response_range"]))

    def is_in_doubt(self, fault):
        """It isn't known whether it stands: asks which turn is the last, in a while."""
        self.fault = fault
        if fault.is_refusal:
            self.is_over = True
            raise Failed("the store refuses a turn: " + fault.words, LOG_FAILS)
        self.etcd.loop.after(limits.FULL_REST if fault.is_full and self.takes_lead else limits.STORE_REST, self.ask)

    def ask(self):
        if not self.is_over:
            self.etcd.call(RANGE, self.scheme.which_is_last(), self.is_told)

    def is_told(self, found, fault):
        if fault is not None:
            self.is_in_doubt(fault)
        else:
            self.judge(last_in(found))

    def judge(self, last):
        """By the turn that is the last one."""
        if last == self.before:
            self.send()
        else:
            self.end(last == self.after)

    def end(self, stands):
        self.is_over = True
        self.then(stands)


class StoreJournal(Turns):
    """The log of the front that leads, from its first turn on."""

    def __init__(self, etcd, scheme, last, head, form):
        super().__init__("the store")
        self.etcd, self.scheme, self.last, self.head, self.form = etcd, scheme, last, head, form
        self.turn = self.committed = last.number
        self.step, self.since = None, 0.0  # of the turn under way, and since when it is
        self.pieces = collections.deque()  # the turns that follow it
        self.size, self.time = 0, ""  # octets of all turns; the time of day of the last

    @property
    def is_under_way(self):
        """Whether a turn is on its way, or what stands beside the log is being synced."""
        return not self.is_broken and (self.turn != self.committed and not self.step.is_over or self.is_noting)

    def add(self, batches):
        """Sends what the MME is about to be given: a turn, or several where it is too much for one."""
        now = self.time = clock()
        self.pieces.extend(pieces_of(b"".join(batch.text() for batch in batches), octets_of([TIME % now])))
        self.turn += len(self.pieces)
        for batch in batches:
            batch.time, batch.turn = now, self.turn
        self.send()

    def send(self):
        """Sends the next turn."""
        text, after = self.pieces.popleft(), self.last._replace(number=self.committed + 1)
        self.size += len(text)
        self.since = time.monotonic()
        self.step = Step(self.etcd, self.scheme, self.last, after, self.scheme.turn(after.number, text), self.has_come)

    def has_come(self, stands):
        """The turn stands, or another front leads."""
        if not stands:
            self.is_broken = True
            raise Failed("another front leads: turn %d of epoch %d isn't taken, and nothing of it is answered"
                         % (self.step.after.number, self.last.epoch), NOT_YET)
        self.last, self.committed = self.step.after, self.step.after.number
        if self.pieces:
            self.send()
        else:
            self.tell(self.fault_of(self.write_beside))

    def write_beside(self):
        """Writes what those beside know, once all of it is of turns that stand: so they never know more than the log."""
        if self.turn == self.committed:
            super().write_beside()

    def care(self, now):
        """Ends the front where the store takes no turn, since another one may lead; nobody does where it is full."""
        if self.turn == self.committed:
            return
        fault = self.step.fault
        if fault is not None and fault.is_full:
            self.since = now
            raise Failed("the store is full: " + fault.words, LOG_FAILS)
        if now - self.since > limits.UNCOMMITTED_SECONDS:
            raise Unheld("the store has taken no turn for %g s%s" % (
                limits.UNCOMMITTED_SECONDS, ": " + fault.words if fault else ""), LOG_FAILS)

    def give_way(self):
        """What is under way isn't waited for."""
        self.is_broken = True

    def close(self):
        self.tell = lambda fault=None: None
        self.is_broken = True
        self.etcd.close()
        if self.syncer is not None:
            self.syncer.close()


# --- What a log begins with ---


def drawn():
    """An id that nobody else has."""
    return secrets.token_hex(16)


def digest_of(facts):
    """What lines of provisioning are told from others by."""
    return hashlib.sha256("\n".join(facts).encode("latin-1")).hexdigest()


def head_of(facts):
    """What says by which version and with which lines of provisioning a log was begun, with an id of its own."""
    return ("%s %d %s %s" % (versions.number(), len(facts), digest_of(facts), drawn())).encode()


def read_head(head):
    """The version that a head has, all else, and of that how many lines, their digest and the log's id."""
    found = HEAD.fullmatch(head)
    if not found:
        raise Failed("the store's log is damaged: it doesn't say what it was begun with", WRONG)
    return [part.decode() for part in found.groups()]


def id_of(head):
    """The id of the log, whatever version goes on with it; nothing of what is no head."""
    found = HEAD.fullmatch(head)
    return found and found[5].decode()


def head_by_this(head):
    """The head of the same log, which this version goes on with."""
    return ("%s %s" % (versions.number(), read_head(head)[1])).encode()


def check_version(head, status=WRONG):
    """Refuses turns of a log that another version wrote."""
    if head and head != head_by_this(head):
        raise Failed("the store's log is of version %s, and this is %s: another version may play it otherwise"
                     % (read_head(head)[0], versions.number()), status)


def facts_of(head, facts, subscribers):
    """The lines of provisioning that a log was begun with, among those of this front; a fault where it hasn't them."""
    _, _, count, digest, _ = read_head(head)
    if digest_of(facts[:int(count)]) != digest:
        raise Failed("the store's log begins with other lines than %s" % subscribers, WRONG)
    return facts[:int(count)]
