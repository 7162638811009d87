"""Saves the MME in the store where the log is (shelf.py), every so often (making.py); the last two snapshots are kept, and no turns
up to the older one.

A front that stands by makes them, between turns that it plays. The one that leads makes one where none was named for twice as
long, or twice as much, and at an orderly end. The child puts the parts there itself, and has the next one wait for a while, since
turns go first.
"""
import collections
import contextlib
import hashlib
import json
import os
import time
import typing

from tools.fronting import limits
from tools.fronting.etcd import COMPACTION, Etcd, RANGE, TXN
from tools.fronting.faults import Failed, LOG_FAILS
from tools.fronting.journal import clock
from tools.fronting.loop import Loop
from tools.fronting.making import KEPT, NOT_SAVED, Making
from tools.fronting.resuming import seconds_of
from tools.fronting.shelf import PART, TURN, USED, Named, Shelf, named_in, numbers_in
from tools.fronting.snapshots import drawn, write
from tools.fronting.stored import id_of, numbers_of, values_of
from tools.fronting.used import entry_of

SUPERSEDED = 201  # the status of a child that another maker was before
MOST_WORDS = 1 << 16  # octets that a child tells
LONGEST_ENTRY = 15 + 1 + 32 + 1  # octets of a line of a vector that was used


class Superseded(OSError):
    """Another one makes or has named a snapshot."""

    def __init__(self):
        super().__init__(SUPERSEDED, "another front has made one meanwhile")


class Moment(typing.NamedTuple):
    """What a snapshot is of: how many octets of turns there were, after which turn it is, what is said of it, the names that there
    are, those of them that are to stay, and the lines of vectors that were used since the last."""
    counted: int
    number: int
    about: dict
    names: bytes
    kept: list
    used: list


class Storing(Making):
    """Makes the snapshots of a front whose log is in a store. `named` are those that are whole, the older first, by the value
    `names`; `unfit` are the numbers of those that this front couldn't take."""

    def __init__(self, front):
        super().__init__(front)
        self.names, self.named, self.unfit = b"", [], set()
        self.recent = collections.deque()  # challenges since the last of them: the number of a turn, and the vector's line
        self.reading, self.words = None, b""  # by what a child tells how it went, and that
        self.etcd = None  # by which a front that leads looks which are named

    @property
    def standby(self):
        return self.front.standby

    @property
    def patience(self):
        """A front that leads waits for the one that stands by."""
        return 1 if self.journal is None else 2

    @property
    def pause(self):
        """Its maker rests while it is made."""
        return 0

    @property
    def turn(self):
        """The last turn that there is, as far as this front knows."""
        return self.standby.number if self.journal is None else self.journal.turn

    def octets_of_log(self):
        return self.standby.size if self.journal is None else self.journal.size

    def begin(self, head):
        super().begin(head)
        self.saved_at, self.counted = time.monotonic(), 0
        self.recent.clear()

    def note_challenge(self, slot, rand):
        if self.rule:
            self.recent.append((self.turn, entry_of(self.front.head.imsis[slot], rand)))

    def refuse(self, named):
        """This front can't take one of them."""
        self.unfit.add(named.number)

    # Which there are.

    def note(self, names):
        """The key of the names has this value."""
        if names == self.names:
            return
        before, self.names, self.named = self.named, names, named_in(names)
        if self.named and self.named[-1:] != before[-1:]:
            number = self.named[-1].number
            while self.recent and self.recent[0][0] <= number:
                self.recent.popleft()
            if self.moment is None or self.moment.number != number:
                self.saved_at, self.counted = time.monotonic(), self.octets_of_log()

    def leads(self):
        """This front leads from now on."""
        self.front.exchange.program.stays = bool(self.rule)
        self.etcd = Etcd(self.front.loop, self.standby.etcd.access, self.standby.etcd.addresses)
        self.look_up()

    def look_up(self):
        """Looks which are named, and again after a while."""
        self.etcd.call(RANGE, json.dumps(self.standby.scheme.range_of("snapshots")["request_range"]).encode(), self.take_names)

    def take_names(self, found, fault):
        if fault is None:
            self.note(b"".join(values_of(found)))
        self.front.loop.after(limits.ROOM_SECONDS, self.look_up)

    def told(self):
        """After which turn the last one is, how many turns there are since, its octets, when it was made, and the seconds that the
        last one of this front's own took."""
        if not self.named:
            return {}
        last = self.named[-1]
        return {"snapshot": {"turn": last.number, "turns_since": max(0, self.turn - last.number), "octets": last.octets,
                             "made": last.made, "time": seconds_of(last.made), "seconds": round(self.seconds, 3)}}

    # How one is made.

    def follow(self, now):
        """Makes one that is due, where this front has played all turns that it knows of."""
        if self.rule and self.is_free and self.front.exchange.is_quiet and self.is_due(now):
            self.make(now)

    def begin_one(self):
        """The pipe by which the child tells how it went, and what the snapshot is of."""
        if self.reading is not None:
            os.close(self.reading)
        self.reading, writing = os.pipe()
        return writing, self.moment_after(sorted(self.standby.up) if self.journal is None else self.ups())

    def moment_after(self, up):
        """What a snapshot is of that is made now, while these stations are connected."""
        begun, of_last = self.front.begun, self.standby if self.journal is None else self.journal
        about = {"number": of_last.last.number, "mark": drawn(), "made": clock(), "up": up, "begun": begun,
                 "provisioning": self.provisioned.told(), "used": self.front.used.told(), "log": id_of(self.standby.head),
                 "last": of_last.last.octets().decode(), "time": of_last.time}
        kept = [named for named in self.named if named.number not in self.unfit][1 - KEPT:]
        used = list(dict.fromkeys(entry for _, entry in self.recent))
        return Moment(self.octets_of_log(), about["number"], about, self.names, kept, used)

    def deposit(self, moment, rest):
        """Makes one, and removes what isn't needed any more."""
        deposit = Deposit(self.standby, moment, rest)
        deposit.begin()
        write(deposit, moment.about, self.known(), self.front.exchange.program.mme.parts(), self.key)
        deposit.add_used()
        deposit.name()
        deposit.clear()

    def save(self, file, moment):
        try:
            self.deposit(moment, limits.PART_REST)
        except Failed as fault:
            os.write(file, str(fault).encode()[:MOST_WORDS])
            raise OSError(LOG_FAILS, "") from None

    def let_go(self):
        super().let_go()
        self.words, reading, self.reading = os.read(self.reading, MOST_WORDS), self.reading, None
        os.close(reading)

    def is_made(self):
        self.why_not = None
        if self.etcd is not None and self.etcd.then is None:
            self.look_up()

    def why_ended(self, status):
        if status == SUPERSEDED:
            return None
        return self.words.decode(errors="replace") or super().why_ended(status)

    def say_fault(self, why):
        self.front.voice.say("no_snapshot", "no snapshot can be made, so that no turn of the store's log goes: %s" % why)

    def end(self):
        """The run has ended in order: where this front led, a last one is after its last turn."""
        exchange = self.front.exchange
        has_led = self.rule and self.front.crowd is not None and exchange is not None and exchange.journal is not None
        if not has_led or exchange.program.status != 0 or not exchange.is_quiet:
            return
        try:
            with contextlib.suppress(Superseded):  # such as by one after the last turn
                self.deposit(self.moment_after([]), 0)
        except (Failed, OSError, self.front.package.Refused) as fault:
            self.has_fault(NOT_SAVED if isinstance(fault, self.front.package.Refused) else str(fault))

    def stop(self):
        super().stop()
        if self.etcd is not None:
            self.etcd.close()


class Deposit:
    """A snapshot on its way into the store, by somebody who does nothing else meanwhile. It takes the octets in pieces, and rests
    after each so many times as long as it took."""

    PIECE = limits.PART_OCTETS

    def __init__(self, standby, moment, rest=0):
        self.loop, self.moment, self.rest = Loop(), moment, rest
        self.etcd = Etcd(self.loop, standby.etcd.access, standby.etcd.addresses)
        self.shelf = Shelf(standby.scheme, standby.head, moment.names)
        self.parts, self.octets, self.digest, self.revision = 0, 0, hashlib.sha256(), 0

    def ask(self, path, body):
        """What the store answers, which is asked again until it is there, for a while."""
        end = time.monotonic() + limits.DEPOSIT_SECONDS
        while True:
            told = []
            self.etcd.call(path, body, lambda found, fault: told.append((found, fault)), limits.PART_SECONDS)
            while not told:
                self.loop.turn()
            [(found, fault)] = told
            if fault is None:
                return found
            if fault.is_refusal or fault.is_full or time.monotonic() > end:
                raise Failed("the store doesn't take it: %s" % fault.words, LOG_FAILS)
            time.sleep(limits.STORE_REST)

    def does(self, body):
        """Does a transaction, which is the same if it is done twice; whether what it compares held."""
        return bool(self.ask(TXN, body).get("succeeded"))

    # Its parts.

    def begin(self):
        """Removes the rests of snapshots that were broken off, but of the newest, which may be under way."""
        named = {one.number for one in named_in(self.moment.names)}
        numbers = sorted({numbers_in(kv)[0] for kv in self.ask(RANGE, self.shelf.parts()).get("kvs", ())} - named)
        for number in [number for number in numbers if number < self.moment.number][:-1]:
            ranges = (PART, number, number), (USED, number, number)
            if not self.does(self.shelf.remove([self.shelf.has_names(self.moment.names)], *ranges)):
                raise Superseded

    def write(self, octets):
        """Puts the next part."""
        begun = time.monotonic()
        if self.parts:
            self.go_on(self.shelf.part(PART, self.moment.number, self.parts), octets)
        else:
            self.put_first(octets)
        self.parts, self.octets = self.parts + 1, self.octets + len(octets)
        self.digest.update(octets)
        time.sleep(self.rest * (time.monotonic() - begun))

    def put_first(self, octets):
        """Puts the first part. Where the answer was lost, it stands already."""
        found = self.ask(TXN, self.shelf.begin(self.moment.number, octets))
        if found.get("succeeded"):
            self.revision = int(found["header"]["revision"])
            return
        there = found["responses"][0]["response_range"]
        if values_of(there) != [octets]:
            raise Superseded
        self.revision = int(there["kvs"][0]["create_revision"])

    def go_on(self, key, octets):
        if not self.does(self.shelf.go_on(self.moment.number, self.revision, key, octets)):
            raise Superseded

    def end(self):
        """All of it is there."""

    def add_used(self):
        """Puts which vectors were used since the last one."""
        most = max(1, self.PIECE // LONGEST_ENTRY)
        for part, at in enumerate(range(0, len(self.moment.used), most)):
            octets = b"".join(entry + b"\n" for entry in self.moment.used[at:at + most])
            self.go_on(self.shelf.part(USED, self.moment.number, part), octets)

    # Its name.

    def name(self):
        """Names it, in the place of all but the one before."""
        moment = self.moment
        named = Named(moment.number, self.parts, self.octets, self.digest.hexdigest(), moment.about["made"])
        self.names = b"".join(one.line() for one in (*moment.kept, named))
        found = self.ask(TXN, self.shelf.name(moment.number, self.revision, self.names))
        if not found.get("succeeded") and values_of(found["responses"][0]["response_range"]) != [self.names]:
            self.does(self.shelf.withdraw(moment.number, self.revision))
            raise Superseded

    def clear(self):
        """Removes what no start needs any more: the parts that aren't named, and the turns up to the older snapshot."""
        number, before = self.moment.number, named_in(self.moment.names)
        older = self.moment.kept[0].number if self.moment.kept else 0
        last = before[-1].number if before else 0
        self.remove((PART, 0, older - 1), (PART, older + 1, number - 1), (USED, last + 1, number - 1))
        self.compact(self.clear_turns(older))

    def clear_turns(self, last):
        """Removes the turns up to this one; at which revision of the store the last of them went."""
        revision, first = 0, numbers_of(self.ask(RANGE, self.shelf.first_turn()))
        while first and first[0] <= last:
            end = min(first[0] + limits.TURNS_REMOVED - 1, last)
            revision, first = self.remove((TURN, first[0], end)), [end + 1]
        return revision

    def remove(self, *ranges):
        """Removes what is between numbers, where the names are those that this one gave; at which revision."""
        found = self.ask(TXN, self.shelf.remove([self.shelf.has_names(self.names)], *ranges))
        if not found.get("succeeded"):
            raise Superseded
        return int(found["header"]["revision"])

    def compact(self, revision):
        """Has the store forget what there was before it. It may have done so by itself."""
        if revision:
            self.etcd.call(COMPACTION, json.dumps({"revision": revision}).encode(), lambda found, fault: None, limits.PART_SECONDS)
        while self.etcd.then is not None:
            self.loop.turn()
