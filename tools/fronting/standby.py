"""A front beside a store, until it leads: it begins at a snapshot (taking.py), or with nothing, and plays the turns of the log as
they come. Then it takes no turn of another any more, but makes the next one itself, by which it leads. Where turns that it lacks are
gone, it begins anew, at a snapshot.

Silence is counted from the first of the reads that found the same last turn, of which none failed. A leader's ticks are turns, so
that one which serves is never silent; but nothing is lost if one that serves is taken to be gone.
"""
import time

from tools import runs

from tools.fronting import limits, stored
from tools.fronting.etcd import Etcd, TXN
from tools.fronting.faults import Failed, NOT_YET, WRONG
from tools.fronting.journal import TIME, clock, octets_of
from tools.fronting.provisioning import Head
from tools.fronting.resuming import NoResume, OF_LIBRARY, further_in, note_stations, seconds_since, time_in
from tools.fronting.room import Room
from tools.fronting.shelf import named_in
from tools.fronting.taking import Reader
from tools.fronting.used import vector_of

LOG = "the store's log"


class Standby:
    """Follows the log in the store. `number` is the last turn that was played, `turn` its lines, `size` the octets of all that
    were, `last` the last one that was read of, and `given` the last that gave lines of provisioning; `gave` are all of these.
    `taken` is the snapshot that it began at, `before` those of `gave` that it began with, `further` the lines that stand in turns
    since, and `own` those of the subscribers' file after what it began with. `head` is what the log says that it begins with, `up`
    the stations that are connected to who leads, and `came` when the last turn came, where this front had played all turns before
    it."""

    def __init__(self, front, access):
        self.front, self.etcd, self.scheme = front, Etcd(front.loop, access), stored.Scheme(front.head.mme)
        self.last, self.number, self.given, self.size = None, 0, 0, 0
        self.up, self.gave, self.further, self.own, self.fault, self.turn, self.head = set(), [], [], [], None, b"", b""
        self.taken, self.before = None, []
        self.is_checked = False  # whether the log has all challenges that this machine knows of
        self.names = b""  # of the snapshots that there were when it began
        self.since, self.came = time.monotonic(), None  # the first: since when all reads found the same last turn
        self.room = None  # of the store, once it was there
        self.is_full, self.most = True, limits.TURNS_READ  # whether there is more than was read; turns that are read at once

    # Reading.

    def read(self):
        """What is new in the store, or nothing where that can't be told."""
        found = self.asked(TXN, self.scheme.news(self.number, self.given, self.most),
                           limits.STORE_PAGE_SECONDS if self.is_full else limits.STORE_CALL_SECONDS)
        return found and [response["response_range"] for response in found["responses"]]

    def asked(self, path, body, seconds):
        """What the store answers, or nothing where that can't be told."""
        told = []
        self.etcd.call(path, body, lambda found, fault: told.append((found, fault)), seconds)
        while not told and not self.front.is_over:
            self.front.turn_before_stations()
        found, fault = told[0] if told else (None, None)
        if fault is not None:
            self.has_fault(fault)
        elif found is not None and self.fault is not None:
            self.fault = None
            self.front.voice.say("store_is_back", "the store answers again")
        return found

    def has_fault(self, fault):
        """The store isn't there: this is said once, and silence is counted anew."""
        if fault.is_refusal:
            raise Failed("the store refuses: " + fault.words, WRONG)
        before, self.most = self.most, stored.fewer(self.most, fault)
        if self.most < before and not fault.is_late:
            return
        if self.fault is None:
            self.front.voice.say("no_store", "the store isn't there: %s" % fault.words)
        self.fault = fault
        self.rest(limits.STORE_REST)
        self.since = time.monotonic()

    def rest(self, seconds):
        """Turns for a while."""
        end = time.monotonic() + seconds
        while time.monotonic() < end and not self.front.is_over:
            timer = self.front.loop.after(max(0.0, end - time.monotonic()), lambda: None)
            self.front.turn_before_stations()
            timer.cancel()

    def note_last(self, last):
        """Notes the last turn that was read of."""
        if last != self.last:
            has_followed = self.last is not None and self.number == self.last.number
            self.last, self.since = last, time.monotonic()
            self.came = self.since if has_followed else None

    # Following.

    def begin(self):
        """Waits for the store, and begins the MME with what is provisioned there."""
        end, news = time.monotonic() + limits.STORE_SECONDS, None
        while news is None and not self.front.is_over:
            news = self.read()
            if news is None and time.monotonic() > end:
                raise Failed("the store isn't there after %d s: %s" % (limits.STORE_SECONDS, self.fault.words), NOT_YET)
        if news is not None:
            self.begin_mme(news)

    def begin_mme(self, news):
        """An MME of a snapshot that fits, which is to play the turns since; or one with what the log begins with and what was given
        since, which is to play all turns."""
        head, last, given, _, names = news
        self.note_last(stored.last_in(last))
        self.room = self.room or Room(Etcd(self.front.loop, self.etcd.access, self.etcd.addresses), self.front.voice)
        self.head = b"".join(stored.values_of(head))
        self.given = max([self.given, *stored.numbers_of(given)])
        self.gave += b"".join(stored.values_of(given)).decode("latin-1").splitlines()
        self.names = b"".join(stored.values_of(names))
        self.taken = Reader(self).newest(named_in(self.names))
        self.number, self.size, self.up, self.further, self.is_checked, self.turn = 0, 0, set(), [], False, b""
        if self.taken is not None:
            self.begin_after(self.taken)
        else:
            self.front.begin_following(self.front.head if self.last == stored.NOTHING else self.provisioned())

    def begin_after(self, taken):
        """The MME of a snapshot."""
        about = taken.snapshot.about
        if taken.number < self.last.number:
            stored.check_version(self.head)
        self.number, self.up, self.turn = taken.number, set(about["up"]), octets_of([TIME % about["time"]])
        self.before, self.own = [], self.in_file()[len(taken.lines):]
        self.front.voice.say("begins_after", "begins at the snapshot after turn %d of %s" % (taken.number, LOG), turn=taken.number)
        self.front.begin_following(taken.head, taken)

    def provisioned(self):
        """What the log begins with and what was given since."""
        stored.check_version(self.head)
        facts = self.front.facts
        begun = stored.facts_of(self.head, facts, self.front.settings.subscribers)
        self.before, self.own = self.gave, facts[len(begun):]
        self.check_own(self.gave, 0)
        if self.more and not self.front.settings.library:
            raise Failed("%s has lines that %s lacks, and a program takes none while it runs: take them out, or run the library's MME "
                         "(--library)" % (self.front.settings.subscribers, LOG), WRONG)
        return Head(begun + self.gave)

    def in_file(self):
        """The lines of the subscribers' file, with what was given beside the turns in its place."""
        facts = self.front.facts
        begun = stored.facts_of(self.head, facts, self.front.settings.subscribers)
        return begun + self.gave + [line for line in facts[len(begun):] if line not in self.gave]

    @property
    def is_apart(self):
        """Whether lines stand in the log alone: what a source supplied, or what the file lacks of a snapshot's."""
        return self.front.asking is not None or self.taken is not None and self.taken.is_apart

    def check_own(self, lines, at):
        """Refuses a subscribers' file that has other lines at a place than were given, as far as both go and it is to have them."""
        own = self.own[at:at + len(lines)]
        if not self.is_apart and lines[:len(own)] != own:
            raise Failed("%s has other lines after those that %s begins with than were given" % (
                self.front.settings.subscribers, LOG), WRONG)

    @property
    def more(self):
        """The lines of the subscribers' file that the log lacks."""
        if not self.is_apart:
            return self.own[len(self.before) + len(self.further):]
        given = {*self.before, *self.further}
        return [line for line in self.own if line not in given and not (self.taken and self.taken.has(line))]

    def follow(self):
        """Plays what comes, until this front leads; the lines of provisioning that the log lacks."""
        self.begin()
        while not self.front.is_over:
            news = self.read()
            if news is None:
                continue
            last = stored.last_in(news[1])
            self.check_log(news[0], last)
            if stored.numbers_of(news[2]) or self.last == stored.NOTHING != last or self.lacks(news[3], news[4]):
                self.begin_mme(news)
                continue
            self.note_last(last)
            self.front.saving.note(b"".join(stored.values_of(news[4])))
            self.play(news[3])
            if self.number < last.number or self.front.is_over:
                continue
            self.check_used()
            self.front.saving.follow(time.monotonic())
            if self.may_lead() and self.lead():
                return self.more
            self.rest(limits.READING_SOON if stored.numbers_of(news[3]) else limits.READING_SECONDS)
        return ()

    def check_log(self, head, last):
        """Ends the front where the log isn't the one that it follows any more."""
        head = b"".join(stored.values_of(head))
        if self.number > last.number or self.head and stored.id_of(self.head) != stored.id_of(head):
            raise Failed("%s was begun anew, or has gone back from turn %d to turn %d" % (LOG, self.number, last.number), NOT_YET)
        self.head = self.head and head

    def lacks(self, turns, names):
        """Whether turns are gone that it is to play, and there is a snapshot since it began, to begin at in their place."""
        numbers, names = stored.numbers_of(turns), b"".join(stored.values_of(names))
        return bool(numbers) and numbers[0] != self.number + 1 and names not in (b"", self.names)

    def check_used(self):
        """Refuses, once, a log without a challenge whose vector was used, as far as this machine knows."""
        if self.is_checked:
            return
        self.is_checked = True
        given = self.front.head.facts if self.taken is None else self.further
        vectors = set(map(vector_of, given + self.more)).union(self.taken.left if self.taken else ())
        try:
            self.front.check_used(vectors, LOG)
        except NoResume as fault:
            raise Failed("%s; to begin a log in the store, leave these vectors out of %s" % (
                fault, self.front.settings.subscribers), WRONG) from None

    def play(self, turns):
        """Gives the MME turns, which come right after those that it was given."""
        numbers = stored.numbers_of(turns)
        owed = list(range(self.number + 1, self.number + 1 + len(numbers)))
        if numbers != owed or not numbers and self.number < self.last.number:
            raise Failed("%s isn't whole after turn %d" % (LOG, self.number), WRONG)
        if numbers:
            stored.check_version(self.head, NOT_YET)
        for number, octets in zip(numbers, stored.values_of(turns)):
            if not self.front.is_over:
                self.play_turn(number, octets)
        self.is_full = self.number < self.last.number
        self.most = min(2 * self.most, limits.TURNS_READ)
        self.front.wait()

    def play_turn(self, number, octets):
        """Gives the MME a turn."""
        front = self.front
        try:
            front.check_lines(octets, LOG)
        except NoResume as fault:
            raise Failed(str(fault), WRONG) from None
        self.note_further(further_in(octets))
        note_stations(octets, self.up)
        front.exchange.shows.extend([lambda answer: None] * octets.count(b"\nshow "))
        front.teller.take_before(octets)
        front.exchange.replay(octets)
        self.number, self.turn, self.size = number, octets, self.size + len(octets)
        while front.exchange.program.size and not front.is_over:
            front.turn_before_stations()

    def note_further(self, lines):
        """Notes lines of provisioning that stand in a turn, which the library alone takes there."""
        if lines and not self.front.settings.library:
            raise Failed(OF_LIBRARY % LOG, WRONG)
        self.check_own(lines, len(self.before) + len(self.further))
        self.further += lines

    # Leading.

    def may_lead(self):
        """Whether this front is to lead now."""
        return not self.front.settings.standby or time.monotonic() - self.since > limits.SILENCE_SECONDS

    def lead(self):
        """Takes the lead right after the turn that was played last, by a turn as after a crash: time has passed, and all stations
        are lost. Whether this front leads."""
        front, told, stations, head = self.front, [], len(self.up), self.head
        after = stored.Last(self.last.epoch + 1, self.number + 1, stored.drawn())
        seconds = self.seconds()
        turn = octets_of([TIME % clock(), "# leads: epoch %d" % after.epoch, *(["tick %d" % seconds] if seconds else []),
                          *("lost %d" % number for number in sorted(self.up))])
        puts = self.scheme.turn(after.number, turn)
        if self.last == stored.NOTHING:
            self.head = stored.head_of(front.head.facts)
        elif head:
            self.head = stored.head_by_this(head)
        if self.head != head:
            puts.append(self.scheme.put(self.scheme.key("head"), self.head))
        step = stored.Step(self.etcd, self.scheme, self.last, after, puts, told.append)
        while not told and not front.is_over:
            front.turn_before_stations()
            if step.fault is not None and self.fault is None:
                self.fault = step.fault
                front.voice.say("no_lead", "can't lead, and tries again: %s" % self.fault.words)
        if told != [True]:
            self.since = time.monotonic()
            self.head = head
            return False
        self.fault = None
        self.play_turn(after.number, turn)
        front.wait()
        journal = stored.StoreJournal(self.etcd, self.scheme, after, front.head, front.form)
        journal.size, journal.time = self.size, self.time
        front.leads(journal, stations, seconds)
        return True

    @property
    def time(self):
        """The time of day that the last turn has."""
        return time_in(self.turn)

    def seconds(self):
        """How long ago the last turn was: by this front's own clock where it came while this front followed, else by the time of
        day that the turn has."""
        if self.came is not None:
            return min(int(time.monotonic() - self.came), runs.LONGEST_TICK)
        return seconds_since(self.turn) or 0

    def close(self):
        if self.room is not None:
            self.room.close()
        self.etcd.close()
