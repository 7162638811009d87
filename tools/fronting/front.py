"""The front: gives the MME what stations send, and them what it answers."""
import functools
import gc
import os
import select
import signal
import time

from tools.fronting import limits
from tools.fronting.adding import Adding, lines_in, parts_of as parts_of_lines
from tools.fronting.aside import Aside
from tools.fronting.asking import Asking
from tools.fronting.attaches import Attaches
from tools.fronting.census import Census
from tools.fronting.control import OF_STANDBY, WORDS, Control
from tools.fronting.crowd import Crowd
from tools.fronting.exchange import Exchange
from tools.fronting.faults import BABBLES, LOG_FAILS, SILENT, WRONG, Ended, Failed, told
from tools.fronting.followers import Followers
from tools.fronting.holding import Holding
from tools.fronting.journal import Journal
from tools.fronting.keys import YES, Missing, form_of
from tools.fronting.listening import begin_to_listen
from tools.fronting.loop import Loop
from tools.fronting.meters import Meters
from tools.fronting.mme import LINE_IS_WRONG, LibraryMme, PipedMme, library
from tools.fronting.notify import Manager
from tools.fronting.provisioning import Head
from tools.fronting.restoring import standing_after
from tools.fronting.resuming import (
    NAMED, OF_LIBRARY, OR_FILLED, NoResume, Standing, facts_in, make_way, note_stations, parts_of, perhaps_used)
from tools.fronting.saving import Saving
from tools.fronting.soundness import Soundness
from tools.fronting.standby import Standby
from tools.fronting.stock import Stock
from tools.fronting.storing import Storing
from tools.fronting.syncing import LOST, Syncer, why_unsure
from tools.fronting.teller import Teller
from tools.fronting.traffic import Traffic
from tools.fronting.used import vector_of
from tools.fronting.watchdog import Watchdog

from tools import runs

CARE_SECONDS = 1.0  # between two looks at what takes too long
UNCOLLECTED = 50000  # objects after which unused ones are looked for; cycles of them are few
OF_PROGRAM = ("a program takes no lines while it runs: end the front, put them at the end of the subscribers' file, and begin it again "
              "(--resume); or run the library's MME (--library)")
# What to do where a log begins with other lines than the file of subscribers, by whether it has keys.
OTHER_LINES = {
    True: ": lines that were given have to stand at its end",
    False: ", and has no keys: each of its vectors has to stand there",
}


class Front:
    """The MME, the stations, and whoever asks."""

    def __init__(self, settings, head, voice, used):
        self.settings, self.head, self.voice, self.used = settings, head, voice, used
        self.facts = list(head.facts)  # of the subscribers' file
        self.loop, self.manager = Loop(), Manager(os.environ)
        self.meters = Meters(keeps_messages=settings.page is not None)
        self.exchange = self.crowd = self.control = self.page = self.giving = self.stock = self.teller = self.followers = None
        self.standby = self.watchdog = None  # where the log is in a store
        self.aside, self.census, self.attaches, self.soundness = Aside(self), Census(self), Attaches(self), Soundness(self)
        self.traffic = Traffic(self)
        self.coming, self.holding = [], None  # lines of provisioning on their way to the MME; messages held for vectors
        self.asking = Asking(self, settings.source, settings.add) if settings.source else None
        self.is_over, self.is_busy = False, False
        self.known, self.begun = set(), 0  # IMSIs of the head and of lines that are played; how many the head began with
        self.resumed, self.given = 0, 0
        self.form = form_of(settings.log_keys, head)  # of the log, as it begins
        self.package = library() if settings.library else None
        self.make = functools.partial(*((LibraryMme, self.package) if settings.library else (PipedMme, settings.mme)))
        self.saving = (Saving if settings.store is None else Storing)(self)

    # The beginning.

    def begin(self):
        """Starts the MME, with the last log before it where that is to be resumed; it has answered then."""
        if self.settings.store is not None:
            return self.begin_in_store()
        more = self.resume() if self.has_log() else None
        if more is None:
            self.saving.begin_anew()
            self.put_away()
            self.leave_out_used()
            journal = Journal.begun(self.settings.log, self.head, *self.log_size, self.form)
            self.start(self.head)
            self.write_to(journal)
            self.exchange.replay(b"")
            self.wait()
        return more

    def put_away(self):
        """The log that stands makes way. Where it isn't known which of its vectors were used, all count as used."""
        lost = [] if self.used.known else perhaps_used(self.settings.log, self.head.facts)
        make_way(self.settings.log, self.settings.keep)
        if lost:
            self.count_used(lost)
            self.voice.say("used_unknown", "%s is lost: all vectors of the log count as used" % self.used.path)

    def has_log(self):
        """Whether a log stands that this run is to go on after, and all that was answered is in it. Where that isn't known and a
        run is to begin anew, all its vectors count as used."""
        log, resumes = self.settings.log, self.settings.resume
        why = why_unsure(log)
        if why and resumes and not self.settings.anew:
            raise Failed("%s (--anew begins with nobody attached)" % why, WRONG)
        if why:
            self.count_used(facts_in(log, self.head.facts))
            self.voice.say("not_resumed", "the last run isn't resumed, and nobody is attached: %s" % why)
        return resumes and not why and bool(parts_of(log))

    def count_used(self, lines):
        """All vectors of these lines of a log count as used; where one of them is damaged, those of the subscribers' file too."""
        if not self.used.add(lines):
            self.used.add(self.head.facts)

    def write_to(self, journal):
        """From now on what the MME is given stands in this log, and on disk where it is to be synced. The vectors that were used are
        on disk before the log counts as synced."""
        self.saving.write_to(journal)
        self.exchange.write_to(journal)
        try:
            self.used.sync()
            journal.keep_by(Syncer(self.loop) if self.settings.sync == YES else None)
        except OSError as fault:
            raise Failed("%s: %s" % (self.settings.log, told(fault)), LOG_FAILS) from None
        if self.settings.sync != YES:
            self.voice.say("not_synced", LOST % self.settings.log)

    def leave_out_used(self):
        """The run that begins has no vector that an earlier one used."""
        before, count = self.head.facts, sum(vector_of(line) in self.used.known for line in self.head.facts)
        if count:
            self.head = self.used.begun(self.head)
            self.saving.leave_out(self.used, before, self.head.facts)
            self.voice.say("used", "%s left out, used before (%s)" % (
                "1 vector is" if count == 1 else "%d vectors are" % count, self.used.path), vectors=count)

    @property
    def log_size(self):
        return self.settings.segment_size << 20, self.settings.segments

    def start(self, head, make=None):
        self.exchange = Exchange(self.loop, self.voice, self.meters, self.used, self.settings.full_disk)
        self.exchange.note_challenge = self.note_challenge
        self.exchange.lengthen, self.exchange.note_refused = self.lengthen, self.has_refused
        self.exchange.note_further, self.exchange.note_missing = self.saving.add, self.saving.hurry
        self.start_mme(head, make)

    def start_mme(self, head, make=None):
        """An MME with this head, and what follows its phones."""
        self.census.begin()
        self.head, self.known, self.begun = head, set(head.slots), len(head.imsis)
        if self.settings.library:
            head.prepare()
        self.saving.begin(head)
        self.stock = Stock(head, self.has_few, limits.FEW_VECTORS if self.asking is None else limits.NEVER_FEW)
        if self.asking is not None:
            self.asking.begin_anew()
        if self.followers is not None:
            self.followers.lengthen()
        self.exchange.begin(make or self.make, head)
        if self.teller is not None:
            self.teller.end(None)
        self.teller = Teller(self)
        if self.settings.page is not None:
            self.teller.begin(head)

    def note_challenge(self, slot, rand):
        """A challenge uses a phone's vector."""
        if slot < len(self.stock.rands):
            self.stock.note(slot, rand)
            self.saving.note_challenge(slot, rand)
            if self.asking is not None:
                self.asking.note(slot)
                self.asking.registering.note_challenge(slot)

    def note_attached(self, slot):
        """A phone has completed an attach."""
        if self.asking is not None:
            self.asking.registering.note_attached(slot)

    def note_cancelled(self, slot):
        """Somebody has a phone's registration be ended by the lines that are put."""
        if self.asking is not None:
            self.exchange.batch.after.append(functools.partial(self.asking.registering.look, slot))

    def note_settled(self, batch):
        """A batch is answered and kept."""
        self.followers.bearers.take(batch)
        if self.asking is not None:
            self.asking.registering.note_batch(batch)

    def has_few(self, slot, left):
        """A phone has few vectors left."""
        self.voice.say("few_vectors", "s%d has %s left (`ask phones` has each phone's, in the order of their numbers)"
                       % (slot, runs.counted(left, "vector")), slot=slot, left=left)

    def wait(self):
        """Waits until the MME has answered all that it was given."""
        while self.exchange.marks and not self.is_over:
            self.turn_before_stations()

    def turn_before_stations(self):
        """Turns once, and sees that the MME doesn't take too long."""
        timer = self.loop.after(CARE_SECONDS, lambda: None)
        self.loop.turn()
        timer.cancel()
        if self.exchange is None:
            return
        if self.exchange.has_answered:
            self.exchange.check_answers(time.monotonic(), self.settings.answer_seconds)
        elif time.monotonic() - self.exchange.heard_at > limits.FIRST_SECONDS:
            raise Failed("%s doesn't answer a line within %d s; the proved program does (./mme --prove)"
                         % (self.settings.mme, limits.FIRST_SECONDS), SILENT)

    def resume(self):
        """Plays the log that stands, and goes on after it. The lines of provisioning that came since; nothing where it can't be,
        and a run is to begin anew."""
        subscribers = self.head
        try:
            standing = standing_after(self) or Standing(self.settings.log)
            count, given = len(standing.facts), self.given_after(standing, subscribers)
            self.saving.leave_out(self.used, subscribers.facts, given)
            up = self.play(standing, self.head_after(standing, given))
            if self.is_over:
                return ()
            self.check_used(standing.vectors, self.settings.log)
        except (NoResume, Missing, Failed) as fault:
            self.head = subscribers
            self.not_resumed(fault)
            return None
        seconds = standing.seconds_since()
        self.take_up(standing)
        self.exchange.put("# resumed")
        if seconds:
            self.exchange.put("tick %d" % seconds)
        for number in sorted(up):
            self.exchange.put("lost %d" % number)
        self.exchange.flush()
        self.wait()
        self.resumed = 1
        self.voice.say("resumed", "the run of %s goes on: %s lost, %d s passed" % (
            self.settings.log, "1 station was" if len(up) == 1 else "%d stations were" % len(up), seconds),
            stations=len(up), seconds=seconds)
        return given[count:] if self.settings.library else ()

    def given_after(self, standing, subscribers):
        """The lines of provisioning that a run has which goes on after a log: those that stand, the first of them in the subscribers'
        file too, and what that has more."""
        first = standing.in_file(self.asking is not None)
        count, given = len(first), self.used.after(first, subscribers).facts
        more = [line for line in given[count:] if not standing.has(line)]
        return given[:count] + standing.facts[count:] + more

    def not_resumed(self, fault):
        """The last run can't go on: ends with the status of what stays wrong, unless a run is to begin anew then."""
        status = getattr(fault, "status", WRONG)
        if isinstance(fault, Failed) and not isinstance(fault, Ended) and status != BABBLES:
            raise fault
        if self.exchange is not None:
            self.exchange.program.close()
            self.exchange = None
        if not self.settings.anew:
            raise Failed("the last run isn't resumed: %s (--anew begins with nobody attached)" % fault,
                         WRONG if status in (LINE_IS_WRONG, BABBLES) else status)
        self.voice.say("not_resumed", "the last run isn't resumed, and nobody is attached: %s" % fault)

    def check_used(self, vectors, log):
        """Refuses a log that hasn't the challenge of each of these vectors that was used: it isn't what the MME was given last."""
        missing = self.used.among(vectors) - self.exchange.replayed
        self.exchange.replayed = None
        if missing:
            raise NoResume("%s has no challenge of %s that %s has: something is missing in it, or another run came after it" % (
                log, runs.counted(len(missing), "vector"), self.used.path))

    def take_up(self, standing):
        """The log goes on, and has first that all which stands in it is settled."""
        try:
            journal = standing.journal(*self.log_size, self.form)
            if not self.settings.library and len(self.head.facts) > len(standing.head.facts):
                self.lengthen_log(journal, self.head.facts[len(standing.head.facts):])
            if self.teller.world is not None:
                journal.count_standing_lines()
            self.write_to(journal)
            for batch in self.tail:
                journal.settle(batch)
            journal.write_settled(time.monotonic(), at_once=True)
        except OSError as fault:
            raise Failed("%s: %s" % (self.settings.log, told(fault)), LOG_FAILS) from None

    def lengthen_log(self, journal, more):
        """The log has these lines in its head."""
        journal.lengthen(self.head)
        counts = [sum(line.startswith(word) for line in more) for word in ("sub ", "vec ")]
        self.voice.say("given", "given %s, %s: they stand in the head of %s" % (
            runs.counted(counts[0], "subscriber"), runs.counted(counts[1], "vector"), self.settings.log))

    def head_after(self, standing, given):
        """The head to play a log with, whose lines those of the subscribers' file begin with, and then with those given since."""
        log, subscribers = self.settings.log, self.settings.subscribers
        if standing.further and not self.settings.library:
            raise NoResume(OF_LIBRARY % log + OR_FILLED)
        if standing.has_keys != self.form.has_keys:
            stands, wanted = ("the vectors' keys" if form.has_keys else "no keys" for form in (standing, self.form))
            raise NoResume("%s keeps %s, and this run's log is to keep %s (--log-keys)" % (log, stands, wanted))
        lines = self.form.taken_up(standing.facts, given)
        if lines is None:
            raise NoResume("%s begins with other lines than %s%s" % (log, subscribers, OTHER_LINES[standing.has_keys]))
        if standing.make:
            return standing.head
        head = Head(list(standing.head.lines) if standing.has_keys else lines[:len(standing.head.facts)])
        return head if self.settings.library else self.longer(head, given[len(lines):])

    def longer(self, head, more):
        """The head that a program plays a log with, by all lines of the subscribers' file: those given early are given late."""
        try:
            return head.with_more(more) if more else head
        except runs.Fault as fault:
            raise Failed("what %s has more than %s can't be given: %s" % (
                self.settings.subscribers, self.settings.log, fault), WRONG) from None

    def play(self, standing, head):
        """Gives the MME what counts of a log, and what happened since that was settled; the stations that were connected."""
        up, fill = set(), self.form.filling()
        self.start(head, standing.make)
        self.stock.is_quiet = True
        exchange, exchange.is_replaying, exchange.replayed = self.exchange, True, set()
        standing.restore(self, up)
        for piece in standing.events():
            self.check_lines(piece, self.settings.log)
            note_stations(piece, up)
            filled = fill(piece)
            self.teller.take_before(filled)
            exchange.replay(filled)
            while exchange.program.size and not self.is_over:
                self.turn_before_stations()
        exchange.replay(b"")
        self.wait()
        exchange.is_replaying, exchange.meters = False, Meters()  # what was sent before isn't counted as sent now
        self.tail = standing.tail_batches(fill)
        for batch, octets in zip(self.tail, standing.tail):
            self.check_lines(octets, self.settings.log)
            note_stations(octets, up)
            exchange.shows.extend([lambda answer: None] * sum(line.startswith("show ") for line in batch.lines))
            exchange.marks.append(batch)
            lines = "".join(line + "\n" for line in batch.lines).encode("latin-1")
            self.teller.take_before(lines)
            exchange.program.give(lines + exchange.mark)
        self.wait()
        self.has_caught_up()
        return up

    def has_caught_up(self):
        """What happens from now on is new: it is counted, and said of phones that come to have few vectors."""
        self.stock.is_quiet, self.exchange.meters = False, self.meters
        if self.stock.low:
            self.voice.say("few_vectors", "%s used all vectors but %d or fewer (`ask phones` has each phone's)"
                           % (runs.counted(len(self.stock.low), "phone"), limits.FEW_VECTORS), phones=len(self.stock.low))

    def check_lines(self, octets, log):
        """Refuses lines of a log for an IMSI that nobody has: no run writes them, and by such a line's answer the front knows that
        a batch is over. Those that lines of provisioning add are known from there on."""
        coming = set()
        for found in NAMED.finditer(octets):
            of_phone, added = found.groups()
            if added:
                coming.add(added.decode())
            elif of_phone.decode() not in self.known and of_phone.decode() not in coming:
                raise NoResume("%s has a line that is damaged: nobody has the IMSI %s" % (log, of_phone.decode()))
        self.known |= coming
        self.exchange.keep_unknown(coming)

    # The log in a store.

    def begin_in_store(self):
        """Follows the log in the store until this front leads; the lines of provisioning that the log lacks."""
        self.has_log()  # one that may lack what was answered
        self.put_away()
        self.standby = Standby(self, self.settings.store)
        return self.standby.follow()

    def begin_following(self, head, taken=None):
        """Begins the MME that is to play the log in the store from its first turn on, or from a snapshot on that was taken, in the
        place of one that did so."""
        is_first, make = self.exchange is None, taken and taken.make
        if is_first:
            self.start(head, make)
            self.exchange.is_replaying, self.exchange.meters = True, Meters()
        else:
            self.wait()
            self.exchange.program.close()
            self.exchange.has_answered = False
            self.start_mme(head, make)
        self.stock.is_quiet, self.exchange.replayed = True, set()
        if taken is not None:
            taken.restore(self)
        self.exchange.replay(b"")
        self.wait()
        if is_first and not self.is_over:
            self.open_to_guests()
            self.control.answered = OF_STANDBY
            self.is_ready()
            self.voice.say("follows", "follows the log in the store at %s; control at %s" % (
                self.settings.store, self.settings.control))

    def leads(self, journal, stations, seconds):
        """This front leads: what it is given from now on it writes itself, and answers."""
        self.exchange.is_replaying = False
        self.has_caught_up()
        self.exchange.write_to(journal)
        try:
            self.used.sync()
        except OSError as fault:
            raise Failed("%s: %s" % (self.used.path, told(fault)), LOG_FAILS) from None
        journal.syncer = Syncer(self.loop)
        self.saving.leads()
        self.watchdog, self.control.answered = Watchdog(self.voice), WORDS
        self.resumed = int(journal.last.number > 1)
        self.voice.say("leads", "leads from turn %d of epoch %d on%s" % (
            journal.last.number, journal.last.epoch, ": the run in the store goes on: %s lost, %d s passed" % (
                "1 station was" if stations == 1 else "%d stations were" % stations, seconds) if self.resumed else ""),
            epoch=journal.last.epoch, turn=journal.last.number)

    @property
    def stands_by(self):
        """Whether the log is in a store, and another front's to write."""
        return self.standby is not None and self.exchange.journal is None

    # Stations and guests.

    def open_to_guests(self):
        """Takes those who ask."""
        self.crowd = Crowd(self.loop, self.exchange, self.voice, self.meters, self.attaches, self.settings)
        self.followers = Followers(self)
        control, page = self.doors
        self.control = Control(self, control)
        if page is not None:
            self.page = page(self)

    def open(self, listener, link):
        """Takes stations."""
        if self.standby is None:
            self.open_to_guests()
        else:
            begin_to_listen(listener)
        if self.resumed:
            self.crowd.used = set(range(runs.STATIONS))
        self.exchange.note_context = self.attaches.accept
        self.exchange.note_settled = self.note_settled
        if self.asking is not None:
            self.begin_to_ask()
        self.crowd.listen(listener, link)
        self.tick_due = time.monotonic() + self.settings.second
        self.loop.after(self.settings.second, self.tick)
        self.care()
        if self.standby is None:
            self.is_ready()

    def begin_to_ask(self):
        """Begins the source of vectors; messages are held for what it supplies."""
        self.holding = Holding(self, self.asking)
        self.crowd.sift, self.crowd.let_go = self.holding.sift, self.holding.part
        self.exchange.passes_over = self.holding.passes_over
        self.asking.begin()

    def is_ready(self):
        """Tells the service manager that it does what it is for, and from now on that it still turns."""
        self.manager.tell(READY=1)
        if self.manager.period:
            self.tell_manager()

    # While it runs.

    def handle_signals(self):
        """Has signals turn the loop, and note what is to be done."""
        reading, writing = os.pipe()
        for file in (reading, writing):
            os.set_blocking(file, False)
        self.wakes = reading, writing
        signal.set_wakeup_fd(writing, warn_on_full_buffer=False)
        self.loop.watch(reading, select.EPOLLIN, lambda events: os.read(reading, 100))
        acts = {signal.SIGINT: self.finish, signal.SIGTERM: self.finish, signal.SIGHUP: lambda: self.loop.after(0, self.roll)}
        self.handlers = {number: signal.signal(number, lambda number, frame: acts[number]()) for number in acts}

    def finish(self):
        self.is_over = True

    def roll(self):
        """Begins new segments of the log, where it has some."""
        if self.settings.store is None:
            self.exchange.look_after_log(rolls=True)
            self.voice.say("rolled", "the log begins new segments")

    def serve(self):
        """Turns until it is to end: what can be read is read and what can be sent is sent, all of a kind at once."""
        gc.collect()
        gc.freeze()
        gc.set_threshold(UNCOLLECTED, 10, 100)
        while not self.is_over:
            self.loop.turn(self.is_busy)
            self.meters.now = time.time()
            self.crowd.send()
            self.is_busy = self.crowd.collect()
            self.saving.look()
            self.exchange.flush()

    def tick(self):
        """Gives the MME each second."""
        now, seconds = time.monotonic(), 0
        while self.tick_due <= now:
            self.tick_due += self.settings.second
            seconds += 1
        if seconds:
            self.exchange.put("tick %d" % seconds)
            if self.asking is not None:
                self.asking.registering.tick(seconds)
        self.loop.after(self.tick_due - now, self.tick)

    def care(self):
        """Looks at what takes too long, and after the log."""
        now = time.monotonic()
        if self.watchdog is not None:
            self.watchdog.look()
        if self.standby is not None and self.exchange.held_since is not None:
            self.census.answer()  # since nobody is told what doesn't stand in the log
        self.crowd.sweep(now)
        self.exchange.check_answers(now, self.settings.answer_seconds)
        self.exchange.look_after_log()
        self.saving.care(now)
        self.soundness.look()
        if self.asking is not None:
            self.asking.look(now)
        self.loop.after(CARE_SECONDS, self.care)

    def tell_manager(self):
        """Tells the service manager that it still turns."""
        self.manager.tell(WATCHDOG=1, STATUS=runs.counted(len(self.crowd.stations), "station"))
        self.loop.after(self.manager.period, self.tell_manager)

    def give(self, text, reply):
        """Provisions further subscribers and vectors, and replies how that went."""
        if not self.settings.library:
            raise runs.Fault(OF_PROGRAM)
        if self.giving is not None:
            raise runs.Fault("something is being given already")
        self.add(lines_in(text), reply)

    def add(self, parts, reply):
        """Provisions them in the MME that runs."""
        self.giving = Adding(self, parts, reply)
        self.giving.go_on()

    def lengthen(self, lines):
        """The MME has taken further lines of provisioning."""
        self.head.add(lines)
        self.form.add(lines)
        self.stock.lengthen(self.head)
        if self.followers is not None:
            self.exchange.do(self.exchange.marks[0].turn, self.followers.lengthen)

    def was_given(self, imsi):
        """Whether a subscriber isn't of the log's head, so that `mme play` ends at `show` of it."""
        return self.settings.library and self.head.slots[imsi] >= self.begun

    def has_refused(self, number, line):
        """The MME has refused a further line of provisioning, of those that are given now or of a log. As it stands in the log, it
        isn't given again."""
        self.head.known.add(line)
        self.teller.refuse()
        if self.exchange.is_replaying:
            return
        if self.asking is not None and self.asking.coming.brings(line):
            self.asking.is_refused(number, line)
        elif self.giving is not None:
            self.giving.is_refused(number, line)

    def give_more(self, lines):
        """Gives the lines of the subscribers' file that the log lacks."""
        self.add(parts_of_lines(lines), self.has_given_more)

    def has_given_more(self, answer):
        """Says which of those lines can't be given, counted from the first."""
        if answer.startswith("fault "):
            self.voice.say("not_given", "what the subscribers' file has more than the log isn't given: %s" % answer.partition(" ")[2])

    # The end.

    def stop(self):
        """Has each station be lost, ends the MME's input and sends its last answers; the MME's status."""
        self.manager.tell(STOPPING=1)
        if self.watchdog is not None:
            self.watchdog.close()
        if self.exchange is None or self.exchange.program is None:
            return 0
        if self.giving is not None:
            self.giving.refuse("the front ends")
        if self.asking is not None:
            self.asking.stop()
        if self.crowd is not None:
            self.crowd.refuse()
            self.crowd.lose_all()
        self.turn_until(lambda: not self.exchange.is_syncing, limits.LAST_SECONDS)
        self.exchange.end_input()
        program = self.exchange.program
        self.turn_until(lambda: program.status is not None and program.is_silent, limits.LAST_SECONDS)
        for number in (signal.SIGTERM, signal.SIGKILL):
            if program.status is None:
                self.voice.say("mme_stays", "the MME doesn't end with its input, so by %s" % number.name)
                program.kill(number)
                self.turn_until(lambda: program.status is not None, limits.SENDING_SECONDS)
        self.turn_until(lambda: not self.exchange.is_syncing, limits.LAST_SECONDS)
        if self.crowd is not None:
            self.crowd.send()
            self.turn_until(self.crowd.has_sent, limits.SENDING_SECONDS)
        self.saving.begin_end()
        self.exchange.end_log()
        self.saving.end()
        return program.status or 0

    def turn_until(self, holds, seconds):
        """Turns until something holds, or `seconds` have passed."""
        end = time.monotonic() + seconds
        while not holds() and time.monotonic() < end:
            timer = self.loop.after(min(0.05, max(0.0, end - time.monotonic())), lambda: None)
            try:
                self.loop.turn()
            except Failed:
                pass
            timer.cancel()
            if self.crowd is not None:
                self.crowd.send()

    def close(self):
        for part in (self.control, self.page, self.crowd, self.asking):
            if part is not None:
                part.close()
        self.saving.stop()
        if self.exchange is not None:
            if self.exchange.program is not None:
                self.exchange.program.close()
            if self.exchange.journal is not None:
                self.exchange.journal.close()
        if self.standby is not None:
            self.standby.close()
        for number, handler in self.handlers.items():
            signal.signal(number, handler)
        signal.set_wakeup_fd(-1)
        for file in self.wakes:
            os.close(file)
        self.loop.close()

    def run(self, listener, link, control, page=None):
        """Runs to its end."""
        self.handle_signals()
        status, failed, self.doors = 0, None, (control, page)
        try:
            more = self.begin()
            if not self.is_over:
                self.open(listener, link)
                self.voice.say("ready", "ready: stations at %s port %d by %s; control at %s; log in %s" % (
                    *listener.getsockname()[:2], link.NAME, self.settings.control, self.settings.store or self.settings.log))
                if more:
                    self.give_more(more)
                self.serve()
        except Failed as fault:
            failed = fault
        try:
            status = self.stop()
            if failed is None and not status and self.followers is not None:
                self.followers.end()
        finally:
            self.close()
        if failed is not None:
            raise failed
        if status:
            raise Ended(status)
