"""The exchange with the MME: what it is given, which stands in the log before, and whom its answers are for.

What the MME is given at once is a turn. It plays it while the log commits it (journal.py); what it answers is held until that is
done, and goes out in its order: messages to stations, and what those who ask are told. One turn is under way at a time, and what
comes meanwhile is the next.

Each batch of lines ends with a mark, `data` for an IMSI that nobody has. The MME refuses it and changes nothing, so its refusal
says that all before it is answered. Marks aren't in the log.
"""
import binascii
import collections
import contextlib
import functools
import time

from tools import runs

from tools.fronting import bearers, limits
from tools.fronting.challenges import AUTHENTICATION_REQUEST_DIGITS, challenged
from tools.fronting.faults import BABBLES, Ended, Failed, LOG_FAILS, SILENT, Unheld, told
from tools.fronting.journal import Batch
from tools.fronting.meters import CONTEXT_REQUEST, DOWNLINK, ERROR_INDICATION, RESET_ACKNOWLEDGE, SETUP_RESPONSE
from tools.fronting.mme import MARK_ANSWER, NOT_TAKEN, TAKEN, nothing
from tools.fronting.used import entry_of

OUT, STATE, PHONE_OWNER, OWNERS = b"out ", b"state ", ord("s"), b"esx"
OUT_OF_PHONE, OF_FURTHER = OUT + b"s", (TAKEN, NOT_TAKEN)
NO_OCTETS = b"-"
NUMBERS = {b"%d" % number: number for number in range(runs.STATIONS)}
# How messages begin of which more is noted than that they go out; by one of the first two the MME may say that nothing changed.
OF_NO_CHANGE = {ERROR_INDICATION, RESET_ACKNOWLEDGE}
LOOKED_AT = OF_NO_CHANGE | {SETUP_RESPONSE, DOWNLINK, CONTEXT_REQUEST} | bearers.OF_MME
END, REFUSE, GO_ON = "end", "refuse", "go-on"  # what is done on a full disk


class Exchange:
    """Gives the MME batches of lines, and takes its answers."""

    def __init__(self, loop, voice, meters, used, full_disk=END):
        self.loop, self.voice, self.meters, self.used, self.full_disk = loop, voice, meters, used, full_disk
        self.journal = self.program = self.make = self.mark = self.nobody = None  # the last: the IMSI of the mark
        self.imsis, self.coming = [], set()  # by slot; those that are to be given
        self.replayed = None  # while a log is played, the vectors of its challenges, each as LOG.used has it
        self.keeps_challenges = False  # whether it was said that none goes out
        self.batch, self.closed, self.marks = Batch(), [], collections.deque()
        self.receivers = dict.fromkeys(NUMBERS)  # by number, who gets what is sent for it
        self.shows = collections.deque()  # whom the next states are for
        self.held = collections.deque()  # what waits for the log: a turn, writes beside it, what is to be done then, and with what
        self.later = []  # what is done once the log takes the next turn
        self.note_challenge = lambda slot, rand: None  # who is told of each challenge, those that were sent before among them
        self.passes_over = lambda slot, rand, station, octets: False  # who is told of each that is new; whether it goes to nobody
        self.note_context = lambda slot, station, octets: None  # who is told of each INITIAL CONTEXT SETUP REQUEST of a phone
        self.follow = lambda batch: None  # who is told of each batch that the MME is given
        self.note_settled = lambda batch: None  # who is told of each batch that is answered and kept
        self.lengthen = lambda lines: None  # who is told of further lines of provisioning that the MME took
        self.note_refused = lambda number, line: None  # who is told of one that it refused, and by which number
        self.note_further = lambda lines: None  # who is told of all of them, in their order
        self.note_missing = nothing  # who is told that a part of what counts is missing
        self.dirty, self.rest, self.heard_at = set(), b"", 0.0
        self.has_answered, self.held_since = False, None
        self.is_replaying = False  # whether answers are those that were given before
        self.is_held = False  # whether the MME is to be given nothing for now

    # To the MME.

    def begin(self, make, head):
        """Starts the MME with this head; `make` makes one, by the loop, what hears its answers, and what hears its words."""
        self.make, self.imsis, self.coming = make, head.imsis, set()
        self.mark_by(head.unknown_imsi())
        self.adopt(make(self.loop, self.hear, self.voice.say))
        self.program.begin(head)

    def mark_by(self, imsi):
        """Marks are for this IMSI, which nobody has."""
        self.nobody, self.mark = imsi, b"data %s\n" % imsi.encode()

    def keep_unknown(self, imsis):
        """Subscribers of these IMSIs are to come: a mark is for none of them."""
        self.coming |= imsis
        if self.nobody in imsis:
            self.mark_by(runs.unknown_imsi(self.coming.union(self.imsis)))

    @property
    def slots(self):
        """How many subscribers there are or are to come."""
        return len(self.imsis) + len(self.coming)

    def adopt(self, program):
        """From now on this one is the MME."""
        self.program = program
        program.hear, program.end, self.rest = self.hear, self.end, b""
        self.heard_at = time.monotonic()

    def end(self, status):
        raise Ended(status, self.has_answered)

    def put(self, line, station=None):
        """A line for the MME, and the station that it is a message of."""
        self.batch.add(line, station)

    def lose(self, number):
        """A station is lost."""
        self.put("lost %d" % number)
        self.batch.lost.append(number)

    def part(self, after=None):
        """Ends the batch; `after` is called once all before it is answered."""
        if self.batch.lines:
            self.closed.append(self.batch)
            self.batch = Batch()
        if after is not None:
            last = self.closed[-1] if self.closed else self.marks[-1] if self.marks else None
            last.after.append(after) if last else after()

    @property
    def is_free(self):
        """Whether stations may have their turn."""
        is_held = self.is_held or self.held_since is not None
        return (not is_held and len(self.marks) < limits.IN_FLIGHT and self.program.size < limits.TURN_OCTETS
                and self.has_room)

    @property
    def has_room(self):
        """Whether more may be put for the turn to come."""
        lines, octets = len(self.batch.lines), self.batch.octets
        for batch in self.closed:
            lines, octets = lines + len(batch.lines), octets + batch.octets
        return lines < limits.TURN_MESSAGES and octets < limits.TURN_OCTETS

    @property
    def takes(self):
        """Whether the log takes the next turn."""
        return self.journal is None or self.journal.takes

    @property
    def is_syncing(self):
        """Whether a turn, or what stands beside the log, is being synced."""
        return self.journal is not None and self.journal.is_under_way

    @property
    def is_quiet(self):
        """Whether all that the MME was given is answered, and these answers are on their way."""
        return not self.marks and not self.held and self.takes

    def flush(self):
        """Gives the MME what was put, once it stands in the log."""
        self.part()
        if not self.closed or self.is_held or not self.takes or not self.is_written(self.closed):
            return
        now = time.monotonic()
        if not self.marks:
            self.heard_at = now
        text = []
        for batch in self.closed:
            batch.given = now
            self.follow(batch)
            text += batch.told(), self.mark
        self.marks.extend(self.closed)
        self.closed = []
        self.program.give(b"".join(text))
        self.settle_much()

    def end_input(self):
        """Gives the MME what was put, and then no more."""
        self.is_held = False
        try:
            self.flush()
            self.write_beside()
        except Failed as fault:
            self.voice.say("log_fails", str(fault))
        self.program.end = lambda status: None
        self.program.finish()

    def replay(self, octets, settle=None):
        """Gives the MME lines that stand in the log already."""
        batch = self.asked()
        if settle is not None:
            batch.after.append(settle)
        self.marks.append(batch)
        self.program.give(octets + self.mark)

    def asked(self):
        """A batch of what stands in no turn of its own, which the MME is given now."""
        batch = Batch()
        batch.given = time.monotonic()
        if not self.marks:
            self.heard_at = batch.given
        return batch

    def ask(self, lines, note, after):
        """Asks the MME for states, in lines that change nothing and don't stand in the log. Lines that can't be given yet, since the
        log can't be written, come after these."""
        self.flush()
        batch = self.asked()
        batch.turn = 0 if self.journal is None else self.journal.turn
        batch.after.append(lambda: self.do(batch.turn, after))
        place = len(self.shows) - sum(batch.questions() for batch in self.closed)
        for _ in lines:
            self.shows.insert(place, note)
        self.marks.append(batch)
        self.program.give("".join(line + "\n" for line in lines).encode("latin-1") + self.mark)

    def ask_after(self, line, imsi, note):
        """Asks the MME for a phone's states right after a line that comes into this batch, as `ask` does."""
        self.batch.asked[line] = imsi
        self.shows.append(note)

    # The log.

    def write_to(self, journal):
        """From now on what the MME is given stands in this log before."""
        self.journal, journal.tell = journal, self.is_told
        journal.beside.append(self.used)

    def is_told(self, fault):
        """More is committed, or there is a fault."""
        self.release()
        if fault is not None:
            self.log_fails(fault)
        elif self.takes:
            self.log_goes_on()
            while self.later and self.takes:
                self.later.pop(0)()
            self.settle_much()
            self.flush()

    def is_clear(self, turn):
        """Whether an answer to a turn may go out now, which none does before those that are held."""
        return not self.held and not self.used.noted and (self.journal is None or turn <= self.journal.committed)

    def do(self, turn, act, *given):
        """Does what goes out as an answer to a turn, or has it wait."""
        if self.is_clear(turn):
            act(*given)
        else:
            self.held.append((turn, self.journal.mark() if self.journal is not None else 0, act, given))

    def when_kept(self, act):
        """Has `act` be done once what was put last is answered and committed."""
        batch = self.batch
        batch.after.append(lambda: self.do(batch.turn, act))

    def release(self):
        """Does what waits no more."""
        while self.held and self.may_go(*self.held[0][:2]):
            _, _, act, given = self.held.popleft()
            act(*given)

    def may_go(self, turn, noted):
        """Whether what waits for a turn, and for so many writes beside it, waits no more."""
        return not self.used.noted if self.journal is None else self.journal.keeps(turn, noted)

    def write_beside(self):
        """Has it be written which vectors were used, before their challenges go out."""
        if self.used.noted:
            try:
                if self.journal is None:
                    self.used.write()
                else:
                    self.journal.write_beside()
                self.keeps_challenges = False
            except OSError as fault:
                self.used_fails("%s: %s" % (self.used.path, told(fault)))
        self.release()

    def used_fails(self, text):
        """It can't be written which vectors were used. Where the front goes on, their challenges go to nobody."""
        self.log_fails(Failed(text, LOG_FAILS))
        if self.full_disk != GO_ON:
            return
        # Of what waits together, all else goes out.
        for _, _, act, given in self.held:
            if act == self.challenge:
                messages, challenges = given
                messages[:] = [message for message in messages if message not in challenges]
        self.used.forget_noted()
        if not self.keeps_challenges:
            self.keeps_challenges = True
            self.voice.say("no_challenge", text + ": no phone is challenged by a vector that isn't noted there")

    def look_after_used(self):
        """Looks whether the file with the vectors that were used is still where it was, unless it is being synced."""
        if self.journal is not None and self.journal.is_noting:
            return
        try:
            if self.used.look_after():
                self.voice.say("used_again", "%s was moved or cut, and is written again" % self.used.path)
        except OSError as fault:
            self.used_fails("%s: %s" % (self.used.path, told(fault)))
        self.write_beside()

    def is_written(self, batches):
        """Whether the batches stand in the log, or needn't; on a full disk what was asked for is done."""
        if self.used.noted and self.held_since is not None:
            return False
        try:
            if self.journal is not None and self.journal.is_cut:
                self.check_log()
            if self.journal is None:
                return True
            self.journal.add(batches)
        except (OSError, Failed) as fault:
            self.log_fails(fault)
            return self.journal is None
        self.tell_gone()
        if self.journal.takes:
            self.log_goes_on()
        return True

    def log_goes_on(self):
        if self.held_since is not None:
            self.held_since = None
            self.voice.say("log_goes_on", "the log can be written again, and the stations are heard")

    def tell_gone(self):
        """Says which segments went for new ones."""
        for series, path in self.journal.take_gone():
            self.meters.gone += 1
            self.voice.say("segment_gone", "%s is the oldest segment, and removed: %s" % (
                path, self.meant_by_missing(series, is_old=True)),
                           path=path)

    def meant_by_missing(self, series, is_old=False):
        """What it means that a part of a series, or of its oldest segments, is missing."""
        if series is self.journal.counts and self.journal.needed is not None:
            return "a snapshot has what it led to" if is_old else "--resume can't use this run until there is another snapshot"
        if series is self.journal.counts:
            return "--resume and give can't use this run any more"
        return "the trace no longer plays from its beginning"

    def log_fails(self, fault):
        """The log can't be written: the front ends, holds the stations for a while, or goes on without it, as asked."""
        text = str(fault) if isinstance(fault, Failed) else "%s: %s" % (self.journal.path, told(fault))
        if self.full_disk == GO_ON:
            self.go_on_without(text)
            return
        now = time.monotonic()
        is_over = self.held_since is not None and now - self.held_since > limits.FULL_SECONDS
        if self.full_disk == END or is_over or isinstance(fault, Unheld):
            if self.journal is not None:
                self.journal.give_way()
            raise Failed(text, LOG_FAILS)
        if self.held_since is None:
            self.held_since = now
            self.voice.say("held", text + ": stations are refused and not heard until there is room")

    def go_on_without(self, text):
        """Goes on without a log, once it is sure that no run goes on after it: what is answered from now on isn't in it. Where it
        was synced, the vectors that were used still are."""
        if self.journal is None:
            return
        self.used.syncs = self.journal.syncer is not None
        try:
            self.journal.give_up()
            if self.used.syncs:
                self.used.sync()
        except OSError as fault:
            raise Failed("%s: and it can't be given up: %s" % (text, told(fault)), LOG_FAILS) from None
        self.journal.close()
        self.journal = None
        self.voice.say("no_log", text + ": the run goes on without a log, so that it can't be played again or resumed")
        self.write_beside()
        for act in self.later:
            self.loop.after(0, act)
        self.later = []

    def look_after_log(self, rolls=False):
        """Has the log be looked after: at once, or where a turn is under way, after that."""
        if self.journal is not None:
            try:
                self.journal.care(time.monotonic())
            except (OSError, Failed) as fault:
                self.log_fails(fault)
        self.write_beside()
        if self.takes:
            self.check_log(rolls)
        elif rolls or self.check_log not in self.later:
            self.later.append(functools.partial(self.check_log, True) if rolls else self.check_log)

    def check_log(self, rolls=False):
        """Writes what counts, and looks whether the log is still where it was."""
        self.look_after_used()
        if self.journal is None:
            return
        try:
            for series in self.journal.series:
                change = series.check()
                if change:
                    self.voice.say("log_" + change.split()[-1], "%s %s: what comes is in a new file there, and %s" % (
                        series.path, change, self.meant_by_missing(series)), path=series.path)
                    if series is self.journal.counts:
                        self.note_missing()
                elif rolls:
                    self.journal.roll(series)
            self.write_settled(rolls)
        except (OSError, Failed) as fault:
            self.log_fails(fault)

    def end_log(self):
        """Has the log be on disk, as far as what is in it may count."""
        if self.journal is not None:
            try:
                self.journal.end(time.monotonic())
            except (OSError, Failed) as fault:
                self.voice.say("log_fails", str(fault))

    def settle_much(self):
        """Writes what counts where there is much of it."""
        if self.journal is not None and self.journal.octets > limits.SETTLED_OCTETS:
            try:
                self.write_settled()
            except (OSError, Failed) as fault:
                self.log_fails(fault)

    def write_settled(self, at_once=False):
        now = time.monotonic()
        if self.journal is not None and (at_once or self.journal.is_due(now)):
            self.journal.write_settled(now, at_once)
            self.tell_gone()

    # From the MME.

    def hear(self, piece):
        """Takes a piece of the MME's answers."""
        self.heard_at = time.monotonic()
        lines, messages, further = (self.rest + piece).split(b"\n"), [], []
        self.rest = lines.pop()
        takes_further = self.program.takes_further
        for line in lines:
            if messages and line[:4] != OUT:
                self.take_messages(messages)
                messages = []
            if takes_further and line[:2] in OF_FURTHER:
                further.append(line)
                continue
            if further:
                self.take_further(further)
                further = []
            if line[:4] == OUT:
                messages.append(line)
            elif line == MARK_ANSWER and self.marks:
                self.has_been_answered(self.marks.popleft())
            elif not self.is_replaying or self.shows and line.startswith(STATE):
                self.take_other(line)
        self.take_messages(messages)
        if further:
            self.take_further(further)
        self.write_beside()
        if len(self.rest) > runs.LONGEST_LINE:
            raise Failed("the MME's answer is longer than %d octets" % runs.LONGEST_LINE, BABBLES)

    def take_further(self, lines):
        """Takes answers in a row to further lines of provisioning."""
        answers = b"\n".join(lines).decode("latin-1").split("\n")
        taken = [answer[len(TAKEN):] for answer in answers if answer[0] == "+"]
        refused = [answer.split(" ", 2) for answer in answers if answer[0] == "-"] if len(taken) < len(answers) else []
        self.note_further([answer[len(TAKEN):] if answer[0] == "+" else answer.split(" ", 2)[2] for answer in answers]
                          if refused else taken)
        self.lengthen(taken)
        if self.coming:
            self.coming.difference_update([line.split(" ", 2)[1] for line in taken if line.startswith("sub ")])
        for _, number, text in refused:
            self.note_refused(int(number), text)

    def take_messages(self, lines):
        """Takes answers in a row that are messages."""
        if not lines:
            return
        if self.is_replaying:
            for line in lines:
                if AUTHENTICATION_REQUEST_DIGITS in line:
                    self.take_replayed(line)
            return
        messages, fault = self.read_messages(lines)
        if messages and not self.marks:
            raise Failed("the MME answered what it wasn't given: %s" % lines[0][:80].decode(), BABBLES)
        if messages:
            self.give_out(messages, self.marks[0])
        if fault is not None:
            raise Failed("what the MME printed is no answer: %s" % fault[:80].decode(errors="replace"), BABBLES)

    def read_messages(self, lines):
        """The messages of answers, up to the first that is none, and that: of each the slot of the phone that it is of, or nothing,
        the number of the station that it is for, who has that number, its octets and its owner."""
        found, receivers, unhexlify = [], self.receivers, binascii.unhexlify
        for line in lines:
            try:
                _, owner, number, text = line.split(b" ")
                if owner[0] not in OWNERS:
                    return found, line
                slot = int(owner[1:]) if owner[0] == PHONE_OWNER else None
                found.append((slot, number, receivers[number], unhexlify(text) if text != NO_OCTETS else b"", owner))
            except (ValueError, KeyError, IndexError):
                return found, line
        return found, None

    def give_out(self, messages, batch):
        """Gives messages, which are answers to a batch, to whom they are for, once they may go out. From a challenge on they wait
        until its vector stands among those that were used."""
        batch.answers += len(messages)
        begun, challenges = 0, []  # where those begin that go out together, and which of them are challenges
        for at, message in enumerate(messages):
            slot, number, receiver, octets, _ = message
            if octets[:2] not in LOOKED_AT:
                continue
            self.note(batch, slot, NUMBERS[number], receiver, octets)
            rand = challenged(octets) if slot is not None else None
            if rand is None:
                continue
            self.note_challenge(slot, rand)
            if self.passes_over(slot, rand, NUMBERS[number], octets):
                messages[at] = message = (slot, number, None, octets, message[-1])
            if not challenges:
                self.do(batch.turn, self.hand_on, messages[begun:at])
                begun = at
            if self.note_used(slot, rand):
                challenges.append(message)
        if challenges:
            self.do(batch.turn, self.challenge, messages[begun:], challenges)
        else:
            self.do(batch.turn, self.hand_on, messages[begun:] if begun else messages)

    def note(self, batch, slot, number, receiver, octets):
        """Notes what a message says of the batch that it answers, of the station that it is for, and of a phone."""
        kind = octets[:2]
        if kind in bearers.OF_MME:
            batch.sent.append((slot, number, octets))
        if kind in OF_NO_CHANGE:
            batch.note_answer(number, kind == RESET_ACKNOWLEDGE)
        elif kind == SETUP_RESPONSE and receiver is not None:
            receiver.is_set_up = True
        elif kind == CONTEXT_REQUEST and slot is not None:
            self.note_context(slot, number, octets)

    def note_used(self, slot, rand):
        """Notes the vector of a challenge; whether it still is to be written that it was used."""
        if slot >= len(self.imsis):
            raise Failed("the MME's answer is for nobody: s%d" % slot, BABBLES)
        imsi = self.imsis[slot]
        if self.replayed is not None:
            self.replayed.add(entry_of(imsi, rand))
        return self.used.note(imsi, rand)

    def challenge(self, messages, challenges):
        """Messages go out with challenges among them, whose vectors stand among those that were used."""
        self.hand_on(messages)

    def hand_on(self, messages):
        """Messages go out; those for a connection that ended are nobody's."""
        self.meters.count_out([octets for _, _, _, octets, _ in messages])
        for _, _, receiver, octets, _ in messages:
            if receiver is not None and not receiver.is_lost:
                receiver.link.put(octets)
                receiver.sent += 1
                self.dirty.add(receiver)
        if self.meters.keeps_messages:
            self.meters.keep_out([(NUMBERS[number], receiver is not None and not receiver.is_lost, octets, owner)
                                  for _, number, receiver, octets, owner in messages])

    def take_replayed(self, line):
        """A message that perhaps challenged a phone, before the front began."""
        if line.startswith(OUT_OF_PHONE):
            with contextlib.suppress(ValueError):
                _, owner, number, text = line.split(b" ")
                slot, rand = int(owner[1:]), challenged(binascii.unhexlify(text))
                if rand is not None:
                    self.note_challenge(slot, rand)
                    self.note_used(slot, rand)

    def take_other(self, line):
        """An answer that is no message: states that somebody asked for."""
        try:
            answer = runs.answer_of(line)
        except runs.Fault as fault:
            raise Failed("the MME's answer: %s" % fault, BABBLES) from None
        if answer.word != "state" or not self.shows or not self.marks:
            raise Failed("the MME answered what it wasn't given: %s" % line[:80].decode(errors="replace"), BABBLES)
        self.do(self.marks[0].turn, self.shows.popleft(), answer)

    def has_been_answered(self, batch):
        """All of a batch is answered."""
        self.has_answered = True
        after, batch.after = batch.after, []  # they know the batch, and it goes once it doesn't know them
        for act in after:
            act()
        self.do(batch.turn, self.settle, batch)

    def settle(self, batch):
        """All of a batch is answered and committed."""
        if batch.answers:
            self.meters.count_answers(time.monotonic() - batch.given, batch.answers)
        if self.journal is not None and batch.place is not None:
            self.journal.settle(batch)
        self.note_settled(batch)

    def check_answers(self, now, seconds):
        """Ends the front where the MME owes an answer for too long."""
        if self.marks and now - self.heard_at > seconds:
            raise Failed("the MME hasn't answered for %g s" % seconds, SILENT)
