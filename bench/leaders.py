#!/usr/bin/env python3
"""A storm of phones while the leader of a log in etcd is killed, or paused and woken, again and again: is anything ever used twice?

    leaders.py [--mme PROGRAM | --library] [--seconds N | --runs N] [--phones N] [--seed N] [--ends WORD ..] [--members]
               [--until WORDS]

Three members of etcd and two fronts run on this machine, one of which stands by. The phones and what is looked for are those of
kills.py. --ends has how a leader ends, each time one of these; kill and pause where it isn't given:
  kill    SIGKILL                     pause   SIGSTOP                     rest    SIGSTOP once it has nothing left to do
One that was paused is said more, and woken before or after phones are served at the next one, while the store doesn't answer for a
while, so that it plays what it was said before it can know who leads. What it still sends is heard: nothing of it may be
of what it was said meanwhile. It has to end by itself. --members has one of etcd's members be killed before each end, and come
back.

Prints what was counted, and each violation with its octets; the status is 1 where there is one.
"""
import contextlib
import itertools
import pathlib
import re
import signal
import sys
import tempfile
import time

sys.dont_write_bytecode = True
if __name__ == "__main__":
    sys.path[0] = str(pathlib.Path(__file__).resolve().parent.parent)
from bench import ends, etcds, kills, lives, wire
from tools.fronting.faults import LOG_FAILS, NOT_YET

END_SECONDS = 60
DEPOSED = NOT_YET, LOG_FAILS  # another one leads; or it is long since the store has taken a turn, before that is known
AWAKE_SECONDS, REST_SECONDS, DOWN_SECONDS = 0.3, 0.15, 0.3


class Paused(wire.Gone):
    """The leader was paused."""


def by_pause(run):
    run.process.send_signal(signal.SIGSTOP)
    run.is_paused = True
    raise Paused


def by_rest(run):
    """It is paused when what it has to do is done."""
    time.sleep(REST_SECONDS)
    by_pause(run)


class Asleep:
    """A front that was paused, the connections to it, who had which eNB UE S1AP ID then, what the phones knew of their keys, and
    which challenges were over: one that it sent may come once more, late, as it may in its procedure."""

    def __init__(self, run, radio):
        self.run, self.radio, self.wires, self.by_id = run, radio, radio.wires, dict(radio.by_id)
        self.known = {phone: (phone.contexts, phone.kenb) for phone in radio.phones}
        self.number, self.last = radio.run, dict(radio.watch.last)
        self.over = {challenge: challenge.is_over for challenge in radio.watch.challenges.values()}

    @contextlib.contextmanager
    def then(self):
        """All is known that was known then."""
        self.turn()
        try:
            yield
        finally:
            self.turn()

    def turn(self):
        """Has all be known that was known then, and next what is known now."""
        for phone, known in self.known.items():
            self.known[phone] = phone.contexts, phone.kenb
            phone.contexts, phone.kenb = known
        for challenge, is_over in self.over.items():
            self.over[challenge], challenge.is_over = challenge.is_over, is_over
        radio = self.radio
        self.number, radio.run = radio.run, self.number
        self.last, radio.watch.last = radio.watch.last, self.last


class Storm(kills.Storm):
    """Phones at a leader that is ended, while another front stands by in a folder of its own; then at that one, and so on. `front`
    is the fronts' program with its first words."""

    LATE, REPLAYED = (50, 500), 0.3
    ENDS = {"kill": ends.ENDS["kill"], "pause": ([(0, by_pause)], ends.Start), "rest": ([(0, by_rest)], ends.Start)}

    def __init__(self, given, folder, say, members, front=(wire.FRONT,)):
        self.members, self.program = members, front
        super().__init__(given, folder, say)
        self.standby, self.asleep, self.homes, self.leading = None, [], {}, []
        self.number, self.turns = 0, b""  # the last turn that was read in the store, and all up to it

    def front(self, *words):
        """A front in a folder that no other has."""
        runs = [self.run, self.standby, *(one.run for one in self.asleep)]
        taken = {home for run, home in self.homes.items() if run in runs}
        home = next(name for name in map(str, itertools.count()) if name not in taken)
        for path in (self.folder / home, pathlib.Path(self.room.name, home)):
            path.mkdir(exist_ok=True)
        (self.folder / home / "subscribers").write_text((self.folder / "subscribers").read_text())
        run = wire.Run(self.folder / home, pathlib.Path(self.room.name, home), self.given.mme, self.link.WORD, "--second",
                       str(self.given.second), "--store", self.members.urls(), *self.given.words, *words, front=self.program)
        self.homes[run] = home
        return run

    def stands_by(self):
        """One more front stands by."""
        self.standby = self.front("--standby")

    def begin(self, *words, seconds=None):
        """The first leader begins, with another one that stands by."""
        self.counted["beginnings"] += 1
        self.run = self.front()
        serves = self.run.serves(seconds)
        self.stands_by()
        return serves

    def begin_after_all(self):
        """The one that stood by leads."""
        self.counted["beginnings"] += 1
        if self.standby is None:
            self.stands_by()
        self.run, self.standby = self.standby, None
        begun = time.monotonic()
        serves = self.run.serves()
        self.leading.append(time.monotonic() - begun)
        if not serves:
            self.run.stays()
            self.watch.violates("no front leads: " + self.run.said())
        return serves

    def look_after_beginning(self):
        """As in each storm; fronts that were paused wake up before that, or after phones were served."""
        self.stands_by()
        if self.chance.random() < 0.5:
            self.wakes()
        super().look_after_beginning()
        self.wakes()
        self.radio.until(lambda: "follows the log" in self.standby.said())

    def wakes(self):
        """The fronts that were paused wake up, and each has to end by itself. What they send is heard."""
        while self.asleep:
            one, run = self.asleep[0], self.asleep[0].run
            self.wake(run)
            end = time.monotonic() + END_SECONDS
            while run.process.poll() is None and time.monotonic() < end:
                self.hears_late(one)
                self.radio.turn(0.01)
            if run.process.poll() is None:
                self.watch.violates("a front that was paused doesn't end: " + run.said())
            elif run.process.returncode not in DEPOSED:
                self.watch.violates("a front that was paused ends with status %d: %s" % (run.process.returncode, run.said()))
            self.asleep.pop(0)
            run.is_over()
            self.hears_late(one)
            self.counted["fronts that were paused and woke up"] += 1
            for connection in one.wires.values():
                connection.close()

    def wake(self, run):
        """A front wakes up while the store doesn't answer, so that it plays all that came meanwhile before it knows who leads."""
        for place in range(etcds.MEMBERS):
            self.members.pause(place)
        run.process.send_signal(signal.SIGCONT)
        end = time.monotonic() + AWAKE_SECONDS
        while time.monotonic() < end:
            self.radio.turn(0.01)
        for place in range(etcds.MEMBERS):
            self.members.wake(place)

    def hears_late(self, one):
        """What comes from the front that was paused: of what it was sent before, or nothing."""
        self.radio.by_id = {**one.by_id, **self.radio.by_id}
        for number, connection in one.wires.items():
            for octets in connection.take():
                self.counted["messages from a front that was paused"] += 1
                with one.then():
                    self.radio.hears(self.radio.stations[number], octets)

    def go_on_ending(self):
        if self.given.members:
            place = self.chance.randrange(etcds.MEMBERS)
            self.members.kill(place)
            time.sleep(self.chance.random() * DOWN_SECONDS)
            self.members.start(place)
            self.counted["members that were killed and came back"] += 1
        super().go_on_ending()

    def end(self, number):
        """The run is over. One that was paused keeps its connections, over which more is said to it: what has to be answered under
        the next count, as it will be by who leads then."""
        if not getattr(self.run, "is_paused", False):
            super().end(number)
            return
        for phone in self.radio.phones:
            phone.is_gone()
            if phone.standing == lives.REGISTERED:
                phone.begins_update(self.chance.choice(self.radio.stations))
        self.asleep.append(Asleep(self.run, self.radio))
        self.radio.wires, self.radio.attack = {}, None
        self.radio.fences.clear()
        for phone in self.radio.phones:
            phone.is_gone()

    def is_logged(self, phone):
        """Whether the store has the phone's last ATTACH COMPLETE."""
        complete = next(reversed(phone.recorded.values()))[-1].octets.hex().encode()
        turns = self.members.values("turn", self.number)
        self.number, self.turns = max([self.number, *turns]), self.turns + b"".join(turns.values())
        return complete in self.turns

    def part(self):
        return 1.0 if self.has_found() else super().part()

    def has_found(self):
        """Whether what it is to go on until was found."""
        until = self.given.until
        return until is not None and any(re.search(until, violation) for violation in self.watch.violations)

    def close_all(self):
        """All fronts are ended."""
        for run in filter(None, [self.run, self.standby, *(one.run for one in self.asleep)]):
            run.is_over()


def parser(description=__doc__):
    words = kills.parser(description, Storm)
    words.set_defaults(ends=["kill", "pause"])
    words.add_argument("--until", metavar="WORDS", help="end with the run of the first violation that this regular expression finds")
    words.add_argument("--members", action="store_true", help="one of etcd's members is killed before each end, and comes back")
    return words


def blown(given, folder, members, say=print, front=(wire.FRONT,)):
    """A storm that was blown, whose fronts are ended."""
    storm = Storm(given, folder, say, members, front)
    try:
        storm.blow()
    finally:
        storm.close_all()
    return storm


def main():
    given = parser().parse_args()
    with contextlib.ExitStack() as after:
        folder = given.folder or after.enter_context(tempfile.TemporaryDirectory())
        pathlib.Path(folder).mkdir(exist_ok=True)
        storm = blown(given, folder, etcds.Members(after))
        seconds = sorted(storm.leading)
        print("the next front served %.2f s after the end half of the time, and %.2f s at the most" % (
            seconds[len(seconds) // 2], seconds[-1]))
        return 1 if storm.watch.violations else 0


if __name__ == "__main__":
    sys.exit(main())
