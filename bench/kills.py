#!/usr/bin/env python3
"""A storm of phones while tools/front is killed and begun again, again and again: does it ever use anything twice?

    kills.py [--mme PROGRAM | --library [--gives] [--source]] [--seconds N | --runs N] [--phones N] [--seed N] [--sctp]
             [--ends WORD ..] [-- WORD ..]

Phones attach, sleep, come back for service or to update their area, are paged, change stations and detach. The front is ended at
random moments and begun with --resume. From what stations are sent, and with the keys that phones have, these are checked:
  each protected message for a phone has the MAC of a COUNT that was never used before under its KASME
  each KeNB and each next hop is the phone's, and was never handed to a station before
  each challenge is a new one, but for repeats in its own procedure until the phone's answer was heard
  after each new beginning, what phones sent before is sent again by somebody without a key: nothing of it changes a state, and
    nothing is answered as to a phone; nor is a whole attach that comes from elsewhere
  each registered phone whose ATTACH COMPLETE stands in the log is still registered then, and what it says next is served

--ends has how the front ends and begins again, each time one of these; kill alone where it isn't given:
  kill         SIGKILL                          disk         no file grows any more; a little later SIGKILL
  clean        SIGTERM                          subscribers  SIGKILL; the file of subscribers has another order
  mme          the MME's process by SIGKILL     segment      SIGKILL; a segment of the log is missing
  cut          SIGKILL; the log lacks what was written in its last second, and LOG.used
               is lost
  anew         SIGKILL; the next run is begun without --resume
Where a front refuses to begin over something that is wrong, that is put right, and it has to begin then.

With --gives, phones are given vectors meanwhile, whose lines stand at the end of the file of subscribers before. With --source,
that file has no others, and the front asks a source for them (supplying.py). Words after `--` are the front's, such as `--snapshot
0.005,0.01`, by which the MME is saved every second or so. The seed chooses what is done and after how many messages the front is
ended; how far the front has come by then depends on the machine. Prints what was counted, and each violation with its octets; the
status is 1 where there is one.
"""
import argparse
import collections
import contextlib
import itertools
import mmap
import pathlib
import shlex
import signal
import sys
import tempfile
import time

sys.dont_write_bytecode = True
if __name__ == "__main__":
    sys.path[0] = str(pathlib.Path(__file__).resolve().parent.parent)
from bench import ends, lives, replays, watch, wire
from reference import phones

HERE = pathlib.Path(__file__).resolve().parent
STATIONS = 4
SPARE = 8  # times as many vectors as phones may use: of those from before a phone's SQN it hears of none
GIVEN, MOST_LEFT = 0.05, 40  # the share of turns in which a phone is given a vector; of how many it isn't given one more
PAGED = 0.1  # the share of phones asleep that data come for, before they do anything by themselves
AT_ONCE = 8  # phones that begin something at a time
WHOLE_ATTACHES = 2  # that are sent again after each beginning
EARLY = 0.25  # the share of runs that may end before all phones are served again
AT_START = 0.1  # the share of beginnings that are killed before the front serves
SOON, LATE = (10, 400), (100, 1500)  # messages after which a run ends: of those runs, and of the others once phones are served


class Storm:
    """Phones and stations, the runs of a front one after the other, and what was found."""

    ENDS, LATE, REPLAYED = ends.ENDS, LATE, 1.0  # the last: the share of beginnings after which all is sent again

    def __init__(self, given, folder, say=print):
        self.given, self.folder, self.say = given, pathlib.Path(folder), say
        self.room = tempfile.TemporaryDirectory()  # for the control socket
        self.watch = watch.Watch(say)
        self.radio = lives.Radio(self.watch, given.seed, STATIONS)
        self.chance = self.radio.chance
        self.radio.phones = [lives.Phone(self.radio, slot, ()) for slot in range(given.phones)]
        self.counted, self.names = collections.Counter(), itertools.count()
        self.logged, self.source = set(), []  # messages that were found in the log; the front's words on a source
        self.provision()
        self.link = wire.SctpWire if given.sctp else wire.TcpWire
        self.run, self.stages, self.start, self.begun = None, [], ends.Start(self.folder, self.chance), time.monotonic()

    def provision(self):
        """The file of subscribers, with vectors that nobody ever had; or without them, which a source supplies then."""
        count = self.given.vectors * (SPARE if self.given.source else 1)
        for phone in self.radio.phones:
            phone.is_given([phones.Vector.made("kills %d" % next(self.names)) for _ in range(count)])
        self.radio.lines.clear()
        self.radio.provision(self.radio.phones)
        lines = self.radio.text().splitlines(keepends=True)
        if self.given.source:
            supply, record = self.folder / "supply", self.folder / "supplied"
            supply.write_text("".join(line for line in lines if line.startswith("vec ")))
            record.unlink(missing_ok=True)
            lines = [line for line in lines if not line.startswith("vec ")]
            self.source = ["--source", shlex.join(map(str, [sys.executable, "-B", HERE / "supplying.py", supply, record]))]
            for phone in self.radio.phones:
                phone.vectors = phone.vectors[:self.given.vectors]
        (self.folder / "subscribers").write_text("".join(lines))

    # Beginnings.

    def begin(self, *words, seconds=None):
        """Begins a run; whether it serves within so long, or in time."""
        self.counted["beginnings"] += 1
        self.run = wire.Run(self.folder, self.room.name, self.given.mme, self.link.WORD, "--second", str(self.given.second),
                            *self.source, *self.given.words, *words)
        return self.run.serves(seconds)

    def begin_after_all(self):
        """Begins the next run: now and then it is killed while it begins; what it refuses over is put right. Whether it serves."""
        start = self.start
        start.spoils()
        if start.is_spoiled:
            self.logged.clear()
        if not start.is_spoiled and self.chance.random() < AT_START:
            self.counted["beginnings that were killed"] += 1
            self.begin(*start.words, seconds=self.chance.random())
            self.close()
        serves = self.begin(*start.words)
        if not serves and start.is_spoiled:
            self.counted["beginnings that were refused"] += 1
            self.close()
            start.mends()
            if not (self.folder / "log").exists():
                self.provision()
            serves = self.begin("--resume")
        if not serves:
            self.run.stays()
            self.watch.violates("the front doesn't begin: " + self.run.said())
        return serves

    # A run.

    def live(self, is_last):
        """A run from its beginning to its end."""
        radio = self.radio
        radio.run += 1
        radio.is_ending, radio.over_by, radio.answers_pages, self.stages, start = False, None, False, *self.chosen_end()
        is_early = not is_last and self.chance.random() < EARLY
        radio.due_at, radio.due = (radio.passed + self.chance.randint(*SOON) if is_early else None), self.go_on_ending
        try:
            radio.connect(self.run.port, self.link)
            if radio.run > 1:
                self.look_after_beginning()
            radio.due_at = radio.due_at if is_early else radio.passed + self.chance.randint(*self.LATE)
            radio.answers_pages, end = True, time.monotonic() + self.given.run_seconds
            while not is_last:
                self.act()
                if time.monotonic() > end and not radio.is_ending:
                    radio.ends()
        except wire.Gone:
            self.counted["runs that ended by themselves"] += not radio.is_ending
        except lives.Lingers:
            self.run.stays()
            self.watch.violates("the front doesn't end within %d s: %s" % (wire.END_SECONDS, self.run.said()))
        self.end(signal.SIGTERM if is_last else signal.SIGKILL)
        start.hears(self.run.said())
        self.start = start

    def chosen_end(self):
        """The stages of the run's end, and how the next one begins."""
        word = self.chance.choice(self.given.ends)
        stages, start = self.ENDS[word]
        self.counted["ends by " + word] += 1
        return list(stages), start(self.folder, self.chance)

    def go_on_ending(self):
        """The next stage of the run's end."""
        radio = self.radio
        radio.is_ending = True
        if self.stages:
            _, act = self.stages.pop(0)
            time.sleep(self.chance.random() * 0.003)
            act(self.run)
            if not self.stages:
                radio.over_by = time.monotonic() + wire.END_SECONDS
        radio.due_at = radio.passed + self.stages[0][0] if self.stages else None

    def act(self):
        """Some phones do something, and what comes is heard."""
        radio, now = self.radio, time.monotonic()
        if self.given.gives and self.chance.random() < GIVEN and self.run.may_give():
            self.give(self.chance.choice(radio.phones))
        free = [phone for phone in radio.phones if phone.is_free]
        for phone in self.chance.sample(free, min(len(free), AT_ONCE)):
            if phone.is_asleep and self.chance.random() < PAGED:
                self.run.tells("data", phone.imsi)
            else:
                phone.acts()
        for phone in radio.phones:
            if phone.waits and now - phone.since > lives.LONGEST_WAIT * self.given.second + 5:
                phone.gives_up()
        radio.turn(0.01)

    def give(self, phone):
        """A phone is given a vector, unless it has many."""
        if len(phone.vectors) - len(phone.rands) > MOST_LEFT:
            return
        vector = phones.Vector.made("kills %d" % next(self.names))
        line = vector.words(phone.imsi)
        with open(self.folder / "subscribers", "a", encoding="ascii") as subscribers:
            subscribers.write(line + "\n")
        phone.vectors.append(vector)
        phone.by_rand[vector.rand] = vector
        self.run.gives(line)
        self.counted["vectors given"] += 1

    def close(self, number=signal.SIGKILL):
        """The run is over, or is ended."""
        if self.run is not None:
            self.run.is_over(number)

    def end(self, number):
        """The run is over, or is ended; what it sent is heard."""
        self.close(number)
        self.radio.drain()
        self.counted["runs that went on without a log"] += ends.WITHOUT_LOG in self.run.said()
        record = self.folder / "supplied"
        self.counted["requests to the source"] = len(record.read_text().splitlines()) if record.exists() else 0
        numbers = [int(path.suffix[1:]) for path in self.folder.glob("log.snapshot.*[0-9]")]
        self.counted["snapshots"] = max([self.counted["snapshots"], *numbers])

    # After a beginning.

    def look_after_beginning(self):
        """Who was registered still is; what was sent again is of no use; and who was registered is served."""
        radio = self.radio
        if self.run.has_resumed:
            self.counted["beginnings that went on"] += 1
            self.look_at_registered()
        else:
            self.counted["beginnings with nobody"] += 1
            for phone in radio.phones:
                phone.standing = lives.UNSURE if phone.standing == lives.REGISTERED else phone.standing
        if self.REPLAYED < 1 and self.chance.random() >= self.REPLAYED:
            self.serve_registered()
            return
        replay = replays.Replay(radio, self.run)
        replay.without_connections()
        radio.attack = None
        self.serve_registered()
        radio.attack = replay
        replay.within_connections()
        for phone in self.chance.sample(radio.phones, len(radio.phones))[:WHOLE_ATTACHES]:
            if phone.recorded and radio.may_attach(phone):
                replay.attaches(phone)
        radio.attack = None
        for phone in radio.phones:
            phone.records = phone.records[-replays.KEPT:]

    def look_at_registered(self):
        """Each phone that is registered, as far as the log says so, has that state."""
        states = self.run.states()
        for phone in self.radio.phones:
            if phone.standing == lives.REGISTERED and self.is_logged(phone):
                self.watch.counted["registered phones that were looked for after a beginning"] += 1
                if not states[phone.imsi].startswith("REGISTERED"):
                    self.watch.violates("IMSI %s: was registered, and is %s after a beginning" % (phone.imsi, states[phone.imsi]))

    def is_logged(self, phone):
        """Whether the log has the phone's last ATTACH COMPLETE. It isn't looked for again where nothing cuts the log."""
        complete = next(reversed(phone.recorded.values()))[-1].octets.hex().encode()
        if complete not in self.logged:
            logs = [path for path in sorted(self.folder.iterdir()) if path.name.startswith("log")]
            self.logged |= {complete} if any(has(path, complete) for path in logs) else set()
        return complete in self.logged

    def serve_registered(self):
        """Each registered phone comes for service with its next COUNT."""
        radio = self.radio
        owed = [phone for phone in radio.phones if phone.standing == lives.REGISTERED]
        for phone in owed:
            phone.asks_to_be_served(self.chance.choice(radio.stations))
        radio.fence()
        for phone in owed:
            if phone.waits == lives.SERVICE:
                self.watch.violates("IMSI %s: its next message isn't served" % phone.imsi, phone.records[-1].octets)
                phone.is_gone()

    # The whole.

    def part(self):
        """How much of the whole is over, of 1."""
        by_time = (time.monotonic() - self.begun) / self.given.seconds
        return by_time if self.given.runs is None else self.radio.run / self.given.runs

    def blow(self):
        """Runs until it is over, and once more to look after the last end; how many violations there are."""
        self.begun, self.radio.part = time.monotonic(), self.part
        try:
            if not self.begin():
                raise SystemExit("kills.py: the front doesn't begin: " + self.run.said())
            serves = True
            while serves and self.part() < 1:
                self.live(is_last=False)
                serves = self.begin_after_all()
            if serves:
                self.live(is_last=True)
        finally:
            self.close()
            self.room.cleanup()
        for name, count in (*sorted(self.counted.items()), *sorted(self.watch.counted.items())):
            self.say("%9d %s" % (count, name))
        self.say("%9d violations" % len(self.watch.violations))
        return len(self.watch.violations)


def has(path, text):
    """Whether a file has a text."""
    if not path.is_file() or not path.stat().st_size:
        return False
    with open(path, "rb") as file, mmap.mmap(file.fileno(), 0, access=mmap.ACCESS_READ) as octets:
        return octets.rfind(text) >= 0


def parser(description=__doc__, of_storm=Storm):
    words = argparse.ArgumentParser(description=description, formatter_class=argparse.RawDescriptionHelpFormatter)
    mmes = words.add_mutually_exclusive_group()
    mmes.add_argument("--mme", metavar="PROGRAM", default=wire.TOP / "crates" / "mme" / "out" / "mme")
    mmes.add_argument("--library", dest="mme", action="store_const", const=wire.LIBRARY)
    words.add_argument("--seconds", type=float, default=60, help="of the whole; 60 where not given")
    words.add_argument("--runs", type=int, help="that end, in place of a time")
    words.add_argument("--run-seconds", type=float, default=10, help="of a run, at the most; 10 where not given")
    words.add_argument("--phones", type=int, default=20, help="20 where not given")
    words.add_argument("--vectors", type=int, default=64, help="of a phone, up to 64; 64 where not given")
    words.add_argument("--seed", type=int, default=1, help="1 where not given")
    words.add_argument("--second", type=float, default=0.1, help="the length of a tick; 0.1 s where not given")
    words.add_argument("--gives", action="store_true", help="phones are given vectors")
    words.set_defaults(source=False)
    if of_storm is Storm:
        words.add_argument("--source", action="store_true", help="with --library: phones are supplied with their vectors")
    words.add_argument("--sctp", action="store_true", help="by SCTP, in place of TCP")
    words.add_argument("--ends", nargs="+", choices=of_storm.ENDS, default=["kill"])
    words.add_argument("--folder", type=pathlib.Path, help="a folder for the log and what the front says, which stay; none that "
                       "stays where not given")
    words.add_argument("words", metavar="WORD", nargs="*", default=[])
    return words


def main():
    given = parser().parse_args()
    with contextlib.ExitStack() as after:
        folder = given.folder or after.enter_context(tempfile.TemporaryDirectory())
        pathlib.Path(folder).mkdir(exist_ok=True)
        return 1 if Storm(given, folder).blow() else 0


if __name__ == "__main__":
    sys.exit(main())
