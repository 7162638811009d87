"""Random scripts with lying words in them, played by `mme sim`. The events that it prints, those of its stations and phones among
them, are played as one MME with all phones, which answers as `mme sim` was answered, and as one MME for each owner alone.
"""
import collections
import random

from tests.hostile import compare, laboratory, program, projection
from tests.hostile.laboratory import IMSIS, RADIO_IDS, STATIONS
from tests.hostile.lies import Liar
from tests.hostile.projection import Unreadable

SIM = "mme sim"  # whose a difference is where `mme play` answers otherwise
ACTS = 250  # lines of a session's script
PLACED = ("attach", "attach", "info", "foreign", "service", "service", "tau", "tau", "switch", "switch")
ALONE = ("detach", "off", "idle", "idle", "idle", "data", "data", "cancel")
LYING = ("replay", "forge")
EVENTS = ("up", "lost", "in", "tick", "data", "cancel")

Played = collections.namedtuple("Played", "event answers")


class Simulated(program.Live):
    """A running `mme sim`; each line is followed by lines that show each subscriber."""
    WORD, STATE = "sim", "# state "


class Scripter(Liar):
    """Random lines of a script. What is printed tells where the phones are, which the lies of `raw` lines are made of."""

    def __init__(self, rng):
        super().__init__(rng)
        self.ready, self.by_imsi = list(STATIONS), dict(zip(IMSIS, self.phones))

    def begins(self):
        return ["station %d %05x %04x" % (each.number, each.identity, each.tac) for each in STATIONS]

    def line(self):
        """The next lines; mostly one."""
        choice, rng = self.rng.random(), self.rng
        imsi, station = rng.choice(IMSIS), rng.choice(STATIONS).number
        if choice < 0.5:
            return self.placed(rng.choice(PLACED), imsi, station, rng.choice(RADIO_IDS))
        if choice < 0.62:
            return ["%s %s" % (rng.choice(ALONE), imsi)]
        if choice < 0.72:
            return [self.counted("%s %s" % (rng.choice(LYING), imsi))]
        if choice < 0.92:
            return [self.counted("raw " + event.split(" ", 1)[1]) for event in self.raw()]
        if choice < 0.96:
            return ["tick %d" % rng.choice((1, 5, 6, 10, 31))]
        return [rng.choice(("up %d" % station, "lost %d" % station, "up %d" % station, "deaf " + IMSIS[-1]))]

    def placed(self, word, imsi, station, b):
        self.at[station, b] = self.by_imsi[imsi]
        return ["%s %s %d %d" % (word, imsi, station, b)]

    def counted(self, line):
        self.told[line.split(" ")[0]] += 1
        return line

    def raw(self):
        """What a station sends that it shouldn't: damaged octets of what was sent, or a lie."""
        if self.sent and self.rng.random() < 0.3:
            station, octets = self.rng.choice(self.sent)
            return [self.heard(station, self.damaged(octets))]
        return self.lie()

    def takes(self, played):
        """What was printed: where phones are, and what they sent last."""
        for event, answers in played:
            if event.startswith("in "):
                _, number, octets = event.split(" ")
                self.was_sent(int(number), b"" if octets == "-" else bytes.fromhex(octets))
            self.hears(answers)
        for phone in self.phones:
            phone.owed.clear()
        self.todo.clear()
        del self.sent[:-200]

    def was_sent(self, number, octets):
        self.sent.append((next(each for each in STATIONS if each.number == number), octets))
        try:
            elements = projection.read(octets).elements
            nas = projection.sized(elements.get(projection.NAS_PDU, b""), 0)[0]
        except (Unreadable, IndexError):
            return
        phone = self.at.get((number, projection.number(elements.get(projection.ENB_ID))))
        if phone and len(nas) > 6 and nas[0] & 15 == 7 and 1 <= nas[0] >> 4 <= 4:
            phone.last = nas


def printed(lines):
    """The events that were printed, each with its answers."""
    found = []
    for line in lines:
        if line.split(" ")[0] in EVENTS:
            found.append(Played(line, []))
        elif line.startswith("# ") and not line.startswith("# state"):
            found[-1].answers.append(line[2:])
    return found


def scripted(seed, count, used=program.PROGRAM):
    """A random script of this number of acts, the events that came of it with their answers, and how many lies it has."""
    scripter = Scripter(random.Random(seed))
    script = laboratory.provisioning() + scripter.begins()
    live = Simulated(script, IMSIS, used)
    played, lines = [], ["up %d" % station.number for station in STATIONS]
    acts = 0
    while lines:
        script += lines
        for said, _ in live.happen(lines):
            new = printed(said)
            scripter.takes(new)
            played += new
        acts += len(lines)
        lines = scripter.line() if acts < count else []
        while not lines and acts < count:
            lines = scripter.line()
    live.close()
    return script, played, scripter.told


def difference(played, used=program.PROGRAM):
    """The run of all phones over these events, and the first difference, or nothing."""
    names = projection.Names(laboratory.NETWORK, IMSIS)
    run = compare.played(names, laboratory.provisioning(), IMSIS, [event for event, _ in played], used)
    for place, (one, answers) in enumerate(zip(played, run.answers)):
        if one.answers != answers:
            return run, compare.Difference(SIM, place, str(one.answers[:2]), str(answers[:2]))
    return run, run.difference(3)
