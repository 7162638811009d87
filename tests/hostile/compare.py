"""One MME with all phones against one MME for each owner alone: what each is sent, and its states, must be the same."""
import collections

from tests.hostile import program
from tests.hostile.projection import FIRST_STRANGER, Projection

Difference = collections.namedtuple("Difference", "owner place wanted got")


class Run:
    """The events of one MME with all phones, each with what was printed and the states after it."""

    def __init__(self, names, provisioning, imsis, used=program.PROGRAM):
        self.names, self.provisioning, self.imsis, self.used = names, provisioning, imsis, used
        self.events, self.answers, self.states = [], [], []
        self.projection = Projection(names)
        self.stirred = None  # a difference that needs no other run: at an event an owner moved or spoke that it isn't of

    def take(self, event, answers, states):
        place = len(self.events)
        slots = self.projection.take(event, answers)
        before = self.states[-1] if self.states else None
        outsider = answers and self.projection.outsider(event, slots, answers)
        if outsider and self.stirred is None:
            self.stirred = Difference(outsider, place, "nothing", answers[0])
        if states == before:
            states = before
        elif slots is not None and before is not None and self.stirred is None:
            for slot, (was, now) in enumerate(zip(before, states)):
                if was != now and slot not in slots:
                    self.stirred = Difference("s%d" % slot, place, was, now)
        self.events.append(event)
        self.answers.append(answers)
        self.states.append(states)

    # What each owner alone is owed by what all got.

    def owners(self):
        """All owners that something may be sent for: subscribers, stations, and strangers, those that were heard most first."""
        stations = sorted({event.split(" ")[1] for event in self.events if event.split(" ")[0] in ("up", "lost", "in")}, key=int)
        heard = self.projection.of_strangers
        strangers = sorted((m for m in heard if m < 2 * FIRST_STRANGER), key=lambda m: (-len(heard[m]), m))
        named = ["x%d.%d" % (m - FIRST_STRANGER >> 24, m & 0xFFFFFF) for m in strangers]
        return ["s%d" % slot for slot in range(len(self.imsis))], ["e" + number for number in stations], named

    def places_of(self, owner):
        """The places of the events that an owner's one MME gets."""
        if owner[0] == "s":
            return self.projection.own_places(int(owner[1:]))
        if owner[0] == "x":
            station, b = map(int, owner[1:].split("."))
            return self.projection.stranger_places(FIRST_STRANGER + (station << 24) + b)
        own = ("up " + owner[1:], "lost " + owner[1:])
        return [place for place, event in enumerate(self.events) if event in own or event.startswith("in %s " % owner[1:])]

    def owed(self, owner, places):
        """What is printed for an owner, and its states after each of these events; and all else that was printed for it."""
        start, of_slot = "out %s " % owner, int(owner[1:]) if owner[0] == "s" else None
        taken, wanted, beside = set(places), [], None
        for place, answers in enumerate(self.answers):
            mine = [line for line in answers if line.startswith(start) or owner[0] == "e" and line.startswith("refused")]
            if place in taken:
                wanted += [(place, line) for line in mine]
                if of_slot is not None:
                    wanted.append((place, self.states[place][of_slot]))
            elif mine and mine[0].startswith("out") and beside is None:
                beside = Difference(owner, place, "nothing", mine[0])
        return wanted, beside

    def alone(self, owner, places):
        """What the MME of one owner alone prints for it."""
        lines, shown = list(self.provisioning), "show " + self.imsis[int(owner[1:])] if owner[0] == "s" else None
        for place in places:
            lines.append(self.events[place])
            if shown:
                lines.append(shown)
        kept = ("out %s " % owner, "state ") + (("refused",) if owner[0] == "e" else ())
        return [line for line in program.play(lines, self.used) if line.startswith(kept)]

    def difference_of(self, owner):
        """The first difference between an owner in the run of all and alone, or nothing."""
        places = self.places_of(owner)
        wanted, beside = self.owed(owner, places)
        if beside:
            return beside
        got = self.alone(owner, places)
        if [line for _, line in wanted] == got:
            return None
        at = next((at for at, ((_, line), other) in enumerate(zip(wanted, got)) if line != other), min(len(wanted), len(got)))
        place = wanted[at][0] if at < len(wanted) else places[-1]
        return Difference(owner, place, wanted[at][1] if at < len(wanted) else "nothing", got[at] if at < len(got) else "nothing")

    def difference(self, strangers=None):
        """The first difference of any owner, of strangers those alone that were heard most, this number of them."""
        if self.stirred:
            return self.stirred
        slots, stations, others = self.owners()
        for owner in slots + stations + (others if strangers is None else others[:strangers]):
            found = self.difference_of(owner)
            if found:
                return found
        return None


def played(names, provisioning, imsis, events, used=program.PROGRAM):
    """The run of all phones over a list of events."""
    run = Run(names, provisioning, imsis, used)
    shows = ["show %s" % imsi for imsi in imsis]
    printed = program.play(provisioning + [line for event in events for line in (event, *shows)], used)
    answers, states, at = [], [], iter(events)
    for line in printed:
        if not line.startswith("state "):
            answers.append(line)
            continue
        states.append(line)
        if len(states) == len(imsis):
            run.take(next(at), answers, states)
            answers, states = [], []
    return run


def shortest(items, differs):
    """A list out of `items`, which differs, that differs too, and no longer where any one item is left out."""
    size = max(1, len(items) // 2)
    while True:
        before, at = len(items), 0
        while at < len(items):
            fewer = items[:at] + items[at + size:]
            if differs(fewer):
                items = fewer
            else:
                at += size
        if size == 1 and len(items) == before:
            return items
        size = max(1, size // 2)
