"""The rows of docs/TABLE.md on a subscriber's machine, each tried by the built program.

For each row a fresh MME is brought into the row's phase and hears the row's event. What it sends is compared with the row by
its kind, its association, its protection and its count; then the printed states, where the connection is, and whether the row's
timer ends at its tick and not before.
"""
import collections
import re

from tests.docs.answers import Failure, judge_steps, must, play, s1ap, texts
from tests.docs.events import EVENTS, MESSAGES, Arrival, Event, sent_by
from tests.docs.scenes import PHASES, UNCONNECTED, lte, scene_of

AGE = 2  # ticks in a phase before the event
LONG = 3600  # ticks after which nothing comes
NOTHING = "-"
OWNER = "s0"  # whose messages are compared
FRESH = 8  # what the phone's uplink count goes up by, for one that no event had
# What completes an update, by the phase.
COMPLETED = {"Updating": ["RELEASE nas normal-release"], "Updating connected": []}

# The words for what comes next that say the timers too, and the phases that fall back to being registered.
STAYS, FALLS, REGISTERED = "stays", "falls", ("Registered connected", "Updating", "Updating connected")
AGAIN, ITS_TIMER = "again", "its timer"  # what a phase sends again, and stays; the timer of a phase
OLD = "old: "
SHORT = {"old": OLD + "RELEASE nas normal-release"}  # what stands for more

Row = collections.namedtuple("Row", "phase event sent next timer")
# A machine in a phase: its heading, its events, for each of which there must be a row, the headings of the tables with further rows,
# and its timers.
Machine = collections.namedtuple("Machine", "heading phase events shared timers")


# --- What the document says ---


def events_in(cell, groups):
    """The events of a cell: NAME or NAME (VARIANT; VARIANT), parted by commas, where `WORD: ` at the front is the first word of
    each NAME; a group's name is each of its events."""
    front = re.match(r"(\w+): |", cell)
    for part in re.findall(r"[^,(]+(?:\([^)]*\))?", cell[front.end():]):
        name, _, variants = ((front[1] + " " if front[1] else "") + part.strip()).partition(" (")
        for member in events_in(groups[name], {}) if name in groups else [name]:
            for variant in variants.rstrip(")").split("; "):
                yield member + (" (%s)" % variant if variant else "")


def timers_of(document):
    """The timers of each phase, and those of a stranger."""
    found = {phase: [] if timers == NOTHING else timers.split(", ") for phase, _, timers, _ in document["Phases"]}
    return {**found, "waiting": ["T3470"]}


def next_of(machine, following, timers):
    """The phase after an event and what runs then: of the timers of each phase those of the next one, anew where it isn't said that
    one goes on."""
    if following == STAYS:
        return machine.phase, ", ".join(name + " goes on" for name in machine.timers) or NOTHING
    if following == FALLS:
        following = "Registered idle" if machine.phase in REGISTERED else "Deregistered"
    elif following == AGAIN:
        following = machine.phase
    phase, *going = following.split(", ")
    running = [name + " goes on" * (name + " goes on" in going) for name in timers.get(phase, [])]
    return phase, ", ".join(running) or NOTHING


def rows_under(document, heading, machine):
    """The rows under a heading as they are for a machine, one for each event."""
    groups, timers = dict(document["Groups"]), timers_of(document)
    again = {phase: text for phase, *_, text in document["Phases"]}
    for heard, sent, following in document.get(heading, []):
        if ITS_TIMER in heard:
            heard = heard.replace(ITS_TIMER, machine.timers[0])
        messages = [] if sent == NOTHING else [again[machine.phase]] if sent == AGAIN else sent.split("; ")
        messages = [SHORT.get(text, text) for text in messages]
        if machine.phase in UNCONNECTED:
            messages = [text for text in messages if not text.startswith(OLD)]
        for event in events_in(heard, groups):
            yield Row(machine.phase, event, messages, *next_of(machine, following, timers))


def rows_of(document, machine):
    """The rows of a machine: its own, and those of the tables for several phases, of events that there are and that have no own."""
    own = list(rows_under(document, machine.heading, machine))
    others = set(machine.events) - {row.event for row in own}
    return own + [row for heading in machine.shared for row in rows_under(document, heading, machine) if row.event in others]


def phases_in(cell):
    """The phases of a cell: all, all but some, or these."""
    if cell == "all":
        return list(PHASES)
    but = cell.removeprefix("all but ")
    named = but.split(", ")
    return named if but == cell else [phase for phase in PHASES if phase not in named]


class Facts:
    """What the documents say of phases and timers."""

    def __init__(self, document, profile):
        self.words, self.timers, self.again = {}, timers_of(document), {}
        for phase, words, _, again in document["Phases"]:
            self.words[phase], self.again[phase] = words, again
        self.lengths = {name: (int(ticks), int(repeats)) for name, ticks, repeats, *_ in profile["Timers"]}
        self.shared = {heading: phases_in(phases) for heading, phases in document["Rows of several phases"]}

    def timer_events(self):
        """The ends of each phase's timers, as events."""
        for phase, timers in self.timers.items():
            for timer in timers:
                yield phase, timer + " ends"
                if timer == "reachable" and len(timers) > 1:
                    yield phase, timer + " ends (with T3413)"
                if self.lengths[timer][1]:
                    yield phase, timer + " ends (repeats used up)"


def machine_in(facts, phase):
    """The machine in a phase."""
    events = [name for name, event in EVENTS.items() if phase in event.phases]
    events += [name for at, name in facts.timer_events() if at == phase]
    shared = [heading for heading, phases in facts.shared.items() if phase in phases]
    return Machine(phase, phase, events, shared, facts.timers[phase])


# --- A row's trial ---


class Trial:
    """A row, the trace that tries it, and what must come of each step of it."""

    def __init__(self, row, facts):
        self.row, self.facts = row, facts
        must(row.next in facts.words, "there is no phase %s", row.next)
        timer = re.fullmatch(r"(\w+) ends(?: \((.*)\))?", row.event)
        self.timer, self.variant = timer.groups() if timer else (None, None)
        self.event = self.timer_event() if timer else EVENTS[row.event]
        self.scene = scene_of(row.phase, **self.event.choices)
        self.phone = self.scene.phone
        self.before = Arrival(self.phone.m, self.phone.b, self.phone.station)
        self.steps = []
        self.passed = 0

    def timer_event(self):
        """A second, at which a timer ends."""
        idle_for = 0
        if self.timer == "reachable" and self.row.phase == "Registered paged":
            idle_for = self.facts.lengths["reachable"][0] - (10 if self.variant else 5)
        return Event((), lambda scene: scene.trace.say("tick 1"), {"idle_for": idle_for} if idle_for else {})

    def step(self, judged):
        """The lines so far are a step, which is judged by this."""
        def own(group):
            judged(group._replace(sent=[message for message in group.sent if message.owner == OWNER]))

        self.scene.trace.say("show " + self.phone.imsi)
        self.steps.append(own)

    def ticks(self, count, judged):
        if count:
            self.scene.trace.say("tick %d" % count)
            self.passed += count
            self.step(judged)

    def make(self):
        """All lines of the trace."""
        scene, row = self.scene, self.row
        self.step(self.judge_phase)
        self.ages()
        self.about = self.event.happen(scene)
        self.passed += 1 if self.timer else 0
        self.step(self.judge_event)
        self.probes()
        left, ends = self.first_end()
        self.ticks(left - 1, self.judge_quiet)
        self.ticks(1, ends)
        if row.next in COMPLETED:
            self.completes_update()
        return self

    def ages(self):
        """The seconds in the phase before the event: where a timer is to end, all but the last."""
        if not self.timer:
            self.ticks(AGE, self.judge_waiting)
            return
        length, repeats = self.facts.lengths[self.timer]
        if self.timer == "reachable":
            length -= self.scene.idle_for
        for _ in range(repeats if self.variant == "repeats used up" else 0):
            self.ticks(length - 1, self.judge_waiting)
            self.ticks(1, self.judge_repeat_before)
        self.ticks(length - 1, self.judge_waiting)

    def arrives(self):
        """Whether the event is a message that would make an association of its own."""
        return self.row.event.startswith("first ") or self.row.event == "claim"

    def connection(self):
        """The association after the event, if there is one."""
        if self.row.next in UNCONNECTED:
            return None
        refused = not self.row.sent or any(text.startswith("aside: ") for text in self.row.sent)
        switched = self.row.sent == ["PATH SWITCH REQUEST ACKNOWLEDGE"]
        return self.about if switched or self.arrives() and not refused else self.before

    def probes(self):
        """A message that isn't answered on the connection asks at each association where that is."""
        kept = self.connection()
        asked = [self.before] if self.before.station else []
        if self.about and self.about.place() != self.before.place():
            asked.append(self.about)
        for place in asked:
            if place.station is self.scene.down or place.m >= 1 << 31 and place is not kept:
                continue
            sent_by(self.scene, MESSAGES["UE CAPABILITY INFO INDICATION"], place.station, place.m, place.b)
            self.step(lambda group, place=place: self.judge_probe(group, place, kept))

    def completes_update(self):
        """The phone completes an update; by what is sent it is seen how the request came."""
        place, phone = self.connection(), self.phone
        nas = phone.secured(1, phone.up_count + FRESH, lte.UP, lte.TAU_COMPLETE)
        sent_by(self.scene, lambda n, e, m, b: lte.uplink_nas(n, e, m, b, nas), place.station, place.m, place.b)
        self.step(self.judge_completion)

    def first_end(self):
        """The ticks to the first end of a timer that the row says, and what must come then."""
        if self.row.timer == NOTHING:
            return LONG, self.judge_quiet
        ends = {}
        for entry in self.row.timer.split(", "):
            name, _, goes_on = entry.partition(" ")
            must(name in self.facts.lengths and goes_on in ("", "goes on"), "there is no timer %s", entry)
            ends[name] = self.facts.lengths[name][0] - (self.spent(name) if goes_on else 0)
        names = list(ends)
        must(names == self.facts.timers[self.row.next], "the phase %s has other timers", self.row.next)
        first = min(ends, key=ends.get)
        return ends[first], self.judge_forgotten if first == "reachable" else self.judge_repeat

    def spent(self, name):
        """What has passed of a timer that the event didn't start."""
        return self.passed + self.scene.idle_for if name == "reachable" else AGE

    # What must come of each step.

    def judge_phase(self, group):
        words = self.facts.words[self.row.phase]
        must(group.states == words, "the phase isn't reached: %s", group.states)

    def judge_waiting(self, group):
        """Nothing is sent in the phase before the event."""
        must(not group.sent, "%s is sent before the event", texts(group.sent))
        self.judge_phase(group)

    def judge_repeat_before(self, group):
        self.compare([self.facts.again[self.row.phase]], group.sent, self.before, fresh=False)

    def judge_event(self, group):
        aside = any(text.startswith("aside: ") for text in self.row.sent)
        must(not aside or self.row.next == self.row.phase, "what goes aside leaves the phase")
        self.compare(self.row.sent, group.sent, self.about if self.arrives() else self.before, fresh=not self.timer)
        words = self.facts.words[self.row.next]
        must(group.states == words, "the states are %s, not those of %s", group.states, self.row.next)

    def judge_probe(self, group, place, kept):
        wanted = [] if place is kept else ["ERROR radioNetwork unknown-mme-ue-s1ap-id"]
        if kept and place is not kept and place.m == kept.m:
            wanted = ["ERROR radioNetwork unknown-pair-ue-s1ap-id"]
        must(texts(group.sent) == "; ".join(wanted), "the connection is elsewhere: %s at id %d", texts(group.sent), place.m)

    def judge_quiet(self, group):
        must(not group.sent, "%s is sent before a timer's end", texts(group.sent))
        must(group.states == self.facts.words[self.row.next], "the states change before a timer's end: %s", group.states)

    def judge_repeat(self, group):
        """The phase's message is sent again, where repeats are left."""
        timer = self.facts.timers[self.row.next][0]
        left = self.facts.lengths[timer][1] - (self.timer == timer and not self.variant)
        wanted = [self.facts.again[self.row.next]] if left else []
        self.compare(wanted, group.sent, self.connection(), fresh=False)
        must(group.states == self.facts.words[self.row.next], "the states change at a repeat: %s", group.states)

    def judge_forgotten(self, group):
        must(not group.sent, "%s is sent as the phone is forgotten", texts(group.sent))
        must(group.states == self.facts.words["Deregistered"], "the phone isn't forgotten: %s", group.states)

    def judge_completion(self, group):
        self.compare(COMPLETED[self.row.next], group.sent, self.connection(), fresh=False)

    # What is sent, message by message.

    def compare(self, wanted, sent, place, fresh):
        """The messages are those that are wanted, on their associations, protected as they should be."""
        pages = [message.station for message in sent if message.text == "PAGING"]
        if pages:
            must(pages == [station.number for station in self.scene.paged_at], "PAGING goes to %s", pages)
            sent = [message for message in sent if message.text != "PAGING" or message.station == pages[0]]
        plain = [text.removeprefix(OLD).removeprefix("aside: ") for text in wanted]
        must(texts(sent) == "; ".join(plain), "sent is %s", texts(sent) or "nothing")
        for text, message in zip(wanted, sent):
            if message.text != "PAGING":
                self.judge_place(text, message, place)
            if message.nas:
                self.judge_nas(message.nas, fresh)

    def judge_place(self, text, message, place):
        """The message's ids and station."""
        if text.startswith(OLD):
            place = self.before
        elif text.startswith(("aside: ", "ERROR", "PATH SWITCH")):
            place = self.about
        found = message.mme_id, message.enb_id, message.station
        must(place and found == place.place(), "%s has the ids %s", message.text, found)

    def judge_nas(self, octets, fresh):
        """A protected message is right under the next count; AUTHENTICATION REQUEST has the vector that is due."""
        phone, nas = self.phone, s1ap.nas(octets)
        if nas.header == 3 and fresh:
            phone.key, phone.down_count = lte.Cmac(lte.nas_integrity_key(phone.vector.kasme)), 0
        if nas.header:
            must(octets == phone.protected_down(nas.octets, nas.header), "%s isn't right under count %d", nas.name,
                 phone.down_count)
        if nas.type == 0x52:
            place = phone.place - (0 if fresh else 1)
            must(octets == lte.authentication_request(place % 7, phone.vectors[place]), "another challenge than %d", place)
            phone.place = place + 1


def judged(row, facts):
    """What is wrong with a row, or nothing."""
    try:
        trial = Trial(row, facts).make()
        output, owed = play(trial.scene.trace), trial.scene.trace.answers
        lines = [line for line in output.splitlines() if line.startswith("out ")]
        must(lines[:len(owed)] == owed, "the phase isn't reached as the standards' formats have it")
        judge_steps(output, trial.steps)
    except Failure as failure:
        return str(failure)
    return None
