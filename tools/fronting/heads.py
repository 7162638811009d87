"""A log whose lines of provisioning all stand in its head, for `mme play`, which skips those that were given where they stand.

`mme play` answers it as its run was answered, if each vector came before its phone had none left, and each subscriber before a
message named it. Whether that is so is found by the model of tools/explain, which plays the log with these lines where they stand,
and with all of them in its head.
"""
import collections
import functools

from tools import runs
from tools.eps import macs
from tools.eps.telling import BriefNow
from tools.eps.world import World

from tools.fronting import limits
from tools.fronting.adding import found_in
from tools.fronting.resuming import why_given_up
from tools.fronting.segments import NUMBERED
from tools.fronting.syncing import why_unsure

FURTHER = runs.FURTHER.encode()
KEPT = 1 << 10  # MACs of which it is known whether they are right
TOO_MANY = "%s would have %d vectors in the head, and `mme play` takes %d: `tools/front play` plays this log"
OTHERWISE = "line %d, as it is printed here, is answered otherwise than it was, to %s: what was given later is there already"
DAMAGED = "line %d, as it is printed here, is damaged: %s"
GROWN = "the log has grown meanwhile: begin again"


def check_sure(log):
    """Refuses a log that may lack what was answered: no run may go on after what is made of it."""
    if why := why_given_up(log) or why_unsure(log):
        raise runs.Fault(why)


class Gathered:
    """A log, by what gives its lines, each with its end, from the first on: `head` has those of the head, and `further` those that
    were given since."""

    def __init__(self, read):
        self.read, self.head, self.further, is_head = read, [], [], True
        for line in read():
            is_head = is_head and not NUMBERED.match(line)
            if is_head:
                self.head.append(line)
            elif line.startswith(FURTHER):
                self.further.append(line[len(FURTHER):])
        for number, line in enumerate(self.head, 1):
            read_line(number, line, lambda _, text: runs.fields_of(text, runs.WORDS))
        for number, line in enumerate(self.further, len(self.head) + 1):
            read_line(number, line, lambda _, text: found_in(text.decode("latin-1")))
        self.check_vectors()

    @property
    def facts(self):
        """The lines of provisioning that it began with."""
        return [line.rstrip(b"\n") for line in self.head if line.strip() and not line.startswith(b"#")]

    def check_vectors(self):
        """Refuses a log whose head a program doesn't take."""
        lines = self.facts + self.further
        counts = collections.Counter(line.split(b" ")[1].decode("latin-1") for line in lines if line.startswith(b"vec "))
        for imsi, count in counts.items():
            if count > limits.MOST_UNSPENT:
                raise runs.Fault(TOO_MANY % (imsi, count, limits.MOST_UNSPENT))

    def rest(self):
        """The lines after the head, with those that were given."""
        is_head, count = True, 0
        for line in self.read():
            is_head = is_head and not NUMBERED.match(line)
            if not is_head:
                count += line.startswith(FURTHER)
                yield line
        if count != len(self.further):
            raise runs.Fault(GROWN)

    def lines(self):
        """The log, with all of these in its head."""
        yield from self.head
        yield from self.further
        yield from (line for line in self.rest() if not line.startswith(FURTHER))

    def differences(self):
        """The first line that is answered otherwise now, in words, for each owner of messages."""
        is_right, further = functools.lru_cache(KEPT)(macs.is_right), [line.rstrip(b"\n") for line in self.further]
        before, after = (World(facts, is_right, BriefNow) for facts in (self.facts, self.facts + further))
        number, given, known = len(self.head) + len(further), 0, set()
        for line in self.rest() if further else ():
            if line.startswith(FURTHER):
                before.lengthen(further[given:given + 1])
                given += 1
                if given == len(further):
                    return
                continue
            number += 1
            if not number % limits.FORGETS_AFTER:
                for world in (before, after):
                    world.forget(limits.MOST_LINES_OF_PHONE)
            found = [owner for owner in owners(*(answers(world, number, line) for world in (before, after))) if owner not in known]
            known.update(found)
            if found:
                yield OTHERWISE % (number, " and ".join(runs.owner_text(owner, list(after.by_imsi)) for owner in found))


def read_line(number, line, read):
    """What a line is read as; nothing of a comment."""
    text = line.rstrip(b"\n")
    if not text or text.startswith(b"#"):
        return None
    try:
        return read(number, text)
    except runs.Fault as fault:
        raise runs.Fault(DAMAGED % (number, fault)) from None


def answers(world, number, line):
    """What a line is answered: a state or a refusal, and messages."""
    event = read_line(number, line, lambda number, text: runs.event_of(number, *runs.fields_of(text, runs.EVENTS)))
    if event and event.word == "show" and event.imsi not in world.by_imsi:
        raise runs.Fault(DAMAGED % (number, "nobody has the IMSI %s" % event.imsi))
    return world.take(event)[:2] if event else (None, [])


def owners(before, after):
    """Who is answered otherwise, of two answers."""
    pairs = (before[1], after[1]), (after[1], before[1])
    return list(dict.fromkeys(each.owner for sent, other in pairs for each in sent if each not in other))
