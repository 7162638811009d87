"""The lanes of a chart, who each is, and what stands beside them at the margin."""
import collections
import functools
import itertools
import textwrap

from tools import versions
from tools.charting.phones import Phone
from tools.charting.rows import MME, PHONE, is_far

TAG_ROOM = 6  # columns of a tag before a label


class Ends:
    """What the arrows of a chart go between: phones that have a lane, stations, all phones; and the longest label of an arrow
    between phone and station, and of one between station and MME. Phones get their tags."""

    def __init__(self, rows):
        arrows = set(itertools.chain.from_iterable(row.arrows for row in rows))
        ends, labels = set(), (set(), set())
        for arrow in arrows:
            ends.update((arrow.source, arrow.target))
            labels[not is_far(arrow)].add(arrow.label)
        self.told = list(dict.fromkeys(row.phone for row in rows if row.phone))
        for place, phone in enumerate(self.told, 1):
            phone.tag = "P%d" % place
        speaking = {row.phone for row in rows if len(row.arrows) > 1}  # of them one is between phone and station
        self.phones = [phone for phone in self.told if phone in speaking]
        self.stations = sorted(end for end in ends if isinstance(end, int))
        self.far, self.near = (max(map(len, each), default=0) for each in labels)


def tag_of(lane):
    if isinstance(lane, Phone):
        return lane.tag
    return "E%d" % lane if isinstance(lane, int) else lane


def note_texts(row):
    """What stands at the margin: parts one after the other, a phone by its tag."""
    return versions.visible(" ".join([row.phone.tag if note is PHONE else note for note in row.notes]))


Group = collections.namedtuple("Group", "lanes head step gap")  # a step of 0: the lanes share one place


class Lanes:
    """Where each lane stands: those of the phones, after a gap those of the stations, after another the MME's."""

    def __init__(self, left, *groups):
        self.places, self.shared, self.heads = {}, set(), []
        at = left
        for lanes, head, step, gap in groups:
            self.places.update((lane, at + place * step) for place, lane in enumerate(lanes))
            self.shared.update(lanes if not step else ())
            self.heads += [(self.places[lane], tag_of(lane)) for lane in lanes] if step else [(at, head)]
            at = self.places[lanes[-1]] + gap if lanes else at
        self.places[MME] = at
        self.heads.append((at, MME))
        self.columns = sorted(set(self.places.values()))

    def end(self):
        return self.places[MME]

    def of_phone(self, phone):
        """Where the lane of a phone stands, and its tag where it shares that; nothing where it has none."""
        return self.places.get(phone), phone.tag if phone in self.shared else ""

    def ends_of(self, arrow, at):
        """Where an arrow begins and ends, of a phone whose lane stands there."""
        source, target, _ = arrow
        return at if source is PHONE else self.places[source], at if target is PHONE else self.places[target]

    def label(self, arrow, tag):
        """The label of an arrow, after the tag of its phone, else of its station, where that one shares its lane."""
        if not is_far(arrow):
            station = arrow.source if arrow.target == MME else arrow.target
            tag = tag_of(station) if station in self.shared else ""
        return "%s %s" % (tag, arrow.label) if tag else arrow.label


def note_lines(row, width, indent):
    """What stands at the margin, in lines of a width."""
    if not row.notes or row.notes[0] is not PHONE:
        return wrapped(note_texts(row), width, indent)
    tag = row.phone.tag
    lines = wrapped(note_texts(row._replace(notes=("-" * len(tag), *row.notes[1:]))), width, indent)  # so that phones share them
    return [tag + lines[0][len(tag):], *lines[1:]]


@functools.lru_cache(1 << 12)
def wrapped(text, width, indent):
    """A text in lines of a width, one at the least."""
    return textwrap.wrap(text, width, subsequent_indent=indent, break_on_hyphens=False) or [""]


def legend(ends):
    """Who each tag is."""
    phones = ["%s: %s" % (phone.tag, phone.name()) for phone in ends.told]
    return phones + ["E%d: station %d" % (lane, lane) for lane in ends.stations]


MOST_IN_A_COLUMN, NAME_GAP = 12, 3  # names of a legend: more go side by side, with this much room between them


def legend_lines(ends, width):
    """The names of the legend line by line, and the width of each: one a line, or where there are many as many as fit."""
    names = legend(ends)
    step = max(map(len, names), default=0) + NAME_GAP
    beside = max(1, (width + NAME_GAP) // step) if len(names) > MOST_IN_A_COLUMN else 1
    return [names[at:at + beside] for at in range(0, len(names), beside)], step
