"""A chart as text."""
import functools

from tools import abreast, progress
from tools.charting.lanes import TAG_ROOM, Ends, Group, Lanes, legend_lines, note_lines, note_texts
from tools.charting.rows import FAULT, MME, PAUSE, STATE, is_far, second_above, with_pauses

TIME_WIDTH, MARK_WIDTH, MARGIN_WIDTH, HEAD_EVERY = 7, 2, 31, 50
LEAST_WIDTH, USUAL_WIDTH, MOST_WIDTH = 80, 120, 1000
ARROW_ROOM = 8  # columns of an arrow's own, beside its label
HOLE = "\0"  # a letter of a tag that isn't known yet
LANE_STEP = 4


def text_lanes(ends, left, width):
    """The lanes of a text: each lane its own where they fit, else phones share one, then stations too."""
    room = width - MARGIN_WIDTH - left
    gaps = [ends.far + ARROW_ROOM if ends.phones else 0, ends.near + ARROW_ROOM]
    steps = [LANE_STEP, LANE_STEP]

    def taken():
        return sum(gaps) + sum(step * (len(lanes) - 1) for step, lanes in zip(steps, (ends.phones, ends.stations)) if lanes)

    for place, lanes in enumerate((ends.phones, ends.stations)):
        if taken() > room and len(lanes) > 1:
            steps[place] = 0
            gaps[place] += TAG_ROOM
    if taken() > room:
        room -= taken() - sum(gaps)
        gaps[0] = gaps[0] * room // sum(gaps)
        gaps[1] = room - gaps[0]
    return Lanes(left, Group(ends.phones, "P..", steps[0], gaps[0]), Group(ends.stations, "E..", steps[1], gaps[1]))


def over(text, at, part):
    """The text with another part from a place on."""
    return text[:at].ljust(at) + part + text[at + len(part):]


@functools.lru_cache(1 << 12)
def frame(low, high, length, rightward, dropped):
    """What stands before and after a label of this length in an arrow between two columns, and how much of it fits, or None."""
    room, cut = high - low - 5, None
    if length > room:
        cut = max(0, room - 2)
        length = cut + 2
    line = over("-" * (high - low - 1), high - low - 2 if rightward else 0, ("x" if dropped else ">") if rightward else "<")
    at = (room - length + 2 + (not rightward)) // 2
    return line[:at] + " ", " " + line[at + length + 2:], cut


def arrow_text(source, target, label, dropped):
    """An arrow from one column to another, its label in the middle; of a name that doesn't fit the end is cut, and a mark after it
    stays. A dropped one ends in a cross."""
    before, after, cut = frame(min(source, target), max(source, target), len(label), source < target, dropped)
    if cut is None:
        return before + label + after
    mark = label[label.rindex(" ("):] if label.endswith(")") else ""
    return before + (label[:cut] + ".." if len(mark) > cut else label[:cut - len(mark)] + ".." + mark) + after


class Text:
    """A chart as lines of text, of a width and with room for this many seconds."""

    def __init__(self, ends, width, end):
        self.time_width = max(TIME_WIDTH, len("+%d s" % end))
        self.left = self.time_width + MARK_WIDTH + 1
        self.lanes = text_lanes(ends, self.left, width)
        self.bare, self.dotted = self.of_lanes("|"), self.of_lanes(":")
        self.margin = width - self.lanes.end() - len("|  ")
        self.around_tag = functools.lru_cache(1 << 14)(self.draw)

    def of_lanes(self, sign):
        """A line with the lanes alone, from the first one on."""
        return "".join(sign if at in self.lanes.columns else " " for at in range(self.left, self.lanes.end() + 1))

    def head(self):
        line = "second"
        for at, head in self.lanes.heads:
            line = over(line, at, head)
        return line

    def part(self, rows, low, high):
        """The lines of the rows between two places, of which the first has the lanes' heads above it."""
        shown = second_above(rows, low)
        for place, row in enumerate(progress.over("draws row", rows[low:high], high - low)):
            if place % HEAD_EVERY == 0:
                yield self.head() + "\n"
            for line in self.rows(row, shown):
                yield line.rstrip() + "\n"
            shown = shown if row.kind == PAUSE else row.second

    def rows(self, row, shown):
        """The lines of a row; `shown` is the second that stands above."""
        if row.kind == PAUSE:
            return ["%*s%*s%s" % (self.time_width - 1, "+" + note_texts(row), MARK_WIDTH + 2, "", self.dotted)]
        time = "" if row.second == shown and row.kind != STATE else "%d" % row.second
        line = "%*s %-*s%s" % (self.time_width - 1, time, MARK_WIDTH + 1, "!" if row.kind == FAULT else "", self.arrows(row))
        if not row.notes:
            return [line]
        first, *more = note_lines(row, self.margin, "   ")
        return ["%s  %s" % (line, first)] + ["%*s%s  %s" % (self.left, "", self.bare, note) for note in more]

    def arrows(self, row):
        """The lanes with the row's arrows."""
        at, tag = self.lanes.of_phone(row.phone)
        before, shown, after = self.around_tag(row.arrows, at, len(tag), row.dropped)
        return before + tag[:shown] + after

    def draw(self, arrows, at, length, dropped):
        """The lanes with the arrows of a phone whose lane stands there, up to its tag, so that phones share them; how much of the
        tag is shown, and what is after it."""
        line = self.bare
        for arrow in sorted(arrows, key=is_far):
            source, target = self.lanes.ends_of(arrow, at)
            drawn = arrow_text(source, target, self.lanes.label(arrow, length * HOLE), dropped and arrow.target == MME)
            line = over(line, min(source, target) + 1 - self.left, drawn)
        before, shown = line.partition(HOLE)[0], line.count(HOLE)
        return before, shown, line[len(before) + shown:]


def text_parts(rows, end, width, begun=0):
    """The chart as text, line by line."""
    ends = Ends(rows)
    text, rows = Text(ends, width, end), list(with_pauses(rows, end, begun))
    names, step = legend_lines(ends, width)
    yield "".join("".join(name.ljust(step) for name in line).rstrip() + "\n" for line in [*names, []])
    yield from abreast.made(lambda low, high: text.part(rows, low, high), abreast.bounds_of(len(rows), HEAD_EVERY))


def text_of(rows, end, width):
    """The chart as text."""
    return "".join(text_parts(rows, end, width))
