"""Messages between stations and the MME as a ladder chart, in SVG for the page: the newest first, each with its phone's name, and
below it why it did not do what it seems to."""
import collections
import datetime
import itertools
import textwrap

from tools.fronting.history import STRANGER
from tools.fronting.markup import phone, shown

MOST_LANES, MOST_ROWS, MOST_OF_EVENT = 6, 60, 3
# Sizes: between stations, to the MME, of a row, of a reason's line, of the edges and of an arrow's head.
LANE, WIDE, ROW, LINE, LEFT, RIGHT, TOP, HEAD = 122, 360, 24, 16, 216, 56, 34, 5
TIME_AT, REASON_AT, NAME_APART = 8, 24, 8
LETTERS = 52  # of a reason's line, which a narrow screen has room for

# What a row has: when that was; of a message its station, whether that sent it and its name; whose it is, and the reasons in words.
Entry = collections.namedtuple("Entry", "when station is_in label name reasons")


def name_of(owner, imsis):
    """Whose something is that is no message's, by its owner."""
    if owner[:1] == "s" and int(owner[1:]) < len(imsis):
        return imsis[int(owner[1:])]
    return {"e": "station " + owner[1:], "x": STRANGER}.get(owner[:1], "")


def entries_of(rows, teller, imsis, holds):
    """The last entries, of messages and of what was told of none, for whose times and names something holds, in the order of their
    times."""
    return sorted([*messages_of(rows, teller, holds), *others_of(teller, imsis, holds)], key=lambda entry: entry.when)[-MOST_ROWS:]


def messages_of(rows, teller, holds):
    """The entries of the last messages."""
    last = list(itertools.islice((row for row in reversed(rows) if holds(row.when, row.who.name)), MOST_ROWS))
    return [Entry(row.when, row.station, row.is_in, row.label, row.who.name, [
        reason.text() for reason in teller.of_messages.get((row.station, row.place), ())]) for row in reversed(last)]


def others_of(teller, imsis, holds):
    """The entries of what was told last of no message, a few of an event."""
    events, last = collections.Counter(), []
    for reason in reversed(teller.others):
        name = name_of(reason.telling.owner, imsis)
        if holds(reason.when, name) and events[reason.event] < MOST_OF_EVENT and len(last) < MOST_ROWS:
            events[reason.event] += 1
            last.append(Entry(reason.when, None, False, "", name, [reason.text()]))
    return last[::-1]


def lanes_of(entries):
    """The stations whose messages are shown, those that spoke last first, in the order of their numbers."""
    lanes = []
    for entry in reversed(entries):
        if entry.station is not None and entry.station not in lanes and len(lanes) < MOST_LANES:
            lanes.append(entry.station)
    return sorted(lanes)


def text(kind, across, down, words, anchor=""):
    """Words at a place."""
    return '<text class="%s" x="%d" y="%d"%s>%s</text>' % (
        kind, across, down, ' text-anchor="%s"' % anchor if anchor else "", shown(words))


def arrow(start, end, down, label, kind):
    """A message from one lane to another, with its name on it."""
    head = HEAD if end > start else -HEAD
    return '<line class="arrow{3}" x1="{0}" y1="{2}" x2="{1}" y2="{2}"/><path class="head{3}" d="M{1} {2}l{4} -4v8z"/>'.format(
        start, end, down, kind, -head) + text("label" + kind, (start + end) // 2, down - 5, label)


def time_of(when):
    return datetime.datetime.fromtimestamp(when, datetime.timezone.utc).strftime("%H:%M:%S.%f")[:-3]


class Chart:
    """A chart under way: its lanes, its parts, and how far down it has come."""

    def __init__(self, lanes, imsis):
        self.places = {station: LEFT + LANE * place for place, station in enumerate(lanes)}
        self.mme = LEFT + LANE * max(0, len(lanes) - 1) + WIDE
        self.imsis, self.parts, self.down = imsis, [], TOP

    def add(self, entry):
        """An entry: its arrow, its phone's name where the arrow is at the station, and its reasons."""
        kind = " fault" if entry.reasons else ""
        self.down += ROW
        self.parts.append(text("time", TIME_AT, self.down - 2, time_of(entry.when)))
        station = self.places.get(entry.station, LEFT)
        if entry.name:
            name = phone(entry.name) if entry.name in self.imsis else entry.name
            self.parts.append(text("phone", station - NAME_APART, self.down - 2, name, "end"))
        if entry.station is not None:
            start, end = (station, self.mme) if entry.is_in else (self.mme, station)
            self.parts.append(arrow(start, end, self.down - 6, entry.label, kind))
        for line in [line for reason in entry.reasons for line in textwrap.wrap(reason, LETTERS)]:
            self.down += LINE
            self.parts.append(text("reason fault", REASON_AT, self.down - 4, line))

    @property
    def width(self):
        return self.mme + RIGHT

    def whole(self):
        """The chart in SVG."""
        heads = [*((place, "station %d" % station) for station, place in self.places.items()), (self.mme, "MME")]
        rails = [text("lane", place, 16, name) + '<line class="rail" x1="{0}" y1="24" x2="{0}" y2="{1}"/>'.format(place, self.down)
                 for place, name in heads]
        return "\n".join(['<svg role="img" aria-label="the last messages" viewBox="0 0 {0} {1}" width="{0}" height="{1}">'.format(
            self.width, self.down + LINE), *rails, *self.parts, "</svg>"])


def drawn(entries, imsis):
    """The chart of these entries, the last first; nothing where there is none. `imsis` are those that have a page."""
    lanes = lanes_of(entries)
    chart = Chart(lanes, imsis)
    for entry in reversed(entries):
        if entry.station is None or entry.station in lanes:
            chart.add(entry)
    return chart.whole() if chart.parts else ""
