"""A chart as a picture for a browser: SVG 1.1."""
import copy
import html

from tools import abreast, progress
from tools.charting.lanes import NAME_GAP, TAG_ROOM, Ends, Group, Lanes, legend, legend_lines, note_lines, note_texts
from tools.charting.rows import FAULT, MME, PAUSE, STATE, second_above, with_pauses

ROW_HEIGHT, LINE_HEIGHT, CHARACTER = 34, 15, 7.3  # in pixels; a character of the font's 12
SVG_LEFT, SVG_MARGIN, SVG_LANE_STEP, MARGIN_CHARACTERS = 90, 330, 46, 42
SVG_TIME, SVG_MARK = SVG_LEFT - 22, SVG_LEFT - 12  # where a time ends, and the middle of a fault's mark
MOST_SVG_LANES = 40
SCREEN_HEIGHT = 400  # pixels after which the heads of the lanes stand again
POINT = 10  # pixels of an arrow's point
# What the signs of a chart mean, each in its colour.
SIGNS = (("fault", "! red: refused, failed, dropped, or can't be read"), ("fault", "cross: dropped, and nothing came of it"),
         ("state", "green: states that were asked for"), ("time", "2 of 4: sent again, the second of four times"),
         ("time", "mouse on a row: its line of the trace"))
# Of a light page and of a dark one: paper, text, time, state, fault, lane, arrow.
COLOURS = ("#fff #222 #666 #060 #b00 #bbb #235", "#181818 #ddd #999 #7c7 #f77 #555 #9bd")
COLOUR_NAMES = "paper text time state fault lane arrow".split()
STYLE = """:root { %s }
@media (prefers-color-scheme: dark) { :root { %s } }
.paper { fill: var(--paper) }
text { font: 12px monospace; fill: var(--text); paint-order: stroke; stroke: var(--paper); stroke-width: 3px }
.state text { fill: var(--state) } .fault text { fill: var(--fault) } text.time, .pause text { fill: var(--time) }
text.head { font-weight: bold; fill: var(--text) }
.lane { stroke: var(--lane) } .arrow, .cross { stroke: var(--arrow); stroke-width: 1.3 } .point { fill: var(--arrow) }
.fault .arrow { stroke: var(--fault) } .fault .point { fill: var(--fault) }
.fault text.head { fill: var(--fault) } .fault .cross { stroke: var(--fault); stroke-width: 2 }
text.sign-fault { fill: var(--fault) } text.sign-state { fill: var(--state) } text.sign-time { fill: var(--time) }
.row { fill: transparent } g:hover > .row { fill: var(--lane); fill-opacity: 0.3 }""" % (
    tuple("; ".join("--%s: %s" % pair for pair in zip(COLOUR_NAMES, colours.split())) for colours in COLOURS))


def svg_lanes(ends):
    """The lanes of a picture. A label between a phone and a station may stand over other phones' lanes, so the first station stands
    one step from the last phone where there is room for the longest from the first phone on."""
    groups = []
    for lanes, head, length in ((ends.phones, "P..", ends.far), (ends.stations, "E..", ends.near)):
        step = SVG_LANE_STEP if len(lanes) <= MOST_SVG_LANES else 0
        gap = (length + 4 + (0 if step else TAG_ROOM)) * CHARACTER
        if step and lanes is ends.phones:
            gap = max(step, gap - step * (len(lanes) - 1))
        groups.append(Group(lanes, head, step, gap))
    return Lanes(SVG_LEFT, *groups)


def svg_label(source, target, y, label):
    """The label of an arrow above its middle; where that is too short, up to its right end."""
    if len(label) * CHARACTER <= abs(target - source):
        return svg_text((source + target) / 2, y, label, anchor="middle")
    return svg_text(max(source, target) - POINT, y, label, anchor="end")


def svg_text(x, y, text, kind="", anchor="start"):
    named = ' class="%s"' % kind if kind else ""
    return '<text x="%.0f" y="%.0f" text-anchor="%s"%s>%s</text>' % (x, y, anchor, named, html.escape(text, False))


def svg_arrow(lanes, row, arrow, y):
    """A line, its head, and the label above it; a cross for the head where the message was dropped at the MME."""
    at, tag = lanes.of_phone(row.phone)
    source, target = lanes.ends_of(arrow, at)
    back = -8 if target > source else 8
    label = svg_label(source, target, y - 4, lanes.label(arrow, tag))
    point = '<path class="point" d="M%.0f %.0fl%d -4v8z"/>' % (target, y, back)
    if row.dropped and arrow.target == MME:
        point = '<path class="cross" d="M%.0f %.0fl10 10m0 -10l-10 10"/>' % (target - 12, y - 5)
        target -= 7
    return ['<line class="arrow" x1="%.0f" y1="%.0f" x2="%.0f" y2="%.0f"/>' % (source, y, target, y), point, label]


def svg_notes(row):
    return note_lines(row, MARGIN_CHARACTERS, "")


def svg_line(row):
    """How far below its top a row's arrows and the first line of its text stand."""
    return ROW_HEIGHT - 10 if row.arrows else LINE_HEIGHT


def svg_height(row):
    return svg_line(row) + 8 + (LINE_HEIGHT * (len(svg_notes(row)) - 1) if row.notes else 0)


def svg_row(row, lanes, top, shown):
    """The parts of a row."""
    y = top + svg_line(row)
    yield '<g class="%s">' % row.kind
    if row.where:
        yield '<title>%s</title><rect class="row" y="%.0f" width="100%%" height="%.0f"/>' % (row.where, top, svg_height(row))
    if row.kind == PAUSE:
        yield svg_text(SVG_TIME, y, "+" + note_texts(row), anchor="end")
    elif row.second != shown or row.kind == STATE:
        yield svg_text(SVG_TIME, y, "%d s" % row.second, "time", "end")
    if row.kind == FAULT:
        yield svg_text(SVG_MARK, y, "!", "head", "middle")
    for arrow in row.arrows:
        yield from svg_arrow(lanes, row, arrow, y)
    if row.kind != PAUSE:
        for place, note in enumerate(svg_notes(row)):
            yield svg_text(lanes.end() + 20, y + LINE_HEIGHT * place, note)
    yield "</g>"


def svg_heads(lanes, y):
    return [svg_text(at, y, head, "head", "middle") for at, head in lanes.heads]


class Screens:
    """Where rows stand one below the other, with the lanes' heads again on each screen's height."""

    def __init__(self, top):
        self.y = self.headed = top

    def has_heads(self):
        """Whether the heads stand again before the next row; then there is room for them."""
        if self.y - self.headed <= SCREEN_HEIGHT:
            return False
        self.y += LINE_HEIGHT + 6
        self.headed = self.y
        return True


def svg_screens(rows, bounds, top):
    """The screens as each part of the rows begins, by its first place, and where the last row ends."""
    screens, begun = Screens(top), {}
    for low, high in bounds:
        begun[low] = copy.copy(screens)
        for row in rows[low:high]:
            screens.has_heads()
            screens.y += svg_height(row)
    return begun, screens.y


def svg_part(rows, lanes, screens, low, high):
    """The rows between two places, line by line."""
    shown = second_above(rows, low)
    for row in progress.over("draws row", rows[low:high], high - low):
        if screens.has_heads():
            yield in_lines(svg_heads(lanes, screens.y - 6))
        yield in_lines(svg_row(row, lanes, screens.y, shown))
        screens.y += svg_height(row)
        shown = shown if row.kind == PAUSE else row.second


def in_lines(parts):
    return "".join([part + "\n" for part in parts])


def described(ends, end):
    """What the picture is, for who doesn't see it."""
    counts = ["%d %s%s" % (len(each), word, "" if len(each) == 1 else "s")
              for each, word in ((ends.told, "phone"), (ends.stations, "station"))]
    return "<title>%s in %d s</title>" % (" at ".join(counts), end), "<desc>%s</desc>" % html.escape(
        "A ladder chart: time goes downward, and each arrow is a message. " + "; ".join(legend(ends)), False)


def svg_head(ends, lanes, names, sizes, end):
    """What stands before the rows, element by element."""
    yield '<svg xmlns="http://www.w3.org/2000/svg" width="%.0f" height="%.0f" viewBox="0 0 %.0f %.0f" role="img">' % (sizes + sizes)
    yield from described(ends, end)
    yield "<style>%s</style>" % STYLE
    yield '<rect class="paper" width="100%" height="100%"/>'
    lines, step = names
    for place, line in enumerate(lines, 1):
        yield from (svg_text(10 + column * step * CHARACTER, LINE_HEIGHT * place + 4, name) for column, name in enumerate(line))
    for place, (kind, sign) in enumerate(SIGNS, len(lines) + 1):
        yield svg_text(10, LINE_HEIGHT * place + 4, sign, "sign-" + kind)
    heads = heads_below(lines)
    yield from svg_heads(lanes, heads)
    for at in lanes.columns:
        yield '<line class="lane" x1="%.0f" y1="%.0f" x2="%.0f" y2="%.0f"/>' % (at, heads + 6, at, sizes[1] - 10)


def svg_parts(rows, end, begun=0):
    """The chart as SVG 1.1, line by line."""
    ends = Ends(rows)
    lanes, rows = svg_lanes(ends), list(with_pauses(rows, end, begun))
    width = lanes.end() + SVG_MARGIN
    names = legend_lines(ends, int(width / CHARACTER) - NAME_GAP)
    bounds = abreast.bounds_of(len(rows), 1)
    screens, bottom = svg_screens(rows, bounds, heads_below(names[0]) + 6)
    yield in_lines(svg_head(ends, lanes, names, (width, bottom + 10), end - begun))
    yield from abreast.made(lambda low, high: svg_part(rows, lanes, screens[low], low, high), bounds)
    yield "</svg>\n"


def heads_below(lines):
    """Where the heads of the lanes stand below the legend."""
    return LINE_HEIGHT * (len(lines) + len(SIGNS) + 2) + 4


def svg_of(rows, end):
    """The chart as SVG 1.1."""
    return "".join(svg_parts(rows, end))
