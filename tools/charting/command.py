"""The command line of tools/chart."""
import argparse
import gc
import os
import sys

from tools import following, runs, versions
from tools.charting.rows import rows_of
from tools.charting.svg import svg_parts
from tools.charting.text import LEAST_WIDTH, MOST_WIDTH, USUAL_WIDTH, text_parts
from tools.eps import story
from tools.fronting import rest
from tools.fronting.wording import add_of_snapshots


def chosen(rows, name):
    """The rows of one phone, and those of none."""
    if not any(row.phone and row.phone.name() == "IMSI " + name for row in rows):
        raise runs.Fault("no message of the run is of IMSI %s" % name)
    return [row for row in rows if row.phone is None or row.phone.name() == "IMSI " + name]


def kept(things, into):
    """The things, each put into a list as it comes."""
    for thing in things:
        into.append(thing)
        yield thing


def with_clocks(rows, clocks):
    """The rows, of which the first of each second has at its margin the time of day of its event."""
    if not clocks.lines:
        return rows
    shown, timed = None, []
    for row in rows:
        clock = clocks.at(row.line) if row.second != shown else None
        if clock is not None:
            shown, row = row.second, row._replace(notes=(*row.notes, "at " + following.clock_text(clock)))
        timed.append(row)
    return timed


def drawn(given):
    """The parts of the chart that is asked for."""
    gc.disable()  # all that a run is made of stays to the end, so that looking for what doesn't takes a third of the time in vain
    run = rest.run_of(given, None if given.reasons else story.MOST_TOLD)
    if run.told is None:
        why = story.why_untold(run.trace)
        versions.complain("%s: drawn without reasons and repeats%s" % (why, "" if why == runs.NO_KEYS else "; --reasons has them"))
    steps = []
    rows = rows_of(run.trace, kept(run.steps, steps), run.told)
    rows = with_clocks(rows, following.Clocks.of(given.trace, run.trace))
    begun = runs.begun(run.trace)
    end = max(begun, runs.end_of(steps))
    if given.imsi:
        rows = chosen(rows, given.imsi)
    return svg_parts(rows, end, begun) if given.svg else text_parts(rows, end, given.width or terminal_width(), begun)


def terminal_width():
    """The columns of the terminal that the text goes to, or 120."""
    try:
        return min(max(os.get_terminal_size(sys.stdout.fileno()).columns, LEAST_WIDTH), MOST_WIDTH)
    except (OSError, ValueError):
        return USUAL_WIDTH


def width(text):
    if not (text.isascii() and text.isdigit() and LEAST_WIDTH <= int(text[:6]) <= MOST_WIDTH):
        raise argparse.ArgumentTypeError("%r isn't a number of columns from %d to %d" % (text, LEAST_WIDTH, MOST_WIDTH))
    return int(text)


def parser(doc):
    words = argparse.ArgumentParser(description=doc, formatter_class=argparse.RawDescriptionHelpFormatter, allow_abbrev=False)
    versions.add_to(words)
    words.add_argument("trace", metavar="TRACE")
    words.add_argument("answers", metavar="ANSWERS", nargs="?", help="what `mme play` printed; if left out, see above")
    words.add_argument("--svg", action="store_true", help="for a browser")
    words.add_argument("--width", type=width, metavar="COLUMNS", help="of the text; default those of the terminal, or 120")
    words.add_argument("--reasons", action="store_true", help="with reasons and repeats, however long the run is")
    words.add_argument("--imsi", help="only the messages of this phone and those of no phone")
    words.add_argument("--mme", metavar="PROGRAM", help="the program that plays TRACE, in place of the one beside this tool")
    add_of_snapshots(words, "of a front's log, draw")
    return words


def main(doc):
    given = parser(doc).parse_args()
    try:
        sys.stdout.writelines(drawn(given))
        sys.stdout.flush()
    except runs.Fault as fault:
        versions.complain(fault)
        return 2
    except BrokenPipeError:
        sys.stderr.close()
        return 2
    return 0
