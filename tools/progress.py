"""Says at a terminal how far a long run is. Nothing here is part of a proof."""
import pathlib
import sys
import time

FEWEST = 20000  # things of which it is said
EACH = 500  # of them the clock is looked at
SECONDS = 0.5  # between two sayings
BLANK = "\r" + " " * 70 + "\r"


def over(doing, things, whole):
    """The things, of which there are `whole`, and meanwhile a line on standard error, where that is a terminal."""
    return watched(doing, things, whole) if whole >= FEWEST and sys.stderr.isatty() else things


def watched(doing, things, whole):
    said = 0
    for done, thing in enumerate(things):
        if done % EACH == 0 and time.monotonic() - said > SECONDS:
            said = time.monotonic()
            say("\r%s: %s %d of %d " % (pathlib.Path(sys.argv[0]).name, doing, done, whole))
        yield thing
    say(BLANK)


def say(text):
    print(text, end="", file=sys.stderr, flush=True)
