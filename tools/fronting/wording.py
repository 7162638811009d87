"""What several command lines take."""
import argparse

from tools import runs

MOST_SNAPSHOTS = 999999999


def whole(low, high):
    """Reads a number of a range."""
    def read(text):
        try:
            return runs.number(text, low, high)
        except runs.Fault as fault:
            raise argparse.ArgumentTypeError(str(fault)) from None
    return read


def add_of_snapshots(words, doing):
    """Lets a command line say from which snapshot on a log is read, for what is done with it."""
    words.add_argument("--from", dest="after", metavar="NUMBER", type=whole(1, MOST_SNAPSHOTS),
                       help="%s what came after this snapshot; default all of it, and where its beginning is gone, what came after "
                       "the newest that can be taken" % doing)
    words.add_argument("--snapshot-key", metavar="FILE", help="the key that snapshots are sealed by")
