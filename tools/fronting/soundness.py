"""How the log is doing: its size, how many of its segments are used, and whether it is whole."""
import os

from tools.fronting import limits
from tools.fronting.segments import older_segments

# What can't be done any more once the oldest segment of a series goes, by the series' place in the log.
LOSSES = "the trace no longer plays from its beginning", "--resume and give can't use this run"


class Soundness:
    """Looks after the log, and says once of each series that most of its segments are used."""

    def __init__(self, front):
        self.front = front
        self.told, self.older = set(), {}  # the series of which it was said; what a series' older segments have, by when

    def series(self):
        """Each series of the log; none where there is no log any more."""
        journal = self.front.exchange.journal
        return journal.series if journal is not None else ()

    def octets(self, series):
        """How large a series is. Its older segments are looked at where another one is there, or their head is longer."""
        key = series.number, series.first, self.front.given
        if self.older.get(series.path, (None,))[0] != key:
            self.older[series.path] = key, sum(os.path.getsize(path) for path in older_segments(series.path).values())
        return series.size + self.older[series.path][1]

    @staticmethod
    def used(series):
        """How many of the segments that may be kept there are, and which part that is of them."""
        used = series.number - series.first + 1
        return used, min(1.0, used / series.most)

    def is_low(self, series):
        return self.used(series)[1] >= limits.MOST_USED

    def look(self):
        """Says what is new."""
        for series, loss in zip(self.series(), LOSSES):
            if self.front.saving.covers(series):
                continue
            if series.path not in self.told and self.is_low(series):
                self.told.add(series.path)
                words = "%d of %d segments of %s are used: once all are, the oldest goes with each new one, and %s" % (
                    self.used(series)[0], series.most, series.path, loss)
                self.front.voice.say("segments_used", words, path=series.path)
