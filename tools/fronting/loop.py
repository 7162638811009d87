"""Waits for connections and for the clock: one thread, epoll, and timers."""
import heapq
import itertools
import select
import time

MOST_EVENTS = 256  # that one turn looks at


class Timer:
    """Something to be done at a time, unless it is cancelled."""

    __slots__ = ("act",)

    def __init__(self, act):
        self.act = act

    def cancel(self):
        self.act = None


class Loop:
    """What is waited for, and what is done then."""

    def __init__(self):
        self.poll, self.acts = select.epoll(), {}
        self.timers, self.order = [], itertools.count()
        self.now = time.monotonic()

    def watch(self, file, events, act):
        """Has `act` be called with the events of a file."""
        self.acts[file] = act
        self.poll.register(file, events)

    def change(self, file, events):
        self.poll.modify(file, events)

    def unwatch(self, file):
        if self.acts.pop(file, None) is not None:
            self.poll.unregister(file)

    def after(self, seconds, act):
        """Has `act` be called after `seconds`."""
        timer = Timer(act)
        heapq.heappush(self.timers, (time.monotonic() + seconds, next(self.order), timer))
        return timer

    def patience(self, is_busy):
        """The seconds that may be waited: until the first timer, or none where something is to be done."""
        if is_busy:
            return 0
        if not self.timers:
            return -1
        return max(0.0, self.timers[0][0] - time.monotonic())

    def turn(self, is_busy=False):
        """Waits until something can be done, and does it."""
        for file, events in self.poll.poll(self.patience(is_busy), MOST_EVENTS):
            act = self.acts.get(file)
            if act is not None:
                act(events)
        self.now = time.monotonic()
        while self.timers and self.timers[0][0] <= self.now:
            _, _, timer = heapq.heappop(self.timers)
            if timer.act is not None:
                timer.act()

    def close(self):
        self.poll.close()
