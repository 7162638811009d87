"""What is done beside the stations' messages: small pieces of work, one in a turn of the loop, each where no message waits, or
where the one before was a while ago."""
import collections
import time

from tools.fronting import limits


class Aside:
    """Pieces of work in the order in which they came."""

    def __init__(self, front):
        self.front = front
        self.acts, self.timer, self.last = collections.deque(), None, 0.0

    def do(self, act):
        """Has a piece of work be done."""
        self.acts.append(act)
        self.plan(0)

    def plan(self, seconds):
        if self.timer is None:
            self.timer = self.front.loop.after(seconds, self.go_on)

    def go_on(self):
        """Does the next one, if it may be done now."""
        self.timer, now = None, time.monotonic()
        if self.may_act(now):
            self.last = now
            self.acts.popleft()()
            self.plan(0) if self.acts else None
        else:
            self.plan(limits.ASIDE_REST)

    def may_act(self, now):
        """Whether no message of a station waits for its answer or its turn, or all waited for long enough. While the MME is to be
        given nothing, nobody is to ask it."""
        return not self.front.exchange.is_held and (self.is_quiet or now - self.last >= limits.ASIDE_SECONDS)

    @property
    def is_quiet(self):
        """Whether no message of a station waits."""
        exchange = self.front.exchange
        return not (exchange.marks or exchange.closed or exchange.batch.lines or self.front.crowd.eager)
