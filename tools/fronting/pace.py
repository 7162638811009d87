"""How many messages or connections may pass in a second."""
import math


class Pace:
    """Lets `rate` pass in a second; after a second of rest, as many at once."""

    def __init__(self, rate):
        self.rate, self.apart, self.passed = rate, 1 / rate, -math.inf

    def allows(self, now):
        """How many may pass now."""
        rested = now - self.passed
        return self.rate if rested >= 1 else max(0, int(rested / self.apart + 1e-9))

    def is_open(self, now):
        """Whether one may pass now."""
        return (now - self.passed) / self.apart + 1e-9 >= 1

    def take(self, count, now):
        """Lets `count` pass."""
        self.passed = max(self.passed, now - 1) + count * self.apart

    def next(self):
        """When the next one may pass, where none may now."""
        return self.passed + self.apart
