"""How many vectors each phone has left: those after the last that it was challenged with. Of those that are spent, the RANDs aren't
known after a snapshot; LOG.used has them."""
import collections

from tools import runs

from tools.fronting import limits
from tools.fronting.challenges import RAND_OCTETS


def rands_in(octets):
    """RANDs that stand one after the other, each by itself."""
    return [octets[at:at + RAND_OCTETS] for at in range(0, len(octets), RAND_OCTETS)]


class Stock:
    """The vectors of all phones, by the lines `vec`. `alarm` is called with a slot once its phone has few left, which are this many
    or fewer."""

    def __init__(self, head, alarm, few=limits.FEW_VECTORS):
        self.alarm, self.is_quiet, self.most_few = alarm, False, few
        # By slot: how many are spent, how many of these have their RANDs here no more, and the RANDs of all others in their order.
        self.spent, self.forgotten, self.rands = [], [], []
        self.phones, self.low = collections.Counter(), set()  # phones by vectors left; the slots that an alarm was for
        self.lines = 0
        self.lengthen(head)

    def lengthen(self, head):
        """The head has further lines."""
        fresh, further = [], {}
        for line in head.lines[self.lines:]:
            if line.startswith("vec "):
                _, imsi, rand, _ = line.split(" ", 3)
                further.setdefault(head.slots[imsi], []).append(rand)
            elif line.startswith("sub "):
                fresh.append(b"")
        self.lines = len(head.lines)
        self.rands += fresh
        self.spent += [0] * len(fresh)
        self.forgotten += [0] * len(fresh)
        self.phones[0] += len(fresh)
        for slot, rands in further.items():
            before = self.left(slot)
            self.rands[slot] += runs.octets_of("".join(rands))
            self.move(slot, before)

    def first_left(self, slot):
        """Which of a phone's RANDs is that of the first vector that it has left."""
        return self.spent[slot] - self.forgotten[slot]

    def left(self, slot):
        """How many vectors a phone has left."""
        return len(self.rands[slot]) // RAND_OCTETS - self.first_left(slot)

    def rands_left(self, slot):
        """The RANDs of the vectors that a phone has left, one after the other."""
        return self.rands[slot][self.first_left(slot) * RAND_OCTETS:]

    def unspent(self, slot):
        """The same, each by itself."""
        return rands_in(self.rands_left(slot))

    def move(self, slot, before):
        """A phone has another number left than before."""
        left = self.left(slot)
        self.phones[before] -= 1
        self.phones[left] += 1
        if left > self.most_few:
            self.low.discard(slot)
        elif left < before and slot not in self.low:
            self.low.add(slot)
            if not self.is_quiet:
                self.alarm(slot, left)

    def note(self, slot, rand):
        """A phone was challenged. A challenge that is sent again is of a vector that is spent already."""
        rands, first = self.rands[slot], self.first_left(slot)
        if first and rands[(first - 1) * RAND_OCTETS:first * RAND_OCTETS] == rand:
            return
        place = self.place_of(slot, rand, first)
        if place is not None:
            before = self.left(slot)
            self.spent[slot] = self.forgotten[slot] + place + 1
            self.move(slot, before)

    def restore(self, spent, rands):
        """Of each phone so many vectors are spent, and those with these RANDs are left."""
        self.spent, self.forgotten, self.rands = list(spent), list(spent), list(rands)
        self.phones = collections.Counter(map(self.left, range(len(self.rands))))
        self.low = {slot for slot, count in enumerate(self.spent) if count and self.left(slot) <= self.most_few}

    def place_of(self, slot, rand, since=0):
        """Which of a phone's RANDs this is, of those from one on; nothing where it is none of them."""
        rands = self.rands[slot]
        at = rands.find(rand, since * RAND_OCTETS)
        while at >= 0 and at % RAND_OCTETS:
            at = rands.find(rand, at + 1)
        return at // RAND_OCTETS if at >= 0 else None

    def most_unspent(self, slot):
        """How many vectors of a phone the MME has at the most: it keeps that of a challenge until the phone has answered it."""
        return self.left(slot) + (self.spent[slot] > 0)

    def few(self):
        """How many phones have few vectors left."""
        return sum(self.phones[left] for left in range(self.most_few + 1))

    def least(self):
        """The fewest that a phone has left; nothing where nobody is provisioned."""
        return min((left for left, count in self.phones.items() if count), default=None)

    def by_left(self):
        """Phones by the vectors that they have left, those with more than few together."""
        found = {str(left): self.phones[left] for left in range(limits.FEW_VECTORS + 1)}
        found["%d+" % (limits.FEW_VECTORS + 1)] = len(self.rands) - sum(found.values())
        return found
