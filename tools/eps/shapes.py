"""Shapes of messages: octets that many messages share, with holes where they don't. A message of a known shape is found by one
comparison of numbers, and what is known of its shape needn't be worked out again.
"""
import dataclasses

# Octets by which shapes are looked up: of S1AP kind, procedure, criticality, and what begins the length and the value; of NAS those
# up to the type, and one after it.
HEAD, NAS_HEAD = 5, 3
MOST_HEADS, MOST_OF_A_HEAD = 1 << 12, 32  # that are kept


@dataclasses.dataclass(frozen=True)
class Hole:
    """Bits of a message: the first one, and how many. `least` is the least number there, where the line tells it; `is_decimal`
    says that each half octet is a digit."""
    first: int
    width: int
    least: int | None = None
    is_decimal: bool = False


def of_octets(start, end, **more):
    """A hole of whole octets."""
    return Hole(8 * start, 8 * (end - start), **more)


class Shape:
    """Messages with the same octets but for holes; `kept` is what is known of them beside the numbers."""

    def __init__(self, octets, holes, kept):
        size, free, self.holes, self.digits, self.numbers, self.kept = 8 * len(octets), 0, holes, 0, [], kept
        for hole in holes:
            shift, mask = size - hole.first - hole.width, (1 << hole.width) - 1
            free |= mask << shift
            if hole.is_decimal:
                self.digits |= mask // 15 << shift  # the low bit of each half octet
            if hole.least is not None:
                self.numbers.append((shift, mask, hole.least))
        self.same = ~free
        self.value = int.from_bytes(octets, "big") & self.same

    def told(self, number):
        """The numbers in a message, itself a number, that are told of it; None where it isn't of this shape."""
        return self.told_within(number) if number & self.same == self.value else None

    def told_within(self, number):
        """The same of a number that has the octets that are the same in all."""
        if self.digits and number >> 3 & (number >> 2 | number >> 1) & self.digits:
            return None
        told = []
        for shift, mask, least in self.numbers:
            value = number >> shift & mask
            if value < least:
                return None
            told.append(value)
        return told


class Shapes:
    """The shapes that were met, by so many octets of their heads."""

    def __init__(self, head=HEAD):
        self.head, self.heads = head, {}

    def find(self, octets):
        """What is kept of a message's shape, and the numbers in it; or None."""
        known = self.heads.get(octets[:self.head])
        if known:
            number = int.from_bytes(octets, "big")
            for shape in known:
                if number & shape.same == shape.value:
                    told = shape.told_within(number)
                    if told is not None:
                        return shape.kept, told
        return None

    def kept_of(self, octets):
        """What is kept of a message's shape, or None; of shapes whose holes may have any bits, and tell no numbers."""
        known = self.heads.get(octets[:self.head])
        if known:
            number = int.from_bytes(octets, "big")
            for shape in known:
                if number & shape.same == shape.value:
                    return shape.kept
        return None

    def keep(self, octets, shape):
        """Keeps the shape of a message as the first to be looked at."""
        head = octets[:self.head]
        if head not in self.heads and len(self.heads) >= MOST_HEADS:
            self.heads.clear()
        known = self.heads.setdefault(head, [])
        del known[MOST_OF_A_HEAD - 1:]
        known.insert(0, shape)
