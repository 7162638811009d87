"""Aligned packed encoding (X.691), in the part that the S1AP profile uses: types, each of which reads one value from the left.

A value is a number, a text, octets, a list, or a dictionary of names and values; an enumerator is a text with its number.
"""
import dataclasses

from tools import s1ap
from tools.s1ap import Unreadable


class Reader(s1ap.Reader):
    """Reads what is written as the standard has it: padding is zero, and each length takes the fewest octets."""

    def align(self):
        if self.at % 8 and self.bits(-self.at % 8):
            raise Unreadable("padding that isn't zero")

    def length(self):
        """A length without bound (X.691 clause 11.9.3)."""
        start = self.at
        length = super().length()
        if length < 0x80 and self.at - start > 15:
            raise Unreadable("a length in more octets than it needs")
        return length

    def small(self):
        """A normally small number (X.691 clause 11.6)."""
        if self.bits(1):
            raise Unreadable("a number beyond 63")
        return self.bits(6)

    def finish(self):
        """What was read fills the octets: a last octet's other bits are zero (X.691 clause 11.1)."""
        if self.bits(-self.at % 8):
            raise Unreadable("padding that isn't zero")
        if self.at < 8 * len(self.octets):
            raise Unreadable("octets after the end")


class Enumerator(str):
    """An enumerator's name, with its number in the root, or None where it is of a later release."""
    number: int | None

    def __new__(cls, name, number):
        made = super().__new__(cls, name)
        made.number = number
        return made


class Type:
    """A type: `read` takes a value of it from a reader, or raises Unreadable."""

    def read(self, reader):
        raise NotImplementedError

    def whole(self, octets):
        """The value that these octets encode completely."""
        reader = Reader(octets)
        value = self.read(reader)
        reader.finish()
        return value


@dataclasses.dataclass
class Number(Type):
    """A whole number of a range (X.691 clause 11.5.7), perhaps with an extension that the profile doesn't read."""
    low: int
    high: int
    extensible: bool = False

    def read(self, reader):
        if self.extensible and reader.bits(1):
            raise Unreadable("a number beyond its range")
        span = self.high - self.low + 1
        if span <= 255:
            offset = reader.bits((span - 1).bit_length()) if span > 1 else 0
        elif span <= 65536:
            offset = int.from_bytes(reader.whole(1 if span == 256 else 2), "big")
        else:
            offset = self.sized(reader)
        if offset > self.high - self.low:
            raise Unreadable("a number beyond its range")
        return self.low + offset

    def sized(self, reader):
        """An offset in the fewest octets, with their number before it."""
        most = ((self.high - self.low).bit_length() + 7) // 8
        count = Number(1, most).read(reader)
        offset = int.from_bytes(reader.whole(count), "big")
        if count > max(1, (offset.bit_length() + 7) // 8):
            raise Unreadable("a number in more octets than it needs")
        return offset


@dataclasses.dataclass
class Octets(Type):
    """Octets of a fixed size; up to two aren't aligned (X.691 clause 17). `form` makes the value of them."""
    size: int
    form: object = bytes

    def read(self, reader):
        if self.size <= 2:
            return self.form(reader.bits(8 * self.size).to_bytes(self.size, "big"))
        return self.form(reader.whole(self.size))


@dataclasses.dataclass
class OctetString(Type):
    """Octets after their length; `least` and `most` bound the length where the type does."""
    form: object = bytes
    least: int = 0
    most: int | None = None
    extensible: bool = False

    def read(self, reader):
        if self.extensible and reader.bits(1):
            raise Unreadable("a size beyond its range")
        length = reader.length() if self.most is None else Number(self.least, self.most).read(reader)
        return self.form(reader.whole(length))


@dataclasses.dataclass
class Bits(Type):
    """A bit string of fixed size as a number; `form` makes the value of the number."""
    size: int
    form: object = int
    extensible: bool = False

    def read(self, reader):
        if self.extensible and reader.bits(1):
            raise Unreadable("a size beyond its range")
        if self.size > 16:
            reader.align()
        return self.form(reader.bits(self.size))


@dataclasses.dataclass
class BitString(Type):
    """A bit string of an extensible range of sizes; `form` makes the value of the number of bits and the octets with them."""
    least: int
    most: int
    form: object

    def read(self, reader):
        if reader.bits(1):
            raise Unreadable("a size beyond its range")
        size = Number(self.least, self.most).read(reader)
        reader.align()
        number = reader.bits(size) << -size % 8
        return self.form(size, number.to_bytes((size + 7) // 8, "big"))


@dataclasses.dataclass
class Enumerated(Type):
    """An ENUMERATED by the names of its root (X.691 clause 14)."""
    names: tuple
    extensible: bool = True

    def read(self, reader):
        if self.extensible and reader.bits(1):
            return Enumerator("of a later release, %d" % reader.small(), None)
        number = Number(0, len(self.names) - 1).read(reader)
        return Enumerator(self.names[number], number)


@dataclasses.dataclass
class ListOf(Type):
    """A SEQUENCE OF with at least `least` items, and at most `most`."""
    least: int
    most: int
    item: Type

    def read(self, reader):
        return [self.item.read(reader) for _ in range(Number(self.least, self.most).read(reader))]


class Items(list):
    """The items of a list of elements; `as_written` says that each has the criticality that a sender gives it."""
    as_written = True


@dataclasses.dataclass
class ElementsOf(ListOf):
    """A SEQUENCE OF elements with one id (TS 36.413 clause 9.3.6), and the criticality that a sender gives them."""
    element: int
    criticality: str

    def read(self, reader):
        items = Items()
        for _ in range(Number(self.least, self.most).read(reader)):
            number = Number(0, 65535).read(reader)
            if number != self.element:
                raise Unreadable("element %d in a list of %d" % (number, self.element))
            items.as_written &= read_criticality(reader) == self.criticality
            items.append(self.item.whole(reader.open()))
        return items


@dataclasses.dataclass
class Optional:
    """An optional component of a SEQUENCE."""
    type: Type

    def read(self, reader):
        """Its value, where it is there."""
        return self.type.read(reader)


class Sequence(Type):
    """An extensible SEQUENCE of named components, with an optional iE-Extensions as the last (X.691 clause 19)."""

    def __init__(self, *components):
        self.components = components

    def read(self, reader):
        extended = reader.bits(1)
        there = [not isinstance(kind, Optional) or reader.bits(1) for _, kind in self.components]
        has_extensions = reader.bits(1)
        values = {}
        for (name, kind), present in zip(self.components, there):
            if present:
                values[name] = kind.read(reader)
        if has_extensions:
            skip_elements(reader)
        if extended:
            skip_additions(reader)
        return values


class Fields(Type):
    """A SEQUENCE of named components that isn't extensible; None stands for one that is absent."""

    def __init__(self, **components):
        self.components = components

    def read(self, reader):
        absent = {name for name, kind in self.components.items() if isinstance(kind, Optional) and not reader.bits(1)}
        return {name: None if name in absent else kind.read(reader) for name, kind in self.components.items()}


class Choice(Type):
    """An extensible CHOICE of named alternatives (X.691 clause 23): the name and the value of the one."""

    def __init__(self, **alternatives):
        self.alternatives = tuple(alternatives.items())

    def read(self, reader):
        if reader.bits(1):
            raise Unreadable("an alternative of a later release")
        name, kind = self.alternatives[Number(0, len(self.alternatives) - 1).read(reader)]
        return {name: kind.read(reader)}


CRITICALITIES = ("reject", "ignore", "notify")


def read_criticality(reader):
    return Enumerated(CRITICALITIES, extensible=False).read(reader)


def skip_elements(reader):
    """iE-Extensions: elements, whatever they are."""
    for _ in range(int.from_bytes(reader.whole(2), "big") + 1):
        reader.whole(2)
        read_criticality(reader)
        reader.open()


def skip_additions(reader):
    """Extension additions (X.691 clause 19.7): which are there, and each of them."""
    there = [reader.bits(1) for _ in range(reader.small() + 1)]
    for present in there:
        if present:
            reader.open()
