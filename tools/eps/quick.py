"""The line of a message, for traces of millions of lines: one that is spelled as one before it isn't decoded again.

`Lines.of` answers what render.brief does. Of a message that was decoded a shape is kept: the octets that such messages share, and
holes where the line is the same whatever stands there, or tells it as a number. tests/tools fills the holes at random, and
compares each line with that of the whole decoder.
"""
import re

from tools import s1ap
from tools.eps import holes, messages, nas, render
from tools.eps.nas_elements import IMSI_OCTETS
from tools.eps.shapes import Hole, Shape, Shapes, of_octets

KNOWN = {kind: frozenset(form.ids()) for kind, form in messages.FORMS.items()}


class Lines:
    """Lines of messages."""

    def __init__(self):
        self.shapes = {from_mme: Shapes() for from_mme in (True, False, None)}

    def of(self, octets, from_mme):
        """The line of a message; `from_mme` is None where it isn't known who sent it."""
        found = self.shapes[from_mme].find(octets)
        return found[0] % tuple(found[1]) if found else self.met(octets, from_mme)

    def met(self, octets, from_mme):
        """The line of a message by the whole decoder; its shape is kept, where it has one."""
        message = messages.decode(octets)
        line, found = render.brief(message, from_mme), holes_of(message, from_mme)
        if found is not None:
            shape = Shape(octets, found, template(message, line))
            told = shape.told(int.from_bytes(octets, "big"))
            if told is not None and shape.kept % tuple(told) == line:
                self.shapes[from_mme].keep(octets, shape)
        return line


def template(message, line):
    """The line of a message with `%d` for its ids."""
    before = " ".join(filter(None, (message.name, render.ids_text(*render.message_ids(message)))))
    return re.sub(r" id \d+", " id %d", before) + line[len(before):].replace("%", "%%")


# --- What a line doesn't depend on ---

# NAS elements whose value may be any octets, and identities (TS 24.301 clause 9.9).
ANY_OCTETS = {"RAND", "AUTN", "RES", "authentication failure parameter", "protocol configuration options"}
IDENTITIES = {"EPS mobile identity", "mobile identity", "old GUTI", "GUTI"}


def holes_of(message, from_mme):
    """The holes of a message that is spelled as usual and has no fault, those of its ids first; else None."""
    found = s1ap.spans(message.octets)
    if message.fault or found is None or not found.keys() <= KNOWN[message.kind]:
        return None
    numbers = list(holes.id_holes(message.octets, found))
    if len(numbers) != 2 - render.message_ids(message).count(None):
        return None
    inside = holes.nas_span(message.octets, found)
    of_nas = nas_holes(message.octets, *inside, from_mme) if inside else ()
    return [*numbers, *holes.element_holes(message.octets, found), *of_nas]


def nas_holes(octets, start, end, from_mme):
    """Those of a NAS message: MAC and sequence number, and what is in the message."""
    message = render.Nas(octets[start:end], from_mme)
    if message.protected:
        yield of_octets(start + 1, start + s1ap.PROTECTED)
        start += s1ap.PROTECTED
    yield from plain_holes(message.plain, start)


def plain_holes(message, at):
    """Those of a plain NAS message that begins at an octet: the values of elements, and a transaction."""
    if message.fault:
        return
    if message.is_esm:
        yield of_octets(at + 1, at + 2)
    elif message.is_service_request():
        yield of_octets(at + 1, at + nas.SERVICE_OCTETS)
    for name, place in message.places.items():
        start, value = at + place, message.fields[name]
        size = message.lengths.get(name, 0)
        if name in ANY_OCTETS:
            yield of_octets(start, start + (size or len(value) // 2))
        elif name in IDENTITIES:
            yield from identity_holes(start, size, value)
        elif name == "PDN address":
            yield of_octets(start + 1, start + size)
        elif isinstance(value, nas.Plain):
            yield from plain_holes(value, start)


def identity_holes(start, size, value):
    """Those of a GUTI, and the digits of an IMSI of 14 or 15 (TS 24.301 clause 9.9.3.12)."""
    if "GUTI" in value:
        yield of_octets(start + 1, start + size)
    elif "IMSI" in value and size == IMSI_OCTETS:
        filler = 4 if len(value["IMSI"]) == 14 else 0
        yield Hole(8 * start, 4, is_decimal=True)
        yield of_octets(start + 1, start + size - 1, is_decimal=True)
        yield Hole(8 * (start + size - 1) + filler, 8 - filler, is_decimal=True)
