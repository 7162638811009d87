"""Frames of S1AP messages: what those have in common that are spelled alike, so that of each only what differs is read."""
import functools

from tools.eps import holes, usual
from tools.eps.elements import BOTH_IDS, ELEMENTS, ENB_ID, MME_ID, NAS_PDU, SETUP_LIST, SOURCE_MME_ID
from tools.eps.per import CRITICALITIES
from tools.eps.shapes import of_octets
from tools.s1ap import SHORT

KEPT, LONGEST_KEPT = 1 << 10, 64  # values of an element that are kept, and the octets of the longest one
FEW = 2  # octets of an element that has few values, where it isn't an id


class Frame:
    """Messages with the same octets but for the holes in their elements. `ids` has of which element each id is that is told of such
    a message, and `nas` where its NAS message stands. The value of any other element is the same in all of them, or varies and can
    be read, whatever is in the holes; or the element is doubtful: it is one hole, and is read to see whether it can be."""

    def __init__(self, octets, spans, values):
        self.kind, self.criticality, self.spans = (octets[1], octets[0] >> 5), CRITICALITIES[octets[2] >> 6], spans
        self.criticalities = [CRITICALITIES[octets[start - (2 if end - start < SHORT else 3)] >> 6]
                              for start, end in spans.values()]
        self.ids, self.holes, inside = [], [], holes.nas_span(octets, spans)
        self.nas = slice(*inside) if inside else None
        self.same, self.varying, self.doubtful = dict.fromkeys(number for number in spans if number != NAS_PDU), [], []
        for number in [number for number in holes.IDS if number in spans]:
            self.take_id(octets, number)
        for number in [number for number in self.same if number not in holes.IDS]:
            self.take(octets, number, values[number])
        self.holes += [of_octets(*inside)] if inside else []
        self.has_own_ids = self.ids in ([MME_ID, ENB_ID], [SOURCE_MME_ID, ENB_ID])
        self.reads = {number: (span, read) for number, span, read in self.varying}
        self.has_pair, self.has_bearers = BOTH_IDS in self.ids, SETUP_LIST in [number for number, *_ in self.doubtful]
        self.is_in_order = False

    def take_id(self, octets, number):
        """An element with an id, or with both."""
        found = list(holes.holes_of_id(octets, number, *self.spans[number]))
        self.ids += [number for _ in found]
        self.holes += found
        if not found:
            self.take_doubtful(number)

    def take(self, octets, number, value):
        """Any other element, but that of the NAS message."""
        start, end = self.spans[number]
        found = list(holes.holes_of_element(octets, number, start, end))
        if found:
            has_nas = number == SETUP_LIST and self.nas
            read = usual.bearer if has_nas else usual.READERS.get(number) or reader_of(number, end - start)
            self.varying.append((number, slice(start, end), read))
            self.holes += found
        elif end - start <= FEW:
            self.same[number] = value
        else:
            self.take_doubtful(number)

    def take_doubtful(self, number):
        start, end = self.spans[number]
        self.doubtful.append((number, slice(start, end), reader_of(number, end - start)))
        self.holes.append(of_octets(start, end))

    def read_doubtful(self, octets):
        """The values of the doubtful elements of a message."""
        return [read(octets[span]) for _, span, read in self.doubtful]

    def own_ids(self, ids):
        """Of the ids that are told, the MME UE S1AP ID and the eNB UE S1AP ID in elements of their own; each None where there is
        none."""
        told = dict(zip(self.ids, ids))
        return told.get(MME_ID, told.get(SOURCE_MME_ID)), told.get(ENB_ID)

    def get(self, message, number):
        """The value of an element of a message, or None."""
        value = self.same.get(number)
        if value is None and number in self.reads and number != SETUP_LIST:
            span, read = self.reads[number]
            return read(message.octets[span])
        return message.values.get(number) if value is None else value

    def written(self):
        """The elements as they are written, as pairs of id and criticality."""
        return list(zip(self.spans, self.criticalities))

    def own_values(self, message):
        """The value of each element of a message by its id, but for a NAS message that stands where it usually does."""
        values, octets, ids = self.same.copy(), message.octets, message.ids
        if self.has_pair:
            values[BOTH_IDS] = {"pair": {"MME UE S1AP ID": ids[0], "eNB UE S1AP ID": ids[1]}}
        else:
            values.update(zip(self.ids, ids))
        for number, span, read in self.varying:
            values[number] = read(octets[span])
        for (number, _, _), value in zip(self.doubtful, message.given):
            values[number] = value
        return values

    def values_without_nas(self, message):
        """The same, without any NAS message."""
        values = self.own_values(message)
        return without_nas(values) if self.has_bearers else values

    def values(self, message):
        """The value of each element of a message by its id."""
        values = self.own_values(message)
        if NAS_PDU in self.spans:
            values[NAS_PDU] = message.octets[self.nas]
        elif self.nas:
            values[SETUP_LIST] = usual.with_more(values[SETUP_LIST], **{usual.INSIDE: message.octets[self.nas]})
        return values


def without_nas(values):
    """The values of elements, but for the NAS messages in them."""
    found = {number: value for number, value in values.items() if number != NAS_PDU}
    if found.get(SETUP_LIST):
        found[SETUP_LIST] = [{name: value for name, value in item.items() if name != usual.INSIDE} for item in found[SETUP_LIST]]
    return found


def reader_of(number, length):
    """What reads the value of an element of the profile with so many octets."""
    return kept_reader(number) if length <= LONGEST_KEPT else ELEMENTS[number][1].whole


@functools.cache
def kept_reader(number):
    """What reads an element's value, and keeps values, which are met again and again."""
    return functools.lru_cache(KEPT)(ELEMENTS[number][1].whole)
