"""Where the octets of an S1AP message may be any others and leave it as it is spelled: the holes of its shape (shapes.py)."""
from tools import s1ap
from tools.eps import elements
from tools.eps.shapes import Hole, of_octets

# Bits of elements with a number of octets: the first one and how many. They are of areas, cells, identities and keys (TS 36.413
# clauses 9.2.1 and 9.2.3).
BITS = {
    (elements.TAI, 6): [(8, 40)], (elements.TAI_LIST, 11): [(48, 40)], (elements.CELL, 8): [(8, 24), (32, 28)],
    (elements.S_TMSI, 6): [(16, 32)], (elements.PAGING_ID, 6): [(16, 32)], (elements.PAGING_INDEX, 2): [(0, 10)],
    (elements.SECURITY_KEY, 32): [(0, 256)], (elements.SECURITY_CONTEXT, 33): [(2, 3), (8, 256)],
}
OF_ONE_BEARER = {(elements.DONE_LIST, 15), (elements.SWITCHED_LIST, 15)}
IPV4_BITS = 31  # of an address, less one
PAIR_BITS = 0xF0  # of both ids in one element: those before the size of the first
IDS = (elements.MME_ID, elements.SOURCE_MME_ID, elements.ENB_ID, elements.BOTH_IDS)


def id_holes(octets, found):
    """The ids that a message names an association by: the MME's, then the station's."""
    for number in IDS:
        if number in found:
            yield from holes_of_id(octets, number, *found[number])


def holes_of_id(octets, number, start, end):
    """The id in an element of its own, or both in one."""
    if number != elements.BOTH_IDS:
        yield id_hole(start + 1, end)
    elif not octets[start] & PAIR_BITS:
        middle = start + (octets[start] >> 2) + 2
        yield id_hole(start + 1, middle)
        yield id_hole(middle + 1, end)


def id_hole(start, end):
    """An id in the fewest octets (X.691 clause 11.5.7.4)."""
    return of_octets(start, end, least=1 << 8 * (end - start - 1) if end - start > 1 else 0)


def element_holes(octets, found):
    """The holes in elements that are neither ids nor NAS messages."""
    for number, (start, end) in found.items():
        yield from holes_of_element(octets, number, start, end)


def holes_of_element(octets, number, start, end):
    """Those of one such element."""
    for first, width in BITS.get((number, end - start), ()):
        yield Hole(8 * start + first, width)
    if (number, end - start) in OF_ONE_BEARER and octets[start + 6] == IPV4_BITS:
        yield of_octets(start + 7, end)
    elif number == elements.RADIO_CAPABILITY:
        yield of_octets(*s1ap.sized_span(octets, start))
    elif number == elements.SETUP_LIST:
        item = bearer_place(octets, start)
        if item is not None:
            yield of_octets(item + 6, item + 14)


def bearer_place(octets, start):
    """Where the item of the one bearer to set up begins in its list, which has an IPv4 address (TS 36.413 clause 9.1.4.1); or
    None."""
    at = s1ap.sized_span(octets, start + 4)[0]
    is_usual = octets[start:start + 4] == s1ap.ONE_BEARER and octets[at + 4:at + 6] == s1ap.BITS_32
    return at if is_usual and octets[at] >> 4 in (0, s1ap.WITH_NAS) and not octets[at + 1] and not octets[at + 3] >> 6 else None


def nas_span(octets, found):
    """Where the NAS message in a message begins and ends, or None."""
    if elements.NAS_PDU in found:
        return s1ap.sized_span(octets, found[elements.NAS_PDU][0])
    item = bearer_place(octets, found[elements.SETUP_LIST][0]) if elements.SETUP_LIST in found else None
    return s1ap.sized_span(octets, item + 14) if item is not None and octets[item] >> 4 == s1ap.WITH_NAS else None
