"""The values of elements that are spelled as usual and differ in each message, read without a reader.

Each of `READERS`, and `bearer`, answers what the element's type reads of octets that have the element's holes (holes.py).
tests/tools compares them.
"""
from tools import s1ap
from tools.eps import identities
from tools.eps.elements import DONE_LIST, ELEMENTS, SECURITY_KEY, SETUP_LIST, SWITCHED_LIST
from tools.eps.per import Items

ADDRESS, TUNNEL, INSIDE = "transport layer address", "GTP-TEID", "NAS-PDU"
ADDRESS_AT = 7  # where the address stands in a list of one bearer
OF_SETUP = 6  # octets of a bearer to set up before its address (TS 36.413 clause 9.1.4.1)


def with_more(kept, **more):
    """A list of one bearer like one that is kept, with other values of these names, or with further ones."""
    made = Items([{**kept[0], **more}])
    made.as_written = kept.as_written
    return made


def with_tunnel(kept, octets):
    """The same, with the address and the end of the tunnel that these octets begin with."""
    return with_more(kept, **{ADDRESS: identities.address(32, octets[:4]), TUNNEL: int.from_bytes(octets[4:8], "big")})


def list_of_one(number):
    """Reads a list of one bearer with an IPv4 address."""
    kept = {}

    def read(octets):
        first = octets[:ADDRESS_AT]
        if first not in kept:
            kept[first] = ELEMENTS[number][1].whole(octets)
        return with_tunnel(kept[first], octets[ADDRESS_AT:])
    return read


BEARERS = {}


def bearer(octets):
    """The list of one bearer to set up with a NAS message, but for that."""
    item, _ = s1ap.sized(octets, 4)
    first = item[:OF_SETUP]
    if first not in BEARERS:
        kept = ELEMENTS[SETUP_LIST][1].whole(octets)
        del kept[0][INSIDE]
        BEARERS[first] = kept
    return with_tunnel(BEARERS[first], item[OF_SETUP:])


READERS = {SECURITY_KEY: bytes, DONE_LIST: list_of_one(DONE_LIST), SWITCHED_LIST: list_of_one(SWITCHED_LIST)}
