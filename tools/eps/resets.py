"""RESET as a station sends it (TS 36.413 clauses 8.7.1 and 9.1.8), written from the ids of associations; its cause is `misc
om-intervention`."""
import re

from tools import runs, s1ap
from tools.eps.writing import fewest, sized

MOST_ITEMS = 256  # of a list (TS 36.413 clause 9.1.8.1)
ITEM = re.compile("mme=([0-9]{1,10})(?:,enb=([0-9]{1,8}))?|enb=([0-9]{1,8})")
MOST_MME_ID, MOST_ENB_ID = (1 << 32) - 1, (1 << 24) - 1
CAUSE = bytes.fromhex("0002400143")  # element 2, ignore: of group misc (4) the cause 3
WHOLE = b"\0"  # Reset Type: its first alternative, reset all
PART = b"\x40"  # its second one, before the list
HAS_MME_ID, HAS_ENB_ID = 0x40, 0x20  # of an item's first octet; the sizes of ids stand in two bits, with 0 for one octet
SIZE_OF_MME_ID, SIZE_OF_ENB_ID = 2, 6  # where those bits begin: after an item's first four, and in an octet of their own


def item_of(text):
    """The ids of an item, as `mme=1`, `enb=2` or `mme=1,enb=2`, each None where it isn't there."""
    found = ITEM.fullmatch(text)
    if not found:
        raise runs.Fault("%r isn't mme=ID, enb=ID or mme=ID,enb=ID" % text[:40])
    mme_id, enb_id = (None if digits is None else int(digits) for digits in (found[1], found[2] or found[3]))
    if (mme_id or 0) > MOST_MME_ID or (enb_id or 0) > MOST_ENB_ID:
        raise runs.Fault("%r: an MME UE S1AP ID is %d at the most, an eNB UE S1AP ID %d" % (text, MOST_MME_ID, MOST_ENB_ID))
    return mme_id, enb_id


def item_octets(mme_id, enb_id):
    """An item of the list: which ids it has, and each after its size."""
    first = HAS_MME_ID * (mme_id is not None) | HAS_ENB_ID * (enb_id is not None)
    if mme_id is None:
        octets = fewest(enb_id)
        return bytes([first | len(octets) - 1 << SIZE_OF_MME_ID]) + octets
    octets = fewest(mme_id)
    made = bytes([first | len(octets) - 1 << SIZE_OF_MME_ID]) + octets
    if enb_id is not None:
        octets = fewest(enb_id)
        made += bytes([len(octets) - 1 << SIZE_OF_ENB_ID]) + octets
    return made


def element(number, octets):
    """An element that is marked reject."""
    return number.to_bytes(2, "big") + b"\0" + sized(octets)


ITEM_ID = 91


def reset_octets(items):
    """RESET of these associations, each by its ids; of the whole interface where there is none."""
    kind = WHOLE
    if items:
        kind = PART + bytes([len(items) - 1]) + b"".join(element(ITEM_ID, item_octets(*ids)) for ids in items)
    value = b"\0\0\x02" + CAUSE + element(s1ap.RESET_TYPE, kind)
    return bytes([s1ap.INITIATING << 5, s1ap.RESET, 0]) + sized(value)


def script_line(station, *items):
    """The line of a script by which a station sends RESET of these items in text, of the whole interface where there is none."""
    if len(items) > MOST_ITEMS:
        raise runs.Fault("a RESET lists %d associations at the most" % MOST_ITEMS)
    return "raw %d %s" % (runs.number(station, 0, runs.STATIONS - 1), reset_octets([item_of(text) for text in items]).hex())
