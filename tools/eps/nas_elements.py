"""Elements of EPS NAS (TS 24.301 clause 9.9): each reads a value from the octets of its element, or refuses them."""
import functools

from tools.causes import emm_cause, esm_cause
from tools.eps import identities
from tools.eps.per import Enumerator

KEPT = 1 << 8  # values of an element that are kept, where phones mostly have the same
IMSI_OCTETS, GUTI_OCTETS = 8, 11  # with the first one (clause 9.9.3.12)
IMSI_TYPE, GUTI_FIRST, ODD = 1, 0xF6, 8
IDENTITY_TYPES = {1: "IMSI", 2: "IMEI", 3: "IMEISV", 6: "GUTI"}


class Refused(Exception):
    """Octets of an element that the profile doesn't have; its text says why."""


class Beyond(Refused):
    """A value that the standard has and the profile hasn't; `value` is it."""

    def __init__(self, value, why):
        super().__init__(why)
        self.value = value


def named(names, number, spare="reserved"):
    return Enumerator(names.get(number, spare), number)


ATTACH_TYPES = {1: "EPS attach", 2: "combined EPS/IMSI attach", 6: "EPS emergency attach"}
ATTACH_RESULTS = {1: "EPS only", 2: "combined EPS/IMSI attach"}
DETACH_TYPES = {1: "EPS detach", 2: "IMSI detach", 3: "combined EPS/IMSI detach"}
NETWORK_DETACH_TYPES = {1: "re-attach required", 2: "re-attach not required", 3: "IMSI detach"}
UPDATE_TYPES = {0: "TA updating", 1: "combined TA/LA updating", 2: "combined TA/LA updating with IMSI attach",
                3: "periodic updating"}
UPDATE_RESULTS = {0: "TA updated", 1: "combined TA/LA updated", 4: "TA updated and ISR activated",
                  5: "combined TA/LA updated and ISR activated"}
ASKED_IDENTITIES = {1: "IMSI", 2: "IMEI", 3: "IMEISV", 4: "TMSI"}
PDN_TYPES = {1: "IPv4", 2: "IPv6", 3: "IPv4v6", 4: "unused"}
IPV4 = named(PDN_TYPES, 1)
REQUEST_TYPES = {1: "initial request", 2: "handover", 4: "emergency"}
CIPHERINGS = dict(enumerate(identities.EEA))
INTEGRITIES = dict(enumerate(identities.EIA))


def key_set(number):
    """A key set identifier, without its type bit (clause 9.9.3.21)."""
    return number & 7


def hexed(octets):
    return octets.hex()


def mobile_identity(octets):
    """An IMSI or a GUTI (clause 9.9.3.12)."""
    if len(octets) == GUTI_OCTETS and octets[0] == GUTI_FIRST:
        return {"GUTI": {"PLMN": identities.nas_plmn(octets[1:4]), "MME group": octets[4:6].hex(), "MME code": octets[6:7].hex(),
                         "M-TMSI": int.from_bytes(octets[7:], "big")}}
    if octets and octets[0] & 7 == IMSI_TYPE:
        return imsi(octets)
    kind = IDENTITY_TYPES.get(octets[0] & 7, "type %d" % (octets[0] & 7)) if octets else "nothing"
    raise Beyond({kind: octets.hex()}, "an identity that is neither IMSI nor GUTI")


def imsi(octets):
    digits = identities.imsi_digits(octets)
    odd = bool(octets[0] & ODD)
    whole = len(octets) == IMSI_OCTETS and len(digits) == (15 if odd else 14) and digits.isdigit()
    if not whole:
        raise Beyond({"IMSI": digits}, "an IMSI that hasn't 14 or 15 digits")
    return {"IMSI": digits}


def guti(octets):
    value = mobile_identity(octets)
    if "GUTI" not in value:
        raise Beyond(value, "an identity that is no GUTI")
    return value


@functools.lru_cache(KEPT)
def capability(octets):
    """UE network capability (clause 9.9.3.34): the algorithms; octets beyond them by name alone."""
    if not 2 <= len(octets) <= 13:
        raise Refused("a capability of %d octets" % len(octets))
    value = {"EEA": identities.algorithms(identities.EEA, octets[0]), "EIA": identities.algorithms(identities.EIA, octets[1])}
    for name, names, at in (("UEA", identities.UEA, 2), ("UIA", identities.UIA, 3)):
        if len(octets) > at:
            value[name] = identities.algorithms(names, octets[at])
    if len(octets) > 4:
        value["more"] = octets[4:].hex()
    return value


@functools.lru_cache(KEPT)
def tai_list(octets):
    """A tracking area identity list of one area (clause 9.9.3.33)."""
    if len(octets) != 6 or octets[0]:
        raise Beyond(octets.hex(), "a list that hasn't one tracking area")
    return {"PLMN": identities.nas_plmn(octets[1:4]), "TAC": octets[4:].hex()}


def tai(octets):
    return {"PLMN": identities.nas_plmn(octets[:3]), "TAC": octets[3:].hex()} if len(octets) == 5 else octets.hex()


@functools.lru_cache(KEPT)
def apn(octets):
    """An access point name of one label (TS 23.003 clause 9.1, in the profile)."""
    labels, at = [], 0
    while at < len(octets):
        labels.append(octets[at + 1:at + 1 + octets[at]].decode("latin-1"))
        at += 1 + octets[at]
    text = ".".join(labels)
    if at != len(octets) or len(labels) != 1:
        raise Beyond(text, "an access point name that hasn't one label")
    return text


def pdn_address(octets):
    """An IPv4 address (clause 9.9.4.9)."""
    if len(octets) != 5 or octets[0] != 1:
        raise Beyond(octets.hex(), "an address that isn't IPv4")
    return {"PDN type": IPV4, "address": identities.address(32, octets[1:])}


def qos(octets):
    """EPS quality of service (clause 9.9.4.3)."""
    if len(octets) != 1:
        raise Beyond(octets.hex(), "a quality of service with bit rates")
    return {"QCI": octets[0]}


def res(octets):
    if not 4 <= len(octets) <= 16:
        raise Refused("a RES of %d octets" % len(octets))
    return octets.hex()


def autn(octets):
    if len(octets) != 16:
        raise Refused("an AUTN of %d octets" % len(octets))
    return octets.hex()




@functools.cache
def timer(octet):
    """A GPRS timer (TS 24.008 clause 10.5.7.3)."""
    unit = {0: 2, 2: 360}.get(octet >> 5, 60)
    return Enumerator("deactivated" if octet >> 5 == 7 else "%d s" % ((octet & 31) * unit), octet)


def of_octet(form):
    """The value that one octet of an optional element is."""
    return lambda octets: form(octets[0]) if len(octets) == 1 else octets.hex()


def emm(number):
    return Enumerator(emm_cause(number), number)


def esm(number):
    return Enumerator(esm_cause(number), number)
