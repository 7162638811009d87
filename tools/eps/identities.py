"""Networks, identities and algorithms as S1AP and NAS write them, and as texts."""
import functools
import ipaddress

from tools import s1ap

FILLER = "f"  # stands in the place of a digit that isn't there


def halves(octets):
    """The half octets, the low one of each octet first."""
    return octets.translate(s1ap.SWAPPED).hex()


def s1ap_plmn(octets):
    """A PLMN in the form of S1AP (TS 36.413 clause 9.2.3.8), as `001 01`: MCC, then MNC of two or three digits."""
    digits = halves(octets)
    return "%s %s" % (digits[:3], digits[4:] if digits[3] == FILLER else digits[3:])


@functools.lru_cache(1 << 8)
def nas_plmn(octets):
    """A PLMN in the form of NAS (TS 24.008 clause 10.5.1.3): the third digit of the MNC stands where S1AP has the first."""
    digits = halves(octets)
    return "%s %s" % (digits[:3], digits[4:] + ("" if digits[3] == FILLER else digits[3]))


def written_s1ap_plmn(mcc, mnc):
    """The three octets of a network in S1AP."""
    digits = mcc + (FILLER if len(mnc) == 2 else "") + mnc
    return bytes(int(digits[at + 1] + digits[at], 16) for at in (0, 2, 4))


def from_s1ap(octets):
    """The form that NAS has of a PLMN in S1AP, whatever its half octets are."""
    digits = halves(octets)
    turned = digits if digits[3] == FILLER else digits[:3] + digits[5] + digits[3:5]
    return bytes(int(turned[at + 1] + turned[at], 16) for at in (0, 2, 4))


def imsi_digits(octets):
    """The digits of an IMSI in a mobile identity (TS 24.301 clause 9.9.3.12)."""
    return halves(octets)[1:].rstrip(FILLER)


def address(bits, octets):
    """A transport layer address of N bits: IPv4, IPv6, or both (TS 36.414 clause 5.3)."""
    if bits == 32:
        return "%d.%d.%d.%d" % tuple(octets)
    if bits == 128:
        return str(ipaddress.IPv6Address(octets))
    if bits == 160:
        return "%s and %s" % (ipaddress.IPv4Address(octets[:4]), ipaddress.IPv6Address(octets[4:]))
    return "%s (%d bits)" % (octets.hex(), bits)


@functools.lru_cache(1 << 8)
def algorithms(names, bits):
    """The names whose bits are set, of as many bits as there are names, the high bit first."""
    return " ".join(name for at, name in enumerate(names) if bits >> len(names) - 1 - at & 1) or "none"


@functools.cache
def numbered(prefix, first=0, count=8):
    return tuple("%s%d" % (prefix, first + at) for at in range(count))


EEA, EIA, UEA, UIA = numbered("EEA"), numbered("EIA"), numbered("UEA"), ("UCS2", *numbered("UIA", 1)[:7])
EIA2_BIT = 0x20  # in the octet of EIA algorithms (TS 24.301 clause 9.9.3.34)
