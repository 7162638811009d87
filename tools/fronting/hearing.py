"""What a phone with a stored security context sends before the MME has that context.

Such a phone protects AUTHENTICATION RESPONSE, AUTHENTICATION FAILURE and IDENTITY RESPONSE (header 1 or 2) with keys that the
network may have lost. TS 24.301 clause 4.4.4.3 has these messages processed whatever their MAC, so here they become the plain
messages that stand in them. The machines take them plain alone.
"""
import re

from tools import s1ap

UPLINK = bytes([s1ap.INITIATING << 5, s1ap.UPLINK_NAS])  # how an UPLINK NAS TRANSPORT begins
TYPES = bytes([s1ap.AUTHENTICATION_RESPONSE, s1ap.AUTHENTICATION_FAILURE, s1ap.IDENTITY_RESPONSE])
# A header of 1 or 2 with the discriminator, MAC and sequence number, then a plain message of one of the types (clause 9.1).
PROTECTED = re.compile(b"[\x17\x27].{5}\x07[" + re.escape(TYPES) + b"]", re.DOTALL)


def sized(octets):
    """Octets after their length (X.691 clause 11.9.3)."""
    if len(octets) < s1ap.SHORT:
        return bytes([len(octets)]) + octets
    return (len(octets) | 0x8000).to_bytes(2, "big") + octets


def parts(value):
    """Where each element of a message's value stands: its id and criticality as they are, and the octets in it."""
    at = 3
    while at < len(value):
        content, end = s1ap.sized(value, at + 3)
        yield value[at:at + 3], content
        at = end


def plain(octets):
    """The message with the plain NAS message in place of the protected one; None where it isn't of that kind."""
    if octets[:2] != UPLINK or not PROTECTED.search(octets):
        return None
    elements = s1ap.usual(octets)
    nas = s1ap.usual_nas(elements) if elements else None
    if nas is None or not PROTECTED.match(nas):
        return None
    value, _ = s1ap.sized(octets, 3)
    shorter = b""
    for head, content in parts(value):
        if int.from_bytes(head[:2], "big") == s1ap.NAS_PDU:
            content = sized(nas[s1ap.PROTECTED:])
        shorter += head + sized(content)
    return octets[:3] + sized(value[:3] + shorter)
