"""Which vector of a phone is used: its challenge has the vector's RAND."""
from tools import s1ap

AUTHENTICATION_REQUEST = bytes([s1ap.EMM, 0x52])  # as it begins, sent plain (TS 24.301 clause 8.2.7)
AUTHENTICATION_REQUEST_DIGITS = AUTHENTICATION_REQUEST.hex().encode()
DOWNLINK = bytes([s1ap.INITIATING << 5, s1ap.DOWNLINK_NAS])  # how a DOWNLINK NAS TRANSPORT begins
RAND_AT, RAND_OCTETS = 3, 16  # after the type and the key set identifier


def challenged(octets):
    """The RAND of the AUTHENTICATION REQUEST in a message; None where there is none."""
    if octets[:2] != DOWNLINK or AUTHENTICATION_REQUEST not in octets:
        return None
    nas = s1ap.nas_in(octets)
    if nas is None or nas[:2] != AUTHENTICATION_REQUEST or len(nas) < RAND_AT + RAND_OCTETS:
        return None
    return nas[RAND_AT:RAND_AT + RAND_OCTETS]
