"""What a Diameter answer says of its request: the codes of RFC 6733 clause 7.1, and those of TS 29.272 clause 7.4."""
import enum


class Result(enum.IntEnum):
    """Values of Result-Code."""

    SUCCESS = 2001
    COMMAND_UNSUPPORTED = 3001
    UNABLE_TO_DELIVER = 3002
    REALM_NOT_SERVED = 3003
    TOO_BUSY = 3004
    LOOP_DETECTED = 3005
    REDIRECT_INDICATION = 3006
    APPLICATION_UNSUPPORTED = 3007
    INVALID_HDR_BITS = 3008
    INVALID_AVP_BITS = 3009
    UNKNOWN_PEER = 3010
    AVP_UNSUPPORTED = 5001
    UNKNOWN_SESSION_ID = 5002
    AUTHORIZATION_REJECTED = 5003
    INVALID_AVP_VALUE = 5004
    MISSING_AVP = 5005
    NO_COMMON_APPLICATION = 5010
    UNSUPPORTED_VERSION = 5011
    UNABLE_TO_COMPLY = 5012
    INVALID_AVP_LENGTH = 5014
    INVALID_MESSAGE_LENGTH = 5015


class Experimental(enum.IntEnum):
    """Values of Experimental-Result-Code by 3GPP. Numbers of the other table mean something else here."""

    AUTHENTICATION_DATA_UNAVAILABLE = 4181
    USER_UNKNOWN = 5001
    ROAMING_NOT_ALLOWED = 5004
    UNKNOWN_EPS_SUBSCRIPTION = 5420
    RAT_NOT_ALLOWED = 5421
    EQUIPMENT_UNKNOWN = 5422
    UNKNOWN_SERVING_NODE = 5423


# What says that the HSS has nobody for this network by an IMSI, so that to ask again is of no use.
OF_NOBODY = (Experimental.USER_UNKNOWN, Experimental.UNKNOWN_EPS_SUBSCRIPTION)


def is_success(code):
    return code // 1000 == 2


def is_of_protocol(code):
    """Whether a code goes with the E bit (RFC 6733 clause 7.1.3)."""
    return code // 1000 == 3


def name_of(code, kind):
    """A code as people are told it: its number, and its name in a table."""
    try:
        return "%d %s" % (code, kind(code).name)
    except ValueError:
        return str(code)
