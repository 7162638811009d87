"""The causes of EMM and ESM in words (TS 24.301 clauses 9.9.3.9 and 9.9.4.4); those of S1AP are in s1ap.py."""
from tools import s1ap

# The causes of protocol errors, which EMM and ESM share (TS 24.301 annexes A and B).
PROTOCOL_ERRORS = {
    95: "Semantically incorrect message",
    96: "Invalid mandatory information",
    97: "Message type non-existent or not implemented",
    98: "Message type not compatible with the protocol state",
    99: "Information element non-existent or not implemented",
    100: "Conditional IE error",
    101: "Message not compatible with the protocol state",
    111: "Protocol error, unspecified",
}

EMM_CAUSES = {
    2: "IMSI unknown in HSS",
    3: "Illegal UE",
    5: "IMEI not accepted",
    6: "Illegal ME",
    7: "EPS services not allowed",
    8: "EPS services and non-EPS services not allowed",
    9: "UE identity cannot be derived by the network",
    10: "Implicitly detached",
    11: "PLMN not allowed",
    12: "Tracking area not allowed",
    13: "Roaming not allowed in this tracking area",
    14: "EPS services not allowed in this PLMN",
    15: "No suitable cells in tracking area",
    16: "MSC temporarily not reachable",
    17: "Network failure",
    18: "CS domain not available",
    19: "ESM failure",
    20: "MAC failure",
    21: "Synch failure",
    22: "Congestion",
    23: "UE security capabilities mismatch",
    24: "Security mode rejected, unspecified",
    25: "Not authorized for this CSG",
    26: "Non-EPS authentication unacceptable",
    39: "CS service temporarily not available",
    40: "No EPS bearer context activated",
    **PROTOCOL_ERRORS,
}

ESM_CAUSES = {
    8: "Operator Determined Barring",
    26: "Insufficient resources",
    27: "Missing or unknown APN",
    28: "Unknown PDN type",
    29: "User authentication failed",
    30: "Request rejected by Serving GW or PDN GW",
    31: "Request rejected, unspecified",
    32: "Service option not supported",
    33: "Requested service option not subscribed",
    34: "Service option temporarily out of order",
    35: "PTI already in use",
    36: "Regular deactivation",
    37: "EPS QoS not accepted",
    38: "Network failure",
    41: "Semantic error in the TFT operation",
    42: "Syntactical error in the TFT operation",
    43: "Invalid EPS bearer identity",
    44: "Semantic errors in packet filter(s)",
    45: "Syntactical errors in packet filter(s)",
    47: "PTI mismatch",
    49: "Last PDN disconnection not allowed",
    50: "PDN type IPv4 only allowed",
    51: "PDN type IPv6 only allowed",
    52: "Single address bearers only allowed",
    53: "ESM information not received",
    54: "PDN connection does not exist",
    55: "Multiple PDN connections for a given APN not allowed",
    56: "Collision with network initiated request",
    59: "Unsupported QCI value",
    81: "Invalid PTI value",
    **PROTOCOL_ERRORS,
    112: "APN restriction value incompatible with active EPS bearer context",
}


def emm_cause(number):
    """An EMM cause by its number and in words, as `#20 MAC failure`."""
    return words_of(EMM_CAUSES, number)


def esm_cause(number):
    """An ESM cause by its number and in words."""
    return words_of(ESM_CAUSES, number)


def words_of(names, number):
    return "#%d %s" % (number, names.get(number, "unspecified"))


def nas_cause(message):
    """The cause of a NAS message in words, as `#20 MAC failure`, or nothing."""
    octets = message.octets
    if octets and octets[0] & 0xF == s1ap.ESM and message.type in s1ap.ESM_WITH_CAUSE and len(octets) > 3:
        return esm_cause(octets[3])
    if octets and octets[0] & 0xF == s1ap.EMM and message.type in s1ap.EMM_WITH_CAUSE and len(octets) > 2:
        return emm_cause(octets[2])
    return None
