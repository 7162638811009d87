"""What the tools of this folder read of an S1AP message: its name, its elements, the ids, the cause and the NAS message in it.

It reads as much as a picture needs, from octets of any origin, and checks little. Nothing here is part of a proof.
"""
import collections
import functools

# --- S1AP: procedures and elements (TS 36.413 clauses 9.1, 9.3.2 and 9.3.6; aligned packed encoding, X.691) ---

INITIATING, SUCCESSFUL, UNSUCCESSFUL = range(3)

PATH_SWITCH, CONTEXT_SETUP, PAGING, DOWNLINK_NAS, INITIAL_UE, UPLINK_NAS = 3, 9, 10, 11, 12, 13
RESET, ERROR, NON_DELIVERY, SETUP, RELEASE_REQUEST, CAPABILITY, RELEASE = 14, 15, 16, 17, 18, 22, 23

# The message of each outcome, by the procedure's code.
NAMES = {
    0: ("HANDOVER REQUIRED", "HANDOVER COMMAND", "HANDOVER PREPARATION FAILURE"),
    1: ("HANDOVER REQUEST", "HANDOVER REQUEST ACKNOWLEDGE", "HANDOVER FAILURE"),
    2: ("HANDOVER NOTIFY",),
    PATH_SWITCH: ("PATH SWITCH REQUEST", "PATH SWITCH REQUEST ACKNOWLEDGE", "PATH SWITCH REQUEST FAILURE"),
    4: ("HANDOVER CANCEL", "HANDOVER CANCEL ACKNOWLEDGE"),
    5: ("E-RAB SETUP REQUEST", "E-RAB SETUP RESPONSE"),
    6: ("E-RAB MODIFY REQUEST", "E-RAB MODIFY RESPONSE"),
    7: ("E-RAB RELEASE COMMAND", "E-RAB RELEASE RESPONSE"),
    8: ("E-RAB RELEASE INDICATION",),
    CONTEXT_SETUP: ("INITIAL CONTEXT SETUP REQUEST", "INITIAL CONTEXT SETUP RESPONSE", "INITIAL CONTEXT SETUP FAILURE"),
    PAGING: ("PAGING",),
    DOWNLINK_NAS: ("DOWNLINK NAS TRANSPORT",),
    INITIAL_UE: ("INITIAL UE MESSAGE",),
    UPLINK_NAS: ("UPLINK NAS TRANSPORT",),
    RESET: ("RESET", "RESET ACKNOWLEDGE"),
    ERROR: ("ERROR INDICATION",),
    NON_DELIVERY: ("NAS NON DELIVERY INDICATION",),
    SETUP: ("S1 SETUP REQUEST", "S1 SETUP RESPONSE", "S1 SETUP FAILURE"),
    RELEASE_REQUEST: ("UE CONTEXT RELEASE REQUEST",),
    19: ("DOWNLINK S1 CDMA2000 TUNNELING",),
    20: ("UPLINK S1 CDMA2000 TUNNELING",),
    21: ("UE CONTEXT MODIFICATION REQUEST", "UE CONTEXT MODIFICATION RESPONSE", "UE CONTEXT MODIFICATION FAILURE"),
    CAPABILITY: ("UE CAPABILITY INFO INDICATION",),
    RELEASE: ("UE CONTEXT RELEASE COMMAND", "UE CONTEXT RELEASE COMPLETE"),
    24: ("ENB STATUS TRANSFER",),
    25: ("MME STATUS TRANSFER",),
    26: ("DEACTIVATE TRACE",),
    27: ("TRACE START",),
    28: ("TRACE FAILURE INDICATION",),
    29: ("ENB CONFIGURATION UPDATE", "ENB CONFIGURATION UPDATE ACKNOWLEDGE", "ENB CONFIGURATION UPDATE FAILURE"),
    30: ("MME CONFIGURATION UPDATE", "MME CONFIGURATION UPDATE ACKNOWLEDGE", "MME CONFIGURATION UPDATE FAILURE"),
    31: ("LOCATION REPORTING CONTROL",),
    32: ("LOCATION REPORTING FAILURE INDICATION",),
    33: ("LOCATION REPORT",),
    34: ("OVERLOAD START",),
    35: ("OVERLOAD STOP",),
    36: ("WRITE-REPLACE WARNING REQUEST", "WRITE-REPLACE WARNING RESPONSE"),
}

# The messages that only a station sends, and those that only an MME sends, by code and outcome.
OF_STATION = {(code, INITIATING) for code in (PATH_SWITCH, INITIAL_UE, UPLINK_NAS, NON_DELIVERY, SETUP)}
OF_STATION |= {(code, INITIATING) for code in (RELEASE_REQUEST, CAPABILITY)}
OF_STATION |= {(CONTEXT_SETUP, SUCCESSFUL), (CONTEXT_SETUP, UNSUCCESSFUL), (RELEASE, SUCCESSFUL)}
OF_MME = {(code, INITIATING) for code in (CONTEXT_SETUP, PAGING, DOWNLINK_NAS, RELEASE)}
OF_MME |= {(code, outcome) for code in (SETUP, PATH_SWITCH) for outcome in (SUCCESSFUL, UNSUCCESSFUL)}

# Protocol IEs (clause 9.3.6).
MME_ID, CAUSE, ENB_ID, SETUP_LIST, NAS_PDU, SOURCE_MME_ID, S_TMSI, BOTH_IDS = 0, 2, 8, 24, 26, 88, 96, 99
RESET_TYPE, RESET_LIST = 92, 93

# The groups of causes with the bits of their root, and the names in it (clause 9.2.1.3, Release 8).
RADIO_CAUSES = """unspecified tx2relocoverall-expiry successful-handover release-due-to-eutran-generated-reason
    handover-cancelled partial-handover ho-failure-in-target-EPC-eNB-or-target-system ho-target-not-allowed
    tS1relocoverall-expiry tS1relocprep-expiry cell-not-available unknown-targetID
    no-radio-resources-available-in-target-cell unknown-mme-ue-s1ap-id unknown-enb-ue-s1ap-id unknown-pair-ue-s1ap-id
    handover-desirable-for-radio-reason time-critical-handover resource-optimisation-handover
    reduce-load-in-serving-cell user-inactivity radio-connection-with-ue-lost load-balancing-tau-required
    cs-fallback-triggered ue-not-available-for-ps-service radio-resources-not-available
    failure-in-radio-interface-procedure invalid-qos-combination interrat-redirection interaction-with-other-procedure
    unknown-E-RAB-ID multiple-E-RAB-ID-instances encryption-and-or-integrity-protection-algorithms-not-supported
    s1-intra-system-handover-triggered s1-inter-system-handover-triggered x2-handover-triggered"""
CAUSES = (
    ("radioNetwork", 6, RADIO_CAUSES.split()),
    ("transport", 1, "transport-resource-unavailable unspecified".split()),
    ("nas", 2, "normal-release authentication-failure detach unspecified".split()),
    ("protocol", 3, """transfer-syntax-error abstract-syntax-error-reject abstract-syntax-error-ignore-and-notify
        message-not-compatible-with-receiver-state semantic-error abstract-syntax-error-falsely-constructed-message
        unspecified""".split()),
    ("misc", 3, """control-processing-overload not-enough-user-plane-processing-resources hardware-failure om-intervention
        unspecified unknown-PLMN""".split()),
)

# --- EPS NAS: message types (TS 24.301 clause 9.8) ---

ATTACH_REQUEST, ATTACH_COMPLETE, DETACH_REQUEST, DETACH_ACCEPT = 0x41, 0x43, 0x45, 0x46
TAU_REQUEST, TAU_COMPLETE, SERVICE_REQUEST = 0x48, 0x4A, 0xC7
AUTHENTICATION_RESPONSE, AUTHENTICATION_FAILURE, IDENTITY_RESPONSE = 0x53, 0x5C, 0x56
SECURITY_MODE_COMPLETE, SECURITY_MODE_REJECT, EMM_STATUS = 0x5E, 0x5F, 0x60
INFORMATION_RESPONSE, ESM_STATUS = 0xDA, 0xE8

EMM_NAMES = {
    0x41: "ATTACH REQUEST", 0x42: "ATTACH ACCEPT", 0x43: "ATTACH COMPLETE", 0x44: "ATTACH REJECT",
    0x45: "DETACH REQUEST", 0x46: "DETACH ACCEPT",
    0x48: "TRACKING AREA UPDATE REQUEST", 0x49: "TRACKING AREA UPDATE ACCEPT", 0x4A: "TRACKING AREA UPDATE COMPLETE",
    0x4B: "TRACKING AREA UPDATE REJECT", 0x4C: "EXTENDED SERVICE REQUEST", 0x4E: "SERVICE REJECT",
    0x50: "GUTI REALLOCATION COMMAND", 0x51: "GUTI REALLOCATION COMPLETE", 0x52: "AUTHENTICATION REQUEST",
    0x53: "AUTHENTICATION RESPONSE", 0x54: "AUTHENTICATION REJECT", 0x55: "IDENTITY REQUEST", 0x56: "IDENTITY RESPONSE",
    0x5C: "AUTHENTICATION FAILURE", 0x5D: "SECURITY MODE COMMAND", 0x5E: "SECURITY MODE COMPLETE",
    0x5F: "SECURITY MODE REJECT", 0x60: "EMM STATUS", 0x61: "EMM INFORMATION", 0x62: "DOWNLINK NAS TRANSPORT",
    0x63: "UPLINK NAS TRANSPORT", 0x64: "CS SERVICE NOTIFICATION", SERVICE_REQUEST: "SERVICE REQUEST",
}
EMM_TYPES = {kind: name for kind, name in EMM_NAMES.items() if kind != SERVICE_REQUEST}  # those that have a message type
ESM_NAMES = {
    0xC1: "ACTIVATE DEFAULT EPS BEARER CONTEXT REQUEST", 0xC2: "ACTIVATE DEFAULT EPS BEARER CONTEXT ACCEPT",
    0xC3: "ACTIVATE DEFAULT EPS BEARER CONTEXT REJECT", 0xC5: "ACTIVATE DEDICATED EPS BEARER CONTEXT REQUEST",
    0xC6: "ACTIVATE DEDICATED EPS BEARER CONTEXT ACCEPT", 0xC7: "ACTIVATE DEDICATED EPS BEARER CONTEXT REJECT",
    0xC9: "MODIFY EPS BEARER CONTEXT REQUEST", 0xCA: "MODIFY EPS BEARER CONTEXT ACCEPT",
    0xCB: "MODIFY EPS BEARER CONTEXT REJECT", 0xCD: "DEACTIVATE EPS BEARER CONTEXT REQUEST",
    0xCE: "DEACTIVATE EPS BEARER CONTEXT ACCEPT", 0xD0: "PDN CONNECTIVITY REQUEST", 0xD1: "PDN CONNECTIVITY REJECT",
    0xD2: "PDN DISCONNECT REQUEST", 0xD3: "PDN DISCONNECT REJECT", 0xD4: "BEARER RESOURCE ALLOCATION REQUEST",
    0xD5: "BEARER RESOURCE ALLOCATION REJECT", 0xD6: "BEARER RESOURCE MODIFICATION REQUEST",
    0xD7: "BEARER RESOURCE MODIFICATION REJECT", 0xD9: "ESM INFORMATION REQUEST", 0xDA: "ESM INFORMATION RESPONSE",
    0xE8: "ESM STATUS",
}
# The messages whose type is followed by a cause (clause 8.2, 8.3).
EMM_WITH_CAUSE = {0x44, 0x4B, 0x4E, 0x5C, 0x5F, 0x60}
ESM_WITH_CAUSE = {0xC3, 0xD1, 0xD3, 0xE8}

EMM, ESM = 7, 2  # protocol discriminators (TS 24.007 clause 11.2.3.1.1)
TYPE_PLACES = {EMM: 1, ESM: 2}  # where a plain message has its type, by its discriminator (TS 24.301 clause 9.1)
PLAIN_HEADER, SERVICE_HEADER = 0, 12  # security header types (TS 24.301 clause 9.3.1)
PROTECTED = 6  # octets before the message in a protected one (clause 9.1)
IMSI_TYPE, GUTI_TYPE = 1, 6  # types of identity (clause 9.9.3.12)

Message = collections.namedtuple("Message", "code outcome elements fault")
Nas = collections.namedtuple("Nas", "header type octets name")


class Unreadable(Exception):
    """Octets that aren't what they are read as."""


class Reader:
    """Reads aligned packed encoding from the left."""

    def __init__(self, octets):
        self.octets, self.at = octets, 0

    def bits(self, count):
        end = self.at + count
        if end > 8 * len(self.octets):
            raise Unreadable("cut short")
        number = int.from_bytes(self.octets[self.at // 8:(end + 7) // 8], "big")
        self.at, first = end, self.at % 8
        spare = -(first + count) % 8
        return number >> spare & (1 << count) - 1

    def align(self):
        self.at += -self.at % 8

    def whole(self, count):
        """`count` octets, from the next whole octet on."""
        self.align()
        start, end = self.at // 8, self.at // 8 + count
        if end > len(self.octets):
            raise Unreadable("cut short")
        self.at = 8 * end
        return self.octets[start:end]

    def length(self):
        """A length without bound (X.691 clause 11.9.3)."""
        first = self.whole(1)[0]
        if first < 0x80:
            return first
        if first >= 0xC0:
            raise Unreadable("a length in fragments")
        return (first & 0x3F) << 8 | self.whole(1)[0]

    def open(self):
        return self.whole(self.length())

    def sized_number(self, width):
        """A number with the octets it takes before it (X.691 clause 11.5.7.4)."""
        return int.from_bytes(self.whole(self.bits(width) + 1), "big")


SHORT, FRAGMENTED = 0x80, 0xC0  # lengths below the first stand in one octet, from the second on in fragments (X.691 clause 11.9.3)
ODD_BITS, NO_CRITICALITY = 0x3F, 0xC0  # of an octet with a criticality: the bits after it, and a value that there isn't


def sized_span(octets, at):
    """Where the octets after a length in the fewest octets begin and end; None where it isn't so written."""
    length = octets[at]
    at += 1
    if length >= SHORT:
        first, length = length, (length & 0x3F) << 8 | octets[at]
        at += 1
        if length < SHORT or first >= FRAGMENTED:
            return None, at
    return at, at + length


def sized(octets, at):
    """The octets after a length in the fewest octets, and where they end; None where it isn't so written."""
    start, end = sized_span(octets, at)
    return None if start is None else octets[start:end], end


def spans(octets):
    """Where each element of a message that is spelled as usual begins and ends: nothing extended, each element once; else None."""
    try:
        start, end = sized_span(octets, 3)
        if start is None or end != len(octets) or octets[0] & 0x9F or octets[0] >> 5 > UNSUCCESSFUL or octets[start]:
            return None
        if octets[2] & ODD_BITS or octets[2] == NO_CRITICALITY:
            return None
        found, at = {}, start + 3
        for _ in range(octets[start + 1] << 8 | octets[start + 2]):
            number, criticality = octets[at] << 8 | octets[at + 1], octets[at + 2]
            first, at = sized_span(octets, at + 3)
            if first is None or number in found or criticality & ODD_BITS or criticality == NO_CRITICALITY:
                return None
            found[number] = first, at
        return found if at == end else None
    except IndexError:
        return None


def usual(octets):
    """The elements of a message that is spelled as usual; else None."""
    found = spans(octets)
    return None if found is None else {number: octets[start:end] for number, (start, end) in found.items()}


def usual_number(octets):
    """An id in an element of its own that is spelled in the fewest octets; else None."""
    size = len(octets) - 1
    number = int.from_bytes(octets[1:], "big")
    return number if size > 0 and octets[0] == size - 1 << 6 and (size == 1 or number >> 8 * (size - 1)) else None


def usual_pair(octets):
    """Both ids in one element, spelled as usual (TS 36.413 clause 9.2.3.18); else None."""
    size = (octets[0] >> 2) + 1  # the alternative of the pair, which isn't extended
    number, enb_id = int.from_bytes(octets[1:size + 1], "big"), usual_number(octets[size + 1:])
    if octets[0] & 0xF3 or enb_id is None or size > 1 and not number >> 8 * (size - 1):
        return None
    return number, enb_id


ONE_BEARER, WITH_NAS, BITS_32 = b"\0\0\x34\0", 4, b"\x0f\x80"  # a list of one item; its optional parts; an address's size


def usual_bearer(octets):
    """The NAS message of the one bearer to set up and where it ends; None for other items than that of a default bearer with an
    IPv4 address (TS 36.413 clause 9.1.4.1)."""
    item, end = sized(octets, 4)
    if octets[:4] != ONE_BEARER or item[0] >> 4 != WITH_NAS or item[1] or item[3] >> 6 or item[4:6] != BITS_32:
        return None, None
    inner, inner_end = sized(item, 14)
    return inner, end if inner_end == len(item) else None


def usual_pdu(octets):
    """The NAS message in an element of its own and where it ends."""
    return sized(octets, 0)


WITH_A_NAS = {NAS_PDU: usual_pdu, SETUP_LIST: usual_bearer}  # the elements that one stands in


def usual_nas(elements):
    """The NAS message in the elements of a message that is spelled as usual; None where there is none, or it isn't."""
    for number in WITH_A_NAS:
        if number in elements:
            return usual_nas_of(number, elements[number])
    return None


def usual_nas_of(number, content):
    """The same of the element that it stands in."""
    try:
        nas_octets, end = WITH_A_NAS[number](content)
        return nas_octets if end == len(content) else None
    except (IndexError, TypeError):
        return None


def read(octets):
    """A message; what can't be read of it is told by its fault."""
    elements = usual(octets)
    if elements is not None:
        return Message(octets[1], octets[0] >> 5, elements, None)
    return read_from_left(octets)


def read_from_left(octets):
    """A message that isn't spelled as usual."""
    reader, code, outcome, elements = Reader(octets), None, None, {}
    try:
        outcome = reader.bits(3)
        code = reader.whole(1)[0]
        if outcome > UNSUCCESSFUL:
            raise Unreadable("no message of S1AP")
        reader.bits(2)
        value = Reader(reader.open())
        value.bits(1)
        for _ in range(int.from_bytes(value.whole(2), "big")):
            named = int.from_bytes(value.whole(2), "big")
            value.bits(2)
            elements.setdefault(named, value.open())
        if value.at < 8 * len(value.octets) or reader.at < 8 * len(octets):
            raise Unreadable("octets after its end")
    except Unreadable as fault:
        return Message(code, outcome, elements, str(fault))
    return Message(code, outcome, elements, None)


def element(octets, wanted):
    """The element with this id that `read` finds in a message, or nothing, without what comes after it."""
    try:
        at, end = sized_span(octets, 3)
        if at is None or end > len(octets) or octets[0] >> 5 > UNSUCCESSFUL:
            return read(octets).elements.get(wanted)
        count, at = octets[at + 1] << 8 | octets[at + 2], at + 3
        while count and at < end:
            number, length, start = octets[at] << 8 | octets[at + 1], octets[at + 3], at + 4
            if length >= SHORT:
                return read(octets).elements.get(wanted)
            count, at = count - 1, start + length
            if number == wanted:
                return octets[start:at] if at <= end else None
    except IndexError:
        pass
    return None


def name(message):
    """A message's name in the standard."""
    names = NAMES.get(message.code, ())
    if message.code is None or message.outcome > UNSUCCESSFUL:
        return "no S1AP"
    if message.outcome < len(names):
        return names[message.outcome]
    return "S1AP procedure %d, outcome %d" % (message.code, message.outcome)


def number_in(content):
    """An id in its element of its own, or nothing."""
    if content is None:
        return None
    number = usual_number(content)
    if number is not None:
        return number
    try:
        return Reader(content).sized_number(2)
    except Unreadable:
        return None


def ids(message):
    """The MME UE S1AP ID and the eNB UE S1AP ID, each nothing where it isn't there."""
    if BOTH_IDS not in message.elements:
        named = SOURCE_MME_ID if message.code == PATH_SWITCH and message.outcome == INITIATING else MME_ID
        return number_in(message.elements.get(named)), number_in(message.elements.get(ENB_ID))
    pair = usual_pair(message.elements[BOTH_IDS]) if message.elements[BOTH_IDS] else None
    return pair or unusual_pair(message.elements[BOTH_IDS])


def unusual_pair(element):
    """The ids of an element that isn't spelled as usual, or has one id alone."""
    try:
        reader = Reader(element)
        extended, single = reader.bits(1), reader.bits(1)
        if extended or single:
            return (None if extended else reader.sized_number(2)), None
        reader.bits(2)
        return reader.sized_number(2), reader.sized_number(2)
    except Unreadable:
        return None, None


def listed(message):
    """The associations of a RESET of a part, or of its acknowledgement (clause 9.1.8), or nothing where there is no list: of each
    its MME UE S1AP ID and its eNB UE S1AP ID, nothing for one that isn't given."""
    try:
        if message.code == RESET and RESET_TYPE in message.elements:
            reader = Reader(message.elements[RESET_TYPE])
            extended, part = reader.bits(1), reader.bits(1)
            return associations(reader) if part and not extended else None
        if message.code == RESET and RESET_LIST in message.elements:
            return associations(Reader(message.elements[RESET_LIST]))
    except Unreadable:
        pass
    return None


def associations(reader):
    """A list of associations, each in an element of its own."""
    found = []
    for _ in range(reader.whole(1)[0] + 1):
        reader.whole(2)
        reader.bits(2)
        item = Reader(reader.open())
        item.bits(1)
        has_mme_id, has_enb_id, _ = item.bits(1), item.bits(1), item.bits(1)
        mme_id = item.sized_number(2) if has_mme_id else None
        found.append((mme_id, item.sized_number(2) if has_enb_id else None))
    return found


def tmsi(message):
    """The M-TMSI in the element S-TMSI (clause 9.2.3.6), or nothing."""
    try:
        reader = Reader(message.elements[S_TMSI])
        reader.bits(2 + 8)
        return int.from_bytes(reader.whole(4), "big")
    except (KeyError, Unreadable):
        return None


def cause(message):
    """The cause in words, or nothing."""
    element = message.elements.get(CAUSE)
    return None if element is None else cause_text(element)


@functools.lru_cache(1 << 10)
def cause_text(element):
    """The cause in its element, in words, or nothing."""
    try:
        reader = Reader(element)
        extended, group = reader.bits(1), reader.bits(3)
        if extended or group >= len(CAUSES):
            return None
        word, width, names = CAUSES[group]
        if reader.bits(1):
            return word + " of a later release"
        number = reader.bits(width)
    except Unreadable:
        return None
    return "%s %s" % (word, names[number] if number < len(names) else number)


def carried(message):
    """The octets of the NAS message in a message, or nothing."""
    found = usual_nas(message.elements)
    if found is not None:
        return found
    try:
        if NAS_PDU in message.elements:
            return Reader(message.elements[NAS_PDU]).open()
        if SETUP_LIST in message.elements and message.code == CONTEXT_SETUP:
            return carried_by_bearer(Reader(message.elements[SETUP_LIST]))
    except Unreadable:
        pass
    return None


@functools.lru_cache(1 << 7)  # several look into the same message within moments
def nas_in(octets):
    """The same of a message that isn't read otherwise."""
    for number in WITH_A_NAS:
        content = element(octets, number)
        if content is not None:
            found = usual_nas_of(number, content)
            return carried(Message(octets[1], octets[0] >> 5, {number: content}, None)) if found is None else found
    return None


def carries(octets, beginning):
    """Whether a message carries a NAS message that begins so, plain or inside of its protection."""
    if beginning not in octets:
        return False
    found = nas_in(octets)
    return bool(found) and inside(found)[:len(beginning)] == beginning


def carried_by_bearer(reader):
    """The NAS message of the first bearer to set up (TS 36.413 clause 9.1.4.1), where that one has no guaranteed rate."""
    reader.whole(1)
    reader.whole(2)
    reader.bits(2)
    item = Reader(reader.open())
    item.bits(1)
    has_nas = item.bits(1)
    item.bits(1 + 5)
    item.bits(1)
    guaranteed = item.bits(1)
    if not has_nas or guaranteed:
        return None
    item.bits(1)
    item.whole(1)
    item.bits(2 + 4 + 2)
    item.bits(1)
    address_bits = item.bits(8) + 1
    item.whole((address_bits + 7) // 8)
    item.whole(4)
    return item.open()


def nas(octets):
    """A NAS message: its security header, its type and its name; nothing where there is none."""
    if not octets:
        return None
    header = header_of(octets)
    if header >= SERVICE_HEADER:
        return Nas(header, SERVICE_REQUEST, octets, EMM_NAMES[SERVICE_REQUEST])
    plain = inside(octets)
    kind = type_of(plain)
    return Nas(header, kind, plain, nas_name(plain, kind))


def header_of(octets):
    """The security header type of a NAS message."""
    return octets[0] >> 4 if octets[0] & 0xF == EMM else PLAIN_HEADER


def inside(octets):
    """The message in a protected one; another one as it is."""
    return octets[PROTECTED:] if PLAIN_HEADER < header_of(octets) < SERVICE_HEADER else octets


def type_of(octets):
    """The type of a plain NAS message."""
    place = TYPE_PLACES.get(octets[0] & 0xF) if octets else None
    return octets[place] if place is not None and len(octets) > place else None


def nas_name(octets, kind):
    """The name of a plain NAS message, with its cause."""
    if kind is None:
        return "unreadable NAS"
    of_session = octets[0] & 0xF == ESM
    names, with_cause = (ESM_NAMES, ESM_WITH_CAUSE) if of_session else (EMM_TYPES, EMM_WITH_CAUSE)
    place = 3 if of_session else 2
    text = names.get(kind) or "%s type %02x" % ("ESM" if of_session else "EMM", kind)
    return text + " cause %d" % octets[place] if kind in with_cause and len(octets) > place else text


# Where the identity stands, by the type: as length and value (TS 24.301 clause 8.2).
IDENTITY_PLACES = {ATTACH_REQUEST: 3, DETACH_REQUEST: 3, TAU_REQUEST: 3, IDENTITY_RESPONSE: 2}
SWAPPED = bytes(low << 4 | high for high in range(16) for low in range(16))  # each octet with its halves the other way round


def identity(kind, octets):
    """Who a plain NAS message of a phone, of a type, says it is: its IMSI and its M-TMSI, each nothing where it isn't there."""
    place = IDENTITY_PLACES.get(kind)
    if place is None or len(octets) <= place:
        return None, None
    value = octets[place + 1:place + 1 + octets[place]]
    if len(value) == 11 and value[0] & 7 == GUTI_TYPE:
        return None, int.from_bytes(value[7:], "big")
    if value and value[0] & 7 == IMSI_TYPE:
        return value.translate(SWAPPED).hex()[1:].rstrip("f"), None
    return None, None
