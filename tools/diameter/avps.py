"""AVPs: their octets (RFC 6733 clause 4), and those that are known by name (RFC 6733 clause 4.5, TS 29.272 clause 7.3)."""
import collections
import enum
import ipaddress
import struct

from tools.diameter.results import Result

IETF, VENDOR_3GPP = 0, 10415
HAS_VENDOR, IS_MANDATORY = 0x80, 0x40  # the bits V and M
SHORT_HEADER, LONG_HEADER = 8, 12  # octets, without and with the vendor
DEEPEST = 8  # groups within one another
IPV4, IPV6 = 1, 2  # the families of an address (RFC 6733 clause 4.3.1)

Kind = enum.Enum("Kind", "OCTETS TEXT NUMBER ADDRESS GROUP")
Definition = collections.namedtuple("Definition", "name code vendor is_mandatory kind")
Avp = collections.namedtuple("Avp", "definition code vendor is_mandatory value")  # no definition where it isn't known


class Malformed(Exception):
    """Octets that are no AVPs: what a request with them is answered, and the octets of the AVP at fault (RFC 6733 clause 7.5)."""

    def __init__(self, text, result, failed=b""):
        super().__init__(text)
        self.result, self.failed = result, failed


def ietf(name, code, kind, is_mandatory=True):
    return Definition(name, code, IETF, is_mandatory, kind)


def of_3gpp(name, code, kind, is_mandatory=True):
    return Definition(name, code, VENDOR_3GPP, is_mandatory, kind)


USER_NAME = ietf("User-Name", 1, Kind.TEXT)
HOST_IP_ADDRESS = ietf("Host-IP-Address", 257, Kind.ADDRESS)
AUTH_APPLICATION_ID = ietf("Auth-Application-Id", 258, Kind.NUMBER)
ACCT_APPLICATION_ID = ietf("Acct-Application-Id", 259, Kind.NUMBER)
VENDOR_SPECIFIC_APPLICATION_ID = ietf("Vendor-Specific-Application-Id", 260, Kind.GROUP)
SESSION_ID = ietf("Session-Id", 263, Kind.TEXT)
ORIGIN_HOST = ietf("Origin-Host", 264, Kind.TEXT)
SUPPORTED_VENDOR_ID = ietf("Supported-Vendor-Id", 265, Kind.NUMBER)
VENDOR_ID = ietf("Vendor-Id", 266, Kind.NUMBER)
FIRMWARE_REVISION = ietf("Firmware-Revision", 267, Kind.NUMBER, is_mandatory=False)
RESULT_CODE = ietf("Result-Code", 268, Kind.NUMBER)
PRODUCT_NAME = ietf("Product-Name", 269, Kind.TEXT, is_mandatory=False)
DISCONNECT_CAUSE = ietf("Disconnect-Cause", 273, Kind.NUMBER)
AUTH_SESSION_STATE = ietf("Auth-Session-State", 277, Kind.NUMBER)
ORIGIN_STATE_ID = ietf("Origin-State-Id", 278, Kind.NUMBER)
FAILED_AVP = ietf("Failed-AVP", 279, Kind.OCTETS)  # (of octets as they came, so that what can't be read can be sent back)
PROXY_HOST = ietf("Proxy-Host", 280, Kind.TEXT)
ERROR_MESSAGE = ietf("Error-Message", 281, Kind.TEXT, is_mandatory=False)
ROUTE_RECORD = ietf("Route-Record", 282, Kind.TEXT)
DESTINATION_REALM = ietf("Destination-Realm", 283, Kind.TEXT)
PROXY_INFO = ietf("Proxy-Info", 284, Kind.OCTETS)  # (sent back as it came)
DESTINATION_HOST = ietf("Destination-Host", 293, Kind.TEXT)
ERROR_REPORTING_HOST = ietf("Error-Reporting-Host", 294, Kind.TEXT, is_mandatory=False)
ORIGIN_REALM = ietf("Origin-Realm", 296, Kind.TEXT)
EXPERIMENTAL_RESULT = ietf("Experimental-Result", 297, Kind.GROUP)
EXPERIMENTAL_RESULT_CODE = ietf("Experimental-Result-Code", 298, Kind.NUMBER)
INBAND_SECURITY_ID = ietf("Inband-Security-Id", 299, Kind.NUMBER)
DRMP = ietf("DRMP", 301, Kind.NUMBER, is_mandatory=False)

SUPPORTED_FEATURES = of_3gpp("Supported-Features", 628, Kind.OCTETS, is_mandatory=False)
RAT_TYPE = of_3gpp("RAT-Type", 1032, Kind.NUMBER)
SUBSCRIPTION_DATA = of_3gpp("Subscription-Data", 1400, Kind.OCTETS)  # (of which nothing is used)
ULR_FLAGS = of_3gpp("ULR-Flags", 1405, Kind.NUMBER)
ULA_FLAGS = of_3gpp("ULA-Flags", 1406, Kind.NUMBER)
VISITED_PLMN_ID = of_3gpp("Visited-PLMN-Id", 1407, Kind.OCTETS)
REQUESTED_EUTRAN_AUTHENTICATION_INFO = of_3gpp("Requested-EUTRAN-Authentication-Info", 1408, Kind.GROUP)
NUMBER_OF_REQUESTED_VECTORS = of_3gpp("Number-Of-Requested-Vectors", 1410, Kind.NUMBER)
RE_SYNCHRONIZATION_INFO = of_3gpp("Re-Synchronization-Info", 1411, Kind.OCTETS)
IMMEDIATE_RESPONSE_PREFERRED = of_3gpp("Immediate-Response-Preferred", 1412, Kind.NUMBER)
AUTHENTICATION_INFO = of_3gpp("Authentication-Info", 1413, Kind.GROUP)
E_UTRAN_VECTOR = of_3gpp("E-UTRAN-Vector", 1414, Kind.GROUP)
ITEM_NUMBER = of_3gpp("Item-Number", 1419, Kind.NUMBER)
CANCELLATION_TYPE = of_3gpp("Cancellation-Type", 1420, Kind.NUMBER)
DSR_FLAGS = of_3gpp("DSR-Flags", 1421, Kind.NUMBER)
CONTEXT_IDENTIFIER = of_3gpp("Context-Identifier", 1423, Kind.NUMBER)
PUA_FLAGS = of_3gpp("PUA-Flags", 1442, Kind.NUMBER)
USER_ID = of_3gpp("User-Id", 1444, Kind.TEXT, is_mandatory=False)
RAND = of_3gpp("RAND", 1447, Kind.OCTETS)
XRES = of_3gpp("XRES", 1448, Kind.OCTETS)
AUTN = of_3gpp("AUTN", 1449, Kind.OCTETS)
KASME = of_3gpp("KASME", 1450, Kind.OCTETS)
TRACE_REFERENCE = of_3gpp("Trace-Reference", 1459, Kind.OCTETS)
IDR_FLAGS = of_3gpp("IDR-Flags", 1490, Kind.NUMBER)
TS_CODE = of_3gpp("TS-Code", 1487, Kind.OCTETS)
SS_CODE = of_3gpp("SS-Code", 1476, Kind.OCTETS)
REGIONAL_SUBSCRIPTION_ZONE_CODE = of_3gpp("Regional-Subscription-Zone-Code", 1446, Kind.OCTETS)
ERROR_DIAGNOSTIC = of_3gpp("Error-Diagnostic", 1614, Kind.NUMBER, is_mandatory=False)
CLR_FLAGS = of_3gpp("CLR-Flags", 1638, Kind.NUMBER, is_mandatory=False)
RESET_ID = of_3gpp("Reset-ID", 1670, Kind.OCTETS, is_mandatory=False)
SUBSCRIPTION_DATA_DELETION = of_3gpp("Subscription-Data-Deletion", 1685, Kind.OCTETS, is_mandatory=False)

KNOWN = {(one.code, one.vendor): one for one in list(vars().values()) if isinstance(one, Definition)}


class Group(list):
    """AVPs in their order, as they were read."""

    def every(self, definition):
        """The values of those that are this one."""
        return [avp.value for avp in self if avp.definition is definition]

    def first(self, definition, default=None):
        """The value of the first one that is this one."""
        return next((avp.value for avp in self if avp.definition is definition), default)


# --- Written ---


def header(definition, size):
    """The header of an AVP with so many octets of data."""
    flags = (HAS_VENDOR if definition.vendor else 0) | (IS_MANDATORY if definition.is_mandatory else 0)
    if definition.vendor:
        return struct.pack(">III", definition.code, flags << 24 | LONG_HEADER + size, definition.vendor)
    return struct.pack(">II", definition.code, flags << 24 | SHORT_HEADER + size)


def data_of(definition, value):
    """The data of an AVP."""
    match definition.kind:
        case Kind.NUMBER:
            return struct.pack(">I", value)
        case Kind.TEXT:
            return value.encode()
        case Kind.ADDRESS:
            return struct.pack(">H", IPV4 if value.version == 4 else IPV6) + value.packed
        case Kind.GROUP:
            return written(value)
        case _:
            return value


def written(avps):
    """The octets of AVPs, each a definition and its value; a group's value are such pairs too."""
    pieces = []
    for definition, value in avps:
        data = data_of(definition, value)
        pieces += [header(definition, len(data)), data, bytes(-len(data) % 4)]
    return b"".join(pieces)


def example(definition):
    """The octets of an AVP of the least size, for Failed-AVP where it is missing (RFC 6733 clause 7.5)."""
    least = {Kind.NUMBER: 0, Kind.TEXT: "", Kind.ADDRESS: ipaddress.IPv4Address(0), Kind.GROUP: (), Kind.OCTETS: b""}
    return written([(definition, least[definition.kind])])


def unknown(avp):
    """The octets of an AVP that was read and isn't known."""
    definition = Definition("", avp.code, avp.vendor, avp.is_mandatory, Kind.OCTETS)
    return written([(definition, avp.value)])


# --- Read ---


def value_of(definition, data, depth):
    """The value of the data of an AVP."""
    match definition.kind:
        case Kind.NUMBER if len(data) != 4:
            raise Malformed("%s has %d octets, not 4" % (definition.name, len(data)), Result.INVALID_AVP_LENGTH)
        case Kind.NUMBER:
            return int.from_bytes(data, "big")
        case Kind.TEXT:
            try:
                return data.decode()
            except UnicodeDecodeError:
                raise Malformed("%s isn't UTF-8" % definition.name, Result.INVALID_AVP_VALUE) from None
        case Kind.GROUP if depth == DEEPEST:
            raise Malformed("%s within more than %d others" % (definition.name, DEEPEST), Result.INVALID_AVP_VALUE)
        case Kind.GROUP:
            return read(data, depth + 1)
        case _:
            return data


def read(octets, depth=0):
    """The AVPs of octets; raises Malformed where they are none. No octet of a value is in its words."""
    found, at, size = Group(), 0, len(octets)
    while at < size:
        if at + SHORT_HEADER > size:
            raise Malformed("an AVP ends within its header", Result.INVALID_AVP_LENGTH)
        code, word = struct.unpack_from(">II", octets, at)
        flags, length = word >> 24, word & 0xFFFFFF
        start = LONG_HEADER if flags & HAS_VENDOR else SHORT_HEADER
        if length < start or at + length > size:
            head = octets[at:at + start].ljust(start, b"\0")
            failed = head[:4] + (flags << 24 | start).to_bytes(4, "big") + head[8:]
            raise Malformed("AVP %d has a length of %d where %d octets are left" % (code, length, size - at),
                            Result.INVALID_AVP_LENGTH, failed)
        vendor = int.from_bytes(octets[at + SHORT_HEADER:at + start], "big")
        definition = KNOWN.get((code, vendor))
        data = octets[at + start:at + length]
        try:
            value = data if definition is None else value_of(definition, data, depth)
        except Malformed as fault:
            whole = octets[at:at + length] + bytes(-length % 4)
            raise Malformed(str(fault), fault.result, fault.failed or whole) from None
        found.append(Avp(definition, code, vendor, bool(flags & IS_MANDATORY), value))
        at += length + -length % 4
    return found
