"""Diameter messages: their octets (RFC 6733 clause 3), and the commands of the base protocol and of S6a (TS 29.272 clause 7.2)."""
import collections
import enum
import struct

from tools.diameter import avps

VERSION, HEADER, LONGEST = 1, 20, 1 << 20  # octets; the longest message that is taken has many times those of an HSS
BASE, S6A, RELAY = 0, 16777251, 0xFFFFFFFF  # applications
IS_REQUEST, IS_PROXIABLE, IS_ERROR, IS_AGAIN = 0x80, 0x40, 0x20, 0x10  # the bits R, P, E and T


class Command(enum.IntEnum):
    CAPABILITIES_EXCHANGE = 257
    DEVICE_WATCHDOG = 280
    DISCONNECT_PEER = 282
    UPDATE_LOCATION = 316
    CANCEL_LOCATION = 317
    AUTHENTICATION_INFORMATION = 318
    INSERT_SUBSCRIBER_DATA = 319
    DELETE_SUBSCRIBER_DATA = 320
    PURGE_UE = 321
    RESET = 322
    NOTIFY = 323


Header = collections.namedtuple("Header", "flags command application hop end")
Message = collections.namedtuple("Message", "header avps")


def written(header, pairs):
    """The octets of a message with these AVPs, each a definition and its value."""
    body = avps.written(pairs)
    return struct.pack(">IIIII", VERSION << 24 | HEADER + len(body), header.flags << 24 | header.command, header.application,
                       header.hop, header.end) + body


def header_of(octets):
    """The header of a message."""
    _, word, application, hop, end = struct.unpack_from(">IIIII", octets)
    return Header(word >> 24, word & 0xFFFFFF, application, hop, end)


def taken(buffer):
    """Takes the whole messages off a buffer's front: their octets, and why the next one can't be found, if that is so."""
    at, found, why = 0, [], None
    while why is None and at + 4 <= len(buffer):
        version, length = buffer[at], int.from_bytes(buffer[at + 1:at + 4], "big")
        if version != VERSION:
            why = "a message of version %d" % version
        elif length < HEADER or length % 4 or length > LONGEST:
            why = "a message with a length of %d" % length
        elif at + length > len(buffer):
            break
        else:
            found.append(bytes(buffer[at:at + length]))
            at += length
    del buffer[:at]
    return found, why
