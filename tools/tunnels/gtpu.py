"""Messages of GTP-U (TS 29.281): as octets, and read from octets of any origin."""
import ipaddress
import struct
import typing

ECHO_REQUEST, ECHO_RESPONSE, ERROR_INDICATION, EXTENSIONS, END_MARKER, PACKET = 1, 2, 26, 31, 254, 255  # clause 6.1
NAMES = {ECHO_REQUEST: "echo request", ECHO_RESPONSE: "echo response", ERROR_INDICATION: "error indication",
         EXTENSIONS: "supported extension headers", END_MARKER: "end marker", PACKET: "packet"}
VERSION_1, WITH_SEQUENCE, WITH_EXTENSION, WITH_MORE = 0x30, 2, 4, 7  # the first octet (clause 5.1)
HEAD, MORE = 8, 4  # octets that all messages have, and those that some have after them
RECOVERY, OWN_TEID, PEER_ADDRESS = 14, 16, 133  # clause 8.1
LENGTHS = {RECOVERY: 1, OWN_TEID: 4}  # of the elements that have no length of their own
FIRST_WITH_LENGTH = 128
IP_HEAD = 20  # octets of the shortest header of IPv4


class Unreadable(Exception):
    """Why octets are no message; its text says it."""


class Message(typing.NamedTuple):
    """A message: its type, TEID, sequence number and what is in it."""
    kind: int
    teid: int
    sequence: bytes
    body: bytes


def read(octets):
    """The message that a datagram is; extension headers are passed over."""
    if len(octets) < HEAD:
        raise Unreadable("a header that is cut")
    if octets[0] & 0xF0 != VERSION_1:
        raise Unreadable("another version or protocol")
    end = HEAD + int.from_bytes(octets[2:4], "big")
    if end > len(octets):
        raise Unreadable("a message that is cut")
    at, sequence = HEAD, b"\0\0"
    if octets[0] & WITH_MORE:
        at += MORE
        if at > end:
            raise Unreadable("a header that is cut")
        sequence = octets[HEAD:HEAD + 2] if octets[0] & WITH_SEQUENCE else sequence
        if octets[0] & WITH_EXTENSION:
            at = after_extensions(octets, at, end)
    return Message(octets[1], int.from_bytes(octets[4:HEAD], "big"), sequence, octets[at:end])


def after_extensions(octets, at, end):
    """Where the extension headers end (clause 5.2.1)."""
    following = octets[at - 1]
    while following:
        size = 4 * octets[at] if at < end else 0
        if not size or at + size > end:
            raise Unreadable("an extension header that is cut")
        at += size
        following = octets[at - 1]
    return at


def packed(kind, teid, body=b"", sequence=None):
    """A message."""
    more = b"" if sequence is None else sequence + b"\0\0"
    first = VERSION_1 if sequence is None else VERSION_1 | WITH_SEQUENCE
    return struct.pack(">BBHI", first, kind, len(more) + len(body), teid) + more + body


def echo_response(sequence):
    """The answer to ECHO REQUEST (clause 7.2.2); the restart counter is of no use in it."""
    return packed(ECHO_RESPONSE, 0, bytes([RECOVERY, 0]), sequence)


def error_indication(teid, address):
    """What is said of a TEID that isn't known at an address (clause 7.3.1)."""
    place = bytes([PEER_ADDRESS, 0, 4]) + ipaddress.IPv4Address(address).packed
    return packed(ERROR_INDICATION, 0, bytes([OWN_TEID]) + teid.to_bytes(4, "big") + place, b"\0\0")


def end_of(body):
    """The TEID and the address that an error indication names; of IPv6 no address."""
    at, found = 0, {}
    while at < len(body):
        kind = body[at]
        start = at + (3 if kind >= FIRST_WITH_LENGTH else 1)
        size = int.from_bytes(body[at + 1:start], "big") if kind >= FIRST_WITH_LENGTH else LENGTHS.get(kind)
        if size is None or start + size > len(body):
            raise Unreadable("an element that is cut")
        found.setdefault(kind, body[start:start + size])
        at = start + size
    if OWN_TEID not in found or PEER_ADDRESS not in found:
        raise Unreadable("an error indication without a tunnel")
    place = found[PEER_ADDRESS]
    return int.from_bytes(found[OWN_TEID], "big"), str(ipaddress.IPv4Address(place)) if len(place) == 4 else None


def addresses_of(packet):
    """The source and the destination of a packet, as octets; nothing where it isn't one of IPv4."""
    if len(packet) < IP_HEAD or packet[0] >> 4 != 4:
        return None, None
    return packet[12:16], packet[16:20]
