"""SCTP's sockets: their options and what they tell (RFC 6458), by Linux's numbers and layouts (include/uapi/linux/sctp.h)."""
import socket
import struct

from tools import s1ap

S1AP_PROTOCOL = 18  # the payload protocol identifier of S1AP (TS 36.412 clause 7)
RTO_INFO, ASSOCIATION_INFO, INIT, NODELAY, PATH_PARAMETERS, EVENTS, STATUS, BIND_MORE = 0, 1, 2, 3, 9, 11, 14, 100
SEND_INFORMATION = 2  # the type of the information that goes with a message
NOTIFICATION = 0x8000  # the flag of what is no message but tells of the association
ASSOCIATION_CHANGE, CHANGE_OCTETS, STATE_AT, RESTARTED = 0x8001, 20, 8, 2  # what it tells of: the type, size, state and a value

STATUS_OCTETS, STREAMS_AT = 256, 18  # the number of streams to the other side stands after 18 octets
OUTBOUND_STREAMS, INBOUND_STREAMS = 16, 64  # that are asked for
HEARTBEAT = 5000  # milliseconds between heartbeats of a path that is idle
SHORTEST_RTO, FIRST_RTO, LONGEST_RTO = 500, 1000, 5000  # milliseconds until a message is sent again
PATH_TRIES, ASSOCIATION_TRIES = 2, 3  # unanswered repeats until a path is given up, and until the association is
HEARTBEAT_ON = 1


def set_options(listener):
    """Has a socket's associations have its times, its streams, and notifications of their changes."""
    def give(option, layout, *values):
        listener.setsockopt(socket.IPPROTO_SCTP, option, struct.pack(layout, *values))
    give(RTO_INFO, "=iIII", 0, FIRST_RTO, LONGEST_RTO, SHORTEST_RTO)
    give(ASSOCIATION_INFO, "=iHHIII", 0, ASSOCIATION_TRIES, 0, 0, 0, 0)
    give(PATH_PARAMETERS, "=i128sIHIIIIBx", 0, b"", HEARTBEAT, PATH_TRIES, 0, 0, HEARTBEAT_ON, 0, 0)
    give(INIT, "=HHHH", OUTBOUND_STREAMS, INBOUND_STREAMS, 0, 0)
    give(EVENTS, "=10B", 0, 1, 0, 0, 0, 0, 0, 0, 0, 0)


def address_octets(address, port):
    """A socket's address as the system has it."""
    if address.version == 6:
        return struct.pack("=H", socket.AF_INET6) + struct.pack(">HI", port, 0) + address.packed + bytes(4)
    return struct.pack("=H", socket.AF_INET) + struct.pack(">H", port) + address.packed + bytes(8)


def bind_more(listener, addresses, port):
    """Binds a socket to further addresses (sctp_bindx, RFC 6458 clause 9.1)."""
    listener.setsockopt(socket.IPPROTO_SCTP, BIND_MORE, b"".join(address_octets(address, port) for address in addresses))


def streams_of(connection):
    """How many streams go to the other side (RFC 6458 clause 8.2.1)."""
    status = connection.getsockopt(socket.IPPROTO_SCTP, STATUS, STATUS_OCTETS)
    return struct.unpack_from("=H", status, STREAMS_AT)[0]


def streams_after_restart(octets):
    """How many streams go to the other side, by a notification that it has begun anew (RFC 6458 clause 6.1.1); None by any other.
    Linux's status of the association has the number of before."""
    if len(octets) < CHANGE_OCTETS or struct.unpack_from("=H", octets)[0] != ASSOCIATION_CHANGE:
        return None
    state, _, streams = struct.unpack_from("=HHH", octets, STATE_AT)
    return streams if state == RESTARTED else None


def information(stream):
    """What goes with a message: its stream and S1AP's identifier."""
    return [(socket.IPPROTO_SCTP, SEND_INFORMATION, struct.pack("=HHIIi", stream, 0, socket.htonl(S1AP_PROTOCOL), 0, 0))]


def phone_of(octets):
    """The eNB UE S1AP ID of a message that is a phone's; None where it is the station's own, or pages."""
    if octets[:2] == bytes([0, s1ap.PAGING]):
        return None
    alone = s1ap.element(octets, s1ap.ENB_ID)
    return s1ap.ids(s1ap.read(octets))[1] if alone is None else s1ap.number_in(alone)


def stream_of(octets, streams):
    """The stream of a message (TS 36.412 clause 7): the first for what is no phone's, one of the others for a phone, always the
    same while its connection lasts."""
    if streams < 2:
        return 0
    phone = phone_of(octets)
    return 0 if phone is None else 1 + phone % (streams - 1)
