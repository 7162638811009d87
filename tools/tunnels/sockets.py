"""The sockets that GTP-U comes to: one for each station that has phones, whose device takes its packets, and one for whoever else
sends something. All have the gateway's address and port, and a program of the kernel's says by the sender whose a packet is: so a
station's packets reach its own phones' contexts alone."""
import array
import socket
import struct

PORT = 2152  # TS 29.281 clause 4.4.2
ATTACH_PROGRAM = 51  # asm-generic/socket.h: SO_ATTACH_REUSEPORT_CBPF
LOAD, IS_EQUAL, RETURN = 0x20, 0x15, 0x06  # linux/bpf_common.h: a word at a place, a jump, the end
SENDER = 0xFFF00000 + 12  # the sender's address in the header of IP (linux/filter.h: SKF_NET_OFF)
INSTRUCTION = struct.Struct("=HBBI")
OTHERS = 0  # the place of the socket of whoever has no other
ROOM = 1 << 21  # octets of datagrams that may wait


def made(address):
    """A socket of the gateway's."""
    sock = socket.socket(socket.AF_INET, socket.SOCK_DGRAM)
    try:
        sock.setsockopt(socket.SOL_SOCKET, socket.SO_REUSEPORT, 1)
        sock.setsockopt(socket.SOL_SOCKET, socket.SO_RCVBUF, ROOM)
        sock.setblocking(False)
        sock.bind((address, PORT))
    except OSError:
        sock.close()
        raise
    return sock


def instruction(code, number, if_so=0, if_not=0):
    return INSTRUCTION.pack(code, if_so, if_not, number)


def program(places):
    """What finds the place of a sender's socket, by the addresses of stations."""
    parts = [instruction(LOAD, SENDER)]
    for station, place in places.items():
        parts += [instruction(IS_EQUAL, int.from_bytes(socket.inet_aton(station), "big"), 0, 1), instruction(RETURN, place)]
    return b"".join([*parts, instruction(RETURN, OTHERS)])


def direct(sock, places):
    """From now on the packets of these stations go to the sockets at these places, in the order in which they were made."""
    octets = array.array("B", program(places))
    place, size = octets.buffer_info()
    sock.setsockopt(socket.SOL_SOCKET, ATTACH_PROGRAM, struct.pack("@HP", size // INSTRUCTION.size, place))
