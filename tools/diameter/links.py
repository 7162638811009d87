"""A connection to a peer, by TCP or SCTP (RFC 6733 clause 2.1), which this side begins."""
import collections
import os
import select
import socket
import struct

from tools.fronting import sctp

DIAMETER_PROTOCOL = 46  # the payload protocol identifier of Diameter in clear text (RFC 6733 clause 11.4)
PIECE = 1 << 16  # octets of a read
MOST_WAITING = 1 << 20  # octets that wait for the peer to read them
CLOSED = "the peer ended the connection"


def told(fault):
    """What the system says of a fault."""
    return fault.strerror or str(fault)


class Link:
    """A connection. `opened()` is called once it is there, `heard(octets)` with what comes, and `lost(text)` once it is over,
    unless it was closed here."""

    PROTOCOL = socket.IPPROTO_TCP

    def __init__(self, loop, opened, heard, lost):
        self.loop, self.opened, self.heard, self.lost = loop, opened, heard, lost
        self.socket, self.is_open, self.is_writing = None, False, False
        self.waiting, self.size = collections.deque(), 0  # messages to be sent, and their octets

    def begin(self, address, port, source):
        """Begins the connection; raises OSError where the system refuses it at once."""
        family = socket.AF_INET6 if address.version == 6 else socket.AF_INET
        self.socket = socket.socket(family, socket.SOCK_STREAM | socket.SOCK_NONBLOCK | socket.SOCK_CLOEXEC, self.PROTOCOL)
        try:
            self.set_options()
            if source is not None:
                self.socket.bind((str(source), 0))
            self.socket.connect((str(address), port))
        except BlockingIOError:
            pass
        except OSError:
            self.socket.close()
            self.socket = None
            raise
        self.loop.watch(self.socket.fileno(), select.EPOLLOUT, self.act)

    def set_options(self):
        self.socket.setsockopt(socket.IPPROTO_TCP, socket.TCP_NODELAY, 1)

    def own_address(self):
        """This side's address."""
        return self.socket.getsockname()[0]

    def act(self, events):
        """Something can be done."""
        if not self.is_open:
            self.come_up()
            return
        if events & ~select.EPOLLOUT:
            self.read()
        if self.socket is not None and events & select.EPOLLOUT:
            self.flush()

    def come_up(self):
        fault = self.socket.getsockopt(socket.SOL_SOCKET, socket.SO_ERROR)
        if fault:
            self.end(os.strerror(fault))
            return
        self.is_open = True
        self.loop.change(self.socket.fileno(), select.EPOLLIN)
        self.opened()

    def read(self):
        try:
            octets = self.socket.recv(PIECE)
        except BlockingIOError:
            return
        except OSError as fault:
            self.end(told(fault))
            return
        if octets:
            self.heard(octets)
        else:
            self.end(CLOSED)

    def put(self, octets):
        """Sends a message, or has it wait. A peer that doesn't read has its connection end."""
        if self.socket is None or not self.is_open:
            return
        self.waiting.append(octets)
        self.size += len(octets)
        self.flush()
        if self.size > MOST_WAITING:
            self.fail("more than %d octets wait for the peer to read them" % MOST_WAITING)

    def send_first(self):
        """Sends of the first message that waits what goes; how many octets."""
        return self.socket.send(self.waiting[0])

    def flush(self):
        """Sends what waits, as far as it goes."""
        try:
            while self.waiting:
                sent = self.send_first()
                self.size -= sent
                rest = self.waiting.popleft()[sent:]
                if rest:
                    self.waiting.appendleft(rest)
        except BlockingIOError:
            pass
        except OSError as fault:
            self.fail(told(fault))
            return
        if bool(self.waiting) != self.is_writing:
            self.is_writing = bool(self.waiting)
            self.loop.change(self.socket.fileno(), select.EPOLLIN | (select.EPOLLOUT if self.is_writing else 0))

    def fail(self, why):
        """Has it be over for this once what is being done now is done."""
        self.waiting.clear()
        self.size = 0
        self.loop.after(0, lambda: self.end(why))

    def end(self, why):
        """It is over, for this."""
        if self.socket is not None:
            self.close()
            self.lost(why)

    def close(self):
        if self.socket is not None:
            self.loop.unwatch(self.socket.fileno())
            self.socket.close()
            self.socket = None


class SctpLink(Link):
    """A connection by SCTP, where each message of Diameter is one of SCTP (RFC 6733 clause 2.1.1)."""

    PROTOCOL = socket.IPPROTO_SCTP

    def set_options(self):
        self.socket.setsockopt(socket.IPPROTO_SCTP, sctp.NODELAY, 1)

    def send_first(self):
        """A message goes whole, or not at all."""
        with_it = struct.pack("=HHIIi", 0, 0, socket.htonl(DIAMETER_PROTOCOL), 0, 0)
        return self.socket.sendmsg([self.waiting[0]], [(socket.IPPROTO_SCTP, sctp.SEND_INFORMATION, with_it)])
