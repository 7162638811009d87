"""A station's connection, which brings and takes whole messages: by SCTP, or by TCP with the length before each."""
import collections
import socket
import time

from tools.fronting import limits, sctp
from tools.fronting.faults import told

ENDED, CUT = "it ended the connection", "it ended within a message"


class Link:
    """A connection that doesn't block. `readable` and `writable` say whether it is worth a try; epoll sets them again, and
    `is_ending` once the other side sends no more. `why` says why it has ended, once it has."""

    def __init__(self, connection):
        self.connection, self.why = connection, None
        connection.setblocking(False)
        self.readable = self.writable = True
        self.has_more = self.has_restarted = self.is_ending = False  # whether more messages were read than were taken
        self.waiting, self.size = collections.deque(), 0  # messages to be sent, and their octets
        self.half_since = None  # when a message began that isn't whole

    def end(self, why):
        """Has it be over, for what came first."""
        self.why, self.readable, self.writable = self.why or why, False, False

    def put(self, octets):
        """Puts a message after those that wait."""
        self.waiting.append(octets)
        self.size += len(octets)

    def close(self):
        self.connection.close()


class TcpLink(Link):
    """A connection by TCP: before each message stand two octets with its length."""

    NAME, PROTOCOL = "TCP", socket.IPPROTO_TCP

    def __init__(self, connection):
        super().__init__(connection)
        self.received, self.last = b"", None
        connection.setsockopt(socket.IPPROTO_TCP, socket.TCP_NODELAY, 1)
        connection.setsockopt(socket.SOL_SOCKET, socket.SO_KEEPALIVE, 1)
        for option, value in ((socket.TCP_KEEPIDLE, limits.PROBE_AFTER), (socket.TCP_KEEPINTVL, limits.PROBE_APART),
                              (socket.TCP_KEEPCNT, (limits.VANISHED - limits.PROBE_AFTER) // limits.PROBE_APART),
                              (socket.TCP_USER_TIMEOUT, 1000 * limits.VANISHED)):
            connection.setsockopt(socket.IPPROTO_TCP, option, value)

    def read(self):
        """Reads once. A piece that is shorter than it might be is all that there is, unless the end stands after it (epoll(7))."""
        try:
            piece = self.connection.recv(limits.PIECE)
        except BlockingIOError:
            self.readable = False
        except OSError as fault:
            self.last, self.readable = told(fault), False
        else:
            self.received += piece
            self.readable = self.is_ending or len(piece) == limits.PIECE
            if not piece:
                self.last, self.readable = ENDED, False

    def whole(self, most, most_octets):
        """Takes messages out of what was received: `most` at the most, and none after `most_octets` octets."""
        received, at, messages, size = self.received, 0, [], len(self.received)
        for _ in range(most):
            start = at + limits.LENGTH_OCTETS
            if start > size or at >= most_octets:
                break
            length = received[at] << 8 | received[at + 1]
            if length > limits.LONGEST_MESSAGE:
                self.end("a message of %d octets" % length)
                break
            if start + length > size:
                break
            at = start + length
            messages.append(received[start:at])
        if at:
            self.received, self.half_since = received[at:], None
        return messages

    def take(self, most, most_octets):
        """The next messages: `most` at the most, and none after `most_octets` octets."""
        messages, octets = [], 0
        while len(messages) < most and octets < most_octets:
            found = self.whole(most - len(messages), most_octets - octets) if self.received else ()
            if found:
                messages += found
                octets += sum(map(len, found))
            elif self.readable:
                self.read()
            else:
                self.come_to_an_end()
                return messages
        self.has_more = True
        return messages

    def come_to_an_end(self):
        """There is no whole message more for now."""
        self.has_more = False
        if self.last is not None:
            self.end(CUT if self.received and self.last == ENDED else self.last)
        if self.received and self.half_since is None:
            self.half_since = time.monotonic()

    def put(self, octets):
        """Puts a message after those that wait, with its length before it."""
        self.waiting.append(len(octets).to_bytes(limits.LENGTH_OCTETS, "big") + octets)
        self.size += limits.LENGTH_OCTETS + len(octets)

    def flush(self):
        """Sends what waits, as far as it goes."""
        while self.writable and self.waiting:
            whole, sent = b"".join(self.waiting), 0
            self.waiting.clear()
            try:
                sent = self.connection.send(whole)
            except BlockingIOError:
                self.writable = False
            except OSError as fault:
                self.end(told(fault))
            self.size = len(whole) - sent
            if self.size:
                self.waiting.append(whole[sent:])


class SctpLink(Link):
    """A connection by SCTP, which keeps messages apart (RFC 6458 clause 4)."""

    NAME, PROTOCOL = "SCTP", socket.IPPROTO_SCTP

    def __init__(self, connection):
        super().__init__(connection)
        self.part = b""
        connection.setsockopt(socket.IPPROTO_SCTP, sctp.NODELAY, 1)
        self.streams = sctp.streams_of(connection)

    def restart(self):
        """The other side has begun anew: what waited for it is for nobody."""
        self.has_restarted, self.part, self.half_since = False, b"", None
        self.waiting.clear()
        self.size, self.writable = 0, True

    def read(self):
        """The next message, or nothing where there is no whole one yet."""
        try:
            octets, _, flags, _ = self.connection.recvmsg(limits.PIECE)
        except BlockingIOError:
            self.readable = False
            return None
        except OSError as fault:
            self.end(told(fault))
            return None
        if flags & sctp.NOTIFICATION:
            streams = sctp.streams_after_restart(octets)
            if streams is not None:
                self.has_restarted, self.streams = True, streams
            return None
        return self.joined(octets, flags & socket.MSG_EOR)

    def joined(self, octets, is_last):
        """The message that ends with this part."""
        self.part += octets
        if not octets:
            self.end(CUT if self.part else ENDED)
        elif len(self.part) > limits.LONGEST_MESSAGE:
            self.end("a message of more than %d octets" % limits.LONGEST_MESSAGE)
        elif not is_last:
            self.half_since = self.half_since or time.monotonic()
        else:
            message, self.part, self.half_since = self.part, b"", None
            return message
        return None

    def take(self, most, most_octets):
        """The next messages: `most` at the most, none after `most_octets` octets, and none beyond a restart of the other side."""
        messages, octets = [], 0
        while len(messages) < most and octets < most_octets and self.readable and not self.has_restarted:
            message = self.read()
            if message is not None:
                messages.append(message)
                octets += len(message)
        return messages

    def flush(self):
        """Sends what waits, as far as it goes."""
        while self.writable and self.waiting:
            octets = self.waiting[0]
            try:
                self.connection.sendmsg([octets], sctp.information(sctp.stream_of(octets, self.streams)))
            except BlockingIOError:
                self.writable = False
            except OSError as fault:
                self.end(told(fault))
            else:
                self.waiting.popleft()
                self.size -= len(octets)
