"""Messages to the kernel and its answers (netlink(7)): attributes, requests, many in a write, and dumps."""
import errno
import os
import socket
import struct

ROUTE, NETFILTER, GENERIC = 0, 12, 16  # the families of netlink
REQUEST, ACK, DUMP = 1, 4, 0x300
CREATE, EXCL, REPLACE = 0x400, 0x200, 0x100
ERROR, DONE = 2, 3  # types of messages
HEADER = struct.Struct("=IHHII")  # of a message: its octets, its type, its flags, its number, and none
FLAGS, FLAGS_AT = struct.Struct("=H"), 6
ANSWER = struct.Struct("=IHxxI4xi")  # how a message begins that says whether a request failed, which has the same number
NESTED = 0x8000
KIND = 0x3FFF  # of an attribute's type, without its flags
SOL_NETLINK, CAP_ACK = 270, 10  # an answer leaves out what it is to
ROOM, PIECE, ANSWERS = 1 << 22, 1 << 18, 1 << 12  # octets of answers that may wait, of a read of a dump, and of one of answers
TOGETHER, TOGETHER_OCTETS = 50, 1 << 15  # messages of a write, and about how many octets
SECONDS = 20  # for the kernel to answer


class Refused(Exception):
    """What the kernel refused, in words, with its number."""

    def __init__(self, what, number):
        super().__init__("%s: %s" % (what, os.strerror(number)))
        self.number = number


def attribute(kind, octets):
    """An attribute with its length, and filled up to whole words."""
    size = 4 + len(octets)
    return struct.pack("=HH", size, kind) + octets + bytes(-size % 4)


def nested(kind, *parts):
    return attribute(kind | NESTED, b"".join(parts))


def text(kind, words):
    return attribute(kind, words.encode() + b"\0")


def attributes(octets, at=0):
    """The attributes that octets have from a place on, by their types; of several of a type the last."""
    return dict(each_attribute(octets, at))


def each_attribute(octets, at=0):
    """The attributes as pairs of type and octets."""
    while at + 4 <= len(octets):
        size, kind = struct.unpack_from("=HH", octets, at)
        if size < 4:
            return
        yield kind & KIND, octets[at + 4:at + size]
        at += size + 3 & ~3


def messages_in(octets):
    """The messages of one read: of each its type, the number of an error, and its octets."""
    at, found = 0, []
    while at + HEADER.size <= len(octets):
        size, kind, _, _, _ = HEADER.unpack_from(octets, at)
        body = octets[at + HEADER.size:at + size]
        found.append((kind, -struct.unpack_from("=i", body)[0] if kind == ERROR else 0, body))
        at += max(size, HEADER.size) + 3 & ~3
    return found


def answers_in(octets):
    """What the answers of one read say: each the number of its request, and that of an error, 0 for none."""
    at, found = 0, []
    while at + ANSWER.size <= len(octets):
        size, kind, sequence, number = ANSWER.unpack_from(octets, at)
        if kind == ERROR:
            found.append((sequence, -number))
        at += max(size, HEADER.size) + 3 & ~3
    return found


def number_of(message):
    """The number of a message, which its answer has too."""
    return HEADER.unpack_from(message)[3]


class Netlink:
    """A socket of a family, and the messages that go by it."""

    def __init__(self, family):
        self.socket = socket.socket(socket.AF_NETLINK, socket.SOCK_RAW, family)
        self.socket.setsockopt(socket.SOL_SOCKET, socket.SO_RCVBUF, ROOM)
        self.socket.setsockopt(socket.SOL_SOCKET, socket.SO_RCVTIMEO, struct.pack("@ll", SECONDS, 0))  # without a poll(2) for it
        self.socket.setsockopt(SOL_NETLINK, CAP_ACK, 1)
        self.socket.bind((0, 0))
        self.sequence = 0

    def number(self):
        """The number of the next message."""
        self.sequence = self.sequence + 1 & 0xFFFFFFFF
        return self.sequence

    def message(self, kind, body, flags=0):
        """A request that is to be sent."""
        return HEADER.pack(HEADER.size + len(body), kind, REQUEST | flags, self.number(), 0) + body

    def send(self, messages):
        """Sends requests, some together; what each failed for, 0 where it didn't."""
        found, part, size = [], [], 0
        for message in messages:
            part.append(message)
            size += len(message)
            if len(part) == TOGETHER or size > TOGETHER_OCTETS:
                found += self.write(part)
                part, size = [], 0
        return found + self.write(part) if part else found

    def write(self, part):
        """Sends requests by one write; what each failed for. The kernel does them in their order, and answers those that fail, and
        the last one, which asks for that: so all is told once it is answered."""
        octets, last = bytearray(b"".join(part)), part[-1]
        [flags] = FLAGS.unpack_from(last, FLAGS_AT)
        FLAGS.pack_into(octets, len(octets) - len(last) + FLAGS_AT, flags | ACK)
        self.socket.send(octets)
        failed, end = {}, number_of(last)
        while end not in failed:
            failed.update(answers_in(self.receive(ANSWERS)))
        return [failed.get(number_of(message), 0) for message in part] if any(failed.values()) else [0] * len(part)

    def receive(self, most):
        """The next of what the kernel answers."""
        try:
            return self.socket.recv(most)
        except BlockingIOError:
            raise TimeoutError("the kernel hasn't answered for %d s" % SECONDS) from None

    def ask(self, what, kind, body, flags=0):
        """Sends one request; what can't be done is refused by these words."""
        [number] = self.send([self.message(kind, body, flags)])
        if number:
            raise Refused(what, number)

    def dump(self, what, kind, body, flags=DUMP):
        """The bodies of all that a request finds."""
        self.socket.send(self.message(kind, body, flags))
        found, is_over = [], False
        while not is_over:
            for other, number, octets in messages_in(self.receive(PIECE)):
                if other == ERROR and number:
                    raise Refused(what, number)
                is_over = is_over or other in (ERROR, DONE)
                if other not in (ERROR, DONE):
                    found.append(octets)
        return found

    def close(self):
        self.socket.close()


def is_there_already(number):
    return number == errno.EEXIST


def is_missing(number):
    return number in (errno.ENOENT, errno.ESRCH, errno.ENODEV)
