"""An HSS for the tests of tools/s6a: Diameter and S6a written a second time, with plain numbers, after RFC 6733 and TS 29.272. It
keeps each message that it received and sent, and writes them as a capture."""
import collections
import contextlib
import dataclasses
import os
import socket
import struct
import threading
import time

VENDOR, S6A = 10415, 16777251
CER, DWR, DPR, ULR, CLR, AIR, IDR, DSR, PUR, RSR = 257, 280, 282, 316, 317, 318, 319, 320, 321, 322
R, P, E, T = 0x80, 0x40, 0x20, 0x10
REALM = "epc.mnc001.mcc001.3gppnetwork.org"
HEADER = 20  # octets
USER_NAME, SESSION, HOST, REALM_OF, RESULT, DEST_HOST, DEST_REALM, EXPERIMENTAL, FAILED = 1, 263, 264, 296, 268, 293, 283, 297, 279
SCTP_INFORMATION, DIAMETER_PROTOCOL = 2, 46
QUICK = bytes(6) + b"\x80" + bytes(9), bytes(8), bytes(32)  # what goes with a RAND where there is no SIM

Received = collections.namedtuple("Received", "flags code application hop end avps octets at")


def avp(code, data, vendor=0, flags=0x40):
    """An AVP of octets, of a text or of a number."""
    if isinstance(data, int):
        data = data.to_bytes(4, "big")
    data = data.encode() if isinstance(data, str) else data
    head = struct.pack(">II", code, (flags | (0x80 if vendor else 0)) << 24 | 8 + 4 * bool(vendor) + len(data))
    return head + (vendor.to_bytes(4, "big") if vendor else b"") + data + bytes(-len(data) % 4)


def avps_of(octets):
    """The AVPs: for each code and vendor the data of each."""
    found, at = collections.defaultdict(list), 0
    while at < len(octets):
        code, word = struct.unpack_from(">II", octets, at)
        start = 12 if word >> 31 else 8
        vendor = int.from_bytes(octets[at + 8:at + start], "big")
        length = word & 0xFFFFFF
        assert start <= length <= len(octets) - at, "an AVP of %d octets" % length
        found[code, vendor].append(octets[at + start:at + length])
        at += length + -length % 4
    return found


def message(flags, code, application, numbers, body):
    return struct.pack(">IIIII", 1 << 24 | 20 + len(body), flags << 24 | code, application, *numbers) + body


def read(octets):
    _, word, application, hop, end = struct.unpack_from(">IIIII", octets)
    return Received(word >> 24, word & 0xFFFFFF, application, hop, end, avps_of(octets[20:]), octets, time.monotonic())


def capture(path, messages):
    """Writes messages, each with whether it came from the MME, as a capture of TCP segments."""
    with open(path, "wb") as file:
        file.write(struct.pack("<IHHiIII", 0xA1B2C3D4, 2, 4, 0, 0, 262144, 101))
        sent = {True: 1, False: 1}
        for place, (is_from_mme, octets) in enumerate(messages):
            ports = (40000, 3868) if is_from_mme else (3868, 40000)
            tcp = struct.pack(">HHIIBBHHH", *ports, sent[is_from_mme], sent[not is_from_mme], 0x50, 0x18, 65535, 0, 0) + octets
            sent[is_from_mme] += len(octets)
            hosts = (bytes([127, 0, 0, 2]), bytes([127, 0, 0, 1]))[::1 if is_from_mme else -1]
            ip = struct.pack(">BBHHHBBH", 0x45, 0, 20 + len(tcp), 0, 0x4000, 64, 6, 0) + b"".join(hosts)
            file.write(struct.pack("<IIII", place, 0, len(ip + tcp), len(ip + tcp)) + ip + tcp)


@dataclasses.dataclass
class Subscriber:
    """A SIM in the HSS, or none, where vectors are nobody's; and how it fails there: by a Result-Code, perhaps with words, by a
    code of 3GPP, in silence, with fewer vectors, or with vectors of another shape."""

    card: object
    fails: int | None = None
    says: str = ""
    fails_by: int | None = None
    vendor: int = VENDOR  # whose code that is
    is_mute: bool = False
    most: int = 5
    amf: bytes = b"\x80\x00"
    shape: object = None
    sqn: int = 0
    mme: str | None = None


class Hss:
    """Listens, and answers each connection in a thread of its own. Ended by `close`, or as if killed by `kill`."""

    def __init__(self, subscribers, address="127.0.0.1", port=0, name="hss", sctp=False):
        self.subscribers, self.host, self.is_sctp = subscribers, "%s.%s" % (name, REALM), sctp
        self.listener = socket.socket(socket.AF_INET, socket.SOCK_STREAM, socket.IPPROTO_SCTP if sctp else socket.IPPROTO_TCP)
        if not sctp:
            self.listener.setsockopt(socket.SOL_SOCKET, socket.SO_REUSEADDR, 1)
        self.listener.bind((address, port))
        self.listener.listen()
        self.port = self.listener.getsockname()[1]
        self.connections, self.messages, self.got = [], [], []  # all octets in their order; what was received, read
        self.lock, self.hop, self.answers = threading.Lock(), 1000, {}
        self.is_mute = self.has_s6a_not = False
        self.capabilities, self.ended_at = 2001, None
        threading.Thread(target=self.accept, daemon=True).start()

    def accept(self):
        with contextlib.suppress(OSError):
            while True:
                connection, _ = self.listener.accept()
                self.connections.append(connection)
                threading.Thread(target=self.serve, args=(connection,), daemon=True).start()

    def serve(self, connection):
        buffer = b""
        with contextlib.suppress(OSError):
            while octets := connection.recv(1 << 16):
                buffer += octets
                while len(buffer) >= 4 and len(buffer) >= (size := int.from_bytes(buffer[1:4], "big")):
                    whole, buffer = buffer[:size], buffer[size:]
                    self.take(connection, whole)
        self.ended_at = time.monotonic()
        connection.close()
        with contextlib.suppress(ValueError):
            self.connections.remove(connection)

    def send(self, connection, octets):
        with self.lock:
            self.messages.append((False, octets))
            if self.is_sctp:
                with_it = struct.pack("=HHIIi", 0, 0, socket.htonl(DIAMETER_PROTOCOL), 0, 0)
                connection.sendmsg([octets], [(socket.IPPROTO_SCTP, SCTP_INFORMATION, with_it)])
            else:
                connection.sendall(octets)

    def take(self, connection, octets):
        got = read(octets)
        with self.lock:
            self.messages.append((True, octets))
        self.got.append(got)
        if not got.flags & R:
            self.answers[got.hop] = got
            return
        if self.is_mute and got.code != CER:
            return
        body = self.answer(connection, got)
        if body is not None:
            sessions = b"".join(avp(SESSION, data) for data in got.avps.get((SESSION, 0), ()))
            proxies = b"".join(avp(284, data) for data in got.avps.get((284, 0), ()))
            flags, body = body if isinstance(body, tuple) else (0, body)
            self.send(connection, message(got.flags & P | flags, got.code, got.application, (got.hop, got.end),
                                          sessions + body + proxies))

    def identity(self):
        return avp(HOST, self.host) + avp(REALM_OF, REALM)

    def application(self):
        return avp(260, avp(266, VENDOR) + avp(258, S6A))

    def answer(self, connection, got):
        """The AVPs of an answer after its session; with flags where it has some."""
        if got.code == CER:
            own = b"\x00\x01" + socket.inet_aton(connection.getsockname()[0])
            return (avp(RESULT, self.capabilities) + self.identity() + avp(257, own) + avp(266, VENDOR) + avp(269, "hss", flags=0)
                    + avp(265, VENDOR) + (b"" if self.has_s6a_not else self.application()))
        if got.code in (DWR, DPR):
            return avp(RESULT, 2001) + self.identity()
        imsi = got.avps[USER_NAME, 0][0].decode()
        subscriber = self.subscribers.get(imsi)
        if subscriber is None:
            return self.failure(5001)
        if subscriber.is_mute:
            return None
        if subscriber.fails is not None:
            words = avp(281, subscriber.says, flags=0) if subscriber.says else b""
            return (E if subscriber.fails // 1000 == 3 else 0, avp(RESULT, subscriber.fails) + self.identity() + words)
        if subscriber.fails_by is not None:
            return self.failure(subscriber.fails_by, subscriber.vendor)
        return self.success(got, subscriber)

    def failure(self, code, vendor=VENDOR):
        return self.application() + avp(EXPERIMENTAL, avp(266, vendor) + avp(298, code)) + avp(277, 1) + self.identity()

    def success(self, got, subscriber):
        head = self.application() + avp(RESULT, 2001) + avp(277, 1) + self.identity()
        if got.code == ULR:
            subscriber.mme = got.avps[HOST, 0][0].decode()
            data = avp(1424, 0, VENDOR) + avp(9999, b"what nobody knows", VENDOR)
            return head + avp(1406, 1, VENDOR) + avp(1400, data, VENDOR)
        if got.code == PUR:
            subscriber.mme = None
            return head + avp(1442, 1, VENDOR)
        wanted = avps_of(got.avps[1408, VENDOR][0])
        count = min(int.from_bytes(wanted[1410, VENDOR][0], "big"), subscriber.most)
        for both in wanted[1411, VENDOR]:
            rand, auts = both[:16], both[16:]
            hidden = subscriber.card.outputs(rand, bytes(6), bytes(2))[4] >> 80
            own = int.from_bytes(auts[:6], "big") ^ hidden
            if subscriber.card.auts(rand, own) != auts:
                return self.failure(4181)
            subscriber.sqn = max(subscriber.sqn, own)
        if subscriber.card is not None:
            subscriber.card.plmn = got.avps[1407, VENDOR][0]
        return head + avp(1413, b"".join(self.vectors(subscriber, count)), VENDOR)

    @staticmethod
    def vectors(subscriber, count):
        """The vectors, the last one first, with their numbers."""
        found = []
        for place in range(count):
            subscriber.sqn += 33
            rand = os.urandom(16)
            autn, xres, kasme = QUICK if subscriber.card is None else subscriber.card.made(rand, subscriber.sqn, subscriber.amf)
            parts = [(1419, place + 1), (1447, rand), (1448, xres), (1449, autn), (1450, kasme)]
            if subscriber.shape:
                parts = subscriber.shape(parts)
            found.append(avp(1414, b"".join(avp(code, data, VENDOR) for code, data in parts), VENDOR))
        return reversed(found)

    def orders(self, code, body, flags=R | P, application=S6A, end=None, seconds=10):
        """The answer to a request of the HSS on its last connection, or nothing."""
        with self.lock:
            self.hop += 1
            hop = self.hop
        self.send(self.connections[-1], message(flags, code, application, (hop, hop + 7 if end is None else end), body))
        limit = time.monotonic() + seconds
        while hop not in self.answers and time.monotonic() < limit:
            time.sleep(0.002)
        return self.answers.get(hop)

    def head(self, mme, realm=REALM):
        """The first AVPs of an order."""
        return (avp(SESSION, "%s;1;%d" % (self.host, self.hop)) + self.application() + avp(277, 1) + self.identity()
                + avp(DEST_HOST, mme) + avp(DEST_REALM, realm))

    def of(self, code):
        """The requests that came."""
        return [got for got in self.got if got.code == code and got.flags & R]

    def cut(self):
        """Ends all connections."""
        for connection in list(self.connections):
            with contextlib.suppress(OSError):
                connection.shutdown(socket.SHUT_RDWR)

    def close(self):
        """Ends for good."""
        with contextlib.suppress(OSError):
            self.listener.shutdown(socket.SHUT_RDWR)
        self.listener.close()
        self.cut()
