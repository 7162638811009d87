"""What is asked of etcd, by JSON over HTTP as each of its members takes it (etcd 3.4 and later), without keeping the loop waiting.

A call goes to one member. Where that doesn't answer, says that it can't, or takes too long, the call has a fault, and the next one
goes to the next member. What was asked may be done all the same: whoever asked has to find out.
"""
import base64
import errno
import json
import os
import select
import socket
import ssl
import typing
import urllib.parse

from tools import runs

from tools.fronting import limits
from tools.fronting.faults import Failed, NOT_YET, told

HTTP, HTTPS, PORT = "http", "https", 2379
AUTHENTICATE, METRICS = "/v3/auth/authenticate", "/metrics"
RANGE, TXN, COMPACTION = "/v3/kv/range", "/v3/kv/txn", "/v3/kv/compaction"
# Why etcd refuses something, by the numbers of gRPC: it would refuse it again, or it doesn't know who asks any more.
REFUSALS, UNAUTHENTICATED = (3, 7), 16
OLD_USERS, NO_ROOM = "revision of auth store is old", "space exceeded"  # users changed since; the quota is reached
LATE, LONGEST_WORDS = "no answer within", 200
UNREADABLE = "what it answers can't be read"
WOULD_BLOCK = (BlockingIOError, ssl.SSLWantReadError, ssl.SSLWantWriteError)


class Endpoint(typing.NamedTuple):
    """A member: its name as it was given, and where it is."""
    name: str
    host: str
    port: int
    is_secret: bool

    def __str__(self):
        return self.name


class Access(typing.NamedTuple):
    """Where a store is, and by what it lets the front in: TLS, and a user with a password."""
    endpoints: list
    context: ssl.SSLContext | None
    user: str | None
    password: str | None

    def __str__(self):
        return ", ".join(map(str, self.endpoints))


class Fault(typing.NamedTuple):
    """Why a call wasn't answered: in words, and whether it would be refused again."""
    words: str
    is_refusal: bool = False

    @property
    def is_late(self):
        """Whether there was none in time."""
        return LATE in self.words

    @property
    def is_full(self):
        """Whether the store has reached its quota: it is read, and not written until there is room."""
        return NO_ROOM in self.words


def b64(octets):
    return base64.b64encode(octets).decode()


def endpoint_of(text):
    """An endpoint as http://192.0.2.11:2379; the port is 2379 where none is given."""
    try:
        parts = urllib.parse.urlsplit(text)
        if parts.scheme not in (HTTP, HTTPS) or not parts.hostname or parts.path.strip("/") or parts.query or parts.username:
            raise ValueError
        return Endpoint(text.rstrip("/"), parts.hostname, parts.port or PORT, parts.scheme == HTTPS)
    except ValueError:
        raise runs.Fault("%r isn't where a member of etcd is, as http://192.0.2.11:2379" % text) from None


def access_of(urls, ca=None, certificate=None, user=None, password=None):
    """The way into a store: its members' places, a file with who signs for them, one with the front's certificate and key, a user
    and the file of its password."""
    endpoints = [endpoint_of(text) for text in urls]
    is_secret = {endpoint.is_secret for endpoint in endpoints}
    if len(is_secret) > 1:
        raise runs.Fault("the places of the store are all http or all https")
    if not is_secret.pop() and (ca or certificate):
        raise runs.Fault("--store-ca and --store-cert go with https")
    if (user is None) != (password is None):
        raise runs.Fault("--store-user and --store-password go together")
    if password is not None:
        password = runs.read_file(password).decode(errors="surrogateescape").partition("\n")[0]
    return Access(endpoints, context_of(ca, certificate) if endpoints[0].is_secret else None, user, password)


def context_of(ca, certificate):
    """TLS with these files."""
    try:
        context = ssl.create_default_context(cafile=ca)
        if certificate:
            context.load_cert_chain(certificate)
        return context
    except OSError as fault:
        raise runs.Fault("%s: %s" % (", ".join(filter(None, (ca, certificate))), told(fault))) from None


def found_address(endpoint):
    """The address of an endpoint, which may wait for a resolver."""
    try:
        return socket.getaddrinfo(endpoint.host, endpoint.port, type=socket.SOCK_STREAM)[0]
    except OSError as fault:
        raise Failed("%s: %s" % (endpoint, told(fault)), NOT_YET) from None


class Reply:
    """An answer by HTTP/1.1, which comes piece by piece: an object of JSON, or where it is well and so asked for, text."""

    def __init__(self, is_text=False):
        self.is_text = is_text
        self.received, self.at = bytearray(), 0  # and up to where it was read
        self.status, self.length, self.is_chunked, self.closes = None, 0, False, False
        self.body, self.is_whole, self.found = bytearray(), False, None  # the last is the object of JSON that it is

    def take(self, octets):
        """One more piece; whether it is whole then."""
        self.received += octets
        if self.status is not None or self.has_head():
            if self.is_chunked:
                self.take_chunks()
            elif len(self.received) - self.at >= self.length:
                self.body, self.is_whole = self.received[self.at:self.at + self.length], True
        if self.is_whole:
            self.found = self.read()
            if not isinstance(self.found, dict):
                raise ValueError
        return self.is_whole

    def read(self):
        """What it says, once it is whole. What is refused before the members' own part is refused in plain words."""
        if self.is_text and self.status == 200:
            return {"header": None, "text": self.body.decode("latin-1")}
        try:
            return json.loads(self.body)
        except ValueError:
            if self.status == 200:
                raise
            return {"message": self.body[:LONGEST_WORDS].decode(errors="replace").strip()}

    def has_head(self):
        """Reads the head, once it is whole."""
        end = self.received.find(b"\r\n\r\n")
        if end < 0:
            return False
        first, *lines = self.received[:end].decode("latin-1").split("\r\n")
        fields = {name.strip().lower(): value.strip().lower() for name, _, value in (line.partition(":") for line in lines)}
        self.status, self.at = int(first.partition(" ")[2][:3]), end + 4
        self.is_chunked = fields.get("transfer-encoding") == "chunked"
        self.length, self.closes = int(fields.get("content-length", 0)), fields.get("connection") == "close"
        return True

    def take_chunks(self):
        """Reads the chunks that are whole; after the last one may come further fields (RFC 9112 clause 7.1)."""
        while (end := self.received.find(b"\r\n", self.at)) >= 0:
            size = int(self.received[self.at:end].partition(b";")[0], 16)
            if size < 0:
                raise ValueError
            if not size:
                self.is_whole = self.received.find(b"\r\n\r\n", end) >= 0
                return
            if len(self.received) < end + 2 + size + 2:
                return
            self.body += self.received[end + 2:end + 2 + size]
            self.at = end + 2 + size + 2

    @property
    def fault(self):
        """What it says that is wrong, if anything."""
        if self.status == 200:
            return None
        words = self.found.get("message") or self.found.get("error") or "status %d" % self.status
        return Fault(str(words), self.found.get("code") in REFUSALS)

    @property
    def is_of_nobody(self):
        """Whether it says that who asks isn't known any more."""
        return self.status != 200 and (self.found.get("code") == UNAUTHENTICATED or OLD_USERS in str(self.found))


class Etcd:
    """One connection to the store, and one call at a time. The members' addresses are looked up where they aren't given."""

    def __init__(self, loop, access, addresses=None):
        self.loop, self.access = loop, access
        self.addresses = addresses or [found_address(endpoint) for endpoint in access.endpoints]
        self.place = 0  # of the endpoint that is asked
        self.socket = self.reply = self.asked = self.then = self.timer = self.token = None
        self.unsent, self.is_connected, self.events = b"", False, 0

    @property
    def endpoint(self):
        return self.access.endpoints[self.place]

    def call(self, path, body, then, seconds=limits.STORE_CALL_SECONDS):
        """Asks: octets of JSON, or nothing for text. Has `then` be called with the object that is answered and no fault, or with
        nothing and the fault."""
        self.asked, self.then = (path, body), then
        self.timer = self.loop.after(seconds, lambda: self.fail("%s %g s" % (LATE, seconds)))
        self.send()

    # The connection.

    def send(self):
        """Sends what was asked; before it the user's name, where that is still to be said."""
        path, body = self.asked
        if self.access.user is not None and self.token is None:
            path, body = AUTHENTICATE, json.dumps({"name": self.access.user, "password": self.access.password}).encode()
        is_text, body = body is None, body or b""
        head = "%s %s HTTP/1.1\r\nHost: %s\r\nContent-Type: application/json\r\nContent-Length: %d\r\n%s\r\n" % (
            "GET" if is_text else "POST", path, self.endpoint.name.partition("://")[2], len(body),
            "Authorization: %s\r\n" % self.token if self.token else "")
        self.unsent, self.reply = head.encode() + body, Reply(is_text)
        try:
            if self.socket is None:
                self.connect()
            self.go_on()
        except OSError as fault:
            self.fail(told(fault))

    def connect(self):
        """Begins a connection."""
        family, kind, protocol, _, address = self.addresses[self.place]
        made = socket.socket(family, kind | socket.SOCK_NONBLOCK, protocol)
        made.setsockopt(socket.IPPROTO_TCP, socket.TCP_NODELAY, 1)
        fault = made.connect_ex(address)
        if fault not in (0, errno.EINPROGRESS):
            made.close()
            raise OSError(fault, os.strerror(fault))
        self.socket, self.is_connected, self.events = made, False, select.EPOLLOUT
        self.loop.watch(made.fileno(), self.events, self.look)

    def look(self, events):
        try:
            reply = None
            if self.is_connected or self.has_connected():
                reply = self.received()
            if reply is None:
                self.go_on()
        except (OSError, ValueError) as fault:  # of the system, or of what isn't an answer
            self.fail(told(fault) if isinstance(fault, OSError) else UNREADABLE)
            return
        if reply is not None:
            self.is_answered(reply)

    def has_connected(self):
        """Whether the connection is there, and TLS with it."""
        fault = self.socket.getsockopt(socket.SOL_SOCKET, socket.SO_ERROR)
        if fault:
            raise OSError(fault, os.strerror(fault))
        if self.access.context is not None:
            if not isinstance(self.socket, ssl.SSLSocket):
                self.socket = self.access.context.wrap_socket(self.socket, server_hostname=self.endpoint.host,
                                                              do_handshake_on_connect=False)
            try:
                self.socket.do_handshake()
            except WOULD_BLOCK as wanted:
                self.watch(select.EPOLLOUT if isinstance(wanted, ssl.SSLWantWriteError) else select.EPOLLIN)
                return False
        self.is_connected = True
        return True

    def go_on(self):
        """Sends what waits, as far as it goes."""
        if not self.is_connected:
            return
        try:
            while self.unsent:
                self.unsent = self.unsent[self.socket.send(self.unsent):]
        except WOULD_BLOCK:
            pass
        self.watch(select.EPOLLIN | (select.EPOLLOUT if self.unsent else 0))

    def watch(self, events):
        if events != self.events:
            self.events = events
            self.loop.change(self.socket.fileno(), events)

    def received(self):
        """The answer, once it is whole."""
        while True:
            try:
                piece = self.socket.recv(limits.PIECE)
            except WOULD_BLOCK:
                return None
            if not piece:
                raise OSError(errno.ECONNRESET, "it ended the connection")
            if self.reply is None:
                raise ValueError
            if self.reply.take(piece):
                reply, self.reply = self.reply, None
                return reply

    def is_answered(self, reply):
        """An answer is whole: to the user's name, or to what was asked."""
        is_of_user = self.access.user is not None and self.token is None
        if reply.closes:
            self.close()
        if is_of_user and reply.status == 200:
            self.token = reply.found.get("token")
            if self.token:
                self.send()
            else:
                self.fail(UNREADABLE)
        elif not is_of_user and reply.is_of_nobody and self.access.user is not None:
            self.token = None
            self.send()
        elif reply.fault is not None:
            self.fail(*reply.fault)
        elif "header" not in reply.found:
            self.fail("it isn't a member of etcd")
        else:
            self.end(reply.found, None)

    def fail(self, words, is_refusal=False):
        """The call has a fault; the next one goes to the next member."""
        fault = Fault("%s: %s" % (self.endpoint, words), is_refusal)
        self.go_to_next()
        self.end(None, fault)

    def go_to_next(self):
        """The next call goes to the next member."""
        self.close()
        self.place = (self.place + 1) % len(self.access.endpoints)

    def end(self, found, fault):
        if self.then is not None:
            then, self.then = self.then, None
            self.timer.cancel()
            then(found, fault)

    def close(self):
        """Ends the connection; what was asked may be done all the same."""
        if self.socket is not None:
            self.loop.unwatch(self.socket.fileno())
            self.socket.close()
            self.socket = self.reply = None
            self.unsent, self.is_connected = b"", False
