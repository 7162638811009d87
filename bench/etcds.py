"""Members of etcd on this machine, for a front whose log is in a store: each a child, as a user without rights where this one is
root's, ended by its id. And a way to a member that can be cut."""
import base64
import contextlib
import http.client
import json
import os
import pathlib
import pwd
import random
import shutil
import signal
import socket
import ssl
import subprocess
import tempfile
import threading
import time

from tools.fronting.stored import Last

PROGRAM = shutil.which("etcd")
MISSING = "no etcd (Debian's etcd-server and etcd-client)"
MEMBERS, PORTS = 3, (20000, 32000)
USER = "nobody"
BEGIN_SECONDS = 60
PREFIX = "/soizkadur/001.01.8001.01/"  # of the MME that the tests' heads have
END = PREFIX[:-1] + "0"  # what comes after all that begins so


def free_port():
    """A port that nobody has, and no connection is given by itself, since a member that comes back has to find it free."""
    while True:
        port = random.SystemRandom().randrange(*PORTS)
        with contextlib.suppress(OSError), socket.create_server(("127.0.0.1", port), reuse_port=False):
            return port


def without_rights():
    """What has Popen run something as a user without rights."""
    if os.getuid():
        return {}
    entry = pwd.getpwnam(USER)
    return {"user": entry.pw_uid, "group": entry.pw_gid, "extra_groups": []}


class Members:
    """Members of a store, by their places from 0, until `after` ends; `words` are more of etcd's own, and `files` the file of its
    certificate and key, and that of who signed it."""

    def __init__(self, after, words=(), files=None, count=MEMBERS):
        self.folder = pathlib.Path(after.enter_context(tempfile.TemporaryDirectory()))
        rights = without_rights()
        if rights:
            os.chown(self.folder, rights["user"], rights["group"])
        self.kind, self.files, self.words = "https" if files else "http", files, list(words)
        ports = set()
        while len(ports) < 2 * count:
            ports.add(free_port())
        self.clients, self.peers = sorted(ports)[:count], sorted(ports)[count:]
        self.processes, self.paused = [None] * count, set()
        after.callback(self.close)
        for place in range(count):
            self.start(place, "new")
        self.is_there()

    def urls(self, ports=None):
        """Where they are, as --store has it."""
        return ",".join("%s://127.0.0.1:%d" % (self.kind, port) for port in ports or self.clients)

    def start(self, place, state="existing"):
        """Starts a member, with what it had."""
        client, peer = ("%s://127.0.0.1:%d" % (kind, port) for kind, port in
                        ((self.kind, self.clients[place]), ("http", self.peers[place])))
        all_of_them = ",".join("m%d=http://127.0.0.1:%d" % pair for pair in enumerate(self.peers))
        secret = ["--cert-file", self.files[0], "--key-file", self.files[0], "--trusted-ca-file", self.files[1],
                  "--client-cert-auth"] if self.files else []
        given = [PROGRAM, "--name", "m%d" % place, "--data-dir", self.folder / ("m%d" % place), "--listen-client-urls", client,
                 "--advertise-client-urls", client, "--listen-peer-urls", peer, "--initial-advertise-peer-urls", peer,
                 "--initial-cluster", all_of_them, "--initial-cluster-state", state, "--log-level", "error", *secret, *self.words]
        with open(self.folder / ("m%d.log" % place), "ab") as said:
            self.processes[place] = subprocess.Popen(list(map(str, given)), stdin=subprocess.DEVNULL, stdout=said, stderr=said,
                                                     cwd="/", **without_rights())

    def kill(self, place):
        self.processes[place].kill()
        self.processes[place].wait()

    def pause(self, place):
        """Pauses a member, unless it is paused: all of its threads have stopped then."""
        if place not in self.paused:
            self.processes[place].send_signal(signal.SIGSTOP)
            os.waitid(os.P_PID, self.processes[place].pid, os.WSTOPPED)
            self.paused.add(place)

    def wake(self, place):
        self.processes[place].send_signal(signal.SIGCONT)
        self.paused.discard(place)

    def close(self):
        for place, process in enumerate(self.processes):
            if process is not None:
                process.kill()
                process.wait()
            self.paused.discard(place)

    # What is asked of them.

    def asked(self, port, path, body=None, seconds=5):
        """What a member answers; without a body to GET."""
        if self.files:
            context = ssl.create_default_context(cafile=self.files[1])
            context.load_cert_chain(self.files[0])
            connection = http.client.HTTPSConnection("127.0.0.1", port, timeout=seconds, context=context)
        else:
            connection = http.client.HTTPConnection("127.0.0.1", port, timeout=seconds)
        with contextlib.closing(connection):
            connection.request("GET" if body is None else "POST", path, None if body is None else json.dumps(body))
            answer = connection.getresponse()
            found = json.loads(answer.read())
        if answer.status != 200:
            raise OSError(str(found))
        return found

    def ask(self, path, body):
        """What the first of them answers that can."""
        end = time.monotonic() + BEGIN_SECONDS
        while True:
            for place, port in enumerate(self.clients):
                try:
                    if place not in self.paused:
                        return self.asked(port, path, body)
                except (OSError, http.client.HTTPException):
                    pass
            assert time.monotonic() < end, "the store isn't there"
            time.sleep(0.05)

    def is_there(self):
        """Waits until all of them can write."""
        for port in self.clients:
            end = time.monotonic() + BEGIN_SECONDS
            while not self.is_well(port):
                assert time.monotonic() < end, self.said()
                time.sleep(0.05)

    def is_well(self, port):
        try:
            return self.asked(port, "/health")["health"] == "true"
        except (OSError, http.client.HTTPException):
            return False

    def said(self):
        return "\n".join(path.read_text(errors="replace")[-1000:] for path in sorted(self.folder.glob("*.log")))

    def values(self, kind, after=0):
        """The values below the MME's keys of a kind, by number, after one."""
        found, start = {}, b64(("%s%s/%016x" % (PREFIX, kind, after + 1)).encode())
        while True:
            page = self.ask("/v3/kv/range", {"key": start, "range_end": b64((PREFIX + kind + "0").encode()), "limit": 100})
            for kv in page.get("kvs", ()):
                key = base64.b64decode(kv["key"])
                found[int(key[-16:], 16)] = base64.b64decode(kv.get("value", ""))
            if not page.get("more"):
                return found
            start = b64(key + b"\0")

    def turns(self):
        """All turns, one after the other without a gap."""
        found = self.values("turn")
        assert sorted(found) == list(range(1, len(found) + 1)), sorted(found)
        return [found[number] for number in sorted(found)]

    def last(self):
        """The last turn, or nothing."""
        found = self.ask("/v3/kv/range", {"key": b64((PREFIX + "last").encode())}).get("kvs")
        return Last.read(base64.b64decode(found[0]["value"])) if found else None

    def octets(self):
        """How large the largest member's file is."""
        return max(int(self.asked(port, "/v3/maintenance/status", {})["dbSize"]) for port in self.clients)

    def forget(self):
        """Removes all that there is of the MME."""
        self.ask("/v3/kv/deleterange", {"key": b64(PREFIX.encode()), "range_end": b64(END.encode())})


def b64(octets):
    return base64.b64encode(octets).decode()


class Cutter:
    """A way to a member which is cut now and then: `cuts` is asked of each request, with its octets, and says whether nothing of it
    is to arrive, or its answer isn't."""

    WHOLE, LOST, UNANSWERED = range(3)

    def __init__(self, after, port, cuts):
        self.target, self.cuts, self.count = port, cuts, 0
        self.listener = after.enter_context(socket.create_server(("127.0.0.1", 0)))
        self.port = self.listener.getsockname()[1]
        threading.Thread(target=self.accept, daemon=True).start()

    def accept(self):
        while True:
            try:
                near, _ = self.listener.accept()
            except OSError:
                return
            threading.Thread(target=self.carry, args=(near,), daemon=True).start()

    def carry(self, near):
        """Carries requests and their answers, until one is cut."""
        with near, socket.create_connection(("127.0.0.1", self.target)) as far:
            while True:
                request = whole_message(near)
                how = self.cuts(request) if request else Cutter.LOST
                if how == Cutter.LOST:
                    self.count += bool(request)
                    return
                far.sendall(request)
                answer = whole_message(far)
                if how == Cutter.UNANSWERED:
                    self.count += 1
                    return
                near.sendall(answer)


def whole_message(connection):
    """A message by HTTP with its length in its head, or in chunks."""
    octets = b""
    try:
        while b"\r\n\r\n" not in octets:
            piece = connection.recv(1 << 16)
            if not piece:
                return b""
            octets += piece
        head, _, body = octets.partition(b"\r\n\r\n")
        fields = dict(line.lower().split(b": ", 1) for line in head.split(b"\r\n")[1:])
        while len(body) < int(fields.get(b"content-length", 0)) or b"chunked" in fields.get(b"transfer-encoding", b"") and not (
                body.endswith(b"0\r\n\r\n")):
            piece = connection.recv(1 << 16)
            if not piece:
                return b""
            body += piece
    except OSError:
        return b""
    return head + b"\r\n\r\n" + body
