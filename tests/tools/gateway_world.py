"""What gateway_inside.py has under a kernel with GTP-U: a machine with the front, the MME and the gateway, two stations, phones,
and the Internet, each in a network namespace of its own."""
import contextlib
import ctypes
import os
import pathlib
import re
import select
import signal
import socket
import struct
import subprocess
import sys
import tempfile
import threading
import time

from reference import lte, phones
from tests.tools import tools
from tools.fronting import sctp
from tools.tunnels import contexts, gtpu, links

PROGRAM = tools.TOP / "crates" / "mme" / "out" / "mme"
# The tools need nothing but Python's own library, and without looking for more they begin sooner.
FRONT, GATEWAY = ([sys.executable, "-S", tools.TOP / "tools" / name] for name in ("front", "gateway"))
FRONT_UNIT, GATEWAY_UNIT = (tools.TOP / "deploy" / ("%s@.service" % name) for name in ("soizkadur", "soizkadur-gateway"))
ADDRESS, INTERNET, PREFIX = "10.0.0.100", "198.51.100.2", "10.45.0.0/16"
OUTWARD = "198.51.100.1"  # the machine's address on the Internet's side
STATIONS = ("10.1.0.2", "10.2.0.2")
MACHINE, NET = "core", "net"
PATIENCE = 240  # seconds for what takes a moment where the machine has nothing else to do
QUIET = 0.2  # seconds in which what isn't to come would have come
LONG_TICK = "86400"  # so that no timer of the MME's ends but where a test has it
MODULES = ("drivers/net/veth", "drivers/net/tun", "drivers/net/gtp", "net/netfilter/nfnetlink", "net/netfilter/ipset/ip_set",
           "net/netfilter/ipset/ip_set_hash_ip", "net/sched/sch_ingress", "net/sched/cls_basic", "net/sched/em_ipset")
# What iptables needs of modules to translate addresses and to cut sizes of segments.
MODULES_OF_IPTABLES = (
    "net/ipv4/netfilter/nf_defrag_ipv4", "net/ipv6/netfilter/nf_defrag_ipv6", "net/netfilter/nf_conntrack", "net/netfilter/nf_nat",
    "net/netfilter/x_tables", "net/ipv4/netfilter/ip_tables", "net/ipv4/netfilter/iptable_nat",
    "net/ipv4/netfilter/iptable_mangle", "net/netfilter/xt_MASQUERADE", "net/netfilter/xt_TCPMSS", "net/netfilter/xt_tcpudp")
NEW_NETWORK = 0x40000000  # sched.h: CLONE_NEWNET
HERE = "/proc/thread-self/ns/net"  # the namespace of whoever opens it
LIBC = ctypes.CDLL(None, use_errno=True)
S1AP_PORT, S1AP = 36412, 18
PAGE, PAGE_OF_FRONT = 9200, 9100  # ports of the pages of the gateway and of the front


def capabilities_of(unit):
    """The capabilities that a unit's service may have, by their names."""
    return re.search("^CapabilityBoundingSet=(.*)$", unit.read_text(encoding="utf-8"), re.MULTILINE)[1].split()


def with_rights_of(unit):
    """How a command begins that has the capabilities of a unit's service, and none that the unit doesn't give."""
    kept = ["+" + name.removeprefix("CAP_").lower() for name in capabilities_of(unit)]
    return ["setpriv", "--no-new-privs", "--bounding-set=" + ",".join(["-all", *kept])]


def sh(text):
    subprocess.run(["sh", "-euc", text], check=True)


def load_modules(names=MODULES):
    folder = next(pathlib.Path("/usr/lib/uml/modules").glob("*/kernel"))
    sh("\n".join("insmod %s/%s.ko" % (folder, name) for name in names))


def switch(file):
    if LIBC.setns(file.fileno(), NEW_NETWORK):
        raise OSError(ctypes.get_errno(), "setns")


@contextlib.contextmanager
def inside(name):
    """What is made within it belongs to a namespace, by its name or its path."""
    with open(HERE, "rb") as home, open(os.path.join("/run/netns", name), "rb") as there:
        switch(there)
        try:
            yield
        finally:
            switch(home)


def add_unnamed():
    """A namespace without a name: its path, which lasts as long as this process."""
    with inside(HERE):
        if LIBC.unshare(NEW_NETWORK):
            raise OSError(ctypes.get_errno(), "unshare")
        return "/proc/%d/fd/%d" % (os.getpid(), os.open(HERE, os.O_RDONLY | os.O_CLOEXEC))


def add_namespace(name):
    sh("""ip netns add {0}; ip -n {0} link set lo up
    ip netns exec {0} sh -c 'echo none >/proc/sys/net/sctp/cookie_hmac_alg; echo 1 >/proc/sys/net/ipv6/conf/all/disable_ipv6
    echo 0 >/proc/sys/net/ipv4/conf/all/rp_filter; echo 0 >/proc/sys/net/ipv4/conf/default/rp_filter'""".format(name))


def lay():
    """The namespaces and the ways between them."""
    for name in (MACHINE, NET, "enb0", "enb1"):
        add_namespace(name)
    ends = [("s%d" % at, "enb%d" % at, "10.%d.0.1" % (at + 1), "10.%d.0.2" % (at + 1)) for at in range(2)]
    for device, name, ours, theirs in [*ends, ("sgi", NET, OUTWARD, INTERNET)]:
        sh("""ip -n {4} link add {0} type veth peer name way netns {1}
        ip -n {4} addr add {2}/24 dev {0}; ip -n {4} link set {0} up
        ip -n {1} addr add {3}/24 dev way; ip -n {1} link set way up; ip -n {1} route add default via {2}""".format(
            device, name, ours, theirs, MACHINE))
    sh("ip -n %s addr add %s/32 dev lo; ip netns exec %s sysctl -qw net.ipv4.ip_forward=1" % (MACHINE, ADDRESS, MACHINE))


def checksum(octets):
    total = sum(struct.unpack("!%dH" % (len(octets) // 2), octets))
    total = (total & 0xFFFF) + (total >> 16)
    return 0xFFFF - (total + (total >> 16) & 0xFFFF)


def packet(source, data=b"up", to=INTERNET, port=7):
    """A packet of IPv4 with a datagram of UDP."""
    head = bytearray(struct.pack("!BBHHHBBH", 0x45, 0, 28 + len(data), 1, 0, 64, 17, 0)
                     + socket.inet_aton(source) + socket.inet_aton(to))
    head[10:12] = struct.pack("!H", checksum(head))
    return bytes(head) + struct.pack("!HHHH", 9, port, 8 + len(data), 0) + data


def until(holds, words, seconds=PATIENCE):
    """Waits until something holds."""
    end = time.monotonic() + seconds
    while not (found := holds()):
        assert time.monotonic() < end, "not within %d s: %s" % (seconds, words() if callable(words) else words)
        time.sleep(0.005)
    return found


class Plane:
    """A station's user plane: it speaks GTP-U, and has phones by the TEIDs that it gave."""

    def __init__(self, number):
        self.address, self.phones, self.heard = STATIONS[number], {}, []
        with inside("enb%d" % number):
            self.socket = self.bound()
            self.stranger = socket.socket(socket.AF_INET, socket.SOCK_DGRAM)  # of the same address, by another port
            self.stranger.bind((self.address, 0))

    def bound(self):
        sock = socket.socket(socket.AF_INET, socket.SOCK_DGRAM)
        sock.setsockopt(socket.SOL_SOCKET, socket.SO_RCVBUF, 1 << 22)
        sock.bind((self.address, 2152))
        return sock

    def send(self, octets):
        self.socket.sendto(octets, (ADDRESS, 2152))

    def send_up(self, teid, inner):
        self.send(gtpu.packed(gtpu.PACKET, teid, inner))

    def take(self):
        """A message from the gateway."""
        octets, sender = self.socket.recvfrom(1 << 16)
        message = gtpu.read(octets)
        phone = self.phones.get(message.teid)
        if message.kind == gtpu.PACKET and phone is not None:
            os.write(phone.tun, message.body)
        else:
            self.heard.append((message.kind, message.teid, sender[0], message.body))

    def is_echoed(self, number):
        """Waits until the gateway has taken all that was sent to it before now, and answers an echo with this sequence number; by
        another port of the station's. The answer, and who gave it."""
        self.stranger.settimeout(PATIENCE)
        self.stranger.sendto(gtpu.packed(gtpu.ECHO_REQUEST, 0, b"", number.to_bytes(2, "big")), (ADDRESS, 2152))
        octets, sender = b"", None
        while octets[8:10] != number.to_bytes(2, "big"):
            octets, sender = self.stranger.recvfrom(100)
        return octets, sender

    def has_heard_all(self):
        """Waits until all that was sent to it before now is heard: an echo comes after it."""
        count = len(self.kinds(gtpu.ECHO_RESPONSE))
        self.send(gtpu.packed(gtpu.ECHO_REQUEST, 0, b"", b"\0\0"))
        until(lambda: len(self.kinds(gtpu.ECHO_RESPONSE)) > count, "an echo")

    def kinds(self, kind):
        return [each for each in list(self.heard) if each[0] == kind]


class Radio:
    """Has packets pass between stations and phones."""

    def __init__(self, planes):
        self.planes, self.phones, self.is_over = planes, [], False
        self.thread = threading.Thread(target=self.pump, daemon=True)
        self.thread.start()

    def pump(self):
        while not self.is_over:
            owners = {plane.socket.fileno(): plane.take for plane in self.planes}
            owners |= {phone.tun: phone.send_up for phone in list(self.phones)}
            for file in select.select(list(owners), [], [], 0.05)[0]:
                for _ in range(32):
                    if not self.take_one(owners[file], file):
                        break

    @staticmethod
    def take_one(take, file):
        take()
        return select.select([file], [], [], 0)[0]


class Live(phones.Trace):
    """A trace that is said to a front by SCTP, and whose answers are awaited and compared."""

    def __init__(self):
        super().__init__()
        self.sockets, self.unread = {}, {}

    def say(self, line):
        """What no station says is left to the front."""

    def hear(self, station, octets):
        information = struct.pack("=HHIIi", 0, 0, socket.htonl(S1AP), 0, 0)
        self.sockets[station.number].sendmsg([octets], [(socket.IPPROTO_SCTP, sctp.SEND_INFORMATION, information)])

    def owe(self, owner, station, octets):
        found = self.sockets[station.number].recv(1 << 16)
        assert found == octets, "%s is owed %s, and got %s" % (owner, octets.hex(), found.hex())

    def is_silent(self, number):
        return not select.select([self.sockets[number]], [], [], QUIET)[0]


class Phone(phones.Phone):
    """A phone whose packets go to the station that it is at, under the TEID that its line `sub` has."""

    def __init__(self, world, slot, vectors, ip=None, teid=None):
        super().__init__(world.live, slot, vectors=vectors)
        self.world, self.ip, self.own_teid, self.plane = world, ip or "10.45.0.%d" % (slot + 1), teid or 0x1A000001 + slot, None
        self.address, self.gateway = socket.inet_aton(self.ip), socket.inet_aton(ADDRESS)
        self.teid, self.name = self.own_teid.to_bytes(4, "big"), "phone%d" % slot
        add_namespace(self.name)
        with inside(self.name):
            self.tun = links.open_tun("ue")
        sh("ip -n {0} addr add {1}/32 dev ue; ip -n {0} link set ue mtu 1464 up; ip -n {0} route add default dev ue".format(
            self.name, self.ip))
        os.set_blocking(self.tun, False)

    def send_up(self):
        """What the phone sends goes to its station."""
        with contextlib.suppress(BlockingIOError):
            inner = os.read(self.tun, 1 << 16)
            if self.plane is not None:
                self.plane.send_up(self.own_teid, inner)

    def at(self, number, teid=None):
        """Its radio is at a station from now on, or at none; the TEID is what the station gave for it."""
        for plane in self.world.planes if number is None else ():
            plane.phones = {other: phone for other, phone in plane.phones.items() if phone is not self}
        if number is not None:
            self.world.planes[number].phones[teid] = self
        self.plane = None if number is None else self.world.planes[number]

    def joins(self, number, b):
        """A whole attach."""
        self.at(number, b)
        self.attaches(self.world.stations[number], b)
        self.world.is_tunnel(self, number, b)

    def leaves(self):
        """The station has it released."""
        self.is_released()
        self.at(None)
        self.world.is_tunnel(self, None)

    def returns(self, number, b):
        """It asks for service."""
        self.asks_for_service(self.world.stations[number], b)
        self.at(number, b)
        self.context_is_set_up()
        self.world.is_tunnel(self, number, b)

    def moves(self, number, b, is_there_before=False):
        """A path switch; the old station still has what is on its way. What the phone sends goes to the new one from then on, or
        already from before the request on."""
        self.world.planes[number].phones[b] = self
        if is_there_before:
            self.plane = self.world.planes[number]
        self.switches_path(self.world.stations[number], b)
        self.plane = self.world.planes[number]
        self.world.is_tunnel(self, number, b)


def made_vectors(slot, count):
    """Vectors of a phone's own."""
    return [phones.Vector.made("gateway %d.%d" % (slot, number)) for number in range(count)]


class Keeper:
    """In the service manager's place: begins the gateway with the unit's capabilities, hears that it is ready, and keeps its files
    while it is away."""

    def __init__(self, folder):
        self.path, self.files, self.process = str(folder / "notify"), {}, None
        self.is_ready, self.is_heard = threading.Event(), threading.Event()
        self.socket = socket.socket(socket.AF_UNIX, socket.SOCK_DGRAM)
        self.socket.bind(self.path)
        self.keeps, self.told = True, []
        threading.Thread(target=self.hear, daemon=True).start()

    def hear(self):
        while True:
            octets, files, _, _ = socket.recv_fds(self.socket, 4096, 8)
            words = dict(line.partition("=")[::2] for line in octets.decode().splitlines())
            if "FDSTORE" in words and self.keeps:
                self.files[words["FDNAME"]] = files[0]
            elif files:
                os.close(files[0])
            if "FDSTOREREMOVE" in words and words["FDNAME"] in self.files:
                os.close(self.files.pop(words["FDNAME"]))
            if "READY" in words:
                self.is_ready.set()
            if "HEARD" in words:
                self.is_heard.set()

    def start(self, *words):
        """Begins a gateway, with what was kept; it is ready then."""
        self.is_ready.clear()
        names = list(self.files)
        given = "exec %s\n" % " ".join("%d<&%d" % (3 + at, self.files[name]) for at, name in enumerate(names)) if names else ""
        command = ["ip", "netns", "exec", MACHINE, "bash", "-c", given + 'LISTEN_PID=$$ exec "$@"', "bash",
                   *with_rights_of(GATEWAY_UNIT), *GATEWAY, *words]
        self.process = subprocess.Popen(list(map(str, command)), stderr=subprocess.PIPE, pass_fds=list(self.files.values()), env={
            **os.environ, "NOTIFY_SOCKET": self.path, "LISTEN_FDS": str(len(names)), "LISTEN_FDNAMES": ":".join(names)})
        threading.Thread(target=self.read, args=(self.process,), daemon=True).start()
        assert self.is_ready.wait(PATIENCE), self.said()

    def read(self, process):
        for line in process.stderr:
            self.told.append(line.decode())

    def said(self):
        return "".join(self.told)

    def end(self, number):
        """Ends the gateway, and has heard then all that it told."""
        self.process.send_signal(number)
        status = self.process.wait(PATIENCE)
        self.is_heard.clear()
        with socket.socket(socket.AF_UNIX, socket.SOCK_DGRAM) as telling:
            telling.sendto(b"HEARD=1", self.path)
        assert self.is_heard.wait(PATIENCE)
        return status

    def forget(self):
        """A service manager that keeps nothing."""
        for file in self.files.values():
            os.close(file)
        self.files = {}


class World:
    """All of it: `stations` and `planes` are the two stations, `phones` the phones."""

    def __init__(self, phones_count=2, vectors=30):
        self.folder = pathlib.Path(tempfile.mkdtemp(dir="/run"))
        self.live, self.keeper = Live(), Keeper(self.folder)
        self.stations = [phones.Station(number, identity=number + 1) for number in range(2)]
        self.planes = [Plane(number) for number in range(2)]
        for station, plane in zip(self.stations, self.planes):
            station.address = socket.inet_aton(plane.address)
        self.phones = [Phone(self, slot, made_vectors(slot, vectors)) for slot in range(phones_count)]
        self.radio = Radio(self.planes)
        self.radio.phones = self.phones
        self.b = iter(range(1, 1 << 20))
        head = phones.Trace(self.live.network)
        head.provision(self.phones)
        self.subscribers, self.log, self.control = (self.folder / name for name in ("subscribers", "log", "log.control"))
        self.subscribers.write_text(head.text())
        self.front, self.front_told, self.contexts, self.routes = None, [], None, None

    def close(self):
        """Ends all of it, and leaves the stations' namespaces."""
        self.radio.is_over = True
        self.radio.thread.join()
        for process in (self.keeper.process, self.front):
            if process is not None and process.poll() is None:
                process.kill()
                process.wait()
        self.keeper.forget()
        with inside(MACHINE):
            names = [name for _, name in socket.if_nameindex() if name.startswith("mme-")]
        sh("\n".join("ip -n %s link del %s" % (MACHINE, name) for name in names))
        for made in [*self.live.sockets.values(), *(sock for plane in self.planes for sock in (plane.socket, plane.stranger))]:
            made.close()
        for phone in self.phones:
            os.close(phone.tun)
            sh("ip netns del " + phone.name)

    def further(self):
        """One more phone, and its lines in the head of a trace."""
        phone = Phone(self, len(self.phones), made_vectors(len(self.phones), 4))
        self.phones.append(phone)
        head = phones.Trace(self.live.network)
        head.provision([phone])
        return phone, "".join(line + "\n" for line in head.lines[1:]).encode()

    # The front.

    def begin_front(self, *words):
        given = ["run", self.subscribers, self.log, "--listen", ADDRESS, "--mme", PROGRAM, "--per-address", "8", "--second",
                 LONG_TICK, "--setup-seconds", "86400", "--answer-seconds", "600", "--sync", "no",
                 "--page", "127.0.0.1:%d" % PAGE_OF_FRONT, *words]
        command = ["ip", "netns", "exec", MACHINE, *with_rights_of(FRONT_UNIT), *FRONT, *map(str, given)]
        self.front = subprocess.Popen(command, stderr=subprocess.PIPE, text=True)
        for line in self.front.stderr:
            self.front_told.append(line)
            if "ready: stations" in line:
                break
        assert self.front.poll() is None, "".join(self.front_told)
        threading.Thread(target=lambda process: self.front_told.extend(process.stderr), args=(self.front,), daemon=True).start()

    def end_front(self, number):
        self.front.send_signal(number)
        self.front.wait(PATIENCE)
        for made in self.live.sockets.values():
            made.close()
        self.live.sockets.clear()

    def join(self, number):
        """A station connects and sets up."""
        with inside("enb%d" % number):
            made = socket.socket(socket.AF_INET, socket.SOCK_STREAM, socket.IPPROTO_SCTP)
        made.settimeout(PATIENCE)
        made.setsockopt(socket.IPPROTO_SCTP, sctp.NODELAY, 1)
        made.connect((ADDRESS, S1AP_PORT))
        self.live.sockets[number] = made
        self.live.set_up(self.stations[number])

    def leave(self, number):
        """A station's connection is aborted."""
        made = self.live.sockets.pop(number)
        made.setsockopt(socket.SOL_SOCKET, socket.SO_LINGER, struct.pack("ii", 1, 0))
        made.close()

    def ask(self, *words):
        """What the front answers to a line."""
        with socket.socket(socket.AF_UNIX) as asking:
            asking.settimeout(PATIENCE)
            asking.connect(str(self.control))
            asking.sendall(" ".join(words).encode() + b"\n")
            return asking.makefile("rb").readline().decode().strip()

    # The gateway.

    def begin_gateway(self, *words):
        self.keeper.start(self.control, ADDRESS, PREFIX, "--page", "127.0.0.1:%d" % PAGE, *words)
        until(lambda: "the front tells of" in self.keeper.said(), self.keeper.said)

    def end_gateway(self, number=signal.SIGKILL):
        """Ends it; what it said is forgotten."""
        status = self.keeper.end(number)
        self.keeper.told.clear()
        return status

    def fetch(self, target, port=PAGE):
        """What the gateway's page answers, or that of the front."""
        with inside(MACHINE):
            asking = socket.create_connection(("127.0.0.1", port), PATIENCE)
        with asking:
            asking.sendall(b"GET %s HTTP/1.1\r\nHost: localhost\r\n\r\n" % target.encode())
            return asking.makefile("rb").read().decode()

    def metric(self, name):
        """The sum of a metric whose name and labels have these words."""
        lines = [line for line in self.fetch("/metrics").splitlines() if line.startswith("soizkadur_gateway_" + name)]
        return sum(float(line.rpartition(" ")[2]) for line in lines)

    def dropped(self, why):
        return self.metric("dropped_total{way=\"from stations\",why=\"%s\"" % why)

    def is_tunnel(self, phone, number, b=None):
        """Waits until the kernel has a phone's tunnel lead to a station under a TEID, and the phone's packets to it, or has none."""
        wanted = [] if number is None else [(STATIONS[number], b)]
        until(lambda: self.tunnels_of(phone) == wanted and self.is_routed(phone), lambda: "%s isn't %s\n%s" % (
            self.tunnels_of(phone), wanted, self.keeper.said()))

    def contexts_of(self, phone):
        """The kernel's contexts of a phone."""
        if self.contexts is None:
            with inside(MACHINE):
                self.contexts, self.routes = contexts.Contexts(), links.Links()
        return [each for each in self.contexts.all() if each.phone == phone.address]

    def tunnels_of(self, phone):
        """Where they lead to."""
        return [(socket.inet_ntoa(each.station), each.station_teid) for each in self.contexts_of(phone)]

    def is_routed(self, phone):
        """Whether packets to a phone come to the device of each of its contexts."""
        devices = {each.device for each in self.contexts_of(phone)}
        return devices == {index for address, index in self.routes.routes_to(devices) if address == phone.address}
