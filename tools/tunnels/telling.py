"""What the gateway tells the front of phones' packets, by the word `traffic` of its control socket, when the front asks for it
(fronting/traffic.py)."""
import json
import select
import socket

from tools.tunnels import limits

WANTED, ALL = "wanted", "*"


def counted(gateway, traffic, wanted):
    """The gateway's counters, with those of these phones; or, for all, of those that had packets."""
    traffic.read()
    by_imsi, rooms = gateway.phones.by_imsi, {"an idle phone": gateway.idle, "a tunnel": gateway.early}
    waiting = {name: [len(room), room.octets] for name, room in rooms.items()}
    dropped = {way: {} for way, _ in gateway.drops}
    for (way, why), count in gateway.drops.items():
        dropped[way][why] = count
    rows = {imsi: [*traffic.of(by_imsi[imsi]), by_imsi[imsi].dropped, gateway.idle.count(by_imsi[imsi])]
            for imsi in (by_imsi if ALL in wanted else wanted) if imsi in by_imsi}
    if ALL in wanted:
        rows = dict([(imsi, row) for imsi, row in rows.items() if any(row)][:limits.MOST_METERED])
    return {"address": gateway.devices.address, "network": str(gateway.devices.network), "contexts": len(gateway.phones.by_end),
            "stations": len(gateway.devices.of_station), "waiting": waiting, "dropped": dropped,
            "passed": traffic.sums(), "phones": rows}


class Telling:
    """A connection to the front, which is made again where it ends. The gateway tells at first, and then each time that it is
    asked."""

    def __init__(self, loop, path, voice, gateway, traffic):
        self.loop, self.path, self.voice, self.gateway, self.traffic = loop, path, voice, gateway, traffic
        self.socket, self.received, self.unsent = None, b"", b""
        self.connect()

    def connect(self):
        """Tries the front, until it is there."""
        self.received, self.unsent = b"", b""
        made = socket.socket(socket.AF_UNIX)
        made.setblocking(False)
        try:
            made.connect(self.path)
        except OSError:
            made.close()
            self.loop.after(limits.RETRY_SECONDS, self.connect)
            return
        self.socket = made
        self.loop.watch(made.fileno(), select.EPOLLIN, self.look)
        self.tell(())

    def look(self, events):
        if events & select.EPOLLOUT:
            self.send()
        if self.socket is not None and events & ~select.EPOLLOUT:
            self.read()

    def read(self):
        try:
            piece = self.socket.recv(limits.FRONT_PIECE)
        except BlockingIOError:
            return
        except OSError:
            piece = b""
        *lines, self.received = (self.received + piece).split(b"\n")
        if not piece or len(self.received) > limits.LONGEST_WANTED:
            self.end(limits.RETRY_SECONDS)
            return
        for line in lines:
            if self.socket is not None:
                self.take(line.decode("latin-1"))

    def take(self, line):
        """What the front asks; where it doesn't take what was told, it is tried again later."""
        word, *imsis = line.split(" ")
        if word == WANTED:
            self.tell(imsis)
        else:
            self.voice.say("refused", "the front: " + line)
            self.end(limits.REFUSED_SECONDS)

    def tell(self, imsis):
        """Tells the counters, with those of these phones."""
        octets = json.dumps(counted(self.gateway, self.traffic, imsis)).encode()
        self.unsent += b"traffic %d\n" % len(octets) + octets
        self.send()

    def send(self):
        """Sends what waits, as far as it goes."""
        try:
            self.unsent = self.unsent[self.socket.send(self.unsent):]
        except BlockingIOError:
            pass
        except OSError:
            self.end(limits.RETRY_SECONDS)
            return
        self.loop.change(self.socket.fileno(), select.EPOLLIN | (select.EPOLLOUT if self.unsent else 0))

    def end(self, seconds):
        """The connection is over; another one is tried after a while."""
        if self.socket is not None:
            self.loop.unwatch(self.socket.fileno())
            self.socket.close()
            self.socket = None
            self.loop.after(seconds, self.connect)
