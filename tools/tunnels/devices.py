"""The devices that phones' packets pass: one of GTP-U for each station that has phones, and one that has what goes to idle phones.

The driver looks for a packet's TEID among the contexts of the device whose socket it came to, and the socket is found by the sender
(sockets.py). So a packet is taken from the station alone that its tunnel leads to; what else comes is looked at by the gateway.
A station's device stays when its last phone has gone, and serves another station where no further one may be made.
"""
import ipaddress
import os
import socket

from tools.tunnels import links, limits, sockets
from tools.tunnels.contexts import Contexts
from tools.tunnels.counters import Counters
from tools.tunnels.links import Links, index_of
from tools.tunnels.netlink import Refused, is_there_already

OTHERS, IDLE = "others", "idle"  # the names of what is kept: the socket of whoever has no device, and the device of idle phones
LOCK = "\0soizkadur gateway %s"  # a name that one process of a network has, for an address and for the name of devices each


class Device:
    """A device of GTP-U, its socket, the station that it is for, and how many phones are there."""

    def __init__(self, name, sock, index):
        self.name, self.socket, self.index, self.station, self.phones = name, sock, index, None, 0


class Devices:
    """All devices; `watch` is called with each file that something may come to."""

    def __init__(self, base, address, network, kept, watch):
        self.base, self.address, self.network, self.kept, self.watch = base, address, network, kept, watch
        self.prefix = network.network_address.packed, network.prefixlen
        self.links, self.contexts, self.counters = Links(), Contexts(), Counters(base)
        self.all, self.of_station, self.locks = [], {}, []
        self.others = self.idle = self.idle_index = None

    def name_of(self, number):
        return "%s-%d" % (self.base, number)

    # The beginning and the end.

    def begin(self):
        """Takes up what was kept, and removes what another run has left; the contexts that stand."""
        self.lock()
        kept = self.kept.take(OTHERS)
        if kept is None:
            self.kept.close()
        try:
            self.counters.begin()
            self.begin_sockets(kept)
            self.begin_idle()
        except (Refused, OSError):
            if kept is None:
                self.remove()
            raise
        self.kept.close()
        found = list(self.contexts.all())
        self.assign_found(found)
        return [context for context in found if context.device in self.by_index()]

    def begin_sockets(self, kept):
        """The socket that was kept for others, and those of stations; a new one where none was."""
        self.others = sockets.made(self.address) if kept is None else socket.socket(fileno=kept)
        self.others.setblocking(False)
        self.watch(self.others)
        while kept is not None and (file := self.kept.take(self.name_of(len(self.all) + 1))) is not None:
            self.take_up(socket.socket(fileno=file))
        self.remove_left(kept is None)
        if kept is None:
            self.kept.keep(OTHERS, self.others.fileno())

    def lock(self):
        """Keeps a second gateway from this address, which it might bind, and from these devices."""
        for name in (self.address, self.base):
            lock = socket.socket(socket.AF_UNIX)
            self.locks.append(lock)
            try:
                lock.bind(LOCK % name)
            except OSError as fault:
                raise Refused("another gateway runs for %s" % name, fault.errno) from None

    def remove_left(self, with_idle):
        """Removes devices of another run whose sockets weren't kept, as they take nothing any more; that of idle phones if it is asked."""
        for index, name in socket.if_nameindex():
            base, _, place = name.rpartition("-")
            if base == self.base and (place.isdigit() and index not in self.by_index() or place == IDLE and with_idle):
                self.links.remove(index)

    def take_up(self, sock):
        """A socket that was kept, with its device, which is made again where somebody removed it."""
        sock.setblocking(False)
        name = self.name_of(len(self.all) + 1)
        index = index_of(name)
        self.add(name, sock, self.make(name, sock) if index is None else index)

    def begin_idle(self):
        """The device of idle phones, with the route to all phones that have no other."""
        name, kept = "%s-%s" % (self.base, IDLE), self.kept.take(IDLE)
        self.idle = links.open_tun(name) if kept is None else kept
        os.set_blocking(self.idle, False)
        self.idle_index = index_of(name)
        if kept is None:
            self.kept.keep(IDLE, self.idle)
            self.links.bring_up(self.idle_index)
        for index in (self.idle_index, None):
            [number] = self.links.add([(*self.prefix, index)])
            if number and not (is_there_already(number) and (index is None or kept is not None)):
                raise Refused("a route to %s" % self.network, number)

    def assign_found(self, contexts):
        """Each device is for the station that its contexts lead to."""
        by_index = self.by_index()
        for context in contexts:
            device = by_index.get(context.device)
            if device is not None and device.station is None:
                self.assign(device, str(ipaddress.IPv4Address(context.station)))
        self.direct()

    def by_index(self):
        return {device.index: device for device in self.all}

    def remove(self):
        """All goes that was made, as it does in order."""
        self.links.delete([(*self.prefix, None)])
        for device in self.all:
            self.links.remove(device.index)
            self.kept.forget(device.name)
            device.socket.close()
        for name in (OTHERS, IDLE):
            self.kept.forget(name)
        if self.others is not None:
            self.others.close()
        if self.idle is not None:
            os.close(self.idle)
        self.counters.remove()

    def close(self):
        for part in (self.links, self.contexts, self.counters, *self.locks):
            part.close()

    # Stations.

    def is_station(self, address):
        """Whether a station may be at an address: a host's, and neither the gateway's own nor a phone's."""
        is_host = not (address.is_multicast or address.is_unspecified or address.is_loopback or address.is_reserved)
        return is_host and str(address) != self.address and address not in self.network

    def make(self, name, sock):
        """A device for a socket, whose packets are counted; nothing is left of one that can't be made."""
        index = self.links.make_gtp(name, sock)
        try:
            self.links.bring_up(index)
            self.counters.watch(index)
        except Refused:
            self.links.remove(index)
            raise
        return index

    def add(self, name, sock, index):
        device = Device(name, sock, index)
        self.all.append(device)
        self.watch(sock)
        return device

    def of(self, station, taken):
        """The device of a station, a new one where there is none, none of those that are taken; nothing where there are too
        many."""
        device = self.of_station.get(station)
        if device is None:
            device = self.free(taken)
            if device is None:
                return None
            self.assign(device, station)
            self.direct()
        return device

    def free(self, taken):
        """A device without a station, or with one that has no phone; a new one where more may be made."""
        if len(self.all) < limits.MOST_STATIONS:
            name = self.name_of(len(self.all) + 1)
            sock = sockets.made(self.address)
            try:
                index = self.make(name, sock)
            except Refused:
                sock.close()  # the last of its group, so the others' places stay
                raise
            self.kept.keep(name, sock.fileno())
            return self.add(name, sock, index)
        return next((device for device in self.all if not device.phones and device not in taken), None)

    def assign(self, device, station):
        """A device is for a station from now on."""
        self.of_station.pop(device.station, None)
        device.station, self.of_station[station] = station, device

    def direct(self):
        """The kernel's program has each station's packets come to its device."""
        sockets.direct(self.others, {device.station: place for place, device in enumerate(self.all, 1) if device.station})
