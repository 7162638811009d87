"""Devices and routes of the kernel: the device of GTP-U, the one that has what goes to idle phones, and which packets go where."""
import errno
import fcntl
import os
import socket
import struct

from tools.tunnels.netlink import CREATE, EXCL, HEADER, REPLACE, REQUEST, ROUTE, Netlink, Refused, attribute, attributes, is_missing
from tools.tunnels.netlink import nested, text

NEW_LINK, DELETE_LINK, NEW_ROUTE, DELETE_ROUTE, GET_ROUTES = 16, 17, 24, 25, 26
NAME, MTU, LINK_INFO, INFO_KIND, INFO_DATA = 3, 4, 18, 1, 2  # attributes of a link (linux/if_link.h)
GTP_SOCKET, GTP_SIZE, GTP_ROLE, GGSN = 2, 3, 4, 0  # of a device of GTP-U
DESTINATION, DEVICE, PRIORITY = 1, 4, 6  # attributes of a route (linux/rtnetlink.h)
MAIN, OWN_PROTOCOL, ANYWHERE, ON_LINK, UNICAST, UNREACHABLE = 254, 71, 0, 253, 1, 7
LAST_RESORT = 4096  # the metric of what holds where no device is there
UP = 1
SET_TUN, TUN, NO_INFORMATION = 0x400454CA, 1, 0x1000  # linux/if_tun.h
DEVICE_OF_TUNS = "/dev/net/tun"
IPV4, NOWHERE = int(socket.AF_INET), (ANYWHERE, UNREACHABLE, PRIORITY, LAST_RESORT)
# A request about a route whole: what it leads to, its network, and its device or its metric.
ROUTE_TO = struct.Struct(HEADER.format + "BBBBBBBBIHH4sHHI")
HASH_SIZE = 1 << 12  # lists that a device's contexts are in
LONGEST_PACKET = 1500 - 20 - 8 - 8  # octets of a phone's packet, which has headers of IP, UDP and GTP-U before it on its way
HOST = 32  # bits of a network that is one address


def open_tun(name):
    """The device of this name, whose packets are read and written as a file."""
    file = os.open(DEVICE_OF_TUNS, os.O_RDWR | os.O_NONBLOCK | os.O_CLOEXEC)
    try:
        fcntl.ioctl(file, SET_TUN, struct.pack("16sH22x", name.encode(), TUN | NO_INFORMATION))
    except OSError:
        os.close(file)
        raise
    return file


def index_of(name):
    """A device's number; nothing where there is none."""
    try:
        return socket.if_nametoindex(name)
    except OSError:
        return None


class Links:
    """The kernel's devices and routes, as they are changed."""

    def __init__(self):
        self.netlink = Netlink(ROUTE)

    @staticmethod
    def head(index=0, flags=0, change=0):
        return struct.pack("=BxHiII", 0, 0, index, flags, change)

    def make_gtp(self, name, sock):
        """A device of GTP-U with a socket of ours: what it has no context for comes to that socket."""
        numbers = ((GTP_SOCKET, sock.fileno()), (GTP_SIZE, HASH_SIZE), (GTP_ROLE, GGSN))
        data = nested(INFO_DATA, *(attribute(kind, struct.pack("=I", number)) for kind, number in numbers))
        body = self.head() + text(NAME, name) + nested(LINK_INFO, text(INFO_KIND, "gtp"), data)
        try:
            self.netlink.ask("the device %s of GTP-U" % name, NEW_LINK, body, CREATE | EXCL)
        except Refused as fault:
            if fault.number == errno.EOPNOTSUPP:
                raise Refused("no GTP-U here (on Linux: modprobe gtp)", fault.number) from None
            raise
        return index_of(name)

    def bring_up(self, index):
        """A device is up from now on, for packets of phones."""
        self.netlink.ask("a device", NEW_LINK, self.head(index, UP, UP) + attribute(MTU, struct.pack("=I", LONGEST_PACKET)))

    def remove(self, index):
        """A device goes, where it is there."""
        [number] = self.netlink.send([self.netlink.message(DELETE_LINK, self.head(index))])
        if number and not is_missing(number):
            raise Refused("the removal of a device", number)

    def route(self, kind, flags, network, length, index):
        """A request about the route to a network that has so many bits: to a device, or nowhere."""
        scope, way, last, number = NOWHERE if index is None else (ON_LINK, UNICAST, DEVICE, index)
        return ROUTE_TO.pack(ROUTE_TO.size, kind, REQUEST | flags, self.netlink.number(), 0, IPV4, length, 0, 0, MAIN, OWN_PROTOCOL,
                             scope, way, 0, 8, DESTINATION, network, 8, last, number)

    def add(self, routes):
        """Adds routes, each of a network, its length, and a device or nothing; the errors in their order."""
        return self.netlink.send([self.route(NEW_ROUTE, CREATE | EXCL, *each) for each in routes])

    def replace(self, routes):
        """Routes that there are lead to these devices from now on."""
        return self.netlink.send([self.route(NEW_ROUTE, CREATE | REPLACE, *each) for each in routes])

    def delete(self, routes):
        return self.netlink.send([self.route(DELETE_ROUTE, 0, *each) for each in routes])

    def routes_to(self, indices):
        """The addresses that have routes of their own to these devices, each with its device."""
        found = set()
        for octets in self.netlink.dump("the routes", GET_ROUTES, struct.pack("=BBBBBBBBI", socket.AF_INET, *7 * [0], 0)):
            told = attributes(octets, 12)
            if octets[1] == HOST and DESTINATION in told and DEVICE in told:
                [index] = struct.unpack("=I", told[DEVICE])
                if index in indices:
                    found.add((told[DESTINATION], index))
        return found

    def close(self):
        self.netlink.close()
