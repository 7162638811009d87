"""Contexts of the kernel's GTP-U driver (linux/gtp.h): of each its device, a phone's address, its station, and the TEIDs of both
ends."""
import itertools
import struct
import typing

from tools.tunnels.netlink import ACK, DUMP, EXCL, GENERIC, HEADER, REQUEST, Netlink, attributes, text

CONTROLLER, GET_FAMILY, FAMILY_ID, FAMILY_NAME = 16, 3, 1, 2  # linux/genetlink.h
NEW, DELETE, GET = 0, 1, 2
LINK, VERSION, STATION, PHONE, OWN_TEID, STATION_TEID = 1, 2, 4, 5, 8, 9
V1 = 1
SIZE = 8  # octets of an attribute that is a number or an address, with its head
# Requests whole, each with what it has of a context: the device, the version and our TEID, and a new one the rest.
TAKEN = struct.Struct(HEADER.format + "BBHHHIHHIHHI")
MADE = struct.Struct(TAKEN.format + "HH4sHH4sHHI")


class Context(typing.NamedTuple):
    """What the driver knows of a tunnel; addresses are octets."""
    device: int
    phone: bytes
    own_teid: int
    station: bytes
    station_teid: int


def head(command):
    return struct.pack("=BBH", command, 0, 0)


class Contexts:
    """The contexts of all devices."""

    def __init__(self):
        self.netlink = Netlink(GENERIC)
        [found] = self.netlink.dump("GTP-U (on Linux: modprobe gtp)", CONTROLLER, head(GET_FAMILY) + text(FAMILY_NAME, "gtp"), ACK)
        self.family = struct.unpack("=H", attributes(found, 4)[FAMILY_ID])[0]

    def made(self, context):
        """The request for a context."""
        device, phone, own, station, other = context
        return MADE.pack(
            MADE.size, self.family, REQUEST | EXCL, self.netlink.number(), 0, NEW, 0, 0, SIZE, LINK, device, SIZE, VERSION, V1,
            SIZE, OWN_TEID, own, SIZE, STATION, station, SIZE, PHONE, phone, SIZE, STATION_TEID, other)

    def taken(self, device, teid):
        """The request that a context goes."""
        return TAKEN.pack(TAKEN.size, self.family, REQUEST, self.netlink.number(), 0, DELETE, 0, 0, SIZE, LINK, device,
                          SIZE, VERSION, V1, SIZE, OWN_TEID, teid)

    def add(self, contexts):
        """Makes contexts; the errors in their order."""
        return self.netlink.send(map(self.made, contexts))

    def delete(self, pairs):
        """Takes the contexts of these devices and TEIDs of ours; the errors in their order."""
        return self.netlink.send(itertools.starmap(self.taken, pairs))

    def all(self):
        """Each context that there is."""
        for octets in self.netlink.dump("the contexts of GTP-U", self.family, head(GET), DUMP):
            told = attributes(octets, 4)
            if OWN_TEID in told:
                device, own, other = (struct.unpack("=I", told[kind])[0] for kind in (LINK, OWN_TEID, STATION_TEID))
                yield Context(device, told[PHONE], own, told[STATION], other)

    def close(self):
        self.netlink.close()
