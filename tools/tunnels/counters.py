"""Packets and octets by phone, which the driver of GTP-U doesn't count: the kernel has a set of the phones' addresses for each
direction, which counts by address (ipset(8)), and each device looks what passes up in it (tc-ematch(8)). All passes."""
import errno
import socket
import struct

from tools.tunnels.netlink import ACK, CREATE, DUMP, EXCL, NESTED, NETFILTER, ROUTE, Netlink, Refused, attribute, attributes
from tools.tunnels.netlink import each_attribute, nested, text

SUBSYSTEM, PROTOCOL_VERSION, REVISION = 6, 7, 4  # linux/netfilter/ipset/ip_set.h
MAKE, DESTROY, LIST, ADD, DELETE, INDEX_OF = 2, 3, 7, 9, 10, 14
PROTOCOL, NAME, TYPE, TYPE_REVISION, FAMILY, DATA, ENTRIES, LINE, INDEX = 1, 2, 3, 4, 5, 7, 8, 9, 11
IP, IPV4, FLAGS, MOST, OCTETS, PACKETS = 1, 1, 8, 19, 24, 25
IN_ORDER = 0x4000  # of an attribute: its number is in the network's order
COUNTS = 8  # the flag of a set that counts
NEW_QDISC, NEW_FILTER = 36, 44  # linux/rtnetlink.h
KIND, OPTIONS, MATCHES, TREE, LISTED = 1, 2, 2, 1, 2  # of a filter, and of what it matches
HANDLE, BOTH_WAYS, COMING, GOING = 0xFFFF0000, 0xFFFFFFF1, 0xFFFFFFF2, 0xFFFFFFF3  # linux/pkt_sched.h: clsact
IP_PACKETS, FIRST_RULE = 0x0800, 1 << 16
IN_SET, BY_SOURCE, BY_DESTINATION = 8, 2, 0  # linux/pkt_cls.h, linux/netfilter/ipset/ip_set.h
MOST_PHONES = 1 << 16
PIECE = 500  # phones of a message
ENTRY = struct.Struct("=HHHHIHHHH4s")  # one of them
UP, DOWN = "up", "down"


def big(kind, value):
    return attribute(kind | IN_ORDER, struct.pack(">I", value))


def entry(line, octets):
    """A phone's address as a request has it, with its place there."""
    return ENTRY.pack(ENTRY.size, DATA | NESTED, 8, LINE | IN_ORDER, socket.htonl(line),
                      12, IP | NESTED, 8, IPV4 | IN_ORDER, octets)


class Counters:
    """The counters of the phones of a gateway's devices."""

    def __init__(self, name):
        self.netlink, self.links = Netlink(NETFILTER), Netlink(ROUTE)
        self.names = {way: "%s-%s" % (name, way) for way in (UP, DOWN)}
        self.indices = {}

    def body(self, *parts):
        return struct.pack(">BBH", socket.AF_INET, 0, 0) + attribute(PROTOCOL, bytes([PROTOCOL_VERSION])) + b"".join(parts)

    def ask(self, kind, *parts, flags=0):
        """What one request fails for, or 0."""
        [number] = self.netlink.send([self.netlink.message(SUBSYSTEM << 8 | kind, self.body(*parts), flags)])
        return number

    def begin(self):
        """Both sets are there, and empty where they weren't."""
        for way, name in self.names.items():
            number = self.ask(MAKE, text(NAME, name), text(TYPE, "hash:ip"), attribute(TYPE_REVISION, bytes([REVISION])),
                              attribute(FAMILY, bytes([socket.AF_INET])), nested(DATA, big(FLAGS, COUNTS), big(MOST, MOST_PHONES)),
                              flags=CREATE | EXCL)
            if number not in (0, errno.EEXIST):
                raise Refused("the set %s of phones (on Linux: modprobe ip_set_hash_ip)" % name, number)
            [found] = self.netlink.dump("the set " + name, SUBSYSTEM << 8 | INDEX_OF, self.body(text(NAME, name)), ACK)
            self.indices[way] = struct.unpack(">H", attributes(found, 4)[INDEX])[0]

    def watch(self, index):
        """What passes a device is counted from now on."""
        self.links.ask("a device's counters (on Linux: modprobe sch_ingress)", NEW_QDISC,
                       struct.pack("=BxxxiIII", 0, index, HANDLE, BOTH_WAYS, 0) + text(KIND, "clsact"), CREATE)
        for way, parent, side in ((UP, COMING, BY_SOURCE), (DOWN, GOING, BY_DESTINATION)):
            match = struct.pack("=HHHHHBB", 0, IN_SET, 0, 0, self.indices[way], 1, side)
            tree = nested(MATCHES, attribute(TREE, struct.pack("=HH", 1, 0)), nested(LISTED, attribute(1, match)))
            rule = struct.pack("=BxxxiIII", 0, index, 0, parent, FIRST_RULE | socket.htons(IP_PACKETS))
            self.links.ask("a device's counters (on Linux: modprobe cls_basic em_ipset)", NEW_FILTER,
                           rule + text(KIND, "basic") + nested(OPTIONS, tree), CREATE | EXCL)

    def put(self, kind, addresses):
        pieces = [nested(ENTRIES, *map(entry, range(1, PIECE + 1), addresses[at:at + PIECE]))
                  for at in range(0, len(addresses), PIECE)]
        for name in self.names.values():
            for number in self.netlink.send([self.netlink.message(
                    SUBSYSTEM << 8 | kind, self.body(text(NAME, name), big(LINE, 0), piece)) for piece in pieces]):
                if number:
                    raise Refused("phones in the set %s" % name, number)

    def add(self, addresses):
        """There are further phones; of those that are counted already nothing changes."""
        self.put(ADD, addresses)

    def delete(self, addresses):
        self.put(DELETE, addresses)

    def read(self, way):
        """The packets and octets of each phone that had any, by its address."""
        found = {}
        body = self.body(text(NAME, self.names[way]))
        for octets in self.netlink.dump("the counters", SUBSYSTEM << 8 | LIST, body, DUMP | ACK):
            for _, entry in each_attribute(attributes(octets, 4).get(ENTRIES, b"")):
                told = attributes(entry)
                [packets] = struct.unpack(">Q", told[PACKETS])
                if packets:
                    found[attributes(told[IP])[IPV4]] = packets, struct.unpack(">Q", told[OCTETS])[0]
        return found

    def remove(self):
        """The sets go, where they are there."""
        for name in self.names.values():
            self.ask(DESTROY, text(NAME, name))

    def close(self):
        self.netlink.close()
        self.links.close()
