"""tools/gateway without a kernel: what it reads, what it decides, what it hands out, and what it refuses."""
import concurrent.futures
import contextlib
import errno
import io
import ipaddress
import os
import random
import re
import socket
import struct
import subprocess
import sys
import tempfile
import threading
import time
import unittest
import unittest.mock

from tests.tools import tools
from tools import runs
from tools.fronting import limits as fronting_limits
from tools.fronting import saying, traffic
from tools.fronting.loop import Loop
from tools.tunnels import (asking, command, contexts, counters, feed, gateway, given, gtpu, kept, limits, links, netlink, page, phones,
                           sockets, telling)
from tools.tunnels.contexts import Context
from tools.tunnels.devices import Device, Devices

ADDRESS, NETWORK = "10.0.0.100", ipaddress.IPv4Network("10.45.0.0/16")
STATION, ANOTHER, STRANGER = "10.1.0.2", "10.2.0.2", "10.3.0.2"
IMSI, OTHER = "001010000000001", "001010000000002"
IP, OTHER_IP, TEID, OTHER_TEID = "10.45.0.1", "10.45.0.2", 0x1A000001, 0x1A000002
INTERNET = "198.51.100.2"
GATEWAY = tools.TOP / "tools" / "gateway"
MUTATIONS = 10000


def packet(source, to=INTERNET, data=b"data"):
    """A packet of IPv4, with as much of its header as is looked at."""
    return b"\x45" + bytes(11) + socket.inet_aton(source) + socket.inet_aton(to) + data


def ran(*words):
    """A gateway that begins by these words and doesn't come to run, without a process of its own: its status, what it prints, and
    what it says."""
    reading, writing = os.pipe()
    place, before, printed, text = saying.PLACE, sys.argv, io.StringIO(), io.StringIO()
    saying.PLACE, sys.argv = writing, ["gateway", *map(str, words)]
    try:
        with contextlib.redirect_stdout(printed), contextlib.redirect_stderr(text):
            status = command.main("")
    except SystemExit as end:
        status = end.code
    finally:
        saying.PLACE, sys.argv = place, before
        os.close(writing)
    with os.fdopen(reading) as told:
        return status, printed.getvalue(), text.getvalue() + told.read()


class Voice:
    def __init__(self):
        self.said = []

    def say(self, event, text, **fields):
        self.said.append((event, text))


class Kernel:
    """In the kernel's place: what is asked of it, in its order, and what each of it fails for."""

    def __init__(self):
        self.acts, self.faults, self.routes, self.counted = [], {}, set(), {"up": {}, "down": {}}
        self.index = 10
        self.contexts = unittest.mock.Mock(add=self.noting("add context"), delete=self.noting("delete context"))
        self.links = unittest.mock.Mock(
            add=self.noting("add route"), delete=self.noting("delete route"), replace=self.noting("replace route"),
            routes_to=lambda indices: self.routes)
        self.counters = unittest.mock.Mock(
            add=lambda addresses: self.acts.append(("count", addresses)), read=lambda way: self.counted[way],
            delete=lambda addresses: self.acts.append(("count no more", addresses)))

    def noting(self, what):
        def act(items):
            self.acts += [(what, item) for item in items]
            return [self.faults.get(what, 0)] * len(items)
        return act


class Fixed(Devices):
    """Devices over that kernel; what they send is kept."""

    def __init__(self, kernel):
        self.base, self.address, self.network = "mme", ADDRESS, NETWORK
        self.kernel, self.links, self.contexts, self.counters = kernel, kernel.links, kernel.contexts, kernel.counters
        self.all, self.of_station, self.sent, self.places = [], {}, [], None
        self.inside, self.outside = socket.socketpair(socket.AF_UNIX, socket.SOCK_DGRAM)
        self.inside.setblocking(False)
        self.outside.setblocking(False)
        self.idle, self.others = self.inside.fileno(), self

    def sendto(self, octets, place):
        self.sent.append((gtpu.read(octets), place))
        self.kernel.acts.append(("send", gtpu.read(octets).kind))

    def free(self, taken):
        if len(self.all) < limits.MOST_STATIONS:
            self.all.append(Device("mme-%d" % (1 + len(self.all)), None, self.kernel.index + len(self.all)))
            return self.all[-1]
        return super().free(taken)

    def direct(self):
        self.places = {device.station: place for place, device in enumerate(self.all, 1) if device.station}

    def from_idle(self):
        """The packets that the kernel is to forward."""
        found = []
        with contextlib.suppress(BlockingIOError):
            while True:
                found.append(self.outside.recv(1 << 16))
        return found


class Case(unittest.TestCase):
    def setUp(self):
        self.kernel, self.voice, self.now = Kernel(), Voice(), 1000.0
        self.devices = Fixed(self.kernel)
        self.addCleanup(self.devices.inside.close)
        self.addCleanup(self.devices.outside.close)
        self.gateway = gateway.Gateway(self.devices, phones.Phones(ADDRESS, NETWORK), self.voice)
        self.gateway.asking = unittest.mock.Mock()
        self.enterContext(unittest.mock.patch.object(gateway.time, "monotonic", lambda: self.now))
        self.subscribers = [(IMSI, IP, ADDRESS, TEID), (OTHER, OTHER_IP, ADDRESS, OTHER_TEID)]

    def begin(self, **tunnels):
        self.gateway.take_all(self.subscribers, {IMSI: phones.Tunnel(STATION, 7)} | tunnels)
        self.phone = self.gateway.phones.by_imsi[IMSI]
        self.kernel.acts.clear()

    def acts(self):
        acts, self.kernel.acts[:] = list(self.kernel.acts), []
        return acts

    def station(self, octets, sender=STATION):
        """A datagram of a station."""
        sock = unittest.mock.Mock()
        sock.recvfrom = unittest.mock.Mock(side_effect=[(octets, (sender, 3333)), BlockingIOError])
        self.gateway.look_at_socket(sock)

    def drops(self):
        return dict(self.gateway.drops)


class Tunnels(Case):
    """What the kernel is asked for, in which order."""

    CONTEXT = Context(10, socket.inet_aton(IP), TEID, socket.inet_aton(STATION), 7)
    ROUTE = (socket.inet_aton(IP), 32, 10)

    def test_comes_and_goes(self):
        self.gateway.take_all(self.subscribers, {IMSI: phones.Tunnel(STATION, 7)})
        self.assertEqual(self.acts(), [("count", [socket.inet_aton(IP), socket.inet_aton(OTHER_IP)]),
                                       ("add context", self.CONTEXT), ("add route", self.ROUTE)])
        self.assertEqual(self.devices.places, {STATION: 1})
        self.gateway.change({IMSI: phones.Tunnel(STATION, 7)})
        self.assertEqual(self.acts(), [])
        self.gateway.change({IMSI: None, "001010000000003": None})
        self.assertEqual(self.acts(), [("delete route", self.ROUTE), ("delete context", (10, TEID))])
        self.assertEqual(self.devices.all[0].phones, 0)

    def test_moves(self):
        """The new context is there before the route leads to its device; the old one goes after its end marker."""
        self.begin()
        self.gateway.change({IMSI: phones.Tunnel(ANOTHER, 8)})
        self.assertEqual(self.acts(), [
            ("add context", Context(11, socket.inet_aton(IP), TEID, socket.inet_aton(ANOTHER), 8)),
            ("replace route", (socket.inet_aton(IP), 32, 11)), ("send", gtpu.END_MARKER), ("delete context", (10, TEID))])
        message, place = self.devices.sent[-1]
        self.assertEqual((message.teid, place), (7, (STATION, 2152)))
        self.assertEqual([device.phones for device in self.devices.all], [0, 1])

    def test_changes_at_its_station(self):
        """A device has one context of a phone: what comes in between waits."""
        self.begin()
        self.gateway.change({IMSI: phones.Tunnel(STATION, 8)})
        self.assertEqual(self.acts(), [
            ("delete route", self.ROUTE), ("delete context", (10, TEID)), ("send", gtpu.END_MARKER),
            ("add context", self.CONTEXT._replace(station_teid=8)), ("add route", self.ROUTE)])

    def test_what_the_kernel_refuses(self):
        """Is said and counted, and the phone has no tunnel: not the old one either."""
        self.begin()
        self.kernel.faults["add context"] = errno.EEXIST
        self.gateway.change({IMSI: phones.Tunnel(ANOTHER, 8)})
        self.assertEqual([what for what, _ in self.acts()], ["add context", "delete route", "delete context"])
        self.assertIsNone(self.phone.tunnel)
        self.assertEqual(self.gateway.counts["refused by the kernel"], 1)
        self.assertEqual(self.voice.said[-1], ("kernel", "the kernel refuses a context: File exists"))

    def test_too_many_stations(self):
        """A device whose phones have gone serves another station; where all have some, there is no tunnel, and it is said."""
        with unittest.mock.patch.object(limits, "MOST_STATIONS", 2):
            self.begin(**{OTHER: phones.Tunnel(ANOTHER, 9)})
            self.gateway.change({IMSI: phones.Tunnel(STRANGER, 8)})
            self.assertIsNone(self.phone.tunnel)
            self.assertIn("2 stations have some already", self.voice.said[-1][1])
            self.gateway.change({IMSI: phones.Tunnel(STRANGER, 8)})
            self.assertEqual(self.phone.tunnel, phones.Tunnel(STRANGER, 8))
            self.assertEqual(self.devices.places, {STRANGER: 1, ANOTHER: 2})

    def test_no_station(self):
        """What a station says may be any address: those that are nobody's, the gateway's or a phone's make no tunnel."""
        self.begin(**{IMSI: None})
        for address in ("0.0.0.0", "127.0.0.1", "224.0.0.1", "255.255.255.255", "240.0.0.1", ADDRESS, OTHER_IP):
            self.gateway.change({IMSI: phones.Tunnel(address, 1)})
            self.assertIsNone(self.phone.tunnel)
            self.assertEqual(self.voice.said[-1][1], "%s has no tunnel: %s is no station's address" % (IMSI, address))
        self.assertEqual((self.devices.all, self.gateway.counts["tunnels refused"]), ([], 7))

    def test_no_device(self):
        """One that can't be made: there is no tunnel, and it is said."""
        self.begin(**{IMSI: None})
        self.devices.free = unittest.mock.Mock(side_effect=netlink.Refused("a device", errno.ENOMEM))
        self.gateway.change({IMSI: phones.Tunnel(STATION, 1)})
        self.assertIsNone(self.phone.tunnel)
        self.assertEqual(self.voice.said[-1][1], IMSI + " has no tunnel: a device: Cannot allocate memory")

    def test_one_device_for_one_station(self):
        """Two that come together at two new stations don't get one device that has no phone yet."""
        with unittest.mock.patch.object(limits, "MOST_STATIONS", 1):
            self.begin(**{IMSI: None})
            self.gateway.change({IMSI: phones.Tunnel(STATION, 1), OTHER: phones.Tunnel(ANOTHER, 2)})
            self.assertEqual([phone.tunnel for phone in self.gateway.phones.by_imsi.values()], [phones.Tunnel(STATION, 1), None])

    def test_whose_phones(self):
        """Those of another gateway are its own; of others it is said why they have no tunnels."""
        self.subscribers += [("001010000000003", "10.45.0.3", "10.0.0.101", 3), ("001010000000004", "10.46.0.1", ADDRESS, 4),
                             ("001010000000005", "10.45.0.5", ADDRESS, 0), ("001010000000006", "10.45.0.6", ADDRESS, TEID),
                             ("001010000000007", IP, ADDRESS, 7)]
        self.begin()
        self.assertEqual(list(self.gateway.phones.by_imsi), [IMSI, OTHER])
        self.assertEqual([text for _, text in self.voice.said], [
            "001010000000004 has no tunnels here: its address 10.46.0.1 isn't in 10.45.0.0/16",
            "001010000000005 has no tunnels here: its TEID is 0",
            "001010000000006 has no tunnels here: its TEID is that of " + IMSI,
            "001010000000007 has no tunnels here: its address is that of another"])

    def test_other_subscribers(self):
        """A front that begins with others: the tunnels of those who aren't there go, and those who stay keep theirs."""
        self.begin(**{OTHER: phones.Tunnel(ANOTHER, 9)})
        self.gateway.take_all([(OTHER, OTHER_IP, ADDRESS, OTHER_TEID), ("001010000000008", IP, ADDRESS, 8)],
                              {OTHER: phones.Tunnel(ANOTHER, 9)})
        self.assertEqual(self.acts(), [
            ("delete route", self.ROUTE), ("delete context", (10, TEID)),
            ("count no more", [socket.inet_aton(IP)]), ("count", [socket.inet_aton(IP)])])
        self.assertEqual(set(self.gateway.phones.by_imsi), {OTHER, "001010000000008"})

    def test_adopted(self):
        """What stood in the kernel before: what is right stays untouched, and all else goes or is mended."""
        device = self.devices.of(STATION, set())
        right = self.CONTEXT
        stray = Context(10, socket.inet_aton("10.45.0.77"), 77, socket.inet_aton(STATION), 5)
        self.gateway.found = [right, stray, Context(10, socket.inet_aton(OTHER_IP), OTHER_TEID, socket.inet_aton(STATION), 6)]
        self.kernel.routes = {(socket.inet_aton(IP), 10), (socket.inet_aton("10.45.0.77"), 10)}
        self.gateway.take_all(self.subscribers, {IMSI: phones.Tunnel(STATION, 7)})
        acts = [(what, item) for what, item in self.acts() if not what.startswith("count")]
        self.assertEqual(acts, [
            ("delete route", (socket.inet_aton("10.45.0.77"), 32, 10)), ("delete context", (10, 77)),
            ("add route", (socket.inet_aton(OTHER_IP), 32, 10)),
            ("delete route", (socket.inet_aton(OTHER_IP), 32, 10)), ("delete context", (10, OTHER_TEID))])
        self.assertEqual(device.phones, 1)


    def test_adopted_within_a_switch(self):
        """A gateway that was killed within a path switch leaves two contexts of a phone: one of them stays, whichever is wanted."""
        for wanted, device in ((phones.Tunnel(STATION, 7), 10), (phones.Tunnel(ANOTHER, 8), 11)):
            self.setUp()
            for station in (STATION, ANOTHER):
                self.devices.of(station, set())
            both = [self.CONTEXT, Context(11, socket.inet_aton(IP), TEID, socket.inet_aton(ANOTHER), 8)]
            self.gateway.found, self.kernel.routes = list(both), {(socket.inet_aton(IP), 11)}
            self.gateway.take_all(self.subscribers, {IMSI: wanted})
            there = set(both)
            for what, item in self.acts():
                if what == "add context":
                    self.assertNotIn((item.device, item.own_teid), {(each.device, each.own_teid) for each in there})
                    there.add(item)
                elif what == "delete context":
                    there = {each for each in there if (each.device, each.own_teid) != item}
            self.assertEqual([(each.device, each.station_teid) for each in there], [(device, wanted.teid)])
            self.assertEqual([each.phones for each in self.devices.all], [device == 10, device == 11])


class Idle(Case):
    """Packets to phones without a tunnel."""

    def setUp(self):
        super().setUp()
        self.begin(**{IMSI: None})
        self.gateway.asking.page.return_value = True

    def comes(self, *packets):
        for each in packets:
            self.devices.outside.send(each)
        self.gateway.look_at_idle()

    def test_waits(self):
        """In their order; they go once the phone has a tunnel, to its station under its TEID."""
        self.comes(packet(INTERNET, IP, b"one"), packet(INTERNET, IP, b"two"))
        self.gateway.asking.page.assert_called_once_with(IMSI)
        self.gateway.change({IMSI: phones.Tunnel(STATION, 9)})
        self.assertEqual([(message.kind, message.teid, message.body[20:], place) for message, place in self.devices.sent], [
            (gtpu.PACKET, 9, text, (STATION, 2152)) for text in (b"one", b"two")])
        self.assertEqual([what for what, _ in self.acts()], ["add context", "send", "send", "add route"])
        self.comes(packet(INTERNET, IP, b"three"))  # on its way before the route was there
        self.assertEqual(self.devices.sent[-1][0].body[20:], b"three")

    def test_limits(self):
        """16 of a phone, the last that came; 15 seconds."""
        self.comes(*(packet(INTERNET, IP, b"%d" % number) for number in range(20)))
        self.assertEqual(self.drops(), {("to phones", "more than 16 waited"): 4})
        self.now += 14.9
        self.gateway.sweep()
        self.assertEqual(self.gateway.idle.count(self.phone), 16)
        self.now += 0.2
        self.gateway.sweep()
        self.assertEqual(self.drops(), {("to phones", "more than 16 waited"): 4, ("to phones", "waited for 15 s"): 16})
        self.assertEqual((len(self.gateway.idle), self.gateway.idle.octets, self.phone.dropped), (0, 0, 20))

    def test_room_for_all(self):
        """4 MiB: what comes when it is full is dropped, and room that was given back is used again."""
        many = [("%015d" % number, "10.45.%d.%d" % divmod(number, 256), ADDRESS, number) for number in range(1000, 1400)]
        self.gateway.add(many)
        long = packet(INTERNET, IP, bytes(1380))
        for _, address, _, _ in many:
            for _ in range(16):
                self.comes(long[:16] + socket.inet_aton(address) + long[20:])
        self.assertEqual(self.gateway.idle.octets // len(long), (4 << 20) // len(long))
        self.assertEqual(self.drops()["to phones", "no room is left"], 400 * 16 - (4 << 20) // len(long))
        self.gateway.idle.forget(self.gateway.phones.by_imsi[many[0][0]], "gone")
        self.comes(long)
        self.assertEqual(self.gateway.idle.count(self.phone), 1)

    def test_paged_again(self):
        """Every 5 seconds while something waits, and not in between."""
        self.comes(packet(INTERNET, IP))
        for seconds, pages in ((1, 1), (3.9, 1), (0.2, 2), (4.9, 2), (0.2, 3), (5, 3)):
            self.now += seconds
            self.comes(packet(INTERNET, IP)) if pages == 1 else None
            self.gateway.sweep()
            self.assertEqual(self.gateway.asking.page.call_count, pages, self.now)
        self.now += 20
        self.gateway.sweep()
        self.assertEqual(self.gateway.asking.page.call_count, 3)

    def test_paged_once_it_came(self):
        """A phone that came and went within these 5 seconds is paged at once."""
        self.comes(packet(INTERNET, IP))
        self.gateway.change({IMSI: phones.Tunnel(STATION, 9)})
        self.gateway.change({IMSI: None})
        self.comes(packet(INTERNET, IP))
        self.assertEqual(self.gateway.asking.page.call_count, 2)

    def test_not_registered(self):
        """What waits for such a phone is dropped; one that is paged, or is about to have a tunnel, keeps it."""
        self.comes(packet(INTERNET, IP))
        for states in ("REGISTERED IDLE ACTIVE", "COMMON-PROCEDURE-INITIATED CONNECTED INACTIVE",
                       "DEREGISTERED-INITIATED CONNECTED ACTIVE"):
            self.gateway.hear_states(IMSI, states)
            self.assertEqual(self.gateway.idle.count(self.phone), 1)
        self.gateway.hear_states("001010000000009", "DEREGISTERED IDLE INACTIVE")
        self.gateway.hear_states(IMSI, "DEREGISTERED IDLE INACTIVE")
        self.assertEqual(self.drops(), {("to phones", "the phone isn't registered"): 1})

    def test_nobodys(self):
        """To an address that no phone has, or no packet of IPv4: dropped and counted."""
        self.comes(packet(INTERNET, "10.45.9.9"), b"\x60" + bytes(60), b"\x45", b"")
        self.assertEqual(self.drops(), {("to phones", "nobody's address"): 1, ("to phones", "not IPv4"): 3})

    def test_before_the_front_tells(self):
        """What comes stays where it is until it is known whose it is: it is looked at from then on."""
        other, begun = gateway.Gateway(self.devices, phones.Phones(ADDRESS, NETWORK), self.voice), []
        other.when_known = lambda: begun.append(other.is_known)
        for _ in range(2):
            other.take_all(self.subscribers, {})
        self.assertEqual(begun, [True])


class Stations(Case):
    """What the driver leaves."""

    def setUp(self):
        super().setUp()
        self.begin()

    def test_packet(self):
        """One of the phone's own tunnel goes on, and is counted."""
        self.station(gtpu.packed(gtpu.PACKET, TEID, packet(IP)))
        self.assertEqual(self.devices.from_idle(), [packet(IP)])
        self.assertEqual((self.phone.up, self.drops()), ([1, len(packet(IP))], {}))

    def test_wrong_source(self):
        self.station(gtpu.packed(gtpu.PACKET, TEID, packet(OTHER_IP)))
        self.station(gtpu.packed(gtpu.PACKET, TEID, b"\x60" + bytes(40)))
        self.assertEqual(self.devices.from_idle(), [])
        self.assertEqual(self.drops(), {("from stations", "wrong source"): 1, ("from stations", "not IPv4"): 1})

    def test_another_sender(self):
        """Waits a second for its tunnel; without one it is dropped, counted, and not answered."""
        self.station(gtpu.packed(gtpu.PACKET, TEID, packet(IP)), STRANGER)
        self.now += 1.1
        self.gateway.sweep()
        self.assertEqual(self.devices.from_idle(), [])
        self.assertEqual((self.drops(), self.devices.sent), ({("from stations", "another sender"): 1}, []))
        self.assertEqual(self.phone.dropped, 1)

    def test_early(self):
        """From the station that the phone moves to: it goes on once the path is switched, and that of others doesn't."""
        self.station(gtpu.packed(gtpu.PACKET, TEID, packet(IP, data=b"early")), ANOTHER)
        self.station(gtpu.packed(gtpu.PACKET, TEID, packet(IP, data=b"stranger")), STRANGER)
        self.gateway.change({IMSI: phones.Tunnel(ANOTHER, 9)})
        self.assertEqual(self.devices.from_idle(), [packet(IP, data=b"early")])
        self.now += 1.1
        self.gateway.sweep()
        self.assertEqual(self.drops(), {("from stations", "another sender"): 1})

    def test_late(self):
        """From the station that the phone came from: for a second, unless it was released meanwhile."""
        late = gtpu.packed(gtpu.PACKET, TEID, packet(IP, data=b"late"))
        self.station(late, ANOTHER)
        self.gateway.change({IMSI: phones.Tunnel(ANOTHER, 9)})
        self.station(late)
        self.assertEqual(self.devices.from_idle(), 2 * [packet(IP, data=b"late")])
        self.now += 1
        self.station(late)
        self.assertEqual(self.devices.from_idle(), [])
        self.now += 1.1
        self.gateway.sweep()
        self.gateway.change({IMSI: phones.Tunnel(STATION, 10)})
        self.gateway.change({IMSI: None})
        for tunnel in (None, phones.Tunnel(STRANGER, 11)):
            self.gateway.change({IMSI: tunnel})
            self.station(late, ANOTHER)
            self.assertEqual(self.devices.from_idle(), [])

    def test_no_tunnel(self):
        """An idle phone's TEID: after a second the sender is told that there is no tunnel."""
        self.gateway.change({IMSI: None})
        self.station(gtpu.packed(gtpu.PACKET, TEID, packet(IP)))
        self.assertEqual(self.devices.sent, [])
        self.now += 1.1
        self.gateway.sweep()
        [(message, place)] = self.devices.sent
        self.assertEqual((message.kind, place), (gtpu.ERROR_INDICATION, (STATION, 2152)))
        self.assertEqual(gtpu.end_of(message.body), (TEID, ADDRESS))
        self.assertEqual(self.drops(), {("from stations", "no tunnel"): 1})

    def test_unknown(self):
        """Each is counted; of a flood a hundred a second are answered, and none before it is known whose phones there are."""
        for _ in range(1000):
            self.station(gtpu.packed(gtpu.PACKET, 99, packet(IP)))
        self.assertEqual(self.drops(), {("from stations", "unknown TEID"): 1000})
        self.assertEqual(len(self.devices.sent), limits.ERRORS_A_SECOND)
        self.now += 5
        self.gateway.is_known = False
        self.station(gtpu.packed(gtpu.PACKET, 99, packet(IP)))
        self.assertEqual(len(self.devices.sent), limits.ERRORS_A_SECOND)

    def test_echo(self):
        self.station(gtpu.packed(gtpu.ECHO_REQUEST, 0, b"", b"\x01\x02"))
        [(message, place)] = self.devices.sent
        self.assertEqual((message, place), (gtpu.Message(gtpu.ECHO_RESPONSE, 0, b"\x01\x02", b"\x0e\0"), (STATION, 3333)))

    def test_error_indication(self):
        """The phone is released, once in a while; of another tunnel, or from another place, it is counted."""
        for sender, teid, address in ((STATION, 8, STATION), (ANOTHER, 7, ANOTHER), (STATION, 7, ANOTHER)):
            self.station(gtpu.error_indication(teid, address), sender)
        self.assertEqual(self.drops(), {("from stations", "an error indication of no tunnel"): 3})
        self.gateway.asking.release.assert_not_called()
        for _ in range(5):
            self.station(gtpu.error_indication(7, STATION))
        self.gateway.asking.release.assert_called_once_with(IMSI, phones.Tunnel(STATION, 7))
        self.now += 6
        self.station(gtpu.error_indication(7, STATION))
        self.assertEqual(self.gateway.asking.release.call_count, 2)

    def test_other_types(self):
        for kind, name in ((gtpu.END_MARKER, "end marker"), (gtpu.ECHO_RESPONSE, "echo response"), (77, "another type"),
                           (gtpu.EXTENSIONS, "supported extension headers")):
            self.station(gtpu.packed(kind, TEID))
            self.assertEqual(self.gateway.drops["from stations", name], 1)

    def test_mutations(self):
        """Cut and changed messages: each is counted, or is one that the gateway knows; nothing ends."""
        chance = random.Random(1)
        inner = packet(IP)
        whole = [gtpu.packed(gtpu.PACKET, TEID, inner), gtpu.packed(gtpu.ECHO_REQUEST, 0, b"", b"\0\1"),
                 gtpu.error_indication(7, STATION), gtpu.packed(gtpu.PACKET, OTHER_TEID, inner),
                 struct.pack(">BBHI", 0x34, 255, 8 + len(inner), TEID) + b"\0\0\0\xc0\1\0\1\0" + inner]
        self.gateway.asking.release.return_value = True
        for _ in range(MUTATIONS):
            octets = bytearray(chance.choice(whole))
            octets = octets[:chance.randrange(len(octets) + 1)] if chance.random() < 0.5 else octets
            for _ in range(chance.randrange(3) if octets else 0):
                octets[chance.randrange(len(octets))] = chance.randrange(256)
            self.station(bytes(octets), chance.choice((STATION, ANOTHER)))
            self.devices.from_idle()
        self.now += 2
        self.gateway.sweep()
        counted = sum(self.gateway.drops.values()) + self.phone.up[0] + sum(
            self.gateway.counts[name] for name in ("echo requests", "error indications"))
        self.assertEqual(counted, MUTATIONS)


class Messages(unittest.TestCase):
    """GTP-U, by octets that were put together by hand from TS 29.281."""

    def test_read(self):
        """Without more, with a sequence number, an N-PDU number, and two extension headers of 4 and 8 octets."""
        for text, body in (("30ff0004" "00000007" "aabbccdd", "aabbccdd"),
                           ("32ff0008" "00000007" "1234" "0000" "aabbccdd", "aabbccdd"),
                           ("31ff0004" "00000007" "00000900", ""),
                           ("34ff0014" "00000007" "00000085" "02" "000000000000" "c0" "01" "0005" "00" "aabbccdd", "aabbccdd")):
            message = gtpu.read(bytes.fromhex(text))
            self.assertEqual((message.kind, message.teid, message.body.hex()), (255, 7, body))
        self.assertEqual(gtpu.read(bytes.fromhex("3201000400000000" "abcd0000")).sequence.hex(), "abcd")

    def test_unreadable(self):
        for text, why in (("", "a header that is cut"), ("30ff0000000000", "a header that is cut"),
                          ("30ff000100000007", "a message that is cut"), ("32ff000300000007123400", "a header that is cut"),
                          ("10ff000000000007", "another version or protocol"), ("20ff000000000007", "another version or protocol"),
                          ("50ff000000000007", "another version or protocol"),
                          ("34ff000400000007000000c0", "an extension header that is cut"),
                          ("34ff000800000007000000c000000000", "an extension header that is cut"),
                          ("34ff000800000007000000c002000000", "an extension header that is cut")):
            with self.subTest(text), self.assertRaisesRegex(gtpu.Unreadable, why):
                gtpu.read(bytes.fromhex(text))

    def test_written(self):
        self.assertEqual(gtpu.packed(254, 7).hex(), "30fe000000000007")
        self.assertEqual(gtpu.packed(255, 7, b"\xaa").hex(), "30ff000100000007aa")
        self.assertEqual(gtpu.echo_response(b"\x12\x34").hex(), "32020006000000001234" "0000" "0e00")
        self.assertEqual(gtpu.error_indication(7, "192.0.2.1").hex(),
                         "321a0010" "00000000" "00000000" "1000000007" "850004c0000201")

    def test_end_of(self):
        """The tunnel of an error indication, whatever stands around it."""
        for text, end in (("1000000007" "850004c0000201", (7, "192.0.2.1")),
                          ("0e05" "1000000007" "850004c0000201" "ff0002abcd", (7, "192.0.2.1")),
                          ("1000000007" "850010" + 32 * "0", (7, None))):
            self.assertEqual(gtpu.end_of(bytes.fromhex(text)), end)
        for text in ("", "10000000", "1000000007", "850004c0000201", "1000000007" "850005c0000201", "0101"):
            with self.subTest(text), self.assertRaises(gtpu.Unreadable):
                gtpu.end_of(bytes.fromhex(text))

    def test_program(self):
        """What the kernel runs of each sender: its station's place, and that of others for all else."""
        places = {"10.1.0.%d" % number: number for number in range(1, 200)}
        octets = sockets.program(places)
        self.assertLessEqual(len(octets) // 8, 4096)  # linux/bpf_common.h: BPF_MAXINSNS

        def run(sender):
            at, value = 0, None
            while True:
                code, if_so, if_not, number = struct.unpack_from("=HBBI", octets, 8 * at)
                if code == 0x06:
                    return number
                if code == 0x20:
                    self.assertEqual(number, 0xFFF0000C)
                    value = int.from_bytes(socket.inet_aton(sender), "big")
                at += 1 + (0 if code == 0x20 else if_so if value == number else if_not)

        for sender, place in places.items():
            self.assertEqual(run(sender), place)
        for sender in ("10.1.0.200", "10.1.1.1", "0.0.0.0", "255.255.255.255"):
            self.assertEqual(run(sender), 0)


class AskedOfKernel(unittest.TestCase):
    """Requests to the kernel and its answers, as netlink(7) has them: it answers a request that fails, and one that asks for it."""

    def setUp(self):
        self.faults, self.writes, self.answers, self.reads = {}, [], [], 0
        with unittest.mock.patch.object(netlink.socket, "socket", return_value=self):
            self.netlink = netlink.Netlink(netlink.ROUTE)
        self.message = self.netlink.message

    # In the socket's place.

    def setsockopt(self, *words):
        pass

    def bind(self, place):
        pass

    def send(self, octets):
        """Takes requests that have their place among all as their body."""
        at, self.writes = 0, [*self.writes, []]
        while at < len(octets):
            size, _, flags, number, _, place = struct.unpack_from("=IHHIII", octets, at)
            self.writes[-1].append(flags)
            if place in self.faults or flags & 4:
                self.answers.append(struct.pack("=IHHIIi16x", 36, 2, 0x100, number, 0, -self.faults.get(place, 0)))
            at += size

    def recv(self, most):
        self.reads += 1
        if not self.answers:
            raise BlockingIOError
        return self.answers.pop(0)

    def sent(self, count):
        return self.netlink.send([self.message(24, struct.pack("=I", place)) for place in range(count)])

    def test_faults(self):
        """Each request is told its own; of 50 in a write one asks for an answer, so few are read."""
        self.faults = {3: errno.EEXIST, 48: errno.ENODEV, 49: errno.EEXIST, 119: errno.ENOENT}
        found = self.sent(120)
        self.assertEqual({place: fault for place, fault in enumerate(found) if fault}, self.faults)
        self.assertEqual(([len(flags) for flags in self.writes], len(found)), ([50, 50, 20], 120))
        for flags in self.writes:
            self.assertEqual(set(flags[:-1]) | {flags[-1] & ~4}, {1})
        self.assertEqual(self.reads, 5)
        self.faults = {}
        self.assertEqual((self.sent(51), self.reads, self.answers), ([0] * 51, 7, []))
        self.assertEqual(self.netlink.send([]), [])

    def test_late(self):
        """An answer to what was asked before is none to this."""
        self.answers.append(struct.pack("=IHHIIi16x", 36, 2, 0, 99, 0, -errno.EPERM))
        self.netlink.sequence = 200
        self.assertEqual(self.sent(2), [0, 0])

    def test_many(self):
        """Numbers of requests begin again where no further one has room."""
        self.netlink.sequence = (1 << 32) - 2
        self.faults = {2: errno.EEXIST}
        self.assertEqual(self.sent(4), [0, 0, errno.EEXIST, 0])

    def test_no_answer(self):
        with unittest.mock.patch.object(self, "send"), self.assertRaisesRegex(OSError, "the kernel hasn't answered for 20 s"):
            self.sent(1)

    def test_answers(self):
        """Of one size, with longer ones among them, and others than answers."""
        plain, done = (struct.pack("=IHHIIi16x", 36, 2, 0, number, 0, fault) for number, fault in ((1, -17), (2, 0)))
        long, other = struct.pack("=IHHIIi52x", 72, 2, 0, 3, 0, -2), struct.pack("=IHHIIi", 20, 24, 0, 4, 0, -1)
        self.assertEqual(netlink.answers_in(plain + long + other + done), [(1, 17), (3, 2), (2, 0)])

    def test_octets(self):
        """Requests by octets that were put together by hand from linux/gtp.h, linux/rtnetlink.h and linux/netfilter/ipset/ip_set.h,
        as a processor has them that writes low octets first."""
        asked = contexts.Contexts.__new__(contexts.Contexts)
        asked.netlink, asked.family = self.netlink, 29
        self.assertEqual(asked.made(Tunnels.CONTEXT).hex(" ", 4), (
            "44000000 1d000102 01000000 00000000 00000000 08000100 0a000000 08000200 01000000 08000800 0100001a 08000400 0a010002 "
            "08000500 0a2d0001 08000900 07000000"))
        self.assertEqual(asked.taken(10, TEID).hex(" ", 4), (
            "2c000000 1d000100 02000000 00000000 01000000 08000100 0a000000 08000200 01000000 08000800 0100001a"))
        asked = links.Links.__new__(links.Links)
        asked.netlink = self.netlink
        self.assertEqual(asked.route(links.NEW_ROUTE, links.CREATE | links.EXCL, socket.inet_aton(IP), 32, 10).hex(" ", 4), (
            "2c000000 18000106 03000000 00000000 02200000 fe47fd01 00000000 08000100 0a2d0001 08000400 0a000000"))
        self.assertEqual(asked.route(links.DELETE_ROUTE, 0, socket.inet_aton("10.45.0.0"), 16, None).hex(" ", 4), (
            "2c000000 19000100 04000000 00000000 02100000 fe470007 00000000 08000100 0a2d0000 08000600 00100000"))
        self.assertEqual(counters.entry(258, socket.inet_aton(IP)).hex(" ", 4), (
            "18000780 08000940 00000102 0c000180 08000140 0a2d0001"))


class Front:
    """In the front's place, at a control socket."""

    def __init__(self, test):
        folder = test.enterContext(tempfile.TemporaryDirectory())
        self.path, self.guests, self.heard = folder + "/control", [], []
        self.listener = socket.socket(socket.AF_UNIX)
        test.addCleanup(self.close)
        self.listener.bind(self.path)
        self.listener.listen(8)
        self.listener.settimeout(120)

    def accept(self):
        guest, _ = self.listener.accept()
        guest.settimeout(120)
        self.guests.append(guest)
        return guest

    def close(self):
        for guest in self.guests:
            guest.close()
        self.listener.close()


class Fed(unittest.TestCase):
    """What the front's lines come to."""

    def setUp(self):
        self.loop, self.voice, self.gateway = Loop(), Voice(), unittest.mock.Mock()
        self.addCleanup(self.loop.close)
        self.front = Front(self)
        self.feed = feed.Feed(self.loop, self.front.path, self.voice, self.gateway)
        self.guest = self.front.accept()
        self.addCleanup(lambda: self.feed.socket and self.feed.socket.close())
        self.assertEqual(self.guest.recv(100), b"bearers\n")

    def says(self, text):
        self.guest.sendall(text.encode())
        self.turn()

    def turn(self):
        timer = self.loop.after(0.05, lambda: None)
        self.loop.turn()
        timer.cancel()

    def test_all(self):
        self.says("sub %s 0a2d0001 0a000064 1a000001\nup %s 10.1.0.2 7\n" % (IMSI, IMSI))
        self.gateway.take_all.assert_not_called()
        self.says("down %s\nup %s 10.1.0.2 8\nnow\nup %s 10.2.0.2 9\n" % (IMSI, IMSI, IMSI))
        self.gateway.take_all.assert_called_once_with([(IMSI, IP, ADDRESS, TEID)], {IMSI: phones.Tunnel("10.1.0.2", 8)})
        self.gateway.change.assert_called_once_with({IMSI: phones.Tunnel("10.2.0.2", 9)})

    def test_together(self):
        """The changes of one read are one, the last of a phone counting; subscribers come before."""
        self.says("now\n")
        self.says("sub %s 0a2d0001 0a000064 1a000001\nup %s 10.1.0.2 7\ndown %s\nup %s 10.2.0.2 1\nlater words\n" % (
            IMSI, IMSI, IMSI, OTHER))
        self.gateway.add.assert_called_once_with([(IMSI, IP, ADDRESS, TEID)])
        self.gateway.change.assert_called_once_with({IMSI: None, OTHER: phones.Tunnel("10.2.0.2", 1)})

    def test_gone(self):
        """A front that is gone changes nothing, and is asked again; one that ends says so."""
        self.says("now\n")
        for words, said in (("", "the front is gone: tunnels stay until it is back"), ("now\nend\n", "the front has ended")):
            self.says(words) if words else None
            self.guest.close()
            self.turn()
            self.assertEqual(self.voice.said[-1], ("front_gone", said))
            self.gateway.change.assert_not_called()
            accepted = threading.Thread(target=self.front.accept)
            accepted.start()
            while accepted.is_alive():
                self.turn()
            self.guest = self.front.guests[-1]
            self.assertEqual(self.guest.recv(100), b"bearers\n")

    def test_wrong_lines(self):
        """End the connection, and nothing of that read is taken."""
        for line in ("sub 1 2 3", "sub %s zz 0a000064 1" % IMSI, "sub %s 0a2d0001 0a000064 x" % IMSI, "up %s 10.1.0.2" % IMSI,
                     "up %s 10.1.0.300 1" % IMSI, "up %s 10.1.0.2 4294967296" % IMSI, "up %s 10.1.0.2 -1" % IMSI, "x" * 300):
            with self.subTest(line):
                self.setUp()
                self.says("now\n")
                self.says("up %s 10.1.0.2 7\n%s%s" % (IMSI, line, "" if line[0] == "x" else "\n"))
                self.assertIn("the front said what can't be taken", self.voice.said[-1][1])
                self.assertIsNone(self.feed.socket)


class AskedOfFront(unittest.TestCase):
    """What the front is asked."""

    def setUp(self):
        self.loop, self.voice, self.heard = Loop(), Voice(), []
        self.addCleanup(self.loop.close)
        self.front = Front(self)
        self.asking = asking.Asking(self.loop, self.front.path, self.voice, lambda *answer: self.heard.append(answer))
        self.addCleanup(self.asking.end)

    def turn(self, seconds=0.05):
        end = time.monotonic() + seconds
        while time.monotonic() < end:
            timer = self.loop.after(0.01, lambda: None)
            self.loop.turn()
            timer.cancel()

    def test_asked(self):
        self.assertTrue(self.asking.page(IMSI))
        self.assertTrue(self.asking.release(IMSI, phones.Tunnel(STATION, 7)))
        guest = self.front.accept()
        self.assertEqual(guest.recv(1000).decode(), "data %s\nshow %s\nrelease %s 10.1.0.2 7\n" % (IMSI, IMSI, IMSI))
        guest.sendall(b"taken\nstate %s REGISTERED IDLE ACTIVE\nrefused: it isn't\n" % IMSI.encode())
        self.turn()
        self.assertEqual(self.heard, [(IMSI, "REGISTERED IDLE ACTIVE")])
        self.assertEqual(self.voice.said, [("refused", "the front: refused: it isn't")])
        self.assertEqual(self.asking.asked, 0)

    def test_not_too_much(self):
        """So many wait for an answer, so many for their turn; then it isn't asked for."""
        asked = sum(self.asking.page("%015d" % number) for number in range(limits.MOST_ASKED + 100))
        self.assertLess(asked, limits.MOST_ASKED + limits.ASKED_AT_ONCE)
        guest = self.front.accept()
        lines = guest.recv(1 << 16).splitlines()
        self.assertEqual(len(lines), limits.ASKED_AT_ONCE)
        guest.sendall(b"taken\n" * len(lines))
        self.turn(0.2)
        self.assertEqual(len(guest.recv(1 << 16).splitlines()), limits.ASKED_AT_ONCE)

    def test_silent_front(self):
        """Its connection is ended, and another one asked."""
        self.asking.page(IMSI)
        first = self.front.accept()
        self.asking.look(time.monotonic() + limits.ANSWER_SECONDS + 1)
        self.assertEqual(first.recv(1000)[:4], b"data")
        self.assertEqual(first.recv(1000), b"")
        self.asking.page(IMSI)
        self.assertEqual(self.front.accept().recv(1000)[:4], b"data")

    def test_no_front(self):
        self.front.listener.close()
        os.unlink(self.front.path)
        self.asking.page(IMSI)
        self.assertEqual(len(self.asking.waiting), 0)


class TellsFront(Case):
    """What the gateway tells the front of its counters."""

    def setUp(self):
        super().setUp()
        self.loop = Loop()
        self.addCleanup(self.loop.close)
        self.front = Front(self)
        self.begin(**{OTHER: None})
        self.kernel.counted = {"up": {socket.inet_aton(IP): (5, 500)}, "down": {socket.inet_aton(IP): (7, 700)}}
        self.station(gtpu.packed(gtpu.PACKET, TEID, packet(IP)))
        self.station(gtpu.packed(gtpu.PACKET, 99, packet(IP)))
        self.devices.outside.send(packet(INTERNET, OTHER_IP))
        self.gateway.look_at_idle()
        self.telling = telling.Telling(self.loop, self.front.path, self.voice, self.gateway, page.Traffic(self.gateway))
        self.addCleanup(self.telling.end, 0)
        self.guest = self.front.accept()

    def turn(self):
        self.now += 0.05
        timer = self.loop.after(0.05, lambda: None)
        self.loop.turn()
        timer.cancel()

    def told(self):
        """What it tells, as the front reads it."""
        octets = self.guest.recv(1 << 18)
        line, _, text = octets.partition(b"\n")
        self.assertEqual(line, b"traffic %d" % len(text))
        return traffic.read(text)

    def asked(self, *imsis):
        self.guest.sendall(" ".join(("wanted", *imsis)).encode() + b"\n")
        self.turn()
        return self.told()

    def test_told(self):
        """At first of all phones together, and then of those too that are wanted, as its own page has them."""
        own, first = len(packet(IP)), self.told()
        self.assertEqual(first, traffic.Told(
            ADDRESS, "10.45.0.0/16", 1, 1, {"an idle phone": [1, own], "a tunnel": [0, 0]}, {"from stations": {"unknown TEID": 1}},
            [6, 500 + own, 7, 700], {}))
        idle = [0, 0, 0, 0, 0, 1]
        self.assertEqual(self.asked(OTHER, "001010000000009").phones, {OTHER: idle})
        self.assertEqual(self.asked("*").phones, {IMSI: [6, 500 + own, 7, 700, 0, 0], OTHER: idle})
        self.kernel.counted = {"up": {}, "down": {}}
        self.assertEqual(self.asked(IMSI).phones[IMSI][0], 6)  # the kernel was asked within this second
        self.now += 1.1
        self.assertEqual(self.asked(IMSI).phones, {IMSI: [1, own, 0, 0, 0, 0]})

    def test_as_much_as_the_front_takes(self):
        """Of more phones than the metrics have."""
        many = [("%015d" % number, "10.45.%d.%d" % divmod(number, 256), ADDRESS, number) for number in range(1000, 3000)]
        self.gateway.add(many)
        self.kernel.counted["up"] = {socket.inet_aton(address): (1 << 50, 1 << 52) for _, address, _, _ in many}
        self.now += 1.1
        self.told()
        self.guest.sendall(b"wanted *\n")
        self.guest.setblocking(False)
        self.telling.socket.setsockopt(socket.SOL_SOCKET, socket.SO_SNDBUF, 1 << 12)
        octets = b""
        while (end := octets.find(b"\n")) < 0 or len(octets) - end - 1 < int(octets[:end].split(b" ")[1]):
            self.turn()
            with contextlib.suppress(BlockingIOError):
                octets += self.guest.recv(1 << 16)
        self.assertLess(len(octets), fronting_limits.LONGEST_TRAFFIC)
        self.assertEqual(len(traffic.read(octets[end + 1:]).phones), fronting_limits.MOST_METERED)

    def test_front_gone(self):
        """It tells the next one; one that doesn't know the word is left alone for a while, and that is said."""
        self.told()
        self.guest.close()
        self.turn()
        self.assertIsNone(self.telling.socket)
        accepted = threading.Thread(target=self.front.accept)
        accepted.start()
        while accepted.is_alive():
            self.turn()
        self.guest = self.front.guests[-1]
        self.told()
        self.guest.sendall(b"fault no line begins with 'traffic'\nwanted %s\n" % IMSI.encode())
        self.turn()
        self.assertEqual(self.voice.said[-1], ("refused", "the front: fault no line begins with 'traffic'"))
        self.assertIsNone(self.telling.socket)
        self.assertEqual(self.guest.recv(1), b"")

    def test_endless_line(self):
        self.told()
        self.guest.sendall(b"wanted " + b"1" * limits.LONGEST_WANTED)
        self.turn()
        self.assertIsNone(self.telling.socket)


class Keeping(unittest.TestCase):
    """What the service manager keeps (sd_notify(3), sd_listen_fds(3))."""

    def test_taken(self):
        """By their names, where they are meant for this process; what nobody takes is closed."""
        reading, writing = os.pipe()
        self.addCleanup(os.close, writing)
        given_to = {"LISTEN_PID": str(os.getpid()), "LISTEN_FDS": "1", "LISTEN_FDNAMES": "idle:more"}
        with unittest.mock.patch.object(kept, "FIRST", reading):
            found = kept.Kept(given_to)
            self.assertEqual((found.files, given_to), ({"idle": reading}, {}))
            self.assertEqual((found.take("others"), found.take("idle"), found.take("idle")), (None, reading, None))
            again = kept.Kept({"LISTEN_PID": str(os.getpid()), "LISTEN_FDS": "1", "LISTEN_FDNAMES": "idle"})
            again.close()
        with self.assertRaises(OSError):
            os.fstat(reading)
        for words in ({}, {"LISTEN_PID": "1", "LISTEN_FDS": "1", "LISTEN_FDNAMES": "idle"},
                      {"LISTEN_PID": str(os.getpid()), "LISTEN_FDS": "x", "LISTEN_FDNAMES": "idle"}):
            self.assertEqual(kept.Kept(dict(words)).files, {})

    def test_kept(self):
        manager = self.enterContext(socket.socket(socket.AF_UNIX, socket.SOCK_DGRAM))
        path = self.enterContext(tempfile.TemporaryDirectory()) + "/notify"
        manager.bind(path)
        manager.settimeout(120)
        keeping = kept.Kept({"NOTIFY_SOCKET": path})
        keeping.keep("mme-1", manager.fileno())
        octets, files, _, _ = socket.recv_fds(manager, 1000, 4)
        self.assertEqual((octets, len(files)), (b"FDSTORE=1\nFDPOLL=0\nFDNAME=mme-1", 1))
        os.close(files[0])
        keeping.forget("mme-1")
        self.assertEqual(manager.recv(1000), b"FDSTOREREMOVE=1\nFDNAME=mme-1")
        kept.Kept({}).keep("mme-1", 0)  # without a service manager nothing is kept


class Given(tools.InFolder):
    """Addresses and TEIDs that are handed out."""

    def setUp(self):
        super().setUp()
        self.given = self.folder / "given"
        self.sims = self.file("sims", "# SIMs\n%s k opc\n\n%s  k opc # another\n" % (IMSI, OTHER))

    def ran(self, *words, sims=None, prefix="10.45.0.0/16"):
        return ran("--sims", sims or self.sims, "--given", self.given, *(words or (ADDRESS, prefix)))

    def lines(self, *words, **named):
        status, printed, said = self.ran(*words, **named)
        self.assertEqual((status, said), (0, ""))
        return printed.splitlines()

    def test_handed_out(self):
        """The lines are those of a trace; each subscriber has the same again, in whatever list, and others have others."""
        lines = self.lines()
        self.assertEqual([line.rpartition(" ")[0] for line in lines],
                         ["sub %s 0a2d0001 0a000064" % IMSI, "sub %s 0a2d0002 0a000064" % OTHER])
        teids = {int(line.rpartition(" ")[2], 16) for line in lines}
        self.assertEqual(len(teids - {0}), 2)
        runs.read_trace(("mme 001 01 8001 01 internet 1 1\n" + "\n".join(lines) + "\n").encode())
        self.assertEqual(self.lines(), lines)
        other = self.file("other", "001010000000003\n%s\n" % OTHER)
        third, second = self.lines(sims=other)
        self.assertEqual((second, third.rpartition(" ")[0]), (lines[1], "sub 001010000000003 0a2d0003 0a000064"))
        self.assertEqual(self.lines("10.0.0.9", "10.45.0.0/16")[0], lines[0].replace("0a000064", "0a000009"))
        self.assertEqual(self.given.stat().st_mode & 0o777, 0o600)

    def test_random(self):
        """TEIDs aren't made of the addresses or of one another."""
        teids = [given.free_teid(set()) for _ in range(1000)]
        self.assertGreater(len({teid >> 24 for teid in teids}), 200)
        self.assertGreater(len({teid & 0xFF for teid in teids}), 200)

    def test_edges(self):
        """Neither a network's own address nor that of all is handed out, but of a pair or of one alone."""
        for prefix, addresses in (("10.45.0.0/30", ["10.45.0.1", "10.45.0.2"]), ("10.45.0.6/31", ["10.45.0.6", "10.45.0.7"]),
                                  ("10.45.0.9/32", ["10.45.0.9"])):
            self.assertEqual(list(given.free_addresses(ipaddress.IPv4Network(prefix), set())), addresses)

    def test_refused(self):
        """In words, with status 2; what was handed out stays as it was."""
        lines, kept = self.lines(), self.given.read_text()
        three = self.file("three", "001010000000003\n001010000000004\n")
        for named, said in (({"prefix": "10.45.0.0/30", "sims": three}, "10.45.0.0/30 has no address left for 001010000000003"),
                            ({"prefix": "10.46.0.0/16"}, "was handed out, which isn't in 10.46.0.0/16"),
                            ({"sims": self.file("wrong", "12345\n")}, "wrong: line 1: '12345' isn't an IMSI"),
                            ({"sims": self.file("twice", "%s\n%s\n" % (IMSI, IMSI))}, "line 2: %s stands in line 1 already" % IMSI),
                            ({"sims": self.folder / "none"}, "No such file")):
            with self.subTest(said):
                status, printed, text = self.ran(**named)
                self.assertEqual((status, printed), (2, ""))
                self.assertRegex(text, "^gateway: .*" + re.escape(said))
                self.assertEqual(self.given.read_text(), kept)
        for text in ("vec 1\n", "sub 1 2\n", lines[0] + "\n" + lines[0] + "\n"):
            self.given.write_text(text)
            self.assertEqual((self.ran()[:2], self.given.read_text()), ((2, ""), text))

    def test_at_once(self):
        """Several at a time: nobody gets what another has."""
        with concurrent.futures.ThreadPoolExecutor(16) as pool:
            lines = "".join(pool.map(lambda number: given.lines_for(
                ["0010100000%05d" % number], str(self.given), ADDRESS, NETWORK), range(64))).splitlines()
        self.assertEqual(len({line.split(" ")[2] for line in lines}), 64)
        self.assertEqual(sorted(self.given.read_text().splitlines()), sorted(lines))


class Words(unittest.TestCase):
    """The command line."""

    def test_refused(self):
        """What is wrong is said, with status 2."""
        for words, said in (((), "the following arguments are required"), (("control",), "three words are needed"),
                            (("control", ADDRESS, "10.45.0.0/16", "more"), "three words are needed"),
                            (("control", "host", "10.45.0.0/16"), "'host' isn't an address of IPv4"),
                            (("control", "::1", "10.45.0.0/16"), "'::1' isn't an address of IPv4"),
                            (("control", ADDRESS, "10.45.0.1/16"), "'10.45.0.1/16' isn't a network of IPv4, as 10.45.0.0/16"),
                            (("control", ADDRESS, "fd00::/8"), "isn't a network of IPv4"),
                            (("--name", "a-b", "control", ADDRESS, "10.45.0.0/16"), "isn't a name of 1 to 8 letters and digits"),
                            (("--name", "ninenine9", "control", ADDRESS, "10.45.0.0/16"), "isn't a name of 1 to 8 letters"),
                            (("--given", "file", "control", ADDRESS, "10.45.0.0/16"), "--given goes with --sims"),
                            (("--sims", "file", ADDRESS, "10.45.0.0/16"), "--sims goes with --given"),
                            (("--sims", "l", "--given", "f", "control", ADDRESS, "10.45.0.0/16"), "--sims has two words"),
                            (("--page", "nowhere", "control", ADDRESS, "10.45.0.0/16"), "--page"),
                            (("--fly",), "required")):
            with self.subTest(words):
                status, printed, text = ran(*words)
                self.assertEqual((status, printed), (2, ""))
                self.assertIn(said, text)

    def test_nothing_here(self):
        """Where there is no such driver, or it may not be asked, that is said, and nothing is left."""
        done = subprocess.run(["unshare", "--net", "--user", "--map-current-user", GATEWAY, "control", "127.0.0.1", "10.45.0.0/16"],
                              capture_output=True, text=True, timeout=300, check=False)
        if "unshare" in done.stderr:
            self.skipTest("no namespaces here: " + done.stderr.strip())
        self.assertIn(done.returncode, (2, 75))
        self.assertRegex(done.stderr, "^gateway: .+: .+\n$")


class Pages(Case):
    """The page and the metrics."""

    def setUp(self):
        super().setUp()
        self.begin()
        self.loop = Loop()
        self.addCleanup(self.loop.close)
        self.listener = self.enterContext(socket.create_server(("127.0.0.1", 0)))
        self.page = page.Page(self.gateway, self.loop, self.listener, ["gateway.example"])
        self.kernel.counted = {"up": {socket.inet_aton(IP): (5, 500)}, "down": {socket.inet_aton(IP): (7, 700)}}
        self.station(gtpu.packed(gtpu.PACKET, TEID, packet(IP)))
        self.station(gtpu.packed(gtpu.PACKET, 99, packet(IP)))

    def fetched(self, target, host="localhost", method="GET"):
        with socket.create_connection(self.listener.getsockname(), 120) as asking:
            asking.sendall(("%s %s HTTP/1.1\r\nHost: %s\r\n\r\n" % (method, target, host)).encode())
            asking.setblocking(False)
            got, end = b"", time.time() + 120
            while time.time() < end:
                timer = self.loop.after(0.01, lambda: None)
                self.loop.turn()
                timer.cancel()
                with contextlib.suppress(BlockingIOError):
                    piece = asking.recv(1 << 16)
                    if not piece:
                        break
                    got += piece
        return got.decode()

    def test_metrics(self):
        """What the kernel counted and what went past it, by phone and of all; drops by their reason."""
        text = self.fetched("/metrics")
        own = len(packet(IP))
        for line in ("gateway_phones 2", "gateway_contexts 1", "gateway_stations 1", 'gateway_packets_total{direction="from"} 6',
                     'gateway_packets_total{direction="to"} 7', 'gateway_octets_total{direction="from"} %d' % (500 + own),
                     'gateway_phone_octets_total{imsi="%s",direction="to"} 700' % IMSI,
                     'gateway_dropped_total{way="from stations",why="unknown TEID"} 1',
                     'gateway_waiting_packets{for="an idle phone"} 0',
                     'gateway_events_total{what="taken by hand"} 1'):
            self.assertIn("\nsoizkadur_%s\n" % line, text)
        self.assertNotIn(OTHER, text)

    def test_page(self):
        text = self.fetched("/")
        self.assertTrue(text.startswith("HTTP/1.1 200 OK"))
        for part in ("gateway 10.0.0.100 for 10.45.0.0/16", IMSI, OTHER, IP, "1a000001", STATION, "unknown TEID"):
            self.assertIn(part, text)
        alone = self.fetched("/?imsi=" + IMSI)
        self.assertIn(IMSI, alone)
        self.assertNotIn(OTHER, alone)
        self.assertNotIn(OTHER, self.fetched("/?from=2"))

    def test_refused(self):
        for target, host, method, status in (("/none", "localhost", "GET", 404), ("/?imsi=1", "localhost", "GET", 404),
                                             ("/?from=-1", "localhost", "GET", 404), ("/", "localhost", "POST", 405),
                                             ("/", "elsewhere.example", "GET", 421), ("/", "gateway.example", "GET", 200),
                                             ("/health", "127.0.0.1", "GET", 200), ("/metrics", "localhost", "HEAD", 200)):
            with self.subTest((target, host, method)):
                self.assertEqual(self.fetched(target, host, method).split(" ")[1], str(status))


if __name__ == "__main__":
    unittest.main()
