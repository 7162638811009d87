#!/usr/bin/env python3
"""What test_gateway_kernel.py runs under a kernel with GTP-U: phones, stations, the MME, the front and the gateway, end to end.
Writes into a file, by each test's name, nothing where it passed and else why not, as soon as that is known. Where none has ended
for minutes, it says where each thread stands, and ends.

    gateway_inside.py RESULTS
"""
import errno
import faulthandler
import itertools
import os
import pathlib
import random
import re
import select
import signal
import socket
import struct
import subprocess
import sys
import threading
import time
import unittest

if __name__ == "__main__":
    sys.path[0] = str(pathlib.Path(__file__).resolve().parents[2])
from tests.tools import outward
from tests.tools.gateway_world import (ADDRESS, FRONT_UNIT, GATEWAY, GATEWAY_UNIT, INTERNET, MACHINE, MODULES_OF_IPTABLES, NET,
                                       OUTWARD, PAGE_OF_FRONT, PATIENCE, QUIET, STATIONS, Phone, World, capabilities_of, checksum,
                                       gtpu, inside, lay, links, load_modules, lte, packet, phones, sh, until)
from tests.tools.sctp_inside import Named, name_of
from tests.tools.test_lab import DOCUMENT as LAB
from tests.tools.test_lab import blocks
from tests.tools.tools import TOP

STUCK = 600  # seconds in which no test ended
MUTATIONS = 10000
OCTETS = 20_000_000  # of a transfer by TCP
PORTS = itertools.count(5000)
EVERY, OFTEN = 0.02, 0.001  # seconds between two packets of a flow
CAPABILITIES = {"CAP_NET_ADMIN": 12}  # their numbers (linux/capability.h)
TRANSPORT = (1, 1), 0  # the cause transport-resource-unavailable (TS 36.413 clause 9.2.1.3): a group, its width, and a number


def echoes(name, to, count=3):
    """How many of so many pings from a namespace to an address are answered."""
    with inside(name):
        sock = socket.socket(socket.AF_INET, socket.SOCK_RAW, socket.IPPROTO_ICMP)
    mine, answered = os.getpid() & 0xFFFF, 0
    for number in range(count):
        head = struct.pack("!BBHHH", 8, 0, 0, mine, number)
        head = struct.pack("!BBHHH", 8, 0, checksum(head), mine, number)
        sock.sendto(head, (to, 0))
        end = time.monotonic() + 5
        while (left := end - time.monotonic()) > 0 and select.select([sock], [], [], left)[0]:
            octets = sock.recv(1 << 16)
            if octets[20:21] == b"\0" and octets[24:28] == head[4:8]:
                answered += 1
                break
    sock.close()
    return answered


def refusals(faults):
    """Which of several requests failed, and for what."""
    return {at: fault for at, fault in enumerate(faults) if fault}


class Flow:
    """Numbered packets between a phone and the Internet, both ways, and which of them arrived."""

    def __init__(self, phone, apart=EVERY):
        port, self.apart, self.sent, self.is_over = next(PORTS), apart, 0, False
        self.ends = [(self.bound(name, address, port), (other, port)) for name, address, other in (
            (NET, INTERNET, phone.ip), (phone.name, phone.ip, INTERNET))]
        self.got = [[], []]  # by end, the numbers that arrived there
        self.thread = threading.Thread(target=self.run, daemon=True)
        self.thread.start()

    @staticmethod
    def bound(name, address, port):
        with inside(name):
            sock = socket.socket(socket.AF_INET, socket.SOCK_DGRAM)
        sock.setsockopt(socket.SOL_SOCKET, socket.SO_RCVBUF, 1 << 22)
        sock.bind((address, port))
        return sock

    def run(self):
        while not self.is_over:
            for sock, to in self.ends:
                sock.sendto(b"%d" % self.sent, to)
            self.sent += 1
            self.take(self.apart)

    def take(self, seconds):
        """Takes what arrives within so many seconds."""
        end, socks = time.monotonic() + seconds, [sock for sock, _ in self.ends]
        while (left := end - time.monotonic()) > 0:
            for sock in select.select(socks, [], [], left)[0]:
                self.got[socks.index(sock)].append(int(sock.recv(100)))

    def stop(self):
        """Ends it; which of the packets arrived at the Internet and at the phone."""
        self.is_over = True
        self.thread.join()
        end = time.monotonic() + 10
        while min(map(len, self.got)) < self.sent and time.monotonic() < end:
            self.take(0.1)
        for sock, _ in self.ends:
            sock.close()
        return self.got

    def lost(self):
        """How many of them were lost, and how many came twice."""
        got = self.stop()
        return [self.sent - len(set(numbers)) for numbers in got] + [len(numbers) - len(set(numbers)) for numbers in got]


class Whole(unittest.TestCase):
    """One machine for all tests: the phone that they are about is at station 0, and another one at station 1, whose packets go on
    undisturbed."""

    def setUp(self):
        self.world = WORLDS.world()
        self.phone, self.other = self.world.phones
        self.comes()
        self.before = WORLDS.flow.sent

    def comes(self):
        """The phone is connected at station 0."""
        if self.phone.tmsis == 0:
            self.phone.joins(0, next(self.world.b))
        elif self.phone.station is None:
            self.phone.returns(0, next(self.world.b))

    def tearDown(self):
        """The other phone's packets all arrive still."""
        flow = WORLDS.flow
        if flow is None:
            return  # the test failed, and the next one has another machine
        until(lambda: flow.sent > self.before + 3, "the other phone sends nothing")
        sent = flow.sent - 1
        until(lambda: all(len(numbers) >= sent for numbers in flow.got), lambda: "the other phone's packets: %d sent, %s came" % (
            sent, [len(numbers) for numbers in flow.got]), 20)

    def passes(self):
        self.assertEqual(echoes(NET, self.phone.ip), 3)
        self.assertEqual(echoes(self.phone.name, INTERNET), 3)

    def passes_nothing(self, *numbers):
        """Nothing goes to the phone by any station, and nothing comes from it by the station that it was at."""
        for plane in self.world.planes:
            plane.phones = {teid: phone for teid, phone in plane.phones.items() if phone is not self.phone}
            plane.has_heard_all()
            plane.heard.clear()
        sink = self.sink()
        sink.sendto(b"down", (self.phone.ip, 9))
        for number in numbers or (0, 1):
            self.world.planes[number].send_up(self.phone.own_teid, packet(self.phone.ip))
        self.arrives_nothing(sink)
        self.assertEqual([plane.kinds(gtpu.PACKET) for plane in self.world.planes], [[], []])

    def sink(self):
        """A socket of the Internet that phones' packets come to."""
        with inside(NET):
            sock = socket.socket(socket.AF_INET, socket.SOCK_DGRAM)
        sock.setsockopt(socket.SOL_SOCKET, socket.SO_REUSEADDR, 1)
        sock.bind((INTERNET, 7))
        self.addCleanup(sock.close)
        return sock

    def arrives(self, sink):
        """Waits until a packet comes from the phone."""
        self.assertEqual(select.select([sink], [], [], PATIENCE)[0], [sink])
        self.assertEqual(sink.recvfrom(100)[1][0], self.phone.ip)

    def arrives_nothing(self, sink):
        """The gateway has taken all that stations have sent, and they what it sent, and no packet has come."""
        for plane in self.world.planes:
            plane.is_echoed(0x4321)
            plane.has_heard_all()
        self.assertEqual(select.select([sink], [], [], QUIET)[0], [])

    def test_capabilities(self):
        """The gateway and the front have those that their units give them, and no other: so in all tests here."""
        for process, unit in ((self.world.keeper.process, GATEWAY_UNIT), (self.world.front, FRONT_UNIT)):
            status = pathlib.Path("/proc/%d/status" % process.pid).read_text()
            found = dict(re.findall(r"^(CapPrm|CapEff|CapBnd|NoNewPrivs):\s+(\w+)$", status, re.MULTILINE))
            given = "%016x" % sum(1 << CAPABILITIES[name] for name in capabilities_of(unit))
            self.assertEqual(found, {"CapPrm": given, "CapEff": given, "CapBnd": given, "NoNewPrivs": "1"})

    # Packets pass.

    def test_ping(self):
        self.passes()

    def test_tcp(self):
        """20 MB from the Internet to the phone, and as many back."""
        with inside(NET):
            server = socket.create_server((INTERNET, next(PORTS)))
        with inside(self.phone.name):
            asking = socket.socket()
        asking.connect(server.getsockname())
        ends = server.accept()[0], asking
        for giving, taking in (ends, ends[::-1]):
            thread = threading.Thread(target=giving.sendall, args=(bytes(OCTETS),))
            thread.start()
            got = 0
            while got < OCTETS:
                got += len(taking.recv(1 << 18))
            thread.join()
        for sock in (*ends, server):
            sock.close()
        for way in ("from", "to"):
            name = "phone_octets_total{imsi=\"%s\",direction=\"%s\"" % (self.phone.imsi, way)
            self.assertGreater(self.world.metric(name), OCTETS)

    def test_counted(self):
        """The page has a phone's packets and octets both ways; the front tells its tunnel."""
        names = ["phone_%s_total{imsi=\"%s\",direction=\"%s\"" % (what, self.phone.imsi, way)
                 for what in ("packets", "octets") for way in ("from", "to")]
        before = [self.world.metric(name) for name in names]
        time.sleep(1.1)
        self.assertEqual(echoes(NET, self.phone.ip, 5), 5)
        time.sleep(1.1)
        # A ping has 20 octets of IP and 8 of ICMP.
        self.assertEqual([self.world.metric(name) - old for name, old in zip(names, before)], [5, 5, 140, 140])
        told = "tunnel %s %s %d" % (self.phone.imsi, STATIONS[0], self.phone.b)
        self.assertEqual(self.world.ask("tunnel", self.phone.imsi), told)
        self.assertIn("<td>%s</td>" % self.phone.ip, self.world.fetch("/"))
        self.is_on_the_fronts_page(names)

    def is_on_the_fronts_page(self, names):
        """The front's page and metrics have the phone's packets as the gateway has them."""
        page, metrics = (self.world.fetch(target, PAGE_OF_FRONT) for target in ("/?imsi=" + self.phone.imsi, "/metrics"))
        cells = "".join("<td[^>]*>%s</td>" % re.escape(str(value)) for value in (STATIONS[0], self.phone.b))
        self.assertRegex(page, cells)
        for name in names:
            self.assertIn("\nsoizkadur_tunnel_%s} %d\n" % (name, self.world.metric(name)), metrics)
        self.assertIn("\nsoizkadur_tunnel_contexts{gateway=\"%s\"} 2\n" % ADDRESS, metrics)

    # An idle phone.

    def test_idle(self):
        """What comes waits, the phone is paged at both stations, and gets all of it where it comes back."""
        self.phone.leaves()
        sink = self.sink()
        for number in range(10):
            sink.sendto(b"%d" % number, (self.phone.ip, 9))
        self.phone.is_paged(self.world.stations)
        plane = self.world.planes[1]
        plane.heard.clear()
        self.phone.asks_for_service(self.world.stations[1], next(self.world.b))
        self.phone.context_is_set_up()
        until(lambda: len(plane.kinds(gtpu.PACKET)) == 10, lambda: plane.heard)
        self.assertEqual([body[28:] for _, _, _, body in plane.kinds(gtpu.PACKET)], [b"%d" % number for number in range(10)])
        self.assertEqual({teid for _, teid, _, _ in plane.kinds(gtpu.PACKET)}, {self.phone.b})
        self.phone.at(1, self.phone.b)
        self.passes()
        self.phone.leaves()

    def test_idle_too_many(self):
        """The last 16 of 40 packets wait; the others are counted."""
        self.phone.leaves()
        sink, before = self.sink(), self.world.metric("dropped_total{way=\"to phones\",why=\"more than 16 waited\"")
        for number in range(40):
            sink.sendto(b"%d" % number, (self.phone.ip, 9))
        self.phone.is_paged(self.world.stations)
        plane = self.world.planes[0]
        plane.heard.clear()
        until(lambda: self.world.metric("dropped_total{way=\"to phones\",why=\"more than 16 waited\"") == before + 24, "24 dropped")
        self.phone.asks_for_service(self.world.stations[0], next(self.world.b))
        self.phone.context_is_set_up()
        until(lambda: len(plane.kinds(gtpu.PACKET)) == 16, lambda: plane.heard)
        self.assertEqual([body[28:] for _, _, _, body in plane.kinds(gtpu.PACKET)], [b"%d" % number for number in range(24, 40)])
        self.phone.at(0, self.phone.b)

    def test_idle_unreached(self):
        """A phone that doesn't come loses them, with a count."""
        self.phone.leaves()
        name = "dropped_total{way=\"to phones\",why=\"waited for 15 s\""
        before = self.world.metric(name)
        self.sink().sendto(b"down", (self.phone.ip, 9))
        self.phone.is_paged(self.world.stations)
        self.assertEqual(self.world.metric("waiting_packets{for=\"an idle phone\""), 1)
        until(lambda: self.world.metric(name) == before + 1, "it is dropped")
        self.assertEqual(self.world.metric("waiting_packets{for=\"an idle phone\""), 0)

    def test_early(self):
        """What a station sends before its tunnel is known waits for it."""
        self.phone.leaves()
        sink = self.sink()
        b = next(self.world.b)
        self.phone.asks_for_service(self.world.stations[1], b)
        self.world.planes[1].send_up(self.phone.own_teid, packet(self.phone.ip))
        self.phone.context_is_set_up()
        self.arrives(sink)
        self.world.is_tunnel(self.phone, 1, b)
        self.phone.leaves()

    # Path switches.

    def test_path_switches(self):
        """Under load no packet is lost or comes twice; the old station gets an end marker, and after it nothing."""
        for plane in self.world.planes:
            plane.heard.clear()
        flow, count = Flow(self.phone, OFTEN), 20
        for at in range(count):
            self.phone.moves((at + 1) % 2, next(self.world.b), is_there_before=at % 4 > 1)
        self.assertEqual(flow.lost(), [0, 0, 0, 0])
        self.assertGreater(flow.sent, count)

        def markers():
            return {teid for plane in self.world.planes for _, teid, _, _ in plane.kinds(gtpu.END_MARKER)}

        until(lambda: len(markers()) >= count, "each tunnel that was left has its end marker")
        self.assertEqual(len(markers()), count)

    def test_path_switch_early(self):
        """What the new station sends before the MME has acknowledged waits for that."""
        sink, b = self.sink(), next(self.world.b)
        for _ in range(5):
            self.world.planes[1].send_up(self.phone.own_teid, packet(self.phone.ip))
        self.phone.moves(1, b)
        for _ in range(5):
            self.arrives(sink)
        self.phone.leaves()

    def test_path_switch_refused(self):
        """PATH SWITCH REQUEST with an id that isn't the phone's moves nothing."""
        before = self.world.tunnels_of(self.phone)
        live, station, m = self.world.live, self.world.stations[1], self.phone.m + 1
        live.hear(station, lte.path_switch_request(live.network, station, m, 7, self.phone.capability))
        live.owe("s0", station, lte.path_switch_failure(m, 7, lte.UNKNOWN_MME_ID))
        time.sleep(QUIET)
        self.assertEqual(self.world.tunnels_of(self.phone), before)
        self.passes()

    # Ends: afterwards no packet of the phone passes, in either direction.

    def test_released(self):
        self.phone.leaves()
        self.passes_nothing(0)
        self.phone.is_paged(self.world.stations)

    def reset(self, *ids):
        self.world.live.set_back(self.world.stations[0], *ids)
        self.phone.is_gone()
        self.phone.at(None)
        self.world.is_tunnel(self.phone, None)
        self.passes_nothing(0)
        self.phone.is_paged(self.world.stations)

    def test_reset_of_a_part(self):
        self.reset((None, 77), (self.phone.m, self.phone.b))

    def test_reset_by_one_id(self):
        self.reset((self.phone.m, None))
        self.comes()
        self.reset((None, self.phone.b))

    def test_reset_of_all(self):
        self.reset()

    def test_reset_of_others(self):
        """One that means another leaves the tunnel."""
        self.world.live.set_back(self.world.stations[0], (self.phone.m, 77), (self.phone.m + 1, None), (None, None))
        self.world.live.set_back(self.world.stations[1], (self.phone.m, self.phone.b))
        self.passes()

    def test_set_up_again(self):
        self.world.live.set_up(self.world.stations[0])
        self.phone.is_gone()
        self.phone.at(None)
        self.world.is_tunnel(self.phone, None)
        self.passes_nothing(0)
        self.phone.is_paged(self.world.stations)

    def test_station_lost(self):
        self.world.leave(0)
        self.phone.is_gone()
        self.phone.at(None)
        self.world.is_tunnel(self.phone, None)
        self.passes_nothing(0)
        self.phone.is_paged(self.world.stations[1:])
        self.world.join(0)

    def test_detached(self):
        self.phone.detaches()
        self.phone.at(None)
        self.world.is_tunnel(self.phone, None)
        self.passes_nothing(0)
        name = "dropped_total{way=\"to phones\",why=\"the phone isn't registered\""
        self.assertGreater(self.world.metric(name), 0)
        self.phone.joins(0, next(self.world.b))

    def test_cancelled(self):
        self.assertEqual(self.world.ask("cancel", self.phone.imsi), "taken")
        self.phone.owed_nas(self.phone.protected_down(lte.NETWORK_DETACH))
        self.phone.sends(self.phone.protected_up(lte.DETACH_ACCEPT))
        self.phone.owed(lte.release_command(self.phone.m, self.phone.b, lte.DETACHED))
        self.phone.goes()
        self.phone.at(None)
        self.world.is_tunnel(self.phone, None)
        self.passes_nothing(0)
        self.phone.joins(0, next(self.world.b))

    def test_attached_anew(self):
        """Under the same ids of its station, where no release is sent for the old connection."""
        b = self.phone.b
        self.phone.asks_to_attach(self.world.stations[0], b)
        self.phone.at(None)
        self.world.is_tunnel(self.phone, None)
        self.passes_nothing(0)
        self.phone.authenticates()
        self.phone.completes_security()
        self.phone.at(0, b)
        self.phone.context_is_set_up()
        self.phone.completes_attach()
        self.world.is_tunnel(self.phone, 0, b)
        self.passes()

    def test_service_refused(self):
        """A SERVICE REQUEST of somebody else in the phone's name is refused beside its connection, which stays."""
        nas = lte.service_request(lte.Cmac(bytes(16)), self.phone.ksi, 1)
        self.world.live.hear(self.world.stations[1], lte.initial_ue_message(
            self.world.live.network, self.world.stations[1], 99, nas, self.phone.tmsi))
        self.phone.associations += 1
        for _ in range(2):  # SERVICE REJECT and the release of its association
            self.world.live.sockets[1].recv(1 << 16)
        time.sleep(QUIET)
        self.world.is_tunnel(self.phone, 0, self.phone.b)
        self.passes()
        self.phone.associations, refused = self.phone.associations - 1, self.phone.associations
        self.phone.leaves()
        self.phone.associations = refused

    def test_error_indication(self):
        """A station that doesn't know the tunnel has the phone released; from another, or of another TEID, it changes nothing."""
        station, plane = self.world.stations[0], self.world.planes[0]
        self.world.planes[1].send(gtpu.error_indication(self.phone.b, STATIONS[1]))
        plane.send(gtpu.error_indication(self.phone.b + 1, STATIONS[0]))
        plane.send(gtpu.error_indication(self.phone.b, STATIONS[1]))
        until(lambda: self.world.dropped("an error indication of no tunnel") >= 3, "three are dropped")
        self.passes()
        plane.send(gtpu.error_indication(self.phone.b, STATIONS[0]))
        self.phone.owed(lte.release_command(self.phone.m, self.phone.b, TRANSPORT))
        self.world.live.hear(station, lte.release_complete(self.phone.m, self.phone.b))
        self.phone.is_gone()
        self.phone.at(None)
        self.world.is_tunnel(self.phone, None)

    # What the driver leaves.

    def test_echo(self):
        """From any port."""
        octets, sender = self.world.planes[0].is_echoed(0x1234)
        self.assertEqual((octets.hex(), sender), ("32020006000000001234" + "0000" + "0e00", (ADDRESS, 2152)))

    def test_headers(self):
        """A packet with a sequence number, or with an extension header, is taken as one without."""
        sink, inner = self.sink(), packet(self.phone.ip)
        for flags, more in ((0x30, b""), (0x32, b"\0\1\0\0"), (0x34, b"\0\0\0\xc0" + b"\1\0\1\0"),
                            (0x34, b"\0\0\0\x85" + b"\2" + bytes(6) + b"\xc0" + b"\1\0\1\0")):
            octets = struct.pack(">BBHI", flags, gtpu.PACKET, len(more + inner), self.phone.own_teid) + more + inner
            self.world.planes[0].send(octets)
            self.arrives(sink)

    def test_other_port(self):
        """A station sends from what port it likes (TS 29.281 clause 4.4.2.0)."""
        sink = self.sink()
        octets = gtpu.packed(gtpu.PACKET, self.phone.own_teid, packet(self.phone.ip))
        self.world.planes[0].stranger.sendto(octets, (ADDRESS, 2152))
        self.arrives(sink)

    def test_refused_requests(self):
        """Of many in a write, the kernel's driver and its routes refuse those alone that can't be, each for its own reason."""
        self.world.is_tunnel(self.phone, 0, self.phone.b)
        made, missing = self.world.contexts, 9999
        [own] = [each for each in made.all() if each.phone == self.phone.address]
        wanted = [own._replace(phone=bytes([10, 45, 200, at]), own_teid=0x7F000000 + at) for at in range(120)]
        wanted[0] = wanted[49] = wanted[119] = own
        wanted[60] = wanted[60]._replace(device=missing)
        self.assertEqual(refusals(made.add(wanted)), {0: errno.EEXIST, 49: errno.EEXIST, 60: errno.ENODEV, 119: errno.EEXIST})
        pairs = [(each.device, each.own_teid) for each in wanted if each is not own]
        self.assertLess(set(pairs), {(each.device, each.own_teid) for each in made.all()} | {(missing, 0x7F000000 + 60)})
        self.assertEqual(refusals(made.delete(pairs)), {pairs.index((missing, 0x7F000000 + 60)): errno.ENODEV})
        self.assertEqual(set(made.delete(pairs)), {errno.ENOENT, errno.ENODEV})
        with inside(MACHINE):
            ways = links.Links()
        self.addCleanup(ways.close)
        hosts = [(each.phone, 32, own.device) for each in wanted]
        self.assertEqual(refusals(ways.add(hosts)), {0: errno.EEXIST, 49: errno.EEXIST, 119: errno.EEXIST})
        others = [host for host in hosts if host[0] != own.phone]
        self.assertEqual([set(ways.delete(others)) for _ in range(2)], [{0}, {errno.ESRCH}])
        self.passes()

    # Strangers.

    def test_another_sender(self):
        """The other station, whose phones are others, and a machine that is no station: dropped and counted."""
        with inside("enb1"):
            sh("ip addr add 10.2.0.9/24 dev way 2>/dev/null || true")
            stranger = socket.socket(socket.AF_INET, socket.SOCK_DGRAM)
        stranger.bind(("10.2.0.9", 2152))
        self.addCleanup(stranger.close)
        sink, before = self.sink(), self.world.dropped("another sender")
        octets = gtpu.packed(gtpu.PACKET, self.phone.own_teid, packet(self.phone.ip))
        self.world.planes[1].send(octets)
        stranger.sendto(octets, (ADDRESS, 2152))
        until(lambda: self.world.dropped("another sender") == before + 2, "both are counted")
        self.arrives_nothing(sink)
        self.passes()

    def test_unknown_tunnel(self):
        """A TEID that nobody has, and that of an idle phone, are answered by ERROR INDICATION."""
        plane = self.world.planes[0]
        plane.heard.clear()
        plane.send_up(0x7FFFFFF1, packet(self.phone.ip))
        until(lambda: plane.kinds(gtpu.ERROR_INDICATION), "an error indication")
        self.assertEqual(plane.heard[0][1:], (0, ADDRESS, bytes.fromhex("107ffffff1" + "850004" + "0a000064")))
        self.phone.leaves()
        plane.heard.clear()
        plane.send_up(self.phone.own_teid, packet(self.phone.ip))
        until(lambda: plane.kinds(gtpu.ERROR_INDICATION), "an error indication")
        self.assertEqual(gtpu.end_of(plane.kinds(gtpu.ERROR_INDICATION)[0][3]), (self.phone.own_teid, ADDRESS))

    def test_wrong_source(self):
        """A packet under the phone's tunnel from another address: dropped and counted."""
        sink, before = self.sink(), self.world.dropped("wrong source")
        for source in (self.other.ip, "10.45.0.99", INTERNET):
            self.world.planes[0].send_up(self.phone.own_teid, packet(source))
        until(lambda: self.world.dropped("wrong source") == before + 3, "three are counted")
        self.arrives_nothing(sink)

    def test_mutations(self):
        """Cut and changed headers from the phone's own station: nothing ends, and what passes is the phone's own."""
        chance, plane = random.Random(3), self.world.planes[0]
        inner = packet(self.phone.ip, to="198.51.100.77", port=9)
        whole = [gtpu.packed(gtpu.PACKET, self.phone.own_teid, inner), gtpu.packed(gtpu.ECHO_REQUEST, 0, b"", b"\0\1"),
                 gtpu.error_indication(0x7FFFFFF2, STATIONS[0]),
                 struct.pack(">BBHI", 0x34, 255, 8 + len(inner), self.phone.own_teid) + b"\0\0\0\xc0\1\0\1\0" + inner]
        before = self.world.metric("dropped_total")
        for number in range(MUTATIONS):
            octets = bytearray(chance.choice(whole))
            if chance.random() < 0.5:
                octets = octets[:chance.randrange(len(octets))]
            for _ in range(chance.randrange(1, 4) if octets else 0):
                octets[chance.randrange(min(len(octets), 24))] = chance.randrange(256)
            plane.send(bytes(octets))
            if not number % 100:
                plane.is_echoed(number)
        until(lambda: self.world.metric("dropped_total") > before + MUTATIONS // 4, lambda: self.world.fetch("/metrics"))
        self.world.is_tunnel(self.phone, 0, self.phone.b)
        self.passes()

    # The gateway is killed.

    def killed_and_back(self, keeps=True):
        """Kills the gateway, and begins it again with what the service manager kept, if that is so."""
        self.world.end_gateway()
        if not keeps:
            self.world.keeper.forget()
        self.passes() if keeps else self.assertEqual(self.world.tunnels_of(self.phone), [(STATIONS[0], self.phone.b)])
        self.world.begin_gateway()

    def test_gateway_killed(self):
        """Packets go on in both directions meanwhile, and the tunnels stand when it is back: not one packet is lost."""
        flow = Flow(self.phone)
        self.killed_and_back()
        self.world.is_tunnel(self.phone, 0, self.phone.b)
        self.assertEqual(flow.lost(), [0, 0, 0, 0])
        self.phone.moves(1, next(self.world.b))
        self.passes()
        self.phone.leaves()

    def test_gateway_killed_and_changes(self):
        """What changes meanwhile is made when it is back: a phone that was released, and one that moved."""
        self.world.end_gateway()
        self.phone.is_released()
        self.phone.at(None)
        self.world.begin_gateway()
        self.world.is_tunnel(self.phone, None)
        self.phone.returns(0, next(self.world.b))
        self.world.end_gateway()
        b = next(self.world.b)
        self.phone.switches_path(self.world.stations[1], b)
        self.phone.at(1, b)
        self.world.begin_gateway()
        self.world.is_tunnel(self.phone, 1, b)
        self.passes()
        self.phone.leaves()

    def test_gateway_killed_before_a_socket_was_kept(self):
        """Its device goes, and the phones there have another one."""
        [context] = self.world.contexts_of(self.phone)
        self.world.end_gateway()
        with inside(MACHINE):
            os.close(self.world.keeper.files.pop(socket.if_indextoname(context.device)))
        self.world.begin_gateway()
        self.world.is_tunnel(self.phone, 0, self.phone.b)
        self.passes()
        self.phone.leaves()

    def killed_at_each_step(self, steps, response, b):
        """The gateway is killed after each step; the phone has its tunnel from its station's response on, the step of this number,
        and not before."""
        for number, step in enumerate(steps):
            step()
            self.world.end_gateway()
            self.world.begin_gateway()
            if number < response:
                self.assertEqual(self.world.tunnels_of(self.phone), [])
            else:
                self.world.is_tunnel(self.phone, 0, b)
        self.phone.at(0, b)
        self.passes()

    def test_gateway_killed_at_each_step(self):
        """Of an attach."""
        self.phone.detaches()
        self.phone.at(None)
        b = next(self.world.b)
        self.killed_at_each_step(self.phone.attach_steps(self.world.stations[0], b), 3, b)

    def test_gateway_killed_at_each_step_of_a_service_request(self):
        self.phone.leaves()
        b = next(self.world.b)
        steps = lambda: self.phone.asks_for_service(self.world.stations[0], b), self.phone.context_is_set_up
        self.killed_at_each_step(steps, 1, b)

    def test_gateway_killed_at_each_step_of_a_path_switch(self):
        """Before the acknowledgement is awaited, before the tunnel is, and then: it leads to the new station in the end."""
        live, owe = self.world.live, self.world.live.owe
        self.addCleanup(setattr, live, "owe", owe)
        for step in range(3):
            number, b = (step + 1) % 2, next(self.world.b)
            if step == 0:
                live.owe = lambda *owed: (self.world.end_gateway(), owe(*owed))
            if step < 2:
                self.phone.switches_path(self.world.stations[number], b)
                self.phone.at(number, b)
                live.owe = owe
            else:
                self.phone.moves(number, b)
            if step > 0:
                self.world.end_gateway()
            self.world.begin_gateway()
            self.world.is_tunnel(self.phone, number, b)
            self.passes()
        self.phone.leaves()

    def test_second_gateway(self):
        """With the address or the name of one that runs it doesn't begin, and the first goes on."""
        for words in (["--name", "other", "control", ADDRESS, "10.46.0.0/16"], ["control", "10.0.0.101", "10.46.0.0/16"]):
            done = subprocess.run(["ip", "netns", "exec", MACHINE, *GATEWAY, *words], capture_output=True, text=True,
                                  timeout=PATIENCE, check=False)
            self.assertEqual(done.returncode, 75)
            self.assertRegex(done.stderr, "^gateway: another gateway runs for (mme|10.0.0.100): Address already in use\n$")
        self.passes()

    def test_gateway_killed_while_waiting(self):
        """What waited is lost with it; what comes while it is away waits in its device, and the phone is paged when it is back."""
        self.phone.leaves()
        self.world.end_gateway()
        sink = self.sink()
        sink.sendto(b"waits", (self.phone.ip, 9))
        self.world.begin_gateway()
        self.phone.is_paged(self.world.stations)
        plane = self.world.planes[0]
        plane.heard.clear()
        self.phone.asks_for_service(self.world.stations[0], next(self.world.b))
        self.phone.context_is_set_up()
        until(lambda: plane.kinds(gtpu.PACKET), "the packet that waits")
        self.assertEqual(plane.kinds(gtpu.PACKET)[0][3][28:], b"waits")
        self.phone.at(0, self.phone.b)
        self.passes()


class Ends(unittest.TestCase):
    """What ends the tunnels of all phones: these tests have the machine for themselves, after the others."""

    def setUp(self):
        self.world = WORLDS.world()
        WORLDS.end_flow(self)
        self.phone, self.other = self.world.phones[:2]

    def both_attach(self):
        for number, phone in enumerate((self.phone, self.other)):
            if phone.station is None:
                phone.joins(number, next(self.world.b)) if phone.tmsis == 0 else phone.returns(number, next(self.world.b))

    def are_gone(self):
        for phone in (self.phone, self.other):
            phone.is_gone()
            phone.at(None)

    def front_killed_and_back(self):
        """Kills the front, and begins it again: no phone has a tunnel then."""
        self.world.end_front(signal.SIGKILL)
        self.are_gone()
        self.world.begin_front("--resume")
        for number in range(2):
            self.world.join(number)
        for phone in (self.phone, self.other):
            self.world.is_tunnel(phone, None)

    def passes(self):
        self.assertEqual(echoes(NET, self.phone.ip), 3)
        self.assertEqual(echoes(self.phone.name, INTERNET), 3)

    def test_1_gateway_killed_with_nothing_kept(self):
        """Without a service manager, tunnels to phones go on, and all tunnels are made again when it is back."""
        self.both_attach()
        self.world.end_gateway()
        self.world.keeper.forget()
        self.assertEqual(self.world.tunnels_of(self.phone), [(STATIONS[0], self.phone.b)])
        plane = self.world.planes[0]
        plane.heard.clear()
        plane.phones = {}
        with inside(NET):
            sock = socket.socket(socket.AF_INET, socket.SOCK_DGRAM)
        sock.sendto(b"down", (self.phone.ip, 9))
        until(lambda: plane.kinds(gtpu.PACKET), "a packet to the phone")
        plane.phones = {self.phone.b: self.phone}
        self.world.begin_gateway()
        self.world.is_tunnel(self.phone, 0, self.phone.b)
        self.world.is_tunnel(self.other, 1, self.other.b)
        self.passes()

    def test_2_gateway_ends_in_order(self):
        """Nothing of it is left; a gateway that begins makes all of it again."""
        self.both_attach()
        self.assertEqual(self.world.end_gateway(signal.SIGTERM), 0)
        with inside(MACHINE):
            names = [name for _, name in socket.if_nameindex()]
        self.assertEqual([name for name in names if name.startswith("mme-")], [])
        self.assertEqual(self.world.keeper.files, {})
        self.world.begin_gateway()
        self.world.is_tunnel(self.phone, 0, self.phone.b)
        self.passes()

    def test_3_front_killed_at_each_step(self):
        """Of an attach: whatever came of it, there is no tunnel until the phone has attached anew."""
        self.both_attach()
        for count in range(1, 6):
            self.phone.detaches() if count == 1 else None
            self.phone.at(None)
            for step in list(self.phone.attach_steps(self.world.stations[0], next(self.world.b)))[:count]:
                step()
            self.front_killed_and_back()
        self.phone.joins(0, next(self.world.b))
        self.passes()

    def test_3_front_killed_at_each_step_of_a_service_request(self):
        """Between the request and the station's response, and after it: there is no tunnel until the phone comes again."""
        for count in (1, 2):
            self.both_attach()
            self.phone.leaves()
            self.phone.asks_for_service(self.world.stations[0], next(self.world.b))
            if count == 2:
                self.phone.context_is_set_up()
            self.front_killed_and_back()
        self.both_attach()
        self.passes()

    def test_3_front_killed_at_each_step_of_a_path_switch(self):
        """Once the request is sent, and once it is acknowledged: there is no tunnel until the phone comes again."""
        live, station = self.world.live, self.world.stations[1]
        for is_acknowledged in (False, True):
            self.both_attach()
            b = next(self.world.b)
            if is_acknowledged:
                self.phone.switches_path(station, b)
            else:
                live.hear(station, lte.path_switch_request(live.network, station, self.phone.m, b, self.phone.capability))
            self.front_killed_and_back()
        self.both_attach()
        self.passes()

    def test_4_front_killed(self):
        """Tunnels go on while it is away; a front that goes on has none, and phones come back."""
        self.both_attach()
        self.world.end_front(signal.SIGKILL)
        self.passes()
        self.world.is_tunnel(self.phone, 0, self.phone.b)
        self.are_gone()
        self.world.begin_front("--resume")
        for phone in (self.phone, self.other):
            self.world.is_tunnel(phone, None)
        for number in range(2):
            self.world.join(number)
        self.both_attach()
        self.passes()

    def test_5_both_killed(self):
        self.both_attach()
        self.world.end_front(signal.SIGKILL)
        self.world.end_gateway()
        self.passes()
        self.are_gone()
        self.world.keeper.start(self.world.control, ADDRESS, "10.45.0.0/16", "--page", "127.0.0.1:9200")
        self.assertEqual(len(self.world.tunnels_of(self.phone)), 1)
        self.world.begin_front("--resume")
        for phone in (self.phone, self.other):
            self.world.is_tunnel(phone, None)
        for number in range(2):
            self.world.join(number)
        self.both_attach()
        self.passes()

    def test_6_given(self):
        """A subscriber that the front is given at its next start gets to the Internet."""
        third, lines = self.world.further()
        self.world.end_front(signal.SIGTERM)
        with open(self.world.subscribers, "ab") as file:
            file.write(lines)
        self.world.begin_front("--resume")
        for number in range(2):
            self.world.join(number)
        third.joins(0, next(self.world.b))
        self.assertEqual(echoes(NET, third.ip), 3)
        third.detaches()
        third.at(None)

    def test_7_front_ends_in_order(self):
        """No tunnel is left."""
        self.both_attach()
        self.world.end_front(signal.SIGTERM)
        for phone in (self.phone, self.other):
            self.world.is_tunnel(phone, None)
        until(lambda: "the front has ended" in self.world.keeper.said(), self.world.keeper.said)


class Lab(unittest.TestCase):
    """The commands of docs/LAB.md, but for those that load modules, and those of nftables: that of this kernel lacks tables of IPv4
    (CONFIG_NF_TABLES_IPV4) and chains that translate addresses (CONFIG_NFT_NAT). Rules of iptables stand for its lines, with the
    gateway's own tunnels; test_lab.py tries the lines themselves under another kernel."""

    # For each chain of the document, what does the same.
    RULES = {
        'chain outward { type nat hook postrouting priority srcnat; ip saddr 10.45.0.0/16 oifname != "mme-*" masquerade; }':
            "iptables-legacy -t nat -A POSTROUTING -s 10.45.0.0/16 ! -o mme-+ -j MASQUERADE",
        "chain segments { type filter hook forward priority mangle; tcp flags syn tcp option maxseg size set rt mtu; }":
            "iptables-legacy -t mangle -A FORWARD -p tcp --tcp-flags SYN SYN -j TCPMSS --clamp-mss-to-pmtu",
    }
    SUDO = """sudo() {
        case $1 in
            modprobe) ;;
            nft) cat >$lab/chains; ip netns exec %s sh -euc '%s' ;;
            *) ip netns exec %s "$@" ;;
        esac
    }
    """ % (MACHINE, "; ".join(RULES.values()), MACHINE)

    def test_lab(self):
        """Phones of the list of SIMs attach, and get to the Internet, also to where no route leads back."""
        load_modules(MODULES_OF_IPTABLES)
        world = WORLDS.bare()
        text = LAB.read_text(encoding="utf-8")
        wanted = [block for block in blocks(text.partition("## 2.")[0]) if re.match("lab=|mkdir .*/names|cat >.lab/sims", block)]
        self.assertEqual(len(wanted), 3)
        wanted += [self.SUDO, *blocks(re.search("^## 9. A phone gets to the Internet\n.*?(?=^## )", text, re.M | re.S)[0])]
        folder = world.folder / "lab"
        folder.mkdir()
        commands = "\n".join(wanted).replace("lab=$(mktemp -d)", "lab=%s" % folder).replace("192.0.2.1", ADDRESS)
        with open(folder / "printed", "w") as printed:
            running = subprocess.Popen(["bash", "-euc", commands], cwd=TOP, stdout=printed, stderr=subprocess.STDOUT,
                                       stdin=subprocess.DEVNULL, start_new_session=True)
        self.addCleanup(lambda: os.killpg(running.pid, signal.SIGKILL))
        self.assertEqual(running.wait(PATIENCE), 0, (folder / "printed").read_text())
        self.assertIn("tunnel 001010000000001 -\n", (folder / "printed").read_text())
        self.assertEqual(re.findall("chain .*", (folder / "chains").read_text()), list(self.RULES))
        lines = (folder / "net.subscribers").read_text().splitlines()
        until(lambda: "the front tells of" in (folder / "gateway.says").read_text(), lambda: (folder / "gateway.says").read_text())
        for number in range(2):
            world.phones.append(self.phone_of(world, number, lines))
            world.join(number)
            world.phones[number].joins(number, number + 1)
        phone, other = world.phones
        self.assertEqual((echoes(NET, phone.ip), echoes(phone.name, INTERNET)), (3, 3))
        self.translates(phone, other)

    def translates(self, phone, other):
        """What the document promises of the rules, and what is so without them; the Internet has no route to phones meanwhile."""
        route = "ip -n %s route %%s default via %s" % (NET, OUTWARD)
        self.addCleanup(sh, route % "add")
        sh(route % "del")
        for each in (phone, other):
            sh("ip -n %s link set ue mtu 1500" % each.name)  # so that its own segments are too long
        hosts = [outward.Host(each.name, each.ip) for each in (phone, other)] + [outward.Host(NET, INTERNET)]
        outward.check(*hosts)
        for table in ("nat", "mangle"):
            sh("ip netns exec %s iptables-legacy -t %s -F" % (MACHINE, table))
        outward.check_without(*hosts)

    @staticmethod
    def phone_of(world, slot, lines):
        """The phone of the line `sub` in this place."""
        _, imsi, address, _, teid = [line for line in lines if line.startswith("sub ")][slot].split(" ")
        vectors = [phones.Vector(*map(bytes.fromhex, line.split(" ")[2:])) for line in lines if line.startswith("vec %s " % imsi)]
        return Phone(world, slot, vectors, socket.inet_ntoa(bytes.fromhex(address)), int(teid, 16))


class Worlds:
    """The one machine, which is begun once, and anew after a test that failed; and the other phone's packets."""

    def __init__(self):
        self.made = self.flow = None

    def world(self):
        if self.made is None:
            world = self.made = World()
            world.begin_front()
            world.begin_gateway()
            for number in range(2):
                world.join(number)
            world.phones[1].joins(1, next(world.b))
            self.flow = Flow(world.phones[1])
        return self.made

    def bare(self):
        """A machine with nothing on it."""
        self.forget()
        self.made = World(phones_count=0)
        return self.made

    def end_flow(self, test):
        """The other phone's packets end: all that it sent have arrived."""
        if self.flow is not None:
            flow, self.flow = self.flow, None
            test.assertEqual(flow.lost(), [0, 0, 0, 0])

    def forget(self):
        """The next test has a machine of its own."""
        if self.made is not None:
            if self.flow is not None:
                self.flow.is_over = True
            self.made.close()
        self.made = self.flow = None


WORLDS = Worlds()


class Noted(Named):
    """A result that has the next test begin anew after one that failed."""

    def keep(self, test, fault):
        if self.found.get(name_of(test)) is None:  # what failed first counts
            super().keep(test, fault)
        faulthandler.dump_traceback_later(STUCK, exit=True)
        if fault is not None:
            WORLDS.forget()


def all_tests():
    """Those that share the machine, in an order of their names, and then those that have it for themselves."""
    return [test for case in (Whole, Ends, Lab) for test in unittest.defaultTestLoader.loadTestsFromTestCase(case)]


def main():
    path = pathlib.Path(sys.argv[1])
    wanted = sys.argv[2:]
    load_modules()
    lay()
    faulthandler.dump_traceback_later(STUCK, exit=True)
    result = Noted(path)
    tests = [test for test in all_tests() if name_of(test) not in result.found]
    unittest.TestSuite([test for test in tests if not wanted or name_of(test) in wanted]).run(result)
    os._exit(0)


if __name__ == "__main__":
    main()
