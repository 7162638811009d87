"""The gateway: takes phones' tunnels as the front tells them, and what the kernel leaves of their packets.

A phone with a tunnel has a context of the kernel's driver, and a route to its station's device. Packets to all others come to a
device that is read here: they wait, and the front has the phone paged. Where the station of a tunnel changes, the new context is
there before the route leads to its device, and the old one goes after that: so no packet is lost in between.
"""
import collections
import ipaddress
import os
import socket
import time

from tools.fronting.pace import Pace

from tools.tunnels import gtpu, limits
from tools.tunnels.contexts import Context
from tools.tunnels.links import HOST
from tools.tunnels.netlink import Refused, is_missing
from tools.tunnels.phones import Phone, Tunnel, count
from tools.tunnels.sockets import PORT
from tools.tunnels.waiting import Waiting

FROM_STATIONS, TO_PHONES = "from stations", "to phones"  # ways of packets that are dropped
ANOTHER_SENDER, NO_TUNNEL, UNKNOWN, WRONG_SOURCE = "another sender", "no tunnel", "unknown TEID", "wrong source"
NOBODYS, NOT_IP, GONE, NOT_SENT = "nobody's address", "not IPv4", "the phone isn't registered", "not sent"
IDLE, GONE_STATE = "IDLE", "DEREGISTERED"


class Gateway:
    """What the gateway knows. `asking` asks the front, by `page` and `release`."""

    def __init__(self, devices, phones, voice):
        self.devices, self.phones, self.voice, self.asking = devices, phones, voice, None
        self.counts, self.drops = collections.Counter(), collections.Counter()
        self.idle = Waiting(limits.MOST_OF_PHONE, limits.WAITING_OCTETS, limits.WAITING_SECONDS,
                            lambda phone, _, why: self.drop(TO_PHONES, why, phone))
        self.early = Waiting(limits.MOST_EARLY, limits.EARLY_OCTETS, limits.EARLY_SECONDS, self.drop_early)
        self.errors = Pace(limits.ERRORS_A_SECOND)
        self.begun = time.time()
        self.found, self.is_known = [], False  # the contexts that stood at the start, and whether the phones are known
        self.when_known = lambda: None  # what is done once they are, by which packets to idle phones are looked at

    def drop(self, way, why, phone=None):
        """Counts a packet that goes no further."""
        self.drops[way, why] += 1
        if phone is not None:
            phone.dropped += 1

    # What the front tells.

    def take_all(self, subscribers, tunnels):
        """All subscribers that there are, by IMSI, and all tunnels: of other phones none stands any more."""
        known = {phone.identity: phone for phone in self.phones.by_imsi.values()}
        wanted = {(imsi, address, teid) for imsi, address, _, teid in subscribers}
        gone = [phone for identity, phone in known.items() if identity not in wanted]
        self.apply({phone: None for phone in gone})
        for phone in gone:
            self.idle.forget(phone, GONE)
            self.early.forget(phone, GONE)
            self.phones.remove(phone)
        if gone:
            self.devices.counters.delete([phone.packed for phone in gone])
        self.add(subscribers)
        self.adopt()
        if not self.is_known:
            self.is_known = True
            self.when_known()
        self.apply({phone: tunnels.get(imsi) for imsi, phone in self.phones.by_imsi.items()})
        for phone in self.idle.of:
            phone.asked = float("-inf")  # the front that was asked may be gone

    def add(self, subscribers):
        """There are further subscribers; those of another gateway are its own."""
        added = []
        for imsi, address, gateway, teid in subscribers:
            if gateway != self.phones.gateway or imsi in self.phones.by_imsi:
                continue
            why = self.phones.why_not(address, teid)
            if why is None:
                added.append(Phone(imsi, address, teid))
                self.phones.add(added[-1])
            else:
                self.counts["phones without a gateway"] += 1
                self.voice.say("no_gateway", "%s has no tunnels here: %s" % (imsi, why), imsi=imsi)
        if added:
            self.devices.counters.add([phone.packed for phone in added])

    def adopt(self):
        """The contexts that stood at the start are those of phones, one of each, or go."""
        by_index, strays, adopted = self.devices.by_index(), [], set()
        for context in self.found:
            phone, device = self.phones.by_teid.get(context.own_teid), by_index[context.device]
            tunnel = Tunnel(socket.inet_ntoa(context.station), context.station_teid)
            is_right = phone is not None and phone.packed == context.phone and device.station == tunnel.station
            if not is_right or phone.tunnel is not None:
                strays.append((context.device, context.own_teid))
            else:
                self.set_tunnel(phone, tunnel, device)
                adopted.add((phone.packed, device.index))
        standing = self.devices.links.routes_to(by_index.keys()) if self.found else set()
        self.devices.links.delete([(address, HOST, index) for address, index in standing - adopted])
        self.devices.contexts.delete(strays)
        self.devices.links.add([(address, HOST, index) for address, index in adopted - standing])
        self.found = []

    def change(self, changes):
        """The tunnels of phones have changed, by IMSI; of those of another gateway nothing is to be done."""
        self.apply({self.phones.by_imsi[imsi]: tunnel for imsi, tunnel in changes.items() if imsi in self.phones.by_imsi})

    # Tunnels.

    def apply(self, changes):
        """Has phones have these tunnels, or none."""
        changes = {phone: tunnel for phone, tunnel in changes.items() if tunnel != phone.tunnel}
        devices = self.devices_for(changes)
        moves = {phone for phone, device in devices.items() if phone.device not in (None, device)}
        self.leave([phone for phone in changes if phone.tunnel is not None and phone not in moves], changes)
        self.arrive([(phone, changes[phone], device) for phone, device in devices.items()], moves)

    def devices_for(self, changes):
        """The devices of the stations that tunnels come at, by phone."""
        devices, found = {}, {}  # the latter by station
        for phone, tunnel in changes.items():
            if tunnel is None:
                continue
            device = found.get(tunnel.station)
            if device is None:
                device, why = self.device_for(tunnel.station, found.values())
            if device is not None:
                devices[phone] = found[tunnel.station] = device
            else:
                self.voice.say("no_device", "%s has no tunnel: %s" % (phone.imsi, why))
                self.counts["tunnels refused"] += 1
        return devices

    def device_for(self, station, taken):
        """The device of a station, or nothing, and why there is none."""
        address = ipaddress.IPv4Address(station)
        if not self.devices.is_station(address):
            return None, "%s is no station's address" % address
        try:
            device = self.devices.of(station, taken)
        except (Refused, OSError) as fault:
            return None, str(fault)
        return device, "%d stations have some already" % limits.MOST_STATIONS

    def leave(self, phones, changes):
        """Tunnels end; where one comes at the same station, what went by the old one is over."""
        self.report("a route", self.devices.links.delete([(phone.packed, HOST, phone.device.index) for phone in phones]), True)
        self.report("a context", self.devices.contexts.delete([(phone.device.index, phone.teid) for phone in phones]), True)
        for phone in phones:
            if changes[phone] is not None:
                self.send_end_marker(phone.tunnel)
            self.set_tunnel(phone, None, None)

    def arrive(self, come, moves):
        """Tunnels come: of phones without one, and of those that move from one station to another."""
        faults = self.devices.contexts.add([Context(device.index, phone.packed, phone.teid, socket.inet_aton(tunnel.station),
                                                    tunnel.teid) for phone, tunnel, device in come])
        self.report("a context", faults)
        made = [each for each, fault in zip(come, faults) if not fault]
        failed = [phone for (phone, _, _), fault in zip(come, faults) if fault and phone.tunnel is not None]
        self.leave(failed, dict.fromkeys(failed))
        routes = [(phone.packed, HOST, device.index) for phone, _, device in made if phone in moves]
        self.report("a route", self.devices.links.replace(routes))
        old = [(phone.tunnel, phone.device.index, phone.teid) for phone, _, _ in made if phone in moves]
        for tunnel, _, _ in old:
            self.send_end_marker(tunnel)
        before = {phone: phone.tunnel.station for phone, _, _ in made if phone in moves}
        self.report("a context", self.devices.contexts.delete([(index, teid) for _, index, teid in old]), True)
        now = time.monotonic()
        for phone, tunnel, device in made:
            self.set_tunnel(phone, tunnel, device)
            phone.before, phone.moved = before.get(phone), now
            self.flush(phone)
        routes = [(phone.packed, HOST, device.index) for phone, _, device in made if phone not in moves]
        self.report("a route", self.devices.links.add(routes))

    def set_tunnel(self, phone, tunnel, device):
        """A phone's tunnel is this one from now on, by this device."""
        for each, more in ((phone.device, -1), (device, 1)):
            if each is not None:
                each.phones += more
        if tunnel is not None:
            phone.asked = float("-inf")  # it came: what comes for it next time has it paged at once
        self.phones.set_tunnel(phone, tunnel, device)

    def report(self, what, faults, may_be_gone=False):
        """Counts and says what the kernel refused."""
        for fault in filter(None, faults):
            if not (may_be_gone and is_missing(fault)):
                self.counts["refused by the kernel"] += 1
                self.voice.say("kernel", "the kernel refuses %s: %s" % (what, os.strerror(fault)))

    def send(self, octets, place):
        """Sends a datagram; whether it went."""
        try:
            self.devices.others.sendto(octets, place)
            return True
        except OSError:
            return False

    def send_end_marker(self, tunnel):
        """Tells a station that no packet comes by a tunnel any more (TS 29.281 clause 7.3.2)."""
        self.counts["end markers"] += 1
        self.send(gtpu.packed(gtpu.END_MARKER, tunnel.teid), (tunnel.station, PORT))

    def flush(self, phone):
        """What waits for a phone's tunnel goes."""
        for packet, _ in self.idle.take(phone):
            self.send_down(phone, packet)
        for packet, sender in self.early.take(phone):
            self.take_packet(phone, sender, packet)

    def send_down(self, phone, packet):
        """A packet goes to a phone's station past its device."""
        if self.send(gtpu.packed(gtpu.PACKET, phone.tunnel.teid, packet), (phone.tunnel.station, PORT)):
            count(phone.down, packet)
            self.counts["delivered late"] += 1
        else:
            self.drop(TO_PHONES, NOT_SENT, phone)

    # What comes to the device of idle phones.

    def look_at_idle(self):
        """Packets to phones without a tunnel."""
        for _ in range(limits.PACKETS):
            try:
                packet = os.read(self.devices.idle, 1 << 16)
            except (BlockingIOError, InterruptedError):
                return
            _, address = gtpu.addresses_of(packet)
            phone = self.phones.by_address.get(address)
            if phone is None:
                self.drop(TO_PHONES, NOT_IP if address is None else NOBODYS)
            elif phone.tunnel is not None:
                self.send_down(phone, packet)
            else:
                self.idle.put(phone, packet, time.monotonic())
                self.page(phone)

    def page(self, phone):
        """Has the front page a phone, unless that was asked for just now."""
        now = time.monotonic()
        if self.idle.count(phone) and now - phone.asked > limits.AGAIN_SECONDS and self.asking.page(phone.imsi):
            phone.asked = now
            self.counts["pages"] += 1

    def hear_states(self, imsi, states):
        """The states of a phone that the front was asked for: one that isn't registered doesn't come."""
        phone = self.phones.by_imsi.get(imsi)
        if phone is not None and phone.tunnel is None and states.split(" ")[:2] == [GONE_STATE, IDLE]:
            self.idle.forget(phone, GONE)

    def sweep(self):
        """Drops what waited too long, and has those paged again that don't come."""
        now = time.monotonic()
        self.idle.sweep(now)
        self.early.sweep(now)
        for phone in list(self.idle.of):
            self.page(phone)

    # What comes to the sockets and isn't the kernel's.

    def look_at_socket(self, sock):
        for _ in range(limits.DATAGRAMS):
            try:
                octets, sender = sock.recvfrom(1 << 16)
            except (BlockingIOError, InterruptedError):
                return
            except OSError:  # of something that was sent before
                continue
            try:
                self.take(gtpu.read(octets), sender)
            except gtpu.Unreadable as fault:
                self.drop(FROM_STATIONS, str(fault))

    def take(self, message, sender):
        """A message of a station, or of whoever sent it."""
        if message.kind == gtpu.ECHO_REQUEST:
            self.counts["echo requests"] += 1
            self.send(gtpu.echo_response(message.sequence), sender)
        elif message.kind == gtpu.ERROR_INDICATION:
            self.take_error(sender[0], *gtpu.end_of(message.body))
        elif message.kind != gtpu.PACKET:
            self.drop(FROM_STATIONS, gtpu.NAMES.get(message.kind, "another type"))
        elif message.teid in self.phones.by_teid:
            self.take_packet(self.phones.by_teid[message.teid], sender[0], message.body)
        else:
            self.drop(FROM_STATIONS, UNKNOWN)
            self.send_error(message.teid, sender[0])

    def take_packet(self, phone, sender, packet):
        """A packet of a phone that the driver left: one with an extension header, or of a tunnel that isn't known yet, or that was
        the phone's a moment ago."""
        if phone.tunnel is None or sender != phone.tunnel.station and not self.is_late(phone, sender):
            self.early.put(phone, packet, time.monotonic(), sender)
        elif gtpu.addresses_of(packet)[0] != phone.packed:
            self.drop(FROM_STATIONS, WRONG_SOURCE if gtpu.addresses_of(packet)[0] else NOT_IP, phone)
        else:
            self.send_up(phone, packet)

    @staticmethod
    def is_late(phone, sender):
        """Whether a sender is the station that a phone has just come from by a path switch."""
        return sender == phone.before and time.monotonic() - phone.moved < limits.LATE_SECONDS

    def send_up(self, phone, packet):
        """The kernel forwards a phone's packet."""
        try:
            os.write(self.devices.idle, packet)
        except OSError:
            self.drop(FROM_STATIONS, NOT_SENT, phone)
        else:
            count(phone.up, packet)
            self.counts["taken by hand"] += 1

    def drop_early(self, phone, sender, why):
        """A packet whose sender got no tunnel of the phone's."""
        self.drop(FROM_STATIONS, NO_TUNNEL if phone.tunnel is None else ANOTHER_SENDER, phone)
        if phone.tunnel is None:
            self.send_error(phone.teid, sender)

    def send_error(self, teid, sender):
        """Tells a sender that a TEID has no tunnel (TS 29.281 clause 7.3.1), not more often than it may."""
        now = time.monotonic()
        if self.is_known and self.errors.is_open(now):
            self.errors.take(1, now)
            self.counts["error indications sent"] += 1
            self.send(gtpu.error_indication(teid, self.devices.address), (sender, PORT))

    def take_error(self, sender, teid, address):
        """ERROR INDICATION: a station doesn't know a tunnel's end (TS 23.007 clause 22), so the phone is released."""
        phone = self.phones.by_end.get(Tunnel(sender, teid))
        now = time.monotonic()
        if phone is None or address != sender:
            self.drop(FROM_STATIONS, "an error indication of no tunnel")
            return
        self.counts["error indications"] += 1
        if now - phone.released > limits.AGAIN_SECONDS:
            phone.released = now
            self.asking.release(phone.imsi, phone.tunnel)
