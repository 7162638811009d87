"""Metrics and the page of a gateway that runs, by HTTP: packets and octets of each phone, what was dropped and why, what waits."""
import time

from tools import versions
from tools.fronting import limits as guest_limits
from tools.fronting.guests import Door
from tools.fronting.markup import linked, shown, table
from tools.fronting.metrics import Text
from tools.fronting.page import (LOCAL, METRICS_FORM, MISDIRECTED, NOT_ALLOWED, NOT_FOUND, OK, PAGE_FORM, TEXT_FORM, UNSAID,
                                 hosts_of, is_address, lasting, response, whole)

from tools.tunnels import limits
from tools.tunnels.counters import DOWN, UP

MOST_PHONES = 100  # that the page lists
NO_PAGE = b"/, /metrics and /health; /?from=N for phones from that one on, /?imsi=N for one\n"
OF_PHONE = ("IMSI", "Address", "TEID", "Station", "Its TEID", "Packets from it", "Octets", "Packets to it", "Octets", "Dropped",
            "Waiting")
NO_TRAFFIC = (0, 0)


class Traffic:
    """What went from phones and to them: as the kernel's counters have it, and what went past them."""

    def __init__(self, gateway):
        self.gateway, self.read_at, self.counted = gateway, float("-inf"), {UP: {}, DOWN: {}}

    def read(self):
        """Reads the kernel's counters, unless that was just now."""
        if time.monotonic() - self.read_at > limits.FRESH_SECONDS:
            self.counted = {way: self.gateway.devices.counters.read(way) for way in (UP, DOWN)}
            self.read_at = time.monotonic()

    def of(self, phone):
        """The packets and octets from a phone, and those to it."""
        found = []
        for way, own in ((UP, phone.up), (DOWN, phone.down)):
            found += [kernels + mine for kernels, mine in zip(self.counted[way].get(phone.packed, NO_TRAFFIC), own)]
        return found

    def sums(self):
        """The same of all phones."""
        found = [self.of(phone) for phone in self.gateway.phones.by_imsi.values()]
        return [sum(numbers) for numbers in zip(*found)] or [0, 0, 0, 0]


def metrics(gateway, traffic):
    """All metrics."""
    text, phones = Text(), list(gateway.phones.by_imsi.values())
    text.add("gateway_phones", "gauge", "Phones that the gateway is for.", [({}, len(phones))])
    text.add("gateway_contexts", "gauge", "Phones that have a tunnel.", [({}, len(gateway.phones.by_end))])
    text.add("gateway_stations", "gauge", "Stations that have a device.", [({}, len(gateway.devices.of_station))])
    rooms = (("an idle phone", gateway.idle), ("a tunnel", gateway.early))
    text.add("gateway_waiting_packets", "gauge", "Packets that wait.", [({"for": name}, len(room)) for name, room in rooms])
    text.add("gateway_waiting_octets", "gauge", "Octets of packets that wait.",
             [({"for": name}, room.octets) for name, room in rooms])
    text.add("gateway_dropped_total", "counter", "Packets that went no further.",
             [({"way": way, "why": why}, count) for (way, why), count in sorted(gateway.drops.items())])
    text.add("gateway_events_total", "counter", "What the gateway did.",
             [({"what": what}, count) for what, count in sorted(gateway.counts.items())])
    found = [(phone, traffic.of(phone)) for phone in phones]
    add_traffic(text, "gateway", "of phones", [({}, traffic.sums())])
    metered = [({"imsi": phone.imsi}, numbers) for phone, numbers in found if any(numbers)][:limits.MOST_METERED]
    add_traffic(text, "gateway_phone", "of a phone, of %d phones at the most" % limits.MOST_METERED, metered)
    return text.octets()


def add_traffic(text, name, whose, rows):
    """Packets and octets in both directions, each row with its labels."""
    for at, what in enumerate(("packets", "octets")):
        values = [({**labels, "direction": way}, numbers[at + 2 * side]) for labels, numbers in rows
                  for side, way in enumerate(("from", "to"))]
        text.add("%s_%s_total" % (name, what), "counter", "%s %s." % (what.capitalize(), whose), values)


def phone_row(gateway, traffic, phone):
    """A phone as the page lists it."""
    station, teid = phone.tunnel or (UNSAID, UNSAID)
    return [linked("/?imsi=%s" % phone.imsi, phone.imsi), phone.address, "%08x" % phone.teid, station, teid, *traffic.of(phone),
            phone.dropped, gateway.idle.count(phone)]


def page(gateway, traffic, shown_phones, first):
    """The page with these phones, which are those from a place on."""
    drops = [[way, why, count] for (way, why), count in sorted(gateway.drops.items())]
    stations = [[station, device.name, device.phones] for station, device in sorted(gateway.devices.of_station.items())]
    rows = [phone_row(gateway, traffic, phone) for phone in shown_phones]
    count = len(gateway.phones.by_imsi)
    places = [("those before", max(0, first - MOST_PHONES), first > 0),
              ("those after", first + MOST_PHONES, first + len(rows) < count)]
    links = [linked("/?from=%d" % place, words) for words, place, is_there in places if is_there and len(rows) != 1]
    devices = gateway.devices
    return whole([
        "<h1>%s</h1>" % shown("Soizkadur %s, gateway %s for %s" % (versions.number(), devices.address, devices.network)),
        '<p class="note">running for %s · %d packets wait · <a href="/metrics">metrics</a></p>' % (
            lasting(time.time() - gateway.begun), len(gateway.idle) + len(gateway.early)),
        "<h2>Stations</h2>",
        table(("Address", "Device", "Phones"), stations) if stations else '<p class="none">None has a phone.</p>',
        "<h2>Phones</h2>", table(OF_PHONE, rows) if rows else '<p class="none">The front has told of none.</p>',
        '<p class="note">%s</p>' % " · ".join(links) if links else "",
        "<h2>Dropped</h2>", table(("Way", "Why", "Packets"), drops) if drops else '<p class="none">No packet.</p>',
    ])


class Page:
    """Answers GET of /metrics, of / and of /health."""

    def __init__(self, gateway, loop, listener, names=(), traffic=None):
        self.gateway, self.traffic = gateway, traffic or Traffic(gateway)
        self.names = {LOCAL, *(name.lower() for name in names)}
        self.door = Door(loop, listener, guest_limits.MOST_BROWSING, guest_limits.LONGEST_REQUEST, guest_limits.BROWSING_SECONDS,
                         self.take)

    def take(self, guest, received):
        """Answers a request that is whole; returns what is left."""
        if b"\r\n\r\n" not in received:
            return received
        first, *lines = received.partition(b"\r\n\r\n")[0].decode("latin-1").split("\r\n")
        words = first.split(" ")
        is_head = words[0] == "HEAD"
        if len(words) != 3 or words[0] not in ("GET", "HEAD"):
            answer = NOT_ALLOWED, TEXT_FORM, b"GET and HEAD alone\n"
        elif not all(host in self.names or is_address(host) for host in hosts_of(lines)):
            answer = MISDIRECTED, TEXT_FORM, b"by an address, as localhost, or by a name of --page-host\n"
        else:
            answer = self.answer(words[1])
        guest.say(response(*answer, is_head), is_last=True)
        return b""

    def answer(self, target):
        path, _, query = target.partition("?")
        word, _, value = query.partition("=")
        if path == "/health":
            return OK, TEXT_FORM, b"it serves\n"
        if path == "/metrics":
            self.traffic.read()
            return OK, METRICS_FORM, metrics(self.gateway, self.traffic)
        by_imsi = self.gateway.phones.by_imsi
        is_number = word == "from" and value.isascii() and value.isdigit() and len(value) < 10
        if path == "/" and (not query or is_number or word == "imsi" and value in by_imsi):
            self.traffic.read()
            first = int(value) if is_number else 0
            found = [by_imsi[value]] if word == "imsi" else list(by_imsi.values())[first:first + MOST_PHONES]
            return OK, PAGE_FORM, page(self.gateway, self.traffic, found, first)
        return NOT_FOUND, TEXT_FORM, NO_PAGE

    def close(self):
        self.door.close()
