"""The stations that are connected: their numbers, their turns, and what they are sent."""
import collections
import functools
import ipaddress
import itertools
import re
import select
import time

from tools import runs

from tools.fronting import bearers, limits
from tools.fronting.associations import BEGIN_ONE, ERRORS, RESETS, is_silent
from tools.fronting.faults import told
from tools.fronting.meters import SETUP_REQUEST, UPLINK
from tools.fronting.pace import Pace
from tools.fronting.stations import Station, heard, heard_plain

EVENTS = select.EPOLLIN | select.EPOLLOUT | select.EPOLLRDHUP | select.EPOLLET
ENDING = select.EPOLLRDHUP | select.EPOLLHUP | select.EPOLLERR
GONE = select.EPOLLIN | ENDING
OF_ASSOCIATIONS = {RESETS, ERRORS, *BEGIN_ONE}
# The second octets of messages of which more is noted.
LOOKED_AT = OF_ASSOCIATIONS | {kind[1:] for kind in (UPLINK, SETUP_REQUEST, *bearers.OF_STATION)}


def host_of(text):
    """An address by what the system calls it; one of IPv4 that came by IPv6 is of IPv4."""
    address = ipaddress.ip_address(text.partition("%")[0])
    return getattr(address, "ipv4_mapped", None) or address


class Crowd:
    """Takes connections, gives each the lowest number that is free, and has them speak in turns."""

    def __init__(self, loop, exchange, voice, meters, attaches, settings):
        self.loop, self.exchange, self.voice, self.meters, self.attaches = loop, exchange, voice, meters, attaches
        self.rate, self.per_address = settings.rate, settings.per_address
        self.allowed, self.setup_seconds = settings.allow, settings.setup_seconds
        self.stations, self.used = {}, set()  # by number; the numbers that a connection had
        self.eager, self.addresses = {}, collections.Counter()
        self.pace, self.wakes, self.listeners = Pace(limits.CONNECTION_RATE), None, []
        self.sift = lambda said: said  # what is left of what stations said, where some of it is held
        self.let_go = lambda station: None  # who has what is held of a station be heard, before it is lost

    # Connections.

    def listen(self, listener, link):
        """Takes connections of a listening socket."""
        self.listeners.append(listener)
        self.loop.watch(listener.fileno(), select.EPOLLIN, lambda events: self.accept(listener, link))

    def rest(self, listener, link, seconds):
        """Takes none for a while."""
        self.loop.unwatch(listener.fileno())
        self.loop.after(seconds, lambda: listener in self.listeners and self.loop.watch(
            listener.fileno(), select.EPOLLIN, lambda events: self.accept(listener, link)))

    def accept(self, listener, link):
        """Takes the connections that wait."""
        now = time.monotonic()
        for _ in range(self.pace.allows(now)):
            try:
                connection, address = listener.accept()
            except BlockingIOError:
                return
            except OSError as fault:
                self.voice.say("not_taken", "a connection isn't taken: " + told(fault))
                self.rest(listener, link, 1 / limits.CONNECTION_RATE)
                return
            self.pace.take(1, now)
            self.meters.connections += 1
            self.take(connection, address, link)
        self.rest(listener, link, 1 / limits.CONNECTION_RATE)

    def refusal(self, address):
        """Why a further connection of an address isn't taken, or nothing."""
        if self.allowed and not any(address in network for network in self.allowed):
            return "its address isn't among those that may come"
        if len(self.stations) == runs.STATIONS:
            return "there are %d stations already" % runs.STATIONS
        if self.addresses[address] >= self.per_address:
            return "there are %d connections of its address already" % self.per_address
        if self.exchange.held_since is not None:
            return "the log can't be written"
        return None

    def take(self, connection, address, link):
        """Makes a connection a station, or closes it."""
        host, port = host_of(address[0]), address[1]
        why = self.refusal(host)
        if why is None:
            try:
                self.connect(Station(link(connection), host, port, self.rate, time.monotonic()))
                return
            except OSError as fault:
                why = told(fault)
        connection.close()
        self.meters.refused += 1
        self.voice.say("refused", "%s port %d isn't taken: %s" % (host, port, why), address=str(host), port=port)

    def connect(self, station):
        """Gives a station the lowest number that is free. What was sent for that number before isn't for it."""
        number = next(number for number in range(runs.STATIONS) if number not in self.stations)
        exchange, key = self.exchange, b"%d" % number
        station.number, self.stations[number] = number, station
        self.meters.ups[number] += 1
        self.addresses[station.address] += 1
        if number in self.used:
            exchange.part(lambda: station.is_lost or exchange.receivers.update({key: station}))
        else:
            exchange.receivers[key] = station
        self.used.add(number)
        exchange.put("# station %d: %s" % (number, station))
        exchange.put("up %d" % number)
        self.eager[station] = True
        self.loop.watch(station.link.connection.fileno(), EVENTS, functools.partial(self.look, station))
        self.voice.say("connects", "station %d: %s connects" % (number, station), station=number, address=str(station.address),
                       port=station.port)

    def look(self, station, events):
        """What epoll says of a connection."""
        if events & GONE:
            station.link.readable = True
            station.link.is_ending = station.link.is_ending or bool(events & ENDING)
            self.eager[station] = True
        if events & select.EPOLLOUT and not station.link.writable and station.link.why is None:
            station.link.writable = True
            if station.link.size:
                self.exchange.dirty.add(station)

    # Turns.

    def collect(self):
        """Gives each station that has something to say its turn; whether one still has."""
        if not self.exchange.is_free or not self.eager:
            return False
        now, due, paced = time.monotonic(), [], []
        for station in self.eager:
            allowed = station.allows(now)
            due.append((station, allowed)) if allowed else paced.append(station)
        parts = len(due) or 1
        share, octets = max(1, limits.TURN_MESSAGES // parts), limits.TURN_OCTETS // parts
        said = [(station, station.take(min(share, allowed), octets, now)) for station, allowed in due]
        self.hear(self.sift([(station, messages) for station, messages in said if messages]))
        goes_on = [self.settle(station) for station, _ in due]
        self.wake_for(paced, now)
        return any(goes and station.allows(now) for goes, (station, _) in zip(goes_on, due))

    def hear(self, said):
        """Stations said something in their turns: puts a message of each after one of each other."""
        batch = self.exchange.batch
        for station, messages in said:
            if self.meters.keeps_messages:
                self.meters.keep_in(station.number, messages)
            batch.note_station(station.number, station.associations, len(messages))
        while said:
            shortest = min([len(messages) for _, messages in said])
            rounds = zip(*[messages for _, messages in said])
            self.put([station for station, _ in said] * shortest, list(itertools.chain.from_iterable(rounds)))
            said = [(station, messages[shortest:]) for station, messages in said if len(messages) > shortest]

    def put(self, stations, messages):
        """Puts messages, each of its station, as lines of the log."""
        batch, numbers = self.exchange.batch, [station.number for station in stations]
        self.meters.count_in(messages)
        lines = heard(numbers, messages)
        for at, octets in enumerate(messages):
            if octets[1:2] in LOOKED_AT:
                lines[at] = self.look_at(stations[at], octets, lines[at])
        batch.lines += lines
        batch.owners += numbers
        batch.octets += sum(map(len, lines))

    def look_at(self, station, octets, line):
        """Notes what a message says of its station and of phones; its line, which may be another one then."""
        kind = octets[:2]
        if kind in bearers.OF_STATION:
            self.exchange.batch.said.append((station.number, octets))
        if kind == UPLINK:
            line = heard_plain(station.number, octets) or line
            self.attaches.hear(station.number, octets, line)
        elif kind == SETUP_REQUEST:
            station.request = octets
        elif octets[1:2] in OF_ASSOCIATIONS:
            self.note_associations(station, octets, line)
        return line

    def note_associations(self, station, octets, line):
        """Notes what a message, and its line, says of its station's associations, and whether it is one that changes nothing."""
        batch = self.exchange.batch
        if octets[1:2] in BEGIN_ONE:
            station.associations.note(octets)
        elif is_silent(octets):
            batch.note_still(line, True)
        elif octets[1:2] == RESETS:
            batch.note_reset(station.number, station.associations.is_reset_of_nobody(octets, self.exchange.slots), line)

    def speak_for(self, number, octets, why):
        """A station is heard to say something that it didn't, with a comment in the log on who did; whether it is there."""
        station = self.stations.get(number)
        if station is not None:
            self.exchange.put("# " + why)
            self.hear([(station, [octets])])
        return station is not None

    def settle(self, station):
        """What becomes of a station that had its turn; whether it goes on."""
        link = station.link
        goes_on = link.why is None and not link.has_restarted and (link.readable or link.has_more)
        if not goes_on:
            del self.eager[station]
            if link.why is not None:
                self.lose(station, link.why)
            elif link.has_restarted:
                self.begin_anew(station)
        return goes_on

    def wake_for(self, paced, now):
        """Comes back when the first of those that were too fast may go on."""
        if paced and self.wakes is None:
            soonest = min(station.next() for station in paced)
            self.wakes = self.loop.after(max(0.001, soonest - now), self.has_woken)

    def has_woken(self):
        self.wakes = None

    def send(self):
        """Sends what waits, by one call for each station."""
        dirty = self.exchange.dirty
        while dirty:
            station = dirty.pop()
            if station.is_lost:
                continue
            station.link.flush()
            if station.link.why is not None or station.link.size > limits.MOST_WAITING:
                self.lose(station, station.fault(time.monotonic(), self.setup_seconds))

    def sweep(self, now):
        """Ends the connections that take too long."""
        for station in list(self.stations.values()):
            why = station.fault(now, self.setup_seconds)
            if why is not None:
                self.lose(station, why)

    # Ends.

    def lose(self, station, why):
        """Ends a connection."""
        self.part_from(station)
        station.link.close()
        self.meters.losses[re.sub(r"\d+", "N", why)] += 1
        self.voice.say("lost", "station %d: lost: %s" % (station.number, why), station=station.number, why=why)

    def part_from(self, station):
        """A station is lost, and its number free."""
        number = station.number
        self.let_go(station)
        station.is_lost = True
        self.loop.unwatch(station.link.connection.fileno())
        self.eager.pop(station, None)
        self.addresses[station.address] -= 1
        if not self.addresses[station.address]:
            del self.addresses[station.address]
        del self.stations[number]
        self.exchange.receivers[b"%d" % number] = None
        self.exchange.lose(number)

    def begin_anew(self, station):
        """The other side of an association has begun anew: the station is lost and comes again."""
        self.part_from(station)
        self.voice.say("restarts", "station %d: lost: it began anew" % station.number, station=station.number)
        self.meters.losses["it began anew"] += 1
        station.link.restart()
        self.connect(Station(station.link, station.address, station.port, self.rate, time.monotonic()))

    def refuse(self):
        """Takes no connection any more."""
        for listener in self.listeners:
            self.loop.unwatch(listener.fileno())
        self.listeners = []

    def lose_all(self):
        """Each station is lost; its connection stays until the last answers are sent."""
        for number in sorted(self.stations):
            self.let_go(self.stations[number])
            self.exchange.lose(number)

    def close(self):
        for station in self.stations.values():
            station.link.close()

    def has_sent(self):
        """Whether nothing waits to be sent any more."""
        return not any(station.link.size and station.link.why is None for station in self.stations.values())
