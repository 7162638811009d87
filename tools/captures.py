"""Captures of S1AP over SCTP: what is in a file of pcap or pcapng, packet by packet, and the events of stations that come of it.

`tools/capture` writes captures too, and has the command line. Nothing here is part of a proof.
"""
import collections
import gzip
import heapq
import io
import ipaddress
import re
import struct
import zlib

from tools import runs, s1ap, versions

# --- The formats, for both ways ---

S1AP_PORT = 36412  # TS 36.412 clause 7
S1AP_PROTOCOL = 18  # the payload protocol identifier of S1AP (TS 36.412 clause 7)
# What stands there on an association of S1AP: the same in another order of octets, as some write it, and none.
S1AP_PROTOCOLS = {S1AP_PROTOCOL, 0x12000000, 0}
SCTP = 132  # protocol number of IP (RFC 9260 clause 14)

# Chunks (RFC 9260 clause 3.2), their parameters (clause 3.3.2) and the flags of DATA (clause 3.3.1).
DATA, INIT, INIT_ACK, SACK, ABORT, COOKIE_ECHO, COOKIE_ACK, SHUTDOWN_COMPLETE = 0, 1, 2, 3, 6, 10, 11, 14
IPV4_PARAMETER, IPV6_PARAMETER, COOKIE_PARAMETER = 5, 6, 7
UNORDERED, BEGINNING, ENDING = 4, 2, 1
WINDOW = 65535

# Blocks of pcapng and their options (draft-ietf-opsawg-pcapng clauses 3.5 and 4).
SECTION, INTERFACE, SIMPLE, NAMES, STATISTICS, ENHANCED, OLD_PACKET = 0x0A0D0D0A, 1, 3, 4, 5, 6, 2
ORDER_MARK = 0x1A2B3C4D
COMMENT, APPLICATION, RESOLUTION, OFFSET = 1, 4, 9, 14
INTERFACE_NAME, INTERFACE_DESCRIPTION = 2, 3
STARTED, ENDED = 2, 3
IPV4_NAME, IPV6_NAME = 1, 2
PROGRAM = "Soizkadur tools/capture"

# Link types (the registry of LINKTYPE values).
NULL, ETHERNET, LOOP, COOKED, COOKED_2 = 0, 1, 108, 113, 276
RAW_LINKS = {12, 14, 101, 228, 229}  # of BSD, of OpenBSD, of all, of IPv4, of IPv6
VLAN_TYPES = {0x8100, 0x88A8, 0x9100}
IPV4_TYPE, IPV6_TYPE = 0x0800, 0x86DD

MME_ADDRESS = ipaddress.IPv4Address("192.0.2.1")  # TEST-NET-1
FIRST_STATION_ADDRESS = ipaddress.IPv4Address("198.51.100.1")  # TEST-NET-2
FIRST_STATION_PORT = 49152  # the first dynamic port (RFC 6335 clause 6)
GZIP, PCAP, PCAP_NANOSECONDS = b"\x1f\x8b", 0xA1B2C3D4, 0xA1B23C4D
MILLION = 10**6
MOST_SECONDS = 1 << 32  # from the first packet to the last: what a file of pcap can say
MOST_UNPACKED = 1 << 28  # octets of a file that was packed by gzip


def warn(text):
    versions.complain(text)


Place = collections.namedtuple("Place", "address port")

# --- The packets of a capture file ---

Frame = collections.namedtuple("Frame", "number time link octets cut")


class Capture:
    """What a file has: its frames with times in nanoseconds, names by address, and of our own files when they begin and end."""

    def __init__(self):
        self.frames, self.names = [], {}
        self.own, self.started, self.ended = False, None, None

    def add(self, time, link, octets, whole):
        self.frames.append(Frame(len(self.frames) + 1, time, link, octets, len(octets) < whole))


def cut_at(capture):
    return runs.Fault("the file is cut: it ends within what follows packet %d" % len(capture.frames))


def unpacked(octets):
    """What a gzip file has in it."""
    try:
        with gzip.GzipFile(fileobj=io.BytesIO(octets)) as file:
            found = file.read(MOST_UNPACKED + 1)
    except (OSError, EOFError, zlib.error) as fault:
        raise runs.Fault("the gzip file is damaged: %s" % fault) from None
    if len(found) > MOST_UNPACKED:
        raise runs.Fault("the gzip file has more than %d octets in it: unpack it before" % MOST_UNPACKED)
    return found


def read_capture(octets):
    """A pcap or pcapng file."""
    if octets[:2] == GZIP:
        octets = unpacked(octets)
    magic = octets[:4]
    for order in "<>":
        for value, scale in ((PCAP, 1000), (PCAP_NANOSECONDS, 1)):
            if magic == struct.pack(order + "I", value):
                return read_pcap(octets, order, scale)
    if magic == struct.pack("<I", SECTION):
        return read_pcapng(octets)
    raise runs.Fault("this is neither pcap nor pcapng")


def read_pcap(octets, order, scale):
    """The form of libpcap: a header of 24 octets, before each packet one of 16."""
    capture = Capture()
    if len(octets) < 24:
        raise runs.Fault("the file is cut: it ends within its header")
    link, at = struct.unpack_from(order + "I", octets, 20)[0] & 0xFFFF, 24
    while at < len(octets):
        if at + 16 > len(octets):
            raise cut_at(capture)
        second, part, length, whole = struct.unpack_from(order + "IIII", octets, at)
        at += 16 + length
        if at > len(octets):
            raise cut_at(capture)
        capture.add(second * 10**9 + part * scale, link, octets[at - length:at], whole)
    return capture


def options_of(order, octets):
    """The options of a block, as pairs."""
    at, pairs = 0, []
    while at + 4 <= len(octets):
        code, length = struct.unpack_from(order + "HH", octets, at)
        if code == 0:
            break
        pairs.append((code, octets[at + 4:at + 4 + length]))
        at += 4 + length + -length % 4
    return pairs


class Interface:
    """An interface of a section: its link type and the unit of its times."""

    def __init__(self, order, body):
        self.link = struct.unpack_from(order + "H", body)[0]
        self.unit, self.offset = (10, 6), 0
        for code, value in options_of(order, body[8:]):
            if code == RESOLUTION and value:
                self.unit = (2, value[0] & 0x7F) if value[0] & 0x80 else (10, value[0])
            elif code == OFFSET and len(value) == 8:
                self.offset = struct.unpack(order + "q", value)[0]

    def time(self, high, low):
        """Nanoseconds."""
        base, power = self.unit
        return (high << 32 | low) * 10**9 // base**power + self.offset * 10**9


class Sections:
    """Reads the blocks of pcapng, section by section."""

    def __init__(self):
        self.capture, self.order, self.interfaces = Capture(), "<", []

    def section(self, body):
        self.interfaces = []
        applications = [value for code, value in options_of(self.order, body[16:]) if code == APPLICATION]
        self.capture.own = PROGRAM.encode() in applications

    def interface_of(self, number):
        if number >= len(self.interfaces):
            raise runs.Fault("packet %d is of an interface that isn't described" % (len(self.capture.frames) + 1))
        return self.interfaces[number]

    def packet(self, kind, body):
        if kind == SIMPLE:
            whole = struct.unpack_from(self.order + "I", body)[0]
            link, time, octets = self.interface_of(0).link, 0, body[4:4 + whole]
        else:
            form = "IIIII" if kind == ENHANCED else "HHIIII"
            fields = struct.unpack_from(self.order + form, body)
            interface, (high, low, length, whole) = self.interface_of(fields[0]), fields[-4:]
            if 20 + length > len(body):
                raise cut_at(self.capture)
            link, time, octets = interface.link, interface.time(high, low), body[20:20 + length]
        self.capture.add(time, link, octets, whole)

    def name(self, body):
        for kind, value in options_of(self.order, body):
            size = {IPV4_NAME: 4, IPV6_NAME: 16}.get(kind)
            if size and len(value) > size:
                names = value[size:].split(b"\0")
                self.capture.names[ipaddress.ip_address(value[:size])] = names[0].decode("utf-8", "replace")

    def statistics(self, body):
        interface = self.interface_of(struct.unpack_from(self.order + "I", body)[0])
        for code, value in options_of(self.order, body[12:]):
            if len(value) == 8 and code in (STARTED, ENDED) and self.capture.own:
                time = interface.time(*struct.unpack(self.order + "II", value))
                setattr(self.capture, "started" if code == STARTED else "ended", time)

    def block(self, kind, body):
        if kind == SECTION:
            self.section(body)
        elif kind == INTERFACE:
            self.interfaces.append(Interface(self.order, body))
        elif kind in (SIMPLE, ENHANCED, OLD_PACKET):
            self.packet(kind, body)
        elif kind == NAMES:
            self.name(body)
        elif kind == STATISTICS:
            self.statistics(body)


def order_of(mark):
    """The order of octets of a section, by its mark."""
    for order in "<>":
        if mark == struct.pack(order + "I", ORDER_MARK):
            return order
    raise runs.Fault("a section of pcapng without its mark")


def read_pcapng(octets):
    """A pcapng file."""
    sections, at = Sections(), 0
    while at < len(octets):
        if at + 12 > len(octets):
            raise cut_at(sections.capture)
        if octets[at:at + 4] == struct.pack("<I", SECTION):
            sections.order = order_of(octets[at + 8:at + 12])
        kind, length = struct.unpack_from(sections.order + "II", octets, at)
        if length < 12 or length % 4:
            raise runs.Fault("what follows packet %d is no block of pcapng" % len(sections.capture.frames))
        if at + length > len(octets):
            raise cut_at(sections.capture)
        try:
            sections.block(kind, octets[at + 8:at + length - 4])
        except struct.error:
            raise runs.Fault("a block after packet %d is too short" % len(sections.capture.frames)) from None
        at += length
    return sections.capture


# --- From a frame to the chunks of SCTP ---

Segment = collections.namedtuple("Segment", "source destination tag chunks packet")
Chunk = collections.namedtuple("Chunk", "kind flags body")


class Strange(Exception):
    """A packet that isn't looked into; its text says why."""


def behind_tags(octets, at):
    """What protocol follows an Ethernet type at this place, and where, after the VLAN tags (IEEE 802.1Q clause 9)."""
    while len(octets) >= at + 2:
        kind = struct.unpack_from(">H", octets, at)[0]
        if kind not in VLAN_TYPES:
            return kind, at + 2
        at += 4
    return None, at


def ip_octets(frame):
    """The packet of IP in a frame, or nothing where it has another protocol."""
    octets, link = frame.octets, frame.link
    if link == ETHERNET:
        kind, at = behind_tags(octets, 12)
    elif link == COOKED:
        kind, at = behind_tags(octets, 14)
    elif link == COOKED_2:
        kind, at = behind_tags(octets[:2] + octets[20:], 0)
        at += 18
    elif link in (NULL, LOOP):
        kind, at = IPV4_TYPE, 4
    elif link in RAW_LINKS:
        kind, at = IPV4_TYPE, 0
    else:
        raise Strange("link type %d isn't known here" % link)
    return octets[at:] if kind in (IPV4_TYPE, IPV6_TYPE) else None


def sctp_of_ipv4(octets):
    if len(octets) < 20:
        raise Strange("cut within the header of IPv4")
    header, whole, fragment = (octets[0] & 0xF) * 4, *struct.unpack_from(">H2xH", octets, 2)
    if octets[9] != SCTP:
        return None
    if fragment & 0x3FFF:
        raise Strange("a fragment of IPv4, which isn't put together here")
    whole = whole or len(octets)  # 0 where the sender's hardware cuts it later
    if whole > len(octets) or header < 20:
        raise Strange("cut within IPv4")
    return octets[12:16], octets[16:20], octets[header:whole]


# The headers that may stand after that of IPv6 (RFC 8200 clause 4): hop by hop, routing, destination, mobility; and a fragment's.
EXTENSIONS, FRAGMENT = {0, 43, 60, 135}, 44


def sctp_of_ipv6(octets):
    if len(octets) < 40:
        raise Strange("cut within the header of IPv6")
    whole, following, at = 40 + struct.unpack_from(">H", octets, 4)[0], octets[6], 40
    while following in EXTENSIONS or following == FRAGMENT:
        if at + 8 > len(octets):
            raise Strange("cut within IPv6")
        if following == FRAGMENT and struct.unpack_from(">H", octets, at + 2)[0] & 0xFFF9:
            raise Strange("a fragment of IPv6, which isn't put together here")
        size = 8 if following == FRAGMENT else 8 + 8 * octets[at + 1]
        following, at = octets[at], at + size
    if following != SCTP:
        return None
    if whole > len(octets):
        raise Strange("cut within IPv6")
    return octets[8:24], octets[24:40], octets[at:whole]


def chunks_of(octets):
    """The chunks of a packet of SCTP (RFC 9260 clause 3.2)."""
    chunks, at = [], 12
    while at + 4 <= len(octets):
        kind, flags, length = struct.unpack_from(">BBH", octets, at)
        if length < 4 or at + length > len(octets):
            raise Strange("a chunk of SCTP with a wrong length")
        chunks.append(Chunk(kind, flags, octets[at + 4:at + length]))
        at += length + -length % 4
    return chunks


def segment_of(frame):
    """The packet of SCTP in a frame, or nothing where there is none."""
    packet = ip_octets(frame)
    if not packet or packet[0] >> 4 not in (4, 6):
        return None
    found = sctp_of_ipv4(packet) if packet[0] >> 4 == 4 else sctp_of_ipv6(packet)
    if found is None:
        return None
    source, destination, octets = found
    if len(octets) < 12:
        raise Strange("cut within the header of SCTP")
    source_port, destination_port, tag = struct.unpack_from(">HHI", octets)
    return Segment(Place(ipaddress.ip_address(source), source_port), Place(ipaddress.ip_address(destination), destination_port),
                   tag, chunks_of(octets), frame.number)


# --- Who is the MME ---


def has_s1ap(segment):
    """Whether a packet shows that its association is one of S1AP."""
    parts = (part.body for part in segment.chunks if part.kind == DATA)
    told = any(part[8:12] == S1AP_PROTOCOL.to_bytes(4, "big") for part in parts)
    return told or S1AP_PORT in (segment.source.port, segment.destination.port)


def ends_of(segment):
    return frozenset((segment.source, segment.destination))


def sides_told(segment):
    """Which ends a packet shows to be an MME's, and which a station's."""
    for part in segment.chunks:
        if part.kind in (INIT, COOKIE_ECHO):
            yield segment.destination, segment.source
        elif part.kind in (INIT_ACK, COOKIE_ACK):
            yield segment.source, segment.destination
        elif part.kind == DATA and len(part.body) >= 14:
            outcome, code = part.body[12] >> 5, part.body[13]
            if part.flags & BEGINNING and (code, outcome) in s1ap.OF_STATION:
                yield segment.destination, segment.source
            elif part.flags & BEGINNING and (code, outcome) in s1ap.OF_MME:
                yield segment.source, segment.destination


def mme_places(segments):
    """The ends that are an MME's: by their port, else by who sets up and by what they send."""
    places, told = set(), collections.Counter()
    for segment in segments:
        ends = [segment.source, segment.destination]
        at_port = [end for end in ends if end.port == S1AP_PORT]
        if len(at_port) == 1:
            places.update(at_port)
        else:
            for mme, station in sides_told(segment):
                told[mme, station] += 1
    return places | {mme for mme, station in told if told[mme, station] > told[station, mme]}


# --- Associations and their messages ---


def after(one, other, bits=32):
    """Whether a number comes after another in serial arithmetic (RFC 1982 clause 3.2)."""
    return 0 < (one - other) % (1 << bits) < 1 << bits - 1


Part = collections.namedtuple("Part", "flags stream number protocol octets")


class Flow:
    """The DATA chunks that a station sends: each once, fragments together, the messages of a stream in its order."""

    def __init__(self, from_beginning=False):
        self.from_beginning = from_beginning
        self.seen, self.parts, self.held, self.next = set(), {}, {}, {}
        self.ends = {}  # of fragments that follow each other, the first TSN and the last one, each by the other
        self.waiting, self.place = [], 0  # the messages that are held, by the place of their TSN among all; the last such place

    def take(self, part):
        """The messages that a DATA chunk completes, as pairs of protocol and octets."""
        tsn, stream, number, protocol = struct.unpack_from(">IHHI", part.body)
        if tsn in self.seen:
            return []
        self.seen.add(tsn)
        self.parts[tsn] = Part(part.flags, stream, number, protocol, part.body[12:])
        whole = self.together(tsn)
        if whole is None:
            return []
        last, octets = whole
        if part.flags & UNORDERED:
            return [(protocol, octets)]
        expected = self.next.get(stream, 0 if self.from_beginning else number)
        if after(expected, number, 16):  # given up before, and seen after all
            return [(protocol, octets)]
        self.held[stream, number] = (last, protocol, octets)
        self.place = self.place_of(last)
        heapq.heappush(self.waiting, (self.place, last, stream, number))
        return self.ready(stream, expected)

    def place_of(self, tsn):
        """Where a TSN is among all that were sent, by the place that was found last: TSNs come round."""
        return self.place + ((tsn - self.place + (1 << 31)) % (1 << 32)) - (1 << 31)

    def are_joined(self, one, other):
        """Whether two fragments, of which one's TSN is after the other's, are of one message."""
        return (one in self.parts and other in self.parts
                and not self.parts[one].flags & ENDING and not self.parts[other].flags & BEGINNING)

    def together(self, tsn):
        """The last TSN and the octets of the message that a fragment belongs to, where it is whole (RFC 9260 clause 6.9)."""
        before, following = (tsn - 1) % (1 << 32), (tsn + 1) % (1 << 32)
        first = self.ends.pop(before) if self.are_joined(before, tsn) else tsn
        last = self.ends.pop(following) if self.are_joined(tsn, following) else tsn
        if not (self.parts[first].flags & BEGINNING and self.parts[last].flags & ENDING):
            self.ends[first], self.ends[last] = last, first
            return None
        for end in (first, last):
            self.ends.pop(end, None)
        places = [(first + at) % (1 << 32) for at in range((last - first) % (1 << 32) + 1)]
        return last, b"".join(self.parts.pop(place).octets for place in places)

    def ready(self, stream, number):
        """The messages of a stream whose turn it is."""
        messages = []
        while (stream, number) in self.held:
            messages.append(self.held.pop((stream, number))[1:])
            number = number + 1 & 0xFFFF
        self.next[stream] = number
        return messages

    def acknowledged(self, tsn):
        """What the other side has, and the capture lacks, isn't waited for: the messages up to this TSN, in their order."""
        messages, passed = [], self.place_of(tsn)
        while self.waiting and self.waiting[0][0] <= passed:
            _, last, stream, number = heapq.heappop(self.waiting)
            if (stream, number) in self.held and self.held[stream, number][0] == last:
                messages += self.ready(stream, number)
        return messages

    def rest(self):
        """The messages that still wait for one before them."""
        messages = [held[1:] for _, held in sorted(self.held.items())]
        self.held = {}
        return messages


class Peer:
    """A station of the capture: its number, and the association that stands."""

    def __init__(self, number):
        self.number, self.up, self.tag, self.port, self.flow = number, False, None, None, Flow()


class Reading:
    """Makes events of the packets of a capture."""

    def __init__(self, capture, by_port):
        self.capture, self.by_port = capture, by_port
        self.peers, self.aliases = {}, {}
        self.lines, self.second, self.start, self.messages = [], 0, capture.started, 0
        self.named = {address: int(found[1]) for address, name in capture.names.items()
                      if (found := re.fullmatch(r"station-(\d{1,3})", name)) and int(found[1]) < runs.STATIONS}
        self.free = [number for number in range(runs.STATIONS) if number not in self.named.values()]

    # Stations.

    def key_of(self, place):
        address = self.aliases.get(place.address, place.address)
        return Place(address, place.port) if self.by_port else address

    def peer(self, place):
        key = self.key_of(place)
        if key not in self.peers:
            self.peers[key] = Peer(self.number_for(place.address))
        return self.peers[key]

    def number_for(self, address):
        """The number in a station's name, else the first that no name has and that is free."""
        if address in self.named:
            number = self.named[address]
            if number in (peer.number for peer in self.peers.values()):
                raise runs.Fault("two stations have the name station-%d" % number)
            return number
        if not self.free:
            raise runs.Fault("more than %d stations" % runs.STATIONS)
        return self.free.pop(0)

    # Events.

    def note(self, time, text):
        """Adds an event, after the seconds that passed since the one before."""
        if self.start is None:
            self.start = time
        self.pass_to(time)
        self.lines.append(text)

    def pass_to(self, time):
        ticks = (time - self.start) // 10**9 - self.second
        if self.second + ticks > MOST_SECONDS:
            raise runs.Fault("the times of its packets are more than %d s apart" % MOST_SECONDS)
        if ticks > 0:
            self.second += ticks
        while ticks > 0:
            self.lines.append("tick %d" % min(ticks, runs.LONGEST_TICK))
            ticks -= runs.LONGEST_TICK

    def connect(self, time, peer, tag, port):
        if peer.up and peer.tag == tag:
            return
        if peer.up and not self.capture.own:
            self.lose(time, peer)
        self.note(time, "up %d" % peer.number)
        peer.up, peer.tag, peer.port, peer.flow = True, tag, port, Flow(from_beginning=True)

    def lose(self, time, peer):
        if peer.up or self.capture.own:
            self.leave(time, peer)
            self.note(time, "lost %d" % peer.number)
            peer.up, peer.flow = False, Flow()

    def leave(self, time, peer):
        """The messages that still wait are heard; those that lack a fragment never are."""
        self.hear_all(time, peer, peer.flow.rest())
        if peer.flow.parts:
            warn("station %d: %d fragments are left out, since the capture lacks others of their messages"
                 % (peer.number, len(peer.flow.parts)))

    def hear(self, time, peer, octets):
        self.messages += 1
        if not peer.up and not self.capture.own:
            self.note(time, "# station %d was connected before" % peer.number)
            self.lines.append("up %d" % peer.number)
            peer.up = True
        line = "in %d %s" % (peer.number, octets.hex() or "-")
        if len(line) > runs.LONGEST_LINE:
            warn("a message of %d octets is too long for a trace and left out" % len(octets))
            return
        self.note(time, line)

    def hear_all(self, time, peer, messages):
        for protocol, octets in messages:
            if protocol in S1AP_PROTOCOLS:
                self.hear(time, peer, octets)

    # Packets.

    def addresses(self, peer_address, body):
        """The other addresses that a station names as it sets up (RFC 9260 clause 5.1.2)."""
        at = 16
        while at + 4 <= len(body):
            kind, length = struct.unpack_from(">HH", body, at)
            size = {IPV4_PARAMETER: 4, IPV6_PARAMETER: 16}.get(kind)
            if size and length == 4 + size and at + length <= len(body):
                self.aliases.setdefault(ipaddress.ip_address(body[at + 4:at + length]), peer_address)
            at += max(length, 4) + -length % 4

    def from_station(self, time, segment):
        for part in segment.chunks:
            if part.kind == INIT:
                self.addresses(self.aliases.get(segment.source.address, segment.source.address), part.body)
            elif part.kind == COOKIE_ECHO:
                self.connect(time, self.peer(segment.source), segment.tag, segment.source.port)
            elif part.kind == DATA and len(part.body) >= 12:
                peer = self.peer(segment.source)
                self.check_port(peer, segment.source.port)
                self.hear_all(time, peer, peer.flow.take(part))
            elif part.kind in (ABORT, SHUTDOWN_COMPLETE):
                self.end(time, segment.source)

    def from_mme(self, time, segment):
        for part in segment.chunks:
            if part.kind == SACK and len(part.body) >= 4 and self.key_of(segment.destination) in self.peers:
                peer = self.peer(segment.destination)
                self.hear_all(time, peer, peer.flow.acknowledged(struct.unpack_from(">I", part.body)[0]))
            elif part.kind in (ABORT, SHUTDOWN_COMPLETE):
                self.end(time, segment.destination)

    def check_port(self, peer, port):
        if peer.port is None:
            peer.port = port
        if peer.port != port:
            raise runs.Fault("station %d sends from ports %d and %d at one time: --by-port tells such apart"
                             % (peer.number, peer.port, port))

    def end(self, time, place):
        if self.key_of(place) in self.peers or self.capture.own:
            peer = self.peer(place)
            if peer.port in (None, place.port):
                self.lose(time, peer)

    def finish(self):
        """What still waits is heard, and the time passes to the end."""
        for peer in self.peers.values():
            self.leave(self.capture.frames[-1].time, peer)
        if self.capture.ended is not None and self.start is not None:
            self.pass_to(self.capture.ended)


def segments_of(capture):
    """The packets of SCTP with S1AP by their times; and the packets that weren't looked into, for each reason."""
    found, reasons = [], collections.OrderedDict()
    for frame in capture.frames:
        try:
            segment = segment_of(frame)
        except Strange as why:
            text = "%s%s" % (why, " (cut by the snapshot length)" if frame.cut else "")
            reasons.setdefault(text, []).append(frame.number)
            continue
        if segment:
            found.append((frame.time, segment))
    pairs = {ends_of(segment) for _, segment in found if has_s1ap(segment)}
    found = [(time, segment) for time, segment in found if ends_of(segment) in pairs]
    return sorted(found, key=lambda pair: pair[0]), reasons


def said_of(reasons):
    return ["packet %d%s: %s" % (numbers[0], " and %d more" % (len(numbers) - 1) if numbers[1:] else "", why)
            for why, numbers in reasons.items()]


def events_of(capture, by_port):
    """The lines of the events of a capture."""
    segments, reasons = segments_of(capture)
    places = mme_places([segment for _, segment in segments])
    reading = Reading(capture, by_port)
    for time, segment in segments:
        if segment.destination in places and segment.source not in places:
            reading.from_station(time, segment)
        elif segment.source in places:
            reading.from_mme(time, segment)
    reading.finish()
    if not reading.messages and not capture.own:
        raise runs.Fault("; ".join(["no S1AP over SCTP from a station in %d packets" % len(capture.frames)] + said_of(reasons)))
    for text in said_of(reasons):
        warn(text)
    return reading.lines


# --- Both ways ---

Heard = collections.namedtuple("Heard", "octets second from_mme station packet")
MAGICS = (GZIP, struct.pack("<I", SECTION),
          *(struct.pack(order + "I", value) for order in "<>" for value in (PCAP, PCAP_NANOSECONDS)))


def is_capture(octets):
    """Whether these octets begin as a capture does."""
    return octets.startswith(MAGICS)


def messages_of(octets):
    """Each message of S1AP in a capture, of stations and of the MME, with the packet that completed it and its second."""
    capture = read_capture(octets)
    segments, reasons = segments_of(capture)
    places = mme_places([segment for _, segment in segments])
    reading, flows, started, heard = Reading(capture, False), {}, None, []
    for time, segment in segments:
        from_mme = segment.source in places
        station = reading.peer(segment.destination if from_mme else segment.source).number
        started = time if started is None else started
        for part in segment.chunks:
            if part.kind in (INIT, INIT_ACK):
                flows.pop((segment.source, segment.destination), None)
            elif part.kind == DATA and len(part.body) >= 12:
                flow = flows.setdefault((segment.source, segment.destination), Flow())
                heard += [Heard(message, (time - started) // 10**9, from_mme, station, segment.packet)
                          for protocol, message in flow.take(part) if protocol in S1AP_PROTOCOLS]
    for text in said_of(reasons):
        warn(text)
    return heard
