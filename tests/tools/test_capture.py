"""tools/capture: the rows out and in again, packets that are made here by RFC 9260, RFC 791, RFC 8200 and the forms of capture
files, and where there is tshark, its look at what is written."""
import contextlib
import gzip
import io
import ipaddress
import itertools
import shutil
import struct
import subprocess
import tempfile
import unittest

from tests.tools import tools
from tools import captures as CAPTURES, runs as RUNS

CAPTURE = tools.module("tools/capture")

SETUP = bytes.fromhex("0011001f000003003b00080000f11000000010004000070000004000f1100089400140")
SETUP_RESPONSE = bytes.fromhex("201100170000020069000b000000f11000008001000100574001ff")
COMPLETE = bytes.fromhex("2017000f000002000040020001000840020001")
INITIAL = bytes.fromhex("000c403e000005000800020001001a00161507417108091010000000001002e06000040201d011004300060000f1100001"
                        "006440080000f110000010100086400130")
MME, STATION = ("10.1.0.1", 36412), ("10.1.0.9", 50000)

DATA, INIT, INIT_ACK, SACK, ABORT, COOKIE_ECHO, COOKIE_ACK, SHUTDOWN_COMPLETE = 0, 1, 2, 3, 6, 10, 11, 14
WHOLE, FIRST, MIDDLE, LAST = 3, 2, 0, 1


def events(trace):
    """The events that a capture can hold: ticks that follow each other are one, and what is refused isn't there."""
    found = []
    for event, known in zip(trace.events, RUNS.certain_answers(trace)):
        if known and known.fault in CAPTURE.REFUSED_EVENTS:
            continue
        if event.word in ("up", "lost", "in"):
            found.append((event.word, event.station, event.octets))
        elif event.word == "tick" and found and found[-1][0] == "tick":
            found[-1] = ("tick", found[-1][1] + event.ticks)
        elif event.word == "tick":
            found.append(("tick", event.ticks))
    return found


def events_in(lines):
    return events(RUNS.read_trace("\n".join(["mme 0 0 0 0 0 0 0", *lines]).encode()))


def written(name):
    """The capture that is made of a row."""
    done = tools.ran("capture", "out", tools.ROWS / (name + ".trace"), tools.ROWS / (name + ".answers"))
    assert done.returncode == 0, done.stderr
    return done.stdout


def capture_of(name):
    """The same, without a process."""
    path = tools.ROWS / name
    trace = RUNS.read_trace(path.with_suffix(".trace").read_bytes())
    steps = RUNS.matched(trace, RUNS.read_answers(path.with_suffix(".answers").read_bytes()))
    return trace, steps, b"".join(CAPTURE.pcapng(CAPTURE.write_steps(steps, trace.imsis), RUNS.end_of(steps)))


# --- Packets by the standards ---


def chunk(kind, body=b"", flags=0):
    octets = struct.pack(">BBH", kind, flags, 4 + len(body)) + body
    return octets + bytes(-len(octets) % 4)


def data(tsn, octets, number=0, stream=0, flags=WHOLE, protocol=18):
    return chunk(DATA, struct.pack(">IHHI", tsn, stream, number, protocol) + octets, flags)


def beginning(kind, tsn=1, parameters=b""):
    return chunk(kind, struct.pack(">IIHHI", 7, 65535, 2, 2, tsn) + parameters)


def sack(tsn):
    return chunk(SACK, struct.pack(">IIHH", tsn, 65535, 0, 0))


def sctp(source, destination, chunks, tag=7):
    return struct.pack(">HHII", source[1], destination[1], tag, 0) + b"".join(chunks)


def ip(source, destination, body):
    """RFC 791 clause 3.1 or RFC 8200 clause 3, by the addresses; no checksum."""
    ends = [ipaddress.ip_address(end[0]) for end in (source, destination)]
    packed = b"".join(end.packed for end in ends)
    if ends[0].version == 4:
        return struct.pack(">BBHHHBBH", 0x45, 0, 20 + len(body), 1, 0, 64, 132, 0) + packed + body
    return struct.pack(">IHBB", 6 << 28, len(body), 132, 64) + packed + body


def up(*chunks, station=STATION, mme=MME, tag=7):
    """From the station to the MME."""
    return ip(station, mme, sctp(station, mme, chunks, tag))


def down(*chunks, station=STATION, mme=MME):
    return ip(mme, station, sctp(mme, station, chunks))


def connected(station=STATION, mme=MME, tag=7, tsn=1):
    """The set-up of an association."""
    return [up(beginning(INIT, tsn), station=station, mme=mme, tag=0), down(beginning(INIT_ACK), station=station, mme=mme),
            up(chunk(COOKIE_ECHO, b"cookie"), station=station, mme=mme, tag=tag),
            down(chunk(COOKIE_ACK), station=station, mme=mme)]


def pcap(packets, link=101, order="<", magic=0xA1B2C3D4, seconds=None):
    """The form of libpcap."""
    octets = struct.pack(order + "IHHiIII", magic, 2, 4, 0, 0, 65535, link)
    for place, packet in enumerate(packets):
        second = seconds[place] if seconds else 1700000000
        octets += struct.pack(order + "IIII", second, 0, len(packet), len(packet)) + packet
    return octets


def lines_of(packets, by_port=False, **form):
    return CAPTURE.events_of(CAPTURE.read_capture(pcap(packets, **form)), by_port)


def in_line(octets, station=0):
    return "in %d %s" % (station, octets.hex() or "-")


WANTED = ["up 0", in_line(SETUP), in_line(INITIAL)]
PACKETS = connected() + [up(data(1, SETUP)), down(sack(1), data(1, SETUP_RESPONSE)), up(data(2, INITIAL, stream=1))]


class Parts(unittest.TestCase):
    def test_crc32c(self):
        """RFC 3720 annex B.4: 32 octets of zeros, of ones, rising, falling; low octet first as sent."""
        for octets, sent in ((bytes(32), "aa36918a"), (b"\xff" * 32, "43aba862"), (bytes(range(32)), "4e79dd46"),
                             (bytes(reversed(range(32))), "5cdb3f11")):
            with self.subTest(sent=sent):
                self.assertEqual(CAPTURE.crc32c(octets).to_bytes(4, "little").hex(), sent)

    def test_ip_checksum(self):
        """RFC 1071 clause 3: the sum of 0001 f203 f4f5 f6f7 is ddf2."""
        self.assertEqual(CAPTURE.ip_checksum(bytes.fromhex("0001f203f4f5f6f7")), ~0xDDF2 & 0xFFFF)

    def test_serial_numbers(self):
        """RFC 1982 clause 3.2, as TSNs go."""
        self.assertTrue(CAPTURES.after(0, 2**32 - 1))
        self.assertFalse(CAPTURES.after(2**32 - 1, 0))
        self.assertFalse(CAPTURES.after(5, 5))


class RoundTrip(unittest.TestCase):
    def test_rows(self):
        for name in tools.playable():
            with self.subTest(row=name):
                trace, _, octets = capture_of(name)
                self.assertEqual(events_in(CAPTURE.events_of(CAPTURE.read_capture(octets), False)), events(trace))

    def test_programs(self):
        """The same by the command line, with the provisioning at the head and by standard input."""
        trace = (tools.ROWS / "attach_whole.trace").read_text().splitlines()
        head = [line for line in trace if line.split()[0] in ("mme", "sub", "vec")]
        wanted = head + [line for line in trace if line.split()[0] in ("up", "in")]
        octets = written("attach_whole")
        with tempfile.NamedTemporaryFile("w", suffix=".subs") as file:
            file.write("\n".join(head))
            file.flush()
            done = tools.ran("capture", "in", "-", "--subscribers", file.name, given=octets)
        self.assertEqual((done.returncode, done.stderr), (0, b""))
        self.assertEqual(done.stdout.decode().splitlines(), wanted)

    def test_same_each_time(self):
        self.assertEqual(written("paging"), written("paging"))

    def test_ticks_before_and_behind(self):
        text = "mme 001 01 8001 01 internet 1 1\ntick 3\nup 7\ntick 1000000\ntick 1000000\nlost 7\ntick 5"
        trace = RUNS.read_trace(text.encode())
        steps = RUNS.matched(trace, [])
        octets = b"".join(CAPTURE.pcapng(CAPTURE.write_steps(steps, []), RUNS.end_of(steps)))
        self.assertEqual(CAPTURE.events_of(CAPTURE.read_capture(octets), False), text.split("\n")[1:])

    def test_comments(self):
        """Each answer is said with the packet that it is, or after the last one."""
        for name, texts in (("attach_whole", [b"s0: for subscriber 0, IMSI 001010000000001", b"e0: for station 0",
                                              b"state 001010000000001 REGISTERED IDLE ACTIVE"]),
                            ("up_twice", [b"refused 2: the station is connected already"]),
                            ("foreign_guti", [b"x0.2: for a stranger, eNB UE S1AP ID 2 at station 0"]),
                            ("unknown_imsi_of_data", [b"refused 5: nobody has this IMSI", b"refused 1: the station isn't connected"]),
                            ("paging", [b"then: data 001010000000001"])):
            for text in texts:
                with self.subTest(row=name, text=text):
                    self.assertIn(text, capture_of(name)[2])


class Links(unittest.TestCase):
    def test_links(self):
        tag = b"\x81\x00\x00\x05"
        addresses = bytes(12)
        for name, link, head in (
                ("Ethernet", 1, addresses + b"\x08\x00"), ("VLAN", 1, addresses + tag + b"\x08\x00"),
                ("two VLANs", 1, addresses + b"\x88\xa8\x00\x05" + tag + b"\x08\x00"),
                ("cooked v1", 113, bytes(14) + b"\x08\x00"), ("cooked v1, VLAN", 113, bytes(14) + tag + b"\x08\x00"),
                ("cooked v2", 276, b"\x08\x00" + bytes(18)), ("cooked v2, VLAN", 276, tag[:2] + bytes(18) + tag[2:] + b"\x08\x00"),
                ("null", 0, b"\x02\x00\x00\x00"), ("null of another order", 0, b"\x00\x00\x00\x02"), ("loop", 108, b"\x00\x00\x00\x02"),
                ("raw", 101, b""), ("raw of BSD", 12, b""), ("raw of OpenBSD", 14, b""), ("IPv4", 228, b"")):
            with self.subTest(link=name):
                self.assertEqual(lines_of([head + packet for packet in PACKETS], link=link), WANTED)

    def test_ipv6(self):
        ends = {"mme": ("fd00::1", 36412), "station": ("fd00::9", 50000)}
        packets = connected(**ends) + [up(data(1, SETUP), **ends), up(data(2, INITIAL, stream=1), **ends)]
        for name, link, head in (("Ethernet", 1, bytes(12) + b"\x86\xdd"), ("null", 0, b"\x1e\x00\x00\x00"), ("raw", 101, b""),
                                 ("IPv6", 229, b""), ("cooked v2", 276, b"\x86\xdd" + bytes(18))):
            with self.subTest(link=name):
                self.assertEqual(lines_of([head + packet for packet in packets], link=link), WANTED)

    def test_ipv6_extensions(self):
        """Hop by hop, then destination options (RFC 8200 clauses 4.3 and 4.6)."""
        packets = []
        for packet in [up(data(1, SETUP), station=("fd00::9", 50000), mme=("fd00::1", 36412))]:
            between = bytes([60, 0, 1, 4, 0, 0, 0, 0]) + bytes([132, 1]) + bytes([1, 12]) + bytes(12)
            length = len(packet) - 40 + len(between)
            packets.append(packet[:4] + struct.pack(">HB", length, 0) + packet[7:40] + between + packet[40:])
        self.assertEqual(lines_of(packets), ["# station 0 was connected before", "up 0", in_line(SETUP)])

    def test_files(self):
        """Both orders of octets, both units of time, and gzip."""
        for order in "<>":
            for magic in (0xA1B2C3D4, 0xA1B23C4D):
                with self.subTest(order=order, magic=magic):
                    self.assertEqual(lines_of(PACKETS, order=order, magic=magic), WANTED)
        squeezed = CAPTURE.read_capture(gzip.compress(pcap(PACKETS)))
        self.assertEqual(CAPTURE.events_of(squeezed, False), WANTED)

    def test_pcapng(self):
        """Both orders; an interface in nanoseconds; simple and old packets; what isn't known is skipped."""
        for order in "<>":
            for kind in ("enhanced", "simple", "old"):
                with self.subTest(order=order, kind=kind):
                    self.assertEqual(CAPTURE.events_of(CAPTURE.read_capture(pcapng(order, kind)), False), WANTED)


def pcapng(order, kind):
    def block(number, body):
        body += bytes(-len(body) % 4)
        return struct.pack(order + "II", number, 12 + len(body)) + body + struct.pack(order + "I", 12 + len(body))

    octets = block(0x0A0D0D0A, struct.pack(order + "IHHq", 0x1A2B3C4D, 1, 0, -1))
    octets += block(1, struct.pack(order + "HHI", 101, 0, 0) + struct.pack(order + "HHB3xHH", 9, 1, 9, 0, 0))
    octets += block(0xBAD, b"1234")
    for place, packet in enumerate(PACKETS):
        time = 1700000000 * 10**9 + place
        if kind == "enhanced":
            octets += block(6, struct.pack(order + "IIIII", 0, time >> 32, time & 0xFFFFFFFF, len(packet), len(packet)) + packet)
        elif kind == "old":
            octets += block(2, struct.pack(order + "HHIIII", 0, 0, time >> 32, time & 0xFFFFFFFF, len(packet), len(packet)) + packet)
        else:
            octets += block(3, struct.pack(order + "I", len(packet)) + packet)
    return octets


class Associations(unittest.TestCase):
    def check(self, packets, *wanted, **form):
        self.assertEqual(lines_of(packets, **form), list(wanted))

    def test_several_chunks(self):
        self.check(connected() + [up(sack(1), data(1, SETUP), data(2, INITIAL, stream=1), data(3, COMPLETE, number=1, stream=1))],
                   *WANTED, in_line(COMPLETE))

    def test_data_with_the_cookie(self):
        packets = connected()
        packets[2] = up(chunk(COOKIE_ECHO, b"cookie"), data(1, SETUP))
        self.check(packets, "up 0", in_line(SETUP))

    def test_fragments(self):
        """In turn, turned round, in one packet, and over the end of the TSNs."""
        parts = [data(2**32 - 1, SETUP[:9], flags=FIRST), data(0, SETUP[9:20], flags=MIDDLE), data(1, SETUP[20:], flags=LAST)]
        before = connected(tsn=2**32 - 1)
        for order in ((0, 1, 2), (2, 1, 0), (1, 0, 2)):
            self.check(before + [up(parts[place]) for place in order], "up 0", in_line(SETUP))
        self.check(before + [up(*parts)], "up 0", in_line(SETUP))

    def test_sent_again(self):
        self.check(PACKETS[:5] + [up(data(1, SETUP))] + PACKETS[5:] + [up(data(2, INITIAL, stream=1))], *WANTED)

    def test_fragment_sent_again(self):
        first, last = data(1, SETUP[:9], flags=FIRST), data(2, SETUP[9:], flags=LAST)
        self.check(connected() + [up(part) for part in (first, first, last, last, first)], "up 0", in_line(SETUP))

    def test_order_of_a_stream(self):
        """A message waits for the one before it in its stream, and for none of another stream."""
        packets = [up(data(3, COMPLETE, number=1, stream=1)), up(data(1, SETUP)), up(data(2, INITIAL, stream=1))]
        self.check(connected() + packets, *WANTED, in_line(COMPLETE))

    def test_acknowledged_but_not_captured(self):
        """What the MME has, it has: nothing waits for a message that only the capture lacks."""
        packets = [up(data(1, SETUP)), up(data(3, COMPLETE, number=1, stream=1)), down(sack(2)), down(sack(3)),
                   up(data(4, INITIAL, number=2, stream=1))]
        self.check(connected() + packets, "up 0", in_line(SETUP), in_line(COMPLETE), in_line(INITIAL))

    def test_acknowledged_and_captured_late(self):
        """What was given up and comes after all is heard then."""
        packets = [up(data(1, SETUP)), up(data(3, COMPLETE, number=1, stream=1)), down(sack(3)), up(data(2, INITIAL, stream=1)),
                   up(data(4, SETUP, number=2, stream=1))]
        self.check(connected() + packets, "up 0", in_line(SETUP), in_line(COMPLETE), in_line(INITIAL), in_line(SETUP))

    def test_what_waits_at_the_end(self):
        self.check(connected() + [up(data(2, INITIAL, number=1))], "up 0", in_line(INITIAL))
        self.check(connected() + [up(data(2, INITIAL, number=1)), up(chunk(ABORT))], "up 0", in_line(INITIAL), "lost 0")

    def test_unordered(self):
        self.check(connected() + [up(data(2, INITIAL, number=9, flags=WHOLE | 4))], "up 0", in_line(INITIAL))

    def test_ends(self):
        for ending in (up(chunk(ABORT)), down(chunk(ABORT, flags=1)), up(chunk(SHUTDOWN_COMPLETE)), down(chunk(SHUTDOWN_COMPLETE))):
            self.check(PACKETS + [ending, ending], *WANTED, "lost 0")

    def test_restart(self):
        """Another set-up by the same station begins anew; a cookie that is sent again doesn't."""
        self.check(PACKETS + connected(tag=8) + [up(data(1, SETUP), tag=8)], *WANTED, "lost 0", "up 0", in_line(SETUP))
        self.check(PACKETS[:4] + PACKETS[2:4] + PACKETS[4:], *WANTED)

    def test_refused_connection(self):
        """ABORT on INIT ends no association that there isn't."""
        self.check([up(beginning(INIT), tag=0), down(chunk(ABORT, flags=1))] + PACKETS, *WANTED)

    def test_begun_before(self):
        self.check(PACKETS[4:], "# station 0 was connected before", *WANTED)

    def test_seconds(self):
        """Whole seconds since the first event."""
        seconds = [100, 100, 100, 100, 101, 101, 3103]
        self.check(PACKETS, "up 0", "tick 1", in_line(SETUP), "tick 3002", in_line(INITIAL), seconds=seconds)

    def test_two_stations(self):
        other = ("10.1.0.10", 50000)
        packets = PACKETS + connected(other) + [up(data(1, SETUP), station=other), up(chunk(ABORT), station=other)]
        self.check(packets, *WANTED, "up 1", in_line(SETUP, 1), "lost 1")

    def test_by_port(self):
        other = (STATION[0], 50001)
        packets = PACKETS + connected(other) + [up(data(1, SETUP), station=other)]
        self.check(packets, *WANTED, "up 1", in_line(SETUP, 1), by_port=True)
        with self.assertRaisesRegex(RUNS.Fault, "--by-port"):
            lines_of(packets + [up(data(3, COMPLETE, number=1, stream=1))])

    def test_two_addresses_of_a_station(self):
        """INIT names the second (RFC 9260 clause 3.3.2.1), and a message comes from it."""
        other = ("10.2.0.9", STATION[1])
        packets = list(PACKETS)
        packets[0] = up(beginning(INIT, parameters=struct.pack(">HH", 5, 8) + ipaddress.ip_address(other[0]).packed), tag=0)
        packets[-1] = up(data(2, INITIAL, stream=1), station=other)
        self.check(packets, *WANTED)

    def test_same_ports(self):
        """Where both ends have S1AP's port, the set-up or the messages tell who the MME is."""
        other = (STATION[0], 36412)
        self.check(connected(other) + [up(data(1, SETUP), station=other)], "up 0", in_line(SETUP))
        self.check([down(data(1, SETUP_RESPONSE), station=other), up(data(1, SETUP), station=other)],
                   "# station 0 was connected before", "up 0", in_line(SETUP))

    def test_other_port(self):
        """Another port than S1AP's, told by the protocol identifier; Diameter beside it (RFC 6733) is none of it."""
        ends = {"mme": ("10.1.0.1", 40000)}
        diameter = {"station": ("10.1.0.1", 41000), "mme": ("10.1.0.5", 3868)}
        packets = connected(**diameter) + [up(data(1, b"\1\0\0\x14", protocol=46), **diameter)]
        self.check(packets + connected(**ends) + [up(data(1, SETUP), **ends)], "up 0", in_line(SETUP))

    def test_protocol_identifiers(self):
        for protocol, heard in ((18, True), (0x12000000, True), (0, True), (46, False)):
            packets = PACKETS + [up(data(3, COMPLETE, number=1, stream=1, protocol=protocol))]
            self.check(packets, *WANTED, *[in_line(COMPLETE)] * heard)

    def test_other_packets(self):
        """Other protocols and short frames are passed over."""
        tcp = ip(STATION, MME, bytes(20))
        self.check([tcp[:9] + b"\x06" + tcp[10:], b"", b"\x45"[:0]] + PACKETS, *WANTED)


class Faults(unittest.TestCase):
    def check(self, octets, told, *words):
        done = tools.ran("capture", "in", "-", *words, given=octets)
        self.assertEqual((done.returncode, done.stdout), (2, b""))
        self.assertIn(told, done.stderr)
        self.assertNotIn(b"Traceback", done.stderr)
        self.assertEqual(done.stderr.count(b"\n"), 1)

    def test_files(self):
        good = pcap(PACKETS)
        for octets, told in (
                (b"", b"neither pcap nor pcapng"), (b"text\n" * 9, b"neither pcap nor pcapng"), (good[:20], b"cut"),
                (good[:-1], b"it ends within what follows packet 6"), (good[:30], b"it ends within what follows packet 0"),
                (gzip.compress(good)[:-9], b"gzip file is damaged"), (pcap([]), b"no S1AP over SCTP from a station in 0 packets"),
                (pcap(PACKETS, link=147), b"link type 147 isn't known here"), (pcap([down(data(1, SETUP_RESPONSE))]), b"no S1AP"),
                (pcap(connected()), b"no S1AP"), (pcap([up(data(1, SETUP))[:40]]), b"cut within IPv4"),
                (pcapng("<", "enhanced")[:-3], b"it ends within what follows packet 6"), (pcapng("<", "enhanced")[:100], b"cut")):
            with self.subTest(told=told):
                self.check(octets, told)

    def test_fragments_of_ip(self):
        packet = up(data(1, SETUP))
        self.check(pcap([packet[:6] + b"\x20\x00" + packet[8:]]), b"packet 1: a fragment of IPv4")

    def test_wrong_chunk(self):
        packet = up(data(1, SETUP))
        self.check(pcap([packet[:34] + b"\xff\xff" + packet[36:]]), b"a chunk of SCTP with a wrong length")

    def test_too_many_stations(self):
        stations = [("10.1.1.%d" % number, 50000) for number in range(1, 130)]
        self.check(pcap([up(data(1, SETUP), station=station) for station in stations]), b"more than 128 stations")

    def test_subscribers(self):
        with tempfile.NamedTemporaryFile("w", suffix=".subs") as file:
            file.write("mme 001 01 8001 01 internet 1 1\nup 0\n")
            file.flush()
            self.check(pcap(PACKETS), b"line 2: only mme, sub and vec", "--subscribers", file.name)
        self.check(pcap(PACKETS), b"No such file", "--subscribers", "/nowhere")

    def test_out(self):
        """Wrong traces and answers."""
        rows = tools.ROWS
        for words, told in (
                ((rows / "bad_hex.trace", rows / "bad_hex.answers"), b"line 3: '0g' aren't octets in hex"),
                ((rows / "setup.trace", rows / "up_twice.answers"), b"answers aren't those to this trace"),
                ((rows / "setup.trace", rows / "setup.trace"), b"line 1: no line begins with 'mme'"),
                ((rows / "none.trace", rows / "setup.answers"), b"No such file"), (("-", "-"), b"standard input is one file"),
                ((rows, rows / "setup.answers"), b"directory"), ((rows / "setup.trace", "--mme", "/nowhere"), b"No such file")):
            with self.subTest(told=told):
                done = tools.ran("capture", "out", *words)
                self.assertEqual((done.returncode, done.stdout), (2, b""))
                self.assertIn(told, done.stderr)
                self.assertNotIn(b"Traceback", done.stderr)

    def test_any_octets(self):
        """Whatever is turned in a capture, there is a trace or a text."""
        good = pcapng("<", "enhanced")
        for place in range(0, len(good), 3):
            for octets in (good[:place], good[:place] + bytes([good[place] ^ 0xFF]) + good[place + 1:]):
                with contextlib.suppress(RUNS.Fault), contextlib.redirect_stderr(io.StringIO()):
                    self.assertIsInstance(CAPTURE.events_of(CAPTURE.read_capture(octets), False), list)


def dissected(octets, *fields):
    """What tshark sees in each packet: these fields."""
    words = ["tshark", "-r", "-", "-o", "sctp.checksum:crc-32c", "-o", "sctp.tsn_analysis:FALSE", "-T", "fields"]
    for field in fields:
        words += ["-e", field]
    done = subprocess.run(words, input=octets, capture_output=True, timeout=60, check=True)
    return [line.split("\t") for line in done.stdout.decode().split("\n")[:-1]]


# The rows that are meant to have messages which can't be read: how many of them tshark 4.0 calls malformed, and why.
UNREADABLE = {
    "attach_refused_in_order": (1, "a PDN CONNECTIVITY REQUEST that is cut in ATTACH REQUEST"),
    "attach_unreadable": (1, "ATTACH REQUEST that is cut after its type"),
    "empty_octets": (1, "a message of no octets"),
    "reset_of_no_part": (5, "RESET with thirteen lists that are none; tshark takes eight, whose octets aren't those of the encoding"),
    "setup_cut": (70, "S1 SETUP REQUEST cut before each of its octets, twice"),
}


@unittest.skipUnless(shutil.which("tshark"), "no tshark")
class Tshark(unittest.TestCase):
    def test_rows(self):
        """Each message is S1AP of the procedure that it is and none is malformed, but for those that the rows in UNREADABLE are
        meant to have: stations send them, and tshark finds just as many."""
        names, rows, wanted = tools.playable(), b"", {}
        for name in names:
            _, steps, octets = capture_of(name)
            rows += octets
            wanted[name] = list(self.expected(steps))
        seen = iter(dissected(rows, "frame.protocols", "_ws.malformed", "sctp.checksum.status", "s1ap.procedureCode"))
        for name in names:
            with self.subTest(row=name):
                packets = list(itertools.islice(seen, len(wanted[name])))
                unreadable = 0
                for (octets, heard), (protocols, malformed, checksum, procedure) in zip(wanted[name], packets, strict=True):
                    self.assertEqual(checksum, "1")
                    self.assertTrue(heard or not malformed, malformed)
                    unreadable += bool(malformed)
                    if not malformed:
                        self.assertEqual(":s1ap" in protocols, octets is not None)
                        self.assertEqual(procedure, "" if octets is None else str(octets[1]))
                count, why = UNREADABLE.get(name, (0, "nothing that can't be read"))
                self.assertEqual(unreadable, count, "meant to have " + why)
        self.assertEqual(list(seen), [])
        self.assertEqual(set(UNREADABLE) - set(names), set())

    @staticmethod
    def expected(steps):
        """For each packet its message, or nothing, and whether a station sent it."""
        for step in steps:
            if CAPTURE.is_refused(step):
                continue
            if step.event.word == "in":
                yield step.event.octets, True
            for _ in range({"up": 4, "lost": 1}.get(step.event.word, 0)):
                yield None, False
            for _, answer in step.answers:
                if answer.word == "out":
                    yield answer.octets, False

    def test_times_and_comments(self):
        """Second 30 and what is said there."""
        seen = dissected(capture_of("attach_unanswered")[2], "frame.time_epoch", "frame.comment")
        self.assertEqual([int(float(time)) for time, _ in seen], [0] * 8 + [6, 12, 18, 24, 30])
        self.assertIn("state 001010000000001 DEREGISTERED IDLE INACTIVE", seen[-1][1])

    def test_its_own_files(self):
        """What Wireshark's programs write of a capture is read as the capture."""
        trace, _, octets = capture_of("tau_moves_paging")
        for words in (["-F", "pcap"], ["-F", "nsecpcap"], ["-F", "pcapng"]):
            with self.subTest(words=words):
                done = subprocess.run(["tshark", "-r", "-", "-w", "-", *words], input=octets, capture_output=True, timeout=60,
                                      check=True)
                self.assertEqual(events_in(CAPTURE.events_of(CAPTURE.read_capture(done.stdout), False)), events(trace))
