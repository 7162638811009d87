#!/usr/bin/env python3
"""What test_front_sctp.py runs under a kernel with SCTP: a front with a stand-in for the MME, and stations at addresses of their
own, by SCTP, and by TCP where one vanishes. Writes into a file, by each test's name, nothing where it passed and else why not,
as soon as that is known. Tests that stand there already aren't run again. Where none has ended for minutes, it says where each
thread stands, and ends.

    sctp_inside.py RESULTS CASE ..
"""
import contextlib
import faulthandler
import json
import os
import pathlib
import signal
import socket
import struct
import subprocess
import sys
import tempfile
import threading
import time
import traceback
import unittest

if __name__ == "__main__":
    sys.path[0] = str(pathlib.Path(__file__).resolve().parents[2])
from bench import kills, wire
from reference import lte as LTE, phones as PHONES
from tests.tools.fronted import PATIENCE, PROGRAM, SLOW, Running
from tools.fronting import sctp

SERVER, SECOND = "10.0.0.1", "10.0.0.2"
S1AP, OTHER_PROTOCOL = 18, 60
RECEIVE_INFORMATION_ON, RECEIVE_INFORMATION, PRIMARY = 32, 3, 6
# Seconds in which a peer that vanished is missed: 13 to 30 where the machine has nothing else to do; without what the front sets,
# SCTP takes minutes, and TCP two hours.
MISSED = 90
STUCK = 240  # seconds in which no test ended
LEFT_OUT = "left out: "
STARTING = threading.Lock()  # one front starts at a time, and the others wait: five at once take half a minute on a busy machine
COMMON = bytes.fromhex("201100170000020069000b000000f11000008001000100574001ff")  # S1 SETUP RESPONSE


def ip(*words):
    subprocess.run(["ip", *words], check=True)


def peer_address(number):
    """An address of a peer of its own."""
    return "10.0.%d.%d" % (1 + number // 200, 1 + number % 200)


def lay_addresses():
    """Addresses for the front and its peers, and room before the table of what is local for rules that cut a peer off."""
    ip("rule", "add", "pref", "10", "lookup", "local")
    ip("rule", "del", "pref", "0", "lookup", "local")
    for address in (SERVER, SECOND, *(peer_address(number) for number in range(160))):
        ip("addr", "add", address + "/32", "dev", "lo")


@contextlib.contextmanager
def cut_off(one, other=None):
    """Nothing passes between an address and another, or any."""
    ways = [["from", one] + (["to", other] if other else []), ["to", one] + (["from", other] if other else [])]
    for way in ways:
        ip("rule", "add", "pref", "5", *way, "blackhole")
    try:
        yield
    finally:
        for way in ways:
            ip("rule", "del", "pref", "5", *way, "blackhole")


class Peer:
    """A station's association."""

    def __init__(self, port, number, streams=10, local_port=0):
        self.address = peer_address(number)
        self.socket = socket.socket(socket.AF_INET, socket.SOCK_STREAM, socket.IPPROTO_SCTP)
        self.socket.settimeout(PATIENCE)
        self.socket.setsockopt(socket.IPPROTO_SCTP, sctp.INIT, struct.pack("=HHHH", streams, streams, 0, 0))
        self.socket.setsockopt(socket.IPPROTO_SCTP, RECEIVE_INFORMATION_ON, 1)
        self.socket.setsockopt(socket.IPPROTO_SCTP, sctp.NODELAY, 1)
        self.socket.bind((self.address, local_port))
        self.socket.connect((SERVER, port))
        self.port = self.socket.getsockname()[1]

    def send(self, octets, stream=0, protocol=S1AP):
        information = struct.pack("=HHIIi", stream, 0, socket.htonl(protocol), 0, 0)
        self.socket.sendmsg([octets], [(socket.IPPROTO_SCTP, sctp.SEND_INFORMATION, information)])

    def receive(self):
        """A message, its stream and its protocol identifier."""
        octets, others = b"", []
        while True:
            part, others, flags, _ = self.socket.recvmsg(1 << 16, 512)
            octets += part
            if flags & socket.MSG_EOR or not part:
                break
        found = [data for level, kind, data in others if (level, kind) == (socket.IPPROTO_SCTP, RECEIVE_INFORMATION)]
        if not found:
            return octets, None, None
        stream, protocol = struct.unpack_from("=H", found[0])[0], socket.ntohl(struct.unpack_from("=I", found[0], 8)[0])
        return octets, stream, protocol

    def says(self, octets):
        self.send(octets)
        return self.receive()

    def abort(self):
        self.socket.setsockopt(socket.SOL_SOCKET, socket.SO_LINGER, struct.pack("ii", 1, 0))
        self.socket.close()


def downlink(enb_id):
    """A message for a phone."""
    return LTE.downlink_nas(0x10001, enb_id, b"\x07\x60\x6f")


def ready(test, *words, **others):
    """A front that serves."""
    with STARTING:
        running = Running(test, "--listen", SERVER, *words, **others)
    test.assertIn(b"ready: ", running.told)
    return running


class Front(unittest.TestCase):
    """One front for each test, which stations reach at two addresses."""

    def running(self, *words, **others):
        return ready(self, "--listen", SECOND, *words, link="--sctp", **others)

    def lost(self, running, seconds):
        """Waits for station 0 to be lost; how long that took."""
        begun = time.monotonic()
        while "lost 0" not in running.events():
            self.assertLess(time.monotonic() - begun, seconds)
            time.sleep(0.05)
        return time.monotonic() - begun

    def test_one_station(self):
        """What is no phone's goes by stream 0, a phone's by another that stays its own (TS 36.412 clause 7), all as protocol 18."""
        running = self.running()
        peer = Peer(running.port, 0)
        self.assertEqual(peer.says(COMMON), (COMMON, 0, S1AP))
        streams = {}
        for enb_id in (*range(1, 40), *range(1, 40)):
            octets, stream, protocol = peer.says(downlink(enb_id))
            self.assertEqual((octets, protocol), (downlink(enb_id), S1AP))
            self.assertIn(stream, range(1, 10))
            self.assertEqual(streams.setdefault(enb_id, stream), stream)
        self.assertEqual(set(streams.values()), set(range(1, 10)))
        self.assertEqual(running.stop()[0], 0)

    def test_one_stream(self):
        """Where there is no other stream, all goes by the first."""
        running = self.running()
        peer = Peer(running.port, 0, streams=1)
        self.assertEqual(peer.says(downlink(7)), (downlink(7), 0, S1AP))

    def test_128_stations(self):
        """All at once, each with its own answers; the 129th isn't taken."""
        running = self.running()
        peers = [Peer(running.port, number) for number in range(128)]
        for number, peer in enumerate(peers):
            peer.send(b"station %d" % number)
        for number, peer in enumerate(peers):
            self.assertEqual(peer.receive()[0], b"station %d" % number)
        further = Peer(running.port, 140)
        with contextlib.suppress(ConnectionError):
            self.assertEqual(further.receive()[0], b"")
        self.assertEqual(len([line for line in running.events() if line.startswith("up ")]), 128)
        self.assertEqual(running.stop()[0], 0)
        self.assertEqual(running.told.count(b"there are 128 stations already"), 1)

    def test_abort_and_shutdown(self):
        running = self.running()
        other = Peer(running.port, 1)
        self.assertEqual(other.says(b"here")[0], b"here")
        for end, why in ((Peer.abort, b"Connection reset by peer"), (lambda peer: peer.socket.close(), b"it ended the connection")):
            peer = Peer(running.port, 2)
            self.assertEqual(peer.says(b"there")[0], b"there")
            before = running.events().count("lost 1")
            end(peer)
            running.until(lambda: running.events().count("lost 1") > before)
            self.assertEqual(other.says(b"still")[0], b"still")
            running.until(lambda: why in running.said())

    def test_restart_with_fewer_streams(self):
        """A peer that comes anew from where it was is lost and up again, and its answers go by the streams that it has now."""
        running = self.running()
        first = Peer(running.port, 3)
        self.assertGreater(first.says(downlink(5))[1], 0)
        with cut_off(first.address):
            first.abort()
        second = Peer(running.port, 3, streams=1, local_port=first.port)
        self.assertEqual(second.says(downlink(6)), (downlink(6), 0, S1AP))
        self.assertEqual(running.events(), ["up 0", "in 0 " + downlink(5).hex(), "lost 0", "up 0", "in 0 " + downlink(6).hex()])

    def test_vanished_while_idle(self):
        """Noticed, by heartbeats."""
        running = self.running()
        peer, other = Peer(running.port, 150), Peer(running.port, 151)
        self.assertEqual(peer.says(b"here")[0], b"here")
        with cut_off(peer.address):
            self.lost(running, MISSED)
        self.assertEqual(other.says(b"still")[0], b"still")

    def test_vanished_with_data_pending(self):
        """Noticed, by what isn't acknowledged."""
        running = self.running()
        peer = Peer(running.port, 152)
        for _ in range(20):
            peer.send(SLOW)
        running.until(lambda: running.events()[-1:] == ["in 0 f0"])
        with cut_off(peer.address):
            self.lost(running, MISSED)

    def test_second_address(self):
        """Where the way to the first address is cut, the association goes on by the second."""
        running = self.running()
        peer = Peer(running.port, 7)
        self.assertEqual(peer.says(b"one")[0], b"one")
        with cut_off(peer.address, SERVER):
            self.assertEqual(peer.says(b"two")[0], b"two")
        self.assertEqual(running.events(), ["up 0", "in 0 6f6e65", "in 0 74776f"])

    def test_long_messages(self):
        """19,996 octets are a line of a trace; 20,000 aren't, and end the association alone."""
        running = self.running()
        peer, other = Peer(running.port, 8), Peer(running.port, 9)
        longest = bytes(range(256)) * 78 + bytes(28)
        peer.send(longest)
        self.assertEqual(peer.receive()[0], longest[:15000])
        peer.send(bytes(20000))
        self.lost(running, PATIENCE)
        self.assertEqual(other.says(b"still")[0], b"still")
        running.until(lambda: b"a message of more than 19996 octets" in running.said())

    def test_slow_reader(self):
        """What doesn't go at once waits, and all of it comes."""
        running = self.running()
        peer = Peer(running.port, 10)
        messages = [bytes([number]) * 9000 for number in range(100)]
        for message in messages:
            peer.send(message)
        time.sleep(0.5)
        self.assertEqual([peer.receive()[0] for _ in messages], messages)

    def test_sctp_darn(self):
        """A stranger's program: its lines are messages, and get their answers."""
        running = self.running()
        darn = subprocess.run(["sctp_darn", "-H", peer_address(11), "-P", "5001", "-h", SERVER, "-p", str(running.port), "-s"],
                              input=b"hello\nworld\n", capture_output=True, timeout=PATIENCE, check=False)
        running.until(lambda: "lost 0" in running.events())
        self.assertEqual(running.events()[0], "up 0", darn.stderr)
        heard = bytes.fromhex("".join(line.split(" ")[2] for line in running.events() if line.startswith("in 0 ")))
        self.assertIn(b"hello", heard)
        self.assertIn(b"world", heard)

    def test_sctp_test(self):
        """Another one, which sends as fast as it can and then aborts; where that is before the front has accepted, it is tried
        again."""
        running = self.running()
        other = Peer(running.port, 13)
        self.assertEqual(other.says(b"here")[0], b"here")
        for _ in range(10):
            subprocess.run(["sctp_test", "-H", peer_address(12), "-P", "5002", "-h", SERVER, "-p", str(running.port), "-s",
                            "-c", "0", "-x", "50", "-T"], capture_output=True, timeout=PATIENCE, check=False)
            running.until(lambda: "lost 1" in running.events() or b"isn't taken" in running.said())
            if any(line.startswith("in 1 ") for line in running.events()):
                break
        self.assertEqual({line for line in running.events() if line.startswith("in 1 ")}, {"in 1 00"})
        self.assertEqual(other.says(b"still")[0], b"still")

    @unittest.skipUnless(PROGRAM.exists(), "the program isn't built (./mme --prove)")
    def test_attach(self):
        """A phone attaches through the program itself, and is released."""
        trace = PHONES.Trace()
        phone = PHONES.Phone(trace, 0, [PHONES.Vector.made("sctp")])
        trace.provision([phone])
        head = trace.text()
        station = PHONES.Station(0)
        trace.set_up(station)
        phone.attaches(station, 1)
        phone.is_released()
        owed = [bytes.fromhex(line.split(" ")[3]) for line in trace.answers]
        running = self.running(head=head, program=PROGRAM)
        peer, got = Peer(running.port, 14), []
        reading = threading.Thread(target=lambda: got.extend(peer.receive()[0] for _ in owed))
        reading.start()
        for line in trace.lines:
            if line.startswith("in "):
                peer.send(bytes.fromhex(line.split(" ")[2]))
        reading.join(PATIENCE)
        self.assertEqual([octets.hex() for octets in got], [octets.hex() for octets in owed])
        self.assertEqual(running.asks("show", phone.imsi), "state %s %s\n" % (phone.imsi, PHONES.IDLE))

    def test_wire(self):
        """The connections of a storm's stations: messages stay apart, and those that came before an end are still taken."""
        running = Running(self, link="--sctp")
        ours = wire.SctpWire(running.port)
        self.addCleanup(ours.close)
        for octets in (b"one", bytes(15000), b"two"):
            ours.put(octets)
        running.until(lambda: len(running.events()) == 4)
        self.assertEqual(running.stop()[0], 0)
        got = []
        running.until(lambda: got.extend(ours.take()) or ours.has_ended)
        self.assertEqual(got, [b"one", bytes(15000), b"two"])

    def test_wire_that_is_cut(self):
        """The end is noticed where it is told to what is sent, too."""
        running = Running(self, link="--sctp")
        ours = wire.SctpWire(running.port)
        self.addCleanup(ours.close)
        ours.put(b"one")
        running.until(lambda: len(running.events()) == 2)
        running.process.send_signal(signal.SIGSTOP)
        ours.put(b"two")  # which isn't read, so the association is aborted
        running.stop(signal.SIGKILL)
        ours.put(b"three")
        running.until(lambda: ours.take() or ours.has_ended)
        self.assertTrue(ours.is_cut)

class Storm(unittest.TestCase):
    """A short storm of phones while the front is killed and begun again (bench/kills.py): nothing is used twice."""

    program = PROGRAM  # of the front

    @unittest.skipUnless(PROGRAM.exists(), "the program isn't built (./mme --prove)")
    def test_kills(self):
        given = kills.parser().parse_args("--sctp --runs 2 --run-seconds 3 --phones 5 --vectors 6 --ends kill clean".split())
        given.mme, said = self.program, []
        with tempfile.TemporaryDirectory() as folder:
            storm = kills.Storm(given, folder, said.append)
            self.assertEqual(storm.blow(), 0, "\n".join(said))
        self.assertEqual(storm.counted["beginnings that went on"], 2, "\n".join(said))


class StormOfLibrary(Storm):
    """The same with the shared object that SOIZKADUR_LIBRARY names, for tests/library/test_fronting.py."""

    program = wire.LIBRARY


class ByTcp(unittest.TestCase):
    """A front that stations reach by TCP."""

    lost = Front.lost

    def connected(self, number):
        """A front and a station, which has an address of its own."""
        running = ready(self)
        station = self.enterContext(socket.create_connection((SERVER, running.port), PATIENCE, (peer_address(number), 0)))
        station.sendall(b"\0\4here")
        self.assertEqual(station.recv(6), b"\0\4here")
        return running, station

    def test_tcp_vanished_while_idle(self):
        """Noticed, by probes."""
        running, _ = self.connected(153)
        with cut_off(peer_address(153)):
            self.lost(running, MISSED)

    def test_tcp_vanished_with_data_pending(self):
        """Noticed, by what isn't acknowledged."""
        running, station = self.connected(154)
        station.sendall(20 * (b"\0\1" + SLOW))
        running.until(lambda: running.events()[-1:] == ["in 0 f0"])
        with cut_off(peer_address(154)):
            self.lost(running, MISSED)


class Named(unittest.TestResult):
    """A result that keeps why each test failed, by its name, in a file."""

    def __init__(self, path):
        super().__init__()
        self.path, self.writing = path, threading.Lock()
        self.found = json.loads(path.read_text()) if path.exists() else {}

    def keep(self, test, fault):
        with self.writing:
            faulthandler.dump_traceback_later(STUCK, exit=True)
            self.found[name_of(test)] = fault
            whole = self.path.with_suffix(".new")
            whole.write_text(json.dumps(self.found))
            os.replace(whole, self.path)

    def addSuccess(self, test):
        self.keep(test, None)

    def addFailure(self, test, err):
        self.keep(test, "".join(traceback.format_exception(*err)))

    addError = addFailure

    def addSkip(self, test, reason):
        self.keep(test, LEFT_OUT + reason)


def name_of(test):
    return test.id().split(".")[-1]


def all_tests(cases):
    """Those of the cases of these names."""
    return [test for case in cases for test in unittest.defaultTestLoader.loadTestsFromTestCase(globals()[case])]


def main():
    path = pathlib.Path(sys.argv[1])
    lay_addresses()
    faulthandler.dump_traceback_later(STUCK, exit=True)
    result = Named(path)
    tests = [test for test in all_tests(sys.argv[2:]) if name_of(test) not in result.found]
    # Those that wait for a peer to be missed run beside the others.
    waiting = [threading.Thread(target=test.run, args=(result,)) for test in tests if "vanished" in name_of(test)]
    for thread in waiting:
        thread.start()
    for test in tests:
        if "vanished" not in name_of(test):
            test.run(result)
    for thread in waiting:
        thread.join()


if __name__ == "__main__":
    main()
