"""tools/front: stations, floods, ends, the control socket and words, against a stand-in for the MME; and the whole round against
the program itself, where it is built: what phones are owed comes from reference/phones.py, and what they got from the log, played
again."""
import collections
import contextlib
import os
import pathlib
import random
import resource
import signal
import socket
import stat
import subprocess
import tempfile
import threading
import time
import unittest
import unittest.mock

from reference import phones as PHONES
from tests.tools import tools
from tests.tools.fronted import BABBLES, ENDS, HEAD, IMSI, KILLS, MANY, NOBODY, PROGRAM, SLOW, Connected, Running, said
from tools import runs as RUNS
from tools.fronting import limits

HAS_SCTP = "SCTP" in pathlib.Path("/proc/net/protocols").read_text(encoding="ascii")

# --- A front that runs, with the stand-in ---


class Stations(unittest.TestCase):
    def test_round(self):
        """Numbers, the log, and that each message goes to the station that it is for."""
        running = Running(self)
        stations = [running.station() for _ in range(3)]
        for octets in (b"a", b"bcd", b""):
            for place, station in enumerate(stations):
                message = bytes([place]) + octets
                self.assertEqual(station.says(message), message)
        stations[1].close()
        running.until(lambda: "lost 1" in running.events())
        again = running.station()
        self.assertEqual(again.says(b"again"), b"again")
        further = running.station()
        self.assertEqual(further.says(b"more"), b"more")
        self.assertEqual(running.stop()[0], 0)
        self.assertEqual(running.log.read_text()[:len(HEAD)], HEAD)
        sent = ["in %d %02x%s" % (place, place, octets) for octets in ("61", "626364", "") for place in range(3)]
        self.assertEqual(running.events(), ["up 0", "up 1", "up 2", *sent, "lost 1", "up 1", "in 1 616761696e", "up 3",
                                            "in 3 6d6f7265", "lost 0", "lost 1", "lost 2", "lost 3"])
        self.assertFalse(running.control.exists())

    def test_answers_to_a_connection_before(self):
        """They aren't given to the one that has its number now."""
        running = Running(self)
        first = running.station()
        first.send(SLOW + b"first")
        running.until(lambda: running.events()[-1] == "in 0 f06669727374")
        first.close()
        running.until(lambda: running.events()[-1] == "lost 0")
        second = running.station()
        self.assertEqual(second.says(b"second"), b"second")
        self.assertEqual(running.events()[2:], ["lost 0", "up 0", "in 0 7365636f6e64"])

    def test_faults_of_connections(self):
        """Each ends its own connection alone."""
        running = Running(self)
        other = running.station()

        def cut(station):
            station.socket.sendall(b"\0\5hel")
            station.close()

        for place, (fault, why) in enumerate((
                (lambda station: station.socket.sendall(b"GET / HTTP/1.1\r\n\r\n" * 2000), None),
                (lambda station: station.socket.sendall(b"\xff\xff"), "a message of 65535 octets"),
                (cut, "it ended within a message"),
                (Connected.reset, "Connection reset by peer"), (Connected.close, "it ended the connection")), 1):
            with self.subTest(why=why):
                station = running.station()
                fault(station)
                if not why:
                    station.close()
                running.until(lambda: running.events()[-1] == "lost 1")
                self.assertEqual(other.says(b"%d" % place), b"%d" % place)
        status, told = running.stop()
        self.assertEqual(status, 0)
        for why in ("a message of 65535 octets", "it ended within a message", "Connection reset by peer",
                    "it ended the connection"):
            self.assertEqual(told.count("station 1: lost: " + why), 1)
        self.assertNotIn("Traceback", told)

    def test_too_many(self):
        """The 129th connection is closed, and whoever is there stays; a half message that stays hinders nobody."""
        running = Running(self)
        made = [Connected(running.port) for _ in range(RUNS.STATIONS)]
        running.connections += made
        running.until(lambda: running.events().count("up 127"))
        made[5].socket.sendall(b"\0\5hel")
        further = Connected(running.port)
        self.assertTrue(further.has_ended())
        further.close()
        for station in made[:5] + made[6:]:
            station.send(b"here")
        for station in made[:5] + made[6:]:
            self.assertEqual(station.receive(), b"here")
        made[5].socket.sendall(b"lo")
        self.assertEqual(made[5].receive(), b"hello")
        status, told = running.stop()
        self.assertEqual((status, told.count("there are 128 stations already")), (0, 1))
        self.assertEqual(sorted(running.events()[-128:]), sorted("lost %d" % number for number in range(128)))

    def test_station_that_never_reads(self):
        """It is ended; the others have their answers."""
        running = Running(self)
        deaf, other = running.station(), running.station()
        with contextlib.suppress(ConnectionError):
            for _ in range(20):
                deaf.send(MANY + bytes(15000))
                self.assertEqual(other.says(b"other"), b"other")
        running.until(lambda: "lost 0" in running.events())
        self.assertEqual(other.says(b"still"), b"still")
        self.assertIn("station 0: lost: more than 1048576 octets wait for it to read", running.stop()[1])

    def test_ticks(self):
        running = Running(self, "--second", "0.02")
        running.until(lambda: running.lines().count("tick") >= 5)
        self.assertEqual(running.stop()[0], 0)
        self.assertIn("\ntick 1\n", running.log.read_text())


TRIES = 3  # of a flood


class Floods(unittest.TestCase):
    def delays(self, running, message):
        """The times that a station's messages take while another sends as much as it can."""
        flooding, quiet, over = running.station(), running.station(), threading.Event()
        piece = (len(message).to_bytes(2, "big") + message) * (1 + 200000 // len(message))

        def flood():
            with contextlib.suppress(OSError):
                while not over.is_set():
                    flooding.socket.sendall(piece)

        def read():
            with contextlib.suppress(OSError):
                while flooding.socket.recv(1 << 20):
                    pass

        threads = [threading.Thread(target=work) for work in (flood, read)]
        for thread in threads:
            thread.start()
        times = []
        for _ in range(15):
            begun = time.monotonic()
            self.assertTrue(quiet.says(b"quiet"))
            times.append(time.monotonic() - begun)
            time.sleep(0.01)
        over.set()
        flooding.socket.shutdown(socket.SHUT_RDWR)
        for thread in threads:
            thread.join()
        return times

    def test_flood(self):
        """No message of another station is delayed by more than is said, by short messages and by the longest: at the usual pace
        with the stand-in, and at any with the program, where it's built."""
        for program, words in ((None, []), (PROGRAM, ["--rate", "100000"])):
            if program and not program.exists():
                continue
            running = Running(self, *words, program=program)
            for message in (b"x", bytes(limits.LONGEST_MESSAGE)):
                with self.subTest(words=words, octets=len(message)):
                    # (a machine that is busy delays a message now and then, and not each time)
                    self.assertTrue(any(max(self.delays(running, message)) < limits.MOST_DELAY for _ in range(TRIES)))
            self.assertEqual(running.stop()[0], 0)

    def test_turns(self):
        """What three stations sent while the front stood still is given to the MME a message of each in turn; where one's octets
        come a read later than the others', it is a turn late."""
        running = Running(self)
        stations = [running.station() for _ in range(3)]
        running.process.send_signal(signal.SIGSTOP)
        stat_of = pathlib.Path("/proc/%d/stat" % running.process.pid)
        running.until(lambda: stat_of.read_text().rpartition(")")[2].split()[0] == "T")
        for place, station in enumerate(stations):
            for _ in range(90):
                station.send(b"%d" % place)
        running.until(lambda: all(station.is_delivered() for station in stations))
        running.process.send_signal(signal.SIGCONT)
        running.until(lambda: running.lines().count("in") == 270)
        order = [line.split(" ")[1] for line in running.events() if line.startswith("in")]
        for end in range(len(order)):
            counts = [order[:end].count(number) for number in "012"]
            self.assertLessEqual(max(counts) - min(counts), 2)

    def test_rate(self):
        """What comes too fast comes later, and all of it."""
        running = Running(self, "--rate", "50")
        station = running.station()
        begun = time.monotonic()
        for number in range(80):
            station.send(b"%d" % number)
        self.assertEqual([station.receive() for _ in range(80)], [b"%d" % number for number in range(80)])
        self.assertGreaterEqual(time.monotonic() - begun, 0.55)


class Ends(unittest.TestCase):
    def test_signals(self):
        """Each station is lost, and gets what was still to be answered."""
        for number in (signal.SIGTERM, signal.SIGINT):
            with self.subTest(number=number):
                running = Running(self)
                stations = [running.station(), running.station()]
                stations[1].send(SLOW)
                running.until(lambda: running.events()[-1] == "in 1 f0")
                self.assertEqual(running.stop(number)[0], 0)
                self.assertEqual(stations[1].receive(), SLOW)
                self.assertTrue(stations[0].has_ended())
                self.assertEqual(running.events()[-2:], ["lost 0", "lost 1"])

    def test_the_mme_ends(self):
        for octets, status in ((ENDS, 7), (KILLS, 137)):
            with self.subTest(status=status):
                running = Running(self)
                station = running.station()
                station.send(octets)
                self.assertTrue(station.has_ended())
                got, told = running.ended()
                self.assertEqual(got, status)
                self.assertIn("front: the MME ended with status %d\n" % (status if status < 100 else 128 - status), told)
                self.assertFalse(running.control.exists())

    def test_the_mme_babbles(self):
        running = Running(self)
        running.station().send(BABBLES)
        status, told = running.ended()
        self.assertEqual(status, 70)
        self.assertIn("front: the MME's answer: no line begins with 'babble'\n", told)
        self.assertNotIn("Traceback", told)

    def test_full_disk(self):
        """The log keeps whole lines, and the MME was given no other."""
        running = Running(self, before=lambda: resource.setrlimit(resource.RLIMIT_FSIZE, (4000, 4000)))
        station = running.station()
        station.send(bytes(1000))
        self.assertEqual(station.receive(), bytes(1000))
        station.send(bytes(1500))
        status, told = running.ended()
        self.assertEqual(status, 74)
        self.assertIn("log: File too large\n", told)
        self.assertEqual(running.events()[1:], ["in 0 " + "00" * 1000])
        self.assertTrue(running.log.read_text().endswith("\n"))


class Control(unittest.TestCase):
    def test_lines(self):
        running = Running(self)
        self.assertEqual(stat.S_IMODE(running.control.stat().st_mode), 0o600)
        self.assertEqual(running.asks("show", IMSI), "state %s DEREGISTERED IDLE INACTIVE\n" % IMSI)
        refused = tools.ran("front", "ask", running.control, "data", NOBODY)
        self.assertEqual((refused.returncode, refused.stdout), (1, b"refused 5: nobody has this IMSI\n"))
        with socket.socket(socket.AF_UNIX) as asking:
            asking.connect(str(running.control))
            answers = asking.makefile()
            asking.sendall(b"data %s\ncancel %s\nshow %s\nshow %s\n\ntick 1\ndata\nshow x\n" % tuple(
                imsi.encode() for imsi in (IMSI, IMSI, NOBODY, IMSI)))
            wanted = ["taken", "taken", "refused 5: nobody has this IMSI", "state %s DEREGISTERED IDLE INACTIVE" % IMSI,
                      "fault no line begins with ''", "fault no line begins with 'tick'", "fault data has 1 field, not 0",
                      "fault 'x' isn't an IMSI"]
            self.assertEqual([answers.readline().rstrip("\n") for _ in wanted], wanted)
            asking.sendall(b"x" * 2000)
            self.assertEqual(answers.readline(), "")
        self.assertEqual(running.events(), ["show " + IMSI, "data " + IMSI, "cancel " + IMSI, "show " + IMSI])
        self.assertEqual(running.stop()[0], 0)

    def test_who_is_answered(self):
        """Each gets the answer to its own line, also where one goes before it is answered."""
        imsis = ["00101000000000%d" % number for number in range(1, 9)]
        head = HEAD + "".join("sub %s 0a00000%s 0a000064 0000000%s\n" % (imsi, imsi[-1], imsi[-1]) for imsi in imsis[1:])
        running = Running(self, head=head)
        running.station().send(SLOW)
        asking = []
        for imsi in imsis:
            asking.append(self.enterContext(socket.socket(socket.AF_UNIX)))
            asking[-1].settimeout(20)
            asking[-1].connect(str(running.control))
            asking[-1].sendall(b"show %s\n" % imsi.encode())
            running.until(lambda: running.events()[-1] == "show " + imsi)
        asking[3].close()
        for one, imsi in zip(asking, imsis):
            if imsi != imsis[3]:
                self.assertEqual(one.recv(1000), b"state %s DEREGISTERED IDLE INACTIVE\n" % imsi.encode())
        self.assertEqual(running.stop()[0], 0)

    def test_socket_that_nobody_listens_at(self):
        """One that is left behind is replaced."""
        folder = pathlib.Path(self.enterContext(tempfile.TemporaryDirectory()))
        with socket.socket(socket.AF_UNIX) as left:
            left.bind(str(folder / "control"))
        running = Running(self, "--control", folder / "control")
        self.assertTrue((folder / "control").exists())
        self.assertEqual(running.stop()[0], 0)


class Words(unittest.TestCase):
    """Each fault has its status: 2 for words and files, which stay wrong, 75 for what may be otherwise a little later."""

    def check(self, words, told, wanted=2):
        status, text = said(words)
        self.assertIn(told, text)
        self.assertEqual(status, wanted)

    def test_words(self):
        self.enterContext(unittest.mock.patch.dict(os.environ, SOIZKADUR_LIBRARY="/nowhere/libsoizkadur.so.1"))
        with tempfile.TemporaryDirectory() as folder:
            subscribers, log = pathlib.Path(folder, "subscribers"), pathlib.Path(folder, "log")
            subscribers.write_text(HEAD)
            for name, text in (("event", HEAD + "up 0\n"), ("empty", "# nothing\n"), ("wrong", "mme 001\n")):
                pathlib.Path(folder, name).write_text(text)
            given = ["run", subscribers, log, "--tcp"]
            for words, told in (
                    ([], "run|ask"), (["run"], "SUBSCRIBERS, LOG"), (["ask", "x", "tick", "1"], "invalid choice: 'tick'"),
                    (["run", folder + "/none", log], "No such file"),
                    (["run", folder + "/event", log], "line 3: only mme, sub and vec"),
                    (["run", folder + "/empty", log], "there is no line mme"),
                    (["run", folder + "/wrong", log], "line 1: mme has 7 fields, not 1"),
                    ([*given, "--port", "65536"], "from 0 to 65535"), ([*given, "--rate", "0"], "from 1 to 1000000"),
                    ([*given, "--second", "0"], "0.001 to 86400"), ([*given, "--sctp"], "not allowed with"),
                    ([*given, "--listen", "localhost"], "'localhost' does not appear to be"),
                    ([*given, "--listen", "127.0.0.1", "--listen", "127.0.0.2"], "TCP has one address"),
                    ([*given, "--allow", "192.0.2.1/24"], "has host bits set"),
                    ([*given, "--page", "127.0.0.1:x"], "isn't a number"),
                    ([*given, "--code", "02"], "the MME code is 01, not 02"), ([*given, "--contr", "x"], "unrecognized"),
                    ([*given, "--port", "0", "--control", folder + "/none/x"], "none/x: No such file"),
                    ([*given, "--port", "0", "--control", folder + "/" + "x" * 108], "path too long"),
                    ([*given, "--port", "0", "--mme", folder + "/none"], "none: No such file"),
                    ([*given, "--port", "0", "--library"], "there is no library, which `./mme --library` builds"),
                    ([*given, "--library", "--mme", "x"], "not allowed with"),
                    (["run", subscribers, subscribers, "--port", "0", "--tcp"], "there is one already"),
                    (["run", subscribers, folder, "--port", "0", "--tcp", "--keep", "1"], "isn't a file"),
                    (["ask", folder + "/none", "data", IMSI], "No such file"),
                    (["ask", folder + "/none", "data"], "data has 1 word after it"),
                    (["ask", subscribers, "data", IMSI], "Connection refused")):
                with self.subTest(told=told):
                    log.unlink(missing_ok=True)
                    self.check(words, told)

    def test_what_passes(self):
        """A service manager starts the front again, and it may serve then."""
        with tempfile.TemporaryDirectory() as folder:
            pathlib.Path(folder, "subscribers").write_text(HEAD)
            given = ["run", folder + "/subscribers", folder + "/log", "--tcp"]
            self.check([*given, "--listen", "192.0.2.1"], "192.0.2.1 port 36412: Cannot assign", 75)
            self.check([*given, "--port", "0", "--control", folder + "/subscribers"], "Address already in use", 75)
            self.check([*given, "--port", "0", "--page", "192.0.2.1:9100"], "192.0.2.1 port 9100: Cannot assign", 75)

    @unittest.skipIf(HAS_SCTP, "the system has SCTP")
    def test_sctp_is_required(self):
        """Nothing is served by TCP where that wasn't asked for."""
        with tempfile.TemporaryDirectory() as folder:
            pathlib.Path(folder, "subscribers").write_text(HEAD)
            for words in ([], ["--sctp"]):
                self.check(["run", folder + "/subscribers", folder + "/log", *words], "no SCTP here", 75)

    def test_a_front_that_runs(self):
        """Its port and its control socket are its own, and go on."""
        running = Running(self)
        other = ["run", running.subscribers, running.folder / "other"]
        self.check([*other, "--tcp", "--port", running.port], "127.0.0.1 port %d: Address already in use" % running.port, 75)
        self.check([*other, "--tcp", "--port", "0", "--control", running.control], "log.control: Address already in use", 75)
        self.assertFalse((running.folder / "other").exists())
        self.assertEqual(running.station().says(b"still"), b"still")
        self.assertIn("state", running.asks("show", IMSI))

    def test_help(self):
        """It says the limits that hold."""
        text = " ".join(tools.ran("front", "run", "--help").stdout.decode().split())
        for told in ("a message of 19996 octets", "2000 messages a second", "10 s for a message that has begun", "1048576 octets",
                     "less than 0.25 s", "128 stations"):
            self.assertIn(told, text)
        self.assertIn("tools/front run SUBSCRIBERS LOG", tools.ran("front", "--help").stdout.decode())


# --- The whole round ---


class Live(PHONES.Trace):
    """What stations and phones do goes to a front that runs, and what they are owed is waited for: at once, or where they all act
    together, after that."""

    def __init__(self, test):
        super().__init__()
        self.test, self.running, self.asking = test, None, None
        self.stations, self.got, self.states = {}, collections.defaultdict(list), []
        self.together, self.owing = False, []

    def provision(self, phones):
        super().provision(phones)
        self.running = Running(self.test, head=self.text(), program=self.test.program)
        asking = self.test.enterContext(socket.socket(socket.AF_UNIX))
        asking.connect(str(self.running.control))
        self.asking = self.test.enterContext(asking.makefile("rw"))

    def say(self, line):
        super().say(line)
        word, *fields = line.split(" ")
        if word == "up":
            self.stations[int(fields[0])] = self.running.station()
        elif word == "in":
            self.stations[int(fields[0])].send(bytes.fromhex(fields[1]))
        elif word in ("data", "show"):
            sent = sum(line.startswith(("in 0", "in 1")) for line in self.lines)
            self.running.until(lambda: sum(line.startswith(("in 0", "in 1")) for line in self.running.events()) == sent)
            print(line, file=self.asking, flush=True)
            answer = self.asking.readline().rstrip("\n")
            self.states += [answer] if word == "show" else []

    def owe(self, owner, station, octets):
        super().owe(owner, station, octets)
        self.owing.append((station.number, octets))
        if not self.together:
            self.settle()

    def settle(self):
        """Waits for what is owed."""
        for number, octets in self.owing:
            self.got[number].append(self.stations[number].receive())
            self.test.assertEqual(self.got[number][-1].hex(), octets.hex())
        self.owing = []


def life(phone, stations):
    """A phone's steps: it attaches, sleeps, is paged, comes back, moves to the other station, and detaches; one moves while it is
    connected and one while it is idle."""
    home, other = (stations[(phone.slot + turn) % 2] for turn in range(2))
    radio_ids = (phone.slot + 100 * count for count in range(1, 100))
    yield from phone.attach_steps(home, next(radio_ids), information=phone.slot % 3 == 0)
    yield phone.is_released
    yield lambda: phone.has_data_waiting([home])
    yield lambda: phone.asks_for_service(home, next(radio_ids))
    yield phone.context_is_set_up
    yield lambda: phone.shows(PHONES.CONNECTED)
    if phone.slot % 4 < 2:
        yield lambda: phone.switches_path(other, next(radio_ids))
        yield phone.updates
        yield lambda: phone.completes_update(from_idle=False)
        yield phone.detaches
    else:
        yield phone.is_released
        yield lambda: phone.updates_from_idle(other, next(radio_ids))
        yield lambda: phone.completes_update(from_idle=True)
        yield lambda: phone.has_data_waiting([other])
        yield lambda: phone.detaches_from_idle(other, next(radio_ids))
    yield lambda: phone.shows("DEREGISTERED IDLE INACTIVE")


@unittest.skipUnless(PROGRAM.exists(), "the program isn't built (./mme --prove)")
class Round(unittest.TestCase):
    program = PROGRAM  # of the front

    def flood(self, trace):
        """A third station, which sends what is no S1AP as fast as it can, and gets an answer to each; those who do it."""
        station = trace.stations[2] = trace.running.station()

        def get():
            for _ in range(200):
                trace.got[2].append(station.receive())

        threads = [threading.Thread(target=get), threading.Thread(target=lambda: [station.send(b"no S1AP") for _ in range(200)])]
        for thread in threads:
            thread.start()
        return threads

    def round(self):
        """The phones' lives, a step of any at a time, beside the flood; then all attach at once."""
        chance, trace = random.Random(1), Live(self)
        phones = [PHONES.Phone(trace, slot, [PHONES.Vector.made("%d.%d" % (slot, place)) for place in range(2)]) for slot in range(10)]
        trace.provision(phones)
        stations = [PHONES.Station(0), PHONES.Station(1, identity=2, tac=2, cell=0x201)]
        for station in stations:
            trace.set_up(station)
        flooding = self.flood(trace)
        lives = [life(phone, stations) for phone in phones]
        while lives:
            going = chance.choice(lives)
            step = next(going, None)
            lives.remove(going) if step is None else step()
        trace.together = True
        for steps in zip(*(phone.attach_steps(stations[phone.slot % 2], 1000 + phone.slot) for phone in phones), strict=True):
            for step in steps:
                step()
            trace.settle()
        for phone in phones:
            phone.shows(PHONES.CONNECTED)
        for thread in flooding:
            thread.join()
        return trace

    def test_round(self):
        """What phones and stations got is what they were owed, and what the log says when it is played again."""
        trace = self.round()
        self.assertEqual(trace.running.stop()[0], 0)
        for station in trace.stations.values():
            with self.assertRaises(EOFError):
                station.receive()
        done = subprocess.run([PROGRAM, "play", trace.running.log], capture_output=True, timeout=60, check=False)
        self.assertEqual((done.returncode, done.stderr), (0, b""))
        printed = done.stdout.decode().splitlines()
        for number, got in trace.got.items():
            lines = [line.split(" ")[3] for line in printed if line.startswith("out ") and line.split(" ")[2] == str(number)]
            self.assertEqual([octets.hex() for octets in got], lines)
        states = [line for line in trace.answers if line.startswith("state")]
        self.assertEqual(trace.states, states)
        self.assertEqual([line for line in printed if not line.startswith("out ")], states)
        self.assertEqual(sorted(line for line in printed if line.split(" ")[2:3] in (["0"], ["1"])),
                         sorted(line for line in trace.answers if line.startswith("out ")))
