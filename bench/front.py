#!/usr/bin/env python3
"""What tools/front takes: messages a second through it, and the time from a message to its answer.

    front.py [PROGRAM | --library] [--only WORD ..] [--stations N ..] [--seconds N] [--rounds N] [--rate N] [--beside CLONE ..]
             [--folder FOLDER] [--etcd] [--lines N] [--vectors N]

WORD is one of these, and all of them where none is given:
  throughput  stations that each keep messages under way, as many as go; and the processor time of a message: the best of the
              rounds of each front, which have their rounds in turn
  latency     stations that together send 20,000 messages a second (--rate)
  flood       one station that sends 100 messages a second, beside 127 that send as many as go
  attaches    500 phones that attach through one station at the front's own rate, all begun at once
  page        stations that together send 1,000 messages a second (--rate) to an MME of 32,768 subscribers, without and with 64
              clients of the page, of all manners (browsers.py)
  give        with --library: vectors one by one, after a log of as many messages as go; then all subscribers that an MME takes, and
              eight vectors of each, while one station sends 100 messages a second
  restart     with --library: 32,768 registered phones after a log of ten million lines (--lines), each phone with --vectors
              more: the start that plays the whole log, one after an orderly end, one after a kill; and what stations that together
              send 1,000 messages a second (--rate) wait while snapshots are made one after the other
  standby     with --etcd: stations that together send 5,000 messages a second (--rate) to a leader, which is then killed: how far
              the front that stands by lags, and when it answers
  saving      with --etcd and --library: the same to an MME of 32,768 subscribers, each with --vectors, without snapshots and while
              the front that stands by makes one after the other: what stations wait, and how far it lags

Messages are S1 SETUP REQUESTs, 35 octets each, whose answers have 27; each connection is TCP on this machine. PROGRAM is
../crates/mme/out/mme where none is given; with --library the MME is in the front's own process, and so is its processor time. Times
are of the clock, so nothing else should run; the processor time is disturbed less.

Each measure is taken with --sync yes, with --sync no, and with the front of each CLONE as it is, in turn. The logs are in a folder
of their own in FOLDER, or where temporary files are; what a sync costs is a matter of its disk. With --etcd, each measure is also
taken with the log in etcd, whose three members run on this machine, with what they write where temporary files are.
"""
import argparse
import collections
import contextlib
import itertools
import json
import os
import pathlib
import re
import select
import signal
import socket
import subprocess
import sys
import tempfile
import time

sys.dont_write_bytecode = True
if __name__ == "__main__":
    sys.path[0] = str(pathlib.Path(__file__).resolve().parent.parent)
from bench import attaches as attached, etcds
from reference import lte, phones

TOP = pathlib.Path(__file__).resolve().parent.parent
NETWORK = phones.Network()
REQUEST = lte.s1_setup_request(NETWORK, phones.Station(0))
ANSWER = lte.s1_setup_response(NETWORK)
FRAMED, ANSWERED = len(REQUEST).to_bytes(2, "big") + REQUEST, len(ANSWER) + 2
UNDER_WAY = 512  # messages that all stations together keep under way, but at least two each
RATE, QUIET_RATE, PHONES = 20000, 100, 500
STORED_RATE, STORED_STATIONS, LAGS = 5000, 20, 40
PAGED_RATE, PAGED_STATIONS, SUBSCRIBERS, CLIENTS = 1000, 20, 32768, 64
PAGED_TICKS = 20  # until the last paging's T3413 and its repeat have ended
ALONE, VECTORS = 30, 8  # vectors that are given by themselves, and of each subscriber
TICKS = os.sysconf("SC_CLK_TCK")
AT_WILL = ("--rate", "1000000")
ONE_AFTER_THE_OTHER, NO_MORE, NO_SNAPSHOT = ("--snapshot", "0.01,0.01"), ("--snapshot", "1440,4096"), ("--snapshot", "no")
SEVERAL_SECONDS = 20  # in which several snapshots are made
LIBRARY = object()  # in a program's place: the MME in the front's own process
FRONT = TOP / "tools" / "front"
Way = collections.namedtuple("Way", "name front words")  # a front that is measured, and its words


class Front:
    """A front that runs."""

    def __init__(self, program, head, *words, front=FRONT, folder=None, room=None):
        mme = ("--library",) if program is LIBRARY else ("--mme", program)
        self.folder = contextlib.nullcontext() if room else tempfile.TemporaryDirectory(dir=folder)
        folder = room or pathlib.Path(self.folder.name)
        if head is not None:
            (folder / "subscribers").write_text(head)
        self.process = subprocess.Popen(
            [sys.executable, front, "run", folder / "subscribers", folder / "log", "--tcp", "--port", "0",
             "--per-address", "128", "--setup-seconds", "3600", *mme, *words], stderr=subprocess.PIPE, text=True)
        self.control = folder / "log.control"
        if "--standby" in words:
            self.says("follows the log")
        else:
            self.port = self.is_ready()

    def is_ready(self):
        """Waits until it takes stations; the port that it does so at."""
        return int(self.says(r"ready: stations at \S+ port (\d+)")[1])

    def says(self, text):
        """Waits until it says something."""
        for line in self.process.stderr:
            if found := re.search(text, line):
                return found
        raise SystemExit("front.py: the front doesn't begin")

    def counters(self):
        """What it counts."""
        with socket.socket(socket.AF_UNIX) as asking:
            asking.connect(str(self.control))
            asking.sendall(b"counters\n")
            return json.loads(asking.makefile().readline().partition(" ")[2])

    def snapshot(self):
        """The last one in the store."""
        return self.counters().get("snapshot", {"turn": 0, "octets": 0, "seconds": 0})

    def turn(self):
        """The last turn that it has committed or played, of a log in a store."""
        return self.counters()["store"]["turn"]

    def processes(self):
        """The front's process, and its MME's where that is another."""
        children = pathlib.Path("/proc/%d/task/%d/children" % (self.process.pid, self.process.pid)).read_text().split()
        return self.process.pid, *map(int, children[:1])

    def memory(self):
        """The octets of memory that the front and its MME held at the most."""
        texts = [pathlib.Path("/proc/%d/status" % pid).read_text() for pid in self.processes()]
        return sum(1024 * int(re.search(r"VmHWM:\s+(\d+) kB", text)[1]) for text in texts)

    def seconds(self):
        """The processor time of the front, and of the MME where that is another process."""
        found = []
        for pid in self.processes():
            fields = pathlib.Path("/proc/%d/stat" % pid).read_text().rpartition(")")[2].split()
            found.append((int(fields[11]) + int(fields[12])) / TICKS)
        return found

    def close(self, number=signal.SIGTERM):
        self.process.send_signal(number)
        self.process.wait()
        self.process.stderr.close()
        if isinstance(self.folder, tempfile.TemporaryDirectory):
            self.folder.cleanup()


class Station:
    """A connection, and when each message was sent whose answer is due."""

    def __init__(self, port):
        self.socket = socket.create_connection(("127.0.0.1", port))
        self.socket.setsockopt(socket.IPPROTO_TCP, socket.TCP_NODELAY, 1)
        self.socket.setblocking(False)
        self.due, self.rest, self.unsent = collections.deque(), 0, b""

    def send(self, count, now):
        """Sends `count` messages."""
        self.due.extend([now] * count)
        self.unsent += FRAMED * count
        with contextlib.suppress(BlockingIOError):
            self.unsent = self.unsent[self.socket.send(self.unsent):]

    def receive(self, times):
        """Notes the times of the answers that came; how many these are."""
        try:
            octets = self.rest + len(self.socket.recv(1 << 20))
        except BlockingIOError:
            return 0
        now = time.perf_counter()
        count, self.rest = divmod(octets, ANSWERED)
        for _ in range(count):
            times.append(now - self.due.popleft())
        return count


class Load:
    """Stations that send."""

    def __init__(self, port, count):
        self.stations = [Station(port) for _ in range(count)]
        self.poll, self.by_file = select.epoll(), {}
        for station in self.stations:
            self.by_file[station.socket.fileno()] = station
            self.poll.register(station.socket.fileno(), select.EPOLLIN)

    def ready(self, seconds):
        return [self.by_file[file] for file, _ in self.poll.poll(max(0.0, seconds), 256)]

    def at_will(self, seconds):
        """Each answer is followed by a message; the times of the answers."""
        each, times, end = max(2, UNDER_WAY // len(self.stations)), [], time.perf_counter() + seconds
        for station in self.stations:
            station.send(each, time.perf_counter())
        while (now := time.perf_counter()) < end:
            for station in self.ready(0.1):
                count = station.receive(times)
                station.send(count, now)
        return times

    def paced(self, rate, seconds):
        """This rate of messages a second, of all stations together; the times of the answers."""
        begun, sent, times, turn = time.perf_counter(), 0, [], 0
        while (now := time.perf_counter()) < begun + seconds:
            owed = int((now - begun) * rate) - sent
            for _ in range(owed):
                self.stations[turn].send(1, now)
                turn = (turn + 1) % len(self.stations)
            sent += owed
            for station in self.ready(0.0005):
                station.receive(times)
        end = time.perf_counter() + 5
        while any(station.due for station in self.stations) and time.perf_counter() < end:
            for station in self.ready(0.1):
                station.receive(times)
        return times

    def close(self):
        for station in self.stations:
            station.socket.close()
        self.poll.close()


def head():
    return NETWORK.words + "\n"


def share(times, part):
    """The time that a part of all are under, in milliseconds."""
    times = sorted(times)
    return 1000 * times[min(len(times) - 1, int(part * len(times)))]


def begun(given, way, head, *words):
    """A front of a way, with nothing before it."""
    if given.members is not None:
        given.members.forget()
    return Front(given.program, head, *words, *way.words, front=way.front, folder=given.folder)


def throughput(given):
    print("| stations | front | messages a second | the front's processor time for each, in microseconds | the MME's |\n"
          "|---|---|---|---|---|")
    for count in given.stations:
        rounds = [[throughput_of(given, way, count) for way in given.ways] for _ in range(given.rounds)]
        for way, found in zip(given.ways, zip(*rounds)):
            most, spent = max(rate for rate, _ in found), ["%.1f" % min(each) for each in zip(*[times for _, times in found])]
            print("| %d | %s | %d | %s |" % (count, way.name, most, " | ".join((spent + ["within"])[:2])))


def throughput_of(given, way, count):
    """How many messages a second go by so many stations, and what each costs the processes in microseconds of the processor."""
    front = begun(given, way, head(), *AT_WILL)
    load = Load(front.port, count)
    before = front.seconds()
    times = load.at_will(given.seconds)
    spent = [1e6 * (after - at) / len(times) for after, at in zip(front.seconds(), before)]
    load.close()
    front.close()
    return len(times) / given.seconds, spent


def latency(given):
    print("| stations, together %d messages a second | front | answered | median, ms | 99 of 100 within, ms |\n"
          "|---|---|---|---|---|" % (given.rate or RATE))
    for count, way in itertools.product(given.stations, given.ways):
        front = begun(given, way, head(), *AT_WILL)
        load = Load(front.port, count)
        times = load.paced(given.rate or RATE, given.seconds)
        print("| %d | %s | %d | %.2f | %.2f |" % (count, way.name, len(times), share(times, 0.5), share(times, 0.99)))
        load.close()
        front.close()


def flood(given):
    print("| one station beside 127 that flood | front | answered | median, ms | 99 of 100 within, ms |\n|---|---|---|---|---|")
    for way in given.ways:
        flood_of(given, way)


def flood_of(given, way):
    front = begun(given, way, head(), *AT_WILL)
    child = os.fork()
    if child == 0:
        try:
            Load(front.port, 127).at_will(given.seconds + 4)
        finally:
            os._exit(0)
    time.sleep(2)
    load = Load(front.port, 1)
    times = load.paced(QUIET_RATE, given.seconds)
    print("| %d messages a second | %s | %d | %.2f | %.2f |"
          % (QUIET_RATE, way.name, len(times), share(times, 0.5), share(times, 0.99)))
    load.close()
    os.waitpid(child, 0)
    front.close()


def attaches(given):
    for way in given.ways:
        attaches_of(given, way)


def attaches_of(given, way):
    """A step of all phones at a time, since a step has to wait for the answers to the one before."""
    trace, station = phones.Trace(), phones.Station(0)
    made = [phones.Phone(trace, slot, [phones.Vector.made(str(slot))]) for slot in range(PHONES)]
    trace.provision(made)
    front = begun(given, way, trace.text())
    connection = socket.create_connection(("127.0.0.1", front.port))
    answers, said = connection.makefile("rb"), len(trace.lines)
    trace.set_up(station)
    steps = [phone.attach_steps(station, phone.slot + 1) for phone in made]
    start, owed = time.perf_counter(), 0
    while True:
        messages = [bytes.fromhex(line.split(" ")[2]) for line in trace.lines[said:] if line.startswith("in ")]
        said = len(trace.lines)
        connection.sendall(b"".join(len(octets).to_bytes(2, "big") + octets for octets in messages))
        for line in trace.answers[owed:]:
            got = answers.read(int.from_bytes(answers.read(2), "big"))
            assert got.hex() == line.split(" ")[3]
        owed = len(trace.answers)
        due = [step for step in (next(phone, None) for phone in steps) if step is not None]
        if not due:
            break
        for step in due:
            step()
    print("%s: %d phones attached within %.2f s, what they sent and were owed worked out among it"
          % (way.name, PHONES, time.perf_counter() - start))
    connection.close()
    front.close()


def give(given):
    print("| front | messages in the log | a vector, median and longest, ms | all, s | a message meanwhile: median, 99 of 100, "
          "the last, ms |\n|---|---|---|---|---|")
    for way in given.ways if given.program is LIBRARY else ():
        give_of(given, way)


def subscriber(slot):
    return "sub 00101%010d 0a%06x 0b000001 %08x\n" % (slot + 1, slot + 1, slot + 1)


def vector(slot, place):
    return "vec 00101%010d %08x%024x %032x %016x %064x\n" % (slot + 1, slot, place, slot, slot << 32 | place, slot)


def given_alone(front, place):
    """Gives the first subscriber a vector; how long that takes."""
    text, begin = vector(0, place).encode(), time.perf_counter()
    with socket.socket(socket.AF_UNIX) as asking:
        asking.connect(str(front.control))
        asking.sendall(b"give %d\n%s" % (len(text), text))
        assert asking.makefile().readline() == "given 0 subscribers, 1 vector\n"
    return time.perf_counter() - begin


def give_of(given, way):
    front = begun(given, way, head() + subscriber(0), *AT_WILL)
    load = Load(front.port, 1)
    count = len(load.at_will(given.seconds) + load.paced(0, 0))
    alone = [given_alone(front, place) for place in range(ALONE)]
    lines = front.control.with_name("given")
    lines.write_text("".join((subscriber(slot) if slot else "") + "".join(vector(slot, ALONE + place) for place in range(VECTORS))
                             for slot in range(SUBSCRIBERS)))
    begin, times = time.perf_counter(), []
    asking = subprocess.Popen([sys.executable, FRONT, "ask", front.control, "give", lines], stdout=subprocess.PIPE)
    while asking.poll() is None:
        times += load.paced(QUIET_RATE, 0.1)
    seconds = time.perf_counter() - begin
    assert asking.stdout.read() == b"given %d subscribers, %d vectors\n" % (SUBSCRIBERS - 1, SUBSCRIBERS * VECTORS)
    print("| %s | %d | %.2f, %.2f | %.2f | %.2f, %.2f, %.2f |" % (
        way.name, count, share(alone, 0.5), share(alone, 1), seconds, *(share(times, part) for part in (0.5, 0.99, 1))))
    load.close()
    front.close()


def page(given):
    """The same front without the clients and then with them; each line's memory is the most that there was until its end. The
    clients give way to the others, as if they had a machine of their own."""
    subscribers = "".join(map(subscriber, range(SUBSCRIBERS)))
    port = etcds.free_port()
    front = Front(given.program, head() + subscribers, *AT_WILL, "--page", "127.0.0.1:%d" % port)
    load = Load(front.port, PAGED_STATIONS)
    rate = given.rate or PAGED_RATE
    load.paced(rate, 1)
    print("| %d messages a second, %d subscribers | answered | median, ms | 99 of 100 within, ms | the last, ms | memory, MiB | "
          "processor time of the front and the MME, s |\n|---|---|---|---|---|---|---|" % (rate, SUBSCRIBERS))
    told = b""
    for count in (0, CLIENTS):
        words = ["nice", sys.executable, TOP / "bench" / "browsers.py", str(port), str(count), str(given.seconds)]
        browsers = subprocess.Popen(words, stdout=subprocess.PIPE)
        before = sum(front.seconds())
        times = load.paced(rate, given.seconds)
        told, _ = browsers.communicate()
        print("| %s | %d | %.2f | %.2f | %.2f | %.1f | %.2f |" % (
            "with %d clients of the page" % count if count else "without clients of the page", len(times), share(times, 0.5),
            share(times, 0.99), share(times, 1), front.memory() / (1 << 20), sum(front.seconds()) - before))
    print("told whole, by the clients' manners:", told.decode().strip())
    load.close()
    front.close()


def restart(given):
    """Each start goes on after the one before, over one log."""
    if given.program is not LIBRARY:
        print("restart: the program isn't saved (--library)")
        return
    with tempfile.TemporaryDirectory(dir=given.folder) as name:
        room = pathlib.Path(name)
        lines = long_log(room, given)
        print("| start, %d registered phones | lines played | seconds until it serves |\n|---|---|---|" % SUBSCRIBERS)
        started(room, "the whole log is played", lines).close()
        front = started(room, "after an orderly end", 0)
        load = Load(front.port, PAGED_STATIONS)
        count = len(load.at_will(given.seconds))
        load.close()
        front.close(signal.SIGKILL)
        front = started(room, "after a kill", count)
        front.close()
        served_while_it_saves(given, room)


def long_log(room, given):
    """A log in which all subscribers attach and are released, and data waits for each again and again, until no paging is sent any
    more; how many lines it has."""
    trace, station, made = attached.provisioned(SUBSCRIBERS, 1 + given.vectors)
    for phone in made:
        phone.attaches(station, phone.slot + 1)
        phone.is_released()
    head = [line for line in trace.lines if line.startswith(("mme ", "sub ", "vec "))]
    begun = "".join(line + "\n" for line in [*head, "# segment 1, begun for a measure"])
    (room / "subscribers").write_text("".join(line + "\n" for line in head))
    (room / "log").write_text(begun)
    events, each = trace.lines[len(head):], "".join("data %s\n" % phone.imsi for phone in made)
    with open(room / "log.counts", "w", encoding="ascii") as counts:
        counts.write(begun + "".join(line + "\n" for line in events))
        rounds = max(0, given.lines - len(events)) // len(made)
        for _ in range(rounds):
            counts.write(each)
        counts.write("tick %d\n# settled until segment 1, octet 0\n" % PAGED_TICKS)
    return len(events) + rounds * len(made) + 1


def started(room, what, lines, *words):
    """A front that goes on, and in a row of the table how long that took."""
    begin = time.perf_counter()
    front = Front(LIBRARY, None, *AT_WILL, "--resume", "--answer-seconds", "3600", *(words or NO_MORE), room=room)
    print("| %s | %d | %.2f |" % (what, lines, time.perf_counter() - begin), flush=True)
    return front


def served_while_it_saves(given, room):
    """What stations wait for answers without snapshots, and with one after the other."""
    rate = given.rate or PAGED_RATE
    rows = ["| %d messages a second | snapshots | answered | median, ms | 99 of 100 within, ms | the last, ms | memory, MiB |"
            % rate, "|---|---|---|---|---|---|---|"]
    for what, words in (("none", NO_MORE), ("one after the other", ONE_AFTER_THE_OTHER)):
        front = started(room, "for " + what, 0, *words)
        load = Load(front.port, PAGED_STATIONS)
        load.paced(rate, 2)
        before = front.counters().get("snapshot", {"number": 0})["number"]
        times = load.paced(rate, SEVERAL_SECONDS)
        told = front.counters().get("snapshot", {"number": before, "seconds": 0, "octets": 0})
        rows.append("| %s | %d of %d octets, the last in %.2f s | %d | %.2f | %.2f | %.2f | %.0f |" % (
            what, told["number"] - before, told["octets"], told["seconds"], len(times), share(times, 0.5), share(times, 0.99),
            share(times, 1), front.memory() / (1 << 20)))
        load.close()
        front.close()
    print("\n".join(rows))


def standby(given):
    """The leader's load is a process of its own. A lag is the time from when the leader said how far it was until the other one
    said that it is there."""
    for way in given.ways:
        if "--store" in way.words:
            standby_of(given, way)


def loaded(given, port):
    """A process that sends messages until it is killed."""
    child = os.fork()
    if child == 0:
        try:
            Load(port, STORED_STATIONS).paced(given.rate or STORED_RATE, given.seconds + 60)
        finally:
            os._exit(0)
    return child


def lags_of(given, leader, other):
    """How long after the leader the other front is where that was, each time."""
    lags, end = [], time.perf_counter() + given.seconds
    while time.perf_counter() < end:
        turn, begin = leader.turn(), time.perf_counter()
        while other.turn() < turn:
            pass
        lags.append(time.perf_counter() - begin)
        time.sleep(given.seconds / LAGS)
    return lags


def standby_of(given, way):
    before = given.members.octets()
    leader = begun(given, way, head(), *AT_WILL)
    other = Front(given.program, head(), *AT_WILL, *way.words, "--standby", folder=given.folder)
    child = loaded(given, leader.port)
    lags, counters, octets = lags_of(given, leader, other), leader.counters(), given.members.octets() - before
    leader.process.kill()
    begin = time.perf_counter()
    load, times = Load(other.is_ready(), 1), []
    load.stations[0].send(1, begin)
    while not times:
        load.stations[0].receive(times)
    turns, messages = other.turn(), sum(counters["messages_in"].values())
    begin = time.perf_counter()
    third = Front(given.program, head(), *AT_WILL, *way.words, "--standby", folder=given.folder)
    while third.turn() < turns:
        time.sleep(0.01)
    playing = time.perf_counter() - begin
    print("at %d messages a second the one that stands by was within %.1f ms of the leader half the time and within %.1f at the "
          "most; it answered %.2f s after the leader was killed" % (
              given.rate or STORED_RATE, share(lags, 0.5), share(lags, 1), times[0]))
    print("%d messages in %d turns took %d octets of the store, %.0f a message; a front that began played them in %.1f s" % (
        messages, counters["store"]["turn"], octets, octets / messages, playing))
    os.kill(child, 9)
    os.waitpid(child, 0)
    load.close()
    for front in (leader, other, third):
        front.close()


def saving(given):
    """What the leader's stations wait, and how far the one that stands by lags, by what that one makes."""
    if given.program is not LIBRARY or given.members is None:
        print("saving: with --etcd and --library")
        return
    print("| snapshots | answered | median, ms | 99 of 100 within, ms | the last, ms | lag half the time, ms | at most |\n"
          "|---|---|---|---|---|---|---|")
    for what, words in (("none", NO_SNAPSHOT), ("one after the other", ONE_AFTER_THE_OTHER)):
        with contextlib.ExitStack() as after:
            store, head_of_all = ("--store", etcds.Members(after).urls()), provisioned(given.vectors)
            leader = Front(LIBRARY, head_of_all, *AT_WILL, *store, *NO_SNAPSHOT, folder=given.folder)
            other = Front(LIBRARY, head_of_all, *AT_WILL, *store, *words, "--standby", folder=given.folder)
            load = Load(leader.port, STORED_STATIONS)
            load.paced(given.rate or STORED_RATE, 2)
            times = load.paced(given.rate or STORED_RATE, SEVERAL_SECONDS)
            load.close()
            child = loaded(given, leader.port)
            lags, told = lags_of(given, leader, other), other.snapshot()
            os.kill(child, 9)
            os.waitpid(child, 0)
            print("| %s, the last of %d octets in %.1f s | %d | %.2f | %.2f | %.2f | %.1f | %.1f |" % (
                what, told["octets"], told["seconds"], len(times), *(share(times, part) for part in (0.5, 0.99, 1)),
                share(lags, 0.5), share(lags, 1)), flush=True)
            for front in (leader, other):
                front.close()


def provisioned(vectors):
    """The lines of all subscribers that an MME takes, with so many vectors of each."""
    lines = [NETWORK.words]
    for slot in range(SUBSCRIBERS):
        imsi = "%015d" % (1010000000001 + slot)
        lines.append("sub %s 0a%06x 0a000064 %08x" % (imsi, slot + 1, slot + 1))
        lines += ["vec %s %s%024x %032x %016x %064x" % (imsi, "a%07x" % slot, place, slot, slot * 8 + place, slot)
                  for place in range(vectors)]
    return "\n".join(lines) + "\n"


def main():
    words = argparse.ArgumentParser(description=__doc__, formatter_class=argparse.RawDescriptionHelpFormatter)
    mmes = words.add_mutually_exclusive_group()
    mmes.add_argument("program", metavar="PROGRAM", nargs="?", default=TOP / "crates" / "mme" / "out" / "mme")
    mmes.add_argument("--library", action="store_true")
    measures = {measure.__name__: measure for measure in (
        throughput, latency, flood, attaches, page, give, restart, standby, saving)}
    words.add_argument("--only", nargs="+", choices=measures, default=list(measures))
    words.add_argument("--stations", nargs="+", type=int, default=[1, 10, 100])
    words.add_argument("--seconds", type=float, default=5.0)
    words.add_argument("--rounds", type=int, default=1)
    words.add_argument("--rate", type=int)
    words.add_argument("--beside", nargs="+", metavar="CLONE", type=pathlib.Path, default=[])
    words.add_argument("--folder", type=pathlib.Path)
    words.add_argument("--etcd", action="store_true")
    words.add_argument("--lines", type=int, default=10000000)
    words.add_argument("--vectors", type=int, default=8)
    given = words.parse_args()
    given.ways = [Way("--sync " + sync, FRONT, ("--sync", sync)) for sync in ("yes", "no")]
    given.ways += [Way("of " + clone.name, clone / "tools" / "front", ()) for clone in given.beside]
    if given.library:
        given.program = LIBRARY  # (a word that sets `program` would give way to the default of the one that is left out)
    with contextlib.ExitStack() as after:
        given.members = etcds.Members(after) if given.etcd else None
        given.ways += [Way("etcd", FRONT, ("--store", given.members.urls()))] if given.etcd else []
        for name in given.only:
            measures[name](given)
            print(flush=True)


if __name__ == "__main__":
    main()
