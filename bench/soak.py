#!/usr/bin/env python3
"""A long run of tools/front under mixed load: phones attach, sleep, are paged, come back, update their area, change stations and
detach; other stations send set-ups as fast as they are answered; each minute a station is lost and comes again. At the end each
phone has the states that it is owed, and the log, played again, has what was sent.

    soak.py [PROGRAM] [--minutes N] [--phones N] [--second SECONDS]

Prints a line each minute: messages, memory and open files of the front and of its MME. PROGRAM is ../crates/mme/out/mme where none
is given. What phones are owed comes from phones.py.
"""
import argparse
import collections
import json
import os
import pathlib
import random
import socket
import subprocess
import sys
import time

sys.dont_write_bytecode = True
if __name__ == "__main__":
    sys.path[0] = str(pathlib.Path(__file__).resolve().parent.parent)
from bench import front as through
from reference import lte, phones

STATIONS, FLOODING, FLOOD_RATE = 4, 3, 300
VECTORS = 64  # of each phone, which an MME takes at the most


class Soak(phones.Trace):
    """What stations and phones do goes to the front, and what they are owed is waited for."""

    def __init__(self, program, count, second):
        super().__init__()
        self.chance, self.radio_ids = random.Random(7), iter(range(1, 1 << 24))
        self.phones = [phones.Phone(self, slot, self.vectors(slot)) for slot in range(count)]
        self.provision(self.phones)
        self.front = through.Front(program, self.text(), "--segments", "1000", "--second", str(second))
        self.control = self.front.folder.name + "/log.control"
        self.stations = [phones.Station(n, identity=n + 1, tac=n + 1, cell=0x101 + 0x100 * n) for n in range(STATIONS)]
        self.connections, self.got, self.sent = {}, collections.defaultdict(list), 0
        self.registered = set()
        self.said, self.unsure = {}, set()  # how much each station sent, and who sent what may be under way still
        self.lines.clear()
        for station in self.stations:
            self.connect(station)

    @staticmethod
    def vectors(slot):
        return [phones.Vector.made("%d.%d" % (slot, place)) for place in range(VECTORS)]

    # Stations.

    def connect(self, station):
        """A station comes, sets up, and is answered; it has the lowest number that is free, which is its own."""
        connection = socket.create_connection(("127.0.0.1", self.front.port), timeout=60)
        self.connections[station.number] = connection, connection.makefile("rb")
        self.said[station.number] = 0
        self.set_up(station)
        self.lines.remove("up %d" % station.number)
        self.settle()

    def lose(self, station):
        """A station is lost: its phones are idle without a word."""
        for phone in self.phones:
            if phone.station is station:
                phone.is_gone()
        self.unsure.discard(station.number)
        connection, answers = self.connections.pop(station.number)
        connection.shutdown(socket.SHUT_RDWR)  # the process that floods has it too
        answers.close()
        connection.close()
        while any(other["station"] == station.number for other in self.told("stations")):
            time.sleep(0.05)

    def wait_for_others(self, number=None):
        """Waits until the front has all that other stations sent, before this one, or nobody's, says what depends on it."""
        while self.unsure - {number}:
            for other in self.told("stations"):
                if other["station"] != number and other["messages_in"] == self.said.get(other["station"]):
                    self.unsure.discard(other["station"])

    def send(self, number, octets):
        self.wait_for_others(number)
        self.connections[number][0].sendall(len(octets).to_bytes(2, "big") + octets)
        self.unsure.add(number)
        self.sent += 1
        self.said[number] += 1

    def settle(self):
        """Sends what was said, and waits for what is owed."""
        for line in self.lines:
            word, *fields = line.split(" ")
            if word == "in":
                self.send(int(fields[0]), bytes.fromhex(fields[1]))
            else:
                self.wait_for_others()
                self.ask(word, *fields)
        for line in self.answers:
            _, _, number, text = line.split(" ")
            answers = self.connections[int(number)][1]
            got = answers.read(int.from_bytes(answers.read(2), "big")).hex()
            if got != text:
                raise SystemExit("soak.py: station %s got %s and is owed %s" % (number, got, text))
            self.got[number].append(got)
            self.unsure.discard(int(number))
        self.lines.clear()
        self.answers.clear()

    def ask(self, *words):
        """What the front answers to a line at its control socket."""
        with socket.socket(socket.AF_UNIX) as asking:
            asking.settimeout(120)
            asking.connect(self.control)
            asking.sendall(" ".join(words).encode() + b"\n")
            answer = asking.makefile().readline()
        if not answer.startswith(("taken", *words[:1])):
            raise SystemExit("soak.py: %s: %s" % (" ".join(words), answer))
        return answer

    def told(self, word):
        return json.loads(self.ask(word).partition(" ")[2])

    # Phones.

    def step(self):
        """A phone does what it may do where it is."""
        phone = self.chance.choice(self.phones)
        station = self.chance.choice(self.stations)
        if phone not in self.registered:
            self.attach(phone, station)
        elif phone.station is None:
            self.wake(phone, station)
        else:
            self.move(phone, station)
        self.settle()

    def attach(self, phone, station):
        if phone.place < len(phone.vectors):
            for act in phone.attach_steps(station, next(self.radio_ids)):
                act()
                self.settle()
            self.registered.add(phone)

    def wake(self, phone, station):
        """From idle: for service, with a page before it or not, or to update its area."""
        kind = self.chance.randrange(20)
        home = next(other for other in self.stations if other.tac == phone.accepted_tac)
        if kind < 1:
            phone.has_data_waiting([home])
            self.settle()
        if kind < 14:
            phone.asks_for_service(home, next(self.radio_ids))
            self.settle()
            phone.context_is_set_up()
        else:
            phone.updates_from_idle(station, next(self.radio_ids))
            self.settle()
            phone.completes_update(from_idle=True)

    def move(self, phone, station):
        """From a connection: it sleeps, changes stations and updates, or detaches."""
        kind = self.chance.randrange(20)
        if kind < 1:
            phone.detaches()
            self.registered.discard(phone)
        elif kind < 6 and station is not phone.station:
            phone.switches_path(station, next(self.radio_ids))
            self.settle()
            phone.updates()
            self.settle()
            phone.completes_update(from_idle=False)
        else:
            phone.is_released()

    def check_states(self):
        """Each phone has the states that it is owed."""
        found = self.told("phones")
        for phone in self.phones:
            owed = "DEREGISTERED IDLE INACTIVE"
            if phone in self.registered:
                owed = phones.IDLE if phone.station is None else phones.CONNECTED
            states = found[phone.imsi]["states"]
            if states != owed:
                raise SystemExit("soak.py: %s is %s and is owed %s" % (phone.imsi, states, owed))

    def check_log(self, program):
        """The log, played, has what each station got, in its order."""
        folder = pathlib.Path(self.front.folder.name)
        whole = folder / "whole"
        with open(whole, "wb") as file:
            for part in [*sorted(folder.glob("log.segment.*")), folder / "log"]:
                file.write(part.read_bytes())
        played = subprocess.run([program, "play", whole], capture_output=True, text=True, check=True).stdout
        for number, got in self.got.items():
            sent = [line.split(" ")[3] for line in played.splitlines() if line.startswith("out ") and line.split(" ")[2] == number]
            if sent != got:
                raise SystemExit("soak.py: station %s got %d messages, and the log has %d" % (number, len(got), len(sent)))
        return sum(map(len, self.got.values()))


def usage(pid):
    """The memory of a process in MiB, and its open files."""
    pages = int(pathlib.Path("/proc/%d/statm" % pid).read_text().split()[1])
    return pages * os.sysconf("SC_PAGE_SIZE") / (1 << 20), len(os.listdir("/proc/%d/fd" % pid))


def flood(port):
    """A process with stations that send `FLOOD_RATE` set-ups a second together, until it is ended. They broadcast an area of their own,
    so that no phone is paged there."""
    child = os.fork()
    if child == 0:
        request = lte.s1_setup_request(phones.Network(), phones.Station(0, identity=99, tac=99))
        through.FRAMED = len(request).to_bytes(2, "big") + request
        try:
            through.Load(port, FLOODING).paced(FLOOD_RATE, 1e6)
        finally:
            os._exit(1)
    return child


def main():
    words = argparse.ArgumentParser(description=__doc__, formatter_class=argparse.RawDescriptionHelpFormatter)
    words.add_argument("program", metavar="PROGRAM", nargs="?", default=through.TOP / "crates" / "mme" / "out" / "mme")
    words.add_argument("--minutes", type=int, default=60)
    words.add_argument("--phones", type=int, default=50)
    words.add_argument("--second", type=float, default=1.0, help="the length of a tick, longer where the machine is so busy that "
                       "phones here would answer later than their timers allow")
    given = words.parse_args()
    soak = Soak(given.program, given.phones, given.second)
    child = flood(soak.front.port)
    print("| minute | messages of phones | front, MiB | files | MME, MiB | files |\n|---|---|---|---|---|---|")
    try:
        for minute in range(1, given.minutes + 1):
            end = time.monotonic() + 60
            while time.monotonic() < end:
                soak.step()
            station = soak.stations[minute % STATIONS]
            soak.lose(station)
            soak.connect(station)
            (front_memory, front_files), (mme_memory, mme_files) = map(usage, soak.front.processes())
            print("| %d | %d | %.1f | %d | %.1f | %d |"
                  % (minute, soak.sent, front_memory, front_files, mme_memory, mme_files), flush=True)
        soak.check_states()
    finally:
        os.kill(child, 9)
        os.waitpid(child, 0)
        soak.front.process.terminate()
        soak.front.process.wait()
    print("%d phones have the states that they are owed; the log plays %d messages again, as the stations got them"
          % (len(soak.phones), soak.check_log(given.program)))
    soak.front.close()


if __name__ == "__main__":
    main()
