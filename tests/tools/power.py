"""Phones at a front whose machine loses its power: what of the log's folder survives that, and phones that watch freshness."""
import contextlib
import itertools
import os
import pathlib
import random
import select
import shutil
import signal
import subprocess

from reference import lte as LTE, phones as PHONES
from tests.tools import tools
from tests.tools.fronted import PROGRAM, Running
from tools import s1ap

SOURCE = tools.TOP / "tests" / "tools" / "power_cut.c"
PAGE = 4096
DELAYS = 0, 3000, 200000  # microseconds that a sync takes as the power goes
FENCE = 0xFFFFFF  # the eNB UE S1AP ID of messages whose answer says that all before them is answered
NOBODYS_ID = LTE.id_of_slot(LTE.SLOTS - 1, 7)
OUT, BUSY, IDLE = "out", "busy", "idle"
SECURITY_KEY = 73  # the element of INITIAL CONTEXT SETUP REQUEST (TS 36.413 clause 9.2.1.41)


class Disk:
    """A folder whose syncs are noted beside it, and what a power cut leaves of it."""

    def __init__(self, room, chance):
        self.room, self.chance = pathlib.Path(room), chance
        self.folder, self.shadow, self.library = (self.room / name for name in ("folder", "shadow", "power_cut.so"))
        self.folder.mkdir()
        subprocess.run(["cc", "-shared", "-fPIC", "-O1", "-o", self.library, SOURCE], check=True)
        self.begin({})

    def environment(self, boot):
        return {"LD_PRELOAD": str(self.library), "POWER_FOLDER": str(self.folder), "POWER_SHADOW": str(self.shadow),
                "BOOT_ID": boot}

    def begin(self, files):
        """The folder has these files, and all of it is on disk."""
        for path in self.folder.iterdir():
            path.unlink()
        shutil.rmtree(self.shadow, ignore_errors=True)
        for part in ("data", "held"):
            (self.shadow / part).mkdir(parents=True)
        names = ["0"]
        for name, octets in files.items():
            path = self.folder / name
            path.write_bytes(octets)
            path.chmod(0o600)
            inode = str(path.stat().st_ino)
            os.link(path, self.shadow / "held" / inode)
            (self.shadow / "data" / inode).write_bytes(octets)
            names.append("%s %s" % (name, inode))
        (self.shadow / "names").write_text("\n".join(names) + "\n")
        (self.shadow / "changes").write_text("")

    def names(self):
        """The names that are there afterwards: those that were synced, and what came first of the changes since."""
        count, *lines = (self.shadow / "names").read_text().splitlines()
        names = dict(line.split(" ") for line in lines)
        changes = (self.shadow / "changes").read_text().splitlines()[int(count):]
        for change in changes[:self.chance.randint(0, len(changes))]:
            word, name, *more = change.split(" ")
            if word == "made":
                names[name] = more[0]
            elif name in names:
                inode = names.pop(name)
                if word == "renamed":
                    names[more[0]] = inode
        return names

    def octets(self, inode):
        """What a file has afterwards: what was synced; of the rest nothing, all, its beginning, zeros, or its end after zeros."""
        synced, live = (self.shadow / part / inode for part in ("data", "held"))
        safe, written = synced.read_bytes() if synced.exists() else b"", live.read_bytes() if live.exists() else b""
        if not written.startswith(safe):
            return self.chance.choice([safe, written])
        more = written[len(safe):]
        place = self.chance.randint(0, len(more))
        page = min(len(more), PAGE - len(safe) % PAGE)
        return safe + self.chance.choice([b"", more, more[:place], bytes(len(more)), bytes(page) + more[page:]])

    def lose_power(self):
        """The folder has what a power cut leaves of it."""
        self.begin({name: self.octets(inode) for name, inode in self.names().items() if name != "subscribers"})


class Freshness:
    """What may come once at the most, over all runs: a challenge, a NAS COUNT under a key, a radio key."""

    def __init__(self):
        self.seen, self.faults = {"challenge": set(), "count": set(), "radio key": set()}, []

    def note(self, kind, value):
        if value in self.seen[kind]:
            self.faults.append("a %s came twice: %s" % (kind, value))
        self.seen[kind].add(value)


class Phone:
    """A phone that does what the network asks, and begins a procedure where it has none. Of the MME it knows what came."""

    numbers = itertools.count(1)  # eNB UE S1AP IDs, none of which is used twice

    def __init__(self, slot, freshness, chance):
        self.freshness, self.chance = freshness, chance
        self.trace = PHONES.Trace()
        self.card = PHONES.Phone(self.trace, slot, [PHONES.Vector.made("%d.%d" % (slot, place)) for place in range(64)])
        self.vectors = {vector.rand: vector for vector in self.card.vectors}
        self.state, self.vector, self.m, self.b, self.tmsi = OUT, None, None, None, None
        self.is_attached = self.is_known = False  # it was accepted; the network knows that it knows
        self.is_answered = False  # since it sent something
        self.asked, self.accepted = None, []  # the first message of a procedure, and those that were accepted

    # What it sends.

    def first(self, nas, tmsi=None):
        self.state, self.b = BUSY, next(self.numbers)
        self.asked = nas, tmsi
        return LTE.initial_ue_message(self.trace.network, STATION, self.b, nas, tmsi)

    def up(self, nas, header=None):
        if header is not None:
            nas = self.card.protected_up(nas, header)
        return LTE.uplink_nas(self.trace.network, STATION, self.m, self.b, nas)

    def acts(self):
        """What it begins, or nothing where it waits for something."""
        card = self.card
        if self.state == OUT:
            esm = LTE.pdn_connectivity_request(1, 1, False)
            return [self.first(LTE.attach_request(1, LTE.imsi_identity(card.imsi), card.capability, esm))]
        if self.state == IDLE and self.chance.random() < 0.5:
            count, card.up_count = card.up_count, card.up_count + 1
            return [self.first(LTE.service_request(card.key, card.ksi, count), self.tmsi)]
        if self.state == IDLE:
            nas = LTE.tau_request(0, card.ksi, self.trace.network, self.tmsi)
            return [self.first(card.protected_up(nas, header=1))]
        return []

    def replays(self):
        """The last message that was accepted, once more; by its eNB UE S1AP ID."""
        if not self.accepted:
            return {}
        number, (nas, tmsi) = next(self.numbers), self.accepted[-1]
        return {number: LTE.initial_ue_message(self.trace.network, STATION, number, nas, tmsi)}

    # What it hears.

    def hears(self, message):
        """What it and its station answer to a message of the MME."""
        kind, (m, b), octets = (message.code, message.outcome), s1ap.ids(message), s1ap.carried(message)
        if b != self.b:
            return []
        self.m, self.is_answered = m, True
        if kind == (s1ap.RELEASE, s1ap.INITIATING):
            self.state, self.is_known = IDLE if self.is_attached else OUT, self.is_attached
            return [LTE.release_complete(m, b)]
        if kind == (s1ap.CONTEXT_SETUP, s1ap.INITIATING):
            self.freshness.note("radio key", message.elements[SECURITY_KEY].hex())
            answers = [LTE.context_setup_response(STATION, m, b)] + (self.reads(octets) if octets else self.is_accepted())
            return [*answers, LTE.release_request(m, b, LTE.USER_INACTIVITY)]
        return self.reads(octets) if octets else []

    def is_accepted(self):
        self.accepted.append(self.asked)
        return []

    def is_turned_away(self):
        """The network doesn't know it, which is a fault where it was known."""
        if self.is_known:
            self.freshness.faults.append("a phone that was registered is turned away: %s" % self.card.imsi)
        self.state, self.is_attached, self.is_known = OUT, False, False

    def reads(self, octets):
        """What it answers to a NAS message."""
        nas, card = s1ap.nas(octets), self.card
        if nas.header == 0 and nas.type == 0x52:
            rand = octets[3:19]
            self.freshness.note("challenge", rand.hex())
            self.vector, card.ksi = self.vectors[rand], octets[2] & 7
            return [self.up(LTE.authentication_response(self.vector.xres))]
        if nas.header == 0:
            self.is_turned_away()
            return []
        if nas.header == 3:
            card.key, card.up_count = LTE.Cmac(LTE.nas_integrity_key(self.vector.kasme)), 0
        count = octets[5]  # there are fewer than 256 under a key
        assert LTE.eia2(card.key, count, LTE.DOWN, octets[5:]) == octets[1:5], "a wrong MAC"
        self.freshness.note("count", (self.vector.kasme.hex(), count))
        if nas.type == 0x5D:
            return [self.up(LTE.SECURITY_MODE_COMPLETE, header=4)]
        if nas.type in (0x42, 0x49):
            place = octets.index(b"\x50\x0b\xf6")
            self.tmsi, self.is_attached = int.from_bytes(octets[place + 9:place + 13], "big"), True
            if nas.type == 0x49:
                self.is_accepted()
            return [self.up(LTE.ATTACH_COMPLETE if nas.type == 0x42 else LTE.TAU_COMPLETE, header=2)]
        return []


STATION = PHONES.Station(0)


class Field:
    """A station with phones, over as many runs of a front as there are."""

    def __init__(self, test, room, count, seed, words=(), program=PROGRAM):
        self.test, self.words, self.program, self.chance = test, words, program, random.Random(seed)
        self.freshness, self.disk = Freshness(), Disk(room, self.chance)
        self.phones = [Phone(slot, self.freshness, self.chance) for slot in range(count)]
        trace = PHONES.Trace()
        trace.provision([phone.card for phone in self.phones])
        self.head, self.boots = trace.text(), itertools.count(1)
        self.running = self.connection = None
        self.pending = []

    def start(self, boot=None):
        """The front, after a power cut or for the first time."""
        boot = boot or "%032x" % next(self.boots)
        self.running = Running(self.test, "--resume", "--second", "3600", "--rate", "100000", *self.words, head=self.head,
                               program=self.program, folder=self.disk.folder, environment=self.disk.environment(boot))
        self.test.assertIn(b"ready: stations", self.running.told, self.running.process.poll())
        self.connection = self.running.station()
        self.connection.says(LTE.s1_setup_request(PHONES.Network(), STATION))
        for phone in self.phones:
            phone.state = IDLE if phone.is_attached else OUT
        self.pending = []

    def send(self, messages):
        octets = b"".join(len(message).to_bytes(2, "big") + message for message in messages)
        self.connection.socket.sendall(octets)

    def answers(self):
        """All that was answered to what was sent before, as messages."""
        self.send([LTE.uplink_nas(PHONES.Network(), STATION, NOBODYS_ID, FENCE, b"\x07\x60\x61")])
        found = []
        while True:
            message = s1ap.read(self.connection.receive())
            if (message.code, s1ap.ids(message)[1]) == (s1ap.ERROR, FENCE):
                return found
            found.append(message)

    def due(self):
        """What phones answer to what they heard, and what they begin."""
        messages, self.pending = self.pending, []
        return messages + [message for phone in self.phones for message in phone.acts()]

    def hear(self, messages):
        for message in messages:
            for phone in self.phones:
                self.pending += phone.hears(message)

    def step(self):
        """Phones send what is due, and hear what comes; one that waits for something hears it then."""
        for phone in self.phones:
            phone.is_answered = False
        self.send(self.due())
        self.hear(self.answers())
        for phone in self.phones:
            if phone.state == BUSY and not phone.is_answered:
                phone.is_turned_away()

    def replay(self):
        """What was accepted before a power cut isn't accepted again."""
        replays = {number: message for phone in self.phones for number, message in phone.replays().items()}
        self.send(replays.values())
        for message in self.answers():
            nas = s1ap.nas(s1ap.carried(message))
            is_taken = message.code == s1ap.CONTEXT_SETUP or nas is not None and nas.header != 0
            if s1ap.ids(message)[1] in replays and is_taken:
                self.freshness.faults.append("a replayed message was accepted: %s" % s1ap.name(message))
        return len(replays)

    def cut(self):
        """The power goes while phones wait for answers; what was sent before still comes to them."""
        (self.disk.shadow / "delay").write_text("%d\n" % self.chance.choice(DELAYS))
        self.send(self.due())
        select.select([self.connection.socket], [], [], self.chance.random() * 0.1)
        self.running.process.send_signal(signal.SIGKILL)
        self.running.process.wait()
        with contextlib.suppress(EOFError, ConnectionError):
            while True:
                self.hear([s1ap.read(self.connection.receive())])
        self.disk.lose_power()
