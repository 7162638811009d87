#!/usr/bin/env python3
"""A front whose MME is in its own process, takes further subscribers and vectors and can be saved, and isn't the library's:
saved_front.py [CHANGE ..] run WORD ..

It knows who is provisioned and which stations are up, and sends each message of a station back. Of these messages it does more: f6
is counted; f8 with a slot after it is answered by a challenge of that subscriber with its next vector. `show` tells how many f6 it
has counted, the seconds that have passed, and how many events this process of it was given. The changes:

    slow       saving it takes a second
    large      it has parts of a mebibyte
    refusing   it can't be saved
    newer      it saves itself by a version that it doesn't take

and those of changed_front.py.
"""
import errno
import json
import os
import pathlib
import sys
import threading
import time
import types

sys.dont_write_bytecode = True
if __name__ == "__main__":
    TOP = pathlib.Path(__file__).resolve().parents[2]
    sys.path[0] = str(TOP)
    sys.path.append(str(TOP / "python"))
import soizkadur
from reference import lte, phones
from tests.tools import changed_front
from tools import runs
from tools.fronting import command, front, limits, playing

REMEMBERED, CHALLENGED = 0xf6, 0xf8
PIECE, SECONDS = 100, 1
Refusal = soizkadur.Refusal


class StandIn:
    """The MME: all of its state is JSON."""

    is_slow = is_large = is_refusing = False
    version = 1

    def __init__(self):
        self.state = {"up": [], "vectors": {}, "used": {}, "heard": 0, "seconds": 0}
        self.played = 0

    # Lines.

    def play_text(self, text):
        """What is answered to lines, as the package has it."""
        told = b""
        for number, line in enumerate(text.splitlines(), 1):
            try:
                told += "".join(answer + "\n" for answer in self.answers(line)).encode()
            except soizkadur.Refused as refused:
                raise soizkadur.Refused(refused.refusal, number, answers=told) from None
        return told

    def answers(self, line):
        word, *fields = line.decode().split(" ")
        self.played += word in runs.EVENTS and word not in ("show", "data")
        if word in ("", "#", "mme"):
            return []
        if word not in runs.WORDS:
            raise soizkadur.Refused(Refusal.UNKNOWN_WORD)
        return getattr(self, "take_" + word)(*fields)

    def take_sub(self, imsi, *_):
        self.state["vectors"][imsi] = []
        return []

    def take_vec(self, imsi, rand, *others):
        if runs.NO_KEY in others:
            raise soizkadur.Refused(Refusal.BAD_OCTETS)
        if imsi not in self.state["vectors"]:
            raise soizkadur.Refused(Refusal.PROVISION)
        self.state["vectors"][imsi].append(rand)
        return []

    def take_up(self, number):
        if number in self.state["up"]:
            return ["refused 2"]
        self.state["up"].append(number)
        return []

    def take_lost(self, number):
        if number not in self.state["up"]:
            return ["refused 1"]
        self.state["up"].remove(number)
        return []

    def take_tick(self, seconds):
        self.state["seconds"] += int(seconds)
        return []

    def take_data(self, imsi):
        return [] if imsi in self.state["vectors"] else ["refused 5"]

    def take_show(self, imsi):
        return ["state %s HEARD-%d SECONDS-%d PLAYED-%d" % (imsi, self.state["heard"], self.state["seconds"], self.played)]

    def take_in(self, number, digits):
        octets = bytes.fromhex(digits)
        if octets[0] == CHALLENGED:
            return [self.challenge(octets[1], number)]
        self.state["heard"] += octets[0] == REMEMBERED
        return ["out e%s %s %s" % (number, number, digits)]

    def challenge(self, slot, number):
        imsi = list(self.state["vectors"])[slot]
        place = self.state["used"].get(imsi, 0)
        self.state["used"][imsi] = place + 1
        vector = phones.Vector(bytes.fromhex(self.state["vectors"][imsi][place]), bytes(16), bytes(8), bytes(32))
        return "out s%d %s %s" % (slot, number, lte.downlink_nas(1, 1, lte.authentication_request(0, vector)).hex())

    # While it runs.

    def start(self):
        """It runs from the beginning."""

    def add_live(self, imsi, *_):
        self.take_sub(imsi)

    def give_live(self, imsi, rand, *_):
        self.take_vec(imsi, rand.hex())

    def close(self):
        self.state = None

    # Saving.

    def parts(self):
        if self.is_refusing:
            raise soizkadur.Refused(Refusal.NOT_SAVED)
        octets = json.dumps({**self.state, "version": self.version, "more": "x" * (PIECE << 20) if self.is_large else ""}).encode()
        size = max(1, len(octets) // PIECE)
        for at in range(0, len(octets), size):
            if self.is_slow:
                time.sleep(SECONDS / PIECE)
            yield octets[at:at + size]

    @classmethod
    def restored(cls, octets):
        made = cls()
        made.state = json.loads(octets)
        if made.state["version"] != 1:
            raise soizkadur.Refused(Refusal.OTHER_VERSION, place=made.state["version"])
        return made


def alone(fork=os.fork):
    """Forks, which the library doesn't allow a process with threads."""
    if threading.active_count() > 1:
        raise OSError(errno.EDEADLK, "the process has threads")
    return fork()


CHANGES = {"slow": ("is_slow", True), "large": ("is_large", True), "refusing": ("is_refusing", True), "newer": ("version", 2)}


if __name__ == "__main__":
    while (change := sys.argv[1]) in CHANGES or change in changed_front.CHANGES:
        if change in CHANGES:
            setattr(StandIn, *CHANGES[change])
        else:
            changed_front.CHANGES[change]()
        del sys.argv[1]
    front.CARE_SECONDS = 0.05
    limits.SNAPSHOT_REST, limits.SNAPSHOT_SHARE, limits.SNAPSHOT_AGAIN, limits.SNAPSHOT_LEAST = 0.1, 0, 0.1, 1
    os.fork = alone
    package = types.SimpleNamespace(Mme=StandIn, Refused=soizkadur.Refused, Refusal=Refusal)
    front.library = playing.library = lambda: package
    sys.exit(command.main(""))
