#!/usr/bin/env python3
"""tools/front with a stand-in in the place of the library's MME: standing_in.py run WORD.. It challenges phones by their vectors,
in their order, and lets those in that answer right, by a plain SECURITY MODE COMMAND. Before `run`, `--held SECONDS` changes how
long a message is held, `--supply SECONDS` how long a source may take, `--later SECONDS` when it is asked again; with
`--rest SECONDS` the front looks so often whether a snapshot is due; and with `--states yes` phones get an ATTACH ACCEPT, have
states, and may be idle, come back and leave.
"""
import json
import pathlib
import sys

sys.dont_write_bytecode = True
if __name__ == "__main__":
    TOP = pathlib.Path(__file__).resolve().parents[2]
    sys.path[0] = str(TOP)
    sys.path.append(str(TOP / "python"))
import types

import soizkadur
from reference import lte, phones
from tools import s1ap
from tools.fronting import command, front, limits

GUMMEI, NOBODYS = b"\xf6\x00\xf1\x10\x80\x01\x01", 0xFFFFFFFF
FIRST_STRANGER, NO_NAS = 1 << 31, b"\0"
LET_IN, NO_IDENTITY, NOBODY, NO_VECTOR = b"\x07\x5d", lte.IDENTITY_REQUEST, b"\x07\x44\x08", b"\x07\x44\x11"


class StandIn:
    """Subscribers by slot: their IMSIs, their vectors, how many of them are spent, and their associations."""

    def __init__(self):
        self.network, self.imsis, self.vectors, self.spent, self.associations = phones.Network(), [], [], [], []
        self.places = {}  # of an association: its station's number and its eNB UE S1AP ID

    # What is provisioned.

    def start(self):
        """It is there."""

    def close(self):
        """It ends."""

    def add_live(self, imsi, *_):
        self.imsis.append(imsi)
        self.vectors.append([])
        self.spent.append(0)
        self.associations.append(0)

    def give_live(self, imsi, *vector):
        self.vectors[self.imsis.index(imsi)].append(phones.Vector(*vector))

    # Saving.

    def parts(self):
        state = dict(vars(self), network=None, vectors=[[[octets.hex() for octets in vars(vector).values()] for vector in vectors]
                                                        for vectors in self.vectors], places=list(self.places.items()))
        yield json.dumps(state).encode()

    @classmethod
    def restored(cls, octets):
        made, state = cls(), json.loads(octets)
        vars(made).update(state, network=made.network, places={tuple(ids): slot for ids, slot in state["places"]}, vectors=[
            [phones.Vector(*map(bytes.fromhex, vector)) for vector in vectors] for vectors in state["vectors"]])
        return made

    # What happens.

    def play_text(self, text):
        """What is answered to lines, as the package has it."""
        return "".join(answer + "\n" for line in text.splitlines() for answer in self.answers(line)).encode()

    def answers(self, line):
        word, *fields = line.decode().split(" ")
        if word == "sub":
            self.add_live(fields[0])
        elif word == "vec":
            self.give_live(fields[0], *map(bytes.fromhex, fields[1:]))
        elif word == "show":
            return ["state %s DEREGISTERED IDLE INACTIVE" % fields[0]]
        elif word == "data" and fields[0] not in self.imsis:
            return ["refused 5"]
        elif word == "in":
            return ["out %s %s %s" % (owner, fields[0], octets.hex())
                    for owner, octets in self.heard(fields[0], bytes.fromhex(fields[1].removeprefix("-")))]
        return []

    def heard(self, station, octets):
        """The answers to a message: whose each is, and its octets."""
        message = s1ap.read(octets)
        nas = s1ap.inside(s1ap.carried(message) or NO_NAS)
        mme_id, enb_id = s1ap.ids(message)
        if message.code == s1ap.SETUP:
            return [("e" + station, lte.s1_setup_response(self.network))]
        if message.code == s1ap.INITIAL_UE and nas[:2] == b"\x07\x41":
            imsi, tmsi = s1ap.identity(nas[1], nas)
            return self.asked(station, enb_id, FIRST_STRANGER + enb_id, imsi, tmsi if GUMMEI in nas or imsi else NOBODYS)
        if message.code == s1ap.UPLINK_NAS and nas[:2] == b"\x07\x56":
            return self.asked(station, enb_id, mme_id, s1ap.identity(nas[1], nas)[0] or "", None)
        slot = self.places.get((mme_id, station, enb_id))
        if message.code == s1ap.UPLINK_NAS and slot is not None:
            return self.answered(slot, mme_id, enb_id, nas)
        return []

    def asked(self, station, enb_id, mme_id, imsi, tmsi):
        """Somebody asks to attach."""
        slot = tmsi >> 16 if tmsi is not None else self.imsis.index(imsi) if imsi in self.imsis else None
        if slot is None or slot >= len(self.imsis):
            answer = NO_IDENTITY if tmsi is not None else NOBODY
            return [("x%s.%d" % (station, enb_id), lte.downlink_nas(mme_id, enb_id, answer))]
        self.associations[slot] += 1
        mme_id = lte.id_of_slot(slot, self.associations[slot])
        self.places[mme_id, station, enb_id] = slot
        return self.challenge(slot, mme_id, enb_id)

    def challenge(self, slot, mme_id, enb_id):
        """By the next vector, where there is one."""
        if self.spent[slot] == len(self.vectors[slot]):
            return [("s%d" % slot, lte.downlink_nas(mme_id, enb_id, NO_VECTOR))]
        vector = self.vectors[slot][self.spent[slot]]
        self.spent[slot] += 1
        return [("s%d" % slot, lte.downlink_nas(mme_id, enb_id, lte.authentication_request(0, vector)))]

    def answered(self, slot, mme_id, enb_id, nas):
        """A phone answers its challenge."""
        if nas[:3] == b"\x07\x5c\x15":
            return self.challenge(slot, mme_id, enb_id)
        is_right = nas == lte.authentication_response(self.vectors[slot][self.spent[slot] - 1].xres)
        return [("s%d" % slot, lte.downlink_nas(mme_id, enb_id, LET_IN))] if is_right else []


class Stateful(StandIn):
    """One that keeps the states of phones, as docs/TABLE.md has them."""

    REACHABLE = 3480  # ticks (TS 24.301 clause 5.3.5)
    NONE, ASKED, HERE, IDLE = ("DEREGISTERED IDLE INACTIVE", "COMMON-PROCEDURE-INITIATED CONNECTED INACTIVE",
                               "REGISTERED CONNECTED ACTIVE", "REGISTERED IDLE ACTIVE")

    def __init__(self):
        super().__init__()
        self.states, self.at, self.left = [], {}, {}  # the last: of idle phones, how many ticks

    @classmethod
    def restored(cls, octets):
        made = super().restored(octets)
        made.at = {int(slot): tuple(place) for slot, place in made.at.items()}
        made.left = {int(slot): left for slot, left in made.left.items()}
        return made

    def add_live(self, imsi, *more):
        super().add_live(imsi, *more)
        self.states.append(self.NONE)

    def answers(self, line):
        word, *fields = line.decode().split(" ")
        slot = self.imsis.index(fields[0]) if fields and fields[0] in self.imsis else None
        if word == "show":
            return ["state %s %s" % (fields[0], self.states[slot])]
        if word == "tick":
            self.tick(int(fields[0]))
        if word in ("lost", "up"):
            for slot in [slot for slot, place in self.at.items() if place[1] == fields[0]]:
                self.falls(slot)
        if word == "cancel" and slot is not None:
            place, self.states[slot] = self.at.pop(slot, None), self.NONE
            self.left.pop(slot, None)
            return self.released(slot, place, lte.DETACHED) if place else []
        return super().answers(line)

    @staticmethod
    def released(slot, place, cause):
        mme_id, station, enb_id = place
        return ["out s%d %s %s" % (slot, station, lte.release_command(mme_id, enb_id, cause).hex())]

    def tick(self, count):
        for slot, left in list(self.left.items()):
            self.left[slot] = left - count
            if left <= count:
                del self.left[slot]
                self.states[slot] = self.NONE

    def falls(self, slot):
        del self.at[slot]
        if self.states[slot] == self.HERE:
            self.states[slot], self.left[slot] = self.IDLE, self.REACHABLE
        else:
            self.states[slot] = self.NONE

    def challenge(self, slot, mme_id, enb_id):
        found = super().challenge(slot, mme_id, enb_id)
        is_challenged = NO_VECTOR not in found[0][1]
        self.states[slot] = self.ASKED if is_challenged else self.NONE
        self.left.pop(slot, None)
        return found

    def heard(self, station, octets):
        message = s1ap.read(octets)
        nas, (mme_id, enb_id) = s1ap.carried(message) or NO_NAS, s1ap.ids(message)
        if message.code == s1ap.INITIAL_UE and nas[:1] == b"\xc7":
            slot = int.from_bytes(message.elements[s1ap.S_TMSI][-4:], "big") >> 16
            self.associations[slot] += 1
            self.left.pop(slot, None)
            self.states[slot] = self.HERE
            return self.accepts(slot, (lte.id_of_slot(slot, self.associations[slot]), station, enb_id), None)
        slot = self.places.get((mme_id, station, enb_id))
        if slot is not None and message.code == s1ap.RELEASE_REQUEST:
            self.falls(slot)
            return [("s%d" % slot, lte.release_command(mme_id, enb_id, lte.USER_INACTIVITY))]
        if slot is not None and s1ap.inside(nas)[:2] == lte.ATTACH_COMPLETE[:2]:
            self.states[slot] = self.HERE
            return []
        if slot is not None and s1ap.inside(nas)[:2] == b"\x07\x45":
            del self.at[slot]
            self.states[slot] = self.NONE
            return [("s%d" % slot, lte.downlink_nas(mme_id, enb_id, lte.DETACH_ACCEPT)),
                    ("s%d" % slot, lte.release_command(mme_id, enb_id, lte.DETACHED))]
        return super().heard(station, octets)

    def accepts(self, slot, place, nas):
        """INITIAL CONTEXT SETUP REQUEST."""
        self.at[slot] = place
        self.places[place] = slot
        mme_id, _, enb_id = place
        subscriber = types.SimpleNamespace(gateway=bytes([10, 0, 0, 100]), teid=bytes(4), capability=b"\xe0\x60")
        return [("s%d" % slot, lte.context_setup_request(self.network, mme_id, enb_id, subscriber, bytes(32), nas))]

    def answered(self, slot, mme_id, enb_id, nas):
        found = super().answered(slot, mme_id, enb_id, nas)
        if not found or LET_IN not in found[0][1]:
            return found
        station = next(station for number, station, other in self.places if (number, other) == (mme_id, enb_id))
        esm = lte.activate_default_bearer(self.network, 1, bytes(4), 1)
        return self.accepts(slot, (mme_id, station, enb_id),
                            lte.attach_accept(self.network, 1, slot << 16 | self.associations[slot], 1, esm))


PACKAGE = types.SimpleNamespace(Mme=StandIn, Refused=soizkadur.Refused, Refusal=soizkadur.Refusal)

if __name__ == "__main__":
    front.library = lambda: PACKAGE
    while (name := sys.argv[1].lstrip("-")) in ("held", "supply", "later", "rest", "states"):
        if name == "states":
            PACKAGE.Mme = Stateful
        elif name == "rest":
            front.CARE_SECONDS = limits.SNAPSHOT_REST = limits.SNAPSHOT_AGAIN = float(sys.argv[2])
            limits.SNAPSHOT_SHARE, limits.SNAPSHOT_LEAST = 0, 1
        else:
            setattr(limits, name.upper() + "_SECONDS", float(sys.argv[2]))
        del sys.argv[1:3]
    sys.exit(command.main(""))
