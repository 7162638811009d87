"""Messages that are held until vectors come: of a phone that has none left or isn't provisioned and asks to attach, and of one that
says that its SQN is ahead (AUTHENTICATION FAILURE with cause 21).

A message is held for a while at most, and then goes on as it is. What its station says of the same phone meanwhile, by the eNB UE
S1AP ID, comes after it; nothing of anybody else waits.

The MME challenges by its vectors in their order, so after cause 21 the next challenge would be by a vector from before the phone's
SQN, where it has one. No call takes a vector back. But at cause 21 the MME goes on to its next vector: so the phone's message is
given once more for each such vector, and the challenges that these are answered by go to nobody. A phone that hears of three in a
row would give up (TS 24.301 clause 5.4.2.6).
"""
import collections
import functools
import re

from tools import runs, s1ap

from tools.fronting import limits
from tools.fronting.associations import RESETS
from tools.fronting.meters import INITIAL_MESSAGE, SETUP_REQUEST, UPLINK

ATTACH, IDENTITY, FAILURE = (bytes([s1ap.EMM, kind]) for kind in (
    s1ap.ATTACH_REQUEST, s1ap.IDENTITY_RESPONSE, s1ap.AUTHENTICATION_FAILURE))
SYNCH_FAILURE = 21  # EMM cause (TS 24.301 clause 9.9.3.9)
AUTS_TYPE, AUTS_OCTETS = 0x30, 14  # the authentication failure parameter (clause 9.9.3.1)
GUMMEI_AT, GUMMEI_OCTETS = 2, 6  # of an identity with a GUTI, after its length (clause 9.9.3.12)
IMSI = re.compile("[0-9]{14,15}")
OF_ALL = {RESETS, SETUP_REQUEST[1:]}  # the second octets of what a station says of all its associations
PASSED = "# the message of IMSI %s is given once more for each of %d vectors from before its SQN, whose challenges go to nobody"


def enb_id_of(octets):
    return s1ap.number_in(s1ap.element(octets, s1ap.ENB_ID))


def auts_in(nas):
    """The AUTS of an AUTHENTICATION FAILURE with cause 21; nothing of another message."""
    parameter = nas[3:3 + 2 + AUTS_OCTETS]
    is_right = nas[:2] == FAILURE and nas[2:3] == bytes([SYNCH_FAILURE]) and parameter[:2] == bytes([AUTS_TYPE, AUTS_OCTETS])
    return parameter[2:] if is_right and len(parameter) == 2 + AUTS_OCTETS else None


def gummei_of(country, network, group, code):
    """An MME's PLMN, group and code, as a GUTI has them."""
    network += "f"
    return bytes.fromhex(country[1] + country[0] + network[2] + country[2] + network[1] + network[0] + group + code)


class Held:
    """What is held of a phone: its messages, the first of which waits for vectors."""

    def __init__(self, station, imsi, octets, timer):
        self.station, self.imsi, self.messages, self.timer = station, imsi, [octets], timer


class Holding:
    """The messages that are held, by their station and eNB UE S1AP ID."""

    def __init__(self, front, asking):
        self.front, self.asking, self.gummei = front, asking, gummei_of(*front.head.mme[1:5])
        self.held, self.octets = {}, collections.Counter()  # the second: by station
        self.under_way = collections.Counter()  # by IMSI, ATTACH REQUESTs that the MME hasn't answered
        self.challenges, self.challenged = {}, {}  # the last one of a phone, by station and MME UE S1AP ID; which that is, by slot
        self.passed = set()  # slots and RANDs whose challenges go to nobody
        self.counted = collections.Counter()

    # What stations say.

    def sift(self, said):
        """What stations said in their turns, but for what is held."""
        return [(station, messages) for station, messages in ((station, self.passing(station, messages))
                                                              for station, messages in said) if messages]

    def passing(self, station, messages):
        """The messages that go on, with those before them that were held for one that is of all associations."""
        passing = []
        for octets in messages:
            if self.octets[station.number]:
                if octets[1:2] in OF_ALL:
                    passing += self.all_of(station)
                elif (place := (station.number, enb_id_of(octets))) in self.held:
                    passing += self.put_after(place, octets)
                    continue
            if octets[:2] not in (INITIAL_MESSAGE, UPLINK) or not self.holds(station, octets):
                passing.append(octets)
        return passing

    def put_after(self, place, octets):
        """Has a message come after those that are held of its phone; where there is no room for it, all go on now."""
        held = self.held[place]
        if self.octets[place[0]] + len(octets) <= limits.HELD_OCTETS:
            held.messages.append(octets)
            self.octets[place[0]] += len(octets)
            return []
        self.counted["no room"] += 1
        return [*self.taken(place).messages, octets]

    def holds(self, station, octets):
        """Whether a message is held from now on."""
        if ATTACH not in octets and IDENTITY not in octets and FAILURE not in octets:
            return False
        carried, is_first = s1ap.nas_in(octets), octets[:2] == INITIAL_MESSAGE
        nas = s1ap.inside(carried) if carried else b""
        if nas[:2] == (ATTACH if is_first else IDENTITY):
            return self.holds_attach(station, octets, self.imsi_of(nas))
        auts = None if is_first else auts_in(nas)
        return auts is not None and self.holds_failure(station, octets, auts)

    def holds_attach(self, station, octets, imsi):
        """Whether one that has a phone be challenged waits for a vector."""
        slot = self.front.head.slots.get(imsi)
        if imsi is None or slot is None and not (self.asking.pool and IMSI.fullmatch(imsi)):
            return False
        if slot is not None and self.front.stock.left(slot) > self.under_way[imsi]:
            self.goes_on(imsi)
            return False
        return self.hold(station, imsi, octets, ())

    def holds_failure(self, station, octets, auts):
        """Whether one that says that the phone's SQN is ahead waits for vectors after that."""
        slot, enb_id, rand = self.challenges.get((station.number, s1ap.number_in(s1ap.element(octets, s1ap.MME_ID))), (None,) * 3)
        if slot is None or enb_id != enb_id_of(octets):
            return False
        return self.hold(station, self.front.head.imsis[slot], octets, (rand, auts))

    def hold(self, station, imsi, octets, failure):
        """Holds a message until vectors come, if there is room for it."""
        place = station.number, enb_id_of(octets)
        if place[1] is None or self.octets[station.number] + len(octets) > limits.HELD_OCTETS:
            self.counted["no room"] += 1
            return False
        timer = self.front.loop.after(limits.HELD_SECONDS, functools.partial(self.is_late, place))
        self.held[place] = held = Held(station, imsi, octets, timer)
        self.octets[station.number] += len(octets)
        self.asking.want(imsi, functools.partial(self.has_come, place, held), failure)
        return True

    def goes_on(self, imsi):
        """A message goes on by which a phone may be challenged, and isn't answered yet."""
        self.under_way[imsi] += 1
        self.front.exchange.batch.after.append(functools.partial(self.is_answered, imsi))

    def is_answered(self, imsi):
        self.under_way[imsi] -= 1
        if not self.under_way[imsi]:
            del self.under_way[imsi]

    def imsi_of(self, nas):
        """Who a phone says it is, by its IMSI, or by a GUTI that this MME gave; nothing where that isn't known."""
        imsi, tmsi = s1ap.identity(nas[1], nas)
        if tmsi is None:
            return imsi
        at, slot, imsis = s1ap.IDENTITY_PLACES[nas[1]] + GUMMEI_AT, tmsi >> runs.SLOT_BITS, self.front.head.imsis
        is_own = nas[at:at + GUMMEI_OCTETS] == self.gummei and slot < len(imsis)
        return imsis[slot] if is_own else None

    # What becomes of them.

    def taken(self, place):
        """What was held of a phone, which isn't any more."""
        held = self.held.pop(place)
        held.timer.cancel()
        self.octets[place[0]] -= sum(map(len, held.messages))
        if not self.octets[place[0]]:
            del self.octets[place[0]]
        if held.imsi is not None:
            self.goes_on(held.imsi)
        return held

    def all_of(self, station):
        """All messages that are held of a station, in their order."""
        places = [place for place in self.held if place[0] == station.number]
        self.counted["not waited for"] += len(places)
        return [octets for place in places for octets in self.taken(place).messages]

    def release(self, place, more=()):
        """What is held of a phone goes on, after further messages of it."""
        held = self.taken(place)
        self.front.crowd.hear([(held.station, [*more, *held.messages])])

    def is_late(self, place):
        """No vectors came in time."""
        self.counted["late"] += 1
        self.release(place)

    def has_come(self, place, held, stale):
        """Vectors came, or none will."""
        if self.held.get(place) is not held:
            return
        self.counted["answered"] += 1
        if stale:
            slot = self.front.head.slots[held.imsi]
            self.passed.update((slot, rand) for rand in stale)
            self.front.exchange.put(PASSED % (held.imsi, len(stale)))
            self.front.exchange.batch.after.append(functools.partial(self.forget, slot, stale))
        self.release(place, [held.messages[0]] * len(stale))

    def forget(self, slot, stale):
        """What was to be passed over is."""
        self.passed.difference_update((slot, rand) for rand in stale)

    def part(self, station):
        """A station is lost: what is held of it comes before."""
        messages = self.all_of(station)
        if messages:
            self.front.crowd.hear([(station, messages)])

    # What the MME answers.

    def passes_over(self, slot, rand, number, octets):
        """Whether a challenge goes to nobody. Of another one it is noted whose it is."""
        if (slot, rand) in self.passed:
            return True
        place = number, s1ap.number_in(s1ap.element(octets, s1ap.MME_ID))
        self.challenges.pop(self.challenged.get(slot), None)
        self.challenges[place], self.challenged[slot] = (slot, enb_id_of(octets), rand), place
        return False
