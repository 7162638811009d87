"""Attaches that are completed, by the MME's states: anybody can send a message that looks like ATTACH COMPLETE.

ATTACH COMPLETE has no answer. So right after one, on the connection that the phone's ATTACH ACCEPT went to, the MME is asked for
the phone's states, in a line that stands in no log. One question of an accept is under way at a time; what comes meanwhile is asked
for after it, together. A phone that is registered then has completed the attach of that accept.
"""
import collections

from tools import s1ap

from tools.fronting.meters import UPLINK

ACCEPT, COMPLETE = (bytes([s1ap.EMM, kind]) for kind in (0x42, s1ap.ATTACH_COMPLETE))
REGISTERED = "REGISTERED "  # how the states of such a phone begin


def id_with(octets, beginning):
    """The MME UE S1AP ID of a message with a NAS message of a type; None where it isn't one."""
    return s1ap.number_in(s1ap.element(octets, s1ap.MME_ID)) if s1ap.carries(octets, beginning) else None


class Attaches:
    """The accepts whose attach isn't known to be completed, one of each phone at the most: by the station and the MME UE S1AP ID,
    and by the phone's slot."""

    def __init__(self, front):
        self.front = front
        self.slots, self.places = {}, {}
        self.asked, self.again = set(), set()  # the slots of which a question is under way, and is to be put again
        self.early = collections.Counter()  # the places of ATTACH COMPLETEs whose accept may be among the answers that are due

    def accept(self, slot, station, octets):
        """What is sent for a phone, in INITIAL CONTEXT SETUP REQUEST."""
        number = id_with(octets, ACCEPT)
        if number is not None and slot < len(self.front.head.imsis):
            self.forget(slot)
            self.slots[station, number], self.places[slot] = slot, (station, number)
            if (station, number) in self.early:
                self.ask(slot)

    def forget(self, slot):
        self.slots.pop(self.places.pop(slot, None), None)
        self.again.discard(slot)

    def hear(self, station, octets, line):
        """What a station sends, and its line: after an ATTACH COMPLETE the MME is asked."""
        if octets[:2] != UPLINK or COMPLETE not in octets:
            return
        place = station, id_with(octets, COMPLETE)
        slot = self.slots.get(place)
        if slot is None:
            self.early[place] += 1
            self.front.exchange.batch.after.append(lambda: self.is_late(place))
        elif slot in self.asked:
            self.again.add(slot)
        else:
            self.asked.add(slot)
            self.front.exchange.ask_after(line, self.front.head.imsis[slot], self.note)

    def is_late(self, place):
        """What was due when an ATTACH COMPLETE came is answered."""
        self.early[place] -= 1
        if not self.early[place]:
            del self.early[place]

    def ask(self, slot):
        """Asks for a phone now."""
        self.asked.add(slot)
        words = "show " + self.front.head.imsis[slot]
        self.front.loop.after(0, lambda: self.front.exchange.ask([words], self.note, lambda: None))

    def note(self, answer):
        """The states of a phone that was asked for."""
        slot = self.front.head.slots[answer.imsi]
        self.asked.discard(slot)
        if slot in self.places and answer.states.startswith(REGISTERED):
            self.front.meters.attaches["completed"] += 1
            self.forget(slot)
            self.front.note_attached(slot)
        elif slot in self.again:
            self.again.discard(slot)
            self.ask(slot)
