"""The last messages between stations and the MME, and whose each is: by the MME UE S1AP ID in it, which has a subscriber's slot, by
whom the MME sent an answer for, or by the IMSI with which a phone came. They are read a piece at a time, once each."""
import collections
import dataclasses
import itertools

from tools import runs, s1ap

from tools.fronting.meters import PAGING, RECENT

PIECE = 15  # messages that are read at once
STRANGER = "a stranger"


@dataclasses.dataclass(slots=True)
class Who:
    """Whom messages are of: an IMSI, or in words. What is learned later is of the earlier messages too."""
    name: str = ""


@dataclasses.dataclass(slots=True)
class Row:
    """A message: when it came or went, of which station, whether that sent it, its name, whose it is, and which of the station's
    messages it is."""
    when: float
    station: int
    is_in: bool
    label: str
    who: Who
    place: int | None


class History:
    """The rows of the last messages, as many as are kept here, the newest at the end."""

    def __init__(self, meters, imsis, most=RECENT):
        self.meters, self.imsis, self.most = meters, imsis, most  # the second gives the IMSIs by slot
        self.rows, self.read, self.known = collections.deque(maxlen=most), 0, {}

    def read_on(self, until):
        """Reads a piece of the first `until` messages since the start; whether there is more of them."""
        gone = self.meters.messages - len(self.meters.recent)
        self.read = max(self.read, gone, until - self.most)
        start = self.read - gone
        for message in list(itertools.islice(self.meters.recent, start, start + max(0, min(PIECE, until - self.read)))):
            self.rows.append(self.row_of(*message))
            self.read += 1
        return self.read < until

    def row_of(self, when, station, is_in, octets, mark):
        """A message as the front keeps it (meters.py)."""
        message = s1ap.read(octets)
        carried = s1ap.carried(message)
        nas = s1ap.nas(carried) if carried else None
        label = s1ap.name(message)
        label += " · " + nas.name if nas is not None and nas.name else ""
        who = self.sender_of(station, message, nas) if is_in else self.receiver_of(station, octets, message, mark)
        return Row(when, station, is_in, label, who, mark if is_in else None)

    def sender_of(self, station, message, nas):
        """Whose a station's message is."""
        mme_id, enb_id = s1ap.ids(message)
        if message.code == s1ap.INITIAL_UE:
            imsi = s1ap.identity(nas.type, nas.octets)[0] if nas is not None else None
            return self.learn(station, enb_id, Who(imsi or ""))
        if mme_id is not None and mme_id < runs.FIRST_STRANGER and mme_id >> runs.SLOT_BITS < len(self.imsis()):
            return self.named(station, enb_id, self.imsis()[mme_id >> runs.SLOT_BITS])
        return self.known.get((station, enb_id)) or Who() if enb_id is not None else Who()

    def receiver_of(self, station, octets, message, owner):
        """Whom the MME sent a message for."""
        enb_id = s1ap.ids(message)[1]
        if owner[:1] == b"s" and int(owner[1:]) < len(self.imsis()):
            imsi = self.imsis()[int(owner[1:])]
            return Who(imsi) if octets[:2] == PAGING else self.named(station, enb_id, imsi)
        if owner[:1] != b"x":
            return Who()
        who = self.known.get((station, enb_id)) or self.learn(station, enb_id, Who())
        who.name = who.name or STRANGER
        return who

    def named(self, station, enb_id, imsi):
        """The subscriber with this IMSI, who has this eNB UE S1AP ID; who was there by it before is a stranger no more."""
        who = self.known.get((station, enb_id))
        if who is None or who.name not in ("", STRANGER, imsi):
            who = self.learn(station, enb_id, Who())
        who.name = imsi
        return who

    def learn(self, station, enb_id, who):
        """Who has an eNB UE S1AP ID at a station from now on."""
        if len(self.known) > RECENT:
            self.known.clear()
        if enb_id is not None:
            self.known[station, enb_id] = who
        return who
