"""What hostile stations and phones make of messages, and what they send beside them."""
import dataclasses

from tests.hostile import standards
from tests.hostile.handsets import FOREIGN_GUTI, UNSPECIFIED, Said
from tests.hostile.laboratory import LATER_CAUSE, NETWORK, RADIO_IDS, STATIONS, SUBSCRIBERS, Laboratory
from tests.hostile.projection import FIRST_STRANGER, stranger
from tests.hostile.standards import IGNORE, INITIATING, REJECT, lte


# The kinds of messages with ids.
KINDS = ("uplink", "uplink", "undelivered", "capability", "asks_release", "released", "is_set_up", "is_not_set_up", "switch")


def turned(octets, place):
    """The octets with one bit turned."""
    at, bit = divmod(place, 8)
    return octets[:at] + bytes([octets[at] ^ 128 >> bit]) + octets[at + 1:]


class Liar(Laboratory):
    """A laboratory whose stations and phones lie."""

    def damaged(self, octets):
        """Octets that were damaged on their way."""
        rng, choice = self.rng, self.rng.random()
        if not octets:
            return bytes([rng.randrange(256)])
        at = rng.randrange(len(octets))
        if choice < 0.45:
            for _ in range(rng.choice((1, 1, 1, 2, 3))):
                octets = turned(octets, rng.randrange(8 * len(octets)))
            return octets
        if choice < 0.6:
            return octets[:at]
        if choice < 0.7:
            return octets[:at] + bytes([rng.randrange(256)]) + octets[at + 1:]
        if choice < 0.8:
            return octets[:at] + octets[at + 1:]
        if choice < 0.9:
            return octets[:at] + bytes([rng.randrange(256)]) + octets[at:]
        return octets + octets[at:]

    def twisted(self, said):
        """A message with a lie in one of its parts."""
        rng, said = self.rng, dataclasses.replace(said)
        part = rng.choice(("m", "b", "station", "nas", "nas", "pair"))
        if part in ("m", "pair"):
            said.m = self.some_id()
        if part in ("b", "pair"):
            said.b = rng.choice(RADIO_IDS)
        if part == "station":
            said.station = rng.choice(STATIONS)
        if part == "nas" and said.kind in ("initial", "uplink"):
            said.nas = self.twisted_nas(said.nas)
        return said

    def twisted_nas(self, nas):
        """NAS that is damaged, another's, or in another security header."""
        choice = self.rng.random()
        if choice < 0.5:
            return self.damaged(nas)
        if choice < 0.7:
            return self.some_nas()
        if choice < 0.85 and nas:
            return bytes([self.rng.randrange(16) << 4 | 7]) + nas[1:]
        return bytes([self.rng.choice((1, 2, 3, 4)) << 4 | 7]) + self.rng.randbytes(5) + nas

    def some_id(self):
        """An MME UE S1AP ID: another's, an old or coming one, a stranger's, of nobody, or any."""
        rng = self.rng
        slot = rng.randrange(SUBSCRIBERS)
        known = [phone.m for phone in self.phones if phone.m is not None]
        return rng.choice((
            rng.choice(known or [0]), rng.choice(known or [0]), max(0, (rng.choice(known or [1]) + rng.choice((-1, 1)))) % 2**32,
            lte.id_of_slot(slot, rng.randrange(8)), stranger(rng.choice(STATIONS).number, rng.choice(RADIO_IDS)),
            lte.id_of_slot(SUBSCRIBERS + rng.randrange(3), rng.randrange(4)), FIRST_STRANGER - 1, 2**32 - 1, rng.getrandbits(32)))

    def some_nas(self):
        """NAS of some phone, as anybody could send it."""
        rng, phone = self.rng, self.rng.choice(self.phones)
        identity = rng.choice((lte.imsi_identity(phone.imsi), phone.guti(), FOREIGN_GUTI))
        return rng.choice((
            phone.attach_nas(identity), phone.last or b"\x07\x46", bytes([7, 0x45, 0x71]) + lte.sized(identity), phone.tau_nas(),
            phone.identity_nas(), b"\x07\x53" + lte.sized(rng.randbytes(8)), bytes([0xC7, rng.randrange(256)]) + rng.randbytes(2),
            b"\x07\x5e", b"\x07\x5f\x17", b"\x07\x5c" + rng.choice((b"\x14", b"\x15", b"")), lte.ATTACH_COMPLETE, lte.TAU_COMPLETE))

    # --- What is sent beside the phones ---

    def lie(self):
        lies = (self.replays, self.replays_elsewhere, self.impersonates, self.impersonates, self.speaks_for, self.speaks_for,
                self.garbage, self.not_a_stations, self.flood, self.tells_identity, self.forges, self.steals, self.later_cause,
                self.resets_part)
        self.speaking = self.rng.choice(self.phones)
        events = self.rng.choice(lies)()
        self.told["messages that are lies"] += len(events)
        return events

    def replays(self):
        """A message that was sent before, at its station."""
        return [self.heard(*self.rng.choice(self.sent))] if self.sent else []

    def replays_elsewhere(self):
        return [self.heard(self.rng.choice(STATIONS), self.rng.choice(self.sent)[1])] if self.sent else []

    def impersonates(self):
        """A first message with NAS of some phone that didn't send it."""
        station, b = self.somewhere()
        tmsi = self.rng.choice((None, self.rng.choice(self.phones).tmsi))
        return self.said(Said("initial", station, 0, b, self.some_nas(), tmsi))

    def speaks_for(self):
        """A message with some id and pair."""
        rng, (station, b) = self.rng, self.somewhere()
        phone = rng.choice(self.phones)
        if phone.m is not None and rng.random() < 0.7:
            station, b = rng.choice(((phone.station, phone.b), (phone.station, b), (station, phone.b)))
        kind = rng.choice(KINDS)
        more = {"asks_release": rng.choice((lte.USER_INACTIVITY, UNSPECIFIED)), "switch": b"\xe0\x60"}.get(kind)
        return self.said(Said(kind, station, self.some_id(), b, self.some_nas(), more))

    def said(self, said):
        return [self.heard(said.station, self.speech.octets(said))]

    def garbage(self):
        rng = self.rng
        octets = rng.choice((rng.randbytes(rng.randrange(40)), b"\0\x0c\x40" + standards.sized(rng.randbytes(rng.randrange(60))),
                             bytes([rng.choice((0, 32, 64)), rng.randrange(40), 0x40, 3, 0, 0, 0])))
        return [self.heard(rng.choice(STATIONS), octets)]

    def not_a_stations(self):
        """A message that only an MME sends, an outcome, or an ERROR INDICATION."""
        station, b = self.somewhere()
        m, rng = self.some_id(), self.rng
        octets = rng.choice((
            lte.downlink_nas(m, b, b"\x07\x46"), lte.release_command(m, b, lte.NORMAL_RELEASE), lte.s1_setup_response(NETWORK),
            lte.path_switch_acknowledge(m, b, 1, bytes(32)), lte.paging(NETWORK, self.speaking.imsi, 1, 1),
            lte.reset_acknowledge(), lte.reset_acknowledge((m, b), (None, b)),
            lte.s1ap(INITIATING, 15, IGNORE, (IGNORE, lte.mme_id(m)), (IGNORE, lte.enb_id(b)))))
        return [self.heard(station, octets)]

    def flood(self):
        """Strangers, one after another, at one station."""
        station, first = self.rng.choice(STATIONS), self.rng.choice((1, self.rng.randrange(2**24 - 16)))
        nas = self.rng.choice((self.speaking.attach_nas(FOREIGN_GUTI), b"\x07\x60\x61", self.some_nas()))
        firsts = [Said("initial", station, 0, b, nas) for b in range(first, first + self.rng.randint(2, 12))]
        return [line for said in firsts for line in self.said(said)]

    def tells_identity(self):
        """IDENTITY RESPONSE of some phone on a stranger's id."""
        station, b = self.somewhere()
        nas = self.rng.choice(self.phones).identity_nas()
        return self.said(Said("uplink", station, stranger(station.number, b), b, nas))

    def forges(self):
        """The last protected message of a phone again, or with the next count and its old MAC."""
        phone = self.speaking
        if phone.m is None or not phone.last:
            return []
        more = self.rng.choice((0, 1))
        return self.said(phone.uplink(phone.last[:5] + bytes([phone.last[5] + more & 255]) + phone.last[6:]))

    def steals(self):
        """PATH SWITCH REQUEST for another's association."""
        station, b = self.somewhere()
        m = self.speaking.m
        return [] if m is None else self.said(Said("switch", station, m, b, more=b"\xe0\x60"))

    def later_cause(self):
        """A request to release, with a cause of a later release."""
        phone = self.speaking
        if phone.m is None:
            return []
        ids = (REJECT, standards.mme_id(phone.m)), (REJECT, standards.enb_id(phone.b))
        return [self.heard(phone.station, standards.message(INITIATING, 18, IGNORE, *ids, (IGNORE, LATER_CAUSE)))]
