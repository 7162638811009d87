"""Phones that answer what they are sent, by the standards' formats, and the messages that they and their stations send.

A message is a `Said` until it is sent, so that a lie may be told in any part of it.
"""
import dataclasses

from tests.hostile import standards
from tests.hostile.standards import IGNORE, INITIATING, REJECT, SUCCESSFUL, UNSUCCESSFUL, lte

FOREIGN_GUTI = bytes.fromhex("f602f83900010212345678")
ELSEWHERE_GUTI = bytes.fromhex("f600f1108001010ff00001")  # of this MME, and of a slot that isn't provisioned
UNSPECIFIED = (lte.RADIO, 0)
PTI = 1


@dataclasses.dataclass
class Said:
    """A message of a station: its kind, the station, the ids, NAS, and what else it carries."""
    kind: str
    station: object
    m: int = 0
    b: int = 0
    nas: bytes = b""
    more: object = None


def ids(said, criticality):
    return (criticality, standards.mme_id(said.m)), (criticality, standards.enb_id(said.b))


class Speech:
    """How each kind of message is put together (TS 36.413 clause 9.1)."""

    def __init__(self, network):
        self.network = network

    def octets(self, said):
        return getattr(self, said.kind)(said)

    def place(self, station):
        return (IGNORE, standards.cell(self.network, station.cell)), (IGNORE, standards.tai(self.network, station.tac))

    def initial(self, said):
        cell, (_, area) = self.place(said.station)
        parts = [(REJECT, standards.enb_id(said.b)), (REJECT, standards.nas_pdu(said.nas)), (REJECT, area), cell,
                 (IGNORE, standards.rrc_cause(3))]
        if said.more is not None:
            parts.append((REJECT, standards.s_tmsi(self.network.code[0], said.more)))
        return standards.message(INITIATING, 12, IGNORE, *parts)

    def uplink(self, said):
        return standards.message(INITIATING, 13, IGNORE, *ids(said, REJECT), (REJECT, standards.nas_pdu(said.nas)),
                                 *self.place(said.station))

    def undelivered(self, said):
        return standards.message(INITIATING, 16, IGNORE, *ids(said, REJECT), (IGNORE, standards.nas_pdu(said.nas)),
                                 (IGNORE, standards.cause(UNSPECIFIED)))

    def capability(self, said):
        return standards.message(INITIATING, 22, IGNORE, *ids(said, REJECT), (IGNORE, (74, standards.sized(said.nas))))

    def asks_release(self, said):
        return standards.message(INITIATING, 18, IGNORE, *ids(said, REJECT), (IGNORE, standards.cause(said.more)))

    def released(self, said):
        return standards.message(SUCCESSFUL, 23, REJECT, *ids(said, IGNORE))

    def is_set_up(self, said):
        rab = 51, standards.rab_at(50, IGNORE, said.station.address, said.b.to_bytes(4, "big"))
        return standards.message(SUCCESSFUL, 9, REJECT, *ids(said, IGNORE), (IGNORE, rab))

    def is_not_set_up(self, said):
        return standards.message(UNSUCCESSFUL, 9, REJECT, *ids(said, IGNORE), (IGNORE, standards.cause(UNSPECIFIED)))

    def switch(self, said):
        rab = 22, standards.rab_at(23, REJECT, said.station.address, said.b.to_bytes(4, "big"))
        return standards.message(INITIATING, 3, REJECT, (REJECT, standards.enb_id(said.b)), (REJECT, rab),
                                 (REJECT, (88, standards.mme_id(said.m)[1])), *self.place(said.station),
                                 (IGNORE, standards.capabilities(said.more)))

    def downlink(self, said):
        return standards.message(INITIATING, 11, IGNORE, *ids(said, REJECT), (REJECT, standards.nas_pdu(said.nas)))

    def raw(self, said):
        return said.nas


class Handset:
    """A phone: where it is, its context, and the messages that it owes to what it was sent."""

    def __init__(self, network, imsi, vectors, capability=b"\xe0\x60"):
        self.network, self.imsi, self.capability = network, imsi, capability
        self.vectors = {vector.rand: vector for vector in vectors}
        self.keys = {}
        self.station = self.m = self.b = None
        self.cmac = self.tmsi = None
        self.ksi = self.up_count = 0
        self.registered, self.last, self.owed = False, b"", []
        self.challenge, self.is_refused = None, False

    # What it sends.

    def under(self, nas, header=1):
        """The message under the phone's context, with the next count."""
        inside = bytes([self.up_count & 255]) + nas
        self.last = bytes([header << 4 | 7]) + self.cmac.eia2(self.up_count, lte.UP, inside) + inside
        self.up_count += 1
        return self.last

    def first(self, station, b, nas, tmsi=None):
        self.station, self.b, self.m = station, b, None
        return Said("initial", station, 0, b, nas, tmsi)

    def uplink(self, nas):
        return Said("uplink", self.station, self.m, self.b, nas)

    def attach_nas(self, identity=None, attach_type=1, pdn_type=1, information=False, capability=None):
        esm = lte.pdn_connectivity_request(PTI, pdn_type, information)
        return lte.attach_request(attach_type, identity or lte.imsi_identity(self.imsi), capability or self.capability, esm)

    def guti(self):
        return lte.guti(self.network, self.tmsi or 0)

    def service_nas(self):
        head = bytes([0xC7, self.ksi << 5 | self.up_count % 32])
        nas = head + self.cmac.eia2(self.up_count, lte.UP, head)[2:]
        self.up_count += 1
        return nas

    def tau_nas(self, update_type=0):
        return bytes([0x07, 0x48, self.ksi << 4 | update_type]) + lte.sized(self.guti())

    def detach_nas(self, detach_type=1):
        identity = self.guti() if self.tmsi else lte.imsi_identity(self.imsi)
        return bytes([0x07, 0x45, self.ksi << 4 | detach_type]) + lte.sized(identity)

    def identity_nas(self):
        return b"\x07\x56" + lte.sized(lte.imsi_identity(self.imsi))

    # What it is sent. What it answers is put off: `owed` has functions that make it when its time comes.

    def owes(self, nas_of, header=None):
        """NAS to be sent on the connection that there then is, under the context where a header is given."""
        def answer():
            if self.m is None or header is not None and self.cmac is None:
                return None
            nas = nas_of()
            return self.uplink(nas if header is None else self.under(nas, header))
        self.owed.append(answer)

    def owes_station(self, kind, **more):
        said = Said(kind, self.station, self.m, self.b, **more)
        self.owed.append(lambda: said)

    def hear_nas(self, nas):
        """Downlink NAS (TS 24.301 clause 8.2)."""
        if nas[:1] != b"\x07":
            nas = nas[6:]
        if nas[:1] == b"\x02":
            if nas[2:3] == b"\xd9":
                self.owes(lambda: bytes([2, nas[1], lte.INFORMATION_RESPONSE]), 1)
            return
        heard = self.HEARD.get(nas[1]) if len(nas) > 1 else None
        if heard:
            heard(self, nas)

    def is_challenged(self, nas):
        vector = self.vectors.get(nas[3:19])
        if vector is None:
            self.owes(lambda: b"\x07\x5c\x14")
        else:
            self.owes(lambda: lte.authentication_response(vector.xres))
            self.challenge = vector

    def is_secured(self, nas):
        if self.challenge is None:
            return
        kasme = self.challenge.kasme
        if kasme not in CIPHERS:
            CIPHERS[kasme] = standards.Cmac(lte.nas_integrity_key(kasme))
        self.cmac, self.ksi, self.up_count = CIPHERS[kasme], nas[3] & 7, 0
        self.owes(lambda: lte.SECURITY_MODE_COMPLETE, 4)

    def is_accepted(self, nas):
        self.takes_guti(nas)
        self.registered = True
        self.owes(lambda: lte.ATTACH_COMPLETE, 2)

    def is_updated(self, nas):
        self.takes_guti(nas)
        self.owes(lambda: lte.TAU_COMPLETE, 2)

    def takes_guti(self, nas):
        at = nas.find(b"\x50\x0b\xf6")
        if at >= 0:
            self.tmsi = int.from_bytes(nas[at + 9:at + 13], "big")

    def is_asked(self, _):
        self.owes(self.identity_nas)

    def is_detached(self, nas):
        self.registered, self.cmac = False, None
        self.is_refused = nas[1:] == b"\x44\x11"  # for want of a vector

    def is_told_to_detach(self, _):
        self.owes(lambda: b"\x07\x46", 1)

    HEARD = {0x52: is_challenged, 0x5D: is_secured, 0x42: is_accepted, 0x49: is_updated, 0x55: is_asked, 0x44: is_detached,
             0x4B: is_detached, 0x4E: is_detached, 0x54: is_detached, 0x46: is_detached, 0x45: is_told_to_detach}


CIPHERS = {}
