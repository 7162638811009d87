"""A phone's messages from one MME, as another MME has to send them: with the identities that it has there, and the MACs over these.

What an MME puts into a phone's messages of its own: its MME code, in GUTI and S-TMSI; the phone's slot, in MME UE S1AP IDs and
M-TMSIs. Everything else stays, octet for octet, the counters and counts among it.
"""
from tests.hostile import worked
from tests.hostile.projection import FIRST_STRANGER, number
from tests.hostile.standards import Cmac, lte, message, nas_pdu

MME_ID, NAS_PDU, BEARERS, PAGING_IDENTITY, BOTH_IDS = 0, 26, 24, 43, 99
GUTI_NEXT = b"\x50\x0b"  # in ATTACH ACCEPT and TRACKING AREA UPDATE ACCEPT (TS 24.301 clauses 8.2.1, 8.2.26)
CODE = 6  # octets before the code in a GUTI: its first octet, the network, the group
ROUNDS = 4  # times 256 messages that a phone's context has at most here


class Unlike(Exception):
    """A message that this MME can't have sent to this phone."""


class Renaming:
    """From the MME with this network and slot of the phone to the one with those."""

    def __init__(self, here, there, kasmes):
        (self.network, self.slot), (self.other, self.other_slot) = here, there
        self.keys = [Cmac(lte.nas_integrity_key(kasme)) for kasme in kasmes]
        self.named = self.protected = 0

    def of_slot(self, m):
        if m // lte.IDS_OF_A_SLOT != self.slot:
            raise Unlike("%08x isn't an id of slot %d" % (m, self.slot))
        self.named += 1
        return lte.id_of_slot(self.other_slot, m % lte.IDS_OF_A_SLOT)

    def mme_id(self, m):
        return m if m >= FIRST_STRANGER else self.of_slot(m)

    def guti(self, plain):
        """The message with the phone's other GUTI, where it has one."""
        own = b"\xf6" + self.network.nas_plmn + self.network.group + self.network.code
        at = plain.find(GUTI_NEXT + own)
        if at < 0:
            return plain
        at += len(GUTI_NEXT)
        tmsi = self.of_slot(int.from_bytes(plain[at + len(own):at + len(own) + 4], "big"))
        return plain[:at] + lte.guti(self.other, tmsi) + plain[at + len(own) + 4:]

    def nas(self, nas):
        if nas[0] & 15 != 7 or nas[0] >> 4 == 0:
            return self.guti(nas)
        for key in self.keys:
            for count in range(nas[5], 256 * ROUNDS, 256):
                if key.eia2(count, lte.DOWN, nas[5:]) == nas[1:5]:
                    inside = nas[5:6] + self.guti(nas[6:])
                    self.protected += 1
                    return nas[:1] + key.eia2(count, lte.DOWN, inside) + inside
        raise Unlike("the MAC is of no vector of the phone: " + nas.hex())

    def element(self, octets, identity, content):
        if identity == MME_ID:
            return lte.mme_id(self.mme_id(number(content)))[1]
        if identity == BOTH_IDS:
            size = (content[0] >> 2 & 3) + 1
            m, b = int.from_bytes(content[1:1 + size], "big"), int.from_bytes(content[2 + size:], "big")
            if lte.pair(m, b)[1] != content:
                raise Unlike("the ids aren't spelled as the encoder does: " + content.hex())
            return lte.pair(self.mme_id(m), b)[1]
        if identity == PAGING_IDENTITY:
            tmsi = int.from_bytes(content[2:], "big")
            if lte.paging_identity(self.network, tmsi)[1] != content:
                raise Unlike("paged by another identity than the S-TMSI: " + content.hex())
            return lte.paging_identity(self.other, self.of_slot(tmsi))[1]
        if identity == NAS_PDU:
            nas = worked.nas_of(octets)
            if nas is None:
                raise Unlike("NAS that isn't spelled as the encoder does: " + octets.hex())
            return nas_pdu(self.nas(nas))[1]
        if identity == BEARERS:
            nas = worked.accepted_nas(octets)
            return content if nas is None else content[:-len(nas)] + self.nas(nas)
        return content

    def message(self, octets):
        """The message as the other MME sends it."""
        parts = [(named, (identity, self.element(octets, identity, content)))
                 for named, (identity, content) in worked.elements(octets)]
        return message(octets[0] >> 5 & 3, octets[1], octets[2] >> 6, *parts)
