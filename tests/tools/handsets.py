"""Phones with SIMs that are live at a front, by TCP: they attach, answer challenges or refuse them for their SQN, and say how it
went."""
import select
import time

from reference import lte, phones
from tests.tools import fronted
from tests.tools.card import Card
from tools import s1ap

CHALLENGE, REJECT, IDENTITY, LET_IN, COMMAND = (b"\x07\x52", b"\x07\x44", b"\x07\x55", b"\x07\x5d", b"\x37")
REGISTERED, GAVE_UP = "registered", "gave up"
MOST_FAILURES = 3  # challenges in a row that it refuses, after which the network isn't genuine (TS 24.301 clause 5.4.2.6)
FAILURE = b"\x07\x5c\x15\x30\x0e"  # AUTHENTICATION FAILURE, cause 21, before its AUTS (TS 24.301 clause 8.2.5)
PATIENCE = 60


def sim(number):
    """A SIM of its own for each number: its IMSI, its line in a list, and the card."""
    k, opc = bytes([number >> 8, number & 255]) * 8, bytes([number & 255, number >> 8]) * 8
    imsi = "00101%010d" % number
    return imsi, "%s %s %s\n" % (imsi, k.hex(), opc.hex()), Card(k, opc)


class Radio:
    """A station at a front, and the phones at it by their eNB UE S1AP IDs."""

    def __init__(self, running, number=0):
        self.network, self.station = phones.Network(), phones.Station(number)
        self.connection = fronted.Connected(running.port)
        running.connections.append(self.connection)
        self.connection.says(lte.s1_setup_request(self.network, self.station))
        self.phones, self.ids, self.got = {}, 0, []

    def new_id(self, phone):
        self.ids += 1
        self.phones[self.ids] = phone
        return self.ids

    def send(self, octets):
        self.connection.send(octets)

    def hears(self, seconds=0.0):
        """Hands on what there is, after so long at most; whether there was something."""
        connection = self.connection
        if not select.select([connection.socket], [], [], max(0.0, seconds))[0]:
            return False
        piece = connection.socket.recv(1 << 16)
        if not piece:
            raise EOFError
        connection.got += piece
        while len(connection.got) >= 2 and len(connection.got) >= 2 + (length := int.from_bytes(connection.got[:2], "big")):
            octets, connection.got = connection.got[2:2 + length], connection.got[2 + length:]
            self.got.append(octets)
            phone = self.phones.get(s1ap.ids(s1ap.read(octets))[1])
            if phone is not None:
                phone.hears(octets)
        return True

    def until(self, holds, seconds=PATIENCE):
        """Hears until something holds; how long that took."""
        begun = time.monotonic()
        while not holds():
            left = begun + seconds - time.monotonic()
            assert left > 0, "not within %g s" % seconds
            self.hears(min(left, 0.05))
        return time.monotonic() - begun


class Handset:
    """A phone with its SIM. `outcomes` has how each attach went, `heard` the challenges."""

    def __init__(self, radio, imsi, card, capability=b"\xe0\x60"):
        self.radio, self.imsi, self.card, self.capability = radio, imsi, card, capability
        self.outcomes, self.heard, self.b, self.m, self.key, self.tmsi = [], [], None, None, None, None
        self.up_count = self.failures = self.ksi = 0
        self.is_registered, self.answer = False, None  # by its last attach; to its last challenge

    def begins(self, identity=None):
        """Asks to attach, by its IMSI or by another identity."""
        self.failures, self.is_registered = 0, False
        self.b, esm = self.radio.new_id(self), lte.pdn_connectivity_request(1, 1, False)
        nas = lte.attach_request(1, identity or lte.imsi_identity(self.imsi), self.capability, esm)
        self.radio.send(lte.initial_ue_message(self.radio.network, self.radio.station, self.b, nas))

    def attaches(self, identity=None, seconds=PATIENCE):
        """A whole attach: how it went."""
        count = len(self.outcomes)
        self.begins(identity)
        self.radio.until(lambda: len(self.outcomes) > count, seconds)
        return self.outcomes[-1]

    def detaches(self):
        """Asks to be let go, by its GUTI."""
        self.says_protected(lte.detach_request(lte.guti(self.radio.network, self.tmsi), self.ksi, False))

    def goes_idle(self):
        """Its station has it be released, since it is silent."""
        self.radio.send(lte.release_request(self.m, self.b, lte.USER_INACTIVITY))

    def comes_back(self):
        """SERVICE REQUEST, until it has a connection."""
        self.m, self.b, nas = None, self.radio.new_id(self), lte.service_request(self.key, self.ksi, self.up_count)
        self.up_count += 1
        self.radio.send(lte.initial_ue_message(self.radio.network, self.radio.station, self.b, nas, self.tmsi))
        self.radio.until(lambda: self.m is not None)

    def says(self, nas):
        self.radio.send(lte.uplink_nas(self.radio.network, self.radio.station, self.m, self.b, nas))

    def says_protected(self, message, header=2):
        inside = bytes([self.up_count & 0xFF]) + message
        self.says(bytes([header << 4 | 7]) + lte.eia2(self.key, self.up_count, lte.UP, inside) + inside)
        self.up_count += 1

    def hears(self, octets):
        message = s1ap.read(octets)
        m, b = s1ap.ids(message)
        if message.code == s1ap.RELEASE:
            self.radio.send(lte.release_complete(m, b))
        if b != self.b:
            return
        self.m, nas = m, s1ap.carried(message) or b""
        if nas[:2] == CHALLENGE:
            self.ksi = nas[2] & 7
            self.is_challenged(nas[3:19], nas[20:36])
        elif nas[:2] == REJECT:
            self.outcomes.append("rejected %d" % nas[2])
        elif nas[:2] == IDENTITY:
            self.says(lte.identity_response(lte.imsi_identity(self.imsi)))
        elif nas[:2] == LET_IN:
            self.outcomes.append(REGISTERED)
        elif nas[:1] == COMMAND:
            self.says_protected(lte.SECURITY_MODE_COMPLETE, header=4)
        elif message.code == s1ap.CONTEXT_SETUP and nas:
            self.is_accepted(s1ap.inside(nas))
        elif message.code == s1ap.CONTEXT_SETUP:
            self.radio.send(lte.context_setup_response(self.radio.station, m, b))

    def is_challenged(self, rand, autn):
        if self.heard[-1:] == [rand]:
            self.says(self.answer)  # it comes again, and is answered as before (TS 24.301 clause 5.4.2.3)
            return
        self.heard.append(rand)
        how, answer = self.card.answer(rand, autn)
        if how != "res":
            self.failures += 1
            if self.failures == MOST_FAILURES:
                self.outcomes.append(GAVE_UP)
            else:
                self.answer = FAILURE + answer
                self.says(self.answer)
            return
        kasme = self.card.made(rand, self.card.sqn_of(rand, autn))[2]
        self.key, self.up_count = lte.Cmac(lte.nas_integrity_key(kasme)), 0
        self.answer = lte.authentication_response(answer)
        self.says(self.answer)

    def is_accepted(self, nas):
        self.radio.send(lte.context_setup_response(self.radio.station, self.m, self.b))
        self.says_protected(lte.ATTACH_COMPLETE)
        if not self.is_registered:  # (an ATTACH ACCEPT may come again)
            self.outcomes.append(REGISTERED)
        self.is_registered = True
        at = nas.index(b"\x50\x0b\xf6")  # GUTI as an optional element (TS 24.301 clause 8.2.1)
        self.tmsi = int.from_bytes(nas[at + 9:at + 13], "big")
