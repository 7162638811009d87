"""tools/fronting/hearing.py: what a phone with a stored security context sends is handed on plain. The messages are made from the
standards' formats (reference/lte.py), each beside the plain one that the standard takes it for."""
import unittest

from reference import lte as LTE, phones as PHONES
from tests.tools.fronted import HEAD, Running
from tools.fronting import hearing

STATION, NETWORK = PHONES.Station(0), PHONES.Network()
RESPONSE = bytes.fromhex("0753085942ca163b17c270")  # AUTHENTICATION RESPONSE with RES of eight octets (TS 24.301 clause 8.2.8)
FAILURE = bytes.fromhex("075c15300eba853f3c123ccf44e93596e355c6")  # AUTHENTICATION FAILURE, cause 21 with AUTS (clause 8.2.5)
IDENTITY = bytes.fromhex("0756080910100000000010")  # IDENTITY RESPONSE with an IMSI (clause 8.2.19)
COMPLETE, DETACH = b"\x07\x5e", bytes.fromhex("0745090bf600f110800101c0000001")


def uplink(nas):
    return LTE.uplink_nas(NETWORK, STATION, 0x10001, 77, nas)


def protected(header, plain, mac=b"\xde\xad\xbe\xef", count=9):
    return bytes([header << 4 | 7]) + mac + bytes([count]) + plain


class Plain(unittest.TestCase):
    def test_processed_whatever_their_mac(self):
        for header in (1, 2):
            for nas in (RESPONSE, FAILURE, IDENTITY, RESPONSE + bytes(120), RESPONSE + bytes(300)):
                with self.subTest(header=header, octets=len(nas)):
                    self.assertEqual(hearing.plain(uplink(protected(header, nas))).hex(), uplink(nas).hex())

    def test_others(self):
        """Plain ones, other types, other headers, other procedures, and what isn't spelled as S1AP is stay as they are."""
        first = LTE.initial_ue_message(NETWORK, STATION, 77, protected(1, RESPONSE))
        whole = uplink(protected(1, RESPONSE))
        cut = whole[:-1]
        inside = uplink(b"\x07\x60\x6f" + protected(1, RESPONSE))
        others = [uplink(nas) for nas in (b"", RESPONSE, protected(1, COMPLETE), protected(2, DETACH), protected(3, RESPONSE),
                                          protected(4, RESPONSE))]
        for octets in (*others, first, cut, whole + b"\0", inside, b"", b"no S1AP"):
            with self.subTest(octets=octets.hex()):
                self.assertIsNone(hearing.plain(octets))


class Log(unittest.TestCase):
    def test_comment(self):
        """The MME is given the plain message; the log has what came as a comment before it."""
        running = Running(self, head=HEAD)
        came = uplink(protected(2, RESPONSE))
        self.assertEqual(running.station().says(came), uplink(RESPONSE))
        lines = running.log.read_text().splitlines()
        place = lines.index("# came protected: in 0 " + came.hex())
        self.assertEqual(lines[place + 1], "in 0 " + uplink(RESPONSE).hex())
