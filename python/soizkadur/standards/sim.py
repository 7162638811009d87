"""A test SIM: Milenage (TS 35.206) as tools/vectors has it, its home's vectors and the phone's answers to them."""
import functools
import hashlib
import importlib
import sys
from typing import NamedTuple

from .. import places
from . import phones

TOOLS = places.tools()
AMF = b"\x80\x00"  # with the separation bit, as vectors for EPS have it (TS 33.401 clause 6.1.1)
SEPARATION_BIT = 0x80
SQN_BITS, INDEX_BITS = 48, 5


@functools.cache
def _vectors():
    """The functions of tools/vectors: tools/sourcing/milenage.py, as a module below this package."""
    if not (TOOLS / "vectors").exists():
        raise ImportError("no %s, which a Sim runs" % (TOOLS / "vectors"))
    folders = sys.modules[__package__].__path__
    if str(TOOLS) not in folders:
        folders.append(str(TOOLS))
    return importlib.import_module(".sourcing.milenage", __package__)


class Answer(NamedTuple):
    """What a phone says to a challenge: RES, or the EMM cause of AUTHENTICATION FAILURE, with cause 21 AUTS."""

    res: bytes | None
    cause: int | None = None
    auts: bytes | None = None


class Sim:
    """A SIM with its keys, and the highest sequence number that it has accepted; `home` is the last one that its home gave out.

    For test SIMs alone: the keys pass through plain Python, which keeps no secrets."""

    def __init__(self, k: bytes, opc: bytes, sqn: int = 0, plmn: tuple[str, str] = ("001", "01")) -> None:
        self.k, self.opc, self.sqn, self.home = k, opc, sqn, sqn
        self._plmn = _vectors().plmn_octets(*plmn)

    def vector(self, rand: bytes | None = None, amf: bytes = AMF) -> phones.Vector:
        """The next vector that its home gives out (TS 33.102 clause 6.3.2, TS 33.401 annex A.2); RAND is made of its number where
        none is given, so it is the same each time."""
        self.home += 1 << INDEX_BITS
        rand = rand or hashlib.sha256(b"RAND %d" % self.home).digest()[:16]
        sqn = self.home.to_bytes(SQN_BITS // 8, "big")
        functions = _vectors().milenage(self.k, self.opc, rand, sqn, amf)
        made = _vectors().vector_of(functions, rand, sqn, amf, self._plmn)
        return phones.Vector(made.rand, made.autn, made.xres, made.kasme)

    def answer(self, rand: bytes, autn: bytes) -> Answer:
        """What the phone says to AUTHENTICATION REQUEST: cause 20 where the MAC is wrong, 26 where the vector isn't for EPS, 21
        with AUTS where the sequence number isn't above the last one, else RES (TS 24.301 clause 5.4.2.6, TS 33.102 clause
        6.3.3)."""
        try:
            sqn, amf = _vectors().challenge_sqn(self.k, self.opc, rand, autn)
        except _vectors().Fault:
            return Answer(None, 20)
        if not amf[0] & SEPARATION_BIT:
            return Answer(None, 26)
        if int.from_bytes(sqn, "big") <= self.sqn:
            return Answer(None, 21, self._auts(rand))
        self.sqn = int.from_bytes(sqn, "big")
        return Answer(_vectors().milenage(self.k, self.opc, rand, sqn, amf).f2)

    def _auts(self, rand: bytes) -> bytes:
        tools, sqn = _vectors(), self.sqn.to_bytes(SQN_BITS // 8, "big")
        functions = tools.milenage(self.k, self.opc, rand, sqn, tools.RESYNCHRONISATION_AMF)
        return tools.xor(sqn, functions.f5_star) + functions.f1_star

    def resynchronises(self, rand: bytes, auts: bytes) -> None:
        """Its home takes the phone's sequence number from AUTS, and goes on from there. `tools/vectors`' Fault where the MAC is
        wrong."""
        self.home = int.from_bytes(_vectors().phone_sqn(self.k, self.opc, rand, auts), "big")
