"""The encoder of bench/, which knows the standards and not the MME, made fast: AES by the tables of tools/eps, MACs and elements
kept.

`message` puts a message of S1AP together from elements that reference/lte.py made; `check` compares both.
"""
import functools
import pathlib

from reference import lte, phones
from tools.eps import ciphers

TOP = pathlib.Path(__file__).resolve().parent.parent.parent

# --- Ciphers ---


class Cmac(ciphers.Cmac):
    """CMAC under one key (RFC 4493), and the 128-EIA2 of messages that it was asked for before."""

    def __init__(self, key):
        super().__init__(key)
        self.known = {}

    def eia2(self, count, direction, message):
        asked = count, direction, message
        mac = self.known.get(asked)
        if mac is None:
            mac = self.known[asked] = super().eia2(count, direction, message)
        return mac


# --- S1AP ---

for name in ("mme_id", "enb_id", "tai", "cell", "rrc_cause", "cause", "rab_at", "capabilities"):
    globals()[name] = functools.lru_cache(4096)(getattr(lte, name))

REJECT, IGNORE = lte.REJECT, lte.IGNORE
INITIATING, SUCCESSFUL, UNSUCCESSFUL = 0, 1, 2


def sized(octets):
    """Octets with their length (X.691 clause 11.9.3)."""
    size = len(octets)
    return (bytes([size]) if size < 128 else bytes([0x80 | size >> 8, size & 255])) + octets


def nas_pdu(octets):
    return 26, sized(octets)


def message(kind, code, criticality, *elements):
    """A message of S1AP, as lte.s1ap makes it: all that stands beside an element's octets fills whole octets."""
    value = b"\0" + len(elements).to_bytes(2, "big")
    value += b"".join(number.to_bytes(2, "big") + bytes([named << 6]) + sized(octets) for named, (number, octets) in elements)
    return bytes([kind << 5, code, criticality << 6]) + sized(value)


def s_tmsi(code, tmsi):
    """The element S-TMSI (TS 36.413 clause 9.2.3.6)."""
    return 96, lte.Bits().put(0, 2).put(code, 8).octets(tmsi.to_bytes(4, "big")).done()


def check():
    """How much of the fast encoder isn't as the slow one."""
    key, block = bytes(range(16)), bytes(range(100, 116))
    fast_block = ciphers.aes(ciphers.round_keys(key), int.from_bytes(block, "big"))
    wrong = fast_block != int.from_bytes(lte.aes(lte.round_keys(key), block), "big")
    fast, slow = Cmac(key), lte.Cmac(key)
    wrong += sum(fast.of(bytes(size)) != slow.of(bytes(size)) for size in range(50))
    wrong += fast.eia2(5, lte.UP, block) != lte.eia2(slow, 5, lte.UP, block)
    elements = [(REJECT, lte.enb_id(5)), (IGNORE, (26, bytes(200))), (REJECT, lte.mme_id(2**31))]
    for kind in range(3):
        asked = kind, 12, IGNORE, *elements[:kind + 1]
        wrong += message(*asked) != lte.s1ap(*asked)
    return int(wrong)
