"""A SIM for the tests of sources: Milenage written a second time after TS 35.206 clause 4.1, KASME after TS 33.401 annex A.2, and
the array of 32 sequence numbers of TS 33.102 annex C.2. AES is OpenSSL's where that is there, else that of reference/lte.py."""
import ctypes
import ctypes.util
import functools
import hashlib
import hmac

from reference import lte as LTE

INDICES, WHOLE = 32, (1 << 128) - 1
SYNCH_FAILURE, NOT_FOR_EPS = "auts", "separation bit"


@functools.cache
def openssl():
    """OpenSSL's library, where it is there, with AES-128 in ECB (EVP_EncryptInit(3))."""
    name = ctypes.util.find_library("crypto")
    if name is None:
        return None
    found = ctypes.CDLL(name)
    for call in (found.EVP_CIPHER_CTX_new, found.EVP_aes_128_ecb):
        call.restype = ctypes.c_void_p
    return found


@functools.lru_cache(4096)
def encryption(key):
    """AES-128 of blocks under a key."""
    library = openssl()
    if library is None:
        keys = LTE.round_keys(key)
        return lambda block: bytes(LTE.aes(keys, block))
    context = ctypes.c_void_p(library.EVP_CIPHER_CTX_new())
    assert library.EVP_EncryptInit_ex(context, ctypes.c_void_p(library.EVP_aes_128_ecb()), None, key, None) == 1
    made, size = ctypes.create_string_buffer(32), ctypes.c_int()

    def encrypted(block):
        assert library.EVP_EncryptUpdate(context, made, ctypes.byref(size), block, 16) == 1 and size.value == 16
        return made.raw[:16]
    return encrypted


def aes(key, block):
    """AES-128 of a block, both whole numbers."""
    return int.from_bytes(encryption(key.to_bytes(16, "big"))(block.to_bytes(16, "big")), "big")


def turned(value, bits):
    """A cyclic rotation to the left."""
    return (value << bits | value >> 128 - bits) & WHOLE


def bits_of(value, first, count):
    """Octets of a block by the places of their bits, counted from the highest."""
    return (value >> 128 - first - count & (1 << count) - 1).to_bytes(count // 8, "big")


class Card:
    """A SIM: its keys, and for each index the highest SEQ that it has accepted."""

    def __init__(self, k, opc, plmn=b"\x00\xf1\x10"):
        self.k, self.opc, self.plmn = int.from_bytes(k, "big"), int.from_bytes(opc, "big"), plmn
        self.highest = [0] * INDICES

    def outputs(self, rand, sqn, amf):
        """OUT1 to OUT5, with the constants and the rotations of clause 4.1."""
        temp = aes(self.k, int.from_bytes(rand, "big") ^ self.opc)
        checked = int.from_bytes((sqn + amf) * 2, "big")
        found = [aes(self.k, temp ^ turned(checked ^ self.opc, 64)) ^ self.opc]
        for rotation, constant in ((0, 1), (32, 2), (64, 4), (96, 8)):
            found.append(aes(self.k, turned(temp ^ self.opc, rotation) ^ constant) ^ self.opc)
        return found

    def concealed(self, rand, sqn, amf=bytes(2)):
        """SQN under AK, and MAC-A."""
        first, second, *_ = self.outputs(rand, sqn, amf)
        return xored(sqn, bits_of(second, 0, 48)), bits_of(first, 0, 64)

    def sqn_of(self, rand, autn):
        """The SQN in an AUTN, as a number, where its MAC is right."""
        sqn = self.concealed(rand, autn[:6])[0]
        assert self.concealed(rand, sqn, autn[6:8])[1] == autn[8:], "a wrong MAC-A"
        return int.from_bytes(sqn, "big")

    def made(self, rand, sqn, amf=b"\x80\x00"):
        """The vector of an SQN, a number: AUTN, XRES, KASME."""
        sqn = sqn.to_bytes(6, "big")
        _, second, third, fourth, _ = self.outputs(rand, sqn, amf)
        hidden, mac = self.concealed(rand, sqn, amf)
        text = b"\x10" + self.plmn + b"\x00\x03" + hidden + b"\x00\x06"
        kasme = hmac.new(bits_of(third, 0, 128) + bits_of(fourth, 0, 128), text, hashlib.sha256).digest()
        return hidden + amf + mac, bits_of(second, 64, 64), kasme

    def auts(self, rand, sqn):
        """AUTS with this SQN, a number (TS 33.102 clause 6.3.3)."""
        sqn = sqn.to_bytes(6, "big")
        first, *_, fifth = self.outputs(rand, sqn, bytes(2))
        return xored(sqn, bits_of(fifth, 0, 48)) + bits_of(first, 64, 64)

    def own_sqn(self):
        """SQN_MS: the highest SEQ of all, with its index."""
        highest = max(self.highest)
        return highest << 5 | self.highest.index(highest)

    def answer(self, rand, autn):
        """RES, or why there is none, with AUTS where the SQN is no good."""
        sqn = self.sqn_of(rand, autn)
        if not autn[6] & 0x80:
            return NOT_FOR_EPS, None
        sequence, index = divmod(sqn, INDICES)
        if sequence <= self.highest[index]:
            return SYNCH_FAILURE, self.auts(rand, self.own_sqn())
        self.highest[index] = sequence
        return "res", self.made(rand, sqn)[1]


def xored(left, right):
    return bytes(x ^ y for x, y in zip(left, right, strict=True))
