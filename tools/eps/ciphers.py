"""AES-128 by tables (FIPS 197), CMAC (RFC 4493), 128-EIA2 and the key derivations (TS 33.401 annexes A and B.2.3).

For test keys alone: plain Python keeps no secrets.
"""
import functools
import hashlib
import operator
import struct

BLOCK = 16  # octets
ROUNDS = 10


def doubled(value):
    """The product with {02} (FIPS 197 clause 4.2.1)."""
    return value << 1 ^ (0x11B if value & 0x80 else 0)


def substitution_box():
    """The S-box (clause 5.1.1): power goes through all powers of {03}, and inverse always is its inverse."""
    box = [0x63] * 256
    power = inverse = 1
    for _ in range(255):
        power ^= doubled(power)
        for shift in (1, 2, 4):
            inverse = (inverse ^ inverse << shift) & 0xFF
        inverse ^= 0x09 if inverse & 0x80 else 0
        turned = inverse * 0x101
        box[power] = (inverse ^ turned >> 7 ^ turned >> 6 ^ turned >> 5 ^ turned >> 4) & 0xFF ^ 0x63
    return bytes(box)


SBOX = substitution_box()
COLUMNS = [(doubled(s), s, s, doubled(s) ^ s) for s in SBOX]
STATE = struct.Struct(">4I")  # a state is column by column (clause 3.4)
SHIFTS = [(at + 4 * (at % 4)) % BLOCK for at in range(BLOCK)]  # where each octet comes from in ShiftRows
SHIFTED = operator.itemgetter(*SHIFTS)


def table_of(at):
    """What each octet at a place of the state adds to the state, a whole number, by SubBytes, ShiftRows and MixColumns
    (clause 5.1)."""
    row, column = at % 4, (at // 4 - at) % 4
    return [int.from_bytes(bytes(c[-row:] + c[:-row]), "big") << 32 * (3 - column) for c in COLUMNS]


T0, T1, T2, T3, T4, T5, T6, T7, T8, T9, T10, T11, T12, T13, T14, T15 = map(table_of, range(BLOCK))


def round_keys(key):
    """The key schedule (clause 5.2): the key, and one for each round."""
    (a, b, c, d), constant, made = STATE.unpack(key), 1, [int.from_bytes(key, "big")]
    for _ in range(ROUNDS):
        a ^= (SBOX[d >> 16 & 255] ^ constant) << 24 | SBOX[d >> 8 & 255] << 16 | SBOX[d & 255] << 8 | SBOX[d >> 24]
        b ^= a
        c ^= b
        d ^= c
        made.append(a << 96 | b << 64 | c << 32 | d)
        constant = doubled(constant)
    return made


def aes(keys, block):
    """AES-128 of a block, a whole number, under round keys."""
    state = block ^ keys[0]
    for key in keys[1:ROUNDS]:
        a, b, c, d, e, f, g, h, i, j, k, l, m, n, o, p = state.to_bytes(BLOCK, "big")
        state = (T0[a] ^ T1[b] ^ T2[c] ^ T3[d] ^ T4[e] ^ T5[f] ^ T6[g] ^ T7[h]
                 ^ T8[i] ^ T9[j] ^ T10[k] ^ T11[l] ^ T12[m] ^ T13[n] ^ T14[o] ^ T15[p] ^ key)
    last = SHIFTED(state.to_bytes(BLOCK, "big").translate(SBOX))
    return int.from_bytes(bytes(last), "big") ^ keys[ROUNDS]


def padded(message):
    """A message in whole blocks (RFC 4493 clause 2.4)."""
    return message if message and len(message) % BLOCK == 0 else message + b"\x80" + bytes(-(len(message) + 1) % BLOCK)


DIRECTIONS = tuple(bytes([direction << 2, 0, 0, 0]) for direction in range(2))  # with bearer 0


def eia2_text(count, direction, message):
    """What 128-EIA2 with bearer 0 is the CMAC of (TS 33.401 annex B.2.3)."""
    return count.to_bytes(4, "big") + DIRECTIONS[direction] + message


class Cmac:
    """CMAC under one key (RFC 4493); what is made of the key is made once it is needed."""

    def __init__(self, key):
        self.key, self.whole, self.padded = key, None, None

    @functools.cached_property
    def keys(self):
        return round_keys(self.key)

    def make_subkeys(self, zero):
        """Makes both of the cipher of zero (clause 2.3)."""
        self.whole = self.subkey(zero)
        self.padded = self.subkey(self.whole)

    @staticmethod
    def subkey(value):
        """The double of a block."""
        return (value << 1 ^ (0x87 if value >> 127 else 0)) & (1 << 128) - 1

    def subkey_of(self, message):
        """The one that is for a message."""
        return self.whole if message and len(message) % BLOCK == 0 else self.padded

    def of(self, message):
        if self.whole is None:
            self.make_subkeys(aes(self.keys, 0))
        octets, chain = padded(message), 0
        for at in range(0, len(octets) - BLOCK, BLOCK):
            chain = aes(self.keys, chain ^ int.from_bytes(octets[at:at + BLOCK], "big"))
        last = int.from_bytes(octets[-BLOCK:], "big") ^ self.subkey_of(message)
        return aes(self.keys, chain ^ last).to_bytes(BLOCK, "big")

    def eia2(self, count, direction, message):
        """128-EIA2 with bearer 0 (TS 33.401 annex B.2.3)."""
        return self.of(eia2_text(count, direction, message))[:4]


# HMAC (RFC 2104) of a key of 64 octets at the most: the octets that its pads make of each.
HASHED = 64
INNER, OUTER = (bytes(octet ^ pad for octet in range(256)) for pad in (0x36, 0x5C))


def hmac(key, text):
    """HMAC-SHA-256."""
    padded = key.ljust(HASHED, b"\0")
    return hashlib.sha256(padded.translate(OUTER) + hashlib.sha256(padded.translate(INNER) + text).digest()).digest()


def derived(key, code, *parameters):
    """The key derivation function (TS 33.401 annex A.1, TS 33.220 annex B.2)."""
    return hmac(key, derived_from(code, *parameters))


def derived_from(code, *parameters):
    """What it makes a key of, beside the key."""
    return bytes([code]) + b"".join([parameter + len(parameter).to_bytes(2, "big") for parameter in parameters])


EIA2_KEY = derived_from(0x15, b"\x02", b"\x02")  # of NAS integrity (annex A.7)


@functools.lru_cache(4096)
def nas_integrity(kasme):
    """The cipher of the NAS integrity key for EIA2 (annex A.7)."""
    return Cmac(hmac(kasme, EIA2_KEY)[BLOCK:])


def kenb(kasme, count):
    """KeNB by an uplink NAS COUNT (annex A.3)."""
    return derived(kasme, 0x11, count.to_bytes(4, "big"))


def next_hop(kasme, previous):
    """NH by the one before, or by KeNB (annex A.4)."""
    return derived(kasme, 0x12, previous)
