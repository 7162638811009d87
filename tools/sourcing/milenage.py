"""Milenage (TS 35.206), the vectors of EPS that are made by it, and their sequence numbers (TS 33.102, TS 33.401).

For test SIMs: the keys pass through plain Python, which keeps no secrets."""
import collections
import hmac

from ..eps import ciphers  # (by where they stand, since soizkadur.standards has this module below itself)
from .words import SQN_OCTETS, Fault

BLOCK = 16  # octets of an AES block and of a key of 128 bits (FIPS 197 clause 3.1)
AMF_OCTETS, AUTS_OCTETS = 2, 14  # TS 33.102 clauses 6.3.2 and 6.3.3
SEPARATION_BIT = 0x80  # of the AMF's first octet: 1 in vectors for EPS (TS 33.401 clause 6.1.1, TS 33.102 annex H)
EPS_AMF = bytes([SEPARATION_BIT, 0])
RESYNCHRONISATION_AMF = bytes(AMF_OCTETS)  # the AMF that MAC-S is taken over (TS 33.102 clause 6.3.3)
KASME_CODE = 0x10  # FC of the derivation of KASME (TS 33.401 annex A.2)
FILLER = 0xF  # stands for a third digit of a network code of two (TS 24.301 clause 9.9.3.12)
INDEX_BITS = 5  # of IND, where a SIM keeps 32 sequence numbers (TS 33.102 annex C.3)
SQNS = 1 << 8 * SQN_OCTETS  # how many there are

# The rotations in octets and the constants of the five blocks (TS 35.206 clause 4.1).
ROTATIONS = (8, 0, 4, 8, 12)
CONSTANTS = tuple(constant.to_bytes(BLOCK, "big") for constant in (0, 1, 2, 4, 8))

Functions = collections.namedtuple("Functions", "f1 f1_star f2 f3 f4 f5 f5_star")
Vector = collections.namedtuple("Vector", "rand autn xres kasme")


def xor(left, right):
    return bytes(x ^ y for x, y in zip(left, right, strict=True))


def cipher(key):
    """AES-128 of a block under a key (FIPS 197 clause 5.1)."""
    keys = ciphers.round_keys(key)
    return lambda block: ciphers.aes(keys, int.from_bytes(block, "big")).to_bytes(BLOCK, "big")


def aes(key, block):
    """AES-128 of one block."""
    return cipher(key)(block)


# --- Milenage and the vector ---


def operator_key(k, op):
    """OPc of OP (TS 35.206 clause 4.1)."""
    return xor(aes(k, op), op)


def rotated(octets, count):
    return octets[count:] + octets[:count]


def milenage(k, opc, rand, sqn, amf):
    """f1 to f5* (TS 35.206 clause 4.1)."""
    enciphered = cipher(k)
    first = enciphered(xor(rand, opc))
    checked = xor(rotated(xor((sqn + amf) * 2, opc), ROTATIONS[0]), CONSTANTS[0])
    blocks = [xor(enciphered(xor(first, checked)), opc)]
    for rotation, constant in zip(ROTATIONS[1:], CONSTANTS[1:]):
        blocks.append(xor(enciphered(xor(rotated(xor(first, opc), rotation), constant)), opc))
    macs, response, cipher_key, integrity_key, star = blocks
    return Functions(macs[:8], macs[8:], response[8:], cipher_key, integrity_key, response[:6], star[:6])


def plmn_octets(mcc, mnc):
    """The serving network's identity (TS 33.401 annex A.2, coded as in TS 24.301 clause 9.9.3.12)."""
    country, network = [int(x) for x in mcc], [int(x) for x in mnc]
    third = network[2] if len(network) == 3 else FILLER
    return bytes([country[1] << 4 | country[0], third << 4 | country[2], network[1] << 4 | network[0]])


def vector_of(functions, rand, sqn, amf, plmn):
    """AUTN and XRES (TS 33.102 clause 6.3.2) and KASME."""
    concealed = xor(sqn, functions.f5)
    kasme = ciphers.derived(functions.f3 + functions.f4, KASME_CODE, plmn, concealed)
    return Vector(rand, concealed + amf + functions.f1, functions.f2, kasme)


def is_for_eps(amf):
    """Whether the separation bit says that a vector is for EPS; otherwise a phone refuses it there (TS 33.401 clause 6.1.2)."""
    return bool(amf[0] & SEPARATION_BIT)


# --- Sequence numbers ---


def stepped(number, count, bits=INDEX_BITS, cycles=True):
    """The SQN, as a number, that comes so many after this one: SEQ is one more each time, and IND goes round or is as it was."""
    sequence, index = divmod(number, 1 << bits)
    if cycles:
        index = (index + count) % (1 << bits)
    return sequence + count << bits | index


def following(sqn, bits, cycles):
    """The SQN after this one."""
    number = stepped(int.from_bytes(sqn, "big"), 1, bits, cycles)
    if number >= SQNS:
        raise Fault("the SQN after %s has more than 48 bits" % sqn.hex())
    return number.to_bytes(SQN_OCTETS, "big")


def phone_sqn(k, opc, rand, auts):
    """The SQN that a phone's AUTS has in it (TS 33.102 clause 6.3.3), where its MAC-S is right."""
    sqn = xor(auts[:SQN_OCTETS], milenage(k, opc, rand, bytes(SQN_OCTETS), RESYNCHRONISATION_AMF).f5_star)
    expected = milenage(k, opc, rand, sqn, RESYNCHRONISATION_AMF).f1_star
    if not hmac.compare_digest(expected, auts[SQN_OCTETS:]):
        raise Fault("the MAC-S in the AUTS isn't that of these keys and this RAND")
    return sqn


def challenge_sqn(k, opc, rand, autn):
    """The SQN and the AMF that an AUTN has in it (TS 33.102 clause 6.3.3), where its MAC-A is right."""
    amf = autn[SQN_OCTETS:SQN_OCTETS + AMF_OCTETS]
    sqn = xor(autn[:SQN_OCTETS], milenage(k, opc, rand, bytes(SQN_OCTETS), amf).f5)
    if not hmac.compare_digest(milenage(k, opc, rand, sqn, amf).f1, autn[SQN_OCTETS + AMF_OCTETS:]):
        raise Fault("the MAC in the AUTN isn't that of these keys and this RAND")
    return sqn, amf
