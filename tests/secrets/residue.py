"""What may stay of a vector and of a context that was made of it: the octets that are worked out of their secrets."""
import collections
import hashlib
import math
import pathlib
import re
import struct

from soizkadur.standards import lte

TABLES = pathlib.Path(__file__).resolve().parents[2] / "crates" / "eps_keys" / "src" / "lanes.rt"
COUNTS, HOPS = 12, 3  # uplink counts of a context, and next hops after each of their keys


# --- What SHA-256 leaves (FIPS 180-4) ---


def primes(count):
    """The first prime numbers."""
    found, number = [], 2
    while len(found) < count:
        if all(number % prime for prime in found):
            found.append(number)
        number += 1
    return found


def cube_root(number):
    """The integer part of the cube root."""
    low, high = 0, 1 << (number.bit_length() // 3 + 1)
    while high - low > 1:
        middle = (low + high) // 2
        low, high = (middle, high) if middle ** 3 <= number else (low, middle)
    return low


WORD = 0xFFFFFFFF
START = [math.isqrt(prime << 64) & WORD for prime in primes(8)]
CONSTANTS = [cube_root(prime << 96) & WORD for prime in primes(64)]


def turned(word, *places):
    """A word turned right by each of these places, the results under exclusive or."""
    total = 0
    for place in places:
        total ^= (word >> place | word << 32 - place) & WORD
    return total


def compressed(block):
    """The state after the first block of a message, and the last sixteen words of that block's schedule, both as octets."""
    words = list(struct.unpack(">16I", block))
    for at in range(16, 64):
        early, late = words[at - 15], words[at - 2]
        grown = (turned(late, 17, 19) ^ late >> 10) + words[at - 7] + (turned(early, 7, 18) ^ early >> 3) + words[at - 16]
        words.append(grown & WORD)
    a, b, c, d, e, f, g, h = START
    for constant, word in zip(CONSTANTS, words):
        first = h + turned(e, 6, 11, 25) + (g ^ e & (f ^ g)) + constant + word
        second = turned(a, 2, 13, 22) + (a & b ^ a & c ^ b & c)
        a, b, c, d, e, f, g, h = first + second & WORD, a, b, c, d + first & WORD, e, f, g
    state = [before + after & WORD for before, after in zip(START, (a, b, c, d, e, f, g, h))]
    return struct.pack(">8I", *state), struct.pack(">16I", *words[48:])


def check_compressed():
    """A message of three octets has one block, and its digest is the state after that."""
    block = b"abc\x80".ljust(62, b"\0") + struct.pack(">H", 24)
    assert compressed(block)[0] == hashlib.sha256(b"abc").digest()


# --- What AES leaves, as crates/eps_keys keeps it ---


def table(name):
    """A table of lanes.rt."""
    digits = re.search(r"\b%s: \[u8; 16\] = \[([^]]*)\]" % name, TABLES.read_text(encoding="utf-8"))[1]
    return [int(number, 16) for number in re.findall(r"0x(\w\w)", digits)]


def kept_round_keys(key):
    """The round keys after the first as they are kept: the last one masked with 0x63, the others moved besides."""
    low, high = table("MOVED_LOW"), table("MOVED_HIGH")
    masked = [bytes(octet ^ 0x63 for octet in one) for one in lte.round_keys(key)[1:]]
    return [bytes(low[octet & 15] ^ high[octet >> 4] for octet in one) for one in masked[:-1]] + masked[-1:]


# --- The secrets of a phone ---

Secret = collections.namedtuple("Secret", "whose kind octets")


def of_vector(vector):
    """The kinds and octets of what a vector has that isn't sent to a phone."""
    yield "XRES", vector.xres
    yield "KASME", vector.kasme


def of_context(vector):
    """The kinds and octets of what is worked out when a context is made of a vector, and while it stands."""
    for mask in 0x36, 0x5C:
        block = bytes(octet ^ mask for octet in vector.kasme)
        state, schedule = compressed(block + bytes([mask]) * 32)
        yield "HMAC's blocks", block
        yield "HMAC's blocks", schedule
        yield "HMAC's states", state
    key = lte.nas_integrity_key(vector.kasme)
    cmac = lte.Cmac(key)
    yield "NAS integrity key", key
    for octets in [*map(bytes, lte.round_keys(key)[1:]), *kept_round_keys(key), cmac.whole, cmac.padded]:
        yield "round keys", octets
    for count in range(COUNTS):
        key = lte.kenb(vector.kasme, count)
        yield "KeNB", key
        for _ in range(HOPS):
            key = lte.next_hop(vector.kasme, key)
            yield "NH", key


KINDS = "XRES", "KASME", "HMAC's blocks", "HMAC's states", "NAS integrity key", "round keys", "KeNB", "NH"
