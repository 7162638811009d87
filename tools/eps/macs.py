"""MACs of messages: one by one, or of many messages at once, which takes a twentieth of the time.

Of many blocks the octets that have the same place in a state stand side by side, one place after the other, as one whole number:
so each step of AES-128 (FIPS 197) is a few operations on long numbers, whatever the key of a block.
"""
import collections
import functools

from tools.eps.ciphers import BLOCK, ROUNDS, SBOX, SHIFTS, doubled, eia2_text, nas_integrity

MOST_CLAIMS = 4096  # that are kept before they are looked at
MAC_OCTETS = 4
KEPT = 1 << 6  # counts of blocks whose masks are kept


class Wrong(Exception):
    """A MAC that was taken for right isn't."""


def is_right(kasme, count, direction, message, mac):
    """Whether a MAC is that of 128-EIA2 under a KASME's key, of which as many last octets count as there are."""
    return nas_integrity(kasme).eia2(count, direction, message)[-len(mac):] == mac


class Claims:
    """MACs that are taken for right at first; later `check` raises Wrong if one isn't."""

    def __init__(self):
        self.claims = []

    def is_right(self, *claim):
        """Yes, for now: of a KASME, a count, a direction, a message, and a MAC."""
        self.claims.append(claim)
        if len(self.claims) == MOST_CLAIMS:
            self.check()
        return True

    def check(self):
        alike = collections.defaultdict(list)  # by the octets of the message and of the MAC
        for kasme, count, direction, message, mac in self.claims:
            alike[len(message), len(mac)].append((nas_integrity(kasme), eia2_text(count, direction, message), mac))
        make_subkeys({cipher.key: cipher for claims in alike.values() for cipher, _, _ in claims}.values())
        if not all(are_right(*zip(*claims)) for claims in alike.values()):
            raise Wrong
        self.claims.clear()


def are_right(ciphers, texts, owed):
    """Whether the MACs of texts of one length are those that are owed, all with as many octets."""
    octets, count, size = octets_of(last_state(ciphers, texts), len(texts)), len(texts), len(owed[0])
    return octets[(MAC_OCTETS - size) * count:MAC_OCTETS * count] == side_by_side(owed, size)


def make_subkeys(ciphers):
    """Makes the subkeys of those that have none (RFC 4493 clause 2.3)."""
    ciphers = [cipher for cipher in ciphers if cipher.whole is None]
    zeros = encrypted(round_keys([cipher.key for cipher in ciphers]), 0, len(ciphers))
    for cipher, zero in zip(ciphers, apart(zeros, len(ciphers))):
        cipher.make_subkeys(number(zero))


def macs(ciphers, texts):
    """The CMAC of each text, all of one length, under its cipher."""
    return apart(last_state(ciphers, texts), len(texts))


def last_state(ciphers, texts):
    """The same, side by side (RFC 4493 clause 2.4)."""
    count, size, keys, chain = len(texts), len(texts[0]), round_keys([cipher.key for cipher in ciphers]), 0
    octets, width = side_by_side(texts, size), BLOCK * count
    if size and size % BLOCK == 0:
        subkeys = [cipher.whole for cipher in ciphers]
    else:
        octets += b"\x80" * count + bytes(-(size + 1) % BLOCK * count)
        subkeys = [cipher.padded for cipher in ciphers]
    blocks = [number(octets[at:at + width]) for at in range(0, len(octets), width)]
    blocks[-1] ^= beside([subkey.to_bytes(BLOCK, "big") for subkey in subkeys])
    for block in blocks:
        chain = encrypted(keys, chain ^ block, count)
    return chain


# --- AES-128 of many blocks, each under its own key ---


def number(octets):
    return int.from_bytes(octets, "big")


def octets_of(state, count):
    """The octets of so many blocks that stand side by side."""
    return state.to_bytes(BLOCK * count, "big")


def side_by_side(texts, size):
    """The octets of texts of one size: the first ones of all, then the second ones."""
    joined = b"".join(texts)
    return b"".join([joined[at::size] for at in range(size)])


def beside(blocks):
    """Blocks side by side, as a whole number."""
    return number(side_by_side(blocks, BLOCK))


def apart(state, count):
    """The blocks that stand side by side."""
    octets = octets_of(state, count)
    return [octets[place::count] for place in range(count)]


def round_keys(keys):
    """The key schedule (clause 5.2): for each round the keys of all blocks side by side."""
    count, joined, constant, made = len(keys), b"".join(keys), 1, []
    place = 8 * count  # bits of the octets of one place
    a, b, c, d = (number(b"".join([joined[4 * column + row::BLOCK] for row in range(4)])) for column in range(4))
    ones = number(bytes([1]) * count) << 3 * place
    for _ in range(ROUNDS + 1):
        made.append(a << 12 * place | b << 8 * place | c << 4 * place | d)
        last = d.to_bytes(4 * count, "big").translate(SBOX)
        a ^= number(last[count:] + last[:count]) ^ ones * constant
        b ^= a
        c ^= b
        d ^= c
        constant = doubled(constant) & 0xFF
    return made


class Masks:
    """Of so many blocks side by side: the bits of the octets of a place, and those of the octets in some rows of the state, of the
    low bit of each octet, and of all of its bits but the high one."""

    def __init__(self, count):
        self.place = 8 * count
        self.all_but_last, self.last = self.rows(0, 1, 2), self.rows(3)
        self.first_two, self.last_two = self.rows(0, 1), self.rows(2, 3)
        self.low = number(bytes([1]) * BLOCK * count)
        self.all_but_high = self.low * 0x7F

    def rows(self, *which):
        octets = (b"\xff" if place % 4 in which else b"\0" for place in range(BLOCK))
        return number(b"".join(octet * (self.place // 8) for octet in octets))

    def next_row(self, state):
        """Each octet is that of the next row in its column."""
        return state << self.place & self.all_but_last | state >> 3 * self.place & self.last

    def next_but_one(self, state):
        """Each octet is that of the row after the next in its column."""
        return state << 2 * self.place & self.first_two | state >> 2 * self.place & self.last_two

    def doubled(self, state):
        """The product of each octet with {02} (clause 4.2.1)."""
        return (state & self.all_but_high) << 1 ^ (state >> 7 & self.low) * 0x1B


masks_of = functools.lru_cache(KEPT)(Masks)


def substituted(state, count):
    """SubBytes and ShiftRows (clause 5.1)."""
    octets = octets_of(state, count).translate(SBOX)
    return number(b"".join([octets[at * count:(at + 1) * count] for at in SHIFTS]))


def encrypted(keys, state, count):
    """The blocks that stand side by side, encrypted, each under its keys (clause 5.1). MixColumns makes of an octet a, with b, c, d
    below it, {02}(a + b) + b + (c + d)."""
    masks, state = masks_of(count), state ^ keys[0]
    for key in keys[1:ROUNDS]:
        plain = substituted(state, count)
        below = masks.next_row(plain)
        pairs = plain ^ below
        state = key ^ masks.doubled(pairs) ^ below ^ masks.next_but_one(pairs)
    return substituted(state, count) ^ keys[ROUNDS]
