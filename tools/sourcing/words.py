"""How words of a command line, fields of a list and fields of a request are read: digits, numbers, and octets in hex."""
import argparse
import re

SQN_OCTETS = 6  # TS 33.102 clause 6.3.2
HEX = re.compile("[0-9a-fA-F]+")
MOST_SHOWN = 16  # characters of a text that a fault shows; a longer one may be a key


class Fault(Exception):
    """Words, files or lines that can't be taken; its text says why."""


def shown(text):
    """A text as a fault shows it."""
    return repr(text) if len(text) <= MOST_SHOWN else "a text of %d characters" % len(text)


def hex_of(count, name=None):
    """Reads this number of octets in hex. Where they have a name, a fault has that in place of the text."""
    def read(text):
        what = name or shown(text)
        if not HEX.fullmatch(text):
            raise argparse.ArgumentTypeError("%s isn't hex: %d octets are %d digits of it" % (what, count, 2 * count))
        if len(text) != 2 * count:
            raise argparse.ArgumentTypeError("%s isn't %d octets in hex, which are %d digits: here are %d" % (
                what, count, 2 * count, len(text)))
        return bytes.fromhex(text)
    return read


def sqn_of(text):
    """Reads an SQN, of whose leading zeros none is left out."""
    try:
        return hex_of(SQN_OCTETS)(text)
    except argparse.ArgumentTypeError as fault:
        if HEX.fullmatch(text) and len(text) < 2 * SQN_OCTETS:
            raise argparse.ArgumentTypeError("%s; with its zeros, %s is %s" % (fault, text, text.zfill(2 * SQN_OCTETS))) from None
        raise


def digits_of(*counts):
    """Reads digits, of one of these counts."""
    def read(text):
        if not (text.isascii() and text.isdigit() and len(text) in counts):
            raise argparse.ArgumentTypeError("%s isn't %s digits" % (shown(text), " or ".join(map(str, counts))))
        return text
    return read


def number_of(low, high):
    """Reads a number of a range."""
    def read(text):
        short = text.isascii() and text.isdigit() and len(text) < 10
        if not (short and low <= int(text) <= high):
            raise argparse.ArgumentTypeError("%s isn't a number from %d to %d" % (shown(text), low, high))
        return int(text)
    return read


def field(read, text):
    """What stands in a field, by one of these."""
    try:
        return read(text)
    except argparse.ArgumentTypeError as fault:
        raise Fault(str(fault)) from None
