"""What a source is asked and what it answers, a line each (docs/LAB.md, "Sources of vectors"). Nobody's line ends it.

A source that is to be told where phones are says so in its first line, `takes registered gone`.

`vectors IMSI COUNT MCC MNC` and `vectors IMSI COUNT MCC MNC RAND AUTS` ask for vectors, `registered IMSI` and `gone IMSI` say where
a phone is. The answers are as many lines `vec IMSI RAND AUTN XRES KASME`, `registered IMSI`, `gone IMSI`; or `unknown IMSI`, or
`later IMSI`. Those of one IMSI come in the order of its requests."""
import argparse
import collections
import os
import select

from tools.fronting import lines

from tools.sourcing.milenage import AUTS_OCTETS, BLOCK
from tools.sourcing.words import Fault, digits_of, field, hex_of, number_of, shown

VECTORS, REGISTERED, GONE, UNKNOWN, LATER, CANCEL, RESET = "vectors", "registered", "gone", "unknown", "later", "cancel", "reset"
TAKES = "takes %s %s\n" % (REGISTERED, GONE)  # the first line of a source that is to be told where phones are
MOST_VECTORS = 64  # of a request: as many as the MME takes of a subscriber
LONGEST = 200  # octets of a request
PIECE = 1 << 16  # octets of a read
IMSI_DIGITS, MOST_DIGITS = (14, 15), 16  # of an IMSI; of a number that is answered as the IMSI of nobody
COUNTS = {VECTORS: (4, 6), REGISTERED: (1,), GONE: (1,)}  # the fields after a word
FIELDS = (("count", number_of(1, MOST_VECTORS)), ("mcc", digits_of(3)), ("mnc", digits_of(2, 3)), ("rand", hex_of(BLOCK)),
          ("auts", hex_of(AUTS_OCTETS)))

Request = collections.namedtuple("Request", "word imsi count mcc mnc rand auts", defaults=[None] * 5)


class Refused(Fault):
    """A request that can't be taken. Its text says why, and `answer` is what is answered, if anything."""

    def __init__(self, text, answer=None):
        super().__init__(text)
        self.answer = answer


def answer(word, imsi):
    return "%s %s\n" % (word, imsi)


def vector_lines(imsi, vectors):
    """The lines of vectors."""
    return "".join("vec %s %s\n" % (imsi, " ".join(part.hex() for part in vector)) for vector in vectors)


def imsi_of(text):
    """The IMSI of a request. What is another number is the IMSI of nobody."""
    try:
        return digits_of(*IMSI_DIGITS)(text)
    except argparse.ArgumentTypeError as fault:
        is_number = text.isascii() and text.isdigit() and len(text) <= MOST_DIGITS
        raise Refused("the IMSI: %s" % fault, answer(UNKNOWN, text) if is_number else None) from None


def request_of(line):
    """The request of a line; raises Refused where it is none. Nothing for an empty line and a comment."""
    words = line.decode("latin-1").split(" ")
    word, *fields = words
    if words == [""] or word.startswith("#"):
        return None
    if word not in COUNTS:
        raise Refused("no request begins with %s" % shown(word))
    if not fields:
        raise Refused("%s has no IMSI" % word)
    imsi = imsi_of(fields[0])
    try:
        if len(fields) not in COUNTS[word]:
            raise Fault("%s has %s fields, and here are %d" % (word, " or ".join(map(str, COUNTS[word])), len(fields)))
        read = {name: field(reader, text) for (name, reader), text in zip(FIELDS, fields[1:])}
    except Fault as fault:
        raise Refused("IMSI %s: %s" % (imsi, fault), answer(LATER, imsi)) from None
    return Request(word, imsi, **read)


class Lines(lines.Lines):
    """Takes requests out of octets as they come."""

    def __init__(self):
        super().__init__(LONGEST)


def read_line(line):
    """The request of a line, or nothing; raises Refused."""
    if line is None:
        raise Refused("a line of more than %d octets" % LONGEST)
    return request_of(line)


# --- Standard input and output, whatever they are ---


def read_some(file):
    """The next octets of a file; none at its end."""
    while True:
        try:
            return os.read(file, PIECE)
        except BlockingIOError:
            select.select([file], [], [])


def write_all(file, octets):
    """Writes octets, however slowly they are read."""
    while octets:
        try:
            octets = octets[os.write(file, octets):]
        except BlockingIOError:
            select.select([], [file], [])
