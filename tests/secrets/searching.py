"""The search of a program's memory for secrets."""
import collections
import os
import pathlib
import sys

from tests.secrets.residue import Secret

LEAST, LEAST_DIGITS = 8, 16  # how many octets of a secret have to be there, and how many hex digits
RESERVED = 1 << 32  # what is mapped with more octets than these is a reservation of addresses, and has no octets of the program's

Region = collections.namedtuple("Region", "name mapped first octets")
Place = collections.namedtuple("Place", "secret form region at begin count")


class Fault(Exception):
    """The program didn't do what the standards owe, or its memory can't be read."""


def regions(process):
    """The memory of a process that it can read and write, without the pages that it never touched."""
    folder, found = pathlib.Path("/proc/%d" % process), []
    with open(folder / "mem", "rb", buffering=0) as memory, open(folder / "pagemap", "rb", buffering=0) as pages:
        for line in (folder / "maps").read_text(encoding="utf-8").splitlines():
            span, rights, _, _, _, *path = line.split(maxsplit=5)
            first, end = (int(number, 16) for number in span.split("-"))
            if not rights.startswith("rw") or end - first > RESERVED:
                continue
            name = path[0].strip("[]").rpartition("/")[2] if path else "anonymous"
            for begin, stop in touched(pages, first, end):
                found.append(Region(name, first, begin, exactly(memory, begin, stop - begin)))
    return found


def exactly(file, place, count):
    """So many octets of a file from a place on."""
    octets = bytearray()
    file.seek(place)
    while len(octets) < count:
        piece = file.read(count - len(octets))
        if not piece:
            raise Fault("of %d octets from %#x on only %d can be read" % (count, place, len(octets)))
        octets += piece
    return bytes(octets)


def touched(pages, first, end):
    """The spans of addresses whose pages are in memory or swapped out (Documentation/admin-guide/mm/pagemap.rst of Linux)."""
    page = os.sysconf("SC_PAGESIZE")
    entries = memoryview(exactly(pages, first // page * 8, (end - first) // page * 8)).cast("Q")
    spans = []
    for at in (at for at, entry in enumerate(entries) if entry >> 62):
        begin = first + at * page
        if spans and spans[-1][1] == begin:
            spans[-1][1] += page
        else:
            spans.append([begin, begin + page])
    return spans


def forms(octets):
    """How a secret can stand in memory, by a word for it."""
    yield "octets", octets
    yield "words", b"".join(octets[at:at + 4][::-1] for at in range(0, len(octets), 4))
    yield "digits", octets.hex().encode()


def common(left, right):
    """How many octets at the beginning of both are the same."""
    return next((at for at, (one, other) in enumerate(zip(left, right)) if one != other), min(len(left), len(right)))


def all_places(octets, piece):
    """Each place where a piece of these octets begins."""
    at = octets.find(piece)
    while at >= 0:
        yield at
        at = octets.find(piece, at + 1)


def found_numbers(numbers, octets):
    """Those of these numbers of 64 bits that are there, wherever they begin."""
    view, hits = memoryview(octets), set()
    for shift in range(8):
        end = shift + (len(octets) - shift) // 8 * 8
        hits |= numbers.intersection(view[shift:end].cast("Q"))
    return hits


def searched(secrets, memory):
    """The places in memory where a secret is, or enough of it."""
    pieces = collections.defaultdict(list)
    for secret in secrets:
        for form, text in forms(secret.octets):
            for begin in range(0, len(text) - 7, 8):
                pieces[text[begin:begin + 8]].append((secret, form, text, begin))
    numbers, places = {int.from_bytes(piece, sys.byteorder) for piece in pieces}, {}
    for region in memory:
        for number in found_numbers(numbers, region.octets):
            piece = number.to_bytes(8, sys.byteorder)
            for at in all_places(region.octets, piece):
                for secret, form, text, begin in pieces[piece]:
                    before = common(text[:begin][::-1], region.octets[max(at - begin, 0):at][::-1])
                    count = before + common(text[begin:], region.octets[at:at + len(text) - begin])
                    if count >= (LEAST_DIGITS if form == "digits" else LEAST):
                        first = region.first + at - before
                        places[secret, form, first] = Place(secret, form, region, at - before, begin - before, count)
    return list(places.values())


def check_search():
    """Each form of a secret is found where it is planted, wherever that is; and so are eight octets of it, and no seven."""
    # (no octet is 0, as those around it are: the match would be longer)
    secret = Secret("planted", "KASME", bytes(1 + octet % 255 for octet in os.urandom(32)))
    for form, text in forms(secret.octets):
        for place in range(9):
            planted = Region("planted", 0, 0, bytes(place) + text + bytes(9))
            assert [(found.form, found.at, found.count) for found in searched([secret], [planted])] == [(form, place, len(text))]
    for count in LEAST, LEAST - 1:
        planted = Region("planted", 0, 0, bytes(3) + secret.octets[8:8 + count] + bytes(3))
        assert [found.begin for found in searched([secret], [planted])] == [8] * (count == LEAST)
