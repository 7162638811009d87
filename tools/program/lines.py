"""What is wrong with a line of a trace or of a script, in words, for a fault that the program reports by its number.

The program says which line ended the run, and the kind of the fault; the words here are a second reader's, of README.md ("A trace",
"How it ends") and docs/SCRIPTS.md ("Faults"). Where it finds another fault than the program says, it says nothing.
"""
import collections
import difflib
import re

LONGEST = 40000  # octets of a line
LATER_SEGMENT = re.compile(rb"# segment (\d+), begun ")  # how a later segment of a front's log begins
MOST_SUBSCRIBERS, MOST_VECTORS = 32768, 64
UNKNOWN_WORD, FIELD_COUNT, NOT_OF_FORM, NOT_HEX, TOO_LONG, ORDER, PROVISION = range(1, 8)
BYTE_ORDER_MARK = b"\xef\xbb\xbf"
WIDTH = 100  # columns of a line that is shown

# The name of a field as the documents have it, what it is in words, the fault that it is where it isn't, and a test.
Field = collections.namedtuple("Field", "name form fault takes")
# What is wrong: the fault's number, the words, and from where to where it is in the line.
Wrong = collections.namedtuple("Wrong", "fault words start end")


def pattern(expression):
    """A test of a field by a regular expression of its octets."""
    compiled = re.compile(expression)
    return lambda text: compiled.fullmatch(text) is not None


def between(low, high):
    """A test of a field as a number in decimal digits."""
    def takes(text):
        return re.fullmatch(rb"[0-9]+", text) is not None and len(text.lstrip(b"0")) < 20 and low <= int(text) <= high
    return takes


def octets(name, count):
    """A field of `count` octets."""
    return Field(name, "%d hex digits" % (2 * count), NOT_HEX, pattern(rb"[0-9a-fA-F]{%d}" % (2 * count)))


def digits(name, form, expression):
    """A field whose fault is that of a number."""
    return Field(name, form, NOT_OF_FORM, pattern(expression))


IMSI = digits("IMSI", "14 or 15 digits", rb"[0-9]{14,15}")
STATION = Field("E", "a number from 0 to 127", NOT_OF_FORM, between(0, 127))
TICKS = Field("N", "a number from 1 to 1000000", NOT_OF_FORM, between(1, 1000000))
PHONE = Field("B", "a number from 0 to 16777215", NOT_OF_FORM, between(0, 16777215))
MESSAGE = Field("OCTETS", "octets in hex, two digits each, or - for none", NOT_HEX, pattern(rb"-|(?:[0-9a-fA-F]{2})+"))
RATE = "a number from 1 to 10000000000"
HEAD = {
    "mme": [digits("MCC", "three digits", rb"[0-9]{3}"), digits("MNC", "two or three digits", rb"[0-9]{2,3}"), octets("GROUP", 2),
            octets("CODE", 1), digits("APN", "a label of 1 to 63 letters, digits and hyphens", rb"[0-9A-Za-z-]{1,63}"),
            Field("DOWN", RATE, NOT_OF_FORM, between(1, 10**10)), Field("UP", RATE, NOT_OF_FORM, between(1, 10**10))],
    "sub": [IMSI, octets("ADDRESS", 4), octets("SGW", 4), octets("TEID", 4)],
    "vec": [IMSI, octets("RAND", 16), octets("AUTN", 16),
            Field("XRES", "8 to 32 hex digits, two for each octet", NOT_HEX, pattern(rb"(?:[0-9a-fA-F]{2}){4,16}")),
            octets("KASME", 32)],
}
BOTH = {"up": [STATION], "lost": [STATION], "tick": [TICKS], "data": [IMSI], "cancel": [IMSI], "show": [IMSI]}
RADIO, ALONE = [IMSI, STATION, PHONE], [IMSI]
WORDS = {
    "play": {**HEAD, **BOTH, "in": [STATION, MESSAGE]},
    "sim": {**HEAD, **BOTH, "raw": [STATION, MESSAGE],
            "station": [STATION, digits("ID", "five hex digits", rb"[0-9a-fA-F]{5}"),
                        digits("TAC", "four hex digits", rb"[0-9a-fA-F]{4}")],
            **dict.fromkeys(("attach", "info", "foreign", "service", "tau", "switch"), RADIO),
            **dict.fromkeys(("detach", "off", "idle", "deaf", "replay", "forge"), ALONE)},
}
OF_SCRIPTS = WORDS["sim"].keys() - WORDS["play"].keys()
ANSWERS = ("out", "state", "refused")
TEXTS = {"play": "a trace", "sim": "a script"}
KEYS, LEFT_OUT = ("XRES", "KASME"), b"-"  # of a vector, and what a log without keys has in their places
NAMES = {b" ": "<SP>", b"\t": "<TAB>", b"\r": "<CR>"}


def shown(text):
    """Octets as ASCII, with a name for each that isn't to be seen."""
    return "".join(NAMES.get(bytes([octet]), "<%02X>" % octet) if not 32 < octet < 127 else chr(octet) for octet in text)


def count_of(number, what):
    return "%d %s%s" % (number, what, "" if number == 1 else "s")


class Reader:
    """What the lines so far have said, as far as a fault can depend on it: where the provisioning began and ended, and who is
    provisioned, each with the number of the line."""

    def __init__(self, verb):
        self.verb, self.head, self.event = verb, None, None
        self.segment = None  # which one of a front's log it is, where it is a later one
        self.imsis, self.addresses, self.subscribers, self.vectors = {}, {}, [], collections.Counter()

    def read(self, number, line):
        """Takes a line that had no fault."""
        word, _, rest = line.partition(b" ")
        if word == b"sub":
            imsi, address = rest.split(b" ")[:2] if rest.count(b" ") else (rest, b"")
            self.subscribers.append(number)
            self.imsis.setdefault(imsi, number)
            self.addresses.setdefault(address.lower(), number)
        elif word == b"vec":
            self.vectors[rest.partition(b" ")[0]] += 1
        elif word == b"mme":
            self.head = self.head or number
        elif number == 1 and (later := LATER_SEGMENT.match(line)):
            self.segment = int(later[1])
        elif self.event is None and line and not line.startswith(b"#"):
            self.event = number

    def wrong(self, number, line, fault):
        """What is wrong with a line, given the kind of the fault, or None where nothing of that kind is found."""
        word, *fields = line.split(b" ")
        words = WORDS[self.verb]
        if len(line) > LONGEST:
            found = Wrong(TOO_LONG, "the line has %d octets, and %d are the most" % (len(line), LONGEST), LONGEST, len(line))
            return found if fault == TOO_LONG else None
        name = word.decode("latin-1")
        if name not in words:
            return self.unknown_word(number, line, word) if fault == UNKNOWN_WORD else None
        if len(fields) != len(words[name]):
            return wrong_count(line, name, words[name], fields) if fault == FIELD_COUNT else None
        for at, (field, text) in enumerate(zip(words[name], fields)):
            if not field.takes(text):
                start = sum(map(len, line.split(b" ")[: at + 1])) + at + 1
                return wrong_field(field, text, start) if fault == field.fault else None
        found = self.out_of_order(number, name, line) or self.not_provisioned(number, name, fields, line)
        return found if found and found.fault == fault else None

    def unknown_word(self, number, line, word):
        """A line whose first word isn't one of its text."""
        name, end = word.decode("latin-1"), max(len(word), 1)
        other = "sim" if self.verb == "play" else "play"
        if number == 1 and line.startswith(BYTE_ORDER_MARK):
            why, end = "the file begins with a byte order mark, which is to be left out", len(BYTE_ORDER_MARK)
        elif not word:
            why = "the line begins with a space"
        elif word == b"\r":
            why = "the line is empty but for a CR: lines end with LF alone"
        elif b"\t" in word:
            why = "there is a TAB in the line: words are parted by single spaces"
        elif name in WORDS[other]:
            why = "`%s` is a word of %s, which `mme %s` plays" % (name, TEXTS[other], other)
            why += "" if self.verb == "play" else "; in a script it is `raw`"
        elif name in ANSWERS:
            why = "`%s` begins an answer of the MME, and no line of %s" % (name, TEXTS[self.verb])
        else:
            why = "no line of %s begins with `%s`" % (TEXTS[self.verb], shown(word)[:40])
            near = difflib.get_close_matches(name.lower(), WORDS[self.verb], n=1)
            why += ": is it `%s`?" % near[0] if near else ""
        return Wrong(UNKNOWN_WORD, why, 0, end)

    def out_of_order(self, number, name, line):
        """A line that may not stand where it does."""
        if name == "mme":
            if not self.head or self.head >= number:
                return None
            why = "there is a line `mme` already, line %d" % self.head
        elif not self.head or self.head > number:
            why = "the line `mme` has to come first"
            why += ": this is segment %d of a front's log, and those before it come first" % self.segment if self.segment else ""
        elif name in HEAD and self.event and self.event < number:
            why = "`%s` may not come after line %d, with which the events begin" % (name, self.event)
        else:
            return None
        return Wrong(ORDER, why, 0, len(line))

    def not_provisioned(self, number, name, fields, line):
        """A subscriber or a vector that can't be taken, or an IMSI that nobody has."""
        if name not in ("sub", "vec", "show"):
            return None
        imsi = fields[0].decode("latin-1")
        first = self.imsis.get(fields[0], number)
        start = len(name) + 1
        end = start + len(imsi)
        if name != "sub":
            if first >= number:
                return Wrong(PROVISION, "no line `sub` before it has the IMSI %s" % imsi, start, end)
            if name == "vec" and self.vectors[fields[0]] >= MOST_VECTORS:
                return Wrong(PROVISION, "%s has %d vectors already, and more aren't taken" % (imsi, MOST_VECTORS), start, end)
            return None
        if first < number:
            return Wrong(PROVISION, "line %d has the IMSI %s already" % (first, imsi), start, end)
        address = fields[1].decode("latin-1")
        first = self.addresses.get(fields[1].lower(), number)
        if first < number:
            return Wrong(PROVISION, "line %d has the address %s already" % (first, address), end + 1, end + 1 + len(address))
        if sum(one < number for one in self.subscribers) >= MOST_SUBSCRIBERS:
            return Wrong(PROVISION, "there are %d subscribers already, and more aren't taken" % MOST_SUBSCRIBERS, 0, len(line))
        return None


def wrong_count(line, name, wanted, fields):
    """A line with too few or too many fields."""
    names = " ".join(field.name for field in wanted)
    why = "`%s` has %s, %s, and here %s" % (name, count_of(len(wanted), "field"), names,
                                           "is 1" if len(fields) == 1 else "are %d" % len(fields) if fields else "is none")
    start, end = 0, len(line)
    odd = re.search(rb"  +|[ ]$|\t|\r$", line)
    if odd:
        start, end = odd.span()
        what = odd.group()
        why += ": there is a TAB, and words are parted by single spaces" if what == b"\t" else \
            ": the line ends with a CR" if what == b"\r" else \
            ": the line ends with a space" if end == len(line) else ": there are %d spaces together" % len(what)
    return Wrong(FIELD_COUNT, why, start, end)


def wrong_field(field, text, start):
    """A field that isn't of its form."""
    why = "%s is %s" % (field.name, field.form)
    bare = text.rstrip(b"\r")
    if bare != text and field.takes(bare):
        return Wrong(field.fault, why + ", and the line ends with a CR: lines end with LF alone", start + len(bare),
                     start + len(text))
    if b"\t" in text:
        why += ", and here is a TAB: words are parted by single spaces"
    elif field.fault == NOT_HEX and re.fullmatch(rb"[0-9a-fA-F]+", text):
        why += ", and here are %d" % len(text)
    elif field is IMSI and text.isdigit():
        why += ", and here are %d" % len(text)
    elif text == LEFT_OUT and field.name in KEYS:
        why += ", and it was left out of a log without keys: `tools/front fill` puts it back"
    elif not text:
        why += ", and here is nothing: two spaces stand together, or one at the end"
    return Wrong(field.fault, why, start, start + max(len(text), 1))


def pointed_at(line, wrong):
    """The line, or the part of it that matters, and below it marks where it is wrong."""
    begin = max(0, min(wrong.start - WIDTH // 2, len(line) - WIDTH))
    part = line[begin: begin + WIDTH]
    spaces = {at for match in re.finditer(rb"^ +|  +| +$", line) for at in range(*match.span())}
    seen = [chr(octet) if octet == 32 and begin + at not in spaces else shown(bytes([octet])) for at, octet in enumerate(part)]
    marks = [("^" if wrong.start <= begin + at < wrong.end else " ") * len(text) for at, text in enumerate(seen)]
    if wrong.start >= len(line):
        marks.append("^")
    ends = "..." if begin else "", "..." if begin + WIDTH < len(line) else ""
    return ["%s%s%s" % (ends[0], "".join(seen), ends[1]), (" " * len(ends[0]) + "".join(marks)).rstrip()]


def told(number, line, wrong):
    """What is said of it, in lines."""
    return ["line %d: %s" % (number, wrong.words), *("  | " + text for text in pointed_at(line, wrong) if text)]
