"""Rows of S1AP messages that are put together from the table s1ap_contents.txt, in forms that a decoder takes alike.

A form is a set of words: 'reversed', the last element comes first; 'turned', each criticality is another; 'mixed', elements that
are not kept stand between the others; 'extended', each SEQUENCE has iE-Extensions and additions.
"""

import itertools
import pathlib
import re

TABLE = pathlib.Path(__file__).resolve().parent / "s1ap_contents.txt"
CRITICALITIES = {"reject": 0x00, "ignore": 0x40, "notify": 0x80}
FORMS = [
    [word for bit, word in enumerate(["reversed", "turned", "mixed", "extended"]) if number >> bit & 1]
    for number in range(16)
]

# Two elements of iE-Extensions, then two additions, of which the second stands.
EXTENSIONS = bytes.fromhex("000100070002010200078000")
ADDITIONS = bytes.fromhex("028002aabb")

# Elements of no row: one to ignore; one to notify, and ids 75 and 127, skipped though marked reject; id 128.
FIRST_STRANGER = bytes.fromhex("12344001ab")
STRANGERS = bytes.fromhex("12348000004b000100007f0000")
LAST_STRANGER = bytes.fromhex("00800002ffff")

# Causes of later releases: the bits of each and its name.
LATER_CAUSES = [
    ("0 000 1 0000010", "RadioNetwork(Extended(2))"),
    ("0 001 1 0000000", "Transport(Extended(0))"),
    ("0 010 1 0000001", "Nas(Extended(1))"),
    ("0 011 1 0010000", "Protocol(Extended(16))"),
    ("0 100 1 0111111", "Misc(Extended(63))"),
]

# Ids of rows, contents for them, and what such a message is answered with.
OTHER_CONTENTS = [
    # later names: of a paging DRX, an RRC cause and a reset type
    (137, "1 0000010", "not writable"),
    (134, "1 0111111", "not writable"),
    (92, "0 0 1 0000000", "not writable"),
    # a later name above number 63, numbers of no name, a later group
    (2, "0 000 1 1000001", "fault Syntax(Range)"),
    (2, "0 000 0 100100", "fault Syntax(Range)"),
    (2, "0 101 0 000000", "fault Syntax(Range)"),
    (2, "1 000 0 000000", "fault Syntax(Alternative)"),
    (134, "0 101", "fault Syntax(Range)"),
    # sizes past the bounds
    (60, "1 00000011 #6e616d65", "fault Syntax(Range)"),
    (60, "0 10010110 #6e616d65", "fault Syntax(Range)"),
    (107, "(, 1 1100000000000000 0 0100000000000000 )", "fault Syntax(Range)"),
    # paddings that aren't zero, an octet after the end, an id in two octets where one is enough
    (80, "0000000001 000001", "fault Syntax(Padding)"),
    (8, "00 000001 #01", "fault Syntax(Padding)"),
    (87, "#ff00", "fault Syntax(Trailing)"),
    (8, "01 #0001", "fault Syntax(NotFewest)"),
]


class Bits:
    """Bits that are written one after another."""

    def __init__(self):
        self.bits = ""

    def align(self):
        self.bits += "0" * (-len(self.bits) % 8)

    def put_octets(self, octets):
        self.bits += "".join(f"{octet:08b}" for octet in octets)

    def finish(self):
        self.align()
        return bytes(int(self.bits[at : at + 8], 2) for at in range(0, len(self.bits), 8))


def spelled(text, extended):
    """The octets of a content's text."""
    out, in_hex, left_out = Bits(), False, False
    for sign in text:
        if sign == "]":
            left_out = False
        elif left_out:
            pass
        elif sign == "[":
            left_out = not extended
        elif sign == " ":
            in_hex = False
        elif sign == "#":
            out.align()
            in_hex = True
        elif sign in "(,?":
            out.bits += "1" if extended else "0"
        elif sign == ")":
            if extended:
                out.align()
                out.put_octets(EXTENSIONS + ADDITIONS)
        elif in_hex:
            out.bits += f"{int(sign, 16):04b}"
        else:
            out.bits += sign
    return out.finish()


def opened(content):
    """Octets after their length."""
    length = len(content)
    return (bytes([length]) if length < 128 else (length | 0x8000).to_bytes(2, "big")) + content


def element(number, criticality, content):
    return number.to_bytes(2, "big") + bytes([criticality]) + opened(content)


class Row:
    """An element of the table."""

    def __init__(self, words):
        self.unkept = words[0] == "unkept"
        self.optional = words[0] == "optional"
        number, criticality, content = words[self.unkept + self.optional :]
        self.id, self.criticality = int(number), CRITICALITIES[criticality]
        listed = re.match(r"list (\d+) (\w+)$", content)
        self.listed = (int(listed[1]), CRITICALITIES[listed[2]]) if listed else None
        self.contents = [] if listed else [content]

    def content(self, extended):
        if not self.listed:
            return spelled(self.contents[0], extended)
        number, criticality = self.listed
        criticality = CRITICALITIES["notify"] if extended else criticality
        values = b"".join(element(number, criticality, spelled(c, extended)) for c in self.contents)
        return bytes([len(self.contents) - 1]) + values

    def element(self, form):
        criticality = self.criticality
        if "turned" in form and not self.unkept:
            criticality = CRITICALITIES["reject" if criticality else "notify"]
        return element(self.id, criticality, self.content("extended" in form))


class Message:
    """A message of the table."""

    def __init__(self, kind, code, criticality):
        self.kind, self.code, self.criticality = int(kind, 16), int(code), CRITICALITIES[criticality]
        self.rows, self.unkept = [], []

    def elements(self, form):
        rows = (self.unkept if "mixed" in form else []) + self.rows
        elements = [row.element(form) for row in rows]
        return elements[::-1] if "reversed" in form else elements

    def framed(self, form, elements):
        mixed, extended = "mixed" in form, "extended" in form
        inner = bytes([0x80 if extended else 0]) + (len(elements) + 5 * mixed).to_bytes(2, "big")
        inner += FIRST_STRANGER * mixed + b"".join(elements[:1])
        inner += STRANGERS * mixed + b"".join(elements[1:])
        inner += LAST_STRANGER * mixed + ADDITIONS * extended
        criticality = CRITICALITIES["notify"] if "turned" in form else self.criticality
        return bytes([self.kind, self.code, criticality]) + opened(inner)

    def of(self, form):
        return self.framed(form, self.elements(form))

    def with_content(self, number, text):
        """The message with another content for the row of an id at its end, where it has that row."""
        for place, row in enumerate(self.rows):
            if row.id == number:
                elements = [row.element([]) for row in self.rows]
                del elements[place]
                return self.framed([], elements + [element(number, row.criticality, spelled(text, False))])
        return None


def messages():
    """The messages of the table."""
    found = []
    for line in TABLE.read_text(encoding="utf-8").split("\n"):
        words = line.split(" ", 3)
        if not line or line.startswith("#"):
            continue
        if words[0] == "message":
            found.append(Message(*words[1:]))
        elif words[0] == "|":
            row.contents.append(line[2:])
        else:
            marked = words[0] in ("unkept", "optional")
            row = Row(line.split(" ", 3 if marked else 2))
            (found[-1].unkept if row.unkept else found[-1].rows).append(row)
    return found


def forms(all_messages):
    """Each message in every form is written as its plain form; the setup request in every order too."""
    for message in all_messages:
        plain = message.of([])
        for form in FORMS:
            yield f"form {' '.join(form) or 'plain'}", message.of(form), plain
    setup = all_messages[0]
    for form in FORMS:
        for order in itertools.permutations(setup.elements(form)):
            yield f"order, {' '.join(form) or 'plain'}", setup.framed(form, list(order)), setup.of([])


def faults(all_messages):
    """Each element missing, each repeated, and one refused."""
    for message in all_messages:
        elements = message.elements([])
        for place, row in enumerate(message.rows):
            fewer = elements[:place] + elements[place + 1 :]
            answer = "same" if row.optional else f"fault MissingElement({row.id})"
            yield f"without {row.id}", message.framed([], fewer), answer
            twice = message.framed([], elements + [elements[place]])
            yield f"twice {row.id}", twice, f"fault RepeatedElement({row.id})"
        refused = message.framed([], elements + [bytes.fromhex("12340000")])
        yield "refused", refused, "fault RefusedElement(4660)"
        for number, text, answer in OTHER_CONTENTS:
            octets = message.with_content(number, text)
            if octets:
                yield f"{number} {text}", octets, answer


def causes(all_messages, texts):
    """Later causes by what the message is shown as with its own."""
    for message in all_messages:
        for text, cause in LATER_CAUSES:
            octets = message.with_content(2, text)
            if octets:
                shown = texts["s1ap " + message.of([]).hex()]
                shown = re.sub(r"cause \w+\(\w+\)", f"cause {cause}", shown)
                shown = shown.replace("; written same", "; not writable")
                yield f"cause {cause}", octets, shown


def check(all_messages, texts):
    """The plain form and the one of all words are the octets of another encoder, which stand in a file."""
    for message in all_messages:
        plain, noisy = message.of([]).hex(), message.of(FORMS[15]).hex()
        if texts.get("s1ap_again " + plain) != "same" or texts.get("s1ap_again " + noisy) != plain:
            raise SystemExit(f"s1ap_contents.txt: not the octets of s1ap_noisy.rows: {plain}")


def rows(texts):
    """All rows: a name, the call, the source and the answer; `texts` are the answers of calls in files."""
    source = "TS 36.413 clauses 9.1 and 9.3, X.691: put together from s1ap_contents.txt"
    found = messages()
    check(found, texts)
    made = []
    for name, octets, plain in forms(found):
        answer = "same" if octets == plain else plain.hex()
        made.append((name, "s1ap_again " + octets.hex(), source, answer))
    for name, octets, answer in faults(found):
        made.append((name, "s1ap_again " + octets.hex(), source, answer))
    for name, octets, answer in causes(found, texts):
        made.append((name, "s1ap " + octets.hex(), source, answer))
    return made
