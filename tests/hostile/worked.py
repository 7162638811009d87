"""The worked rows of tests/rows as events, and the S1AP and NAS messages in them."""
import collections
import pathlib

from tests.hostile import standards
from tests.hostile.projection import NAS_PDU, Names, Unreadable, read, sized
from tests.hostile.standards import phones

ROWS = standards.TOP / "tests" / "rows"
PARTS = standards.TOP / "tests" / "parts"
PROVISIONING = ("mme", "sub", "vec")
EVENTS = ("up", "lost", "in", "tick", "data", "cancel")
PROTECTED = 6  # octets before the message in a protected one
CONTEXT_SETUP, BEARERS = 9, 24  # INITIAL CONTEXT SETUP REQUEST and its list (TS 36.413 clause 9.1.4.1)

Row = collections.namedtuple("Row", "name provisioning imsis names events answers")


def network_of(words):
    country, network, group, code, apn, down, up = words
    return phones.Network(country, network, group, code, apn, (int(down), int(up)))


def row_of(path):
    """A row that plays to its end; its lines of states are left out."""
    lines = [line for line in path.read_text(errors="replace").splitlines() if line and not line.startswith("#")]
    words = [line.split(" ") for line in lines]
    imsis = [word[1] for word in words if word[0] == "sub"]
    network = next((network_of(word[1:]) for word in words if word[0] == "mme"), None)
    answers = path.with_suffix(".answers").read_text().splitlines()
    chosen = {kind: [line for line, word in zip(lines, words) if word[0] in kind] for kind in (PROVISIONING, EVENTS)}
    return Row(path.stem, chosen[PROVISIONING], imsis, network and Names(network, imsis), chosen[EVENTS], answers)


def rows():
    """The rows that play to their end, and have a network and subscribers."""
    found = [row_of(path) for path in sorted(ROWS.glob("*.trace")) if not path.with_suffix(".status").exists()]
    return [row for row in found if row.names and row.imsis]


def octets_in(line):
    text = line.rsplit(" ", 1)[1]
    return b"" if text == "-" else bytes.fromhex(text)


def is_whole(octets):
    """Octets that are one frame and nothing after it."""
    try:
        return sized(octets, 3)[1] == len(octets)
    except Unreadable:
        return False


def messages(of_rows):
    """Each S1AP message that a station or the MME sends in a row, once."""
    heard = {octets_in(line) for row in of_rows for line in row.events if line.startswith("in ")}
    sent = {octets_in(line) for row in of_rows for line in row.answers if line.startswith("out ")}
    return sorted(octets for octets in heard | sent if is_whole(octets))


# --- NAS ---


def elements(octets):
    """A message's elements in their order, each with its criticality."""
    value, _ = sized(octets, 3)
    found, at = [], 3
    for _ in range(int.from_bytes(value[1:3], "big")):
        number, named = int.from_bytes(value[at:at + 2], "big"), value[at + 2] >> 6
        content, at = sized(value, at + 3)
        found.append((named, (number, content)))
    return found


def with_nas(octets, nas):
    """The message with this NAS message in place of its own."""
    parts = [(named, standards.nas_pdu(nas) if element[0] == NAS_PDU else element) for named, element in elements(octets)]
    return standards.message(octets[0] >> 5 & 3, octets[1], octets[2] >> 6, *parts)


def nas_of(octets):
    """The NAS message in a message that is spelled as the encoder spells it, or nothing."""
    try:
        content = read(octets).elements.get(NAS_PDU)
        nas = None if content is None else sized(content, 0)[0]
        return nas if nas is not None and with_nas(octets, nas) == octets else None
    except (Unreadable, IndexError):
        return None


def accepted_nas(octets):
    """The NAS message that goes with the bearer to set up, or nothing: the last of its item."""
    try:
        message = read(octets)
    except (Unreadable, IndexError):
        return None
    content = message.elements.get(BEARERS, b"") if message.code == CONTEXT_SETUP else b""
    for at in range(len(content)):
        try:
            nas, end = sized(content, at)
        except Unreadable:
            continue
        if end == len(content) and nas[:1] and nas[0] & 15 == 7:
            return nas
    return None


def unprotected(nas):
    """What stands in a protected message, else the message."""
    return nas[PROTECTED:] if nas[:1] and nas[0] & 15 == 7 and 1 <= nas[0] >> 4 <= 4 else nas


def nas_messages(of_rows):
    """The calculator's call and the octets of each NAS message of the rows, once."""
    found = set()
    for direction, lines in (("up", [line for row in of_rows for line in row.events if line.startswith("in ")]),
                             ("down", [line for row in of_rows for line in row.answers if line.startswith("out ")])):
        for octets in {octets_in(line) for line in lines}:
            nas = nas_of(octets) or accepted_nas(octets)
            if nas:
                nas = unprotected(nas)
                found.add(("esm" if nas[:1] and nas[0] & 15 == 2 else direction, nas))
    return sorted(found)


def tried_in_parts(call):
    """The octets that rows of tests/parts turn each bit of, by this call."""
    lines = [line for path in PARTS.glob("*.rows") for line in path.read_text().splitlines() if line.startswith(call + " ")]
    return {line.rsplit(" ", 1)[1] for line in lines}
