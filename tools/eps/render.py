"""A message as a tree of text, as one line, and as an object for JSON. The names are those of the standards; docs/MESSAGES.md has
the keys of the object.
"""
from tools.eps import messages, nas
from tools.eps.elements import BOTH_IDS, CAUSE, ENB_ID, NAS_PDU
from tools.eps.per import Enumerator

INDENT = "  "


def ids_text(mme_id, enb_id):
    """The ids that a message names an association by."""
    return " ".join("%s id %d" % pair for pair in (("MME", mme_id), ("eNB", enb_id)) if pair[1] is not None)


def cause_text(value):
    """The value of the element Cause, as `nas detach`."""
    [(group, name)] = value.items()
    return "%s %s" % (group, name)


def fault_text(fault, why):
    return "%s: %s" % (fault.value, why)


# --- NAS ---


def direction_of(from_mme):
    return nas.DOWN if from_mme else nas.UP


class Nas:
    """A NAS message in an S1AP message: its protection, if it has any, and what is in it."""

    def __init__(self, octets, from_mme):
        self.octets = octets
        self.protected = nas.split(octets)
        self.plain = nas.decode_plain(self.protected.inner if self.protected else octets, direction_of(from_mme))

    @property
    def header(self):
        if self.protected:
            return self.protected.header
        return nas.SERVICE_HEADER if self.plain.is_service_request() else 0

    def inside(self):
        """The ESM message in its container, or None."""
        return self.plain.fields.get("ESM message container")

    def text(self):
        """The message's name, with its cause, and those of the ESM message in it."""
        text = named_with_cause(self.plain)
        inside = self.inside()
        return "%s (%s)" % (text, named_with_cause(inside)) if isinstance(inside, nas.Plain) else text

    def short_text(self):
        """The message's name with its cause, and the ESM message in it only where that has a cause, as `ATTACH REJECT #19 ESM
        failure (PDN CONNECTIVITY REJECT #50 PDN type IPv4 only allowed)`."""
        inside, name = self.inside(), with_cause(self.plain) if self.plain.type is not None else "an unreadable NAS message"
        has_cause = isinstance(inside, nas.Plain) and inside.cause() is not None
        return "%s (%s)" % (name, with_cause(inside)) if has_cause else name


def with_cause(plain):
    """A message's name with its cause."""
    cause = plain.cause()
    return plain.name + (" %s" % cause if cause is not None else "")


def named_with_cause(plain):
    """The same, with its fault."""
    return with_cause(plain) + (" ! " + fault_text(plain.fault, plain.why) if plain.fault else "")


def nas_object(octets, from_mme):
    """A NAS message for JSON."""
    message = Nas(octets, from_mme)
    made = {"header": message.header, "header name": nas.HEADERS.get(message.header, "reserved")}
    if message.protected:
        made |= {"mac": message.protected.mac.hex(), "sequence": message.protected.sequence}
    return made | plain_object(message.plain) | {"octets": len(octets)}


def plain_object(plain):
    made = {"message": plain.name, "protocol": "ESM" if plain.is_esm else "EMM", "type": plain.type, "octets": len(plain.octets),
            "fields": {name: plain_value(value) for name, value in plain.fields.items()}, "lengths": plain.lengths}
    return made | ({"fault": fault_text(plain.fault, plain.why)} if plain.fault else {})


def plain_value(value):
    return plain_object(value) if isinstance(value, nas.Plain) else value


# --- S1AP ---


def value_object(value, from_mme):
    """The value of an element for JSON: octets in hex, and a NAS message as an object."""
    if isinstance(value, dict):
        return {name: nas_object(inner, from_mme) if name == "NAS-PDU" else value_object(inner, from_mme)
                for name, inner in value.items()}
    if isinstance(value, list):
        return [value_object(item, from_mme) for item in value]
    return value.hex() if isinstance(value, bytes) else value


def element_object(element, from_mme):
    made = {"id": element.id, "name": element.name, "criticality": element.criticality, "octets": len(element.octets)}
    if element.value is None:
        return made | {"hex": element.octets.hex()}
    if element.id == NAS_PDU:
        return made | {"value": nas_object(element.value, from_mme)}
    return made | {"value": value_object(element.value, from_mme)}


def message_object(message, from_mme):
    """A message for JSON."""
    made = {"message": message.name, "procedure": message.code, "criticality": message.criticality, "octets": len(message.octets)}
    if message.outcome is not None:
        made["outcome"] = messages.OUTCOMES[message.outcome]
    made["elements"] = [element_object(element, from_mme) for element in message.elements]
    return made | ({"fault": fault_text(message.fault, message.why)} if message.fault else {})


def brief(message, from_mme):
    """A message in one line: its name, ids and causes, and the NAS messages in it."""
    parts = [message.name, ids_text(*message_ids(message))]
    if message.get(CAUSE):
        parts.append(cause_text(message.get(CAUSE)))
    octets = message.nas()
    if octets is not None:
        parts.append("[%s]" % Nas(octets, from_mme).text())
    if message.fault:
        parts.append("! " + fault_text(message.fault, message.why))
    return " ".join(filter(None, parts))


def message_ids(message):
    """The MME UE S1AP ID and the eNB UE S1AP ID of a message, each None where it isn't there."""
    both = message.get(BOTH_IDS)
    if both is None:
        return message.mme_id(), message.get(ENB_ID)
    pair = both.get("pair", both)
    return pair["MME UE S1AP ID"], pair.get("eNB UE S1AP ID")


def tree(message, from_mme):
    """A message as lines of text, a value a line, the inner ones indented."""
    made = message_object(message, from_mme)
    lines = ["%s, %s" % (made["message"], ", ".join(head_texts(made)))]
    for element in made["elements"]:
        lines += branch(element["name"], element.get("value", element.get("hex")), INDENT)
    return lines


def head_texts(made):
    if made["procedure"] is not None:
        yield "procedure %d %s" % (made["procedure"], made["outcome"])
        yield "criticality %s" % made["criticality"]
    yield nas.octets_text(made["octets"])
    if "fault" in made:
        yield "! " + made["fault"]


def branch(name, value, indent):
    """The lines of a value."""
    if isinstance(value, dict) and "fields" in value:
        return nas_branch(name, value, indent)
    if isinstance(value, dict):
        if len(value) == 1 and not isinstance(next(iter(value.values())), (dict, list)):
            [(inner, text)] = value.items()
            return ["%s%s: %s %s" % (indent, name, inner, text)]
        lines = ["%s%s" % (indent, name)]
        for inner, part in value.items():
            lines += branch(inner, part, indent + INDENT)
        return lines
    if isinstance(value, list):
        lines = []
        for place, item in enumerate(value, 1):
            lines += branch("%s %d" % (name, place), item, indent)
        return lines
    return ["%s%s: %s" % (indent, name, value_text(value))]


def value_text(value):
    if isinstance(value, bool):
        return "yes" if value else "no"
    if isinstance(value, Enumerator) and value.number is not None and not value.startswith("#"):
        return "%s (%d)" % (value, value.number)
    return str(value)


def nas_branch(name, made, indent):
    lines = ["%s%s: %s" % (indent, name, ", ".join(nas_texts(made)))]
    for inner, value in made["fields"].items():
        lines += branch(inner, value, indent + INDENT)
    return lines


def nas_texts(made):
    yield made["message"]
    if "header" in made:
        yield "header %d %s" % (made["header"], made["header name"])
    if "mac" in made:
        yield "MAC %s, sequence number %d" % (made["mac"], made["sequence"])
    yield nas.octets_text(made["octets"])
    if "fault" in made:
        yield "! " + made["fault"]


def nas_tree(octets, from_mme):
    """A NAS message alone, as lines of text."""
    lines = nas_branch("NAS", nas_object(octets, from_mme), "")
    return [lines[0].removeprefix("NAS: ")] + lines[1:]
