"""What a station says of itself in S1 SETUP REQUEST (TS 36.413 clause 9.1.8.4): its eNB ID, name and tracking area codes."""
import typing

from tools.eps import messages
from tools.eps.elements import ENB_IDENTITY, ENB_NAME, SUPPORTED_TAS

MOST_TACS = 8  # that are shown
DIGITS = {"macro eNB ID": 5, "home eNB ID": 7}  # of an eNB ID in hex (clause 9.2.1.37)


class Identity(typing.NamedTuple):
    """The eNB ID, the name and the TACs in words, each empty where it can't be read."""
    enb_id: str = ""
    name: str = ""
    tacs: str = ""


def read(octets):
    """What a message says, as far as it can be read."""
    message = messages.decode(octets) if octets else messages.Message(octets)
    [(kind, number)] = (message.get(ENB_IDENTITY) or {"eNB ID": {"": None}})["eNB ID"].items()
    areas = list(dict.fromkeys(area["TAC"] for area in message.get(SUPPORTED_TAS) or ()))
    more = " and %d more" % (len(areas) - MOST_TACS) if len(areas) > MOST_TACS else ""
    return Identity("" if number is None else "%0*x" % (DIGITS.get(kind, 0), number), message.get(ENB_NAME) or "",
                    " ".join(areas[:MOST_TACS]) + more)
