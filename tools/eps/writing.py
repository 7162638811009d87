"""What every phone is sent, as octets: an answer is compared with those that are owed, and read only where it has others.

The writers are for messages as subscriber.py and telling.py make them. A value that has none is written as in an answer that was
read, and has it.
"""
import functools
import socket

from tools import s1ap
from tools.eps import holes, identities, nas
from tools.eps.elements import AMBR, BOTH_IDS, CAPABILITIES, CAUSE, ENB_ID, MME_ID, SECURITY_KEY, SETUP_LIST
from tools.eps.usual import ADDRESS, OF_SETUP, TUNNEL

KEPT, KEPT_IDS = 1 << 5, 1 << 12  # values of one kind that are kept, and ids
MAC_OCTETS = 4
LEARNED = (AMBR, CAPABILITIES, CAUSE)  # elements without a writer
OCTETS = [bytes([number]) for number in range(256)]


class Known:
    """The octets of values, by what they are values of: of the last that were met."""

    def __init__(self):
        self.values = {}

    def octets(self, kind, value):
        """The octets of a value, None where they aren't known."""
        for known, octets in self.values.get(kind, ()):
            if known == value:
                return octets
        return None

    def keep(self, kind, value, octets):
        known = self.values.setdefault(kind, [])
        if all(value != kept for kept, _ in known):
            del known[KEPT - 1:]
            known.insert(0, (value, octets))


KNOWN = Known()


def sized(octets):
    """Octets after their length (X.691 clause 11.9.3)."""
    size = len(octets)
    return OCTETS[size] + octets if size < s1ap.SHORT else (s1ap.SHORT << 8 | size).to_bytes(2, "big") + octets


def nas_pdu(octets):
    """What stands in the element of a NAS message, after its length."""
    size = len(octets)
    return OCTETS[size + 1] + OCTETS[size] + octets if size < s1ap.SHORT - 1 else sized(sized(octets))


def fewest(number):
    """A number in the fewest octets (X.691 clause 11.5.7.4)."""
    return number.to_bytes(max(1, (number.bit_length() + 7) // 8), "big")


# --- NAS messages ---


def authentication_request(fields):
    """TS 24.301 clause 8.2.7."""
    return b"\x07\x52" + OCTETS[fields[nas.KEY_SET]] + bytes.fromhex(fields["RAND"]) + b"\x10" + bytes.fromhex(fields["AUTN"])


def attach_accept(fields):
    """TS 24.301 clause 8.2.1, for EPS alone."""
    inside = activate_request(fields["ESM message container"].fields)
    return b"".join((
        b"\x07\x42\x01", OCTETS[fields["T3412 value"].number], b"\x06", area(fields["TAI list"]), len(inside).to_bytes(2, "big"),
        inside, b"\x50\x0b", guti(fields["GUTI"]["GUTI"]), cause(b"\x53", fields.get("EMM cause"))))


def tau_accept(fields):
    """TS 24.301 clause 8.2.26, with the result `TA updated`."""
    return b"".join((
        b"\x07\x49\0\x5a", OCTETS[fields["T3412 value"].number], b"\x50\x0b", guti(fields["GUTI"]["GUTI"]), b"\x54\x06",
        area(fields["TAI list"]), cause(b"\x53", fields.get("EMM cause"))))


def activate_request(fields):
    """ACTIVATE DEFAULT EPS BEARER CONTEXT REQUEST (TS 24.301 clause 8.3.6)."""
    apn = fields["access point name"].encode("latin-1")
    return b"".join((
        OCTETS[fields["EPS bearer identity"] << 4 | s1ap.ESM], OCTETS[fields["procedure transaction identity"]], b"\xc1\x01",
        OCTETS[fields["EPS QoS"]["QCI"]], OCTETS[len(apn) + 1], OCTETS[len(apn)], apn, b"\x05\x01",
        socket.inet_aton(fields["PDN address"]["address"]), cause(b"\x58", fields.get("ESM cause"))))


def cause(identifier, value):
    """An optional cause."""
    return identifier + OCTETS[value.number] if value else b""


def area(value):
    """A tracking area identity list of one area (TS 24.301 clause 9.9.3.33)."""
    return b"\0" + plmn(value["PLMN"]) + bytes.fromhex(value["TAC"])


def guti(value):
    """TS 24.301 clause 9.9.3.12."""
    return mme(value["PLMN"], value["MME group"], value["MME code"]) + value["M-TMSI"].to_bytes(4, "big")


@functools.lru_cache(KEPT)
def mme(network, group, code):
    """A GUTI up to its M-TMSI."""
    return b"\xf6" + plmn(network) + bytes.fromhex(group + code)


@functools.lru_cache(KEPT)
def plmn(text):
    """A network in the form of NAS."""
    return identities.from_s1ap(identities.written_s1ap_plmn(*text.split(" ")))


PLAIN = {nas.AUTHENTICATION_REQUEST: authentication_request, nas.ATTACH_ACCEPT: attach_accept, nas.TAU_ACCEPT: tau_accept}


def plain(said):
    """A NAS message without what protects it; None where its octets aren't known."""
    write = PLAIN.get(said.type)
    return write(said.fields) if write else KNOWN.octets(nas_kind(said), said.fields)


def nas_kind(said):
    """What a NAS message is, closely enough that there are few values of one kind."""
    return said.type, said.is_esm, said.fields.get(nas.KEY_SET), said.fields.get("procedure transaction identity")


# --- S1AP messages ---


@functools.lru_cache(KEPT_IDS)
def own_id(number):
    """An id in an element of its own."""
    octets = fewest(number)
    return OCTETS[len(octets) - 1 << 6] + octets


@functools.lru_cache(KEPT_IDS)
def own_ids(mme_id, enb_id):
    """The elements that an association is named by."""
    return b"\0\0\0" + sized(own_id(mme_id)) + b"\0\x08\0" + sized(own_id(enb_id))


def both_ids(mme_id, enb_id):
    """Both ids in one element (TS 36.413 clause 9.2.3.18)."""
    octets = fewest(mme_id)
    return OCTETS[len(octets) - 1 << 2] + octets + own_id(enb_id)


def downlink(values, inside):
    """DOWNLINK NAS TRANSPORT."""
    body = b"\0\0\x03" + own_ids(values[MME_ID], values[ENB_ID]) + b"\0\x1a\0" + nas_pdu(inside)
    return b"\0\x0b\x40" + sized(body)


def release(values, _):
    """UE CONTEXT RELEASE COMMAND."""
    why = KNOWN.octets(CAUSE, values[CAUSE])
    if why is None:
        return None
    body = b"\0\0\x02\0\x63\0" + sized(both_ids(*values[BOTH_IDS]["pair"].values())) + b"\0\x02\x40" + sized(why)
    return b"\0\x17\0" + sized(body)


def context_setup(values, inside):
    """INITIAL CONTEXT SETUP REQUEST."""
    [item] = values[SETUP_LIST]
    rates, algorithms = KNOWN.octets(AMBR, values[AMBR]), KNOWN.octets(CAPABILITIES, values[CAPABILITIES])
    first = KNOWN.octets(bearer_kind(inside), without_tunnel(item))
    if rates is None or algorithms is None or first is None:
        return None
    bearer = first + socket.inet_aton(item[ADDRESS]) + item[TUNNEL].to_bytes(4, "big") + (sized(inside) if inside else b"")
    body = b"".join((
        b"\0\0\x06", own_ids(values[MME_ID], values[ENB_ID]), b"\0\x42\0", sized(rates), b"\0\x18\0",
        sized(s1ap.ONE_BEARER + sized(bearer)), b"\0\x6b\0", sized(algorithms), b"\0\x49\0", sized(values[SECURITY_KEY])))
    return b"\0\x09\0" + sized(body)


def bearer_kind(inside):
    """What a bearer to set up is, with or without a NAS message."""
    return SETUP_LIST, inside is not None


def without_tunnel(item):
    """What is the same of the bearers of many phones."""
    return {name: value for name, value in item.items() if name not in (ADDRESS, TUNNEL)}


WRITERS = {(s1ap.DOWNLINK_NAS, 0): downlink, (s1ap.RELEASE, 0): release, (s1ap.CONTEXT_SETUP, 0): context_setup}


def is_written(expected, octets, is_right):
    """Whether octets are those of a message that is expected. No, where it isn't known here how that is written."""
    write, said = WRITERS.get(expected.kind), expected.said
    inside = plain(said) if said and write else None
    if write is None or said and inside is None:
        return False
    if said is None or not said.header:
        return octets == write(expected.values, inside)
    covered = OCTETS[said.count & 0xFF] + inside
    at = octets.find(covered)
    mac = octets[at - MAC_OCTETS:at]
    return (at > 0 and octets == write(expected.values, OCTETS[said.header << 4 | s1ap.EMM] + mac + covered)
            and is_right(said.kasme, said.count, nas.DOWN, covered, mac))


def learn(expected, message):
    """How a message is written that was read and is as expected."""
    if expected.kind not in WRITERS:
        return
    inside = message.nas()
    for each in message.elements:
        if each.id in LEARNED:
            KNOWN.keep(each.id, expected.values[each.id], each.octets)
        elif each.id == SETUP_LIST and holes.bearer_place(each.octets, 0) is not None:
            item, _ = s1ap.sized(each.octets, 4)
            KNOWN.keep(bearer_kind(inside), without_tunnel(expected.values[SETUP_LIST][0]), item[:OF_SETUP])
    if inside is not None and expected.said.type not in PLAIN:
        protected = nas.split(inside)
        KNOWN.keep(nas_kind(expected.said), expected.said.fields, protected.inner if protected else inside)
