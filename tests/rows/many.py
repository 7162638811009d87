#!/usr/bin/env python3
"""Writes rows that are too long to be kept: NAME.trace and NAME.answers into a folder; with NAME.status and NAME.errors where the
program has to end with another status than 0. Octets come from the standards' formats (bench/), none from the program's output.

    many.py              prints the rows' names
    many.py NAME FOLDER  writes this row
"""
import pathlib
import sys

TOP = pathlib.Path(__file__).resolve().parent.parent.parent
sys.dont_write_bytecode = True
if __name__ == "__main__":
    sys.path[0] = str(TOP)
from reference import lte, phones

SERVICE_REJECT_9 = b"\x07\x4e\x09"
NEVER_SEEN = "DEREGISTERED IDLE INACTIVE"


def provisioned(count, *with_vector):
    """A trace with this number of subscribers, of which these slots have a vector, and a station that is set up."""
    trace = phones.Trace()
    made = [phones.Phone(trace, slot, (phones.KNOWN_VECTOR,) if slot in with_vector else ()) for slot in range(count)]
    trace.provision(made)
    station = phones.Station(0)
    trace.set_up(station)
    return trace, station, made


def slot_2048():
    """2,049 subscribers; the last one's ATTACH REQUEST is answered on the first id of its slot."""
    trace, station, made = provisioned(2049, 2048)
    made[2048].asks_to_attach(station, 1)
    assert "00000005c008000001" in trace.answers[-1], "the worked answer's first element"
    return trace, None


def each_slot_taken():
    """As many subscribers as there is room for; the first and the last attach, the one before the last was never seen."""
    last = lte.SLOTS - 1
    trace, station, made = provisioned(lte.SLOTS, 0, last)
    for phone in (made[0], made[last]):
        phone.attaches(station, 1 + phone.slot)
    for phone, states in ((made[0], phones.CONNECTED), (made[last - 1], NEVER_SEEN), (made[last], phones.CONNECTED)):
        phone.shows(states)
    return trace, None


def one_subscriber_too_many():
    """One subscriber more than there is room for: its line is at fault."""
    trace, _, made = provisioned(lte.SLOTS + 1)
    at = trace.lines.index("sub %s %s %s %s" % (made[-1].imsi, made[-1].address.hex(), made[-1].gateway.hex(), made[-1].teid.hex()))
    trace.answers.clear()
    return trace, "mme: line %d: fault 7\n" % (at + 2)  # lines count from 1, and one stands before the trace


def connected_and_refused(count):
    """A phone that attached on its slot's first id, and after that this number of SERVICE REQUESTs with a wrong MAC at another number,
    each refused on the slot's next id; and that id."""
    trace, station, [phone] = provisioned(1, 0)
    phone.attaches(station, 1)
    request = lte.service_request(phone.key, phone.ksi, phone.up_count)
    wrong = request[:3] + bytes([request[3] ^ 1])
    asked = lte.initial_ue_message(trace.network, station, 2, wrong, phone.tmsi)
    for at in range(phone.associations + 1, phone.associations + 1 + count):
        m = lte.id_of_slot(phone.slot, at)
        trace.hear(station, asked)
        trace.owe("s0", station, lte.downlink_nas(m, 2, SERVICE_REJECT_9))
        trace.owe("s0", station, lte.release_command(m, 2, lte.NORMAL_RELEASE))
    phone.shows(phones.CONNECTED)
    return trace, station, phone, m


def goes_on(phone):
    """The phone's connection is there."""
    phone.updates()
    phone.completes_update(from_idle=False)
    phone.shows(phones.CONNECTED)


def ids_wrap():
    """A phone is connected on its slot's first id. So many SERVICE REQUESTs with a wrong MAC come as the slot has ids, each refused
    on the next one and the last on that of the connection, which stays and goes on."""
    trace, _, phone, last = connected_and_refused(lte.IDS_OF_A_SLOT)
    assert last == phone.m == 1, "the last id is the first"
    goes_on(phone)
    return trace, None


def served_on_its_own_id(refused=lte.IDS_OF_A_SLOT - 1):
    """A phone is connected on its slot's first id, and requests were refused until this is the next one. The phone asks for
    service at another number: the old connection is released, and the new one has its id."""
    trace, station, phone, last = connected_and_refused(refused)
    old, count, phone.up_count = lte.release_command(phone.m, phone.b, lte.NORMAL_RELEASE), phone.up_count, phone.up_count + 1
    completed = lte.release_complete(phone.m, phone.b)
    request = lte.service_request(phone.key, phone.ksi, count)
    trace.hear(station, lte.initial_ue_message(trace.network, station, 3, request, phone.tmsi))
    phone.owed(old)
    phone.b, phone.associations = 3, last + 1
    assert phone.m == 1 or refused + 1 < lte.IDS_OF_A_SLOT, "the new connection's id is that of the old one"
    key = lte.kenb(phone.vector.kasme, count)
    phone.owed(lte.context_setup_request(trace.network, phone.m, phone.b, phone, key))
    trace.hear(station, completed)
    phone.context_is_set_up()
    phone.shows(phones.CONNECTED)
    goes_on(phone)
    return trace, None


def reset_of_256():
    """257 phones are connected. RESET of 256 of them, the most that a list has, in turn by the id, by the number and by both: these
    are idle, the last goes on, and all items are acknowledged in their order. Then all numbers again, of which one is left."""
    trace, station, made = provisioned(257, *range(257))
    for phone in made:
        phone.attaches(station, 1 + phone.slot)
    kinds = (lambda m, b: (m, None)), (lambda m, b: (None, b)), (lambda m, b: (m, b))
    trace.set_back(station, *[kinds[phone.slot % 3](phone.m, phone.b) for phone in reversed(made[:256])])
    for phone in made[:256]:
        phone.shows(phones.IDLE)
    goes_on(made[256])
    trace.set_back(station, *[(None, phone.b) for phone in made[1:]])
    made[256].shows(phones.IDLE)
    return trace, None


def challenged(count):
    """So many phones are challenged in one second, and the sixth second, at which each is challenged again, is the next."""
    trace, station, made = provisioned(count, *range(count))
    for phone in made:
        phone.asks_to_attach(station, 1 + phone.slot)
    trace.say("tick 5")
    return trace, made


def all_challenged_again(trace, made):
    for phone in made:
        phone.owed_nas(lte.authentication_request(phone.ksi, phone.vector))


def due_at_once_2048():
    """2,048 phones are challenged in one second and don't answer. At the sixth second each is challenged again, in the order of
    their slots, and so three times more; at the thirtieth all are released."""
    trace, made = challenged(2048)
    trace.say("tick 1")
    all_challenged_again(trace, made)
    trace.say("tick 23")
    for _ in range(3):
        all_challenged_again(trace, made)
    trace.say("tick 1")
    for phone in made:
        phone.owed(lte.release_command(phone.m, phone.b, lte.NAS_UNSPECIFIED))
    for phone in (made[0], made[-1]):
        phone.shows(NEVER_SEEN)
    return trace, None


def due_at_once_in_each_slot():
    """As many phones as there is room for are challenged in one second, and at the sixth each is challenged again."""
    trace, made = challenged(lte.SLOTS)
    trace.say("tick 1")
    all_challenged_again(trace, made)
    return trace, None


ROWS = {make.__name__: make for make in (slot_2048, each_slot_taken, one_subscriber_too_many, ids_wrap, served_on_its_own_id,
                                         reset_of_256, due_at_once_2048, due_at_once_in_each_slot)}


def main(words):
    if not words:
        print("\n".join(ROWS))
        return 0
    if len(words) != 2 or words[0] not in ROWS:
        print(__doc__)
        return 2
    trace, errors = ROWS[words[0]]()
    texts = {"trace": "# %s\n%s" % (" ".join(ROWS[words[0]].__doc__.split()), trace.text()), "answers": trace.answer_text()}
    if errors:
        texts.update(status="1\n", errors=errors)
    for kind, text in texts.items():
        pathlib.Path(words[1], "%s.%s" % (words[0], kind)).write_text(text)
    return 0


if __name__ == "__main__":
    sys.exit(main(sys.argv[1:]))
