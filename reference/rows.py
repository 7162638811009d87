#!/usr/bin/env python3
"""Writes rows of phones into tests/rows: NAME.trace, and NAME.answers by the standards' formats (phones.py, lte.py).

    rows.py [--check]

With --check nothing is written: the rows that are there must be those that would be written.
"""
import argparse
import os
import pathlib
import sys

if __name__ == "__main__":
    sys.path[0] = str(pathlib.Path(__file__).resolve().parent.parent)
from reference import lte
from reference.phones import CONNECTED, IDLE, PENDING, UNDER_WAY, KNOWN_VECTOR, Network, Phone, Station, Trace, Vector

FOLDER = os.path.join(os.path.dirname(os.path.abspath(__file__)), "..", "tests", "rows")
ROWS = []


def row(make):
    """A row has the name of the function that makes it, and its first line says what the function does."""
    ROWS.append((make.__name__, make.__doc__, make))
    return make


def row_for_each(*choices):
    """A row for each choice: its name, what its first line says, and what the function is told."""
    def rows(make):
        ROWS.extend((name, shows, lambda told=told: make(told)) for name, shows, told in choices)
        return make
    return rows


def begun(phones_made, stations=None, network=None):
    """A trace with the phones that `phones_made` gives for it, and the stations set up (one, where none are given)."""
    trace = Trace(network)
    made = phones_made(trace)
    trace.provision(made)
    stations = stations or [Station(0)]
    for station in stations:
        trace.set_up(station)
    return trace, stations, made


def one_phone(**choices):
    return begun(lambda trace: [Phone(trace, 0, **choices)])


def shown_attach(trace, station, phone, **choices):
    """A whole attach, the states shown after each step, and at the end the release."""
    wanted = [UNDER_WAY, UNDER_WAY, UNDER_WAY if choices.get("information") else PENDING]
    wanted += [PENDING] * bool(choices.get("information")) + [PENDING, CONNECTED]
    for step, states in zip(phone.attach_steps(station, 1, **choices), wanted):
        step()
        phone.shows(states)
    return trace


@row
def attach_whole():
    """A phone attaches, its context is set up, the station asks for the release, and the phone is idle."""
    trace, [station], [phone] = one_phone()
    shown_attach(trace, station, phone)
    phone.is_released()
    phone.shows(IDLE)
    return trace


@row
def attach_ipv4v6():
    """A phone asks for both kinds of address; the bearer has the IPv4 address and ESM cause 50."""
    trace, [station], [phone] = one_phone()
    return shown_attach(trace, station, phone, pdn_type=3)


@row
def attach_ipv4v6_with_information():
    """The same with the ESM information flag."""
    trace, [station], [phone] = one_phone()
    return shown_attach(trace, station, phone, pdn_type=3, information=True)


@row
def attach_combined():
    """A phone asks for a combined attach; it is attached for EPS alone, with EMM cause 18."""
    trace, [station], [phone] = one_phone()
    return shown_attach(trace, station, phone, attach_type=2)


@row
def attach_combined_ipv4v6():
    """Both: EMM cause 18, and ESM cause 50."""
    trace, [station], [phone] = one_phone()
    return shown_attach(trace, station, phone, attach_type=2, pdn_type=3)


@row_for_each(
    ("attach_res_of_4", "A vector whose RES has 4 octets.", 4),
    ("attach_res_of_8", "A vector whose RES has 8 octets.", 8),
    ("attach_res_of_16", "A vector whose RES has 16 octets.", 16),
)
def attach_res(length):
    vector = Vector.made("RES of %d octets" % length, length)
    trace, [station], [phone] = one_phone(vectors=[vector])
    return shown_attach(trace, station, phone)


@row_for_each(
    ("attach_capability_of_3", "A phone with 3 octets of capability; the two of EPS are replayed.", "f070c0"),
    ("attach_capability_of_4",
     "A phone with 4 octets of capability; all are replayed, the fourth without its first bit.", "f070c0e0"),
    ("attach_capability_of_5",
     "A phone with 5 octets of capability; the first four are replayed, the fourth without its first bit.", "e060404073"),
    ("attach_capability_of_13",
     "A phone with 13 octets of capability, the most; the first four are replayed.", "e0e0c0c01f" + "ff" * 8),
)
def attach_capability(capability):
    trace, [station], [phone] = one_phone(capability=bytes.fromhex(capability))
    return shown_attach(trace, station, phone)


@row
def attach_imsi_of_14():
    """A subscriber whose IMSI has 14 digits."""
    trace, [station], [phone] = one_phone(imsi="00101000000001")
    return shown_attach(trace, station, phone)


@row
def attach_network_code_of_3():
    """A network with a code of three digits, which S1AP and NAS pack differently."""
    network = Network("310", "260", "8a01", "c7", "ims", (256000, 10**10))
    trace, [station], [phone] = begun(lambda trace: [Phone(trace, 0, imsi="310260123456789")], network=network)
    return shown_attach(trace, station, phone)


def two_vectors():
    return one_phone(vectors=[KNOWN_VECTOR, Vector.made("second")])


@row
def attach_again_from_idle():
    """A phone that is idle attaches again: the next vector, KSI, association and M-TMSI."""
    trace, [station], [phone] = two_vectors()
    phone.attaches(station, 1)
    phone.is_released()
    return shown_attach(trace, station, phone)


@row
def attach_again_while_connected():
    """A phone that is connected attaches again by another radio connection: the old one is released first."""
    trace, [station], [phone] = two_vectors()
    phone.attaches(station, 2)
    return shown_attach(trace, station, phone)


def two_attaches(stations, places, choices):
    """Two phones attach step by step in turn, and are released in turn."""
    trace, stations, made = begun(lambda trace: [Phone(trace, 0), Phone(trace, 1, [Vector.made("other")])], stations)
    steps = [list(phone.attach_steps(stations[at], b, **choice)) for phone, (at, b), choice in zip(made, places, choices)]
    for turn in range(max(len(of_one) for of_one in steps)):
        for of_one in steps:
            if turn < len(of_one):
                of_one[turn]()
    for phone in made:
        phone.shows(CONNECTED)
    for phone in made:
        phone.is_released()
        for each in made:
            each.shows(IDLE if each.station is None else CONNECTED)
    return trace


@row
def two_phones_on_one_station():
    """Two phones attach in turn on one station, the second with the ESM information flag."""
    return two_attaches([Station(0)], [(0, 1), (0, 2)], [{}, {"information": True}])


@row
def two_phones_on_one_radio_id():
    """Two phones attach in turn on one station with the same eNB UE id."""
    return two_attaches([Station(0)], [(0, 1), (0, 1)], [{"information": True}, {"pdn_type": 3}])


@row
def two_phones_on_two_stations():
    """Two phones attach in turn on two stations with the same eNB UE id, in two tracking areas."""
    return two_attaches([Station(0), Station(127, 2, 2, 0x201)], [(0, 1), (1, 1)], [{}, {}])


def one_phone_at_two():
    stations = [Station(0), Station(1, 2, 2, 0x201)]
    return begun(lambda trace: [Phone(trace, 0)], stations)


@row_for_each(
    ("tau_from_idle",
     "A phone that is idle updates its tracking area, gets a new M-TMSI, and is released when it has completed.", 0),
    ("tau_combined", "A combined update from idle: EMM cause 18.", 1),
    ("tau_combined_with_attach", "A combined update with IMSI attach from idle: EMM cause 18.", 2),
)
def update_from_idle(update_type):
    trace, [station], [phone] = one_phone()
    phone.attaches(station, 1)
    phone.is_released()
    phone.updates_from_idle(station, 2, update_type)
    phone.shows("COMMON-PROCEDURE-INITIATED CONNECTED ACTIVE")
    phone.completes_update(from_idle=True)
    phone.shows(IDLE)
    return trace


@row
def tau_while_connected():
    """A phone that is connected updates its tracking area and stays connected."""
    trace, [station], [phone] = one_phone()
    phone.attaches(station, 1)
    phone.updates()
    phone.shows("COMMON-PROCEDURE-INITIATED CONNECTED ACTIVE")
    phone.completes_update(from_idle=False)
    phone.shows(CONNECTED)
    return trace


@row
def tau_moves_paging():
    """A phone that is idle is paged in the tracking area where it attached, and after an update elsewhere in the new one."""
    trace, [old, new], [phone] = one_phone_at_two()
    phone.attaches(old, 1)
    phone.is_released()
    phone.has_data_waiting([old])
    phone.updates_from_idle(new, 1)
    phone.completes_update(from_idle=True)
    phone.has_data_waiting([new])
    phone.shows(IDLE)
    return trace


@row
def path_switch_elsewhere():
    """A phone moves to another station with another radio id, and is released from there."""
    trace, [old, new], [phone] = one_phone_at_two()
    phone.attaches(old, 1)
    phone.switches_path(new, 9)
    phone.shows(CONNECTED)
    phone.is_released()
    phone.shows(IDLE)
    return trace


@row
def path_switch_eight_times():
    """The next hop's counter goes from 1 through 7 to 0 and 1 again."""
    trace, stations, [phone] = one_phone_at_two()
    phone.attaches(stations[0], 1)
    for turn in range(8):
        phone.switches_path(stations[(turn + 1) % 2], 10 + turn)
    phone.shows(CONNECTED)
    return trace


@row
def path_switch_after_tau():
    """An update from idle makes no new radio key: a path switch during it goes on from the kept next hop, and the phone's
    completion comes from the new station."""
    trace, [old, new], [phone] = one_phone_at_two()
    phone.attaches(old, 1)
    phone.is_released()
    phone.updates_from_idle(old, 2)
    phone.switches_path(new, 3)
    phone.shows("COMMON-PROCEDURE-INITIATED CONNECTED ACTIVE")
    phone.completes_update(from_idle=True)
    phone.shows(IDLE)
    return trace


# --- RESET of a part of the interface (TS 36.413 clause 8.7.1) ---


def connected_at(*numbers):
    """A station with a connected phone for each of these eNB UE ids."""
    def made_for(trace):
        return [Phone(trace, slot, [Vector.made("reset %d" % slot)]) for slot in range(len(numbers))]

    trace, [station], made = begun(made_for)
    for phone, b in zip(made, numbers):
        phone.attaches(station, b)
    return trace, station, made


def goes_on(phone):
    """Its connection is there."""
    phone.updates()
    phone.completes_update(from_idle=False)
    phone.shows(CONNECTED)


def was_set_back(phone):
    """Its connection has ended without a word: the id is nobody's, and the phone is idle."""
    phone.trace.hear(phone.station, lte.release_request(phone.m, phone.b, lte.USER_INACTIVITY))
    phone.owed(lte.error_indication(lte.UNKNOWN_MME_ID, (phone.m, phone.b)))
    phone.is_gone()
    phone.shows(IDLE)


@row
def reset_of_nobody():
    """RESET of items that give no id, of ids of nobody, of an idle phone's last association and of numbers that no phone
    has: all stand in the acknowledgement in their order, and the phone that is connected stays."""
    trace, station, [phone, idle] = connected_at(1, 2)
    last = idle.m
    idle.is_released()
    trace.set_back(station, (None, None))
    trace.set_back(station, (last, None), (None, None), (last, 2), (0, None), (None, 2), (None, None), (lte.id_of_slot(0, 2), None),
                   (lte.id_of_slot(9, 1), 1), (2**32 - 1, None), (None, 2**24 - 1), (None, 0))
    idle.shows(IDLE)
    phone.shows(CONNECTED)
    goes_on(phone)
    return trace


@row
def reset_at_another_station():
    """RESET by another station than the phone's, of its id, its number and both: the phone stays. It moves there by path
    switch: now its old station's RESET leaves it, and the other's ends its connection."""
    trace, [own, other], [phone] = one_phone_at_two()
    phone.attaches(own, 1)
    trace.set_back(other, (phone.m, None), (None, 1), (phone.m, 1))
    phone.shows(CONNECTED)
    phone.switches_path(other, 9)
    trace.set_back(own, (phone.m, None), (None, 1), (phone.m, 1), (None, 9), (phone.m, 9))
    goes_on(phone)
    trace.set_back(other, (phone.m, None))
    was_set_back(phone)
    return trace


@row
def reset_of_another_pair():
    """RESET of two phones' ids, each with another number: both phones stay. With its own number one is set back; it comes
    again, as the phone that it is."""
    trace, station, [first, second] = connected_at(1, 2)
    trace.set_back(station, (first.m, 2), (second.m, 1), (first.m, 3))
    goes_on(first)
    goes_on(second)
    trace.set_back(station, (second.m, 1), (first.m, 1))
    was_set_back(first)
    goes_on(second)
    first.updates_from_idle(station, 1)
    first.completes_update(from_idle=True)
    first.shows(IDLE)
    return trace


@row
def reset_of_one_thrice():
    """RESET of an association by its id, by its id again, and by both: the phone is set back, and all three items are
    acknowledged."""
    trace, station, [phone, other] = connected_at(1, 2)
    trace.set_back(station, (phone.m, None), (phone.m, None), (phone.m, 1))
    was_set_back(phone)
    goes_on(other)
    return trace


@row
def reset_by_number_0():
    """Number 0 is a number, and MME UE S1AP ID 0 an id, which nobody has here."""
    trace, station, [phone, other] = connected_at(0, 1)
    trace.set_back(station, (0, None), (0, 0), (0, 1))
    goes_on(phone)
    trace.set_back(station, (None, 0))
    was_set_back(phone)
    goes_on(other)
    return trace


@row
def reset_of_a_part_before_setup():
    """RESET of a part by a station that is down, and by one that isn't set up: refused, and message-not-compatible. Set up,
    its RESET is acknowledged. A phone at another station stays."""
    trace, station, [phone] = connected_at(1)
    other, asked = Station(1, 2, 2, 0x201), ((phone.m, None), (None, 1))
    trace.hear(other, lte.reset(lte.part_of_interface(*asked)))
    trace.answers.append("refused 1")
    trace.say("up 1")
    trace.hear(other, lte.reset(lte.part_of_interface(*asked)))
    trace.owe("e1", other, lte.error_indication(lte.NOT_COMPATIBLE))
    trace.set_up(other, connects=False)
    trace.set_back(other, *asked)
    goes_on(phone)
    return trace


@row
def reset_while_paged():
    """A phone is paged at two stations. RESET of a part, of its last association, strikes neither: both are asked once more.
    After the paging it is paged anew, and RESET of the whole interface strikes its station."""
    trace, [own, other], [phone] = begun(lambda trace: [Phone(trace, 0)], [Station(0), Station(1, 2, 1, 0x201)])
    phone.attaches(own, 1)
    last = phone.m
    phone.is_released()
    phone.has_data_waiting([own, other])
    trace.say("tick 4")
    trace.set_back(own, (last, None), (None, 1))
    trace.set_back(other, (None, 1))
    trace.say("tick 5")
    phone.shows(IDLE)
    trace.say("tick 1")
    phone.is_paged([own, other])
    trace.say("tick 10")
    phone.shows(IDLE)
    phone.has_data_waiting([own, other])
    trace.set_back(own)
    trace.say("tick 10")
    phone.is_paged([other])
    phone.shows(IDLE)
    return trace


# What no ResetType is (X.691 clauses 11, 13, 19, 20, 23; TS 36.413 clause 9.1.8.1), and why.
NO_RESET_TYPES = (
    "40",  # a part without a list
    "4000",  # an item is announced, and there is none: a list has one at the least
    "4001005b00022001",  # two are announced, and there is one
    "4000005b0005" + "2c01000000",  # an eNB UE S1AP ID of four octets
    "4000005b0003" + "440001",  # an MME UE S1AP ID in two octets where one is enough
    "4000005b0002" + "2101",  # a padding of 1
    "4000005b0003" + "200100",  # an octet after an item
    "4000005b00022001" + "00",  # an octet after the list
    "4000005b0001" + "20",  # an item whose number is missing
    "4000005a00022001",  # an item of another element
    "4000005bc0022001",  # no criticality
    "7f00005b00022001",  # paddings of 1 before the list
    "8000",  # an alternative of a later release
)


@row
def reset_of_no_part():
    """RESET whose list can't be read: transfer-syntax-error each time, and the phone stays."""
    trace, station, [phone] = connected_at(1)
    for octets in NO_RESET_TYPES:
        trace.hear(station, lte.reset((92, bytes.fromhex(octets))))
        trace.owe("e0", station, lte.error_indication(lte.SYNTAX))
    phone.shows(CONNECTED)
    goes_on(phone)
    return trace


@row
def reset_with_more_in_an_item():
    """An item marked notify, with iE-Extensions and additions of a later release, which are passed over: the acknowledgement has
    its id alone, marked ignore."""
    trace, station, [phone] = connected_at(1)
    extensions, additions = "000100070002010200078000", "028002aabb"
    item = bytes.fromhex("d001" + extensions + additions)
    listed = bytes.fromhex("4000005b80") + lte.sized(item)
    trace.hear(station, lte.reset((92, listed)))
    trace.owe("e0", station, lte.reset_acknowledge((phone.m, None)))
    was_set_back(phone)
    return trace


def files_of(name, shows, make):
    trace = make()
    remark = " ".join(shows.split())
    return {name + ".trace": "# %s\n%s" % (remark, trace.text()), name + ".answers": trace.answer_text()}


def main():
    parser = argparse.ArgumentParser(description=__doc__, formatter_class=argparse.RawDescriptionHelpFormatter)
    parser.add_argument("--check", action="store_true")
    check = parser.parse_args().check
    other = 0
    for row_made in ROWS:
        for file_name, text in files_of(*row_made).items():
            path = os.path.join(FOLDER, file_name)
            if not check:
                with open(path, "w") as file:
                    file.write(text)
            elif not os.path.exists(path) or open(path).read() != text:
                print("not as it would be written: " + file_name)
                other += 1
    print("%d rows" % len(ROWS))
    sys.exit(1 if other else 0)


if __name__ == "__main__":
    main()
