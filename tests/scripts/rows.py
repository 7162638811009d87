#!/usr/bin/env python3
"""Writes what the scripts here and in examples/ owe: examples/NAME.trace; NAME.script, NAME.expect, and where the program has to end
with another status than 0, NAME.status with it and the text.

    rows.py [--check]

With --check nothing is written: the files that are there must be those that would be written. Octets come from the standards'
formats (reference/scripts.py), and those of worked rows, which stand here as they are, besides; none from the program's output.
"""
import argparse
import pathlib
import sys

HERE = pathlib.Path(__file__).resolve().parent
TOP = HERE.parent.parent
sys.dont_write_bytecode = True
if __name__ == "__main__":
    sys.path[0] = str(TOP)
from reference import lte, scripts
from reference.phones import KNOWN_VECTOR, Network, Station, Vector

ONE, TWO, NOBODY = "001010000000001", "001010000000002", "001010000000009"
MME = "mme 001 01 8001 01 internet 1000000000 1000000000"
SUBSCRIBERS = ["sub %s 0a000001 0a000064 00000001" % ONE, "sub %s 0a000002 0a000064 00000002" % TWO]
PROVIDED = [MME, *SUBSCRIBERS, *(KNOWN_VECTOR.words(imsi) for imsi in (ONE, TWO))]
STATION = "station 0 00001 0001"
SET_UP = PROVIDED + [STATION, "up 0"]
ATTACHED = SET_UP + ["attach %s 0 1" % ONE]
LONGEST = 40000
# Worked answers: what is sent at the row's event.
ERROR = "# out e0 0 000f40080000010002400130"
CHALLENGE = "075200000102030405060708090a0b0c0d0e0f10101112131415161718191a1b1c1d1e1f"
ASKED = "# out s0 0 000b4038000003000000020001000800020001001a002524" + CHALLENGE
GIVEN_UP = "# out s0 0 001700100000020063000400010001" + "0002400126"
SETUP_ANSWER = "201100170000020069000b000000f11000008001000100574001ff"

ROWS = {}


class Row:
    """A script; its line that is at fault, from 1, and the fault; its answers in the order of a worked row, if it is one; what it
    prints, where reference/scripts.py doesn't know the answer."""

    def __init__(self, lines, fault=None, answers=None, printed=None, text=None):
        self.text = "".join(line + "\n" for line in lines) if text is None else text
        self.fault, self.answers, self.printed = fault, answers, printed

    def expected(self):
        lines = self.text.split("\n") if self.fault is None else self.text.split("\n")[:self.fault[0] - 1]
        owed = scripts.owed("\n".join(lines)) if self.printed is None else "".join(line + "\n" for line in self.printed)
        if self.answers is not None:
            assert [line for line in owed.split("\n") if line.startswith("# ")] == self.answers, owed
        return owed

    def status(self):
        return self.fault and "1 mme: line %d: fault %d\n" % self.fault


def row(name, lines=(), **more):
    assert name not in ROWS
    ROWS[name] = Row(lines, **more)


def faulty(name, line, fault, before=SET_UP):
    """A row whose line after these is at fault."""
    row(name, [*before, line, "show " + ONE], fault=(len(before) + 1, fault))


def owed_lines(lines):
    return scripts.owed("\n".join(lines)).splitlines()


# ---- worked rows

row("sim_setup", SET_UP, answers=["# out e0 0 " + SETUP_ANSWER])
row("attach_unanswered", SET_UP + ["deaf " + ONE, "attach %s 0 1" % ONE, "tick 30", "show " + ONE],
    answers=["# out e0 0 " + SETUP_ANSWER] + [ASKED] * 5 + [GIVEN_UP, "# state %s DEREGISTERED IDLE INACTIVE" % ONE])
# Both phones are number 1 of their station.
row("two_on_one_radio_id", SET_UP + [
    "deaf " + TWO, "attach %s 0 1" % TWO, "info %s 0 1" % ONE, "tick 6", "idle " + ONE, "tick 6", "service %s 0 1" % ONE, "tick 18",
    "show " + ONE, "show " + TWO])
row("two_in_turn", SET_UP + [
    "info %s 0 1" % ONE, "attach %s 0 1" % TWO, "idle " + ONE, "tau %s 0 1" % TWO, "service %s 0 1" % ONE, "idle " + TWO,
    "tau %s 0 1" % ONE, "data " + TWO, "detach " + ONE, "service %s 0 1" % TWO, "show " + ONE, "show " + TWO, "off " + TWO,
    "show " + TWO])
COMPLETED = "in 0 000d4037000005000000020001000800020001001a000e0d1740af7a0901074300035200c2006440080000f11000001010004340060000f1100001"
row("lies_behind_an_attach", ATTACHED + ["replay " + ONE, "forge " + ONE], printed=owed_lines(ATTACHED) + [
    COMPLETED, COMPLETED.replace("0901074300", "0902074300")])
UNKNOWN_ID = "000d403000000500000005c0ffffffff000800020001001a0004030760" + "61006440080000f11000001010004340060000f1100001"
row("raw", SET_UP + ["raw 0 -", "raw 0 " + UNKNOWN_ID, "raw 1 -"], answers=[
    "# out e0 0 " + SETUP_ANSWER, ERROR,
    "# out x127.16777215 0 000f401800000300004005c0ffffffff0008400200010002400201a0", "# refused 1"])
ID_IN_TWO = "000d402e00000500000003400001000800020001001a000403076061006440080000f11000001010004340060000f1100001"
NAMED = "00110026000004003b00080000f11000000010003c40030000650040000700000040" + "00f1100089400140"
row("raw_worked", SET_UP + ["raw 0 " + ID_IN_TWO, "raw 0 " + NAMED.upper()], printed=owed_lines(SET_UP) + [
    "in 0 " + ID_IN_TWO, ERROR, "in 0 " + NAMED, "# out e0 0 " + SETUP_ANSWER])
CHALLENGED = SET_UP + ["deaf " + ONE, "attach %s 0 1" % ONE]
ELSEWHERE = CHALLENGED[:6] + ["station 1 00001 0001"] + CHALLENGED[6:] + ["up 1"]
OTHER_STATION = "000d402d000005000000020001000800020001001a000403076061006440080000f11000001010004340060000f1100001"
row("id_at_other_station", ELSEWHERE + ["raw 1 " + OTHER_STATION, "show " + ONE], printed=owed_lines(ELSEWHERE) + [
    "in 1 " + OTHER_STATION, "# out s0 1 000f40150000030000400200010008400200010002400201e0",
    "show " + ONE, "# state %s COMMON-PROCEDURE-INITIATED CONNECTED INACTIVE" % ONE])
OTHERS_IMSI = "000d4035000005000000020001000800020001001a000c0b0756080910100000000020006440080000f11000001010004340060000f1100001"
row("identity_on_other_id", CHALLENGED + ["raw 0 " + OTHERS_IMSI, "show " + ONE, "show " + TWO], printed=owed_lines(CHALLENGED) + [
    "in 0 " + OTHERS_IMSI, "show " + ONE, "# state %s COMMON-PROCEDURE-INITIATED CONNECTED INACTIVE" % ONE,
    "show " + TWO, "# state %s DEREGISTERED IDLE INACTIVE" % TWO])
NO_ASSOCIATION = ("00030041000006000800020007" + "0016000f000017000a0a1fc0a8000100000009" + "005800020005"
                  + "006440080000f11000002010004340060000f1100001006b400518000c0000")
row("raw_path_switch", SET_UP + ["raw 0 " + NO_ASSOCIATION], printed=owed_lines(SET_UP) + [
    "in 0 " + NO_ASSOCIATION, "# out s0 0 400300150000030000400200050008400200070002400201a0"])

# RESET of the first phone's id, of a number that nobody has, and of nothing; what a station sends so, it doesn't take in itself.
BOTH_ATTACHED = ATTACHED + ["attach %s 0 2" % TWO]
LISTED = (1, None), (None, 9), (None, None)
PART, PAIR = lte.reset(lte.part_of_interface(*LISTED)).hex(), (1, 1)
row("raw_reset_of_a_part", BOTH_ATTACHED + ["raw 0 " + PART, "show " + ONE, "show " + TWO, "idle " + ONE],
    printed=owed_lines(BOTH_ATTACHED) + [
        "in 0 " + PART, "# out e0 0 " + lte.reset_acknowledge(*LISTED).hex(),
        "show " + ONE, "# state %s REGISTERED IDLE ACTIVE" % ONE, "show " + TWO, "# state %s REGISTERED CONNECTED ACTIVE" % TWO,
        "in 0 " + lte.release_request(*PAIR, lte.USER_INACTIVITY).hex(),
        "# out s0 0 " + lte.error_indication(lte.UNKNOWN_MME_ID, PAIR).hex()])

# ---- scripts that end well

row("empty", text="")
row("comments_alone", ["# nothing", "", "#", "# at all\r"])
row("no_last_line_feed", text="\n".join(ATTACHED + ["show " + ONE]))
row("empty_lines", ["", MME, "", "# a comment", "", STATION, "", "up 0", ""])
row("not_given", SET_UP + [
    "station 0 00002 0001", "up 1", "attach %s 1 1" % ONE, "attach %s 0 1" % NOBODY, "deaf " + NOBODY, "idle " + NOBODY,
    "detach " + NOBODY, "off " + NOBODY, "replay " + NOBODY, "forge " + NOBODY, "service %s 0 1" % NOBODY, "lost 1",
    "data " + NOBODY, "cancel " + NOBODY])
row("not_attached", SET_UP + [
    "service %s 0 1" % ONE, "tau %s 0 1" % ONE, "switch %s 0 1" % ONE, "detach " + ONE, "off " + ONE, "idle " + ONE, "replay " + ONE,
    "forge " + ONE, "data " + ONE, "cancel " + ONE, "show " + ONE])
row("not_connected", ATTACHED + ["idle " + ONE, "idle " + ONE, "switch %s 0 2" % ONE, "replay " + ONE, "forge " + ONE, "show " + ONE])
row("not_up", PROVIDED + [STATION, "attach %s 0 1" % ONE, "lost 0", "raw 0 00", "up 0", "lost 0", "attach %s 0 1" % ONE])
row("after_a_loss", ATTACHED + [
    "lost 0", "show " + ONE, "idle " + ONE, "service %s 0 1" % ONE, "up 0", "service %s 0 1" % ONE, "show " + ONE])
row("up_again", ATTACHED + ["up 0", "show " + ONE, "idle " + ONE, "service %s 0 1" % ONE, "show " + ONE])
row("spellings", [MME.replace("8001 01", "80fF 0A"), SUBSCRIBERS[0].upper().replace("SUB", "sub"),
                  KNOWN_VECTOR.words(ONE).upper().replace("VEC", "vec"), "station 000 0000A fFFe", "up 00", "attach %s 0 007" % ONE,
                  "tick 003", "data " + ONE, "lost 00"])
row("paged_then_serves", ATTACHED + ["idle " + ONE, "data " + ONE, "data " + ONE, "tick 9", "tick 1", "tick 11", "data " + ONE,
                                     "service %s 0 1" % ONE, "tick 11", "show " + ONE])
row("unreachable", ATTACHED + ["idle " + ONE, "tick 3479", "show " + ONE, "tick 1", "show " + ONE, "service %s 0 2" % ONE])
row("imsi_of_14", [MME, "sub 00101000000001 0a000001 0a000064 00000001", KNOWN_VECTOR.words("00101000000001"), STATION, "up 0",
                   "attach 00101000000001 0 1", "show 00101000000001"])
row("network_code_of_3", ["mme 310 260 8a01 c7 ims 256000 10000000000", "sub 310260123456789 0a000001 0a000064 00000001",
                          KNOWN_VECTOR.words("310260123456789"), STATION, "up 0", "info 310260123456789 0 1",
                          "tau 310260123456789 0 1", "idle 310260123456789", "data 310260123456789"])
for length in (4, 16):
    row("res_of_%d" % length, [MME, SUBSCRIBERS[0], Vector.made("RES of %d octets" % length, length).words(ONE), STATION, "up 0",
                               "attach %s 0 1" % ONE, "show " + ONE])
VECTORS = [Vector.made("vector %d" % place) for place in range(9)]
MANY = [MME, SUBSCRIBERS[0], *(vector.words(ONE) for vector in VECTORS), STATION, "up 0"]
row("attach_again", MANY + [
    "attach %s 0 1" % ONE, "attach %s 0 2" % ONE, "info %s 0 2" % ONE, "idle " + ONE, "foreign %s 0 3" % ONE, "off " + ONE,
    "attach %s 0 4" % ONE, "detach " + ONE, "attach %s 0 5" % ONE, "lost 0", "up 0", "attach %s 0 6" % ONE, "cancel " + ONE,
    "attach %s 0 7" % ONE, "tau %s 0 7" % ONE, "attach %s 0 8" % ONE, "show " + ONE, "attach %s 0 9" % ONE, "show " + ONE])
row("switch_nine_times", ATTACHED[:6] + ["station 1 00002 0001"] + ATTACHED[6:] + ["up 1"]
    + ["switch %s %d %d" % (ONE, (turn + 1) % 2, 10 + turn) for turn in range(9)] + ["service %s 1 3" % ONE, "switch %s 0 4" % ONE])
row("farthest", [MME, SUBSCRIBERS[0], KNOWN_VECTOR.words(ONE), "station 127 fffff fffe", "up 127", "attach %s 127 16777215" % ONE,
                 "idle " + ONE, "foreign %s 127 16777215" % ONE, "service %s 127 0" % ONE, "tick 31"])
row("deaf_when_detached", ATTACHED + ["deaf " + ONE, "cancel " + ONE, "tick 29", "show " + ONE, "tick 1", "show " + ONE])
TWO_STATIONS = ATTACHED[:6] + ["station 1 00002 0002"] + ATTACHED[6:-1] + ["up 1"]
row("switch_where_it_is", ATTACHED + ["switch %s 0 1" % ONE, "switch %s 0 1" % ONE, "replay " + ONE, "idle " + ONE])
row("switch_of_a_stranger", TWO_STATIONS + [
    "foreign %s 0 1" % ONE, "switch %s 1 2" % ONE, "tau %s 0 1" % ONE, "switch %s 0 1" % ONE, "idle " + ONE, "detach " + ONE,
    "foreign %s 0 1" % TWO, "replay " + TWO, "off " + TWO])
row("switch_while_challenged", TWO_STATIONS + [
    "deaf " + ONE, "attach %s 0 1" % ONE, "switch %s 1 2" % ONE, "tick 6", "idle " + ONE, "show " + ONE, "detach " + ONE, "show " + ONE])
row("detach_while_challenged", SET_UP + [
    "deaf " + ONE, "deaf " + TWO, "attach %s 0 1" % ONE, "attach %s 0 2" % TWO, "detach " + ONE, "off " + TWO, "show " + ONE,
    "show " + TWO, "tick 31"])
row("cancel_while_challenged", SET_UP + ["deaf " + ONE, "attach %s 0 1" % ONE, "cancel " + ONE, "cancel " + ONE, "tick 31", "show " + ONE])
row("lost_while_challenged", SET_UP + ["deaf " + ONE, "attach %s 0 1" % ONE, "lost 0", "show " + ONE, "tick 6", "up 0", "detach " + ONE])
row("deaf_updates", ATTACHED + [
    "deaf " + ONE, "tau %s 0 1" % ONE, "tick 7", "service %s 0 2" % ONE, "show " + ONE, "tick 6", "idle " + ONE, "tau %s 0 3" % ONE,
    "show " + ONE, "tick 3", "idle " + ONE, "show " + ONE, "tick 31", "tau %s 0 4" % ONE, "tick 30", "show " + ONE, "data " + ONE,
    "service %s 0 5" % ONE, "detach " + ONE])
row("from_station_to_station", TWO_STATIONS[:4] + [VECTORS[0].words(ONE)] + TWO_STATIONS[4:] + [
    "attach %s 0 1" % ONE, "info %s 1 1" % ONE, "tau %s 0 1" % ONE, "service %s 1 2" % ONE, "tau %s 1 2" % ONE, "switch %s 0 3" % ONE,
    "tau %s 0 3" % ONE, "service %s 0 3" % ONE, "service %s 1 3" % ONE, "attach %s 0 4" % TWO, "switch %s 0 4" % ONE, "forge " + TWO,
    "idle " + ONE, "detach " + TWO, "off " + ONE])
CROWD = ["00101%010d" % (at + 1) for at in range(70)]
row("dropped", [MME, *("sub %s 0a%06x 0a000064 %08x" % (imsi, at, at) for at, imsi in enumerate(CROWD)),
                *(KNOWN_VECTOR.words(imsi) for imsi in CROWD), STATION, "up 0", *("deaf " + imsi for imsi in CROWD),
                *("attach %s 0 %d" % (imsi, at) for at, imsi in enumerate(CROWD)), "tick 31", "show " + CROWD[69]])
row("longest_comment", [MME, "#" * LONGEST, STATION, "up 0"])
FULL = "raw 0 " + "ff" * ((LONGEST - 6) // 2)
row("longest_raw", SET_UP + [FULL], printed=owed_lines(SET_UP) + [FULL.replace("raw", "in"), ERROR])

# ---- faults

for name, line, fault in (
        ("unknown_word", "fly 0", 1), ("word_in", "in 0 -", 1), ("word_of_other_case", "Up 0", 1), ("leading_space", " up 0", 1),
        ("space_alone", " ", 1), ("tab", "up\t0", 1), ("carriage_return_alone", "\r", 1),
        ("few_fields", "attach %s 0" % ONE, 2), ("many_fields", "idle %s 0" % ONE, 2), ("two_spaces", "up  0", 2),
        ("trailing_space", "deaf %s " % ONE, 2), ("no_field", "forge", 2), ("fields_before_numbers", "station 128 0", 2),
        ("station_128", "up 128", 3), ("station_no_number", "lost x", 3), ("station_id_of_4", "station 1 0001 0001", 3),
        ("station_id_no_hex", "station 1 0000g 0001", 3), ("area_of_5", "station 1 00001 00001", 3),
        ("area_no_hex", "station 1 00001 000g", 3), ("phone_number_of_25_bits", "attach %s 0 16777216" % ONE, 3),
        ("imsi_of_13", "idle 0010100000001", 3), ("imsi_no_digits", "service x 0 1", 3), ("tick_0", "tick 0", 3),
        ("tick_1000001", "tick 1000001", 3), ("carriage_return", "up 0\r", 3), ("raw_half_octet", "raw 0 0", 4),
        ("raw_no_hex", "raw 0 0g", 4), ("raw_station_first", "raw 128 0g", 3), ("long_line", FULL + "0", 5),
        ("long_comment", "#" * (LONGEST + 1), 5), ("length_before_word", "y" * (LONGEST + 1), 5),
        ("mme_behind_event", MME, 6), ("sub_behind_event", SUBSCRIBERS[0], 6), ("vec_behind_event", KNOWN_VECTOR.words(ONE), 6),
        ("form_before_order", "sub x y", 2), ("show_of_nobody", "show " + NOBODY, 7)):
    faulty(name, line, fault)
for name, before, line in (
        ("attach_before_mme", [], "attach %s 0 1" % ONE), ("station_before_mme", [], STATION), ("up_before_mme", ["# first"], "up 0"),
        ("deaf_before_mme", ["", ""], "deaf " + ONE), ("tick_before_mme", [], "tick 1"), ("show_before_mme", [], "show " + ONE),
        ("raw_before_mme", [], "raw 0 -"), ("sub_before_mme", [], SUBSCRIBERS[0]), ("mme_twice", [MME], MME),
        ("sub_behind_station", [MME, STATION], SUBSCRIBERS[0]), ("vec_behind_station", PROVIDED + [STATION], KNOWN_VECTOR.words(ONE)),
        ("sub_behind_deaf", PROVIDED + ["deaf " + ONE], "sub %s 0a000009 0a000064 00000009" % NOBODY),
        ("sub_behind_skipped", PROVIDED + ["up 3"], "sub %s 0a000009 0a000064 00000009" % NOBODY),
        ("sub_behind_show", PROVIDED + ["show " + ONE], "sub %s 0a000009 0a000064 00000009" % NOBODY)):
    faulty(name, line, 6, before)
faulty("sub_twice", SUBSCRIBERS[0], 7, [MME, SUBSCRIBERS[0]])
faulty("address_twice", SUBSCRIBERS[0].replace(ONE, TWO), 7, [MME, SUBSCRIBERS[0]])
faulty("vec_of_nobody", KNOWN_VECTOR.words(NOBODY), 7, [MME, SUBSCRIBERS[0]])
faulty("vec_65", KNOWN_VECTOR.words(ONE), 7, [MME, SUBSCRIBERS[0]] + [KNOWN_VECTOR.words(ONE)] * 64)
faulty("sub_address_of_3", "sub %s 0a0001 0a000064 00000001" % ONE, 4, [MME])
row("fault_without_last_line_feed", text="\n".join(SET_UP + ["up"]), fault=(8, 2))
row("fault_behind_an_attach", ATTACHED + ["data " + ONE, "fly", "idle " + ONE], fault=(10, 1))


def files():
    """Each file's path and text."""
    for path in sorted((TOP / "examples").glob("*.script")):
        yield path.with_suffix(".trace"), scripts.owed(path.read_text())
    for name, made in ROWS.items():
        yield HERE / (name + ".script"), made.text
        yield HERE / (name + ".expect"), made.expected()
        if made.status():
            yield HERE / (name + ".status"), made.status()


def unlike():
    """The files that aren't as they would be written, and those that nothing writes."""
    written = dict(files())
    known = {path for path in HERE.glob("*.*") if path.suffix in (".script", ".expect", ".status")}
    strange = known - set(written)
    return [path for path, text in written.items() if not path.exists() or path.read_bytes() != text.encode()] + sorted(strange)


def main():
    parser = argparse.ArgumentParser(description=__doc__, formatter_class=argparse.RawDescriptionHelpFormatter)
    parser.add_argument("--check", action="store_true")
    if parser.parse_args().check:
        found = unlike()
        for path in found:
            print("not as it would be written: %s" % path.relative_to(TOP))
        return 1 if found else 0
    for path, text in files():
        path.write_bytes(text.encode())
    print("%d rows" % len(ROWS))
    return 0


if __name__ == "__main__":
    sys.exit(main())
