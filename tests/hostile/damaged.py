"""The messages of the worked rows cut to each shorter length and with each bit turned: S1AP at a station that is ready, NAS in its
message at its place in the row, and both by the calculator.
"""
import os
import subprocess
from concurrent.futures import ThreadPoolExecutor

from tests.hostile import compare, laboratory, program, standards, worked
from tests.hostile.lies import turned
from tests.hostile.standards import lte, phones
from tests.parts import calculator

# ERROR INDICATION, protocol transfer-syntax-error (TS 36.413 clauses 8.7.2, 10.2)
SYNTAX_ERROR = bytes.fromhex("000f40080000010002400130")
DEREGISTERED = "DEREGISTERED IDLE INACTIVE"
SECONDS = 3600  # for a run of the calculator, which takes minutes of the processor and gives way to all else in the gate


def cuts(octets):
    return [octets[:size] for size in range(len(octets))]


def turns(octets):
    return [turned(octets, place) for place in range(8 * len(octets))]


# --- S1AP through the MME ---


class Ward:
    """An MME whose subscribers are registered and connected, being authenticated, idle, and not attached."""

    def __init__(self):
        self.trace = phones.Trace()
        self.station = phones.Station(0)
        self.phones = [phones.Phone(self.trace, slot, [phones.Vector.made("ward %d" % slot)]) for slot in range(4)]
        self.trace.provision(self.phones)
        self.trace.set_up(self.station)
        connected, asked, idle, _ = self.phones
        connected.attaches(self.station, 1)
        idle.attaches(self.station, 2)
        idle.is_released()
        asked.asks_to_attach(self.station, 2)
        self.states = [phones.CONNECTED, phones.UNDER_WAY, phones.IDLE, DEREGISTERED]

    def shows(self):
        for phone, states in zip(self.phones, self.states):
            phone.shows(states)

    def is_cut(self, octets):
        """A cut message; owed the one ERROR INDICATION, and nobody's states change."""
        self.trace.hear(self.station, octets)
        if not octets:
            self.trace.lines[-1] += "-"
        self.trace.owe("e0", self.station, SYNTAX_ERROR)
        self.shows()

    def goes_on(self):
        """What was under way goes on: an attach to its end, an area update, and an attach of the last."""
        connected, asked, _, new = self.phones
        asked.authenticates()
        asked.completes_security()
        asked.context_is_set_up()
        asked.completes_attach()
        connected.updates()
        connected.completes_update(from_idle=False)
        new.attaches(self.station, 3)
        self.states[1] = self.states[3] = phones.CONNECTED
        self.shows()


def cut_at_station(messages):
    """How many cut messages aren't answered as they are to be, of how many."""
    ward, count = Ward(), 0
    for octets in messages:
        for cut in cuts(octets):
            ward.is_cut(cut)
            count += 1
    ward.goes_on()
    got = program.play(ward.trace.lines)
    wrong = sum(line != wanted for line, wanted in zip(got, ward.trace.answers)) + abs(len(got) - len(ward.trace.answers))
    return wrong, count


def turned_at_station(messages):
    """The first difference between all and each alone where each message comes with each bit turned; and how many there were."""
    names = worked.Names(laboratory.NETWORK, [phone.imsi for phone in Ward().phones])
    count, found = 0, None
    for at in range(0, len(messages), 16):
        ward = Ward()
        provisioning = [line for line in ward.trace.lines if line.split(" ")[0] in worked.PROVISIONING]
        events = [line for line in ward.trace.lines if line.split(" ")[0] in worked.EVENTS]
        others = [octets for message in messages[at:at + 16] for octets in turns(message)]
        events += ["in 0 " + octets.hex() for octets in others]
        count += len(others)
        run = compare.played(names, provisioning, [phone.imsi for phone in ward.phones], events)
        found = found or run.difference(1)
    return found, count


# --- NAS in its message, at its place in the row ---


def variants(rows):
    """For each NAS message that is heard in a row: the row, the place, and the message with each damaged NAS. What stands before
    a message is the same in many rows, which then count once."""
    seen = set()
    for row in rows:
        for place, event in enumerate(row.events):
            octets = worked.octets_in(event) if event.startswith("in ") else b""
            nas = worked.nas_of(octets) if octets else None
            before = tuple(row.provisioning), tuple(row.events[:place + 1])
            if nas is None or before in seen:
                continue
            seen.add(before)
            for other in cuts(nas) + turns(nas):
                yield row, place, worked.with_nas(octets, other)


def nas_in_place(rows, stride=1, first=0):
    """The first difference where each damaged NAS message stands in place of its own, or every Nth; and how many there were."""
    count, found = 0, None
    for number, (row, place, octets) in enumerate(variants(rows)):
        if number % stride != first:
            continue
        count += 1
        station = row.events[place].split(" ")[1]
        events = row.events[:place] + ["in %s %s" % (station, octets.hex())] + row.events[place + 1:]
        run = compare.played(row.names, row.provisioning, row.imsis, events)
        differs = run.stirred or next(filter(None, map(run.difference_of, run.owners()[0])), None)
        found = found or differs and (row.name, place, events[place], differs)
    return found, count


# --- By the calculator ---


def answered(calls, built):
    """What one run of the built calculator answers to each call."""
    done = subprocess.run([built], input="".join(call + "\n" for call in calls).encode(), stdout=subprocess.PIPE, timeout=SECONDS,
                          check=False)
    lines = done.stdout.decode().splitlines()
    if done.returncode or len(lines) != len(calls):
        raise program.Ended("the calculator: status %d, %d lines for %d calls" % (done.returncode, len(lines), len(calls)))
    return lines


def asked(calls):
    """What the calculator answers to each call, each of which stands alone: by a run for each processor, at once."""
    built, lanes, lines = calculator.program(), len(os.sched_getaffinity(0)), [None] * len(calls)
    with ThreadPoolExecutor(lanes) as pool:
        parts = pool.map(lambda lane: answered(calls[lane::lanes], built), range(lanes))
        for lane, answers in enumerate(parts):
            lines[lane::lanes] = answers
    return lines


def turned_by_calculator(of_rows):
    """The calls that turn each bit of each message, but for those of tests/parts, and what each must be answered with."""
    calls = [("s1ap_turned", octets) for octets in worked.messages(of_rows)]
    calls += [("turned " + kind, octets) for kind, octets in worked.nas_messages(of_rows)]
    known = {call: worked.tried_in_parts(call) for call in {call for call, _ in calls}}
    return [("%s %s" % (call, octets.hex()), "%d turned, 0 unstable" % (8 * len(octets))) for call, octets in calls
            if octets.hex() not in known[call]]


def cut_by_calculator(of_rows):
    """NAS messages cut to each shorter length: how many are read, and how many of these aren't read the same once written."""
    calls = [(kind, cut) for kind, octets in worked.nas_messages(of_rows) for cut in cuts(octets)[1:]]
    again, wanted = [], []
    for (kind, cut), answer in zip(calls, asked([call_of(kind, cut) for kind, cut in calls])):
        if not answer.startswith("fault "):
            text, _, written = answer.rpartition("; written ")
            again.append(call_of(kind, cut if written == "same" else bytes.fromhex(written)))
            wanted.append(text + "; written same")
    wrong = sum(answer != text for answer, text in zip(asked(again), wanted)) if again else 0
    return wrong, len(again), len(calls)


def call_of(kind, octets):
    return ("esm " if kind == "esm" else "emm %s " % kind) + octets.hex()
