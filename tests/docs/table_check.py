"""Tries each row of docs/TABLE.md by the built program, in each phase that it holds for.

A row that is missing, or stands twice, fails too: each phase has a row for each event that there is in it.
"""
import collections
import re

from tests.docs import stations, strangers, subscribers, tables
from tests.docs.answers import PROGRAM
from tests.docs.scenes import PHASES

OTHER_TABLES = {"Phases", "Groups", "Rows of several phases"}
OF_STRANGERS, OF_STATIONS = ["Every stranger"], ["Connected station"]


def machines(facts):
    """The machines in each of their phases, each with what judges a row."""
    for phase in PHASES:
        yield subscribers.machine_in(facts, phase), subscribers.judged
    for state in strangers.STATES:
        events = [name for name, (states, _) in strangers.EVENTS.items() if state in states]
        timers = ["T3470"] if state == "waiting" else []
        events += [timer + end for timer in timers for end in (" ends", " ends (repeats used up)")]
        yield subscribers.Machine("Stranger " + state, state, events, OF_STRANGERS, timers), strangers.judged
    for state in stations.PROBED:
        shared = OF_STATIONS if state != "down" else []
        yield subscribers.Machine("Station " + state, state, list(stations.EVENTS), shared, []), stations.judged


def phases_in_code():
    """The phases of a subscriber's machine, as the code names them."""
    body = re.search(r"pub enum Phase \{(.*?)\n\}", tables.text("crates/emm_state/src/solo.rt"), re.S).group(1)
    return set(re.findall(r"^    (\w+),", body, re.M))


def unmatched(rows, events):
    """The events that have no row or several, and the rows of no event."""
    found = collections.Counter(row.event for row in rows)
    for event in events:
        if found[event] != 1:
            yield "%s has %d rows" % (event, found[event])
    for event in found:
        if event not in events:
            yield "there is no event %s" % event


def unused(document, facts):
    """The rows for several phases of events that none of these has."""
    made = [machine for machine, _ in machines(facts)]
    for heading in sorted({heading for machine in made for heading in machine.shared}):
        sharing = [machine for machine in made if heading in machine.shared]
        rows = subscribers.rows_under(document, heading, sharing[0])
        for event in {row.event for row in rows}.difference(*(machine.events for machine in sharing)):
            yield "%s: there is no event %s in a phase that these rows hold for" % (heading, event)


def about_phases(document, facts):
    """What is wrong with the phases' names and the headings."""
    named = {phase.split()[0] for phase in facts.words}
    for phase in named ^ phases_in_code():
        yield "Phases: %s isn't there, or not in the code" % phase
    for phase in set().union(*facts.shared.values()) - set(PHASES):
        yield "Rows of several phases: there is no phase %s" % phase
    known = OTHER_TABLES.union(*({machine.heading, *machine.shared} for machine, _ in machines(facts)))
    for heading in known ^ set(document):
        yield "%s: a table that is missing, or is no machine's" % heading


def checked(wanted=()):
    """How many rows passed and failed, of the headings that are wanted, or of all; prints each that failed."""
    if not PROGRAM.exists():
        print("FAILED TABLE.md: the program isn't built: ./mme --prove")
        return 0, 1
    document, profile = tables.read("docs/TABLE.md"), tables.read("docs/PROFILE.md")
    facts = subscribers.Facts(document, profile)
    passed, faults, untried = 0, [*about_phases(document, facts), *unused(document, facts)], set(wanted)
    for machine, judge in machines(facts):
        if wanted and machine.heading not in wanted:
            continue
        untried.discard(machine.heading)
        try:
            rows = subscribers.rows_of(document, machine)
        except ValueError as fault:
            rows = []
            faults.append("%s: a row with too few cells: %s" % (machine.heading, fault))
        faults += ["%s: %s" % (machine.heading, fault) for fault in unmatched(rows, machine.events)]
        for row in rows:
            fault = judge(row, facts) if row.event in machine.events else None
            passed += not fault
            faults += ["%s, %s: %s" % (machine.heading, row.event, fault)] if fault else []
    faults += ["%s: no phase has this heading" % heading for heading in sorted(untried)]
    for fault in faults:
        print("FAILED TABLE.md, " + fault)
    return passed, len(faults)
