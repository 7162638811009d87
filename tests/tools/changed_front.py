#!/usr/bin/env python3
"""A front that is changed in a way: changed_front.py CHANGE.. run WORD.. Each change is one of these.

    hurried    a standby leads after a shorter silence, which is still many ticks of a test; the store's size is looked at often
    hasty      a silence that is shorter still, so that a leader on a busy machine may be taken to be gone
    lenient    a longer silence, in which a leader begins on a busy machine too
    patient    a leader waits longer for the store, as tests have to on a machine with other work
    brief      few lines are given at a time, and a leader waits a shorter time for the store
    ahead      its time of day is an hour later
    unheld     answers go out before their turn is committed, which has to be found
    unfenced   a turn is written whoever leads, which has to be found
    waiting    messages are held longer for vectors, as tests have to on a machine with other work
    restless   the front looks often whether a snapshot is due, and rests a shorter time after each
    parted     snapshots in the store have many small parts
    greedy     the turns before the newer snapshot in the store go, which has to be found
    premature  a snapshot in the store is named before its parts are there, which has to be found
    hanging    the loop turns no more once a station sends f5
"""
import datetime
import json
import pathlib
import sys
import time

sys.dont_write_bytecode = True
if __name__ == "__main__":
    TOP = pathlib.Path(__file__).resolve().parents[2]
    sys.path[0] = str(TOP)
    sys.path.append(str(TOP / "python"))
from tools.fronting import command, crowd, exchange, front, limits, resuming, standby, stored, storing

SILENCE_SECONDS, SHORTER, LONGER, UNCOMMITTED_SECONDS = 1, 0.3, 15, 60
HANGING_SECONDS, HELD_SECONDS, RESTLESS_SECONDS, BRIEF_SECONDS = 1, 30, 0.05, 2
PART_OCTETS, PART_SECONDS, PREMATURE_SECONDS = 64, 0.02, 5


def hurried():
    limits.SILENCE_SECONDS, limits.ROOM_SECONDS = SILENCE_SECONDS, 0.2


def hasty():
    limits.SILENCE_SECONDS = SHORTER


def lenient():
    limits.SILENCE_SECONDS = LONGER


def patient():
    limits.UNCOMMITTED_SECONDS = UNCOMMITTED_SECONDS


def brief():
    limits.UNCOMMITTED_SECONDS = BRIEF_SECONDS


def ahead():
    def later():
        return (datetime.datetime.now(datetime.timezone.utc) + datetime.timedelta(hours=1)).strftime(resuming.TIME_FORMAT)

    resuming.clock = standby.clock = stored.clock = later


def unheld():
    exchange.Exchange.do = lambda self, turn, act, *given: act(*given)


def unfenced():
    step = stored.Scheme.step
    stored.Scheme.step = lambda self, *given: json.dumps({**json.loads(step(self, *given)), "compare": []}).encode()


def waiting():
    limits.HELD_SECONDS = HELD_SECONDS


def restless():
    front.CARE_SECONDS = limits.SNAPSHOT_REST = limits.SNAPSHOT_AGAIN = RESTLESS_SECONDS
    limits.SNAPSHOT_SHARE, limits.SNAPSHOT_LEAST = 0, 1


def parted():
    write, storing.Deposit.PIECE = storing.Deposit.write, PART_OCTETS

    def slow(self, octets):
        write(self, octets)
        time.sleep(PART_SECONDS)

    storing.Deposit.write = slow


def greedy():
    clear_turns = storing.Deposit.clear_turns
    storing.Deposit.clear_turns = lambda self, last: clear_turns(self, self.moment.number)


def premature():
    waiting, go_on, name = [], storing.Deposit.go_on, storing.Deposit.name

    def named(self):
        name(self)
        time.sleep(PREMATURE_SECONDS)
        for part in waiting:
            go_on(self, *part)

    storing.Deposit.go_on, storing.Deposit.name = lambda self, *part: waiting.append(part), named


def hanging():
    limits.HANGING_SECONDS, put = HANGING_SECONDS, crowd.Crowd.put

    def hangs(self, stations, messages):
        if b"\xf5" in messages:
            time.sleep(3600)
        put(self, stations, messages)

    crowd.Crowd.put = hangs


CHANGES = {change.__name__: change for change in (hurried, hasty, lenient, patient, brief, ahead, unheld, unfenced, waiting,
                                              restless, parted, greedy, premature, hanging)}

if __name__ == "__main__":
    while sys.argv[1] in CHANGES:
        CHANGES[sys.argv.pop(1)]()
    sys.exit(command.main(""))
