#!/usr/bin/env python3
"""Prints a trace for `mme play` in which subscribers attach one after another on one station.

    attaches.py N [--times T] [--release] [--information] [--no-show] [--answers FILE]

Each of the N subscribers (1 to 32768) has vectors of its own and attaches by IMSI: ATTACH REQUEST, AUTHENTICATION RESPONSE,
SECURITY MODE COMPLETE, ESM INFORMATION RESPONSE where --information has the phone ask for it, INITIAL CONTEXT SETUP RESPONSE,
ATTACH COMPLETE. With --release the station then asks for the release and completes it. All do so T times (1 to 64), once where
it isn't given; at the end each is shown. FILE gets the answers that the MME owes, by the standards' formats (phones.py, lte.py).
"""
import argparse
import pathlib
import sys

if __name__ == "__main__":
    sys.path[0] = str(pathlib.Path(__file__).resolve().parent.parent)
from reference import lte, phones

MOST, MOST_TIMES = lte.SLOTS, 64


def provisioned(count, vectors=1):
    """A trace with `count` subscribers and a station that is set up: the trace, the station and the phones."""
    trace = phones.Trace(phones.Network())
    made = []
    for slot in range(count):
        own = [phones.Vector.made("%d.%d" % (slot, place)) for place in range(vectors)]
        made.append(phones.Phone(trace, slot, own))
    trace.provision(made)
    station = phones.Station(0)
    trace.set_up(station)
    return trace, station, made


def attached(count, release=False, information=False, show=True, times=1):
    """The trace of `count` attaches, one after another; the station's ids of phones count from 1."""
    trace, station, made = provisioned(count, times)
    for phone in made * times:
        phone.attaches(station, phone.slot + 1, information=information)
        if release:
            phone.is_released()
    if show:
        for phone in made:
            phone.shows(phones.IDLE if release else phones.CONNECTED)
    return trace, station, made


def main():
    parser = argparse.ArgumentParser(description=__doc__, formatter_class=argparse.RawDescriptionHelpFormatter)
    parser.add_argument("count", type=int, choices=range(1, MOST + 1), metavar="N")
    parser.add_argument("--times", type=int, choices=range(1, MOST_TIMES + 1), default=1, metavar="T")
    parser.add_argument("--release", action="store_true")
    parser.add_argument("--information", action="store_true")
    parser.add_argument("--no-show", action="store_true")
    parser.add_argument("--answers", metavar="FILE")
    given = parser.parse_args()
    trace = attached(given.count, given.release, given.information, not given.no_show, given.times)[0]
    if given.answers:
        with open(given.answers, "w") as file:
            file.write(trace.answer_text())
    sys.stdout.write(trace.text())


if __name__ == "__main__":
    main()
