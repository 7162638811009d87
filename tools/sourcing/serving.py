"""`tools/vectors serve`: a source of the vectors of test SIMs, whose sequence numbers it keeps."""
import argparse
import collections
import contextlib
import os
import signal

from tools import versions

from tools.sourcing import asking, milenage, private, sims
from tools.sourcing.asking import LATER, UNKNOWN, VECTORS, Refused
from tools.sourcing.saying import Voice
from tools.sourcing.store import Store
from tools.sourcing.words import SQN_OCTETS, Fault

INPUT, OUTPUT = 0, 1
FIRST_SQN = milenage.stepped(0, 1)  # of a SIM whose line has none
MOST_AT_ONCE = 256  # vectors whose SQNs are taken in one transaction
WRONG = 2  # the status where words or files are wrong, or nobody reads the answers
NOT_FOR_EPS = "SIMs whose AMF has a separation bit of 0: %d; a phone refuses their vectors in EPS (TS 33.401 clause 6.1.2)"

DESCRIPTION = """Answers requests on standard input by authentication vectors of test SIMs on standard output.

SIMS has a line `IMSI K OPc` or `IMSI K OPc SQN` for each SIM, as with --sims; op=OP may stand in place of OPc, and amf=AMF after
the IMSI (default 8000). STORE keeps the next SQN of each SIM; it is made if it isn't there. Both have to be their owner's alone
(mode 600).

A request is a line `vectors IMSI COUNT MCC MNC`, with 1 to 64 for COUNT and the serving network as in the trace's `mme` line:

    vectors 001010000000001 4 001 01

It is answered by as many lines `vec IMSI RAND AUTN XRES KASME`, by `unknown IMSI` if SIMS doesn't have the SIM, or by `later IMSI`
if there are no vectors now; standard error says why. If a phone refused a challenge for its SQN, `vectors IMSI COUNT MCC MNC RAND
AUTS` asks for vectors after the phone's own SQN, with the challenge's RAND and what the phone answered. `registered IMSI` and
`gone IMSI` are answered by the same line, and nothing else is done.

SQN is SEQ and after it IND, of 5 bits (TS 33.102 annex C.3): from one vector to the next, SEQ is one more and IND goes round. A SIM
begins with the SQN of its line, otherwise with 000000000021. An SQN is in STORE and on disk before it is handed out, so none is
handed out twice. Several sources may use a STORE at once.
"""


class Wanted(collections.namedtuple("Wanted", "request sim least")):
    """Vectors that a request asks for, whose first SQN is at least this one."""


class Source:
    """Answers requests for the SIMs of a list. `say` says a fault in words, and `random` makes octets for a RAND."""

    def __init__(self, known, store, say, random=os.urandom):
        self.known, self.store, self.say, self.random = known, store, say, random

    def answers(self, lines):
        """The answers to lines, in pieces, in the order of the lines."""
        waiting, count = [], 0
        for line in lines:
            waiting.append(self.read(line))
            count += waiting[-1].request.count if isinstance(waiting[-1], Wanted) else 0
            if count >= MOST_AT_ONCE:
                yield self.settled(waiting)
                waiting, count = [], 0
        yield self.settled(waiting)

    def read(self, line):
        """What a line wants, or what is answered to it."""
        try:
            request = asking.read_line(line)
            if request is None:
                return ""
            sim = self.known.get(request.imsi)
            if sim is None:
                return asking.answer(UNKNOWN, request.imsi)
            if request.word != VECTORS:
                return asking.answer(request.word, request.imsi)
            return Wanted(request, sim, self.least(sim, request))
        except Refused as fault:
            self.say(str(fault))
            return fault.answer or ""

    @staticmethod
    def least(sim, request):
        """The least SQN that a request's first vector may have, as a number: that of the SIM's line, and after the phone's own."""
        least = FIRST_SQN if sim.sqn is None else int.from_bytes(sim.sqn, "big")
        if request.auts is None:
            return least
        try:
            own = milenage.phone_sqn(sim.k, sim.opc, request.rand, request.auts)
        except Fault as fault:
            raise Refused("IMSI %s: %s" % (sim.imsi, fault), asking.answer(LATER, sim.imsi)) from None
        return max(least, milenage.stepped(int.from_bytes(own, "big"), 1))

    def settled(self, waiting):
        """The answers, once the SQNs in them are on disk."""
        wanted = [one for one in waiting if isinstance(one, Wanted)]
        if not wanted:
            return "".join(waiting)
        try:
            firsts = self.store.take([(one.sim.imsi, one.request.count, one.least) for one in wanted])
        except Fault as fault:
            self.say(str(fault))
            firsts = [None] * len(wanted)
        else:
            for one in (one for one, first in zip(wanted, firsts) if first is None):
                self.say("IMSI %s: there aren't %d SQNs of 48 bits left" % (one.sim.imsi, one.request.count))
        first_of = iter(firsts)
        return "".join(self.vectors(one, next(first_of)) if isinstance(one, Wanted) else one for one in waiting)

    def vectors(self, wanted, first):
        """The lines of vectors from an SQN on; where there is none, that there will be some later."""
        request, sim, _ = wanted
        if first is None:
            return asking.answer(LATER, sim.imsi)
        plmn, amf, made = milenage.plmn_octets(request.mcc, request.mnc), sim.amf or milenage.EPS_AMF, []
        for place in range(request.count):
            sqn, rand = milenage.stepped(first, place).to_bytes(SQN_OCTETS, "big"), self.random(milenage.BLOCK)
            made.append(milenage.vector_of(milenage.milenage(sim.k, sim.opc, rand, sqn, amf), rand, sqn, amf, plmn))
        return asking.vector_lines(sim.imsi, made)

    def serve(self, file, to):
        """Answers what a file has, until it ends."""
        lines = asking.Lines()
        while octets := asking.read_some(file):
            for text in self.answers(lines.take(octets)):
                asking.write_all(to, text.encode())
        for text in self.answers(lines.last()):
            asking.write_all(to, text.encode())


def read_sims(path):
    """The SIMs of a file that is its owner's alone, by their IMSIs."""
    known = {}
    with private.opened(path) as file:
        text = sims.text_of(file, path)
    sims.read(text, path, lambda sim: known.setdefault(sim.imsi, sim))
    return known


def parser():
    words = argparse.ArgumentParser(prog="%s serve" % versions.called(), description=DESCRIPTION, allow_abbrev=False,
                                    formatter_class=argparse.RawDescriptionHelpFormatter)
    versions.add_to(words)
    words.add_argument("sims", metavar="SIMS", help="the list of SIMs")
    words.add_argument("store", metavar="STORE", help="the file that keeps their SQNs")
    return words


def main(words):
    """Serves by these words; the status."""
    given = parser().parse_args(words)
    signal.signal(signal.SIGINT, signal.SIG_DFL)
    voice = Voice()
    try:
        known = read_sims(given.sims)
        others = sum(not milenage.is_for_eps(sim.amf or milenage.EPS_AMF) for sim in known.values())
        if others:
            voice.say(NOT_FOR_EPS % others)
        with contextlib.closing(Store(given.store)) as store:
            Source(known, store, voice.say).serve(INPUT, OUTPUT)
        return 0
    except Fault as fault:
        voice.say(str(fault))
    except BrokenPipeError:
        pass  # nobody reads the answers any more
    except OSError as fault:
        voice.say("standard input or output: %s" % fault.strerror)
    return WRONG
