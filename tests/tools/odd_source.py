#!/usr/bin/env python3
"""A source of vectors as `tools/vectors serve`, but that a SIM's RAND depends on its SQN alone, with oddities: odd_source.py SIMS
STORE RECORD [IMSI=ODDITY ..]. RECORD gets each request with its time. What is odd for an IMSI is one of these.

    never      there is no answer
    late       the answer comes after six seconds
    later      `later` is the answer, with the SIM's key on standard error
    unknown    `unknown` is the answer
    other      the vectors are another's
    again      the vectors are those that it was given first
    garbage    the vectors come after lines that are none
    long       the vectors are in one line, and then come rightly
    cut        a vector lacks its end
    dies       the source ends
    stale      AUTS is answered by `later`
    unheard    `registered` and `gone` aren't answered
    cancelled  after each answer its registration is to end

With `takes` in place of such a word it says that it takes `registered` and `gone`. What stands in the fifo RECORD.orders, if there
is one, it tells too.
"""
import hashlib
import pathlib
import sys
import threading
import time

sys.dont_write_bytecode = True
if __name__ == "__main__":
    sys.path[0] = str(pathlib.Path(__file__).resolve().parents[2])
from tools.sourcing import serving
from tools.sourcing.store import Store

OTHER, LATE = "001019999999999", 6


class Steady(serving.Source):
    """One that gives a SIM the same vectors in each run."""

    def vectors(self, wanted, first):
        names = iter("%s %d" % (wanted.sim.imsi, (first or 0) + place) for place in range(wanted.request.count))
        self.random = lambda count: hashlib.sha256(next(names).encode()).digest()[:count]
        return super().vectors(wanted, first)


class Odd:
    """The answers to requests."""

    def __init__(self, source, sims, oddities):
        self.source, self.sims, self.oddities, self.first = source, sims, oddities, {}

    def answer(self, line):
        imsi, oddity = line.split()[1], self.oddities.get(line.split()[1])
        if oddity == "unheard" and line.split()[0] != "vectors":
            return ""
        if oddity == "never" or oddity == "dies":
            return sys.exit(9) if oddity == "dies" else ""
        if oddity == "later" or oddity == "stale" and len(line.split()) > 5:
            print("the key of %s is %s" % (imsi, self.sims[imsi].k.hex()), file=sys.stderr, flush=True)
            return "later %s\n" % imsi
        if oddity == "unknown":
            return "unknown %s\n" % imsi
        right = "".join(self.source.answers([line.encode()]))
        return getattr(self, oddity, lambda imsi, right: right)(imsi, right) if oddity else right

    def late(self, imsi, right):
        threading.Timer(LATE, say, [right]).start()
        return ""

    def other(self, imsi, right):
        return right.replace(imsi, OTHER)

    def again(self, imsi, right):
        return self.first.setdefault(imsi, right)

    def garbage(self, imsi, right):
        return "vec\nvec %s\n\0\xff\nregistered\nkeys %s\n%s" % (imsi, "ab" * 16, right)

    def long(self, imsi, right):
        return right.replace("\n", " ") + "\n" + right

    def cancelled(self, imsi, right):
        return right + "cancel %s\n" % imsi

    def cut(self, imsi, right):
        return right[:-3] + "\n"


def say(text):
    sys.stdout.write(text)
    sys.stdout.flush()


def tell_orders(path):
    """Tells the lines of a fifo, for ever."""
    while True:
        with open(path, encoding="ascii") as orders:
            for line in orders:
                say(line)


def main(sims, store, record, *oddities):
    if "takes" in oddities:
        say("takes registered gone\n")
    oddities = [pair for pair in oddities if pair != "takes"]
    if pathlib.Path(record + ".orders").exists():
        threading.Thread(target=tell_orders, args=[record + ".orders"], daemon=True).start()
    known = serving.read_sims(sims)
    odd = Odd(Steady(known, Store(store), lambda text: None), known, dict(pair.split("=") for pair in oddities))
    with open(record, "a", encoding="ascii", buffering=1) as file:
        for line in sys.stdin:
            file.write("%.3f %s" % (time.time(), line))
            say(odd.answer(line.rstrip("\n")))


if __name__ == "__main__":
    main(*sys.argv[1:])
