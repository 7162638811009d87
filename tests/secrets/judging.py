"""What is found of secrets in a program's memory, and whether it should be there."""
import argparse
import collections
import functools
import pathlib
import tempfile

from tests.secrets.residue import KINDS, Secret, check_compressed
from tests.secrets.rounds import LATER, LateRun, RestoredRun, Run, live_program
from tests.secrets.searching import Fault, check_search, forms, searched

PROGRAM = pathlib.Path(__file__).resolve().parents[2] / "crates" / "mme" / "out" / "mme"
ROUNDS = 3  # of the same ways: the first is looked for, the others come after it
AROUND = 16  # octets before and after that are told
SEEN = 3  # places of one secret that are told


def counted(places):
    """Where these places are, and how often, in words."""
    counts = collections.Counter((place.region.name, place.form) for place in places)
    return ", ".join("%s as %s %d times" % (name, form, count) for (name, form), count in sorted(counts.items()))


def tell(place):
    """Prints a place with what is around it."""
    secret, region, end = place.secret, place.region, place.at + place.count
    address, whole = region.first + place.at, len(dict(forms(secret.octets))[place.form])
    print("    %s of %s as %s: %s + %#x (%#x), %d of %d from %d on: %s [%s] %s" % (
        secret.kind, secret.whose, place.form, region.name, address - region.mapped, address, place.count, whole, place.begin,
        region.octets[max(place.at - AROUND, 0):place.at].hex(), region.octets[place.at:end].hex(),
        region.octets[end:end + AROUND].hex()))


def summary(title, secrets, places, tells):
    """Prints what is found of each kind."""
    print(title)
    for kind in KINDS:
        looked = {secret.octets for secret in secrets if secret.kind == kind}
        there = [place for place in places if place.secret.kind == kind]
        found = {place.secret.octets for place in there}
        print("  %-18s %d of %d%s" % (kind, len(found), len(looked), there and ": " + counted(there) or ""))
        if tells:
            seen = collections.Counter()
            for place in sorted(there, key=lambda place: place.region.first + place.at):
                seen[place.secret.octets] += 1
                if seen[place.secret.octets] <= SEEN:
                    tell(place)


def tests(make, tells=False):
    """Makes a run and looks through the program's memory: names with what is wrong, if anything."""
    check_compressed()
    check_search()
    try:
        run = make()
        memory = run.memory()
    except (Fault, OSError) as fault:
        yield "the run", str(fault)
        return
    sizes = collections.Counter()
    for region in memory:
        sizes[region.name] += len(region.octets)
    print("%d octets of memory: %s" % (sum(sizes.values()), ", ".join("%s %d" % pair for pair in sizes.items())))
    there = [Secret(name, "control", octets) for name, octets in run.there()]
    left, later = run.left(), run.later()
    places = searched(there + left + later, memory)
    found = {place.secret for place in places}
    yield from run.found_before()
    for secret in there:
        yield secret.whose, None if secret in found else "it isn't found, and is there"
    gone = set(left)
    of_left = [place for place in places if place.secret in gone]
    summary("of %d phones that left, found of each kind:" % len(run.each(run.rounds[0])), left, of_left, tells)
    if tells and later:
        summary("of those that came later:", later, [place for place in places if place.secret.whose == LATER], tells)
    for way in dict.fromkeys(secret.whose for secret in left):
        for kind in KINDS:
            if any(secret.whose == way and secret.kind == kind for secret in left):
                here = [place for place in of_left if place.secret.whose == way and place.secret.kind == kind]
                yield "%s, %s" % (way, kind), counted(here) or None


def main(doc):
    parser = argparse.ArgumentParser(description=doc, formatter_class=argparse.RawDescriptionHelpFormatter)
    which = parser.add_mutually_exclusive_group()
    which.add_argument("--program", metavar="PATH", type=pathlib.Path, default=PROGRAM)
    which.add_argument("--live", metavar="FOLDER", type=pathlib.Path)
    which.add_argument("--restored", metavar="FOLDER", type=pathlib.Path)
    parser.add_argument("--rounds", metavar="N", type=int, default=ROUNDS)
    parser.add_argument("--tell", action="store_true")
    given = parser.parse_args()
    if given.rounds < 1:
        parser.error("--rounds takes 1 or more")
    passed = failed = 0
    with tempfile.TemporaryDirectory() as room:
        if given.live or given.restored:
            run, folder = (LateRun, given.live) if given.live else (RestoredRun, given.restored)
            make = functools.partial(run, live_program(folder.resolve(), room), given.rounds)
        else:
            make = functools.partial(Run, [given.program.resolve(), "play"], given.rounds)
        for what, fault in tests(make, given.tell):
            passed, failed = passed + (not fault), failed + bool(fault)
            if fault:
                print("FAILED %s: %s" % (what, fault))
    print("%d passed, %d failed" % (passed, failed))
    return 0 if passed and not failed else 1
