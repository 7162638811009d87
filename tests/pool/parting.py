"""Scripts of phones, parted over the MMEs of a pool, and what each phone was sent, read from what `mme sim` printed.

A line of a script is of everybody (the MME, a station, time), or of the phone whose IMSI is its first field. Each MME gets all
lines of everybody, and those of its phones.
"""
import collections
import random

from tests.hostile.standards import lte, phones

PHONES, VECTORS = 8, 4
CODES = ("11", "12", "13", "14")  # the MME codes of a pool's MMEs
ALONE = "01"  # that of an MME that has all phones
RADIO_IDS = 3  # that each phone goes by; a station gives no two phones one of them (TS 36.413 clause 9.2.3.4)
IMSIS = ["00101%010d" % (at + 1) for at in range(PHONES)]
STATIONS = ("station 0 00001 0001", "station 1 00002 0002")
OF_EVERYBODY = ("station", "up", "lost", "tick")

# What is sent for a phone, or shown of it: the second, its station, the octets; or the states.
Sent = collections.namedtuple("Sent", "second station octets")
Shown = collections.namedtuple("Shown", "second states")


def network(code):
    return phones.Network(code=code)


def radio_id(phone, at):
    return 1 + phone * RADIO_IDS + at


def vectors(seed, phone):
    return [phones.Vector.made("pool %s %d.%d" % (seed, phone, place)) for place in range(VECTORS)]


# --- Scripts ---

# A phone's number stands for its IMSI, and its radio ids are counted from 0.
FIXED = """
attach 0 0 0
attach 1 0 0
info 2 1 0
foreign 3 1 0
idle 0
service 0 1 1
attach 4 0 0
switch 1 1 1
tau 2 1 0
idle 3
data 3
tick 5
service 3 1 1
off 4
attach 5 0 0
info 6 0 0
foreign 7 0 0
idle 5
data 5
tick 11
tau 5 0 1
show 5
deaf 6
cancel 6
tick 31
replay 7
forge 7
detach 7
attach 7 1 1
switch 1 0 2
tau 1 0 2
show 1
lost 0
data 2
show 0
show 7
up 0
service 0 0 0
attach 4 0 1
idle 2
tau 2 0 1
detach 2
cancel 1
show 1
tick 3480
show 0
show 3
show 4
"""
PLACED = ("attach", "info", "foreign", "service", "service", "tau", "tau", "switch", "switch")
BY_ITSELF = ("detach", "off", "idle", "idle", "idle", "replay", "forge", "data", "data", "cancel", "show")


def provisioned(code, seed, of_phones):
    """The lines that stand first, with these phones."""
    lines = [network(code).words] + ["sub %s 0a0000%02x 0a000064 %08x" % (IMSIS[at], at + 1, at + 1) for at in of_phones]
    return lines + [vector.words(IMSIS[at]) for at in of_phones for vector in vectors(seed, at)]


def fixed_acts():
    """The acts of the fixed script: lines, and whose each is, or nobody's."""
    lines = []
    for line in FIXED.split("\n"):
        word, *fields = line.split(" ")
        if word in OF_EVERYBODY:
            lines.append((line, None))
        elif word:
            phone = int(fields[0])
            place = ["%s %d" % (fields[1], radio_id(phone, int(fields[2])))] if len(fields) == 3 else []
            lines.append((" ".join([word, IMSIS[phone], *place]), phone))
    return lines


def random_acts(seed, count):
    """So many acts by chance; each phone attaches first."""
    chance = random.Random("pool %s" % seed)
    lines = []

    def placed(word, phone):
        station, at = chance.randrange(2), chance.randrange(RADIO_IDS)
        lines.append(("%s %s %d %d" % (word, IMSIS[phone], station, radio_id(phone, at)), phone))

    for phone in range(PHONES):
        placed(chance.choice(("attach", "attach", "info", "foreign")), phone)
    while len(lines) < count:
        phone, kind = chance.randrange(PHONES), chance.random()
        if kind < 0.5:
            placed(chance.choice(PLACED), phone)
        elif kind < 0.9:
            lines.append(("%s %s" % (chance.choice(BY_ITSELF), IMSIS[phone]), phone))
        elif kind < 0.96:
            lines.append(("tick %d" % chance.choice((1, 5, 6, 10, 31)), None))
        else:
            word = chance.choice(("up 0", "up 1", "lost 0", "lost 1", "deaf"))
            lines.append((word, None) if word != "deaf" else ("deaf " + IMSIS[-1], PHONES - 1))
    return lines


def script(code, seed, acts, of_phones):
    """The script of an MME that has these phones."""
    lines = provisioned(code, seed, of_phones) + [*STATIONS, "up 0", "up 1"]
    lines += [line for line, phone in acts if phone is None or phone in of_phones]
    return "".join(line + "\n" for line in lines)


def parted():
    """The phones of each MME of the pool, which have the same capacity."""
    return [range(at, PHONES, len(CODES)) for at in range(len(CODES))]


# --- What was printed ---


class Fault(Exception):
    """What isn't as it must be."""


def told(printed, of_phones):
    """For each phone what it was sent and shown; and what stations sent."""
    second, of_each, heard = 0, {phone: [] for phone in of_phones}, []
    slots = dict(enumerate(of_phones))
    for line in printed.split("\n"):
        if line == "tick 1":
            second += 1
        elif line.startswith("in "):
            heard.append(bytes.fromhex(line.rsplit(" ", 1)[1]))
        elif line.startswith("# state "):
            imsi, states = line.split(" ", 3)[2:]
            of_each[IMSIS.index(imsi)].append(Shown(second, states))
        elif line.startswith("# out "):
            owner, station, octets = line.split(" ")[2:]
            if owner[0] == "e":
                continue
            phone = slots.get(int(owner[1:])) if owner[0] == "s" else (int(owner.split(".")[1]) - 1) // RADIO_IDS
            if phone not in of_each:
                raise Fault("none of this MME's phones: " + line)
            of_each[phone].append(Sent(second, int(station), bytes.fromhex(octets)))
        elif line.startswith("## dropped"):
            raise Fault("events are left out: " + line)
    return of_each, heard
