"""A list of SIMs: a line `IMSI K OPc` or `IMSI K OPc SQN` for each, where `op=OP` may stand in place of OPc, and `amf=AMF` anywhere
after the IMSI. Empty lines are skipped, and # begins a comment. No fault shows a key."""
import collections

from tools.sourcing.milenage import AMF_OCTETS, BLOCK, operator_key
from tools.sourcing.words import Fault, digits_of, field, hex_of, sqn_of

MOST_SIMS = 32768  # subscribers that the MME takes
MOST_OF_A_LIST = 1 << 23  # octets
NAMED = {"op": hex_of(BLOCK, "OP"), "amf": hex_of(AMF_OCTETS)}
PLAIN = {"imsi": digits_of(14, 15), "k": hex_of(BLOCK, "K"), "opc": hex_of(BLOCK, "OPc"), "sqn": sqn_of}

Sim = collections.namedtuple("Sim", "imsi k opc sqn amf")  # the latter two are None where the line doesn't have them


def text_of(file, name):
    """What stands in a list that is open."""
    octets = file.read(MOST_OF_A_LIST + 1)
    if len(octets) > MOST_OF_A_LIST:
        raise Fault("%s: a list of SIMs has more than %d octets" % (name, MOST_OF_A_LIST))
    return octets.decode("latin-1")


def named_fields(words):
    """What stands in the fields that have names."""
    found = {}
    for name, _, text in (word.partition("=") for word in words):
        if name not in NAMED or name in found:
            raise Fault("of the fields with names, a SIM has op=OP and amf=AMF, each once")
        found[name] = field(NAMED[name], text)
    return found


def sim_of(text):
    """The SIM of a line."""
    words = text.split()
    found = named_fields(word for word in words if "=" in word)
    plain = [word for word in words if "=" not in word]
    names = [name for name in PLAIN if name != "opc" or "op" not in found]
    if len(plain) not in (len(names) - 1, len(names)):
        raise Fault("a SIM has the fields IMSI, K, OPc and perhaps SQN, and here are %d" % (len(plain) + ("op" in found)))
    found |= {name: field(PLAIN[name], word) for name, word in zip(names, plain)}
    opc = found["opc"] if "opc" in found else operator_key(found["k"], found["op"])
    return Sim(found["imsi"], found["k"], opc, found.get("sqn"), found.get("amf"))


def read(text, name, take):
    """Has `take` take each SIM of a list, in its order. A fault, also one of `take`, gets the line's number."""
    known = {}
    for line, words in enumerate(text.split("\n"), 1):
        words = words.partition("#")[0]
        try:
            if words.strip():
                sim = sim_of(words)
                if known.setdefault(sim.imsi, line) != line:
                    raise Fault("IMSI %s stands in line %d already" % (sim.imsi, known[sim.imsi]))
                if len(known) > MOST_SIMS:
                    raise Fault("there are more than %d SIMs" % MOST_SIMS)
                take(sim)
        except Fault as fault:
            raise Fault("%s: line %d: %s" % (name, line, fault)) from None
    if not known:
        raise Fault("%s: there is no SIM in it" % name)
