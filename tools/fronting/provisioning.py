"""Who is provisioned: the lines `mme`, `sub` and `vec` of a trace, and what may be added to them while the front runs."""
import functools
import ipaddress

from tools import runs

from tools.fronting.faults import Failed, WRONG

OF_A_LOG = "it stands so in a log alone: here `sub` or `vec` comes first"  # of a line that begins with runs.FURTHER
SAME_RAND = "%s has a vector with this RAND already"


class Head:
    """The lines before the first event, `facts`, which are those that aren't comments, the lines `sub`, IMSIs and addresses by slot,
    and the words of the line `mme`."""

    def __init__(self, lines):
        self.lines, self.facts = lines, [line for line in lines if line and line[0] != "#"]
        self.subscribers = [line for line in lines if line.startswith("sub ")]
        subscribers = [line.split(" ") for line in self.subscribers]
        self.imsis, self.addresses = [words[1] for words in subscribers], [words[2] for words in subscribers]  # by slot
        self.slots = {imsi: slot for slot, imsi in enumerate(self.imsis)}
        self.mme = next(line for line in lines if line.startswith("mme ")).split(" ")

    @functools.cached_property
    def known(self):
        """The lines that aren't comments, each to be found at once."""
        return set(self.facts)

    @functools.cached_property
    def places(self):
        """The addresses in small letters, each to be found at once."""
        return {address.lower() for address in self.addresses}

    def prepare(self):
        """Has both be there before they are needed, since that takes a while."""
        return self.known, self.places

    def add(self, lines):
        """Has further lines, `sub` or `vec`, after all others."""
        self.lines += lines
        self.facts += lines
        self.known.update(lines)
        for line in lines:
            if line.startswith("sub "):
                _, imsi, address, _ = line.split(" ", 3)
                self.slots[imsi] = len(self.imsis)
                self.subscribers.append(line)
                self.imsis.append(imsi)
                self.addresses.append(address)
                self.places.add(address.lower())

    def address(self, slot):
        """The IPv4 address of a subscriber, in words where it is one."""
        try:
            return str(ipaddress.IPv4Address(bytes.fromhex(self.addresses[slot])))
        except ValueError:
            return self.addresses[slot]

    @property
    def text(self):
        return "\n".join(self.lines) + "\n"

    def with_more(self, lines):
        """This head and further lines, which are `sub` of a new IMSI and `vec` of one that has a place."""
        known, facts, rands = set(self.imsis), set(self.facts), set()
        of = {line.split(" ", 2)[1] for line in lines if line.startswith("vec ")}
        for line in facts:
            if line.startswith("vec ") and line.split(" ", 2)[1] in of:
                check_rand(line, rands)
        for number, line in enumerate(lines, 1):
            if line and not line.startswith("#"):
                try:
                    known.add(imsi_of_further(line, known, facts))
                    check_rand(line, rands)
                except runs.Fault as fault:
                    raise runs.Fault("line %d: %s" % (number, fault)) from None
                facts.add(line)
        return Head(self.lines + lines)

    def unknown_imsi(self):
        """An IMSI that nobody has."""
        return runs.unknown_imsi(self.slots)


def fields_of_further(line):
    """The word and the fields of a line `sub` or `vec`, none of which is left out."""
    word, fields = runs.fields_of(line.encode("latin-1"), {word: runs.PROVISIONING[word] for word in ("sub", "vec")})
    if runs.NO_KEY in fields:
        raise runs.Fault("it has no keys: they were left out of a log")
    return word, fields


def imsi_of_further(line, known, facts):
    """The IMSI of a line that is to stand after these lines, which have these IMSIs."""
    word, (imsi, *octets) = fields_of_further(line)
    runs.imsi_of(imsi)
    for field in octets:
        runs.octets_of(field)
    if line in facts:
        raise runs.Fault("it stands already")
    if (word == "sub") == (imsi in known):
        raise runs.Fault("%s has %s line sub" % (imsi, "its" if imsi in known else "no"))
    return imsi


def check_rand(line, seen):
    """Notes the IMSI and the RAND of a vector, which is for one challenge; refuses one that has both of another's."""
    if line.startswith("vec "):
        _, imsi, rand, _ = line.split(" ", 3)
        entry = imsi + rand.lower()
        if entry in seen:
            raise runs.Fault(SAME_RAND % imsi)
        seen.add(entry)


def check_rands(lines, name):
    """Refuses a file with two vectors of a subscriber that have the same RAND."""
    seen = set()
    for number, line in enumerate(lines, 1):
        try:
            check_rand(line, seen)
        except runs.Fault as fault:
            raise Failed("%s: line %d: %s" % (name, number, fault), WRONG) from None


def read_head(octets, name, code=None):
    """The head in a file's octets."""
    trace = runs.read_trace(octets, name)
    if trace.events:
        raise Failed("%s: line %d: only mme, sub and vec stand here" % (name, trace.events[0].line), WRONG)
    lines = octets.decode("latin-1").removesuffix("\n").split("\n")
    if not any(line.startswith("mme ") for line in lines):
        raise Failed("%s: there is no line mme" % name, WRONG)
    for number, line in enumerate(lines, 1):
        if line.startswith(runs.FURTHER):
            raise Failed("%s: line %d: %s" % (name, number, OF_A_LOG), WRONG)
    check_rands(lines, name)
    if runs.lacks_keys(trace.head):
        raise Failed("%s: a vector has no keys: they were left out of a log" % name, WRONG)
    head = Head(lines)
    if code is not None and head.mme[4].lower() != code.lower():
        raise Failed("%s: the MME code is %s, not %s" % (name, head.mme[4], code), WRONG)
    return head
