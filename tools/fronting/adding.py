"""Further subscribers and vectors for an MME of the library, while it runs: each line is an event of the run.

In the log a line stands where it happened, in both series, as a comment to `mme play`:

    #+ sub 001010000000002 0a000002 0a000064 00000002
    #+ vec 001010000000002 RAND AUTN XRES KASME

All lines of a file are looked at before the first is given: if one can't be taken, nothing changes. Then they are given, a hundred
in a turn, with what stations say between; the next come once these are answered. What follows phones learns of a line by the MME's
answer to it (Front.lengthen), also where a log is played again. Whoever gives is answered once all of it is committed. If
the run ends before, the log has the first of the lines, and the others are given at the next start, if they stand at the end of the
subscribers' file. `show` of a subscriber who was given stands in no log, since `mme play` would end there.
"""
import collections
import functools
import re
import time

from tools import runs

from tools.fronting import limits
from tools.fronting.provisioning import OF_A_LOG, SAME_RAND, fields_of_further

# A line as it has to be, H for a digit in hex; what is looked at is the IMSI with the address, or with RAND.
FORM = re.compile("sub ([0-9]{14,15}) (H{8})(?: H{8}){2}|vec ([0-9]{14,15}) (H{32}) H{32} (?:HH){4,16} H{64}".replace(
    "H", "[0-9a-fA-F]"))
# What is said of another, and nothing of what it has, since that may be keys, also where it begins with them.
LENGTHS = {"sub": "an IMSI has 14 or 15 digits, and an address, an S-GW's address and its tunnel end have 8 in hex each",
           "vec": "an IMSI has 14 or 15 digits, RAND and AUTN have 16 octets in hex, XRES 4 to 16, and KASME 32"}
RAND_DIGITS = 32
TOO_MANY = "%s would have %d vectors that aren't spent or answered yet, and has %d at most"


def parts_of(lines):
    """Lines in parts."""
    for at in range(0, len(lines), limits.ADDED_LINES):
        yield lines[at:at + limits.ADDED_LINES]


def lines_in(text):
    """The lines of a text, in parts; of a line that is too long as much as shows that."""
    at = 0
    while at < len(text):
        longest = at + runs.LONGEST_LINE + 1
        end = (text.rfind(b"\n", at, at + limits.ADDED_OCTETS) + 1 or text.find(b"\n", at, longest) + 1) or longest
        yield text[at:end].decode("latin-1").removesuffix("\n").split("\n")
        at = end


def found_in(line):
    """What is looked at of a line; a fault where it isn't one that can be given."""
    found = FORM.fullmatch(line)
    if found is None:
        if line.partition(" ")[0] not in runs.WORDS:
            raise runs.Fault("no line begins so")
        word, _ = fields_of_further(line)
        raise runs.Fault(LENGTHS[word])
    return found.groups()


class Coming:
    """What lines of provisioning have that are on their way to the MME: the IMSIs and addresses of subscribers, how many vectors each
    IMSI has, and `seen`, each line by its IMSI, a vector's by its IMSI and RAND. (That is a dict of strings alone, through which
    Python doesn't go when it looks for what isn't used any more.)"""

    def __init__(self):
        self.imsis, self.places, self.seen, self.vectors = set(), set(), {}, collections.Counter()

    def add(self, other):
        """What another has comes too."""
        self.imsis |= other.imsis
        self.places |= other.places
        self.seen.update(other.seen)
        self.vectors += other.vectors

    def remove(self, other):
        """What another has, and nobody else, is there."""
        self.imsis -= other.imsis
        self.places -= other.places
        for name in other.seen:
            self.seen.pop(name, None)
        self.vectors -= other.vectors

    def brings(self, line):
        """Whether a line is on its way, of those that have their form."""
        imsi, _, of_vector, rand = found_in(line)
        return self.seen.get(imsi or of_vector + rand.lower()) == line

    def rands_of(self, imsi):
        """The RANDs of the vectors of an IMSI, as digits."""
        return [name[len(imsi):] for name in self.seen if name.startswith(imsi) and len(name) == len(imsi) + RAND_DIGITS]


class Further(Coming):
    """Lines that are to be given, each looked at as one that comes after those before it, and after `others` that are on their way
    to the MME: `lines` has those that aren't comments, `imsis` the IMSIs of new subscribers."""

    def __init__(self, head, stock, used, form, others=()):
        super().__init__()
        self.head, self.stock, self.used, self.form = head, stock, used, form.further()
        self.number, self.lines, self.others = 0, [], list(others)

    def take(self, line):
        """Takes one more line; a fault where it can't be given."""
        self.number += 1
        try:
            if len(line) > runs.LONGEST_LINE:
                raise runs.Fault("longer than %d octets" % runs.LONGEST_LINE)
            if line and line[0] != "#":
                self.look_at(line)
                self.lines.append(line)
            elif line.startswith(runs.FURTHER):
                raise runs.Fault(OF_A_LOG)
        except runs.Fault as fault:
            raise runs.Fault("line %d: %s" % (self.number, fault)) from None

    def look_at(self, line):
        imsi, address, of_vector, rand = found_in(line)
        name = imsi or of_vector + rand.lower()
        same = self.seen.get(name)
        if same is None and self.others:
            same = next((one.seen[name] for one in self.others if name in one.seen), None)
        if same == line or line in self.head.known:
            raise runs.Fault("it stands already")
        if imsi:
            self.look_at_subscriber(imsi, address.lower())
        else:
            self.look_at_vector(of_vector, name, line, same is not None)
        self.seen[name] = line

    def has(self, imsi):
        """Whether there is a subscriber with an IMSI, or comes before."""
        return imsi in self.imsis or imsi in self.head.slots or any(imsi in one.imsis for one in self.others)

    def look_at_subscriber(self, imsi, address):
        """Whether another has the IMSI or the address, and there is room for one more."""
        if self.has(imsi):
            raise runs.Fault("%s has its line sub" % imsi)
        if address in self.places or address in self.head.places or any(address in one.places for one in self.others):
            raise runs.Fault("another subscriber has the address %s" % address)
        if len(self.head.imsis) + len(self.imsis) >= limits.MOST_SUBSCRIBERS:
            raise runs.Fault("there are %d subscribers, and no more than that" % limits.MOST_SUBSCRIBERS)
        self.imsis.add(imsi)
        self.places.add(address)

    def look_at_vector(self, imsi, name, line, has_same):
        """Whether its subscriber is there, has room for it and none like it, and it wasn't used. `name` is the IMSI with RAND."""
        if not self.has(imsi):
            raise runs.Fault("%s has no line sub" % imsi)
        rand, slot = name[len(imsi):], self.head.slots.get(imsi)
        self.used.check_vector(imsi, rand)
        count = self.vectors[imsi] = self.vectors.get(imsi, 0) + 1
        if slot is not None:
            count += self.stock.most_unspent(slot)
        for one in self.others:
            count += one.vectors[imsi]
        if count > limits.MOST_UNSPENT:
            raise runs.Fault(TOO_MANY % (imsi, count, limits.MOST_UNSPENT))
        self.form.add(line)
        if has_same or slot is not None and self.stock.place_of(slot, bytes.fromhex(rand)) is not None:
            raise runs.Fault(SAME_RAND % imsi)

    def end(self, are_others_asked_for):
        """No line comes any more: forgets what they are looked at with, since to forget all at once would take long; but not what
        others are looked at with, where a source supplies some meanwhile."""
        self.form = None
        if not are_others_asked_for:
            self.seen = {}


class Adding:
    """One file's lines, from when they come until they are given or refused. The lines come in parts."""

    def __init__(self, front, parts, reply):
        self.front, self.parts, self.reply = front, parts, reply
        self.further = Further(front.head, front.stock, front.used, front.form, front.coming)
        front.coming.append(self.further)
        self.place = self.kept = 0  # how many lines were put, and how many of these are known to stand in the log
        self.timer, self.is_over, self.refused = None, False, []

    def go_on(self):
        """Looks at lines for a while; once it has seen all, gives the first of them."""
        end = time.monotonic() + limits.ADDING_SECONDS
        try:
            for lines in self.parts:
                for line in lines:
                    self.further.take(line)
                if time.monotonic() > end:
                    self.timer = self.front.loop.after(0, self.go_on)
                    return
        except runs.Fault as fault:
            self.end("fault %s" % fault)
            return
        self.further.end(self.front.asking is not None)
        self.front.exchange.keep_unknown(self.further.imsis)
        self.put()

    def put(self):
        """Puts the next lines for the turn to come; the others come once these are answered."""
        if self.is_over:
            return
        exchange, lines = self.front.exchange, self.further.lines[self.place:self.place + limits.ADDED_LINES]
        exchange.batch.add_further(lines)
        self.place += len(lines)
        if not lines:
            self.has_given()
            return
        exchange.when_kept(functools.partial(self.has_kept, self.place))
        if self.place < len(self.further.lines):
            exchange.batch.after.append(self.put)

    def has_kept(self, count):
        """So many lines stand in the log."""
        self.kept = count
        if count == len(self.further.lines):
            self.has_given()

    def is_refused(self, number, line):
        """The MME refuses a line all the same, which stands in the log."""
        self.refused.append("%s (%d)" % (" ".join(line.split(" ")[:2]), number))

    def has_given(self):
        """All of it stands in the log."""
        if self.is_over:
            return
        self.front.given += 1
        if self.refused:
            self.end("refused: the MME doesn't take %s of %d; as they stand in the log, they belong to the subscribers too: %s" % (
                runs.counted(len(self.refused), "line"), len(self.further.lines), ", ".join(self.refused[:10])))
        else:
            count = len(self.further.imsis)
            self.end("given %s, %s" % (runs.counted(count, "subscriber"), runs.counted(len(self.further.lines) - count, "vector")))

    def refuse(self, why):
        """No more of it is given."""
        if not self.is_over:
            self.end("refused: %s: %s" % (why, "at least the first %d of %d lines were given" % (
                self.kept, len(self.further.lines)) if self.place else "nothing was given"))

    def end(self, answer):
        self.is_over, self.front.giving = True, None
        self.front.coming.remove(self.further)
        if self.timer is not None:
            self.timer.cancel()
        word, _, why = answer.partition(" ")
        if word == "given":
            self.front.voice.say("given", answer)
        elif word == "refused:":
            self.front.voice.say("not_given", "not given: " + why)
        self.reply(answer)
