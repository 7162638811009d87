"""The keys of vectors, and a log that keeps none of them (--log-keys no).

Of each vector such a log has RAND and AUTN, which are sent plain, and `-` in the place of XRES and of KASME. A phone that answers
its challenge sends XRES itself: where a message has one, the log has zeros, after a line that says whose it was. What the file of
subscribers has as comments isn't there.

    vec 001010000000001 RAND AUTN - -          (or #+ vec .., where it was given while the front ran)
    # left out at octet 27: XRES of 001010000000001 RAND AUTN
    in 0 000d..

`mme play` refuses such a vector, so no run is played otherwise than it was. The lines `vec` of a file put the keys back.
"""
import re

from tools import runs

from tools.fronting.segments import NUMBERED_LINE

YES, NO = "yes", "no"  # whether a log keeps keys
PUT_BACK = re.compile(re.escape(runs.LEFT_OUT) + r"(\d+): XRES of (\d+ [0-9a-f]+ [0-9a-f]+)")
MESSAGES = ("in ", "# came protected: in ")  # how lines begin that end with a message in hex
ALIKE = "two vectors of %s have the same RAND and AUTN, and a log without keys can't tell them apart"
XRES = re.compile("(?:[0-9a-f]{2}){4,16}")  # TS 33.102 clause 6.3.7: 4 to 16 octets


class Missing(runs.Fault):
    """A vector of a log isn't among those whose keys are to be put back."""


def parted(line):
    """A vector's name, which is its IMSI, RAND and AUTN in small letters, and its keys, XRES and KASME."""
    words = line.split(" ")
    return " ".join(words[1:4]).lower(), " ".join(words[4:])


def without_keys(line):
    """A line of provisioning without the keys in it."""
    return " ".join(line.split(" ")[:4] + [runs.NO_KEY] * 2) if line.startswith("vec ") else line


def apart(line):
    """How a line begins that was given where it stands, and what it is; of another line nothing, and itself."""
    return (runs.FURTHER, line[len(runs.FURTHER):]) if line.startswith(runs.FURTHER) else ("", line)


class Vectors:
    """The keys of vectors by the vectors' names: of lines, and of those that were known before. (Dicts of strings alone take no
    time of Python's where it looks for what isn't used any more, however many vectors they have.)"""

    def __init__(self, lines=()):
        self.keys = {}
        for line in lines:
            if line.startswith("vec "):
                self.add(line)

    def add(self, line, before=None):
        """One more vector, by its line, which stands beside those that were known before."""
        name, keys = parted(line)
        imsi = name.partition(" ")[0]
        if runs.NO_KEY in keys.split(" "):
            raise runs.Fault("a vector of %s has no keys: they were left out of a log" % imsi)
        for other in (self.keys.setdefault(name, keys), before.keys.get(name, keys) if before else keys):
            if other is not keys and other.lower() != keys.lower():
                raise runs.Fault(ALIKE % imsi)

    def of(self, name):
        """The keys of a vector."""
        if name not in self.keys:
            raise Missing("the log has a vector of %s, by its RAND and AUTN, that isn't among those given" % name.partition(" ")[0])
        return self.keys[name].split(" ")


def read_vectors(path):
    """The vectors of a file, whose other lines are skipped."""
    vectors = Vectors()

    def read(_, text):
        if text.startswith(b"vec "):
            runs.fields_of(text, runs.PROVISIONING)
            vectors.add(text.decode("latin-1"))

    runs.lines_of(runs.read_file(path), path, read)
    return vectors


class Finder:
    """Finds where hex digits have an XRES, by the XRESs of each length with their vectors' names, the longest first."""

    def __init__(self, vectors):
        self.by_length = {}
        self.add(vectors.keys)

    def add(self, keys):
        """Finds those of further vectors too."""
        for name, known in keys.items():
            xres = known.partition(" ")[0].lower()
            if XRES.fullmatch(xres):
                if len(xres) not in self.by_length:
                    self.by_length = dict(sorted([*self.by_length.items(), (len(xres), {})], reverse=True))
                self.by_length[len(xres)].setdefault(xres, name)

    def places(self, digits):
        """Each place of an XRES from the left, with the XRES and its vector's name; none begins in another."""
        longest, found, end = {}, [], 0
        for length, known in self.by_length.items():
            for at in [at for at in range(0, len(digits) - length + 1, 2) if digits[at:at + length] in known]:
                longest.setdefault(at, digits[at:at + length])
        for at, xres in sorted(longest.items()):
            if at >= end:
                found.append((at, xres, self.by_length[len(xres)][xres]))
                end = at + len(xres)
        return found


class Filling:
    """Puts the keys back into a log without them, line by line in its order."""

    def __init__(self, vectors):
        self.vectors, self.places = vectors, []

    def line(self, text):
        """A line with its keys."""
        beginning, line = apart(text)
        if line.startswith("vec ") and line.endswith(" " + runs.NO_KEY):
            return beginning + " ".join(line.split(" ")[:4] + self.vectors.of(parted(line)[0]))
        if found := PUT_BACK.fullmatch(text):
            self.places.append((2 * int(found[1]), self.vectors.of(found[2])[0].lower()))
            return text
        places, self.places = self.places, []  # they are of the line below alone, which a crash may have kept from being written
        if places and text.startswith(MESSAGES):
            head, _, digits = text.rpartition(" ")
            for at, xres in places:
                digits = digits[:at] + xres + digits[at + len(xres):]
            return "%s %s" % (head, digits)
        return text

    def __call__(self, octets):
        """Whole lines with their keys, as many as there are."""
        return "\n".join(map(self.line, octets.decode("latin-1").split("\n"))).encode("latin-1")

    def whole(self, lines):
        """The lines of a log, as they were where it had kept its keys."""
        for line in lines:
            text = self.line(line.decode("latin-1").removesuffix("\n"))
            if not PUT_BACK.fullmatch(text):
                text = text.removesuffix(Keyless.note) if NUMBERED_LINE.match(text) else text
                yield text.encode("latin-1") + b"\n"


class Whole:
    """A log of all that the MME is given."""

    has_keys, note = True, ""

    def text(self, head):
        """What it has of a head."""
        return head.text

    def written(self, lines):
        """What it has of lines that the MME is given."""
        return lines

    def add(self, lines):
        """There are these further lines of provisioning."""

    def further(self):
        """What takes lines that may be further ones, each by `add`, and refuses one that the log can't have."""
        return Anything()

    def filling(self):
        """What makes of its octets, whole lines in their order, those that the MME was given."""
        return lambda octets: octets

    def taken_up(self, standing, given):
        """The lines that stand in a log, with all keys, where those that are given begin with them; else nothing."""
        return standing if given[:len(standing)] == standing else None


class Anything:
    """Takes all lines."""

    def add(self, line):
        """One more line."""


class Beside:
    """Takes vectors that can be told apart, also from those that there are."""

    def __init__(self, before):
        self.before, self.vectors = before, Vectors()

    def add(self, line):
        """One more vector, by its line."""
        self.vectors.add(line, self.before)


class Keyless:
    """A log without keys; none either of the vectors that were known before the head."""

    has_keys, note = False, ", without keys"

    def __init__(self, head):
        self.vectors = Vectors(head.facts)
        self.finder = Finder(self.vectors)

    def text(self, head):
        return "".join(without_keys(line) + "\n" for line in head.facts)

    def add(self, lines):
        vectors = Vectors(lines)
        self.vectors.keys.update(vectors.keys)
        self.finder.add(vectors.keys)

    def further(self):
        return Beside(self.vectors)

    def written(self, lines):
        return [self.without(line) if line.startswith(MESSAGES) else self.of_further(line) for line in lines]

    @staticmethod
    def of_further(line):
        """A line that is no message: one that was given has no keys."""
        beginning, line = apart(line)
        return beginning + without_keys(line) if beginning else line

    def without(self, line):
        """A message, and before it perhaps how it came, each without an XRES and after a line for each that is left out."""
        told = []
        for text in line.split("\n"):
            head, _, digits = text.rpartition(" ")
            for at, xres, name in self.finder.places(digits):
                told.append("%s%d: XRES of %s" % (runs.LEFT_OUT, at // 2, name))
                digits = digits[:at] + "0" * len(xres) + digits[at + len(xres):]
            told.append("%s %s" % (head, digits))
        return "\n".join(told)

    def filling(self):
        return Filling(self.vectors)

    def taken_up(self, standing, given):
        facts = given[:len(standing)]
        return facts if list(map(without_keys, facts)) == standing else None


def form_of(keeps_keys, head):
    """The form of a log, by whether it keeps keys."""
    return Keyless(head) if keeps_keys == NO else Whole()
