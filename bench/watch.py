"""What somebody finds who hears all that stations are sent, and has the phones' keys: whether each protected message has the MAC of
a COUNT that was never used before under its KASME, each radio key was never handed out before, and each challenge is a new one.
What isn't so is a violation, and is told with its octets.
"""
import collections

from reference import lte

ROUND = 256  # COUNTs with the same sequence number in the message (TS 24.301 clause 4.4.3.1)
LONGEST_CHAIN = 64  # next hops of one KeNB that are looked at


class Context:
    """A security context of a phone: its vector, and by their COUNTs the messages that the phone was sent under it. `sent` has the
    COUNTs of what the phone sent, and `accepted` the highest one that the MME is known to have accepted."""

    def __init__(self, vector):
        self.vector, self.key = vector, lte.Cmac(lte.nas_integrity_key(vector.kasme))
        self.used, self.sent, self.accepted = {}, set(), -1

    def count_of(self, nas):
        """The COUNT whose MAC a protected message has; nothing where it is of none up to the next round after the highest used."""
        most, inside = max(self.used, default=-1), nas[5:]
        for count in reversed(range(nas[5], most + ROUND + 1, ROUND)):
            if lte.eia2(self.key, count, lte.DOWN, inside) == nas[1:5]:
                return count
        return None

    def count_of_radio_key(self, key):
        """The COUNT of the phone's whose KeNB this is (TS 33.401 annex A.3); nothing where it is of none that it sent."""
        return next((count for count in sorted(self.sent, reverse=True) if lte.kenb(self.vector.kasme, count) == key), None)

    def place_of_next_hop(self, radio_key, key):
        """How many next hops after KeNB this key stands (annex A.4); nothing where it is none of them."""
        for place in range(1, LONGEST_CHAIN):
            radio_key = lte.next_hop(self.vector.kasme, radio_key)
            if radio_key == key:
                return place
        return None


class Challenge:
    """A challenge that was sent: in which procedure, and whether the MME has gone on from it."""

    def __init__(self, procedure):
        self.procedure, self.is_over = procedure, False


class Watch:
    """All that was heard. `counted` has how often anything was."""

    def __init__(self, say=print):
        self.say, self.violations, self.counted = say, [], collections.Counter()
        self.contexts, self.keys = {}, {}
        self.challenges, self.last = {}, {}  # by phone and RAND, and the last one by phone

    def violates(self, text, *messages):
        """Something that may not be, with the octets that show it."""
        self.violations.append(text)
        self.say("VIOLATION %d: %s" % (len(self.violations), "".join([text, *("\n    " + octets.hex() for octets in messages)])))

    def context(self, vector):
        """The context of a vector, which stays the same one where the vector is used again."""
        return self.contexts.setdefault(vector.kasme, Context(vector))

    def hears_protected(self, name, contexts, nas):
        """A protected message for a phone, by its contexts, the newest first; the one whose MAC it has, or nothing."""
        self.counted["protected messages to phones"] += 1
        for context in contexts:
            count = context.count_of(nas)
            if count is not None:
                if count in context.used:
                    same = "the same" if context.used[count] == nas else "other"
                    self.violates("%s: COUNT %d was used before under this KASME, with %s octets" % (name, count, same),
                                  context.used[count], nas)
                context.used.setdefault(count, nas)
                return context
        self.violates("%s: a protected message has a wrong MAC" % name, nas)
        return None

    def hears_key(self, name, key, octets):
        """A radio key that a station is handed for a phone."""
        self.counted["radio keys handed to stations"] += 1
        if key in self.keys:
            self.violates("%s: the radio key %s was handed out before" % (name, key.hex()), self.keys[key], octets)
        self.keys.setdefault(key, octets)

    def hears_challenge(self, name, rand, procedure, octets):
        """A challenge for a phone. It may come again in its procedure until the phone's answer was heard, or another one came."""
        self.counted["challenges"] += 1
        before = self.challenges.get((name, rand))
        if before is None:
            self.hears_end_of_challenge(name)
            self.challenges[name, rand] = self.last[name] = Challenge(procedure)
        elif before.procedure != procedure or before.is_over:
            self.violates("%s: the challenge with RAND %s was sent before" % (name, rand.hex()), octets)
        else:
            self.counted["challenges that were sent again in their procedure"] += 1

    def hears_end_of_challenge(self, name):
        """The MME has gone on from a phone's last challenge: it isn't to be sent any more."""
        if name in self.last:
            self.last[name].is_over = True
