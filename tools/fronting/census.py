"""The states of phones: questions to the MME that change nothing and stand in no log. Whoever wants them shares the answers; a few
phones are asked for at a time, beside the stations' messages, and nobody once nobody waits any more."""
import collections
import sys
import time

TOGETHER = 20  # phones that are asked for at a time
UNKNOWN = "- - -"  # the states of a phone that was never asked for


class Wish:
    """Somebody's wish for the states of some phones, by the groups of those that are asked for together: from `at`, the first that
    isn't known as late as it is wanted, to `end`."""

    def __init__(self, first, end, since):
        self.at, self.end, self.since = first // TOGETHER, -(-end // TOGETHER), since


class Census:
    """The states by slot, as they were last told, and how many phones have which."""

    def __init__(self, front):
        self.front = front
        self.states, self.phones = [], collections.Counter()
        self.asked = []  # by group, when it was asked for
        self.wishes, self.is_asking = {}, False

    def begin(self):
        """Nothing is known of the phones of an MME that begins. Who waits is answered by what was known of those before."""
        self.answer()
        self.states, self.asked = [], []
        self.phones.clear()

    def want(self, first, end, seconds, is_wanted, done):
        """Calls `done` once the states of these slots are known as of `seconds` ago at the earliest; not where nobody wants it
        any more by then."""
        more = len(self.front.head.imsis) - len(self.states)
        self.states += [None] * more
        self.asked += [0.0] * (-(-len(self.states) // TOGETHER) - len(self.asked))
        if more and len(self.states) - more:
            self.asked[(len(self.states) - more) // TOGETHER] = 0.0  # a group that has grown
        self.wishes[Wish(first, end, time.monotonic() - seconds)] = is_wanted, done
        self.go_on()

    def go_on(self):
        """Answers who can be answered, and plans the next question."""
        self.forget()
        for wish, (_, done) in list(self.wishes.items()):
            while wish.at < wish.end and self.asked[wish.at] >= wish.since:
                wish.at += 1
            if wish.at == wish.end:
                del self.wishes[wish]
                done()
        if self.wishes and not self.is_asking:
            self.is_asking = True
            self.front.aside.do(self.ask)

    def answer(self):
        """Answers who waits by the states that were told last."""
        self.forget()
        wishes, self.wishes = self.wishes, {}
        for _, done in wishes.values():
            done()

    def forget(self):
        """Forgets who has gone."""
        self.wishes = {wish: (is_wanted, done) for wish, (is_wanted, done) in self.wishes.items() if is_wanted()}

    def ask(self):
        """Asks for the group that who waits longest lacks."""
        self.forget()
        if not self.wishes:
            self.is_asking = False
            return
        group, now = next(iter(self.wishes)).at, time.monotonic()

        def after():
            self.asked[group], self.is_asking = now, False
            self.go_on()

        imsis = self.front.head.imsis[group * TOGETHER:(group + 1) * TOGETHER]
        self.front.exchange.ask(["show " + imsi for imsi in imsis], self.note, after)

    def note(self, answer):
        """The states of a phone."""
        slot, states = self.front.head.slots[answer.imsi], sys.intern(answer.states)
        if slot < len(self.states) and self.states[slot] is not states:
            self.phones[self.states[slot]] -= 1
            self.phones[states] += 1
            self.states[slot] = states

    def of(self, slot):
        """The states of a phone, as they were told last."""
        states = self.states[slot] if slot < len(self.states) else None
        return states or UNKNOWN

    def by_states(self):
        """How many phones have which states."""
        return {states: count for states, count in sorted(self.phones.items(), key=str) if states and count > 0}
