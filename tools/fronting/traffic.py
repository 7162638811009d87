"""What gateways tell of phones' packets (tools/gateway), at the control socket: a line `traffic` with the number of octets that
follow it, and these, an object of JSON with the fields of `Told`.

The line is answered once somebody looks at the page or the metrics, by `wanted` with the IMSIs that are looked at, or `*` for those
that had packets; then the gateway tells again, of these phones. So while nobody looks, nothing is told and nothing is to be done. A
gateway that takes long isn't waited for: what it told last counts.
"""
import collections
import json
import typing

from tools import runs
from tools.fronting import limits

ALL = ("*",)  # of all phones: those that had packets


class Told(typing.NamedTuple):
    """What a gateway tells: its address and the network of its phones; how many phones have a tunnel, and how many stations a
    device; by what packets wait for, their number and octets; by a packet's way and why it was dropped, how many were; the packets
    and octets that came from phones, and those that went to them; and of each phone that is looked at the same four, the packets
    that were dropped, and those that wait."""
    address: str
    network: str
    contexts: int
    stations: int
    waiting: dict
    dropped: dict
    passed: list
    phones: dict


def is_number(value):
    return type(value) is int and 0 <= value < 1 << 64


def is_name(value):
    return isinstance(value, str) and 0 < len(value) <= limits.LONGEST_NAME and value.isprintable()


def are_numbers(count):
    return lambda values: isinstance(values, list) and len(values) == count and all(map(is_number, values))


def are(is_right, most=limits.MOST_REASONS_TOLD):
    """Whether something has a value that is right by each name, and not too many."""
    return lambda found: isinstance(found, dict) and len(found) <= most and all(
        is_name(name) and is_right(value) for name, value in found.items())


FORMS = {"address": is_name, "network": is_name, "contexts": is_number, "stations": is_number, "waiting": are(are_numbers(2)),
         "dropped": are(are(is_number)), "passed": are_numbers(4), "phones": are(are_numbers(6), limits.MOST_METERED)}


def read(octets):
    """What a gateway tells."""
    try:
        found = json.loads(octets)
    except (ValueError, RecursionError):
        found = None
    if not isinstance(found, dict) or found.keys() != FORMS.keys():
        raise runs.Fault("traffic is an object of JSON with %s" % ", ".join(FORMS))
    for name, is_right in FORMS.items():
        if not is_right(found[name]):
            raise runs.Fault("traffic has %s that can't be read or are too many" % name)
    return Told(**found)


class Wish:
    """Somebody's wish to be told of phones: `due` are the gateways that were asked and haven't told yet."""

    def __init__(self, imsis, is_wanted, done):
        self.imsis, self.is_wanted, self.done, self.due = imsis, is_wanted, done, None


class Traffic:
    """The gateways that tell, and who wants to know."""

    def __init__(self, front):
        self.front = front
        self.told, self.asking = {}, {}  # by guest, what it told last, and where it waits for it, what asks it again
        self.wishes = collections.deque()

    @property
    def gateways(self):
        """What each gateway that is there has told last; of those with one address the last that came."""
        self.told = {guest: told for guest, told in self.told.items() if guest.is_open}
        return list({told.address: told for told in self.told.values()}.values())

    def tell(self, guest, octets, reply):
        """A gateway tells; that is looked at beside the stations' messages."""
        self.front.aside.do(lambda: self.take(guest, octets, reply))

    def take(self, guest, octets, reply):
        """Takes what a gateway tells, which waits from then on to be asked again."""
        if not guest.is_open:
            return
        try:
            self.told[guest] = read(octets)
        except runs.Fault as fault:
            reply("fault %s" % fault)
            return
        self.asking[guest] = reply
        for wish in self.wishes:
            if wish.due is not None:
                wish.due.discard(guest)
        self.go_on()

    def want(self, imsis, is_wanted, done):
        """Calls `done` with what the gateways tell of these phones, once each has told, or didn't in time; not where nobody wants
        it any more when its turn comes."""
        self.wishes.append(Wish(imsis, is_wanted, done))
        self.go_on()

    def go_on(self):
        """Asks for the first wish, and for the next one once that is answered."""
        while self.wishes:
            wish = self.wishes[0]
            if wish.due is None and wish.is_wanted():
                self.ask(wish)
            if wish.due:
                return
            self.wishes.popleft()
            if wish.due is not None:
                wish.done(self.gateways)

    def ask(self, wish):
        """Asks those who wait to be asked."""
        asking, self.asking = {guest: ask for guest, ask in self.asking.items() if guest.is_open}, {}
        wish.due = set(asking)
        for ask in asking.values():
            ask(" ".join(("wanted", *wish.imsis)))
        if asking:
            self.front.loop.after(limits.TRAFFIC_SECONDS, lambda: self.give_up(wish))

    def give_up(self, wish):
        """Waits no longer for those who haven't told yet."""
        if wish.due:
            wish.due.clear()
            self.go_on()
