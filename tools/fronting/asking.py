"""Vectors that the front asks a source for, and gives the MME.

It asks for a phone that is here once it has few that aren't spent, for one that waits (holding.py), and after a phone's own SQN.
What comes stands in the log as lines that are given (adding.py). A source that is slow, dead or wrong has nobody else wait, and
nothing that it tells is said again, since it may be keys.
"""
import collections
import functools
import time

from tools import runs

from tools.fronting import limits
from tools.fronting.adding import Coming, Further
from tools.fronting.registering import TAKES, WORDS, Registering
from tools.fronting.source import Source

VEC, UNKNOWN, LATER = "vec", "unknown", "later"
SUPPLIED, NOTHING, LATE, ENDED = "supplied", "nothing", "late", "ended"  # how a request ends, beside the words of a source
NOT_SUPPLIED = "the source supplies no vectors for IMSI %s: %s"
WHY = {UNKNOWN: "it doesn't know it", LATER: "it says `later`", LATE: "there is no answer",
       ENDED: "it ends at the request", NOTHING: "none can be taken"}


def wanted_of(imsi, count, network, *failure):
    """A request for vectors; after the RAND and the AUTS of a failure, of those after the phone's own SQN."""
    return " ".join(["vectors", imsi, "%d" % count, *network, *(octets.hex() for octets in failure)])


class Request:
    """Vectors that are wanted for an IMSI: `failure` has the RAND and the AUTS of a phone whose SQN is ahead. Each of `after` is
    called once it is over, that of who began it with the RANDs of vectors before the phone's SQN, where there are others now.
    `lines` are those that came, `ends` how often the source ended while it was told this."""

    def __init__(self, owner, imsi, count, failure=(), after=None):
        self.owner, self.key, self.imsi, self.count, self.failure = owner, imsi, imsi, count, failure
        self.after, self.lines, self.since = [after] if after else [], [], 0.0
        self.is_told, self.ends, self.number = False, 0, 0

    @property
    def is_waited_for(self):
        """Whether somebody waits for it."""
        return bool(self.after)

    def text(self, network):
        return wanted_of(self.imsi, self.count, network, *self.failure)


class Asking:
    """The requests of a front: `under_way` by their IMSI, one of each at the most, and `queues` of those that come after. Those in
    `fresh` are still to be told, and then those in `suspects`, at one of which the source may have ended: while there are some,
    requests are told one at a time, so that one at which it always ends holds up nobody's."""

    def __init__(self, front, words, pool=None):
        self.front, self.pool = front, pool
        self.source = Source(front.loop, front.voice, words, self.take, self.begins, self.has_ended)
        self.fresh, self.suspects = collections.OrderedDict(), collections.OrderedDict()
        self.told = self.suspected = self.number = 0  # how many are told, and may have ended the source; the last that was told
        self.under_way, self.queues, self.coming = {}, {}, Coming()
        front.coming.append(self.coming)
        self.low, self.again = collections.OrderedDict(), set()  # slots whose stock is low, and who is asked for again later
        self.stocking, self.is_open = 0, False  # requests that nobody waits for; whether the source has begun
        self.is_first = True  # whether its next line is its first
        self.registering = Registering(front, self)
        self.ended, self.wrong, self.vectors = collections.Counter(), 0, 0  # requests by their ends; lines that aren't taken

    def begin_anew(self):
        """An MME begins: nobody is here."""
        self.low.clear()

    def begin(self):
        """Begins the source; who came to have few vectors in a log that was played is asked for now."""
        self.is_open, self.network = True, self.front.head.mme[1:3]
        if self.pool is not None:
            self.pool.begin(self.front.head)
        self.source.begin()
        self.stock()

    def stop(self):
        """Asks no more, and takes no answer."""
        self.is_open, self.source.is_over = False, True

    def close(self):
        self.stop()
        self.source.close()

    # What is asked.

    def note(self, slot):
        """A phone was challenged: it is here."""
        if self.front.stock.left(slot) < limits.LEAST_STOCK:
            self.low[slot] = True
            self.stock()

    def stock(self):
        """Asks for phones that have few vectors left, for some at a time."""
        while self.is_open and self.low and self.stocking < limits.MOST_STOCKING:
            slot, _ = self.low.popitem(last=False)
            left, imsi = self.front.stock.left(slot), self.front.head.imsis[slot]
            if left < limits.LEAST_STOCK and imsi not in self.under_way:
                self.stocking += 1
                self.ask(Request(self, imsi, limits.FULL_STOCK - left))

    def want(self, imsi, after, failure=()):
        """Somebody waits for vectors: `after` is called once they are given, or none come."""
        request = self.under_way.get(imsi)
        if request is None:
            self.ask(Request(self, imsi, limits.AT_ONCE, failure, after))
        elif failure:
            request = Request(self, imsi, limits.AT_ONCE, failure, after)
            self.queues.setdefault(imsi, collections.deque()).append(request)
        else:
            self.stocking -= not request.is_waited_for
            request.after.append(after)
            request.since, request.ends = time.monotonic(), min(request.ends, 1)
            self.source.hurry()

    def ask(self, request):
        request.since = time.monotonic()
        self.under_way[request.imsi] = self.fresh[request.imsi] = request
        self.tell()
        if request.is_waited_for:
            self.source.hurry()

    def tell(self):
        """Tells the source what it may be told now."""
        while self.source.is_there and not (self.told and self.suspected) and (request := self.next_request()):
            self.told, self.number = self.told + 1, self.number + 1
            request.is_told, request.number = True, self.number
            self.source.tell(request.text(self.network))

    def next_request(self):
        """What the source is told next: requests for vectors before what is said of phones."""
        queue = self.fresh or self.suspects
        return queue.popitem(last=False)[1] if queue else self.registering.next_statement()

    def begins(self):
        """The source begins, perhaps again."""
        self.is_first = True
        self.registering.begin()
        self.tell()

    def has_ended(self):
        """The source ended: what it was told is asked for again, unless it ended at that before."""
        requests = [*self.under_way.values(), *self.registering.saying.values()]
        told = [request for request in requests if request.is_told]
        self.told = 0
        for request in told:
            self.suspected += not request.ends
            request.is_told, request.ends = False, request.ends + 1
            request.owner.tell_again(request)
        if len(told) == 1 and told[0].ends == limits.MOST_ENDS:
            told[0].owner.end(told[0], ENDED)
        if any(request.is_waited_for for request in self.under_way.values()):
            self.source.hurry()

    def tell_again(self, request):
        """The source ended that was told a request; what it answered of that doesn't count."""
        request.lines = []
        self.suspects[request.key] = request

    # What is answered.

    def take(self, line):
        """The source tells a line."""
        if not self.is_open:
            return
        word, *fields = line.split(" ") if line is not None else [None]
        request = self.under_way.get(fields[0]) if fields else None
        is_first, self.is_first = self.is_first, False
        if is_first:
            self.registering.take_first(fields if word == TAKES else ())
        if word in WORDS:
            if word != TAKES or not is_first:
                self.registering.take(word, fields)
        elif word in (UNKNOWN, LATER) and len(fields) == 1 and (earlier := self.registering.earlier(fields[0], request)):
            self.source.is_of_use()
            self.registering.end(earlier, word)
        elif line is None:
            self.is_wrong("tells a line of more than %d octets" % limits.LONGEST_SUPPLIED)
        elif word not in (VEC, UNKNOWN, LATER) or not fields:
            self.is_wrong("tells a line that is no answer")
        elif request is None:
            self.is_wrong("tells of an IMSI that it wasn't asked for")
        elif word == VEC:
            request.lines.append(line)
            if len(request.lines) == request.count:
                self.end(request, SUPPLIED)
        else:
            self.source.is_of_use()
            self.end(request, word)

    def is_wrong(self, why):
        """What the source tells isn't taken."""
        self.wrong += 1
        self.source.is_wrong(why)

    def is_refused(self, number, line):
        """The MME refuses a line all the same, which stands in the log."""
        self.is_wrong("supplies what the MME doesn't take (%d): %s" % (number, " ".join(line.split(" ")[:2])))

    def end(self, request, how):
        """A request is over: what came is given, and who waits for it is told."""
        self.forget(request)
        stale = self.unspent(request.imsi) if request.failure else []
        count = self.give(request)
        how = SUPPLIED if count else NOTHING if how == SUPPLIED else how
        self.ended[how] += 1
        if count:
            self.source.is_of_use()
        else:
            self.source.say("not_supplied", NOT_SUPPLIED % (request.imsi, WHY[how]))
        if how in (LATER, LATE, ENDED):
            self.ask_later(self.front.head.slots.get(request.imsi))
        for place, after in enumerate(request.after):
            after(stale if count and not place else [])
        self.ask_next(request.imsi)
        self.tell()
        self.stock()

    def forget(self, request):
        """A request isn't under way any more."""
        for requests in (self.under_way, self.fresh, self.suspects):
            requests.pop(request.imsi, None)
        self.stocking -= not request.is_waited_for
        self.settle(request)

    def settle(self, request):
        """The source isn't to answer a request any more."""
        self.told -= request.is_told
        self.suspected -= request.ends > 0

    def ask_later(self, slot):
        """A phone's vectors are asked for again after a while."""
        if slot is not None and slot not in self.again:
            self.again.add(slot)
            self.front.loop.after(limits.LATER_SECONDS, functools.partial(self.note_again, slot))

    def note_again(self, slot):
        """Perhaps there is something for a phone now."""
        self.again.discard(slot)
        self.note(slot)

    def ask_next(self, imsi):
        """Asks what waited for a request of this IMSI to be over."""
        if queue := self.queues.get(imsi):
            self.ask(queue.popleft())
            if not queue:
                del self.queues[imsi]

    def unspent(self, imsi):
        """The RANDs of a phone's vectors that the MME has, those among them that it is about to be given."""
        slot = self.front.head.slots.get(imsi)
        coming = [bytes.fromhex(rand) for rand in self.coming.rands_of(imsi)]
        return list(dict.fromkeys(coming + (self.front.stock.unspent(slot) if slot is not None else [])))

    def give(self, request):
        """Gives the MME what came of a request, after a line `sub` where nobody is provisioned with the IMSI; how many vectors."""
        front, exchange = self.front, self.front.exchange
        further = Further(front.head, front.stock, front.used, front.form, front.coming)
        try:
            if request.lines and not further.has(request.imsi):
                further.take(self.pool.line(request.imsi, front.head.places, *(one.places for one in front.coming)))
        except runs.Fault as fault:
            self.is_wrong("can't have IMSI %s be added: %s" % (request.imsi, fault))
            return 0
        added = len(further.lines)
        for line in request.lines:
            try:
                further.take(line)
            except runs.Fault as fault:
                self.is_wrong("tells what can't be taken for IMSI %s: %s" % (request.imsi, str(fault).partition(": ")[2]))
        count = len(further.lines) - added
        if count:
            exchange.keep_unknown(further.imsis)
            for line in further.lines:
                exchange.put(runs.FURTHER + line)
            exchange.batch.has_further = True
            self.coming.add(further)
            exchange.batch.after.append(functools.partial(self.coming.remove, further))
            self.vectors += count
        return count

    # What takes too long.

    def look(self, now):
        """Ends requests that take too long, and a source that tells nothing any more."""
        late = [request for request in (*self.under_way.values(), *self.registering.saying.values())
                if now - request.since > limits.SUPPLY_SECONDS and (request.is_told or request.owner is self)]
        if late and self.source.is_there and now - self.source.useful_at > limits.SUPPLY_SECONDS:
            self.source.end("has answered nothing for %d s, and is ended" % limits.SUPPLY_SECONDS)
        for request in late:
            request.owner.end(request, LATE)
