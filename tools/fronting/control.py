"""The control socket: its lines and their answers."""
import json
import weakref

from tools import runs

from tools.fronting import limits, status
from tools.fronting.guests import Door

WORDS = {"data": 1, "cancel": 1, "show": 1, "give": 1, "stations": 0, "phones": 0, "counters": 0, "health": 0, "bearers": 0,
         "tunnel": 1, "release": 3, "traffic": 1}
OF_STANDBY = "stations", "phones", "counters", "health"  # what a front answers that only follows the log in a store
NOT_LEADING = "refused: this front stands by, and another one leads"
NOBODY = "refused %d: %s" % (runs.UNKNOWN_IMSI, runs.REFUSALS[runs.UNKNOWN_IMSI])


def parted(octets, begin, end):
    """What stands between two places, and what comes after it; of something long without a copy."""
    if isinstance(octets, bytes):
        return octets[begin:end], octets[end:]
    rest = bytes(octets[end:])
    del octets[end:], octets[:begin]
    return octets, rest


class Control:
    """Answers those who ask, each line after the one before."""

    def __init__(self, front, listener):
        self.front, self.answered = front, WORDS  # the second has the words that aren't refused for now
        self.lengths = {b"give": limits.LONGEST_ADDED, b"traffic": limits.LONGEST_TRAFFIC}  # octets that may follow such a line
        self.busy = weakref.WeakSet()  # guests whose line isn't answered yet, and those that follow the tunnels
        self.door = Door(front.loop, listener, limits.MOST_ASKING, limits.LONGEST_ADDED + limits.LONGEST_ASKED,
                         limits.ASKING_SECONDS, self.take)

    def take(self, guest, received):
        """Answers the lines that are whole; returns what is left."""
        while guest not in self.busy and guest.is_open:
            end = received.find(b"\n")
            if end < 0 or end > limits.LONGEST_ASKED:
                if len(received) > limits.LONGEST_ASKED:
                    guest.close()
                break
            line = bytes(received[:end])
            length, begin = self.length_of(line), end + 1
            if len(received) < begin + (length or 0):
                guest.wanted = begin + length
                break
            text, received = parted(received, begin, begin + (length or 0))
            self.answer(guest, line, None if length is None else text)
        return received

    def length_of(self, line):
        """How many octets follow a line that has their number, or nothing for another line."""
        word, _, count = line.partition(b" ")
        if not count.isdigit() or len(count) > 9 or int(count) > self.lengths.get(word, -1):
            return None
        return int(count)

    def answer(self, guest, line, text):
        """Does what a line says, and answers it once that is done."""
        self.busy.add(guest)
        guest.wait()
        now = True

        def reply(answer):
            self.busy.discard(guest)
            guest.say((answer + "\n").encode())
            if not now:
                guest.go_on()

        try:
            word, fields = runs.fields_of(line, WORDS)
            if word not in self.answered:
                reply(NOT_LEADING)
            elif word in ("data", "cancel", "show"):
                self.tell_mme(word, runs.imsi_of(fields[0]), reply)
            elif word.encode() in self.lengths:
                self.take_text(guest, word, text, reply)
            elif word == "bearers":
                self.front.followers.follow(guest)
            elif word in ("tunnel", "release"):
                reply(self.of_tunnel(word, *fields))
            elif word == "health":
                self.front.exchange.ask([], None, lambda: reply("serves" if self.answered is WORDS else "follows"))
            elif word == "phones":
                status.phones(self.front, lambda: guest.is_open, lambda told: reply("phones " + told))
            else:
                found = status.stations(self.front) if word == "stations" else status.counters(self.front)
                reply("%s %s" % (word, json.dumps(found)))
        except runs.Fault as fault:
            reply("fault %s" % fault)
        now = False

    def tell_mme(self, word, imsi, reply):
        """A line of a trace, for one who is provisioned."""
        if imsi not in self.front.head.slots:
            reply(NOBODY)
            return
        exchange, line = self.front.exchange, "%s %s" % (word, imsi)
        note = lambda answer: reply("state %s %s" % (answer.imsi, answer.states))
        if word == "show" and self.front.was_given(imsi):
            exchange.ask([line], note, lambda: None)
            return
        exchange.put(line)
        if word == "show":
            exchange.shows.append(note)
        else:
            exchange.when_kept(lambda: reply("taken"))
            if word == "cancel":
                self.front.note_cancelled(self.front.head.slots[imsi])

    def of_tunnel(self, word, imsi, *end):
        """Tells of a phone's tunnel, or has it be released where it leads to this end."""
        slot = self.front.head.slots.get(runs.imsi_of(imsi))
        if slot is None:
            return NOBODY
        if word == "tunnel":
            return "tunnel %s" % self.front.followers.words(slot)
        return self.front.followers.release(slot, *end)

    def take_text(self, guest, word, text, reply):
        """A line with octets after it: further subscribers and vectors, or a gateway's counters."""
        if text is None:
            raise runs.Fault("%s has the number of octets that follow, up to %d" % (word, self.lengths[word.encode()]))
        if word == "give":
            self.front.give(text, reply)
        else:
            self.front.traffic.tell(guest, text, reply)

    def close(self):
        self.door.close()
