#!/usr/bin/env python3
"""A storm of phones while tools/front is given them and their vectors, and is killed, again and again: does it lose what was given,
give it twice, or use anything twice?

    gives.py [--seconds N | --runs N] [--phones N] [--vectors N] [--seed N] [--sctp] [--ends WORD ..] [-- WORD ..]

The storm is that of kills.py, with the MME in the front's own process (--library). Half of the phones are in the subscribers' file
when it begins, with two vectors each. All else comes while it runs, a few lines at a time: each is put at the end of the file, and
then given. A phone uses a vector only once the front has said that it was given; what wasn't answered when the front was killed it
gives by itself at its next start. In the end the log has each line once, in the file's order.
"""
import collections
import contextlib
import pathlib
import socket
import sys
import tempfile

sys.dont_write_bytecode = True
if __name__ == "__main__":
    sys.path[0] = str(pathlib.Path(__file__).resolve().parent.parent)
from bench import ends, kills, wire
from reference import phones
from tools import runs

FIRST_VECTORS = 2  # of each phone that is there from the beginning
MOST_LINES, MOST_PART = (1, 12), 0.2  # that are given together, or a part of what is to come, which may be several turns
OFTEN, EARLY = 0.3, 0.1  # the share of turns in which something is given, while no more than this is given too early
NOTHING = b"give 0\n"
IS_GIVEN = "given 0 subscribers, 0 vectors\n"
BUSY = b"fault something is being given already\n"
ANSWERED, BY_NEXT, LINES = "gives that were answered", "gives by the next run", "lines that were given"
# Ends after which the next run goes on with what stands.
ENDS = {word: ends.ENDS[word] for word in ("kill", "clean", "mme", "disk")}


class Storm(kills.Storm):
    """Phones that are given to a front by and by: `later` has the lines that are still to come, `asking` who waits for an answer to
    the last lines, and `owed` these lines."""

    ENDS = ENDS

    def provision(self):
        """The subscribers' file as it begins."""
        self.later, self.owed, self.asking, self.got = collections.deque(), [], None, b""
        super().provision()
        path, half = self.folder / "subscribers", {phone.imsi for phone in self.radio.phones[:len(self.radio.phones) // 2]}
        begun, counts = [], collections.Counter()
        for line in path.read_text().splitlines():
            word, imsi = line.split(" ")[:2]
            counts[word, imsi] += 1
            is_there = word == "mme" or imsi in half and counts[word, imsi] <= FIRST_VECTORS
            (begun if is_there else self.later).append(line)
        self.mix()
        self.count = len(self.later)
        path.write_text("\n".join(begun) + "\n")
        for phone in self.radio.phones:
            phone.vectors = phone.vectors[:FIRST_VECTORS] if phone.imsi in half else []

    def mix(self):
        """What is to come, each phone's lines in their order, among those of others."""
        lines = collections.defaultdict(collections.deque)
        for line in self.later:
            lines[line.split(" ")[1]].append(line)
        subscribers = [line for line in self.later if line.startswith("sub ")]
        self.later.clear()
        while lines:
            imsi = self.chance.choice(sorted(lines))
            line = lines[imsi][0]
            if line.startswith("sub ") and line != subscribers[0]:
                continue  # slots are in the order of the phones
            if line.startswith("sub "):
                subscribers.pop(0)
            self.later.append(lines[imsi].popleft())
            if not lines[imsi]:
                del lines[imsi]

    def begin(self, *words, seconds=None):
        """A phone that the front wasn't given yet has no states there."""
        serves = super().begin(*words, seconds=seconds)
        states = self.run.states
        self.run.states = lambda: collections.defaultdict(str, states())
        return serves

    def act(self):
        """Now and then something is given."""
        if self.asking is not None:
            self.hears_answer()
        elif not self.radio.is_ending and self.chance.random() < OFTEN and len(self.later) > self.count * (1 - EARLY - self.part()):
            self.gives()
        super().act()

    def go_on_ending(self):
        """Something is being given as the run ends."""
        if self.asking is None:
            self.gives()
        super().go_on_ending()

    def gives(self):
        """Gives some lines, which stand in the file before."""
        if self.owed or not self.later:
            return
        most = self.chance.choice((*MOST_LINES, 1 + int(MOST_PART * len(self.later))))
        self.owed = [self.later.popleft() for _ in range(min(len(self.later), self.chance.randint(1, most)))]
        with open(self.folder / "subscribers", "a", encoding="ascii") as file:
            file.write("".join(line + "\n" for line in self.owed))
        self.asks()

    def asks(self):
        """Has the front be given what is owed, and doesn't wait."""
        text = "".join(line + "\n" for line in self.owed).encode()
        self.asking, self.got = socket.socket(socket.AF_UNIX), b""
        self.asking.setblocking(False)
        with contextlib.suppress(OSError):
            self.asking.connect(str(self.run.control))
            self.asking.send(b"give %d\n%s" % (len(text), text))

    def hears_answer(self):
        """Looks whether the front has answered."""
        try:
            piece = self.asking.recv(wire.PIECE)
        except BlockingIOError:
            return
        except OSError:
            piece = b""
        self.got += piece
        if piece and not self.got.endswith(b"\n"):
            return
        self.asking.close()
        self.asking, answer = None, self.got
        if answer == BUSY:
            self.asks()
        elif answer.startswith(b"given "):
            self.have_come(ANSWERED)
        elif answer and not answer.startswith(b"refused: "):
            self.watch.violates("lines aren't given: %r: %r" % (self.owed, answer))

    def have_come(self, what):
        """What was owed was given."""
        self.counted[what] += 1
        self.counted[LINES] += len(self.owed)
        by_imsi = {phone.imsi: phone for phone in self.radio.phones}
        for line in self.owed:
            word, imsi, *fields = line.split(" ")
            if word == "vec":
                phone = by_imsi[imsi]
                phone.vectors = [*phone.vectors, phone.by_rand[bytes.fromhex(fields[0])]]
        self.owed = []

    def close(self, number=kills.signal.SIGKILL):
        super().close(number)
        if self.asking is not None:
            self.asking.close()
            self.asking = None

    def look_after_beginning(self):
        """What wasn't answered is given by now, or by and by."""
        while self.owed:
            answer = self.asks_for_nothing()
            if answer == IS_GIVEN:
                self.have_come(BY_NEXT)
            elif answer != BUSY.decode():
                self.watch.violates("nothing can be given: %r" % answer)
                break
        super().look_after_beginning()

    def asks_for_nothing(self):
        return self.run.asks(NOTHING.decode().rstrip("\n"))

    def blow(self):
        """At the end the log has each line once."""
        super().blow()
        log = b"".join(path.read_bytes() for path in [*sorted(self.folder.glob("log.segment.*")), self.folder / "log"])
        standing = [line for line in log.decode().splitlines() if line.startswith(("mme ", "sub ", "vec ", runs.FURTHER))]
        if "--log-keys" not in self.given.words:
            lines = (self.folder / "subscribers").read_text().splitlines()
            if [line.removeprefix(runs.FURTHER) for line in standing] != lines:
                self.watch.violates("the log has other lines than the subscribers' file")
        self.say("%9d lines in the log that were given, of %d" % (
            sum(line.startswith(runs.FURTHER) for line in standing), len(standing)))
        return len(self.watch.violations)


def main():
    words = kills.parser(__doc__, Storm)
    given = words.parse_args()
    given.mme = wire.LIBRARY
    with contextlib.ExitStack() as after:
        folder = given.folder or after.enter_context(tempfile.TemporaryDirectory())
        pathlib.Path(folder).mkdir(exist_ok=True)
        return 1 if Storm(given, folder).blow() else 0


if __name__ == "__main__":
    sys.exit(main())
