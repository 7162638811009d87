"""Runs of phones that leave in each way, and then again, and what is to be found of them and what isn't."""
import pathlib
import subprocess

from soizkadur.standards import phones
from tests.secrets.leaving import WAYS, SavingScene, Scene
from tests.secrets.played import Phone, Played, random_vector
from tests.secrets.residue import Secret, of_context, of_vector
from tests.secrets.searching import searched

HERE = pathlib.Path(__file__).resolve().parent
LATER, STAYING = "later", "registered"
STACK = "stack"  # the region of a program's memory
UNSPENT = 2  # of the phone that stays


class Run:
    """The phones of all rounds, and what is looked for."""

    KIND, SCENE = Phone, Scene

    def __init__(self, words, rounds):
        self.trace = Played(words)
        self.scene = self.SCENE(self.trace)
        self.count = 0
        self.staying = self.phone(1 + UNSPENT, STAYING)
        self.rounds = [{way: [self.phone(vectors, way if turn == 0 else LATER) for vectors in given] for way, given in WAYS.items()}
                       for turn in range(rounds)]

    def phone(self, vectors, whose):
        """One more phone."""
        self.count += 1
        return self.KIND(self.trace, self.count - 1, vectors, whose)

    def each(self, *turns):
        """The phones of these rounds."""
        return [phone for turn in turns for several in turn.values() for phone in several]

    def begin(self):
        """The MME, the phones, their vectors one by one, and the stations; each third line of a vector comes in two pieces."""
        self.trace.provision([])
        every = [self.staying, *self.each(*self.rounds)]
        for phone in every:
            self.trace.say(phone.line)
        for phone in every:
            for at, vector in enumerate(phone.vectors):
                say = self.trace.say if (phone.slot + at) % 3 else self.trace.say_in_parts
                say(vector.words(phone.imsi))
        self.scene.set_up()

    def play_round(self, turn):
        """All that the phones of a round do."""
        for way, several in turn.items():
            getattr(self.scene, way.replace(" ", "_"))(*several)

    def play(self):
        """All that the phones do, and what overwrites the room for lines."""
        self.begin()
        self.scene.attaches(self.staying, self.scene.apart)
        for turn in self.rounds:
            self.play_round(turn)
        self.trace.say("show " + self.staying.imsi)
        self.trace.answers.append("state %s %s" % (self.staying.imsi, phones.CONNECTED))
        for _ in range(2):
            self.trace.fill("# a line of no account, which is as long as many others, and has no secret of anybody in it")
            self.trace.fill("show " + self.staying.imsi, "state %s %s" % (self.staying.imsi, phones.CONNECTED))
        self.trace.say_in_parts("# " + 1000 * "a line in two pieces ")
        self.trace.say("# the last line")

    def memory(self):
        """What the program has in memory after that."""
        try:
            self.play()
            return self.trace.memory()
        finally:
            self.trace.end()

    def found_before(self):
        """What was looked for while the phones were there: names with what is wrong, if anything."""
        return ()

    def left(self):
        """The secrets of phones that left, and those of one that is registered which it needs no more."""
        needless = [secret for secret in self.staying.secrets() if secret.kind == "XRES"]
        return [secret for phone in self.each(self.rounds[0]) for secret in phone.secrets()] + needless

    def later(self):
        """Those of the phones that came after them."""
        return [secret for phone in self.each(*self.rounds[1:]) for secret in phone.secrets()]

    def there(self):
        """The secrets that have to be found, each under the name of what it is."""
        for vector in self.staying.unused:
            for kind, octets in of_vector(vector):
                yield "%s of a vector that isn't spent" % kind, octets
        for kind, octets in of_context(self.staying.keyed[0]):
            if kind in ("HMAC's states", "NAS integrity key"):
                yield "%s of a phone that is registered" % kind, octets
        yield "KeNB of a phone that is registered", self.staying.radio_key


# --- What comes while the MME runs ---

TOLD, TOLD_NO_MEMORY, TOLD_NOBODY, TOLD_PROVISION = "told 0", "told 4", "told 5", "told 17"  # by live.c, the numbers of soizkadur.h
MOST_VECTORS = 64  # of a subscriber that aren't spent
UNHEARD = "001010000000777"  # an IMSI that nobody has


class LatePhone(Phone):
    """A phone with half of its vectors before it speaks, and one more at each challenge."""

    def __init__(self, *given):
        super().__init__(*given)
        self.there = 0  # how many the MME was given
        self.looks, self.unseen = 0, 0  # how many of them were looked for, and weren't found

    def is_given(self, count):
        """The MME is given so many of its vectors more, as far as it has them."""
        for vector in self.vectors[self.there:self.there + count]:
            self.trace.say(vector.words(self.imsi))
            self.trace.answers.append(TOLD)
            self.there += 1
            self.looks_for(vector)

    def looks_for(self, vector):
        """Looks for a vector that isn't spent, of a phone that is looked for."""
        if self.whose != LATER:
            memory = self.trace.memory()
            self.looks += 1
            self.unseen += not all(any(octets in region.octets for region in memory) for _, octets in of_vector(vector))

    def asks_to_attach(self, *given, **choices):
        super().asks_to_attach(*given, **choices)
        self.is_given(1)

    def is_out_of_step(self, *given):
        super().is_out_of_step(*given)
        self.is_given(1)


class LateRun(Run):
    """A run of phones that are provisioned while the MME runs, with vectors that are refused in each round. The MME is saved again
    and again."""

    KIND, SCENE = LatePhone, SavingScene

    def __init__(self, words, rounds):
        super().__init__(words, rounds)
        self.full = self.phone(MOST_VECTORS, "full")
        self.needy = [self.phone(2, "needy") for _ in range(rounds)]
        self.refused = []

    def looked_for(self):
        """The phones whose vectors are looked for while they aren't spent."""
        return [self.staying, *self.each(self.rounds[0]), self.full, *self.needy]

    def others(self):
        """The phones that come after them."""
        return self.each(*self.rounds[1:])

    def begin(self):
        self.trace.provision([])
        self.scene.set_up()
        every = [*self.looked_for(), *self.others()]
        for phone in sorted(every, key=lambda phone: phone.slot):
            self.trace.say(phone.line)
            self.trace.answers.append(TOLD)
        for phone in every:
            phone.is_given((len(phone.vectors) + 1) // 2)
        for phone in self.full, *self.needy:
            phone.is_given(len(phone.vectors))

    def play_round(self, turn):
        super().play_round(turn)
        needy = self.needy[self.rounds.index(turn)]
        self.is_refused(turn, "the 65th", self.full.imsi, TOLD_PROVISION)
        self.trace.say("refuse 1")  # (which the third vector needs, since there is room for two)
        self.is_refused(turn, "without memory", needy.imsi, TOLD_NO_MEMORY)
        self.is_refused(turn, "of nobody", UNHEARD, TOLD_NOBODY)

    def is_refused(self, turn, why, imsi, told):
        """A vector is refused in a round."""
        vector = random_vector(16)
        self.trace.say(vector.words(imsi))
        self.trace.answers.append(told)
        if turn is self.rounds[0]:
            self.refused += [Secret(why, kind, octets) for kind, octets in of_vector(vector)]

    def found_before(self):
        for phone in self.looked_for():
            wrong = "%d of %d vectors aren't found" % (phone.unseen, phone.looks)
            yield "vectors given to one %s" % phone.whose, wrong if phone.unseen or not phone.looks else None

    def left(self):
        return super().left() + self.refused

    def there(self):
        yield from super().there()
        for phone in self.full, *self.needy:
            for vector in phone.vectors:
                yield from (("%s of %s" % (kind, phone.whose), octets) for kind, octets in of_vector(vector))


EARLY = {"restored challenged": 1, "restored in security mode": 1, "restored connected": 1, "restored idle": 2}


class RestoredRun(LateRun):
    """The same of an MME that another process goes on from, restored while phones are challenged, in security mode and registered. In
    each later round others are so when the MME is restored again. Each time the same octets but the last one are refused before:
    nothing stands then of the MME that has ended, and nothing of the octets."""

    def __init__(self, words, rounds):
        super().__init__(words, rounds)
        self.stale = []  # for each time that octets were refused, where secrets stood then
        self.early = [self.phone(vectors, way) for way, vectors in EARLY.items()]
        self.followers = [[self.phone(vectors, LATER) for vectors in EARLY.values()] for _ in self.rounds[1:]]

    def looked_for(self):
        return super().looked_for() + self.early

    def others(self):
        return super().others() + [phone for several in self.followers for phone in several]

    def left(self):
        return super().left() + [secret for phone in self.early for secret in phone.secrets()]

    def later(self):
        return super().later() + [secret for several in self.followers for phone in several for secret in phone.secrets()]

    def come(self, challenged, secured, connected, idle):
        """Phones come to be as their names say."""
        for phone in challenged, secured:
            self.scene.challenges(phone)
        secured.authenticates()
        for phone in connected, idle:
            self.scene.attaches(phone)
        idle.is_released()

    def go(self, challenged, secured, connected, idle):
        """They leave."""
        challenged.gives_any_res()
        secured.rejects_security()
        connected.detaches()
        idle.detaches_from_idle(self.scene.there, self.scene.next())

    def refuse(self, snapshot):
        """What is no snapshot is refused, and nobody's secrets stand anywhere but on the stack."""
        memory = [region for region in self.trace.is_refused(snapshot) if region.name != STACK]
        phones = [*self.looked_for(), *self.others()]
        given = [Secret(phone.whose, kind, octets) for phone in phones for vector in phone.vectors[phone.place:phone.there]
                 for kind, octets in of_vector(vector)]
        self.stale.append(searched(given + [secret for phone in phones for secret in phone.secrets()], memory))

    def begin(self):
        super().begin()
        self.come(*self.early)
        snapshot = self.trace.snapshot()
        self.refuse(snapshot)
        self.trace.begins_again()
        self.refuse(snapshot)
        self.trace.restores(snapshot)
        self.go(*self.early)

    def play_round(self, turn):
        super().play_round(turn)
        if turn is not self.rounds[0]:
            several = self.followers[self.rounds.index(turn) - 1]
            self.come(*several)
            snapshot = self.trace.snapshot()
            self.refuse(snapshot)
            self.trace.restores(snapshot)
            self.go(*several)

    def found_before(self):
        yield from super().found_before()
        for number, places in enumerate(self.stale, 1):
            kinds = sorted({place.secret.kind for place in places})
            yield "octets that were refused, time %d" % number, "%d places have %s" % (len(places), kinds) if places else None


def live_program(library, room):
    """The words of the program of live.c over the library in a folder. The loader binds the C library's functions as the program
    begins: where it binds one at its first call, it saves registers on the stack, with what they hold of a key."""
    program = pathlib.Path(room, "live")
    subprocess.run(["gcc", "-std=c11", "-O2", "-Wall", "-Wextra", "-Wpedantic", "-Werror", "-I", library, HERE / "live.c",
                    library / "libsoizkadur.a", "-Wl,--wrap=malloc,--wrap=realloc", "-Wl,-z,now", "-o", program], check=True)
    return [program]
