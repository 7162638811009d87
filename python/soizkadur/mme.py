"""An MME: what it is provisioned with, its events, and what it sends."""
import ctypes
import enum
import threading
from collections.abc import Iterable, Iterator
from typing import NamedTuple, NoReturn, Self

from . import library
from .refusals import SAVED, Refusal, Refused, check, within

MOST_OCTETS = 16388  # of a message that the MME sends
PART_OCTETS = 8192  # of a part of a snapshot, as a rule at most
MOST_WORK = 10_000_000  # keys that are derived for a snapshot; some ten seconds
TEXT_OCTETS = 1 << 18  # of answers that one call of the library writes
EVENTS = (b"up", b"lost", b"in", b"tick", b"data", b"cancel")


class Owner(enum.IntEnum):
    """For whom a message is sent."""

    STATION = 1
    STRANGER = 2
    SUBSCRIBER = 3


_OWNERS = {owner.value: owner for owner in Owner}


class Out(NamedTuple):
    """A message that the MME sends to a station.

    `number` is its owner's: the station, the subscriber's slot, or of a stranger 2^31 + its station * 2^24 + its eNB UE S1AP ID.
    `station` is the one that it is sent to."""

    owner: Owner
    number: int
    station: int
    octets: bytes

    def __str__(self) -> str:
        """The line that `mme play` prints for it."""
        if self.owner is Owner.STRANGER:
            owner = "x%d.%d" % (self.number >> 24 & 0x7F, self.number & 0xFFFFFF)
        else:
            owner = "%s%d" % ("e" if self.owner is Owner.STATION else "s", self.number)
        return "out %s %d %s" % (owner, self.station, self.octets.hex())


class EmmState(enum.IntEnum):
    """TS 24.301 clause 5.1.3."""

    DEREGISTERED = 0
    COMMON_PROCEDURE_INITIATED = 1
    REGISTERED = 2
    DEREGISTERED_INITIATED = 3


class EcmState(enum.IntEnum):
    """TS 23.401 clause 4.6.3."""

    IDLE = 0
    CONNECTED = 1


class EsmState(enum.IntEnum):
    """Of the default bearer, TS 24.301 clause 6.1.3."""

    INACTIVE = 0
    ACTIVE_PENDING = 1
    ACTIVE = 2


class States(NamedTuple):
    """A subscriber's states. No state waits for UE CONTEXT RELEASE COMPLETE: at the event that sends AUTHENTICATION REJECT a phone
    is DEREGISTERED, IDLE and INACTIVE."""

    emm: EmmState
    ecm: EcmState
    esm: EsmState

    def __str__(self) -> str:
        """The words that `mme play` prints for them."""
        return " ".join(state.name.replace("_", "-") for state in self)


Reply = list[Out] | Refusal  # what came of one tick


def _octets(text: str | bytes) -> bytes:
    return text if isinstance(text, bytes) else text.encode(errors="surrogateescape")


def _sized(*parts: bytes) -> list[bytes | int]:
    """Each of these octets with its length."""
    return [given for part in parts for given in (part, len(part))]


class Mme:
    """One MME. It begins with nothing: `from_lines` makes one of provisioning lines, or lines, or `provision`, `add`, `give` and
    `start` make it one by one. While it runs, `add_live` and `give_live` provision further subscribers and vectors, `save` makes a
    snapshot of it, and `restored` an MME of a snapshot.

    As a context manager it is closed at its end, which frees its memory; `close` does so earlier. It stays on the thread that first
    used it, which is checked here, and can't be copied or pickled.
    """

    def __init__(self) -> None:
        self._calls = library.calls()
        self._handle = library.Handle()
        # What replies are written into, made once: an event takes but some microseconds.
        self._count, self._output = ctypes.c_size_t(), library.Output()
        self._buffer = ctypes.create_string_buffer(MOST_OCTETS)
        self._written = memoryview(self._buffer)
        self._played, self._text = library.Played(), None
        self._thread: int | None = None

    @classmethod
    def from_lines(cls, lines: str | bytes | Iterable[str | bytes]) -> Self:
        """An MME of the provisioning lines of a trace, started: `mme COUNTRY NETWORK GROUP CODE APN DOWN UP` first and once,
        `sub IMSI ADDRESS GATEWAY TUNNEL`, and below it `vec IMSI RAND AUTN XRES KASME`; octets, addresses and ids are in hex
        (README.md, "A trace").

        Refused: UNKNOWN_WORD to PROVISION, with the line's number; NO_MEMORY or LOST."""
        if not isinstance(lines, (str, bytes)):
            lines = b"\n".join(map(_octets, lines))
        mme, given, fault = cls(), _octets(lines), library.Fault()
        answer = mme._call("new", given, len(given), fault)
        if answer:
            raise Refused(answer, fault.line)
        return mme

    @classmethod
    def restored(cls, octets: bytes, work: int = MOST_WORK) -> Self:
        """The MME of a snapshot, which runs, and has no replies until the next event. Any octets may be given; `work` is how many
        next hops may be derived, one for each path switch since a phone's last KeNB.

        Refused: OTHER_VERSION, NO_SNAPSHOT, both with a place, TOO_MUCH_WORK, NO_MEMORY."""
        mme, place = cls(), ctypes.c_uint64()
        answer = mme._call("restore", octets, len(octets), within(work, 64), place)
        if answer:
            told = answer in (Refusal.OTHER_VERSION, Refusal.NO_SNAPSHOT)
            raise Refused(answer, place=place.value if told else None)
        return mme

    # --- The handle ---

    def _call(self, name: str, *given) -> int:
        here = threading.get_ident()
        if self._thread is None:
            self._thread = here
        if self._thread != here:
            raise RuntimeError("an Mme stays on the thread that first used it")
        return self._calls[name](self._handle, *given)

    def _take(self, name: str, *given) -> None:
        check(self._call(name, *given))

    def close(self) -> None:
        """Frees what the MME has and leaves it empty, as after `Mme()`. Closing it twice does no harm."""
        self._call("free")

    def __enter__(self) -> Self:
        return self

    def __exit__(self, *_) -> None:
        self.close()

    def __del__(self) -> None:
        if getattr(self, "_thread", None) == threading.get_ident():
            self._calls["free"](self._handle)

    def __copy__(self) -> NoReturn:
        raise TypeError("an Mme can't be copied")

    def __deepcopy__(self, memo: object) -> NoReturn:
        self.__copy__()

    def __reduce__(self) -> NoReturn:
        raise TypeError("an Mme can't be pickled")

    # --- Provisioning ---

    def provision(self, plmn: bytes, group: int, code: int, apn: str, down: int, up: int) -> None:
        """Begins the provisioning. `plmn` is the network in 3 octets (TS 36.413 clause 9.2.3.8); `group` has 16 bits and `code` 8;
        `down` and `up` are bits a second, 1 to 10^10.

        Refused: BAD_OCTETS, BAD_NUMBER, ORDER, NO_MEMORY."""
        name = _octets(apn)
        self._take("provision_new", plmn, len(plmn), within(group, 16), within(code, 8), name, len(name), within(down, 64),
                   within(up, 64))

    def add(self, imsi: str, address: int, gateway: int, teid: int) -> None:
        """Provisions a subscriber, whose slot is the next one: its IPv4 address, its S-GW's, and the S-GW's tunnel end.

        Refused: NO_MME, BAD_NUMBER, ORDER, PROVISION, NO_MEMORY."""
        self._take("add", *_sized(_octets(imsi)), within(address, 32), within(gateway, 32), within(teid, 32))

    def give(self, imsi: str, rand: bytes, autn: bytes, xres: bytes, kasme: bytes) -> None:
        """Gives a subscriber one more authentication vector (TS 33.401 clause 6.1.2): RAND and AUTN of 16 octets, XRES of 4 to 16,
        KASME of 32.

        Refused: NO_MME, BAD_NUMBER, BAD_OCTETS, ORDER, PROVISION, NO_MEMORY."""
        self._take("give", *_sized(_octets(imsi), rand, autn, xres, kasme))

    def start(self) -> None:
        """Starts an MME with what is provisioned; if it runs already, nothing changes. Refused: NO_MME, ORDER, LOST."""
        self._take("start")

    # --- Provisioning while it runs ---

    def add_live(self, imsi: str, address: int, gateway: int, teid: int) -> None:
        """Provisions a further subscriber of an MME that runs: its slot is the next one, and it has no vectors. Nothing is sent,
        and the replies of the last event stay.

        Refused: BAD_NUMBER, NO_MME, PROVISION, NO_MEMORY."""
        self._take("add_live", *_sized(_octets(imsi)), within(address, 32), within(gateway, 32), within(teid, 32))

    def give_live(self, imsi: str, rand: bytes, autn: bytes, xres: bytes, kasme: bytes) -> None:
        """Gives a subscriber of an MME that runs one more authentication vector, after all others of it; 64 may be there that
        aren't spent. Nothing is sent, and the replies of the last event stay.

        Refused: BAD_NUMBER, BAD_OCTETS, NO_MME, UNKNOWN_IMSI, PROVISION, NO_MEMORY."""
        digits = _octets(imsi)
        check(self._call("give_live", digits, len(digits), rand, len(rand), autn, len(autn), xres, len(xres), kasme, len(kasme)))

    # --- Saving ---

    def parts(self) -> Iterator[bytes]:
        """The parts of a snapshot, which is all of them one after another, if nothing happens to the MME between them. They have
        the keys of its phones. `restored` makes an MME of it that replies to every event as this one would have.

        Refused: NO_MME, NOT_SAVED, NO_MEMORY."""
        place, length = ctypes.c_uint64(), ctypes.c_size_t()
        buffer = ctypes.create_string_buffer(PART_OCTETS)
        while place.value != SAVED:
            answer = self._call("save", place, buffer, len(buffer), length)
            if answer == Refusal.NO_ROOM:
                buffer = ctypes.create_string_buffer(length.value)
                continue
            check(answer)
            yield memoryview(buffer)[:length.value].tobytes()

    def save(self) -> bytes:
        """A snapshot: all parts. Refused as `parts`."""
        return b"".join(self.parts())

    # --- Events ---

    def up(self, station: int) -> list[Out]:
        """A station connects. Refused: NO_MME, BAD_NUMBER, ALREADY_UP, NO_MEMORY."""
        self._take("up", within(station, 8))
        return self._messages(0)

    def lost(self, station: int) -> list[Out]:
        """A station's connection is lost. Refused: NO_MME, BAD_NUMBER, NOT_UP, NO_MEMORY."""
        self._take("lost", within(station, 8))
        return self._messages(0)

    def receive(self, station: int, octets: bytes) -> list[Out]:
        """A station sends one whole S1AP message. `in_` is the same call. Refused: NO_MME, BAD_NUMBER, NOT_UP, NO_MEMORY."""
        self._take("in", within(station, 8), octets, len(octets))
        return self._messages(0)

    in_ = receive

    def tick(self, seconds: int = 1) -> list[Reply]:
        """Seconds pass, 1 to 1000000. There is a reply for each: what is sent at it, or why it was refused (CLOCK_SPENT,
        NO_MEMORY), and then it changed nothing. The call is refused as a whole: NO_MME, BAD_NUMBER, NO_MEMORY."""
        self._take("tick", within(seconds, 32))
        return self.replies()

    def data(self, imsi: str) -> list[Out]:
        """Downlink data waits for a subscriber. Refused: NO_MME, BAD_NUMBER, UNKNOWN_IMSI, NO_MEMORY."""
        digits = _octets(imsi)
        self._take("data", digits, len(digits))
        return self._messages(0)

    def cancel(self, imsi: str) -> list[Out]:
        """A subscription is withdrawn. Refused: NO_MME, BAD_NUMBER, UNKNOWN_IMSI, NO_MEMORY."""
        digits = _octets(imsi)
        self._take("cancel", digits, len(digits))
        return self._messages(0)

    # --- Lines ---

    def line(self, text: str | bytes) -> list[Out]:
        """Plays one line of a trace, without its LF: a provisioning line, `up STATION`, `lost STATION`, `in STATION OCTETS` (in
        hex), `tick`, `tick N`, `data IMSI`, `cancel IMSI` or `show IMSI`. What is sent at it, if it is an event; of `tick N` that
        of all ticks.

        Refused: NOT_UP to PROVISION, LOST."""
        given = _octets(text)
        self._take("line", given, len(given))
        word = given.partition(b" ")[0]
        if word == b"tick":
            return [out for reply in self.replies() if not isinstance(reply, Refusal) for out in reply]
        return self._messages(0) if word in EVENTS else []

    def answers(self, text: str | bytes) -> list[str]:
        """Plays one line of a trace, and says what `mme play` prints for it.

        Refused: UNKNOWN_WORD to PROVISION, NO_MEMORY, LOST."""
        given = _octets(text)
        answer = self._call("line", given, len(given))
        if answer in (Refusal.NOT_UP, Refusal.ALREADY_UP, Refusal.CLOCK_SPENT, Refusal.UNKNOWN_IMSI):
            return ["refused %d" % answer]
        check(answer)
        word, _, rest = given.partition(b" ")
        if word == b"show":
            imsi = rest.decode()
            return ["state %s %s" % (imsi, self.states(imsi))]
        told: list[str] = []
        for reply in self.replies() if word in EVENTS else []:
            told += ["refused %d" % reply] if isinstance(reply, Refusal) else map(str, reply)
        return told

    def play(self, lines: Iterable[str | bytes]) -> Iterator[str]:
        """Plays lines of a trace one after another, and yields what `mme play` prints for them."""
        for line in lines:
            yield from self.answers(line)

    def play_text(self, text: str | bytes) -> bytes:
        """Plays the lines of a text, each of which ends with a LF, in one call of the library, and answers what `mme play` prints
        for them. What comes after the last LF isn't played.

        Refused: UNKNOWN_WORD to PROVISION, NO_MEMORY, LOST, with the line's number; the lines before it are played, and `answers`
        of what is raised has what was printed for them."""
        rest, told, before = _octets(text), [], 0
        while True:
            answer, written = self._play(rest)
            told.append(written)
            if not answer:
                return b"".join(told)
            before += self._played.lines
            if self._played.unsaid:
                told += [b"%s\n" % str(out).encode() for out in self._messages(0)]
            if answer != Refusal.NO_ROOM or not (self._played.lines or self._played.taken or self._played.unsaid):
                raise Refused(answer, before + 1, answers=b"".join(told))
            rest = rest.split(b"\n", self._played.lines)[-1]
            rest, whole = self._rest_of(rest)
            before += whole

    def _play(self, text: bytes) -> tuple[int, bytes]:
        """Plays lines: what the call answers, and what it writes."""
        if self._text is None:
            self._text = memoryview(ctypes.create_string_buffer(TEXT_OCTETS))
        answer = self._call("play", text, len(text), self._played, self._text.obj, TEXT_OCTETS)
        return answer, self._text[:self._played.length].tobytes()

    def _rest_of(self, text: bytes) -> tuple[bytes, int]:
        """What is still to be played of lines of which the first was stopped at, and whether all of that was done."""
        line, _, others = text.partition(b"\n")
        done = self._played.taken + self._played.unsaid
        ticks = int(line[5:]) if line.startswith(b"tick ") else 1
        if not done:
            return text, 0
        return (b"tick %d\n%s" % (ticks - done, others), 0) if done < ticks else (others, 1)

    # --- What it sends, and its states ---

    def replies(self) -> list[Reply]:
        """The replies to the last event that was taken: one, or after ticks one for each."""
        return [self._reply(place) for place in range(self._call("replies"))]

    def _reply(self, place: int) -> Reply:
        try:
            return self._messages(place)
        except Refused as refused:
            return refused.refusal

    def _messages(self, reply: int) -> list[Out]:
        self._take("count", reply, self._count)
        return [self._message(reply, place) for place in range(self._count.value)]

    def _message(self, reply: int, place: int) -> Out:
        output = self._output
        self._take("out", reply, place, output, self._buffer, MOST_OCTETS)
        return Out(_OWNERS[output.owner], output.number, output.station, self._written[:output.length].tobytes())

    def states(self, imsi: str) -> States:
        """The states of the subscriber of an IMSI. Refused: NO_MME, BAD_NUMBER, UNKNOWN_IMSI."""
        digits, read = _octets(imsi), library.SubscriberStates()
        self._take("states", digits, len(digits), read)
        return States(EmmState(read.emm), EcmState(read.ecm), EsmState(read.esm))

    def slot(self, imsi: str) -> int:
        """The slot of the subscriber of an IMSI. Refused: NO_MME, BAD_NUMBER, UNKNOWN_IMSI."""
        digits, slot = _octets(imsi), ctypes.c_uint32()
        self._take("slot_of_imsi", digits, len(digits), slot)
        return slot.value
