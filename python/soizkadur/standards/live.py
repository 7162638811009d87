"""A trace that an MME plays while it is written."""
from collections.abc import Callable

from ..mme import Mme
from . import _s1ap, phones


class Unexpected(AssertionError):
    """The MME answered otherwise than the standards have it; the text names what was owed and what came."""


def _named(line: str) -> str:
    """An event or an answer; if it is a message, with its name and that of the NAS message in it."""
    word, *_, last = line.split(" ")
    if word not in ("in", "out") or last == "-":
        return line
    message = _s1ap.read(bytes.fromhex(last))
    nas = _s1ap.nas(_s1ap.carried(message))
    return "%s%s: %s" % (_s1ap.name(message), " [%s]" % nas.name if nas else "", line)


class Live(phones.Trace):
    """The lines of a trace, each played by an MME as it is said, and the answers that are owed, each compared as it is said to be
    owed. What is sent and isn't owed is found at the next line, and at `settle`, which the end of a `with` does.

    Phones and stations of `phones` are written for a trace, and so work on a live one as they are. `chart` makes of the transcript
    what is shown where an answer is otherwise.
    """

    def __init__(self, mme: Mme, network=None, chart: Callable[[str], str] | None = None) -> None:
        super().__init__(network)
        self.mme, self._chart = mme, chart
        self._told: list[str] = []  # what the MME answered to the last line
        self._first = 0  # the place in `answers` of what is owed for the last line
        self._transcript: list[str] = []

    def say(self, line: str) -> None:
        """Plays a line, once all that is owed for the last one has come."""
        self.settle()
        super().say(line)
        self._first = len(self.answers)
        self._told = self.mme.answers(line)
        self._transcript += [line] + ["# " + told for told in self._told]

    def owe(self, owner: str, station, octets: bytes) -> None:
        """The MME owes a station a message, which has to be its next answer to the last line."""
        super().owe(owner, station, octets)
        wanted = self.answers[self._first:]
        if self._told[:len(wanted)] != wanted:
            self._fail(wanted)

    def settle(self) -> None:
        """Fails where the last line had other answers than those that are owed."""
        wanted = self.answers[self._first:]
        if self._told != wanted:
            self._fail(wanted)

    def transcript(self) -> str:
        """The trace so far, with what the MME answered as comments, as `mme sim` prints it; tools/chart draws it."""
        return "\n".join(self._transcript) + "\n"

    def _fail(self, wanted: list[str]) -> None:
        told, self._told = self._told, wanted  # said once
        line = _named(self.lines[-1]) if self.lines else "(no line)"
        words = ["line %d: %s" % (len(self.lines), line), "the MME owes", *self._shown(wanted), "and answers", *self._shown(told)]
        raise Unexpected("\n".join(words + (["", self._chart(self.transcript())] if self._chart else [])))

    @staticmethod
    def _shown(answers: list[str]) -> list[str]:
        return ["  " + _named(answer) for answer in answers] or ["  nothing"]

    def __enter__(self):
        return self

    def __exit__(self, kind, *_) -> None:
        if kind is None:
            self.settle()
