"""An MME with stations and phones around it, for tests: with pytest as fixtures, or without.

    from soizkadur.testing import Laboratory

    with Laboratory(phones=10) as laboratory:
        for phone in laboratory.phones:
            phone.attaches(laboratory.station, phone.slot + 1)

A step of a phone sends its messages, and each answer of the MME is compared with what the standards' side owes
(`soizkadur.standards`): after it nothing is left to assert. If an answer differs, an `AssertionError` names what was owed and what
came, and has the run as a ladder chart if tools/chart is there. A step that the phone can't take where it is, as `authenticates`
before `asks_to_attach`, is an `OutOfPlace`, which says what the phone lacks. A step that begins a connection takes its station and
`b`, the eNB UE S1AP ID that the station gives it: 0 to 2^24 - 1, another for each connection that the station has at one time. No
time passes by itself: `laboratory.trace.say("tick 10")` lets ten seconds pass. docs/LIBRARY.md lists the steps. With pytest,

    from soizkadur.testing import laboratory

    def test_ten_phones(laboratory):
        laboratory.phones[0].attaches(laboratory.station, 1)

gives each test a laboratory of its own with ten phones.
"""
import subprocess
import sys
from collections.abc import Iterator

from . import places
from .mme import Mme, States
from .standards import FailingPhone, Live, Network, OutOfPlace, Station, Unexpected, Vector

CHART = places.tools() / "chart"
SECONDS = 60  # for a chart

__all__ = ["Laboratory", "OutOfPlace", "Unexpected", "chart", "laboratory"]


def chart(transcript: str) -> str:
    """A trace with its answers as comments, as a ladder chart by tools/chart; the trace itself where that isn't at hand."""
    if not CHART.exists():
        return transcript
    words = [sys.executable, "-B", CHART, "-"]
    done = subprocess.run(words, input=transcript, capture_output=True, text=True, timeout=SECONDS, check=False)
    return transcript if done.returncode else done.stdout


class Laboratory:
    """An MME (`mme`), stations that are set up (`stations`, the first also `station`), and phones that are provisioned (`phones`,
    in order of slot, of the class `phone`), each with as many vectors of its own as `vectors` says; `trace` plays the events and
    compares what comes. Station N (`number`) is in tracking area N + 1. A phone has its place (`slot`), its identity (`imsi`) and
    its `vectors`; where a step takes a station, it is one of `stations`, and not its number."""

    def __init__(self, phones: int = 10, stations: int = 1, vectors: int = 4, network: Network | None = None,
                 phone: type[FailingPhone] = FailingPhone) -> None:
        self.mme = Mme()
        self.trace = Live(self.mme, network, chart)
        self.stations = [Station(number, number + 1, number + 1, 0x101 + number) for number in range(stations)]
        self.phones = [phone(self.trace, slot, [Vector.made("laboratory %d.%d" % (slot, place)) for place in range(vectors)])
                       for slot in range(phones)]
        self.trace.provision(self.phones)
        for station in self.stations:
            self.trace.set_up(station)

    @property
    def station(self) -> Station:
        """The first station."""
        return self.stations[0]

    def states(self, phone: FailingPhone) -> States:
        """A phone's states at the MME."""
        return self.mme.states(phone.imsi)

    def chart(self) -> str:
        """The run so far as a ladder chart."""
        return chart(self.trace.transcript())

    def close(self) -> None:
        """Frees the MME, and compares nothing: at the end of a `with` what was sent last is compared first."""
        self.mme.close()

    def __enter__(self) -> "Laboratory":
        return self

    def __exit__(self, kind, *_) -> None:
        try:
            if kind is None:
                self.trace.settle()
        finally:
            self.close()


def _laboratory() -> Iterator[Laboratory]:
    """A laboratory with ten phones."""
    with Laboratory() as made:
        yield made


try:
    import pytest
except ImportError:
    laboratory = _laboratory
else:
    @pytest.fixture
    def laboratory() -> Iterator[Laboratory]:
        """A laboratory with ten phones."""
        yield from _laboratory()
