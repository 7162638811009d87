#!/usr/bin/env python3
"""Writes rows of hostile use into tests/rows: NAME.trace, and NAME.answers by the standards' formats (bench/).

    rows.py [--check]

With --check nothing is written: the rows that are there must be those that would be written.
"""
import pathlib
import sys

sys.dont_write_bytecode = True
if __name__ == "__main__":
    sys.path[0] = str(pathlib.Path(__file__).resolve().parents[2])
from tests.hostile.handsets import FOREIGN_GUTI
from tests.hostile.projection import stranger
from tests.hostile.standards import TOP, lte, phones

FOLDER = TOP / "tests" / "rows"
IDENTITY_REQUEST = b"\x07\x55\x01"
DEREGISTERED = "DEREGISTERED IDLE INACTIVE"
ROWS = []


def row(make):
    """A row has the name of the function that makes it, and its first line says what the function does."""
    ROWS.append(make)
    return make


class Stranger(phones.Phone):
    """A phone whose association may be one that it had as a stranger."""
    held = None

    @property
    def m(self):
        return super().m if self.held is None else self.held

    def sends_first(self, station, b, nas):
        super().sends_first(station, b, nas)
        self.held = None

    def is_foreign(self, station, b):
        """ATTACH REQUEST with the GUTI of another MME; owed IDENTITY REQUEST."""
        nas = lte.attach_request(1, FOREIGN_GUTI, self.capability, lte.pdn_connectivity_request(1, 1, False))
        self.trace.hear(station, lte.initial_ue_message(self.network, station, b, nas))
        is_asked(self.trace, station, b)

    def claims(self, station, b):
        """IDENTITY RESPONSE with its IMSI; owed AUTHENTICATION REQUEST on the stranger's association."""
        self.pdn_type, self.attach_type, self.information = 1, 1, False
        self.station, self.b, self.held = station, b, stranger(station.number, b)
        self.sends(b"\x07\x56" + lte.sized(lte.imsi_identity(self.imsi)))
        self.accepted_tac, self.vector, self.ksi = station.tac, self.vectors[self.place], self.place % 7
        self.place += 1
        self.owed_nas(lte.authentication_request(self.ksi, self.vector))

    def goes_on(self):
        """The rest of an attach."""
        for step in list(self.attach_steps(self.station, self.b))[1:]:
            step()

    def is_gone(self):
        super().is_gone()
        self.held = None


def is_nobodys(trace, station, b, owner=None):
    """A message with a stranger's id; owed ERROR INDICATION, unknown MME UE S1AP ID, by this owner, or by the stranger."""
    m = stranger(station.number, b)
    trace.hear(station, lte.release_request(m, b, lte.USER_INACTIVITY))
    trace.owe(owner or "x%d.%d" % (station.number, b), station, lte.error_indication(lte.UNKNOWN_MME_ID, (m, b)))


def is_asked(trace, station, b):
    trace.owe("x%d.%d" % (station.number, b), station, lte.downlink_nas(stranger(station.number, b), b, IDENTITY_REQUEST))


def two_phones():
    """Two stations and two phones with two vectors each."""
    trace = phones.Trace()
    made = [Stranger(trace, slot, [phones.Vector.made("hostile row %d.%d" % (slot, at)) for at in range(2)]) for slot in range(2)]
    stations = [phones.Station(0), phones.Station(1, 2, 2, 0x201)]
    trace.provision(made)
    for station in stations:
        trace.set_up(station)
    return trace, stations, made


def shows(made, *states):
    for phone, words in zip(made, states):
        phone.shows(words)


@row
def strangers_id_changes_hands():
    """A phone attaches as a stranger; another stranger comes at its radio id, claims another subscriber and attaches there. The
    first is idle from the stranger's first message on, and its old id is the other's."""
    trace, [station, _], [first, second] = two_phones()
    first.is_foreign(station, 5)
    first.claims(station, 5)
    first.goes_on()
    shows((first, second), phones.CONNECTED, DEREGISTERED)
    second.is_foreign(station, 5)
    first.is_gone()
    shows((first, second), phones.IDLE, DEREGISTERED)
    second.claims(station, 5)
    second.goes_on()
    shows((first, second), phones.IDLE, phones.CONNECTED)
    first.updates_from_idle(station, 5)
    first.completes_update(from_idle=True)
    second.updates()
    second.completes_update(from_idle=False)
    shows((first, second), phones.IDLE, phones.CONNECTED)
    return trace


@row
def station_lost_in_mid_attach():
    """Two phones attach in turn at two stations, of which one is lost: its phone is deregistered, the other goes on."""
    trace, [kept, lost], [first, second] = two_phones()
    first.asks_to_attach(kept, 1)
    second.asks_to_attach(lost, 1)
    first.authenticates()
    second.authenticates()
    trace.say("lost 1")
    second.is_gone()
    shows((first, second), phones.UNDER_WAY, DEREGISTERED)
    first.completes_security()
    first.context_is_set_up()
    first.completes_attach()
    trace.set_up(lost)
    second.attaches(lost, 1)
    shows((first, second), phones.CONNECTED, phones.CONNECTED)
    return trace


@row
def strangers_in_a_flood():
    """Forty strangers come at two stations while a phone attaches; each is asked for its identity again as the time comes, and
    those of a station that is lost no more."""
    trace, stations, [phone, other] = two_phones()
    places = [(station, b) for station in stations for b in range(100, 120)]
    steps = list(phone.attach_steps(stations[0], 1))
    for at, (station, b) in enumerate(places):
        other.is_foreign(station, b)
        if at % 8 == 0:
            steps.pop(0)()
    shows((phone, other), phones.CONNECTED, DEREGISTERED)
    trace.say("tick 6")
    for station, b in places:
        is_asked(trace, station, b)
    trace.say("lost 1")
    trace.say("tick 6")
    for station, b in places[:20]:
        is_asked(trace, station, b)
    shows((phone, other), phones.CONNECTED, DEREGISTERED)
    return trace


@row
def another_phones_association():
    """A phone sends on another's association: by its own key, plain, and what the other sent before. Nothing comes of it."""
    trace, [station, elsewhere], [phone, liar] = two_phones()
    phone.attaches(station, 1)
    liar.attaches(station, 2)
    detach = bytes([0x07, 0x45, 0x09]) + lte.sized(lte.guti(trace.network, phone.tmsi))
    for nas in (liar.protected_up(detach), detach, phone.secured(2, 1, lte.UP, lte.ATTACH_COMPLETE), lte.ATTACH_COMPLETE):
        trace.hear(station, lte.uplink_nas(trace.network, station, phone.m, 1, nas))
        shows((phone, liar), phones.CONNECTED, phones.CONNECTED)
    phone.switches_path(elsewhere, 2)
    phone.updates()
    phone.completes_update(from_idle=False)
    shows((phone, liar), phones.CONNECTED, phones.CONNECTED)
    return trace


@row
def reset_of_waiting_strangers():
    """Strangers wait at two stations. One station resets one of its own by the id and one by the number: they are closed without a
    word. One whose id it gives with another's number, and one of the other station, wait on; the first of these attaches."""
    trace, [station, elsewhere], [phone, other] = two_phones()
    for b in (5, 6, 7):
        phone.is_foreign(station, b)
    other.is_foreign(elsewhere, 6)
    trace.set_back(station, (stranger(0, 5), None), (None, 6), (stranger(0, 7), 6), (stranger(1, 6), None), (None, None))
    is_nobodys(trace, station, 5)
    is_nobodys(trace, station, 6)
    trace.say("tick 6")
    is_asked(trace, station, 7)
    is_asked(trace, elsewhere, 6)
    phone.claims(station, 7)
    phone.goes_on()
    shows((phone, other), phones.CONNECTED, DEREGISTERED)
    trace.set_back(elsewhere, (stranger(1, 6), 6))
    is_nobodys(trace, elsewhere, 6)
    trace.say("tick 30")
    shows((phone, other), phones.CONNECTED, DEREGISTERED)
    return trace


@row
def reset_of_held_strangers():
    """RESET of an association that began as a stranger's ends it and the holding: in mid-attach by its id and number, and of a
    registered phone by the number alone. Where the phone went on elsewhere before, RESET ends the holding, and the phone stays."""
    trace, [station, elsewhere], [first, second] = two_phones()
    first.is_foreign(station, 5)
    first.claims(station, 5)
    shows((first, second), phones.UNDER_WAY, DEREGISTERED)
    trace.set_back(station, (first.m, 5))
    first.is_gone()
    is_nobodys(trace, station, 5)
    shows((first, second), DEREGISTERED, DEREGISTERED)
    second.is_foreign(station, 5)
    second.claims(station, 5)
    second.goes_on()
    shows((first, second), DEREGISTERED, phones.CONNECTED)
    trace.set_back(station, (None, 5))
    second.is_gone()
    is_nobodys(trace, station, 5)
    shows((first, second), DEREGISTERED, phones.IDLE)
    first.is_foreign(station, 8)
    first.claims(station, 8)
    first.goes_on()
    first.updates_from_idle(elsewhere, 9)
    is_nobodys(trace, station, 8, "s0")
    trace.set_back(station, (stranger(0, 8), None))
    is_nobodys(trace, station, 8)
    shows((first, second), "COMMON-PROCEDURE-INITIATED CONNECTED ACTIVE", phones.IDLE)
    first.completes_update(from_idle=True)
    shows((first, second), phones.IDLE, phones.IDLE)
    return trace


def files_of(make):
    trace = make()
    return {make.__name__ + ".trace": "# %s\n%s" % (" ".join(make.__doc__.split()), trace.text()),
            make.__name__ + ".answers": trace.answer_text()}


def others():
    """The files that aren't as they would be written."""
    texts = [file for make in ROWS for file in files_of(make).items()]
    return [name for name, text in texts if not (FOLDER / name).exists() or (FOLDER / name).read_text() != text]


def main(words):
    if words == ["--check"]:
        for name in others():
            print("not as it would be written: " + name)
        return 1 if others() else 0
    for make in ROWS:
        for name, text in files_of(make).items():
            (FOLDER / name).write_text(text)
    print("%d rows" % len(ROWS))
    return 0


if __name__ == "__main__":
    sys.exit(main(sys.argv[1:]))
