#!/usr/bin/env python3
"""A test with ten simulated phones: they attach, one of them fails, and one is paged.

    python3 examples/python/test_attach.py        # or: pytest examples/python

The shared object is that of the variable SOIZKADUR_LIBRARY, or an installed one (docs/LIBRARY.md).
"""
import pathlib
import sys

sys.path.insert(0, str(pathlib.Path(__file__).resolve().parents[2] / "python"))
from soizkadur import EcmState, EmmState
from soizkadur.testing import Laboratory


def test_ten_phones_attach():
    """Each answer of the MME is the one that the standards have for it, octet by octet."""
    with Laboratory(phones=10) as laboratory:
        for phone in laboratory.phones:
            phone.attaches(laboratory.station, phone.slot + 1)
            assert laboratory.states(phone).emm is EmmState.REGISTERED


def test_a_wrong_res_is_rejected():
    """A phone without the key is answered AUTHENTICATION REJECT, and the others are as they were."""
    with Laboratory(phones=2) as laboratory:
        good, bad = laboratory.phones
        good.attaches(laboratory.station, 1)
        bad.asks_to_attach(laboratory.station, 2)
        bad.gives_wrong_res()
        assert laboratory.states(bad).emm is EmmState.DEREGISTERED
        assert laboratory.states(good).ecm is EcmState.CONNECTED


def test_an_idle_phone_is_paged():
    """Downlink data for an idle phone: it is paged at the station of its tracking area."""
    with Laboratory(phones=1, stations=2) as laboratory:
        phone = laboratory.phones[0]
        phone.attaches(laboratory.station, 1)
        phone.is_released()
        phone.has_data_waiting([laboratory.station])


if __name__ == "__main__":
    for test in (test_ten_phones_attach, test_a_wrong_res_is_rejected, test_an_idle_phone_is_paged):
        test()
        print("%s: passed" % test.__name__)
