"""Stations and phones that know the standards and not the MME: what they send, and what the MME owes for it.

`lte` has the octets (AES, CMAC, the keys, aligned packed encoding, S1AP and NAS), `phones` the network, stations and phones as
lines of a trace with the answers that are owed; a clone has both in reference/, where its tests and benchmarks use them, and a
package has them beside this file. Here stand

- `Live`: a trace that an MME plays while it is written, which compares each answer with what is owed;
- `FailingPhone`: a phone that also does what phones shouldn't;
- `OutOfPlace`: why a step can't be taken where the phone is;
- `Sim`: a test SIM by Milenage;
- `carried_nas`: the NAS message in an S1AP message.
"""
import importlib
import pathlib

_HERE = pathlib.Path(__file__).resolve().parent
_CLONE = _HERE.parents[2]


def _beside(name: str, *folders: pathlib.Path):
    """A module of this package by its file's name in the first of these folders that has it."""
    folder = next((folder for folder in folders if (folder / (name + ".py")).exists()), None)
    if folder is None:
        raise ImportError("no %s.py in %s: this copy of the package isn't whole; take the whole package, or put the folder python "
                          "of a clone on PYTHONPATH" % (name, " or ".join(map(str, folders))))
    if str(folder) not in __path__:
        __path__.append(str(folder))
    return importlib.import_module("." + name, __name__)


lte = _beside("lte", _HERE, _CLONE / "reference")
phones = _beside("phones", _HERE, _CLONE / "reference")
_s1ap = _beside("s1ap", _HERE, _CLONE / "tools")
Network, OutOfPlace, Station, Vector = phones.Network, phones.OutOfPlace, phones.Station, phones.Vector


def carried_nas(octets: bytes) -> bytes | None:
    """The NAS message in an S1AP message: its NAS-PDU, or in INITIAL CONTEXT SETUP REQUEST that of the first bearer, where this
    has no guaranteed bit rate; None where there is none, or none that can be read. It is read by tools/s1ap.py."""
    return _s1ap.carried(_s1ap.read(octets))


from .failing import FailingPhone
from .live import Live, Unexpected
from .sim import Sim

__all__ = ["FailingPhone", "Live", "Network", "OutOfPlace", "Sim", "Station", "Unexpected", "Vector", "carried_nas", "lte",
           "phones"]
