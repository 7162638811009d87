"""Soizkadur, the MME (mobility management entity) of LTE, as a library for Python.

    import soizkadur

    with soizkadur.Mme.from_lines(open("provisioning.trace", "rb").read()) as mme:
        mme.up(0)
        for out in mme.receive(0, octets):
            print(out)

An `Mme` is one whole MME, held by a handle of the C library (library/soizkadur.h, whose words hold here too). Each event answers
the messages that the MME sends at it, or raises `Refused`, and then the MME is as it was. The calls that need no MME (`s1ap`,
`nas`, `eia2` ..) read octets and derive keys; `pydoc soizkadur.mme.Mme` and `pydoc soizkadur.codecs` say more of both.

`soizkadur.standards` has stations and phones that know the standards and not the MME, and `soizkadur.testing` brings both together
for tests. In a clone or an unpacked archive PYTHONPATH has to name its folder python.

It is plain Python over `ctypes`, and needs nothing else. The shared object is found by the variable SOIZKADUR_LIBRARY (the path of
the file), else beside this package, where `./mme --library` leaves it in a clone, in the folder lib of an archive, or by the
system's loader.
"""
from .codecs import (Direction, EmmMessage, NasParts, S1apKind, S1apMessage, eia2, kenb, nas, nas_integrity_key, nas_protected,
                     next_hop, s1ap, version)
from .library import LibraryNotFound
from .mme import EcmState, EmmState, EsmState, Mme, Out, Owner, States
from .refusals import Refusal, Refused

__all__ = [
    "Direction", "EcmState", "EmmMessage", "EmmState", "EsmState", "LibraryNotFound", "Mme", "NasParts", "Out", "Owner", "Refusal",
    "Refused", "S1apKind", "S1apMessage", "States", "eia2", "kenb", "nas", "nas_integrity_key", "nas_protected", "next_hop", "s1ap",
    "version",
]
