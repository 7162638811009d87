"""The shared object: where it is, and its calls as library/soizkadur.h declares them."""
import ctypes
import functools
import os
import pathlib

NAME = "libsoizkadur.so.1"
VARIABLE = "SOIZKADUR_LIBRARY"
BUILT = "crates/mme_c/out/library"  # where `./mme --library` leaves it in a clone


class LibraryNotFound(ImportError):
    """The shared object isn't there, or isn't this library."""


class Handle(ctypes.Structure):
    """`soizkadur_mme`; it is never copied."""
    _fields_ = [("at", ctypes.c_void_p)]


class Fault(ctypes.Structure):
    """`soizkadur_fault`."""
    _fields_ = [("line", ctypes.c_uint64), ("refusal", ctypes.c_uint32)]


class Played(ctypes.Structure):
    """`soizkadur_played`."""
    _fields_ = [("lines", ctypes.c_uint64), ("taken", ctypes.c_uint32), ("unsaid", ctypes.c_uint32), ("length", ctypes.c_size_t)]


class Release(ctypes.Structure):
    """`soizkadur_release`."""
    _fields_ = [("major", ctypes.c_uint32), ("minor", ctypes.c_uint32), ("patch", ctypes.c_uint32)]


class Output(ctypes.Structure):
    """`soizkadur_output`."""
    _fields_ = [("owner", ctypes.c_uint32), ("number", ctypes.c_uint32), ("station", ctypes.c_uint32), ("length", ctypes.c_size_t)]


class SubscriberStates(ctypes.Structure):
    """`soizkadur_subscriber_states`."""
    _fields_ = [("emm", ctypes.c_uint32), ("ecm", ctypes.c_uint32), ("esm", ctypes.c_uint32)]


class S1ap(ctypes.Structure):
    """`soizkadur_s1ap_message`."""
    _fields_ = [("kind", ctypes.c_uint32), ("has_mme_ue_id", ctypes.c_uint32), ("mme_ue_id", ctypes.c_uint32),
                ("has_enb_ue_id", ctypes.c_uint32), ("enb_ue_id", ctypes.c_uint32)]


class Parts(ctypes.Structure):
    """`soizkadur_nas_parts`."""
    _fields_ = [("header", ctypes.c_uint32), ("mac", ctypes.c_uint32), ("sequence", ctypes.c_uint32)]


U8, U16, U32, U64, SIZE = ctypes.c_uint8, ctypes.c_uint16, ctypes.c_uint32, ctypes.c_uint64, ctypes.c_size_t
MME, WRITTEN = ctypes.POINTER(Handle), ctypes.c_void_p
OCTETS = (ctypes.c_char_p, SIZE)  # a pointer and the number of octets
ROOM = (WRITTEN, SIZE)

# The parameters of each call; each answers a uint32_t, but for those in OTHERS.
CALLS = {
    "version": (ctypes.POINTER(Release),),
    "new": (MME, *OCTETS, ctypes.POINTER(Fault)),
    "line": (MME, *OCTETS),
    "play": (MME, *OCTETS, ctypes.POINTER(Played), *ROOM),
    "provision_new": (MME, *OCTETS, U16, U8, *OCTETS, U64, U64),
    "add": (MME, *OCTETS, U32, U32, U32),
    "give": (MME, *OCTETS, *OCTETS, *OCTETS, *OCTETS, *OCTETS),
    "start": (MME,),
    "add_live": (MME, *OCTETS, U32, U32, U32),
    "give_live": (MME, *OCTETS, *OCTETS, *OCTETS, *OCTETS, *OCTETS),
    "save": (MME, ctypes.POINTER(U64), *ROOM, ctypes.POINTER(SIZE)),
    "restore": (MME, *OCTETS, U64, ctypes.POINTER(U64)),
    "up": (MME, U8),
    "lost": (MME, U8),
    "in": (MME, U8, *OCTETS),
    "tick": (MME, U32),
    "data": (MME, *OCTETS),
    "cancel": (MME, *OCTETS),
    "replies": (MME,),
    "count": (MME, SIZE, ctypes.POINTER(SIZE)),
    "out": (MME, SIZE, SIZE, ctypes.POINTER(Output), *ROOM),
    "states": (MME, *OCTETS, ctypes.POINTER(SubscriberStates)),
    "slot_of_imsi": (MME, *OCTETS, ctypes.POINTER(U32)),
    "free": (MME,),
    "s1ap": (*OCTETS, ctypes.POINTER(S1ap)),
    "nas": (*OCTETS, U32, ctypes.POINTER(U32)),
    "nas_protected": (*OCTETS, ctypes.POINTER(Parts)),
    "eia2": (*OCTETS, U32, U32, *OCTETS, ctypes.POINTER(U32)),
    "kenb": (*OCTETS, U32, *ROOM),
    "next_hop": (*OCTETS, *OCTETS, *ROOM),
    "nas_integrity_key": (*OCTETS, *ROOM),
}
OTHERS = {"version": None, "free": None, "replies": SIZE}


def places() -> list[str]:
    """Where the shared object may be, the first place first."""
    named = os.environ.get(VARIABLE)
    if named:
        return [named]
    here = pathlib.Path(__file__).resolve()
    files = [folder / NAME for folder in (here.parent, here.parents[2] / BUILT, here.parents[2] / "lib")]
    return [str(file) for file in files if file.exists()] + [NAME]


@functools.cache
def calls() -> dict:
    """The calls by their names without `soizkadur_`; the shared object is loaded at the first use."""
    tried = []
    for place in places():
        try:
            library = ctypes.CDLL(place)
            break
        except OSError as fault:
            tried.append("%s (%s)" % (place, fault))
    else:
        raise LibraryNotFound("no %s: %s; the variable %s names the file" % (NAME, ", ".join(tried), VARIABLE))
    found = {}
    for name, parameters in CALLS.items():
        try:
            call = getattr(library, "soizkadur_" + name)
        except AttributeError:
            raise LibraryNotFound("%s has no soizkadur_%s" % (place, name)) from None
        call.argtypes, call.restype = parameters, OTHERS.get(name, U32)
        found[name] = call
    return found
