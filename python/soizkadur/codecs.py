"""Messages and keys, for harnesses: what octets are, and what a key derives. None of it needs an MME."""
import ctypes
import enum
from typing import NamedTuple

from . import library
from .refusals import check, within


class S1apKind(enum.IntEnum):
    """The S1AP messages of the profile (TS 36.413 clause 9.1)."""

    S1_SETUP_REQUEST = 1
    S1_SETUP_RESPONSE = 2
    S1_SETUP_FAILURE = 3
    INITIAL_UE_MESSAGE = 4
    DOWNLINK_NAS_TRANSPORT = 5
    UPLINK_NAS_TRANSPORT = 6
    NAS_NON_DELIVERY_INDICATION = 7
    UE_CAPABILITY_INFO_INDICATION = 8
    INITIAL_CONTEXT_SETUP_REQUEST = 9
    INITIAL_CONTEXT_SETUP_RESPONSE = 10
    INITIAL_CONTEXT_SETUP_FAILURE = 11
    UE_CONTEXT_RELEASE_REQUEST = 12
    UE_CONTEXT_RELEASE_COMMAND = 13
    UE_CONTEXT_RELEASE_COMPLETE = 14
    PAGING = 15
    PATH_SWITCH_REQUEST = 16
    PATH_SWITCH_REQUEST_ACKNOWLEDGE = 17
    PATH_SWITCH_REQUEST_FAILURE = 18
    RESET = 19
    RESET_ACKNOWLEDGE = 20
    ERROR_INDICATION = 21


class EmmMessage(enum.IntEnum):
    """The EMM messages of the profile, by their message types (TS 24.301 clause 9.8); SERVICE REQUEST, which has none, by its first
    octet."""

    ATTACH_REQUEST = 0x41
    ATTACH_ACCEPT = 0x42
    ATTACH_COMPLETE = 0x43
    ATTACH_REJECT = 0x44
    DETACH_REQUEST = 0x45
    DETACH_ACCEPT = 0x46
    TRACKING_AREA_UPDATE_REQUEST = 0x48
    TRACKING_AREA_UPDATE_ACCEPT = 0x49
    TRACKING_AREA_UPDATE_COMPLETE = 0x4A
    TRACKING_AREA_UPDATE_REJECT = 0x4B
    SERVICE_REJECT = 0x4E
    AUTHENTICATION_REQUEST = 0x52
    AUTHENTICATION_RESPONSE = 0x53
    AUTHENTICATION_REJECT = 0x54
    IDENTITY_REQUEST = 0x55
    IDENTITY_RESPONSE = 0x56
    AUTHENTICATION_FAILURE = 0x5C
    SECURITY_MODE_COMMAND = 0x5D
    SECURITY_MODE_COMPLETE = 0x5E
    SECURITY_MODE_REJECT = 0x5F
    EMM_STATUS = 0x60
    SERVICE_REQUEST = 0xC7


class Direction(enum.IntEnum):
    """Who sends a NAS message: the phone (UPLINK) or the network (DOWNLINK)."""

    UPLINK = 0
    DOWNLINK = 1


class S1apMessage(NamedTuple):
    """An S1AP message, by its kind and by the ids of the one association that it names, if it does."""

    kind: S1apKind
    mme_ue_id: int | None
    enb_ue_id: int | None


class NasParts(NamedTuple):
    """A NAS message in the protected form (TS 24.301 clause 9.1); its MAC isn't checked."""

    header: int  # the security header type, 1 to 4
    mac: bytes  # 4 octets
    sequence: int
    plain: bytes  # the message inside


def version() -> tuple[int, int, int]:
    """The version of the library."""
    release = library.Release()
    library.calls()["version"](release)
    return release.major, release.minor, release.patch


def s1ap(octets: bytes) -> S1apMessage:
    """The S1AP message that these octets spell (TS 36.413 clause 9). Refused: S1AP_SYNTAX to S1AP_REFUSED_ELEMENT, NO_MEMORY."""
    read = library.S1ap()
    check(library.calls()["s1ap"](octets, len(octets), read))
    return S1apMessage(S1apKind(read.kind), read.mme_ue_id if read.has_mme_ue_id else None,
                       read.enb_ue_id if read.has_enb_ue_id else None)


def nas(octets: bytes, direction: Direction) -> EmmMessage:
    """The plain EMM message that these octets are, if `direction` sends them. Refused: BAD_NUMBER (direction), NAS_TOO_SHORT to
    NAS_OPTIONAL_PART."""
    kind = ctypes.c_uint32()
    check(library.calls()["nas"](octets, len(octets), within(direction, 32), kind))
    return EmmMessage(kind.value)


def nas_protected(octets: bytes) -> NasParts:
    """The parts of a NAS message in the protected form. Refused: NAS_NOT_PROTECTED."""
    parts = library.Parts()
    check(library.calls()["nas_protected"](octets, len(octets), parts))
    return NasParts(parts.header, parts.mac.to_bytes(4, "big"), parts.sequence, octets[6:])


def eia2(key: bytes, count: int, direction: Direction, octets: bytes) -> bytes:
    """The MAC of 128-EIA2, 4 octets, under a key of 16 (TS 33.401 clause B.2.3); the bearer is 0. Refused: BAD_OCTETS (key),
    BAD_NUMBER (direction)."""
    mac = ctypes.c_uint32()
    check(library.calls()["eia2"](key, len(key), within(count, 32), within(direction, 32), octets, len(octets), mac))
    return mac.value.to_bytes(4, "big")


def _key(call: str, length: int, *given: bytes | int) -> bytes:
    written = ctypes.create_string_buffer(length)
    words: list[bytes | int] = []
    for each in given:
        words += [each, len(each)] if isinstance(each, bytes) else [within(each, 32)]
    check(library.calls()[call](*words, written, length))
    return written.raw


def kenb(kasme: bytes, count: int) -> bytes:
    """KeNB, 32 octets, of KASME and an uplink NAS COUNT (TS 33.401 clause A.3). Refused: BAD_OCTETS."""
    return _key("kenb", 32, kasme, count)


def next_hop(kasme: bytes, previous: bytes) -> bytes:
    """The next hop key NH, 32 octets, of KASME and the key before it (TS 33.401 clause A.4). Refused: BAD_OCTETS."""
    return _key("next_hop", 32, kasme, previous)


def nas_integrity_key(kasme: bytes) -> bytes:
    """The key of NAS integrity by 128-EIA2, 16 octets, of KASME (TS 33.401 clause A.7). Refused: BAD_OCTETS."""
    return _key("nas_integrity_key", 16, kasme)
