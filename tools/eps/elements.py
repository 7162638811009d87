"""The elements of S1AP that the profile has (TS 36.413 clauses 9.2 and 9.3): of each its name and its type."""
from tools import s1ap
from tools.eps import identities
from tools.eps.per import BitString, Bits, Choice, ElementsOf, Enumerated, ListOf, Number, Octets, OctetString, Optional, Sequence

MME_ID, CAUSE, ENB_ID, SWITCHED_LIST, SETUP_LIST, NAS_PDU = 0, 2, 8, 22, 24, 26
SECURITY_CONTEXT, PAGING_ID, TAI_LIST, DONE_LIST, ENB_IDENTITY, ENB_NAME, MME_NAME = 40, 43, 46, 51, 59, 60, 61
SUPPORTED_TAS, AMBR, TAI, SECURITY_KEY, RADIO_CAPABILITY, PAGING_INDEX, CAPACITY = 64, 66, 67, 73, 74, 80, 87
SOURCE_MME_ID, RESET_TYPE, RESET_LIST, S_TMSI, BOTH_IDS, CELL, GUMMEIS = 88, 92, 93, 96, 99, 100, 105
CAPABILITIES, CN_DOMAIN, RRC_CAUSE, PAGING_DRX = 107, 109, 134, 137


def hexed(octets):
    return octets.hex()


def number(octets):
    return int.from_bytes(octets, "big")


def printable(octets):
    return octets.decode("latin-1")


def numbered_algorithms(prefix):
    """The algorithms that a phone has, from number 1 on (clause 9.2.1.40)."""
    names = identities.numbered(prefix, 1, 16)
    return lambda bits: identities.algorithms(names, bits)


PLMN = Octets(3, identities.s1ap_plmn)
TAC, GROUP, CODE = Octets(2, hexed), Octets(2, hexed), Octets(1, hexed)
MME_UE_ID, ENB_UE_ID = Number(0, 2**32 - 1), Number(0, 2**24 - 1)
M_TMSI, TEID = Octets(4, number), Octets(4, number)
RATE = Number(0, 10**10)
ADDRESS = BitString(1, 160, identities.address)
ERAB_ID = Number(0, 15, extensible=True)
NAS = OctetString()
TAI_TYPE = Sequence(("PLMN", PLMN), ("TAC", TAC))
S_TMSI_TYPE = Sequence(("MME code", CODE), ("M-TMSI", M_TMSI))
TUNNEL = (("transport layer address", ADDRESS), ("GTP-TEID", TEID))
CAUSE_TYPE = Choice(**{group: Enumerated(tuple(names)) for group, _, names in s1ap.CAUSES})
ASSOCIATION = Sequence(("MME UE S1AP ID", Optional(MME_UE_ID)), ("eNB UE S1AP ID", Optional(ENB_UE_ID)))
BEARER = Sequence(("E-RAB ID", ERAB_ID), *TUNNEL)
ARP = Sequence(
    ("priority level", Number(0, 15)),
    ("pre-emption capability", Enumerated(("shall not trigger pre-emption", "may trigger pre-emption"), extensible=False)),
    ("pre-emption vulnerability", Enumerated(("not pre-emptable", "pre-emptable"), extensible=False)))
GUARANTEED = Sequence(*(("%s bit rate %s" % (kind, way), RATE) for kind in ("maximum", "guaranteed") for way in ("down", "up")))
QOS = Sequence(("QCI", Number(0, 255)), ("allocation and retention priority", ARP), ("GBR QoS information", Optional(GUARANTEED)))

# By the element's id (clause 9.3.6).
ELEMENTS = {
    MME_ID: ("MME UE S1AP ID", MME_UE_ID),
    CAUSE: ("Cause", CAUSE_TYPE),
    ENB_ID: ("eNB UE S1AP ID", ENB_UE_ID),
    SWITCHED_LIST: ("E-RAB To Be Switched in Downlink List", ElementsOf(1, 256, BEARER, 23, "reject")),
    SETUP_LIST: ("E-RAB to Be Setup List", ElementsOf(1, 256, Sequence(
        ("E-RAB ID", ERAB_ID), ("E-RAB level QoS parameters", QOS), *TUNNEL, ("NAS-PDU", Optional(NAS))), 52, "reject")),
    NAS_PDU: ("NAS-PDU", NAS),
    SECURITY_CONTEXT: ("Security Context", Sequence(("next hop chaining count", Number(0, 7)), ("NH", Octets(32)))),
    PAGING_ID: ("UE Paging Identity", Choice(**{"S-TMSI": S_TMSI_TYPE, "IMSI": OctetString(identities.halves, 3, 8)})),
    TAI_LIST: ("List of TAIs", ElementsOf(1, 256, Sequence(("TAI", TAI_TYPE)), 47, "ignore")),
    DONE_LIST: ("E-RAB Setup List", ElementsOf(1, 256, BEARER, 50, "ignore")),
    ENB_IDENTITY: ("Global eNB ID", Sequence(
        ("PLMN", PLMN), ("eNB ID", Choice(**{"macro eNB ID": Bits(20), "home eNB ID": Bits(28)})))),
    ENB_NAME: ("eNB Name", OctetString(printable, 1, 150, extensible=True)),
    MME_NAME: ("MME Name", OctetString(printable, 1, 150, extensible=True)),
    SUPPORTED_TAS: ("Supported TAs", ListOf(1, 256, Sequence(("TAC", TAC), ("broadcast PLMNs", ListOf(1, 6, PLMN))))),
    AMBR: ("UE Aggregate Maximum Bit Rate", Sequence(("down", RATE), ("up", RATE))),
    TAI: ("TAI", TAI_TYPE),
    SECURITY_KEY: ("Security Key", Bits(256, lambda value: value.to_bytes(32, "big"))),
    RADIO_CAPABILITY: ("UE Radio Capability", OctetString()),
    PAGING_INDEX: ("UE Identity Index value", Bits(10)),
    CAPACITY: ("Relative MME Capacity", Number(0, 255)),
    SOURCE_MME_ID: ("Source MME UE S1AP ID", MME_UE_ID),
    RESET_TYPE: ("Reset Type", Choice(**{"S1 interface": Enumerated(("reset all",)),
                                         "part of S1 interface": ElementsOf(1, 256, ASSOCIATION, 91, "reject")})),
    RESET_LIST: ("UE-associated logical S1-connection List", ElementsOf(1, 256, ASSOCIATION, 91, "ignore")),
    S_TMSI: ("S-TMSI", S_TMSI_TYPE),
    BOTH_IDS: ("UE S1AP IDs", Choice(**{"pair": Sequence(("MME UE S1AP ID", MME_UE_ID), ("eNB UE S1AP ID", ENB_UE_ID)),
                                        "MME UE S1AP ID": MME_UE_ID})),
    CELL: ("E-UTRAN CGI", Sequence(("PLMN", PLMN), ("cell identity", Bits(28)))),
    GUMMEIS: ("Served GUMMEIs", ListOf(1, 8, Sequence(
        ("PLMNs", ListOf(1, 32, PLMN)), ("MME groups", ListOf(1, 65535, GROUP)), ("MME codes", ListOf(1, 256, CODE))))),
    CAPABILITIES: ("UE Security Capabilities", Sequence(
        ("encryption algorithms", Bits(16, numbered_algorithms("EEA"), extensible=True)),
        ("integrity algorithms", Bits(16, numbered_algorithms("EIA"), extensible=True)))),
    CN_DOMAIN: ("CN Domain", Enumerated(("ps", "cs"), extensible=False)),
    RRC_CAUSE: ("RRC Establishment Cause", Enumerated(
        ("emergency", "highPriorityAccess", "mt-Access", "mo-Signalling", "mo-Data"))),
    PAGING_DRX: ("Default Paging DRX", Enumerated(("v32", "v64", "v128", "v256"))),
}
