"""What tshark sees in messages of S1AP, and what tools/show prints of them in tshark's fields and forms: the two must be the same.

`FIELDS` is the map from our names to tshark's fields. A name of ours that has no entry is a fault of the test.
"""
import collections
import json
import os
import re
import shutil
import subprocess

from tests.tools import tools
from tools.eps import identities, messages, render
from tools.eps.per import CRITICALITIES, Enumerator

CAPTURE = tools.module("tools/capture")

IS_MISSING = not shutil.which("tshark") and not os.environ.get("CI")  # under CI a test without tshark fails


class Pairs(list):
    """An object of JSON, whose names may repeat."""


def dissected(sent):
    """For each message, octets and whether the MME sends it, the layer of S1AP that tshark sees, as Pairs, or None."""
    writer = CAPTURE.Writer()
    for octets, from_mme in sent:
        writer.message(0, 0, from_mme, octets)
    words = ["tshark", "-r", "-", "-T", "json", "-o", "sctp.tsn_analysis:FALSE"]
    done = subprocess.run(words, input=b"".join(CAPTURE.pcapng(writer, 0)), capture_output=True, timeout=120, check=True)
    packets = json.loads(done.stdout, object_pairs_hook=Pairs)
    layers = [dict(dict(dict(packet)["_source"])["layers"]).get("s1ap") for packet in packets]
    return [layer if isinstance(layer, Pairs) else None for layer in layers]


def value_names():
    """The names of numbers by tshark's fields, as `tshark -G values` has them."""
    found = collections.defaultdict(dict)
    done = subprocess.run(["tshark", "-G", "values"], capture_output=True, timeout=60, check=True)
    for line in done.stdout.decode().splitlines():
        kind, *words = line.split("\t")
        if kind == "V" and len(words) == 3 and re.fullmatch(r"0x[0-9a-f]+|[0-9]+", words[1]):
            field, number, name = words
            found[field].setdefault(int(number, 0), name)  # (a private id of s1ap.id comes last)
    return found


# --- tshark's side ---

EXTENSIONS = "s1ap.iE_Extensions_tree"
FRAMES = {"s1ap.ProtocolIE_Field_element", *("s1ap.%s_element" % kind for kind in (
    "initiatingMessage", "successfulOutcome", "unsuccessfulOutcome"))}
IN_NAS = {"s1ap.NAS_PDU", "s1ap.nAS_PDU"}


def leaves(pairs, inside=()):
    """Each field with its value in order, and what it stands in."""
    for name, value in pairs:
        for each in value if type(value) is list else [value]:
            if isinstance(each, Pairs):
                yield from leaves(each, inside + (name,))
            else:
                yield name, each, inside


def fields_of(layer):
    """The values of each field that the map has, in order, but for frames of items of lists, and extensions, which we skip."""
    wanted, found = set(ALL_FIELDS), collections.defaultdict(list)
    for name, value, inside in leaves(layer):
        if name in IN_NAS:
            found["nas octets"].append(str(value.count(":") + 1 if value else 0))
        elif name in wanted and EXTENSIONS not in inside and (name not in OF_ELEMENTS or inside[-1] in FRAMES):
            found[name].append(value)
    return dict(found)


def name_of(layer):
    """The name of the message, as `s1ap.InitialUEMessage_element`."""
    return next(name for _, _, inside in leaves(layer) if "s1ap.value_element" in inside
                for name in inside[inside.index("s1ap.value_element") + 1:][:1])


# --- Our side ---


def coloned(octets):
    return octets.hex(":")


def of_hex(text):
    return coloned(bytes.fromhex(text))


def s1ap_plmn(text):
    """The octets of `001 01` (TS 36.413 clause 9.2.3.8)."""
    mcc, mnc = text.split(" ")
    digits = mcc + ("f" if len(mnc) == 2 else "") + mnc
    return of_hex("".join(digits[at + 1] + digits[at] for at in (0, 2, 4)))


def country(text):
    return str(int(text.split(" ")[0]))


def network(text):
    return str(int(text.split(" ")[1]))


def decimal(text):
    return str(int(text, 16))


def number(value):
    return str(value.number if isinstance(value, Enumerator) else value)


def hexed(width):
    return lambda value: "0x%0*x" % (width, value)


def minutes(text):
    return "0x%02x" % (int(text.split(" ")[0]) // 60)


def flag(value):
    return str(int(value))


def bits16(prefix):
    """Security capabilities as two octets (TS 36.413 clause 9.2.1.40)."""
    def form(text):
        names = [] if text == "none" else text.split(" ")
        return coloned(sum(1 << 16 - int(name.removeprefix(prefix)) for name in names).to_bytes(2, "big"))
    return form


def shifted(bits, octets):
    """A bit string, its first bits first."""
    return lambda value: coloned((value << 8 * octets - bits).to_bytes(octets, "big"))


OF_ELEMENTS = ("s1ap.id", "s1ap.criticality", "per.open_type_length")
PLMN_TAI = [("s1ap.pLMNidentity", s1ap_plmn), ("e212.tai.mcc", country), ("e212.tai.mnc", network)]
OF_GUTI = {("GUTI", "PLMN"): [("e212.gummei.mcc", country), ("e212.gummei.mnc", network)],
           ("GUTI", "MME group"): [("nas_eps.emm.mme_grp_id", decimal)], ("GUTI", "MME code"): [("nas_eps.emm.mme_code", decimal)],
           ("GUTI", "M-TMSI"): [("nas_eps.emm.m_tmsi", number)]}
# The map: the last names of ours on the way to a value, and tshark's fields with the forms that they have there.
FIELDS = {
    # S1AP
    ("MME UE S1AP ID",): [("s1ap.MME_UE_S1AP_ID", number)], ("eNB UE S1AP ID",): [("s1ap.ENB_UE_S1AP_ID", number)],
    # (tshark has ids that aren't elements of their own twice)
    **{(outer, name): [(field, number)] * 2
       for outer in ("pair", "part of S1 interface", "UE-associated logical S1-connection List")
       for name, field in (("MME UE S1AP ID", "s1ap.MME_UE_S1AP_ID"), ("eNB UE S1AP ID", "s1ap.ENB_UE_S1AP_ID"))},
    ("Source MME UE S1AP ID",): [("s1ap.MME_UE_S1AP_ID", number)],
    **{("Cause", group): [("s1ap." + group, number)] for group in ("radioNetwork", "transport", "nas", "protocol", "misc")},
    ("Global eNB ID", "PLMN"): [("s1ap.pLMNidentity", s1ap_plmn)], ("macro eNB ID",): [("s1ap.macroENB_ID", shifted(20, 3))],
    ("eNB Name",): [("s1ap.ENBname", str)], ("TAC",): [("s1ap.tAC", decimal)], ("TAI", "PLMN"): PLMN_TAI,
    ("broadcast PLMNs",): [("s1ap.PLMNidentity", s1ap_plmn)], ("PLMNs",): [("s1ap.PLMNidentity", s1ap_plmn)],
    ("Default Paging DRX",): [("s1ap.PagingDRX", number)], ("MME groups",): [("s1ap.MME_Group_ID", decimal)],
    ("MME codes",): [("s1ap.MME_Code", decimal)], ("Relative MME Capacity",): [("s1ap.RelativeMMECapacity", number)],
    ("E-UTRAN CGI", "PLMN"): [("s1ap.pLMNidentity", s1ap_plmn), ("e212.ecgi.mcc", country), ("e212.ecgi.mnc", network)],
    ("cell identity",): [("s1ap.CellIdentity", lambda value: "0x%08x" % value)],
    ("RRC Establishment Cause",): [("s1ap.RRC_Establishment_Cause", number)],
    ("MME code",): [("s1ap.mMEC", decimal)], ("M-TMSI",): [("s1ap.m_TMSI", number)],
    ("E-RAB ID",): [("s1ap.e_RAB_ID", number)], ("transport layer address",): [("s1ap.transportLayerAddressIPv4", str)],
    ("GTP-TEID",): [("s1ap.gTP_TEID", lambda value: coloned(value.to_bytes(4, "big")))],
    ("E-RAB level QoS parameters", "QCI"): [("s1ap.qCI", number)], ("priority level",): [("s1ap.priorityLevel", number)],
    ("pre-emption capability",): [("s1ap.pre_emptionCapability", number)],
    ("pre-emption vulnerability",): [("s1ap.pre_emptionVulnerability", number)],
    ("UE Aggregate Maximum Bit Rate", "down"): [("s1ap.uEaggregateMaximumBitRateDL", number)],
    ("UE Aggregate Maximum Bit Rate", "up"): [("s1ap.uEaggregateMaximumBitRateUL", number)],
    ("encryption algorithms",): [("s1ap.encryptionAlgorithms", bits16("EEA"))],
    ("integrity algorithms",): [("s1ap.integrityProtectionAlgorithms", bits16("EIA"))],
    ("Security Key",): [("s1ap.SecurityKey", of_hex)], ("NH",): [("s1ap.nextHopParameter", of_hex)],
    ("next hop chaining count",): [("s1ap.nextHopChainingCount", number)],
    ("UE Radio Capability",): [("s1ap.UERadioCapability", of_hex)],
    ("UE Identity Index value",): [("s1ap.UEIdentityIndexValue", shifted(10, 2))], ("CN Domain",): [("s1ap.CNDomain", number)],
    ("S1 interface",): [("s1ap.s1_Interface", number)],
    # NAS
    ("mac",): [("nas_eps.msg_auth_code", lambda text: "0x" + text)], ("sequence",): [("nas_eps.seq_no", number)],
    ("short MAC",): [("nas_eps.emm.short_mac", lambda text: "0x" + text)], ("sequence number",): [("nas_eps.seq_no_short", number)],
    ("NAS key set identifier",): [("nas_eps.emm.nas_key_set_id", number)],
    ("EPS attach type",): [("nas_eps.emm.eps_att_type", number)],
    ("EPS attach result",): [("nas_eps.emm.EPS_attach_result", number)], ("IMSI",): [("e212.imsi", str)], **OF_GUTI,
    ("TAI list", "PLMN"): [("e212.tai.mcc", country), ("e212.tai.mnc", network)],
    ("TAI list", "TAC"): [("nas_eps.emm.tai_tac", decimal)],
    ("EMM cause",): [("nas_eps.emm.cause", number)], ("ESM cause",): [("nas_eps.esm.cause", number)],
    ("RAND",): [("gsm_a.dtap.rand", of_hex)], ("AUTN",): [("gsm_a.dtap.autn", of_hex)], ("RES",): [("nas_eps.emm.res", of_hex)],
    ("ciphering",): [("nas_eps.emm.toc", number)], ("integrity",): [("nas_eps.emm.toi", number)],
    ("identity type",): [("nas_eps.emm.id_type2", number)], ("switch off",): [("nas_eps.emm.switch_off", flag)],
    ("EPS update type",): [("nas_eps.emm.update_type_value", number)], ("active flag",): [("nas_eps.emm.active_flg", flag)],
    ("EPS update result",): [("nas_eps.emm.eps_update_result_value", number)],
    ("T3412 value",): [("gsm_a.gm.gmm.gprs_timer", minutes)],
    ("PDN type",): [("nas_eps.esm_pdn_type", number)], ("request type",): [("nas_eps.esm_request_type", number)],
    ("EPS bearer identity",): [("nas_eps.bearer_id", number)],
    ("procedure transaction identity",): [("nas_eps.esm.proc_trans_id", number)],
    ("ESM information transfer flag",): [("nas_eps.esm.eit", number)], ("EPS QoS", "QCI"): [("nas_eps.esm.qci", number)],
    ("access point name",): [("gsm_a.gm.sm.apn", str)], ("PDN address", "address"): [("nas_eps.esm.pdn_ipv4", str)],
    ("linked EPS bearer identity",): [("nas_eps.esm.linked_bearer_id", number)],
    ("more",): [],  # octets of a capability that we leave as they are
    ("authentication failure parameter",): [], ("protocol configuration options",): [], ("last visited registered TAI",): [],
    ("DRX parameter",): [], ("MS network capability",): [],
}
DETACH_TYPES = {False: "nas_eps.emm.detach_type_ul", True: "nas_eps.emm.detach_type_dl"}
BITS = {"EEA": ["eea0", "128eea1", "128eea2", "eea3", "eea4", "eea5", "eea6", "eea7"],
        "EIA": ["eia0", "128eia1", "128eia2", "eia3", "eia4", "eia5", "eia6", "eia7"],
        "UEA": ["uea%d" % at for at in range(8)], "UIA": ["uia%d" % at for at in range(1, 8)]}
NAMES_OF_BITS = {"EEA": identities.EEA, "EIA": identities.EIA, "UEA": identities.UEA, "UIA": identities.UIA[1:]}
ALL_FIELDS = [field for pairs in FIELDS.values() for field, _ in pairs]
ALL_FIELDS += ["nas_eps.emm." + bit for bits in BITS.values() for bit in bits]
ALL_FIELDS += ["s1ap.procedureCode", "gsm_a.len"]
ALL_FIELDS += ["nas_eps.nas_msg_emm_type", "nas_eps.nas_msg_esm_type", "nas_eps.security_header_type"]
ALL_FIELDS += [*OF_ELEMENTS, *DETACH_TYPES.values()]


class Ours:
    """A message of ours in tshark's fields."""

    def __init__(self, octets, from_mme):
        self.found, self.from_mme = collections.defaultdict(list), from_mme
        made = render.message_object(messages.decode(octets), from_mme)
        self.keep("s1ap.procedureCode", made["procedure"])
        self.keep("s1ap.criticality", CRITICALITIES.index(made["criticality"]))
        self.keep("per.open_type_length", len(octets) - (4 if len(octets) < 4 + 0x80 else 5))
        for element in made["elements"]:
            self.keep("s1ap.id", element["id"])
            self.keep("s1ap.criticality", CRITICALITIES.index(element["criticality"]))
            self.keep("per.open_type_length", element["octets"])
            self.walk((element["name"],), element.get("value"))

    def keep(self, field, value):
        self.found[field].append(str(value))

    def walk(self, names, value):
        """Keeps each value below a name."""
        if isinstance(value, dict) and "fields" in value:
            self.message(value)
        elif isinstance(value, dict):
            for name, inner in value.items():
                self.walk(names + (name,), inner)
        elif isinstance(value, list):
            for item in value:
                self.walk(names, item)
        elif names[-1] in BITS:
            for name, bit in zip(NAMES_OF_BITS[names[-1]], BITS[names[-1]]):
                self.keep("nas_eps.emm." + bit, int(name in value.split(" ")))
        elif names[-1] == "detach type":
            self.keep(DETACH_TYPES[self.from_mme], number(value))
        elif value is not None:
            known = [FIELDS[names[-size:]] for size in (2, 1) if names[-size:] in FIELDS]
            for field, form in known[0]:
                self.keep(field, form(value))

    def message(self, made):
        """Keeps a NAS message: its protection, its type, and its fields with their lengths."""
        if "header" in made:
            self.keep("nas octets", made["octets"])
            self.keep("nas_eps.security_header_type", made["header"])
            for name in ("mac", "sequence"):
                self.walk((name,), made.get(name))
        if made["protocol"] == "EMM" and made["header" if "header" in made else "type"] != 12:
            if made.get("mac"):
                self.keep("nas_eps.security_header_type", 0)
            self.keep("nas_eps.nas_msg_emm_type", "0x%02x" % made["type"])
        elif made["protocol"] == "ESM":
            self.keep("nas_eps.nas_msg_esm_type", "0x%02x" % made["type"])
        for name, value in made["fields"].items():
            if name in made["lengths"]:
                self.keep("gsm_a.len", made["lengths"][name])
            self.walk((name,), value)
