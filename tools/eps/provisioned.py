"""What a trace's head says: the MME's network, the subscribers and their vectors (README.md, "A trace")."""
import dataclasses
import functools

from tools import runs
from tools.eps import identities

IDS_OF_A_SLOT = 1 << 16  # MME UE S1AP IDs of a slot, and M-TMSIs (docs/PROFILE.md, Identities)
FIRST_STRANGER = 1 << 31
ENB_UE_IDS = 1 << 24
KEY_SETS = 7


@dataclasses.dataclass(frozen=True)
class Vector:
    """An authentication vector; `number` counts from 1."""
    number: int
    rand: bytes
    autn: bytes
    xres: bytes
    kasme: bytes

    @property
    def key_set(self):
        return (self.number - 1) % KEY_SETS


@dataclasses.dataclass
class Profile:
    """A subscriber: its slot, IMSI, address, its S-GW's address and tunnel end, and its vectors, but for those that were `gone`
    before a snapshot."""
    slot: int
    imsi: str
    address: str
    gateway: str
    teid: int
    vectors: list
    gone: int = 0

    @property
    def owner(self):
        return "s%d" % self.slot

    def count(self):
        """How many vectors it was given."""
        return self.gone + len(self.vectors)

    def add(self, *parts):
        """It has one more vector."""
        self.vectors.append(Vector(self.count() + 1, *parts))


@dataclasses.dataclass(frozen=True)
class Network:
    """The MME: its network, group and code, access point name and bit rates."""
    mcc: str
    mnc: str
    group: str
    code: str
    apn: str
    rates: tuple

    @functools.cached_property
    def plmn(self):
        return "%s %s" % (self.mcc, self.mnc)

    def guti(self, tmsi):
        return {"PLMN": self.plmn, "MME group": self.group, "MME code": self.code, "M-TMSI": tmsi}

    def tmsi_of(self, guti):
        """The M-TMSI of a GUTI of this MME, or None."""
        return guti["M-TMSI"] if self.guti(guti["M-TMSI"]) == guti else None


def take_line(profiles, word, fields):
    """Takes a line `sub` or `vec` among the profiles by their IMSIs."""
    if word == "sub":
        imsi, address, gateway, teid = fields
        addresses = (identities.address(32, bytes.fromhex(text)) for text in (address, gateway))
        profiles[imsi] = Profile(len(profiles), imsi, *addresses, int(teid, 16), [])
    elif word == "vec":
        profiles[fields[0]].add(*map(bytes.fromhex, fields[1:]))


def provisioned(head):
    """The network and the profiles of the lines of a head."""
    network, profiles = None, {}
    for line in head:
        word, *fields = line.decode("latin-1").split(" ")
        try:
            if word == "mme":
                mcc, mnc, group, code, apn, down, up = fields
                network = Network(mcc, mnc, group.lower(), code.lower(), apn, (int(down), int(up)))
            else:
                take_line(profiles, word, fields)
        except (KeyError, ValueError):
            raise runs.Fault("the head of the trace can't be taken: %.60s" % line.decode("latin-1")) from None
    return network, list(profiles.values())


def id_of_slot(slot, counter):
    return slot * IDS_OF_A_SLOT + counter


def stranger_id(station, enb_id):
    return FIRST_STRANGER + station * ENB_UE_IDS + enb_id


def stranger_of(mme_id):
    """The station and the eNB UE S1AP ID of a stranger's id."""
    return divmod(mme_id - FIRST_STRANGER, ENB_UE_IDS)
