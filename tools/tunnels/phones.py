"""The phones that a gateway is for: their addresses and TEIDs, and where their tunnels lead to."""
import ipaddress
import typing


class Fault(Exception):
    """What the front says that can't be taken; its text says why."""


class Tunnel(typing.NamedTuple):
    """A station's end of a tunnel."""
    station: str
    teid: int


class Phone:
    """A phone: its IMSI, its address, its own TEID, its tunnel and the device that this passes; and what went past the device, as
    packets and octets from it and to it. `before` is the station that it came from by its last path switch, `moved` when that was,
    and `asked` and `released` when the front was asked to page and to release it last."""

    __slots__ = ("imsi", "address", "packed", "teid", "tunnel", "device", "before", "moved", "up", "down", "dropped", "asked",
                 "released")

    def __init__(self, imsi, address, teid):
        self.imsi, self.address, self.packed, self.teid = imsi, address, ipaddress.IPv4Address(address).packed, teid
        self.tunnel = self.device = self.before = None
        self.up, self.down, self.dropped = [0, 0], [0, 0], 0
        self.asked = self.released = self.moved = float("-inf")

    @property
    def identity(self):
        return self.imsi, self.address, self.teid


def count(counter, packet):
    """One more packet."""
    counter[0] += 1
    counter[1] += len(packet)


def subscriber(fields):
    """The IMSI, the address, the gateway and the TEID of a subscriber."""
    try:
        imsi, address, gateway, teid = fields
        if not imsi.isdigit():
            raise ValueError
        return imsi, *(str(ipaddress.IPv4Address(bytes.fromhex(text))) for text in (address, gateway)), int(teid, 16)
    except ValueError:
        raise Fault("a subscriber that can't be read: %.80s" % " ".join(fields)) from None


def tunnel(fields):
    """A phone's IMSI and its tunnel."""
    try:
        imsi, station, teid = fields
        found = Tunnel(str(ipaddress.IPv4Address(station)), int(teid))
        if not 0 <= found.teid < 1 << 32:
            raise ValueError
        return imsi, found
    except ValueError:
        raise Fault("a tunnel that can't be read: %.80s" % " ".join(fields)) from None


class Phones:
    """Those whose gateway is at an address, and whose own addresses are of a network; by IMSI, address, TEID, and the other end of
    their tunnels."""

    def __init__(self, gateway, network):
        self.gateway, self.network = gateway, network
        self.by_imsi, self.by_address, self.by_teid, self.by_end = {}, {}, {}, {}

    def why_not(self, address, teid):
        """Why this gateway can't be for a phone, or nothing."""
        if ipaddress.IPv4Address(address) not in self.network:
            return "its address %s isn't in %s" % (address, self.network)
        if not teid:
            return "its TEID is 0"
        if teid in self.by_teid:
            return "its TEID is that of %s" % self.by_teid[teid].imsi
        if ipaddress.IPv4Address(address).packed in self.by_address:
            return "its address is that of another"
        return None

    def add(self, phone):
        self.by_imsi[phone.imsi] = self.by_address[phone.packed] = self.by_teid[phone.teid] = phone

    def remove(self, phone):
        del self.by_imsi[phone.imsi], self.by_address[phone.packed], self.by_teid[phone.teid]

    def set_tunnel(self, phone, tunnel, device):
        """A phone's tunnel is this one from now on, or none."""
        if phone.tunnel is not None and self.by_end.get(phone.tunnel) is phone:
            del self.by_end[phone.tunnel]
        phone.tunnel, phone.device = tunnel, device
        if tunnel is not None:
            self.by_end[tunnel] = phone
