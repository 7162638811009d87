"""Addresses and TEIDs that subscribers are given, and their lines `sub`."""
import ipaddress
import secrets

from tools import runs

LEAST_HOSTS = 4  # addresses of a network of which some are hosts'


def free_addresses(network, taken):
    """The addresses of hosts of a network that nobody has, from the lowest on."""
    last = network.num_addresses - 1
    for place in range(1, last) if network.num_addresses >= LEAST_HOSTS else range(last + 1):
        address = str(network.network_address + place)
        if address not in taken:
            yield address


def free_teid(taken):
    """A random TEID that nobody has."""
    while (teid := secrets.randbits(32)) == 0 or teid in taken:
        pass
    taken.add(teid)
    return teid


def digits_of(address):
    """An address as a line `sub` has it."""
    return ipaddress.IPv4Address(address).packed.hex()


def line_of(imsi, address, gateway, teid):
    return "sub %s %s %s %08x" % (imsi, digits_of(address), digits_of(gateway), teid)


class Pool:
    """The network of which subscribers that are added have their addresses, behind this gateway. Nobody's address becomes free, so
    each is looked at once."""

    def __init__(self, gateway, network):
        self.gateway, self.network = gateway, network
        self.addresses, self.teids = free_addresses(network, ()), set()

    def begin(self, head):
        """Nobody is given a TEID of these subscribers."""
        self.teids.update(int(line.rpartition(" ")[2], 16) for line in head.subscribers)

    def line(self, imsi, *taken):
        """The line of a subscriber, whose address is in none of these sets; a fault where there is none left."""
        for address in self.addresses:
            digits = digits_of(address)
            if address != self.gateway and not any(digits in places for places in taken):
                return line_of(imsi, address, self.gateway, free_teid(self.teids))
        raise runs.Fault("%s has no address left" % self.network)
