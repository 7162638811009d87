"""The command line of tools/s6a."""
import argparse
import ipaddress
import re
import socket

from tools import versions
from tools.sourcing.saying import Voice
from tools.sourcing.words import digits_of

from tools.diameter.links import Link, SctpLink
from tools.diameter.source import Source

PORT = 3868  # RFC 6733 clause 11.4
MOST_PEERS = 4
WATCHDOG_SECONDS, ANSWER_SECONDS = 30, 4  # RFC 3539 clause 3.4.1; for all that a request takes
NAME = re.compile(r"(?=.{1,253}$)[a-z0-9-]{1,63}(\.[a-z0-9-]{1,63})+", re.IGNORECASE)  # of a host or a realm


def name_of(text):
    if not NAME.fullmatch(text):
        raise argparse.ArgumentTypeError("%r isn't a name with a domain, such as epc.mnc001.mcc001.3gppnetwork.org" % text[:80])
    return text


def address_of(text):
    try:
        return ipaddress.ip_address(text)
    except ValueError as fault:
        raise argparse.ArgumentTypeError(str(fault)) from None


def peer_of(text):
    """An address, and perhaps a port, as 192.0.2.1, 192.0.2.1:3868 or [2001:db8::1]:3868."""
    if re.fullmatch(r"[^:]*|[^\[]*:.*:.*", text):
        return address_of(text), PORT
    address, _, port = text.rpartition(":")
    if not (port.isascii() and port.isdigit() and len(port) < 6 and 0 < int(port) < 1 << 16):
        raise argparse.ArgumentTypeError("%r isn't a port" % port[:20])
    return address_of(address.removeprefix("[").removesuffix("]")), int(port)


def seconds(text):
    try:
        if 0.1 <= float(text) <= 86400:
            return float(text)
    except ValueError:
        pass
    raise argparse.ArgumentTypeError("%r isn't a number of seconds from 0.1 to 86400" % text[:20])


class Network(argparse.Action):
    """Reads a country code and a network code."""

    def __call__(self, parser, given, values, option_string=None):
        try:
            setattr(given, self.dest, (digits_of(3)(values[0]), digits_of(2, 3)(values[1])))
        except argparse.ArgumentTypeError as fault:
            parser.error("argument --plmn: %s" % fault)


def parser(description):
    words = argparse.ArgumentParser(description=description, formatter_class=argparse.RawDescriptionHelpFormatter,
                                    allow_abbrev=False)
    versions.add_to(words)
    words.add_argument("peers", metavar="PEER", nargs="+", type=peer_of,
                       help="an HSS or a relay, as 192.0.2.1, 192.0.2.1:3868 or [2001:db8::1]:3868; up to four, the first of which "
                       "that answers is asked")
    words.add_argument("--host", metavar="NAME", type=name_of, required=True, help="this MME's own name (Origin-Host)")
    words.add_argument("--realm", metavar="NAME", type=name_of, required=True, help="this MME's realm (Origin-Realm)")
    words.add_argument("--plmn", nargs=2, action=Network, required=True, metavar=("MCC", "MNC"),
                       help="the serving network, for `registered`")
    words.add_argument("--hss-realm", metavar="NAME", type=name_of, help="the HSS's realm; default that of --realm")
    words.add_argument("--hss", metavar="NAME", type=name_of,
                       help="the HSS's name, where requests are for one alone (Destination-Host)")
    links = words.add_mutually_exclusive_group()
    links.add_argument("--tcp", action="store_true", help="by TCP (default)")
    links.add_argument("--sctp", action="store_true", help="by SCTP")
    words.add_argument("--source", metavar="ADDRESS", type=address_of, help="the address to connect from; default any")
    words.add_argument("--answer-seconds", type=seconds, default=ANSWER_SECONDS, metavar="SECONDS",
                       help="for the HSS to answer all that a request takes, default %d; then it is `later`" % ANSWER_SECONDS)
    words.add_argument("--watchdog", type=seconds, default=WATCHDOG_SECONDS, metavar="SECONDS",
                       help="of silence until a peer is asked whether it is there; default %d" % WATCHDOG_SECONDS)
    return words


def has_sctp():
    """Whether the kernel has SCTP."""
    try:
        socket.socket(socket.AF_INET, socket.SOCK_STREAM, socket.IPPROTO_SCTP).close()
        return True
    except OSError:
        return False


def main(description):
    words = parser(description)
    given = words.parse_args()
    if len(given.peers) > MOST_PEERS:
        words.error("there are %d peers, and at most %d are taken" % (len(given.peers), MOST_PEERS))
    if given.sctp and not has_sctp():
        words.error("argument --sctp: no SCTP here (on Linux: modprobe sctp)")
    return Source(given, SctpLink if given.sctp else Link, Voice().say).run()
