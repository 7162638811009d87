"""Addresses and TEIDs that are handed out as lines `sub`, and that a file keeps, so that each subscriber has the same again."""
import contextlib
import fcntl
import ipaddress
import os

from tools import runs

from tools.fronting.pool import free_addresses, free_teid, line_of

from tools.tunnels import phones

MOST = 1 << 15  # subscribers of an MME


class Fault(runs.Fault):
    """Why nothing is handed out; its text says it."""


def imsis_of(octets, name):
    """The IMSIs of a list: the first word of each line that has one; # begins a comment."""
    found = {}
    for number, line in enumerate(octets.decode("latin-1").splitlines(), 1):
        words = line.partition("#")[0].split()
        if not words:
            continue
        try:
            imsi = runs.imsi_of(words[0])
        except runs.Fault as fault:
            raise Fault("%s: line %d: %s" % (name, number, fault)) from None
        if imsi in found:
            raise Fault("%s: line %d: %s stands in line %d already" % (name, number, imsi, found[imsi]))
        found[imsi] = number
    if len(found) > MOST:
        raise Fault("%s: more than %d subscribers" % (name, MOST))
    return list(found)


def read_given(text, name):
    """What was handed out: by IMSI its address and its TEID."""
    found = {}
    for number, line in enumerate(text.splitlines(), 1):
        if not line or line.startswith("#"):
            continue
        word, *fields = line.split(" ")
        try:
            imsi, address, _, teid = phones.subscriber(fields if word == "sub" else [])
        except phones.Fault:
            raise Fault("%s: line %d isn't a line sub" % (name, number)) from None
        if imsi in found:
            raise Fault("%s: line %d: %s stands there already" % (name, number, imsi))
        found[imsi] = address, teid
    return found


def hand_out(imsis, given, network):
    """What each subscriber has, of what was handed out before and of what is free; those who were given something keep it."""
    addresses, teids = ({pair[at] for pair in given.values()} for at in (0, 1))
    strangers = [address for address in addresses if ipaddress.IPv4Address(address) not in network]
    if strangers:
        raise Fault("%s was handed out, which isn't in %s" % (strangers[0], network))
    free, found = free_addresses(network, addresses), dict(given)
    for imsi in imsis:
        if imsi not in found:
            address = next(free, None)
            if address is None:
                raise Fault("%s has no address left for %s" % (network, imsi))
            found[imsi] = address, free_teid(teids)
    return found


def write(path, text):
    """Puts a text in a file's place, whole or not at all, for its owner alone."""
    new = path + ".new"
    with open(os.open(new, os.O_WRONLY | os.O_CREAT | os.O_TRUNC, 0o600), "w", encoding="ascii") as file:
        file.write(text)
        file.flush()
        os.fsync(file.fileno())
    os.replace(new, path)
    folder = os.open(os.path.dirname(os.path.abspath(path)), os.O_RDONLY)
    os.fsync(folder)
    os.close(folder)


@contextlib.contextmanager
def locked(path):
    """Nobody else hands out of this file meanwhile."""
    with open(os.open(path + ".lock", os.O_RDWR | os.O_CREAT, 0o600), "rb") as file:
        fcntl.flock(file, fcntl.LOCK_EX)
        yield


def lines_for(imsis, path, gateway, network):
    """The lines `sub` of subscribers, in their order; what is new is kept before."""
    with locked(path):
        text = ""
        if os.path.exists(path):
            with open(path, encoding="latin-1") as file:
                text = file.read()
        given = read_given(text, path)
        found = hand_out(imsis, given, network)
        if found != given:
            write(path, "".join(line_of(imsi, address, gateway, teid) + "\n" for imsi, (address, teid) in found.items()))
    return "".join(line_of(imsi, found[imsi][0], gateway, found[imsi][1]) + "\n" for imsi in imsis)
