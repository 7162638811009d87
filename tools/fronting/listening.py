"""Where stations, and those who ask, connect to."""
import errno
import os
import socket
import stat

from tools import runs

from tools.fronting import limits, sctp
from tools.fronting.faults import NOT_YET, WRONG, Failed, told
from tools.fronting.links import SctpLink, TcpLink

# What may be otherwise a little later: an address that an interface is to have, a port that another one lets go.
PASSING = {errno.EADDRINUSE, errno.EADDRNOTAVAIL, errno.ENETDOWN, errno.ENETUNREACH, errno.ENOBUFS, errno.ENOMEM, errno.EMFILE,
           errno.ENFILE, errno.EAGAIN}


def failed(place, fault):
    """A fault of the system at a place, with its status."""
    return Failed("%s: %s" % (place, told(fault)), NOT_YET if fault.errno in PASSING else WRONG)


def listener_of(addresses, port, tcp, listens=True):
    """A socket that stations are to connect to, at one address, or by SCTP at several; and what their connections are. Where it
    doesn't listen yet, they are refused."""
    link = TcpLink if tcp else SctpLink
    if tcp and len(addresses) > 1:
        raise Failed("TCP has one address: give --listen once", WRONG)
    if len({address.version for address in addresses}) > 1:
        raise Failed("the addresses of --listen are of one version of IP", WRONG)
    family = socket.AF_INET6 if addresses[0].version == 6 else socket.AF_INET
    try:
        listener = socket.socket(family, socket.SOCK_STREAM, link.PROTOCOL)
    except OSError as fault:
        more = "" if tcp else " (on Linux: modprobe sctp; stations that speak TCP: --tcp)"
        raise Failed("no %s here: %s%s" % (link.NAME, told(fault), more), NOT_YET) from None
    try:
        listener.setsockopt(socket.SOL_SOCKET, socket.SO_REUSEADDR, 1)
        listener.setblocking(False)
        if not tcp:
            sctp.set_options(listener)
        listener.bind((str(addresses[0]), port))
        if addresses[1:]:
            sctp.bind_more(listener, addresses[1:], listener.getsockname()[1])
    except OSError as fault:
        listener.close()
        raise failed("%s port %d" % (", ".join(map(str, addresses)), port), fault) from None
    if listens:
        begin_to_listen(listener)
    return listener, link


def begin_to_listen(listener):
    """Has stations be taken from now on."""
    try:
        listener.listen(runs.STATIONS)
    except OSError as fault:
        place = "%s port %d" % listener.getsockname()[:2]
        listener.close()
        raise failed(place, fault) from None


def page_listener_of(address, port):
    """A socket for metrics and the page."""
    listener = socket.socket(socket.AF_INET6 if address.version == 6 else socket.AF_INET, socket.SOCK_STREAM)
    try:
        listener.setsockopt(socket.SOL_SOCKET, socket.SO_REUSEADDR, 1)
        listener.bind((str(address), port))
        listener.listen(limits.MOST_BROWSING)
    except OSError as fault:
        listener.close()
        raise failed("%s port %d" % (address, port), fault) from None
    return listener


def is_answered(path):
    """Whether someone listens at a socket's path."""
    with socket.socket(socket.AF_UNIX) as asking:
        asking.settimeout(limits.LAST_SECONDS)
        try:
            asking.connect(path)
        except ConnectionRefusedError:
            return False
    return True


class ControlSocket:
    """A socket at a path, for its owner alone, in the place of one that nobody listens at."""

    def __init__(self, path):
        self.path, self.listener = path, socket.socket(socket.AF_UNIX)
        mask = os.umask(0o177)
        try:
            if os.path.exists(path) and stat.S_ISSOCK(os.stat(path).st_mode) and not is_answered(path):
                os.unlink(path)
            self.listener.bind(path)
            self.listener.listen(limits.MOST_ASKING)
            self.mine = self.identity()
        except OSError as fault:
            self.listener.close()
            raise failed(path, fault) from None
        finally:
            os.umask(mask)

    def identity(self):
        """What stands at the path."""
        found = os.stat(self.path)
        return found.st_dev, found.st_ino

    def close(self):
        """Ends it, and removes it where it is still this one that stands there."""
        self.listener.close()
        try:
            if self.identity() == self.mine:
                os.unlink(self.path)
        except OSError:
            pass
