"""The command line of tools/gateway."""
import argparse
import contextlib
import errno
import ipaddress
import os
import select
import signal
import time

from tools import runs, versions
from tools.fronting.command import name_of, page_of
from tools.fronting.faults import NOT_YET, WRONG, Failed, told
from tools.fronting.listening import failed, page_listener_of
from tools.fronting.loop import Loop
from tools.fronting.notify import Manager
from tools.fronting.saying import Voice

from tools.tunnels import given, limits
from tools.tunnels.asking import Asking
from tools.tunnels.devices import Devices
from tools.tunnels.feed import Feed
from tools.tunnels.gateway import Gateway
from tools.tunnels.kept import Kept
from tools.tunnels.netlink import Refused
from tools.tunnels.page import Page, Traffic
from tools.tunnels.phones import Phones
from tools.tunnels.sockets import PORT
from tools.tunnels.telling import Telling

USAGE = "%(prog)s [--page ADDRESS:PORT] CONTROL ADDRESS PREFIX\n       %(prog)s --sims LIST --given FILE ADDRESS PREFIX"
LONGEST_NAME = 8  # letters of a name, so that all names of devices have room
FORWARDING = "/proc/sys/net/ipv4/ip_forward"
# What a module, or a while, may mend.
PASSING = (errno.EOPNOTSUPP, errno.ENOENT, errno.EAGAIN, errno.ENOMEM, errno.ENOBUFS, errno.EADDRINUSE)


def address_of(text):
    try:
        return str(ipaddress.IPv4Address(text))
    except ValueError:
        raise runs.Fault("%r isn't an address of IPv4, which GTP-U has here" % text) from None


def network_of(text):
    try:
        return ipaddress.IPv4Network(text)
    except ValueError as fault:
        raise runs.Fault("%r isn't a network of IPv4, as 10.45.0.0/16: %s" % (text, fault)) from None


def base_of(text):
    """What the devices' names begin with."""
    if not (text.isascii() and text.isalnum() and len(text) <= LONGEST_NAME):
        raise argparse.ArgumentTypeError("%r isn't a name of 1 to %d letters and digits" % (text, LONGEST_NAME))
    return text


def parser(description):
    words = argparse.ArgumentParser(description=description, usage=USAGE, formatter_class=argparse.RawDescriptionHelpFormatter,
                                    allow_abbrev=False)
    versions.add_to(words)
    words.add_argument("words", metavar="CONTROL ADDRESS PREFIX", nargs="+",
                       help="the front's control socket; the address of this machine that stations send to, which the lines `sub` "
                       "have as their S-GW; the network of the phones' addresses, as 10.45.0.0/16")
    words.add_argument("--sims", metavar="LIST", help="print lines `sub` for the IMSIs of a list, and end")
    words.add_argument("--given", metavar="FILE", help="with --sims: the file that keeps who was given what")
    words.add_argument("--name", type=base_of, default="mme", help="what the names of the devices begin with; default mme")
    words.add_argument("--page", metavar="ADDRESS:PORT", type=page_of,
                       help="where a browser finds the page, and Prometheus /metrics; nowhere where not given")
    words.add_argument("--page-host", metavar="NAME", type=name_of, action="append", default=[],
                       help="a name that the page is asked for by, besides localhost and addresses; may be given several times")
    words.add_argument("--log", dest="log_form", choices=("text", "json"), default="text",
                       help="the form of its messages on standard error")
    return words


# --- Handing out ---


def hand_out(words):
    """Prints lines `sub` for the IMSIs of a list."""
    if words.given is None:
        raise runs.Fault("--sims goes with --given, the file that keeps who was given what")
    if len(words.words) != 2:
        raise runs.Fault("--sims has two words after it: the S-GW's address and the phones' network")
    address, network = address_of(words.words[0]), network_of(words.words[1])
    imsis = given.imsis_of(runs.read_file(words.sims), words.sims)
    print(given.lines_for(imsis, words.given, address, network), end="", flush=True)


# --- The run ---


class Run:
    """A gateway that runs: its parts, and what turns them."""

    def __init__(self, words, voice):
        self.words, self.voice, self.loop, self.manager = words, voice, Loop(), Manager(os.environ)
        self.control, self.address, self.network = words.words[0], *words.parsed
        self.is_over, self.gateway, self.asking, self.traffic = False, None, None, None

    def watch(self, sock):
        """Has a socket be looked at once something comes."""
        self.loop.watch(sock.fileno(), select.EPOLLIN, lambda events: self.gateway.look_at_socket(sock))

    def begin(self, after):
        """Lays all that the kernel is to have."""
        listener = after.enter_context(page_listener_of(*self.words.page)) if self.words.page else None
        try:
            devices = Devices(self.words.name, self.address, self.network, Kept(os.environ), self.watch)
            after.callback(devices.close)
            self.gateway = Gateway(devices, Phones(self.address, self.network), self.voice)
            self.gateway.found = devices.begin()
        except Refused as fault:
            raise Failed(str(fault), NOT_YET if fault.number in PASSING else WRONG) from None
        except OSError as fault:
            raise failed("%s port %d" % (self.address, PORT) if fault.filename is None else fault.filename, fault) from None
        self.asking = self.gateway.asking = Asking(self.loop, self.control, self.voice, self.gateway.hear_states)
        self.gateway.when_known = lambda: self.loop.watch(devices.idle, select.EPOLLIN, lambda events: self.gateway.look_at_idle())
        self.traffic = Traffic(self.gateway)
        if listener is not None:
            Page(self.gateway, self.loop, listener, self.words.page_host, self.traffic)

    def handle_signals(self):
        reading, writing = os.pipe()
        for file in (reading, writing):
            os.set_blocking(file, False)
        signal.set_wakeup_fd(writing, warn_on_full_buffer=False)
        self.loop.watch(reading, select.EPOLLIN, lambda events: os.read(reading, 100))
        for number in (signal.SIGINT, signal.SIGTERM):
            signal.signal(number, lambda number, frame: self.finish())

    def finish(self):
        self.is_over = True

    def care(self):
        """Looks at what takes too long."""
        self.gateway.sweep()
        self.asking.look(time.monotonic())
        self.loop.after(limits.SWEEP_SECONDS, self.care)

    def watchdog(self):
        self.manager.tell(WATCHDOG=1, STATUS=runs.counted(len(self.gateway.phones.by_end), "tunnel"))
        self.loop.after(self.manager.period, self.watchdog)

    def serve(self):
        """Runs until it is to end."""
        self.handle_signals()
        with contextlib.ExitStack() as after:
            self.begin(after)
            self.care()
            self.manager.tell(READY=1)
            if self.manager.period:
                self.watchdog()
            self.voice.say("ready", "ready: GTP-U at %s port %d for %s; the front's control socket is %s" % (
                self.address, PORT, self.network, self.control))
            self.say_forwarding()
            try:
                Feed(self.loop, self.control, self.voice, self.gateway)
                Telling(self.loop, self.control, self.voice, self.gateway, self.traffic)
                while not self.is_over:
                    self.loop.turn()
                self.manager.tell(STOPPING=1)
                self.gateway.devices.remove()
            except (Refused, OSError) as fault:  # tunnels stay in the kernel, and the next run takes them up
                raise Failed("the gateway can't go on: %s" % fault, NOT_YET) from None

    def say_forwarding(self):
        """Says where the kernel forwards nothing."""
        with contextlib.suppress(OSError), open(FORWARDING, encoding="ascii") as file:
            if file.read().strip() == "0":
                self.voice.say("not_forwarding", "this machine forwards no packets of others: sysctl net.ipv4.ip_forward=1")


def run(words, voice):
    if len(words.words) != 3:
        raise runs.Fault("three words are needed: the front's control socket, the S-GW's address and the phones' network")
    if words.given is not None:
        raise runs.Fault("--given goes with --sims")
    words.parsed = address_of(words.words[1]), network_of(words.words[2])
    Run(words, voice).serve()


def main(description):
    words = parser(description).parse_args()
    voice = Voice(words.log_form == "json")
    try:
        if words.sims is not None:
            hand_out(words)
        else:
            run(words, voice)
        return 0
    except runs.Fault as fault:
        status = getattr(fault, "status", WRONG)
        voice.say("ends", str(fault), status=status)
        return status
    except OSError as fault:
        voice.say("ends", "%s: %s" % (fault.filename or "the system", told(fault)), status=WRONG)
        return WRONG
    finally:
        voice.close()
