"""The command line of tools/front."""
import argparse
import contextlib
import functools
import ipaddress
import json
import os
import re
import shlex
import signal
import socket
import sys
import time

from tools import runs, versions

from tools.fronting import limits, playing, snapshots
from tools.fronting.etcd import access_of
from tools.fronting.exchange import END, GO_ON, REFUSE
from tools.fronting.faults import WRONG, told
from tools.fronting.front import Front
from tools.fronting.heads import Gathered, check_sure
from tools.fronting.keys import NO, YES, Filling, read_vectors
from tools.fronting.listening import ControlSocket, listener_of, page_listener_of
from tools.fronting.locking import Lock
from tools.fronting.mme import library
from tools.fronting.page import Page
from tools.fronting.pool import Pool
from tools.fronting.provisioning import read_head
from tools.fronting.saying import Voice
from tools.fronting.segments import whole_series
from tools.fronting.used import LOG_END, UsedVectors
from tools.fronting.wording import add_of_snapshots, whole

S1AP_PORT = 36412  # TS 36.412 clause 7
OF_PHONE, OF_FILE = ("data", "cancel", "show", "tunnel"), ("give",)
OF_FRONT, OF_BOTH = ("stations", "phones", "counters"), ("health",)
SNAPSHOT_KEY = "snapshot-key"  # the credential of a service that is the key of snapshots
NAME = re.compile(r"(?=.{1,253}$)[a-z0-9_-]{1,63}(\.[a-z0-9_-]{1,63})*", re.IGNORECASE)  # of a machine


def run(given):
    """Runs the front by these words."""
    given.control = given.control or given.log + ".control"
    given.listen = given.listen or [address_of("127.0.0.1")]
    if given.log_keys == NO:
        os.environ.pop("MME_EXPLAIN", None)  # by which `mme` says a line that is wrong, with the keys in it
    voice = Voice(given.log_form == "json")
    try:
        choose_mme(given)
        if given.anew and not given.resume:
            raise runs.Fault("--anew goes with --resume")
        read_store(given)
        read_source(given)
        read_snapshot(given)
        octets = runs.read_file(given.subscribers)
        given.subscribers = "standard input" if given.subscribers == "-" else given.subscribers
        head = read_head(octets, given.subscribers, given.code)
        del octets
        with contextlib.ExitStack() as after:
            after.enter_context(contextlib.closing(Lock(given.log)))
            used = after.enter_context(contextlib.closing(UsedVectors(given.log + LOG_END)))
            listener, link = listener_of(given.listen, given.port, given.tcp, listens=given.store is None)
            after.enter_context(listener)
            control = after.enter_context(contextlib.closing(ControlSocket(given.control)))
            page = None
            if given.page is not None:
                pages = after.enter_context(page_listener_of(*given.page))
                page = lambda front: Page(front, pages, given.page_host)
            Front(given, head, voice, used).run(listener, link, control.listener, page)
        return 0
    except runs.Fault as fault:
        status = getattr(fault, "status", WRONG)
        voice.say("ends", str(fault), status=status)
        return status
    finally:
        voice.close()


def choose_mme(given):
    """Where no program is named, the MME is the library's, if that is there."""
    if given.mme is None and not given.library:
        with contextlib.suppress(runs.Fault):
            given.library = bool(library())
    given.mme = given.mme or runs.SYSTEM


def read_store(given):
    """The words on a store become the way into it."""
    of_store = {"--store-ca": given.store_ca, "--store-cert": given.store_cert, "--store-user": given.store_user,
                "--store-password": given.store_password, "--standby": given.standby}
    if given.store is None:
        for word in (word for word, value in of_store.items() if value):
            raise runs.Fault("%s goes with --store" % word)
        return
    for word, is_other in (("--anew", given.anew), ("--log-keys no", given.log_keys == NO), ("--sync no", given.sync == NO),
                           ("--full-disk " + GO_ON, given.full_disk == GO_ON)):
        if is_other:
            raise runs.Fault("%s is of a log in files, and not in a store" % word)
    given.resume = False  # of the files; the log in the store is always gone on with
    given.store = access_of(given.store.split(","), given.store_ca, given.store_cert, given.store_user, given.store_password)


def read_source(given):
    """The words on a source become its own words, and the pool of those who are added."""
    if given.source is None:
        if given.add:
            raise runs.Fault("--add goes with --source")
        return
    if not given.library:
        raise runs.Fault("--source goes with --library: a program takes no vectors while it runs")
    if given.log_keys == NO:
        raise runs.Fault("--log-keys no doesn't go with --source, whose vectors have their keys in the log alone")
    given.source = words_of(given.source)
    given.add = pool_of(*given.add) if given.add else None


def words_of(text):
    """A program and its words, as a shell parts them."""
    try:
        words = shlex.split(text)
    except ValueError as fault:
        raise runs.Fault("--source: %s" % fault) from None
    if not words:
        raise runs.Fault("--source has a program")
    return words


def pool_of(gateway, network):
    """The pool behind a gateway, by its address and the phones' network."""
    try:
        return Pool(str(ipaddress.IPv4Address(gateway)), ipaddress.IPv4Network(network))
    except ValueError as fault:
        raise runs.Fault("--add: %s" % fault) from None


def read_snapshot(given):
    """The words on snapshots become the rule by which they are made, and the file of their key."""
    for word in (word for word, value in (("--snapshot", given.snapshot), ("--snapshot-key", given.snapshot_key))
                 if value is not None and not given.library):
        raise runs.Fault("%s goes with --library" % word)
    has_keys = given.log_keys == YES
    if given.snapshot and not has_keys:
        raise runs.Fault("--snapshot is of a log that keeps the vectors' keys, which a snapshot has too")
    if given.snapshot is None and given.library and has_keys:
        given.snapshot = 60 * limits.SNAPSHOT_MINUTES, limits.SNAPSHOT_MIB << 20
    given.snapshot = given.snapshot or None
    credential = os.path.join(os.environ.get("CREDENTIALS_DIRECTORY", ""), SNAPSHOT_KEY)
    if given.library and given.snapshot_key is None and os.path.isabs(credential) and os.path.exists(credential):
        given.snapshot_key = credential


def snapshot(given):
    """Tells what a log's snapshots have."""
    try:
        snapshots.tell(given)
        return 0
    except runs.Fault as fault:
        versions.complain(fault)
    return WRONG


# --- Asking ---


def connected(path, wait):
    """A connection to a control socket, which may come within `wait` seconds."""
    until = time.monotonic() + wait
    while True:
        asking = socket.socket(socket.AF_UNIX)
        try:
            asking.connect(path)
            return asking
        except OSError as fault:
            asking.close()
            if not isinstance(fault, (FileNotFoundError, ConnectionRefusedError)) or time.monotonic() > until:
                raise runs.Fault("%s: %s" % (path, told(fault))) from None
            time.sleep(0.05)


def question(given):
    """What is sent for the words of `ask`."""
    wanted = 0 if given.word in OF_FRONT + OF_BOTH else 1
    if len(given.more) != wanted:
        raise runs.Fault("%s has %s after it" % (given.word, runs.counted(wanted, "word")))
    if given.word in OF_FILE:
        octets = runs.read_file(given.more[0])
        return b"give %d\n" % len(octets) + octets
    return " ".join([given.word, *given.more]).encode() + (b"\ncounters\n" if wants_log(given) else b"\n")


def wants_log(given):
    """Whether the log's health is told below what is asked for: below the phones, but not in their JSON, which has an IMSI for each."""
    return given.word == "phones" and not given.json


def table(word, found):
    """What was told of a front, a line for each thing."""
    if word == "phones":
        lines = ["%s %s vectors_left=%d%s" % (imsi, phone["states"], phone["vectors_left"], "".join(
            " tunnel_%s=%s" % end for end in phone.get("tunnel", {}).items())) for imsi, phone in found.items()]
    elif word == "stations":
        lines = [" ".join("%s=%s" % item for item in station.items()) for station in found]
    else:
        lines = ["%s: %s" % (name, json.dumps(value)) for name, value in found.items()]
    return "".join(versions.visible(line) + "\n" for line in lines)


def log(found):
    """The health of a log, by what is counted of each of its series."""
    if not found:
        return "no log"
    return "log whole=%s segments_share=%s" % (all(one["whole"] for one in found.values()), max(
        one["share"] for one in found.values()))


def ask(given):
    """Asks a front that runs."""
    try:
        octets = question(given)
        with connected(given.control, given.wait) as asking:
            # Many lines are given in the time that they take.
            asking.settimeout(None if given.word in OF_FILE else limits.ANSWERED_SECONDS)
            try:
                with contextlib.suppress(BrokenPipeError, ConnectionResetError):  # what is too much isn't read to its end
                    asking.sendall(octets)
                answers = asking.makefile(encoding="utf-8", errors="replace", newline="\n")
                answer = answers.readline()
                counters = answers.readline() if wants_log(given) else ""
            except OSError as fault:
                raise runs.Fault("%s: %s" % (given.control, told(fault))) from None
        if not answer:
            raise runs.Fault("the front ended before it answered")
    except runs.Fault as fault:
        voice = Voice()
        voice.say("fault", str(fault))
        voice.close()
        return WRONG
    word, _, rest = answer.partition(" ")
    try:
        if word in OF_FRONT and not given.json:
            print(table(word, json.loads(rest)), end="")
            if wants_log(given):
                print(log(json.loads(counters.partition(" ")[2] or "{}").get("log")))
        else:
            print(versions.visible((rest if word in OF_FRONT else answer).removesuffix("\n")))
        sys.stdout.flush()
    except BrokenPipeError:  # whoever reads it has seen enough
        os.dup2(os.open(os.devnull, os.O_WRONLY), sys.stdout.fileno())
    return 0 if word.strip() in ("taken", "state", "tunnel", "given", "serves", "follows", *OF_FRONT) else 1


# --- A log without keys ---


def filled(vectors, log):
    """The lines of a log, with the keys of these vectors."""
    filling = Filling(vectors)
    for path in whole_series(log):
        with open(path, "rb") as file:
            yield from filling.whole(line for line in file if line.endswith(b"\n"))


def fill(given):
    """Prints a log with the keys of a file's vectors; where that is asked for, with all that was given in its head."""
    try:
        read = functools.partial(filled, read_vectors(given.vectors), given.log)
        if given.head:
            check_sure(given.log)
            gathered = Gathered(read)
            for text in gathered.differences():
                versions.complain(text)
            read = gathered.lines
        sys.stdout.buffer.writelines(read())
        sys.stdout.flush()
        return 0
    except BrokenPipeError:
        sys.stderr.close()
    except (OSError, runs.Fault) as fault:
        versions.complain(fault if isinstance(fault, runs.Fault) else "%s: %s" % (given.log, told(fault)))
    return WRONG


def play(given):
    """Plays a log through the library, and prints what `mme play` prints of a trace."""
    try:
        return playing.play(given)
    except KeyboardInterrupt:
        return 128 + signal.SIGINT
    except runs.Fault as fault:
        versions.complain(fault)
    return WRONG


# --- Words ---


def seconds(text):
    try:
        if 0.001 <= float(text) <= 86400:
            return float(text)
    except ValueError:
        pass
    raise argparse.ArgumentTypeError("%r isn't a number of seconds from 0.001 to 86400" % text)


def snapshot_of(text):
    """After how many seconds and octets snapshots are made: nothing where none are."""
    if text == NO:
        return ()
    minutes, mark, mib = text.partition(",")
    try:
        found = 60 * float(minutes), int(float(mib) * (1 << 20))
        if mark and 0 < found[0] <= 86400 and 0 < found[1] <= 1 << 32:
            return found
    except (ValueError, OverflowError):
        pass
    raise argparse.ArgumentTypeError("%r isn't `no`, and no minutes up to 1440 with MiB up to 4096, such as 10,8" % text)


def address_of(text):
    try:
        return ipaddress.ip_address(text)
    except ValueError as fault:
        raise argparse.ArgumentTypeError(str(fault)) from None


def network_of(text):
    try:
        return ipaddress.ip_network(text)
    except ValueError as fault:
        raise argparse.ArgumentTypeError(str(fault)) from None


def name_of(text):
    """A machine's name."""
    if not NAME.fullmatch(text):
        raise argparse.ArgumentTypeError("%r isn't the name of a machine" % text)
    return text


def page_of(text):
    """An address and a port, as 127.0.0.1:9100 or [::1]:9100."""
    address, _, port = text.rpartition(":")
    return address_of(address.removeprefix("[").removesuffix("]")), whole(0, 65535)(port)


def add_interface(words):
    """The words on stations and who may ask."""
    words.add_argument("--listen", metavar="ADDRESS", type=address_of, action="append",
                       help="where stations connect to; by SCTP may be given several times; default 127.0.0.1, for stations on "
                       "this machine only")
    words.add_argument("--port", type=whole(0, 65535), default=S1AP_PORT, help="default 36412; 0 for any that is free")
    links = words.add_mutually_exclusive_group()
    links.add_argument("--sctp", action="store_true", help="by SCTP (default)")
    links.add_argument("--tcp", action="store_true", help="by TCP, with two octets of length before each message")
    words.add_argument("--allow", metavar="NETWORK", type=network_of, action="append",
                       help="an address or a network that stations may come from, such as 192.0.2.0/24; may be given several "
                       "times; default any")
    words.add_argument("--per-address", type=whole(1, runs.STATIONS), default=limits.PER_ADDRESS, metavar="N",
                       help="connections from one address at a time; default %d" % limits.PER_ADDRESS)
    words.add_argument("--rate", type=whole(1, 1000000), default=limits.RATE, metavar="N",
                       help="messages a second that a station may send; default %d" % limits.RATE)
    words.add_argument("--setup-seconds", type=seconds, default=limits.SETUP_SECONDS, metavar="SECONDS",
                       help="that S1 SETUP may take from the connection on; default %d" % limits.SETUP_SECONDS)
    words.add_argument("--control", metavar="PATH", help="of the control socket; default LOG.control")
    words.add_argument("--page", metavar="ADDRESS:PORT", type=page_of,
                       help="where a browser finds the page of its state, and Prometheus /metrics; nowhere where not given")
    words.add_argument("--page-host", metavar="NAME", type=name_of, action="append", default=[],
                       help="a name that the page is asked for by, besides localhost and addresses; may be given several times")


def add_log(words):
    """The words on the log, and what the front says."""
    words.add_argument("--keep", type=whole(0, 99), default=0, metavar="N",
                       help="how many older logs to keep, as LOG.1 to LOG.N; default 0")
    words.add_argument("--resume", action="store_true",
                       help="play the last log first and go on after it; if that can't be done, end with status 2")
    words.add_argument("--anew", action="store_true",
                       help="with --resume: if the last log can't be resumed, begin with nobody attached")
    words.add_argument("--log-keys", choices=(YES, NO), default=YES,
                       help="whether the log keeps XRES and KASME of vectors (default yes); without them it plays once `fill` has "
                       "put them back, and --resume needs the SUBSCRIBERS that it was begun with")
    words.add_argument("--segment-size", type=whole(1, 4096), default=limits.SEGMENT_SIZE, metavar="MIB",
                       help="size of a segment of the log; default %d MiB" % limits.SEGMENT_SIZE)
    words.add_argument("--segments", type=whole(2, 10000), default=limits.SEGMENTS, metavar="N",
                       help="how many segments of LOG to keep, and of LOG.counts; default %d" % limits.SEGMENTS)
    words.add_argument("--snapshot", metavar="MINUTES,MIB", type=snapshot_of,
                       help="with --library: save the MME beside the log, or in the store, after so many minutes, or MiB of "
                       "LOG.counts, or of turns; default %d,%d; `no` for none" % (limits.SNAPSHOT_MINUTES, limits.SNAPSHOT_MIB))
    words.add_argument("--snapshot-key", metavar="FILE",
                       help="with --library: a key of 16 octets or more that seals snapshots; without it, who can write the "
                       "folder, or to the store, can plant phones; default the service's credential `%s`, if there is one"
                       % SNAPSHOT_KEY)
    words.add_argument("--sync", choices=(YES, NO), default=YES,
                       help="whether an answer waits until what led to it is on disk (default yes); with no, after a power cut the "
                       "log may lack what was answered, and --resume refuses it")
    words.add_argument("--full-disk", choices=(END, REFUSE, GO_ON), default=END,
                       help="what to do if the log can't be written: end with status 74 (default), refuse stations for up to %d s, "
                       "or go on without a log" % limits.FULL_SECONDS)
    words.add_argument("--log", dest="log_form", choices=("text", "json"), default="text",
                       help="the form of its messages on standard error")


def add_source(words):
    """The words on a source of vectors."""
    words.add_argument("--source", metavar="WORDS", help="with --library: a program with its words, such as \"mme-vectors serve sims "
                       "sqns\", that is asked for vectors")
    words.add_argument("--add", nargs=2, metavar=("ADDRESS", "NETWORK"), help="with --source: provision who asks to attach and has "
                       "vectors there, with an address of NETWORK and an S-GW at ADDRESS, as the gateway has both")


def add_store(words):
    """The words on a log in a store."""
    words.add_argument("--store", metavar="URL,..", help="keep the log in etcd, by the members at these places, such as "
                       "http://192.0.2.11:2379, in place of files")
    words.add_argument("--standby", action="store_true", help="with --store: lead only once no other front has written a turn "
                       "for %d s; without it, lead at once" % limits.SILENCE_SECONDS)
    words.add_argument("--store-ca", metavar="FILE", help="who signs for the store's members, by https")
    words.add_argument("--store-cert", metavar="FILE", help="the front's own certificate and its key, by https")
    words.add_argument("--store-user", metavar="NAME", help="a user of etcd")
    words.add_argument("--store-password", metavar="FILE", help="a file whose first line is that user's password")


def add_of_logs(ways, form):
    """The ways that are of a log alone."""
    filling = ways.add_parser("fill", help="print a log without keys with the keys of a file", **form)
    filling.add_argument("vectors", metavar="VECTORS", help="a file with the lines vec, such as SUBSCRIBERS")
    filling.add_argument("log", metavar="LOG", help="the log, with its earlier segments")
    filling.add_argument("--head", action="store_true",
                         help="print the lines that were given while the front ran (`#+ `) in the log's head, and say which lines "
                         "are answered otherwise then")
    filling.set_defaults(act=fill)
    played = ways.add_parser("play", help="play a log through the library, with what was given while the front ran", **form)
    played.add_argument("log", metavar="LOG", help="the log, with its earlier segments, or LOG.counts; - for standard input")
    add_of_snapshots(played, "play")
    played.add_argument("--vectors", metavar="VECTORS", help="of a log without keys, a file with the lines vec, as for `fill`")
    played.set_defaults(act=play)
    telling = ways.add_parser("snapshot", help="tell what the snapshots of a log have, without keys", **form)
    telling.add_argument("log", metavar="LOG", help="the log")
    telling.add_argument("--snapshot-key", metavar="FILE", help="the key that they are sealed by")
    telling.set_defaults(act=snapshot)


def parser(description):
    form = {"formatter_class": argparse.RawDescriptionHelpFormatter, "allow_abbrev": False}
    words = argparse.ArgumentParser(description=description,
                                    epilog="`tools/front run --help` has the options and the limits.", **form)
    versions.add_to(words)
    ways = words.add_subparsers(required=True, metavar="run|ask|fill|play|snapshot")
    live = ways.add_parser("run", help="take stations", epilog=limits.LIMITS, **form)
    live.add_argument("subscribers", metavar="SUBSCRIBERS", help="a file with the lines mme, sub and vec, or - for standard input")
    live.add_argument("log", metavar="LOG", help="the file that gets the trace")
    add_interface(live)
    add_log(live)
    add_store(live)
    live.add_argument("--code", metavar="HEX", help="refuse SUBSCRIBERS whose MME code isn't this one")
    live.add_argument("--answer-seconds", type=seconds, default=limits.ANSWER_SECONDS, metavar="SECONDS",
                      help="that the MME may owe an answer, default %d; then the front ends with status 76" % limits.ANSWER_SECONDS)
    live.add_argument("--second", type=seconds, default=1.0, metavar="SECONDS", help="the length of a tick, for tests")
    mmes = live.add_mutually_exclusive_group()
    mmes.add_argument("--mme", metavar="PROGRAM", help="run this program as the MME, such as `mme`")
    mmes.add_argument("--library", action="store_true",
                      help="run the MME in the front's own process, by the library for C and Python, and start no program; default "
                      "where the library is, and elsewhere the program beside this tool")
    add_source(live)
    live.set_defaults(act=run)
    asking = ways.add_parser("ask", help="ask a front that runs", **form)
    asking.add_argument("control", metavar="CONTROL", help="its control socket")
    asking.add_argument("word", metavar="WORD", choices=sorted((*OF_PHONE, *OF_FILE, *OF_FRONT, *OF_BOTH)),
                        help="data, cancel, show or tunnel, with an IMSI; give with a FILE; stations, phones, counters or health")
    asking.add_argument("more", metavar="IMSI|FILE", nargs="*")
    asking.add_argument("--json", action="store_true", help="print stations, phones and counters as JSON")
    asking.add_argument("--wait", type=seconds, default=0.0, metavar="SECONDS", help="wait for a front that is still starting")
    asking.set_defaults(act=ask)
    add_of_logs(ways, form)
    return words


def main(description):
    given = parser(description).parse_args()
    return given.act(given)
