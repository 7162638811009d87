"""Metrics and the page of a front that runs, by HTTP.

What is told is made piece by piece, beside the stations' messages (aside.py), once for all who ask for it at a time, and kept for a
moment for those who come next.
"""
import datetime
import ipaddress
import time
import typing

from tools import versions

from tools.fronting import ladder, limits, metrics, status
from tools.fronting.guests import Door
from tools.fronting.history import History
from tools.fronting.keys import YES
from tools.fronting.markup import linked, marked, phone, shown, table
from tools.fronting.meters import RECENT
from tools.fronting.traffic import ALL

MINUTES = 5  # that the chart goes back
MOST_PHONES = 100  # that the page lists
OK, NOT_FOUND, NOT_ALLOWED, MISDIRECTED = "200 OK", "404 Not Found", "405 Method Not Allowed", "421 Misdirected Request"
LOCAL = "localhost"  # the name that each machine has for itself
METRICS = "metrics"  # in the place of a view
MOST_LAST = 120  # messages of which the page shows some; a phone's own has those of all that are kept
NO_PAGE = b"/, /metrics and /health; /?from=N for phones from that one on, /?imsi=N for one\n"
UNSAID = "–"  # in the place of what isn't known
OF_PHONE = "IMSI", "Address", "EMM", "ECM", "ESM", "Station", "Vectors left"
# Where a gateway tells of the phones' packets: of each phone, and of each gateway.
OF_TUNNEL = "IMSI", "Leads to", "TEID", "Packets from it", "Octets", "Packets to it", "Octets", "Dropped", "Waiting"
OF_GATEWAY = ("Address", "Network", "Contexts", "Stations", "Packets up", "Octets up", "Packets down", "Octets down", "Dropped",
              "Waiting")
OF_STORE = "This front", "Epoch", "Its last turn", "The store's last turn", "Octets of turns", "Of the store", "Of its quota"
LAST_SNAPSHOT, NO_SNAPSHOT = "The last snapshot is after turn %d, made %s UTC; %d turns came since.", "There is no snapshot."
HELD = "The log can't be written: stations are refused and not heard until there is room."
UNTOLD = "Reasons are missing here: %s. `tools/explain` finds them in the log."
LATE = "%d lines are still to be read"
TEXT_FORM, PAGE_FORM = "text/plain; charset=utf-8", "text/html; charset=utf-8"
METRICS_FORM = "text/plain; version=0.0.4; charset=utf-8"
STYLE = """
:root { color-scheme: light dark; --ink: #1b1f24; --paper: #ffffff; --faint: #5f6773; --line: #d5d9df; --mark: #0b62c4;
  --alarm: #b3261e; }
@media (prefers-color-scheme: dark) {
  :root { --ink: #e6e8eb; --paper: #14171b; --faint: #98a1ad; --line: #343a43; --mark: #6cb2ff;
    --alarm: #ff8a80; }
}
body { margin: 2rem auto; max-width: 78rem; padding: 0 1rem; background: var(--paper); color: var(--ink);
  font: 15px/1.5 sans-serif; }
a { color: var(--mark); }
h1 { font-size: 1.4rem; } h2 { font-size: 1.1rem; margin-top: 2rem; }
table { border-collapse: collapse; width: 100%; }
th, td { text-align: left; padding: .3rem .6rem; border-bottom: 1px solid var(--line); white-space: nowrap; }
td.long { white-space: normal; overflow-wrap: anywhere; min-width: 15rem; }
th { color: var(--faint); font-weight: 600; } td.number, th.number { text-align: right; font-variant-numeric: tabular-nums; }
p.none, .note { color: var(--faint); } .alarm { font-weight: 600; color: var(--alarm); } .wide { overflow-x: auto; }
.note, p.alarm { overflow-wrap: anywhere; }
svg text { fill: var(--ink); font: 12px sans-serif; } svg text.phone { font-size: 11px; }
svg .label, svg .reason { paint-order: stroke; stroke: var(--paper); stroke-width: 3px; }
svg .lane, svg .label { text-anchor: middle; } svg .lane { font-weight: 600; } svg .time, svg .phone { fill: var(--faint); font-variant-numeric: tabular-nums; }
svg a text, svg a { fill: var(--mark); text-decoration: underline; }
svg .rail { stroke: var(--line); } svg .arrow { stroke: var(--mark); } svg .head { fill: var(--mark); }
svg .arrow.fault { stroke: var(--alarm); } svg .head.fault, svg text.fault { fill: var(--alarm); }
"""


def above(front):
    """The head of each view, and what somebody is to look after."""
    now = datetime.datetime.now(datetime.timezone.utc).strftime("%Y-%m-%d %H:%M:%S UTC")
    alarms = [*status.alarms(front).values(), *([HELD] if front.exchange.held_since is not None else [])]
    return [
        "<h1>%s</h1>" % shown("Soizkadur %s, MME of code %s" % (versions.number(), front.head.mme[4])),
        '<p class="note">%s · network %s %s · running for %s · <a href="/metrics">metrics</a></p>' % (
            now, shown(front.head.mme[1]), shown(front.head.mme[2]), lasting(time.time() - front.meters.begun)),
        *('<p class="alarm" role="alert">%s</p>' % shown(words) for words in alarms),
    ]


def lasting(seconds):
    """A time in words, as `2 d 3 h`."""
    minutes = int(seconds) // 60
    if minutes < 1:
        return "%d s" % seconds
    if minutes < 60:
        return "%d min" % minutes
    return "%d h %d min" % divmod(minutes, 60) if minutes < 48 * 60 else "%d d %d h" % divmod(minutes // 60, 24)


def of_stations(front, _):
    """The head, and the stations that are connected with what they say of themselves."""
    rows = []
    for station in status.stations(front):
        identity = front.crowd.stations[station["station"]].identity
        rows.append(["%d" % station["station"], identity.enb_id or UNSAID, identity.name or UNSAID, identity.tacs or UNSAID,
                     "set up" if station["set_up"] else "connected", station["address"], station["port"],
                     round(station["seconds"]), station["messages_in"], station["messages_out"]])
    heads = "Station", "eNB ID", "Name", "TACs", "State", "Address", "Port", "Seconds", "Messages in", "Messages out"
    return [*above(front), "<h2>Stations</h2>", table(heads, rows) if rows else '<p class="none">No station is connected.</p>']


def of_store(front):
    """How far a front with its log in a store has come."""
    told = status.store(front)
    rows = [["leads" if told["leads"] else "stands by", told["epoch"], told["turn"], told["last_turn"], told["octets"],
             told["store_used"], told["store_quota"] or "not known"]]
    last = front.saving.told().get("snapshot")
    snapshot = LAST_SNAPSHOT % (last["turn"], last["made"], last["turns_since"]) if last else NO_SNAPSHOT
    return ["<h2>Log</h2>", table(OF_STORE, rows),
            '<p class="note">In the store at %s. %s</p>' % (shown(str(front.settings.store)), shown(snapshot))]


def of_log(front, _):
    """The log's health."""
    if front.standby is not None:
        return of_store(front)
    octets = status.log_octets(front)
    log = [[what, octets[what], "%d of %d" % (part["segments"], part["segments_kept"]), "yes" if part["whole"] else "no"]
           for what, part in status.log(front).items()]
    if not log:
        return ["<h2>Log</h2>", '<p class="none">There is no log.</p>']
    synced = "synced before each answer goes out" if front.settings.sync == YES else "not synced (--sync no)"
    return ["<h2>Log</h2>", table(("Of", "Octets", "Segments", "Whole since the start"), log),
            '<p class="note">%s, %s.</p>' % (shown(front.settings.log), synced)]


def place_of(front, slot):
    """The station that was sent something for a phone last."""
    number, connection = front.meters.places.get(b"s%d" % slot, (None, None))
    if number is None:
        return UNSAID
    if number not in front.crowd.stations or connection != front.meters.ups[number]:
        return "%d (gone)" % number
    name = front.crowd.stations[number].identity.name
    return "%d %s" % (number, name) if name else "%d" % number


def phone_row(front, slot):
    """A phone as the page lists it."""
    left = front.stock.left(slot)
    return [phone(front.head.imsis[slot]), front.head.address(slot), *front.census.of(slot).split(" "), place_of(front, slot),
            marked("alarm", left) if left <= front.stock.most_few else left]


def tunnel_row(front, slot, gateways):
    """A phone's tunnel, and its packets as its gateway has them."""
    imsi = front.head.imsis[slot]
    counted = next((told.phones[imsi] for told in gateways if imsi in told.phones), [UNSAID] * (len(OF_TUNNEL) - 3))
    return [phone(imsi), *(front.followers.bearers.tunnel(slot) or (UNSAID, UNSAID)), *counted]


def of_tunnels(front, slots, gateways):
    """The tunnels of phones; nothing where there is no gateway."""
    rows = [tunnel_row(front, slot, gateways) for slot in slots]
    return ["<h2>Tunnels</h2>", table(OF_TUNNEL, rows)] if gateways and rows else []


def of_gateways(front, _):
    """The gateways, and which packets they dropped and why; nothing where there is none."""
    gateways = front.traffic.gateways
    if not gateways:
        return []
    drops = [[told.address, way, why, count] for told in gateways
             for way, whys in told.dropped.items() for why, count in whys.items()]
    rows = [[told.address, told.network, told.contexts, told.stations, *told.passed,
             sum(sum(whys.values()) for whys in told.dropped.values()), sum(count for count, _ in told.waiting.values())]
            for told in gateways]
    return ["<h2>Gateways</h2>", table(OF_GATEWAY, rows),
            *(["<h2>Dropped packets</h2>", table(("Gateway", "Way", "Why", "Packets"), drops)] if drops else [])]


def listed(front, first, gateways):
    """The page's phones from one on, and where there are more of them."""
    imsis = front.head.imsis
    slots = range(first, min(first + MOST_PHONES, len(imsis)))
    rows = [phone_row(front, slot) for slot in slots]
    places = [("those before", max(0, first - MOST_PHONES), first > 0), ("those after", slots.stop, slots.stop < len(imsis))]
    links = [linked("/?from=%d" % place, words) for words, place, is_there in places if is_there]
    return [
        "<h2>Phones</h2>", table(OF_PHONE, rows) if rows else '<p class="none">Nobody is provisioned.</p>',
        '<p class="note">%d to %d of %d · %s</p>' % (first + 1, slots.stop, len(imsis), " · ".join(links)) if links else "",
        *of_tunnels(front, slots, gateways),
    ]


def of_phone(front, slot, history, gateways):
    """A phone's own page, below the alarms."""
    imsi = front.head.imsis[slot]
    entries = ladder.entries_of(history.rows, front.teller, front.head.imsis, lambda when, name: name == imsi)
    return ["<h2>Phone %s</h2>" % shown(imsi), '<p class="note">%s</p>' % linked("/", "all stations and phones"),
            table(OF_PHONE, [phone_row(front, slot)]), *of_tunnels(front, [slot], gateways),
            "<h2>Its last messages</h2>", *charted(front, entries)]


def of_messages(front, history):
    """The last messages."""
    since = time.time() - 60 * MINUTES
    entries = ladder.entries_of(history.rows, front.teller, front.head.imsis, lambda when, name: when >= since)
    return ["<h2>The last %d minutes, the newest first</h2>" % MINUTES, *charted(front, entries)]


def charted(front, entries):
    """The ladder of entries, and what it lacks."""
    chart = ladder.drawn(entries, front.head.slots)
    why = front.teller.why_not or (LATE % front.teller.lines if front.teller.lines else "")
    return ['<div class="wide">%s</div>' % chart if chart else '<p class="none">No message came or went.</p>',
            '<p class="note">%s</p>' % shown(versions.as_called(UNTOLD % why)) if why else ""]


FRAME = of_stations, of_messages, of_gateways, of_log  # what all lists of phones have around them


def whole(parts):
    """The page of these parts."""
    return ('<!doctype html>\n<html lang="en"><head><meta charset="utf-8"><meta http-equiv="refresh" content="5">'
            '<meta name="viewport" content="width=device-width"><title>Soizkadur</title><style>%s</style></head>\n'
            '<body>\n%s\n</body></html>\n' % (STYLE, "\n".join(part for part in parts if part))).encode()


def response(state, form, octets, is_head=False):
    """An answer by HTTP, after which the connection ends."""
    head = ("HTTP/1.1 %s\r\nContent-Type: %s\r\nContent-Length: %d\r\nConnection: close\r\nCache-Control: no-store\r\n"
            "Content-Security-Policy: default-src 'none'; style-src 'unsafe-inline'\r\nX-Content-Type-Options: nosniff\r\n\r\n")
    return (head % (state, form, len(octets))).encode() + (b"" if is_head else octets)


def hosts_of(lines):
    """The names that a request was sent to, by its lines `Host`, without ports and in small letters."""
    for line in lines:
        name, _, value = line.partition(":")
        if name.strip().lower() == "host":
            value = value.strip().lower()
            host, _, port = value.rpartition(":")
            yield host if host and port.isdigit() or not port else value


def is_address(host):
    """Whether a host is an address, which in a link no other name leads to."""
    try:
        ipaddress.ip_address(host.removeprefix("[").removesuffix("]"))
        return True
    except ValueError:
        return False


class View(typing.NamedTuple):
    """What the page shows: phones from one on, by their slots, or that phone alone."""
    first: int
    is_phone: bool = False

    @property
    def most(self):
        return 1 if self.is_phone else MOST_PHONES


class Page:
    """Answers GET of /metrics, of / and of /health. A name that anybody may have given this address to isn't served, since a page
    of another site would read here by it."""

    def __init__(self, front, listener, names=()):
        self.front, self.names = front, {LOCAL, *(name.lower() for name in names)}
        self.door = Door(front.loop, listener, limits.MOST_BROWSING, limits.LONGEST_REQUEST, limits.BROWSING_SECONDS, self.take)
        self.waiting, self.made = {}, {}  # by what is asked for: who waits for it, and when it was made with what it is
        # The page's parts around its phones, when they were made, and the steps to the next ones.
        self.frame, self.framed, self.framing = [], 0.0, None
        self.lasts, self.all = (History(front.meters, lambda: front.head.imsis, most) for most in (MOST_LAST, RECENT))

    def take(self, guest, received):
        """Answers a request that is whole; returns what is left."""
        if b"\r\n\r\n" not in received:
            return received
        first, *lines = received.partition(b"\r\n\r\n")[0].decode("latin-1").split("\r\n")
        words = first.split(" ")
        if len(words) != 3 or words[0] not in ("GET", "HEAD"):
            guest.say(response(NOT_ALLOWED, TEXT_FORM, b"GET and HEAD alone\n"), is_last=True)
        elif not all(host in self.names or is_address(host) for host in hosts_of(lines)):
            guest.say(response(MISDIRECTED, TEXT_FORM, b"by an address, as localhost, or by a name of --page-host\n"), is_last=True)
        else:
            self.answer(guest, words[1], words[0] == "HEAD")
        return b""

    def answer(self, guest, target, is_head):
        path, _, query = target.partition("?")
        if path == "/health":
            words = b"it follows\n" if self.front.stands_by else b"it serves\n"
            guest.say(response(OK, TEXT_FORM, words, is_head), is_last=True)
        elif path == "/metrics":
            self.tell(guest, METRICS, is_head)
        elif path == "/" and (view := self.view_of(query)) is not None:
            self.tell(guest, view, is_head)
        else:
            guest.say(response(NOT_FOUND, TEXT_FORM, NO_PAGE, is_head), is_last=True)

    def view_of(self, query):
        """What is to be shown, by the words after `?`; nothing where there is no such thing."""
        word, _, value = query.partition("=")
        if not query:
            return View(0)
        if word == "imsi" and value in self.front.head.slots:
            return View(self.front.head.slots[value], True)
        is_there = word == "from" and value.isascii() and value.isdigit() and len(value) < 10
        return View(int(value)) if is_there and int(value) < max(1, len(self.front.head.imsis)) else None

    def tell(self, guest, what, is_head):
        """Has somebody be told the metrics, or a view of the page."""
        guest.wait()
        since = time.monotonic() - limits.FRESH_SECONDS
        self.made = {other: made for other, made in self.made.items() if made[0] >= since}
        if what in self.made:
            self.say(what, [(guest, is_head)])
            return
        if not self.waiting:
            self.framing = None  # it was left long ago
        waiting = self.waiting.setdefault(what, [])
        waiting.append((guest, is_head))
        if len(waiting) == 1:
            self.ask(what)

    def ask(self, what):
        """Has the MME and the gateways be asked for what is to be told, and then has it be made."""
        imsis, end = self.front.head.imsis, len(self.front.head.imsis)
        first, end = (0, end) if what == METRICS else (what.first, min(what.first + what.most, end))
        named = ALL if what == METRICS else imsis[first:end]
        make = lambda gateways: self.front.aside.do(lambda: self.make(what, self.steps_of(what, gateways)))
        self.front.census.want(first, end, limits.FRESH_SECONDS, lambda: self.is_wanted(what),
                               lambda: self.front.traffic.want(named, lambda: self.is_wanted(what), make))

    def is_wanted(self, what):
        """Whether somebody waits for it still."""
        self.waiting[what] = [(guest, is_head) for guest, is_head in self.waiting.get(what, ()) if guest.is_open]
        if not self.waiting[what]:
            del self.waiting[what]
        return what in self.waiting

    def make(self, what, steps):
        """Makes what is asked for, a step at a time, and says it; not where nobody waits for it any more."""
        if not self.is_wanted(what):
            return
        now, octets = time.monotonic(), next(steps)
        if octets is None:
            self.front.aside.do(lambda: self.make(what, steps))
        else:
            self.made[what] = now, octets
            self.say(what, self.waiting.pop(what))

    def steps_of(self, what, gateways):
        """The steps to what is asked for: nothing for each but the last, which has the octets."""
        front = self.front
        if what == METRICS:
            text = metrics.text_of(front, gateways)
            for _ in metrics.steps_of_phones(text, gateways, front.head.slots):
                yield None
            yield text.octets()
            return
        if what.is_phone:
            until = front.meters.messages
            while self.all.read_on(until):
                yield None
            yield whole(above(front) + of_phone(front, what.first, self.all, gateways))
            return
        while not self.frame or time.monotonic() - self.framed > limits.FRESH_SECONDS:
            self.framing = self.framing or self.steps_of_frame()
            next(self.framing)
            yield None
        before, messages, tunnels, log = self.frame
        yield whole([*before, *messages, *listed(front, what.first, gateways), *tunnels, *log])

    def steps_of_frame(self):
        """The steps to what all lists of phones have around them, which are gone once for all who wait."""
        front, parts, until = self.front, [], self.front.meters.messages
        while self.lasts.read_on(until):
            yield
        for station in list(front.crowd.stations.values()):
            if station.read_request():
                yield
        for part in FRAME:
            parts.append(part(front, self.lasts))
            yield
        self.frame, self.framed, self.framing = parts, time.monotonic(), None
        yield

    def say(self, what, guests):
        octets = response(OK, METRICS_FORM if what == METRICS else PAGE_FORM, self.made[what][1])
        for guest, is_head in guests:
            guest.say(octets[:octets.index(b"\r\n\r\n") + 4] if is_head else octets, is_last=True)

    def close(self):
        self.door.close()
