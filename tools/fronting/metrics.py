"""The metrics in Prometheus' text form (version 0.0.4)."""
import collections

from tools import versions

from tools.fronting import limits, status
from tools.fronting.meters import BOUNDS, OTHER, name_of

PIECE = 100  # phones of a step


class Text:
    """Metrics as text, each with its help and its type before its first value."""

    def __init__(self):
        self.lines = []

    def add(self, name, kind, about, values):
        """A metric: its values by their labels."""
        self.lines += ["# HELP soizkadur_%s %s" % (name, about), "# TYPE soizkadur_%s %s" % (name, kind)]
        self.add_values(name, values)

    def add_values(self, name, values):
        """Further values of the metric that was added last."""
        for labels, value in values:
            self.lines.append("soizkadur_%s%s %s" % (name, labelled(labels), number(value)))

    def add_histogram(self, name, about, bounds, buckets, total):
        """A histogram: how many values there are up to each bound, their sum and their number."""
        self.add(name, "histogram", about, [])
        count = 0
        for bound, more in zip([*map(repr, bounds), "+Inf"], buckets):
            count += more
            self.lines.append('soizkadur_%s_bucket{le="%s"} %d' % (name, bound, count))
        self.lines += ["soizkadur_%s_sum %s" % (name, number(total)), "soizkadur_%s_count %d" % (name, count)]

    def octets(self):
        return ("\n".join(self.lines) + "\n").encode()


def number(value):
    return repr(value) if isinstance(value, float) else str(value)


def labelled(labels):
    """Labels with their values, as a metric's name has them after it."""
    def escaped(value):
        return versions.visible(str(value)).replace("\\", "\\\\").replace('"', '\\"')
    return "{%s}" % ",".join('%s="%s"' % (name, escaped(value)) for name, value in labels.items()) if labels else ""


def of_messages(meters):
    """The messages by direction and name, and those with a cause by it."""
    counts, causes = collections.Counter(), collections.Counter()
    for direction, found in (("in", meters.inward), ("out", meters.outward)):
        for kind, count in found.items():
            counts[direction, name_of(kind) if kind != OTHER else name_of(b"")] += count
    for direction, found in (("in", meters.inward_causes), ("out", meters.outward_causes)):
        for (kind, cause), count in found.items():
            causes[direction, name_of(kind), cause] += count
    return ([({"direction": direction, "message": name}, count) for (direction, name), count in sorted(counts.items())],
            [({"direction": direction, "message": name, "cause": cause}, count)
             for (direction, name, cause), count in sorted(causes.items())])


def text_of(front, gateways):
    """All metrics but those of each phone's packets; the states of the phones, and the gateways, were asked for before."""
    text, meters, exchange = Text(), front.meters, front.exchange
    stations = front.crowd.stations.values()
    set_up = sum(station.is_set_up for station in stations)
    text.add("stations", "gauge", "Stations that are connected.",
             [({"state": "set up"}, set_up), ({"state": "connected"}, len(stations) - set_up)])
    text.add("phones", "gauge", "Subscribers by their EMM, ECM and ESM state.",
             [(dict(zip(("emm", "ecm", "esm"), state.split(" "))), count) for state, count in front.census.by_states().items()])
    text.add("vectors_left", "gauge", "Subscribers by the vectors that they have left.",
             [({"left": left}, count) for left, count in front.stock.by_left().items()])
    least = front.stock.least()
    text.add("vectors_left_minimum", "gauge", "The fewest vectors that a subscriber has left.",
             [] if least is None else [({}, least)])
    messages, causes = of_messages(meters)
    text.add("messages_total", "counter", "S1AP messages.", messages)
    text.add("causes_total", "counter", "S1AP messages that have a cause.", causes)
    text.add("attaches_total", "counter",
             "Steps of attaches: ATTACH REQUESTs that came; accepts, rejects and authentication rejects that were sent; and "
             "attaches that were completed, each accept once, by the MME's own state after ATTACH COMPLETE.",
             [({"step": name}, count) for name, count in sorted(meters.attaches.items())])
    text.add("losses_total", "counter", "Connections that ended.",
             [({"why": why}, count) for why, count in sorted(meters.losses.items())])
    text.add("connections_total", "counter", "Connections that came.", [({}, meters.connections)])
    text.add("connections_refused_total", "counter", "Connections that weren't taken.", [({}, meters.refused)])
    text.add("waiting_octets", "gauge", "Octets that wait to be read.",
             [({"for": "mme"}, exchange.program.size), ({"for": "stations"}, sum(station.link.size for station in stations))])
    text.add("batches_in_flight", "gauge", "Turns whose answers are due.", [({}, len(exchange.marks))])
    text.add_histogram("answer_seconds", "Time from a message to its answer.", BOUNDS, meters.buckets, meters.seconds)
    add_upkeep(text, front)
    add_gateways(text, gateways)
    return text


def add_upkeep(text, front):
    """What the front itself is like."""
    meters = front.meters
    text.add("log_octets", "gauge", "Octets of the log.",
             [({"of": what}, octets) for what, octets in status.log_octets(front).items()])
    log = status.log(front).items()
    text.add("log_segments", "gauge", "Segments of the log that there are.", [({"of": what}, of["segments"]) for what, of in log])
    text.add("log_segments_share", "gauge", "Segments of the log that there are, as a part of those that are kept.",
             [({"of": what}, of["share"]) for what, of in log])
    text.add("log_whole", "gauge", "Whether all of the log since the start is there: --resume and give need what counts.",
             [({"of": what}, int(of["whole"])) for what, of in log])
    alarms, told, asked = status.alarms(front), status.store(front), status.source(front)
    kinds = *status.ALARMS, *([status.STORE] if told else []), *([status.SOURCE] if asked else [])
    text.add("alarm", "gauge", "Whether somebody is to look after it: few vectors or segments are left, or the log isn't whole.",
             [({"of": what}, int(what in alarms)) for what in kinds])
    text.add("log_segments_removed_total", "counter", "Segments of the log that went for new ones.", [({}, meters.gone)])
    if told:
        text.add("store_leads", "gauge", "Whether this front leads, by the log in the store.", [({}, int(told["leads"]))])
        text.add("store_epoch", "gauge", "The epoch of the log in the store.", [({}, told["epoch"])])
        text.add("store_turn", "gauge", "The last turn: of this front, and of the store as far as it knows.",
                 [({"of": "front"}, told["turn"]), ({"of": "store"}, told["last_turn"])])
        text.add("store_turns_octets", "gauge", "Octets of the turns up to this front's last one.", [({}, told["octets"])])
        text.add("store_octets", "gauge", "Octets of the store's fullest member, used and of its quota; 0 where that isn't known.",
                 [({"of": "store"}, told["store_octets"]), ({"of": "used"}, told["store_used"]),
                  ({"of": "quota"}, told["store_quota"] or 0)])
        add_snapshot(text, front.saving.told().get("snapshot"))
    text.add("memory_octets", "gauge", "Memory of the processes.",
             [({"of": "front"}, status.memory()), ({"of": "mme"}, status.memory(front.exchange.program.pid))])
    text.add("start_seconds", "gauge", "When the front began, in seconds since 1970.", [({}, meters.begun)])
    text.add("resumed", "gauge", "Whether this run goes on after another one.", [({}, front.resumed)])
    text.add("changes_of_mme_total", "counter", "Times that further subscribers or vectors were given.", [({}, front.given)])
    if asked:
        add_source(text, asked)


def add_snapshot(text, told):
    """The last snapshot in the store, if there is one."""
    if told:
        text.add("store_snapshot_turn", "gauge", "The turn after which the last snapshot in the store is.", [({}, told["turn"])])
        text.add("store_snapshot_turns_since", "gauge", "Turns since then.", [({}, told["turns_since"])])
        text.add("store_snapshot_octets", "gauge", "Its octets.", [({}, told["octets"])])
        text.add("store_snapshot_seconds", "gauge", "When it was made, in seconds since 1970.", [({}, told["time"])])


def add_source(text, asked):
    """The source of vectors, and what is held for it."""
    text.add("source_runs", "gauge", "Whether the source of vectors runs.", [({}, int(asked["runs"]))])
    text.add("source_starts_total", "counter", "Times that the source began.", [({}, asked["starts"])])
    text.add("source_faults_total", "counter", "Times that the source ended, and what it told that isn't taken.",
             [({"of": "end"}, asked["ends"]), ({"of": "answer"}, asked["wrong"])])
    text.add("source_requests", "gauge", "Requests to the source that are under way.", [({}, asked["under_way"])])
    text.add("source_requests_total", "counter", "Requests to the source that are over, by how.",
             [({"end": how}, count) for how, count in sorted(asked["requests"].items())])
    text.add("source_vectors_total", "counter", "Vectors that the source supplied.", [({}, asked["vectors"])])
    text.add("source_words", "gauge", "What is to be said to the source of phones.", [({}, asked["to_say"])])
    text.add("source_words_total", "counter", "What was said to the source of phones, by how that ended, and what it ordered.",
             [({"end": how}, count) for how, count in sorted(asked["said"].items())])
    text.add("held_octets", "gauge", "Octets of messages that are held for vectors.", [({}, asked["held_octets"])])
    text.add("held_total", "counter", "Messages that were held for vectors, or were to be, by why they went on.",
             [({"why": why}, count) for why, count in sorted(asked["held"].items())])


def add_gateways(text, gateways):
    """What gateways tell; but for their number nothing where there is none."""
    text.add("gateways", "gauge", "Gateways that tell of phones' packets.", [({}, len(gateways))])
    if not gateways:
        return
    named = [({"gateway": told.address}, told) for told in gateways]
    text.add("tunnel_contexts", "gauge", "Phones that have a tunnel.", [(name, told.contexts) for name, told in named])
    text.add("tunnel_stations", "gauge", "Stations that have a device.", [(name, told.stations) for name, told in named])
    for at, what in enumerate(("packets", "octets")):
        text.add("tunnel_waiting_%s" % what, "gauge", "%s that wait." % what.capitalize(),
                 [({**name, "for": room}, numbers[at]) for name, told in named for room, numbers in told.waiting.items()])
    text.add("tunnel_dropped_total", "counter", "Packets that went no further.",
             [({**name, "way": way, "why": why}, count) for name, told in named for way, whys in told.dropped.items()
              for why, count in whys.items()])
    for at, what in enumerate(("packets", "octets")):
        text.add("tunnel_%s_total" % what, "counter", "%s of phones." % what.capitalize(),
                 [each for name, told in named for each in both_ways(name, told.passed, at)])


def both_ways(labels, numbers, at):
    """The packets or the octets from phones and to them."""
    return [({**labels, "direction": way}, numbers[at + 2 * side]) for side, way in enumerate(("from", "to"))]


def steps_of_phones(text, gateways, slots):
    """Adds the packets and octets of each phone that gateways tell of, as many as may be, a piece in a step."""
    rows = {imsi: numbers for told in gateways for imsi, numbers in told.phones.items() if imsi in slots}
    rows = [({"imsi": imsi}, numbers) for imsi, numbers in rows.items()][:limits.MOST_METERED]
    for at, what in enumerate(("packets", "octets")):
        name = "tunnel_phone_%s_total" % what
        if rows:
            text.add(name, "counter", "%s of a phone, of %d phones at the most." % (what.capitalize(), limits.MOST_METERED), [])
        for first in range(0, len(rows), PIECE):
            yield
            text.add_values(name, [each for row in rows[first:first + PIECE] for each in both_ways(*row, at)])
