"""What is told of a front that runs: its stations, its phones, and its counters."""
import json
import time

from tools.fronting import limits
from tools.fronting.meters import OTHER, name_of

PIECE = 500  # phones that are told of at a time
ALARMS = "vectors", "what happened", "what counts", "log", "snapshots"  # what there are alarms of
STORE, SOURCE = "store", "source"  # and where the log is in a store, and a source is asked


def stations(front):
    """Each station that is connected."""
    now = time.monotonic()
    return [{"station": number, "address": str(station.address), "port": station.port, "set_up": station.is_set_up,
             "seconds": round(now - station.since, 1), "messages_in": station.heard, "messages_out": station.sent,
             "octets_waiting": station.link.size} for number, station in sorted(front.crowd.stations.items())]


def phone(front, slot):
    """A phone: its states, the vectors that it has left, and where its tunnel leads to, if it has one."""
    told, tunnel = {"states": front.census.of(slot), "vectors_left": front.stock.left(slot)}, front.followers.bearers.tunnel(slot)
    return {**told, "tunnel": dict(zip(("address", "teid"), tunnel))} if tunnel else told


def phones(front, is_wanted, done):
    """Calls `done` with an object of JSON that has each phone by its IMSI, its states from now on. It is made piece by piece, beside
    the stations' messages."""
    count, pieces = len(front.head.imsis), []

    def piece():
        first = PIECE * len(pieces)
        if not is_wanted():
            return
        if first < count or not pieces:
            slots = range(first, min(first + PIECE, count))
            pieces.append(json.dumps({front.head.imsis[slot]: phone(front, slot) for slot in slots})[1:-1])
            front.aside.do(piece)
        else:
            done("{%s}" % ", ".join(pieces))

    front.census.want(0, count, 0, is_wanted, lambda: front.aside.do(piece))


def named(counts):
    """Counts of messages by their names."""
    found = {}
    for kind, count in sorted(counts.items()):
        name = name_of(kind) if kind != OTHER else name_of(b"")
        found[name] = found.get(name, 0) + count
    return found


def by_cause(counts):
    return [{"message": name_of(kind), "cause": cause, "count": count} for (kind, cause), count in sorted(counts.items())]


def log(front):
    """Each series of the log: its segments, which part of those that are kept they are, and whether it is whole."""
    found = {}
    for series in front.soundness.series():
        used, share = front.soundness.used(series)
        found[series.what] = {"segments": used, "segments_kept": series.most, "share": round(share, 3), "whole": series.is_whole}
    return found


def log_octets(front):
    return {series.what: front.soundness.octets(series) for series in front.soundness.series()}


def store(front):
    """How far a front with a log in a store has come: of a leader the last turn that is committed, of another one the last turn
    that it played; and the last one that it knows of in the store. Nothing where the log is in files."""
    if front.standby is None:
        return None
    journal, standby = front.exchange.journal, front.standby
    last, turn = (journal.last, journal.committed) if journal else (standby.last, standby.number)
    return {"leads": journal is not None, "epoch": last.epoch, "turn": turn, "last_turn": last.number,
            "octets": journal.size if journal else standby.size, "answers": standby.fault is None,
            "store_octets": standby.room.size, "store_used": standby.room.used, "store_quota": standby.room.quota}


def source(front):
    """The source of vectors, the requests to it by their ends, and what is held for it; nothing where there is none."""
    asking, holding = front.asking, front.holding
    if holding is None:
        return None
    return {"runs": asking.source.is_there, "starts": asking.source.starts, "ends": asking.source.ends, "wrong": asking.wrong,
            "vectors": asking.vectors, "requests": dict(asking.ended), "under_way": len(asking.under_way),
            "takes": asking.registering.takes, "said": dict(asking.registering.counted), "to_say": asking.registering.size,
            "held": dict(holding.counted), "held_octets": sum(holding.octets.values())}


def counters(front):
    """All that is counted."""
    meters, exchange, in_store, asked = front.meters, front.exchange, store(front), source(front)
    return {
        "seconds": round(time.time() - meters.begun, 1),
        "messages_in": named(meters.inward), "messages_out": named(meters.outward),
        "causes_in": by_cause(meters.inward_causes), "causes_out": by_cause(meters.outward_causes),
        "attaches": dict(meters.attaches), "losses": dict(meters.losses), "connections": meters.connections,
        "connections_refused": meters.refused, "answers": meters.answered,
        "answer_seconds_mean": meters.seconds / meters.answered if meters.answered else 0.0,
        "octets_waiting_for_mme": exchange.program.size, "batches_in_flight": len(exchange.marks),
        "octets_waiting_for_stations": sum(station.link.size for station in front.crowd.stations.values()),
        "phones_by_vectors_left": front.stock.by_left(), "fewest_vectors_left": front.stock.least(),
        "log": log(front), "log_octets": log_octets(front),
        "log_segments_gone": meters.gone, "memory_octets": memory(), "mme_memory_octets": memory(exchange.program.pid),
        "resumed": front.resumed, "given": front.given, **front.saving.told(), **({STORE: in_store} if in_store else {}),
        **({SOURCE: asked} if asked else {}),
    }


def alarms(front):
    """What somebody is to look after, in words by a name."""
    found = {}
    if few := front.stock.few():
        found["vectors"] = "%d of %d phones %s %d vectors or fewer left." % (
            few, len(front.stock.rands), "has" if few == 1 else "have", limits.FEW_VECTORS)
    if front.saving.why_not:
        found["snapshots"] = "No snapshot can be made: %s." % front.saving.why_not
    for series in front.soundness.series():
        if front.saving.covers(series):
            continue
        if front.soundness.is_low(series):
            found[series.what] = "%d of %d segments of the log of %s are used." % (
                front.soundness.used(series)[0], series.most, series.what)
        if not series.is_whole:
            found[series.what] = "The log of %s isn't whole since the start." % series.what
    if front.standby is not None and front.standby.room.is_low:
        found[STORE] = "T%s." % front.standby.room.words()[1:]
    if front.holding is not None and not front.asking.source.is_there:
        found[SOURCE] = "The source of vectors doesn't run."
    if front.stands_by and front.standby.fault is not None:
        found["log"] = "The store doesn't answer: %s." % front.standby.fault.words
    elif front.exchange.journal is None and front.standby is None:
        found["log"] = "There is no log."
    return found


def memory(pid="self"):
    """The octets of memory that a process holds."""
    try:
        with open("/proc/%s/statm" % pid, encoding="ascii") as file:
            return int(file.read().split()[1]) * limits.PAGE
    except OSError:
        return 0
