"""A phone that goes from one MME of a pool to another: traces for both, with the answers by the standards' formats."""
from tests.hostile import rows
from tests.hostile.projection import stranger
from tests.hostile.standards import lte, phones
from tests.pool import parting

TAU_REJECT_9, SERVICE_REJECT_9 = b"\x07\x4b\x09", b"\x07\x4e\x09"


def at_mme(code, slot, vector):
    """An MME of this code with a few subscribers, of which the one on this slot is the phone; and a station."""
    trace = phones.Trace(parting.network(code))
    imsis = parting.IMSIS[1:]
    imsis.insert(slot, parting.IMSIS[0])
    made = [rows.Stranger(trace, at, [vector] if at == slot else [], imsi=imsi) for at, imsi in enumerate(imsis[:slot + 2])]
    trace.provision(made)
    station = phones.Station(0)
    trace.set_up(station)
    return trace, station, made[slot]


def refused(trace, station, b, nas, reject, tmsi=None, network=None):
    """A first message by the other MME's identity: a stranger's, rejected in plain and released."""
    trace.hear(station, lte.initial_ue_message(network or trace.network, station, b, nas, tmsi))
    m, owner = stranger(station.number, b), "x%d.%d" % (station.number, b)
    trace.owe(owner, station, lte.downlink_nas(m, b, reject))
    trace.owe(owner, station, lte.release_command(m, b, lte.NORMAL_RELEASE))


def moved():
    """At the first MME a phone attaches, becomes idle, and in the end its subscription there is withdrawn. At the second it comes
    with what it has of the first: its update and its service request are rejected, and so it attaches anew, by its old GUTI, is
    asked for its IMSI and challenged. Its slots are others at both."""
    first, station, old = at_mme(parting.CODES[0], 0, phones.Vector.made("pool first"))
    old.attaches(station, 1)
    old.is_released()
    old.shows(phones.IDLE)
    first.say("cancel " + old.imsi)
    old.shows("DEREGISTERED IDLE INACTIVE")

    second, station, new = at_mme(parting.CODES[1], 3, phones.Vector.made("pool second"))
    update = old.secured(1, old.up_count, lte.UP, lte.tau_request(0, old.ksi, first.network, old.tmsi))
    refused(second, station, 7, update, TAU_REJECT_9)
    service = lte.service_request(old.key, old.ksi, old.up_count + 1)
    refused(second, station, 8, service, SERVICE_REJECT_9, old.tmsi, first.network)
    new.shows("DEREGISTERED IDLE INACTIVE")
    esm = lte.pdn_connectivity_request(1, 1, False)
    attach = lte.attach_request(1, lte.guti(first.network, old.tmsi), new.capability, esm)
    second.hear(station, lte.initial_ue_message(second.network, station, 9, attach))
    rows.is_asked(second, station, 9)
    new.claims(station, 9)
    new.goes_on()
    new.shows(phones.CONNECTED)
    new.updates()
    new.completes_update(from_idle=False)
    new.shows(phones.CONNECTED)
    return first, second
