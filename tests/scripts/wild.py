"""Scripts of random acts: three phones, of which one may be deaf, at two stations, by few numbers, so that they meet; some lie, and
some stations send what they shouldn't.
"""
import random

from tests.scripts import rows

PHONES = ["00101%010d" % (at + 1) for at in range(3)]
VECTORS = 64
PLACED = ("attach", "info", "foreign", "service", "service", "tau", "tau", "switch", "switch")
ALONE = ("detach", "off", "idle", "idle", "idle", "replay", "forge", "data", "cancel", "show", "show")


def provided(seed):
    """The lines that stand first."""
    lines = [rows.MME] + ["sub %s 0a%06x 0a000064 %08x" % (imsi, at, at) for at, imsi in enumerate(PHONES)]
    for imsi in PHONES:
        lines += [rows.Vector.made("%s %s %d" % (seed, imsi, place)).words(imsi) for place in range(VECTORS)]
    return lines + ["station 0 00001 0001", "station 1 00002 0002", "up 0", "up 1"]


def raw(chance, player):
    """A station sends nothing, or uplink NAS with an id that nobody has, or on another number than the phone's."""
    station = player.stations[chance.randrange(2)]
    phone = player.phones[chance.choice(PHONES)]
    late = rows.lte.id_of_slot(phone.slot, rows.scripts.LATE)
    m, b = chance.choice(((2**32 - 1, 1), (late, 1), (phone.connection and phone.connection.m, 9), (None, None)))
    octets = b"" if m is None else rows.lte.uplink_nas(player.network, station, m, b, b"\x07\x60\x61")
    return "raw %d %s" % (station.number, octets.hex() or "-")


def act(chance, player):
    """A line; most are of a phone."""
    imsi, station = chance.choice(PHONES), chance.randrange(2)
    kind = chance.random()
    if kind < 0.55:
        return "%s %s %d %d" % (chance.choice(PLACED), imsi, station, chance.randrange(3))
    if kind < 0.87:
        return "%s %s" % (chance.choice(ALONE), imsi)
    if kind < 0.92:
        return raw(chance, player)
    if kind < 0.96:
        return "tick %d" % chance.choice((1, 5, 6, 10, 31))
    return chance.choice(("up %d" % station, "lost %d" % station, "up %d" % station, "deaf " + PHONES[2]))


def script(seed, count):
    """So many lines after the first ones, and what is owed for them; lines whose answer isn't known are left out."""
    chance, lines = random.Random(seed), provided(seed)
    player = rows.scripts.Player()
    for line in lines:
        player.play(line)
    while count:
        line, count = act(chance, player), count - 1
        try:
            player.play(line)
            lines.append(line)
        except rows.scripts.Unknown:
            player = rows.scripts.Player()
            for before in lines:
                player.play(before)
    return "".join(line + "\n" for line in lines), "".join(line + "\n" for line in player.lines)
