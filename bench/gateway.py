#!/usr/bin/env python3
"""What the tunnels of tools/gateway cost: contexts, routes and counters of the kernel's, for phones of several stations.

    inside.py gateway.py [--phones N] [--stations N]

It makes devices, so it is to be run under a kernel of its own, which is slow: a call of that kernel takes a hundred times as long
as one of the system's. So the first line is what a call takes. Each of the others is the time of one phone.
"""
import argparse
import ipaddress
import os
import pathlib
import resource
import socket
import subprocess
import sys
import time

sys.dont_write_bytecode = True
if __name__ == "__main__":
    sys.path[0] = str(pathlib.Path(__file__).resolve().parent.parent)
from tests.tools import gateway_world
from tools.tunnels import links
from tools.tunnels.devices import Devices
from tools.tunnels.gateway import Gateway
from tools.tunnels.kept import Kept
from tools.tunnels.phones import Phones, Tunnel

ADDRESS, NETWORK, FIRST = "10.0.0.100", "10.45.0.0/16", 0x0A2D0001
ALONE = 1000  # phones whose tunnel is changed by itself
MIB = 1 << 20


class Silent:
    def say(self, event, text, **fields):
        print("  %s: %s" % (event, text))


def timed(words, count, act):
    """Does something for so many phones, and prints the time of one."""
    begun = time.perf_counter()
    act()
    print("%-64s %8.1f us" % (words, 1e6 * (time.perf_counter() - begun) / count), flush=True)


def made(watched):
    """A gateway at an address of this machine."""
    subprocess.run(["ip", "addr", "add", ADDRESS + "/32", "dev", "lo"], check=True)
    network = ipaddress.IPv4Network(NETWORK)
    devices = Devices("mme", ADDRESS, network, Kept({}), watched.append)
    gateway = Gateway(devices, Phones(ADDRESS, network), Silent())
    gateway.found = devices.begin()
    return gateway


def main():
    words = argparse.ArgumentParser(description=__doc__, formatter_class=argparse.RawDescriptionHelpFormatter)
    words.add_argument("--phones", type=int, default=32000)
    words.add_argument("--stations", type=int, default=16)
    given = words.parse_args()
    gateway_world.load_modules()
    timed("a call of the kernel (getppid)", 20000, lambda: [os.getppid() for _ in range(20000)])
    gateway, count = made([]), given.phones
    imsis = ["00101%010d" % number for number in range(count)]
    subscribers = [(imsi, socket.inet_ntoa((FIRST + at).to_bytes(4, "big")), ADDRESS, at + 1) for at, imsi in enumerate(imsis)]
    stations = ["10.1.0.%d" % (2 + number) for number in range(given.stations + 1)]
    ends = {imsi: Tunnel(stations[at % given.stations], at + 1) for at, imsi in enumerate(imsis)}
    timed("a subscriber is told of", count, lambda: gateway.take_all(subscribers, {}))
    gateway.change({imsis[0]: ends[imsis[0]]})
    timed("a tunnel is made, all of them at once", count, lambda: gateway.change(ends))
    assert len(gateway.phones.by_end) == count and not gateway.counts["refused by the kernel"]
    alone = imsis[:ALONE]
    timed("  a path switch to another station, by itself", len(alone),
          lambda: [gateway.change({imsi: Tunnel(stations[-1], at + 1)}) for at, imsi in enumerate(alone)])
    timed("  a release, by itself", len(alone), lambda: [gateway.change({imsi: None}) for imsi in alone])
    timed("  a tunnel is made, by itself", len(alone), lambda: [gateway.change({imsi: ends[imsi]}) for imsi in alone])
    found = []
    timed("a context is read of the kernel", count, lambda: found.extend(gateway.devices.contexts.all()))
    assert len(found) == count
    timed("a phone's counters are read", count, lambda: gateway.devices.counters.read("up"))
    timed("a tunnel is taken, all of them at once", count, lambda: gateway.change(dict.fromkeys(imsis)))
    parts(gateway, subscribers, stations[0])
    print("%d phones, %d stations; memory of the process at most %d MiB" % (
        count, given.stations, resource.getrusage(resource.RUSAGE_SELF).ru_maxrss * 1024 // MIB))
    gateway.devices.remove()


def parts(gateway, subscribers, station):
    """What of it are contexts and what routes."""
    device = gateway.devices.of(station, set())
    phones = [gateway.phones.by_imsi[imsi] for imsi, _, _, _ in subscribers]
    pairs = [(device.index, phone.teid) for phone in phones]
    contexts = [gateway_world.contexts.Context(device.index, phone.packed, phone.teid, socket.inet_aton(station), phone.teid)
                for phone in phones]
    routes = [(phone.packed, links.HOST, device.index) for phone in phones]
    for name, act, given in (("a context is made", gateway.devices.contexts.add, contexts),
                             ("a route is made", gateway.devices.links.add, routes),
                             ("a route is taken", gateway.devices.links.delete, routes),
                             ("a context is taken", gateway.devices.contexts.delete, pairs)):
        timed("  " + name + ", of those", len(given), lambda act=act, given=given: act(given))


if __name__ == "__main__":
    main()
