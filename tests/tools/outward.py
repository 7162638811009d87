#!/usr/bin/env python3
"""What docs/LAB.md promises of its lines of nftables, tried by packets of a phone to a host outside and to another phone. As a
program, it lays a network for these three, with devices named as a gateway's in place of its GTP-U, and has the shell run the
lines there: under `unshare -rn`, so that they are given to this machine's own kernel and change nothing of its network.

    outward.py LINES
"""
import collections
import errno
import itertools
import pathlib
import select
import socket
import struct
import subprocess
import sys
import time

if __name__ == "__main__":
    sys.path[0] = str(pathlib.Path(__file__).resolve().parents[2])
from tests.tools.gateway_world import INTERNET, OUTWARD, PATIENCE, QUIET, add_unnamed, checksum, inside, links, sh

PHONES = "10.45.0.1", "10.45.0.2"
UNCUT, CUT = 1500 - 40, links.LONGEST_PACKET - 40  # octets of a segment whose packet has headers of IP and TCP
ECHO, ECHO_REPLY = 8, 0
SYN, SEGMENT_SIZE = 2, b"\2\4"  # a flag, and how the option begins, which Linux has first (RFC 9293 section 3.2)
MARKS = itertools.count(1)

Host = collections.namedtuple("Host", "network address")  # the network by the name or the path of its namespace


def raw(host, protocol):
    """A socket that hears each packet of a protocol that comes to a host."""
    with inside(host.network):
        return socket.socket(socket.AF_INET, socket.SOCK_RAW, protocol)


def heard(sock, holds, seconds=PATIENCE):
    """The sender of the first packet for whose content something holds, and its content; nothing of either where none comes."""
    end = time.monotonic() + seconds
    while (left := end - time.monotonic()) > 0 and select.select([sock], [], [], left)[0]:
        octets = sock.recv(1 << 16)
        content = octets[4 * (octets[0] & 15):]
        if holds(content):
            return socket.inet_ntoa(octets[12:16]), content
    return None, None


def pinged(host, other, seconds=PATIENCE):
    """A ping from one host to another: the sender's address where it arrives, and whether the answer comes in time."""
    mark = next(MARKS)
    with raw(host, socket.IPPROTO_ICMP) as asking, raw(other, socket.IPPROTO_ICMP) as asked:
        total = checksum(struct.pack("!BBHHHI", ECHO, 0, 0, mark, 0, mark))
        asking.sendto(struct.pack("!BBHHHI", ECHO, 0, total, mark, 0, mark), (other.address, 0))
        sender, _ = heard(asked, lambda content: content[0] == ECHO and content[8:] == mark.to_bytes(4, "big"))
        answerer, _ = heard(asking, lambda content: content[0] == ECHO_REPLY and content[8:] == mark.to_bytes(4, "big"), seconds)
    return sender, answerer == other.address


def connected(host, other):
    """A connection by TCP from one host to another: the sender's address where it arrives, and the segment sizes that the two
    are told by one another."""
    with inside(other.network):
        server = socket.create_server((other.address, 0))
    with inside(host.network):
        asking = socket.socket()
    with server, asking, raw(host, socket.IPPROTO_TCP) as told, raw(other, socket.IPPROTO_TCP) as other_told:
        for sock in (server, asking):
            sock.settimeout(PATIENCE)
        asking.connect(server.getsockname())
        with server.accept()[0] as asked:
            asked.sendall(b"answer")
            assert asking.recv(9) == b"answer"
        sender, first = syn(other_told, server)
        _, second = syn(told, server)
    return sender, first, second


def syn(sock, server):
    """The sender of the first SYN to a server or from it, and the segment size that this tells."""
    port = server.getsockname()[1].to_bytes(2, "big")
    sender, content = heard(sock, lambda content: port in (content[:2], content[2:4]) and content[13] & SYN)
    assert content[20:22] == SEGMENT_SIZE, content.hex()
    return sender, int.from_bytes(content[22:24], "big")


def check(phone, other, outside):
    """A phone's packets arrive outside under the machine's address and at another phone under the phone's own, and are answered;
    TCP sends none that is too long for a tunnel. No route leads from outside to the phone."""
    with inside(outside.network), socket.socket(socket.AF_INET, socket.SOCK_DGRAM) as sock:
        assert sock.connect_ex((phone.address, 9)) == errno.ENETUNREACH
    for host, sender in ((outside, OUTWARD), (other, phone.address)):
        found = pinged(phone, host), connected(phone, host)
        assert found == ((sender, True), (sender, CUT, CUT)), "to %s: %s" % (host.address, found)


def check_without(phone, other, outside):
    """Without the lines, no answer comes from outside, and sizes of segments stay."""
    found = pinged(phone, outside, QUIET), connected(phone, other)
    assert found == ((phone.address, False), (phone.address, UNCUT, UNCUT)), "without the lines: %s" % (found,)


def lay():
    """A machine with this process between a phone, another one, and a host outside; these three."""
    hosts = [Host(add_unnamed(), address) for address in (*PHONES, INTERNET)]
    for device, host in zip(("mme-1", "mme-2", "sgi"), hosts):
        sh("ip link add %s type veth peer name way netns %s" % (device, host.network))
    phones, outside, ways = hosts[:2], hosts[2], links.Links()
    for device, phone in zip(("mme-1", "mme-2"), phones):
        ways.bring_up(links.index_of(device))
        assert ways.add([(socket.inet_aton(phone.address), 32, links.index_of(device))]) == [0]
        with inside(phone.network):
            sh("""ip addr add %s/32 dev way; ip link set way up
            ip route add default via %s dev way onlink""" % (phone.address, OUTWARD))
    sh("ip addr add %s/24 dev sgi; ip link set sgi up; sysctl -qw net.ipv4.ip_forward=1" % OUTWARD)
    with inside(outside.network):
        sh("""ip addr add %s/24 dev way; ip link set way up
        sysctl -qw net.ipv4.conf.all.rp_filter=0 net.ipv4.conf.way.rp_filter=0""" % INTERNET)
    return (*phones, outside)


def main(lines):
    hosts = lay()
    check_without(*hosts)
    subprocess.run(["bash", "-euc", "sudo() { \"$@\"; }\n" + lines], check=True)
    check(*hosts)


if __name__ == "__main__":
    main(*sys.argv[1:])
