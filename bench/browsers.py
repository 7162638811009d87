#!/usr/bin/env python3
"""Clients of a front's page, of all manners: bench/front.py and tests/tools measure what they cost the stations.

    browsers.py PORT COUNT SECONDS

Each of COUNT clients comes again and again for SECONDS, in the manner of its turn. Prints how many were told
something whole, by manner, as JSON.
"""
import collections
import contextlib
import json
import socket
import sys
import threading
import time

APART = 0.01  # seconds between two visits of a client
STEP = 0.05  # seconds between two octets of who is slow
PATIENCE = 30  # seconds for an answer
MANNERS = {}
PIPELINED = 50  # requests that one sends at once


def manner(visit):
    MANNERS[visit.__name__] = visit
    return visit


def request(path):
    return b"GET %s HTTP/1.1\r\nHost: localhost\r\n\r\n" % path.encode()


def all_of(connection):
    """What comes until the other side ends; whether that is a whole answer."""
    pieces = []
    while piece := connection.recv(1 << 16):
        pieces.append(piece)
    head, _, content = b"".join(pieces).partition(b"\r\n\r\n")
    length = [line for line in head.split(b"\r\n") if line.lower().startswith(b"content-length: ")]
    return head.startswith(b"HTTP/1.1 200 ") and len(length) == 1 and int(length[0].split(b" ")[1]) == len(content)


@manner
def metrics(connection, _):
    """Asks for the metrics and reads them."""
    connection.sendall(request("/metrics"))
    return all_of(connection)


@manner
def listing(connection, visit):
    """Asks for a page, another one each time."""
    connection.sendall(request("/?from=%d" % (100 * (visit % 20))))
    return all_of(connection)


@manner
def phone(connection, visit):
    """Asks for one phone's page, of another one each time."""
    connection.sendall(request("/?imsi=00101%010d" % (visit % 500 + 1)))
    return all_of(connection)


@manner
def leaves(connection, visit):
    """Asks and goes."""
    connection.sendall(request("/metrics" if visit % 2 else "/"))
    return False


@manner
def slow(connection, _):
    """Asks, and reads octet by octet."""
    connection.sendall(request("/"))
    while connection.recv(1):
        time.sleep(STEP)
    return False


@manner
def half(connection, _):
    """Says half a request."""
    connection.sendall(b"GET / HTTP/1.1\r\nHo")
    return bool(connection.recv(1))


@manner
def octets(connection, _):
    """Says a long request octet by octet, as fast as it goes."""
    while True:
        connection.sendall(b"x")


@manner
def pipelined(connection, visit):
    """Asks many times at once, and reads nothing for a while."""
    connection.sendall(b"".join(request("/?from=%d" % (100 * (visit + number) % 2000)) for number in range(PIPELINED)))
    time.sleep(20 * STEP)
    return False


def visits(port, place, end, found):
    """One client's visits."""
    name, visit = list(MANNERS.items())[place % len(MANNERS)]
    number = place
    while time.monotonic() < end:
        with contextlib.suppress(OSError), socket.create_connection(("127.0.0.1", port), timeout=PATIENCE) as connection:
            connection.setsockopt(socket.IPPROTO_TCP, socket.TCP_NODELAY, 1)
            found[name] += bool(visit(connection, number))
        number += 1
        time.sleep(APART)


def main():
    port, count, seconds = map(float, sys.argv[1:])
    found, end = collections.Counter(), time.monotonic() + seconds
    for place in range(int(count)):
        threading.Thread(target=visits, args=(int(port), place, end, found), daemon=True).start()
    time.sleep(seconds)
    print(json.dumps(found))


if __name__ == "__main__":
    main()
