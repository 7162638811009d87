"""Makes the parts of a long text abreast, each by a process of its own, where there are processors for it. Nothing here is part of
a proof."""
import functools
import os
import signal
import tempfile

from tools import runs

LEAST = 20000  # things of a part: fewer aren't worth a process
PIECE = 1 << 20  # letters of a part that are read at once


def bounds_of(count, multiple):
    """Where parts of `count` things begin and end, each a multiple: one for each processor, or fewer of a short text."""
    parts = max(1, min(len(os.sched_getaffinity(0)), count // LEAST))
    size = max(1, -(-count // (parts * multiple))) * multiple
    return [(low, min(count, low + size)) for low in range(0, count, size)]


def made(make, bounds):
    """What `make` yields for each part, by its bounds, in their order: the first part here, the others by processes that share with
    this one what there was before them."""
    files = [tempfile.TemporaryFile("w+", encoding="utf-8") for _ in bounds[1:]]
    children = [started(make, file, *each) for file, each in zip(files, bounds[1:])]
    try:
        for low, high in bounds[:1]:
            yield from make(low, high)
        for file in files:
            if os.waitpid(children.pop(0), 0)[1]:
                raise runs.Fault("a process that makes a part ended early")
            file.seek(0)
            yield from iter(functools.partial(file.read, PIECE), "")
            file.close()
    finally:  # nobody reads the rest
        for child in children:
            os.kill(child, signal.SIGKILL)
            os.waitpid(child, 0)


def started(make, file, low, high):
    """A process that writes a part into a file."""
    child = os.fork()
    if child == 0:
        status = 1
        try:
            file.writelines(make(low, high))
            file.flush()
            status = 0
        finally:
            os._exit(status)
    return child
