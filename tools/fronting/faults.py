"""Why a connection, the MME or the front ends, and with which status."""
from tools import runs

# What `run` ends with, beside 0 and the MME's own status: wrong words or files, which stay wrong; and, by the names of sysexits.h
# (EX_SOFTWARE, EX_IOERR, EX_TEMPFAIL and EX_PROTOCOL), what a new start may mend.
WRONG, BABBLES, LOG_FAILS, NOT_YET, SILENT = 2, 70, 74, 75, 76


class Broken(Exception):
    """Why a connection ends; its text says it."""


class Failed(runs.Fault):
    """Why the front ends, with its status."""

    def __init__(self, text, status):
        super().__init__(text)
        self.status = status


class Unheld(Failed):
    """Why the front ends, though stations wait where a disk is full."""


class Ended(Failed):
    """The MME ended by itself, with this status, after it had answered or before."""

    def __init__(self, status, has_answered=True):
        own = status if status > 0 else 128 - status if status else 1
        super().__init__("the MME ended with status %d" % status, WRONG if own == 1 and status and not has_answered else own)


def told(fault):
    """What a fault of the system says."""
    return fault.strerror or str(fault)
