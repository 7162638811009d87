"""One front for a log at a time: a lock on LOG.lock, which stays where it is while the files of the log are renamed."""
import contextlib
import fcntl
import os
import time

from tools.fronting import limits
from tools.fronting.faults import NOT_YET, WRONG, Failed, told

END = ".lock"  # after a log's name
DIGITS = 20  # octets that a process's number has at the most, with its line's end


class Lock:
    """The lock of a log, held until it is closed or its process ends. The file has the number of the process that holds it."""

    def __init__(self, log):
        self.path, until = log + END, time.monotonic() + limits.LOCK_SECONDS
        try:
            while not self.take():
                if not self.is_ending() or time.monotonic() >= until:
                    raise Failed("%s: another front has this log%s" % (
                        log, ": process %d" % self.holder if self.holder is not None else ""), NOT_YET)
                time.sleep(limits.LOCK_APART)
            os.ftruncate(self.file, 0)
            os.pwrite(self.file, b"%d\n" % os.getpid(), 0)
        except OSError as fault:
            raise Failed("%s: %s" % (self.path, told(fault)), WRONG) from None

    def is_ending(self):
        """Whether the process that has the lock is gone: then a child of it, which saved its MME, is about to go, too."""
        if self.holder is None:
            return False
        try:
            os.kill(self.holder, 0)
        except (ProcessLookupError, OverflowError):
            return True
        except PermissionError:
            pass
        return False

    def take(self):
        """Locks the file that stands at the path; false where another has the lock, whose process's number is `holder` then."""
        while True:
            self.file = os.open(self.path, os.O_RDWR | os.O_CREAT, 0o600)
            try:
                fcntl.flock(self.file, fcntl.LOCK_EX | fcntl.LOCK_NB)
            except BlockingIOError:
                holder = os.pread(self.file, DIGITS, 0).strip()
                os.close(self.file)
                self.holder = int(holder) if holder.isdigit() else None
                return False
            with contextlib.suppress(FileNotFoundError):
                if os.path.samestat(os.fstat(self.file), os.stat(self.path)):
                    return True
            os.close(self.file)

    def close(self):
        os.close(self.file)
