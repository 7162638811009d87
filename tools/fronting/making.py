"""Makes the snapshots of a front whose MME is the library's, every so often: what is the same of a log in files (saving.py) and of
one in a store (storing.py).

All parts of a snapshot are of one moment. So once all that the MME was given is answered and kept, and before it is given more, the
front forks: its child has the MME as it is then, and saves it part by part; the front goes on meanwhile. The library makes no calls
in the child of a process with threads, so the front's threads pause for the fork.
"""
import contextlib
import ctypes
import gc
import os
import resource
import select
import signal
import time

from tools.fronting import limits
from tools.fronting.faults import told
from tools.fronting.snapshots import Known, Provisioned, key_in

REFUSED = 200  # the status of a child whose MME refuses to be saved; another one but 0 is the number of a fault of the system
NOT_SAVED = "the MME can't be saved"
MOST_FILES, NICE = 1 << 20, 19  # the front goes before its child
LIBC, ENDS_WITH_PARENT = ctypes.CDLL(None), 1  # the second is prctl's PR_SET_PDEATHSIG
KEPT = 2  # snapshots


class Making:
    """Makes the snapshots of a front. `rule` is after how many seconds and octets of the log the next is due; nothing where none is
    made."""

    patience = 1  # how many times as long, and as much, a snapshot may be missing

    @property
    def pause(self):
        """How many times as long as one took there is none."""
        return limits.SNAPSHOT_SHARE

    def __init__(self, front):
        self.front, self.rule = front, front.settings.snapshot
        self.key = key_in(front.settings.snapshot_key) if front.settings.snapshot_key else None
        self.provisioned, self.left_out = None, set()  # the vectors that the run began without
        self.saved_at = self.counted = 0  # when the last one was begun, and how many octets of the log there were by then
        self.again, self.until = 0.0, None  # when the next may begin, and until when the MME waits for it
        self.pid = self.file = self.moment = None  # the child, what tells that it has ended, and what it saves
        self.why_not, self.seconds, self.octets = None, 0.0, 0  # why the last wasn't made; what one took, and has

    @property
    def journal(self):
        return self.front.exchange.journal

    def octets_of_log(self):
        """How many octets of the log there are."""
        raise NotImplementedError

    def begin_one(self):
        """What a child is to write to, and of what the snapshot is that it makes, whose first field is `counted`."""
        raise NotImplementedError

    def save(self, file, moment):
        """Makes a snapshot of what the MME is now."""
        raise NotImplementedError

    def is_made(self):
        """The child has made its snapshot."""
        raise NotImplementedError

    def say_fault(self, why):
        """Says why one can't be made, the first time."""
        raise NotImplementedError

    def discard(self):
        """The child has made none: nothing is left of it."""

    # What the front tells.

    def begin(self, head):
        """An MME begins with this head."""
        self.provisioned = Provisioned(head.facts) if self.rule else None

    def begin_anew(self):
        """The run goes on after none."""

    def restore(self, snapshot):
        """The run goes on after this one."""
        self.left_out |= snapshot.known.left_out
        if self.rule:
            self.provisioned = Provisioned.restored(snapshot.about["provisioning"])

    def leave_out(self, used, before, after):
        """Of these lines of the subscribers' file the run has others."""

    def add(self, lines):
        """Further lines of provisioning stand in the log."""
        if self.provisioned is not None:
            self.provisioned.add(lines)

    def note_challenge(self, slot, rand):
        """A challenge uses a phone's vector."""

    def hurry(self):
        """A part of the log is missing."""

    def covers(self, _series):
        """Whether nothing is lost where the first segments of a series go."""
        return False

    def told(self):
        """What is counted of snapshots."""
        return {}

    # When one is made.

    @property
    def is_free(self):
        """Whether none is under way, and one may begin."""
        return self.pid is None and self.until is None and time.monotonic() >= self.again

    def care(self, now):
        """Looks whether one is due, where none is under way."""
        if self.rule and self.journal is not None and self.is_free and self.is_due(now):
            self.until = now + limits.SNAPSHOT_HOLD

    def is_due(self, now):
        seconds, octets = self.rule
        count, passed = self.octets_of_log() - self.counted, now - self.saved_at
        return count >= self.patience * octets or passed >= self.patience * seconds and count >= limits.SNAPSHOT_LEAST

    def look(self):
        """Makes one that is due, once all that the MME was given is answered and kept; it is given no more until then."""
        if self.until is None:
            return
        exchange, now = self.front.exchange, time.monotonic()
        exchange.is_held = exchange.journal is not None and exchange.held_since is None and now < self.until
        if exchange.is_held and not (exchange.is_quiet and not exchange.is_syncing):
            return
        self.until, self.again = None, now + limits.SNAPSHOT_REST
        if exchange.is_held:
            self.make(now)
            exchange.is_held = False

    # How it is made.

    def threads(self):
        """The front's threads."""
        journal = self.journal
        return list(filter(None, [self.front.voice, self.front.watchdog, journal.syncer if journal is not None else None]))

    def make(self, now):
        """Begins a snapshot in a child."""
        threads, pid, file = self.threads(), None, None
        rest = [thread for thread in threads if thread.pause()]
        try:
            if rest == threads:
                file, moment = self.begin_one()
                parent, pid = os.getpid(), os.fork()
                if pid == 0:
                    self.save_in_child(file, moment, parent)
        except OSError as fault:
            self.has_fault(told(fault))
        finally:
            for thread in rest:
                thread.go_on()
        if file is not None:
            os.close(file)
        if pid:
            self.pid, self.moment, self.saved_at, self.counted = pid, moment, now, moment.counted
            self.file = os.pidfd_open(pid)
            self.front.loop.watch(self.file, select.EPOLLIN, lambda events: self.has_ended())

    def known(self):
        """What the front itself knows."""
        stock, given = self.front.stock, self.front.head.subscribers[self.front.begun:]
        return Known(stock.spent, [stock.rands_left(slot) for slot in range(len(stock.spent))], given, self.left_out)

    def ups(self):
        """The stations that the MME has as connected: without those whose lines it wasn't given yet."""
        exchange, up = self.front.exchange, set(self.front.crowd.stations)
        for batch in reversed([*exchange.closed, exchange.batch]):
            for line in reversed(batch.lines):
                word, _, number = line.partition(" ")
                if word == "up":
                    up.discard(int(number))
                elif word == "lost":
                    up.add(int(number))
        return sorted(up)

    def save_in_child(self, file, moment, parent):
        """Makes it in the child, which has nothing else of the front's, and ends."""
        LIBC.prctl(ENDS_WITH_PARENT, signal.SIGKILL)
        if os.getppid() != parent:  # which ended before
            os._exit(REFUSED)
        status, limit = REFUSED, resource.getrlimit(resource.RLIMIT_NOFILE)[0]
        limit = MOST_FILES if limit == resource.RLIM_INFINITY else limit
        try:
            gc.disable()  # of what is no longer used here a file may have its number anew
            signal.set_wakeup_fd(-1)
            for number in (signal.SIGINT, signal.SIGHUP, signal.SIGTERM):
                signal.signal(number, signal.SIG_IGN)
            with contextlib.suppress(PermissionError):  # of a service that may not
                os.nice(NICE)
            os.dup2(file, 0)
            os.closerange(1, limit)
            self.save(0, moment)
            status = 0
        except OSError as fault:
            status = fault.errno or REFUSED
        finally:
            os._exit(status)

    def has_ended(self):
        """The child is over."""
        _, status = os.waitpid(self.pid, 0)
        self.let_go()
        self.seconds = time.monotonic() - self.saved_at
        self.again = time.monotonic() + max(limits.SNAPSHOT_REST, self.pause * self.seconds)
        status = os.waitstatus_to_exitcode(status)
        if not status:
            self.is_made()
            return
        self.discard()
        if why := self.why_ended(status):
            self.has_fault(why)

    def why_ended(self, status):
        """Why a child made none, by its status; nothing where that is as it should be."""
        if status == REFUSED:
            return NOT_SAVED
        return os.strerror(status) if status > 0 else "its process was ended by signal %d" % -status

    def let_go(self):
        self.front.loop.unwatch(self.file)
        os.close(self.file)
        self.pid = self.file = None

    def has_fault(self, why):
        """One can't be made. It is tried again."""
        self.again = time.monotonic() + limits.SNAPSHOT_AGAIN
        before, self.why_not = self.why_not, why
        if before is None:
            self.say_fault(why)

    # The end.

    def begin_end(self):
        """The run ends."""
        self.stop()

    def end(self):
        """The log has ended."""

    def stop(self):
        """Ends a child that saves, and what it wrote."""
        self.until = None
        if self.pid is not None:
            os.kill(self.pid, signal.SIGKILL)
            os.waitpid(self.pid, 0)
            self.let_go()
        if self.rule:
            self.discard()
