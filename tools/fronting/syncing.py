"""What is on disk: a thread that syncs files, the names in a folder, and in which boot of the machine a log was written that isn't
synced."""
import collections
import os
import pathlib
import queue
import select
import threading

from tools.fronting import limits

UNSYNCED = ".unsynced"  # the end of the name of the file that stands beside a log which may not be on disk, with the boot's number
BOOT = pathlib.Path("/proc/sys/kernel/random/boot_id")
BOOT_GIVEN = "BOOT_ID"  # in the environment, where a service can't read that file (systemd has it as %b)
LOST = "%s isn't synced (--sync no): after a power cut it may lack what was answered, and --resume refuses it then"
UNSURE = ("%s was written without being synced (--sync no), and the machine was booted since: what was answered at the end isn't "
          "known, so neither are the counts and vectors that were used: none of its vectors can be used again")


class Syncer:
    """Has files be on disk, one job after the other, while the loop turns."""

    def __init__(self, loop):
        self.loop = loop
        self.jobs, self.done = queue.SimpleQueue(), collections.deque()
        self.wake = os.eventfd(0, os.EFD_NONBLOCK | os.EFD_CLOEXEC)
        loop.watch(self.wake, select.EPOLLIN, lambda events: self.look())
        self.go_on()

    def go_on(self):
        """Has a thread do the jobs."""
        self.thread = threading.Thread(target=self.work, daemon=True)
        self.thread.start()

    def pause(self, seconds=None):
        """Ends the thread, which at once does where it has no job, and waits for that, not longer than this; whether it has."""
        self.jobs.put(())
        self.thread.join(seconds)
        return not self.thread.is_alive()

    def sync(self, acts, then):
        """Does these acts, each a call with a file that stays open; `then` is called in the loop with the first fault, or None."""
        self.jobs.put((acts, then))

    def work(self):
        """Does the jobs, until there is one of nothing."""
        while job := self.jobs.get():
            acts, then = job
            fault = None
            try:
                for act, file in acts:
                    act(file)
            except OSError as caught:
                fault = caught
            self.done.append((then, fault))
            os.eventfd_write(self.wake, 1)

    def look(self):
        """Tells what is done."""
        os.eventfd_read(self.wake)
        while self.done:
            then, fault = self.done.popleft()
            then(fault)

    def close(self):
        """Ends the thread, unless a disk keeps it; nothing more is told."""
        self.loop.unwatch(self.wake)
        if self.pause(limits.SENDING_SECONDS):
            os.close(self.wake)


def sync_path(path):
    """Has a file, or the names in a folder, be on disk."""
    file = os.open(path, os.O_RDONLY)
    try:
        os.fsync(file)
    finally:
        os.close(file)


def folder_of(path):
    return os.path.dirname(path) or "."


# --- Logs that aren't synced ---


def boot():
    """The number of the machine's boot, where it is known."""
    try:
        return (os.environ.get(BOOT_GIVEN) or BOOT.read_text(encoding="ascii")).strip().replace("-", "")
    except OSError:
        return None


def note_unsynced(path):
    """A log isn't synced from now on, which is on disk before anything of it is answered."""
    with open(path + UNSYNCED, "w", encoding="ascii") as file:
        file.write("%s\n" % (boot() or "unknown"))
        file.flush()
        os.fsync(file.fileno())
    sync_path(folder_of(path))


def forget_unsynced(path):
    """All of a log is on disk."""
    if os.path.exists(path + UNSYNCED):
        os.unlink(path + UNSYNCED)
        sync_path(folder_of(path))


def why_unsure(path):
    """Why a log may lack what was answered: it wasn't synced, and the machine was booted since, as far as is known."""
    try:
        noted = pathlib.Path(path + UNSYNCED).read_text(encoding="ascii").strip()
    except OSError:
        return None
    return None if noted == boot() else UNSURE % path
