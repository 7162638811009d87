"""Standard output, written by a thread of its own: a reader may take its time, and the peers don't wait for it."""
import collections
import os
import queue
import select
import threading

from tools.sourcing.asking import write_all

MOST_WAITING = 1 << 20  # octets that wait for a reader, beyond which no more is asked


class Output:
    """Lines that are written in their order. `changed()` is called each time that one was, and `broken()` if nobody reads them."""

    def __init__(self, loop, file, changed, broken):
        self.file, self.changed, self.broken, self.size = file, changed, broken, 0
        self.waiting, self.written = queue.SimpleQueue(), collections.deque()
        self.wake = os.eventfd(0, os.EFD_NONBLOCK | os.EFD_CLOEXEC)
        loop.watch(self.wake, select.EPOLLIN, lambda events: self.look())
        threading.Thread(target=self.work, daemon=True).start()

    @property
    def is_full(self):
        return self.size > MOST_WAITING

    @property
    def is_written(self):
        return not self.size

    def put(self, text, then=None):
        """Has lines be written; `then` is called once they are."""
        octets = text.encode()
        self.size += len(octets)
        self.waiting.put((octets, then))

    def work(self):
        """Writes what waits, for ever."""
        while True:
            octets, then = self.waiting.get()
            fault = None
            try:
                write_all(self.file, octets)
            except OSError as caught:
                fault = caught
            self.written.append((len(octets), then, fault))
            os.eventfd_write(self.wake, 1)

    def look(self):
        """Tells what is written."""
        os.eventfd_read(self.wake)
        while self.written:
            size, then, fault = self.written.popleft()
            self.size -= size
            if fault is not None:
                self.broken()
                return
            if then is not None:
                then()
            self.changed()
