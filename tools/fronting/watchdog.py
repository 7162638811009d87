"""Ends a front whose loop turns no more: its stations' connections would stay open, while another front leads."""
import os
import threading

from tools.fronting import limits
from tools.fronting.faults import SILENT

LOOK_SECONDS = 1


class Watchdog:
    """A thread that counts its own seconds since the loop last turned; so a process that was paused has its time again."""

    def __init__(self, voice):
        self.voice, self.seconds, self.over = voice, 0, threading.Event()
        self.go_on()

    def go_on(self):
        """Begins to watch, perhaps after a pause."""
        self.over.clear()
        self.thread = threading.Thread(target=self.watch, daemon=True)
        self.thread.start()

    def pause(self):
        """Ends the thread; whether there is none now."""
        self.over.set()
        self.thread.join()
        return True

    def look(self):
        """The loop turns."""
        self.seconds = 0

    def watch(self):
        while not self.over.wait(LOOK_SECONDS):
            self.seconds += LOOK_SECONDS
            if self.seconds > limits.HANGING_SECONDS:
                self.voice.say("hangs", "the front hasn't turned for %d s" % limits.HANGING_SECONDS, status=SILENT)
                self.voice.close()
                os._exit(SILENT)

    def close(self):
        self.over.set()
