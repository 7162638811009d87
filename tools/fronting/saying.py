"""What the front says on standard error: lines of text, or of JSON. A reader that doesn't read keeps nobody waiting."""
import collections
import datetime
import json
import os
import threading
import time

from tools import versions

from tools.fronting import limits

PLACE = 2  # standard error


class Voice:
    """Says lines. A thread of its own writes them, since a pipe or a terminal may take its time; what comes while too many wait
    is left out, and how many that were is said in their place."""

    def __init__(self, as_json=False):
        self.as_json = as_json
        self.waiting, self.left_out = collections.deque(), 0
        self.some, self.thread, self.is_pausing = threading.Event(), None, False

    def say(self, event, text, **fields):
        """Says what happened: the text, or in JSON the time, the event's name, the text and its fields."""
        if len(self.waiting) >= limits.WORDS_SAID:
            self.left_out += 1
            return
        if self.left_out:
            left_out, self.left_out = self.left_out, 0
            self.say("left_out", "%d lines weren't read and are left out" % left_out, lines=left_out)
        self.waiting.append(self.line(event, text, fields))
        if self.thread is None:
            self.begin()
        self.some.set()

    def line(self, event, text, fields):
        if not self.as_json:
            return "%s: %s\n" % (versions.called(), versions.visible(text))
        now = datetime.datetime.now(datetime.timezone.utc).isoformat(timespec="milliseconds")
        return json.dumps({"time": now, "event": event, "text": text, **fields}) + "\n"

    def write(self):
        """Writes what waits, until it is to pause."""
        while not self.is_pausing:
            self.some.wait()
            self.some.clear()
            while self.waiting:
                octets = self.waiting[0].encode(errors="replace")
                try:
                    while octets:
                        octets = octets[os.write(PLACE, octets):]
                except OSError:
                    pass  # nobody can read it any more
                self.waiting.popleft()

    def pause(self):
        """Ends the thread, where it has written all; whether there is none now."""
        if self.thread is not None and not self.waiting:
            self.is_pausing = True
            self.some.set()
            self.thread.join()
            self.thread = None
        return self.thread is None

    def go_on(self):
        """Goes on after a pause."""
        self.is_pausing = False

    def begin(self):
        self.thread = threading.Thread(target=self.write, daemon=True)
        self.thread.start()

    def close(self, seconds=limits.SENDING_SECONDS):
        """Waits for what was said to be written, not longer than this."""
        end = time.monotonic() + seconds
        while self.waiting and time.monotonic() < end:
            time.sleep(0.005)
