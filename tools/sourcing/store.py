"""The sequence numbers that SIMs were given, in SQLite: for each IMSI the next one. It is on disk before one is handed out, so none
is handed out twice, neither after a kill nor after a power cut. Several sources may use a store at once."""
import contextlib
import os
import sqlite3
import time

from tools.sourcing import private
from tools.sourcing.milenage import SQNS, stepped
from tools.sourcing.words import Fault

APPLICATION = int.from_bytes(b"SQNs", "big")  # what says in SQLite's file whose it is
BUSY_SECONDS = 5  # that another source may have the store
REST = 0.05  # seconds until it is tried again
TABLE = "CREATE TABLE next_sqn (imsi TEXT PRIMARY KEY, sqn INTEGER NOT NULL) WITHOUT ROWID"
PUT = "INSERT INTO next_sqn VALUES (?1, ?2) ON CONFLICT DO UPDATE SET sqn = ?2"


class Store:
    """A store by its path. Its calls raise a Fault where SQLite or the disk refuses them; nothing is handed out then."""

    def __init__(self, path):
        self.path = path
        whole = os.path.abspath(path)  # (some names mean no file to SQLite)
        private.make(whole)
        with self.in_words():
            self.base = sqlite3.connect(whole, timeout=BUSY_SECONDS, isolation_level=None)
            try:
                self.begin()
            except BaseException:
                self.base.close()
                raise

    @contextlib.contextmanager
    def in_words(self):
        """What SQLite refuses is a fault with the store's name."""
        try:
            yield
        except sqlite3.Error as fault:
            raise Fault("%s: %s" % (self.path, fault)) from None

    @contextlib.contextmanager
    def transaction(self):
        """All or nothing, on disk at its end; no other source writes meanwhile."""
        self.base.execute("BEGIN IMMEDIATE")
        try:
            yield
            self.base.execute("COMMIT")
        except BaseException:
            if self.base.in_transaction:
                self.base.execute("ROLLBACK")
            raise

    def value(self, words):
        [found] = self.base.execute(words).fetchone()
        return found

    def begin(self):
        """Makes the table where the file is new, and has each transaction be synced."""
        with self.transaction():
            if not self.value("SELECT count(*) FROM sqlite_master") and not self.value("PRAGMA application_id"):
                self.base.execute(TABLE)
                self.base.execute("PRAGMA application_id = %d" % APPLICATION)
        if self.value("PRAGMA application_id") != APPLICATION:
            raise Fault("%s: it is another program's, and no store of SQNs" % self.path)
        self.write_ahead()
        self.base.execute("PRAGMA synchronous = FULL")

    def write_ahead(self):
        """Has the store be written ahead, so that a transaction is synced once. Another source may be about to do the same."""
        end = time.monotonic() + BUSY_SECONDS
        while self.value("PRAGMA journal_mode") != "wal":
            try:
                self.base.execute("PRAGMA journal_mode = WAL")
            except sqlite3.OperationalError:
                if time.monotonic() > end:
                    raise
                time.sleep(REST)

    def take(self, wanted):
        """Hands out SQNs for each that is wanted, an IMSI with how many and with the least that the first may be: the first one, as
        a number. They follow as `stepped` says. None stands where a SIM hasn't so many left."""
        with self.in_words(), self.transaction():
            return [self.first(*one) for one in wanted]

    def first(self, imsi, count, least):
        """The first of so many SQNs of a SIM, which are handed out."""
        found = self.base.execute("SELECT sqn FROM next_sqn WHERE imsi = ?", (imsi,)).fetchone()
        first = max(found[0], least) if found else least
        if stepped(first, count - 1) >= SQNS:
            return None
        self.base.execute(PUT, (imsi, stepped(first, count)))
        return first

    def close(self):
        self.base.close()
