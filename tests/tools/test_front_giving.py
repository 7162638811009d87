"""What a subscribers' file has more in such lots that the pipes to the MME don't hold it."""
import pathlib
import tempfile
import unittest

from tests.tools.fronted import HEAD, IMSI, Running

MOST_SUBSCRIBERS = 32768  # that an MME takes (README.md, "A trace")
PIPE = 1 << 20  # octets of the longest pipe of one who isn't root (pipe(7))
LAST = "%015d" % (int(IMSI) + MOST_SUBSCRIBERS - 1)


def further():
    """The lines of all subscribers that there can be beside the first."""
    return "".join("sub %015d 0a%06x 0a000064 %08x\n" % (int(IMSI) + place, 1 + place, 1 + place)
                   for place in range(1, MOST_SUBSCRIBERS))


class Lots(unittest.TestCase):
    """A front with one subscriber gets all others that an MME takes."""

    def setUp(self):
        self.folder, self.more = pathlib.Path(self.enterContext(tempfile.TemporaryDirectory())), further()
        self.assertGreater(len(self.more), PIPE)

    def running(self, *words, **named):
        return Running(self, *words, folder=self.folder, **named)

    def check_given(self, running, station):
        """The last of them is known, and the station is served as before."""
        self.assertEqual(running.asks("show", LAST), "state %s DEREGISTERED IDLE INACTIVE\n" % LAST)
        self.assertEqual(station.says(b"after"), b"after")
        self.assertEqual(running.stop()[0], 0)
        self.assertTrue(running.log.read_text().startswith(HEAD + self.more))

    def test_longer_file(self):
        """By a restart, whose file of subscribers has them at its end."""
        self.assertEqual(self.running().stop()[0], 0)
        running = self.running("--resume", head=HEAD + self.more)
        station = running.station()
        running.until(lambda: b"given %d subscribers" % (MOST_SUBSCRIBERS - 1) in running.said())
        self.check_given(running, station)


if __name__ == "__main__":
    unittest.main()
