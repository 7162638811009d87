"""tools/front: what is carried over a power cut, where the log is synced and where it isn't."""
import shutil
import signal
import tempfile
import unittest

from tests.tools.fronted import PROGRAM
from tests.tools.power import Field

CUTS = 30
PHONES, MOST_STEPS = 5, 8


@unittest.skipUnless(PROGRAM.exists() and shutil.which("cc"), "the program isn't built (./mme --prove), or there is no C compiler")
class PowerCuts(unittest.TestCase):
    program, words = PROGRAM, ()  # of the front

    def field(self, seed, *words):
        return Field(self, self.enterContext(tempfile.TemporaryDirectory()), PHONES, seed, (*self.words, *words), self.program)

    def test_freshness(self):
        """Over many power cuts no challenge, no NAS COUNT and no radio key comes twice, what was accepted isn't accepted again, and
        the phones' registration stays."""
        field, replays = self.field(1), 0
        for number in range(CUTS):
            field.start()
            self.assertIn(b"goes on" if number else b"", field.running.told)
            replays += field.replay()
            for _ in range(field.chance.randint(0, MOST_STEPS)):
                field.step()
                if field.chance.random() < 0.1:
                    field.running.process.send_signal(signal.SIGHUP)
            field.cut()
            self.assertEqual(field.freshness.faults, [])
        self.assertGreater(replays, 0)
        self.assertTrue(all(field.freshness.seen.values()), field.freshness.seen)

    def test_without_syncs(self):
        """Where nothing is synced, the front believes that the machine wasn't booted, and it may begin anew, the same phones see it."""
        field = self.field(2, "--sync", "no", "--keep", "1", "--anew")
        for _ in range(CUTS):
            field.start(boot="0" * 32)
            field.replay()
            for _ in range(4):
                field.step()
            field.cut()
            if field.freshness.faults:
                return
        self.fail("nothing came twice")
