"""tools/front with its log in etcd, whose leader is killed, or paused and woken, at random moments under phones (bench/leaders.py):
nothing is used twice, who was registered still is, and is served by the next count. Where answers aren't held, or the epoch isn't
compared, the same storm finds what is used twice."""
import contextlib
import tempfile
import unittest
from unittest import mock

from bench import leaders
from bench.etcds import MISSING, PROGRAM as ETCD, Members
from tests.tools import tools
from tests.tools.fronted import PROGRAM

CHANGED = tools.TOP / "tests" / "tools" / "changed_front.py"
HURRIED = "hasty", "patient"
# What a storm does that finds nothing.
DONE = ("registered phones that were looked for after a beginning", "challenges", "protected messages to phones",
        "radio keys handed to stations", "PATH SWITCH REQUEST", "SERVICE REQUEST", "TRACKING AREA UPDATE REQUEST",
        "phones that came back and were served", "messages that were sent again without the key")
SOON = 20, 200  # messages after which a leader ends
SEEDS = "7", "8", "9", "10"  # of storms at a changed front
USED_TWICE = r"COUNT \d+ was used before|was handed out before|was sent before"


@unittest.skipUnless(ETCD, MISSING)
@unittest.skipUnless(PROGRAM.exists(), "the program isn't built (./mme --prove)")
class Storms(unittest.TestCase):
    @classmethod
    def setUpClass(cls):
        cls.members = Members(cls.enterClassContext(contextlib.ExitStack()))

    def setUp(self):
        self.members.forget()

    def blown(self, *words, changes=HURRIED):
        """A storm by these words, and all that it said."""
        said = []
        given = leaders.parser().parse_args(["--phones", "6", "--vectors", "40", "--second", "0.05", "--seed", "7", *words])
        given.mme = PROGRAM
        with tempfile.TemporaryDirectory() as folder, mock.patch.multiple(leaders.Storm, LATE=SOON, REPLAYED=0.3):
            return leaders.blown(given, folder, self.members, said.append, (CHANGED, *changes)), "\n".join(said)

    def test_killed_and_paused(self):
        """25 ends of a leader: all that phones do is done, and nothing is found."""
        storm, said = self.blown("--runs", "25", "--ends", "kill", "pause", "rest")
        counted = storm.counted + storm.watch.counted
        self.assertEqual(storm.watch.violations, [], said)
        self.assertEqual([name for name in DONE if not counted[name]], [], said)
        self.assertEqual(counted["beginnings"], 26, said)
        self.members.turns()
        self.assertGreater(counted["ends by kill"], 0, said)
        self.assertGreater(counted["fronts that were paused and woke up"], 0, said)

    def test_members(self):
        """While a member is killed before each end of the leader, and comes back."""
        storm, said = self.blown("--runs", "3", "--ends", "kill", "pause", "--members")
        self.assertEqual(storm.watch.violations, [], said)
        self.assertEqual((storm.counted["beginnings"], storm.counted["members that were killed and came back"]), (4, 3), said)

    def finds(self, *changes):
        """A storm finds what is used twice, where a front is changed: one of a few, since fronts that read turns of two leaders may
        all end before that."""
        told = []
        for seed in SEEDS:
            self.members.forget()
            words = "--runs", "30", "--ends", "rest", "--until", USED_TWICE, "--seed", seed
            storm, said = self.blown(*words, changes=(*HURRIED, *changes))
            if storm.has_found():
                return
            told.append(said)
        self.fail("nothing is used twice:\n" + "\n".join(told))

    def test_unheld(self):
        """Answers that go out before their turn stands are found."""
        self.finds("unheld")

    def test_unfenced(self):
        """A front that writes turns though another leads is found."""
        with mock.patch.object(leaders, "END_SECONDS", 3):
            self.finds("unfenced")


if __name__ == "__main__":
    unittest.main()
