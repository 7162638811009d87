#!/usr/bin/env python3
"""tools/front that asks a source for vectors, with the MME of the shared object that SOIZKADUR_LIBRARY names: the tests of
tests/tools/test_front_asking.py and those beside it. Closes with 'N passed, M failed'.

    tests/library/test_asking.py [NAME ..]      e.g. ATTACHES=1000 tests/library/test_asking.py Lives.test_restarts
"""
import os
import pathlib
import runpy
import signal
import subprocess
import sys
import tempfile
import types
import unittest

sys.dont_write_bytecode = True

TOP = pathlib.Path(__file__).resolve().parent.parent.parent
if __name__ == "__main__":
    sys.path[:1] = [str(TOP), str(TOP / "python")]
from bench.etcds import free_port
from tests.tools import test_front_asking, test_front_registering, test_front_stays, test_lab
from tests.tools.card import Card
from tests.tools.handsets import REGISTERED, Handset, Radio


class OfLibrary:
    """Fronts with the library."""

    prompt, patient = (TOP / "tools" / "front",), (TOP / "tests" / "tools" / "changed_front.py", "waiting")


class Held(OfLibrary, test_front_asking.Held):
    """Messages that wait for vectors."""


class Ahead(OfLibrary, test_front_asking.Ahead):
    """Phones whose SQN is ahead."""


class Added(OfLibrary, test_front_asking.Added):
    """Who isn't provisioned."""


class Alone(OfLibrary, test_front_asking.Alone):
    """What one phone's source does is nobody else's."""


class Where(OfLibrary, test_front_registering.Where):
    """What a source is told of phones."""


class Again(OfLibrary, test_front_registering.Again):
    """What it is told again."""


class Ordered(OfLibrary, test_front_registering.Ordered):
    """What it orders."""


class OfAnHss(OfLibrary, test_front_registering.OfAnHss):
    """The same by S6a."""


class OfLibraryThatStays(OfLibrary):
    """Fronts with the library that make many snapshots."""

    patient = *OfLibrary.patient, "restless"


class GoesOn(OfLibraryThatStays, test_front_stays.GoesOn):
    """A front that goes on after a snapshot."""


class Refused(OfLibraryThatStays, test_front_stays.Refused):
    """What is checked of a log with snapshots as of one without."""


class Provisioning(OfLibraryThatStays, test_front_stays.Provisioning):
    """Subscribers' files and sources that are others than before."""


class Lives(OfLibrary, test_front_asking.Lives):
    """Many attaches."""


class Lab(unittest.TestCase):
    """The commands of docs/LAB.md by which a SIM that is written down is enough."""

    def test_commands(self):
        """In a folder of their own, by TCP at another port: the SIM of step 1 attaches."""
        text, port, folder = test_lab.DOCUMENT.read_text(), free_port(), self.enterContext(tempfile.TemporaryDirectory())
        [own] = [block for block in test_lab.blocks(text) if "--library" in block]
        own = own.replace("--library", "--library --tcp --port %d" % port)
        commands = "\n".join([*test_lab.blocks(text.partition("## 2.")[0]), own]).replace("lab=$(mktemp -d)", "lab=" + folder)
        with subprocess.Popen(["bash", "-euc", commands], cwd=TOP, stderr=subprocess.PIPE, start_new_session=True) as running:
            try:
                said = running.stderr.readline()
                self.assertIn(b"ready: ", said)
                imsi, *keys = pathlib.Path(folder, "sims").read_text().splitlines()[0].split(" ")
                radio = Radio(types.SimpleNamespace(port=port, connections=[]))
                phone = Handset(radio, imsi, Card(*map(bytes.fromhex, keys)))
                self.assertEqual([phone.attaches() for _ in range(3)], [REGISTERED] * 3)
                radio.connection.close()
            finally:
                os.killpg(running.pid, signal.SIGTERM)  # the shell is its own group
                running.wait(60)
        self.assertIn("#+ sub %s 0a2d0001 c0000201 " % imsi, pathlib.Path(folder, "own.trace").read_text())


if __name__ == "__main__":
    judged = runpy.run_path(str(TOP / "tests" / "tools" / "run"))["judged"]
    names = ["__main__." + name for name in sys.argv[1:]] or ["__main__"]
    sys.exit(judged([unittest.defaultTestLoader.loadTestsFromNames(names)]))
