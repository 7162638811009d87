"""tools/front over real SCTP: the tests of sctp_inside.py, each by its name, under a kernel that has SCTP (kernel/)."""
import json
import os
import pathlib
import shlex
import sys
import tempfile
import unittest

from tests.tools import kernel, sctp_inside, tools

SECONDS = 500  # for a kernel; all tests take under 110 on a machine of their own
KERNELS = 3  # one after the other, where one stops before each test has a verdict
INSIDE = tools.TOP / "tests" / "tools" / "sctp_inside.py"


@unittest.skipIf(kernel.missing(), "no user-mode-linux, kmod, iproute2, lksctp-tools or C compiler")
class Sctp(unittest.TestCase):
    cases, variables = ("Front", "Storm", "ByTcp"), ()  # those that are run, and what they are told of this environment

    def test_inside(self):
        names, found = {sctp_inside.name_of(test) for test in sctp_inside.all_tests(self.cases)}, {}
        with tempfile.TemporaryDirectory() as folder:
            script, results = pathlib.Path(folder, "script"), pathlib.Path(folder, "results")
            told = ["%s=%s" % (name, os.environ[name]) for name in self.variables]
            script.write_text("cd %s && %s\n" % (shlex.quote(str(tools.TOP)), shlex.join(map(str, (
                "env", "TMPDIR=/run", "PYTHONDONTWRITEBYTECODE=1", *told, sys.executable, INSIDE, results, *self.cases)))))
            for _ in range(KERNELS):
                shown = kernel.run(script, SECONDS)
                found = json.loads(results.read_text()) if results.exists() else {}
                if names <= found.keys():
                    break
                print("without a verdict: %s\n%s" % (", ".join(sorted(names - found.keys())), shown[-6000:]))
        for name in sorted(names):
            with self.subTest(name):
                fault = found.get(name, "no verdict")
                if fault is not None and fault.startswith(sctp_inside.LEFT_OUT):
                    self.skipTest(fault.removeprefix(sctp_inside.LEFT_OUT))
                self.assertIsNone(fault, fault)
