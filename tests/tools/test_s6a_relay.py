"""tools/s6a behind a relay, Debian's freeDiameter, in a network of its own; and by SCTP, under a kernel that has it (kernel/): the
tests of relay_inside.py, each by its name."""
import json
import os
import pathlib
import shlex
import shutil
import subprocess
import sys
import tempfile
import unittest

from tests.tools import kernel, relay_inside, tools

INSIDE = tools.TOP / "tests" / "tools" / "relay_inside.py"
SECONDS = 200  # for all tests of a kind, which take under 20 on a machine of their own
NEEDED = ("freeDiameterd", "tshark", "unshare", "ip")
ROUTES = pathlib.Path("/usr/lib/freeDiameter/rt_default.fdx")
# A network and processes of its own, which end with the first of them.
APART = ["unshare", "--net", "--pid", "--fork", "--kill-child", *([] if os.geteuid() == 0 else ["--map-root-user"])]


def has_network():
    """Whether there can be a network of its own here."""
    return subprocess.run([*APART, "true"], capture_output=True, check=False).returncode == 0


class Inside(unittest.TestCase):
    def check(self, case, run):
        """Each test of a case has passed, once they were run."""
        names = unittest.defaultTestLoader.getTestCaseNames(case)
        with tempfile.TemporaryDirectory() as folder:
            results = pathlib.Path(folder, "results")
            shown = run(pathlib.Path(folder), [sys.executable, "-B", str(INSIDE), str(results), case.__name__])
            found = json.loads(results.read_text()) if results.exists() else {}
        for name in names:
            with self.subTest(name):
                self.assertIsNone(found.get(name, "no verdict: " + shown[-2000:]), found.get(name))

    @unittest.skipUnless(all(map(shutil.which, NEEDED)) and ROUTES.exists(), "no freeDiameter, tshark or iproute2")
    def test_relay(self):
        if not has_network():
            self.skipTest("no network of its own")
        self.check(relay_inside.Relay, self.run_apart)

    @staticmethod
    def run_apart(_folder, words):
        done = subprocess.run([*APART, *words], stdin=subprocess.DEVNULL, capture_output=True, text=True, timeout=SECONDS,
                              check=False)
        return done.stdout + done.stderr

    @unittest.skipIf(kernel.missing(), "no user-mode-linux, kmod, iproute2, lksctp-tools or C compiler")
    def test_sctp(self):
        self.check(relay_inside.Sctp, self.run_in_kernel)

    @staticmethod
    def run_in_kernel(folder, words):
        script = folder / "script"
        script.write_text("cd %s && TMPDIR=/run %s\n" % (shlex.quote(str(tools.TOP)), shlex.join(words)))
        return kernel.run(script, SECONDS)

    @unittest.skipIf(os.path.exists("/proc/net/sctp"), "this kernel has SCTP")
    def test_without_sctp(self):
        done = tools.ran("s6a", "127.0.0.1", *relay_inside.WORDS, "--sctp")
        self.assertEqual(done.returncode, 2)
        self.assertIn(b"argument --sctp: no SCTP here (on Linux: modprobe sctp)", done.stderr)


if __name__ == "__main__":
    unittest.main()
