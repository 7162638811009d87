"""tools/gateway with the kernel's GTP-U, the front and the MME: the tests of gateway_inside.py, each by its name, under a kernel of
their own (kernel/)."""
import json
import os
import pathlib
import shlex
import shutil
import subprocess
import sys
import tempfile
import unittest

from tests.tools import gateway_inside, gateway_world, kernel, tools

SECONDS = 1800  # for a kernel; all tests take under 120 on a machine of their own
INSIDE = tools.TOP / "tests" / "tools" / "gateway_inside.py"


def compile_into(folder):
    """Has all be compiled that the tools import, since they are begun there again and again, where each call of the kernel takes
    long."""
    program = "import tools.fronting.command, tools.tunnels.command"
    kept = {name: value for name, value in os.environ.items() if name != "PYTHONDONTWRITEBYTECODE"}
    subprocess.run([sys.executable, "-S", "-c", program], env=kept | {"PYTHONPYCACHEPREFIX": folder}, check=True, timeout=SECONDS,
                   cwd=tools.TOP)


@unittest.skipIf(kernel.missing(), "no user-mode-linux, kmod, iproute2, lksctp-tools or C compiler")
@unittest.skipUnless(shutil.which("iptables-legacy", path=kernel.PATH), "no iptables")
@unittest.skipUnless(gateway_world.PROGRAM.exists(), "the program isn't built (./mme --prove)")
class Gateway(unittest.TestCase):
    def test_inside(self):
        names = {gateway_inside.name_of(test) for test in gateway_inside.all_tests()}
        with tempfile.TemporaryDirectory() as folder:
            script, results = pathlib.Path(folder, "script"), pathlib.Path(folder, "results")
            variables = {"TMPDIR": "/run", "PYTHONDONTWRITEBYTECODE": "1", "PYTHONPYCACHEPREFIX": folder + "/compiled"}
            compile_into(variables["PYTHONPYCACHEPREFIX"])
            script.write_text("cd %s && %s\n" % (shlex.quote(str(tools.TOP)), shlex.join(map(str, (
                "env", *("%s=%s" % each for each in variables.items()), sys.executable, "-S", INSIDE, results)))))
            shown = kernel.run(script, SECONDS)
            found = json.loads(results.read_text()) if results.exists() else {}
        if not names <= found.keys():
            print("without a verdict: %s\n%s" % (", ".join(sorted(names - found.keys())), shown[-6000:]))
        for name in sorted(names):
            with self.subTest(name):
                fault = found.get(name, "no verdict")
                self.assertIsNone(fault, fault)
