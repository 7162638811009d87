"""deploy/completion.bash: what bash offers for words that have begun."""
import os
import subprocess
import unittest

from tests.tools import tools

ASKED = """. deploy/completion.bash
COMP_WORDS=("$@")
COMP_CWORD=$(($# - 1))
%s "$1"
printf '%%s\\n' "${COMPREPLY[@]}"
"""


def offered(function, *words):
    """What is offered for the last of the words."""
    done = subprocess.run(["bash", "-u", "-c", ASKED % function, "bash", *words], cwd=tools.TOP, capture_output=True, text=True,
                          timeout=60, check=True)
    assert not done.stderr, done.stderr
    return sorted(done.stdout.split())


class Completion(unittest.TestCase):
    def test_script(self):
        """Every word of the script's help, and files where it takes one."""
        self.assertEqual(offered("_mme", "mme", ""), sorted(["play", "sim", "--explain", "--prove", "--library", "--version", "--help"]))
        self.assertEqual(offered("_mme", "mme", "--p"), ["--prove"])
        for word in ("--prove", "--library"):
            self.assertEqual(offered("_mme", "mme", word, "x86-64-"), ["x86-64-v2", "x86-64-v3"])
        self.assertEqual(offered("_mme", "mme", "--explain", ""), ["play", "sim"])
        self.assertEqual(offered("_mme", "mme", "play", "examples/attach.t"), ["examples/attach.trace"])
        self.assertEqual(offered("_mme", "mme", "--explain", "sim", "examples/laz"), [])
        self.assertEqual(offered("_mme", "mme", "--explain", "sim", "examples/li"), ["examples/lies.script", "examples/lies.trace"])
        for words in (["--version", ""], ["play", "examples/lies.trace", ""], ["fly", ""]):
            self.assertEqual(offered("_mme", "mme", *words), [])

    def test_names(self):
        """Each tool has completions, by the name that it has here and by the one that it is installed under."""
        names = [path.name for path in (tools.TOP / "tools").iterdir()
                 if path.is_file() and os.access(path, os.X_OK) and path.name != "charts"]
        words = [place + name for name in names for place in ("tools/", "mme-")]
        done = subprocess.run(["bash", "-c", '. deploy/completion.bash; complete -p "$@"', "bash", *words], cwd=tools.TOP,
                              capture_output=True, text=True, timeout=60, check=False)
        self.assertEqual((done.stdout.splitlines(), done.stderr), (["complete -F _mme_tool " + word for word in words], ""))

    def test_tools(self):
        """A tool's own options, its commands, and files."""
        self.assertEqual(offered("_mme_tool", "tools/show", "--"), sorted(["--help", "--version", "--brief", "--json", "--reset"]))
        self.assertEqual(offered("_mme_tool", "tools/front", ""), ["ask", "fill", "play", "run", "snapshot"])
        self.assertIn("--wait", offered("_mme_tool", "tools/front", "ask", "--"))
        self.assertNotIn("--wait", offered("_mme_tool", "tools/front", "run", "--"))
        self.assertIn("--listen", offered("_mme_tool", "tools/front", "run", "--li"))
        self.assertEqual(offered("_mme_tool", "tools/capture", "o"), ["out"])
        self.assertEqual(offered("_mme_tool", "tools/chart", "examples/lies.t"), ["examples/lies.trace"])


if __name__ == "__main__":
    unittest.main()
