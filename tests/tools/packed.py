"""What deploy/package puts into the Debian package, laid out in a folder: the tools as they are installed, with a stand-in or the
program itself in the proved one's place. So what they do there needs no proof; tests/package makes the package and installs it."""
import os
import subprocess

from tests.tools import tools
from tests.tools.fronted import PROGRAM

PACKAGE = tools.module("deploy/package")
DOCUMENTS = "usr/share/doc/soizkadur/"
STAND_IN = b"#!/bin/sh\necho the program: $*\n"


def laid(folder, pages=None):
    """Lays the files of the package into a folder, with these manual pages; those that it has by their paths."""
    PACKAGE.PROGRAM = PROGRAM
    if not PROGRAM.exists():
        PACKAGE.PROGRAM = folder / "stand_in"
        PACKAGE.PROGRAM.write_bytes(STAND_IN)
    tree = PACKAGE.debian_tree({}, pages or {}, None, 0)
    PACKAGE.lay(tree, folder, 0)
    return tree


def ran(folder, *words, **named):
    """A run of a command of the package there, by its name on the path; in the folder of the documents."""
    path = {"PATH": "%s:%s" % (folder / "usr/bin", os.environ["PATH"])}
    kept = {name: value for name, value in os.environ.items() if name not in ("PYTHONPATH", "SOIZKADUR_LIBRARY")}
    return subprocess.run([str(word) for word in words], cwd=named.pop("cwd", folder / DOCUMENTS), capture_output=True, text=True,
                          timeout=240, check=False, env={**kept, **path}, stdin=subprocess.DEVNULL, **named)
