#!/usr/bin/env python3
"""Runs a benchmark under a Linux kernel with SCTP that is an ordinary process (tests/tools/kernel, Debian's user-mode-linux).

    inside.py kills.py WORD ..

What it prints comes as it is printed; the status is its own, or 2 where there is no such kernel. It has this system's files, and a
/run of its own, of at most 256 MiB, where temporary files go.
"""
import os
import pathlib
import shlex
import sys
import tempfile
import threading
import time

sys.dont_write_bytecode = True
HERE = pathlib.Path(__file__).resolve().parent
if __name__ == "__main__":
    sys.path[0] = str(HERE.parent)
from tests.tools import kernel

LONGEST = 24 * 3600  # seconds of a run
VARIABLE = "SOIZKADUR_LIBRARY"  # by which the library is found that isn't where `./mme --library` leaves it


def follow(path, is_over):
    """Prints what comes into a file, until all is over."""
    with open(path, encoding="utf-8", errors="replace") as file:
        while True:
            last = is_over.is_set()
            print(file.read(), end="", flush=True)
            if last:
                return
            time.sleep(0.5)


def main():
    if not sys.argv[1:] or {"-h", "--help"} & set(sys.argv[1:2]):
        raise SystemExit(__doc__.strip())
    if kernel.missing():
        print("inside.py: there is no %s (tests/packages)" % ", ".join(kernel.missing()), file=sys.stderr)
        return 2
    with tempfile.TemporaryDirectory() as folder:
        script, printed, status = (pathlib.Path(folder, name) for name in ("script", "printed", "status"))
        variables = ["TMPDIR=/run", "PYTHONUNBUFFERED=1"]
        if VARIABLE in os.environ:
            variables.append("%s=%s" % (VARIABLE, os.environ[VARIABLE]))
        command = shlex.join(["env", *variables, sys.executable, str(HERE / sys.argv[1]), *sys.argv[2:]])
        script.write_text("cd %s && %s >%s 2>&1; echo $? >%s\n" % (shlex.quote(os.getcwd()), command, printed, status))
        printed.touch()
        is_over = threading.Event()
        following = threading.Thread(target=follow, args=(printed, is_over))
        following.start()
        try:
            shown = kernel.run(script, LONGEST)
        finally:
            is_over.set()
            following.join()
        if not status.exists():
            print("inside.py: the kernel ended before: %s" % shown[-1000:], file=sys.stderr)
            return 2
        return int(status.read_text())


if __name__ == "__main__":
    sys.exit(main())
