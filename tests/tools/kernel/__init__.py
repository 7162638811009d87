"""A Linux kernel with SCTP as an ordinary process: Debian's user-mode-linux, whose root is the system's own (hostfs), so that what
is written there is written to its disk. It starts in some four seconds."""
import os
import pathlib
import shutil
import signal
import subprocess
import tempfile

HERE = pathlib.Path(__file__).resolve().parent
WHOLE_STATE = HERE / "whole_state.c"  # without it the kernel stops on processors with AMX
NEEDED = ("linux", "insmod", "ip", "sctp_darn", "sctp_test", "cc")
MEMORY = "512M"
PATH = "/usr/local/sbin:/usr/local/bin:/usr/sbin:/usr/bin:/sbin:/bin"


def missing():
    """What isn't there of what it takes."""
    return [name for name in NEEDED if shutil.which(name, path=PATH) is None]


def run(script, seconds):
    """Runs a script of the shell, by its path, under such a kernel, for so long at the most; what its console shows."""
    with tempfile.TemporaryDirectory() as folder:
        loaded = os.path.join(folder, "whole_state.so")
        subprocess.run(["cc", "-O2", "-shared", "-fPIC", "-o", loaded, str(WHOLE_STATE), "-ldl"], check=True)
        words = ["linux", "mem=" + MEMORY, "root=/dev/root", "rootfstype=hostfs", "rootflags=/", "rw", "quiet",
                 "init=%s" % (HERE / "init"), "con=null", "con0=fd:0,fd:1", "run=%s" % script]
        with subprocess.Popen(words, env=os.environ | {"LD_PRELOAD": loaded}, stdin=subprocess.DEVNULL, stdout=subprocess.PIPE,
                              stderr=subprocess.STDOUT, start_new_session=True) as booted:
            try:
                shown, _ = booted.communicate(timeout=seconds)
            except subprocess.TimeoutExpired as late:
                shown = (late.output or b"") + b"\nthe kernel ran for %d s and was ended" % seconds
            finally:
                if booted.poll() is None:
                    os.killpg(booted.pid, signal.SIGKILL)  # with the processes in it
    return shown.decode(errors="replace")
