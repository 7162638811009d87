"""Commands that a signal ends whole: what was started, and whatever that started, is gone before anybody hears of it."""
import contextlib
import ctypes
import os
import pathlib
import signal
import subprocess
import time

SIGNALS = (signal.SIGINT, signal.SIGTERM, signal.SIGHUP)
PR_SET_CHILD_SUBREAPER = 36  # prctl(2): what a child leaves behind becomes this process's child
PATIENCE = 5.0  # seconds for what was asked to end
STEP = 0.02  # seconds between two looks


class Stopped(Exception):
    """A signal that ends this process; `status` is what a shell would say."""

    def __init__(self, number):
        super().__init__(signal.Signals(number).name)
        self.status = 128 + number


class Waiting:
    """How many parts of the program must come to their end before a signal counts, and the signal that waits for them."""
    parts, number = 0, None


def stop(number, _frame=None):
    """Raises the signal where this process is, once, or when nothing holds it up any more."""
    for each in SIGNALS:
        signal.signal(each, signal.SIG_IGN)
    if Waiting.parts:
        Waiting.number = number
        return
    raise Stopped(number)


@contextlib.contextmanager
def uninterrupted():
    """A part that comes to its end before a signal counts."""
    Waiting.parts += 1
    try:
        yield
    finally:
        Waiting.parts -= 1
        number, Waiting.number = Waiting.number, None
        if number is not None:
            stop(number)


def catch_signals():
    """Makes signals stop this process by `Stopped`, with all that it started as its children."""
    for each in SIGNALS:
        if signal.getsignal(each) is not signal.SIG_IGN or each == signal.SIGINT:
            signal.signal(each, stop)
    with contextlib.suppress(OSError, AttributeError):
        ctypes.CDLL(None).prctl(PR_SET_CHILD_SUBREAPER, 1, 0, 0, 0)


def leave_signals():
    """Makes signals what they were before, for what is run in this process's place."""
    for each in SIGNALS:
        signal.signal(each, signal.default_int_handler if each == signal.SIGINT else signal.SIG_DFL)


def tasks_of(process):
    """The ids of a process's threads; none where it has gone, also while they are listed."""
    with contextlib.suppress(OSError):
        return os.listdir("/proc/%d/task" % process)
    return []


def below(process):
    """The ids of all that a process has started and that still runs."""
    found, todo = [], [process]
    while todo:
        one = todo.pop()
        for task in tasks_of(one):
            with contextlib.suppress(OSError):
                ids = [int(word) for word in pathlib.Path("/proc/%d/task/%s/children" % (one, task)).read_text().split()]
                found += ids
                todo += ids
    return found


def reap():
    """Takes the status of every child that has ended; whether one is left."""
    try:
        while os.waitpid(-1, os.WNOHANG)[0]:
            pass
    except ChildProcessError:
        return False
    return True


def end_all(first):
    """Ends what was started in a session of its own, and all that it has started: first by asking, then by force."""
    with contextlib.suppress(ProcessLookupError):
        os.killpg(first, signal.SIGTERM)
    until = time.monotonic() + PATIENCE
    while reap():
        if time.monotonic() > until:
            for one in below(os.getpid()):
                with contextlib.suppress(ProcessLookupError):
                    os.kill(one, signal.SIGKILL)
        time.sleep(STEP)


@contextlib.contextmanager
def started(words, **named):
    """A command in a session of its own; where it doesn't come to its end here, all of it is ended."""
    running = None
    try:
        with uninterrupted():
            running = subprocess.Popen(words, stdin=named.pop("stdin", subprocess.DEVNULL), start_new_session=True, **named)
        yield running
        running.wait()
    except BaseException:
        if running is not None:
            end_all(running.pid)
        raise


def status_of(words, **named):
    """Runs a command to its end; its status as a shell has it."""
    with started(words, **named) as running:
        running.wait()
    return running.returncode if running.returncode >= 0 else 128 - running.returncode
