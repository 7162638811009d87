#!/usr/bin/env python3
"""The toolchain's own command, `rt`, with what stands below a crate found once, and a program's two compilers at work at once.

    toolchain.py WORD ..    does what `rt WORD ..` does, and ends with its status

`rt` finds what stands below a crate by going each way down through crates.txt, anew for each question; so it does for the sum of a
crate's text (`Crate.stamp`), which some toolchains ask twice for each crate and for which they read the crates below once for each
way. Here the toolchain's own code answers each question once: `below` of a crate once, since what a crate uses is read when it is
made and doesn't change, and within one sum the text of each crate once. `rt ci` has a program compiled by LLVM and then by the
toolchain's own compiler; here it is compiled by both at once. Of a static library `rt ci` keeps nothing; here what its check made
stays beside a sum of the crate's text, so that the library can be compiled of it without being proved again. And `rt ci` begins with
the chains of crates to the program and to the library for C (tools/program/lanes.py). Every answer is the one that `rt` gives; but `rt try` has the prover look
beside it for names that a proof refuses, at the price of a build, and that hint isn't given here.

What proves is started with huge_pages.c, where there is a C compiler for it and the system gives huge pages to those that ask: the
prover is a seventh quicker so, and does nothing else. It keeps the memory that it has freed until it ends, and its own files in
memory, where there is enough of it: a twentieth less of the processor's time.
"""
import concurrent.futures
import contextlib
import copy
import functools
import importlib.machinery
import importlib.util
import inspect
import io
import os
import pathlib
import shutil
import subprocess
import sys
import tempfile
import threading

sys.dont_write_bytecode = True
if __name__ == "__main__":
    sys.path[0] = str(pathlib.Path(__file__).resolve().parents[2])
from tools.program import lanes
from tools.program.words import Failed, say

# The words that have the toolchain prove something.
PROVING = {"all", "check", "ci", "lib", "must-fail", "plant", "run", "test", "tidy", "verdict"}
HUGE_PAGES = pathlib.Path(__file__).resolve().parent / "huge_pages.c"
# The file in which Linux says who gets huge pages, and its word for those that ask.
WHO_GETS_THEM, WHO_ASKS = pathlib.Path("/sys/kernel/mm/transparent_hugepage/enabled"), "[madvise]"
PRELOAD = "LD_PRELOAD"
# How long the prover's allocator (mimalloc) waits before it gives back memory that was freed, and the word for ever.
PURGE_DELAY, NEVER = "MIMALLOC_PURGE_DELAY", "-1"
# A file system in memory, where temporary files go, and the octets that are to be free there and in memory at all: a prover keeps
# some 100 MB there while it runs.
IN_MEMORY, TEMPORARY, ENOUGH = pathlib.Path("/dev/shm"), "TMPDIR", 8 << 30
# What `rt` calls the toolchain's own compiler, beside LLVM.
OWN_COMPILER = "rattle"
TRYING = "try"
# The word for proving also what an earlier run kept; a toolchain that keeps nothing doesn't know it.
PROVING_ALL = ["ci", "--anew"]
DOES_NOTHING = "true"  # a command


def found_once(below):
    """`Crate.below`, which goes down through the crates the first time alone."""
    @functools.wraps(below)
    def found(crate):
        if not hasattr(crate, "found_below"):
            crate.found_below = tuple(below(crate))
        return [*crate.found_below]

    return found


def summed_once(stamp):
    """`Crate.stamp`, which reads the text of each crate once while it makes a sum."""
    sums = threading.local()

    @functools.wraps(stamp)
    def summed(crate):
        known = getattr(sums, "known", None)
        if known is None:
            sums.known = {}
            try:
                return summed(crate)
            finally:
                sums.known = None
        if crate.folder not in known:
            known[crate.folder] = stamp(crate)
        return known[crate.folder]

    return summed


def compiled_at_once(compile_by):
    """`Crate.compile_by`, which is asked to compile a program by LLVM and, where that went well, by the toolchain's own compiler:
    asked for the first, it does both, and tells of the second when it is asked for that."""
    second = {}

    def by_the_other(crate, words, to):
        own = copy.copy(crate)
        own.out = io.StringIO()
        return compile_by(own, OWN_COMPILER, words, to), own.out.getvalue()

    @functools.wraps(compile_by)
    def compiled(crate, backend, words, to):
        if backend == OWN_COMPILER:
            status, said = second.pop(crate.folder).result()
            print(said, end="", file=crate.out)
            return status
        with concurrent.futures.ThreadPoolExecutor(1) as pool:
            second[crate.folder] = pool.submit(by_the_other, crate, words, to)
            return compile_by(crate, backend, words, to)

    return compiled


def checked_of(crate):
    """The folder where what a static library's check made stays, and the file with the sum of what it was made of."""
    folder = pathlib.Path(crate.folder, "out")
    return folder / "checked", folder / "checked.stamp"


def kept_checked(ci):
    """`Crate.ci`, by which a static library is checked: what the check made is kept where the crate is proved."""
    @functools.wraps(ci)
    def proved(crate, flags, tests):
        if tests or not crate.is_static:
            return ci(crate, flags, tests)
        made, stamp = checked_of(crate)
        made.parent.mkdir(exist_ok=True)
        stamp.unlink(missing_ok=True)
        shutil.rmtree(made, ignore_errors=True)
        own, before = copy.copy(crate), crate.stamp()
        own.prove = lambda *commands: crate.prove(*[[*words, "-o", str(made)] if words[0] == "check" else words for words in commands])
        status = ci(own, flags, tests)
        if not status and crate.stamp() == before:
            stamp.write_text(before, encoding="utf-8")
        return status

    return proved


def checked(crate):
    """What the check of a static library made, where that was proved of the text that stands; else None."""
    made, stamp = checked_of(crate)
    is_of_text = made.is_dir() and stamp.is_file() and stamp.read_text(encoding="utf-8") == crate.stamp()
    return made if is_of_text else None


# The methods that are quicker here, with their parameters, and what takes their place.
QUICKER = (("below", ["self"], found_once), ("stamp", ["self"], summed_once),
           ("compile_by", ["self", "backend", "words", "to"], compiled_at_once), ("ci", ["self", "flags", "tests"], kept_checked))


def make_quicker(crate):
    """Puts the quicker methods in place of those that a class of the toolchain has itself, in the form that is known here."""
    for name, parameters, quicker in QUICKER:
        own = vars(crate).get(name)
        if own and list(inspect.signature(own).parameters) == parameters:
            setattr(crate, name, quicker(own))


@functools.lru_cache(maxsize=None)
def asking_for_huge_pages():
    """What the environment of a prover has more, so that it asks for huge pages; nothing where the system gives none to those that
    ask, or where there is no C compiler. It holds while this process lives."""
    with contextlib.suppress(OSError, subprocess.CalledProcessError):
        if WHO_ASKS not in WHO_GETS_THEM.read_text(encoding="utf-8"):
            return {}
        # (in memory, so that nothing is left behind however this process ends)
        kept = os.memfd_create(HUGE_PAGES.stem)
        with tempfile.TemporaryDirectory() as room:
            library = pathlib.Path(room, HUGE_PAGES.stem)
            subprocess.run(["cc", "-O2", "-shared", "-fPIC", "-o", library, HUGE_PAGES, "-ldl"], check=True,
                           stdin=subprocess.DEVNULL, stdout=subprocess.DEVNULL, stderr=subprocess.DEVNULL)
            os.write(kept, library.read_bytes())
        loaded = "/proc/%d/fd/%d" % (os.getpid(), kept)
        return {PRELOAD: " ".join(filter(None, [loaded, os.environ.get(PRELOAD)]))}
    return {}


def free_memory():
    """The octets of memory that are free; none where the system doesn't say."""
    with contextlib.suppress(OSError, ValueError, IndexError):
        words = pathlib.Path("/proc/meminfo").read_text(encoding="utf-8").split()
        return int(words[words.index("MemAvailable:") + 1]) << 10
    return 0


@functools.lru_cache(maxsize=None)
def folder_in_memory():
    """A folder in memory for the provers' files, which is gone once this process has ended, however it ends; none where there is too
    little memory."""
    with contextlib.suppress(OSError):
        seen = os.statvfs(IN_MEMORY)
        if min(seen.f_bavail * seen.f_frsize, free_memory()) < ENOUGH:
            return None
        folder = tempfile.mkdtemp(prefix="provers-", dir=IN_MEMORY)
        # (its standard input ends with this process)
        subprocess.Popen(["sh", "-c", 'read _; rm -rf "$0"', folder], stdin=os.pipe()[0], stdout=subprocess.DEVNULL,
                         stderr=subprocess.DEVNULL, start_new_session=True)
        return folder
    return None


def for_provers():
    """What the environment of a prover has more, so that it takes less of the processor's time; what is set there already stays."""
    more = {**asking_for_huge_pages(), PURGE_DELAY: os.environ.get(PURGE_DELAY, NEVER)}
    folder = None if TEMPORARY in os.environ else folder_in_memory()
    return {**more, TEMPORARY: folder} if folder else more


def make_provers_quicker():
    """Has the provers that this process starts take less of the processor's time. Its own temporary files stay where they would be."""
    tempfile.gettempdir()
    os.environ.update(for_provers())


def path():
    """The toolchain's command."""
    found = shutil.which("rt")
    if found is None:
        raise Failed("no toolchain on the path: there is no `rt`")
    return os.path.realpath(found)


def is_python(file):
    """Whether a program is written in Python, by its first line."""
    with open(file, "rb") as it:
        return b"python" in it.readline()


def module():
    """The toolchain's command as a module, so that what is asked of it is what `rt` itself asks."""
    loader = importlib.machinery.SourceFileLoader("rt", path())
    rt = importlib.util.module_from_spec(importlib.util.spec_from_loader("rt", loader))
    sys.modules["rt"] = rt
    loader.exec_module(rt)
    for crate in (rt.rtlib.Crate, rt.Crate):
        make_quicker(crate)
    rt.in_lanes = lanes.chain_first(rt)
    return rt


def leave_out_hint(rt):
    """Has `rt try` start nothing in place of the prover, which it asks for a hint alone."""
    rt.rtlib.RATTLE = DOES_NOTHING


def command(*words):
    """What a process is started with that does what `rt WORD ..` does."""
    return [sys.executable, "-B", os.path.realpath(__file__), *words]


def main(words):
    try:
        found = path()
    except Failed as fault:
        say(fault)
        return fault.status
    if not is_python(found):
        os.execv(found, [found, *words])
    if words[:1] and words[0] in PROVING:
        make_provers_quicker()
    rt = module()
    if words[:1] == [TRYING]:
        leave_out_hint(rt)
    if words == PROVING_ALL and not hasattr(rt, "Kept"):
        words = words[:1]
    return rt.main(words)


if __name__ == "__main__":
    sys.exit(main(sys.argv[1:]))
