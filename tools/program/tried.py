"""Programs that the toolchain builds unproved, with every access checked, by `rt try`.

`rt try` builds a program in a folder that is gone afterwards, and runs it there. It is given something that it runs for long on, is
taken while it does, and what runs it is ended. What such a program is made of has a digest, under which it can be kept.
"""
import contextlib
import hashlib
import os
import pathlib
import shutil
import subprocess
import time

from tools.program import children, record, toolchain
from tools.program.words import Failed

# The allocation that is refused where none is to be: in a program that `rt try --fail-alloc NONE` builds the number stands as a
# constant, in whose place another can be set.
NONE = 1999999999
LOOK = 0.05  # seconds between two looks
LAST, MOST_SAID = 4, 400  # of what the toolchain said: the last lines, and the most characters of them


# --- What it is made of ---


def crates_below(names):
    """The crates that have these names, and those that they stand on."""
    return sorted({below for name in names for below in record.crates_of(name)})


def digest(names, *others):
    """The SHA-256 of all that a program over these crates is made of: their sources and those below, what each uses, the toolchain,
    and what others say."""
    uses = record.uses_of()
    told = hashlib.sha256(repr((others, record.toolchain_name(), record.toolchain_seen())).encode())
    for name in crates_below(names):
        told.update(repr((name, uses[name])).encode())
        for path in record.files_below(record.TOP / "crates" / name / "src"):
            told.update(b"%s %s\n" % (str(path.relative_to(record.TOP)).encode(), hashlib.sha256(path.read_bytes()).digest()))
    return told.hexdigest()


# --- The build ---


def program_in(room):
    """The program, where it stands in the toolchain's folder by now; the linker puts it there whole."""
    for folder, _, names in os.walk(room):
        if "program" in names:
            return pathlib.Path(folder, "program")
    return None


def take(found, target):
    """Takes the program: by a link, or as a copy from another file system."""
    try:
        os.link(found, target)
    except OSError:
        shutil.copy(found, target)


def taken(running, room, target, look):
    """Waits for the program and takes it; whether there was one."""
    while running.poll() is None:
        found = program_in(room)
        if found:
            with contextlib.suppress(OSError):
                take(found, target)
                return True
        look(running.pid)
        time.sleep(LOOK)
    return False


def build(crate, words, given, folder, target, look=lambda process: None):
    """Has `rt try WORDS` build the program of a crate's folder, and takes it to `target`. `given` are octets that it runs for long
    on; the toolchain works in a folder without `room`, `given` and `told`. Fails with what the toolchain said where there is no
    program. `look` is called with the toolchain's process while one waits."""
    room = folder / "room"
    room.mkdir()
    (folder / "given").write_bytes(given)
    with open(folder / "given", "rb") as text, open(folder / "told", "wb") as told:
        with children.started(toolchain.command("try", *words), cwd=crate, stdin=text, stdout=subprocess.DEVNULL, stderr=told,
                              env={**os.environ, "TMPDIR": str(room)}) as running:
            is_taken = taken(running, room, target, look)
            children.end_all(running.pid)
    if not is_taken:
        said = (folder / "told").read_text(encoding="utf-8", errors="replace").splitlines()
        raise Failed("no unproved program: %s" % " / ".join(said[-LAST:])[:MOST_SAID])
