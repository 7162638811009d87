"""What `rt ci` keeps on this machine: the libraries of crates that it proved, laid out in a copy of the crates.

`rt ci` keeps what it passed by the checksums of all that it read, and takes it from there in every clone. It is taken here as it is
there, by the toolchain's own code, and only where the crate's text, the libraries below it and the toolchain are those that were
proved.
"""
import os
import pathlib
import shutil
import subprocess

from tools.program import record
from tools.program.words import Failed


def keeps_work(rt):
    """Whether the toolchain is one that keeps what `rt ci` passed."""
    return hasattr(rt, "Kept")


def copy_crates(folder):
    """Copies the crates into an empty folder, with what `rt` reads beside them."""
    for name in ("crates.txt", "HANDLES"):
        shutil.copy(record.TOP / name, folder)
    for crate in (record.TOP / "crates").iterdir():
        for part in record.PARTS:
            if (crate / part).exists():
                shutil.copytree(crate / part, pathlib.Path(folder, "crates", crate.name, part))
    pathlib.Path(folder, ".git").mkdir()  # where the toolchain's search for the top ends


def crate_over_kept(rt, folder, name):
    """The crate of a name in a fresh copy of the crates. It and each crate below it get the library that is kept of them; None where
    one isn't kept."""
    folder = os.path.realpath(folder)
    rt.rtlib.Crate = rt.Crate
    rt.Crate.cuts_libraries = True
    rt.Crate.allowed = rt.handles_of(folder)
    crate = rt.Crate(os.path.join(folder, "crates", name), folder, {})
    crates = [*crate.below(), crate]
    kept = rt.Kept(crates)
    for one in crates:
        # (where something is there already, nothing can be given, and the toolchain takes what it keeps for damaged)
        os.mkdir(os.path.join(one.folder, "out"))
        if not kept.give(one, False, kept.key(one)):
            return None
        kept.is_built(one)
    return crate


def words_of(crate):
    """What the toolchain is told of a crate whose libraries are built."""
    with open(os.devnull, "w", encoding="utf-8") as crate.out:
        return crate.words(["--jobs", "1"], keeps=False)


def ran(words, what, cwd=None, **more):
    """What a command prints, with more in its environment; where it fails, `what` couldn't be done."""
    done = subprocess.run([str(word) for word in words], cwd=cwd, env={**os.environ, **more}, stdin=subprocess.DEVNULL,
                          stdout=subprocess.PIPE, stderr=subprocess.STDOUT, text=True, errors="replace", check=False)
    if done.returncode:
        raise Failed("%s: status %d\n%s" % (what, done.returncode, done.stdout[-2000:]))
    return done.stdout
