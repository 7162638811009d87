"""A copy of the crates with one crate more: so a program in Rattle that stands outside crates/, its sources as NAME.rt.txt, is
built over the crates as they are."""
import pathlib
import re
import shutil
import subprocess
import tempfile

from tools.program import children, tried
from tools.program.words import Failed

TOP = pathlib.Path(__file__).resolve().parent.parent
KEPT = ".txt"  # what the name of a source has more outside crates/
ROOT = "main.rt"


def libraries():
    """The names of crates.txt: the crates, and the toolchain's libraries that they use."""
    lines = (TOP / "crates.txt").read_text(encoding="utf-8").splitlines()
    return {word for line in lines if not line.startswith("#") for word in line.replace(":", " ").split()}


def sources_below(folder):
    """The sources in a folder and below it, by their places in a crate's src/."""
    found = {source.relative_to(folder): source for source in sorted(folder.rglob("*.rt" + KEPT))}
    return {str(place).removesuffix(KEPT): source for place, source in found.items()}


def as_module(name, sources):
    """The sources of a program by the places that they have as a module of this name: its root is the module itself."""
    return {name + ".rt" if place == ROOT else "%s/%s" % (name, place): source for place, source in sources.items()}


def used(sources):
    """The libraries whose items the sources name."""
    named = {word for source in sources.values() for word in re.findall(r"\b(\w+)::", source.read_text(encoding="utf-8"))}
    return sorted(named & libraries())


def with_crate(folder, name, sources):
    """Makes the repository in an empty folder, with a crate of this name, whose sources are given by their places in its src/.
    Returns the crate's folder."""
    shutil.copy(TOP / "HANDLES", folder)
    crates = (TOP / "crates.txt").read_text(encoding="utf-8")
    (folder / "crates.txt").write_text("%s%s: %s\n" % (crates, name, " ".join(used(sources))), encoding="utf-8")
    for crate in (TOP / "crates").iterdir():
        for part in ("src", "specs", "proofs"):
            if (crate / part).exists():
                shutil.copytree(crate / part, folder / "crates" / crate.name / part)
    code = folder / "crates" / name / "src"
    code.mkdir(parents=True)
    for place, source in sources.items():
        (code / place).parent.mkdir(exist_ok=True)
        shutil.copy(source, code / place)
    subprocess.run(["git", "init", "-q", folder], check=True)  # where rt's search for the top ends
    return code.parent


def build(name, sources, words, given, target):
    """Has `rt try WORDS` build the program of such a crate, unproved and with every access checked, and takes it to `target`.
    `given` are octets that it runs for long on."""
    # (not below the top: `rt ci`, which may run beside, takes each source there for one of the repository's own)
    with tempfile.TemporaryDirectory() as room:
        folder = pathlib.Path(room)
        (folder / "repository").mkdir()
        crate = with_crate(folder / "repository", name, sources)
        children.catch_signals()
        try:
            tried.build(crate, words, given, folder, target)
        except children.Stopped as stopped:
            raise Failed("stopped while %s was built" % name, stopped.status) from None
        finally:
            children.leave_signals()
