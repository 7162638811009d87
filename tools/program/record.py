#!/usr/bin/env python3
"""What the program was made of: a record of digests beside it, and what has changed since.

    record.py now             prints the digests of text and toolchain, to be given back once they are proved
    record.py since PROGRAM   writes the record of a program that was made by then; standard input has the digests of before
    record.py built           writes the record of the crates' libraries that stand built for the library for C; likewise
    record.py passed          writes the record of what the gate compiled of the library for C; likewise

The record (PROGRAM.proved, JSON) has the SHA-256 of the program, of each crate's text and of the toolchain. It is written where the
text was the same before the proofs and after the build, so whoever finds all of them unchanged has the program that was proved.
So it is of the built libraries, whose record (BUILT) has a digest of each: the library for C can be built over them. What the gate
compiled of that one's own crate (COMPILED) gets its record once the whole gate has passed, and only where it was compiled of the
text that the gate began with, over the libraries that it proved.
"""
import contextlib
import hashlib
import json
import os
import pathlib
import shutil
import sys
import time

TOP = pathlib.Path(__file__).resolve().parents[2]
NAME, LIBRARY = "mme", "mme_c"
END = ".proved"
BUILT = pathlib.Path("crates") / LIBRARY / "out" / ("built" + END)
COMPILED = pathlib.Path("crates") / LIBRARY / "out" / "gate" / ("lib%s.a" % LIBRARY)
MADE_OF = ".made_of"  # the end of the name of the file that says what COMPILED was compiled of
PARTS = ("src", "specs", "proofs", "c")  # of a crate, which its proof reads
# The toolchain's folders and files that a proof and a build read; of each built library the file with the digests of its others.
TOOLCHAIN = ("KIT-ID", "WHAT", "bin", "toolchain", "c", "logic_built", "rattle/logic", "rattle/antt", "rlibs/*/format")
PASSING = {"out", "__pycache__"}
PIECE = 1 << 20  # octets of one read
DEFAULT_PROCESSOR = "x86-64-v2"
MOST_NAMED = 4  # crates that a sentence names


def path_of(program):
    """Where the record of a program stands."""
    return pathlib.Path(str(program) + END)


def digest_of(path):
    """The SHA-256 of a file."""
    told = hashlib.sha256()
    with open(path, "rb") as file:
        while piece := file.read(PIECE):
            told.update(piece)
    return told.hexdigest()


def files_below(path):
    """Every file at or below a path, in order."""
    if path.is_file():
        yield path
    for folder, folders, names in os.walk(path):
        folders[:] = sorted(set(folders) - PASSING)
        yield from (pathlib.Path(folder, name) for name in sorted(names))


# --- Crates ---


def uses_of(top=TOP):
    """The libraries that each crate uses, by crates.txt."""
    lines = (top / "crates.txt").read_text(encoding="utf-8").splitlines()
    rows = [line.partition(":") for line in lines if line.strip() and not line.startswith("#")]
    return {row[0].split()[0]: row[2].split() for row in rows}


def crates_of(name, top=TOP):
    """The crates that a crate stands on, each after those that it uses itself, and last itself."""
    uses, order = uses_of(top), []

    def visit(one):
        if one in uses and one not in order:
            for other in uses[one]:
                visit(other)
            order.append(one)

    visit(name)
    return order


def digest_of_crate(name, uses, top):
    """The SHA-256 of a crate's text and of what it may use."""
    told = hashlib.sha256(repr((name, uses)).encode())
    for part in PARTS:
        for path in files_below(top / "crates" / name / part):
            told.update(("%s %s\n" % (path.relative_to(top), digest_of(path))).encode())
    return told.hexdigest()


def digests_of_crates(name=NAME, top=TOP):
    """The digest of each crate below a crate and of its own; what no crate may do (HANDLES) is in each."""
    uses = uses_of(top)
    handles = (top / "HANDLES").read_text(encoding="utf-8") if (top / "HANDLES").exists() else ""
    return {one: digest_of_crate(one, [handles, *uses[one]], top) for one in crates_of(name, top)}


# --- The toolchain ---


def kit():
    """The folder of the toolchain whose `rt` is on the path, or None."""
    found = shutil.which("rt")
    return pathlib.Path(found).resolve().parent.parent if found else None


def toolchain_name():
    """The toolchain's one-line identity, as `rt version` prints it, or None where there is none on the path."""
    folder = kit()
    if folder is None:
        return None
    with contextlib.suppress(OSError):
        return (folder / "KIT-ID").read_text(encoding="utf-8").strip()
    return "of no name"


def toolchain_files(folder):
    """The files that a proof and a build read of it."""
    for pattern in TOOLCHAIN:
        for path in sorted(folder.glob(pattern)):
            yield from files_below(path)


def toolchain_seen():
    """The name, the size and the time of each of these files as one digest, which is had quickly."""
    told = hashlib.sha256()
    for path in toolchain_files(kit()):
        found = path.lstat()
        told.update(("%s %d %d\n" % (path, found.st_size, found.st_mtime_ns)).encode())
    return told.hexdigest()


def toolchain_digest():
    """The SHA-256 of what these files hold."""
    told = hashlib.sha256()
    folder = kit()
    for path in toolchain_files(folder):
        told.update(("%s %s\n" % (path.relative_to(folder), digest_of(path))).encode())
    return told.hexdigest()


def toolchain():
    """What a record has of the toolchain."""
    return {"name": toolchain_name(), "sha256": toolchain_digest(), "seen": toolchain_seen()}


# --- Built libraries ---


def digests_of_built(names, top=TOP):
    """The digest of each crate's library as it stands built, of its file with the digests of its others; none if one is missing."""
    files = [top / "crates" / name / "out" / "rlib" / (name + ".rlib") / "format" for name in names]
    return {name: digest_of(file) for name, file in zip(names, files)} if all(map(pathlib.Path.is_file, files)) else {}


def write_built(crates, tools, top=TOP):
    """Writes that the libraries below the library for C, as they stand built, are of these crates' digests, all proved; nothing
    where not all of them are built."""
    built = digests_of_built(crates_of(LIBRARY, top)[:-1], top)
    if built:
        (top / BUILT).parent.mkdir(exist_ok=True)
        told = {"toolchain": tools, "crates": crates, "built": built}
        (top / BUILT).write_text(json.dumps(told, indent=1) + "\n", encoding="utf-8")


def is_built(top=TOP):
    """Whether the libraries below the library for C stand built as they were recorded, and it and they were proved of this text by
    this toolchain."""
    with contextlib.suppress(OSError, ValueError, KeyError):
        told = json.loads((top / BUILT).read_text(encoding="utf-8"))
        return (told["built"] == digests_of_built(told["built"], top) and told["crates"] == digests_of_crates(LIBRARY, top)
                and not list(toolchain_changed(told["toolchain"])))
    return False


# --- What the gate compiled ---


def made_of(top=TOP):
    """The digests of what the library for C's own crate is compiled of: the text, and the libraries below as they stand built."""
    return {"crates": digests_of_crates(LIBRARY, top), "built": digests_of_built(crates_of(LIBRARY, top)[:-1], top)}


def note_compiled(told, top=TOP):
    """Notes of what COMPILED was compiled; that isn't its record."""
    path = top / COMPILED
    path.with_name(path.name + MADE_OF).write_text(json.dumps({**told, "program": digest_of(path)}) + "\n", encoding="utf-8")


def write_compiled(crates, tools, top=TOP):
    """Writes the record of COMPILED, where it was compiled of these crates' digests over the libraries that were proved, and all of
    that is as it was."""
    path = top / COMPILED
    with contextlib.suppress(OSError, ValueError):
        noted = json.loads(path.with_name(path.name + MADE_OF).read_text(encoding="utf-8"))
        if noted == {**made_of(top), "program": digest_of(path)} and noted["crates"] == crates and is_built(top):
            write(path, crates, tools)


# --- Records ---


def write(program, crates, tools, processor=DEFAULT_PROCESSOR, proved=None):
    """Writes the record of a program that was made of these crates' digests by this toolchain, and proved by now or at a time."""
    told = {"program": digest_of(program), "processor": processor,
            "proved": proved or time.strftime("%Y-%m-%dT%H:%M:%SZ", time.gmtime()), "toolchain": tools, "crates": crates}
    path = path_of(program)
    room = path.with_name(path.name + ".new")
    room.write_text(json.dumps(told, indent=1) + "\n", encoding="utf-8")
    os.replace(room, path)


def read(program):
    """The record of a program, or None where there is none that can be read."""
    try:
        told = json.loads(path_of(program).read_text(encoding="utf-8"))
        return told if {"program", "processor", "proved", "toolchain", "crates"} <= told.keys() else None
    except (OSError, ValueError, AttributeError):
        return None


def of_this_text(program, name, top=TOP):
    """The record of a file that was made of a crate, where the file, the text and the toolchain are those that it says; else None."""
    told = read(program)
    with contextlib.suppress(OSError, KeyError, TypeError):
        is_same = told["program"] == digest_of(program) and told["crates"] == digests_of_crates(name, top)
        return told if is_same and not list(toolchain_changed(told["toolchain"])) else None
    return None


def listed(names):
    """Names as a part of a sentence."""
    named = names if len(names) <= MOST_NAMED else [*names[: MOST_NAMED - 1], "%d more" % (len(names) - MOST_NAMED + 1)]
    return named[0] if len(named) == 1 else "%s and %s" % (", ".join(named[:-1]), named[-1])


def crates_changed(then, now):
    """What became of the crates, a phrase each for those that have changed, that have come and that are gone."""
    for names, one, more in (([name for name in now if name in then and then[name] != now[name]], "has changed", "have changed"),
                             ([name for name in now if name not in then], "is new", "are new"),
                             ([name for name in then if name not in now], "is gone", "are gone")):
        if names:
            yield "%s %s" % (listed(names), one if len(names) == 1 else more)


def toolchain_changed(then):
    """What became of the toolchain, in at most one phrase."""
    if then["name"] != toolchain_name():
        yield "the toolchain is %s and was %s" % (toolchain_name(), then["name"])
    elif then.get("seen") != toolchain_seen() and then["sha256"] != toolchain_digest():
        yield "the toolchain has the name %s and other files" % then["name"]


def has_sources(top=TOP):
    """Whether the crates' texts stand here; where the program is installed they don't."""
    return (top / "crates.txt").exists()


def changed(told, top=TOP):
    """What has changed of what a program was made of, in phrases; of what isn't here nothing is said."""
    phrases = list(crates_changed(told["crates"], digests_of_crates(top=top))) if has_sources(top) else []
    return phrases + (list(toolchain_changed(told["toolchain"])) if has_sources(top) and kit() else [])


def now():
    """The digests of text and toolchain as they are."""
    return {"crates": digests_of_crates(), "library": digests_of_crates(LIBRARY), "toolchain": toolchain()}


def main(words):
    if words == ["now"]:
        json.dump(now(), sys.stdout)
        return 0
    if words not in (["built"], ["passed"]) and (words[:1] != ["since"] or len(words) != 2):
        print(__doc__.strip(), file=sys.stderr)
        return 2
    before = json.load(sys.stdin)
    if words == ["passed"]:
        write_compiled(before["library"], before["toolchain"])
        return 0
    if (before["crates"], before["library"]) != (digests_of_crates(), digests_of_crates(LIBRARY)):
        print("record.py: the crates changed while they were proved: no record is written", file=sys.stderr)
        return 1
    if words == ["built"]:
        write_built(before["library"], before["toolchain"])
    else:
        write(pathlib.Path(words[1]), before["crates"], before["toolchain"])
    return 0


if __name__ == "__main__":
    sys.exit(main(sys.argv[1:]))
