#!/usr/bin/env python3
"""Proves the crates below the library for C and builds the library: `./mme --library [PROCESSOR]`.

    library.py [PROCESSOR]      what `./mme --library` does: after the gate here, the library is linked of the archive of `mme_c`
                                that it proved and compiled, or, for another processor or where the gate's tests didn't pass,
                                built over the crates' libraries that it left; where this machine keeps what `rt ci` proved of
                                this text, whole, over those; else each crate is proved in turn, with a line for each
    library.py --built FOLDER [PROCESSOR]
                                builds it in a folder of what the gate compiled, or over the libraries that stand built here, as
                                `rt ci` leaves them: the crate `mme_c` is checked and compiled, the crates below it are not

The library is the archive libsoizkadur.a and the shared object libsoizkadur.so.1, each whole but for the C library, with
soizkadur.h and soizkadur.pc. Only the functions of soizkadur.h are visible in them. Both say which processor they need, so that the
system's loader refuses a program with them on another. Beside the archive stands the record of what it was made of (record.py).
"""
import argparse
import os
import pathlib
import re
import shutil
import sys
import tempfile
import time

sys.dont_write_bytecode = True
if __name__ == "__main__":
    sys.path[0] = str(pathlib.Path(__file__).resolve().parents[2])
from tools.program import children, kept, prove, record, toolchain
from tools.program.kept import ran
from tools.program.words import BAD_WORDS, Failed, say

CRATE = record.LIBRARY
FOLDER = record.TOP / "crates" / CRATE / "out" / "library"
ARCHIVE, SHARED, PLAIN = "libsoizkadur.a", "libsoizkadur.so.1", "libsoizkadur.so"
HEADER = record.TOP / "library" / "soizkadur.h"
PREFIX = "soizkadur_"
# The C code of the toolchain that the library's heap is: malloc, realloc and free.
SHIM = pathlib.Path("c") / "liblibc_c.a"
FUNCTION = re.compile(r"^[a-z]\w* (soizkadur_\w+)\(", re.MULTILINE)
# What the linker calls a processor that it names otherwise, and the line of `readelf` that says what processors a file needs.
OF_LINKER = {"x86-64": "x86-64-baseline"}
NEEDED = re.compile(r"x86 ISA needed: (.+)$", re.MULTILINE)
# What any shared object asks of the linker's own start files, where it is there.
WEAK = {"_ITM_deregisterTMCloneTable", "_ITM_registerTMCloneTable", "__cxa_finalize", "__gmon_start__"}
PC = """\
libdir=${pcfiledir}
includedir=${pcfiledir}

Name: soizkadur
Description: An MME of LTE, proved
Version: %s
Libs: -L${libdir} -lsoizkadur
Cflags: -I${includedir}
"""


# --- The archive, compiled ---


def compiled(rt, crate, archive, processor, checked=None):
    """Compiles `mme_c` to an archive, over the libraries below it: of what its check made, where that is given, else it is checked."""
    words = [*kept.words_of(crate), *prove.compiled_for(processor), "--toolchain", "%s/toolchain" % rt.KIT, "--backend", "llvm"]
    if checked:
        words = [*without(words, "--logic-built", "--jobs"), "--crate-checked", checked]
    ran([*rt.rtlib.guarded(), rt.rtlib.RATTLE, "build", *words, "-o", archive], "%s isn't proved, or doesn't compile" % CRATE,
        crate.folder, **toolchain.for_provers())


def without(words, *flags):
    """The words without these flags and what follows each."""
    return [word for at, word in enumerate(words) if word not in flags and (at == 0 or words[at - 1] not in flags)]


def compile_over_built(archive, processor):
    """Compiles `mme_c` over the libraries below it that stand built: `rt ci` leaves them with statements and code, as it needs them
    for a program."""
    rt = toolchain.module()
    rt.Crate.cuts_libraries = True
    crate = next((one for one in rt.rtlib.crates_below(str(record.TOP)) if one.name == CRATE), None)
    if crate is None:
        raise Failed("crates.txt has no crate %s" % CRATE)
    missing = [one.name for one in crate.below() if not os.path.isdir(one.rlib)]
    if missing:
        raise Failed("the libraries below %s aren't built: %s" % (CRATE, record.listed(missing)))
    # (what was checked is for the usual processor)
    compiled(rt, crate, archive, processor, None if processor else toolchain.checked(crate))


def compile_over_kept(archive, processor):
    """Compiles `mme_c` over the libraries that this machine keeps of `rt ci`; whether it keeps all of them, and that `mme_c` is
    proved."""
    rt = toolchain.module()
    if not kept.keeps_work(rt):
        return False
    with tempfile.TemporaryDirectory() as room:
        kept.copy_crates(room)
        crate = kept.crate_over_kept(rt, room, CRATE)
        if crate is None:
            return False
        compiled(rt, crate, archive, processor)
    return True


def compile_for_gate():
    """Compiles `mme_c` over the libraries that stand built here, to where the gate leaves it, and notes of what; returns the archive.
    It counts for nothing until the gate has passed and its record is written (record.py)."""
    archive = record.TOP / record.COMPILED
    shutil.rmtree(archive.parent, ignore_errors=True)
    archive.parent.mkdir(parents=True)
    told = record.made_of()
    compile_over_built(archive, None)
    record.note_compiled(told)
    return archive


def left_by_gate(processor):
    """The record of the archive that the gate compiled of `mme_c`, where it is of this text, by this toolchain and for this processor;
    else None."""
    told = record.of_this_text(record.TOP / record.COMPILED, CRATE)
    return told if told and told["processor"] == (processor or record.DEFAULT_PROCESSOR) else None


# --- The library, linked ---


def functions():
    """The functions of the header."""
    return sorted(FUNCTION.findall(HEADER.read_text(encoding="utf-8")))


def link_archive(compiled, folder, room, processor):
    """One object of the compiled crate and the toolchain's C code, in which the header's functions alone are visible, and which says
    what processor it needs: what is linked with it says the same."""
    whole, names = room / "whole.o", room / "names"
    names.write_text("".join("%s\n" % name for name in functions()), encoding="utf-8")
    ran(["ld", "-r", "-z", OF_LINKER.get(processor, processor), "-o", whole, "--whole-archive", compiled, "--no-whole-archive",
         record.kit() / SHIM], "the archive can't be linked")
    ran(["objcopy", "--keep-global-symbols=%s" % names, whole, room / "soizkadur.o"], "the archive's names can't be hidden")
    (folder / ARCHIVE).unlink(missing_ok=True)
    ran(["ar", "rcsD", folder / ARCHIVE, room / "soizkadur.o"], "the archive can't be written")


def link_shared(folder, room):
    """The shared object of the archive: position independent, with nothing missing but what the C library has."""
    exports = room / "exports"
    exports.write_text("{ global: %s local: *; };\n" % "".join("%s; " % name for name in functions()), encoding="utf-8")
    ran(["cc", "-shared", "-o", folder / SHARED, "-Wl,-soname,%s" % SHARED, "-Wl,--whole-archive", folder / ARCHIVE,
         "-Wl,--no-whole-archive", "-Wl,--version-script=%s" % exports, "-Wl,-z,defs", "-Wl,-z,text", "-Wl,-z,relro", "-Wl,-z,now",
         "-Wl,--build-id=none"], "the shared object can't be linked")
    (folder / PLAIN).unlink(missing_ok=True)
    (folder / PLAIN).symlink_to(SHARED)


def names_in(file, *flags):
    """The names that `nm` lists of a file."""
    lines = ran(["nm", *flags, file], "the names of %s can't be listed" % file.name).splitlines()
    return [line.split()[-1] for line in lines if line and not line.endswith(":")]


def processors_of(file):
    """What processors a file needs, as it says itself."""
    lines = NEEDED.findall(ran(["readelf", "-n", file], "%s can't be read" % file.name))
    return {name for line in lines for name in line.split(", ")}


def look_at(folder, processor):
    """Fails where what is visible isn't the header's functions, something is missing that the C library doesn't have, or a file
    doesn't say what processor it needs."""
    wanted = functions()
    for file, flags in ((ARCHIVE, ["--defined-only", "-g"]), (SHARED, ["--defined-only", "-D"])):
        found = sorted(name.partition("@")[0] for name in names_in(folder / file, *flags))
        if found != wanted:
            others = ", ".join(sorted(set(found) ^ set(wanted))[:8])
            raise Failed("the names in %s aren't those of soizkadur.h: %s" % (file, others))
        if OF_LINKER.get(processor, processor) not in processors_of(folder / file):
            raise Failed("%s doesn't say that it needs %s" % (file, processor))
    foreign = [name for name in names_in(folder / SHARED, "--undefined-only", "-D") if "@GLIBC" not in name and name not in WEAK]
    if foreign:
        raise Failed("%s needs more than the C library: %s" % (SHARED, ", ".join(foreign[:8])))
    if "TEXTREL" in ran(["readelf", "-d", folder / SHARED], "%s can't be read" % SHARED):
        raise Failed("%s isn't position independent" % SHARED)


def link(compiled, folder, processor=None):
    """The library in a folder, of the archive that was compiled for a processor, or for the default one; returns the folder."""
    processor = processor or record.DEFAULT_PROCESSOR
    folder = pathlib.Path(folder)
    folder.mkdir(parents=True, exist_ok=True)
    record.path_of(folder / ARCHIVE).unlink(missing_ok=True)
    with tempfile.TemporaryDirectory() as room:
        link_archive(compiled, folder, pathlib.Path(room), processor)
        link_shared(folder, pathlib.Path(room))
    shutil.copy(HEADER, folder)
    version = (record.TOP / "VERSION").read_text(encoding="utf-8").strip()
    (folder / "soizkadur.pc").write_text(PC % version, encoding="utf-8")
    look_at(folder, processor)
    return folder


# --- What a test or a package asks for ---


def build_over_built(folder, processor=None):
    """The library in a folder, of what the gate compiled, or over the crates' libraries that stand built here, as after `rt ci`;
    returns the folder."""
    if left_by_gate(processor):
        return link(record.TOP / record.COMPILED, folder, processor)
    with tempfile.TemporaryDirectory() as room:
        archive = pathlib.Path(room, "lib%s.a" % CRATE)
        compile_over_built(archive, processor)
        return link(archive, folder, processor)


def fresh(folder=FOLDER):
    """The folder, that of `./mme --library` where none is given, if the library in it is of this text and this toolchain by its
    record, else None."""
    if record.of_this_text(folder / ARCHIVE, CRATE) is None:
        return None
    return folder if HEADER.read_bytes() == (folder / HEADER.name).read_bytes() else None


# --- ./mme --library ---


def prove_each(begun, processor):
    """Proves each crate below the library and the library's own; returns its archive."""
    crates = record.crates_of(CRATE)
    for at, name in enumerate(crates, 1):
        what = "%s, %d of %d" % (name, at, len(crates))
        say("proving %s, %d s so far" % (what, time.monotonic() - begun))
        try:
            prove.made(name, toolchain.command("lib", *(prove.compiled_for(processor) if name == CRATE else [])))
        except children.Stopped as stopped:
            raise Failed("stopped while proving %s; what was proved before it is kept" % what, stopped.status) from None
    return record.TOP / "crates" / CRATE / "out" / ("lib%s.a" % CRATE)


def take_from_gate(processor):
    """Links the library of what the gate compiled here, where that is of this text; whether it is."""
    told = left_by_gate(processor)
    if told is None:
        return False
    say("the gate passed on this text here: %d crates are proved, and %s is compiled" % (len(told["crates"]), CRATE))
    link(record.TOP / record.COMPILED, FOLDER, processor)
    record.write(FOLDER / ARCHIVE, told["crates"], told["toolchain"], told["processor"], told["proved"])
    return True


def prove_and_build(begun, processor):
    """Has the crates below the library proved, and builds it."""
    before = {"crates": record.digests_of_crates(CRATE), "toolchain": record.toolchain()}
    record.path_of(FOLDER / ARCHIVE).unlink(missing_ok=True)
    with tempfile.TemporaryDirectory() as room:
        archive = pathlib.Path(room, "lib%s.a" % CRATE)
        if record.is_built():
            say("%d crates stand built: the gate proved this text here" % len(before["crates"]))
            compile_over_built(archive, processor)
        elif compile_over_kept(archive, processor):
            say("%d crates are kept: `rt ci` proved this text on this machine" % len(before["crates"]))
        else:
            archive = prove_each(begun, processor)
        link(archive, FOLDER, processor)
    if record.digests_of_crates(CRATE) != before["crates"]:
        raise Failed("the crates changed while they were proved: ./mme --library once more")
    record.write(FOLDER / ARCHIVE, before["crates"], before["toolchain"], processor or record.DEFAULT_PROCESSOR)


def library(begun, processor):
    """What `./mme --library` does."""
    if not record.has_sources():
        raise Failed("no sources here: --library is for a clone of the repository")
    if record.kit() is None:
        raise Failed("no toolchain on the path: --library needs `rt`")
    children.catch_signals()
    if take_from_gate(processor):
        done = "linked"
    else:
        prove_and_build(begun, processor)
        done = "proved and built"
    say("%s in %d s: %s and %s in %s" % (done, time.monotonic() - begun, ARCHIVE, SHARED, FOLDER))


def main(given):
    parser = argparse.ArgumentParser(description=__doc__, formatter_class=argparse.RawDescriptionHelpFormatter)
    parser.add_argument("--built", metavar="FOLDER")
    words, others = parser.parse_known_args(given)

    def work(begun):
        processor = prove.processor_of("--library", others)
        if words.built:
            say("built in %s" % build_over_built(words.built, processor))
        else:
            library(begun, processor)

    return prove.status_of(work)


if __name__ == "__main__":
    sys.exit(main(sys.argv[1:]))
