"""A copy of a crate in which some functions alone are left to be proved: of all others it is granted that they are."""
import collections
import contextlib
import copy
import os
import re
import shutil
import tempfile

from tests.editing.verdicts import FUNCTION, place_of

PARTS = ("src", "specs", "proofs")
# A term of any type, by a hole: `--allow-holes` takes it, and each proof that is nothing but it, and says of what stands on it that it does.
ANYTHING = "pub anything : (A : Type 2) → A\nanything A = ?\n"
GRANTED = """use Rattle.{crate}.proofs.{path}.Statement as stated
use Rattle.{crate}.proofs.Anything.{{anything}}

pub {name}_spec : {{M : Type 1}} → stated.statement M
{name}_spec {{M}} = anything (stated.statement M)
"""
# The files of a function's proof: the whole of it, or the other two.
FORMS = ("Proof.antt", "Invariants.antt", "Answers.antt")
# What stands for the body of a function that is granted, so that nothing is worked out of it.
NO_BODY = "unreachable!()"


def functions_of(crate):
    """Returns the functions of a crate that have proofs, as paths with dots, by the library that `rt ci` built of it, or by what its check
    left of a static library; none where there is neither. A trait's own methods, closures and what drops a value have none that could be
    granted."""
    left = [os.path.join(folder, "toolchain", "checked.json") for folder in (crate.rlib, os.path.join(crate.folder, "out", "checked"))]
    file = next(filter(os.path.isfile, left), None)
    if file is None:
        return []
    module = re.compile(rf'"(?:part/)?Rattle-{crate.name}-proofs\.([^"]+)\.(Code|Met|Statement)"')
    parts = collections.defaultdict(set)
    with open(file, encoding="utf-8") as lines:
        for path, part in module.findall(lines.read()):
            parts[path].add(part)
    found = [path for path, own in parts.items() if "Code" in own and ("Met" in own or "Statement" not in own)]
    return [path for path in found if "+" not in path and "fn" not in path.split(".")]


def grant(crate, room, path):
    """Puts a hole in the place of a function's proof."""
    folder = os.path.join(room, "proofs", *path.split("."))
    os.makedirs(folder, exist_ok=True)
    for form in FORMS:
        with contextlib.suppress(FileNotFoundError):
            os.remove(os.path.join(folder, form))
    with open(os.path.join(folder, FORMS[0]), "w", encoding="utf-8") as out:
        out.write(GRANTED.format(crate=crate.name, path=path, name=path.rpartition(".")[2]))


def body_of(text, function):
    """Returns where a function's body begins and ends, in the layout of `rt fmt`; zeros where it has none on lines of its own."""
    indent = function[1]
    end = text.find(f"\n{indent}}}\n", function.end())
    # (after clauses a brace stands alone, else behind the head)
    alone, behind = (re.compile(rf"^{indent}{head}\{{\n", re.MULTILINE).search(text, function.start()) for head in ("", r"\S.* "))
    begin = next((it.end() for it in (alone, behind) if it and it.end() <= end), 0)
    return (begin, end) if begin else (0, 0)


def without_bodies(crate, text, file, names):
    """Returns the text of a source in which the functions of these names have no body."""
    parts, done = [], 0
    for found in FUNCTION.finditer(text):
        begin, end = body_of(text, found)
        place = place_of(text, found.end(), file)
        if place and begin and found.start() >= done and place.named(crate.name, names):
            parts.append(text[done:begin] + f"{found[1]}    {NO_BODY}")
            done = end
    return "".join(parts) + text[done:]


def empty(crate, room, paths):
    """Takes the bodies of functions away, and what is proved of closures in them."""
    names = ["::".join([crate.name, *path.split(".")]) for path in paths]
    for at, _, files in os.walk(os.path.join(room, "src")):
        for file in (os.path.join(at, file) for file in files if file.endswith(".rt")):
            with open(file, encoding="utf-8") as it:
                text = it.read()
            with open(file, "w", encoding="utf-8") as out:
                out.write(without_bodies(crate, text, os.path.relpath(file, room), names))
    for path in paths:
        module, _, name = path.rpartition(".")
        shutil.rmtree(os.path.join(room, "proofs", *module.split("."), "fn", name), ignore_errors=True)


@contextlib.contextmanager
def all_but(crate, functions):
    """Yields a copy of a crate in which these functions are left to be proved, and what a check of it is asked besides. Where nothing is
    known of the others, the copy is as the crate and a check is asked nothing more."""
    others = set(functions_of(crate)) - {function.replace("::", ".") for function in functions}
    with tempfile.TemporaryDirectory(prefix="granted-") as room:
        for part in PARTS:
            if os.path.isdir(os.path.join(crate.folder, part)):
                shutil.copytree(os.path.join(crate.folder, part), os.path.join(room, part))
        for path in others:
            grant(crate, room, path)
        if others:
            empty(crate, room, others)
            with open(os.path.join(room, "proofs", "Anything.antt"), "w", encoding="utf-8") as out:
                out.write(ANYTHING)
            with open(os.path.join(room, "proofs", "Lib.antt"), "a", encoding="utf-8") as out:
                out.write("pub mod Anything\n")
        own = copy.copy(crate)
        own.folder = room
        yield own, ["--allow-holes"] if others else []
