"""What a check of the prover's says of edits, and which function an edit changes."""
import os
import re

from tests.editing.records import text_of

# What a check says of a function, and what it says where only a function that it calls isn't proved.
SAID = re.compile(r"^fn (\S+): (.*)$", re.MULTILINE)
CALLS_UNPROVED = "no proof: it calls "
# What it says where the prover can't take the text, whatever its contract.
OF_THE_PROVER = "a bug in rattle"
# How a check with holes says that a function is proved but for them.
BUT_FOR_HOLES = ("no holes", "depends on a hole in ")
# What a check says of a proof file, by its name, and of which declaration, where its line goes on below with that; and how it says that
# this names what isn't there.
IN_PROOFS = re.compile(r"^(?:\./)?(proofs/\S+?):\d+:\d+: error: (?:`([^`]+)`: )?(.*(?:\n  \S.*)?)$", re.MULTILINE)
NAMES_NOTHING = re.compile(r"has\s+no\s+field|is\s+not\s+in\s+scope|has\s+no\s+`|was\s+not\s+admitted")
# A function's first line, and the first of what holds functions, in the layout of `rt fmt`.
FUNCTION = re.compile(r"^( *)(?:pub(?:\([a-z]+\))? )?(?:const |unsafe |extern \"C\" )*fn (\w+)", re.MULTILINE)
HOLDER = re.compile(r"^(?:pub(?:\([a-z]+\))? )?(?:impl|trait)\b([^{;]*)", re.MULTILINE)


def is_proved(said):
    """Whether what a check says of a function is that it is proved, or is but for holes, which stand for what was granted."""
    return said is not None and (said == "proved" or said.startswith(BUT_FOR_HOLES))


def is_own_refusal(said):
    """Whether what a check says of a function is that its own proof fails."""
    return said is not None and not is_proved(said) and not said.startswith(CALLS_UNPROVED) and OF_THE_PROVER not in said


def faults_of(said, function):
    """What a check says is wrong in a function's proof files, as pairs of file and declaration: first where they name what isn't there,
    then all else."""
    folder, misfits, others = "/".join(["proofs", *function.split("::")[1:], ""]), [], []
    for file, declaration, fault in IN_PROOFS.findall(said):
        if file.startswith(folder):
            (misfits if NAMES_NOTHING.search(fault) else others).append((file, declaration))
    return misfits, others


def is_by_contract(said, function):
    """Whether what isn't proved of a function is so whatever its proof files name."""
    misfits, others = faults_of(said, function)
    return bool(others) or not misfits


def without(text, names):
    """Returns the text of a proof file without the declarations of these names."""
    kept, is_left_out = [], False
    for line in text.splitlines(keepends=True):
        if line[:1].strip():
            words = line.removeprefix("pub ").split()
            is_left_out = bool(words) and words[0] in names
        if not is_left_out:
            kept.append(line)
    return "".join(kept)


def kind_of(goal):
    """The kind of a goal: `returns` of `returns-then-self-ne0`."""
    return goal.partition("-")[0]


class Place:
    """Where an edit stands: the module, the words of the holder's head if there is one, and the name of the function."""

    def __init__(self, file, head, name):
        self.module = [part for part in file.removeprefix("src/").removesuffix(".rt").split("/") if part not in ("lib", "main", "mod")]
        self.holder, self.name = set(re.findall(r"\w+", head)), name

    def named(self, crate, names):
        """The one of the functions' names that is this function's, if it is clear which. Of an `impl` that stands in another module
        than its type, they have the type's module."""
        front = [crate, *self.module]
        found = [name for name in names if name.split("::")[:len(front)] == front and self.ends(name.split("::")[len(front):])]
        found = found or [name for name in names if self.is_of_holder(name.split("::"))]
        return found[0] if len(found) == 1 else None

    def is_of_holder(self, parts):
        """Whether a name ends with a type of the holder's head, and then the function."""
        return len(parts) > 2 and parts[-1] == self.name and parts[-2] in self.holder

    def ends(self, parts):
        """Whether a name within the module is this function's: after what holds it, if anything does."""
        if not self.holder:
            return parts == [self.name]
        return len(parts) == 2 and parts[1] == self.name and any(parts[0].startswith(word) for word in self.holder)


def place_of(text, at, file):
    """The place of a part of a source, or None where it stands in no function."""
    for found in reversed(list(FUNCTION.finditer(text, 0, at))):
        if at > text.find(f"\n{found[1]}}}", found.end()):
            return None
        holders = HOLDER.findall(text, 0, found.start()) if found[1] else [""]
        return Place(file, holders[-1], found[2])
    return None


def place_of_edit(crate, edit):
    """The place of an edit that changes one function, and imports at the most; None for any other."""
    file, places = None, []
    for line in text_of(edit).splitlines():
        if line.startswith("file: "):
            file = line.removeprefix("file: ").strip()
        elif line.startswith("old: ") and not line.startswith("old: use "):
            with open(os.path.join(crate.folder, file), encoding="utf-8") as it:
                text = it.read()
            places.append(place_of(text, text.find(line.removeprefix("old: ")), file))
    if not places or None in places:
        return None
    return places[0] if len({(tuple(place.module), place.name) for place in places}) == 1 else None
