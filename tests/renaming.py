"""Renames words in the crates: crates, functions, types, fields and variables, in texts and in the names of files.

A map is a file of lines `WHERE OLD NEW`. WHERE is `*` for every crate, or the beginning of a path below `crates/`, as it was before
the renaming; of several lines for one word the one with the longest WHERE holds, and NEW may be OLD, which keeps the word there.
OLD is whole words: `Heard::Response` is renamed and `Response` is not. A line `crate OLD NEW` gives a crate's folder another name,
and its lines of `crates.txt`. Lines that begin with `#` are comments.
"""
import pathlib
import re
import shutil
import subprocess
from dataclasses import dataclass

TEXTS = (".rt", ".antt", ".edit")
WORD = "A-Za-z0-9_"


@dataclass(frozen=True)
class Renaming:
    """What a map says: new names of crates, and of words, each with the beginning of the paths where it holds."""

    crates: dict[str, str]
    words: list[tuple[str, str, str]]

    @classmethod
    def read(cls, file):
        crates, words = {}, []
        for line in pathlib.Path(file).read_text(encoding="utf-8").splitlines():
            if not line.strip() or line.startswith("#"):
                continue
            where, old, new = line.split()
            if where == "crate":
                crates[old] = new
            else:
                words.append(("" if where == "*" else where, old, new))
        return cls(crates, words)

    def words_at(self, path):
        """The words that are renamed in a file, by its old path below `crates/`."""
        found = {}
        for where, old, new in sorted(self.words, key=lambda row: len(row[0])):
            if path.startswith(where):
                found[old] = new
        return found

    def text(self, path, text):
        """The text of a file, renamed."""
        return replaced(text, self.words_at(path))

    def path(self, path):
        """A file's new path below `crates/`."""
        crate, *folders, name = path.split("/")
        stem, dot, ending = name.partition(".")
        words = self.words_at(path)
        inner = [replaced(part, words) for part in (*folders, stem)]
        return "/".join([self.crates.get(crate, crate), *inner]) + dot + ending


def replaced(text, words):
    if not words:
        return text
    either = "|".join(whole(old) for old in sorted(words, key=len, reverse=True))
    return re.sub(either, lambda found: words[found[0]], text)


def whole(old):
    """The pattern of a word, or of several with signs between them, where no letter stands at its end that would go on with it."""
    ends_in_word = re.match(rf"[{WORD}]", old[-1])
    return rf"(?<![{WORD}]){re.escape(old)}" + (rf"(?![{WORD}])" if ends_in_word else "")


def rename_crates(renaming, old, new):
    """Writes the crates below the folder `old` into the folder `new`, renamed and laid out by `rt fmt`."""
    for file in sorted(pathlib.Path(old, "crates").rglob("*")):
        path = file.relative_to(pathlib.Path(old, "crates")).as_posix()
        if not file.is_file() or path.split("/")[1:2] in ([], ["out"]):  # (a page beside the crates isn't one)
            continue
        to = pathlib.Path(new, "crates", renaming.path(path))
        to.parent.mkdir(parents=True, exist_ok=True)
        if file.name.endswith(TEXTS):
            to.write_text(renaming.text(path, file.read_text(encoding="utf-8")), encoding="utf-8")
        else:
            shutil.copyfile(file, to)
    listed = replaced(pathlib.Path(old, "crates.txt").read_text(encoding="utf-8"), renaming.crates)
    pathlib.Path(new, "crates.txt").write_text(listed, encoding="utf-8")
    for crate in sorted(path for path in pathlib.Path(new, "crates").iterdir() if path.is_dir()):
        subprocess.run(["rt", "fmt"], cwd=crate, check=True, stdout=subprocess.DEVNULL)
