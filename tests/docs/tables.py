"""The tables of a document: each by the heading that it stands under, its rows as their cells."""
import pathlib
import re

TOP = pathlib.Path(__file__).resolve().parent.parent.parent


def text(path):
    """A file of the repository."""
    return (TOP / path).read_text(encoding="utf-8")


def cells_of(line):
    """The cells of a row, without their backticks."""
    return [cell.strip().replace("`", "") for cell in line.strip().strip("|").split("|")]


def read(path):
    """The rows of each table, its head left out, by the heading above it: a heading has one table at most."""
    found, heading, rows = {}, None, None
    for number, line in enumerate(text(path).split("\n"), 1):
        if line.startswith("#"):
            heading, rows = line.lstrip("#").strip(), None
        elif not line.startswith("|"):
            rows = None
        elif rows is None:
            if heading in found:
                raise ValueError("%s:%d: a second table under %r" % (path, number, heading))
            rows = found[heading] = []
        elif not re.fullmatch(r"[|: -]+", line):
            rows.append(cells_of(line))
    return found
