"""Counts the words of README.md, CONTRIBUTING.md, docs/ and the READMEs: people are to read them, so together they stay short."""
from tests.docs import tables

DOCUMENTS = ("README.md", "CONTRIBUTING.md", "docs/*.md", "*/README.md")
MOST = 70000


def words():
    """How many words these documents have together."""
    paths = {path for pattern in DOCUMENTS for path in tables.TOP.glob(pattern)}
    return sum(len(path.read_text(encoding="utf-8").split()) for path in paths)


def checked(_words=()):
    """Whether they are short enough; prints it where they aren't."""
    count = words()
    if count > MOST:
        print("FAILED the documents have %d words together: at most %d" % (count, MOST))
    return (0, 1) if count > MOST else (1, 0)
