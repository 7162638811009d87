"""The version of this copy of Soizkadur: the number in VERSION, which stands nowhere else (CONTRIBUTING.md, "Versions"); the names
that the tools have, here and where they are installed; and how they show what others wrote."""
import pathlib
import re
import sys

UNKNOWN = "of no known version"
INSTALLED = "mme-"  # what a tool's name begins with where it is installed
OF_CLONES = ("charts",)  # the tools that aren't packed: what they make is the repository's
DOCUMENTS = "/usr/share/doc/soizkadur"  # where a package has the documents and the examples
# How a document or an example is named, by its path in the repository and in that folder.
DOCUMENT = re.compile(r"(?<![\w./])(?:(?:docs|examples)/\w|(?:deploy/)?README\.md\b)")
OWN_OF_CLONES = r"(?! --(?:library|prove)\b)"  # what follows `./mme` where it is a clone's wherever it is named


def number() -> str:
    """The number, as 1.0.0."""
    try:
        return (pathlib.Path(__file__).resolve().parent.parent / "VERSION").read_text(encoding="utf-8").strip()
    except OSError:
        return UNKNOWN


def as_installed(text: str) -> str:
    """What a tool says of itself and of others, by the names that they have where they are installed."""
    text = re.sub(r"\btools/(?!(?:%s)\b)(\w+)(?![\w./])" % "|".join(OF_CLONES), INSTALLED + r"\1", text)
    return re.sub(r"(?<![\w/.])\./mme\b" + OWN_OF_CLONES, "mme", text)


def called() -> str:
    """The name that this tool was called by: `explain`, and `mme-explain` where it is installed."""
    return pathlib.Path(sys.argv[0]).name


def program() -> str:
    """How the program is called beside this tool."""
    return "mme" if called().startswith(INSTALLED) else "./mme"


def as_called(text: str) -> str:
    """A text with the tools' names as this one was called."""
    return as_installed(text) if called().startswith(INSTALLED) else text


def visible(text: str) -> str:
    """A text as one line in which all can be seen: what moves a terminal's cursor, begins a line or hides what stands beside it
    is written as in a literal of Python, as `\\x1b`. Texts that others wrote, as a station's name, are shown by this."""
    if text.isprintable():
        return text
    return "".join([sign if sign.isprintable() else sign.encode("unicode_escape").decode("ascii") for sign in text])


def complain(text) -> None:
    """Says something on standard error, in a line, by the tool's name."""
    print("%s: %s" % (called(), visible(as_called(str(text)))), file=sys.stderr)


def add_to(parser) -> None:
    """Lets a tool's command line take --version; where the tool is installed, its help says so."""
    if parser.prog.startswith(INSTALLED):
        parser.description = as_installed(parser.description)
        parser.epilog = parser.epilog and as_installed(parser.epilog)
        documents = pathlib.Path(__file__).resolve().parents[3] / "share" / "doc" / "soizkadur"
        if DOCUMENT.search(parser.description) and documents.is_dir():
            parser.description += "\nDocuments and examples stand in %s.\n" % documents
    parser.add_argument("--version", action="version", version="%%(prog)s %s" % number(),
                        help="say the version, which is %s, and end" % number())
