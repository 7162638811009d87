"""Looks up what documents name and quote: those of DOCUMENTS.

- A quotation, a fence whose first line has a file after its language, stands in that file, line by line and in order; a line `..`
  is what was left out, and layout isn't compared. After a tool's command line stands what it prints.
- A path is there; NAME in it stands for anything.
- A word of code, also with another in brackets, is in the crates' code, definitions and edits, or names a crate or a file.
- A path of items, as `crate::function`, `module::item`, `Type::method` or `Type::Variant` and longer ones, leads from each part to
  the next by what the code declares (items.py): that both words are somewhere isn't enough. So it is in all documents.
- A section that a document sends its reader to, as `FILE.md`, "Heading", is there: a heading, without its number if it has one, or
  the bold beginning of an item. So it is in all documents.
- Any other piece of code stands in some file of the repository as it is, unless it is a command; `..` in it was left out.
- A word of PROMISES.md that is the name of a lemma of specs/ names a contract too: a lemma alone is no promise.
- Each row of PROOFS.md under "From promise to clause" has a crate's function, or several, with the clauses of their contracts behind a
  colon, definitions that are public in some crate's specs/, and edits that are there.
"""
import functools
import os
import pathlib
import re
import subprocess

from tests.docs import definitions_check, tables
from tests.docs.items import Items

DOCUMENTS = ("docs/TOUR.md", "docs/PROOFS.md", "docs/PROMISES.md", "docs/REFUSALS.md", "docs/DEFINITIONS.md", "CONTRIBUTING.md",
             "CHANGELOG.md", "crates/README.md", "docs/ARCHITECTURE.md", "docs/DECISIONS.md", "docs/SECURITY.md")
MORE_DOCUMENTS = ("README.md", "bench/README.md", "deploy/README.md", "docs/*.md")  # whose paths of items are looked up
SPAN = r"`([^`]+)`"
ITEM_PATH = re.compile(r"\w+(?:::\w+)+")
SECTION = re.compile(r'`((?:\w+/)*\w+\.md)`(?:, | \(| )"([^"]+)"')
PROMISED = "docs/PROMISES.md"
PROMISES = "From promise to clause"
COMMANDS = ("rt ", "git ")
CODE = {".rt", ".antt", ".edit"}
TEXTS = CODE | {".md", ".py", ".txt", ".trace", ".answers", ".sh", ".service", ""}
# Words that code spans show of the language or of a command, and that no file needs to have.
KNOWN = {"rt", "main"}
KNOWN_TEXT = {"logic=proved"}
NOT_SOURCES = {"out", ".git", "__pycache__"}


def plain(text):
    """A text without layout."""
    return " ".join(text.split())


def paths():
    """Every folder and file of the sources."""
    for folder, folders, files in os.walk(tables.TOP):
        folders[:] = sorted(set(folders) - NOT_SOURCES)
        yield from (pathlib.Path(folder, name) for name in folders + sorted(files))


class Tree:
    """What there is to name: files, words of the code, and texts."""

    def __init__(self):
        self.files, self.texts, self.code = set(), {}, {}
        for path in paths():
            inside = str(path.relative_to(tables.TOP))
            self.files.add(inside)
            if path.is_file() and path.suffix in TEXTS and inside not in DOCUMENTS:
                text = path.read_text(encoding="utf-8", errors="replace")
                self.texts[inside] = plain(text)
                if path.suffix in CODE:
                    self.code[inside] = text
        self.all = "\n".join(self.texts.values())
        self.items = Items(self.code)
        self.names = {pathlib.PurePath(file).name for file in self.files}
        self.names |= {pathlib.PurePath(file).stem for file in self.files}
        self.words = set()
        for text in self.code.values():
            self.words.update(re.findall(r"\w+", re.sub(r"(?m)^\s*(//|--).*$", "", text)))
        specs = "\n".join(text for path, text in self.code.items() if "/specs/" in path)
        self.definitions = set(definitions_check.DECLARED.findall(specs))
        source = "\n".join(text for path, text in self.code.items() if "/src/" in path)
        self.bare_lemmas = (set(re.findall(r"(?m)^pub ([a-z]\w*) :", specs))
                            - set(re.findall(r"(?m)^(?:abbrev|unfoldable) pub (\w+)", specs))
                            - set(re.findall(r"\b(?:fn|ensures) (\w+)", source)))
        self.edits = {pathlib.PurePath(path).stem for path in self.code if path.endswith(".edit")}

    def has_path(self, path):
        """Whether it is there, from the top or from crates/; specs/ alone, and a module as specs/Bits, may be any crate's."""
        bare = path.rstrip("/")
        if bare in self.files or "crates/" + bare in self.files or (path.endswith("/") and bare in self.names):
            return True
        if re.fullmatch(r"specs/\w+", bare):
            return any(file.endswith("/" + bare + ".antt") for file in self.files)
        pattern = re.escape(bare).replace("NAME", "[^/]+")
        return "NAME" in bare and any(re.fullmatch("(crates/)?" + pattern, file) for file in self.files)

    def has_words(self, words):
        return all(word in self.words or word in self.names or word in KNOWN for word in words)

    @functools.lru_cache(maxsize=None)
    def has_text(self, piece):
        """Whether some file has it, or each of its pieces where `..` is left out; octets of a trace may be parted by spaces."""
        if re.fullmatch(r"[0-9a-f ]+", piece):
            piece = piece.replace(" ", "")
        pieces = list(filter(None, map(plain, piece.split(".."))))
        return all(one in self.all for one in pieces) and any(all(one in text for one in pieces) for text in self.texts.values())


def quoted_fault(tree, head, lines):
    """What is wrong with a quotation: its file, or the first line that isn't there after those before it."""
    words = head.split()
    if len(words) < 2:
        return None
    if words[1].startswith("tools/"):
        told = subprocess.run(words[1:], cwd=tables.TOP, capture_output=True, text=True, check=False).stdout
        return None if told.rstrip("\n") == "\n".join(lines) else "%s prints something else" % " ".join(words[1:])
    if words[1] not in tree.texts:
        return "there is no %s" % words[1]
    there = [plain(line) for line in tables.text(words[1]).split("\n")]
    at = 0
    for line in filter(None, map(plain, lines)):
        if line == "..":
            continue
        while at < len(there) and there[at] != line:
            at += 1
        if at == len(there):
            return "%s doesn't have, or not after the lines before it: %s" % (words[1], line)
        at += 1
    return None


def span_fault(tree, span):
    """What is wrong with a piece of code in a sentence."""
    span = plain(span)
    if span.startswith(COMMANDS):
        return None
    first = span.split(" ")[0].removeprefix("./")
    if "/" in first and re.fullmatch(r"[\w./-]+", first):
        return None if tree.has_path(first) else "there is no %s" % first
    if ITEM_PATH.fullmatch(span):
        return None  # which is looked up by itself
    if re.fullmatch(r"\w+|\w+\(\w+\)", span):
        return None if tree.has_words(re.findall(r"\w+", span)) or tree.has_text(span) else "nothing is named %s" % span
    return None if span in tree.names | KNOWN_TEXT or tree.has_text(span) else "no file has %s" % span


def lemma_faults(tree):
    """The words of the promises: for each its line and what is wrong, if it is a lemma of specs/ and no contract."""
    for number, line in enumerate(tables.text(PROMISED).split("\n"), 1):
        for span in re.findall(SPAN, line):
            if re.fullmatch(r"\w+", span):
                yield number, "%s is a lemma of specs/ and no contract" % span if span in tree.bare_lemmas else None


def faults_of(tree, path):
    """What was looked up in a document: for each its line and what is wrong, if anything."""
    fence, head, quoted = False, "", []
    for number, line in enumerate(tables.text(path).split("\n"), 1):
        if line.startswith("```"):
            if fence:
                yield number, quoted_fault(tree, head, quoted)
            fence, head, quoted = not fence, line[3:], []
        elif "```" in line:
            yield number, "a fence within a line"
        elif fence:
            quoted.append(line)
        elif not line.startswith("    "):
            for span in re.findall(SPAN, line):
                yield number, span_fault(tree, span)
    if fence:
        yield number, "a fence isn't closed"


def path_faults_of(tree, path):
    """The paths of items that a document names: for each its line and what is wrong, if anything."""
    for number, line in enumerate(tables.text(path).split("\n"), 1):
        for span in re.findall(SPAN, line):
            for found in ITEM_PATH.findall(span):
                yield number, None if tree.items.has_path(found) else "there is no %s" % found


def section_fault(path, named, heading):
    """What is wrong with a section that a document names; the file is found from the top or from the document's folder."""
    places = [tables.TOP / named, (tables.TOP / path).parent / named]
    text = next((place.read_text(encoding="utf-8") for place in places if place.exists()), None)
    if text is None:
        return "there is no %s" % named
    words = re.escape(heading)
    is_there = re.search(r"(?m)^(?:#+ (?:\d+\. )?%s$|- \*\*%s)" % (words, words), text)
    return None if is_there else "%s has no section %s" % (named, heading)


def section_faults_of(path):
    """The sections that a document names: for each its line and what is wrong, if anything."""
    for number, line in enumerate(tables.text(path).split("\n"), 1):
        for named, heading in SECTION.findall(line):
            yield number, section_fault(path, named, heading)


def contract_of(tree, crate, function):
    """The contracts of the functions of a crate that have this name: from the name to the body."""
    name = function.split("::")[-1]
    for path, text in tree.code.items():
        if path.startswith("crates/%s/src/" % crate):
            yield from re.findall(r"\bfn %s\b.*?^ *\{(?:\}|$)" % re.escape(name), text, re.S | re.M)


def row_faults(tree, row):
    """What is wrong with a row: promise, contract as 'CRATE FUNCTION, ..: CLAUSE, ..', definitions, edits."""
    _, contract, definitions, edits = row
    named, _, clauses = contract.partition(": ")
    crate, _, functions = named.partition(" ")
    contracts = []
    for function in functions.split(", "):
        found = list(contract_of(tree, crate, function))
        contracts += found
        if not found:
            yield "%s has no function %s" % (crate, function)
    for clause in filter(None, clauses.split(", ")):
        if not any(re.search(r"ensures %s \{" % re.escape(clause), contract) for contract in contracts):
            yield "%s has no clause %s" % (functions, clause)
    yield from ("no definition %s" % name for name in definitions.split(", ") if name not in tree.definitions)
    yield from ("no edit %s" % edit for edit in edits.split(", ") if edit not in tree.edits | {"-"})


def all_documents():
    """The documents, each once."""
    more = (str(path.relative_to(tables.TOP)) for pattern in MORE_DOCUMENTS for path in pathlib.Path(tables.TOP).glob(pattern))
    return sorted({*DOCUMENTS, *more})


def checked(_words=()):
    """How much was looked up and found, and how much not; prints each that wasn't."""
    tree, passed, faults = Tree(), 0, []
    looked_up = [(path, faults_of(tree, path)) for path in DOCUMENTS]
    looked_up += [(path, found) for path in all_documents() for found in (path_faults_of(tree, path), section_faults_of(path))]
    looked_up.append((PROMISED, lemma_faults(tree)))
    for path, found in looked_up:
        for number, fault in found:
            passed += not fault
            faults += ["%s:%d: %s" % (path, number, fault)] if fault else []
    for row in tables.read("docs/PROOFS.md").get(PROMISES, []) or [[""] * 4]:
        wrong = list(row_faults(tree, row)) if len(row) == 4 else ["%d cells" % len(row)]
        passed += not wrong
        faults += ["docs/PROOFS.md, %s: %s" % (row[0], fault) for fault in wrong]
    for fault in faults:
        print("FAILED " + fault)
    return passed, len(faults)
