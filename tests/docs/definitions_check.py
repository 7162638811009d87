"""Writes docs/DEFINITIONS.md from the specs/ of all crates, and compares it.

- Of each module, a line for each clause of a standard that the comment or the section of a public definition names, with the names of
  these. Where neither names one, but the contract of a public function cites the definition, the clause of the module's first lines
  stands in brackets. What each says is its comment, which stands above it alone. Crates of laws are left out: they say what the
  definitions of other crates amount to.
- What stands above the heading "By crate" is written by people. Its items name definitions and the files that have them: one of
  an item's files declares each of its names, and each file one of them.
"""
import re

from tests.docs import refusals_check, tables

DOCUMENT, MARK, LAWS = "docs/DEFINITIONS.md", "## By crate\n", "laws_"
STANDARD = r"(?:TS \d+\.\d+|X\.691|RFC \d+|FIPS 197)"
DECLARED = re.compile(r"\b(?:pub|record|data) (?!record|data)(\w+)")
DEFINITION = re.compile(r"(?:(?:abbrev|unfoldable) pub|pub (?:record|data)) (\w+)")
CLAUSE = r"[A-Z]?\d*(?:\.\d+)*"


class Definition:
    """A public definition: where it stands, and what its comment, its section's heading and its module's first lines say."""

    def __init__(self, module, name, comment, section, opening):
        self.module, self.name = module, name
        self.comment, self.section, self.opening = comment, section, opening

    def own(self):
        return clauses(self.comment) or clauses(self.section)

    def place(self):
        """Its module and the clause, or nothing where no clause is named."""
        if self.own():
            return "`%s`, %s" % (self.module, self.own())
        return "`%s` (%s)" % (self.module, clauses(self.opening)) if clauses(self.opening) else ""


def in_one_form(cited):
    """A standard and its clauses, cited as 'TS 24.301, 6.7 and 7.4' or otherwise: in the form 'TS 24.301 clauses 6.7 and 7.4'."""
    found = re.fullmatch(r"(%s), (%s(?:(?:, | and )%s)*)" % (STANDARD, CLAUSE, CLAUSE), cited)
    if not found:
        return cited
    return "%s clause%s %s" % (found.group(1), "s" if re.search(", | and ", found.group(2)) else "", found.group(2))


def clauses(comment):
    """The clauses that a comment names in brackets or in a sentence."""
    in_words = r"\b%s clauses? %s(?:(?:, | and )%s)*" % (STANDARD, CLAUSE, CLAUSE)
    found = [cited for cited in re.findall(r"\(([^()]*)\)", comment) if re.match(STANDARD, cited)]
    found += [cited for cited in re.findall(in_words, comment) if cited not in "; ".join(found)]
    return "; ".join(map(in_one_form, found))


def opening_of(lines):
    """The first lines of a module: what it is about."""
    count = next((at for at, line in enumerate(lines) if not line.startswith("--")), 0)
    return " ".join(line[2:].strip() for line in lines[:count])


def comment_above(lines, at):
    """The comment that stands right above a line."""
    first = at
    while first and lines[first - 1].startswith("--") and not lines[first - 1].startswith("-- ----"):
        first -= 1
    return " ".join(line[2:].strip() for line in lines[first:at])


def definitions_of(crate):
    """The public definitions of a crate, in the order of its modules."""
    for path in sorted((tables.TOP / "crates" / crate / "specs").glob("*.antt")):
        lines, section = path.read_text(encoding="utf-8").split("\n"), ""
        for at, line in enumerate(lines):
            if line.startswith("-- ----"):
                section = line.strip("- ")
            found = DEFINITION.match(line)
            if found:
                yield Definition(path.stem, found.group(1), comment_above(lines, at), section, opening_of(lines))


def imports_of(text):
    """What a file of code imports of definitions: of each name its crate and its module."""
    return {name: (crate, module) for crate, module, names in
            re.findall(r"ghost use Rattle\.(\w+)\.specs\.([\w.]+)\.\{([^}]*)\}", text) for name in re.findall(r"\w+", names)}


def cited():
    """The definitions that contracts of public functions cite: crate, module and name."""
    found = set()
    for crate in refusals_check.listed():
        texts = refusals_check.sources(crate)
        handed, modules = refusals_check.exported(refusals_check.root_of(texts))
        for path, text in texts.items():
            imports = imports_of(text)
            for owner, name, function in refusals_check.functions_of(text, {}):
                if path.stem in modules or (owner or name) in handed:
                    words = set(re.findall(r"\w+", function.contract)) & imports.keys()
                    found |= {(*imports[word], word) for word in words}
    return found


def lines_of(crate, wanted):
    """The lines of a crate: the names of each module and clause, in the order of their first ones."""
    named = {}
    for one in definitions_of(crate):
        if one.place() and (one.own() or (crate, one.module, one.name) in wanted):
            named.setdefault(one.place(), []).append(one.name)
    return ["- %s: %s" % (place, ", ".join("`%s`" % name for name in names)) for place, names in named.items()]


def written():
    """The document as it should be."""
    wanted, text = cited(), tables.text(DOCUMENT)
    parts = [text[:text.index(MARK)] + MARK]
    for crate in refusals_check.listed():
        lines = [] if crate.startswith(LAWS) else lines_of(crate, wanted)
        if lines:
            parts.append("\n### `%s`\n\n%s\n" % (crate, "\n".join(lines)))
    return "".join(parts)


def write():
    """Writes the document anew."""
    (tables.TOP / DOCUMENT).write_text(written(), encoding="utf-8")


def declared_in(place):
    """What a file of crates/ declares; nothing, if it isn't there."""
    path = tables.TOP / "crates" / place
    return set(DECLARED.findall(path.read_text(encoding="utf-8"))) if path.is_file() else set()


def misplaced(text):
    """The names of items above the lists that no file of their item defines, and the files that define none of them."""
    for line in text[:text.index(MARK)].split("\n"):
        spans = re.findall(r"`([^`]+)`", line) if line.startswith("- ") else []
        names = {span for span in spans if "/" not in span}
        defined = {span: declared_in(span) for span in spans if "/" in span}
        yield from ("no file beside %s defines it" % name for name in sorted(names.difference(*defined.values())))
        yield from ("%s defines none of the names beside it" % place for place in defined if not names & defined[place])


def checked(_words=()):
    """How many lines are as they should be, and how many not; prints each that isn't."""
    there, owed = tables.text(DOCUMENT).split("\n"), written().split("\n")
    faults = ["%s has: %s" % (DOCUMENT, line) for line in there if line not in set(owed)]
    faults += ["%s lacks: %s" % (DOCUMENT, line) for line in owed if line not in set(there)]
    if not faults and there != owed:
        faults = ["%s has its lines in another order" % DOCUMENT]
    faults = ["%s ('tests/docs/write definitions' writes it)" % fault for fault in faults]
    faults += ["%s: %s" % (DOCUMENT, fault) for fault in misplaced(tables.text(DOCUMENT))]
    for fault in faults:
        print("FAILED " + fault)
    return sum(line.startswith("- ") for line in owed) if not faults else 0, len(faults)
