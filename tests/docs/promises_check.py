"""Writes the lists of docs/PROMISES.md from the comments of the code, and compares them.

- A law is a public function of a crate of laws, or of any other crate's module `laws`. What it says is its comment, without the
  clauses of standards in brackets, which stand in the code alone. Below the paragraph that begins with the path of a module of
  laws, and says what people write of them all, stands the list of them, in the order of the code.
- Below a paragraph that begins with the names of crates stand their calls. People choose which: an item that begins with one name
  and a colon says what the first paragraph of its comment says. The name is that of a function, a type, a trait or a
  `Type::method`, or of one of these crates itself, whose comment stands in its lib.rt. In brackets after it may stand other calls
  of which that comment speaks. Any other item, and the rest of the page, is written by people.
"""
import re

from tests.docs import tables
from tests.docs.definitions_check import STANDARD
from tests.docs.refusals_check import owned

DOCUMENT = "docs/PROMISES.md"
LAWS = re.compile(r"crates/(?:laws_\w+/src/.*|\w+/src/laws(?:/.*)?)\.rt")
LAW = re.compile(r"((?:^///.*\n)*)(?:^#\[.*\n)*^pub fn (\w+)", re.M)
CITED = re.compile(r" ?\(%s[^()]*\)" % STANDARD)
LINK = re.compile(r"\[(`[^`]+`)\](?:\([\w:]+\))?")
PATH = re.compile(r"`(\w+(?:::\w+)+)`")
CRATES = re.compile(r"`\w+`(?:, `\w+`)*")
ITEM = "- "
CALL = re.compile(r"- `([\w:]+)`(?: \(((?:`[\w:]+`(?:, )?)+)\))?: ?(.*)$")
NAMED = re.compile(r"( *)(pub(?:\(crate\))? )?(?:const |unsafe )*(?:fn|struct|enum|trait|type) (\w+)")


def said(comment):
    """What a comment says, in one line."""
    return CITED.sub("", " ".join(line.strip()[3:].strip() for line in comment.splitlines()))


def module_of(path):
    """The path of the module that a file of code is."""
    return "::".join(name for name in path.removesuffix(".rt").split("/")[1:] if name not in ("src", "lib", "mod"))


def laws_of_all():
    """The modules of laws: of each what its laws say, by their names."""
    found = {}
    for file in sorted((tables.TOP / "crates").glob("*/src/**/*.rt")):
        path = file.relative_to(tables.TOP).as_posix()
        if LAWS.fullmatch(path):
            laws = {name: said(comment) for comment, name in LAW.findall(file.read_text(encoding="utf-8"))}
            found |= {module_of(path): laws} if laws else {}
    return found


# ---- calls

def first_paragraph(comment):
    """What the first paragraph of a comment says, with links as names."""
    whole = said("\n".join(comment).partition("\n///\n")[0])
    return re.sub(r"\b(?:crate|self)::", "", LINK.sub(r"\1", whole))


def comment_above(lines, at):
    """The comment above a line, past attributes and remarks."""
    while at and re.match(r" *(?:#!?\[|//(?!/))", lines[at - 1]):
        at -= 1
    first = at
    while first and lines[first - 1].lstrip().startswith("///"):
        first -= 1
    return [line.strip() for line in lines[first:at]]


def calls_of_file(lines):
    """The functions, types and traits that others may name, each with its comment's first paragraph; methods under their type."""
    for at, line, owner, is_trait in owned(lines):
        found = NAMED.match(line)
        if found and owner is not None and (found[2] or found[1] and is_trait):
            holder = owner + "::" if owner and found[1] else ""
            yield holder + found[3], first_paragraph(comment_above(lines, at))


def calls_of(crate):
    """What a crate has by name, each with what its comment says, and the crate itself with what its lib.rt says."""
    found = {}
    for file in sorted((tables.TOP / "crates" / crate / "src").rglob("*.rt")):
        lines = file.read_text(encoding="utf-8").split("\n")
        found |= dict(calls_of_file(lines))
        if file.stem == "lib":
            found[crate] = first_paragraph(["///" + line[3:] for line in lines if line.startswith("//!")])
    return found


def crates_in(block):
    """The crates whose names a paragraph begins with."""
    found = CRATES.match(block)
    names = re.findall(r"\w+", found[0]) if found else []
    return names if all((tables.TOP / "crates" / name).is_dir() for name in names) else []


def calls_in(block):
    """What the crates have that a paragraph begins with."""
    return {name: words for crate in crates_in(block) for name, words in calls_of(crate).items()}


def called(item, calls):
    """An item as it should be: one that people wrote stays."""
    found = CALL.match(item)
    if not found or not calls.get(found[1]):
        return item
    beside = " (%s)" % found[2] if found[2] else ""
    return "%s`%s`%s: %s" % (ITEM, found[1], beside, calls[found[1]])


def names_of_several(block):
    """The names that several of the crates have that a paragraph begins with."""
    found = [name for crate in crates_in(block) for name in calls_of(crate)]
    return {name for name in found if found.count(name) > 1}


def call_faults(block, calls, several):
    """What a list of calls names that has no comment, isn't there, or is there in several crates."""
    for found in filter(None, map(CALL.match, block.split("\n"))):
        name, beside = found[1], re.findall(r"[\w:]+", found[2] or "")
        if name in several:
            yield "%s has an item of %s, which several crates have" % (DOCUMENT, name)
        if not calls.get(name):
            yield "%s has an item of %s, which %s" % (DOCUMENT, name, "has no comment" if name in calls else "isn't there")
        yield from ("%s has %s beside %s, and it isn't there" % (DOCUMENT, one, name) for one in beside
                    if one not in calls and "%s::%s" % (name, one) not in calls)


# ---- the page

def blocks_of(text):
    """The paragraphs and lists of a page."""
    return text.rstrip("\n").split("\n\n")


def module_in(block):
    """The path that a paragraph begins with, or nothing."""
    found = PATH.match(block)
    return found[1] if found else ""


def listed(laws):
    """The list of a module's laws."""
    return "\n".join(("%s`%s`: %s" % (ITEM, name, words)).rstrip() for name, words in laws.items())


def lists_of_calls(blocks):
    """Each paragraph that begins with crates, and the list below it."""
    for before, block in zip(blocks, blocks[1:]):
        if block.startswith(ITEM) and crates_in(before):
            yield before, block


def written(laws):
    """The page as it should be."""
    blocks, module, calls = [], "", {}
    for block in blocks_of(tables.text(DOCUMENT)):
        if module not in laws or not block.startswith(ITEM):
            blocks.append("\n".join(called(item, calls) for item in block.split("\n")) if calls else block)
        module = module_in(block)
        calls = calls_in(block)
        if module in laws:
            blocks.append(listed(laws[module]))
    return "\n\n".join(blocks) + "\n"


def write():
    """Writes the lists of the page anew."""
    (tables.TOP / DOCUMENT).write_text(written(laws_of_all()), encoding="utf-8")


def unwritten(laws):
    """What no list can make up for: modules and paragraphs without one another, silent laws, and calls that aren't there."""
    blocks = blocks_of(tables.text(DOCUMENT))
    paths = [path for path in map(module_in, blocks) if path]
    yield from ("%s has %d paragraphs of %s, a module of laws" % (DOCUMENT, paths.count(module), module)
                for module in laws if paths.count(module) != 1)
    yield from ("%s has a paragraph of %s, which has no laws" % (DOCUMENT, path) for path in paths if path not in laws)
    yield from ("%s::%s is a law without a comment" % (module, name)
                for module, words in laws.items() for name in words if not words[name])
    for before, block in lists_of_calls(blocks):
        yield from call_faults(block, calls_in(before), names_of_several(before))


def list_faults(laws):
    """How the page differs from what it should be."""
    there, owed = tables.text(DOCUMENT).split("\n"), written(laws).split("\n")
    told = ["%s has: %s" % (DOCUMENT, line) for line in there if line not in set(owed)]
    told += ["%s lacks: %s" % (DOCUMENT, line) for line in owed if line not in set(there)]
    if not told and there != owed:
        told = ["%s has its lines in another order" % DOCUMENT]
    return ["%s ('tests/docs/write promises' writes it)" % fault for fault in told]


def count_of_calls():
    """How many items of calls are written from comments."""
    blocks = blocks_of(tables.text(DOCUMENT))
    return sum(bool(CALL.match(item)) for _, block in lists_of_calls(blocks) for item in block.split("\n"))


def checked(_words=()):
    """How many laws and calls stand as they should, and what is wrong; prints that."""
    laws = laws_of_all()
    faults = [*unwritten(laws), *list_faults(laws)]
    for fault in faults:
        print("FAILED " + fault)
    return 0 if faults else sum(map(len, laws.values())) + count_of_calls(), len(faults)
