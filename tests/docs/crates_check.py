"""Writes and compares what crates/README.md has of crates.txt.

- Each crate of crates.txt has one row, under headings that tell its family, which says what it does. "Stands on" is that of
  crates.txt: what its line lists, without what another of these stands on, libraries of the toolchain among it.
- The picture of the layers is at most 100 columns wide. It has each crate once, and none stands on one above it.
- docs/ARCHITECTURE.md has neither rows of crates nor a picture of its own: each fact once.
- No crate has more than 1,500 lines of source or 100 functions, tests left out.
- The ways down through crates.txt, from each crate to each of those below, are at most 1,000,000: the toolchain goes each of them,
  several times, before the first proof (docs/GATE.md). A crate that passes on what it stands on saves others a line to it.
"""
import re

from tests.docs import tables

PAGE, MAP = "crates/README.md", "docs/ARCHITECTURE.md"
CELLS = 3  # of a row: crate, what it does, what it stands on
WIDTH = 100
LINES, FUNCTIONS = 1500, 100
WAYS = 1_000_000
PICTURE = r"^```\n(\+-.*?)^```$"
FUNCTION = re.compile(r"^\s*(?:pub(?:\(\w+\))? )?(?:const )?(?:unsafe )?fn \w+", re.M)


def listed():
    """What crates.txt lists for each crate, in its order; a word after a crate's name says that it is a static library."""
    lines = [line.split("#")[0].strip() for line in tables.text("crates.txt").split("\n")]
    return {head.split()[0]: rest.split() for head, _, rest in (line.partition(":") for line in lines if line)}


def below(uses):
    """All that each crate stands on, through others too."""
    found = {}

    def of(crate):
        if crate not in found:
            found[crate] = set(uses.get(crate, ())).union(*(of(one) for one in uses.get(crate, ())))
        return found[crate]

    for crate in uses:
        of(crate)
    return found


def ways(uses):
    """How many ways lead down from the crates, each of them and each to itself counted."""
    found = {}

    def of(crate):
        if crate not in found:
            found[crate] = 1 + sum(of(one) for one in uses[crate] if one in uses)
        return found[crate]

    return sum(map(of, uses))


def stands_on(uses):
    """What each crate lists, without what another of these stands on."""
    under = below(uses)
    return {crate: [one for one in names if not any(one in under.get(other, ()) for other in names)]
            for crate, names in uses.items()}


def cells(names):
    return ", ".join("`%s`" % name for name in names)


def rows_of(text):
    """The rows of a text that begin with a name: each with its number of line, name and cells."""
    for number, line in enumerate(text.split("\n")):
        if re.match(r"\| `\w+` \|", line):
            row = [cell.strip() for cell in line.strip().strip("|").split("|")]
            yield number, row[0].strip("`"), row


def family_part(text):
    """Where the rows of crates begin in crates/README.md: the tables before name places."""
    return text.index("## By family")


def written():
    """crates/README.md as it should be."""
    uses = listed()
    nearest, text = stands_on(uses), tables.text(PAGE)
    head, tail = text[:family_part(text)], text[family_part(text):]
    lines = tail.split("\n")
    for number, crate, row in rows_of(tail):
        if crate in uses and len(row) == CELLS:
            lines[number] = "| `%s` | %s | %s |" % (crate, row[1], cells(nearest[crate]) or "-")
    return head + "\n".join(lines)


def write():
    """Writes the page."""
    (tables.TOP / PAGE).write_text(written(), encoding="utf-8")


def picture(text):
    """The first picture of layers in a text."""
    return re.search(PICTURE, text, re.S | re.M).group(1)


def picture_faults(text, uses):
    """What is wrong with the picture: its width, crates that it lacks or has twice, and those that stand on one above."""
    lines = picture(text).split("\n")
    yield from ("the picture is %d columns wide" % len(line) for line in lines if len(line) > WIDTH)
    line_of, beside = {}, False
    for number, line in enumerate(lines):
        beside = beside or line.strip().startswith("beside:")
        for crate in re.findall(r"\w+", line):
            if crate in uses and crate not in line_of:
                line_of[crate] = None if beside else number
            elif crate in uses:
                yield "the picture has %s twice" % crate
    yield from ("the picture lacks %s" % crate for crate in uses if crate not in line_of)
    for crate, names in uses.items():
        at = line_of.get(crate)
        for one in names if at is not None else ():
            if line_of.get(one) is not None and line_of[one] < at:
                yield "%s stands on %s, which the picture has above it" % (crate, one)


def size(crate):
    """How many lines and functions the sources of a crate have, without its tests."""
    texts = [file.read_text(encoding="utf-8") for file in sorted((tables.TOP / "crates" / crate / "src").rglob("*.rt"))]
    texts = [text for text in texts if "#[test]" not in text]
    return sum(text.count("\n") for text in texts), sum(len(FUNCTION.findall(text)) for text in texts)


def size_faults(uses):
    """Which crates are too large."""
    for crate in uses:
        lines, functions = size(crate)
        if lines > LINES or functions > FUNCTIONS:
            yield "%s has %d lines and %d functions: at most %d and %d" % (crate, lines, functions, LINES, FUNCTIONS)


def row_faults(text, uses):
    """Crates without a row or with several, rows of no crate or of other cells, and those that don't say what the crate does."""
    rows = [(crate, row) for _, crate, row in rows_of(text[family_part(text):])]
    there = [crate for crate, _ in rows]
    yield from ("%s has %d rows" % (crate, there.count(crate)) for crate in uses if there.count(crate) != 1)
    yield from ("%s is no crate" % crate for crate in there if crate not in uses)
    for crate, row in rows:
        if len(row) != CELLS:
            yield "%s has a row of %d cells" % (crate, len(row))
        elif row[1] in ("", "-"):
            yield "%s doesn't say what it does" % crate


def twice_told(uses):
    """What docs/ARCHITECTURE.md has again of the page: the picture, and rows of crates."""
    text = tables.text(MAP)
    if re.search(PICTURE, text, re.S | re.M):
        yield "has a picture of layers, which %s has" % PAGE
    yield from ("has a row of %s, which %s has" % (crate, PAGE) for _, crate, _ in rows_of(text) if crate in uses)


def checked(_words=()):
    """How many crates stand as they should, and what is wrong; prints that."""
    uses, text = listed(), tables.text(PAGE)
    wrong = list(row_faults(text, uses))
    faults = ["%s: %s" % (PAGE, fault) for fault in [*wrong, *picture_faults(text, uses)]]
    faults += ["%s: %s" % (MAP, fault) for fault in twice_told(uses)]
    for has, owed in zip(text.split("\n"), written().split("\n")):
        if has != owed:
            faults.append("%s: should be %s ('tests/docs/write crates' writes it)" % (PAGE, owed))
    faults += size_faults(uses)
    if ways(uses) > WAYS:
        faults.append("%d ways lead through crates.txt: at most %d" % (ways(uses), WAYS))
    for fault in faults:
        print("FAILED " + fault)
    return len(uses) - len({fault.split(" ")[0] for fault in wrong} & uses.keys()), len(faults)
