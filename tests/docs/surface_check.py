"""Compares the public surface that surface.txt lists with the code: what a caller of the front crates may rely on.

A name is there if the crate declares it or passes it on by `pub use`, from whatever crate below. A method is there if a public
`impl` of the type has it, or a trait, with these types of its parameters and this result. Of the list itself: what takes the
allocator takes it first and may answer lack of memory, and no method takes it whose type keeps it; each form that is a decision has
its call in docs/DECISIONS.md; and each type of the elements of S1AP is listed. And of all crates: no public type has another's name,
but for those of `SHARED`.
"""
import functools
import re

from tests.docs import signatures, tables

CRATES = tables.TOP / "crates"
LIST = "tests/docs/surface.txt"
DECISIONS, FORMS = "docs/DECISIONS.md", "Forms of calls"
ELEMENTS = "s1ap_elements"  # the crate whose every type is an element
ELEMENT = "Element"  # the trait of elements
GENERIC = "per_bits"  # the crate of the trait and of the types that elements are aliases of
DECIDED = "* "
# The names that two crates declare as public types, and what each means in either.
SHARED = {
    "Answer": "a message of a step of one machine; a line of answers",
    "Element": "what has a format in packed encoding; an optional element of NAS (TS 24.007 clause 11.2.1)",
    "Listed": "an item of a RESET by its ids; a list's item with its id and criticality (TS 36.413 clause 9.3.7)",
    "Optional": "the optional part of a NAS message (TS 24.007 clause 11.2); a row of an S1AP message that may be absent",
    "Plmn": "a network in its NAS form (TS 24.301 clause 9.9.3.12); in its S1AP form (TS 36.413 clause 9.2.3.8)",
    "SecurityContext": "that of NAS (TS 24.301 clause 4.4.2); the Security Context of PATH SWITCH (TS 36.413 clause 9.2.1.26)",
    "TaiList": "that of NAS (TS 24.301 clause 9.9.3.33); that of PAGING (TS 36.413 clause 9.1.6)",
}
CALL = re.compile(r"([\w:]+)(?:<.*?>)?\((.*?)\)(?: -> (.*))?")


@functools.cache
def declared(crate):
    """What a crate's code declares."""
    return signatures.Declared([file.read_text(encoding="utf-8") for file in sorted((CRATES / crate / "src").rglob("*.rt"))])


@functools.cache
def passed_on(crate):
    """What a crate's root passes on: each name with the crate that it comes from, which may be itself."""
    root = (CRATES / crate / "src" / "lib.rt").read_text(encoding="utf-8")
    found = dict.fromkeys(re.findall(r"^pub (?:const )?(?:fn|struct|enum|trait|type) (\w+)", root, re.M), crate)
    own = set(re.findall(r"^(?:pub )?mod (\w+);", root, re.M))
    for path, names in re.findall(r"^pub use ([\w:]+)::(\{[^}]*\}|\w+);", root, re.M):
        below = path.split("::")[0]
        for name in re.findall(r"\w+", names):
            found[name] = crate if below in own else below
    return found


def home_of(crate, name):
    """The crate that declares what another one hands out under a name, or None."""
    while True:
        below = passed_on(crate).get(name)
        if below is None:
            return None
        if below == crate:
            code = declared(crate)
            return crate if name in code.lines or name in code.kinds or name in code.aliases else None
        crate = below


def meant(crate, name):
    """The type that a name stands for, through the aliases of its crate, and the types within that alias."""
    meaning = declared(crate).aliases.get(name)
    if meaning is None:
        return name, []
    first, *within = re.findall(r"\b[A-Z]\w*[a-z]\w*", meaning)
    return first, within


def lines_of(crate, name):
    """The lines of the code of what a crate hands out under a name, in that name."""
    home = home_of(crate, name)
    if home is None:
        return set()
    kind = meant(home, name)[0]
    found = set()
    for below in {home, home_of(home, kind) or home, crate, GENERIC}:
        found |= declared(below).lines.get(kind, set())
    return {re.sub(rf"\b{kind}\b", name, line) for line in found}


def is_element(crate, name):
    """Whether a type that a crate hands out has the reading and writing of an element, and so has each type within its alias."""
    home = home_of(crate, name)
    if home is None:
        return False
    kind, within = meant(home, name)
    return (any(ELEMENT in declared(place).traits.get(kind, ()) for place in (home, ELEMENTS, GENERIC))
            and all(is_element(ELEMENTS, part) or is_element(GENERIC, part) for part in within))


def listed():
    """The crates of the list, each with its lines, and the lines that are decisions."""
    found, crate = {}, None
    for line in tables.text(LIST).split("\n"):
        if line.startswith("#") or not line.strip():
            continue
        if not line.startswith(" "):
            crate = line
            found[crate] = []
            continue
        if line.startswith(2 * signatures.MARGIN):
            found[crate][-1] += " " + line.strip()
        else:
            found[crate].append(line.strip())
    decided = [line[len(DECIDED):] for lines in found.values() for line in lines if line.startswith(DECIDED)]
    return {crate: [line.removeprefix(DECIDED) for line in lines] for crate, lines in found.items()}, decided


def name_of(line):
    """The name that a line of the list is of."""
    return re.match(r"(?:(?:enum|struct|type|element) )?(\w+)", line)[1]


def front_of(line):
    """A line up to its parameters, variants or fields."""
    return re.split(r"[(<{]", line)[0]


def fault_of(crate, line):
    """What the code has in place of a line of the list, or None."""
    name = name_of(line)
    if line.startswith("element "):
        return None if is_element(crate, name) else "isn't an element there"
    if home_of(crate, name) is None:
        return "isn't there"
    if line.startswith("type "):
        return None
    found = lines_of(crate, name)
    if line in found:
        return None
    others = sorted(other for other in found if front_of(other) == front_of(line))
    return "is in the code `%s`, and in the list `%s`" % ("`, `".join(others), line) if others else "isn't there: `%s`" % line


def of_memory(lines):
    """What is wrong with how the list's calls take the allocator."""
    with_memory = {name_of(line) for line in lines if line.startswith("enum ") and "NoMemory" in line} | {"AllocError"}
    keepers = {name_of(line) for line in lines if "::new(Global" in line}
    for line in lines:
        call = CALL.fullmatch(line)
        taken = signatures.parts(call[2]) if call else []
        if "Global" not in taken:
            continue
        if taken.index("Global") != (taken[0].endswith("self")):
            yield "%s takes the allocator, but not first" % call[1]
        if taken[0].endswith("self") and name_of(line) in keepers:
            yield "%s takes the allocator, which its type keeps" % call[1]
        result = call[3] or ""
        is_maker = call[1].endswith("::new") and result == name_of(line)
        if not is_maker and not (result.startswith("Result<") and re.search(r"(\w+)>$", result)[1] in with_memory):
            yield "%s takes the allocator, and can't answer lack of memory" % call[1]


def without_reason(decided):
    """The decisions whose call docs/DECISIONS.md doesn't name."""
    reasons = re.search(r"^## %s$(.*?)(?=^## |\Z)" % FORMS, tables.text(DECISIONS), re.M | re.S)
    for line in decided:
        call = CALL.fullmatch(line)[1]
        if not reasons or "`%s`" % call not in reasons[1]:
            yield "%s is a decision, and %s doesn't name it under %r" % (call, DECISIONS, FORMS)


def unlisted(lines):
    """The types of the elements of S1AP that the list hasn't."""
    root = passed_on(ELEMENTS)
    known = {name_of(line) for line in lines}
    return sorted(name for name, below in root.items()
                  if below != GENERIC and re.search(r"^[A-Z]\w*[a-z]", name) and name not in known)


def shared():
    """What is wrong with the names of the public types of all crates: two declare one, or `SHARED` has one that they don't."""
    homes = {}
    for file in sorted(CRATES.glob("*/src/**/*.rt")):
        for name in re.findall(r"^pub (?:struct|enum|trait|type) (\w+)", file.read_text(encoding="utf-8"), re.M):
            homes.setdefault(name, set()).add(file.relative_to(CRATES).parts[0])
    twice = {name: sorted(crates) for name, crates in homes.items() if len(crates) > 1}
    yield from ("%s are two types of one name: %s" % (name, ", ".join(crates)) for name, crates in twice.items() if name not in SHARED)
    yield from ("%s is one type, and no longer a name that is shared" % name for name in SHARED if name not in twice)


def checked(_words=()):
    """How many crates have their surface, and how many haven't; each fault is printed. The list itself counts as one."""
    crates, decided = listed()
    told = [*shared(), *of_memory([line for lines in crates.values() for line in lines]), *without_reason(decided)]
    told += ["%s::%s isn't in the list" % (ELEMENTS, name) for name in unlisted(crates.get(ELEMENTS, []))]
    failed = bool(told)
    for crate, lines in crates.items():
        faults = ["there is no crate " + crate]
        if (CRATES / crate).is_dir():
            faults = ["%s::%s %s" % (crate, name_of(line), fault) for line in lines for fault in [fault_of(crate, line)] if fault]
        told += faults
        failed += bool(faults)
    for fault in told:
        print("FAILED surface: " + fault)
    return len(crates) + 1 - failed, failed
