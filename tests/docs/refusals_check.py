"""Writes the lists of docs/REFUSALS.md from the code, and compares them.

- Numbers: the error of each public call, its variants in their order, with the code's numbers where it has them; those rise.
- Calls: each public function that answers a `Result`, and each that answers an `Option`, but for those among the answers that are
  no refusals, in lists: `- CALLS: REFUSALS; memory WHEN; when CLAUSES; stays CLAUSES`. The clauses after "when" are those that
  speak of the answer, those after "stays" say what a refused call leaves; what most calls would have there is left out (never,
  the one, no object). Calls whose error is lack of memory by its type have a list of their own.
- What people wrote stays: which refusals and in which order, of each call, and whether lack of memory comes last or anywhere, where
  the error doesn't decide it. Of a call that isn't there yet the script writes its error's variants in their order, and anywhere.
- Each variant that people wrote is one of the error that the calls answer, or of what that holds.
- A call under "What isn't said" is marked; each whose object may change and of which no clause says what stays is there, and a
  clause that this table quotes is of one of the row's calls.
"""
import collections
import re

from tests.docs import tables

DOCUMENT = "docs/REFUSALS.md"
NUMBERS, CALLS, ALONE, ANSWERS, UNSAID = (
    "Numbers", "Calls", "Lack of memory alone", "Answers that are no refusals", "What isn't said")
MARK = "†"  # of a call that stands under "What isn't said"

MEMORY = ("never", "alone", "last", "anywhere")
NEVER, THE_ONE, NO_OBJECT, EXCEPTED = "never", "the one", "no object", "excepted"
BY_TYPE = "-", "alone", "by its type"  # refusals, memory and when of the calls under ALONE

# The forms of clauses that say what a refused call leaves: of an error, of every answer, or of `None`.
STAYING = (r"(?:OnErr|IfErr) result.*\.new", r"\w+\.new[.\w]* ≡ .*\.old(?!.*\bresult$)", r"\w+\.old[.\w]* ≤ \w+\.new[.\w]*$",
           r"IfOk result \(λ \w+\. IsNone .*\.new ≡ \w+\.old")
# The clauses that say it in no such form: by a relation, or by the answer.
SAID_OTHERWISE = {
    "Station::act": ["err", "station"], "play_script_line": ["printed", "err"],
    "Watched::read": ["bytes", "failed", "ended", "calls"], "Watched::write": ["bytes", "failed", "ended", "calls"],
    "Watched::flush": ["bytes", "failed", "ended", "calls"], "play_mme": ["printed"], "play_sub": ["printed"], "play_vec": ["printed"],
    "print_show": ["unknown", "err"], "play_show": ["unknown", "err", "stops"], "play_lines": ["played"], "PlaysLines::play_line": ["played"],
    **{"Session::" + call: ["the one"]
       for call in ("play", "play_text", "begin", "add", "give", "start", "add_live", "give_live", "up", "down", "hear", "data_waits",
                    "cancel", "tick")},
    "Owners::give": ["takes", "rest"], "Subscribers::give": ["takes", "clock"], "add_once": ["the one"], "give_once": ["the one"],
}
# Objects that aren't used further by intent, by the name of the call; readers and writers of bits, and a step under way that a call
# of another crate works on, are told by their type.
UNUSED = re.compile(r"put_\w+|run_play|run_sim|write_whole")

Function = collections.namedtuple("Function", "result clauses unnamed contract")
Row = collections.namedtuple("Row", "crate calls refusals memory when stays is_marked")


# ---- the code

def without_generics(text):
    """What follows `<..>` at the front of a text."""
    depth = 0
    for at, sign in enumerate(text):
        depth += (sign == "<") - (sign == ">")
        if depth == 0:
            return text[at + 1:] if sign == ">" else text
    return text


def owner_of(line):
    """The type of an impl, or the trait: None for an impl of a trait, whose contract the trait has."""
    head = re.match(r"(?:pub )?(trait|impl)\b(.*)", line)
    rest = without_generics(head.group(2).strip()).strip()
    if head.group(1) == "impl" and re.search(r"\bfor\b", rest):
        return None
    return re.match(r"\w+", rest).group(0)


def answer_of(signature, names):
    """What a function answers, a name for a Result or an Option written out."""
    found = re.search(r"\) *-> *(.*?)(?: requires | ensures | where |\{|$)", signature)
    result = found.group(1).rstrip(" ;") if found else ""
    return re.sub(r"^io::Result<(.*)>$", r"Result<\1, Error>", names.get(re.match(r"\w*", result).group(0), result))


def signature_of(lines, indent, is_trait):
    """The lines of a function up to its body: a contract ends at a brace alone, in a trait at a semicolon."""
    for count, line in enumerate(lines, 1):
        has_contract = re.search(r"\b(?:requires|ensures)\b", "\n".join(lines[:count]))
        if line in (indent + "{", indent + "{}") or not has_contract and line.endswith(("{", "}", ";")) \
                or is_trait and line.endswith(";"):
            return "\n".join(lines[:count])
    return "\n".join(lines)


def owned(lines):
    """Each line of a file with its place, the type or trait whose block it stands in, and whether that is a trait."""
    owner, is_trait = "", False
    for at, line in enumerate(lines):
        if re.match(r"(pub )?(impl|trait)\b", line):
            head = " ".join(map(str.strip, lines[at:at + 9])).split("{")[0]
            owner, is_trait = owner_of(head), "trait " in head
        elif line.startswith("}"):
            owner, is_trait = "", False
        yield at, line, owner, is_trait


def functions_of(text, names):
    """The public functions of a file, each with its owner, and those of its traits."""
    lines = text.split("\n")
    for at, line, owner, is_trait in owned(lines):
        found = re.match(r"( *)(pub )?(?:const )?fn (\w+)", line)
        if found and owner is not None and (found.group(2) or is_trait):
            contract = " ".join(signature_of(lines[at:at + 60], found.group(1), is_trait).split())
            clauses = set(re.findall(r"\bensures (\w+) \{", contract))
            yield owner, found.group(3), Function(answer_of(contract, names), clauses, contract.count(" ensures {"), contract)


def exported(root):
    """The names that the root of a crate hands out, and its modules that are public as they are."""
    names = set()
    for group, one in re.findall(r"^pub use [\w:]+::(?:\{([^}]*)\}|(\w+));", root, re.M):
        names.update(re.findall(r"\w+", group or one))
    return names, set(re.findall(r"^pub mod (\w+);", root, re.M)) | {"lib"}


def listed():
    """The crates of crates.txt, from the lowest."""
    return [line.split(":")[0].strip() for line in tables.text("crates.txt").split("\n") if ":" in line and line[0] != "#"]


def sources(crate):
    """The files of a crate's code with their texts."""
    return {path: path.read_text(encoding="utf-8") for path in sorted((tables.TOP / "crates" / crate / "src").glob("*.rt"))}


def root_of(texts):
    """The text of a crate's root."""
    return next((text for path, text in texts.items() if path.stem == "lib"), "")


class Code:
    """Of each crate its public functions, and of all crates the variants of each enum."""

    def __init__(self):
        files = {crate: sources(crate) for crate in listed()}
        whole = "\n".join(text for texts in files.values() for text in texts.values())
        names = dict(re.findall(r"^pub(?:\(crate\))? type (\w+)(?:<[^=]*>)? = ((?:Result|Option)<.*>);", whole, re.M))
        self.variants = {enum: re.findall(r"^    (\w+)(?:\(([^)]*)\))?(?: = (\d+))?,", body, re.M)
                         for enum, body in re.findall(r"^pub enum (\w+)[^{]*\{\n(.*?)^\}", whole, re.S | re.M)}
        # (an error of one kind is a struct without fields)
        self.variants.update((name, [(name, "", "")]) for name in re.findall(r"^pub struct (\w+);", whole, re.M))
        self.home = {enum: crate for crate, texts in files.items()
                     for text in texts.values() for enum in re.findall(r"^pub enum (\w+)", text, re.M)}
        self.public = {crate: self.public_of(texts, names) for crate, texts in files.items()}

    @staticmethod
    def public_of(texts, names):
        handed, modules = exported(root_of(texts))
        return {(owner + "::" if owner else "") + name: function for path, text in texts.items()
                for owner, name, function in functions_of(text, names)
                if path.stem in modules or (owner or name) in handed}

    def refusing(self, crate, kinds):
        """The public calls of a crate that answer one of these."""
        return {call for call, function in self.public[crate].items() if function.result.startswith(kinds)}

    def words_of(self, error):
        """The variants of an error, and those of what it holds."""
        for name, held, _ in self.variants.get(error, []):
            yield name
            for kind in re.findall(r"\w+", held):
                yield from (inner[0] for inner in self.variants.get(kind, []))


# ---- what a contract says

def clauses_of(function):
    """The clauses of a contract by their names, in order; one without a name is "the one"."""
    found, contract = {}, function.contract
    for head in re.finditer(r"\bensures (?:(\w+) )?\{", contract):
        at, depth = head.end(), 1
        while depth:
            depth += (contract[at] == "{") - (contract[at] == "}")
            at += 1
        found[head.group(1) or "the one"] = contract[head.end():at - 1].strip()
    return found


def error_of(result):
    """The error that a Result holds: what stands after its last comma."""
    return result[:-1].split(",")[-1].strip().split("::")[-1] if result.startswith("Result<") else ""


def says_what_stays(clause):
    return any(re.match(form, clause) for form in STAYING)


def when_of(function, is_answer):
    """The clauses that say when refusals come: those that speak of the answer, whatever it is. With `is_answer` a refusal is
    `None` or `false`."""
    if error_of(function.result) == "AllocError" and not is_answer:
        return ["by its type"]
    speak = {name: clause for name, clause in clauses_of(function).items()
             if re.search(r"\bresult\b", clause) and not clause.startswith("OnOk") and not says_what_stays(clause)}
    whatever = [name for name, clause in speak.items() if is_answer or not clause.startswith("IfOk result")]
    return whatever or list(speak) or ["not said"]


def stays_of(call, function):
    """What says that the object of a refused call is as it was."""
    names = SAID_OTHERWISE.get(call) or [name for name, clause in clauses_of(function).items()
                                         if says_what_stays(clause)]
    if names:
        return names
    if "&mut " not in function.contract:
        return ["no object"]
    is_coding = re.search(r"&mut Bit(?:Reader|Writer)\b", function.contract) or re.match(r"Bit(?:Reader|Writer)::", call)
    is_step = re.search(r"\bdraft: &mut Draft\b", function.contract)
    return [EXCEPTED] if is_coding or is_step or UNUSED.fullmatch(call) else ["not said"]


def memory_of(function, is_answer, said):
    """How lack of memory comes: by the error, or as people said."""
    error = error_of(function.result)
    if error == "AllocError":
        return "anywhere" if is_answer else "alone"
    if said == "alone":
        return "alone" if "memory" in clauses_of(function) else "anywhere"
    return said if error else "never"


# ---- the document

def named(cell):
    return re.findall(r"`([^`]+)`", cell)


def sections():
    """The text under each heading."""
    parts = re.split(r"^## (.*)$", tables.text(DOCUMENT), flags=re.M)
    return {heading.replace("`", ""): body for heading, body in zip(parts[1::2], parts[2::2])}


def table_of(body):
    """The cells of the rows of a section's table, its head left out, with their backticks."""
    rows = [line for line in body.split("\n") if line.startswith("|")]
    return [[cell.strip() for cell in line.strip("|").split("|")] for line in rows[2:]]


ITEM = re.compile(r"- ((?:`[^`]+`(?:, )?)+)(?: %s)?(?:: (.*))?$" % MARK)
SAID = re.compile(r"(.*?)(?:; memory (\w+))?(?:; when .*?)?(?:; stays .*|; excepted)?$")


def items_of(body):
    """The items of a section's lists: the crate, the calls, and what is said of them."""
    crate = None
    for line in body.split("\n"):
        found = ITEM.match(line)
        if found:
            yield crate, named(found[1]), found[2] or ""
        elif line.startswith("**`"):
            crate = line.strip("*`")


class Document:
    """What people wrote: of each call its refusals and how memory comes, which calls are marked, and what is no refusal."""

    def __init__(self):
        found = sections()
        self.said = {(crate, call): (text, memory or NEVER)
                     for crate, calls, said in items_of(found.get(CALLS, "")) for text, memory in [SAID.match(said).groups()]
                     for call in calls}
        self.said.update(((crate, call), BY_TYPE[:2]) for crate, calls, _ in items_of(found.get(ALONE, "")) for call in calls)
        self.unsaid = table_of(found.get(UNSAID, ""))
        self.marked = {(cells[0].strip("`"), call) for cells in self.unsaid for call in named(cells[1])}
        self.others = collections.defaultdict(set)
        for crate, calls in re.findall(r"(?m)^- `(\w+)`: (.*)$", found.get(ANSWERS, "")):
            self.others[crate] |= set(named(calls))

    def is_answer(self, crate, call, function):
        """Whether a refusal of this call, lack of memory apart, is an answer: `None`, or `false` where people said so."""
        if re.match(r"(?:Result<)?Option<", function.result):
            return call not in self.others[crate]
        return function.result.startswith("Result<bool") or function.result == "bool" and (crate, call) in self.said


# ---- what is written

def cell_of(names):
    """Names of clauses, or one of the phrases that stand for them."""
    return ", ".join(name if " " in name or name == EXCEPTED else "`%s`" % name for name in names)


def refusals_of(code, function, is_answer):
    """The variants of an error in their order, lack of memory left out; or the answer that is a refusal."""
    if is_answer:
        return "`None`" if "Option<" in function.result else "`false`"
    names = [name for name, _, _ in code.variants.get(error_of(function.result), []) if name != "NoMemory"]
    return ", ".join("`%s`" % name for name in names) or "-"


def rows_of(code, document):
    """The rows of all calls that can be refused; calls of a crate that agree share one."""
    for crate in code.public:
        rows = {}
        for call, function in code.public[crate].items():
            is_answer = document.is_answer(crate, call, function)
            if not is_answer and not function.result.startswith("Result<"):
                continue
            refusals, memory = document.said.get((crate, call), (refusals_of(code, function, is_answer), "anywhere"))
            key = (refusals, memory_of(function, is_answer, memory), cell_of(when_of(function, is_answer)),
                   cell_of(stays_of(call, function)), (crate, call) in document.marked)
            rows.setdefault(key, []).append(call)
        for (refusals, memory, when, stays, is_marked), calls in rows.items():
            yield Row(crate, calls, refusals, memory, when, stays, is_marked)


def is_alone(row):
    return (row.refusals, row.memory, row.when) == BY_TYPE and not row.is_marked


def listed_by_crate(rows):
    """Rows with what is said of their calls, as lists."""
    last, lines = None, []
    for row, said in rows:
        if row.crate != last:
            lines += [""] * bool(lines) + ["**`%s`**" % row.crate, ""]
        calls = ", ".join("`%s`" % call for call in row.calls) + (" " + MARK if row.is_marked else "")
        lines.append("- %s: %s" % (calls, "; ".join(said)) if said else "- " + calls)
        last = row.crate
    return "\n".join(lines)


def stays_in(row):
    if row.stays == EXCEPTED:
        return [EXCEPTED]
    return [] if row.stays == NO_OBJECT else ["stays " + row.stays]


def said_in(row):
    """What is said of the calls of a row but for what most have."""
    memory = [] if row.memory == NEVER else ["memory " + row.memory]
    when = [] if row.when == THE_ONE else ["when " + row.when]
    return [row.refusals, *memory, *when, *stays_in(row)]


def calls_list(code, document):
    return listed_by_crate((row, said_in(row)) for row in rows_of(code, document) if not is_alone(row))


def alone_list(code, document):
    return listed_by_crate((row, stays_in(row)) for row in rows_of(code, document) if is_alone(row))


def numbers_list(code, _document):
    errors = {error_of(function.result) for public in code.public.values() for function in public.values()}
    lines = []
    for error, crate in code.home.items():
        if error in errors:
            there = code.variants[error]
            held_in = {name: [kind for kind in re.findall(r"\w+", held) if kind in code.variants] for name, held, _ in there}
            variants = ["%s`%s`%s" % (number and number + " ", name, " with a `%s`" % held_in[name][0] if held_in[name] else "")
                        for name, _, number in there]
            lines.append("- `%s` of `%s`: %s" % (error, crate, ", ".join(variants)))
    return "\n".join(lines)


def written():
    """The document as it should be."""
    code, document, text = Code(), Document(), tables.text(DOCUMENT)
    for heading, begin, made in ((NUMBERS, "- `", numbers_list), (CALLS, r"\*\*`", calls_list), (ALONE, r"\*\*`", alone_list)):
        text = re.sub(r"(?s)(\n## %s\n.*?\n)%s.*?(?=\n\n## |\n*\Z)" % (heading, begin),
                      lambda found, lines=made(code, document): found[1] + lines, text, count=1)
    return text


def write():
    """Writes these lists anew. Prints the calls that are new, whose refusals people have to put into order, and those
    that are gone with what people wrote of them."""
    before = Document().said
    (tables.TOP / DOCUMENT).write_text(written(), encoding="utf-8")
    after = Document().said
    for crate, call in sorted(after.keys() - before.keys()):
        print("new: %s, %s: put the order of its refusals into its item" % (crate, call))
    for crate, call in sorted(before.keys() - after.keys()):
        print("gone: %s, %s: %s, %s" % (crate, call, *before[crate, call]))


# ---- what is compared beside

def row_faults(code, row):
    """Variants that people wrote of a row's calls and that their errors don't have; calls of which nothing says what stays."""
    for call in row.calls:
        function = code.public[row.crate][call]
        words = set(code.words_of(error_of(function.result))) | {"None", "false"} | set(code.public[row.crate])
        yield from ("%s is not refused with %s" % (call, name) for name in named(row.refusals) if name not in words)
        yield from ("%s has no clause %s" % (call, name) for name in SAID_OTHERWISE.get(call, ())
                    if name not in clauses_of(function))
    for column, cell in (("when they come", row.when), ("what stays", row.stays)):
        if cell == "not said" and not row.is_marked:
            yield "no clause says %s, and \"%s\" doesn't have it" % (column, UNSAID)
    if row.memory not in MEMORY:
        yield "%s says nothing of memory" % row.memory


def number_faults(code):
    """Errors of which some variants have a number and some have none, or whose numbers don't rise from one variant to the next."""
    for error, there in code.variants.items():
        numbers = [int(number) for _, _, number in there if number]
        if error.endswith(("Fault", "Error", "Stop", "Refusal")) and numbers:
            if len(numbers) < len(there):
                yield "%s has variants without a number" % error
            if any(after <= before for before, after in zip([0] + numbers, numbers)):
                yield "%s has numbers that don't rise" % error


def people_faults(code, document):
    """What people wrote of calls that aren't there, or that answer otherwise."""
    calls = {call for public in code.public.values() for call in public}
    yield from ("%s, of SAID_OTHERWISE, is no public function" % call for call in SAID_OTHERWISE if call not in calls)
    for crate, call in sorted(set(document.said) | document.marked):
        if call not in code.public.get(crate, {}):
            yield "%s of %s is no public function" % (call, crate)
    for crate, calls in document.others.items():
        yield from ("%s of %s answers no Option" % (call, crate) for call in sorted(calls)
                    if not re.match(r"(?:Result<)?Option<", getattr(code.public[crate].get(call), "result", "")))
    for crate, calls, _, clause in document.unsaid:
        contracts = [code.public[crate.strip("`")][call].contract for call in named(calls) if call in code.public[crate.strip("`")]]
        yield from ("none of %s has %s" % (calls, quoted) for quoted in named(clause)
                    if quoted.startswith("ensures") and not any(quoted in contract for contract in contracts))


def checked(_words=()):
    """How many rows were compared and are right, and what is wrong; prints each that is."""
    code, document = Code(), Document()
    rows = list(rows_of(code, document))
    results = [("%s, %s" % (row.crate, ", ".join(row.calls)), list(row_faults(code, row))) for row in rows]
    results += [(NUMBERS, list(number_faults(code))), ("what people wrote", list(people_faults(code, document)))]
    there, owed = tables.text(DOCUMENT).split("\n"), written().split("\n")
    faults = ["%s: %s" % (what, fault) for what, several in results for fault in several]
    faults += ["has: %s" % line for line in there if line not in set(owed)]
    faults += ["lacks: %s ('tests/docs/write refusals' writes it)" % line for line in owed if line not in set(there)]
    for fault in faults:
        print("FAILED REFUSALS.md, " + fault)
    return sum(not several for _, several in results), len(faults)
