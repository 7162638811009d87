"""Compares the tables of docs/PROFILE.md with those of the code.

Each table stands under a heading of its own. A row that the code doesn't have, a row of the code that the document lacks, and a
cell that isn't as the code has it, fail with a line that says which. The code is read as text: the tables of definitions
(`specs/*.antt`) and those of the program (`src/*.rt`) are both read where there are both, and have to agree.
"""
import re

from tests.docs import tables
from tools import s1ap

KINDS = ("initiating", "successful", "unsuccessful")
MACHINES = ("mme_types", "mme_signalling", "emm_state", "emm_uplink", "emm_network", "emm_machine", "stranger_machine", "mme_routing")


def text_of(path):
    """A file of the crates."""
    return tables.text("crates/" + path)


def texts_of(crate):
    """The sources of a crate, together."""
    return "\n".join(path.read_text(encoding="utf-8") for path in sorted((tables.TOP / "crates" / crate / "src").glob("*.rt")))


def number(text):
    """A number as the code or the document has it: 40000, 0x10_0000, 1 << 24, 2^20."""
    text = text.replace("_", "").strip()
    power = re.fullmatch(r"(\d+) ?(\^|<<) ?(\d+)", text)
    if not power:
        return int(text, 0)
    base, sign, exponent = int(power.group(1)), power.group(2), int(power.group(3))
    return base ** exponent if sign == "^" else base << exponent


class Report:
    """What was compared, and what wasn't the same."""

    def __init__(self):
        self.passed = self.failed = 0

    def same(self, table, what, document, code):
        if document == code:
            self.passed += 1
            return
        self.failed += 1
        print("FAILED PROFILE.md, %s, %s: the document has %s, the code %s" % (table, what, document, code))

    def compare(self, table, document, code):
        """Rows by what they are about, each the cells that are compared."""
        for what in list(code) + [what for what in document if what not in code]:
            self.same(table, what, document.get(what, "no row"), code.get(what, "no row"))


def by(rows, what, cells):
    """The cells of each row, by what it is about, which no two rows share."""
    found = {}
    for row in rows:
        if what(row) in found:
            raise ValueError("%r stands twice" % what(row))
        found[what(row)] = cells(row)
    return found


def first(row):
    return row[0]


def second(row):
    return (row[1],)


def number_of(row):
    """The number of an element, which stands before its name."""
    return row[0].split()[0]


# --- Definitions as terms: names, numbers and brackets ---


def term_of(text):
    """A term of a definition, as nested lists: `must (octets 3) done` is ['must', ['octets', '3'], 'done']."""
    stack = [[]]
    for token in re.findall(r"[()]|[^\s()]+", text):
        if token == "(":
            stack.append([])
        elif token == ")":
            inner = stack.pop()
            stack[-1].append(inner[0] if len(inner) == 1 else inner)
        else:
            stack[-1].append(token)
    return stack[0][0] if len(stack[0]) == 1 else stack[0]


def definitions(text):
    """The right side of each definition without arguments, as a term."""
    text = re.sub(r"--.*", "", text)
    found = {}
    for name, right in re.findall(r"abbrev pub (\w+) : \w+\n\1 =\s*(.*?)(?=\n\n|\Z)", text, re.S):
        found[name] = term_of(right)
    return found


def cases(text, name):
    """The cases of a function: `name Case = right` as right by Case."""
    return dict(re.findall(r"^%s \(?(\w+)[^=\n]*? = (.*)$" % name, text, re.M))


# --- S1AP messages ---


def element_ids():
    """The number of each id of an element: by the program's name, `CAUSE`, and by the definition's, `id.cause`."""
    code = dict(re.findall(r"^pub const (\w+): u16 = (\d+);$", text_of("s1ap_elements/src/ids.rt"), re.M))
    specs = definitions(text_of("s1ap_elements/specs/Ids.antt"))
    differing = {(name.lower(), named) for name, named in code.items()} ^ set(specs.items())
    if differing:
        raise ValueError("definition and program differ in these ids of elements: %s" % sorted(differing))
    return code | {"id." + name: named for name, named in specs.items()}


def element_rows(term):
    """The rows of a message as the document has them: `59r 60i? 61i-`."""
    found, ids = [], element_ids()
    while term != "end":
        _, named, criticality, presence, _, term = term
        found.append(ids[named] + criticality[0].lower() + {"needed": "", "optional": "?", "unkept": "-"}[presence])
    return ", ".join(found)


def code_rows():
    """The rows of each message in the code, by its type."""
    found, ids = {}, element_ids()
    marks = {"Needed": "", "Optional": "?", "Unkept": "-"}
    for name, rows in re.findall(r"type (\w+)Rows(?:<'a>)? =\s*(.*?);", texts_of("s1ap_pdus"), re.S):
        rows = re.findall(r"(Needed|Optional|Unkept)<\s*(\w+),\s*(REJECT|IGNORE),", rows)
        found[name] = ", ".join(ids[named] + criticality[0].lower() + marks[mark] for mark, named, criticality in rows)
    return found


def s1ap_messages():
    """Name: code, outcome, criticality, elements and clause of each message."""
    profile = text_of("s1ap_pdus/specs/Profile.antt")
    rows, terms = cases(profile, "rows_of"), definitions(profile)
    codes, kinds = cases(profile, "code_of"), cases(profile, "kind_of")
    criticalities, written = cases(profile, "criticality_of"), code_rows()
    clauses = dict((name, clause) for clause, name in re.findall(
        r"TS 36\.413 clause ([\d.]+)\)\.\n(?:#\[.*\]\n)?(?:pub struct |    )(\w+)", text_of("s1ap_pdus/src/pdu.rt")))
    found = {}
    for name, code in codes.items():
        elements = element_rows(terms[rows[name]])
        if elements != written[name]:
            raise ValueError("%s: the definition has the rows %s, the program %s" % (name, elements, written[name]))
        title = s1ap.NAMES[int(code)][int(kinds[name])]
        kind = KINDS[int(kinds[name])]
        found[title] = (code, kind, criticalities[name].lower(), elements or "none", clauses[name], sender(name))
    return found


def sender(name):
    """Who sends a message: what is taken from a station, and what the MME makes."""
    taken = set(re.findall(r"Pdu::(\w+)(?:\(\w\)|\(_\))", text_of("mme_routing/src/outcome.rt")))
    made = set(re.findall(r"Pdu::(\w+)\(\1 \{", "".join(map(texts_of, MACHINES))))
    return {(True, False): "station", (False, True): "MME", (True, True): "both"}[name in taken, name in made]


# --- S1AP elements ---


def form(term, known):
    """A format as the document writes it; `known` has the formats, the ids and the criticalities by their names."""
    if isinstance(term, str):
        return {"octet_string": "octets"}.get(term) or form(known[term], known)
    head, *rest = term
    simple = {"number": "{}..{}", "octets": "{} octets", "octets_between": "{}..{} octets", "bit_string": "{} bits",
              "bits_between": "{}..{} bits"}
    if head in simple:
        return simple[head].format(*rest)
    if head == "enumerated":
        return "name 0..%s.." % rest[0]
    if head == "closed":
        return form(rest[0], known)
    if head == "items":
        return "%s..%s of %s" % (rest[0], rest[1], form(rest[2], known))
    if head == "item":
        return "%s%s %s" % (known[rest[0]], "ri"[int(known[rest[1]])], form(rest[2], known))
    if head == "sequence":
        return "(" + ", ".join(fields(rest[0], known)) + ")"
    if head == "choice":
        return " or ".join(alternatives(rest[0], known))
    raise ValueError("a format of %s" % head)


def fields(term, known):
    while term != "done":
        kind, first, term = term
        if first == "extensions":
            continue
        yield {"must": "%s", "may": "[%s]", "skip": "skipped %s"}[kind] % form(first, known)


def alternatives(term, known):
    while term[0] == "either":
        yield form(term[1], known)
        term = term[2]
    yield form(term[1], known)


def s1ap_elements():
    """Id: type and form of each element that some message has, and those that are passed over."""
    ids = element_ids()
    known = definitions(text_of("s1ap_causes/specs/Causes.antt")) | definitions(text_of("s1ap_elements/specs/Formats.antt")) | ids
    known["octet_string"] = "octet_string"
    forms, types = {}, {}
    for name, term in definitions(text_of("s1ap_pdus/specs/Profile.antt")).items():
        while isinstance(term, list) and term[0] == "ie":
            forms.setdefault(ids[term[1]], set()).add(form(term[4], known))
            term = term[5]
    for named, kind in re.findall(r"(?:Needed|Optional|Unkept)<\s*(\w+),\s*\w+,\s*(\w+)", texts_of("s1ap_pdus")):
        types.setdefault(ids[named], set()).add(kind)
    return {named: (" and ".join(sorted(types[named])), " and ".join(sorted(forms[named]))) for named in forms}


def element_clauses():
    """Type: the clause that its doc line has."""
    found = {}
    crates = tables.TOP / "crates"
    for path in sorted(path for crate in ("s1ap_causes", "s1ap_elements") for path in (crates / crate / "src").glob("*.rt")):
        for clause, name in re.findall(r"TS 36\.413 clauses? ([\d.a]+)[^\n]*\n(?:#\[.*\]\n)*pub (?:struct|enum|type) (\w+)",
                                       path.read_text(encoding="utf-8")):
            found[name] = clause
    return found


# --- Causes ---


def numbered(macro, text):
    """The numbers of a group of causes in the code."""
    body = re.search(r"macro_rules! %s_causes \{(.*?)\n\}" % macro, text, re.S).group(1)
    return {name: int(code) for code, name in re.findall(r"(\d+) (\w+)", body)}


GROUPS = (("radioNetwork", "radio_network", "RadioNetwork"), ("transport", "transport", "Transport"), ("nas", "nas", "Nas"),
          ("protocol", "protocol", "Protocol"), ("misc", "misc", "Misc"))


def s1ap_causes():
    """Cause: its number, of each that the MME names."""
    text, used = text_of("s1ap_causes/src/element.rt"), "".join(map(texts_of, MACHINES))
    standard = {group: names for group, _, names in s1ap.CAUSES}
    found = {}
    for group, macro, named in GROUPS:
        numbers = numbered(macro, text)
        for name in set(re.findall(r"%sCause::(\w+)" % named, used)) - {"Extended"}:
            found["%s %s" % (group, standard[group][numbers[name]])] = (str(numbers[name]),)
    return found


def nas_causes(path, kind):
    """Number of each cause of an enum, with its name in the code."""
    return {code: (name,) for name, code in re.findall(r"%s::(\w+) => (\d+)," % kind, text_of(path))}


def s1ap_faults():
    """Fault: the cause that answers it, from the definition."""
    text = text_of("mme_routing/specs/Outcomes.antt")
    numbers = numbered("protocol", text_of("s1ap_causes/src/element.rt"))
    names = next(names for group, _, names in s1ap.CAUSES if group == "protocol")
    unknown = cases(text, "cause_of_unknown")
    rights = cases(text, "cause_of") | {"UnknownProcedure " + name: unknown[name] for name in unknown}
    found = {}
    for fault, right in rights.items():
        cause = re.fullmatch(r"Some \(Protocol (\w+)\)", right)
        if cause or right == "None":
            found[fault] = ("protocol " + names[numbers[cause.group(1)]] if cause else "none",)
    del found["NoMemory"]
    return found


def nas_faults():
    """Fault: the number of the cause that answers it, from the definition."""
    causes = {name: code for code, (name,) in nas_causes("mme_signalling/src/cause.rt", "EmmCause").items()}
    text = text_of("mme_signalling/specs/Causes.antt")
    rights = re.findall(r"^cause_of_fault faults\.(\w+) = (?:Some (\w+)|None)$", text, re.M)
    return {fault: (causes.get(cause, "none"),) for fault, cause in rights if fault != "NoMemory"}


# --- NAS messages ---


def half(term):
    if isinstance(term, str):
        return {"spare": "-", "three": "3 bits", "flagged": "3 bits and a flag", "four": "4 bits"}[term]
    return "= " + term[1]


def part(term):
    """A mandatory part as the document writes it."""
    if isinstance(term, str):
        return {"octet": "octet", "long": "LV-E"}[term]
    head, *rest = term
    if head == "constant":
        return "%02x" % int(rest[0], 0)
    if head == "halves":
        return "(%s, %s)" % tuple(half(one) for one in rest)
    if head == "fixed":
        return "%s octets" % rest[0]
    content = rest[0]
    if isinstance(content, str):
        return "LV " + {"tai_list": "TAI list", "identity": "identity", "guti": "GUTI", "label": "label"}[content]
    low, high = content[1:]
    return "LV %s" % (low if low == high else "%s..%s" % (low, high))


def parts(text):
    return ", ".join(part(term_of(one)) for one in text.split(" ∷ ") if one != "[]") or "none"


def with_identifiers(text):
    """The text with the identifiers of optional elements and the octet of T3412 in the place of their names."""
    texts = text_of("nas_elements/specs/Identifiers.antt") + text_of("nas_elements/specs/Timers.antt")
    named = dict(re.findall(r"^(\w+_iei|t3412_octet) = (0x\w\w)$", texts, re.M))
    return re.sub(r"\w+_iei|t3412_octet", lambda name: named[name.group()], text)


def kept(text):
    """The optional elements that are kept, by their identifiers."""
    marks = re.findall(r"(element|flag) 0x(\w\w)", text)
    return ", ".join(code if kind == "element" else code[0] + "-" for kind, code in marks) or "none"


def nas_messages():
    """Name in the code: type, mandatory part and kept elements of each message."""
    formats = with_identifiers(text_of("nas_messages/specs/Formats.antt"))
    found = {}
    for prefix, path in (("", "Messages"), ("esm_", "EsmMessages")):
        codes = cases(text_of("nas_messages/specs/%s.antt" % path), prefix + "code_of")
        mandatory, optional = cases(formats, prefix + "parts_of"), cases(formats, prefix + "kept_of")
        for name, code in codes.items():
            found[name] = (code[2:], parts(mandatory[name]), kept(optional[name]))
    return found


def nas_senders():
    """The messages that only a network sends: received, they are of no procedure."""
    others = re.search(r"Emm::AttachAccept\(_\)(.*?)=> Heard::Other", text_of("mme_signalling/src/heard.rt"), re.S).group(1)
    return {"AttachAccept", *re.findall(r"Emm::(\w+)", others)}


def nas_clauses():
    """The clauses of messages, by the name, as the comments of the code have them."""
    text = "".join(map(texts_of, ("nas_messages", "mme_signalling", "mme_types")))
    found = {}
    line = r"/// ([A-Z][A-Z ]+[A-Z])\b(?:[^()\n]|\n *///)*\(TS 24\.301 clause (8\.[23]\.[\d.]*\d)\)"
    for name, clause in re.findall(line, text):
        found.setdefault(name, set()).add(clause)
    return found


def skipping():
    """Identifier: the octets of an optional element, identifier and all."""
    text = with_identifiers(text_of("nas_elements/specs/Optionals.antt"))
    found = {code: str(int(count) + 1) for code, count in re.findall(r"i == 0x(\w\w) then Fixed (\d+)", text)}
    found["58"] = "%s in ESM" % (int(re.search(r"cause_rule Esm = Fixed (\d+)", text).group(1)) + 1)
    ends = {low: rule for low, rule in re.findall(r"nat_le 0x(\w\w) i then (\w+)", text)}
    found["%s to ff" % min(ends, key=lambda low: ends[low] != "Itself")] = "1"
    found["78 to 7f"] = {"ByTwo": "two octets of length"}[ends["78"]]
    return {code: (rule,) for code, rule in found.items()}


# --- Timers, identities, limits ---


def timers():
    """Timer: ticks and repeats, in definition and program alike."""
    specs = re.findall(r"^(\w+)_(ticks|repeats) = (\d+)$", text_of("nas_elements/specs/Timers.antt"), re.M)
    code = re.findall(r"^pub const (\w+)_(TICKS|REPEATS): u32 = (\d+);$", text_of("nas_elements/src/timers.rt"), re.M)
    if [(name.upper(), part.upper(), count) for name, part, count in specs] != code:
        raise ValueError("the timers of definition and program: %s, %s" % (specs, code))
    counts = {(name, part): count for name, part, count in code}
    found = {name: (ticks, counts.get((name, "REPEATS"), "0")) for (name, part), ticks in counts.items() if part == "TICKS"}
    del found["T3412"]  # the phone's, of which the MME sends the octet
    found["reachable"] = found.pop("MOBILE_REACHABLE")
    return found


# What a limit is called in the document, and where the code has it.
LIMITS = {
    "slots": ("identity_slots/src/ids.rt", r"SLOTS: u32 = (.*);"),
    "ids of a slot": ("identity_slots/src/ids.rt", r"COUNTERS: u32 = (.*);"),
    "first id of a stranger": ("identity_slots/src/ids.rt", r"STRANGERS: u32 = (.*);"),
    "eNB UE S1AP IDs of a station": ("identity_slots/src/ids.rt", r"ENB_IDS: u32 = (.*);"),
    "stations": ("identity_slots/src/station.rt", r"number < (\d+)\s*\{"),
    "vectors of a slot": ("identity_slots/src/provision.rt", r"VECTORS: usize = (.*);"),
    "NAS COUNTs of a context and direction": ("nas_security/src/counts.rt", r"COUNT_LIMIT: u32 = (.*);"),
    "ticks of the clock": ("mme_core/src/mme.rt", r"LAST_TICK: u64 = (.*);"),
    "octets of a string or an open type": ("per_bits/src/open.rt", r"LONG_END: usize = (.*);"),
    "octets of an S1AP message that is sent": ("s1ap_pdus/specs/Pdus.antt", r"longest = (\d+)"),
    "octets of a trace's line": ("trace_words/src/line.rt", r"LONGEST_LINE: usize = (.*);"),
    "ticks of a trace's line": ("trace_words/src/fields.rt", r"number\(text, 1, (1_000_000)\)"),
    "bits a second of an aggregate bit rate": ("trace_words/src/fields.rt", r"number\(text, 1, (10_000_000_000)\)"),
    "octets of an access point name": ("mme_types/src/network.rt", r"label: ArrayString<(\d+)>"),
    "reads of a run": ("trace_run/src/watched.rt", r"MOST_TURNS: u64 = (.*);"),
}
BELOW = {"octets of a string or an open type"}  # the code has the first that isn't

# The constants that the MME writes, and where the code has them.
CONSTANTS = {
    "RelativeMMECapacity": ("mme_routing/src/answers.rt", r"GREATEST_CAPACITY: u64 = (\d+);"),
    "E-RAB ID": ("nas_elements/specs/Codes.antt", r"default_bearer = (\d+)"),
    "QCI": ("mme_types/specs/Pdus.antt", r"qci = (\d+);"),
    "priority level": ("mme_types/specs/Pdus.antt", r"priority = (\d+);"),
    "pre-emption capability": ("mme_types/specs/Pdus.antt", r"capability = (\d+);"),
    "pre-emption vulnerability": ("mme_types/specs/Pdus.antt", r"vulnerability = (\d+) "),
    "EPS bearer identity": ("nas_elements/src/codes.rt", r"DEFAULT_BEARER: u8 = (\d+)"),
}
HEX_CONSTANTS = {"T3412": ("nas_elements/src/timers.rt", r"T3412_OCTET: u8 = (0x\w+);")}


def constant(place):
    path, pattern = place
    return number(re.search(pattern, text_of(path)).group(1))


# --- The document's tables beside the code's ---


def check_messages(report, document):
    def cells(row):
        _, who, procedure, elements, clause = row
        return *procedure.split(), elements, clause, who
    report.compare("S1AP messages", by(document["S1AP messages"], first, cells), s1ap_messages())


def check_elements(report, document):
    rows, code = document["S1AP elements"], s1ap_elements()
    report.compare("S1AP elements", by(rows, number_of, second), {named: (form,) for named, (_, form) in code.items()})
    clauses = element_clauses()
    for row in rows:
        named, clause = number_of(row), row[2]
        kind, _ = code.get(named, ("", ""))
        if kind in clauses:  # a type that two elements share has the clause of the first
            report.same("S1AP elements, clauses", named, clause, clauses.pop(kind))
    text = text_of("s1ap_rows/src/engine.rt")
    passed = {re.search(r"%s: u16 = (\d+)" % name, text).group(1): () for name in ("GUMMEI_ID", "CSG_ID", "CSG_ID_LIST")}
    found = re.search(r"\n## Elements passed over\n\n.*: (.*)\.\n", tables.text("docs/PROFILE.md"))[1]
    report.compare("Elements passed over", {name.split()[0]: () for name in found.split(", ")}, passed)


def check_causes(report, document):
    """Of each group, the number and the name of each cause."""
    found = {group: {name: number for number, name in re.findall(r"(\d+) ([\w-]+)", causes)}
             for group, causes in document["Causes"]}
    for group, path, kind in (("EMM", "mme_signalling/src/cause.rt", "EmmCause"),
                              ("ESM", "esm_machine/src/cause.rt", "EsmCause")):
        code = {name: number for number, (name,) in nas_causes(path, kind).items()}
        report.compare(group + " causes", found.pop(group, {}), code)
    report.compare("S1AP causes", {"%s %s" % (group, name): (number,) for group, causes in found.items()
                                   for name, number in causes.items()}, s1ap_causes())


def check_faults(report, document):
    for heading, faults in (("S1AP faults", s1ap_faults()), ("NAS faults", nas_faults())):
        report.compare(heading, by(document[heading], first, second), faults)
    headers = re.findall(r"SecurityHeader::(\w+) => (\d+),", text_of("nas_messages/src/protection.rt"))
    headers = {code: (name,) for name, code in headers}
    report.compare("Security headers", by(document["Security headers"], first, second), headers)


def name_in_code(row):
    """The name that the code has for the message of a row."""
    if row[:2] == ["DETACH REQUEST", "network"]:
        return "NetworkDetach"
    name = row[0].replace("DEFAULT EPS BEARER CONTEXT ", "").removeprefix("PDN ").replace("ESM INFORMATION", "INFORMATION")
    return name.title().replace(" ", "")


def check_nas(report, document):
    emm, esm = document["EMM messages"], document["ESM messages"]
    for rows, names in ((emm, s1ap.EMM_NAMES), (esm, s1ap.ESM_NAMES)):
        for name, _, code, *_ in rows:
            report.same("NAS messages", code, name, names[int(code, 16)])
    rows = by(emm + esm, name_in_code, lambda row: tuple(cell or "none" for cell in row[2:5]))
    report.same("EMM messages", "SERVICE REQUEST", rows.pop("ServiceRequest")[0], "c7")
    report.compare("NAS messages", rows, nas_messages())
    network = sorted(name_in_code(row) for row in emm if row[1] == "network")
    report.same("EMM messages", "sent by a network alone", network, sorted(nas_senders()))
    clauses = {name: {row[5] for row in emm + esm if row[0] == name} for name in nas_clauses()}
    report.compare("NAS messages, clauses", clauses, nas_clauses())
    skipped = by(document["Optional elements"], first, second)
    skipped.pop("all others")
    report.compare("Optional elements", skipped, skipping())


def check_identities(report, document):
    """The powers that ids are made of."""
    made = {what: [number(power) for power in re.findall(r"\d+\^\d+", how)] for what, how in document["Identities"]}
    ids, strangers, phones = (constant(LIMITS[what]) for what in (
        "ids of a slot", "first id of a stranger", "eNB UE S1AP IDs of a station"))
    report.same("Identities", "association id", made["association id (MME UE S1AP ID)"], [ids, ids])
    report.same("Identities", "stranger's id", made["stranger's id"], [strangers, phones])


def check_numbers(report, document):
    report.compare("Timers", by(document["Timers"], first, lambda row: (row[1], row[2])), timers())
    limits = by(document["Limits"], first, lambda row: number(row[1]))
    report.compare("Limits", limits, {what: constant(place) - (what in BELOW) for what, place in LIMITS.items()})
    code = {what: str(constant(place)) for what, place in CONSTANTS.items()}
    code |= {what: "%02x" % constant(place) for what, place in HEX_CONSTANTS.items()}
    report.compare("Constants", by(document["Constants"], first, lambda row: row[1].split()[0]), code)


def lists_of(text):
    """The items of each list, `- WHAT: VALUE`, as the rows of a table, by the heading above it."""
    parts = re.split(r"(?m)^## (.*)$", text)
    return {heading: [list(item) for item in re.findall(r"(?m)^- (.*?): (.*)$", body)]
            for heading, body in zip(parts[1::2], parts[2::2])}


def checked(_words=()):
    """How many comparisons passed and failed; prints each that failed."""
    report, path = Report(), "docs/PROFILE.md"
    document = lists_of(tables.text(path)) | tables.read(path)
    for check in (check_messages, check_elements, check_causes, check_faults, check_nas, check_identities, check_numbers):
        try:
            check(report, document)
        except (ValueError, LookupError, AttributeError) as fault:
            report.failed += 1
            print("FAILED PROFILE.md, %s: the code or the document can't be read: %r" % (check.__name__, fault))
    return report.passed, report.failed
