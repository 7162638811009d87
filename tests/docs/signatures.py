"""What a crate's code declares, in the lines of surface.txt: functions and methods with the types of their parameters and their
result, enums with their variants, structs with their public fields. The code is in the layout of `rt fmt`.
"""
import re

MARGIN = "    "
BLOCK = re.compile(r"^(?P<head>(?:pub )?(?:impl|trait)\b[^{]*?)\s*\{\n(?P<body>.*?)^\}", re.M | re.S)
ENDS = r"(?=\n\s+(?:requires|ensures|ghost)\b|\s*\{\n|\s*\{\}|;\n)"  # where a function's signature ends
FUNCTION = re.compile(r"^(?P<margin> *)(?P<pub>pub )?(?:const )?fn (?P<rest>\w.*?)" + ENDS, re.M | re.S)
OPEN, CLOSED = "([{<", ")]}>"


def plain(text):
    """A type in one line, without lifetimes and without the path of a name."""
    text = re.sub(r"'\w+ ?", "", " ".join(text.split()))
    text = re.sub(r"<(?:, )*>", "", re.sub(r"<(?:, )+", "<", text))
    text = re.sub(r"\b(?:\w+::)+(\w+)", r"\1", text)
    return re.sub(r",? ?([)\]>])", r"\1", re.sub(r"([(\[<]) ", r"\1", text)).replace(", }", " }").strip()


def parts(text):
    """What commas part, but for those within brackets."""
    found, depth, start = [], 0, 0
    text = text.replace("->", "  ")
    for at, sign in enumerate(text):
        depth += (sign in OPEN) - (sign in CLOSED)
        if sign == "," and depth == 0:
            found.append(text[start:at])
            start = at + 1
    return [part.strip() for part in found + [text[start:]] if part.strip()]


def bracketed(text, start):
    """Where the bracket at a place is closed."""
    depth = 0
    for at in range(start, len(text)):
        depth += (text[at] in OPEN) - (text[at] in CLOSED and text[at - 1:at + 1] != "->")
        if depth == 0:
            return at
    raise ValueError("not closed: %s" % text[start:start + 60])


def parameter(text):
    """The type of a parameter; `self` as it stands."""
    text = re.sub(r"^mut ", "", text)
    return text if re.fullmatch(r"&?(?:mut )?self", text) else text.partition(":")[2].strip()


def signature(rest, holder=""):
    """A function, from its name to its result; `Self` is the name of the type that has it."""
    rest = plain(re.sub(r"//[^\n]*", "", rest))
    at = rest.index("(")
    if "<" in rest[:at]:
        at = bracketed(rest, rest.index("<")) + 1
    close = bracketed(rest, at)
    name = re.sub(r"<(?:\w+: Drop(?:, )?)*>$", "", rest[:at])
    line = "%s(%s)%s" % (name, ", ".join(map(parameter, parts(rest[at + 1:close]))), rest[close + 1:])
    return re.sub(r"\bSelf\b", holder, holder + "::" + line) if holder else line


def last_name(head):
    """The trait and the type that an `impl` is of, or the one that is declared, without what it is generic over."""
    head = plain(head)
    while re.search(r"<[^<>]*>", head):
        head = re.sub(r"<[^<>]*>", "", head)
    named = re.split(r" where |(?<!:):(?!:)", re.sub(r"^(?:pub )?(?:impl|trait) *", "", head))[0]
    *trait, kind = named.split(" for ")
    return trait[0].strip() if trait else None, kind.strip()


def numbered(variants):
    """Variants without their numbers where these are their places, from 1."""
    return [re.sub(" = %d$" % place, "", variant) for place, variant in enumerate(variants, 1)]


class Declared:
    """What one crate declares: the `lines` of each name, the `kinds` that are types, their `traits`, and what `aliases` mean."""

    def __init__(self, texts):
        self.lines, self.traits, self.aliases, self.kinds = {}, {}, {}, set()
        for text in texts:
            self.take_types(text)
        for text in texts:
            self.take_blocks(text)
            for found in FUNCTION.finditer(text):
                if found["pub"] and not found["margin"]:
                    line = signature(found["rest"])
                    self.add(re.match(r"\w+", line)[0], line)

    def add(self, name, line):
        """A line of a name, in which a result's alias is written out."""
        call, arrow, result = line.rpartition(" -> ")
        if re.match("Result|Option", self.aliases.get(result, "")):
            line = call + arrow + self.aliases[result]
        self.lines.setdefault(name, set()).add(line)

    def take_blocks(self, text):
        """The methods of impls and traits; those of an impl are public if they say so or are a trait's."""
        for block in BLOCK.finditer(text):
            trait, kind = last_name(block["head"])
            is_trait = bool(trait) or " trait " in " " + block["head"]
            if trait:
                self.traits.setdefault(kind, set()).add(trait)
            elif is_trait:
                self.kinds.add(kind)
            for found in FUNCTION.finditer(block["body"]):
                if (is_trait or found["pub"]) and found["margin"] == MARGIN:
                    self.add(kind, signature(found["rest"], kind))

    def take_types(self, text):
        """Structs, enums and aliases."""
        text = re.sub(r"^\s*(?:///?|#\[).*\n", "", text, flags=re.M)
        for name, meaning in re.findall(r"^pub(?:\(crate\))? type (\w+)[^=;]*= ([^;]*);", text, re.M):
            self.aliases[name] = plain(meaning)
        self.kinds.update(re.findall(r"^pub (?:struct|enum) (\w+)", text, re.M))
        for word, name, body in re.findall(r"^pub (struct|enum) (\w+)[^{;\n]*\{\n(.*?)^\}", text, re.M | re.S):
            items = [plain(item) for item in parts(body)]
            items = numbered(items) if word == "enum" else [item[4:] for item in items if item.startswith("pub ")]
            self.add(name, "%s %s { %s }" % (word, name, ", ".join(items)))
