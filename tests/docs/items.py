"""What the code declares within what, as pairs: the methods, constants and variants of a type, the methods of a trait, and the
items of a module and of a crate, with those that it passes on. The code is in the layout of `rt fmt`, where a line's margin tells
its place.
"""
import re

MARGIN = "    "  # of what stands in an `impl`, a `trait`, an `enum` or a `mod`
ITEM = re.compile(r"(?:pub(?:\([a-z]+\))? )?(?:const |unsafe )*(?:fn|struct|enum|trait|type|const|static|mod) (\w+)")
VARIANT = re.compile(r"([A-Z]\w*)(?=$|[,({ ])")
HOLDER = re.compile(r"(?:pub(?:\([a-z]+\))? )?(impl|trait|enum|mod)\b([^;{]*)\{", re.S)
ALIAS = re.compile(r"^(?:pub(?:\([a-z]+\))? )?type (\w+)[^=;]*= ([\w:]+)", re.M)
PASSED_ON = re.compile(r"^pub use ([^;]*);", re.M)
GENERICS = re.compile(r"<[^<>]*>")


def last_names(head):
    """The trait and the type of an `impl`, or the name of what is declared, without what they are generic over."""
    while GENERICS.search(head):
        head = GENERICS.sub("", head)
    parts = re.split(r"\bwhere\b|(?<!:):(?!:)", head)[0].split(" for ")
    return [names[-1] for names in (re.findall(r"\w+", part) for part in parts) if names]


def held(text):
    """For each item in braces of another its holders' names and its own."""
    for found in re.finditer(r"^%s(?:\}|.*?^\})" % HOLDER.pattern, text, re.M | re.S):
        word, head = found.group(1), found.group(2)
        for line in found.group()[len(word):].split("\n"):
            if line.startswith(MARGIN):
                item = ITEM.match(line, len(MARGIN)) or (VARIANT.match(line, len(MARGIN)) if word == "enum" else None)
                if item:
                    yield last_names(head), item.group(1)


class Items:
    """The pairs of all crates."""

    def __init__(self, code):
        """`code` has the text of each file by its path."""
        self.pairs, self.same, self.code = set(), {}, code
        for path, text in code.items():
            found = re.fullmatch(r"crates/(\w+)/src/(.+)\.rt", path)
            if found:
                self.take(found.group(1), found.group(2).split("/"), text)

    def take(self, crate, place, text):
        """The pairs of a file, whose place is its path below src/."""
        modules = [crate] + [name for name in place if name not in ("lib", "main", "mod")]
        self.pairs.update(zip(modules, modules[1:]))
        self.pairs.update((modules[-1], item) for item in re.findall("^" + ITEM.pattern, text, re.M))
        for statement in PASSED_ON.findall(text):
            self.pairs.update((modules[-1], name) for name in re.findall(r"(\w+)\s*(?=[,}]|$)", statement))
        for holders, item in held(text):
            self.pairs.update((holder, item) for holder in holders)
        for holder, other in ALIAS.findall(text):
            self.same.setdefault(holder, set()).add(other.split("::")[-1])
        for implemented in re.findall(r"^impl\b([^;{]* for [^;{]*)\{", text, re.M):
            trait, *types = last_names(implemented)
            for name in types:
                self.same.setdefault(name, set()).add(trait)

    def has_pair(self, holder, item):
        """Whether the holder has the item, or what it is another name of, or a trait that it implements."""
        return (holder, item) in self.pairs or any((other, item) in self.pairs for other in self.same.get(holder, ()))

    def has_path(self, path):
        """Whether each part of `a::B::c` is in the one before it; a path that begins with another library must be in the code."""
        names = path.split("::")
        if all(self.has_pair(*pair) for pair in zip(names, names[1:])):
            return True
        here = any(names[0] == holder for holder, _ in self.pairs)
        return not here and any(re.search(r"\b%s\b" % re.escape(path), text) for text in self.code.values())
