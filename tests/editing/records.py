"""The crates' edits and texts, and the record of those texts whose edits were tried."""
import hashlib
import os
import re
import subprocess
import sys
import tempfile

from tests.renaming import Renaming, rename_crates

TOP = os.path.realpath(os.path.join(os.path.dirname(os.path.realpath(__file__)), "..", ".."))
RECORD = os.path.join(TOP, "tests", "edits.tried")
# What the gate tries each time stays few.
MOST_IN_GATE = 120
EDIT_NAME = re.compile(r"[a-z0-9_]+\.edit")
# A guard's line: the function whose proof refuses it.
ONLY = re.compile(r"^only: (\S+)$", re.MULTILINE)


def crate_names():
    """Returns the crates of crates.txt, in its order."""
    with open(os.path.join(TOP, "crates.txt"), encoding="utf-8") as lines:
        return [line.split(":")[0].split()[0] for line in lines if ":" in line and not line.startswith("#")]


def folder_of(name):
    return os.path.join(TOP, "crates", name)


def edits_of(name, part="edits"):
    """Returns the files of the crate's edits, by name."""
    folder = os.path.join(folder_of(name), part)
    if not os.path.isdir(folder):
        return []
    for file in os.listdir(folder):
        if not EDIT_NAME.fullmatch(file):
            sys.exit(f"crates/{name}/{part}/{file} isn't an edit's name: NAME.edit")
    return sorted(os.path.join(folder, file) for file in os.listdir(folder))


def files_below(folder):
    for at, folders, files in os.walk(folder):
        folders.sort()
        yield from (os.path.join(at, file) for file in sorted(files))


def plain(text, comment):
    """Returns the text without comments, test modules and layout: blanks beside brackets, and what ends the last item in them. Of a
    comment after code the prover's texts alone have two blanks before it; in a source such words may be in a string."""
    text = re.sub(r"#\[cfg\(test\)\]\s*mod \w+;", "", text)
    if comment == "--":
        text = re.sub(r"(?m)(?<=\S) {2,}-- .*$", "", text)
    lines = (" ".join(line.split()) for line in text.splitlines())
    text = " ".join(line for line in lines if line and not line.startswith(comment))
    text = re.sub(r" ?([()\[\]{}]) ?", r"\1", text)
    return re.sub(r"[,;]([)\]}])", r"\1", text)


def is_test(inside):
    return inside == "src/tests.rt" or inside.startswith("src/tests/")


def digest_of(name, top=None, without=()):
    """Returns the digest of all that an edit's verdict depends on in the crate itself, some edits left out."""
    folder, digest = os.path.join(top or TOP, "crates", name), hashlib.sha256()
    for part in ("src", "specs", "proofs", "edits"):
        for file in files_below(os.path.join(folder, part)):
            inside = os.path.relpath(file, folder)
            if is_test(inside) or file in without or not file.endswith((".rt", ".antt", ".edit")):
                continue
            with open(file, encoding="utf-8") as it:
                text = it.read()
            if not file.endswith(".edit"):
                text = plain(text, "//" if file.endswith(".rt") else "--")
            digest.update(f"{inside}\n{len(text)}\n{text}\n".encode())
    return digest.hexdigest()


def recorded(file=None):
    """Returns what stands in a record: for each crate its digest and how many edits were refused."""
    file = file or RECORD
    if not os.path.isfile(file):
        return {}
    with open(file, encoding="utf-8") as lines:
        rows = [line.split() for line in lines if line.strip() and not line.startswith("#")]
    return {name: (digest, int(count)) for name, digest, count in rows}


def record(rows):
    known = {name: row for name, row in {**recorded(), **rows}.items() if name in crate_names()}
    with open(RECORD, "w", encoding="utf-8") as out:
        out.write("# Written by tests/edits: crate, digest of its text, edits that the prover refused. The gate compares the digests.\n")
        for name in sorted(known):
            out.write(f"{name} {known[name][0]} {known[name][1]}\n")


def changed():
    """Returns the crates with edits whose text isn't the recorded one."""
    known = recorded()
    return [name for name in crate_names() if edits_of(name) and known.get(name) != (digest_of(name), len(edits_of(name)))]


def text_of(edit):
    with open(edit, encoding="utf-8") as it:
        return it.read()


def function_of(guard):
    """Returns the function that a guard makes wrong, or None where no line says which."""
    found = ONLY.search(text_of(guard))
    return found and found[1]


def guards_of(name):
    return edits_of(name, "guards")


def check():
    """Compares all texts with the record, and counts what the gate tries."""
    faults = [f"{name}: its text isn't the one whose edits were tried; run tests/edits {name}" for name in changed()]
    guards = [(name, guard) for name in crate_names() for guard in guards_of(name)]
    faults += [f"{name}: guards/{os.path.basename(guard)} has no line 'only: FUNCTION'" for name, guard in guards if not function_of(guard)]
    in_gate = {name: len(edits_of(name, "must-fail")) + len(guards_of(name)) for name in crate_names()}
    whole = sum(in_gate.values())
    if whole > MOST_IN_GATE:
        faults.append(f"the gate tries {whole} edits in all, more than {MOST_IN_GATE}: move some to edits/")
    for fault in faults:
        print(f"edits: {fault}")
    tried = sum(len(edits_of(name)) for name in crate_names())
    print(f"edits: {tried} recorded as refused, {whole} for the gate, {len(guards)} of them guards" if not faults else f"edits: {len(faults)} faults")
    return 1 if faults else 0


def unpack(since, room):
    """Lays the crates of a commit out in a folder, with their record."""
    archive = subprocess.run(["git", "archive", since, "crates", "crates.txt", "tests/edits.tried"], cwd=TOP, check=True, stdout=subprocess.PIPE)
    subprocess.run(["tar", "-x", "-C", room], check=True, input=archive.stdout)


def renamed_from(renaming, since, room):
    """Returns the rows of the record of a commit that stand for the text as it is now, by the crates' names now: those of crates whose
    edits were tried on the commit's text, and whose text is now that one renamed."""
    old, new = os.path.join(room, "old"), os.path.join(room, "new")
    os.makedirs(old)
    unpack(since, old)
    rename_crates(renaming, old, new)
    rows = {}
    for name, (digest, count) in recorded(os.path.join(old, "tests", "edits.tried")).items():
        now = renaming.crates.get(name, name)
        if digest == digest_of(name, old) and os.path.isdir(folder_of(now)) and digest_of(now) == digest_of(now, new):
            rows[now] = (digest_of(now), count)
    return rows


def carry(map_file, since):
    """Carries the record over from a commit of which the text that stands is a renaming; returns the status."""
    with tempfile.TemporaryDirectory(prefix="edits-") as room:
        rows = renamed_from(Renaming.read(map_file), since, room)
    record(rows)
    print(f"edits: {sum(count for _, count in rows.values())} of {len(rows)} crates stand as they were refused, under other names")
    left = changed()
    if left:
        print(f"edits: to be tried, since more than names has changed: {' '.join(left)}")
    return 1 if left else 0


def added_since(since):
    """Returns for each crate whose text is that of a commit on which its edits were tried, but for the edits, those that don't stand there as
    they do now."""
    found = {}
    with tempfile.TemporaryDirectory(prefix="edits-") as room:
        unpack(since, room)
        known = recorded(os.path.join(room, "tests", "edits.tried"))
        for name in changed():
            old = list(files_below(os.path.join(room, "crates", name, "edits")))
            texts = {os.path.basename(edit): text_of(edit) for edit in old}
            were_tried = known.get(name) == (digest_of(name, room), len(old))
            if not old or were_tried and digest_of(name, room, old) == digest_of(name, without=edits_of(name)):
                found[name] = [edit for edit in edits_of(name) if texts.get(os.path.basename(edit)) != text_of(edit)]
    return found
