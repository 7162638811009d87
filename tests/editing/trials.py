"""Trials of a crate's edits: together where they change different functions, and one by one."""
import hashlib
import os
import re
import shutil
import subprocess
import sys
import tempfile
import threading
from concurrent.futures import ThreadPoolExecutor

from tests.editing.records import TOP, digest_of, edits_of, record, text_of
from tests.editing.verdicts import SAID, faults_of, is_by_contract, is_own_refusal, is_proved, kind_of, place_of_edit, without
from tools.program import toolchain
from tools.program.words import Failed

# What a check takes of memory, at most.
GIGABYTES_OF_A_CHECK = 3
# A goal that is open, by its name, which begins with its kind.
OPEN_GOAL = re.compile(r"^(?:note: )?src/\S+:\d+:\d+: (?:error: )?it is not proved .*\(`([^`]+)`\)", re.MULTILINE)
# How often declarations that don't fit are left out, since others may cite them.
ROUNDS = 3


def prover():
    """Returns the toolchain's own command as a module, so that the verdicts are its own, and each crate by its name."""
    try:
        rt = toolchain.module()
        toolchain.make_provers_quicker()
    except Failed as fault:
        sys.exit(f"edits: {fault}")
    os.environ.pop(rt.rtlib.ALLOW_C, None)
    rt.rtlib.guarded()
    return rt, {crate.name: crate for crate in rt.rtlib.crates_below(TOP)}


class Notes:
    """Which edits runs that were stopped found refused, each by its text, over one text of a crate: an edit says nothing of another."""

    def __init__(self, crate):
        self.file, self.lock = os.path.join(crate.folder, "out", "edits.refused"), threading.Lock()
        self.digest = digest_of(crate.name, without=edits_of(crate.name))

    def row(self, edit):
        return [self.digest, hashlib.sha256(text_of(edit).encode()).hexdigest()]

    def refused(self, edits):
        if not os.path.isfile(self.file):
            return []
        with open(self.file, encoding="utf-8") as lines:
            rows = [line.split() for line in lines]
        return [edit for edit in edits if self.row(edit) in rows]

    def note(self, edit):
        with self.lock, open(self.file, "a", encoding="utf-8") as out:
            out.write(" ".join(self.row(edit)) + "\n")

    def clear(self):
        if os.path.isfile(self.file):
            os.remove(self.file)


class Trial:
    """The edits of one crate, tried in any lane."""

    flags = ["--jobs", "1"]

    def __init__(self, rt, crate, kept, room, notes, asked=()):
        self.rt, self.crate, self.kept, self.room, self.notes = rt, crate, kept, room, notes
        # what a check of one function is asked besides
        self.asked = asked
        # (some kits say whether an edit is refused by a word, of which two mean yes, others by true and false)
        self.refusals = (rt.REFUSED, rt.AT_LIMIT) if hasattr(rt, "REFUSED") else (True,)
        self.free, self.made, self.lock = [], 0, threading.Lock()

    def take_copy(self):
        with self.lock:
            if self.free:
                return self.free.pop()
            self.made += 1
            copy = os.path.join(self.room, f"{self.crate.name}.{self.made}")
        shutil.copytree(self.kept, copy)
        return copy

    def try_one(self, edit):
        """Returns whether the edit is refused, and rt's line. What isn't refused over kept work is tried again from nothing."""
        copy = self.take_copy()
        verdict, text = self.rt.must_fail(self.crate, edit, self.flags, copy)
        refused, text = (True, text.replace("must-fail ", "edit ", 1)) if verdict in self.refusals else self.try_whole(edit)
        with self.lock:
            self.free.append(copy)
        refused, text = self.judged(edit, refused, text)
        if refused:
            self.notes.note(edit)
        return refused, text

    def try_whole(self, edit):
        """Returns whether the edit is refused by a check of the whole crate from nothing, and rt's line."""
        verdict, text = self.rt.must_fail(self.crate, edit, self.flags)
        return verdict in self.refusals, text.replace("must-fail ", "edit ", 1)

    def judged(self, edit, refused, text):
        """Returns what came of an edit that a check refused, where the function that it changes has proof files: by more than these."""
        function = refused and self.with_proof_files(edit)
        return self.try_fitted(edit, function) if function else (refused, text)

    def with_proof_files(self, edit):
        """Returns the function that an edit changes where it has proof files, else None."""
        place, top = place_of_edit(self.crate, edit), os.path.join(self.crate.folder, "proofs")
        folders = [folder for folder, _, files in os.walk(top) if any(file.endswith(".antt") for file in files)]
        names = ["::".join([self.crate.name, *os.path.relpath(folder, top).split(os.sep)]) for folder in folders]
        return place and place.named(self.crate.name, names)

    def said_of(self, function, texts):
        """What a check of one function says, over these texts of the crate."""
        return self.rt.checked(self.crate, texts, [*self.flags, "--only", function.partition("::")[2], *self.asked], None).stdout

    def try_fitted(self, edit, function, said=None):
        """Returns whether an edit is refused by more than proof files that don't fit it, or None where that can't be told; and a line.
        It is tried again, after a check of the function if one has said something already, without their declarations that name what
        the edit took away."""
        texts, left_out = self.rt.edited(text_of(edit), self.crate.folder)[0], []
        said = said or self.said_of(function, texts)
        misfits, others = faults_of(said, function)
        for _ in range(ROUNDS):
            if others or not misfits:
                break
            left_out += misfits
            for file in {file for file, _ in misfits}:
                with open(os.path.join(self.crate.folder, file), encoding="utf-8") as it:
                    texts[file] = without(it.read(), {name for at, name in left_out if at == file})
            said = self.said_of(function, texts)
            misfits, others = faults_of(said, function)
        label = f"edit {self.crate.name}/{os.path.basename(edit)}"
        verdict = dict(SAID.findall(said)).get(function)
        if is_proved(verdict):
            return False, f"{label}: NOT REFUSED: {function} is proved with this edit, without proofs that name what it took away"
        kinds, goals = {kind_of(name) for _, name in left_out}, OPEN_GOAL.findall(said)
        other = next((goal for goal in goals if kind_of(goal) not in kinds), None)
        if is_own_refusal(verdict) and (others or not left_out or other):
            return True, f"{label}: refused, as it must be, by the proof of {function}{f' ({other})' if other else ''}"
        if not is_own_refusal(verdict):
            return None, f"{label}: no verdict: the check of {function} alone didn't end with one"
        names = ", ".join(sorted({name for _, name in left_out}))
        return None, f"{label}: no verdict: proofs of {function} name what it took away: {names}; change a value and keep the names"

    def batches(self, edits):
        """The edits that can be tried together, in lists, each of different functions; and those that are tried alone."""
        batches, alone = [], []
        for edit in edits:
            place = self.applies(edit) and place_of_edit(self.crate, edit)
            fits = place and next((batch for batch in batches if self.fits(batch, edit, place)), None)
            if not place:
                alone.append(edit)
            elif fits is None:
                batches.append([(edit, place)])
            else:
                fits.append((edit, place))
        return batches, alone

    def applies(self, *edits):
        """Whether these edits can be applied together. By itself, rt says of an edit why it can't."""
        return not self.rt.edited("\n".join(map(text_of, edits)), self.crate.folder)[1]

    def fits(self, batch, edit, place):
        """Whether an edit is of no function of a batch, and can be applied beside its edits."""
        if any((place.module, place.name) == (other.module, other.name) for _, other in batch):
            return False
        return self.applies(*(one for one, _ in batch), edit)

    def try_batch(self, batch):
        """Tries edits of different functions in one check; returns rt's line for each that it refuses, and the edits that it doesn't."""
        texts, _ = self.rt.edited("\n".join(text_of(edit) for edit, _ in batch), self.crate.folder)
        copy = self.take_copy()
        ran = self.rt.checked(self.crate, texts, self.flags, copy)
        with self.lock:
            self.free.append(copy)
        lines = ran.stdout.rstrip("\n").split("\n")
        judged = ran.returncode == 1 and lines[-1].startswith("logic=not-proved") and not any(self.rt.unread(line, texts) for line in lines)
        said = dict(SAID.findall(ran.stdout)) if judged else {}
        refused, left = [], []
        for edit, place in batch:
            function = place.named(self.crate.name, said)
            if is_own_refusal(said.get(function)) and is_by_contract(ran.stdout, function):
                self.notes.note(edit)
                refused.append(f"edit {self.crate.name}/{os.path.basename(edit)}: refused, as it must be, by the proof of {function}")
            else:
                left.append(edit)
        return refused, left

    def end(self):
        """Returns whether the crate as it stands is still proved over each copy, which are then gone."""
        sound = all(not self.rt.checked(self.crate, {}, self.flags, copy).returncode for copy in self.free)
        for copy in self.free:
            shutil.rmtree(copy)
        return sound


def free_gigabytes():
    with open("/proc/meminfo", encoding="utf-8") as lines:
        return next(int(line.split()[1]) for line in lines if line.startswith("MemAvailable")) / (1024 * 1024)


def lanes_of_machine():
    return max(1, min(len(os.sched_getaffinity(0)), int(free_gigabytes() / GIGABYTES_OF_A_CHECK)))


def proved(crate):
    """Checks the crate, so that what is kept is of its text."""
    ran = subprocess.run(toolchain.command("check"), cwd=crate.folder, stdout=subprocess.PIPE, stderr=subprocess.STDOUT, errors="replace")
    if ran.returncode:
        print(f"edits: {crate.name} isn't proved as it stands:\n{ran.stdout[-2000:]}", flush=True)
    return ran.returncode == 0


def kept_of(rt, crate, is_built):
    """The folder of what a check of the crate as it stands keeps, or None where it isn't proved."""
    if not is_built:
        return os.path.join(crate.folder, "out", "incremental") if proved(crate) else None
    seed = rt.seeded(crate, Trial.flags)
    if not seed:
        print(f"edits: {crate.name} isn't proved over the libraries that stand built: run rt ci with no names first", flush=True)
    return seed and os.path.join(seed, "seed")


def try_crate(rt, crate, is_built, lanes, room):
    """Tries all edits of a crate; returns whether none was proved, and the lines of those without a verdict. Where all were refused, it
    records that."""
    edits, digest = edits_of(crate.name), digest_of(crate.name)
    kept = kept_of(rt, crate, is_built)
    if not kept:
        return False, []
    notes = Notes(crate)
    known = notes.refused(edits)
    trial = Trial(rt, crate, kept, room, notes)
    answers, untold = [True] * len(known), []
    if answers:
        print(f"edits: {crate.name}: {len(answers)} were refused by a run that was stopped", flush=True)
    with ThreadPoolExecutor(lanes) as pool:
        batches, alone = trial.batches([edit for edit in edits if edit not in known])
        for refused, left in pool.map(trial.try_batch, batches):
            for text in refused:
                print(f"edits: {text}", flush=True)
            answers += [True] * len(refused)
            alone += left
        for refused, text in pool.map(trial.try_one, alone):
            print(f"edits: {text}", flush=True)
            answers.append(refused)
            untold += [text] if refused is None else []
    if not trial.end():
        notes.clear()
        print(f"edits: {crate.name} isn't proved over the work kept beside its edits: remove its out/ and try again")
        return False, untold
    print(f"edits: {crate.name}: {answers.count(True)} refused, {answers.count(False)} not, {len(untold)} without a verdict", flush=True)
    if all(answers) and digest == digest_of(crate.name):
        record({crate.name: (digest, len(answers))})
        notes.clear()
    return False not in answers, untold


def try_all(names, is_built, lanes):
    rt, crates = prover()
    failed, untold = [], []
    with tempfile.TemporaryDirectory(prefix="edits-") as room:
        # (rt makes its seeds where temporary files go)
        tempfile.tempdir = room
        for name in names:
            if edits_of(name):
                is_sound, more = try_crate(rt, crates[name], is_built, lanes, room)
                failed += [] if is_sound else [name]
                untold += more
    for text in untold:
        print(f"edits: {text}")
    refused = f"none proved, {len(untold)} without a verdict" if untold else "all refused"
    print(f"edits: not all refused: {' '.join(failed)}" if failed else f"edits: {refused}, of {len(names)} crates")
    return 1 if failed else 0
