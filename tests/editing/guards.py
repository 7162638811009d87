"""Trials of guards, each by the proof of the function that it names, and of edits that were added since a commit."""
import os
import re
import threading
from concurrent.futures import ThreadPoolExecutor

from tests.beside import BETWEEN_LOOKS, proved_in
from tests.editing.granted import all_but
from tests.editing.records import added_since, changed, crate_names, digest_of, edits_of, function_of, guards_of, record, text_of
from tests.editing.trials import GIGABYTES_OF_A_CHECK, Trial, free_gigabytes, prover
from tests.editing.verdicts import SAID, is_by_contract, is_own_refusal, is_proved

# The last line of a check of some functions alone.
SOME_CHECKED = re.compile(r"^only=(\d+) (?:proved|holes)=(\d+)\b")


def guard_batches(guards):
    """The guards of a crate in lists, each for one check: no two of a list name the same function."""
    batches = []
    for guard in guards:
        fits = next((batch for batch in batches if function_of(guard) not in map(function_of, batch)), None)
        if fits is None:
            batches.append([guard])
        else:
            fits.append(guard)
    return batches


def try_guards_of(rt, crate, guards):
    """Tries guards of different functions of a crate in one check of these functions, where all others are granted; gives of each whether
    it is refused, or None where that can't be told, and a line that says so.

    A function is proved by the contracts of those that it calls and not by their bodies, so what one guard makes wrong refuses no other.
    One that is refused by proof files alone that don't fit it is tried again without what doesn't, as other edits are."""
    functions = [function_of(guard) for guard in guards]
    labels = [f"guard {crate.name}/{os.path.basename(guard)}" for guard in guards]
    with all_but(crate, functions) as (own, asked):
        texts, why = rt.edited("\n".join(map(text_of, guards)), own.folder)
        if why:
            return [(False, f"{label}: NOT TRIED: {why}") for label in labels]
        only = [word for function in functions for word in ("--only", function)]
        ran = rt.checked(own, texts, [*Trial.flags, *only, *asked], None)
        lines = ran.stdout.rstrip("\n").split("\n")
        ended = ran.returncode in (0, 1) and SOME_CHECKED.match(lines[-1]) and not any(rt.unread(line, texts) for line in lines)
        found = []
        said = dict(SAID.findall(ran.stdout)) if ended else {}
        for guard, function, label in zip(guards, functions, labels):
            name = f"{crate.name}::{function}"
            verdict = said.get(name)
            if is_own_refusal(verdict) and is_by_contract(ran.stdout, name):
                found.append((True, f"{label}: refused, as it must be, by the proof of {function}"))
            elif is_own_refusal(verdict):
                refused, text = Trial(rt, own, None, None, None, asked).try_fitted(guard, name, ran.stdout)
                found.append((refused, text.replace("edit ", "guard ", 1)))
            elif is_proved(verdict):
                found.append((False, f"{label}: NOT REFUSED: {function} is still proved with this edit"))
            else:
                last = "\n".join(lines[-6:])
                found.append((False, f"{label}: NOT TRIED: the check of {function} ended with status {ran.returncode}:\n{last}"))
    return found


def try_in_turn(rt, crate, batches, places, is_alone):
    """Tries the guards of a crate, says what came of them, and gives how many were refused. Until the guards are alone it waits for a
    place, and for memory: a `rt ci` beside counts with what was free when it began."""
    placed = False
    while not placed and not is_alone.is_set():
        placed = places.acquire(timeout=BETWEEN_LOOKS)
    while free_gigabytes() < GIGABYTES_OF_A_CHECK and not is_alone.wait(BETWEEN_LOOKS):
        pass
    passed = 0
    for batch in batches:
        for refused, text in try_guards_of(rt, crate, batch):
            print(f"edits: {text}", flush=True)
            passed += refused is True
    if placed:
        places.release()
    return passed


def try_guards(lanes, log):
    """Tries every guard, several crates at once, where a log is given each once its crate is proved, and until all are in half of the lanes; the last line is 'N passed, M failed'."""
    rt, crates = prover()
    guarded = {name: guard_batches(guards_of(name)) for name in crate_names() if guards_of(name)}
    places, is_alone, tasks = threading.Semaphore(max(1, lanes // 2)), threading.Event(), []
    with ThreadPoolExecutor(lanes) as pool:
        for name in proved_in(log) if log else guarded:
            if name in guarded:
                tasks.append(pool.submit(try_in_turn, rt, crates[name], guarded[name], places, is_alone))
        is_alone.set()
        passed = sum(task.result() for task in tasks)
    failed = sum(len(batch) for batches in guarded.values() for batch in batches) - passed
    print(f"{passed} passed, {failed} failed")
    return 1 if failed else 0


def try_added(since, names, lanes):
    """Tries the edits that were added since a commit, of these crates; returns the status, and records each all of whose are refused."""
    rt, crates = prover()
    added = {name: edits for name, edits in added_since(since).items() if name in names}

    def tried(name):
        digest, trial = digest_of(name), Trial(rt, crates[name], None, None, None)
        answers = []
        for edits in guard_batches([edit for edit in added[name] if function_of(edit)]):
            answers += try_guards_of(rt, crates[name], edits)
        answers += [trial.judged(edit, *trial.try_whole(edit)) for edit in added[name] if not function_of(edit)]
        for _, text in answers:
            print(f"edits: {text}", flush=True)
        return digest if all(refused for refused, _ in answers) and digest == digest_of(name) else None

    with ThreadPoolExecutor(lanes) as pool:
        rows = {name: digest for name, digest in zip(added, pool.map(tried, added)) if digest}
    record({name: (digest, len(edits_of(name))) for name, digest in rows.items()})
    print(f"edits: {sum(len(added[name]) for name in rows)} more refused, of {len(rows)} crates")
    left = [name for name in changed() if name in names]
    if left:
        print(f"edits: to be tried: {' '.join(left)}")
    return 1 if left else 0
