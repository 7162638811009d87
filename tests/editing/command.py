"""The command line of tests/edits."""
import argparse

from tests.editing.guards import try_added, try_guards
from tests.editing.records import carry, changed, check, crate_names
from tests.editing.trials import lanes_of_machine, try_all


def parser(doc):
    words = argparse.ArgumentParser(description=doc, formatter_class=argparse.RawDescriptionHelpFormatter)
    words.add_argument("names", nargs="*", metavar="NAME")
    words.add_argument("--all", action="store_true")
    words.add_argument("--changed", action="store_true")
    words.add_argument("--built", action="store_true")
    words.add_argument("--guards", action="store_true")
    words.add_argument("--check", action="store_true")
    words.add_argument("--beside", metavar="LOG")
    words.add_argument("--renamed", metavar="MAP")
    words.add_argument("--added", action="store_true")
    words.add_argument("--since", metavar="REV")
    words.add_argument("--lanes", type=int, default=0)
    return words


def main(doc):
    command = parser(doc)
    words = command.parse_args()
    unknown = [name for name in words.names if name not in crate_names()]
    if words.beside and not words.guards:
        command.error("--beside goes with --guards")
    if words.built and (words.guards or words.check or words.renamed or words.added):
        command.error("--built goes with crates, --changed or --all")
    if bool(words.renamed or words.added) != bool(words.since):
        command.error("--since goes with --renamed or --added, and these with it")
    if unknown or words.all + words.changed + words.guards + words.check + bool(words.renamed) + (words.added or bool(words.names)) != 1:
        command.error(f"no such crate: {' '.join(unknown)}" if unknown else "give crates, --changed, --all, --guards, --check, --renamed or --added")
    if words.check:
        return check()
    if words.renamed:
        return carry(words.renamed, words.since)
    if words.added:
        return try_added(words.since, words.names or crate_names(), words.lanes or lanes_of_machine())
    if words.guards:
        return try_guards(words.lanes or lanes_of_machine(), words.beside)
    names = crate_names() if words.all else changed() if words.changed else words.names
    return try_all(names, words.built, words.lanes or lanes_of_machine())
