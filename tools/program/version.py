#!/usr/bin/env python3
"""Says the version, the toolchain, and what the program that would run was made of: `./mme --version`.

    version.py PROGRAM             three lines; "proved" is said only where what the program's record has (record.py) still holds
    version.py --changed PROGRAM   what has changed since it was proved, in words, or nothing
"""
import pathlib
import subprocess
import sys
import time

sys.dont_write_bytecode = True
if __name__ == "__main__":
    sys.path[0] = str(pathlib.Path(__file__).resolve().parents[2])
from tools import versions
from tools.program import record


def commit():
    """The commit, where git tells it of this folder itself."""
    if not (record.TOP / ".git").exists():
        return None
    words = ["git", "-C", str(record.TOP), "describe", "--always", "--dirty"]
    try:
        return subprocess.run(words, capture_output=True, text=True, check=False).stdout.strip() or None
    except OSError:
        return None


def proved_when(told):
    """When a program was proved and built, where that is known, as a sentence has it, and for which processors."""
    if told["proved"] is None:
        return "for %s" % told["processor"]
    at = time.strptime(told["proved"], "%Y-%m-%dT%H:%M:%SZ")
    return "%s for %s" % (time.strftime("%Y-%m-%d %H:%M:%S UTC", at), told["processor"])


def basis():
    """What could be compared with the record."""
    if not record.has_sources():
        return ", to the octet"
    return ", of this text by this toolchain" if record.kit() else ", of this text; its toolchain isn't here"


def state_of(program):
    """What is known of the program that would run."""
    if not program.exists():
        return "not proved yet, an unproved one runs"
    told = record.read(program)
    if told is None:
        return "built, and no record says of what: ./mme --prove writes one"
    if record.digest_of(program) != told["program"]:
        return "not the one that was proved: its octets are others"
    changes = record.changed(told)
    if changes:
        return "proved and built %s, but since then %s" % (proved_when(told), "; ".join(changes))
    return "proved and built %s%s" % (proved_when(told), basis())


def print_changes(program):
    """Prints what has changed; where nothing has, the program becomes as new as its sources, so that nobody needs to look again."""
    told = record.read(program)
    changes = ["no record says of what the program is"] if told is None else record.changed(told)
    if changes:
        print("; ".join(changes))
        return
    try:
        program.touch()
    except OSError:
        pass  # somebody else's: the next run looks again


def main(given):
    if given[:1] == ["--changed"]:
        print_changes(pathlib.Path(given[1]))
        return 0
    described = commit()
    print("mme %s%s" % (versions.number(), ", commit " + described if described else ""))
    if record.has_sources():
        print("toolchain: %s" % (record.toolchain_name() or "none on the path"))
    else:
        told = record.read(pathlib.Path(given[0]))
        print("toolchain: %s" % (told["toolchain"]["name"] if told else "not recorded"))
    print("program: %s" % state_of(pathlib.Path(given[0])))
    return 0


if __name__ == "__main__":
    sys.exit(main(sys.argv[1:]))
