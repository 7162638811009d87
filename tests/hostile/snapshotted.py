"""MMEs that are saved and restored, by the calculator, which is unproved and has each access checked (restarts.rt.txt)."""
import re
import subprocess

from tests.hostile import damaged, worked

SECONDS = 600  # for one run
# A row, and after how many of its events the snapshot is made: one phone is registered and on another path, and one has a vector.
# (tests/hostile/snapshots, over the library, is quicker, and has more.)
SNAPSHOTS = (("path_switch", 7),)
TOLD = re.compile(r"(\d+) octets: (\d+) restored with a bit turned, 0 that are cut")


def played(lines):
    """What the calculator prints for a trace whose MME is saved and restored as comments in it say."""
    done = subprocess.run([damaged.calculator.program(), "restarted"], input="".join(line + "\n" for line in lines), text=True,
                          capture_output=True, timeout=SECONDS, check=False)
    return done.stdout if done.returncode == 0 else "%sstatus %d: %s" % (done.stdout, done.returncode, done.stderr[-2000:])


def restarted_otherwise():
    """The rows whose answers aren't theirs where another MME goes on after each event, and how many rows there are."""
    rows = [row for row in sorted(worked.ROWS.glob("*.trace")) if not row.with_suffix(".errors").exists()]
    told = {row: played(["# every 1", *row.read_text(encoding="utf-8").splitlines()]) for row in rows}
    return [row.stem for row in rows if told[row] != row.with_suffix(".answers").read_text(encoding="utf-8")], len(rows)


def snapshot(name, events):
    """The lines of a row up to this event."""
    lines, count = [], 0
    for line in (worked.ROWS / (name + ".trace")).read_text(encoding="utf-8").splitlines():
        lines.append(line)
        count += line.split(" ")[0] in worked.EVENTS
        if count == events:
            return lines
    raise AssertionError("%s has fewer events" % name)


def turned():
    """What is wrong with snapshots of which each bit is turned and each cut tried, if anything, and how many bits and cuts that is,
    and how many of them are restored."""
    tried = restored = 0
    for name, events in SNAPSHOTS:
        last = played([*snapshot(name, events), "# hostile"]).splitlines()[-1:]
        found = TOLD.fullmatch(last[0]) if last else None
        if not found:
            return "%s after %d events: %s" % (name, events, last), 0, 0
        tried, restored = tried + 9 * int(found[1]), restored + int(found[2])
    return None, tried, restored
