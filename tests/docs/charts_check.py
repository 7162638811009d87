"""Compares docs/charts with what tools/charts draws: each script of examples/ has its chart, no chart is of another script, each is
letter for letter what is drawn now, and docs/TOUR.md shows each."""
import pathlib
import re
import subprocess
import tempfile

from tests.docs import tables

CHARTS = tables.TOP / "docs" / "charts"


def drawn():
    """The charts by their names as tools/charts draws them, and what it says."""
    with tempfile.TemporaryDirectory() as folder:
        done = subprocess.run([tables.TOP / "tools" / "charts", folder], capture_output=True, text=True, check=False)
        return {path.stem: path.read_bytes() for path in pathlib.Path(folder).iterdir()}, done.stderr.strip()


def faults_of(name, fresh, kept, shown):
    """What is wrong with the chart of this script."""
    if name not in kept:
        return ["there is no docs/charts/%s.svg" % name]
    wrong = [] if kept[name] == fresh.get(name) else ["docs/charts/%s.svg isn't what tools/charts draws" % name]
    return wrong + ([] if name in shown else ["docs/TOUR.md doesn't show docs/charts/%s.svg" % name])


def checked(_words=()):
    """How many charts are as they should be, and what is wrong with others; prints that."""
    fresh, said = drawn()
    kept = {path.stem: path.read_bytes() for path in CHARTS.glob("*.svg")}
    shown = set(re.findall(r"^ *!\[[^]]+\]\(charts/(\w+)\.svg\)$", tables.text("docs/TOUR.md"), re.M))
    scripts = {path.stem for path in (tables.TOP / "examples").glob("*.script")}
    passed, faults = 0, ["tools/charts says " + said] if said else []
    faults += ["docs/charts/%s.svg is of no script" % name for name in sorted((kept.keys() | shown) - scripts)]
    for name in sorted(scripts):
        wrong = faults_of(name, fresh, kept, shown)
        passed += not wrong
        faults += wrong
    for fault in faults:
        print("FAILED " + fault)
    return passed, len(faults)
