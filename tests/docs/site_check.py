"""Follows the links of the site that docs/site writes: each leads to a page, a place in one or a file, or is the address
of something that isn't loaded; every document is there, and every page can be come by from the first."""
import html.parser
import os
import pathlib
import shutil
import subprocess
import tempfile

from tests.docs import tables
from tests.installed import left_out

DOCUMENTS = ("*.md", "docs/*.md", "crates/*.md", "bench/*.md", "deploy/*.md")
LOADED = {"img": "src", "script": "src", "link": "href", "iframe": "src", "source": "src", "object": "data"}
ELSEWHERE = ("http:", "https:", "//")


class Page(html.parser.HTMLParser):
    """What a page has: its places, where it leads, and what it loads."""

    def __init__(self, text):
        super().__init__()
        self.places, self.leads, self.loads, self.faults = set(), [], [], []
        self.feed(text)

    def handle_starttag(self, tag, attrs):
        given = dict(attrs)
        self.places.update(filter(None, (given.get("id"), given.get("name") if tag == "a" else None)))
        if tag == "a" and "href" in given:
            self.leads.append(given["href"])
        if tag in LOADED and given.get(LOADED[tag]):
            self.loads.append(given[LOADED[tag]])
        if tag == "script" or any(name.startswith("on") for name in given):
            self.faults.append("runs something: <%s>" % tag)
        if tag == "img" and not given.get("alt"):
            self.faults.append("a picture without words: %s" % given.get("src"))


def lead_fault(folder, pages, path, lead):
    """What is wrong with where a page leads, if anything."""
    if lead.startswith(ELSEWHERE):
        return None
    target, _, place = lead.partition("#")
    found = os.path.normpath(os.path.join(os.path.dirname(path), target)) if target else path
    if not (folder / found).is_file():
        return "%s leads nowhere" % lead
    if place and place not in pages[found].places:
        return "%s has no such place" % lead
    return None


def page_faults(folder, pages, path):
    """What was looked at in a page: for each what is wrong, if anything."""
    page = pages[path]
    yield from page.faults
    yield from (lead_fault(folder, pages, path, lead) for lead in page.leads)
    for load in page.loads:
        yield "%s is loaded from elsewhere" % load if load.startswith(ELSEWHERE) else lead_fault(folder, pages, path, load)
    text = (folder / path).read_text(encoding="utf-8")
    yield "something is loaded by its style" if "url(" in text or "@import" in text else None


def reached(pages, first):
    """The pages that can be come by from one."""
    found, todo = set(), [first]
    while todo:
        path = todo.pop()
        if path not in found:
            found.add(path)
            leads = [os.path.normpath(os.path.join(os.path.dirname(path), lead.partition("#")[0])) for lead in pages[path].leads]
            todo += [lead for lead in leads if lead in pages]
    return found


def looked_at(folder):
    """All that was looked at in the site: for each what is wrong, if anything."""
    texts = {str(path.relative_to(folder)): path.read_text(encoding="utf-8") for path in folder.rglob("*.html")}
    pages = {path: Page(text) for path, text in texts.items()}
    for pattern in DOCUMENTS:
        for path in sorted(tables.TOP.glob(pattern)):
            inside = str(path.relative_to(tables.TOP).with_suffix(".html"))
            name = "index.html" if inside == "README.html" else inside
            yield None if name in pages else "%s has no page" % path.relative_to(tables.TOP)
    for path in sorted(set(pages) - reached(pages, "index.html")):
        yield "nothing leads to %s" % path
    for path in sorted(pages):
        yield from ("%s: %s" % (path, fault) if fault else None for fault in page_faults(folder, pages, path))


def checked(_words=()):
    """How much was looked at and is right, and how much not; prints each that isn't."""
    if not shutil.which("pandoc"):
        return 0, left_out(1, "no pandoc to write the site with")
    with tempfile.TemporaryDirectory() as name:
        done = subprocess.run([tables.TOP / "docs" / "site", name], stderr=subprocess.PIPE, text=True, check=False)
        faults = ["docs/site: " + done.stderr.strip()] if done.returncode else list(looked_at(pathlib.Path(name)))
    wrong = list(filter(None, faults))
    for fault in wrong:
        print("FAILED " + fault)
    return len(faults) - len(wrong), len(wrong)
