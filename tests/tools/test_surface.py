"""What `tests/docs/run surface` says of a front crate over one below it and one of elements: as they are listed, and with one thing
changed in the code or in the list."""
import contextlib
import io
import pathlib
import tempfile
import unittest
from unittest import mock

from tests.docs import surface_check

LIST = "tests/docs/surface.txt"
LOW, ELEMENTS = "crates/low/src/line.rt", "crates/elements/src/word.rt"
TEXTS = {
    LIST: """# a comment
front
    Line::new(Global, &str) -> Line
    Line::push(&mut self, u8, Mark) -> Result<(), LineFault>
    * Line::cut(&mut self, usize) -> Option<&[u8]>
    Line::wide(&self) -> Option<u8>
    Marked::mark(&self) -> Mark
    read_all<R: Read>(Global, &mut R) -> Result<Vec<u8>, LineFault>
    enum LineFault { TooLong, NoMemory }
    enum Mark { Number(u64),
        Pair { first: u8, second: u8 } }
    struct Place { line: u64, at: usize }
    type Line

elements
    element Spelled
    element Word
""",
    "docs/DECISIONS.md": """# Decisions

## Forms of calls

- `Line::cut` answers None where the line ends before.

## Other

- `Line::push` is said here.
""",
    "crates/front/src/lib.rt": "mod place;\n\npub use low::{Line, LineFault, Mark, Marked, read_all};\npub use place::Place;\n",
    "crates/front/src/place.rt": "/// A place.\npub struct Place {\n    pub line: u64,\n    pub at: usize,\n    room: u8,\n}\n",
    "crates/low/src/lib.rt": "mod line;\n\npub use line::{Line, LineFault, Mark, Marked, read_all};\n",
    LOW: """pub(crate) type Made = Option<u8>;

/// A fault.
pub enum LineFault {
    /// Too long.
    TooLong = 1,
    NoMemory = 2,
}

pub enum Mark {
    Number(u64),
    Pair {
        first: u8,
        second: u8,
    },
}

pub trait Marked {
    fn mark(&self) -> Mark
        ensures { Is result self.now };
}

pub struct Line<'a> {
    text: &'a str,
}

impl<'a> Line<'a> {
    pub fn new(alloc: Global, text: &'a str) -> Self
        ensures { result.text ≡ text }
    {
    }

    /// Adds a mark.
    pub fn push(
        &mut self,
        octet: u8,
        mark: low::Mark,
    ) -> Result<(), LineFault>
        requires { octet < 9 }
    {
    }

    pub fn cut(&mut self, at: usize) -> Option<&'a [u8]> {
    }

    pub fn wide(&self) -> Made {
    }
}

pub fn read_all<R: Read>(alloc: Global, reader: &mut R) -> Result<Vec<u8>, LineFault>
    ensures { All result }
{
}
""",
    "crates/elements/src/lib.rt": "mod word;\n\npub use word::{Spelled, Word};\n",
    ELEMENTS: """pub type Spelled<'a> = Parts<'a, Word, 2>;

pub struct Parts<'a, T: Drop, const N: usize> {
    parts: T,
}

pub struct Word {
    word: u8,
}

impl<'a, T: Drop, const N: usize> Element<'a>
    for Parts<'a, T, N>
{
    fn read(reader: u8) -> Self {
    }
}

impl<'a> Element<'a> for Word {
    fn read(reader: u8) -> Self {
    }
}
""",
}
# What each change is, in which text and of what to what, and what the check then says.
CHANGES = {
    "a parameter's type": (LOW, "octet: u8,", "octet: u16,", "`Line::push(&mut self, u16, Mark) -> Result<(), LineFault>`"),
    "a parameter more": (LOW, "mark: low::Mark,\n", "mark: low::Mark,\n        more: u8,\n",
                         "`Line::push(&mut self, u8, Mark, u8)"),
    "a parameter less": (LOW, "        octet: u8,\n", "", "`Line::push(&mut self, Mark)"),
    "parameters the other way round": (LOW, "octet: u8,\n        mark: low::Mark,", "mark: low::Mark,\n        octet: u8,",
                                       "`Line::push(&mut self, Mark, u8)"),
    "a receiver": (LOW, "cut(&mut self", "cut(&self", "`Line::cut(&self, usize)"),
    "a result's type": (LOW, "-> Option<&'a [u8]>", "-> Option<&'a str>", "-> Option<&str>`"),
    "a result's alias": (LOW, "type Made = Option<u8>", "type Made = Option<u16>", "-> Option<u16>`"),
    "a result of a trait": (LOW, "mark(&self) -> Mark", "mark(&self) -> u64", "`Marked::mark(&self) -> u64`"),
    "a result less": (LOW, "wide(&self) -> Made", "wide(&self)", "`Line::wide(&self)`"),
    "an error": (LOW, "Result<Vec<u8>, LineFault>", "Result<Vec<u8>, Mark>", "-> Result<Vec<u8>, Mark>`"),
    "a bound": (LOW, "<R: Read>", "<R: BufRead>", "`read_all<R: BufRead>("),
    "a method that isn't public": (LOW, "pub fn cut", "fn cut", "front::Line isn't there: `Line::cut("),
    "a function that isn't passed on": ("crates/front/src/lib.rt", ", read_all", "", "front::read_all isn't there"),
    "a variant's number": (LOW, "NoMemory = 2", "NoMemory = 3", "NoMemory = 3 }`"),
    "a variant's type": (LOW, "Number(u64)", "Number(u32)", "Number(u32)"),
    "a variant's field": (LOW, "second: u8", "second: u16", "second: u16"),
    "a field's type": ("crates/front/src/place.rt", "at: usize", "at: u32", "`struct Place { line: u64, at: u32 }`"),
    "an element that is none": (ELEMENTS, "Element<'a>\n", "Other<'a>\n", "elements::Spelled isn't an element there"),
    "a part of an element that is none": (ELEMENTS, "Element<'a> for Word", "Other<'a> for Word",
                                          "elements::Spelled isn't an element"),
    "an element that isn't listed": (LIST, "    element Word\n", "", "elements::Word isn't in the list"),
    "a call that isn't there": (LIST, "    type Line\n", "    Line::close(self)\n", "isn't there: `Line::close(self)`"),
    "the allocator in another place": (LIST, "(Global, &mut R)", "(&mut R, Global)",
                                       "read_all takes the allocator, but not first"),
    "the allocator of a type that keeps it": (LIST, "Line::push(&mut self, u8", "Line::push(&mut self, Global, u8",
                                              "Line::push takes the allocator, which its type keeps"),
    "no lack of memory": (LIST, "Result<Vec<u8>, LineFault>", "Result<Vec<u8>, Mark>",
                          "read_all takes the allocator, and can't answer"),
    "a decision without its reason": (LIST, "    Line::push", "    * Line::push",
                                      "Line::push is a decision, and docs/DECISIONS.md"),
    "a crate that isn't there": (LIST, "front\n", "back\n", "there is no crate back"),
    "a second type of a name": ("crates/front/src/place.rt", "pub struct Place", "pub enum Mark {}\n\npub struct Place",
                                "Mark are two types of one name: front, low"),
}


class Surface(unittest.TestCase):
    def checked(self, texts, shared=()):
        """What the check prints of a repository with these texts, and its counts, where these types are to share a name."""
        with tempfile.TemporaryDirectory() as folder, contextlib.ExitStack() as stack:
            top, said = pathlib.Path(folder), io.StringIO()
            for path, text in texts.items():
                (top / path).parent.mkdir(parents=True, exist_ok=True)
                (top / path).write_text(text, encoding="utf-8")
            stack.enter_context(mock.patch.object(surface_check.tables, "TOP", top))
            stack.enter_context(mock.patch.multiple(surface_check, CRATES=top / "crates", ELEMENTS="elements", GENERIC="low",
                                                     SHARED=dict.fromkeys(shared, "two things")))
            stack.enter_context(contextlib.redirect_stdout(said))
            for kept in (surface_check.declared, surface_check.passed_on):
                kept.cache_clear()
                stack.callback(kept.cache_clear)
            counts = surface_check.checked()
            return said.getvalue(), counts

    def test_the_list_holds(self):
        said, counts = self.checked(TEXTS)
        self.assertEqual((said, counts), ("", (3, 0)))

    def test_names_that_are_shared(self):
        """Two types may have a name that is listed, and a name that is listed is one of two types."""
        path = "crates/front/src/place.rt"
        twice = {**TEXTS, path: TEXTS[path] + "\npub enum Mark {}\n"}
        self.assertEqual(self.checked(twice, ["Mark"]), ("", (3, 0)))
        said, counts = self.checked(TEXTS, ["Mark"])
        self.assertEqual((said, counts), ("FAILED surface: Mark is one type, and no longer a name that is shared\n", (2, 1)))

    def test_each_change_is_told(self):
        for what, (path, old, new, told) in CHANGES.items():
            with self.subTest(what):
                self.assertEqual(TEXTS[path].count(old), 1)
                said, (passed, failed) = self.checked({**TEXTS, path: TEXTS[path].replace(old, new)})
                self.assertIn(told, said)
                self.assertTrue(failed)
                self.assertEqual(passed + failed, 3)
