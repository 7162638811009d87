"""What `tests/docs/write promises` writes of a crate of laws, of another crate's module of laws and of a crate's calls, and what
`tests/docs/run promises` says: of the page as it is written, and with one thing changed in the code or in the page."""
import contextlib
import io
import pathlib
import tempfile
import unittest
from unittest import mock

from tests.docs import promises_check

PAGE, ENDS, LAWS = "docs/PROMISES.md", "crates/laws_low/src/ends.rt", "crates/low/src/laws.rt"
LOW, STACK = "crates/low/src/lib.rt", "crates/low/src/stack.rt"
TEXTS = {
    PAGE: """# Promises

## Low

`low`. All octets are octets.

- `low` (`push`, `Stack::top`): Stacks of octets, and `Stack::top` of them.
- `push`: Adds an octet.
- `Stack` (`top`): Octets, one above the other. Takes no memory.
- `Stack::top`: The highest octet, as `push` left it.
- `Pile::lift`: Lifts it.
- People wrote this of `Stack`: it is small.

`low::laws`:

- `one_value`: Octets spell at most one value.

## Ends

`laws_low::ends`. Premise: the clock has ticks left, as `low::laws` has none.

- `all_ends`: All that begins ends: after 30 ticks (`longest`), whatever came before.
- `none_lasts`: And nothing lasts.
""",
    "crates/laws_low/src/lib.rt": "//! What ends.\n\npub mod ends;\n",
    "crates/laws_low/src/ends/pushing.rt": "//! What is pushed.\n\n/// Pushes.\npub(crate) fn push() {\n}\n",
    ENDS: """//! What ends of itself.

/// All that begins ends: after 30 ticks (`longest`), whatever
/// came before (TS 24.301 clauses 10.2, 5.3.5).
pub fn all_ends()
    ensures { AllEnds }
{}

/// And nothing lasts.
#[allow(unused)]
pub fn none_lasts()
    ensures { NoneLasts }
{}

fn helps() {
}
""",
    LAWS: "//! Laws.\n\n/// Octets spell at most one value.\npub fn one_value()\n{}\n",
    "crates/low/src/lib.rt": """//! Stacks of octets, and [`Stack::top`] of them.
//!
//! Nobody needs more.

mod laws;
mod stack;

/// Adds an octet (TS 24.301 clause 9.1).
///
/// Refused where memory is.
pub fn push() {
}
""",
    STACK: """//! A stack.

/// Octets, one above the other.
/// Takes no memory.
#[derive(Clone)]
// (which is small)
pub struct Stack {
}

impl<T> Stack<T> {
    /// The highest octet, as [`crate::push`] left it.
    pub fn top(&self) {
    }

    /// Helps alone.
    fn helps(&self) {
    }
}

/// What is lifted.
pub trait Pile {
    /// Lifts it.
    fn lift(&mut self)
        ensures { Lifted };
}
""",
}
FIRST = "- `all_ends`: All that begins ends: after 30 ticks (`longest`), whatever came before.\n"
LAST = "- `none_lasts`: And nothing lasts.\n"
ONE = "- `one_value`: Octets spell at most one value.\n\n"
# What each change is, in which text and of what to what, and what the check then says.
CHANGES = {
    "a comment": (ENDS, "nothing lasts.", "little lasts.", "lacks: - `none_lasts`: And little lasts."),
    "a law's name": (ENDS, "fn none_lasts", "fn few_last", "lacks: - `few_last`: And nothing lasts."),
    "a law more": (ENDS, "fn helps", "/// It helps.\npub fn helps", "lacks: - `helps`: It helps."),
    "a law less": (ENDS, "pub fn none_lasts", "fn none_lasts", "has: - `none_lasts`: And nothing lasts."),
    "a law without a comment": (ENDS, "/// And nothing lasts.\n", "", "laws_low::ends::none_lasts is a law without a comment"),
    "a comment that only cites": (LAWS, "Octets spell at most one value.", "(X.691)", "low::laws::one_value is a law without"),
    "words of an item": (PAGE, "nothing lasts", "all lasts", "has: - `none_lasts`: And all lasts."),
    "an item by hand": (PAGE, LAST, LAST + "- More.\n", "has: - More."),
    "an item less": (PAGE, "\n" + LAST, "\n", "lacks: - `none_lasts`"),
    "items in another order": (PAGE, FIRST + LAST, LAST + FIRST, "has its lines in another order"),
    "no list": (PAGE, ONE, "", "lacks: - `one_value`"),
    "no paragraph": (PAGE, "`low::laws`:\n\n" + ONE, "", "has 0 paragraphs of low::laws, a module of laws"),
    "a paragraph of another name": (PAGE, "`laws_low::ends`.", "`laws_low::stops`.", "has 0 paragraphs of laws_low::ends"),
    "a second paragraph": (PAGE, "## Ends\n", "## Ends\n\n`low::laws` again:\n", "has 2 paragraphs of low::laws"),
    "a call's comment": (LOW, "Adds an octet", "Adds one octet", "lacks: - `push`: Adds one octet."),
    "a call's comment that ends sooner": (STACK, "other.\n/// Takes", "other.\n///\n/// Takes",
                                          "lacks: - `Stack` (`top`): Octets, one above the other. ("),
    "a call without a comment": (STACK, "    /// Lifts it.\n", "", "has an item of Pile::lift, which has no comment"),
    "a call of another name": (STACK, "fn top", "fn bottom", "has an item of Stack::top, which isn't there"),
    "a call beside another that isn't there": (PAGE, "`Stack` (`top`)", "`Stack` (`bottom`)",
                                               "has bottom beside Stack, and it isn't there"),
    "a call of its file alone": (PAGE, "`Pile::lift`", "`Stack::helps`", "has an item of Stack::helps, which isn't there"),
    "a call of two crates": (PAGE, "`low`. All", "`low`, `laws_low`. All", "has an item of push, which several crates have"),
    "a crate's comment": (LOW, "Stacks of octets", "Piles of octets", "lacks: - `low` (`push`, `Stack::top`): Piles of octets"),
    "words of a call": (PAGE, "as `push` left it", "as it was left", "has: - `Stack::top`: The highest octet, as it was left."),
    "a paragraph without laws": (PAGE, "## Ends\n", "## Ends\n\n`low::push`:\n", "has a paragraph of low::push, which has no laws"),
}


class Promises(unittest.TestCase):
    def called(self, call, texts):
        """What a call prints and answers in a repository with these texts, and the page after it."""
        with tempfile.TemporaryDirectory() as folder, contextlib.redirect_stdout(io.StringIO()) as said:
            top = pathlib.Path(folder)
            for path, text in texts.items():
                (top / path).parent.mkdir(parents=True, exist_ok=True)
                (top / path).write_text(text, encoding="utf-8")
            with mock.patch.object(promises_check.tables, "TOP", top):
                answer = call()
            return said.getvalue(), answer, (top / PAGE).read_text(encoding="utf-8")

    def test_the_page_holds(self):
        self.assertEqual(self.called(promises_check.checked, TEXTS), ("", (8, 0), TEXTS[PAGE]))

    def test_lists_are_written(self):
        """Anew, where they are missing or wrong; what people wrote stays."""
        wrong = TEXTS[PAGE].replace(ONE, "").replace("whatever came", "and what came").replace("Adds an octet.", "")
        for page in (TEXTS[PAGE], wrong):
            self.assertEqual(self.called(promises_check.write, {**TEXTS, PAGE: page}), ("", None, TEXTS[PAGE]))

    def test_clauses_stay_in_the_code(self):
        texts = {**TEXTS, ENDS: TEXTS[ENDS].replace(" (TS 24.301 clauses 10.2, 5.3.5)", ""),
                 LOW: TEXTS[LOW].replace(" (TS 24.301 clause 9.1)", "")}
        self.assertEqual(self.called(promises_check.checked, texts), ("", (8, 0), TEXTS[PAGE]))

    def test_each_change_is_told(self):
        for what, (path, old, new, told) in CHANGES.items():
            with self.subTest(what):
                self.assertEqual(TEXTS[path].count(old), 1)
                texts = {**TEXTS, path: TEXTS[path].replace(old, new)}
                said, (passed, failed), _ = self.called(promises_check.checked, texts)
                self.assertIn(told, said)
                self.assertEqual(passed, 0)
                self.assertEqual(said.count("FAILED "), failed)
