"""What `tests/edits` carries over from a commit without trying it, by names alone and where edits were only added; which function an
edit changes; and what it makes of a check's words where a proof file doesn't fit the edit."""
import contextlib
import io
import pathlib
import subprocess
import tempfile
import types
import unittest
from unittest import mock

from tests.editing import records, trials, verdicts

EDIT = "file: src/lib.rt\nold: one\nnew: two\n"


class Edits(unittest.TestCase):
    def setUp(self):
        self.top = pathlib.Path(self.enterContext(tempfile.TemporaryDirectory()))
        self.enterContext(mock.patch.multiple(records, TOP=str(self.top), RECORD=str(self.top / "tests" / "edits.tried")))
        self.write("crates.txt", "low:\nhigh: low\n")
        for name in ("low", "high"):
            self.write("crates/%s/src/lib.rt" % name, "fn count() -> u64 {\n    one\n}\n")
            self.write("crates/%s/edits/first.edit" % name, EDIT)
        self.write("tests/edits.tried", "")
        records.record({name: (records.digest_of(name), 1) for name in ("low", "high")})
        for words in (["init", "-q"], ["add", "-A"], ["-c", "user.name=a", "-c", "user.email=a@b", "commit", "-q", "-m", "a text"]):
            subprocess.run(["git", *words], cwd=self.top, check=True)

    def write(self, file, text):
        path = self.top / file
        path.parent.mkdir(parents=True, exist_ok=True)
        path.write_text(text)

    def carried(self, renaming):
        self.write("map", renaming)
        with contextlib.redirect_stdout(io.StringIO()) as said:
            status = records.carry(str(self.top / "map"), "HEAD")
        return status, said.getvalue().splitlines()

    def test_text_that_stands(self):
        self.assertEqual(records.changed(), [])
        self.write("crates/low/src/lib.rt", "fn count() -> u64 { one + 1 }\n")
        self.assertEqual(records.changed(), ["low"])

    def added(self):
        return {name: [pathlib.Path(edit).name for edit in edits] for name, edits in records.added_since("HEAD").items()}

    def test_added(self):
        """Of a crate with other edits than at the commit those alone are left to try that didn't stand there so."""
        self.write("crates/low/edits/second.edit", EDIT)
        self.assertEqual(self.added(), {"low": ["second.edit"]})
        self.write("crates/low/edits/first.edit", "# another\n" + EDIT)
        self.assertEqual(self.added(), {"low": ["first.edit", "second.edit"]})

    def test_added_beside_another_change(self):
        """Where something else changed too, an edit more says nothing of those that were tried."""
        for file, text in (("src/lib.rt", "fn count() -> u64 { one + 1 }\n"), ("specs/Lib.antt", "one : N\n")):
            with self.subTest(file):
                subprocess.run(["git", "checkout", "-q", "."], cwd=self.top, check=True)
                self.write("crates/low/edits/second.edit", EDIT)
                self.write("crates/low/" + file, text)
                self.assertEqual(self.added(), {})
                (self.top / "crates" / "low" / file).unlink()

    def test_added_to_what_was_not_tried(self):
        """Nor does it where those of the commit weren't tried on its text."""
        self.write("crates/low/src/lib.rt", "fn count() -> u64 { one + 1 }\n")
        subprocess.run(["git", "-c", "user.name=a", "-c", "user.email=a@b", "commit", "-q", "-a", "-m", "another"], cwd=self.top, check=True)
        self.write("crates/low/edits/second.edit", EDIT)
        self.assertEqual(self.added(), {})

    def test_taken_away(self):
        """An edit that is gone leaves the others as they were tried; under another name it is tried again."""
        (self.top / "crates" / "low" / "edits" / "first.edit").rename(self.top / "crates" / "low" / "edits" / "second.edit")
        self.assertEqual(self.added(), {"low": ["second.edit"]})
        self.assertEqual(records.changed(), ["low"])

    def test_renamed(self):
        """A text that is the commit's by other names keeps its record; one that changed otherwise too doesn't."""
        for name in ("low", "high"):
            self.write("crates/%s/src/lib.rt" % name, "fn number() -> u64 {\n    one\n}\n")
        self.write("crates/high/specs/Lib.antt", "one : N\n")
        status, said = self.carried("* count number\n")
        self.assertEqual((status, said[-1]), (1, "edits: to be tried, since more than names has changed: high"))
        self.assertEqual(records.changed(), ["high"])

    def test_function_of_an_edit(self):
        """It is found in its own module, or else by its type, whose `impl` stands in another one."""
        text = "impl Draft {\n    pub fn send(&mut self) {\n        one\n    }\n}\n"
        place = verdicts.place_of(text, text.index("one"), "src/actions.rt")
        elsewhere, others = "low::draft::Draft::send", ["low::draft::Draft::of", "low::draft::Seal::send"]
        for names, found in (([*others, elsewhere], elsewhere),
                             ([elsewhere, "low::actions::Draft::send"], "low::actions::Draft::send"),
                             ([elsewhere, "low::solo::Draft::send"], None),
                             (others, None)):
            with self.subTest(names):
                self.assertEqual(place.named("low", names), found)

    def test_function_for_c(self):
        """So is one that C calls."""
        text = "#[unsafe(no_mangle)]\npub extern \"C\" fn low_number(octets: &[u8]) -> u32 {\n    one\n}\n"
        place = verdicts.place_of(text, text.index("one"), "src/codecs.rt")
        self.assertEqual(place.named("low", ["low::codecs::number", "low::codecs::low_number"]), "low::codecs::low_number")


# What a check of one function printed, in its own words and cut short: where its answers name a branch that the edit took away, where
# an answer fits and proves nothing, and where goals are open.
BY_NAME = """\
./proofs/reader/BitReader/align/Answers.antt:4:29: error: `returns-then-self-ne0`: `goal.returns-then-self-ne0`: module `Rattle.low.proofs.\
reader.BitReader.align.Goals` has no `returns-then-self-ne0` that can be named from here (names in it that begin alike: `returns`)
./proofs/reader/BitReader/align/Answers.antt:11:92: error: `returns`: record `Rattle.low.proofs.reader.BitReader.align.Lts.After-self2` has \
no field `if-self-ne0` (nearest: .if-self-eq1, .self)
  the fields that can be named here are `before`, `self-1`, `if-self-eq1`, `self`, `args`
./proofs/reader/BitReader/align/Answers.antt:11:5: note: `rw` rewrote the goal (in `returns`)
"""
BY_A_LONG_NAME = """\
./proofs/reader/BitReader/align/Answers.antt:4:29: error: `returns-then-self-ne0`: `goal.returns-then-self-ne0`: module `Rattle.low.proofs.\
reader.BitReader.align.Goals`
  has no `returns-then-self-ne0` that can be named from here
"""
BY_TYPE = """\
./proofs/reader/BitReader/align/Answers.antt:6:6: error: `returns-then-self-ne0`: computed as far as they go, the two types differ only \
where one has `Truncated`
  (expected) and the other has `Padding` (found)
"""
OPEN_RETURNS = """\
note: src/reader.rt:167:13: it is not proved that what the function ensures holds when it returns (`returns-then-self-eq1`)
"""
OPEN_INVARIANT = """\
note: src/reader.rt:162:5: it is not proved that the `invariant` of the struct's `impl Model` holds of its fields where it is next used \
whole (`invariant_of-self`); `search` gave up at one of its limits
"""
ALIGN, NOT_PROVED, PROVED = "low::reader::BitReader::align", "not proved\nonly=1 proved=0\n", "proved\nonly=1 proved=1\n"
ANSWERS = """\
use Rattle.low.specs.Bits.{octet_bits}

pub returns-then-self-ne0 : goal.returns-then-self-ne0
returns-then-self-ne0 c =
    let i = c.self.invariant in
    align_other i.1 c.if-self-ne0.true

same-self : goal.same-self
same-self c = refl

pub returns : goal.returns
returns c =
    align_zero c.if-self-ne0.false
"""


class Fitting(unittest.TestCase):
    """A function with a proof file, and a check that says these words in turn."""

    def setUp(self):
        self.top = pathlib.Path(self.enterContext(tempfile.TemporaryDirectory()))
        answers = "proofs/reader/BitReader/align/Answers.antt"
        for file, text in (("src/reader.rt", "impl BitReader {\n    fn align(&mut self) {\n        if one {\n    }\n}\n"),
                           (answers, ANSWERS), ("edits/first.edit", EDIT.replace("lib", "reader"))):
            (self.top / file).parent.mkdir(parents=True, exist_ok=True)
            (self.top / file).write_text(text)
        self.edit, self.tried = str(self.top / "edits" / "first.edit"), []

    def trial(self, *words):
        """The edits of the crate, with a toolchain that says these words."""
        said = iter(words)

        def checked(crate, texts, flags, kept):
            self.tried.append((dict(texts), flags))
            return types.SimpleNamespace(stdout=next(said), returncode=1)

        rt = types.SimpleNamespace(checked=checked, REFUSED="", AT_LIMIT="", unread=lambda line, texts: False,
                                   edited=lambda text, folder: ({"src/reader.rt": "an edited text"}, None))
        return trials.Trial(rt, types.SimpleNamespace(name="low", folder=str(self.top)), None, None, None)

    def fitted(self, *words):
        trial = self.trial(*words)
        return trial.try_fitted(self.edit, trial.with_proof_files(self.edit))

    def test_first_check(self):
        """That answers name what isn't there is no refusal by the contract, whatever else stays open for it."""
        for said, is_by_contract in ((BY_NAME, False), (BY_NAME + OPEN_RETURNS, False), (BY_TYPE, True), (BY_NAME + BY_TYPE, True),
                                     (BY_A_LONG_NAME, False), (BY_A_LONG_NAME + BY_TYPE, True),
                                     (OPEN_INVARIANT, True), (BY_NAME.replace("/align/", "/end/"), True)):
            self.assertEqual(verdicts.is_by_contract(said, ALIGN), is_by_contract, said)

    def test_batch(self):
        """In a check of several edits such a one is left to be tried alone."""
        ended = "logic=not-proved\n"
        for said, is_left in ((BY_NAME + OPEN_RETURNS, True), (BY_TYPE, False)):
            trial = self.trial("%sfn %s: not proved\n%s" % (said, ALIGN, ended))
            trial.notes, trial.free = mock.Mock(), ["a copy"]
            refused, left = trial.try_batch([(self.edit, verdicts.place_of_edit(trial.crate, self.edit))])
            self.assertEqual((left, len(refused)), ([self.edit] if is_left else [], int(not is_left)))

    def test_what_can_not_be_applied(self):
        """It is left to be tried alone, where rt says why."""
        for why, together in ((None, [1]), ("an 'old:' text is in src/reader.rt 2 times, and not once", [])):
            trial = self.trial()
            trial.rt.edited = lambda text, folder: (None if why else {}, why)
            batches, alone = trial.batches([self.edit])
            self.assertEqual((list(map(len, batches)), alone), (together, [self.edit] if why else []))

    def test_without_what_does_not_fit(self):
        """The second check has the answers that fit alone, and is of the function alone."""
        self.fitted("%sfn %s: %s" % (BY_NAME, ALIGN, NOT_PROVED), "fn %s: %s" % (ALIGN, PROVED))
        texts, flags = self.tried[1]
        kept = "use Rattle.low.specs.Bits.{octet_bits}\n\nsame-self : goal.same-self\nsame-self c = refl\n\n"
        self.assertEqual(texts, {"src/reader.rt": "an edited text", "proofs/reader/BitReader/align/Answers.antt": kept})
        self.assertEqual(flags[-2:], ["--only", "reader::BitReader::align"])

    def test_a_check_that_does_not_end(self):
        """What was said before a check broke off is no refusal."""
        for words in ([""], [OPEN_RETURNS], ["%sfn %s: %s" % (BY_NAME, ALIGN, NOT_PROVED), OPEN_INVARIANT]):
            self.assertIsNone(self.fitted(*words)[0], words)

    def test_what_the_prover_cannot_take(self):
        """A text that it can't take isn't refused by its contract."""
        for said in ("no proof: it calls `low::one`, which is not proved", "not proved; a bug in rattle leaves only a proof by hand", "proved",
                     "no holes", None):
            self.assertFalse(verdicts.is_own_refusal(said), said)

    def test_verdicts(self):
        """Refused by an answer that fits, or by a goal of another kind than the answers that are left out; proved; or not told."""
        for said, refused, told in (
                ([BY_NAME + OPEN_RETURNS, OPEN_RETURNS], None,
                 "no verdict: proofs of %s name what it took away: returns, returns-then-self-ne0;" % ALIGN),
                ([BY_NAME + OPEN_RETURNS, OPEN_RETURNS + OPEN_INVARIANT], True,
                 "refused, as it must be, by the proof of %s (invariant_of-self)" % ALIGN),
                ([BY_NAME, BY_TYPE.replace("returns-then-self-ne0", "same-self")], True, "refused, as it must be"),
                ([BY_TYPE], True, "refused, as it must be"), ([OPEN_RETURNS], True, "refused, as it must be"),
                ([BY_NAME, None], False, "NOT REFUSED: %s is proved with this edit" % ALIGN)):
            with self.subTest(told=told):
                words = ["%sfn %s: %s" % ((each, ALIGN, NOT_PROVED) if each else ("", ALIGN, PROVED)) for each in said]
                verdict, text = self.fitted(*words)
                self.assertEqual(verdict, refused, text)
                self.assertIn("edit low/first.edit: " + told, text)


if __name__ == "__main__":
    unittest.main()
