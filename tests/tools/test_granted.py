"""What a guard is tried over: a crate whose other functions are granted, without their bodies, and what a check's words say of it."""
import pathlib
import tempfile
import types
import unittest

from tests.editing import granted, guards

SOURCE = """use low::{Item, place};

fn left(item: &Item) -> bool
    ensures { result ≡ record {
      item = item.now;
    } }
{
    item.is_left()
}

fn plain(
    item: &Item,
) -> bool {
    let all = || {
        place(item)
    };
    all()
}

impl Kept {
    /// One.
    pub fn one(&mut self) -> Result<(), Fault>
        requires { self.old.few ≡ record {
          few = 0;
        } }
        ensures few { OnOk result (self.new ≡ self.old) }
    {
        self.few += 1;
        Ok(())
    }
}
"""
# The modules that the library has of a crate's functions, and of what is no function or has no proof that could be granted.
MODULES = ["left.Code", "left.TheLink", "plain.Code", "fn.plain.all.Code", "Kept.one.Code", "Kept.one.Met", "Kept.one.Statement",
           "Kept.one.Reads", "Order.key.Code", "Order.key.Statement", "Kept.TheLaws", "Destruct++none.drop.Code"]


class OfCrate(unittest.TestCase):
    def setUp(self):
        top = pathlib.Path(self.enterContext(tempfile.TemporaryDirectory()))
        self.write(top / "crate" / "src" / "lib.rt", SOURCE)
        self.write(top / "crate" / "proofs" / "Kept" / "one" / "Answers.antt", "returns c = refl\n")
        self.write(top / "crate" / "proofs" / "fn" / "plain" / "all" / "Answers.antt", "returns c = refl\n")
        lines = ['["part/Rattle-kept-proofs.%s",0,1]\n' % module for module in MODULES]
        self.write(top / "kept.rlib" / "toolchain" / "checked.json", "".join(lines))
        self.crate = types.SimpleNamespace(name="kept", folder=str(top / "crate"), rlib=str(top / "kept.rlib"))

    def write(self, path, text):
        path.parent.mkdir(parents=True, exist_ok=True)
        path.write_text(text, encoding="utf-8")


class Granted(OfCrate):
    def test_functions(self):
        self.assertEqual(sorted(granted.functions_of(self.crate)), ["Kept.one", "left", "plain"])
        self.crate.rlib += ".none"
        self.assertEqual(granted.functions_of(self.crate), [])

    def test_functions_of_a_static_library(self):
        """It has no library, but what its check left, in which modules are named otherwise."""
        self.crate.rlib += ".none"
        lines = ['["Rattle-kept-proofs.%s",7,8]\n' % module for module in MODULES]
        self.write(pathlib.Path(self.crate.folder) / "out" / "checked" / "toolchain" / "checked.json", "".join(lines))
        self.assertEqual(sorted(granted.functions_of(self.crate)), ["Kept.one", "left", "plain"])

    def test_all_but_one(self):
        with granted.all_but(self.crate, ["left"]) as (own, asked):
            self.assertEqual((asked, own.name), (["--allow-holes"], "kept"))
            folder = pathlib.Path(own.folder)
            text = (folder / "src" / "lib.rt").read_text(encoding="utf-8")
            self.assertEqual(text, SOURCE.replace("    let all = || {\n        place(item)\n    };\n    all()\n", "    unreachable!()\n")
                             .replace("        self.few += 1;\n        Ok(())\n", "        unreachable!()\n"))
            found = sorted(str(path.relative_to(folder)) for path in (folder / "proofs").rglob("*.antt"))
            self.assertEqual(found, ["proofs/Anything.antt", "proofs/Kept/one/Proof.antt", "proofs/Lib.antt", "proofs/plain/Proof.antt"])
            self.assertIn("one_spec {M} = anything (stated.statement M)", (folder / "proofs/Kept/one/Proof.antt").read_text())
        self.assertFalse(folder.exists())

    def test_nothing_granted(self):
        """Where no library says which functions there are, the copy is the crate."""
        self.crate.rlib += ".none"
        with granted.all_but(self.crate, ["left"]) as (own, asked):
            self.assertEqual((asked, pathlib.Path(own.folder, "src", "lib.rt").read_text(encoding="utf-8")), ([], SOURCE))


class Verdicts(OfCrate):
    """What try_guards_of makes of what a check says of the function."""

    def tried(self, *said, status=1, last="only=1 holes=1"):
        """What comes of a guard, where the checks of its function say this one after the other."""
        guard = pathlib.Path(self.crate.folder, "guards", "less.edit")
        self.write(guard, "file: src/lib.rt\nonly: left\nold: item.is_left()\nnew: true\n")
        self.seen, words = [], iter(said)

        def checked(crate, texts, flags, kept):
            self.seen.append((dict(texts), flags, kept))
            return types.SimpleNamespace(returncode=status, stdout="%s\n%s\n" % (next(words), last))

        def edited(text, folder):
            source = pathlib.Path(folder, "src", "lib.rt").read_text(encoding="utf-8")
            return {"src/lib.rt": source.replace("item.is_left()", "true")}, None

        rt = types.SimpleNamespace(checked=checked, edited=edited, unread=lambda line, texts: False)
        (refused, text), = guards.try_guards_of(rt, self.crate, [str(guard)])
        self.assertEqual(len(self.seen), len(said))
        for texts, flags, kept in self.seen:
            self.assertEqual((flags[-3:], kept), (["--only", "left", "--allow-holes"], None))
            self.assertIn("    true\n}\n\nfn plain(\n    item: &Item,\n) -> bool {\n    unreachable!()\n}\n", texts["src/lib.rt"])
        return refused, text.partition(": ")[2].partition(":")[0]

    def test_refused(self):
        for said in ("no proof: expected answers in ./proofs/left/Answers.antt", "not proved; it stands on `returns`, which antt refuses"):
            self.assertEqual(self.tried("fn kept::left: " + said)[0], True, said)

    def test_proved_but_for_holes(self):
        for said in ("no holes", "depends on a hole in `Rattle.kept.proofs.Anything.anything`", "proved"):
            self.assertEqual(self.tried("fn kept::left: " + said), (False, "NOT REFUSED"), said)

    def test_proof_files_that_do_not_fit(self):
        """Where its own proof files alone refuse a guard, since they name what it took away, it is tried without what doesn't fit."""
        answers = pathlib.Path(self.crate.folder, "proofs", "left", "Answers.antt")
        self.write(answers, "pub returns : goal.returns\nreturns c = c.is_left\n")
        misfit = "./proofs/left/Answers.antt:2:13: error: `returns`: record `After` has no field `is_left`\nfn kept::left: not proved"
        goal = "note: src/lib.rt:4:5: it is not proved that what the function ensures holds when it returns (`%s`)\nfn kept::left: not proved"
        for said, verdict in (("fn kept::left: no holes", False), (goal % "returns", None), (goal % "overflow_add", True)):
            with self.subTest(said):
                self.assertEqual(self.tried(misfit, said)[0], verdict)
                self.assertEqual(self.seen[1][0]["proofs/left/Answers.antt"], "")

    def test_proof_files_that_fit(self):
        """An answer that fits and proves nothing refuses it at once."""
        fault = "./proofs/left/Answers.antt:2:13: error: `returns`: computed as far as they go, the two types differ\nfn kept::left: not proved"
        self.assertEqual(self.tried(fault)[0], True)

    def test_not_tried(self):
        self.assertEqual(self.tried("fn kept::plain: no holes"), (False, "NOT TRIED"))
        self.assertEqual(self.tried("fn kept::left: not proved", status=3), (False, "NOT TRIED"))
        self.assertEqual(self.tried("fn kept::left: not proved", last="logic=not-proved"), (False, "NOT TRIED"))


if __name__ == "__main__":
    unittest.main()
