"""wrong-programs on a small repository, and its parts on texts.

    python3 tools/test_wrong_programs.py
"""

from __future__ import annotations

import contextlib
import io
import sys
import tempfile
import unittest
from pathlib import Path

sys.path.insert(0, str(Path(__file__).resolve().parent))

from wrong_programs.bench import Unready  # noqa: E402
from wrong_programs.commands import chosen_edits, try_edits, try_mutants  # noqa: E402
from wrong_programs.mutants import mutants_in, mutants_of  # noqa: E402
from wrong_programs.repository import Aim, BadEdit, Edit, Repository, changes_of  # noqa: E402
from wrong_programs.source import functions_in, open_to_change  # noqa: E402
from wrong_programs.verdict import (  # noqa: E402
    ELSEWHERE,
    FACT,
    FIT,
    PROVED,
    REFUSED,
    UNCOMPILED,
    UNTOLD,
    first_error,
    is_at,
    is_settled,
    shown_by,
    verdict_of,
    verdicts_of,
)

ROOT = Path(__file__).resolve().parents[1]

SMALL = """// Two functions.
#![tactic(auto)]

pub mod more;

ghost use Rattle.std.specs.Prelude.{◌≡◌};

// Seven, by way of nought.
pub fn seven() -> u8
    ensures { result ≡ 7 }
{
    let mut n: u8 = 0;
    n = 7;
    n
}
"""

MORE = """ghost use Rattle.std.specs.Prelude.{◌≡◌};

pub fn same(n: u8) -> u8
    ensures { result ≡ n }
{
    n
}
"""

AT = "# refused at: src/lib.rt fn seven\nfile: src/lib.rt\n"
EDITS = {
    "must-fail/eight": f"# another number\n{AT}old:     n = 7;\nnew:     n = 8;\n",
    "wrong-programs/equal": f"{AT}old: let mut n: u8 = 0;\nnew: let mut n: u8 = 1;\n",
    "wrong-programs/uncompiled": f"{AT}old:     n = 7;\nnew:     n = seven;\n",
    "wrong-programs/unfound": f"{AT}old: m = 7;\nnew: m = 8;\n",
    "wrong-programs/twice": f"{AT}old: u8\nnew: u16\n",
    "wrong-programs/elsewhere": "# refused at: src/more.rt fn same\nfile: src/lib.rt\nold:     n = 7;\nnew:     n = 9;\n",
    # the first error is of `same`
    "wrong-programs/in_both": f"{AT}old:     n = 7;\nnew:     n = 6;\nfile: src/more.rt\nold:     n\nnew:     n / 2\n",
}


def small(folder: Path) -> Repository:
    """A repository of one crate and its edits."""
    (folder / "crates/small/src").mkdir(parents=True)
    (folder / "crates.txt").write_text("small: # one function\n")
    (folder / "crates/small/src/lib.rt").write_text(SMALL)
    (folder / "crates/small/src/more.rt").write_text(MORE)
    for name, text in EDITS.items():
        path = folder / "crates/small" / f"{name}.edit"
        path.parent.mkdir(exist_ok=True)
        path.write_text(text)
    return Repository(folder)


@contextlib.contextmanager
def printed():
    with contextlib.redirect_stdout(io.StringIO()) as out:
        yield out


def all_files(folder: Path) -> dict[str, str]:
    return {str(path.relative_to(folder)): path.read_text() for path in folder.rglob("*") if path.is_file()}


class OnAProver(unittest.TestCase):
    def setUp(self) -> None:
        scratch = tempfile.TemporaryDirectory()
        self.addCleanup(scratch.cleanup)
        self.repository = small(Path(scratch.name))

    def test_edits_by_verdict(self) -> None:
        before = all_files(self.repository.root)
        with printed() as out:
            tally = try_edits(self.repository, chosen_edits(self.repository, []), 2)
        self.assertEqual((tally.refused, tally.facts), (2, 2))
        self.assertEqual(sorted(tally.failed), [f"small/{name}" for name in ("elsewhere", "equal", "twice", "uncompiled", "unfound")])
        self.assertEqual(tally.last_line(), "wrong-programs: 7 edits, 2 refused, 2 of them by a fact, 5 failed")
        lines = {line.split(":")[0]: line for line in out.getvalue().splitlines()}
        self.assertRegex(lines["small/eight"], r"refused fact: .*src/lib\.rt:9:")
        self.assertRegex(lines["small/in_both"], r"refused \(\d+\.\d s\) fact: .*src/lib\.rt:9:")
        self.assertIn("PROVED", lines["small/equal"])
        self.assertRegex(lines["small/uncompiled"], r"DOESN'T COMPILE .*src/lib\.rt:13:")
        self.assertIn("it doesn't apply", lines["small/unfound"])
        self.assertRegex(lines["small/elsewhere"], r"REFUSED ELSEWHERE src/lib\.rt")
        self.assertEqual(all_files(self.repository.root), before)

    def test_anew_agrees(self) -> None:
        with printed():
            tally = try_edits(self.repository, chosen_edits(self.repository, []), 2, anew=True)
        self.assertEqual((tally.facts, len(tally.failed)), (2, 5))

    def test_an_unproved_crate_is_not_tried(self) -> None:
        (self.repository.crate("small") / "src/more.rt").write_text(MORE.replace("    n\n", "    7\n"))
        for words in (["equal"], ["eight", "equal"]):
            with self.assertRaises(Unready), printed():
                try_edits(self.repository, chosen_edits(self.repository, words), 2)

    def test_mutants(self) -> None:
        with printed():
            tally = try_mutants(self.repository, "small", 5, 1, 2)
        self.assertEqual(len(tally.survivors), 1, tally.survivors)
        self.assertIn("0 -> 1: PROVED", tally.survivors[0])
        self.assertEqual((tally.reached(), tally.facts), (4, 3))


class OnTexts(unittest.TestCase):
    maxDiff = None

    def test_edits_read_as_rt_reads_them(self) -> None:
        changes = changes_of("# why\nfile: src/a.rt\nold:   x = 1;\nnew:   x = 2;\nold: y\nnew:\nfile: specs/B.antt\nold: z\nnew: w")
        self.assertEqual([change.file for change in changes], ["src/a.rt", "src/a.rt", "specs/B.antt"])
        self.assertEqual([(change.old, change.new) for change in changes], [("  x = 1;", "  x = 2;"), ("y", ""), ("z", "w")])

    def test_pairs_apply_one_after_the_other(self) -> None:
        with tempfile.TemporaryDirectory() as scratch:
            folder = small(Path(scratch)).crate("small")
            edit = Edit("small", "e", changes_of("file: src/lib.rt\nold: n = 7;\nnew: n = 8;\nold: n = 8;\nnew: n = 9;\n"))
            self.assertIn("n = 9;", edit.texts(folder)["src/lib.rt"])
            with self.assertRaisesRegex(BadEdit, "changes nothing"):
                Edit("small", "e", changes_of("file: src/lib.rt\nold: n = 7;\nnew: n = 7;\n")).texts(folder)

    def test_edits_stay_in_their_crate(self) -> None:
        with tempfile.TemporaryDirectory() as scratch:
            (Path(scratch) / "other.rt").write_text("x")
            for file in ("../other.rt", "other.rt", "src/../other.rt", "src/none.rt"):
                with self.assertRaises(BadEdit):
                    Edit("c", "e", changes_of(f"file: {file}\nold: x\nnew: y\n")).texts(Path(scratch))
            with self.assertRaises(BadEdit):
                Edit("c", "e", ()).texts(Path(scratch))

    def test_edits_say_where_they_are_refused(self) -> None:
        with tempfile.TemporaryDirectory() as scratch:
            repository = small(Path(scratch))
            file = repository.crate("small") / "must-fail/eight.edit"
            text = file.read_text()
            line = "# refused at: src/lib.rt fn seven\n"
            aims = {
                line: Aim(function="seven"),
                "# refused at: proofs/more/same/Answers.antt\n": Aim(function="more::same"),
                "# refused at: proofs/more/+same/Invariants.antt\n": Aim(function="more::same"),
                "# refused at: src/more.rt\n": Aim(file="src/more.rt"),
            }
            for right, aim in aims.items():
                file.write_text(text.replace(line, right))
                self.assertEqual(repository.edit("small", file).aim, aim)
            wrongs = ("src/none.rt", "must-fail/eight.edit", "src/lib.rt seven", "src/lib.rt fn same", "proofs/same/Answers.antt", "proofs/More.antt")
            for wrong in ("", line + line, *(f"# refused at: {said}\n" for said in wrongs)):
                file.write_text(text.replace(line, wrong))
                with self.assertRaises(BadEdit):
                    repository.edits("small")

    def test_names_that_nobody_has(self) -> None:
        with self.assertRaises(BadEdit):
            chosen_edits(Repository(ROOT), ["no_such_edit"])

    def test_every_edit_applies(self) -> None:
        repository = Repository(ROOT)
        unapplied = []
        for edit in (edit for crate in repository.needs for edit in repository.edits(crate)):
            try:
                edit.texts(repository.crate(edit.crate))
            except BadEdit as wrong:
                unapplied.append(f"{edit.label}: {wrong}")
        self.assertEqual(unapplied, [])

    def test_documents_name_every_edit(self) -> None:
        said = (ROOT / "docs/PROOFS.md").read_text(encoding="utf-8")
        repository = Repository(ROOT)
        unsaid = [edit.label for crate in repository.needs for edit in repository.edits(crate) if edit.name not in said]
        self.assertEqual(unsaid, [])

    def test_functions_by_their_paths(self) -> None:
        text = (
            "// first\n#[tactic(auto)]\npub fn one() {}\nimpl Kind {\n    // second\n    fn two(self) {}\n}\n"
            "impl fmt::Display for Kind {\n    fn fmt() {}\n}\n\npub(crate) extern \"C\" fn three() {\n}\n"
        )
        found = [(function.path, function.first, function.last) for function in functions_in(Path(), "src/a/b.rt", text)]
        self.assertEqual(found, [("a::b::one", 1, 4), ("a::b::Kind::two", 5, 8), ("a::b::KindDisplay::fmt", 9, 11), ("a::b::three", 12, 14)])
        self.assertEqual([function.path for function in functions_in(Path(), "src/main.rt", "fn main() {}\n")], ["main"])

    def test_where_an_error_stands(self) -> None:
        with tempfile.TemporaryDirectory() as scratch:
            folder = small(Path(scratch)).crate("small")
            seven = Aim(function="seven")
            for place in ("src/lib.rt:8:1", "src/lib.rt:13:5", "proofs/seven/Answers.antt:3:1", "proofs/+seven/Invariants.antt:3:1", "seven"):
                self.assertTrue(is_at(place, seven, folder, {}), place)
            for place in ("", "src/lib.rt:6:1", "src/more.rt:5:1", "proofs/more/seven/Answers.antt:3:1", "proofs/Seven.antt:3:1", "more::same", "src/no.rt:1:1"):
                self.assertFalse(is_at(place, seven, folder, {}), place)
            self.assertTrue(is_at("src/lib.rt:9:1", seven, folder, {"src/lib.rt": f"\n{SMALL}"}))
            self.assertTrue(is_at("proofs/Masks.antt:3:1", Aim(file="proofs/Masks.antt"), folder, {}))
            self.assertFalse(is_at("proofs/Cut.antt:3:1", Aim(file="proofs/Masks.antt"), folder, {}))

    def test_what_must_fail_says(self) -> None:
        said = (
            "rt: small: begins with what a check kept in /x\n"
            "rt: must-fail small/a.edit: refused, as it must be: note: src/lib.rt:9:1: it is not proved that what the function ensures holds\n"
            "rt: must-fail small/b.edit: refused, as it must be: ./proofs/seven/Answers.antt:9:1: error: `returns`: expected type `T`, but\n"
            "rt: must-fail small/c.edit: refused, as it must be (only because a proof file names what the edit took away, so this says "
            "little of the contract: change a value and keep the names): ./proofs/seven/Answers.antt:2:1: error: `x` is not in scope\n"
            "rt: must-fail small/d.edit: refused, as it must be (only by a limit of the prover, which gave no verdict): src/lib.rt:9:1: error\n"
            "rt: must-fail small/e.edit: NOT REFUSED: the crate is still proved with this edit (one that means the same)\n"
            "rt: must-fail small/f.edit: BAD EDIT: it did not reach the prover; the first lines of what it said:\n"
            "src/lib.rt:20:9: error[mismatched-types]: expected `u8`\n"
            "rt: must-fail small/g.edit: NOT TRIED: its check was killed, so nothing is known of it: run this again\n"
            "rt: must-fail small/h.edit: refused, as it must be\n"
            "rt: must-fail small/i.edit: BAD EDIT: the prover cannot read the edited text, so no contract was tried: ./proofs/T.antt:7:5: error: 1\n"
        )
        found = verdicts_of(said)
        endings = {label.split("/")[1]: verdict.ending for label, verdict in found.items()}
        self.assertEqual(
            endings,
            {"a": REFUSED, "b": REFUSED, "c": REFUSED, "d": REFUSED, "e": PROVED, "f": UNCOMPILED, "g": UNTOLD, "h": REFUSED, "i": UNCOMPILED},
        )
        self.assertEqual([found[f"small/{name}"].shows for name in "abcdh"], [FACT, FACT, FIT, FIT, FIT])
        self.assertEqual((found["small/a"].place, found["small/b"].place), ("src/lib.rt:9:1", "proofs/seven/Answers.antt:9:1"))
        self.assertIn("expected `u8`", found["small/f"].message)
        with tempfile.TemporaryDirectory() as scratch:
            folder = small(Path(scratch)).crate("small")
            settled = [name for name in "abcdefghi" if is_settled(found[f"small/{name}"], Aim(function="seven"), folder, {})]
            self.assertEqual(settled, ["a", "b", "d", "e", "f", "g"])
            self.assertFalse(is_settled(found["small/a"], Aim(function="more::same"), folder, {}))

    def test_first_error_is_no_consequence(self) -> None:
        said = (
            "./proofs/A.antt:1:2: error: `a`: `close` was not admitted (it has holes), so this cannot be checked\n"
            "fn c::seven: not proved\n"
            "note: src/lib.rt:9:1: it is not proved that what the function ensures holds when it returns (`returns`)\n"
            "fn c::seven: no proof: expected answers in ./proofs/seven/Answers.antt; `search` did not prove `returns`\n"
            "./proofs/C.antt:4:5: error: `c`: `omega`: the goal does not follow from what it read.\n  at n = 1\nlogic=not-proved\n"
        )
        with tempfile.TemporaryDirectory() as scratch:
            folder = small(Path(scratch)).crate("small")

            def told(status: int, text: str, aim: Aim | None) -> tuple[str, str, str]:
                verdict = verdict_of(status, text, 0.0, "c", aim, folder, {})
                return verdict.ending, verdict.place, verdict.shows

            place, message = first_error(said)
            self.assertEqual((place, shown_by(message)[0]), ("src/lib.rt:9:1", FACT))
            omega = "`c`: `omega`: the goal does not follow from what it read.\nat n = 1"
            self.assertEqual(first_error(said.split("\n", 4)[4]), ("proofs/C.antt:4:5", omega))
            self.assertEqual(shown_by(first_error(said.split("\n")[0])[1])[0], FIT)
            self.assertEqual(told(1, said, Aim(file="proofs/C.antt")), (REFUSED, "proofs/C.antt:4:5", FACT))
            self.assertEqual(told(1, said, Aim(file="proofs/A.antt"))[0], ELSEWHERE)
            self.assertEqual(told(1, said, Aim(function="seven")), (REFUSED, "src/lib.rt:9:1", FACT))
            self.assertEqual(told(1, said, None), (REFUSED, "src/lib.rt:9:1", FACT))
            self.assertEqual(told(1, "fn c::more::same: no proof: `search` did not prove `returns`\nonly=1 proved=0\n", Aim(function="more::same"))[0], REFUSED)
            self.assertEqual(told(0, "only=1 proved=1\n", Aim(function="seven"))[0], PROVED)
            self.assertEqual(told(0, "logic=proved functions=4\n", None)[0], PROVED)
            self.assertEqual(told(3, said, None)[0], UNTOLD)
            self.assertEqual(told(1, "src/lib.rt:9:1: error[mismatched-types]: expected `u8`\n", None)[0], UNCOMPILED)
            gone = "./proofs/seven/Answers.antt:2:1: error: `f`: module `M` has no `x`\nnote: src/lib.rt:9:1: it is not proved that it holds\nlogic=not-proved\n"
            self.assertEqual(told(1, gone, Aim(function="seven")), (REFUSED, "src/lib.rt:9:1", FACT))
            self.assertEqual(shown_by("`rw`: no occurrence of the path's left endpoint in the goal")[0], FIT)
            self.assertEqual(shown_by("`retry-pauses`: `is_pausing op ≟ true`: does not hold")[0], FACT)

    def test_mutants_change_code_alone(self) -> None:
        text = (
            "// x < 1\nuse a::b;\npub struct P { pub a: u8, pub b: u8 }\nconst N: [u8; 2] = [3, 4];\n"
            "pub fn f(x: u8) -> P\n    requires { x < 5 }\n    ensures is { result ≡ record { a = 6 } }\n{\n"
            "    // y < 7\n    let mut z: u8 = g(x, 8);\n    if x < 9 && !h(b\"10\") {\n        z = 11;\n    }\n    P { a: z, b: x }\n}\n"
        )
        shown = open_to_change(text)
        self.assertEqual(len(shown), len(text))
        self.assertNotRegex(shown, r"[1567]\b(?<!11)|pub|use|10")
        names = [mutant.name.split(": ", 1)[1] for mutant in mutants_in("src/f.rt", text, "c")]
        self.assertEqual(
            [name for name in names if not name[0].isdigit()],
            ["< -> <=", "&& -> ||", "x, 8 -> 8, x", "a: z, b: x -> a: x, b: z", "z = 11; -> nothing", "! -> nothing"],
        )
        self.assertEqual(len([name for name in names if name[0].isdigit()]), 10)

    def test_each_mutant_applies_once(self) -> None:
        folder = ROOT / "crates/codec"
        for mutant in mutants_of(folder, "codec", 1):
            (change,) = mutant.changes
            self.assertEqual((folder / change.file).read_text().count(change.old), 1, mutant.name)
            self.assertNotEqual(change.old, change.new)

    def test_a_seed_gives_an_order(self) -> None:
        folder = ROOT / "crates/text"
        first, again, other = ([m.name for m in mutants_of(folder, "text", seed)] for seed in (1, 1, 2))
        self.assertEqual(first, again)
        self.assertNotEqual(first, other)
        self.assertEqual(sorted(first), sorted(other))


if __name__ == "__main__":
    unittest.main()
