#!/usr/bin/env python3
"""The checks of tests/names/run over a small made-up tree, which is right as it stands: a test makes one thing wrong and sees it said."""
import contextlib
import io
import sys
import unittest
from pathlib import Path

sys.dont_write_bytecode = True
sys.path[:0] = [str(Path(__file__).resolve().parent), str(Path(__file__).resolve().parent.parent)]
from made_tree import MadeTree  # noqa: E402
from names import main, wrong  # noqa: E402
from numbers_said import said_numbers  # noqa: E402
from pages import named, said_edits  # noqa: E402
from tree import Tree, declared_in_antt, declared_in_rust  # noqa: E402

FILES = {
    "crates/sampling/specs/Lib.antt": "pub mod Words\n",
    "crates/sampling/specs/Words.antt": "-- what it says\nabbrev pub opened : ℕ → ℕ\nopened x = x\n",
    "crates/sampling/src/lib.rt": "mod door;\npub use door::open;\n",
    "crates/sampling/src/door.rt": "ghost use Rattle.sampling.specs.Words.{opened};\n\n"
    "pub fn open(x: u8) -> u8\n    ensures { result ≡ opened x }\n{\n    x\n}\n\nfn latch() {}\n",
    "crates/centralized_telescope/specs/Lib.antt": "pub mod Demand3\n",
    "crates/centralized_telescope/specs/Demand3.antt": "pub record Demand3 (x : ℕ) : Type 0 where\n  pub one : x ≡ 1\n  pub two : x ≡ 2\n\n"
    "abbrev pub demand3 : Type 0\ndemand3 = Demand3 1\n",
    "crates/centralized_telescope/src/lib.rt": "mod theorems;\npub use theorems::demand_3;\n",
    "crates/centralized_telescope/src/theorems.rt": "ghost use Rattle.centralized_telescope.specs.Demand3.{demand3};\n\n"
    "pub fn demand_3()\n    ensures { demand3 }\n{}\n",
    "crates/soundness/specs/Lib.antt": "pub mod Green\n",
    "crates/soundness/specs/Green.antt": "abbrev pub green : Type 0\ngreen = ℕ\n",
    "crates/soundness/src/lib.rt": "mod theorems;\npub use theorems::is_green;\n",
    "crates/soundness/src/theorems.rt": "ghost use Rattle.soundness.specs.Green.{green};\n\n"
    "pub fn is_green()\n    ensures { green }\n{}\n",
    "translate/wrong_translations": 'OTHER = (1,)\nWRONG = (\n    ("one", "a", "b"),\n    ("two", "a", "b"),\n)\n',
    "harness/src/main.rs": "Command::Compare => compare(),\n",
    "crates/sampling/must-fail/open_left.edit": "file: src/door.rt\nold: x\nnew: y\nfirst: a b\n",
    "tests/wrong_programs/sampling/door/open_shut.edit": "file: src/door.rt\nold: x\nnew: y\nfirst: a b\n",
    "tests/wrong_programs/sampling/door/open_late.edit": "file: src/door.rt\nold: x\nnew: y\nfirst: a b\ngate: no\n",
    "tests/wrong_programs/centralized_telescope/demand_3/demand3_one.edit": "file: specs/Demand3.antt\n"
    "old: x ≡ 1\nnew: x ≡ 3\nown: a b\ntheorem: demand_3\n",
    "tests/wrong_programs/centralized_telescope/demand_3/demand3_two.edit": "file: specs/Demand3.antt\n"
    "old: x ≡ 2\nnew: x ≡ 3\nown: a b\ntheorem: demand_3\n",
    "tests/wrong_programs/soundness/is_green/green_not.edit": "file: specs/Green.antt\nold: ℕ\nnew: ⊥\nown: a b\ntheorem: is_green\n",
    "docs/C.md": "# In C\n\nIt has 2 wrong translations, edits of the translator.\n",
    "docs/PROVED.md": """# Doors

The prover refuses five of what it may, to refuse 5 of the 6 wrong programs. See docs/TRACE.md, src/door.rt and target/none.
One theorems of crates/soundness: `is_green`. Before it `demand_3`.

| Call | What it gives | Definition |
|---|---|---|
| `open(x)` | x | `opened`, Words |
""",
    "docs/TRACE.md": """# Look-up

## Which text is meant

| SHA-256 | File | In 01 |
|---|---|---|
| 00 | src/src/none.rs | none |

## Doors

| № | Subject | Carried by |
|---|---|---|
| 1 | opens | definition `opened`, crates/sampling/specs/Words.antt; contract of `open`, crates/sampling/src/door.rt, by `latch` |
| 2 | shuts | refused: tests/wrong_programs/sampling/door/open_shut.edit, open_late.edit; run: `harness compare` |

## Demand 3

All that the third column names stands in crates/centralized_telescope/specs/Demand3.antt.

| № | Subject | Definition and fields |
|---|---|---|
| 1 | one | `Demand3`: `one` |
""",
    "docs/READING.md": """# Reading

What has to be believed of the two crates is there: 7 lines in 3 definitions, 0 of these lines in the core, and 2 lines in 1 definitions of crates/soundness/specs, then one contracts in its
src/theorems.rt. Of the one functions of crates/centralized_telescope/src/theorems.rt, `demand_3`; then `is_green`.

| Minutes | Lines | File, below `crates/` | What it says |
|---|---|---|---|
| 1 | 2 | sampling/specs/Words.antt | words |
| 1 | 5 | centralized_telescope/specs/Demand3.antt | the demand |
| 1 | 2 | soundness/specs/Green.antt | green |

| The Rust | Here | |
|---|---|---|
| `Door` | `open` and `latch` (door.rt) | the same (door.rs) |

| Definition | Why it matters | What speaks for it |
|---|---|---|
| `opened` (Words), `demand3` (Demand3) | all | nothing |

| Call | Its definition | Two wrong programs |
|---|---|---|
| `open` | `opened` | open_left (M), open_shut (W); also open_late (W), a wrong claim |
| demand 3 | `demand3` | of the statement one of each line (W, named demand3_..) |
| green | `green` | green_.. (W) |
""",
}


class Made(MadeTree):
    FILES = FILES

    def said(self, path=None, old="", new=""):
        """What is wrong while `old` is `new` in the file."""
        if path:
            self.exchange(path, old, new)
        found = [f"{page}: {what}" for page, _, what in wrong(Tree(self.top))]
        if path:
            self.put(path, FILES[path])
        return found

    def test_as_it_stands(self):
        self.assertEqual(self.said(), [])
        out = io.StringIO()
        with contextlib.redirect_stdout(out):
            self.assertEqual(main(self.top), 0)
        self.assertEqual(out.getvalue(), "pages: 5 of 6 wrong programs in the gate, 1 calls, 2 theorems; wrong: 0\n")

    def test_what_is_wrong_is_said_by_page_and_line(self):
        self.put("docs/PROVED.md", FILES["docs/PROVED.md"].replace("src/door.rt", "src/gate.rt"))
        out = io.StringIO()
        with contextlib.redirect_stdout(out):
            self.assertEqual(main(self.top), 1)
        self.assertIn("docs/PROVED.md:3: there is no src/gate.rt\n", out.getvalue())
        self.assertTrue(out.getvalue().endswith("; wrong: 1\n"))

    # ---- paths and names

    def test_paths(self):
        self.assertEqual(self.said("docs/PROVED.md", "docs/TRACE.md", "docs/NONE.md"), ["docs/PROVED.md: there is no docs/NONE.md"])
        said = ["docs/TRACE.md: there is no crates/sampling/specs/Word.antt"]
        self.assertEqual(self.said("docs/TRACE.md", "specs/Words.antt", "specs/Word.antt"), said)

    def test_a_definition_or_contract_beside_a_path(self):
        said = ["docs/TRACE.md: crates/sampling/specs/Words.antt declares no `shut`"]
        self.assertEqual(self.said("docs/TRACE.md", "definition `opened`", "definition `shut`"), said)
        # `x` stands in the file, and isn't declared there.
        said = ["docs/TRACE.md: crates/sampling/src/door.rt declares no `x`"]
        self.assertEqual(self.said("docs/TRACE.md", "contract of `open`", "contract of `x`"), said)

    def test_what_stands_behind_a_path(self):
        said = ["docs/TRACE.md: `hinge` is not in crates/sampling/src/door.rt"]
        self.assertEqual(self.said("docs/TRACE.md", "`latch`", "`hinge`"), said)

    def test_a_section_that_says_where_its_names_stand(self):
        said = self.said("docs/TRACE.md", "`Demand3`: `one`", "`Demand3`: `three`")
        self.assertEqual(said, ["docs/TRACE.md: crates/centralized_telescope/specs/Demand3.antt declares no `three`"])

    def test_a_command_of_the_harness(self):
        said = ["docs/TRACE.md: the harness has no command sing"]
        self.assertEqual(self.said("docs/TRACE.md", "`harness compare`", "`harness sing`"), said)

    def test_files_in_brackets(self):
        said = ["docs/READING.md: `hinge` is not declared in door.rt"]
        self.assertEqual(self.said("docs/READING.md", "`latch` (door", "`hinge` (door"), said)
        said = ["docs/READING.md: `opened` is not declared in Green"]
        self.assertEqual(self.said("docs/READING.md", "`opened` (Words)", "`opened` (Green)"), said)

    def test_calls(self):
        said = ["docs/PROVED.md: the public call open has no row in the table of calls", "docs/PROVED.md: `latch(x)` is no public call"]
        self.assertEqual(self.said("docs/PROVED.md", "`open(x)`", "`latch(x)`"), said)
        self.assertEqual(self.said("docs/PROVED.md", "`opened`", "`shut`"), ["docs/PROVED.md: `shut` is declared nowhere"])

    # ---- edits

    def test_edits(self):
        self.assertEqual(self.said("docs/TRACE.md", " open_late.edit", " open_soon.edit"), ["docs/TRACE.md: there is no edit open_soon"])
        said = ["docs/READING.md: there is no edit red_..", "tests/wrong_programs: no page names green_not"]
        self.assertEqual(self.said("docs/READING.md", "green_..", "red_.."), said)

    def test_marks(self):
        said = ["docs/READING.md: open_shut is marked M, and stands in the other folder"]
        self.assertEqual(self.said("docs/READING.md", "open_shut (W)", "open_shut (M)"), said)

    def test_an_edit_that_no_page_names(self):
        self.put("tests/wrong_programs/sampling/door/open_new.edit", "gate: no\n")
        self.assertIn("tests/wrong_programs: no page names open_new", self.said())

    def test_rooms(self):
        (self.top / "tests/wrong_programs/sampling/door/open_shut.edit").rename(self.top / "tests/wrong_programs/sampling/open_shut.edit")
        said = "open_shut doesn't stand in tests/wrong_programs/sampling/door, where tests/wrong_programs/rooms moves it"
        self.assertIn(f"tests/wrong_programs: {said}", self.said())
        self.put("tests/wrong_programs/sampling/door/open_left.edit", "file: src/door.rt\nold: x\nnew: y\nfirst: a b\n")
        self.assertIn("tests/wrong_programs: two edits are named open_left", self.said())

    def test_how_a_cell_names_edits(self):
        cell = "of these (W, named big_..): one_a, two_b. Of those a_b (M), c_.. and `not_this`, d_.._e (W); also f_g"
        self.assertEqual(
            [(one.pattern, one.mark) for one in said_edits(cell)],
            [("big_one_a", "W"), ("big_two_b", "W"), ("a_b", "M"), ("c_..", "W"), ("d_.._e", "W"), ("f_g", "")],
        )

    def test_which_path_a_name_stands_beside(self):
        cell = "contracts of `a`, crates/x.rt, and `b`, crates/y.rt: by `c`; law `d`, the same file; theorem `e`; code: `f`"
        self.assertEqual(
            [(one.name, one.kind, one.path, one.behind) for one in named(cell)],
            [
                ("a", "contract", "crates/x.rt", False),
                ("b", "contract", "crates/y.rt", False),
                ("c", "contract", "crates/y.rt", True),
                ("d", "law", "crates/y.rt", False),
                ("e", "theorem", "", False),
                ("f", "code", "", False),
            ],
        )

    def test_what_is_declared(self):
        antt = "-- not : this\nabbrev pub a : ℕ\na = b 1\npub record R (x : ℕ) : Type 0 where\n  pub f-1 : ℕ\n  case : R\npub ◌⊞◌ : ℕ\n"
        self.assertLessEqual({"a", "R", "f-1", "case", "◌⊞◌"}, declared_in_antt(antt))
        self.assertFalse(declared_in_antt(antt) & {"not", "this", "x", "b", "=", "ℕ", "where"})
        rust = "pub struct S {}\nimpl S {\n    pub fn new() {}\n}\npub extern \"C\" fn c() {}\n// fn no\nconst K: u8 = 1;\n"
        self.assertEqual(declared_in_rust(rust), {"S", "new", "S::new", "c", "K"})

    # ---- numbers

    def test_the_wrong_programs(self):
        said = ["docs/PROVED.md: 'refuse 4 of the 6 wrong programs', and counted are 5 and 6"]
        self.assertEqual(self.said("docs/PROVED.md", "refuse 5", "refuse 4"), said)

    def test_translations_and_theorems(self):
        said = ["docs/C.md: '3 wrong translations, edits of', and counted are 2"]
        self.assertEqual(self.said("docs/C.md", "2 wrong translations", "3 wrong translations"), said)
        self.assertEqual(len(self.said("docs/PROVED.md", "One theorems", "Two theorems")), 1)

    def test_lines_to_believe(self):
        said = "docs/READING.md: soundness/specs/Green.antt has 2 lines to believe, and not 3"
        self.assertEqual(self.said("docs/READING.md", "| 1 | 2 | soundness", "| 1 | 3 | soundness"), [said])
        self.assertEqual(len(self.said("docs/READING.md", "7 lines in 3", "7 lines in 4")), 1)
        self.assertEqual(len(self.said("docs/READING.md", "| 1 | 2 | soundness/specs/Green.antt | green |\n", "")), 1)

    def test_theorems(self):
        self.assertEqual(len(self.said("docs/READING.md", "the one functions", "the two functions")), 1)
        self.assertEqual(self.said("docs/READING.md", "`is_green`", "`is_red`"), ["docs/READING.md: the theorem is_green isn't named"])

    def test_a_number_that_the_page_no_longer_says(self):
        said = [(0, "it says nowhere 'has # doors', which is checked here")]
        self.assertEqual(list(said_numbers("no number here", "has # doors", [1])), said)
        self.assertEqual(list(said_numbers("has\nthree doors", "has # doors", [3])), [])

    # ---- the gate's rule

    def test_two_for_each_call(self):
        self.put("docs/PROVED.md", FILES["docs/PROVED.md"].replace("refuse 5", "refuse 4"))
        said = self.said("tests/wrong_programs/sampling/door/open_shut.edit", "first: a b\n", "first: a b\ngate: no\n")
        self.assertEqual(said, ["docs/READING.md: of the wrong programs of `open` (open_left ..) the gate tries 1, not two"])

    def test_one_for_each_theorem(self):
        self.put("docs/PROVED.md", FILES["docs/PROVED.md"].replace("refuse 5", "refuse 4"))
        said = self.said("tests/wrong_programs/soundness/is_green/green_not.edit", "own: a b\n", "own: a b\ngate: no\n")
        self.assertEqual(said, ["tests/wrong_programs: the gate tries no wrong program that breaks the theorem is_green"])

    def test_one_for_each_part_of_demand_3(self):
        self.put("docs/PROVED.md", FILES["docs/PROVED.md"].replace("refuse 5", "refuse 4"))
        said = self.said("tests/wrong_programs/centralized_telescope/demand_3/demand3_two.edit", "own: a b\n", "own: a b\ngate: no\n")
        self.assertEqual(said, ["tests/wrong_programs: the gate tries no wrong claim on line 3 of demand 3, Demand3 two"])
        self.put("docs/PROVED.md", FILES["docs/PROVED.md"].replace("5 of the 6", "4 of the 5"))
        (self.top / "tests/wrong_programs/centralized_telescope/demand_3/demand3_two.edit").unlink()
        self.assertEqual(self.said(), ["tests/wrong_programs: Demand3 two of demand 3 has no wrong claim"])


if __name__ == "__main__":
    unittest.main()
