#!/usr/bin/env python3
"""What is counted, over small made-up trees: each test has one thing that could be missed or counted twice."""
import contextlib
import io
import sys
import tempfile
import unittest
import unittest.mock
from pathlib import Path

sys.dont_write_bytecode = True
sys.path.insert(0, str(Path(__file__).resolve().parent))
from believed import CRATES, Count, Stop, main, table  # noqa: E402

LIB = "mod door;\n\npub use door::open;\n"
DOOR = """ghost use Rattle.sampling.specs.Words.{opened};

pub fn open(x: u8) -> u8
    ensures { result ≡ opened x }
{
    x
}
"""
WORDS = """-- what it says
use Rattle.std.specs.Prelude.{ℕ}

-- the answer
abbrev pub opened : ℕ → ℕ
opened x = half x -- see below

unfoldable pub half : ℕ → ℕ
half x =
    x

abbrev pub spare : ℕ
spare = 1
"""


class Tree(unittest.TestCase):
    def setUp(self):
        self.folder = tempfile.TemporaryDirectory()
        self.addCleanup(self.folder.cleanup)
        for crate in CRATES:
            self.put(f"{crate}/specs/Lib.antt", "")
            self.put(f"{crate}/src/lib.rt", "")
        self.put("sampling/specs/Lib.antt", "pub mod Words\npub mod laws\n")
        self.put("sampling/src/lib.rt", LIB)
        self.put("sampling/src/door.rt", DOOR)
        self.put("sampling/specs/Words.antt", WORDS)

    def put(self, path, text):
        file = Path(self.folder.name, "crates", path)
        file.parent.mkdir(parents=True, exist_ok=True)
        file.write_text(text, encoding="utf-8")

    def count(self, *also):
        return Count(Path(self.folder.name, "crates"), list(also))

    def row(self, *also):
        return [(row.file, row.reached, row.definitions, row.beside) for row in self.count(*also).rows()]

    def test_definitions_are_followed_and_comments_not_counted(self):
        self.assertEqual(self.row(), [("sampling/specs/Words.antt", 5, 2, 2)])

    def test_what_is_unreached_is_said(self):
        self.put("sampling/proofs/Use.antt", "use Rattle.sampling.specs.Words.{spare, half}\n")
        self.assertEqual(self.count().unreached(), ["sampling/specs/Words.antt spare, 2 lines: sampling/proofs/Use.antt"])

    def test_what_is_imported_by_nothing_is_said_so(self):
        self.assertEqual(self.count().unreached(), ["sampling/specs/Words.antt spare, 2 lines: nothing imports it"])

    def test_also_starts_from_a_definition(self):
        self.assertEqual(self.row("sampling/Words.spare"), [("sampling/specs/Words.antt", 7, 3, 0)])
        with self.assertRaisesRegex(Stop, "there is no definition sampling/Words.none"):
            self.count("sampling/Words.none")

    def test_a_private_function_starts_nothing(self):
        self.put("sampling/src/lib.rt", "mod door;\n")
        self.assertEqual(self.row(), [])

    def test_an_exported_function_is_public(self):
        self.put("sampling/src/lib.rt", "mod door;\n")
        self.put("sampling/src/door.rt", DOOR.replace("pub fn", 'pub extern "C" fn'))
        self.assertEqual(self.row(), [("sampling/specs/Words.antt", 5, 2, 2)])

    def test_all_of_a_public_module_is_public_and_methods_go_by_their_type(self):
        self.put("sampling/src/lib.rt", "pub mod door;\n")
        self.assertEqual(self.row(), [("sampling/specs/Words.antt", 5, 2, 2)])
        self.put("sampling/src/lib.rt", "pub use door::Door;\n")
        body = DOOR.split("\n", 1)
        self.put("sampling/src/door.rt", f"{body[0]}\nimpl Door {{\n    {body[1]}}}\n")
        self.assertEqual(self.row(), [("sampling/specs/Words.antt", 5, 2, 2)])
        self.assertEqual(list(self.count().found.functions), ["sampling/door::Door::open"])

    def test_only_the_contract_starts(self):
        self.put("sampling/src/door.rt", DOOR.replace("{\n    x", "{\n    spare").replace("{opened}", "{opened, spare}"))
        self.assertEqual(self.row(), [("sampling/specs/Words.antt", 5, 2, 2)])

    def test_a_public_function_that_is_not_there(self):
        self.put("sampling/src/lib.rt", LIB + "pub use door::shut;\n")
        with self.assertRaisesRegex(Stop, "there is no public function sampling/door::shut"):
            self.count()

    def test_names_that_one_line_or_several_make_public(self):
        self.put("sampling/src/door.rt", DOOR + DOOR.split("\n", 1)[1].replace("open(", "shut(").replace("opened", "spare"))
        for listed in ("{open, shut}", "{\n    open,\n    shut,\n}"):
            self.put("sampling/src/lib.rt", f"mod door;\n\npub use door::{listed};\n")
            self.assertEqual(list(self.count().found.functions), ["sampling/door::open", "sampling/door::shut"])
        self.put("sampling/src/lib.rt", "mod door;\n\npub use door::{open, shuts};\n")
        with self.assertRaisesRegex(Stop, "there is no public function sampling/door::shuts"):
            self.count()

    def test_modules_by_another_name_operators_and_infix(self):
        self.put("sampling/specs/Lib.antt", "pub mod Words\npub mod Sums\n")
        self.put("sampling/specs/Sums.antt", "infixl 6 ◌⊞◌\nabbrev pub ◌⊞◌ : ℕ → ℕ → ℕ\na ⊞ b = a\n")
        uses = WORDS.replace("half x -- see below", "(s.◌⊞◌ x)")
        self.put("sampling/specs/Words.antt", "use Rattle.sampling.specs.Sums as s;\n" + uses)
        self.assertEqual(self.row(), [("sampling/specs/Words.antt", 2, 1, 5), ("sampling/specs/Sums.antt", 3, 1, 0)])
        uses = WORDS.replace("half x -- see below", "x ⊞ x")
        self.put("sampling/specs/Words.antt", "use Rattle.sampling.specs.Sums.{◌⊞◌}\n" + uses)
        self.assertEqual(self.row(), [("sampling/specs/Words.antt", 2, 1, 5), ("sampling/specs/Sums.antt", 3, 1, 0)])

    def test_a_module_around_is_counted_with_what_it_holds(self):
        inside = "  abbrev pub opened : T\n  opened = x\n\n  pub more : T\n  more = y\n"
        self.put("sampling/specs/Words.antt", "module _ (T : Type 0) where\n" + inside)
        self.assertEqual(self.row(), [("sampling/specs/Words.antt", 3, 1, 2)])

    def test_the_fields_of_a_record_are_its_lines(self):
        self.put("sampling/specs/Words.antt", "pub record opened (x : ℕ) : Type 0 where\n  -- why\n  pub one : ℕ\n  pub two : ℕ\n")
        self.assertEqual(self.row(), [("sampling/specs/Words.antt", 3, 1, 0)])

    def test_laws_are_outside(self):
        self.put("sampling/specs/laws/More.antt", "pub law : ℕ\nlaw = 1\n")
        self.put("sampling/specs/Words.antt", "use Rattle.sampling.specs.laws.More.{law}\n" + WORDS.replace("half x --", "law --"))
        self.assertEqual(self.count().outside(), ["sampling/specs/laws/More.antt law: reached, but outside the reading order"])

    def tiers(self, core, later):
        """`open` is a call of the core here: core/Words has what it says, later/More another definition."""
        Path(self.folder.name, "crates/sampling/specs/Words.antt").unlink()
        self.put("sampling/specs/Lib.antt", "pub mod core\npub mod later\n")
        self.put("sampling/specs/core.antt", "pub mod Words\n")
        self.put("sampling/specs/later.antt", "pub mod More\n")
        self.put("sampling/specs/core/Words.antt", core)
        self.put("sampling/specs/later/More.antt", later)
        self.put("sampling/src/door.rt", DOOR.replace("specs.Words", "specs.core.Words"))
        with unittest.mock.patch("believed.CORE_CALLS", ("sampling/door::open",)):
            return self.count("sampling/later.More.more")

    def test_the_core_comes_first_and_has_a_sum_of_its_own(self):
        count = self.tiers("abbrev pub opened : ℕ → ℕ\nopened x = x\n", "abbrev pub more : ℕ\nmore = 1\n")
        self.assertEqual([row.file for row in count.rows()], ["sampling/specs/core/Words.antt", "sampling/specs/later/More.antt"])
        self.assertEqual(table(count.rows())[-2:], ["      2            1       0  in the core", "      4            2       0  in all"])
        self.assertEqual((count.misplaced(), count.unreached(), count.outside()), ([], [], []))

    def test_what_the_core_reaches_is_in_the_core(self):
        core = "use Rattle.sampling.specs.later.More.{more}\nabbrev pub opened : ℕ → ℕ\nopened x = more\n"
        count = self.tiers(core, "abbrev pub more : ℕ\nmore = 1\n")
        self.assertEqual(count.misplaced(), ["sampling/specs/later/More.antt more: the core reaches it"])

    def test_what_no_call_of_the_core_reaches_is_not(self):
        later = "use Rattle.sampling.specs.core.Words.{half}\nabbrev pub more : ℕ\nmore = half 1\n"
        count = self.tiers("abbrev pub opened : ℕ → ℕ\nopened x = x\n\nabbrev pub half : ℕ → ℕ\nhalf x = x\n", later)
        self.assertEqual(count.misplaced(), ["sampling/specs/core/Words.antt half: no call of the core reaches it"])

    def test_an_import_over_two_lines_is_refused(self):
        self.put("sampling/proofs/Use.antt", "use Rattle.sampling.specs.Words.{half,\n  spare}\n")
        with self.assertRaisesRegex(Stop, "sampling/proofs/Use.antt:1: an import that goes on in another line"):
            self.count()

    def said(self, *arguments):
        out, error = io.StringIO(), io.StringIO()
        with contextlib.redirect_stdout(out), contextlib.redirect_stderr(error):
            status = main([*arguments])
        return status, out.getvalue(), error.getvalue()

    def test_what_is_printed_and_the_status(self):
        head, row = "reached  definitions  beside  file\n", "      5            2       2  sampling/specs/Words.antt\n"
        sums = "      5            2       2  in all\n"
        self.assertEqual(self.said(self.folder.name), (0, head + row + sums, ""))
        self.assertEqual(self.said("--unreached", self.folder.name)[0], 1)
        self.assertEqual(self.said("--unreached", "--also", "sampling/Words.spare", self.folder.name), (0, "", ""))
        self.assertEqual(self.said("--none"), (2, "", "tests/believed/run: there is no --none\n"))
        self.assertEqual(self.said(f"{self.folder.name}/none")[0], 1)
        self.assertEqual(self.said("--also")[0], 1)
        self.put("sampling/src/lib.rt", LIB + "pub use door::shut;\n")
        self.assertEqual(self.said(self.folder.name)[0], 2)


if __name__ == "__main__":
    unittest.main()
