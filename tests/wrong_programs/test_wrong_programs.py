#!/usr/bin/env python3
"""How edits are read, applied and judged, over texts such as `rt check` prints; and the lanes, with a made-up `rt`. No crate is checked."""
import contextlib
import io
import os
import signal
import subprocess
import sys
import tempfile
import time
import unittest
from pathlib import Path

sys.dont_write_bytecode = True
HERE = Path(__file__).resolve().parent
sys.path.insert(0, str(HERE))
from edits import CRATES, BadEdit, Edit, change, changed_files, misplaced, named_twice, wanted  # noqa: E402
from follows import Declarations  # noqa: E402
from judgement import Refuted, judgement, only_shape, refusals  # noqa: E402
from lanes import Stop, Tries, asked  # noqa: E402

ROOT = "./"
SAID = f"""checking door
{ROOT}proofs/door/open/Answers.antt:12:5: error: `returns`: expected
    opened x
  but it is half x
{ROOT}proofs/Above.antt:3:1: error: 3 declarations that depend on `half`, which was rejected, were not checked: all-open, shut and 1 more
{ROOT}proofs/Half.antt:4:3: error: `half`: expected 1
note: src/door.rt:7:9: it is not proved that what the function ensures holds when it returns (`returns-2`)
fn door::theorems::opens: not proved
logic=not-proved
"""
FILES = {
    "proofs/Half.antt": "use Rattle.door.specs.Door.{door}\n\npub half : ℕ -- see below\nhalf = 2\n\npub whole : ℕ\nwhole = 1\n",
    "proofs/Above.antt": """use Rattle.door.proofs.Half.{half as h, whole}
use Rattle.other.proofs.Half.{half}
use Rattle.door.proofs.Half as more

pub all-open : Opened
all-open = record {
  opens = from h
    and more;
  shuts = from whole;
}

module _ (x : ℕ)
    (y : ℕ) where
  inner : ℕ
  inner = g more.half.f

module _ (z : ℕ) where
  pub g : ℕ → ℕ
  g a = half a

  record Pair : Type 0 where
    one : h ≡ h

pub none : ℕ
none = inner whole
""",
}


def edit(*lines, crate="door", name="wrong"):
    return Edit(crate, Path(f"/edits/{name}.edit"), tuple(lines))


def judge(said, *lines, status=1, places=False):
    return judgement(edit(*lines), status, said, FILES, places)


class Change(unittest.TestCase):
    def test_the_one_line_that_has_it(self):
        self.assertEqual(change("a = 1\nb = 2\n", "= 2", "= 3"), "a = 1\nb = 3\n")

    def test_only_the_first_place_in_the_line(self):
        self.assertEqual(change("1 + 1\n", "1", "2"), "2 + 1\n")

    def test_two_lines_or_none_have_it(self):
        for old in ("x", "y", ""):
            with self.assertRaises(BadEdit):
                change("x\nx\n", old, "z")

    def test_after_takes_the_first_from_that_line_on(self):
        text = "x\nfn two\nx\nx\n"
        self.assertEqual(change(text, "x", "z", "fn two"), "x\nfn two\nz\nx\n")
        self.assertEqual(change("x\nfn x\nx\n", "x", "z", "fn "), "x\nfn z\nx\n")
        for after in ("fn three", "x\nfn"):
            with self.assertRaises(BadEdit):
                change(text, "x", "z", after)

    def test_old_only_before_after(self):
        with self.assertRaises(BadEdit):
            change("x\nfn two\ny\n", "x", "z", "fn two")


class Files(unittest.TestCase):
    def setUp(self):
        folder = tempfile.TemporaryDirectory()
        self.addCleanup(folder.cleanup)
        self.root = Path(folder.name)
        (self.root / "a").write_text("one\ntwo\none more\n", encoding="utf-8")
        (self.root / "b").write_text("∷ three\n", encoding="utf-8")

    def changed(self, *lines):
        return {path.name: text for path, text in changed_files(edit(*lines), self.root).items()}

    def test_several_pairs_and_files(self):
        lines = ("# why", "file: a", "old: two", "new: 2", "after: 2", "old: one", "new: 1", "file: b", "old: ∷ three", "new: ")
        self.assertEqual(self.changed(*lines), {"a": "one\n2\n1 more\n", "b": "\n"})

    def test_a_pair_is_looked_for_in_what_the_pairs_before_it_have_left(self):
        with self.assertRaises(BadEdit):
            self.changed("file: a", "old: two", "new: 2", "old: two", "new: 3")

    def test_after_holds_for_one_pair(self):
        with self.assertRaises(BadEdit):
            self.changed("file: a", "after: two", "old: one", "new: 1", "old: o", "new: 0")

    def test_texts_keep_their_spaces(self):
        self.assertEqual(self.changed("file: b", "old: ∷ ", "new:  "), {"b": " three\n"})

    def test_what_does_not_fit(self):
        for lines in (
            ("file: c", "old: x", "new: y"),
            ("old: x", "new: y"),
            ("file: a", "old: one", "new: 1"),
            ("file: a", "old: none", "new: 1"),
            ("file: a", "new: 1"),
            ("file: a", "old: two", "new: two"),
            ("file: a",),
        ):
            with self.assertRaises(BadEdit, msg=lines):
                self.changed(*lines)
        self.assertEqual((self.root / "a").read_text(encoding="utf-8"), "one\ntwo\none more\n")


class Rooms(unittest.TestCase):
    def test_the_room_of_an_edit(self):
        self.assertEqual(edit("file: src/door.rt", "old: x", "new: y", "first: a b").room, "door")
        self.assertEqual(edit("file: specs/Door.antt", "own: proofs/door/open/Answers.antt returns").room, "specs")
        self.assertEqual(edit("file: specs/Door.antt", "file: src/door.rt", "own: a b").room, "door")
        self.assertEqual(edit("file: src/door.rt", "own: a b", "theorem: opens", "theorem: shuts").room, "opens")

    def test_what_stands_elsewhere_and_what_is_named_twice(self):
        with tempfile.TemporaryDirectory() as folder:
            top = Path(folder)
            for path in ("door/a", "door/b", "gate/b", "c"):
                file = top / f"tests/wrong_programs/sampling/{path}.edit"
                file.parent.mkdir(parents=True, exist_ok=True)
                file.write_text("file: src/door.rt\n", encoding="utf-8")
            room = top / "tests/wrong_programs/sampling/door"
            found = sorted((one.path.relative_to(room.parent).as_posix(), right) for one, right in misplaced(top))
            self.assertEqual(found, [("c.edit", room / "c.edit"), ("gate/b.edit", room / "b.edit")])
            self.assertEqual(named_twice(top), ["b"])


class Refusals(unittest.TestCase):
    def test_errors_notes_and_what_follows(self):
        found = [(one.own, one.place, one.line) for one in refusals(SAID)]
        expected = [
            (True, "proofs/door/open/Answers.antt returns", 12),
            (False, "proofs/Above.antt half", 3),
            (True, "proofs/Half.antt half", 4),
            (True, "src/door.rt returns-2", 7),
        ]
        self.assertEqual(found, expected)

    def test_a_message_goes_on(self):
        self.assertIn("opened x", refusals(SAID)[0].message)
        self.assertNotIn("checking", refusals(SAID)[0].message)

    def test_what_follows_may_be_said_in_a_later_line(self):
        said = f"{ROOT}a.antt:1:1: error: in `x`: no\n  since `y`\n  is not admitted\nother\n  is not admitted\n"
        self.assertEqual([one.own for one in refusals(said)], [False])
        self.assertEqual([one.own for one in refusals(said.replace("  is not", "is not", 1))], [True])

    def test_shape(self):
        for declaration in ("invariant-loop-i", "decreases-loop-i", "Inv-loop", "μ-loop", "open-spec"):
            self.assertTrue(only_shape(declaration, "it is false"))
        for message in ("module `door.open.Goals` has no `returns-3` that can be named from here", "has no `Need-3`", "has no field `x`", "expected type `tie.Need-2`", "`x` is not in scope"):
            self.assertTrue(only_shape("returns", message))
        self.assertFalse(only_shape("returns", "expected 1 but it is 2"))
        self.assertFalse(only_shape("Invariant", "expected 1 but it is 2"))


class Follows(unittest.TestCase):
    def test_what_rests_on_what(self):
        declarations = Declarations("door", FILES)
        above, below = "proofs/Above.antt", "proofs/Half.antt"
        self.assertEqual({name for file, name in declarations.blocks if file == above}, {"all-open", "inner", "g", "Pair", "none"})
        self.assertEqual(declarations.following({(below, "half")}), {(above, name) for name in ("all-open", "inner", "Pair", "none")})
        self.assertEqual(declarations.following({(below, "whole")}), {(above, "all-open"), (above, "none")})
        self.assertEqual(declarations.following({(above, "none")}), set())
        self.assertEqual([number for number, _ in declarations.field((above, "all-open"), "opens")], [7, 8])
        self.assertEqual([number for number, _ in declarations.field((above, "all-open"), "shuts")], [9])


class Judgement(unittest.TestCase):
    def refuted(self, why, said, *lines, status=1):
        with self.assertRaises(Refuted) as caught:
            judge(said, *lines, status=status)
        self.assertEqual(str(caught.exception), why)

    def test_first(self):
        place = "proofs/door/open/Answers.antt returns"
        self.assertEqual(judge(SAID, f"first: {place}"), [f"refused at {place}"])
        self.refuted(f"refused, but not at src/door.rt returns-2; the first error: {place}", SAID, "first: src/door.rt returns-2")

    def test_own_may_be_any_but_not_one_that_follows(self):
        self.assertEqual(judge(SAID, "own: src/door.rt returns-2"), ["refused at src/door.rt returns-2"])
        first = "proofs/door/open/Answers.antt returns"
        self.refuted(f"refused, but not at proofs/Above.antt half; the first error: {first}", SAID, "own: proofs/Above.antt half")

    def test_neither_first_nor_own_or_both(self):
        why = "  but the edit has neither a line 'first:' nor a line 'own:'"
        self.refuted(why, SAID, "theorem: opens")
        self.refuted(why, SAID, "first: src/door.rt returns-2", "own: src/door.rt returns-2")

    def test_not_refused_and_not_reached(self):
        self.refuted("NOT REFUSED", SAID, "first: src/door.rt returns-2", status=0)
        self.refuted("it did not reach the prover: a slip of the pen", "a slip of the pen\n", "first: src/door.rt returns-2")
        self.refuted("refused without a reason", "logic=not-proved\n", "first: src/door.rt returns-2")

    def test_shape_is_no_refusal(self):
        said = f"{ROOT}proofs/a.antt:1:1: error: in `returns`: `tie` has no `Need-3`\nlogic=not-proved\n"
        why = "refused at proofs/a.antt returns, but for the code's shape: "
        for line in ("first: proofs/a.antt returns", "own: proofs/a.antt returns"):
            with self.assertRaisesRegex(Refuted, why):
                judge(said, line)

    def test_shape_is_passed_over(self):
        said = f"{ROOT}proofs/a.antt:1:1: error: `returns-3`: module `Goals` has no `returns-3` that can be named from here\n{SAID}"
        place = "proofs/door/open/Answers.antt returns"
        self.assertEqual(judge(said, f"first: {place}"), [f"refused at {place}"])
        self.assertEqual(judge(said, f"own: {place}"), [f"refused at {place}"])

    def test_fields(self):
        own = "own: src/door.rt returns-2"
        told = ["refused at src/door.rt returns-2"]
        self.assertEqual(judge(SAID, own, "field: src/door.rt returns-2"), told + ["  with the field returns-2"])
        follows = ["  with the field all-open, which follows"]
        self.assertEqual(judge(SAID, own, "field: proofs/Above.antt all-open"), told + follows)
        self.assertEqual(judge(SAID, own, "field: proofs/Above.antt all-open opens")[1], "  with the field opens, which follows")
        self.assertEqual(judge(SAID, own, "field: proofs/Above.antt inner")[1], "  with the field inner, which follows")
        self.assertEqual(judge(SAID, own, "field: proofs/Above.antt none")[1], "  with the field none, which follows")
        why = "refused at src/door.rt returns-2\n  but proofs/Above.antt all-open shuts isn't refused"
        self.refuted(why, SAID, own, "field: proofs/Above.antt all-open shuts")
        self.refuted(why.replace("all-open shuts", "g "), SAID, own, "field: proofs/Above.antt g")
        self.refuted(why.replace("all-open shuts", "nowhere "), SAID, own, "field: proofs/Above.antt nowhere")
        inside = f"{ROOT}proofs/Above.antt:8:5: error: `all-open`: no\nlogic=not-proved\n"
        self.assertEqual(judge(inside, "own: proofs/Above.antt all-open", "field: proofs/Above.antt all-open opens")[1], "  with the field opens")

    def test_each_field_is_asked(self):
        fields = ("field: src/door.rt returns-2", "field: proofs/Above.antt g")
        why = "refused at src/door.rt returns-2\n  with the field returns-2\n  but proofs/Above.antt g  isn't refused"
        self.refuted(why, SAID, "own: src/door.rt returns-2", *fields)

    def test_theorem(self):
        own = "own: src/door.rt returns-2"
        self.assertEqual(len(judge(SAID, own, "theorem: opens")), 1)
        self.refuted("refused at src/door.rt returns-2\n  but the theorem shuts is proved", SAID, own, "theorem: shuts")
        proved = SAID.replace("opens: not proved", "opens: proved")
        self.refuted("refused at src/door.rt returns-2\n  but the theorem opens is proved", proved, own, "theorem: opens")

    def test_places(self):
        first = "first: proofs/door/open/Answers.antt returns"
        self.assertEqual(judge(SAID, first, places=True), [first])
        self.assertEqual(judge(SAID, "# none yet", places=True)[0], first)
        self.assertIn("opened x", judge(SAID, "# none yet", places=True)[1])
        own = ["own: proofs/door/open/Answers.antt returns", "own: proofs/Half.antt half", "own: src/door.rt returns-2"]
        self.assertEqual(judge(SAID, "theorem: opens", places=True)[:3], own)


RT = """#!/bin/sh
# In a crate's folder it proves the crate, unless its file `door` says wrong.
[ "$1" = check ] && [ -f ../../crates.txt ] || exit 2
grep -q slow door && { sleep 100 & echo $! > "$NOTED"; wait; }
grep -q wrong door || { echo logic=proved; exit 0; }
echo "./door:1:1: error: \\`door\\`: no"
echo logic=not-proved
exit 1
"""
WRONG = "file: door\nold: right\nnew: wrong\nfirst: door door\n"


class Lanes(unittest.TestCase):
    """The runs, over a tree with a made-up `rt` on the PATH."""

    def setUp(self):
        folder = tempfile.TemporaryDirectory()
        self.addCleanup(folder.cleanup)
        self.top = Path(folder.name).resolve() / "top"
        for crate in CRATES:
            self.put(f"crates/{crate}/door", "right\n")
            self.put(f"crates/{crate}/out/kept", "")
        self.put("crates/low/door", "right\n")
        lines = ["# of all", *(f"{crate}: low bytes" for crate in CRATES), "high: sampling", "low: bytes"]
        self.put("crates.txt", "\n".join(lines) + "\n")
        self.put("bin/rt", RT)
        (self.top / "bin/rt").chmod(0o755)
        self.addCleanup(os.environ.__setitem__, "PATH", os.environ["PATH"])
        os.environ["PATH"] = f"{self.top}/bin:{os.environ['PATH']}"

    def put(self, path, text):
        (self.top / path).parent.mkdir(parents=True, exist_ok=True)
        (self.top / path).write_text(text, encoding="utf-8")

    def run_all(self, *arguments):
        edits, places = asked(self.top, list(arguments))
        work = self.top / "work"
        work.mkdir()
        tries = Tries(self.top, work, edits, places)
        out = io.StringIO()
        with contextlib.redirect_stdout(out), contextlib.redirect_stderr(out):
            tries.run()
        return tries, out.getvalue()

    def test_which_are_wanted(self):
        self.put("tests/wrong_programs/sampling/a_room/b.edit", WRONG)
        self.put("tests/wrong_programs/sampling/b_room/a.edit", WRONG + "gate: no\n")
        self.put("crates/sampling/must-fail/c.edit", WRONG)
        self.assertEqual([one.name for one in wanted(self.top, "sampling", [], False)], ["b", "c"])
        self.assertEqual([one.name for one in wanted(self.top, "sampling", [], True)], ["a", "b", "c"])
        self.assertEqual([one.name for one in wanted(self.top, "sampling", ["a"], False)], ["a"])
        for arguments, why in ((["a", "none"], "2 were named, and 1 are here"), (["--none"], "1 were named, and 0 are here")):
            with self.assertRaisesRegex(Stop, why):
                asked(self.top, arguments)

    def test_no_edit(self):
        with self.assertRaisesRegex(Stop, "there is no edit"):
            asked(self.top, [])

    def test_both_lanes_try_all_and_leave_the_tree(self):
        for crate in CRATES:
            for number in range(4):
                self.put(f"tests/wrong_programs/{crate}/{crate}_{number}.edit", WRONG)
        tries, said = self.run_all()
        self.assertEqual(tries.verdict(), "wrong programs: 12 refused")
        for crate in CRATES:
            self.assertEqual(said.count(f"{crate}, {crate}_1:\nrefused at door door\n"), 1)
            self.assertEqual((self.top / f"crates/{crate}/door").read_text(encoding="utf-8"), "right\n")
        self.assertEqual((self.top / "work/sampling/crates/sampling/door").read_text(encoding="utf-8"), "right\n")

    def test_what_a_lane_needs(self):
        self.put("tests/wrong_programs/sampling/any.edit", WRONG)
        self.run_all()
        folder = self.top / "work/sampling"
        self.assertEqual(sorted(path.name for path in (folder / "crates").iterdir()), sorted([*CRATES, "low"]))
        self.assertEqual((folder / "crates.txt").read_text(encoding="utf-8").count("\n"), len(CRATES) + 1)
        self.assertFalse((folder / "crates/sampling/out").exists())

    def test_what_fails_is_named(self):
        self.put("tests/wrong_programs/sampling/good.edit", WRONG)
        self.put("tests/wrong_programs/sampling/same.edit", WRONG.replace("new: wrong", "new: other"))
        self.put("tests/wrong_programs/sampling/bad.edit", WRONG.replace("old: right", "old: left"))
        tries, said = self.run_all()
        self.assertIn("sampling, bad:\nBAD EDIT: an old text isn't in one line of its file\n", said)
        self.assertIn("sampling, same:\nNOT REFUSED\n", said)
        with self.assertRaisesRegex(Stop, "^2 of 3 failed: bad.edit same.edit$"):
            tries.verdict()

    def test_a_crate_that_is_not_proved_without_an_edit(self):
        self.put("crates/soundness/door", "wrong\n")
        self.put("tests/wrong_programs/soundness/any.edit", "file: door\nold: wrong\nnew: wronger\nfirst: door door\n")
        tries, said = self.run_all()
        self.assertIn("without an edit `soundness` is not proved", said)
        with self.assertRaisesRegex(Stop, "a crate could not be made ready"):
            tries.verdict()

    def test_a_signal_ends_all(self):
        """The program itself, in its folder, is ended while an edit is tried: what it runs and its folders go too."""
        self.put("tests/wrong_programs/sampling/slow.edit", WRONG.replace("new: wrong", "new: slow"))
        for name in ("run", "edits.py", "judgement.py", "follows.py", "lanes.py"):
            self.put(f"tests/wrong_programs/{name}", (HERE / name).read_text(encoding="utf-8"))
        (self.top / "tmp").mkdir()
        temporary, noted = self.top / "tmp", self.top / "pid"
        environment = {**os.environ, "TMPDIR": str(temporary), "NOTED": str(noted)}
        process = subprocess.Popen([sys.executable, "-B", self.top / "tests/wrong_programs/run"], env=environment)
        deadline = time.monotonic() + 20
        while not noted.exists() or not noted.read_text():
            self.assertLess(time.monotonic(), deadline, "it did not come to its edit")
            time.sleep(0.05)
        process.send_signal(signal.SIGTERM)
        self.assertEqual(process.wait(20), 1)
        self.assertEqual(list(temporary.iterdir()), [])
        for _ in range(100):
            if not Path(f"/proc/{noted.read_text().strip()}").exists():
                return
            time.sleep(0.05)
        self.fail("what it ran still runs")


if __name__ == "__main__":
    unittest.main()
