"""
Edits, the files NAME.edit of tests/wrong_programs/CRATE/ROOM and of crates/CRATE/must-fail: what they hold, where they belong, how they are
applied and which are wanted. tests/wrong_programs/run says what their lines mean.
"""
from collections import Counter
from collections.abc import Iterator
from dataclasses import dataclass
from pathlib import Path

CRATES = ("sampling", "centralized_telescope", "soundness")


class BadEdit(Exception):
    """The edit doesn't fit the tree."""


@dataclass(frozen=True)
class Edit:
    crate: str
    path: Path
    lines: tuple[str, ...]

    @property
    def name(self) -> str:
        return self.path.stem

    @property
    def must_fail(self) -> bool:
        return self.path.parent.name == "must-fail"

    @property
    def in_gate(self) -> bool:
        return "gate: no" not in self.lines

    def values(self, key: str) -> list[str]:
        return [line.removeprefix(f"{key}: ") for line in self.lines if line.startswith(f"{key}: ")]

    @property
    def room(self) -> str:
        """The theorem that must not be proved; else the file of src/ that is edited; else, of a definition, `specs`."""
        for theorem in self.values("theorem"):
            return theorem
        for file in self.values("file"):
            if file.startswith("src/"):
                return Path(file).stem
        return "specs"


def read_edit(crate: str, path: Path) -> Edit:
    return Edit(crate, path, tuple(path.read_text(encoding="utf-8").split("\n")))


def edits_of(top: Path, crate: str) -> Iterator[Edit]:
    """By their names; those of must-fail/ last. One that stands in no room, or in the wrong one, is tried like any other."""
    for folder in (top / "tests/wrong_programs" / crate, top / "crates" / crate / "must-fail"):
        for path in sorted(folder.rglob("*.edit"), key=lambda path: path.stem):
            if path.is_file():
                yield read_edit(crate, path)


def misplaced(top: Path) -> Iterator[tuple[Edit, Path]]:
    """The edits of tests/wrong_programs that stand elsewhere than in their room, each with the path that it should have."""
    for crate in CRATES:
        for edit in edits_of(top, crate):
            right = top / "tests/wrong_programs" / crate / edit.room / edit.path.name
            if not edit.must_fail and edit.path != right:
                yield edit, right


def named_twice(top: Path) -> list[str]:
    """Names that two edits have: pages name an edit by its name alone."""
    names = Counter(edit.name for crate in CRATES for edit in edits_of(top, crate))
    return sorted(name for name, number in names.items() if number > 1)


def wanted(top: Path, crate: str, names: list[str], everything: bool) -> list[Edit]:
    """Those that are named; if none is, those of the gate, or all."""
    return [edit for edit in edits_of(top, crate) if (edit.name in names if names else everything or edit.in_gate)]


def change(text: str, old: str, new: str, after: str = "") -> str:
    """
    `old` becomes `new` in the one line that has it: a text that stands in two lines doesn't say which is meant. With `after` it is the
    first line that has it, from the first line with that text on.
    """
    lines = text.removesuffix("\n").split("\n")
    behind = next((i for i, line in enumerate(lines) if after in line), len(lines)) if after else 0
    having = [i for i, line in enumerate(lines) if i >= behind and old in line]
    if not old or not having or (len(having) > 1 and not after):
        raise BadEdit(f"{old!r} stands in {len(having)} lines")
    lines[having[0]] = lines[having[0]].replace(old, new, 1)
    return "\n".join(lines) + "\n"


def changed_files(edit: Edit, root: Path) -> dict[Path, str]:
    """
    The files that the edit changes, with their new texts. A `file:` line holds for the `old:` and `new:` pairs after it, an `after:` line
    for the next pair.
    """
    file, after, old, texts, before = None, "", "", {}, {}
    for line in edit.lines:
        key, _, value = line.partition(": ")
        if key == "file":
            file = root / value
        elif key == "after":
            after = value
        elif key == "old":
            old = value
        elif key == "new":
            if file is None or not file.is_file():
                raise BadEdit(f"there is no file {file}")
            if file not in texts:
                texts[file] = before[file] = file.read_text(encoding="utf-8")
            texts[file], after = change(texts[file], old, value, after), ""
    texts = {file: text for file, text in texts.items() if text != before[file]}
    if not texts:
        raise BadEdit("nothing changes")
    return texts
