"""What is in the tree, for tests/names/run: files, what they declare, edits, public calls and theorems."""
import re
import sys
from functools import cache, cached_property
from pathlib import Path

TOP = Path(__file__).resolve().parents[2]
for _folder in ("believed", "wrong_programs"):
    sys.path.insert(0, str(TOP / "tests" / _folder))
from believed import CRATES, Count, one_by_one  # noqa: E402
from edits import Edit, edits_of, misplaced, named_twice  # noqa: E402

# A name before its colon; a marked one, a record or a data type also before its arguments.
ANTT = re.compile(r"(?m)^ *(?:(?:(?:abbrev|unfoldable|pub|record|data) )+([^\s(){};:]+)(?= )|([^\s(){};:]+) :(?= |$))")
RUST = re.compile(r"(?m)^ *(?:pub(?:\([a-z]+\))? )?(?:extern \"C\" )?(?:fn|struct|enum|union|const|static|type|trait|mod) (?:mut )?(\w+)")


def declared_in_antt(text: str) -> set[str]:
    """Definitions, laws, fields and cases."""
    return {marked or plain for marked, plain in ANTT.findall(re.sub(r"--.*", "", text))}


def declared_in_rust(text: str) -> set[str]:
    """Items of Rattle or Rust; a function inside an `impl TYPE` also as TYPE::NAME."""
    names, owner = set(), ""
    for line in text.split("\n"):
        inside = re.match(r"impl(?:<[^>]*>)? (?:\w+ for )?(\w+)", line)
        owner = inside.group(1) if inside else "" if line.startswith("}") else owner
        item = RUST.match(line)
        if item:
            names.add(item.group(1))
            if owner:
                names.add(f"{owner}::{item.group(1)}")
    return names


class Tree:
    def __init__(self, top: Path = TOP):
        self.top = top

    # ---- files

    @cache
    def text(self, path: str) -> str:
        file = self.top / path
        if file.is_dir() or not file.exists():
            return ""
        return file.read_text(encoding="utf-8", errors="replace")

    @cached_property
    def entries(self) -> set[str]:
        """The first components that a path can have."""
        made = {"target"}
        return {path.name for path in self.top.iterdir()} - made | {path.name for path in (self.top / "crates").iterdir()} | {
            "src", "specs", "proofs", "must-fail"
        }

    @cache
    def found(self, path: str) -> tuple[str, ...]:
        """What a path of a page can mean: from the top, below crates/, or below a crate; `*` or a word like NAME stands for anything."""
        path = re.sub(r"(?<![\w.-])[A-Z]+(?=/|$)", "*", path)
        for below in ("", "crates/", "crates/*/"):
            found = sorted(file.relative_to(self.top).as_posix() for file in self.top.glob(below + path.rstrip("/")))
            if found:
                return tuple(found)
        return ()

    @cache
    def declared(self, path: str) -> frozenset[str]:
        if path.endswith(".antt"):
            return frozenset(declared_in_antt(self.text(path)))
        return frozenset(declared_in_rust(self.text(path)))

    def occurs(self, path: str, name: str) -> bool:
        """The name stands in the file, as a word by itself if it is one."""
        text = self.text(path)
        return name in text if not name.isidentifier() else bool(re.search(rf"(?<![\w-]){re.escape(name)}(?![\w-])", text))

    @cached_property
    def declared_anywhere(self) -> set[str]:
        files = [*self.top.glob("crates/*/specs/**/*.antt"), *self.top.glob("crates/*/src/*.rt")]
        return {name for file in files for name in self.declared(file.relative_to(self.top).as_posix())}

    # ---- edits, calls and theorems

    @cached_property
    def edits(self) -> dict[str, Edit]:
        return {edit.name: edit for crate in CRATES for edit in edits_of(self.top, crate)}

    def edits_out_of_room(self) -> list[tuple[Edit, Path]]:
        """Each with the folder that it belongs in."""
        return [(edit, right.parent.relative_to(self.top)) for edit, right in misplaced(self.top)]

    def edits_named_twice(self) -> list[str]:
        return named_twice(self.top)

    @cached_property
    def count(self) -> Count:
        return Count(self.top / "crates")

    @cached_property
    def theorems(self) -> list[str]:
        """As `theorems` of .ci/run reads them."""
        return [name for crate in CRATES for name in self.theorems_of(crate)]

    def theorems_of(self, crate: str) -> list[str]:
        return re.findall(r"(?m)^pub use theorems::(\w+);$", one_by_one(self.text(f"crates/{crate}/src/lib.rt")))

    @cached_property
    def calls(self) -> set[str]:
        """Public functions without the theorems, a type's as TYPE::NAME."""
        functions = (name.split("::", 1) for name in self.count.found.functions)
        return {name for module, name in functions if not module.endswith("/theorems")}
