"""The numbers that pages say, and the rule which wrong programs the gate tries. Each check gives (line, what is wrong)."""
import ast
import re
from collections.abc import Iterator

from pages import Row, Wrong, edits_of_rows, matching, rows
from tree import Tree

WORDS = "none one two three four five six seven eight nine ten eleven twelve thirteen fourteen fifteen sixteen seventeen eighteen".split()
WORDS += "nineteen twenty".split()
CRATE, STATEMENT = "crates/centralized_telescope/", "Demand3.antt"


def line_of(text: str, place: int) -> int:
    return text.count("\n", 0, place) + 1


def number_said(word: str) -> int:
    """A number in digits or as a word; -1 where it is none."""
    return WORDS.index(word.lower()) if word.lower() in WORDS else int(re.sub(r"\D", "", word) or -1)


def said_numbers(text: str, form: str, counted: list[int]) -> Iterator[Wrong]:
    """Where the page has this form, its numbers are those counted, in digits or as a word; and it has it."""
    spaced = re.sub(" ", r"\\s+", form.replace("#", r"([\w,]+)"))
    found = list(re.finditer(spaced, text))
    if not found:
        yield 0, f"it says nowhere '{form}', which is checked here"
    for one in found:
        said = [number_said(word) for word in one.groups()]
        if said != counted:
            yield line_of(text, one.start()), f"'{' '.join(one.group().split())}', and counted are {' and '.join(map(str, counted))}"


def lines_to_believe(tree: Tree, reading: str) -> Iterator[Wrong]:
    """docs/READING.md: the tables of files with their lines, and the sums."""
    counted = {row.file: row for row in tree.count.rows()}
    own = [row for row in counted.values() if row.file.startswith("soundness/")]
    rest = [row for row in counted.values() if row not in own]
    sums = [[sum(row.reached for row in part), sum(row.definitions for row in part)] for part in (rest, own)]
    yield from said_numbers(reading, "of the two crates is there: # lines in # definitions", sums[0])
    core = [sum(row.reached for row in rest if "/core/" in row.file)]
    yield from said_numbers(reading, "# of these lines in the core", core)
    yield from said_numbers(reading, "# lines in # definitions of crates/soundness/specs", sums[1])
    said = [row for row in rows(reading) if row.head[:2] == ["Minutes", "Lines"]]
    for row in said:
        file = row.cells[2]
        if file not in counted:
            yield row.number, f"tests/believed/run counts no {file}"
        elif row.cells[1] != str(counted[file].reached):
            yield row.number, f"{file} has {counted[file].reached} lines to believe, and not {row.cells[1]}"
    if [row.cells[2] for row in said] != list(counted):
        yield said[0].number if said else 0, "the files aren't those that tests/believed/run counts, in its order"


def theorems_said(tree: Tree, reading: str) -> Iterator[Wrong]:
    """docs/READING.md names each theorem; no other of src/theorems.rt; and says how many they are."""
    for crate, form in (
        ("centralized_telescope", "the # functions of crates/centralized_telescope/src/theorems.rt"),
        ("soundness", "then # contracts in its src/theorems.rt"),
    ):
        functions = re.findall(r"(?m)^pub fn (\w+)", tree.text(f"crates/{crate}/src/theorems.rt"))
        yield from said_numbers(reading, form, [len(functions)])
        for name in functions:
            if name not in tree.theorems:
                yield 0, f"crates/{crate}/src/theorems.rt has {name}, which src/lib.rt doesn't name"
            if f"`{name}`" not in reading:
                yield 0, f"the theorem {name} isn't named"


def wrong_translations(text: str) -> int:
    """How many the tuple WRONG of translate/wrong_translations has."""
    for statement in ast.parse(text).body:
        if isinstance(statement, ast.Assign) and getattr(statement.targets[0], "id", "") == "WRONG":
            return len(statement.value.elts)
    return 0


def said_of_proofs(tree: Tree, proved: str) -> Iterator[Wrong]:
    """docs/PROVED.md: how many wrong programs there are, how many theorems of crates/soundness; and each theorem is named."""
    in_gate = sum(edit.in_gate for edit in tree.edits.values())
    yield from said_numbers(proved, "refuse # of the # wrong programs", [in_gate, len(tree.edits)])
    yield from said_numbers(proved, "# theorems of crates/soundness", [len(tree.theorems_of("soundness"))])
    for name in tree.theorems:
        if f"`{name}`" not in proved:
            yield 0, f"the theorem {name} isn't named"


def said_of_translations(tree: Tree, in_c: str) -> Iterator[Wrong]:
    """docs/C.md: how many wrong translations there are."""
    yield from said_numbers(in_c, "# wrong translations, edits of", [wrong_translations(tree.text("translate/wrong_translations"))])


# ---- which wrong programs the gate tries


def tried(tree: Tree, patterns: list[str]) -> set[str]:
    return {name for pattern in patterns for name in matching(tree, pattern) if tree.edits[name].in_gate}


def groups(row: Row, said: list) -> list[list[str]]:
    """The names of a row, for each of its calls: behind each other between `;`, or all for each where there are fewer such groups."""
    patterns = [one.pattern for one in said]
    calls = len(re.findall(r"`", row.cells[0])) // 2
    parts = [[name for name in patterns if re.search(rf"\b{re.escape(name)}(?![\w.])", part)] for part in row.cells[2].split(";")]
    parts = [part for part in parts if part]
    return parts if calls > 1 and len(parts) == calls else [patterns]


def contracts_tried(tree: Tree, reading: str) -> Iterator[Wrong]:
    for row, said in edits_of_rows(reading):
        if row.cells[0].startswith("`"):
            for part in groups(row, said):
                number = len(tried(tree, part))
                if number < 2:
                    yield row.number, f"of the wrong programs of {row.cells[0]} ({part[0]} ..) the gate tries {number}, not two"


def theorems_tried(tree: Tree) -> Iterator[Wrong]:
    for theorem in tree.theorems:
        if not any(edit.in_gate and theorem in edit.values("theorem") for edit in tree.edits.values()):
            yield 0, f"the gate tries no wrong program that breaks the theorem {theorem}"


def part_of(lines: list[str], number: int) -> str:
    """The definition and field that a line of the statement belongs to."""
    name = field = ""
    for line in lines[: number + 1]:
        begins = re.match(r"(?:abbrev |unfoldable |pub |record )*(\S+)", line)
        if begins and not line.startswith(("--", "use ")):
            name, field = begins.group(1), ""
        below = re.match(r"  pub (\S+) :", line)
        field = below.group(1) if below else field
    return f"{name} {field}".strip()


def demand_tried(tree: Tree) -> Iterator[Wrong]:
    """Of demand 3, each line of the statement that has wrong claims has one that the gate tries; and each field that claims has one."""
    (path,) = (file.relative_to(tree.top).as_posix() for file in tree.top.glob(f"{CRATE}specs/**/{STATEMENT}"))
    lines = tree.text(path).split("\n")
    changed: dict[int, bool] = {}
    for edit in tree.edits.values():
        if edit.values("file") == [path.removeprefix(CRATE)] and "demand_3" in edit.values("theorem"):
            old = edit.values("old")[0]
            number = next((number for number, line in enumerate(lines) if old in line), 0)
            changed[number] = changed.get(number, False) or edit.in_gate
    for number, in_gate in changed.items():
        if not in_gate:
            yield 0, f"the gate tries no wrong claim on line {number + 1} of demand 3, {part_of(lines, number)}"
    claims = {part_of(lines, number) for number, line in enumerate(lines) if re.match(r"  pub \S+ : .*[≡≤<→↔×⊎A-Z]", line)}
    for part in sorted(claims - {part_of(lines, number) for number in changed}):
        # Numbers and lists that the claims are about, and what the words of the claim repeat.
        if not re.search(r" (made|K|nth|passes|lent)$", part):
            yield 0, f"{part} of demand 3 has no wrong claim"
