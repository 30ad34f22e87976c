"""
What a reader has to believe, for `tests/believed/run`, whose head says what is counted. In three steps: the files are read line by line
(`Reading`), from the contracts of what is public the definitions are followed (`reached_from`), and what was reached is counted
(`Count`, which tests/names asks too).
"""
import re
import sys
from collections import Counter, defaultdict
from dataclasses import dataclass, field
from pathlib import Path

CRATES = ("sampling", "centralized_telescope", "soundness")
# The folders of specs/ that hold definitions: the core, and what was asked later. A crate may have its definitions in specs/ itself.
CORE, LATER = "core", "later"
TIERS = (CORE, LATER, "")
# The contracts that the core is for, CRATE/MODULE::NAME: a definition that none of them reaches is no part of it.
CORE_CALLS = (
    "sampling/sha256::sha256",
    "sampling/sample::sample_uniform",
    "sampling/sample::sample_bernoulli",
    "sampling/exports::alba_sample_uniform",
    "sampling/exports::alba_sample_bernoulli",
    "centralized_telescope/params::check_params",
    "centralized_telescope/types::check_list",
    "centralized_telescope/telescope::prove",
    "centralized_telescope/telescope::verify",
    "centralized_telescope/exports::alba_verify",
    "centralized_telescope/theorems::demand_3",
    "centralized_telescope/theorems::served_example",
)


class Stop(Exception):
    """Something is not as it must be for a count to mean anything."""

    def __init__(self, why: str, status: int = 2):
        super().__init__(why)
        self.status = status


@dataclass
class Found:
    """What stands in the files of all crates. A definition is named CRATE/MODULE.NAME, its home is CRATE/MODULE."""

    imported: dict[tuple[str, str], str] = field(default_factory=dict)  # (file, word): the definition
    renamed: dict[tuple[str, str], str] = field(default_factory=dict)  # (file, word): the module
    importers: dict[str, list[str]] = field(default_factory=lambda: defaultdict(list))
    public: set[tuple[str, str]] = field(default_factory=set)  # (CRATE/MODULE, function or type, or * for all of it)
    missing: dict[str, None] = field(default_factory=dict)  # public functions that no file has shown yet
    functions: dict[str, str] = field(default_factory=dict)  # public functions, CRATE/MODULE::[TYPE::]NAME: their file
    starts: list[tuple[str, str, str]] = field(default_factory=list)  # (file, a line of a contract, the function)
    order: list[str] = field(default_factory=list)  # the homes in reading order
    home: dict[str, str] = field(default_factory=dict)
    file: dict[str, str] = field(default_factory=dict)
    around: dict[str, str] = field(default_factory=dict)  # the `module _ .. where` that a definition stands in
    known: list[str] = field(default_factory=list)
    lines: Counter = field(default_factory=Counter)
    text: dict[str, list[str]] = field(default_factory=lambda: defaultdict(list))


def words(line: str) -> list[str]:
    return re.findall(r"[^ \t]+", line)


def one_by_one(text: str) -> str:
    """src/lib.rt with a line for each name that `pub use MODULE::{NAME, ..};` makes public, however many lines that takes."""
    return re.sub(
        r"(?m)^pub use (\w+)::\{([^}]*)\};$",
        lambda listed: "\n".join(f"pub use {listed.group(1)}::{name};" for name in re.findall(r"\w+", listed.group(2))),
        text,
    )


class Reading:
    """One file, line by line, into what is found."""

    def __init__(self, found: Found, path: str):
        self.found, self.path = found, path
        self.crate, self.kind, rest = path.split("/", 2)
        self.module = re.sub(r"\.[a-z]+$", "", rest).replace("/", ".")
        self.own = f"{self.crate}/{self.module}"
        self.ours = self.crate in CRATES
        self.name = self.within = self.type = self.called = ""
        self.header = self.contract = False

    def line(self, number: int, line: str) -> None:
        if re.match(r"(pub |ghost )*use Rattle", line):
            self.imports(number, line)
            return
        if re.match(r"(pub |ghost )*use ", line) and not self.path.endswith("src/lib.rt"):
            return
        if self.ours and self.kind == "src":
            self.source(line)
        elif self.ours and self.kind == "specs":
            self.specification(number, line)

    def imports(self, number: int, line: str) -> None:
        """Names from a module of specs/, or the module under another name."""
        rest = re.sub(r"^(pub |ghost )*use Rattle\.", "", line)
        of = rest.split(".", 1)[0]
        below = re.match(r"[^.]*\.specs\.(.*)", rest)
        if not below:
            return
        module = below.group(1)
        if "{" not in module:
            as_name = re.split(r" as |;", module)
            self.found.renamed[self.path, as_name[1] if len(as_name) > 1 else ""] = f"{of}/{as_name[0]}"
            return
        listed = re.match(r"[^{]*\{([^}]*)\}", module)
        if not listed:
            raise Stop(f"{self.path}:{number}: an import that goes on in another line")
        module = re.sub(r"\.\{.*", "", module)
        for name in re.split(r", *", listed.group(1)):
            definition = f"{of}/{module}.{name}"
            self.found.imported[self.path, name] = definition
            self.found.importers[definition].append(self.path)

    def source(self, line: str) -> None:
        """src/: which functions are public, and the lines of their contracts."""
        if self.module == "lib" and re.match(r"pub (use|mod) ", line):
            self.makes_public(line)
        if line.startswith("impl "):
            self.type = words(line)[1]
        if line.startswith("}"):
            self.type = ""
        if re.match(r' *pub (extern "C" )?fn ', line):
            self.function(line)
        if self.header and re.match(r" *(requires|ensures) ", line):
            self.contract = True
        if self.header and re.search(r"\{\}?$", line):
            self.header = False
        if self.header and self.contract:
            self.found.starts.append((self.path, line, self.called))

    def makes_public(self, line: str) -> None:
        part = words(line.replace(";", "").replace("::", " ", 1))
        name = "*" if part[1] == "mod" else part[3] if len(part) > 3 else ""
        self.found.public.add((f"{self.crate}/{part[2]}", name))
        if part[1] == "use" and re.match("[a-z]", name):
            self.found.missing[f"{self.crate}/{part[2]}::{name}"] = None

    def function(self, line: str) -> None:
        name = re.sub(r"[(<].*", "", re.sub(r".*fn ", "", line))
        public = self.found.public
        self.header = 'extern "C"' in line or (self.own, "*") in public or (self.own, self.type or name) in public
        self.contract = False
        self.found.missing.pop(f"{self.own}::{name}", None)
        if self.header:
            self.called = "::".join(filter(None, (self.own, self.type, name)))
            self.found.functions[self.called] = self.path

    def specification(self, number: int, line: str) -> None:
        """specs/: the definitions with their lines, and in which order the files stand."""
        if line.startswith("pub mod "):
            if self.module in ("Lib", CORE, LATER):
                below = "" if self.module == "Lib" else f"{self.module}."
                self.found.order.append(f"{self.crate}/{below}{words(line)[2]}")
            return
        if re.match(r" *(--|$)", line):
            return
        line = re.sub(r" -- .*", "", line)
        if re.match(r" *infix", line):
            self.found.lines[f"{self.own}.{words(line)[-1]}"] += 1
            return
        depth = len(line) - len(line.lstrip(" "))
        if depth == 0:
            self.within = ""
        part = words(line)
        begins = re.match(r" *(abbrev|unfoldable|pub|record|data|module) ", line) or part[1:2] == [":"]
        if begins and depth == (2 if self.within else 0):
            self.begins(number, part)
        self.found.lines[self.name] += 1
        self.found.text[self.name].append(line)

    def begins(self, number: int, part: list[str]) -> None:
        """A definition, or a `module _ .. where` around some."""
        called = next((word for word in part if word not in ("abbrev", "unfoldable", "pub", "record", "data")), "")
        module = called == "module"
        self.name = f"{self.own}.module at {number}" if module else f"{self.own}.{called}"
        self.found.home[self.name] = self.own
        self.found.file[self.name] = self.path
        self.found.around[self.name] = self.within
        if module:
            self.within = self.name
        else:
            self.found.known.append(self.name)


def files_of(crates: Path) -> list[str]:
    """All files, below crates/: first those that say in which order to read and what is public."""
    first = [f"{crate}/{name}" for crate in CRATES for name in ("specs/Lib.antt", "src/lib.rt")]
    first += [path for tier in (CORE, LATER) for crate in CRATES if (crates / (path := f"{crate}/specs/{tier}.antt")).exists()]
    rest = {
        path.relative_to(crates).as_posix()
        for folder in ("src", "specs", "proofs")
        for below in crates.glob(f"*/{folder}")
        for path in below.rglob("*")
        if path.name.endswith((".antt", ".rt"))
    }
    return first + sorted(rest - set(first), key=lambda path: path.encode())


def read(crates: Path) -> Found:
    found = Found()
    for path in files_of(crates):
        try:
            text = (crates / path).read_text(encoding="utf-8", errors="surrogateescape")
        except OSError as error:
            raise Stop(f"{path} can't be read: {error.strerror}") from error
        text = one_by_one(text) if path.endswith("src/lib.rt") else text
        reading = Reading(found, path)
        for number, line in enumerate(text.removesuffix("\n").split("\n") if text else (), 1):
            reading.line(number, line)
    for function in found.missing:
        raise Stop(f"there is no public function {function}")
    return found


def meaning(found: Found, path: str, owner: str, word: str) -> str:
    """The definition that a word of a file means, or nothing. An operator is used without the circles of its name."""
    for name in (word, f"◌{word}◌"):
        if f"{owner}.{name}" in found.home:
            return f"{owner}.{name}"
        if (path, name) in found.imported:
            return found.imported[path, name]
    module, dot, name = word.partition(".")
    return f"{found.renamed[path, module]}.{name}" if dot and module and (path, module) in found.renamed else ""


def meant(found: Found, path: str, owner: str, text: str) -> list[str]:
    plain = re.sub(r"[(){};,⌜⌝]", " ", text)
    return [meaning(found, path, owner, word.removesuffix(".")) for word in plain.split(" ") if word.removesuffix(".")]


def tier(home: str) -> str:
    """The folder of specs/ that a home, CRATE/[FOLDER.]MODULE, stands in, or nothing."""
    folder, dot, _ = home.partition("/")[2].rpartition(".")
    return folder if dot else ""


def reached_from(found: Found, also: list[str], calls: tuple[str, ...] = ()) -> set[str]:
    """What the contracts reach: of all that is public, or of some calls."""
    queue = [
        definition
        for path, line, function in found.starts
        if not calls or function in calls
        for definition in meant(found, path, "", line)
    ]
    for definition in also:
        if definition not in found.home:
            raise Stop(f"there is no definition {definition}")
        queue.append(definition)
    reached: set[str] = set()
    while queue:
        definition = queue.pop()
        if definition not in found.home or definition in reached:
            continue
        reached.add(definition)
        queue.append(found.around[definition])
        queue += meant(found, found.file[definition], found.home[definition], " ".join(found.text[definition]))
    return reached


@dataclass
class Row:
    """A file of specs/, below crates/: the lines reached, in how many definitions, and the lines beside them."""

    file: str
    reached: int
    definitions: int
    beside: int


class Count:
    def __init__(self, crates: Path, also: list[str] = ()):
        self.found = found = read(crates)
        self.reached = reached_from(found, list(also))
        self.lines, self.number, self.beside = Counter(), Counter(), Counter()
        for definition in self.reached:
            self.lines[found.home[definition]] += found.lines[definition]
            self.number[found.home[definition]] += ".module at " not in definition
        self.of_core = reached_from(found, [], CORE_CALLS)
        self.left = [definition for definition in found.known if definition not in self.reached]
        for definition in self.left:
            self.beside[found.home[definition]] += found.lines[definition]

    def rows(self) -> list[Row]:
        homes = sorted(dict.fromkeys(home for home in self.found.order if home in self.lines), key=lambda home: TIERS.index(tier(home)))
        return [Row(self.file(home), self.lines[home], self.number[home], self.beside[home]) for home in homes]

    def file(self, home: str) -> str:
        return home.replace("/", "/specs/", 1).replace(".", "/") + ".antt"

    def place(self, definition: str) -> str:
        return f"{self.found.file[definition]} {definition.removeprefix(self.found.home[definition] + '.')}"

    def unreached(self) -> list[str]:
        """What stands in specs/ itself and nothing public needs."""
        said = []
        for definition in self.left:
            if tier(self.found.home[definition]) in TIERS:
                by = " ".join(self.found.importers.get(definition, ["nothing imports it"]))
                said.append(f"{self.place(definition)}, {self.found.lines[definition]} lines: {by}")
        return said

    def outside(self) -> list[str]:
        """The converse: laws and inner promises do not have to be believed, so nothing public may reach them."""
        return [
            f"{self.place(definition)}: reached, but outside the reading order"
            for definition in self.found.home
            if definition in self.reached and tier(self.found.home[definition]) not in TIERS
        ]

    def misplaced(self) -> list[str]:
        """The core is what its calls reach, no less and no more."""
        said = []
        for definition in self.found.known:
            in_core = tier(self.found.home[definition]) == CORE
            if definition in self.of_core and tier(self.found.home[definition]) == LATER:
                said.append(f"{self.place(definition)}: the core reaches it")
            elif definition in self.reached and in_core and definition not in self.of_core:
                said.append(f"{self.place(definition)}: no call of the core reaches it")
        return said


def summed(name: str, rows: list[Row]) -> Row:
    return Row(name, sum(row.reached for row in rows), sum(row.definitions for row in rows), sum(row.beside for row in rows))


def table(rows: list[Row]) -> list[str]:
    core = [row for row in rows if f"/specs/{CORE}/" in row.file]
    sums = ([summed("in the core", core)] if core else []) + [summed("in all", rows)]
    return ["reached  definitions  beside  file"] + [
        f"{row.reached:7d}  {row.definitions:11d}  {row.beside:6d}  {row.file}" for row in [*rows, *sums]
    ]


def asked(arguments: list[str]) -> tuple[Path, bool, list[str]]:
    """The folder, whether only what is unreached is wanted, and what to start from besides."""
    top, unreached, also = Path(__file__).resolve().parents[2], False, []
    rest = iter(arguments)
    for argument in rest:
        if argument == "--unreached":
            unreached = True
        elif argument == "--also":
            definition = next(rest, "")
            if not definition:
                raise Stop("--also has no definition", 1)
            also += words(definition)
        elif argument.startswith("-"):
            raise Stop(f"there is no {argument}")
        else:
            top = Path(argument)
    if not (top / "crates").is_dir():
        raise Stop(f"there is no folder {top / 'crates'}", 1)
    return top, unreached, also


def main(arguments: list[str]) -> int:
    try:
        top, unreached, also = asked(arguments)
        count = Count(top / "crates", also)
    except Stop as stop:
        print(f"tests/believed/run: {stop}", file=sys.stderr)
        return stop.status
    wrong = (count.unreached() if unreached else []) + count.outside() + count.misplaced()
    for line in wrong + ([] if unreached else table(count.rows())):
        print(line)
    return 1 if wrong else 0
