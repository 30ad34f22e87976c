"""The names that pages say: paths, declarations beside a path, and edits. Each check gives (line, what is wrong)."""
import re
from collections.abc import Iterator
from dataclasses import dataclass

from tree import Tree

Wrong = tuple[int, str]
STRICT = ("definition", "law", "theorem", "contract", "field")
TOKEN = re.compile(
    r"`(?P<name>[^`]+)`"
    r"|(?P<path>(?<![\w/.`-])(?:\.?[A-Za-z_][\w.-]*/)+[\w.*-]*[\w*]/?|(?<![\w/.`-])(?:[A-Z]+\.md|crates\.txt)|the same file)"
    r"|(?P<kind>\b(?:definition|law|theorem|contract|field)s?\b|\bcode:|\brun:|\brefused:)"
    r"|(?P<end>;)"
)
EDIT = re.compile(r"[a-z0-9]+(?:_(?:[a-z0-9]+|\.\.))+")


@dataclass
class Row:
    number: int
    section: str
    head: list[str]
    cells: list[str]


def cells_of(line: str) -> list[str]:
    return [cell.strip() for cell in line.strip().strip("|").split("|")]


def rows(text: str) -> Iterator[Row]:
    """The rows of all tables, with the head of theirs."""
    section, head = "", []
    for number, line in enumerate(text.split("\n"), 1):
        if line.startswith("#"):
            section = line.lstrip("# ")
        if not line.startswith("|"):
            head = []
        elif not head:
            head = cells_of(line)
        elif not re.fullmatch(r"[|\s-]+", line):
            yield Row(number, section, head, cells_of(line))


# ---- paths


def is_path(tree: Tree, token: str) -> bool:
    """What begins as a path of this repository; a path outside of it, or of what is made, isn't looked for."""
    return "/" in token and token.split("/")[0] in tree.entries


def wrong_paths(tree: Tree, text: str, skipped: tuple[str, ...] = ()) -> Iterator[Wrong]:
    section = ""
    for number, line in enumerate(text.split("\n"), 1):
        if line.startswith("#"):
            section = line.lstrip("# ")
        if section in skipped:
            continue
        # Links are seen to by tests/pages, and `**` is for bold letters.
        for token in re.findall(r"(?<![\w/.-])\.?[A-Za-z_][\w.-]*/[\w./*-]*[\w*/]", re.sub(r"\]\([^)]*\)|\*\*", " ", line)):
            if is_path(tree, token) and not tree.found(token):
                yield number, f"there is no {token}"


# ---- declarations beside a path


@dataclass
class Named:
    name: str
    kind: str
    path: str
    behind: bool  # it stands behind the item's last path


def named(cell: str, default: str = "") -> list[Named]:
    """
    The names of a cell with the path that they stand beside: the next one of the item (items end with `;`), else the last one before it
    there, else `default`, else, of code, the next one of the cell.
    """
    said: list[Named] = []
    item: list[Named] = []
    path = kind = last = ""
    for token in [*TOKEN.finditer(cell), None]:
        if token is None or token["end"]:
            for one in item:
                one.path, one.behind = path, bool(path)
            said, item, path, kind = said + item, [], "", ""
        elif token["kind"]:
            kind = token["kind"].rstrip(":").removesuffix("s") if token["kind"] != "run:" else "run"
        elif token["path"]:
            path = last = last if token["path"] == "the same file" else token["path"]
            for one in item:
                one.path = path
            said, item = said + item, []
        else:
            item.append(Named(token["name"], kind, "", False))
    for i, one in enumerate(said):
        if not one.path and default:
            one.path, one.kind = default, one.kind or "definition"
        elif not one.path and one.kind not in STRICT:
            one.path = next((other.path for other in said[i:] if other.path), "")
    return said


def wrong_name(tree: Tree, one: Named) -> str:
    if one.name.startswith("harness "):
        command = one.name.split(" ")[1]
        return "" if f"Command::{command.capitalize()}" in tree.text("harness/src/main.rs") else f"the harness has no command {command}"
    if one.name.startswith("Rattle.") or one.name in ("requires", "ensures"):
        return ""
    files = tree.found(one.path) if one.path else ()
    if one.path and not files:
        return ""  # said by wrong_paths
    if any(one.name in tree.declared(file) for file in files):
        return ""
    if one.kind in STRICT and not one.behind and files:
        return f"{one.path} declares no `{one.name}`"
    known = one.name in tree.declared_anywhere or any(tree.occurs(file, one.name) for file in files)
    return "" if known else f"`{one.name}` is not in {one.path or 'any file of specs/ or src/'}"


def wrong_names_traced(tree: Tree, text: str) -> Iterator[Wrong]:
    """docs/TRACE.md: the last column of each table. A section may say where all that it names stands."""
    default = {}
    for part in re.split(r"(?m)^## ", text)[1:]:
        said = re.search(r"All that the third column names stands in\s+(\S+\.antt)", part)
        default[part.split("\n", 1)[0]] = said.group(1) if said else ""
    for row in rows(text):
        if row.head[-1] not in ("Carried by", "Definition and fields"):
            continue
        for one in named(row.cells[-1], default[row.section]):
            wrong = wrong_name(tree, one)
            if wrong:
                yield row.number, wrong


def grouped(cell: str) -> Iterator[tuple[list[str], list[str]]]:
    """Names in backquotes with the files in the brackets behind them: `a`, `b` (File, Other)."""
    names: list[str] = []
    for name, files in re.findall(r"`([^`]+)`|\(([^()]*)\)", cell):
        if name:
            names.append(name)
        elif names:
            yield names, re.findall(r"[\w.]+", files)
            names = []


def wrong_names_read(tree: Tree, text: str) -> Iterator[Wrong]:
    """docs/READING.md: a definition with its file of specs/, a function with its file of src/; calls, theorems and their statements."""
    for row in rows(text):
        if row.head[0] == "The Rust":
            cell, below, end = row.cells[1], "crates/*/src/", ""
        elif row.head[0] == "Definition":
            cell, below, end = row.cells[0], "crates/*/specs/**/", ".antt"
        else:
            continue
        for names, files in grouped(cell):
            paths = [path for file in files if end or file.endswith(".rt") for path in tree.found(below + file + end)]
            for name in names if paths or end else ():
                if not any(name in tree.declared(path) for path in paths):
                    yield row.number, f"`{name}` is not declared in {', '.join(files)}"


def wrong_calls(tree: Tree, text: str, head: str, column: int) -> Iterator[Wrong]:
    """A table of calls: each is public, its definition is there, and no public call is missing."""
    seen: set[str] = set()
    for row in rows(text):
        if row.head[0] != head:
            continue
        owner = ""
        for said in re.findall(r"`([^`]+)`", row.cells[0]):
            name = re.sub(r"\(.*", "", said)
            owner = name.split("::")[0] if name[0].isupper() else owner
            name = name if name in tree.calls else f"{owner}::{name}" if owner else name.split("::")[-1]
            seen.add(name)
            if name not in tree.calls:
                yield row.number, f"`{said}` is no public call"
        for name in re.findall(r"`([^`]+)`", row.cells[column]):
            if name not in tree.declared_anywhere:
                yield row.number, f"`{name}` is declared nowhere"
    for name in sorted(tree.calls - seen):
        yield 0, f"the public call {name} has no row in the table of calls"


# ---- edits


@dataclass
class Said:
    """An edit as a page names it, `..` standing for anything, and its mark M or W, if it has one."""

    pattern: str
    mark: str


def said_edits(cell: str) -> list[Said]:
    """
    Of a cell of READING's table. A mark holds for the names since the last one; `(W, named demand3_..):` also says how the names behind it
    begin.
    """
    said: list[Said] = []
    since, prefix, mark_ahead = 0, "", ""
    plain = re.sub(r"`[^`]*`", "", cell)
    for token in re.finditer(rf"\((?P<mark>[MW])(?:, named (?P<named>[^)]*))?\)(?P<colon>:)?|(?P<edit>{EDIT.pattern})|(?P<dot>\. )", plain):
        if token["mark"] and token["colon"]:
            prefix, mark_ahead, since = token["named"].removesuffix(".."), token["mark"], len(said)
        elif token["mark"]:
            said += [Said(name, "") for name in EDIT.findall(token["named"] or "")]
            for one in said[since:]:
                one.mark = token["mark"]
            since = len(said)
        elif token["dot"]:
            prefix = mark_ahead = ""
        else:
            said.append(Said(prefix + token["edit"], mark_ahead))
            since = len(said) if mark_ahead else since
    return said


def matching(tree: Tree, pattern: str) -> list[str]:
    """The edits that a name or a pattern means, in the order of their names."""
    shape = re.compile(".+".join(re.escape(part) for part in pattern.split("..")))
    return sorted(name for name in tree.edits if shape.fullmatch(name))


def edits_of_rows(text: str) -> Iterator[tuple[Row, list[Said]]]:
    for row in rows(text):
        if row.head[0] == "Call" and row.head[-1] == "Two wrong programs":
            yield row, said_edits(row.cells[2])


def wrong_edits_read(tree: Tree, text: str) -> Iterator[Wrong]:
    for row, said in edits_of_rows(text):
        for one in said:
            found = matching(tree, one.pattern)
            if not found:
                yield row.number, f"there is no edit {one.pattern}"
            for name in found if one.mark and ".." not in one.pattern else ():
                if tree.edits[name].must_fail != (one.mark == "M"):
                    yield row.number, f"{name} is marked {one.mark}, and stands in the other folder"


def wrong_edits_named(tree: Tree, text: str) -> Iterator[Wrong]:
    """NAME.edit anywhere in a page. One with a folder is looked for as a path."""
    for number, line in enumerate(text.split("\n"), 1):
        for name in re.findall(r"(?<![\w/])([a-z0-9_*]+)\.edit\b", line):
            if not matching(tree, name.replace("*", "..")):
                yield number, f"there is no edit {name}"


def wrong_rooms(tree: Tree) -> Iterator[Wrong]:
    for edit, room in tree.edits_out_of_room():
        yield 0, f"{edit.name} doesn't stand in {room}, where tests/wrong_programs/rooms moves it"
    for name in tree.edits_named_twice():
        yield 0, f"two edits are named {name}"


def unnamed_edits(tree: Tree, *texts: str) -> list[str]:
    """The edits that none of the pages names."""
    names: set[str] = set()
    for text in texts:
        for pattern in re.findall(r"([a-z0-9_*]+)\.edit\b", text):
            names.update(matching(tree, pattern.replace("*", "..")))
        for _, said in edits_of_rows(text):
            for one in said:
                names.update(matching(tree, one.pattern))
    return sorted(set(tree.edits) - names)
