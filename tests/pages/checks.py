"""All checks of tests/pages/run. Each gives (page, line, what is wrong)."""
import hashlib
import os
import re
import shutil
import subprocess
import sys
import tempfile
from collections.abc import Iterator
from functools import cache
from pathlib import Path

import markdown

TOP = Path(__file__).resolve().parents[2]
sys.path.insert(0, str(TOP / "tests" / "names"))
from pages import wrong_paths  # noqa: E402
from tree import Tree  # noqa: E402

Wrong = tuple[str, int, str]
MOST_IN_A_ROW = 400
SECONDS = 120
# The pages of what was: their paths and names may be gone.
OF_THE_PAST = ("docs/CHANGES.md", "docs/PORT.md", "docs/DESIGN-PASS.md")
# The page with blocks by indent that are no commands.
INDENTED = ("CONTRIBUTING.md",)
# Names of the Rust that nothing here has.
OF_THE_RUST = ("truncate_array", "PhantomData")
# The folders that commands write into; the others are only read.
COPIED = ("c", "dist", "docs")
BUILT = ("bin", "staticlib")
EXAMPLE = "docs/TICKET.md"
LAYERS = "docs/ARCHITECTURE.md"


def all_pages(top: Path) -> list[str]:
    forms = ("*.md", "docs/*.md", "harness/*.md", "crates/*/*.md")
    return sorted(file.relative_to(top).as_posix() for form in forms for file in top.glob(form))


# ---- links, paths, names


def wrong_links(top: Path, page: str, text: str) -> Iterator[Wrong]:
    for line, link in markdown.links(text):
        if re.match(r"https?:", link):
            continue
        path, _, anchor = link.partition("#")
        file = (top / page).parent / path if path else top / page
        if not file.exists():
            yield page, line, f"the link {link} leads nowhere"
        elif anchor and anchor not in markdown.anchors(file.read_text(encoding="utf-8")):
            yield page, line, f"{path or page} has no heading #{anchor}"


def wrong_page_paths(tree: Tree, page: str, text: str) -> Iterator[Wrong]:
    """Paths in the text: from the top, below a crate, below harness/, or from the page's own folder. FILE in a path stands for anything."""
    for line, what in wrong_paths(tree, text, ("Which text is meant",)):
        path = re.sub(r"\b[A-Z]{2,}\b", "*", what.removeprefix("there is no ").rstrip("/"))
        folders = (tree.top, (tree.top / page).parent, tree.top / "harness", *(tree.top / "crates").iterdir())
        if not any(list(folder.glob(path)) for folder in folders):
            yield page, line, what


@cache
def words(top: Path) -> frozenset[str]:
    """Every word that stands in the tree, pages apart, and the names of its files."""
    found: set[str] = set()
    made = set((top / "crates").glob("*/out"))
    for folder in (*(top / "crates").glob("*/*"), *(top / name for name in ("harness", "c", "dist", "tools", "translate", "tests", ".ci"))):
        for file in () if folder in made else (folder, *folder.rglob("*")):
            if file.is_file() and file.suffix not in (".md", ".svg") and "pages" not in file.parts[-2:-1]:
                found |= {file.name, file.stem, *re.findall(r"\w+", file.read_text(encoding="utf-8", errors="replace"))}
    return frozenset(found)


def wrong_names(tree: Tree, page: str, text: str) -> Iterator[Wrong]:
    for line, name in markdown.theorems(text):
        if name not in tree.theorems:
            yield page, line, f"`{name}` is no theorem"
    if page not in OF_THE_PAST:
        for line, name in markdown.named(text):
            if name not in words(tree.top) and name not in OF_THE_RUST:
                yield page, line, f"`{name}` stands nowhere in the tree"


# ---- how a page is written


def wrong_form(page: str, text: str) -> Iterator[Wrong]:
    for block in markdown.blocks(text):
        if not block.language:
            yield page, block.line, "a block without a language: sh for commands, text for what they print"
        elif block.language == "sh" and not block.mark:
            yield page, block.line, "commands without a mark: <!-- run --> or <!-- not run: REASON --> on the line above"
        elif block.language != "sh" and block.mark:
            yield page, block.line, "a mark above what is no commands"
    if page not in INDENTED:
        for line in markdown.indented_blocks(text):
            yield page, line, "a block by indent alone: fence it, so that it is known whether it is a command"
    for line, length in markdown.long_rows(text, MOST_IN_A_ROW):
        yield page, line, f"a row of {length} characters: over {MOST_IN_A_ROW} become a list"


def wrong_pictures(top: Path) -> Iterator[Wrong]:
    drawer = top / "docs/pictures/draw.py"
    if not drawer.exists():
        return
    done = subprocess.run([sys.executable, "-B", str(drawer), "--check"], capture_output=True, text=True, check=False)
    if done.returncode:
        yield "docs/pictures", 0, (done.stdout + done.stderr).strip()


def wrong_folders(top: Path, page: str, text: str) -> Iterator[Wrong]:
    """Each folder at the top, crates/ apart, and each crate has a row, by its path in the first cell."""
    folders = [folder for folder in top.iterdir() if folder.is_dir() and folder.name not in ("crates", "target") and folder.name[0] != "."]
    for folder in sorted([*folders, *(top / "crates").iterdir()]):
        path = folder.relative_to(top).as_posix()
        if f"\n| {path} |" not in text:
            yield page, 0, f"the table of folders has no row for {path}"


# ---- the ticket's worked example


def bytes_of_table(text: str) -> tuple[bytes, str]:
    """The bytes that the rows of the table At, Bytes, What make, and what is wrong with their places."""
    made = b""
    for at, said in re.findall(r"(?m)^\| (\d+) \| ([0-9a-f]{2}(?: [0-9a-f]{2})*(?: × \d+)?) \|", text):
        if int(at) != len(made):
            return made, f"the row at {at} stands behind {len(made)} bytes"
        digits, _, times = said.partition(" × ")
        made += bytes.fromhex(digits) * int(times or 1)
    return made, ""


def bytes_of_dump(text: str) -> bytes:
    """The bytes that a dump by `od -A d -t x1` shows; `*` repeats the line above it."""
    made = b""
    for at, said in re.findall(r"(?m)^(\d{7})((?: [0-9a-f]{2})*)$", text):
        made += made[-16:] * ((int(at) - len(made)) // 16) if made else b""
        made += bytes.fromhex(said)
    return made


def wrong_example(page: str, text: str) -> Iterator[Wrong]:
    """The table and the dump are the same block, and its check is the body's."""
    table, fault = bytes_of_table(text)
    if fault:
        yield page, 0, fault
    elif len(table) != 512:
        yield page, 0, f"the table of bytes has {len(table)}, not a block's 512"
    elif table != bytes_of_dump(text):
        yield page, 0, "the table of bytes and the dump aren't the same"
    elif table[504:] != hashlib.sha256(table[:504]).digest()[:8]:
        yield page, 0, "the check isn't that of the body"


# ---- commands


def make_room(top: Path, room: Path) -> None:
    """The tree as commands see it: what they write lands in the room, and what was built is there."""
    for entry in top.iterdir():
        if entry.name in COPIED:
            shutil.copytree(entry, room / entry.name)
        elif entry.name not in (".git", "target"):
            (room / entry.name).symlink_to(entry)
    (room / "target").mkdir()
    for name in BUILT:
        if (top / "target" / name).exists():
            (room / "target" / name).symlink_to(top / "target" / name)


def printed(script: str, room: Path) -> str:
    """What commands print, errors too. Their status isn't looked at: a dark loader's is 1."""
    settings = {**os.environ, "LC_ALL": "C.UTF-8"}
    try:
        done = subprocess.run(["bash", "-c", script], cwd=room, env=settings, timeout=SECONDS, check=False,
                              stdin=subprocess.DEVNULL, stdout=subprocess.PIPE, stderr=subprocess.STDOUT)
    except subprocess.TimeoutExpired:
        return f"no end within {SECONDS} seconds\n"
    return done.stdout.decode("utf-8", errors="replace")


def first_difference(due: str, came: str) -> str:
    for wanted, got in zip([*due.split("\n"), "(the end)"], [*came.split("\n"), "(the end)"]):
        if wanted != got:
            return f"due is '{wanted}', and it printed '{got}'"
    return "it printed something else"


def wrong_commands(top: Path, page: str, text: str) -> Iterator[Wrong]:
    """The commands of a page are run in one room, one block after the other."""
    asked = markdown.commands(text)
    if not asked:
        return
    with tempfile.TemporaryDirectory() as folder:
        make_room(top, Path(folder))
        for command in asked:
            came = printed(command.script, Path(folder))
            if came != command.output:
                yield page, command.line, f"the commands here: {first_difference(command.output, came)}"


# ---- all of it


def in_words(top: Path = TOP) -> tuple[list[Wrong], str]:
    tree, found, count = Tree(top), [], 0
    for page in all_pages(top):
        text = tree.text(page)
        count += sum(1 for _ in markdown.links(text))
        found += [*wrong_links(top, page, text), *wrong_names(tree, page, text), *wrong_form(page, text)]
        if page not in OF_THE_PAST:
            found += wrong_page_paths(tree, page, text)
        if page == EXAMPLE:
            found += wrong_example(page, text)
        if page == LAYERS:
            found += wrong_folders(top, page, text)
    found += wrong_pictures(top)
    return found, f"{len(all_pages(top))} pages, {count} links"


def in_runs(top: Path = TOP) -> tuple[list[Wrong], str]:
    found, run, left = [], 0, 0
    for page in all_pages(top):
        text = (top / page).read_text(encoding="utf-8")
        run += len(markdown.commands(text))
        left += sum(block.mark.startswith("not run") for block in markdown.blocks(text))
        found += wrong_commands(top, page, text)
    return found, f"{run} blocks of commands run, {left} marked as not run"


def main(arguments: list[str]) -> int:
    parts = {"words": in_words, "commands": in_runs}
    if not set(arguments) <= set(parts):
        print("usage: tests/pages/run [words] [commands]", file=sys.stderr)
        return 2
    wrong = 0
    for name in arguments or parts:
        found, count = parts[name]()
        for page, line, what in found:
            print(f"{page}:{line}: {what}" if line else f"{page}: {what}")
        print(f"pages, {name}: {count}; wrong: {len(found)}")
        wrong += len(found)
    return 1 if wrong else 0
